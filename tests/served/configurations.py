"""Files of configuration: which options they give, what wins, and what is reported of those that are refused. docs/OPERATING.md has them,
"A file of options"."""
import os
import random
import typing

from compare import holds, same
from play import Row, Tried
from program import run
from server import SERVING, Server, refused


def file_of(tried: Tried, text: str | bytes, name: str = "vtl.toml") -> str:
    """The path of a file with this text."""
    path = tried.path(name)
    with open(path, "wb") as file:
        file.write(text.encode() if isinstance(text, str) else text)
    return path


def checked(tried: Tried, *words: str) -> tuple[int, str, str]:
    """How a look at what would be served ends, what it prints and what it reports."""
    return run([tried.program, "serve", "--check", *words])


# Every option but those that exclude others, which are off.
WHOLE = """
drives = 2
slots = 4
portals = 1
volumes = 3
volume-size = "1M"
profile = "hosts"
library-id = "1a2b3c4d"
new-library = true
memory = "64M"
volumes-larger-than-memory = true
metrics = "127.0.0.1:9100"
metrics-open = false
workers = 5
iscsi = ["127.0.0.1:3260", "[::1]:3261=tapes.example:3260"]
target-name = "iqn.2026-11.example:tapes"
any-host = true
multipath = true
chap-digests = "sha256"
no-authentication = false
spans = false
drain = true
keep-records = false
grace = 1
login-timeout = 2
idle-timeout = 0
write-timeout = 4
idle-ping = 5
log = true
"""
HOSTS = """
[hosts]
"iqn.2026-11.example:b" = "500000000000000b"
"iqn.2026-11.example:a" = "500000000000000A"
"""
WOULD_SERVE = """\
would serve at {socket} and 127.0.0.1:3260 and [::1]:3261: 3 units, 5 workers at each
metrics: at 127.0.0.1:9100
profile: hosts, library number 1A2B3C4D
elements: drives 2, storage 4, import/export 1
volumes: 3, for 1048576 bytes of blocks each
memory: 67108864 bytes at most for all volumes
volume VOL00001: storage element 0, blank
volume VOL00002: storage element 1, blank
volume VOL00003: storage element 2, blank
portal 1: 127.0.0.1:3260
portal 2: [::1]:3261, sent as tapes.example:3260
target: iqn.2026-11.example:tapes
host iqn.2026-11.example:a: 500000000000000a
host iqn.2026-11.example:b: 500000000000000b
other hosts: 124 at most
sessions of a name: from any address
authentication: CHAP with sha256
records: while it serves
grace: 1 seconds
login-timeout: 2 seconds
idle-timeout: never
write-timeout: 4 seconds
idle-ping: 5 seconds
"""


def every_option(tried: Tried) -> None:
    secrets = file_of(tried, "iqn.2026-11.example:a user a-secret-of-16-b\n", "secrets")
    os.chmod(secrets, 0o600)
    paths = f'media = "{tried.path("media")}"\nsocket = "{tried.path("socket")}"\nchap = "{secrets}"\n'
    path = file_of(tried, WHOLE + paths + HOSTS)
    wanted = WOULD_SERVE.format(socket=tried.path("socket"))
    same("what would be served", checked(tried, "--config", path), (0, wanted, ""))


def served(tried: Tried) -> None:
    path = file_of(tried, f'socket = "{tried.path("socket")}"\ndrives = 2\nsessions = 1\nspans = true\n')
    with Server(tried, "--config", path, has_socket=False) as server:
        holds("what is reported", server.reported.text, f"{SERVING}{tried.path('socket')}: 3 units, 1 worker\n")
        server.connect().close()
        server.ends()


def line_wins(tried: Tried) -> None:
    text = f'socket = "{tried.path("other")}"\ndrives = 2\nslots = 3\nworkers = 5\ngrace = 7\n'
    text += f'iscsi = ["127.0.0.1:1", "127.0.0.1:2"]\n{HOSTS}'
    words = ["--config", file_of(tried, text), "--socket", tried.path("socket"), "--drives", "4", "--grace", "0"]
    status, printed, reported = checked(tried, *words, "--iscsi", "127.0.0.1:3", "--host", "iqn.2026-11.a:c=000000000000000c")
    same("the status and what is reported", (status, reported), (0, ""))
    holds("what would be served", printed, f"would serve at {tried.path('socket')} and 127.0.0.1:3: 5 units, 5 workers at each\n")
    holds("what would be served", printed, "elements: drives 4, storage 3, import/export 0\n")
    holds("what would be served", printed, "host iqn.2026-11.a:c: 000000000000000c\nsessions")
    holds("what would be served", printed, "grace: 0 seconds\n")
    same("how many hosts are let in by name", printed.count("\nhost "), 1)


def line_adds(tried: Tried) -> None:
    """An option of the command line means something by one of the file, and the other way round."""
    path = file_of(tried, 'iscsi = ["127.0.0.1:1"]\n')
    same("the status", checked(tried, "--config", path, "--any-host")[0], 0)
    path = file_of(tried, "any-host = true\n")
    same("the status", checked(tried, "--config", path, "--iscsi", "127.0.0.1:1")[0], 0)


# What a file has of the profile, what the command line has, and what would be served. A number that neither has is that of the usual name.
PROFILES = [
    ("", [], "spec"),
    ('profile = "hosts"\n', [], "hosts, library number C32FF006"),
    ('profile = "hosts"\n', ["--profile", "spec"], "spec"),
    ('profile = "hosts"\n', ["--library-id", "1a2b3c4d"], "hosts, library number 1A2B3C4D"),
    ('profile = "spec"\nlibrary-id = "1a2b3c4d"\n', ["--profile", "hosts"], "hosts, library number 1A2B3C4D"),
    ('profile = "hosts"\nlibrary-id = "1a2b3c4d"\n', ["--library-id", "00000007"], "hosts, library number 00000007"),
]


def parts_win(tried: Tried) -> None:
    for text, words, wanted in PROFILES:
        status, printed, reported = checked(tried, "--config", file_of(tried, text), "--socket", tried.path("socket"), *words)
        same("the status and what is reported", (status, reported), (0, ""))
        holds(f"what would be served by {text!r} and {words}", printed, f"\nprofile: {wanted}\n")


class Wrong(typing.NamedTuple):
    """What it shows, a file's text, and what is reported after its path."""

    shows: str
    text: str | bytes
    words: str


NUMBER = "give a whole number from"
WRONG = {
    "no-value": Wrong("a key without a value is refused with its line", "drives = 1\n\nslots\n", ", line 3: key with no value"),
    "open-text": Wrong("a text without its end is refused with its line", 'log = true\nmedia = "/m\n', ", line 2: invalid string"),
    "key-twice": Wrong("a key that is there twice is refused with its line", "log = true\nlog = true\n", ", line 2: duplicate key"),
    "no-utf8": Wrong("bytes that are no text are refused with their line", b"# \xff\n", ", line 1: invalid UTF-8"),
    "unknown": Wrong("a key that is no option's is refused, with its line", "drives = 1\n# two\ndrivers = 1\n",
                     ", line 3: no option is named drivers\n"),
    "option-of-another-task": Wrong("nor is one of another task taken", "explain = true\n", ", line 1: no option is named explain\n"),
    "config": Wrong("a file names no other file", 'config = "more.toml"\n', ", line 1: no option is named config\n"),
    "check": Wrong("a file doesn't say that it is only looked at", "check = true\n", ", line 1: no option is named check\n"),
    "unknown-table": Wrong("a table that is no option's is refused, with its line", "log = true\n\n[host.a]\nsas = 1\n",
                           ", line 3: no option is named host\n"),
    "drives": Wrong(
        "a number that is too large is refused with its key", "log = true\ndrives = 5\n", f", line 2: drives: {NUMBER} 1 to 4\n"),
    "slots": Wrong("a number in quotes is refused with its key", 'slots = "8"\n', f", line 1: slots: {NUMBER} 1 to 1024\n"),
    "sessions": Wrong("no sessions are refused with the key", "sessions = 0\n", f", line 1: sessions: {NUMBER} 1 to 64\n"),
    "grace": Wrong("a number below zero is refused with its key", "grace = -1\n", f", line 1: grace: {NUMBER} 0 to 3600\n"),
    "idle-ping": Wrong("a fraction is refused with its key", "idle-ping = 1.5\n", f", line 1: idle-ping: {NUMBER} 0 to 86400\n"),
    "log": Wrong("a switch that is neither on nor off is refused with its key", 'log = "yes"\n', ", line 1: log: give true or false\n"),
    "media": Wrong("a path that is no text is refused with its key", "media = ['/m']\n", ", line 1: media: give a text in quotes\n"),
    "iscsi": Wrong(
        "portals that are no array are refused with their key", 'iscsi = "127.0.0.1:1"\n', ", line 1: iscsi: give an array of texts"),
    "no-portal": Wrong("an empty array of portals is refused with its key", "iscsi = []\n", ", line 1: iscsi: give an array of texts"),
    "bad-portal": Wrong(
        "a portal is judged as on the command line, with its key", 'iscsi = [\n"127.0.0.1:1",\n"localhost:3260"]\n',
        ", line 1: iscsi: not an IP address with a port: give one such as 127.0.0.1:3260 or [::1]:3260: localhost:3260\n"),
    "hosts": Wrong("hosts that are no table are refused with their key", 'hosts = ["iqn.2026-11.a:b=500000000000000a"]\n',
                   ', line 1: hosts: give a table with a line "NAME" = "SAS" for each host\n'),
    "bad-sas": Wrong(
        "a host is judged as on the command line, with the key", 'log = true\n[hosts]\n"iqn.2026-11.a:b" = "5"\n',
        ", line 2: hosts: not a SAS address after the name of a host: give its 16 hexadecimal digits: iqn.2026-11.a:b=5\n"),
    "upper-case": Wrong(
        "a host's name is in lower case, as on the command line", '[hosts]\n"iqn.A:B" = "500000000000000b"\n',
        ", line 1: hosts: not an iSCSI name: give one in lower case, such as iqn.2026-11.example:a: iqn.A:B=500000000000000b\n"),
    "memory": Wrong(
        "a size is judged as on the command line, with its key", 'memory = "4GB"\n',
        ", line 1: memory: not a memory size: give a number of bytes from 1M to 65536G, such as 4G: 4GB\n"),
    "volume-size": Wrong("a size without quotes is refused with its key", "volume-size = 16777216\n", ", line 1: volume-size: give a text"),
    "target-name": Wrong("a name is judged as on the command line, with its key", 'target-name = "vtl"\n',
                         ", line 1: target-name: not an iSCSI name"),
    "chap-digests": Wrong("digests are judged as on the command line, with their key", 'chap-digests = "md5"\n',
                          ", line 1: chap-digests: not a list of CHAP digests: give sha256 or sha256,md5: md5\n"),
    "profile": Wrong("a profile is judged as on the command line, with its key", 'profile = "lto"\n',
                     ", line 1: profile: not a profile: give spec or hosts: lto\n"),
    "library-id": Wrong(
        "the number of a library is judged as on the command line, with its key", 'log = true\nlibrary-id = "1A2B3C4"\n',
        ", line 2: library-id: not the number of a library: give its 8 hexadecimal digits, such as 1A2B3C4D: 1A2B3C4\n"),
    "bare-library-id": Wrong("the number of a library without quotes is refused with its key", "library-id = 12345678\n",
                             ", line 1: library-id: give a text in quotes\n"),
    "deep-array": Wrong("an array in 100,000 others is refused", f"media = {'[' * 100_000}", ", line 1: cannot recurse further"),
    "deep-table": Wrong("a table in 100,000 others is refused", "media = " + "{a=" * 100_000, ", line 1: cannot recurse further"),
    "deep-key": Wrong("a key of 100,000 parts is refused", f"{'a.' * 100_000}a = 1", ", line 1: cannot recurse further"),
    "too-long": Wrong("more than 1 MiB is refused", "#" * 1_048_577, ": a configuration has at most 1 MiB\n"),
}


def wrong(of: Wrong) -> typing.Callable[[Tried], None]:
    def play(tried: Tried) -> None:
        path = file_of(tried, of.text)
        for words in [[], ["--check"]]:
            status, reported = refused(tried, "--config", path, "--socket", tried.path("socket"), *words)
            same(f"the status after {reported!r}", status, 2)
            holds("what is reported", reported, f"vtl: {path}{of.words}")

    return play


# Options of the command line and of a file that don't go together, and what is reported.
APART = {
    "sessions-and-iscsi": ('iscsi = ["127.0.0.1:1"]\nany-host = true\n', ["--sessions", "1"], "--sessions cannot be used with --iscsi"),
    "spans-and-drain": ("spans = true\n", ["--socket", "s", "--drain"], "--drain cannot be used with --spans"),
    "chap-and-none": ('iscsi = ["127.0.0.1:1"]\nchap = "f"\n', ["--no-authentication"], "--no-authentication cannot be used with --chap"),
    "host-without-portal": (HOSTS, ["--socket", "s"], "--host needs --iscsi"),
    "new-library-alone": ("new-library = true\n", ["--socket", "s"], "--new-library needs --media"),
    "number-alone": (
        'library-id = "1A2B3C4D"\n', ["--socket", "s"], "--library-id needs --profile hosts: no other library has a number"),
    "number-of-spec": (
        'profile = "spec"\n', ["--socket", "s", "--library-id", "1A2B3C4D"],
        "--library-id needs --profile hosts: no other library has a number"),
    "open-metrics": (
        'metrics = "0.0.0.0:9100"\ndrain = true\n', ["--socket", "s"],
        "other machines can reach this address: give --metrics-open if all of them may read what is counted: 0.0.0.0:9100"),
    "metrics-without-records": (
        'metrics = "127.0.0.1:9100"\n', ["--socket", "s"],
        "--metrics needs --records or --drain: records are counted as they are written"),
    "nowhere": ("drives = 2\n", [], "nowhere to serve: give --socket <PATH> or --iscsi <ADDRESS:PORT>"),
    "open-portal": (
        'iscsi = ["0.0.0.0:1=tapes.example:1"]\nany-host = true\n', [],
        "other machines can reach this address: give --chap <FILE>, or --no-authentication if all of them may log in: "
        "0.0.0.0:1=tapes.example:1"),
    "more-volumes": ("slots = 2\n", ["--socket", "s", "--volumes", "3"], "more volumes than slots"),
}


def apart(text: str, words: list[str], told: str) -> typing.Callable[[Tried], None]:
    def play(tried: Tried) -> None:
        path = file_of(tried, text)
        same("the status and what is reported", refused(tried, "--config", path, *words), (2, f"vtl: {told}\n"))

    return play


def garbage(tried: Tried) -> None:
    """Files of random bytes and of broken beginnings, the first of 1 MiB: each is refused by a line, and nothing else happens."""
    chance = random.Random(20261130)
    socket = tried.path("socket")
    for nth in range(60):
        size = 1_048_573 if nth == 0 else chance.randrange(1, 2_000)
        # Bytes of all kinds, letters of TOML, and parts of a file that is right; each ends with what no line of TOML is.
        kinds = [bytes(range(256)), b'[]{}=.,"\'\\#\n\r\t 019-+eE_:abx']
        data = bytes(chance.choices(kinds[nth % 2], k=size)) if nth % 3 or not nth else WHOLE.encode()[:nth * 7]
        data += b"\n=\n"
        status, reported = refused(tried, "--config", file_of(tried, data), "--socket", socket)
        same(f"the status of the file {nth} after {reported!r}", status, 2)
        holds("what is reported", reported, f"vtl: {tried.path('vtl.toml')}, line ")
        same("whether a socket is made", os.path.exists(socket), False)


def no_file(tried: Tried) -> None:
    for path in [tried.path("nothing"), tried.folder]:
        wanted = (4, f"vtl: device fault\nvtl: cannot read {path}\n")
        same("the status and what is reported", refused(tried, "--config", path, "--socket", tried.path("socket")), wanted)


def zero_byte(tried: Tried) -> None:
    """A path with a byte that no path has is refused, and nothing is made under the beginning of it."""
    path = file_of(tried, f'socket = "{tried.path("socket")}\\u0000more"\n')
    status, reported = refused(tried, "--config", path)
    same(f"the status after {reported!r}", status, 4)
    same("what is in the folder", sorted(os.listdir(tried.folder)), ["vtl.toml"])


ROWS = [
    Row("every-option", "a file gives every option by its name, and hosts as a table", every_option),
    Row("served-by-a-file", "a library is served by the options of a file", served),
    Row("line-wins", "an option of the command line wins over the same one of the file", line_wins),
    Row("parts-win", "a profile and a number may be of two sources, and of each the command line wins", parts_win),
    Row("line-adds", "options of the command line and of a file mean something together", line_adds),
    *(Row(f"file-{name}", of.shows, wrong(of)) for name, of in WRONG.items()),
    *(Row(f"apart-{name}", f"the rules hold over both sources: {told}", apart(text, words, told))
      for name, (text, words, told) in APART.items()),
    Row("garbage", "files of garbage are refused by a line", garbage),
    Row("no-file", "a file that isn't there, or is a folder, can't be read", no_file),
    Row("zero-byte", "a path with a zero byte is refused", zero_byte),
]
