"""Command lines of `vtl serve`: that the program serves what a line asks for, where, as long and to whom it says.

docs/OPERATING.md has the options and what they are where nothing is said. A time is seen where it is reported to an initiator, or is over;
those of one second are among the rows of hosts that do nothing.
"""
import hashlib
import pathlib
import socket
import time
import typing

import pdus
import scsi
from challenges import MD5, SHA256, challenge_in, hexadecimal
from compare import Wrong, holds, lacks, same, same_lines
from exchanges import DRIVE_READY, LOGIN_OF_A, READY, REGISTER, RESERVE, TO_DRIVE, IsLeft, Says, ready, says, talk
from frames import ACCEPTED, BUSY, LOGGED_OUT, LOGOUT, check, command, good, power_on
from host import Host
from initiator import ASKED_TO_LEAVE, CHECKED, ISID, PROVED, Initiator, names_of
from pdus import LOGGED_IN, SECURITY, SKIPS, text_of
from play import Row, Tried
from scsi import CHANGER, DRIVE, LONGEST_BLOCK
from server import Server, refused, secret_words

LAST_DRIVE_READY = ready(DRIVE + 1)
PAGE = "1a001d00ff00"
LONGEST_WRITE = command(DRIVE, scsi.write(LONGEST_BLOCK), bytes(LONGEST_BLOCK))


def is_made_of(server: Server, drives: int, slots: int, portals: int, volumes: int) -> None:
    """What the changer says of its elements (SMC-3, "Element address assignment mode page"), and which of its storage elements are full."""
    page = bytes.fromhex(f"170000001d12000000010400{slots:04x}0200{portals:04x}0100{drives:04x}0000")
    with Host(server) as host:
        host.meets(CHANGER)
        host.asks(CHANGER, PAGE, (0x00, b"", page))
        data = host.command(CHANGER, f"b8020400{slots:04x}0000ffff0000").data
    # After a header of 8 bytes stands one page of storage elements, with a header of 8 bytes too and a descriptor for each.
    size = int.from_bytes(data[10:12], "big")
    same("full storage elements", [data[at + 2] & 1 for at in range(16, len(data), size)], [1] * volumes + [0] * (slots - volumes))


def is_told(server: Server, words: str) -> None:
    same("where it serves", server.reported.text.splitlines()[0], f"vtl: serving at {words}")


# A session at the last of two drives, and its lines.
AT_THE_LAST = [Says(0, LOGIN_OF_A, ACCEPTED), Says(0, LAST_DRIVE_READY, power_on(1)), Says(0, LOGOUT, LOGGED_OUT), IsLeft(0)]
LINES = """\
1 500000000000000a.1 TEST-UNIT-READY 2 - - 02
2 500000000000000a.1 LOSS 6 - - 00
"""
SPANS = "".join(f"{line} -\n" for line in LINES.splitlines())
BEGINS = "vtl: session 1 begins\n"


class Serves(typing.NamedTuple):
    """What it shows, a line, how many workers are reported, how many sessions end it, where its input doesn't, its lines, whether they come
    while it serves, and whether it reports sessions."""

    shows: str
    words: str
    workers: str
    sessions: int | None
    lines: str
    drains: bool
    logs: bool


SERVES = {
    "line-sessions": Serves("64 sessions, and lines with spans", "--drives 2 --sessions 64 --spans", "64 workers", 64, SPANS, False, False),
    "line-three-sessions": Serves("three sessions have three workers", "--drives 2 --sessions=3", "3 workers", 3, LINES, False, False),
    "line-drives": Serves("64 workers until input ends", "--drives 2", "64 workers", None, LINES, False, False),
    "line-drain": Serves("three workers, and lines that come", "--workers 3 --drain --drives 2", "3 workers", None, LINES, True, False),
    "line-log": Serves("sessions are told, and lines have spans", "--log --spans --drives 2", "64 workers", None, SPANS, False, True),
    "line-workers": Serves("five workers until input ends", "--workers=5 --drives 2", "5 workers", None, LINES, False, False),
}


def serves(of: Serves) -> typing.Callable[[Tried], None]:
    def play(tried: Tried) -> None:
        with Server(tried, *of.words.split(), is_patient=False) as server:
            is_told(server, f"{server.path}: 3 units, {of.workers}")
            talk(server, 1, AT_THE_LAST)
            if of.drains:
                server.await_lines(lambda lines: lines == of.lines)
            # More sessions than there are workers, where no number of them is said.
            for _ in range((of.sessions or 70) - 1):
                server.connect().close()
            if of.sessions is None:
                same("the lines before the end", server.lines(), of.lines if of.drains else "")
                same("whether it has ended", server.process.poll(), None)
                server.end()
            server.ends()
            same_lines(server.lines(), of.lines)
            (holds if of.logs else lacks)("what is reported", server.reported.text, BEGINS)

    return play


# The records of a nexus that registers and reserves, which stands at the end of a line where spans are asked for.
def spans(tried: Tried) -> None:
    with Server(tried, "--sessions", "1", "--spans") as server:
        talk(server, 1, [
            Says(0, LOGIN_OF_A, ACCEPTED), Says(0, DRIVE_READY, power_on(1)), Says(0, REGISTER, good(2)), Says(0, RESERVE, good(3)),
            Says(0, DRIVE_READY, check(4, 2, 0x3A, 0)), Says(0, LOGOUT, LOGGED_OUT), IsLeft(0)])
        server.ends()
        words = [line.split()[-1] for line in server.lines().splitlines()]
        same("how many lines begin without a reservation", [word == "-" for word in words], [True, True, True, False, False])


class Times(typing.NamedTuple):
    """What it shows, the times of a line, and the seconds that an initiator has to leave within, as the program reports."""

    shows: str
    times: dict[str, int]
    grace: int


LONGEST = {"login_timeout": 86_400, "idle_timeout": 86_400, "write_timeout": 86_400, "idle_ping": 86_400}
TIMES = {
    "line-grace": Times("the grace is ten seconds where none is given", {}, 10),
    "line-grace-five": Times("a grace of five seconds", {"grace": 5}, 5),
    "line-longest-times": Times("the longest times", {"grace": 3600, **LONGEST}, 3600),
}


def times(of: Times) -> typing.Callable[[Tried], None]:
    def play(tried: Tried) -> None:
        words = ["--iscsi", "127.0.0.1:0", "--any-host"]
        with Server(tried, *words, has_socket=False, is_patient=False, **of.times) as server, Initiator(server.portal(), "b") as b:
            b.log_in()
            server.end()
            answer = b.reads(ASKED_TO_LEAVE)
            same("the seconds that there are", int.from_bytes(answer.head[42:44], "big"), of.grace)
            b.log_out()
            b.is_left()
            server.ends()

    return play


def usual_login(tried: Tried) -> None:
    """Nothing else ends it, since all other times are those of a host that has logged in."""
    with Server(tried, "--sessions", "1", is_patient=False) as server:
        silent = server.connect()
        same("what comes", silent.recv(1), b"")
        server.ends("session 1 before its LOGIN: nothing came in time")


def grace_of_one(tried: Tried) -> None:
    """An initiator may not be asked in so short a time, but a session goes on as long."""
    with Server(tried, is_patient=False, grace=1) as server:
        host = server.connect()
        says(host, Says(0, LOGIN_OF_A, ACCEPTED))
        begun = time.monotonic()
        server.end()
        same("what comes", host.recv(1), b"")
        taken = time.monotonic() - begun
        if taken < 1:
            raise Wrong("the seconds to the end", taken, "1 at least")
        server.ends()


class Memory(typing.NamedTuple):
    """What it shows, a line, how many writes of 65,536 bytes to a new volume are tried, and how many are answered before one is BUSY."""

    shows: str
    words: str
    tries: int
    writes: int


# A volume of 16 MiB may be larger than memory.
LARGER_THAN_MEMORY = "--volumes-larger-than-memory"
# Room for blocks is taken by 8 MiB, 128 such writes, or by the size of a volume that takes fewer; and the list of blocks takes some more.
MEMORY = {
    "line-no-memory": Memory("as much memory as there is, where nothing is said", "", 2, 2),
    "line-memory-1m": Memory("in a mebibyte of memory nothing can be written", f"--memory 1M {LARGER_THAN_MEMORY}", 2, 0),
    "line-memory-k": Memory("the same in kibibytes", f"--memory=1024k {LARGER_THAN_MEMORY}", 2, 0),
    "line-memory-bytes": Memory(
        "eight mebibytes, in bytes, are taken by the room for blocks alone", f"--memory 8388608 {LARGER_THAN_MEMORY}", 2, 0),
    "line-memory-9m": Memory("room of eight mebibytes is in nine", f"--memory=9m {LARGER_THAN_MEMORY}", 130, 128),
    "line-memory-3g": Memory("gibibytes of memory", "--memory=3g", 2, 2),
    "line-memory-most": Memory("the most memory, of a library that is kept", "--media {} --new-library --memory 70368744177664", 2, 2),
}


def memory(of: Memory) -> typing.Callable[[Tried], None]:
    def play(tried: Tried) -> None:
        with Server(tried, *of.words.format(tried.path("media")).split(), "--sessions", "1", "--log") as server:
            host = server.connect()
            for frame, answer in [(LOGIN_OF_A, ACCEPTED), (READY, power_on(1)), (TO_DRIVE, good(2)), (DRIVE_READY, power_on(2))]:
                says(host, Says(0, frame, answer))
            for number in range(of.tries):
                # A volume has come in, which is the drive's record 1.
                says(host, Says(0, LONGEST_WRITE, good(3 + number) if number < of.writes else BUSY))
            says(host, Says(0, LOGOUT, LOGGED_OUT))
            server.ends()
            busy = "vtl: BUSY for 500000000000000a.1 at logical unit 1: want of memory or of a record number\n"
            same("whether BUSY is reported, and once", server.reported.text.count(busy), min(1, of.tries - of.writes))

    return play


class Kept(typing.NamedTuple):
    """What it shows, the lines of the starts over one folder, what the library of the last is made of, or the words of its refusal."""

    shows: str
    starts: list[str]
    made: tuple[int, int, int, int] | None
    fault: str


LARGER = "--drives 2 --slots 9 --portals 1 --volumes 2"
KEPT = {
    "line-media": Kept("a folder's library as usual", [""], (1, 8, 0, 1), ""),
    "line-media-said": Kept("the same, all of it said", ["", "--drives 1 --slots 8 --portals 0 --volumes 1"], (1, 8, 0, 1), ""),
    "line-media-larger": Kept(
        "a large library, of large volumes", ["--slots=1024 --volume-size 1G --drives 4"], (4, 1024, 0, 1), ""),
    "line-media-as-it-is": Kept("a folder's library is as it was where nothing is said", [LARGER, ""], (2, 9, 1, 2), ""),
    "line-media-drives": Kept("drives that disagree", [LARGER, "--drives 1"], None, "--drives 1 disagrees with the inventory, which has 2"),
    "line-media-slots": Kept("slots that disagree", [LARGER, "--slots 8"], None, "--slots 8 disagrees with the inventory, which has 9"),
    "line-media-portals": Kept(
        "portals that disagree", [LARGER, "--portals 0"], None, "--portals 0 disagrees with the inventory, which has 1"),
    "line-media-no-volumes": Kept("no volume is made where there was none", ["--volumes 0", ""], (1, 8, 0, 0), ""),
    "line-media-a-volume": Kept("a volume is made where it is said", ["--volumes 0", "--volumes 1"], (1, 8, 0, 1), ""),
    "line-media-too-many": Kept(
        "more volumes than elements are a fault of the folder", ["--volumes 9"], None,
        "more volumes than free storage elements: 9, and 8 are free"),
}


def kept(of: Kept) -> typing.Callable[[Tried], None]:
    def play(tried: Tried) -> None:
        folder = tried.path("media")
        for start in of.starts[:-1]:
            with Server(tried, "--media", folder, "--new-library", *start.split()) as server:
                server.end()
                server.ends()
        last = [f"--media={folder}", "--new-library", *of.starts[-1].split()]
        if of.made is None:
            status, reported = refused(tried, "--socket", tried.path("socket"), *last)
            same(f"the status after {reported!r}", status, 2)
            holds("what is reported", reported, of.fault)
            return
        with Server(tried, *last) as server:
            is_made_of(server, *of.made)
            server.end()
            server.ends()
            volumes = of.made[3]
            images = sorted(path.name for path in pathlib.Path(folder).glob("*.tap"))
            same("the images in the folder", images, [f"VOL{number:05}.tap" for number in range(1, volumes + 1)])
            holds("the inventory", pathlib.Path(folder, "library.toml").read_text(encoding="utf-8"), f"slots = {of.made[1]}\n")

    return play


def line_of(nexus: str) -> str:
    return f" {nexus} TEST-UNIT-READY 2 - - 02\n"


def is_served(place: tuple[str, int], name: str, target: str = "iqn.2026-11.localhost:vtl") -> None:
    """An initiator of this name is let in, and asks."""
    with Initiator(place, name) as initiator:
        initiator.log_in(target)
        initiator.ask(CHECKED)
        initiator.log_out()
        initiator.is_left()


def is_refused(server: Server, place: tuple[str, int], name: str, why: str, target: str = "iqn.2026-11.localhost:vtl") -> None:
    with Initiator(place, name) as initiator:
        initiator.ask_in(target)
        answer = initiator.receive()
        same("whether there is a status class", answer.opcode == LOGGED_IN and answer.head[36] != 0, True)
        server.reported.wait_for(f"login refused: {why}\n")


def has_lines(server: Server, *nexuses: str) -> None:
    server.end()
    server.ends()
    for nexus in nexuses:
        holds("the lines", server.lines(), line_of(nexus))


def any_host(tried: Tried) -> None:
    with Server(tried, "--iscsi", "127.0.0.1:0", "--any-host", has_socket=False) as server:
        place = server.portal()
        is_told(server, f"127.0.0.1:{place[1]}: 2 units, 64 workers")
        name = "iqn.2026-11.example:z"
        is_served(place, name)
        # The digit 5 and the first 60 bits of the SHA-256 of the name.
        has_lines(server, f"5{hashlib.sha256(name.encode()).hexdigest()[:15]}.1")


def two_portals(tried: Tried) -> None:
    """The first is at [::1], where a machine has it."""
    try:
        with socket.socket(socket.AF_INET6) as listener:
            listener.bind(("::1", 0))
    except OSError:
        got = refused(tried, "--iscsi", "[::1]:0", "--any-host")
        same("the status and what is reported", got, (4, "vtl: device fault\nvtl: cannot listen on [::1]:0\n"))
        return
    words = [
        "--iscsi", "[::1]:0", "--iscsi", "127.0.0.2:0", "--host", "iqn.2026-11.a:b=500000000000000a",
        "--host", "eui.02004567A425678D=500000000000000b"]
    with Server(tried, *words) as server:
        first, second = server.portal("[::1]"), server.portal("127.0.0.2")
        is_told(server, f"{server.path} and [::1]:{first[1]} and 127.0.0.2:{second[1]}: 2 units, 64 workers at each")
        is_served(first, "iqn.2026-11.a:b")
        is_served(second, "eui.02004567A425678D")
        is_refused(server, first, "iqn.2026-11.a:c", "its name is not let in")
        has_lines(server, "500000000000000a.1", "500000000000000b.2")


def other_target(tried: Tried) -> None:
    name = "iqn.2026-11.example:tapes"
    words = ["--iscsi", "0.0.0.0:0", "--any-host", "--no-authentication", "--target-name", name]
    with Server(tried, *words, has_socket=False) as server:
        place = "127.0.0.1", server.portal("0.0.0.0")[1]
        is_served(place, "iqn.2026-11.example:z", name)
        is_refused(server, place, "iqn.2026-11.example:y", "no such target")
        server.end()
        server.ends()


class AtPortal(typing.NamedTuple):
    """What it shows, and the words of a line that serves at a portal of 127.0.0.1 to any host."""

    shows: str
    words: str


# Each has a slot of the 128 at both portals: two are left for others.
NAMED_63 = " ".join(f"--host iqn.2026-11.a:{number}={number:016x}" for number in range(63))
AT_PORTAL = {
    "line-multipath": AtPortal("sessions of a name may come from different addresses", "--iscsi 127.0.0.1:0 --multipath"),
    "line-told-name": AtPortal(
        "initiators are told a host by its name, and come to where is listened", "--iscsi 127.0.0.1:0=Tapes-1.example:3260"),
    "line-told-longest": AtPortal("the longest name, and the last port", f"--iscsi 127.0.0.1:0={'a' * 253}:65535"),
    "line-told-ipv4": AtPortal("initiators are told an IPv4 address", "--iscsi 127.0.0.1:0=192.0.2.1:1"),
    "line-told-ipv6": AtPortal("initiators are told an IPv6 address", "--iscsi 127.0.0.1:0=[2001:db8::1]:3260"),
    "line-strangers": AtPortal("there are two slots left for others", f"--iscsi 127.0.0.1:0 --iscsi 127.0.0.2:0 {NAMED_63}"),
}


def at_portal(of: AtPortal) -> typing.Callable[[Tried], None]:
    def play(tried: Tried) -> None:
        with Server(tried, *of.words.split(), "--any-host", has_socket=False) as server:
            place = server.portal()
            holds("where it serves", server.reported.text, f"127.0.0.1:{place[1]}")
            is_served(place, "iqn.2026-11.example:z")
            server.end()
            server.ends()

    return play


NAMED, SECRET = "naa.52004567BA64678D", "twelve-bytes"


def words_of_named(tried: Tried) -> list[str]:
    """The words by which a host with a secret is let in, and every other by its name."""
    secrets_there = secret_words(tried, f"{NAMED} user {SECRET}\n")
    return ["--iscsi", "127.0.0.1:0", *secrets_there, "--any-host", "--host", f"{NAMED}=500000000000000a"]


def secrets(tried: Tried) -> None:
    """One host has a secret and an address of its own; every other may come by its name, but has no secret."""
    with Server(tried, *words_of_named(tried), has_socket=False) as server:
        is_refused(server, server.portal(), "iqn.2026-11.example:z", "authentication failed")
        with Initiator(server.portal(), NAMED) as initiator:
            log_in_by_secret(initiator)
            initiator.ask(CHECKED)
            initiator.log_out()
            initiator.is_left()
        has_lines(server, "500000000000000a.1")


def digests(words: str, algorithm: bytes) -> typing.Callable[[Tried], None]:
    """A line with these digests, at which a host answers by one of them."""
    def play(tried: Tried) -> None:
        with Server(tried, *words_of_named(tried), *words.split(), has_socket=False) as server:
            with Initiator(server.portal(), NAMED) as initiator:
                log_in_by_secret(initiator, algorithm)
                initiator.ask(CHECKED)
                initiator.log_out()
                initiator.is_left()
            has_lines(server, "500000000000000a.1")

    return play


def log_in_by_secret(initiator: Initiator, algorithm: bytes = MD5) -> None:
    """A login by CHAP, with MD5 where nothing else is said (RFC 7143, "CHAP Considerations"; RFC 1994)."""
    def asks(flags: int, text: bytes, start: str) -> bytes:
        initiator.send(pdus.login(flags, text, initiator.number, cid=0, isid=ISID))
        return initiator.reads(start).data

    asks(SECURITY, names_of(NAMED) + text_of("AuthMethod=CHAP"), "23000000")
    challenge = challenge_in(algorithm, asks(SECURITY, text_of(b"CHAP_A=" + algorithm), "23000000"))
    asks(SKIPS, text_of("CHAP_N=user", b"CHAP_R=" + hexadecimal(challenge.digest(SECRET.encode()))), PROVED)


ROWS = [
    Row("line-login-timeout", "a host that never logs in is ended after ten seconds where nothing is said", usual_login),
    *(Row(name, of.shows, serves(of)) for name, of in SERVES.items()),
    Row("line-spans", "a line has the reservation behind it that stood before its record", spans),
    Row("line-grace-one", "a session goes on for a grace of a second", grace_of_one),
    *(Row(name, of.shows, times(of)) for name, of in TIMES.items()),
    *(Row(name, of.shows, memory(of)) for name, of in MEMORY.items()),
    *(Row(name, of.shows, kept(of)) for name, of in KEPT.items()),
    Row("line-any-host", "initiators come to a portal alone, and any name is let in, as an address made of it", any_host),
    Row("line-portals", "two portals beside a socket, where hosts are let in by their names alone", two_portals),
    Row("line-target", "a portal at all addresses, and another name of the target", other_target),
    *(Row(name, of.shows, at_portal(of)) for name, of in AT_PORTAL.items()),
    Row("line-secrets", "a host shows its secret, and has the address of its name", secrets),
    Row("line-digests-sha256", "a host answers by SHA-256, which alone is let", digests("--chap-digests sha256", SHA256)),
    Row("line-digests-both", "a host answers by MD5, where both are let", digests("--chap-digests sha256,md5", MD5)),
    Row("line-digests-other-order", "the order of digests says nothing", digests("--chap-digests=md5,sha256", SHA256)),
]
