"""`vtl serve --check`: it says what would be served, or why nothing would, and changes nothing. docs/OPERATING.md has it, "See what would
be served"."""
import contextlib
import os
import pathlib
import socket
import typing

from compare import holds, same
from folder import HI, MARK, ODD, THREE, Folder, ended, loaded
from host import Host
from play import Row, Tried
from program import run
from scsi import CHANGER, DRIVE
from server import Server, refused

NAME = "library.toml"
TWO = 'version = 1\ndrives = 1\nslots = 4\nportals = 1\n\n[[volume]]\ntag = "VOL00001"\ndata_transfer = 0\n'
TWO += '\n[[volume]]\ntag = "B"\nstorage = 2\n\n[[missing]]\ntag = "GONE"\nimport_export = 0\n'


def checked(tried: Tried, *words: str) -> tuple[int, str, str]:
    return run([tried.program, "serve", "--check", *words])


def state(folder: str) -> dict[str, tuple[typing.Any, ...]]:
    """All of a folder that a program could change: of each file its name, mode, owner, number, times but for the last look, and bytes."""
    found: dict[str, tuple[typing.Any, ...]] = {}
    for path in [pathlib.Path(folder), *pathlib.Path(folder).rglob("*")]:
        of = path.lstat()
        data = path.read_bytes() if path.is_file() else None
        found[str(path)] = (of.st_mode, of.st_uid, of.st_gid, of.st_ino, of.st_nlink, of.st_size, of.st_mtime_ns, of.st_ctime_ns, data)
    return found


@contextlib.contextmanager
def unchanged(tried: Tried) -> typing.Iterator[None]:
    before = state(tried.folder)
    yield
    after = state(tried.folder)
    same("the names in the folder", sorted(after), sorted(before))
    for name, of in before.items():
        same(f"what is known of {name}", after[name], of)


def library(tried: Tried) -> Folder:
    """A library with what a start would change: images without records, one that ends within a block, and files that are left over."""
    folder = Folder(tried, VOL00001=THREE, B=HI + MARK + ODD[:3])
    folder.put(NAME, TWO.encode())
    folder.put("VOL00001.tap.new", b"left over")
    folder.put("library.toml.new", b"left over")
    return folder


def says(tried: Tried) -> None:
    folder = library(tried)
    os.chmod(folder.path_of("VOL00001.tap"), 0o400)
    words = ["--media", str(folder.path), "--volumes", "4", "--socket", tried.path("socket"), "--memory", "64M", "--workers", "2"]
    with unchanged(tried):
        status, printed, reported = checked(tried, *words)
    same(f"the status after {reported!r}", status, 0)
    wanted = [
        f"would serve at {tried.path('socket')}: 2 units, 2 workers",
        "profile: spec",
        "elements: drives 1, storage 4, import/export 1",
        "volumes: 3, for 16777216 bytes of blocks each",
        "memory: 67108864 bytes at most for all volumes",
        "volume VOL00001: drive 0, 3 blocks and filemarks, write-protected",
        "volume B: storage element 2, 2 blocks and filemarks",
        "volume VOL00002: storage element 0, blank",
        "missing GONE: import/export element 0",
    ]
    same("what would be served", printed.splitlines()[:len(wanted)], wanted)
    same("what is reported", reported.splitlines(), [
        f"vtl: {folder.path_of('B.tap')}: a tail of 3 bytes that was cut off is lost",
        f"vtl: {folder.path_of('VOL00001.tap')}: it can't be written, so the volume is write-protected",
        f"vtl: {folder.path_of('GONE.tap')}: it is missing: the volume was in import/export element 0",
    ])


def for_hosts(folder: Folder) -> None:
    folder.put(NAME, TWO.replace("portals = 1\n", 'portals = 1\nprofile = "hosts"\nlibrary = "1A2B3C4D"\n').encode())


def says_profile(tried: Tried) -> None:
    """A look draws no number, and a library that would become one for hosts stays as it is."""
    folder = library(tried)
    given, new = ["--media", str(folder.path)], ["--media", tried.path("new"), "--new-library"]

    def look(words: list[str], wanted: str) -> None:
        with unchanged(tried):
            status, printed, _ = checked(tried, "--socket", tried.path("socket"), *words)
        same("the status", status, 0)
        holds(f"what would be served by {words}", printed, f"\nprofile: {wanted}\n")

    look(given, "spec")
    look(new, "spec")
    for words in [given, new]:
        look([*words, "--profile", "hosts"], "hosts, library number yet to be drawn")
        look([*words, "--profile", "hosts", "--library-id", "1a2b3c4d"], "hosts, library number 1A2B3C4D")
    for_hosts(folder)
    look(given, "hosts, library number 1A2B3C4D")
    look([*given, "--profile", "hosts"], "hosts, library number 1A2B3C4D")


def next_to_a_server(tried: Tried) -> None:
    folder = Folder(tried, VOL00001=HI)
    with loaded(folder) as (server, host):
        before = server.reported.text
        for _ in range(3):
            status, printed, reported = checked(tried, "--media", str(folder.path), "--socket", server.path)
            same("the status and what is reported", (status, reported), (0, ""))
            holds("what would be served", printed, f"would serve at {server.path}: 2 units, 64 workers\n")
            holds("what would be served", printed, "volume VOL00001: drive 0, 1 blocks and filemarks\n")
        same("what the server reports meanwhile", server.reported.text, before)
        # The server still has its folder and its socket, and the host its drive.
        other = refused(tried, "--media", str(folder.path), "--socket", tried.path("other"))
        same("a second server", other, (2, f"vtl: {folder.path}: another program has this folder\n"))
        host.reads(b"hi")
        Host(server, sas=0x500000000000000B).meets(CHANGER)
        ended(server)


def not_made(tried: Tried) -> None:
    path = tried.path("new")
    words = ["--media", path, "--socket", tried.path("socket"), "--volumes", "2", "--drives", "2"]
    with unchanged(tried):
        status, printed, reported = checked(tried, *words, "--new-library")
        same("the status and what is reported", (status, reported), (0, ""))
        holds("what would be served", printed, "elements: drives 2, storage 8, import/export 0\nvolumes: 2, ")
        holds("what would be served", printed, "\nvolume VOL00002: storage element 1, blank\n")
        wanted = f"vtl: {path}: there is no library here (no library.toml); --new-library makes one\n"
        same("without --new-library", checked(tried, *words), (2, "", wanted))


def listens_nowhere(tried: Tried) -> None:
    """Places that others have are no fault, since nobody listens there: no socket's file is made, or taken away."""
    path = tried.path("left")
    with socket.socket(socket.AF_UNIX, socket.SOCK_STREAM) as left:
        left.bind(path)
    with socket.socket() as listener:
        listener.bind(("127.0.0.1", 0))
        listener.listen()
        listener.settimeout(0.2)
        address = "{}:{}".format(*listener.getsockname())
        with unchanged(tried):
            for place in [path, tried.path("other")]:
                status, printed, reported = checked(tried, "--socket", place, "--iscsi", address, "--any-host")
                same("the status and what is reported", (status, reported), (0, ""))
                holds("what would be served", printed, f"would serve at {place} and {address}: 2 units, 64 workers at each\n")
        try:
            listener.accept()
        except TimeoutError:
            return
        raise AssertionError("somebody connected")


def broken(tried: Tried, make: typing.Callable[[Folder], None], words: list[str]) -> None:
    """A look has the status and the lines of a start, and what is there stays as it is."""
    folder = library(tried)
    make(folder)
    given = ["--media", str(folder.path), "--socket", tried.path("socket"), *words]
    with unchanged(tried):
        status, printed, reported = checked(tried, *given)
    same("what is printed", printed, "")
    same("the status and what is reported", (status, reported), refused(tried, *given))
    same("whether the status is one of a fault", status in (2, 3, 4), True)


def no_toml(folder: Folder) -> None:
    folder.put(NAME, b"version = ")


def no_inventory(folder: Folder) -> None:
    (folder.path / NAME).unlink()


def bad_images(folder: Folder) -> None:
    for name in ["VOL00001.tap", "B.tap"]:
        folder.put(name, b"\x05\0\0\0wrong?\x06\0\0\0")


def no_room(folder: Folder) -> None:
    """More than 1 MiB of blocks, of 64 KiB each."""
    folder.put("B.tap", (b"\0\0\1\0" + b"x" * 65_536 + b"\0\0\1\0") * 20)


def nothing(_: Folder) -> None:
    pass


BROKEN: dict[str, tuple[str, typing.Callable[[Folder], None], list[str]]] = {
    "no-toml": ("an inventory that is none", no_toml, []),
    "no-inventory": ("a folder without an inventory", no_inventory, []),
    "bad-images": ("images of which none can be served", bad_images, []),
    "other-drives": ("options that disagree with the inventory", nothing, ["--drives", "2"]),
    "number-alone": ("a number for a library of the default profile", nothing, ["--library-id", "1A2B3C4D"]),
    "back": ("the default profile for a library for hosts", for_hosts, ["--profile", "spec"]),
    "other-number": ("another number than the library has", for_hosts, ["--library-id", "1A2B3C4E"]),
    "too-many": ("more volumes than storage elements", nothing, ["--volumes", "9"]),
    "no-room": ("volumes that have no room in memory", no_room, ["--memory", "1M", "--volume-size", "64M"]),
    "open-secrets": ("secrets that others may read", nothing, ["--iscsi", "127.0.0.1:0", "--any-host", "--chap", "/etc/passwd"]),
    "no-secrets": ("secrets that can't be read", nothing, ["--iscsi", "127.0.0.1:0", "--any-host", "--chap", "/nowhere/at/all"]),
}


def broken_row(name: str) -> Row:
    what, make, words = BROKEN[name]
    return Row(f"check-{name}", f"the fault of a start is found before it: {what}", lambda tried: broken(tried, make, words))


def bad_secret(tried: Tried) -> None:
    path = tried.path("secrets")
    pathlib.Path(path).write_text("# one\niqn.2026-11.a:b user short\n", encoding="utf-8")
    os.chmod(path, 0o600)
    got = checked(tried, "--iscsi", "127.0.0.1:0", "--any-host", "--chap", path)
    same("the status, and what is printed and reported", got, (2, "", f"vtl: {path}, line 2: a secret has 12 to 128 bytes\n"))


def unwritten(tried: Tried) -> None:
    """Where standard output takes nothing, it isn't said that all is well."""
    status, _, reported = run(["sh", "-c", 'exec "$0" serve --check --socket s >/dev/full', tried.program])
    wanted = "vtl: device fault\nvtl: the lines of what would be served could not be written\n"
    same("the status and what is reported", (status, reported), (4, wanted))


ROWS = [
    Row("check-says", "a look says what would be served, and changes nothing", says),
    Row("check-says-profile", "a look says the profile, and the number if it is known", says_profile),
    Row("check-next-to-a-server", "a look may run next to a server of the same folder and socket", next_to_a_server),
    Row("check-not-made", "a look makes no library", not_made),
    Row("check-listens-nowhere", "a look listens nowhere, and leaves sockets alone", listens_nowhere),
    *(broken_row(name) for name in BROKEN),
    Row("check-bad-secret", "a look reads the file of secrets", bad_secret),
    Row("check-unwritten", "lines that can't be written are a fault", unwritten),
]
