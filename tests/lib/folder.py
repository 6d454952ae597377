"""A library that is kept in a folder: the images of its volumes, byte by byte, and its inventory. docs/OPERATING.md has what lies in the
folder, "Media that last"."""
import contextlib
import os
import pathlib
import re
import struct
import time
import typing

from compare import Wrong, same
from host import WRITE_PROTECTED, Host
from play import Tried
from program import run
from scsi import DRIVE, LONGEST_BLOCK, write
from server import Server, refused
from term import patience

# What SIMH keeps of "hi", of a filemark, of "odd", of an erase gap, and of the end of the medium.
HI, MARK, ODD = b"\x02\0\0\0hi\x02\0\0\0", b"\0\0\0\0", b"\x03\0\0\0odd\0\x03\0\0\0"
GAP, END_OF_MEDIUM = b"\xfe\xff\xff\xff", b"\xff\xff\xff\xff"
THREE = HI + MARK + ODD
# Of "new", which is written over the second of them on.
NEW = b"\x03\0\0\0new\0\x03\0\0\0"
# The first volume that a library makes.
FIRST = "VOL00001.tap"
# The file whose lock other machines see.
LOCK = "library.lock"


def block(data: bytes) -> bytes:
    """What SIMH keeps of a block."""
    length = struct.pack("<I", len(data))
    return length + data + b"\0" * (len(data) % 2) + length


def objects_of(image: bytes) -> list[bytes | None]:
    """The objects of an image in SIMH's form, up to where it ends or was cut: blocks of bytes, and None for a filemark."""
    objects: list[bytes | None] = []
    at = 0
    while at + 4 <= len(image):
        (length,) = struct.unpack_from("<I", image, at)
        if length == 0:
            objects.append(None)
            at += 4
            continue
        if length == 0xFFFFFFFF:
            break
        assert length <= LONGEST_BLOCK, f"a block of {length} bytes at {at}"
        end = at + 4 + length + length % 2 + 4
        if end > len(image):
            break
        assert struct.unpack_from("<I", image, end - 4)[0] == length, f"lengths differ at {at}"
        objects.append(image[at + 4:at + 4 + length])
        at = end
    return objects


def inventory_of(text: str) -> dict[str, tuple[str, int]]:
    """Where each volume lies by the text of an inventory: by its tag the type of its element and the number in that."""
    rows: dict[str, tuple[str, int]] = {}
    for part in text.split("[[volume]]")[1:]:
        tag = re.search(r'tag = "(\w+)"', part)[1]
        element = re.search(r"(data_transfer|storage|import_export) = (\d+)", part)
        assert tag not in rows, f"{tag} twice"
        rows[tag] = (element[1], int(element[2]))
    return rows


class Folder:
    """The folder of a library."""

    def __init__(self, tried: Tried, place: str = "media", **files: bytes):
        """With files of these names, each with the ending of an image."""
        self.tried = tried
        self.path = pathlib.Path(tried.path(place))
        self.path.mkdir(mode=0o700)
        for name, data in files.items():
            self.put(f"{name}.tap", data)

    def put(self, name: str, data: bytes) -> None:
        """Writes a file, which its owner alone may read and write."""
        (self.path / name).write_bytes(data)
        os.chmod(self.path / name, 0o600)

    def bytes_of(self, name: str) -> bytes:
        return (self.path / name).read_bytes()

    def inventory(self) -> str:
        return self.bytes_of("library.toml").decode()

    def names(self) -> list[str]:
        """The names of its files, but for that of the lock, which each start leaves."""
        return sorted(found.name for found in self.path.iterdir() if found.name != LOCK)

    def path_of(self, name: str) -> str:
        return f"{self.path}/{name}"

    def same_image(self, what: str, name: str, wanted: bytes) -> None:
        """Compares an image, by where it differs first."""
        got = self.bytes_of(name)
        if got != wanted:
            at = next((at for at, (one, other) in enumerate(zip(got, wanted)) if one != other), min(len(got), len(wanted)))
            from_there = slice(max(0, at - 4), at + 28)
            raise Wrong(
                f"{what}: {name} at {at}", f"{len(got)} bytes, {got[from_there].hex()}", f"{len(wanted)} bytes, {wanted[from_there].hex()}")

    def await_image(self, what: str, name: str, wanted: bytes) -> None:
        """Waits until an image is that."""
        end = time.monotonic() + patience()
        while self.bytes_of(name) != wanted and time.monotonic() < end:
            time.sleep(0.01)
        self.same_image(what, name, wanted)

    def words(self) -> list[str]:
        """The options by which the library is served that is in it, or one is made in it."""
        is_new = not (self.path / "library.toml").exists()
        return ["--media", str(self.path), *(["--new-library"] if is_new else [])]

    def served(self, *words: str, **how: typing.Any) -> Server:
        return Server(self.tried, *self.words(), *words, **how)

    def refused(self, *words: str) -> tuple[int, str]:
        """The status and what is reported of a start that is refused."""
        return refused(self.tried, "--socket", self.tried.path("socket"), *self.words(), *words)

    def checked(self) -> tuple[int, str, str]:
        """The status of a look over it, what that prints and what it reports."""
        return run([self.tried.program, "media", "check", str(self.path)])


def with_records(*images: str) -> list[str]:
    """The names of images and of their records, in order."""
    return sorted([*images, *(f"{name.removesuffix('.tap')}.synced" for name in images)])


def ended(server: Server) -> None:
    """Ends a server, which has to be well."""
    server.end()
    server.ends()


@contextlib.contextmanager
def loaded(folder: Folder, *words: str, **how: typing.Any) -> typing.Iterator[tuple[Server, Host]]:
    """A server over a folder, and a host that has its first volume in the drive."""
    with folder.served(*words, **how) as server:
        host = Host(server)
        host.loads()
        yield server, host


@contextlib.contextmanager
def write_protected(folder: Folder) -> typing.Iterator[Host]:
    """A host at a volume of "hi" whose file nobody may write by its mode: that is reported, a WRITE is refused, and the file stays."""
    os.chmod(folder.path_of(FIRST), 0o400)
    with loaded(folder) as (server, host):
        words = f"vtl: {folder.path_of(FIRST)}: it can't be written, so the volume is write-protected"
        same("what is reported", server.reported_lines(), [words])
        host.asks(DRIVE, write(1), WRITE_PROTECTED, b"\1")
        yield host
        ended(server)
    folder.same_image("what is left", FIRST, HI)
