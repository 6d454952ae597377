"""Records of volumes' files: what is read of a file by its record, and how the record and the file go together while a tape is written.
docs/OPERATING.md has what a record is, "Media that last"."""
import errno
import os
import pathlib
import tomllib
import typing

from compare import holds, same
from failing_calls import FailingCalls
from folder import FIRST, HI, MARK, NEW, ODD, THREE, Folder, ended, loaded, with_records
from host import Host, standing_at
from play import Row, Tried
from scsi import DRIVE, FILEMARK, NO_FILEMARK, READ_POSITION, locate

RECORD = "VOL00001.synced"
TAIL = "VOL00001.tail.1"
# The run of the machine in which rows are played, and another one.
BOOT = pathlib.Path("/proc/sys/kernel/random/boot_id").read_text(encoding="ascii").strip()
ANOTHER = "0" * 8 + BOOT[8:]


def record_of(folder: Folder) -> dict[str, typing.Any]:
    return tomllib.loads(folder.bytes_of(RECORD).decode())


def inode(folder: Folder) -> str:
    return str(os.stat(folder.path_of(FIRST)).st_ino)


def put_record(folder: Folder, length: int, boot: str, number: str | None = None) -> None:
    text = f'version = 1\nlength = {length}\ninode = "{number or inode(folder)}"\nboot = "{boot}"\n'
    folder.put(RECORD, text.encode())


def same_record(what: str, folder: Folder, length: int) -> None:
    same(what, record_of(folder), {"version": 1, "length": length, "inode": inode(folder), "boot": BOOT})


class Found(typing.NamedTuple):
    """What it shows, the image, what its record says is on the disk and when, the objects that are read, what is reported after the
    folder's path, and what is left of the image once it is served."""

    shows: str
    image: bytes
    length: int
    boot: str
    objects: list[bytes | None]
    reported: str | None
    left: bytes
    length_after: int


MOVED = "bytes that were not known to be on the disk were moved to"
FOUND = {
    "same-boot": Found(
        "what lies behind the bytes that were on the disk isn't read, and is moved away, also in the same run of the machine", THREE, 14, BOOT,
        [b"hi", None], f"{FIRST}: 12 {MOVED} DIR/{TAIL}", HI + MARK, 14),
    "another-boot": Found(
        "the same after the machine was booted", THREE, 14, ANOTHER, [b"hi", None], f"{FIRST}: 12 {MOVED} DIR/{TAIL}", HI + MARK, 14),
    "zeros": Found(
        "zeros that a power cut left under the new length are no filemarks", HI + bytes(400), 10, ANOTHER, [b"hi"],
        f"{FIRST}: 400 {MOVED} DIR/{TAIL}", HI, 10),
    "zeros-same-boot": Found(
        "nor are those that a file system left that was taken away and came back in the same run", HI + bytes(400), 10, BOOT, [b"hi"],
        f"{FIRST}: 400 {MOVED} DIR/{TAIL}", HI, 10),
    "other-bytes": Found(
        "what else it left refuses no volume", HI + b"\x02\0\0\x80" * 9, 10, ANOTHER, [b"hi"], f"{FIRST}: 36 {MOVED} DIR/{TAIL}", HI, 10),
    "all-on-the-disk": Found("nothing is moved away where all was on the disk", THREE, 26, ANOTHER, [b"hi", None, b"odd"], None, THREE, 26),
    "too-long": Found(
        "a record of more bytes than the file has is passed over", HI, 26, BOOT, [b"hi"],
        f"{RECORD}: it says that 26 bytes are on the disk, and the file has 10: the whole image is read", HI, 10),
}


def found(of: Found) -> typing.Callable[[Tried], None]:
    def play(tried: Tried) -> None:
        folder = Folder(tried, VOL00001=of.image)
        put_record(folder, of.length, of.boot)
        with folder.served() as server:
            reported = [f"vtl: {folder.path}/{of.reported}".replace("DIR", str(folder.path))] if of.reported else []
            same("what is reported", server.reported_lines(), reported)
            folder.same_image("what is left", FIRST, of.left)
            same_record("the record then", folder, of.length_after)
            if len(of.left) < len(of.image):
                same("what was moved away", folder.bytes_of(TAIL), of.image[len(of.left):])
            host = Host(server)
            host.loads()
            host.asks(DRIVE, READ_POSITION, standing_at(0))
            host.reads(*of.objects)
            ended(server)

    return play


def another_file(tried: Tried) -> None:
    folder = Folder(tried, VOL00001=THREE)
    put_record(folder, 10, ANOTHER, "1")
    folder.put("VOL00001.tail.1", b"an older one")
    with folder.served() as server:
        reported = f"vtl: {folder.path_of(RECORD)}: it is the record of another file: the whole image is read"
        same("what is reported", server.reported_lines(), [reported])
        same_record("the record then", folder, 26)
        ended(server)
    put_record(folder, 10, ANOTHER)
    with folder.served() as server:
        moved = f"vtl: {folder.path_of(FIRST)}: 16 {MOVED} {folder.path_of('VOL00001.tail.2')}"
        same("what is reported of a second tail", server.reported_lines(), [moved])
        same("the older tail", folder.bytes_of("VOL00001.tail.1"), b"an older one")
        ended(server)


def garbage(tried: Tried) -> None:
    folder = Folder(tried, VOL00001=THREE)
    folder.put(RECORD, b"\0" * 105)
    with folder.served() as server:
        reported = f"vtl: {folder.path_of(RECORD)}: it is not a record of what is on the disk: the whole image is read"
        same("what is reported", server.reported_lines(), [reported])
        same_record("the record then", folder, 26)
        ended(server)


def goes_along(tried: Tried) -> None:
    """The record says what was on the disk when a filemark was answered, and no more than what is left once a tape is written over."""
    folder = Folder(tried)
    with loaded(folder, "--volumes", "1") as (server, host):
        same_record("of a blank volume", folder, 0)
        host.writes(b"hi")
        host.asks(DRIVE, FILEMARK)
        same_record("after a filemark", folder, 14)
        host.writes(b"odd")
        folder.await_image("what is copied after", FIRST, THREE)
        same_record("what isn't on the disk yet doesn't count", folder, 14)
        host.asks(DRIVE, locate(1))
        host.writes(b"new")
        folder.await_image("what is written over", FIRST, HI + NEW)
        same_record("once it was cut back", folder, 10)
        host.asks(DRIVE, NO_FILEMARK)
        same_record("after the next filemark", folder, 22)
        ended(server)


def version_2(tried: Tried) -> None:
    """It has one more line, and is replaced by one without it."""
    folder = Folder(tried, VOL00001=THREE)
    text = f'version = 2\nlength = 14\ninode = "{inode(folder)}"\nboot = "{ANOTHER}"\nindex = "0123456789abcdef"\n'
    folder.put(RECORD, text.encode())
    with folder.served() as server:
        same("what is reported", server.reported_lines(), [f"vtl: {folder.path_of(FIRST)}: 12 {MOVED} {folder.path_of(TAIL)}"])
        same_record("the record then", folder, 14)
        ended(server)


def not_text(tried: Tried) -> None:
    folder = Folder(tried, VOL00001=THREE)
    for data in [b"version = 1\n# \xff\xfe\n", b"#" * 4097]:
        folder.put(RECORD, data)
        with folder.served() as server:
            reported = f"vtl: {folder.path_of(RECORD)}: it is not a record of what is on the disk: the whole image is read"
            same("what is reported", server.reported_lines(), [reported])
            same_record("the record then", folder, 26)
            ended(server)


# A library whose second volume is in its drive.
TWO = """version = 1
drives = 1
slots = 2
portals = 0

[[volume]]
tag = "VOL00002"
data_transfer = 0

[[volume]]
tag = "VOL00001"
storage = 0
"""


def of_two(tried: Tried, image: bytes) -> Folder:
    """The folder of such a library: the first volume has this image."""
    folder = Folder(tried, VOL00001=image, VOL00002=ODD)
    folder.put("library.toml", TWO.encode())
    return folder


def is_left_out(folder: Folder, why: str, **how: typing.Any) -> None:
    """The first volume is left out, nothing of it is changed, and the second is served."""
    left = folder.bytes_of(FIRST)
    with folder.served(**how) as server:
        holds("what is reported", server.reported.text, f"vtl: {folder.path_of(FIRST)}: {why}: the volume is left out\n")
        host = Host(server)
        host.meets(DRIVE)
        host.reads(b"odd")
        ended(server)
    folder.same_image("the image that is left", FIRST, left)
    same("whether it has a tail", TAIL in folder.names(), False)


def newer(tried: Tried) -> None:
    """A later version may count otherwise."""
    folder = of_two(tried, THREE)
    text = f'version = 3\nlength = 14\ninode = "{inode(folder)}"\nboot = "{BOOT}"\n'.encode()
    folder.put(RECORD, text)
    is_left_out(folder, "its record has version 3, which this program does not know")
    same("the record that is left", folder.bytes_of(RECORD), text)


def unreadable(tried: Tried) -> None:
    """Each error but that there is none leaves the volume out: by its record 14 bytes are to be read, and not the zeros after them."""
    folder = of_two(tried, HI + MARK + bytes(400))
    put_record(folder, 14, BOOT)
    text = folder.bytes_of(RECORD)
    calls = FailingCalls(tried)
    for call, error in [("open", errno.EIO), ("open", errno.EACCES), ("open", errno.EMFILE), ("read", errno.EIO)]:
        calls.fail(call, f"/{RECORD}", error)
        is_left_out(folder, f"its record can't be read: {os.strerror(error)} (os error {error})", environment=calls.environment)
        same("the record that is left", folder.bytes_of(RECORD), text)
        calls.mend()
    with folder.served() as server:
        same("what is reported once it can be read", server.reported_lines()[0], (
            f"vtl: {folder.path_of(FIRST)}: 400 {MOVED} {folder.path_of(TAIL)}"))
        ended(server)


def no_file(tried: Tried) -> None:
    """What a read could wait for, or never end with, isn't opened."""
    folder = of_two(tried, THREE)
    path = folder.path_of(RECORD)
    os.mkfifo(path)
    is_left_out(folder, "its record is not a regular file")
    os.remove(path)
    os.symlink("/dev/zero", path)
    is_left_out(folder, "its record is not a regular file")
    same("the link that is left", os.readlink(path), "/dev/zero")


def pipes(tried: Tried) -> None:
    """Pipes under the names of files that are made anew hold up neither a start nor a save."""
    folder = Folder(tried, VOL00001=HI)
    for name in [f"{RECORD}.new", f"{FIRST}.new", "library.toml.new"]:
        os.mkfifo(folder.path_of(name))
    with loaded(folder) as (server, host):
        host.reads(b"hi")
        host.asks(DRIVE, FILEMARK)
        same_record("the record", folder, 14)
        ended(server)
    same("what is in the folder", folder.names(), [*with_records(FIRST), "library.toml"])


def goes_away(tried: Tried) -> None:
    """Another record takes its place before the answer, and the next start reads by it."""
    folder = Folder(tried)
    with loaded(folder, "--volumes", "1") as (server, host):
        for expected, act in [(4, os.remove), (8, lambda path: put_record(folder, 0, BOOT, "1")), (12, None)]:
            host.asks(DRIVE, FILEMARK)
            same_record("the record after a filemark", folder, expected)
            if act:
                act(folder.path_of(RECORD))
        ended(server)
    with folder.served() as server:
        same("what is reported", server.reported_lines(), [])
        host = Host(server)
        host.meets(DRIVE)
        host.reads(None, None, None)
        ended(server)


ROWS = [
    *(Row(f"record-{name}", of.shows, found(of)) for name, of in FOUND.items()),
    Row("record-version-2", "a record of version 2 is read, but for its line index", version_2),
    Row("record-not-text", "a record that isn't UTF-8, or is too long, is none", not_text),
    Row("record-version-3", "a volume is left out whose record is of a version that isn't known", newer),
    Row("record-unreadable", "a volume is left out whose record can't be read", unreadable),
    Row("record-no-file", "a volume is left out whose record is not a regular file", no_file),
    Row("record-pipes", "pipes in the places of new files are removed, and not opened", pipes),
    Row("record-goes-away", "a record that is removed or replaced while a tape is served is written anew", goes_away),
    Row("record-another-file", "a record of another file is passed over, and no tail takes the place of an older one", another_file),
    Row("record-garbage", "a record that is none is passed over", garbage),
    Row("record-goes-along", "a record says what is on the disk, at each time", goes_along),
]
