"""Images of volumes: what is in them when a filemark is answered, what a start with given images does, and what is read of them."""
import os
import pathlib
import typing

import scsi
from compare import same
from folder import END_OF_MEDIUM, FIRST, GAP, HI, LOCK, MARK, NEW, ODD, THREE, Folder, block, ended, write_protected
from host import Host, overflow, standing_at
from play import Row, Tried
from scsi import CHANGER, DRIVE, FILEMARK, LONGEST_BLOCK, NO_FILEMARK, READ_POSITION, REWIND, locate
from server import Server


def written_over(tried: Tried) -> None:
    folder = Folder(tried)
    with folder.served("--volumes", "1") as server:
        host = Host(server)
        host.loads()
        folder.same_image("nothing was written yet", FIRST, b"")
        host.writes(b"hi")
        host.asks(DRIVE, FILEMARK)
        host.writes(b"odd")
        host.asks(DRIVE, NO_FILEMARK)
        folder.same_image("the old image", FIRST, THREE)
        host.asks(DRIVE, locate(1))
        host.writes(b"new")
        host.asks(DRIVE, FILEMARK)
        folder.same_image("it is written over", FIRST, HI + NEW + MARK)
        ended(server)
    folder.same_image("the new image", FIRST, HI + NEW + MARK)


def more_than_a_part(tried: Tried) -> None:
    """Parts have up to 1 MiB."""
    folder = Folder(tried)
    blocks = [bytes([number]) * LONGEST_BLOCK for number in range(16)]
    with folder.served("--volumes", "1") as server:
        host = Host(server)
        host.loads()
        host.writes(*blocks)
        host.asks(DRIVE, NO_FILEMARK)
        folder.same_image("sixteen blocks", FIRST, b"".join(map(block, blocks)))
        same("their bytes", len(folder.bytes_of(FIRST)), 1_048_704)
        ended(server)


def more_than_a_piece(tried: Tried) -> None:
    """167 blocks fill a piece of a tape's memory, but for some bytes. 200 are written, and then 100 over the second half of them."""
    folder = Folder(tried)
    size = 50_001
    blocks = [bytes([number]) * size for number in range(200)]
    over = [bytes([number]) * size for number in range(50, 150)]
    with folder.served("--volumes", "1", "--volume-size", "20000000") as server:
        host = Host(server)
        host.loads()
        host.writes(*blocks)
        host.asks(DRIVE, FILEMARK)
        folder.same_image("200 blocks and a filemark", FIRST, b"".join(map(block, blocks)) + MARK)
        host.asks(DRIVE, READ_POSITION, standing_at(201))
        host.asks(DRIVE, locate(100))
        host.writes(*over)
        host.asks(DRIVE, NO_FILEMARK)
        folder.same_image("100 blocks, and 100 after them", FIRST, b"".join(map(block, [*blocks[:100], *over])))
        host.asks(DRIVE, READ_POSITION, standing_at(200))
        host.asks(DRIVE, REWIND)
        host.reads(*blocks[:100], *over)
        ended(server)


def cut_tails(tried: Tried) -> None:
    """An image that ends within its third object, at each place. It stays as it is until its volume is written."""
    lengths = range(15, 26)
    folder = Folder(tried, **{f"CUT{length}": THREE[:length] for length in lengths})
    with folder.served("--slots", "11") as server:
        same("what is reported", server.reported_lines(), [
            f"vtl: {folder.path_of(f'CUT{length}.tap')}: a tail of {length - 14} bytes that was cut off is lost" for length in lengths])
        for length in lengths:
            folder.same_image("what is there", f"CUT{length}.tap", THREE[:length])
        host = Host(server)
        host.loads()
        host.asks(DRIVE, READ_POSITION, standing_at(0))
        host.reads(b"hi", None)
        host.writes(b"new")
        host.asks(DRIVE, NO_FILEMARK)
        folder.same_image("what a write leaves", "CUT15.tap", HI + MARK + NEW)
        ended(server)


class Faulty(typing.NamedTuple):
    """What it shows, an image, and what is reported after its path."""

    shows: str
    image: bytes
    words: str


UNKNOWN = b"\x02\0\0\x80"
FAULTY = {
    "unknown-class": Faulty(
        "an image with a fault is left as it is", MARK + UNKNOWN, "record of an unknown class, at offset 4, after 1 objects"),
    "fault-behind-three": Faulty(
        "an index has each object before a fault, behind a gap", GAP + THREE + UNKNOWN + b"hi",
        "record of an unknown class, at offset 30, after 3 objects"),
    "too-many-filemarks": Faulty(
        "more filemarks than a tape takes are refused", bytes(4_000_004), "more than a volume holds, after 1000000 objects"),
}


def faulty(of: Faulty) -> typing.Callable[[Tried], None]:
    def play(tried: Tried) -> None:
        folder = Folder(tried, VOL00001=of.image)
        left_out = f"vtl: {folder.path_of(FIRST)}: {of.words}: the volume is left out\n"
        none_is_left = f"vtl: {folder.path}: none of the images here can be served\n"
        same("the status and what is reported", folder.refused(), (2, left_out + none_is_left))
        same("what is in the folder", folder.names(), [FIRST])
        folder.same_image("what is left", FIRST, of.image)

    return play


class Image(typing.NamedTuple):
    """What it shows, an image, the objects that are read of it, its bytes once it is served, and what is reported after its path."""

    shows: str
    image: bytes
    objects: list[bytes | None]
    left: bytes
    words: str | None


IMAGES = {
    "whole": Image("an image is read as a tape that stands at its beginning", THREE, [b"hi", None, b"odd"], THREE, None),
    "gaps": Image(
        "a gap within an image is passed over, and what stands behind the end of the medium doesn't count",
        HI + MARK + GAP + ODD + END_OF_MEDIUM + b"\x09", [b"hi", None, b"odd"],
        HI + MARK + GAP + ODD + END_OF_MEDIUM + b"\x09", None),
    "cut": Image(
        "of a tail that was cut nothing is read", THREE[:20], [b"hi", None], THREE[:20], "a tail of 6 bytes that was cut off is lost"),
    "empty": Image("an empty file is a blank tape", b"", [], b"", None),
}


def image(of: Image) -> typing.Callable[[Tried], None]:
    def play(tried: Tried) -> None:
        folder = Folder(tried, VOL00001=of.image)
        with folder.served() as server:
            same("what is reported", server.reported_lines(), [f"vtl: {folder.path_of(FIRST)}: {of.words}"] if of.words else [])
            folder.same_image("what is left", FIRST, of.left)
            host = Host(server)
            host.loads()
            host.asks(DRIVE, READ_POSITION, standing_at(0))
            host.reads(*of.objects)
            ended(server)
        folder.same_image("what is left at the end", FIRST, of.left)

    return play


def no_write_bit(tried: Tried) -> None:
    """Root may write every file, and leaves one that nobody may write by its mode."""
    with write_protected(Folder(tried, VOL00001=HI)):
        pass


def others(tried: Tried) -> None:
    """What has the name of an image and is no regular file of its own is left out, also where it can't be opened without waiting."""
    folder = Folder(tried, A=HI, Z=ODD)
    kept = pathlib.Path(tried.path("kept"))
    kept.write_bytes(MARK)
    kept.chmod(0o600)
    (folder.path / "B.tap").hardlink_to(folder.path / "A.tap")
    os.mkfifo(folder.path / "C.tap")
    (folder.path / "D.tap").mkdir()
    (folder.path / "E.tap").symlink_to("/dev/null")
    (folder.path / "F.tap").symlink_to("Z.tap")
    (folder.path / "G.tap").symlink_to("nowhere")
    (folder.path / "H.tap").symlink_to(kept)
    with folder.served() as server:
        doubled, other = "it is also another volume's file", "it is not a regular file"
        words = {"B": doubled, "C": other, "D": other, "E": other, "G": "it can't be read: No such file or directory (os error 2)", "Z": doubled}
        same("what is reported", server.reported_lines(), [
            f"vtl: {folder.path_of(f'{name}.tap')}: {why}: the volume is left out" for name, why in words.items()])
        host = Host(server)
        host.meets(CHANGER)
        host.moves(0x401, 0x100)
        host.meets(DRIVE)
        host.reads(b"odd")
        host.changes(0x401, 0x402)
        host.reads(None)
        host.writes(b"hi")
        ended(server)
    same("what is written after a link", kept.read_bytes(), MARK + HI)
    folder.same_image("what is left", "Z.tap", ODD)


def modes(tried: Tried) -> None:
    """What is made is its owner's alone, and it is reported where others may read or write something."""
    folder = pathlib.Path(tried.path("above"), "media")
    for count in range(2):
        with Server(tried, "--media", str(folder), "--new-library") as server:
            same(f"what is reported at start {count}", server.reported_lines(), [])
            server.end()
            server.ends()
    made = {path.name: path.stat().st_mode & 0o777 for path in [folder.parent, folder, *folder.iterdir()]}
    same("the modes", made, {"above": 0o700, "media": 0o700, FIRST: 0o600, "VOL00001.synced": 0o600, LOCK: 0o600, "library.toml": 0o600})
    for path, mode in [(folder, 0o750), (folder / FIRST, 0o602), (folder / "library.toml", 0o644)]:
        was = path.stat().st_mode
        path.chmod(mode)
        with Server(tried, "--media", str(folder)) as server:
            words = f"vtl: {folder}: only its owner should be able to read or change it and its files (chmod -R go= {folder})"
            same(f"what is reported of {path.name}", server.reported_lines(), [words])
            server.end()
            server.ends()
        path.chmod(was)


def checked(tried: Tried) -> None:
    """A look over a folder prints a line for each volume, also next to a server, and changes nothing."""
    folder = Folder(tried, A=THREE, B=THREE[:20])
    folder.put("library.toml", b"version = 1\ndrives = 1\nslots = 4\nportals = 0\n")
    whole = "A: 3 objects, 5 bytes in blocks, 1 filemarks, whole\nB: 2 objects, 2 bytes in blocks, 1 filemarks, a cut tail of 6 bytes\n"
    same("what is printed of a folder that is well", folder.checked(), (0, whole, ""))
    folder.put("C.tap", GAP + HI + UNKNOWN)
    folder.put("D.tap", bytes(4_000_004))
    (folder.path / "E.tap").symlink_to("A.tap")
    os.mkfifo(folder.path / "F.tap")
    away = b'[[volume]]\ntag = "G"\nstorage = 1\n[[missing]]\ntag = "H"\nstorage = 1\n'
    folder.put("library.toml", folder.bytes_of("library.toml") + away)
    faulty = (
        f"{whole}C: record of an unknown class, at offset 14, after 1 objects\nD: more than a volume holds, after 1000000 objects\n"
        "E: it is also another volume's file\nF: it is not a regular file\nG: its file is missing\nH: its file is missing\n")
    there = {name: folder.bytes_of(name) for name in folder.names() if name != "F.tap"}
    same("what is printed of faults", folder.checked(), (2, faulty, f"vtl: {folder.path}: volumes with a fault: 6\n"))
    same("what is there then", {name: folder.bytes_of(name) for name in folder.names() if name != "F.tap"}, there)
    (folder.path / "B.tap").unlink()
    (folder.path / "B.tap").symlink_to("nowhere")
    faulty = faulty.replace(whole.splitlines()[1], "B: it can't be read: No such file or directory (os error 2)")
    reported = f"vtl: device fault\nvtl: {folder.path}: volumes that can't be read: 1\n"
    same("what is printed of a file that can't be read", folder.checked(), (4, faulty, reported))


def checked_beside(tried: Tried) -> None:
    folder = Folder(tried)
    reported = f"vtl: {folder.path}: there is no library here (no library.toml); --new-library makes one\n"
    same("a look over a folder without a library", folder.checked(), (2, "", reported))
    with folder.served("--volumes", "1") as server:
        host = Host(server)
        host.loads()
        host.writes(b"hi")
        host.asks(DRIVE, FILEMARK)
        same("a look next to a server", folder.checked(), (0, "VOL00001: 2 objects, 2 bytes in blocks, 1 filemarks, whole\n", ""))
        ended(server)


def just_full(tried: Tried) -> None:
    """A volume of 1 MiB whose image has as many bytes of blocks, and one whose image has two more and takes no more either."""
    blocks = [bytes([number]) * LONGEST_BLOCK for number in range(16)]
    folder = Folder(tried, FULL=b"".join(map(block, blocks)), MORE=b"".join(map(block, blocks)) + HI)
    with folder.served("--volume-size", "1M") as server:
        same("what is reported", server.reported_lines(), [])
        host = Host(server)
        host.loads()
        host.reads(*blocks)
        host.asks(DRIVE, scsi.write(1), overflow(1), b"\0")
        host.changes(0x402, 0x401)
        host.reads(*blocks, b"hi")
        host.asks(DRIVE, scsi.write(1), overflow(1), b"\0")
        ended(server)


ROWS = [
    Row("no-write-bit", "an image that nobody may write is a protected volume", no_write_bit),
    Row("other-files", "what is no image of its own is left out, and links are followed", others),
    Row("modes", "files and folders that are made are their owner's alone, and others are told", modes),
    Row("checked", "what images hold is printed, and their faults", checked),
    Row("checked-beside", "a folder is looked over beside its server", checked_beside),
    Row("more-than-a-piece", "a tape of more than a piece is lent and written over", more_than_a_piece),
    Row("more-than-a-part", "more than a part is written in parts", more_than_a_part),
    Row("written-over", "an image is written as SIMH keeps it, and a tape is written over from an object on", written_over),
    Row("cut-tails", "a tail that a crash cut is told, and cut off by the next write", cut_tails),
    *(Row(name, of.shows, faulty(of)) for name, of in FAULTY.items()),
    *(Row(f"image-{name}", of.shows, image(of)) for name, of in IMAGES.items()),
    Row("just-full", "a tape that just takes its blocks, and one that has more takes what it has", just_full),
]
