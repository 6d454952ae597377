"""When volumes are kept: what is in an image after a write and with a filemark's answer, and what becomes of that where a disk is full, a
file can't be brought to the disk, or can't be written."""
import contextlib
import os
import pathlib
import resource
import sys
import time
import typing

from compare import holds, same
from failing_calls import FailingCalls
from folder import FIRST, HI, MARK, NEW, ODD, Folder, block, ended, loaded, write_protected
from frames import B
from host import WRITE_PROTECTED, Host, good
from play import Row, Tried
from scsi import CHANGER, DRIVE, ERASE, FILEMARK, NO_FILEMARK, REWIND, TO_THE_END, UNLOAD, locate, move
from server import Server

# A block that is longer than a record.
LONG = block(b"hi" * 100)

FAILED, AGAIN = "vtl: volume VOL00001 could not be written: ", "vtl: volume VOL00001 is written again\n"
CHANGED = "something else has changed the file, or taken its place"


def is_ended(server: Server, sas: int) -> None:
    """Another host's filemark has no answer either."""
    host = Host(server, sas)
    host.meets(DRIVE)
    host.is_ended_by(DRIVE, NO_FILEMARK)


def copied_after(tried: Tried) -> None:
    folder = Folder(tried)
    with loaded(folder, "--volumes", "1") as (server, host):
        host.writes(b"hi")
        folder.await_image("what is copied after a write", FIRST, HI)
        host.asks(DRIVE, FILEMARK)
        folder.same_image("what a filemark is answered after", FIRST, HI + MARK)
        ended(server)


def each_drive(tried: Tried) -> None:
    """A filemark is answered after what the volume in its own drive has, and that in the other is left as it is."""
    folder = Folder(tried)
    with folder.served("--drives", "2", "--volumes", "2") as server:
        host = Host(server)
        host.meets(CHANGER)
        for at in range(2):
            host.moves(0x400 + at, 0x100 + at)
            host.meets(DRIVE + at)
        host.writes(b"hi")
        host.asks(DRIVE, FILEMARK)
        folder.same_image("the volume in the first drive after its filemark", FIRST, HI + MARK)
        folder.same_image("that in the second before it is written", "VOL00002.tap", b"")
        host.writes(b"odd", lun=DRIVE + 1)
        host.asks(DRIVE + 1, FILEMARK)
        folder.same_image("the volume in the second drive after its filemark", "VOL00002.tap", ODD + MARK)
        folder.same_image("that in the first then", FIRST, HI + MARK)
        ended(server)


def bound(tried: Tried, lines: str) -> Tried:
    """The program after lines of Python that bind it."""
    path = pathlib.Path(tried.path("bound"))
    path.write_text(
        f"#!{sys.executable}\nimport ctypes, os, sys\n{lines}\nos.execv({tried.program!r}, [{tried.program!r}, *sys.argv[1:]])\n",
        encoding="utf-8")
    path.chmod(0o700)
    return Tried(str(path), tried.folder)


def never_synced(tried: Tried) -> None:
    """A disk that can't take what a file has shows by which commands that is tried. The volume lies in the drive from the start on, since a
    move would try it too; and it was served before, since else its record is brought to the disk at the start."""
    calls, folder = FailingCalls(tried), Folder(tried, VOL00001=b"")
    folder.put("library.toml", b'version = 1\ndrives = 1\nslots = 1\nportals = 0\n[[volume]]\ntag = "VOL00001"\ndata_transfer = 0\n')
    with folder.served() as server:
        ended(server)
    calls.fail("fdatasync", "/VOL00001.tap")
    calls.fail("fdatasync", "/VOL00001.tap.new")
    with folder.served(environment=calls.environment) as server:
        host = Host(server)
        host.meets(DRIVE)
        host.writes(b"hi")
        host.asks(DRIVE, REWIND)
        host.asks(DRIVE, TO_THE_END)
        same("what is reported", server.reported_lines(), [])
        host.is_ended_by(DRIVE, FILEMARK)
        server.reported.wait_for(f"{FAILED}Input/output error (os error 5)\n")
        # It is tried again without a command too, and reported once.
        is_ended(server, B)
        time.sleep(1.2)
        server.end()
        server.ends("not all of the media could be written")
        same("how often it is reported", server.reported.text.count(FAILED), 1)
        holds("what is reported at the end", server.reported.text, "vtl: volume VOL00001 is not whole on the disk\n")


def limited(folder: Folder, *words: str) -> typing.ContextManager[tuple[Server, Host]]:
    """A server whose files may grow up to a limit, and a host at its drive with a volume."""
    return loaded(folder, *words, room=resource.RLIM_INFINITY)


def ends_well(server: Server) -> None:
    """What was reported once goes on once there is room, and all is kept at the end."""
    ended(server)
    same("how often it is reported that it fails", server.reported.text.count(FAILED), 1)
    same("how often it is reported that it goes on", server.reported.text.count(AGAIN), 1)


def full_and_mended(tried: Tried) -> None:
    """A tape is written over from its second object on; of what replaces the others half finds room in the file. It is awaited, since the
    server tries again by itself, and cuts the file back each time. The first object is longer than a record, which has room."""
    folder = Folder(tried, VOL00001=LONG + MARK + ODD)
    with limited(folder) as (server, host):
        server.limit_lines(len(LONG) + 8)
        host.asks(DRIVE, locate(1))
        host.writes(b"new")
        host.is_ended_by(DRIVE, FILEMARK)
        server.reported.wait_for(f"{FAILED}disk full\n")
        folder.await_image("what stays, and a cut tail", FIRST, LONG + NEW[:8])
        is_ended(server, B)
        folder.await_image("the same after another try", FIRST, LONG + NEW[:8])
        server.limit_lines()
        other = Host(server, B + 1)
        other.meets(DRIVE)
        other.asks(DRIVE, NO_FILEMARK)
        folder.same_image("what the next filemark mends", FIRST, LONG + NEW + MARK)
        server.reported.wait_for(AGAIN)
        ends_well(server)
    folder.same_image("the image at the end", FIRST, LONG + NEW + MARK)


def full_and_kept_at_the_end(tried: Tried) -> None:
    folder = Folder(tried)
    with limited(folder, "--volumes", "1") as (server, host):
        server.limit_lines(0)
        host.writes(b"hi")
        host.is_ended_by(DRIVE, FILEMARK)
        server.reported.wait_for(f"{FAILED}disk full\n")
        is_ended(server, B)
        folder.same_image("nothing is kept", FIRST, b"")
        server.limit_lines()
        ends_well(server)
    folder.same_image("all is kept at the end", FIRST, HI + MARK)


def moved_and_mended(tried: Tried) -> None:
    """The file of a volume is full, and it is moved back to storage. That holds up no move of another, and it is written there without any
    command once there is room. The limit leaves room for the inventory."""
    large = b"hi" * 4096
    folder = Folder(tried)
    with limited(folder, "--volumes", "2") as (server, host):
        server.limit_lines(4096)
        host.writes(large)
        host.is_ended_by(DRIVE, FILEMARK)
        server.reported.wait_for(f"{FAILED}disk full\n")
        mover = Host(server, B)
        mover.meets(CHANGER)
        mover.is_ended_by(CHANGER, move(0x100, 0x400))
        other = Host(server, B + 1)
        other.meets(CHANGER)
        other.moves(0x401, 0x100)
        server.limit_lines()
        folder.await_image("the volume in storage", FIRST, block(large) + MARK)
        server.reported.wait_for(AGAIN)
        ends_well(server)


def without_a_right(tried: Tried) -> Tried:
    """The program without the right to write files that are for reading alone, which root has (CAP_DAC_OVERRIDE)."""
    return bound(tried, "ctypes.CDLL(None).prctl(24, 1, 0, 0, 0)")


def protected(tried: Tried) -> None:
    with write_protected(Folder(without_a_right(tried), VOL00001=HI)) as host:
        host.asks(DRIVE, FILEMARK, WRITE_PROTECTED)
        host.asks(DRIVE, NO_FILEMARK)
        host.asks(DRIVE, ERASE, WRITE_PROTECTED)
        host.reads(b"hi")
        host.asks(DRIVE, UNLOAD)
        # MODE SENSE of all pages: WP is set, buffered mode off, and the block descriptor says blocks of any length.
        host.asks(DRIVE, "1a003f00ff00", good(bytes.fromhex("0b008008" "00000000" "00000000")))


@contextlib.contextmanager
def spoilt(tried: Tried, spoil: typing.Callable[[pathlib.Path], None]) -> typing.Iterator[tuple[Server, Host]]:
    """A server and a host at its drive, to whose volume's file something else did something after a filemark. The volume is written on,
    then it is to be whole in a file of its name, also at the next start."""
    folder = Folder(tried)
    with loaded(folder, "--volumes", "1") as (server, host):
        host.writes(b"hi")
        host.asks(DRIVE, FILEMARK)
        spoil(folder.path / FIRST)
        host.writes(b"new")
        yield server, host
        server.reported.wait_for(AGAIN)
        other = Host(server, B)
        other.meets(DRIVE)
        other.asks(DRIVE, FILEMARK)
        folder.same_image("all of the tape", FIRST, HI + MARK + NEW + 2 * MARK)
        ends_well(server)
    with folder.served() as server:
        same("what is reported at the next start", server.reported_lines(), [])
        ended(server)
    folder.same_image("the tape after it", FIRST, HI + MARK + NEW + 2 * MARK)


def shortened(tried: Tried) -> None:
    """It is found where the next block doesn't go on the end. The file is cut back once more in vain, then a new one is written."""
    with spoilt(tried, lambda path: os.truncate(path, 3)) as (server, host):
        server.reported.wait_for(f"{FAILED}{CHANGED}\n")
        server.reported.wait_for(AGAIN)
        host.asks(DRIVE, FILEMARK)


def removed(tried: Tried) -> None:
    """It is found where the file is brought to the disk."""
    with spoilt(tried, pathlib.Path.unlink) as (server, host):
        host.is_ended_by(DRIVE, FILEMARK)
        server.reported.wait_for(f"{FAILED}{CHANGED}\n")


ROWS = [
    Row("copied-behind", "a write is copied behind it, and a filemark is in the image before it is answered", copied_after),
    Row("each-drive", "whoever keeps volumes is let at the unit that was written at, and at no other", each_drive),
    Row("never-synced", "a filemark is brought to the disk, a WRITE and a REWIND aren't; a sync that fails is told once and tried again",
        never_synced),
    Row("full-and-mended", "a flush that fails in its append is told once, tried again, and mended by the next", full_and_mended),
    Row("full-and-kept-at-the-end", "a full disk is told once and tried again", full_and_kept_at_the_end),
    Row("moved-and-mended", "a volume in storage whose file is full holds up no move of another, and is tried again without a command",
        moved_and_mended),
    Row("shortened", "a volume's file that something else has shortened is written anew from memory", shortened),
    Row("removed", "a volume's file that something else has removed is written anew from memory", removed),
    Row("protected", "WRITE and ERASE leave a protected volume", protected),
]
