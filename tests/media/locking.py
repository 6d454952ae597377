"""The locks by which one server has a folder, and what becomes of a server whose folder or lock is gone. docs/OPERATING.md has them, "Media
that last"."""
import contextlib
import errno
import fcntl
import os
import pathlib
import shutil
import typing

from compare import same
from failing_calls import FailingCalls
from folder import FIRST, HI, LOCK, MARK, Folder, ended, loaded
from host import WRITE_PROTECTED, Host
from play import Row, Tried
from scsi import CHANGER, DRIVE, FILEMARK, move, write
from server import refused

RECORD = "VOL00001.synced"
FIRST_STORAGE, FIRST_DRIVE = 0x400, 0x100


@contextlib.contextmanager
def locked(path: str) -> typing.Iterator[None]:
    """Another program has the lock of a file, as one on another machine may that has no lock of the folder."""
    with open(path, "ab") as file:
        fcntl.flock(file, fcntl.LOCK_EX)
        yield


def start(folder: Folder, calls: FailingCalls) -> tuple[int, str]:
    """The status and what is reported of a start that is refused while calls fail."""
    return refused(
        folder.tried, "--socket", folder.tried.path("socket"), *folder.words(), environment=calls.environment)


def of_a_file(tried: Tried) -> None:
    """The lock is on a file too, since clients of some shared file systems keep a lock on a folder to themselves."""
    folder = Folder(tried, VOL00001=HI + MARK)
    path = folder.path_of(LOCK)
    refusal = f"vtl: {folder.path}: another program has this folder\n"
    with locked(path):
        same("the status and what is reported while another program has the lock", folder.refused(), (2, refusal))
        waits = f"vtl: another program has {folder.path}: waiting up to 1 seconds for it\n"
        same("the same after a wait", folder.refused("--wait-for-folder", "1"), (2, waits + refusal))
    same("what is in the folder", sorted(os.listdir(folder.path)), [FIRST, LOCK])
    os.remove(path)
    with folder.served() as server:
        same("the mode of the file", os.stat(path).st_mode & 0o777, 0o600)
        with open(path, "rb+") as file:
            try:
                fcntl.flock(file, fcntl.LOCK_EX | fcntl.LOCK_NB)
                same("whether the lock is free while a library is served", True, False)
            except BlockingIOError:
                pass
        ended(server)
    same("what the file has", folder.bytes_of(LOCK), b"")


def waited(tried: Tried) -> None:
    """A start that waits has made nothing before, and serves once the lock is free."""
    folder = Folder(tried, VOL00001=HI)
    waits = f"vtl: another program has {folder.path}: waiting up to 60 seconds for it"
    with contextlib.ExitStack() as held:
        held.enter_context(locked(folder.path_of(LOCK)))
        server = folder.served("--wait-for-folder", "60")
        server.reported.wait_for(f"{waits}\n")
        same("whether it listens meanwhile", pathlib.Path(server.path).exists(), False)
        held.close()
        with server:
            same("what is reported", server.reported_lines(), [waits])
            ended(server)


def no_lock(tried: Tried) -> None:
    """A file system that can't lock can't hold a library, and what isn't a file isn't opened."""
    folder = Folder(tried, VOL00001=HI)
    path = folder.path_of(LOCK)
    calls = FailingCalls(tried)
    for call, error in [("open", errno.EACCES), ("flock", errno.ENOLCK)]:
        calls.fail(call, f"/{LOCK}", error)
        fault = f"vtl: device fault\nvtl: cannot lock {path}: {os.strerror(error)} (os error {error})\n"
        same(f"the status and what is reported where {call} fails", start(folder, calls), (4, fault))
        calls.mend()
    os.remove(path)
    os.mkfifo(path)
    fault = f"vtl: device fault\nvtl: cannot lock {path}: it is not a regular file\n"
    same("the status and what is reported of a pipe", folder.refused(), (4, fault))


def in_drive(tried: Tried) -> Folder:
    """A library whose volume is in its drive."""
    folder = Folder(tried, VOL00001=HI)
    with loaded(folder) as (server, _):
        ended(server)
    return folder


def read_only(tried: Tried) -> None:
    """In a file system in which nothing can be written the folder's own lock is enough, and the volumes are write-protected."""
    folder = in_drive(tried)
    calls = FailingCalls(tried)
    for name in [LOCK, FIRST]:
        calls.fail("open", f"/{name}", errno.EROFS, last=1)
    calls.fail("unlink", "/library.toml.new", errno.EROFS)
    toml = folder.path_of("library.toml.new")
    with folder.served(environment=calls.environment) as server:
        same("what is reported", server.reported_lines(), [
            f"vtl: {folder.path_of(FIRST)}: it can't be written, so the volume is write-protected",
            f"vtl: cannot write {toml}: Read-only file system (os error 30): where volumes are is not saved, and is tried again"])
        host = Host(server)
        host.meets(DRIVE)
        host.asks(DRIVE, write(1), WRITE_PROTECTED, b"\1")
        calls.mend()
        server.reported.wait_for("vtl: the inventory is written again\n")
        ended(server)
    folder.same_image("the image that is left", FIRST, HI)


def file_away(tried: Tried) -> None:
    """Without its file another server could come in: what would be saved isn't, and the reply isn't sent."""
    for place, act in {"removed": os.remove, "replaced": lambda path: os.replace(path_of_another(path), path)}.items():
        folder = Folder(tried, place, VOL00001=HI)
        with folder.served() as server:
            host = Host(server)
            host.meets(CHANGER)
            was = folder.inventory()
            act(folder.path_of(LOCK))
            host.is_ended_by(CHANGER, move(FIRST_STORAGE, FIRST_DRIVE))
            server.reported.wait_for("vtl: the inventory could not be written: the path of its folder no longer leads there\n")
            same("the inventory", folder.inventory(), was)


def path_of_another(path: str) -> str:
    pathlib.Path(f"{path}.other").touch(0o600)
    return f"{path}.other"


def lock_lost(tried: Tried) -> None:
    """Once the lock is lost nothing is saved any more, also where the system would give it again, and the status at the end says so."""
    folder = Folder(tried, VOL00001=HI)
    calls = FailingCalls(tried)
    with folder.served(environment=calls.environment) as server:
        host = Host(server)
        host.meets(CHANGER)
        was = folder.inventory()
        calls.fail("flock", f"/{LOCK}", errno.EIO)
        host.is_ended_by(CHANGER, move(FIRST_STORAGE, FIRST_DRIVE))
        server.reported.wait_for("vtl: the inventory could not be written: the lock of its folder is lost\n")
        calls.mend()
        server.end()
        same("the status at the end", server.process.wait(60), 4)
        same("the inventory", folder.inventory(), was)


def folder_replaced(tried: Tried) -> None:
    """A server whose folder was renamed changes no file of the folder that took its place, not even the new one of another server."""
    folder = Folder(tried, VOL00001=HI)
    calls = FailingCalls(tried)
    with loaded(folder, environment=calls.environment) as (server, host):
        calls.fail("fdatasync", f"/{FIRST}")
        host.is_ended_by(DRIVE, FILEMARK)
        away = tried.path("away")
        os.rename(folder.path, away)
        shutil.copytree(away, folder.path)
        folder.put(f"{FIRST}.new", b"another server's")
        image = folder.bytes_of(FIRST)
        calls.await_failed("fdatasync", f"/{FIRST}")
        calls.mend()
        other = Host(server, sas=0x500000000000000B)
        other.meets(DRIVE)
        other.is_ended_by(DRIVE, FILEMARK)
        same("the new file of the other server", folder.bytes_of(f"{FIRST}.new"), b"another server's")
        folder.same_image("the image in the folder that took its place", FIRST, image)


ROWS = [
    Row("lock-of-a-file", "a start is refused while another program has the lock of the folder's file", of_a_file),
    Row("lock-waited-for", "a start waits for the folder if that is asked for", waited),
    Row("lock-none", "a start is refused where the lock can't be taken, with the reason", no_lock),
    Row("lock-read-only", "a library in a file system in which nothing can be written is served write-protected", read_only),
    Row("lock-file-away", "nothing is saved once the lock's file is removed or replaced", file_away),
    Row("lock-lost", "a server that has lost its lock saves nothing more", lock_lost),
    Row("folder-replaced", "nothing is changed in a folder that takes the place of the one that was opened", folder_replaced),
]
