"""Each call that brings something to the disk, failed alone by its name: what a host asked for has no answer, or nothing is written, or the
server's end says so. Once the call goes well again, so does what waited for it."""
import errno
import json
import typing

from compare import holds, same
from failing_calls import FailingCalls
from folder import FIRST, HI, MARK, THREE, Folder, ended, loaded
from frames import B
from host import FIRST_DRIVE, FIRST_STORAGE, WRITE_PROTECTED, Host
from play import Row, Tried
from program import run
from records import ANOTHER, RECORD, TAIL, put_record, record_of
from scsi import CHANGER, DRIVE, FILEMARK, NO_FILEMARK, move, write
from server import refused
from term import wait_until

IMAGE, NEW_IMAGE, NEW_RECORD, INVENTORY, FOLDER = f"/{FIRST}", f"/{FIRST}.new", f"/{RECORD}.new", "/library.toml.new", "/media"
NOTHING = {"volumes": [], "inventory": False}


class Failing(typing.NamedTuple):
    """A call that fails for a file, from the first such call up to the last, or for ever."""

    call: str
    suffix: str
    first: int = 1
    last: int = 0


def fail(calls: FailingCalls, failing: typing.Iterable[Failing]) -> None:
    for of in failing:
        calls.fail(of.call, of.suffix, errno.EIO, of.first, of.last)


def await_failing(tried: Tried, wanted: dict[str, typing.Any]) -> None:
    """Waits until `vtl status` says that these can't be written."""
    def is_so() -> bool:
        return json.loads(run([tried.program, "status", "--control", tried.path("control"), "--json"])[1])["failing"] == wanted

    wait_until(f"a status that says {wanted}", is_so, pause=0.05)


# Where a sync of the image fails, so does that of the file that is to take its place. The image is written twice in place before that.
TO_A_NEW_FILE = Failing("fdatasync", IMAGE, last=2)


class Withheld(typing.NamedTuple):
    """What it shows, what fails before it and then for ever, and whether the record in the folder stays what it was."""

    shows: str
    failing: list[Failing]
    keeps_record: bool = True


WITHHELD = {
    "image": Withheld("the image is on the disk", [Failing("fdatasync", NEW_IMAGE), Failing("fdatasync", IMAGE)]),
    "record": Withheld("its record is on the disk", [Failing("fsync", NEW_RECORD), Failing("fdatasync", f"/{RECORD}")], False),
    "new-image": Withheld("a file that takes the place of the image is on the disk", [TO_A_NEW_FILE, Failing("fdatasync", NEW_IMAGE)]),
    "new-name": Withheld("the name of that file is on the disk", [TO_A_NEW_FILE, Failing("fsync", FOLDER)]),
    "new-record": Withheld("the record of that file is on the disk", [TO_A_NEW_FILE, Failing("fsync", NEW_RECORD)]),
    "name-of-new-record": Withheld("the name of that record is on the disk", [TO_A_NEW_FILE, Failing("fsync", FOLDER, first=2)], False),
}


def withheld(of: Withheld) -> typing.Callable[[Tried], None]:
    def play(tried: Tried) -> None:
        calls, folder = FailingCalls(tried), Folder(tried)
        with loaded(folder, "--volumes", "1", "--control", tried.path("control"), environment=calls.environment) as (server, host):
            record = folder.bytes_of(RECORD)
            host.writes(b"hi")
            await_failing(tried, NOTHING)
            fail(calls, of.failing)
            host.is_ended_by(DRIVE, FILEMARK)
            server.reported.wait_for("vtl: volume VOL00001 could not be written: Input/output error (os error 5)\n")
            last = of.failing[-1]
            calls.await_failed(last.call, last.suffix)
            await_failing(tried, {"volumes": ["VOL00001"], "inventory": False})
            other = Host(server, B)
            other.meets(DRIVE)
            other.is_ended_by(DRIVE, NO_FILEMARK)
            await_failing(tried, {"volumes": ["VOL00001"], "inventory": False})
            if of.keeps_record:
                same("the record while it fails", folder.bytes_of(RECORD), record)
            calls.mend()
            server.reported.wait_for("vtl: volume VOL00001 is written again\n")
            await_failing(tried, NOTHING)
            third = Host(server, B + 1)
            third.meets(DRIVE)
            third.asks(DRIVE, FILEMARK)
            folder.same_image("the image once it goes well", FIRST, HI + 2 * MARK)
            ended(server)

    return play


def moved(suffix: str, is_whole: bool) -> typing.Callable[[Tried], None]:
    """Where the new inventory isn't on the disk itself, it doesn't take the place of the old one."""
    def play(tried: Tried) -> None:
        calls, folder = FailingCalls(tried), Folder(tried)
        with folder.served("--volumes", "1", "--control", tried.path("control"), environment=calls.environment) as server:
            host = Host(server)
            host.meets(CHANGER)
            before = folder.inventory()
            calls.fail("fsync", suffix)
            host.is_ended_by(CHANGER, move(FIRST_STORAGE, FIRST_DRIVE))
            await_failing(tried, {"volumes": [], "inventory": True})
            same("whether the inventory is the old one", folder.inventory() == before, is_whole)
            calls.mend()
            await_failing(tried, NOTHING)
            other = Host(server, B)
            other.meets(CHANGER)
            other.moves(FIRST_DRIVE, FIRST_STORAGE)
            same("the inventory once it goes well", folder.inventory(), before)
            ended(server)

    return play


class Started(typing.NamedTuple):
    """What isn't brought to the disk, what fails, and the file of the folder that is said not to be written."""

    shows: str
    failing: Failing
    path: str
    image: bytes = HI
    # How much of the image is on the disk by its record, and since which run of the machine, if it has a record.
    record: tuple[int, str] | None = None


BEFORE_A_POWER_CUT = len(HI), ANOTHER
STARTED = {
    "image": Started("an image without a record", Failing("fdatasync", IMAGE), RECORD),
    "record": Started("the record of an image", Failing("fsync", NEW_RECORD), RECORD),
    "tail": Started("a tail that is moved away", Failing("fsync", f"/{TAIL}"), TAIL, THREE, BEFORE_A_POWER_CUT),
    "name-of-tail": Started("the name of a tail", Failing("fsync", FOLDER, last=1), TAIL, THREE, BEFORE_A_POWER_CUT),
    "cut": Started("an image whose tail was moved away", Failing("fdatasync", IMAGE), FIRST, THREE, BEFORE_A_POWER_CUT),
}


def started(of: Started) -> typing.Callable[[Tried], None]:
    """The volume is served write-protected, and the next start, at which nothing fails, serves it as ever."""
    def play(tried: Tried) -> None:
        calls, folder = FailingCalls(tried), Folder(tried, VOL00001=of.image)
        if of.record is not None:
            put_record(folder, *of.record)
        fail(calls, [of.failing])
        with folder.served(environment=calls.environment) as server:
            why = "Input/output error (os error 5): the volume is write-protected until the next start\n"
            holds("what is reported", server.reported.text, f"vtl: {folder.path_of(FIRST)}: cannot write {folder.path_of(of.path)}: {why}")
            same("whether it failed", [line.split()[0] for line in calls.failed()], [of.failing.call])
            host = Host(server)
            host.loads()
            host.reads(b"hi")
            host.asks(DRIVE, write(1), WRITE_PROTECTED, b"\1")
            ended(server)
        calls.mend()
        with folder.served(environment=calls.environment) as server:
            host = Host(server)
            host.meets(DRIVE)
            host.reads(b"hi")
            host.asks(DRIVE, FILEMARK)
            ended(server)
        folder.same_image("the image once it goes well", FIRST, HI + MARK)

    return play


def new_library(tried: Tried) -> None:
    """Nothing is served of a library that is made where its inventory can't be brought to the disk."""
    calls, folder = FailingCalls(tried), Folder(tried, VOL00001=HI)
    fail(calls, [Failing("fsync", INVENTORY)])
    fault = f"vtl: device fault\nvtl: cannot write {folder.path_of('library.toml.new')}: Input/output error (os error 5)\n"
    same("the status and what is reported", refused(
        tried, "--socket", tried.path("socket"), *folder.words(), environment=calls.environment), (4, fault))
    same("what failed", calls.failed(), [f"fsync {folder.path_of('library.toml.new')}"])


def at_the_end(tried: Tried) -> None:
    """What a WRITE wrote is copied without a sync, so only the end can find that it isn't on the disk."""
    calls, folder = FailingCalls(tried), Folder(tried)
    with loaded(folder, "--volumes", "1", environment=calls.environment) as (server, host):
        fail(calls, [Failing("fdatasync", NEW_IMAGE), Failing("fdatasync", IMAGE)])
        host.writes(b"hi")
        host.log_out()
        server.end()
        server.ends("not all of the media could be written")
        holds("what is reported", server.reported.text, "vtl: volume VOL00001 is not whole on the disk\n")
        holds("what failed", "\n".join(calls.failed()), f"fdatasync {folder.path_of(FIRST)}")
    same("how much is on the disk by the record", record_of(folder)["length"], 0)


ROWS = [
    *(Row(f"sync-of-{name}", f"a filemark is answered once {of.shows}", withheld(of)) for name, of in WITHHELD.items()),
    Row("sync-of-inventory", "a move is answered once the new inventory is on the disk", moved(INVENTORY, True)),
    Row("sync-of-inventory-name", "a move is answered once the name of the new inventory is on the disk", moved(FOLDER, False)),
    *(Row(f"sync-at-start-{name}", f"a volume is served write-protected where {of.shows} can't be brought to the disk", started(of))
      for name, of in STARTED.items()),
    Row("sync-of-new-library", "no library is made whose inventory can't be brought to the disk", new_library),
    Row("sync-at-the-end", "a server doesn't end well where what a WRITE wrote can't be brought to the disk", at_the_end),
]
