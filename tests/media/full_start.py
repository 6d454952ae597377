"""A start on a disk that is full, or on which something can't be written for another reason: what is served all the same, and how."""
import errno
import os

from compare import holds, same
from failing_calls import FailingCalls
from folder import FIRST, HI, MARK, ODD, Folder, ended, loaded, with_records
from host import WRITE_PROTECTED, Host
from play import Row, Tried
from records import BOOT, RECORD, TAIL, put_record
from scsi import CHANGER, DRIVE, FILEMARK, write
from server import refused

NO_ROOM = "No space left on device (os error 28)"
UNTIL = "the volume is write-protected until the next start"
TOML = "library.toml"
NEW_TOML = "library.toml.new"


def in_drive(tried: Tried, image: bytes) -> Folder:
    """A library whose volume is in its drive, and has this image."""
    folder = Folder(tried, VOL00001=image)
    with loaded(folder) as (server, _):
        ended(server)
    return folder


def is_protected(folder: Folder, calls: FailingCalls, file: str, *objects: bytes | None) -> None:
    """The volume is served as it is, write-protected, and nothing of its file and of its record changes."""
    left, record = folder.bytes_of(FIRST), folder.bytes_of(RECORD)
    with folder.served(environment=calls.environment) as server:
        why = f"vtl: {folder.path_of(FIRST)}: cannot write {folder.path_of(file)}: {NO_ROOM}: {UNTIL}"
        same("what is reported", server.reported_lines(), [why])
        host = Host(server)
        host.meets(DRIVE)
        host.reads(*objects)
        host.asks(DRIVE, write(1), WRITE_PROTECTED, b"\1")
        ended(server)
    folder.same_image("the image that is left", FIRST, left)
    same("the record that is left", folder.bytes_of(RECORD), record)


def of_a_tail(tried: Tried) -> None:
    folder = in_drive(tried, HI + MARK)
    folder.put(FIRST, HI + MARK + ODD)
    put_record(folder, 14, BOOT)
    for call in ["open", "write", "fsync"]:
        calls = FailingCalls(tried)
        calls.fail(call, f"/{TAIL}", errno.ENOSPC)
        is_protected(folder, calls, TAIL, b"hi", None)
        same("what is in the folder", folder.names(), [*with_records(FIRST), TOML])
    with folder.served() as server:
        holds("what is reported once there is room", server.reported.text, f"were moved to {folder.path_of(TAIL)}\n")
        host = Host(server)
        host.meets(DRIVE)
        host.reads(b"hi", None)
        host.asks(DRIVE, FILEMARK)
        ended(server)
    folder.same_image("the image then", FIRST, HI + MARK + MARK)


def of_a_record(tried: Tried) -> None:
    folder = in_drive(tried, HI + MARK)
    put_record(folder, 14, BOOT.replace(BOOT[0], "0"))
    for call in ["open", "write", "fsync"]:
        calls = FailingCalls(tried)
        calls.fail(call, f"/{RECORD}.new", errno.ENOSPC)
        is_protected(folder, calls, RECORD, b"hi", None)


def of_the_inventory(tried: Tried) -> None:
    """A running server knows that already: a move isn't answered, and the inventory is written as soon as there is room."""
    folder = Folder(tried, VOL00001=HI)
    with folder.served() as server:
        ended(server)
    calls = FailingCalls(tried)
    calls.fail("write", f"/{NEW_TOML}", errno.ENOSPC)
    with folder.served(environment=calls.environment) as server:
        why = f"vtl: cannot write {folder.path_of(NEW_TOML)}: {NO_ROOM}: where volumes are is not saved, and is tried again"
        same("what is reported", server.reported_lines(), [why])
        host = Host(server)
        host.meets(CHANGER)
        host.is_ended_by(CHANGER, "a50000000400010000000000")
        calls.mend()
        server.reported.wait_for("vtl: the inventory is written again\n")
        ended(server)
    holds("the inventory at the end", folder.inventory(), 'tag = "VOL00001"\ndata_transfer = 0\n')


def of_orders(tried: Tried) -> None:
    """What the file orders is refused with the reason, since it would be carried out at each start; and so is a new library."""
    folder = Folder(tried, VOL00001=HI)
    with folder.served() as server:
        ended(server)
    inventory = folder.inventory()
    calls = FailingCalls(tried)
    calls.fail("write", f"/{NEW_TOML}", errno.ENOSPC)
    fault = f"vtl: device fault\nvtl: cannot write {folder.path_of(NEW_TOML)}: {NO_ROOM}\n"
    for order in ['blank = ["VOL00002"]', 'protect = ["VOL00001"]']:
        folder.put(TOML, inventory.replace("\n[[volume]]", f"{order}\n\n[[volume]]", 1).encode())
        status, reported = start(folder, calls)
        same("the status", status, 4)
        holds("what is reported", reported, fault)
    os.remove(folder.path_of(TOML))
    status, reported = start(folder, calls)
    same("the status of a new library", status, 4)
    holds("what is reported of a new library", reported, fault)


def start(folder: Folder, calls: FailingCalls) -> tuple[int, str]:
    """The status and what is reported of a start that is refused while calls fail."""
    return refused(folder.tried, "--socket", folder.tried.path("socket"), *folder.words(), environment=calls.environment)


ROWS = [
    Row("start-full-tail", "a volume whose tail can't be moved away is served write-protected, and no part of a tail is left", of_a_tail),
    Row("start-full-record", "a volume whose record can't be written is served write-protected", of_a_record),
    Row("start-full-inventory", "a library whose inventory can't be written is served, and the inventory is failing", of_the_inventory),
    Row("start-full-orders", "a start that has orders to carry out is refused where the inventory can't be written", of_orders),
]
