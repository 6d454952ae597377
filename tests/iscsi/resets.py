"""Units that another session resets where commands wait."""
import scsi
from compare import same
from frames import WAS_RESET, reset
from pdus import (
    ABORT_TASK, BY_RESET, CHANGER, COMPLETE, DRIVE, NOWHERE, NO_LUN, NO_TASK, checked, data_out, good, manage, managed, nop_in, nop_out,
    ready, wanted, write)
from scenes import FIRST, RESET, TEST, WRITE, Scene, Table, begins, gets, sends, sends_first, sends_rest, under
from stage import Stage, Step


def resets(unit: int) -> Step:
    """The host at the socket resets a unit."""
    def do(stage: Stage) -> None:
        same("how a reset is answered", stage.host.ask(reset(unit)).hex(), WAS_RESET.hex())

    return do


def asks_whether_there(tag: int, number: int) -> bytes:
    """A NOP-Out that takes up no number. Its answer shows that all before it was taken."""
    return nop_out(tag, number, now=True)


# A session looks whether units were reset whenever it has read something. By the NOP-Out the commands before it wait before the reset.
WRITE_WAITS = [*begins(), sends(write(2, 1)), gets(wanted(2, (3, 2, 32)))]
DATA = data_out(2, b"abcd")
PING = asks_whether_there(5, 3)


def with_after(lun: str) -> list[Step]:
    """A command after the write waits for its turn."""
    return [*begins(), sends(write(2, 1), ready(3, 2, lun), asks_whether_there(4, 3)), gets(wanted(2, (3, 2, 32)), nop_in(4, (3, 3, 32)))]


SCENES = under(
    "commands at a unit that another session resets are not executed",
    Scene("a write that waits for its data goes, and the command behind it is executed", [
        *with_after(CHANGER), resets(scsi.DRIVE), sends_first(20, PING), gets(good(3, (4, 3, 34))), sends_rest(20, PING),
        gets(nop_in(5, (5, 3, 34)))], drive=[RESET], changer=[TEST], tape=b""),
    Scene("a command that waits for its turn goes, and the write before it is executed", [
        *with_after(CHANGER), resets(scsi.CHANGER), sends(DATA), gets(good(2, (4, 3, 34)))], drive=[WRITE], changer=[RESET], tape=b"abcd"),
    Scene("both are at the unit", [
        *with_after(DRIVE), resets(scsi.DRIVE), sends(DATA, PING), gets(nop_in(5, (4, 3, 34)))], drive=[RESET], tape=b""),
    Scene("the last of its data come, and it isn't executed", [
        *WRITE_WAITS, sends_first(51, DATA), resets(scsi.DRIVE), sends_rest(51, DATA), sends(asks_whether_there(4, 2)),
        gets(nop_in(4, (3, 2, 33)))], drive=[RESET], tape=b""),
    # It is notified of the reset.
    Scene("a command that comes behind the reset is executed", [
        *WRITE_WAITS, sends_first(12, DATA), resets(scsi.DRIVE), sends_rest(12, DATA), sends(ready(3, 2)),
        gets(checked(3, (3, 3, 34), BY_RESET))], drive=[RESET, FIRST], tape=b""),
    Scene("ABORT TASK finds ended what the reset has dropped, as often as it asks, and nothing else", [
        *WRITE_WAITS, resets(scsi.DRIVE),
        sends(
            manage(ABORT_TASK, 2, of=2), manage(ABORT_TASK, 2, of=2, tag=4), manage(ABORT_TASK, 2, of=9, tag=5),
            manage(ABORT_TASK, 2, of=2, lun=CHANGER, tag=6), manage(ABORT_TASK, 2, of=2, lun=NOWHERE, tag=7)),
        gets(
            managed(COMPLETE, (3, 2, 33)), managed(COMPLETE, (4, 2, 33), 4), managed(NO_TASK, (5, 2, 33), 5),
            managed(NO_TASK, (6, 2, 33), 6), managed(NO_LUN, (7, 2, 33), 7))], drive=[RESET], tape=b""),
    Scene("ABORT TASK ends a write under the tag of one that the reset has dropped", [
        *WRITE_WAITS, resets(scsi.DRIVE), sends(write(2, 2)), gets(wanted(2, (3, 3, 33), transfer=1)),
        sends(manage(ABORT_TASK, 3, of=2), data_out(2, b"abcd", 1), PING),
        gets(managed(COMPLETE, (3, 3, 34)), nop_in(5, (4, 3, 34)))], drive=[RESET], tape=b""),
    Scene("a reset before all", [
        resets(scsi.DRIVE), *begins(), sends(write(2, 1), DATA), gets(wanted(2, (3, 2, 32)), good(2, (3, 2, 33)))],
        drive=[WRITE], tape=b"abcd"),
    Scene("a reset of another unit", [
        *WRITE_WAITS, resets(scsi.CHANGER), sends(DATA), gets(good(2, (3, 2, 33)))], drive=[WRITE], changer=[RESET], tape=b"abcd"))

TABLES = [Table("resets by another session", SCENES)]
