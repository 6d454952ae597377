"""Whole sessions, in pieces too, and such as nothing comes from."""
import scsi
from host import GOOD, Host
from pdus import (
    CHANGER, DRIVE, GROUP, NAMES, NOWHERE, NO_SUCH_UNIT, OPERATIONAL, OUT_OF_RESOURCES, POWER_ON, SNACK_REJECT, TO_FULL, checked,
    data_with_good, good, inquiry, let_on, logged_out, login, logout, ping, ready, refused, rejected, snack, write)
from scenes import CUT, OUT, REFUSALS, SILENT, TEST, WRITE, Scene, Table, begins, gets, sends, sends_by, under
from scsi import NO_UNIT
from stage import Stage, Step, address_of

DATA = b"\1\2\3\4"
# A login with a first command at each unit; INQUIRY of 255 bytes and TEST UNIT READY at no unit; WRITE(6) of a block of four bytes as
# immediate data; and a logout, which is immediate. They are answered by 36 bytes of INQUIRY data in one Data-In, 219 fewer than expected,
# by CHECK CONDITION and by GOOD.
ONE_SESSION = (
    login(TO_FULL, NAMES), ready(98, 1, CHANGER, now=True), ready(99, 1, DRIVE, now=True), inquiry(2, 1, 255, 255, lun=NOWHERE),
    ready(3, 2, NOWHERE), write(4, 3, data=DATA), logout(5, 4, now=True))
ANSWERS = (
    let_on(TO_FULL, GROUP), checked(98, (1, 1, 32), POWER_ON), checked(99, (2, 1, 32), POWER_ON),
    data_with_good(2, (3, 2, 33), NO_UNIT, missing=219), checked(3, (4, 3, 34), NO_SUCH_UNIT), good(4, (5, 4, 35)),
    logged_out(5, (6, 4, 35)))


def one_session(shows: str, sent: Step) -> Scene:
    return Scene(shows, [sent, gets(*ANSWERS)], ended=OUT, drive=[WRITE], tape=DATA)


WHOLE = [
    one_session("a session is served byte for byte: all at once", sends(*ONE_SESSION)),
    *under("a stream in pieces is answered alike", *(
        one_session(f"in pieces of {shows}", sends_by(size, *ONE_SESSION))
        for shows, size in [("a byte", 1), ("7 bytes", 7), ("48 bytes", 48), ("100 bytes", 100)]))]


class AtTheSocket:
    """A host at the socket that has a session as the nexus of a scene's initiator."""

    def __init__(self) -> None:
        self.host: Host | None = None

    def comes(self, stage: Stage) -> None:
        """Its first commands are the nexus's first."""
        self.host = stage.connect_host(address_of(stage.scene))
        for lun in (scsi.CHANGER, scsi.DRIVE):
            self.host.meets(lun)

    def goes_on(self, _stage: Stage) -> None:
        """It isn't lost."""
        for lun in (scsi.CHANGER, scsi.DRIVE):
            self.host.asks(lun, scsi.TEST_UNIT_READY, GOOD)
        self.host.log_out()


OTHER = AtTheSocket()
SNACKS = [Scene("a SNACK is rejected, and the session goes on", [
    *begins(), sends(snack(7)), gets(rejected(SNACK_REJECT, (3, 1, 32), snack(7))), sends(ready(2, 1)), gets(good(2, (4, 2, 33)))],
    drive=[TEST])]
CUT_SHORT = [Scene("a session ends within a PDU", [*begins(), sends(ready(2, 1)[:20])], ended=CUT)]

NO_ROOM = f"login refused: {REFUSALS[OUT_OF_RESOURCES]}"
BEFORE_IT = [
    Scene("a nexus with a session is refused", [
        OTHER.comes, sends(login(TO_FULL, NAMES)), gets(refused(OPERATIONAL, OUT_OF_RESOURCES)), OTHER.goes_on],
        ended=NO_ROOM, drive=[TEST], changer=[TEST])]

# A ping comes once nothing has come for so long; a session looks about once a second, as it waits.
SILENCES = under(
    "a silence is met by a ping and two by the end",
    Scene("one silence", [*begins(), gets(ping((3, 1, 32)))]),
    Scene("two silences", [*begins(), gets(ping((3, 1, 32)))], ended=SILENT))
LONGER = [Scene(
    "as long as sessions may go on nothing is told to one that looks about, which is no silence, before a ping is",
    [*begins(), gets(ping((3, 1, 32)))])]
PART = [Scene(
    "a login in which nothing comes ends: a part of a login", [sends(login(TO_FULL, NAMES)[:40])], ended=SILENT, drive=None)]

TABLES = [
    *(Table(f"a silence, {number}", [scene], times={"idle_ping": 3}) for number, scene in enumerate(SILENCES, 1)),
    Table("a longer silence", LONGER, times={"idle_ping": 5}),
    Table("a part of a login", PART, times={"login_timeout": 1}), Table("whole sessions", [*WHOLE, *SNACKS, *CUT_SHORT, *BEFORE_IT])]
