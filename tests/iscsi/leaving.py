"""Sessions that are to end: their initiators are asked for a logout."""
from pdus import DISCOVERY, TO_FULL, At, asked_to_leave, data_out, good, logged_out, logout, nop_in, nop_out, ping, wanted, write
from scenes import (
    OUT, SILENT, WRITE, Scene, Table, Turn, begins, by_the_first, connects, gets, is_left, sends, sends_first, sends_rest, turn, under)
from stage import Stage, Step

# Seconds that nobody waits for, and that one session is cut off after.
GRACE, SHORT = 300, 4


def ends(stage: Stage) -> None:
    """The server is asked to end."""
    stage.server.end()


def leaves(stage: Stage) -> None:
    """The host at the socket leaves."""
    stage.leave()


def asks_once(seconds: int = GRACE, at: At = (3, 1, 32)) -> list[Step]:
    return [ends, gets(asked_to_leave(at, seconds))]


WRITES_NOW = [sends(write(2, 1)), gets(wanted(2, (3, 2, 32)))]
# Each has a server of its own. An idle session sees within a second that it is to end.
SHOWS = "an initiator is asked for a logout once sessions are to end"
LIVELY = under(
    SHOWS,
    Scene("an idle initiator is asked once", [
        *begins(), *asks_once(), sends(nop_out(2, 1, b"one", now=True)), gets(nop_in(2, (4, 1, 32), b"one")),
        sends(nop_out(3, 1, b"two", now=True)), gets(nop_in(3, (5, 1, 32), b"two"))]),
    Scene("it logs out", [*begins(), *asks_once(), sends(logout(5, 1)), gets(logged_out(5, (4, 2, 33)))], ended=OUT),
    Scene("the data of a write that waits are taken", [
        *begins(), *WRITES_NOW, *asks_once(at=(3, 2, 32)), sends(data_out(2, b"abcd"), logout(5, 2)),
        gets(good(2, (4, 2, 33)), logged_out(5, (5, 3, 34)))], ended=OUT, drive=[WRITE], tape=b"abcd"))
SILENT_ONES = under(
    SHOWS,
    Scene("a silence behind it is met by a ping", [*begins(), *asks_once(), gets(ping((4, 1, 32)))]),
    Scene("two are met by the end", [*begins(), *asks_once(), gets(ping((4, 1, 32)))], ended=SILENT))
CUT_OFF, = under(
    SHOWS, Scene("it stays until it is cut off, and its nexus is lost", [
        *begins(), *WRITES_NOW, leaves, *asks_once(SHORT, (3, 2, 32)), is_left]))

LOGOUT = logout(5, 1)
# It looks only when something has come. The first session, which is asked, shows that the server is about to end.
OF_DISCOVERY = Scene("a discovery session is asked for a logout too", [
    *begins(), connects, *turn(0, Turn(TO_FULL, DISCOVERY)), by_the_first(ends),
    by_the_first(gets(asked_to_leave((3, 1, 32), GRACE))), sends_first(20, LOGOUT), gets(asked_to_leave((1, 1, 32), GRACE)),
    sends_rest(20, LOGOUT), gets(logged_out(5, (2, 2, 33)))], ended=OUT)


def at_the_end(number: int, scene: Scene, grace: int = GRACE, idle_ping: int = 0) -> Table:
    return Table(f"the end, {number}", [scene], times={"grace": grace, "idle_ping": idle_ping})


TABLES = [
    *(at_the_end(number, scene, idle_ping=3) for number, scene in enumerate(SILENT_ONES, 1)), at_the_end(3, CUT_OFF, SHORT),
    *(at_the_end(number, scene) for number, scene in enumerate([*LIVELY, OF_DISCOVERY], 4))]
