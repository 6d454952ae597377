"""Logins next to a session that lives: with TSIH and CID, and by another ISID."""
from compare import same
from pdus import (
    GROUP, ISID, NAMES, NO_SUCH_SESSION, OPERATIONAL, OTHER_ISID, TOO_MANY_CONNECTIONS, TO_FULL, good, let_on, login, ready, refused)
from scenes import LOSS, REFUSALS, TEST, Scene, Table, begins, by_the_first, connects, gets, is_left, sends, under
from stage import Stage, Step

# The connection of the session that lives.
FIRST_CID, OTHER_CID = 1, 2


def living(stage: Stage) -> int:
    """The number of the session that lives."""
    return stage.initiators[0].tsih


def claims(cid: int, more: int | None = None, isid: str = ISID) -> Step:
    """A login by another connection, with TSIH 0, or so many more than the session that lives has."""
    return sends(lambda stage: login(TO_FULL, NAMES, tsih=0 if more is None else living(stage) + more, cid=cid, isid=isid))


def takes_its_place(shows: str, claim: Step, *then: Step) -> Scene:
    """The first session ends, its nexus is lost, and the second begins."""
    return Scene(
        shows, [*begins(cid=FIRST_CID), connects, claim, gets(let_on(TO_FULL, GROUP)), by_the_first(is_left), *then], drive=[LOSS],
        changer=[LOSS])


def has_its_number(stage: Stage) -> None:
    same("the number of the second session", stage.one.tsih, living(stage))


def lives_beside(shows: str) -> Scene:
    """A second session by another ISID is let in as the same host, and the first goes on."""
    second = [sends(ready(2, 1)), gets(good(2, (1, 2, 33)))]
    first = [by_the_first(step) for step in (sends(ready(2, 1)), gets(good(2, (3, 2, 33))))]
    return Scene(
        shows, [
            *begins(cid=FIRST_CID), connects, claims(FIRST_CID, isid=OTHER_ISID), gets(let_on(TO_FULL, GROUP, isid=OTHER_ISID)), *second,
            *first], drive=[TEST, TEST])


def is_refused(shows: str, status: int, claim: Step, more: int | None = None, isid: str = ISID) -> Scene:
    """The second login is refused, and the first session goes on."""
    reported = refused_with(status, more, isid)
    goes_on = [by_the_first(step) for step in (sends(ready(2, 1)), gets(good(2, (3, 2, 33))))]
    return Scene(
        shows, [*begins(cid=FIRST_CID), connects, claim, reported, *goes_on], ended=f"login refused: {REFUSALS[status]}", drive=[TEST])


def refused_with(status: int, more: int | None, isid: str) -> Step:
    """The response has the number of the request."""
    return gets(lambda stage: refused(OPERATIONAL, status, tsih=0 if more is None else living(stage) + more, isid=isid))


SCENES = under(
    "a login takes the place of its session",
    takes_its_place("the place of its session", claims(FIRST_CID)),
    takes_its_place("by another connection", claims(OTHER_CID)),
    takes_its_place("by its number too, which it keeps", claims(FIRST_CID, 0), has_its_number),
    is_refused("a second connection", TOO_MANY_CONNECTIONS, claims(OTHER_CID, 0), 0),
    is_refused("another session's number", NO_SUCH_SESSION, claims(FIRST_CID, 1), 1),
    is_refused("the number of a session of another ISID", NO_SUCH_SESSION, claims(FIRST_CID, 0, OTHER_ISID), 0, OTHER_ISID),
    lives_beside("a second session of the nexus"))

TABLES = [Table("logins beside a session", SCENES)]
