"""Hosts that do nothing, and a server that is ended while they are there."""
import typing

from exchanges import ENDS, INQUIRY_AT_9, LOGIN_OF_A, READY, Floods, IsLeft, Says, SaysAtOnce, Step, meet
from frames import ACCEPTED, power_on
from play import Row, Tried

IN_A_SESSION = [Says(0, LOGIN_OF_A, ACCEPTED), Says(0, READY, power_on(1))]
READS_NOTHING = [Says(0, LOGIN_OF_A, ACCEPTED), Floods(0, INQUIRY_AT_9)]


class Ending(typing.NamedTuple):
    """What it shows, how the server serves, which time is how short, by how many connections hosts do what, and the server's fault."""

    shows: str
    words: str
    times: dict[str, int]
    connections: int
    steps: list[Step]
    fault: str | None


ENDINGS = {
    "no-login": Ending(
        "a host that never logs in is ended once the time for it is over", "--sessions 1", {"login_timeout": 1}, 1,
        [IsLeft(0)], "session 1 before its LOGIN: nothing came in time"),
    "idle": Ending(
        "a host that is silent behind its LOGIN is ended once the time for that is over, which isn't that for its LOGIN",
        "--sessions 1", {"login_timeout": 20, "idle_timeout": 1}, 1,
        [SaysAtOnce(0, [LOGIN_OF_A, READY], [ACCEPTED, power_on(1)]), IsLeft(0)], "session 1 of 500000000000000a.1: nothing came in time"),
    "reads-nothing": Ending(
        "a session whose replies aren't read ends by a write that failed", "--sessions 1", {"write_timeout": 1}, 1,
        READS_NOTHING, "session 1 of 500000000000000a.1: a write failed"),
    "in-a-session": Ending(
        "a server that is ended ends a session that goes on", "--workers 1", {}, 1, [*IN_A_SESSION, ENDS, IsLeft(0)], None),
    "others-waiting": Ending(
        "forty connections, of which nobody serves any but the first, don't keep the server from its end", "--workers 1", {}, 40,
        [Says(0, LOGIN_OF_A, ACCEPTED), ENDS, IsLeft(0)], None),
    "one-reads-nothing": Ending(
        "a host that reads nothing doesn't keep the server from its end", "--workers 1", {}, 1, [*READS_NOTHING, ENDS], None),
}


def row(name: str, of: Ending) -> Row:
    def play(tried: Tried) -> None:
        meet(tried, of.words.split(), of.connections, of.steps, of.fault, None, **of.times)

    return Row(name, of.shows, play)


ROWS = [row(*each) for each in ENDINGS.items()]
