"""Sessions of a library: their answers, and the lines of their records."""
import typing

from exchanges import (
    BLOCK, DRIVE_READY, ENDS, END_OF_DATA, INQUIRY_AT_9, KEYS, KEYS_CUT, LOGIN_OF_A, LOGIN_OF_B, NOWHERE, POSITION, PREVENT, READ, READY,
    REGISTER, REGISTER_LONG, REGISTER_OTHER, RESERVATION, RESERVE, RESERVE_WRITES, REWIND, TO_DRIVE, UNLOAD, WRITE, IsLeft, Says, Step,
    meet, position)
from frames import ACCEPTED, ALREADY_CONNECTED, LOGGED_OUT, LOGOUT, check, command, conflict, good, power_on, reply
from play import Row, Tried
from scsi import NO_UNIT

# A's one command, and its loss.
LINES_OF_A = """\
1 500000000000000a.1 TEST-UNIT-READY 2 - - 02
2 500000000000000a.1 LOSS 6 - - 00
"""

LINES_OF_BOTH = """\
1 500000000000000a.1 TEST-UNIT-READY 2 - - 02
2 500000000000000b.1 TEST-UNIT-READY 2 - - 02
3 500000000000000a.1 REGISTER 6 REGISTER/NONE/OTHER - 00
4 500000000000000a.1 RESERVE 6 RESERVE/NONE/REGISTERED - 00
5 500000000000000b.1 WRITE(6) 3 WRITE(6)/EA/OTHER - 18
6 500000000000000b.1 LOSS 6 - - 00
7 500000000000000a.1 LOSS 6 - - 00
"""

# The changer's and then the drive's.
LINES_OF_THE_TAPE = """\
1 500000000000000a.1 TEST-UNIT-READY 2 - - 02
2 500000000000000a.1 MOVE-MEDIUM 6 MOVE-MEDIUM/NONE/OTHER - 00
3 500000000000000a.1 LOSS 6 - - 00
1 500000000000000a.1 TEST-UNIT-READY 2 - - 02
2 500000000000000b.1 TEST-UNIT-READY 2 - - 02
3 - MEDIUM-IN 6 - - 00
4 500000000000000a.1 TEST-UNIT-READY 4 TEST-UNIT-READY/NONE/OTHER - 02
5 500000000000000b.1 TEST-UNIT-READY 4 TEST-UNIT-READY/NONE/OTHER - 02
6 500000000000000a.1 WRITE(6) 6 WRITE(6)/NONE/OTHER - 00
7 500000000000000a.1 REWIND 6 REWIND/NONE/OTHER - 00
8 500000000000000a.1 REGISTER 6 REGISTER/NONE/OTHER - 00
9 500000000000000b.1 REGISTER 6 REGISTER/NONE/OTHER - 00
10 500000000000000b.1 PR-IN 6 PR-IN/NONE/REGISTERED - 00
11 500000000000000a.1 RESERVE 6 RESERVE/NONE/REGISTERED - 00
12 500000000000000b.1 READ(6) 6 READ(6)/WE/REGISTERED - 00
13 500000000000000b.1 WRITE(6) 3 WRITE(6)/WE/REGISTERED - 18
14 500000000000000a.1 READ-POSITION 6 READ-POSITION/WE/HOLDER - 00
15 500000000000000a.1 REWIND 6 REWIND/WE/HOLDER - 00
16 500000000000000a.1 READ(6) 6 READ(6)/WE/HOLDER - 00
17 500000000000000a.1 READ(6) 6 READ(6)/WE/HOLDER - 02
18 500000000000000b.1 LOSS 6 - - 00
19 500000000000000a.1 LOSS 6 - - 00
"""

# The same.
LINES_AT_THE_END = """\
1 500000000000000b.1 TEST-UNIT-READY 2 - - 02
2 500000000000000b.1 LOSS 6 - - 00
1 500000000000000a.1 TEST-UNIT-READY 2 - - 02
2 500000000000000a.1 LOSS 6 - - 00
"""

ONE = [Says(0, LOGIN_OF_A, ACCEPTED), Says(0, READY, power_on(1)), Says(0, LOGOUT, LOGGED_OUT), IsLeft(0)]

AGAIN = [
    Says(0, LOGIN_OF_A, ACCEPTED),
    Says(0, DRIVE_READY, power_on(1)),
    Says(0, REGISTER, good(2)),
    Says(0, RESERVE, good(3)),
    Says(0, PREVENT, good(4)),
    # Removal is prevented.
    Says(0, UNLOAD, check(5, 5, 0x53, 0x02)),
    Says(0, LOGOUT, LOGGED_OUT),
    IsLeft(0),
    Says(1, LOGIN_OF_A, ACCEPTED),
    # A is notified of its loss, which has record 6.
    Says(1, DRIVE_READY, check(7, 6, 0x29, 0x07)),
    # Generation 1, and key 1; key 1 holds Exclusive Access.
    Says(1, KEYS, good(8, bytes.fromhex("00000001" "00000008" "0000000000000001"))),
    Says(1, RESERVATION, good(9, bytes.fromhex("00000001" "00000010" "0000000000000001" "00000000" "00030000"))),
    # There is no volume, and nobody prevents removal.
    Says(1, UNLOAD, check(10, 2, 0x3A, 0x00)),
    Says(1, LOGOUT, LOGGED_OUT),
    IsLeft(1),
]

TWO = [
    Says(0, LOGIN_OF_A, ACCEPTED),
    Says(1, LOGIN_OF_A, ALREADY_CONNECTED),
    IsLeft(1),
    Says(0, DRIVE_READY, power_on(1)),
    Says(0, LOGOUT, LOGGED_OUT),
    IsLeft(0),
]

CONFLICT = [
    Says(0, LOGIN_OF_A, ACCEPTED),
    Says(1, LOGIN_OF_B, ACCEPTED),
    Says(0, DRIVE_READY, power_on(1)),
    Says(1, DRIVE_READY, power_on(2)),
    Says(0, REGISTER, good(3)),
    Says(0, RESERVE, good(4)),
    Says(1, WRITE, conflict(5)),
    Says(1, LOGOUT, LOGGED_OUT),
    IsLeft(1),
    Says(0, LOGOUT, LOGGED_OUT),
    IsLeft(0),
]

ONE_TAPE = [
    Says(0, LOGIN_OF_A, ACCEPTED),
    Says(1, LOGIN_OF_B, ACCEPTED),
    Says(0, READY, power_on(1)),
    Says(0, DRIVE_READY, power_on(1)),
    Says(1, DRIVE_READY, power_on(2)),
    Says(0, TO_DRIVE, good(2)),
    # A volume has come in, which is the drive's record 3.
    Says(0, DRIVE_READY, check(4, 6, 0x28, 0x00)),
    Says(1, DRIVE_READY, check(5, 6, 0x28, 0x00)),
    Says(0, WRITE, good(6)),
    Says(0, REWIND, good(7)),
    Says(0, REGISTER_LONG, good(8)),
    Says(1, REGISTER_OTHER, good(9)),
    # Generation 2, 16 bytes of keys, and half of the first.
    Says(1, KEYS_CUT, good(10, bytes.fromhex("00000002" "00000010" "11223344"))),
    Says(0, RESERVE_WRITES, good(11)),
    Says(1, READ, good(12, BLOCK)),
    Says(1, WRITE, conflict(13)),
    Says(0, POSITION, position(14, 1)),
    Says(0, REWIND, good(15)),
    Says(0, READ, good(16, BLOCK)),
    Says(0, READ, reply(0x02, END_OF_DATA, 17)),
    Says(0, INQUIRY_AT_9, good(0, NO_UNIT)),
    # TEST UNIT READY there: LOGICAL UNIT NOT SUPPORTED.
    Says(0, command(NOWHERE, "000000000000"), check(0, 5, 0x25, 0x00)),
    Says(1, LOGOUT, LOGGED_OUT),
    IsLeft(1),
    Says(0, LOGOUT, LOGGED_OUT),
    IsLeft(0),
]

DRIVE_AND_CHANGER = [
    Says(0, LOGIN_OF_A, ACCEPTED),
    Says(0, DRIVE_READY, power_on(1)),
    Says(0, LOGOUT, LOGGED_OUT),
    IsLeft(0),
    Says(1, LOGIN_OF_B, ACCEPTED),
    Says(1, READY, power_on(1)),
    Says(1, LOGOUT, LOGGED_OUT),
    IsLeft(1),
    ENDS,
]

SECOND_REFUSED = "session 2 of 500000000000000a.1: already connected"


class Sessions(typing.NamedTuple):
    """What it shows, how the server serves, by how many connections hosts take which steps, the server's fault and its lines."""

    shows: str
    words: str
    connections: int
    steps: list[Step]
    fault: str | None
    lines: str | None


SESSIONS = {
    "one": Sessions("a session's answers, and its lines", "--sessions 1", 1, ONE, None, LINES_OF_A),
    "again": Sessions(
        "a nexus may log in again once its connection has ended: it is told of its loss, has its key and its reservation, and no longer "
        "prevents removal", "--sessions 2", 2, AGAIN, None, None),
    "two": Sessions(
        "a nexus that has a session can't have another; the lines are written all the same, and the fault has its number and its nexus",
        "--sessions 2", 2, TWO, SECOND_REFUSED, LINES_OF_A),
    "conflict": Sessions(
        "A's reservation keeps B, who comes by a connection of its own, from the drive", "--sessions 2", 2, CONFLICT, None, LINES_OF_BOTH),
    "tape": Sessions(
        "two hosts at one tape: keys that are cut, a conflict that leaves the tape as it was, and a unit that isn't there",
        "--sessions 2", 2, ONE_TAPE, None, LINES_OF_THE_TAPE),
    "closed": Sessions(
        "a single worker serves one session after another, until it is told that there are no more",
        "--workers 1", 2, DRIVE_AND_CHANGER, None, LINES_AT_THE_END),
}


def row(name: str, of: Sessions) -> Row:
    def play(tried: Tried) -> None:
        meet(tried, of.words.split(), of.connections, of.steps, of.fault, of.lines)

    return Row(name, of.shows, play)


ROWS = [row(*each) for each in SESSIONS.items()]
