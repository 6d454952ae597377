"""Volumes that are kept in a folder, and a disk that is full for a while: what has no answer, what lies on the disk after each that has
one, and what is reported."""
import pathlib
import tomllib
import typing

import scsi
from compare import holds, same, same_lines
from exchanges import (
    BLOCK, DRIVE_READY, ENDS, LOGIN_OF_A, LOGIN_OF_B, POSITION, READY, REGISTER, TO_DRIVE, WRITE, Does, IsLeft, Says, Step, move, position,
    talk)
from folder import FIRST, MARK, block
from frames import ACCEPTED, LOGGED_OUT, LOGOUT, check, command, good, power_on
from play import Row, Tried
from scsi import DRIVE
from server import Server

FILEMARK = command(DRIVE, scsi.FILEMARK)
# The volume is moved back from the drive into storage element 0400h.
FROM_DRIVE = move(0x100, 0x400)
# A logical block of an image (docs/OPERATING.md).
IMAGE_OF_BLOCK = block(BLOCK)


def lies(place: dict[str, int], image: bytes | None = None) -> Does:
    """In which element the inventory on the disk has the volume, and what its image holds, if that is known."""
    def look(server: Server) -> None:
        folder = pathlib.Path(server.path).with_name("media")
        inventory = tomllib.loads((folder / "library.toml").read_text(encoding="utf-8"))
        same("where the volume lies", inventory["volume"], [{"tag": "VOL00001", **place}])
        if image is not None:
            same("the image", (folder / FIRST).read_bytes().hex(), image.hex())

    return Does(look)


IN_STORAGE, IN_DRIVE = {"storage": 0}, {"data_transfer": 0}
FULL, HAS_ROOM = Does(lambda server: server.limit_lines(0)), Does(Server.limit_lines)

# A's WRITE FILEMARKS can't be kept: A isn't answered and is left, and its nexus is lost. The filemark stands, and what B and A send later
# is kept again.
OF_A_VOLUME = [
    Says(0, LOGIN_OF_A, ACCEPTED),
    Says(1, LOGIN_OF_B, ACCEPTED),
    Says(0, READY, power_on(1)),
    Says(0, READY, good(2)),
    Says(0, DRIVE_READY, power_on(1)),
    Says(1, DRIVE_READY, power_on(2)),
    Says(0, REGISTER, good(3)),
    lies(IN_STORAGE, b""),
    Says(0, TO_DRIVE, good(3)),
    lies(IN_DRIVE, b""),
    # A volume has come in, which is the drive's record 4.
    Says(0, DRIVE_READY, check(5, 6, 0x28, 0x00)),
    Says(1, DRIVE_READY, check(6, 6, 0x28, 0x00)),
    Says(1, WRITE, good(7)),
    FULL,
    # The filemark has record 8, and the loss record 9.
    Says(0, FILEMARK, b""),
    IsLeft(0),
    lies(IN_DRIVE),
    Says(1, POSITION, position(10, 2)),
    HAS_ROOM,
    Says(1, FILEMARK, good(11)),
    lies(IN_DRIVE, IMAGE_OF_BLOCK + 2 * MARK),
    Says(2, LOGIN_OF_A, ACCEPTED),
    # A is notified of its loss.
    Says(2, DRIVE_READY, check(12, 6, 0x29, 0x07)),
    Says(2, FILEMARK, good(13)),
    lies(IN_DRIVE, IMAGE_OF_BLOCK + 3 * MARK),
    Says(2, LOGOUT, LOGGED_OUT),
    IsLeft(2),
    Says(1, LOGOUT, LOGGED_OUT),
    IsLeft(1),
]

# The changer's and then the drive's.
LINES_OF_A_VOLUME = """\
1 500000000000000a.1 TEST-UNIT-READY 2 - - 02
2 500000000000000a.1 TEST-UNIT-READY 6 TEST-UNIT-READY/NONE/OTHER - 00
3 500000000000000a.1 MOVE-MEDIUM 6 MOVE-MEDIUM/NONE/OTHER - 00
4 500000000000000a.1 LOSS 6 - - 00
5 500000000000000a.1 LOSS 6 - - 00
1 500000000000000a.1 TEST-UNIT-READY 2 - - 02
2 500000000000000b.1 TEST-UNIT-READY 2 - - 02
3 500000000000000a.1 REGISTER 6 REGISTER/NONE/OTHER - 00
4 - MEDIUM-IN 6 - - 00
5 500000000000000a.1 TEST-UNIT-READY 4 TEST-UNIT-READY/NONE/REGISTERED - 02
6 500000000000000b.1 TEST-UNIT-READY 4 TEST-UNIT-READY/NONE/OTHER - 02
7 500000000000000b.1 WRITE(6) 6 WRITE(6)/NONE/OTHER - 00
8 500000000000000a.1 WRITE-FILEMARKS(6) 6 WRITE-FILEMARKS(6)/NONE/REGISTERED - 00
9 500000000000000a.1 LOSS 6 - - 00
10 500000000000000b.1 READ-POSITION 6 READ-POSITION/NONE/OTHER - 00
11 500000000000000b.1 WRITE-FILEMARKS(6) 6 WRITE-FILEMARKS(6)/NONE/OTHER - 00
12 500000000000000a.1 TEST-UNIT-READY 2 - - 02
13 500000000000000a.1 WRITE-FILEMARKS(6) 6 WRITE-FILEMARKS(6)/NONE/REGISTERED - 00
14 500000000000000a.1 LOSS 6 - - 00
15 500000000000000b.1 LOSS 6 - - 00
"""

# A's MOVE MEDIUM can't be kept: the inventory on the disk is as it was. The volume is in the drive, from which B moves it back.
OF_THE_INVENTORY = [
    Says(0, LOGIN_OF_A, ACCEPTED),
    Says(1, LOGIN_OF_B, ACCEPTED),
    Says(0, READY, power_on(1)),
    Says(1, READY, power_on(2)),
    FULL,
    Says(0, TO_DRIVE, b""),
    IsLeft(0),
    lies(IN_STORAGE),
    HAS_ROOM,
    # A's move has record 3, and its loss record 4.
    Says(1, FROM_DRIVE, good(5)),
    Says(1, TO_DRIVE, good(6)),
    lies(IN_DRIVE),
    Says(1, LOGOUT, LOGGED_OUT),
    IsLeft(1),
]

LINES_OF_THE_INVENTORY = """\
1 500000000000000a.1 TEST-UNIT-READY 2 - - 02
2 500000000000000b.1 TEST-UNIT-READY 2 - - 02
3 500000000000000a.1 MOVE-MEDIUM 6 MOVE-MEDIUM/NONE/OTHER - 00
4 500000000000000a.1 LOSS 6 - - 00
5 500000000000000b.1 MOVE-MEDIUM 6 MOVE-MEDIUM/NONE/OTHER - 00
6 500000000000000b.1 MOVE-MEDIUM 6 MOVE-MEDIUM/NONE/OTHER - 00
7 500000000000000b.1 LOSS 6 - - 00
1 - MEDIUM-IN 6 - - 00
2 - MEDIUM-OUT 6 - - 00
3 - MEDIUM-IN 6 - - 00
"""


class Kept(typing.NamedTuple):
    """What it shows, how the server serves, how many connections there are, their steps, the server's fault, the lines, and what is
    reported."""

    shows: str
    words: str
    connections: int
    steps: list[Step]
    fault: str | None
    lines: str
    reported: list[str]


OF_A = "session 1 of 500000000000000a.1:"
NOT_WRITTEN = f"{OF_A} a write failed"
REPORTED_OF_A_VOLUME = [
    "vtl: volume VOL00001 could not be written: disk full\n", f"vtl: {NOT_WRITTEN}\n",
    f"vtl: {OF_A} ended by a fault after 7 commands and ", "vtl: volume VOL00001 is written again\n"]
REPORTED_OF_THE_INVENTORY = [
    "vtl: the inventory could not be written: disk ", f"vtl: {NOT_WRITTEN}\n", f"vtl: {OF_A} ended by a fault after 2 commands and "]

KEPT = {
    "full-for-a-volume": Kept(
        "a session ends whose reply would say to be kept what couldn't be kept, as by a write that failed", "--sessions 3", 3, OF_A_VOLUME,
        NOT_WRITTEN, LINES_OF_A_VOLUME, REPORTED_OF_A_VOLUME),
    "full-for-a-worker": Kept(
        "the same, and the third session has the worker of the first, which begins it anew", "--workers 2", 3, [*OF_A_VOLUME, ENDS], None,
        LINES_OF_A_VOLUME, REPORTED_OF_A_VOLUME),
    "full-for-the-inventory": Kept(
        "the same of where the volumes lie", "--sessions 2", 2, OF_THE_INVENTORY, NOT_WRITTEN, LINES_OF_THE_INVENTORY,
        REPORTED_OF_THE_INVENTORY),
}


def row(name: str, of: Kept) -> Row:
    def play(tried: Tried) -> None:
        # Room for as much as is wanted, until a step takes it away.
        with Server(tried, "--media", tried.path("media"), "--new-library", *of.words.split(), "--log", room=1 << 30) as server:
            talk(server, of.connections, of.steps)
            server.ends(of.fault)
            same_lines(server.lines(), of.lines)
            for words in of.reported:
                holds("what is reported", server.reported.text, words)

    return Row(name, of.shows, play)


ROWS = [row(*each) for each in KEPT.items()]
