"""A library whose volumes have little memory: which writes are BUSY, what that leaves as it was, and what becomes free again."""
import typing

import scsi
from compare import same
from exchanges import LOGIN_OF_A, LOGIN_OF_B, IsLeft, Says, Step, meet, move, position, ready, reserve_out
from frames import ACCEPTED, BUSY, LOGGED_OUT, LOGOUT, command, conflict, good, power_on
from host import Host, standing_at
from play import Row, Tried
from program import run
from scsi import LONGEST_BLOCK
from server import Server

# What a volume of 1 MiB takes for its blocks, at its first; and more than the lists of a few blocks take, also while they grow (profile).
ROOM, LISTS = 1 << 20, 1024
# What a larger volume takes for its blocks at once.
PIECE = 8 << 20
# The volumes may hold more than memory.
LARGER = "--volumes-larger-than-memory"
WANT_OF_MEMORY = "vtl: BUSY for 500000000000000a.1"
# The answer BUSY, without a number.
IS_BUSY = 0x08, b"", b""
GOOD_KEYS = bytes(8)


def write(lun: int) -> bytes:
    return command(lun, scsi.write(1), b"1")


def loaded(place: int, drives: int) -> list[Step]:
    """A host puts a volume into each drive, and then meets the drives: record 1 of each is that of the volume."""
    return [
        Says(place, ready(0), power_on(1)),
        *(Says(place, move(0x400 + at, 0x100 + at), good(2 + at)) for at in range(drives)),
        *(Says(place, ready(1 + at), power_on(2)) for at in range(drives))]


LEAVES = [Says(0, LOGOUT, LOGGED_OUT), IsLeft(0)]

SHARED = [
    Says(0, LOGIN_OF_A, ACCEPTED),
    *loaded(0, 3),
    Says(0, write(1), good(3)),
    Says(0, write(2), good(3)),
    # None is left for a third: BUSY leaves no record, and the numbers go on.
    Says(0, write(3), BUSY),
    Says(0, command(3, scsi.READ_POSITION), good(3, standing_at(0)[2])),
    # A block goes into the room that is taken.
    Says(0, write(1), good(4)),
    *LEAVES,
]

MARKS = [
    Says(0, LOGIN_OF_A, ACCEPTED),
    *loaded(0, 1),
    Says(0, command(1, scsi.FILEMARK), good(3)),
    # 100,000 filemarks take more than 1 MiB of lists, and none is written.
    Says(0, command(1, scsi.write_filemarks(100_000)), BUSY),
    Says(0, command(1, scsi.READ_POSITION), position(4, 1)),
    Says(0, command(1, scsi.FILEMARK), good(5)),
    *LEAVES,
]

CONFLICT = [
    Says(0, LOGIN_OF_A, ACCEPTED),
    *loaded(0, 2),
    # Drive 1 has all the memory.
    Says(0, write(1), good(3)),
    Says(1, LOGIN_OF_B, ACCEPTED),
    Says(1, ready(2), power_on(3)),
    # What is answered without the tape: no keys, whole and cut; a REGISTER of no key; keys of both, cut; and a reservation.
    Says(0, command(2, scsi.reserve_in(0, 255)), good(4, GOOD_KEYS)),
    Says(0, command(2, scsi.reserve_in(0, 5)), good(5, GOOD_KEYS[:5])),
    Says(0, reserve_out(0, 0, 0, 0, 2), good(6)),
    Says(0, command(2, scsi.reserve_in(0, 255)), good(7, GOOD_KEYS)),
    Says(0, reserve_out(0, 0, 0, 0x1122334455667788, 2), good(8)),
    Says(1, reserve_out(0, 0, 0, 0x99AABBCCDDEEFF00, 2), good(9)),
    Says(0, command(2, scsi.reserve_in(0, 12)), good(10, bytes.fromhex("00000002" "00000010" "11223344"))),
    Says(0, reserve_out(1, 1, 0x1122334455667788, 0, 2), good(11)),
    # The holder's WRITE is out of memory; B's conflicts.
    Says(0, write(2), BUSY),
    Says(1, write(2), conflict(12)),
    Says(1, command(2, scsi.reserve_in(1, 255)), good(13, bytes.fromhex("00000002" "00000010" "1122334455667788" "00000000" "00010000"))),
    Says(1, LOGOUT, LOGGED_OUT),
    IsLeft(1),
    *LEAVES,
]

# The changer's, and the drive's at which both hosts were: BUSY has none.
LINES_OF_THE_CONFLICT = """\
1 500000000000000a.1 TEST-UNIT-READY 2 - - 02
2 500000000000000a.1 MOVE-MEDIUM 6 MOVE-MEDIUM/NONE/OTHER - 00
3 500000000000000a.1 MOVE-MEDIUM 6 MOVE-MEDIUM/NONE/OTHER - 00
4 500000000000000a.1 LOSS 6 - - 00
1 - MEDIUM-IN 6 - - 00
2 500000000000000a.1 TEST-UNIT-READY 2 - - 02
3 500000000000000a.1 WRITE(6) 6 WRITE(6)/NONE/OTHER - 00
4 500000000000000a.1 LOSS 6 - - 00
1 - MEDIUM-IN 6 - - 00
2 500000000000000a.1 TEST-UNIT-READY 2 - - 02
3 500000000000000b.1 TEST-UNIT-READY 2 - - 02
4 500000000000000a.1 PR-IN 6 PR-IN/NONE/OTHER - 00
5 500000000000000a.1 PR-IN 6 PR-IN/NONE/OTHER - 00
6 500000000000000a.1 REGISTER 6 REGISTER/NONE/OTHER - 00
7 500000000000000a.1 PR-IN 6 PR-IN/NONE/OTHER - 00
8 500000000000000a.1 REGISTER 6 REGISTER/NONE/OTHER - 00
9 500000000000000b.1 REGISTER 6 REGISTER/NONE/OTHER - 00
10 500000000000000a.1 PR-IN 6 PR-IN/NONE/REGISTERED - 00
11 500000000000000a.1 RESERVE 6 RESERVE/NONE/REGISTERED - 00
12 500000000000000b.1 WRITE(6) 3 WRITE(6)/WE/REGISTERED - 18
13 500000000000000b.1 PR-IN 6 PR-IN/WE/REGISTERED - 00
14 500000000000000b.1 LOSS 6 - - 00
15 500000000000000a.1 LOSS 6 - - 00
"""


class Memories(typing.NamedTuple):
    """What it shows, how the server serves, by how many connections hosts take which steps, and the lines of their records."""

    shows: str
    words: str
    connections: int
    steps: list[Step]
    lines: str | None


MEMORIES = {
    "shared-memory": Memories(
        "tapes that share a limit take no more",
        f"--sessions 1 --memory {2 * ROOM + LISTS} {LARGER} --volume-size 1M --drives 3 --volumes 3", 1, SHARED, None),
    "memory-of-filemarks": Memories("lists of filemarks count", "--sessions 1 --memory 1M --volume-size 1M", 1, MARKS, None),
    "conflict-before-memory": Memories(
        "a command is BUSY for want of memory, with no record, and a reservation conflict comes before that",
        f"--sessions 2 --memory {ROOM + LISTS} {LARGER} --volume-size 1M --drives 2 --volumes 2", 2, CONFLICT, LINES_OF_THE_CONFLICT),
}


def row(name: str, of: Memories) -> Row:
    def play(tried: Tried) -> None:
        meet(tried, of.words.split(), of.connections, of.steps, None, of.lines)

    return Row(name, of.shows, play)


def given_back(tried: Tried) -> None:
    """Volumes of 16 MiB take room by pieces of 8 MiB. The second has two, and an ERASE from its beginning on gives back all but the first;
    a third volume has room then."""
    words = ["--memory", str(3 * PIECE + (1 << 16)), LARGER, "--drives", "3", "--volumes", "3", "--log"]
    with Server(tried, "--sessions", "1", *words) as server:
        host = Host(server)
        host.meets(0)
        for at in range(3):
            host.moves(0x400 + at, 0x100 + at)
            host.meets(1 + at)
        host.writes(b"1", lun=1)
        host.writes(*[bytes(LONGEST_BLOCK)] * (PIECE // LONGEST_BLOCK), b"2", lun=2)
        for _ in range(3):
            host.asks(3, scsi.write(1), IS_BUSY, b"3")
            host.asks(3, scsi.READ_POSITION, standing_at(0))
        server.reported.wait_for(WANT_OF_MEMORY)
        same("how often it is reported", server.reported.text.count(WANT_OF_MEMORY), 1)
        host.asks(2, scsi.REWIND)
        host.asks(2, scsi.ERASE)
        host.writes(b"3", lun=3)
        host.asks(3, scsi.READ_POSITION, standing_at(1))
        # The third has the last piece, so the second finds none for its next.
        host.writes(*[bytes(LONGEST_BLOCK)] * (PIECE // LONGEST_BLOCK), lun=2)
        for _ in range(3):
            host.asks(2, scsi.write(1), IS_BUSY, b"2")
        wanted = [f"{WANT_OF_MEMORY} at logical unit {lun}: want of memory or of a record number" for lun in (3, 2)]
        server.reported.wait_for(f"{wanted[-1]}\n")
        same("what is reported", [line for line in server.reported_lines() if line.startswith(WANT_OF_MEMORY)], wanted)


def kept_larger(tried: Tried) -> None:
    """Of a library that is kept both are reported by a start and by --check, and it is served."""
    words = ["--media", tried.path("media"), "--volumes", "2", "--volume-size", "64M", "--memory", "127M"]
    reported = "vtl: the volumes may hold 134217728 bytes of blocks together, and --memory is 133169152 bytes: writes end in BUSY once it is used up"
    with Server(tried, *words, "--new-library") as server:
        same("what is reported", server.reported_lines(), [reported])
        Host(server).loads()
        server.end()
        server.ends()
    checked = run([tried.program, "serve", "--check", "--socket", tried.path("socket"), *words])
    same("the status, and what is reported by --check", (checked[0], checked[2]), (0, f"{reported}\n"))
    with Server(tried, *words[:-1], "128M") as server:
        same("what is reported where all has room", server.reported_lines(), [])


ROWS = [
    *(row(*each) for each in MEMORIES.items()),
    Row("memory-given-back", "what a tape took is given back with what is erased, and BUSY is reported once until a write is carried out",
        given_back),
    Row("memory-kept-larger", "a kept library whose volumes may hold more than --memory is served, and both sizes are reported", kept_larger),
]
