"""Volumes that two hosts move from drive to drive, and a library of four drives: what each host is answered, and which records that leaves,
each with the reservation that stood before it."""
import functools
import time

import pdus
import scsi
from compare import Wrong, same, same_lines, same_one_by_one
from exchanges import (
    BLOCK, DRIVE_READY, LOGIN_OF_A, LOGIN_OF_B, PREVENT, READ, READY, REGISTER, RESERVATION, RESERVE, REWIND, TO_DRIVE, WRITE, IsLeft, Says,
    Step, meet, move, ready, reserve_out)
from frames import A, ACCEPTED, B, LOGGED_OUT, LOGOUT, WAS_RESET, check, command, conflict, good, power_on
from initiator import CHECKED, Initiator
from initiators import HOSTS
from play import Row, Tried
from scsi import CHANGER, DRIVE
from server import Server
from sharing import NO_MEDIUM, NO_UNIT as IS_ABSENT, POWER_ON, SECOND_DRIVE, Counting, next_to_each_other, lines_by_unit, same_records
from term import patience

THIRD_DRIVE, LAST_DRIVE, AFTER_THE_LAST = 3, 4, 5
ALLOW = command(DRIVE, scsi.ALLOW)
# Of sense data the sense key, the additional sense code and its qualifier.
VOLUME_CAME, SOURCE_IS_EMPTY, REMOVAL_IS_PREVENTED, NO_ELEMENT = (6, 0x28, 0x00), (5, 0x3B, 0x0E), (5, 0x53, 0x02), (5, 0x21, 0x01)


def reserved(kind: int) -> bytes:
    """The data of READ RESERVATION where key 1 holds a unit by this type, and one nexus has registered: generation 1, and 16 bytes."""
    return bytes.fromhex(f"00000001 00000010 0000000000000001 00000000 00{kind:02x}0000")


# The volume comes into the first drive, and goes from there to the second, back, and there once more.
FORTH, BACK = move(0x100, 0x101), move(0x101, 0x100)

DRIVE_TO_DRIVE: list[Step] = [
    Says(0, LOGIN_OF_A, ACCEPTED),
    Says(1, LOGIN_OF_B, ACCEPTED),
    *(Says(place, ready(lun), power_on(place + 1)) for lun in (CHANGER, DRIVE, SECOND_DRIVE) for place in (0, 1)),
    # The drive's record 3 is that a volume came in.
    Says(0, TO_DRIVE, good(3)),
    Says(0, DRIVE_READY, check(4, *VOLUME_CAME)),
    Says(1, DRIVE_READY, check(5, *VOLUME_CAME)),
    Says(0, WRITE, good(6)),
    # A holds the first drive by Exclusive Access. That keeps B from the drive, and not from the changer.
    Says(0, REGISTER, good(7)),
    Says(0, RESERVE, good(8)),
    Says(1, REWIND, conflict(9)),
    Says(1, FORTH, good(4)),
    # The reservation stays with the drive, and the block goes with the volume.
    Says(0, DRIVE_READY, check(11, *NO_MEDIUM)),
    Says(1, RESERVATION, good(12, reserved(3))),
    Says(1, ready(SECOND_DRIVE), check(4, *VOLUME_CAME)),
    Says(1, command(SECOND_DRIVE, "080000000400"), good(5, BLOCK)),
    Says(0, BACK, good(5)),
    Says(0, DRIVE_READY, check(14, *VOLUME_CAME)),
    # B's conflict comes before what it would be notified of.
    Says(1, READ, conflict(15)),
    Says(0, READ, good(16, BLOCK)),
    # What keeps B from taking the volume is that A prevents its removal.
    Says(0, PREVENT, good(17)),
    Says(1, FORTH, check(6, *REMOVAL_IS_PREVENTED)),
    Says(0, ALLOW, good(18)),
    Says(1, FORTH, good(7)),
    Says(0, FORTH, check(8, *SOURCE_IS_EMPTY)),
    Says(1, LOGOUT, LOGGED_OUT),
    IsLeft(1),
    Says(0, LOGOUT, LOGGED_OUT),
    IsLeft(0),
]

# The changer's, and then those of the two drives.
LINES_OF_DRIVE_TO_DRIVE = """\
1 500000000000000a.1 TEST-UNIT-READY 2 - - 02 -
2 500000000000000b.1 TEST-UNIT-READY 2 - - 02 -
3 500000000000000a.1 MOVE-MEDIUM 6 MOVE-MEDIUM/NONE/OTHER - 00 -
4 500000000000000b.1 MOVE-MEDIUM 6 MOVE-MEDIUM/NONE/OTHER - 00 -
5 500000000000000a.1 MOVE-MEDIUM 6 MOVE-MEDIUM/NONE/OTHER - 00 -
6 500000000000000b.1 MOVE-MEDIUM 6 MOVE-MEDIUM/NONE/OTHER - 02 -
7 500000000000000b.1 MOVE-MEDIUM 6 MOVE-MEDIUM/NONE/OTHER - 00 -
8 500000000000000a.1 MOVE-MEDIUM 6 MOVE-MEDIUM/NONE/OTHER - 02 -
9 500000000000000b.1 LOSS 6 - - 00 -
10 500000000000000a.1 LOSS 6 - - 00 -
1 500000000000000a.1 TEST-UNIT-READY 2 - - 02 -
2 500000000000000b.1 TEST-UNIT-READY 2 - - 02 -
3 - MEDIUM-IN 6 - - 00 -
4 500000000000000a.1 TEST-UNIT-READY 4 TEST-UNIT-READY/NONE/OTHER - 02 -
5 500000000000000b.1 TEST-UNIT-READY 4 TEST-UNIT-READY/NONE/OTHER - 02 -
6 500000000000000a.1 WRITE(6) 6 WRITE(6)/NONE/OTHER - 00 -
7 500000000000000a.1 REGISTER 6 REGISTER/NONE/OTHER - 00 -
8 500000000000000a.1 RESERVE 6 RESERVE/NONE/REGISTERED - 00 -
9 500000000000000b.1 REWIND 3 REWIND/EA/OTHER - 18 EA/500000000000000a.1
10 - MEDIUM-OUT 6 - - 00 EA/500000000000000a.1
11 500000000000000a.1 TEST-UNIT-READY 6 TEST-UNIT-READY/EA/HOLDER - 02 EA/500000000000000a.1
12 500000000000000b.1 PR-IN 6 PR-IN/EA/OTHER - 00 EA/500000000000000a.1
13 - MEDIUM-IN 6 - - 00 EA/500000000000000a.1
14 500000000000000a.1 TEST-UNIT-READY 4 TEST-UNIT-READY/EA/HOLDER - 02 EA/500000000000000a.1
15 500000000000000b.1 READ(6) 3 READ(6)/EA/OTHER - 18 EA/500000000000000a.1
16 500000000000000a.1 READ(6) 6 READ(6)/EA/HOLDER - 00 EA/500000000000000a.1
17 500000000000000a.1 PREVENT-REMOVAL 6 PREVENT-REMOVAL/EA/HOLDER - 00 EA/500000000000000a.1
18 500000000000000a.1 ALLOW-REMOVAL 6 ALLOW-REMOVAL/EA/HOLDER - 00 EA/500000000000000a.1
19 - MEDIUM-OUT 6 - - 00 EA/500000000000000a.1
20 500000000000000b.1 LOSS 6 - - 00 EA/500000000000000a.1
21 500000000000000a.1 LOSS 6 - - 00 EA/500000000000000a.1
1 500000000000000a.1 TEST-UNIT-READY 2 - - 02 -
2 500000000000000b.1 TEST-UNIT-READY 2 - - 02 -
3 - MEDIUM-IN 6 - - 00 -
4 500000000000000b.1 TEST-UNIT-READY 4 TEST-UNIT-READY/NONE/OTHER - 02 -
5 500000000000000b.1 READ(6) 6 READ(6)/NONE/OTHER - 00 -
6 - MEDIUM-OUT 6 - - 00 -
7 - MEDIUM-IN 6 - - 00 -
8 500000000000000b.1 LOSS 6 - - 00 -
9 500000000000000a.1 LOSS 6 - - 00 -
"""

# How often each of two hosts moves the one volume.
TURNS = 20


def moves_in_turn(host: Counting, its_move: bytes) -> None:
    """Moves the volume one way so many times. While it isn't back yet the source is empty, and the host asks again."""
    end = time.monotonic() + patience()
    for _ in range(TURNS):
        while (sense := host.hears(its_move)) is not None:
            same("why a move is refused", sense, SOURCE_IS_EMPTY)
            if time.monotonic() > end:
                raise Wrong("the volume", "isn't moved back", "is moved back by the other host")


def takes_hold(host: Counting, lun: int) -> None:
    """Holds a drive by Exclusive Access, with key 1: three records."""
    host.says(ready(lun), POWER_ON)
    host.says(reserve_out(0, 0, 0, 1, lun))
    host.says(reserve_out(1, 3, 1, 0, lun))


def still_holds(host: Counting, lun: int, number: int) -> None:
    """A volume came in again and again, which is reported once, by the record of this number. The reservation is as it was."""
    same("what is reported of volumes", host.ask(ready(lun)), check(number, *VOLUME_CAME))
    same("the reservation", host.ask(command(lun, scsi.reserve_in(1, 24))), good(number + 1, reserved(3)))


def drives_with_tags(number: int) -> bytes:
    """READ ELEMENT STATUS of two drives, of which the first has the volume (SMC-3): a header, that of a page of data transfer elements with
    volume tags, and for each drive its address, whether it is full, and its tag."""
    full, empty = b"VOL00001".ljust(32) + bytes(4), bytes(36)
    page = bytes.fromhex("0480003400000068") + b"".join(
        bytes.fromhex(start) + bytes(9) + tag + bytes(4) for start, tag in [("010009", full), ("010108", empty)])
    return good(number, bytes.fromhex("0100000200000070") + page)


RECORD_OF_A_MOVE = r"{}\.1 (TEST-UNIT-READY 2 - - 02|MOVE-MEDIUM 6 MOVE-MEDIUM/NONE/OTHER - 0[02]) -"


def one_volume(tried: Tried) -> None:
    """A holds the first drive and moves the volume from there to the second, which B holds, who moves it back."""
    with Server(tried, "--sessions", "2", "--drives", "2", "--spans") as server:
        a, b = Counting(server, A), Counting(server, B)
        for host, lun in [(a, DRIVE), (b, SECOND_DRIVE)]:
            host.says(READY, POWER_ON)
            takes_hold(host, lun)
        a.says(TO_DRIVE)
        next_to_each_other(lambda: moves_in_turn(a, FORTH), lambda: moves_in_turn(b, BACK))
        # After three records each drive has two of each turn, and the first also that the volume was put in.
        still_holds(a, DRIVE, 4 + 2 * TURNS + 1)
        still_holds(b, SECOND_DRIVE, 3 + 2 * TURNS + 1)
        asked = sum(len(host.numbers[CHANGER]) for host in (a, b))
        same("where the volume is", a.ask(command(CHANGER, "b814010000020000ffff0000")).hex(), drives_with_tags(asked + 1).hex())
        a.log_out()
        b.log_out()
        server.ends()
        changer, *of_drives = lines_by_unit(server.lines())
    # Those that were asked before, where the volume is, and two losses.
    same("how many records the changer has", len(changer), asked + 3)
    same_one_by_one("numbers of the answers", sorted(a.numbers[CHANGER] + b.numbers[CHANGER]), list(range(1, asked + 1)))
    same_records("the changer", changer, {A: a.numbers[CHANGER], B: b.numbers[CHANGER]}, RECORD_OF_A_MOVE)
    same_one_by_one("moves", [line.split(" ")[0] for line in changer if " MOVE-MEDIUM " in line and line.endswith(" 00 -")],
                    ["500000000000000a.1"] + ["500000000000000a.1", "500000000000000b.1"] * TURNS)
    for place, (lines, sas) in enumerate(zip(of_drives, "ab", strict=True)):
        same_one_by_one("records of a drive", lines, records_of_turns(place, f"500000000000000{sas}.1"))


def records_of_turns(place: int, nexus: str) -> list[str]:
    """Those of the first drive, into which the volume is put before the turns begin, or of the second."""
    held = f"EA/{nexus}"
    came, went = f"- MEDIUM-IN 6 - - 00 {held}", f"- MEDIUM-OUT 6 - - 00 {held}"
    return [
        f"{nexus} TEST-UNIT-READY 2 - - 02 -",
        f"{nexus} REGISTER 6 REGISTER/NONE/OTHER - 00 -",
        f"{nexus} RESERVE 6 RESERVE/NONE/REGISTERED - 00 -",
        *([came] + [went, came] * TURNS if place == 0 else [came, went] * TURNS),
        f"{nexus} TEST-UNIT-READY 4 TEST-UNIT-READY/EA/HOLDER - 02 {held}",
        f"{nexus} PR-IN 6 PR-IN/EA/HOLDER - 00 {held}",
        f"{nexus} LOSS 6 - - 00 {held}",
    ]


# SPC-4: standard INQUIRY data and the unit serial number page of the drive at LUN 4, and the list of five units.
INQUIRY_DATA = bytes.fromhex("0180 0602 1f00 0000") + b"VTLIB   TAPE DRIVE      0001"
SERIAL_NUMBER = bytes.fromhex("01800004") + b"0004"
LUNS = bytes.fromhex("00000028 00000000") + b"".join(bytes([0, lun]) + bytes(6) for lun in range(5))
# SMC-3: one transport element, eight storage elements, no import/export element and four drives.
ELEMENTS = bytes.fromhex("17000000 1d12 00000001 04000008 02000000 01000004 0000")
# REQUEST SENSE to a unit that isn't there is answered with these as data.
SENSE_OF_NO_UNIT = bytes.fromhex("70000500 0000000a 00000000 2500 00000000")

FOUR_DRIVES: list[Step] = [
    Says(0, LOGIN_OF_A, ACCEPTED),
    Says(1, LOGIN_OF_B, ACCEPTED),
    Says(0, command(LAST_DRIVE, "120000002400"), good(1, INQUIRY_DATA)),
    Says(0, command(LAST_DRIVE, "12018000ff00"), good(2, SERIAL_NUMBER)),
    Says(0, ready(LAST_DRIVE), power_on(3)),
    Says(1, ready(LAST_DRIVE), power_on(4)),
    Says(0, command(CHANGER, "a00000000000000000ff0000"), good(1, LUNS)),
    # No unit is after the fourth drive. INQUIRY and REQUEST SENSE are GOOD there, and nothing else.
    Says(0, command(AFTER_THE_LAST, "120000002400"), good(0, scsi.NO_UNIT)),
    Says(0, command(AFTER_THE_LAST, "030000001200"), good(0, SENSE_OF_NO_UNIT)),
    Says(0, ready(AFTER_THE_LAST), check(0, *IS_ABSENT)),
    Says(1, reserve_out(0, 0, 0, 1, AFTER_THE_LAST), check(0, *IS_ABSENT)),
    Says(1, command(AFTER_THE_LAST, "5e00000000000000ff00"), check(0, *IS_ABSENT)),
    Says(1, bytes([3, AFTER_THE_LAST]), b"\x83\x02"),
    Says(0, READY, power_on(2)),
    Says(0, command(CHANGER, "1a001d00ff00"), good(3, ELEMENTS)),
    # The volume comes into the fourth drive. There is no fifth.
    Says(0, move(0x400, 0x103), good(4)),
    Says(0, move(0x103, 0x104), check(5, *NO_ELEMENT)),
    Says(0, ready(LAST_DRIVE), check(6, *VOLUME_CAME)),
    Says(1, ready(LAST_DRIVE), check(7, *VOLUME_CAME)),
    Says(0, command(LAST_DRIVE, "0a0000000400", BLOCK), good(8)),
    Says(0, command(LAST_DRIVE, "010000000000"), good(9)),
    # A holds that drive by Write Exclusive: there B may read alone, and at the third it is asked only for a volume.
    Says(0, reserve_out(0, 0, 0, 1, LAST_DRIVE), good(10)),
    Says(0, reserve_out(1, 1, 1, 0, LAST_DRIVE), good(11)),
    Says(1, command(LAST_DRIVE, "0a0000000400", BLOCK), conflict(12)),
    Says(1, command(LAST_DRIVE, "080000000400"), good(13, BLOCK)),
    Says(1, ready(THIRD_DRIVE), power_on(1)),
    Says(1, command(THIRD_DRIVE, "0a0000000400", BLOCK), check(2, *NO_MEDIUM)),
    Says(1, READY, power_on(6)),
    Says(1, move(0x103, 0x102), good(7)),
    Says(1, ready(THIRD_DRIVE), check(4, *VOLUME_CAME)),
    Says(1, command(THIRD_DRIVE, "080000000400"), good(5, BLOCK)),
    # Both are notified of a reset, which is record 15 and leaves the reservation.
    Says(0, bytes([3, LAST_DRIVE]), WAS_RESET),
    Says(0, ready(LAST_DRIVE), check(16, 6, 0x29, 0x03)),
    Says(1, ready(LAST_DRIVE), check(17, 6, 0x29, 0x03)),
    Says(0, command(LAST_DRIVE, "5e010000000000001800"), good(18, reserved(1))),
    Says(1, LOGOUT, LOGGED_OUT),
    IsLeft(1),
    Says(0, LOGOUT, LOGGED_OUT),
    IsLeft(0),
]

# The changer's, and then those of the third drive and of the fourth. The others were asked nothing.
LINES_OF_FOUR_DRIVES = """\
1 500000000000000a.1 REPORT-LUNS 6 REPORT-LUNS/NONE/OTHER - 00 -
2 500000000000000a.1 TEST-UNIT-READY 2 - - 02 -
3 500000000000000a.1 MODE-SENSE(6) 6 MODE-SENSE(6)/NONE/OTHER - 00 -
4 500000000000000a.1 MOVE-MEDIUM 6 MOVE-MEDIUM/NONE/OTHER - 00 -
5 500000000000000a.1 MOVE-MEDIUM 6 MOVE-MEDIUM/NONE/OTHER - 02 -
6 500000000000000b.1 TEST-UNIT-READY 2 - - 02 -
7 500000000000000b.1 MOVE-MEDIUM 6 MOVE-MEDIUM/NONE/OTHER - 00 -
8 500000000000000b.1 LOSS 6 - - 00 -
9 500000000000000a.1 LOSS 6 - - 00 -
1 500000000000000b.1 TEST-UNIT-READY 2 - - 02 -
2 500000000000000b.1 WRITE(6) 6 WRITE(6)/NONE/OTHER - 02 -
3 - MEDIUM-IN 6 - - 00 -
4 500000000000000b.1 TEST-UNIT-READY 4 TEST-UNIT-READY/NONE/OTHER - 02 -
5 500000000000000b.1 READ(6) 6 READ(6)/NONE/OTHER - 00 -
6 500000000000000b.1 LOSS 6 - - 00 -
1 500000000000000a.1 INQUIRY 6 INQUIRY/NONE/OTHER - 00 -
2 500000000000000a.1 INQUIRY 6 INQUIRY/NONE/OTHER - 00 -
3 500000000000000a.1 TEST-UNIT-READY 2 - - 02 -
4 500000000000000b.1 TEST-UNIT-READY 2 - - 02 -
5 - MEDIUM-IN 6 - - 00 -
6 500000000000000a.1 TEST-UNIT-READY 4 TEST-UNIT-READY/NONE/OTHER - 02 -
7 500000000000000b.1 TEST-UNIT-READY 4 TEST-UNIT-READY/NONE/OTHER - 02 -
8 500000000000000a.1 WRITE(6) 6 WRITE(6)/NONE/OTHER - 00 -
9 500000000000000a.1 REWIND 6 REWIND/NONE/OTHER - 00 -
10 500000000000000a.1 REGISTER 6 REGISTER/NONE/OTHER - 00 -
11 500000000000000a.1 RESERVE 6 RESERVE/NONE/REGISTERED - 00 -
12 500000000000000b.1 WRITE(6) 3 WRITE(6)/WE/OTHER - 18 WE/500000000000000a.1
13 500000000000000b.1 READ(6) 6 READ(6)/WE/OTHER - 00 WE/500000000000000a.1
14 - MEDIUM-OUT 6 - - 00 WE/500000000000000a.1
15 - RESET 6 - - 00 WE/500000000000000a.1
16 500000000000000a.1 TEST-UNIT-READY 2 - - 02 WE/500000000000000a.1
17 500000000000000b.1 TEST-UNIT-READY 2 - - 02 WE/500000000000000a.1
18 500000000000000a.1 PR-IN 6 PR-IN/WE/HOLDER - 00 WE/500000000000000a.1
19 500000000000000b.1 LOSS 6 - - 00 WE/500000000000000a.1
20 500000000000000a.1 LOSS 6 - - 00 WE/500000000000000a.1
"""


# B's, at the fourth drive: of the fifth there are none.
LINES_OF_B = """\
1 500000000000000b.1 TEST-UNIT-READY 2 - - 02
2 500000000000000b.1 TEST-UNIT-READY 6 TEST-UNIT-READY/NONE/OTHER - 02
3 500000000000000b.1 LOSS 6 - - 00
"""


def at_a_portal(tried: Tried) -> None:
    with Server(tried, "--iscsi", "127.0.0.1:0", *HOSTS, "--workers", "2", "--drives", "4") as server, Initiator(server.portal(), "b") as b:
        b.log_in()
        for lun, sense in [(LAST_DRIVE, POWER_ON), (LAST_DRIVE, NO_MEDIUM), (AFTER_THE_LAST, IS_ABSENT)]:
            number = b.next_number()
            b.send(pdus.ready(number, number, pdus.unit(lun)))
            same(f"the sense data of logical unit {lun}", b.reads(CHECKED).data.hex(), pdus.sense_segment(scsi.sense(*sense)).hex())
        b.log_out()
        b.is_left()
        server.end()
        server.ends()
        same_lines(server.lines(), LINES_OF_B)


def talks(drives: int, steps: list[Step], lines: str, tried: Tried) -> None:
    meet(tried, ["--sessions", "2", "--drives", str(drives), "--spans"], 2, steps, None, lines)


ROWS = [
    Row(
        "drive-to-drive",
        "two hosts move a volume from drive to drive and back: its blocks go with it, and a reservation stays with its drive",
        functools.partial(talks, 2, DRIVE_TO_DRIVE, LINES_OF_DRIVE_TO_DRIVE)),
    Row(
        "one-volume",
        "two hosts beside each other move one volume there and back, and each move is recorded at the changer and at both drives",
        one_volume),
    Row("four-drives", "the last of four drives is a unit as the others are, and there is none behind it",
        functools.partial(talks, 4, FOUR_DRIVES, LINES_OF_FOUR_DRIVES)),
    Row("four-drives-at-a-portal", "so it is for an initiator of iSCSI", at_a_portal),
]
