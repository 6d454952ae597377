"""Hosts that share a library, one next to another or one after another: what each is answered, and which records that leaves."""
import concurrent.futures
import re
import typing

import scsi
from compare import Wrong, same, same_one_by_one
from exchanges import (
    DRIVE_READY, DRIVE_RESET, LOGIN_OF_A, LOGIN_OF_B, NOWHERE, PREVENT, READY, TO_DRIVE, UNLOAD, Does, IsLeft, Says, Step, meet, move,
    ready, reserve_out)
from frames import (
    A, ACCEPTED, B, BUSY, CHECK_CONDITION, GOOD_STATUS, LOGGED_OUT, LOGOUT, WAS_RESET, check, command, conflict, good, power_on, reply_of,
    reset)
from host import Host
from play import Row, Tried
from scsi import CHANGER, DRIVE
from server import Server

SECOND_DRIVE = 2
# Of sense data the sense key, the additional sense code and its qualifier.
Sense = tuple[int, int, int]
POWER_ON, LOST, NO_MEDIUM, NO_UNIT = (6, 0x29, 0x00), (6, 0x29, 0x07), (2, 0x3A, 0x00), (5, 0x25, 0x00)


class Counting(Host):
    """A host that notes the numbers of its records at each unit, and is answered frames."""

    def __init__(self, server: Server, sas: int, port: int = 1):
        super().__init__(server, sas, port)
        self.numbers: dict[int, list[int]] = {}

    def hears(self, frame: bytes) -> Sense | None:
        """What the sense data of an answer say: none where it is GOOD. Its number is noted."""
        reply = reply_of(self.ask(frame))
        found = (reply.sense[2] & 15, reply.sense[12], reply.sense[13]) if reply.sense else None
        same(f"the status of the answer to {frame[:9].hex()}", reply.status, CHECK_CONDITION if found else GOOD_STATUS)
        self.numbers.setdefault(frame[1], []).append(reply.number)
        return found

    def says(self, frame: bytes, sense: Sense | None = None) -> None:
        """Compares the status and the sense data of an answer, and notes its number."""
        same(f"the answer to {frame[:9].hex()}", self.hears(frame), sense)


def next_to_each_other(*parts: typing.Callable[[], None]) -> None:
    with concurrent.futures.ThreadPoolExecutor(len(parts)) as pool:
        for part in [pool.submit(part) for part in parts]:
            part.result()


def lines_by_unit(lines: str) -> list[list[str]]:
    """The lines of each unit, LUN 0 first: those of the next begin with number 1 again."""
    units: list[list[str]] = []
    for line in lines.splitlines():
        number, _, rest = line.partition(" ")
        if number == "1":
            units.append([])
        same("the number of a line", number, str(len(units[-1]) + 1))
        units[-1].append(rest)
    return units


def same_records(what: str, lines: list[str], hosts: dict[int, list[int]], wanted: str) -> None:
    """The records that answers were numbered by are those of their hosts, and each is as it is wanted."""
    for sas, numbers in hosts.items():
        for number in numbers:
            pattern, line = wanted.format(f"{sas:016x}"), lines[number - 1]
            if not re.fullmatch(pattern, line):
                raise Wrong(f"record {number} of {what}", line, pattern)


READY_RECORD = r"{}\.1 TEST-UNIT-READY (2 - - 02|6 TEST-UNIT-READY/NONE/OTHER - 02)"


def two_drives(tried: Tried) -> None:
    """Each asks both drives by turns, a hundred times."""
    def part(host: Counting) -> None:
        for turn in range(100):
            host.says(ready(DRIVE + turn % 2), POWER_ON if turn < 2 else NO_MEDIUM)

    with Server(tried, "--workers", "2", "--drives", "2") as server:
        hosts = {A: Counting(server, A), B: Counting(server, B)}
        next_to_each_other(*(lambda host=host: part(host) for host in hosts.values()))
        for host in hosts.values():
            host.log_out()
        server.end()
        server.ends()
        units = lines_by_unit(server.lines())
    same("how many records each drive has", [len(lines) for lines in units], [102, 102])
    for lun, lines in zip((DRIVE, SECOND_DRIVE), units):
        numbers = sorted(number for host in hosts.values() for number in host.numbers[lun])
        same_one_by_one("numbers of the answers", numbers, list(range(1, 101)))
        same_records(f"logical unit {lun}", lines, {sas: host.numbers[lun] for sas, host in hosts.items()}, READY_RECORD)
        same("the losses", lines[100:], [f"{sas:016x}.1 LOSS 6 - - 00" for sas in (A, B)])


def drains(tried: Tried) -> None:
    """Each asks both drives by a session each, the first by target port 1 and the second by target port 2, by which their lines are known
    apart, and once more: records are handed out after each session."""
    def part(server: Server, sas: int) -> None:
        for sense in (POWER_ON, LOST):
            ports = [Counting(server, sas, 1), Counting(server, sas, 2)]
            for turn in range(50):
                for host, lun in zip(ports, (DRIVE, SECOND_DRIVE)):
                    host.says(ready(lun), sense if turn == 0 else NO_MEDIUM)
            for host in ports:
                host.log_out()

    with Server(tried, "--workers", "4", "--drives", "2", "--drain") as server:
        next_to_each_other(lambda: part(server, A), lambda: part(server, B))
        server.end()
        server.ends()
        lines = server.lines().splitlines()
    for port in "12":
        found = [line.split(" ")[:3] for line in lines if line.split(" ")[1].endswith(f".{port}")]
        same_one_by_one(f"numbers by port {port}", [int(number) for number, _, _ in found], list(range(1, 205)))
        same(f"the losses by port {port}", sum(what == "LOSS" for _, _, what in found), 4)
    same("how many lines there are", len(lines), 408)


def moves(tried: Tried) -> None:
    """A's volume goes into drive 1 and back fifty times, B's into drive 2."""
    def part(host: Counting, drive: int) -> None:
        host.says(READY, POWER_ON)
        for _ in range(50):
            host.says(move(0x400 + drive, 0x100 + drive))
            host.says(move(0x100 + drive, 0x400 + drive))

    with Server(tried, "--workers", "2", "--drives", "2", "--volumes", "2") as server:
        hosts = {A: Counting(server, A), B: Counting(server, B)}
        next_to_each_other(*(lambda host=host, drive=drive: part(host, drive) for drive, host in enumerate(hosts.values())))
        for host in hosts.values():
            host.log_out()
        server.end()
        server.ends()
        changer, *of_drives = lines_by_unit(server.lines())
    same("how many records the changer has", len(changer), 204)
    numbers = sorted(number for host in hosts.values() for number in host.numbers[CHANGER])
    same_one_by_one("numbers of the answers", numbers, list(range(1, 203)))
    same_records("the changer", changer, {sas: host.numbers[CHANGER] for sas, host in hosts.items()},
                 r"{}\.1 (TEST-UNIT-READY 2 - - 02|MOVE-MEDIUM 6 MOVE-MEDIUM/NONE/OTHER - 00)")
    same("how many drives have records", len(of_drives), 2)
    for lines in of_drives:
        same_one_by_one("records of a drive", lines, ["- MEDIUM-IN 6 - - 00", "- MEDIUM-OUT 6 - - 00"] * 50)


LOSS_AND_RESET = [
    Says(0, LOGIN_OF_A, ACCEPTED),
    Says(1, LOGIN_OF_B, ACCEPTED),
    Says(0, DRIVE_READY, power_on(1)),
    Says(1, DRIVE_READY, power_on(2)),
    # A's loss is record 4, and A is notified of it.
    Says(0, DRIVE_READY, check(3, 2, 0x3A, 0x00)),
    Says(0, LOGOUT, LOGGED_OUT),
    IsLeft(0),
    Says(2, LOGIN_OF_A, ACCEPTED),
    Says(2, DRIVE_READY, check(5, 6, 0x29, 0x07)),
    # A reset of the drive is record 6, and both are notified of it.
    Says(2, DRIVE_RESET, WAS_RESET),
    Says(2, DRIVE_READY, check(7, 6, 0x29, 0x03)),
    Says(1, DRIVE_READY, check(8, 6, 0x29, 0x03)),
    # There is no logical unit 3, and none 9.
    Says(2, reset(3), b"\x83\x02"),
    Says(2, ready(NOWHERE), check(0, *NO_UNIT)),
    Says(2, LOGOUT, LOGGED_OUT),
    IsLeft(2),
    Says(1, LOGOUT, LOGGED_OUT),
    IsLeft(1),
]

# No record is at drive 2, where neither ever was.
LINES_OF_LOSS_AND_RESET = """\
1 500000000000000a.1 TEST-UNIT-READY 2 - - 02
2 500000000000000b.1 TEST-UNIT-READY 2 - - 02
3 500000000000000a.1 TEST-UNIT-READY 6 TEST-UNIT-READY/NONE/OTHER - 02
4 500000000000000a.1 LOSS 6 - - 00
5 500000000000000a.1 TEST-UNIT-READY 2 - - 02
6 - RESET 6 - - 00
7 500000000000000a.1 TEST-UNIT-READY 2 - - 02
8 500000000000000b.1 TEST-UNIT-READY 2 - - 02
9 500000000000000a.1 LOSS 6 - - 00
10 500000000000000b.1 LOSS 6 - - 00
"""


def loss_and_reset(tried: Tried) -> None:
    meet(tried, ["--sessions", "3", "--drives", "2"], 3, LOSS_AND_RESET, None, LINES_OF_LOSS_AND_RESET)


def full_slots(tried: Tried) -> None:
    """128 nexuses, of 32 hosts by four ports each, meet the drive one after another."""
    nexuses = [(0x5000000000001000 + at // 4, 1 + at % 4) for at in range(128)]
    with Server(tried, "--workers", "2", "--log") as server:
        for sas, port in nexuses:
            host = Counting(server, sas, port)
            host.says(DRIVE_READY, POWER_ON)
            host.log_out()
        # B finds no slot at the drive, which leaves no record, and one at the changer. No unit wants none.
        other = Counting(server, B)
        same("B's answer at the drive", other.ask(DRIVE_READY), BUSY)
        server.reported.wait_for("vtl: BUSY for 500000000000000b.1 at logical unit 1: all slots are taken there\n")
        other.says(READY, POWER_ON)
        other.says(ready(NOWHERE), NO_UNIT)
        # A host that has a slot is answered.
        first = Counting(server, *nexuses[0])
        first.says(DRIVE_READY, LOST)
        same("how often it is reported that a command was BUSY", server.reported.text.count("vtl: BUSY"), 1)
        first.log_out()
        other.log_out()
        server.end()
        server.ends()
        same("how many records each unit has", [len(lines) for lines in lines_by_unit(server.lines())], [2, 2 * 128 + 2])


def await_lines(count: int) -> Does:
    return Does(lambda server: server.await_lines(lambda lines: lines.count("\n") >= count))


# A's REGISTER has a wrong key, and leaves. Its loss is record 3.
NUMBERS = [
    Says(0, LOGIN_OF_A, ACCEPTED),
    Says(0, DRIVE_READY, power_on(1)),
    Says(0, reserve_out(0, 0, 5, 0x60), conflict(2)),
    Says(0, LOGOUT, LOGGED_OUT),
    IsLeft(0),
    await_lines(3),
    Says(1, LOGIN_OF_A, ACCEPTED),
    Says(1, DRIVE_READY, check(4, 6, 0x29, 0x07)),
    Says(1, LOGOUT, LOGGED_OUT),
    IsLeft(1),
]

LINES_OF_NUMBERS = """\
1 500000000000000a.1 TEST-UNIT-READY 2 - - 02
2 500000000000000a.1 REGISTER 3 REGISTER/NONE/OTHER K1 18
3 500000000000000a.1 LOSS 6 - - 00
4 500000000000000a.1 TEST-UNIT-READY 2 - - 02
5 500000000000000a.1 LOSS 6 - - 00
"""

# A prevents the removal of the volume, and the records are handed out after B's session.
PREVENTS = [
    Says(0, LOGIN_OF_A, ACCEPTED),
    Says(0, READY, power_on(1)),
    Says(0, TO_DRIVE, good(2)),
    Says(0, DRIVE_READY, power_on(2)),
    Says(0, PREVENT, good(3)),
    Says(1, LOGIN_OF_B, ACCEPTED),
    Says(1, DRIVE_READY, power_on(4)),
    Says(1, LOGOUT, LOGGED_OUT),
    IsLeft(1),
    await_lines(7),
    Says(0, UNLOAD, check(6, 5, 0x53, 0x02)),
    Says(0, command(DRIVE, scsi.ALLOW), good(7)),
    Says(0, UNLOAD, good(8)),
    Says(0, LOGOUT, LOGGED_OUT),
    IsLeft(0),
]


def drained(steps: list[Step], lines: str | None) -> typing.Callable[[Tried], None]:
    def play(tried: Tried) -> None:
        meet(tried, ["--sessions", "2", "--drain"], 2, steps, None, lines)

    return play


ROWS = [
    Row("full-slots", "a unit has room until 128 nexuses are known", full_slots),
    Row("two-drives", "two hosts at two drives have a record for each command", two_drives),
    Row("two-drains", "records that are handed out to two hosts' sessions lose no number", drains),
    Row("two-movers", "the moves of two hosts are recorded at both units", moves),
    Row("loss-and-reset", "a loss and a reset are told at units that are there", loss_and_reset),
    Row("numbers-go-on", "records that are handed out leave the numbers going on", drained(NUMBERS, LINES_OF_NUMBERS)),
    Row("prevention-outlasts-a-drain", "a prevention outlasts a drain", drained(PREVENTS, None)),
]
