#!/usr/bin/env python3
"""Refuses each request of memory of the program in turn, one a run, until a run meets none: status 0 where each run ends as it may.

Scripts go through `vtl replay --audit`. A run may end with status 3, `vtl: want of memory`, and nothing printed; or with status 0, where
one reply is BUSY, and all else is as if the command of that reply weren't in the script, and as the whole run where the command is sent
once more; or as the whole run. Sessions go through `vtl serve`: each reply is BUSY or the one that is due, a session may end early, and the
records that are printed are those of the replies, with the loss of each nexus unless the server says that memory was wanted.

    trials/refused_memory.py [PROGRAM]

tries the program that `./vtl build` builds, or the one that is named. It takes cc and a few minutes.
"""
import argparse
import collections
import concurrent.futures
import os
import struct
import subprocess
import sys
import tempfile
import time
import typing

sys.path.append(os.path.join(os.path.dirname(os.path.dirname(os.path.abspath(__file__))), "tests", "lib"))

import scsi
from compare import Wrong
from frames import ACCEPTED, BUSY, BUSY_STATUS, LOGGED_OUT, LOGOUT, command, framed, login, received, reply_of
from play import Tried
from program import built, run
from server import Server

HERE = os.path.dirname(os.path.abspath(__file__))
A, B, C = (f"500000000000000{it}.1" for it in "abc")
READY, TO_DRIVE, FROM_DRIVE = scsi.TEST_UNIT_READY.hex(), scsi.move(0x400, 0x100).hex(), scsi.move(0x100, 0x400).hex()


def reserve_out(action, scope_type, key, other):
    return f"{scsi.reserve_out(action, scope_type).hex()} {scsi.key_list(key, other).hex()}"


# By name: the options of the library, and the events.
SCRIPTS = {
    "four commands": ("", [
        f"{A} 0 {READY}", f"{A} 0 {READY}", f"{A} 0 {reserve_out(0, 0, 0, 0x1122334455667788)}", f"{A} 0 5e00000000000000ff00"]),
    "a conflict at a tape": ("", [
        f"{A} 0 {READY}", f"{A} 0 {TO_DRIVE}", f"{A} 1 {READY}", f"{B} 1 {READY}", f"{A} 1 {READY}",
        f"{A} 1 0a0000000400 01020304", f"{A} 1 010000000000",
        f"{A} 1 {reserve_out(0, 0, 0, 1)}", f"{B} 1 {reserve_out(0, 0, 0, 2)}", f"{A} 1 {reserve_out(1, 1, 1, 0)}",
        f"{B} 1 080000000400", f"{B} 1 0a0000000400 09090909", f"{A} 1 34000000000000000000", f"{A} 1 010000000000",
        f"{A} 1 080000000400"]),
    "a reservation of all registrants is taken": ("", [
        f"{A} 0 {READY}", f"{B} 0 {READY}", f"{C} 0 {READY}",
        f"{A} 0 {reserve_out(0, 0, 0, 1)}", f"{B} 0 {reserve_out(0, 0, 0, 2)}", f"{C} 0 {reserve_out(0, 0, 0, 3)}",
        f"{A} 0 {reserve_out(1, 8, 1, 0)}", f"{A} 0 {reserve_out(4, 1, 1, 0)}", f"{B} 0 {READY}", f"{C} 0 {READY}",
        f"{A} 0 5e03000000000000ff00"]),
    "moves and prevention": ("--volumes 2", [
        f"{A} 0 {READY}", f"{A} 0 {TO_DRIVE}", f"{A} 0 a50000000100040100000000", f"{B} 1 {READY}", f"{B} 1 {READY}", f"{B} 1 1e0000000100",
        f"{A} 0 {FROM_DRIVE}", f"{B} 1 1e0000000000", f"{A} 0 {FROM_DRIVE}"]),
    "element status": ("--slots 2", [f"{A} 0 {READY}", f"{A} 0 b8000000ffff000010000000"]),
    "a mode that is told to others": ("", [
        f"{A} 0 {READY}", f"{A} 0 {TO_DRIVE}", f"{A} 1 {READY}", f"{B} 1 {READY}", f"{A} 1 151000000c00 000000080000000000000200",
        f"{B} 1 {READY}", f"{B} 1 1a000000ff00"]),
    "no command": ("", []),
    "a loss and a reset": ("", [f"{A} 0 {READY}", f"{B} 0 {READY}", f"loss {A} 0", "reset 0", f"{A} 0 {READY}", f"{B} 0 {READY}"]),
}


class Asked(typing.NamedTuple):
    """A command of a session: its unit, its CDB, its data, and the status and the sense code that are due once the host knows of power
    on."""

    unit: int
    cdb: str
    data: str = ""
    status: int = 0
    sense: str = ""


class Sessions(typing.NamedTuple):
    """What the server is asked for, the hosts, the commands of each, and whether the hosts come next to each other or one after the
    other."""

    options: list[str]
    hosts: str
    commands: list[Asked]
    is_at_once: bool = False


AT_CHANGER = Asked(0, READY)
WRONG_KEY = Asked(0, *reserve_out(0, 0, 5, 6).split(" "), status=0x18)
# TEST UNIT READY to each of two empty drives: medium not present.
AT_DRIVES = [Asked(1, READY, status=2, sense="3a00"), Asked(2, READY, status=2, sense="3a00")]

# With four commands the loss is the first record that finds no room.
SESSIONS = {
    "one session": Sessions([], "a", [AT_CHANGER]),
    "two sessions": Sessions([], "ab", [AT_CHANGER] * 2),
    "two sessions with a loss that wants room": Sessions([], "ab", [AT_CHANGER] * 4),
    "two sessions, drained": Sessions(["--drain"], "ab", [AT_CHANGER] * 2),
    "two sessions with a wrong key, drained": Sessions(["--drain"], "ab", [AT_CHANGER, WRONG_KEY]),
    "two sessions beside each other at two drives": Sessions(["--drives", "2"], "ab", AT_DRIVES * 10, is_at_once=True),
}


class Refusing:
    """Runs the program with one request refused."""

    def __init__(self, tried):
        self.tried = tried
        self.library, self.count = tried.path("refuse.so"), tried.path("count")
        subprocess.run(["cc", "-O2", "-shared", "-fPIC", "-o", self.library, os.path.join(HERE, "refuse_nth.c")], check=True)

    def environment(self, number):
        with open(self.count, "wb") as it:
            it.write(bytes(8))
        return {"LD_PRELOAD": self.library, "REFUSE": str(number), "REFUSE_COUNT": self.count}

    def counted(self):
        with open(self.count, "rb") as it:
            return struct.unpack("<Q", it.read(8))[0]


def fail(why):
    print(why, file=sys.stderr)
    sys.exit(1)


def replayed(refusing, options, events, number):
    words = [refusing.tried.program, "replay", "--audit", *options.split()]
    ended = run(words, "".join(f"{it}\n" for it in events), env=refusing.environment(number))
    return *ended, refusing.counted()


def without(lines, at):
    return lines[:at] + lines[at + 1:]


def judge_retry(refusing, options, events, whole, at, number):
    """The command at this place was BUSY. Sent once more, it and all others are answered as in the whole run."""
    again = events[:at + 1] + events[at:]
    # A line more may ask some times more before the run begins.
    for later in range(number, number + 9):
        status, printed, reported, _ = replayed(refusing, options, again, later)
        lines = printed.splitlines()
        if (status, reported) == (0, "") and lines[at] == "08 - -":
            if without(lines, at) != whole.splitlines():
                fail(f"request {later}: sent again it is another answer: {printed!r}")
            return
    fail(f"request {number}: with the command twice it isn't BUSY")


def judge_replay(refusing, options, events, whole, number):
    """What the run with this request refused came to."""
    status, printed, reported, count = replayed(refusing, options, events, number)
    if count < number:
        return None
    if status == 3 and reported == "vtl: want of memory\n" and printed == "":
        return "3, vtl: want of memory"
    if (status, reported) != (0, ""):
        fail(f"request {number}: status {status}, {reported!r}, {printed!r}")
    if printed == whole:
        return "0, as the whole run"
    lines = printed.splitlines()
    busy = [at for at, line in enumerate(lines[:len(events)]) if line == "08 - -"]
    if len(busy) != 1:
        fail(f"request {number}: {printed!r}")
    rest = replayed(refusing, options, without(events, busy[0]), 0)[1].splitlines()
    if without(lines, busy[0]) != rest:
        fail(f"request {number}: BUSY changed something: {printed!r}")
    judge_retry(refusing, options, events, whole, busy[0], number)
    return "0, one BUSY, all else as without that command, and sent again as the whole run"


def sweep(name, judge):
    ends = collections.Counter()
    number = 1
    while True:
        end = judge(number)
        if end is None:
            break
        ends[end] += 1
        number += 1
    print(f"{name}: {number - 1} requests")
    for end, count in sorted(ends.items()):
        print(f"  {count}: {end}", flush=True)


def connected(server):
    """A connection once the server listens, or none where it ends before."""
    while True:
        try:
            return server.connect()
        except OSError:
            if server.process.poll() is not None:
                return None
            time.sleep(0.002)


def talked(server, host, commands):
    """The replies of one session, up to its end."""
    connection, replies = connected(server), []
    if connection is None:
        return replies
    asked = [command(it.unit, it.cdb, bytes.fromhex(it.data)) for it in commands]
    with connection:
        for body in [login(int(f"500000000000000{host}", 16)), *asked, LOGOUT]:
            try:
                connection.sendall(framed(body))
                replies.append(received(connection))
            except ConnectionError:
                return replies
        # Once the connection has ended, so has the session.
        connection.recv(1)
    return replies


def ending_of(lines):
    """What is reported of the end, after what was reported at once."""
    for at, line in enumerate(lines):
        if line in ("vtl: device fault", "vtl: want of memory"):
            return lines[at:]
    return []


def judge_sessions(refusing, of, number):
    """A session of each host, next to each other or one after the other."""
    environment = refusing.environment(number)
    server = Server(
        refusing.tried, "--sessions", str(len(of.hosts)), *of.options, is_patient=False, environment=environment)
    with concurrent.futures.ThreadPoolExecutor(len(of.hosts) if of.is_at_once else 1) as pool:
        sessions = list(pool.map(lambda host: talked(server, host, of.commands), of.hosts))
    try:
        status = server.status()
    except Wrong:
        fail(f"request {number}: the server doesn't end; replies {sessions}")
    finally:
        server.kill()
    printed, reported = server.lines(), server.reported.text
    if os.path.exists(server.path):
        os.remove(server.path)
    if refusing.counted() < number:
        return None
    answers = []
    for host, replies in zip(of.hosts, sessions):
        answers += judge_replies(number, host, of.commands, replies)
    ending = ending_of(reported.splitlines())
    if status not in (0, 3, 4) or ending[:1] != {0: [], 3: ["vtl: want of memory"], 4: ["vtl: device fault"]}[status]:
        fail(f"request {number}: status {status}, {reported!r}")
    judge_records(number, of, printed, answers, status)
    busy = sum(it.status == 8 for it in answers)
    early = sum(len(it) < len(of.commands) + 2 for it in sessions)
    what = [f"{status}", *ending[-1:], *[f"{busy} BUSY"] * bool(busy), *[f"{early} ended early"] * bool(early)]
    return ", ".join([*what, f"{printed.count('LOSS')} losses recorded", *["no lines"] * (printed == "")])


class Answer(typing.NamedTuple):
    """The answer to a command of a host: its unit, its status, and the number of its record."""

    host: str
    unit: int
    status: int
    number: int


def judge_replies(number, host, commands, replies):
    """The answers to commands. The first of a unit that isn't BUSY reports the power on."""
    for at, right in [(0, ACCEPTED), (len(commands) + 1, LOGGED_OUT)]:
        if at < len(replies) and replies[at] != right:
            fail(f"request {number}: reply {at} of {host} is {replies[at].hex()}")
    answers = []
    knows = set()
    for asked, body in zip(commands, replies[1:]):
        reply = reply_of(body)
        if reply.status == BUSY_STATUS:
            right = body == BUSY
        else:
            status, sense = (asked.status, asked.sense) if asked.unit in knows else (2, "2900")
            right = (reply.status, reply.sense[12:14].hex(), reply.data) == (status, sense, b"")
            knows.add(asked.unit)
        if not right:
            fail(f"request {number}: a reply of {host} to {asked} is {body.hex()}")
        answers.append(Answer(host, asked.unit, reply.status, reply.number))
    return answers


def judge_records(number, of, printed, answers, status):
    """The records are those of the answers, and of losses. Lines that find no memory are kept for the next time; where they find none
    at the end either, the server says so."""
    if printed == "" and status != 0:
        return
    is_drained = "--drain" in of.options
    units = units_of(printed, is_drained)
    recorded = [it for it in answers if it.status != 8]
    if is_drained and status == 3:
        # Some lines are missing, and the others are in order.
        numbers = [int(it[0]) for it in units[0]]
        right = numbers == sorted(set(numbers)) and all(is_of(line, recorded) for line in units[0] if line[2] != "LOSS")
    elif not units:
        right = not recorded
    else:
        asked = sorted({it.unit for it in of.commands})
        right = len(units) == len(asked) and all(
            is_right_unit(lines, [it for it in recorded if it.unit == unit]) for unit, lines in zip(asked, units))
    lost = sum(line[2] == "LOSS" for lines in units for line in lines)
    nexuses = sum(len({line[1] for line in lines}) for lines in units)
    if not right or (status == 0 and lost != nexuses):
        fail(f"request {number}: status {status}, {printed!r} for {answers}")


def units_of(printed, is_drained):
    """The words of the lines of each unit that has some: the next unit's begin with number 1. What is drained here is of one unit."""
    units = []
    for line in printed.splitlines():
        words = line.split()
        if not units or (words[0] == "1" and not is_drained):
            units.append([])
        units[-1].append(words)
    return units


def is_of(line, answers):
    """Whether a line is the record of one of these answers."""
    return any(line[:2] == [str(it.number), f"500000000000000{it.host}.1"] and line[6] == f"{it.status:02x}" for it in answers)


def is_right_unit(lines, answers):
    """Whether these are the lines of one unit: numbered without a gap, with each answer at its number. A reply that found no memory is
    missing, and its record is there."""
    found = [line for line in lines if line[2] != "LOSS"]
    numbered = [int(line[0]) for line in lines] == list(range(1, len(lines) + 1))
    there = all(it.number <= len(lines) and is_of(lines[it.number - 1], [it]) for it in answers)
    return numbered and there and len(answers) <= len(found) <= len(answers) + 1


def main():
    words = argparse.ArgumentParser(description="Refuses each request of memory in turn; see the head of this file.")
    words.add_argument("program", nargs="?", help="in place of the proved one")
    program = built(words.parse_args().program)
    with tempfile.TemporaryDirectory(prefix="vtl-") as folder:
        refusing = Refusing(Tried(program, folder))
        for name, (options, events) in SCRIPTS.items():
            status, whole, reported, _ = replayed(refusing, options, events, 0)
            if (status, reported) != (0, ""):
                fail(f"{name}: status {status}, {reported}")
            sweep(name, lambda number: judge_replay(refusing, options, events, whole, number))
        for name, of in SESSIONS.items():
            sweep(name, lambda number: judge_sessions(refusing, of, number))


if __name__ == "__main__":
    main()
