#!/usr/bin/env python3
"""A library that is left running: thirty-two hosts hold some thousand sessions at `./vtl serve`, good ones and bad ones, and in the midst
of the last ones TERM comes. Status 0 where all came through, with one line of figures.

The good hosts write and read, move volumes, register, reserve, preempt and ask thousands of commands at once; each reply is checked as it
comes. The bad ones are killed within a frame, go silent before and after their LOGIN, send noise, leave, or read nothing. The reader of the
records stalls for a while, and at the end hosts are idle, read nothing and stand in a crowd before the door. Then it is seen that

- the program ended with status 0, within the grace, and its socket's file is gone;
- the numbers of each unit stand in the lines once each, from 1 on without a gap, and each reply has its line with the status that was
reported;
- each line is one that judgement gives: registrations and reservations are followed, the permission table, as `vtl cells` prints it, and
  the rules on keys are asked again, and each nexus is notified of its losses;
- a host that held a drive by Exclusive Access, and wasn't notified that another took it away, read back what it wrote;
- standard error has lines of known forms alone, and one for the end of each session;
- the program has at most 16 MiB more than after a warm-up.

It takes three minutes, or twenty seconds with `--quick`, and a built program.
"""
import argparse
import collections
import os
import random
import re
import select
import shutil
import signal
import socket
import subprocess
import sys
import tempfile
import threading
import time
import traceback

sys.path.append(os.path.join(os.path.dirname(os.path.dirname(os.path.abspath(__file__))), "tests", "lib"))

import frames
import scsi
import sockets
from compare import Wrong
from frames import ACCEPTED, framed, received, reply_of
from host import Host as SessionOfHost
from play import Tried
from program import VTL, built, child_of, memory_of
from record_lines import Act, Reader, Reported, WrongLine, permission_table
from server import Server

HOSTS = 32
DRIVES = 2
UNITS = 1 + DRIVES
# Of the 11 elements some are empty, so that moves succeed.
PLACES = [0x100, 0x101, 0x200, *range(0x400, 0x408)]
LIBRARY = ["--drives", str(DRIVES), "--slots", "8", "--portals", "1", "--volumes", "4"]
# Seconds.
GRACE, LOGIN_TIMEOUT, IDLE_TIMEOUT, WRITE_TIMEOUT = 2, 2, 3, 2
# What else the machine does may take as long.
PATIENCE = 60
SLACK = 16 * 1024

# A host comes to a unit by the target port that is one above its LUN, so that the nexus of a line names its unit; by this one it comes to
# all. With its changer, one drive and this port a host is three nexuses: each unit gives 64 of its 128 slots.
ROVING_PORT = 4

CDBS = {name: bytes.fromhex(cdb) for name, cdb in {
    "TEST-UNIT-READY": "000000000000",
    "REWIND": "010000000000",
    "REQUEST-SENSE": "030000001200",
    "READ-BLOCK-LIMITS": "050000000000",
    "INIT-ELEMENT-STATUS": "070000000000",
    "WRITE-FILEMARKS(6)": "100000000100",
    "SPACE(6)": "110000000100",
    "INQUIRY": "120000002400",
    "MODE-SENSE(6)": "1a003f00ff00",
    "LOAD-UNLOAD": "1b0000000100",
    "PREVENT-REMOVAL": "1e0000000100",
    "ALLOW-REMOVAL": "1e0000000000",
    "LOCATE(10)": "2b000000000000000000",
    "READ-POSITION": "34000000000000000000",
    "PR-IN": "5e01000000000000ff00",
    "REPORT-LUNS": "a00000000000000000ff0000",
    "READ-ELEMENT-STATUS": "b8100000ffff000010000000",
    "READ-ELEMENT-STATUS-CURDATA": "b8100000ffff020010000000",
    "INVALID": "ff0000000000",
}.items()}
AT_ALL = [
    "TEST-UNIT-READY", "REQUEST-SENSE", "INQUIRY", "REPORT-LUNS", "MODE-SENSE(6)", "PREVENT-REMOVAL", "ALLOW-REMOVAL", "PR-IN", "INVALID"]
AT_CHANGER = [*AT_ALL, "INIT-ELEMENT-STATUS", "READ-ELEMENT-STATUS", "READ-ELEMENT-STATUS-CURDATA"]
AT_DRIVES = [*AT_ALL, "READ-BLOCK-LIMITS", "READ-POSITION", "SPACE(6)", "LOCATE(10)", "LOAD-UNLOAD"]
# PERSISTENT RESERVE OUT: service actions, and the types.
ACTIONS = {"REGISTER": 0, "RESERVE": 1, "RELEASE": 2, "CLEAR": 3, "PREEMPT": 4, "PREEMPT-ABORT": 5, "REGISTER-IGNORE": 6}
TYPES = {"WE": 1, "EA": 3, "WERO": 5, "EARO": 6, "WEAR": 7, "EAAR": 8}

GOOD, CHECK_CONDITION, RESERVATION_CONFLICT = 0x00, 0x02, 0x18

# What a host does that is killed: it logs in, sends part of a frame, says so, and waits.
VICTIM = r"""
import socket, sys
with socket.socket(socket.AF_UNIX) as connection:
    connection.connect(sys.argv[1])
    connection.sendall(bytes.fromhex(sys.argv[2]))
    if connection.recv(6)[5:] == b"\0":
        connection.sendall(bytes.fromhex(sys.argv[3]))
    print("sent", flush=True)
    sys.stdin.read()
"""

NEXUS = r"[0-9a-f]{16}\.[1-4]"
SESSION = rf"vtl: session (?P<number>[0-9]+)(?: of (?P<nexus>{NEXUS})| before its LOGIN)?"
COUNTS = r" after (?P<commands>[0-9]+) commands and [0-9]+ seconds"
FAULTS = "bad frame|frame too long|already connected|a read failed|a write failed|want of memory|nothing came in time"
# The lines of standard error.
TOLD = {name: re.compile(form) for name, form in {
    "away": r"vtl: removed \S+: nobody listened there",
    "serving": rf"vtl: serving at \S+: {UNITS} units, {HOSTS} workers",
    "begins": r"vtl: session (?P<number>[0-9]+) begins",
    "ended": rf"{SESSION}:? ended (?:by its LOGOUT|by the end of input|within a frame|by a fault){COUNTS}",
    "fault": rf"{SESSION}: (?:{FAULTS})(?:{COUNTS})?",
    "not accepted": r"vtl: a connection could not be accepted",
    "kept": r"vtl: lines of records could not be written, and are kept",
    "written": r"vtl: the lines of records that were kept are written",
    "busy": rf"vtl: BUSY for {NEXUS} at logical unit [0-2]: (?:want of memory or of a record number|all slots are taken there)",
}.items()}


def login_of(sas, port):
    """The frame of a LOGIN."""
    return framed(frames.login(sas, port))


def command_of(lun, cdb, data=b""):
    """The frame of a command."""
    return framed(frames.command(lun, cdb, data))


def reserve_out(action, act):
    """The CDB of PERSISTENT RESERVE OUT, and its parameter list."""
    return scsi.reserve_out(ACTIONS[action], TYPES.get(act.held, 0)), scsi.key_list(act.key, act.other)


def connect(path):
    return sockets.connected(path, PATIENCE)


def await_end(connection):
    """Waits until the server closes, without reading anything."""
    poll = select.poll()
    poll.register(connection, 0)
    assert poll.poll(PATIENCE * 1000), "the server doesn't end a session whose time is over"


class Door:
    """Where sessions connect."""

    def __init__(self, path):
        self.path = path

    def connect(self):
        return connect(self.path)


class Session(SessionOfHost):
    """A session of a nexus. Each reply is checked, and noted by its record."""

    def __init__(self, soak, sas, port):
        self.soak = soak
        # The number of the last record, by LUN.
        self.last = collections.Counter()
        super().__init__(Door(soak.path), sas, port)

    def let_in(self, server, body):
        """A connection with a LOGIN. For a moment the session before may still be there."""
        end = time.monotonic() + PATIENCE
        while time.monotonic() < end:
            connection = server.connect()
            connection.sendall(framed(body))
            if received(connection) == ACCEPTED:
                return connection
            connection.close()
            time.sleep(0.05)
        raise AssertionError(f"{self.nexus} isn't let in")

    def receive(self, lun, what, act=None):
        """The reply to a command of this class, which asked for this."""
        body = self.receives()
        reply = reply_of(body)
        assert reply.status in (GOOD, CHECK_CONDITION, RESERVATION_CONFLICT), body.hex()
        assert len(reply.sense) == (18 if reply.status == CHECK_CONDITION else 0), body.hex()
        assert reply.number > self.last[lun], f"{self.nexus} was told number {reply.number} of unit {lun} after {self.last[lun]}"
        self.last[lun] = reply.number
        reported = Reported(self.nexus, what, f"{reply.status:02x}", act)
        noted = self.soak.reported.setdefault((lun, reply.number), reported)
        assert noted is reported, f"two replies have number {reply.number} of unit {lun}"
        return reply

    def asks_for(self, lun, what, cdb=None, data=b"", act=None):
        self.sends(frames.command(lun, CDBS[what] if cdb is None else cdb, data))
        return self.receive(lun, what, act)

    def insists_on(self, *question):
        """The same, again as long as the reply reports a unit attention condition."""
        for _ in range(20):
            reply = self.asks_for(*question)
            if not reply.is_attention():
                break
        return reply

    def reserve(self, lun, action, held, key, other):
        act = Act(held, key, other)
        return self.insists_on(lun, action, *reserve_out(action, act), act)


class Host:
    """A host: an address, the drive that it uses, and chance of its own."""

    def __init__(self, soak, number):
        self.soak = soak
        self.number = number
        self.sas = 0x5000000000000100 + number
        self.key = 0x100 + number
        self.drive = 1 + number % DRIVES
        self.chance = random.Random(soak.seed * HOSTS + number)
        self.sessions = 0

    def at(self, lun):
        """A session at one unit."""
        return Session(self.soak, self.sas, lun + 1)

    def either(self):
        return self.chance.choice([0, self.drive])


# What a session may be.

def writes(host):
    """Writes small blocks from the beginning of the tape on, so that no tape grows, and reads them."""
    with host.at(host.drive) as session:
        if session.insists_on(host.drive, "REWIND").status == GOOD:
            for size in [host.chance.choice([1, 16_384]), *[host.chance.randint(1, 1_000) for _ in range(7)]]:
                block = host.chance.randbytes(size)
                session.asks_for(host.drive, "WRITE(6)", scsi.write(len(block)), block)
            session.asks_for(host.drive, "WRITE-FILEMARKS(6)")
        session.insists_on(host.drive, "REWIND")
        for _ in range(8):
            session.asks_for(host.drive, "READ(6)", scsi.read(1_000))
        session.log_out()


def moves(host):
    """Moves volumes, most of them into a drive and out of it, sometimes with the changer reserved."""
    with host.at(0) as session:
        is_reserved = host.chance.random() < 0.3
        if is_reserved:
            session.reserve(0, "REGISTER-IGNORE", "NONE", 0, host.key)
            session.reserve(0, "RESERVE", "WE", host.key, 0)
        for _ in range(10):
            source, destination = host.chance.sample(PLACES, 2)
            if host.chance.random() < 0.5:
                destination = host.chance.choice(PLACES[:DRIVES])
            cdb = scsi.move(source, destination)
            if session.insists_on(0, "MOVE-MEDIUM", cdb).status == GOOD:
                host.soak.note_move(source, destination)
        session.asks_for(0, "READ-ELEMENT-STATUS")
        if is_reserved:
            session.reserve(0, "RELEASE", "WE", host.key, 0)
        session.log_out()


def reserves(host):
    """Holds its drive by Exclusive Access, and reads back what it wrote: where each reply is GOOD, nobody came between."""
    blocks = [host.chance.randbytes(host.chance.randint(1, 1_000)) for _ in range(5)]
    with host.at(host.drive) as session:
        session.reserve(host.drive, "REGISTER-IGNORE", "NONE", 0, host.key)
        if session.reserve(host.drive, "RESERVE", "EA", host.key, 0).status == GOOD:
            replies = [session.asks_for(host.drive, "REWIND")]
            replies += [session.asks_for(host.drive, "WRITE(6)", scsi.write(len(block)), block) for block in blocks]
            replies.append(session.asks_for(host.drive, "REWIND"))
            replies += [session.asks_for(host.drive, "READ(6)", scsi.read(len(block))) for block in blocks]
            if all(reply.status == GOOD for reply in replies):
                assert [reply.data for reply in replies[-len(blocks):]] == blocks, "a holder reads what it didn't write"
                host.soak.note("undisturbed")
            session.reserve(host.drive, "RELEASE", "EA", host.key, 0)
        session.log_out()


def preempts(host):
    """Registers, takes the reservation of whoever holds it, or makes one, and leaves it, gives it up or clears all."""
    held = host.chance.choice(list(TYPES))
    with host.at(host.drive) as session:
        if host.chance.random() < 0.5:
            session.reserve(host.drive, "REGISTER", "NONE", host.chance.choice([0, host.key]), host.key)
        session.reserve(host.drive, "REGISTER-IGNORE", "NONE", 0, host.key)
        status = session.insists_on(host.drive, "PR-IN")
        if status.status == GOOD and len(status.data) == 24:
            holder = int.from_bytes(status.data[8:16], "big")
            session.reserve(host.drive, host.chance.choice(["PREEMPT", "PREEMPT-ABORT"]), held, host.key, holder)
        else:
            session.reserve(host.drive, "RESERVE", held, host.key, 0)
        session.asks_for(host.drive, "WRITE(6)", scsi.write(9), b"preempted")
        action = host.chance.choice(["RELEASE", "CLEAR", None])
        if action:
            session.reserve(host.drive, action, held, host.key, 0)
        session.log_out()


def asks(host):
    """Sends all its commands before it reads the first reply: now and then so many that records are handed out within the session."""
    lun = host.either()
    count = host.chance.choice([300, 5_000])
    with host.at(lun) as session:
        session.connection.sendall(command_of(lun, CDBS["TEST-UNIT-READY"]) * count)
        for _ in range(count):
            session.receive(lun, "TEST-UNIT-READY")
        session.log_out()


def roves(host):
    """Goes to all units, with one of each command."""
    with Session(host.soak, host.sas, ROVING_PORT) as session:
        for lun in range(UNITS):
            for what in host.chance.sample(AT_DRIVES if lun else AT_CHANGER, 9):
                session.asks_for(lun, what)
        session.log_out()


def is_killed(host):
    """Is killed in the middle of a frame."""
    lun = host.either()
    words = [login_of(host.sas, lun + 1).hex(), command_of(lun, CDBS["TEST-UNIT-READY"])[:9].hex()]
    command = [sys.executable, "-I", "-S", "-c", VICTIM, host.soak.path, *words]
    with subprocess.Popen(command, stdin=subprocess.PIPE, stdout=subprocess.PIPE) as victim:
        assert victim.stdout.readline() == b"sent\n"
        victim.kill()


def logs_in_never(host):
    """Sends nothing, or part of a LOGIN."""
    start = time.monotonic()
    with connect(host.soak.path) as connection:
        connection.sendall(login_of(host.sas, 1)[:host.chance.choice([0, 7])])
        await_end(connection)
    assert time.monotonic() - start > LOGIN_TIMEOUT - 0.5, "a session was ended before its time for a LOGIN"
    host.soak.note("silent")


def goes_silent(host):
    """Says nothing more, between frames or within one."""
    lun = host.either()
    with host.at(lun) as session:
        session.asks_for(lun, "TEST-UNIT-READY")
        start = time.monotonic()
        session.connection.sendall(command_of(lun, CDBS["TEST-UNIT-READY"])[:host.chance.choice([0, 5])])
        await_end(session.connection)
    assert time.monotonic() - start > IDLE_TIMEOUT - 0.5, "an idle session was ended before its time"
    host.soak.note("silent")


def reads_nothing(host):
    """Sends more commands than there is room for replies on the way, and reads none."""
    with host.at(0) as session:
        ask_without_reading(session, host.chance.choice([4_000, 20_000]))
        await_end(session.connection)


def ask_without_reading(session, count):
    try:
        session.connection.sendall(command_of(0, CDBS["READ-ELEMENT-STATUS-CURDATA"]) * count)
    except ConnectionError:
        pass  # the server ended the session before it had read all


def babbles(host):
    """Sends noise."""
    with host.at(host.either()) as session:
        try:
            session.connection.sendall(host.chance.randbytes(100_000))
        except ConnectionError:
            pass
        await_end(session.connection)


def leaves(host):
    """Goes without a LOGOUT, sometimes before its last reply."""
    lun = host.either()
    with host.at(lun) as session:
        for _ in range(host.chance.randint(0, 3)):
            session.asks_for(lun, "INQUIRY")
        if host.chance.random() < 0.5:
            session.connection.sendall(command_of(lun, CDBS["INQUIRY"]))


KINDS = [writes, moves, reserves, preempts, asks, roves, is_killed, logs_in_never, goes_silent, reads_nothing, babbles, leaves]


def holds_on(host, together):
    """The session in which a host is when TERM comes: of eight hosts one is idle, one reads nothing, and the others go on until they are
    cut."""
    lun = 0 if host.number % 8 == 1 else host.drive
    with host.at(lun) as session:
        session.insists_on(lun, "TEST-UNIT-READY")
        together.wait(PATIENCE)
        if host.number % 8 == 0:
            await_end(session.connection)
        elif host.number % 8 == 1:
            ask_without_reading(session, 4_000)
            await_end(session.connection)
        else:
            go_on(session, lun)


def go_on(session, lun):
    try:
        while True:
            session.asks_for(lun, "TEST-UNIT-READY")
    except ConnectionError:
        pass
    assert session.soak.ending and time.monotonic() - session.soak.ending > GRACE - 0.5, "a session was cut before the grace was over"


class Collector(threading.Thread):
    """Reads the lines of records into a file, but for the time of a stall."""

    def __init__(self, reader, path):
        super().__init__(daemon=True)
        self.reader = reader
        self.path = path
        self.goes = threading.Event()
        self.goes.set()

    def run(self):
        with open(self.path, "wb") as file:
            while piece := os.read(self.reader, 65_536):
                file.write(piece)
                self.goes.wait()


class Soak:
    """The server, and what all hosts share."""

    def __init__(self, folder, seed):
        self.seed = seed
        self.tried = Tried(VTL, folder)
        self.path = self.tried.path("socket")
        self.records = self.tried.path("records")
        # What was reported of each record, by LUN and number.
        self.reported = {}
        self.notes = collections.Counter()
        self.lock = threading.Lock()
        self.failures = []
        # When TERM came.
        self.ending = None
        self.server = self.collector = self.process = None
        self.hosts = [Host(self, number) for number in range(HOSTS)]

    def note(self, what):
        with self.lock:
            self.notes[what] += 1

    def note_move(self, source, destination):
        """A move that was GOOD left these records at drives."""
        for what, place in [("MEDIUM-OUT", source), ("MEDIUM-IN", destination)]:
            if place in PLACES[:DRIVES]:
                self.note((what, place - PLACES[0] + 1))

    def start(self, program):
        """Serves, where the file of a server that is no more lies in the way, and waits until it listens."""
        with socket.socket(socket.AF_UNIX, socket.SOCK_STREAM) as old:
            old.bind(self.path)
        reader, writer = os.pipe()
        words = [*LIBRARY, "--workers", str(HOSTS), "--drain", "--log"]
        self.server = Server(
            self.tried, *words, is_patient=False, output=writer, grace=GRACE, login_timeout=LOGIN_TIMEOUT, idle_timeout=IDLE_TIMEOUT,
            write_timeout=WRITE_TIMEOUT)
        os.close(writer)
        self.collector = Collector(reader, self.records)
        self.collector.start()
        self.server.begun()
        self.process = child_of(self.server.process.pid, program)

    def reported_lines(self):
        return self.server.reported.text.splitlines()

    def memory(self):
        """The program's memory in KiB."""
        return memory_of(self.process)

    def sessions(self):
        return sum(host.sessions for host in self.hosts)

    def stop(self):
        """Has the server end, where it hasn't, by force where it doesn't."""
        self.collector.goes.set()
        self.server.process.terminate()
        try:
            self.server.status()
        except Wrong:
            if self.process:
                os.kill(self.process, signal.SIGKILL)
        self.server.kill()
        self.collector.join()


def in_threads(soak, work, during=None):
    """The same work for each host, in a thread each, and something next to it."""

    def guarded(host):
        try:
            work(host)
        except Exception:  # pylint: disable=broad-except
            soak.failures.append(f"host {host.number}: {traceback.format_exc()}")

    threads = [threading.Thread(target=guarded, args=(host,), daemon=True) for host in soak.hosts]
    for thread in threads:
        thread.start()
    if during:
        during()
    for thread in threads:
        thread.join()
    if soak.failures:
        raise AssertionError("\n".join(soak.failures[:3]))


def hold_sessions(soak, first, last, pace, during=None):
    """The sessions of all hosts from one to another, one in so many seconds, or as they end."""
    start = time.monotonic()

    def hold(host):
        for turn in range(first, last):
            time.sleep(max(0, start + (turn - first + host.number / HOSTS) * pace - time.monotonic()))
            if soak.failures:
                return
            KINDS[(host.number + turn) % len(KINDS)](host)
            host.sessions += 1

    in_threads(soak, hold, during)


def stall(soak):
    """Nobody reads the lines for a while: sessions go on all the same."""
    time.sleep(1)
    soak.collector.goes.clear()
    before = soak.sessions()
    time.sleep(3)
    went_on = soak.sessions() - before
    soak.collector.goes.set()
    assert went_on, "no session ended while the reader of the records stalled"


def end(soak):
    """TERM, while each worker has a session and others wait for theirs. Seconds until the program has ended."""
    together = threading.Barrier(HOSTS + 1)
    crowd = []

    def close():
        together.wait(PATIENCE)
        crowd.extend(crowd_of(soak.path))
        time.sleep(0.5)
        soak.ending = time.monotonic()
        soak.server.process.send_signal(signal.SIGTERM)

    in_threads(soak, lambda host: holds_on(host, together), close)
    status = soak.server.status()
    seconds = time.monotonic() - soak.ending
    for connection in crowd:
        connection.close()
    assert status == 0, f"status {status}: {soak.reported_lines()[-3:]}"
    assert not os.path.lexists(soak.path), "the socket's file is still there"
    assert seconds < GRACE + 10, f"it took {seconds:.1f} seconds to end"
    return seconds


def crowd_of(path):
    """As many connections as may wait to be accepted, a few hundred at most."""
    crowd = []
    try:
        while len(crowd) < 300:
            connection = socket.socket(socket.AF_UNIX, socket.SOCK_STREAM)
            crowd.append(connection)
            connection.setblocking(False)
            connection.connect(path)
    except (BlockingIOError, OSError):
        pass  # the backlog is full
    return crowd


def check_records(soak, cells):
    """Each line has its unit and is legal. The last numbers of the units, and how many commands and losses of each nexus have a record."""

    def may_reach(nexus, unit):
        return int(nexus[-1]) in (unit + 1, ROVING_PORT)

    reader = Reader(cells, UNITS, may_reach, soak.reported)
    commands, losses = collections.Counter(), collections.Counter()
    with open(soak.records, encoding="utf-8") as lines:
        for line in lines:
            assert line.endswith("\n"), f"{line!r} is part of a line"
            words = reader.read(line[:-1])
            if words.nexus != "-":
                (losses if words.what == "LOSS" else commands)[words.nexus] += 1
    moved = [[soak.notes[what, unit] for unit in range(UNITS)] for what in ("MEDIUM-IN", "MEDIUM-OUT")]
    ways = [trails for trails in reader.ways if [trails.brought, trails.taken] == moved]
    assert ways, f"moves into and out of drives were {moved}, and the records are {[(it.brought, it.taken) for it in reader.ways]}"
    ways = [trails for trails in ways if not trails.unlost]
    assert ways, f"no loss is recorded of {reader.ways[0].unlost}"
    last = ways[0].last
    untold = [place for place in soak.reported if place[1] > last[place[0]]]
    assert not untold, f"these replies have no line: {sorted(untold)[:5]}"
    return last, commands, losses


def check_reported(soak, commands, losses):
    """Each line of standard error is of a known form, and each session that began has ended. How many of each form there are."""
    forms = collections.defaultdict(list)
    for line in soak.reported_lines():
        form = next((name for name, form in TOLD.items() if form.fullmatch(line)), None)
        assert form, f"standard error has {line!r}"
        forms[form].append(TOLD[form].fullmatch(line).groupdict())
    begun = [int(it["number"]) for it in forms["begins"]]
    ended = {int(it["number"]) for name in ("ended", "fault") for it in forms[name]}
    assert sorted(begun) == list(range(1, len(begun) + 1)), "the numbers of the sessions have a gap"
    assert ended == set(begun), f"sessions began and did not end, or the reverse: {sorted(ended ^ set(begun))[:5]}"
    assert len(forms["away"]) == len(forms["serving"]) == 1
    assert not forms["kept"] and not forms["busy"], "nothing here wants memory, a slot or room"
    late = sum(line.count("nothing came in time") for line in soak.reported_lines())
    assert late >= soak.notes["silent"], f"{soak.notes['silent']} sessions were ended for their silence, and of {late} that is said"
    check_counts(forms, commands)
    sessions = collections.Counter({it["number"]: it["nexus"] for name in ("ended", "fault") for it in forms[name]}.values())
    most = {nexus: sessions[nexus] * (UNITS if int(nexus[-1]) == ROVING_PORT else 1) for nexus in losses}
    assert all(losses[nexus] <= most[nexus] for nexus in losses), "more losses than sessions"
    return {name: len(lines) for name, lines in forms.items()}


def check_counts(forms, commands):
    """How many commands a nexus is said to have sent, where that is said of all its sessions, is how many records they have."""
    counted = {it["number"]: it for it in forms["fault"] + forms["ended"] if it["commands"]}
    uncounted = {it["nexus"] for it in forms["fault"] if it["number"] not in counted}
    said = collections.Counter()
    for it in counted.values():
        said[it["nexus"]] += int(it["commands"])
    for nexus in said.keys() - uncounted - {None}:
        assert said[nexus] == commands[nexus], f"{nexus} sent {said[nexus]} commands, as is said, and has {commands[nexus]} records"


def run(soak, options, program):
    """The soak from its start to its end, and its figures."""
    cells = permission_table(subprocess.run([VTL, "cells"], stdout=subprocess.PIPE, text=True, check=True).stdout)
    start = time.monotonic()
    pace = options.seconds / options.sessions
    warm = min(len(KINDS), options.sessions // 2)
    try:
        soak.start(program)
        hold_sessions(soak, 0, warm, pace)
        first = soak.memory()
        hold_sessions(soak, warm, options.sessions, pace, lambda: stall(soak))
        later = soak.memory()
        seconds = end(soak)
    finally:
        soak.stop()
    assert later <= first + SLACK, f"{first} KiB after the warm-up have become {later} KiB"
    assert soak.notes["undisturbed"], "no holder was left alone, so that nothing was seen of what it wrote"
    last, commands, losses = check_records(soak, cells)
    forms = check_reported(soak, commands, losses)
    return (
        f"{forms['begins']} sessions of {len(commands)} nexuses, {forms.get('fault', 0)} with a fault,"
        f" in {time.monotonic() - start:.0f} seconds;"
        f" {sum(last)} records, {', '.join(map(str, last))} by unit, {len(soak.reported)} of them reported to hosts;"
        f" {soak.notes['undisturbed']} holders undisturbed;"
        f" {first / 1024:.1f} MiB after the warm-up, {later / 1024:.1f} at the end; ended {seconds:.1f} seconds after TERM")


def main():
    parser = argparse.ArgumentParser(description="Good and bad hosts at `vtl serve` for minutes; see the head of this file.")
    parser.add_argument("--quick", action="store_true", help="some twenty seconds: twelve sessions a host, one behind the other")
    parser.add_argument("--seconds", type=float, default=150, help="how long the sessions take where the machine keeps up (150)")
    parser.add_argument("--sessions", type=int, default=32, help="how many each of the 32 hosts holds (32)")
    parser.add_argument("--seed", type=int, default=1, help="of chance (1)")
    options = parser.parse_args()
    if options.quick:
        options.seconds, options.sessions = 0, len(KINDS)
    program = built()
    folder = tempfile.mkdtemp(prefix="vtl-soak-")
    try:
        print(run(Soak(folder, options.seed), options, program))
    except (AssertionError, Wrong, WrongLine) as wrong:
        print(f"{wrong}\nThe records and what was told are in {folder}.", file=sys.stderr)
        return 1
    shutil.rmtree(folder)
    return 0


if __name__ == "__main__":
    sys.exit(main())
