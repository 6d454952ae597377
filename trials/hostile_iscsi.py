#!/usr/bin/env python3
"""Initiators that misbehave at `vtl serve --iscsi`, next to one that doesn't: status 0 where the server and that one come through.

Each case of `CASES` is a session that does one wrong or odd thing and says what it is owed for it. Then a whole session is cut at each of
its bytes, and sent in pieces; PDUs are noise, drawn by chance, or those of a good session with bytes changed; commands come by the hundred
with data that never do; a crowd never logs in, and sixty-four sessions fill the house. Meanwhile a host writes and reads a drive that it
has reserved, and each answer to it is looked at. At the end it is seen that

- the server is the same process, and ended with status 0 after TERM, within the grace;
- the host next to it all had right answers alone, and as many records as commands;
- the program had no more memory than 4 MiB a session beyond what it began with.

It takes a built program, python3 and some two minutes. `--quick` takes each hundredth cut, and fewer of what is drawn by chance.
A wrong answer is reported with the PDUs that went before it, in hexadecimal.
"""
import argparse
import collections
import hashlib
import os
import random
import resource
import shutil
import signal
import socket
import struct
import sys
import tempfile
import threading
import time
import traceback

sys.path.append(os.path.join(os.path.dirname(os.path.dirname(os.path.abspath(__file__))), "tests", "lib"))

import scsi
from compare import Wrong
from initiator import GOOD, ISID, KEYS, Ended, Session, Wire, keys_of, let_in, names_of
from iscsi_cases import CASES, ENDS, LEFT, LOGINS, OURS, THEIRS
from pdus import (
    ABORT_TASK, COMMAND, DATA_IN, DATA_OUT, FINAL, IMMEDIATE, LOGGED_IN, LOGOUT, MANAGE, NONE, NOP_OUT, NOWHERE, OUT_OF_RESOURCES, READS,
    REJECT, SNACK, TARGET_ERROR, TEXT, TO_FULL, TRANSIT, WRITES, login, pdu, text_of, unit, words_of)
from play import Tried
from program import VTL, built, child_of, memory_of
from server import Server
from term import patience

GOOD_HOST = "iqn.2026-11.example:good"
# Each unit has slots for 128 nexuses, so the hosts that misbehave share few names.
SESSIONS, CROWD, NAMES = 64, 1000, 40
# Seconds.
GRACE, LOGIN_TIMEOUT, IDLE_PING, WRITE_TIMEOUT = 3, 3, 5, 3
MEBIBYTE = 1024
PER_SESSION, SLACK = 4 * MEBIBYTE, 24 * MEBIBYTE


def run_cases(place):
    for number, (case, end) in enumerate(CASES):
        with let_in(place, name_of(number)) as session:
            for lun in (THEIRS, scsi.CHANGER):
                for _ in range(3):
                    session.ask(lun, scsi.TEST_UNIT_READY)
            try:
                session.ask(THEIRS, scsi.REWIND)
                case(session)
                if end is ENDS:
                    session.await_end()
                else:
                    session.check(session.is_alive(), "the session doesn't go on")
            except (AssertionError, Ended, KeyError) as wrong:
                raise AssertionError(f"{case.__name__}: {wrong or 'the session ended'}\n" + "\n".join(session.seen)) from wrong
    return f"{len(CASES)} cases"


def name_of(number):
    return f"iqn.2026-11.example:other-{number % NAMES:02}"


def isid_of(group, number):
    """The initiator's part of the identifier of a session."""
    return f"80000000{group:02x}{number:02x}"


def run_logins(place):
    for name, pdus, wanted in LOGINS:
        with Wire(place) as wire:
            wire.send(*pdus)
            status = 0
            try:
                while status == 0:
                    answer = wire.receive()
                    wire.check(wanted is None or answer.opcode == LOGGED_IN, f"{name}: no Login Response")
                    status = answer.login_status
                    wire.check(not answer.flags & TRANSIT or answer.flags & 3 != 3 or status, f"{name}: is let in")
                wire.check(wanted is None or status in wanted, f"{name}: {status:04x}h")
                wire.await_end()
            except Ended:
                wire.check(wanted is None, f"{name}: ended without a word")
    return f"{len(LOGINS)} faulty logins"


# A whole session as one stream: each request is known beforehand.

def whole_session(name, drive=THEIRS):
    """Its requests, each of one PDU or several, with the tags 1, 2, .. in their order."""
    long = bytes(range(256)) * 3
    count = 0

    def number():
        nonlocal count
        count += 1
        return count - 1

    def command(tag, cdb, flags=0, length=0, data=b"", is_final=True, lun=drive):
        words = (length, number(), 0, *words_of(cdb))
        return pdu(COMMAND, flags | (FINAL if is_final else 0), unit(lun), tag, words, data)

    def data_out(tag, offset, data, order, is_final):
        return pdu(DATA_OUT, FINAL if is_final else 0, "", tag, (NONE, 0, 0, 0, order, offset), data)

    return [
        [login(TO_FULL, names_of(name) + keys_of(KEYS), 0, cid=0, isid="800000000002")],
        [command(2, scsi.TEST_UNIT_READY)],
        [command(3, scsi.REWIND)],
        [command(4, scsi.write(16), WRITES, 16, long[:16])],
        [command(5, scsi.write(600), WRITES, 600, long[:101], False), data_out(5, 101, long[101:301], 0, False),
         data_out(5, 301, long[301:600], 1, True)],
        [command(6, scsi.FILEMARK)],
        [pdu(NOP_OUT, FINAL, "", 7, (NONE, number(), 0), b"are you there?")],
        [command(8, scsi.REWIND)],
        [command(9, scsi.read(16), READS, 16)],
        [command(10, scsi.read(700), READS, 700)],
        [command(11, scsi.INQUIRY, READS, 255, lun=scsi.CHANGER)],
        [pdu(TEXT, FINAL, "", 12, (NONE, number(), 0), text_of("SendTargets="))],
        [pdu(MANAGE, FINAL | ABORT_TASK, unit(drive), 13, (0xABCD, number(), 0))],
        [pdu(SNACK | IMMEDIATE, FINAL, "", 14, (NONE, count, 0))],
        [pdu(LOGOUT, FINAL, "", 15, (0, number(), 0))],
    ]


def answers_to(place, pieces):
    """All answers to a stream that comes in these pieces and then ends, as bytes in which what each session has of its own is zero."""
    with Wire(place) as wire:
        for piece in pieces:
            wire.send(piece)
        wire.half_close()
        made, first = [], None
        try:
            while True:
                answer = wire.receive()
                head = bytearray(answer.head)
                if first is None:
                    first = answer.word(24)
                if answer.opcode != DATA_IN or answer.flags & 1:
                    struct.pack_into(">I", head, 24, (answer.word(24) - first) & NONE)
                if answer.opcode == LOGGED_IN:
                    head[14:16] = b"\0\0"
                made.append(bytes(head) + answer.data)
        except Ended:
            return made


def tag_in(answer):
    """The tag of the request that this answers; of a Reject that in the header which it gives back."""
    return struct.unpack_from(">I", answer, 64 if answer[0] == REJECT else 16)[0]


def run_cuts(place, step, chance):
    requests = [b"".join(request) for request in whole_session(name_of(1))]
    stream = b"".join(requests)
    left = b"".join(b"".join(request) for request in whole_session(name_of(20), LEFT))
    ends = [len(b"".join(requests[:count])) for count in range(1, len(requests) + 1)]
    # The first one alone is notified of the power on; each later one of the loss of the one before.
    answers_to(place, [stream])
    whole = answers_to(place, [stream])
    tags = [tag_in(answer) for answer in whole]
    assert tags == sorted(tags) and set(tags) == set(range(1, len(requests) + 1)), f"answers to {tags}"
    cuts = sorted({*range(0, len(stream) + 1, step), *ends, *(end - 1 for end in ends), *(end + 1 for end in ends[:-1])})
    for cut in cuts:
        # Of one that is reset the answers aren't seen, and what it did may come later than the next connection.
        with Wire(place) as wire:
            wire.send(left[:cut])
            wire.reset()
        done = sum(end <= cut for end in ends)
        answered = [answer for answer in whole if tag_in(answer) <= done]
        compare(answers_to(place, [stream[:cut]]), answered, f"cut after {cut} of {len(stream)} bytes")
    pieces = 0
    for turn in range(max(10, 200 // step)):
        places = range(1, len(stream)) if turn == 0 else sorted(chance.sample(range(1, len(stream)), chance.randint(1, 60)))
        split = [stream[a:b] for a, b in zip([0, *places], [*places, len(stream)])]
        compare(answers_to(place, split), whole, f"in {len(split)} pieces, cut at {list(places)[:60]}")
        pieces += len(split)
    return f"a session of {len(stream)} bytes, cut {len(cuts)} times, and sent in {pieces} pieces"


def compare(got, wanted, what):
    if got != wanted:
        lines = [f"got    {it.hex()}" for it in got] + [f"wanted {it.hex()}" for it in wanted]
        raise AssertionError(f"{what}: other answers\n" + "\n".join(lines))


# Chance.

def noise(chance):
    return chance.randbytes(chance.randint(1, 3000))


def any_pdus(chance):
    """Headers that are drawn by chance, with lengths that are mostly those of what comes."""
    made = b""
    for number in range(chance.randint(1, 20)):
        data = chance.randbytes(chance.choice([0, 0, 1, 48, 512, 5000]))
        opcode = chance.choice([NOP_OUT, COMMAND, COMMAND, COMMAND, TEXT, DATA_OUT, DATA_OUT, SNACK, chance.randrange(64)])
        any_number = chance.getrandbits(32)
        words = [chance.choice([0, NONE, 512, any_number]), chance.choice([number, number, any_number]), any_number]
        tail = chance.choice([scsi.TEST_UNIT_READY, scsi.INQUIRY, scsi.write(512), scsi.read(512), chance.randbytes(16)])
        tag = chance.choice([1, 2, 3, NONE, any_number])
        lun = chance.choice([unit(THEIRS), unit(scsi.CHANGER), NOWHERE, chance.randbytes(8).hex()])
        opcode |= chance.choice([0, 0, IMMEDIATE])
        each = bytearray(pdu(opcode, chance.getrandbits(8), lun, tag, (*words, *words_of(tail)), data))
        if chance.random() < 0.1:
            each[4] = chance.randrange(80)
        made += bytes(each)
    return made


def changed(stream, chance):
    made = bytearray(stream)
    for _ in range(chance.choice([1, 1, 2, 8])):
        made[chance.randrange(len(made))] = chance.choice([0, 1, 0x7F, 0x80, 0xFF, chance.getrandbits(8)])
    if chance.random() < 0.2:
        at = chance.randrange(len(made))
        del made[at:at + chance.choice([1, 4, 48])]
    return bytes(made)


def run_chance(place, count, chance):
    """The server may answer what it likes, in whole PDUs, and ends each connection soon after its host has."""
    slowest = 0
    for turn in range(count):
        requests = [b"".join(request) for request in whole_session(name_of(2 + turn % 8))]
        stream = {0: lambda: noise(chance), 1: lambda: requests[0] + noise(chance), 2: lambda: requests[0] + any_pdus(chance)}.get(
            turn % 6, lambda: changed(b"".join(requests), chance))()
        with Wire(place) as wire:
            start = time.monotonic()
            wire.send(stream)
            wire.half_close()
            wire.await_end()
            slowest = max(slowest, time.monotonic() - start)
    assert slowest < LOGIN_TIMEOUT + 5, f"a connection took {slowest:.1f} seconds to end"
    return f"{count} streams drawn by chance, each ended in {slowest:.2f} seconds at most"


# Floods.

WIDE = {**KEYS, "MaxBurstLength": "1048576", "FirstBurstLength": "262144"}

def fill(session):
    """Fills the window with writes that lack their last bytes."""
    session.connection.settimeout(1)
    for _ in range(31):
        try:
            session.command(THEIRS, scsi.write(65536), WRITES, 131_000, b"x" * 130_000, False)
        except TimeoutError:
            return  # the server takes no more


def drown(session):
    """Sends pings of 4,000 bytes until nothing is taken any more, and reads no answer."""
    session.connection.settimeout(1)
    pings = pdu(NOP_OUT | IMMEDIATE, FINAL, "", 9, session.words(NONE, True), b"x" * 4000) * 20
    for _ in range(5000):
        try:
            session.send(pings)
        except TimeoutError:
            return
        if session.is_cut:
            return


def await_cut(session, seconds):
    """Sends until the server has ended the session."""
    end = time.monotonic() + seconds
    while not session.is_cut:
        assert time.monotonic() < end, f"a session that reads nothing is there after {seconds} seconds"
        try:
            session.send(b"x" * 48)
        except TimeoutError:
            pass
        time.sleep(0.1)


def run_floods(server, count):
    """Sessions that fill their window with data and never end a write, and then some that read nothing of what they ask for."""
    before = server.memory()
    sessions = [let_in(server.place, name_of(turn), isid=isid_of(1, turn), keys=WIDE) for turn in range(count)]
    for session in sessions:
        fill(session)
    filled = server.memory()
    for session in sessions:
        session.reset()
    sessions = [let_in(server.place, name_of(turn), isid=isid_of(2, turn)) for turn in range(8)]
    for session in sessions:
        drown(session)
    drowned = server.memory()
    # Each is ended by the server, whose answer isn't taken. One that was taken in part is tried for as long once more, and on a busy
    # machine the system takes another part then.
    for session in sessions:
        await_cut(session, 5 * WRITE_TIMEOUT)
        session.reset()
    for what, memory in [("full of data", filled), ("that read nothing", drowned)]:
        assert memory <= before + count * PER_SESSION + SLACK, f"{count} sessions {what} took {memory - before} KiB"
    took, read_nothing = ((memory - before) / MEBIBYTE for memory in (filled, drowned))
    return f"{count} sessions full of data took {took:.0f} MiB, 8 that read nothing {read_nothing:.0f}"


def run_pause(server):
    """The program is stopped for a second and goes on, as from a terminal: a session that waits for its host goes on too."""
    session = let_in(server.place, name_of(0), isid=isid_of(3, 0))
    time.sleep(0.2)
    os.kill(server.process, signal.SIGSTOP)
    time.sleep(1)
    os.kill(server.process, signal.SIGCONT)
    time.sleep(0.2)
    session.check(session.is_alive(), "no answer behind a pause")
    session.check(session.log_out() == 0, "no logout")
    return "a pause of the program, and a session that outlasts it"


def run_crowd(place, good):
    """Connections that never log in, next to which the host that behaves goes on; and once they are gone others may come."""
    crowd, waiting = [], []
    for _ in range(CROWD):
        connection = socket.socket()
        connection.setblocking(False)
        crowd.append(connection)
        if connection.connect_ex(place):
            waiting.append(connection)
    time.sleep(1)
    rounds = good.rounds
    time.sleep(LOGIN_TIMEOUT)
    assert good.rounds > rounds, "the host that behaves stood still beside a crowd that says nothing"
    for connection in crowd:
        connection.close()
    start = time.monotonic()
    with let_in(place, name_of(0)) as session:
        session.check(session.is_alive(), "the session doesn't go on")
        session.log_out()
    return f"a crowd of {len(crowd)} that says nothing; {time.monotonic() - start:.1f} seconds after it had gone a host was let in"


def run_full_house(place):
    """As many sessions as there may be. One more is refused at once, until a place is free; then a second one of its name is let in too."""
    house = [let_in(place, f"iqn.2026-11.example:guest-{turn:02}", isid=isid_of(3, turn)) for turn in range(SESSIONS - 1)]
    for session in house:
        session.check(len(session.outcome(session.command(scsi.CHANGER, scsi.INQUIRY, READS, 36)).data) == 36, "no INQUIRY data")
    late = Wire(place)
    late.send(login(TO_FULL, names_of("iqn.2026-11.example:guest-63") + keys_of(KEYS), 0, cid=0, isid=ISID))
    status = late.receive().login_status
    late.check(status == OUT_OF_RESOURCES, f"{status:04x}h for one session more")
    late.connection.close()
    for session in house:
        session.check(session.is_alive(), "a session doesn't go on")
    for session in (house.pop(), house.pop()):
        session.log_out()
        session.await_end()
    with let_in(place, "iqn.2026-11.example:guest-63") as session:
        session.check(session.is_alive(), "the session doesn't go on")
        with let_in(place, "iqn.2026-11.example:guest-63", isid=isid_of(4, 0)) as other:
            other.check(other.is_alive() and session.is_alive(), "two sessions of a name don't go on")
            other.log_out()
    for session in house:
        session.log_out()
        session.await_end()
    return f"{SESSIONS - 1} sessions beside one, and {status:04x}h for one more"


def run_comings(place, count, chance):
    """Many come at once as one host: each is let in or refused, and at the end one has its session."""
    name = name_of(30)

    def come(_):
        session = Session(place, name, isid=isid_of(5, 0))
        if session.status == 0 and chance.random() < 0.5:
            try:
                session.is_alive()
            except Ended:
                pass
        return session

    with_status = collections.Counter()
    for _ in range(count):
        sessions = []
        failures = []

        def guarded():
            try:
                sessions.append(come(None))
            except Ended:
                pass
            except AssertionError as wrong:
                failures.append(wrong)

        threads = [threading.Thread(target=guarded) for _ in range(16)]
        for thread in threads:
            thread.start()
        for thread in threads:
            thread.join()
        if failures:
            raise failures[0]
        with_status.update(session.status for session in sessions)
        for session in sessions:
            session.reset()
    assert set(with_status) <= {0, TARGET_ERROR, OUT_OF_RESOURCES}, f"statuses {with_status}"
    with let_in(place, name, isid=isid_of(5, 0)) as last:
        last.check(last.is_alive(), "the session doesn't go on")
    return f"{count * 16} logins of one host at once: {dict(sorted((f'{status:04x}', many) for status, many in with_status.items()))}"


# The host that behaves.

class GoodHost(threading.Thread):
    """Holds its drive and the changer by Exclusive Access, writes blocks and reads them back until it is asked to stop. Each answer is
    looked at."""

    def __init__(self, place):
        super().__init__(daemon=True)
        self.session = Session(place, GOOD_HOST)
        self.chance = random.Random(7)
        self.stops = threading.Event()
        self.failure = None
        self.rounds = self.blocks = self.resets = 0
        self.was_cut = False
        self.asked = collections.Counter()

    def ask(self, lun, cdb, length=0, block=None):
        outcome = self.session.ask(lun, cdb, length, block)
        self.asked[lun] += 1
        self.session.check(not outcome.rejects, "a Reject")
        return outcome

    def need(self, lun, cdb, length=0, block=None):
        """A command that has to be GOOD. A unit may have been reset by somebody: that is reported once."""
        for _ in range(4):
            outcome = self.ask(lun, cdb, length, block)
            if outcome.status == GOOD:
                return outcome
            self.session.check(outcome.code and outcome.code[:2] in ((6, 0x29), (6, 0x28)), f"{cdb.hex()} at {lun}: {outcome}")
        return self.session.wrong(f"{cdb.hex()} at {lun} isn't GOOD")

    def settle(self):
        """Has a volume in each drive, and keeps others out of the changer and its own."""
        for drive, place in [(0x100, 0x400), (0x101, 0x401), (0x102, 0x402)]:
            self.need(scsi.CHANGER, scsi.move(place, drive))
        for lun in (scsi.CHANGER, OURS):
            self.need(lun, scsi.reserve_out(6, 0), block=scsi.key_list(0, 0xF00D))
            self.need(lun, scsi.reserve_out(1, 3), block=scsi.key_list(0xF00D, 0))

    def turn(self):
        """A few blocks, written and read; begun again where the drive is reset in between."""
        blocks = [self.chance.randbytes(self.chance.choice([1, 16, 511, 4096, 4097, 30_000, 65_535, 65_536])) for _ in range(4)]
        self.need(OURS, scsi.REWIND)
        outcomes = [self.ask(OURS, scsi.write(len(block)), block=block) for block in blocks]
        outcomes.append(self.ask(OURS, scsi.REWIND))
        outcomes += [self.ask(OURS, scsi.read(len(block)), len(block)) for block in blocks]
        if any(outcome.code and outcome.code[:2] == (6, 0x29) for outcome in outcomes):
            self.resets += 1
            return
        wrong = [outcome for outcome in outcomes if outcome.status != GOOD or outcome.residual]
        self.session.check(not wrong, f"{[(it.status, it.code, it.residual) for it in wrong]} in place of GOOD")
        self.session.check([it.data for it in outcomes[-4:]] == blocks, "other bytes than were written")
        self.blocks += len(blocks)

    def leave(self):
        """TERM comes: the session goes on until the target asks for logout, or for the grace."""
        start = time.monotonic()
        try:
            while not self.session.asked_to_leave:
                self.session.ask(OURS, scsi.TEST_UNIT_READY)
                self.asked[OURS] += 1
                time.sleep(0.02)
        except Ended:
            self.session.check(time.monotonic() - start > GRACE - 0.5, "a session was cut before the grace was over")
            self.was_cut = True
            return
        self.session.check(self.session.log_out() == 0, "no logout")
        self.session.await_end()

    def run(self):
        try:
            while not self.stops.is_set():
                self.turn()
                self.rounds += 1
            self.leave()
        except Ended:
            self.failure = "the host that behaves was cut off\n" + "\n".join(self.session.seen)
        except Exception:  # pylint: disable=broad-except
            self.failure = traceback.format_exc()


class Portal:
    """`vtl serve --iscsi` for any host, by the script that runs the program."""

    def __init__(self, folder, program):
        words = ["--iscsi", "127.0.0.1:0", "--any-host", "--drives", "3", "--volumes", "3", "--workers", str(SESSIONS), "--drain"]
        self.server = Server(
            Tried(VTL, folder), *words, has_socket=False, is_patient=False, grace=GRACE, login_timeout=LOGIN_TIMEOUT, idle_ping=IDLE_PING,
            write_timeout=WRITE_TIMEOUT).begun()
        self.place = self.server.portal()
        self.process = child_of(self.server.process.pid, program)

    def memory(self, which="VmRSS:"):
        """The program's memory in KiB."""
        return memory_of(self.process, which)

    def stop(self):
        """Seconds until it has ended by TERM, with status 0."""
        start = time.monotonic()
        self.server.process.send_signal(signal.SIGTERM)
        status = self.server.status()
        assert status == 0, f"status {status}: {self.server.reported.text[-1000:]}"
        return time.monotonic() - start

    def kill(self):
        if self.server.process.poll() is None:
            os.kill(self.process, signal.SIGKILL)
        self.server.kill()

    def records_of(self, nexus):
        """How many commands of a nexus have a record."""
        words = (line.split() for line in self.server.lines().splitlines())
        return sum(word[1] == nexus and word[2] != "LOSS" for word in words)


def nexus_of(name):
    """The nexus that `--any-host` makes of a name."""
    return f"5{hashlib.sha256(name.encode()).hexdigest()[:15]}.1"


def run(server, options):
    first = server.memory()
    good = GoodHost(server.place)
    good.settle()
    good.start()
    chance = random.Random(options.seed)
    step = 100 if options.quick else 1
    stages = [
        lambda: run_cases(server.place),
        lambda: run_logins(server.place),
        lambda: run_cuts(server.place, step, chance),
        lambda: run_full_house(server.place),
        lambda: run_crowd(server.place, good),
        lambda: run_comings(server.place, 2 if options.quick else 10, chance),
        lambda: run_floods(server, 16),
        lambda: run_pause(server),
        # The last, since a name that chance has changed may take a slot for good.
        lambda: run_chance(server.place, 300 if options.quick else 6000, chance),
    ]
    for stage in stages:
        start, rounds = time.monotonic(), good.rounds
        what, seconds = stage(), time.monotonic() - start
        print(f"{what}; {seconds:.1f} seconds, {good.rounds - rounds} rounds beside it, {server.memory() / MEBIBYTE:.0f} MiB", flush=True)
        assert good.failure is None, good.failure
    last, most = server.memory(), server.memory("VmHWM:")
    good.stops.set()
    seconds = server.stop()
    good.join(patience())
    assert good.failure is None, good.failure
    assert seconds < GRACE + 5, f"it took {seconds:.1f} seconds to end"
    assert most <= first + SESSIONS * PER_SESSION + SLACK, f"{first} KiB at the start have become {most} KiB"
    recorded = server.records_of(nexus_of(GOOD_HOST))
    # One may have been carried out whose answer was cut.
    assert recorded - sum(good.asked.values()) in (0, good.was_cut), f"{recorded} records of {sum(good.asked.values())} commands"
    end = "was cut at the end of the grace" if good.was_cut else "was asked for its logout"
    return (
        f"server alive to its end, {seconds:.1f} seconds after TERM, status 0;"
        f" the host next to it had {sum(good.asked.values())} right answers, {good.blocks} blocks read back, {good.resets} resets reported,"
        f" and {end};"
        f" {first / MEBIBYTE:.0f} MiB at the start, {most / MEBIBYTE:.0f} at most, {last / MEBIBYTE:.0f} at the end")


def main():
    parser = argparse.ArgumentParser(description="Initiators that misbehave at `vtl serve --iscsi`; see the head of this file.")
    parser.add_argument("--quick", action="store_true", help="each hundredth cut, and fewer streams")
    parser.add_argument("--seed", type=int, default=1, help="of chance (1)")
    options = parser.parse_args()
    limit = resource.getrlimit(resource.RLIMIT_NOFILE)[1]
    resource.setrlimit(resource.RLIMIT_NOFILE, (limit, limit))
    program = built()
    folder = tempfile.mkdtemp(prefix="vtl-hostile-")
    server = None
    try:
        server = Portal(folder, program)
        print(run(server, options))
    except (AssertionError, Wrong, Ended) as wrong:
        print(f"{wrong or 'a connection ended'}\nThe records and what was told are in {folder}.", file=sys.stderr)
        return 1
    finally:
        if server:
            server.kill()
    shutil.rmtree(folder)
    return 0


if __name__ == "__main__":
    sys.exit(main())
