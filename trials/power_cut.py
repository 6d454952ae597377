#!/usr/bin/env python3
"""A server whose library is kept, on a machine whose power is cut. It runs under strace, which records every call that changes a file of
the folder, while two hosts write blocks and filemarks at two drives, go back and write over them, erase, unload, and move their volumes out
and in, and a third one moves another volume about. Then, for many moments in that record, the folder is laid out as a power cut could leave
it:

- of each file, by itself: what its last sync had; all; the first calls since; all without its truncations, so that old bytes stand after
  the new; zeros where something was written; old and new pages mixed, under a length that the file had since;
- of the names: those of the last sync of the folder, all, or any of what was made, renamed and removed since.

A server is started over each, as after a reboot: files are others (inodes), and so is the boot. It is seen that

- it serves, reports nothing but lines that are known, and ends with status 0;
- `library.toml` names each volume, where the last answered MOVE MEDIUM, or the one under way, left it;
- each image reads as a beginning of what its host had on the tape at some moment since the last answer that promised that it is kept (of
  WRITE FILEMARKS, ERASE, LOAD UNLOAD or MOVE MEDIUM), and has all of that answer's tape that nothing was written over until that moment.

Of some cuts the volumes are read through the server too. A quarter of them are of starts over what a cut left, which are recorded
themselves, with hosts that write on; half of these servers were killed (KILL) and started again.

Status 0 where all came through, with a line of figures. It takes strace, a built program, and some two minutes for 1,000 cuts.
"""
import argparse
import collections
import dataclasses
import math
import multiprocessing
import os
import random
import re
import shutil
import signal
import sys
import tempfile
import threading
import time
import typing

sys.path.append(os.path.join(os.path.dirname(os.path.dirname(os.path.abspath(__file__))), "tests", "lib"))

import host
import library
import scsi
from compare import Wrong
from library import DRIVES, MARK, SLOTS, TAGS, sas_of
from program import built
from recorded_files import STRACE, Connection, File, Record, contents_of, lay_out

# What may be reported at a start, next to the line that it serves.
KNOWN = [
    r"vtl: \S+\.tap: a tail of \d+ bytes that was cut off is lost",
    r"vtl: \S+\.tap: \d+ bytes that were not known to be on the disk were moved to \S+\.tail\.\d+",
    r"vtl: removed \S+: nobody listened there",
]
# How many failures keep their folders.
KEPT = 20


class Host(host.Host):
    """A host that counts the bytes of its connection."""

    sent = got = 0

    def let_in(self, server, body):
        connection = super().let_in(server, body)
        self.count(body, b"\x81\0")
        return connection

    def count(self, body, reply):
        self.sent += 4 + len(body)
        self.got += 4 + len(reply)

    def ask(self, body):
        reply = super().ask(body)
        self.count(body, reply)
        return reply

    def objects(self, lun):
        """The objects of the volume in a drive."""
        objects = []
        assert self.insist(lun, scsi.REWIND).status == 0, "a volume that can't be rewound"
        while True:
            reply = self.insist(lun, scsi.read(scsi.LONGEST_BLOCK, 2))
            if reply.status and reply.sense[2] & 15 == 8:
                return objects
            assert reply.status == 0 or reply.sense[2] & 0x8F == 0x80, f"status {reply.status:02x} of a READ, {reply.sense.hex()}"
            objects.append(MARK if reply.status else reply.data)


def address(place):
    """The address of an element, by its kind and its number there."""
    return {"storage": 0x400, "data_transfer": 0x100}[place[0]] + place[1]


def move(source, target):
    return scsi.move(address(source), address(target))


@dataclasses.dataclass
class Step:
    """A command of a host: how many bytes it had sent and got with it, and the tape and place that its volume has since then."""

    sent: float
    got: float
    tape: list
    place: tuple
    # From where on the tape isn't the one before, and whether the answer promises that it is kept.
    changed: float = math.inf
    promises: bool = False
    # How many objects have to be there, where the steps before don't say so.
    kept: int | None = None


def fitting(steps, image):
    """How many objects have to be there, by each of the steps of which an image may be all that is left. The first is one that promises."""
    found, kept = [], len(steps[0].tape)
    for step in steps:
        if step is not steps[0]:
            kept = min(kept, step.changed) if step.kept is None else step.kept
        if len(image) >= kept and image == step.tape[: len(image)]:
            found.append(kept)
    return found


class Player(threading.Thread):
    """A host that has a volume, and does so many commands with it, or what it can until its server is killed."""

    def __init__(self, host, steps, count, seed):
        """The steps are those of before."""
        super().__init__(daemon=True)
        self.host, self.numbers, self.fault, self.is_cut = host, random.Random(seed), None, False
        self.steps, self.count = list(steps), len(steps) + count

    def run(self):
        try:
            self.play()
        except ConnectionError:
            self.is_cut = True
        except Exception as error:  # pylint: disable=broad-except
            self.fault = error

    def play(self):
        raise NotImplementedError

    def do(self, lun, cdb, data=b"", **now):
        """Sends a command, and notes what is so since then."""
        last = self.steps[-1]
        step = Step(self.host.sent + 7 + len(cdb) + len(data), math.inf, last.tape, last.place)
        self.steps.append(dataclasses.replace(step, **now))
        status = self.host.insist(lun, cdb, data).status
        assert status == 0, f"status {status:02x} of {cdb.hex()}"
        self.steps[-1].got = self.host.got

    def moves(self, target):
        self.do(0, move(self.steps[-1].place, target), place=target, promises=True)

    def left(self, sent=math.inf, got=sys.maxsize):
        """The steps that may be the last one done, once a server has had so many bytes and sent so many. The first of them is the last
        whose answer promised something."""
        steps = [step for step in self.steps if step.sent <= sent]
        first = max(nth for nth, step in enumerate(steps) if step.promises and step.got <= got)
        return steps[first:]

    def go_on_from(self, image, place):
        """The steps with which a host begins after this one's server was killed, and served again with this on its tape."""
        steps = self.left()
        kept = fitting(steps, image)
        assert kept and place in {step.place for step in steps}, "what was killed isn't there again"
        steps = [dataclasses.replace(step, sent=0, got=math.inf if nth else 0) for nth, step in enumerate(steps)]
        return [*steps, Step(0, math.inf, image, place, kept=min(kept))]


def wanted(steps, image):
    """The first and the last of the steps by which an image may be, in words."""
    words = []
    for step in steps:
        same = next((nth for nth, pair in enumerate(zip(image, step.tape)) if pair[0] != pair[1]), min(len(image), len(step.tape)))
        words.append(f"{len(step.tape)} objects, changed from {step.changed} on, it begins with {same} of them")
    return "; ".join(words if len(words) < 7 else [*words[:3], "..", *words[-3:]])


def shown(objects):
    """The last objects, in short."""
    return ", ".join("mark" if found is MARK else f"{len(found)} bytes {found[:4].hex()}.." for found in objects[-4:])


class Writer(Player):
    """Writes to the volume in a drive."""

    # How often each is done.
    WEIGHTS = {"write": 40, "mark": 20, "go_back": 9, "go_on": 9, "erase": 4, "rewind": 1, "unload": 3, "move_out": 3, "linger": 3}

    def __init__(self, host, number, steps, count, seed):
        super().__init__(host, steps, count, seed)
        self.number, self.lun, self.at = number, number + 1, 0

    def play(self):
        for lun in (scsi.CHANGER, self.lun):
            self.host.insist(lun, scsi.TEST_UNIT_READY)
        if self.steps[-1].place[0] == "storage":
            self.moves(("data_transfer", self.number))
        self.go_on()
        while len(self.steps) < self.count:
            getattr(self, self.numbers.choices(list(self.WEIGHTS), self.WEIGHTS.values())[0])()

    def tape(self):
        return self.steps[-1].tape

    def add(self, cdb, objects, data=b"", promises=False):
        """Writes objects where the tape stands, and nothing is after them."""
        self.do(self.lun, cdb, data, tape=self.tape()[: self.at] + objects, changed=self.at, promises=promises)
        self.at += len(objects)

    def write(self):
        for _block in range(self.numbers.choice([1, 1, 2, 5, 10])):
            self.write_one()

    def write_one(self):
        numbers = self.numbers
        length = numbers.choice([1, 7, 512, 4088, 4096, numbers.randrange(1, 20_000), numbers.randrange(1, 20_000)])
        data = numbers.randbytes(8).ljust(length, bytes([numbers.randrange(256)]))[:length]
        self.add(scsi.write(length), [data], data)

    def mark(self):
        count = self.numbers.randrange(3)
        cdb = scsi.write_filemarks(count)
        if count:
            self.add(cdb, [MARK] * count, promises=True)
        else:
            self.do(self.lun, cdb, promises=True)

    def locate(self, at):
        self.do(self.lun, scsi.locate(at))
        self.at = at

    def go_back(self):
        count = len(self.tape())
        self.locate(self.numbers.randrange(max(0, count - self.numbers.choice([3, 10, 100])), count + 1))

    def go_on(self):
        self.locate(len(self.tape()))

    def erase(self):
        if self.numbers.random() < 0.1:
            self.rewind()
        else:
            self.go_back()
        self.add(scsi.ERASE, [], promises=True)

    def rewind(self):
        self.do(self.lun, scsi.REWIND)
        self.at = 0

    def unload(self):
        for load in (scsi.UNLOAD, scsi.LOAD):
            self.do(self.lun, load, promises=True)
        self.at = 0
        self.go_on()

    def move_out(self):
        for target in (("storage", self.number), ("data_transfer", self.number)):
            self.moves(target)
            self.host.insist(self.lun, scsi.TEST_UNIT_READY)
        self.at = 0
        self.go_on()

    def linger(self):
        """Nothing is promised for a while; what was written is copied half a second later."""
        for _command in range(self.numbers.randrange(3, 9)):
            self.numbers.choice([self.write, self.write, self.go_back, self.go_on, lambda: time.sleep(0.3)])()
        time.sleep(self.numbers.choice([0.05, 0.6]))


class Mover(Player):
    """Moves a volume between storage elements."""

    def play(self):
        self.host.insist(scsi.CHANGER, scsi.TEST_UNIT_READY)
        while len(self.steps) < self.count:
            here = self.steps[-1].place[1]
            self.moves(("storage", self.numbers.choice([place for place in range(DRIVES, SLOTS) if place != here])))
            time.sleep(self.numbers.random() * 0.05)


class Library(library.Library):
    """The program over a folder."""

    def __init__(self, given, work):
        super().__init__(given.program, work, given.size)
        self.record = os.path.join(work, "record")

    def start_recorded(self, *more):
        return self.start(*more, front=[*STRACE, self.record, "--"])

    def kill(self):
        """Kills the program; strace that is over it ends after it."""
        process = self.server.process if self.server else None
        if process and process.poll() is None:
            with open(f"/proc/{process.pid}/task/{process.pid}/children", encoding="ascii") as file:
                found = [int(child) for child in file.read().split()]
            for child in found:
                os.kill(child, signal.SIGKILL)
            if found:
                process.wait(timeout=60)
        super().kill()

    def volume(self, tag):
        """The objects of an image, after which nothing may lie once it is served."""
        objects = self.objects(tag)
        size = sum(4 if found is MARK else 8 + len(found) + len(found) % 2 for found in objects)
        assert size == os.path.getsize(self.image(tag)), f"{tag}: its image has more than {size} bytes of objects"
        return objects

    def players(self, steps, count, numbers):
        """A host for each volume, by its steps so far."""
        hosts = [Host(self.server, sas_of(20 + number)) for number in range(len(TAGS))]
        players = [Writer(hosts[number], number, steps[number], count, numbers.random()) for number in range(DRIVES)]
        return [*players, Mover(hosts[DRIVES], steps[DRIVES], count // 4, numbers.random())]

    def steps(self):
        """The first step of each volume, by what there is."""
        rows = self.inventory()
        return [[Step(0, 0, self.volume(tag), rows[tag], promises=True)] for tag in TAGS]


def play(players, during):
    """Has hosts do what they do, and something next to that."""
    for player in players:
        player.start()
    during()
    for player in players:
        player.join(timeout=600)
        if player.fault:
            raise player.fault
        assert not player.is_alive(), "a host that doesn't end"


class Part(typing.NamedTuple):
    """A run of the server in a record, from its first line on, with the hosts that it had."""

    first: int
    connections: list
    players: list


class Life:
    """What is recorded of a folder, with the hosts of its volumes."""

    def __init__(self, given, work):
        os.mkdir(work)
        self.library, self.count = Library(given, work), given.commands
        # The moments at which it may be cut: any, those at which something has just changed, and those of its start.
        self.parts, self.record, self.moments, self.changing, self.starting = [], None, [], [], []

    def play_new(self, is_old, numbers):
        """A new library's: its third volume has something, and the others lie in drives; from then on it is cut."""
        self.record = Record(self.library.folder, {})
        server = self.library.start_recorded(*([] if is_old else ["--new-library"]))
        fill(Host(server, sas_of(1)), numbers)
        self.play_on(self.library.steps(), self.count, numbers)
        began = self.parts[0].connections[0].accepted
        self.moments = self.starting = [moment for moment in self.record.moments if moment > began]
        self.changing = [moment for moment in self.record.changes if moment > began]

    def play_after(self, cut, is_killed, numbers):
        """That of what a power cut left, from its start on; one that is killed starts twice. Whether it is clear what became of it."""
        own = self.library
        cut.lay_out(own.folder)
        self.record = Record(own.folder, {name: File(*found) for name, found in contents_of(own.folder).items()})
        own.start_recorded()
        steps = own.steps()
        if is_killed:
            players = own.players(steps, sys.maxsize, numbers)
            play(players, lambda: (time.sleep(0.1 + numbers.random()), own.kill()))
            self.add(players)
            if not self.record.settle():
                return False
            own.start_recorded()
            rows = own.inventory()
            steps = [player.go_on_from(own.volume(tag), rows[tag]) for player, tag in zip(players, TAGS)]
        self.play_on(steps, self.count // 5, numbers)
        last = self.parts[-1]
        self.moments, self.changing = self.record.moments, self.record.changes
        self.starting = [moment for moment in self.moments if last.first <= moment < last.connections[0].accepted]
        return True

    def play_on(self, steps, count, numbers):
        """Has hosts at the server until each has done its commands, and ends it."""
        players = self.library.players(steps, count, numbers)
        play(players, lambda: None)
        assert not any(player.is_cut for player in players), f"sessions ended: {self.library.lines()}"
        status = self.library.stop()
        assert status == 0, f"status {status} at the end: {self.library.lines()}"
        self.add(players)
        self.record.compare()

    def add(self, players):
        """Adds a run of the server that ended. The hosts of volumes came last."""
        first = self.record.lines
        self.record.read(self.library.record)
        self.parts.append(Part(first, self.record.connections[-len(players) :], players))

    def left_at(self, moment):
        """The steps of each volume's host that may have been the last one at a moment."""
        part = [part for part in self.parts if part.first <= moment][-1]
        counts = [(Connection.by(of.read, moment), Connection.by(of.written, moment)) for of in part.connections]
        return [player.left(*count) for player, count in zip(part.players, counts)]


def fill(filler, numbers):
    """Writes something to the third volume of a new library, and moves the others into the drives."""
    drive = ("data_transfer", 0)
    commands = [(0, move(("storage", DRIVES), drive), b"")]
    for _block in range(9):
        data = numbers.randbytes(numbers.randrange(1, 9000))
        commands.append((1, scsi.write(len(data)), data))
    commands += [(1, scsi.FILEMARK, b""), (0, move(drive, ("storage", DRIVES)), b"")]
    commands += [(0, move(("storage", number), ("data_transfer", number)), b"") for number in range(DRIVES)]
    for lun, cdb, data in commands:
        assert filler.insist(lun, cdb, data).status == 0, f"status of {cdb.hex()}"


class Cut:
    """A power cut, and what a server makes of it."""

    def __init__(self, given, life, name, number):
        self.life, self.name, self.number = life, f"{name}-{number}", number
        self.seed = f"{given.seed} {self.name}"
        numbers = random.Random(self.seed)
        self.moment = numbers.choice(numbers.choices([life.starting, life.changing, life.moments], [2, 4, 4])[0])
        self.work = os.path.join(given.work, self.name)
        self.library = Library(given, self.work)
        self.faults, self.reported = [], []

    def lay_out(self, path):
        """Lays the folder out, always in the same way, which is reported."""
        return lay_out(self.life.record, self.moment, random.Random(f"{self.seed}, laid out"), path)

    def check(self):
        """Its name, its moment, what is wrong, and what was reported."""
        os.mkdir(self.work)
        how = self.lay_out(self.library.folder)
        try:
            self.look()
        except Exception as error:  # pylint: disable=broad-except
            self.faults.append(f"{type(error).__name__}: {error}")
            self.library.kill()
        if self.faults:
            self.lay_out(os.path.join(self.work, "before"))
            self.faults.append("laid out were: " + "\n    ".join(how))
        else:
            shutil.rmtree(self.work)
        return self.name, self.moment, self.faults, self.reported

    def look(self):
        try:
            self.library.start()
        except Wrong:
            self.faults.append("refused: " + " / ".join(self.library.lines()))
            return
        status = self.library.stop()
        lines = self.library.lines()
        if status:
            self.faults.append(f"status {status}: {' / '.join(lines)}")
        others = [line for line in lines if not any(re.fullmatch(words, line) for words in KNOWN)]
        if others:
            self.faults.append("told: " + " / ".join(others))
        # By its kind.
        self.reported = [re.sub(r"\d+", "N", re.sub(r"\S*/", "", line)) for line in lines]
        self.compare()
        if self.number % 50 == 0 and not self.faults:
            self.read()

    def compare(self):
        """Compares the inventory and the images."""
        if "[[missing]]" in self.library.inventory_text():
            self.faults.append("volumes are missing")
        rows = self.library.inventory()
        for tag, steps in zip(TAGS, self.life.left_at(self.moment)):
            places = {step.place for step in steps}
            if rows.get(tag) not in places:
                self.faults.append(f"{tag} lies in {rows.get(tag)}, and not in {places}")
            image = self.library.volume(tag)
            if not fitting(steps, image):
                self.faults.append(f"{tag}: {len(image)} objects ({shown(image)}), and may be: {wanted(steps, image)}")

    def read(self):
        """Reads each volume through a server that is started once more, and so sees what it made of the folder."""
        reader = Host(self.library.start(), sas_of(1))
        assert not self.library.lines(), f"told at the next start: {self.library.lines()}"
        rows, drive = self.library.inventory(), ("data_transfer", 0)
        images = {tag: self.library.volume(tag) for tag in TAGS}
        free = [("storage", slot) for slot in range(SLOTS) if ("storage", slot) not in rows.values()]
        for tag, place in sorted(rows.items(), key=lambda row: row[1]):
            if place[0] == "storage":
                assert reader.insist(scsi.CHANGER, move(place, drive)).status == 0
            lun = 1 if place[0] == "storage" else 1 + place[1]
            assert reader.objects(lun) == images[tag], f"{tag}: the server reads something else"
            if lun == 1:
                # Drive 0 is left empty for the next one.
                assert reader.insist(scsi.CHANGER, move(drive, free.pop())).status == 0
        assert self.library.stop() == 0


LIFE = None


def check(task):
    """In a process of its own, that has the life."""
    given, name, number = task
    return Cut(given, LIFE, name, number).check()


class Sum:
    """What came of all cuts."""

    def __init__(self):
        self.cuts, self.failures, self.reported = 0, [], collections.Counter()
        self.kinds = collections.Counter()

    def run(self, given, life, name, numbers):
        """Cuts a life so many times, and gives the numbers of those that came through."""
        global LIFE  # pylint: disable=global-statement
        LIFE = life
        good = []
        with multiprocessing.get_context("fork").Pool(given.processes) as pool:
            for found in pool.imap_unordered(check, [(given, name, number) for number in numbers]):
                if self.note(given, *found):
                    good.append(int(found[0].rpartition("-")[2]))
        return sorted(good)

    def note(self, given, name, moment, faults, reported):
        self.cuts += 1
        self.reported.update(reported)
        if not faults:
            return True
        self.failures.append(name)
        self.kinds.update({re.sub(r"\d+", "N", re.sub(r"\S*/", "", fault.split(" (")[0]))[:60] for fault in faults[:-1]})
        if len(self.failures) <= KEPT:
            print(f"seed {given.seed}, cut {name} at line {moment} of the record: {given.work}/{name}")
            print("".join(f"  {fault}\n" for fault in faults), end="", flush=True)
        else:
            shutil.rmtree(os.path.join(given.work, name))
        return False


def run(given):
    """All cuts: most of the life of a new library, and a quarter of lives that begin where a cut of that was."""
    sums, numbers = Sum(), random.Random(given.seed)
    first = Life(given, os.path.join(given.work, "first"))
    first.play_new(given.old, numbers)
    changes = len(first.moments)
    again = given.cuts // 4 // given.lives if given.lives else 0
    good = sums.run(given, first, "cut", range(given.cuts - again * given.lives))
    for nth in range(given.lives if good else 0):
        name, cut = f"{'killed' if nth % 2 else 'again'}{nth}", Cut(given, first, "cut", numbers.choice(good))
        later = Life(given, os.path.join(given.work, name))
        try:
            if later.play_after(cut, nth % 2 == 1, numbers):
                changes += len(later.moments)
                sums.run(given, later, name, range(again))
        except (AssertionError, Wrong) as error:
            later.library.kill()
            sums.note(given, name, cut.moment, [f"after {cut.name}: {error}", "with a record"], [])
    return sums, changes


def main():
    words = argparse.ArgumentParser(description="Cuts the power of a server whose library is kept, again and again.")
    words.add_argument("--cuts", type=int, default=1000)
    words.add_argument("--seed", type=int, default=random.randrange(1 << 32))
    words.add_argument("--commands", type=int, default=300, help="of each host at a drive")
    words.add_argument("--lives", type=int, default=8, help="how many that begin after a cut are recorded and cut too")
    words.add_argument("--size", default="16M", help="of a volume")
    words.add_argument("--processes", type=int, default=4)
    words.add_argument("--old", action="store_true", help="a program that has no --new-library")
    words.add_argument("--program", help="in place of the proved one")
    # What is laid out is as the program makes it: for its owner alone.
    os.umask(0o077)
    given = words.parse_args()
    given.program = built(given.program)
    given.work = tempfile.mkdtemp(prefix="power_cut.", dir="/dev/shm" if os.access("/dev/shm", os.W_OK) else None)
    print(f"seed {given.seed}", flush=True)
    began = time.monotonic()
    sums, moments = run(given)
    for line, count in sorted(sums.reported.items()):
        print(f"told {count} times: {line}")
    front = f"{sums.cuts} cuts at {moments} moments, in {time.monotonic() - began:.0f} seconds"
    if not sums.failures:
        shutil.rmtree(given.work)
        print(f"{front}: nothing lost")
        return 0
    for kind, count in sums.kinds.most_common():
        print(f"{count} times: {kind}")
    print(f"{front}: {len(sums.failures)} failed; {given.work} has the records, and the folders of the first {KEPT}")
    return 1


if __name__ == "__main__":
    sys.exit(main())
