#!/usr/bin/env python3
"""A server whose library is kept, killed again and again: two hosts write blocks and filemarks at two drives, over what they wrote before
too, and a third one moves a volume about; at any moment the program is killed (KILL), and started again over the same folder. Each time it
is seen that

- each image is served as a beginning of what its host had on the tape at some moment since the last filemark that was answered, and has all
  of that filemark's tape that nothing was written over since; what else it had was moved away;
- `library.toml` names each image once, and the volume that was moved lies where the last answered MOVE MEDIUM, or the one under way, left
it;
- the program starts, and reported nothing but tails that were cut off or moved away and the socket's file.

Status 0 where all came through, with a line of figures. It takes some two minutes for 300 rounds, and a built program.
"""
import argparse
import glob
import os
import random
import re
import shutil
import sys
import tempfile
import threading
import time

sys.path.append(os.path.join(os.path.dirname(os.path.dirname(os.path.abspath(__file__))), "tests", "lib"))

import scsi
from host import Host
from library import DRIVES, MARK, SLOTS, TAGS, Library, loads, sas_of
from program import built


TAIL = re.compile(
    r"vtl: \S+\.tap: (a tail of \d+ bytes that was cut off is lost|\d+ bytes that were not known to be on the disk were moved to \S+\.tail\.1)")


class Writer(threading.Thread):
    """Writes to the volume in a drive until the server dies, and keeps what the tape had at each moment since the last answered filemark,
    and how many of that filemark's objects nothing was written over since."""

    def __init__(self, server, lun, objects, seed):
        super().__init__(daemon=True)
        self.server, self.lun, self.numbers = server, lun, random.Random(seed)
        # How many objects have to be kept, and the tapes since the last filemark that was answered, the last perhaps under way.
        self.kept, self.tapes = len(objects), [list(objects)]
        self.commands, self.fault = 0, None

    def run(self):
        try:
            self.write()
        except ConnectionError:
            pass  # the server was killed
        except Exception as error:  # pylint: disable=broad-except
            self.fault = error

    def good(self, host, cdb, data=b""):
        status = host.insist(self.lun, cdb, data).status
        assert status == 0, f"status {status:02x} of {cdb.hex()}"
        self.commands += 1

    def change(self, at, tape):
        """What lies from a place on is about to be written over, also where that is the same again."""
        self.kept = min(self.kept, at)
        self.tapes.append(tape)

    def write(self):
        host = Host(self.server, sas_of(self.lun))
        tape = list(self.tapes[-1])
        at = len(tape)
        self.good(host, scsi.locate(at))
        while True:
            what = self.numbers.random()
            if what < 0.02 and len(tape) > 40:
                # Over some of what is there, from now on.
                at = self.numbers.randrange(len(tape) // 2, len(tape))
                self.good(host, scsi.locate(at))
                continue
            if what < 0.03 and len(tape) > 400:
                at = 0
                self.good(host, scsi.REWIND)
                continue
            if what < 0.85:
                length = self.numbers.choice([1, 512, 4096, 65535, 65536])
                data = self.numbers.randbytes(8).ljust(length, bytes([self.numbers.randrange(256)]))[:length]
                tape = tape[:at] + [data]
                self.change(at, tape)
                self.good(host, scsi.write(length), data)
            else:
                count = self.numbers.randrange(0, 3)
                if count:
                    tape = tape[:at] + [MARK] * count
                    self.change(at, tape)
                self.good(host, scsi.write_filemarks(count))
                self.kept, self.tapes = len(tape), [tape]
                at = at + count
                continue
            at += 1

    def look(self, tag, image):
        """Looks at the objects of the image that the killed server left, once the next one has moved away what isn't known to be on the disk."""
        if self.fault:
            raise self.fault
        assert len(image) >= self.kept, f"{tag}: {len(image)} objects, and {self.kept} were answered for"
        assert any(image == tape[: len(image)] for tape in self.tapes), f"{tag}: no beginning of what was written"
        return image


class Mover(threading.Thread):
    """Moves the third volume between storage elements until the server dies."""

    def __init__(self, server, place, seed):
        super().__init__(daemon=True)
        self.server, self.numbers = server, random.Random(seed)
        # Where it may lie.
        self.places, self.moves, self.fault = [place], 0, None

    def run(self):
        try:
            host = Host(self.server, sas_of(9))
            while True:
                source = self.places[-1]
                target = self.numbers.choice([place for place in range(2, SLOTS) if place != source])
                self.places = [source, target]
                status = host.insist(scsi.CHANGER, scsi.move(0x400 + source, 0x400 + target)).status
                assert status == 0, f"status {status:02x} of a move"
                self.places = [target]
                self.moves += 1
                time.sleep(0.002)
        except ConnectionError:
            pass  # the server was killed
        except Exception as error:  # pylint: disable=broad-except
            self.fault = error


def tails_told(library):
    """How many tails were cut off or moved away; every other line has to be known."""
    count = 0
    for line in library.lines():
        if TAIL.fullmatch(line):
            count += 1
        else:
            assert line.startswith("vtl: removed "), f"told: {line}"
    for path in glob.glob(os.path.join(library.folder, "*.tail.*")):
        os.remove(path)
    return count


def load(library):
    """Makes the library, and moves the first two volumes into the drives."""
    loads(library.start("--new-library"), DRIVES)
    library.kill()
    rows = library.inventory()
    assert rows == {TAGS[0]: ("data_transfer", 0), TAGS[1]: ("data_transfer", 1), TAGS[2]: ("storage", 2)}, rows


def play(library, rounds, numbers):
    writers, place, tails, commands, moves = [], 2, 0, 0, 0
    for _round in range(rounds):
        server = library.start()
        tails += tails_told(library)
        tapes = tapes_left(library, writers)
        writers = [Writer(server, 1 + number, tapes[number], numbers.random()) for number in range(DRIVES)]
        mover = Mover(server, place, numbers.random())
        threads = [*writers, mover]
        for thread in threads:
            thread.start()
        time.sleep(numbers.choice([0.01, 0.05, 0.1, 0.3, 0.7]) * numbers.random())
        library.kill()
        for thread in threads:
            thread.join(timeout=30)
        if mover.fault:
            raise mover.fault
        rows = library.inventory()
        assert sorted(rows) == TAGS and rows[TAGS[0]] == ("data_transfer", 0) and rows[TAGS[1]] == ("data_transfer", 1), rows
        assert rows[TAGS[2]][0] == "storage" and rows[TAGS[2]][1] in mover.places, (rows, mover.places)
        place = rows[TAGS[2]][1]
        commands += sum(writer.commands for writer in writers)
        moves += mover.moves
    return writers, tails, commands, moves


def tapes_left(library, writers):
    """What the volumes in drives have after a start, which has to be right by what their hosts wrote, if some did."""
    return [writer.look(tag, library.objects(tag)) for writer, tag in zip(writers, TAGS)] if writers else [[], []]


def main():
    words = argparse.ArgumentParser(description="Kills a server whose library is kept, again and again.")
    words.add_argument("--rounds", type=int, default=300)
    words.add_argument("--seed", type=int, default=random.randrange(1 << 32))
    words.add_argument("--size", default="64M", help="of a volume")
    words.add_argument("--program", help="in place of the proved one")
    given = words.parse_args()
    work = tempfile.mkdtemp()
    library = Library(built(given.program), work, given.size)
    numbers = random.Random(given.seed)
    print(f"seed {given.seed}", flush=True)
    load(library)
    writers, tails, commands, moves = play(library, given.rounds, numbers)
    library.start()
    tails += tails_told(library)
    tapes = tapes_left(library, writers)
    status = library.stop()
    assert status == 0, f"status {status} at the end"
    for number in range(DRIVES):
        assert library.objects(TAGS[number]) == tapes[number]
    shutil.rmtree(work)
    print(f"{given.rounds} kills: {commands} commands at the drives and {moves} moves were answered, {tails} tails cut off, nothing lost")
    return 0


if __name__ == "__main__":
    sys.exit(main())
