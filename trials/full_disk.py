#!/usr/bin/env python3
"""A server whose library is kept on a disk that is full: here the files of its volumes may not grow past a limit. It is seen that

- the WRITE FILEMARKS that can't be kept has no answer, and its session ends; so does the next one that asks for it;
- standard error reports the volume once, and other drives go on;
- once there is room the next filemark is answered, standard error says so, and the program ends with 0, all in the image;
- without room it ends with 4 and a line for the volume, whose image is a beginning of the tape.

Status 0 where all came so. It takes seconds, and a built program.
"""
import argparse
import itertools
import os
import pathlib
import sys
import tempfile

sys.path.append(os.path.join(os.path.dirname(os.path.dirname(os.path.abspath(__file__))), "tests", "lib"))

import scsi
from folder import objects_of
from host import Host
from library import MARK, loads, sas_of
from play import Tried
from program import built
from server import Server

# How large a file may grow, and a block.
LIMIT = 4 << 20
BLOCK = bytes(range(256)) * 256


def image(tried, number):
    """The objects of a volume's image."""
    return objects_of(pathlib.Path(tried.path("media"), f"VOL0000{number}.tap").read_bytes())


def fill(server):
    """Writes at the first drive until a filemark has no answer, and gives the tape, and how many of its objects were kept by then."""
    host, tape, kept = Host(server, sas_of(2)), [], 0
    try:
        while True:
            for _block in range(8):
                assert host.insist(scsi.DRIVE, scsi.write(len(BLOCK)), BLOCK).status == 0
                tape.append(BLOCK)
            tape.append(MARK)
            assert host.insist(scsi.DRIVE, scsi.FILEMARK).status == 0
            kept = len(tape)
    except ConnectionError:
        return tape, kept


# Each is another host, since the session of the one before may not have ended yet.
OTHERS = itertools.count(3)


def is_kept(server, lun):
    """Whether a filemark more is answered."""
    with Host(server, sas_of(next(OTHERS))) as host:
        try:
            return host.insist(lun, scsi.FILEMARK).status == 0
        except ConnectionError:
            return False


def play(tried, with_room):
    words = ["--media", tried.path("media"), "--new-library", "--drives", "2", "--volumes", "2", "--drain"]
    with Server(tried, *words, is_patient=False, room=LIMIT) as server:
        loads(server, 2)
        tape, kept = fill(server)
        assert kept > 0 and len(image(tried, 1)) >= kept
        assert not is_kept(server, scsi.DRIVE)
        tape.append(MARK)
        assert is_kept(server, scsi.DRIVE + 1), "the other drive"
        failed = "vtl: volume VOL00001 could not be written: "
        assert server.reported.text.count(failed) == 1, server.reported.text
        if with_room:
            server.limit_lines()
            assert is_kept(server, scsi.DRIVE)
            tape.append(MARK)
        server.end()
        status, reported, left = server.status(), server.reported.text, image(tried, 1)
    assert reported.count(failed) == 1, reported
    assert reported.count("vtl: volume VOL00001 is written again") == (1 if with_room else 0), reported
    assert reported.count("vtl: volume VOL00001 is not whole on the disk") == (0 if with_room else 1), reported
    assert status == (0 if with_room else 4), f"status {status}: {reported}"
    assert left == (tape if with_room else tape[: len(left)]) and len(left) >= kept
    assert image(tried, 2) == [MARK]
    front = "with room again" if with_room else "without room"
    print(f"{front}: {kept} of {len(tape)} objects kept when it was full, {len(left)} at the end, status {status}")


def main():
    words = argparse.ArgumentParser(description="Serves a library that is kept on a full disk.")
    words.add_argument("--program", help="in place of the proved one")
    program = built(words.parse_args().program)
    for with_room in (True, False):
        with tempfile.TemporaryDirectory(prefix="vtl-") as folder:
            play(Tried(program, folder), with_room)
    return 0


if __name__ == "__main__":
    sys.exit(main())
