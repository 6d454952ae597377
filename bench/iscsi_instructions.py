#!/usr/bin/env python3
"""Counts what a TEST UNIT READY over iSCSI costs `vtl serve` in instructions, by callgrind, with the line of its record at the end.

It is counted over a session of some commands and over one of twice as many, one at a time: the difference is that of the commands alone.
The host is `Session` of tests/lib/initiator.py, and isn't counted. It takes valgrind, and some seconds.
"""
import os
import re
import sys
import tempfile

sys.path.append(os.path.join(os.path.dirname(os.path.dirname(os.path.abspath(__file__))), "tests", "lib"))

from initiator import Session
from play import Tried
from program import built
from scsi import DRIVE, TEST_UNIT_READY
from server import Server

VALGRIND = ["valgrind", "--tool=callgrind", "--callgrind-out-file=/dev/null"]
COUNT = 2000
HOST = "iqn.2026-11.localhost:counted"


def instructions(program, count):
    """Those of a server with one session of so many commands. It ends with its standard input."""
    with tempfile.TemporaryDirectory() as room:
        words = ["--iscsi", "127.0.0.1:0", "--any-host"]
        with Server(Tried(program, room), *words, is_patient=False, front=VALGRIND, idle_ping=0) as server:
            with Session(server.portal(), HOST) as session:
                for _ in range(count):
                    session.ask(DRIVE, TEST_UNIT_READY)
            server.end()
            server.ends()
            return int(re.search(r"Collected : ([0-9]+)", server.reported.text)[1])


def main():
    program = built()
    short, long = (instructions(program, count) for count in (COUNT, 2 * COUNT))
    print(f"TEST UNIT READY over iSCSI    {(long - short) // COUNT}")


if __name__ == "__main__":
    main()
