#!/usr/bin/env python3
"""Memory of `vtl serve --drain` over ten million TEST UNIT READYs: four hosts, each at a drive of its own, then eight hosts, two at each
of four drives, and then eight at one drive.

Prints the resident memory after the first 100,000 commands and after each further tenth, and the commands a second. The lines go to
/dev/null. `--commands N` asks for another number.
"""
import argparse
import os
import subprocess
import sys
import tempfile
import threading
import time

sys.path.append(os.path.join(os.path.dirname(os.path.dirname(os.path.abspath(__file__))), "tests", "lib"))

import host
from frames import command, framed
from play import Tried
from program import built, memory_of
from scsi import TEST_UNIT_READY
from server import Server
from sockets import exactly

BATCH = 500
# The drives are empty: each answer has sense data.
REPLY = 33
FIRST = 100_000


class Host(threading.Thread):
    """Logs in, and asks a unit in batches."""

    def __init__(self, server, number, lun, batches, first, gate):
        super().__init__()
        self.server, self.number, self.lun, self.batches, self.first, self.gate = server, number, lun, batches, first, gate
        self.asked = 0

    def run(self):
        with host.Host(self.server, 0x5000000000000000 + self.number) as session:
            ask = framed(command(self.lun, TEST_UNIT_READY))
            for _ in range(self.batches):
                session.connection.sendall(ask * BATCH)
                exactly(session.connection, REPLY * BATCH)
                self.asked += BATCH
                if self.asked == self.first:
                    self.gate.wait()
            session.log_out()


def measure(program, name, commands, count, lun_of):
    options = ["--drives", "4", "--workers", str(count), "--drain"]
    with tempfile.TemporaryDirectory() as folder, Server(
            Tried(program, folder), *options, is_patient=False, output=subprocess.DEVNULL) as server:
        process = server.process.pid
        at_start = memory_of(process)
        gate = threading.Barrier(count + 1)
        hosts = [Host(server, n, lun_of(n), commands // count // BATCH, FIRST // count // BATCH * BATCH, gate) for n in range(count)]
        for each in hosts:
            each.start()
        while gate.n_waiting < count:
            time.sleep(0.01)
        first = memory_of(process)
        start = time.monotonic()
        gate.wait()
        seen = memory_of_each_tenth(process, hosts, commands)
        seconds = time.monotonic() - start
        last = memory_of(process)
        server.end()
        status = server.status()
        for line in server.reported_lines():
            print(f"  {line}")
        rate = (commands - FIRST) / seconds
        print(f"{name}: {commands} commands, {at_start} KiB at the start, {first} after {FIRST}, {last} at the end ({last - first:+}), "
              f"between {min(seen)} and {max(seen)}; {rate:.0f} a second; status {status}", flush=True)


def memory_of_each_tenth(process, hosts, commands):
    """The memory after each tenth of the commands, until the hosts have ended."""
    reported, seen = FIRST, []
    while any(each.is_alive() for each in hosts):
        asked = sum(each.asked for each in hosts)
        if asked >= reported + commands // 10:
            reported = asked
            seen.append(memory_of(process))
        time.sleep(0.02)
    return seen


def main():
    parser = argparse.ArgumentParser()
    parser.add_argument("--commands", type=int, default=10_000_000)
    commands = parser.parse_args().commands
    program = built()
    measure(program, "four hosts at four drives", commands, 4, lambda number: 1 + number)
    measure(program, "eight hosts at four drives", commands, 8, lambda number: 1 + number % 4)
    measure(program, "eight hosts at one drive", commands, 8, lambda number: 1)


main()
