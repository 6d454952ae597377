#!/usr/bin/env python3
"""Hosts that misbehave at `vtl serve`, next to one that doesn't: status 0 where the server and that one host come through.

One is killed in the middle of a frame, one never logs in, one sends 10 MB of noise, and one sends frames one byte at a time; then
sixty-four hosts ask a hundred times each, at once; then more come than the server has descriptors for, and once they have gone a host is
let in.
"""
import argparse
import concurrent.futures
import itertools
import os
import random
import signal
import sys
import tempfile
import time

sys.path.append(os.path.join(os.path.dirname(os.path.dirname(os.path.abspath(__file__))), "tests", "lib"))

from compare import Wrong
from frames import command, framed, login
from host import Host
from play import Tried
from program import built
from scsi import CHANGER, TEST_UNIT_READY
from server import Server
from term import patience

READY = command(CHANGER, TEST_UNIT_READY)
# How many descriptors the server has at last, and how many connections come then.
DESCRIPTORS, CROWD = 20, 16


def sas_of(number):
    return 0x5000000000000000 + number


def well_behaved(server, number, times, is_slow=False):
    """Logs in, asks so often, logs out; the statuses of its replies. A slow one sends each byte by itself."""
    with Host(server, sas_of(number)) as host:
        statuses = []
        for _ in range(times):
            frame = framed(READY)
            for piece in [bytes([byte]) for byte in frame] if is_slow else [frame]:
                host.connection.sendall(piece)
            statuses.append(host.receives()[1])
        host.log_out()
        return statuses


def killed_within_a_frame(server):
    """A process of its own, which says by a pipe that it has sent a part of a frame, and is killed then."""
    reader, writer = os.pipe()
    child = os.fork()
    if child == 0:
        host = Host(server, sas_of(0xDEAD))
        host.connection.sendall(framed(READY)[:7])
        os.write(writer, b".")
        signal.pause()
    os.close(writer)
    said = os.read(reader, 1)
    os.close(reader)
    os.kill(child, signal.SIGKILL)
    os.waitpid(child, 0)
    assert said, "the host that was to be killed ended by itself"


def silent(server):
    with server.connect():
        time.sleep(1)


def noisy(server):
    noise = random.Random(1).randbytes(10_000_000)
    with server.connect() as connection:
        try:
            connection.sendall(framed(login(sas_of(0xBAD))) + noise)
        except ConnectionError:
            pass  # the server had enough


def serve(tried, hosts):
    """A server for a session of each host, and what each of these does at it: what each comes to, the server's status, its records, and
    what it reported next to where it serves."""
    with Server(tried, "--sessions", str(len(hosts)), is_patient=False) as server:
        with concurrent.futures.ThreadPoolExecutor(len(hosts)) as pool:
            found = [host.result() for host in [pool.submit(host, server) for host in hosts]]
        status = server.status()
        return found, status, server.lines().splitlines(), server.reported_lines()


def after_a_crowd(server):
    """More connections come than a server with few descriptors can accept, and leave; then one that behaves well. Until the server has
    noticed that the crowd has gone, it may close that one's connection too: so another one comes then, until one is served."""
    crowd = [server.connect() for _ in range(CROWD)]
    server.reported.wait_for("vtl: a connection could not be accepted\n")
    for connection in crowd:
        connection.close()
    end = time.monotonic() + patience()
    for number in itertools.count(0xC):
        try:
            return well_behaved(server, number, 100)
        except ConnectionError:
            assert time.monotonic() < end, "no host is served once the crowd has gone"
            time.sleep(0.05)


def serve_with_few_descriptors(tried):
    """A server with few descriptors and a crowd: the statuses of the last host's replies, the server's status, and what it reported."""
    with Server(tried, is_patient=False) as server:
        server.limit_descriptors(DESCRIPTORS)
        statuses = after_a_crowd(server)
        server.end()
        return statuses, server.status(), server.reported_lines()


def play(program, what):
    with tempfile.TemporaryDirectory(prefix="vtl-") as folder:
        return what(Tried(program, folder))


def misbehaving(tried):
    slow_one, good_one = (lambda server: well_behaved(server, 0xA, 20, True)), (lambda server: well_behaved(server, 0xB, 1000))
    found, status, records, lines = serve(tried, [killed_within_a_frame, silent, noisy, slow_one, good_one])
    print(f"misbehaving hosts: status {status}, {len(records)} records, {lines}")
    assert found[3:] == [[2] + 19 * [0], [2] + 999 * [0]]
    # The noise alone is a fault: it is reported as it happens, and once more at the end.
    assert status == 4 and lines == [lines[0], "vtl: device fault", lines[0]]
    assert "bad frame" in lines[0] or "frame too long" in lines[0]


def many(tried):
    hosts = [lambda server, number=number: well_behaved(server, number, 100) for number in range(64)]
    found, status, records, lines = serve(tried, hosts)
    print(f"sixty-four at once: status {status}, {len(records)} records, {lines}")
    assert status == 0 and not lines
    assert found == [[2] + 99 * [0]] * 64
    numbers = [int(line.split()[0]) for line in records]
    # LUN 0 has the records of all: each host's commands, and its loss at the end. The drive has none.
    assert numbers == list(range(1, len(numbers) + 1)) and len(numbers) == 64 * 101


def few_descriptors(tried):
    statuses, status, lines = serve_with_few_descriptors(tried)
    print(f"a crowd and {DESCRIPTORS} descriptors: status {status}, {len(lines)} lines, {sorted(set(lines))}")
    assert status == 0 and statuses == [2] + 99 * [0]


def main():
    words = argparse.ArgumentParser(description="Hosts that misbehave at `vtl serve`; see the head of this file.")
    words.add_argument("--program", help="in place of the proved one")
    program = built(words.parse_args().program)
    try:
        for what in (misbehaving, many, few_descriptors):
            play(program, what)
    except (AssertionError, Wrong) as wrong:
        print(wrong, file=sys.stderr)
        return 1
    return 0


if __name__ == "__main__":
    sys.exit(main())
