"""Records that are handed out while a library is served, to a reader that fails or stalls.

What the program writes to is a file that may grow to so many bytes, so that a write takes what is left up to there and then fails, as on
a disk that is full; or a pipe from which nobody reads.
"""
import contextlib
import fcntl
import os
import select
import socket
import threading
import typing

from compare import Wrong, holds, lacks, same, same_lines
from exchanges import AT_ONCE, DRIVE_READY, LOGIN_OF_A, LOGIN_OF_B, READY, RESERVE, Asks, Does, IsLeft, Says, is_left, talk
from frames import ACCEPTED, LOGGED_OUT, LOGOUT, check, framed, good, power_on, received, reply
from play import Row, Tried
from server import Server

# The drive's, after the first session, and the changer's, after the second.
OF_THE_DRIVE = """\
1 500000000000000a.1 TEST-UNIT-READY 2 - - 02
2 500000000000000a.1 LOSS 6 - - 00
"""
OF_THE_CHANGER = """\
1 500000000000000b.1 TEST-UNIT-READY 2 - - 02
2 500000000000000b.1 LOSS 6 - - 00
"""

KEPT = "vtl: lines of records could not be written, and are kept\n"
CAUGHT_UP = "vtl: the lines of records that were kept are written\n"
NOT_WRITTEN = "were not written"
LOST_OF_THE_DRIVE = "vtl: 2 records of logical unit 1 were not written, numbers 1 to 2\n"
LOST_OF_THE_CHANGER = "vtl: 2 records of logical unit 0 were not written, numbers 1 to 2\n"
CANNOT_WRITE = "the lines of the records could not be written"

# The most records that a unit keeps, with the one that waits.
MOST = 6145
# More than it keeps, and as many more as are being written.
MANY = 24_000
GOOD, CONFLICT = 0x00, 0x18


def session(server: Server, login: bytes, ready: bytes) -> None:
    """A host logs in, asks once, and leaves."""
    talk(server, 1, [Says(0, login, ACCEPTED), Says(0, ready, power_on(1)), Says(0, LOGOUT, LOGGED_OUT), IsLeft(0)])


def talk_to(host: socket.socket, frame: bytes, answer: bytes) -> None:
    host.sendall(framed(frame))
    same(f"the answer to {frame.hex()}", received(host), answer)


def at_the_drive(server: Server) -> None:
    session(server, LOGIN_OF_A, DRIVE_READY)


def by_itself(tried: Tried) -> None:
    with Server(tried, "--iscsi", "127.0.0.1:0", "--any-host", "--workers", "1", keeps=False) as server:
        at_the_drive(server)
        server.await_lines(lambda lines: len(lines) >= len(OF_THE_DRIVE))
        server.end()
        server.ends()
        same_lines(server.lines(), OF_THE_DRIVE)


def at_the_changer(server: Server) -> None:
    session(server, LOGIN_OF_B, READY)


# Two sessions, one after the other, by one worker.

def drained(tried: Tried) -> None:
    with Server(tried, "--workers", "1", "--drain") as server:
        at_the_drive(server)
        server.await_lines(lambda lines: len(lines) >= len(OF_THE_DRIVE))
        at_the_changer(server)
        server.end()
        server.ends()
        same_lines(server.lines(), OF_THE_DRIVE + OF_THE_CHANGER)
        lacks("what is reported", server.reported.text, KEPT)


def kept_after(size: int) -> typing.Callable[[Tried], None]:
    """Writes fail once so many bytes are written, until that is reported; then there is room again."""
    def play(tried: Tried) -> None:
        with Server(tried, "--workers", "1", "--drain", room=size) as server:
            at_the_drive(server)
            if size < len(OF_THE_DRIVE):
                server.reported.wait_for(KEPT)
                same("the lines while there is no room", server.lines(), OF_THE_DRIVE[:size])
                server.limit_lines()
            else:
                server.await_lines(lambda lines: len(lines) >= len(OF_THE_DRIVE))
            at_the_changer(server)
            # What was kept is written after the next session, and at the end where there is none.
            server.reported.wait_for(CAUGHT_UP if size < len(OF_THE_DRIVE) else KEPT)
            server.limit_lines()
            server.end()
            server.ends()
            same_lines(server.lines(), OF_THE_DRIVE + OF_THE_CHANGER)
            same("how often it is reported that lines are kept", server.reported.text.count(KEPT), 1)
            lacks("what is reported", server.reported.text, NOT_WRITTEN)

    return play


def lost(line: str) -> typing.Callable[[Tried], None]:
    """No write succeeds, and this line is reported."""
    def play(tried: Tried) -> None:
        with Server(tried, "--workers", "1", "--drain", room=0) as server:
            at_the_drive(server)
            server.reported.wait_for(KEPT)
            at_the_changer(server)
            server.end()
            server.ends(CANNOT_WRITE)
            same_lines(server.lines(), "")
            holds("what is reported", server.reported.text, line)
            lacks("what is reported", server.reported.text, CAUGHT_UP)

    return play


# Sessions with very many records.

def counts_of(lines: str) -> tuple[int, int]:
    """How many lines A has and how many B, where those of each stand in the order of their numbers."""
    counts = {"a": 0, "b": 0}
    for line in lines.splitlines():
        number, _, rest = line.partition(" ")
        host = rest[15:16]
        if not rest.startswith(f"500000000000000{host}.1 ") or host not in counts or number != str(counts[host] + 1):
            raise Wrong("the lines", line, f"the next of A or B, behind {counts}")
        counts[host] += 1
    return counts["a"], counts["b"]


@contextlib.contextmanager
def unread_pipe() -> typing.Iterator[tuple[int, int]]:
    """A pipe with little room: where one reads, and where one writes."""
    reader, writer = os.pipe()
    fcntl.fcntl(writer, fcntl.F_SETPIPE_SZ, 4096)
    try:
        yield reader, writer
    finally:
        os.close(reader)


class Reading(threading.Thread):
    """Reads a pipe to its end."""

    def __init__(self, reader: int):
        super().__init__(daemon=True)
        # A descriptor of its own, which nobody closes before it has read all.
        self.stream = open(os.dup(reader), "rb")  # pylint: disable=consider-using-with
        self.found = b""
        self.start()

    def run(self) -> None:
        with self.stream:
            self.found = self.stream.read()

    def text(self) -> str:
        self.join()
        return self.found.decode()


def long(tried: Tried) -> None:
    """The lines are awaited before the host logs out."""
    with Server(tried, "--sessions", "1", "--drain") as server:
        talk(server, 1, [
            Says(0, LOGIN_OF_A, ACCEPTED), Says(0, READY, power_on(1)), Asks(0, READY, 4999, GOOD),
            Does(lambda server: server.await_lines(lambda lines: lines.count("\n") >= 4096)), Says(0, LOGOUT, LOGGED_OUT), IsLeft(0)])
        server.ends()
        same("how many lines there are", counts_of(server.lines()), (5001, 0))
        lacks("what is reported", server.reported.text, KEPT)


def stalled(tried: Tried) -> None:
    """A's records are more than are kept within a session, so that the writer has them, and stalls. B next to it, whose RESERVE is refused,
    and A after it go on all the same."""
    with unread_pipe() as (reader, writer), Server(tried, "--workers", "2", "--drain", output=writer) as server:
        os.close(writer)
        talk(server, 3, [
            Says(0, LOGIN_OF_A, ACCEPTED), Says(0, READY, power_on(1)),
            Says(1, LOGIN_OF_B, ACCEPTED), Says(1, DRIVE_READY, power_on(1)),
            Asks(0, READY, 4999, GOOD), Asks(1, RESERVE, 4999, CONFLICT), Says(0, LOGOUT, LOGGED_OUT), IsLeft(0),
            # A is notified of its loss.
            Says(2, LOGIN_OF_A, ACCEPTED), Says(2, READY, check(5002, 6, 0x29, 0x07)), Asks(2, READY, 2000, GOOD),
            Says(2, LOGOUT, LOGGED_OUT), IsLeft(2)])
        # From here on it is read.
        reading = Reading(reader)
        talk_to(server.connections[1], LOGOUT, LOGGED_OUT)
        is_left(server.connections[1], 1)
        server.end()
        server.ends()
        same("how many lines there are", counts_of(reading.text()), (7003, 5001))
        lacks("what is reported", server.reported.text, KEPT)


def check_unread(count: int) -> None:
    if count > 2 * MOST:
        raise Wrong("the commands that are answered as long as nobody reads their lines", count, f"at most {2 * MOST}")


def slow(tried: Tried) -> None:
    """A host asks very often. As long as nobody reads the lines it is answered for as many records as are being written and
    for as many as wait. Once no answer comes they are read; where the machine is only busy that is too soon, with fewer answers."""
    with unread_pipe() as (reader, writer), Server(tried, "--sessions", "1", "--drain", output=writer) as server:
        os.close(writer)
        host = server.connect()
        talk_to(host, LOGIN_OF_A, ACCEPTED)
        talk_to(host, READY, power_on(1))
        reading = None
        for first in range(2, MANY + 2, AT_ONCE):
            host.sendall(framed(READY) * AT_ONCE)
            wanted = b"".join(framed(reply(GOOD, b"", number)) for number in range(first, first + AT_ONCE))
            got = b""
            while len(got) < len(wanted):
                if reading is None and first > MOST and not select.select([host], [], [], 1)[0]:
                    reading = Reading(reader)
                    check_unread(first + len(got) // len(framed(good(0))) - 1)
                piece = host.recv(len(wanted) - len(got))
                if not piece:
                    raise Wrong("what comes after many answers", "the end", "more of them")
                got += piece
            same(f"{AT_ONCE} answers", got.hex(), wanted.hex())
        if reading is None:
            check_unread(MANY + 1)
        talk_to(host, LOGOUT, LOGGED_OUT)
        server.ends()
        same("how many lines there are", counts_of(reading.text()), (MANY + 2, 0))
        lacks("what is reported", server.reported.text, KEPT)


# Before the first line, within it, and within the second; before the first line of the second session, and within it.
SIZES = [0, 20, 40, 60, 80, 81, 101]

TWO_SESSIONS = "the drive's lines come behind the first session, and the changer's behind the second"
KEEPS = "a write that fails, at first or within a line, loses no line, repeats none, and is told once"
LOSES = "while lines can't be written the units keep their records, and at the end it is told which have no line"

ROWS = [
    Row("slow", "a command whose unit has 6,144 records waits for who reads slowly, so that no more of them are ever kept", slow),
    Row("stalled", "a reader that stalls holds up no session; once it reads on, all lines are there, once and in order", stalled),
    Row("long", "a unit with 4,096 records hands them out within a session; its lines stand in the order of their numbers", long),
    Row("drained", TWO_SESSIONS, drained),
    Row("by-itself", "a server with a portal hands its records out, those of the socket too", by_itself),
    *(Row(f"kept-{number}", KEEPS, kept_after(size)) for number, size in enumerate(SIZES, 1)),
    Row("lost", LOSES, lost(KEPT)),
    Row("lost-of-the-drive", LOSES, lost(LOST_OF_THE_DRIVE)),
    Row("lost-of-the-changer", LOSES, lost(LOST_OF_THE_CHANGER)),
]
