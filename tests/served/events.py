"""What a server reports of its sessions, of connections that it can't accept, of commands that are BUSY and of records that it can't write,
and which of several faults it ends by."""
import os
import pathlib
import re
import time

from compare import holds, lacks, same, same_lines
from exchanges import DRIVE_READY, LOGIN_OF_A, LOGIN_OF_B, READY, TO_DRIVE, WRITE, IsLeft, Says, SaysAtOnce, says, talk
from folder import FIRST, block
from frames import ACCEPTED, ALREADY_CONNECTED, BUSY, LOGGED_OUT, LOGOUT, check, framed, good, login, power_on
from play import Row, Tried
from scsi import LONGEST_BLOCK
from server import Server, refused

OF_A = "of 500000000000000a.1:"
BAD_FRAME = b"\0\0\0\0"
NOT_READY = check(2, 2, 0x3A, 0)
A_LEAVES = [Says(0, LOGOUT, LOGGED_OUT), IsLeft(0)]


def leave_at_once(server: Server, count: int) -> None:
    """So many sessions end before anything comes, one after the other."""
    for _ in range(count):
        server.connect().close()


def seconds_in(server: Server, words: str) -> int:
    """The seconds after these words of a line."""
    server.reported.wait_for(words)
    return int(re.search(re.escape(words) + r" and ([0-9]+) seconds\n", server.reported.text)[1])


def reported(tried: Tried) -> None:
    """Sessions 1 to 6 come and go, and then one each that logs out, is cut, and says nothing for a second."""
    with Server(tried, "--workers", "1", "--log", idle_timeout=1) as server:
        leave_at_once(server, 6)
        begun = time.monotonic()
        # No time passes between its commands.
        frames, answers = [LOGIN_OF_A, *[READY] * 12, LOGOUT], [ACCEPTED, power_on(1), *map(good, range(2, 13)), LOGGED_OUT]
        talk(server, 1, [SaysAtOnce(0, frames, answers), IsLeft(0)])
        seconds = seconds_in(server, f"vtl: session 7 {OF_A} ended by its LOGOUT after 12 commands")
        same("whether it took no more seconds", seconds <= time.monotonic() - begun, True)
        with server.connect() as cut:
            cut.sendall(framed(LOGIN_OF_A)[:9])
        seconds_in(server, "vtl: session 8 before its LOGIN: ended within a frame after 0 commands")
        talk(server, 1, [Says(0, LOGIN_OF_A, ACCEPTED), IsLeft(0)])
        server.reported.wait_for(f"vtl: session 9 {OF_A} nothing came in time\n")
        seconds = seconds_in(server, f"vtl: session 9 {OF_A} ended by a fault after 0 commands")
        same("whether it took a second", seconds >= 1, True)
        server.end()
        server.ends()
        begins = [line for line in server.reported.text.splitlines() if line.endswith(" begins")]
        same("which sessions begin", begins, [f"vtl: session {number} begins" for number in range(1, 10)])


def not_accepted(tried: Tried) -> None:
    """The program gets no more descriptors for a while. Whether it had one for the connection that comes then is up to chance, but for the
    session it has none."""
    with Server(tried, "--workers", "1") as server:
        # Each descriptor that it has stays good, and a further one would be 3 at least.
        limit = server.limit_descriptors(3)
        with server.connect():
            server.reported.wait_for("vtl: a connection could not be accepted\n")
        server.limit_descriptors(limit)
        talk(server, 1, [Says(0, LOGIN_OF_A, ACCEPTED), Says(0, READY, power_on(1)), *A_LEAVES])
        server.end()
        server.ends()


def no_slot(tried: Tried) -> None:
    """32 hosts by all four ports have met the drive, and one more."""
    with Server(tried, "--workers", "1", "--log") as server:
        for number in range(128):
            its_login = login(1 + number // 4, 1 + number % 4)
            talk(server, 1, [Says(0, its_login, ACCEPTED), Says(0, DRIVE_READY, power_on(2 * number + 1)), *A_LEAVES])
        talk(server, 1, [Says(0, LOGIN_OF_A, ACCEPTED), Says(0, DRIVE_READY, BUSY), Says(0, READY, power_on(1)), *A_LEAVES])
        server.end()
        server.ends()
        full = "vtl: BUSY for 500000000000000a.1 at logical unit 1: all slots are taken there\n"
        same("how often it is reported", server.reported.text.count(full), 1)


FOUR_LINES = """\
1 500000000000000a.1 TEST-UNIT-READY 2 - - 02
2 500000000000000a.1 TEST-UNIT-READY 6 TEST-UNIT-READY/NONE/OTHER - 02
3 500000000000000a.1 TEST-UNIT-READY 6 TEST-UNIT-READY/NONE/OTHER - 02
4 500000000000000a.1 LOSS 6 - - 00
"""


def unwritten(tried: Tried) -> None:
    """The lines of a first session are written, and none of a second."""
    with Server(tried, "--workers", "1", "--drain", room=len(FOUR_LINES)) as server:
        talk(server, 1, [
            Says(0, LOGIN_OF_A, ACCEPTED), Says(0, DRIVE_READY, power_on(1)), Says(0, DRIVE_READY, NOT_READY),
            Says(0, DRIVE_READY, check(3, 2, 0x3A, 0)), *A_LEAVES])
        server.await_lines(lambda lines: lines == FOUR_LINES)
        again = [Says(0, DRIVE_READY, check(number, 2, 0x3A, 0)) for number in range(6, 16)]
        talk(server, 1, [Says(0, LOGIN_OF_A, ACCEPTED), Says(0, DRIVE_READY, check(5, 6, 0x29, 0x07)), *again, *A_LEAVES])
        server.end()
        server.ends("the lines of the records could not be written")
        same_lines(server.lines(), FOUR_LINES)
        holds("what is reported", server.reported.text, "vtl: 12 records of logical unit 1 were not written, numbers 5 to 16\n")


# Faults of several kinds.

NOBODY = "before its LOGIN:"


def first_session(tried: Tried) -> None:
    """Of twelve sessions the third, fourth and twelfth have a fault, and the third has its own at last."""
    with Server(tried, "--sessions", "12", "--log", login_timeout=4) as server:
        leave_at_once(server, 2)
        third = server.connect()
        # It is in its session, which no time ends, once its LOGIN is answered.
        says(third, Says(0, LOGIN_OF_B, ACCEPTED))
        fourth = server.connect()
        leave_at_once(server, 6)
        talk(server, 2, [Says(0, LOGIN_OF_A, ACCEPTED), Says(1, LOGIN_OF_A, ALREADY_CONNECTED), IsLeft(1), *A_LEAVES])
        server.reported.wait_for("vtl: session 12 of 500000000000000a.1: already connected\n")
        same("what comes to the fourth", fourth.recv(1), b"")
        third.sendall(BAD_FRAME)
        same("what comes to the third", third.recv(1), b"")
        server.ends("session 3 of 500000000000000b.1: bad frame")
        holds("what is reported", server.reported.text, f"vtl: session 4 {NOBODY} nothing came in time\n")


def session_before_lines(tried: Tried) -> None:
    """A session has a fault, and the lines can't be written either."""
    with Server(tried, "--sessions", "3", room=0) as server:
        leave_at_once(server, 1)
        talk(server, 1, [Says(0, LOGIN_OF_A, ACCEPTED), Says(0, READY, power_on(1)), *A_LEAVES])
        faulty = server.connect()
        faulty.sendall(BAD_FRAME)
        server.ends(f"session 3 {NOBODY} bad frame")
        holds("what is reported", server.reported.text, "vtl: 2 records of logical unit 0 were not written, numbers 1 to 2\n")
        lacks("what is reported", server.reported.text, "the lines of the records could not be written")


LOADED = [
    Says(0, LOGIN_OF_A, ACCEPTED), Says(0, READY, power_on(1)), Says(0, TO_DRIVE, good(2)), Says(0, DRIVE_READY, power_on(2)),
    Says(0, WRITE, good(3))]


def media_fault(tried: Tried, room_of_lines: bool, fault: str, *words: str, faulty: bool = False) -> None:
    """A volume can't be written, and the lines neither unless they go to a pipe."""
    reader, writer = os.pipe()
    try:
        output = writer if room_of_lines else None
        with Server(tried, "--media", tried.path("media"), "--new-library", *words, output=output, room=1 << 20) as server:
            if faulty:
                server.connect().sendall(BAD_FRAME)
                server.reported.wait_for(f"vtl: session 1 {NOBODY} bad frame\n")
            host = server.connect()
            for step in LOADED:
                says(host, step)
            server.limit_lines(0)
            says(host, Says(0, WRITE, good(4)))
            says(host, Says(0, LOGOUT, LOGGED_OUT))
            if not words:
                server.end()
            server.ends(fault)
            holds("what is reported", server.reported.text, "vtl: volume VOL00001 is not whole on the disk\n")
    finally:
        os.close(reader)
        os.close(writer)


def no_memory(tried: Tried) -> None:
    """A kept volume has no room in the memory that there may be."""
    folder = tried.path("media")
    with Server(tried, "--media", folder, "--new-library") as server:
        server.end()
        server.ends()
    pathlib.Path(folder, FIRST).write_bytes(block(bytes(LONGEST_BLOCK)) * 32)
    # Without a record all of the image is read.
    pathlib.Path(folder, FIRST).with_suffix(".synced").unlink()
    got = refused(tried, "--socket", tried.path("socket"), "--media", folder, "--memory", "1M")
    same("the status and what is reported", got, (3, "vtl: want of memory\n"))


LINES_FAULT, MEDIA_FAULT = "the lines of the records could not be written", "not all of the media could be written"

ROWS = [
    Row("told", "each session is told when it begins and how it ends, by its number", reported),
    Row("not-accepted", "a connection that can't be accepted is told, and others are later", not_accepted),
    Row("no-slot", "a nexus that finds no slot at a unit is BUSY there, which is told", no_slot),
    Row("unwritten", "the records that have no line are told by their numbers", unwritten),
    Row("first-session", "of several sessions with faults the first that was accepted is told at the end, and each at once", first_session),
    Row("session-before-lines", "a session's fault is told at the end, and not that of the lines", session_before_lines),
    Row("media-fault", "a volume that couldn't be written is the fault at the end", lambda tried: media_fault(tried, True, MEDIA_FAULT)),
    Row(
        "lines-before-media", "the fault of the lines is told, and not that of the media",
        lambda tried: media_fault(tried, False, LINES_FAULT)),
    Row("session-before-media", "a session's fault is told, and not that of the media", lambda tried: media_fault(
        tried, True, f"session 1 {NOBODY} bad frame", "--sessions", "2", faulty=True)),
    Row("no-memory", "a kept library that has no room isn't served", no_memory),
]
