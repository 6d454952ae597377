"""Initiators of iSCSI at a portal of a served library, next to a host at its socket. A is at the socket, and B and C come by the portal."""
import socket
import struct
import time
import typing

from compare import Wrong, holds, same, same_lines
from exchanges import BLOCK, DRIVE_READY, DRIVE_RESET, LOGIN_OF_A, READY, REGISTER, RESERVE, TO_DRIVE, Says, says
from frames import ACCEPTED, LOGGED_OUT, LOGOUT, WAS_RESET, good, power_on
from initiator import ASKED_FOR_DATA, ASKED_TO_LEAVE, CHECKED, DONE, PING, RESERVED, Initiator
from play import Row, Tried
from server import Server
from sessions import LINES_OF_BOTH


def a_says(host: socket.socket, *exchanges: tuple[bytes, bytes]) -> None:
    for frame, answer in exchanges:
        says(host, Says(0, frame, answer))


def conflict_at_two_doors(server: Server, b: Initiator) -> None:
    a = server.connect()
    a_says(a, (LOGIN_OF_A, ACCEPTED))
    b.log_in()
    a_says(a, (DRIVE_READY, power_on(1)))
    b.ask(CHECKED)
    a_says(a, (REGISTER, good(3)), (RESERVE, good(4)))
    b.write(RESERVED, BLOCK, BLOCK)
    b.log_out()
    b.is_left()
    a_says(a, (LOGOUT, LOGGED_OUT))


def no_login(_server: Server, b: Initiator) -> None:
    """B says nothing at all."""
    b.is_left()


def no_pong(_server: Server, b: Initiator) -> None:
    """B answers no ping."""
    b.log_in()
    b.reads(PING)
    b.is_left()


def ended_at_two_doors(server: Server, b: Initiator) -> None:
    b.log_in()
    b.ask(CHECKED)
    server.end()
    b.is_left(may_be_asked=True)


def back_again(server: Server, b: Initiator) -> None:
    """B comes back before its first connection has ended."""
    b.log_in()
    b.ask(CHECKED)
    with Initiator(server.portal(), "b") as second:
        second.log_in()
        b.is_left()
        server.end()
        second.is_left(may_be_asked=True)


def reset_by_another(server: Server, b: Initiator) -> None:
    b.log_in()
    b.ask(CHECKED)
    waiting = b.write(ASKED_FOR_DATA, BLOCK)
    with Initiator(server.portal(), "c") as c:
        c.log_in()
        c.reset_drive()
        c.log_out()
    hears_of_the_reset(b, waiting)


def reset_at_the_socket(server: Server, b: Initiator) -> None:
    a = server.connect()
    a_says(a, (LOGIN_OF_A, ACCEPTED))
    b.log_in()
    b.ask(CHECKED)
    waiting = b.write(ASKED_FOR_DATA, BLOCK)
    a_says(a, (DRIVE_RESET, WAS_RESET))
    hears_of_the_reset(b, waiting)
    a_says(a, (LOGOUT, LOGGED_OUT))


def hears_of_the_reset(b: Initiator, waiting: tuple[int, int]) -> None:
    """B sends the data of its write, which goes unexecuted, and is notified of the reset."""
    b.send_data(*waiting, BLOCK)
    b.ask(CHECKED)
    b.log_out()
    b.is_left()


def register_at_the_socket(server: Server, b: Initiator) -> None:
    a = server.connect()
    # A volume has come in, which is the drive's record 1.
    a_says(a, (LOGIN_OF_A, ACCEPTED), (READY, power_on(1)), (TO_DRIVE, good(2)), (DRIVE_READY, power_on(2)))
    b.log_in()
    b.ask(CHECKED)
    waiting = b.write(ASKED_FOR_DATA, BLOCK)
    a_says(a, (REGISTER, good(4)))
    b.send_data(*waiting, BLOCK)
    b.reads(DONE)
    b.log_out()
    b.is_left()
    a_says(a, (LOGOUT, LOGGED_OUT))


GRACE = 20


def asked_to_leave(server: Server, b: Initiator) -> None:
    """A has left, and B is idle."""
    a = server.connect()
    a_says(a, (LOGIN_OF_A, ACCEPTED), (LOGOUT, LOGGED_OUT))
    b.log_in()
    b.ask(CHECKED)
    begun = time.monotonic()
    server.end()
    answer = b.reads(ASKED_TO_LEAVE)
    # Event 1, and the seconds as the third parameter.
    same("the event and its parameters", answer.head[36:].hex(), struct.pack(">BBHHHI", 1, 0, 0, 0, GRACE, 0).hex())
    b.log_out()
    b.is_left()
    server.status()
    taken = time.monotonic() - begun
    if taken >= GRACE:
        raise Wrong("the seconds to the end", taken, f"fewer than {GRACE}")


LINES_OF_B = """\
1 500000000000000b.1 TEST-UNIT-READY 2 - - 02
2 500000000000000b.1 LOSS 6 - - 00
"""

LINES_OF_BOTH_SESSIONS = LINES_OF_B + "3 500000000000000b.1 LOSS 6 - - 00\n"

# There is no write among them.
LINES_OF_THE_RESET = """\
1 500000000000000b.1 TEST-UNIT-READY 2 - - 02
2 - RESET 6 - - 00
3 500000000000000b.1 TEST-UNIT-READY 2 - - 02
4 500000000000000b.1 LOSS 6 - - 00
"""

# The changer's and then the drive's.
LINES_OF_THE_REGISTER = """\
1 500000000000000a.1 TEST-UNIT-READY 2 - - 02
2 500000000000000a.1 MOVE-MEDIUM 6 MOVE-MEDIUM/NONE/OTHER - 00
3 500000000000000a.1 LOSS 6 - - 00
1 - MEDIUM-IN 6 - - 00
2 500000000000000a.1 TEST-UNIT-READY 2 - - 02
3 500000000000000b.1 TEST-UNIT-READY 2 - - 02
4 500000000000000a.1 REGISTER 6 REGISTER/NONE/OTHER - 00
5 500000000000000b.1 WRITE(6) 6 WRITE(6)/NONE/OTHER - 00
6 500000000000000b.1 LOSS 6 - - 00
7 500000000000000a.1 LOSS 6 - - 00
"""

OF_B = "of 500000000000000b.1:"


class Meeting(typing.NamedTuple):
    """What it shows, which time is how short, what A, B and C do, the server's lines, where they are compared, and words that it
    reports."""

    shows: str
    times: dict[str, int]
    talk: typing.Callable[[Server, Initiator], None]
    lines: str | None
    words: str


MEETINGS = {
    "no-pong": Meeting(
        # Longer than a read of the server's waits at once.
        "an initiator that answers no ping is ended", {"idle_ping": 2}, no_pong, None, f"{OF_B} nothing came in time\n"),
    "asked-to-leave": Meeting(
        "an idle initiator is asked to log out, does so, and all is over before the grace is", {"grace": GRACE}, asked_to_leave, LINES_OF_B,
        f"{OF_B} ended by its LOGOUT after 1 commands"),
    "no-iscsi-login": Meeting(
        "an initiator that never logs in is ended once the time for it is over", {"login_timeout": 1}, no_login, "",
        "session 1 before its LOGIN: nothing came in time\n"),
    "two-doors": Meeting(
        "A's reservation keeps B from the drive, whichever way each has come", {}, conflict_at_two_doors, LINES_OF_BOTH,
        f"{OF_B} ended by its LOGOUT after 2 commands"),
    "live-iscsi": Meeting(
        "an initiator that is silent in a session doesn't delay the end, and its nexus is lost", {}, ended_at_two_doors, LINES_OF_B,
        f"{OF_B} ended by the end of input after 1 commands"),
    "back-again": Meeting(
        "the nexus of a session whose place another one takes is lost before that one begins", {}, back_again, LINES_OF_BOTH_SESSIONS,
        f"{OF_B} ended by the end of input after 1 commands"),
    "reset-by-another": Meeting(
        "a write of B's waits for its data, and C resets the drive: it goes unexecuted, and B is told of the reset", {}, reset_by_another,
        LINES_OF_THE_RESET, f"{OF_B} ended by its LOGOUT after 2 commands"),
    "reset-at-the-socket": Meeting(
        "a write of B's waits for its data, and A resets the drive: it goes unexecuted, and B is told of the reset", {},
        reset_at_the_socket, LINES_OF_THE_RESET, f"{OF_B} ended by its LOGOUT after 2 commands"),
    "register-at-the-socket": Meeting(
        "a write of B's waits for its data, and A registers at the drive: it goes through", {}, register_at_the_socket,
        LINES_OF_THE_REGISTER, f"{OF_B} ended by its LOGOUT after 2 commands"),
}

HOSTS = [word for host in "bc" for word in ("--host", f"iqn.2026-11.example:{host}=500000000000000{host}")]


def row(name: str, of: Meeting) -> Row:
    def play(tried: Tried) -> None:
        words = ["--iscsi", "127.0.0.1:0", *HOSTS, "--workers", "2", "--log"]
        with Server(tried, *words, **of.times) as server, Initiator(server.portal(), "b") as b:
            of.talk(server, b)
            server.end()
            server.ends()
            if of.lines is not None:
                same_lines(server.lines(), of.lines)
            holds("what is reported", server.reported.text, of.words)

    return Row(name, of.shows, play)


ROWS = [row(*each) for each in MEETINGS.items()]
