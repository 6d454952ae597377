"""One session, over streams that end anywhere, break, or are faulty. Each byte of a host is read by itself."""
import socket
import termios
import typing

import scsi
from compare import same, same_lines
from exchanges import LOGIN_OF_A, NOWHERE, READY, Asks, Says, asks, ready, says
from frames import A, ACCEPTED, LOGGED_OUT, LOGOUT, check, command, framed, good, login, power_on, reset
from play import Row, Tried
from scsi import CHANGER
from server import Server
from sessions import LINES_OF_A
from sockets import count_by, exactly, rest_of
from term import wait_until

# A LOGIN of A, 15 bytes; a TEST UNIT READY to the changer, 13; and a LOGOUT, 5. Its replies, of 6, 33 and 5 bytes.
ONE_SESSION = framed(LOGIN_OF_A) + framed(READY) + framed(LOGOUT)
REPLIES = framed(ACCEPTED) + framed(power_on(1)) + framed(LOGGED_OUT)
LOGGED_IN, ASKED, ALL = 15, 28, 33
# The answers to the same stream that comes again, and its records: the second of the first session's is its loss.
REPLIES_AGAIN = framed(ACCEPTED) + framed(check(3, 6, 0x29, 0x07)) + framed(LOGGED_OUT)
LINES_AGAIN = """\
3 500000000000000a.1 TEST-UNIT-READY 2 - - 02
4 500000000000000a.1 LOSS 6 - - 00
"""
OF_A = "session 1 of 500000000000000a.1:"
OF_NOBODY = "session 1 before its LOGIN:"


def trickle(connection: socket.socket, stream: bytes) -> None:
    """Sends each byte once the one before is read. The server may end the session before the last."""
    for byte in stream:
        try:
            connection.sendall(bytes([byte]))
        except ConnectionError:
            return
        wait_until("a byte is read", lambda: count_by(connection, termios.TIOCOUTQ) == 0)


def answered_to(length: int) -> int:
    """How many bytes of the replies there are, once so many bytes of a session have come."""
    return 0 if length < LOGGED_IN else 6 if length < ASKED else 39 if length < ALL else len(REPLIES)


def lines_after(length: int) -> str:
    """The records that stay of a session of so many bytes."""
    return LINES_OF_A if length >= ASKED else ""


def whole(tried: Tried) -> None:
    with Server(tried, "--sessions", "1", "--log") as server:
        connection = server.connect()
        trickle(connection, ONE_SESSION)
        same("the replies", rest_of(connection), REPLIES)
        server.ends()
        same_lines(server.lines(), LINES_OF_A)
        server.reported.wait_for(f"vtl: {OF_A} ended by its LOGOUT after 1 commands")


def at_once(tried: Tried) -> None:
    with Server(tried, "--sessions", "1") as server:
        connection = server.connect()
        connection.sendall(ONE_SESSION)
        same("the replies", rest_of(connection), REPLIES)
        server.ends()
        same_lines(server.lines(), LINES_OF_A)


# A command to a unit that isn't there (SPC-4: 25h/00h), which has no record, and a reset of it.
ABSENT = framed(LOGIN_OF_A) + framed(ready(NOWHERE)) + framed(reset(NOWHERE))
ABSENT_REPLIES = framed(ACCEPTED) + framed(check(0, 5, 0x25, 0)) + framed(b"\x83\x02")


def absent(tried: Tried) -> None:
    """What comes is answered byte by byte and all at once, by a LOGOUT or without."""
    with Server(tried, "--workers", "1") as server:
        for send in (trickle, socket.socket.sendall):
            for last, answer in ((framed(LOGOUT), framed(LOGGED_OUT)), (b"", b"")):
                connection = server.connect()
                send(connection, ABSENT + last)
                connection.shutdown(socket.SHUT_WR)
                same("the replies", rest_of(connection).hex(), (ABSENT_REPLIES + answer).hex())
        server.end()
        server.ends()
        same_lines(server.lines(), "")


def numbered(tried: Tried) -> None:
    """The number of a record has all of its bytes: here two, next to data."""
    with Server(tried, "--sessions", "1") as server:
        connection = server.connect()
        says(connection, Says(0, LOGIN_OF_A, ACCEPTED))
        says(connection, Says(0, READY, power_on(1)))
        asks(connection, Asks(0, READY, 256, 0))
        # READ KEYS of the changer, where nobody is registered.
        says(connection, Says(0, command(CHANGER, scsi.reserve_in(0, 8)), good(258, bytes(8))))
        says(connection, Says(0, LOGOUT, LOGGED_OUT))
        server.ends()


def silent_after(tried: Tried) -> None:
    """Hosts that send so many bytes of a LOGIN and then nothing, for two seconds: the server's next read fails."""
    with Server(tried, "--workers", str(LOGGED_IN), login_timeout=2) as server:
        for length in range(LOGGED_IN):
            server.connect().sendall(ONE_SESSION[:length])
        for length, connection in enumerate(server.connections):
            same(f"what comes after {length} bytes", rest_of(connection), b"")
        for number in range(1, LOGGED_IN + 1):
            server.reported.wait_for(f"vtl: session {number} before its LOGIN: nothing came in time\n")
        server.end()
        server.ends()
        same_lines(server.lines(), "")


def twice(tried: Tried) -> None:
    """The same stream comes again, to the same library: that nexus has left the directory, and is notified of its loss."""
    with Server(tried, "--sessions", "2") as server:
        for replies in (REPLIES, REPLIES_AGAIN):
            connection = server.connect()
            connection.sendall(ONE_SESSION)
            same("the replies", rest_of(connection).hex(), replies.hex())
        server.ends()
        same_lines(server.lines(), LINES_OF_A + LINES_AGAIN)


def ended_after(length: int, send: typing.Callable[[socket.socket, bytes], None] = trickle) -> typing.Callable[[Tried], None]:
    """The stream ends after so many bytes, which come one by one unless they are sent otherwise."""
    def play(tried: Tried) -> None:
        with Server(tried, "--sessions", "1", "--log") as server:
            connection = server.connect()
            send(connection, ONE_SESSION[:length])
            connection.shutdown(socket.SHUT_WR)
            same("the replies", rest_of(connection), REPLIES[:answered_to(length)])
            server.ends()
            same_lines(server.lines(), lines_after(length))
            whose = OF_NOBODY if length < LOGGED_IN else OF_A
            where = "by the end of input" if length in (0, LOGGED_IN, ASKED) else "within a frame"
            server.reported.wait_for(f"vtl: {whose} ended {where} after {int(length >= ASKED)} commands")

    return play


def broken_after(length: int) -> typing.Callable[[Tried], None]:
    """The host closes after so many bytes, and hasn't read its replies: the server's next read fails."""
    def play(tried: Tried) -> None:
        with Server(tried, "--sessions", "1") as server:
            connection = server.connect()
            trickle(connection, ONE_SESSION[:length])
            count = answered_to(length)
            wait_until("the replies", lambda: count_by(connection, termios.FIONREAD) >= count)
            same("the replies", connection.recv(1000, socket.MSG_PEEK), REPLIES[:count])
            connection.close()
            server.ends(f"{OF_A} a read failed")
            same_lines(server.lines(), lines_after(length))

    return play


def unheard_after(length: int) -> typing.Callable[[Tried], None]:
    """The host hears no more once it has had its answers to so many bytes: the next of the server's writes fails."""
    def play(tried: Tried) -> None:
        with Server(tried, "--sessions", "1") as server:
            connection = server.connect()
            trickle(connection, ONE_SESSION[:length])
            same("the replies", exactly(connection, answered_to(length)), REPLIES[:answered_to(length)])
            connection.shutdown(socket.SHUT_RD)
            trickle(connection, ONE_SESSION[length:])
            server.ends(f"{OF_A} a write failed")
            # The command after an answer that wasn't written isn't read.
            same_lines(server.lines(), LINES_OF_A if length >= LOGGED_IN else "")

    return play


class Faulty(typing.NamedTuple):
    """What it shows, what comes, what the session ends by, and how many bytes of the replies are written."""

    shows: str
    stream: bytes
    fault: str
    replies: int


FAULTY = {
    "no-body": Faulty("a body of no bytes is a bad frame", b"\0\0\0\0", f"{OF_NOBODY} bad frame", 0),
    "too-long": Faulty("a body that is too long is told by its length", b"\0\x02\0\x01", f"{OF_NOBODY} frame too long", 0),
    "unknown-kind": Faulty("a kind that there isn't is told by its byte", b"\0\0\0\x05\x09", f"{OF_NOBODY} bad frame", 0),
    "port-zero": Faulty("a LOGIN by target port 0 is a bad frame", framed(login(A, 0)), f"{OF_NOBODY} bad frame", 0),
    "second-login": Faulty(
        "a second LOGIN is told by its kind", framed(LOGIN_OF_A) + framed(login(A))[:5], f"{OF_A} bad frame", 6),
    "long-cdb": Faulty(
        "a CDB of 17 bytes is told by its length", framed(LOGIN_OF_A) + b"\0\0\0\x13\x02\0\x11", f"{OF_A} bad frame", 6),
}


def faulty(of: Faulty) -> typing.Callable[[Tried], None]:
    """A fault is reported by its last byte, and what comes at once with it is not answered."""
    def play(tried: Tried) -> None:
        for number, (send, after) in enumerate([(trickle, b""), (socket.socket.sendall, b""), (socket.socket.sendall, ONE_SESSION)]):
            with Server(tried, "--sessions", "1") as server:
                connection = server.connect()
                send(connection, of.stream + after)
                same(f"the replies to stream {number}", rest_of(connection), REPLIES[:of.replies])
                server.ends(of.fault)
                same_lines(server.lines(), "")

    return play


ENDS_AS_ITS_STREAM = "a session ends as its stream does, between two frames or within one, and the records that there are stay"
READS = "a session ends by a read that fails, and the records that there are stay"
WRITES = "a session ends by a write that fails, and the records that there are stay"

ROWS = [
    Row("silent-behind", "a session ends where nothing more comes of its LOGIN, wherever that is, and leaves no record", silent_after),
    Row("whole", "a session whose bytes come one by one has all its answers", whole),
    Row("at-once", "a session whose bytes come at once has all its answers", at_once),
    Row("twice", "a session that comes twice to one library is let in each time, and is told of its loss the second time", twice),
    Row("cut-at-once", "a session that ends within a frame leaves no record where all of it comes in one piece",
        ended_after(LOGGED_IN + 3, socket.socket.sendall)),
    Row("absent", "a unit that isn't there is told to a command and to a reset", absent),
    Row("numbered", "a reply has the number of its record, of several bytes", numbered),
    *(Row(f"ended-behind-{length}", ENDS_AS_ITS_STREAM, ended_after(length)) for length in range(ALL)),
    *(Row(f"broken-behind-{length}", READS, broken_after(length)) for length in range(LOGGED_IN, ALL)),
    *(Row(f"write-{number}-fails", WRITES, unheard_after(length)) for number, length in enumerate([0, LOGGED_IN, ASKED], 1)),
    *(Row(name, of.shows, faulty(of)) for name, of in FAULTY.items()),
]
