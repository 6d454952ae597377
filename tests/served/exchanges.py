"""What hosts at the socket send and are answered, and the steps of a row that is played there. docs/PROTOCOL.md has the frames."""
import socket
import typing

import scsi
from compare import Wrong, same, same_lines
from frames import A, B, command, framed, good, login, received, reply, reset
from host import standing_at
from play import Tried
from scsi import CHANGER, DRIVE
from server import Server
from sockets import exactly
from term import patience

NOWHERE = 9


def ready(lun: int) -> bytes:
    """TEST UNIT READY."""
    return command(lun, scsi.TEST_UNIT_READY)


def move(source: int, destination: int) -> bytes:
    """MOVE MEDIUM between elements of these addresses."""
    return command(CHANGER, scsi.move(source, destination))


def reserve_out(action: int, kind: int, key: int, other: int, lun: int = DRIVE) -> bytes:
    """PERSISTENT RESERVE OUT, to the first drive where no other unit is named."""
    return command(lun, scsi.reserve_out(action, kind), scsi.key_list(key, other))


LOGIN_OF_A, LOGIN_OF_B, DRIVE_RESET = login(A), login(B), reset(DRIVE)
READY, DRIVE_READY = ready(CHANGER), ready(DRIVE)
# The volume is moved from storage element 0400h into the drive, and ejected there.
TO_DRIVE, UNLOAD = move(0x400, 0x100), command(DRIVE, scsi.UNLOAD)
BLOCK = b"\x01\x02\x03\x04"
WRITE, READ, REWIND = command(DRIVE, scsi.write(4), BLOCK), command(DRIVE, scsi.read(4)), command(DRIVE, scsi.REWIND)
POSITION, PREVENT = command(DRIVE, scsi.READ_POSITION), command(DRIVE, scsi.PREVENT)
LONG_KEY, OTHER_KEY = 0x1122334455667788, 0x99AABBCCDDEEFF00
REGISTER, REGISTER_LONG, REGISTER_OTHER = reserve_out(0, 0, 0, 1), reserve_out(0, 0, 0, LONG_KEY), reserve_out(0, 0, 0, OTHER_KEY)
# RESERVE by key 1, Exclusive Access, and by the long key, Write Exclusive.
RESERVE, RESERVE_WRITES = reserve_out(1, 3, 1, 0), reserve_out(1, 1, LONG_KEY, 0)
# READ KEYS, cut at 12 bytes and at 16, and READ RESERVATION.
KEYS_CUT, KEYS, RESERVATION = (command(DRIVE, scsi.reserve_in(action, length)) for action, length in [(0, 12), (0, 16), (1, 24)])
INQUIRY_AT_9 = command(NOWHERE, scsi.INQUIRY)


def position(number: int, count: int) -> bytes:
    """The drive stands after so many objects."""
    return good(number, standing_at(count)[2])


# BLANK CHECK, end of data, and four bytes were wanted.
END_OF_DATA = scsi.sense(8, 0, 5, 4)


class Says(typing.NamedTuple):
    """A host sends a frame by its connection, and reads this answer, or none where it is empty."""

    place: int
    frame: bytes
    answer: bytes


class SaysAtOnce(typing.NamedTuple):
    """A host sends frames without waiting, so that no time passes between them, and reads their answers."""

    place: int
    frames: list[bytes]
    answers: list[bytes]


class IsLeft(typing.NamedTuple):
    """A host reads the end."""

    place: int


class Asks(typing.NamedTuple):
    """A host sends a frame so many times, each of which is answered by this status and no data."""

    place: int
    frame: bytes
    times: int
    status: int


class Floods(typing.NamedTuple):
    """A host sends a frame again and again without reading, until the server takes no more for a while."""

    place: int
    frame: bytes


class Does(typing.NamedTuple):
    """What no host does: the server is asked to end, or its lines are awaited."""

    what: typing.Callable[[Server], None]


Step = Says | SaysAtOnce | IsLeft | Asks | Floods | Does
ENDS = Does(Server.end)
AT_ONCE = 100


def says(connection: socket.socket, step: Says) -> None:
    connection.sendall(framed(step.frame))
    if not step.answer:
        return
    same(f"the answer to {step.frame[:9].hex()} of connection {step.place}", received(connection).hex(), step.answer.hex())


def says_at_once(connection: socket.socket, step: SaysAtOnce) -> None:
    connection.sendall(b"".join(map(framed, step.frames)))
    for frame, answer in zip(step.frames, step.answers, strict=True):
        same(f"the answer to {frame[:9].hex()} of connection {step.place}", received(connection).hex(), answer.hex())


def is_left(connection: socket.socket, place: int) -> None:
    """Reads the end, and nothing before it."""
    same(f"what comes at the end of connection {place}", connection.recv(64).hex(), "")


def asks(connection: socket.socket, step: Asks) -> None:
    """Some questions at once, so that it takes less time."""
    wanted = framed(reply(step.status))[:-8]
    for count in [AT_ONCE] * (step.times // AT_ONCE) + [step.times % AT_ONCE]:
        connection.sendall(framed(step.frame) * count)
        answers = exactly(connection, count * (len(wanted) + 8))
        for at in range(0, len(answers), len(wanted) + 8):
            same(f"an answer to {step.frame.hex()} again and again", answers[at:at + len(wanted)].hex(), wanted.hex())


def floods(connection: socket.socket, frame: bytes) -> None:
    connection.settimeout(0.5)
    try:
        for _ in range(1000):
            connection.sendall(framed(frame) * 1000)
    except (TimeoutError, ConnectionError):
        return  # it takes no more
    finally:
        connection.settimeout(patience())
    raise Wrong("a server whose replies aren't read", "takes a million frames", "takes no more at some time")


def take(server: Server, connections: list[socket.socket], step: Step) -> None:
    match step:
        case Says(place):
            says(connections[place], step)
        case SaysAtOnce(place):
            says_at_once(connections[place], step)
        case IsLeft(place):
            is_left(connections[place], place)
        case Asks(place):
            asks(connections[place], step)
        case Floods(place, frame):
            floods(connections[place], frame)
        case Does(what):
            what(server)


def talk(server: Server, count: int, steps: list[Step]) -> None:
    """Connects so many times, and takes the steps."""
    connections = [server.connect() for _ in range(count)]
    for number, step in enumerate(steps, 1):
        try:
            take(server, connections, step)
        except OSError as error:
            raise Wrong(f"step {number}, {step}", error, "an answer") from error


def meet(tried: Tried, words: list[str], count: int, steps: list[Step], fault: str | None, lines: str | None, **times: int) -> None:
    """Serves a library to hosts with so many connections, and compares how the server ends and, where they are given, its lines."""
    with Server(tried, *words, **times) as server:
        talk(server, count, steps)
        server.ends(fault)
        if lines is not None:
            same_lines(server.lines(), lines)
