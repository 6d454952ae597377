"""A host at the socket of a server."""
import socket
import struct
import typing

import scsi
from compare import same
from frames import A, ACCEPTED, LOGGED_OUT, LOGOUT, Reply, command, framed, login, received, reply_of
from scsi import CHANGER, DRIVE, Cdb, sense

# What a host is answered, without the number of its record: status, sense data and data.
Answer = tuple[int, bytes, bytes]
# Addresses of the first element of each kind.
FIRST_DRIVE, FIRST_STORAGE = 0x100, 0x400
GOOD = 0x00, b"", b""


def check(key: int, asc: int, ascq: int, information: int | None = None, flags: int = 0) -> Answer:
    """CHECK CONDITION with sense data of the fixed format."""
    return 0x02, sense(key, asc, ascq, information, flags), b""


def good(data: bytes) -> Answer:
    return 0x00, b"", data


# What the changer and a drive report to a host first, and of a volume that came in.
POWER_ON, MEDIUM_CHANGED = check(6, 0x29, 0x00), check(6, 0x28, 0x00)
WRITE_PROTECTED = check(7, 0x27, 0x00)


def end_of_data(wanted: int) -> Answer:
    """BLANK CHECK at the end of data, where so many bytes or blocks were still wanted."""
    return check(8, 0x00, 0x05, wanted)


def overflow(left: int) -> Answer:
    """VOLUME OVERFLOW with EOM, where so many bytes or blocks weren't written."""
    return check(0xD, 0x00, 0x02, left, scsi.EOM)


def at_filemark(wanted: int) -> Answer:
    """A filemark was read, where so many bytes were wanted."""
    return check(0, 0x00, 0x01, wanted, scsi.AT_FILEMARK)


def standing_at(count: int) -> Answer:
    """READ POSITION after so many objects."""
    return good(struct.pack(">BBHIIII", 0x80 if count == 0 else 0, 0, 0, count, count, 0, 0))


class Connects(typing.Protocol):
    """What a host can connect to: a server."""

    def connect(self) -> socket.socket: ...


class Host:
    """A session of a nexus, over a connection of its own. It is a `ConnectionError` where the server ends it."""

    def __init__(self, server: Connects, sas: int = A, port: int = 1):
        self.nexus = f"{sas:016x}.{port}"
        self.connection = self.let_in(server, login(sas, port))

    def let_in(self, server: Connects, body: bytes) -> socket.socket:
        """A connection with a LOGIN."""
        connection = server.connect()
        connection.sendall(framed(body))
        same("the answer to a LOGIN", received(connection), ACCEPTED)
        return connection

    def __enter__(self) -> "Host":
        return self

    def __exit__(self, *_) -> None:
        self.connection.close()

    def sends(self, *bodies: bytes) -> None:
        self.connection.sendall(b"".join(map(framed, bodies)))

    def receives(self) -> bytes:
        """The body of the next frame."""
        return received(self.connection)

    def ask(self, body: bytes) -> bytes:
        self.sends(body)
        return self.receives()

    def command(self, lun: int, cdb: Cdb, data: bytes = b"") -> Reply:
        return reply_of(self.ask(command(lun, cdb, data)))

    def insist(self, lun: int, cdb: Cdb, data: bytes = b"") -> Reply:
        """The same, again as long as the answer reports a unit attention condition."""
        while (reply := self.command(lun, cdb, data)).is_attention():
            pass
        return reply

    def answer(self, lun: int, cdb: Cdb, data: bytes = b"") -> Answer:
        reply = self.command(lun, cdb, data)
        return reply.status, reply.sense, reply.data

    def log_out(self) -> None:
        """Once the connection has ended, so has the session."""
        same("the answer to a LOGOUT", self.ask(LOGOUT), LOGGED_OUT)
        same("what comes at the end", self.connection.recv(64).hex(), "")

    # What is compared.

    def asks(self, lun: int, cdb: Cdb, wanted: Answer = GOOD, data: bytes = b"") -> None:
        """Compares the answer to a command."""
        same(f"the answer to {scsi.bytes_of(cdb).hex()} at logical unit {lun}", self.answer(lun, cdb, data), wanted)

    def meets(self, lun: int) -> None:
        """Is notified of power on."""
        self.asks(lun, scsi.TEST_UNIT_READY, POWER_ON)

    def moves(self, source: int, destination: int) -> None:
        self.asks(CHANGER, scsi.move(source, destination))

    def loads(self) -> None:
        """The volume in the first storage element is moved into the first drive."""
        self.meets(CHANGER)
        self.moves(FIRST_STORAGE, FIRST_DRIVE)
        # A host that hadn't met the drive yet isn't notified that its medium may have changed.
        self.meets(DRIVE)

    def changes(self, destination: int, source: int) -> None:
        """The volume in the first drive is moved away, and another one into the drive, of which the host is notified."""
        self.moves(FIRST_DRIVE, destination)
        self.moves(source, FIRST_DRIVE)
        self.asks(DRIVE, scsi.TEST_UNIT_READY, MEDIUM_CHANGED)

    def writes(self, *blocks: bytes, lun: int = DRIVE) -> None:
        for data in blocks:
            self.asks(lun, scsi.write(len(data)), GOOD, data)

    def reads(self, *objects: bytes | None, lun: int = DRIVE) -> None:
        """Reads blocks, and filemarks where there is None, to the end of data."""
        for data in objects:
            length = len(data) if data else 1
            self.asks(lun, scsi.read(length), good(data) if data else at_filemark(length))
        self.asks(lun, scsi.read(1), end_of_data(1))

    def is_ended_by(self, lun: int, cdb: Cdb, data: bytes = b"") -> None:
        """A command has no answer, and its session ends."""
        self.sends(command(lun, cdb, data))
        same(f"what comes instead of an answer to {scsi.bytes_of(cdb).hex()}", self.connection.recv(64).hex(), "")
