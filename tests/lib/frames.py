"""The codec of frames: bodies that hosts send at the socket, and those that they are answered. docs/PROTOCOL.md has them."""
import socket
import struct
import typing

import scsi
from sockets import exactly

A, B = 0x500000000000000A, 0x500000000000000B
LOGIN_KIND, COMMAND_KIND, RESET_KIND = 1, 2, 3
LOGOUT = b"\x04"
ACCEPTED, ALREADY_CONNECTED, LOGGED_OUT, WAS_RESET = b"\x81\x00", b"\x81\x01", b"\x84", b"\x83\x00"
GOOD_STATUS, CHECK_CONDITION, BUSY_STATUS, CONFLICT_STATUS = 0x00, 0x02, 0x08, 0x18


def framed(body: bytes) -> bytes:
    return struct.pack(">I", len(body)) + body


def received(connection: socket.socket) -> bytes:
    """The body of the next frame."""
    return exactly(connection, struct.unpack(">I", exactly(connection, 4))[0])


# What hosts send.

def login(sas: int, port: int = 1) -> bytes:
    return struct.pack(">BQH", LOGIN_KIND, sas, port)


def command(lun: int, cdb: scsi.Cdb, data: bytes = b"") -> bytes:
    words = scsi.bytes_of(cdb)
    return bytes([COMMAND_KIND, lun, len(words)]) + words + data


def reset(lun: int) -> bytes:
    return bytes([RESET_KIND, lun])


# What they are answered.

class Reply(typing.NamedTuple):
    """The answer to a command: its status, its sense data, the number of its record, and its data."""

    status: int
    sense: bytes
    number: int
    data: bytes

    def is_attention(self) -> bool:
        """Whether it reports a unit attention condition."""
        return scsi.is_attention(self.sense)


def reply_of(body: bytes) -> Reply:
    """The answer to a command as it came; a `ValueError` where it is none."""
    if len(body) < 11 or body[0] != 0x82 or len(body) < 11 + body[2]:
        raise ValueError(f"no answer to a command: {body[:32].hex()}")
    after = 3 + body[2]
    return Reply(body[1], body[3:after], int.from_bytes(body[after:after + 8], "big"), body[after + 8:])


def reply(status: int, sense: bytes = b"", number: int = 0, data: bytes = b"") -> bytes:
    """The answer to a command, of the record of this number."""
    return bytes([0x82, status, len(sense)]) + sense + struct.pack(">Q", number) + data


def good(number: int, data: bytes = b"") -> bytes:
    return reply(GOOD_STATUS, b"", number, data)


def check(number: int, key: int, asc: int, ascq: int) -> bytes:
    """CHECK CONDITION with sense data of the fixed format."""
    return reply(CHECK_CONDITION, scsi.sense(key, asc, ascq), number)


def conflict(number: int) -> bytes:
    return reply(CONFLICT_STATUS, b"", number)


BUSY = reply(BUSY_STATUS)


def power_on(number: int) -> bytes:
    """The first command of a nexus at a unit reports its power on."""
    return check(number, 6, 0x29, 0x00)
