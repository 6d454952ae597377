"""The codec of PDUs of iSCSI: what initiators send, and what the target answers (RFC 7143, "iSCSI PDU Formats").

Of an answer `at` has StatSN, ExpCmdSN and MaxCmdSN. What nothing is said of is 0.
"""
import struct
import typing

import scsi

# LUNs: of the drive, the changer and no unit; of the drive by flat space addressing; and one of two levels.
DRIVE, CHANGER, NOWHERE, FLAT_DRIVE, TWO_LEVELS = "0001", "0000", "0009", "4001", "00010001"
# No task, no data that were asked for, and no text that goes on.
NONE = 0xFFFFFFFF
FINAL, MORE, READS, WRITES, NEITHER = 0x80, 0x00, 0x40, 0x20, 0x00
CONTINUES = 0x40
# Opcodes from the initiator, with the bit that asks for immediate delivery, and from the target.
NOP_OUT, COMMAND, MANAGE, LOGIN, TEXT, DATA_OUT, LOGOUT, SNACK, IMMEDIATE = 0x00, 0x01, 0x02, 0x03, 0x04, 0x05, 0x06, 0x10, 0x40
NOP_IN, RESPONSE, MANAGED, LOGGED_IN, TEXT_ANSWER, DATA_IN, LOGGED_OUT = 0x20, 0x21, 0x22, 0x23, 0x24, 0x25, 0x26
R2T, ASYNC, REJECT = 0x31, 0x32, 0x3F
# A simple task, by its bits of a command's flags; data that have their command's status with them.
SIMPLE, HAS_STATUS = 0x01, 0x01
# Of a login: T, the stage that it is in, and the one that it leads to.
TRANSIT, SECURITY, OPERATIONAL, NO_STAGE, FULL_FEATURE = 0x80, 0x00, 0x04, 0x08, 0x0C
NEXT_OPERATIONAL, NEXT_NONE, NEXT_FULL = 1, 2, 3
# From security negotiation to operational negotiation or at once to full feature, and from operational negotiation to that.
ON, SKIPS, TO_FULL = TRANSIT | SECURITY | NEXT_OPERATIONAL, TRANSIT | SECURITY | NEXT_FULL, TRANSIT | OPERATIONAL | NEXT_FULL
# The number that stands for whichever the target gives a session that begins, and the initiator's part of the session's identifier.
SESSION, ISID = 7, "00023d000001"
OTHER_ISID = "00023d000002"
# Status-Class with Status-Detail of a login that is refused.
INITIATOR_ERROR, AUTHENTICATION_FAILURE, AUTHORIZATION_FAILURE, NOT_FOUND, UNSUPPORTED_VERSION = 0x0200, 0x0201, 0x0202, 0x0203, 0x0205
TOO_MANY_CONNECTIONS, MISSING_PARAMETER, TYPE_NOT_SUPPORTED, NO_SUCH_SESSION, INVALID_DURING_LOGIN = 0x0206, 0x0207, 0x0209, 0x020A, 0x020B
TARGET_ERROR, OUT_OF_RESOURCES = 0x0300, 0x0302
# Reasons of a Reject.
SNACK_REJECT, PROTOCOL_ERROR, NOT_SUPPORTED, TOO_MANY_IMMEDIATE, INVALID_FIELD = 0x03, 0x04, 0x05, 0x06, 0x09
# Responses to task management functions, and these.
COMPLETE, NO_TASK, NO_LUN, REASSIGNMENT, UNSUPPORTED = 0x00, 0x01, 0x02, 0x04, 0x05
ABORT_TASK, ABORT_TASK_SET, CLEAR_ACA, CLEAR_TASK_SET, UNIT_RESET, WARM_RESET, COLD_RESET, REASSIGN = range(1, 9)

# The name of the initiator as rows say it. In each scene other digits stand in the place of its last.
HOST, PLAYED_BY = b"iqn.2026-11.example:h00", b":h00"
TARGET = b"iqn.2026-11.localhost:vtl"


def text_of(*items: bytes | str) -> bytes:
    """Keys with their values."""
    return b"".join((item.encode() if isinstance(item, str) else item) + b"\0" for item in items)


def unit(number: int) -> str:
    """The LUN of a unit."""
    return f"{number:04x}"


INITIATOR, OF_TARGET, NORMAL = b"InitiatorName=" + HOST, b"TargetName=" + TARGET, b"SessionType=Normal"
NAMES = text_of(INITIATOR, OF_TARGET, NORMAL)
DISCOVERY = text_of(INITIATOR, b"SessionType=Discovery")
GROUP = text_of(b"TargetPortalGroupTag=1")


def pdu(
        opcode: int, flags: int, place: str, tag: int, words: typing.Sequence[int], data: bytes = b"", third: int = 0, fourth: int = 0,
        extra: bytes = b"") -> bytes:
    """`place` is a LUN, or what else stands there, up to its last byte that isn't 0; `words` stand from byte 20 on; `extra` are additional
    header segments."""
    head = struct.pack(">BBBBI", opcode, flags, third, fourth, len(extra) // 4 << 24 | len(data)) + bytes.fromhex(place).ljust(8, b"\0")
    head += struct.pack(f">I{len(words)}I", tag, *words)
    return head.ljust(48, b"\0") + extra + data + bytes(-len(data) % 4)


def words_of(cdb: scsi.Cdb) -> tuple[int, ...]:
    """The words of a CDB, of which a header has the first 16 bytes."""
    return struct.unpack(">4I", scsi.bytes_of(cdb)[:16].ljust(16, b"\0"))


# What an initiator sends.

def at_once(opcode: int, now: bool) -> int:
    """With the bit for immediate delivery, or without."""
    return opcode | (IMMEDIATE if now else 0)


def login(
        flags: int, data: bytes, number: int = 1, tsih: int = 0, cid: int = 2, isid: str = ISID, least: int = 0, most: int = 0) -> bytes:
    """A Login Request, by the least and the most of the versions that its initiator knows."""
    return pdu(LOGIN | IMMEDIATE, flags, f"{isid}{tsih:04x}", 1, (cid << 16, number, 0), data, most, least)


def command(
        tag: int, number: int, cdb: scsi.Cdb, kind: int = NEITHER, length: int = 0, data: bytes = b"", lun: str = DRIVE, end: int = FINAL,
        now: bool = False, extra: bytes = b"") -> bytes:
    """A SCSI Command that expects to move so many bytes. Without `FINAL` unsolicited data follow. An immediate one takes up no number."""
    return pdu(at_once(COMMAND, now), end | kind | SIMPLE, lun, tag, (length, number, 1, *words_of(cdb)), data, extra=extra)


def ready(tag: int, number: int, lun: str = DRIVE, now: bool = False) -> bytes:
    """TEST UNIT READY."""
    return command(tag, number, scsi.TEST_UNIT_READY, lun=lun, now=now)


def inquiry(tag: int, number: int, room: int, expected: int, kind: int = READS, data: bytes = b"", lun: str = DRIVE) -> bytes:
    """INQUIRY of so many bytes at most."""
    return command(tag, number, scsi.six(0x12, 0, room), kind, expected, data, lun)


def write(
        tag: int, number: int, length: int = 4, data: bytes = b"", end: int = FINAL, lun: str = DRIVE, kind: int = WRITES) -> bytes:
    """WRITE(6) of a block, with so much of it as immediate data."""
    return command(tag, number, scsi.write(length), kind, length if kind else 0, data, lun, end)


def read(tag: int, number: int, length: int, expected: int, kind: int = READS, lun: str = DRIVE) -> bytes:
    """READ(6) of a block of any length."""
    return command(tag, number, scsi.read(length), kind, expected, lun=lun)


def data_out(tag: int, data: bytes, transfer: int = 0, count: int = 0, offset: int = 0, end: int = FINAL) -> bytes:
    """Data of a write, asked for by a target transfer tag or unsolicited, `NONE`; the number among them, and the place."""
    return pdu(DATA_OUT, end, "", tag, (transfer, 0, 1, 0, count, offset), data)


def manage(function: int, number: int, of: int = NONE, lun: str = DRIVE, tag: int = 3, now: bool = True) -> bytes:
    """A Task Management Function Request, which may name a task."""
    return pdu(at_once(MANAGE, now), FINAL | function, lun, tag, (of, number, 1, 1))


def text(number: int, data: bytes = b"", transfer: int = NONE, flags: int = FINAL, tag: int = 2) -> bytes:
    """A Text Request, which begins a text or goes on with one."""
    return pdu(TEXT, flags, "", tag, (transfer, number, 1), data)


def nop_out(tag: int, number: int, data: bytes = b"", now: bool = False) -> bytes:
    return pdu(at_once(NOP_OUT, now), FINAL, "", tag, (NONE, number, 1), data)


def snack(tag: int) -> bytes:
    """A SNACK Request, which uses no number up."""
    return pdu(SNACK, FINAL, "", tag, (NONE, 0, 1))


def logout(tag: int, number: int, now: bool = False, cid: int = 2, reason: int = 0) -> bytes:
    return pdu(at_once(LOGOUT, now), FINAL | reason, "", tag, (cid << 16, number, 1))


# What the target answers.

At = tuple[int, int, int]
BEGUN = (0, 1, 32)


def let_on(flags: int, data: bytes = b"", at: At = BEGUN, isid: str = ISID) -> bytes:
    """A Login Response with which a login goes on, or with T to full feature ends: that one has the session's number."""
    return pdu(LOGGED_IN, flags, f"{isid}{SESSION if flags & 0x83 == 0x83 else 0:04x}", 1, (0, *at), data)


def refused(flags: int, status: int, at: At = BEGUN, tsih: int = 0, isid: str = ISID) -> bytes:
    """A Login Response with Status-Class and Status-Detail."""
    return pdu(LOGGED_IN, flags, f"{isid}{tsih:04x}", 1, (0, *at, status << 16))


def sense(key: int, code: str) -> bytes:
    """Sense data of the fixed format, after their length, by sense key, and additional sense code with qualifier."""
    return sense_segment(scsi.sense(key, *bytes.fromhex(code)))


def sense_segment(sense_data: bytes) -> bytes:
    """The data of a SCSI Response: how long the sense data are, and these."""
    return struct.pack(">H", len(sense_data)) + sense_data


POWER_ON, BY_RESET = sense(6, "2900"), sense(6, "2903")
NO_SUCH_UNIT = sense(5, "2500")
# Data that weren't agreed, or that nothing has asked for; too much or too little; and data that don't go on where those before them end.
UNEXPECTED, WRONG_AMOUNT, WRONG_PLACE = sense(11, "0c0c"), sense(11, "0c0d"), sense(11, "4b05")
CONFLICT, BUSY = 0x18, 0x08


def response(tag: int, at: At, status: int, senses: bytes = b"", missing: int = 0, over: int = 0, count: int = 0) -> bytes:
    """A SCSI Response after so many Data-In, with how many bytes fewer or more than were expected."""
    flags = FINAL | (2 if missing else 0) | (4 if over else 0)
    return pdu(RESPONSE, flags, "", tag, (0, *at, count, 0, missing or over), senses, 0, status)


def good(tag: int, at: At, missing: int = 0, over: int = 0) -> bytes:
    return response(tag, at, 0, b"", missing, over)


def checked(tag: int, at: At, senses: bytes, missing: int = 0, over: int = 0, count: int = 0) -> bytes:
    """CHECK CONDITION."""
    return response(tag, at, 2, senses, missing, over, count)


def data_in(tag: int, at: At | tuple[int, int], data: bytes, count: int = 0, offset: int = 0, end: int = FINAL) -> bytes:
    """Data of a read that have no status with them, and so no StatSN: by ExpCmdSN and MaxCmdSN alone."""
    return pdu(DATA_IN, end, "", tag, (NONE, 0, *at[-2:], count, offset), data)


def data_with_good(
        tag: int, at: At, data: bytes, missing: int = 0, over: int = 0, count: int = 0, offset: int = 0) -> bytes:
    """The last data of a read, with GOOD."""
    flags = FINAL | HAS_STATUS | (2 if missing else 0) | (4 if over else 0)
    return pdu(DATA_IN, flags, "", tag, (NONE, *at, count, offset, missing or over), data)


def wanted(tag: int, at: At, length: int = 4, offset: int = 0, transfer: int = 0, count: int = 0, lun: str = DRIVE) -> bytes:
    """An R2T, which has the LUN of its command and the StatSN that comes next."""
    return pdu(R2T, FINAL, lun, tag, (transfer, *at, count, offset, length))


def managed(result: int, at: At, tag: int = 3) -> bytes:
    return pdu(MANAGED, FINAL, "", tag, (0, *at), third=result)


def text_answer(at: At, data: bytes = b"", transfer: int = NONE, flags: int = FINAL, tag: int = 2) -> bytes:
    return pdu(TEXT_ANSWER, flags, "", tag, (transfer, *at), data)


def rejected(reason: int, at: At, of: bytes) -> bytes:
    """A Reject, with the header of what is rejected."""
    return pdu(REJECT, FINAL, "", NONE, (0, *at), of[:48], third=reason)


def nop_in(tag: int, at: At, data: bytes = b"") -> bytes:
    """The answer to a NOP-Out."""
    return pdu(NOP_IN, FINAL, "", tag, (NONE, *at), data)


def ping(at: At) -> bytes:
    """A NOP-In that wants an answer, by the target transfer tag 0, and has the StatSN that comes next."""
    return pdu(NOP_IN, FINAL, "", NONE, (0, *at))


def logged_out(tag: int, at: At, result: int = 0) -> bytes:
    return pdu(LOGGED_OUT, FINAL, "", tag, (0, *at), third=result)


def asked_to_leave(at: At, seconds: int) -> bytes:
    """An Asynchronous Message that asks for a logout, event 1, within so many seconds, the third of its parameters."""
    return pdu(ASYNC, FINAL, "", NONE, (0, *at, 1 << 24, seconds))
