"""What an initiator may do wrong at `vtl serve --iscsi`, and what it is owed for it: `CASES` for sessions, `LOGINS` for logins. The rows of
tests/iscsi have many more, byte for byte; here are those that they lack.
"""
import random
import struct

import scsi
from initiator import BURST, CHECK_CONDITION, GOOD, ISID, KEYS, keys_of, names_of
from pdus import (
    ASYNC, COMMAND, CONTINUES, FINAL, FULL_FEATURE, IMMEDIATE, NEXT_FULL, NEXT_OPERATIONAL, NONE, NOP_IN, NOP_OUT, NOT_SUPPORTED, NO_STAGE,
    OF_TARGET, ON, OPERATIONAL, PROTOCOL_ERROR, R2T, READS, REJECT, RESPONSE, SNACK, SNACK_REJECT, TARGET, TO_FULL, TRANSIT, WRITES, login,
    pdu, text_of, unit)

# A drive for the host that behaves, one for the others, and one for those whose connections are reset; and no unit.
OURS, THEIRS, LEFT, NOWHERE = 1, 2, 3, 9

CASES = []
GOES_ON, ENDS = "goes on", "ends"


def goes_on(case):
    CASES.append((case, GOES_ON))
    return case


def ends(case):
    CASES.append((case, ENDS))
    return case


# What a session does, and what it is owed. Each has a session of its own, which goes on after it, or is ended.

def aborted(session, tag, code, rejects=None, block=b""):
    """The command has ended without having been executed."""
    outcome = session.outcome(tag, block)
    session.check(outcome.status == CHECK_CONDITION and outcome.code == (0x0B, *code), f"{outcome} isn't ABORTED COMMAND {code}")
    if rejects is not None:
        session.check(outcome.rejects == rejects, f"rejected with {outcome.rejects} in place of {rejects}")


def nop_out_of(session, data=b""):
    """A NOP-Out that takes up no number."""
    return pdu(NOP_OUT | IMMEDIATE, FINAL, "", session.next_tag(), session.words(NONE, True), data)


@goes_on
def promises_four_gigabytes_to_a_write(session):
    tag = session.command(THEIRS, scsi.write(16), WRITES, NONE)
    _, offset, length = session.asked_for(tag)
    session.check(offset == 0 and length == BURST, "more is asked for than a burst")
    session.expect(session.manage(1, THEIRS, tag), 0)


@goes_on
def sends_data_with_a_read(session):
    outcome = session.outcome(session.command(THEIRS, scsi.INQUIRY, READS, 36, b"x" * 512))
    session.check(outcome.status == GOOD and len(outcome.data) == 36 and not outcome.residual, str(outcome))


@goes_on
def sends_no_bytes_between(session):
    tag = session.command(THEIRS, scsi.REWIND)
    session.expect(session.outcome(tag).status, GOOD)
    tag = session.command(THEIRS, scsi.write(512), WRITES, 512)
    transfer, _, _ = session.asked_for(tag)
    session.data_out(tag, 0, b"", transfer, False)
    session.data_out(tag, 0, b"y" * 512, transfer, True, 1)
    session.expect(session.outcome(tag).status, GOOD)


@goes_on
def leaves_a_gap_in_what_comes_unasked(session):
    tag = session.command(THEIRS, scsi.write(4096), WRITES, 4096, b"x" * 512, False)
    session.data_out(tag, 1024, b"x" * 512, NONE, False)
    session.data_out(tag, 1536, b"x" * 512)
    aborted(session, tag, (0x4B, 0x05))


@goes_on
def waits_with_what_comes_unasked(session):
    """After a write whose data don't come, a command waits; task management and pings are answered."""
    first = session.command(THEIRS, scsi.write(512), WRITES, 512, b"x" * 100, False)
    second = session.command(scsi.CHANGER, scsi.INQUIRY, READS, 36)
    session.send(nop_out_of(session, b"ping"))
    answer = session.receive()
    session.check(answer.opcode == NOP_IN and answer.data == b"ping", "no NOP-In")
    session.expect(session.manage(1, THEIRS, 0xABCD), 1)
    session.expect(session.manage(1, THEIRS, first), 0)
    session.check(len(session.outcome(second).data) == 36, "no INQUIRY data")


@goes_on
def has_a_waiting_command_aborted(session):
    first = session.command(THEIRS, scsi.write(512), WRITES, 512, b"x" * 512, False)
    second = session.command(THEIRS, scsi.FILEMARK)
    session.expect(session.manage(1, THEIRS, second), 0)
    session.data_out(first, 512, b"")
    session.check(session.outcome(first).status == GOOD, "the write behind which it waited isn't GOOD")
    position = session.ask(THEIRS, scsi.READ_POSITION, 20).data[4:8]
    session.check(position == b"\0\0\0\1", "the filemark was written")


@goes_on
def has_a_task_set_aborted(session):
    session.command(THEIRS, scsi.write(512), WRITES, 512, b"x" * 100, False)
    for _ in range(20):
        session.command(THEIRS, scsi.FILEMARK)
    other = session.command(scsi.CHANGER, scsi.INQUIRY, READS, 36)
    session.expect(session.manage(2, THEIRS), 0)
    session.check(len(session.outcome(other).data) == 36, "another unit's command isn't there")


@goes_on
def resets_the_unit_at_which_it_waits(session):
    session.command(THEIRS, scsi.write(512), WRITES, 512, b"x" * 100, False)
    session.command(THEIRS, scsi.FILEMARK)
    session.expect(session.manage(5, THEIRS), 0)
    outcome = session.ask(THEIRS, scsi.TEST_UNIT_READY)
    session.check(outcome.code == (6, 0x29, 0x03), f"{outcome} isn't 29h/03h")


@goes_on
def asks_at_units_that_cannot_be(session):
    others = ("0100000000000000", "4009000000000000", "8000000000000000", "ffffffffffffffff", "0000000000000001", "0002000100000000")
    for field in (unit(NOWHERE), unit(255), *others):
        outcome = session.outcome(session.command(0, scsi.TEST_UNIT_READY, field=field))
        session.check(outcome.code == (5, 0x25, 0), f"{field}: {outcome} isn't 25h/00h")
    for field in (unit(THEIRS), "4002"):
        outcome = session.outcome(session.command(0, scsi.INQUIRY, READS, 36, field=field))
        session.check(outcome.data[:1] == b"\x01", f"{field} isn't the drive")


@goes_on
def has_a_longer_cdb(session):
    extra = struct.pack(">HBB", 17, 1, 0) + bytes(16)
    outcome = session.outcome(session.command(THEIRS, b"\x7f" + bytes(15), extra=extra))
    session.check(outcome.code == (5, 0x20, 0), f"{outcome} isn't 20h/00h")


@goes_on
def sends_what_a_target_sends(session):
    for opcode in (SNACK, 0x11, 0x1C, NOP_IN, RESPONSE, R2T, ASYNC, REJECT):
        session.send(pdu(opcode | IMMEDIATE, FINAL, "", session.next_tag(), session.words(NONE, True)))
        answer = session.receive()
        is_rejected = answer.opcode == REJECT and answer.head[2] in (SNACK_REJECT, NOT_SUPPORTED, PROTOCOL_ERROR)
        session.check(is_rejected, f"opcode {opcode:02x}h isn't rejected")
        session.check(answer.data[:1] == bytes([opcode | IMMEDIATE]), "the Reject hasn't the header")


@goes_on
def logs_in_again(session):
    session.send(login(TO_FULL, names_of("iqn.2026-11.example:again") + keys_of(KEYS), session.number, cid=0, isid=ISID))
    answer = session.receive()
    session.check(answer.opcode == REJECT and answer.head[2] in (NOT_SUPPORTED, PROTOCOL_ERROR), "no Reject")


@goes_on
def takes_its_leave_for_recovery(session):
    session.expect(session.log_out(2), 2)


# And what ends a session.

@ends
def sends_a_header_that_is_too_long(session):
    made = bytearray(nop_out_of(session))
    made[4] = 0xFF
    session.send(bytes(made) + bytes(1020))


@ends
def sends_a_segment_that_is_too_long(session):
    made = bytearray(nop_out_of(session))
    made[5:8] = b"\xff\xff\xff"
    session.send(bytes(made) + bytes(100_000))


# Logins.

NAME = "iqn.2026-11.example:other-00"
ALL_KEYS = names_of(NAME) + keys_of(KEYS)


def request(flags, data, **more):
    """A Login Request as the first of its session."""
    return login(flags, data, 0, cid=0, isid=ISID, **more)


def all_at_once(keys=KEYS, target=TARGET.decode()):
    """One from operational negotiation to full feature."""
    return request(TO_FULL, names_of(NAME, target) + keys_of(keys))


LOGINS = [
    # What comes, as PDUs, and the status class and detail that are owed. `None`: the connection ends without an answer, or with any.
    ("a name that is missing", [request(TO_FULL, text_of(OF_TARGET))], {0x0207, 0x0200}),
    ("a target that is missing", [request(TO_FULL, text_of(f"InitiatorName={NAME}"))], {0x0207}),
    ("another target", [all_at_once(target="iqn.2026-11.example:no")], {0x0203}),
    ("a session of another type", [request(TO_FULL, text_of(f"InitiatorName={NAME}", "SessionType=Odd"))], {0x0209, 0x0200}),
    ("a later version", [request(TO_FULL, ALL_KEYS, least=1)], {0x0205}),
    ("a session that isn't there", [request(TO_FULL, ALL_KEYS, tsih=0x7777)], {0x020A}),
    ("stage 2", [request(TRANSIT | NO_STAGE | NEXT_FULL, ALL_KEYS)], {0x0200}),
    ("full feature from the beginning", [request(TRANSIT | FULL_FEATURE | NEXT_FULL, ALL_KEYS)], {0x0200}),
    ("a stage that is no later", [request(TRANSIT | OPERATIONAL | NEXT_OPERATIONAL, ALL_KEYS)], {0x0200}),
    ("a digest alone", [all_at_once({"HeaderDigest": "CRC32C"})], {0x0200}),
    ("a key twice", [request(TO_FULL, ALL_KEYS + text_of("MaxConnections=1"))], {0x0200}),
    ("a length of 0", [all_at_once({"MaxRecvDataSegmentLength": "0"})], {0x0200}),
    ("a length beyond 24 bits", [all_at_once({"MaxRecvDataSegmentLength": "16777216"})], {0x0200}),
    ("a length of a thousand digits", [all_at_once({"MaxRecvDataSegmentLength": "9" * 1000})], {0x0200}),
    ("another method alone", [request(ON, names_of(NAME) + text_of("AuthMethod=KRB5"))], {0x0201}),
    ("a command before its end", [request(OPERATIONAL, ALL_KEYS), pdu(COMMAND, FINAL, "", 7, ())], {0x020B}),
    ("a command in place of it", [pdu(COMMAND, FINAL, "", 7, ())], None),
    ("text of a megabyte in pieces", [request(CONTINUES | OPERATIONAL, b"k=" + b"x" * 8000)] * 130, {0x0200, 0x0302}),
    ("text without a sign", [request(TO_FULL, b"InitiatorName\0TargetName\0")], None),
    ("text without an end", [request(TO_FULL, b"x" * 8000)], None),
    ("noise", [random.Random(2).randbytes(5000)], None),
    ("nothing at all", [b""], None),
    ("half a header", [request(TO_FULL, b"")[:20]], None),
    ("a segment that never comes", [request(TO_FULL, ALL_KEYS)[:60]], None),
]
