"""What is reported as missing, or over, and data in several Data-In."""
import typing

import scsi
from pdus import (
    BUSY, CONFLICT, GROUP, MORE, NAMES, NEITHER, NONE, NOWHERE, NO_SUCH_UNIT, READS, WRITES, WRONG_AMOUNT, checked, command, data_in,
    data_out, data_with_good, good, inquiry, read, ready, response, sense_segment, text_of, wanted, write)
from scenes import INQUIRE, READ, TEST, WRITE, Scene, Table, begins, gets, sends, under
from scsi import NO_UNIT
from stage import Stage, Step

DATA = b"abcdefgh"
# NO SENSE, a block shorter than was asked for by two bytes, and BLANK CHECK, end of data, where eight were asked for.
SHORTER, SHORTER_BY_FIVE = (sense_segment(scsi.sense(0, 0, 0, length, scsi.ILI)) for length in (2, 5))
END_OF_DATA = sense_segment(scsi.sense(8, 0, 5, 8))
READ_AT_FAULT = "READ(6) 02"
BOTH_WAYS = READS | WRITES
# The next answer, by a command with CmdSN 1.
NEXT = (3, 2, 33)
# The initiator takes 512 bytes at once, and bursts have 1,024.
IN_PIECES = begins(
    NAMES + text_of(b"MaxRecvDataSegmentLength=512", b"MaxBurstLength=1024"),
    GROUP + text_of(b"MaxRecvDataSegmentLength=262144", b"MaxBurstLength=1024"))
LONG = b"d" * 1025


def tape_has(block: bytes) -> Step:
    """The host at the socket writes a block, and winds the tape back."""
    def do(stage: Stage) -> None:
        stage.does("how a block is written", scsi.write(len(block)), block)
        stage.wind_back()

    return do


def reads(shows: str, asked: bytes, *answers: bytes, did: str = READ, block: bytes = DATA, begun: list[Step] | None = None) -> Scene:
    """A read of a block that is on the tape."""
    return Scene(shows, [*(begun or begins()), tape_has(block), sends(asked), gets(*answers)], drive=[did], tape=block)


def asks(shows: str, asked: bytes, *answers: bytes, drive: typing.Sequence[str] = ()) -> Scene:
    """A command to the drive or to no unit."""
    return Scene(shows, [*begins(), sends(asked), gets(*answers)], drive=drive)


EACH_STATUS = under(
    "what is missing or over is told with each status",
    reads("all", read(2, 1, 8, 8), data_with_good(2, NEXT, DATA)),
    reads("less", read(2, 1, 8, 10), data_with_good(2, NEXT, DATA, missing=2)),
    reads("more", read(2, 1, 8, 5), data_with_good(2, NEXT, DATA[:5], over=3)),
    asks("no data", command(2, 1, "00", READS, 8), good(2, NEXT, missing=8), drive=[TEST]),
    reads("none expected", read(2, 1, 8, 0), good(2, NEXT, over=8)),
    asks("none at all", command(2, 1, "00", READS, 0), good(2, NEXT), drive=[TEST]),
    reads("the most", read(2, 1, 8, NONE), data_with_good(2, NEXT, DATA, missing=NONE - 8)),
    reads("all, checked", read(2, 1, 10, 8), data_in(2, NEXT, DATA), checked(2, NEXT, SHORTER, count=1), did=READ_AT_FAULT),
    reads("less, checked", read(2, 1, 10, 10), data_in(2, NEXT, DATA), checked(2, NEXT, SHORTER, missing=2, count=1), did=READ_AT_FAULT),
    reads("more, checked", read(2, 1, 10, 5), data_in(2, NEXT, DATA[:5]), checked(2, NEXT, SHORTER, over=3, count=1), did=READ_AT_FAULT),
    Scene("checked", [
        *begins(), tape_has(DATA), sends(read(2, 1, 8, 8), read(3, 2, 8, 8)),
        gets(data_with_good(2, NEXT, DATA), checked(3, (4, 3, 34), END_OF_DATA, missing=8))], drive=[READ, READ_AT_FAULT], tape=DATA),
    reads("none expected, checked", read(2, 1, 10, 0), checked(2, NEXT, SHORTER, over=8), did=READ_AT_FAULT),
    Scene("a write", [*begins(), sends(write(2, 1, 8, DATA)), gets(good(2, NEXT))], drive=[WRITE], tape=DATA),
    asks("a write, checked", write(2, 1, 8, DATA, lun=NOWHERE), checked(2, NEXT, NO_SUCH_UNIT)),
    # Of what is announced no more is asked for than a unit takes at most.
    Scene("a part of a write", [
        *begins(), sends(inquiry(2, 1, 255, 131060, WRITES), data_out(2, b"s" * 131053)),
        gets(wanted(2, (3, 2, 32), 131053), good(2, NEXT, missing=7))], drive=[INQUIRE]),
    Scene("a part, checked", [
        *begins(), sends(write(2, 1, 131060, lun=NOWHERE), data_out(2, b"s" * 131053)),
        gets(wanted(2, (3, 2, 32), 131053, lun=NOWHERE), checked(2, NEXT, NO_SUCH_UNIT, missing=7))]),
    Scene("nothing of a write", [
        *begins(), sends(write(2, 1, 8, DATA + b"i")), gets(checked(2, NEXT, WRONG_AMOUNT, missing=8))], tape=b""),
    asks("data of a write", inquiry(2, 1, 8, 8, BOTH_WAYS, DATA), good(2, NEXT), drive=[INQUIRE]),
    asks("neither", ready(2, 1), good(2, NEXT), drive=[TEST]),
    asks("data of neither", inquiry(2, 1, 8, 0, NEITHER), good(2, NEXT, over=8), drive=[INQUIRE]))

IN_SESSIONS = under(
    "residuals are told in sessions",
    asks("as much as is expected", inquiry(2, 1, 255, 36, lun=NOWHERE), data_with_good(2, NEXT, NO_UNIT)),
    asks("more than is expected", inquiry(2, 1, 255, 5, lun=NOWHERE), data_with_good(2, NEXT, NO_UNIT[:5], over=31)),
    asks("the most that can be expected", inquiry(2, 1, 4, NONE, lun=NOWHERE), data_with_good(2, NEXT, NO_UNIT[:4], missing=NONE - 4)),
    asks("a read that fails", command(2, 1, "00", READS, 8, lun=NOWHERE), checked(2, NEXT, NO_SUCH_UNIT, missing=8)),
    asks("a write that is GOOD", inquiry(2, 1, 255, 4, WRITES, b"abcd", NOWHERE), good(2, NEXT)))

SEGMENTS = [
    data_in(2, NEXT, b"d" * 512, end=MORE), data_in(2, NEXT, b"d" * 512, 1, 512)]

# F ends the burst, and the data.
LONG_DATA = under(
    "long data go out in segments and bursts",
    reads(
        "GOOD in the last of three", read(2, 1, 1025, 1025), *SEGMENTS, data_with_good(2, NEXT, b"d", count=2, offset=1024),
        block=LONG, begun=IN_PIECES),
    reads(
        "CHECK CONDITION behind three", read(2, 1, 1030, 1025), *SEGMENTS, data_in(2, NEXT, b"d", 2, 1024),
        checked(2, NEXT, SHORTER_BY_FIVE, count=3), did=READ_AT_FAULT, block=LONG, begun=IN_PIECES))


def reserved(stage: Stage) -> None:
    """The host at the socket reserves the drive, exclusively."""
    stage.does("how the host registers", scsi.reserve_out(0), scsi.key_list(0, 1))
    stage.does("how the drive is reserved", scsi.reserve_out(1, 3), scsi.key_list(1, 0))


CONFLICTS = under(
    "what is missing or over is told with each status",
    asks("a conflict", read(2, 1, 8, 8), response(2, NEXT, CONFLICT, missing=8), drive=["READ(6) 18"]),
    asks("a conflict at a write", write(2, 1, 8, DATA), response(2, NEXT, CONFLICT), drive=["WRITE(6) 18"]))


# For half a million filemarks, or the first block, there is no room in the memory that all volumes may take together.
NO_ROOM = ["--memory", "1M", "--volumes-larger-than-memory"]
MANY_FILEMARKS = scsi.write_filemarks(1 << 19)
BUSY_UNITS = under(
    "what is missing or over is told with each status",
    asks("a busy unit", command(2, 1, MANY_FILEMARKS, READS, 8), response(2, NEXT, BUSY, missing=8)),
    asks("a busy unit at a write", write(2, 1, 8, DATA), response(2, NEXT, BUSY)))

TABLES = [
    Table("residuals", [*EACH_STATUS, *IN_SESSIONS, *LONG_DATA]), Table("conflicts", CONFLICTS, before=reserved),
    Table("busy units", BUSY_UNITS, words=NO_ROOM)]
