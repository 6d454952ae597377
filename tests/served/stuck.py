"""A unit whose records nobody takes: the replies of its commands wait, and the sessions of iSCSI go on, and end when they are to."""
import contextlib
import os
import select
import typing

import scsi
from compare import Wrong, holds, lacks
from drains import MOST, Reading, unread_pipe
from exchanges import AT_ONCE, DRIVE_READY
from frames import framed, reply
from pdus import (
    ABORT_TASK, ABORT_TASK_SET, CHANGER, COMPLETE, DRIVE, GROUP, NAMES, READS, TO_FULL, UNIT_RESET, command, data_in, good, let_on, login,
    manage, managed, nop_in, nop_out, ready, response)
from play import Row, Tried
from scenes import CLOSED, begins, connects, gets, sends
from server import Server
from sockets import exactly
from stage import Stage, address_of, name_of

CID = 1
# How many commands are answered at most whose records nobody takes: as many as are being written, and as many as wait.
MOST_ANSWERED = 2 * MOST
# What READ POSITION says at the beginning of the tape.
AT_BEGINNING = b"\x80" + bytes(19)


def fill(stage: Stage) -> None:
    """The host at the socket asks the drive until no answer comes."""
    size, answered = len(framed(reply(0))), 0
    while answered <= (MOST_ANSWERED + AT_ONCE) * size:
        stage.host.sends(*[DRIVE_READY] * AT_ONCE)
        wanted = answered + AT_ONCE * size
        while answered < wanted:
            if answered > MOST * size and not select.select([stage.host.connection], [], [], 1)[0]:
                return
            answered += len(exactly(stage.host.connection, min(size, wanted - answered)))
    raise Wrong("the commands that are answered as long as nobody reads their lines", answered // size, f"at most {MOST_ANSWERED}")


def is_silent(stage: Stage) -> None:
    """The initiator has no answer."""
    if select.select([stage.one.connection], [], [], 1)[0]:
        raise Wrong("a command to a unit that is full", "is answered", "waits")


@contextlib.contextmanager
def full_drive(tried: Tried) -> typing.Iterator[tuple[Stage, int]]:
    """An initiator that has logged in, and nobody takes the records of the drive. At the end whoever has begun to read has them all."""
    with unread_pipe() as (reader, writer), Server(
            tried, "--iscsi", "127.0.0.1:0", "--host", f"{name_of(0)}={address_of(0):016x}", "--workers", "4", "--drain", "--log",
            output=writer) as server:
        os.close(writer)
        stage = Stage(server)
        stage.connect()
        for step in begins(cid=CID):
            step(stage)
        fill(stage)
        yield stage, reader


def ends(stage: Stage, reading: Reading) -> None:
    stage.close()
    stage.host.connection.close()
    stage.server.end()
    stage.server.status()
    reading.join()
    lacks("what is reported", stage.server.reported.text, "device fault")


def goes_on(tried: Tried) -> None:
    with full_drive(tried) as (stage, reader):
        for step in (
                sends(ready(2, 1)), is_silent,
                sends(nop_out(4, 2, now=True)), gets(nop_in(4, (3, 2, 32))),
                sends(ready(5, 2, CHANGER)), gets(good(5, (4, 3, 33))),
                # The data of a read wait for nothing, and its status does.
                sends(command(6, 3, scsi.READ_POSITION, READS, 20)), gets(data_in(6, (4, 33), AT_BEGINNING)), is_silent,
                sends(manage(ABORT_TASK, 4, of=2)), gets(managed(COMPLETE, (5, 4, 34)))):
            step(stage)
        reading = Reading(reader)
        gets(response(6, (6, 4, 35), 0, count=1))(stage)
        sends(ready(7, 4))(stage)
        gets(good(7, (7, 5, 36)))(stage)
        ends(stage, reading)


def is_reset(tried: Tried) -> None:
    with full_drive(tried) as (stage, reader):
        for step in (
                sends(ready(2, 1)), is_silent,
                sends(manage(UNIT_RESET, 2)), gets(managed(COMPLETE, (3, 2, 33)))):
            step(stage)
        ends(stage, Reading(reader))


def is_bounded(tried: Tried) -> None:
    """Each time the initiator asks as often as it may, and aborts that."""
    with full_drive(tried) as (stage, reader):
        first = 1
        for stat in (3, 4, 5):
            sends(*(ready(first + more, first + more) for more in range(32)), manage(ABORT_TASK_SET, first + 32))(stage)
            gets(managed(COMPLETE, (stat, first + 32, first + 63)))(stage)
            first += 32
        for step in (sends(ready(2, first), manage(ABORT_TASK_SET, first + 1)), is_silent):
            step(stage)
        ends(stage, Reading(reader))


def is_followed(tried: Tried) -> None:
    """The initiator comes again while its command waits."""
    with full_drive(tried) as (stage, reader):
        first = stage.one
        for step in (
                sends(ready(2, 1)), is_silent, connects,
                sends(login(TO_FULL, NAMES, cid=CID)), gets(let_on(TO_FULL, GROUP)),
                sends(ready(3, 1, DRIVE, now=True)), is_silent):
            step(stage)
        first.is_left()
        holds("what is reported", stage.reported_of(first), CLOSED)
        ends(stage, Reading(reader))


ROWS = [
    Row("goes-on", "a unit whose records nobody takes holds the replies of its commands, and not their session", goes_on),
    Row("is-reset", "such a unit is reset at once", is_reset),
    Row("is-bounded", "replies that are dropped make no room for more records", is_bounded),
    Row("is-followed", "a session whose command waits for a reader of the records ends for one that takes its place", is_followed)]
