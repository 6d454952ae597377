"""A portal of a library as rows try it: connections of initiators, whose answers are compared byte for byte, and a host at the socket.

In each scene that is played at a server the initiator has a name and an address of its own, so that it meets the units for the first time.
"""
import re
import socket
import typing

import scsi
from compare import same
from frames import A
from host import GOOD, Host
from initiator import Initiator
from pdus import HOST, PLAYED_BY
from scsi import DRIVE, Cdb
from server import Server
from term import wait_until


class Stage:
    """A server, the host at its socket, and the initiators at its portal."""

    def __init__(self, server: Server):
        self.server = server
        self.accepted = 0
        self.initiators: list[Initiator] = []
        self.scene = 0
        # What the last login by CHAP is to answer.
        self.challenge: typing.Any = None
        self.host = self.connect_host(A)
        self.has_left = False
        self.host.loads()

    def portals(self) -> list[tuple[str, int]]:
        """Where they are."""
        found = re.findall(r"([0-9.]+):([0-9]+)", self.server.reported.text.partition("serving at ")[2].partition("\n")[0])
        return [(address, int(port)) for address, port in found]

    def connect(self, portal: int = 0) -> Initiator:
        """One more connection, by the portal of this number, which is reached by the loopback."""
        self.initiators.append(Initiator(("127.0.0.1", self.portals()[portal][1])))
        self.one.accepted = self.accepted + 1
        self.await_accepted()
        return self.one

    def connect_host(self, sas: int) -> Host:
        """One more host at the socket."""
        host = Host(self.server, sas)
        self.await_accepted()
        return host

    def await_accepted(self) -> None:
        """Waits until one more connection is accepted, so that it has the next number."""
        self.accepted += 1
        self.server.reported.wait_for(f"vtl: session {self.accepted} begins\n")

    @property
    def one(self) -> Initiator:
        """The last that has connected."""
        return self.initiators[-1]

    def made(self, pdu: "Pdu") -> bytes:
        """A PDU as this scene's initiator says it."""
        return (pdu if isinstance(pdu, bytes) else pdu(self)).replace(PLAYED_BY, played_by(self.scene))

    def nexus(self, portal: int = 0) -> str:
        return f"{address_of(self.scene):016x}.{portal + 1}"

    def does(self, what: str, cdb: Cdb, data: bytes = b"") -> None:
        """The host at the socket sends the drive a command, which is to be GOOD."""
        same(what, self.host.answer(DRIVE, cdb, data), GOOD)

    def look_at_tape(self, block: bytes) -> None:
        """Compares what was written: a block, or nothing."""
        # What other sessions did may wait to be reported.
        self.host.insist(DRIVE, scsi.TEST_UNIT_READY)
        place = self.host.command(DRIVE, scsi.READ_POSITION).data
        self.wind_back()
        same("how many blocks are written", place[4:8].hex(), f"{int(bool(block)):08x}")
        if block:
            got = self.host.command(DRIVE, scsi.read(len(block))).data
            self.wind_back()
            same("the block on the tape", got, block)

    def wind_back(self) -> None:
        self.does("how the tape is wound back", scsi.REWIND)

    def reported_of(self, initiator: Initiator) -> str:
        """What is reported of a session, once it has ended."""
        of_it, reported = rf"vtl: session {initiator.accepted} .*", self.server.reported
        reported.comes(lambda text: re.search(f"{of_it}: ended .*\n", text))
        return "".join(re.findall(f"{of_it}\n", reported.text))

    def leave(self) -> None:
        """The host at the socket leaves, where it hasn't yet."""
        if not self.has_left:
            self.host.log_out()
        self.has_left = True

    def close(self) -> None:
        for initiator in self.initiators:
            initiator.connection.close()
        self.initiators.clear()


def played_by(scene: int) -> bytes:
    """What the initiator's name ends with in a scene."""
    return b":h%02d" % scene


def name_of(scene: int) -> str:
    return HOST.replace(PLAYED_BY, played_by(scene)).decode()


def address_of(scene: int) -> int:
    """Its SAS address."""
    return 0x5000000000000100 + scene


# What an initiator sends, and what is done in a scene.
Pdu = bytes | typing.Callable[[Stage], bytes]
Step = typing.Callable[[Stage], None]


def await_reading(connection: socket.socket) -> None:
    """Waits until the server has read all that was sent: no byte of it waits here or there."""
    here, there = (f"0100007F:{port:04X}" for port in (connection.getsockname()[1], connection.getpeername()[1]))
    wait_until("what was sent is read", lambda: is_read(here, there))


def is_read(here: str, there: str) -> bool:
    """Whether the queues for sending here, and for reading there, are empty."""
    queues = set()
    with open("/proc/net/tcp", encoding="ascii") as table:
        for line in table:
            fields = line.split()
            if fields[1:3] == [here, there]:
                queues.add(("here", fields[4].partition(":")[0]))
            elif fields[1:3] == [there, here]:
                queues.add(("there", fields[4].partition(":")[2]))
    return queues <= {("here", "00000000"), ("there", "00000000")}
