"""A library that is kept in a folder, as trials have it: its server is started over it again and again, ended or killed."""
import os
import pathlib
import subprocess
import typing

from folder import inventory_of, objects_of
from frames import A
from host import Host
from play import Tried
from scsi import CHANGER, TEST_UNIT_READY
from server import Server

DRIVES, SLOTS = 2, 8
TAGS = ["VOL00001", "VOL00002", "VOL00003"]
# An object of a tape that is no block.
MARK = None


def sas_of(number: int) -> int:
    """The address of a host."""
    return 0x5000000000000000 + number


class Library:
    """The program over a folder, with three volumes, and its server where one goes on."""

    def __init__(self, program: str, work: str, size: str):
        self.tried = Tried(program, work)
        self.folder = self.tried.path("media")
        self.size = size
        self.server: Server | None = None

    def start(self, *more: str, front: typing.Sequence[str] = ()) -> Server:
        """Starts it with more words, or after the words of another program."""
        words = ["--media", self.folder, "--drives", str(DRIVES), "--slots", str(SLOTS), "--volumes", str(len(TAGS))]
        words += ["--volume-size", self.size, "--drain", *more]
        self.server = Server(self.tried, *words, is_patient=False, output=subprocess.DEVNULL, front=front)
        return self.server.begun()

    def kill(self) -> None:
        if self.server:
            self.server.kill()

    def stop(self) -> int:
        """Ends it as a service is ended: its status."""
        self.server.end()
        return self.server.status()

    def lines(self) -> list[str]:
        """What was reported, but for the line that it serves."""
        return self.server.reported_lines()

    def image(self, tag: str) -> str:
        return os.path.join(self.folder, f"{tag}.tap")

    def objects(self, tag: str) -> list[bytes | None]:
        """What an image has, up to where it ends or was cut."""
        return objects_of(pathlib.Path(self.image(tag)).read_bytes())

    def inventory_text(self) -> str:
        return pathlib.Path(self.folder, "library.toml").read_text(encoding="utf-8")

    def inventory(self) -> dict[str, tuple[str, int]]:
        """Where each volume lies."""
        return inventory_of(self.inventory_text())


def loads(server: Server, drives: int) -> None:
    """A host moves the first volumes from storage into the drives."""
    host = Host(server, A)
    host.insist(CHANGER, TEST_UNIT_READY)
    for number in range(drives):
        host.moves(0x400 + number, 0x100 + number)
