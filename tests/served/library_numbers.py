"""The number of a library for hosts that is in no folder."""
import typing

from compare import same
from frames import A
from host import Host, good
from play import Row, Tried
from program import run
from scsi import CHANGER, DRIVE
from server import Server

# INQUIRY for the unit serial number (SPC-4, "Unit Serial Number VPD page").
SERIAL_NUMBER = "12018000ff00"
KINDS = {CHANGER: b"\x08", DRIVE: b"\x01"}


def served(*words: str, number: str) -> typing.Callable[[Tried], None]:
    """A library for hosts, the serial numbers of whose units begin with its number."""
    def play(tried: Tried) -> None:
        with Server(tried, "--profile", "hosts", *words) as server:
            host = Host(server)
            for lun, kind in KINDS.items():
                host.meets(lun)
                host.asks(lun, SERIAL_NUMBER, good(kind + b"\x80\0\x0a" + f"{number}{lun:02}".encode()))
            server.end()
            server.ends()

    return play


def replayed(tried: Tried) -> None:
    """The number of a library that a script runs through is 0."""
    script = f"{A:016x}.1 1 {SERIAL_NUMBER}\n"
    wanted = f"00 - 0180000a{b'0000000001'.hex()}\n"
    same("the end, what is printed and what is reported", run([tried.program, "replay", "--profile", "hosts"], script), (0, wanted, ""))


# Numbers are the first 32 bits of the SHA-256 of the target's name, as sha256sum has it.
ROWS = [
    Row("number-of-the-usual-name", "a library has the number of the usual name of a target", served(number="C32FF006")),
    Row(
        "number-of-another-name", "a library has the number of its target's name",
        served("--iscsi", "127.0.0.1:0", "--any-host", "--target-name", "iqn.2026-11.example:tapes", number="99E02835")),
    Row("number-given", "a library has the number that is given", served("--library-id", "1a2b3c4d", number="1A2B3C4D")),
    Row("number-replayed", "a script runs through a library with the number 0", replayed),
]
