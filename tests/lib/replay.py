"""The program as it replays a script: lines of commands, and the lines of their replies."""
import typing

import scsi
from compare import same
from play import Tried
from program import run
from scsi import Cdb


def command_line(nexus: str, lun: int, cdb: Cdb, data: bytes = b"") -> str:
    """A command of a nexus."""
    return f"{nexus} {lun} {scsi.bytes_of(cdb).hex()}" + (f" {data.hex()}" if data else "")


def reply_line(status: int, sense: bytes = b"", data: bytes = b"") -> str:
    return f"{status:02x} {sense.hex() or '-'} {data.hex() or '-'}"


def check_line(
        key: int, asc: int, ascq: int = 0, information: int | None = None, flags: int = 0, data: bytes = b"") -> str:
    """CHECK CONDITION with sense data of the fixed format."""
    return reply_line(2, scsi.sense(key, asc, ascq, information, flags), data)


def replies(tried: Tried, options: typing.Sequence[str], lines: typing.Sequence[str]) -> list[str]:
    """The lines of the replies, one for each line of a script."""
    status, printed, reported = run([tried.program, "replay", *options], "".join(f"{line}\n" for line in lines))
    found = printed.splitlines()
    same(f"the status and how many replies there are, after {reported.strip()!r}", (status, len(found)), (0, len(lines)))
    return found


def same_replies(tried: Tried, options: typing.Sequence[str], lines: typing.Sequence[tuple[str, str]]) -> None:
    """Compares the reply to each line with the one that is wanted."""
    found = replies(tried, options, [line for line, _ in lines])
    for number, ((line, wanted), reply) in enumerate(zip(lines, found), 1):
        same(f"the reply to line {number}, {line[:150]}", reply, wanted)
