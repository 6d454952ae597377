"""The program: where the proved one is, and runs of it that end by themselves."""
import os
import subprocess
import typing

from compare import Wrong
from term import patience

TOP = os.path.dirname(os.path.dirname(os.path.dirname(os.path.abspath(__file__))))
# The script that builds the program, and runs it.
VTL = os.path.join(TOP, "vtl")
# How a program ends: its status, what it prints and what it reports.
Ended = tuple[int, str, str]


def built(given: str | None = None) -> str:
    """The program that is named, or else the proved one, which is built where it isn't yet."""
    if given:
        return os.path.abspath(given)
    return subprocess.run([VTL, "build"], stdout=subprocess.PIPE, text=True, check=True).stdout.split()[-1]


def run(command: typing.Sequence[str], given: str = "", **how: typing.Any) -> Ended:
    """How a program ends by these words and this input."""
    try:
        ended = subprocess.run(command, input=given.encode(), capture_output=True, timeout=patience(), check=False, **how)
    except subprocess.TimeoutExpired:
        raise Wrong("the end", "none", "one") from None
    return ended.returncode, ended.stdout.decode(), ended.stderr.decode()


def child_of(parent: int, program: str) -> int:
    """The process of the program below a script that runs it."""
    for name in filter(str.isdigit, os.listdir("/proc")):
        try:
            with open(f"/proc/{name}/stat", encoding="utf-8", errors="replace") as stat:
                above = int(stat.read().rpartition(")")[2].split()[1])
            if above == parent and os.path.samefile(f"/proc/{name}/exe", program):
                return int(name)
        except OSError:
            pass  # it ended between two looks, or is another's
    raise AssertionError("the script runs no program")


def memory_of(process: int, which: str = "VmRSS:") -> int:
    """A process's memory in KiB."""
    with open(f"/proc/{process}/status", encoding="utf-8") as status:
        return next(int(line.split()[1]) for line in status if line.startswith(which))
