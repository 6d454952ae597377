"""Calls of the program that fail for files of certain names, while a row wants them to (`failing_calls.c`)."""
import atexit
import errno
import os
import pathlib
import shutil
import subprocess
import tempfile
import threading

from compare import Wrong, same
from play import Tried
from term import wait_until

SOURCE = pathlib.Path(__file__).with_suffix(".c")


class Built:
    """The library that is loaded before the program, built once for all rows."""

    lock = threading.Lock()
    path: pathlib.Path | None = None

    @classmethod
    def library(cls) -> pathlib.Path:
        with cls.lock:
            if cls.path is None:
                cls.path = built()
            return cls.path


def built() -> pathlib.Path:
    compiler = next(filter(None, map(shutil.which, ("cc", "gcc", "clang"))), None)
    if compiler is None:
        raise Wrong("a C compiler, by which calls of the program fail", "neither cc nor gcc nor clang", "one of them")
    folder = tempfile.TemporaryDirectory(prefix="vtl-failing-calls-")  # pylint: disable=consider-using-with
    atexit.register(folder.cleanup)
    library = pathlib.Path(folder.name, "failing_calls.so")
    compiled = subprocess.run(
        [compiler, "-shared", "-fPIC", "-O2", "-o", library, SOURCE], stdout=subprocess.PIPE, stderr=subprocess.STDOUT, text=True, check=False)
    same(f"the status of {compiler}, which says {compiled.stdout!r}", compiled.returncode, 0)
    return library


class FailingCalls:
    """What fails in the programs of a row that have this environment. Nothing does at first.

        calls = FailingCalls(tried)
        with Server(tried, .., environment=calls.environment):
            calls.fail("fdatasync", "/VOL00001.tap", errno.EIO)
            ..
            calls.mend()
    """

    def __init__(self, tried: Tried):
        self.rules = pathlib.Path(tried.path("failing_calls"))
        self.noted = pathlib.Path(tried.path("failing_calls.failed"))
        self.lines: list[str] = []
        self.write()
        self.environment = {"LD_PRELOAD": str(Built.library()), "FAILING_CALLS": str(self.rules)}

    def write(self) -> None:
        """Replaces the rules at one go, since the program may read them meanwhile."""
        new = self.rules.with_suffix(".new")
        new.write_text("".join(f"{line}\n" for line in self.lines), encoding="utf-8")
        os.replace(new, self.rules)

    def fail(self, call: str, suffix: str, error: int = errno.EIO, first: int = 1, last: int = 0) -> None:
        """From now on this call fails for files whose paths end so, from the first such call up to the last, or without an end."""
        self.lines.append(f"{call} {suffix} {error} {first} {last}")
        self.write()

    def mend(self) -> None:
        """From now on no call fails."""
        self.lines.clear()
        self.write()

    def failed(self) -> list[str]:
        """The calls that have failed: each by its name and its path."""
        return self.noted.read_text(encoding="utf-8").splitlines() if self.noted.exists() else []

    def await_failed(self, call: str, suffix: str) -> None:
        """Waits until such a call has failed."""
        wait_until(f"a failed {call} of {suffix}", lambda: any(line.startswith(f"{call} ") and line.endswith(suffix) for line in self.failed()))
