"""How long anything is waited for, and until when all rows of a program are over."""
import math
import subprocess
import threading
import time
import typing

from compare import Wrong

# Seconds that anything may take which is waited for.
PATIENCE = 40


class Term:
    """When the time for all rows is over: never, unless a program of rows sets it."""

    end = math.inf


# The programs that go on.
RUNNING: set[subprocess.Popen] = set()


def patience() -> float:
    """How many seconds may be waited now."""
    return max(0.5, min(PATIENCE, Term.end - time.monotonic()))


def is_over() -> bool:
    """Whether the time for all rows is over."""
    return time.monotonic() >= Term.end


def end_in(seconds: float) -> None:
    """Gives all rows so many seconds. The programs that go on then are killed, so that their rows end."""
    def kill() -> None:
        for process in list(RUNNING):
            process.kill()

    Term.end = time.monotonic() + seconds
    timer = threading.Timer(seconds, kill)
    timer.daemon = True
    timer.start()


def wait_until(what: str, is_so: typing.Callable[[], bool], pause: float = 0.0002) -> None:
    """Looks again and again until it is so."""
    end = time.monotonic() + patience()
    while not is_so():
        if time.monotonic() > end:
            raise Wrong(what, "not in time", "in time")
        time.sleep(pause)
