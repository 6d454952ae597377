"""The program as it serves: `vtl serve` as a process, what it prints and reports, and connections to it."""
import os
import pathlib
import re
import resource
import socket
import subprocess
import threading
import time
import typing

import sockets
from compare import Wrong, holds, lacks, same
from play import Tried
from program import run
from term import RUNNING, patience

# What the program waits for its hosts where a row says nothing else: for ever. A server that is asked to end does so at once.
PATIENT = {"--login-timeout": 0, "--idle-timeout": 0, "--write-timeout": 0, "--idle-ping": 0, "--grace": 0}
SERVING = "vtl: serving at "
# What says of portals' records whether they are kept.
KEEP_OR_NOT = {"--drain", "--spans", "--sessions", "--records"}
UNLIMITED = resource.RLIM_INFINITY


class Reported:
    """The lines of standard error, as they come."""

    def __init__(self, stream: typing.BinaryIO):
        self.text = ""
        self.is_over = False
        self.changed = threading.Condition()
        self.reader = threading.Thread(target=self.read, args=(stream,), daemon=True)
        self.reader.start()

    def read(self, stream: typing.BinaryIO) -> None:
        with stream:
            for line in stream:
                with self.changed:
                    self.text += line.decode(errors="replace")
                    self.changed.notify_all()
        with self.changed:
            self.is_over = True
            self.changed.notify_all()

    def comes(self, is_there: typing.Callable[[str], object]) -> bool:
        """Waits until what was reported up to then is so, or nothing more comes: whether it is so."""
        with self.changed:
            self.changed.wait_for(lambda: is_there(self.text) or self.is_over, patience())
            return bool(is_there(self.text))

    def wait_for(self, words: str) -> None:
        """Waits until these are reported."""
        if not self.comes(lambda text: words in text):
            holds("what is reported", self.text, words)


class Server:
    """The program that serves, at a socket unless it is only at portals, and waits for its hosts for ever, or as is usual, but for the
    times that are given. Its lines go to a file, which may grow to so many bytes, or to where `output` says. With portals it keeps its
    records to the end too, where nothing else is said. It may run after the words of another program, and with more in its environment."""

    def __init__(
            self, tried: Tried, *words: str, output: int | None = None, room: int | None = None, has_socket: bool = True,
            is_patient: bool = True, keeps: bool = True, front: typing.Sequence[str] = (), environment: dict[str, str] | None = None,
            **times: int):
        self.path = tried.path("socket")
        self.lines_path = tried.path("lines")
        options = (PATIENT if is_patient else {}) | {f"--{name.replace('_', '-')}": seconds for name, seconds in times.items()}
        waits = [str(word) for option in options.items() for word in option]
        place = ["--socket", self.path] if has_socket else []
        # With portals it would hand them out otherwise.
        kept = ["--keep-records"] if keeps and "--iscsi" in words and not KEEP_OR_NOT & set(words) else []
        command = [*front, tried.program, "serve", *place, *words, *kept, *waits]
        self.program, self.room = tried.program, room
        with open(self.lines_path, "wb") as lines:
            # The signal for a file that may grow no further would end it, unless it is ignored, as Python does.
            self.process = subprocess.Popen(
                command, stdin=subprocess.PIPE, stdout=lines if output is None else output, stderr=subprocess.PIPE,
                restore_signals=room is None, env={**os.environ, **environment} if environment else None)
        RUNNING.add(self.process)
        self.reported = Reported(self.process.stderr)
        self.connections: list[socket.socket] = []

    def begun(self) -> typing.Self:
        """The server, once it serves."""
        try:
            self.reported.wait_for(SERVING)
            if self.room is not None:
                self.limit_lines(self.room)
        except (Wrong, OSError):
            self.kill()
            raise
        return self

    def __enter__(self) -> typing.Self:
        return self.begun()

    def __exit__(self, *_) -> None:
        for connection in self.connections:
            connection.close()
        self.kill()

    def kill(self) -> None:
        """Ends it at once, where it hasn't ended."""
        self.process.kill()
        self.process.stdin.close()
        self.process.wait()
        RUNNING.discard(self.process)
        self.reported.reader.join()

    def connect(self) -> socket.socket:
        connection = sockets.connected(self.path, patience())
        self.connections.append(connection)
        return connection

    def portal(self, address: str = "127.0.0.1") -> tuple[str, int]:
        """Where its portal of this address is."""
        return address.strip("[]"), int(re.search(re.escape(address) + ":([0-9]+)", self.reported.text.partition(SERVING)[2])[1])

    def client(self, script: str, sas: int) -> tuple[int, str, str]:
        """The program as a host that sends a script by target port 1: its status, its replies, and what it reports."""
        return run([self.program, "client", "--socket", self.path, "--sas", f"{sas:016x}", "--port", "1"], script)

    def end(self) -> None:
        """Asks it to end."""
        self.process.stdin.close()

    def reported_lines(self) -> list[str]:
        """What it reports, but for the line that it serves."""
        return [line for line in self.reported.text.splitlines() if not line.startswith(SERVING)]

    def lines(self) -> str:
        return pathlib.Path(self.lines_path).read_text(encoding="utf-8")

    def await_lines(self, is_enough: typing.Callable[[str], bool]) -> None:
        """Waits until the lines that are written are enough."""
        end = time.monotonic() + patience()
        while not is_enough(self.lines()):
            if time.monotonic() > end or self.process.poll() is not None:
                raise Wrong("the lines that come while it serves", self.lines(), "more of them")
            time.sleep(0.005)

    def limit_lines(self, size: int = UNLIMITED) -> None:
        """From now on its files may grow to so many bytes: a write takes what is left up to there, and fails beyond."""
        resource.prlimit(self.process.pid, resource.RLIMIT_FSIZE, (size, UNLIMITED))

    def limit_descriptors(self, count: int) -> int:
        """From now on it may open no descriptor from this number on. Gives the limit that there was, which may be set again."""
        limit, most = resource.prlimit(self.process.pid, resource.RLIMIT_NOFILE)
        resource.prlimit(self.process.pid, resource.RLIMIT_NOFILE, (count, most))
        return limit

    def status(self) -> int:
        """How it ends."""
        try:
            status = self.process.wait(patience())
        except subprocess.TimeoutExpired:
            raise Wrong("the end", "none", "one") from None
        self.reported.reader.join()
        return status

    def ends(self, fault: str | None = None) -> None:
        """Compares how it ends: well, or by a fault, which is reported in these words."""
        status, text = self.status(), self.reported.text
        if fault is None:
            same(f"the status after {text!r}", status, 0)
            lacks("what is reported", text, "device fault")
        else:
            holds("what is reported at the end", text, f"vtl: device fault\nvtl: {fault}\n")
            same("the status", status, 4)


def refused(tried: Tried, *words: str, environment: dict[str, str] | None = None) -> tuple[int, str]:
    """The status and the lines of standard error of a server that doesn't begin, with more in its environment if that is given."""
    status, printed, reported = run([tried.program, "serve", *words], env={**os.environ, **environment} if environment else None)
    same("what is printed", printed, "")
    return status, reported


def secret_words(tried: Tried, text: str) -> list[str]:
    """The words by which hosts have to prove themselves, by a file of secrets with this text."""
    path = pathlib.Path(tried.path("secrets"))
    path.touch(0o600)
    path.write_text(text, encoding="utf-8")
    return ["--chap", str(path)]
