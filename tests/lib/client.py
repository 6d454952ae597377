"""The program as a client whose script goes to a socket of the row's own, at which a library of the row's own answers."""
import os
import socket
import threading
import typing

from compare import Wrong
from play import Tried
from program import Ended, run
from term import patience

# A library to its one connection gives what it found.
Talk = typing.Callable[[socket.socket], typing.Any]
# Runs a program by these words and this input.
Run = typing.Callable[[list[str], str], Ended]
CLIENT = ["client", "--sas", "500000000000000a", "--port", "1"]


def answering(replies: dict[int, bytes], frames: list[bytes]) -> Talk:
    """A library (docs/PROTOCOL.md) that keeps the bodies of the frames that come, and answers each by its kind."""
    def talk(stream: socket.socket) -> None:
        with stream.makefile("rwb") as file:
            while head := file.read(4):
                frames.append(file.read(int.from_bytes(head, "big")))
                reply = replies.get(frames[-1][0], b"")
                file.write(len(reply).to_bytes(4, "big") + reply)
                file.flush()

    return talk


def run_at(tried: Tried, words: list[str], script: str, talk: Talk, run_it: Run = run) -> tuple[Ended, typing.Any]:
    """How the program ends as a client, and what its library finds."""
    found: list[typing.Any] = []

    def serve() -> None:
        with listener.accept()[0] as stream:
            stream.settimeout(patience())
            try:
                found.append(talk(stream))
            except (OSError, Wrong) as fault:
                found.append(f"a library whose client does otherwise: {fault}")

    with socket.socket(socket.AF_UNIX) as listener, socket.socket(socket.AF_UNIX) as last:
        path = tried.path("here")
        listener.bind(path)
        try:
            listener.listen()
            server = threading.Thread(target=serve, daemon=True)
            server.start()
            ended = run_it([tried.program, *words, "--socket", path], script)
            # Where the client made no connection, this one is taken, and ends.
            last.connect(path)
            last.close()
            server.join(patience())
        finally:
            os.remove(path)
    return ended, found[0] if found else "a library that goes on"


def run_client(tried: Tried, words: list[str], script: str, replies: dict[int, bytes]) -> tuple[Ended, list[bytes]]:
    """How the program ends as a client of a library with these replies, and the frames that came there."""
    frames: list[bytes] = []
    ended, _ = run_at(tried, words, script, answering(replies, frames))
    return ended, frames
