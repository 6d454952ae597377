"""What is reported of sockets that can't be made, of portals that can't be served at, and of secrets that aren't taken."""
import os
import pathlib
import socket
import typing

from compare import holds, lacks, same, same_lines
from frames import A
from play import Row, Tried
from server import Server, refused


def there(tried: Tried) -> None:
    path = tried.path("there")
    with socket.socket(socket.AF_UNIX, socket.SOCK_STREAM) as listener:
        listener.bind(path)
        listener.listen()
        got = refused(tried, "--socket", path, "--sessions", "1")
        same("the status and what is reported", got, (4, f"vtl: device fault\nvtl: cannot listen on {path}: it is there already\n"))
        same("whether the socket is left", os.path.exists(path), True)


def nowhere(tried: Tried) -> None:
    got = refused(tried, "--socket", "/nowhere/at/all", "--sessions", "1")
    same("the status and what is reported", got, (4, "vtl: device fault\nvtl: cannot listen on /nowhere/at/all\n"))


def left(tried: Tried) -> None:
    path = tried.path("socket")
    # It never listens: a process that another row starts has this socket too until it becomes its program.
    with socket.socket(socket.AF_UNIX, socket.SOCK_STREAM) as left_over:
        left_over.bind(path)
    with Server(tried, "--sessions", "1") as server:
        server.connect().close()
        server.ends()
        wanted = f"vtl: removed {path}: nobody listened there\nvtl: serving at {path}: 2 units, 1 worker\n"
        same("what is reported", server.reported.text, wanted)
    same("whether the file is there at the end", os.path.exists(path), False)


def taken(tried: Tried) -> None:
    with socket.socket() as listener:
        listener.bind(("127.0.0.1", 0))
        listener.listen()
        address = "{}:{}".format(*listener.getsockname())
        got = refused(tried, "--iscsi", address, "--any-host", "--workers", "1")
        wanted = f"vtl: device fault\nvtl: cannot listen on {address}: another program listens there already\n"
        same("the status and what is reported", got, (4, wanted))


class Secrets(typing.NamedTuple):
    """What it shows, a file's mode and text, and what is reported after its path."""

    shows: str
    mode: int
    text: str
    words: str


SECRETS = {
    "open-secrets": Secrets(
        "a file of secrets that others may read isn't taken", 0o640, "# nothing", " must be readable by its owner only (chmod 600 "),
    "short-secret": Secrets(
        "a secret that is too short isn't taken, and isn't told", 0o600, "iqn.2026-11.a:b user short",
        ", line 1: a secret has 12 to 128 bytes"),
    "no-secret": Secrets("a line without a secret isn't taken", 0o600, "# a host\niqn.2026-11.a:b user", ", line 2: give NAME USER SECRET"),
    "comment-for-a-secret": Secrets(
        "a line with a comment in the place of a secret isn't taken", 0o600, "# none\n\niqn.a user # a-secret-of-16-b",
        ", line 3: give NAME USER SECRET"),
    "no-secret-of-the-target": Secrets(
        "a line without the target's secret isn't taken", 0o600, "# none\n\niqn.a user a-secret-of-16-b target",
        ", line 3: give NAME USER SECRET"),
    "a-word-more": Secrets(
        "a line with a word more isn't taken", 0o600, "# none\n\niqn.a user a-secret-of-16-b target the-targets-secret more",
        ", line 3: give NAME USER SECRET"),
    "eleven-bytes": Secrets(
        "a secret of eleven bytes is too short", 0o600, "# none\n\niqn.a user eleven-byte", ", line 3: a secret has 12 to 128 bytes"),
    "no-name": Secrets(
        "a line without an iSCSI name isn't taken", 0o600, "# none\n\niqn.a user a-secret-of-16-b", ", line 3: NAME is not an iSCSI name"),
    "shared-secret": Secrets(
        "a secret of both directions isn't taken, and isn't told", 0o600,
        "iqn.2026-11.a:b user a-secret-of-16-b target a-secret-of-16-b", ", line 1: the target has the host's secret"),
    "short-secret-of-the-target": Secrets(
        "nor is a short one of the target taken", 0o600, "# none\n\niqn.a user a-secret-of-16-b target short",
        ", line 3: a secret has 12 to 128 bytes"),
    "secret-of-another-host": Secrets(
        "nor a secret of the target that another line's host has", 0o600,
        "iqn.2026-11.a:b user a-secret-of-16-b\n# another\niqn.2026-11.a:c user eleven-byte-and-more target a-secret-of-16-b",
        ", line 3: the target has the secret of the host in line 1: give it another"),
    "secret-of-the-target-before": Secrets(
        "nor a host's that the target has by a line before", 0o600,
        "iqn.2026-11.a:c user eleven-byte-and-more target a-secret-of-16-b\niqn.2026-11.a:b user a-secret-of-16-b",
        ", line 2: the host has the secret of the target in line 1: give it another"),
    "secret-of-the-hosts-other-user": Secrets(
        "nor one that the same host has by another line", 0o600,
        "iqn.2026-11.a:b user a-secret-of-16-b\niqn.2026-11.a:b both eleven-byte-and-more target a-secret-of-16-b",
        ", line 2: the target has the secret of the host in line 1: give it another"),
}
# What no line reports.
SECRET = ["short", "a-secret-of-16-b", "the-targets-secret", "eleven-byte"]


def secrets(of: Secrets) -> typing.Callable[[Tried], None]:
    def play(tried: Tried) -> None:
        path = pathlib.Path(tried.path("secrets"))
        path.write_text(of.text, encoding="utf-8")
        path.chmod(of.mode)
        status, text = refused(tried, "--iscsi", "127.0.0.1:0", "--any-host", "--chap", str(path), "--workers", "1")
        same(f"the status after {text!r}", status, 2)
        holds("what is reported", text, of.words)
        holds("what is reported", text, str(path))
        for word in SECRET:
            lacks("what is reported", text, word)

    return play


SCRIPT = "0 000000000000\n0 000000000000\n"
REPLIES = "02 700006000000000a00000000290000000000 -\n00 - -\n"
LINES = """\
1 500000000000000a.1 TEST-UNIT-READY 2 - - 02
2 500000000000000a.1 TEST-UNIT-READY 6 TEST-UNIT-READY/NONE/OTHER - 00
3 500000000000000a.1 LOSS 6 - - 00
"""


def converse(tried: Tried) -> None:
    with Server(tried, "--sessions", "1") as server:
        same("the replies, and how the host ends", server.client(SCRIPT, A), (0, REPLIES, ""))
        server.ends()
        same_lines(server.lines(), LINES)


ROWS = [
    Row("there", "a socket at which somebody listens is left as it is", there),
    Row("nowhere", "a socket can't be made where there is no folder", nowhere),
    Row("left", "a socket's file at which nobody listens is taken away, and at the end there is none", left),
    Row("taken", "a portal can't be served at where somebody listens already", taken),
    *(Row(name, of.shows, secrets(of)) for name, of in SECRETS.items()),
    Row("converse", "a host by `vtl client` has the replies of a served library", converse),
]
