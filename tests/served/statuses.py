"""`vtl status`, and the control socket of a server. docs/OPERATING.md has them, "See how a server stands"."""
import contextlib
import json
import os
import pathlib
import re
import socket
import stat
import subprocess
import time
import typing

import scsi
from compare import Wrong, holds, lacks, same, same_lines
from folder import Folder, block
from host import FIRST_STORAGE, Host
from play import Row, Tried
from program import run
from scsi import CHANGER, DRIVE
from server import Server, refused
from term import patience

SMALL = ["--drives", "1", "--slots", "2", "--portals", "1", "--volumes", "1"]
SAS, KEY = 0x500000000000000A, 0x1122334455667788
NEXUS = f"{SAS:016x}.1"
# What a unit has that nobody has asked for anything.
UNTOUCHED: dict[str, typing.Any] = {
    "slots": {"used": 0, "of": 128}, "records": {"last": 0, "waiting": 0}, "removal_prevented": False, "generation": 0, "reservation": None,
    "registrations": []}


def element(address: int, of_type: str, volume: str | None = None) -> dict[str, typing.Any]:
    return {"address": address, "type": of_type, "volume": volume}


def changer(*volumes: str | None, **state: typing.Any) -> dict[str, typing.Any]:
    """The changer of a small library, with the volumes of its drive, its import/export element and its two storage elements."""
    drive, portal, first, second = volumes
    elements = [
        element(0x100, "data transfer", drive), element(0x200, "import/export", portal), element(0x400, "storage", first),
        element(0x401, "storage", second)]
    return {"lun": 0, "kind": "changer", **UNTOUCHED, **state, "elements": elements}


def drive(volume: dict[str, typing.Any] | None, **state: typing.Any) -> dict[str, typing.Any]:
    return {"lun": 1, "kind": "drive", **UNTOUCHED, **state, "volume": volume}


def line_of(*units: dict[str, typing.Any]) -> str:
    """The line of JSON of a library with these units, without its sessions and its server."""
    return json.dumps({"version": 1, "profile": "spec", "units": units}, separators=(",", ":")) + "\n"


def without_sessions(line: str) -> str:
    """A line of JSON without the sessions that go on, which have a time, and without the server, whose memory isn't known. All is written."""
    units, _, rest = line.rpartition(',"sessions":')
    told_last = json.loads('{"sessions":' + rest)
    same("what is told last", (list(told_last), line[-2:]), (["sessions", "memory", "failing"], "}\n"))
    same("what can't be written", told_last["failing"], {"volumes": [], "inventory": False})
    return units + "}\n"


def without_memory(picture: str) -> str:
    """A picture without the line of the server's memory."""
    rest, count = re.subn(r"^(Library, profile [a-z]+)\n  memory [0-9]+\.[0-9] MiB\n", r"\1\n", picture)
    same("how many lines of memory there are", count, 1)
    return rest


def without_drawn_sessions(picture: str) -> str:
    return re.sub(r"\n\nSession .*", "\n", without_memory(picture), flags=re.DOTALL)


def at_power_on() -> str:
    return line_of(changer(None, None, "VOL00001", None), drive(None))


def status(tried: Tried, path: str, *words: str) -> tuple[int, str, str]:
    return run([tried.program, "status", "--control", path, *words])


def says(tried: Tried, path: str, wanted: str) -> None:
    ended, printed, reported = status(tried, path, "--json")
    same("the status, and what is reported", (ended, reported), (0, ""))
    same("the status of the library", without_sessions(printed), wanted)


def reserves_with_tape(host: Host) -> None:
    """Brings a tape into the drive, writes two blocks and a filemark, registers a key, and reserves the drive."""
    host.loads()
    host.writes(b"one", b"three")
    host.asks(DRIVE, scsi.write_filemarks(1))
    host.asks(DRIVE, scsi.reserve_out(0), data=scsi.key_list(0, KEY))
    host.asks(DRIVE, scsi.reserve_out(1, 3), data=scsi.key_list(KEY, 0))


def told(tried: Tried) -> None:
    """Before any command, and after some: each number is that of the commands that were sent."""
    path = tried.path("control")
    with Server(tried, *SMALL, "--control", path) as server:
        says(tried, path, at_power_on())
        host = Host(server, sas=SAS)
        reserves_with_tape(host)
        used = {"used": 1, "of": 128}
        moved = changer("VOL00001", None, None, None, slots=used, records={"last": 2, "waiting": 2})
        volume = {"tag": "VOL00001", "protected": False, "position": 3, "objects": 3, "bytes": 8}
        held = {"type": "EA", "holder": NEXUS}
        registered = [{"nexus": NEXUS, "key": f"{KEY:016x}"}]
        # The volume that came in, the notification, two blocks, a filemark, REGISTER and RESERVE.
        records = {"last": 7, "waiting": 7}
        written = drive(volume, slots=used, records=records, generation=1, reservation=held, registrations=registered)
        says(tried, path, line_of(moved, written))
        # To be told has changed nothing.
        says(tried, path, line_of(moved, written))
        host.asks(DRIVE, scsi.six(0x01))
        holds("the status of the library", status(tried, path, "--json")[1], '"position":0,"objects":3,"bytes":8}')
        same("the mode of the control socket", stat.S_IMODE(os.lstat(path).st_mode), 0o600)
        same("what else is there", sorted(name for name in os.listdir(tried.folder) if name.startswith("control")), ["control"])
        host.connection.close()
        server.end()
        server.ends()
    same("the control socket after the end", os.path.lexists(path), False)


def sessions_of(tried: Tried, path: str) -> list[dict[str, typing.Any]]:
    return json.loads(status(tried, path, "--json")[1])["sessions"]


def sessions_told(tried: Tried) -> None:
    """Each session that goes on, with its host, its commands, and the bytes that came and went; and none that has ended."""
    path = tried.path("control")
    with Server(tried, *SMALL, "--control", path) as server:
        same("without a session", sessions_of(tried, path), [])
        host = Host(server, sas=SAS)
        [first] = sessions_of(tried, path)
        same("its host", (first["number"], first["nexus"], first["name"], first["address"]), (1, NEXUS, None, None))
        same("whether its start is a time", re.fullmatch(r"\d{4}-\d\d-\d\dT\d\d:\d\d:\d\d(\.\d+)?Z", first["start"]) is not None, True)
        host.loads()
        host.writes(bytes(1000))
        [later] = sessions_of(tried, path)
        same("what stays", {**later, "commands": 0, "received": 0, "sent": 0}, {**first, "commands": 0, "received": 0, "sent": 0})
        same("whether what was written is counted", later["received"] >= first["received"] + 1000, True)
        same("whether commands and answers are", (later["commands"] > first["commands"], later["sent"] > first["sent"]), (True, True))
        holds("the picture", status(tried, path)[1], f"""

Session 1, {NEXUS}
  since {first["start"]}
  commands {later["commands"]}
  bytes received {later["received"]}, sent {later["sent"]}
""")
        second = Host(server, sas=SAS + 1)
        second.meets(CHANGER)
        same("two", [session["nexus"] for session in sessions_of(tried, path)], [NEXUS, f"{SAS + 1:016x}.1"])
        host.connection.close()
        second.connection.close()
        for _ in range(100):
            if not sessions_of(tried, path):
                break
            time.sleep(0.1)
        same("after their end", sessions_of(tried, path), [])


def memory_told(tried: Tried) -> None:
    """The status has what the system says: in bytes, and in the picture rounded down."""
    path = tried.path("control")
    with Server(tried, *SMALL, "--control", path) as server:
        memory = json.loads(status(tried, path, "--json")[1])["memory"]
        proc = pathlib.Path(f"/proc/{server.process.pid}/status").read_text(encoding="utf-8")
        most = int(re.search(r"VmHWM:\s+([0-9]+) kB", proc)[1]) * 1024
        # The system counts pages of several threads now and then only.
        same("whether it is in pages, and about what there was at most", (memory % 4096, most / 2 < memory < most + (1 << 20)), (0, True))
        shown = re.search(r"\n  memory ([0-9]+\.[0-9]) MiB\n", status(tried, path)[1])
        low, high = sorted((memory, json.loads(status(tried, path, "--json")[1])["memory"]))
        same("whether the picture has about the same", low - (1 << 20) < float(shown[1]) * (1 << 20) < high + (1 << 20), True)


def await_failing(tried: Tried, path: str, volumes: list[str], inventory: bool) -> str:
    """Waits until the status says that these can't be written, and gives the picture."""
    wanted, failing = {"volumes": volumes, "inventory": inventory}, None
    for _ in range(100):
        failing = json.loads(status(tried, path, "--json")[1])["failing"]
        if failing == wanted:
            break
        time.sleep(0.1)
    same("what can't be written", failing, wanted)
    return status(tried, path)[1]


def failing_told(tried: Tried) -> None:
    """While the disk is full, a volume that was written to, and then the inventory; nothing once there is room again."""
    path = tried.path("control")
    with Server(tried, "--media", tried.path("media"), "--new-library", *SMALL, "--control", path, room=1 << 30) as server:
        host = Host(server, sas=SAS)
        host.loads()
        lacks("the picture", await_failing(tried, path, [], False), "failing")
        server.limit_lines(0)
        host.writes(b"one")
        holds("the picture", await_failing(tried, path, ["VOL00001"], False), " MiB\n  failing: VOL00001\n\nLUN 0")
        other = Host(server, sas=SAS + 1)
        other.insist(CHANGER, scsi.six(0x00))
        with contextlib.suppress(ConnectionError):
            other.asks(CHANGER, scsi.move(0x100, FIRST_STORAGE))
        picture = await_failing(tried, path, ["VOL00001"], True)
        holds("the picture", picture, " MiB\n  failing: VOL00001\n  failing: library.toml\n\nLUN 0")
        server.limit_lines()
        lacks("the picture", await_failing(tried, path, [], False), "failing")


def held_by_all(tried: Tried) -> None:
    """Under a type of all registrants nobody is named as the holder. A removal that is prevented is shown."""
    path = tried.path("control")
    with Server(tried, *SMALL, "--control", path) as server:
        host = Host(server, sas=SAS)
        host.insist(DRIVE, scsi.reserve_out(0), scsi.key_list(0, KEY))
        host.asks(DRIVE, scsi.reserve_out(1, 8), data=scsi.key_list(KEY, 0))
        host.insist(CHANGER, scsi.six(0x1E, count=1))
        units = json.loads(status(tried, path, "--json")[1])["units"]
        same("the reservation of the drive", units[1]["reservation"], {"type": "EAAR", "holder": None})
        same("whether removal is prevented", [unit["removal_prevented"] for unit in units], [True, False])


# The picture of the small library before any command, but for its last line, which is of the volume in the drive.
AT_POWER_ON = """Library, profile spec

LUN 0, changer
  slots 0 of 128, records 0, waiting 0
  not reserved, registrations 0
  data transfer
   256        -
  import/export
   512        -
  storage
  1024 VOL00001        -

LUN 1, drive
  slots 0 of 128, records 0, waiting 0
  not reserved, registrations 0
"""


def pictures(tried: Tried, path: str, wanted: str) -> None:
    ended, printed, reported = status(tried, path)
    same("the status, and what is reported", (ended, reported), (0, ""))
    same_lines(without_drawn_sessions(printed), wanted)


def pictured(tried: Tried) -> None:
    """Before any command, and after some that move, write, reserve and prevent removal."""
    path = tried.path("control")
    with Server(tried, *SMALL, "--control", path) as server:
        pictures(tried, path, AT_POWER_ON + "  no volume\n")
        host = Host(server, sas=SAS)
        host.loads()
        host.writes(b"one", b"three")
        host.asks(DRIVE, scsi.write_filemarks(1))
        host.asks(DRIVE, scsi.six(0x01))
        host.asks(DRIVE, scsi.reserve_out(0), data=scsi.key_list(0, KEY))
        host.asks(DRIVE, scsi.reserve_out(1, 3), data=scsi.key_list(KEY, 0))
        host.asks(CHANGER, scsi.reserve_out(0), data=scsi.key_list(0, KEY))
        host.asks(CHANGER, scsi.reserve_out(1, 8), data=scsi.key_list(KEY, 0))
        host.asks(CHANGER, scsi.six(0x1E, count=1))
        pictures(tried, path, f"""Library, profile spec

LUN 0, changer
  slots 1 of 128, records 5, waiting 5
  removal is prevented
  reservation EAAR of all registrants, registrations 1
  data transfer
   256 VOL00001
  import/export
   512        -
  storage
  1024        -        -

LUN 1, drive
  slots 1 of 128, records 8, waiting 8
  reservation EA of {NEXUS}, registrations 1
  volume VOL00001
  position 0, objects 3, bytes 8
  objects in its image 0
""")


def pictured_folder(tried: Tried) -> None:
    """Of a tag that has no room in a row a part is there. In its drive the whole of it is, and what is in the volume's image."""
    path = tried.path("control")
    folder = Folder(tried, A=block(b"one") + bytes(4), ARCHIVE_1=b"", B1234567=b"")
    for name in ["A.tap", "ARCHIVE_1.tap"]:
        os.chmod(folder.path / name, 0o400)
    with folder.served(*SMALL[:2], "--slots", "11", "--control", path) as server:
        _, printed, _ = status(tried, path)
        holds("the rows of the storage elements", printed, """
  storage
  1024        A ARCHIVE~ B1234567        -        -        -        -        -
  1032        -        -        -
""")
        host = Host(server, sas=SAS)
        host.loads()
        holds("what is in the drive", status(tried, path)[1], """
  volume A, write-protected
  position 0, objects 2, bytes 3
  objects in its image 2
""")
        host.changes(FIRST_STORAGE, FIRST_STORAGE + 1)
        holds("the same of a long tag", status(tried, path)[1], "\n  volume ARCHIVE_1, write-protected\n  position 0, objects 0, bytes 0\n")


def pictured_whole(tried: Tried) -> None:
    """A library of the largest size has lines that a terminal can show."""
    path = tried.path("control")
    words = ["--drives", "4", "--slots", "1024", "--portals", "16", "--volumes", "1024", "--volume-size", "1M"]
    with Server(tried, *words, "--control", path):
        ended, printed, reported = status(tried, path)
        same("the status, and what is reported", (ended, reported), (0, ""))
        for line in printed.splitlines():
            same(f"whether a terminal can show {line!r}", len(line) <= 80 and line.isascii() and line == line.rstrip(), True)
        same("the last row", printed.splitlines().count("  2040 " + " ".join(f"VOL{number:05}" for number in range(1017, 1025))), 1)


def connected(path: str) -> socket.socket:
    connection = socket.socket(socket.AF_UNIX)
    connection.settimeout(patience())
    connection.connect(path)
    return connection


def unread(tried: Tried) -> None:
    """Clients that never read, and one that sends what nobody asked for: others are answered, sessions go on, and the end comes."""
    path = tried.path("control")
    with Server(tried, "--slots", "1024", "--volumes", "1024", "--volume-size", "1M", "--control", path) as server:
        idle = [connected(path) for _ in range(20)]
        for connection in idle:
            connection.setsockopt(socket.SOL_SOCKET, socket.SO_RCVBUF, 1)
        # It may have been answered by then, and the connection closed.
        with contextlib.suppress(BrokenPipeError, ConnectionResetError):
            idle[0].sendall(bytes(1000))
        host = Host(server, sas=SAS)
        host.meets(DRIVE)
        ended, printed, reported = status(tried, path, "--json")
        same("the status and what is reported", (ended, reported), (0, ""))
        same("how many elements there are", len(json.loads(printed)["units"][0]["elements"]), 1 + 1024)
        host.asks(DRIVE, scsi.six(0x00), (0x02, scsi.sense(2, 0x3A, 0x00), b""))
        began = time.monotonic()
        host.connection.close()
        server.end()
        server.ends()
        if time.monotonic() - began > 8:
            raise Wrong("the end of a server whose status nobody reads", "comes late", "comes within seconds")
        for connection in idle:
            connection.close()


def twice(tried: Tried) -> None:
    """Two at the same time get the same."""
    path = tried.path("control")
    with Server(tried, *SMALL, "--control", path):
        command = [tried.program, "status", "--control", path, "--json"]
        both = [subprocess.Popen(command, stdout=subprocess.PIPE) for _ in range(2)]
        for one in both:
            same("what it prints", without_sessions(one.communicate(timeout=patience())[0].decode()), at_power_on())
            same("its status", one.returncode, 0)


def watched(tried: Tried) -> None:
    """It is printed again, with what has changed, until the server ends."""
    path = tried.path("control")
    with Server(tried, *SMALL, "--control", path) as server:
        command = [tried.program, "status", "--control", path, "--json", "--watch"]
        with subprocess.Popen(command, stdout=subprocess.PIPE, stderr=subprocess.PIPE, text=True) as process:
            assert process.stdout is not None and process.stderr is not None
            same("the first line", without_sessions(process.stdout.readline()), at_power_on())
            host = Host(server, sas=SAS)
            host.meets(CHANGER)
            lines = [process.stdout.readline() for _ in range(2)]
            used = changer(None, None, "VOL00001", None, slots={"used": 1, "of": 128}, records={"last": 1, "waiting": 1})
            same("the last line", without_sessions(lines[-1]), line_of(used, drive(None)))
            host.connection.close()
            server.end()
            server.ends()
            same("its status once the server has ended", process.wait(patience()), 4)
            holds("what it reports then", process.stderr.read(), f"vtl: no server answers at {path} (see --control of vtl serve)\n")


def watched_as_picture(tried: Tried) -> None:
    """The terminal is cleared before each picture."""
    path = tried.path("control")
    with Server(tried, *SMALL, "--control", path) as server:
        command = [tried.program, "status", "--control", path, "--watch"]
        with subprocess.Popen(command, stdout=subprocess.PIPE, stderr=subprocess.PIPE, text=True) as process:
            assert process.stdout is not None and process.stderr is not None
            head, _, units = (AT_POWER_ON + "  no volume\n").partition("\n")
            clear = "\x1b[H\x1b[2J"
            for _ in range(2):
                same("the beginning of a picture", process.stdout.readline(), f"{clear}{head}\n")
                holds("its second line", process.stdout.readline(), " MiB\n")
                same("the rest of it", process.stdout.read(len(units)), units)
            server.end()
            server.ends()
            same("its status once the server has ended", process.wait(patience()), 4)


def no_server(tried: Tried) -> None:
    path = tried.path("control")
    wanted = f"vtl: device fault\nvtl: no server answers at {path} (see --control of vtl serve)\n"
    same("without a server", status(tried, path, "--json"), (4, "", wanted))
    left = socket.socket(socket.AF_UNIX)
    left.bind(path)
    left.close()
    same("at a file at which nobody listens", status(tried, path), (4, "", wanted))


def left_over(tried: Tried) -> None:
    """A server that was killed leaves its file, which the next one replaces. What else is at the path stays, and no server starts."""
    path = tried.path("control")
    with Server(tried, *SMALL, "--control", path) as server:
        other = refused(tried, "--socket", tried.path("other"), "--control", path)
        same("a second server", other, (4, f"vtl: device fault\nvtl: cannot listen on {path}: it is there already\n"))
        says(tried, path, at_power_on())
        server.kill()
    os.unlink(tried.path("socket"))
    # The folder in which a server was about to make its socket when it was killed.
    os.mkdir(path + ".new", 0o700)
    with Server(tried, *SMALL, "--control", path) as server:
        same("what is reported", server.reported_lines(), [f"vtl: removed {path}: nobody listened there"])
        says(tried, path, at_power_on())
        server.end()
        server.ends()
    pathlib.Path(path).write_text("mine", encoding="utf-8")
    other = refused(tried, "--socket", tried.path("other"), "--control", path)
    same("at another file", other, (4, f"vtl: device fault\nvtl: cannot listen on {path}: it is there already\n"))
    same("the file", pathlib.Path(path).read_text(encoding="utf-8"), "mine")
    nowhere = tried.path("nowhere/control")
    other = refused(tried, "--socket", tried.path("other"), "--control", nowhere)
    same("in no folder", other, (4, f"vtl: device fault\nvtl: cannot listen on {nowhere}\n"))
    same("the socket", os.path.lexists(tried.path("other")), False)


ROWS = [
    Row("status-told", "the status of a library is that of its units, to the byte, and asking for it changes nothing", told),
    Row("status-sessions", "the status has each session that goes on, with what it has sent and got", sessions_told),
    Row("status-pictured", "the status is shown in lines that say what the library's units are at", pictured),
    Row("status-pictured-folder", "the picture of a kept library has the tags, and what is in the images", pictured_folder),
    Row("status-pictured-whole", "the picture of the largest library has at most 80 columns", pictured_whole),
    Row("status-memory", "the status has the memory that the system says", memory_told),
    Row("status-failing", "the status names what can't be written, as long as it can't", failing_told),
    Row("status-held-by-all", "the status shows a reservation of all registrants, and who prevents removal", held_by_all),
    Row("status-unread", "clients that never read the status hold nothing up", unread),
    Row("status-twice", "the status is told to two at a time", twice),
    Row("status-watched", "the status is printed again and again, until the server ends", watched),
    Row("status-watched-as-picture", "the terminal is cleared before each picture", watched_as_picture),
    Row("status-no-server", "without a server the status is refused", no_server),
    Row("status-left-over", "a control socket that a dead server left is replaced, and anything else is left", left_over),
]
