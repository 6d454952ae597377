"""Records that a server writes into a file (`--records`), and what `vtl explain` says of them. docs/OPERATING.md has the fields, "Records
for other programs"."""
import datetime
import json
import os
import pathlib
import re
import stat
import time
import typing

from compare import Wrong, holds, lacks, same, same_lines
from drains import CANNOT_WRITE, CAUGHT_UP, KEPT, LOST_OF_THE_CHANGER, LOST_OF_THE_DRIVE, NOT_WRITTEN, at_the_changer, at_the_drive
from exchanges import DRIVE_READY, LOGIN_OF_A, REGISTER, RESERVE, IsLeft, Says, talk
from frames import ACCEPTED, LOGGED_OUT, LOGOUT, check, framed, good, power_on, received
from play import Row, Tried
from program import run
from server import Server, refused
from term import patience

TIME = re.compile(r"[0-9]{4}-[0-9]{2}-[0-9]{2}T[0-9]{2}:[0-9]{2}:[0-9]{2}\.[0-9]{3}Z")
# Power on, reset, or bus device reset occurred (SPC-4, "Fixed format sense data").
POWER_ON = "700006000000000a00000000290000000000"
# NOT READY, medium not present.
NO_MEDIUM = "700002000000000a000000003a0000000000"
KEYS = ["time", "unit", "number", "nexus", "name", "class", "stage", "cell", "rule", "status", "sense", "reservation"]


def line_of(unit: int, number: int, nexus: str, what: str, stage: int, status: str, **more: str) -> str:
    """A line as JSON, whose time is T."""
    values = {"time": "T", "unit": unit, "number": number, "nexus": nexus, "name": None, "class": what, "stage": stage, "cell": None,
              "rule": None, "status": status, "sense": None, "reservation": None} | more
    return json.dumps({key: values[key] for key in KEYS}, separators=(",", ":")) + "\n"


def of_a_session(unit: int, nexus: str) -> str:
    return line_of(unit, 1, nexus, "TEST-UNIT-READY", 2, "02", sense=POWER_ON) + line_of(unit, 2, nexus, "LOSS", 6, "00")


OF_THE_DRIVE, OF_THE_CHANGER = of_a_session(1, "500000000000000a.1"), of_a_session(0, "500000000000000b.1")
TEXT_OF_THE_DRIVE = f"""\
T 1 1 500000000000000a.1 - TEST-UNIT-READY 2 - - 02 {POWER_ON} -
T 1 2 500000000000000a.1 - LOSS 6 - - 00 - -
"""
OF_THE_HOLDER = {"cell": "TEST-UNIT-READY/EA/HOLDER", "sense": NO_MEDIUM, "reservation": "EA/500000000000000a.1"}
OF_A_HOLDER = "".join([
    line_of(1, 1, "500000000000000a.1", "TEST-UNIT-READY", 2, "02", sense=POWER_ON, name="iqn.2026-11.example:a"),
    line_of(1, 2, "500000000000000a.1", "REGISTER", 6, "00", cell="REGISTER/NONE/OTHER", name="iqn.2026-11.example:a"),
    line_of(1, 3, "500000000000000a.1", "RESERVE", 6, "00", cell="RESERVE/NONE/REGISTERED", name="iqn.2026-11.example:a"),
    line_of(1, 4, "500000000000000a.1", "TEST-UNIT-READY", 6, "02", name="iqn.2026-11.example:a", **OF_THE_HOLDER),
    line_of(1, 5, "500000000000000a.1", "LOSS", 6, "00", name="iqn.2026-11.example:a", reservation="EA/500000000000000a.1"),
])


class RecordFile:
    """The file of a row, and a server that writes there."""

    def __init__(self, tried: Tried, name: str = "records"):
        self.path = pathlib.Path(tried.path(name))

    def serve(self, tried: Tried, *words: str, **how: typing.Any) -> Server:
        return Server(tried, "--workers", "1", "--records", str(self.path), *words, **how)

    def text(self) -> str:
        """What it holds, with T for each time."""
        return TIME.sub("T", self.path.read_text(encoding="utf-8")) if self.path.exists() else ""

    def await_lines(self, count: int) -> None:
        end = time.monotonic() + patience()
        while self.text().count("\n") < count:
            if time.monotonic() > end:
                raise Wrong("the lines of the file", self.text(), f"{count} of them")
            time.sleep(0.01)

    def holds(self, wanted: str) -> None:
        same_lines(self.text(), wanted)


def as_json(tried: Tried) -> None:
    file = RecordFile(tried)
    begin = datetime.datetime.now(datetime.timezone.utc)
    with file.serve(tried) as server:
        at_the_drive(server)
        file.await_lines(2)
        at_the_changer(server)
        server.end()
        server.ends()
        file.holds(OF_THE_DRIVE + OF_THE_CHANGER)
        same("what is printed", server.lines(), "")
    end = datetime.datetime.now(datetime.timezone.utc)
    same("the file's mode", stat.S_IMODE(file.path.stat().st_mode) | 0o040, 0o640)
    for line in file.path.read_text(encoding="utf-8").splitlines():
        entry = json.loads(line)
        same("the keys", list(entry), KEYS)
        taken = datetime.datetime.fromisoformat(entry["time"])
        if not begin - datetime.timedelta(milliseconds=1) <= taken <= end:
            raise Wrong("the time", entry["time"], f"one from {begin} to {end}")


def as_text(tried: Tried) -> None:
    file = RecordFile(tried)
    with file.serve(tried, "--format", "text") as server:
        at_the_drive(server)
        file.await_lines(2)
        server.end()
        server.ends()
        file.holds(TEXT_OF_THE_DRIVE)
        same("what is printed", server.lines(), "")


def of_a_holder(tried: Tried) -> None:
    """A host that is let in by name at a portal has its name at the socket too. It registers and reserves."""
    file = RecordFile(tried)
    with file.serve(tried, "--iscsi", "127.0.0.1:0", "--host", "iqn.2026-11.example:a=500000000000000a") as server:
        talk(server, 1, [
            Says(0, LOGIN_OF_A, ACCEPTED), Says(0, DRIVE_READY, power_on(1)), Says(0, REGISTER, good(2)), Says(0, RESERVE, good(3)),
            Says(0, DRIVE_READY, check(4, 2, 0x3A, 0x00)), Says(0, LOGOUT, LOGGED_OUT), IsLeft(0)])
        server.end()
        server.ends()
        file.holds(OF_A_HOLDER)


def each_second(tried: Tried) -> None:
    """A host sends one command, and stays."""
    file = RecordFile(tried)
    with file.serve(tried) as server:
        host = server.connect()
        for frame, answer in [(LOGIN_OF_A, ACCEPTED), (DRIVE_READY, power_on(1))]:
            host.sendall(framed(frame))
            same("the answer", received(host), answer)
        asked = datetime.datetime.now(datetime.timezone.utc)
        file.await_lines(1)
        file.holds(OF_THE_DRIVE.splitlines(keepends=True)[0])
        taken = datetime.datetime.fromisoformat(json.loads(file.path.read_text(encoding="utf-8"))["time"])
        # On a machine that is busy a second may be longer.
        if taken - asked > datetime.timedelta(seconds=5):
            raise Wrong("the time at which a record was taken", taken, f"within a second or two of {asked}")
        host.close()
        server.end()
        server.ends()
        file.holds(OF_THE_DRIVE)


def rotated(tried: Tried) -> None:
    """The file is renamed between two sessions, as by logrotate."""
    file, old = RecordFile(tried), RecordFile(tried, "records.1")
    with file.serve(tried) as server:
        at_the_drive(server)
        file.await_lines(2)
        file.path.rename(old.path)
        at_the_changer(server)
        file.await_lines(2)
        server.end()
        server.ends()
        old.holds(OF_THE_DRIVE)
        file.holds(OF_THE_CHANGER)


def gone_on(tried: Tried) -> None:
    """A file that is there is appended to, behind a line that was cut off too."""
    file = RecordFile(tried)
    file.path.write_text('{"time":', encoding="utf-8")
    with file.serve(tried) as server:
        at_the_drive(server)
        file.await_lines(3)
        server.end()
        server.ends()
    with file.serve(tried) as server:
        at_the_changer(server)
        file.await_lines(5)
        server.end()
        server.ends()
    file.holds('{"time":\n' + OF_THE_DRIVE + OF_THE_CHANGER)


def full(size: int) -> typing.Callable[[Tried], None]:
    """The disk is full after so many bytes, until that is told; then there is room again."""
    def play(tried: Tried) -> None:
        file = RecordFile(tried)
        with file.serve(tried, room=size) as server:
            at_the_drive(server)
            server.reported.wait_for(KEPT)
            same("how many bytes are written", file.path.stat().st_size, size)
            server.limit_lines()
            server.reported.wait_for(CAUGHT_UP)
            at_the_changer(server)
            server.end()
            server.ends()
            file.holds(OF_THE_DRIVE + OF_THE_CHANGER)
            same("how often it is told that lines are kept", server.reported.text.count(KEPT), 1)
            lacks("what is reported", server.reported.text, NOT_WRITTEN)

    return play


def full_and_rotated(tried: Tried) -> None:
    """The disk is full within the second line. The file is renamed, and then there is room: the line begins again in the new file."""
    file, old = RecordFile(tried), RecordFile(tried, "records.1")
    first, second = OF_THE_DRIVE.splitlines(keepends=True)
    size = len(first) + len("2026-11-30T22:09:37.123Z") - 1 + 20
    with file.serve(tried, room=size) as server:
        at_the_drive(server)
        server.reported.wait_for(KEPT)
        file.path.rename(old.path)
        server.limit_lines()
        server.reported.wait_for(CAUGHT_UP)
        server.end()
        server.ends()
        file.holds(second)
        whole, _, part = old.text().partition("\n")
        same("the whole line of the old file", whole + "\n", first)
        same("what the old file ends with", part, '{"time":"2026-11-30T'[:9] + old.path.read_text(encoding="utf-8").partition("\n")[2][9:])
        same("how long that is", len(part), 20)
        lacks("what is reported", server.reported.text, NOT_WRITTEN)


def lost(tried: Tried) -> None:
    file = RecordFile(tried)
    with file.serve(tried, room=0) as server:
        at_the_drive(server)
        server.reported.wait_for(KEPT)
        at_the_changer(server)
        server.end()
        server.ends(CANNOT_WRITE)
        file.holds("")
        for line in LOST_OF_THE_DRIVE, LOST_OF_THE_CHANGER:
            holds("what is reported", server.reported.text, line)
        same("what is printed", server.lines(), "")


def no_directory_any_more(tried: Tried) -> None:
    """The file's directory is moved away, and comes back."""
    folder = pathlib.Path(tried.path("log"))
    folder.mkdir()
    file = RecordFile(tried, "log/records")
    with file.serve(tried) as server:
        away = folder.rename(tried.path("away"))
        at_the_drive(server)
        server.reported.wait_for(KEPT)
        away.rename(folder)
        server.reported.wait_for(CAUGHT_UP)
        server.end()
        server.ends()
        file.holds(OF_THE_DRIVE)


def refusals(tried: Tried) -> None:
    place, folder = ["--socket", tried.path("socket"), "--sessions", "1"], tried.path("folder")
    os.mkdir(folder)
    cases = {
        ("--records", folder): (4, f"vtl: device fault\nvtl: cannot write {folder}: it is a directory\n"),
        ("--records", f"{folder}/no/file"): (4, f"vtl: device fault\nvtl: cannot write {folder}/no/file: its directory is not there\n"),
        ("--format", "json"): (2, "vtl: --format needs --records\n"),
        ("--records", "a", "--format", "csv"): (2, "vtl: not a format of records: give json or text: csv\n"),
        ("--records", "a", "--drain"): (2, "vtl: --records cannot be used with --drain\n"),
        ("--records", "a", "--spans"): (2, "vtl: --records cannot be used with --spans\n"),
        ("--records", "a", "--keep-records"): (2, "vtl: --records cannot be used with --keep-records\n"),
    }
    for words, wanted in cases.items():
        for check in [], ["--check"]:
            same(f"how {words} ends", refused(tried, *check, *place, *words), wanted)
    same("what is in the folder", os.listdir(folder), [])


def is_checked(tried: Tried) -> None:
    file = RecordFile(tried)
    words = ["serve", "--check", "--socket", tried.path("socket"), "--records", str(file.path), "--format", "text"]
    status, printed, reported = run([tried.program, *words])
    same("the status and what is reported", (status, reported), (0, ""))
    holds("what is printed", printed, f"records: into {file.path}, as text\n")
    same("whether the file is there", file.path.exists(), False)


def with_time(text: str) -> str:
    return text.replace('"T"', '"2026-11-30T22:09:37.123Z"')


WORDS_OF_A_HOLDER = """\
2026-11-30T22:09:37.123Z, unit 1, record 1: TEST-UNIT-READY of iqn.2026-11.example:a (500000000000000a.1): CHECK CONDITION, UNIT ATTENTION: \
power on, reset, or bus device reset occurred; decided by a reset that it had to be told of; not reserved before
2026-11-30T22:09:37.123Z, unit 1, record 2: REGISTER of iqn.2026-11.example:a (500000000000000a.1): GOOD; decided by the device, cell \
REGISTER/NONE/OTHER; not reserved before
2026-11-30T22:09:37.123Z, unit 1, record 3: RESERVE of iqn.2026-11.example:a (500000000000000a.1): GOOD; decided by the device, cell \
RESERVE/NONE/REGISTERED; not reserved before
2026-11-30T22:09:37.123Z, unit 1, record 4: TEST-UNIT-READY of iqn.2026-11.example:a (500000000000000a.1): CHECK CONDITION, NOT READY: medium not \
present; decided by the device, cell TEST-UNIT-READY/EA/HOLDER; reserved before: EA/500000000000000a.1
2026-11-30T22:09:37.123Z, unit 1, record 5: LOSS of iqn.2026-11.example:a (500000000000000a.1): GOOD; decided by the device; \
reserved before: EA/500000000000000a.1
"""


def explained(tried: Tried) -> None:
    file = RecordFile(tried)
    file.path.write_text(with_time(OF_A_HOLDER), encoding="utf-8")
    same("how a file is said", run([tried.program, "explain", str(file.path)]), (0, WORDS_OF_A_HOLDER, ""))
    same("how an input is said", run([tried.program, "explain"], with_time(OF_A_HOLDER)), (0, WORDS_OF_A_HOLDER, ""))
    same("how nothing is said", run([tried.program, "explain"], ""), (0, "", ""))
    nowhere = tried.path("nowhere")
    same("how no file is said", run([tried.program, "explain", nowhere]), (4, "", f"vtl: device fault\nvtl: cannot read {nowhere}\n"))


def explained_garbage(tried: Tried) -> None:
    """Lines that are none stand between those of records, and a part of one at the end."""
    file = RecordFile(tried)
    first, second, *_ = with_time(OF_A_HOLDER).splitlines(keepends=True)
    bad = [
        (b"\n", "it is no object of JSON"),
        (b"1 500000000000000a.1 LOSS 6 - - 00\n", "it is no object of JSON"),
        (b"\xff\xfe\n", "it is no object of JSON"),
        (b"[]\n", "it is no object of JSON"),
        (b'{"time":null}\n', "no record has such a value at unit"),
        (first.replace('"unit":1', '"unit":5').encode(), "no record has such a value at unit"),
        (first.replace('"stage":2', '"stage":7').encode(), "no record has such a value at stage"),
        (first.replace('"02"', '"ff"').encode(), "no record has such a value at status"),
        (first.replace(POWER_ON, "70").encode(), "no record has such a value at sense"),
        (first.replace('"TEST-UNIT-READY"', "null").encode(), "no record has such a value at class"),
        # What a terminal would obey.
        (first.replace('"TEST-UNIT-READY"', '"\\u001b[2J"').encode(), "no record has such a value at class"),
        (b"[" * 100_000 + b"\n", "it is longer than the line of any record"),
        (second[:40].encode(), "it does not end in a line feed"),
    ]
    text, reported = b"", ""
    for number, (line, words) in enumerate(bad):
        text += first.encode() + line
        reported += f"vtl: line {2 * number + 2}: {words}\n"
    file.path.write_bytes(text)
    reported += f"vtl: lines that are not of records: {len(bad)}\n"
    wanted = (2, WORDS_OF_A_HOLDER.splitlines(keepends=True)[0] * len(bad), reported)
    same("how it is said", run([tried.program, "explain", str(file.path)]), wanted)


# Before the first line, within it, and within the second.
SIZES = [0, 30, 250]
KEEPS = "a disk that is full, at first or within a line, loses no line of a file of records, repeats none, and is told once"

ROWS = [
    Row("records-as-json", "each record is an object of JSON in its file, with the time at which it was taken, and none is printed", as_json),
    Row("records-as-text", "the same as words with a blank between them", as_text),
    Row("records-of-a-holder", "a record has the name of its host, and the reservation that stood before it", of_a_holder),
    Row("records-each-second", "a record comes into its file without any further command", each_second),
    Row("records-rotated", "if the file was renamed, a new one is made at its path, and each line is in one of them", rotated),
    Row("records-gone-on", "what is in the file stays, and a line that was cut off there is ended first", gone_on),
    *(Row(f"records-full-{number}", KEEPS, full(size)) for number, size in enumerate(SIZES, 1)),
    Row("records-full-and-rotated", "a line of which a part is in a file that was renamed begins again in the new one", full_and_rotated),
    Row("records-lost", "records that can't be written until the end are told by their numbers", lost),
    Row("records-without-a-directory", "records are kept while their file can't be made", no_directory_any_more),
    Row("records-refused", "a file that can't be, a format of none, and options that exclude it are refused, with --check too", refusals),
    Row("records-checked", "--check says into which file records would be written, and makes none", is_checked),
    Row("records-explained", "vtl explain says lines of a file or of its input in words", explained),
    Row("records-explained-garbage", "vtl explain refuses each line that is of no record by its number, and goes on", explained_garbage),
]
