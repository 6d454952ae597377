"""The metrics of a server (`--metrics`). docs/OPERATING.md has them, "Metrics"."""
import collections
import http.client
import json
import socket
import time

import scsi
from compare import Wrong, holds, same
from host import Host
from play import Row, Tried
from record_files import RecordFile
from scsi import CHANGER, DRIVE
from server import Server, refused
from sockets import rest_of
from statuses import SAS, SMALL, reserves_with_tape
from term import patience

UNSENT = "vtl: a connection for metrics asked for none, or did not take them in time"
MEBIBYTE = b"a" * 1_048_576
# The families, with what each says of a library at power on, whose changer and drive are units 0 and 1.
HEADINGS = {
    "vtl_records_total": ("counter", "Records taken out of units, by what they say."),
    "vtl_uncounted_records_total": ("counter", "Records that couldn't be counted, for want of memory."),
    "vtl_records_last": ("counter", "The number of a unit's last record."),
    "vtl_records_waiting": ("gauge", "Records that a unit hasn't handed out."),
    "vtl_slots_used": ("gauge", "Slots for nexuses that are used, of 128."),
    "vtl_registrations": ("gauge", "Registered nexuses."),
    "vtl_reserved": ("gauge", "Whether a reservation is held."),
    "vtl_removal_prevented": ("gauge", "Whether removal is prevented."),
    "vtl_volume_position": ("gauge", "Objects before the position."),
    "vtl_volume_objects": ("gauge", "Blocks and filemarks of a volume."),
    "vtl_volume_unsaved_objects": ("gauge", "Objects that its image hasn't."),
    "vtl_volume_bytes": ("gauge", "Bytes in the blocks of a volume."),
}
# Those of the server, of which some have values that aren't known.
OF_THE_SERVER = {
    "process_resident_memory_bytes": ("gauge", "Resident memory of the server, in bytes."),
    "vtl_sessions": ("gauge", "Sessions that go on."),
    "vtl_session_commands_total": ("counter", "Commands that came in sessions."),
    "vtl_session_bytes_total": ("counter", "Bytes that came in sessions, and that were sent."),
    "vtl_image_failing": ("gauge", "Volumes whose images can't be written."),
    "vtl_inventory_failing": ("gauge", "Whether the inventory can't be written."),
    "vtl_awaited_saves": ("gauge", "Saves that replies wait for."),
    "vtl_last_sync_seconds": ("gauge", "How long the last save took that a reply waited for."),
}


def metrics_of(lines: dict[str, list[str]]) -> str:
    """The text with these lines of each family; the labels and the value of each."""
    text = ""
    for family, (kind, words) in HEADINGS.items():
        text += f"# HELP {family} {words}\n# TYPE {family} {kind}\n"
        text += "".join(f"{family}{line}\n" for line in lines.get(family, []))
    return text


def of_units(changer: int, drive: int) -> list[str]:
    return [f'{{unit="0"}} {changer}', f'{{unit="1"}} {drive}']


AT_POWER_ON = metrics_of(
    {"vtl_uncounted_records_total": [" 0"]} | {family: of_units(0, 0) for family in list(HEADINGS)[2:8]})


def counted(text: str) -> list[str]:
    """How often the lines of a file of records say the same, in the order in which that came first."""
    counts: collections.Counter[str] = collections.Counter()
    for line in text.splitlines():
        record = json.loads(line)
        _, of_type, role = record["cell"].split("/") if record["cell"] else ("", "", "")
        counts[f'{{class="{record["class"]}",type="{of_type}",role="{role}",status="{record["status"]}"}}'] += 1
    return [f"{labels} {count}" for labels, count in counts.items()]


class Scraped:
    """A port of the loopback that was free, at which a server answers requests for metrics."""

    def __init__(self) -> None:
        with socket.socket() as free:
            free.bind(("127.0.0.1", 0))
            self.port = free.getsockname()[1]

    def words(self) -> list[str]:
        return ["--metrics", f"127.0.0.1:{self.port}"]

    def connected(self) -> socket.socket:
        return socket.create_connection(("127.0.0.1", self.port), patience())

    def asks(self, method: str, path: str, body: bytes | None = None) -> http.client.HTTPResponse:
        connection = http.client.HTTPConnection("127.0.0.1", self.port, timeout=patience())
        connection.request(method, path, body)
        return connection.getresponse()

    def text(self) -> str:
        answer = self.asks("GET", "/metrics")
        same("the status", answer.status, 200)
        same("the format", answer.getheader("content-type"), "text/plain; version=0.0.4")
        same("whether the connection ends", answer.getheader("connection"), "close")
        return answer.read().decode()

    def says(self, wanted: str) -> None:
        """The metrics of the library are these. Those of the server are behind them."""
        same("the metrics", self.text().partition("# HELP process_")[0], wanted)

    def of_the_server(self) -> dict[str, float]:
        """The values of the server's metrics, by name and labels. Each family has its heading, in this order."""
        _, begun, rest = self.text().partition("# HELP process_")
        lines = (begun + rest).splitlines()
        heads = [line for line in lines if line.startswith("#")]
        same("the headings", heads, [
            head for name, (kind, words) in OF_THE_SERVER.items() for head in (f"# HELP {name} {words}", f"# TYPE {name} {kind}")])
        return {line.rpartition(" ")[0]: float(line.rpartition(" ")[2]) for line in lines if not line.startswith("#")}

    def answers(self, sent: bytes) -> str:
        """The first line of the answer to some bytes. The other end may close before it has all of them."""
        with self.connected() as connection:
            try:
                connection.sendall(sent)
            except ConnectionError:
                pass
            return rest_of(connection).partition(b"\r\n")[0].decode()


def told(tried: Tried) -> None:
    """Before any command, and after some: each number is that of the commands that were sent."""
    scraped, file = Scraped(), RecordFile(tried)
    with Server(tried, *SMALL, "--records", str(file.path), *scraped.words()) as server:
        scraped.says(AT_POWER_ON)
        host = Host(server, sas=SAS)
        reserves_with_tape(host)
        other = Host(server, sas=SAS + 1)
        other.insist(DRIVE, scsi.six(0x01))
        # Two at the changer; the volume that came in and six of the first host at the drive, the notification of the other one and its conflict.
        file.await_lines(2 + 7 + 2)
        lines = counted(file.text())
        same("how often the second host had a conflict", sum('status="18"' in line for line in lines), 1)
        volume = '{unit="1",volume="VOL00001"} '
        scraped.says(metrics_of({
            "vtl_records_total": lines, "vtl_uncounted_records_total": [" 0"], "vtl_records_last": of_units(2, 9),
            "vtl_records_waiting": of_units(0, 0), "vtl_slots_used": of_units(1, 2), "vtl_registrations": of_units(0, 1),
            "vtl_reserved": of_units(0, 1), "vtl_removal_prevented": of_units(0, 0), "vtl_volume_position": [volume + "3"],
            "vtl_volume_objects": [volume + "3"], "vtl_volume_unsaved_objects": [volume + "3"], "vtl_volume_bytes": [volume + "8"]}))
        same("what is reported", [line for line in server.reported_lines() if "metrics" in line], [])


def server_told(tried: Tried) -> None:
    """How many sessions go on, and what came and went in all: also in those that have ended."""
    scraped = Scraped()
    with Server(tried, *SMALL, "--drain", *scraped.words()) as server:
        begun = scraped.of_the_server()
        memory = begun.pop("process_resident_memory_bytes")
        same("whether its memory is in pages", (memory > 0, memory % 4096), (True, 0))
        received, sent = ('vtl_session_bytes_total{direction="received"}', 'vtl_session_bytes_total{direction="sent"}')
        same("before the first session", begun, {
            "vtl_sessions": 0, "vtl_session_commands_total": 0, received: 0, sent: 0, "vtl_inventory_failing": 0, "vtl_awaited_saves": 0})
        first, second = Host(server, sas=SAS), Host(server, sas=SAS + 1)
        first.loads()
        first.writes(bytes(1000))
        second.meets(CHANGER)
        two = scraped.of_the_server()
        same("two sessions", two["vtl_sessions"], 2)
        same("whether what was written is counted", two[received] >= 1000, True)
        same("whether commands and answers are", (two["vtl_session_commands_total"] >= 4, two[sent] > 0), (True, True))
        first.connection.close()
        for _ in range(100):
            one = scraped.of_the_server()
            if one["vtl_sessions"] == 1:
                break
            time.sleep(0.1)
        same("one session", one["vtl_sessions"], 1)
        for name in ["vtl_session_commands_total", received, sent]:
            same(f"whether {name} has not fallen", one[name] >= two[name], True)


def failing_told(tried: Tried) -> None:
    """How long the last save took that a reply waited for, and what can't be written while the disk is full."""
    scraped = Scraped()
    with Server(tried, "--media", tried.path("media"), "--new-library", *SMALL, "--drain", *scraped.words(), room=1 << 30) as server:
        host = Host(server, sas=SAS)
        same("whether a save took time before the first", "vtl_last_sync_seconds" in scraped.of_the_server(), False)
        host.loads()
        host.writes(b"one")
        host.asks(DRIVE, scsi.write_filemarks(1))
        took = scraped.of_the_server()["vtl_last_sync_seconds"]
        same("whether the save took some time", 0 < took < patience(), True)
        server.limit_lines(0)
        host.writes(b"two")
        failing = 'vtl_image_failing{volume="VOL00001"}'
        for wanted in [True, False]:
            for _ in range(100):
                values = scraped.of_the_server()
                if (failing in values) == wanted:
                    break
                time.sleep(0.1)
            same("whether the image can't be written", values.get(failing), 1 if wanted else None)
            same("whether the inventory can't be", values["vtl_inventory_failing"], 0)
            server.limit_lines()


def turned_away(tried: Tried) -> None:
    """What asks for no metrics is refused, also where it is long, and others are answered behind it."""
    scraped = Scraped()
    with Server(tried, *SMALL, "--drain", *scraped.words()) as server:
        same("another path", scraped.asks("GET", "/").status, 404)
        answer = scraped.asks("POST", "/metrics")
        same("another method", (answer.status, answer.getheader("allow")), (405, "GET"))
        same("garbage", scraped.answers(b"\x00\xff garbage\r\n\r\n")[:12], "HTTP/1.1 400")
        head = b"GET /metrics HTTP/1.1\r\nhost: a\r\n"
        same("a megabyte behind a request", scraped.answers(head + b"content-length: 1048576\r\n\r\n" + MEBIBYTE)[:12], "HTTP/1.1 413")
        same("a megabyte in a field", scraped.answers(head + b"x: " + MEBIBYTE + b"\r\n\r\n")[:12], "HTTP/1.1 431")
        same("a megabyte as a path", scraped.answers(b"GET /" + MEBIBYTE + b" HTTP/1.1\r\n\r\n")[:12], "HTTP/1.1 414")
        scraped.says(AT_POWER_ON)
        server.reported.wait_for(UNSENT)
        same("how often that is reported", server.reported_lines().count(UNSENT), 6)


def slow(tried: Tried) -> None:
    """Clients that never write, and some that never read: others are answered, sessions go on, and the end comes."""
    scraped = Scraped()
    with Server(tried, *SMALL, "--drain", *scraped.words()) as server:
        silent, unread = scraped.connected(), scraped.connected()
        unread.setsockopt(socket.SOL_SOCKET, socket.SO_RCVBUF, 1)
        unread.sendall(b"GET /metrics HTTP/1.1\r\nhost: a\r\n\r\n")
        host = Host(server, sas=SAS)
        host.meets(DRIVE)
        began = time.monotonic()
        same("the status behind them", scraped.asks("GET", "/metrics").status, 200)
        if time.monotonic() - began > 8:
            raise Wrong("the answer behind clients that hold the socket", "comes late", "comes within seconds")
        holds("what is reported", server.reported.text, UNSENT)
        host.connection.close()
        last = scraped.connected()
        began = time.monotonic()
        server.end()
        server.ends()
        if time.monotonic() - began > 8:
            raise Wrong("the end of a server whose metrics nobody reads", "comes late", "comes within seconds")
        for connection in [silent, unread, last]:
            connection.close()


def not_begun(tried: Tried) -> None:
    """Where no server starts: other machines, no records, no address, and a place that is taken."""
    place = ["--socket", tried.path("other")]
    reader = "vtl: other machines can reach this address: give --metrics-open if all of them may read what is counted: 0.0.0.0:9100\n"
    same("other machines", refused(tried, *place, "--drain", "--metrics", "0.0.0.0:9100"), (2, reader))
    uncounted = "vtl: --metrics needs --records or --drain: records are counted as they are written\n"
    same("no records", refused(tried, *place, "--metrics", "127.0.0.1:9100"), (2, uncounted))
    no_address = "vtl: not an IP address with a port: give one such as 127.0.0.1:3260 or [::1]:3260: localhost\n"
    same("no address", refused(tried, *place, "--drain", "--metrics", "localhost"), (2, no_address))
    same("nothing to open", refused(tried, *place, "--metrics-open"), (2, "vtl: --metrics-open needs --metrics\n"))
    with socket.socket() as taken:
        taken.bind(("127.0.0.1", 0))
        taken.listen()
        address = f"127.0.0.1:{taken.getsockname()[1]}"
        wanted = f"vtl: device fault\nvtl: cannot listen on {address}: another program listens there already\n"
        same("a taken place", refused(tried, *place, "--drain", "--metrics", address), (4, wanted))


ROWS = [
    Row("metrics-told", "the metrics of a library are those of its records and units, to the byte", told),
    Row("metrics-server", "the metrics have the sessions, what came and went in all, and the memory", server_told),
    Row("metrics-failing", "the metrics name what can't be written, and how long the last save took", failing_told),
    Row("metrics-turned-away", "what asks for no metrics is refused, and others are answered behind it", turned_away),
    Row("metrics-slow", "clients of the metrics that never write or never read hold nothing up", slow),
    Row("metrics-not-begun", "no server starts whose metrics other machines can read unasked, or whose records aren't counted", not_begun),
]
