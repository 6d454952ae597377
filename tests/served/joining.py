"""Which sessions are let in at a portal next to which: of one name, from one address or from two, as many as there is room for; and what
is reported of those that aren't. B and C are hosts that are named; what each sends and is answered begins as in `initiators`."""
import hashlib
import re
import typing

from challenges import SHA256, challenge_in, hexadecimal
from compare import Wrong, holds, same, same_lines
from exchanges import LOGIN_OF_B, Says, says
from frames import ALREADY_CONNECTED
from initiator import CHECKED, DONE, LET_IN, PROVED, Initiator, names_of
from initiators import HOSTS
from pdus import AUTHORIZATION_FAILURE, CHANGER, OUT_OF_RESOURCES, SECURITY, SKIPS, TO_FULL, login, ready, text, text_of
from play import Row, Tried
from server import Server, secret_words

OTHER_ADDRESS = "127.0.0.2"
REFUSED = "login refused: already connected, or no room\n"
OF_B = "of 500000000000000b.1"


def name_of(host: str) -> str:
    return f"iqn.2026-11.example:{host}"


class Joining(Initiator):
    """An initiator's session, of the number that its part of the session's identifier has, from an address of its own."""

    def __init__(self, server: Server, host: str = "b", session: int = 1, source: str | None = None, place: tuple[str, int] | None = None):
        super().__init__(place or server.portal(), host, source)
        self.isid = f"8000000000{session:02x}"

    def asks_in(self, tsih: int = 0) -> None:
        self.ask_in(isid=self.isid, tsih=tsih)

    def comes_in(self, tsih: int = 0) -> "Joining":
        self.asks_in(tsih)
        self.tsih = self.reads(LET_IN).tsih
        return self

    def is_kept_out(self) -> None:
        """There is no room for it."""
        self.asks_in()
        self.hears_no_room()

    def hears_no_room(self) -> None:
        same(f"the status of the login of {self.name}", f"{self.receive().login_status:04x}", f"{OUT_OF_RESOURCES:04x}")
        self.is_left()

    def proves(self, user: str, secret: str) -> None:
        """Shows by CHAP, with SHA-256, that it has the secret of a user, from security negotiation to full feature."""
        asks = text_of("AuthMethod=CHAP", "CHAP_A=7")
        self.send(login(SECURITY, names_of(self.full_name()) + asks, self.number, cid=0, isid=self.isid))
        challenge = challenge_in(SHA256, self.receive().data)
        proof = text_of(f"CHAP_N={user}", b"CHAP_R=" + hexadecimal(challenge.digest(secret.encode())))
        self.send(login(SKIPS, proof, self.number, cid=0, isid=self.isid))

    def ask(self, start: str) -> None:
        self.asks_by_number(self.next_number())
        self.reads(start)

    def asks_by_number(self, number: int) -> None:
        """TEST UNIT READY to the changer, by a command number of its own."""
        self.send(ready(number, number, CHANGER))


def let_in(server: Server, *hosts: str) -> list[Joining]:
    """One session of each."""
    return [Joining(server, host).comes_in() for host in hosts]


def joined(server: Server) -> None:
    """Two sessions of B are one host, which is lost with the last of them."""
    first = Joining(server).comes_in()
    first.ask(CHECKED)
    second = Joining(server, session=2).comes_in()
    server.reported.wait_for(f"vtl: session 2 {OF_B}: its name has 2 sessions now, this one from 127.0.0.1\n")
    second.ask(DONE)
    first.log_out()
    first.is_left()
    server.reported.wait_for(f"session 1 {OF_B}: ended by its LOGOUT")
    second.ask(DONE)
    second.log_out()
    second.is_left()


LINES_OF_ONE_HOST = """\
1 500000000000000b.1 TEST-UNIT-READY 2 - - 02
2 500000000000000b.1 TEST-UNIT-READY 6 TEST-UNIT-READY/NONE/OTHER - 00
3 500000000000000b.1 TEST-UNIT-READY 6 TEST-UNIT-READY/NONE/OTHER - 00
4 500000000000000b.1 LOSS 6 - - 00
"""


def from_another_address(server: Server) -> None:
    """Another machine that has B's name isn't let in."""
    first = Joining(server).comes_in()
    Joining(server, session=2, source=OTHER_ADDRESS).is_kept_out()
    server.reported.wait_for(f"its name is in from 127.0.0.1, and there is no --multipath: {REFUSED}")
    why = re.search(rf"vtl: session 2 before its LOGIN: {name_of('b')} from {OTHER_ADDRESS}:[0-9]+: its name is in", server.reported.text)
    same("whether its name and its address are reported", bool(why), True)
    first.ask(CHECKED)
    first.log_out()


def by_two_paths(server: Server) -> None:
    first = Joining(server).comes_in()
    second = Joining(server, session=2, source=OTHER_ADDRESS).comes_in()
    server.reported.wait_for(f"its name has 2 sessions now, this one from {OTHER_ADDRESS}\n")
    first.ask(CHECKED)
    second.log_out()
    first.log_out()


def nine_sessions(server: Server) -> None:
    sessions = [Joining(server, session=number).comes_in() for number in range(1, 9)]
    Joining(server, session=9).is_kept_out()
    server.reported.wait_for(f"its name has 8 sessions here: {REFUSED}")
    for session in sessions:
        session.log_out()


def full(server: Server) -> None:
    """As many sessions as there are workers: one more hears that at once, and B's own place is to be had."""
    b, c = let_in(server, "b", "c")
    Joining(server, "d").is_kept_out()
    server.reported.wait_for(f"as many sessions are in as there are workers: {REFUSED}")
    again = Joining(server).comes_in()
    b.is_left()
    server.reported.wait_for(f"vtl: session 4 {OF_B}: takes the place of session 1\n")
    c.log_out()
    c.is_left()
    server.reported.wait_for("session 2 of 500000000000000c.1: ended by its LOGOUT")
    (d,) = let_in(server, "d")
    d.log_out()
    again.log_out()


def at_each_portal(server: Server) -> None:
    """As many sessions may be in at each portal, and B is another nexus there."""
    _, other = server.portal("127.0.0.3")
    first, second = Joining(server).comes_in(), Joining(server, place=("127.0.0.3", other)).comes_in()
    first.ask(CHECKED)
    second.ask(CHECKED)
    second.log_out()
    first.log_out()


def silent(server: Server) -> None:
    """Four connections of one address that say nothing keep out a fifth, and nobody from another address."""
    waiting = [Joining(server) for _ in range(4)]
    server.reported.wait_for("vtl: session 4 begins\n")
    Joining(server).is_left()
    server.reported.wait_for("vtl: a connection from 127.0.0.1 is closed: 4 of its address have not logged in\n")
    other = Joining(server, source=OTHER_ADDRESS).comes_in()
    other.log_out()
    other.is_left()
    waiting[0].half_close()
    waiting[0].is_left()
    server.reported.wait_for("session 1 before its LOGIN: ended by the end of input")
    (last,) = let_in(server, "c")
    last.log_out()
    for each in waiting[1:]:
        each.half_close()


def third_goes_on(server: Server) -> None:
    """B takes its own place, and C's session and B's other one go on."""
    b, c = let_in(server, "b", "c")
    other = Joining(server, session=2).comes_in()
    again = Joining(server).comes_in()
    b.is_left()
    c.ask(CHECKED)
    again.ask(CHECKED)
    other.ask(DONE)
    for each in (c, other, again):
        each.log_out()


def keeps_its_number(server: Server) -> None:
    """A connection that takes the place of B's by the number of its session has that number."""
    first = Joining(server).comes_in()
    second = Joining(server).comes_in(first.tsih)
    first.is_left()
    same("the number of the session", second.tsih, first.tsih)
    third = Joining(server, session=2).comes_in()
    if third.tsih in (0, second.tsih):
        raise Wrong("the number of another session", third.tsih, "another one")
    third.log_out()
    second.log_out()


def at_the_socket_too(server: Server) -> None:
    """Frames are refused while the nexus has sessions at the portal."""
    first, second = Joining(server).comes_in(), Joining(server, session=2).comes_in()
    first.log_out()
    first.is_left()
    says(server.connect(), Says(0, LOGIN_OF_B, ALREADY_CONNECTED))
    second.log_out()


ONE, TWO = "the-first-secret", "the-second-secret"


def by_two_secrets(server: Server) -> None:
    """A further session has to show the same user's secret as the first."""
    first, second, other = Joining(server), Joining(server, session=2), Joining(server, session=3)
    first.proves("one", ONE)
    first.reads(PROVED)
    second.proves("two", TWO)
    second.hears_no_room()
    server.reported.wait_for(f"its name is in by another line of the secrets file: {REFUSED}")
    other.proves("one", ONE)
    other.reads(PROVED)
    other.log_out()
    first.log_out()


def sas_of(name: str) -> int:
    """The SAS address that a name stands for."""
    return 5 << 60 | int.from_bytes(hashlib.sha256(name.encode()).digest()[:8], "big") >> 4


STRANGER = name_of("stranger")


def another_name(server: Server) -> None:
    """A host that isn't named has the SAS address that was given to another name."""
    first = Joining(server, "named").comes_in()
    Joining(server, "stranger", session=2).is_kept_out()
    server.reported.wait_for(f"another name has its SAS address: {REFUSED}")
    first.log_out()


# So many hosts at two portals leave two slots.
MANY = 63


def strangers(server: Server) -> None:
    """Two hosts that aren't named are let in, and no third one; the first comes in again, and a named one too."""
    for host in ("s1", "s2"):
        (session,) = let_in(server, host)
        session.log_out()
        session.is_left()
    for host in ("s3", "s4"):
        Joining(server, host).is_kept_out()
    server.reported.wait_for("session 4 before its LOGIN: ended by a fault")
    reported = re.findall(f"hosts that are named need the slots that are left: {REFUSED}", server.reported.text)
    same("how often that is reported", len(reported), 1)
    for session in let_in(server, "s1", "n00"):
        session.log_out()


def gap(server: Server) -> None:
    """Command 1 doesn't come, and 2 is passed over."""
    b = Joining(server).comes_in()
    b.asks_by_number(2)
    server.reported.wait_for(f"vtl: session 1 {OF_B}: command number 1 did not come, and those after it are ignored\n")
    b.ask(CHECKED)
    b.ask(DONE)
    b.log_out()


def unknown(server: Server) -> None:
    """The name and the address of an initiator that isn't let in are reported."""
    stranger = Joining(server, "nobody")
    stranger.asks_in()
    same("the status of its login", f"{stranger.receive().login_status:04x}", f"{AUTHORIZATION_FAILURE:04x}")
    stranger.is_left()
    server.reported.wait_for("login refused: its name is not let in\n")
    port = stranger.connection.getsockname()[1]
    refusal = f"vtl: session 1 before its LOGIN: {name_of('nobody')} from 127.0.0.1:{port}: login refused"
    holds("what is reported", server.reported.text, refusal)
    nameless = Joining(server)
    nameless.send(ready(1, 0))
    server.reported.wait_for("login refused: another PDU came\n")
    holds("what is reported", server.reported.text, "vtl: session 2 before its LOGIN: an initiator without a name from 127.0.0.1:")


def discovered(server: Server, place: tuple[str, int]) -> list[str]:
    """Where a discovery session finds the target."""
    with Joining(server, place=place) as b:
        b.send(login(TO_FULL, text_of(f"InitiatorName={b.full_name()}", "SessionType=Discovery"), cid=0, isid=b.isid))
        b.reads(LET_IN)
        b.send(text(1, text_of("SendTargets=All")))
        found = b.receive().data.decode().split("\0")
        b.number = 2
        b.log_out()
    return [item.partition("=")[2] for item in found if item.startswith("TargetAddress=")]


def everywhere(server: Server) -> None:
    """A portal at all addresses of both families is found at the one that a host has come to."""
    _, port = server.portal("[::]")
    same("by IPv4", discovered(server, ("127.0.0.1", port)), [f"127.0.0.1:{port},1"])
    same("by IPv6", discovered(server, ("::1", port)), [f"[::1]:{port},1"])


def forwarded(server: Server) -> None:
    same("where it is found", discovered(server, server.portal()), ["backup.example.org:3261,1"])


class Meeting(typing.NamedTuple):
    """What it shows, other words of the command line, what is played, and the server's lines, where they are compared."""

    shows: str
    words: typing.Sequence[str]
    talk: typing.Callable[[Server], None]
    lines: str | None = None
    portals: typing.Sequence[str] = ("127.0.0.1:0",)
    hosts: typing.Sequence[str] = (*HOSTS, "--host", f"{name_of('d')}=500000000000000d")
    # The text of the file of secrets, where hosts have to show theirs.
    secrets: str | None = None


def hosts_named(count: int) -> list[str]:
    return [word for number in range(count) for word in ("--host", f"{name_of(f'n{number:02}')}={0x5000000000000200 + number:016x}")]


MEETINGS = {
    "joined": Meeting("two sessions of a name are one host, which is lost with the last", [], joined, LINES_OF_ONE_HOST),
    "other-address": Meeting("a further session of a name from another address isn't let in", [], from_another_address),
    "multipath": Meeting("with --multipath it is", ["--multipath"], by_two_paths),
    "nine-sessions": Meeting("a name has eight sessions at most", [], nine_sessions),
    "full": Meeting("as many sessions as workers, and one takes its own place", ["--workers", "2"], full),
    "at-each-portal": Meeting(
        "as many sessions may be in at each portal as there are workers", ["--workers", "1"], at_each_portal,
        portals=("127.0.0.1:0", "127.0.0.3:0")),
    "silent": Meeting("four connections of an address may be before their login", ["--workers", "1"], silent),
    "third-goes-on": Meeting("a session's place is taken beside others, which go on", [], third_goes_on),
    "keeps-number": Meeting("a connection in the place of another keeps the session's number", [], keeps_its_number),
    "portal-then-socket": Meeting("a nexus with a session at a portal is refused at the socket", [], at_the_socket_too),
    "another-secret": Meeting(
        "a further session shows the secret that the first has shown", [], by_two_secrets,
        secrets=f"{name_of('b')} one {ONE}\n{name_of('b')} two {TWO}\n"),
    "another-name": Meeting(
        "two names with one SAS address aren't one host", ["--any-host"], another_name,
        hosts=["--host", f"{name_of('named')}={sas_of(STRANGER):016x}"]),
    "strangers": Meeting(
        "hosts that aren't named leave slots to those that are", ["--any-host"], strangers, portals=("127.0.0.1:0", "127.0.0.3:0"),
        hosts=hosts_named(MANY)),
    "gap": Meeting("a command number that doesn't come is told", [], gap),
    "unknown": Meeting("a login that is refused is told with its name and its address", [], unknown),
    "everywhere": Meeting(
        "a portal at [::] is found by the address that was come to", ["--no-authentication"], everywhere, portals=("[::]:0",)),
    "forwarded": Meeting("a portal is found where it is said to be", [], forwarded, portals=("127.0.0.1:0=backup.example.org:3261",)),
}


def row(name: str, of: Meeting) -> Row:
    def play(tried: Tried) -> None:
        portals = [word for portal in of.portals for word in ("--iscsi", portal)]
        secrets = secret_words(tried, of.secrets) if of.secrets else []
        with Server(tried, *portals, *of.hosts, "--log", *of.words, *secrets) as server:
            of.talk(server)
            server.end()
            server.ends()
            if of.lines is not None:
                same_lines(server.lines(), of.lines)

    return Row(name, of.shows, play)


ROWS = [row(*each) for each in MEETINGS.items()]
