"""Scenes at a portal: what an initiator sends, what it is answered byte for byte, how its session ends, and what its units have of it.

The scenes of a table are played one after another at one server. The lines of a scene's records are those of its own initiator. After a
scene that writes, the host at the socket looks at the tape, and winds it back.
"""
import time
import typing

import scsi
from compare import Wrong, holds
from pdus import (
    AUTHENTICATION_FAILURE, AUTHORIZATION_FAILURE, CHANGER, DRIVE, GROUP, INITIATOR_ERROR, INVALID_DURING_LOGIN, ISID, MISSING_PARAMETER,
    NAMES, NONE, NOT_FOUND, NO_SUCH_SESSION, OUT_OF_RESOURCES, POWER_ON, TARGET_ERROR, TOO_MANY_CONNECTIONS, TO_FULL, TYPE_NOT_SUPPORTED,
    UNSUPPORTED_VERSION, checked, let_on, login, ready, refused)
from play import IS_OVER, Choice, Found, Tried, fault_of
from server import Server, secret_words
from stage import Pdu, Stage, Step, address_of, await_reading, name_of
from term import PATIENCE, is_over

# How a session ends, as it is reported: by whom, or by its fault.
CLOSED, CUT, OUT = "ended by the end of input", "ended within a frame", "ended by its LOGOUT"
SILENT = "nothing came in time"
# What a unit has of a session: its first command, what it did, and the loss, each with its status.
FIRST, LOSS = "TEST-UNIT-READY 02", "LOSS 00"
TEST, WRITE, READ, INQUIRE, RESET = "TEST-UNIT-READY 00", "WRITE(6) 00", "READ(6) 00", "INQUIRY 00", "RESET 00"


# What is done in a scene.

def sends(*pdus: Pdu) -> Step:
    def do(stage: Stage) -> None:
        stage.one.send(*map(stage.made, pdus))

    return do


def gets(*pdus: Pdu) -> Step:
    def do(stage: Stage) -> None:
        for number, pdu in enumerate(pdus, 1):
            stage.one.gets(stage.made(pdu), f"answer {number} of {len(pdus)}")

    return do


def sends_by(size: int, *pdus: Pdu) -> Step:
    """Sends in pieces of so many bytes, each once the server has read those before."""
    def do(stage: Stage) -> None:
        data = b"".join(map(stage.made, pdus))
        for at in range(0, len(data), size):
            stage.one.connection.sendall(data[at:at + size])
            await_reading(stage.one.connection)

    return do


def sends_first(count: int, pdu: bytes) -> Step:
    """Sends so many bytes of a PDU, and waits until the server has read them."""
    def do(stage: Stage) -> None:
        stage.one.send(pdu[:count])
        await_reading(stage.one.connection)

    return do


def sends_rest(count: int, pdu: bytes) -> Step:
    return lambda stage: stage.one.send(pdu[count:])


def connects(stage: Stage) -> None:
    """The initiator comes by one more connection, which what follows goes over."""
    stage.connect()


def is_left(stage: Stage) -> None:
    """Reads the end, which the initiator hasn't asked for."""
    stage.one.is_left()


def by_the_first(step: Step) -> Step:
    """Does something by the first of two connections."""
    def do(stage: Stage) -> None:
        last = stage.initiators.pop()
        try:
            step(stage)
        finally:
            stage.initiators.append(last)

    return do


def begins(text: bytes = NAMES, reported: bytes = GROUP, number: int = 1, cid: int = 2, isid: str = ISID) -> list[Step]:
    """A login to full feature by this text, and a first command at each unit, which takes up no number. The next StatSN is 3."""
    window = (number, (number + 31) & NONE)
    return [
        sends(login(TO_FULL, text, number, cid=cid, isid=isid)), gets(let_on(TO_FULL, reported, (0, *window), isid)),
        sends(ready(98, number, CHANGER, now=True), ready(99, number, DRIVE, now=True)),
        gets(checked(98, (1, *window), POWER_ON), checked(99, (2, *window), POWER_ON))]


# How a login is reported to be refused.
REFUSALS = {
    INITIATOR_ERROR: "bad request or key", AUTHENTICATION_FAILURE: "authentication failed",
    AUTHORIZATION_FAILURE: "its name is not let in", NOT_FOUND: "no such target", UNSUPPORTED_VERSION: "no such version",
    TOO_MANY_CONNECTIONS: "a session with a second connection", MISSING_PARAMETER: "a key is missing",
    TYPE_NOT_SUPPORTED: "no such type of session", NO_SUCH_SESSION: "no such session", INVALID_DURING_LOGIN: "another PDU came",
    TARGET_ERROR: "fault of the target", OUT_OF_RESOURCES: "already connected, or no room"}


class Scene(typing.NamedTuple):
    """What it shows, what is done, and how its session ends; what that did at the drive and at the changer, where it began by `begins`, or
    `None` where it came to no unit; the block that is on the tape then, nothing where none is, or `None` where nobody looks; what else is
    reported of its session, and by which portal it comes."""

    shows: str
    steps: typing.Sequence[Step]
    ended: str = CLOSED
    drive: typing.Sequence[str] | None = ()
    changer: typing.Sequence[str] = ()
    tape: bytes | None = None
    reported: str = ""
    portal: int = 0


class Turn(typing.NamedTuple):
    """A Login Request and its response: T, C and the stages of both, and their texts; of the response they are those of the request where
    nothing else is said. With a status the login is refused. And of the request the least version, CmdSN and the session's number."""

    flags: int
    text: Pdu
    reported: Pdu = b""
    back: int | None = None
    status: int = 0
    least: int = 0
    number: int = 1
    tsih: int = 0


def turn(number: int, of: Turn) -> list[Step]:
    """A turn, whose response has this StatSN, and the window from the CmdSN of the request on."""
    back = of.flags if of.back is None else of.back
    at = (number, of.number, of.number + 31)

    def asked(stage: Stage) -> bytes:
        return login(of.flags, stage.made(of.text), of.number, of.tsih, least=of.least, most=of.least)

    def reported(stage: Stage) -> bytes:
        return refused(back, of.status, at, of.tsih) if of.status else let_on(back, stage.made(of.reported), at)

    return [sends(asked), gets(reported)]


def login_scene(shows: str, *turns: Turn) -> Scene:
    """A login turn by turn. Where it isn't refused the initiator closes after it."""
    steps = [step for number, of in enumerate(turns) for step in turn(number, of)]
    status = turns[-1].status
    return Scene(shows, steps, f"login refused: {REFUSALS[status]}" if status else CLOSED, drive=None)


def under(shows: str, *scenes: Scene) -> list[Scene]:
    """Scenes that show this together."""
    return [scene._replace(shows=f"{shows}: {scene.shows}") for scene in scenes]


class Table(typing.NamedTuple):
    """Scenes at one server, where its portals are, its other words, and which time is how short. They are rows that are played at one
    go."""

    name: str
    scenes: typing.Sequence[Scene]
    portals: typing.Sequence[str] = ("127.0.0.1:0",)
    words: typing.Sequence[str] = ()
    times: dict[str, int] = {}
    # Of hosts, the text of the file of their secrets, where they are to prove themselves.
    secrets: typing.Callable[[typing.Iterable[str]], str] | None = None
    # What the host at the socket does first.
    before: Step | None = None

    def titles(self) -> list[str]:
        return [*(scene.shows for scene in self.scenes), f"the server of {self.name} ends well"]

    def chosen(self, choice: Choice) -> "Table | None":
        scenes = [scene for scene in self.scenes if choice(self.name, scene.shows)]
        return self._replace(scenes=scenes) if scenes else None

    def found(self, tried: Tried) -> list[Found]:
        return list(zip(self.titles(), faults_of(tried, self), strict=True))


# A scene is wrong, and whether those after it can be played.
Fault = tuple[str, bool]


def fault_in(stage: Stage, scene: Scene) -> Fault | None:
    if is_over():
        return IS_OVER, False
    begun = time.monotonic()
    try:
        stage.connect(scene.portal)
        for step in scene.steps:
            step(stage)
        end(stage, scene)
    except (Wrong, AssertionError, OSError) as error:
        fault = fault_of(error)
    else:
        return None
    if is_over():
        return IS_OVER, False
    is_alive = time.monotonic() - begun < PATIENCE / 4
    if is_alive:
        # The next scene begins at the beginning of the tape.
        stage.host.command(scsi.DRIVE, scsi.TEST_UNIT_READY)
        stage.host.command(scsi.DRIVE, scsi.REWIND)
    return fault, is_alive


def end(stage: Stage, scene: Scene) -> None:
    """Has the session end, and compares how that is reported, and what was written."""
    one = stage.one
    if scene.ended in (CLOSED, CUT):
        one.half_close()
    one.is_left()
    reported = stage.reported_of(one)
    if scene.ended in (CLOSED, CUT, OUT):
        holds("how it is reported to end", reported, f": {scene.ended} after ")
    else:
        holds("how it is reported to end", reported, f": {scene.ended}\n")
        holds("how it is reported to end", reported, ": ended by a fault after ")
    holds("what is reported of the session", reported, scene.reported)
    if scene.drive is not None and not scene.ended.startswith("login refused"):
        holds("what is reported", stage.server.reported.text, f"of {stage.nexus(scene.portal)}: {name_of(stage.scene)} logged in\n")
    if scene.tape is not None:
        stage.look_at_tape(scene.tape)


def lines_by_unit(lines: str) -> list[list[list[str]]]:
    """The words of the lines of each unit: its numbers begin with 1."""
    units: list[list[list[str]]] = []
    for line in lines.splitlines():
        fields = line.split()
        if fields[0] == "1":
            units.append([])
        units[-1].append(fields)
    return units


def did_at(unit: list[list[str]], nexus: str) -> list[str]:
    """What a nexus did at a unit, and what was done there in the meantime by none."""
    places = [at for at, fields in enumerate(unit) if fields[1] == nexus]
    within = unit[places[0]:places[-1] + 1] if places else []
    return [f"{fields[2]} {fields[-1]}" for fields in within if fields[1] in (nexus, "-")]


def differing_lines(units: list[list[list[str]]], scene: Scene, nexus: str) -> str | None:
    """How what the units have of a scene differs, if it does."""
    for name, unit, did in zip(("changer", "drive"), units, (scene.changer, scene.drive), strict=True):
        wanted = [] if scene.drive is None else [FIRST, *(did or ()), LOSS]
        got = did_at(unit, nexus)
        if got != wanted:
            return f"what the {name} has of it: got {got!r}, wanted {wanted!r}"
    return None


def faults_of(tried: Tried, table: Table) -> list[str | None]:
    """Plays a table: how each scene differs, if it does; and at last whether its server ends well."""
    hosts = [word for number in range(len(table.scenes)) for word in ("--host", f"{name_of(number)}={address_of(number):016x}")]
    portals = [word for portal in table.portals for word in ("--iscsi", portal)]
    names = map(name_of, range(len(table.scenes)))
    secrets = secret_words(tried, table.secrets(names)) if table.secrets else []
    with Server(tried, *portals, *hosts, "--workers", "4", "--log", *table.words, *secrets, **table.times) as server:
        stage = Stage(server)
        if table.before is not None:
            table.before(stage)
        faults = play_scenes(stage, table)
        try:
            stage.leave()
            server.end()
            server.ends()
            units = lines_by_unit(server.lines())
            for number, scene in enumerate(table.scenes):
                stage.scene = number
                faults[number] = faults[number] or differing_lines(units, scene, stage.nexus(scene.portal))
        except (Wrong, OSError) as error:
            return [*faults, fault_of(error)]
    return [*faults, None]


def play_scenes(stage: Stage, table: Table) -> list[str | None]:
    faults: list[str | None] = []
    can_go_on = True
    for number, scene in enumerate(table.scenes):
        stage.scene = number
        fault, can_go_on = (fault_in(stage, scene) or (None, True)) if can_go_on else ("not played, after one that hung", False)
        faults.append(fault)
        stage.close()
    return faults
