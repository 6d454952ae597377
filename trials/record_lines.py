"""The lines of a served library's records: which unit each is of, and whether judgement gives it there.

A line doesn't name its unit. But each unit numbers its records from 1 on without a gap, so a line is of a unit whose last line so far has
the number before its own. Where that holds of several units, it must be a command that this kind of unit has, a volume that came into an
empty drive or was taken out of a full one, or the loss of a nexus that has a slot there; and its cell must be that of the reservation
which the commands before it have left. If several are still left, each of these ways is followed until later lines decide.
"""
import re
import typing

PLACES_OF_NAMES = 27
PLACES_OF_TYPES = 7

LINE = re.compile(r"([1-9][0-9]*) (-|[0-9a-f]{16}\.[1-4]) (\S+) ([1-6]) (\S+) (-|K[1-6]) ([0-9a-f]{2})")

# Classes of commands, by the names that the permission table has for them.
RESERVE_OUT = {"REGISTER", "RESERVE", "RELEASE", "CLEAR", "PREEMPT", "PREEMPT-ABORT", "REGISTER-IGNORE", "REGISTER-MOVE"}
OF_CHANGERS = {"READ-ELEMENT-STATUS-CURDATA", "READ-ELEMENT-STATUS", "MOVE-MEDIUM", "INIT-ELEMENT-STATUS"}
OF_DRIVES = {
    "READ-BLOCK-LIMITS", "READ-POSITION", "READ(6)", "SPACE(6)", "LOCATE(10)", "REWIND", "MODE-SELECT(6)", "WRITE(6)",
    "WRITE-FILEMARKS(6)", "ERASE(6)", "LOAD-UNLOAD"}
# They report no unit attention condition by CHECK CONDITION.
PASS_OVER = {"INQUIRY", "REPORT-LUNS", "REQUEST-SENSE"}
# Once their fields are right, no device refuses them.
OF_EVERY_UNIT = PASS_OVER | RESERVE_OUT | {"PR-IN", "PREVENT-REMOVAL", "ALLOW-REMOVAL"}
# They have no field that could be refused.
WITHOUT_FIELDS = {
    "TEST-UNIT-READY", "REWIND", "READ-BLOCK-LIMITS", "INIT-ELEMENT-STATUS", "ERASE(6)", "READ-POSITION", "PR-IN", "ALLOW-REMOVAL"}
# What a rule on keys may refuse.
RULES = {
    "K1": {"REGISTER"}, "K2": {"REGISTER"}, "K3": RESERVE_OUT - {"REGISTER", "REGISTER-IGNORE"}, "K4": {"RESERVE"},
    "K5": {"PREEMPT", "PREEMPT-ABORT"}, "K6": {"REGISTER-MOVE"}}
# The records of what no nexus asked for.
WITHOUT_NEXUS = {"RESET", "MEDIUM-IN", "MEDIUM-OUT"}
DONE = (6, "-", "-", "00")
ALL_REGISTRANTS = {"WEAR", "EAAR"}


class Line(typing.NamedTuple):
    """A line's words."""
    number: int
    nexus: str
    what: str
    stage: int
    cell: str
    rule: str
    status: str


class Act(typing.NamedTuple):
    """What a PERSISTENT RESERVE OUT command asked for: the type by its name, RESERVATION KEY and SERVICE ACTION RESERVATION KEY."""
    held: str
    key: int
    other: int


class Reported(typing.NamedTuple):
    """What was reported to a host of a record, and what it had asked for by PERSISTENT RESERVE OUT."""
    nexus: str
    what: str
    status: str
    act: typing.Optional[Act] = None


class WrongLine(Exception):
    """A line that can't stand where it stands."""


def words_of(text):
    """The words of a line."""
    match = LINE.fullmatch(text)
    if match is None:
        raise WrongLine(f"{text!r} has not the form of a line")
    number, nexus, what, stage, *rest = match.groups()
    return Line(int(number), nexus, what, int(stage), *rest)


def permission_table(chart):
    """The table that `vtl cells` prints: `A` or `C` by `CLASS/TYPE/ROLE`. Where a role can't occur under a type there is no cell."""
    types, roles, *rows = chart.splitlines()
    names = {name[0]: name for name in roles[:PLACES_OF_NAMES].split()}
    cells = {}
    for row in rows:
        for place in range(PLACES_OF_NAMES, len(row)):
            if row[place] != " ":
                start = place - (place - PLACES_OF_NAMES) % PLACES_OF_TYPES
                held = types[start:start + PLACES_OF_TYPES].strip()
                cells[f"{row[:PLACES_OF_NAMES].rstrip()}/{held}/{names[roles[place]]}"] = row[place]
    return cells


def fault_of(line, cells):
    """Why judgement never gives such a line, or None where it may. The table has `cells`."""
    end = line[3:]
    if line.nexus == "-" or line.what in WITHOUT_NEXUS or line.what == "LOSS":
        has_nexus = line.what == "LOSS"
        right = end == DONE and (line.nexus != "-") == has_nexus and (has_nexus or line.what in WITHOUT_NEXUS)
        return None if right else "no event is recorded so"
    if line.what == "INVALID":
        return None if end == (1, "-", "-", "02") else "bytes that spell no command are CHECK CONDITION at stage 1"
    if line.stage == 1:
        return "a command that its bytes spell has passed stage 1"
    if line.stage == 2:
        right = end == (2, "-", "-", "02") and line.what not in PASS_OVER
        return None if right else "stage 2 tells of a power on, reset or loss, and has no cell"
    mark = cells.get(line.cell)
    if mark is None or line.cell.partition("/")[0] != line.what:
        return "the cell isn't one of this class"
    return fault_at_check(line, mark) if line.stage == 3 else fault_behind_check(line, mark)


def fault_at_check(line, mark):
    """The same of a line of the reservation check, whose cell has this mark."""
    if line.status != "18":
        return "the reservation check answers by RESERVATION CONFLICT alone"
    if mark == "C":
        return None if line.rule == "-" else "where the cell conflicts no rule on keys is asked"
    if line.rule == "-":
        return "the cell allows it and no rule on keys is named"
    _, held, role = line.cell.split("/")
    right = line.what in RULES[line.rule] and (line.rule != "K4" or role == "HOLDER") and (line.rule != "K6" or held in ALL_REGISTRANTS)
    return None if right else "this rule on keys says nothing of such a command"


def fault_behind_check(line, mark):
    """The same of a line after the reservation check."""
    if mark != "A" or line.rule != "-":
        return "a conflict was let through"
    if line.stage == 4:
        return None if line.status == "02" and line.what not in PASS_OVER else "stage 4 tells of a condition"
    if line.stage == 5:
        return None if line.status == "02" and line.what not in WITHOUT_FIELDS else "stage 5 refuses a field"
    if line.status not in ("00", "02"):
        return "a device answers GOOD or CHECK CONDITION"
    return "no device refuses it" if line.status == "02" and line.what in OF_EVERY_UNIT else None


class Reservations:
    """The keys and the reservation of a unit, after the PERSISTENT RESERVE OUT commands that it accepted. REGISTER AND MOVE isn't
    followed."""

    def __init__(self):
        self.keys = {}
        self.held = "NONE"
        self.holder = None

    def copy(self):
        other = Reservations()
        other.keys, other.held, other.holder = self.keys.copy(), self.held, self.holder
        return other

    def key(self):
        return frozenset(self.keys.items()), self.held, self.holder

    def role(self, nexus):
        if nexus not in self.keys:
            return "OTHER"
        return "HOLDER" if nexus == self.holder or self.held in ALL_REGISTRANTS else "REGISTERED"

    def broken_rule(self, nexus, what, act):
        """The rule on keys that a command breaks, or a dash."""
        own = self.keys.get(nexus)
        if what == "REGISTER":
            if act.key == (own or 0):
                return "-"
            return "K1" if own is None else "K2"
        if what == "REGISTER-IGNORE":
            return "-"
        if own is None or act.key != own:
            return "K3"
        if what == "RESERVE" and self.role(nexus) == "HOLDER" and act.held != self.held:
            return "K4"
        if what in RULES["K5"] and act.other and act.other not in self.keys.values():
            return "K5"
        return "-"

    def accept(self, nexus, what, act):
        """The command was GOOD."""
        if what in ("REGISTER", "REGISTER-IGNORE"):
            self.keys[nexus] = act.other
        elif what == "RESERVE" and self.held == "NONE":
            self.held, self.holder = act.held, nexus
        elif what == "RELEASE" and self.role(nexus) == "HOLDER":
            self.held = "NONE"
        elif what == "CLEAR":
            self.keys = {}
        elif what in RULES["K5"]:
            self.preempt(nexus, act)
        self.keys = {it: key for it, key in self.keys.items() if key}
        # A reservation goes with its holder's key, or with the last one.
        if not self.keys if self.held in ALL_REGISTRANTS else self.holder not in self.keys:
            self.held = "NONE"
        if self.held == "NONE" or self.held in ALL_REGISTRANTS:
            self.holder = None

    def preempt(self, nexus, act):
        """PREEMPT takes a reservation of all registrants by key 0, another by its holder's key; otherwise it ends registrations alone."""
        is_all = self.held in ALL_REGISTRANTS
        if self.held != "NONE" and act.other == (0 if is_all else self.keys[self.holder]):
            self.keys = {it: key for it, key in self.keys.items() if it == nexus or not (is_all or key == act.other)}
            self.held, self.holder = act.held, nexus
        else:
            self.keys = {it: key for it, key in self.keys.items() if key != act.other}

    def judges(self, line, act):
        """Whether the reservation check decides of a command as its line says: what it asked for is known, or it changed nothing."""
        if line.cell == "-":
            return True
        if line.cell != f"{line.what}/{self.held}/{self.role(line.nexus)}":
            return False
        if line.what not in RESERVE_OUT:
            return True
        if act is None:
            return line.status != "00"
        # A cell that conflicts does so whatever the keys are: each line was compared with the table by itself.
        return line.rule == self.broken_rule(line.nexus, line.what, act) or (line.stage == 3 and line.rule == "-")


class Trails:
    """The trails of the units, at one way of giving each line so far to a unit. Unit 0 is the changer."""

    def __init__(self, units):
        self.last = [0] * units
        self.brought = [0] * units
        self.taken = [0] * units
        self.reservations = [Reservations() for _ in range(units)]
        # Pairs of unit and nexus: which have had contact, to which a power on, reset or loss is still to be reported, and which
        # have sent something since their last loss.
        self.slots = set()
        self.untold = set()
        self.unlost = set()

    def copy(self):
        other = Trails(0)
        for name, value in vars(self).items():
            setattr(other, name, value.copy())
        other.reservations = [it.copy() for it in self.reservations]
        return other

    def key(self):
        """Equal for trails that go on alike."""
        lists = (self.last, self.brought, self.taken, [it.key() for it in self.reservations])
        return (*map(tuple, lists), *map(frozenset, (self.slots, self.untold, self.unlost)))

    def is_next(self, unit, line, act):
        """Whether a line, of a command that asked for this, may be the next of a unit."""
        if line.number != self.last[unit] + 1 or line.what in (OF_CHANGERS if unit else OF_DRIVES):
            return False
        if line.nexus == "-":
            volumes = {"MEDIUM-IN": 0, "MEDIUM-OUT": 1}
            return line.what == "RESET" or (unit > 0 and self.brought[unit] - self.taken[unit] == volumes[line.what])
        place = unit, line.nexus
        if line.what == "LOSS":
            return place in self.slots
        # A first command, and one after a loss or a reset, is notified of it before its reservation is looked at.
        is_told = place in self.slots and place not in self.untold
        is_in_turn = is_told or line.stage == 2 or line.what == "INVALID" or line.what in PASS_OVER
        return is_in_turn and self.reservations[unit].judges(line, act)

    def add(self, unit, line, act):
        """The line is the next of this unit."""
        self.last[unit] = line.number
        place = unit, line.nexus
        if line.what == "MEDIUM-IN":
            self.brought[unit] += 1
        elif line.what == "MEDIUM-OUT":
            self.taken[unit] += 1
        elif line.what == "RESET":
            self.untold |= {slot for slot in self.slots if slot[0] == unit}
        elif line.what == "LOSS":
            self.untold.add(place)
            self.unlost.discard(place)
        else:
            self.add_command(place, line, act)

    def add_command(self, place, line, act):
        if place not in self.slots:
            self.slots.add(place)
            self.untold.add(place)
        self.unlost.add(place)
        if line.stage == 2 or (line.what == "REQUEST-SENSE" and line.stage == 6):
            self.untold.discard(place)
        if act and line.status == "00":
            self.reservations[place[0]].accept(line.nexus, line.what, act)


class Reader:
    """Gives lines to units, in the order in which they were printed."""

    def __init__(self, cells, units, may_reach, reported):
        self.cells = cells
        self.units = range(units)
        # Whether a nexus sends anything to a unit.
        self.may_reach = may_reach
        # What was reported to hosts, by unit and number.
        self.reported = reported
        self.ways = [Trails(units)]

    def read(self, text):
        """One line more, in its words. `WrongLine` where it isn't legal, or is of no unit."""
        line = words_of(text)
        fault = fault_of(line, self.cells)
        if fault is not None:
            raise WrongLine(f"{text}: {fault}")
        after = [(trails, unit) for trails in self.ways for unit in self.units if self.is_of(trails, unit, line)]
        if not after:
            raise WrongLine(f"{text}: the next of no unit, where these are the last: {[trails.last for trails in self.ways]}")
        if len(after) == 1:
            trails, unit = after[0]
            trails.add(unit, line, self.act_of(unit, line))
            self.ways = [trails]
        else:
            self.ways = self.part(after, line)
        return line

    def act_of(self, unit, line):
        reported = self.reported.get((unit, line.number))
        return reported and reported.act

    def is_of(self, trails, unit, line):
        if line.nexus != "-" and not self.may_reach(line.nexus, unit):
            return False
        reported = self.reported.get((unit, line.number))
        if reported and reported[:3] != (line.nexus, line.what, line.status):
            return False
        return trails.is_next(unit, line, reported and reported.act)

    def part(self, after, line):
        """Each way on, of those that go on alike one."""
        ways = {}
        for trails, unit in after:
            way = trails.copy()
            way.add(unit, line, self.act_of(unit, line))
            ways[way.key()] = way
        return list(ways.values())
