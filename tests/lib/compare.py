"""What a row compares, and how it is wrong."""
import itertools


class Wrong(Exception):
    """What a row shows isn't so."""

    def __init__(self, what: str, got: object, wanted: object):
        super().__init__(what, got, wanted)
        self.what, self.got, self.wanted = what, got, wanted

    def __str__(self) -> str:
        return f"{self.what}: got {shown(self.got)}, wanted {shown(self.wanted)}"


# How many characters of what came and of what was wanted are printed.
SHOWN = 1000


def shown(value: object) -> str:
    text = repr(value)
    return text if len(text) <= SHOWN else f"{text[:SHOWN]}.. ({len(text)} characters)"


def same(what: str, got: object, wanted: object) -> None:
    if got != wanted:
        raise Wrong(what, got, wanted)


def same_one_by_one(what: str, got: list, wanted: list) -> None:
    """Compares lists, and names the first place where they differ."""
    for place, (one, other) in enumerate(zip(got, wanted), 1):
        same(f"{what}, number {place} of them", one, other)
    same(f"how many {what} there are", len(got), len(wanted))


def same_lines(got: str, wanted: str) -> None:
    """Compares the lines of records, and names the first that is another one."""
    for number, (one, other) in enumerate(itertools.zip_longest(got.splitlines(), wanted.splitlines(), fillvalue="no line"), 1):
        same(f"line {number} of the records", one, other)
    same("the lines of the records", got, wanted)


def holds(what: str, text: str, part: str) -> None:
    if part not in text:
        raise Wrong(what, text, f"{part!r} in it")


def lacks(what: str, text: str, part: str) -> None:
    if part in text:
        raise Wrong(what, text, f"no {part!r} in it")
