"""How a program plays its rows: next to each other, each in a folder of its own, and all of them in time."""
import argparse
import collections
import concurrent.futures
import dataclasses
import os
import sys
import tempfile
import traceback
import typing

import term
from compare import Wrong, shown

IS_OVER = "not played to its end, since the time for all rows is over"
# How many parts go on next to each other. Those that wait for a time are begun first.
AT_ONCE = 8
# Seconds that all rows of a program may take, where it says nothing else.
TERM = 80
# What a row shows, and how it differs, if it does.
Found = tuple[str, str | None]
# Whether a row is chosen, by its name and by what it shows.
Choice = typing.Callable[[str, str], bool]


@dataclasses.dataclass(frozen=True)
class Tried:
    """The program that is tried, and a folder of a row's own."""

    program: str
    folder: str

    def path(self, name: str) -> str:
        return os.path.join(self.folder, name)


class Row(typing.NamedTuple):
    """A row: its name, where it has one, what it shows, and how it is played, which is `Wrong` where that isn't so."""

    name: str
    shows: str
    play: typing.Callable[[Tried], None]

    def titles(self) -> list[str]:
        return [f"{self.name}: {self.shows}" if self.name else self.shows]

    def chosen(self, choice: Choice) -> "Row | None":
        return self if choice(self.name, self.shows) else None

    def found(self, tried: Tried) -> list[Found]:
        self.play(tried)
        return [(title, None) for title in self.titles()]


class Part(typing.Protocol):
    """A row, or several that are played at one go."""

    @property
    def name(self) -> str: ...

    def titles(self) -> list[str]: ...

    def chosen(self, choice: Choice) -> "Part | None": ...

    def found(self, tried: Tried) -> list[Found]: ...


def row_of(check: typing.Callable[..., None], shows: str, *given: typing.Any) -> Row:
    """A row without a name: a check, what it shows, and what it is given after the program and the folder."""
    return Row("", shows, lambda tried: check(tried, *given))


def fault_of(error: Exception) -> str:
    if isinstance(error, Wrong):
        return str(error)
    if isinstance(error, AssertionError):
        return f"got what no answer is: {error}"
    return f"got {shown(error)} in {traceback.format_exc(limit=-1)}"


def found_of(part: Part, program: str) -> list[Found]:
    """Plays a part: what each row shows, and how it differs, if it does."""
    fault = IS_OVER
    if not term.is_over():
        with tempfile.TemporaryDirectory(prefix="vtl-", ignore_cleanup_errors=True) as folder:
            try:
                return part.found(Tried(program, folder))
            except Exception as error:  # pylint: disable=broad-exception-caught
                # Whatever a row comes upon, the others are played.
                fault = IS_OVER if term.is_over() else fault_of(error)
    return [(title, fault) for title in part.titles()]


def chosen_by(parts: typing.Sequence[Part], words: list[str]) -> list[Part]:
    """The parts, each with its rows that have one of these names, or one of these words in what they show; all where no word is given."""
    counts = collections.Counter(part.name for part in parts if part.name)
    twice = [name for name, count in counts.items() if count > 1]
    if twice:
        sys.exit(f"rows of one name: {twice}")
    met: set[str] = set()

    def choice(name: str, shows: str) -> bool:
        found = [word for word in words if word == name or word in shows and word not in counts]
        met.update(found)
        return bool(found)

    chosen = [found for part in parts if (found := part.chosen(choice))] if words else list(parts)
    unknown = [word for word in words if word not in met]
    if unknown:
        sys.exit(f"words of no row: {unknown}")
    return chosen


def play(parts: typing.Sequence[Part], description: str, at_once: int = AT_ONCE, seconds: float = TERM) -> int:
    """Plays the rows that the command line names, and prints those that failed: the status that the program ends with."""
    options = argparse.ArgumentParser(description=description)
    options.add_argument("program", metavar="PROGRAM", type=os.path.abspath)
    options.add_argument("names", metavar="NAME", nargs="*", help="a row's name, or words of what it shows; all rows where none is given")
    given = options.parse_args()
    chosen = chosen_by(parts, given.names)
    term.end_in(seconds)
    with concurrent.futures.ThreadPoolExecutor(at_once) as pool:
        found = [each for part in pool.map(lambda part: found_of(part, given.program), chosen) for each in part]
    return report(found)


def report(found: typing.Sequence[Found]) -> int:
    """Prints the rows that differ, and how many passed and failed: the status that the program ends with."""
    differing = [f"{shows}: {' | '.join(fault.splitlines())}" for shows, fault in found if fault]
    print("".join(f"{line}\n" for line in differing), end="")
    print(f"{len(found) - len(differing)} passed, {len(differing)} failed")
    return int(bool(differing))
