"""What the program's help has of options."""
import itertools
import re

# An option's line of the help, and what its text has of it.
OPTION = re.compile(r"^ +(?:-\w, )?--([a-z-]+)", re.MULTILINE)
ALIASES = re.compile(r"\[alias(?:es)?: ([^\]]+)\]")
DEFAULT = re.compile(r"\[default: ([^\]]+)\]")


def options_of_help(text: str) -> dict[str, str | None]:
    """The options that a help has, by all their names, each with its default value, where it has one."""
    found: dict[str, str | None] = {}
    begins = [*OPTION.finditer(text)]
    for option, following in itertools.zip_longest(begins, begins[1:]):
        words = " ".join(text[option.end():following.start() if following else None].split())
        aliases, default = ALIASES.search(words), DEFAULT.search(words)
        names = [option.group(1), *(name.strip().removeprefix("--") for name in (aliases.group(1).split(",") if aliases else []))]
        found |= dict.fromkeys(names, default.group(1) if default else None)
    return found
