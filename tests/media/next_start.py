"""What `library.toml` tells the next start to do: to make blank volumes and to write-protect others. docs/OPERATING.md has it, "The folder of
volumes"."""
import os
import typing

from compare import same
from folder import HI, ODD, Folder, ended, with_records
from inventories import DRIVE_0, NAME, SIZE, STORAGE_0, is_missing, is_new, lies_so, missing, volume
from play import Row, Tried
from program import run

KNOWN = volume("A", "data_transfer = 0") + missing("GONE", "storage = 2")


def asks(folder: Folder, line: str, volumes: str = KNOWN) -> str:
    """Has an inventory tell the next start something."""
    text = f"{SIZE}{line}\n{volumes}"
    folder.put(NAME, text.encode())
    return text


def is_protected(folder: Folder, name: str) -> str:
    return f"vtl: {folder.path_of(f'{name}.tap')}: it can't be written, so the volume is write-protected"


def is_there(folder: Folder, name: str) -> str:
    return f"vtl: {folder.path_of(f'{name}.tap')}: the library has a volume of this name, so no blank one is made"


def blank(tried: Tried) -> None:
    """Of four tags two are new. That of a volume and that of a missing one stay theirs. New ones count among --volumes."""
    folder = Folder(tried, A=HI)
    asks(folder, 'blank = ["Z-1", "A", "B", "GONE"]')
    reported = [is_there(folder, "A"), is_there(folder, "GONE"), is_missing(folder, "GONE", "storage element 2")]
    places = {DRIVE_0: "A", STORAGE_0: "B", STORAGE_0 + 1: "VOL00001", STORAGE_0 + 2: "Z-1"}
    lies_so(folder, reported, places, "--volumes", "5")
    same("what is in the folder", folder.names(), [*with_records("A.tap", "B.tap", "VOL00001.tap", "Z-1.tap"), NAME])
    written = [volume(tag, element) for tag, element in (
        ("A", "data_transfer = 0"), ("B", "storage = 0"), ("VOL00001", "storage = 1"), ("Z-1", "storage = 2"))]
    same("the inventory, which tells the next start nothing", folder.inventory(), SIZE + "".join(written) + missing("GONE", "storage = 2"))
    folder.same_image("the volume that was there", "A.tap", HI)
    folder.same_image("a volume that is made", "B.tap", b"")


def blank_after_a_kill(tried: Tried) -> None:
    """A start that was cut off had made the file already: the next one takes it as it is."""
    folder = Folder(tried, A=HI, B=b"")
    asks(folder, 'blank = ["B"]', volume("A", "data_transfer = 0"))
    lies_so(folder, [is_there(folder, "B"), is_new(folder, "B", "storage element 0")], {DRIVE_0: "A", STORAGE_0: "B"})


def blank_without_room(tried: Tried) -> None:
    folder = Folder(tried, A=HI)
    text = asks(folder, 'blank = ["B", "C", "D", "E", "F"]')
    reported = is_missing(folder, "GONE", "storage element 2")
    words = "vtl: more volumes than free storage elements: 5, and 4 are free\n"
    same("the status and what is reported", folder.refused(), (2, words))
    same("what is in the folder", folder.names(), ["A.tap", NAME])
    same("the inventory that is left", folder.inventory(), text)
    asks(folder, 'blank = ["B", "C", "D", "E"]')
    lies_so(folder, [reported], {DRIVE_0: "A", **{STORAGE_0 + at: name for at, name in enumerate("BCDE")}})


def modes(folder: Folder) -> list[int]:
    return [os.stat(folder.path_of(name)).st_mode & 0o777 for name in ("A.tap", "B.tap")]


def protect(tried: Tried) -> None:
    """The file loses what lets users write it, and stays so. The other keeps it."""
    folder = Folder(tried, A=HI, B=ODD)
    asks(folder, 'protect = ["B"]', volume("A", "data_transfer = 0") + volume("B", "storage = 1"))
    for _ in range(2):
        lies_so(folder, [is_protected(folder, "B")], {DRIVE_0: "A", STORAGE_0 + 1: "B"})
        same("the modes", modes(folder), [0o600, 0o400])
        same("the inventory", folder.inventory(), SIZE + volume("A", "data_transfer = 0") + volume("B", "storage = 1"))
    folder.same_image("what is left", "B.tap", ODD)


def protect_nothing(tried: Tried) -> None:
    """A tag that no file has may be meant for another: nothing is served, and nothing changes. A missing volume has none either."""
    folder = Folder(tried, A=HI, B=ODD)
    for name in ("C", "GONE"):
        text = asks(folder, f'protect = ["A", "{name}"]')
        words = f"vtl: {folder.path_of(f'{name}.tap')}: it is not there, and library.toml wants it write-protected\n"
        same("the status and what is reported", folder.refused(), (2, is_protected(folder, "A") + "\n" + words))
        same("what is in the folder", folder.names(), ["A.tap", "B.tap", NAME])
        same("the inventory that is left", folder.inventory(), text)
        same("the modes", modes(folder), [0o600, 0o600])


def looked_at(tried: Tried) -> None:
    """`--check` says both, and does neither."""
    folder = Folder(tried, A=HI)
    text = asks(folder, 'blank = ["B"]\nprotect = ["A"]', volume("A", "data_transfer = 0"))
    status, printed, reported = run([tried.program, "serve", "--check", "--socket", tried.path("socket"), "--media", str(folder.path)])
    same("the status and what is reported", (status, reported), (0, is_protected(folder, "A") + "\n"))
    same("the volumes", [line for line in printed.splitlines() if line.startswith("volume ")], [
        "volume A: drive 0, 1 blocks and filemarks, write-protected", "volume B: storage element 0, blank"])
    same("what is in the folder", folder.names(), ["A.tap", NAME])
    same("the inventory that is left", folder.inventory(), text)
    same("the mode", os.stat(folder.path_of("A.tap")).st_mode & 0o777, 0o600)


TAGS = "needs a list of tags, each once, of 1 to 32 letters, digits, _ and -"
# What is wrong with a line, the line, and its key.
WRONG = {
    "no-list": ("no list", 'blank = "B"', "blank"),
    "twice": ("a tag twice", 'blank = ["B", "C", "B"]', "blank"),
    "path": ("a tag with a slash", 'protect = ["../A"]', "protect"),
    "number": ("a number", "protect = [1]", "protect"),
}


def wrong(line: str, key: str) -> typing.Callable[[Tried], None]:
    def play(tried: Tried) -> None:
        folder = Folder(tried, A=HI)
        text = asks(folder, line)
        same("the status and what is reported", folder.refused(), (2, f"vtl: {folder.path_of(NAME)}: {key} {TAGS}\n"))
        same("what is in the folder", folder.names(), ["A.tap", NAME])
        same("the inventory that is left", folder.inventory(), text)

    return play


def written_while_served(tried: Tried) -> None:
    """The inventory is the server's while it runs: a line that is written then is lost, and does nothing."""
    folder = Folder(tried, A=HI)
    asks(folder, "", volume("A", "data_transfer = 0"))
    with folder.served() as server:
        asks(folder, 'blank = ["B"]', volume("A", "data_transfer = 0"))
        ended(server)
    same("the inventory", folder.inventory(), SIZE + volume("A", "data_transfer = 0"))


ROWS = [
    Row("blank", "blank volumes are made with the tags that library.toml gives, and take nobody's place", blank),
    Row("blank-after-a-kill", "a blank volume whose file was made already is served", blank_after_a_kill),
    Row("blank-without-room", "more blank volumes than free elements are refused, and none is made", blank_without_room),
    Row("protect", "a volume is write-protected as library.toml says, and stays so", protect),
    Row("protect-nothing", "a volume that isn't there can't be write-protected", protect_nothing),
    Row("next-start-looked-at", "--check says what library.toml has a start do", looked_at),
    Row("written-while-served", "a line that is written into library.toml while it is served is lost", written_while_served),
    *(Row(f"next-start-{name}", f"a line that tells the next start nothing is refused: {shows}", wrong(line, key))
      for name, (shows, line, key) in WRONG.items()),
]
