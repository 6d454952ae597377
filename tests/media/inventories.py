"""Inventories of a folder: where volumes lie by them and by the files that are there, and what isn't taken for an inventory."""
import os
import pathlib
import struct
import typing

from compare import holds, same
from folder import HI, MARK, ODD, THREE, Folder, ended, with_records
from host import Host
from play import Row, Tried
from scsi import CHANGER, DRIVE
from server import refused

NAME = "library.toml"
SIZE = "version = 1\ndrives = 1\nslots = 4\nportals = 1\n"
DRIVE_0, PORTAL_0, STORAGE_0 = 0x100, 0x200, 0x400
# READ ELEMENT STATUS of all elements, with their volume tags.
STATUS = "b8100000ffff0000ffff0000"


def volume(name: str, element: str, key: str = "volume") -> str:
    return f'\n[[{key}]]\ntag = "{name}"\n{element}\n'


def missing(name: str, element: str) -> str:
    return volume(name, element, "missing")


def lying(host: Host) -> dict[int, str]:
    """The tags of the volumes by the addresses of their elements (SMC-3, "READ ELEMENT STATUS command"): each page has a header of eight
    bytes, and each descriptor the address, FULL in bit 0 of byte 2, and 36 bytes of a tag from byte 12 on."""
    status, _, data = host.answer(CHANGER, STATUS)
    same("the status of READ ELEMENT STATUS", status, 0)
    found, at = {}, 8
    while at < len(data):
        size, length = struct.unpack_from(">H", data, at + 2)[0], int.from_bytes(data[at + 5:at + 8], "big")
        for start in range(at + 8, at + 8 + length, size):
            if data[start + 2] & 1:
                found[struct.unpack_from(">H", data, start)[0]] = data[start + 12:start + 48].decode()
        at += 8 + length
    return found


def same_places(host: Host, what: str, wanted: dict[int, str]) -> None:
    """Compares where volumes lie, by their names; a tag is a name with blanks after it, and then a number of zero."""
    tags = lying(host)
    for address, name in wanted.items():
        same(f"{what}: the tag at {address:04x}h", tags.pop(address, None), f"{name:32}\0\0\0\0")
    same(f"{what}: other tags", tags, {})


WRITTEN = SIZE + volume("VOL00002", "storage = 1") + volume("A-1_b", "data_transfer = 0")
# The same as it is written: drives, import/export elements, storage.
AGAIN = SIZE + volume("A-1_b", "data_transfer = 0") + volume("VOL00002", "storage = 1")
# After a move of the first to the import/export element.
MOVED = SIZE + volume("A-1_b", "data_transfer = 0") + volume("VOL00002", "import_export = 0")


def written_and_read(tried: Tried) -> None:
    folder = Folder(tried, VOL00002=HI, **{"A-1_b": ODD})
    folder.put(NAME, WRITTEN.encode())
    for text in [WRITTEN, AGAIN]:
        same("the inventory before a start", folder.inventory(), text)
        with folder.served() as server:
            same("what is reported", server.reported_lines(), [])
            host = Host(server)
            host.meets(CHANGER)
            same_places(host, "where volumes lie", {DRIVE_0: "A-1_b", STORAGE_0 + 1: "VOL00002"})
            host.meets(DRIVE)
            host.reads(b"odd")
            ended(server)
        same("the inventory that is written at the end", folder.inventory(), AGAIN)
    with folder.served() as server:
        host = Host(server)
        host.meets(CHANGER)
        host.moves(STORAGE_0 + 1, PORTAL_0)
        same("the inventory that is written after a move", folder.inventory(), MOVED)
        ended(server)
    same("what is in the folder", folder.names(), [*with_records("A-1_b.tap", "VOL00002.tap"), NAME])


ONE = '[[volume]]\ntag = "A"\nstorage = 3\n'
# The same with the profile for hosts.
HOSTS = SIZE.replace("version = 1", "version = 2") + 'profile = "hosts"\nlibrary = "1A2B3C4D"\n'


def second(tag: str, element: str = "") -> str:
    """A text whose second volume is one that is wrong."""
    return f'{SIZE}{ONE}[[volume]]\ntag = "{tag}"\n{element}'


def missing_second(tag: str, element: str = "") -> str:
    """The same whose first missing volume is wrong."""
    return f'{SIZE}{ONE}[[missing]]\ntag = "{tag}"\n{element}'


OF_THE_MISSING = "of the missing volumes, counted from 0, number 0:"
NTH = "of the volumes, counted from 0, number 1:"
NO_TAG = f"{NTH} no tag of 1 to 32 letters, digits, _ and -"
# What is wrong with a text, the text, and what is reported after the path of its file.
WRONG = {
    "no-toml": ("no TOML", "version = ", "line 1: the text is not TOML"),
    "no-toml-line-3": ("no TOML on its third line", "version = 1\n# drives\ndrives\n", "line 3: the text is not TOML"),
    "not-utf-8": ("no UTF-8", "version = 1\ndrives = 1 # \udcff\n", "line 2: the text is not TOML"),
    "too-long": ("more than 1 MiB", SIZE + "#" * 1_048_576, "it has more than 1048576 bytes"),
    "order-in-a-volume": (
        "an order after a volume, of which it then is a key", f'{SIZE}{ONE}protect = ["A"]\n', "line 8: unknown key protect"),
    "orders-of-another-name": ("an order of another name", f'{SIZE}protected = [\n  "A",\n]\n', "line 5: unknown key protected"),
    "volumes": ("volumes of another name", f'{SIZE}\n[[volumes]]\ntag = "A"\nstorage = 3\n', "line 6: unknown key volumes"),
    "key-of-a-missing-volume": (
        "a key of a volume that is missing", f'{SIZE}{ONE}[[missing]]\ntag = "B"\nstorage = 2\nnote = "away"\n', "line 11: unknown key note"),
    "key-of-a-source": (
        "a key of a source", f'{HOSTS}[[volume]]\ntag = "A"\ndata_transfer = 0\nsource = {{ storage = 1, slot = 2 }}\n', "line 10: unknown key slot"),
    "version-0": ("a version before the first", "version = 0\n", "unknown version 0"),
    "version-3": ("a later version", "version = 3\n", "unknown version 3"),
    "no-version": ("no version", "drives = 1\n", "version is missing, or has a bad value"),
    "256-drives": ("256 drives", "version = 1\ndrives = 256\nslots = 1\nportals = 0\n", "drives is missing, or has a bad value"),
    "no-volumes": ("volumes that are none", f"{SIZE}volume = 1\n", "volume is missing, or has a bad value"),
    "no-tag": ("a blank in a tag", second("A B", "storage = 0\n"), NO_TAG),
    "no-element": ("no element", second("B"), f"{NTH} it needs exactly one of data_transfer, storage and import_export, with a number"),
    "element-twice": ("an element twice", second("B", "storage = 3\n"), f"{NTH} another volume is in its element"),
    "no-missing": ("missing volumes that are none", f"{SIZE}missing = 1\n", "missing is missing, or has a bad value"),
    "missing-twice": (
        "a tag of a volume that is missing, too", missing_second("A", "storage = 0\n"), f"{OF_THE_MISSING} another volume has its tag"),
    "missing-nowhere": (
        "a missing volume without an element", missing_second("B"),
        f"{OF_THE_MISSING} it needs exactly one of data_transfer, storage and import_export, with a number"),
    "missing-beyond": (
        "a missing volume whose element there isn't", missing_second("B", "storage = 4\n"), f"{OF_THE_MISSING} no such element"),
    "tag-twice": ("a tag twice", second("A", "storage = 2\n"), f"{NTH} another volume has its tag"),
    "no-such-element": ("an element that there isn't", second("B", "storage = 4\n"), f"{NTH} no such element"),
    "empty-tag": ("an empty tag", second("", "storage = 0\n"), NO_TAG),
    "blank-tag": ("a tag of blanks", second(" " * 32, "storage = 0\n"), NO_TAG),
    "path": ("a tag with a slash", second("a/b", "storage = 0\n"), NO_TAG),
    "parent": ("a tag of dots", second("..", "storage = 0\n"), NO_TAG),
    "long-tag": ("a tag of 33 digits", second("123456789012345678901234567890123", "storage = 0\n"), NO_TAG),
}


def wrong(text: str, words: str) -> typing.Callable[[Tried], None]:
    def play(tried: Tried) -> None:
        folder = Folder(tried, A=HI, B=ODD)
        data = text.encode(errors="surrogateescape")
        folder.put(NAME, data)
        same("the status and what is reported", folder.refused(), (2, f"vtl: {folder.path_of(NAME)}: {words}\n"))
        same("what is in the folder", folder.names(), ["A.tap", "B.tap", NAME])
        same("whether the inventory is left", folder.bytes_of(NAME) == data, True)

    return play


def sizes(tried: Tried) -> None:
    folder = Folder(tried)
    folder.put(NAME, SIZE.encode())
    words = "vtl: --slots 5 disagrees with the inventory, which has 4\n"
    same("the status and what is reported of other slots", folder.refused("--slots", "5"), (2, words))
    same("the inventory that is left", folder.inventory(), SIZE)
    with folder.served("--slots", "4") as server:
        ended(server)
    same("the inventory after a start with the same slots", folder.inventory(), SIZE)


def five_slots(tried: Tried) -> None:
    folder = Folder(tried)
    with folder.served("--slots", "5", "--volumes", "0") as server:
        ended(server)
    same("the inventory", folder.inventory(), "version = 1\ndrives = 1\nslots = 5\nportals = 0\n")


def named(slots: int) -> str:
    """An inventory of three volumes, of which the second has no image."""
    return (
        f"version = 1\ndrives = 1\nslots = {slots}\nportals = 0\n" + volume("VOL00002", "storage = 1") + volume("VOL00001", "storage = 2")
        + volume("A", "data_transfer = 0"))


PLACES = {DRIVE_0: "A", STORAGE_0: "B", STORAGE_0 + 1: "VOL00002", STORAGE_0 + 2: "VOL00003", STORAGE_0 + 3: "Z"}


def placed(tried: Tried) -> None:
    """Of six volumes one is missing, four are there, and one is made."""
    folder = Folder(tried, Z=HI, A=HI + MARK, B=ODD, VOL00002=MARK)
    folder.put(NAME, named(4).encode())
    with folder.served("--volumes", "6") as server:
        reported = [is_new(folder, "B", "storage element 0"), is_new(folder, "Z", "storage element 3")]
        same("what is reported", server.reported_lines(), [*reported, is_missing(folder, "VOL00001", "storage element 2")])
        folder.same_image("the volume that is made", "VOL00003.tap", b"")
        host = Host(server)
        host.meets(CHANGER)
        same_places(host, "where volumes lie", PLACES)
        ended(server)
    same("what is in the folder", folder.names(), [
        *with_records("A.tap", "B.tap", "VOL00002.tap", "VOL00003.tap", "Z.tap"), NAME])


def too_many(tried: Tried) -> None:
    """A start that is refused has changed nothing."""
    folder = Folder(tried, Z=HI, A=THREE[:20], B=ODD, VOL00002=MARK)
    folder.put(NAME, named(3).encode())
    cut = f"vtl: {folder.path_of('A.tap')}: a tail of 6 bytes that was cut off is lost\n"
    words = "vtl: more volumes than free storage elements: 3, and 2 are free\n"
    same("the status and what is reported", folder.refused("--volumes", "6"), (2, cut + words))
    same("what is in the folder", folder.names(), ["A.tap", "B.tap", "VOL00002.tap", "Z.tap", NAME])
    same("the inventory that is left", folder.inventory(), named(3))
    folder.same_image("the image that is left", "A.tap", THREE[:20])


def is_missing(folder: Folder, name: str, place: str) -> str:
    return f"vtl: {folder.path_of(f'{name}.tap')}: it is missing: the volume was in {place}"


def is_new(folder: Folder, name: str, place: str) -> str:
    return f"vtl: {folder.path_of(f'{name}.tap')}: it is new here: the volume is in {place}"


def lies_so(folder: Folder, reported: list[str], places: dict[int, str], *words: str) -> None:
    """A start reports this, and volumes lie there."""
    with folder.served(*words) as server:
        same("what is reported", server.reported_lines(), reported)
        host = Host(server)
        host.meets(CHANGER)
        same_places(host, "where volumes lie", places)
        ended(server)


BOTH = SIZE + volume("A", "data_transfer = 0") + volume("B", "storage = 2")
GONE = SIZE + volume("A", "data_transfer = 0") + missing("B", "storage = 2")


def file_away(tried: Tried) -> None:
    """A volume whose file is away stays known, is reported at each start, and none is made in its place. It goes back where it lay."""
    folder = Folder(tried, A=HI)
    folder.put(NAME, BOTH.encode())
    for _ in range(2):
        lies_so(folder, [is_missing(folder, "B", "storage element 2")], {DRIVE_0: "A"}, "--volumes", "2")
        same("the inventory without the file", folder.inventory(), GONE)
    with folder.served() as server:
        host = Host(server)
        host.meets(CHANGER)
        host.moves(DRIVE_0, STORAGE_0 + 1)
        same("the inventory after a move", folder.inventory(), SIZE + volume("A", "storage = 1") + missing("B", "storage = 2"))
        host.moves(STORAGE_0 + 1, DRIVE_0)
        ended(server)
    folder.put("B.tap", ODD)
    lies_so(folder, [], {DRIVE_0: "A", STORAGE_0 + 2: "B"}, "--volumes", "2")
    same("the inventory with the file", folder.inventory(), BOTH)


def element_taken(tried: Tried) -> None:
    """Where another volume lies in its element by then, it comes into the first free storage element, in the order of tags."""
    folder = Folder(tried, A=HI, B=ODD, C=MARK, VOL00001=b"")
    folder.put(NAME, (SIZE + volume("A", "storage = 2") + missing("C", "storage = 2") + missing("B", "import_export = 0")).encode())
    reported = [is_new(folder, "VOL00001", "storage element 1")]
    lies_so(folder, reported, {STORAGE_0 + 2: "A", PORTAL_0: "B", STORAGE_0: "C", STORAGE_0 + 1: "VOL00001"})


def left_out(tried: Tried) -> None:
    """A volume whose image has a fault is left out, and its element is empty; others are served. Once it is mended, it lies where it lay.
    One of which nothing was known yet comes into the first free storage element then."""
    folder = Folder(tried, A=HI, B=MARK + b"\x02\0\0\x80", C=struct.pack("<I", 2) + b"hi" + struct.pack("<I", 3))
    folder.put(NAME, BOTH.encode())
    faults = {
        "B": "record of an unknown class, at offset 4, after 1 objects",
        "C": "the lengths before and after a block differ, at offset 0, after 0 objects"}
    reported = [f"vtl: {folder.path_of(f'{name}.tap')}: {fault}: the volume is left out" for name, fault in faults.items()]
    for _ in range(2):
        lies_so(folder, reported, {DRIVE_0: "A"}, "--volumes", "3")
        same("the inventory", folder.inventory(), GONE)
        same("what is in the folder", folder.names(), [*with_records("A.tap"), "B.tap", "C.tap", NAME])
    folder.put("B.tap", ODD)
    folder.put("C.tap", MARK)
    lies_so(folder, [is_new(folder, "C", "storage element 0")], {DRIVE_0: "A", STORAGE_0: "C", STORAGE_0 + 2: "B"})


def none_there(tried: Tried) -> None:
    """Without a word for that no library is made, neither in a folder that isn't there nor in one that has none, and nothing changes."""
    folder = pathlib.Path(tried.path("media"))
    words = ["--socket", tried.path("socket"), "--media", str(folder)]
    reported = f"vtl: {folder}: there is no library here (no library.toml); --new-library makes one\n"
    same("the status and what is reported of no folder", refused(tried, *words), (2, reported))
    same("whether there is one then", folder.exists(), False)
    folder.mkdir()
    (folder / "A.tap").write_bytes(HI)
    same("the status and what is reported of a folder without a library", refused(tried, *words), (2, reported))
    same("what is in it then", [path.name for path in folder.iterdir()], ["A.tap"])
    folder.rename(tried.path("away"))
    folder.write_bytes(b"no folder")
    same("the status and what is reported of a file", refused(tried, *words), (2, reported))
    reported = f"vtl: device fault\nvtl: cannot make {folder}: File exists (os error 17)\n"
    same("the status and what is reported of one that is to be made there", refused(tried, *words, "--new-library"), (4, reported))


def in_use(tried: Tried) -> None:
    """A folder that has a server is refused to another one, whatever files are in it."""
    folder = Folder(tried)
    with folder.served() as server:
        reported = f"vtl: {folder.path}: another program has this folder\n"
        other = ["--socket", tried.path("other"), "--media", str(folder.path)]
        same("what is in the folder", folder.names(), [*with_records("VOL00001.tap"), NAME])
        for words in [[], ["--new-library"]]:
            same("the status and what is reported", refused(tried, *other, *words), (2, reported))
        ended(server)


def folder_away(tried: Tried) -> None:
    """An inventory isn't written into another folder that stands where the library's was: it fails, until that is there again."""
    folder = Folder(tried, A=HI)
    with folder.served() as server:
        host = Host(server)
        host.meets(CHANGER)
        was = folder.inventory()
        folder.path.rename(tried.path("away"))
        folder.path.mkdir()
        host.is_ended_by(CHANGER, f"a5000000{STORAGE_0:04x}{DRIVE_0:04x}00000000")
        server.reported.wait_for("vtl: the inventory could not be written: the path of its folder no longer leads there\n")
        same("what is in the other folder", folder.names(), [])
        same("the inventory of the library", pathlib.Path(tried.path("away"), NAME).read_text(encoding="utf-8"), was)
        folder.path.rmdir()
        os.rename(tried.path("away"), folder.path)
        ended(server)
    holds("the inventory at the end", folder.inventory(), volume("A", "data_transfer = 0"))


# In the order of their tags, which are padded with blanks: these come before letters, digits, and what else a name has.
ORDERED = ["A", "A-", "A0", "AA", "A_"]
NO_NAMES = ["", "123456789012345678901234567890123", "a b", ".."]


def names(tried: Tried) -> None:
    """A file is a volume's by its name, that of one tag, and tags come in their order; others are left."""
    images = {name: f"{name}.".encode() for name in [*ORDERED, *NO_NAMES]}
    folder = Folder(tried, **{name: b"" if name in ORDERED else data for name, data in images.items()})
    folder.put("readme.txt", b"no volume")
    with folder.served() as server:
        left = [f"vtl: {folder.path_of(f'{name}.tap')}: it is not named as a volume: it is left alone" for name in NO_NAMES]
        same("what is reported", sorted(server.reported_lines()), sorted(left))
        host = Host(server)
        host.meets(CHANGER)
        same_places(host, "where volumes lie", {STORAGE_0 + at: name for at, name in enumerate(ORDERED)})
        ended(server)
    for name in NO_NAMES:
        folder.same_image("what is left", f"{name}.tap", images[name])


ROWS = [
    Row("written-and-read", "an inventory that is written is read back", written_and_read),
    *(Row(f"wrong-{name}", f"a text that is no inventory is refused, with what is wrong: {shows}", wrong(text, words))
      for name, (shows, text, words) in WRONG.items()),
    Row("sizes", "options that disagree with an inventory are refused with both values", sizes),
    Row("five-slots", "a library without an inventory is of the size that options say", five_slots),
    Row("placed", "volumes lie where they lay and others in the first free elements", placed),
    Row("too-many", "more volumes than free elements are refused, and nothing is changed", too_many),
    Row("file-away", "a volume whose file is away is missing, and none is made in its place", file_away),
    Row("element-taken", "a volume that was missing goes back to its element if that is free", element_taken),
    Row("left-out", "a volume whose image has a fault is left out, and others are served", left_out),
    Row("none-there", "no library is made where none was asked for", none_there),
    Row("in-use", "a folder has one server", in_use),
    Row("folder-away", "an inventory is written into its own folder alone", folder_away),
    Row("names", "a name is that of one tag, and a file of another name is left", names),
]
