"""The profile of a library in a folder, its number, and the sources of the volumes in its drives."""
import re
import typing

from compare import same
from folder import HI, MARK, ODD, Folder, block, ended
from host import MEDIUM_CHANGED, Host, good
from inventories import DRIVE_0, PORTAL_0, SIZE, STORAGE_0, missing, volume
from play import Row, Tried
from scsi import CHANGER, DRIVE, TEST_UNIT_READY, exchange

NAME = "library.toml"
NUMBER = "1A2B3C4D"


def for_hosts(number: str = NUMBER) -> str:
    """What an inventory has of a library of the hosts' profile."""
    return f'profile = "hosts"\nlibrary = "{number}"\n'


# The form of its text is one that programs which know no profiles refuse.
HOSTS = SIZE.replace("version = 1", "version = 2") + for_hosts()


def in_drive(name: str, source: str, key: str = "volume") -> str:
    """A volume in the drive, and the element where it was before."""
    return volume(name, f"data_transfer = 0\nsource = {{ {source} }}", key)


# INQUIRY for the unit serial number (SPC-4, "Unit Serial Number VPD page"), and of the first drive READ ELEMENT STATUS without volume tags.
SERIAL_NUMBER = "12018000ff00"
DRIVE_STATUS = "b80401000001000000ff0000"


def has_number(host: Host, number: str) -> None:
    """The serial number of a unit is the library's number, and then the logical unit number (profile)."""
    for lun, kind in [(CHANGER, b"\x08"), (DRIVE, b"\x01")]:
        host.asks(lun, SERIAL_NUMBER, good(kind + b"\x80\0\x0a" + f"{number}{lun:02}".encode()))


def has_source(host: Host, source: int | None) -> None:
    """The descriptor of the full drive (SMC-3, "READ ELEMENT STATUS command"): FULL and ACCESS in byte 2, LU VALID with the drive's logical
    unit number in byte 6, SVALID in bit 7 of byte 9, where type 1 is a data medium, and the source in bytes 10 and 11."""
    valid, address = (0x01, 0) if source is None else (0x81, source)
    header = bytes.fromhex("0100000100000018 0400001000000010")
    place = bytes([0x01, 0x00, 0x09, 0, 0, 0, 0x11, 0, 0, valid]) + address.to_bytes(2, "big") + bytes(4)
    host.asks(CHANGER, DRIVE_STATUS, good(header + place))


def kept_for_hosts(tried: Tried) -> None:
    """A library that is made for hosts, with a number that is given, keeps both, and the source of the volume in its drive."""
    folder = Folder(tried, A=HI)
    with folder.served("--profile", "hosts", "--library-id", NUMBER.lower(), "--slots", "4", "--portals", "1") as server:
        same("the inventory of a new library", folder.inventory(), HOSTS + volume("A", "storage = 0"))
        host = Host(server)
        host.meets(CHANGER)
        host.meets(DRIVE)
        has_number(host, NUMBER)
        host.moves(STORAGE_0, DRIVE_0)
        same("the inventory after a move into the drive", folder.inventory(), HOSTS + in_drive("A", "storage = 0"))
        has_source(host, STORAGE_0)
        ended(server)
    for words in [[], ["--profile", "hosts"], ["--library-id", NUMBER], ["--profile", "hosts", "--library-id", NUMBER]]:
        with folder.served(*words) as server:
            same("what is reported", server.reported_lines(), [])
            host = Host(server)
            host.meets(CHANGER)
            host.meets(DRIVE)
            has_number(host, NUMBER)
            has_source(host, STORAGE_0)
            ended(server)
        same("the inventory after another start", folder.inventory(), HOSTS + in_drive("A", "storage = 0"))


def sources(tried: Tried) -> None:
    """A source is that of the last element outside drives, also an import/export element. A volume elsewhere has none in the inventory."""
    folder = Folder(tried, A=HI, B=ODD)
    folder.put(NAME, (HOSTS + volume("A", "storage = 2") + volume("B", "storage = 1")).encode())
    with folder.served() as server:
        host = Host(server)
        host.meets(CHANGER)
        host.moves(STORAGE_0 + 2, PORTAL_0)
        host.moves(PORTAL_0, DRIVE_0)
        same("the inventory after moves", folder.inventory(), HOSTS + in_drive("A", "import_export = 0") + volume("B", "storage = 1"))
        host.moves(DRIVE_0, STORAGE_0 + 3)
        same("the inventory after a move out of it", folder.inventory(), HOSTS + volume("B", "storage = 1") + volume("A", "storage = 3"))
        ended(server)


def exchanged(tried: Tried) -> None:
    """EXCHANGE MEDIUM changes the volume in the drive for one in a storage element. When it is answered, what was written on the first is kept,
    and where both are."""
    folder = Folder(tried, A=HI, B=ODD)
    folder.put(NAME, (HOSTS + in_drive("A", "storage = 2") + volume("B", "storage = 1")).encode())
    after = HOSTS + in_drive("B", "storage = 1") + volume("A", "storage = 2")
    with folder.served() as server:
        host = Host(server)
        host.meets(CHANGER)
        host.meets(DRIVE)
        host.writes(b"new")
        host.asks(CHANGER, exchange(STORAGE_0 + 1, DRIVE_0, STORAGE_0 + 2))
        folder.same_image("the image of the volume that the drive gave", "A.tap", block(b"new"))
        same("the inventory after an exchange with the drive", folder.inventory(), after)
        host.asks(DRIVE, TEST_UNIT_READY, MEDIUM_CHANGED)
        has_source(host, STORAGE_0 + 1)
        ended(server)
    with folder.served() as server:
        host = Host(server)
        host.meets(CHANGER)
        has_source(host, STORAGE_0 + 1)
        host.moves(DRIVE_0, PORTAL_0)
        host.asks(CHANGER, exchange(STORAGE_0 + 2, PORTAL_0, STORAGE_0))
        same("the inventory after one without it", folder.inventory(), HOSTS + volume("A", "import_export = 0") + volume("B", "storage = 0"))
        ended(server)


def unknown_source(tried: Tried) -> None:
    """A volume that was in a drive when its library became one for hosts has no source until it is moved."""
    folder = Folder(tried, A=HI)
    folder.put(NAME, (HOSTS + volume("A", "data_transfer = 0")).encode())
    with folder.served() as server:
        host = Host(server)
        host.meets(CHANGER)
        has_source(host, None)
        ended(server)
    same("the inventory", folder.inventory(), HOSTS + volume("A", "data_transfer = 0"))


def missing_source(tried: Tried) -> None:
    """The source of a missing volume is kept, and known when it is there again."""
    folder = Folder(tried, B=ODD)
    folder.put(NAME, (HOSTS + volume("B", "storage = 1") + in_drive("A", "storage = 3", "missing")).encode())
    with folder.served() as server:
        ended(server)
    same("the inventory", folder.inventory(), HOSTS + volume("B", "storage = 1") + in_drive("A", "storage = 3", "missing"))
    folder.put("A.tap", MARK)
    with folder.served() as server:
        host = Host(server)
        host.meets(CHANGER)
        has_source(host, STORAGE_0 + 3)
        ended(server)


def becomes_hosts(tried: Tried) -> None:
    """A library of the default profile is opened for hosts, which is recorded and reported once. It gets a number."""
    folder = Folder(tried, A=HI)
    folder.put(NAME, (SIZE + volume("A", "storage = 2")).encode())
    with folder.served("--profile", "spec") as server:
        same("what is reported before", server.reported_lines(), [])
        ended(server)
    same("the inventory before", folder.inventory(), SIZE + volume("A", "storage = 2"))
    with folder.served("--profile", "hosts") as server:
        number = re.search(r'^library = "([0-9A-F]{8})"$', folder.inventory(), re.MULTILINE)[1]
        words = f"vtl: {folder.path}: the library is kept as hosts from now on, and its number is {number}"
        same("what is reported", server.reported_lines(), [words])
        host = Host(server)
        host.meets(CHANGER)
        host.meets(DRIVE)
        has_number(host, number)
        ended(server)
    kept = HOSTS.replace(NUMBER, number) + volume("A", "storage = 2")
    same("the inventory", folder.inventory(), kept)
    with folder.served() as server:
        same("what is reported at the next start", server.reported_lines(), [])
        ended(server)
    same("the inventory after the next start", folder.inventory(), kept)


def first_form(tried: Tried) -> None:
    """A library for hosts whose text still has the version of all others is one, too."""
    folder = Folder(tried, A=HI)
    folder.put(NAME, (SIZE + for_hosts() + A).encode())
    with folder.served() as server:
        same("what is reported", server.reported_lines(), [])
        ended(server)
    same("the inventory", folder.inventory(), HOSTS + A)


def other_numbers(tried: Tried) -> None:
    """Two libraries that are made get numbers of their own."""
    folder = Folder(tried)
    numbers = set()
    for _ in range(2):
        with folder.served("--profile", "hosts") as server:
            ended(server)
        numbers.add(re.search(r'^library = "([0-9A-F]{8})"$', folder.inventory(), re.MULTILINE)[1])
        (folder.path / NAME).unlink()
    same("how many numbers there are", len(numbers), 2)


def refused(kept: str, words: list[str], reported: str) -> typing.Callable[[Tried], None]:
    """A start that is refused has changed nothing."""
    def play(tried: Tried) -> None:
        folder = Folder(tried, A=HI)
        folder.put(NAME, kept.encode())
        same("the status and what is reported", folder.refused(*words), (2, reported.replace("FILE", folder.path_of(NAME))))
        same("the inventory that is left", folder.inventory(), kept)
        same("what is in the folder", folder.names(), ["A.tap", NAME])

    return play


A = volume("A", "storage = 0")
NEEDS_HOSTS = "vtl: --library-id needs --profile hosts: no other library has a number\n"
NTH = "vtl: FILE: of the volumes, counted from 0, number 0:"
BAD_SOURCE = f"{NTH} only a volume in a drive has a source, which is a storage or import/export element of the library\n"
NO_SOURCE = f"{NTH} its source needs exactly one of data_transfer, storage and import_export, with a number\n"
# What is shown, the inventory, options, and what is reported.
REFUSED = {
    "back": (
        "a library for hosts stays one", HOSTS + A, ["--profile", "spec"],
        "vtl: --profile spec disagrees with the inventory: the library is kept as hosts\n"),
    "back-with-its-number": (
        "also if its number is given", HOSTS + A, ["--profile", "spec", "--library-id", NUMBER],
        "vtl: --profile spec disagrees with the inventory: the library is kept as hosts\n"),
    "other-number": (
        "a library keeps its number", HOSTS + A, ["--library-id", "1a2b3c4e"],
        f"vtl: --library-id 1A2B3C4E disagrees with the inventory, which has {NUMBER}\n"),
    "number-alone": ("a library of the default profile has no number", SIZE + A, ["--library-id", NUMBER], NEEDS_HOSTS),
    "number-of-spec": ("also where that profile is given", SIZE + A, ["--profile", "spec", "--library-id", NUMBER], NEEDS_HOSTS),
    "profile": ("another profile", f'{SIZE}profile = "lto"\n{A}', [], "vtl: FILE: profile is missing, or has a bad value\n"),
    "profile-number": ("a profile that is a number", f"{SIZE}profile = 1\n{A}", [], "vtl: FILE: profile is missing, or has a bad value\n"),
    "no-number": ("hosts without a number", f'{SIZE}profile = "hosts"\n{A}', [], "vtl: FILE: library is missing, or has a bad value\n"),
    "short-number": ("a number of 7 digits", SIZE + for_hosts("1A2B3C4") + A, [], "vtl: FILE: library is missing, or has a bad value\n"),
    "source-outside": (
        "a source of a volume that is in no drive", HOSTS + volume("A", "storage = 0\nsource = { storage = 1 }"), [], BAD_SOURCE),
    "source-in-a-drive": ("a source that is a drive", HOSTS + in_drive("A", "data_transfer = 0"), [], BAD_SOURCE),
    "no-such-source": ("a source that there isn't", HOSTS + in_drive("A", "storage = 4"), [], BAD_SOURCE),
    "two-sources": ("two sources", HOSTS + in_drive("A", "storage = 1, import_export = 0"), [], NO_SOURCE),
    "word-as-source": ("a word as a source", HOSTS + volume("A", 'data_transfer = 0\nsource = "storage 1"'), [], NO_SOURCE),
}


def default_has_none(tried: Tried) -> None:
    """A library of the default profile has no new key, and passes over a source that its inventory has."""
    folder = Folder(tried, A=HI)
    folder.put(NAME, (SIZE + in_drive("A", "storage = 0")).encode())
    with folder.served() as server:
        ended(server)
    same("the inventory", folder.inventory(), SIZE + volume("A", "data_transfer = 0"))


ROWS = [
    Row("profile-first-form", "a library for hosts is one in the first form of its text", first_form),
    Row("profile-kept", "a library for hosts keeps its profile, its number and a source", kept_for_hosts),
    Row("profile-sources", "the source of a volume in a drive is where it was last outside drives", sources),
    Row("profile-exchanged", "an exchange keeps what is on the volume that a drive gave, and where both volumes are", exchanged),
    Row("profile-unknown-source", "a volume in a drive may have no source", unknown_source),
    Row("profile-missing-source", "a missing volume keeps its source", missing_source),
    Row("profile-becomes-hosts", "a library becomes one for hosts, with a number that is kept", becomes_hosts),
    Row("profile-numbers", "two libraries that are made have two numbers", other_numbers),
    Row("profile-default", "a library of the default profile has no source", default_has_none),
    *(Row(f"profile-refused-{name}", f"refused is {shows}", refused(kept, words, reported))
      for name, (shows, kept, words, reported) in REFUSED.items()),
]
