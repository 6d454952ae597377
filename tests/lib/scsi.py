"""CDBs of commands, and sense data (SPC-4, SSC-4, SMC-3)."""
import struct

LONGEST_BLOCK = 65_536
# The same in the profile for hosts.
LONGEST_FOR_HOSTS = 1_048_576
# The logical units of the changer and of the first drive.
CHANGER, DRIVE = 0, 1
# A CDB as bytes, or as hexadecimal digits.
Cdb = bytes | str


def bytes_of(cdb: Cdb) -> bytes:
    return bytes.fromhex(cdb) if isinstance(cdb, str) else cdb


def six(opcode: int, flags: int = 0, count: int = 0) -> bytes:
    """A CDB of six bytes with a number of three, below 0 in two's complement."""
    return bytes([opcode, flags]) + (count & 0xFFFFFF).to_bytes(3, "big") + b"\0"


TEST_UNIT_READY, REWIND, INQUIRY, ERASE = bytes(6), six(0x01), six(0x12, 0, 36), six(0x19)
UNLOAD, LOAD, ALLOW, PREVENT = six(0x1B), six(0x1B, 0, 1), six(0x1E), six(0x1E, 0, 1)
READ_POSITION, READ_BLOCK_LIMITS = bytes([0x34]) + bytes(9), six(0x05)


def read(length: int, flags: int = 0) -> bytes:
    """READ(6) of a block of so many bytes at most; with flag 1 of so many blocks."""
    return six(0x08, flags, length)


def write(length: int, flags: int = 0) -> bytes:
    """WRITE(6) of a block of so many bytes; with flag 1 of so many blocks."""
    return six(0x0A, flags, length)


def write_filemarks(count: int) -> bytes:
    return six(0x10, 0, count)


FILEMARK, NO_FILEMARK = write_filemarks(1), write_filemarks(0)


def space(code: int, count: int) -> bytes:
    """SPACE(6) over blocks (0) or filemarks (1), or to the end of data (3)."""
    return six(0x11, code, count)


TO_THE_END = space(3, 0)


def locate(place: int) -> bytes:
    """LOCATE(10) after so many objects."""
    return struct.pack(">BBBIBBB", 0x2B, 0, 0, place, 0, 0, 0)


def move(source: int, destination: int) -> bytes:
    """MOVE MEDIUM between elements of these addresses."""
    return struct.pack(">BBHHHHBB", 0xA5, 0, 0, source, destination, 0, 0, 0)


def exchange(source: int, first: int, second: int) -> bytes:
    """EXCHANGE MEDIUM: the source's volume goes to the first destination, and that one's to the second."""
    return struct.pack(">BBHHHHBB", 0xA6, 0, 0, source, first, second, 0, 0)


def reserve_in(action: int, length: int) -> bytes:
    """PERSISTENT RESERVE IN, into so many bytes."""
    return struct.pack(">BB5xHx", 0x5E, action, length)


def reserve_out(action: int, kind: int = 0, length: int = 24) -> bytes:
    """PERSISTENT RESERVE OUT, by a type of reservations."""
    return struct.pack(">BBBBBIB", 0x5F, action, kind, 0, 0, length, 0)


def key_list(key: int, other: int) -> bytes:
    """The parameter list of PERSISTENT RESERVE OUT: RESERVATION KEY and SERVICE ACTION RESERVATION KEY."""
    return struct.pack(">QQQ", key, other, 0)


def sense(key: int, asc: int, ascq: int = 0, information: int | None = None, flags: int = 0) -> bytes:
    """Sense data of the fixed format (SPC-4, "Fixed format sense data"), with INFORMATION, in two's complement, where it is valid. Flags
    are FILEMARK, EOM and ILI."""
    front = bytes([0x70 if information is None else 0xF0, 0, flags | key]) + ((information or 0) & 0xFFFFFFFF).to_bytes(4, "big")
    return front + bytes([10, 0, 0, 0, 0, asc, ascq]) + bytes(4)


# The data of INQUIRY where no unit is.
NO_UNIT = bytes.fromhex("7f0006021f000000") + b" " * 28
AT_FILEMARK, EOM, ILI = 0x80, 0x40, 0x20


def is_attention(sense_data: bytes) -> bool:
    """Whether sense data report a unit attention condition."""
    return len(sense_data) > 2 and sense_data[2] & 0x0F == 6
