"""Prints a script for `vtl replay`: so many commands of one kind, behind the commands that make ready for them.

Called as `scripts.py KIND COUNT [THERE]`, the kind one of KINDS: so many registrations are there before, or so many filemarks.
"""
import sys

REGISTER, RESERVE, RELEASE = 0, 1, 2
READ_KEYS, READ_FULL_STATUS = 0, 3
WRITE_EXCLUSIVE_REGISTRANTS_ONLY = 5
TEST_UNIT_READY = "000000000000"
REWIND = "010000000000"
# With a registration at each of four ports 256 registrations, and with a slot at each of two of them all 128 slots.
ADDRESSES = 64
ALL = 4 * ADDRESSES
BLOCK = 65536


def nexus(number, port=1):
    return f"{0x5000000000000000 + number:016x}.{port}"


def to_changer(sender, *words):
    return " ".join([sender, "0", *words])


def reserve_out(action, key, new_key=0, scope_type=0, all_ports=False):
    return (f"5f{action:02x}{scope_type:02x}00000000001800", f"{key:016x}{new_key:016x}00000000{4 * all_ports:02x}000000")


def reserve_in(action, allocation_length):
    return f"5e{action:02x}0000000000{allocation_length:04x}00"


def contacts(count, ports=1):
    for number in range(count):
        for port in range(1, ports + 1):
            yield to_changer(nexus(number, port), TEST_UNIT_READY)


def registered(there):
    """So many registrations, each with key 1: of an address each, or all 256 with all slots used."""
    if there not in (ALL, *range(1, ADDRESSES + 1)):
        raise SystemExit(f"scripts.py: there are 1 to {ADDRESSES} registrations, or {ALL}")
    is_all = there == ALL
    yield from contacts(min(there, ADDRESSES), ports=2 if is_all else 1)
    for number in range(min(there, ADDRESSES)):
        yield to_changer(nexus(number), *reserve_out(REGISTER, 0, 1, all_ports=is_all))


def test_unit_ready(count):
    yield from contacts(100)
    for i in range(count):
        yield to_changer(nexus(i * 37 % 100), TEST_UNIT_READY)


def read_keys(count):
    """Of 50 registrations, at an allocation length of 255."""
    yield from contacts(100)
    for number in range(1, 100, 2):
        yield to_changer(nexus(number), *reserve_out(REGISTER, 0, number))
    for i in range(count):
        yield to_changer(nexus(i * 37 % 100), reserve_in(READ_KEYS, 255))


def read_full_status(count, allocation_length=65535):
    yield from registered(ALL)
    for i in range(count):
        yield to_changer(nexus(i % ADDRESSES), reserve_in(READ_FULL_STATUS, allocation_length))


def register(count):
    """Each address in turn changes its key at port 1."""
    yield from registered(ALL)
    for i in range(count):
        key = 1 + i // ADDRESSES
        yield to_changer(nexus(i % ADDRESSES), *reserve_out(REGISTER, key, key + 1))


def register_by(count, there, key):
    """Each address in turn registers key 1 again, by this reservation key."""
    yield from registered(there)
    for i in range(count):
        yield to_changer(nexus(i % min(there, ADDRESSES)), *reserve_out(REGISTER, key, 1))


def register_again(count, there=ALL):
    yield from register_by(count, there, 1)


def register_refused(count, there=ALL):
    """RESERVATION CONFLICT: the key isn't that of the nexus."""
    yield from register_by(count, there, 2)


def reserve_and_release(count, there=ALL):
    """In turn, by one nexus; the release is told to every other registered one that has a slot."""
    yield from registered(there)
    for i in range(count):
        action = RELEASE if i % 2 else RESERVE
        yield to_changer(nexus(0), *reserve_out(action, 1, scope_type=WRITE_EXCLUSIVE_REGISTRANTS_ONLY))


def to_drive(*words):
    return " ".join([nexus(0), "1", *words])


def writes(count):
    """Of 64 KiB each."""
    data = bytes(i * 7 % 256 for i in range(BLOCK)).hex()
    for _ in range(count):
        yield to_drive("0a0001000000", data)


def write(count):
    """64 KiB to the drive, which is empty: CHECK CONDITION, once the data is read."""
    yield to_drive(TEST_UNIT_READY)
    yield from writes(count)


def loaded():
    """A volume in the drive."""
    yield to_changer(nexus(0), TEST_UNIT_READY)
    yield to_drive(TEST_UNIT_READY)
    yield to_changer(nexus(0), "a50000000400010000000000")
    yield to_drive(TEST_UNIT_READY)


def tape_write(count):
    yield from loaded()
    yield from writes(count)


def tape_write_again(count):
    """Behind as many, which were written to a new tape, from its beginning."""
    yield from tape_write(count)
    yield to_drive(REWIND)
    yield from writes(count)


def tape_read(count):
    """As many as were written before, from the beginning."""
    yield from tape_write(count)
    yield to_drive(REWIND)
    for _ in range(count):
        yield to_drive("080001000000")


def filemarks(count):
    return to_drive(f"1000{count:06x}00")


def space(count):
    """Over so many filemarks, back where there are less than none."""
    return to_drive(f"1101{count % 2**24:06x}00")


def tape_marks(count, there=0):
    """One by one, behind those that are there."""
    yield from loaded()
    yield filemarks(there)
    for _ in range(count):
        yield filemarks(1)


def tape_space(count, there=1):
    """Over one filemark, back and forth in turn, behind those that are there."""
    yield from loaded()
    yield filemarks(there)
    for i in range(count):
        yield space(1 if i % 2 else -1)


def tape_space_all(count, there=1):
    """Over all that are there, back and forth in turn."""
    yield from loaded()
    yield filemarks(there)
    for i in range(count):
        yield space(there if i % 2 else -there)


KINDS = {
    "test_unit_ready": test_unit_ready,
    "read_keys": read_keys,
    "read_full_status": read_full_status,
    "register": register,
    "register_again": register_again,
    "register_refused": register_refused,
    "reserve_and_release": reserve_and_release,
    "write": write,
    "tape_write": tape_write,
    "tape_write_again": tape_write_again,
    "tape_read": tape_read,
    "tape_marks": tape_marks,
    "tape_space": tape_space,
    "tape_space_all": tape_space_all,
}

if __name__ == "__main__":
    kind, numbers = KINDS[sys.argv[1]], map(int, sys.argv[2:])
    sys.stdout.writelines(line + "\n" for line in kind(*numbers))
