"""What strace records of the files of a folder, and what a power cut could leave of them. It is for `power_cut.py`.

The calls are taken in the order of their ends. A sync brings to the disk what had ended when it began: of a file its bytes and its length,
and of the folder the names that its files have. Of all else any part may be lost.
"""
import bisect
import math
import os
import re
import typing

PAGE = 4096
# What a record of what is on the disk says of its file, and of when.
INODE, BOOT = re.compile(rb'inode = "(\d+)"'), re.compile(rb'boot = "([0-9a-f-]{36})"')
# The calls that change files, those that report what these are about, and those at the sockets of hosts.
OPENING = "open,openat,openat2,creat,close,dup,dup2,dup3,fcntl,mmap,lseek,fstat,newfstatat,statx,stat,lstat,mkdir,mkdirat,rmdir"
CONTENT = "write,writev,pwrite64,pwritev,pwritev2,ftruncate,truncate,fallocate,copy_file_range,sendfile,splice,io_uring_setup"
NAMES = "rename,renameat,renameat2,link,linkat,symlink,symlinkat,unlink,unlinkat,fsync,fdatasync,sync,syncfs"
SOCKETS = "accept,accept4,read,readv,recvfrom,recvmsg,sendto,sendmsg"
# Calls that do what another one does.
KINDS = {
    "openat": "open",
    "creat": "open",
    "dup2": "dup",
    "dup3": "dup",
    "accept4": "accept",
    "readv": "read",
    "recvfrom": "read",
    "recvmsg": "read",
    "writev": "write",
    "sendto": "write",
    "sendmsg": "write",
    "pwrite64": "pwrite",
    "pwritev": "pwrite",
    "pwritev2": "pwrite",
    "renameat": "rename",
    "renameat2": "rename",
    "linkat": "link",
    "symlinkat": "symlink",
    "unlinkat": "unlink",
    "mkdirat": "mkdir",
    "fdatasync": "fsync",
    "syncfs": "sync",
    "fstat": "stat",
    "lstat": "stat",
    "newfstatat": "stat",
    "statx": "stat",
}
# What stands before the words of a program that is recorded, with the record's path after it: strings are whole, in hexadecimal digits.
STRACE = ["strace", "-f", "-qq", "-v", "-xx", "-s", "2097152", "-e", f"trace={OPENING},{CONTENT},{NAMES},{SOCKETS}", "-o"]


class Call(typing.NamedTuple):
    """A call: the lines of the record at which it began and ended, and what is said of it."""

    start: int
    end: int
    name: str
    said: str
    result: int

    def numbers(self):
        """What is said, part by part, where none has a comma in it."""
        return [int(part) if re.fullmatch(r"-?\d+", part.strip()) else part.strip() for part in self.said.split(",")]

    def strings(self):
        found = re.findall(r'"((?:\\x[0-9a-f]{2})*)"(\.\.\.)?', self.said)
        assert not any(rest for _text, rest in found), f"the record has not all of a string: {self.name}"
        return [bytes.fromhex(text.replace("\\x", "")) for text, _rest in found]

    def descriptor(self):
        """The first number; that of the folder at which a path begins, or None where it begins at the working directory."""
        first = re.match(r"-?\d+", self.said)
        return int(first[0]) if first else None


def calls_of(path, first):
    """The calls of a record, in the order of their ends. Its first line has a number."""
    begun = {}
    with open(path, encoding="ascii") as file:
        for at, line in enumerate(file, first):
            process, rest = line.split(maxsplit=1)
            if rest.startswith(("+++", "---")):
                continue
            if rest.endswith("<unfinished ...>\n"):
                begun[process] = (at, rest[: -len("<unfinished ...>\n")])
                continue
            resumed = re.match(r"<\.\.\. \w+ resumed>", rest)
            start, front = begun.pop(process) if resumed else (at, "")
            rest = front + (rest[resumed.end() :] if resumed else rest)
            found = re.match(r"(\w+)\((.*)\)\s+= (-?\d+|\?|0x[0-9a-f]+)", rest, re.S)
            assert found, f"{path}: line {at}: {rest[:200]}"
            if found[3] != "?":
                yield Call(start, at, found[1], found[2], int(found[3], 0))


class Changing:
    """Something on a disk: what changed it, at which lines of the record, and how many of these changes each sync brought there."""

    def __init__(self):
        self.ends, self.changes, self.syncs = [], [], [(-1, 0)]

    def change(self, call, what):
        self.ends.append(call.end)
        self.changes.append(what)

    def sync(self, call):
        """What had ended when it began is on the disk."""
        self.syncs.append((call.end, bisect.bisect_left(self.ends, call.start)))

    def at(self, moment):
        """The changes that were on the disk for sure, and those since."""
        synced = max(count for end, count in self.syncs if end <= moment)
        done = bisect.bisect_right(self.ends, moment)
        return self.changes[:synced], self.changes[synced:done]


def apply(content, change):
    """A change of a file's content: ("write", offset, data), or ("cut", length)."""
    if change[0] == "write":
        _write, offset, data = change
        content.extend(bytes(max(0, offset - len(content))))
        content[offset : offset + len(data)] = data
    else:
        length = change[1]
        content.extend(bytes(max(0, length - len(content))))
        del content[length:]


def applied(content, changes):
    content = bytearray(content)
    for change in changes:
        apply(content, change)
    return content


class File(Changing):
    """A file of the folder: what it had first, and its number on that disk where it is known."""

    def __init__(self, content=b"", inode=None):
        super().__init__()
        self.base, self.now, self.inode = bytes(content), bytearray(content), inode

    def change(self, call, what):
        super().change(call, what)
        apply(self.now, what)


class Folder(Changing):
    """The names of a folder's files."""

    def __init__(self, names):
        super().__init__()
        self.base, self.now = dict(names), dict(names)

    def change(self, call, what):
        super().change(call, what)
        rename(self.now, what)


def rename(names, change):
    """A change of names: those that go, and the one that comes with its file."""
    for name in change[0]:
        names.pop(name, None)
    if change[1]:
        names[change[1]] = change[2]


def contents_of(path):
    """The bytes of the files of a folder, and their numbers on its disk, by their names."""
    found = {}
    for name in os.listdir(path):
        with open(os.path.join(path, name), "rb") as file:
            found[name] = (file.read(), os.fstat(file.fileno()).st_ino)
    return found


class Connection:
    """A host's connection: how many bytes were read and written by each line."""

    def __init__(self, accepted):
        self.accepted = accepted
        self.read, self.written = [(accepted, 0)], [(accepted, 0)]

    @staticmethod
    def add(counts, call):
        if call.result > 0:
            counts.append((call.end, counts[-1][1] + call.result))

    @staticmethod
    def by(counts, moment):
        at = bisect.bisect_right(counts, (moment, math.inf))
        return counts[at - 1][1] if at else 0


class Opened:
    """An open file: what it is of, and where it stands."""

    def __init__(self, thing, flags=""):
        self.thing, self.position = thing, 0
        self.appends = "O_APPEND" in flags
        self.is_synced = "O_SYNC" in flags or "O_DSYNC" in flags

    def is_connection(self):
        return isinstance(self.thing, Connection)


class Record:
    """What records of programs, one after the other, report of a folder's files, of their names and of the hosts' connections."""

    def __init__(self, path, files):
        """Of the folder at a path, with the files that were there before, by their names."""
        self.path, self.folder, self.files = path, Folder(files), list(files.values())
        # What is open by its number, and the line at which that was given.
        self.opened, self.since = {}, {}
        # The hosts' connections, the lines at which something happened, those at which a file or a name changed, and how many there were.
        self.connections, self.moments, self.changes, self.lines = [], [], [], 0

    def read(self, path):
        """Goes on with the record of a program."""
        self.opened, self.since = {}, {}
        for call in calls_of(path, self.lines):
            getattr(self, "on_" + KINDS.get(call.name, call.name), self.on_other)(call)
        with open(path, "rb") as file:
            self.lines += sum(1 for _line in file)

    def settle(self):
        """Of a program that was killed, calls whose end wasn't recorded may have been done: this notes what they did to files' bytes.
        Whether they did nothing to names."""
        found, names = contents_of(self.path), self.folder.now
        if sorted(found) != sorted(names):
            return False
        call = Call(self.lines - 1, self.lines - 1, "", "", 0)
        for name, (content, _inode) in found.items():
            if content != names[name].now:
                same = len(os.path.commonprefix([content, bytes(names[name].now)]))
                self.note(names[name], call, ("cut", len(content)))
                self.note(names[name], call, ("write", same, content[same:]))
        self.compare()
        return True

    def compare(self):
        """What the record makes of the folder has to be what is there; and notes the files' numbers."""
        found, names = contents_of(self.path), self.folder.now
        assert sorted(found) == sorted(names), f"the record makes other names of it: {sorted(found)}, {sorted(names)}"
        for name, (content, inode) in found.items():
            assert content == names[name].now, f"{name}: the record makes something else of it"
            assert names[name].inode in (None, inode), f"{name}: another file"
            names[name].inode = inode

    def path_of(self, call, nth=0):
        """The path that is the nth that a call names."""
        path = os.fsdecode(call.strings()[nth])
        if not path.startswith("/"):
            at = [int(number) for number in re.findall(r"(?:^|, )(\d+), \"", call.said)]
            if len(at) > nth and at[nth] in self.opened and self.opened[at[nth]].thing is self.folder:
                return os.path.join(self.path, path)
        return os.path.abspath(path)

    def name_of(self, path):
        """The name of a file in the folder, if a path leads there."""
        within = os.path.dirname(path) == self.path
        assert within or not path.startswith(self.path + "/"), f"a folder in the folder: {path}"
        return os.path.basename(path) if within else None

    def note(self, thing, call, what):
        thing.change(call, what)
        self.moments.append(call.end)
        self.changes.append(call.end)

    def open(self, call, opened):
        """A number is given to something that is open now, and taken from what had it before."""
        self.opened.pop(call.result, None)
        self.since[call.result] = call.end
        if opened:
            self.opened[call.result] = opened

    def thing_at(self, call):
        """What is open at the number that a call names."""
        opened = self.opened.get(call.descriptor())
        return opened.thing if opened else None

    def on_other(self, call):
        raise AssertionError(f"a call that isn't known here: {call.name}({call.said[:200]})")

    # Opening and closing.

    def on_open(self, call):
        if call.result < 0:
            return
        path = self.path_of(call)
        flags = "O_CREAT|O_TRUNC" if call.name == "creat" else re.search(r'", ((?:O_\w+\|?|\|)+)', call.said)[1]
        if path == self.path:
            self.open(call, Opened(self.folder))
            return
        name = self.name_of(path)
        if name is None:
            self.open(call, None)
            return
        self.open(call, Opened(self.file_at(call, path, name, flags), flags))

    def file_at(self, call, path, name, flags):
        """The file of a name that is opened, made or cut where that is asked for."""
        file = self.folder.now.get(name)
        if file is None:
            assert "O_CREAT" in flags, f"a file that isn't known: {path}"
            file = File()
            self.files.append(file)
            self.note(self.folder, call, ((), name, file))
        elif "O_TRUNC" in flags and file.now:
            self.note(file, call, ("cut", 0))
        return file

    def on_close(self, call):
        # The number may have been given again before the call was seen to end.
        if self.since.get(call.descriptor(), -1) < call.start:
            self.opened.pop(call.descriptor(), None)

    def on_dup(self, call):
        if call.result >= 0:
            self.open(call, self.opened.get(call.descriptor()))

    def on_fcntl(self, call):
        if "F_DUPFD" in call.said:
            self.on_dup(call)

    def on_accept(self, call):
        if call.result >= 0:
            self.connections.append(Connection(call.end))
            self.open(call, Opened(self.connections[-1]))

    def on_mmap(self, call):
        descriptor = call.numbers()[4]
        is_ours = descriptor in self.opened and isinstance(self.opened[descriptor].thing, File)
        assert not (is_ours and "MAP_SHARED" in call.said and "PROT_WRITE" in call.said), "a file is written by its memory"

    # Content.

    def on_read(self, call):
        opened = self.opened.get(call.descriptor())
        if opened and opened.is_connection() and "MSG_PEEK" not in call.said:
            Connection.add(opened.thing.read, call)
            self.moments.append(call.end)
        elif opened:
            opened.position += max(0, call.result)

    def on_write(self, call):
        opened = self.opened.get(call.descriptor())
        if opened and opened.is_connection():
            Connection.add(opened.thing.written, call)
            self.moments.append(call.end)
        elif opened and call.result > 0:
            offset = len(opened.thing.now) if opened.appends else opened.position
            opened.position = offset + call.result
            self.write(opened, call, offset, b"".join(call.strings())[: call.result])

    def on_pwrite(self, call):
        opened = self.opened.get(call.descriptor())
        if opened and call.result > 0:
            offset = [part for part in call.numbers() if isinstance(part, int)][-1]
            assert offset >= 0 and "RWF_" not in call.said, f"{call.name} of an unknown kind"
            self.write(opened, call, len(opened.thing.now) if opened.appends else offset, b"".join(call.strings())[: call.result])

    def write(self, opened, call, offset, data):
        self.note(opened.thing, call, ("write", offset, data))
        if opened.is_synced:
            opened.thing.syncs.append((call.end, len(opened.thing.changes)))

    def on_lseek(self, call):
        if call.result >= 0 and call.descriptor() in self.opened:
            self.opened[call.descriptor()].position = call.result

    def on_ftruncate(self, call):
        file = self.thing_at(call)
        if file and call.result == 0:
            self.note(file, call, ("cut", call.numbers()[1]))

    def on_truncate(self, call):
        name = self.name_of(self.path_of(call))
        if name and call.result == 0:
            self.note(self.folder.now[name], call, ("cut", call.numbers()[-1]))

    def on_fallocate(self, call):
        file = self.thing_at(call)
        if file and call.result == 0:
            _descriptor, mode, offset, length = call.numbers()
            assert mode in (0, "FALLOC_FL_KEEP_SIZE"), f"fallocate of an unknown kind: {mode}"
            if mode == 0 and offset + length > len(file.now):
                self.note(file, call, ("cut", offset + length))

    def on_copy_file_range(self, call):
        source, source_at, target, target_at = re.match(r"(\d+), (NULL|\[\d+\])[^,]*, (\d+), (NULL|\[\d+\])", call.said).groups()
        self.copy(call, (int(source), source_at), (int(target), target_at))

    def on_sendfile(self, call):
        target, source, source_at = re.match(r"(\d+), (\d+), (NULL|\[\d+\])", call.said).groups()
        self.copy(call, (int(source), source_at), (int(target), "NULL"))

    def copy(self, call, source, target):
        """Copies from one open file, and a place in it, to another."""
        if call.result <= 0 or target[0] not in self.opened:
            return
        places = []
        for number, at in (source, target):
            opened = self.opened[number]
            places.append(opened.position if at == "NULL" else int(at.strip("[]")))
            if at == "NULL":
                opened.position += call.result
        data = bytes(self.opened[source[0]].thing.now[places[0] : places[0] + call.result])
        self.write(self.opened[target[0]], call, places[1], data)

    # Names, and syncs.

    def on_rename(self, call):
        if call.result == 0:
            assert "RENAME_EXCHANGE" not in call.said
            source, target = self.name_of(self.path_of(call, 0)), self.name_of(self.path_of(call, 1))
            assert (source is None) == (target is None), f"a file comes or goes: {call.strings()}"
            if source:
                self.note(self.folder, call, ((source,), target, self.folder.now[source]))

    def on_link(self, call):
        source, target = self.name_of(self.path_of(call, 0)), self.name_of(self.path_of(call, 1))
        if call.result == 0 and target:
            self.note(self.folder, call, ((), target, self.folder.now[source]))

    def on_symlink(self, call):
        assert self.name_of(self.path_of(call, 1)) is None, "a symbolic link in the folder"

    def on_unlink(self, call):
        name = self.name_of(self.path_of(call))
        if name and call.result == 0:
            self.note(self.folder, call, ((name,), None, None))

    def on_fsync(self, call):
        thing = self.thing_at(call)
        if thing and call.result == 0:
            thing.sync(call)
            self.moments.append(call.end)

    def on_sync(self, call):
        for thing in [self.folder, *self.files]:
            thing.sync(call)

    def on_stat(self, call):
        found = re.search(r"stx?_ino=(\d+)", call.said)
        if not found or call.result:
            return
        strings = call.strings()
        file = self.folder.now.get(self.name_of(self.path_of(call))) if strings and strings[0] else self.thing_at(call)
        if isinstance(file, File):
            file.inode = int(found[1])

    def on_mkdir(self, call):
        assert self.name_of(self.path_of(call)) is None, "a folder in the folder"

    on_rmdir = on_mkdir


def left_of(file, moment, numbers):
    """What a power cut at a moment may leave of a file, and in which way it was left."""
    synced, since = file.at(moment)
    old = applied(file.base, synced)
    if not since:
        return old, "as it was synced"
    new = applied(old, since)
    first = numbers.randrange(len(since) + 1)
    middle = applied(old, since[:first])
    untruncated = applied(old, [change for change in since if change[0] == "write"])
    grown = zeros_for(old, since)
    lengths = [len(old), len(new), len(middle)]
    ways = {
        "nothing since its sync": lambda: old,
        f"all {len(since)} calls since its sync": lambda: new,
        f"the first {first} of {len(since)} calls since its sync": lambda: middle,
        "all calls but truncations since its sync": lambda: untruncated,
        "zeros for what was written since its sync": lambda: grown,
        "zeros for some pages": lambda: pages_of([new, grown], len(new), numbers),
        "pages old or new": lambda: pages_of([old, new], numbers.choice(lengths[:2]), numbers),
        "pages of any kind": lambda: pages_of([old, new, middle, untruncated, grown], numbers.choice(lengths), numbers),
    }
    way = numbers.choice(list(ways))
    return ways[way](), f"{way}: {len(old)} bytes, {described(since)}"


def described(changes):
    """A few of the changes, in words."""
    words = [f"cut to {change[1]}" if change[0] == "cut" else f"{len(change[2])} at {change[1]}" for change in changes]
    return ", ".join(words if len(words) < 9 else [*words[:4], "..", *words[-4:]])


def zeros_for(content, changes):
    """A file that has its new length, with zeros where more was written than it had."""
    content = bytearray(content)
    for change in changes:
        end = change[1] + len(change[2]) if change[0] == "write" else change[1]
        if change[0] == "cut" or end > len(content):
            apply(content, ("cut", end))
    return content


def pages_of(kinds, length, numbers):
    """Each page from one of several contents of a file, by a weight of its own for each."""
    weights = [numbers.choice([0.1, 1, 4]) for _kind in kinds]
    content = bytearray()
    for at in range(0, length, PAGE):
        page = numbers.choices(kinds, weights)[0][at : at + PAGE]
        content += page.ljust(PAGE, b"\0")
    return content[:length]


def names_left(folder, moment, numbers):
    """Which names a power cut at a moment may leave, and which changes of them are there."""
    synced, since = folder.at(moment)
    names = dict(folder.base)
    for change in synced:
        rename(names, change)
    way = numbers.randrange(4)
    first = numbers.randrange(len(since) + 1)
    there = [way == 1 or way == 2 and nth < first or way == 3 and numbers.random() < 0.5 for nth in range(len(since))]
    for is_there, change in zip(there, since):
        if is_there:
            rename(names, change)
    reported = [f"{'' if is_there else 'not '}{' '.join(change[0])} -> {change[1]}" for is_there, change in zip(there, since)]
    return names, "; ".join(reported) or "as they were synced"


def boot_again(text, was, now, boot):
    """A record of what is on the disk, for another boot, and a disk on which the file that had a number has another one. Of a file that it
    doesn't name it still names none. It is as long as it was."""
    said = INODE.search(text)
    if not said:
        return text
    named = now if int(said[1]) == was else now + 1_000_003
    other = text[: said.start(1)] + b"%d" % named + text[said.end(1) :]
    other = BOOT.sub(b'boot = "%s"' % boot, other)
    spaces = max(re.finditer(rb" +", other), key=lambda found: len(found[0]))
    count = len(spaces[0]) + len(text) - len(other)
    assert count > 0, f"a record that has no room: {text}"
    return other[: spaces.start()] + b" " * count + other[spaces.end() :]


def lay_out(record, moment, numbers, path):
    """Lays out the folder that a power cut at a moment may leave, and reports how."""
    names, reported = names_left(record.folder, moment, numbers)
    left = {file: left_of(file, moment, numbers) for file in dict.fromkeys(names.values())}
    boot = b"%08x-5eed-4000-8000-%012x" % (numbers.randrange(1 << 32), numbers.randrange(1 << 48))
    os.mkdir(path)
    for name, file in names.items():
        with open(os.path.join(path, name), "wb") as out:
            out.write(left[file][0])
    # The records name other files now.
    for name, file in names.items():
        image = name.removesuffix(".synced") + ".tap"
        if name.endswith(".synced") and image in names:
            with open(os.path.join(path, name), "r+b") as out:
                out.write(boot_again(bytes(left[file][0]), names[image].inode, os.stat(os.path.join(path, image)).st_ino, boot))
    return [f"names: {reported}", *(f"{name}: {left[file][1]}" for name, file in names.items())]
