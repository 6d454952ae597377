"""What a run of the gate costs: seconds of one processor, which other work on the machine makes more, and counts and megabytes, which are the
same in each run that proves the same.

Of megabytes there are two kinds. A crate's statements are what its check writes for the crates above, each of which loads them. Its proof is what
a check keeps of it in files. `rt ci` lets it be kept for crates with two edits or more alone, to begin their edits with, and takes it away
behind the last of them.
"""
import collections
import functools
import os
import re
import threading

TOP = os.path.dirname(os.path.dirname(os.path.abspath(__file__)))
TICKS = os.sysconf("SC_CLK_TCK")
SHOWN = 12
SHARES = ("proof", "tests", "edits")
MEGABYTE = 1_000_000


def words_of(process, file_name):
    with open(f"/proc/{process}/{file_name}", "rb") as file:
        return file.read().decode(errors="replace").split("\0")


def share_of(process, words):
    """What a run of the prover is for: an edit is tried in a room of rt's own."""
    if "/rt-edit" in os.readlink(f"/proc/{process}/cwd"):
        return "edits"
    return "tests" if "--test" in words else "proof"


def seconds_of(process):
    with open(f"/proc/{process}/stat", encoding="utf-8") as file:
        fields = file.read().rpartition(")")[2].split()
    return (int(fields[11]) + int(fields[12])) / TICKS


def bytes_below(folder, left_out=()):
    """How many bytes the files below a folder have."""
    size = 0
    for at, folders, names in os.walk(folder):
        folders[:] = [name for name in folders if name not in left_out]
        size += sum(os.path.getsize(os.path.join(at, name)) for name in names)
    return size


def bytes_of_statements(crate):
    """Of what a check of a library wrote. `below` is left out, since it is the kit's; of a program there is nothing."""
    return bytes_below(os.path.join(TOP, "crates", crate, "out", "rlib", f"{crate}.rlib"), ["below"])


class Meter(threading.Thread):
    """Looks once a second at how long each process of the prover has run, by the crate that it works on. A process is of this run if its
    environment has the mark, since others on the machine may work on the same crates."""

    def __init__(self, mark):
        super().__init__(daemon=True)
        self.mark = mark
        self.seen = {}
        self.bytes_of_proof = {}
        self.ended = threading.Event()

    def look(self):
        for process in filter(str.isdigit, os.listdir("/proc")):
            try:
                words = words_of(process, "cmdline")
                if "--crate-name" in words and self.mark in words_of(process, "environ"):
                    crate = words[words.index("--crate-name") + 1]
                    self.seen[process, crate, share_of(process, words)] = seconds_of(process)
                    self.look_at_proof(crate, words)
            except (OSError, IndexError, ValueError):
                pass  # it ended between two looks

    def look_at_proof(self, crate, words):
        """Takes the size of what the edits of a crate begin with, once: it is whole when the first edit is tried, in a folder beside it that has a
        number for its name."""
        if crate not in self.bytes_of_proof and "--incremental" in words:
            room, name = os.path.split(words[words.index("--incremental") + 1])
            size = bytes_below(os.path.join(room, "seed")) if name.isdigit() else 0
            if size:
                self.bytes_of_proof[crate] = size

    def run(self):
        while not self.ended.wait(1):
            self.look()

    def shares_by_crate(self):
        crates = collections.defaultdict(collections.Counter)
        for (_, crate, share), seconds in self.seen.items():
            crates[crate][share] += seconds
        return crates


class Told:
    """What the lines of `rt ci` tell of its work, and what each library wrote. That is looked at when its line comes, since at its end `rt` puts
    back what checks by hand had left there before."""

    def __init__(self):
        self.crates = set()
        self.tests = set()
        self.kept = set()
        self.functions = 0
        self.edits = 0
        self.bytes_of_statements = {}

    def take(self, line):
        if found := re.match(r"rt: (\w+) proved$", line):
            self.crates.add(found[1])
            self.bytes_of_statements[found[1]] = bytes_of_statements(found[1])
        elif found := re.match(r"rt: (\w+): its tests are proved$", line):
            self.tests.add(found[1])
        elif found := re.match(r"rt: (\w+) is kept: ", line):
            self.kept.add(found[1])
        elif found := re.match(r"rt: \w+: trying its must-fail edits \((\d+)\)$", line):
            self.edits += int(found[1])
        elif found := re.match(r"logic=proved functions=(\d+) ", line):
            self.functions += int(found[1])


def crates_below():
    """The crates of this repository that each of them names."""
    with open(os.path.join(TOP, "crates.txt"), encoding="utf-8") as file:
        lines = [line.partition(":") for line in file if ":" in line and not line.startswith("#")]
    named = {head.split()[0]: names.split() for head, _, names in lines}
    return {crate: [name for name in names if name in named] for crate, names in named.items()}


def longest_chain(proofs):
    """Of the crates whose proofs wait for one another: the seconds of those that take longest, and their names."""
    below = crates_below()

    @functools.cache
    def chain_to(crate):
        seconds, names = max(map(chain_to, below[crate]), default=(0, ()))
        return seconds + proofs.get(crate, 0), (*names, crate)

    return max(map(chain_to, below))


def seconds_lines(meter):
    """What took longest, and the longest chain."""
    shares_by_crate = meter.shares_by_crate()
    yield "what took longest, in seconds of one processor:"
    for crate, shares in sorted(shares_by_crate.items(), key=lambda row: -sum(row[1].values()))[:SHOWN]:
        parts = ", ".join(f"{share} {shares[share]:.0f}" for share in SHARES if shares[share] >= 1)
        yield f"  {crate}: {sum(shares.values()):.0f} s ({parts})"
    proofs = {crate: shares["proof"] for crate, shares in shares_by_crate.items()}
    seconds, names = longest_chain(proofs)
    waiting = ", ".join(name for name in names if proofs.get(name, 0) >= 1)
    yield f"{seconds:.0f} s of proofs that wait for one another ({waiting or 'none'})"


def megabytes(sizes, what):
    """How much was written in all, and by the crates that wrote most."""
    rows = sorted(sizes.items(), key=lambda row: -row[1])[:SHOWN]
    most = ", ".join(f"{crate} {size / MEGABYTE:.1f}" for crate, size in rows if size)
    return f"{sum(sizes.values()) / MEGABYTE:,.1f} MB of {what}" + (f", most by {most}" if most else "")


def counted_lines(told, bytes_of_proof):
    """What is the same in each run that proves the same. Nothing was written for what was kept, so then the sums are of less, which is told."""
    crates, tests = len(told.crates), len(told.tests)
    yield f"{crates + tests} checks, {crates} of crates and {tests} of tests, with {told.functions:,} functions; {told.edits} edits tried"
    yield megabytes(told.bytes_of_statements, "statements")
    yield megabytes(bytes_of_proof, f"proof that edits began with, in {len(bytes_of_proof)} of the crates")
    if told.kept:
        yield f"counts and megabytes are without what an earlier run had passed and nothing was written for: {len(told.kept)} crates"
