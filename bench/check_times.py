#!/usr/bin/env python3
"""What each function of a crate costs to prove: `bench/check_times.py CRATE [--test] [--by-goals] [--top N]`.

Checks the crate from nothing, one part after another, and goes by the files that the check leaves, one for each part of a function: their
megabytes, and the seconds from one to the next. Behind each stands the share of the part that shows what is borrowed and how long, which
grows with the statements of a function times its variables, and last the seconds of its goals that have no written answer: where these are
many, a goal is proved by a late one of the tactics that are tried, and an answer saves most of them. The megabytes are the same in each run,
and the most costly functions by them come first, with `--by-goals` those whose goals take longest; seconds also tell what else the machine
did, and those of the function that is proved first hold what comes before it.
What stands for no function (loading, linking) is left out. Works as root, since what the kit kept of other checks is hidden meanwhile;
libraries below that aren't proved yet are proved first.
"""
import argparse
import collections
import os
import re
import shutil
import subprocess
import sys
import tempfile

TOP = os.path.dirname(os.path.dirname(os.path.abspath(__file__)))
KEPT = "/opt/rattle-kept"
PARTS = "Answers|Code|Given|Goals|Invariants|Kinds|Layout|Lts|Met|Named|Proof|Reads|Statement|Symbol|TheLink|Tie"


def check(folder, words):
    with tempfile.TemporaryDirectory() as nothing:
        hide = f'[ ! -d {KEPT} ] || mount --bind "$1" {KEPT}; shift; exec rt check --jobs 1 "$@"'
        ran = ["unshare", "-m", "sh", "-c", hide, "sh", nothing, *words]
        return subprocess.run(ran, cwd=folder, stdout=subprocess.PIPE, stderr=subprocess.STDOUT, text=True, errors="replace", check=False)


class Cost:
    """Of a function: megabytes and seconds, each with the share of borrows, and the seconds of goals without an answer."""

    def __init__(self):
        self.megabytes = self.borrowed_megabytes = self.seconds = self.borrowed_seconds = self.goal_seconds = 0.0

    def add(self, megabytes, seconds, part):
        self.megabytes += megabytes
        self.seconds += seconds
        if part == "Lts":
            self.borrowed_megabytes += megabytes
            self.borrowed_seconds += seconds
        elif part == "Proof":
            self.goal_seconds += seconds

    def line(self, name):
        borrowed = f"{self.megabytes:7.2f} {self.borrowed_megabytes:7.2f} MB {self.seconds:6.1f} {self.borrowed_seconds:6.1f}"
        return f"{borrowed} {self.goal_seconds:6.1f} s  {name}"


def cost_by_function(crate, incremental):
    paths = [f"{at}/{name}" for at, _, names in os.walk(incremental) for name in names]
    files = sorted((found.st_mtime, found.st_size, path) for path in paths for found in [os.stat(path)])
    costs, whole = collections.defaultdict(Cost), Cost()
    for (before, _, _), (after, size, path) in zip(files, files[1:]):
        found = re.match(rf"Rattle-{crate}-proofs\.(.+?)\.({PARTS})\b", os.path.basename(path))
        if found:
            for cost in costs[found[1]], whole:
                cost.add(size / 1e6, after - before, found[2])
    return costs, whole


def main():
    arguments = argparse.ArgumentParser(description=__doc__.splitlines()[0])
    arguments.add_argument("crate")
    arguments.add_argument("--test", action="store_true", help="of its tests")
    arguments.add_argument("--by-goals", action="store_true", help="those first whose goals without an answer take longest")
    arguments.add_argument("--top", type=int, default=20)
    asked = arguments.parse_args()
    folder = os.path.join(TOP, "crates", asked.crate)
    incremental = os.path.join(folder, "out", "incremental")
    shutil.rmtree(incremental, ignore_errors=True)
    checked = check(folder, ["--test"] if asked.test else [])
    if checked.returncode:
        sys.exit(f"{checked.stdout}check_times: {asked.crate} isn't proved")
    costs, whole = cost_by_function(asked.crate, incremental)
    weight = (lambda cost: cost.goal_seconds) if asked.by_goals else (lambda cost: cost.megabytes)
    for function, cost in sorted(costs.items(), key=lambda row: -weight(row[1]))[: asked.top]:
        print(cost.line(function))
    print(whole.line(f"{len(costs)} functions in all"))


main()
