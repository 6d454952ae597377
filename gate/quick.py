"""The quick test, which proves nothing: what `rt ci` refuses before it proves anything, the cases of `script_cases` in unproved runs, and
the rows of `tests/` where the proved program of just these sources is there."""
import collections
import glob
import os
import re
import shutil
import subprocess
import tempfile

import playing

TOP = playing.TOP
# `rt try` has no answer past 1 MiB, so a run gets cases that are to print less, with room for what they print beyond that.
MOST_PRINTED = 600_000
# Seconds that a run may take. It takes a few.
LIMIT = 120
# An interpreter runs the cases too, for so many steps at most. It is slow, so it gets one: the answers are of the program compiled with
# checks.
STEPS = 1
HEAD = b"== "
# How many lines of what `rt` tells are shown where a run gives no answer.
SHOWN = 30


def say_head(what):
    print(f"== {what}", flush=True)


def files_by_crate():
    """The files of each crate that have a layout."""
    files = {}
    for crate in sorted(glob.glob(os.path.join(TOP, "crates", "*", ""))):
        folders = [os.path.join(crate, part) for part in ("src", "specs", "proofs")]
        found = [os.path.join(at, name) for folder in folders for at, _, names in os.walk(folder) for name in names]
        files[crate] = sorted(file for file in found if file.endswith((".rt", ".antt")))
    return files


def play_formatting():
    """Whether the files of each crate are as `rt fmt` lays them out, which `rt` itself asks the kit's `rattle`."""
    say_head("formatting")
    files = files_by_crate()
    rattle = os.path.join(os.path.dirname(os.path.realpath(shutil.which("rt"))), "rattle")
    command = [rattle, "fmt", "--check", *(os.path.relpath(file, TOP) for crate in files.values() for file in crate)]
    ran = subprocess.run(command, cwd=TOP, stdout=subprocess.PIPE, stderr=subprocess.STDOUT, text=True, errors="replace", check=False)
    faulty = set(re.findall(r"^crates/(\w+)/", ran.stdout, re.M))
    if ran.returncode and not faulty:
        faulty = set(files)
    if ran.returncode:
        print(f"{ran.stdout}check: say rt fmt in the folder of each crate that is named", flush=True)
    return len(files) - len(faulty), len(faulty)


def fault_of_edit(edit):
    """Why an edit can't be applied, if it can't. Its pairs are applied one after another, each to what those before have made."""
    crate = os.path.dirname(os.path.dirname(edit))
    path, old, texts, pairs = None, None, {}, 0
    with open(edit, encoding="utf-8", errors="replace") as file:
        lines = file.read().split("\n")
    for line in lines:
        if line.startswith("file: "):
            path = line.removeprefix("file: ").strip()
        elif line.startswith("old: "):
            old = line.removeprefix("old: ")
        elif line.startswith("new:"):
            if not path or not old:
                return "got a line 'new:', wanted a line 'file:' and a line 'old:' before it"
            if path not in texts and not os.path.isfile(os.path.join(crate, path)):
                return f"got no file {path}, wanted one"
            if path not in texts:
                with open(os.path.join(crate, path), encoding="utf-8") as file:
                    texts[path] = file.read()
            count = texts[path].count(old)
            if count != 1:
                return f"got its old text {count} times in {path}, wanted it once: {old}"
            new = line.removeprefix("new:").removeprefix(" ")
            if new == old:
                return f"got a new text that is the old one, wanted another: {old}"
            texts[path] = texts[path].replace(old, new)
            old, pairs = None, pairs + 1
    return None if pairs else "got no pair of lines 'old:' and 'new:', wanted one"


def play_edits():
    """Whether each must-fail edit still applies."""
    say_head("must-fail edits: whether they apply")
    edits = sorted(glob.glob(os.path.join(TOP, "crates", "*", "must-fail", "*.edit")))
    faults = [(edit, fault_of_edit(edit)) for edit in edits]
    faulty = [f"{os.path.relpath(edit, TOP)}: {fault}\n" for edit, fault in faults if fault]
    print("".join(faulty), end="", flush=True)
    return len(edits) - len(faulty), len(faulty)


def cases_of(path):
    """The lines of each case, by its heading, in bytes: a script may be no text."""
    cases = collections.defaultdict(list)
    heading = None
    with open(path, "rb") as file:
        for line in file:
            heading = line if line.startswith(HEAD) else heading
            cases[heading].append(line)
    return {heading: b"".join(lines) for heading, lines in cases.items()}


def parts_of_cases():
    """The cases as texts, each of which is to print less than a run may."""
    wanted = cases_of(playing.WANTED)
    parts, printed = [b""], 0
    for heading, lines in cases_of(os.path.join(playing.CASES, "stdin")).items():
        size = len(wanted.get(heading, b""))
        if printed + size > MOST_PRINTED:
            parts.append(b"")
            printed = 0
        parts[-1] += lines
        printed += size
    return parts


def try_parts(parts, folder):
    """Runs each part of the cases unproved, all over one build. Gives what the runs printed, and what `rt` told."""
    names = [f"run-{number}" for number in range(1, len(parts) + 1)]
    for name, part in zip(names, parts, strict=True):
        with open(os.path.join(folder, name), "wb") as file:
            file.write(part)
    command = ["rt", "try", "--steps", str(STEPS), "--seconds", str(LIMIT), "--cases", folder]
    ran = subprocess.run(command, cwd=playing.CASES, stdin=subprocess.DEVNULL, capture_output=True, check=False)
    headings = {HEAD + name.encode() + b"\n" for name in names}
    printed = b"".join(line for line in ran.stdout.splitlines(keepends=True) if line not in headings)
    return printed, ran.stderr.decode(errors="replace")


def play_cases():
    """Whether the cases of `script_cases` print what is wanted, in runs that are checked as they go and not proved."""
    say_head("cases of script_cases, in unproved runs")
    parts = parts_of_cases()
    with tempfile.TemporaryDirectory(prefix="vtl-") as folder:
        printed, told = try_parts(parts, folder)
    has_ended = f"cases={len(parts)} ended={len(parts)} " in told
    if not has_ended:
        print("".join(f"{line}\n" for line in told.splitlines()[:SHOWN]), end="", flush=True)
    if not printed:
        print("check: no case was played", flush=True)
        return 0, len(cases_of(playing.WANTED))
    with tempfile.NamedTemporaryFile(prefix="vtl-") as got:
        got.write(printed)
        got.flush()
        agreeing, differing = playing.compare_cases(got.name)
    return agreeing, differing if has_ended else max(1, differing)


def play_rows():
    """The rows of `tests/`, where the proved program of just these sources is there."""
    command = [os.path.join(TOP, "vtl"), "built"]
    program = subprocess.run(command, stdout=subprocess.PIPE, text=True, check=False).stdout.strip()
    if not program:
        print("check: the rows of tests are left out, since no program of these sources is built (./vtl build)", flush=True)
        return 0, 0
    return playing.play_rows(program)


PLAYS = [play_formatting, play_edits, play_cases, play_rows]
