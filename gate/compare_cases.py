#!/usr/bin/env python3
"""Compares what was written of cases with what is wanted: compare_cases.py WANTED GOT.

A case begins with a line `== NAME`, with options behind it, and ends before the next. For each difference this prints the
case, the line, counted from 1 behind the heading, and what was got and wanted there; then how many cases agree. The status is
1 where any differs. So in crates/script_cases, `rt run < stdin > got` and `../../gate/compare_cases.py stdout got`."""
import sys
from difflib import SequenceMatcher


def read_cases(path):
    """The lines of each case, by its heading."""
    cases, lines = {}, None
    with open(path, encoding="utf-8", errors="surrogateescape", newline="\n") as file:
        for line in file:
            line = line.removesuffix("\n")
            if line.startswith("== "):
                if line in cases:
                    sys.exit(f"{path}: two cases have the heading {line}")
                lines = cases[line] = []
            elif lines is None:
                sys.exit(f"{path}: the first line is no heading")
            else:
                lines.append(line)
    return cases


def print_lines(label, lines):
    for line in lines or ["no line"]:
        print(f"    {label} {line}".encode("ascii", "backslashreplace").decode())


def is_same(heading, wanted, got):
    """Whether a case has the lines that are wanted; prints each difference."""
    matcher = SequenceMatcher(None, wanted, got, autojunk=False)
    differences = [place for place in matcher.get_opcodes() if place[0] != "equal"]
    for _, first, last, first_got, last_got in differences:
        print(f"{heading}, line {first + 1}")
        print_lines("got:   ", got[first_got:last_got])
        print_lines("wanted:", wanted[first:last])
    return not differences


def compare(wanted, got):
    """How many cases agree; prints each difference."""
    agreeing = 0
    for heading in [*wanted, *(heading for heading in got if heading not in wanted)]:
        if heading not in got:
            print(f"{heading}: not among what was got")
        elif heading not in wanted:
            print(f"{heading}: not among what is wanted")
        else:
            agreeing += is_same(heading, wanted[heading], got[heading])
    return agreeing


def main():
    if len(sys.argv) != 3:
        sys.exit("usage: compare_cases.py WANTED GOT")
    wanted, got = read_cases(sys.argv[1]), read_cases(sys.argv[2])
    agreeing, total = compare(wanted, got), len(wanted.keys() | got.keys())
    print(f"{agreeing} of {total} cases agree")
    sys.exit(0 if agreeing == total else 1)


if __name__ == "__main__":
    main()
