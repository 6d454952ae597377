"""How the gate plays cases and rows, and what it counts of them."""
import glob
import os
import re
import subprocess

TOP = os.path.dirname(os.path.dirname(os.path.abspath(__file__)))
CASES = os.path.join(TOP, "crates", "script_cases")
WANTED = os.path.join(CASES, "stdout")


def compare_cases(got):
    """Prints each case of `script_cases` whose answer in this file isn't the one that is wanted, by name, line, got and wanted. Gives how
    many agree, and how many don't."""
    command = [os.path.join(TOP, "gate", "compare_cases.py"), WANTED, got]
    ran = subprocess.run(command, stdout=subprocess.PIPE, stderr=subprocess.STDOUT, text=True, errors="replace", check=False)
    print(ran.stdout, end="", flush=True)
    found = re.search(r"(\d+) of (\d+) cases agree\n\Z", ran.stdout)
    agreeing, total = map(int, found.groups()) if found else (0, 1)
    return agreeing, total - agreeing


def rows_of(tests, program):
    """Plays the rows of a program of `tests/`, and gives how many passed and how many failed: one failed where it says nothing of that."""
    ran = subprocess.run([tests, program], stdout=subprocess.PIPE, stderr=subprocess.STDOUT, text=True, errors="replace", check=False)
    print(f"== tests: {os.path.basename(os.path.dirname(tests))}\n{ran.stdout}", end="", flush=True)
    found = re.search(r"(\d+) passed, (\d+) failed\n?\Z", ran.stdout)
    passed, failed = map(int, found.groups()) if found else (0, 0)
    return passed, failed if (ran.returncode == 0) == (failed == 0) else failed + 1


def play_rows(program):
    """Plays the rows of all programs of `tests/`, and gives how many passed and how many failed."""
    return added(rows_of(tests, program) for tests in sorted(glob.glob(os.path.join(TOP, "tests", "*", "run"))))


def added(counts):
    """The sums of what passed and of what failed."""
    passed, failed = 0, 0
    for more_passed, more_failed in counts:
        passed, failed = passed + more_passed, failed + more_failed
    return passed, failed
