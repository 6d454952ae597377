#!/usr/bin/env python3
"""Writes the answers that spare failing searches: `bench/answer_goals.py CRATE FUNCTION..`, each as a check prints it (`serving::serve`).

A goal without an answer is tried by a search first and then by `grind` with one set of lemmas after another, and where `grind` proves it
most of its time is the search that fails. So each goal of the functions is answered by the first tactic of the row, those that it doesn't
prove by the next, and so on. What then stays in their files `Answers.antt` are the answers that aren't the first that is tried anyway.
Which functions are worth it `bench/check_times.py CRATE --by-goals` says. The crate has to be proved before, and is behind it.
"""
import argparse
import collections
import glob
import os
import re
import shutil
import subprocess
import sys
import tempfile

TOP = os.path.dirname(os.path.dirname(os.path.abspath(__file__)))
COMMON, SETS = "Rattle.std.proofs.Common", "Rattle.std.proofs.lemmas.Grind"
WORDS = {"rules": COMMON, "arith": COMMON, "common_steps": SETS, "elements": SETS, "moves": SETS, "pieces": SETS}
# What holds by itself, then what is tried first anyway, then the rest of the row.
ROW = (
    "_",
    "search rules",
    "grind (arith, common_steps)",
    "grind (arith, elements)",
    "grind (arith, moves)",
    "search (pieces, arith) depth 5 fits 300",
)
FIRST_WRITTEN = 2


def check(crate, *words):
    ran = subprocess.run(
        ["rt", "check", *words], cwd=crate, stdout=subprocess.PIPE, stderr=subprocess.STDOUT, text=True, errors="replace", check=False
    )
    return ran.returncode, ran.stdout


def text_of(path):
    with open(path, encoding="utf-8") as file:
        return file.read()


class Answers:
    """A function's file of answers: what stood in it, and the goals next to that, each with its place in the row."""

    def __init__(self, crate, function, offered):
        self.path = os.path.join(crate, "proofs", *function.split("::"), "Answers.antt")
        self.stood = text_of(self.path) if os.path.exists(self.path) else ""
        text = text_of(offered)
        self.goals_line = re.search(r"^use \S+\.Goals as goal$", text, re.M)[0]
        found = re.findall(r"^pub (\S+) : goal\.\S+\n\1((?: \S+)+) = \?", text, re.M)
        self.binders = {name: binders for name, binders in found if not re.search(rf"^pub {re.escape(name)} :", self.stood, re.M)}
        self.place = dict.fromkeys(self.binders, 0)
        self.goal_at = {}

    def with_imports(self, words):
        text = self.stood
        for module in sorted({WORDS[word] for word in words}, reverse=True):
            wanted = sorted(word for word in words if WORDS[word] == module)
            line = re.search(rf"^use {re.escape(module)}\.\{{(.*)\}}$", text, re.M)
            if line:
                named = line[1].split(", ")
                named += [word for word in wanted if word not in named]
                text = text[: line.start()] + f"use {module}.{{{', '.join(named)}}}" + text[line.end() :]
            else:
                text = f"use {module}.{{{', '.join(wanted)}}}\n{text}"
        if self.goals_line not in text:
            end = max((found.end() for found in re.finditer(r"^use .*\n", text, re.M)), default=0)
            text = f"{text[:end]}{self.goals_line}\n{text[end:]}"
        return text

    def write(self, least):
        """Writes the answers from a place in the row on, and what stood there before."""
        answers = {name: ROW[place] for name, place in self.place.items() if least <= place < len(ROW)}
        self.goal_at = {}
        if not answers and not self.stood:
            if os.path.exists(self.path):
                os.remove(self.path)
            return
        words = {word for tactic in answers.values() for word in re.findall(r"[a-z_]+", tactic) if word in WORDS}
        text = self.with_imports(words) if answers else self.stood
        for name, tactic in answers.items():
            text += f"\npub {name} : goal.{name}\n{name}{self.binders[name]} = {tactic}\n"
            self.goal_at[text.count("\n")] = self.goal_at[text.count("\n") - 1] = name
        os.makedirs(os.path.dirname(self.path), exist_ok=True)
        with open(self.path, "w", encoding="utf-8") as file:
            file.write(text)

    def pass_on(self, crate, said):
        """Puts each goal that wasn't proved one on in the row, and answers how many there were."""
        where = re.escape(os.path.relpath(self.path, crate))
        lines = map(int, re.findall(rf"^\./{where}:(\d+):\d+: error", said, re.M))
        failed = {self.goal_at[line] for line in lines if line in self.goal_at}
        for name in failed:
            self.place[name] += 1
        return len(failed)


def offers(crate, name, functions):
    """The goals of functions as the check offers them, in a folder that is gone behind it."""
    with tempfile.TemporaryDirectory() as folder:
        status, said = check(crate, "--generated", folder, *(word for it in functions for word in ("--start", it)))
        files = {it: glob.glob(f"{folder}/*-proofs/{it.replace('::', '/')}/AnswersOffered.antt") for it in functions}
        missing = [it for it, found in files.items() if not found]
        if status or missing:
            sys.exit(f"{said}answer_goals: {name} offers no goals of {', '.join(missing)}")
        return [Answers(crate, it, found[0]) for it, found in files.items()]


def main():
    arguments = argparse.ArgumentParser(description=__doc__.splitlines()[0])
    arguments.add_argument("crate")
    arguments.add_argument("function", nargs="+")
    asked = arguments.parse_args()
    crate = os.path.join(TOP, "crates", asked.crate)
    files = offers(crate, asked.crate, asked.function)
    for place in range(len(ROW)):
        for answers in files:
            answers.write(least=0)
        _, said = check(crate)
        left = sum(answers.pass_on(crate, said) for answers in files)
        print(f"{ROW[place]}: {left} goals are left", flush=True)
        if not left:
            break
    for answers in files:
        answers.write(FIRST_WRITTEN)
    status, said = check(crate)
    for answers in files:
        written = collections.Counter(ROW[place] for place in answers.place.values() if FIRST_WRITTEN <= place < len(ROW))
        print(os.path.relpath(answers.path, TOP), dict(written))
    sys.exit(status and f"{said}answer_goals: {asked.crate} isn't proved any more")


main()
