#!/usr/bin/env python3
"""Tries the scripts on wrong heaps: each mutant of second.py in mutants.txt, and which script tells it.

A mutant is told by the gate's script, else by further scripts of all kinds, else not at all. Those whose names
begin with "equal:" are known to answer as the original does, and must not be told.
Exit status: 0 the gate tells every mutant and no equal one is told, 1 otherwise, 2 wrong use.
"""

import argparse
import os
import re
import subprocess
import sys
import tempfile
from concurrent.futures import ThreadPoolExecutor

sys.dont_write_bytecode = True

import running
import scripts

HERE = os.path.dirname(os.path.abspath(__file__))
LINES = 1500  # of a further script


def read_mutants(path):
    """The mutants as (name, hunks); a hunk is a list of lines, each with its mark."""
    mutants = []
    for text in open(path).read().split("\n"):
        if text.startswith("mutant: "):
            mutants.append((text[len("mutant: ") :], [[]]))
        elif text == "@@":
            mutants[-1][1].append([])
        elif text[:1] in ("-", "+", " "):
            mutants[-1][1][-1].append(text)
        elif text and not text.startswith("#"):
            raise SystemExit("mutants.txt: what is this? %s" % text)
    return mutants


def mutated(source, name, hunks):
    """The source with the hunks applied; each must fit in exactly one place."""
    source = "\n" + source
    for hunk in hunks:
        old = "\n" + "".join(line[1:] + "\n" for line in hunk if line[0] in "- ")
        new = "\n" + "".join(line[1:] + "\n" for line in hunk if line[0] in "+ ")
        if source.count(old) != 1:
            raise SystemExit("mutants.txt: %s: a hunk fits in %d places of second.py" % (name, source.count(old)))
        source = source.replace(old, new)
    return source[1:]


class Judge:
    """Runs mutants on scripts whose right answers are known."""

    def __init__(self, folder, more, demand3):
        self.folder = folder
        self.demand3 = demand3
        self.source = open(os.path.join(HERE, "second.py")).read()
        self.gate = self.known("gate", scripts.gate(), ended=False)
        self.further = []
        kinds = list(scripts.RANDOM)
        for number in range((more + LINES - 1) // LINES):
            kind, seed = kinds[number % len(kinds)], "m%d" % number
            self.further.append(self.known("%s %s %d" % (kind, seed, LINES), scripts.make(kind, seed, LINES)))

    def known(self, name, lines, ended=True):
        """A script by name, with the original's outcome."""
        script = b"\n".join(lines) + (b"\n" if ended else b"")
        return name, script, running.run("python3 %s" % os.path.join(HERE, "second.py"), script)

    def judge(self, mutant):
        """Where a mutant is told, as a text; whether by the gate; whether at all."""
        name, hunks = mutant
        path = os.path.join(self.folder, re.sub(r"[^a-z0-9]+", "-", name.lower()) + ".py")
        with open(path, "w") as file:
            file.write(mutated(self.source, name, hunks))
        command = "python3 %s" % path
        told = self.tell(command, *self.gate)
        by_gate = told is not None
        for script in self.further:
            told = told or self.tell(command, *script)
        text = told or "not told"
        if self.demand3:
            text = "%-8s  %s" % ("demand 3" if self.breaks_demand3(command) else "", text)
        return text, by_gate, told is not None

    def tell(self, command, name, script, right):
        difference = running.first_difference(script, [right, running.run_while(command, script, right)])
        if difference is None:
            return None
        return "%s, line %d: %s" % (name, difference.number, running.shown(difference.request)[:40])

    def breaks_demand3(self, command):
        done = subprocess.run(
            ["python3", os.path.join(HERE, "demand3.py"), "--requests", "6000", "--timeout", "10"]
            + ["--keep", self.folder, command],
            stdout=subprocess.PIPE,
            stderr=subprocess.PIPE,
        )
        return done.returncode == 1


def main():
    parser = argparse.ArgumentParser(description=__doc__, formatter_class=argparse.RawDescriptionHelpFormatter)
    parser.add_argument("--more", type=int, default=15000, help="further requests where the gate tells nothing (15000)")
    parser.add_argument("--demand3", action="store_true", help="show also which ones demand3.py tells")
    parser.add_argument("--only", help="only mutants whose name holds this text")
    asked = parser.parse_args()
    mutants = [m for m in read_mutants(os.path.join(HERE, "mutants.txt")) if not asked.only or asked.only in m[0]]
    counts = {"gate": 0, "later": 0, "never": 0, "equal": 0}
    wrong = 0
    with tempfile.TemporaryDirectory() as folder, ThreadPoolExecutor(os.cpu_count()) as pool:
        judge = Judge(folder, asked.more, asked.demand3)
        for (name, _), (text, by_gate, told) in zip(mutants, pool.map(judge.judge, mutants)):
            print("%-58s  %s" % (name, text), flush=True)
            equal = name.startswith("equal:")
            counts["equal" if equal and not told else "gate" if by_gate else "later" if told else "never"] += 1
            wrong += told if equal else not by_gate
    print("%(gate)d told by the gate, %(later)d by further scripts, %(never)d not told, %(equal)d equal" % counts)
    return 1 if wrong else 0


if __name__ == "__main__":
    sys.exit(main())
