#!/usr/bin/env python3
"""Writes scripts of requests (README.md, "The shell") to standard output, by kind, seed and length.

usage: scripts.py KIND SEED LINES    at most LINES lines of that kind; the same three give the same script
       scripts.py cases              the cases of document 01
       scripts.py gate               the gate's own script: all kinds with fixed seeds, the cases first; its last
                                     line has no newline
       scripts.py kinds              the kinds, each with a line about it
"""

import sys

sys.dont_write_bytecode = True

from kinds import badlines, cases, damage, edges, images, tiny, traffic
from kinds.base import Script

# kind: (what writes it, whether it damages record or words, and so needs the audited model)
RANDOM = {
    "traffic": (traffic.traffic, False),
    "full": (traffic.full, False),
    "tiny": (tiny.tiny, False),
    "walk": (tiny.walk, False),
    "sound": (images.sound, True),
    "damage": (damage.damage, True),
    "sweep": (damage.sweep, True),
    "garbage": (damage.garbage, True),
    "edges": (edges.edges, False),
    "setups": (edges.setups, False),
    "bad": (badlines.bad, True),
}
FIXED = {
    "cases": (cases.cases, False),
    "words": (edges.words, False),
    "sizes": (edges.all_sizes, False),
    "tinysetups": (tiny.all_setups, False),
    "badlines": (badlines.bad_all, True),
    "onebyone": (damage.one_by_one, True),
    "toomany": (damage.too_many_pages, True),
}
KINDS = {**RANDOM, **FIXED}

# kind, seed, lines
GATE = (
    [("cases", 0, 10**6), ("words", 0, 10**6), ("badlines", 0, 10**6), ("sizes", 0, 10**6), ("tinysetups", 0, 10**6)]
    + [("edges", 1, 600), ("setups", 1, 500), ("bad", 1, 500), ("tiny", 1, 1200), ("walk", 1, 1200)]
    + [("traffic", seed, 700) for seed in (1, 2, 3)]
    + [("sound", seed, 600) for seed in (1, 2)]
    + [("onebyone", 0, 10**6)]
    + [("damage", seed, 1000) for seed in (1, 2, 3)]
    + [("garbage", 1, 500), ("full", 1, 500), ("toomany", 0, 10**6)]
)


def make(kind, seed, lines):
    """The script as a list of lines (bytes, without newlines)."""
    write, damaging = KINDS[kind]
    script = Script("%s %s" % (kind, seed), lines, damaging)
    write(script)
    return script.lines[:lines]


def gate():
    return [line for kind, seed, lines in GATE for line in make(kind, seed, lines)]


def main(arguments):
    if arguments in (["-h"], ["--help"]):
        print(__doc__.strip())
        return 0
    if arguments == ["kinds"]:
        for kind, (write, _) in KINDS.items():
            print("%-11s %s" % (kind, write.__doc__.strip().split("\n")[0] if write.__doc__ else ""))
        return 0
    if arguments == ["gate"]:
        sys.stdout.buffer.write(b"\n".join(gate()))
        return 0
    if len(arguments) == 1 and arguments[0] in FIXED:
        lines = make(arguments[0], 0, 10**6)
    elif len(arguments) == 3 and arguments[0] in KINDS and arguments[2].isdigit():
        lines = make(arguments[0], arguments[1], int(arguments[2]))
    else:
        print(__doc__.strip(), file=sys.stderr)
        return 2
    sys.stdout.buffer.write(b"".join(line + b"\n" for line in lines))
    return 0


if __name__ == "__main__":
    sys.exit(main(sys.argv[1:]))
