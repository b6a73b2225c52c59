"""The cases of document 01, section "Cases", as cases.txt has them, and around them what they leave open."""

import os

from kinds.base import R_START

PATH = os.path.join(os.path.dirname(os.path.abspath(__file__)), "..", "cases.txt")


def written_cases():
    """(request, lines of its answer) of cases.txt, as bytes."""
    cases = []
    for line in open(PATH, "rb").read().split(b"\n"):
        if line.startswith(b"> "):
            cases.append((line[2:], []))
        elif line and not line.startswith(b"#"):
            cases[-1][1].append(line)
    return cases


def address(page):
    return R_START + page * 4096


def cases(script):
    """The cases of document 01, then each refusal and each edge of the file and slab pages once on R."""
    for request, _ in written_cases():
        script.say(request)
    script.say("words 64")
    script.say("setup %d 64 3" % R_START)
    for request in (
        "state",
        "alloc 18446744073709551615",
        "free %d" % (address(0) - 1),
        "free %d" % address(64),
        "free %d" % (address(5) + 1),
        "free %d" % (address(2) + 1),
        "lookup %d" % (address(2) + 4095),
        "lookup %d" % (address(3) + 1),
        "get %d" % address(3),
        "get %d" % address(2),
        "put %d" % address(63),
        "slab 0",
        "slab 65536",
        "slab 65535",
        "file",
        "state",
        "get %d" % address(62),
        "get %d" % address(3),
        "lookup %d" % address(3),
        "put %d" % address(3),
        "put %d" % address(3),
        "put %d" % address(3),
        "lookup %d" % (address(62) + 17),
        "alloc 2",
        "lookup %d" % address(56),
        "lookup %d" % address(57),
        "free %d" % address(57),
        "free %d" % address(56),
        "free %d" % address(62),
        "lists",
        "state",
    ):
        script.say(request)
