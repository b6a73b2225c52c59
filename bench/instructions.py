"""Instructions per call, counted by callgrind and told apart by where they lie in the program.

Callgrind's own functions are not used: on some processors it loses track of returns. Its counts by address are exact, and
`nm` and `objdump` say whose each address is and whether it moves 16 bytes or more at a time, as only copies of the record do.
"""

import bisect
import os
import re
import tempfile

from building import output

CALLS = 1000
# the audit's functions; those that only the public audit calls are compiled into it
AUDIT = ("audit::", "heap::reads::audit")
PLAIN = ["list-by-list", "one-walk"]
WIDE = re.compile(r"\t(?:mov[a-z]+\s.*%[xyz]mm\d+.*\(|mov[a-z]+\s.*\(.*%[xyz]mm\d+|(?:ld|st)u?[rp]\s+q\d+)")


def names(path):
    """The functions of a program or an archive: (address, name), by address."""
    rows = (line.split(" ", 2) for line in output("nm", "--defined-only", path).splitlines())
    return sorted((int(row[0], 16), row[2]) for row in rows if len(row) == 3 and row[1] in "tTwW")


def wide_moves(program):
    """The addresses whose instruction loads or stores 16 bytes or more."""
    lines = output("objdump", "-d", "--no-show-raw-insn", program).splitlines()
    return {int(line.split(":")[0], 16) for line in lines if WIDE.search(line)}


def counted(program, heap, work, pages):
    """How often each address of the program runs while the work is done, and the instructions of memcpy and its like."""
    with tempfile.TemporaryDirectory() as folder:
        out = os.path.join(folder, "out")
        plain_text = ("--dump-instr=yes", "--compress-pos=no", "--compress-strings=no", "--callgrind-out-file=" + out)
        output("valgrind", "--quiet", "--tool=callgrind", "--toggle-collect=*driven*", *plain_text,
               program, "drive", heap, work, str(pages), str(CALLS))
        at, copies, mine, copying, called = {}, 0, False, False, False
        for line in open(out):
            if line.startswith("ob="):
                mine = line[3:].strip() == program
            elif line.startswith("fn="):
                copying = re.search("mem(cpy|move|set)", line) is not None
            elif line.startswith("calls="):
                called = True
            elif line.startswith("0x"):
                address, _, count = line.split()
                if not called and mine:
                    at[int(address, 16)] = at.get(int(address, 16), 0) + int(count)
                elif not called and copying:
                    copies += int(count)
                called = False
        return at, copies


def per_call(program, archive, work, pages):
    """Instructions for one work: proved in all, of these in the audit and in copies outside it; then each plain heap in all."""
    places = names(program)
    starts = [address for address, _ in places]
    library = {name for _, name in names(archive)}
    wide = wide_moves(program)
    at, copies = counted(program, "proved", work, pages)
    found = {"proved": sum(at.values()) + copies, "audit": 0, "copies": copies}
    for address, count in at.items():
        name = places[bisect.bisect_right(starts, address) - 1][1]
        if name.startswith(AUDIT):
            found["audit"] += count
        elif name in library and address in wide:
            found["copies"] += count
    for heap in PLAIN:
        at, copies = counted(program, heap, work, pages)
        found[heap] = sum(at.values()) + copies
    return {key: count / CALLS for key, count in found.items()}
