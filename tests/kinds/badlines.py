"""Lines that are no requests, and requests written oddly, among good ones. Never a line that is long by a little."""

from kinds.base import LONG_LINE, MAX_U64, any_call

FIXED = [
    b"",
    b" ",
    b"\t",
    b"\r",
    b"   \t  ",
    b"Alloc 0",
    b"ALLOC 0",
    b"alloc",
    b"alloc 0 0",
    b"alloc x",
    b"alloc -1",
    b"alloc +1",
    b"alloc 1.",
    b"alloc 1e1",
    b"alloc 0x1",
    b"alloc 1_0",
    b"alloc 18446744073709551616",
    b"alloc 99999999999999999999",
    b"alloc 100000000000000000000",
    b"alloc 000000000000000000000",
    b"alloc 00000000000000000000",
    b"alloc 00000000000000000005",
    b"alloc 18446744073709551615",
    b"alloc  1",
    b" alloc 1",
    b"alloc 1 ",
    b"alloc\t1",
    b"\talloc \t 1\t",
    b"alloc 1\r",
    b"alloc\x0b1",
    b"alloc\x0c1",
    b"alloc\xa01",
    b"alloc\x001",
    b"alloc 1\x00",
    b"alloc \xd9\xa1",
    b"alloc \xc2\xb2",
    b"alloc 1;free 0",
    b"alloc,1",
    b"alloc 1 # one",
    b"# alloc 1",
    b"file 1",
    b"files",
    b"fil",
    b"slab",
    b"slab 1 2",
    b"slab a",
    b"free",
    b"free 0 0",
    b"free -4096",
    b"free 0x1000",
    b"get",
    b"get x",
    b"get 0 0",
    b"put",
    b"put ''",
    b"lookup",
    b"lookup 1 1",
    b"report 1",
    b"audit 1",
    b"print 1",
    b"lists 1",
    b"state 1",
    b"reports",
    b"stat",
    b"word",
    b"word 0 0",
    b"word f",
    b"word 0",
    b"word 8191",
    b"word 8192",
    b"word 18446744073709551615",
    b"poke",
    b"poke 0",
    b"poke 0 0 0",
    b"poke 0 F",
    b"poke 0 0xf",
    b"poke 0 g",
    b"poke 0 -1",
    b"poke 0 10000000000000000",
    b"poke 0 00000000000000001",
    b"poke x 1",
    b"poke 8192 1",
    b"poke 18446744073709551615 0000000000000001",
    b"poke 18446744073709551616 1",
    b"field",
    b"field nr",
    b"field nr 0",
    b"field nr 6 0",
    b"field nr 0 x",
    b"field nr 0 18446744073709551616",
    b"field free 6 0",
    b"field head 6 0",
    b"field head 18446744073709551615 0",
    b"field head 0 -",
    b"field start 1 0",
    b"field pages 1 0",
    b"field boot 1 0",
    b"field boot 6 0",
    b"field next 0 0",
    b"field Nr 0 0",
    b"field 0 nr 0",
    b"field nr 0 0 0",
    b"field \xff 0 0",
    b"encode",
    b"encode 0",
    b"encode 0 0",
    b"encode 0 0 0 0",
    b"encode free 0 0",
    b"encode 0 0 -",
    b"encode 0 0 18446744073709551616",
    b"encode 18446744073709551615 18446744073709551615 18446744073709551615",
    b"encode 00000000000000000000 00000000000000000005 18446744073709551615",
    b"decode",
    b"decode 0 0",
    b"decode F",
    b"decode 0x3",
    b"decode 00000000000000053",
    b"decode 0000000000000053",
    b"decode ffffffffffffffff",
    b"decode g",
    b"decode \xc3\xa9",
    b"order",
    b"order x",
    b"order 1 1",
    b"order -1",
    b"order 18446744073709551616",
    b"order 18446744073709551615",
    b"order 00000000000000004097",
    b"words",
    b"words x",
    b"words -1",
    b"words 1 1",
    b"words 8193",
    b"words 18446744073709551615",
    b"words 18446744073709551616",
    b"setup",
    b"setup 0",
    b"setup 0 64",
    b"setup 0 64 3 0",
    b"setup x 64 3",
    b"setup 0 x 3",
    b"setup 0 64 x",
    b"setup 0 64 18446744073709551616",
    b"ok",
    b"no 4",
    b"bad",
    b"list 0:",
    b"\x00",
    b"\xff\xfe",
    b"\xef\xbb\xbfreport",
    b"quit",
    b"exit",
]
TOO_LONG = [
    b"report" + b" " * LONG_LINE,
    b" " * LONG_LINE + b"report",
    b" " * (LONG_LINE + 1),
    b"alloc " + b"0" * LONG_LINE,
    b"alloc 0" + b" 0" * LONG_LINE,
    b"x" * (LONG_LINE + 1),
    b"x" * 70000,
    b"report " + b"\xff" * 9000,
    b"alloc 0" + b" " * 65536 + b"report",
]


def set_up(script):
    script.say("words 64")
    script.say("setup 1048576 64 3")


def bad_all(script):
    """Every odd line of the list once, with the state after each few."""
    set_up(script)
    for number, line in enumerate(FIXED + TOO_LONG):
        script.say(line)
        if number % 4 == 0:
            script.say("state")
    script.say("state")
    for line in (b"words 0", b"state", b"word 0", b"poke 0 1", b"setup 0 0 0", b"words 8192", b"word 8191", b"audit"):
        script.say(line)


def spoil(rng, line):
    """A request with one thing changed: a byte, a word, a blank."""
    pick = rng.randrange(7)
    at = rng.randrange(len(line) + 1)
    if pick == 0:
        return line[:at] + bytes([rng.choice([c for c in range(256) if c != 10])]) + line[at:]
    if pick == 1:
        return line[: max(at - 1, 0)] + line[at:]
    parts = line.split()
    if pick == 2:
        parts.insert(rng.randrange(len(parts) + 1), rng.choice([b"0", b"1", b"x", b"alloc", b"-"]))
    elif pick == 3:
        parts.pop(rng.randrange(len(parts)))
    elif pick == 4:
        parts[rng.randrange(len(parts))] = rng.choice([b"", b"%d" % (MAX_U64 + 1), b"%d" % MAX_U64, b"00", b"1f", b"F"])
    elif pick == 5:
        rng.shuffle(parts)
    blanks = [b" ", b"  ", b"\t", b" \t ", b"\r", b"\x0b", b"\x0c"] if pick == 6 else [b" "]
    line = rng.choice(blanks).join(parts)
    return rng.choice([b"", b" ", b"\t"]) + line if pick == 6 else line


def bad(script):
    """Good requests, spoiled ones and lines from the list, at random."""
    rng = script.rng
    set_up(script)
    while not script.full():
        pick = rng.randrange(12)
        if pick < 4:
            script.say(rng.choice(FIXED))
        elif pick < 8:
            line = any_call(rng, script.heap).encode("ascii")
            script.say(spoil(rng, rng.choice([line, b"setup 4096 64 0", b"encode 1 2 0", b"decode 53", b"word 7"])))
        elif pick == 8:
            script.say(rng.choice(["state", "report"]))
        elif rng.randrange(60) == 0:
            script.say(rng.choice(TOO_LONG))
        else:
            script.say(any_call(rng, script.heap))
        if script.heap.page_count != 64 and rng.randrange(4) == 0:
            set_up(script)
