"""Words, orders and set-ups at every edge."""

from kinds.base import EDGES, MAX_U64, NO_PAGE, PAGE_SIZE, POWERS, alloc_pages, near, random_number

# 0, 1, powers of two and their neighbours, and the limits of fields
ALL_EDGES = sorted(
    {(power + off) % 2**64 for power in POWERS for off in (-1, 0, 1)} | set(EDGES) | {2**52 - 2, 2**60 - 2, MAX_U64 - 1}
)
KINDS = [0, 1, 2, 3, 4, 15]


def words(script):
    """Decode and encode of every type with every order from 0 to 255, and of every field at its limits."""
    for kind in range(16):
        for order in range(256) if kind in (0, 1, 3) else (0, 1, 5, 6, 16, 255):
            script.say("decode %x" % (order << 4 | kind))
    for kind in (0, 1, 3):
        for order in range(256):
            script.say("encode %d %d 0" % (kind, order))
    for kind in KINDS:
        for edge in ALL_EDGES:
            script.say("encode %d %d 0" % (kind, edge))
    for edge in ALL_EDGES:
        script.say("encode 0 %d %d" % (edge % 6, edge))
        script.say("encode %d 0 0" % edge)
        script.say("decode %x" % edge)
        script.say("order %d" % edge)
    for kind in KINDS:
        for bit in range(4, 64):
            script.say("decode %x" % (1 << bit | kind))
        script.say("decode %x" % (MAX_U64 - 15 + kind))
        for b in (1, 5, 2**52 - 1, 2**52, NO_PAGE):
            script.say("encode %d 1 %d" % (kind, b))


def edges(script):
    """Words, raw fields and sizes near their limits, at random."""
    rng = script.rng
    while not script.full():
        pick = rng.randrange(10)
        if pick < 3:
            script.say("decode %x" % random_word(rng))
        elif pick < 7:
            kind = rng.choice(KINDS + [rng.randrange(20), random_number(rng)])
            a = rng.choice([0, rng.randrange(0, 8), near(rng, ALL_EDGES)])
            b = rng.choice([0, 0, NO_PAGE, near(rng, ALL_EDGES)])
            script.say("encode %d %d %d" % (kind, a, b))
        elif pick < 9:
            script.say("order %d" % near(rng, ALL_EDGES))
        else:
            script.say("order %d" % (PAGE_SIZE * near(rng, POWERS) % 2**64))


def random_word(rng):
    kind = rng.choice(KINDS + [rng.randrange(16)])
    pick = rng.randrange(4)
    if pick == 0:
        return rng.getrandbits(60) << 4 | kind
    if pick == 1:
        return (rng.choice(ALL_EDGES) << 4 | kind) & MAX_U64
    if pick == 2:
        return (rng.choice(ALL_EDGES) << 12 | rng.randrange(8) << 4 | kind) & MAX_U64
    return near(rng, ALL_EDGES)


SIZES = [0, 1, 2, 3, 31, 32, 33, 34, 63, 64, 65, 95, 96, 97, 98, 511, 512, 513, 514, 1023, 1024, 1025, 1026]
LARGE = [2048, 2049, 4095, 4096, 4097, 8192]


def one_setup(script, pages):
    rng = script.rng
    count = rng.choice([pages] * 8 + [pages + 1, max(pages - 1, 0), 0])
    end = alloc_pages(pages)
    size = PAGE_SIZE * pages
    highest = 2**64 - size - PAGE_SIZE
    script.say("words %d" % min(count, 8192))
    start = rng.choice(
        [0, 0, PAGE_SIZE, highest, highest, 1, 4095, 4097, highest + PAGE_SIZE, highest + 1, MAX_U64, 2**63, 2**63 + 1]
        + [rng.randrange(2**52) * PAGE_SIZE, highest - 1, 2**64 - PAGE_SIZE]
    )
    boot = rng.choice([0, 0, 1, 2, 31, 32, 33, end, end - 1, end - 31, end - 32, end - 33, end + 1, pages, MAX_U64])
    asked = rng.choice([pages] * 10 + [random_number(rng)])
    script.say("setup %d %d %d" % (start % 2**64, asked, boot % 2**64))
    script.say("state")
    script.say(rng.choice(["audit", "lists", "report"]))


def setups(script):
    """Set-ups with pages, start, boot and word count at their limits, alone and together."""
    rng = script.rng
    while not script.full():
        one_setup(script, rng.choice(LARGE) if rng.randrange(12) == 0 else rng.choice(SIZES))


def all_sizes(script):
    """Every size of note once, as it should be: the fringes on both sides."""
    for pages in SIZES + LARGE:
        for boot in (0, 1, 31, 32, 33) if pages < 600 else (0, 33):
            if script.full():
                return
            script.say("words %d" % pages)
            script.say("setup %d %d %d" % (1048576, pages, boot))
            script.say("state")
            script.say("report")
