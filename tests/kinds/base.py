"""What every kind leans on: a script that knows the answers while it is written, and regions at random."""

import random

import second

MAX_U64 = second.MAX_U64
NO_PAGE = second.NO_PAGE
PAGE_SIZE = second.PAGE_SIZE
R_START = 1048576  # document 01: "Start 1,048,576 in all cases on R."

# Requests are at most this long; only the tests of too long lines go beyond, and then beyond LONG_LINE.
SHORT_LINE = 69  # `encode` and three numbers of 20 digits
LONG_LINE = 4096


class Trusting(second.Heap):
    """The second program's heap without its slow audit, for scripts that damage nothing."""

    def sound(self):
        return self.page_count != 0


class Script:
    """Lines so far, and a shell that has answered each of them."""

    def __init__(self, name, limit, damaging=False):
        self.rng = random.Random(name)
        self.limit = limit
        self.lines = []
        self.shell = second.Shell(second.Heap if damaging else Trusting)

    def say(self, line):
        """Appends a request and returns the lines that answer it."""
        if isinstance(line, str):
            line = line.encode("ascii")
        assert len(line) <= SHORT_LINE or len(line) > LONG_LINE
        self.lines.append(line)
        return self.shell.answer(line)

    def full(self):
        return len(self.lines) >= self.limit

    @property
    def heap(self):
        return self.shell.heap


def alloc_pages(pages):
    return pages - second.meta_pages(pages)


def random_start(rng, pages):
    """A start that set-up takes for a region of so many pages."""
    highest = 2**64 - PAGE_SIZE * (pages + 1)
    return rng.choice(
        [
            R_START,
            R_START,
            0,
            PAGE_SIZE,
            2**63,
            2**63 - PAGE_SIZE,
            highest,
            highest - PAGE_SIZE,
            rng.randrange(0, highest // PAGE_SIZE) * PAGE_SIZE,
            rng.randrange(0, 2**20) * PAGE_SIZE,
        ]
    )


def random_boot(rng, pages):
    """A count of boot pages that set-up takes."""
    end = alloc_pages(pages)
    pick = rng.randrange(6)
    if pick == 0:
        return 0
    if pick <= 2:
        return min(end, rng.randrange(0, 8))
    if pick == 3:
        return max(0, end - rng.randrange(0, 12))
    return rng.randrange(0, end + 1)


def random_pages(rng, most=600):
    pick = rng.randrange(10)
    if pick < 4:
        return rng.randrange(1, min(most, 70) + 1)
    if pick == 4:
        return min(most, rng.choice([31, 32, 33, 63, 64, 65, 127, 128, 129, 511, 512, 513, 514]))
    return rng.randrange(1, most + 1)


def near(rng, values):
    """One of the values, or a neighbour of one, inside 64 bits."""
    return (rng.choice(values) + rng.choice([-1, 0, 0, 0, 1])) % 2**64


POWERS = [2**exponent for exponent in range(64)]
EDGES = [0, 1, 5, 6, 7, 255, 256, 4095, 4096, 4097, 65535, 65536, 2**32, 2**52 - 1, 2**60 - 1, 2**63, MAX_U64]


def random_number(rng):
    """A number of 64 bits, mostly at an edge."""
    pick = rng.randrange(4)
    if pick == 0:
        return near(rng, EDGES)
    if pick == 1:
        return near(rng, POWERS)
    if pick == 2:
        return rng.randrange(0, 70)
    return rng.getrandbits(rng.randrange(1, 65))


def any_address(rng, heap):
    """An address in, at the ends of, or off the region."""
    pages = min(heap.page_count, 8192)
    end = heap.start + PAGE_SIZE * pages
    pick = rng.randrange(12)
    if pick < 6 and pages > 0:
        address = heap.start + PAGE_SIZE * rng.randrange(pages)
    elif pick == 6 and pages > 0:
        address = heap.start + rng.randrange(PAGE_SIZE * pages)
    elif pick == 7:
        address = near(rng, [heap.start % 2**64, end % 2**64])
    elif pick == 8:
        address = heap.start - PAGE_SIZE * rng.randrange(1, 3)
    elif pick == 9:
        address = end + PAGE_SIZE * rng.randrange(0, 3)
    elif pick == 10:
        address = end - rng.randrange(1, PAGE_SIZE + 2)
    else:
        address = random_number(rng)
    return address % 2**64


def any_call(rng, heap):
    """One audited request, whatever the heap is like."""
    address = any_address(rng, heap)
    return rng.choice(
        [
            "alloc %d" % rng.choice([0, 0, 1, 2, 3, 4, 5, 6, 7, MAX_U64]),
            "alloc %d" % rng.randrange(6),
            "file",
            "slab %d" % rng.choice([1, 64, 0, 65535, 65536, MAX_U64]),
            "free %d" % address,
            "free %d" % address,
            "get %d" % address,
            "put %d" % address,
            "lookup %d" % address,
            "report",
            "audit",
            "print",
            "lists",
        ]
    )


def every_call(rng, heap):
    """Each audited request once, in a random order."""
    calls = [
        "alloc %d" % rng.choice([0, 1, 5, 6, MAX_U64]),
        "file",
        "slab %d" % rng.choice([1, 64, 0, 65535, 65536]),
        "report",
        "audit",
        "print",
        "lists",
    ]
    calls += ["%s %d" % (call, any_address(rng, heap)) for call in ("free", "get", "put", "lookup")]
    rng.shuffle(calls)
    return calls
