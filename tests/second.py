#!/usr/bin/env python3
"""The independent second program: a page heap written the obvious way from document 01.

It reads requests from standard input and answers them on standard output, as the shell's protocol says (README.md). Nothing in it is
taken from the proved heap or from the upstream text; the comments in quotation marks are document 01's own
sentences, each beside the code that it became. It is slow on purpose: every call looks at every page first.

usage: second.py < SCRIPT > ANSWERS
"""

import os
import re
import sys

# ---------------------------------------------------------------------------------------------------- constants

PAGE_SIZE = 4096  # "Page size is 4,096."
MAX_ORDER = 6  # "An order is 0 to 5. `MAX_ORDER` is 6."
MAX_PAGES = 4096  # "1 to 4,096 pages"
MAX_U64 = 2**64 - 1
NO_PAGE = 2**64 - 1  # "the record writes none as `NO_PAGE`, 2^64 - 1"
NO_NEXT = 2**52 - 1  # "A next field of 52 ones means none"

TYPE_SHIFT = 4  # "`TYPE_SHIFT` is 4, `NEXT_SHIFT` is 12, `SLAB_MASK` is 65,535"
NEXT_SHIFT = 12
SLAB_MASK = 65535

FREE, ALLOCATED, SLAB, COMPOUND, FILE, RESERVED = 0, 1, 2, 3, 4, 15

MAX_WORDS = 8192  # the protocol: "lends a buffer of N words (0 to 8192)"
MAX_LINE = 200  # this reader's longest line, its newline not counted; a longer one answers `bad`

# -------------------------------------------------------------------------------------------------------- words


def decode(word):
    """The meaning of a word as a tuple that begins with its type's number, or None.

    "A word decodes exactly if it fits this table; types 5 to 14, orders 6 and above and set spare bits are refused."
    """
    kind = word % 16
    rest = word >> TYPE_SHIFT
    order = rest % 256
    above = word >> NEXT_SHIFT
    if kind == FREE:  # "Free | 0 | order in bits 4 to 11, next page in bits 12 to 63"
        if order >= MAX_ORDER:
            return None
        return (FREE, order, NO_PAGE if above == NO_NEXT else above)
    if kind == ALLOCATED:  # "Allocated | 1 | order in bits 4 to 11, zero above"
        if order >= MAX_ORDER or above != 0:
            return None
        return (ALLOCATED, order)
    if kind == SLAB:  # "SlabPage | 2 | item size in bits 4 to 19, zero above"
        if rest > SLAB_MASK:
            return None
        return (SLAB, rest)
    if kind == COMPOUND:  # "Compound | 3 | order in bits 4 to 11, zero above"
        if order >= MAX_ORDER or above != 0:
            return None
        return (COMPOUND, order)
    if kind == FILE:  # "File | 4 | reference count in bits 4 to 63"
        return (FILE, rest)
    if kind == RESERVED:  # "Reserved | 15 | zero"
        if rest != 0:
            return None
        return (RESERVED,)
    return None


def encode(kind, a, b):
    """The word of raw fields, or None.

    "Encode takes raw fields and says "no" exactly when no word has them."
    """
    if kind == FREE:
        if a >= MAX_ORDER:
            return None
        if b == NO_PAGE:
            return NO_NEXT << NEXT_SHIFT | a << TYPE_SHIFT | FREE
        if b >= NO_NEXT:  # 52 ones are none, "any other field is that page number": no field is page 2^52 - 1
            return None
        return b << NEXT_SHIFT | a << TYPE_SHIFT | FREE
    if b != 0:  # the protocol: "Fields that a type does not have must be 0"
        return None
    if kind == ALLOCATED or kind == COMPOUND:
        return None if a >= MAX_ORDER else a << TYPE_SHIFT | kind
    if kind == SLAB:
        return None if a > SLAB_MASK else a << TYPE_SHIFT | SLAB
    if kind == FILE:
        return None if a >= 2**60 else a << TYPE_SHIFT | FILE
    if kind == RESERVED:
        return None if a != 0 else RESERVED
    return None


def get_order(size):
    """ "`get_order` of a byte size: least order whose block holds it; size 0 gives 0; above 2^63 gives 52." """
    order = 0
    while PAGE_SIZE * 2**order < size:
        order += 1
    return order


def buddy_of(page, order):
    """ "The buddy of page p at order o is p plus 2^o if p is a multiple of 2^(o+1), else p minus 2^o" """
    if page % 2 ** (order + 1) == 0:
        return page + 2**order
    return page - 2**order


def meta_pages(page_count):
    """ "Metadata pages are `page_count` times 8, divided by 4,096 and rounded up." """
    return (page_count * 8 + PAGE_SIZE - 1) // PAGE_SIZE


# ----------------------------------------------------------------------------------------------------- the heap


class Refusal(Exception):
    """ "A refusal returns its number and what it carries (an address as it was given)" """

    def __init__(self, number, value=None):
        super().__init__(number, value)
        self.number = number
        self.value = value


class Heap:
    """The region record and the lent words."""

    def __init__(self, words):
        self.words = words
        self.make_empty()

    def make_empty(self):
        """ "the empty record: no pages, counts 0, no lists, start and `allocated` 0" """
        self.start = 0
        self.page_count = 0
        self.allocated = 0
        # "three arrays of six: `nr_pages` (blocks), `free_pages` (free blocks) and `next_page` (list heads)"
        self.nr_pages = [0] * MAX_ORDER
        self.free_pages = [0] * MAX_ORDER
        self.next_page = [NO_PAGE] * MAX_ORDER

    def alloc_pages(self):
        """ "`alloc_pages` is `page_count` less these." """
        return self.page_count - meta_pages(self.page_count)

    # ------------------------------------------------------------------------------------------------ soundness

    def sound(self):
        """ "Record and words are **sound** when all of this holds:" """
        # "1 to 4,096 pages"
        if self.page_count < 1 or self.page_count > MAX_PAGES:
            return False
        # "as many words as pages"
        if len(self.words) != self.page_count:
            return False
        # "start a multiple of 4,096"
        if self.start % PAGE_SIZE != 0:
            return False
        # "start plus 4,096 times `page_count` at most 2^64 - 1"
        if self.start + PAGE_SIZE * self.page_count > MAX_U64:
            return False
        # "`allocated` at most `alloc_pages`"
        if self.allocated > self.alloc_pages():
            return False
        # "Boot words are Allocated order 0."
        for page in range(0, self.allocated):
            if decode(self.words[page]) != (ALLOCATED, 0):
                return False
        # "Metadata words are Reserved."
        for page in range(self.alloc_pages(), self.page_count):
            if decode(self.words[page]) != (RESERVED,):
                return False
        # "Managed pages are tiled by blocks."
        blocks = self.blocks()
        if blocks is None:
            return False
        # "List o holds each free block of order o once, linked by the next fields, ending in none."
        for order in range(MAX_ORDER):
            free_blocks = [page for page, o, is_free in blocks if is_free and o == order]
            listed = self.follow(order, free_blocks)
            if listed is None or sorted(listed) != free_blocks:
                return False
        # "Below order 5 no two free blocks of one order are buddies."
        free_set = {(page, order) for page, order, is_free in blocks if is_free}
        for page, order in free_set:
            if order < 5 and (buddy_of(page, order), order) in free_set:
                return False
        # "Both count arrays equal the counts of blocks and of free blocks."
        for order in range(MAX_ORDER):
            if self.nr_pages[order] != len([1 for _, o, _ in blocks if o == order]):
                return False
            if self.free_pages[order] != len([1 for _, o, is_free in blocks if is_free and o == order]):
                return False
        return True

    def blocks(self):
        """The blocks that tile the managed pages, as (page, order, is free), ascending, or None."""
        blocks = []
        # "Managed pages run from `allocated` up to but not including `alloc_pages`."
        page = self.allocated
        end = self.alloc_pages()
        while page < end:
            head = decode(self.words[page])
            # "Its head is Free or Allocated of order o, or, at order 0, a File with count 1 or more or a SlabPage
            # with item 1 or more."
            if head is None:
                return None
            if head[0] == FREE or head[0] == ALLOCATED:
                order = head[1]
            elif head[0] == FILE and head[1] >= 1:
                order = 0
            elif head[0] == SLAB and head[1] >= 1:
                order = 0
            else:
                return None
            # "A block of order o has 2^o pages and starts at a multiple of 2^o."
            if page % 2**order != 0 or page + 2**order > end:
                return None
            # "Its other words are Compound of order o."
            for other in range(page + 1, page + 2**order):
                if decode(self.words[other]) != (COMPOUND, order):
                    return None
            blocks.append((page, order, head[0] == FREE))
            page += 2**order
        return blocks

    def follow(self, order, free_blocks):
        """The pages of list `order` from its head to none, or None when it loops or leaves the free blocks."""
        allowed = set(free_blocks)
        visited = []
        seen = set()
        page = self.next_page[order]
        while page != NO_PAGE:
            if page in seen or page not in allowed:
                return None
            seen.add(page)
            visited.append(page)
            page = self.next_of(page)
        return visited

    def audit(self):
        """ "4 | Damaged | any later call: record and words not sound" """
        if not self.sound():
            raise Refusal(4)

    # ------------------------------------------------------------------------------------------------ the lists

    def next_of(self, page):
        """The next field of a Free word."""
        return decode(self.words[page])[2]

    def take_head(self, order):
        """ "`get_next_page` takes the head." """
        page = self.next_page[order]
        self.next_page[order] = self.next_of(page)
        self.free_pages[order] -= 1
        return page

    def put_at_head(self, page, order):
        """ "`free_page_raw` puts at the head." """
        self.words[page] = encode(FREE, order, self.next_page[order])
        self.next_page[order] = page
        self.free_pages[order] += 1

    def take_out(self, page, order):
        """ "`allocate_pfn` takes a named block out and keeps the order of the rest" """
        if self.next_page[order] == page:
            self.take_head(order)
            return
        before = self.next_page[order]
        while self.next_of(before) != page:
            before = self.next_of(before)
        self.words[before] = encode(FREE, order, self.next_of(page))
        self.free_pages[order] -= 1

    # ------------------------------------------------------------------------------------------- split and merge

    def mark_rest(self, page, order):
        """ "Its other words are Compound of order o." """
        for other in range(page + 1, page + 2**order):
            self.words[other] = encode(COMPOUND, order, 0)

    def split(self, page, order):
        """ "split of a block puts its lower half, then its upper half, ahead of the next lower list"

        `page` is off its list already. The lower half ends up first: the two stand ahead of the list in this order.
        """
        half = order - 1
        lower = page
        upper = page + 2**half
        self.put_at_head(upper, half)
        self.mark_rest(upper, half)
        self.put_at_head(lower, half)
        self.mark_rest(lower, half)
        self.nr_pages[order] -= 1
        self.nr_pages[half] += 2

    def merge(self, page, buddy, order):
        """ "Merge makes the lower page the head, one order up." Neither block is on a list."""
        lower = min(page, buddy)
        self.words[lower] = encode(ALLOCATED, order + 1, 0)
        self.mark_rest(lower, order + 1)
        self.nr_pages[order] -= 2
        self.nr_pages[order + 1] += 1
        return lower

    # --------------------------------------------------------------------------------------- refill and allocate

    def must_have(self, order):
        """ "6 | OutOfMemory | ...: no free block of that order or a higher one" """
        for higher in range(order, MAX_ORDER):
            if self.next_page[higher] != NO_PAGE:
                return
        raise Refusal(6)

    def grant(self, order):
        """Takes a block of this order; there is one. Its head word is the caller's to write.

        "if list o is empty, take the head of the lowest non-empty higher list and split down, always taking the
        list's head. Grant the head of list o."
        """
        if self.next_page[order] == NO_PAGE:
            higher = order + 1
            while self.next_page[higher] == NO_PAGE:
                higher += 1
            while higher > order:
                self.split(self.take_head(higher), higher)
                higher -= 1
        return self.take_head(order)

    def address_of(self, page):
        """ "Answer: its address." """
        return self.start + page * PAGE_SIZE

    def page_of(self, address, rounds_down=False):
        """ "7 | InvalidHeapAddress, with the address | below the start, or at or above start plus 4,096 times
        `page_count`; or, except in lookup, no multiple of 4,096 from the start"
        """
        if address < self.start or address >= self.start + PAGE_SIZE * self.page_count:
            raise Refusal(7, address)
        if not rounds_down and (address - self.start) % PAGE_SIZE != 0:
            raise Refusal(7, address)
        return (address - self.start) // PAGE_SIZE

    # ---------------------------------------------------------------------------------------------------- set-up

    def setup(self, start, pages, boot):
        """ "Set-up: as `init_memory`, from counts of zero" """
        try:
            # "1 | BadCount | set-up: pages 0 or above 4,096, or word count differs"
            if pages == 0 or pages > MAX_PAGES or len(self.words) != pages:
                raise Refusal(1)
            # "2 | BadStart | set-up: start unaligned, or its end above 2^64 - 1"
            if start % PAGE_SIZE != 0 or start + PAGE_SIZE * pages > MAX_U64:
                raise Refusal(2)
            # "3 | TooManyBoot | set-up: `allocated` above `alloc_pages`"
            if boot > pages - meta_pages(pages):
                raise Refusal(3)
        except Refusal:
            # "Refused set-up returns the empty record"; no word changes
            self.make_empty()
            raise
        self.make_empty()
        self.start = start
        self.page_count = pages
        self.allocated = boot
        end = self.alloc_pages()
        # "What the words held before plays no part."
        for page in range(0, end):
            self.words[page] = encode(ALLOCATED, 0, 0)
        # "Metadata pages are marked Reserved"
        for page in range(end, pages):
            self.words[page] = encode(RESERVED, 0, 0)
        self.nr_pages[0] = end - boot
        size = 2**5
        first = (boot + size - 1) // size * size
        last = end // size * size
        if first < last:
            # "aligned order 5 blocks first, ascending"
            for page in range(first, last, size):
                self.mark_rest(page, 5)
                self.put_at_head(page, 5)
                self.nr_pages[0] -= size
                self.nr_pages[5] += 1
            # "then the low fringe, then the high fringe, page by page, merging"
            singles = list(range(boot, first)) + list(range(last, end))
        else:
            # "With no whole order 5 run, all pages singly."
            singles = list(range(boot, end))
        for page in singles:
            self.free_block(page, 0)

    # -------------------------------------------------------------------------------------------- the public calls

    def alloc(self, order):
        self.audit()
        # "5 | InvalidPageOrder, with the order | allocate: order 6 or above"
        if order >= MAX_ORDER:
            raise Refusal(5, order)
        self.must_have(order)
        page = self.grant(order)
        self.words[page] = encode(ALLOCATED, order, 0)
        return self.address_of(page)

    def file(self):
        self.audit()
        self.must_have(0)
        page = self.grant(0)
        # "allocation gives count 1"
        self.words[page] = encode(FILE, 1, 0)
        return self.address_of(page)

    def slab(self, item):
        self.audit()
        # "Checks go in the table's order": 6 before 12
        self.must_have(0)
        # "12 | InvalidItem, with the item | slab page: item 0 or above 65,535"
        if item == 0 or item > SLAB_MASK:
            raise Refusal(12, item)
        page = self.grant(0)
        self.words[page] = encode(SLAB, item, 0)
        return self.address_of(page)

    def free(self, address):
        self.audit()
        page = self.page_of(address)
        # "8 | BootPage, with the address | free of a page below `allocated`"
        if page < self.allocated:
            raise Refusal(8, address)
        info = decode(self.words[page])
        # "9 | InvalidPageType, with the address | free of Free, Compound, Reserved"
        if info[0] in (FREE, COMPOUND, RESERVED):
            raise Refusal(9, address)
        # "File and SlabPage are freed as order 0, a File whatever its count"
        order = info[1] if info[0] == ALLOCATED else 0
        self.free_block(page, order)

    def free_block(self, page, order):
        """ "while the order is below 5, the buddy lies inside the region and its word is Free of the same order,
        take the buddy out and merge, then free the merged block one order up. Otherwise put it on its list."
        """
        if order < 5:  # "Order 5 never merges."
            buddy = buddy_of(page, order)
            if buddy < self.page_count:
                info = decode(self.words[buddy])
                if info[0] == FREE and info[1] == order:
                    self.take_out(buddy, order)
                    self.free_block(self.merge(page, buddy, order), order + 1)
                    return
        self.put_at_head(page, order)

    def file_count(self, address):
        """The page and the count of a file page.

        "10 | InvalidFilePage, with the address | get or put on a word that is no File"
        """
        page = self.page_of(address)
        info = decode(self.words[page])
        if info[0] != FILE:
            raise Refusal(10, address)
        return page, info[1]

    def get(self, address):
        self.audit()
        page, count = self.file_count(address)
        # "11 | RefFull, with the address | get at count 2^60 - 1"
        if count == 2**60 - 1:
            raise Refusal(11, address)
        # "Get answers one more."
        self.words[page] = encode(FILE, count + 1, 0)
        return count + 1

    def put(self, address):
        self.audit()
        # "If the word is not a File page the call is refused, else put answers one less, and at 0 the page is freed."
        page, count = self.file_count(address)
        if count - 1 == 0:
            self.free_block(page, 0)
        else:
            self.words[page] = encode(FILE, count - 1, 0)
        return count - 1

    def lookup(self, address):
        self.audit()
        # "lookup rounds down to the page and answers size and alignment: 2^order times 4,096 and 4,096 for
        # Allocated, item size twice for SlabPage"
        page = self.page_of(address, rounds_down=True)
        info = decode(self.words[page])
        if info[0] == ALLOCATED:
            return 2 ** info[1] * PAGE_SIZE, PAGE_SIZE
        if info[0] == SLAB:
            return info[1], info[1]
        # "9 | InvalidPageType, with the address | ...; lookup of these or of File"
        raise Refusal(9, address)

    def report(self):
        self.audit()
        # "The report gives both count arrays."
        return self.nr_pages + self.free_pages

    def lists(self):
        """The pages of each list, from its head on."""
        self.audit()
        pages = []
        for order in range(MAX_ORDER):
            pages.append([])
            page = self.next_page[order]
            while page != NO_PAGE:
                pages[order].append(page)
                page = self.next_of(page)
        return pages


# ------------------------------------------------------------------------------------------------- the protocol


class Bad(Exception):
    """ "A line that is none of these requests, an empty one, a wrong count of words or a bad number answers `bad`" """


def number(word):
    """ "A number is 1 to 20 decimal digits, at most 2^64 - 1" """
    if not re.fullmatch(rb"[0-9]{1,20}", word) or int(word) > MAX_U64:
        raise Bad
    return int(word)


def hexadecimal(word):
    """ "HEX is 1 to 16 lower-case hex digits without 0x." """
    if not re.fullmatch(rb"[0-9a-f]{1,16}", word):
        raise Bad
    return int(word, 16)


def name(word):
    return word.decode("latin-1")


def fnv1a(words):
    """ "the 64-bit FNV-1a hash, 16 hex digits, of all lent words as eight little-endian bytes each" """
    value = 0xCBF29CE484222325
    for word in words:
        for byte in word.to_bytes(8, "little"):
            value = (value ^ byte) * 0x100000001B3 & MAX_U64
    return value


def page_or_none(page):
    return "-" if page == NO_PAGE else str(page)


class Shell:
    """Answers requests, one line each, and keeps the heap between them."""

    def __init__(self, heap_class=Heap):
        self.heap_class = heap_class
        self.heap = heap_class([])  # no words are lent before the first `words`
        self.requests = {
            b"words": (self.words, number),
            b"setup": (self.setup, number, number, number),
            b"alloc": (lambda order: ["ok %d" % self.heap.alloc(order)], number),
            b"file": (lambda: ["ok %d" % self.heap.file()],),
            b"slab": (lambda item: ["ok %d" % self.heap.slab(item)], number),
            b"free": (self.free, number),
            b"get": (lambda address: ["ok %d" % self.heap.get(address)], number),
            b"put": (lambda address: ["ok %d" % self.heap.put(address)], number),
            b"lookup": (lambda address: ["ok %d %d" % self.heap.lookup(address)], number),
            b"report": (lambda: [" ".join(["ok"] + [str(n) for n in self.heap.report()])],),
            b"audit": (self.audit,),
            b"print": (self.print,),
            b"lists": (self.lists,),
            b"state": (self.state,),
            b"word": (self.word, number),
            b"poke": (self.poke, number, hexadecimal),
            b"field": (self.field, name, number, number),
            b"encode": (self.encode, number, number, number),
            b"decode": (self.decode, hexadecimal),
            b"order": (lambda size: ["ok %d" % get_order(size)], number),
        }

    def answer(self, line):
        """The lines that answer a request; `line` is bytes without its newline."""
        try:
            # "so does a line too long for the reader"
            if len(line) > MAX_LINE:
                raise Bad
            # "Words of a request are parted by white space."
            parts = line.split()  # of bytes: space, tab, newline, carriage return, form feed, vertical tab
            if not parts or parts[0] not in self.requests:
                raise Bad
            call, *readers = self.requests[parts[0]]
            if len(parts) - 1 != len(readers):
                raise Bad
            return call(*[read(part) for read, part in zip(readers, parts[1:])])
        except Bad:
            return ["bad"]
        except Refusal as refusal:
            # "`no K` or `no K V`: K is document 01's refusal number and V what it carries"
            if refusal.value is None:
                return ["no %d" % refusal.number]
            return ["no %d %d" % (refusal.number, refusal.value)]

    def words(self, count):
        if count > MAX_WORDS:
            raise Bad
        self.heap = self.heap_class([RESERVED] * count)
        return ["ok"]

    def setup(self, start, pages, boot):
        self.heap.setup(start, pages, boot)
        return ["ok"]

    def free(self, address):
        self.heap.free(address)
        return ["ok"]

    def audit(self):
        self.heap.audit()
        return ["ok"]

    def print(self):
        counts = self.heap.report()
        lines = []
        total = free = 0
        for order in range(MAX_ORDER):
            blocks, free_blocks = counts[order], counts[MAX_ORDER + order]
            lines.append("Order-%02d: total pages: %5d free pages: %5d" % (order, blocks, free_blocks))
            total += blocks * 2**order
            free += free_blocks * 2**order
        lines.append("Total memory: %dKiB free memory: %dKiB" % (total * 4, free * 4))
        return lines

    def lists(self):
        lists = self.heap.lists()
        return [" ".join(["list %d:" % order] + [str(page) for page in lists[order]]) for order in range(MAX_ORDER)]

    def state(self):
        heap = self.heap
        return [
            "%d %d %d | %s | %s | %s | %016x"
            % (
                heap.start,
                heap.page_count,
                heap.allocated,
                " ".join(str(n) for n in heap.nr_pages),
                " ".join(str(n) for n in heap.free_pages),
                " ".join(page_or_none(page) for page in heap.next_page),
                fnv1a(heap.words),
            )
        ]

    def word(self, index):
        if index >= len(self.heap.words):
            return ["out"]
        return ["%x" % self.heap.words[index]]

    def poke(self, index, word):
        if index >= len(self.heap.words):
            return ["out"]
        self.heap.words[index] = word
        return ["ok"]

    def field(self, which, index, value):
        heap = self.heap
        arrays = {"nr": heap.nr_pages, "free": heap.free_pages, "head": heap.next_page}
        if which in arrays and index < MAX_ORDER:
            arrays[which][index] = value
        elif which == "start" and index == 0:
            heap.start = value
        elif which == "pages" and index == 0:
            heap.page_count = value
        elif which == "boot" and index == 0:
            heap.allocated = value
        else:
            raise Bad
        return ["ok"]

    def encode(self, kind, a, b):
        word = encode(kind, a, b)
        return ["no"] if word is None else ["ok %x" % word]

    def decode(self, word):
        info = decode(word)
        if info is None:
            return ["no"]
        if info[0] == FREE:
            return ["free %d %s" % (info[1], page_or_none(info[2]))]
        if info[0] == RESERVED:
            return ["reserved"]
        names = {ALLOCATED: "allocated", SLAB: "slab", COMPOUND: "compound", FILE: "file"}
        return ["%s %d" % (names[info[0]], info[1])]


def lines_of(descriptor):
    """Yields lists of whole lines as they come in, without newlines; a list for each read, so that a caller can
    flush when the input runs dry. A line beyond MAX_LINE comes cut, but still beyond it."""
    rest = b""
    while True:
        chunk = os.read(descriptor, 65536)
        if not chunk:
            break
        *lines, rest = (rest + chunk).split(b"\n")
        rest = rest[: MAX_LINE + 1]
        yield lines
    if rest:  # a last line without a newline
        yield [rest]


def main():
    if len(sys.argv) > 1:
        print(__doc__.strip())
        return 0 if sys.argv[1] in ("-h", "--help") else 2
    shell = Shell()
    for lines in lines_of(0):
        answers = [text for line in lines for text in shell.answer(line)]
        sys.stdout.write("".join(text + "\n" for text in answers))
        sys.stdout.flush()
    return 0


if __name__ == "__main__":
    sys.exit(main())
