"""Images of a heap (record and words): sound ones at random, and how a script lends one or goes over to one."""

import copy

import second
from kinds.base import NO_PAGE, alloc_pages, random_boot, random_start, any_call, any_address

FREE, ALLOCATED, SLAB, COMPOUND, FILE, RESERVED = (
    second.FREE,
    second.ALLOCATED,
    second.SLAB,
    second.COMPOUND,
    second.FILE,
    second.RESERVED,
)
FIELDS = ["start", "pages", "boot"]


class Image:
    """A record and its words, sound or not."""

    def __init__(self, start, pages, boot, nr, free, head, words):
        self.start, self.pages, self.boot = start, pages, boot
        self.nr, self.free, self.head, self.words = nr, free, head, words

    @staticmethod
    def of(heap):
        return Image(
            heap.start,
            heap.page_count,
            heap.allocated,
            list(heap.nr_pages),
            list(heap.free_pages),
            list(heap.next_page),
            list(heap.words),
        )

    def copy(self):
        return copy.deepcopy(self)

    def key(self):
        arrays = tuple(self.nr), tuple(self.free), tuple(self.head), tuple(self.words)
        return (self.start, self.pages, self.boot) + arrays

    def end(self):
        return alloc_pages(self.pages)

    def blocks(self):
        """(page, order, is free) of the blocks; the image is sound."""
        return as_heap(self).blocks()

    def lists(self):
        """The pages of each list; the image is sound."""
        return as_heap(self).lists()

    def write(self, page, kind, a, b=0):
        self.words[page] = second.encode(kind, a, b)

    def write_block(self, page, order, kind):
        """A whole block but for its place on a list."""
        self.write(page, kind, order, NO_PAGE if kind == FREE else 0)
        for other in range(page + 1, min(page + 2**order, len(self.words))):
            self.write(other, COMPOUND, order)

    def link(self, lists):
        """Writes the six lists: heads, next fields and free counts."""
        for order, pages in enumerate(lists):
            self.free[order] = len(pages)
            self.head[order] = pages[0] if pages else NO_PAGE
            for page, following in zip(pages, pages[1:] + [NO_PAGE]):
                self.write(page, FREE, order, following)


def as_heap(image):
    heap = second.Heap(list(image.words))
    heap.start, heap.page_count, heap.allocated = image.start, image.pages, image.boot
    heap.nr_pages, heap.free_pages, heap.next_page = list(image.nr), list(image.free), list(image.head)
    return heap


def random_image(rng, pages, boot=None, start=None):
    """A sound image: a random tiling, random heads, lists in random order. Most of them no set-up leads to."""
    boot = random_boot(rng, pages) if boot is None else boot
    start = random_start(rng, pages) if start is None else start
    image = Image(start, pages, boot, [0] * 6, [0] * 6, [NO_PAGE] * 6, [RESERVED] * pages)
    for page in range(boot):
        image.write(page, ALLOCATED, 0)
    lists = [[] for _ in range(6)]
    share_free = rng.choice([10, 40, 70, 95])
    likes = rng.choice([[0], [0, 0, 1], [0, 1, 2, 3, 4, 5], [2, 3], [5, 4, 0]])
    page = boot
    while page < image.end():
        order = rng.choice(likes)
        while page % 2**order != 0 or page + 2**order > image.end():
            order -= 1
        is_free = rng.randrange(100) < share_free
        if order < 5 and second.buddy_of(page, order) in lists[order]:
            is_free = False  # two free buddies would not be sound
        image.nr[order] += 1
        if is_free:
            image.write_block(page, order, FREE)
            lists[order].append(page)
        else:
            image.write_block(page, order, ALLOCATED)
            if order == 0 and rng.randrange(2) == 0:
                pick = rng.randrange(3)
                if pick == 0:
                    image.write(page, SLAB, rng.choice([1, 64, 65535, rng.randrange(1, 65536)]))
                else:
                    image.write(page, FILE, rng.choice([1, 1, 2, 3, 2**60 - 1, 2**60 - 2, rng.randrange(1, 2**60)]))
        page += 2**order
    for pages_of_list in lists:
        rng.shuffle(pages_of_list)
    image.link(lists)
    return image


def lend(script, image, count=None):
    """Makes the script's heap this image, in a fresh buffer of `count` words."""
    script.say("words %d" % (len(image.words) if count is None else count))
    change(script, image)


def change(script, image):
    """Goes from whatever the script's heap is over to this image, by `field` and `poke` of what differs.

    Words beyond the lent buffer, or beyond the image, stay as they are.
    """
    now = Image.of(script.heap)
    for name in FIELDS:
        if getattr(now, name) != getattr(image, name):
            script.say("field %s 0 %d" % (name, getattr(image, name)))
    for name in ("nr", "free", "head"):
        for index in range(6):
            if getattr(now, name)[index] != getattr(image, name)[index]:
                script.say("field %s %d %d" % (name, index, getattr(image, name)[index]))
    for index, (was, shall) in enumerate(zip(now.words, image.words)):
        if was != shall:
            script.say("poke %d %x" % (index, shall))


def sound(script):
    """Sound images of all sorts, each lent and then called."""
    rng = script.rng
    while not script.full():
        image = random_image(rng, rng.choice([rng.randrange(1, 12), rng.randrange(1, 50), rng.randrange(30, 100)]))
        lend(script, image)
        script.say("lists")
        for _ in range(rng.choice([10, 40, 80])):
            if script.full():
                return
            pick = rng.randrange(10)
            heads = [page for page, _, is_free in script.heap.blocks() if not is_free]
            files = [page for page in heads if script.heap.words[page] % 16 == FILE]
            if pick < 2 and files:
                address = script.heap.address_of(rng.choice(files))
                script.say("%s %d" % (rng.choice(["get", "get", "put", "free"]), address))
            elif pick < 4 and heads:
                address = script.heap.address_of(rng.choice(heads))
                script.say("%s %d" % (rng.choice(["free", "free", "free", "put", "get", "lookup"]), address))
            elif pick < 6:
                script.say(any_call(rng, script.heap))
            elif pick < 8:
                script.say(rng.choice(["alloc %d" % order for order in range(6)] + ["file", "slab 3"]))
            else:
                script.say(rng.choice(["state", "lists", "report"]))
        script.say("lookup %d" % any_address(rng, script.heap))
        script.say("lists")
        script.say("state")
