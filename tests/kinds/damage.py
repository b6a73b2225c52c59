"""Damage: sound images, one thing (or two) made wrong by `poke` and `field`, every call, and back again.

Each function below takes a random generator and a sound image and returns a changed copy, or None where the image
has no place for it. Most break exactly one line of document 01's list; the last few break none.
"""

import second
from kinds.base import MAX_U64, NO_PAGE, PAGE_SIZE, alloc_pages, any_call, every_call, near, random_number
from kinds.images import ALLOCATED, COMPOUND, FILE, FREE, RESERVED, SLAB, Image, as_heap, change, lend, random_image

ODD_WORDS = (
    [kind for kind in range(16)]
    + [order << 4 | kind for kind in (FREE, ALLOCATED, COMPOUND) for order in (0, 1, 5, 6, 7, 255)]
    + [0x1011, 0x2000000000000011, 0x1033, 0x8000000000000003, 0x1F, 0x800000000000000F, 0x100002, 0x8000000000000012]
    + [0xFFFFFFFFFFFFF000, 0xFFFFFFFFFFFFF050, 0xFFFFFFFFFFFFF060, 0xFFFFFFFFFFFFE000, 0x14, 0x24, 0x4, 0x2, 0x12]
    + [0xFFFFFFFFFFFFFFF4, MAX_U64, 0x8000000000000000, 0xFFFF2, 0xFFFFFFFFFFFFFFF2]
)


def pick_block(rng, image, want):
    """A random block (page, order, is free) that is wanted, or None."""
    found = [block for block in image.blocks() if want(*block)]
    return rng.choice(found) if found else None


def set_word(image, page, word):
    copy = image.copy()
    copy.words[page] = word
    return copy


# ---------------------------------------------------------------------------------------------- pages, start, boot


def absurd_pages(rng, image):
    copy = image.copy()
    copy.pages = rng.choice(
        [image.pages + 1, image.pages - 1, 0, 2 * image.pages, 4096, 4097, 8192, 2**32, 2**52, 2**61, 2**63, MAX_U64]
    )
    return copy


def absurd_start(rng, image):
    copy = image.copy()
    size = PAGE_SIZE * image.pages
    copy.start = rng.choice(
        [image.start + 1, image.start + 2048, image.start + 4095, 2**64 - size, 2**64 - PAGE_SIZE, MAX_U64]
        + [2**64 - size + PAGE_SIZE, near(rng, [2**63]), 1]
    )
    return copy


def end_of_addresses(rng, image):
    """The end at 2^64 exactly: one page too far."""
    copy = image.copy()
    copy.start = 2**64 - PAGE_SIZE * image.pages
    return copy


def absurd_boot(rng, image):
    copy = image.copy()
    copy.boot = rng.choice([image.end(), image.end() + 1, image.pages, image.pages + 1, 4096, 2**63, MAX_U64])
    return copy


def boot_one_off(rng, image):
    copy = image.copy()
    copy.boot = (image.boot + rng.choice([-1, 1])) % 2**64
    return copy


def boot_over_end(rng, image):
    """More boot pages than there are, their words as boot words are."""
    copy = image.copy()
    copy.boot = image.end() + 1
    for page in range(image.end() + 1):
        copy.write(page, ALLOCATED, 0)
    copy.link([[]] * 6)
    copy.nr = [0] * 6
    return copy


# ---------------------------------------------------------------------------------------------------------- words


def boot_word(rng, image):
    if image.boot == 0:
        return None
    return set_word(image, rng.randrange(image.boot), rng.choice(ODD_WORDS))


def meta_word(rng, image):
    return set_word(image, rng.randrange(image.end(), image.pages), rng.choice(ODD_WORDS))


def free_outside(rng, image):
    """A Free word outside the managed pages, on list 0 and counted."""
    outside = list(range(image.boot)) + list(range(image.end(), image.pages))
    copy = image.copy()
    lists = image.lists()
    lists[0].insert(rng.randrange(len(lists[0]) + 1), rng.choice(outside))
    copy.link(lists)
    if rng.randrange(2) == 0:
        copy.nr[0] += 1
    return copy


def any_word(rng, image):
    return set_word(image, rng.randrange(image.pages), rng.choice([rng.choice(ODD_WORDS), random_number(rng)]))


def one_bit(rng, image):
    page = rng.randrange(image.pages)
    return set_word(image, page, image.words[page] ^ 1 << rng.randrange(64))


def spare_bit(rng, image):
    """A bit above the fields of a managed word that has some to spare."""
    page = rng.randrange(image.pages)
    kind = image.words[page] % 16
    if kind in (FREE, FILE):
        return None
    lowest = {ALLOCATED: 12, COMPOUND: 12, SLAB: 20, RESERVED: 4}[kind]
    return set_word(image, page, image.words[page] | 1 << rng.randrange(lowest, 64))


def wrong_head_order(rng, image):
    """The head's order is not its block's."""
    block = pick_block(rng, image, lambda page, order, is_free: image.words[page] % 16 in (FREE, ALLOCATED))
    if block is None:
        return None
    page, order, _ = block
    other = rng.choice([o for o in (0, 1, 2, 3, 4, 5, 6, 7, 255) if o != order])
    return set_word(image, page, image.words[page] & ~(255 << 4) | other << 4)


def wrong_compound(rng, image):
    """One page of a block says something else than Compound of the block's order."""
    block = pick_block(rng, image, lambda page, order, is_free: order > 0)
    if block is None:
        return None
    page, order, _ = block
    other = page + rng.choice([1, 2**order - 1, rng.randrange(1, 2**order)])
    stale = [o << 4 | COMPOUND for o in range(7) if o != order]
    return set_word(image, other, rng.choice(stale + [0x1, 0xF, 0x14, 0x12, 0xFFFFFFFFFFFFF000]))


def stale_compounds(rng, image):
    """All pages after the head keep a lower or higher order, as after a careless split or merge."""
    block = pick_block(rng, image, lambda page, order, is_free: order > 0)
    if block is None:
        return None
    page, order, _ = block
    stale = rng.choice([o for o in range(6) if o != order])
    copy = image.copy()
    for other in range(page + 1, page + 2**order):
        copy.write(other, COMPOUND, stale)
    return copy


def headless(rng, image):
    """A head that no block may have: Compound, Reserved, File 0, SlabPage 0, or no word at all."""
    block = pick_block(rng, image, lambda page, order, is_free: not is_free)
    if block is None:
        return None
    page, order, _ = block
    return set_word(image, page, rng.choice([order << 4 | COMPOUND, RESERVED, 4, 2, 5, 14, 6 << 4 | ALLOCATED]))


def count_of_none(rng, image):
    """A File with count 0 or a SlabPage with item 0, all else in order."""
    block = pick_block(rng, image, lambda page, order, is_free: order == 0 and not is_free)
    return None if block is None else set_word(image, block[0], rng.choice([FILE, SLAB]))


def big_file(rng, image):
    """A File or a SlabPage at the head of a larger block."""
    block = pick_block(rng, image, lambda page, order, is_free: order > 0 and not is_free)
    return None if block is None else set_word(image, block[0], rng.choice([0x14, 0x402]))


def misaligned(rng, image):
    """A block that starts at no multiple of its size, otherwise as a block is, counted."""
    blocks = image.blocks()
    places = [
        (page, order)
        for (page, order, is_free), (_, order2, is_free2) in zip(blocks, blocks[1:])
        if order == order2 < 5 and not is_free and not is_free2 and page % 2 ** (order + 1) != 0
    ]
    if not places:
        return None
    page, order = rng.choice(places)
    copy = image.copy()
    copy.write_block(page, order + 1, ALLOCATED)
    copy.nr[order] -= 2
    copy.nr[order + 1] += 1
    return copy


def overlong(rng, image):
    """The last block one order up, over the end into the metadata."""
    blocks = image.blocks()
    if not blocks or blocks[-1][2] or blocks[-1][1] == 5:
        return None
    page, order, _ = blocks[-1]
    copy = image.copy()
    copy.nr[order] -= 1
    copy.nr[order + 1] += 1
    if rng.randrange(2) == 0:
        copy.write_block(page, order + 1, ALLOCATED)
    else:
        for other in range(page + 1, image.end()):
            copy.write(other, COMPOUND, order + 1)
        copy.write(page, ALLOCATED, order + 1)
    return copy


# ---------------------------------------------------------------------------------------------------------- lists


def relinked(image, order, page, following):
    """A copy in which `page` of list `order` leads to `following`; the list's head when `page` is None."""
    copy = image.copy()
    if page is None:
        copy.head[order] = following
    else:
        copy.words[page] = (following << 12 | order << 4) & MAX_U64
    return copy


def looped_list(rng, image):
    """A list that comes back to one of its own pages; its counts are right."""
    lists = [(order, pages) for order, pages in enumerate(image.lists()) if pages]
    if not lists:
        return None
    order, pages = rng.choice(lists)
    return relinked(image, order, rng.choice([pages[-1], rng.choice(pages)]), rng.choice([pages[0], rng.choice(pages)]))


def crossing_lists(rng, image):
    """A list that runs into another, or into the middle of itself."""
    lists = image.lists()
    filled = [order for order in range(6) if lists[order]]
    if len(filled) < 2:
        return None
    order, other = rng.sample(filled, 2)
    return relinked(image, order, rng.choice([None] + lists[order]), rng.choice(lists[other]))


def swapped_lists(rng, image):
    order, other = rng.sample(range(6), 2)
    copy = image.copy()
    copy.head[order], copy.head[other] = copy.head[other], copy.head[order]
    return copy


def short_list(rng, image):
    """A list that leaves free blocks out."""
    lists = [(order, pages) for order, pages in enumerate(image.lists()) if pages]
    if not lists:
        return None
    order, pages = rng.choice(lists)
    at = rng.randrange(len(pages))
    rest = (pages + [NO_PAGE])[rng.randrange(at + 1, len(pages) + 1)]
    return relinked(image, order, None if at == 0 else pages[at - 1], rest)


def short_list_counted(rng, image):
    """The same with a free count that fits the shorter list."""
    copy = short_list(rng, image)
    if copy is None:
        return None
    for order in range(6):
        length, page = 0, copy.head[order]
        while page != NO_PAGE:
            length, page = length + 1, second.decode(copy.words[page])[2]
        copy.free[order] = length
    return copy


def wild_list(rng, image):
    """A list that leads out of the region, or to a page that is no free block of its order."""
    lists = image.lists()
    order = rng.randrange(6)
    at = rng.choice([None] + lists[order])
    pages = [page for page in range(image.pages) if page not in lists[order]]
    wild = [image.pages, image.pages + 1, 4096, 2**52 - 2, image.end(), 0, max(image.boot - 1, 0)]
    wild += [rng.choice(pages)] * 4 if pages else []
    if at is None:
        wild += [2**52 - 1, 2**52, 2**63, 2**64 - 2]
    return relinked(image, order, at, rng.choice(wild))


def listed_twice(rng, image):
    """A free block of which one list has two: the list's pages repeat, and still end."""
    lists = image.lists()
    order = rng.randrange(6)
    if not lists[order]:
        return None
    copy = image.copy()
    copy.head[(order + 1) % 6] = lists[order][0]
    return copy


def not_listed(rng, image):
    """A block turned Free, counted, but on no list."""
    block = pick_block(rng, image, lambda page, order, is_free: not is_free)
    if block is None:
        return None
    page, order, _ = block
    copy = image.copy()
    copy.write(page, FREE, order, NO_PAGE)
    copy.free[order] += rng.choice([0, 1])
    return copy


def still_listed(rng, image):
    """A listed block turned Allocated; its list goes through it no further."""
    block = pick_block(rng, image, lambda page, order, is_free: is_free)
    if block is None:
        return None
    page, order, _ = block
    copy = image.copy()
    copy.write(page, ALLOCATED, order)
    copy.free[order] -= rng.choice([0, 1])
    return copy


# -------------------------------------------------------------------------------------------------- buddies, counts


def free_buddies(rng, image):
    """A free block cut into two free halves, listed and counted: sound but for the buddies."""
    wanted = rng.choice(range(1, 6))  # each order as often, where there is one
    block = pick_block(rng, image, lambda page, order, is_free: is_free and order == wanted)
    block = block or pick_block(rng, image, lambda page, order, is_free: is_free and order > 0)
    if block is None:
        return None
    return halved(rng, image, block[0], block[1])


def halved(rng, image, page, order):
    """A free block as two free blocks of the next lower order."""
    lists = image.lists()
    lists[order].remove(page)
    lower = order - 1
    for half in (page, page + 2**lower):
        lists[lower].insert(rng.randrange(len(lists[lower]) + 1), half)
    copy = image.copy()
    for half in (page, page + 2**lower):
        copy.write_block(half, lower, FREE)
    copy.link(lists)
    copy.nr[order] -= 1
    copy.nr[lower] += 2
    return copy


def one_count(rng, image):
    copy = image.copy()
    counts = rng.choice([copy.nr, copy.free])
    order = rng.randrange(6)
    counts[order] = rng.choice([counts[order] + 1, (counts[order] - 1) % 2**64, 0, 4096, 2**63, MAX_U64])
    return copy


def two_counts(rng, image):
    """Counts whose sum of pages still fits: two of one order for one of the next, or one of each array."""
    copy = image.copy()
    order = rng.randrange(5)
    pick = rng.randrange(4)
    if pick == 0:
        copy.nr[order] += 2
        copy.nr[order + 1] = (copy.nr[order + 1] - 1) % 2**64
    elif pick == 1:
        copy.free[order] += 2
        copy.free[order + 1] = (copy.free[order + 1] - 1) % 2**64
    elif pick == 2:
        copy.nr[order] += 1
        copy.free[order] += 1
    else:
        copy.nr, copy.free = copy.free, copy.nr
    return copy


# ------------------------------------------------------------------------------------------------------ still sound


def reordered_list(rng, image):
    copy = image.copy()
    lists = image.lists()
    for pages in lists:
        rng.shuffle(pages)
    copy.link(lists)
    return copy


def moved_start(rng, image):
    copy = image.copy()
    copy.start = rng.choice([0, 2**63, 2**64 - PAGE_SIZE * (image.pages + 1)])
    return copy


def moved_boot(rng, image):
    """The first managed page becomes a boot page, or the last boot page a managed one."""
    copy = image.copy()
    if rng.randrange(2) == 0 and image.boot > 0:
        copy.boot -= 1
        copy.nr[0] += 1
        return copy
    if image.boot < image.end() and image.words[image.boot] == 1:
        copy.boot += 1
        copy.nr[0] -= 1
        return copy
    return None


def other_owner(rng, image):
    """A single page that is out changes hands: Allocated, File or SlabPage."""
    block = pick_block(rng, image, lambda page, order, is_free: order == 0 and not is_free)
    words = [0x1, 0x14, 0x24, 0xFFFFFFFFFFFFFFF4, 0xFFFFFFFFFFFFFFE4, 0x12, 0xFFFF2]
    return None if block is None else set_word(image, block[0], rng.choice(words))


def cut_block(rng, image):
    """A block that is out becomes two halves that are out."""
    block = pick_block(rng, image, lambda page, order, is_free: order > 0 and not is_free)
    if block is None:
        return None
    page, order, _ = block
    copy = image.copy()
    copy.write_block(page, order - 1, ALLOCATED)
    copy.write_block(page + 2 ** (order - 1), order - 1, ALLOCATED)
    copy.nr[order] -= 1
    copy.nr[order - 1] += 2
    return copy


DAMAGES = [
    absurd_pages,
    absurd_start,
    end_of_addresses,
    absurd_boot,
    boot_one_off,
    boot_over_end,
    boot_word,
    meta_word,
    free_outside,
    any_word,
    one_bit,
    spare_bit,
    wrong_head_order,
    wrong_compound,
    stale_compounds,
    headless,
    count_of_none,
    big_file,
    misaligned,
    overlong,
    looped_list,
    crossing_lists,
    swapped_lists,
    short_list,
    short_list_counted,
    wild_list,
    listed_twice,
    not_listed,
    still_listed,
    free_buddies,
    one_count,
    two_counts,
    reordered_list,
    moved_start,
    moved_boot,
    other_owner,
    cut_block,
]


def calls_after(script):
    """Looks at the damage, calls, and looks again."""
    rng = script.rng
    script.say("audit")
    if rng.randrange(10) == 0:
        for request in every_call(rng, script.heap):
            script.say(request)
    else:
        for _ in range(rng.choice([1, 2, 3])):
            script.say(any_call(rng, script.heap))
    script.say("state")


def damage(script):
    """Damages by turns, so that every one comes up before any comes again."""
    rng = script.rng
    turns = []
    while not script.full():
        pages = rng.choice([rng.randrange(1, 10), rng.randrange(4, 30), rng.randrange(20, 70)])
        image = random_image(rng, pages)
        if rng.randrange(8) == 0:
            wrong_count(script, image)
            continue
        lend(script, image)
        script.say("audit")
        for _ in range(rng.choice([4, 8, 16])):
            if script.full():
                return
            if not turns:
                turns = rng.sample(DAMAGES, len(DAMAGES))
            damaged = turns.pop()(rng, image)
            if damaged is not None and rng.randrange(8) == 0 and as_heap(damaged).sound():
                damaged = rng.choice(DAMAGES)(rng, damaged)
            if damaged is None:
                continue
            change(script, damaged)
            calls_after(script)
            if rng.randrange(25) == 0:  # set-up mends everything
                script.say("setup %d %d %d" % (image.start, image.pages, image.boot))
                script.say("lists")
                script.say("state")
            change(script, image)
            if rng.randrange(3) == 0:
                script.say("audit")
            else:  # and go on from here
                script.say(any_call(rng, script.heap))
                image = Image.of(script.heap)


def wrong_count(script, image):
    """A sound image in a buffer of another length."""
    rng = script.rng
    count = rng.choice([image.pages + 1, image.pages - 1, image.pages + 1, 0, 2 * image.pages, 8192])
    lend(script, image, count)
    calls_after(script)
    script.say("setup %d %d %d" % (image.start, image.pages, image.boot))
    script.say("state")


# ------------------------------------------------------------------------------------------------------- one by one

# (order, kind) of the blocks of a region that has each sort of block, in their places from page 3 on
RICH = (
    [(0, ALLOCATED), (0, FREE), (0, FILE), (0, SLAB), (0, FILE), (1, FREE), (1, ALLOCATED), (0, FREE), (0, ALLOCATED)]
    + [(0, FREE), (0, SLAB), (2, FREE), (2, ALLOCATED), (2, FREE), (2, ALLOCATED), (3, FREE), (3, ALLOCATED)]
    + [(3, FREE), (3, ALLOCATED), (4, FREE), (4, ALLOCATED), (4, FREE), (4, ALLOCATED), (5, FREE), (5, FREE)]
    + [(5, ALLOCATED), (1, ALLOCATED), (1, FREE), (1, ALLOCATED), (1, ALLOCATED), (1, ALLOCATED), (0, ALLOCATED)]
    + [(0, ALLOCATED), (0, ALLOCATED), (0, ALLOCATED), (0, ALLOCATED), (0, ALLOCATED)]
)
ONE_WORDS = (
    [kind for kind in range(16)]
    + [order << 4 | kind for kind in (FREE, ALLOCATED, COMPOUND) for order in (1, 2, 5, 6)]
    + [0xFFFFFFFFFFFFF000, 0x1011, 0x1013, 0x1F, 0x100012, 0x14, 0x12, 0xFFFFFFFFFFFFFFF4]
)


def rich_image(blocks=RICH):
    """Three boot pages, these blocks, one metadata page."""
    pages = 3 + sum(2**order for order, _ in blocks) + 1
    image = Image(1048576, pages, 3, [0] * 6, [0] * 6, [NO_PAGE] * 6, [RESERVED] * pages)
    for page in range(3):
        image.write(page, ALLOCATED, 0)
    lists = [[] for _ in range(6)]
    page = 3
    for order, kind in blocks:
        image.nr[order] += 1
        if kind == FREE:
            lists[order].append(page)
        if kind in (FILE, SLAB):
            image.write(page, kind, 64 if kind == SLAB else 2)
        else:
            image.write_block(page, order, kind)
        page += 2**order
    image.link(lists)
    return image


def one_by_one(script):
    """Every sort of wrong word, count, head and link in a region with every sort of block, each alone."""
    image = rich_image()
    lend(script, image)
    script.say("state")
    for damaged in wrong_words(image):
        change(script, damaged)
        script.say("audit")
    for damaged in list(wrong_fields(image)) + list(wrong_links(image)):
        change(script, damaged)
        script.say("audit")
    for make in DAMAGES:
        for _ in range(3):
            damaged = make(script.rng, image)
            if damaged is not None:
                change(script, damaged)
                script.say("audit")
    for page, order, is_free in image.blocks():
        if is_free and order > 0:
            change(script, halved(script.rng, image, page, order))
            script.say("audit")
    change(script, image)
    script.say("audit")
    # and heads of empty lists, in a region where all is out
    image = rich_image([(0, ALLOCATED), (1, ALLOCATED), (0, FILE)])
    lend(script, image)
    for damaged in wrong_links(image):
        change(script, damaged)
        script.say("audit")


def sweep(script):
    """Damage after damage with nothing but an audit between, on rich and on random images."""
    rng = script.rng
    while not script.full():
        if rng.randrange(3) == 0:
            image = reordered_list(rng, rich_image())
        else:
            image = random_image(rng, rng.choice([rng.randrange(2, 20), rng.randrange(20, 70), rng.randrange(64, 200)]))
        lend(script, image)
        for _ in range(min(4 * image.pages, 300)):
            if script.full():
                return
            damaged = rng.choice(DAMAGES)(rng, image)
            if damaged is not None:
                change(script, damaged)
                script.say("audit")


def wrong_words(image):
    """One word changed: on boot pages, metadata, and the first, second and last page of blocks of every sort."""
    places = {0, 2, image.pages - 1}
    sorts = set()
    for page, order, _ in image.blocks():
        sort = image.words[page] % 4096
        if sort not in sorts:
            sorts.add(sort)
            places |= {page, page + min(1, 2**order - 1), page + 2**order - 1}
    for place in sorted(places):
        for word in ONE_WORDS:
            if word != image.words[place]:
                yield set_word(image, place, word)


def wrong_fields(image):
    for name in ("nr", "free"):
        for order in range(6):
            count = getattr(image, name)[order]
            for value in (count + 1, count - 1, MAX_U64):
                copy = image.copy()
                getattr(copy, name)[order] = value
                yield copy
    for name in ("start", "pages", "boot"):
        number = getattr(image, name)
        for value in (0, 1, number + 1, number - 1, 2 * number, 2**52, 2**61, 2**63, MAX_U64):
            copy = image.copy()
            setattr(copy, name, value)
            yield copy


def wrong_links(image):
    """Every head and every next field led to the free blocks, and to pages that are none."""
    lists = image.lists()
    everywhere = [NO_PAGE, 0, 3, image.pages - 1, image.pages, 2**52 - 2] + [page for pages in lists for page in pages]
    for order in range(6):
        for at in [None] + lists[order]:
            for target in everywhere + ([2**52 - 1, 2**52, 2**64 - 2] if at is None else []):
                yield relinked(image, order, at, target)


def too_many_pages(script):
    """Regions beyond 4,096 pages, sound in all else, and the empty one: no other script can tell these."""
    for pages in (0, 4097):
        if script.full():
            return
        image = Image(0, pages, alloc_pages(pages), [0] * 6, [0] * 6, [NO_PAGE] * 6, [RESERVED] * pages)
        for page in range(image.end()):
            image.write(page, ALLOCATED, 0)
        lend(script, image)
        for request in ("audit", "alloc 0", "free 0", "lookup 0", "report", "state"):
            script.say(request)


def garbage(script):
    """Any words and any fields, every call, then a set-up over them."""
    rng = script.rng
    while not script.full():
        pages = rng.choice([1, 2, 5, 12, 33])
        script.say("words %d" % pages)
        script.say("setup 0 %d %d" % (pages, rng.randrange(0, pages)))
        for _ in range(rng.randrange(1, 30)):
            pick = rng.randrange(4)
            if pick == 0:
                name = rng.choice(["nr", "free", "head"])
                script.say("field %s %d %d" % (name, rng.randrange(6), random_number(rng)))
            elif pick == 1 and rng.randrange(4) == 0:
                script.say("field %s 0 %d" % (rng.choice(["start", "pages", "boot"]), random_number(rng)))
            else:
                word = rng.choice([rng.choice(ODD_WORDS), rng.getrandbits(64)])
                script.say("poke %d %x" % (rng.randrange(0, pages + 1), word))
            if rng.randrange(4) == 0:
                script.say(any_call(rng, script.heap))
        for request in every_call(rng, script.heap):
            script.say(request)
        script.say("state")
        script.say("setup %d %d %d" % (rng.choice([0, 4096, 1]), pages, rng.randrange(0, pages)))
        script.say("lists")
        script.say("state")
