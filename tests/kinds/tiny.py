"""Tiny regions: every count of boot pages, filling and emptying in every manner, and all states of the smallest."""

from kinds.base import R_START, alloc_pages, any_call, random_start
from kinds.images import Image, change

TINY = 40


def pairs(most=TINY):
    """Every page count with every boot count, and one boot page too many."""
    return [(pages, boot) for pages in range(1, most + 1) for boot in range(alloc_pages(pages) + 2)]


def all_setups(script):
    """Set-up of every tiny region: record and words."""
    for pages, boot in pairs():
        if script.full():
            return
        script.say("words %d" % pages)
        script.say("setup %d %d %d" % (R_START, pages, boot))
        script.say("state")


def fill(script, orders):
    """Takes blocks until each of the orders is refused; returns their addresses in the order of the grants."""
    rng = script.rng
    got = []
    orders = list(orders)
    while orders and not script.full():
        order = rng.choice(orders)
        request = "alloc %d" % order
        if order == 0:
            request = rng.choice(["alloc 0", "alloc 0", "file", "slab 5"])
        answer = script.say(request)[0].split()
        if answer[0] == "ok":
            got.append(int(answer[1]))
        else:
            orders.remove(order)
    return got


def arrange(rng, addresses):
    """The addresses in one of the manners in which blocks come back."""
    pick = rng.randrange(6)
    if pick == 0:
        return sorted(addresses)
    if pick == 1:
        return sorted(addresses, reverse=True)
    if pick == 2:
        ordered = sorted(addresses)
        return ordered[0::2] + ordered[1::2]
    if pick == 3:
        ordered = sorted(addresses)
        return ordered[1::2][::-1] + ordered[0::2]
    mixed = list(addresses)
    if pick == 4:
        rng.shuffle(mixed)
    return mixed


def tiny(script):
    """Regions of 1 to 40 pages: fill by orders, empty in some manner, look after each step."""
    rng = script.rng
    every = pairs()
    while not script.full():
        pages, boot = rng.choice(every)
        script.say("words %d" % pages)
        script.say("setup %d %d %d" % (random_start(rng, pages), pages, boot))
        script.say("state")
        for _ in range(rng.choice([1, 2, 3])):
            orders = rng.choice([[0], [1], [2], [3], [4], [5], [0, 1], [1, 2, 0], [0, 1, 2, 3, 4, 5]])
            back = arrange(rng, fill(script, orders))
            script.say("state")
            for address in back[: rng.choice([1, 5, 100])]:
                if script.full():
                    return
                script.say("%s %d" % (rng.choice(["free"] * 5 + ["put"]), address))
                script.say(rng.choice(["state", "lists", "lists", "report"]))
            if rng.randrange(3) == 0:
                script.say(any_call(rng, script.heap))


def walk(script):
    """Every state that calls reach from a set-up of a very small region, and every call in each state.

    States are gone back to by `poke` and `field`, so that no path is walked twice.
    """
    rng = script.rng
    while not script.full():
        managed = rng.choice([1, 2, 2, 3, 3, 4, 4, 5, 6, 8])
        boot = rng.randrange(0, 6)
        pages = managed + boot + 1
        script.say("words %d" % pages)
        script.say("setup %d %d %d" % (R_START, pages, boot))
        calls = ["alloc 0", "alloc 1", "alloc 2"] + ["free %d" % (R_START + 4096 * page) for page in range(pages)]
        if rng.randrange(2) == 0:
            calls += ["file", "slab 7"]
            calls += ["put %d" % (R_START + 4096 * page) for page in range(pages)]
        waiting = [Image.of(script.heap)]
        known = {waiting[0].key()}
        while waiting and not script.full():
            image = waiting.pop(rng.randrange(len(waiting)))
            rng.shuffle(calls)
            for call in calls:
                change(script, image)
                answer = script.say(call)[0]
                if script.full():
                    return
                if answer.startswith("ok"):
                    script.say("state")
                    reached = Image.of(script.heap)
                    if reached.key() not in known:
                        known.add(reached.key())
                        waiting.append(reached)
