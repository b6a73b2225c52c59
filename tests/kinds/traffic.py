"""Valid traffic: regions of random size, random mixes of calls, wrong ones among them, nothing damaged."""

from kinds.base import MAX_U64, any_address, random_boot, random_number, random_pages, random_start

ORDERS = [
    [0, 1, 2, 3, 4, 5],
    [0, 0, 0, 0, 1],
    [0, 0, 0, 1, 1, 2, 3],
    [3, 4, 5],
    [5, 5, 4],
    [0, 5],
    [1, 2],
    [0],
]
LOOKS = ["report", "audit", "lists", "print", "state", "state", "lists"]


class Region:
    """One region under traffic: what is out, by the answers, and how the next request is chosen."""

    def __init__(self, script, looks):
        self.script = script
        self.rng = script.rng
        self.looks = looks  # of 100 requests, how many only look
        self.out = {}  # address: the request that got it
        self.choose_mix()

    def choose_mix(self):
        rng = self.rng
        self.orders = rng.choice(ORDERS)
        self.grow = rng.choice([25, 40, 50, 60, 75, 90])
        self.files = rng.choice([0, 10, 30, 80])
        self.slabs = rng.choice([0, 10, 30])
        self.wrong = rng.choice([0, 5, 15])

    def step(self):
        rng = self.rng
        if rng.randrange(60) == 0:
            self.choose_mix()
        pick = rng.randrange(100)
        if pick < self.looks:
            self.script.say(rng.choice(LOOKS))
        elif rng.randrange(100) < self.wrong:
            self.wrong_request()
        elif rng.randrange(100) < self.grow or not self.out:
            self.take()
        else:
            self.give()

    def take(self):
        rng = self.rng
        pick = rng.randrange(100)
        if pick < self.files:
            request = "file"
        elif pick < self.files + self.slabs:
            request = "slab %d" % rng.choice([1, 8, 32, 64, 65535, rng.randrange(1, 65536)])
        else:
            request = "alloc %d" % rng.choice(self.orders)
        answer = self.script.say(request)[0].split()
        if answer[0] == "ok":
            self.out[int(answer[1])] = request

    def give(self):
        rng = self.rng
        address = rng.choice(list(self.out))
        if self.out[address] == "file" and rng.randrange(5) > 0:
            self.ask(rng.choice(["get", "put", "put"]), address)
        elif rng.randrange(8) == 0:
            self.ask("lookup", address + rng.choice([0, 0, 1, 4095, 4096]))
        else:
            self.ask("free", address)

    def wrong_request(self):
        rng = self.rng
        pick = rng.randrange(10)
        if pick == 0:
            self.script.say("alloc %d" % max(6, random_number(rng)))
        elif pick == 1:
            self.script.say("slab %d" % rng.choice([0, 65536, MAX_U64, 65536 + rng.randrange(1000)]))
        elif pick == 2:
            self.script.say("word %d" % rng.randrange(0, 700))
        else:
            call = rng.choice(["free", "free", "get", "put", "lookup"])
            self.ask(call, any_address(rng, self.script.heap))

    def ask(self, call, address):
        """A request about an address that may be out."""
        answer = self.script.say("%s %d" % (call, min(address, MAX_U64)))[0]
        if answer == "ok" or (call == "put" and answer == "ok 0"):
            self.out.pop(address, None)


def one_region(script, pages, steps, looks):
    rng = script.rng
    script.say("words %d" % pages)
    if rng.randrange(12) == 0:  # the empty record refuses every call
        script.say(rng.choice(["audit", "alloc 0", "lists", "report", "free 0"]))
    script.say("setup %d %d %d" % (random_start(rng, pages), pages, random_boot(rng, pages)))
    script.say(rng.choice(["lists", "state", "report"]))
    region = Region(script, looks)
    for _ in range(steps):
        if script.full():
            return
        region.step()
        if rng.randrange(400) == 0:  # a set-up over used words; now and then one that is refused
            boot = rng.choice([random_boot(rng, pages), random_boot(rng, pages), MAX_U64])
            script.say("setup %d %d %d" % (random_start(rng, pages), pages, boot))
            script.say("state")
            region.out.clear()
    if rng.randrange(2) == 0:  # all back in a random order: the heap is whole again
        back = list(region.out)
        rng.shuffle(back)
        for address in back:
            script.say("free %d" % address)
    script.say("lists")
    script.say("state")


def traffic(script):
    """Regions of 1 to 600 pages, now and then 4,096."""
    while not script.full():
        pages = 4096 if script.rng.randrange(40) == 0 else random_pages(script.rng)
        steps = script.rng.choice([20, 60, 150, 400])
        one_region(script, pages, min(steps, 60) if pages > 1000 else steps, looks=4 if pages > 300 else 20)


def full(script):
    """Regions of 4,096 pages: filled to the last page, emptied, filled with other orders."""
    rng = script.rng
    while not script.full():
        script.say("words 4096")
        script.say("setup %d 4096 %d" % (random_start(rng, 4096), rng.choice([0, 0, 1, 3, 31, 33, 4088, 3900])))
        script.say("lists")
        region = Region(script, 2)
        region.wrong = 3
        region.orders = rng.choice([[5], [5, 4], [5, 3, 0], [4, 1]])
        region.files = region.slabs = 0
        while not script.full() and region.script.say("alloc %d" % rng.choice(region.orders))[0].startswith("ok"):
            pass
        for request in ("alloc 5", "alloc 0", "alloc 6", "file", "slab 0", "slab 9", "report", "state"):
            script.say(request)
        region.out = {address: "alloc" for address in blocks_out(script.heap)}
        for _ in range(rng.choice([40, 150, 300])):
            if script.full():
                break
            region.step()
        script.say("lists")
        script.say("state")


def blocks_out(heap):
    """The addresses of the blocks that are out of a heap."""
    return [heap.address_of(page) for page, _, is_free in heap.blocks() if not is_free]
