#!/usr/bin/env python3
"""Holds demand 3 of any program that speaks the shell's protocol, from outside: from its answers alone.

It sets regions up, grants and returns at random, and writes down only grants and returns that succeeded; it never
looks at a word or at the state line, and knows nothing of how a heap works inside. Against that history it checks:

  - a grant is an aligned run of managed pages, clear of every block still out
  - the blocks still out and the free blocks (`lists`) tile the managed pages, each page once
  - the totals (`report`), each times its block's size, add up to the managed pages, and fit the blocks one by one;
    the free counts likewise fit the free pages
  - no two free buddies below order 5 stand side by side
  - a request for a valid order is refused 6 exactly when no aligned run of that many managed pages is clear
  - a file page's count is 1 plus gets less puts; a put is a return when it answers 0
  - every return of what is out succeeds, no return of anything else does, and no call answers 4

The program must answer when its input runs dry. Exit status: 0 held, 1 broken, 2 wrong use or a program that does not run.
"""

import argparse
import os
import random
import select
import shlex
import subprocess
import sys
import time

sys.dont_write_bytecode = True

import running

PAGE_SIZE = 4096
ORDERS = 6
HERE = os.path.dirname(os.path.abspath(__file__))


class Broken(Exception):
    """Demand 3 does not hold; the text says where."""


class Program:
    """A program under test, spoken to in rounds of requests."""

    def __init__(self, command, timeout):
        self.timeout = timeout
        self.child = subprocess.Popen(shlex.split(command), stdin=subprocess.PIPE, stdout=subprocess.PIPE)
        self.pending = b""
        self.said = []  # every request so far

    def line(self):
        while b"\n" not in self.pending:
            ready, _, _ = select.select([self.child.stdout], [], [], self.timeout)
            if not ready:
                raise Broken("no answer within %g seconds (does it flush when its input runs dry?)" % self.timeout)
            chunk = os.read(self.child.stdout.fileno(), 65536)
            if not chunk:
                raise Broken("the program ended")
            self.pending += chunk
        line, self.pending = self.pending.split(b"\n", 1)
        return line.decode("ascii", "replace")

    def ask(self, *requests):
        """The answers to requests sent at once; that to `lists` comes as a list of six lines, if there are six."""
        self.said += requests
        try:
            self.child.stdin.write("".join(request + "\n" for request in requests).encode("ascii"))
            self.child.stdin.flush()
        except BrokenPipeError:
            raise Broken("the program ended") from None
        answers = []
        for request in requests:
            answer = self.line()
            if request == "lists" and answer.startswith("list 0:"):
                answer = [answer] + [self.line() for _ in range(ORDERS - 1)]
            answers.append(answer)
        return answers

    def close(self):
        self.child.stdin.close()
        try:
            self.child.wait(5)
        except subprocess.TimeoutExpired:
            self.child.kill()
            self.child.wait()


class Out:
    """A block still out, by the history."""

    def __init__(self, page, order, request, count=None):
        self.page, self.order, self.request = page, order, request
        self.count = count  # of a file page: 1 plus gets less puts


class History:
    """One region: what was granted and returned since its set-up."""

    def __init__(self, program, start, pages, boot):
        self.program = program
        self.start, self.pages, self.boot = start, pages, boot
        self.end = pages - (pages * 8 + PAGE_SIZE - 1) // PAGE_SIZE
        self.out = {}  # address: Out
        self.taken = bytearray(pages)  # 1 where a page is out, 2 where it is not managed
        for page in list(range(boot)) + list(range(self.end, pages)):
            self.taken[page] = 2

    def address(self, page):
        return self.start + page * PAGE_SIZE

    def has_clear_run(self, order):
        """Whether an aligned run of 2^order managed pages is clear of blocks still out."""
        size = 1 << order
        clear = bytes(size)
        return any(self.taken[page : page + size] == clear for page in range(0, self.pages - size + 1, size))

    def grant(self, request, order):
        """Asks for a block of an order and writes it down."""
        clear = self.has_clear_run(order)
        answer = self.program.ask(request)[0].split()
        if answer == ["no", "6"]:
            if clear:
                raise Broken("%s: refused 6, but a run is clear" % request)
            return None
        if answer[0] != "ok" or len(answer) != 2:
            raise Broken("%s: answered %s" % (request, " ".join(answer)))
        if not clear:
            raise Broken("%s: granted %s, but no run is clear" % (request, answer[1]))
        address = int(answer[1])
        page, off = divmod(address - self.start, PAGE_SIZE)
        size = 1 << order
        if off != 0 or page < self.boot or page + size > self.end:
            raise Broken("%s: granted %d, which is no run of managed pages" % (request, address))
        if page % size != 0:
            raise Broken("%s: granted page %d, which is not aligned" % (request, page))
        if any(self.taken[page : page + size]):
            raise Broken("%s: granted page %d, of which a page is out already" % (request, page))
        self.taken[page : page + size] = b"\x01" * size
        self.out[address] = Out(page, order, request, 1 if request == "file" else None)
        return address

    def returned(self, address):
        block = self.out.pop(address)
        size = 1 << block.order
        self.taken[block.page : block.page + size] = bytes(size)

    def free(self, address):
        answer = self.program.ask("free %d" % address)[0]
        if answer != "ok":
            raise Broken("free of a block that is out (%s) answered %s" % (self.out[address].request, answer))
        self.returned(address)

    def count(self, call, address):
        """A get or a put of a file page that is out."""
        block = self.out[address]
        block.count += 1 if call == "get" else -1
        answer = self.program.ask("%s %d" % (call, address))[0]
        if answer != "ok %d" % block.count:
            raise Broken("%s of a file page answered %s, not ok %d" % (call, answer, block.count))
        if block.count == 0:
            self.returned(address)

    def wrong(self, request):
        """A request that must be refused, and not as damage."""
        answer = self.program.ask(request)[0]
        if not answer.startswith("no ") or answer == "no 4":
            raise Broken("%s: answered %s" % (request, answer))

    def lookup(self, address):
        answer = self.program.ask("lookup %d" % address)[0]
        if answer == "no 4" or not answer.startswith(("ok ", "no ")):
            raise Broken("lookup %d answered %s" % (address, answer))

    # --------------------------------------------------------------------------------------------------- checks

    def check(self):
        """The demand at this moment."""
        lists, report, audit = self.program.ask("lists", "report", "audit")
        if audit != "ok":
            raise Broken("audit answered %s" % audit)
        if not isinstance(lists, list):
            raise Broken("lists answered %s" % lists)
        free = [[int(page) for page in line.split(":")[1].split()] for line in lists]
        self.check_tiles(free)
        self.check_buddies(free)
        self.check_totals(free, report)

    def check_tiles(self, free):
        cover = [0] * self.pages
        blocks = [(page, order) for order in range(ORDERS) for page in free[order]]
        blocks += [(block.page, block.order) for block in self.out.values()]
        for page, order in blocks:
            if page < self.boot or page + (1 << order) > self.end:
                raise Broken("block of order %d at page %d is not inside the managed pages" % (order, page))
            for each in range(page, page + (1 << order)):
                cover[each] += 1
        for page in range(self.boot, self.end):
            if cover[page] != 1:
                raise Broken("page %d is in %d blocks out and free blocks together" % (page, cover[page]))

    def check_buddies(self, free):
        for order in range(ORDERS - 1):
            pages = set(free[order])
            for page in pages:
                if page ^ (1 << order) in pages:
                    raise Broken("free buddies of order %d at page %d" % (order, min(page, page ^ 1 << order)))

    def check_totals(self, free, report):
        numbers = report.split()
        if numbers[0] != "ok" or len(numbers) != 1 + 2 * ORDERS:
            raise Broken("report answered %s" % report)
        totals = [int(number) for number in numbers[1 : 1 + ORDERS]]
        free_counts = [int(number) for number in numbers[1 + ORDERS :]]
        if sum(count << order for order, count in enumerate(totals)) != self.end - self.boot:
            raise Broken("the totals %s do not add up to %d managed pages" % (totals, self.end - self.boot))
        clear = self.taken.count(0)
        if sum(count << order for order, count in enumerate(free_counts)) != clear:
            raise Broken("the free counts %s do not add up to %d free pages" % (free_counts, clear))
        for order in range(ORDERS):
            out = len([1 for block in self.out.values() if block.order == order])
            listed = len(free[order])
            if free_counts[order] != listed:
                raise Broken("free count %d of order %d, but the list has %d" % (free_counts[order], order, listed))
            if totals[order] != out + listed:
                raise Broken("total %d of order %d, but %d out and %d free" % (totals[order], order, out, listed))

    def probe(self):
        """Every valid order once: granted exactly if a run is clear, and given back."""
        for order in range(ORDERS):
            address = self.grant("alloc %d" % order, order)
            if address is not None:
                self.free(address)


def random_region(rng):
    """Pages, boot pages and start that a set-up must take."""
    pages = rng.choice([rng.randrange(1, 41), rng.randrange(1, 41), rng.randrange(30, 140), rng.randrange(1, 601)])
    if rng.randrange(60) == 0:
        pages = 4096
    end = pages - (pages * 8 + PAGE_SIZE - 1) // PAGE_SIZE
    boot = rng.choice([0, min(end, rng.randrange(0, 5)), rng.randrange(0, end + 1)])
    highest = (2**64 - 1) // PAGE_SIZE - pages
    start = rng.choice([0, 1048576, highest * PAGE_SIZE, rng.randrange(0, highest + 1) * PAGE_SIZE])
    return start, pages, boot


def step(rng, history, mix):
    """One request of the traffic."""
    pick = rng.randrange(100)
    if pick < 8:
        wrong_step(rng, history)
    elif pick < 8 + mix["grow"] or not history.out:
        kind = rng.choice(mix["kinds"])
        if kind == "file":
            history.grant("file", 0)
        elif kind == "slab":
            history.grant("slab %d" % rng.choice([1, 64, 65535]), 0)
        else:
            order = rng.choice(mix["orders"])
            history.grant("alloc %d" % order, order)
    else:
        address = rng.choice(list(history.out))
        if history.out[address].count is not None and rng.randrange(4) > 0:
            history.count(rng.choice(["get", "put", "put"]), address)
        elif rng.randrange(10) == 0:
            history.lookup(address)
        else:
            history.free(address)


def wrong_step(rng, history):
    """A request that has to be refused."""
    address = history.address(rng.randrange(0, history.pages))
    if history.out and rng.randrange(3) == 0:
        address = rng.choice(list(history.out))
    pick = rng.randrange(6)
    if pick == 0:
        history.wrong("alloc %d" % rng.choice([6, 7, 64, 2**64 - 1]))
    elif pick == 1:
        history.wrong("slab %d" % rng.choice([0, 65536, 2**64 - 1]))
    elif pick == 2:
        history.wrong("free %d" % rng.choice([address + 1, address + 4095, history.address(history.pages)]))
    elif pick == 3 and address not in history.out:
        history.wrong("free %d" % address)
    elif pick == 4 and (address not in history.out or history.out[address].count is None):
        history.wrong("%s %d" % (rng.choice(["get", "put"]), address))
    else:
        history.lookup(address)


def one_buffer(rng, program, steps, every):
    """One buffer of words: a region, and now and then another set up over what the first left."""
    start, pages, boot = random_region(rng)
    program.ask("words %d" % pages)
    one_region(rng, program, start, pages, boot, steps, every)
    while rng.randrange(3) == 0:
        one_region(rng, program, start, pages, rng.randrange(0, boot + 1), steps // 4, every)


def one_region(rng, program, start, pages, boot, steps, every):
    """From a set-up on; the history begins anew."""
    answer = program.ask("setup %d %d %d" % (start, pages, boot))[0]
    if answer != "ok":
        raise Broken("a set-up of %d pages, %d boot, answered %s" % (pages, boot, answer))
    history = History(program, start, pages, boot)
    history.check()
    mix = None
    for number in range(steps):
        if number % 50 == 0:
            mix = {
                "grow": rng.choice([20, 40, 50, 70, 85]),
                "kinds": rng.choice([["alloc"], ["alloc", "file"], ["alloc", "file", "slab"], ["file"]]),
                "orders": rng.choice([[0], [0, 1], [0, 1, 2, 3, 4, 5], [0, 0, 0, 1, 2, 5], [5, 4, 3]]),
            }
        step(rng, history, mix)
        if number % every == 0:
            history.check()
        if number % 40 == 39:
            history.probe()
            history.check()
    if rng.randrange(3) == 0:
        return
    back = list(history.out)  # all comes back: the heap is as whole as after a set-up
    rng.shuffle(back)
    for address in back:
        history.free(address)
    history.check()
    history.probe()


def arguments():
    parser = argparse.ArgumentParser(description=__doc__, formatter_class=argparse.RawDescriptionHelpFormatter)
    parser.add_argument("program", help="command line, in quotes")
    parser.add_argument("--seconds", type=float, help="stop after so many seconds")
    parser.add_argument("--requests", type=int, help="stop after so many requests (20000 unless --seconds is given)")
    parser.add_argument("--seed", type=int, default=1)
    parser.add_argument("--every", type=int, default=1, help="check after every so many steps (1)")
    parser.add_argument("--timeout", type=float, default=20, help="seconds to wait for an answer (20)")
    parser.add_argument("--keep", default=os.path.join(HERE, "found"), help="folder for what is found (tests/found)")
    asked = parser.parse_args()
    if asked.seconds is None and asked.requests is None:
        asked.requests = 20000
    return asked


def main():
    asked = arguments()
    if not running.ready([asked.program]):
        return 2
    rng = random.Random(asked.seed)
    begin = shown = time.time()
    program = Program(asked.program, asked.timeout)
    buffers = 0
    try:
        while True:
            if asked.requests is not None and len(program.said) >= asked.requests:
                break
            if asked.seconds is not None and time.time() - begin >= asked.seconds:
                break
            one_buffer(rng, program, rng.choice([40, 150, 400]), asked.every)
            buffers += 1
            if time.time() - shown > 10:
                shown = time.time()
                print("%d requests in %d buffers" % (len(program.said), buffers), file=sys.stderr, flush=True)
    except Broken as broken:
        os.makedirs(asked.keep, exist_ok=True)
        path = os.path.join(asked.keep, "demand3-%d.script" % asked.seed)
        last = max(number for number, request in enumerate(program.said) if request.startswith("words"))
        with open(path, "w") as file:
            file.write("".join(request + "\n" for request in program.said[last:]))
        print("broken after %d requests: %s" % (len(program.said), broken))
        print("its requests on the last buffer are kept in %s" % path)
        return 1
    finally:
        program.close()
    seconds = time.time() - begin
    print("held: %d requests in %d buffers, %d seconds" % (len(program.said), buffers, seconds))
    return 0


if __name__ == "__main__":
    sys.exit(main())
