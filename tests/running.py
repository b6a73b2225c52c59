"""Running programs that speak the shell's protocol on a script, and finding where two of them differ."""

import os
import select
import shlex
import subprocess
import sys
import threading
from concurrent.futures import ThreadPoolExecutor

LINES_OF_LISTS = 6
LINES_OF_PRINT = 7
# what builds a program that is not there, by the end of its path
BUILT_BY = {"bench/target/release/plain": "(cd bench && cargo build --release)", "crates/heapsh/out/heapsh": "(cd crates/heapsh && rt run < /dev/null)"}


def ready(commands):
    """Whether all of them run on no requests, which also builds ./heapsh where it is not built yet; says of each that does not why."""
    faults = [line for line in map(fault, commands) if line]
    print("".join(line + "\n" for line in faults), end="", file=sys.stderr)
    return not faults


def fault(command):
    """Why a program does not run, as a line, or None."""
    words = shlex.split(command)
    if not words:
        return "a program without a name"
    try:
        status = subprocess.run(words, stdin=subprocess.DEVNULL, stdout=subprocess.DEVNULL).returncode
    except OSError as error:
        builds = ["; %s builds it" % how for end, how in BUILT_BY.items() if words[0].endswith(end)]
        return "%s: %s%s" % (words[0], error.strerror, "".join(builds))
    return "%s: exit status %d on no requests" % (command, status) if status else None


class Outcome:
    """What a program wrote, and how it ended."""

    def __init__(self, lines, ending):
        self.lines = lines
        self.ending = ending  # None when it ended well


def run(command, script, timeout=120):
    """Runs a command line on a script (bytes) and returns its outcome."""
    try:
        done = subprocess.run(
            shlex.split(command), input=script, stdout=subprocess.PIPE, stderr=subprocess.PIPE, timeout=timeout
        )
    except subprocess.TimeoutExpired as late:
        return Outcome((late.stdout or b"").split(b"\n")[:-1], "no end after %g seconds" % timeout)
    lines = done.stdout.split(b"\n")
    ending = None
    if lines[-1] != b"":
        ending = "its last line has no newline"
    else:
        lines.pop()
    if done.returncode != 0:
        said = done.stderr.decode("utf-8", "replace").strip().split("\n")[-1]
        ending = "exit status %d %s" % (done.returncode, said)
    return Outcome(lines, ending)


def run_while(command, script, right, timeout=30):
    """Runs a command line on a script for as long as it writes what the right outcome has, and no longer."""
    child = subprocess.Popen(
        shlex.split(command), stdin=subprocess.PIPE, stdout=subprocess.PIPE, stderr=subprocess.DEVNULL
    )
    threading.Thread(target=feed, args=(child, script), daemon=True).start()
    expected = b"".join(line + b"\n" for line in right.lines)
    written = b""
    ending = None
    while expected.startswith(written):
        ready, _, _ = select.select([child.stdout], [], [], timeout)
        if not ready:
            ending = "no answer within %g seconds" % timeout
            break
        chunk = os.read(child.stdout.fileno(), 65536)
        if not chunk:
            break
        written += chunk
    child.kill()
    child.wait()
    child.stdout.close()
    return Outcome(written.split(b"\n")[:-1], ending)


def feed(child, script):
    try:
        child.stdin.write(script)
        child.stdin.close()
    except OSError:
        pass  # it has ended; what it wrote tells


def run_all(commands, script, timeout=120):
    """Runs all of them at once."""
    with ThreadPoolExecutor(len(commands)) as pool:
        return list(pool.map(lambda command: run(command, script, timeout), commands))


def requests_of(script):
    """The requests of a script (bytes); a last line without a newline counts."""
    lines = script.split(b"\n")
    if lines[-1] == b"":
        lines.pop()
    return lines


def answers_of(requests, lines):
    """For each request the lines that answer it; an empty list where the program said no more.

    What is left over after the last request comes as one more answer.
    """
    answers = []
    at = 0
    for request in requests:
        count = 1
        if at < len(lines) and lines[at].startswith(b"list 0:") and request.split() == [b"lists"]:
            count = LINES_OF_LISTS
        elif at < len(lines) and lines[at].startswith(b"Order-00:") and request.split() == [b"print"]:
            count = LINES_OF_PRINT
        answers.append(lines[at : at + count])
        at += count
    answers.append(lines[at:])
    return answers


class Difference:
    """The first request that two programs answer differently."""

    def __init__(self, number, request, answers, endings):
        self.number = number  # of the line in the script, from 1
        self.request = request
        self.answers = answers
        self.endings = endings

    def show(self, names):
        lines = ["line %d: %s" % (self.number, shown(self.request))]
        for name, answer, ending in zip(names, self.answers, self.endings):
            lines.append("  %s:" % name)
            lines += ["    " + shown(line) for line in answer] or ["    (nothing)"]
            if ending is not None:
                lines.append("    (%s)" % ending)
        return "\n".join(lines)


def shown(line):
    text = line.decode("latin-1")
    text = "".join(c if 32 <= ord(c) < 127 else "\\x%02x" % ord(c) for c in text)
    return text if len(text) <= 300 else text[:300] + "... (%d bytes)" % len(line)


def first_difference(script, outcomes):
    """Where the outcomes first differ from the first of them, or None."""
    requests = requests_of(script)
    if all(outcome.lines == outcomes[0].lines and outcome.ending is None for outcome in outcomes):
        if len(outcomes[0].lines) >= len(requests):
            return None
    endings = [outcome.ending for outcome in outcomes]
    answers = [answers_of(requests, outcome.lines) for outcome in outcomes]
    for number, request in enumerate(requests + [b"(after the last request)"]):
        each = [answer[number] for answer in answers]
        if any(answer != each[0] for answer in each) or (each[0] == [] and number < len(requests)):
            return Difference(number + 1, request, each, endings)
    if any(ending is not None for ending in endings):
        return Difference(len(requests) + 1, b"(the end)", [[] for _ in outcomes], endings)
    return None
