#!/usr/bin/env -S python3 -B
"""Measures what one more request costs a router of the built program that has many open ones.

Wanted: with 10,000 open requests one more takes at most 1.5 times as long as with 1,000.

The program is $CLUSTER, or the one that `cluster` builds, run as `sim` with one shard (docs/SCRIPTS.md). Requests are finds by `_id`, of a
collection whose table the router knows, so that each sends one `ReadAsk` and is open until its rows arrive. The shard's rows for the first
finds were sent before the others were taken. A find is taken and the rows of the earliest arrive, which is answered, so that as many are open
as before. (The last to come can't be measured so: `sim` itself looks for a message among all that were sent before it.)

Lines are written a hundred finds at once, so that no figure is of how long a process takes to wake. Every reply is looked at, behind its time.
Each figure is the least of some rounds. Ends with status 1 where the bound does not hold, or a reply is wrong.
Usage: open_requests.py [ROUNDS]
"""
import os
import pathlib
import subprocess
import sys
import tempfile
import time

# First, since the folder above has files of the same names, and these need theirs.
sys.path.insert(0, str(pathlib.Path(__file__).resolve().parent / "rows"))

from bson import DOCUMENT, field, fields_of, read_fields
from inserts import built
from show import line
from wire import message

FEW, MANY, BOUND = int(os.environ.get("OPEN_FEW", "1000")), int(os.environ.get("OPEN_MANY", "10000")), 1.5

# Finds of which one time is taken, and how often it is taken in one run. Their lines fit into a pipe.
ASKS, PARTS = min(100, FEW // 10), 5

SHARD, ROUTER = 1, 2

ENTRY = "{_id: 1, n: 1}"


def client(command, number=1):
    return f"client 0 {message(number, command).hex()}"


FIND = client('{find: "c", filter: {_id: 1}, $db: "d"}')

# Afterwards the router knows the table.
BEGINS = [client('{insert: "c", documents: [%s], $db: "d"}' % ENTRY), "settle"]


def run(program, folder):
    return subprocess.Popen([program, "sim", "--shards", "1"], cwd=folder, stdin=subprocess.PIPE, stdout=subprocess.PIPE)


def received(program, node):
    """How many messages were sent to a node by then: the first that can't be delivered."""
    count = 0
    while True:
        with tempfile.TemporaryDirectory(dir=os.environ.get("SPEED_FOLDER")) as folder:
            sim = run(program, folder)
            sim.communicate("".join(f"{it}\n" for it in [*BEGINS, f"deliver {node} {count}"]).encode())
        if sim.returncode == 9:
            return count
        if sim.returncode != 0:
            sys.exit(f"open_requests: status {sim.returncode}")
        count += 1


def check(reply):
    """Ends the measurement where a reply does not have the one document."""
    cursor = field(read_fields(reply, 21)[0], "cursor")
    if cursor is None or field(cursor[1], "firstBatch")[1] != [(DOCUMENT, fields_of(ENTRY))]:
        sys.exit(f"open_requests: a wrong reply: {line(reply)}")


class Sim:
    """A script that is written line by line, in a folder of its own. Counts the messages to the shard and to the router."""

    def __init__(self, program, counts):
        self.folder = tempfile.TemporaryDirectory(dir=os.environ.get("SPEED_FOLDER"))
        self.program = run(program, self.folder.name)
        self.counts = dict(counts)
        self.play(BEGINS)
        self.reply()

    def play(self, lines):
        self.program.stdin.write("".join(f"{it}\n" for it in lines).encode())
        self.program.stdin.flush()

    def reply(self):
        words = self.program.stdout.readline().split()
        if len(words) != 3 or words[0] != b"reply":
            sys.exit(f"open_requests: no reply: {words}")
        return bytes.fromhex(words[2].decode())

    def deliver(self, node):
        """The line for the next message to a node, which will have been sent by then."""
        self.counts[node] += 1
        return f"deliver {node} {self.counts[node] - 1}"

    def hold(self, count):
        """So many finds stay open: one message each, to the shard."""
        for _ in range(count):
            self.play([FIND])
        self.counts[SHARD] += count

    def answered(self, lines, count):
        """Plays lines that make so many replies. Gives the seconds for each."""
        start = time.perf_counter()
        self.play(lines)
        replies = [self.reply() for _ in range(count)]
        took = time.perf_counter() - start
        for reply in replies:
            check(reply)
        return took / count

    def served(self):
        """Lines for a find that the shard serves: its request, and the half that the shard sends to itself."""
        return [FIND, self.deliver(SHARD), self.deliver(SHARD)]

    def end(self, took):
        self.program.stdin.close()
        self.program.stdout.close()
        if self.program.wait() != 0:
            sys.exit(f"open_requests: status {self.program.returncode}")
        self.folder.cleanup()
        return took


def first(program, counts, is_open):
    """Seconds for one more find, where the first of so many is answered."""
    sim = Sim(program, counts)
    for _ in range(PARTS * ASKS + 1):
        sim.play(sim.served())
    sim.hold(is_open - PARTS * ASKS)
    sim.answered([sim.deliver(ROUTER)], 1)
    return sim.end(min(sim.answered([it for _ in range(ASKS) for it in (FIND, sim.deliver(ROUTER))], ASKS) for _ in range(PARTS)))


def main():
    rounds = int(sys.argv[1]) if len(sys.argv) > 1 else 3
    program = os.environ.get("CLUSTER") or built()
    counts = {node: received(program, node) for node in (SHARD, ROUTER)}
    few = min(first(program, counts, FEW) for _ in range(rounds)) * 1e6
    many = min(first(program, counts, MANY) for _ in range(rounds)) * 1e6
    print(f"one more request, the first is answered: {few:.1f} us with {FEW} open, {many:.1f} us with {MANY}: {many / few:.2f} of {BOUND}")
    if many > BOUND * few:
        sys.exit(1)


if __name__ == "__main__":
    main()
