#!/usr/bin/env -S python3 -B
"""How many acknowledged inserts a second 1, 8 and 64 links get of `cluster serve` together, in one run, beside the syncs that the same disk allows.

Each link sends its next insert once it has the reply to the last. Letters that wait for a node are taken together, with one append, so that many links share
the syncs of the disk. Wanted: 64 links get at least 8 times what one gets, on a disk whose sync takes about a millisecond or more. Where it takes less than
0.5 ms the processor counts more than the disk: then the ratio is printed and not judged. The disk is that of $GROUP_FOLDER, or of the folder for temporary
files; its syncs are what they are, and what one costs is printed, before and after. At the end the journal has each acknowledged insert, once. Clients are in
one thread of this process. Ends with status 1 where something does not hold.

    bench/group_commit.py [PROGRAM] [SECONDS]
"""
import os
import pathlib
import re
import selectors
import struct
import sys
import tempfile
import time

from inserts import document, element, text
from served import Checks, Link, Server, entries, program_of

PROGRAM, WORDS = program_of(sys.argv[1:])
SECONDS = float(WORDS[0]) if WORDS else 5
FOLDER = os.environ.get("GROUP_FOLDER")
LINKS = (1, 8, 64)
WANTED = 8
SLOW = 0.0005
WROTE = "{n: 1, ok: 1, operationTime: <time>}"
checks = Checks("group_commit")


def insert(number):
    """An insert of one document, whose key is the number, into d.c."""
    body = document(element(0x02, "insert", text("c")), element(0x02, "$db", text("d")))
    sequence = b"documents\0" + document(element(0x10, "_id", struct.pack("<i", number)))
    rest = struct.pack("<iii", number, 0, 2013) + struct.pack("<i", 0) + b"\0" + body + b"\1" + struct.pack("<i", len(sequence) + 4) + sequence
    return struct.pack("<i", len(rest) + 4) + rest


def sync_cost(folder, count=200):
    """Seconds of one append of 100 bytes with its sync."""
    with tempfile.NamedTemporaryFile(dir=folder, buffering=0) as file:
        began = time.perf_counter()
        for _ in range(count):
            file.write(b"x" * 100)
            os.fsync(file.fileno())
        return (time.perf_counter() - began) / count


class Writer(Link):
    """A link that writes one document after another, and the reply that it has in part."""

    def __init__(self, port):
        super().__init__(port)
        self.part, self.asked = b"", 0.0

    def ask_next(self, number):
        self.asked = time.perf_counter()
        self.socket.sendall(insert(number))

    def taken(self):
        """The reply that is whole now, or nothing."""
        got = self.socket.recv(65536)
        if not got:
            sys.exit("group_commit: a link ended")
        self.part += got
        if len(self.part) < 4 or len(self.part) < struct.unpack_from("<i", self.part)[0]:
            return None
        whole, self.part = self.part, b""
        return whole


def named(links):
    return "1 link" if links == 1 else f"{links} links"


def writes(running):
    """How many calls that write a file the server has made: two an append. What goes to a connection is sent by another call."""
    return int(re.search(r"syscw: (\d+)", pathlib.Path(f"/proc/{running.process.pid}/io").read_text())[1])


def without_time(reply):
    """A reply without its header and the time at its end."""
    return reply[16:-9]


def rate(port, links, first, like):
    """How many inserts a second so many links get acknowledged together, how many in all, and the longest wait for a reply, in seconds."""
    writers, number, done, wrong, longest = [Writer(port) for _ in range(links)], first, 0, 0, 0.0
    with selectors.DefaultSelector() as ready:
        for it in writers:
            ready.register(it.socket, selectors.EVENT_READ, it)
            it.ask_next(number)
            number += 1
        began, waiting = time.perf_counter(), links
        while waiting:
            for key, _ in ready.select():
                reply = key.data.taken()
                if reply is None:
                    continue
                done, waiting, now = done + 1, waiting - 1, time.perf_counter()
                wrong += without_time(reply) != like
                longest = max(longest, now - key.data.asked)
                if now < began + SECONDS:
                    key.data.ask_next(number)
                    number, waiting = number + 1, waiting + 1
        took = time.perf_counter() - began
    for it in writers:
        it.close()
    checks.compare(f"the replies to {named(links)}", wrong, 0)
    return done / took, done, longest


def measure(folder):
    running = Server(PROGRAM, folder)
    try:
        with Link(running.port) as link:
            checks.compare("the first insert", link.ask('{insert: "c", documents: [{_id: -1}], $db: "d"}'), WROTE)
        with Writer(running.port) as writer:
            writer.ask_next(0)
            like = None
            while like is None:
                like = writer.taken()
        first, told = 1, {}
        for links in LINKS:
            before = writes(running)
            a_second, done, longest = rate(running.port, links, first, without_time(like))
            told[links] = a_second, 2 * done / (writes(running) - before), longest
            first += done
        checks.compare("the journal has each insert, once", len(entries(running.folder / "node01.journal")), first + 1)
        return told
    finally:
        running.kill()


def main():
    with tempfile.TemporaryDirectory(dir=FOLDER) as folder:
        before = sync_cost(folder)
        told = measure(folder)
        after = sync_cost(folder)
    cost = (before + after) / 2
    print(f"told: a sync took {before * 1000:.2f} ms before and {after * 1000:.2f} ms after")
    for links, (a_second, together, longest) in told.items():
        ratio, each = a_second / told[1][0], a_second * cost
        print(f"told: {named(links)}: {a_second:.0f} a second, {ratio:.2f} times one; {together:.1f} an append, {each:.2f} in the time of a sync")
        print(f"told: the longest wait for a reply with {named(links)}: {longest * 1000:.0f} ms")
    reached = told[64][0] / told[1][0]
    if min(before, after) < SLOW:
        print(f"told: 64 links to one: {reached:.1f}; not judged, since a sync takes less than {SLOW * 1000} ms")
    else:
        checks.compare(f"64 links to one: {reached:.1f} of {WANTED} at least", reached >= WANTED, True)
    checks.end()


main()
