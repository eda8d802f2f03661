#!/usr/bin/env -S python3 -B
"""Measures how long the built program takes to start on journals with twice as many entries: at most 2.5 times as long.

The program is $CLUSTER, or the one that `cluster` builds, run with `pipe` in a temporary folder (in $SPEED_FOLDER, where that is given). It is sent inserts of
1,000 documents until its files have half of the entries, and is started again; then until they have all, and again. A run that is asked for nothing but a ping
is measured by its processor time, so that other work of the machine counts little; its time to the reply and its greatest resident memory are printed too.
Each figure is the best of some rounds. Ends with status 1 where the bound does not hold.

    bench/openings.py [ENTRIES [ROUNDS]]      200,000 entries and 3 rounds without arguments
"""
import os
import pathlib
import struct
import sys
import tempfile
import time

from inserts import Run, built, document, element, entries, message, text

MOST = 2.5
EACH = 1000


def insert(request):
    """An insert of 1,000 documents into d.c."""
    body = document(element(0x02, "insert", text("c")), element(0x02, "$db", text("d")))
    numbers = range(request * EACH, request * EACH + EACH)
    documents = [document(element(0x10, "_id", struct.pack("<i", number)), element(0x02, "text", text("x" * 40))) for number in numbers]
    return message(request, body, b"documents\0" + b"".join(documents))


PING = message(0, document(element(0x10, "ping", struct.pack("<i", 1)), element(0x02, "$db", text("d"))))


class Ended(Run):
    """A run that is ended by the end of its input."""

    def end(self):
        """Closes the input. Gives what the process used."""
        self.program.stdin.close()
        _, status, usage = os.wait4(self.program.pid, 0)
        self.program.returncode = status
        if status:
            sys.exit(f"openings: the program ended with {os.waitstatus_to_exitcode(status)}")
        return usage


def fill(path, folder, requests):
    run = Ended(path, folder)
    for request in requests:
        run.ask(insert(request))
    run.end()


def opening(path, folder, rounds):
    """Of the start that used the least: its processor time, its time to the reply, both in seconds, and its memory in megabytes."""
    starts = []
    for _ in range(rounds):
        began = time.monotonic()
        run = Ended(path, folder)
        run.ask(PING)
        took = time.monotonic() - began
        usage = run.end()
        starts.append((usage.ru_utime + usage.ru_stime, took, usage.ru_maxrss / 1024))
    return min(starts)


def told(entries_, start):
    used, took, memory = start
    return f"{entries_} entries {used:.2f} s of a processor, {took:.2f} s to the reply, {memory:.0f} MB"


def main():
    entries_wanted = int(sys.argv[1]) if len(sys.argv) > 1 else 200_000
    rounds = int(sys.argv[2]) if len(sys.argv) > 2 else 3
    path = os.environ.get("CLUSTER") or built()
    half = entries_wanted // EACH // 2
    with tempfile.TemporaryDirectory(dir=os.environ.get("SPEED_FOLDER")) as folder:
        fill(path, folder, range(half))
        few = opening(path, folder, rounds)
        fill(path, folder, range(half, 2 * half))
        many = opening(path, folder, rounds)
        held, size = len(entries(pathlib.Path(folder) / "node01.journal")), (pathlib.Path(folder) / "node01.journal").stat().st_size
    if held != 2 * half * EACH:
        sys.exit(f"openings: {held} entries are held")
    print(f"openings: {told(half * EACH, few)}; {told(held, many)}, in {size} bytes; {many[0] / few[0]:.2f} of {MOST}")
    sys.exit(0 if many[0] <= MOST * few[0] else 1)


main()
