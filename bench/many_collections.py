#!/usr/bin/env -S python3 -B
"""Measures, in one run, what a find of one document by `_id` costs the built program among 10,000 collections, beside one collection.

Wanted: at most 1.5 times as long, in the collection that was created last and in ones from everywhere among the first. Told without a bound: the
first insert into a new collection, which creates it, among 10,000 collections to among few.

The program is $CLUSTER, or the one that `cluster` builds, run with `pipe` in new folders (in $SPEED_FOLDER, where that is given). Clients and programs
share one processor. The same requests are made in turn to a program with few collections and to one with many, so that both meet the same moment of the
machine. Every reply is looked at. A figure is the mean of a row of requests but the first; how many times as long it takes among many is the median of all
rounds. Ends with status 1 where the bound does not hold, or a reply is wrong. Usage: many_collections.py [ROUNDS]
"""
import os
import statistics
import sys
import time

from inserts import document, element, message, text
from speed import Link, int32, small, tell

MANY, FEW = 10_000, 1

# How many finds, and how many new collections, are in a row.
FINDS, CREATIONS = 300, 30

# Has no divisor in common with the number of collections, so that its multiples are spread over them all.
STEP = 7919


def named(number):
    """The name of the collection of that number: of one length, as the names of the few are."""
    return f"collection_{number:06}"


def insert(number):
    """The insert of one document into the collection of that number, and bytes that its reply has."""
    body = document(element(0x02, "insert", text(named(number))), element(0x02, "$db", text("d")))
    return message(number, body, b"documents\0" + small(number)), element(0x10, "n", int32(1)) + element(0x10, "ok", int32(1))


def find(number):
    """The find of the document in the collection of that number, and bytes that its reply has."""
    wanted = document(element(0x10, "_id", int32(number)))
    body = document(element(0x02, "find", text(named(number))), element(0x03, "filter", wanted), element(0x02, "$db", text("d")))
    return message(number, body), element(0x03, "0", small(number))


def took(link, request, wanted):
    """Seconds of one request, whose reply has to have these bytes."""
    start = time.perf_counter()
    reply = link.ask(request)
    seconds = time.perf_counter() - start
    if wanted not in reply:
        sys.exit(f"many_collections: a wrong reply: {reply.hex()}")
    return seconds


def loaded(count):
    """A program with so many collections, of one document each."""
    link = Link()
    for number in range(count):
        took(link, *insert(number))
    return link


def ratio(few, many, pairs):
    """How many times as long the second of each pair of requests takes at the program with many, in the mean, as the first at the one with few."""
    times = [(took(few, *one), took(many, *other)) for one, other in pairs][1:]
    return sum(other for _, other in times) / sum(one for one, _ in times)


def main():
    rounds = int(sys.argv[1]) if len(sys.argv) > 1 else 5
    os.sched_setaffinity(0, {max(os.sched_getaffinity(0))})
    few, many = loaded(FEW), loaded(MANY)
    last, spread, created = [], [], []
    for _ in range(rounds):
        last.append(ratio(few, many, [(find(0), find(MANY - 1))] * FINDS))
        spread.append(ratio(few, many, [(find(0), find(number * STEP % MANY)) for number in range(FINDS)]))
    for turn in range(rounds):
        new = range(turn * CREATIONS, (turn + 1) * CREATIONS)
        created.append(ratio(few, many, [(insert(FEW + number), insert(MANY + number)) for number in new]))
    few.end()
    many.end()
    held = []
    for name, ratios in (("the last", last), ("any", spread)):
        figure = statistics.median(ratios)
        held.append(tell(f"a find in {name} of {MANY} collections to one in the only one", f"{figure:.2f}", "at most 1.5", figure <= 1.5))
    print(f"an insert that creates a collection, among {MANY} to among few: {statistics.median(created):.2f} (no bound)")
    sys.exit(0 if all(held) else 1)


if __name__ == "__main__":
    main()
