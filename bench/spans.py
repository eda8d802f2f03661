#!/usr/bin/env -S python3 -B
"""Measures, in one run, by ratios, what reads of ten keys cost among many documents, beside ten finds by `_id`.

The ten keys are named by `$in`, or are a range. Wanted of each: at most 5 times as long as ten finds. Printed too, without a bound: a find of ten with `limit`
and no filter, and the first batch of all, which go through all documents.

The program is $CLUSTER, or the one that `cluster` builds, run with `pipe` in a new folder (in $SPEED_FOLDER, where that is given). Every reply is looked at,
after its time. Each figure is the median of the rounds. Ends with status 1 where a wanted bound does not hold, or a reply is wrong.
Usage: spans.py [DOCUMENTS]
"""
import pathlib
import statistics
import sys

# First, since the folder above has files of the same names, and these need theirs.
sys.path.insert(0, str(pathlib.Path(__file__).resolve().parent / "rows"))

from bson import DOCUMENT, fields_of
from queries import EACH, STEP, answered, check, counted
from speed import Link
from wire import message

ROUNDS, TEN, BOUND = 30, 10, 5


def small(number):
    return "{_id: %d, x: %d}" % (number, number)


def insert(numbers):
    return message(1, '{insert: "c", $db: "d"}', [("documents", [small(number) for number in numbers])]), counted(len(numbers))


def reading(fields, numbers):
    """A find with these fields beside its collection, and the documents that it returns."""
    return message(1, f'{{find: "c", {fields}, $db: "d"}}'), [(DOCUMENT, fields_of(small(number))) for number in numbers]


def took(link, asks):
    replies, seconds = answered(link, [request for request, _ in asks])
    for reply, (_, wanted) in zip(replies, asks):
        if wanted is not None:
            check(reply, wanted)
    return seconds


def main():
    count = int(sys.argv[1]) if len(sys.argv) > 1 else 1_000_000
    link = Link()
    for first in range(0, count, EACH):
        request, wanted = insert(range(first, first + EACH))
        check(link.ask(request), wanted)
    rows = {name: [] for name in ("ten finds", "$in", "range", "limit", "first batch")}
    for turn in range(ROUNDS):
        start = turn * STEP % (count - TEN)
        keys = sorted((turn + place) * STEP * 31 % count for place in range(TEN))
        ten = [reading(f"filter: {{_id: {key}}}", [key]) for key in keys]
        named = reading(f"filter: {{_id: {{$in: [{', '.join(map(str, keys))}]}}}}", keys)
        between = reading(f"filter: {{_id: {{$gte: {start}, $lt: {start + TEN}}}}}", range(start, start + TEN))
        rows["ten finds"].append(took(link, ten))
        rows["$in"].append(took(link, [named]))
        rows["range"].append(took(link, [between]))
        if turn < 3:
            rows["limit"].append(took(link, [(reading("limit: 10", [])[0], None)]))
            rows["first batch"].append(took(link, [(reading("batchSize: 101", [])[0], None)]))
    link.end()
    base = statistics.median(rows["ten finds"])
    print(f"spans: {count} documents; ten finds {1e6 * base:.0f} us")
    held = True
    for name, times in rows.items():
        ratio = statistics.median(times) / base
        wanted = f", at most {BOUND} wanted" if name in ("$in", "range") else ""
        held = held and (not wanted or ratio <= BOUND)
        print(f"spans: {name}: {ratio:.2f} times ten finds{wanted}")
    sys.exit(0 if held else 1)


if __name__ == "__main__":
    main()
