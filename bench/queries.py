#!/usr/bin/env -S python3 -B
"""Measures, in one run, by ratios, what queries, cursors and numbered inserts cost the built program.

Wanted of 20,000 documents against 2,000, at most 1.3 times each: a find by `_id`; an `$inc` by `_id`; an insert; and `getMore` for the second
and for the last batch of a list of all documents, in batches of 100. Wanted of a find by a field that is no key, which goes through 20,000
documents for one: at most 1.5 times PostgreSQL's sequential scan of the same values. They stand there in plain columns, the form that it
scans faster, so that the bound is the harder one; what the scan is against the same documents as jsonb is told besides, as are finds by
`_id`, `$inc` of one document and inserts of 1,000 against rows by their primary key, with synchronous commit. Wanted of numbered inserts
that are sent again, when all were answered: at most 0.2 times as long as at first, the same replies, and no byte more in the journals. They
are 1,000 messages of one statement, each of a session of its own; the same in one session, each sent again at once, as a driver does; and
one message of 1,000 statements. With $SPEED_SYNC_MS each sync takes so many milliseconds more, as in `speed.py`; then these alone are measured.

The program is $CLUSTER, or the one that `cluster` builds, run with `pipe` in a new folder (in $SPEED_FOLDER, where that is
given). Without PostgreSQL (`initdb`, `pg_ctl`, `psql`) its rows are left out, which is said. Clients, program and server share one
processor. Every reply is looked at, behind its time, but the batches between. Each figure is the best of some rounds; in these it is the mean
of a row of requests but the first, for which nothing is warm yet, and of reads the best of ten rows, of lists the best of ten. Few and many
documents are written and read in turn, so that both meet the same disk and the same moment of the machine; how many times as long it takes
among many is the median of all turns. Each row of reads stands behind one that is not counted, so that few documents are still in the
processor's caches where they fit, which makes the bound the harder one. Ends with status 1 where a wanted bound does not hold, or a reply
is wrong.
Usage: queries.py [ROUNDS]
"""
import collections
import functools
import os
import pathlib
import re
import statistics
import sys
import time

# First, since the folder above has files of the same names, and these need theirs.
sys.path.insert(0, str(pathlib.Path(__file__).resolve().parent / "rows"))

from bson import DOCUMENT, field, fields_of, int32, read_fields
from show import line
from speed import SYNC_MS, Link, Postgres, has_postgres, tell
from wire import message

MANY, FEW = 20_000, 2_000

# The documents of a message that loads them, and those of a batch.
EACH, BATCH = 1_000, 100

# How many requests are made in a row, of those for one document and of those that go through all; and how many such rows of reads in a round.
ASKS, SCANS, ROWS = 300, 5, 10

# Has no divisor in common with the numbers of documents, so that its multiples are spread over them all.
STEP = 7919

COLUMNS = "_id int primary key, name text, place int, n int, words text"


def values(number):
    """The values of the document of that number, in the order of the columns. No two of the first 20,000 have one place."""
    return number, f"entry number {number}", number * STEP % MANY, 0, "some words that fill it up"


def spelled(number):
    """That document, in the notation: some 100 bytes."""
    return '{_id: %d, name: "%s", place: %d, n: %d, words: "%s"}' % values(number)


def told(reply):
    """What a reply tells, but times: its documents, or else its fields."""
    fields, _ = read_fields(reply, 21)
    cursor = field(fields, "cursor")
    if cursor is None:
        return {name: value for name, value in fields if name != "operationTime"}
    return [content for name, (_, content) in cursor[1] if name in ("firstBatch", "nextBatch")][0]


def counted(number, **more):
    """What a write of so many statements is told."""
    return {"n": int32(number), "ok": int32(1), **more}


def insert(numbers, rest=""):
    """An insert of the documents of these numbers, and what it is to be told."""
    request = message(1, f'{{insert: "c", {rest}$db: "d"}}', [("documents", [spelled(number) for number in numbers])])
    return request, counted(len(numbers))


def find(number, name, value):
    """A find of the document of that number, by a field, and what it is to be told."""
    return message(1, f'{{find: "c", filter: {{{name}: {value}}}, $db: "d"}}'), [(DOCUMENT, fields_of(spelled(number)))]


def increase(number):
    """An `$inc` of the document of that number, and what it is to be told."""
    update = f"{{q: {{_id: {number}}}, u: {{$inc: {{n: 1}}}}}}"
    return message(1, f'{{update: "c", updates: [{update}], $db: "d"}}'), counted(1, nModified=int32(1))


@functools.cache
def loads(count):
    """The inserts of the first so many documents."""
    return [insert(range(number, number + EACH)) for number in range(0, count, EACH)]


def spread(count, asks):
    """So many numbers of documents, from everywhere among the first ones."""
    return [number * STEP % count for number in range(asks)]


def check(reply, wanted):
    if told(reply) != wanted:
        sys.exit(f"queries: a wrong reply: {line(reply)}")


def answered(link, requests):
    """The replies to these requests, and the seconds in which they came."""
    start = time.perf_counter()
    replies = [link.ask(request) for request in requests]
    return replies, time.perf_counter() - start


def each(link, asks):
    """Seconds for each of these requests but the first."""
    requests = [request for request, _ in asks]
    first = link.ask(requests[0])
    replies, took = answered(link, requests[1:])
    for reply, (_, wanted) in zip([first, *replies], asks):
        check(reply, wanted)
    return took / len(replies)


def in_turn(links, asks):
    """Seconds for each of these requests but the first, by the number of documents; they are made in turn, so that all meet the same disk."""
    listed, took = {count: asks(count) for count in links}, dict.fromkeys(links, 0.0)
    for number in range(ASKS):
        for count, link in links.items():
            request, wanted = listed[count][number]
            replies, seconds = answered(link, [request])
            check(replies[0], wanted)
            took[count] += seconds if number else 0.0
    return {count: seconds / (ASKS - 1) for count, seconds in took.items()}


def batches(link, count):
    """Seconds for the second batch of a list of all documents, and for the last."""
    opened = link.ask(message(1, f'{{find: "c", batchSize: {BATCH}, $db: "d"}}'))
    cursor = field(field(read_fields(opened, 21)[0], "cursor")[1], "id")[1]
    more = message(1, f'{{getMore: {cursor}L, collection: "c", batchSize: {BATCH}, $db: "d"}}')
    second, at_first = answered(link, [more])
    for _ in range(count // BATCH - 3):
        between = link.ask(more)
    last, at_last = answered(link, [more])
    for place, (reply, is_open) in enumerate(((opened, True), (second[0], True), (between, True), (last[0], False))):
        if len(told(reply)) != BATCH or (field(field(read_fields(reply, 21)[0], "cursor")[1], "id")[1] == cursor) != is_open:
            sys.exit(f"queries: a wrong batch: {line(reply)}")
    return at_first, at_last


class Best(dict):
    """The least seconds for each name; and of what is done in turn, among few documents and among many, each turn's ratio."""

    def __init__(self):
        super().__init__()
        self.turns = collections.defaultdict(list)

    def note(self, *name, seconds):
        self[name] = min(seconds, self.get(name, seconds))

    def note_turn(self, name, took):
        """Notes the seconds of one turn, by the number of documents."""
        for count, seconds in took.items():
            self.note(count, name, seconds=seconds)
        self.turns[name].append(took[MANY] / took[FEW])

    def ratio(self, one, other):
        return self[one] / self[other]


def reads(link, count):
    """Seconds for a row of reads of so many documents, by name."""
    second, last = batches(link, count)
    return {
        "the second batch of a list": second,
        "the last batch of a list": last,
        "a find by _id": each(link, [find(number, "_id", number) for number in spread(count, ASKS)]),
        "a find that scans": each(link, [find(number, "place", values(number)[2]) for number in spread(count, SCANS + 1)]),
    }


def read(link, count):
    """The same, behind a row that is not counted."""
    reads(link, count)
    return reads(link, count)


def measure(best):
    """One round of the program, among few documents and among many."""
    links = {count: Link() for count in (FEW, MANY)}
    for count, link in links.items():
        best.note(count, "inserts of 1,000", seconds=each(link, loads(count)))
    for _ in range(ROWS):
        rows = {count: read(link, count) for count, link in links.items()}
        for name in rows[FEW]:
            best.note_turn(name, {count: row[name] for count, row in rows.items()})
    best.note_turn("$inc by _id", in_turn(links, lambda count: [increase(number) for number in spread(count, ASKS)]))
    best.note_turn("an insert", in_turn(links, lambda count: [insert([number]) for number in range(count, count + ASKS)]))
    for link in links.values():
        link.end()


class Tables(Postgres):
    """The same values there, in a table of plain columns and in one of jsonb."""

    def each(self, statements):
        """Seconds for each of these statements but the first, by the server's client."""
        file = pathlib.Path(self.folder) / "statements"
        file.write_text("".join(f"{statement};\n" for statement in statements))
        shown = self.psql("\\set ON_ERROR_STOP on", "\\timing on", f"\\i {file}")
        took = [float(found) / 1000 for found in re.findall(r"^Time: ([\d.]+) ms", shown, re.M)]
        if len(took) != len(statements) or statements[0].startswith("select") and shown.count("(1 row)") != len(statements):
            sys.exit(f"queries: PostgreSQL was to be asked {len(statements)} times: {shown}")
        return sum(took[1:]) / (len(took) - 1)

    def scans(self, table, condition):
        """Seconds for each sequential scan for the row of one place."""
        selects = [f"select * from {table} where {condition % values(number)[2]}" for number in spread(MANY, SCANS + 1)]
        plan = self.psql(f"explain {selects[0]}")
        if f"Seq Scan on {table}" not in plan:
            sys.exit(f"queries: PostgreSQL does not scan: {plan}")
        return self.each(selects)

    def measure(self, best):
        """One round."""
        self.psql("drop table if exists columns, documents", f"create table columns ({COLUMNS})")
        rows = [",".join("(%d,'%s',%d,%d,'%s')" % values(number) for number in range(first, first + EACH)) for first in range(0, MANY, EACH)]
        best.note("there", "inserts of 1,000", seconds=self.each([f"insert into columns values {listed}" for listed in rows]))
        self.psql("create table documents as select _id, to_jsonb(columns) as document from columns", "vacuum analyze columns, documents")
        keys = spread(MANY, ASKS)
        for _ in range(ROWS):
            best.note("there", "a scan of columns", seconds=self.scans("columns", "place = %d"))
            best.note("there", "a scan of jsonb", seconds=self.scans("documents", "document -> 'place' = '%d'"))
            best.note("there", "a find by _id", seconds=self.each([f"select * from columns where _id = {key}" for key in keys]))
        best.note("there", "$inc by _id", seconds=self.each([f"update columns set n = n + 1 where _id = {key}" for key in keys]))


def tell_growth(best):
    """Whether nothing that touches few documents takes longer among many."""
    held = []
    for name in ("a find by _id", "$inc by _id", "an insert", "the second batch of a list", "the last batch of a list"):
        few, many, growth = best[FEW, name], best[MANY, name], statistics.median(best.turns[name])
        figure = f"{many * 1e6:.0f} us to {few * 1e6:.0f} us, {growth:.2f}"
        held.append(tell(f"{name} of {MANY:,} documents to one of {FEW:,}", figure, "at most 1.3", growth <= 1.3))
    return held


def tell_beside(best, rounds):
    """Whether a scan takes about as long as PostgreSQL's; tells the other ratios to it."""
    if not has_postgres():
        print("left out: all ratios to PostgreSQL, which is not found here")
        return []
    server = Tables()
    try:
        for _ in range(rounds):
            server.measure(best)
    finally:
        server.end()
    same = [(name, name) for name in ("a find by _id", "$inc by _id", "inserts of 1,000")]
    for name, other in (("a find that scans", "a scan of jsonb"), *same):
        print(f"told: {name} at {MANY:,} documents to {other} in PostgreSQL: {best.ratio((MANY, name), ('there', other)):.2f}")
    took, there = best[MANY, "a find that scans"], best["there", "a scan of columns"]
    figure = f"{took * 1000:.2f} ms to {there * 1000:.2f} ms, {took / there:.2f}"
    return [tell(f"a find that scans {MANY:,} documents to PostgreSQL's scan of columns", figure, "at most 1.5", took <= 1.5 * there)]


def appended(link):
    """The bytes of all journals."""
    return sum(path.stat().st_size for path in pathlib.Path(link.folder.name).glob("*.journal"))


def twice(asks, together):
    """Seconds for all these requests at first, and when they are sent again, each time behind so many."""
    link = Link()
    check(link.ask(insert([MANY])[0]), counted(1))
    at_first = again = 0
    for place in range(0, len(asks), together):
        requests = [request for request, _ in asks[place : place + together]]
        replies, took = answered(link, requests)
        for reply, (_, wanted) in zip(replies, asks[place:]):
            check(reply, wanted)
        at_first, size = at_first + took, appended(link)
        repeated, took = answered(link, requests)
        again += took
        # All but the number of the reply, which counts on.
        if [(reply[:4], reply[8:]) for reply in repeated] != [(reply[:4], reply[8:]) for reply in replies]:
            sys.exit(f"queries: another reply to an insert that was sent again: {line(repeated[0])}, at first {line(replies[0])}")
        if appended(link) != size:
            sys.exit(f"queries: NOT MET: {appended(link) - size} bytes were appended for inserts that were sent again")
    link.end()
    return at_first, again


def numbered(session, transaction):
    """The fields by which the statements of an insert are numbered."""
    return f'lsid: {{id: UUID("{session:032x}")}}, txnNumber: {transaction}L, '


def tell_again(best, rounds):
    """Whether numbered inserts that are sent again are answered in a part of the time."""
    kinds = [
        ("1,000 numbered inserts, each of its session,", [insert([number], numbered(number, 1)) for number in range(EACH)], EACH),
        ("1,000 numbered inserts of one session, each at once,", [insert([number], numbered(0, number)) for number in range(EACH)], 1),
        ("one message of 1,000 numbered inserts", [insert(range(EACH), numbered(0, 1))], 1),
    ]
    held = []
    for name, asks, together in kinds:
        for _ in range(rounds):
            at_first, again = twice(asks, together)
            best.note(name, "at first", seconds=at_first)
            best.note(name, "again", seconds=again)
        ratio = best.ratio((name, "again"), (name, "at first"))
        figure = f"{best[name, 'again'] * 1000:.2f} ms to {best[name, 'at first'] * 1000:.2f} ms, {ratio:.2f}"
        held.append(tell(f"{name} sent again to at first", figure, "at most 0.2", ratio <= 0.2))
    return held


def main():
    rounds = int(sys.argv[1]) if len(sys.argv) > 1 else 3
    os.sched_setaffinity(0, {max(os.sched_getaffinity(0))})
    best, held = Best(), []
    if not SYNC_MS:
        for _ in range(rounds):
            measure(best)
        held = tell_growth(best) + tell_beside(best, rounds)
    held += tell_again(best, rounds)
    sys.exit(0 if all(held) else 1)


if __name__ == "__main__":
    main()
