#!/usr/bin/env -S python3 -B
"""Measures the most memory that one message takes in the built program, for messages made to take much of it.

Each message is sent to a program of its own (`cluster pipe`, in a new folder), its reply is read, and the program's greatest resident
size, less that of a program that answers one small message, is printed as a multiple of the message's bytes. Wanted: at most 40 times,
and at most 2 GB in all. The program is the first argument, $CLUSTER, or the one that `cluster` builds. Messages have about as many
megabytes as the second argument says, 4 if there is none, and 47 at most; inserted documents share them where one can't have them all. Names
of messages choose some of them. Ends with status 1 where a message takes more than is wanted, or the program ends before its reply.
Usage: memory.py [PROGRAM] [MEGABYTES] [NAME..]
"""
import os
import struct
import subprocess
import sys
import tempfile

from inserts import built, document, element, text

MOST_TIMES, MOST_BYTES = 40, 2_000_000_000

# The most bytes of a document that is kept, less what is beside the fields that fill it.
DOCUMENT = 16_777_216 - 200

# How many levels a document has at most, and how many are in the one below `_id`.
LEVELS = 99


def int32(number):
    return struct.pack("<i", number)


def message(body, sequences=()):
    """An OP_MSG message of a body, and of document sequences."""
    rest = struct.pack("<iiii", 7, 0, 2013, 0) + b"\0" + body
    for name, documents in sequences:
        sequence = name + b"\0" + b"".join(documents)
        rest += b"\1" + int32(len(sequence) + 4) + sequence
    return int32(len(rest) + 4) + rest


def command(*elements):
    return document(*elements, element(0x02, "$db", text("d")))


def shares(size, least=1):
    """A size in parts that documents may have."""
    count = max(least, -(-size // DOCUMENT))
    return [size // count] * count


def insert(documents):
    return message(command(element(0x02, "insert", text("c"))), [(b"documents", documents)])


def insert_of(size, part):
    """Inserts of documents filled by a part again and again."""
    documents = []
    for number, share in enumerate(shares(size)):
        documents.append(document(element(0x10, "_id", int32(number)), part * (share // len(part))))
    return insert(documents)


def nested(levels, first=b""):
    """A document of so many levels, whose names are empty, with these fields first in each."""
    inner = document()
    for _ in range(levels - 1):
        inner = document(first, element(0x03, "", inner))
    return inner


def filled(size, part):
    """A document filled by a part."""
    return document(part * (size // len(part)))


def find(filter_):
    return message(command(element(0x02, "find", text("c")), element(0x03, "filter", filter_)))


def numbered(size, make):
    """Parts made of numbers, until they have so many bytes."""
    parts, length, number = [], 0, 0
    while length < size:
        part = make(number)
        parts.append(part)
        length += len(part)
        number += 1
    return parts


def array(elements):
    """An array whose values all have an empty name, which is not looked at."""
    return document(b"".join(elements))


def aggregate(stages):
    return message(command(element(0x02, "aggregate", text("c")), element(0x04, "pipeline", array(stages)), element(0x03, "cursor", document())))


def updates(size, change):
    """Upserts of one change by as many keys as there is space for, at most 100,000."""
    return message(command(element(0x02, "update", text("c"))), [(b"updates", numbered(size, lambda number: update(key(number), change))[:100_000])])


def one_update(filter_, change):
    return message(command(element(0x02, "update", text("c"))), [(b"updates", [update(filter_, change)])])


def update(filter_, change):
    return document(element(0x03, "q", filter_), element(0x03, "u", change), element(0x08, "upsert", b"\1"))


def key(number):
    return document(element(0x10, "_id", int32(number)))


def deletion(number):
    return document(element(0x03, "q", key(number)), element(0x10, "limit", int32(1)))


def ones(size):
    """A document of fields with names of their own, each 1."""
    return document(*numbered(size, lambda number: element(0x10, f"{number:x}x", int32(1))))


def wide(number, fields):
    return document(element(0x10, "_id", int32(number)), fields)


def short(size, fields):
    """Documents with these fields, at most 100,000."""
    return numbered(size, lambda number: wide(number, fields))[:100_000]


def tested(operator, values):
    """A filter by an operator that takes an array."""
    return document(element(0x03, "a", document(element(0x04, operator, array(values)))))


def stage(name, operand):
    return element(0x03, "", document(element(0x03, name, operand)))


def times(size, part):
    return [part] * (size // len(part))


def group(size, accumulator):
    """A stage with many fields of one accumulator."""
    return stage("$group", document(element(0x0A, "_id", b""), *numbered(size, lambda number: element(0x03, f"{number:x}x", accumulator))))


def nested_and(levels):
    inner = document(element(0x0A, "a", b""))
    for _ in range(levels):
        inner = document(element(0x04, "$and", document(element(0x03, "", inner))))
    return element(0x04, "$and", document(element(0x03, "", inner)))


MESSAGES = {
    # documents that are inserted
    "documents nested deep": lambda size: insert_of(size, element(0x03, "", nested(LEVELS - 1))),
    "documents nested deep behind a null": lambda size: insert_of(size, element(0x03, "", nested(LEVELS - 1, element(0x0A, "", b"")))),
    "short documents nested deep": lambda size: insert(short(size, element(0x03, "", nested(LEVELS - 1)))),
    "arrays nested deep": lambda size: insert_of(size, element(0x04, "", nested(LEVELS - 1).replace(b"\3", b"\4"))),
    "nulls": lambda size: insert_of(size, element(0x0A, "", b"")),
    "an array of nulls": lambda size: insert_of(size, element(0x04, "", array([element(0x0A, "", b"")] * 50_000))),
    "empty documents": lambda size: insert_of(size, element(0x03, "", document())),
    "documents of one null": lambda size: insert_of(size, element(0x03, "", document(element(0x0A, "", b"")))),
    "documents of two nulls": lambda size: insert_of(size, element(0x03, "", document(element(0x0A, "", b"") * 2))),
    "documents of nine nulls": lambda size: insert_of(size, element(0x03, "", document(element(0x0A, "", b"") * 9))),
    "documents of 33 nulls": lambda size: insert_of(size, element(0x03, "", document(element(0x0A, "", b"") * 33))),
    "arrays of one null": lambda size: insert_of(size, element(0x04, "", document(element(0x0A, "", b"")))),
    "arrays of 33 nulls": lambda size: insert_of(size, element(0x04, "", document(element(0x0A, "", b"") * 33))),
    "texts of 31 bytes": lambda size: insert_of(size, element(0x02, "", text("x" * 31))),
    "names of 16 bytes": lambda size: insert_of(size, element(0x0A, "x" * 16, b"")),
    "binaries of one byte": lambda size: insert_of(size, element(0x05, "", b"\1\0\0\0\0x")),
    "one text": lambda size: insert([wide(number, element(0x02, "a", text("x" * share))) for number, share in enumerate(shares(size))]),
    "100,000 documents": lambda size: insert([wide(number, element(0x02, "a", text("x" * (size // 100_000 - 30)))) for number in range(100_000)]),
    "100,000 documents of a key": lambda size: insert([wide(number, b"") for number in range(100_000)]),
    # filters
    "a filter of nulls": lambda size: find(filled(size, element(0x0A, "a", b""))),
    "a filter of numbers": lambda size: find(filled(size, element(0x10, "a", int32(1)))),
    "a filter of $gt": lambda size: find(filled(size, element(0x03, "a", document(element(0x10, "$gt", int32(1)))))),
    "a filter of $exists": lambda size: find(filled(size, element(0x03, "a", document(element(0x08, "$exists", b"\1"))))),
    "paths of two parts": lambda size: find(filled(size, element(0x0A, "a.a", b""))),
    "paths of five parts": lambda size: find(filled(size, element(0x0A, "a.a.a.a.a", b""))),
    "paths of 100 parts": lambda size: find(filled(size, element(0x0A, ".".join(["a"] * 100), b""))),
    "a filter of empty documents": lambda size: find(filled(size, element(0x03, "a", document()))),
    "$or of nulls": lambda size: find(document(element(0x04, "$or", array(times(size, element(0x03, "", document(element(0x0A, "a", b"")))))))),
    "$or of five nulls each": lambda size: find(document(element(0x04, "$or", array(times(size, element(0x03, "", document(element(0x0A, "a", b"") * 5))))))),
    "$or of empty filters": lambda size: find(document(element(0x04, "$or", array(times(size, element(0x03, "", document())))))),
    "$and nested deep": lambda size: find(document(*times(size, nested_and(40)))),
    "$in of nulls": lambda size: find(tested("$in", times(size, element(0x0A, "", b"")))),
    "$in of empty documents": lambda size: find(tested("$in", times(size, element(0x03, "", document())))),
    "$in of keys": lambda size: find(document(element(0x03, "_id", document(element(0x04, "$in", array(
        numbered(size, lambda number: element(0x10, "", int32(number))))))))),
    "lists of one null": lambda size: find(filled(size, element(0x03, "a", document(element(0x04, "$in", array([element(0x0A, "", b"")])))))),
    "$all of nulls": lambda size: find(tested("$all", times(size, element(0x0A, "", b"")))),
    "$not of $ne": lambda size: find(filled(size, element(0x03, "a", document(element(0x03, "$not", document(element(0x0A, "$ne", b""))))))),
    "tests of one path": lambda size: find(document(element(0x03, "a", filled(size, element(0x0A, "$ne", b""))))),
    "equality with a document of nulls": lambda size: find(document(element(0x03, "a", filled(size, element(0x0A, "", b""))))),
    "equality with one text": lambda size: find(document(element(0x02, "a", text("x" * size)))),
    "a count by nulls": lambda size: message(command(element(0x02, "count", text("c")), element(0x03, "query", filled(size, element(0x0A, "a", b""))))),
    "a projection": lambda size: message(command(element(0x02, "find", text("c")), element(0x03, "projection", ones(size)))),
    # pipelines
    "$match of nulls": lambda size: aggregate([stage("$match", filled(size, element(0x0A, "a", b"")))]),
    "$match of numbers": lambda size: aggregate([stage("$match", filled(size, element(0x10, "a", int32(1))))]),
    "1,000 stages of $match": lambda size: aggregate([stage("$match", filled(size // 1000, element(0x0A, "a", b"")))] * 1000),
    "too many stages": lambda size: aggregate(times(size, stage("$match", document()))),
    "$project": lambda size: aggregate([stage("$project", ones(size))]),
    "$group by many keys": lambda size: aggregate([stage("$group", document(element(0x03, "_id", document(
        *numbered(size, lambda number: element(0x02, f"{number:x}x", text("$a")))))))]),
    "$group with many sums": lambda size: aggregate([group(size, document(element(0x10, "$sum", int32(1))))]),
    "$group with many counts": lambda size: aggregate([group(size, document(element(0x03, "$count", document())))]),
    # updates and deletes
    "upserts": lambda size: updates(size, document(element(0x03, "$set", document(element(0x10, "a", int32(1)))))),
    "upserts by nulls": lambda size: one_update(filled(size, element(0x0A, "a", b"")), document(element(0x03, "$set", document(element(0x10, "a", int32(1)))))),
    "deletes": lambda size: message(command(element(0x02, "delete", text("c"))), [(b"deletes", numbered(size, deletion)[:100_000])]),
}


def run(program, request):
    """The program's greatest resident size for one message, in bytes, and what it replied."""
    with tempfile.TemporaryDirectory(dir=os.environ.get("SPEED_FOLDER")) as folder:
        started = subprocess.Popen([program, "pipe"], cwd=folder, stdin=subprocess.PIPE, stdout=subprocess.PIPE, stderr=subprocess.DEVNULL)
        reply = b""
        try:
            started.stdin.write(request)
            started.stdin.flush()
            head = started.stdout.read(4)
            if len(head) == 4:
                reply = head + started.stdout.read(struct.unpack("<i", head)[0] - 4)
        except BrokenPipeError:
            pass
        most = greatest(started.pid)
        started.communicate()
        return most, reply


def greatest(process):
    """The greatest resident size that a running process had, in bytes. That of its children's usage would count its parent's, too."""
    with open(f"/proc/{process}/status") as status:
        return next((int(line.split()[1]) * 1024 for line in status if line.startswith("VmHWM:")), 0)


def refusal(reply):
    """The name of the error that a reply tells, or of its first write error."""
    at = reply.find(b"\x02codeName\0")
    if at >= 0:
        length = struct.unpack_from("<i", reply, at + 10)[0]
        return reply[at + 14 : at + 13 + length].decode()
    at = reply.find(b"\x10code\0")
    if at >= 0:
        return f"code {struct.unpack_from('<i', reply, at + 6)[0]}"
    return "ok" if reply else "no reply"


def main():
    words = sys.argv[1:]
    program = words[0] if words else os.environ.get("CLUSTER") or built()
    program = os.path.abspath(program)
    size = int(float(words[1]) * 1_000_000) if len(words) > 1 else 4_000_000
    names = words[2:] or list(MESSAGES)
    least, _ = run(program, message(command(element(0x10, "ping", int32(1)))))
    held = True
    for name in names:
        request = MESSAGES[name](size)
        most, reply = run(program, request)
        times_ = (most - least) / len(request)
        holds = times_ <= MOST_TIMES and most <= MOST_BYTES and reply != b""
        held = held and holds
        print(f"{'ok' if holds else 'NOT MET'}: {name}: {len(request) / 1e6:.1f} MB, {most / 1e6:.0f} MB, {times_:.1f} times ({refusal(reply)})", flush=True)
    sys.exit(0 if held else 1)


if __name__ == "__main__":
    main()
