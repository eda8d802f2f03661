#!/usr/bin/env -S python3 -B
"""Runs the built program with little memory: a numbered insert, a find and a getMore by `pipe`, under limits of its address space, in steps of 64 kB from the
least with which it starts to the one with which all three are answered as with enough. Each run must end with status 0 or 7, and what is replied must be right:
146 where a node found no memory, 43 for a cursor that there is not then; a reply may be missing. Then, with enough memory, in the same folder, the same
numbered insert is sent again: its documents must be there once.

The program is $CLUSTER, or the one that `cluster` builds. Usage: bench/short_of_memory.py [STEPS]
"""
import collections
import os
import pathlib
import resource
import struct
import subprocess
import sys
import tempfile

sys.path.insert(0, str(pathlib.Path(__file__).resolve().parent / "rows"))

from bson import fields_of, read_fields, written
from inserts import built, entries, message

STEP = 64 << 10
TEXT = "x" * 100_000

SESSION = 'lsid: {id: UUID("000102030405060708090a0b0c0d0e0f")}, txnNumber: 1L'
ASKS = [
    f'{{insert: "c", documents: [{{_id: 1, t: "{TEXT}"}}, {{_id: 2, t: "{TEXT}"}}], ordered: false, {SESSION}, $db: "d"}}',
    '{find: "c", sort: {t: 1}, batchSize: 1, $db: "d"}',
    '{getMore: 1L, collection: "c", $db: "d"}',
]


def bytes_of(asks):
    return b"".join(message(number, written(fields_of(ask))) for number, ask in enumerate(asks, 1))


def run(program, folder, asks, limit=None):
    """The status of the program, and the fields of its replies."""
    def limited():
        if limit is not None:
            resource.setrlimit(resource.RLIMIT_AS, (limit, limit))
    try:
        ended = subprocess.run([program, "pipe"], cwd=folder, input=bytes_of(asks), capture_output=True, preexec_fn=limited, timeout=60)
    except subprocess.TimeoutExpired:
        return "hangs", []
    replies, at = [], 0
    while at < len(ended.stdout):
        length = struct.unpack_from("<i", ended.stdout, at)[0]
        replies.append(dict(read_fields(ended.stdout[at : at + length], 21)[0]))
        at += length
    return ended.returncode, replies


def codes_in(reply):
    """The codes of errors at the top and at statements."""
    found = [reply["code"][1]] if "code" in reply else []
    return found + [dict(error[1])["code"][1] for error in reply.get("writeErrors", (0, []))[1]]


def outcome(status, replies):
    """A word for what came of a run."""
    codes = sorted({code for reply in replies for code in codes_in(reply)})
    return f"status {status}, {len(replies)} replies" + (f", codes {' '.join(map(str, codes))}" if codes else "")


def checked(program, limit):
    """What came of a run with this limit, and whether it is wrong."""
    with tempfile.TemporaryDirectory() as folder:
        status, replies = run(program, folder, ASKS, limit)
        again, after = run(program, folder, [ASKS[0], '{find: "c", $db: "d"}'])
        stored = len(entries(pathlib.Path(folder, "node01.journal")))
        is_once = again == 0 and after[0].get("n") == (0x10, 2) and len(dict(after[1]["cursor"][1])["firstBatch"][1]) == 2 and stored == 2
        others = [code for reply in replies for code in codes_in(reply) if code not in (146, 43)]
        is_wrong = not is_once or bool(others) or status not in (0, 7)
        return outcome(status, replies) + (f"; then {outcome(again, after)}, {stored} entries: WRONG" if is_wrong else ""), is_wrong


def first_start(program):
    """The least limit, in whole MB, with which the program ends with a status of its own."""
    with tempfile.TemporaryDirectory() as folder:
        for megabytes in range(1, 4096):
            status, _ = run(program, folder, [], megabytes << 20)
            if status in (0, 7):
                return megabytes << 20
    sys.exit("the program does not start")


def main():
    program = os.environ.get("CLUSTER") or built()
    steps = int(sys.argv[1]) if len(sys.argv) > 1 else 400
    with tempfile.TemporaryDirectory() as folder:
        _, whole = run(program, folder, ASKS)
    limit, wrong, seen, last = first_start(program), 0, collections.Counter(), 0
    print(f"from {limit >> 20} MB on, in steps of 64 kB")
    for _ in range(steps):
        said, is_wrong = checked(program, limit)
        seen[said] += 1
        wrong += is_wrong
        last = last + 1 if said == outcome(0, whole) else 0
        if last == 10:
            break
        limit += STEP
    for said, count in sorted(seen.items()):
        print(f"{count:5} runs: {said}")
    print(f"{wrong} wrong")
    sys.exit(1 if wrong else 0)


main()
