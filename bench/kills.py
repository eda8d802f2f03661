#!/usr/bin/env -S python3 -B
"""Kills the built program while it serves inserts, starts it again on its files, and looks whether it has every write that was acknowledged, once.

The program is $CLUSTER, or the one that `cluster` builds, run in a temporary folder; it is killed by its process id. A round is some runs in one folder.
Each run first reads: the documents must be those that were acknowledged in all runs before, with at most the first ones of the request that was under way.
The read names the time of the last acknowledged write, since what is fresh is so in one run. Then the last acknowledged request is sent again, which must
be returned as it was, and the one under way, which must be done then. Both have a session and a transaction, as retried writes of drivers have. More
ordered inserts of three documents follow, by document sequence, under keys of several kinds, and after a number of replies, in the middle of a request or
while one is served, the program is killed. At the end of a round the shard's journal must hold just these documents, in order and each once, the
catalogue's the one collection, and the router's a life for each run.

    bench/kills.py [ROUNDS]
"""
import os
import pathlib
import random
import signal
import struct
import subprocess
import sys
import tempfile
import time

sys.path.insert(0, str(pathlib.Path(__file__).resolve().parent / "rows"))

from bson import fields_of, read_fields, written
from inserts import EACH, Run, built, document, documents_of, element, entries, kept, message, records, text

RUNS = 3


def session(request):
    """One of two sessions, in turn, so that a request is not older than the next in its session."""
    return document(element(0x05, "id", struct.pack("<iB", 16, 4) + bytes([request % 2] * 16)))


def numbered(request):
    """The bytes of an insert of the request's documents into d.c, in a transaction of its number."""
    number = [element(0x03, "lsid", session(request)), element(0x12, "txnNumber", struct.pack("<q", request))]
    body = document(element(0x02, "insert", text("c")), element(0x08, "ordered", b"\1"), *number, element(0x02, "$db", text("d")))
    return message(request, body, documents_of(request))


def found_after(at):
    """The bytes of a find of all documents of d.c, not before this time."""
    after = f"Timestamp({at >> 32}, {at & 0xFFFFFFFF})"
    return message(0, written(fields_of(f'{{find: "c", batchSize: 1000000, readConcern: {{afterClusterTime: {after}}}, $db: "d"}}')))


class Killed(Run):
    """A run that is killed."""

    def fields(self, bytes_):
        """The fields of the reply."""
        return dict(read_fields(self.ask(bytes_), 21)[0])

    def insert(self, request):
        """Sends an insert that must be acknowledged. Gives the time of the reply."""
        reply = self.fields(numbered(request))
        if reply.get("n") != (0x10, EACH) or "writeErrors" in reply:
            sys.exit(f"kills: request {request} got {reply}")
        return reply["operationTime"][1]

    def found(self, at):
        """The documents, each by its bytes."""
        reply = self.fields(found_after(at))
        if "cursor" not in reply:
            sys.exit(f"kills: a find after {at} got {reply}")
        cursor = dict(reply["cursor"][1])
        return [written(fields) for _, fields in cursor["firstBatch"][1]]

    def kill(self):
        time.sleep(random.uniform(0, random.choice([0.002, 0.03])))
        self.program.send_signal(signal.SIGKILL)
        self.program.wait()


def first_of(count):
    return [kept(number) for number in range(count)]


def checked_start(run, done, last):
    """What a run must have of the requests that were done, the last of them at this time. Gives how many documents of the next one it has too."""
    documents = run.found(last)
    over = len(documents) - done * EACH
    if not 0 <= over <= EACH or sorted(documents) != sorted(first_of(len(documents))):
        sys.exit(f"kills: {done * EACH} acknowledged, {len(documents)} found, or others")
    if run.insert(done - 1) != last:
        sys.exit(f"kills: request {done - 1} was returned otherwise when it was sent again")
    return over


def one_round(path, folder):
    """Runs of the program, each killed. Gives how many requests were acknowledged, and how many documents of the one under way each start found."""
    done, last, more = 0, None, []
    for number in range(RUNS):
        run = Killed(path, folder)
        if number:
            more.append(checked_start(run, done, last))
        for _ in range(random.randint(1, 60)):
            last, done = run.insert(done), done + 1
        run.send(numbered(done)[: random.choice([0, 20, 150, 10_000, 10_000])])
        run.kill()
    run = Killed(path, folder)
    more.append(checked_start(run, done, last))
    run.insert(done)
    run.kill()
    return done + 1, more


def fault_of(folder, requests):
    """What is wrong with the journals at the end, after so many requests."""
    held = entries(folder / "node01.journal")
    if len(held) != requests * EACH or any(kept(place) not in record for place, record in enumerate(held)):
        return f"{requests * EACH} acknowledged, {len(held)} entries, or others"
    lives = [record for record in records(folder / "node02.journal") if record[:2] == b"\1\x30"]
    if lives != [b"\1\x30" + struct.pack("<Q", number) for number in range(1, RUNS + 2)]:
        return f"the router has {len(lives)} lives, or others"
    return "" if len(records(folder / "node00.journal")) == 1 else "the catalogue does not hold the one collection"


def main():
    rounds = int(sys.argv[1]) if len(sys.argv) > 1 else 20
    path = os.environ.get("CLUSTER") or built()
    total, more = 0, [0] * (EACH + 1)
    for number in range(rounds):
        with tempfile.TemporaryDirectory() as folder:
            requests, over = one_round(path, folder)
            fault = fault_of(pathlib.Path(folder), requests)
        if fault:
            sys.exit(f"kills: round {number}: {fault}")
        total += requests * EACH
        for count in over:
            more[count] += 1
    told = ", ".join(f"{count} starts found {over} more" for over, count in enumerate(more) if over > 0)
    print(f"kills: {rounds} rounds of {RUNS + 1} runs, {total} acknowledged entries, all found, each once; {told}")


main()
