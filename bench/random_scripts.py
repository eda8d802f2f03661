#!/usr/bin/env -S python3 -B
"""Plays random scripts on the built program, and looks whether its journals tell one history that explains every reply.

Scripts have one to three shards and clients of one to four routers, moments, messages held back by kind, delivered late or again, links that are closed by
bytes that are no request, retries of numbered writes by other routers, and collections that are created and split. Of what the program printed and of what its
journals hold, read by the account of the formats in rows/, it checks:

- the shard's entries rise in time, no two have one number, and each has the outcome of its operation on what the entries before it left;
- each write's reply shows the entry of each statement, or 225 where its session has a greater transaction; after the first error of an ordered write
  under a number of the router's own nothing was applied;
- the catalogue's changes rise in time, and each was requested; a collection is created once, and split where no chunk begins; each table of the shard is
  what the first so many of them make, each longer than the last;
- what a reply says of a collection or a chunk was so by its time, and 118 comes only where no earlier reply showed the collection;
- the other shards store nothing; 72 comes only for a time that is above the greatest one that it names, which is not before what its router returned earlier;
- each read at T is the answer of its pipeline on the entries up to T, and T is not before what its router returned earlier, nor above all entries and
  ceilings of the shard, or, of a name that was never created, all ceilings of the catalogue;
- each request has one reply at most, and has one at the end, where its link is still open.

    bench/random_scripts.py PROGRAM [SCRIPTS] [SEED]
"""
import pathlib
import random
import struct
import subprocess
import sys
import tempfile

sys.path.insert(0, str(pathlib.Path(__file__).resolve().parent / "rows"))

from bson import DOCUMENT, STRING, doc, field, read_fields, shown, time  # noqa: E402
from changing import applied, key_of  # noqa: E402
from cluster import begins_at, split_at, write_error  # noqa: E402
from commands import CHUNKS, stages_of  # noqa: E402
from inserts import records  # noqa: E402
from order import order_of  # noqa: E402
from pipelines import Ambiguous, answer  # noqa: E402
from random_lines import Script  # noqa: E402
from records import WHOLE, table_record  # noqa: E402


class Wrong(Exception):
    pass


def want(holds, text):
    if not holds:
        raise Wrong(text)


# the journals


class Entry:
    """An entry of the shard's journal."""

    def __init__(self, record):
        self.time, length = struct.unpack_from("<QI", record, 2)
        self.namespace, at = record[14 : 14 + length].decode(), 14 + length
        width = 17 if record[at] == 0 else 21
        self.session = record[at + 1 : at + 17] if record[at] == 0 else struct.unpack_from("<IQQ", record, at + 1)
        self.transaction, self.index = struct.unpack_from("<qI", record, at + width)
        self.kind, at = {1: "insert", 2: "update", 3: "delete"}[record[at + width + 12]], at + width + 13
        first, at = read_fields(record, at)
        self.statement = {"d": first} if self.kind == "insert" else {"q": first, "upsert": False}
        if self.kind == "update":
            self.statement["u"], at = read_fields(record, at)
            self.statement["upsert"], at = record[at] == 1, at + 1
        count, modified = struct.unpack_from("<II", record, at)
        upserted, at = None, at + 8
        if record[at] == 1:
            fields, at = read_fields(record, at + 1)
            upserted = field(fields, "_id")
        else:
            at += 1
        self.reply = (count, modified, upserted, struct.unpack_from("<i", record, at)[0])
        want(at + 4 == len(record), "an entry has bytes left")


class Catalogue:
    """The changes of a catalogue's journal, which must fit: for each name when it was created, and its chunks after each change with the times."""

    def __init__(self, path, requests):
        self.made, self.ceiling, last = {}, -1, 0
        commands = [asked.request.command() for asked in requests]
        wanted = {command["own"] for command in commands if command["name"] in ("insert", "update", "delete", "shardCollection")}
        asked_for = [(command["own"], command["middle"]) for command in commands if command["name"] == "split"]
        for record in records(path):
            at = struct.unpack("<Q", record[-8:])[0]
            if record[1] == 0x25:
                self.ceiling, last = max(self.ceiling, at), max(last, at)
                continue
            length = struct.unpack_from("<I", record, 2)[0]
            namespace = record[6 : 6 + length].decode()
            want(at > last, "the times of changes do not rise, or not above the ceilings before them")
            last = at
            if record[1] == 0x20:
                want(namespace not in self.made, f"{namespace} is created twice")
                want(namespace in wanted, f"{namespace} is created for nobody")
                self.made[namespace] = [(at, WHOLE)]
                continue
            want(record[1] == 0x21 and namespace in self.made, f"a split of {namespace}, which is not there")
            middle = field(read_fields(record, 6 + length)[0], "_id")
            want((namespace, middle) in asked_for, f"a split of {namespace} at {shown(middle)} for nobody")
            chunks = self.made[namespace][-1][1]
            want(not begins_at(chunks, middle), f"a split of {namespace} at {shown(middle)}, where a chunk begins")
            self.made[namespace].append((at, split_at(chunks, middle)))

    def chunks_at(self, namespace, at):
        """The chunks by the changes up to a time, or None."""
        return ([chunks for when, chunks in self.made.get(namespace, []) if when <= at] or [None])[-1]

    def check_tables(self, path):
        """The tables of the shard's journal."""
        seen = {}
        for record in records(path):
            if record[:2] == b"\1\1":
                namespace = record[6 : 6 + struct.unpack_from("<I", record, 2)[0]].decode()
                made = self.made.get(namespace, [])
                found = [count for count, (_, chunks) in enumerate(made) if table_record(namespace, made[0][0], chunks) == record]
                want(found and found[0] > seen.get(namespace, -1), f"a table of {namespace} that the changes do not make, or no longer one")
                seen[namespace] = found[0]


class History:
    """The entries of a shard, which must be legal, and what they leave."""

    def __init__(self, path):
        self.entries, self.by_number, self.versions, self.last = [], {}, {}, 0
        for record in records(path):
            if record[1] not in (2, 3):
                continue
            at = struct.unpack_from("<Q", record, 2)[0]
            want(at > self.last, "the times of entries and ceilings do not rise")
            self.last = at
            if record[1] == 3:
                continue
            entry = Entry(record)
            self.entries.append(entry)
            number = (entry.session, entry.transaction, entry.index)
            want(number not in self.by_number, f"two entries of one number {number}")
            self.by_number[number] = entry
            versions = self.versions.setdefault(entry.namespace, {}).setdefault(order_of(key_of(entry.kind, entry.statement)), [])
            after, reply = applied(entry.kind, entry.statement, versions[-1][1] if versions else None)
            want(reply == entry.reply, f"the entry at {entry.time} has the outcome {entry.reply}, not {reply}")
            versions.append((entry.time, after))

    def documents_at(self, namespace, at):
        kept = self.versions.get(namespace, {})
        newest = [[document for when, document in kept[key] if when <= at][-1:] for key in sorted(kept)]
        return [found[0] for found in newest if found and found[0] is not None]

    def greater(self, session, transaction):
        return {number[1] for number in self.by_number if number[0] == session and number[1] > transaction}


# the replies


def check_write(history, asked, command, fields):
    own = ((asked.node, 1, asked.count), 0)
    session, transaction = (command["lsid"], command["txnNumber"]) if "txnNumber" in command else own
    errors = {dict(value[1])["index"][1]: dict(value[1]) for _, value in enumerate((field(fields, "writeErrors") or (0, []))[1])}
    count = modified = 0
    upserted, times = [], []
    is_over = False
    for index in range(len(command["statements"])):
        entry = history.by_number.get((session, transaction, index))
        if is_over:
            want(session != own[0] or entry is None, "a statement after the first error was applied")
            continue
        if index in errors and errors[index]["code"][1] == 225:
            greater = errors[index]["evidence"][1][0][1][1]
            want(greater in history.greater(session, transaction), "225 without a greater transaction")
        else:
            want(entry is not None, f"statement {index} has no entry")
            times.append(entry.time)
            count, modified = count + entry.reply[0], modified + entry.reply[1]
            if entry.reply[2] is not None:
                upserted.append(doc(("index", (0x10, index)), ("_id", entry.reply[2])))
            want(bool(entry.reply[3]) == (index in errors), f"statement {index}: an error more or less")
            if entry.reply[3]:
                want((DOCUMENT, list(errors[index].items())) == write_error(index, entry.reply[3], []), f"statement {index}: another error")
        is_over = command.get("ordered", True) and index in errors
    want(field(fields, "n")[1] == count, "another n")
    if command["name"] == "update":
        want(field(fields, "nModified")[1] == modified, "another nModified")
        want((field(fields, "upserted") or (0, []))[1] == upserted, "other upserted keys")
    if times:
        want(field(fields, "operationTime") == time(max(times)), "another operationTime")


def check_stored(history, catalogue, namespace, at):
    """Whatever is stored later is above the time of a read."""
    if catalogue.chunks_at(namespace, at) is not None:
        want(at <= history.last, "a read above all that the shard stored")
    elif namespace not in catalogue.made:
        want(at <= catalogue.ceiling, "a read of no collection, above the ceilings of the catalogue")


def check_read(history, command, fields):
    inner = fields if command["name"] == "count" else field(fields, "cursor")[1]
    at = field(inner, "atClusterTime")[1]
    is_fixed = True
    try:
        wanted = answer(stages_of(command), history.documents_at(command["own"], at))
    except Ambiguous as open_order:
        # without a sort, or with ties: any order of these documents is right; of equal numbers of two types either may be shown
        if not open_order.args:
            return
        wanted, is_fixed = open_order.args[0], False
    if command["name"] == "count":
        return want(field(fields, "n")[1] == (wanted[0][0][1][1] if wanted else 0), "another count")
    found = [value[1] for value in field(inner, "firstBatch")[1]]
    if not is_fixed:
        found, wanted = sorted(found, key=repr), sorted(wanted, key=repr)
    want(found == wanted, f"at {at} {shown((0x04, [(DOCUMENT, one) for one in wanted]))} is right")


def check_change(catalogue, asked, command, fields):
    if field(fields, "code") == (0x10, 118):
        want(command["name"] == "split" and command["own"] not in asked.seen, "118, though the collection was there")
        return
    want(field(fields, "ok") == (0x10, 1), "a refusal")
    chunks = catalogue.chunks_at(command["own"], field(fields, "operationTime")[1])
    want(chunks is not None, "the collection was not created by then")
    if command["name"] == "split":
        want(begins_at(chunks, command["middle"]), "no chunk begins there by then")
    else:
        want(field(fields, "collectionsharded") == (STRING, command["own"]), "another name")


def check_reply(history, catalogue, asked):
    command, fields = asked.request.command(), asked.reply
    if command["name"] in CHUNKS:
        return check_change(catalogue, asked, command, fields)
    after = (command.get("readConcern") or (None, None))[1]
    if after is not None and field(fields, "code") == (0x10, 72):
        greatest = field(field(fields, "evidence")[1], "greatest")[1]
        return want(asked.known <= greatest < after, "72 for a time that is there, or below what the router returned")
    want(field(fields, "ok") == (0x10, 1), "a refusal")
    at = field(fields, "operationTime")[1]
    want(after is None or at >= after, "a read before the time that it names")
    if command["name"] in ("insert", "update", "delete"):
        return check_write(history, asked, command, fields)
    want(at >= asked.known, "a read before what its router returned")
    check_stored(history, catalogue, command["own"], at)
    check_read(history, command, fields)


def play(program, folder, script):
    """Plays the script line by line in one go, and gives its status and the lines printed."""
    text = "".join(f"{line}\n" for line, _ in script.lines)
    arguments = [program, "sim"] + ([] if script.shards == 2 else ["--shards", str(script.shards)])
    arguments += [] if script.routers == 1 else ["--routers", str(script.routers)]
    run = subprocess.run(arguments, cwd=folder, input=text.encode(), stdout=subprocess.PIPE, stderr=subprocess.PIPE)
    return run.returncode, run.stdout.decode().splitlines()


def known_times(script, printed):
    """Puts each reply to its request, and beside each request the greatest time that its router had returned before its line.

    Replies are printed with the line that gave them, and each names its request: replies come in the order of lines, so the
    lines before a request's own gave all that were printed before the first reply of a request that came later on that router.
    """
    for line in printed:
        word, router, *rest = line.split()
        if word == "reply":
            bytes_ = bytes.fromhex(rest[0])
            asked = script.requests[struct.unpack_from("<i", bytes_, 8)[0] - 1]
            want(asked.reply is None, "two replies of one request")
            want(asked.router == int(router), "a reply on another link")
            asked.reply, _ = read_fields(bytes_, 21)
    # what is known before a request: prefix plays would tell exactly; here what earlier requests returned before a `settle` that came before it
    known, seen = [0] * script.routers, set()
    pending = []
    for line, asked in script.lines:
        if asked is not None:
            asked.known, asked.seen = known[asked.router], set(seen)
            pending.append(asked)
        elif line == "settle":
            for one in pending:
                command = one.request.command()
                if one.reply is not None and field(one.reply, "ok") == (0x10, 1) and command["name"] in (*CHUNKS, "insert", "update", "delete"):
                    seen.add(command["own"])
                if one.reply is not None and field(one.reply, "operationTime") is not None:
                    known[one.router] = max(known[one.router], field(one.reply, "operationTime")[1])
            pending = []


def one(program, seed, length):
    script = Script(random.Random(seed)).whole(length)
    with tempfile.TemporaryDirectory() as folder:
        status, printed = play(program, folder, script)
        history = History(pathlib.Path(folder) / "node01.journal")
        catalogue = Catalogue(pathlib.Path(folder) / "node00.journal", script.requests)
        catalogue.check_tables(pathlib.Path(folder) / "node01.journal")
        for node in range(2, script.first_router):
            want(not list(records(pathlib.Path(folder) / f"node{node:02}.journal")), f"shard {node} stored something")
        want(status == 0, f"status {status}")
        known_times(script, printed)
        replies = 0
        for place, asked in enumerate(script.requests):
            is_open = asked.link == script.links[asked.router]
            want(asked.reply is not None or not is_open, f"request {place + 1} has no reply")
            if asked.reply is not None:
                replies += 1
                try:
                    check_reply(history, catalogue, asked)
                except Wrong as wrong:
                    raise Wrong(f"request {place + 1} {shown((DOCUMENT, asked.request.body))}\n  {shown((DOCUMENT, asked.reply))}\n  {wrong}") from None
        return len(script.requests), replies, len(history.entries), sum(len(made) for made in catalogue.made.values())


def main():
    program = str(pathlib.Path(sys.argv[1]).resolve())
    count = int(sys.argv[2]) if len(sys.argv) > 2 else 200
    first = int(sys.argv[3]) if len(sys.argv) > 3 else 1
    totals = [0, 0, 0, 0]
    for seed in range(first, first + count):
        try:
            totals = [a + b for a, b in zip(totals, one(program, seed, 40))]
        except Wrong as wrong:
            sys.exit(f"random_scripts: script {seed}: {wrong}")
    print(f"random_scripts: {count} scripts, {totals[0]} requests, {totals[1]} replies, {totals[2]} entries, {totals[3]} changes: one history each")


main()
