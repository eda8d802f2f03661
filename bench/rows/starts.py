"""Rows of several calls on the same files: what each start keeps, files that are refused, and disks that fail while they are opened.

Each reply is written beside its request, by hand. Journals whose records may not follow are those of the data of replay_rows.
"""
import pathlib
import struct

from bson import stamp
from chunks import ADMIN, changed, shard, sharded, split
from cluster import Cluster
from cursors import KILLED, kill, listed, more, next_, not_found
from form import Ask, ask_lines
from reads import count, counted, find, first, inserted, refused
from records import CATALOGUE, ROUTER, SHARD, create_record, file_of, life_record
from retries import OTHER, delete, done, errors, insert, update
from routers import ONE
from wire import Connection, Request, pieces, told

JOURNALS = pathlib.Path(__file__).resolve().parent.parent.parent / "crates" / "replay_rows" / "data" / "journals.txt"
NODES = (CATALOGUE, SHARD, ROUTER)
# calls of a disk while a journal is opened: sync, length, read, cut, sync, write, sync
OPENING = 7
TWO = "{_id: 1}, {_id: 2}"
AFTER = "readConcern: {afterClusterTime: Timestamp(%d, %d)}"
SNAPSHOT = 'readConcern: {level: "snapshot", atClusterTime: Timestamp(%d, %d)}'


class Calls:
    """A row of calls, one after another, on the files of one cluster."""

    def __init__(self, name, cluster=None):
        self.name, self.cluster, self.is_new, self.lines, self.end = name, cluster or Cluster(), cluster is None, [], None

    def begin(self, words):
        if self.end:
            self.lines.append(f"then {self.end}")
        self.lines.append(f"note {words}")

    def keep(self, nodes):
        self.lines += [f"keeps {node} {pieces(file_of(self.cluster.journals[node]))}" for node in nodes]

    def call(self, words, *asks, clock=(), plan=(), is_lost=False, end="0 0"):
        """A call that serves these requests; `is_lost`: no reply is written."""
        self.begin(words)
        if not self.is_new:
            self.cluster.begin_life()
        self.is_new = False
        self.lines += [f"clock {' '.join(map(str, clock))}"] if clock else []
        self.lines += plan
        connection = Connection(clock, self.cluster)
        for number, ask in enumerate(asks):
            lines = ask_lines(self.name, connection, ask, number + 1)
            self.lines += [line for line in lines if not (is_lost and line.startswith(("gets", "note gets")))]
        self.end = end
        self.keep(NODES)
        return self

    def not_served(self, words, plan, status, ask=None):
        """A call in which nothing is taken."""
        self.begin(words)
        bytes_ = (ask or Ask(inserted(ONE))).bytes(1)
        self.lines += plan + [f"ask {pieces(bytes_)}", f"is {told(Request(bytes_))}", f"untaken {len(bytes_)}"]
        self.end = f"{status} 0"
        return self

    def rows(self):
        return [f"# {self.name}"] + self.lines + [f"ends {self.end}"]


def found():
    row = Calls("a call a second later finds what the first inserted, at the second's time, and its first insert has the second's first counter")
    row.call("999 s", Ask(inserted(ONE), done(1, 2, seconds=999)), clock=[999000])
    row.call("1000 s", find("", first(ONE, 0)), Ask(inserted("{_id: 2}"), done(1, 1)), find("sort: {_id: 1}", first(TWO, 1)))
    return row.rows()


def same_second():
    row = Calls("in the second of the last write a plain read may miss it, since what is fresh is so in one life; one after its time does not")
    row.call("the write", Ask(inserted(ONE), done(1, 2)))
    row.call("at the second's time there is no collection; then it is empty; then it has the document",
        find("", first("", 0)), count("", counted(0, 1)), count("", counted(1, 2)))
    row.call("after the time of the write", find(AFTER % (1000, 2), first(ONE, 2)), find("", first(ONE, 2)))
    row.call("after a time that none has", find(AFTER % (1000, 3), refused(72, "InvalidOptions", "{greatest: Timestamp(1000, 2)}")))
    row.call("a write", Ask(inserted("{_id: 2}"), done(1, 3)), find("sort: {_id: 1}", first(TWO, 3)))
    row.call("a write of another collection", Ask('{insert: "b", documents: [{_id: 1}], $db: "d"}', done(1, 4)),
        count("", counted(2, 4)))
    return row.rows()


def again():
    """Numbered statements that are sent again in a later call."""
    row = Calls("a numbered insert is sent again in the next call, in which its key is taken, and in two more: one entry, one reply")
    one = insert(ONE, "1L", done(1, 2))
    row.call("the insert", one)
    row.call("again, and another number", one, insert(ONE, "2L", done(0, 3, errors((0, 11000)))))
    row.call("older than the last, whose error is returned again", insert(ONE, "1L", done(0, 3, errors((0, 225, 2)))),
        insert(ONE, "2L", done(0, 3, errors((0, 11000)))), clock=[999000, 999000])
    row.call("the same number of another session", insert("{_id: 3}", "1L", done(1, 1, seconds=1001), session=OTHER), one_older(), clock=[1001000, 1001000])
    lines = row.rows()
    row = Calls("an upsert, a delete and an update that are sent again in the next call, each with what was done")
    upsert = "{q: {_id: 7}, u: {$set: {x: 1}}, upsert: true}"
    change, gone = "{q: {_id: 7}, u: {$inc: {x: 1}}}", "{q: {_id: 7}, limit: 1}"
    upserted = ", nModified: 0, upserted: [{index: 0, _id: 7}]"
    row.call("an upsert", update(upsert, "1L", done(1, 2, upserted)))
    row.call("again, and an update", update(upsert, "1L", done(1, 2, upserted)), update(change, "2L", done(1, 3, ", nModified: 1")))
    row.call("the update again: it is not applied twice", update(change, "2L", done(1, 3, ", nModified: 1")), find("", first("{_id: 7, x: 2}", 3)),
        delete(gone, "3L", done(1, 4)))
    row.call("the delete again", delete(gone, "3L", done(1, 4)), count("", counted(0, 4)))
    return lines + row.rows()


def one_older():
    return insert(ONE, "1L", done(0, 1, errors((0, 225, 2)), seconds=1001))


def cursors():
    row = Calls("a cursor is gone with its call; numbers go on with the next block")
    one = "sort: {_id: 1}, batchSize: 1"
    row.call("cursors 1 and 2", Ask(inserted(TWO), done(2, 3, seconds=999)), find(one, first(listed(1), 3, identifier=1, seconds=999)),
        find(one, first(listed(1), 3, identifier=2, seconds=999)), more("2L", next_(listed(2), 3, seconds=999)), clock=[999000] * 4)
    row.call("not found; the next number is 65", more("1L", not_found(1)), kill("1L", KILLED % ("", "1L")),
        find(one, first(listed(1), 0, identifier=65)), more("65L", next_(listed(2), 0)), find(one, first(listed(1), 0, identifier=66)))
    row.call("a call without cursors takes no block", more("66L", not_found(66)), find("sort: {_id: 1}", first(listed(1, 2), 0)))
    row.call("the next number is 129", find(one, first(listed(1), 0, identifier=129)), more("129L", next_(listed(2), 0)))
    lines = row.rows()
    cluster = Cluster()
    cluster.journals[ROUTER] = named("life-1 block-0 life-2 block-1 block-2")
    cluster.life, cluster.blocks = 2, 3
    row = Calls("a router with two lives and three blocks", cluster)
    row.call("life 3, cursor 193", Ask(inserted(TWO), done(2, 3)), find(one, first(listed(1), 3, identifier=193)),
        plan=[f"file {ROUTER} {pieces(file_of(cluster.journals[ROUTER]))}"])
    return lines + row.rows()


def times():
    row = Calls("a clock that goes back from call to call: a plain read is at its time, entries go on above all that is stored")
    row.call("1000 s", Ask(inserted(ONE), done(1, 2)))
    row.call("500 s", find("", first("", 0, seconds=500)), find(AFTER % (1000, 2), first(ONE, 2)), Ask(inserted("{_id: 2}"), done(1, 3)),
        clock=[500000] * 3)
    row.call("500 s", Ask(inserted("{_id: 3}"), done(1, 4)), find("sort: {_id: 1}", first(listed(1, 2, 3), 4)), clock=[500000] * 2)
    lines = row.rows()
    row = Calls("what was read at a time stays: ceilings of the shard and of the catalogue are above later writes, whatever the clock says")
    row.call("1000 s, and reads at 2000 s", Ask(inserted(ONE), done(1, 2)), find("", first(ONE, 0, seconds=2000)),
        Ask('{find: "e", $db: "d"}', first("", 0, "d.e", seconds=2000)), clock=[1000000, 2000000, 2000000])
    row.call("1000 s", Ask(inserted("{_id: 2}"), done(1, 1, seconds=2000)),
        Ask('{insert: "e", documents: [{_id: 1}], $db: "d"}', done(1, 3, seconds=2000)))
    row.call("3000 s", find(SNAPSHOT % (2000, 0), first(ONE, 0, seconds=2000)), Ask(f'{{find: "e", {SNAPSHOT % (2000, 0)}, $db: "d"}}', first("", 0, "d.e",
        seconds=2000)), find(f"sort: {{_id: 1}}, {SNAPSHOT % (2000, 1)}", first(TWO, 1, seconds=2000)), clock=[3000000] * 3)
    return lines + row.rows()


def chunks():
    row = Calls("a collection and its splits are there in each later call")
    row.call("created and split", shard(sharded(1)), split(10, changed(2)))
    row.call("a read after the time of the split is refused, since the shard has stored no time; the same split, and another, are done",
        find(AFTER % (1000, 2), refused(72, "InvalidOptions", "{greatest: Timestamp(1000, 0)}")), split("10L", changed(2)), split(20, changed(3)),
        Ask(inserted("{_id: 15}"), done(1, 4)))
    row.call("the shard keeps its table", Ask(inserted("{_id: 5}"), done(1, 5)), split(30, changed(6)), Ask(inserted("{_id: 35}"), done(1, 7)),
        Ask(f'{{split: "d.e", middle: {{_id: 1}}, {ADMIN}', refused(118, "NamespaceNotSharded")), shard(sharded(7)))
    return row.rows()


def plain():
    row = Calls("four calls without a byte: four lives")
    for number in range(4):
        row.call(f"life {number + 1}")
    lines = row.rows()
    row = Calls("a call that asks for no documents, between two inserts: each life counts its requests from 1 on")
    row.call("an insert", Ask(inserted(ONE), done(1, 2)))
    row.call("a ping", Ask('{ping: 1, $db: "d"}', "{ok: 1}"))
    row.call("an insert, the second request", Ask('{ping: 1, $db: "d"}', "{ok: 1}"), Ask(inserted("{_id: 2}"), done(1, 3)))
    return lines + row.rows()


def ends():
    """What calls that ended with a fault leave to the next."""
    numbered = insert(ONE, "1L", done(1, 2))
    row = Calls("a reply that is lost: the next call returns it")
    row.call("put 0 fails", numbered, plan=["fail put 0"], is_lost=True, end="4 0")
    row.call("again", numbered, find(AFTER % (1000, 2), first(ONE, 2)))
    lines = row.rows()
    row = Calls("a read that fails after an insert")
    row.call("take 1 fails", numbered, plan=["fail take 1"], end="3 0")
    row.call("again", numbered)
    lines += row.rows()
    for call, is_stored in ((8, False), (9, False), (10, False), (11, True)):
        lines += failed_append(call, is_stored)
    return lines


def failed_append(call, is_stored):
    """The shard's disk fails while the entry is appended, after the table: its opening takes 4 calls, each append 4."""
    row, cluster = Calls(f"call {call} of disk 1 fails, in the append of an entry; the next call is sent the insert again"), Cluster()
    if not is_stored:
        collection = cluster.begin("d.c")
        collection["at"] = cluster.of_catalogue = cluster.time = stamp(1000, 1)
        cluster.journals[CATALOGUE], cluster.stored[CATALOGUE] = [create_record("d.c", stamp(1000, 1))], stamp(1000, 1)
        cluster.learn(collection, "d.c")
    else:
        Connection((), cluster).ask(insert(ONE, "1L").bytes(1))
    row.cluster, row.is_new = cluster, False
    row.not_served("the disk fails", [f"fail 1 {call}"], 5, insert(ONE, "1L"))
    row.lines = [line for line in row.lines if not line.startswith("untaken")] + found_again(row, NODES)
    row.call("again", insert(ONE, "1L", done(1, 2) if is_stored else done(1, 1, seconds=1001)), clock=[1001000])
    return row.rows()


# files that are refused


def named(names):
    """The records of these names in the data of replay_rows."""
    records = {}
    for line in JOURNALS.read_text().splitlines():
        if line.startswith("record |"):
            name, words = [part.strip() for part in line.split("|")[1:]]
            records[name] = b"".join(word[1:-1].encode() if word.startswith("'") else bytes.fromhex(word) for word in words.split())
    return [records[name] for name in names.split(" ")]


REFUSED = [
    (SHARD, "an entry whose time does not rise", "table insert same-time"), (SHARD, "an entry under a number that is stored", "table insert same-number"),
    (SHARD, "an entry without its table", "insert"), (SHARD, "an entry with another outcome", "table none"),
    (SHARD, "an entry at the time of a ceiling", "table ceiling-2 insert"), (SHARD, "an older transaction", "table second first"),
    (SHARD, "a ceiling at the time of an entry", "table insert ceiling-2"), (SHARD, "a ceiling that does not rise", "table ceiling-3 ceiling-2"),
    (SHARD, "a ceiling without a table", "ceiling-2"),
    (SHARD, "a table that is not longer", "table table"), (SHARD, "a creation on the shard", "create"), (SHARD, "a life on the shard", "table life-1"),
    (SHARD, "a record of kind 05", "table move"), (SHARD, "a record of kind 04", "table floor"), (SHARD, "a table that is cut short", "cut-table"),
    (CATALOGUE, "a name that exists", "create create-again"), (CATALOGUE, "an epoch that is not the next", "create-second"),
    (CATALOGUE, "a split of no collection", "split"), (CATALOGUE, "a split whose time does not rise", "create split split-early"),
    (CATALOGUE, "a split at a bound", "create split split-again"),
    (CATALOGUE, "a change at the time of a ceiling", "no-table create"), (CATALOGUE, "a table on the catalogue", "table"),
    (CATALOGUE, "a record of kind 05 on the catalogue", "create move"),
    (ROUTER, "life 2 first", "life-2"), (ROUTER, "life 1 twice", "life-1 life-1"), (ROUTER, "block 1 first", "life-1 block-1"),
    (ROUTER, "a block before a life", "block-0"), (ROUTER, "a table on the router", "table"), (ROUTER, "a life that is cut short", "cut"),
    (ROUTER, "a byte after a life", "life-1 more"), (ROUTER, "another format", "format"), (ROUTER, "another kind", "kind"),
]


def refused_records():
    lines = []
    for node, words, names in REFUSED:
        plan = [f"file {node} {pieces(file_of(named(names)))}", f"same {node}"] + [f"keeps {other} 00" for other in NODES if other != node]
        lines += Calls(f"refused: {words}").not_served(words, plan, 6).rows()
    row = Calls("refused after a journal of this program, and again")
    row.call("an insert", Ask(inserted(ONE), done(1, 2)))
    changed_file = file_of(row.cluster.journals[ROUTER] + named("life-1"))
    row.not_served("life 1 once more", [f"file {ROUTER} {pieces(changed_file)}"] + [f"same {node}" for node in NODES], 6)
    row.not_served("again", [f"same {node}" for node in NODES], 6)
    row.call("without it", count(AFTER % (1000, 2), counted(1, 2)), plan=[f"file {ROUTER} {pieces(file_of(row.cluster.journals[ROUTER]))}"])
    return lines + row.rows()


def damages():
    """Ends of files that are no whole record after an open gate, and each alone."""
    whole = struct.pack("<Q", 10)
    return [("no length", b"\1\0"), ("a length of seven bytes", b"\1" + whole[:7]), ("a length and nothing", b"\1" + whole),
        ("a record that is cut short", b"\1" + whole + life_record()[:9]), ("a record without a gate", b"\1" + whole + life_record()),
        ("a length past all", b"\1" + b"\xff" * 8 + life_record() + b"\0")]


def damaged():
    lines = []
    for node in NODES:
        for words, bytes_ in damages():
            plan = [f"file {node} {pieces(bytes_)}", f"same {node}"] + [f"keeps {other} 00" for other in NODES if other < node]
            plan += [f"size {other} 0" for other in NODES if other > node]
            lines += Calls(f"damaged: {words}, on disk {node}").not_served(words, plan, 6).rows()
        row = Calls(f"damaged after what an insert stored, on disk {node}, and again")
        row.call("an insert", Ask(inserted(ONE), done(1, 2)))
        changed_file = file_of(row.cluster.journals[node])[:-1] + damages()[3][1]
        row.not_served("damaged", [f"file {node} {pieces(changed_file)}"] + [f"same {other}" for other in NODES], 6)
        row.not_served("again", [f"same {other}" for other in NODES], 6)
        lines += row.rows()
    return lines


def unread():
    """Bytes that are no record and are not refused: after a gate that is not open."""
    lines = []
    ask = Ask(inserted(ONE), done(1, 2))
    for node in NODES:
        for bytes_ in (b"\0", b"\7\10", b"\0" + damages()[3][1], b"\1"):
            lines += Calls(f"bytes at the start on disk {node} that are no record").call("served", ask, plan=[f"file {node} {pieces(bytes_)}"]).rows()
    cluster = Cluster()
    cluster.collections["d.c"] = {"at": stamp(1000, 1), "keys": {}, "chunks": ((None, None, 0),), "table": False}
    cluster.store(CATALOGUE, stamp(1000, 1), create_record("d.c", stamp(1000, 1)))
    cluster.journals[ROUTER], cluster.life = [], 0
    row = Calls("a creation on disk 0 alone, as a crash may leave it", cluster)
    return lines + row.call("served", ask, plan=[f"file {CATALOGUE} {pieces(file_of(cluster.journals[CATALOGUE]))}"]).rows()


# disks that fail while journals are opened


def failing():
    lines = []
    for node in NODES:
        for call in range(OPENING):
            row = Calls(f"call {call} of disk {node} fails in its second opening; the next call finds all")
            row.call("an insert", Ask(inserted(ONE), done(1, 2, seconds=999)), clock=[999000])
            row.not_served("the disk fails", [f"fail {node} {call}"] + found_again(row, NODES), 5)
            row.call("a find", find("", first(ONE, 0)))
            lines += row.rows()
    for call in range(OPENING, OPENING + 4):
        row = Calls(f"call {call} of disk {ROUTER} fails, as the second life begins; the next call begins the next life")
        row.call("an insert", Ask(inserted(ONE), done(1, 2, seconds=999)), clock=[999000])
        row.not_served("the disk fails", [f"fail {ROUTER} {call}"], 5)
        if call == OPENING + 3:
            row.cluster.begin_life()
        row.lines += found_again(row, NODES)
        row.call("a find", find("", first(ONE, 0)))
        lines += row.rows()
    return lines + failing_beside()


def found_again(row, nodes):
    """Lines: an opening of each journal finds all of its records."""
    lines = []
    for node in nodes:
        records = row.cluster.journals[node]
        lines += [f"record {node} {record.hex()}" for record in records] + [f"finds {node} {len(records)} {len(records)}"]
    return lines


def failing_beside():
    """Which of a disk that fails and of a file that is refused decides: journals are opened in order, and records are read after all openings."""
    lines, damage, life_on_shard = [], pieces(damages()[0][1]), pieces(file_of(named("table life-1")))
    listed_ = [(0, f"file {SHARD} {life_on_shard}", 5), (1, f"file {SHARD} {life_on_shard}", 5), (2, f"file {SHARD} {life_on_shard}", 5),
        (0, f"file {SHARD} {damage}", 5), (2, f"file {SHARD} {damage}", 6), (1, f"file {ROUTER} {damage}", 5), (1, f"file {CATALOGUE} {damage}", 6)]
    for failing_disk, file_line, status in listed_:
        kind = "a record that may not follow" if life_on_shard in file_line else "a damaged file"
        refused_disk = file_line.split(" ")[1]
        plan = [file_line, f"fail {failing_disk} 0", f"same {refused_disk}"]
        lines += Calls(f"{kind} on disk {refused_disk}, call 0 of disk {failing_disk} fails").not_served(
            "the disk decides" if status == 5 else "the file decides", plan, status).rows()
    return lines


def rows():
    served = found() + same_second() + again() + cursors() + times() + chunks() + plain() + ends()
    return served + unread() + refused_records() + damaged() + failing()
