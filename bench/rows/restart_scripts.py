"""Rows of scripts in which nodes stop and are started again on their journals. Each reply and each record is told by hand, as in `routers`."""
from bson import fields_of, int32
from chunks import changed, shard, sharded, split
from cluster import Cluster
from form import Ask
from reads import find, first, inserted
from records import block_record, catalogue_ceiling_record, ceiling_record, create_record, life_record, split_record, table_record
from retries import done, errors, insert
from routers import ONE, Play, at, entry, lives
from starts import Calls
from wire import Connection

SESSION = bytes(range(16))
HELLO = '{hello: 1, $db: "admin"}'
GREETING = ('{isWritablePrimary: true, msg: "isdbgrid", maxBsonObjectSize: 16777216, maxMessageSizeBytes: 48000000, maxWriteBatchSize: 100000, '
    'localTime: Date(0), logicalSessionTimeoutMinutes: 30, minWireVersion: 0, maxWireVersion: 17, readOnly: false, ok: 1}')
LOST_CURSOR = '{ok: 0, errmsg: "CursorNotFound", code: 43, codeName: "CursorNotFound", evidence: {cursor: 1L}}'


def snapshot(seconds, counter=0):
    return f'readConcern: {{level: "snapshot", atClusterTime: Timestamp({seconds}, {counter})}}'


def created(counter=1, seconds=0):
    return create_record("d.c", at(counter, seconds))


def table(counter=1, seconds=0):
    return table_record("d.c", at(counter, seconds))


def numbered():
    return insert(ONE, "1L", done(1, 2, seconds=0))


def sent_again():
    """A numbered insert whose answer is lost with the router; its request is sent again, also in a later call."""
    play = Play("the shard and then the router are started again while the answer of a write is held; its request is sent again, and it is one entry")
    play.client(0, numbered())
    play.play("settle except WriteDone", "restart 1", "restart 2")
    play.closed(0)
    play.settled(play.client(0, numbered()))
    stored = [table(), entry(at(2), inserted(ONE), 1, number=(SESSION, 1))]
    lines = play.rows([[created()], stored] + lives(1, 2))
    cluster = Cluster()
    Connection((), cluster).ask(numbered().bytes(1), 0)
    cluster.begin_life()
    row = Calls("", cluster)
    row.end = "0 0"
    row.call("a connection", find("sort: {_id: 1}", first(ONE, 0)), Ask(inserted("{_id: 2}"), done(1, 1)))
    return lines[:-1] + row.lines + ["ends 0 0"]


def ceiling_stays():
    play = Play("a shard that is started again stays above a read that it answered", 2)
    play.settled(play.client(0, Ask(inserted(ONE), done(1, 2, seconds=0))))
    play.play("moment 2 5000")
    play.settled(play.client(0, find("", first(ONE, 0, seconds=5)), 2))
    play.play("restart 1")
    play.settled(play.client(1, Ask(inserted("{_id: 2}"), done(1, 1, seconds=5))))
    play.settled(play.client(0, find(snapshot(5), first(ONE, 0, seconds=5)), 3))
    stored = [table(), entry(at(2), inserted(ONE), 1), ceiling_record(at(0, 5)), entry(at(1, 5), inserted("{_id: 2}"), 1, router=1)]
    return play.rows([[created()], stored] + lives(2))


def none_stays():
    play = Play("a catalogue that is started again creates no collection at or below the time of a read that found none", 2)
    play.play("moment 2 5000")
    play.settled(play.client(0, find("", first("", 0, seconds=5))))
    play.play("restart 0")
    play.settled(play.client(1, Ask(inserted(ONE), done(1, 2, seconds=5))))
    play.settled(play.client(0, find(snapshot(5), first("", 0, seconds=5)), 2))
    stored = [table(1, 5), entry(at(2, 5), inserted(ONE), 1, router=1)]
    return play.rows([[catalogue_ceiling_record(at(0, 5)), created(1, 5)], stored] + lives(2))


def held_second(words, documents, line, reply, entries):
    """A second insert that the shard was not asked for yet, when it stops; its request is sent once more at a moment."""
    play = Play(f"an insert whose request to the shard is held: {words}")
    play.settled(play.client(0, Ask(inserted(ONE), done(1, 2, seconds=0))))
    asked = play.client(0, Ask(inserted(documents), reply), 2)
    play.play("settle except WriteAsk", line)
    stored = [table(), entry(at(2), inserted(ONE), 1)] + entries
    keeps = [[created()], stored] + lives(1)
    if reply is None:
        return play.rows(keeps, 9)
    play.play("settle", "moment 2 1000")
    play.settled(asked)
    return play.rows(keeps)


def held_seconds():
    two = "{_id: 2}"
    lines = held_second("the shard stops in that step, and keeps the entry; nobody is answered, and the request is tried again", two, "restart 1 kept 3",
        done(1, 3, seconds=0), [entry(at(3), inserted(two), 2)])
    lines += held_second("the shard stops before that step", two, "restart 1 lost 3", done(1, 1, seconds=1), [entry(at(1, 1), inserted(two), 2)])
    for line in ("restart 1 kept 4", "restart 1 lost 4", "restart 4", "restart 4 kept 0", "restart 1 kept", "restart 1 kept 01", "restart 1 lose 3", "restart"):
        lines += held_second(f"`{line}` is refused, and nothing happens", two, line, None, [])
    three = "{_id: 2}, {_id: 1}, {_id: 3}"
    entries = [entry(at(3), inserted(three), 2), entry(at(4), inserted(three), 2, index=1, before=fields_of(ONE))]
    return lines + held_second("three statements, of which the second is a duplicate: both entries of the step are kept", three, "restart 1 kept 3",
        done(1, 4, errors((1, 11000)), 0), entries)


def held_read():
    play = Play("a read whose request to the shard is held while the shard is started again is served, and stores one ceiling")
    play.settled(play.client(0, Ask(inserted(ONE), done(1, 2, seconds=0))))
    play.play("moment 2 5000")
    asked = play.client(0, find("", first(ONE, 0, seconds=5)), 2)
    play.play("settle except HalfAsk", "restart 1")
    play.settled(asked)
    return play.rows([[created()], [table(), entry(at(2), inserted(ONE), 1), ceiling_record(at(0, 5))]] + lives(1))


def held_split():
    play = Play("the catalogue stops in the step of a split, and keeps it; at a moment the split is requested again, and it is one split", 1, 2)
    play.settled(play.client(0, shard(sharded(1, seconds=0))))
    asked = play.client(0, split(10, changed(0, 1)), 2)
    play.play("restart 0 kept 1", "settle", "moment 3 1000")
    play.settled(asked)
    return play.rows([[created(), split_record("d.c", int32(10), at(2))], [], []] + lives(1))


def parked():
    play = Play("a write that waits at the shard for its table is lost with the shard: nobody is answered until a moment comes")
    asked = play.client(0, Ask(inserted(ONE), done(1, 1, seconds=1)))
    play.play("deliver 0 0", "deliver 2 0", "deliver 1 0", "restart 1", "settle", "moment 2 1000")
    play.settled(asked)
    return play.rows([[created()], [table(), entry(at(1, 1), inserted(ONE), 1)]] + lives(1))


def at_once():
    play = Play("the router is started again at once behind an insert, which is not stored; the next one is numbered in its second life")
    play.client(0, Ask(inserted(ONE)))
    play.play("restart 2")
    play.closed(0)
    play.settled(play.client(0, Ask(inserted("{_id: 2}"), done(1, 2, seconds=0))))
    return play.rows([[created()], [table(), entry(at(2), inserted("{_id: 2}"), 1, life=2)]] + lives(1, 2))


def earlier_answer():
    play = Play("the answer of a write to an earlier life of the router answers nobody; a find after it reads at its time")
    play.client(0, Ask(inserted(ONE)))
    play.play("settle except WriteDone", "restart 2")
    play.closed(0)
    play.play("settle")
    play.settled(play.client(0, find("", first(ONE, 2, seconds=0))))
    return play.rows([[created()], [table(), entry(at(2), inserted(ONE), 1)]] + lives(1, 2))


def cursors():
    play = Play("a router that is started again has no cursor, and takes no number of one again")
    three = inserted("{_id: 1}, {_id: 2}, {_id: 3}")
    play.settled(play.client(0, Ask(three, done(3, 4, seconds=0))))
    play.settled(play.client(0, find("sort: {_id: 1}, batchSize: 1", first(ONE, 4, identifier=1, seconds=0)), 2))
    play.play("restart 2")
    play.closed(0)
    asked = play.client(0, Ask('{getMore: 1L, collection: "c", $db: "d"}', LOST_CURSOR), 3)
    play.gets(asked)
    play.play("moment 2 5000")
    play.settled(play.client(0, find("sort: {_id: 1}, batchSize: 1", first(ONE, 0, identifier=65, seconds=5)), 4))
    stored = [table()] + [entry(at(2 + index), three, 1, index=index) for index in range(3)] + [ceiling_record(at(0, 5))]
    return play.rows([[created()], stored, [life_record(1), block_record(0), life_record(2), block_record(1)]])


def links():
    play = Play("two routers, and no client: the link of the second is closed once", 2)
    play.play("restart 3")
    play.closed(1)
    play.play("restart 3")
    lines = play.rows([[], []] + lives(1) + lives(1, 3))
    play = Play("four restarts of a router are five lives")
    play.play("restart 2")
    play.closed(0)
    play.play(*["restart 2"] * 3)
    return lines + play.rows([[], []] + lives(1, 5))


def no_time():
    play = Play("a router that is started again reads at time 0, and greets with moment 0")
    play.settled(play.client(0, Ask(inserted(ONE), done(1, 2, seconds=0))))
    play.play("restart 2")
    play.closed(0)
    play.settled(play.client(0, find("", first("", 0, seconds=0))))
    play.play("moment 2 5000", "restart 2")
    play.closed(0)
    play.gets(play.client(0, Ask(HELLO, GREETING)))
    return play.rows([[created()], [table(), entry(at(2), inserted(ONE), 1)]] + lives(1, 3))


def failing():
    """An opening of an empty file has the calls 0 to 3; a restart syncs the file, and reads its length and its one byte."""
    lines = []
    for number, status in ((4, 5), (5, 5), (6, 5), (7, 0)):
        words = "in" if status else "not in"
        play = Play(f"call {number} of disk 1 fails, which is {words} the restart of its shard")
        play.play("restart 1")
        row = play.rows([[], []] + lives(1), status)
        lines += row[:2] + [f"fail 1 {number}"] + row[2:]
    return lines


def rows():
    return (sent_again() + ceiling_stays() + none_stays() + held_seconds() + held_read() + held_split() + parked() + at_once() + earlier_answer()
        + cursors() + links() + no_time() + failing())
