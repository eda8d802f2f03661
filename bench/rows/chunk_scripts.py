"""Rows of scripts with `shardCollection` and `split`: several routers, and messages that come late, twice, in reverse or not at all.

Each reply and each record is told by hand, as in `routers`.
"""
from bson import int32, int64
from chunks import MISSING, changed, shard, sharded, split
from cluster import split_at
from form import Ask
from reads import find, first, inserted
from records import WHOLE, create_record, split_record, table_record
from retries import done
from routers import Play, at, entry, lives

ONE = inserted("{_id: 1}")


def created():
    return create_record("d.c", at(1))


def halves(key=10):
    return split_at(WHOLE, int32(key))


def of_shards(shards):
    return "" if shards == 1 else f"; {shards} shards"


def old_table(shards=1):
    words = "router 0 inserts, router 1 splits, router 0 inserts by its old table; router 1 reads by its new one: the shard stores one table"
    play = Play(words + of_shards(shards), 2, shards)
    play.settled(play.client(0, Ask(ONE, done(1, 2, seconds=0))))
    play.settled(play.client(1, split(10, changed(2, 0))))
    play.settled(play.client(0, Ask(inserted("{_id: 20}"), done(1, 3, seconds=0)), 2))
    play.settled(play.client(1, find("sort: {_id: 1}", first("{_id: 1}", 2, seconds=0)), 2))
    entries = [table_record("d.c", at(1)), entry(at(2), ONE, 1, shards=shards), entry(at(3), inserted("{_id: 20}"), 2, shards=shards)]
    return play.rows([[created(), split_record("d.c", int32(10), at(2))], entries] + [[]] * (shards - 1) + lives(2))


def held_answer(shards=1, more=(), status=0):
    words = "the answer to a split is held back; at a moment the split is requested again, and it is one split"
    play = Play(words + of_shards(shards) + "".join(f"; {line}" for line in more), 1, shards)
    play.settled(play.client(0, shard(sharded(1, seconds=0))))
    asked = play.client(0, split(10, changed(0, 1)), 2)
    play.play("settle except SplitDone", f"moment {1 + shards} 1000", "settle")
    play.gets(asked)
    play.play(*more)
    return play.rows([[created(), split_record("d.c", int32(10), at(2))]] + [[]] * shards + lives(1), status)


def moment_creates_once():
    play = Play("a moment before the first answer: the collection is requested twice, and created once")
    asked = play.client(0, shard(sharded(0, seconds=1)))
    play.play("moment 2 1000", "settle")
    play.gets(asked)
    return play.rows([[created()], []] + lives(1))


def both_routers():
    play = Play("two routers create one collection and split it at one key, the second's request first: one creation, one split", 2)
    asked = [play.client(router, shard(sharded(1, seconds=0))) for router in (0, 1)]
    play.play("settle")
    play.gets(asked[0])
    play.gets(asked[1])
    asked = [play.client(0, split("5", changed(2, 0)), 2), play.client(1, split("5L", changed(2, 0)), 2)]
    # of the messages to the catalogue the fourth is that of router 1
    play.play("deliver 0 3", "settle")
    play.gets(asked[1])
    play.gets(asked[0])
    return play.rows([[created(), split_record("d.c", int64(5), at(2))], []] + lives(2))


def twice():
    play = Play("each message of a split twice, the answers in reverse; the request for it once more behind another split")
    play.settled(play.client(0, shard(sharded(1, seconds=0))))
    asked = play.client(0, split(5, changed(2, 0)), 2)
    play.play("deliver 0 1", "deliver 0 1", "deliver 2 2")
    play.gets(asked)
    play.play("deliver 2 1", "deliver 2 2", "deliver 2 1")
    play.settled(play.client(0, split(7, changed(3, 0)), 3))
    play.play("deliver 0 1", "deliver 0 2", "settle")
    return play.rows([[created(), split_record("d.c", int32(5), at(2)), split_record("d.c", int32(7), at(3))], []] + lives(1))


def two_tables(is_reversed):
    words = "the longer first: the other is no news" if is_reversed else "each longer than the last is stored"
    play = Play(f"the shard asks for a table twice, and the collection is split between the answers; {words}", 2)
    asked = play.client(0, Ask(ONE, done(1, 1, seconds=1)))
    # created; the router asks the shard, whose ask for the table is the catalogue's second message, and the third after the moment
    play.play("deliver 0 0", "deliver 2 0", "deliver 1 0", "moment 1 1000", "deliver 0 1")
    other = play.client(1, split(10, changed(2, 0)))
    play.play("deliver 0 3", "deliver 0 2", *(["deliver 1 2", "deliver 1 1"] if is_reversed else ["deliver 1 1", "deliver 1 2", "deliver 1 1"]), "settle")
    play.gets(other)
    play.gets(asked)
    play.settled(play.client(0, find("", first("{_id: 1}", 1, seconds=1)), 2))
    tables = [table_record("d.c", at(1))] * (not is_reversed) + [table_record("d.c", at(1), halves())]
    return play.rows([[created(), split_record("d.c", int32(10), at(2))], tables + [entry(at(1, 1), ONE, 1)]] + lives(2))


def created_since():
    play = Play("118, though the collection was created by the other router before the answer came; then it can be split", 2)
    asked = play.client(0, split(5, MISSING))
    play.play("deliver 0 0")
    other = play.client(1, shard(sharded(1, seconds=0)))
    play.play("deliver 0 1", "deliver 3 0")
    play.gets(other)
    play.play("settle")
    play.gets(asked)
    play.settled(play.client(0, split(5, changed(2, 0)), 2))
    return play.rows([[created(), split_record("d.c", int32(5), at(2))], []] + lives(2))


def first_answer():
    play = Play("a split is requested twice, before its collection was created and since; the second answer comes first, and the first is late", 2)
    asked = play.client(0, split(5, changed(1, 1)))
    play.play("deliver 0 0")
    other = play.client(1, shard(sharded(1, seconds=0)))
    play.play("deliver 0 1", "deliver 3 0")
    play.gets(other)
    play.play("moment 2 1000", "deliver 0 2", "deliver 2 1")
    play.gets(asked)
    play.play("deliver 2 0", "settle")
    return play.rows([[created(), split_record("d.c", int32(5), at(1, 1))], []] + lives(2))


def split_though():
    play = Play("a split is requested twice, before its collection was created and since; the first answer comes first: 118, though the chunk is split", 2)
    asked = play.client(0, split(5, MISSING))
    play.play("deliver 0 0")
    other = play.client(1, shard(sharded(1, seconds=0)))
    play.play("deliver 0 1", "deliver 3 0")
    play.gets(other)
    play.play("moment 2 1000", "deliver 0 2", "settle")
    play.gets(asked)
    play.settled(play.client(0, split(5, changed(1, 1)), 2))
    return play.rows([[created(), split_record("d.c", int32(5), at(1, 1))], []] + lives(2))


def other_table():
    play = Play("a find and a shardCollection of one router: the find's table does not answer the other, though it is there")
    reads = play.client(0, find("", first("", 0, seconds=0)))
    asked = play.client(0, shard(sharded(1, seconds=0)), 2)
    play.play("deliver 0 1", "deliver 0 0", "deliver 2 1")
    play.gets(reads)
    play.play("deliver 2 0")
    play.gets(asked)
    return play.rows([[created()], []] + lives(1))


def one_answer():
    play = Play("an insert and a shardCollection of one router: the table that the insert requested answers both")
    writes = play.client(0, Ask(ONE, done(1, 2, seconds=0)))
    asked = play.client(0, shard(sharded(1, seconds=0)), 2)
    play.play("deliver 0 0", "deliver 2 0")
    play.gets(asked)
    play.play("settle")
    play.gets(writes)
    return play.rows([[created()], [table_record("d.c", at(1)), entry(at(2), ONE, 1)]] + lives(1))


def link_closed():
    play = Play("a link is closed while a split is under way: it is done, and gets no reply; the next link is told that nothing is left to do")
    play.settled(play.client(0, shard(sharded(1, seconds=0))))
    play.client(0, split(5), 2)
    play.play(f"client 0 {'00' * 16}")
    play.closed(0)
    play.play("settle")
    play.settled(play.client(0, split(5, changed(2, 0)), 3))
    return play.rows([[created(), split_record("d.c", int32(5), at(2))], []] + lives(1))


def rows():
    lines = old_table() + held_answer() + moment_creates_once() + both_routers() + twice() + two_tables(False) + two_tables(True)
    return lines + created_since() + first_answer() + split_though() + other_table() + one_answer() + link_closed()
