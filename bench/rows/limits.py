"""Rows of scripts with time limits of requests: a moment at which the limit has passed is the end of a request. Each reply and each record is told by hand."""
from bson import int32
from chunks import shard
from form import Ask
from reads import find, first, inserted
from records import catalogue_ceiling_record, ceiling_record, create_record, split_record, table_record
from retries import done
from routers import ONE, Play, at, entry, lives

TEN = ", maxTimeMS: 10"


def expired(arrived, now):
    return f"{{arrived: {arrived}L, now: {now}L}}"


def late(arrived, now):
    return f'{{ok: 0, errmsg: "MaxTimeMSExpired", code: 50, codeName: "MaxTimeMSExpired", evidence: {expired(arrived, now)}}}'


def given_up(indices, arrived, now):
    shown = [f'{{index: {index}, code: 50, errmsg: "MaxTimeMSExpired", evidence: {expired(arrived, now)}}}' for index in indices]
    return f", writeErrors: [{', '.join(shown)}]"


def insert(documents, says=None, rest=TEN):
    return Ask(f'{{insert: "c", documents: [{documents}]{rest}, $db: "d"}}', says)


def created():
    return create_record("d.c", at(1))


def table():
    return table_record("d.c", at(1))


def a_read():
    play = Play("a find whose limit has passed is refused at that moment, and not a millisecond before; what arrives after it answers nobody")
    asked = play.client(0, find("maxTimeMS: 10", late(0, 10)))
    play.play("moment 2 9", "moment 2 10")
    play.gets(asked)
    play.play("settle")
    return play.rows([[catalogue_ceiling_record(at(0))] * 2, []] + lives(1))


def a_write():
    play = Play("an insert whose limit passes before it is sent to the shard: it is refused, and not applied; its limit counts from the last moment before it")
    play.play("moment 2 5")
    asked = play.client(0, insert(ONE, done(0, 0, given_up([0], 5, 15), 0)))
    play.play("moment 2 14", "moment 2 15")
    play.gets(asked)
    play.play("settle")
    play.settled(play.client(0, find("", first("", 1, seconds=0)), 2))
    return play.rows([[created()], [table(), ceiling_record(at(1))]] + lives(1))


def a_sent_write():
    play = Play("an insert whose limit passes while its outcome is held: it is refused, and applied once")
    play.play("moment 2 5")
    asked = play.client(0, insert(ONE, done(0, 1, given_up([0], 5, 15), 0)))
    play.play("settle except WriteDone", "moment 2 15")
    play.gets(asked)
    play.play("settle")
    play.settled(play.client(0, find("", first(ONE, 2, seconds=0)), 2))
    return play.rows([[created()], [table(), entry(at(2), inserted(ONE), 1)]] + lives(1))


def two(words, rest, line, says, stored, sorted_first, is_late=True):
    play = Play(words)
    play.play("moment 2 5")
    documents = "{_id: 1}, {_id: 2}"
    asked = play.client(0, insert(documents, says, rest + TEN))
    play.play(*line, "moment 2 15")
    if is_late:
        play.gets(asked)
        play.play("settle")
    else:
        play.settled(asked)
    play.settled(play.client(0, find("sort: {_id: 1}", sorted_first), 2))
    entries = [entry(at(2 + index), inserted(documents), 1, index=index) for index in range(stored)] or [ceiling_record(at(1))]
    return play.rows([[created()], [table()] + entries] + lives(1))


def two_statements():
    both = first("{_id: 1}, {_id: 2}", 3, seconds=0)
    held = ["settle except WriteDone"]
    lines = two("two statements in any order, whose outcomes are held: each is refused, and each is applied once", ", ordered: false", held,
        done(0, 1, given_up([0, 1], 5, 15), 0), 2, both)
    lines += two("two statements in order, under way together: there is no refusal, and the outcomes are returned when they come", "", held,
        done(2, 3, seconds=0), 2, both, is_late=False)
    return lines + two("two statements in order, of which nothing is sent: the first is refused, which ends the command", "", [],
        done(0, 0, given_up([0], 5, 15), 0), 0, first("", 1, seconds=0))


def no_limit():
    play = Play("a limit of 0 is none, and one that has not passed changes nothing; one that has passed before the request came counts from then")
    unlimited = play.client(0, find("maxTimeMS: 0", first("", 0, seconds=0)))
    limited = play.client(0, find("maxTimeMS: 2147483647", first("", 0, seconds=0)), 2)
    play.play("moment 2 900", "settle")
    play.gets(unlimited)
    play.gets(limited)
    short = play.client(0, find("maxTimeMS: 1", first("", 0, seconds=0)), 3)
    play.settled(short)
    return play.rows([[catalogue_ceiling_record(at(0))] * 5, []] + lives(1))


def a_collection():
    play = Play("shardCollection and then split, whose limits pass before the catalogue is asked: both are refused, and done all the same")
    sharded = play.client(0, shard(late(0, 10), key="key: {_id: 1}" + TEN))
    divided = play.client(0, Ask(f'{{split: "d.c", middle: {{_id: 10}}{TEN}, $db: "admin"}}', late(0, 10)), 2)
    play.play("moment 2 10")
    play.gets(sharded)
    play.gets(divided)
    play.play("settle")
    return play.rows([[created(), split_record("d.c", int32(10), at(2))], []] + lives(1))


def rows():
    return a_read() + a_write() + a_sent_write() + two_statements() + no_limit() + a_collection()
