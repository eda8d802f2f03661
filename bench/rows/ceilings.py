"""Rows of scripts with ceilings: what a read stores, of the shard that it is above and of the catalogue that has no such collection.

Each reply and each record is told by hand, as in `routers`.
"""
from form import Ask
from reads import count, counted, find, first, inserted
from records import catalogue_ceiling_record, ceiling_record, create_record, table_record
from retries import done
from routers import Play, at, entry, lives

ONE = inserted("{_id: 1}")
AFTER = "readConcern: {afterClusterTime: Timestamp(5, 0)}"


def snapshot(seconds, counter=0):
    return f'readConcern: {{level: "snapshot", atClusterTime: Timestamp({seconds}, {counter})}}'


def creation(counter=1, seconds=0):
    return create_record("d.c", at(counter, seconds)), table_record("d.c", at(counter, seconds))


def stored_once():
    play = Play("a read above what the shard stores has it store a ceiling; one at that time, after it and at an earlier time store none")
    created, table = creation()
    play.settled(play.client(0, Ask(ONE, done(1, 2, seconds=0))))
    play.play("moment 2 5000")
    play.settled(play.client(0, find("", first("{_id: 1}", 0, seconds=5)), 2))
    play.settled(play.client(0, find(AFTER, first("{_id: 1}", 0, seconds=5)), 3))
    play.settled(play.client(0, find(snapshot(2), first("{_id: 1}", 0, seconds=2)), 4))
    return play.rows([[created], [table, entry(at(2), ONE, 1), ceiling_record(at(0, 5))]] + lives(1))


def no_collection():
    play = Play("reads of a collection that there is not: the catalogue stores each; a write is above them; a read before the creation stores none")
    play.play("moment 2 5000")
    for number in range(3):
        play.settled(play.client(0, find("", first("", 0, seconds=5)), number + 1))
    play.settled(play.client(0, Ask(ONE, done(1, 2, seconds=5)), 4))
    play.settled(play.client(0, find(snapshot(1), first("", 0, seconds=1)), 5))
    created, table = creation(1, 5)
    stored = [catalogue_ceiling_record(at(0, 5))] * 3 + [created]
    return play.rows([stored, [table, entry(at(2, 5), ONE, 4)]] + lives(1))


def rising():
    play = Play("ceilings rise with the seconds: an entry between two seconds has a read of it store none; a read of another collection stores none either")
    created, table = creation()
    other = inserted("{_id: 2}").replace('"c"', '"e"')
    play.settled(play.client(0, Ask(ONE, done(1, 2, seconds=0))))
    play.settled(play.client(0, Ask(other, done(1, 4, seconds=0)), 2))
    play.settled(play.client(0, count("", counted(1, 4, 0)), 3))
    play.play("moment 2 3000")
    play.settled(play.client(0, count("", counted(1, 0, 3)), 4))
    play.settled(play.client(0, Ask('{count: "e", $db: "d"}', counted(1, 0, 3)), 5))
    play.play("moment 2 4000")
    play.settled(play.client(0, Ask(inserted("{_id: 3}"), done(1, 1, seconds=4)), 6))
    play.settled(play.client(0, count("", counted(2, 1, 4)), 7))
    play.play("moment 2 5000")
    play.settled(play.client(0, find(snapshot(4), first("{_id: 1}", 0, seconds=4)), 8))
    play.settled(play.client(0, count("", counted(2, 0, 5)), 9))
    stored = [table, entry(at(2), ONE, 1), table_record("d.e", at(3)), entry(at(4), other, 2, namespace="d.e"), ceiling_record(at(0, 3)),
        entry(at(1, 4), inserted("{_id: 3}"), 6), ceiling_record(at(0, 5))]
    return play.rows([[created, create_record("d.e", at(3))], stored] + lives(1))


def twice():
    play = Play("the request of a read twice at the shard: one ceiling; the documents that are told again have no effect")
    created, table = creation()
    play.settled(play.client(0, Ask(ONE, done(1, 2, seconds=0))))
    play.play("moment 2 5000")
    asked = play.client(0, find("", first("{_id: 1}", 0, seconds=5)), 2)
    # the fourth message to the shard is the request; its halves are the fifth and the sixth
    play.play("deliver 1 3", "deliver 1 3", "deliver 1 5", "deliver 1 4", "deliver 2 3")
    play.gets(asked)
    play.play("settle")
    return play.rows([[created], [table, entry(at(2), ONE, 1), ceiling_record(at(0, 5))]] + lives(1))


def none_twice():
    play = Play("the request for a table twice at the catalogue, and once more behind the creation: two ceilings", 2)
    play.play("moment 2 5000")
    asked = play.client(0, find("", first("", 0, seconds=5)))
    play.play("deliver 0 0", "deliver 0 0", "deliver 2 1")
    play.gets(asked)
    play.settled(play.client(1, Ask(ONE, done(1, 2, seconds=5))))
    play.play("deliver 0 0", "settle")
    created, table = creation(1, 5)
    return play.rows([[catalogue_ceiling_record(at(0, 5))] * 2 + [created], [table, entry(at(2, 5), ONE, 1, router=1)]] + lives(2))


def above_another():
    play = Play("a read by a router that is ahead: the other's write, by an older clock, is above the ceiling, and no later read at that time sees it", 2)
    created, table = creation()
    play.settled(play.client(0, Ask(ONE, done(1, 2, seconds=0))))
    play.play("moment 3 7000")
    play.settled(play.client(1, find("", first("{_id: 1}", 0, seconds=7))))
    play.settled(play.client(0, Ask(inserted("{_id: 2}"), done(1, 1, seconds=7)), 2))
    play.settled(play.client(0, find(snapshot(7), first("{_id: 1}", 0, seconds=7)), 3))
    stored = [table, entry(at(2), ONE, 1), ceiling_record(at(0, 7)), entry(at(1, 7), inserted("{_id: 2}"), 2)]
    return play.rows([[created], stored] + lives(2))


def one_router():
    """The rows of scripts with one router."""
    return stored_once() + no_collection() + rising() + twice()


def rows():
    """The rows of scripts with several."""
    return none_twice() + above_another()
