"""Rows of a router alone, with two shards that both have keys: its writes. The keys from 10 on are the second shard's."""
from alone import FIND
from alone_router import Router
from reads import first

SESSION = 'lsid: {id: UUID("000102030405060708090a0b0c0d0e0f")}, txnNumber: 5L'


def insert(*keys, rest="", collection="c"):
    """An insert of documents with these keys."""
    documents = ", ".join(f"{{_id: {key}}}" for key in keys)
    return f'{{insert: "{collection}", documents: [{documents}]{", " if rest else ""}{rest}, $db: "d"}}'


def unordered(*keys, rest=""):
    return insert(*keys, rest="ordered: false" + (f", {rest}" if rest else ""))


def answered(n, counter, more="", seconds=5):
    """The reply to a write, with the time of the last of its statements that were applied."""
    return f"{{n: {n}, {more}{', ' if more else ''}ok: 1, operationTime: Timestamp({seconds}, {counter})}}"


def errors(*listed):
    """Errors, each by its index, code and name, and evidence if there is some."""
    items = [f'{{index: {index}, code: {code}, errmsg: "{name}"{"".join(more)}}}' for index, code, name, *more in listed]
    return f"writeErrors: [{', '.join(items)}]"


def too_old(index, transaction):
    return index, 225, "TransactionTooOld", f", evidence: {{txnNumber: {transaction}L}}"


def begun(title, source, sends):
    """A new router, a write that it takes, and the table."""
    return Router(title).moment(5000).asks(source).begun(sends)


def three(title):
    """An unordered insert of three keys, the second of which is the second shard's."""
    return begun(title, unordered(1, 11, 2), "WriteAsk 1: 0 2, WriteAsk 2: 1")


def two_runs(title):
    """An ordered insert of four keys, the third of which is the second shard's."""
    return begun(title, insert(1, 2, 11, 3), "WriteAsk 1: 0 1")


LOWER, UPPER = "0 5.1 1, 2 5.2 1", "1 5.3 1"


def unordered_ones():
    return [
        three("an unordered insert goes to each owner at once; the first shard answers first").done(1, 1, LOWER).done(2, 1, UPPER, says=answered(3, 3)),
        three("the second answers first: the same reply").done(2, 1, UPPER).done(1, 1, LOWER, says=answered(3, 3)),
        three("the time is the greatest, not that of the last statement or the last answer")
        .done(1, 1, "0 5.9 1, 2 5.2 1").done(2, 1, UPPER, says=answered(3, 9)),
        three("each answers twice: one reply").done(1, 1, LOWER).done(1, 1, LOWER).done(2, 1, UPPER, says=answered(3, 3))
        .done(2, 1, UPPER).done(1, 1, LOWER),
        begun("the first key is the second shard's: it is asked first", unordered(11, 1, 12), "WriteAsk 2: 0 2, WriteAsk 1: 1")
        .done(1, 1, "1 5.2 1").done(2, 1, "0 5.1 1, 2 5.4 1", says=answered(3, 4)),
        begun("all keys of one shard", unordered(11, 10), "WriteAsk 2: 0 1").done(2, 1, "0 5.1 1, 1 5.2 1", says=answered(2, 2)),
        begun("the keys beside the border, of other types too", unordered(9, 10, "10L", '""', "null", "-1L"), "WriteAsk 1: 0 4 5, WriteAsk 2: 1 2 3"),
        Router("another border").moment(5000).asks(unordered(5, 4, 3, 6)).begun("WriteAsk 2: 0 3, WriteAsk 1: 1 2", middle=5),
        begun("five statements, answered one by one in the order of their indices from behind", unordered(1, 11, 2, 12, 3),
              "WriteAsk 1: 0 2 4, WriteAsk 2: 1 3")
        .done(1, 1, "4 5.1 1", "WriteAsk 1: 0 2").done(2, 1, "3 5.2 1", "WriteAsk 2: 1").done(1, 1, "2 5.3 1", "WriteAsk 1: 0")
        .done(2, 1, "1 5.4 1").done(1, 1, "0 5.5 1", says=answered(5, 5)),
    ]


def ordered_ones():
    return [
        two_runs("an ordered insert goes one run after another").done(1, 1, "0 5.1 1, 1 5.2 1", "WriteAsk 2: 2").done(2, 1, "2 5.3 1", "WriteAsk 1: 3")
        .done(1, 1, "3 5.4 1", says=answered(4, 4)),
        two_runs("each run is answered twice").done(1, 1, "0 5.1 1, 1 5.2 1", "WriteAsk 2: 2").done(1, 1, "0 5.1 1, 1 5.2 1")
        .done(2, 1, "2 5.3 1", "WriteAsk 1: 3").done(2, 1, "2 5.3 1").done(1, 1, "3 5.4 1", says=answered(4, 4)).done(1, 1, "3 5.4 1"),
        begun("the first run is the second shard's", insert(11, 12, 1), "WriteAsk 2: 0 1").done(2, 1, "0 5.1 1, 1 5.2 1", "WriteAsk 1: 2")
        .done(1, 1, "2 5.3 1", says=answered(3, 3)),
        begun("each statement is a run, and ordered is given", insert(1, 11, 2, 12, rest="ordered: true"), "WriteAsk 1: 0")
        .done(1, 1, "0 5.1 1", "WriteAsk 2: 1").done(2, 1, "1 5.2 1", "WriteAsk 1: 2").done(1, 1, "2 5.3 1", "WriteAsk 2: 3")
        .done(2, 1, "3 5.4 1", says=answered(4, 4)),
        begun("one statement", insert(11), "WriteAsk 2: 0").done(2, 1, "0 5.1 1", says=answered(1, 1)),
        two_runs("an outcome counts only behind outcomes of all statements before it").done(1, 1, "1 5.2 1").done(2, 1, "2 5.3 1")
        .done(1, 1, "1 5.2 1, 0 5.1 1", "WriteAsk 1: 1").done(1, 1, "1 5.2 1", "WriteAsk 2: 2"),
        two_runs("outcomes of statements that were not sent yet count too, in their order").done(2, 1, "0 5.1 1, 1 5.2 1, 2 5.3 1", "WriteAsk 1: 3")
        .done(1, 1, "3 5.4 1", says=answered(4, 4)),
        two_runs("a part of a run with a statement that was not sent yet does not count behind the gap").done(1, 1, "0 5.1 1, 2 5.3 1", "WriteAsk 1: 1")
        .done(1, 1, "1 5.2 1", "WriteAsk 2: 2"),
    ]


def failing():
    duplicate = "DuplicateKey"
    return [
        two_runs("an error ends an ordered write: statements behind it are not sent")
        .done(1, 1, "0 5.1 1, 1 5.2 error 11000", says=answered(1, 2, errors((1, 11000, duplicate)))).done(2, 1, "2 5.3 1"),
        two_runs("an error at its first statement, and no outcome of the rest of the run")
        .done(1, 1, "0 5.1 error 11000", says=answered(0, 1, errors((0, 11000, duplicate)))).moment(6000),
        two_runs("an error in its second run").done(1, 1, "0 5.1 1, 1 5.2 1", "WriteAsk 2: 2")
        .done(2, 1, "2 5.3 error 11000", says=answered(2, 3, errors((2, 11000, duplicate)))).done(1, 1, "3 5.4 1"),
        three("an error in an unordered write: the others count").done(1, 1, "0 5.1 error 11000, 2 5.2 1")
        .done(2, 1, UPPER, says=answered(2, 3, errors((0, 11000, duplicate)))),
        three("errors of both shards, in the order of the statements").done(2, 1, "1 5.3 error 11000")
        .done(1, 1, "0 5.1 1, 2 5.2 error 11000", says=answered(1, 3, errors((1, 11000, duplicate), (2, 11000, duplicate)))),
        three("an error alone of a run: the rest is asked again").done(1, 1, "0 5.1 error 11000", "WriteAsk 1: 2").done(2, 1, UPPER)
        .done(1, 1, "2 5.4 1", says=answered(2, 4, errors((0, 11000, duplicate)))),
    ]


def in_part():
    return [
        three("a run that is served in part: its rest is asked again, and no other").done(1, 1, "0 5.1 1", "WriteAsk 1: 2").done(2, 1, UPPER)
        .done(1, 1, "2 5.4 1", says=answered(3, 4)),
        three("served in part from behind").done(1, 1, "2 5.1 1", "WriteAsk 1: 0").done(1, 1, "2 5.1 1").done(1, 1, "0 5.2 1")
        .done(2, 1, UPPER, says=answered(3, 3)),
        two_runs("an ordered run that is served in part").done(1, 1, "0 5.1 1", "WriteAsk 1: 1").done(1, 1, "0 5.1 1").done(1, 1, "1 5.2 1", "WriteAsk 2: 2"),
        three("both runs are told of in one message, the first in part").done(1, 1, "0 5.1 1, 1 5.3 1", "WriteAsk 1: 2")
        .done(1, 1, "2 5.2 1", says=answered(3, 3)),
        begun("both in part, in one message: the rests in the order of the runs", unordered(11, 1, 12, 2), "WriteAsk 2: 0 2, WriteAsk 1: 1 3")
        .done(1, 1, "1 5.1 1, 2 5.2 1", "WriteAsk 2: 0, WriteAsk 1: 3").done(2, 1, "0 5.3 1").done(1, 1, "3 5.4 1", says=answered(4, 4)),
        three("a statement that has an outcome keeps it").done(1, 1, "0 5.1 1", "WriteAsk 1: 2").done(1, 1, "0 5.9 error 11000")
        .done(1, 1, "0 5.9 error 11000, 2 5.2 1").done(2, 1, UPPER, says=answered(3, 3)),
        three("two outcomes of one statement in one message: the first counts").done(1, 1, "0 5.1 error 11000, 0 5.9 1, 2 5.2 1")
        .done(2, 1, UPPER, says=answered(2, 3, errors((0, 11000, "DuplicateKey")))),
        three("no outcome, and one of a statement that is not there").done(1, 1, "").done(1, 1, "3 5.1 1").done(1, 1, "4294967295 5.1 1")
        .done(1, 1, LOWER + ", 3 5.9 1").done(2, 1, UPPER, says=answered(3, 3)),
        three("outcomes count whoever tells of them").done(2, 1, LOWER).done(5, 1, UPPER, says=answered(3, 3)),
    ]


def moments():
    return [
        three("at a moment what is under way is asked again").moment(6000, "WriteAsk 1: 0 2, WriteAsk 2: 1").done(2, 1, UPPER).moment(7000, "WriteAsk 1: 0 2")
        .done(1, 1, "0 5.1 1", "WriteAsk 1: 2").moment(8000, "WriteAsk 1: 2").done(1, 1, "2 5.2 1", says=answered(3, 3)).moment(9000),
        two_runs("of an ordered write the run alone").moment(6000, "WriteAsk 1: 0 1").done(1, 1, "0 5.1 1", "WriteAsk 1: 1").moment(7000, "WriteAsk 1: 1")
        .done(1, 1, "1 5.2 1", "WriteAsk 2: 2").moment(8000, "WriteAsk 2: 2").done(2, 1, "2 5.3 1", "WriteAsk 1: 3")
        .done(1, 1, "3 8.1 1", says=answered(4, 1, seconds=8)).moment(9000),
        Router("a write that waits for the table asks for it again").moment(5000).asks(unordered(1, 11)).moment(6000, "TableAsk 0").moment(6000, "TableAsk 0")
        .begun("WriteAsk 1: 0, WriteAsk 2: 1").moment(7000, "WriteAsk 1: 0, WriteAsk 2: 1"),
        three("two writes: the requests in their order").asks(insert(12, 3), "WriteAsk 2: 0").moment(6000, "WriteAsk 1: 0 2, WriteAsk 2: 1, WriteAsk 2: 0")
        .done(1, 1, LOWER).moment(7000, "WriteAsk 2: 1, WriteAsk 2: 0").done(2, 2, "0 5.4 1", "WriteAsk 1: 1").moment(8000, "WriteAsk 2: 1, WriteAsk 1: 1"),
    ]


def late_ones():
    early = Router("outcomes before there is a table count, and their statements are not sent").moment(5000).asks(unordered(1, 11, 2))
    early.done(1, 1, "0 5.1 1").begun("WriteAsk 2: 1, WriteAsk 1: 2").done(1, 1, "2 5.2 1").done(2, 1, UPPER, says=answered(3, 3))
    in_order = Router("of an ordered write too, and the table is asked for again").moment(5000).asks(insert(1, 2, 11))
    in_order.done(1, 1, "1 5.2 1").done(1, 1, "0 5.1 1", "TableAsk 0").begun("WriteAsk 1: 1").done(1, 1, "1 5.2 1", "WriteAsk 2: 2")
    unsent = Router("all outcomes before there is a table: the reply, and the table has no effect").moment(5000).asks(unordered(1, 11))
    unsent.done(1, 1, "0 5.1 1, 1 5.2 1", says=answered(2, 2)).begun("").asks(insert(1, 12), "WriteAsk 1: 0")
    return [
        early, in_order, unsent,
        three("outcomes of other requests").done(1, 2, LOWER).done(1, 0, LOWER).done(1, 1, LOWER).done(2, 2, UPPER).done(2, 1, UPPER, says=answered(3, 3))
        .done(2, 1, UPPER).done(1, 1, LOWER),
        Router("outcomes before any request").moment(5000).done(1, 1, LOWER).asks(unordered(1, 11, 2)),
        three("the table once more").begun("").table("").done(1, 1, LOWER).begun("").done(2, 1, UPPER, says=answered(3, 3)).begun(""),
    ]


def update(*changes, rest="ordered: false", more=""):
    """An update of statements, each a key and what is done to its document."""
    updates = ", ".join(f"{{q: {{_id: {key}}}, u: {change}{more}}}" for key, change in changes)
    return f'{{update: "c", updates: [{updates}], {rest}, $db: "d"}}'


def changing():
    change, path = "{$set: {x: 1}}", '{$set: {"x.y": 1}}'
    both = update((1, change), (11, change), (2, change))
    upserts = update((11, change), (1, change), (12, change), more=", upsert: true")
    deletes = ", ".join(f"{{q: {{_id: {key}}}, limit: 1}}" for key in (1, 11, 2))
    deletes = f'{{delete: "c", deletes: [{deletes}], ordered: false, $db: "d"}}'
    sent = "WriteAsk 1: 0 2, WriteAsk 2: 1"
    kinds = errors((0, 66, "ImmutableField"), (1, 2, "BadValue"), (2, 10334, "BSONObjectTooLarge"))
    return [
        begun("updates: matched and changed are summed", both, sent).done(2, 1, "1 5.3 1 1")
        .done(1, 1, "0 5.1 1 1, 2 5.2 1 0", says=answered(3, 3, "nModified: 2")),
        begun("updates that match nothing", both, sent).done(1, 1, "0 5.1 0 0, 2 5.2 0 0").done(2, 1, "1 5.3 0 0", says=answered(0, 3, "nModified: 0")),
        begun("an ordered update whose second run fails", update((1, change), (11, path), (2, change), rest="ordered: true"), "WriteAsk 1: 0")
        .done(1, 1, "0 5.1 1 1", "WriteAsk 2: 1").done(2, 1, "1 5.2 error 28", says=answered(1, 2, "nModified: 1, " + errors((1, 28, "PathNotViable")))),
        begun("upserts: their keys in the order of the statements", upserts, "WriteAsk 2: 0 2, WriteAsk 1: 1").done(1, 1, "1 5.3 upserts 1")
        .done(2, 1, "0 5.1 upserts 11, 2 5.2 1 1", says=answered(3, 3, "nModified: 1, upserted: [{index: 0, _id: 11}, {index: 1, _id: 1}]")),
        begun("updates with errors of other kinds", both, sent).done(1, 1, "0 5.1 error 66, 2 5.2 error 10334")
        .done(2, 1, "1 5.3 error 2", says=answered(0, 3, f"nModified: 0, {kinds}")),
        begun("deletes: some find a document", deletes, sent).done(1, 1, "0 5.1 1, 2 5.2 0").done(2, 1, "1 5.3 1", says=answered(2, 3)),
        begun("deletes that find none", deletes, sent).done(2, 1, "1 5.1 0").done(1, 1, "0 5.3 0, 2 5.2 0", says=answered(0, 3)),
    ]


def sessions():
    numbered = unordered(1, 11, 2, rest=SESSION)
    sent = "WriteAsk 1: 0 2 txn 5, WriteAsk 2: 1 txn 5"
    return [
        begun("a write with a number of a session: its statements keep it", numbered, sent).moment(6000, sent).done(1, 1, "0 5.1 1", "WriteAsk 1: 2 txn 5")
        .done(2, 1, UPPER).done(1, 1, "2 5.2 1", says=answered(3, 3)),
        begun("a shard has a greater number: the others count", numbered, sent).done(2, 1, "1 old 7")
        .done(1, 1, LOWER, says=answered(2, 2, errors(too_old(1, 7)))),
        begun("both have: none was applied, and the time is the router's", numbered, sent).done(2, 1, "1 old 7").moment(7000, "WriteAsk 1: 0 2 txn 5")
        .done(1, 1, "0 old 9, 2 old 9", says=answered(0, 0, errors(too_old(0, 9), too_old(1, 7), too_old(2, 9)), seconds=7)),
        begun("it ends an ordered write", insert(1, 11, 2, rest=SESSION), "WriteAsk 1: 0 txn 5").done(1, 1, "0 5.1 1", "WriteAsk 2: 1 txn 5")
        .done(2, 1, "1 old 6", says=answered(1, 1, errors(too_old(1, 6)))),
        begun("at its first statement", insert(1, 2, 11, rest=SESSION), "WriteAsk 1: 0 1 txn 5")
        .done(1, 1, "0 old 6", says=answered(0, 0, errors(too_old(0, 6)))),
    ]


def several():
    waiting = Router("three writes wait for the table: it sends all, in the order of the requests").moment(5000)
    waiting.asks(unordered(1, 11, 2)).asks(insert(12, 3)).asks(unordered(4, 13), number=9).moment(6000, "TableAsk 0, TableAsk 0, TableAsk 0")
    waiting.begun("WriteAsk 1: 0 2, WriteAsk 2: 1, WriteAsk 2: 0, WriteAsk 1: 0, WriteAsk 2: 1")
    waiting.done(2, 3, "1 5.1 1").done(1, 3, "0 5.2 1", says=answered(2, 2))
    waiting.done(1, 1, LOWER).done(2, 2, "0 5.4 1", "WriteAsk 1: 1").done(2, 1, UPPER, says=answered(3, 3)).done(1, 2, "1 5.5 1", says=answered(2, 5))
    read = Router("a read that waits beside a write goes on with the write's table").moment(5000).asks(unordered(11, 1)).asks(FIND)
    read.begun("WriteAsk 2: 0, WriteAsk 1: 1, ReadAsk 1, ReadAsk 2").done(2, 1, "0 5.1 1").done(2, 2, "0 5.1 1").part(1, ["{_id: 1}"], count=2)
    read.done(1, 1, "1 5.2 1", says=answered(2, 2)).part(2, ["{_id: 12}"], count=2, gets=(FIND, 2, first("{_id: 1}, {_id: 12}", 0, seconds=5)))
    other = Router("a write of another collection waits on").moment(5000).asks(insert(1, collection="e")).asks(insert(1, 11))
    other.begun("WriteAsk 1: 0").moment(6000, "TableAsk 0, WriteAsk 1: 0").done(1, 2, "0 5.1 1", "WriteAsk 2: 1").done(2, 2, "1 5.2 1", says=answered(2, 2))
    return [
        waiting, read, other.moment(7000, "TableAsk 0"),
        Router("a write goes on with the table of a read").moment(5000).asks(FIND).asks(insert(1, 11)).table("ReadAsk 1, ReadAsk 2, WriteAsk 1: 0"),
        three("a write that comes once there is a table is sent at once").asks(unordered(12, 3), "WriteAsk 2: 0, WriteAsk 1: 1")
        .asks(insert(4, 5), "WriteAsk 1: 0 1")
        .done(1, 3, "0 5.1 1, 1 5.2 1", says=answered(2, 2)).done(1, 2, "1 5.3 1").done(2, 2, "0 5.4 1", says=answered(2, 4))
        .done(2, 1, UPPER).done(1, 1, LOWER, says=answered(3, 3)),
    ]


def lines():
    head = ["# One step of a router after another, of a cluster of a catalogue, two shards and this router, whose number is 3:",
            "# VERB WORDS | MORE | MESSAGES | REPLY. The messages and replies are those of the separate account of bench/rows, worked out there.",
            "# A WriteAsk is told with the indices of its statements."]
    routers = unordered_ones() + ordered_ones() + failing() + in_part() + moments() + late_ones() + changing() + sessions() + several()
    return head + [line for router in routers for line in router.lines]
