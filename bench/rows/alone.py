"""Rows of a router alone, with two shards that both have keys: its inputs, and what it sends and returns. The keys from 10 on are the second shard's."""
from bson import fields_of, written
from form import Ask
from reads import counted, first
from wire import Request, reply_bytes

TABLE = "table 10 | | {sent}"


def request(source):
    return Ask(source).bytes(1)


def reply(source, number, says):
    return reply_bytes(Request(request(source)), number, fields_of(says)).hex()


def asks(source, number, sent):
    return f"# {source}\nasks {number} | {request(source).hex()} | {sent} |"


def part(shard, documents, count=1, turn=1, gets=None):
    """A part of the read, and what is returned: the source of the request, the number and the words of the reply."""
    shown = ", ".join(written(fields_of(document)).hex() for document in documents)
    note = f"# {', '.join(documents) or 'no document'}" + (f": {gets[2]}" if gets else "")
    return f"{note}\npart {shard} {count} {turn} | {shown} | | {reply(*gets) if gets else ''}".rstrip()


def other(verb, shard, words, gets=None):
    note = f"# {gets[2]}\n" if gets else ""
    return f"{note}{verb} {shard} 1 1 | {words} | | {reply(*gets) if gets else ''}".rstrip()


def begun(title, source, sent="ReadAsk 1, ReadAsk 2"):
    """A new router, a read that it takes, and the table."""
    return ["", f"# {title}", "router", "moment 5000", asks(source, 1, "TableAsk 0"), TABLE.format(sent=sent)]


FIND = '{find: "c", $db: "d"}'
BOTH = (FIND, 1, first("{_id: 1}, {_id: 12}", 0, seconds=5))
LATE = [part(1, ["{_id: 1}"]), part(2, ["{_id: 12}"])]


def orders():
    return (begun("the parts in the order of the shards", FIND) + [part(1, ["{_id: 1}"]), part(2, ["{_id: 12}"], gets=BOTH)] + LATE
            + begun("the parts in the other order: the same reply", FIND) + [part(2, ["{_id: 12}"]), part(1, ["{_id: 1}"], gets=BOTH)] + LATE
            + begun("a part that comes twice counts once, the first time", FIND)
            + [part(2, ["{_id: 12}"]), part(2, ["{_id: 13}"]), part(1, ["{_id: 1}"], gets=BOTH)])


def others():
    return (begun("parts of another turn, of another request, and of a shard that was not asked", FIND)
            + [part(1, ["{_id: 7}"], turn=2), part(1, ["{_id: 7}"], turn=0), part(1, ["{_id: 7}"], count=2), part(5, ["{_id: 7}"]), part(0, ["{_id: 7}"]),
               part(2, ["{_id: 12}"]), part(1, ["{_id: 1}"], gets=BOTH)]
            + begun("at a moment those are asked again that have not returned their parts", FIND)
            + ["moment 6000 | | ReadAsk 1, ReadAsk 2 |", part(2, ["{_id: 12}"]), "moment 7000 | | ReadAsk 1 |",
               part(1, ["{_id: 1}"], gets=BOTH), "moment 8000"])


def spans():
    def one(title, condition, sent):
        return begun(title, f'{{find: "c", filter: {condition}, $db: "d"}}', sent)
    return (one("a key of the first shard", "{_id: 9}", "ReadAsk 1") + one("a key of the second", "{_id: 10}", "ReadAsk 2")
            + one("keys of the second alone", "{_id: {$gte: 10}}", "ReadAsk 2") + one("keys of the first alone", "{_id: {$lt: 10}}", "ReadAsk 1")
            + one("keys of both", "{_id: {$lte: 10}}", "ReadAsk 1, ReadAsk 2") + one("two keys, one of each", "{_id: {$in: [12, 1]}}", "ReadAsk 1, ReadAsk 2")
            + one("no key: the owner of the least one", "{_id: {$in: []}}", "ReadAsk 1"))


def merged():
    by_key = '{find: "c", sort: {_id: -1}, $db: "d"}'
    count = '{count: "c", $db: "d"}'
    return (begun("documents in the order of a sort", by_key)
            + [part(1, ["{_id: 3}", "{_id: 1}"]),
               part(2, ["{_id: 14}", "{_id: 12}"], gets=(by_key, 1, first("{_id: 14}, {_id: 12}, {_id: 3}, {_id: 1}", 0, seconds=5)))]
            + begun("a count", count) + [other("counted", 2, 5), other("counted", 1, 2, gets=(count, 1, counted(7, 0, seconds=5)))]
            + begun("a part without documents", FIND) + [part(1, []), part(2, ["{_id: 12}"], gets=(FIND, 1, first("{_id: 12}", 0, seconds=5)))])


def refused(code, name, evidence=""):
    return f'{{ok: 0, errmsg: "{name}", code: {code}, codeName: "{name}"{evidence}}}'


def faults():
    much = refused(292, "QueryExceededMemoryLimitNoDiskUseAllowed", ", evidence: {bytes: 17000000L}")
    over = refused(15, "Overflow")
    return (begun("a part that is too long: once the others came", FIND) + [other("fault", 1, 17000000), part(2, ["{_id: 12}"], gets=(FIND, 1, much))]
            + begun("a part with an overflow", FIND) + [part(1, ["{_id: 1}"]), other("fault", 2, "overflow", gets=(FIND, 1, over))]
            + begun("both: that of the first shard, in either order", FIND) + [other("fault", 2, "overflow"), other("fault", 1, 17000000, gets=(FIND, 1, much))]
            + begun("both, the other way round", FIND) + [other("fault", 2, 17000000), other("fault", 1, "overflow", gets=(FIND, 1, over))])


def lines():
    head = ["# One step of a router after another, of a cluster of a catalogue, two shards and this router, whose number is 3:",
            "# VERB WORDS | MORE | MESSAGES | REPLY. The replies are those of the separate account of bench/rows, worked out there."]
    return head + orders() + others() + spans() + merged() + faults()
