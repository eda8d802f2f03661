"""Rows of finds, aggregates and counts."""
from form import Ask, connection_row, greeting

THREE = '{insert: "c", documents: [{_id: 1, x: 2}, {_id: 2, x: 2}, {_id: 3, x: 5}], $db: "d"}'
ONE = '{insert: "c", documents: [{_id: 1}], $db: "d"}'
M = 9223372036854775807


def first(documents, counter, namespace="d.c", identifier=0, seconds=1000):
    """The reply with a first batch, at that time."""
    at = f"Timestamp({seconds}, {counter})"
    return f'{{cursor: {{id: {identifier}L, ns: "{namespace}", firstBatch: [{documents}], atClusterTime: {at}}}, ok: 1, operationTime: {at}}}'


def counted(number, counter, seconds=1000):
    at = f"Timestamp({seconds}, {counter})"
    return f"{{n: {number}, atClusterTime: {at}, ok: 1, operationTime: {at}}}"


def refused(code, name, evidence=None):
    more = f", evidence: {evidence}" if evidence else ""
    return f'{{ok: 0, errmsg: "{name}", code: {code}, codeName: "{name}"{more}}}'


def find(rest, says=None, **options):
    return Ask(f'{{find: "c"{", " if rest else ""}{rest}, $db: "d"}}', says, **options)


def aggregate(stages, says=None, rest="cursor: {}", **options):
    return Ask(f'{{aggregate: "c", pipeline: [{stages}], {rest}, $db: "d"}}', says, **options)


def count(rest, says=None, **options):
    return Ask(f'{{count: "c"{", " if rest else ""}{rest}, $db: "d"}}', says, **options)


def inserted(documents):
    return f'{{insert: "c", documents: [{documents}], $db: "d"}}'


def examples():
    """The examples that stand in the description of these commands."""
    snapshot = 'readConcern: {level: "snapshot", atClusterTime: Timestamp(1000, %d)}'
    lines = connection_row("three documents: a filter, a time, a sort with skip, limit and projection, a path of digits", [
        Ask(THREE, "{n: 3, ok: 1, operationTime: Timestamp(1000, 4)}"),
        find("filter: {x: {$lt: 5}}, sort: {_id: 1}", first("{_id: 1, x: 2}, {_id: 2, x: 2}", 4)),
        find("filter: {x: {$lt: 5}}, sort: {_id: -1}", first("{_id: 2, x: 2}, {_id: 1, x: 2}", 4)),
        find(f"filter: {{x: 2}}, sort: {{_id: 1}}, {snapshot % 3}", first("{_id: 1, x: 2}, {_id: 2, x: 2}", 3)),
        find(f"filter: {{x: 2}}, sort: {{_id: 1}}, {snapshot % 2}", first("{_id: 1, x: 2}", 2)),
        find(f"filter: {{x: 2}}, {snapshot % 1}", first("", 1)),
        find('sort: {x: -1, _id: -1}, skip: 1, limit: 1, projection: {_id: 0, x: 1, y: "$x"}', first("{x: 2, y: 2}", 4)),
        find('projection: {_id: 0, x: 1, y: "$x"}, limit: 1, skip: 1, sort: {x: -1, _id: -1}, filter: {}', first("{x: 2, y: 2}", 4),
            words="the same in another order of fields"),
        find('filter: {"a.0": 1}', refused(2, "BadValue")),
    ], keeps=(0, 1, 2))
    lines += connection_row("a driver's opening: a greeting, numbered inserts by a sequence, a group", [
        greeting(1, '{isMaster: 1, client: {application: {name: "a"}, driver: {name: "b", version: "1"}}}'),
        Ask('{insert: "c", lsid: {id: UUID("000102030405060708090a0b0c0d0e0f")}, txnNumber: 1L, $db: "d"}',
            "{n: 3, ok: 1, operationTime: Timestamp(1000, 4)}", [("documents", ["{_id: 1, x: 2}", "{_id: 2, x: 2}", "{_id: 3, x: 5}"])]),
        aggregate('{$match: {x: {$gt: 1}}}, {$group: {_id: "$x", total: {$sum: "$_id"}}}, {$sort: {_id: 1}}',
            first("{_id: 2, total: 3}, {_id: 5, total: 3}", 4), 'cursor: {}, readConcern: {level: "majority"}'),
    ], keeps=(0, 1, 2))
    lines += connection_row("a sum that is past 64 bits on the way, and one at the end", [
        Ask(inserted(f"{{_id: 1, v: {M}L}}, {{_id: 2, v: -{M}L}}, {{_id: 11, v: {M}L}}, {{_id: 12, v: -{M}L}}"),
            "{n: 4, ok: 1, operationTime: Timestamp(1000, 5)}"),
        aggregate('{$group: {_id: null, s: {$sum: "$v"}}}', first("{_id: null, s: 0L}", 5)),
        Ask('{delete: "c", deletes: [{q: {_id: 2}, limit: 1}, {q: {_id: 12}, limit: 1}], $db: "d"}',
            "{n: 2, ok: 1, operationTime: Timestamp(1000, 7)}"),
        aggregate('{$group: {_id: null, s: {$sum: "$v"}}}', refused(15, "Overflow")),
        aggregate('{$group: {_id: null, s: {$sum: "$v"}}}, {$limit: 1}, {$project: {_id: 1}}', refused(15, "Overflow"),
            words="the sum is shown by no stage behind it, and overflows all the same"),
        aggregate('{$group: {_id: null, s: {$sum: "$v"}}}', first("{_id: null, s: 0L}", 5),
            'cursor: {}, readConcern: {level: "snapshot", atClusterTime: Timestamp(1000, 5)}', words="at the time before the deletes"),
        aggregate("{$sort: {_id: 1}}", first(f"{{_id: 1, v: {M}L}}", 7, identifier=1), "cursor: {batchSize: 1}",
            words="no refusal took the number of a cursor"),
        aggregate('{$group: {_id: null, s: {$sum: "$v"}}}', refused(72, "InvalidOptions", "{greatest: Timestamp(1000, 7)}"),
            "cursor: {}, readConcern: {afterClusterTime: Timestamp(1000, 8)}", words="a time that is ahead is told before the sum"),
    ], keeps=(0, 1, 2))
    return lines + connection_row("refusals, errors of statements, and a projection", [
        Ask('{foo: 1, $db: "d"}', refused(59, "CommandNotFound")),
        Ask('{insert: "c", documents: [{_id: 1, x: 1.5}], $db: "d"}', refused(22, "InvalidBSON", "{place: 49L}")),
        Ask('{insert: "c", documents: [{x: 1}], $db: "d"}', refused(61, "ShardKeyNotFound")),
        Ask('{delete: "c", deletes: [{q: {x: 1}, limit: 1}], $db: "d"}', refused(61, "ShardKeyNotFound")),
        Ask(inserted(f"{{_id: 1, a: {M}L}}"), "{n: 1, ok: 1, operationTime: Timestamp(1000, 2)}"),
        failed_update("{$inc: {a: 1}}", 2, "BadValue", 3), failed_update('{$set: {"a.b": 1}}', 28, "PathNotViable", 4),
        failed_update("{$set: {_id: 2}}", 66, "ImmutableField", 5),
        find("projection: {a: 0}", first("{_id: 1}", 5)),
    ], keeps=(0, 1, 2))


def failed_update(change, code, name, counter):
    error = f'{{index: 0, code: {code}, errmsg: "{name}"}}'
    return Ask(f'{{update: "c", updates: [{{q: {{_id: 1}}, u: {change}}}], $db: "d"}}',
        f"{{n: 0, nModified: 0, writeErrors: [{error}], ok: 1, operationTime: Timestamp(1000, {counter})}}")


def times():
    """Which time is read at."""
    after, at = "readConcern: {afterClusterTime: Timestamp(%d, %d)}", 'readConcern: {level: "snapshot", atClusterTime: Timestamp(%d, %d)}'
    ahead = refused(72, "InvalidOptions", "{greatest: Timestamp(1000, 2)}")
    lines = connection_row("a time that is ahead, and the time itself", [
        Ask(ONE, "{n: 1, ok: 1, operationTime: Timestamp(1000, 2)}"),
        find(after % (2000, 0), ahead), find(after % (1000, 3), ahead), find(after % (1000, 2), first("{_id: 1}", 2)),
        find(after % (1000, 1), first("{_id: 1}", 2), words="the time is the router's, not the named one"),
        find(after % (0, 0), first("{_id: 1}", 2)),
        find(at % (1000, 3), ahead), find(at % (1000, 2), first("{_id: 1}", 2)), find(at % (1000, 1), first("", 1)),
        find(at % (0, 0), first("", 0, seconds=0)),
        aggregate("", ahead, f"cursor: {{}}, {after % (1000, 3)}"), aggregate("", ahead, f"cursor: {{}}, {at % (1000, 3)}"),
        aggregate("", first("{_id: 1}", 2), f"cursor: {{}}, {after % (1000, 2)}"), aggregate("", first("", 1), f"cursor: {{}}, {at % (1000, 1)}"),
        count(after % (1000, 3), ahead), count(at % (1000, 3), ahead), count(after % (1000, 1), counted(1, 2)), count(at % (1000, 1), counted(0, 1)),
        find(at % (1000, 3) + ', filter: {x: {$foo: 1}}', refused(2, "BadValue"), words="the checks of a request go first"),
        find('readConcern: {level: "majority", afterClusterTime: Timestamp(1000, 2)}', first("{_id: 1}", 2)),
        find('readConcern: {level: "snapshot", afterClusterTime: Timestamp(1000, 2)}', first("{_id: 1}", 2)),
        find('readConcern: {level: "snapshot"}', first("{_id: 1}", 2)), find('readConcern: {level: "local"}', first("{_id: 1}", 2)),
        find('readConcern: {level: "available"}', first("{_id: 1}", 2)), find("readConcern: {}", first("{_id: 1}", 2)),
    ])
    lines += connection_row("times that the clock brings, and one that comes with a later moment", [
        Ask(ONE, "{n: 1, ok: 1, operationTime: Timestamp(1000, 2)}"),
        find(after % (1001, 0), first("{_id: 1}", 0, seconds=1001)),
        find(after % (1003, 1), refused(72, "InvalidOptions", "{greatest: Timestamp(1003, 0)}")),
        count("", counted(1, 0, 1004)),
        find(after % (1000, 2), first("{_id: 1}", 0, seconds=1004), words="the clock went back; the time did not"),
    ], clock=[1000000, 1001999, 1003000, 1004000, 1001000])
    lines += connection_row("of a namespace that is not there", [
        find("", first("", 0)), count("", counted(0, 0)), aggregate("", first("", 0)), aggregate('{$count: "n"}', first("", 0)),
        aggregate("{$group: {_id: null, n: {$count: {}}}}", first("", 0)),
        find(after % (1000, 0), first("", 0)), find(after % (1000, 1), refused(72, "InvalidOptions", "{greatest: Timestamp(1000, 0)}")),
        Ask(ONE, "{n: 1, ok: 1, operationTime: Timestamp(1000, 2)}", words="no read began it"), find("", first("{_id: 1}", 2)),
        Ask('{find: "e", $db: "d"}', first("", 2, "d.e")), Ask('{count: "e", $db: "d"}', counted(0, 2)),
        Ask('{find: "c", $db: "e"}', first("", 2, "e.c")),
    ], keeps=(0,))
    return lines + connection_row("a delete: before, at and behind its time; an update", [
        Ask(inserted("{_id: 1, x: 1}, {_id: 2, x: 1}"), "{n: 2, ok: 1, operationTime: Timestamp(1000, 3)}"),
        Ask('{delete: "c", deletes: [{q: {_id: 1}, limit: 1}], $db: "d"}', "{n: 1, ok: 1, operationTime: Timestamp(1000, 4)}"),
        Ask('{update: "c", updates: [{q: {_id: 2}, u: {$set: {x: 7}}}], $db: "d"}', "{n: 1, nModified: 1, ok: 1, operationTime: Timestamp(1000, 5)}"),
        find("sort: {_id: 1}, " + at % (1000, 3), first("{_id: 1, x: 1}, {_id: 2, x: 1}", 3)),
        find("sort: {_id: 1}, " + at % (1000, 4), first("{_id: 2, x: 1}", 4)),
        find("sort: {_id: 1}", first("{_id: 2, x: 7}", 5)), find("filter: {x: 1}, " + at % (1000, 4), first("{_id: 2, x: 1}", 4)),
        find("filter: {x: 1}", first("", 5)),
        count("query: {x: 1}, " + at % (1000, 3), counted(2, 3)), count("query: {x: 1}, " + at % (1000, 4), counted(1, 4)),
        count("query: {x: 1}", counted(0, 5)),
        aggregate('{$group: {_id: null, s: {$sum: "$x"}}}', first("{_id: null, s: 2}", 3), "cursor: {}, " + at % (1000, 3)),
        aggregate('{$group: {_id: null, s: {$sum: "$x"}}}', first("{_id: null, s: 7}", 5)),
    ])
