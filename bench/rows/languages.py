"""Rows of filters, sorts, projections, groups and pipelines, each with one right reply."""
from form import Ask, connection_row
from reads import aggregate, count, counted, find, first, inserted, refused

M = 9223372036854775807

MIXED = (
    '{_id: 1, a: 5}, {_id: 2, a: 5L, b: {c: 1}}, {_id: 3, a: [1, 7]}, {_id: 4, a: null}, {_id: 5}, {_id: 6, a: "x"}, {_id: 7, a: [{b: 2}, {b: 3}, 4]}, '
    "{_id: 8, a: []}, {_id: 9, a: [[1, 2]]}, {_id: 10, a: true, b: {c: 2, d: MinKey}}"
)

# filters over these documents, and the numbers of those that they hold of
FILTERS = [
    ("{a: 5}", "1 2"), ("{a: {$eq: 5L}}", "1 2"), ("{a: 1}", "3"), ("{a: [1, 7]}", "3"), ("{a: [1, 2]}", "9"), ("{a: null}", "4 5"),
    ("{a: {$ne: null}}", "1 2 3 6 7 8 9 10"),
    ("{a: {$gt: 5}}", "3"), ("{a: {$gte: 5}}", "1 2 3"), ("{a: {$lt: 5}}", "3 7"), ("{a: {$lte: 5}}", "1 2 3 7"),
    ("{a: {$gt: 1, $lt: 7}}", "1 2 3 7"),
    ("{a: {$lt: 2, $gt: 6}}", "3"), ("{a: {$elemMatch: {$gt: 1, $lt: 7}}}", "7"), ("{a: {$gte: null}}", "4 5"), ("{a: {$lt: null}}", ""),
    ('{a: {$gt: "a"}}', "6"), ("{a: {$gt: MinKey}}", "1 2 3 4 6 7 8 9 10"), ("{a: {$lte: MaxKey}}", "1 2 3 4 6 7 8 9 10"),
    ("{a: {$in: [5, true]}}", "1 2 10"), ("{a: {$in: []}}", ""), ("{a: {$in: [null]}}", "4 5"), ("{a: {$nin: [5, null]}}", "3 6 7 8 9 10"),
    ("{a: {$nin: []}}", "1 2 3 4 5 6 7 8 9 10"), ("{a: {$exists: false}}", "5"), ("{a: {$exists: true, $lte: null}}", "4"),
    ('{"b.c": {$exists: true}}', "2 10"),
    ("{a: {$size: 2}}", "3"), ("{a: {$size: 0L}}", "8"), ("{a: {$size: -1}}", ""), ("{a: {$all: [1, 7]}}", "3"), ("{a: {$all: []}}", ""),
    ("{a: {$all: [5]}}", "1 2"),
    ("{a: {$elemMatch: {b: 3}}}", "7"), ("{a: {$elemMatch: {}}}", "7"), ("{a: {$elemMatch: {$size: 2}}}", "9"), ('{"a.b": 2}', "7"),
    ('{"a.b": {$gt: 2}}', "7"),
    ('{"a.b": null}', "1 2 4 5 6 10"), ('{"b.c": {$gte: 1}}', "2 10"), ("{b: {c: 1}}", "2"), ("{b: {c: 1L}}", "2"), ('{"b.d": MinKey}', "10"),
    ("{a: {$not: {$gte: 5}}}", "4 5 6 7 8 9 10"), ("{$and: [{a: {$gte: 5}}, {_id: {$gt: 1}}]}", "2 3"), ("{$and: [{}]}", "1 2 3 4 5 6 7 8 9 10"),
    ('{$or: [{a: "x"}, {_id: 4}]}', "4 6"), ("{$nor: [{a: 5}, {a: null}, {_id: {$gt: 7}}]}", "3 6 7"),
    ("{_id: {$gte: 2, $lt: 5L}, a: {$ne: null}}", "2 3"),
    ("{_id: 3L}", "3"), ("{_id: {$in: [9, 2, 11]}}", "2 9"), ("{_id: [3]}", ""), ("{_id: {$eq: 5, $gt: 3}}", "5"), ("{_id: {$eq: 5, $gt: 6}}", ""),
    ('{_id: "1"}', ""),
    ("{}", "1 2 3 4 5 6 7 8 9 10"),
]


def filters():
    """Each filter in a find, and counted."""
    asks = [Ask(inserted(MIXED), "{n: 10, ok: 1, operationTime: Timestamp(1000, 11)}")]
    for query, numbers in FILTERS:
        shown = ", ".join(f"{{_id: {number}}}" for number in numbers.split())
        asks.append(find(f"filter: {query}, projection: {{_id: 1}}, sort: {{_id: 1}}", first(shown, 11)))
    lines = connection_row("filters over documents of many kinds", asks)
    asks = asks[:1] + [count(f"query: {query}", counted(len(numbers.split()), 11)) for query, numbers in FILTERS[::3]]
    lines += connection_row("filters, counted", asks)
    asks = asks[:1] + [
        aggregate(f'{{$match: {query}}}, {{$group: {{_id: null, n: {{$count: {{}}}}, s: {{$sum: "$_id"}}}}}}',
            first(group_of(numbers.split()), 11)) for query, numbers in FILTERS[1::3]]
    return lines + connection_row("filters in front of a group", asks)


def group_of(numbers):
    total = sum(map(int, numbers))
    return f"{{_id: null, n: {len(numbers)}, s: {total}}}" if numbers else ""


def sorts():
    """Sorts; skip and limit in every order."""
    documents = (
        "{_id: 1, a: [3, 1]}, {_id: 2, a: 2}, {_id: 3, a: []}, {_id: 4}, {_id: 5, a: [[]]}, {_id: 6, a: MinKey}, {_id: 7, a: {b: 1}}, "
        "{_id: 8, a: [{b: 0}, {c: 2}]}"
    )
    asks = [Ask(inserted(documents), "{n: 8, ok: 1, operationTime: Timestamp(1000, 9)}")]
    for spec, order in [
        ("{a: 1, _id: 1}", "6 3 4 1 2 8 7 5"), ("{a: -1, _id: 1}", "5 8 7 1 2 4 3 6"), ("{_id: -1}", "8 7 6 5 4 3 2 1"),
        ("{_id: 1L}", "1 2 3 4 5 6 7 8"),
        ('{"a.b": 1, _id: -1}', "8 6 5 4 3 2 1 7"), ('{"a.b": -1, _id: -1}', "7 8 6 5 4 3 2 1"), ("{zz: 1, _id: -1}", "8 7 6 5 4 3 2 1"),
        ("{_id: 1, _id: -1}", "1 2 3 4 5 6 7 8"),
    ]:
        asks.append(find(f"sort: {spec}, projection: {{_id: 1}}", first(ids(order), 9)))
    lines = connection_row("sorts over arrays, gaps and values of many kinds", asks)
    asks = asks[:1]
    for rest, order in [
        ("skip: 2, limit: 3", "3 4 5"), ("limit: 3, skip: 2", "3 4 5"), ("limit: 3", "1 2 3"), ("skip: 6", "7 8"), ("skip: 8", ""), ("skip: 9L", ""),
        ("skip: 0, limit: 0", "1 2 3 4 5 6 7 8"),
        ("limit: 0", "1 2 3 4 5 6 7 8"), ("limit: 0L, skip: 7", "8"), (f"limit: {M}L, skip: {M}L", ""), (f"limit: {M}L, skip: 5", "6 7 8"),
        ("limit: 100", "1 2 3 4 5 6 7 8"),
    ]:
        asks.append(find(f"{rest}, sort: {{_id: 1}}, projection: {{_id: 1}}", first(ids(order), 9)))
    for rest, number in [("skip: 2, limit: 3", 3), ("limit: 3, skip: 7", 1), ("skip: 8", 0), ("limit: 0", 8), ("skip: 0", 8),
        (f"limit: {M}L, skip: {M}L", 0), ("limit: 9", 8)]:
        asks.append(count(rest, counted(number, 9)))
    asks.append(count("skip: 1, limit: 4, query: {_id: {$gt: 4}}", counted(3, 9)))
    for stages, order in [
        ("{$sort: {_id: 1}}, {$skip: 2}, {$limit: 3}", "3 4 5"), ("{$sort: {_id: 1}}, {$limit: 3}, {$skip: 2}", "3"),
        ("{$sort: {_id: 1}}, {$limit: 5}, {$limit: 2}", "1 2"),
        ("{$sort: {_id: 1}}, {$skip: 3}, {$skip: 3}", "7 8"), ("{$sort: {_id: -1}}, {$limit: 4}, {$sort: {_id: 1}}", "5 6 7 8"),
        ("{$sort: {_id: 1}}, {$skip: 2}, {$match: {_id: {$lt: 7}}}, {$limit: 2}", "3 4"),
        ("{$sort: {_id: 1}}, {$limit: 4}, {$match: {_id: {$gt: 2}}}", "3 4"),
        ("{$match: {_id: {$gt: 5}}}, {$sort: {_id: -1}}, {$skip: 1}, {$limit: 1}", "7"), ("{$sort: {_id: 1}}, {$skip: 0}, {$limit: 1}", "1"),
        ("{$limit: 8}, {$sort: {_id: -1}}, {$limit: 1}", "8"), ("{$skip: 8}", ""), ("{$skip: 0}, {$sort: {_id: 1}}, {$limit: 2}", "1 2"),
    ]:
        asks.append(aggregate(f"{stages}, {{$project: {{_id: 1}}}}", first(ids(order), 9)))
    return lines + connection_row("skips and limits, in finds, counts and pipelines", asks)


def ids(order):
    return ", ".join(f"{{_id: {number}}}" for number in order.split())


def projections():
    """Projections in finds and pipelines, of one document."""
    asks = [Ask(inserted("{_id: 1, a: 2, x: 5, d: {e: 1, f: 2}, l: [{b: 1}, {c: 2}, 5, [{b: 9}]], n: []}"),
        "{n: 1, ok: 1, operationTime: Timestamp(1000, 2)}")]
    whole = "{_id: 1, a: 2, x: 5, d: {e: 1, f: 2}, l: [{b: 1}, {c: 2}, 5, [{b: 9}]], n: []}"
    for spec, shown in [
        ("{x: 1, a: 1}", "{_id: 1, a: 2, x: 5}"), ("{x: 7L}", "{_id: 1, x: 5}"), ("{x: true, _id: false}", "{x: 5}"),
        ("{_id: 0}", whole.replace("_id: 1, ", "")), ("{_id: 1}", "{_id: 1}"),
        ("{l: 0, d: false, n: 0L}", "{_id: 1, a: 2, x: 5}"), ("{a: 0, _id: 0, l: 0, d: 0, n: 0}", "{x: 5}"), ("{zz: 1}", "{_id: 1}"),
        ("{zz: 0, l: 0, d: 0, n: 0}", "{_id: 1, a: 2, x: 5}"),
        ('{x: "$a", a: "$x"}', "{_id: 1, x: 2, a: 5}"), ('{_id: "$x", a: 1}', "{a: 2, _id: 5}"), ('{_id: 0, y: "$d.f", x: 1}', "{x: 5, y: 2}"),
        ('{y: "$l.b", _id: 0}', "{y: [1]}"),
        ('{y: "$n.b", _id: 0}', "{y: []}"), ('{y: "$a.b", _id: 0}', "{}"), ('{y: "$zz"}', "{_id: 1}"), ('{_id: "$zz"}', "{}"),
        ('{y: "$d", _id: 0}', "{y: {e: 1, f: 2}}"),
        ('{x: "$zz", a: 1}', "{_id: 1, a: 2}"), ('{y: "$a", z: "$y"}', "{_id: 1, y: 2}"),
    ]:
        asks.append(find(f"projection: {spec}", first(shown, 2)))
        asks.append(aggregate(f"{{$project: {spec}}}", first(shown, 2)))
    asks += [
        find("projection: {}", first(whole, 2)), aggregate("{$project: {}}", refused(2, "BadValue")),
        find('projection: {_id: "$x"}, filter: {_id: 1}', first("{_id: 5}", 2), words="the filter reads the document as it stands"),
        aggregate('{$project: {_id: "$x"}}, {$match: {_id: 5}}', first("{_id: 5}", 2), words="the filter reads what the projection leaves"),
        aggregate('{$project: {_id: "$x"}}, {$match: {_id: 1}}', first("", 2)), aggregate("{$project: {a: 1}}, {$match: {x: 5}}", first("", 2)),
        aggregate("{$match: {x: 5}}, {$project: {a: 1}}", first("{_id: 1, a: 2}", 2)),
        aggregate('{$project: {y: "$x"}}, {$project: {z: "$y", _id: 0}}', first("{z: 5}", 2)),
    ]
    return connection_row("projections", asks)


def groups():
    """Groups and their accumulators, and counts."""
    documents = (
        '{_id: 1, k: "a", v: 2147483647}, {_id: 2, k: "a", v: 1}, {_id: 3, k: "b", v: 1L}, {_id: 4, k: "b", v: "t"}, {_id: 5, v: null}, '
        '{_id: 6, k: null, v: [3]}, '
        '{_id: 7, k: ["a"], v: -5}, {_id: 8, k: {c: 1}}'
    )
    asks = [Ask(inserted(documents), "{n: 8, ok: 1, operationTime: Timestamp(1000, 9)}")]
    by_k = '{$group: {_id: "$k", %s}}, {$sort: {_id: 1}}'
    for fields, values in [
        ('s: {$sum: "$v"}', ["s: 0", "s: 2147483648L", "s: 1L", "s: 0", "s: -5"]),
        ("n: {$sum: 1}", ["n: 2", "n: 2", "n: 2", "n: 1", "n: 1"]), ("n: {$count: {}}", ["n: 2", "n: 2", "n: 2", "n: 1", "n: 1"]),
        ('n: {$sum: "x"}', ["n: 0"] * 5),
        ("n: {$sum: 3L}", ["n: 6L", "n: 6L", "n: 6L", "n: 3L", "n: 3L"]), ('l: {$min: "$v"}', ["l: [3]", "l: 1", "l: 1L", "l: null", "l: -5"]),
        ('g: {$max: "$v"}', ["g: [3]", "g: 2147483647", 'g: "t"', "g: null", "g: -5"]), ('g: {$max: "$zz"}, l: {$min: 7}', ["g: null, l: 7"] * 5),
    ]:
        # absent ones are of the class of null
        keys = ["null", '"a"', '"b"', "{c: 1}"]
        shown = [f"{{_id: {key}, {value}}}" for key, value in zip(keys, values)]
        asks.append(aggregate('{$match: {_id: {$ne: 7}}}, ' + by_k % fields, first(", ".join(shown), 9)))
    asks += [
        aggregate('{$match: {_id: 7}}, ' + by_k % 's: {$sum: "$v"}', first('{_id: ["a"], s: -5}', 9),
            words="an array is a key of a group as it stands"),
        aggregate('{$group: {_id: null, a: {$sum: "$v"}, a: {$min: "$_id"}, "x.$y": {$max: "$_id"}}}',
            first('{_id: null, a: 2147483644L, a: 1, "x.$y": 8}', 9)),
        aggregate('{$group: {n: {$count: {}}, _id: "all"}}', first('{_id: "all", n: 8}', 9)), aggregate("{$group: {_id: 7L}}", first("{_id: 7L}", 9)),
        aggregate("{$match: {_id: 9}}, {$group: {_id: null, n: {$count: {}}}}", first("", 9)),
        aggregate('{$group: {_id: "$k.c"}}, {$sort: {_id: 1}}',
            first("{_id: []}, {_id: null}, {_id: 1}", 9)),
        aggregate('{$sort: {_id: -1}}, {$limit: 2}, {$group: {_id: null, s: {$sum: "$_id"}}}', first("{_id: null, s: 15}", 9)),
        aggregate('{$group: {_id: "$k", n: {$count: {}}}}, {$match: {n: {$gt: 1}}}, {$group: {_id: null, m: {$sum: "$n"}, c: {$count: {}}}}',
            first("{_id: null, m: 6, c: 3}", 9)),
        aggregate('{$group: {_id: "$_id"}}, {$sort: {_id: -1}}, {$limit: 2}', first("{_id: 8}, {_id: 7}", 9)),
        aggregate('{$count: "n"}', first("{n: 8}", 9)), aggregate('{$match: {k: "a"}}, {$count: "how many"}', first('{"how many": 3}', 9)),
        aggregate('{$match: {k: "zz"}}, {$count: "n"}', first("", 9)), aggregate('{$count: "n"}, {$project: {_id: 0, m: "$n"}}', first("{m: 8}", 9)),
        aggregate('{$count: "n"}, {$count: "m"}', first("{m: 1}", 9)), aggregate('{$limit: 3}, {$count: "n"}', first("{n: 3}", 9)),
        aggregate('{$skip: 3}, {$count: "n"}', first("{n: 5}", 9)),
        aggregate("{$match: {_id: {$lt: 3}}}, {$match: {v: 1}}", first('{_id: 2, k: "a", v: 1}', 9)),
    ]
    return connection_row("groups and counts", asks)


def sums():
    """Sums at the ends of both widths."""
    asks = [
        Ask(inserted(f"{{_id: 1, v: {M}L}}, {{_id: 2, v: 1L}}, {{_id: 3, v: -2147483648}}, {{_id: 4, v: -1}}"),
            "{n: 4, ok: 1, operationTime: Timestamp(1000, 5)}"),
        summed("{_id: {$lt: 3}}", refused(15, "Overflow")), summed("{_id: {$in: [1, 4]}}", first(f"{{_id: null, s: {M - 1}L}}", 5)),
        summed("{_id: {$in: [2, 4]}}", first("{_id: null, s: 0L}", 5)), summed("{_id: {$gt: 2}}", first("{_id: null, s: -2147483649L}", 5)),
        summed("{_id: {$ne: 4}}", first(f"{{_id: null, s: {M + 1 - 2147483648}L}}", 5)), summed("{_id: 1}", first(f"{{_id: null, s: {M}L}}", 5)),
        summed("{_id: 3}", first("{_id: null, s: -2147483648}", 5)),
        aggregate('{$match: {_id: {$lt: 3}}}, {$group: {_id: "$_id", s: {$sum: "$v"}}}, {$sort: {_id: 1}}',
            first(f"{{_id: 1, s: {M}L}}, {{_id: 2, s: 1L}}", 5)),
        aggregate('{$match: {_id: {$lt: 3}}}, {$group: {_id: null, s: {$sum: "$v"}}}, {$count: "n"}', refused(15, "Overflow")),
    ]
    return connection_row("sums at the ends of 32 and of 64 bits", asks)


def summed(query, says):
    return aggregate(f'{{$match: {query}}}, {{$group: {{_id: null, s: {{$sum: "$v"}}}}}}', says)
