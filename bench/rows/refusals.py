"""Rows of each field of reads, and of their refusals: each step of the order, and two steps at once."""
from commands import ONLY_FALSE
from form import Ask, connection_row, refused_rows
from reads import ONE, aggregate, count, counted, find, first, refused

DB = '$db: "d"}'
SESSION = 'lsid: {id: UUID("000102030405060708090a0b0c0d0e0f")}'
# fields with a time limit that are refused, and with which code
LIMITS = [
    ("a time limit of another type", 'maxTimeMS: "1"', 14), ("a time limit that is null", "maxTimeMS: null", 14),
    ("a time limit below zero", "maxTimeMS: -1", 2), ("a time limit of 2^31", "maxTimeMS: 2147483648L", 2),
    ("a time limit twice", "maxTimeMS: 1, maxTimeMS: 1", 9),
]


def fields():
    """Each field where it is served."""
    asks = [
        Ask(ONE, "{n: 1, ok: 1, operationTime: Timestamp(1000, 2)}"),
        find(f'filter: {{}}, sort: {{}}, projection: {{}}, skip: 0, limit: 0, batchSize: 7, singleBatch: true, readConcern: {{}}, allowDiskUse: true, '
            f'noCursorTimeout: true, allowPartialResults: true, {SESSION}, $clusterTime: 1, '
            '$readPreference: {mode: "primary"}, comment: [], maxTimeMS: 0, apiVersion: "1", '
            'apiStrict: true, apiDeprecationErrors: false', first("{_id: 1}", 2)),
        find("singleBatch: false, allowDiskUse: false, noCursorTimeout: false, allowPartialResults: false, batchSize: 7L", first("{_id: 1}", 2)),
        *[find(f"{option}: false", first("{_id: 1}", 2)) for option in ONLY_FALSE],
        find(", ".join(f"{option}: false" for option in reversed(ONLY_FALSE)), first("{_id: 1}", 2)),
        find("skip: 1L", first("", 2)), find("limit: 1L", first("{_id: 1}", 2)), find("batchSize: 1", first("{_id: 1}", 2)),
        aggregate("", first("{_id: 1}", 2),
            f'cursor: {{batchSize: 7}}, readConcern: {{level: "local"}}, allowDiskUse: true, {SESSION}, $clusterTime: {{}}, '
            '$readPreference: 1, comment: "c", maxTimeMS: 2147483647L, apiVersion: "1", apiStrict: false, apiDeprecationErrors: true'),
        aggregate("", first("{_id: 1}", 2), "allowDiskUse: false, cursor: {batchSize: 1L}"),
        Ask('{aggregate: "c", cursor: {}, $db: "d", pipeline: [{$match: {_id: 1}}]}', first("{_id: 1}", 2)),
        count(f'query: {{}}, skip: 0, limit: 0, readConcern: {{level: "majority"}}, {SESSION}, $clusterTime: 1, '
            '$readPreference: 1, comment: 1, maxTimeMS: 1, apiVersion: "1", '
            'apiStrict: true, apiDeprecationErrors: true', counted(1, 2)),
        count("", counted(1, 2)), count("query: {_id: 2}", counted(0, 2)), count("limit: 1L, skip: 0L", counted(1, 2)),
    ]
    lines = connection_row("every field of a find, an aggregate and a count", asks)
    return lines + connection_row("a pipeline of a thousand stages; a namespace of 255 bytes", [
        Ask(ONE), aggregate(", ".join(["{$match: {}}"] * 1000), first("{_id: 1}", 2)),
        Ask(f'{{count: "{"a" * 191}", $db: "{"d" * 63}"}}', counted(0, 2)),
        Ask(f'{{count: "{"a" * 192}", $db: "{"d" * 63}"}}', refused(73, "InvalidNamespace")),
    ])


def database_rows():
    """The database and the own field."""
    rows = []
    for name, rest in [("find", ""), ("aggregate", ", pipeline: [], cursor: {}"), ("count", ""), ("killCursors", ", cursors: []")]:
        rows += [
            ("no database", f'{{{name}: "c"{rest}}}', 9), ("a database of another type", f'{{{name}: "c"{rest}, $db: 1}}', 14),
            ("no database, before the own field", f"{{{name}: 1{rest}}}", 9), ("the own field", f"{{{name}: 1{rest}, {DB}", 14),
            ("the own field, before a field that is not listed", f"{{{name}: 1, zz: 1{rest}, {DB}", 14),
            ("a collection that is none", f'{{{name}: "a$b"{rest}, {DB}', 73),
            ("a database that is not open", f'{{{name}: "c"{rest}, $db: "admin"}}', 73),
            ("the namespace, before a field that is not listed", f'{{{name}: ""{rest}, zz: 1, {DB}', 73),
            ("the own field twice", f'{{{name}: "c"{rest}, {name}: "c", {DB}', 9),
            ("a field that is not listed", f'{{{name}: "c"{rest}, zz: 1, {DB}', 9),
            ("no sequence goes with it", (f'{{{name}: "c"{rest}, {DB}', [("documents", ["{_id: 1}"])]), 9),
            ("a field, before the sequence", (f'{{{name}: "c"{rest}, lsid: 1, {DB}', [("documents", ["{_id: 1}"])]), 14),
            ("numbered", f'{{{name}: "c"{rest}, {SESSION}, txnNumber: 1L, {DB}', 9), ("a session", f'{{{name}: "c"{rest}, lsid: {{}}, {DB}', 9),
        ]
        rows += [(f"{field} is not taken", f'{{{name}: "c"{rest}, {field}: {value}, {DB}', 9) for field, value in
            [("hint", '"_id_"'), ("let", "{}"), ("collation", "{}")]]
        rows += [(words, f'{{{name}: "c"{rest}, {limit}, {DB}', code) for words, limit, code in LIMITS]
    return rows + [
        ("no database", '{getMore: 1L, collection: "c"}', 9), ("no database, before the own field", '{getMore: "x", collection: "c"}', 9),
        ("the own field", f'{{getMore: "x", collection: "c", {DB}', 14),
        ("the own field, before the database's name", '{getMore: true, collection: "c", $db: "admin"}', 14),
        ("the database's name, before a needed field", '{getMore: 1L, $db: "admin"}', 73),
        ("the database's name, before the collection", '{getMore: 1L, collection: 5, $db: "local"}', 73),
        ("a collection of another type", f"{{getMore: 1L, collection: 5, {DB}", 14),
        ("a collection that is none", f'{{getMore: 1L, collection: "", {DB}', 73),
        ("a collection that is none, before a field that is not listed", f'{{getMore: 1L, collection: "a$b", zz: 1, {DB}', 73),
        ("a field that is not listed, before the collection", f'{{getMore: 1L, zz: 1, collection: "", {DB}', 9),
        ("no collection", f"{{getMore: 1L, {DB}", 9), ("a size, before no collection", f'{{getMore: 1L, batchSize: "1", {DB}', 14),
        ("a size below zero", f'{{getMore: 1L, collection: "c", batchSize: -1, {DB}', 2),
        ("a size that is a boolean", f'{{getMore: 1L, collection: "c", batchSize: true, {DB}', 14),
        ("the collection twice", f'{{getMore: 1L, collection: "c", collection: "c", {DB}', 9),
        ("no concern", f'{{getMore: 1L, collection: "c", readConcern: {{}}, {DB}', 9),
        ("no sequence goes with it", (f'{{getMore: 1L, collection: "c", {DB}', [("collection", [])]), 9),
        *((words, f'{{getMore: 1L, collection: "c", {limit}, {DB}', code) for words, limit, code in LIMITS),
        *((f"{field} is not taken", f'{{getMore: 1L, collection: "c", {field}: {value}, {DB}', 9) for field, value in
            [("hint", '"_id_"'), ("let", "{}"), ("collation", "{}"), ("singleBatch", "true"), ("txnNumber", "1L")]),
        ("no cursors", f'{{killCursors: "c", {DB}', 9), ("cursors of another type", f'{{killCursors: "c", cursors: 5, {DB}', 14),
        ("a cursor that is no number", f'{{killCursors: "c", cursors: [1L, "1"], {DB}', 14),
        ("a cursor that is a time", f'{{killCursors: "c", cursors: [Timestamp(0, 1)], {DB}', 14),
        ("cursors twice", f'{{killCursors: "c", cursors: [], cursors: 5, {DB}', 9),
    ]


def typed_rows():
    """The fields of finds, aggregates and counts."""
    rows = []
    for field in ("filter", "sort", "projection", "readConcern"):
        rows += [(f"{field} of another type", f'{{find: "c", {field}: {value}, {DB}', 14) for value in ("5", "[]", "null")]
    for field in ("skip", "limit", "batchSize"):
        rows += [(f"{field} of another type", f'{{find: "c", {field}: {value}, {DB}', 14) for value in ('"1"', "true", "null")]
        rows += [(f"{field} below zero", f'{{find: "c", {field}: {value}, {DB}', 2) for value in ("-1", "-1L", "-9223372036854775808L")]
    for field in ("singleBatch", "allowDiskUse", "noCursorTimeout", "allowPartialResults", "apiStrict", "apiDeprecationErrors"):
        rows.append((f"{field} of another type", f'{{find: "c", {field}: 1, {DB}', 14))
    for field, other in [("filter", "{}"), ("sort", "{}"), ("projection", "{}"), ("skip", "1"), ("limit", "1"), ("batchSize", "1"),
        ("singleBatch", "true"), ("readConcern", "{}")]:
        rows.append((f"{field} twice", f'{{find: "c", {field}: {other}, {field}: "x", {DB}', 9))
    rows += [(f"{field} is of another command", f'{{find: "c", {field}: {value}, {DB}', 9) for field, value in
        [("query", "{}"), ("pipeline", "[]"), ("cursor", "{}"), ("ordered", "true"), ("min", "{}"), ("returnkey", "false"), ("oplogReplay", "false")]]
    for option in ONLY_FALSE:
        rows += [(f"{option} that is not false", f'{{find: "c", {option}: {value}, {DB}', 9) for value in ("true", "0", "null")]
        rows += [
            (f"{option} twice", f'{{find: "c", {option}: false, {option}: false, {DB}', 9),
            (f"{option} is of another command", f'{{aggregate: "c", pipeline: [], cursor: {{}}, {option}: false, {DB}', 9),
            (f"{option} is of another command", f'{{count: "c", {option}: false, {DB}', 9),
        ]
    rows += [
        ("a filter, before a type", f'{{find: "c", filter: {{$foo: 1}}, limit: "x", {DB}', 2),
        ("a type, before a filter", f'{{find: "c", limit: "x", filter: {{$foo: 1}}, {DB}', 14),
        ("a sort, before a projection of another type", f'{{find: "c", sort: {{x: 2}}, projection: 5, {DB}', 2),
        ("not listed, before a filter", f'{{find: "c", zz: 1, filter: 5, {DB}', 9),
        ("a projection of another type, before a sort", f'{{find: "c", projection: 5, sort: {{x: 2}}, {DB}', 14),
        ("a limit below zero, before a field that is not listed", f'{{find: "c", limit: -1, hint: 1, {DB}', 2),
        ("allowDiskUse", f'{{aggregate: "c", pipeline: [], cursor: {{}}, allowDiskUse: 1, {DB}', 14),
        ("no pipeline", f'{{aggregate: "c", cursor: {{}}, {DB}', 9),
        ("no cursor", f'{{aggregate: "c", pipeline: [], {DB}', 9),
        ("a cursor's field, before no pipeline", f'{{aggregate: "c", cursor: {{batchSize: -1}}, {DB}', 2),
        ("a pipeline that is none, before no cursor", f'{{aggregate: "c", pipeline: [5], {DB}', 2),
        ("a pipeline of another type", f'{{aggregate: "c", pipeline: 5, cursor: {{}}, {DB}', 14),
        ("a pipeline of another type", f'{{aggregate: "c", pipeline: {{}}, cursor: {{}}, {DB}', 14),
        ("a cursor of another type", f'{{aggregate: "c", pipeline: [], cursor: 1, {DB}', 14),
        ("a cursor's field that is not listed", f'{{aggregate: "c", pipeline: [], cursor: {{x: 1}}, {DB}', 9),
        ("a cursor's field twice", f'{{aggregate: "c", pipeline: [], cursor: {{batchSize: 1, batchSize: 1}}, {DB}', 9),
        ("a cursor's size of another type", f'{{aggregate: "c", pipeline: [], cursor: {{batchSize: "1"}}, {DB}', 14),
        ("a cursor's size below zero", f'{{aggregate: "c", pipeline: [], cursor: {{batchSize: -1L}}, {DB}', 2),
        ("a pipeline twice", f'{{aggregate: "c", pipeline: [], pipeline: [], cursor: {{}}, {DB}', 9),
        ("no sequence goes for the pipeline", (f'{{aggregate: "c", cursor: {{}}, {DB}', [("pipeline", ["{$match: {}}"])]), 9),
        ("an own field that is a number", f"{{aggregate: 1, pipeline: [], cursor: {{}}, {DB}", 14),
    ]
    rows += [(f"{field} is of another command", f'{{aggregate: "c", pipeline: [], cursor: {{}}, {field}: {value}, {DB}', 9) for field, value in
        [("batchSize", "1"), ("singleBatch", "true"), ("filter", "{}"), ("explain", "false"), ("bypassDocumentValidation", "true"),
            ("writeConcern", "{}")]]
    rows += [(f"{field} is of another command", f'{{count: "c", {field}: {value}, {DB}', 9) for field, value in
        [("filter", "{}"), ("batchSize", "1"), ("allowDiskUse", "true"), ("sort", "{}"), ("fields", "{}")]]
    rows += [
        ("a query of another type", f'{{count: "c", query: 5, {DB}', 14),
        ("a query that is none", f'{{count: "c", query: {{a: {{$foo: 1}}}}, {DB}', 2),
        ("a skip below zero", f'{{count: "c", skip: -1, {DB}', 2), ("a limit below zero", f'{{count: "c", limit: -1L, {DB}', 2),
        ("a skip of another type", f'{{count: "c", skip: "1", {DB}', 14),
        ("a limit of another type", f'{{count: "c", limit: false, {DB}', 14),
        ("a query that is none, before a skip", f'{{count: "c", query: {{$foo: 1}}, skip: "1", {DB}', 2),
    ]
    return rows


def concern_rows():
    at = "atClusterTime: Timestamp(1, 0)"
    listed = [
        ("a time without a level", f"{{{at}}}", 2), ("a time with another level", f'{{{at}, level: "majority"}}', 2),
        ("a level of another type, before the time's rule", f"{{{at}, level: 5}}", 14),
        ("not listed, before the time's rule", f"{{{at}, x: 1}}", 9),
        ("two times", f'{{level: "snapshot", {at}, afterClusterTime: Timestamp(1, 0)}}', 2),
        ("a time of another type", '{level: "snapshot", atClusterTime: 5}', 14), ("a later time of another type", "{afterClusterTime: 5L}", 14),
        ("a later time of another type, before the two times", f'{{level: "snapshot", {at}, afterClusterTime: Date(1)}}', 14),
        ("a level that is none", '{level: "linearizable"}', 2),
        ("a level that is none, before a field that is not listed", '{level: "x", x: 1}', 2),
        ("not listed, before a level that is none", '{x: 1, level: "x"}', 9),
        ("a level twice", '{level: "local", level: "local"}', 9), ("a time twice", f'{{level: "snapshot", {at}, {at}}}', 9),
    ]
    starts = [("find", '{find: "c", '), ("aggregate", '{aggregate: "c", pipeline: [], cursor: {}, '), ("count", '{count: "c", ')]
    rows = []
    for number, (words, concern, code) in enumerate(listed):
        for name, start in starts if number < 5 else starts[:1]:
            rows.append((f"{words}, of {name}", f"{start}readConcern: {concern}, {DB}", code))
    return rows + [("the two times, before a field that is not listed", f'{{find: "c", readConcern: {{{at}}}, zz: 1, {DB}', 2)]


BAD_FILTERS = [
    "{$where: 1}", "{$expr: {}}", '{$comment: "c"}', "{a: {$foo: 1}}", "{a: {$gt: 1, b: 1}}", "{a: {$regex: \"x\"}}", "{a: {$exists: 1}}",
    '{a: {$size: "2"}}', "{a: {$in: 5}}", "{a: {$nin: {}}}",
    "{a: {$all: 1}}", "{$and: []}", "{$or: {}}", "{$nor: [5]}", "{$or: [{a: {$foo: 1}}]}", "{a: {$not: {}}}", "{a: {$not: 5}}", "{a: {$not: {b: 1}}}",
    "{a: {$elemMatch: 5}}",
    "{a: {$elemMatch: {$or: [{}]}}}", "{a: {$elemMatch: {b: {$foo: 1}}}}", '{"": 1}', '{"a.": 1}', '{"a..b": 1}', '{"a.0": 1}', '{"0": 1}',
    '{"a.$b": 1}', "{$gt: 1}", "{_id: {$foo: 1}}",
    '{a: {$ref: "c", $id: 1}}', '{"' + ".".join("a" * 101) + '": 1}',
]
BAD_SORTS = ["{x: 2}", "{x: 0}", '{x: "asc"}', "{x: true}", "{x: {}}", '{"a..b": 1}', '{"a.0": -1}', '{"$x": 1}', '{"": 1}',
    "{" + ", ".join(f"a{number}: 1" for number in range(33)) + "}"]
BAD_PROJECTIONS = [
    "{a: 1, b: 0}", "{a: 0, b: 1}", "{_id: 1, a: 0}", '{x: "$a", b: 0}', "{_id: 0, _id: 1}", '{"a.b": 1}', '{"0": 1}', '{"$a": 1}', '{"": 1}',
    '{a: "x"}', "{a: null}", "{a: {}}", "{a: []}",
    '{a: "$"}', '{a: "$$ROOT"}', '{a: "$b..c"}', '{a: "$b.0"}', '{a: Timestamp(0, 1)}',
]
BAD_STAGES = [
    "{$match: 5}", "{$match: {a: {$foo: 1}}}", "{$project: {}}", "{$project: 5}", "{$project: {a: 1, b: 0}}", "{$sort: {x: 2}}", "{$sort: 1}",
    "{$skip: -1}", '{$skip: "1"}', "{$limit: 0}",
    "{$limit: -1L}", "{$limit: true}", '{$count: ""}', '{$count: "a.b"}', '{$count: "$a"}', "{$count: 1}", "{}", "{$match: {}, $limit: 1}",
    "{$foo: 1}", "{match: {}}", "{$unwind: \"$a\"}",
    '{$lookup: {}}', '{$out: "e"}', "{$group: {}}", "{$group: 5}", "{$group: {n: {$count: {}}}}", "{$group: {_id: null, _id: null}}",
    "{$group: {_id: {}}}", "{$group: {_id: []}}",
    '{$group: {_id: "$"}}', '{$group: {_id: "$a..b"}}', "{$group: {_id: null, n: 1}}", "{$group: {_id: null, n: {}}}",
    '{$group: {_id: null, n: {$avg: "$a"}}}',
    "{$group: {_id: null, n: {$sum: 1, $min: 1}}}", "{$group: {_id: null, n: {$sum: {}}}}", "{$group: {_id: null, n: {$sum: [1]}}}",
    "{$group: {_id: null, n: {$count: 1}}}",
    "{$group: {_id: null, n: {$count: {a: 1}}}}", '{$group: {_id: null, n: {$max: "$$ROOT"}}}', "5", "{$limit: 1}, {$limit: 0}",
]


def bad_rows():
    """Filters, sorts, projections and pipelines that are none."""
    rows = [("a filter that is none", f'{{find: "c", filter: {query}, {DB}', 2) for query in BAD_FILTERS]
    rows += [("a sort that is none", f'{{find: "c", sort: {spec}, {DB}', 2) for spec in BAD_SORTS]
    rows += [("a projection that is none", f'{{find: "c", projection: {spec}, {DB}', 2) for spec in BAD_PROJECTIONS]
    rows += [("a pipeline that is none", f'{{aggregate: "c", pipeline: [{stages}], cursor: {{}}, {DB}', 2) for stages in BAD_STAGES]
    return rows + [("a pipeline of 1001 stages", f'{{aggregate: "c", pipeline: [{", ".join(["{$match: {}}"] * 1001)}], cursor: {{}}, {DB}', 2)]


def body_rows():
    """A body that is none, and a command that is none, before all else."""
    return [
        ("a double in a filter", f'{{find: "c", filter: {{x: 1.5}}, {DB}', 22), ("a double, before no database", '{find: "c", sort: {x: 1.0}}', 22),
        ("a double, before the name", f"{{distinct: 1.5, {DB}", 22),
        ("a double in a pipeline", f'{{aggregate: "c", pipeline: [{{$match: {{x: 1.5}}}}], cursor: {{}}, {DB}', 22),
        ("a double in the own field", f"{{getMore: 1.0, collection: 5, {DB}", 22),
        ("a double among cursors", f'{{killCursors: "c", cursors: [1L, 1.0], {DB}', 22),
        ("a double in a query, before the own field", f"{{count: 1, query: {{x: 1.5}}, {DB}", 22),
        ("the name, before no database", '{distinct: "c", key: "x"}', 59),
        ("the name, before the own field", '{findAndModify: 1, query: 5, $db: "admin"}', 59),
        ("a name in other letters", f'{{getmore: 1L, collection: "c", {DB}', 59), ("the first name", f'{{filter: {{}}, find: "c", {DB}', 59),
    ]


def refusals():
    return refused_rows(body_rows() + database_rows() + typed_rows() + concern_rows() + bad_rows())
