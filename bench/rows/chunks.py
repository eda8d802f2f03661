"""Rows of `shardCollection` and `split`: connections with the journals that they leave, and refusals. `chunk_scripts` has scripts."""
from cursors import more, next_
from form import Ask, ask_lines, connection_row, refused_rows, silent
from reads import aggregate, count, counted, find, first, inserted, refused
from refusals import LIMITS
from retries import SESSION, done, errors, insert, sequence
from wire import Connection

ADMIN = '$db: "admin"}'
KEY = "key: {_id: 1}"
LONG = f'"{"d" * 63}.{"a" * 191}"'
COMMON = (f'comment: [], maxTimeMS: 2147483647, $clusterTime: 1, $readPreference: 1, {SESSION}, apiVersion: "1", apiStrict: true, '
    'apiDeprecationErrors: false')
ONE = "{_id: 1}"
MANY = 40


def shard(says=None, name="d.c", key=KEY, **options):
    return Ask(f'{{shardCollection: "{name}", {key}, {ADMIN}', says, **options)


def split(key, says=None, name="d.c", **options):
    return Ask(f'{{split: "{name}", middle: {{_id: {key}}}, {ADMIN}', says, **options)


def sharded(counter, name="d.c", seconds=1000):
    return f'{{collectionsharded: "{name}", ok: 1, operationTime: Timestamp({seconds}, {counter})}}'


def changed(counter, seconds=1000):
    return f"{{ok: 1, operationTime: Timestamp({seconds}, {counter})}}"


MISSING = refused(118, "NamespaceNotSharded")


def examples(shards=1):
    keeps, more_shards = range(2 + shards), "" if shards == 1 else f"; {shards} shards"
    lines = connection_row(f"a collection is created, split at 10 and once more there, and has a document; a collection that there is not{more_shards}", [
        shard(sharded(1)), split(10, changed(2)), split(10, changed(2)), Ask(inserted("{_id: 10}"), done(1, 3)), split(10, MISSING, "d.e"),
    ], keeps=keeps, shards=shards)
    return lines + connection_row(f"four chunks, and a document in each: reads see one collection; it is created once{more_shards}", [
        shard(sharded(1)), split(10, changed(2)), split(5, changed(3)), split(20, changed(4)),
        Ask(inserted("{_id: 1, x: 1}"), done(1, 5)), Ask(inserted("{_id: 7, x: 1}"), done(1, 6)), Ask(inserted("{_id: 12, x: 0}"), done(1, 7)),
        Ask(inserted("{_id: 25, x: 1}"), done(1, 8)),
        find("sort: {x: 1, _id: -1}, skip: 1, limit: 2", first("{_id: 25, x: 1}, {_id: 7, x: 1}", 8)),
        find("filter: {_id: {$gte: 7}}, sort: {_id: 1}", first("{_id: 7, x: 1}, {_id: 12, x: 0}, {_id: 25, x: 1}", 8)),
        shard(sharded(8)),
    ], keeps=keeps, shards=shards)


def served():
    """Each form of the two commands, and each type of a key."""
    lines = connection_row("every form of shardCollection", [
        shard(sharded(1)), shard(sharded(1), key="key: {_id: 1L}"), shard(sharded(2, "d.c.e"), "d.c.e"), shard(sharded(2, "d.c.e"), "d.c.e"),
        Ask(f"{{shardCollection: {LONG}, {KEY}, {ADMIN}", sharded(3, LONG.strip('"')), words="a full name of 255 bytes"),
        shard(sharded(3), key=f"{KEY}, {COMMON}"), Ask(f'{{shardCollection: "d.c", $db: "admin", {COMMON}, {KEY}}}', sharded(3)),
    ], keeps=(0, 1))
    keys = ["5", "null", '"k"', '""', "true", "false", "Date(-1)", "Timestamp(1, 2)", "-1", "9223372036854775807L",
        'ObjectId("000102030405060708090a0b")', 'Binary(0, "00ff")', 'UUID("000102030405060708090a0b0c0d0e0f")']
    asks = [shard(sharded(1))] + [split(key, changed(2 + number)) for number, key in enumerate(keys)]
    last = 1 + len(keys)
    return lines + connection_row("every form of split: keys of each type, a key in both widths, every common field; the table that the shard stores", asks + [
        split("5L", changed(last)), Ask(f'{{split: "d.c", {COMMON}, middle: {{_id: null}}, {ADMIN}', changed(last)),
        Ask(f'{{split: {LONG}, middle: {{_id: 5}}, {ADMIN}', MISSING, words="a full name of 255 bytes"),
        Ask(inserted('{_id: "k"}'), done(1, last + 1)), find("", first('{_id: "k"}', last + 1)),
    ], keeps=(0, 1))


def beside_writes():
    lines = connection_row("a collection that a write created; its shard has a table, and stores no other while no chunk moves", [
        Ask(inserted("{_id: 1}, {_id: 2}"), done(2, 3)), shard(sharded(3)), split(1, changed(4)), split(2, changed(5)),
        split("2L", changed(5)), Ask(inserted("{_id: 2}"), done(0, 6, errors((0, 11000)))), find("sort: {_id: 1}", first("{_id: 1}, {_id: 2}", 6)),
        Ask('{update: "c", updates: [{q: {_id: 2}, u: {$set: {x: 1}}}], $db: "d"}', "{n: 1, nModified: 1, ok: 1, operationTime: Timestamp(1000, 7)}"),
        Ask('{delete: "c", deletes: [{q: {_id: 1}, limit: 1}], $db: "d"}', done(1, 8)), split(3, changed(9)), shard(sharded(9)),
        aggregate('{$group: {_id: null, n: {$count: {}}}}', first("{_id: null, n: 1}", 9)),
    ], keeps=(0, 1, 2))
    snapshot = 'readConcern: {level: "snapshot", atClusterTime: Timestamp(1000, %d)}'
    words = "reads of a collection without documents: before it was created, since then; the first that asks the shard has it store its table"
    lines += connection_row(words, [
        find("", first("", 0)), shard(sharded(1)), split(5, changed(2)), find(snapshot % 0, first("", 0)), find("", first("", 2)),
        split(6, changed(3)), find(snapshot % 1, first("", 1)), count("", counted(0, 3)), find("", first("", 3), words="another time"),
    ], keeps=(0, 1, 2))
    lines += connection_row("one message with documents of three chunks: one entry each, in order; an error between them", [
        shard(sharded(1)), split(10, changed(2)), split(20, changed(3)), Ask(inserted("{_id: 25}, {_id: 5}, {_id: 15}, {_id: 6}"), done(4, 7)),
        Ask(inserted("{_id: 16}, {_id: 25}, {_id: 7}"), done(1, 9, errors((1, 11000)))),
        Ask('{insert: "c", documents: [{_id: 5}, {_id: 17}, {_id: 25}], ordered: false, $db: "d"}', done(1, 12, errors((0, 11000), (2, 11000)))),
        find("sort: {_id: 1}", first(", ".join(f"{{_id: {key}}}" for key in (5, 6, 15, 16, 17, 25)), 12)),
    ], keeps=(0, 1, 2))
    lines += connection_row("numbered inserts are answered as before a split", [
        sequence("1L", done(3, 4)), split(2, changed(5)), sequence("1L", done(3, 4), identifier=1), insert("{_id: 2}", "2L", done(0, 6, errors((0, 11000)))),
        shard(sharded(6)), insert("{_id: 2}", "2L", done(0, 6, errors((0, 11000)))),
    ], keeps=(0, 1))
    return lines + connection_row("a cursor stays as it is", [
        Ask(inserted("{_id: 1}, {_id: 2}, {_id: 3}"), done(3, 4)), find("sort: {_id: 1}, batchSize: 1", first("{_id: 1}", 4, identifier=1)),
        split(2, changed(5)), more("1L", next_("{_id: 2}", 4, identifier=1), ", batchSize: 1"), shard(sharded(5)), more("1L", next_("{_id: 3}", 4)),
    ], keeps=(0, 1, 2))


def missing():
    return connection_row("118 stores nothing; names with one beginning are apart; then the collection is there", [
        split(5, MISSING), split(5, MISSING), shard(sharded(1, "d.c.e"), "d.c.e"), split(5, MISSING), split(5, changed(2), "d.c.e"),
        split(5, MISSING, "d.c.e.f"), split(5, MISSING, "e.c.e"), shard(sharded(3)), split(5, changed(4)), split(5, changed(4)),
        find("", first("", 4)), Ask('{find: "e", $db: "d"}', first("", 4, "d.e")), split(5, MISSING, "d.e"),
    ], keeps=(0, 1, 2))


def unanswered():
    return connection_row("moreToCome: done, though there is no reply", [
        silent(f'{{split: "d.c", middle: {{_id: 5}}, {ADMIN}'), silent(f'{{shardCollection: "d.c", {KEY}, {ADMIN}'),
        silent(f'{{split: "d.c", middle: {{_id: 5}}, {ADMIN}'), split(5, changed(2)), silent(f'{{split: "d.c", middle: {{_id: 6}}, {ADMIN}'),
        silent(f'{{split: "d.c", middle: {{x: 6}}, {ADMIN}'), silent(f'{{shardCollection: "d.c", {KEY}, {ADMIN}'), shard(sharded(3)),
    ], keeps=(0, 1, 2))


def clocked():
    return connection_row("moments: the greatest time that a change can have comes first, and the counter goes on", [
        shard(sharded(1)), split(5, changed(1, 2000)), split(6, changed(2, 2000)), split(7, changed(1, 2001)), split(7, changed(0, 2**31)),
        split(8, changed(1, 2**31)), shard(sharded(1, seconds=2**31)),
    ], clock=[1000000, 2000999, 1500000, 2001000, 2**64 - 1, 2**64 - 1, 0], keeps=(0, 1))


def many():
    """Keys in an order that is none, and then each again."""
    keys = [number * 17 % MANY * 10 for number in range(MANY)]
    asks = [shard(sharded(1))] + [split(key, changed(2 + number)) for number, key in enumerate(keys)]
    asks += [split(f"{key}L", changed(1 + MANY)) for key in keys[::7]]
    return connection_row(f"{MANY} splits", asks + [Ask(inserted("{_id: 205}"), done(1, 2 + MANY))], keeps=(0, 1))


def failing():
    """A call of the catalogue's disk fails: each of those that store the creation, and each of those that store the split."""
    lines = []
    for call in range(4, 12):
        connection, is_created = Connection(), call >= 8
        lines += [f"# call {call} of disk 0 fails, with a collection that is created and split", f"fail 0 {call}"]
        for number, ask in enumerate([shard(sharded(1)), split(10, changed(2))]):
            told = ask_lines("", connection, ask, number + 1)
            lines += told if is_created and number == 0 else [line for line in told if not line.startswith(("gets", "note gets"))]
        lines += [f"record {node} {record.hex()}" for node in (0, 2) for record in connection.cluster.journals[node]]
        lines += ["finds 0 1 2" if is_created else "finds 0 0 1", "finds 1 0 0", "finds 2 1 1", "ends 5 0"]
    return lines


def refused_shards():
    named = [("a collection alone", "c"), ("a collection that is none", "d.a$b"), ("a collection that begins with a dot", "d..c"),
        ("no collection", "d."), ("no database in the name", ".c"), ("an empty name", ""), ("a database that is none", "a b.c"),
        ("a collection of admin", "admin.c"), ("a collection of config", "config.c"), ("a collection of local", "local.c"),
        ("a full name of 256 bytes", f"{'d' * 63}.{'a' * 192}")]
    keys = [("an empty key", "{}", 2), ("another field as key", "{x: 1}", 2), ("a key of two fields", "{_id: 1, x: 1}", 2),
        ("_id twice", "{_id: 1, _id: 1}", 2), ("a hashed key", '{_id: "hashed"}', 2), ("a key downwards", "{_id: -1}", 2), ("a key of true", "{_id: true}", 2),
        ("a key of a timestamp", "{_id: Timestamp(0, 1)}", 2), ("a key of 2", "{_id: 2}", 2), ("a key of 0", "{_id: 0L}", 2),
        ("a key of 2^32 + 1", "{_id: 4294967297L}", 2), ("a key of a double", "{_id: 1.0}", 22), ("a key of another type", "1", 14),
        ("a key that is an array", "[1]", 14), ("a key that is a text", '"_id"', 14)]
    more_ = [("unique", "false"), ("numInitialChunks", "1"), ("collation", "{}"), ("middle", "{_id: 1}"), ("writeConcern", "{}")]
    with_documents = [("documents", [ONE])]
    rows = [
        ("no database", f'{{shardCollection: "d.c", {KEY}}}', 9), ("a database of another type", f'{{shardCollection: "d.c", {KEY}, $db: 1}}', 14),
        ("no database, before the own field", f"{{shardCollection: 1, {KEY}}}", 9), ("the own field", f"{{shardCollection: 1, {KEY}, {ADMIN}", 14),
        ("the own field, before the database", f'{{shardCollection: 1, {KEY}, $db: "d"}}', 14),
        *((words, f'{{shardCollection: "{name}", {KEY}, {ADMIN}', 73) for words, name in named),
        ("on another database", f'{{shardCollection: "d.c", {KEY}, $db: "d"}}', 73),
        ("on another reserved database", f'{{shardCollection: "d.c", {KEY}, $db: "config"}}', 73),
        ("on admin in other letters", f'{{shardCollection: "d.c", {KEY}, $db: "Admin"}}', 73),
        ("the name, before a field that is not listed", f'{{shardCollection: "c", zz: 1, {KEY}, {ADMIN}', 73),
        ("the database, before a field that is not listed", f'{{shardCollection: "d.c", zz: 1, {KEY}, $db: "d"}}', 73),
        ("no key", f'{{shardCollection: "d.c", {ADMIN}', 9),
        *((words, f'{{shardCollection: "d.c", key: {key}, {ADMIN}', code) for words, key, code in keys),
        ("the key twice", f'{{shardCollection: "d.c", {KEY}, key: 1, {ADMIN}', 9),
        ("the own field twice", f'{{shardCollection: "d.c", {KEY}, shardCollection: "d.c", {ADMIN}', 9),
        *((f"{name} is not taken", f'{{shardCollection: "d.c", {KEY}, {name}: {value}, {ADMIN}', 9) for name, value in more_),
        *((words, f'{{shardCollection: "d.c", {KEY}, {limit}, {ADMIN}', code) for words, limit, code in LIMITS),
        ("a session", f'{{shardCollection: "d.c", {KEY}, lsid: {{}}, {ADMIN}', 9),
        ("a session of another type", f'{{shardCollection: "d.c", {KEY}, lsid: 1, {ADMIN}', 14),
        ("apiStrict of another type", f'{{shardCollection: "d.c", {KEY}, apiStrict: 1, {ADMIN}', 14),
        ("numbered", f'{{shardCollection: "d.c", {KEY}, {SESSION}, txnNumber: 1L, {ADMIN}', 9),
        ("a field that is not listed, before a bad key", f'{{shardCollection: "d.c", zz: 1, key: {{}}, {ADMIN}', 9),
        ("a bad key, before a field that is not listed", f'{{shardCollection: "d.c", key: {{}}, zz: 1, {ADMIN}', 2),
        ("no sequence goes with it", (f'{{shardCollection: "d.c", {KEY}, {ADMIN}', with_documents), 9),
        ("no sequence goes for the key", (f'{{shardCollection: "d.c", {ADMIN}', [("key", [ONE])]), 9),
        ("a bad key, before the sequence", (f'{{shardCollection: "d.c", key: {{}}, {ADMIN}', with_documents), 2),
        ("the name in other letters", f'{{shardcollection: "d.c", {KEY}, {ADMIN}', 59), ("a double, before no database", "{shardCollection: 1.5}", 22),
    ]
    return refused_rows(rows)


def refused_splits():
    middles = [("an empty middle", "{}", 2), ("another field as middle", "{x: 5}", 2), ("a middle of two fields", "{_id: 5, x: 5}", 2),
        ("two fields, _id last", "{x: 5, _id: 5}", 2), ("_id twice", "{_id: 5, _id: 5}", 2), ("a middle below all keys", "{_id: MinKey}", 2),
        ("a middle above all keys", "{_id: MaxKey}", 2), ("a middle that is an array", "{_id: [5]}", 2), ("a middle that is a document", "{_id: {a: 5}}", 2),
        ("a double as middle", "{_id: 5.0}", 22), ("a middle of another type", "5", 14), ("a middle that is null", "null", 14)]
    more_ = [("find", "{_id: 5}"), ("bounds", "[{_id: 1}, {_id: 5}]"), ("key", "{_id: 1}")]
    five = "middle: {_id: 5}"
    rows = [
        ("no database", f'{{split: "d.c", {five}}}', 9), ("the own field", f"{{split: 1, {five}, {ADMIN}", 14),
        ("the own field, before the database", f'{{split: 1, {five}, $db: "d"}}', 14), ("a collection alone", f'{{split: "c", {five}, {ADMIN}', 73),
        ("a collection of admin", f'{{split: "admin.c", {five}, {ADMIN}', 73), ("a collection that begins with a dot", f'{{split: "d..c", {five}, {ADMIN}', 73),
        ("on another database", f'{{split: "d.c", {five}, $db: "d"}}', 73), ("no middle", f'{{split: "d.c", {ADMIN}', 9),
        *((words, f'{{split: "d.c", middle: {middle}, {ADMIN}', code) for words, middle, code in middles),
        ("the middle twice", f'{{split: "d.c", {five}, middle: 5, {ADMIN}', 9),
        *((f"{name} is not taken", f'{{split: "d.c", {five}, {name}: {value}, {ADMIN}', 9) for name, value in more_),
        *((f"{name} does not stand for the middle", f'{{split: "d.c", {name}: {value}, {ADMIN}', 9) for name, value in more_[:2]),
        *((words, f'{{split: "d.c", {five}, {limit}, {ADMIN}', code) for words, limit, code in LIMITS),
        ("a bad middle, before a field that is not listed", f'{{split: "d.c", middle: {{}}, zz: 1, {ADMIN}', 2),
        ("no sequence goes with it", (f'{{split: "d.c", {five}, {ADMIN}', [("middle", ["{_id: 5}"])]), 9),
        ("no sequence goes for the middle", (f'{{split: "d.c", {ADMIN}', [("middle", ["{_id: 5}"])]), 9),
        ("the name in other letters", f'{{Split: "d.c", {five}, {ADMIN}', 59),
        ("other commands of sharding", f'{{moveChunk: "d.c", find: {{_id: 5}}, to: "a", {ADMIN}', 59),
        ("other commands of sharding", '{enableSharding: "d", $db: "admin"}', 59),
    ]
    return refused_rows(rows)


def rows():
    lines = examples() + served() + beside_writes() + missing() + unanswered() + clocked() + many() + failing()
    return lines + refused_shards() + refused_splits()
