"""Rows of the drivers' recorded messages over documents: what they find, cursors that they open, and inserts that they send again."""
from form import Ask, connection_row
from reads import first
from wire import Request

PYTHON, RUBY, NODE = "pymongo 3.11", "ruby-mongo 2.5", "node-mongodb 3.6"
FEW = "{_id: 5, x: 5, s: \"e\"}"
MANY = ", ".join(f'{{_id: {key}, x: {number}, s: "{letter}"}}' for key, number, letter in
    [(1, 1, "a"), (2, 2, "b"), (3, 31, "c"), (4, 4, "d"), (6, 30, "f"), (7, 7, "g"), (8, 8, "h")])


def recorded(path):
    """The messages that stand in the rows of the drivers, by the driver's name and the step's."""
    found, name, step = {}, None, None
    for line in path.read_text().splitlines():
        word, _, rest = line.partition(" ")
        if word == "#":
            name = rest
        elif word == "note":
            step = rest
        elif word == "ask":
            found.setdefault((name, step), bytes.fromhex(rest))
    return found


def step(messages, name, of, says):
    bytes_ = messages[(name, of)]
    return Ask(of, says, raw=bytes_, words=of)


def own(source, says, words):
    return Ask(source, says, words=words)


def document(key, number, letter):
    return f'{{_id: {key}, x: {number}, s: "{letter}"}}'


def next_(documents, counter, identifier=0):
    return first(documents, counter, identifier=identifier).replace("firstBatch", "nextBatch")


def finds(messages, name, session, has_all):
    """The finds that are recorded, over one document and over eight."""
    few = document(5, 5, "e")
    asks = [own(f'{{insert: "c", documents: [{FEW}], ordered: true, {session}, $db: "d"}}', "{n: 1, ok: 1, operationTime: Timestamp(1000, 2)}",
        "a document"),
        step(messages, name, "find_one", first(few, 2)), step(messages, name, "find_batches", first(few, 2))]
    if has_all:
        asks += [step(messages, name, "find_all", first(few, 2)), step(messages, name, "read_concern_majority", first(few, 2))]
    else:
        asks.append(step(messages, name, "secondary_preferred", first(few, 2)))
    by_x = [document(3, 31, "c"), document(6, 30, "f"), document(8, 8, "h"), document(7, 7, "g"), few, document(4, 4, "d"), document(2, 2, "b"),
        document(1, 1, "a")]
    more = '{getMore: %s, collection: "c", batchSize: 2, ' + session + ', $db: "d"}'
    return asks + [
        own(f'{{insert: "c", documents: [{MANY}], ordered: true, {session}, $db: "d"}}', "{n: 7, ok: 1, operationTime: Timestamp(1000, 9)}",
            "seven more"),
        step(messages, name, "find_filter_sort_limit", first(", ".join(by_x[:2]), 9, identifier=1)),
        step(messages, name, "find_sorted", first(", ".join(by_x), 9)),
        step(messages, name, "find_skip_projection", first('{_id: 4, s: "d"}, {_id: 5, s: "e"}', 9)),
        own(more % "1L", next_(", ".join(by_x[2:4]), 9, 1), "the next two"),
        own(more % "1L", next_(by_x[4], 9), "the last of five"),
        step(messages, name, "find_filter_sort_limit", first(", ".join(by_x[:2]), 9, identifier=2)),
        own(f'{{killCursors: "c", cursors: [2L], {session}, $db: "d"}}',
            "{cursorsKilled: [2L], cursorsNotFound: [], cursorsAlive: [], cursorsUnknown: [], ok: 1}", "its cursor is closed"),
    ]


def session_of(messages, name):
    """The session that the driver's messages name, in the notation."""
    body = Request(messages[(name, "find_one")]).body
    identifier = dict(dict(body)["lsid"][1])["id"][1][1]
    return f'lsid: {{id: UUID("{identifier.hex()}")}}'


def again(messages, name, steps):
    """Numbered inserts, each sent twice."""
    asks = []
    for of, says in steps:
        asks += [step(messages, name, of, says), step(messages, name, of, says)]
    return asks


def inserts(counter, n=1, more=""):
    return f"{{n: {n}{more}, ok: 1, operationTime: Timestamp(1000, {counter})}}"


def rows(path):
    messages = recorded(path)
    error = ', writeErrors: [{index: %d, code: 11000, errmsg: "DuplicateKey"}]'
    two = ', writeErrors: [{index: 0, code: 11000, errmsg: "DuplicateKey"}, {index: 1, code: 11000, errmsg: "DuplicateKey"}]'
    steps = [("insert_one", inserts(2)), ("insert_duplicate", inserts(4, 1, error % 1)), ("insert_duplicate_unordered", inserts(7, 1, two)),
        ("bulk_ordered", inserts(9, 2))]
    lines = connection_row(f"{PYTHON}, finds over documents", finds(messages, PYTHON, session_of(messages, PYTHON), True))
    lines += connection_row(f"{RUBY}, finds over documents", finds(messages, RUBY, session_of(messages, RUBY), False))
    lines += connection_row(f"{PYTHON}, numbered inserts, each sent twice",
        again(messages, PYTHON, steps + [("retry_insert", inserts(10)), ("code_91_insert", inserts(11))]), keeps=(1,))
    older = ', writeErrors: [{index: 0, code: 225, errmsg: "TransactionTooOld", evidence: {txnNumber: 19L}}]'
    asks = again(messages, NODE, steps) + [step(messages, NODE, "insert_one", inserts(9, 0, older))]
    asks += again(messages, NODE, [("write_concern_majority", inserts(10))])
    asks += [step(messages, NODE, "around_find_by_command", first("", 10)),
        own(f'{{insert: "c", documents: [{FEW}], $db: "d"}}', inserts(11), "a document"),
        step(messages, NODE, "around_find_by_command", first(document(5, 5, "e"), 11)),
        step(messages, NODE, "find_one", first(document(5, 5, "e"), 11))]
    return lines + connection_row(f"{NODE}, numbered inserts, each sent twice, and finds", asks, keeps=(1,))
