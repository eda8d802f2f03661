"""Rows of numbered statements: sent again, too old, used again."""
from form import Ask, connection_row, refused_rows, silent
from reads import count, counted, find, first, refused

SESSION = 'lsid: {id: UUID("000102030405060708090a0b0c0d0e0f")}'
OTHER = 'lsid: {id: UUID("101112131415161718191a1b1c1d1e1f")}'
THREE = ["{_id: 1}", "{_id: 2}", "{_id: 3}"]


def insert(documents, number, says=None, rest="", session=SESSION, collection="c", **options):
    under = f", {session}, txnNumber: {number}" if number is not None else ""
    return Ask(f'{{insert: "{collection}", documents: [{documents}]{rest}{under}, $db: "d"}}', says, **options)


def update(statements, number, says=None, rest="", collection="c", **options):
    return Ask(f'{{update: "{collection}", updates: [{statements}]{rest}, {SESSION}, txnNumber: {number}, $db: "d"}}', says, **options)


def delete(statements, number, says=None, rest="", **options):
    under = f", {SESSION}, txnNumber: {number}" if number is not None else ""
    return Ask(f'{{delete: "c", deletes: [{statements}]{rest}{under}, $db: "d"}}', says, **options)


def done(n, counter, more="", seconds=1000):
    return f"{{n: {n}{more}, ok: 1, operationTime: Timestamp({seconds}, {counter})}}"


def errors(*listed):
    names = {11000: "DuplicateKey", 225: "TransactionTooOld", 2: "BadValue", 14: "TypeMismatch", 28: "PathNotViable", 66: "ImmutableField"}
    shown = []
    for index, code, *evidence in listed:
        more = f", evidence: {{txnNumber: {evidence[0]}L}}" if evidence else ""
        shown.append(f'{{index: {index}, code: {code}, errmsg: "{names[code]}"{more}}}')
    return f", writeErrors: [{', '.join(shown)}]"


def sequence(number, says, rest="", **options):
    return Ask(f'{{insert: "c"{rest}, {SESSION}, txnNumber: {number}, $db: "d"}}', says, [("documents", THREE)], **options)


def examples():
    """The examples that stand in the description of retries."""
    lines = connection_row("three inserts of a sequence, sent twice: one reply twice, and three entries", [
        sequence("1L", done(3, 4)), sequence("1L", done(3, 4), identifier=1, words="the same bytes"), count("", counted(3, 4)),
    ], keeps=(0, 1, 2))
    lines += connection_row("sent again five seconds later: the time of the first reply", [
        sequence("1L", done(3, 4)), sequence("1L", done(3, 4), identifier=1),
        find("sort: {_id: 1}", first("{_id: 1}, {_id: 2}, {_id: 3}", 0, seconds=1005)),
        sequence("2L", done(0, 1, errors((0, 11000)), 1005), words="under another number they are new"),
    ], clock=[1000000, 1005000, 1005000, 1005000], keeps=(0, 1, 2))
    again = insert("{_id: 1}, {_id: 4}", "2L", done(1, 6, errors((0, 11000))), ", ordered: false", identifier=7)
    lines += connection_row("an error is told again, behind a delete of what it met; an older number", [
        sequence("1L", done(3, 4)), again, delete("{q: {_id: 1}, limit: 1}", None, done(1, 7)), again, find("filter: {_id: 1}", first("", 7)),
        sequence("1L", done(0, 7, errors((0, 225, 2)))),
        sequence("1L", done(0, 7, errors((0, 225, 2), (1, 225, 2), (2, 225, 2))), ", ordered: false"),
        count("", counted(3, 7)),
    ], keeps=(0, 1, 2))
    return lines + connection_row("an upsert, then an insert under its number: nothing is put in", [
        update("{q: {_id: 1}, u: {$set: {x: 1}}, upsert: true}", "3L", done(1, 2, ", nModified: 0, upserted: [{index: 0, _id: 1}]")),
        insert("{_id: 2}", "3L", done(1, 2)),
        find("", first("{_id: 1, x: 1}", 2)), update("{q: {_id: 1}, u: {$set: {x: 1}}, upsert: true}", "3L",
            done(1, 2, ", nModified: 0, upserted: [{index: 0, _id: 1}]")),
        update("{q: {_id: 9}, u: {$set: {x: 1}}}", "3L", done(1, 2, ", nModified: 0, upserted: [{index: 0, _id: 1}]"),
            words="another update under the number: the key that the upsert put in"),
        delete("{q: {_id: 1}, limit: 1}", "3L", done(1, 2)), count("", counted(1, 2)),
        insert("{_id: 3}, {_id: 4}", "3L", done(2, 3), words="the second has a number that is new"), count("", counted(2, 3)),
    ], keeps=(0, 1, 2))


def kinds():
    """Updates and deletes sent again."""
    increased, removed = "{q: {_id: 1}, u: {$inc: {x: 1}}}", "{q: {_id: 1}, limit: 1}"
    lines = connection_row("an increment and a delete, sent again", [
        insert("{_id: 1, x: 1}", None, done(1, 2)), update(increased, "1L", done(1, 3, ", nModified: 1")),
        update(increased, "1L", done(1, 3, ", nModified: 1"), identifier=2), find("", first("{_id: 1, x: 2}", 3)),
        update(f"{increased}, {increased}", "2L", done(2, 5, ", nModified: 2")),
        update(f"{increased}, {increased}", "2L", done(2, 5, ", nModified: 2")), find("", first("{_id: 1, x: 4}", 5)),
        delete(removed, "3L", done(1, 6)), insert("{_id: 1}", None, done(1, 7)), delete(removed, "3L", done(1, 6)), find("", first("{_id: 1}", 7)),
        delete("{q: {_id: 8}, limit: 1}", "4L", done(0, 8), words="it met no document, and is an entry all the same"),
        insert("{_id: 8}", None, done(1, 9)), delete("{q: {_id: 8}, limit: 1}", "4L", done(0, 8)), count("", counted(2, 9)),
    ], keeps=(0, 1, 2))
    lines += connection_row("an insert, then updates under its number", [
        insert("{_id: 1}, {_id: 1}", "1L", done(1, 3, errors((1, 11000)))),
        update("{q: {_id: 1}, u: {$set: {x: 1}}}", "1L", done(1, 2, ", nModified: 0")),
        update("{q: {_id: 1}, u: {$set: {x: 1}}}, {q: {_id: 1}, u: {$set: {x: 1}}}", "1L", done(1, 3, ", nModified: 0" + errors((1, 11000)))),
        find("", first("{_id: 1}", 3)),
    ], keeps=(0, 1, 2))
    lines += connection_row("errors of changes, told again", [
        insert('{_id: 1, a: "t"}', None, done(1, 2)),
        update("{q: {_id: 1}, u: {$inc: {a: 1}}}", "1L", done(0, 3, ", nModified: 0" + errors((0, 14))), words="of what is no number"),
        update("{q: {_id: 1}, u: {$set: {a: 1}}}", "2L", done(1, 4, ", nModified: 1")),
        update("{q: {_id: 1}, u: {$inc: {a: 1}}}", "1L", done(0, 4, ", nModified: 0" + errors((0, 225, 2)))),
        update('{q: {_id: 1}, u: {$set: {"a.b": 1}}}, {q: {_id: 1}, u: {$set: {_id: 2}}}', "3L",
            done(0, 6, ", nModified: 0" + errors((0, 28), (1, 66))), ", ordered: false"),
        update("{q: {_id: 1}, u: {a: {}}}", "4L", done(1, 7, ", nModified: 1")),
        update('{q: {_id: 1}, u: {$set: {"a.b": 1}}}', "4L", done(1, 7, ", nModified: 1")), find("", first("{_id: 1, a: {}}", 7)),
    ], keeps=(0, 1, 2))
    return lines + connection_row("ordered to its first error; sent again without order, the rest is done", [
        insert("{_id: 1}, {_id: 1}, {_id: 2}", "1L", done(1, 3, errors((1, 11000)))),
        insert("{_id: 1}, {_id: 1}, {_id: 2}", "1L", done(1, 3, errors((1, 11000)))), count("", counted(1, 3)),
        insert("{_id: 1}, {_id: 1}, {_id: 2}", "1L", done(2, 4, errors((1, 11000))), ", ordered: false"),
        insert("{_id: 1}, {_id: 1}, {_id: 2}", "1L", done(2, 4, errors((1, 11000))), ", ordered: false"),
        insert("{_id: 1}, {_id: 1}, {_id: 2}", "1L", done(1, 3, errors((1, 11000))), words="ordered, the error that is told again ends it"),
        count("", counted(2, 4)),
    ], keeps=(0, 1, 2))


def numbers():
    """Which number a statement has."""
    lines = connection_row("numbers of both widths, below zero, of two sessions", [
        insert("{_id: 1}", "-5", done(1, 2)), insert("{_id: 1}", "-5L", done(1, 2)), insert("{_id: 2}", "-6L", done(0, 2, errors((0, 225, -5)))),
        insert("{_id: 2}", "0", done(1, 3)), insert("{_id: 2}", "0L", done(1, 3)),
        insert("{_id: 3}", "-5", done(0, 3, errors((0, 225, 0)))), insert("{_id: 3}", "-5", done(1, 4), session=OTHER),
        insert("{_id: 3}", "-5L", done(1, 4), session=OTHER),
        insert("{_id: 4}", "9223372036854775807L", done(1, 5)),
        insert("{_id: 5}", "9223372036854775806L", done(0, 5, errors((0, 225, 9223372036854775807)))),
        insert("{_id: 5}", "-4L", done(1, 6), session=OTHER),
        count("", counted(5, 6)),
    ])
    lines += connection_row("a session alone numbers nothing", [
        Ask(f'{{insert: "c", documents: [{{_id: 1}}], {SESSION}, $db: "d"}}', done(1, 2), identifier=1),
        Ask(f'{{insert: "c", documents: [{{_id: 1}}], {SESSION}, $db: "d"}}', done(0, 3, errors((0, 11000))), identifier=1),
        insert("{_id: 2}", "1L", done(1, 4)), Ask(f'{{insert: "c", documents: [{{_id: 3}}], {SESSION}, $db: "d"}}', done(1, 5)),
        insert("{_id: 2}", "1L", done(1, 4)),
    ], keeps=(1,))
    lines += connection_row("what is refused whole, or has nothing but 225, raises and notes nothing", [
        insert("{_id: 1}", "3L", done(1, 2)), insert("{x: 1}", "9L", refused(61, "ShardKeyNotFound")),
        insert("{_id: 2}", "2L", done(0, 2, errors((0, 225, 3)))), insert("{_id: 2}", "4L", done(1, 3)),
        Ask(f'{{endSessions: [{{id: UUID("000102030405060708090a0b0c0d0e0f")}}], $db: "admin"}}', "{ok: 1}"),
        insert("{_id: 2}", "4L", done(1, 3), words="an ended session is not forgotten"),
        insert("{_id: 3}", "3L", done(0, 3, errors((0, 225, 4)))),
    ])
    lines += connection_row("the number counts over all namespaces; each write begins its own", [
        insert("{_id: 1}", "1L", done(1, 2)), insert("{_id: 1}", "1L", done(1, 2), collection="e",
            words="the first entry's reply; the collection begins, with the time 3"),
        insert("{_id: 1}", "0L", done(0, 4, errors((0, 225, 1))), collection="f", words="the time of the collection that began"),
        Ask('{find: "e", $db: "d"}', first("", 4, "d.e")),
        insert("{_id: 1}, {_id: 2}", "1L", done(2, 5), collection="e"), Ask('{find: "e", $db: "d"}', first("{_id: 2}", 5, "d.e")),
        find("", first("{_id: 1}", 5)),
    ], keeps=(0, 1))
    return lines + connection_row("without a reply, and with one when it is sent again", [
        silent(f'{{insert: "c", documents: [{{_id: 1}}], {SESSION}, txnNumber: 1L, $db: "d"}}'), insert("{_id: 1}", "1L", done(1, 2)),
        silent(f'{{insert: "c", documents: [{{_id: 2}}], {SESSION}, txnNumber: 2L, $db: "d"}}'),
        insert("{_id: 1}", "1L", done(0, 3, errors((0, 225, 2)))), count("", counted(2, 3)),
    ])


def refusals():
    start, end = '{insert: "c", documents: [{_id: 1}], ', '$db: "d"}'
    return refused_rows([
        ("a number without a session", f"{start}txnNumber: 1L, {end}", 9),
        ("a number of another type", f'{start}{SESSION}, txnNumber: "1", {end}', 14),
        ("a number of another type, before no session", f"{start}txnNumber: true, {end}", 14),
        ("a number that is a time", f"{start}{SESSION}, txnNumber: Timestamp(0, 1), {end}", 14),
        ("a number twice", f"{start}{SESSION}, txnNumber: 1L, txnNumber: 1L, {end}", 9),
        ("no session, before a document without a key", '{insert: "c", documents: [{x: 1}], txnNumber: 1L, $db: "d"}', 9),
        ("no documents, before no session", ('{insert: "c", txnNumber: 1L, $db: "d"}', [("documents", [])]), 2),
        ("a session of another type", f"{start}lsid: 1, txnNumber: 1L, {end}", 14),
        ("a session without its id", f"{start}lsid: {{}}, txnNumber: 1L, {end}", 9),
        ("an id of another type", f'{start}lsid: {{id: "000102030405060708090a0b0c0d0e0f"}}, txnNumber: 1L, {end}', 14),
        ("an id of another subtype", f'{start}lsid: {{id: Binary(3, "000102030405060708090a0b0c0d0e0f")}}, txnNumber: 1L, {end}', 2),
        ("an id of 17 bytes", f'{start}lsid: {{id: Binary(4, "000102030405060708090a0b0c0d0e0f10")}}, txnNumber: 1L, {end}', 2),
        ("a session of a user", f'{start}lsid: {{id: UUID("000102030405060708090a0b0c0d0e0f"), uid: Binary(0, "00")}}, txnNumber: 1L, {end}', 9),
        ("a transaction begins", f"{start}{SESSION}, txnNumber: 1L, startTransaction: true, {end}", 9),
        ("a transaction", f"{start}{SESSION}, txnNumber: 1L, autocommit: false, {end}", 9),
        ("a statement's number", f"{start}{SESSION}, txnNumber: 1L, stmtId: 0, {end}", 9),
        ("an update without a session", '{update: "c", updates: [{q: {_id: 1}, u: {x: 1}}], txnNumber: 1, $db: "d"}', 9),
        ("a delete without a session, before its key", '{delete: "c", deletes: [{q: {x: 1}, limit: 1}], txnNumber: 1, $db: "d"}', 9),
        ("an update's number of another type", f'{{update: "c", updates: [{{q: {{_id: 1}}, u: {{x: 1}}}}], {SESSION}, txnNumber: null, $db: "d"}}',
            14),
        ("numbered, a document without a key", f'{{insert: "c", documents: [{{x: 1}}], {SESSION}, txnNumber: 1L, $db: "d"}}', 61),
    ])


def rows():
    return examples() + kinds() + numbers() + refusals()
