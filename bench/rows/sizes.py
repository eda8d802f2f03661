"""Rows of answers that are too long, and of a batch that its size ends: short requests whose projections repeat a long string."""
from bson import fields_of, size
from form import Ask, connection_row
from reads import aggregate, count, counted, find, first, inserted, refused

LONGEST = 16777216
STRING = 100000


def repeated(fields, copies, more=""):
    """A projection that shows a field so many times, under names of four letters."""
    names = [f'a{number:03}: "${fields}"' for number in range(copies)]
    return "{_id: 1, " + ", ".join(names + ([more] if more else [])) + "}"


def document(copies, length, last=0):
    """The size of the document that such a projection leaves: each copy has a type, a name, a length and the string; a last one has `last` letters."""
    return 4 + 9 + copies * (1 + 5 + 4 + length + 1) + (1 + 5 + 4 + last + 1 if last else 0) + 1


def long_insert(key, length=STRING, last=0):
    more = f', y: repeat("y", {last})' if last else ""
    return Ask(inserted(f'{{_id: {key}, x: repeat("x", {length}){more}}}'))


def exact():
    """How many letters the last copy needs, so that the document has just the greatest size, beside 167 copies."""
    return LONGEST - document(167, STRING, 1) + 1


def rows():
    last = exact()
    assert document(167, STRING, last) == LONGEST
    assert size(fields_of('{_id: 2, a: "bcd"}')) == 5 + 9 + 1 + 2 + 4 + 4
    name = "QueryExceededMemoryLimitNoDiskUseAllowed"
    lines = connection_row("one document that is too long by one byte, and by more", [
        long_insert(1, last=last + 1), find(f"projection: {repeated('x', 167, 'b000: ' + chr(34) + '$y' + chr(34))}",
            refused(292, name, f"{{bytes: {LONGEST + 1}L}}")),
        aggregate(f"{{$project: {repeated('x', 200)}}}", refused(292, name, f"{{bytes: {document(200, STRING)}L}}")),
        aggregate(f"{{$project: {repeated('x', 200)}}}, {{$project: {{_id: 1}}}}", first("{_id: 1}", 2),
            words="what is left behind the long one is short"),
        aggregate(f'{{$project: {repeated("x", 200)}}}, {{$count: "n"}}', first("{n: 1}", 2)),
        find(f"projection: {repeated('x', 200)}, limit: 1, filter: {{_id: 2}}", first("", 2)), count("", counted(1, 2)),
    ])
    lines += connection_row("seven documents of sixteen million bytes each, together too long; no cursor comes of it", [
        Ask(inserted(", ".join(f'{{_id: {key}, x: repeat("x", 20000)}}' for key in range(1, 8)))),
        find(f"projection: {repeated('x', 800)}, sort: {{_id: 1}}, batchSize: 0", refused(292, name, f"{{bytes: {7 * document(800, 20000)}L}}")),
        find("sort: {_id: -1}, projection: {_id: 1}, batchSize: 1", first("{_id: 7}", 8, identifier=1)),
    ])
    return lines + connection_row("a batch that its size ends: a short document, and one of the greatest size", [
        Ask(inserted("{_id: 1}")), long_insert(2, last=last),
        find(f"projection: {repeated('x', 167, 'b000: ' + chr(34) + '$y' + chr(34))}, sort: {{_id: 1}}", first("{_id: 1}", 3, identifier=1)),
        Ask('{killCursors: "c", cursors: [1L], $db: "d"}', "{cursorsKilled: [1L], cursorsNotFound: [], cursorsAlive: [], cursorsUnknown: [], ok: 1}"),
    ])
