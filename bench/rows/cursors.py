"""Rows of batches and cursors."""
from form import Ask, connection_row, silent
from reads import aggregate, count, counted, find, first, inserted, refused

KILLED = "{cursorsKilled: [%s], cursorsNotFound: [%s], cursorsAlive: [], cursorsUnknown: [], ok: 1}"
THREE = inserted("{_id: 1}, {_id: 2}, {_id: 3}")
SORTED = "sort: {_id: 1}"


def listed(*numbers):
    return ", ".join(f"{{_id: {number}}}" for number in numbers)


def next_(documents, counter, namespace="d.c", identifier=0, seconds=1000):
    return first(documents, counter, namespace, identifier, seconds).replace("firstBatch", "nextBatch")


def more(cursor, says=None, rest="", collection="c", database="d", **options):
    return Ask(f'{{getMore: {cursor}, collection: "{collection}"{rest}, $db: "{database}"}}', says, **options)


def kill(cursors, says=None, collection="c", **options):
    return Ask(f'{{killCursors: "{collection}", cursors: [{cursors}], $db: "d"}}', says, **options)


def not_found(cursor):
    return refused(43, "CursorNotFound", f"{{cursor: {cursor}L}}")


def hundred():
    documents = listed(*range(1, 103))
    return connection_row("102 documents: 101 and 1; the number is gone then, for getMore and for killCursors", [
        Ask(inserted(documents), "{n: 102, ok: 1, operationTime: Timestamp(1000, 103)}"),
        find(SORTED, first(listed(*range(1, 102)), 103, identifier=1)),
        more("1L", next_("{_id: 102}", 103)), more("1L", not_found(1)), kill("1L", KILLED % ("", "1L")),
        aggregate("{$sort: {_id: -1}}", first(listed(*range(102, 1, -1)), 103, identifier=2)), kill("2L", KILLED % ("2L", "")),
        more("2", not_found(2)),
        find(f"{SORTED}, limit: 101", first(listed(*range(1, 102)), 103), words="a list of 101 has no second batch"),
        find(f"{SORTED}, batchSize: 102", first(documents, 103)),
        find(f"{SORTED}, batchSize: 100, skip: 1", first(listed(*range(2, 102)), 103, identifier=3)),
        more("3L", next_("{_id: 102}", 103), ", batchSize: 1"),
    ], keeps=(0, 1, 2))


def sizes():
    lines = connection_row("batches of two: two, then the one that is left; the number is not found then", [
        Ask(THREE), find(f"{SORTED}, batchSize: 2", first(listed(1, 2), 4, identifier=1)), more("1L", next_(listed(3), 4)), more("1L", not_found(1)),
        find(f"{SORTED}, batchSize: 3", first(listed(1, 2, 3), 4)), find(f"{SORTED}, batchSize: 4", first(listed(1, 2, 3), 4)),
        find(f"{SORTED}, batchSize: 1", first(listed(1), 4, identifier=2)), more("2", next_(listed(2), 4, identifier=2), ", batchSize: 1"),
        more("2L", next_(listed(3), 4), ", batchSize: 1"), more("2L", not_found(2), ", batchSize: 1"),
        find(f"{SORTED}, batchSize: 1", first(listed(1), 4, identifier=3)), more("3L", next_(listed(2, 3), 4), ", batchSize: 2L"),
        find(f"{SORTED}, batchSize: 1", first(listed(1), 4, identifier=4)), more("4L", next_(listed(2, 3), 4), ", batchSize: 100"),
        find(f"{SORTED}, batchSize: 1L", first(listed(1), 4, identifier=5)),
        more("5L", next_(listed(2, 3), 4), words="without a size a getMore brings all that is left"),
    ], keeps=(2,))
    lines += connection_row("batches of no documents", [
        Ask(THREE), find(f"{SORTED}, batchSize: 0", first("", 4, identifier=1)), more("1L", next_("", 4, identifier=1), ", batchSize: 0"),
        more("1L", next_(listed(1, 2, 3), 4)), more("1L", not_found(1)),
        find(f"{SORTED}, batchSize: 0, filter: {{_id: 9}}", first("", 4), words="of no documents no cursor is left"),
        find(f"{SORTED}, batchSize: 0, limit: 1", first("", 4, identifier=2)),
        more("2L", next_(listed(1), 4), ", batchSize: 1"), aggregate("{$sort: {_id: -1}}", first("", 4, identifier=3), "cursor: {batchSize: 0}"),
        more("3L", next_(listed(3, 2), 4, identifier=3), ", batchSize: 2"),
        more("3L", next_("", 4, identifier=3), ", batchSize: 0"), more("3L", next_(listed(1), 4)),
        aggregate("{$match: {_id: 9}}", first("", 4), "cursor: {batchSize: 0}"),
        Ask('{find: "e", batchSize: 0, $db: "d"}', first("", 4, "d.e")),
    ])
    lines += connection_row("single batches leave no cursor", [
        Ask(THREE), find(f"{SORTED}, singleBatch: true, batchSize: 1", first(listed(1), 4)), more("1L", not_found(1)),
        find(f"{SORTED}, batchSize: 0, singleBatch: true", first("", 4)),
        find(f"{SORTED}, singleBatch: true", first(listed(1, 2, 3), 4)),
        find(f"{SORTED}, singleBatch: true, limit: 1, batchSize: 1", first(listed(1), 4)), more("1L", not_found(1)),
        find(f"{SORTED}, singleBatch: false, batchSize: 1", first(listed(1), 4, identifier=1)), more("1L", next_(listed(2, 3), 4)),
    ], keeps=(2,))
    return lines + connection_row("a limit is of the list, a size of the batch", [
        Ask(THREE), find(f"{SORTED}, limit: 2, batchSize: 1", first(listed(1), 4, identifier=1)), more("1L", next_(listed(2), 4)),
        find(f"{SORTED}, limit: 2, batchSize: 2", first(listed(1, 2), 4)),
        find(f"{SORTED}, limit: 2, skip: 1, batchSize: 1", first(listed(2), 4, identifier=2)), more("2L", next_(listed(3), 4)),
        find(f"{SORTED}, limit: 1", first(listed(1), 4)),
        aggregate("{$sort: {_id: 1}}, {$limit: 2}", first(listed(1), 4, identifier=3), "cursor: {batchSize: 1}"),
        more("3L", next_(listed(2), 4), ", batchSize: 5"),
        aggregate('{$group: {_id: "$_id", n: {$sum: 1}}}, {$sort: {_id: 1}}', first("{_id: 1, n: 1}", 4, identifier=4), "cursor: {batchSize: 1}"),
        more("4L", next_("{_id: 2, n: 1}, {_id: 3, n: 1}", 4)),
    ])


def stays():
    """The list of a cursor stays as it was."""
    one = f"{SORTED}, batchSize: 1"
    lines = connection_row("a cursor shows its old list and time, behind an insert, an update, a delete and a later moment", [
        Ask(inserted("{_id: 1, x: 1}, {_id: 2, x: 2}, {_id: 3, x: 3}")), find(one, first("{_id: 1, x: 1}", 4, identifier=1)),
        Ask(inserted("{_id: 4, x: 4}"), "{n: 1, ok: 1, operationTime: Timestamp(1000, 5)}"),
        Ask('{delete: "c", deletes: [{q: {_id: 3}, limit: 1}], $db: "d"}', "{n: 1, ok: 1, operationTime: Timestamp(1000, 6)}"),
        Ask('{update: "c", updates: [{q: {_id: 2}, u: {x: 7}}], $db: "d"}', "{n: 1, nModified: 1, ok: 1, operationTime: Timestamp(1000, 7)}"),
        more("1L", next_("{_id: 2, x: 2}", 4, identifier=1), ", batchSize: 1"), more("1L", next_("{_id: 3, x: 3}", 4)),
        find(SORTED, first("{_id: 1, x: 1}, {_id: 2, x: 7}, {_id: 4, x: 4}", 0, seconds=1005)),
    ], clock=[1000000] * 6 + [1005000], keeps=(0, 1, 2))
    lines += connection_row("a cursor of a time that was named", [
        Ask(inserted("{_id: 1}, {_id: 2}")), Ask(inserted("{_id: 3}")),
        find(f'{one}, readConcern: {{level: "snapshot", atClusterTime: Timestamp(1000, 3)}}', first(listed(1), 3, identifier=1)),
        more("1L", next_(listed(2), 3)),
        aggregate("{$sort: {_id: 1}}", first("", 4, identifier=2), "cursor: {batchSize: 0}, readConcern: {afterClusterTime: Timestamp(1000, 3)}"),
        more("2L", next_(listed(1, 2, 3), 4)),
    ])
    return lines + connection_row("another namespace finds nothing, and leaves the cursor", [
        Ask(THREE), find(one, first(listed(1), 4, identifier=1)), more("1L", not_found(1), collection="b"), more("1L", not_found(1), database="e"),
        kill("1L", KILLED % ("", "1L"), collection="b"),
        Ask('{insert: "b", documents: [{_id: 7}, {_id: 8}], $db: "d"}', "{n: 2, ok: 1, operationTime: Timestamp(1000, 7)}"),
        Ask(f'{{find: "b", {one}, $db: "d"}}', first("{_id: 7}", 7, "d.b", 2)),
        more("2L", not_found(2)), more("1L", not_found(1), collection="b"), more("2L", next_("{_id: 8}", 7, "d.b"), collection="b"),
        more("1L", next_(listed(2, 3), 4)),
    ])


def numbers():
    """Numbers of cursors."""
    one = f"{SORTED}, batchSize: 1"
    lines = connection_row("numbers that are no open cursor's", [
        more("1L", not_found(1)), more("0", not_found(0)), more("-1", not_found(-1)), more("-1L", not_found(-1)),
        more("9223372036854775807L", not_found(9223372036854775807)),
        more("-9223372036854775808L", not_found(-9223372036854775808)), kill("", KILLED % ("", "")), kill("1, -1L, 0", KILLED % ("", "1L, -1L, 0L")),
    ], keeps=(2,))
    lines += connection_row("killed: the same number twice, one that is none, a negative one", [
        Ask(THREE), find(one, first(listed(1), 4, identifier=1)), kill("1L, 1L", KILLED % ("1L", "1L")), more("1L", not_found(1)),
        find(one, first(listed(1), 4, identifier=2), words="the number of a killed cursor is not used again"),
        kill("2L, 2L, 9L, -1L", KILLED % ("2L", "2L, 9L, -1L")), find(one, first(listed(1), 4, identifier=3)),
        find(one, first(listed(1), 4, identifier=4)), find(one, first(listed(1), 4, identifier=5)), kill("5, 3L", KILLED % ("5L, 3L", "")),
        more("4L", next_(listed(2, 3), 4)), kill("4L, 5L", KILLED % ("", "4L, 5L")), find(one, first(listed(1), 4, identifier=6)),
        count("", counted(3, 4)), more("6L", next_(listed(2), 4, identifier=6), ", batchSize: 1"), more("6L", next_(listed(3), 4)),
    ], keeps=(2,))
    asks = [Ask(inserted("{_id: 1}"))]
    for number in range(1, 66):
        asks.append(find("batchSize: 0", first("", 2, identifier=number)))
        if number == 64:
            asks.append(silent('{find: "c", batchSize: 0, $db: "d"}', words="without a reply: takes no number"))
    asks += [more("1L", next_(listed(1), 2)), more("64L", next_(listed(1), 2)), more("65L", next_(listed(1), 2)), more("66L", not_found(66))]
    return lines + connection_row("65 cursors: the router writes a block of numbers in its journal for each 64", asks, keeps=(2,))


def silents():
    """Requests that want no reply."""
    one = f"{SORTED}, batchSize: 1"
    return connection_row("reads without a reply leave cursors as they are; killCursors kills", [
        Ask(THREE), silent(f'{{find: "c", {one}, $db: "d"}}'), more("1L", not_found(1)), find(one, first(listed(1), 4, identifier=1)),
        silent('{getMore: 1L, collection: "c", $db: "d"}'),
        more("1L", next_(listed(2, 3), 4)), silent('{aggregate: "c", pipeline: [{$sort: {_id: 1}}], cursor: {batchSize: 0}, $db: "d"}'),
        silent('{count: "c", $db: "d"}'), find(one, first(listed(1), 4, identifier=2)),
        silent('{getMore: 2L, collection: "c", batchSize: 1, $db: "d"}'), silent('{getMore: 2L, collection: "b", $db: "d"}'),
        silent('{killCursors: "b", cursors: [2L], $db: "d"}'),
        more("2L", next_(listed(2), 4, identifier=2), ", batchSize: 1"), silent('{killCursors: "c", cursors: [2L], $db: "d"}'),
        more("2L", not_found(2)), find(one, first(listed(1), 4, identifier=3)),
    ], keeps=(2,))


def cut():
    return connection_row("a find and its getMore, in each cutting", [
        Ask(inserted("{_id: 1}, {_id: 2}")), find(f"{SORTED}, batchSize: 1", first(listed(1), 3, identifier=1)), more("1L", next_(listed(2), 3)),
    ], is_cut=True)


def rows():
    return cut() + hundred() + sizes() + stays() + numbers() + silents()
