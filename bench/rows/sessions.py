"""Sessions for a new user: files of requests, and the parts of examples/README.md about them."""
import re
import textwrap

from bson import DOCUMENT, shown
from form import Ask, connection_row
from retries import SESSION
from wire import Connection, message

PLANTS = ", ".join(f'{{_id: {key}, name: "{name}", height: {height}, tags: [{tags}]}}' for key, name, height, tags in
    [(1, "oak", 2000, '"tree"'), (2, "fern", 80, '"shade", "green"'), (3, "moss", 3, '"shade"'), (4, "rose", 120, '"red"')])
SALES = ", ".join(f'{{_id: {key}, item: "{item}", count: {count}, paid: {paid}}}' for key, item, count, paid in
    [(1, "nail", 100, "3L"), (2, "nail", 50, "2L"), (3, "saw", 1, "25L"), (4, "rope", 2, "14L"), (5, "saw", 2, "45L")])


class Session:
    """The README's text before a session and after it, and its requests; `=n` stands for a copy of the n-th."""

    def __init__(self, title, words, sources, after):
        self.title, self.words, self.sources, self.after = title, words, sources, after


QUERY = Session(
    "Queries",
    "Four documents, and queries as an application sends them: a filter with a sort; a filter of two fields, one of them an array; a sort with skip, "
    "limit and a projection; a count; a result in two batches, the second requested by the cursor's number; a cursor that is closed; and a filter that "
    "is not valid.",
    [
        f'{{insert: "plants", documents: [{PLANTS}], $db: "garden"}}',
        '{find: "plants", filter: {height: {$lt: 100}}, sort: {height: 1}, $db: "garden"}',
        '{find: "plants", filter: {tags: "shade", height: {$gte: 80}}, $db: "garden"}',
        '{find: "plants", sort: {height: -1}, skip: 1, limit: 2, projection: {_id: 0, name: 1, high: "$height"}, $db: "garden"}',
        '{count: "plants", query: {tags: {$size: 1}}, $db: "garden"}',
        '{find: "plants", sort: {_id: 1}, projection: {name: 1}, batchSize: 3, $db: "garden"}',
        '{getMore: 1L, collection: "plants", $db: "garden"}',
        '{getMore: 1L, collection: "plants", $db: "garden"}',
        '{find: "plants", filter: {height: {$like: 3}}, $db: "garden"}',
    ],
    "A first batch without `batchSize` has 101 documents at most. Without `sort` the documents may come in any order.",
)
GROUP = "{$group: {_id: \"$item\", sales: {$count: {}}, count: {$sum: \"$count\"}, paid: {$sum: \"$paid\"}}}"
AGGREGATE = Session(
    "Aggregation",
    "Five sales: totals of each item, the greatest first; the number of sales of more than one piece; the two best paid, with a computed field; a group "
    "over no documents, which has no row; and the least and the greatest of all.",
    [
        f'{{insert: "sales", documents: [{SALES}], $db: "shop"}}',
        f'{{aggregate: "sales", pipeline: [{GROUP}, {{$sort: {{paid: -1}}}}], cursor: {{}}, $db: "shop"}}',
        '{aggregate: "sales", pipeline: [{$match: {count: {$gt: 1}}}, {$count: "sales"}], cursor: {}, $db: "shop"}',
        '{aggregate: "sales", pipeline: [{$sort: {paid: -1}}, {$limit: 2}, {$project: {_id: 0, item: 1, price: "$paid"}}], cursor: {}, $db: "shop"}',
        '{aggregate: "sales", pipeline: [{$match: {item: "glue"}}, {$group: {_id: null, paid: {$sum: "$paid"}}}], cursor: {}, $db: "shop"}',
        '{aggregate: "sales", pipeline: [{$group: {_id: null, least: {$min: "$paid"}, most: {$max: "$paid"}}}], cursor: {}, $db: "shop"}',
    ],
    "`count` is summed in 32 bits, since all of its values have 32, and `paid` in 64.",
)
RETRY = Session(
    "Retries",
    "A driver that receives no reply sends its write again. `lsid` and `txnNumber` number the statements: two inserts, the same bytes again, an "
    "increment, the same bytes again, and the documents after that; then the first once more, whose number is too old by now, and an insert without a "
    "number, twice.",
    [
        f'{{insert: "c", documents: [{{_id: 1, x: 1}}, {{_id: 2, x: 1}}], {SESSION}, txnNumber: 1L, $db: "d"}}',
        "=1",
        f'{{update: "c", updates: [{{q: {{_id: 1}}, u: {{$inc: {{x: 1}}}}}}], {SESSION}, txnNumber: 2L, $db: "d"}}',
        "=3",
        '{find: "c", sort: {_id: 1}, $db: "d"}',
        "=1",
        '{insert: "c", documents: [{_id: 3}], $db: "d"}',
        "=7",
    ],
    "The second reply and the fourth have the times of the first and the third: nothing was applied again. After that `node01.journal` has five "
    "entries: those of the three numbered statements, of the last insert, and of its second copy, which is refused because its key exists.",
)
SESSIONS = {"query": QUERY, "aggregate": AGGREGATE, "retry": RETRY}


def requests_of(sources):
    """The messages of a session."""
    found = []
    for index, source in enumerate(sources):
        found.append(found[int(source[1:]) - 1] if source.startswith("=") else (source, message(index + 1, source)))
    return found


def hex_lines(bytes_):
    """Digits of a message: its head, then its body in lines."""
    return [bytes_[:21].hex()] + textwrap.wrap(bytes_[21:].hex(), 120)


def without_times(note):
    return re.sub(r"Timestamp\(\d+, \d+\)", "<time>", note)


def wrapped(note, first, width=150):
    """A line of the README, indented, with what does not fit below it."""
    return textwrap.wrap(note, width, initial_indent=f"    {first}", subsequent_indent="        ", break_long_words=False, break_on_hyphens=False)


def section(name):
    session = SESSIONS[name]
    connection = Connection()
    lines = [f"### {session.title}", ""] + textwrap.wrap(session.words, 150, break_on_hyphens=False) + ["",
        f"    xxd -r -p ../examples/{name}.hex | ../cluster pipe | xxd", ""]
    lengths = []
    for number, (source, bytes_) in enumerate(requests_of(session.sources)):
        _, fields, reply = connection.ask(bytes_)
        lengths.append(len(reply))
        lines += wrapped(source, f"{number + 1}. ") + wrapped(without_times(shown((DOCUMENT, fields))), "-> ")
    lines += [""] + textwrap.wrap(f"The replies have {', '.join(map(str, lengths[:-1]))} and {lengths[-1]} bytes. {session.after}", 150,
        break_on_hyphens=False)
    return lines + [""], len(connection.cluster.journals[1])


def rows():
    """A row for each file: its requests, on one connection."""
    return [line for name in SESSIONS for line in connection_row(f"examples/{name}.hex", [Ask(source, raw=bytes_) for source, bytes_ in
        requests_of(SESSIONS[name].sources)])]


def put(folder, parts):
    """Writes the files of the requests, and the parts for the README."""
    lines = []
    for name in SESSIONS:
        text = [line for _, bytes_ in requests_of(SESSIONS[name].sources) for line in hex_lines(bytes_)]
        (folder / f"{name}.hex").write_text("\n".join(text) + "\n")
        part, records = section(name)
        lines += part
        print(f"{name}.hex: {len(SESSIONS[name].sources)} requests; {records} records of the shard")
    parts.write_text("\n".join(HEAD + lines))


HEAD = [
    "`query.hex`, `aggregate.hex` and `retry.hex` each hold several requests of one connection, one after another; each needs a new folder. Below,",
    "`<time>` is a timestamp of the clock's second, and a number with L has 64 bits. `bench/rows/show.py` prints replies as text:", "",
    "    xxd -r -p ../examples/query.hex | ../cluster pipe | python3 -B ../bench/rows/show.py", "",
]
