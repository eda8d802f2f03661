"""What requests ask for, or the first refusal of each."""
from bson import ARRAY, BINARY, BOOLEAN, DOCUMENT, INT64, STRING, TIMESTAMP, field
from changing import check_statement, key_of
from matching import check_filter
from order import Bad, is_key, is_number
from pipelines import check_pipeline, check_projection, check_sort

GREETINGS = ("hello", "isMaster", "ismaster", "ping", "endSessions")
STATEMENTS = {"insert": "documents", "update": "updates", "delete": "deletes"}
LEVELS = ("local", "majority", "available", "snapshot")
RESERVED = ("admin", "config", "local")
CHUNKS = ("shardCollection", "split")
ONLY_FALSE = ("returnKey", "showRecordId", "tailable", "awaitData")


class Refused(Exception):
    """A refusal: its code, and its evidence as fields."""

    def __init__(self, code, *evidence):
        super().__init__(code)
        self.code, self.evidence = code, list(evidence)


def want(holds, code):
    if not holds:
        raise Refused(code)


def is_database(name):
    return 1 <= len(name.encode()) <= 63 and not set(name) & set('. "$/\\\0') and name not in RESERVED


def is_namespace(database, collection):
    is_collection = collection and not set(collection) & set("$\0") and not collection.startswith(".")
    return is_database(database) and is_collection and len(f"{database}.{collection}".encode()) <= 255


def is_full_name(name):
    database, _, collection = name.partition(".")
    return is_namespace(database, collection)


# the types of fields: each takes a value and gives it, or refuses it


def any_value(value):
    return value


def of_kind(kind):
    def take(value):
        want(value[0] == kind, 14)
        return value[1]

    return take


def only_false(value):
    """Options that a find has no use for: false, as if they were not given, or they are refused like a field that is not listed."""
    want(value == (BOOLEAN, False), 9)
    return False


def natural(value):
    want(is_number(value), 14)
    want(value[1] >= 0, 2)
    return value[1]


def number(value):
    want(is_number(value), 14)
    return value[1]


def numbers(value):
    want(value[0] == ARRAY, 14)
    return [number(item) for item in value[1]]


def checked(kind, check):
    """A document or an array that is a filter, a sort, a projection or a pipeline."""

    def take(value):
        want(value[0] == kind, 14)
        try:
            check(value[1])
        except Bad:
            raise Refused(2) from None
        return value[1]

    return take


def documents(value):
    want(value[0] == ARRAY, 14)
    want(all(item[0] == DOCUMENT for item in value[1]), 14)
    want(1 <= len(value[1]) <= 100000, 2)
    return [item[1] for item in value[1]]


def inner_fields(fields, listed, needed=()):
    """The fields inside a document by the rules of fields."""
    found = {}
    for name, value in fields:
        want(name not in found and name in listed, 9)
        found[name] = listed[name](value)
    for name in needed:
        want(name in found, 9)
    return found


def session_id(value):
    want(value[0] == BINARY, 14)
    want(value[1][0] == 4 and len(value[1][1]) == 16, 2)
    return value[1][1]


def session(value):
    return inner_fields(of_kind(DOCUMENT)(value), {"id": session_id}, ["id"])["id"]


def level(value):
    want(value[0] == STRING, 14)
    want(value[1] in LEVELS, 2)
    return value[1]


def concern(value):
    """The times that a read names: at, and after."""
    listed = {"level": level, "atClusterTime": of_kind(TIMESTAMP), "afterClusterTime": of_kind(TIMESTAMP)}
    found = inner_fields(of_kind(DOCUMENT)(value), listed)
    if "atClusterTime" in found:
        want(found.get("level") == "snapshot" and "afterClusterTime" not in found, 2)
    return found.get("atClusterTime"), found.get("afterClusterTime")


def cursor(value):
    return inner_fields(of_kind(DOCUMENT)(value), {"batchSize": natural}).get("batchSize")


def only_id(value):
    """The value of a document's one field, which is _id."""
    fields = of_kind(DOCUMENT)(value)
    want([name for name, _ in fields] == ["_id"], 2)
    return fields[0][1]


def shard_key(value):
    want(is_number(only_id(value)) and only_id(value)[1] == 1, 2)
    return value[1]


def middle(value):
    want(is_key(only_id(value)), 2)
    return only_id(value)


def time_limit(value):
    """A number of milliseconds, from 0 to 2^31 - 1."""
    want(is_number(value), 14)
    want(0 <= value[1] < 2**31, 2)
    return value[1]


def limit_of_one(value):
    want(is_number(value), 14)
    want(value[1] in (0, 1), 2)
    return value[1]


COMMON = {
    "lsid": session, "$clusterTime": any_value, "$readPreference": any_value, "comment": any_value, "maxTimeMS": time_limit, "apiVersion": of_kind(STRING),
    "apiStrict": of_kind(BOOLEAN), "apiDeprecationErrors": of_kind(BOOLEAN), "$db": any_value,
}
WRITE = {
    "ordered": of_kind(BOOLEAN), "writeConcern": of_kind(DOCUMENT), "bypassDocumentValidation": of_kind(BOOLEAN), "txnNumber": number, **COMMON,
}
READ = {"readConcern": concern, **COMMON}
FILTER = checked(DOCUMENT, check_filter)
FIELDS = {
    "insert": {"documents": documents, **WRITE},
    "update": {"updates": documents, **WRITE},
    "delete": {"deletes": documents, **WRITE},
    "find": {
        "filter": FILTER, "sort": checked(DOCUMENT, check_sort), "projection": checked(DOCUMENT, check_projection), "skip": natural, "limit": natural,
        "batchSize": natural, "singleBatch": of_kind(BOOLEAN), "allowDiskUse": of_kind(BOOLEAN), "noCursorTimeout": of_kind(BOOLEAN),
        "allowPartialResults": of_kind(BOOLEAN), **dict.fromkeys(ONLY_FALSE, only_false), **READ,
    },
    "aggregate": {"pipeline": checked(ARRAY, check_pipeline), "cursor": cursor, "allowDiskUse": of_kind(BOOLEAN), **READ},
    "count": {"query": FILTER, "skip": natural, "limit": natural, **READ},
    "getMore": {"collection": of_kind(STRING), "batchSize": natural, **COMMON},
    "killCursors": {"cursors": numbers, **COMMON},
    "shardCollection": {"key": shard_key, **COMMON},
    "split": {"middle": middle, **COMMON},
}
NEEDED = {
    "insert": ["documents"], "update": ["updates"], "delete": ["deletes"], "find": [], "aggregate": ["pipeline", "cursor"], "count": [],
    "getMore": ["collection"], "killCursors": ["cursors"], "shardCollection": ["key"], "split": ["middle"],
}
PARTS = {
    "update": ({"q": of_kind(DOCUMENT), "u": of_kind(DOCUMENT), "upsert": of_kind(BOOLEAN), "multi": of_kind(BOOLEAN)}, ["q", "u"]),
    "delete": ({"q": of_kind(DOCUMENT), "limit": limit_of_one}, ["q", "limit"]),
}


def statement_of(kind, fields):
    """The statement that the document spells."""
    if kind == "insert":
        statement = {"d": fields}
    else:
        statement = {"upsert": False, **inner_fields(fields, *PARTS[kind])}
    key = key_of(kind, statement)
    want(key is not None, 61)
    want(is_key(key), 2)
    try:
        check_statement(kind, statement)
    except Bad:
        raise Refused(2) from None
    return statement


def database_of(body, is_query):
    value = field(body, "$db")
    if is_query:
        return "admin"
    want(value is not None, 9)
    want(value[0] == STRING, 14)
    return value[1]


def own_field(name, value, database):
    """The command's own field: its namespace, or a cursor."""
    if name == "getMore":
        want(is_number(value), 14)
        want(is_database(database), 73)
        return value[1]
    want(value[0] == STRING, 14)
    if name in CHUNKS:
        want(database == "admin" and is_full_name(value[1]), 73)
        return value[1]
    want(is_namespace(database, value[1]), 73)
    return f"{database}.{value[1]}"


def fields_in(name, body, database):
    """The other fields of a command, in order."""
    found = {name: None}
    for other, value in body[1:]:
        want((other not in found) and other in FIELDS[name], 9)
        found[other] = FIELDS[name][other](value)
        if name == "getMore" and other == "collection":
            want(is_namespace(database, found[other]), 73)
    return found


def greeting(name, body):
    seen = set()
    for other, value in body[1:]:
        if other in ("$db", "helloOk"):
            want(other not in seen, 9)
            seen.add(other)
            if other == "helloOk":
                want(value[0] == BOOLEAN, 14)
    return {"name": name, "helloOk": (field(body[1:], "helloOk") or (BOOLEAN, False))[1]}


def command_of(body, sequences, is_query=False):
    """The command of a request, or its first refusal."""
    want(bool(body), 59)
    name, own = body[0]
    want(name in GREETINGS or name in FIELDS, 59)
    database = database_of(body, is_query)
    if name in GREETINGS:
        found = greeting(name, body)
        want(not sequences, 9)
        return found
    asked = own_field(name, own, database)
    found = fields_in(name, body, database)
    for identifier, listed in sequences:
        want(identifier == STATEMENTS.get(name) and identifier not in found, 9)
        found[identifier] = documents((ARRAY, [(DOCUMENT, fields) for fields in listed]))
    for other in NEEDED[name]:
        want(other in found, 9)
    want("txnNumber" not in found or "lsid" in found, 9)
    command = {"name": name, "own": asked, "database": database, **found}
    if name in STATEMENTS:
        command["statements"] = [statement_of(name, fields) for fields in found[STATEMENTS[name]]]
    return command


def stages_of(command):
    """The pipeline of a read."""
    if command["name"] == "aggregate":
        return [stage[1][0] for stage in command["pipeline"]]
    stages = []
    query = command.get("filter" if command["name"] == "find" else "query")
    if query is not None:
        stages.append(("$match", (DOCUMENT, query)))
    if command.get("sort") is not None:
        stages.append(("$sort", (DOCUMENT, command["sort"])))
    for name in ("skip", "limit"):
        if command.get(name):
            stages.append((f"${name}", (INT64, command[name])))
    if command.get("projection"):
        stages.append(("$project", (DOCUMENT, command["projection"])))
    if command["name"] == "count":
        stages.append(("$count", (STRING, "n")))
    return stages
