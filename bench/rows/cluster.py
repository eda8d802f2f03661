"""What connections to the cluster are answered, one after another, and what they leave in the journals of its nodes.

Each node has a time of its own: after a start those of the catalogue and of the shard are the greatest in their journals, and the router's is 0.
The first shard has all chunks. The other shards store nothing, and their time is that of the last moment, which the router has too.
"""
from bson import BOOLEAN, DATE, DOCUMENT, array, doc, int32, int64, size, text, time, whole
from changing import applied, key_of
from commands import CHUNKS, GREETINGS, STATEMENTS, Refused, stages_of
from order import order_of
from pipelines import LONGEST, Overflow, TooMuch, answer
from records import (
    CATALOGUE, ROUTER, SHARD, WHOLE, block_record, catalogue_ceiling_record, ceiling_record, create_record, entry_record, life_record, split_record,
    table_record,
)

NAMES = {
    2: "BadValue", 9: "FailedToParse", 14: "TypeMismatch", 15: "Overflow", 22: "InvalidBSON", 28: "PathNotViable", 43: "CursorNotFound", 50: "MaxTimeMSExpired",
    59: "CommandNotFound", 61: "ShardKeyNotFound", 66: "ImmutableField", 72: "InvalidOptions", 73: "InvalidNamespace", 91: "ShutdownInProgress",
    118: "NamespaceNotSharded", 146: "ExceededMemoryLimit", 225: "TransactionTooOld", 292: "QueryExceededMemoryLimitNoDiskUseAllowed",
    10334: "BSONObjectTooLarge", 11000: "DuplicateKey", 13388: "StaleConfig",
}
FIRST_BATCH = 101


def refusal(refused):
    name = NAMES[refused.code]
    fields = [("ok", int32(0)), ("errmsg", text(name)), ("code", int32(refused.code)), ("codeName", text(name))]
    return fields + ([("evidence", (DOCUMENT, refused.evidence))] if refused.evidence else [])


def write_error(index, code, evidence):
    fields = [("index", int32(index)), ("code", int32(code)), ("errmsg", text(NAMES[code]))]
    return (DOCUMENT, fields + ([("evidence", (DOCUMENT, evidence))] if evidence else []))


def done(at=None):
    return [("ok", int32(1))] + ([("operationTime", time(at))] if at is not None else [])


# chunks of a table


def begins_at(chunks, key):
    return any(low is not None and order_of(low) == order_of(key) for low, _, _ in chunks)


def split_at(chunks, key):
    """The chunks after a split: the halves get the next two minor numbers."""
    greatest, found = max(minor for _, _, minor in chunks), []
    for low, high, minor in chunks:
        if (low is None or order_of(low) < order_of(key)) and (high is None or order_of(key) < order_of(high)):
            found += [(low, key, greatest + 1), (key, high, greatest + 2)]
        else:
            found.append((low, high, minor))
    return tuple(found)


class Cluster:
    """Collections with all versions of their documents, numbered statements and open cursors."""

    def __init__(self, shards=1):
        self.router = ROUTER + shards - 1
        self.collections, self.book, self.blocks = {}, {}, 0
        self.covered = 0  # the greatest time of an entry or a ceiling of the shard
        self.stored = [0, 0]  # the greatest times in the journals of the catalogue and of the shard
        self.journals = [[] for _ in range(self.router + 1)]
        self.life = 0
        self.begin_life()

    def begin_life(self):
        """The nodes start on their journals: the router begins its next life, without a time, tables, requests or cursors."""
        self.life += 1
        self.journals[self.router].append(life_record(self.life))
        self.time, self.moment, self.requests = 0, 0, 0
        self.of_catalogue, self.of_shard = self.stored
        self.tables, self.cursors, self.told = set(), {}, 64 * self.blocks

    def rise(self, moment):
        self.moment = moment
        at = min(moment // 1000, 2**31) << 32
        self.time, self.of_catalogue, self.of_shard = max(self.time, at), max(self.of_catalogue, at), max(self.of_shard, at)

    def store(self, node, at, record):
        self.stored[node] = max(self.stored[node], at)
        self.journals[node].append(record)

    # messages: who gets one is at its time, if that is later

    def to_catalogue(self):
        self.of_catalogue = max(self.of_catalogue, self.time)

    def from_catalogue(self):
        self.time = max(self.time, self.of_catalogue)

    def to_shard(self):
        self.of_shard = max(self.of_shard, self.time)

    def from_shard(self):
        self.time = max(self.time, self.of_shard)

    def take(self, command, is_silent=False):
        """The reply to a command, or to a refusal; raised refusals are replies too."""
        try:
            return self.serve(command, is_silent)
        except Refused as refused:
            return refusal(refused)

    def serve(self, command, is_silent):
        name = command["name"]
        if name in GREETINGS:
            return self.greeted(command)
        if name in STATEMENTS:
            return self.write(command)
        if name in CHUNKS:
            return self.shard(command) if name == "shardCollection" else self.split(command)
        if name == "getMore":
            return self.more(command, is_silent)
        return self.kill(command) if name == "killCursors" else self.read(command, is_silent)

    def greeted(self, command):
        if command["name"] in ("ping", "endSessions"):
            return done()
        is_hello = command["name"] == "hello"
        fields = [("isWritablePrimary" if is_hello else "ismaster", (BOOLEAN, True)), ("msg", text("isdbgrid"))]
        numbers = [("maxBsonObjectSize", 16777216), ("maxMessageSizeBytes", 48000000), ("maxWriteBatchSize", 100000)]
        fields += [(field, int32(number)) for field, number in numbers] + [("localTime", (DATE, min(self.moment, 2**63 - 1)))]
        numbers = [("logicalSessionTimeoutMinutes", 30), ("minWireVersion", 0), ("maxWireVersion", 17)]
        fields += [(field, int32(number)) for field, number in numbers] + [("readOnly", (BOOLEAN, False))]
        return fields + ([("helloOk", (BOOLEAN, True))] if command["helloOk"] and not is_hello else []) + done()

    # collections and their chunks

    def begin(self, namespace):
        """The collection, which begins where it is not there."""
        self.to_catalogue()
        if namespace not in self.collections:
            self.of_catalogue += 1
            at = self.of_catalogue
            self.collections[namespace] = {"at": at, "keys": {}, "chunks": WHOLE, "table": False}
            self.store(CATALOGUE, at, create_record(namespace, at))
        self.tables.add(namespace)
        self.from_catalogue()
        return self.collections[namespace]

    def shard(self, command):
        self.begin(command["own"])
        return [("collectionsharded", text(command["own"]))] + done(self.time)

    def split(self, command):
        namespace, middle = command["own"], command["middle"]
        self.to_catalogue()
        if namespace in self.collections and not begins_at(self.collections[namespace]["chunks"], middle):
            self.of_catalogue += 1
            self.collections[namespace]["chunks"] = split_at(self.collections[namespace]["chunks"], middle)
            self.store(CATALOGUE, self.of_catalogue, split_record(namespace, middle, self.of_catalogue))
        self.from_catalogue()
        if namespace not in self.collections:
            raise Refused(118)
        return done(self.time)

    def learn(self, collection, namespace):
        """The shard is asked for the collection, and stores its table where it has none; it is not asked for another while no chunk moves."""
        if not collection["table"]:
            collection["table"] = True
            self.of_catalogue = max(self.of_catalogue, self.of_shard)
            self.of_shard = max(self.of_shard, self.of_catalogue)
            self.store(SHARD, collection["at"], table_record(namespace, collection["at"], collection["chunks"]))

    # writes

    def write(self, command):
        kind, namespace = command["name"], command["own"]
        collection = self.collections[namespace] if namespace in self.tables else self.begin(namespace)
        self.to_shard()
        session, transaction = (self.router, self.life, self.requests), 0
        if "txnNumber" in command:
            session, transaction = command["lsid"], command["txnNumber"]
        told = {"n": 0, "modified": 0, "upserted": [], "errors": [], "time": None}
        for index, statement in enumerate(command["statements"]):
            is_error = self.state(collection, namespace, (session, transaction, index), kind, statement, told)
            if is_error and command.get("ordered", True):
                break
        self.from_shard()
        return self.written_reply(kind, told)

    def state(self, collection, namespace, number, kind, statement, told):
        """Does a statement, or finds it done. Gives whether it was told an error."""
        session, transaction, index = number
        greatest, notes = self.book.get(session, (None, {}))
        if greatest is not None and transaction < greatest:
            told["errors"].append(write_error(index, 225, [("txnNumber", int64(greatest))]))
            return True
        if greatest != transaction:
            notes = {}
        if index not in notes:
            notes[index] = self.enter(collection, namespace, number, kind, statement)
            self.book[session] = (transaction, notes)
        at, (count, modified, upserted, code) = notes[index]
        told["n"], told["modified"] = told["n"] + count, told["modified"] + modified
        told["time"] = max(told["time"] or 0, at)
        if upserted is not None:
            told["upserted"].append(doc(("index", int32(index)), ("_id", upserted)))
        if code:
            told["errors"].append(write_error(index, code, []))
        return bool(code)

    def enter(self, collection, namespace, number, kind, statement):
        """A new entry: its time and its reply."""
        self.learn(collection, namespace)
        self.of_shard += 1
        at = self.covered = self.of_shard
        versions = collection["keys"].setdefault(order_of(key_of(kind, statement)), [])
        before = versions[-1][1] if versions else None
        after, reply = applied(kind, statement, before)
        versions.append((at, after))
        self.store(SHARD, at, entry_record(at, namespace, number, kind, statement, reply))
        return at, reply

    def written_reply(self, kind, told):
        fields = [("n", whole(told["n"]))]
        if kind == "update":
            fields.append(("nModified", whole(told["modified"])))
            if told["upserted"]:
                fields.append(("upserted", array(told["upserted"])))
        if told["errors"]:
            fields.append(("writeErrors", array(told["errors"])))
        return fields + done(self.time if told["time"] is None else told["time"])

    # reads

    def time_of(self, command):
        """The time of a read."""
        at, after = command.get("readConcern") or (None, None)
        if max(at or 0, after or 0) > self.time:
            self.to_shard()
            self.from_shard()
        if max(at or 0, after or 0) > self.time:
            raise Refused(72, ("greatest", time(self.time)))
        return self.time if at is None else at

    def documents_at(self, namespace, at):
        """The documents at that time, in order of their keys."""
        keys = self.collections.get(namespace, {"keys": {}})["keys"]
        found = []
        for key in sorted(keys):
            versions = [document for when, document in keys[key] if when <= at]
            if versions and versions[-1] is not None:
                found.append(versions[-1])
        return found

    def read(self, command, is_silent):
        namespace, at = command["own"], self.time_of(command)
        self.reach(namespace, at)
        try:
            found = answer(stages_of(command), self.documents_at(namespace, at))
        except Overflow:
            raise Refused(15) from None
        except TooMuch as much:
            raise Refused(292, ("bytes", int64(much.length))) from None
        if command["name"] == "count":
            count = found[0][0][1] if found else int32(0)
            return [("n", count), ("atClusterTime", time(at))] + done(at)
        return self.first_batch(command, namespace, at, found, is_silent)

    def reach(self, namespace, at):
        """The catalogue is asked where the router has no table that says who owned what at that time, and the shard where there was a collection."""
        collection = self.collections.get(namespace)
        is_there = collection is not None and collection["at"] <= at
        if not is_there or namespace not in self.tables:
            self.to_catalogue()
            if collection is None:
                self.store(CATALOGUE, at, catalogue_ceiling_record(at))
            else:
                self.tables.add(namespace)
            self.from_catalogue()
        if is_there:
            self.to_shard()
            self.learn(collection, namespace)
            self.cover(at)
            self.from_shard()

    def cover(self, at):
        """The shard stores the time of a read that is above those of its entries and ceilings."""
        if at > self.covered:
            self.covered = at
            self.store(SHARD, at, ceiling_record(at))

    def first_batch(self, command, namespace, at, found, is_silent):
        asked = command.get("cursor") if command["name"] == "aggregate" else command.get("batchSize")
        shown, left = batch(found, FIRST_BATCH if asked is None else asked)
        identifier = 0
        if left and not command.get("singleBatch") and not is_silent:
            identifier = self.open_cursor(namespace, at, left)
        return cursor_reply(identifier, namespace, "firstBatch", shown, at)

    def open_cursor(self, namespace, at, left):
        if self.told == 64 * self.blocks:
            self.journals[self.router].append(block_record(self.blocks))
            self.blocks += 1
        self.told += 1
        self.cursors[self.told] = (namespace, at, left)
        return self.told

    def more(self, command, is_silent):
        namespace, identifier = f'{command["database"]}.{command["collection"]}', command["own"]
        open_namespace, at, left = self.cursors.get(identifier, (None, None, None))
        if open_namespace != namespace:
            raise Refused(43, ("cursor", int64(identifier)))
        shown, behind = batch(left, command.get("batchSize"))
        if not is_silent:
            self.cursors[identifier] = (namespace, at, behind)
            if not behind:
                del self.cursors[identifier]
        return cursor_reply(identifier if behind else 0, namespace, "nextBatch", shown, at)

    def kill(self, command):
        killed, missing = [], []
        for identifier in command["cursors"]:
            is_open = self.cursors.get(identifier, (None,))[0] == command["own"]
            (killed if is_open else missing).append(int64(identifier))
            if is_open:
                del self.cursors[identifier]
        lists = [("cursorsKilled", killed), ("cursorsNotFound", missing), ("cursorsAlive", []), ("cursorsUnknown", [])]
        return [(name, array(numbers)) for name, numbers in lists] + done()


def batch(documents, most):
    """The documents of a batch, and what remains."""
    count = total = 0
    while count < len(documents) and (most is None or count < most):
        total += size(documents[count])
        if count and total > LONGEST:
            break
        count += 1
    return documents[:count], documents[count:]


def cursor_reply(identifier, namespace, name, shown, at):
    listed = array((DOCUMENT, fields) for fields in shown)
    fields = doc(("id", int64(identifier)), ("ns", text(namespace)), (name, listed), ("atClusterTime", time(at)))
    return [("cursor", fields)] + done(at)
