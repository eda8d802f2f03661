"""The records of the journals, and the bytes of a journal."""
import struct

from bson import written

# the first router's number is that of a cluster of one shard; more shards come before it
CATALOGUE, SHARD, ROUTER = 0, 1, 2
# the chunks of a table: where each begins and ends, a key or None, and its minor number; a table has seen one change for each of its chunks
WHOLE = ((None, None, 0),)


def record_text(characters):
    return struct.pack("<I", len(characters.encode())) + characters.encode()


def create_record(namespace, at):
    return b"\1\x20" + record_text(namespace) + struct.pack("<QQ", 1, at)


def split_record(namespace, middle, at):
    return b"\1\x21" + record_text(namespace) + written([("_id", middle)]) + struct.pack("<Q", at)


def bound(key, end):
    return end if key is None else b"\1" + written([("_id", key)])


def table_record(namespace, at, chunks=WHOLE):
    found = b"\1\1" + record_text(namespace) + struct.pack("<QQQI", 1, len(chunks), 0, len(chunks))
    for low, high, minor in chunks:
        found += bound(low, b"\0") + bound(high, b"\2") + struct.pack("<QQQIQI", 1, 1, minor, 1, at, SHARD)
    return found


def session_bytes(session):
    return b"\0" + session if isinstance(session, bytes) else b"\1" + struct.pack("<IQQ", *session)


def words(kind, statement):
    if kind == "insert":
        return b"\1" + written(statement["d"])
    if kind == "update":
        return b"\2" + written(statement["q"]) + written(statement["u"]) + bytes([statement["upsert"]])
    return b"\3" + written(statement["q"])


def entry_record(at, namespace, number, kind, statement, reply):
    session, transaction, index = number
    count, modified, upserted, code = reply
    key = b"\0" if upserted is None else b"\1" + written([("_id", upserted)])
    head = b"\1\2" + struct.pack("<Q", at) + record_text(namespace) + session_bytes(session) + struct.pack("<qI", transaction, index)
    return head + words(kind, statement) + struct.pack("<II", count, modified) + key + struct.pack("<i", code)


def ceiling_record(at):
    return b"\1\3" + struct.pack("<Q", at)


def catalogue_ceiling_record(at):
    return b"\1\x25" + struct.pack("<Q", at)


def life_record(number=1):
    return b"\1\x30" + struct.pack("<Q", number)


def block_record(number):
    return b"\1\x31" + struct.pack("<Q", number)


def file_of(records):
    """The bytes of a journal."""
    return b"".join(b"\1" + struct.pack("<Q", len(record)) + record for record in records) + b"\0"
