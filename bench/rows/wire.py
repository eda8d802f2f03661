"""Messages of a connection, and rows of the data."""
import re
import struct

from bson import DOCUMENT, INT32, INT64, NULL, STRING, Fault, fields_of, int64, read_fields, shown, size, written
from cluster import Cluster, refusal
from commands import GREETINGS, STATEMENTS, Refused, command_of

MSG, QUERY, REPLY = 2013, 2004, 1
MORE = 2
CLOCK = 1000000


def message(identifier, source, sequences=(), is_silent=False, is_first=False):
    """An OP_MSG message: its body in the notation, and sequences of a name and documents; these first where `is_first`."""
    body = b"\0" + written(fields_of(source) if isinstance(source, str) else source)
    parts = [body]
    for name, listed in sequences:
        inner = name.encode() + b"\0" + b"".join(written(fields_of(item)) for item in listed)
        parts.append(b"\1" + struct.pack("<i", len(inner) + 4) + inner)
    rest = struct.pack("<iiiI", identifier, 0, MSG, MORE if is_silent else 0) + b"".join(reversed(parts) if is_first else parts)
    return struct.pack("<i", len(rest) + 4) + rest


class Request:
    """A message that is a request, read."""

    def __init__(self, bytes_):
        _, self.identifier, _, opcode = struct.unpack_from("<iiii", bytes_)
        self.is_query = opcode == QUERY
        self.is_silent, self.body, self.sequences, self.fault = False, None, [], None
        try:
            self.read_query(bytes_) if self.is_query else self.read_sections(bytes_)
        except Fault as fault:
            self.fault = Fault(fault.word, fault.place - self.begin, fault.byte)

    def document(self, bytes_, at):
        self.begin = at
        return read_fields(bytes_, at)

    def read_query(self, bytes_):
        self.body, _ = self.document(bytes_, 39)

    def read_sections(self, bytes_):
        self.is_silent = bool(struct.unpack_from("<I", bytes_, 16)[0] & MORE)
        at = 20
        while at < len(bytes_):
            if bytes_[at] == 0 and struct.unpack_from("<i", bytes_, at + 1)[0] >= 5:
                self.body, at = self.document(bytes_, at + 1)
                continue
            end = at + 1 + struct.unpack_from("<i", bytes_, at + 1)[0]
            if bytes_[at] != 1 or not at + 6 <= end <= len(bytes_):
                raise ValueError("no section")
            name_end = bytes_.index(0, at + 5)
            name, listed, at = bytes_[at + 5 : name_end].decode(), [], name_end + 1
            while at < end:
                fields, behind = self.document(bytes_, at)
                if behind < at + 5:
                    raise ValueError("no document")
                listed.append(fields)
                at = behind
            self.sequences.append((name, listed))

    def command(self):
        if self.fault:
            raise Refused(22, ("place", int64(self.fault.place)))
        return command_of(self.body, self.sequences, self.is_query)


# the words by which the program of the rows tells commands


def operation_words(kind, statement):
    if kind == "insert":
        return f" {size(statement['d'])}"
    if kind == "delete":
        return f" {size(statement['q'])}"
    return f" {size(statement['q'])}:{size(statement['u'])}" + (":upsert" if statement["upsert"] else "")


def write_words(command):
    order = "ordered" if command.get("ordered", True) else "unordered"
    number = f" number {command['txnNumber']}" if "txnNumber" in command else ""
    operations = "".join(operation_words(command["name"], statement) for statement in command["statements"])
    return f"{command['name']} {command['own']} {order}{operations}{number}"


def read_words(command):
    at, after = command.get("readConcern") or (None, None)
    size_ = command.get("cursor") if command["name"] == "aggregate" else command.get("batchSize")
    parts = [("at", at), ("after", after), ("size", size_)]
    told = "".join(f" {word} {number}" for word, number in parts if number is not None)
    # An aggregate is the find of its stages.
    name = "find" if command["name"] == "aggregate" else command["name"]
    return f"{name} {command['own']}{told}" + (" single" if command.get("singleBatch") else "")


def key_words(key):
    return shown(key) if key[0] in (INT32, INT64, STRING, NULL) else "another key"


def command_words(command):
    name = command["name"]
    if name in GREETINGS:
        word = "isMaster" if name == "ismaster" else name
        return word + (" helloOk" if word == "isMaster" and command["helloOk"] else "")
    if name in STATEMENTS:
        return write_words(command)
    if name == "getMore":
        told = f" size {command['batchSize']}" if "batchSize" in command else ""
        return f"getMore {command['database']}.{command['collection']} {command['own']}{told}"
    if name == "killCursors":
        return f"killCursors {command['own']}" + "".join(f" {number}" for number in command["cursors"])
    if name == "shardCollection":
        return f"shardCollection {command['own']}"
    if name == "split":
        return f"split {command['own']} at {key_words(command['middle'])}"
    return read_words(command)


def told(request):
    """What the framer and the commands make of a request."""
    head = f"{request.identifier} {'query' if request.is_query else 'msg'}{' more' if request.is_silent else ''}"
    if request.fault:
        return f"{head} {request.fault.word} {request.fault.place} {request.fault.byte} = refused 22 at {request.fault.place}"
    try:
        return f"{head} = {command_words(request.command())}"
    except Refused as refused:
        return f"{head} = refused {refused.code}"


def reply_bytes(request, number, fields):
    document = written(fields)
    body = struct.pack("<iqii", 8, 0, 0, 1) + document if request.is_query else struct.pack("<I", 0) + b"\0" + document
    return struct.pack("<iiii", len(body) + 16, number, request.identifier, REPLY if request.is_query else MSG) + body


class Connection:
    """A connection to a new cluster, or to one whose nodes have just started again."""

    def __init__(self, moments=(), cluster=None):
        self.cluster, self.replies, self.moments = cluster or Cluster(), 0, list(moments)

    def ask(self, bytes_, moment=None):
        """The request, and the fields and bytes of its reply, or nothing."""
        request = Request(bytes_)
        self.cluster.requests += 1
        self.cluster.rise(moment if moment is not None else self.moments.pop(0) if self.moments else CLOCK)
        try:
            fields = self.cluster.take(request.command(), request.is_silent)
        except Refused as refused:
            fields = refusal(refused)
        if request.is_silent:
            return request, None, b""
        self.replies += 1
        return request, fields, reply_bytes(request, self.replies, fields)


def pieces(bytes_):
    """The bytes in hexadecimal; a byte that comes more than 200 times running with its count."""
    found, at = [], 0
    for run in re.finditer(rb"(.)\1{199,}", bytes_, re.S):
        found += [bytes_[at : run.start()].hex()] if run.start() > at else []
        found.append(f"{run.end() - run.start()}*{bytes_[run.start():run.start() + 1].hex()}")
        at = run.end()
    return " ".join(found + ([bytes_[at:].hex()] if at < len(bytes_) or not found else []))


def split_messages(bytes_):
    found = []
    while bytes_:
        length = struct.unpack_from("<i", bytes_)[0]
        found.append(bytes_[:length])
        bytes_ = bytes_[length:]
    return found


def shown_request(request):
    """The request in the notation."""
    sequences = "".join(f" {name} [{', '.join(shown((DOCUMENT, fields)) for fields in listed)}]" for name, listed in request.sequences)
    return ("moreToCome: " if request.is_silent else "") + shown((DOCUMENT, request.body)) + sequences
