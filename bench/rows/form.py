"""Rows: connections and scripts, with what they get by this account of the formats."""
import struct

from bson import DOCUMENT, fields_of, shown, written
from cluster import Cluster
from records import file_of
from wire import QUERY, Connection, message, pieces, shown_request, told

# the longest request or reply that a note tells
SHOWN = 900


class Ask:
    """A request, the reply that is wanted of it in the notation (or none), and words about it."""

    def __init__(self, source, says=None, sequences=(), is_silent=False, is_first=False, words=None, identifier=None, moment=None, raw=None):
        self.source, self.says, self.sequences, self.is_silent = source, says, sequences, is_silent
        self.is_first, self.words, self.identifier, self.moment, self.raw = is_first, words, identifier, moment, raw

    def bytes(self, number):
        identifier = number if self.identifier is None else self.identifier
        return self.raw or message(identifier, self.source, self.sequences, self.is_silent, self.is_first)


def greeting(identifier, source):
    """An OP_QUERY message."""
    document = written(fields_of(source))
    rest = struct.pack("<iiiI", identifier, 0, QUERY, 0) + b"admin.$cmd\0" + struct.pack("<ii", 0, -1) + document
    return Ask(source, raw=struct.pack("<i", len(rest) + 4) + rest)


def silent(source, **options):
    return Ask(source, is_silent=True, **options)


def check(name, source, says, fields):
    """Ends the program where the reply is not the wanted one."""
    if says is not None and (fields is None or fields_of(says) != fields):
        told_ = "nothing" if fields is None else shown((DOCUMENT, fields))
        raise SystemExit(f"{name}\n{source}\nwanted {says}\ntold   {told_}")


def ask_lines(name, connection, ask, number):
    bytes_ = ask.bytes(number)
    request, fields, reply = connection.ask(bytes_, ask.moment)
    check(name, ask.source, ask.says, fields)
    lines = [f"note {ask.words}"] if ask.words else []
    note = ask.source if request.fault else shown_request(request)
    lines += [f"note {'OP_QUERY ' if request.is_query else ''}{note}"] if len(note) <= SHOWN else []
    lines += [f"ask {pieces(bytes_)}", f"is {told(request)}"]
    if fields is not None:
        lines.append(f"gets {pieces(reply)}")
        note = shown((DOCUMENT, fields))
        lines += [f"note gets {note}"] if len(note) <= SHOWN else []
    return lines


def connection_row(name, asks, clock=(), keeps=(), is_cut=False, shards=1):
    """The lines of a row: a connection to a new cluster. `keeps`: the nodes whose journals are told; `is_cut`: in every cutting."""
    connection = Connection(clock, Cluster(shards))
    lines = [f"# {name}"] + ([f"pipe --shards {shards}"] if shards > 1 else [])
    lines += ([f"clock {' '.join(map(str, clock))}"] if clock else []) + (["cut"] if is_cut else [])
    for number, ask in enumerate(asks):
        ask = Ask(ask) if isinstance(ask, str) else ask
        lines += ask_lines(name, connection, ask, number + 1)
    lines += [f"keeps {node} {pieces(file_of(connection.cluster.journals[node]))}" for node in keeps]
    return lines + ["ends 0 0"]


def refused_rows(listed):
    """Rows of one request each: words, the request (or it and sequences), and the code that it is refused with."""
    lines = []
    for words, source, code in listed:
        source, sequences = source if isinstance(source, tuple) else (source, ())
        ask = Ask(source, sequences=sequences)
        connection = Connection()
        request, fields, _ = connection.ask(ask.bytes(1))
        if dict(fields).get("code") != (0x10, code):
            raise SystemExit(f"{words}: {source}\nwanted {code}\ntold   {shown((DOCUMENT, fields))}")
        lines += refused_row(words, source if request.fault else shown_request(request), ask)
    return lines


def refused_row(words, note, ask):
    """A row that its request names, and so without a note of it."""
    name = f"{words}: {note}" if len(note) <= SHOWN else words
    return [line for line in connection_row(name, [ask]) if not line.startswith("note ")]


def put_file(path, lines):
    path.write_text("\n".join(lines) + "\n")
    print(f"{path.name}: {sum(line.startswith('ends ') for line in lines)} rows, {path.stat().st_size} bytes")
