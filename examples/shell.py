#!/usr/bin/env python3
"""Sends requests that are written as text, one a line, and prints each reply as a line.

    shell.py [PROGRAM]     starts PROGRAM, or ../cluster, as `PROGRAM pipe`; the journals are files in the current folder
    shell.py PORT          connects to examples/tcp.py at that port of this machine

A line is a document in extended JSON (MongoDB Extended JSON v2), as {"insert": "c", "documents": [{"_id": 1}], "$db": "d"}. Integers have
32 bits where they fit, else 64. Other types: {"$numberLong": "1"}, {"$oid": "<24 hexadecimal digits>"}, {"$timestamp": {"t": 1, "i": 2}},
{"$date": {"$numberLong": "<milliseconds>"}}, {"$binary": {"base64": "..", "subType": "00"}}, {"$uuid": ".."}, {"$minKey": 1}, {"$maxKey": 1}.
Empty lines and those that begin with # are skipped.
"""
import base64
import json
import socket
import struct
import subprocess
import sys
import uuid
from pathlib import Path

OP_MSG = 2013


class Document(list):
    """The fields of a document, as pairs of a name and a value."""


def text(value):
    data = value.encode()
    return struct.pack("<i", len(data) + 1) + data + b"\0"


def binary(subtype, data):
    return struct.pack("<iB", len(data), subtype) + data


# The types that JSON lacks: what their one field is called, and the type's byte and the value's bytes from its operand.
FROM_JSON = {
    "$numberLong": lambda it: (0x12, struct.pack("<q", int(it))),
    "$numberInt": lambda it: (0x10, struct.pack("<i", int(it))),
    "$numberDouble": lambda it: (0x01, struct.pack("<d", float(it))),
    "$oid": lambda it: (0x07, struct.pack("12s", bytes.fromhex(it))),
    "$timestamp": lambda it: (0x11, struct.pack("<II", dict(it)["i"], dict(it)["t"])),
    "$date": lambda it: (0x09, struct.pack("<q", int(dict(it)["$numberLong"]))),
    "$binary": lambda it: (0x05, binary(int(dict(it)["subType"], 16), base64.b64decode(dict(it)["base64"], validate=True))),
    "$uuid": lambda it: (0x05, binary(4, uuid.UUID(it).bytes)),
    "$minKey": lambda it: (0xFF, b""),
    "$maxKey": lambda it: (0x7F, b""),
}


def encoded(value):
    """The type's byte and the bytes of a value that JSON gave."""
    if isinstance(value, Document):
        if len(value) == 1 and value[0][0] in FROM_JSON:
            return FROM_JSON[value[0][0]](value[0][1])
        return 0x03, document(value)
    if isinstance(value, list):
        return 0x04, document((str(index), item) for index, item in enumerate(value))
    if isinstance(value, str):
        return 0x02, text(value)
    if value is None:
        return 0x0A, b""
    if isinstance(value, bool):
        return 0x08, bytes([value])
    if isinstance(value, float):
        return 0x01, struct.pack("<d", value)
    return (0x10, struct.pack("<i", value)) if -(2**31) <= value < 2**31 else (0x12, struct.pack("<q", value))


def document(fields):
    inner = bytearray()
    for name, value in fields:
        if "\0" in name:
            raise ValueError("a name has a 00")
        kind, data = encoded(value)
        inner += bytes([kind]) + name.encode() + b"\0" + data
    return struct.pack("<i", len(inner) + 5) + inner + b"\0"


# Of each type: how many bytes its value has, and what JSON shows for them.
TO_JSON = {
    0x01: (8, lambda it: struct.unpack("<d", it)[0]),
    0x07: (12, lambda it: {"$oid": it.hex()}),
    0x08: (1, lambda it: it == b"\1"),
    0x09: (8, lambda it: {"$date": {"$numberLong": str(struct.unpack("<q", it)[0])}}),
    0x0A: (0, lambda it: None),
    0x10: (4, lambda it: struct.unpack("<i", it)[0]),
    0x11: (8, lambda it: {"$timestamp": {"t": struct.unpack("<I", it[4:])[0], "i": struct.unpack("<I", it[:4])[0]}}),
    0x12: (8, lambda it: {"$numberLong": str(struct.unpack("<q", it)[0])}),
    0xFF: (0, lambda it: {"$minKey": 1}),
    0x7F: (0, lambda it: {"$maxKey": 1}),
}


def decoded(kind, data, at):
    """The value of that type at that offset as JSON shows it, and where it ends."""
    if kind in TO_JSON:
        size, show = TO_JSON[kind]
        return show(data[at : at + size]), at + size
    size = struct.unpack_from("<i", data, at)[0]
    if kind == 0x02:
        return data[at + 4 : at + 3 + size].decode(), at + 4 + size
    if kind == 0x05:
        content = base64.b64encode(data[at + 5 : at + 5 + size]).decode()
        return {"$binary": {"base64": content, "subType": f"{data[at + 4]:02x}"}}, at + 5 + size
    fields = decoded_fields(data, at + 4, at + size - 1)
    return (dict(fields) if kind == 0x03 else [value for _, value in fields]), at + size


def decoded_fields(data, at, end):
    fields = []
    while at < end:
        name_end = data.index(0, at + 1)
        value, after = decoded(data[at], data, name_end + 1)
        fields.append((data[at + 1 : name_end].decode(), value))
        at = after
    return fields


def streams(argument):
    """What requests are written to, and what replies are read from."""
    if argument.isdigit():
        stream = socket.create_connection(("127.0.0.1", int(argument))).makefile("rwb")
        return stream, stream
    program = subprocess.Popen([argument, "pipe"], stdin=subprocess.PIPE, stdout=subprocess.PIPE)
    return program.stdin, program.stdout


def reply_to(request, requests, replies):
    """Sends a request, and returns the document of its reply, or None where the server is gone."""
    requests.write(request)
    requests.flush()
    size = replies.read(4)
    if len(size) < 4:
        return None
    reply = size + replies.read(struct.unpack("<i", size)[0] - 4)
    return decoded(0x03, reply, 21)[0]


def main():
    requests, replies = streams(sys.argv[1] if len(sys.argv) > 1 else str(Path(__file__).resolve().parent.parent / "cluster"))
    for number, line in enumerate(sys.stdin, 1):
        if not line.strip() or line.startswith("#"):
            continue
        try:
            fields = json.loads(line, object_pairs_hook=Document)
            if not isinstance(fields, Document):
                raise ValueError("this is no document")
            body = document(fields)
        except (ValueError, TypeError, KeyError, struct.error) as error:
            print(f"shell: line {number}: {error}", file=sys.stderr)
            continue
        request = struct.pack("<iiiiIB", len(body) + 21, number, 0, OP_MSG, 0, 0) + body
        reply = reply_to(request, requests, replies)
        if reply is None:
            sys.exit("shell: the server has ended")
        print(json.dumps(reply, ensure_ascii=False), flush=True)


main()
