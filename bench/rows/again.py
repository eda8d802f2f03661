#!/usr/bin/env python3
"""Rewrites the lines `is` and `gets` of rows that stand, as this account of the formats has them now, and tells each request whose reply changed.

Only rows in which each `ask` is one whole message are taken, without a failing device and no script; of all rows lines `is` tell finds anew.
Usage: again.py FILE..
"""
import pathlib
import re
import struct
import sys

from bson import DOCUMENT, read_fields, shown
from wire import Connection, pieces, told

PLAIN = ("#", "note", "clock", "ask", "is", "gets", "cut", "keeps", "ends")


def bytes_in(line):
    parts = [part.split("*") if "*" in part else ("1", part) for part in line.split(" ")]
    return b"".join(int(times) * bytes.fromhex(digits) for times, digits in parts)


def is_whole(bytes_):
    return len(bytes_) >= 21 and struct.unpack_from("<i", bytes_)[0] == len(bytes_) and struct.unpack_from("<i", bytes_, 12)[0] in (2004, 2013)


def is_read(line):
    """Whether this account reads what the line tells of: no fault of a frame, and of documents only types and booleans."""
    words = line.split(" ")
    return words[1] not in ("fault", "rest") and not set(words) & {"short", "bad-length", "bad-text", "deep", "trailing"}


def is_plain(row):
    words = [line.split(" ")[0] for line in row]
    are_read = all(is_read(line) for line in row if line.startswith("is "))
    are_whole = all(is_whole(bytes_in(line[4:])) for line in row if line.startswith("ask "))
    return are_read and are_whole and all(word in PLAIN for word in words)


def renamed(line):
    line = re.sub(r"= find (\S+) 0 its key$", r"= find \1", line)
    return re.sub(r"= find (\S+) (\d+) its key$", r"= find \1 at \2", line) if line.startswith("is ") else line


def reply_note(reply):
    at = 21 if struct.unpack_from("<i", reply, 12)[0] == 2013 else 36
    return shown((DOCUMENT, read_fields(reply, at)[0]))


def again(row):
    """The row as it is now."""
    clock = [line for line in row if line.startswith("clock ")]
    connection = Connection([int(moment) for moment in clock[0].split(" ")[1:]] if clock else ())
    lines, name, step, request = [], row[0], "", None
    for line in row:
        word, _, rest = line.partition(" ")
        if word == "note":
            step = rest
        if word == "ask":
            request, _, reply = connection.ask(bytes_in(rest))
            lines += [line, f"is {told(request)}"] + ([f"gets {pieces(reply)}"] if reply else [])
        elif word == "gets" and bytes_in(rest) != reply:
            print(f"{name} | {step[:60]} | {reply_note(bytes_in(rest))[:60]} -> {reply_note(reply)}")
        elif word not in ("is", "gets"):
            lines.append(line)
    return lines


def rows_in(text):
    row = []
    for line in text.splitlines():
        row.append(line)
        if line.split(" ")[0] in ("ends", "unserved"):
            yield row
            row = []


def rewrite(path):
    print(path.name)
    lines = []
    for row in rows_in(path.read_text()):
        try:
            lines += again(row) if is_plain(row) else [renamed(line) for line in row]
        except (IndexError, ValueError, struct.error, UnicodeDecodeError):
            # a document that is none in a way that this account does not read
            lines += [renamed(line) for line in row]
    path.write_text("\n".join(lines) + "\n")


if __name__ == "__main__":
    for name in sys.argv[1:]:
        rewrite(pathlib.Path(name))
