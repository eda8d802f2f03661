#!/usr/bin/env python3
"""Prints the messages that come in as text, a line each: the id, what it answers, and the document in the notation.

Usage: cluster pipe < requests | show.py
"""
import struct
import sys

from bson import DOCUMENT, read_fields, shown
from wire import MSG, split_messages


def line(message):
    _, identifier, answered, opcode = struct.unpack_from("<iiii", message)
    fields, _ = read_fields(message, 21 if opcode == MSG else 36)
    return f"{identifier} answers {answered}: {shown((DOCUMENT, fields))}"


if __name__ == "__main__":
    for bytes_ in split_messages(sys.stdin.buffer.read()):
        print(line(bytes_))
