"""Documents: their bytes, their faults, and the notation in which rows are written.

A value is a pair of its type byte and its content: a document a list of pairs of a name and a value, an array a list of values, a string
and a name text, a binary a pair of subtype and bytes, an ObjectId bytes, all numbers, times and dates Python's integers.
"""
import re
import struct

STRING, DOCUMENT, ARRAY, BINARY, OBJECT_ID, BOOLEAN = 0x02, 0x03, 0x04, 0x05, 0x07, 0x08
DATE, NULL, INT32, TIMESTAMP, INT64, MIN_KEY, MAX_KEY = 0x09, 0x0A, 0x10, 0x11, 0x12, 0xFF, 0x7F
DOUBLE = 0x01

SIMPLE = {INT32: "<i", INT64: "<q", DATE: "<q", TIMESTAMP: "<Q"}


class Fault(Exception):
    """A document that is none: a word, the offset of the fault and the type that is not kept, or 0."""

    def __init__(self, word, place, byte=0):
        super().__init__(word)
        self.word, self.place, self.byte = word, place, byte


def int32(number):
    return (INT32, number)


def int64(number):
    return (INT64, number)


def whole(number):
    """A count: in 32 bits where it fits."""
    return int32(number) if number < 2**31 else int64(number)


def text(characters):
    return (STRING, characters)


def doc(*fields):
    return (DOCUMENT, list(fields))


def array(values):
    return (ARRAY, list(values))


def time(value):
    return (TIMESTAMP, value)


def stamp(seconds, counter):
    return (seconds << 32) + counter


def written_text(characters):
    spelled = characters.encode()
    return struct.pack("<i", len(spelled) + 1) + spelled + b"\0"


def written_value(value):
    kind, content = value
    if kind in SIMPLE:
        return struct.pack(SIMPLE[kind], content)
    if kind == STRING:
        return written_text(content)
    if kind == DOCUMENT:
        return written(content)
    if kind == ARRAY:
        return written([(str(index), item) for index, item in enumerate(content)])
    if kind == BINARY:
        return struct.pack("<iB", len(content[1]), content[0]) + content[1]
    if kind == BOOLEAN:
        return b"\1" if content else b"\0"
    if kind == DOUBLE:
        return struct.pack("<d", content)
    return content if kind == OBJECT_ID else b""


def written(fields):
    """The one spelling of a document."""
    inner = b"".join(bytes([value[0]]) + name.encode() + b"\0" + written_value(value) for name, value in fields)
    return struct.pack("<i", len(inner) + 5) + inner + b"\0"


def size(fields):
    return len(written(fields))


def read_value(kind, bytes_, at):
    """The value at that offset, and where it ends. Faults only of types and booleans: rows have no others."""
    if kind in SIMPLE:
        width = struct.calcsize(SIMPLE[kind])
        return (kind, struct.unpack_from(SIMPLE[kind], bytes_, at)[0]), at + width
    if kind == STRING:
        length = struct.unpack_from("<i", bytes_, at)[0]
        return (kind, bytes_[at + 4 : at + 3 + length].decode()), at + 4 + length
    if kind == DOCUMENT:
        fields, end = read_fields(bytes_, at)
        return (kind, fields), end
    if kind == ARRAY:
        fields, end = read_fields(bytes_, at)
        return (kind, [value for _, value in fields]), end
    if kind == BINARY:
        length, subtype = struct.unpack_from("<iB", bytes_, at)
        return (kind, (subtype, bytes_[at + 5 : at + 5 + length])), at + 5 + length
    if kind == OBJECT_ID:
        return (kind, bytes_[at : at + 12]), at + 12
    if kind == BOOLEAN:
        if bytes_[at] > 1:
            raise Fault("bad-bool", at)
        return (kind, bytes_[at] == 1), at + 1
    return (kind, None), at


def read_fields(bytes_, at):
    """The fields of the document at that offset, and where it ends."""
    end = at + struct.unpack_from("<i", bytes_, at)[0]
    fields, next_at = [], at + 4
    while next_at < end - 1:
        kind, name_at = bytes_[next_at], next_at + 1
        if kind not in (*SIMPLE, STRING, DOCUMENT, ARRAY, BINARY, OBJECT_ID, BOOLEAN, NULL, MIN_KEY, MAX_KEY):
            raise Fault("bad-type", next_at, kind)
        name_end = bytes_.index(0, name_at)
        value, next_at = read_value(kind, bytes_, name_end + 1)
        fields.append((bytes_[name_at:name_end].decode(), value))
    return fields, end


def field(fields, name):
    """The first field of that name."""
    for own, value in fields:
        if own == name:
            return value
    return None


TOKEN = re.compile(r'\s*(?:([{}\[\]:,()*])|"((?:[^"\\]|\\.)*)"|(-?\d+\.\d+)|(-?\d+)(L?)|([A-Za-z_$][\w$]*))')


class Notation:
    """Reads `{a: 1, b: [2L, "x"], t: Timestamp(1, 2)}`."""

    def __init__(self, source):
        self.tokens, self.at = [], 0
        source = source.strip()
        while self.at < len(source):
            found = TOKEN.match(source, self.at)
            if not found:
                raise ValueError(f"notation: {source[self.at:]}")
            self.tokens.append(found)
            self.at = found.end()
        self.at = 0

    def peek(self):
        return self.tokens[self.at].group(1) if self.at < len(self.tokens) else None

    def take(self, mark):
        if self.peek() != mark:
            raise ValueError(f"notation: {mark} wanted at {self.at}")
        self.at += 1

    def list_of(self, first, last, item):
        items = []
        self.take(first)
        while self.peek() != last:
            items.append(item())
            if self.peek() != last:
                self.take(",")
        self.take(last)
        return items

    def pair(self):
        found = self.tokens[self.at]
        self.at += 1
        name = found.group(2) if found.group(2) is not None else found.group(6)
        self.take(":")
        return name, self.value()

    def value(self):
        if self.peek() == "{":
            return DOCUMENT, self.list_of("{", "}", self.pair)
        if self.peek() == "[":
            return ARRAY, self.list_of("[", "]", self.value)
        found = self.tokens[self.at]
        self.at += 1
        if found.group(2) is not None:
            return text(found.group(2).encode().decode("unicode_escape"))
        if found.group(3) is not None:
            return DOUBLE, float(found.group(3))
        if found.group(4) is not None:
            return (INT64 if found.group(5) else INT32), int(found.group(4))
        return self.named(found.group(6))

    def named(self, word):
        plain = {"true": (BOOLEAN, True), "false": (BOOLEAN, False), "null": (NULL, None), "MinKey": (MIN_KEY, None), "MaxKey": (MAX_KEY, None)}
        if word in plain:
            return plain[word]
        parts = [content for _, content in self.list_of("(", ")", self.value)]
        if word == "Timestamp":
            return time(stamp(*parts))
        if word == "Date":
            return DATE, parts[0]
        if word == "ObjectId":
            return OBJECT_ID, bytes.fromhex(parts[0])
        if word == "Binary":
            return BINARY, (parts[0], bytes.fromhex(parts[1]))
        if word == "UUID":
            return BINARY, (4, bytes.fromhex(parts[0].replace("-", "")))
        if word == "repeat":
            return text(parts[0] * parts[1])
        raise ValueError(f"notation: {word}")


def fields_of(source):
    """The fields of the document in this notation."""
    reader = Notation(source)
    kind, content = reader.value()
    if kind != DOCUMENT or reader.at != len(reader.tokens):
        raise ValueError(f"notation: {source}")
    return content


def shown_name(name):
    return name if re.fullmatch(r"[A-Za-z_$][\w$]*", name) else f'"{name}"'


def shown(value):
    """The value in the notation; a long string by its length."""
    kind, content = value
    if kind == DOCUMENT:
        return "{" + ", ".join(f"{shown_name(name)}: {shown(item)}" for name, item in content) + "}"
    if kind == ARRAY:
        return "[" + ", ".join(shown(item) for item in content) + "]"
    if kind == STRING:
        is_repeated = len(content) > 60 and content == content[0] * len(content)
        return f'repeat("{content[0]}", {len(content)})' if is_repeated else '"' + content.encode("unicode_escape").decode().replace('"', '\\"') + '"'
    if kind == INT64:
        return f"{content}L"
    if kind == TIMESTAMP:
        return f"Timestamp({content >> 32}, {content & 0xFFFFFFFF})"
    if kind == BINARY:
        return f'UUID("{content[1].hex()}")' if content[0] == 4 and len(content[1]) == 16 else f'Binary({content[0]}, "{content[1].hex()}")'
    if kind == OBJECT_ID:
        return f'ObjectId("{content.hex()}")'
    if kind == DATE:
        return f"Date({content})"
    names = {NULL: "null", MIN_KEY: "MinKey", MAX_KEY: "MaxKey"}
    if kind == BOOLEAN:
        return "true" if content else "false"
    return names.get(kind) or str(content)
