"""The order of values, keys, and the values and gaps at paths."""
from bson import ARRAY, BINARY, BOOLEAN, DATE, DOCUMENT, INT32, INT64, MAX_KEY, MIN_KEY, NULL, OBJECT_ID, STRING, TIMESTAMP, field

CLASSES = {
    MIN_KEY: 0, NULL: 1, INT32: 2, INT64: 2, STRING: 3, DOCUMENT: 4, ARRAY: 5, BINARY: 6, OBJECT_ID: 7, BOOLEAN: 8, DATE: 9, TIMESTAMP: 10,
    MAX_KEY: 11,
}

# of an empty array in a sort, above MinKey and below null
EMPTY_MARK = (0.5, 0)


class Bad(Exception):
    """A filter, change, projection, sort or pipeline that is none."""


def order_of(value):
    """What sorts as the value does; values are equal where this is."""
    kind, content = value
    rank = CLASSES[kind]
    if kind == STRING:
        return rank, content.encode()
    if kind == DOCUMENT:
        return rank, tuple((CLASSES[item[0]], name.encode(), order_of(item)) for name, item in content)
    if kind == ARRAY:
        return rank, tuple(order_of(item) for item in content)
    if kind == BINARY:
        return rank, (len(content[1]), content[0], content[1])
    return rank, 0 if content is None else content


def are_equal(one, other):
    return order_of(one) == order_of(other)


def is_key(value):
    return value[0] not in (DOCUMENT, ARRAY, MIN_KEY, MAX_KEY)


def is_number(value):
    return value[0] in (INT32, INT64)


def path_of(name):
    """The parts of a path."""
    parts = name.split(".")
    for part in parts:
        if not part or part.isascii() and part.isdigit() or part.startswith("$"):
            raise Bad(name)
    if len(parts) > 100:
        raise Bad(name)
    return parts


def reached(value, parts):
    """The values at the path in the value, and whether there is a gap."""
    kind, content = value
    if not parts:
        return [value], False
    if kind == DOCUMENT:
        found = field(content, parts[0])
        return ([], True) if found is None else reached(found, parts[1:])
    if kind != ARRAY:
        return [], True
    values, is_gap = [], False
    for item in content:
        if item[0] == DOCUMENT:
            more, is_more = reached(item, parts)
            values, is_gap = values + more, is_gap or is_more
    return values, is_gap


def projected(value, parts):
    """The value of a computed path, or None."""
    kind, content = value
    if not parts:
        return value
    if kind == DOCUMENT:
        found = field(content, parts[0])
        return None if found is None else projected(found, parts[1:])
    if kind != ARRAY:
        return None
    values = [projected(item, parts) for item in content if item[0] == DOCUMENT]
    return ARRAY, [item for item in values if item is not None]
