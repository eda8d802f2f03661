"""What statements of writes do to the document under their key."""
from bson import DOCUMENT, INT32, INT64, field, size
from matching import begins, check_filter, equalities, holds, key_value
from order import Bad, are_equal, is_key, is_number, order_of, path_of

OPERATORS = ("$set", "$unset", "$inc", "$min", "$max")


class Wrong(Exception):
    """The error of a statement."""

    def __init__(self, code):
        super().__init__(code)
        self.code = code


def is_replacement(change):
    return not any(name.startswith("$") for name, _ in change)


def changes_of(change):
    """The paths of a change with what is done at each, in order of the paths."""
    found = []
    for name, operand in change:
        if name not in OPERATORS or operand[0] != DOCUMENT:
            raise Bad()
        for path, value in operand[1]:
            parts = path_of(path)
            if name == "$inc" and not is_number(value):
                raise Bad()
            found.append(([part.encode() for part in parts], name, value))
    found.sort(key=lambda change: change[0])
    for index, (parts, _, _) in enumerate(found[1:]):
        before = found[index][0]
        if parts[: len(before)] == before:
            raise Bad()
    return [([part.decode() for part in parts], name, value) for parts, name, value in found]


def check_change(change):
    if not is_replacement(change):
        changes_of(change)


def check_statement(kind, statement):
    """Raises Bad where a filter, a change or an upsert is none."""
    if kind == "insert":
        return
    check_filter(statement["q"])
    if kind == "update":
        check_change(statement["u"])
        if statement["upsert"] and not begins(statement["q"]):
            raise Bad()


def put(fields, name, value):
    """The fields with the first of that name changed, or a new one behind them."""
    for index, (own, _) in enumerate(fields):
        if own == name:
            return fields[:index] + [(name, value)] + fields[index + 1 :]
    return fields + [(name, value)]


def taken_out(fields, name):
    for index, (own, _) in enumerate(fields):
        if own == name:
            return fields[:index] + fields[index + 1 :]
    return fields


def changed_at(old, name, value):
    """What stands at the end of a path afterwards."""
    if old is None or name == "$set":
        return value
    if name == "$inc":
        return increased(old, value)
    is_less = order_of(value) < order_of(old)
    is_greater = order_of(value) > order_of(old)
    return value if (is_less if name == "$min" else is_greater) else old


def increased(old, value):
    if not is_number(old):
        raise Wrong(14)
    total = old[1] + value[1]
    if old[0] == INT32 and value[0] == INT32 and -(2**31) <= total < 2**31:
        return INT32, total
    if not -(2**63) <= total < 2**63:
        raise Wrong(2)
    return INT64, total


def changed(fields, parts, name, value):
    """The fields behind the change at that path."""
    old = field(fields, parts[0])
    if len(parts) == 1:
        return taken_out(fields, parts[0]) if name == "$unset" else put(fields, parts[0], changed_at(old, name, value))
    if name == "$unset" and (old is None or old[0] != DOCUMENT):
        return fields
    if old is not None and old[0] != DOCUMENT:
        raise Wrong(28)
    inner = changed([] if old is None else old[1], parts[1:], name, value)
    return put(fields, parts[0], (DOCUMENT, inner))


def has_key(fields, key):
    own = field(fields, "_id")
    return own is not None and is_key(own) and are_equal(own, key)


def operated(fields, change, key):
    for parts, name, value in changes_of(change):
        fields = changed(fields, parts, name, value)
        if parts[0] == "_id" and not has_key(fields, key):
            raise Wrong(66)
    return fields


def replaced(fields, change, key):
    """A replacement: it keeps the `_id` of what it replaces, in front, where it has none."""
    if field(change, "_id") is None:
        return [("_id", field(fields, "_id"))] + change
    if not has_key(change, key):
        raise Wrong(66)
    return change


def fitting(fields):
    if size(fields) > 16777216:
        raise Wrong(10334)
    return fields


def updated(fields, statement, key):
    change = statement["u"]
    return fitting(replaced(fields, change, key) if is_replacement(change) else operated(fields, change, key))


def effect(kind, statement, before):
    """The document behind the statement (or None), and the reply: n, modified, the key that was put in, the code."""
    if kind == "insert":
        if before is not None:
            raise Wrong(11000)
        return fitting(statement["d"]), (1, 0, None, 0)
    key = key_value(statement["q"])
    is_met = before is not None and holds(statement["q"], before)
    if kind == "delete":
        return (None, (1, 0, None, 0)) if is_met else (before, (0, 0, None, 0))
    if is_met:
        after = updated(before, statement, key)
        return after, (1, int(after != before), None, 0)
    if not statement["upsert"]:
        return before, (0, 0, None, 0)
    if before is not None:
        raise Wrong(11000)
    after = updated(equalities(statement["q"]), statement, key)
    return after, (1, 0, field(after, "_id"), 0)


def applied(kind, statement, before):
    """As `effect`; of a fault its code."""
    try:
        return effect(kind, statement, before)
    except Wrong as wrong:
        return before, (0, 0, None, wrong.code)


def key_of(kind, statement):
    """The value of the statement's key, or None."""
    return field(statement["d"], "_id") if kind == "insert" else key_value(statement["q"])
