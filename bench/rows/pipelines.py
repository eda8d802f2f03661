"""Pipelines: whether a list is one, and what it gives of documents.

Formats leave open in which order documents come that no sort orders, and which of equal spellings a group shows. An example in which that
shows has more than one right reply: Ambiguous is raised for it.
"""
from bson import ARRAY, BOOLEAN, DOCUMENT, INT32, NULL, STRING, field, int32, int64, size, whole
from matching import check_filter, holds, want
from order import EMPTY_MARK, are_equal, is_number, order_of, path_of, projected, reached

ACCUMULATORS = ("$sum", "$min", "$max", "$count")
LONGEST, MOST = 16777216, 104857600


class Ambiguous(Exception):
    """An example that has more than one right reply."""


class Overflow(Exception):
    """A sum outside 64 bits."""


class TooMuch(Exception):
    """An answer that is too long, with its length."""

    def __init__(self, length):
        super().__init__(length)
        self.length = length


def is_path(value):
    return value[0] == STRING and value[1].startswith("$")


def check_projection(fields):
    """Of find and `$project`; that it is not empty is the stage's."""
    kept = dropped = computed = False
    own = []
    for name, value in fields:
        want(len(path_of(name)) == 1)
        if is_path(value):
            path_of(value[1][1:])
            computed = True
        else:
            want(value[0] == BOOLEAN or is_number(value))
            if name == "_id":
                own.append(bool(value[1]))
            else:
                kept, dropped = kept or bool(value[1]), dropped or not value[1]
    want(not (dropped and (kept or computed or True in own)))
    want(not (True in own and False in own))


def check_sort(fields):
    want(len(fields) <= 32)
    for name, value in fields:
        path_of(name)
        want(is_number(value) and value[1] in (1, -1))


def check_operand(value):
    """Of a group's `_id` or accumulator."""
    if is_path(value):
        path_of(value[1][1:])
    else:
        want(value[0] not in (DOCUMENT, ARRAY))


def check_group(fields):
    want([name for name, _ in fields].count("_id") == 1)
    for name, value in fields:
        if name == "_id":
            check_operand(value)
            continue
        want(value[0] == DOCUMENT and len(value[1]) == 1)
        operator, operand = value[1][0]
        want(operator in ACCUMULATORS)
        if operator == "$count":
            want(operand == (DOCUMENT, []))
        else:
            check_operand(operand)


def check_stage(name, value):
    if name in ("$match", "$project", "$group", "$sort"):
        want(value[0] == DOCUMENT)
        if name == "$project":
            want(value[1])
        {"$match": check_filter, "$project": check_projection, "$group": check_group, "$sort": check_sort}[name](value[1])
    elif name == "$count":
        counted = value[1]
        want(value[0] == STRING and counted and not set(counted) & {".", "\0"} and not counted.startswith("$"))
    else:
        want(name in ("$skip", "$limit") and is_number(value) and value[1] >= (1 if name == "$limit" else 0))


def check_pipeline(stages):
    """Raises Bad where the elements of an array are no pipeline."""
    want(len(stages) <= 1000)
    for stage in stages:
        want(stage[0] == DOCUMENT and len(stage[1]) == 1)
        check_stage(*stage[1][0])


def project(spec, fields):
    names = {name: value for name, value in spec if not is_path(value)}
    computed = [(name, value[1][1:]) for name, value in spec if is_path(value)]
    is_keeping = computed or any(value[1] for name, value in names.items() if name != "_id") or names.get("_id", (BOOLEAN, False))[1]
    if is_keeping:
        names = {"_id": (BOOLEAN, True), **names}
        left = [(name, value) for name, value in fields if name in names and names[name][1]]
    else:
        left = [(name, value) for name, value in fields if name not in names]
    left = [(name, value) for name, value in left if name not in [own for own, _ in computed]]
    found = [(name, projected((DOCUMENT, fields), path_of(path))) for name, path in computed]
    return left + [(name, value) for name, value in found if value is not None]


def sort_part(fields, name, direction):
    values, is_gap = reached((DOCUMENT, fields), path_of(name))
    parts = []
    for value in values:
        if value[0] == ARRAY:
            parts += [order_of(item) for item in value[1]] or [EMPTY_MARK]
        else:
            parts.append(order_of(value))
    null = order_of((NULL, None))
    if is_gap or not parts:
        parts.append(null)
    return min(parts) if direction == 1 else max(parts)


def are_all_one(documents):
    return all(document == documents[0] for document in documents)


class Listed:
    """Documents; whether their order is one that every right reply has, and whether it is open which documents they are."""

    def __init__(self, documents, is_fixed=False, is_open=False):
        self.documents, self.is_open = documents, is_open
        self.is_fixed = not is_open and (is_fixed or len(documents) <= 1 or are_all_one(documents))

    def closed(self):
        if self.is_open:
            raise Ambiguous()
        return self.documents

    def match(self, query):
        return Listed([fields for fields in self.closed() if holds(query, fields)], self.is_fixed)

    def project(self, spec):
        return Listed([project(spec, fields) for fields in self.documents], self.is_fixed, self.is_open)

    def sort(self, spec):
        documents, is_fixed = list(self.closed()), True
        for name, (_, direction) in reversed(spec):
            documents.sort(key=lambda fields: sort_part(fields, name, direction), reverse=direction == -1)
        keys = [[sort_part(fields, name, direction) for name, (_, direction) in spec] for fields in documents]
        for one, other, before, behind in zip(keys, keys[1:], documents, documents[1:]):
            is_fixed = is_fixed and (one != other or before == behind)
        return Listed(documents, is_fixed)

    def part(self, first, end):
        """The documents from the first to the end."""
        left = self.documents[first:end]
        is_cut = 0 < len(left) < len(self.documents)
        return Listed(left, self.is_fixed, bool(left) and (self.is_open or is_cut and not self.is_fixed))

    def group(self, spec):
        rows = {}
        for fields in self.closed():
            key = operand_of(field(spec, "_id"), fields) or (NULL, None)
            rows.setdefault(order_of(key), (key, []))[1].append((key, fields))
        return Listed([group_row(spec, key, members) for key, members in rows.values()])

    def count(self, name):
        return Listed([[(name, whole(len(self.documents)))]] if self.documents else [])


def operand_of(operand, fields):
    return projected((DOCUMENT, fields), path_of(operand[1][1:])) if is_path(operand) else operand


def group_row(spec, key, members):
    if any(own != key for own, _ in members):
        raise Ambiguous()
    documents = [fields for _, fields in members]
    row = [("_id", key)]
    for name, value in spec:
        if name != "_id":
            row.append((name, accumulated(*value[1][0], documents)))
    return row


def accumulated(operator, operand, documents):
    if operator == "$count":
        return whole(len(documents))
    values = [operand_of(operand, fields) for fields in documents]
    if operator == "$sum":
        return summed([value for value in values if value is not None and is_number(value)])
    values = [value for value in values if value is not None and value[0] != NULL]
    if not values:
        return NULL, None
    best = (min if operator == "$min" else max)(values, key=order_of)
    if any(are_equal(value, best) and value != best for value in values):
        raise Ambiguous()
    return best


def summed(values):
    total = sum(value[1] for value in values)
    if not -(2**63) <= total < 2**63:
        raise Overflow()
    is_narrow = all(value[0] == INT32 for value in values) and -(2**31) <= total < 2**31
    return int32(total) if is_narrow else int64(total)


def staged(listed, name, value):
    if name == "$skip":
        return listed.part(value[1], None)
    if name == "$limit":
        return listed.part(0, value[1])
    return {"$match": listed.match, "$project": listed.project, "$sort": listed.sort, "$group": listed.group, "$count": listed.count}[name](value[1])


def answer(stages, documents):
    """What the stages give of the documents, which come in order of keys."""
    listed = Listed(documents)
    for name, value in stages:
        listed = staged(listed, name, value)
    if not listed.is_fixed:
        raise Ambiguous(listed.documents)
    sizes = [size(fields) for fields in listed.documents]
    if sum(sizes) > MOST:
        raise TooMuch(sum(sizes))
    if any(length > LONGEST for length in sizes):
        raise TooMuch(max(sizes))
    return listed.documents
