"""Filters: whether a value is one, and whether it holds of a document."""
from bson import ARRAY, BOOLEAN, DOCUMENT, MAX_KEY, MIN_KEY, NULL
from order import Bad, CLASSES, are_equal, is_number, order_of, path_of, reached

COMPARISONS = {"$gt": lambda a, b: a > b, "$gte": lambda a, b: a >= b, "$lt": lambda a, b: a < b, "$lte": lambda a, b: a <= b}
CONNECTIVES = ("$and", "$or", "$nor")


def is_operators(value):
    return value[0] == DOCUMENT and bool(value[1]) and value[1][0][0].startswith("$")


def want(holds):
    if not holds:
        raise Bad()


def check_filter(fields):
    """Raises Bad where the document is no filter."""
    for name, value in fields:
        if name in CONNECTIVES:
            want(value[0] == ARRAY and value[1] and all(item[0] == DOCUMENT for item in value[1]))
            for item in value[1]:
                check_filter(item[1])
        else:
            path_of(name)
            if is_operators(value):
                check_operators(value[1])


def check_operators(fields):
    for name, value in fields:
        if name in ("$in", "$nin", "$all"):
            want(value[0] == ARRAY)
        elif name == "$exists":
            want(value[0] == BOOLEAN)
        elif name == "$size":
            want(is_number(value))
        elif name == "$not":
            want(is_operators(value))
            check_operators(value[1])
        elif name == "$elemMatch":
            want(value[0] == DOCUMENT)
            is_query = not is_operators(value)
            check_filter(value[1]) if is_query else check_operators(value[1])
        else:
            want(name in ("$eq", "$ne") or name in COMPARISONS)


def is_equal(candidates, is_gap, value):
    return any(are_equal(item, value) for item in candidates) or value[0] == NULL and is_gap


def is_compared(candidates, is_gap, name, value):
    if value[0] == NULL and is_gap and name in ("$gte", "$lte"):
        return True
    is_end = value[0] in (MIN_KEY, MAX_KEY)
    fitting = [item for item in candidates if is_end or CLASSES[item[0]] == CLASSES[value[0]]]
    return any(COMPARISONS[name](order_of(item), order_of(value)) for item in fitting)


def is_element(item, value):
    """Whether an element of an array meets the operand of `$elemMatch`."""
    if is_operators(value):
        return holds_all([item], [item], False, value[1])
    return item[0] == DOCUMENT and holds(value[1], item[1])


def holds_one(values, candidates, is_gap, name, value):
    if name in ("$eq", "$ne"):
        return is_equal(candidates, is_gap, value) == (name == "$eq")
    if name in ("$in", "$nin"):
        return any(is_equal(candidates, is_gap, item) for item in value[1]) == (name == "$in")
    if name == "$all":
        return bool(value[1]) and all(is_equal(candidates, is_gap, item) for item in value[1])
    if name == "$exists":
        return bool(values) == value[1]
    if name == "$size":
        return any(item[0] == ARRAY and len(item[1]) == value[1] for item in values)
    if name == "$not":
        return not holds_all(values, candidates, is_gap, value[1])
    if name == "$elemMatch":
        return any(is_element(item, value) for array in values if array[0] == ARRAY for item in array[1])
    return is_compared(candidates, is_gap, name, value)


def holds_all(values, candidates, is_gap, operators):
    return all(holds_one(values, candidates, is_gap, name, value) for name, value in operators)


def holds(query, fields):
    """Whether the filter holds of the document."""
    return all(holds_field(name, value, fields) for name, value in query)


def holds_field(name, value, fields):
    if name in CONNECTIVES:
        found = [holds(item[1], fields) for item in value[1]]
        return all(found) if name == "$and" else any(found) == (name == "$or")
    values, is_gap = reached((DOCUMENT, fields), path_of(name))
    candidates = list(values)
    for item in values:
        if item[0] == ARRAY:
            candidates += item[1]
    return holds_all(values, candidates, is_gap, value[1] if is_operators(value) else [("$eq", value)])


def equalities(query):
    """The equalities at the top, in order."""
    found = []
    for name, value in query:
        if name in CONNECTIVES:
            continue
        if not is_operators(value):
            found.append((name, value))
        else:
            found += [(name, operand) for operator, operand in value[1] if operator == "$eq"]
    return found


def key_value(query):
    """The value of the first equality on `_id`, or None."""
    for name, value in equalities(query):
        if name == "_id":
            return value
    return None


def begins(query):
    """Whether an upsert may begin with the filter."""
    for name, value in query:
        if name in CONNECTIVES or "." in name:
            return False
        if is_operators(value) and not all(begins_inside(operator, operand) for operator, operand in value[1]):
            return False
    return True


def begins_inside(operator, operand):
    if operator == "$not":
        return all(begins_inside(*pair) for pair in operand[1])
    if operator != "$elemMatch":
        return True
    return all(begins_inside(*pair) for pair in operand[1]) if is_operators(operand) else begins(operand[1])
