#!/usr/bin/env python3
"""Answers lines of parameters from an image: a second reader, written from docs/FORMAT.md alone.

    examples/read_image.py IMAGE < questions > replies

It prints what `castor ask IMAGE` prints. It isn't proved, and it takes for granted that the file is an image.
"""
import operator
import re
import sys
from itertools import product

INT, BOOL, TEXT, CROSS, CONCAT, LIST, HASH, ORD, SELECT, FILTER, DEP, GROUP, ORDER, DEDUP = range(1, 15)
COLUMN, SCOPE, PARAM, INT_LITERAL, BOOL_LITERAL, TEXT_LITERAL, OPERATOR, NOT, IF = range(32, 41)
COUNT, SUM, MIN, MAX = range(4)
KINDS = ("division", "overflow", "norows")


class Fault(Exception):
    """The kinds of faults that an expression or an aggregate met."""

    def __init__(self, kinds):
        super().__init__(kinds)
        self.kinds = set(kinds)


class Bytes:
    """Bytes that are read from the front. Numbers stand with their least byte first."""

    def __init__(self, text):
        self.text, self.at = text, 0

    def take(self, count):
        self.at += count
        return self.text[self.at - count:self.at]

    def number(self, width, signed=False):
        return int.from_bytes(self.take(width), "little", signed=signed)

    def field(self, lo, hi):
        return lo + self.number(((hi - lo).bit_length() + 7) // 8)

    def several(self, width, read):
        return [read() for _ in range(self.number(width))]


# Codes and expressions: a tuple each, the tag first.

def expression(it):
    tag = it.number(1)
    if tag == INT_LITERAL:
        return tag, it.number(8, signed=True)
    if tag == BOOL_LITERAL:
        return tag, it.number(1) == 1
    if tag == TEXT_LITERAL:
        return tag, it.take(it.number(2))
    if tag in (COLUMN, PARAM):
        return tag, it.number(4)
    if tag == SCOPE:
        return tag, it.number(4), it.number(4)
    if tag == OPERATOR:
        return tag, it.number(1), expression(it), expression(it)
    return (tag, *(expression(it) for _ in range(1 if tag == NOT else 3)))


def bound(it):
    kind = it.number(1)
    return (kind, expression(it)) if kind else (kind,)


def aggregate(it):
    kind = it.number(1)
    return (kind,) if kind == COUNT else (kind, it.number(4))


def code(it):
    tag = it.number(1)
    if tag == INT:
        return tag, it.number(8, signed=True), it.number(8, signed=True)
    if tag == BOOL:
        return (tag,)
    if tag == TEXT:
        return tag, it.number(2), it.number(2)
    if tag in (CROSS, CONCAT):
        return tag, it.several(2, lambda: code(it))
    if tag in (LIST, HASH, ORD):
        ranges = [it.number(8) for _ in range(4)]
        keys = [] if tag == LIST else it.several(1, lambda: code(it)) if tag == HASH else [code(it)]
        kid = code(it)
        by = [expression(it) for _ in keys] if tag == HASH else [bound(it), bound(it)] if tag == ORD else []
        return tag, ranges, keys, kid, by
    if tag == DEP:
        return tag, it.number(4), code(it), code(it)
    if tag == GROUP:
        keys = it.several(2, lambda: it.number(4))
        return tag, keys, it.several(2, lambda: aggregate(it)), code(it)
    if tag == DEDUP:
        return tag, code(it)
    if tag == SELECT:
        return tag, it.several(2, lambda: expression(it)), code(it)
    if tag == FILTER:
        return tag, expression(it), code(it)
    return tag, it.several(2, lambda: (it.number(4), it.number(1) == 1)), code(it)


# Data: a value of Int, Bool and Text, a list of children, or a list of pairs of a key and a child. A node with one kid
# has that kid's data.

def data(c, it):
    tag = c[0]
    if tag == INT:
        return it.field(c[1], c[2])
    if tag == BOOL:
        return it.number(1) == 1
    if tag == TEXT:
        return it.take(it.field(c[1], c[2]))
    if tag in (CROSS, CONCAT):
        return [data(kid, it) for kid in c[1]]
    if tag == DEP:
        return [data(c[2], it), data(c[3], it)]
    if tag not in (LIST, HASH, ORD):
        return data(c[-1], it)
    _, (least, greatest, least_body, greatest_body), keys, kid, _ = c
    count = it.field(least, greatest)
    it.field(least_body, greatest_body)
    if tag == LIST:
        return [data(kid, it) for _ in range(count)]
    offsets = count if tag == ORD else (1 << max(count - 1, 0).bit_length()) + 1
    for _ in range(offsets):
        it.field(0, greatest_body)
    return [([data(key, it) for key in keys], data(kid, it)) for _ in range(count)]


# Values and rows.

def as_int(number):
    if not -2**63 <= number < 2**63:
        raise Fault(["overflow"])
    return number


def quotient(a, b):
    if b == 0:
        raise Fault(["division"])
    return abs(a) // abs(b) if (a < 0) == (b < 0) else -(abs(a) // abs(b))


OPERATORS = (
    operator.or_, operator.and_, operator.eq, operator.ne, operator.lt, operator.le, operator.gt, operator.ge,
    lambda a, b: as_int(a + b), lambda a, b: as_int(a - b), lambda a, b: as_int(a * b),
    lambda a, b: as_int(quotient(a, b)), lambda a, b: a - b * quotient(a, b),
)


def all_of(calls):
    """Returns what each call returns, or raises the faults of all."""
    found, kinds = [], set()
    for call in calls:
        try:
            found.append(call())
        except Fault as it:
            kinds |= it.kinds
    if kinds:
        raise Fault(kinds)
    return found


def values(es, row, scopes, params):
    return all_of([lambda e=e: value(e, row, scopes, params) for e in es])


def value(e, row, scopes, params):
    tag = e[0]
    if tag == COLUMN:
        return row[e[1]]
    if tag == SCOPE:
        return scopes[e[1]][e[2]]
    if tag == PARAM:
        return params[e[1]]
    if tag == OPERATOR:
        return OPERATORS[e[1]](*values(e[2:], row, scopes, params))
    if tag == NOT:
        return not value(e[1], row, scopes, params)
    if tag == IF:
        return value(e[2] if value(e[1], row, scopes, params) else e[3], row, scopes, params)
    return e[1]


def aggregated(kind, column, group):
    if kind == COUNT:
        return min(len(group), 2**63 - 1)
    if kind == SUM:
        return as_int(sum(row[column] for row in group))
    if not group:
        raise Fault(["norows"])
    return (min if kind == MIN else max)(row[column] for row in group)


def each(items, of):
    """Returns the rows of all items one after the other, and the faults of all; an item that raises them has no row."""
    found, kinds = [], set()
    for item in items:
        try:
            rows, faults = of(item)
            found += rows
            kinds |= faults
        except Fault as it:
            kinds |= it.kinds
    return found, kinds


def within(key, limits):
    (lower, *least), (upper, *greatest) = limits
    return (lower == 0 or key > least[0] or lower == 1 and key == least[0]) and \
        (upper == 0 or key < greatest[0] or upper == 1 and key == greatest[0])


def looked_up(c, held, scopes, params):
    """Returns the children of an index that a question reads."""
    if c[0] == HASH:
        by = values(c[4], [], scopes, params)
        return [child for key, child in held if key == by]
    limits = all_of([lambda b=b: (b[0], *(value(e, [], scopes, params) for e in b[1:])) for b in c[4]])
    return [child for (key,), child in held if within(key, limits)]


def rows_of(c, held, scopes, params):
    """Returns the rows of a code over its data, and the kinds of the faults that it met."""
    tag = c[0]
    if tag in (INT, BOOL, TEXT):
        return [[held]], set()
    if tag == CROSS:
        kids = [rows_of(kid, part, scopes, params) for kid, part in zip(c[1], held)]
        return [sum(parts, []) for parts in product(*(rows for rows, _ in kids))], set().union(*(k for _, k in kids))
    if tag == CONCAT:
        return each(zip(c[1], held), lambda it: rows_of(*it, scopes, params))
    if tag in (LIST, HASH, ORD):
        try:
            children = held if tag == LIST else looked_up(c, held, scopes, params)
        except Fault as it:
            return [], it.kinds
        return each(children, lambda child: rows_of(c[3], child, scopes, params))
    if tag == DEP:
        rows, kinds = rows_of(c[2], held[0], scopes, params)
        found, more = each(rows, lambda row: rows_of(c[3], held[1], {**scopes, c[1]: row}, params))
        return found, kinds | more
    rows, kinds = rows_of(c[-1], held, scopes, params)
    found, more = over_kid(c, rows, scopes, params)
    return found, kinds | more


def over_kid(c, rows, scopes, params):
    """Returns what a node makes of its kid's rows, and the kinds of the faults that it met itself."""
    tag = c[0]
    if tag == SELECT:
        return each(rows, lambda row: ([values(c[1], row, scopes, params)], set()))
    if tag == FILTER:
        return each(rows, lambda row: ([row] if value(c[1], row, scopes, params) else [], set()))
    if tag == ORDER:
        for column, falls in reversed(c[1]):
            rows = sorted(rows, key=lambda row: row[column], reverse=falls)
        return rows, set()
    if tag == DEDUP:
        return [list(row) for row in dict.fromkeys(map(tuple, rows))], set()
    groups = {} if c[1] else {(): []}
    for row in rows:
        groups.setdefault(tuple(row[key] for key in c[1]), []).append(row)
    return each(groups.items(), lambda it: (
        [[*it[0], *all_of([lambda a=a: aggregated(a[0], a[-1], it[1]) for a in c[2]])]], set()))


# Questions and replies.

FIELD = re.compile(rb'"((?:[^"]|"")*)(?:"([^,\r]*)|\Z)|([^,\r]*)')


def records(line):
    """Cuts a line into records, each a list of fields."""
    found, at = [], 0
    while at < len(line):
        if line[at:at + 1] == b"\r":
            at += 1
            continue
        fields, is_ended = [], False
        while not is_ended:
            it = FIELD.match(line, at)
            quoted, behind, plain = it.groups()
            fields.append(plain if quoted is None else quoted.replace(b'""', b'"') + (behind or b""))
            at = it.end() + 1
            is_ended = line[it.end():at] != b","
        found.append(fields)
    return found


def parameter(kind, field):
    """Returns the value of a field, or raises ValueError where it isn't of the type."""
    digits = re.fullmatch(rb"([+-]?)0*([0-9]{1,19})", field)
    if kind == 0 and digits and -2**63 <= int(digits[1] + digits[2]) < 2**63:
        return int(digits[1] + digits[2])
    if kind == 1 and field in (b"true", b"false"):
        return field == b"true"
    if kind == 2 and len(field) <= 65535:
        return field.decode().encode()
    raise ValueError


def parameters(kinds, line):
    found = records(line.removeprefix(b"\xef\xbb\xbf"))
    fields = found[0] if found else []
    if len(found) != min(len(kinds), 1) or len(fields) != len(kinds):
        raise ValueError
    return [parameter(kind, field) for kind, field in zip(kinds, fields)]


def field_text(it):
    if isinstance(it, bytes):
        return b'"' + it.replace(b'"', b'""') + b'"' if re.search(rb'[,"\r\n]', it) else it
    return str(it).lower().encode()


def record(fields):
    return (b",".join(map(field_text, fields)) or b'""') + b"\n"


def reply(image, line):
    params, columns, root, held = image
    try:
        rows, faults = rows_of(root, held, {}, parameters([kind for kind, _ in params], line))
    except ValueError:
        return b"bad parameters\n"
    if faults:
        return f"fault {','.join(kind for kind in KINDS if kind in faults)}\n".encode()
    return b"rows %d\n" % len(rows) + b"".join(map(record, [[name for _, name in columns], *rows]))


def opened(text):
    """Returns the parameters, the columns, the code and the data of an image."""
    it = Bytes(text)
    if it.take(8) != b"CASTIMG1":
        sys.exit("read_image.py: not an image")
    params, columns = (it.several(1, lambda: (it.number(1), it.take(it.number(1)))) for _ in range(2))
    it.take(16)
    root = code(it)
    return params, columns, root, data(root, it)


def main():
    if len(sys.argv) != 2:
        sys.exit(__doc__)
    with open(sys.argv[1], "rb") as file:
        image = opened(file.read())
    for line in sys.stdin.buffer:
        sys.stdout.buffer.write(reply(image, line.removesuffix(b"\n")))


if __name__ == "__main__":
    main()
