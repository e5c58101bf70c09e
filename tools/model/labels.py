"""Types with labels, and the bytes of their rows: a second, plain reading of docs/LANGUAGE.md.

It knows nothing of the code, and reads no source: a type is a list of fields, and its text is written from it. A row is
laid in two passes over a list of bits, and `is_spelled` looks at the bits that came out in another way: with the places
of all labels at hand, each number has to be what its expression says. label_cases.py and random_labels.py stand on it.

A row is a list with a value for each field that takes an item: a number, bytes, a tuple of numbers for a point or a
rectangle, a list of rows, or a pair of the name of a case and a row.
"""
from model.faults import Refused
from model.label_types import (Align, Array, Expr, Fill, Format, Label, Number, Points, Switch, Text, UNITS, in_row,
                               value_of, words_in)

MOST = 16777212 * 8


class Late(Exception):
    """Bits of a late number are read."""


# Rules.

def takes(field):
    return isinstance(field, (Array, Switch)) or (isinstance(field, (Number, Text, Points)) and field.fixed is None)


def constant(expr):
    """The value of an expression without names and functions, or None."""
    try:
        return value_of(expr.tree, None)
    except (AttributeError, Refused):
        return None


def width_of(field):
    """The width of a field that has one by itself, or None."""
    if isinstance(field, Label):
        return 0
    if isinstance(field, Number):
        return field.width
    if isinstance(field, Points):
        return 16 * field.count
    if isinstance(field, Fill):
        return UNITS[field.unit] * (1 if field.count is None else field.count)
    if isinstance(field, Text):
        size = None if field.size is None else constant(field.size)
        return None if size is None else 8 * (size + {"pstring": 1, "wstring": 2}.get(field.form, 0))
    if isinstance(field, Array) and field.count is not None:
        widths = [width_of(each) for each in field.row]
        return None if None in widths else field.count * sum(widths)
    return None


def may_be_size(form, size):
    return size >= (form == "cstring") and size <= {"pstring": 255, "wstring": 65535}.get(form, size)


def formats_in(parts):
    """The expressions in the formats of parts, in their order."""
    for part in parts or []:
        if isinstance(part, Format):
            for each in part.arguments:
                if isinstance(each, Expr):
                    yield each
                else:
                    yield from formats_in(each)


def expressions(field):
    if isinstance(field, Number):
        return [field.fixed] if field.fixed else []
    if isinstance(field, Text):
        return ([field.size] if field.size else []) + list(formats_in(field.fixed))
    return list(field.fixed or []) if isinstance(field, Points) else []


def inner(field):
    return [field.row] if isinstance(field, Array) else [row for _, row in field.cases] if isinstance(field, Switch) else []


def own_names(body, kind):
    return {field.name.lower() for field in body if isinstance(field, kind) and field.name}


def row_labels(body):
    """The labels that stand directly in the rows of the arrays of a body."""
    return {name for field in body if isinstance(field, Array) for name in own_names(field.row, Label)}


def check(body):
    """The first broken rule of a type as a fault, or nothing; those on keys but their distance are not looked at."""
    seen, count = {Label: set(), Array: set()}, [0]

    def walk(fields, later):
        for field in fields:
            position = count[0]
            count[0] += 1
            if isinstance(field, (Label, Array)) and field.name:
                if field.name.lower() in seen[type(field)]:
                    raise Refused(230 if isinstance(field, Label) else 231, '"%s"' % field.name)
                seen[type(field)].add(field.name.lower())
            if isinstance(field, Array) and not any(takes(each) for each in field.row):
                raise Refused(237, position)
            if isinstance(field, Text) and field.size and constant(field.size) is not None and not may_be_size(field.form,
                constant(field.size)):
                raise Refused(238, constant(field.size))
            before = None
            for place, row in enumerate(inner(field)):
                walk(row, later)
                if isinstance(field, Switch):
                    distance = [width_of(each) for each in row[:next(k for k,
                        each in enumerate(row) if isinstance(each, Number) and each.key)]]
                    if None in distance or (place and sum(distance) != before):
                        raise Refused(235, '"%s"' % field.cases[place][0])
                    before = sum(distance)

    def named(fields, around):
        can = {"label": around["label"] | own_names(fields, Label), "rows": around["rows"] | own_names(fields, Array),
               "index": around["index"] | row_labels(fields), "row": around["row"]}
        can["name"] = can["label"] | {"true", "false"}
        for field in fields:
            for kind, name in [each for expr in expressions(field) for each in words_in(expr.tree)]:
                if name.lower() not in can[kind]:
                    raise Refused(212, '"%s"' % name)
            entered = {field.name.lower()} if isinstance(field, Array) and field.name else set()
            for row in inner(field):
                named(row, dict(can, row=can["row"] | entered))

    walk(body, None)
    named(body, dict.fromkeys(("label", "rows", "index", "row"), set()))


# Bytes.

class Names:
    """The labels and arrays of a body as far as they are known, and those around it; of a row also its array and its number.

    Of a label in the rows of an array of the body stand the names of the rows, from the array's end on.
    """

    def __init__(self, body, row, outer, array=None, number=None):
        self.labels = {field.name.lower(): None for field in body if isinstance(field, Label)}
        values = iter(row)
        paired = [(field, next(values) if takes(field) else None) for field in body]
        self.arrays = {field.name.lower(): len(value) for field, value in paired if isinstance(field, Array) and field.name}
        self.lines = {name: None for name in row_labels(body)}
        self.array, self.number = array and array.lower(), number
        self.outer = outer

    def label(self, name):
        """The scope that has the label, or None."""
        found = self
        while found and name.lower() not in found.labels:
            found = found.outer
        return found

    def lines_of(self, name):
        """The scope that has the array whose rows have the label, or None."""
        found = self
        while found and name.lower() not in found.lines:
            found = found.outer
        return found

    def ended(self, array, lines):
        """An array has ended, and these are the names of its rows."""
        for name in own_names(array.row, Label):
            self.lines[name] = lines

    def is_later(self, kind, name):
        """A name stands after what asks for it."""
        if kind in ("rows", "row"):
            return False
        if kind == "index":
            return self.lines_of(name).lines[name.lower()] is None
        found = self.label(name)
        return bool(found) and found.labels[name.lower()] is None


class Sight:
    """What an expression sees: names, and the bits before its field; with marks, which of them are late."""

    def __init__(self, names, all_bits, end, marks, facts):
        self.names, self.all_bits, self.end, self.marks, self.facts = names, all_bits, end, marks, facts

    def name(self, name):
        found = self.names.label(name)
        return found.labels[name.lower()] if found else {"true": 1, "false": 0}[name.lower()]

    def rows(self, name):
        found = self.names
        while name.lower() not in found.arrays:
            found = found.outer
        return found.arrays[name.lower()]

    def places(self, name):
        """The places of a label in the rows of its array."""
        return [line.labels[name.lower()] for line in self.names.lines_of(name).lines[name.lower()]]

    def place_in(self, name, index):
        return in_row(self.places(name), index)

    def row(self, name):
        found = self.names
        while found.array != name.lower():
            found = found.outer
        return found.number

    def bits(self, first, width):
        if first < 0 or first + width > self.end:
            raise Refused(213, first + width)
        if self.marks and any(self.marks[first:first + width]):
            raise Late()
        return int("".join(map(str, self.all_bits[first:first + width])), 2)


def in_range(field, value):
    if field.form in ("longint", "bitstring[32]"):
        return True
    low = 0 if field.form in ("boolean", "char") else -2 ** (field.width - 1)
    return low <= value < 2 ** field.width


def number_bits(value, width):
    return [value >> (width - 1 - k) & 1 for k in range(width)]


def bytes_bits(data):
    return [bit for byte_ in data for bit in number_bits(byte_, 8)]


def formatted(format_, values):
    """The bytes of a format by the values of its expressions, which are taken from an iterator; None for a bad one."""
    given = [next(values) if isinstance(each, Expr) else joined(each, values) for each in format_.arguments]
    out, rest = b"", format_.text
    while rest:
        letter, rest = rest[:1], rest[1:]
        if letter != b"%":
            out += letter
            continue
        letter, rest = rest[:1], rest[1:]
        if letter == b"%":
            out += b"%"
            continue
        if not given or letter not in (b"d", b"u", b"x", b"o", b"c", b"s"):
            return None
        value = given.pop(0)
        if value is None or isinstance(value, bytes) != (letter == b"s") or (letter == b"c" and not 0 <= value <= 255):
            return None
        out += (value if letter == b"s" else bytes([value]) if letter == b"c" else b"%d" % value if letter == b"d"
                else {b"u": b"%d", b"x": b"%x", b"o": b"%o"}[letter] % (value % 2 ** 32))
    return None if given else out


def joined(parts, values, facts=None):
    out = [part if isinstance(part, bytes) else (facts or {}).get(part) if isinstance(part, str) else formatted(part,
        values) for part in parts]
    return None if None in out else b"".join(out)


def stored(form, size, data):
    """The stored form of bytes; 216 if they are too long for one without a size."""
    if size is None:
        most = {"pstring": 255, "wstring": 65535}.get(form, len(data))
        if len(data) > most:
            raise Refused(216, len(data))
        kept, shown = data, data
    elif form == "cstring":
        kept, shown = data[:size - 1], data[:size - 1].ljust(size, b"\0")
    else:
        kept, shown = data[:size], data[:size].ljust(size, b"\0")
    head = {"pstring": 1, "wstring": 2}.get(form, 0)
    return (len(kept).to_bytes(head, "big") if head else b"") + shown + b"\0" * (form == "cstring" and size is None)


class Laid:
    """A row that is laid: bits, marks of late ones, and the late numbers with their places and what they see."""

    sees = Sight

    def __init__(self, facts):
        self.facts, self.bits, self.marks, self.late, self.piece = facts, [], [], [], 0

    def push(self, bits, late=False):
        if len(self.bits) + len(bits) > MOST:
            raise Refused(301, (len(self.bits) + len(bits) + 7) // 8)
        self.bits += bits
        self.marks += [late] * len(bits)
        self.piece += 1

    def sight(self, names):
        return self.sees(names, self.bits, len(self.bits), self.marks, self.facts)

    def fixed(self, field, expr, names):
        late = any(names.is_later(*word) for word in words_in(expr.tree))
        if not late:
            try:
                value = value_of(expr.tree, self.sight(names))
            except Late:
                late = True
        if late:
            self.late.append((field, expr, names, len(self.bits)))
            self.push([0] * field.width, True)
        elif not in_range(field, value):
            raise Refused(207, value)
        else:
            self.push(number_bits(value, field.width))

    def early(self, expr, names):
        try:
            return value_of(expr.tree, self.sight(names))
        except Late:
            raise Refused(214, self.piece) from None

    def string(self, field, value, names):
        every = expressions(field)
        if any(names.is_later(*word) for expr in every for word in words_in(expr.tree)):
            raise Refused(214, self.piece)
        size = None if field.size is None else self.early(field.size, names)
        if field.fixed is not None:
            values = [self.early(expr, names) for expr in formats_in(field.fixed)]
            value = joined(field.fixed, iter(values), self.facts)
            if value is None:
                raise Refused(222)
        if size is not None and not may_be_size(field.form, size):
            raise Refused(207, size)
        if size is not None and size * 8 + len(self.bits) > MOST:
            raise Refused(301, (len(self.bits) + 8 * (size + {"pstring": 1, "wstring": 2}.get(field.form, 0)) + 7) // 8)
        self.push(bytes_bits(stored(field.form, size, value)))

    def body(self, fields, row, outer, array=None, number=None):
        names, values = Names(fields, row, outer, array, number), iter(row)
        for field in fields:
            self.field(field, next(values) if takes(field) else None, names)
        return names

    def field(self, field, value, names):
        if isinstance(field, Label):
            names.labels[field.name.lower()] = len(self.bits)
            self.push([])
        elif isinstance(field, Number):
            if field.fixed:
                self.fixed(field, field.fixed, names)
            else:
                self.push(number_bits(value, field.width))
        elif isinstance(field, Text):
            self.string(field, value, names)
        elif isinstance(field, Points):
            for k in range(field.count):
                if field.fixed:
                    self.fixed(Number("integer", 16), field.fixed[k], names)
                else:
                    self.push(number_bits(value[k], 16))
        elif isinstance(field, Fill):
            self.push([0] * width_of(field))
        elif isinstance(field, Align):
            self.push([0] * (-len(self.bits) % UNITS[field.unit]))
        elif isinstance(field, Array):
            labels, lines = own_names(field.row, Label), []
            for k, row in enumerate(value):
                line = self.body(field.row, row, names, field.name, k + 1)
                lines += [line] * bool(labels)
            names.ended(field, lines)
        else:
            self.body(dict(field.cases)[value[0]], value[1], names)

    def fill_in(self):
        """The late numbers in their order, each seen with all labels and the bits before it."""
        for field, expr, names, place in self.late:
            value = value_of(expr.tree, self.sees(names, self.bits, place, None, self.facts))
            if not in_range(field, value):
                raise Refused(207, value)
            self.bits[place:place + field.width] = number_bits(value, field.width)


def packed(bits):
    bits = bits + [0] * (-len(bits) % 8)
    return bytes(int("".join(map(str, bits[k:k + 8])), 2) for k in range(0, len(bits), 8))


FACTS = {"ID": 1, "Type": int.from_bytes(b"Test", "big"), "Attributes": 0, "Name": b"", "Version": b"V1.0"}


def bytes_of(body, row, facts=FACTS, lays=Laid):
    """The bytes of a row, or its refusal."""
    laid = lays(facts)
    laid.body(body, row, None)
    laid.fill_in()
    return packed(laid.bits)
