"""Random types with labels, of which most can be read, with random rows and bytes of them.

A type is a list of fields of label_types.py. It is put together from small groups of fields, as a length and the string
after it; now and then a field is moved or left out, so that what made the type readable breaks. label_search.py and
random_rows.py stand on it.
"""
import random

import top  # noqa: F401
from model.faults import Refused
from model.label_types import (Align, Array, Fill, Format, Label, Number, Points, Switch, Text, at, at_row, bits_at,
                               byte_at, fact, key, long_at, num, number, row_of, rows_of, text, word_at, words_in)
from model.label_wrong import WRONG
from model.labels import Laid, bytes_of, check, takes

PICK = random.choice


def chance(part):
    return random.random() < part


class Maker:
    """Makes bodies; the names of labels and arrays count up.

    Beside them stand the names of the arrays around, and the labels in the rows of arrays that have ended, each with
    the name of its array.
    """

    def __init__(self):
        self.labels = self.arrays = 0
        self.around, self.ended_rows = [], []

    def label(self):
        self.labels += 1
        return PICK(["l", "Label", "END_", "_x"]) + str(self.labels)

    def array(self):
        self.arrays += 1
        return PICK(["a", "Rows"]) + str(self.arrays)

    # Expressions.

    def side(self, passed):
        """What is known: a number, a place, a fact, or bits."""
        kind = PICK(["number"] * 5 + ["place", "place", "bits", "fact"])
        if kind in ("place", "number") and self.around and chance(0.15):
            return row_of(PICK(self.around))
        if kind == "place" and self.ended_rows and chance(0.5):
            return PICK([self.in_row(passed), self.in_row(passed) / 8])
        if kind == "place" and passed:
            return PICK([at(PICK(passed)), at(PICK(passed)) / 8])
        if kind == "bits" and passed:
            name = PICK(passed)
            start, width = number(PICK([0, 1, 3, -1, -3, -8])), number(PICK([1, 2, 3, 8, 9, 31, 32, 33, 0]))
            return PICK([byte_at(name), word_at(name), long_at(name) & 7, bits_at(name, start, width)])
        return fact("ID") if kind == "fact" else number(PICK([0, 1, 1, 2, 2, 3, 4, 5, 7, 8, 8, 9, 16]))

    def in_row(self, passed):
        """The place of a label in a row of an array that has ended."""
        label, array = PICK(self.ended_rows)
        indexes = [number(each) for each in (1, 1, 1, 2, 2, 3, 0, -1)] + [row_of(each) for each in self.around * 3]
        indexes += [rows_of(array)] * 2 + [rows_of(array) - 1] if array else []
        indexes += [bits_at(PICK(passed), number(6), number(2))] if passed else []
        return at_row(label, PICK(indexes))

    def over(self, one, passed, steps):
        """An expression over one unknown."""
        for _ in range(steps):
            side, shift = self.side(passed), number(PICK([0, 1, 2, 3, 3, 31, 32]))
            one = PICK([one + side, one - side, side + one, side - one, one * side, side * one, one / side, one / side, -one,
                        one << shift, one >> shift] + ([one % side, one & side, side / one, ~one] if chance(0.1) else []))
        return one

    def length(self, end, start, passed):
        """What a number says of an end: mostly how far it is after a start."""
        if chance(0.6):
            one = PICK([(at(end) - at(start)) / 8, (at(end) - at(start)) / 8, at(end) - at(start), (at(end) - at(start)) >> 3,
                        (at(end) - at(start)) / 16, at(start) - at(end), 8 * at(end) / 64 - at(start) / 8,
                        (at(end) - at(start)) / 8 * 3])
            return self.over(one, passed, PICK([0, 0, 0, 1]))
        return self.over(PICK([at(end), at(end) / 8, at(end) / 8]), passed, PICK([0, 1, 1, 2]))

    # Fields.

    def form(self):
        return PICK(["byte", "byte", "byte", "integer", "integer", "longint", "char", "boolean",
                     "bitstring[%d]" % PICK([1, 2, 3, 4, 5, 7, 8, 9, 13, 16, 24, 31, 32])])

    def small(self):
        return PICK(["byte", "byte", "byte", "integer", "bitstring[%d]" % PICK([4, 5, 7, 8, 8, 8])])

    def plain(self):
        """A field without names."""
        kind = PICK(["number"] * 4 + ["fixed", "text", "text", "open", "points", "fill", "align"])
        if kind == "number":
            form = PICK(["byte", "byte", "boolean", "bitstring[3]", "integer", "char"])
            return num(form, says=PICK(["", "", "hex ", "unsigned "]))
        if kind == "fixed":
            return num(PICK(["byte", "byte", "bitstring[5]"]), PICK([0, 1, 7, -1]))
        if kind == "text":
            form = PICK(["string", "pstring", "wstring", "cstring"])
            return text(form, random.randrange(form == "cstring", 4), PICK([None, None, b"q", ["Version"]]), PICK(["", "hex "]))
        if kind == "open":
            fixed = PICK([None, None, None, None, b"q", b"", ["Name"]])
            return text(PICK(["pstring", "pstring", "cstring", "wstring"]), None, fixed, PICK(["", "hex "]))
        if kind == "points":
            return Points(2, PICK([None, [number(1), number(-1)]]))
        if kind == "fill":
            return Fill(PICK(["bit", "bit", "nibble", "byte"]), PICK([None, 0, 1, 3]))
        return Align(PICK(["nibble", "byte", "byte", "word", "long"]))

    def between(self, part=0.5):
        """A few fields of fixed width, and seldom others."""
        out = []
        while chance(part):
            out.append(PICK([num("byte"), num("byte", 7), num("bitstring[3]"), Fill("bit", 1), Fill("byte", None),
                             text("string", 1), Points(2), Align("byte"), Array(None, 2, [num("byte")]), self.plain()]))
        return out

    def open(self, depth, passed):
        """A string or an array that has no end by itself."""
        if chance(0.5) or depth == 0:
            return text("string", None, None if chance(0.9) else b"xy", PICK(["", "hex "]))
        return self.rows(PICK([None, None, self.array()]), None, depth - 1, passed)

    def rows(self, name, count, depth, passed):
        """An array; after it the labels of its rows can be named."""
        before = len(self.ended_rows)
        self.around += [name] * bool(name)
        out = Array(name, count, self.row(depth, passed))
        del self.around[len(self.around) - bool(name):], self.ended_rows[before:]
        self.ended_rows += [(field.name, name) for field in out.row if isinstance(field, Label)]
        return out

    def row(self, depth, passed):
        out = self.between(0.3)
        if chance(0.4):
            passed = passed + [self.label()]
            out.insert(random.randrange(len(out) + 1), Label(passed[-1]))
        if chance(0.2):
            out += PICK([self.ended, self.ended, self.near, self.sized])(0, passed)
        if (passed or self.around) and chance(0.4):
            out.append(num(self.small(), self.known(passed)))
        if depth and chance(0.2):
            out += self.counted(depth, passed)
        out.append(PICK([num("byte"), num("byte"), text("pstring"), num("bitstring[3]"), num("integer")]))
        return out + [Label(self.label())] * chance(0.15)

    def known(self, passed):
        pools = [at(each) / 8 for each in passed] + [row_of(each) for each in self.around]
        pools += [self.in_row(passed) / 8 for _ in range(3)] if self.ended_rows else []
        return self.over(PICK(pools), passed, PICK([0, 0, 1]))

    # Groups of fields.

    def ended(self, depth, passed):
        """A number that says where an open field ends."""
        end, start = self.label(), self.label()
        origin = start if chance(0.8) or not passed else PICK(passed)
        says = num(self.small() if chance(0.7) else self.form(), self.length(end, origin, passed))
        if chance(0.08):
            says = Points(2, [says.fixed, PICK([says.fixed, self.length(end, start, passed), number(3)])])
        again = [num("byte", self.length(end, start, passed))] if chance(0.12) else []
        return ([says] + self.between(0.2) + again + [Label(start)] + self.between(0.2) + [self.open(depth, passed + [start])]
                + self.between(0.25) + [Label(end)])

    def near(self, depth, passed):
        """A number that names a label a few fields after it."""
        name = self.label()
        return [num(self.form(), self.length(name, PICK(passed + [name]), passed))] + self.between(0.6) + [Label(name)]

    def counted(self, depth, passed):
        name = self.array()
        one = self.over(rows_of(name), passed, PICK([0, 0, 1, 2]))
        between = self.between(0.2)
        out = [num(self.small(), one)] + between + [self.rows(name, None, max(depth - 1, 0), passed)]
        if self.ended_rows and chance(0.6):
            out.append(num(self.small(), self.in_row(passed) / PICK([1, 8, 8, 8])))
        if self.ended_rows and chance(0.03):
            out.insert(0, num(self.small(), self.in_row(passed)))
        return out

    def sized(self, depth, passed):
        """A number, and a size or a number that reads it."""
        name = self.label()
        size = PICK([byte_at(name) & 3, bits_at(name, number(PICK([6, 5, 4, 7])), number(PICK([1, 2, 3]))), byte_at(name)])
        form = PICK(["string", "pstring", "cstring", "wstring"])
        reads = PICK([text(form, size), text(form, size + 1), num("byte", size), num("integer", word_at(name))])
        return [Label(name), num(PICK(["byte", "byte", "integer", "bitstring[9]"]))] + self.between(0.3) + [reads]

    def named(self, depth, passed):
        """A known name in a number, a size, a point or a format."""
        if not (passed or self.ended_rows or self.around):
            return []
        one = self.known(passed)
        counts = any(kind == "rows" for kind, _ in words_in(one.tree))  # they stand in no size
        return [PICK([num(self.form(), one), Points(2, [one, self.known(passed)]), text("string", number(2) if counts else one & 3),
                      text("pstring", None, [Format(b"%d", [one])]), text("string", 2, [Format(b"%x", [one])])])]

    def switch(self, depth, passed):
        first = PICK([[], [], [num("byte")], [num("boolean"), Fill("bit", 2)]])
        values = random.sample(range(8), PICK([1, 2]))
        before, cases = len(self.ended_rows), []
        for name, value in zip(["One", "two"], values):
            cases.append((name, first + [key("bitstring[4]", value)] + self.body(depth - 1, passed, 1)))
            del self.ended_rows[before:]
        return [Switch(cases)]

    def stated(self, depth, passed):
        return [self.rows(None, random.randrange(3), depth - 1, passed)]

    def body(self, depth, passed, most):
        out = []
        for _ in range(random.randrange(1, most + 1)):
            group = PICK([self.ended] * 6 + [self.near] * 3 + [self.counted, self.sized, self.sized,
                self.named] + [self.switch, self.stated] * (depth > 0))
            out += [Label(self.label())] * chance(0.3) + [self.plain()] * chance(0.4)
            out += group(depth, passed + [each.name for each in out if isinstance(each, Label)])
        return out + [PICK([self.plain(), Label(self.label())])] * chance(0.4)


def broken(body):
    """Now and then a field is left out or moved."""
    out = list(body)
    if chance(0.15) and out:
        del out[random.randrange(len(out))]
    if chance(0.15) and out:
        one = out.pop(random.randrange(len(out)))
        out.insert(random.randrange(len(out) + 1), one)
    return out


def some_type(depth=1, most=2):
    """A type that keeps the rules."""
    while True:
        maker = Maker()
        body = maker.body(depth, [], most)
        if chance(0.2):
            body += PICK([[text("string")], [text("string"), num("byte")], [maker.rows(None, None, 0, [])],
                          [text("string"), Label(maker.label())]])
        body = broken(body)
        try:
            check(body)
            return body
        except (Refused, AttributeError):
            pass


SHORT = [b"", b"", b"a", b"bc", b"\0", b"\0\xFF", b"def"]
LONG = SHORT + [b"\"'\\b\xE9" * 3, b"q" * 16, b"q" * 17, b"x'\0\\" * 16, b"z\"" * 33, b"\n" * 130]


def some_row(body, texts=SHORT):
    """A row of small values, of which some are negative where the type has such."""
    out = []
    for field in body:
        if not takes(field):
            continue
        if isinstance(field, Number):
            given = [0, 1, 2, 3, 5, 255, random.randrange(2 ** field.width)] + [value for _, value in field.symbols]
            low = [] if field.form in ("char", "boolean") else [-(2 ** (field.width - 1))]
            out.append(PICK([value % 2 ** field.width for value in given] + low))
        elif isinstance(field, Text):
            out.append(PICK(texts))
        elif isinstance(field, Points):
            out.append(tuple(PICK([0, 1, -1, 300, 65535]) for _ in range(field.count)))
        elif isinstance(field, Array):
            count = field.count if field.count is not None else PICK([0, 1, 1, 2, 2, 3])
            out.append([some_row(field.row, texts) for _ in range(count)])
        else:
            name, row = PICK(field.cases)
            out.append((name, some_row(row, texts)))
    return out


def changed(data):
    """Bytes that are near to those of a row."""
    data, kind = bytearray(data), random.random()
    if kind < 0.5 and data:
        k = random.randrange(len(data))
        data[k] = PICK([0, 1, 255, data[k] ^ 1 << random.randrange(8), (data[k] + 1) % 256, (data[k] - 1) % 256])
    elif kind < 0.7:
        data = data[:random.randrange(len(data) + 1)]
    elif kind < 0.9:
        data += bytes([PICK([0, 0, 1])])
    else:
        k = random.randrange(len(data) + 1)
        data[k:k] = bytes([PICK([0, 1, 255])])
    return bytes(data)


def row_bytes(body, facts, texts=SHORT):
    """The bytes of some row, now and then by a compiler that is wrong; after some rows that have none, any bytes."""
    lays = PICK(WRONG) if chance(0.15) else Laid
    for _ in range(4):
        try:
            return bytes_of(body, some_row(body, texts), facts, lays)
        except (Refused, IndexError):
            pass
    return bytes(random.randrange(256) for _ in range(random.randrange(9)))


def some_bytes(body, rows, most, facts):
    """Bytes of some rows, and others near to them."""
    out = []
    for _ in range(rows):
        data = row_bytes(body, facts)
        out += [data] + [changed(data) for _ in range(2)]
    return [data for data in out if len(data) <= most]
