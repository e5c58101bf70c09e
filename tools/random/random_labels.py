#!/usr/bin/env python3
"""Prints random cases of `rez` with types with labels, as tools/model/labels.py tells what comes.

    python3 tools/random/random_labels.py SEED COUNT > FOLDER/random.cases

Each case has one random declaration and one row of it, and the fork that `rez` makes, or the line on `err`. Of a row
that has bytes, tools/model/label_spelling.py must say that they are its own; else the script ends with status 1. This
is no part of the gate: the program can be tried against it for as long as one likes.
"""
import random
import sys

import top  # noqa: F401
from random_types import some_row
from runs import seeded
from model.case_lines import content
from model.faults import Refused
from model.fork import image
from model.label_spelling import is_spelled
from model.label_types import (Align, Array, Expr, Fill, Format, Label, Number, Points, Switch, Text, at, at_row,
                         bits_at, byte_at, fact, items_text, key, long_at, num, number, row_of, rows_of, type_text, word_at)
from model.labels import FACTS, bytes_of, check, row_labels

PICK = random.choice


class Declaration:
    """Random fields. The names of labels and arrays count up; expressions are filled in when all names are known."""

    def __init__(self):
        self.labels = self.arrays = 0

    def label(self):
        self.labels += 1
        name = PICK(["l", "Label", "END_", "_x"]) + str(self.labels)
        return Label("again" if random.random() < 0.004 else name)

    def body(self, depth):
        out = []
        for _ in range(random.randrange(1, 6)):
            out += [self.label() for _ in range(PICK([0, 0, 0, 1, 1, 2]))]
            out.append(self.field(depth))
        if random.random() < 0.5:
            out.append(self.label())
        return out

    def field(self, depth):
        kind = PICK(["number"] * 3 + ["fixed"] * 6 + ["text"] * 2 + ["sized"] * 2 + ["format", "points", "fill",
            "align"] + ["array", "array", "switch"] * (depth > 0))
        form = PICK(["byte", "byte", "integer", "longint", "longint", "char",
            "boolean"] + ["bitstring[%d]" % PICK([1, 2, 3, 4, 5, 7, 8, 9, 13, 16, 24, 31, 32])])
        if kind == "number":
            return num(form, says=PICK(["", "", "hex ", "unsigned "]))
        if kind == "fixed":
            return num(form)._replace(fixed=True)
        if kind in ("text", "sized", "format"):
            one = PICK(["string", "pstring", "wstring", "cstring"])
            size = True if kind == "sized" else number(random.randrange(one == "cstring", 5)) if random.random() < 0.4 else None
            fixed = True if kind == "format" else [b"xyz"[:random.randrange(4)]] if random.random() < 0.3 else None
            return Text(one, size, fixed, PICK(["", "", "hex "]))
        if kind == "points":
            return Points(PICK([2, 4]), PICK([None, True]))
        if kind == "fill":
            return Fill(PICK(["bit", "bit", "nibble", "byte", "word", "long"]), PICK([None, 0, 1, 2, 3]))
        if kind == "align":
            return Align(PICK(["nibble", "byte", "word", "long"]))
        if kind == "array":
            self.arrays += 1
            name = PICK([None, "a%d" % self.arrays, "a%d" % self.arrays])
            return Array(name, None if name else PICK([None, None, 0, 1, 2]),
                self.body(depth - 1) + [PICK([num("byte"), Text("pstring"), num("bitstring[3]")])])
        first = PICK([[], [num("byte")], [num("boolean"), Fill("bit", 2)]])
        return Switch([(name,
            [one for each in first for one in [self.label()] * (random.random() < 0.2) + [each]]
                        + [key("bitstring[4]", value)] + self.body(depth - 1)) for name, value in zip(["One",
                            "two"], random.sample(range(16), PICK([1, 2])))])


class Named:
    """The names that an expression may have: labels, arrays, labels in rows, and the arrays around."""

    def __init__(self, labels=(), arrays=(), lines=(), around=()):
        self.labels, self.arrays, self.lines, self.around = list(labels), list(arrays), list(lines), list(around)

    def entered(self, body, array=None):
        """These names and those of a body, which may be the rows of an array."""
        more = [self.labels + [field.name for field in body if isinstance(field, Label)],
                self.arrays + [field.name for field in body if isinstance(field, Array) and field.name],
                self.lines + sorted(row_labels(body)), self.around + [array] * bool(array)]
        if random.random() < 0.01:
            more[PICK([0, 1, 2, 3])].append(PICK(["nowhere"] + [name for names in more for name in names]))
        return Named(*more)

    def without_counts(self):
        return Named(self.labels, (), self.lines, self.around)


def some_case(name):
    return PICK([name, name, name.upper(), name.lower(), name.swapcase()])


def in_row(names, depth):
    """The place of a label in a row."""
    index = PICK([number(PICK([1, 1, 1, 2, 2, 3, 0, -1]))] * 4 + [row_of(some_case(each)) for each in names.around * 3]
        + [rows_of(some_case(each)) for each in names.arrays] + [term(names, depth - 1) & 3] * (depth > 0))
    return at_row(some_case(PICK(names.lines)), index)


def term(names, depth):
    """A random expression over these names."""
    labels, arrays = names.labels, names.arrays
    kind = PICK(["number", "place", "place", "width", "bits", "bits", "read", "read", "rows", "id"] + ["pair", "pair", "one",
        "fault"] * (depth > 0) + ["in row"] * 4 * bool(names.lines) + ["row"] * 2 * bool(names.around))
    if kind == "in row":
        return PICK([in_row(names, depth), in_row(names, depth) / 8])
    if kind == "row":
        return row_of(some_case(PICK(names.around)))
    if kind in ("place", "width", "bits", "read") and labels:
        label = some_case(PICK(labels))
        if kind == "place":
            return PICK([at(label), at(label) / 8])
        if kind == "width":
            return PICK([(at(label) - at(some_case(PICK(labels)))) / 8, at(label) - at(some_case(PICK(labels)))])
        if kind == "read":
            return PICK([byte_at, byte_at, word_at, long_at])(label)
        start = number(PICK([0, 0, 1, 3, 8, -8, -1, -16, random.randrange(-64,
            64)])) if random.random() < 0.8 or not depth else term(names, depth - 1)
        width = number(PICK([1, 2, 4, 8, 8, 16, 32, random.randrange(1, 33),
            random.randrange(-1, 35)])) if random.random() < 0.85 or not depth else term(names, depth - 1)
        return bits_at(label, start, width)
    if kind == "rows" and arrays:
        return rows_of(some_case(PICK(arrays)))
    if kind == "id":
        return fact("ID")
    if kind == "pair":
        sign = PICK(["+", "+", "-", "*", "/", "%", "&", "|", "^", "<<", ">>", "==", "<", "&&", "||", "!=", ">=", ">", "<="])
        return Expr(sign, term(names, depth - 1).tree, term(names, depth - 1).tree)
    if kind == "one":
        return Expr(PICK("-~!"), term(names, depth - 1).tree)
    if kind == "fault":
        return PICK([number(1) / 0, 1 << number(32), number(5) % 0]) if random.random() < 0.15 else term(names, depth - 1)
    return number(PICK([0, 1, 2, 7, 8, 9, 100, 255]))


def bounded(expr, most):
    return expr & most if random.random() < 0.85 else expr


def parts(names, depth):
    out = []
    for _ in range(PICK([1, 1, 2])):
        signs = [PICK(["%d", "%d", "%x", "%u", "%o", "%c", "%s", "%%"]) for _ in range(PICK([0, 1, 1, 2]))]
        given = [[b"q"] if sign == "%s" and (not depth or PICK([0, 1])) else parts(names, depth - 1) if sign == "%s"
                 else bounded(term(names, 1), 127) if sign == "%c" else term(names, 1) for sign in signs if sign != "%%"]
        if random.random() < 0.05:
            given = given[1:] if given and PICK([0, 1]) else given + [number(1)]
        out.append(PICK([b"", b"ab"]))
        out.append(Format("<".join(signs).encode(), given))
    return out


def filled(body, around, array=None):
    """The fields with their expressions."""
    names, out = around.entered(body, array), []
    for field in body:
        if isinstance(field, Number) and field.fixed is True:
            field = field._replace(fixed=bounded(term(names, 2), min(2 ** field.width, 2 ** 31) - 1))
        elif isinstance(field, Text):
            if field.size is True:
                field = field._replace(size=bounded(term(names.without_counts(), 2), PICK([3, 7])))
                if field.form == "cstring" and PICK([0, 1]):
                    field = field._replace(size=field.size + 1)
            if field.fixed is True:
                field = field._replace(fixed=parts(names, 1))
        elif isinstance(field, Points) and field.fixed:
            field = field._replace(fixed=[bounded(term(names, 1), 32767) for _ in range(field.count)])
        elif isinstance(field, Array):
            field = field._replace(row=filled(field.row, names, field.name))
        elif isinstance(field, Switch):
            field = Switch([(name, filled(row, names)) for name, row in field.cases])
        out.append(field)
    return out


TEXTS = [b"", b"a", b"bc", b"def", b"\0\xFF", b"longer text"]


def case(k):
    while True:
        body = filled(Declaration().body(2), Named())
        row = some_row(body, TEXTS)
        facts = dict(FACTS, ID=random.randrange(-3, 40))
        source = type_text(body) + "resource 'Test' (%d) { %s };\n" % (facts["ID"], items_text(row))
        line, given = 1, ["case random labels %d" % k, "words rez s.r -o x"] + content("file", "s.r", source)
        try:
            check(body)
            line = 2
            data = bytes_of(body, row, facts)
            if not is_spelled(body, row, facts, data):
                sys.exit("not spelled:\n" + source + data.hex())
            return given + ["status 0"] + content("leaves", "x", image([(b"Test", facts["ID"], b"", 0, data)])) + [""]
        except Refused as fault:
            if random.random() < 0.35:
                return given + ["status 2"] + content("err", "", "rezkit: s.r:%d: error %s\n" % (line, fault)) + [""]


def main():
    for k in seeded():
        print("\n".join(case(k)))


if __name__ == "__main__":
    main()
