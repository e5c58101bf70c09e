#!/usr/bin/env python3
"""Compares tools/model/label_reading.py with a search through all rows, for random types with labels and short
resources.

    python3 tools/random/label_search.py SEED COUNT

Of each type it is asked field by field whether it can be read, with what is known told from the places of all fields
and not on the way. Of each resource all rows that could stand there are tried: each length of a string and each
number of rows. One is its row if labels.py lays it to the same bytes, label_spelling.py says so too, and every
solving number solves to what the row has. There may be one such row at most, and label_reading.py has to find it.
What differs is printed, and the status is 1.
"""
import sys

import top  # noqa: F401
from runs import seeded
from random_types import some_bytes, some_type
from model.faults import Refused
from model.label_reading import (LENGTHS, NoRow, array_name, can_solve, is_own, least_width, read, solved,
                                 is_readable, steps_to)
from model.label_spelling import is_spelled, width_at
from model.label_types import (Align, Array, Fill, Label, Number, Points, Switch, Text, UNITS, type_text, value_of,
                         words_in)
from model.labels import FACTS, Names, Sight, bytes_bits, bytes_of, expressions, inner, own_names, takes, width_of

# Which types can be read, told from the places of all fields.

class Told:
    """A type with the place of each field in a walk: its number, its body and where it stands there, and where it ends."""

    def __init__(self, body):
        self.outermost, self.all, self.labels, self.arrays, self.lines = body, [], {}, {}, {}
        self.walk(body)

    def walk(self, body):
        for k, field in enumerate(body):
            number = len(self.all)
            self.all.append((field, body, k))
            if isinstance(field, Label):
                self.labels[field.name.lower()] = number
            for row in inner(field):
                self.walk(row)
            if array_name(field):
                self.arrays[array_name(field)] = number, len(self.all)
            if isinstance(field, Array):
                self.lines.update(dict.fromkeys(own_names(field.row, Label), len(self.all)))

    def is_known(self, word, number, part):
        """Whether part `part` of field `number` knows a name; `label` is the name at which bits are read."""
        kind, name = word
        _, body, k = self.all[number]
        if kind == "row":
            return True
        if kind == "index":
            return self.lines[name] <= number
        if kind == "rows":
            return self.arrays[name][1] <= number or self.was_solved(word, number, part)
        if name not in self.labels and name in ("true", "false"):
            return True
        if self.labels[name] < number or kind == "label":
            return self.labels[name] < number
        return steps_to(body, k, name) is not None or self.was_solved(word, number, part)

    def unknown(self, number, part, tree):
        words = [(kind, name.lower()) for kind, name in words_in(tree)]
        return [word for word in words if not self.is_known(word, number, part)]

    def solves(self, number, part):
        """The name that a part of a fixed number solves, or None."""
        field, body, _ = self.all[number]
        tree = expressions(field)[part].tree
        unknown = self.unknown(number, part, tree)
        if len(unknown) != 1 or not is_own(body, unknown[0]) or not can_solve(tree, unknown[0]):
            return None
        return unknown[0]

    def was_solved(self, word, number, part):
        """An earlier number of the same body as the label or the array solves it."""
        for j in range(number + 1):
            field = self.all[j][0]
            if isinstance(field, (Number, Points)) and is_own(self.all[j][1], word):
                for each in range(len(expressions(field)) if j < number else part):
                    if self.solves(j, each) == word:
                        return True
        return False

    def ends(self, number):
        """An open string or array ends by a number of rows, a solved label or the end of the resource."""
        field, body, k = self.all[number]
        least = least_width(field.row) if isinstance(field, Array) else 8
        if array_name(field) and self.was_solved(("rows", array_name(field)), number, 0):
            return least >= 1
        behind = body[k + 1:]
        for j, each in enumerate(behind):
            fixed = [width_of(one) for one in behind[:j]]
            if isinstance(each, Label) and None not in fixed and self.was_solved(("name", each.name.lower()), number, 0):
                return least >= 1
        return body is self.outermost and None not in [width_of(one) for one in behind] and least >= 8

    def is_readable(self):
        for number, (field, _, _) in enumerate(self.all):
            is_open = (isinstance(field, Text) and field.form == "string" and field.size is None
                       or isinstance(field, Array) and field.count is None)
            if is_open and not self.ends(number):
                return False
            for part, expr in enumerate(expressions(field)):
                part = part if isinstance(field, Points) else 0
                if self.unknown(number, part, expr.tree):
                    if isinstance(field, Text) or self.solves(number, part) is None:
                        return False
        return True


# All rows that could stand in bits.

def rows_in(body, bits, at, k=0):
    """All pairs of a row of the fields from k on and where it ends, for bits from a place on."""
    if k == len(body):
        yield [], at
        return
    for value, end in values_in(body[k], bits, at):
        if end <= len(bits):
            for row, last in rows_in(body, bits, end, k + 1):
                yield ([value] if takes(body[k]) else []) + row, last


def taken(bits, at, width):
    return int("0" + "".join(map(str, bits[at:at + width])), 2)


def values_in(field, bits, at):
    """All pairs of a value of a field and where it ends."""
    if isinstance(field, Number):
        yield taken(bits, at, field.width), at + field.width
    elif isinstance(field, Points):
        yield tuple(taken(bits, at + 16 * k, 16) for k in range(field.count)), at + 16 * field.count
    elif isinstance(field, Align):
        yield None, at + -at % UNITS[field.unit]
    elif isinstance(field, (Label, Fill)):
        yield None, at + width_of(field)
    elif isinstance(field, Text):
        yield from texts_in(field, bits, at)
    elif isinstance(field, Array):
        yield from arrays_in(field, bits, at, field.count)
    else:
        for name, row in field.cases:
            for value, end in rows_in(row, bits, at):
                yield (name, value), end


def texts_in(field, bits, at):
    """A string that ends anywhere: its bytes with and without zeros after them."""
    first = at + LENGTHS[field.form]
    for count in range((len(bits) - first) // 8 + 1):
        held = taken(bits, first, 8 * count).to_bytes(count, "big")
        for value in {held, held.rstrip(b"\0"), held[:-1]} | ({held[:taken(bits, at, first - at)]} if first > at else set()):
            yield value, first + 8 * count


def arrays_in(field, bits, at, count):
    if not count:
        yield [], at
    if count is None or count:
        for row, end in rows_in(field.row, bits, at):
            if end > at or count:
                for rows, last in arrays_in(field, bits, end, None if count is None else count - 1):
                    yield [row] + rows, last


# Which of them is plain.

def is_plain(told, body, row, data):
    """Every solving number of the row solves to what the row has, and its strings are as they have to be."""
    return all(part_is_plain(told, *one) for one in placed(told, body, row, bytes_bits(data), Names(body, row, None), [0], 0))


def placed(told, body, row, bits, names, at, first):
    """The fields of a row in their order: each with its number in the type, its value, and what is seen there at last."""
    values, out, number = iter(row), [], first
    for field in body:
        value = next(values) if takes(field) else None
        start = at[0]
        sight = Sight(names, bits, start, None, FACTS)
        out.append((number, value, sight))
        if isinstance(field, Label):
            names.labels[field.name.lower()] = start
        elif isinstance(field, Array):
            lines = [Names(field.row, line, names, field.name, k) for k, line in enumerate(value, 1)]
            for inside, line in zip(lines, value):
                out += placed(told, field.row, line, bits, inside, at, number + 1)
            names.ended(field, lines)
        elif isinstance(field, Switch):
            skipped = number + 1
            for name, inner_row in field.cases:
                if name == value[0]:
                    out += placed(told, inner_row, value[1], bits, Names(inner_row, value[1], names), at, skipped)
                skipped += size_of(inner_row)
        else:
            at[0] = start + width_at(field, value, names, bits, start, FACTS)
        number += 1 + sum(size_of(each) for each in inner(field))
    return out


def size_of(body):
    return sum(1 + sum(size_of(each) for each in inner(field)) for field in body)


def part_is_plain(told, number, value, sight):
    field = told.all[number][0]
    if isinstance(field, Text) and field.fixed is None:
        return text_is_plain(field, value, sight)
    if not isinstance(field, (Number, Points)):
        return True
    width = field.width if isinstance(field, Number) else 16
    for part, expr in enumerate(expressions(field)):
        word = told.solves(number, part)
        if word:
            place = sight.end + 16 * part
            try:
                seen = Sight(sight.names, sight.all_bits, place, None, FACTS)
                found = solved(expr.tree, word, taken(sight.all_bits, place, width), seen)
            except (NoRow, Refused):
                return False
            there = sight.rows(word[1]) if word[0] == "rows" else sight.name(word[1])
            if there != (found % 2 ** width if word[0] == "rows" else found):
                return False
    return True


def text_is_plain(field, value, sight):
    if field.form == "cstring" and b"\0" in value:
        return False
    if field.size is None:
        return True
    size = value_of(field.size.tree, sight)
    return len(value) <= size - (field.form == "cstring") and not (field.form == "string" and value[-1:] == b"\0")


def spelling_rows(body, data):
    """All rows that are laid to the bytes."""
    bits, out = bytes_bits(data), []
    for row, end in rows_in(body, bits, 0):
        try:
            if len(bits) - end < 8 and row not in out and bytes_of(body, row) == data:
                out.append(row)
        except Refused:
            pass
    return out


# Comparing.

def compared(body, data, told):
    spelled = spelling_rows(body, data)
    rows = [row for row in spelled if is_spelled(body, row, FACTS, data) and is_plain(told, body, row, data)]
    found = read(body, data, FACTS)
    if len(rows) > 1 or found != (rows[0] if rows else None):
        print("differs: %s%s\n  read  %s\n  search %s" % (type_text(body), data.hex(), found, rows))
        return "differ"
    return "plain" if rows else "not plain" if spelled else "no row"


def main():
    count = {"differ": 0, "plain": 0, "not plain": 0, "no row": 0, "unreadable": 0, "readable": 0}
    for _ in seeded():
        body = some_type()
        told = Told(body)
        count["readable" if told.is_readable() else "unreadable"] += 1
        if told.is_readable() != is_readable(body):
            print("differs: %s is it readable? %s" % (type_text(body), told.is_readable()))
            count["differ"] += 1
        elif told.is_readable():
            for data in some_bytes(body, 4, 8, FACTS):
                count[compared(body, data, told)] += 1
    print(", ".join("%d %s" % (many, what) for what, many in count.items()))
    sys.exit(1 if count["differ"] else 0)


if __name__ == "__main__":
    main()
