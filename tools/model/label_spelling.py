"""Whether bits are those of a row of a type with labels: the definition, and not the way to get there.

All pieces get their places first. Then every name has its value at once, and each number, size and string has to be
what the finished bits say. Which numbers are late is read off from what their values read. label_cases.py and
random_labels.py ask this of all that labels.py lays.
"""
from model.faults import Refused
from model.label_types import Align, Array, Fill, Label, Number, Points, Text, UNITS, value_of, words_in
from model.labels import (Late, Names, Sight, bytes_bits, expressions, formats_in, in_range, joined, may_be_size, number_bits,
                    own_names, stored, takes, width_of)


class Reads(Sight):
    """A sight that keeps which bits were read."""

    def __init__(self, *given):
        Sight.__init__(self, *given)
        self.read = []

    def bits(self, first, width):
        found = Sight.bits(self, first, width)
        self.read += range(first, first + width)
        return found


def flat(names, body, row, pieces, ends):
    """Appends the pieces of a row in their order: each with its field, its value or expression, and the names of its body.

    Of each scope with labels in rows the number of the piece at which the array ends is kept, by the first of the labels.
    """
    values = iter(row)
    for field in body:
        value = next(values) if takes(field) else None
        if isinstance(field, Points):
            pieces += [(Number("integer", 16, field.fixed[k] if field.fixed else None), value[k] if value else None, names)
                       for k in range(field.count)]
        elif isinstance(field, Array):
            lines = [Names(field.row, line, names, field.name, k) for k, line in enumerate(value, 1)]
            names.ended(field, lines)
            for inside, line in zip(lines, value):
                flat(inside, field.row, line, pieces, ends)
            ends.update(((id(names), name), len(pieces)) for name in own_names(field.row, Label))
        elif isinstance(field, (Label, Number, Text, Fill, Align)):
            pieces.append((field, value, names))
        else:
            chosen = dict(field.cases)[value[0]]
            flat(Names(chosen, value[1], names), chosen, value[1], pieces, ends)


def is_spelled(body, row, facts, data):
    """The bytes are those of the row, by the definition."""
    bits = bytes_bits(data)
    pieces, ends = [], {}
    flat(Names(body, row, None), body, row, pieces, ends)
    try:
        return places_are(pieces, ends, bits, facts)
    except (Refused, Late, KeyError, TypeError):
        return False


def stands_later(kind, word, names, k, stands, ends):
    """A name of piece k stands after it: a label, or the end of the array whose rows have it."""
    if kind == "index":
        return ends[(id(names.lines_of(word)), word.lower())] > k
    found = names.label(word) if kind in ("name", "label") else None
    return found is not None and stands[(id(found), word.lower())] > k


def places_are(pieces, ends, bits, facts):
    places, end = [], 0
    stands = {}  # the number of the piece of each label
    for k, (field, value, names) in enumerate(pieces):
        if isinstance(field, Label):
            names.labels[field.name.lower()] = end
            stands[(id(names), field.name.lower())] = k
        places.append(end)
        end += width_at(field, value, names, bits, end, facts)
    if len(bits) != end + -end % 8 or any(bits[end:]):
        return False
    late = set()
    for k, (field, value, names) in enumerate(pieces):
        place, sight = places[k], Reads(names, bits, places[k], None, facts)
        later = any(stands_later(*word, names, k, stands, ends) for expr in expressions(field) for word in words_in(expr.tree))
        width = (places + [end])[k + 1] - place
        own = bits[place:place + width]
        if isinstance(field, Text):
            if later or own != bytes_bits(text_of(field, value, sight)) or late & set(sight.read):
                return False
        elif isinstance(field, Number) and field.fixed:
            value = value_of(field.fixed.tree, sight)
            if not in_range(field, value) or own != number_bits(value, width):
                return False
            if later or late & set(sight.read):
                late |= set(range(place, place + width))
        elif own != (number_bits(value, width) if isinstance(field, Number) else [0] * width):
            return False
    return True


def text_of(field, value, sight):
    """The stored form of a string in the finished bits."""
    size = None if field.size is None else value_of(field.size.tree, sight)
    if field.fixed is not None:
        value = joined(field.fixed, iter([value_of(expr.tree, sight) for expr in formats_in(field.fixed)]), sight.facts)
    if size is not None and not may_be_size(field.form, size):
        raise Refused(207, size)
    return stored(field.form, size, value)


def width_at(field, value, names, bits, place, facts):
    if isinstance(field, Text):
        return 8 * len(text_of(field, value, Reads(names, bits, place, None, facts)))
    return -place % UNITS[field.unit] if isinstance(field, Align) else width_of(field)
