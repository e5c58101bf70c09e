"""Types with labels that can be read, and the row that bytes are: a second, plain reading of docs/LANGUAGE.md.

It knows nothing of the code. A type is a list of fields of label_types.py, and the rules are asked of it as they
stand in the document: `is_readable` goes over the fields with the names that are known, and `read` goes over the bits
with the same names and their values. It looks for one row only, and believes none: what it found counts if labels.py
lays it to the same bytes. label_search.py tries all rows in its place.
"""
from model.faults import Refused
from model.label_types import (Align, Array, Fill, Label, Number, Points, Switch, Text, UNITS, in_row, value_of,
                               words_in)
from model.labels import bytes_of, constant, expressions, formats_in, joined, own_names, stored, takes, width_of

MOST_VALUES = 1048576
LENGTHS = {"string": 0, "cstring": 0, "pstring": 8, "wstring": 16}
UNDONE = ("+", "-", "*", "/", "<<", ">>")


class NoRow(Exception):
    """The bytes are of no plain row."""


# What is known at a field.

class Known:
    """What is known at a field.

    These are the labels that stand before it with their places, labels that were solved, arrays with a known number of
    rows, the labels in rows of arrays that have ended with their places, and the arrays around with the number of the row.
    """

    def __init__(self, passed=(), solved=(), counts=(), ended=(), around=()):
        self.passed, self.solved, self.counts = dict(passed), dict(solved), dict(counts)
        self.ended, self.around = dict(ended), dict(around)

    def inner(self, array=None, number=None):
        """What is known at the beginning of a case, or of a row of an array; nothing of it is known after that."""
        around = {**self.around, array: number} if array else self.around
        return Known(self.passed, self.solved, self.counts, self.ended, around)

    def end(self, array, lines):
        """An array has ended; of each row stands what is known at its end."""
        self.counts[array_name(array)] = len(lines)
        for name in own_names(array.row, Label):
            self.ended[name] = [line.passed[name] for line in lines]


def is_label(field, name):
    return isinstance(field, Label) and field.name.lower() == name


def steps_to(body, k, name):
    """The fields from field k on to a near label of the body: all of fixed width, or aligns; None if it isn't near."""
    for j in range(k, len(body)):
        if is_label(body[j], name):
            return body[k:j]
        if width_of(body[j]) is None and not isinstance(body[j], Align):
            return None
    return None


def is_known(kind, name, body, k, known):
    if kind == "row":  # a row knows its own number
        return True
    if kind in ("rows", "index"):
        return name in (known.counts if kind == "rows" else known.ended)
    if name in known.passed:
        return True
    if kind == "label":  # bits are read at a label that stands before
        return False
    return name in known.solved or steps_to(body, k, name) is not None or name in ("true", "false")


def unknown_in(tree, body, k, known):
    """The names in an expression of field k that aren't known, each as often as it stands there."""
    return [(kind, word.lower()) for kind, word in words_in(tree) if not is_known(kind, word.lower(), body, k, known)]


def is_word(tree, word):
    return tree[0] in ("name", "rows") and (tree[0], tree[1].lower()) == word


def has_word(tree, word):
    return word in [(kind, name.lower()) for kind, name in words_in(tree)]


def can_solve(tree, word):
    """Only operators that can be undone stand over the one unknown name."""
    if is_word(tree, word):
        return True
    if tree[0] not in UNDONE:
        return False
    on_left = has_word(tree[1], word)
    if len(tree) == 3 and tree[0] in ("/", "<<", ">>") and not on_left:
        return False
    return can_solve(tree[1 if on_left else 2], word)


def array_name(field):
    return field.name.lower() if isinstance(field, Array) and field.name else None


def is_counted(field, known):
    return array_name(field) is not None and array_name(field) in known.counts


def is_own(body, word):
    kind, name = word
    return kind != "index" and any(is_label(field, name) if kind == "name" else array_name(field) == name for field in body)


# Whether a type can be read.

def least_width(body):
    return sum(least(field) for field in body)


def least(field):
    if isinstance(field, Text) and width_of(field) is None:
        return 8 if field.form == "cstring" else LENGTHS[field.form]
    if isinstance(field, Array):
        return (field.count or 0) * least_width(field.row)
    if isinstance(field, Switch):
        return min([least_width(row) for _, row in field.cases], default=0)
    return 0 if isinstance(field, (Label, Align)) else width_of(field)


def solved_end(body, k, known):
    """The solved label that ends field k, and the bits between them; or None."""
    between = 0
    for field in body[k + 1:]:
        if isinstance(field, Label) and field.name.lower() in known.solved:
            return field.name.lower(), between
        if width_of(field) is None:
            return None
        between += width_of(field)
    return None


def rest_of(body, k, outermost):
    """The bits after field k if all fields there have a fixed width and the end of the resource can end it; or None."""
    widths = [width_of(field) for field in body[k + 1:]]
    return sum(widths) if outermost and None not in widths else None


def is_readable(body, known=None, outermost=True):
    known = known or Known()
    return all(field_is_readable(body, k, known, outermost) for k in range(len(body)))


def field_is_readable(body, k, known, outermost):
    field = body[k]
    if isinstance(field, Label):
        known.passed[field.name.lower()] = None
    if isinstance(field, (Number, Points)):
        return all(number_is_readable(expr.tree, body, k, known) for expr in expressions(field))
    if isinstance(field, Text):
        is_open = field.form == "string" and field.size is None
        ends = not is_open or solved_end(body, k, known) is not None or rest_of(body, k, outermost) is not None
        return ends and not any(unknown_in(expr.tree, body, k, known) for expr in expressions(field))
    if isinstance(field, Array):
        readable = array_ends(body, k, known, outermost) and is_readable(field.row, known.inner(array_name(field)), False)
        known.end(field, [])
        return readable
    return not isinstance(field, Switch) or all(is_readable(row, known.inner(), False) for _, row in field.cases)


def number_is_readable(tree, body, k, known):
    unknown = unknown_in(tree, body, k, known)
    if not unknown:
        return True
    if len(unknown) > 1 or not is_own(body, unknown[0]) or not can_solve(tree, unknown[0]):
        return False
    (known.counts if unknown[0][0] == "rows" else known.solved)[unknown[0][1]] = None
    return True


def array_ends(body, k, known, outermost):
    field = body[k]
    if field.count is not None:
        return True
    if is_counted(field, known) or solved_end(body, k, known) is not None:
        return least_width(field.row) >= 1
    return rest_of(body, k, outermost) is not None and least_width(field.row) >= 8


# Solving.

def solved(tree, word, value, sight):
    """The place or the number of rows by which an expression is a value, in whole numbers."""
    if not -2 ** 63 <= value < 2 ** 63:
        raise NoRow
    if is_word(tree, word):
        return value
    if len(tree) == 2:
        return solved(tree[1], word, -value, sight)
    on_left = has_word(tree[1], word)
    side = value_of(tree[2 if on_left else 1], sight)
    return solved(tree[1 if on_left else 2], word, undone(tree[0], value, side, on_left), sight)


def undone(sign, value, side, on_left):
    if sign == "+":
        return value - side
    if sign == "-":
        return value + side if on_left else side - value
    if sign in ("<<", ">>"):
        if not 0 <= side <= 31:
            raise NoRow
        side = 2 ** side
    if sign in ("/", ">>"):
        return value * side
    if side == 0 or value % side:
        raise NoRow
    return value // side


# The row that bytes are.

class Here:
    """What an expression of a field sees: labels, numbers of rows, the rows around, the bits before a place, and facts."""

    def __init__(self, reader, body, k, known, start):
        self.reader, self.body, self.k, self.known, self.start = reader, body, k, known, start
        self.end, self.facts = reader.at, reader.facts

    def name(self, name):
        name = name.lower()
        for places in (self.known.passed, self.known.solved):
            if name in places:
                return places[name]
        steps = steps_to(self.body, self.k, name)
        if steps is None:
            return {"true": 1, "false": 0}[name]
        place = self.start
        for field in steps:
            place += -place % UNITS[field.unit] if isinstance(field, Align) else width_of(field)
        return place

    def rows(self, name):
        return self.known.counts[name.lower()]

    def place_in(self, name, index):
        return in_row(self.known.ended[name.lower()], index)

    def row(self, name):
        return self.known.around[name.lower()]

    def bits(self, first, width):
        if first < 0 or first + width > self.end:
            raise Refused(213, first + width)
        return self.reader.part(first, width)


class Reader:
    """The bits of a resource from the front, and how many values were read."""

    def __init__(self, data, facts):
        self.data, self.length, self.facts = data, 8 * len(data), facts
        self.at, self.values = 0, 0

    def part(self, first, width):
        if first + width > self.length:
            raise NoRow
        end = (first + width + 7) // 8
        return int.from_bytes(self.data[first // 8:end], "big") >> (8 * end - first - width) & (1 << width) - 1

    def take(self, width):
        self.at += width
        return self.part(self.at - width, width)

    def take_bytes(self, count):
        return self.take(8 * count).to_bytes(count, "big")

    def values_more(self, count):
        self.values += count
        if self.values > MOST_VALUES:
            raise NoRow

    def body(self, body, known, outermost):
        out = []
        for k, field in enumerate(body):
            value = self.field(body, k, known, outermost)
            out += [value] if takes(field) else []
        return out

    def field(self, body, k, known, outermost):
        field, start = body[k], self.at
        here = Here(self, body, k, known, start)
        if isinstance(field, Label):
            return self.label(field.name.lower(), known)
        if isinstance(field, (Number, Points)):
            return self.numbers(field, here)
        if isinstance(field, Text):
            return self.text(field, here, outermost)
        if isinstance(field, (Fill, Align)):
            return self.take(width_of(field) if isinstance(field, Fill) else -start % UNITS[field.unit])
        if isinstance(field, Array):
            return self.rows(field, here, outermost)
        return self.case(field, known)

    def label(self, name, known):
        known.passed[name] = self.at
        if known.solved.get(name, self.at) != self.at:
            raise NoRow

    def numbers(self, field, here):
        count, width = (1, field.width) if isinstance(field, Number) else (field.count, 16)
        fixed = expressions(field)
        self.values_more(0 if fixed else count)
        out = []
        for k in range(count):
            here.end = self.at
            out.append(self.take(width))
            if fixed:
                self.solve(fixed[k].tree, out[-1], width, here)
        return out[0] if isinstance(field, Number) else tuple(out)

    def solve(self, tree, value, width, here):
        """Takes what a fixed number says of a name that isn't known; the number itself is believed."""
        for word in unknown_in(tree, here.body, here.k, here.known):
            found = solved(tree, word, value, here)
            if word[0] == "rows":
                here.known.counts[word[1]] = found % 2 ** width
            else:
                here.known.solved[word[1]] = found

    def end_of(self, here, outermost):
        """The bit at which an open string or array ends; None if it is the end of the resource, and the bits after it."""
        found = solved_end(here.body, here.k, here.known)
        if found:
            return here.known.solved[found[0]] - found[1], 0
        return None, rest_of(here.body, here.k, outermost)

    def fixed_text(self, field, size, here):
        values = [value_of(expr.tree, here) for expr in formats_in(field.fixed)]
        value = joined(field.fixed, iter(values), self.facts)
        if value is None:
            raise NoRow
        self.take_bytes(len(stored(field.form, size, value)))

    def text(self, field, here, outermost):
        size = None if field.size is None else value_of(field.size.tree, here)
        if size is not None and not 0 <= size <= self.length:
            raise NoRow
        if field.fixed is not None:
            return self.fixed_text(field, size, here)
        self.values_more(1)
        if size is None and field.form == "string":
            end, rest = self.end_of(here, outermost)
            width = (end if end is not None else self.length - rest) - self.at
            if width < 0 or (end is not None and width % 8):
                raise NoRow
            return self.take_bytes(width // 8)
        if size is None and field.form == "cstring":
            out = b""
            while out[-1:] != b"\0":
                out += self.take_bytes(1)
            return out[:-1]
        length = self.take(LENGTHS[field.form])
        held = self.take_bytes(length if size is None else size)
        value = held[:length] if field.form in ("pstring", "wstring") else held.rstrip(b"\0")
        if field.form == "cstring" and b"\0" in value:
            raise NoRow
        return value

    def rows(self, field, here, outermost):
        out, lines, count = [], [], here.known.counts[array_name(field)] if is_counted(field, here.known) else field.count
        end, rest = (None, 0) if count is not None else self.end_of(here, outermost)
        labels = own_names(field.row, Label)
        while (len(out) < count if count is not None else self.at < end if end is not None else self.length - rest - self.at >= 8):
            self.values_more(1)
            line = here.known.inner(array_name(field), len(lines) + 1)
            out.append(self.body(field.row, line, False))
            lines.append(line if labels else None)
        if end is not None and self.at != end:
            raise NoRow
        here.known.end(field, lines)
        return out

    def case(self, field, known):
        start = self.at
        for name, row in field.cases:
            k = next(k for k, each in enumerate(row) if isinstance(each, Number) and each.key)
            first, width = start + sum(width_of(each) for each in row[:k]), row[k].width
            if first + width <= self.length and self.part(first, width) == constant(row[k].fixed) % 2 ** width:
                return name, self.body(row, known.inner(), False)
        raise NoRow


def read(body, data, facts):
    """The plain row that bytes are, or None: of a type that can't be read there is none."""
    if not is_readable(body):
        return None
    reader = Reader(data, facts)
    try:
        row = reader.body(body, Known(), True)
        return row if bytes_of(body, row, facts) == data else None
    except (NoRow, Refused):
        return None
