"""Types as lists of fields, with their expressions, and their text. labels.py lays their rows.

A field is a tuple of what its text says, and an expression is built by Python's operators: `at("e") - at("s")`.
"""
from collections import namedtuple

from model.faults import Refused
from model.quoting import quoted

# Expressions: a tree of tuples, which Python's operators build.

LEVELS = [["*", "/", "%"], ["+", "-"], ["<<", ">>"], [">", ">=", "<", "<="], ["==", "!="], ["&"], ["^"], ["|"], ["&&"], ["||"]]
LEVEL = {sign: level for level, signs in enumerate(LEVELS) for sign in signs}
WIDTHS = {"Byte": 8, "Word": 16, "Long": 32}


def tree_of(one):
    return one.tree if isinstance(one, Expr) else ("number", one) if one >= 0 else ("-", ("number", -one))


class Expr:
    def __init__(self, *tree):
        self.tree = tree

    def with_sign(self, sign, other):
        return Expr(sign, self.tree, tree_of(other))

    def __neg__(self):
        return Expr("-", self.tree)

    def __invert__(self):
        return Expr("~", self.tree)


for method, operator in [("mul", "*"), ("truediv", "/"), ("mod", "%"), ("add", "+"), ("sub", "-"), ("lshift", "<<"),
    ("rshift", ">>"),
                         ("gt", ">"), ("ge", ">="), ("lt", "<"), ("le", "<="), ("and", "&"), ("xor", "^"), ("or", "|")]:
    setattr(Expr, "__%s__" % method, lambda self, other, operator=operator: self.with_sign(operator, other))
    setattr(Expr, "__r%s__" % method, lambda self, other, operator=operator: Expr(operator, tree_of(other), self.tree))


def number(value):
    return Expr(*tree_of(value))


def at(label):
    """The place of a label."""
    return Expr("name", label)


def rows_of(array):
    return Expr("rows", array)


def at_row(label, index):
    """The place of a label in a row of its array."""
    return Expr("index", label, tree_of(index))


def row_of(array):
    """The number of the row of an array in which the expression stands."""
    return Expr("row", array)


def bits_at(label, start, width):
    return Expr("bits", "BitField", label, tree_of(start), tree_of(width))


def byte_at(label):
    return Expr("bits", "Byte", label)


def word_at(label):
    return Expr("bits", "Word", label)


def long_at(label):
    return Expr("bits", "Long", label)


def fact(name):
    return Expr("fact", name)


def spelled(tree, loosest=99):
    """The text of an expression, in brackets where its operator is looser than may stand there."""
    if tree[0] == "number":
        return "%d" % tree[1]
    if tree[0] == "name":
        return tree[1]
    if tree[0] == "rows":
        return "$$CountOf(%s)" % tree[1]
    if tree[0] == "row":
        return "$$ArrayIndex(%s)" % tree[1]
    if tree[0] == "index":
        return "%s[%s]" % (tree[1], spelled(tree[2]))
    if tree[0] == "fact":
        return "$$" + tree[1]
    if tree[0] == "bits":
        return "$$%s(%s)" % (tree[1], ", ".join([tree[2]] + [spelled(each) for each in tree[3:]]))
    if len(tree) == 2:
        return tree[0] + spelled(tree[1], -1)
    level = LEVEL[tree[0]]
    text = "%s %s %s" % (spelled(tree[1], level), tree[0], spelled(tree[2], level - 1))
    return "(%s)" % text if level > loosest else text


def wrapped(value):
    return (value + 2 ** 31) % 2 ** 32 - 2 ** 31


def quotient(left, right):
    size = abs(left) // abs(right)
    return size if (left < 0) == (right < 0) else -size


def operated(sign, left, right):
    if sign in ("/", "%"):
        if right == 0:
            raise Refused(211)
        return wrapped(quotient(left, right) if sign == "/" else left - right * quotient(left, right))
    if sign in ("<<", ">>"):
        if not 0 <= right <= 31:
            raise Refused(215, right)
        return wrapped(left << right) if sign == "<<" else left >> right
    return wrapped({"*": lambda: left * right, "+": lambda: left + right, "-": lambda: left - right,
                    ">": lambda: left > right, ">=": lambda: left >= right, "<": lambda: left < right, "<=": lambda: left <= right,
                    "==": lambda: left == right, "!=": lambda: left != right,
                    "&": lambda: left & right, "^": lambda: left ^ right, "|": lambda: left | right,
                    "&&": lambda: left != 0 and right != 0, "||": lambda: left != 0 or right != 0}[sign]())


def value_of(tree, sight):
    """The value of an expression by what is seen: names, numbers of rows, rows around, bits and facts."""
    kind = tree[0]
    if kind == "number":
        return wrapped(tree[1])
    if kind == "name":
        return sight.name(tree[1])
    if kind == "rows":
        return wrapped(sight.rows(tree[1]))
    if kind == "row":
        return wrapped(sight.row(tree[1]))
    if kind == "index":
        return sight.place_in(tree[1], value_of(tree[2], sight))
    if kind == "fact":
        return wrapped(sight.facts[tree[1]])
    if kind == "bits":
        place = sight.name(tree[2])
        start = value_of(tree[3], sight) if tree[1] == "BitField" else 0
        width = value_of(tree[4], sight) if tree[1] == "BitField" else WIDTHS[tree[1]]
        if not 1 <= width <= 32:
            raise Refused(213, width)
        return wrapped(sight.bits(place + start, width))
    if len(tree) == 2:
        one = value_of(tree[1], sight)
        return wrapped({"-": -one, "~": ~one, "!": int(one == 0)}[kind])
    left = value_of(tree[1], sight)
    return operated(kind, left, value_of(tree[2], sight))


def in_row(places, index):
    """The place in one of these rows, which count from 1."""
    if not 1 <= index <= len(places):
        raise Refused(223, index)
    return places[index - 1]


def words_in(tree):
    """The names in an expression as they are written: pairs of what they are, as a label or an array, and the name."""
    if tree[0] in ("name", "rows", "row"):
        yield tree[0], tree[1]
    elif tree[0] == "index":
        yield "index", tree[1]
        yield from words_in(tree[2])
    elif tree[0] == "bits":
        yield "label", tree[2]
        for each in tree[3:]:
            yield from words_in(each)
    elif tree[0] not in ("number", "fact"):
        for each in tree[1:]:
            yield from words_in(each)


# Fields.

Label = namedtuple("Label", "name")
Number = namedtuple("Number", "form width fixed key says symbols", defaults=(None, False, "", ()))
Text = namedtuple("Text", "form size fixed says", defaults=(None, None, ""))
Points = namedtuple("Points", "count fixed", defaults=(None,))
Fill = namedtuple("Fill", "unit count", defaults=(None,))
Align = namedtuple("Align", "unit")
Array = namedtuple("Array", "name count row")
Switch = namedtuple("Switch", "cases")
Format = namedtuple("Format", "text arguments")
UNITS = {"bit": 1, "nibble": 4, "byte": 8, "word": 16, "long": 32}
FORMS = {"byte": 8, "integer": 16, "longint": 32, "boolean": 1, "char": 8}


def num(form, fixed=None, **more):
    """A number: its type, with the width after it if it is a bitstring, and its expression."""
    width = FORMS.get(form) or int(form[10:-1])
    return Number(form, width, fixed if fixed is None else number(fixed) if isinstance(fixed, int) else fixed, **more)


def byte(fixed=None):
    return num("byte", fixed)


def integer(fixed=None):
    return num("integer", fixed)


def longint(fixed=None):
    return num("longint", fixed)


def field_bits(width, fixed=None):
    return num("bitstring[%d]" % width, fixed)


def key(form, value):
    return num(form, value, key=True)


def text(form, size=None, fixed=None, says=""):
    """A string: its type, its size, and its fixed value, which is bytes or a list of parts."""
    return Text(form, number(size) if isinstance(size, int) else size, [fixed] if isinstance(fixed, bytes) else fixed, says)


def points(*fixed, count=None):
    return Points(count or len(fixed), [each if isinstance(each, Expr) else number(each) for each in fixed] or None)


def part_text(part):
    if isinstance(part, bytes):
        return quoted(part)
    if isinstance(part, str):
        return "$$" + part
    return "$$Format(%s)" % ", ".join([quoted(part.text)] + [spelled(each.tree) if isinstance(each,
        Expr) else parts_text(each) for each in part.arguments])


def parts_text(parts):
    return " ".join(part_text(part) for part in parts)


def field_text(field):
    if isinstance(field, Number):
        says = "key " * field.key + field.says + field.form
        return says + (" = " + spelled(field.fixed.tree) if field.fixed else "")
    if isinstance(field, Text):
        return (field.says + field.form + ("[%s]" % spelled(field.size.tree) if field.size else "")
                + (" = " + parts_text(field.fixed) if field.fixed is not None else ""))
    if isinstance(field, Points):
        return {2: "point", 4: "rect"}[field.count] + (" = {%s}" % ", ".join(spelled(each.tree) for each in field.fixed) if field.fixed else "")
    if isinstance(field, Fill):
        return "fill " + field.unit + ("" if field.count is None else "[%d]" % field.count)
    if isinstance(field, Align):
        return "align " + field.unit
    if isinstance(field, Array):
        says = " " + field.name if field.name else "" if field.count is None else "[%d]" % field.count
        return "array%s { %s }" % (says, body_text(field.row))
    return "switch { %s }" % " ".join("case %s: %s" % (name, body_text(row)) for name, row in field.cases)


def body_text(body):
    return " ".join(field.name + ":" if isinstance(field, Label) else field_text(field) + ";" for field in body)


def type_text(body, kind="Test"):
    return "type '%s' { %s };\n" % (kind, body_text(body))


def item_text(value):
    if isinstance(value, int):
        return "%d" % value
    if isinstance(value, bytes):
        return quoted(value)
    if isinstance(value, list):
        return "{ %s }" % items_text([one for row in value for one in row]) if value else "{ }"
    if isinstance(value[0], str):
        return "%s { %s }" % (value[0], items_text(value[1]))
    return "{%s}" % items_text(value)


def items_text(values):
    return ", ".join(item_text(value) for value in values)
