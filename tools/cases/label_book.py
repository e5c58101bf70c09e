"""Books of types with labels.

Each type stands as the text of its fields, or as a list of them, of which label_types.py writes the text. In a row of
a table it stands after the name and ` @ `: for `rez` with a row of items after another ` @ `, or as a whole source,
in which `¶` is a line end; and for `derez` with resources after ` => `, each after its mark. labels.py
lays its rows, and what label_spelling.py says of the bytes must be the same. Where bytes or the line on `err` stand by
hand, they are compared with what labels.py says. Of `derez` stands by hand after the name which resources it shows by
a `resource` statement, `r`, and which as bytes, `d`; each resource stands as its bytes or as the values of a row.
label_reading.py has to say the same, and so has shown.py, which reads the text of the type.
"""
import ast
import re

from casefile import Book, expanded
from model import shown, type_files
from model.faults import Refused
from model.fork import image, spelled as bytes_spelled
from model.label_reading import read
from model.label_spelling import is_spelled
from model.label_types import (Align, Array, Fill, Number, Points, Switch, bits_at, body_text, byte, byte_at,
    field_bits, integer, items_text, key, long_at, longint, num, number, points, text, type_text, word_at)
from model.labels import FACTS, bytes_of, check

WRITTEN = "Written by tools/cases/%s. The bytes are told by tools/model/labels.py, and in part by hand."


def rows(name, *row):
    """An array without a stated number of rows."""
    return Array(name, None, list(row))


def stated(count, *row):
    """An array of so many rows."""
    return Array(None, count, list(row))


def fields_of(given):
    """The fields of a type, which stand as a list or as a text that is spelled as label_types.py spells them."""
    if not isinstance(given, str):
        return given
    fields = type_files.fields_of(given)
    assert body_text(fields) == given, given
    return fields


def agree(same, *says):
    """What stands here by hand is what labels.py and label_spelling.py say."""
    assert same, "%s\n%s  told %s, by hand %s" % says


class Cases(Book):
    """The cases of `rez`: of a type and a row, or of a source by hand. What `derez` shows of the rows may be another book."""

    def __init__(self, name, script, says, read_back=None):
        super().__init__(name, says, WRITTEN % script)
        self.read_back = read_back and Shown(read_back, script, "What derez shows of the rows of %s." % name)

    def add(self, name, source, resources, error, words="rez s.r -o x", keys=(), files=()):
        """A case with its source, and the resources or the line that come."""
        files = [("s.r", source), *files]
        if error:
            self.refused(name, words, error, files, keys=keys)
        else:
            self.case(name, words, files, keys, leaves=[("x", image(resources))])

    def row(self, name, body, values, by_hand=None, facts=FACTS):
        """A case of a type and one row: the bytes by hand, in the pieces of fork.py, or the fault by hand, or neither."""
        head = "%d" % facts["ID"] + (', "%s"' % facts["Name"].decode() if facts["Name"] else "")
        body = fields_of(body)
        source = type_text(body) + "resource 'Test' (%s) { %s };\n" % (head, items_text(values))
        is_fault = by_hand is not None and re.match("[0-9]{3} [A-Z][a-z]", by_hand)
        wanted = None if by_hand is None or is_fault else bytes_spelled(by_hand)
        line, found = 1, None
        try:
            check(body)
            line = 2
            found = bytes_of(body, values, facts)
            agree(is_spelled(body, values, facts, found), name, source, found.hex(), "isn't spelled")
            agree(by_hand is None or found == wanted, name, source, found.hex(), by_hand)
            resource = (b"Test", facts["ID"], facts["Name"], facts["Attributes"], found)
            self.add(name, source, [resource], None)
            if self.read_back:
                told = "d" if read(body, found, facts_of(resource)) is None else "r"
                self.read_back.add(name, type_text(body), [resource], told, again=False)
        except Refused as fault:
            agree(by_hand is None or str(fault) == by_hand, name, source, str(fault), by_hand)
            self.add(name, source, None, "s.r:%d: error %s" % (line, fault))
        return found

    def line(self, line):
        """A case of a line of a table, whose row is that of `row`, and whose source is that of `told`."""
        given, arrow, come = expanded(line).partition(" =>")
        name, source, *row = given.split(" @ ")
        fault = re.match("([0-9]+): (.*)", come.strip())
        if row:
            self.row(name, source, ast.literal_eval("[%s]" % row[0]), come.strip() if arrow else None)
        else:
            self.told(name, source.replace("¶", "\n") + "\n", *(int(fault[1]), fault[2]) if fault else come.split(" | "))

    def told(self, name, source, *given):
        """A case by hand: a source, and a fault with its line, or the bytes of its resources of the type Test from 1 on."""
        if isinstance(given[0], int):
            self.add(name, source, None, "s.r:%d: error %s" % given)
        else:
            self.add(name, source, [(b"Test", k + 1, b"", 0, bytes_spelled(each)) for k, each in enumerate(given)], None)


class Shown(Book):
    """Cases of `derez` of types with labels, and of `rez` on what it shows."""

    def __init__(self, name, script, says):
        super().__init__(name, says, WRITTEN_OF_SHOWN % script)

    def shows(self, name, body, marks, *contents, out=None, kind="Test", first=1, also=""):
        """A type and resources of it with the ids from the first on, each bytes in the pieces of fork.py, or a row.

        The marks by hand say of each whether it is shown by a `resource` statement, `r`, or as bytes, `d`; so may the
        whole text. A row that has no bytes is given with zeros in the fixed numbers of the type.
        """
        body = fields_of(body)
        check(body)
        types = also + type_text(body, kind)
        resources = [(kind.encode(), first + k, b"", 0, content_of(body, each, first + k)) for k, each in enumerate(contents)]
        told = "".join("r" if read(body, each[4], facts_of(each)) is not None else "d" for each in resources)
        agree(marks in (None, told), name, types + str([each[4].hex() for each in resources]), told, marks)
        self.add(name, types, resources, told, out)

    def line(self, line):
        """A case of a line of a table: its name, a type, and each content after its mark."""
        given, contents = line.split(" =>")
        name, body = given.split(" @ ")
        marks, pieces = zip(*[(each[:1], each[1:].strip()) for each in map(str.strip, contents.split(" | "))])
        rows = [ast.literal_eval(piece) if piece[:1] == "[" else piece for piece in pieces]
        self.shows(name, body, "".join(marks), *rows)

    def add(self, name, types, resources, told, out=None, again=True):
        """A case of `derez` of resources, of which the model told which ones are shown, and the text back."""
        fork = image(resources)
        text = shown.derez(["f", "t.r"], {"f": fork, "t.r": types.encode()})
        agree(told == "".join(line[0] for line in text.split("\n") if re.match("(resource|data) '", line)),
            name, types, text, told)
        agree(out in (None, text), name, types, text, out)
        self.case("shown: " + name, "derez f t.r", [("f", fork), ("t.r", types)], out=text)
        if again and "r" in told:
            self.case("again: " + name, "rez t.r s.r -o x", [("t.r", types), ("s.r", text)], leaves=[("x", fork)])


WRITTEN_OF_SHOWN = ("Written by tools/cases/%s. What is shown is told by tools/model/label_reading.py and tools/model/shown.py, and in part by hand; "
                    "again: is the text that is shown.")


def facts_of(resource):
    return shown.all_facts(resource + (0,))


def with_zeros(body):
    """The fields with zeros in place of fixed numbers, but of keys."""
    out = []
    for field in body:
        if isinstance(field, Number) and field.fixed and not field.key:
            field = field._replace(fixed=number(0))
        elif isinstance(field, Points) and field.fixed:
            field = field._replace(fixed=[number(0)] * field.count)
        elif isinstance(field, Array):
            field = field._replace(row=with_zeros(field.row))
        elif isinstance(field, Switch):
            field = Switch([(name, with_zeros(row)) for name, row in field.cases])
        out.append(field)
    return out


def content_of(body, given, ident):
    if isinstance(given, str):
        return bytes_spelled(given)
    facts = facts_of((b"Test", ident, b"", 0, b""))
    try:
        return bytes_of(body, given, facts)
    except Refused:
        return bytes_of(with_zeros(body), given, facts)


# Fields of each kind, with the values of their items.

KINDS = [("a boolean", num("boolean"), [1]), ("a byte", byte(), [255]), ("a char", num("char"), [65]),
    ("an integer", integer(), [258]),
         ("a long integer", longint(), [66051]), ("a bitstring of one bit", field_bits(1), [1]), ("a bitstring of 31 bits",
             field_bits(31), [5]),
         ("a fixed boolean", num("boolean", 1), []), ("a fixed byte", byte(-1), []), ("a fixed char", num("char", 90), []),
         ("a fixed integer", integer(772), []), ("a fixed long integer", longint(-2), []), ("a fixed bitstring", field_bits(7, 93),
             []),
         ("a string", text("string"), [b"abc"]), ("an empty string", text("string"), [b""]), ("a string with a size",
             text("string", 2), [b"abc"]),
         ("a fixed string", text("string", None, b"xyz"), []), ("a fixed string with a size", text("string", 5, b"xyz"), []),
         ("a pstring", text("pstring"), [b"ab"]), ("a pstring with a size", text("pstring", 4), [b"ab"]), ("a fixed pstring",
             text("pstring", None, b"q"), []),
         ("a wstring", text("wstring"), [b"abc"]), ("a wstring with a size", text("wstring", 1), [b"abc"]),
         ("a cstring", text("cstring"), [b"abcd"]), ("a cstring with a size", text("cstring", 3), [b"abcd"]), ("a fixed cstring",
             text("cstring", None, b""), []),
         ("a point", points(count=2), [(1, 65535)]), ("a rectangle", points(count=4), [(1, 2, 3, 4)]), ("a fixed point",
             points(5, -6), []),
         ("a fixed rectangle", points(9, 8, 7, 6), []), ("a fill of bits", Fill("bit", 3), []), ("a fill of no bytes",
             Fill("byte", 0), []),
         ("a fill of a nibble", Fill("nibble", None), []), ("a fill of words", Fill("word", 2), []), ("a fill of a long",
             Fill("long", None), []),
         ("an align to a nibble", Align("nibble"), []), ("an align to a byte", Align("byte"), []), ("an align to a word",
             Align("word"), []),
         ("an align to a long", Align("long"), []), ("an array", Array(None, None, [byte(), field_bits(2)]), [[[1, 2], [3, 1]]]),
         ("an empty array", Array("none", None, [byte()]), [[]]), ("an array with a stated number of rows",
             Array(None, 2, [text("pstring")]), [[[b"a"], [b""]]]),
         ("a switch", Switch([("One", [key("byte", 1), text("cstring")]), ("Two", [key("byte", 2), byte()])]), [("One", [b"ab"])]),
         ("a switch with an empty case", Switch([("One", [key("bitstring[2]", 1)])]), [("One", [])])]

FUNCTIONS = [("a byte", byte_at), ("a word", word_at), ("a long", long_at)] + [
    ("%d bits" % width, lambda name, width=width: bits_at(name, number(0), number(width))) for width in (1, 5, 8, 12, 31, 32)]
