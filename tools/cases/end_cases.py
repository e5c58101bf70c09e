"""Writes ends.cases: what `derez` shows of types in which strings and arrays end at a label."""
from label_book import KINDS, Shown
from model.label_types import (Align, Array, Fill, Label, Switch, at, byte, byte_at, field_bits, integer, key, longint,
                               points, rows_of, text)
from model.labels import width_of

ENDS = Shown("ends.cases", "end_cases.py", "What derez shows of strings and arrays that end at a label.")
LENGTH = (at("e") - at("s")) / 8
BYTES = Array(None, None, [byte()])
LAST = text("pstring")  # with it behind, the end of the resource ends nothing


@ENDS.part("Each kind of field between a string or an array and the label that ends it.")
def kinds():
    for name, field, values in KINDS:
        for said, opened, value in [("a string", text("string"), b"xyz"), ("an array", BYTES, [[1], [2]])]:
            if name.startswith("an array") and field.count is None and said == "an array":
                continue
            before = [integer(rows_of(field.name))] if isinstance(field, Array) and field.name else []
            fixed = width_of(field) is not None
            body = before + [longint(at("e")), opened, field, Label("e"), Align("byte"), LAST]
            row = [value] + values + [b"end"]
            ENDS.shows("%s and %s up to a label" % (said, name), body, "r" if fixed else "d", row)
    for name, field, values in KINDS:
        if width_of(field) is None:
            body = [longint(at("e")), text("string"), Label("e"), field, Align("byte"), LAST]
            if not (isinstance(field, Array) and field.count is None):
                is_open = getattr(field, "form", None) == "string" and field.size is None
                ENDS.shows("a string up to a label before %s" % name, body, "d" if is_open else "r",
                    [b"xyz"] + values + [b"end"])
    for name, field, values in KINDS:
        if width_of(field) is not None:
            body = [longint(at("e")), field, Align("byte"), Label("s"), text("string"), field, field, Label("e"), Align("byte"),
                LAST]
            ENDS.shows("a string between %s and two more" % name, body, "rr", values + [b"xyz"] + values + values + [b"end"],
                values + [b""] + values + values + [b""])


ENDS.lines_of("Several fields up to the label.", r"""
a string at its label at once @ byte = e / 8; string; e: pstring; => r 01 00 | r 03 "ab" 01 "c" | d 00 00 | d 02 00 | d 04 "ab" 01 "c"
a string, a byte and a label @ byte = e / 8; string; byte; e: pstring; => r 02 07 00 | r 04 "ab" 07 00 | d 01 00 | d 01 07 00
a string, five fields and a label @ byte = (e - s) / 8; s: string; byte; fill bit[4]; bitstring[4] = 9; point = {1, -1}; pstring[2]; e: pstring; => r 09 05 09 0001FFFF 01 "a" 00 00 | r 0B "xy" 05 09 0001FFFF 02 "ab" 00 | d 08 05 09 0001FFFF 01 "a" 00 00 | d 09 05 0A 0001FFFF 01 "a" 00 00 | d 09 05 19 0001FFFF 01 "a" 00 00 | d 09 05 09 0001FFFF 03 "ab" 00
an array, five fields and a label @ byte = (e - s) / 8; s: array { integer; }; byte; fill bit[4]; bitstring[4] = 9; array[2] { byte; }; e: pstring; => r 04 05 09 01 02 00 | r 08 0102 0304 05 09 01 02 00 | d 07 0102 03 05 09 01 02 00 | d 03 05 09 01 00 | d 04 05 08 01 02 00
labels between a string and its label @ byte = e / 8; string; a: byte = a; b: c: byte = c; e: pstring; => r 03 08 10 00 | r 04 "x" 10 18 00 | d 04 "x" 10 19 00
a string up to the second of two labels @ byte = e / 8; string; a: byte; e: pstring; => r 03 "x" 07 00 | d 01 00
a string up to two labels that are solved @ byte = a / 8; byte = b / 8; string; a: integer; b: pstring; => r 03 05 "x" 0007 00 | r 02 04 0007 00 | d 03 06 "x" 0007 00 | d 04 05 "x" 0007 00 | d 02 02 0007 00
a string up to two labels of which the second is solved first @ byte = b / 8; byte = a / 8; string; a: integer; b: pstring; => r 05 03 "x" 0007 00 | r 04 02 0007 00 | d 06 03 "x" 0007 00 | d 05 04 "x" 0007 00 | d 02 02 0007 00
two labels at one place of which both are solved @ byte = a / 8; byte = b / 8; string; a: b: pstring; => r 03 03 "x" 00 | d 03 04 "x" 00 | d 04 03 "x" 00
a string behind a string by two lengths @ byte = a / 8; byte = (b - s) / 8; string; a: byte; s: string; b: pstring; => d 03 02 "x" 07 "yz" 00
a string behind a string by two places @ byte = a / 8; byte = b / 8; string; a: byte; string; b: pstring; => r 03 06 "x" 07 "yz" 00 | r 02 03 07 00 | d 03 07 "x" 07 "yz" 00 | r 04 06 "x" 07 "yz" 00 | d 03 03 "x" 07 "yz" 00 | d 06 03 "x" 07 "yz" 00
two strings of which one alone ends @ byte = b / 8; string; string; b: pstring; => d 03 "xy" 00
a string and an array up to one label @ byte = b / 8; string; array { byte; }; b: pstring; => d 03 "xy" 00
an array up to a label behind a string with a size @ byte; p: byte = b / 8; array { byte; }; string[2]; b: pstring; => r 00 04 6162 00 | r 00 05 07 6162 00 | d 00 03 61 00 | d 00 06 07 6162 00
a string with a size that is read stands between @ n: byte; byte = b / 8; string; string[$$Byte(n)]; b: pstring; => d 01 04 "x" "y" 00
""")


@ENDS.part("Labels in front of the beginning, behind the end, and within bytes.")
def places():
    case = ENDS.shows
    ENDS.table(r"""
        a string whose label stands before its beginning @ byte = e; byte; string; e: pstring; => r 10 07 00 | d 08 07 00 | d 00 07 00 | d 0F 07 00 | d 09 07 00
        a string whose label stands behind the end @ byte = e / 8; string; e: byte; => r 04 "abc" 07 | r 01 07 | d 05 "abc" 07 | d 06 "abc" 07 | d FF "abc" 07
        a string whose label stands at the end @ byte = e / 8; string; e: => r 01 | r 04 "abc" | d 05 "abc" | d 03 "abc"
        an array whose label stands before its beginning @ byte = e; byte; array { byte; }; e: pstring; => r 10 07 00 | d 08 07 00 | d 00 07 00 | d 0F 07 00 | d 11 07 00
        an array whose label stands behind the end @ byte = e / 8; array { byte; }; e: byte; => r 04 "abc" 07 | r 01 07 | d 05 "abc" 07 | d 06 "abc" 07 | d FF "abc" 07
    """)
    for bits in range(8, 25):
        case("a string up to bit %d" % bits, "byte = e; string; e: align byte; pstring;", "r" if bits % 8 == 0 else "d",
             "%02X %s 00" % (bits, "EE" * (bits // 8 - 1)) if bits % 8 == 0 else "%02X %s 00"
             % (bits, "00" * (bits // 8)))
    for skip in range(8):
        case("a string from bit %d on" % (8 + skip),
            [byte(at("e")), field_bits(skip) if skip else Fill("bit", 0), text("string"), Label("e"), Align("byte"), LAST],
            "rrd", *[([1] if skip else []) + [value, b"z"] for value in (b"", b"ab")] + ["%02X 0000 00" % (9 + skip)])
    for width in (1, 2, 3, 5, 7, 8, 9):
        case("rows of %d bits up to a bit" % width, "byte = e - 8; array { bitstring[%d]; }; e: align byte; pstring;"
             % width, "rrrrd" if width > 1 else "rrrrr", *[[[[1]] * count, b""] for count in (0, 1, 3, 8)]
             + ["%02X %s 00" % (width + 1, "00" * (width // 8 + 1))])
        case("rows of %d bits in bytes" % width, "byte = e / 8 - 1; array { bitstring[%d]; }; e: align byte; pstring;"
             % width, "rr", *[[[[1]] * count, b""] for count in (0, 8)])
    ENDS.table(r"""
        rows of two widths up to a label @ byte = (e - s) / 8; s: array { switch { case A: key byte = 1; case B: key byte = 2; integer; }; }; e: pstring; => r 00 00 | r 01 01 00 | r 05 02 0007 01 01 00 | d 04 02 0007 02 00 | d 02 02 0007 00 | d 03 03 0007 00 | d 05 02 0007 01 00
        rows of strings up to a label @ byte = (e - s) / 8; s: array { pstring; }; e: pstring; => r 05 01 "a" 02 "bc" 00 | r 00 00 | d 04 01 "a" 02 "bc" 00 | d 06 01 "a" 02 "bc" 00 | d 03 01 "a" 02 "bc" 00
        rows with an align up to a label @ byte = (e - s) / 8; s: array { byte; align word; }; e: pstring; => r 01 05 00 | r 00 00 | r 03 05 06 00 00 | d 02 05 06 00 | d 03 05 06 01 00
        the last row is cut @ byte = (e - s) / 8; s: array { integer; byte; }; e: pstring; => r 03 0001 02 00 | d 04 0001 02 03 00 | d 02 0001 02 00 | r 06 0001 02 0003 04 00
        rows that end behind the label @ byte = (e - s) / 8; s: array { cstring; }; e: pstring; => r 03 "a" 00 00 00 | r 02 00 00 00 | d 02 "a" 00 00 00 00 | d 01 "a" 00 00 00
    """)


@ENDS.part("The least width of the rows.")
def least():
    for name, row, by_label, by_end in [
            ("a bit", [field_bits(1)], "r", "d"),
            ("seven bits", [field_bits(7)], "r", "d"),
            ("eight bits", [field_bits(8)], "r", "r"),
            ("a string with a length", [text("pstring")], "r", "r"),
            ("a string with a long length", [text("wstring")], "r", "r"),
            ("a string with a zero", [text("cstring")], "r", "r"),
            ("a string of no bytes", [text("string", 0)], "d", "d"),
            ("a string of a byte", [text("string", 1)], "r", "r"),
            ("a pstring of no bytes", [text("pstring", 0)], "r", "r"),
            ("an array of no rows", [Array(None, 0, [byte()])], "d", "d"),
            ("an array of one row", [Array(None, 1, [field_bits(3)])], "r", "d"),
            ("an array of three rows", [Array(None, 3, [field_bits(3)])], "r", "r"),
            ("a fill of a bit and an empty string", [Fill("bit", 1), text("string", 0)], "r", "d"),
            ("a fill of a byte and an empty string", [Fill("byte", None), text("string", 0)], "r", "r"),
            ("an align and an empty string", [Align("byte"), text("string", 0)], "d", "d"),
            ("a switch without cases", [Switch([])], "d", "d"),
            ("a switch whose least case is a key of 4 bits",
             [Switch([("A", [key("bitstring[4]", 1)]), ("B", [key("bitstring[4]", 2), byte()])])], "r", "d"),
            ("a switch whose least case is a byte", [Switch([("A", [key("byte", 1)]), ("B", [key("byte", 2), byte()])])], "r",
             "r"),
            ("a point", [points(count=2)], "r", "r"),
            ("a fixed number and an empty string", [byte(7), text("string", 0)], "r", "r"),
            ("a size that is read", [text("string", byte_at("n"))], "d", "d"),
            ("a pstring with a size that is read", [text("pstring", byte_at("n"))], "r", "r"),
            ("a cstring with a size that is read", [text("cstring", byte_at("n"))], "r", "r"),
            ("bits and a size that is read", [field_bits(4), Align("byte"), text("string", byte_at("n"))], "r", "d"),
    ]:
        ENDS.shows("rows of %s up to a label" % name,
            [Label("n"), byte(1), byte(at("e")), Array(None, None, row), Label("e"), Align("byte"), LAST], by_label, "01 10 00")
        ENDS.shows("rows of %s up to the end" % name, [Label("n"), byte(1), Array(None, None, row), Label("e")], by_end, "01")
        ENDS.shows("rows of %s by their number" % name,
            [Label("n"), byte(1), byte(rows_of("a")), Array("a", None, row), Align("byte"), LAST], by_label, "01 00 00")


def with_array(body):
    """The fields with an array in place of each string without an end."""
    out = []
    for field in body:
        if isinstance(field, Array):
            field = field._replace(row=with_array(field.row))
        elif isinstance(field, Switch):
            field = Switch([(name, with_array(row)) for name, row in field.cases])
        out.append(BYTES if field == text("string") else field)
    return out


@ENDS.part("What doesn't end a string or an array.")
def not_ended():
    case = ENDS.shows
    for name, body, *contents in [
            ("a label that nothing tells", [byte(), text("string"), Label("e"), LAST], "01 00"),
            ("a near label", [text("string"), byte(at("e")), Label("e"), LAST], "08 00"),
            ("a near label in front, of another place", [byte(at("f")), Label("f"), text("string"), Label("e"), LAST], "08 00"),
            ("a label that a number behind it tells", [byte(), text("string"), Label("e"), byte(at("e")), LAST], "01 08 00"),
            ("a label that a number behind the string tells",
             [text("string"), byte(at("e") / 8), text("pstring"), Label("e"), LAST], "02 00 00"),
            ("a label before it", [byte(at("e")), Label("e"), text("string"), LAST], "08 00"),
            ("an align up to the label", [byte(at("e") / 8), text("string"), Align("byte"), Label("e"), LAST], "01 00"),
            ("a string up to the label", [byte(at("e") / 8), text("string"), text("pstring"), Label("e"), LAST], "02 00 00"),
            ("a switch up to the label",
             [byte(at("e") / 8), text("string"), Switch([("A", [key("byte", 1)])]), Label("e"), LAST], "02 01 00"),
            ("an array up to the label",
             [byte(rows_of("a")), byte(at("e") / 8), text("string"), Array("a", None, [byte()]), Label("e"), LAST], "00 02 00"),
            ("the end of the resource with a string behind", [byte(), text("string"), LAST], "01 00"),
            ("the end of the resource with an align behind", [byte(), text("string"), Align("byte")], "01 00"),
            ("the end of the resource in a case", [Switch([("A", [key("byte", 1), text("string")])])], "01 00"),
            ("the end of the resource in rows", [Array(None, None, [byte(), text("string")])], "01 00"),
            ("the end of the resource and a case with a label", [Switch([("A", [key("byte", 1), text("string"), Label("e")])])],
             "01 00"),
    ]:
        case("a string isn't ended by %s" % name, body, "d", *contents)
        case("an array isn't ended by %s" % name, with_array(body), "d", *contents)
    case("a fixed string without an end", 'byte; string = "ab"; pstring;', "d", '01 "ab" 00')
    case("a fixed string up to a label", 'byte = e / 8; string = "ab"; e: pstring;', "rdd", '03 "ab" 00', '02 "a" 00',
         '03 "ac" 00')
    case("a fixed string up to the end", 'byte; string = "ab"; byte;', "rdd", '01 "ab" 07', '01 "a" 07', '01 "abc" 07')
    case("a fixed string with a size needs no end", 'byte; string[3] = "ab"; pstring;', "rd", '01 "ab" 00 00',
         '01 "ab" 01 00')


@ENDS.part("Numbers of rows, labels and the end of the resource together.")
def both():
    case = ENDS.shows
    ENDS.table(r"""
        rows by their number and a label that says the same @ byte = $$CountOf(a); byte = e / 8; array a { byte; }; e: pstring; => r 02 04 01 02 00 | d 02 03 01 02 00 | d 01 04 01 02 00
        rows by a stated number and a label @ byte = e / 8; cstring; array[2] { byte; }; e: pstring; => r 04 00 01 02 00 | d 03 00 01 02 00 | d 05 00 01 02 00
        a string up to a label and the end of the resource @ byte = e / 8; string; e: byte; => r 03 "ab" 07 | d 02 "ab" 07 | d 04 "ab" 07
        a string up to the end, and labels behind it @ byte; string; e: byte = e; f: integer = f - e; => r 01 "ab" 18 0008 | d 01 "ab" 19 0008 | d 01 "ab" 18 0000
        a string up to the end, and a label that a number behind the string solves @ cstring; string; byte = f; f: => r 00 10 | r "a" 00 "b" 20 | d "a" 00 "b" 18
        a string up to the end, and a label in front of it @ p: byte; string; byte = $$Byte(p); => r 07 07 | r 07 "abc" 07 | d 07 "abc" 06
        a string up to the end behind one up to a label @ byte = e / 8; string; e: string; => r 03 "ab" "cd" | r 05 "abcd" | r 01 "abcd" | d 06 "abcd"
        an array up to the end behind one up to a label @ byte = e / 8; array { byte; }; e: array { integer; }; => r 03 0102 0304 | r 05 01020304 | d 04 010203 04 | d 00 01020304
        an array up to the end and bits behind a label @ byte = e; bitstring[3]; string; e: bitstring[5]; array { byte; }; => r 0B 2A | r 13 20 2A 07 | d 10 20 2A
        rows of rows up to a label, each with its number @ byte = (e - s) / 8; s: array { byte = $$CountOf(in); array in { byte; }; }; e: pstring; => r 03 02 05 06 00 | r 04 01 05 01 06 00 | d 02 02 05 06 00 | d 04 02 05 06 01 00 | d 00 02 05 06 00
        rows of stated rows up to a label @ byte = (e - s) / 8; s: array { array[2] { byte; }; }; e: pstring; => r 04 01 02 03 04 00 | r 00 00 | d 03 01 02 03 00
        rows up to a label with a late number in each @ byte = (e - s) / 8; s: array { byte; byte = f; }; e: pstring; f: => d 02 07 28 00
        rows up to a label with its place in each @ byte = (e - s) / 8; s: array { byte; integer = e; }; e: pstring; => r 03 07 0020 00 | r 06 07 0038 08 0038 00 | r 00 00 | d 06 07 0038 08 0039 00
        rows up to a label with formats of its place @ byte = (e - s) / 8; s: array { byte; pstring = $$Format("%d", e); }; e: pstring; => d 04 07 02 "40" 00
    """)
    for count in (1, 2, 16, 17, 64, 65, 200):
        case("a string of %d bytes up to a label" % count, "byte = (e - s) / 8; s: string; e: byte;", "r",
             [b"\\'\"\0" * (count // 4) + b"q" * (count % 4), 7])
        case("%d rows up to a label" % count, "byte = (e - s) / 8; s: array { bitstring[8]; }; e: byte;", "r",
             [[[k] for k in range(count)], 7])
