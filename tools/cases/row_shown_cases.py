"""Writes row_shown.cases: what `derez` shows of types with labels in rows, indexes and the numbers of rows.

Beside right bytes stand those of compilers that are wrong, of label_wrong.py.
"""
from label_book import KINDS, Shown, fields_of, rows, stated
from model import label_wrong
from model.faults import Refused
from model.label_types import (Align, Array, Format, Label, Switch, at, at_row, bits_at, byte, byte_at, field_bits,
                               integer, key, longint, num, number, points, row_of, rows_of, text)
from model.labels import FACTS, bytes_of, width_of

SHOWN = Shown("row_shown.cases", "row_shown_cases.py",
    "What derez shows of types with labels in rows, indexes and the numbers of rows.")
LENGTH = (at("e") - at("s")) / 8


def counted(name, *row):
    return [byte(rows_of(name)), rows(name, *row)]


def string(*fields):
    return [Label("s"), text("string", says="hex "), Label("e")] + list(fields)


@SHOWN.part("By hand.")
def worked():
    case = SHOWN.shows
    case("a length in each row, with its own byte in it",
        "integer = $$CountOf(recs); array recs { b: byte = (e - b) / 8; hex string; e: };", "rrrdddd",
        "0002 02AA 03BBCC", "0000", "0001 01", "0002 02AA 04BBCC", "0002 02AA 02BBCC", "0001 00", "0002 02AA 03BB",
        kind="Recs", first=128, out="resource 'Recs' (128) {\n    {\n        $\"AA\",\n        $\"BBCC\"\n    }\n};\n\n"
        "resource 'Recs' (129) {\n    {\n    }\n};\n\nresource 'Recs' (130) {\n    {\n        $\"\"\n    }\n};\n\n"
        "data 'Recs' (131) {\n    $\"0002 02AA 04BB CC\"\n};\n\ndata 'Recs' (132) {\n    $\"0002 02AA 02BB CC\"\n};\n\n"
        "data 'Recs' (133) {\n    $\"0001 00\"\n};\n\ndata 'Recs' (134) {\n    $\"0002 02AA 03BB\"\n};\n\n")
    case("the number of each row, and behind them the place of the second",
         "integer = $$CountOf(rows); array rows { p: integer = $$ArrayIndex(rows); pstring; }; integer = p[2] / 8;",
         "rdddd", "0002 00010141 0002024243 0006", "0002 00010141 0002024243 0002", "0001 00010141 0002",
         "0002 00000141 0001024243 0006", "0002 00010141 0001024243 0006", kind="Tail", first=128,
         out="resource 'Tail' (128) {\n    {\n        \"A\",\n        \"BC\"\n    }\n};\n\n"
         "data 'Tail' (129) {\n    $\"0002 0001 0141 0002 0242 4300 02\"\n};\n\ndata 'Tail' (130) {\n    $\"0001 0001 0141 0002\"\n};\n\n"
         "data 'Tail' (131) {\n    $\"0002 0000 0141 0001 0242 4300 06\"\n};\n\n"
         "data 'Tail' (132) {\n    $\"0002 0001 0141 0001 0242 4300 06\"\n};\n\n")
    case("the place of the first row in front of the rows can't be read", [integer(at_row("p", 1) / 8), integer(rows_of("rows")),
        rows("rows", Label("p"), text("pstring"))], "dd", "0004 0001 0141", "0000 0000", kind="Head", first=128,
        out="data 'Head' (128) {\n    $\"0004 0001 0141\"\n};\n\ndata 'Head' (129) {\n    $\"0000 0000\"\n};\n\n")


# Compilers that are wrong.

def compiled(name, body, *values):
    """The bytes of rows are shown by their fields, and what wrong compilers make of them as bytes."""
    body, contents, marks = fields_of(body), [], ""
    for row in values:
        try:
            contents.append(bytes_of(body, row).hex())
            marks += "r"
        except Refused:
            pass
        for lays in label_wrong.WRONG:
            try:
                content = bytes_of(body, row, FACTS, lays).hex()
            except (Refused, IndexError, AttributeError):
                continue
            if content not in contents:
                contents.append(content)
                marks += "d"
    SHOWN.shows(name, body, marks, *contents)


@SHOWN.part("The bytes of rows, and then those of compilers that are wrong: of indexes that are taken for others.")
def compilers():
    strings = counted("a", Label("p"), text("pstring"), Label("q"))
    lines = [[[b"x"], [b"yz"], [b""]], [[b""], [b"yz"], [b"uvw"], [b"t"]], [[b"x"], [b"yz"]], [[b""], [b""]], [[b"a"]], []]
    for name, index in [("1", number(1)), ("2", number(2)), ("3", number(3)), ("0", number(0)), ("-1", number(-1)),
            ("the number of rows", rows_of("a")), ("one less than the number of rows", rows_of("a") - 1),
            ("half the number of rows", (rows_of("a") + 1) / 2), ("one more than the number of rows", rows_of("a") + 1)]:
        for label, end in (("p", "first"), ("q", "last")):
            compiled("the %s label of the row by %s" % (end, name), strings + [byte(at_row(label, index) / 8)],
                *[[each] for each in lines])
    for name, expr in [("a difference of two rows", (at_row("p", 2) - at_row("p", 1)) / 8), ("a difference of two labels of a row",
            (at_row("q", 2) - at_row("p", 2)) / 8), ("a sum of rows", (at_row("p", 1) + at_row("p", 2)) / 8),
            ("a comparison of rows", at_row("p", 2) > 32), ("a remainder of a row", at_row("p", 2) % 32)]:
        compiled(name, strings + [byte(expr)], *[[each] for each in lines])
    compiled("an index by an item", strings + [Label("n"), byte(), byte(at_row("p", byte_at("n")) / 8)],
        [lines[0], 1], [lines[0], 2], [lines[0], 3], [lines[0], 0], [lines[0], 4], [lines[5], 1])
    compiled("a size by an index", strings + [text("string", at_row("p", 2) / 8 % 4), byte()], [lines[0], b"abc", 1], [lines[2], b"abc",
        1], [lines[4], b"abc", 1])
    compiled("a format by an index", strings + [text("pstring", None, [Format(b"%d", [at_row("q", 1)])])], [lines[0]], [lines[1]],
        [lines[4]], [[]])
    compiled("a point by indexes", strings + [points(at_row("p", 1), at_row("p", 2))], [lines[0]], [lines[1]], [lines[4]])
    compiled("bits by an index", [Label("o")] + strings + [byte(bits_at("o", at_row("p", 2), number(8)))], [lines[0]], [lines[1]],
        [lines[4]])
    compiled("an index in other rows", strings + counted("t", byte(at_row("p", row_of("t")) / 8), byte()),
        [lines[0], [[1], [2], [3]]], [lines[0], [[1], [2]]], [lines[0], []], [lines[4], [[1]]], [lines[4], [[1], [2]]],
        [[], [[1]]])
    compiled("the row from behind in other rows", strings + counted("t", byte(at_row("p", rows_of("a") + 1 - row_of("t")) / 8), byte()),
        [lines[0], [[1], [2], [3]]], [lines[2], [[1], [2]]], [lines[2], [[1], [2], [3]]])
    for width in (1, 3, 7, 9):
        body = counted("a", Label("p"), field_bits(width)) + [Label("z"), longint(at_row("p", 2) + at("z"))]
        compiled("the second of rows of %d bits" % width, body, [[[1], [0], [1]]], [[[0], [1]]], [[[0]]])
    SHOWN.say("The same of the numbers of rows.")
    some = [[[1]], [[1], [2]], [[1], [2], [3]], []]
    for name, expr in [("alone", row_of("a")), ("less 1", row_of("a") - 1), ("times 3", row_of("a") * 3), ("by 2", row_of("a") / 2),
            ("in front of a difference", 10 - row_of("a")), ("with bits that it has", row_of("a") & 1), ("behind the number of rows",
            rows_of("a") * 16 + row_of("a")), ("shifted", number(1) << row_of("a")), ("in an equality",
            row_of("a") > 1), ("with a sign", -row_of("a"))]:
        compiled("the number of the row %s" % name, counted("a", byte(expr), byte()), *[[each] for each in some])
    compiled("the number of the row in a size", "byte = $$CountOf(a); array a { byte; string[$$ArrayIndex(a)]; };",
             [[[7, b"x"], [8, b"xy"]]], [[[7, b"x"]]])
    compiled("the number of the row in a format",
        'byte = $$CountOf(a); array a { byte; pstring = $$Format("%d", $$ArrayIndex(a)); };', [[[7], [8]]], [[[7]]])
    compiled("the number of the row in a point", counted("a", byte(), points(row_of("a"), 0)), [[[7], [8]]], [[[7]]])
    compiled("the number of the row in a case", counted("a", Switch([("A", [key("byte", 1), byte(row_of("a"))]), ("B",
        [key("byte", 2)])])), [[[("A", [])], [("B", [])], [("A", [])]]])
    two = [counted("i", byte(), byte(row_of("o") * 16 + row_of("i")))]
    compiled("the numbers of two rows", counted("o", *two[0]), [[[[[7], [8]]], [[[9]]], [[]], [[[1], [2], [3]]]]])
    three = counted("o", *counted("m", *counted("i", byte(row_of("o") * 64 + row_of("m") * 8 + row_of("i")), field_bits(2)), Align("byte")))
    compiled("the numbers of three rows", three, [[[[[[[1], [2]]], [[[3]]]]], [[[[[1], [0], [1]]]]]]])
    compiled("the number of the outermost row of three", counted("o", *counted("m", *counted("i", byte(row_of("o")), byte()))),
        [[[[[[[1], [2]]], [[[3]]]]], [[[[[1], [0], [1]]]]]]])
    compiled("the number of the middle row of three", counted("o", *counted("m", *counted("i", byte(row_of("m")), byte()))),
        [[[[[[[1], [2]]], [[[3]]]]], [[[[[1], [0], [1]]]]]]])
    compiled("the number of the row around a row without a name",
        "byte = $$CountOf(o); array o { array[2] { byte = $$ArrayIndex(o); byte; }; };", [[[[[7], [8]]], [[[9], [1]]]]])
    SHOWN.say("Labels of rows of rows.")
    inner = counted("i", Label("w"), text("pstring"))
    compiled("a label of the inner rows in each outer one", counted("o", *inner, byte(at_row("w", rows_of("i")) / 8)),
        [[[[[b"a"], [b"bc"]]], [[[b""]]]]], [[[[]]]])
    compiled("labels of both rows", counted("o", Label("v"), *inner, byte((at_row("w", 1) - at("v")) / 8)) + [byte(at_row("v", 2) / 8)],
        [[[[[b"a"], [b"bc"]]], [[[b""]]]]], [[[[[b""]]]]])
    compiled("a label of the inner rows behind a row of other ones", counted("o", *inner, *counted("t", byte(at_row("w", row_of("t")) / 8),
        byte())), [[[[[b"a"], [b"bc"]], [[1], [2]]], [[[b""]], [[3]]]]])


# Solving in rows.

def lengths(name, expr, marks, form="byte"):
    """Rows of one string each with a number by an expression in front, with no rows, a row of no byte, and so on."""
    body = counted("a", num(form, expr), *string(byte()))
    SHOWN.shows(name, body, "r" + marks, [[]], *[[[[b"abcdefghi"[:k], 7]]] for k in range(len(marks))])
    two = [[[[b"abcdefghi"[:k], 7], [b"", 8], [b"xyz"[:k], 9]]] for k in range(len(marks))]
    SHOWN.shows(name + ", in three rows", body, "".join("r" if mark == "r" and marks[0] == "r" else "d" for mark in marks), *two)


@SHOWN.part("The length of a string in its row, which has 0 bytes, 1 byte and so on; and three rows, the second "
            "without bytes.")
def solving():
    for name, expr, marks in [
            ("alone", LENGTH, "rrrr"), ("and 3", LENGTH + 3, "rrrr"), ("3 and", 3 + LENGTH, "rrrr"), ("less -2", LENGTH - number(-2), "rrrr"),
            ("3 less", 3 - LENGTH, "rrrr"), ("times 3", LENGTH * 3, "rrrr"), ("3 times", 3 * LENGTH, "rrrr"), ("by 1", LENGTH / 1, "rrrr"),
            ("by 2", LENGTH / 2, "rdrd"), ("times 6 by 2", LENGTH * 6 / 2, "rrrr"), ("times 3 by 2", LENGTH * 3 / 2, "rdrd"),
            ("to the left by 3", LENGTH << 3, "rrrr"), ("to the right by 1", LENGTH >> 1, "rdrd"), ("to the right by 32", LENGTH >> 32, "dddd"),
            ("by 0", LENGTH / 0, "dddd"), ("times 0", LENGTH * 0, "dddd"), ("in bits", at("e") - at("s"), "rrrr"),
            ("in nibbles", (at("e") - at("s")) / 4, "rrrr"), ("with the number of the row", LENGTH + row_of("a"), "rrrr"),
            ("times the number of the row", LENGTH * row_of("a"), "rrrr"), ("by the number of rows", LENGTH + rows_of("a"), "rrrr"),
            ("to the left by the number of the row", LENGTH << row_of("a"), "rrrr")]:
        lengths("a length of each row %s" % name, expr, marks)
    SHOWN.say("What can't be undone, so that the type can't be read.")
    for name, expr in [("a remainder", LENGTH % 100), ("bits that both have", LENGTH & 255), ("a complement", ~~LENGTH),
            ("the label twice", at("e") / 8 + at("e") / 8 - at("s") / 4), ("a comparison", LENGTH < 9),
            ("the label in an index", at_row("w", LENGTH + 1)), ("the label in an index and outside", LENGTH + at_row("w", at("e")) * 0)]:
        body = [stated(2, Label("w"), byte())] + counted("a", byte(expr), *string(byte()))
        SHOWN.shows("a length of each row in %s can't be solved" % name, body, "dd", [[[1], [2]], []], [[[1], [2]], [[b"", 7]]])
    SHOWN.table(r"""
        // Places in rows: of the row's own labels, near and far, before and behind.
        a near place in each row @ byte = $$CountOf(a); array a { byte = e / 16 + e % 16; byte; e: byte; }; => r [[]] | r [[[1, 2]]] | r [[[1, 2], [3, 4], [5, 6]]] | d 01 02 01 02
        a near place of the row behind isn't near @ byte = $$CountOf(a); array a { byte = e[1]; e: byte; }; => d [[]] | d [[[1]]]
        the same label solved in each row @ byte = $$CountOf(a); array a { byte = e / 8; cstring; e: byte; }; => r [[]] | r [[[b"x", 1]]] | r [[[b"x", 1], [b"", 2], [b"yz", 3]]] | d 02 04 "x" 00 01 06 00 02 | r 02 04 "x" 00 01 07 00 02
        a label solved twice in a row @ byte = $$CountOf(a); array a { byte = e / 8; byte = (e - s) / 8; s: hex string; e: byte; }; => r [[]] | r [[[b"x", 1], [b"", 2], [b"yz", 3]]] | d 01 05 01 05 | r 01 04 01 "x" 05
        a label solved in front of its row isn't solved @ byte = e[1] / 8; byte = $$CountOf(a); array a { s: hex string; e: byte; }; => d 03 01 61 07 | d 00 00
        a label that a row solved isn't solved in the next @ byte = $$CountOf(a); array a { switch { case A: key byte = 1; byte = (e - s) / 8; s: hex string; e: case B: key byte = 2; }; }; => r [[[("A", [b"xy"])], [("B", [])], [("A", [b""])]]] | r 02 01 00 02 | d 01 01 02 61 | d 02 01 01 61 01
        a row's label isn't known in the next row @ byte = $$CountOf(a); array a { p: byte; byte = p[$$ArrayIndex(a)]; }; => d [[]] | d 01 05 08
        a solved place around, in rows and behind them @ byte = e / 8; byte = $$CountOf(a); array a { byte = e / 8; pstring; }; e: byte; => r 02 00 07 | r 05 01 05 01 61 07 | d 05 01 04 01 61 07 | d 04 01 04 01 61 07
        a label of a row by a solved place around @ byte = e / 8; byte = $$CountOf(a); array a { byte = (e - b) / 8; pstring; b: byte; }; e: byte; => r 02 00 07 | r 06 01 01 01 61 05 07 | d 06 01 02 01 61 05 07
        // What ends an open array with labels in its rows, and an open array in a row.
        rows up to the end of the resource @ array a { b: byte = (e - b) / 8; string; e: }; => r | r 01 | r 02 "x" 01 03 "yz" | d 02 | d 00
        rows up to the end, with fields behind @ array a { b: integer = (e - b) / 8; string; e: byte; }; byte; byte = 9; => r 07 09 | r 0003 "x" 05 0002 06 07 09 | d 0003 "x" 05 07 08 | d 0003 "x" 05 0002 06 07
        rows up to a solved label @ byte = (z - y) / 8; y: array a { b: byte = (e - b) / 8; string; e: }; z: byte = b[2] / 8; => r 03 01 02 "x" 02 | r 05 02 "x" 03 "yz" 03 | d 01 01 02 | d 03 02 "x" 02 02 | d 00 00
        rows in each row up to a label that it solves @ byte = $$CountOf(o); array o { byte = (e - s) / 8; s: array i { w: byte; }; e: byte = w[1] - s & 1; }; => r [[[[[5]]]]] | r [[[[[5], [6]]], [[[7]]]]] | d 01 00 00 | d 01 01 05 01 | d 00 00
        rows in each row by a number of the row @ byte = $$CountOf(o); array o { byte = $$CountOf(i); array i { w: byte; }; byte = w[1] / 8; }; => r [[]] | r [[[[[5], [6]]], [[[7]]]]] | d 01 00 00 | d 01 01 05 03
        rows in each row by a number with the number of the row @ byte = $$CountOf(o); array o { v: byte = $$CountOf(i) + $$ArrayIndex(o); array i { byte; byte = v / 8; }; }; => r [[]] | r [[[[[5], [6]]], [[]]]] | d 01 02 05 02 | d 01 00
        rows of no bits by a number @ byte = $$CountOf(a); array a { p: byte; fill bit[0]; }; => r [[]] | r [[[1]]]
    """)


@SHOWN.part("When an index is known: when its array has ended.")
def readable():
    case = SHOWN.shows
    array = stated(2, Label("w"), byte())
    said = LENGTH + row_of("a")
    SHOWN.table(r"""
        an index behind its array @ array[2] { w: byte; }; byte = w[2]; => r 0506 08 | d 0506 00
        an index in front of its array @ byte = w[2] / 8; array[2] { w: byte; }; => d 02 0506
        an index in its array @ array[2] { w: byte = w[1]; byte; }; => d 0005 0006
        an index in an array of its array @ array[1] { w: array[1] { byte = w[1]; byte; }; }; => d 0005
        an index in a case of its array @ array[1] { w: switch { case A: key byte = 1; byte = w[1]; byte; }; }; => d 010005
        an index in a case behind its array @ array[2] { w: byte; }; switch { case A: key byte = 1; byte = w[2]; }; => r 0506 01 08 | d 0506 01 00
        an index in a row behind its array @ array[2] { w: byte; }; array a { byte = w[2]; byte; }; => r 0506 | r 0506 0807 | d 0506 0807 0008
        an index in a size behind its array @ array[2] { w: byte; }; string[w[2] / 8]; => r 0506 "x" | d 0506
        an index in a size in front of its array @ string[w[1]]; array[2] { w: byte; }; => d 0506
        an index in a format in front of its array @ pstring = $$Format("%d", w[1]); array[2] { w: byte; }; => d 01 "0" 0506
        an index in a format behind its array @ array[2] { w: byte; }; pstring = $$Format("%d", w[2]); => r 0506 01 "8" | d 0506 01 "9"
        an index of an array without rows @ array[0] { w: byte; }; byte = w[1]; => d 00 | d 08
        an index of rows that the end of the resource ends @ array a { w: byte; }; byte; byte = w[2]; => r 0506 07 08 | r 050607 07 08 | d 05 07 00 | d 0506 07 00
        an index of rows in rows from the row around @ array[2] { array[2] { w: byte; }; byte = w[2]; }; => r 0506 08 0708 20 | d 0506 08 0708 08
        an index of rows in rows in other rows of them @ array[2] { array[2] { w: byte; }; array[1] { byte = w[1]; byte; }; }; => r 0506 0001 0708 2002 | d 0506 0001 0708 0002
        // What stands in an index.
        an index by a near label @ array[2] { w: byte; }; n: byte; byte = w[e / 16]; e: => r 0506 01 08 | d 0506 01 00
        an index by a number before @ array[2] { w: byte; }; n: byte; byte = w[$$Byte(n)]; e: => r 0506 01 00 | r 0506 02 08 | d 0506 02 00 | d 0506 03 08
        an index by an index that is known @ array[2] { w: byte; }; n: byte; byte = w[w[2] / 8]; e: => r 0506 01 00 | d 0506 01 08
        an index by the index itself @ array[2] { w: byte; }; n: byte; byte = w[w[w[w[2] / 8] + 2] / 8]; e: => d 0506 01 01 | r 0506 01 00
        an index by a place behind a string isn't known @ array[2] { w: byte; }; byte = w[z / 24]; cstring; z: => d 0506 00 00
        an index by a place behind what the end of the resource ends isn't known @ array[2] { w: byte; }; byte = w[z / 24]; string; z: => d 0506 00 61
        an index by a number of rows up to the end of the resource isn't known @ array[2] { w: byte; }; byte = w[$$CountOf(r)]; array r { byte; }; => d 0506 00 07
        an index by a label in rows behind it isn't known @ array[2] { w: byte; }; byte = w[x[1] / 24]; array[1] { x: byte; }; => d 0506 00 07
        an index by a place behind its rows isn't known @ array[2] { w: byte; }; byte = w[z / 24]; array r { byte; }; z: => d 0506 00 07
        // The number of the row where it takes part in what is read, in cases and in rows of rows.
        the number of the row beside a length in a case @ byte = $$CountOf(a); array a { switch { case A: key byte = 1; byte = (e - s) / 8 + $$ArrayIndex(a); s: hex string; e: case B: key byte = 2; string[$$ArrayIndex(a)]; case C: key byte = 3; pstring = $$Format("%d", $$ArrayIndex(a)); }; }; => r 00 | r 01 01 03 "xy" | r 04 01 03 "ab" 01 03 "c" 02 "def" 03 01 "4" | d 01 01 02 "xy" | d 01 02 | d 02 02 61 03 01 "1"
    """)
    for name, between in [("without a name", stated), ("with a name", lambda count, *row: Array("b", None, list(row)))]:
        ahead = [byte(rows_of("b"))] * (name == "with a name")
        body = counted("a", *ahead, between(2, byte(said), *string()))
        two, one = ("02 ", "02 ") if ahead else ("", "")
        case("the number of the row around beside a length in rows %s" % name, body, "rrdd", "00", "02 " + two + '02 "x" 01 ' + one
            + '03 "y" 04 "zz"', "02 " + two + '02 "x" 01 ' + one + '02 "y" 03 "zz"', "01 " + two + '02 "x" 03 "y"')
        body = counted("a", *ahead, between(2, text("string", row_of("a")), byte()))
        case("the number of the row around as a size in rows %s" % name, body, "rrdd", "00", "02 " + two + "61 01 62 02 " + one
            + "6364 03 6566 04", "02 " + two + "61 01 62 02 " + one + "63 03 64 04", "01 " + two + "61 01 6263 02")
    SHOWN.say("An index that is known beside what is solved.")
    solved = [("and", LENGTH + at_row("w", 2), "rd", ('0506 0A "xy"', '0506 02 "xy"')), ("times", LENGTH * at_row("w", 2) / 4, "rd",
        ('0506 04 "xy"', '0506 05 "xy"')), ("less", at_row("w", 2) - LENGTH, "rd", ('0506 06 "xy"', '0506 08 "xy"')),
        ("by", LENGTH * 8 / at_row("w", 2), "rd", ('0506 02 "xy"', '0506 03 "xy"')),
        ("and no row", LENGTH + at_row("w", 3), "dd", ('0506 02 "xy"', "0506 00")), ("by place 0", LENGTH / at_row("w", 1), "dd",
        ('0506 00 "xy"', "0506 00"))]
    for name, expr, marks, contents in solved:
        case("a length %s a row's place" % name, [array, byte(expr)] + string(), marks, *contents)
    case("a length that isn't known beside an index that isn't", [byte(LENGTH + at_row("w", 1)), array] + string(), "d", '00 0506 "xy"')
    case("a length behind a row's label", [array, byte((at("e") - at_row("w", 2)) / 8)] + string(byte()), "rdd", '0506 04 "xy" 07',
        '0506 02 "xy" 07', "0506 01 07")
    case("a number of rows over a row's place", [array, byte(rows_of("a") + at_row("w", 2)), rows("a", byte()), byte()], "rrdd",
        "0506 0A 0102 07", "0506 08 07", "0506 07 07", "0506 0B 0102 07")


@SHOWN.part("Each kind of field between labels of a row: its width by an index from behind, and a place that isn't "
            "right.")
def kinds():
    for name, field, values in KINDS:
        if isinstance(field, Array) and field.count is None and not field.name:
            continue
        row = [byte(rows_of(field.name))] if isinstance(field, Array) and field.name else []
        is_open = getattr(field, "form", None) == "string" and field.size is None
        row += [Label("a"), field, Label("z"), byte()]
        body = counted("rows", *row) + [Align("byte"), longint(at_row("z", 2) - at_row("a", 2))]
        lines = [[values + [5], values + [6]]]
        right = bytes_of(body, lines)
        wrong = right[:-1] + bytes([right[-1] ^ 1])
        SHOWN.shows("the width of %s in the second row" % name, body, "dd" if is_open else "rd", right.hex(), wrong.hex())
    SHOWN.say("Rows of fixed width and free ones, in front of a label that ends an open string.")
    for name, field, marks in [("fixed rows", stated(2, Label("w"), byte()), "rrd"), ("fixed rows of rows", stated(1, Label("w"),
            stated(2, Label("v"), byte())), "rrd"), ("rows with a pstring", stated(2, Label("w"), text("pstring")), "ddd"),
            ("rows with an align", stated(2, Label("w"), byte(), Align("byte")), "ddd"), ("no rows", stated(0, Label("w"), text("pstring")),
            "ddd")]:
        inside = {"fixed rows": "0506", "fixed rows of rows": "0506", "rows with a pstring": "0000", "rows with an align": "0506",
            "no rows": ""}[name]
        SHOWN.shows("a string in front of %s and its end" % name, [byte(LENGTH), Label("s"), text("string"), field, Label("e")], marks,
            "%02X 61 %s" % (1 + len(inside) // 2, inside), "%02X %s" % (len(inside) // 2, inside), "%02X 61 %s" % (len(inside) // 2, inside))
    for name, field in [("fixed rows", stated(2, Label("w"), byte())), ("rows of rows", stated(2, stated(1, Label("w"), byte())))]:
        SHOWN.shows("a place over %s is near" % name, [byte(at("e") & 255), field, Label("e"), byte()], "rd", "18 0506 07", "10 0506 07")
        assert width_of(field) == 16


@SHOWN.part("Types as they might be used: a directory of records, a table of lines, and chunks in chunks.")
def again():
    case = SHOWN.shows
    records = [integer(rows_of("recs")), rows("dir", longint(at_row("body", row_of("dir")) / 8), integer()),
        rows("recs", Label("body"), text("pstring"))]
    case("a directory in front of records can't be read", records, "d", [[[1], [2]], [[b"a"], [b"bc"]]])
    case("a directory behind records",
         "integer = $$CountOf(recs); array recs { body: pstring; align word; }; integer = $$CountOf(dir); array dir { longint = body[$$ArrayIndex(dir)] / 8; byte; };",
         "rrddd", [[[b"a"], [b"bc"]], [[1], [2]]], [[], []], "0001 01 61 0001 00000001 07",
         "0001 01 61 0002 00000002 07 00000002 08", "0001 01 61 0001 00000002", out=None)
    SHOWN.table(r"""
        chunks in chunks @ array outer { o: integer = (p - o) / 8; array inner { i: integer = (j - i) / 8; string; j: }; p: }; => r | r 0002 | r 0005 0003 "x" | d 0005 0004 "x" | d 0006 0003 "x" | d 0005 0003 "x" 00
        a sum over the rows before @ byte = $$CountOf(a); array a { p: pstring; }; array b { byte = (p[2] - p[1]) / 8 * $$ArrayIndex(b); byte; }; => r 02 01 "x" 00 | r 02 01 "x" 00 02 07 04 08 | d 02 01 "x" 00 02 07 02 08 | d 01 01 "x" 00 07
        a padding byte in each row @ byte = $$CountOf(a); array a { s: pstring; e: string[(e - s) / 8 % 2]; }; => r [[]] | r 03 00 00 01 61 02 6263 00 | r 01 00 01 | d 02 00 00 02 6263
        filler by the place in a row @ byte = $$CountOf(a); array a { byte; e: string[e / 8 % 2]; integer; }; => r [[[1, b"", 2], [3, b"", 4]]] | r 01 05 0007 | d 01 05 00 0007
        numbers with symbols and digits in rows @ byte = $$CountOf(a); array a { p: hex integer; point; boolean; char; align byte; }; integer = p[1]; => r [[[258, (1, -1), 1, 65], [0, (0, 0), 0, 0]]] | d 00 0000
        a string's last zero in rows @ byte = $$CountOf(a); array a { n: byte; string[$$Byte(n)]; }; => r 02 02 6100 01 62 | r 02 00 01 00 | d 01 02 61
        a cstring with a zero in rows @ byte = $$CountOf(a); array a { n: byte; cstring[$$Byte(n)]; }; => r 01 02 61 00 | d 01 03 61 00 62 | d 01 00
        late numbers in rows, of which bits are read @ byte = $$CountOf(a); array a { n: byte = e / 8; cstring; e: byte = $$Byte(n) - 1; }; => r [[]] | r [[[b"x"], [b""]]] | d 01 04 "x" 00 04
    """)
    case("two types with arrays of one name", [rows("a", Label("w"), byte(row_of("a")), byte()), byte(), byte(at_row("W", 1))], "rd",
        "0105 0206 07 00", "0105 0206 07 08", also="type 'Last' { array A { W: byte = $$ArrayIndex(a); byte; }; };\n")
