"""Writes row_labels.cases: labels in rows of arrays, their places by an index, and the numbers of rows."""
from label_book import Cases, KINDS, rows, stated
from model.label_types import (Align, Expr, Label, Switch, at, at_row, bits_at, byte, byte_at, fact, integer, key,
                               longint, number, row_of, rows_of, text)
from model.labels import FACTS

ROWS = Cases("row_labels.cases", "row_label_cases.py",
    "Labels in rows of arrays: their places in each row, by an index from outside, and the numbers of rows.",
    "row_labels_read.cases")


def counted(name, *row, form=byte):
    """The number of rows, and the rows."""
    return [form(rows_of(name)), rows(name, *row)]


ROWS.lines_of("By hand.", r"""
a length in each row, with its own byte in it @ integer = $$CountOf(recs); array recs { b: byte = (e - b) / 8; hex string; e: }; @ [[b"\xaa"], [b"\xbb\xcc"]] => 0002 02 AA 03 BBCC
a length in each row, and strings without bytes @ integer = $$CountOf(recs); array recs { b: byte = (e - b) / 8; hex string; e: }; @ [[b""], [b"\xbb"], [b""]] => 0003 01 02 BB 01
a length in each row, and no rows @ integer = $$CountOf(recs); array recs { b: byte = (e - b) / 8; hex string; e: }; @ [] => 0000
the number of each row, and behind them the place of the second @ integer = $$CountOf(rows); array rows { p: integer = $$ArrayIndex(rows); pstring; }; integer = p[2] / 8; @ [[b"A"], [b"BC"]] => 0002 0001 01 "A" 0002 02 "BC" 0006
the place of the second of three rows @ integer = $$CountOf(rows); array rows { p: integer = $$ArrayIndex(rows); pstring; }; integer = p[2] / 8; @ [[b"A"], [b"BC"], [b""]] => 0003 0001 01 "A" 0002 02 "BC" 0003 00 0006
the place of the second row where there is one @ integer = $$CountOf(rows); array rows { p: integer = $$ArrayIndex(rows); pstring; }; integer = p[2] / 8; @ [[b"A"]] => 223 BadIndex: 2
the place of the second row where there are none @ integer = $$CountOf(rows); array rows { p: integer = $$ArrayIndex(rows); pstring; }; integer = p[2] / 8; @ [] => 223 BadIndex: 2
the place of the first row in front of the rows @ integer = p[1] / 8; integer = $$CountOf(rows); array rows { p: pstring; }; @ [[b"A"]] => 0004 0001 01 "A"
the place of the first row in front of no rows @ integer = p[1] / 8; integer = $$CountOf(rows); array rows { p: pstring; }; @ [] => 223 BadIndex: 1
the number of the row in front of the rows @ type 'Bad ' { integer = $$ArrayIndex(rows); array rows { byte; }; }; => 1: 212 UnknownLabel: "rows"
an index that leads to each of three parts @ byte = $$CountOf(parts); array parts { byte; p: pstring; }; byte = p[1] / 8; byte = p[2] / 8; byte = p[3] / 8; @ [[1, b"a"], [2, b""], [3, b"bc"]] => 03 01 01 "a" 02 00 03 02 "bc" 02 05 07
a table of places behind rows of any width @ byte = $$CountOf(a); array a { p: pstring; }; byte = $$CountOf(t); array t { byte = p[$$ArrayIndex(t)] / 8; byte; }; @ [[b"xy"], [b""], [b"z"]], [[7], [8], [9]] => 03 02 "xy" 00 01 "z" 03 01 07 04 08 05 09
a table of places in front of rows of any width @ byte = $$CountOf(t); array t { integer = p[$$ArrayIndex(t)] / 8; byte; }; byte = $$CountOf(a); array a { p: pstring; }; @ [[7], [8]], [[b"xy"], [b""]] => 02 0008 07 000B 08 02 02 "xy" 00
a table of lengths in front of strings, by the label behind each @ byte = $$CountOf(t); array t { byte = (e[$$ArrayIndex(t)] - s[$$ArrayIndex(t)]) / 8; byte; }; array a { s: pstring; e: }; @ [[1], [2]], [[b"xy"], [b"abc"]] => 02 03 01 04 02 02 "xy" 03 "abc"
""")


@ROWS.part("Labels before and behind each kind of field of a row; the places stand behind, and in front.")
def positions():
    for name, field, values in KINDS:
        body = counted("rows", byte(), Label("a"), field, Label("z"), integer(at("z") - at("a")))
        behind = [longint(at_row(label, which)) for label in ("a", "z") for which in (1, 2)]
        lines = [[[5] + values, [6] + values]]
        ROWS.row("labels around %s in a row, named behind" % name, body + [Align("byte")] + behind, lines)
        ROWS.row("labels around %s in a row, named in front" % name, behind + body, lines)
    ROWS.say("The same in the row itself, and in rows of rows.")
    for name, field, values in KINDS:
        inner = [Label("a"), field, Label("z"), byte((at("z") - at("a")) & 127), byte()]
        ROWS.row("labels around %s in rows of rows" % name, [stated(2, byte(), stated(1, *inner)), longint(at("e")), Label("e")],
            [[[1, [values + [2]]], [3, [values + [4]]]]])


@ROWS.part("Indexes: of the first row, of the last, one more, none, and less.")
def indexes():
    row = ROWS.row
    for count in range(4):
        for index in (-2147483648, -2, -1, 0, 1, 2, 3, 4, 255, 2147483647):
            told = "223 BadIndex: %d" % index
            if 1 <= index <= count:
                told = "%02X " % count + "".join("%02X" % (k + 1) for k in range(count)) + " %02X" % (8 * index)
            row("the index %d of %d rows, behind them" % (index, count), counted("a", Label("p"), byte())
                + [byte(at_row("p", number(index)))], [[[k + 1] for k in range(count)]], told)
    for count in range(3):
        for index in (-1, 0, 1, 2, 3):
            told = "223 BadIndex: %d" % index
            if 1 <= index <= count:
                told = "%02X %02X " % (8 + 8 * index, count) + "".join("%02X" % (k + 1) for k in range(count))
            row("the index %d of %d rows, in front of them" % (index, count), [byte(at_row("p", number(index)))]
                + counted("a", Label("p"), byte()), [[[k + 1] for k in range(count)]], told)
            told = "223 BadIndex: %d" % index
            if 1 <= index <= count or not count:
                told = "%02X " % count + " ".join("%02X %02X" % (16 * index - 8, k + 1) for k in range(count))
            row("the index %d of %d rows, in them" % (index, count), counted("a", Label("p"), byte(at_row("p", number(index))),
                byte()), [[[k + 1] for k in range(count)]], told)
    ROWS.say("What gives an index: the rows stand at 16, 24 and 32, the labels at 0, 8 and 40, and the first byte is 1.")
    p, o, q, z = (lambda index: at_row("p", index)), at("o"), at("q"), at("z")
    for name, index, told in [
            ("a sum", number(1) + 1, 24), ("a difference", number(5) - 2, 32), ("a negative difference", number(2) - 5, "-3"),
            ("the number of rows", rows_of("a"), 32), ("one more than the number of rows", rows_of("a") + 1, "4"),
            ("one less than the number of rows", rows_of("a") - 1, 24), ("a place in bytes", q / 8, 16), ("a place in bits", q, "8"),
            ("a difference of labels", (q - o) / 8, 16), ("a difference of labels the other way", (o - q) / 8, "-1"),
            ("a difference of a label and itself", q - q, "0"), ("a difference of a label and one of a row", (z - p(1)) / 8, 32),
            ("a difference of labels of two rows", (p(3) - p(1)) / 8, 24), ("a label of a row", p(1) / 8, 24),
            ("a label of a row that a label of a row names", p(p(1) / 8) / 8, 32), ("a label of a row in bits", p(1), "16"),
            ("a label of a row that isn't there", p(p(4)), "4"), ("a label of no row", p(p(p(0))), "0"),
            ("a byte that an item gives", byte_at("o"), 16), ("a byte that is the number of rows", byte_at("q"), 32),
            ("a bit", bits_at("o", number(7), number(1)), 16), ("a bit that is 0", bits_at("o", number(6), number(1)), "0"),
            ("true", at("true"), 16), ("false", at("false"), "0"), ("the id", fact("ID"), 16), ("a remainder", number(8) % 3, 24),
            ("what wraps", number(2147483647) + 1, "-2147483648"), ("a comparison", p(2) > p(1), 16),
            ("a comparison that fails", p(2) < p(1), "0"), ("a complement", ~number(-3), 24), ("a denial", Expr("!", ("number", 0)), 16),
            ("both", Expr("&&", ("number", 2), ("number", 3)), 16), ("a shift", number(1) << 1, 24),
            ("the month", fact("Month"), 16)]:
        row("the index is %s" % name, given_by(index), [1] + LINES,
            "01 03 010203 %02X" % told if isinstance(told, int) else "223 BadIndex: " + told, dict(FACTS, Month=1))
    for name, index, told in [
            ("a quotient by 0", number(1) / 0, "211 ZeroDivisor"), ("a shift by 32", number(1) << 32, "215 BadShift: 32"),
            ("a byte behind", byte_at("e"), "213 LaterData: 56"), ("33 bits", bits_at("o", number(0), number(33)),
            "213 LaterData: 33"), ("no row, and then a quotient by 0", p(p(0) + number(1) / 0), "223 BadIndex: 0"),
            ("a quotient by 0, and then no row", p(number(1) / 0 + p(0)), "211 ZeroDivisor")]:
        row("the index is %s" % name, given_by(index), [1] + LINES, told)
    ROWS.say("An index that stands behind: the number is computed after all others.")
    row("the index is a label behind", given_by(at("e") / 16 - 1), [1] + LINES, "01 03 010203 18")
    row("the index is a label behind, and no row", given_by(at("e")), [1] + LINES, "223 BadIndex: 48")
    row("the index is a late byte", [Label("n"), byte(at("e") / 24)] + counted("a", Label("p"), byte()) + [byte(p(byte_at("n"))),
        Label("e")], [[[1], [2]]], "01 02 0102 10")
    row("the index is a late byte, and no row", [Label("n"), byte(at("e") / 8)] + counted("a", Label("p"), byte())
        + [byte(p(byte_at("n"))), Label("e")], [[[1], [2]]], "223 BadIndex: 5")
    row("the index is a late byte of a size", [Label("n"), byte(at("e") / 24)] + counted("a", Label("p"), byte())
        + [text("string", p(byte_at("n"))), Label("e")], [[[1], [2]], b""], "214 SizeLater: 7")


LINES = [[[1], [2], [3]]]


def given_by(index):
    """A byte, three rows behind their number, a byte by a label of a row, and the end."""
    return ([Label("o"), byte(), Label("q")] + counted("a", Label("p"), byte()) + [Label("z"), byte(at_row("p", index)),
        Label("e")])


ROWS.lines_of("Early and late: before the array, in it, and behind it.", r"""
a place in front of its array is late @ byte = p[2]; array a { p: pstring; q: }; @ [[b"a"], [b"bc"]] => 18 01 "a" 02 "bc"
a place behind its array isn't late @ array a { p: pstring; q: }; n: byte = p[2] / 8; string[$$Byte(n)]; @ [[b"a"], [b"bc"]], b"xyz" => 01 "a" 02 "bc" 02 "xy"
a place in front of its array makes a size late @ n: byte = p[1] / 8; string[$$Byte(n)]; array a { p: pstring; q: }; @ b"x", [[b"a"], [b"bc"]] => 214 SizeLater: 2
a size by a place in a row that stands behind @ byte; string[p[1]]; array a { p: pstring; q: }; @ 1, b"", [[b"a"], [b"bc"]] => 214 SizeLater: 1
a size by a place in a row that stands before @ byte; array a { p: pstring; q: }; string[p[2] / 8 - p[1] / 8]; @ 1, [[b"a"], [b"bc"]], b"xyz" => 01 01 "a" 02 "bc" "xy"
a size by a place in a row that isn't there @ array a { p: pstring; q: }; string[p[3]]; @ [[b"a"], [b"bc"]], b"" => 223 BadIndex: 3
a size by a place in no row, and too large @ array a { p: pstring; q: }; pstring[300 + p[0]]; @ [[b"a"], [b"bc"]], b"" => 223 BadIndex: 0
a size in a row by a place in its own row @ array a { byte; p: string[p / 8 % 2 + 1]; }; @ [[7, b"xy"], [8, b"xy"]] => 07 "xy" 08 "x"
a size in a row by an index of its own array @ array a { p: byte; string[p[1]]; }; @ [[7, b"xy"], [8, b"xy"]] => 214 SizeLater: 2
a size in a row by an index of its own array, and no rows @ array a { p: byte; string[p[1]]; }; @ [] =>
a size in a row by the number of the row @ array a { byte; string[$$ArrayIndex(a)]; }; @ [[7, b"xyz"], [8, b"xyz"], [9, b"xyz"]] => 07 "x" 08 "xy" 09 "xyz"
a size in a row by a label behind the rows @ array a { byte; string[e]; }; e: @ [[1, b""]] => 214 SizeLater: 1
a size in a row by a label behind it in the row @ array a { byte; string[e]; e: }; @ [[1, b""]] => 214 SizeLater: 1
a late number in each row, of the row's end @ array a { byte = e; pstring; e: }; @ [[b"a"], [b"bc"]] => 18 01 "a" 38 02 "bc"
a late number in each row, of the row behind @ array a { byte = p[$$ArrayIndex(a) % $$CountOf(a) + 1]; p: pstring; }; @ [[b"a"], [b"bc"]] => 20 01 "a" 08 02 "bc"
the row behind the last one @ array a { byte = p[$$ArrayIndex(a) + 1]; p: pstring; }; @ [[b"a"], [b"bc"]] => 223 BadIndex: 3
the row before the first one @ array a { byte = p[$$ArrayIndex(a) - 1]; p: pstring; }; @ [[b"a"], [b"bc"]] => 223 BadIndex: 0
a late number reads a late number before it @ array a { n: byte = e / 8; pstring; e: byte = $$Byte(n) + 1; }; @ [[b"a"], [b"bc"]] => 03 01 "a" 04 08 02 "bc" 09
a size reads a late number of its row @ array a { n: byte = e / 8; pstring; e: string[$$Byte(n)]; }; @ [[b"a", b""]] => 214 SizeLater: 4
a size reads a late number of the row before @ s: array a { string[n / 8 - n / 8]; n: byte; }; @ [[b"", 1]] => 214 SizeLater: 1
an index in a point @ array a { p: pstring; q: }; point = {p[1], p[2]}; @ [[b"a"], [b"bc"]] => 01 "a" 02 "bc" 0000 0010
an index in a point, and one that isn't there @ array a { p: pstring; q: }; point = {p[1], p[3]}; @ [[b"a"], [b"bc"]] => 223 BadIndex: 3
indexes in a rectangle in front @ rect = {p[1], q[1], p[2], q[2]}; array a { p: pstring; q: }; @ [[b"a"], [b"bc"]] => 0040 0050 0050 0068 01 "a" 02 "bc"
an index in a format @ array a { p: pstring; q: }; pstring = $$Format("%d-%d", p[2], q[2]); @ [[b"a"], [b"bc"]] => 01 "a" 02 "bc" 05 "16-40"
an index in a format in front @ pstring = $$Format("%d", p[2]); array a { p: pstring; q: }; @ [[b"a"], [b"bc"]] => 214 SizeLater: 0
an index in a format that isn't there @ array a { p: pstring; q: }; pstring = $$Format("%d", p[9]); @ [[b"a"], [b"bc"]] => 223 BadIndex: 9
an index in a format in a format @ array a { p: pstring; q: }; cstring = $$Format("<%s>", $$Format("%x", q[2])); @ [[b"a"], [b"bc"]] => 01 "a" 02 "bc" "<28>" 00
the number of the row in a format @ array a { byte; pstring = $$Format("#%d", $$ArrayIndex(a)); }; @ [[7], [8]] => 07 02 "#1" 08 02 "#2"
the start of bits by an index @ s: array a { p: pstring; q: }; byte = $$BitField(s, p[2], 8); @ [[b"a"], [b"bc"]] => 01 "a" 02 "bc" 02
the width of bits by an index @ s: array a { p: pstring; q: }; byte = $$BitField(s, 0, p[2] / 2); @ [[b"a"], [b"bc"]] => 01 "a" 02 "bc" 01
the width of bits by an index that isn't there @ s: array a { p: pstring; q: }; byte = $$BitField(s, 99, p[3]); @ [[b"a"], [b"bc"]] => 223 BadIndex: 3
bits at a label of the row @ array a { p: byte; byte = $$Byte(p) + 1; }; @ [[7], [8]] => 0708 0809
bits before a label of the row @ byte; array a { p: byte; byte = $$BitField(p, -8, 8); }; @ 5, [[7], [8]] => 05 07 05 08 05
// Which fault comes first.
a late index, and a fault behind it @ byte = p[3]; array a { p: pstring; q: }; byte = 1 / 0; @ [[b"a"], [b"bc"]] => 211 ZeroDivisor
a late index, and a late fault behind it @ byte = p[3]; array a { p: pstring; q: }; byte = e / 0; e: @ [[b"a"], [b"bc"]] => 223 BadIndex: 3
a late fault, and a late index behind it @ byte = e / 0; array a { p: pstring; q: }; byte = e + p[3]; e: @ [[b"a"], [b"bc"]] => 211 ZeroDivisor
an index that isn't there before one that is out of range @ array a { p: pstring; q: }; byte = p[3]; byte = p[1] + 999; @ [[b"a"], [b"bc"]] => 223 BadIndex: 3
a place out of range before an index that isn't there @ array a { p: pstring; q: }; byte = p[1] + 999; byte = p[3]; @ [[b"a"], [b"bc"]] => 207 OutOfRange: 999
an index before a shift @ array a { p: pstring; q: }; byte = p[3] << 32; @ [[b"a"], [b"bc"]] => 223 BadIndex: 3
a shift before an index @ array a { p: pstring; q: }; byte = (1 << 32) + p[3]; @ [[b"a"], [b"bc"]] => 215 BadShift: 32
an index before a late one @ array a { p: pstring; q: }; byte = p[3] + e; e: byte = 1 / 0; @ [[b"a"], [b"bc"]] => 211 ZeroDivisor
the index of a size before what it is too large for @ array a { p: pstring; q: }; pstring[p[-1]]; @ [[b"a"], [b"bc"]], b"" => 223 BadIndex: -1
a negative size by rows @ array a { p: pstring; q: }; string[p[1] - p[2]]; @ [[b"a"], [b"bc"]], b"" => 207 OutOfRange: -16
a size by rows that is too large @ array a { p: pstring; q: }; pstring[p[2] * 16]; @ [[b"a"], [b"bc"]], b"" => 207 OutOfRange: 256
a late number out of range in a row @ array a { bitstring[4] = e; pstring; e: align byte; }; @ [[b"a"], [b"bc"]] => 207 OutOfRange: 20
pieces are counted over rows, with their labels @ array a { p: pstring; q: }; string[e]; e: @ [[b"a"], [b"bc"]], b"" => 214 SizeLater: 6
pieces are counted over rows, and over points in them @ array a { p: rect; align long; fill bit[8]; }; string[e]; e: @ [[(1, 2, 3, 4)], [(5, 6, 7, 8)]], b"" => 214 SizeLater: 14
""")


@ROWS.part("The number of the row, of each array around.")
def numbers_of_rows():
    row = ROWS.row
    ROWS.table(r"""
        the number of each row @ array a { byte = $$ArrayIndex(a); byte; }; @ [[7], [8], [9]] => 0107 0208 0309
        the number of each row in a bit @ array a { bitstring[1] = $$ArrayIndex(a); bitstring[7]; }; @ [[7]] => 87
        the number of each row out of range @ array a { bitstring[1] = $$ArrayIndex(a); bitstring[7]; }; @ [[7], [8]] => 207 OutOfRange: 2
        the number of no row @ array a { byte = $$ArrayIndex(a); byte; }; @ [] =>
        the number of each row and of the rows @ byte = $$CountOf(a); array a { byte = $$CountOf(a) - $$ArrayIndex(a); byte; }; @ [[7], [8], [9]] => 03 0207 0108 0009
        the number of each row in a case @ array a { switch { case A: key byte = 1; byte = $$ArrayIndex(a); case B: key byte = 2; integer = $$ArrayIndex(a); }; }; @ [[("A", [])], [("B", [])], [("A", [])]] => 0101 02 0002 0103
        the number of each row in cases of a case @ array a { switch { case A: key byte = 1; switch { case B: key byte = 2; byte = $$ArrayIndex(a); }; }; }; @ [[("A", [("B", [])])], [("A", [("B", [])])]] => 010201 010202
        the number of the row around a row @ array a { array[2] { byte = $$ArrayIndex(a); byte; }; }; @ [[[[7], [8]]], [[[9], [10]]]] => 0107 0108 0209 020A
        the numbers of both rows @ array a { array b { byte = $$ArrayIndex(a); byte = $$ArrayIndex(b); byte; }; }; @ [[[[7], [8]]], [[[9]]], [[]]] => 010107 010208 020109
        the number of the row by an index @ array[3] { p: byte; }; array a { byte = p[$$ArrayIndex(a)]; byte; }; @ [[1], [2], [3]], [[7], [8]] => 010203 0007 0808
        the number of the row by an index that isn't there @ array[1] { p: byte; }; array a { byte = p[$$ArrayIndex(a)]; byte; }; @ [[1]], [[7], [8]] => 223 BadIndex: 2
        the number of a row in a row behind it @ array a { byte = $$ArrayIndex(a); byte; }; array b { byte = $$ArrayIndex(b); byte; }; @ [[7], [8]], [[9]] => 0107 0208 0109
    """)
    row("the number of the row in other letters", [rows("Rows", byte(row_of("rOWS")), byte())], [[[7], [8]]], "0107 0208")
    row("the number of the row of an array named true", [rows("true", byte(row_of("TRUE")), byte())], [[[7]]], "0107")
    row("the number of the row over 255", "array a { integer = $$ArrayIndex(a); bitstring[1]; fill bit[7]; };",
        [[[k % 2] for k in range(300)]])
    for depth in range(1, 9):
        inner, lines = [byte(sum((row_of("a%d" % k) * 3 ** k for k in range(1, depth)), row_of("a0"))), byte()], [5]
        for k in reversed(range(depth)):
            inner, lines = [rows("a%d" % k, *inner)], [[lines, lines] if k < 3 else [lines]]
        row("the numbers of all rows %d deep" % depth, inner, lines)
    inner, lines = [byte(row_of("a0") * 16 + row_of("a57")), byte()], [5]
    for k in reversed(range(58)):
        inner, lines = [rows("a%d" % k, Label("w%d" % k), *inner, byte(at_row("w%d" % (k + 1), 1) & 255))] if k < 57 else [rows("a57",
            Label("w57"), *inner)], [[lines, lines] if k in (0, 57) else [lines]]
    row("numbers of rows and labels 58 deep", inner, lines, "1105 1205" + " 00" * 57 + " 2105 2205" + " E8" * 57)
    for depth in range(1, 9):
        inner, values = [Label("p"), byte(row_of("a")), byte()], [9]
        for k in range(depth):
            inner, values = [Switch([("C", [key("byte", 1), Label("q%d" % k)] + inner)])], [("C", values)]
        row("the number of the row %d cases deep" % depth, [rows("a", *inner)], [[values, values]])


@ROWS.part("Rows of rows: labels of both, named in the row, from the row around, and from outside.")
def bodies():
    row = ROWS.row
    inner = rows("in", Label("w"), byte())
    ROWS.table(r"""
        a label of the inner rows, in each outer one @ array out { v: array in { w: byte; }; byte = w[1]; byte = v; }; @ [[[[7], [8]]], [[[9]]]] => 0708 00 00 09 20 20
        a label of the inner rows, and an outer row without @ array out { v: array in { w: byte; }; byte = w[1]; byte = v; }; @ [[[[7]]], [[]]] => 223 BadIndex: 1
        the last of the inner rows, in each outer one @ array out { array in { w: byte; }; byte = w[$$CountOf(in)]; }; @ [[[[7], [8]]], [[[9]]]] => 0708 08 09 18
        a label of the inner rows, in front in each outer one @ array out { byte = w[2]; array in { w: byte; }; }; @ [[[[7], [8]]], [[[9], [10]]]] => 10 0708 28 090A
        a label of the outer rows, in the inner ones @ array out { v: array in { byte = v; byte; }; }; @ [[[[7], [8]]], [[[9]]]] => 0007 0008 2009
        a label of the outer rows by an index, in the inner ones @ array out { v: array in { byte = v[2]; byte; }; }; @ [[[[7], [8]]], [[[9]]]] => 2007 2008 2009
        a label of the other outer row by an index @ array out { v: byte = v[3 - $$ArrayIndex(out)]; byte; }; @ [[7], [8]] => 1007 0008
        a label of the inner rows by an index, in them @ array out { array in { w: byte = w[$$CountOf(in)]; byte; }; }; @ [[[[7], [8]]], [[[9]]]] => 1007 1008 2009
        labels of both rows and of the fields around @ a: byte; array out { v: array in { w: byte = a + v + w + e; byte; }; byte; }; e: @ 1, [[[[7]], 8], [[[9]], 10]] => 01 48 07 08 78 09 0A
        labels of two arrays side by side @ array a { p: byte; }; array b { q: byte; }; byte = p[2]; byte = q[1]; @ [[1], [2]], [[3]] => 0102 03 08 10
        labels of arrays in two cases of a switch @ switch { case A: key byte = 1; array a { p: byte; }; byte = p[1]; case B: key byte = 2; array b { q: byte; }; byte = q[2]; }; byte; @ ("B", [[[7], [8]]]), 9 => 02 0708 10 09
        an array in a case in rows, and its label in the case @ array o { switch { case A: key byte = 1; array[1] { p: byte; }; byte = p[1]; case B: key byte = 2; }; }; @ [[("A", [[[7]]])], [("B", [])], [("A", [[[8]]])]] => 01 07 08 02 01 08 28
        labels of a case in a row @ array o { switch { case A: key byte = 1; l: byte; byte = l; case B: m: key byte = 2; byte = m; }; }; @ [[("A", [7])], [("B", [])], [("A", [8])]] => 01 07 08 02 18 01 08 30
        labels before a key in rows @ array o { switch { case A: byte; k: key byte = 1; byte = $$Byte(k); case B: byte; key byte = 2; byte = z; z: }; }; @ [[("A", [7])], [("B", [8])]] => 07 01 01 08 02 30
        a label of the row in a case of it @ array o { r: switch { case A: key byte = 1; byte = r; byte; }; }; @ [[("A", [7])], [("A", [8])]] => 01 00 07 01 18 08
        labels of rows in rows of a stated number @ array[2] { v: array[2] { w: byte; }; byte = w[2]; }; byte = v[2]; @ [[[[1], [2]]], [[[3], [4]]]] => 0102 08 0304 20 18
        no rows, and no index asked @ array a { p: byte; }; byte; @ [], 7 => 07
        a label of rows without a name @ array { p: byte; }; byte = p[2]; @ [[7], [8]] => 0708 08
        several labels of one place in a row @ array a { p: q: byte; r: s: }; byte = p[2]; byte = q[2]; byte = r[1]; byte = s[1]; @ [[7], [8]] => 0708 08080808
    """)
    for count in (1, 2, 7, 8, 9, 100):
        row("places of bits, %d rows" % count, "array a { p: bitstring[3]; }; longint = p[%d];" % count,
            [[[k % 8] for k in range(count)]])
    for depth in range(1, 9):
        inner, values = [Label("w0"), byte()], [9]
        for k in range(1, depth):
            inner, values = [Label("w%d" % k), rows("a%d" % k, *inner), byte(at_row("w%d" % (k - 1), 1))], [[values, values]]
        row("labels of rows %d deep" % depth, [rows("a", *inner), byte(at_row("w%d" % (depth - 1), 2) & 127)], [[values, values]])
    ROWS.say("Names in any case of letters.")
    for written, asked in [("start", "START"), ("Start", "sTART"), ("START", "start"), ("_", "_"), ("z9", "Z9")]:
        row("the label %s of rows by the name %s" % (written, asked), [rows("a", Label(written), byte(), byte(at(asked))),
            byte(at_row(asked, 2))], [[[7], [8]]], "0700 0810 10")
    ROWS.table(r"""
        // A label and an array of one name, and arrays of one name in two types.
        a label in rows of its own name @ array a { a: byte = $$ArrayIndex(a); byte = a; byte; }; byte = a[2]; @ [[7], [8]] => 010007 021808 18
        arrays of one name in two types @ type 'Last' { array a { w: byte; }; byte = w[1]; };¶type 'Test' { byte; array A { W: byte; byte = $$ArrayIndex(a); }; byte = w[1]; };¶resource 'Test' (1) { 1, { 7, 8 } };¶resource 'Test' (2) { 2, { 9 } }; => 01 0701 0802 08 | 02 0901 08
        an index that isn't there in the second resource @ type 'Test' { array { w: byte; }; byte = w[2]; };¶resource 'Test' (1) { { 7, 8 } };¶resource 'Test' (2) { { 9 } }; => 3: 223 BadIndex: 2
        an index over lines, with comments and a macro @ #define First 1¶type 'Test' { array { w: byte; };¶  byte = w // the place¶  [ /* of */ First¶  ]; };¶resource 'Test' (1) { { 7 } }; => 07 00
        functions of rows in capital letters @ TYPE 'Test' { ARRAY A { W: BYTE = $$ARRAYINDEX(a); BYTE; }; BYTE = w[$$countof(A)]; };¶RESOURCE 'Test' (1) { { 7, 8 } }; => 0107 0208 10
        a copy of a type with rows @ type 'Last' { array r { w: byte; byte = $$ArrayIndex(r); }; byte = w[1] + w[2]; };¶type 'Test' as 'Last';¶resource 'Test' (1) { { 7, 8 } }; => 0701 0802 10
        a type with an index for an id @ type 'Test' { byte; };¶type 'Test' (2) { array { w: byte; }; byte = w[1]; };¶resource 'Test' (1) { 3 };¶resource 'Test' (2) { { 7 } }; => 03 | 07 00
    """)
