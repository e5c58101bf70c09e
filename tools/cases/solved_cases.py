"""Writes solved.cases: what `derez` shows of types in which a number tells the place of a label behind it."""
import re

from label_book import Shown
from model import type_files
from model.label_types import (Align, Array, Label, Switch, at, bits_at, byte, byte_at, fact, field_bits, integer, key,
                               num, number, rows_of, text)

SOLVED = Shown("solved.cases", "solved_cases.py", "What derez shows where a number tells the place of a label behind it.")
FAR, FROM = at("e"), at("s")
LENGTH = (FAR - FROM) / 8


def string(*fields, form="hex "):
    """A string between the labels s and e, with fields behind it."""
    return [Label("s"), text("string", says=form), Label("e")] + list(fields)


@SOLVED.part("By hand.")
def worked():
    case = SOLVED.shows
    case("a number behind a string that is its own place", "cstring; e: integer = e;", "rddd", '"gorf" 00 0028',
        '"gorf" 00 0030', '"gorf" 0028', '"gorf" 00 0028 00', kind="gorf", first=128,
        out='resource \'gorf\' (128) {\n    "gorf"\n};\n\ndata \'gorf\' (129) {\n    $"676F 7266 0000 30"\n};\n\n'
        'data \'gorf\' (130) {\n    $"676F 7266 0028"\n};\n\ndata \'gorf\' (131) {\n    $"676F 7266 0000 2800"\n};\n\n')
    case("the length of a string in front of it", "integer = (e - s) / 8; s: hex string; e: integer;", "rdddr",
        "0002 0102 0005", "0003 0102 0005", "0001 0102 0005", "0002 0102 00", "0000 0005", kind="Ends", first=128,
        out='resource \'Ends\' (128) {\n    $"0102",\n    5\n};\n\ndata \'Ends\' (129) {\n    $"0003 0102 0005"\n};\n\n'
        'data \'Ends\' (130) {\n    $"0001 0102 0005"\n};\n\ndata \'Ends\' (131) {\n    $"0002 0102 00"\n};\n\n'
        'resource \'Ends\' (132) {\n    $"",\n    5\n};\n\n')
    case("the length of the second of two strings", "integer = (e - s) / 8; pstring; s: pstring; e:", "d",
         '0003 01 "A" 02 "BC"', kind="two ", first=128, out='data \'two \' (128) {\n    $"0003 0141 0242 43"\n};\n\n')
    case("a size that is read from a number that an item gives", "n: integer; s: string[$$Word(n)];", "rdr",
         '0003 "abc"', '0003 "ab"', '0003 "ab" 00', kind="Size", first=128,
         out='resource \'Size\' (128) {\n    3,\n    "abc"\n};\n\ndata \'Size\' (129) {\n    $"0003 6162"\n};\n\n'
         'resource \'Size\' (130) {\n    3,\n    "ab"\n};\n\n')
    case("a size that is read from a late number", "n: integer = (e - s) / 8; s: string[$$Word(n)]; e:", "dd",
         '0002 "ab"', "0000", kind="Loop", first=128,
         out='data \'Loop\' (128) {\n    $"0002 6162"\n};\n\ndata \'Loop\' (129) {\n    $"0000"\n};\n\n')
    case("a number that reads bits behind itself", "a: integer = $$Word(b); b: integer;", "dd", "0005 0005",
         "0000 0000", kind="Late", first=128)
    case("the length of an array in front of it", "integer = (e - s) / 8; s: array { byte; }; e: byte = 7;", "rddr",
         "0003 010002 07", "0003 010002 08", "0002 010002 07", "0000 07", kind="Kids", first=128,
         out="resource 'Kids' (128) {\n    {\n        1,\n        0,\n        2\n    }\n};\n\ndata 'Kids' (129) {\n    "
         "$\"0003 0100 0208\"\n};\n\ndata 'Kids' (130) {\n    $\"0002 0100 0207\"\n};\n\nresource 'Kids' (131) {\n    {\n    }\n};\n\n")


def lengths(name, expr, marks, before=(), items=(), form="integer", more=(), **also):
    """A number by an expression in front of a string, with the string of 0 bytes, of 1 byte and so on, and other contents."""
    body = list(before) + [num(form, expr)] + string(byte())
    rows = [list(items) + [b"abcdefghi"[:k], 7] for k in range(len(marks) - len(more))]
    SOLVED.shows(name, body, marks, *(rows + list(more)), **also)


def length_of(row, name="%s", **also):
    """Such a number by a row of a table: NAME @ EXPRESSION => MARKS, in which L is the length."""
    said, expr, marks = re.match("(.*) @ (.*) => (.*)", row).groups()
    expr = type_files.fields_of("integer = %s;" % re.sub(r"\bL\b", "((e - s) / 8)", expr))[0].fixed
    lengths(name % said, expr, marks, **also)


SOLVED.lines_of(
    "The operators over the length of a string, which has 0 bytes, 1 byte and so on, and numbers beside them.", r"""
alone @ L ‖ and 3 @ L + 3 => rrrrr ‖ and -1 @ L + -1 => drrrr ‖ and 65533 @ L + 65533 => rrrdd
3 and @ 3 + L => rrrrr ‖ -2 and @ -2 + L => ddrrr ‖ and 0 @ L + 0 ‖ less 0 @ L - 0 => rrrrr
less 2 @ L - 2 => ddrrr ‖ less -2 @ L - -2 => rrrrr ‖ less 5 @ L - 5 => ddddd ‖ 3 less @ 3 - L => rrrrd
0 less @ 0 - L => rdddd ‖ -1 less @ -1 - L => ddddd ‖ less @ -L => rdddd ‖ less less @ --L => rrrrr
less the difference the other way @ -((s - e) / 8) ‖ times 1 @ L * 1 ‖ times 3 @ L * 3 => rrrrr
3 times @ 3 * L => rrrrr ‖ times 0 @ L * 0 ‖ 0 times @ 0 * L => ddddd ‖ times -1 @ L * -1 => rdddd
times 20000 @ L * 20000 => rrrrd ‖ times -1 times -1 @ L * -1 * -1 ‖ by 1 @ L / 1 => rrrrr
by 2 @ L / 2 => rdrdrdr ‖ by 3 @ L / 3 => rddrddr ‖ by -1 @ L / -1 => rdddd ‖ by 0 @ L / 0 => ddddd
by 100 @ L / 100 => rdddd ‖ by -1 by -1 @ L / -1 / -1 ‖ times 6 by 2 @ L * 6 / 2 => rrrrr
times 3 by 2 @ L * 3 / 2 ‖ by 2 times 2 @ L / 2 * 2 => rdrdr ‖ to the left by 0 @ L << 0 => rrrrr
to the left by 3 @ L << 3 => rrrrr ‖ to the left by 14 @ L << 14 => rrrrd ‖ to the left by 31 @ L << 31 => rdddd
to the left by 32 @ L << 32 ‖ to the left by -1 @ L << -1 => ddddd ‖ to the right by 0 @ L >> 0 => rrrrr
to the right by 1 @ L >> 1 => rdrdr ‖ to the right by 2 @ L >> 2 => rdddr
to the right by 31 @ L >> 31 => rdddd ‖ to the right by 32 @ L >> 32 ‖ to the right by -1 @ L >> -1 => ddddd
to the left by 2 to the right by 1 @ L << 2 >> 1 => rrrrr
to the right by 1 to the left by 1 @ L >> 1 << 1 => rdrdr ‖ and 1 by 2 @ (L + 1) / 2 => drdrd
and 1, less 2, times 3 @ (L + 1 - 2) * 3 => drrrr ‖ in bits @ e - s ‖ in nibbles @ (e - s) / 4 => rrrrr
in bits by 5 @ (e - s) / 5 => rddddr ‖ in bits to the right by 3 @ e - s >> 3 => rrrrr
in bits to the right by 4 @ e - s >> 4 ‖ in words @ (e - s) / 16 => rdrdr
over quotients @ e / 8 - s / 8 ‖ by the place alone @ e ‖ by the place in bytes @ e / 8 => rrrrr
by the place in bytes less 2 @ e / 8 - 2 ‖ by 72 less the place @ 72 - e => rrrrr
by 24 less the place @ 24 - e => rrddd ‖ by the place times 9 @ e * 9 => rrrrr
by the place to the left by 11 @ e << 11 => rrddd
""", lambda row: length_of(row, "the length %s"))


@SOLVED.part("What can't be undone, so that the type can't be read.")
def unsolvable():
    SOLVED.table(r"""
        a remainder @ L % 100 ‖ a remainder of it @ 100 % L ‖ bits that both have @ L & 255 => dddd
        bits that one has @ L | 0 ‖ bits that one alone has @ L ^ 0 ‖ its complement @ ~~L => dddd
        a comparison @ L < 9 ‖ another comparison @ L >= 0 ‖ an equality @ L == 2 ‖ an inequality @ L != 2 => dddd
        a denial @ !L ‖ a conjunction @ L && 1 ‖ a disjunction @ 0 || L ‖ a quotient by it @ 100 / e => dddd
        a shift to the left by it @ 1 << L ‖ a shift to the right by it @ 100 >> L => dddd
        the label twice @ (e + e - s - s) / 16 ‖ the label twice, once times 0 @ L + e * 0 => dddd
        the label in a start of bits @ $$BitField(n, e - s - 8, 8) => dddd
        the label in a width of bits @ $$BitField(n, 0, e - s) ‖ bits at the label @ $$Byte(e) => dddd
        a complement below @ (~e - ~s) / -8 ‖ a remainder below @ (e % 4096 - s) / 8 => dddd
    """, lambda row: length_of(row, "a length under %s can't be solved", before=[Label("n"), byte()], items=[1], form="byte"))
    SOLVED.table(r"""
        // More than one name that isn't known, or one that isn't of the same fields.
        can't be read: two labels behind a string @ byte = (e - s) / 8; pstring; s: hex string; e: => d 02 00 "ab" | d 00 00
        can't be read: two labels behind two strings @ byte = e - f; pstring; f: pstring; e: => d 08 00 00
        can't be read: a label and a number of rows @ byte = $$CountOf(a) + (e - s) / 8; s: hex string; e: byte; array a { byte; }; => d 01 05
        can't be read: a number of rows over labels, of which one isn't known @ byte = $$CountOf(a) + e - s; s: array a { byte; }; e: byte; => d 00 05
        can't be read: a label of fields around @ byte; switch { case A: key byte = 1; byte = e / 8; pstring; }; e: => d 00 01 04 00
        can't be read: a label of fields around in rows @ array[1] { byte = e / 8; pstring; }; e: => d 02 00
        can't be read: rows of fields around in rows @ array a { byte = $$CountOf(a); byte; }; => d 01 05
        can't be read: rows of fields around in a case @ switch { case A: key byte = 1; byte = $$CountOf(a); }; array a { byte; }; => d 01 01 05
        can't be read: a number of a point with two labels @ point = {e - f, 0}; pstring; f: pstring; e: => d 0008 0000 00 00
        can't be read: a label in front of its case's end and one around @ switch { case A: key byte = 1; byte = i - o; pstring; i: }; pstring; o: => d 01 00 00 00
        can't be read: a label solved only behind the string @ cstring; switch { case A: key byte = 1; s: hex string; e: byte = (e - s) / 8; }; => d 00 01 "ab" 02
    """)


@SOLVED.part("What stands beside a length: all that is known, with the value 2.")
def sides():
    two = [("a number", number(2), [], []), ("a place before", at("p") / 8, [byte(), integer()], [1, 2]),
        ("a place right before", at("p"), [field_bits(2), Label("p"), field_bits(6)], [1, 2]),
        ("a near place behind", at("f") - at("s") + 2, [], []),
        ("bits of a number before", byte_at("p"), [Label("p"), byte()], [2]),
        ("a bit of a number before", bits_at("p", number(6), number(1)) + 1, [Label("p"), byte()], [2]),
        ("the id", fact("ID"), [], []), ("the month of a year", fact("Month") + 1, [], []),
        ("a constant with all that can't be undone", (number(7) % 5 | 2) & ~number(1) ^ number(0), [], []),
        ("rows that were counted", rows_of("a"), [Array("a", 2, [byte()])._replace(count=None)], [[[1], [2]]])]
    for said, side, before, items in two:
        before = [byte(rows_of("a"))] + before if items == [[[1], [2]]] else before
        if said == "a place before":
            before = [byte(), Label("q"), byte(), Label("p")]
        for name, expr, marks in [
                ("and", LENGTH + side, "rrrr"), ("behind", side + LENGTH, "rrrr"), ("less", LENGTH - side, "ddrr"),
                ("from", side - LENGTH, "rrrd"), ("times", LENGTH * side, "rrrr"), ("of", side * LENGTH, "rrrr"),
                ("by", LENGTH / side, "rdrd"), ("to the left by", LENGTH << side, "rrrr"),
                ("to the right by", LENGTH >> side, "rddd"),
        ]:
            body = list(before) + [integer(expr), Label("s"), Label("f"), text("string"), Label("e"), byte()]
            rows = [list(items) + [b"abcdefghi"[:k], 7] for k in range(4)]
            SOLVED.shows("a length %s %s" % (name, said), body, marks, *rows, first=2) if said != "the id" else SOLVED.shows(
                "a length %s %s" % (name, said), body, marks[2], rows[2], first=2)
    SOLVED.say("What stands beside a length and has no value.")
    for name, side in [
            ("a zero divisor", number(1) / 0), ("a bad shift", number(1) << 40),
            ("bits before the resource", bits_at("n", number(-9), number(8))),
            ("bits of itself", bits_at("n", number(8), number(8))),
            ("a part of itself", bits_at("n", number(1), number(8))),
            ("a width of 33 bits", bits_at("n", number(0), number(33))),
            ("a width of no bits", bits_at("n", number(0), number(0))),
    ]:
        lengths("a length and %s" % name, LENGTH + side, "ddd", [Label("n"), byte()], [0], "byte")
        lengths("a length times 0 and %s" % name, (LENGTH + 0 * side) * 1, "ddd", [Label("n"), byte()], [0], "byte")


@SOLVED.part("Numbers of each type, and lengths at the ends of what they hold.")
def widths():
    for form, most in [("boolean", 1), ("bitstring[1]", 1), ("bitstring[2]", 3), ("bitstring[3]", 7), ("bitstring[6]", 63),
                       ("byte", 255)]:
        body = [num(form, LENGTH), Align("byte")] + string(byte())
        SOLVED.shows("lengths in a %s" % form, body, "rrrd",
            *[[b"\xEE" * value, 1] for value in [0, most // 2 + 1, most, most + 1]])
        body = [num(form, LENGTH - 1), Align("byte")] + string(byte())
        SOLVED.shows("lengths less 1 in a %s" % form, body, "drrd",
            *[[b"\xEE" * value, 1] for value in [0, 1, most + 1, most + 2]])
    for form in ["char", "integer", "longint"] + ["bitstring[%d]" % width for width in (7, 8, 9, 15, 16, 17, 31, 32)]:
        body = [num(form, LENGTH), Align("byte")] + string(byte())
        SOLVED.shows("lengths in a %s" % form, body, "rrr", *[[b"\xEE" * value, 1] for value in (0, 1, 34)])
        body = [num(form, LENGTH - 1), Align("byte")] + string(byte())
        SOLVED.shows("lengths less 1 in a %s" % form, body, "drr", *[[b"\xEE" * value, 1] for value in (0, 1, 34)])
    lengths("a number with a sign over half of its range", LENGTH + 126, "rrrr", form="byte")
    lengths("a number without a sign in a char", LENGTH + 253, "rrrd", form="char")
    lengths("a number in hexadecimal", LENGTH, "rrr", form="integer")
    SOLVED.say("Numbers over 31 and over 63 bits.")
    SOLVED.table(r"""
        a product over 31 bits @ (e - s) * 75000000 => rrrrrrrr
        a product over 32 bits @ (e - s) * 150000000 => rrrrdddd
        a product over 31 bits, halved @ (e - s) * 75000000 / 2 ‖ a shift over 31 bits @ e - s << 27 => rrrrdddd
        a shift over 31 bits and back @ e - s << 26 >> 26 => rrrrdddd
        a difference over 31 bits @ e - s + 2147483640 => rrrrrrrr
        a sum below -31 bits @ e - s - 2147483647 => dddddddd ‖ a negative product @ (s - e) * 3 => rddddddd
        a product of 62 bits undone @ L / 65536 / 65536 => rddddddd
        a product of 93 bits undone @ L / 2147483647 / 2147483647 / 2147483647 => rddddddd
        a shift of 93 bits undone @ L >> 31 >> 31 >> 31 => rddddddd
        a shift of 62 bits to the left undone @ L << 31 << 31 => rddddddd
        a product of 0 in the end @ L * 65536 * 65536 => rddddddd
    """, lambda row: length_of(row, form="longint"))
    SOLVED.table(r"""
        a solution of -2^63 @ longint = -(e / 2147483647 * -1 / -2147483647 / 2) - 1; s: hex string; e: byte; => d FFFFFFFF 01 | d 00000000 01 | d 7FFFFFFF 01 | d 80000000 01
        a solution over 2^63 @ longint = (e >> 31) / 2147483647; s: hex string; e: byte; => d FFFFFFFF 01 | d 00000002 01 | d 00000003 01 | d 80000000 01
        a solution of 2^63 on the way down again @ longint = e << 31 << 31 >> 31 >> 31; s: hex string; e: byte; => d FFFFFFFF 01 | d 00000028 01 | d 00000000 01
        a difference beyond 2^63 on the way @ longint = (e >> 31) - 2147483647 >> 31; s: hex string; e: byte; => d FFFFFFFF 01 | d 00000001 01 | d 80000001 01
    """)


@SOLVED.part("A solved place is where the label stands, between its number and the end of the resource.")
def places():
    case = SOLVED.shows
    body = [byte(FAR / 8), text("pstring"), Label("e"), byte()]
    body = [byte(FAR)] + string(byte())
    body = [byte(FAR)] + string()
    body = [byte(FAR / 8), text("pstring")] + string(byte())
    SOLVED.table(r"""
        a place that nothing ends at @ byte = e / 8; pstring; e: byte; => r 05 03 "abc" 07 | d 04 03 "abc" 07 | d 06 03 "abc" 07 | d 05 03 "abc" | d 00 03 "abc" 07 | d FF 03 "abc" 07
        a place of which nothing is read @ byte = e / 8; cstring; e: => r 05 "abc" 00 | d 04 "abc" 00 | d 01 "abc" 00
        a place in bits @ byte = e; s: hex string; e: byte; => r 08 07 | r 10 01 07 | d 09 01 07 | d 0F 01 07 | d 11 01 07 | d 07 01 07 | d 00 01 07 | d 18 01 07 | d 20 01 07
        a place in bits up to the end @ byte = e; s: hex string; e: => r 08 | r 10 01 | d 11 01 | d 18 01 | d 10 | d 10 01 00
        a place inside of what stands between @ byte = e / 8; pstring; s: hex string; e: byte; => r 04 01 "a" "b" 07 | d 03 02 "a" "b" 07 | d 01 01 "a" "b" 07 | d 00 01 "a" "b" 07 | d 05 01 "a" "b" 07
        a place behind an align @ byte = e / 8; pstring; align long; e: byte; => r 04 01 "a" 00 07 | r 08 04 "abcd" 0000 07 | d 03 01 "a" 00 07 | d 04 01 "a" 01 07 | d 04 02 "ab" 07 07
        a place behind a fill @ byte = e / 8; pstring; fill byte[2]; e: byte; => r 05 01 "a" 0000 07 | d 03 01 "a" 0000 07 | d 05 01 "a" 0001 07
    """)
    case("a place within the last byte",
         "bitstring[5] = e - 8; pstring[1]; array[1] { bitstring[3]; }; pstring; bitstring[2]; e:", None,
         [b"x", [[5]], b"y", 2])
    case("a place at the end of the resource", "byte = e / 8; cstring; e:", "rdd", "02 00", "03 00", "02 00 00")
    case("two labels at one place of which one is solved", "byte = e / 8; cstring; e: f: byte = f;", "rd", "02 00 10",
         "02 00 18")
    case("a label and its solution in other letters", [byte(at("END") / 8), text("cstring"), Label("end"), byte(at("End"))],
        "rd", "02 00 10", "02 00 18")
    case("the first of several lengths is of the next string",
         "byte = (b - a) / 8; byte = (c - b) / 8; a: string; b: string; c: byte;", None, "01 02 61 6263 07")
    case("lengths one after the other", "byte = (b - a) / 8; a: string; b: byte = (d - c) / 8; c: string; d: byte;",
         "rrddd", "01 61 02 6263 07", "00 00 07", "01 61 01 6263 07", "02 61 02 6263 07", "01 61 02 6263")
    case("a length behind a solved place", "byte = (b - a) / 8; a: string; b: byte = (b - a) / 8; byte;", "rd",
         "01 61 01 07", "01 61 02 07")
    for between, field in [
            ("a string", text("pstring")), ("a fixed string", text("pstring", None, b"xy")),
            ("an array", Array("r", None, [byte()])),
            ("a switch", Switch([("A", [key("byte", 1)]), ("B", [key("byte", 2), byte()])])),
            ("a string with a size", text("string", byte_at("n"))),
    ]:
        body = [Label("n"), byte(2)] + [byte(rows_of("r"))] * (between == "an array") + [integer(FAR), field, Label("e"),
            byte()]
        items = {"a string": [b"ab"], "an array": [[[3], [4]]], "a switch": [("B", [9])],
            "a string with a size": [b"ab"]}.get(between, [])
        SOLVED.shows("a place behind %s" % between, body, "r", items + [7])


SOLVED.lines_of("Several numbers that name one label: the first one solves it, and the others have to be right.", r"""
two equal lengths @ byte = (e - s) / 8; byte = (e - s) / 8; s: hex string; e: byte; => r 02 02 "ab" 07 | d 02 01 "ab" 07 | d 01 02 "ab" 07 | d 03 03 "ab" 07 | r 00 00 07
a length and a place @ byte = (e - s) / 8; byte = e; s: hex string; e: byte; => r 02 20 "ab" 07 | d 02 1F "ab" 07 | d 01 20 "ab" 07 | d 02 10 "ab" 07
a place in words, and then a length @ byte = e / 16; byte = (e - s) / 8; s: hex string; e: byte; => r 02 02 "ab" 07 | d 01 01 "a" 07 | r 01 00 07 | d 02 03 "abc" 07
a length, and then a place in words @ byte = (e - s) / 8; byte = e / 16; s: hex string; e: byte; => r 02 02 "ab" 07 | r 01 01 "a" 07 | r 00 01 07 | r 03 02 "abc" 07 | d 03 03 "abc" 07
a length, and then what can't be undone @ byte = (e - s) / 8; byte = e & 15; byte = e % 10; s: hex string; e: byte; => r 00 08 04 07 | r 01 00 02 "a" 07 | d 01 00 03 "a" 07 | d 01 01 02 "a" 07
what can't be undone, and then a length @ byte = e & 15; byte = (e - s) / 8; s: hex string; e: byte; => d 00 02 "ab" 07
a length, and then one that wraps @ byte = (e - s) / 8; longint = e << 28; s: hex string; e: byte; => r 02 80000000 "ab" 07 | d 02 00000000 "ab" 07
a length, and then one out of range @ byte = (e - s) / 8; bitstring[8] = e * 16; s: hex string; e: byte; => d 02 00 "ab" 07
a length, and then one times 0 @ byte = (e - s) / 8; byte = e * 0; s: hex string; e: byte; => r 02 00 "ab" 07 | d 02 01 "ab" 07
a length, and then with the label twice @ byte = (e - s) / 8; byte = (e + e) / 16; s: hex string; e: byte; => r 02 04 "ab" 07 | d 02 05 "ab" 07
a length in front and one behind @ byte = (e - s) / 8; s: hex string; e: byte = (e - s) / 8; => r 02 "ab" 02 | d 02 "ab" 01 | d 02 "ab" 00
a place and half of it for the next label @ byte = b / 8; byte = c - b; string; b: string; c: byte; => r 04 10 "ab" "cd" 07 | d 04 0F "ab" "cd" 07 | d 03 10 "ab" "cd" 07
a length of the whole by the length of a part @ byte = c / 8 - b / 8; byte = b / 8; string; b: string; c: => d 02 04 "ab" "cd"
three lengths of which each rests on the last @ byte = a; byte = b - a; byte = c - b; string; a: string; b: string; c: => r 20 10 00 "a" "bc" | d 20 10 00 "a" "b" | d 20 0F 01 "a" "bc"
// Points and rectangles: two or four numbers, one after the other.
a point that solves and names @ point = {e - s, e}; s: hex string; e: byte; => r 0010 0030 "ab" 07 | d 0010 0031 "ab" 07 | d 0011 0030 "ab" 07
a point that names and solves @ point = {7, e - s}; s: hex string; e: byte; => r 0007 0010 "ab" 07 | d 0008 0010 "ab" 07
a point that solves two labels @ point = {b, d}; string; b: byte = 1; string; d: => r 0028 0038 "a" 01 "b" | d 0028 0030 "a" 01 "b"
a point whose second number can't be undone before the first one @ point = {e & 255, e}; s: hex string; e: byte; => d 0030 0030 "ab" 07
a point whose second number can't be undone @ point = {e, e & 255}; s: hex string; e: byte; => r 0030 0030 "ab" 07 | d 0030 0031 "ab" 07
a rectangle that solves, and names three times @ rect = {(e - s) / 8, e, e / 8, s}; s: hex string; e: byte; => r 0002 0050 000A 0040 "ab" 07 | d 0002 0050 000A 0041 "ab" 07 | d 0001 0050 000A 0040 "ab" 07
a rectangle that solves four labels @ rect = {a, b - a, c - b, d - c}; string; a: string; b: string; c: string; d: => r 0048 0000 0010 0000 "a" "bc" | r 0040 0000 0000 0000 | d 0041 0000 0000 0000
a point that reads its first number @ p: point = {(e - s) / 8, $$Word(p) + e}; s: hex string; e: byte; => r 0002 0032 "ab" 07 | d 0002 0033 "ab" 07
""")

SOLVED.lines_of("Numbers of rows and places.", r"""
a number of rows over a near place @ byte = $$CountOf(a) + s; s: array a { byte; }; byte; => r 08 07 | r 0A 01 02 07 | d 07 07 | d 0A 01 07
a number of rows times a place @ p: byte = 7; q: byte = $$CountOf(a) * (q - p) / 4; array a { byte; }; => r 07 00 | r 07 02 05 | d 07 01 | d 07 01 05 | d 07 02 05 06
a number of rows by bits @ n: byte; byte = $$CountOf(a) - $$Byte(n); array a { byte; }; => r 02 00 05 06 | r 02 FF 05 | d 02 01 05 06 | r 02 FE
a place less a number of rows that is known @ byte = $$CountOf(a); array a { byte; }; byte = (e - s) / 8 - $$CountOf(a); s: hex string; e: byte; => r 02 05 06 01 "abc" 07 | d 02 05 06 02 "abc" 07 | r 01 05 00 "a" 07 | d 01 05 FF 07
a place by a number of rows that was solved @ byte = $$CountOf(a); byte = e / 8 - $$CountOf(a) * 2; array a { byte; }; e: string; => r 02 00 05 06 07 | r 00 02 07 | d 02 01 05 06 07
a number of rows and a place, each of its own @ byte = $$CountOf(a); byte = (e - s) / 16; s: array a { integer; }; e: byte; => r 02 02 0001 0002 07 | r 00 00 07 | d 02 01 0001 0002 07 | d 01 02 0001 0002 07 | d 01 02 0001 07
a number of rows by the place of their end @ byte = e / 8; array a { byte; }; e: byte = $$CountOf(a); => r 03 05 06 02 | d 03 05 06 03 | d 02 05 06 02
a number of rows that the place gives and the rows don't @ byte = $$CountOf(a); byte = e - s; s: array a { bitstring[4]; }; e: align byte; byte; => r 02 08 12 07 | r 01 04 10 07 | d 02 04 12 07 | d 01 08 10 07 | r 03 0C 1230 07
a number of rows less than none over a place @ byte = $$CountOf(a) + s + 1; s: array a { byte; }; => d 08 | r 09 | r 0A 05
rows by a place in a bitstring @ bitstring[4] = $$CountOf(a) + s; s: array a { bitstring[4]; }; => r 40 | r 51 | r 61 00 | d 51 00
""")

SOLVED.lines_of("Solved labels of the fields around, in rows and in cases.", r"""
a solved place in rows before it @ byte = e / 8; array a { byte; byte = e; }; e: byte; => r 01 07 | r 03 05 18 07 | d 03 05 19 07 | d 05 05 28 06 29 07
a solved place in the rows that it ends @ byte = e / 8; array a { byte; byte = e; }; e: => r 05 05 28 06 28 | r 01 | d 05 05 28 06 29 | d 04 05 20 06
a near place isn't known in rows of rows @ byte = e / 8; array[2] { array[1] { byte; byte = e; }; }; e: byte; => d 05 05 28 06 28 07
a solved place in rows of rows @ byte = e / 8; cstring; array[2] { array[1] { byte; byte = e; }; }; e: byte; => r 06 00 05 30 06 30 07 | d 06 00 05 30 06 31 07 | d 05 00 05 28 06 28 07
a solved place that can't be undone in rows @ byte = e / 8; array a { byte = e % 16; byte; }; e: byte; => r 03 08 05 07 | d 03 09 05 07
a near place isn't known in rows @ byte = e; array[1] { byte; byte = e; }; e: => d 18 05 18
a place over a switch is solved, and known in its case @ byte = e; switch { case A: key byte = 1; byte = e; }; e: => r 18 01 18 | d 18 01 10 | d 10 01 18
a place behind the rows isn't known in them @ array[1] { byte; byte = e; }; e: => d 05 10
a place before the rows is known in them @ e: array { byte; byte = e; }; => r | r 05 00 06 00 | d 05 00 06 08
a solved place in a case @ byte = e / 8; switch { case A: key byte = 1; byte = e; case B: key byte = 2; }; e: byte; => r 03 01 18 07 | r 02 02 07 | d 03 01 10 07 | d 03 02 07
a solved place in a case of a case @ byte = e / 8; switch { case A: key byte = 1; switch { case B: key byte = 2; byte = e; }; }; e: => r 04 01 02 20 | d 04 01 02 21
a solved place doesn't end a string of a case @ byte = e / 8; switch { case A: key byte = 1; string; }; e: => d 03 01 "a"
a solved place of the fields around doesn't end rows of a case @ byte = e / 8; switch { case A: key byte = 1; array { byte; }; }; e: => d 03 01 "a"
a solved place doesn't end a string of a row @ byte = e / 8; array[1] { string; }; e: => d 02 "a"
// Labels of a case.
a length in a case @ switch { case A: key byte = 1; byte = (y - x) / 8; x: string; y: case B: key byte = 2; }; byte; => r 01 02 "ab" 07 | r 02 07 | d 01 02 "ab" | d 01 03 "ab" 07
a length in a case before its key @ switch { case A: byte = (y - x) / 8; key byte = 1; x: string; y: case B: byte = 5; key byte = 2; }; byte; => r 02 01 "ab" 07 | r 05 02 07 | d 06 02 07 | d 03 01 "ab" 07
a length in each of two cases @ switch { case A: key byte = 1; byte = (b - a) / 8; a: string; b: case B: key byte = 2; byte = d - c; c: string; d: }; byte; => r 01 02 "ab" 07 | r 02 10 "ab" 07 | d 01 10 "ab" 07 | d 02 02 "ab" 07
a length in a case and one around it @ byte = e / 8; switch { case A: key byte = 1; byte = (y - x) / 8; x: string; y: }; e: byte; => r 05 01 02 "ab" 07 | d 04 01 02 "ab" 07 | d 05 01 01 "ab" 07 | d 06 01 03 "ab" 07
a length in a case by a solved place around it @ byte = e / 8; switch { case A: key byte = 1; byte = e / 8 - y / 8; x: string; y: }; e: byte; => r 05 01 00 "ab" 07 | d 05 01 01 "ab" 07 | d 04 01 00 "ab" 07
a place in a case over a case @ switch { case A: key byte = 1; byte = y / 8; switch { case B: key byte = 2; }; x: string; y: }; byte; => r 01 04 02 "a" 07 | d 01 05 02 "a" 07
a length in a case over a case @ switch { case A: key byte = 1; byte = (y - x) / 8; switch { case B: key byte = 2; }; x: string; y: }; byte; => d 01 01 02 "a" 07
a length in rows of a case @ switch { case A: key byte = 1; byte = (y - x) / 8; x: array { byte; byte = y; }; y: }; byte; => r 01 02 05 20 07 | r 01 00 07 | d 01 02 05 21 07 | d 01 01 05 07
a number of rows in rows, by places around them @ p: byte; q: array[2] { byte = $$CountOf(a) + q - p; array a { byte; }; }; => r 07 09 05 08 | r 07 08 0A 05 06 | d 07 07 08 | d 07 08 09
""")
