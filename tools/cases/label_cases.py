"""Writes labels.cases: types with labels, and the bytes of their rows."""
from label_book import Cases, FUNCTIONS, KINDS
from model.fork import image
from model.label_types import (Array, Label, Switch, at, bits_at, byte, byte_at, field_bits, integer, key, long_at,
                               longint, number, text)
from model.labels import FACTS

LABELS = Cases("labels.cases", "label_cases.py", "Labels in types: their places, what names them, and sizes by them.",
    "labels_read.cases")


# The rows that are worked by hand.

LABELS.lines_of("By hand.", r"""
a number behind a string that is its own place @ cstring; e: integer = e; @ b"gorf" => "gorf" 00 0028
the length of a string in front of it @ integer = (e - s) / 8; s: hex string; e: integer; @ b"\x01\x02", 5 => 0002 0102 0005
the length of the second of two strings @ integer = (e - s) / 8; pstring; s: pstring; e: @ b"A", b"BC" => 0003 01 "A" 02 "BC"
a size that is read from a number that an item gives @ n: integer; s: string[$$Word(n)]; @ 3, b"abcde" => 0003 "abc"
a size that is read from a late number @ n: integer = (e - s) / 8; s: string[$$Word(n)]; e: @ b"ab" => 214 SizeLater: 3
a number that reads bits behind itself @ a: integer = $$Word(b); b: integer; @ 5 => 213 LaterData: 32
the length of an array between labels @ integer = (e - s) / 8; s: array { byte; }; e: byte = 7; @ [[1], [0], [2]] => 0003 010002 07
offsets in front of what they lead to @ longint = one / 8; longint = two / 8; one: pstring; align long; two: cstring; @ b"A", b"BC" => 00000008 0000000C 01 "A" 0000 "BC" 00
a length with its own bytes in it @ s: integer = (e - s) / 8; string; e: @ b"abc" => 0005 "abc"
a byte for padding that is there if it has to be @ s: pstring; e: string[(e - s) / 8 % 2]; t: byte = (t - s) / 8; @ b"ab", b"" => 02 "ab" 00 04
no byte for padding where the place is even @ s: pstring; e: string[(e - s) / 8 % 2]; t: byte = (t - s) / 8; @ b"a", b"" => 01 "a" 02
a checksum of two numbers before it @ a: byte; b: byte; byte = $$Byte(a) ^ $$Byte(b); @ 90, 255 => 5A FF A5
the number of bits that an array took @ a: array rows { bitstring[3]; }; b: bitstring[5] = b - a; bitstring[2] = $$CountOf(rows); @ [[1], [2], [3]] => 29 A7
""")


@LABELS.part("A label before, behind and at both ends of each kind of field; its place stands in front and behind.")
def positions():
    for name, field, values in KINDS:
        for where, before, behind in [("before", [Label("a")], []), ("behind", [], [Label("z")]),
            ("at both ends of", [Label("a")], [Label("z")])]:
            places = ([longint(at("a"))] if before else []) + ([longint(at("z"))] if behind else [])
            LABELS.row("a label %s %s" % (where, name), [field_bits(3)] + places + before + [field] + behind + places, [5] + values)
    LABELS.say("The same with the labels of a case.")
    for name, field, values in KINDS:
        body = [key("bitstring[4]", 3), longint(at("a")), longint(at("z")), Label("a"), field, Label("z"),
            integer(at("z") - at("a"))]
        LABELS.row("labels around %s in a case" % name, [byte(), Switch([("Only", body)])], [1, ("Only", values)])


@LABELS.part("Several labels, and labels at the ends of bodies.")
def many():
    row = LABELS.row
    row("two labels at one place", "a: b: byte; integer = a; integer = b;", [1], "01 0000 0000")
    row("two labels at one place behind all", "integer = a; integer = b; a: b:", [], "0020 0020")
    row("a type of a label alone", "a:", [], "")
    row("a label of which nothing is asked", "a: byte; b:", [1], "01")
    row("a label behind a fill of bits to the end", "byte = e; fill bit[5]; e:", [], "0D 00")
    row("the place at the end is that before the last zero bits", "bitstring[3] = 5; integer = e; e:", [], "A0 02 60")
    row("a label in a case without other fields behind its key", "switch { case A: key byte = 1; e: }; byte;",
        [("A", []), 2], "01 02")
    row("a label before a key", "switch { case A: k: key byte = 9; byte = $$Byte(k); };", [("A", [])], "09 09")
    row("a label between the fields before a key",
        "switch { case A: byte; k: key byte = 9; byte = k; case B: byte; key byte = 8; };", [("A", [7])], "07 09 08")
    row("labels before the keys of two cases",
        "switch { case A: a: key byte = 1; case B: b: key byte = 2; byte = $$Byte(b); };", [("B", [])], "02 02")
    for count in (2, 10, 60):
        body = [byte(at("l%d" % k) / 8) for k in range(count)] + [one for k in range(count) for one in (Label("l%d" % k), byte())]
        row("%d labels that are named in front" % count, body, [k % 100 for k in range(count)])
        body = [one for k in range(count) for one in (Label("m%d" % k),
            byte())] + [byte(byte_at("m%d" % k)) for k in reversed(range(count))]
        row("%d labels that are read behind" % count, body, [k % 100 for k in range(count)])


@LABELS.part("Names in any case.")
def some_names():
    for written, asked in [("start", "START"), ("Start", "sTART"), ("START", "start"), ("_", "_"), ("_a_1", "_A_1"), ("z9", "Z9"),
        ("x" * 255, "X" * 255)]:
        short = written[:6] + ("" if len(written) < 7 else "..")
        body = [integer(at(asked)), Label(written), byte(), integer(at(written)), field_bits(8, byte_at(asked)),
            text("string", bits_at(asked, 6, number(2)))]
        LABELS.row("the label %s by the name %s" % (short, asked[:6]), body, [2, b"abc"])
    for name in ["count", "Test", "rows2", "define", "include2", "e1", "format", "element", "id", "name", "row", "of"]:
        LABELS.row("the label %s" % name, [longint(at(name)), Label(name), byte(3)], [], "00000020 03")
    LABELS.table(r"""
        // A label, an array, a case and a symbol of one name.
        a label and an array of one name @ integer = a; integer = $$CountOf(a); a: array a { byte; }; @ [[1], [2], [3]] => 0020 0003 010203
        a label and a case of one name @ integer = a; a: switch { case a: key byte = 1; }; @ ("a", []) => 0010 01
        a label and a symbol of one name @ type 'Test' { a: byte a = 7; byte = a; };¶resource 'Test' (1) { a }; => 07 00
        a label isn't seen in an item @ type 'Test' { byte; a: byte; };¶resource 'Test' (1) { 1, a }; => 2: 203 UnknownName: "a"
        an array named true and its rows beside a number @ type 'Test' { byte = $$CountOf(true); byte = true; array true { byte; }; };¶resource 'Test' (1) { { 5, 6 } }; => 02 01 05 06
    """)


@LABELS.part("Labels of the body around, in rows and in cases.")
def outer():
    row = LABELS.row
    lines = [[[1], [2], [3]]]
    LABELS.table(r"""
        a label before an array in its rows @ a: byte; array { byte; byte = a; }; @ 7, [[1], [2], [3]] => 07 0100 0200 0300
        a label at an array in its rows @ byte; a: array { byte; byte = a; }; @ 7, [[1], [2], [3]] => 07 0108 0208 0308
        a label behind an array in its rows @ byte; array { byte; byte = e; }; e: @ 7, [[1], [2], [3]] => 07 0138 0238 0338
        a number before an array read in its rows @ a: byte; array { byte; byte = $$Byte(a); }; @ 7, [[1], [2], [3]] => 07 0107 0207 0307
        a size by a number before an array in its rows @ n: byte; array { string[$$Byte(n)]; }; @ 2, [[b"a"], [b"bcd"], [b""]] => 02 "a" 00 "bc" 0000
        a size by a label behind an array in its rows @ array { byte; string[e]; }; e: @ [[1, b"a"]] => 214 SizeLater: 1
        a size by a label behind an array without rows @ array { byte; string[e]; }; e: @ [] =>
        labels around an array in rows of rows @ a: byte; array { array in { byte; byte = e - a; }; byte = $$CountOf(in); }; e: @ 9, [[[[1], [2]]], [[]], [[[3]]]] => 09 0150 0250 02 00 0350 01
        a label before a switch in its case @ a: byte; switch { case A: key byte = 1; byte = $$Byte(a); byte = e; }; e: @ 5, ("A", []) => 05 01 05 20
        a label of a case and one around it @ o: byte; switch { case A: i: key byte = 1; byte = i - o; byte = e - i; }; e: @ 5, ("A", []) => 05 01 08 18
        a label of a case in rows of the case @ byte; switch { case A: key byte = 1; i: array { byte; byte = i; }; }; @ 5, ("A", [[[1], [2]]]) => 05 01 0110 0210
        labels of cases in cases @ switch { case A: key byte = 1; a: switch { case B: key byte = 2; b: byte = a; byte = b; byte = y; byte = z; }; y: }; z: @ ("A", [("B", [])]) => 01 02 08 10 30 30
        a switch in rows by a label around @ a: array { switch { case A: key byte = 1; byte = e; case B: key byte = 2; integer = e; }; }; e: @ [[("A", [])], [("B", [])]] => 01 28 02 0028
        the label of the case that is chosen, of two @ switch { case A: key byte = 1; byte = a; a: case B: key byte = 2; byte; byte = b; b: }; @ ("B", [4]) => 02 04 18
    """)
    for depth in range(1, 9):
        inner = [byte(), byte(at("a") + at("e"))]
        lines = [[1], [2]]
        for _ in range(depth):
            inner, lines = [Array(None, None, inner), byte(at("e") & 127)], [[lines]]
        row("labels around arrays %d deep" % depth, [byte(), Label("a")] + inner + [Label("e")], [3] + lines[0])
    for depth in range(1, 9):
        inner, values = [byte(at("a") + at("e"))], []
        for k in range(depth):
            inner, values = [key("byte", 1), integer(at("s%d" % k)), Label("s%d" % k),
                Switch([("C", inner)])] if k else [key("byte", 1)] + inner, [("C", values)] if k else []
        row("labels of cases %d deep" % depth, [Label("a"), Switch([("C", inner)]), Label("e")], [("C", values)])


@LABELS.part("Sizes by each function, of each string.")
def sizes():
    for form in ("string", "pstring", "wstring", "cstring"):
        for which, function in FUNCTIONS:
            width = {"a byte": 8, "a word": 16, "a long": 32}.get(which) or int(which.split()[0])
            for size in (0, 1, 4):
                if size < 2 ** width and (size or width < 32):
                    LABELS.row("a %s with the size %d by %s" % (form, size, which),
                               [Label("n"), field_bits(width), text(form, function("n"))], [size, b"abc"])
        LABELS.row("a %s with a size by places" % form, [Label("a"), longint(), Label("b"), text(form, (at("b") - at("a")) / 8),
            Label("c"), integer(at("c"))], [5, b"abcdef"])
        LABELS.row("a fixed %s with a size by a byte" % form, [Label("n"), byte(), text(form, byte_at("n"), b"abc")], [2])
        LABELS.row("a fixed %s with a size by a label behind it" % form, [byte(), text(form, at("e"), b"abc"), Label("e")], [2],
            "214 SizeLater: 1")
        LABELS.row("a %s with a size by its own label" % form, [byte(), Label("s"), text(form, at("s"))], [2, b"ab"])
        LABELS.row("a %s with a size by itself" % form, [Label("s"), byte(), Label("t"), text(form, byte_at("t"))], [2, b"ab"],
            "213 LaterData: 16")
        LABELS.row("a %s with a size below what it may have" % form, [Label("n"), byte(), text(form, byte_at("n") - 4)], [3, b"ab"],
            "207 OutOfRange: -1")
    for form, most in (("pstring", 255), ("wstring", 65535)):
        LABELS.row("a %s with the most that a size may be" % form, [Label("n"), longint(), text(form, long_at("n"))], [most, b"ab"])
        LABELS.row("a %s with one more than a size may be" % form, [Label("n"), longint(), text(form, long_at("n"))],
            [most + 1, b"ab"], "207 OutOfRange: %d" % (most + 1))
    for form, size in (("string", 0), ("cstring", 1), ("pstring", 0)):
        LABELS.row("a %s with the least that a size may be" % form, [Label("n"), byte(), text(form, byte_at("n"))], [size, b"ab"])
    LABELS.table(r"""
        a cstring with the size 0 by a label @ a: cstring[a]; @ b"ab" => 207 OutOfRange: 0
        sizes one by another @ a: byte; b: pstring[$$Byte(a)]; string[$$Byte(b)]; byte; @ 3, b"xy", b"12345", 9 => 03 02 "xy" 00 "12" 09
        a size by a symbol's number @ a: boolean; align byte; string[$$BitField(a, 0, 1)]; @ 1, b"xy" => 80 "x"
        a size of a fixed number before it @ a: byte = 2; string[$$Byte(a)]; @ b"xyz" => 02 "xy"
        a size of a number by a label before it @ byte; a: byte = a; string[$$Byte(a)]; @ 9, b"xyz" => 09 08 "xyz" 00*5
        // Labels and bits in formats.
        a format with a place @ byte; a: pstring = $$Format("at %d", a); @ 1 => 01 04 "at 8"
        a format with bits @ a: byte; cstring = "<" $$Format("%x", $$Byte(a)) ">"; @ 171 => AB "<ab>" 00
        a format with a place behind it @ pstring = $$Format("%d", e); e: @  => 214 SizeLater: 0
        a format with late bits @ a: byte = e; pstring = $$Format("%d", $$Byte(a)); e: @  => 214 SizeLater: 2
        a format in a format with a place @ byte; a: pstring = $$Format("(%s)", $$Format("%d", a)); @ 1 => 01 03 "(8)"
        a format with the number of rows and a place @ a: array r { byte; }; b: pstring = $$Format("%d in %d", $$CountOf(r), b - a); @ [[1], [2]] => 0102 07 "2 in 16"
        a format in a row with a place around @ a: byte; b: array { byte; pstring = $$Format("%d%d", b, $$Byte(a)); }; @ 3, [[1], [2]] => 03 01 02 "83" 02 02 "83"
    """)


@LABELS.part("Several resources, facts, copies and ids of a type.")
def several():
    LABELS.table(r"""
        two resources of a type @ type 'Test' { longint = e; pstring; e: };¶resource 'Test' (1) { "a" };¶resource 'Test' (2) { "" }; => 00000030 01 "a" | 00000028 00
        a copy of a type @ type 'Last' { byte = e; e: };¶type 'Test' as 'Last';¶resource 'Test' (1) { }; => 08
        a type for an id @ type 'Test' { byte; };¶type 'Test' (2) { byte = e; e: };¶resource 'Test' (1) { 3 };¶resource 'Test' (2) { }; => 03 | 08
        two types with one label @ type 'Last' { a: byte = a; };¶type 'Test' { byte; A: byte = A; };¶resource 'Test' (1) { 1 }; => 01 08
        a label by a macro @ #define Here There¶type 'Test' { byte; Here: byte = there; };¶resource 'Test' (1) { 1 }; => 01 08
        a function by a macro @ #define Size $$Byte(n)¶type 'Test' { n: byte; string[Size]; };¶resource 'Test' (1) { 2, "abc" }; => 02 "ab"
        a label over lines @ type 'Test' { byte; a¶:¶  byte = a; };¶resource 'Test' (1) { 1 }; => 01 08
        a label with a comment @ type 'Test' { byte; a/* here */: /* and */ byte = a; };¶resource 'Test' (1) { 1 }; => 01 08
        functions in capital letters @ TYPE 'Test' { n: BYTE; BYTE = $$BYTE(N); INTEGER = $$bitfield(N, 0, 8); STRING[$$byte(N)]; };¶RESOURCE 'Test' (1) { 2, "abc" }; => 02 02 0002 "ab"
    """)
    facts = dict(FACTS, ID=258, Name=b"ab")
    LABELS.row("a place and the id", "byte; a: integer = a + $$ID;", [1], "01 010A", facts)
    LABELS.row("bits at a place of the id", "a: integer = $$ID; byte = $$BitField(a, $$ID - 250, 8);", [], "0102 02",
               facts)
    LABELS.row("the length of the name", "byte = (e - s) / 8; s: string = $$Name; e:", [], '02 "ab"', facts)
    LABELS.row("a size by the id", "s: byte; string[$$Byte(s) + $$ID - 256];", [1, b"abcd"], '01 "abc"', facts)


@LABELS.part("derez shows resources of types with labels by their fields. solved_cases.py, end_cases.py and "
             "known_cases.py have the most of these.")
def shown():
    for name, types, resources, out in [
            ("a type with a label", "type 'Test' { byte; a: byte; };\n", [(b"Test", 1, b"", 0, b"\1\2")],
                "resource 'Test' (1) {\n    1,\n    2\n};\n\n"),
            ("a type with a label of which nothing is asked", "type 'Test' { byte; a: };\n", [(b"Test", 1, b"", 0, b"\1")],
                "resource 'Test' (1) {\n    1\n};\n\n"),
            ("a type with a label, and one without", "type 'Test' { a: byte; };\ntype 'Last' { byte; };\n",
                [(b"Test", 1, b"", 0, b"\1"), (b"Last", 1, b"", 0, b"\1")],
             "resource 'Test' (1) {\n    1\n};\n\nresource 'Last' (1) {\n    1\n};\n\n"),
            ("a type with a label for one id", "type 'Test' { byte; };\ntype 'Test' (2) { a: byte; };\n",
                [(b"Test", 1, b"", 0, b"\1"), (b"Test", 2, b"", 0, b"\1")],
             "resource 'Test' (1) {\n    1\n};\n\nresource 'Test' (2) {\n    1\n};\n\n"),
            ("a type with a label in a case", "type 'Test' { switch { case A: key byte = 1; a: byte; }; };\n",
                [(b"Test", 1, b"n", 0, b"\1\2")],
             "resource 'Test' (1, \"n\") {\n    A {\n        2\n    }\n};\n\n"),
            ("a resource that its type doesn't give", "type 'Test' { byte = e; e: };\n", [(b"Test", 1, b"", 0, b"\1\2\3")],
                "data 'Test' (1) {\n    $\"0102 03\"\n};\n\n")]:
        LABELS.case("derez " + name, "derez f t.r", [("f", image(resources)), ("t.r", types)], (), 0, (), (), out, "")
