"""Writes label_rules.cases: where labels may stand, and how they are named."""
from label_book import Cases
from model.label_types import (Array, Format, Label, Switch, at, at_row, bits_at, byte, byte_at, integer, key, long_at,
                               number, points, rows_of, text, word_at)

RULES = Cases("label_rules.cases", "label_rule_cases.py", "Where labels may stand, how they are named, and what is no label.")


# Rules.

RESERVED = """type resource data include read change delete as to not array wide switch case key fill align bit nibble byte word long integer
longint bitstring boolean char string pstring wstring cstring point rect hex decimal octal binary literal unsigned appheap sysheap
nonpurgeable purgeable unlocked locked unprotected protected nonpreload preload unchanged changed defined true false rez derez""".split()


@RULES.part("What is no name of a label.")
def grammar():
    for word in RESERVED:
        RULES.told("the label %s" % word, "type 'Test' { byte; %s: byte; };\nresource 'Test' (1) { 1, 2 };\n" % word, 1,
            "201 Syntax")
    for word in ["$$a", "$$Byte", "$$CountOf", "1", "$1", "'a'", '"a"', "-a", "a b", "(a)", "a[1]", "a+b", "="]:
        RULES.told("a label spelled %s" % word, "type 'Test' { byte; %s: byte; };\n" % word, 1, "201 Syntax")
    RULES.say("Where a label stands.")
    for name, body in [("a label in a switch before its cases",
                           "switch { a: case A: key byte = 1; }"), ("a label between cases at the end of one without a colon",
                           "switch { case A: key byte = 1; a }"),
                       ("a label without a colon", "a byte"), ("a label with two colons", "a:: byte"), ("a colon without a label",
                           ": byte"), ("a label behind its field", "byte a:"),
                       ("a label in a list of symbols", "byte b, a: c"), ("a label in a value",
                           "byte = a: 1"), ("a label in a point", "point = {a: 1, 2}"), ("a label in a size", "string[a: 1]"),
                       ("a label behind key", "switch { case A: key a: byte = 1; }"), ("a label before wide alone",
                           "a: wide"), ("a label before a key outside of a case", "a: key byte = 1"),
                       ("a label with an equals sign", "a = 1: byte"), ("a label in brackets of an array",
                           "array [a: 2] { byte; }")]:
        RULES.told(name, "type 'Test' { %s; };\n" % body, 1, "201 Syntax")
    RULES.table(r"""
        a label in an array @ type 'Test' { array { a: byte; } };¶resource 'Test' (1) { { 7 } }; => 07
        a label at the end of an array @ type 'Test' { array { byte; a: } };¶resource 'Test' (1) { { 7 } }; => 07
        a label at the end of an array with a ; @ type 'Test' { array { byte; a:; } };¶resource 'Test' (1) { { 7, 8 } }; => 0708
        a label and then a ; in an array @ type 'Test' { array { ;; a: ;; byte }; };¶resource 'Test' (1) { { 7 } }; => 07
        a label in an array in an array @ type 'Test' { array { array { a: byte; }; } };¶resource 'Test' (1) { { { 7 }, { 8 } } }; => 0708
        a label in a case in an array @ type 'Test' { array { switch { case A: key byte = 1; a: byte; }; } };¶resource 'Test' (1) { { A { 7 } } }; => 01 07
        a label in an array in a case @ type 'Test' { switch { case A: key byte = 1; array { a: byte; }; } };¶resource 'Test' (1) { A { { 7 } } }; => 01 07
        a label in a case in an array in a case @ type 'Test' { switch { case A: key byte = 1; array { switch { case B: a: key byte = 1; }; }; } };¶resource 'Test' (1) { A { { B { } } } }; => 01 01
        a label in a wide array @ type 'Test' { a: wide array { b: byte = b; byte; }; };¶resource 'Test' (1) { { 7 } }; => 00 07
        labels one after the other in an array @ type 'Test' { array { a: b: byte = a + b; byte; } };¶resource 'Test' (1) { { 7, 8 } }; => 0007 2008
        blanks and comments in an index @ type 'Test' { array { w: byte; }; byte = w [ /* the second */ 2 ] // row¶; };¶resource 'Test' (1) { { 7, 8 } }; => 0708 08
        an index in brackets @ type 'Test' { array { w: byte; }; byte = (w[(2)]) * w[1 + 1]; };¶resource 'Test' (1) { { 7, 8 } }; => 0708 40
        an index behind a sign @ type 'Test' { array { w: byte; }; byte = -w[2]; byte = ~w[1]; byte = !w[1]; };¶resource 'Test' (1) { { 7, 8 } }; => 0708 F8FF01
        an index of an index @ type 'Test' { array { w: byte; }; byte = w[w[2] / 8]; };¶resource 'Test' (1) { { 7, 8 } }; => 0708 00
        an index and a number in braces @ type 'Test' { array { w: byte; }; point = {w[1], w[2]}; };¶resource 'Test' (1) { { 7, 8 } }; => 0708 00000008
        an index in a size @ type 'Test' { array { w: byte; }; string[w[2] / 4]; };¶resource 'Test' (1) { { 7, 8 }, "abc" }; => 0708 "ab"
        the number of the row in a size @ type 'Test' { array a { string[$$ArrayIndex(a)]; }; };¶resource 'Test' (1) { { "xyz", "xyz" } }; => "x" "xy"
        the number of the row in an index of a size @ type 'Test' { array { w: byte; }; array a { string[w[$$ArrayIndex(a)] / 8 + 1]; }; };¶resource 'Test' (1) { { 7, 8 }, { "xyz", "xyz" } }; => 0708 "x" "xy"
        the number of the row of an array with the name of an attribute @ type 'Test' { array locked { byte = $$ArrayIndex(LOCKED); byte; }; };¶resource 'Test' (1) { { 7, 8 } }; => 0107 0208
        the number of the row of an array named false @ type 'Test' { array false { byte = $$ArrayIndex(false) + false; byte; }; };¶resource 'Test' (1) { { 7, 8 } }; => 0107 0208
        blanks in the number of the row @ type 'Test' { array a { byte = $$ArrayIndex /* of */ ( a ); byte; }; };¶resource 'Test' (1) { { 7 } }; => 0107
        a label in rows behind a symbol @ type 'Test' { array { byte w = 5; w: byte = w; }; byte = w[1]; };¶resource 'Test' (1) { { w } }; => 05 08 08
        a label behind an array in a case @ type 'Test' { switch { case A: key byte = 1; array { byte; }; a: byte = a; }; };¶resource 'Test' (1) { A { { 7 } } }; => 01 07 10
        a label before a ; alone @ type 'Test' { a: ; byte = a; };¶resource 'Test' (1) {  }; => 00
        a label behind a ; alone @ type 'Test' { ;; a: ;; byte = a; };¶resource 'Test' (1) {  }; => 00
        a label and the end of a body @ type 'Test' { byte = a; a: };¶resource 'Test' (1) {  }; => 08
        a label and a ; and the end of a body @ type 'Test' { byte = a; a:; };¶resource 'Test' (1) {  }; => 08
        labels one after the other without a ; @ type 'Test' { a: b: c: byte = a + b + c; };¶resource 'Test' (1) {  }; => 00
        labels one after the other with a ; @ type 'Test' { a:; b:; c: byte = a + b + c; };¶resource 'Test' (1) {  }; => 00
        a last field without a ; behind a label @ type 'Test' { byte = a; a: byte = 3 };¶resource 'Test' (1) {  }; => 08 03
        a label before wide @ type 'Test' { byte = a; a: wide array { byte; }; };¶resource 'Test' (1) { { 5 } }; => 08 05
        a label before unsigned hex @ type 'Test' { a: unsigned hex byte = a; };¶resource 'Test' (1) {  }; => 00
        a label at the end of a case before the next @ type 'Test' { switch { case A: key byte = 1; byte = e; e: case B: key byte = 2; }; };¶resource 'Test' (1) { A { } }; => 01 10
        a case of a label alone behind its key @ type 'Test' { switch { case A: key byte = 1; e: }; };¶resource 'Test' (1) { A { } }; => 01
        a case that has the name of its label @ type 'Test' { switch { case A: A: key byte = 1; byte = A; }; };¶resource 'Test' (1) { A { } }; => 01 00
        a label behind the colon of its case @ type 'Test' { switch { case A: e: key byte = 1; byte = e; }; };¶resource 'Test' (1) { A { } }; => 01 00
        a symbol of a field behind a label @ type 'Test' { a: byte b = 5, c; };¶resource 'Test' (1) { c }; => 06
        labels of two cases that aren't in rows, and rows without @ type 'Test' { switch { case A: a: key byte = 1; case B: b: key byte = 2; }; array { byte; }; };¶resource 'Test' (1) { B { }, { 3 } }; => 02 03
        a label in a case named by an attribute @ type 'Test' { switch { case locked: l: key byte = 1; byte = l; }; };¶resource 'Test' (1) { locked { } }; => 01 00
    """)
    RULES.say("Where names of labels and functions of bits don't stand.")
    for name, body in [("the width of a bitstring", "bitstring[%s]"), ("the number of rows", "array [%s] { byte; }"),
        ("the count of a fill", "fill byte[%s]"), ("the value of a symbol", "byte b = %s, c")] + [
            ("the value of a key", "switch { case A: key byte = %s; }")]:
        for which, expr in [("a label", "a"), ("a byte at a label", "$$Byte(a)"), ("bits at a label", "$$BitField(a, 0, 1)")]:
            RULES.told("%s in %s" % (which, name), "type 'Test' { a: byte; %s; };\n" % (body % expr), 1, "201 Syntax")
        for which, expr in [("an index", "w[1]"), ("the number of the row", "$$ArrayIndex(a)")]:
            RULES.told("%s in %s" % (which, name), "type 'Test' { array a { w: byte; %s; }; };\n" % (body % expr), 1, "201 Syntax")
    for name, expr in [("a function of bits without a label", "$$Byte()"), ("a function of bits of a number", "$$Byte(1)"),
        ("a function of bits of an expression", "$$Byte(a + 1)"), ("a function of bits of a label in brackets", "$$Byte((a))"),
                       ("bits without a width", "$$BitField(a, 1)"), ("bits with a third number",
                           "$$BitField(a, 1, 2, 3)"), ("a byte with a start", "$$Byte(a, 1)"), ("bits of a reserved word",
                           "$$Byte(true)"), ("bits of a word of fields", "$$Word(byte)"),
                       ("a function without brackets", "$$Byte a"), ("bits of a function",
                           "$$Byte($$ID)"), ("a label in brackets of [ ]", "$$Byte[a]"), ("an index that is missing", "a[]"),
                       ("an index that isn't closed", "a[1"), ("an index that isn't opened", "a 1]"), ("two indexes in brackets",
                           "a[1, 2]"), ("an index behind an index", "a[1][1]"), ("an index behind brackets", "(a)[1]"),
                       ("an index of a number", "1[1]"), ("an index of a byte", "$$Byte(a)[1]"), ("an index of the number of rows",
                           "$$CountOf(a)[1]"), ("an index of true", "true[1]"), ("an index of a word of fields", "byte[1]"),
                       ("an index of an attribute", "locked[1]"), ("an index of a literal", "'a'[1]"), ("an index by a string", 'a["x" "y"]'),
                       ("an index in round brackets", "a(1)"), ("a byte at a label with an index", "$$Byte(a[1])"),
                       ("bits at a label with an index", "$$BitField(a[1], 0, 1)"), ("the number of rows of a label with an index",
                           "$$CountOf(a[1])"), ("the number of the row without brackets", "$$ArrayIndex"),
                       ("the number of the row without a name", "$$ArrayIndex()"), ("the number of the row of a number",
                           "$$ArrayIndex(1)"), ("the number of the row of an index", "$$ArrayIndex(a[1])"),
                       ("the number of the row of two names", "$$ArrayIndex(a, a)"), ("the number of the row of a sum",
                           "$$ArrayIndex(a + 1)"), ("the number of the row in brackets of [ ]", "$$ArrayIndex[a]"),
                       ("the number of the row of a word of fields", "$$ArrayIndex(array)"), ("the number of the row of a function",
                           "$$ArrayIndex($$ID)"), ("the number of the row of a string", '$$ArrayIndex("a")')]:
        RULES.told(name, "type 'Test' { a: byte; byte = %s; };\n" % expr, 1, "201 Syntax")
        RULES.told(name + ", in rows", "type 'Test' { array a { a: byte; byte = %s; }; };\n" % expr, 1, "201 Syntax")
    for name, statement in [("the id of a resource", "resource 'Test' (%s) { 1 };"),
        ("attributes of a resource", "resource 'Test' (1, %s) { 1 };"), ("the id of data", "data 'Test' (%s) { };"),
        ("the id of a read", "read 'Test' (%s) \"f\";"), ("a pick of delete", "delete 'Test' (%s);")]:
        RULES.told("a byte at a label in %s" % name, "type 'Test' { a: byte; };\n%s\n" % (statement % "$$Byte(a)"), 2, "201 Syntax")
        RULES.told("a label in %s" % name, "type 'Test' { a: byte; };\n%s\n" % (statement % "a"), 2, "201 Syntax")
        RULES.told("an index in %s" % name, "type 'Test' { array a { a: byte; }; };\n%s\n" % (statement % "a[1]"), 2, "201 Syntax")
        RULES.told("the number of the row in %s" % name, "type 'Test' { array a { a: byte; }; };\n%s\n" % (statement % "$$ArrayIndex(a)"),
            2, "201 Syntax")
    RULES.table(r"""
        a byte at a label in an item @ type 'Test' { a: byte; };¶resource 'Test' (1) { $$Byte(a) }; => 2: 201 Syntax
        a label in an item @ type 'Test' { a: byte; };¶resource 'Test' (1) { a }; => 2: 203 UnknownName: "a"
        a label in a format of an item @ type 'Test' { a: pstring; };¶resource 'Test' (1) { $$Format("%d", a) }; => 2: 203 UnknownName: "a"
        the number of rows in a size @ type 'Test' { string[$$CountOf(r)]; array r { byte; }; }; => 1: 201 Syntax
        the number of rows in an index of a size @ type 'Test' { array r { w: byte; }; string[w[$$CountOf(r)]]; }; => 1: 201 Syntax
        an index in an item @ type 'Test' { array r { w: byte; }; };¶resource 'Test' (1) { { w[1] } }; => 2: 201 Syntax
        the number of the row in an item @ type 'Test' { array r { w: byte; }; };¶resource 'Test' (1) { { $$ArrayIndex(r) } }; => 2: 201 Syntax
        an index in a point of an item @ type 'Test' { array r { w: byte; }; };¶resource 'Test' (1) { { { w[1], 2 } } }; => 2: 201 Syntax
        an index in a format of an item @ type 'Test' { array r { w: byte; }; pstring; };¶resource 'Test' (1) { { }, $$Format("%d", w[1]) }; => 2: 201 Syntax
        the number of the row in a format of data @ data 'Test' (1) { $$Format("%d", $$ArrayIndex(r)) }; => 1: 201 Syntax
        the number of a row in a condition @ #define one 1¶#if $$ArrayIndex(r)¶#endif => 2: 114 BadCondition
        an index in a condition @ #define one 1¶#if w[1]¶#endif => 2: 114 BadCondition
        an index of a macro in a condition @ #define one 1¶#if one[1]¶#endif => 2: 114 BadCondition
    """)
    RULES.say("Brackets in brackets: 60 in a type, an index among them.")
    for depth, fault in ((2, None), (59, None), (60, "221 TooDeep")):
        expr = "1"
        for _ in range(depth):
            expr = "w[%s]" % expr
        source = "type 'Test' { array { byte; }; array [1] { w: fill bit; fill bit[7]; byte; }; byte = %s; };\n" % expr
        source += "resource 'Test' (1) { { }, { 7 } };\n"
        if fault:
            RULES.told("%d indexes in indexes" % depth, source, 1, fault)
        else:
            RULES.told("%d indexes in indexes" % depth, source, 2, "223 BadIndex: 0")
    RULES.told("the number of rows in the start of bits in a size",
        "type 'Test' { a: string[$$BitField(a, $$CountOf(r), 1)]; array r { byte; }; };\n", 1, "201 Syntax")
    RULES.told("a label takes no item", "type 'Test' { a: byte; b: };\nresource 'Test' (1) { 1, 2 };\n", 2, "209 TooMany: 2")
    RULES.told("a type of labels takes no item", "type 'Test' { a: b: };\nresource 'Test' (1) { 1 };\n", 2, "209 TooMany: 1")
    RULES.told("an item is missing behind a label", "type 'Test' { byte; b: byte; };\nresource 'Test' (1) { 1 };\n", 2,
        "208 TooFew: 1")


@RULES.part("Two labels of one name.")
def rules():
    row = RULES.row
    RULES.table(r"""
        two labels of one name @ a: byte; a: byte; @ 1, 2 => 230 LabelTwice: "a"
        two labels of one name in other letters @ aB: byte; Ab: byte; @ 1, 2 => 230 LabelTwice: "Ab"
        two labels of one name side by side @ a: A: @  => 230 LabelTwice: "A"
        three labels of one name @ a: A: b: B: @  => 230 LabelTwice: "A"
        a label of a case and one before @ IN: switch { case A: in: key byte = 1; case B: other: key byte = 2; }; @ ("A", []) => 230 LabelTwice: "in"
        a label of a case and one behind @ switch { case A: in: key byte = 1; case B: other: key byte = 2; }; IN: @ ("A", []) => 230 LabelTwice: "IN"
        a label in two cases @ switch { case A: l: key byte = 1; case B: l: key byte = 2; }; @ ("A", []) => 230 LabelTwice: "l"
        a label in cases of two switches @ switch { case A: in: key byte = 1; case B: other: key byte = 2; }; switch { case A: key byte = 1; other: }; @ ("A", []), ("A", []) => 230 LabelTwice: "other"
        two labels before an array twice @ a: A: array r { byte; }; array R { byte; }; @ [], [] => 230 LabelTwice: "A"
        an array twice before two labels @ array r { byte; }; array R { byte; }; a: A: @ [], [] => 231 ArrayTwice: "R"
        a label and an array of one name aren't twice @ a: array A { byte; }; byte = $$CountOf(a); @ [[1]] => 01 01
        two labels before a bad width @ a: A: pstring[256]; @ b"" => 230 LabelTwice: "A"
        a bad width before two labels @ pstring[256]; a: A: @ b"" => 238 BadWidth: 256
        two labels before an unknown one @ byte = none; a: A: @  => 230 LabelTwice: "A"
        the position of an array counts labels @ a: b: array { byte = 1; }; @ [] => 237 ElementWithoutValues: 2
        labels have no width before a key @ switch { case A: a: byte; b: key byte = 1; case B: byte; key byte = 2; }; @ ("B", [1]) => 01 02
        another distance of a key behind a label @ switch { case A: a: byte; key byte = 1; case B: b: key byte = 2; }; @ ("B", []) => 235 KeyDistance: "B"
        a size by a label isn't a fixed width @ n: switch { case A: string[n]; key byte = 1; }; @ ("A", [b""]) => 235 KeyDistance: "A"
    """)
    RULES.say("Labels that a field can't name.")
    no = '212 UnknownLabel: "none"'
    for name, field, values in [("a number", byte(at("none")), []), ("a key's neighbour", integer(at("none") + 1), []),
        ("a point", points(1, at("none")), []), ("a rectangle", points(1, 2, 3, at("none")), []),
                                ("a size", text("string", at("none")), [b""]), ("a format",
                                    text("string", None, [Format(b"%d", [at("none")])]), []), ("a byte", byte(byte_at("none")),
                                    []), ("a word", byte(word_at("none")), []),
                                ("a long", byte(long_at("none")), []), ("bits", byte(bits_at("none", number(0), number(1))),
                                    []), ("the start of bits", byte(bits_at("a", at("none"), number(1))), []),
                                ("the width of bits", byte(bits_at("a", number(1), at("none"))), []), ("a size by bits",
                                    text("cstring", byte_at("none")), [b""]), ("the number of rows", byte(rows_of("none")), []),
                                ("a row", Array(None, None, [byte(), byte(at("none"))]), [[]]), ("a row of a row",
                                    Array(None, None, [Array(None, None, [byte(), byte(byte_at("none"))])]), [[]]),
                                ("a case", Switch([("A", [key("byte", 1), byte(at("none"))])]),
                                    [("A", [])]), ("a format in a format",
                                    text("string", None, [Format(b"%s", [[Format(b"%d", [at("none")])]])]), [])]:
        row("an unknown label in %s" % name, [Label("a"), field], values, no)
    RULES.say("Labels in rows: what can be named, and from where.")
    array = Array("rows", None, [Label("none"), byte()])
    wanted = {"an index": at_row("none", 1), "the label": at("none"), "bits at it": byte_at("none")}
    for name, expr in wanted.items():
        for where, body, values in [
                ("from before the rows", [byte(expr), array], [[[7]]]), ("from behind the rows", [array, byte(expr)], [[[7]]]),
                ("in the rows", [Array("rows", None, array.row + [byte(expr)])], [[[7]]]),
                ("in a row of the row", [Array("rows", None, array.row + [Array("in", None, [byte(expr), byte()])])],
                    [[[7, [[8]]]]]),
                ("in a case of the row", [Array("rows", None, array.row + [Switch([("A", [key("byte", 1), byte(expr)])])])],
                    [[[7, ("A", [])]]]),
                ("in other rows", [array, Array("other", None, [byte(expr), byte()])], [[[7]], [[8]]]),
                ("in a case behind the rows", [array, Switch([("A", [key("byte", 1), byte(expr)])])], [[[7]], ("A", [])])]:
            can = where in ("in the rows", "in a row of the row", "in a case of the row") or name == "an index"
            RULES.row("%s of rows, %s" % (name, where), body, values, None if can else no)
    RULES.table(r"""
        an index of the fields themselves @ none: byte = none[1]; @  => 212 UnknownLabel: "none"
        an index of the fields around @ none: array { byte = none[1]; byte; }; @ [] => 212 UnknownLabel: "none"
        an index of a case @ switch { case A: key byte = 1; none: }; byte = none[1]; @ ("A", []) => 212 UnknownLabel: "none"
        an index of a case in rows @ array { switch { case A: key byte = 1; none: }; }; byte = none[1]; @ [] => 212 UnknownLabel: "none"
        an index of a case in the same row @ array { switch { case A: key byte = 1; none: }; byte = none[1]; }; @ [] => 212 UnknownLabel: "none"
        an index of a row in rows @ array { array { none: byte; }; }; byte = none[1]; @ [] => 212 UnknownLabel: "none"
        an index of rows in a case @ switch { case A: key byte = 1; array { none: byte; }; }; byte = none[1]; @ ("A", [[]]) => 212 UnknownLabel: "none"
        an index of rows in another case @ switch { case A: key byte = 1; array { none: byte; }; case B: key byte = 2; byte = none[1]; }; @ ("B", []) => 212 UnknownLabel: "none"
        an index of rows in other rows @ array { array { none: byte; }; }; array { byte = none[1]; byte; }; @ [], [] => 212 UnknownLabel: "none"
        an index of an array @ array none { byte; }; byte = none[1]; @ [] => 212 UnknownLabel: "none"
        an index of a case's name @ switch { case none: key byte = 1; }; byte = none[1]; @ ("none", []) => 212 UnknownLabel: "none"
        an index of nothing @ byte = none[1]; @  => 212 UnknownLabel: "none"
        the number of the row before the rows @ byte = $$ArrayIndex(none); array none { byte; }; @ [] => 212 UnknownLabel: "none"
        the number of the row behind the rows @ array none { byte; }; byte = $$ArrayIndex(none); @ [] => 212 UnknownLabel: "none"
        the number of the row in other rows @ array none { byte; }; array other { byte = $$ArrayIndex(none); byte; }; @ [], [] => 212 UnknownLabel: "none"
        the number of the row in the rows around @ array other { array none { byte; }; byte = $$ArrayIndex(none); }; @ [] => 212 UnknownLabel: "none"
        the number of the row in rows without a name @ array { byte = $$ArrayIndex(none); byte; }; @ [] => 212 UnknownLabel: "none"
        the number of the row in rows with another name @ array other { byte = $$ArrayIndex(none); byte; }; @ [] => 212 UnknownLabel: "none"
        the number of the row with a label of the name @ array other { none: byte = $$ArrayIndex(none); byte; }; @ [] => 212 UnknownLabel: "none"
        the number of the row in a case of the name @ array other { switch { case none: key byte = 1; byte = $$ArrayIndex(none); }; }; @ [] => 212 UnknownLabel: "none"
        the number of the row in a case before the rows @ switch { case A: key byte = 1; byte = $$ArrayIndex(none); }; array none { byte; }; @ ("A", []), [] => 212 UnknownLabel: "none"
        the number of the row of rows in the case of the row @ array other { switch { case A: key byte = 1; array none { byte; }; byte = $$ArrayIndex(none); }; }; @ [] => 212 UnknownLabel: "none"
        the number of the row in a size before the rows @ string[$$ArrayIndex(none)]; array none { byte; }; @ b"", [] => 212 UnknownLabel: "none"
        the number of the row in an index behind the rows @ array none { w: byte; }; byte = w[$$ArrayIndex(none)]; @ [] => 212 UnknownLabel: "none"
        the unknown label of an index before that in it @ byte = x[y]; @  => 212 UnknownLabel: "x"
        the unknown label in an index before the next @ array { w: byte; }; byte = w[x] + y; @ [] => 212 UnknownLabel: "x"
        the unknown array in an index @ array { w: byte; }; byte = w[$$CountOf(x)]; @ [] => 212 UnknownLabel: "x"
        the unknown label of bits before an index in their start @ byte = $$BitField(x, y[1], 1); @  => 212 UnknownLabel: "x"
        an index in a point that is unknown @ point = {1, none[1]}; @  => 212 UnknownLabel: "none"
        an index in a format that is unknown @ string = $$Format("%d", none[1]); @  => 212 UnknownLabel: "none"
        an index of an array without rows that is known @ array[0] { w: byte; }; byte = w[1]; @ [] => 223 BadIndex: 1
        // Two labels of one name, in rows.
        two labels of one name in a row @ array { aB: byte; Ab: }; @ [] => 230 LabelTwice: "Ab"
        two labels of one name in a row and before it @ aB: array { Ab: byte; }; @ [] => 230 LabelTwice: "Ab"
        two labels of one name in a row and behind it @ array { aB: byte; }; Ab: @ [] => 230 LabelTwice: "Ab"
        two labels of one name in rows of two arrays @ array { aB: byte; }; array { Ab: byte; }; @ [], [] => 230 LabelTwice: "Ab"
        two labels of one name in a row and a row of it @ array { aB: array { Ab: byte; }; }; @ [] => 230 LabelTwice: "Ab"
        two labels of one name in a row and a case of it @ array { aB: switch { case A: Ab: key byte = 1; }; }; @ [] => 230 LabelTwice: "Ab"
        two labels of one name in two cases of a row @ array { switch { case A: aB: key byte = 1; case B: Ab: key byte = 2; }; }; @ [] => 230 LabelTwice: "Ab"
        an array of labels alone @ array { a: byte = 1; }; @ [] => 237 ElementWithoutValues: 0
        the position of an array counts labels in rows before it @ array { a: byte; b: }; array { c: fill bit[1]; }; @ [], [] => 237 ElementWithoutValues: 4
        an array twice, the second in the first one's rows with labels @ array r { a: array R { b: byte; }; }; @ [] => 231 ArrayTwice: "R"
        labels in rows have no width before a key @ switch { case A: array[2] { a: byte; b: }; key byte = 1; case B: array[1] { integer; }; key byte = 2; }; @ ("A", [[[1], [2]]]) => 0102 01
        // Which unknown label comes first.
        the unknown label that is written first @ byte = x + y; @  => 212 UnknownLabel: "x"
        the unknown label of bits before that of their start @ byte = $$BitField(x, y, z); @  => 212 UnknownLabel: "x"
        the unknown label of a size before that of its format @ string[x] = $$Format("%d", y); @  => 212 UnknownLabel: "x"
        the unknown label of the first field @ byte = x; byte = y; @  => 212 UnknownLabel: "x"
        the unknown label of a field before that of its rows @ array { byte; byte = x; }; byte = y; @ [] => 212 UnknownLabel: "x"
        the unknown label of a row before that of a field behind @ byte = X; array { byte; byte = y; }; @ [] => 212 UnknownLabel: "X"
        a label of a case from outside @ switch { case A: in: key byte = 1; case B: other: key byte = 2; }; byte = in; @ ("A", []) => 212 UnknownLabel: "in"
        a label of a case from before it @ byte = in; switch { case A: in: key byte = 1; case B: other: key byte = 2; }; @ ("A", []) => 212 UnknownLabel: "in"
        a label of a case from another case @ switch { case A: in: key byte = 1; case B: key byte = 2; byte = IN; }; @ ("B", []) => 212 UnknownLabel: "IN"
        a label of a case from a row outside @ switch { case A: in: key byte = 1; case B: other: key byte = 2; }; array { byte; byte = in; }; @ ("A", []), [] => 212 UnknownLabel: "in"
        an array by itself is no label @ byte = r; array r { byte; }; @ [] => 212 UnknownLabel: "r"
        bits of an array @ byte = $$Byte(r); array r { byte; }; @ [] => 212 UnknownLabel: "r"
        a label has no rows @ a: byte = $$CountOf(a); @  => 212 UnknownLabel: "a"
        a case is no label @ switch { case A: key byte = 1; }; byte = A; @ ("A", []) => 212 UnknownLabel: "A"
    """)
    row("true and false are names without a label", [byte(at("true")), byte(at("FALSE"))], [], "01 00")
    row("true in a size", [text("string", at("true"))], [b"ab"], '"a"')
    RULES.table(r"""
        a symbol is no label @ type 'Test' { byte a = 1; byte = a; }; => 1: 212 UnknownLabel: "a"
        a fault of a type before its use @ type 'Test' { byte = a; };¶resource 'Test' (1) { }; => 1: 212 UnknownLabel: "a"
        the number of rows in a size that isn't there @ type 'Test' { a: byte; string[$$Byte(b)]; }; => 1: 212 UnknownLabel: "b"
        a name of 255 bytes that is no label @ type 'Test' { byte = «n×255»; }; => 1: 212 UnknownLabel: "«n×255»"
        a word of a fact without its signs @ type 'Test' { byte = ID; }; => 1: 212 UnknownLabel: "ID"
        a word of an attribute is a name and no label @ type 'Test' { byte = locked; }; => 1: 212 UnknownLabel: "locked"
    """)
