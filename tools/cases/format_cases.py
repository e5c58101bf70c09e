"""Writes format_texts.cases: `$$Format`, `$$Read` and `$$Resource` in texts, by hand.

What a format gives of many numbers is told by tools/model/labels.py.
"""
from casefile import Book, one, pascal
from model.fork import image
from model.forms import File, written
from model.label_types import Format, number
from model.labels import formatted

BOOK = Book("format_texts.cases",
            "What formats, files and resources of files give in texts.",
            "Written by tools/cases/format_cases.py, by a model of its own.")
EDGES = (0, 1, -1, 7, 8, -8, 15, 16, 255, 256, 65535, 2147483647, -2147483648)


def filled(text, *arguments):
    """What a format gives: a number is an int, a text bytes."""
    return formatted(Format(text.encode(), [number(0)] * len(arguments)), iter(arguments))


def data(name, text, content, **more):
    BOOK.rez("data: " + name, "data 'Test' (1) { %s };\n" % text, one(content), **more)


def refused(name, text, says="201 Syntax", **more):
    """A `data` statement that is refused."""
    BOOK.rez("data: " + name, "data 'Test' (1) { %s };\n" % text, err="1: error " + says, **more)


@BOOK.part("Formats in the texts of `data`: each conversion of numbers at the edges of their ranges.")
def conversions():
    data("a negative number, its hexadecimal digits and a percent sign", '$$Format("%d %x%%", -1, 255)', bytes.fromhex("2D3120666625"))
    for letter in "duxo":
        for value in EDGES:
            data("%%%s of %d" % (letter, value), '$$Format("%%%s", %s)' % (letter, value if value != -2147483648 else "-2147483647 - 1"),
                 filled("%" + letter, value))
    for value in (0, 1, 37, 65, 127, 128, 255):
        data("%%c of %d" % value, '$$Format("%%c", %d)' % value, bytes([value]))
    for value in (-1, 256, 65536, -256):
        refused("%%c of %d" % value, '$$Format("%%c", %d)' % value, "222 BadFormat")
    for name, text, value in [("a text", '"abc"', b"abc"), ("no bytes", '""', b""), ("two parts", '"ab" $"00FF"', b"ab\0\xFF"),
                              ("the version", "$$Version", b"V1.0"), ("a text with a percent sign", '"%d"', b"%d")]:
        data("%%s of %s" % name, '$$Format("<%%s>", %s)' % text, b"<" + value + b">")


@BOOK.part("What stands between conversions, and how many arguments there are.")
def wholes():
    for name, text, arguments in [
            ("no conversion", "plain text", ()), ("an empty format", "", ()), ("a percent sign", "%%", ()), ("two percent signs", "%%%%", ()),
            ("percent signs around a number", "%%%d%%", (5,)), ("letters behind a percent sign", "%%d", ()),
            ("conversions side by side", "%d%d%d", (1, 2, 3)), ("all of them", "%d,%u,%x,%o,%c", (-2, -2, 171, 64, 33)),
            ("a letter behind a conversion", "%dd", (4,)), ("text before and behind", "a%db", (9,))]:
        data(name, "$$Format(%s)" % ", ".join(['"%s"' % text] + [str(each) for each in arguments]), filled(text, *arguments))
    data("between texts", '"a" $$Format("%d", 1) "b"', b"a1b")
    data("two formats", '$$Format("%d", 1) $$Format("%d", 2)', b"12")
    data("a format in a format", '$$Format("[%s]", $$Format("%d%%", 50))', b"[50%]")
    data("three deep", '$$Format("a%sz", $$Format("b%sy", $$Format("c%dx", 7)))', b"abc7xyz")
    data("in small letters, and in capitals", '$$format("%d", 1) $$FORMAT("%d", 2)', b"12")
    data("an expression", '$$Format("%d", (1 + 2) * 3 << 1)', b"18")
    data("true", '$$Format("%d%d", true, FALSE)', b"10")
    data("the facts of the resource", '$$Format("%d %x %d %s", $$ID, $$Type, $$Attributes, $$Name)', b"1 54657374 0 ")
    for name, text in [("too few", '"%d"'), ("too few of two", '"%d%d", 1'), ("too many", '"x", 1'), ("too many of one", '"%d", 1, 2'),
                       ("a text for %d", '"%d", "a"'), ("a text for %u", '"%u", "a"'), ("a text for %x", '"%x", "a"'), ("a text for %o", '"%o", "a"'),
                       ("a text for %c", '"%c", "a"'), ("a number for %s", '"%s", 1'), ("another letter", '"%i", 1'), ("a capital letter", '"%X", 1'),
                       ("a capital D", '"%D", 1'), ("a width", '"%5d", 1'), ("a flag", '"%-d", 1'), ("a blank", '"% d", 1'),
                       ("a percent sign at the end", '"100%"'), ("one behind two", '"%%%"'), ("an argument for a percent sign", '"%%", 1')]:
        refused(name, "$$Format(%s)" % text, "222 BadFormat")


@BOOK.part("The first fault from left to right; the arguments of a format come before its own.")
def order():
    refused("a zero divisor before a bad letter", '$$Format("%q", 1 / 0)', "211 ZeroDivisor")
    refused("a shift before a zero divisor", '$$Format("%d%d", 1 << 32, 1 / 0)', "215 BadShift: 32")
    refused("a zero divisor before a shift", '$$Format("%d%d", 1 / 0, 1 << 32)', "211 ZeroDivisor")
    refused("an argument that is left over has a fault", '$$Format("x", 1 / 0)', "211 ZeroDivisor")
    refused("an inner format before the next argument", '$$Format("%s%d", $$Format("%"), 1 / 0)', "222 BadFormat")
    refused("an argument before an inner format", '$$Format("%d%s", 1 << -1, $$Format("%"))', "215 BadShift: -1")
    refused("the first of two formats", '$$Format("%") $$Format("%d", 1 / 0)', "222 BadFormat")
    refused("the first of two formats, the other way", '$$Format("%d", 1 / 0) $$Format("%")', "211 ZeroDivisor")
    BOOK.rez("data: a fault of the head before that of the text", "data 'Test' (40000) { $$Format(\"%\") };\n", err="1: error 204 BadId: 40000")


@BOOK.part("What has another form.")
def forms():
    for name, text in [("no brackets", '$$Format "a"'), ("empty brackets", "$$Format()"), ("a number first", "$$Format(1)"),
                       ("two texts first", '$$Format("a" "b")'), ("a function first", "$$Format($$Name)"), ("a comma at the end", '$$Format("a",)'),
                       ("an empty argument", '$$Format("%d%d", , 1)'), ("a semicolon", '$$Format("%d"; 1)'), ("square brackets", '$$Format["a"]'),
                       ("a text and a number in one argument", '$$Format("%s", "a" 1)'), ("a format in a sum", '1 + $$Format("a")'),
                       ("a name in data", '$$Format("%d", other)'), ("a number of rows in data", '$$Format("%d", $$CountOf(rows))'),
                       ("bits in data", '$$Format("%d", $$Byte(label))'), ("another function", '$$Formats("a")')]:
        refused("no format: " + name, text)


@BOOK.part("Formats in items.")
def items():
    BOOK.rez("item: a format", "type 'Test' { pstring; };\nresource 'Test' (1) { $$Format(\"%d of %s\", 3, \"ten\") };\n", one(pascal(b"3 of ten")))
    BOOK.rez("item: a char by a format", "type 'Test' { char; };\nresource 'Test' (1) { $$Format(\"%c\", 200) };\n", one(b"\xC8"))
    BOOK.rez("item: in rows", "type 'Test' { array { cstring; }; };\nresource 'Test' (1) { { $$Format(\"%d\", 1), $$Format(\"%d\", 2) } };\n", one(b"1\x002\x00"))
    BOOK.rez("item: true in a format", "type 'Test' { pstring; };\nresource 'Test' (1) { $$Format(\"%d\", true) };\n", one(b"\x011"))
    for name, item, says in [("a bad one", '$$Format("%")', "3: error 222 BadFormat"), ("a name without a value", '$$Format("%d", other)', '3: error 203 UnknownName: "other"'),
                             ("a symbol is no name there", '$$Format("%d", red)', '3: error 203 UnknownName: "red"'),
                             ("a format for a number", '$$Format("1")', "3: error 206 WrongKind: 2")]:
        fields = "byte red = 1; pstring" if "number" not in name else "byte red = 1; integer"
        BOOK.rez("item: " + name, "type 'Test' { %s; };\nresource 'Test' (1) { 1,\n %s };\n" % (fields, item), err=says)
    BOOK.rez("item: no number of rows", "type 'Test' { pstring; };\nresource 'Test' (1) { $$Format(\"%d\", $$CountOf(rows)) };\n", err="2: error 201 Syntax")
    BOOK.rez("item: too long", "type 'Test' { char; };\nresource 'Test' (1) { $$Format(\"%d\", 12) };\n", err="2: error 216 TextTooLong: 2")


@BOOK.part("Formats in heads and picks.")
def heads():
    BOOK.rez("head: a name", "data 'Test' (1, $$Format(\"n%d\", 2)) { };\n", one(b"", name=b"n2"))
    BOOK.rez("head: a name that is too long", "data 'Test' (1, $$Format(\"%s\", \"" + "a" * 256 + "\")) { };\n", err="1: error 216 TextTooLong: 256")
    BOOK.rez("head: a bad format", "data 'Test' (1, $$Format(\"%\")) { };\n", err="1: error 222 BadFormat")
    BOOK.rez("head: no $$ID in a format", "data 'Test' (1, $$Format(\"%d\", $$ID)) { };\n", err="1: error 201 Syntax")
    BOOK.rez("head: no $$Name in a format", "data 'Test' (1, $$Format(\"%s\", $$Name)) { };\n",
             err="1: error 201 Syntax")
    BOOK.rez("head: a name without a value", "data 'Test' (1, $$Format(\"%d\", other)) { };\n",
             err="1: error 201 Syntax")
    first, second = (b"Test", 1, b"n1", 0, b"a"), (b"Test", 2, b"n2", 0, b"b")
    base = [("x", image([first, second]))]
    source = [("f", image([first, second]))]
    BOOK.rez("pick: a name by a format", "delete 'Test' ($$Format(\"n%d\", 2));\n", image([first]), files=base, words="rez s.r -o x -a")
    BOOK.rez("pick: no $$Name in a format", "include \"f\" 'Test' ($$Format(\"%s\", $$Name));\n", err="1: error 201 Syntax", files=source)
    BOOK.rez("as: a name by a format", "include \"f\" 'Test' (2) as 'Last' (3, $$Format(\"%s-%d\", $$Name, $$ID));\n",
        one(b"b", b"Last", 3, b"n2-2"), files=source)
    BOOK.rez("to: a name by a format", "change 'Test' (1) to 'Last' (1, $$Format(\"%s!\", $$Name));\n",
        image([(b"Last", 1, b"n1!", 0, b"a"), second]), files=base, words="rez s.r -o x -a")


@BOOK.part("Formats in the fixed texts of types.")
def types():
    def made(name, fields, items, content, **more):
        BOOK.rez("type: " + name, "type 'Test' { %s };\nresource 'Test' (7, \"nm\") { %s };\n" % (fields, items), one(content, ident=7, name=b"nm"), **more)

    made("a format", 'pstring = $$Format("%d:%s", $$ID, $$Name);', "", pascal(b"7:nm"))
    made("a format with a size", 'string[3] = $$Format("%d", 12345);', "", b"123")
    made("the number of rows before the rows", 'integer = $$CountOf(rows); pstring = $$Format("%d rows", $$CountOf(rows)); array rows { byte; };', "{ 5, 6, 7 }",
         b"\0\3" + pascal(b"3 rows") + b"\5\6\7")
    made("the number of rows behind the rows", 'integer = $$CountOf(rows); array rows { byte; }; cstring = $$Format("%u", $$CountOf(rows));', "{ 5, 6 }",
         b"\0\2\5\6" + b"2\0")
    for name, fields, says in [("a bad format", 'pstring = $$Format("%");', "2: error 222 BadFormat"), ("a zero divisor", 'pstring = $$Format("%d", 1 / ($$ID - 7));', "2: error 211 ZeroDivisor"),
                               ("a shift", 'pstring = $$Format("%d", 1 << $$ID + 30);', "2: error 215 BadShift: 37"),
                               ("a bad format before a bad size", 'pstring[$$ID * 100] = $$Format("%");', "2: error 222 BadFormat"),
                               ("a fault of the size before a bad format", 'pstring[1 / ($$ID - 7)] = $$Format("%");', "2: error 211 ZeroDivisor"),
                               ("a text that is too long", 'pstring = $$Format("%s", "' + "a" * 256 + '");', "2: error 216 TextTooLong: 256")]:
        BOOK.rez("type: " + name, "type 'Test' { %s };\nresource 'Test' (7) { };\n" % fields, err=says)
    BOOK.rez("type: a number of rows of no array", "type 'Test' { pstring = $$Format(\"%d\", $$CountOf(rows)); };\n", err='1: error 212 UnknownLabel: "rows"')
    BOOK.rez("type: a name of no label", "type 'Test' { pstring = $$Format(\"%d\", other); };\n", err='1: error 212 UnknownLabel: "other"')
    for name, fields in [("$$Read", 'pstring = $$Read("f");'), ("$$Resource", "pstring = $$Resource(\"f\", 'Test', 1);"),
                         ("$$Read in a format", 'pstring = $$Format("%s", $$Read("f"));')]:
        BOOK.rez("type: no " + name, "type 'Test' { %s };\n" % fields, err="1: error 201 Syntax",
                 files=[("f", b"held")])
    BOOK.say("What derez shows where a fixed text has a format.")
    known = 'type \'Test\' { integer = $$CountOf(rows); pstring = $$Format("%d", $$CountOf(rows)); array rows { byte; }; };'
    BOOK.derez("derez: rows that are told before the text", known, one(b"\0\2\x012\5\6"), "resource 'Test' (1) {\n    {\n        5,\n        6\n    }\n};\n\n")
    BOOK.derez("derez: a text of other rows", known, one(b"\0\2\x013\5\6"), "data 'Test' (1) {\n    $\"0002 0133 0506\"\n};\n\n")
    BOOK.derez("derez: rows that nothing tells before the text", 'type \'Test\' { pstring = $$Format("%d", $$CountOf(rows)); integer = $$CountOf(rows); array rows { byte; }; };',
          one(b"\x012\0\2\5\6"), "data 'Test' (1) {\n    $\"0132 0002 0506\"\n};\n\n")
    BOOK.derez("derez: a bad format", 'type \'Test\' { pstring = $$Format("%"); byte; };', one(b"\0\7"), "data 'Test' (1) {\n    $\"0007\"\n};\n\n")
    BOOK.derez("derez: a format of the id", 'type \'Test\' { cstring = $$Format("%d", $$ID); byte; };', one(b"1\0\7"), "resource 'Test' (1) {\n    7\n};\n\n")


@BOOK.part("`$$Read`: a whole file as it is.")
def reads():
    held, every = ("f", b"held"), ("all", bytes(range(256)))
    data("a file", '$$Read("f")', b"held", files=[held])
    data("each byte", '$$Read("all")', bytes(range(256)), files=[every])
    data("an empty file", '"a" $$Read("e") "b"', b"ab", files=[("e", b"")])
    data("files and texts", '$$Read("f") "," $$Read("all") $$Read("f")', b"held," + bytes(range(256)) + b"held", files=[held, every])
    data("a name in two pieces", '$$Read("dir/" "f")', b"held", files=[("dir/f", b"held")])
    data("in a format", '$$Format("<%s>", $$Read("f"))', b"<held>", files=[held])
    data("a fork is bytes", '$$Read("r")', one(b"ab"), files=[("r", one(b"ab"))])
    data("behind a path", '$$Read("f")', b"held", files=[("lib/f", b"held")], words="rez s.r -o x -s lib")
    data("as it stands before behind a path", '$$Read("f")', b"held", files=[held, ("lib/f", b"other")], words="rez s.r -o x -s lib")
    data("behind the second path", '$$Read("f")', b"held", files=[("b/f", b"held")], words="rez s.r -o x -s a -s b")
    BOOK.rez("item: a file", "type 'Test' { pstring; wstring; };\nresource 'Test' (1) { $$Read(\"f\"), \"a\" $$Read(\"f\") };\n",
        one(b"\4held\0\5aheld"), files=[held])
    BOOK.rez("item: a file in rows", "type 'Test' { array { cstring; }; };\nresource 'Test' (1) { { $$Read(\"f\"), \"b\" } };\n", one(b"held\0b\0"), files=[held])
    missing = '101 MissingFile: "no"'
    refused("no such file", '$$Read("no")', missing)
    refused("the first of two that are missing", '$$Read("no") $$Read("none")', missing)
    refused("a missing file behind a bad format", '$$Format("%") $$Read("no")', missing)
    refused("a missing file in an argument behind a zero divisor", '$$Format("%d%s", 1 / 0, $$Read("no"))', missing)
    BOOK.rez("data: a fault of the head before a missing file", "data 'Test' (1 / 0) { $$Read(\"no\") };\n", err="1: error 211 ZeroDivisor")
    BOOK.rez("item: no type before a missing file", "resource 'Test' (1) { $$Read(\"no\") };\n", err="1: error 202 NoType: 'Test' 1")
    BOOK.rez("item: a missing file before too few items", "type 'Test' { byte; byte; };\nresource 'Test' (1) {\n $$Read(\"no\") };\n", err="2: error " + missing)
    BOOK.rez("item: a missing file before a zero divisor", "type 'Test' { byte; pstring; };\nresource 'Test' (1) { 1 / 0,\n $$Read(\"no\") };\n", err="2: error " + missing)
    BOOK.rez("item: a file that is too long", "type 'Test' { pstring; };\nresource 'Test' (1) {\n $$Read(\"long\") };\n", err="3: error 216 TextTooLong: 256",
        files=[("long", b"a" * 256)])
    for name, text in [("empty brackets", "$$Read()"), ("a number", "$$Read(1)"), ("two files", '$$Read("f", "f")'), ("a function", "$$Read($$Name)"), ("no brackets", '$$Read "f"')]:
        refused("no read: " + name, text, files=[held])
    for name, source in [("a head", "data 'Test' (1, $$Read(\"f\")) { };\n"), ("a format of a head", "data 'Test' (1, $$Format(\"%s\", $$Read(\"f\"))) { };\n"),
                         ("a pick", "include \"f\" 'Test' ($$Read(\"f\"));\n"), ("a head after as", "include \"f\" 'Test' (1) as 'Last' (1, $$Read(\"f\"));\n"),
                         ("the name of a file", "include $$Read(\"f\");\n")]:
        BOOK.rez("no read in " + name, source, err="1: error 201 Syntax", files=[held])
    BOOK.case("derez reads no file", "derez f t.r", [("f", one(b"a")), ("t.r", "data 'Test' (1) { $$Read(\"no\") };\n")], [],
              out="data 'Test' (1) {\n    $\"61\"\n};\n\n")


@BOOK.part("`$$Resource`: the bytes of a resource of a file, of whatever form.")
def resources():
    list_ = [(b"Test", 128, b"one", 0, b"\1\2"), (b"Test", 129, b"two", 0, b"b"), (b"Test", 130, b"two", 0, b"c"), (b"Last", 128, b"", 0, b"d")]
    fork = image(list_)
    file = [("one.rsrc", fork)]
    BOOK.rez("resource: by its id", "data 'Test' (2) { $$Resource(\"one.rsrc\", 'Test', 128) };\n", one(b"\1\2", ident=2), files=file)
    alone = [("one.rsrc", one(b"\1\2", ident=128))]
    for asked, leaves, err in ((128, one(b"\1\2", ident=2), ""), (129, None, "1: error 218 NoSuchResource: 'Test' 129")):
        BOOK.rez("resource: %d of a fork of one" % asked, "data 'Test' (2) { $$Resource(\"one.rsrc\", 'Test', %d) };\n" % asked,
            leaves, err, files=alone)
    data("resource: by its name", "$$Resource(\"one.rsrc\", 'Test', \"one\")", b"\1\2", files=file)
    data("resource: the first of a name", "$$Resource(\"one.rsrc\", 'Test', \"two\")", b"b", files=file)
    data("resource: a name by a format", "$$Resource(\"one.rsrc\", 'Test', $$Format(\"t%s\", \"wo\"))", b"b", files=file)
    data("resource: an id by an expression", "$$Resource(\"one.rsrc\", 'Last', 1 << 7)", b"d", files=file)
    data("resource: several among texts", "\"<\" $$Resource(\"one.rsrc\", 'Test', 129) $$Resource(\"one.rsrc\", 'Last', 128) \">\"", b"<bd>", files=file)
    data("resource: in a format", "$$Format(\"%s!\", $$Resource(\"one.rsrc\", 'Test', 129))", b"b!", files=file)
    data("resource: behind a path", "$$Resource(\"one.rsrc\", 'Test', 129)", b"b", files=[("lib/one.rsrc", fork)], words="rez s.r -o x -s lib")
    BOOK.rez("item: a resource", "type 'Test' { pstring; };\nresource 'Test' (1) { $$Resource(\"one.rsrc\", 'Test', 129) };\n", one(b"\1b"), files=file)
    for form in ("double", "single", "macbin", "hqx"):
        other = written(form, File(name=b"n", res=fork))
        data("resource: of %s" % form, "$$Resource(\"one.rsrc\", 'Test', 129)", b"b", files=[("one.rsrc", other)])
    for name, text, says in [("no such id", "$$Resource(\"one.rsrc\", 'Test', 127)", "218 NoSuchResource: 'Test' 127"),
                             ("no such type", "$$Resource(\"one.rsrc\", 'None', 128)", "218 NoSuchResource: 'None' 128"),
                             ("no such name", "$$Resource(\"one.rsrc\", 'Test', \"Two\")", '218 NoSuchResource: "Two"'),
                             ("an id that is too large", "$$Resource(\"one.rsrc\", 'Test', 32768)", "204 BadId: 32768"),
                             ("a zero divisor", "$$Resource(\"one.rsrc\", 'Test', 1 / 0)", "211 ZeroDivisor"),
                             ("a bad format of the name", "$$Resource(\"one.rsrc\", 'Test', $$Format(\"%\"))", "222 BadFormat"),
                             ("a missing file", "$$Resource(\"no\", 'Test', 128)", '101 MissingFile: "no"'),
                             ("an id that is too large before a missing file", "$$Resource(\"no\", 'Test', 32768)", "204 BadId: 32768"),
                             ("a missing file before that of the next", "$$Resource(\"no\", 'Test', 128) $$Read(\"none\")", '101 MissingFile: "no"'),
                             ("no such id before a missing file", "$$Resource(\"one.rsrc\", 'Test', 1) $$Read(\"no\")", "218 NoSuchResource: 'Test' 1"),
                             ("no such id before a bad format", "$$Format(\"%\") $$Resource(\"one.rsrc\", 'Test', 1)", "218 NoSuchResource: 'Test' 1")]:
        refused("resource: " + name, text, says, files=file)
    refused("resource: of a fork that is cut", "$$Resource(\"cut\", 'Test', 1)", "401 ShortHeader: 0 5", files=[("cut", b"\0\0\1\0\0")])
    for name, text in [("no brackets", '$$Resource "f"'), ("two arguments", "$$Resource(\"one.rsrc\", 'Test')"), ("four", "$$Resource(\"one.rsrc\", 'Test', 128, 1)"),
                       ("a type by a name", "$$Resource(\"one.rsrc\", Test, 128)"), ("no file", "$$Resource('Test', 128)"), ("a name without a value", "$$Resource(\"one.rsrc\", 'Test', other)"),
                       ("$$ID as the id", "$$Resource(\"one.rsrc\", 'Test', $$ID)"), ("$$Read in the name", "$$Resource(\"one.rsrc\", 'Test', $$Read(\"one.rsrc\"))"),
                       ("$$Resource in the name", "$$Resource(\"one.rsrc\", 'Test', $$Resource(\"one.rsrc\", 'Test', 128))")]:
        refused("no resource: " + name, text, files=file)
