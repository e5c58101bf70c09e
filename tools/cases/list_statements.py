"""The cases of lists.cases: the statements `include` and `read`, and the paths of `-s`. list_cases.py writes them."""
from list_book import FOUR, LONG, ONE, Runs, SOME, TEST, cut_fork, odd_fork, resource, said_as
from model.fork import image, number
from model.lists import Bad, Head, Id, Name, Range, Source, Stray, data, include, read, wrong

lists = Runs("lists.cases", "The statements `include` and `read`, and the paths of `-s`.",
             "Written by tools/cases/list_cases.py. What each run leaves is told by tools/model/lists.py.")


@lists.part("include: which resources of a fork.")
def which_resources():
    files = {"f": SOME}

    def of_f(name, *said, text=None, **more):
        lists.rez("include " + name, said_as(text, include("f", *said, **more)), files=files)

    of_f("all resources of a fork")
    of_f("all of a type", "Test")
    of_f("all of a type that the fork hasn't", "None")
    of_f("all but a type", but="Test")
    of_f("all but a type that the fork hasn't", but="None")
    of_f("with words in capitals", but="Last", text="INCLUDE \"f\" Not 'Last';")
    of_f("by an id", "Test", Id(2))
    of_f("by an id that is computed", "Test", Id(-3), text="include \"f\" 'Test' (2 - 5);")
    of_f("by an id that is a word with a value", "Test", Id(2), text="include \"f\" 'Test' (REZ + true);")
    of_f("by a range", "Test", Range(-3, 1))
    of_f("by a range of one id", "Test", Range(2, 2))
    of_f("by the range of all ids", "Test", Range(-32768, 32767))
    of_f("by a range that begins behind its end", "Test", Range(2, 1))
    of_f("by a range without a resource", "Test", Range(3, 32767))
    of_f("by a name", "Test", Name("a"))
    of_f("by a name that two resources have", "Test", Name("b"))
    of_f("by a name in pieces", "Last", Name("c"), text="include \"f\" 'Last' (\"\" $\"63\");")
    lists.rez("include by an empty name", include("f", "Test", Name("")), f=image(FOUR[:2] + [TEST]))
    lists.rez("include by a name in Mac Roman", include("f", "Test", Name("é")),
              f=image([resource("Test", 1, "e"), resource("Test", 2, "é")]))


@lists.part("include: which file.")
def which_files():
    lists.rez("include a file whose name is in pieces", ("include \"f\" $\"2E\"\n    \"rsrc\" 'Test';",
                                                         include("f.rsrc", "Test")), files={"f.rsrc": ONE})
    lists.rez("include a file of no bytes", include("f"), f=b"")
    lists.rez("include takes nothing of a map but its resources", include("f"), f=image([TEST], 0x00E0, b"reserved"))
    lists.rez("include from a fork of another layout whose resources share bytes", include("f"), f=odd_fork())
    lists.rez("include the file that is written", include("f", "Test", Id(2)), words="rez s.r -o f", f=SOME)
    lists.rez("include a file whose name is in Mac Roman", include("é"), files={"é": ONE})
    lists.rez("include a file whose name is in UTF-8", include("é"), files={"é": ONE}, code="utf-8-sig")
    lists.rez("include a file whose name is an escape", ('include "\\0x8E";', include("é")), files={"é": ONE})


@lists.part("include: under another type, and under a head.")
def under_heads():
    files = {"f": SOME}

    def of_f(name, pick, head=None, kind="Test", to="Last", text=None):
        text = text and "include \"f\" '%s' %s;" % (kind, text)
        lists.rez("include " + name, said_as(text, include("f", kind, pick, to, head)), files=files)

    lists.rez("include all of a type as another", include("f", "Test", to="Last"), files=files)
    of_f("a range as another type", Range(-3, 1))
    of_f("an id as another type keeps id, name and attributes", Id(2))
    of_f("a name as another type", Name("b"))
    of_f("under a head with an id alone", Name("b"), Head(7), text="(\"b\") AS 'Last' (7)")
    of_f("under a head with a name", Id(2), Head(7, "nm"), text="(2) as 'Last' (7, \"n\" \"m\")")
    of_f("under a head with an empty name", Id(2), Head(7, ""))
    of_f("under a head with attributes that begin from 0", Id(2), Head(7, None, "preload"))
    of_f("under a head with an attribute that is cleared", Id(2), Head(7, None, "unprotected"))
    of_f("under a head whose attributes come from left to right", Id(2),
         Head(7, "n", "sysheap", 255, "unlocked", "nonpreload"))
    of_f("under a head with facts of the resource", Id(2), Head(lambda one: one.ident * 10,
                                                                lambda one: b"<" + one.name + b">",
                                                                lambda one: one.attr | 1, "preload"),
         text="(2) as 'Last' ($$ID * 10, \"<\" $$Name \">\", $$Attributes | 1, preload)")
    of_f("under a head with the type of the resource as it is in the file", Name("c"),
         Head(lambda one: one.kind[3], lambda one: one.name), "Last", "Test",
         text="(\"c\") as 'Test' ($$Type & 255, $$Name)")
    lists.rez("include under a head with attributes that have no words",
              ("include \"f\" 'Test' (-1) as 'Last' (-$$ID, $$Attributes, changed);",
               include("f", "Test", Id(-1), "Last", Head(lambda one: -one.ident, None, lambda one: one.attr,
                                                         "changed"))),
              f=image([resource("Test", -1, "n", 0x81)]))
    lists.rez("include one resource twice, once under a head", include("f", "Test", Id(2)),
              ("include \"f\" 'Test' (2)\n    as 'Test' ($$ID + 1);",
               include("f", "Test", Id(2), "Test", Head(lambda one: one.ident + 1))), files=files)


@lists.part("include and read: what becomes of the list.")
def in_the_list():
    files = {"f": SOME, "g": image([resource("Last", 1, "z", 0, b"\5"), resource("Test", 2, "", 0, b"\6")]),
             "b": b"\7\x08\x09"}
    lists.rez("include in the place of resources of the same type and id", data("Test", 2, b"\xFF", "old", "purgeable"),
              data("Data", 1, b""), data("Test", 7, b"\xFE"), include("f", "Test"), files=files)
    lists.rez("include the same file twice", include("f"), include("f"), files=files)
    lists.rez("include two files of which the later counts", include("f"), include("g"), files=files)
    lists.rez("include in the place of one that was included as another",
              include("f", "Test", Id(1), "Last", Head(1, "")), include("g", "Test", Id(2), "Last"),
              include("f", "Last", Id(1)), files=files)
    lists.rez("statements of all kinds one after the other", ("type 'Byte' { byte; };", None), read("Last", "b", 1),
              ("resource 'Byte' (5, \"five\", changed) { 5 };", data("Byte", 5, b"\5", "five", "changed")),
              include("f", but="Test"), ("data 'Byte' (5) { $\"06\" };;", data("Byte", 5, b"\6")),
              read("Byte", "b", 5, "again"), files=files)
    lists.rez("a resource of a file counts as protected from then on", include("p"), data("Test", 2, b""),
              p=image([resource("Test", 1), resource("Test", 2, "", 8)]),
              err="2: 219 Protected: 'Test' 2")


@lists.part("read: a file as it is.")
def files_that_are_read():
    files = {"b": b"\0\1\2\xFF"}
    lists.rez("read a file", read("Test", "b", 128), files=files)
    lists.rez("read a file as a resource with a name and attributes",
              ("READ 'Test' (1 - 2, \"n\" \"m\", locked, purgeable, unlocked) \"b\" \"\";",
               read("Test", "b", -1, "nm", "locked", "purgeable", "unlocked")), files=files)
    lists.rez("read a file of no bytes", read("Test", "e", 128, "", 255), e=b"")
    lists.rez("read a fork as it is", read("Fork", "f", 0), f=ONE)
    lists.rez("read its own source", ("read 'TEXT' (0, \"s.r\") \"s.r\"; // the text", read("TEXT", "s.r", 0, "s.r")))
    lists.rez("read in the place of an earlier resource", data("Test", 1, b"", "old", "purgeable"),
              data("Test", 2, b""), read("Test", "b", 1), files=files)
    lists.rez("read a file whose name is in Mac Roman", read("Test", "é", 1), files={"é": b"\1"})
    lists.rez("read the longest resource", read("Big ", "big", 0), words="rez s.r", big=bytes(16777212),
              room="1 17000000")
    lists.rez("read a file of one byte more", read("Big ", "big", 0), words="rez s.r", big=bytes(16777213),
              err="301 ResourceTooLong: 16777213")
    lists.rez("read the longest resource beside one of no bytes", read("Big ", "big", 0), read("Big ", "e", 1),
              words="rez s.r", big=bytes(16777212), e=b"", err="error 302 DataFull: 16777220")
    lists.rez("include a resource that is longer than one may be read", include("big"), words="rez s.r",
              big=too_long(), err="error 302 DataFull: 16777217")


def too_long():
    """A fork with a resource of 16,777,213 bytes."""
    one = image([resource("Test", 1, "", 0, b"")])
    head = number(256, 4) + number(256 + 16777217, 4) + number(16777217, 4) + one[12:16]
    return head + bytes(240) + number(16777213, 4) + bytes(16777213) + head + one[260 + 16:]


@lists.part("An application whose icon is a file.")
def application():
    types = [line + "\n" for line in APP_TYPES.split("\n")[1:-1]]
    items = (
        ('#include "AppTypes.r"', Source("AppTypes.r", ("".join(types)[:-1], None))),
        ("resource 'vers' (1, purgeable) { 0x01, 0x00, release, 0x00, 0, \"1.0\", \"1.0 Sample\" };",
         data("vers", 1, b"\1\0\x80\0\0\0\x031.0\x0A1.0 Sample", "", "purgeable")),
        ("resource 'MENU' (128) { 128, allEnabled, \"File\", { \"Quit\", noIcon, \"Q\", noMark, plain } };",
         data("MENU", 128, bytes.fromhex("0080 00000000 0000 0000 FFFFFFFF 0446696C65 0451756974 00 51 00 00 00"))),
        ("resource 'ALRT' (128) { {40, 40, 140, 340}, 128, 0x5555 };",
         data("ALRT", 128, bytes.fromhex("0028 0028 008C 0154 0080 5555"))),
        ("resource 'DITL' (128) { { {60, 220, 80, 290}, Button { enabled, \"OK\" } } };",
         data("DITL", 128, bytes.fromhex("0000 00000000 003C00DC00500122 04 024F4B"))),
        ("resource 'STR#' (128) { { \"Untitled\" } };", data("STR#", 128, b"\0\1\x08Untitled")),
        read("ICN#", "icon.bin", 128))
    lists.rez("an application with an icon that is read", words="rez App.r -o App.rsrc",
              more={"s.r": None, "App.r": items}, files={"icon.bin": b"\xFF" * 128 + bytes(128)})


APP_TYPES = """
type 'STR#' { integer = $$CountOf(Strings); array Strings { pstring; }; };
type 'vers' { hex byte; hex byte;
    hex byte development = 0x20, alpha = 0x40, beta = 0x60, release = 0x80;
    hex byte; integer; pstring; pstring; };
type 'MENU' { integer; fill word[2]; integer = 0; fill word;
    unsigned hex longint allEnabled = 0xFFFFFFFF; pstring;
    array { pstring; byte noIcon; char noKey = "\\0x00"; char noMark = "\\0x00"; byte plain; };
    byte = 0; };
type 'ALRT' { rect; integer; unsigned hex integer; };
type 'DITL' { integer = $$CountOf(Parts) - 1;
    wide array Parts { fill long; rect;
        switch {
        case Button: boolean enabled, disabled; key bitstring[7] = 4; pstring;
        case UserItem: boolean enabled, disabled; key bitstring[7] = 0; fill byte;
        };
        align word; }; };
"""


@lists.part("The paths of -s.")
def paths():
    one, two, three = (image([resource("Test", k, "", 0, bytes([k]))]) for k in (1, 2, 3))
    item = include("f")
    lists.rez("the name as it is comes before the paths", item, words="-s d", files={"f": one, "d/f": two})
    lists.rez("a name behind a path", item, words="rez -s d s.r -o x", files={"d/f": two})
    lists.rez("a name behind the first of two paths", item, words="rez s.r -s d -o x -s e",
              files={"d/f": two, "e/f": three})
    lists.rez("a name behind the second of two paths", item, words="rez s.r -s d -o x -s e", files={"e/f": three})
    lists.rez("a path for a file that is read", read("Test", "f", 1), words="-s d", files={"d/f": b"\1"})
    lists.rez("a name with a folder behind a path", include("e/f"), words="-s d", files={"d/e/f": two, "d/f": one})
    lists.rez("a path and a name outside ASCII", include("é"), words="-s é", files={"é/é": two})
    lists.rez("a path of -i is none for the file of a statement", item, words="-i d -s e",
              files={"d/f": one}, err='101 MissingFile: "f"')
    lists.rez("a path of -s is none for a source that is included", ('#include "in.r"', Stray(101, '"in.r"')),
              words="-s d", files={"d/in.r": ";\n"}, err='101 MissingFile: "in.r"')
    lists.rez("a path of -s is none for a source of the words", words="-s d", more={"s.r": None},
              files={"d/s.r": ";\n"}, err='error 101 MissingFile: "s.r"')
    lists.rez("a name behind no path is kept as it is written",
              ("read 'Test' (1) \"a/\" \"\\0x8E\\\"\";", read("Test", b"a/\x8E\"", 1)), words="-s d -s e",
              err='101 MissingFile: "a/\\0x8E\\""')
    lists.rez("an empty name", include(""), err='101 MissingFile: ""')


@lists.part("include and read: what is no statement (201), whatever else is wrong with it.")
def no_statements():
    for name, text in [
            ("include without a file", "include;"), ("include with a type in place of a file", "include 'Test' (1);"),
            ("include with a file in brackets", 'include ("no");'),
            ("include with two types", "include \"no\" 'Test' 'Last';"),
            ("include as another type without a type", "include \"no\" as 'Last';"),
            ("include not and a pick", "include \"no\" not 'Test' (1);"),
            ("include with a pick and not", "include \"no\" 'Test' (1) not 'Last';"),
            ("include without a type behind as", "include \"no\" 'Test' (1) as;"),
            ("include to another type", "include \"no\" 'Test' (1) to 'Last';"),
            ("include with an empty pick", "include \"no\" 'Test' ();"),
            ("include with a pick of three ids", "include \"no\" 'Test' (1:2:3);"),
            ("include with a pick of two names", "include \"no\" 'Test' (\"a\", \"b\");"),
            ("include with a fact in its pick", "include \"no\" 'Test' ($$ID);"),
            ("include with a name of a fact in its pick", "include \"no\" 'Test' ($$Name);"),
            ("include with an unknown name in its pick", "include \"no\" 'Test' (kTest);"),
            ("include all of a type under a head", "include \"no\" 'Test' as 'Last' (5);"),
            ("include a range under a head", "include \"no\" 'Test' (1:2) as 'Last' (5);"),
            ("include under an empty head", "include \"no\" 'Test' (1) as 'Last' ();"),
            ("include under a head with two names", "include \"no\" 'Test' (1) as 'Last' (5, \"a\", \"b\");"),
            ("include under a head with a name behind an attribute",
             "include \"no\" 'Test' (1) as 'Last' (5, locked, \"a\");"),
            ("include with a type of three bytes", "include \"no\" 'abc';"),
            ("include without its semicolon", 'include "no"'),
            ("read without a head", "read 'Test' \"no\";"), ("read without a file", "read 'Test' (1);"),
            ("read of a range", "read 'Test' (1:2) \"no\";"),
            ("read with a fact as its id", "read 'Test' ($$ID) \"no\";"),
            ("read with a fact as its name", "read 'Test' (1, $$Name) \"no\";"),
            ("read as another type", "read 'Test' (1) \"no\" as 'Last';")]:
        lists.rez(name, (text, wrong(201)), err="201 Syntax")
    deep = "(" * 65 + "1" + ")" * 65
    lists.rez("include with 65 brackets in one another and no file", ("include 'Test' %s;" % deep, wrong(221)),
              err="221 TooDeep")
    lists.rez("include with 64 brackets in one another", ("include \"f\" 'Test' %s;" % deep[1:-1],
                                                          include("f", "Test", Id(1))), f=SOME)
    lists.rez("include with too many tokens in a row", ("include \"no\" 'Test' (1%s) as;" % (" + 1" * 510), wrong(221)),
              err="221 TooDeep")


@lists.part("include: the first fault. A file comes before the pick, the pick before the head, and what is protected "
            "last.")
def refused_includes():
    files = {"f": SOME, "cut": cut_fork()}

    def refused(name, says, item):
        lists.rez("include " + name, item, files=files, err=says)

    refused("a missing file with a wrong pick", '101 MissingFile: "no"', include("no", "Test", Id(40000)))
    refused("a broken fork with a wrong pick", "407 ReferencesOutside: 300 1", include("cut", "Test", Id(40000)))
    refused("by an id that is too large", "204 BadId: 32768", include("f", "Test", Id(32768)))
    refused("by an id that is too small", "204 BadId: -32769", include("f", "Test", Id(-32769)))
    refused("by a literal of four bytes", "204 BadId: 1415934836",
            ("include \"f\" 'Test' ('Test');", include("f", "Test", Id(0x54657374))))
    refused("by an id that is divided by zero", "211 ZeroDivisor",
            ("include \"f\" 'Test' (40000 / 0);", include("f", "Test", Id(Bad(211)))))
    refused("by an id that is shifted too far", "215 BadShift: 32",
            ("include \"f\" 'Test' (1 << 32);", include("f", "Test", Id(Bad(215, 32)))))
    refused("by a range with two wrong ids", "204 BadId: 50000", include("f", "Test", Range(50000, 40000)))
    refused("by a range with a wrong last id", "204 BadId: 40000", include("f", "Test", Range(1, 40000)))
    refused("by a range whose first id is wrong and whose last has no value", "204 BadId: 40000",
            ("include \"f\" 'Test' (40000 : 1 % 0);", include("f", "Test", Range(40000, Bad(211)))))
    refused("by a range whose last id has no value", "211 ZeroDivisor",
            ("include \"f\" 'Test' (2 : 1 % 0);", include("f", "Test", Range(2, Bad(211)))))
    refused("by an id that isn't there", "218 NoSuchResource: 'Test' 5", include("f", "Test", Id(5)))
    refused("by an id of another type", "218 NoSuchResource: 'None' -3", include("f", "None", Id(-3)))
    refused("by a name that isn't there", "218 NoSuchResource: \"c\"", include("f", "Test", Name("c")))
    refused("by a name in other letters", "218 NoSuchResource: \"A\\0x00\"",
            ("include \"f\" 'Test' (\"A\" $\"00\");", include("f", "Test", Name(b"A\0"))))
    refused("by a name of 256 bytes", "218 NoSuchResource: \"%s\"" % LONG, include("f", "Test", Name(LONG)))
    refused("one that isn't there under a wrong head", "218 NoSuchResource: 'Test' 5",
            include("f", "Test", Id(5), "Last", Head(40000)))
    refused("under a head with a wrong id and a long name", "204 BadId: 40000",
            include("f", "Test", Id(2), "Last", Head(40000, LONG)))
    refused("under a head whose id has no value", "211 ZeroDivisor",
            ("include \"f\" 'Test' (2) as 'Last' ($$ID / 0, \"n\", 256);",
             include("f", "Test", Id(2), "Last", Head(Bad(211), "n", 256))))
    refused("under a head with a long name and a wrong attribute", "216 TextTooLong: 256",
            ("include \"f\" 'Test' (2) as 'Last' (1, $$Name \"%s\", 256);" % LONG[1:],
             include("f", "Test", Id(2), "Last", Head(1, lambda one: one.name + LONG[1:].encode(), 256))))
    refused("under a head with two wrong attributes", "207 OutOfRange: -1",
            ("include \"f\" 'Test' (2) as 'Last' (1, locked, $$Attributes - 17, 1 / 0);",
             include("f", "Test", Id(2), "Last", Head(1, None, "locked", lambda one: one.attr - 17, Bad(211)))))
    lists.rez("include over a protected resource under a head with a wrong attribute",
              data("Last", 1, b"", "", "protected"), include("f", "Test", Id(2), "Last", Head(1, None, 256)),
              files=files, err="2: 207 OutOfRange: 256")


@lists.part("read: the first fault. The head comes before the file, and what is protected last.")
def refused_reads():
    first = data("Test", 1, b"", "", "protected")

    def refused(name, says, item, files=None):
        lists.rez("read " + name, first, item, files=files, err="2: " + says)

    refused("under a wrong id and a long name", "204 BadId: 32768", read("Test", "no", 32768, LONG))
    refused("under an id without a value", "215 BadShift: -1",
            ("read 'Test' (1 >> -1, 256) \"no\";", read("Test", "no", Bad(215, -1), "", 256)))
    refused("under a long name and a wrong attribute", "216 TextTooLong: 256", read("Test", "no", 1, LONG, -1))
    refused("under a wrong attribute and without a file", "207 OutOfRange: 256",
            read("Test", "no", 1, "", 256, "locked"))
    refused("a missing file over a protected resource", '101 MissingFile: "no"', read("Test", "no", 1))
    refused("a file that is too long over a protected resource", "301 ResourceTooLong: 16777213",
            read("Test", "big", 1), {"big": bytes(16777213)})
    refused("over a protected resource", "219 Protected: 'Test' 1", read("Test", "b", 1), {"b": b""})


@lists.part("Marks: the first token of the statement.")
def marks():
    lists.rez("a fault of a statement that begins on a later line", ("// a comment\n", None),
              ("include \"f\" 'Test'\n    (\n    5);", include("f", "Test", Id(5))), f=SOME,
              err="3: 218 NoSuchResource: 'Test' 5")
    lists.rez("a fault of a statement that a macro begins", ("#define no include \"no\"", None), ("", None),
              ("no;", include("no")), err='3: 101 MissingFile: "no"')
    lists.rez("a fault of a statement in a source that is included", (";", None),
              ('#include "in.r"', Source("in.r", ("#define b \"no\"", None), (";", None),
                                         ("read 'Test' (1)\nb;", read("Test", "no", 1)))),
              err='in.r:3: error 101 MissingFile: "no"')
    lists.rez("a fault of a statement in the second source", include("f"), words="rez s.r t.r -o x", f=SOME,
              more={"t.r": ((";", None), data("Test", 2, b""), include("f", "Last", Id(2)))},
              err="t.r:3: error 218 NoSuchResource: 'Last' 2")
    lists.rez("a fault of a statement comes before those of later ones", include("no"), ("x;", wrong(201)),
              err='101 MissingFile: "no"')
    lists.rez("a line that can't be read comes before all statements", include("no"), ("@", Stray(111, 64)),
              err="2: 111 BadCharacter: 64")


@lists.part("Reads and writes that fail.")
def calls_that_fail():
    item = include("f")
    lists.rez("the read of a file of include fails", item, f=ONE, fails=2, err="read fault")
    lists.rez("the read of a file of read fails", read("Test", "f", 1), f=ONE, fails=2, err="read fault")
    lists.rez("the read of the name as it is fails", item, words="-s d", files={"d/f": ONE}, fails=2, err="read fault")
    lists.rez("the read behind a path fails", item, words="-s d -s e", files={"e/f": ONE}, fails=3, err="read fault")
    lists.rez("the write behind a file that is included fails", item, f=ONE, fails=3, err="write fault")
    lists.rez("no call behind the write", item, f=ONE, fails=4)
    lists.rez("a head is looked at before its file is read", read("Test", "f", 40000), f=ONE, fails=2,
              err="204 BadId: 40000")
    lists.rez("a file is read before the pick is looked at", include("f", "Test", Id(40000)), f=ONE, fails=2,
              err="read fault")
    lists.rez("a file of a statement is read before the next statement is looked at", item, ("x;", wrong(201)),
              f=ONE, fails=2, err="read fault")
