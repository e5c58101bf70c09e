"""Writes tmpl.cases: `rez` and `derez` under the templates of a file, `-tmpl`.

Templates stand here as lists of codes. Of each fork stands by hand which of its resources are shown by their fields,
and the texts are those of tools/model/shown.py, which has the declarations from tools/model/templates.py, a second
reading of what a template is. Each such text is compiled again under the same templates. What `rez` makes of items
stands by hand too, and so does each message; tools/model/templates.py has to come to the same refusals.
"""
import itertools

from model import shown
from tmpl_book import (BOOK, BROKEN, LIST, STRINGS, TWO_STRINGS, case, compiles, entries, faulty, fields, file_of, fork_of, message, passed_over,
                       refuse, refuse_source, show, told_by_model)
import tmpl_fields  # noqa: F401
from model.faults import Refused
from model.fork import image
from model.forms import File, double, hqx, macbin, single, written
from model.templates import types_of


# What is refused: a template, and the number and the place that are told of it alone.
FAULTS = {
    "an entry without its code": (entries("HBYT") + b"\0DBY", 451, 5),
    "an entry of its label's length alone": (entries("HBYT") + b"\0", 451, 5),
    "a label that ends behind the bytes": (entries("HBYT") + b"\xFFDBYT", 451, 5),
    "an end without a list": ("HBYT LSTE", 453, 5), "a list without its end": ("OCNT LSTC HBYT", 453, 15),
    "a list to the end without its end": ("LSTB HBYT", 453, 10),
    "a list without a number": ("HBYT LSTC HBYT LSTE", 454, 5), "two numbers": ("OCNT ZCNT LSTC HBYT LSTE", 454, 5),
    "a number at the end": ("HBYT OCNT", 454, 10),
    "a number at the end of a list": ("OCNT LSTC HBYT OCNT LSTE", 454, 20), "an empty list": ("LSTB LSTE", 455, 5),
    "an empty counted list": ("OCNT LSTC LSTE", 455, 10),
    "a list of fills and aligns": ("OCNT LSTC FBYT FWRD FLNG AWRD ALNG LSTE", 455, 35),
    "61 lists": ("LSTB " * 61 + "HBYT" + " LSTE" * 61, 456, 300),
}

# Several faults at one entry, of which the least number is told; and those that look like others.
TOGETHER = [
    ("an end without a list behind a number", "OCNT LSTE", 453, 5),
    ("a list without its end behind a number", "LSTB OCNT", 453, 10),
    ("a number before the end of an empty list", "LSTB OCNT LSTE", 454, 10),
    ("two numbers before the end of an empty list", "LSTB OCNT OCNT LSTE", 454, 10),
    ("an entry that is cut in an open list", entries("LSTB HBYT HBYT")[:-1], 451, 10),
    ("an entry that is cut behind a number", entries("OCNT HBYT")[:-1], 451, 5),
    ("an entry that is cut in an empty list", entries("LSTB LSTE")[:-1], 451, 5),
    ("a count in front of a list in front of its own", "OCNT LSTB LSTC HBYT LSTE LSTE", 454, 10),
    ("a number in a list for a list behind it", "LSTB HBYT OCNT LSTE LSTC HBYT LSTE", 454, 15),
    ("a number for two lists", "OCNT LSTC HBYT LSTE LSTC HBYT LSTE", 454, 20),
    ("two numbers for two lists", "OCNT OCNT LSTC HBYT LSTE LSTC HBYT LSTE", 454, 5),
    ("a number that waits behind a list to the end", "OCNT LSTB HBYT LSTE", 454, 20),
    ("a number around a list with its own, and none behind", "OCNT LSTB OCNT LSTC HBYT LSTE LSTE", 454, 35),
    ("two ends", "LSTB HBYT LSTE LSTE", 453, 15),
    ("a number that waits, and another behind a list", "OCNT LSTB HBYT LSTE OCNT LSTC HBYT LSTE", 454, 20),
    ("labels of 255 bytes", b"\xFF" + b"l" * 255 + b"LSTB" + entries("HBYT"), 453, 265),
    ("a label whose bytes are a code", entries("HBYT") + b"\4DBYTLSTE", 453, 5),
    ("a list whose one list is empty", "LSTB OCNT LSTC LSTE LSTE", 455, 15),
]


@BOOK.part("What is refused, each alone.")
def refusals():
    for name, (codes, number, place) in FAULTS.items():
        faulty(name, codes, number, place)
    BOOK.say("Several at one entry: the least number counts. And some that look like others.")
    for each in TOGETHER:
        faulty(*each)
    for value, can in [("FBYT", False), ("ALNG", False), ("HBYT", True), ("PSTR", True), ("CSTR", True), ("CHAR", True), ("TNAM", True),
                       ("RECT", True), ("HEXD", True), ("LSTB HBYT LSTE", True), (LIST, True)]:
        codes = "OCNT LSTC %s LSTE" % value
        if can:
            fields("a list of %s" % value, codes, ["0000"], [128] if "HEXD" not in value and "LSTB" not in value else [])
        else:
            faulty("a list of %s" % value, codes, 455, 15)


# Codes that keep the lists and numbers around as they are, of one fault each, told at the last entry but what follows it.
SHORT = {451: b"\xFF", 452: entries("BOOL"), 453: entries("LSTE"), 454: entries("LSTC"), 455: entries("LSTB LSTE"), 456: entries("LSTB " * 61)}
PLACE = {451: 0, 452: 0, 453: 0, 454: 0, 455: 5, 456: 300}


@BOOK.part("Each behind each other, in one template, and in two: the first that is refused is told.")
def one_behind_another():
    for (one, first), (other, second) in itertools.product(SHORT.items(), SHORT.items()):
        if one == 451:
            continue
        if one == 452:
            passed_over("%d, then %d" % (one, other), entries("HBYT") + first + second)
        else:
            faulty("%d, then %d" % (one, other), entries("HBYT") + first + second, one, 5 + PLACE[one])
    for (one, first), (other, second) in itertools.product(SHORT.items(), SHORT.items()):
        templates = file_of(("Test", "HBYT"), ("Tes1", entries("HBYT") + first), ("Tes2", second), ("Tes3", BROKEN))
        told = [(number, ident, place) for number, ident, place in ((one, 129, 5 + PLACE[one]), (other, 130, PLACE[other]),
                                                                    (453, 131, 0)) if number != 452][0]
        assert told_by_model(templates) == message(*told)
        refuse("%d in one template, %d in the next" % (one, other), templates, message(*told),
               *[("derez f -tmpl t",), ("rez s.r -tmpl t -o o", [("s.r", ";\n")])][(one + other) % 2])
    BOOK.say("The order is that of the map, and not that of the ids.")
    for first, last in [(128, 127), (5, -5), (-32768, 32767)]:
        templates = image([(b"TMPL", first, b"Test", 0, entries("HBYT LSTE")), (b"TMPL", last, b"Test", 0, entries("OCNT"))])
        refuse("%d before %d" % (first, last), templates, message(453, first, 5))
    refuse("a negative id", image([(b"TMPL", -5, b"STR#", 0, STRINGS[:25])]), "rezkit: error 453 ListUnbalanced: -5 25\n")


@BOOK.part("Names of four bytes alone are those of types. Other templates are passed over, also if they are broken.")
def names():
    for name in ["", "T", "Tes", "Tests", "Test ", " Test", "T" * 255]:
        blank = " and begins with a blank" * (name[:1] == " ") + " and ends with one" * (name[-1:] == " ")
        for what, codes in [("a template", "HBYT"), ("a broken template", BROKEN)]:
            show("%s whose name has %d bytes%s" % (what, len(name), blank), file_of((name, codes)), fork_of("Test", ["01"]), [])
    for name, kind in [("STR ", "STR "), ("    ", "    "), ("caf\u00e9", "caf\u00e9"), ("'\\\"?", "'\\\"?"), ("test", "test"), ("TMPL", "TMPL")]:
        show("the name %s" % (name.encode().hex().upper() if not name.isalnum() or not name.isascii() else name), file_of((name, "HBYT")),
             fork_of(kind, ["01"]), [128])
    show("a name of four bytes outside ASCII", image([(b"TMPL", 1, b"\0\xFF\x80\n", 0, entries("HBYT"))]),
         image([(b"\0\xFF\x80\n", 1, b"", 0, b"\1")]), [1])
    show("letters of another case", file_of(("Test", "HBYT")),
         image([(b"TEST", 1, b"", 0, b"\1"), (b"test", 2, b"", 0, b"\1"), (b"Test", 3, b"", 0, b"\1")]), [3])
    BOOK.say("Of several templates of one name the last counts. Nothing is said of the others.")
    show("two of one name", file_of(("Test", "HBYT"), ("Test", "HWRD")), fork_of("Test", ["01", "0002"]), [129])
    show("two of one name, in the order of the map", image([(b"TMPL", 2, b"Test", 0, entries("HBYT")), (b"TMPL", 1, b"Test", 0, entries("HWRD"))]),
         fork_of("Test", ["01", "0002"]), [129])
    show("two of one name, the last passed over", file_of(("Test", "HBYT"), ("Test", "BOOL")), fork_of("Test", ["01", "0002"]), [128])
    show("two of one name, the first passed over", file_of(("Test", "BOOL"), ("Test", "HWRD")), fork_of("Test", ["01", "0002"]), [129])
    show("three of one name, another between", file_of(("Test", "HBYT"), ("More", "HBYT"), ("Test", "HWRD"), ("Test", "HLNG")),
         fork_of("Test", ["01", "0002", "00000003"]), [130])
    refuse("two of one name, the last broken", file_of(("Test", "HBYT"), ("Test", BROKEN)), message(453, 129, 0))
    refuse("two of one name, the first broken", file_of(("Test", BROKEN), ("Test", "HBYT")), message(453, 128, 0))
    BOOK.say("Only resources of the type TMPL are templates, whatever their ids and attributes.")
    for kind in [b"tmpl", b"TMPl", b"TMP ", b"Tmpl"]:
        show("templates as '%s'" % kind.decode(), image([(kind, 128, b"Test", 0, entries("HBYT"))]), fork_of("Test", ["01"]), [])
    show("templates among other resources", image([(b"Test", 1, b"Test", 0, b"\2"), (b"TMPL", 9, b"Test", 0x2A, entries("HBYT")),
                                                   (b"Last", 1, b"Test", 0, entries(BROKEN))]), fork_of("Test", ["01"]), [128])
    show("no templates", fork_of("Test", ["01"]), fork_of("Test", ["01"]), [])
    show("no resources", image([]), fork_of("Test", ["01"]), [])
    show("no bytes", b"", fork_of("Test", ["01"]), [])
    show("any id of the type", file_of(("Test", "HBYT")), image([(b"Test", ident, b"", 0, b"\1") for ident in (-32768, -1, 0, 1, 32767)]),
         [-32768, -1, 0, 1, 32767])
    show("names and attributes of resources", file_of(("Test", "HBYT PSTR")),
         image([(b"Test", 1, b"a name", 0x2A, b"\1\1a"), (b"Test", 2, b"n" * 255, 0x81, b"\1\0")]), [1, 2])
    templates = image([(b"TMPL", 128, b"Test", 0, entries("HBYT")), (b"Test", 1, b"", 0, b"\1")])
    case("the templates of the file itself", "derez f -tmpl f", [("f", templates)], out=shown.derez(["f", "-tmpl", "f"], {"f": templates}))


@BOOK.part("The file of templates in each form, which its first bytes tell; -from speaks of the fork alone.")
def files():
    templates, fork = image([(b"TMPL", 128, b"STR#", 0, STRINGS)]), fork_of("STR#", [TWO_STRINGS])
    file = File(name=b"Templates", kind=b"rsrc", creator=b"RSED", data=b"its data fork", res=templates)
    for form in ("double", "single", "macbin", "hqx"):
        show("templates in %s" % form, written(form, file), fork, [128])
        show("templates in %s, and a fork that is named" % form, written(form, file), fork, [128], words="derez f -from raw -tmpl t", again=False)
        show("no templates in %s" % form, written(form, file.but(res=b"")), fork, [])
        refuse("a broken template in %s" % form, written(form, file.but(res=file_of(("Test", BROKEN)))), message(453, 128, 0))
    show("a fork in BinHex whose form is named", templates, hqx(File(name=b"f", res=fork)), [128], words="derez f -from hqx -tmpl t", again=False)
    BOOK.say("Files that are none.")
    for name, data, says in [
            ("a text", b"data 'Test' (128) { };\n", "441 NoStart: 0"),
            ("AppleDouble that ends in its header", double(file)[:25], "421 ShortHeader: 25"),
            ("AppleSingle whose fork ends after it", single(file)[:-1], "423 EntryOutside: 2"),
            ("MacBinary whose fork ends after it", macbin(file)[:-128], "426 Truncated: %d" % len(templates)),
            ("a newer MacBinary", macbin(file)[:123] + b"\x82" + macbin(file)[124:], "427 NewerVersion: 130"),
            ("BinHex without its last colon", hqx(file).rstrip(b":\n"), "443 NoEnd: %d" % len(hqx(file).rstrip(b":\n"))),
            ("a fork that ends in its header", templates[:15], "401 ShortHeader: 0 15"),
            ("a fork without its end", templates[:-1], "403 MapOutside: 4 %d" % (30 + 8 + 12 + 5)),
            ("a fork with a type twice", image([(b"TMPL", 1, b"Test", 0, b""), (b"TMPM", 1, b"", 0, b"")]).replace(b"TMPM", b"TMPL"),
             "410 Repeated: %d 1414352972" % (256 + 8 + 30 + 8)),
            ("a broken fork with a broken template", file_of(("Test", BROKEN))[:-1], "403 MapOutside: 4 55"),
        ]:
        assert says == came_of(data), (name, says, came_of(data))
        refuse("templates in %s" % name, data, "rezkit: error %s\n" % says)
        refuse("templates in %s, rez" % name, data, "rezkit: error %s\n" % says, "rez s.r -tmpl t -o o", [("s.r", ";\n")])


def came_of(file):
    """The refusal of a file by its form or by admission, in words."""
    try:
        types_of(file)
    except Refused as fault:
        return str(fault)
    return ""


def run(name, words, files, says, status=2, **more):
    """A case of a run in which several things are wrong, or none."""
    gone = ["o"] * ("-o o" in words and "o" not in files)
    case(name, words, [(file, data) for file, data in files.items()], gone=gone, status=status, err=says, **more)


@BOOK.part()
def order():
    """What comes first in both commands."""
    bad, good, fork = file_of(("Test", BROKEN)), file_of(("Test", "HBYT")), fork_of("Test", ["01"])
    told, missing = message(453, 128, 0), "rezkit: error 101 MissingFile: \"t\"\n"
    BOOK.say("The file of templates comes after the sources, and before the file that is added to, the statements and the fork.")
    for command, file in [("rez s.r -tmpl t -o o", "s.r"), ("derez f s.r -tmpl t", "s.r")]:
        what = command.split()[0]
        run("%s: no file of templates" % what, command, {file: ";\n", "f": fork}, missing)
        run("%s: no file of templates, and a syntax fault" % what, command, {file: "data;\n", "f": fork}, missing)
        run("%s: a broken template, and a syntax fault" % what, command, {file: "data;\n", "f": fork, "t": bad}, told)
        run("%s: a broken template, and a warning" % what, command, {file: "type 'A   ' { }; type 'A   ' { };\n", "f": fork, "t": bad}, told)
        run("%s: a broken template, and a broken type" % what, command, {file: "type 'A   ' { bitstring[40]; };\n", "f": fork, "t": bad}, told)
        run("%s: a broken template, and an included file that is missing" % what, command, {file: "\n#include \"no.r\"\n", "f": fork, "t": bad},
            "rezkit: s.r:2: error 101 MissingFile: \"no.r\"\n")
        run("%s: no file of templates, and an included file that is missing" % what, command, {file: "\n#include \"no.r\"\n", "f": fork},
            "rezkit: s.r:2: error 101 MissingFile: \"no.r\"\n")
        run("%s: a broken template, and a number that is none" % what, command, {file: "08;\n", "f": fork, "t": bad},
            "rezkit: s.r:1: error 110 BadNumber: \"08\"\n")
        run("%s: no source" % what, command, {"f": fork, "t": bad}, "rezkit: error 101 MissingFile: \"s.r\"\n")
        run("%s: the last file of templates counts" % what, command.replace("-tmpl t", "-tmpl no -tmpl t"), {file: ";\n", "f": fork, "t": bad}, told)
        run("%s: the last file of templates counts, which is missing" % what, command.replace("-tmpl t", "-tmpl u -tmpl t"),
            {file: ";\n", "f": fork, "u": bad}, missing)
        run("%s: a file of templates isn't looked for after paths" % what, command + " -i p", {file: ";\n", "f": fork, "p/t": good}, missing)


@BOOK.part()
def order_of_one():
    """What comes first in one of the commands."""
    bad, good, fork = file_of(("Test", BROKEN)), file_of(("Test", "HBYT")), fork_of("Test", ["01"])
    told, missing = message(453, 128, 0), "rezkit: error 101 MissingFile: \"t\"\n"
    base = fork[:256 + 5 + 22] + b"\0\x80" + fork[256 + 5 + 24:]
    assert base == image([(b"Test", 128, b"", 0, b"\1")], 0x80)
    run("rez: a file of templates isn't looked for after paths of -s", "rez s.r -tmpl t -s p -o o", {"s.r": ";\n", "p/t": good}, missing)
    run("derez: a broken template, and no fork", "derez f -tmpl t", {"t": bad}, told)
    run("derez: a broken template, and a broken fork", "derez f -tmpl t", {"f": fork[:-1], "t": bad}, told)
    run("derez: no file of templates, and no fork", "derez f -tmpl t", {}, missing)
    run("derez: templates, and no fork", "derez f -tmpl t", {"t": good}, "rezkit: error 101 MissingFile: \"f\"\n")
    run("derez: templates, a broken statement, and no fork", "derez f s.r -tmpl t", {"s.r": "data;\n", "t": good},
        "rezkit: s.r:1: error 201 Syntax\n")
    run("derez: a broken template of a type that isn't shown", "derez f -skip Test -tmpl t", {"f": fork, "t": bad}, told)
    run("rez: a broken template, and a read-only file that is added to", "rez s.r -a -tmpl t -o o", {"s.r": ";\n", "o": base, "t": bad}, told)
    run("rez: a broken template, and a broken file that is added to", "rez s.r -a -tmpl t -o o", {"s.r": ";\n", "o": fork[:-1], "t": bad}, told)
    run("rez: no file of templates, and a read-only file that is added to", "rez s.r -a -tmpl t -o o", {"s.r": ";\n", "o": base}, missing)
    run("rez: templates, and a read-only file that is added to", "rez s.r -a -tmpl t -o o", {"s.r": "data;\n", "o": base, "t": good},
        "rezkit: error 220 ReadOnlyMap: 128\n")
    run("rez: templates, and a syntax fault", "rez s.r -tmpl t -o o", {"s.r": "data;\n", "t": good}, "rezkit: s.r:1: error 201 Syntax\n")
    run("rez: a broken template, and a name that MacBinary can't have", "rez s.r -form macbin -tmpl t -o " + "n" * 64, {"s.r": ";\n", "t": bad}, told)


@BOOK.part()
def written_and_words():
    """Files that are templates and something else, and where the option stands."""
    good, fork = file_of(("Test", "HBYT")), fork_of("Test", ["01"])
    BOOK.say("Files that are read and written.")
    run("rez: the file of templates is the file that is written", "rez s.r -tmpl o -o o", {"s.r": "resource 'Test' (128) { 1 };\n", "o": good}, "", 0,
        leaves=[("o", fork)])
    run("rez: the file of templates is the file that is added to", "rez s.r -a -tmpl o -o o", {"s.r": "resource 'Test' (128) { 1 };\n", "o": good},
        "", 0,
        leaves=[("o", image([(b"TMPL", 128, b"Test", 0, entries("HBYT")), (b"Test", 128, b"", 0, b"\1")]))])
    run("rez: templates, and a file that is added to", "rez s.r -a -tmpl t -o o", {"s.r": "resource 'Test' (129) { 2 };\n", "o": fork, "t": good}, "",
        0, leaves=[("o", fork_of("Test", ["01", "02"]))])
    BOOK.say("Words of the command.")
    run("derez: -tmpl without a file", "derez f -tmpl", {"f": fork}, "rezkit: usage: word 4\n", 1)
    run("rez: -tmpl without a file", "rez s.r -tmpl", {"s.r": ";\n"}, "rezkit: usage: word 4\n", 1)
    run("-tmpl without a fork", "derez -tmpl t", {"t": good}, "rezkit: usage: word 4\n", 1)
    run("-tmpl without a source", "rez -tmpl t", {"t": good}, "rezkit: usage: word 4\n", 1)
    for command in ("bridge", "det"):
        run("%s has no -tmpl" % command, "%s f -tmpl t" % command, {"f": fork, "t": good}, "rezkit: usage: word 3\n", 1)
    run("sample has no -tmpl", "sample 1 -tmpl t", {"t": good}, "rezkit: usage: word 3\n", 1)
    run("-TMPL is no option", "derez f -TMPL t", {"f": fork, "t": good}, "rezkit: usage: word 3\n", 1)
    run("-template is no option", "derez f -template t", {"f": fork, "t": good}, "rezkit: usage: word 3\n", 1)
    for name, words in [("before the fork", "derez -tmpl t f"), ("between files", "derez f -tmpl t k.r")]:
        show("-tmpl %s" % name, good, fork, [128], words=words, others=[("k.r", ";\n")] * ("k.r" in words), again=False)
    case("a file of templates whose name begins with -", "derez f -tmpl -t", [("f", fork), ("-t", good)],
         out=shown.derez(["f", "-tmpl", "-t"], {"f": fork, "-t": good}))


@BOOK.part()
def types():
    """`type` statements beside templates."""
    templates, fork = file_of(("Test", "HBYT"), ("More", LIST)), fork_of("Test", ["01", "0002"])
    warned = "rezkit: k.r:%d: warning 240 Redeclared: 'Test' 0\n"
    BOOK.say("A `type` statement takes the place of a template, and is warned of.")
    own = [("k.r", "type 'Test' { integer; };\n")]
    show("a type in place of a template", templates, fork, [129], "derez f k.r -tmpl t", own, warned % 1)
    show("a type in place of a template, without a warning", templates, fork, [129], "derez f k.r -rd -tmpl t", own, again=False)
    show("two types in place of a template", templates, fork, [129], "derez f k.r -tmpl t",
         [("k.r", "type 'Test' { byte; };\ntype 'Test' { integer; };\n")], warned % 1 + warned % 2)
    compiles("a type in place of a template, compiled", templates,
             "resource 'Test' (128) { 1 };\ntype 'Test' { integer; };\nresource 'Test' (129) { 1 };\n", ["01", "0001"],
             warns="rezkit: s.r:2: warning 240 Redeclared: 'Test' 0\n")
    compiles("the same without a warning", templates, "type 'Test' { integer; };\nresource 'Test' (128) { 1 };\n", ["0001"],
             words="rez s.r -rd -tmpl t -o f")
    refuse_source("a warning, and a fault behind it", templates, "type 'Test' { integer; };\ndata;\n",
                  "1: warning 240 Redeclared: 'Test' 0; 2: error 201 Syntax")
    BOOK.say("Declarations of ids stand beside a template, which is one for any id.")
    show("a type for an id", templates, fork, [128, 129], "derez f k.r -tmpl t", [("k.r", "type 'Test' (129) { integer; };\n")])
    show("a type for a range of ids", templates, fork, [128, 129], "derez f k.r -tmpl t", [("k.r", "type 'Test' (129:200) { integer; };\n")])
    show("a type for other ids", templates, fork, [128], "derez f k.r -tmpl t",
         [("k.r", "type 'Test' (5) { integer; };\ntype 'Test' (1:99) { integer; };\n")])
    show("a type of another name", templates, fork, [128], "derez f k.r -tmpl t", [("k.r", "type 'TEST' { integer; };\n")])
    BOOK.say("`as` has the fields of a template.")
    both = image([(b"Test", 1, b"", 0, b"\1"), (b"New ", 2, b"", 0, b"\0\1\5"), (b"Also", 3, b"", 0, b"\2")])
    show("types with the fields of templates", templates, both, [1, 2, 3], "derez f k.r -tmpl t",
         [("k.r", "type 'New ' as 'More';\ntype 'Also' as 'Test' (5);\n")])
    refuse_source("a type with the fields of a template that is passed over", file_of(("Test", "BOOL")), "type 'New ' as 'Test';\n",
                  "1: error 239 NoSuchType: 'Test' 0")
    BOOK.say("What a template declares, by `resource` statements of each kind of name, and by other statements.")
    case("a statement with a name and attributes", "rez s.r -tmpl t -o f",
         [("s.r", "resource 'Test' (-5, \"a name\", purgeable, locked) { $FF };\n"), ("t", templates)],
         leaves=[("f", image([(b"Test", -5, b"a name", 0x30, b"\xFF")]))])
    compiles("statements of other kinds", templates,
             "data 'Test' (128) { $\"0203\" };\nread 'Test' (129) \"k\";\n#define one 1\n"
             "resource 'Test' (130) { one + 1 };\nresource 'Test' (131) { $$ID };\n",
             ["0203", "AB", "02", "83"], others=[("k", b"\xAB")])
    compiles("values of macros of words", templates, "resource 'Test' (128) { N };\n", ["07"], words="rez s.r -d N=7 -tmpl t -o f")
    compiles("a string from a file", file_of(("Test", "PSTR HEXD")), "resource 'Test' (128) { $$Read(\"k\"), $$Name \"!\" };\n", ["0141 21"],
             others=[("k", b"A")])
    refuse_source("a list where a number is wanted", templates, "resource 'Test' (1) { { 1 } };\n", "1: error 206 WrongKind: 1")
    refuse_source("a type of no template", templates, "resource 'None' (1) { 1 };\n", "1: error 202 NoType: 'None' 1")
    refuse_source("a protected resource", templates, "resource 'Test' (1, protected) { 1 };\nresource 'Test' (1) { 2 };\n",
                  "2: error 219 Protected: 'Test' 1")
    show("-only and -skip", templates, image([(b"Test", 1, b"", 0, b"\1"), (b"More", 2, b"", 0, b"\0\1\5"), (b"None", 3, b"", 0, b"\2")]), [2],
         "derez f -only More -only None -skip None -tmpl t", again=False)


@BOOK.part("Templates like those that come with ResEdit and with applications.")
def of_resedit():
    """Templates as they come with applications, and resources of each."""
    for kind, codes, contents, fields in [
            ("STR ", "The_String:PSTR Data:HEXD", ["0548656C6C6F", "0141 00FF"], [128, 129]),
            ("MBAR", "#_of_menus:OCNT *****:LSTC Menu_res_ID:DWRD *****:LSTE", ["0003 0080 0081 0082", "0000"], [128, 129]),
            ("FREF", "File_Type:TNAM Icon_localID:DWRD FileName:PSTR", ["4150504C 0000 00"], [128]),
            ("BNDL",
             "OwnerName:TNAM OwnerID:DWRD NumTypes:ZCNT *****:LSTC Type:TNAM #_of_type:ZCNT *****:LSTC LocalID:DWRD "
             "RsrcID:DWRD *****:LSTE *****:LSTE", ["54455354 0000 0001 49434E23 0000 0000 0080 46524546 0001 0000 0080 0001 0081"], [128]),
            ("finf", "#_of_Fonts:OCNT *****:LSTC Font_Number:DWRD Font_Style:DWRD Font_Size:DWRD *****:LSTE", ["0001 0003 0001 000C"], [128]),
            ("Nump", "Count:OCNT *****:LSTC Width:DLNG Name:PSTR Align:AWRD Zero:FLNG *****:LSTE",
             ["0002 00000102 0141 00000000 FFFFFFFF 024142 00 00000000"], [128]),
            ("CURT", "Letter:CHAR Bounds:RECT Color:HLNG Rest:HEXD", ["41 0001 0002 0003 0004 00FF00FF AABB"], [128]),
            ("vers", "Version:HLNG Region:DWRD Short:PSTR Long:PSTR", ["01008000 0000 03312E30 05312E30203F"], [128]),
            ("ACTB", "Signature:DLNG Flags:HWRD Size:ZCNT *****:LSTC Part:DWRD Red:HWRD Green:HWRD Blue:HWRD *****:LSTE",
             ["00000000 0000 0000 0000 FFFF FFFF FFFF"], [128]),
        ]:
        show("'%s' of labels" % kind, file_of((kind, codes)), fork_of(kind, contents), fields)
