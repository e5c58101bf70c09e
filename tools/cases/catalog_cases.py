"""Writes catalog.cases: catalogues of texts by `strings`, and texts put back by `restring`.

What comes is told by catalogues.py, a second reading of docs/LANGUAGE.md. Beside it stand by hand each line of `err`,
the bytes of resources by rows that are known from elsewhere, the stored form of each text, and the texts of each row.
"""
import itertools

from catalog_book import BOOK, FORK, LIST, TWO, case, entry, listed, put, resource, texts_of, told
from catalog_texts import SIZE
from model.case_lines import spelled
from model.case_reader import read_cases
from model.catalogues import message, restring, strings
from model.faults import Refused
from model.fork import fork_of, image
from model.fork_shapes import each, held, laid, named, reference
from model.forms import FORMS, MAGICS, File, form_of, single, written


# A catalogue as tokens.

TOKENS = ["'STR#'", "-", "5", "0", '"a"', '"b"', ";"]
FIVE = [resource("STR#", -5, texts_of(b"A", b"BC")), resource("STR#", 5, texts_of(b"D"))]
BAD = "c:1: error 461 BadEntry"


@BOOK.part("A catalogue that is cut at each token, and one with other tokens.")
def tokens():
    for count in range(len(TOKENS) + 1):
        err = "" if count in (0, len(TOKENS)) else BAD
        put("cut: %d tokens" % count, LIST, FIVE, " ".join(TOKENS[:count]), err=err)
        put("cut behind an entry: %d tokens" % count, LIST, FIVE, "'STR#' 5 0 \"E\";\n" + "\n".join(TOKENS[:count]),
            err=err and "c:2: error 461 BadEntry")
    for at in range(len(TOKENS)):
        err = "" if at in (1, 4, 5) else BAD
        put("left out: token %d" % at, LIST, FIVE, " ".join(TOKENS[:at] + TOKENS[at + 1:]), err=err)
        put("twice: token %d" % at, LIST, FIVE, " ".join(TOKENS[:at + 1] + TOKENS[at:]), err="" if at in (4, 5) else BAD)
    for at, other in [(0, "'STR'"), (0, '"STR#"'), (0, "STR"), (0, "'S'"), (1, "+"), (1, "~"), (2, "'a'"), (2, "(5)"), (3, "+0"), (3, "-0"),
                      (3, "'0'"), (4, "'a'"), (5, ","), (5, "b"), (5, "$$Name"), (6, ","), (6, ":"), (6, ";;"), (6, "; ; ;")]:
        given = TOKENS[:at] + [other] + TOKENS[at + 1:]
        put("token %d is %s" % (at, other), LIST, FIVE, " ".join(given), err=BAD)


@BOOK.part("Ids and leaves.")
def numbers():
    ends = [resource("STR#", -32768, texts_of(b"A")), resource("STR#", 32767, texts_of(b"B")), resource("STR#", 0, texts_of(b"C"))]
    for text, err in [("32767", ""), ("-32768", ""), ("- 32768", ""), ("-0", ""), ("0", ""), ("0x7FFF", ""), ("$7fff", ""), ("077777", ""),
                      ("0b0", ""), ("-0x8000", ""), ("32768", BAD), ("-32769",
                                                                     BAD), ("4294967295", BAD), ("65535", BAD), ("-4294967295", BAD),
                      ("4294967296", 'c:1: error 110 BadNumber: "4294967296"'), ("00", ""), ("08", 'c:1: error 110 BadNumber: "08"'),
                      ("1", "c:1: error 462 NoLeaf: 'STR#' 1"), ("-1", "c:1: error 462 NoLeaf: 'STR#' -1")]:
        put("the id %s" % text, LIST, ends, "'STR#' %s 0 \"x\";" % text, err=err)
    for text, err in [("1", ""), ("0x1", ""), ("$1", ""), ("2", "c:1: error 462 NoLeaf: 'STR#' 128"),
                      ("4294967295", "c:1: error 462 NoLeaf: 'STR#' 128"),
                      ("4294967297", 'c:1: error 110 BadNumber: "4294967297"')]:
        put("the leaf %s" % text, LIST, [TWO], "'STR#' 128 %s \"x\";" % text, err=err)
    put("types by their bytes", LIST.replace("STR#", "str#") + LIST, [TWO], "'str#' 128 0 \"\";", err="c:1: error 462 NoLeaf: 'str#' 128")
    odd = "type 'a\\'\\0xFF\\\\' { cstring; };\n"
    listed("a type that isn't ASCII", odd, [(b"a'\xFF\\", 1, b"", 0, b"x\0")])
    put("a type that isn't ASCII", odd, [(b"a'\xFF\\", 1, b"", 0, b"x\0")], "'a\\'\\0xFF\\\\' 1 0 \"yz\";", "797A00")


LINES = {
    "all on one line": ("'STR#' 128 0 \"x\"; 'STR#' 128 1 \"y\";", ""), "no blanks": ("'STR#'128 0\"x\";'STR#'128 1\"y\";", ""),
    "each token on a line": ("'STR#'\n128\n0\n\"x\"\n;\n", ""), "tabs": (b"\t'STR#'\t128\v0\f\"x\"\t;", ""),
    "a comment to the line's end": ("'STR#' 128 // the first\n0 \"x\"; // done", ""), "a comment": ("'STR#' /* a\nb */ 128 0 \"x\";", ""),
    "a comment that never ends": ("'STR#' 128 0 \"x\";\n /* oh", "c:2: error 107 OpenComment"),
    "a comment that never ends on a line with more": ("'STR#' 128 0 \"x\"; @ /* oh", "c:1: error 107 OpenComment"),
    "a wrong token before a comment that never ends": ("@\n/* oh", "c:1: error 111 BadCharacter: 64"),
    "joined lines": ("'STR#' 128 0 \"x\\\ny\"; \\\n'STR#' 128 2 \"\";", "c:1: error 462 NoLeaf: 'STR#' 128"),
    "a joined text": ("'STR#' 128 0 \"x\\\ny\";",
                      ""), "texts of several lines": ("'STR#' 128 0\n    \"x\"\n    \"y\"\n    $\"7A 00\";", ""),
    "a hex text": ("'STR#' 128 0 $\"00 FF\" \"a\" $\"\";", ""), "an odd hex text": ("\n'STR#' 128 0 $\"0\";", "c:2: error 113 BadHex"),
    "a text that doesn't end": ("'STR#' 128 0\n\"x",
                                "c:2: error 108 OpenString"), "a type that doesn't end": ("'STR# 128 0 \"x\";", "c:1: error 108 OpenString"),
    "a wrong escape": ("'STR#' 128 0 \"\\q\";", 'c:1: error 109 BadEscape: "\\"\\\\q\\""'),
    "escapes": ("'STR#' 128 0 \"\\t\\n\\r\\b\\v\\f\\?\\\\\\\"\\'\\0x41\\0d066\\0b01000011\\104\\$45\";", ""),
    "a literal of five bytes": ("'STRS#' 128 0 \"x\";",
                                'c:1: error 110 BadNumber: "\'STRS#\'"'), "an empty literal": ("'' 128 0 \"x\";", 'c:1: error 110 BadNumber: "\'\'"'),
    "a directive": ("#define a 1\n'STR#' 128 0 \"x\";",
                    "c:1: error 111 BadCharacter: 35"), "a control byte": ("'STR#' 128 0 \"x\";\n\1", "c:2: error 111 BadCharacter: 1"),
    "a long word": ("'STR#' 128 0 \"x\";\n" + "w" * 256,
                    "c:2: error 115 WordTooLong: 256"), "a word of 255 bytes": ("w" * 255, "c:1: error 461 BadEntry"),
    "a word": ("data 'STR#' (128) { };",
               "c:1: error 461 BadEntry"), "a sign": ("}", "c:1: error 461 BadEntry"), "a semicolon": ("\n;", "c:2: error 461 BadEntry"),
    "a fault of tokens before an entry that is none": (";\n\n@", "c:3: error 111 BadCharacter: 64"),
    "the second entry is none": ("'STR#' 128 0 \"x\";\n\n'STR#' 128 1;", "c:3: error 461 BadEntry"),
    "the line of the first token": ("'STR#'\n128 9\n\"x\";", "c:1: error 462 NoLeaf: 'STR#' 128"),
    "the line of the second entry": ("'STR#' 128 0\n\"x\"; 'STR#'\n 128 9 \"\";", "c:2: error 462 NoLeaf: 'STR#' 128"),
}


@BOOK.part("Lines, comments, texts and wrong tokens of a catalogue.")
def lines():
    for name, (text, err) in LINES.items():
        put("lines: " + name, LIST, [TWO], text, err=err)
    own = "'STR#' 128 0\n    \"new\";\n\n'STR#' 128 1\n    \"text\"\n    \"s\";\n'STR#' 9 0 \"\";\n"
    for name, ending in (("CR", b"\r"), ("CR LF", b"\r\n"), ("LF", b"\n"), ("LF CR", b"\n\r")):
        line = 12 if name == "LF CR" else 7  # the CR and the LF of an empty line are one end
        put("line ends: %s" % name, LIST, [TWO], own.encode().replace(b"\n", ending), err="c:%d: error 462 NoLeaf: 'STR#' 9" % line)
        put("line ends: %s, done" % name, LIST, [TWO], own.encode().replace(b"\n", ending)[:-len(b"'STR#' 9 0 \"\";" + ending)],
            texts_of(b"new", b"texts").hex())
    mark = b"\xEF\xBB\xBF"
    cafe = "'STR#' 128 0 \"caf\u00e9 \u20ac\";\n"
    put("UTF-8 with a mark", LIST, [TWO], mark + cafe.encode(), texts_of(b"caf\x8E \xDB", b"BC").hex())
    put("UTF-8 without a mark", LIST, [TWO], cafe.encode(), texts_of("caf\u00e9 \u20ac".encode(), b"BC").hex())
    put("Mac Roman", LIST, [TWO], cafe.encode("mac_roman"), texts_of(b"caf\x8E \xDB", b"BC").hex())
    put("a mark alone", LIST, [TWO], mark, [])
    put("two marks", LIST, [TWO], mark + mark, err="c:1: error 102 BadText: 3")
    put("a letter that Mac Roman lacks", LIST, [TWO], mark + "'STR#' 128 0 \"\u0416\";".encode(), err="c:1: error 102 BadText: 17")
    put("a letter of UTF-8 that is cut", LIST, [TWO], mark + cafe.encode()[:-4] + b"\";", err="c:1: error 102 BadText: 23")
    put("a letter that Mac Roman lacks before a cut one", LIST, [TWO], mark + "\n\u0416".encode() + b"\xC3",
        err="c:1: error 102 BadText: 4")
    put("102 before a wrong token", LIST, [TWO], mark + b"@\xFF", err="c:1: error 102 BadText: 4")
    put("a letter of Mac Roman outside texts", LIST, [TWO], b"\x8E", err="c:1: error 111 BadCharacter: 142")
    put("a literal of bytes of Mac Roman", LIST, [TWO], mark + "'\u00e9\u00e9\u00e9\u00e9' 1 0 \"\";".encode(),
        err="c:1: error 462 NoLeaf: '\\0x8E\\0x8E\\0x8E\\0x8E' 1")


# Files of each form.

FULL = File(name=b"File", kind=b"TEXT", creator=b"ttxt", flags=0x8123, vertical=-2, horizontal=3, folder=-4, extra=bytes(range(1, 17)),
            locked=True, created=3000000000, modified=3000000001, data=b"data fork")
HELLO = "'STR#' 128 0 \"Hello\";"


def wrong_form(form, data):
    """What a file is refused with, read as one of another form; nothing where it is read."""
    try:
        strings(["f", "t.r", "-from", form], {"f": data, "t.r": LIST.encode()})
        return ""
    except Refused as fault:
        return message(fault)


@BOOK.part("Files of each form, as they are found and as they are named.")
def forms():
    for form in FORMS:
        file = written(form, FULL.but(res=FORK))
        assert form_of(file) == form
        listed("found: " + form, LIST, file)
        put("found: " + form, LIST, file, HELLO)
        put("found, 1 day later: " + form, LIST, file, HELLO, moment=86400)
        for other in FORMS:
            err = wrong_form(other, file)
            assert (err == "") == (form == other), (form, other, err)
            listed("%s as %s" % (form, other), LIST, file, words="strings f t.r -from " + other, err=err)
            put("%s as %s" % (form, other), LIST, file, HELLO, words="restring f c t.r -from %s -o x" % other, err=err)
    put("the last -from counts", LIST, FORK, HELLO, words="restring f c -from hqx t.r -from raw -o x")
    bare = single(File(name=b"", res=FORK))
    put("a file without a name takes that of the output", LIST, bare, HELLO, words="restring f c t.r -o new/caf\u00e9")
    put("a file without a name, and no name that fits", LIST, bare, HELLO, words="restring f c t.r -o new/\u0416x",
        err="error 425 BadName: 2")
    put("a file without a date takes that of the run", LIST, bare, HELLO, moment=978307200)
    put("AppleDouble: the header alone is written", LIST, written("double", FULL.but(res=FORK)), HELLO, words="restring f c t.r -o ._new",
        more={"f.data": b"its data fork", "new": b"another"})
    put("attributes of the map, and reserved bytes", LIST, image([TWO], 0x1234 & ~0x80, b"kept"), HELLO)
    put("names and attributes", LIST, [resource("STR#", 128, texts_of(b"A", b"BC"), "a name", 0x76), resource("x   ", 1, "", "n", 0xF7)],
        HELLO)
    put("a fork of no bytes", LIST, b"", "")
    put("a fork without resources", LIST, [], "")
    listed("a fork of no bytes", LIST, b"", "")
    listed("a fork without resources", LIST, [], "")
    listed("no type files", None, [TWO], "", words="strings f")
    put("no type files", None, [TWO], "", [], words="restring f c")
    put("no type files, and an entry", None, [TWO], HELLO, words="restring f c", err="c:1: error 462 NoLeaf: 'STR#' 128")


@BOOK.part("What is written, and over what.")
def outputs():
    put("Rez.Out", LIST, [TWO], HELLO, words="restring f c t.r")
    put("over the fork", LIST, [TWO], HELLO, words="restring f c t.r -o f")
    put("over the catalogue", LIST, [TWO], HELLO, words="restring f c t.r -o c")
    put("over a type file", LIST, [TWO], HELLO, words="restring f c t.r -o t.r")
    put("over another file", LIST, [TWO], HELLO, words="restring -o x f c t.r", more={"x": b"old"})
    put("into a new folder", LIST, [TWO], HELLO, words="restring f c t.r -o a/b/x")
    put("the last output counts", LIST, [TWO], HELLO, words="restring f -o y c t.r -o x")
    put("a refusal leaves the output", LIST, [TWO], "'STR#' 128 9 \"\";", words="restring f c t.r -o x", more={"x": b"old"},
        err="c:1: error 462 NoLeaf: 'STR#' 128")
    put("the fork is the catalogue", LIST, [TWO], None, words="restring f f t.r -o x", err="f:1: error 111 BadCharacter: 0")
    put("the catalogue is in a folder", LIST, [TWO], None, words="restring f d/c t.r -o x", more={"d/c": "'STR#' 128 9 \"\";"},
        err="d/c:1: error 462 NoLeaf: 'STR#' 128")


# Type files.

@BOOK.part("Type files: declarations again.")
def types():
    pair = LIST + "type 'STR#' (128) { string; };\n"
    warned = "rezkit: t.r:2: warning 240 Redeclared: 'STR#' 0\n"
    again = LIST + "type 'STR#' { string; };\n"
    listed("a declaration for one id", pair, [TWO, resource("STR#", 1, texts_of(b"x"))])
    listed("a declaration again", again, [TWO], warned=warned)
    listed("a declaration again with -rd", again, [TWO], words="strings f t.r -rd")
    put("a declaration again", again, [TWO], HELLO, "48656C6C6F", warned=warned)
    put("a declaration again with -rd", again, [TWO], HELLO, "48656C6C6F", words="restring f c t.r -o x -rd")
    put("a warning before the line of a fault", again, [TWO], "@", warned=warned, err="c:1: error 111 BadCharacter: 64")


@BOOK.part("Type files: macros, paths, and several of them.")
def macros():
    button = "type 'Case' { switch { case Button: key byte = 1; pstring; }; };\n"
    held = [resource("Case", 1, "01 0161")]
    for name, text in (("", button), (" that is a macro", button + "#define Button 3\n")):
        listed("a case" + name, text, held, "'Case' 1 0\n    \"a\";\n")
        put("a case" + name, text, held, "'Case' 1 0 \"bc\";", "01 026263")
    case("a case that is a macro: derez shows data", "derez f t.r", {"f": image(held), "t.r": button + "#define Button 3\n"},
         out='data \'Case\' (1) {\n    $"0101 61"\n};\n\n')
    form = "type 'STR#' { integer = $$CountOf(a); array a { FORM; }; };\n"
    listed("-d", form, [TWO], words="strings f t.r -d FORM=pstring")
    put("-d", form, [TWO], HELLO, words="restring f c t.r -d FORM=pstring -o x")
    put("-d and -u", LIST, [TWO], HELLO, words="restring f c t.r -d pstring2=byte -u pstring2 -o x")
    put("macros don't stand in catalogues", LIST, [TWO], "'STR#' A 0 \"\";", words="restring f c t.r -d A=128 -o x", err=BAD)
    included = {"t.r": "#include \"more.r\"\n", "p/more.r": LIST}
    listed("-i", None, [TWO], words="strings f t.r -i p", more=included)
    put("-i", None, [TWO], HELLO, words="restring f c t.r -i p -o x", more=included)
    put("-i, and a fault of the catalogue", None, [TWO], "\n@", words="restring f c t.r -i p -o x", more=included,
        err="c:2: error 111 BadCharacter: 64")
    put("two type files", None, [resource("Size", 1, "0001 61"), TWO], HELLO, words="restring f c a.r b.r -o x",
        more={"a.r": LIST, "b.r": SIZE})
    put("two type files, the second again", None, [TWO], HELLO, words="restring f c a.r b.r -o x", more={"a.r": LIST, "b.r": LIST},
        warned="rezkit: b.r:1: warning 240 Redeclared: 'STR#' 0\n")
    put("statements of type files do nothing", LIST + "data 'STR#' (128) { \"a\" };\ndelete 'STR#';\n", [TWO], HELLO)
    for word in ("strings", "restring"):
        given = ("type 'STR#' {\n#if derez\npstring;\n#endif\n};\n")
        case("%s reads type files as derez does" % word, word + (" f t.r" if word == "strings" else " f c t.r -o x"),
             {"f": image([resource("STR#", 1, "0161")]), "t.r": given, **({"c": "'STR#' 1 0 \"b\";"} if word == "restring" else {})},
             **({"out": "'STR#' 1 0\n    \"a\";\n"} if word == "strings" else {"leaves": [("x", image([resource("STR#", 1, "0162")]))]}))
    date = "type 'Date' { pstring = $$Date; pstring; };\n"
    listed("the date of the run", date, [resource("Date", 1, b"\x0A1970-01-02\1a")], moment=86400)
    listed("the date of another run", date, [resource("Date", 1, b"\x0A1970-01-02\1a")], "")
    put("the date of the run", date, [resource("Date", 1, b"\x0A1970-01-02\1a")], "'Date' 1 0 \"b\";", moment=86400)


# The order of refusals: of each two the first is told.

FORK_FAULTS = [
    ("a missing fork", None, 'error 101 MissingFile: "f"'), ("a form that is broken", MAGICS["single"].to_bytes(4, "big") + bytes(4),
                                                             "error 421 ShortHeader: 8"),
    ("a fork that is broken", bytes(15), "error 401 ShortHeader: 0 15"), ("a fork that is read only", image([TWO], 0x80), "error 220 ReadOnlyMap: 128")]
TEXT_FAULTS = [
    ("no catalogue", None, 'error 101 MissingFile: "c"'), ("a catalogue that is no text", b"\xEF\xBB\xBF\xFF", "c:1: error 102 BadText: 3"),
    ("a wrong token", ";\n@", "c:2: error 111 BadCharacter: 64"), ("no entry", "'STR#' 9 9 \"\";\n;", "c:2: error 461 BadEntry"),
    ("no leaf", "'STR#' 128 0 \"%s\";'STR#' 9 9 \"\";" % ("x" * 256), "c:1: error 462 NoLeaf: 'STR#' 9"),
    ("a text that doesn't fit", "'STR#' 128 0 \"%s\";" % ("x" * 256), "c:1: error 464 TextRefused: 'STR#' 128")]
TYPE_FAULTS = [("a wrong token of a type file", "@", "t.r:1: error 111 BadCharacter: 64"),
               ("a wrong statement of a type file", "type;", "t.r:1: error 201 Syntax")]


def without(files):
    return {name: held for name, held in files.items() if held is not None}


@BOOK.part("Types that a file of templates declares.")
def templates():
    files, own = {"f": FORK, "T": image([TEMPLATE])}, entry("STR#", 128, 0, b"A") + entry("STR#", 128, 1, b"BC")
    changed = {**files, "c": HELLO}
    after = image([resource("STR#", 128, texts_of(b"Hello", b"BC"))])
    case("templates: listed", "strings f -tmpl T", files, out=own)
    case("templates: put", "restring f c -tmpl T -o x", changed, leaves=[("x", after)])
    again = "type 'STR#' { integer; pstring; cstring; };\n"
    warned = "rezkit: t.r:1: warning 240 Redeclared: 'STR#' 0\n"
    case("templates: declared again", "restring f c t.r -tmpl T -o x", {**changed, "t.r": again}, status=2, gone=["x"],
         err=warned + "rezkit: c:1: error 462 NoLeaf: 'STR#' 128\n")
    case("templates: declared again with -rd", "strings f t.r -tmpl T -rd", {**files, "t.r": again})
    case("templates: no file", "strings f -tmpl U", files, status=2, err='rezkit: error 101 MissingFile: "U"\n')
    case("templates: one that is broken, before a missing fork", "restring g c -tmpl T -o x", {**changed, "T": image([BROKEN])}, status=2,
         gone=["x"], err="rezkit: error 454 CountUnpaired: 128 12\n")
    case("templates: a wrong statement, and a missing fork", "restring g c t.r -tmpl T -o x", {**changed, "t.r": "type;"}, status=2,
         gone=["x"],
         err="rezkit: t.r:1: error 201 Syntax\n")


@BOOK.part("Of two refusals the first is told.")
def refusals():
    for (name, text, err), (fault, fork, _) in itertools.product(TYPE_FAULTS, FORK_FAULTS[:3] + [("a fork", FORK, "")]):
        for word in ("strings f t.r", "restring f c t.r -o x"):
            files = without({"f": fork, "t.r": text, "c": None if fork is None else "@"})
            case("%s: %s, and %s" % (word.split()[0], name, fault), word, files, status=2, gone=["x"] * (word[0] == "r"),
                 err="rezkit: %s\n" % err)
    for name, fork, err in FORK_FAULTS:
        files = without({"f": fork, "t.r": LIST})
        if err[6:9] != "220":
            case("strings: " + name, "strings f t.r", files, status=2, err="rezkit: %s\n" % err)
        for fault, text, _ in TEXT_FAULTS + [("a catalogue", HELLO, "")]:
            both = without({**files, "c": text})
            assert fork is None or told(restring, "restring f c t.r -o x", both, 0)[1] == err
            case("%s, and %s" % (name, fault), "restring f c t.r -o x", both, status=2, gone=["x"], err="rezkit: %s\n" % err)
    listed("a fork that is read only", LIST, image([TWO], 0x80))
    for name, text, err in TEXT_FAULTS:
        put(name, LIST, [TWO], text, err=err)
        put(name + ", and a file without a name that fits", LIST, single(File(name=b"", res=FORK)), text,
            words="restring f c t.r -o \u0416", err=err)


@BOOK.part("Forks whose resources share bytes and names, which are too many to be written.")
def shared():
    for name, count, at_name, err in [("a map that is too long", 5460, 0xFFFF, "303 MapFull: 65558"),
                                      ("names that are too long", 300, 0, "304 NamesFull: 76800")]:
        names = [] if at_name else [b"n" * 255]
        fork = laid(*each(("Many", [reference(ident, 0, at_name) for ident in range(count)])), held(b""), named(*names))
        assert told(restring, "restring f c", {"f": fork, "c": ""}, 0)[1] == "error " + err
        counted = "0000..%04X:%04X0000000000000000" % (count - 1, at_name)
        at = fork.rindex(b"Many") + 8
        keys = ["file bytes f"] + spelled(fork[:at]) + ["| " + counted] + spelled(fork[at + 12 * count:])
        assert read_cases("\n".join(["case %s" % name, "status 0"] + keys))[0].files["f"] == fork
        for catalogue, line in (("", "error " + err), ("'Many' 0 0 \"\";", "c:1: error 462 NoLeaf: 'Many' 0")):
            case("%s: %d bytes of a catalogue" % (name, len(catalogue)), "restring f c -o x", {"c": catalogue}, keys, status=2, gone=["x"],
                 err="rezkit: %s\n" % line)


@BOOK.part("Resources and forks at their limits.")
def big():
    long = fork_of([resource("Long", 1, bytes(16777213))])
    put_read_only = int.from_bytes(long[4:8], "big") + 23
    for name, fork in [("a long resource", long), ("a long resource in a fork that is read only",
                                                   long[:put_read_only] + b"\x80" + long[put_read_only + 1:])]:
        listed(name, LIST, fork, err="error 301 ResourceTooLong: 16777213")
        put(name, LIST, fork, None, err="error 301 ResourceTooLong: 16777213")
    most = image([resource("Long", 1, bytes(16777200)), resource("STR ", 1, "0161")])
    limit("a data area that is too long", most, "'STR ' 1 0 \"%s\";" % ("a" * 8), "error 302 DataFull: 16777217")
    data = single(FULL.but(data=bytes(33554433), res=image([resource("STR ", 1, "0161")])))
    limit("a data fork that is too long", data, "'STR ' 1 0 \"b\";", "error 428 ForkTooLong: 33554433")
    limit("a text that doesn't fit before a data fork that is too long", data, "'STR ' 1 0 \"%s\";" % ("b" * 256),
          "c:1: error 464 TextRefused: 'STR ' 1")


TEMPLATE = resource("TMPL", 128, "05436F756E74 4F434E54 012A 4C535443 0454657874 50535452 012A 4C535445", "STR#")
BROKEN = resource("TMPL", 128, "0141 4F434E54 0142 44425954", "STR#")


def limit(name, fork, catalogue, err):
    put(name, "type 'STR ' { pstring; };\n", fork, catalogue, err=err)
