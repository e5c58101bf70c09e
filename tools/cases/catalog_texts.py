"""The cases of catalogues that are about rows: which texts a row has, and how they are stored. catalog_cases.py writes them."""
import itertools

from catalog_book import BOOK, LIST, TWO, case, entry, files_of, listed, put, resource, says, texts_of, told
from model.case_lines import spelled
from model.catalogues import restring
from model.fork import admitted, image


# Rows that are known from elsewhere.

ENDS = "type 'Ends' { integer = (e - s) / 8; s: hex string; e: integer; };\n"
SIZE = "type 'Size' { n: integer; s: string[$$Word(n)]; };\n"
HALF = "type 'Half' { byte = (e - s) / 16; s: array a { pstring; }; e: array b { pstring; }; };\n"
APP_TYPES = """type 'STR#' { integer = $$CountOf(Strings); array Strings { pstring; }; };
type 'vers' { hex byte; hex byte;
    hex byte development = 0x20, alpha = 0x40, beta = 0x60, release = 0x80;
    hex byte; integer; pstring; pstring; };
type 'MENU' { integer; fill word[2]; integer = 0; fill word;
    unsigned hex longint allEnabled = 0xFFFFFFFF; pstring;
    array { pstring; byte noIcon; char noKey = "\\0x00"; char noMark = "\\0x00"; byte plain; };
    byte = 0; };
type 'ALRT' { rect; integer; unsigned hex integer; };
type 'DITL' { integer = $$CountOf(Parts) - 1;
    wide array Parts { fill long; rect;
        switch {
        case Button: boolean enabled, disabled; key bitstring[7] = 4; pstring;
        case UserItem: boolean enabled, disabled; key bitstring[7] = 0; fill byte;
        };
        align word; }; };
"""
APP = [resource("vers", 1, "010080000000 03312E30 0A312E302053616D706C65", attr=0x20),
       resource("MENU", 128, "0080 00000000 0000 0000 FFFFFFFF 0446696C65 0451756974 00 51 00 00 00"),
       resource("ALRT", 128, "0028 0028 008C 0154 0080 5555"),
       resource("DITL", 128, "0000 00000000 003C00DC00500122 04 024F4B"),
       resource("STR#", 128, "0001 08556E7469746C6564"),
       resource("ICN#", 128, bytes.fromhex("FFFFFFFF" + "80000001" * 30 + "FFFFFFFF" + "FFFFFFFF" * 32))]
APP_TEXT = """'vers' 1 0
    "1.0";
'vers' 1 1
    "1.0 Sample";
'MENU' 128 0
    "File";
'MENU' 128 1
    "Quit";
'DITL' 128 0
    "OK";
'STR#' 128 0
    "Untitled";
"""


@BOOK.part("Rows with their own bytes.")
def rows():
    listed("a list of two strings", LIST, [TWO], "'STR#' 128 0\n    \"A\";\n'STR#' 128 1\n    \"BC\";\n")
    put("a longer string in a list", LIST, [TWO], "'STR#' 128 0 \"Hello\";", "0002 0548656C6C6F 024243")
    ends = [resource("Ends", 128, "0002 0102 0005")]
    listed("a hex string is written as a text", ENDS, ends, "'Ends' 128 0\n    \"\\0x01\\0x02\";\n")
    put("a length that is solved again", ENDS, ends, "'Ends' 128 0 \"\\0x01\\0x02\\0x03\";", "0003 010203 0005")
    size = [resource("Size", 128, "0003 616263")]
    for text, kept in [("abcd", 464), ("abc\\0x00", 464)]:
        put("a size in a free number: %s" % text, SIZE, size, "'Size' 128 0 \"%s\";" % text,
            err="c:1: error %d TextRefused: 'Size' 128" % kept)
    put("a size in a free number: as long", SIZE, size, "'Size' 128 0 \"xyz\";", "0003 78797A")
    put("a size in a free number: shorter", SIZE, size, "'Size' 128 0 \"x\";", "0003 780000")
    put("a leaf that isn't there", SIZE, size, "'Size' 128 1 \"abc\";", err="c:1: error 462 NoLeaf: 'Size' 128")
    put("an entry twice", SIZE, size, "'Size' 128 0 \"abc\";\n'Size' 128 0 \"abc\";", err="c:2: error 463 EntryTwice: 'Size' 128")
    put("an entry without its leaf", SIZE, size, "'Size' 128 \"abc\";", err="c:1: error 461 BadEntry")
    half = [resource("Half", 1, "02 00 00 0161 017A")]
    listed("two arrays, of which a place tells the end of the first", HALF, half)
    put("equal texts in other rows", HALF, half, "'Half' 1 2 \"\";", err="c:1: error 464 TextRefused: 'Half' 1")
    put("other texts in the same rows", HALF, half, "'Half' 1 2 \"bcd\";", "03 00 00 03626364 017A")


@BOOK.part("An application, whose texts go out and come back to the same 777 bytes.")
def application():
    fork = image(APP)
    assert len(fork) == 777 and fork[:16].hex() == "00000100000002730000017300000096"
    listed("an application", APP_TYPES, fork, APP_TEXT)
    assert told(restring, "restring f c t.r", {"f": fork, "c": APP_TEXT, "t.r": APP_TYPES}, 0) == (("Rez.Out", fork), "")
    put("an application's own texts", APP_TYPES, fork, APP_TEXT, [])
    put("an application over itself", APP_TYPES, fork, APP_TEXT, [], words="restring f c t.r -o f")
    french = APP_TEXT.replace("File", "Fichier").replace("Quit", "Quitter").replace("Untitled", "Sans titre")
    put("an application in French", APP_TYPES, fork, french,
        ["0080 00000000 0000 0000 FFFFFFFF 0746696368696572 0751756974746572 00 51 00 00 00", "0001 0A53616E73207469747265"])
    put("a button with a text of another length", APP_TYPES, fork, "'DITL' 128 0 \"Yes\";", "0000 00000000 003C00DC00500122 04 03596573 00")
    put("a button that is filled up", APP_TYPES, fork, "'DITL' 128 0 \"No\";'STR#' 128 0 \"\";",
        ["0000 00000000 003C00DC00500122 04 024E6F", "0001 00"])


# Texts of each form: how each is stored by hand, or nothing where it doesn't fit.

def sized(size, text, most=None):
    return text.ljust(size, b"\0") if len(text) <= (size if most is None else most) else None


FORMS = {
    "pstring": lambda text: bytes([len(text)]) + text if len(text) < 256 else None,
    "wstring": lambda text: len(text).to_bytes(2, "big") + text if len(text) < 65536 else None,
    "cstring": lambda text: None if b"\0" in text else text + b"\0",
    "string": lambda text: text,
    "string[4]": lambda text: None if text[-1:] == b"\0" else sized(4, text),
    "pstring[4]": lambda text: sized(4, text) and bytes([len(text)]) + sized(4, text),
    "wstring[4]": lambda text: sized(4, text) and bytes([0, len(text)]) + sized(4, text),
    "cstring[4]": lambda text: None if b"\0" in text else sized(4, text, 3),
}
SHORT = (b"", b"a", b"abc", b"abcd", b"abcde", b"a\0b", b"ab\0", b"\0", b'\xFF\x80\r"\\\'')


def one_text(form, number, text):
    """Cases of one text in the place of another, between two bytes."""
    types = "type 'Text' { byte; %s; byte; };\n" % form
    stored = FORMS[form.replace("hex ", "")]
    old, new = stored(b"old"), stored(text)
    given = entry("Text", 1, 0, text)
    name = "%s, text %d" % (form, number)
    if new is None:
        put(name, types, [resource("Text", 1, b"\1" + old + b"\2")], given, err="c:1: error 464 TextRefused: 'Text' 1")
    elif text == b"old":
        put(name, types, [resource("Text", 1, b"\1" + old + b"\2")], given, [])
    else:
        put(name, types, [resource("Text", 1, b"\1" + old + b"\2")], given, (b"\1" + new + b"\2").hex())
        listed(name, types, [resource("Text", 1, b"\1" + new + b"\2")], given)


@BOOK.part("Texts of each form and size.")
def texts():
    for form in FORMS:
        for number, text in enumerate(SHORT):
            one_text(form, number, text)
    for form in ("hex pstring", "hex string", "hex cstring[4]"):
        for number, text in enumerate(SHORT[:5]):
            one_text(form, number, text)
    BOOK.say("Pieces of 64 bytes.")
    for length in (63, 64, 65, 127, 128, 129, 255):
        text = bytes(97 + k % 26 for k in range(length))
        listed("a text of %d bytes" % length, LIST, [resource("STR#", 0, texts_of(text))])
        put("a text of %d bytes" % length, LIST, [resource("STR#", -1, texts_of(b""))], entry("STR#", -1, 0, text), texts_of(text).hex())
    put("a text of 256 bytes", LIST, [resource("STR#", -1, texts_of(b"", b""))], entry("STR#", -1, 1, bytes([97]) * 256),
        err="c:1: error 464 TextRefused: 'STR#' -1")


@BOOK.part("Texts at the limits of their forms.")
def long_texts():
    big = {"pstring": (255, 256), "wstring": (65535, 65536), "pstring[255]": (255, 256), "string[300]": (300, 301),
           "cstring[300]": (299, 300)}
    for form, (fits, over) in big.items():
        types = "type 'Text' { %s; };\n" % form
        head = {"pstring": 1, "pstring[255]": 1, "wstring": 2}.get(form, 0)
        size = {"string[300]": 300, "cstring[300]": 300, "pstring[255]": 255}.get(form)
        for length, err in ((fits, ""), (over, "c:1: error 464 TextRefused: 'Text' 1")):
            stored = b"" if err else (length.to_bytes(head, "big") if head else b"") + (b"A" * length).ljust(size or length, b"\0")
            long_case("%s, %d bytes" % (form, length), types, image([resource("Text", 1, bytes(head + (size or 0)))]),
                      b"'Text' 1 0 \"" + b"A" * length + b"\";", image([resource("Text", 1, stored)]), err)


def long_case(name, types, fork, catalogue, after, err):
    """A case whose bytes are spelled by their runs."""
    came, line = told(restring, "restring f c t.r", {"f": fork, "c": catalogue, "t.r": types}, 0)
    assert line == (err or "") and (came is None or came[1] == after), (name, line)
    keys = ["file bytes f"] + spelled(fork) + ["file bytes c"] + spelled(catalogue)
    keys += [] if err else ["leaves bytes Rez.Out"] + spelled(after)
    case(name, "restring f c t.r", {"t.r": types}, keys, status=2 if err else 0, gone=["Rez.Out"] if err else [], err=says(err, ""))


# Rows: the fields of a type, its bytes, and its texts by hand.

SHAPES = {
    "a counted list": ("integer = $$CountOf(a); array a { pstring; };", "0003 0141 00 024243", ["A", "", "BC"]),
    "a menu": ("integer; integer = 0; pstring; array { pstring; byte; }; byte = 0;",
               "0080 0000 0446696C65 044F70656E4F 045175697451 00", ["File", "Open", "Quit"]),
    "a fixed number of rows": ("array [2] { cstring; byte; }; byte;", "6100 05 6200 06 07", ["a", "b"]),
    "rows up to the end": ("byte; array { wstring; };", "01 000161 0000 00026263", ["a", "", "bc"]),
    "rows within rows": ("byte = $$CountOf(a); array a { pstring; byte = $$CountOf(b); array b { pstring; byte; }; };",
                         "02 0161 02 0162 01 0163 02 0164 01 0165 03", list("abcde")),
    "cases": ("integer = $$CountOf(a) - 1; array a { switch { case One: key byte = 1; pstring; case None: key byte = 0; byte; "
              "case Two: key byte = 2; cstring; pstring; }; align word; };", "0003 01 0161 00 00 09 02 6200 0163 00 01 00", ["a", "b", "c", ""]),
    "a case of rows": ("switch { case Rows: key byte = 7; byte = $$CountOf(a); array a { pstring; }; case Text: key byte = 8; pstring; }; pstring;",
                       "07 02 0161 0162 0163", list("abc")),
    "numbers and points between": ("point; pstring; rect; cstring; boolean; bitstring[7]; string[2]; char;",
                                   "00010002 0161 0001000200030004 6200 85 6300 41", list("abc")),
    "a length in front": ("integer = (e - s) / 8; s: string; e: integer;", "0002 6162 0005", ["ab"]),
    "a length of more": ("longint = (e - s) / 8; s: pstring; cstring; e: byte;", "00000004 0161 6200 09", ["a", "b"]),
    "two places in front": ("integer = one / 8; integer = two / 8; one: pstring; two: pstring;", "0004 0006 0161 0162", ["a", "b"]),
    "a length of rows": ("byte = (e - s) / 8; s: array a { pstring; byte; }; e: byte;", "06 0161 01 0162 02 09", ["a", "b"]),
    "a length in each row": ("byte = $$CountOf(a); array a { byte = (e - s) / 8; s: string; e: byte; };", "02 02 6162 07 01 63 08",
                             ["ab", "c"]),
    "a place behind": ("pstring; e: integer = e / 8; cstring;", "0161 0002 6200", ["a", "b"]),
    "a length behind": ("s: cstring; e: byte = (e - s) / 8; pstring;", "616200 03 0163", ["ab", "c"]),
    "aligns behind": ("pstring; align word; cstring; align long; byte;", "0161 6200 09", ["a", "b"]),
    "a length before an align": ("byte = (e - s) / 8; s: pstring; align long; e: byte;", "03 0161 00 07", ["a"]),
    "a size by a number": ("n: byte; s: pstring[$$Byte(n)]; cstring;", "04 03616263 00 6400", ["abc", "d"]),
    "a fixed text": ("pstring = \"abc\"; pstring; cstring = \"d\";", "03616263 0165 6400", ["e"]),
    "facts": ("integer = $$ID; pstring = $$Name; longint = $$Type; cstring;", "0001 00 54657374 6100", ["a"]),
    "twelve strings": ("integer = $$CountOf(a); array a { pstring; };", "000C" + "0178" * 12, ["x"] * 12),
    "no texts": ("integer; byte;", "0001 02", []),
    "no rows": ("integer = $$CountOf(a); array a { pstring; };", "0000", []),
}
LONGER = {"a size by a number": {0: "abcd"}}


def catalogue_of(texts):
    return "".join(entry("Test", 1, leaf, text.encode()) for leaf, text in enumerate(texts))


@BOOK.part("Texts in rows, in cases, and behind what is counted and measured: each alone, and all.")
def shapes():
    for name, (fields, digits, own) in SHAPES.items():
        types, fork = "type 'Test' { %s };\n" % fields, [resource("Test", 1, digits)]
        listed(name, types, fork, catalogue_of(own))
        put("%s: its own texts" % name, types, fork, catalogue_of(own), [])
        for leaf in range(min(len(own), 5)):
            new = LONGER.get(name, {}).get(leaf, "longer")
            fits = not (name == "numbers and points between" and leaf == 2)
            err = "" if fits else "c:1: error 464 TextRefused: 'Test' 1"
            put("%s: text %d" % (name, leaf), types, fork, entry("Test", 1, leaf, new.encode()), err=err)
            if fits:
                after = [one for one in admitted(told(restring, "restring f c t.r",
                                                      files_of(fork, entry("Test", 1, leaf, new.encode()), types, {}), 0)[0][1])[0]]
                listed("%s: text %d changed" % (name, leaf), types, after, catalogue_of(own[:leaf] + [new] + own[leaf + 1:]))
        put("%s: a text behind its last" % name, types, fork, entry("Test", 1, len(own), b""), err="c:1: error 462 NoLeaf: 'Test' 1")
        if len(own) > 1:
            put("%s: all of its texts empty" % name, types, fork, catalogue_of([""] * len(own)))


# Entries, one after the other.

STOCK = [resource("STR#", 128, texts_of(b"one", b"two")), resource("STR#", 129, texts_of(b"three"), attr=8),
         resource("Bare", 1, "0102"), resource("STR#", 130, "0005 0161"), resource("Size", 1, "0003 616263"), resource("Size", -2, "0001 61")]
ENTRIES = {
    "one": ("'STR#' 128 0 \"x\";", None), "two": ("'STR#' 128 1 \"y\";", None),
    "protected": ("'STR#' 129 0 \"z\";", "219 Protected: 'STR#' 129"), "missing": ("'STR#' 5 0 \"\";", "462 NoLeaf: 'STR#' 5"),
    "another type": ("'Size' 128 0 \"\";", "462 NoLeaf: 'Size' 128"), "untyped": ("'Bare' 1 0 \"\";", "462 NoLeaf: 'Bare' 1"),
    "no row": ("'STR#' 130 0 \"\";", "462 NoLeaf: 'STR#' 130"), "too high": ("'STR#' 128 2 \"\";", "462 NoLeaf: 'STR#' 128"),
    "too long": ("'Size' 1 0 \"abcdef\";",
                 "464 TextRefused: 'Size' 1"), "also too long": ("'Size' -2 0 \"ab\";", "464 TextRefused: 'Size' -2"),
}


def answer(names, over):
    """The line of these entries, by hand: the first that is refused, and 464 only behind all others, in the order of the list."""
    faults, late = [], []
    for at, name in enumerate(names):
        says_ = ENTRIES[name][1]
        if name in names[:at]:
            key = says_.split(": ")[1] if says_ else "'STR#' 128"
            says_ = says_ if says_ and says_[:3] in ("462", "219") and not (over and says_[:3] == "219") else "463 EntryTwice: " + key
        if says_ and says_[:3] == "464":
            late.append((name != "too long", at, says_))
        elif says_ and not (over and says_[:3] == "219"):
            faults.append((at, says_))
    if faults:
        return "c:%d: error %s" % (faults[0][0] + 1, faults[0][1])
    return "c:%d: error %s" % (min(late)[1] + 1, min(late)[2]) if late else ""


@BOOK.part("Entries in any order, twice, for what isn't there, and for texts that don't fit.")
def orders():
    types = LIST + SIZE
    put("no entries", types, STOCK, "", [])
    put("no entries but a comment", types, STOCK, "// nothing\n/* at all */\n", [])
    for names in [(each,) for each in ENTRIES] + list(itertools.product([each for each in ENTRIES if each != "another type"], repeat=2)):
        put("entries: " + ", ".join(names), types, STOCK, "\n".join(ENTRIES[each][0] for each in names), err=answer(names, False))
    for names in itertools.product(("protected", "one", "missing", "too long"), repeat=2):
        if "protected" in names:
            put("-ov: " + ", ".join(names), types, STOCK, "\n".join(ENTRIES[each][0] for each in names),
                words="restring f c t.r -o x -ov", err=answer(names, True))
    threes = [("too long", "missing", "protected"), ("protected", "missing", "too long"), ("one", "one", "missing"),
              ("one", "missing", "one"),
              ("also too long", "one", "too long"), ("two", "one", "too long"), ("too long", "too long", "missing"), ("two", "protected", "two")]
    for names in threes:
        put("three: " + ", ".join(names), types, STOCK, "\n".join(ENTRIES[each][0] for each in names), err=answer(names, False))
    put("entries from the back", types, STOCK, "'STR#' 128 1 \"2\"; 'STR#' 128 0 \"1\";", texts_of(b"1", b"2").hex())
    put("464 has the line of the first entry of its resource", types, [resource("STR#", 1, texts_of(b"", b"", b""))],
        "'STR#' 1 2 \"a\";\n'STR#' 1 0 \"%s\";\n'STR#' 1 1 \"b\";" % ("x" * 256), err="c:1: error 464 TextRefused: 'STR#' 1")
    put("a protected resource stays without an entry", types, STOCK, ENTRIES["one"][0], texts_of(b"x", b"two").hex())
    put("a protected resource without a text may be there", types, [resource("Bare", 1, "00", attr=8), TWO], "'STR#' 128 0 \"\";",
        texts_of(b"", b"BC").hex())
