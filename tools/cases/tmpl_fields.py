"""The cases of 'TMPL' resources that are about single codes and lists. tmpl_cases.py writes them."""
import re

from tmpl_book import BOOK, LIST, STRINGS, TWO_STRINGS, case, compiles, entries, faulty, fields, file_of, fork_of, passed_over, refuse_source, show
from model.case_lines import spelled
from model.fork import image
from model.templates import FIELDS


@BOOK.part("Strings behind their number.")
def examples():
    templates, fork = image([(b"TMPL", 128, b"STR#", 0, STRINGS)]), fork_of("STR#", [TWO_STRINGS])
    assert entries("Count:OCNT *:LSTC Text:PSTR *:LSTE") == STRINGS
    show("strings behind their number", templates, fork, [128])
    case("strings behind their number, by hand", "derez f -tmpl t", [("f", fork), ("t", templates)],
         out="resource 'STR#' (128) {\n    {\n        \"A\",\n        \"BC\"\n    }\n};\n\n")
    compiles("strings behind their number are compiled", templates, "resource 'STR#' (128) { { \"A\", \"BC\" } };\n", [TWO_STRINGS], "STR#")
    faulty("a template without its last entry", STRINGS[:25], 453, 25)
    faulty("a count without a list", "A:OCNT B:DBYT", 454, 12)
    BOOK.say("Each front of that template.")
    for length in range(len(STRINGS)):
        # An entry begins at 0, 10, 16 and 25. At 10 a count waits, and at 16 and 25 the list is open.
        begins = max(place for place in (0, 10, 16, 25) if place <= length)
        if length == 0:
            fields("its first bytes: 0", b"", ["", "00"], [128])
        else:
            faulty("its first bytes: %d" % length, STRINGS[:length], 451 if length > begins else 454 if length == 10 else 453, begins)


# Each code that is a field by itself: contents that are shown by the field, and others; then items, and what they are.
ONES = {
    "DBYT": (["00", "7F", "80", "FF"], ["", "0000"], [("0", "00"), ("-128", "80"), ("255", "FF")], ["256", "-129"]),
    "DWRD": (["0000", "7FFF", "8000", "FFFF"], ["", "00", "000000"], [("-32768", "8000"), ("65535", "FFFF")], ["65536", "-32769"]),
    "DLNG": (["00000000", "7FFFFFFF", "80000000", "FFFFFFFF"], ["", "000000", "0000000000"],
             [("-2147483648", "80000000"), ("$FFFFFFFF", "FFFFFFFF")], []),
    "HBYT": (["00", "0A", "FF"], ["", "0000"], [("$A", "0A"), ("-1", "FF")], ["256"]),
    "HWRD": (["0000", "0A0B", "FFFF"], ["00", "000000"], [("$A0B", "0A0B")], ["65536"]),
    "HLNG": (["00000000", "0A0B0C0D", "FFFFFFFF"], ["000000", "0000000000"], [("$A0B0C0D", "0A0B0C0D")], []),
    "PSTR": (["00", "0141", bytes([255]) + b"a" * 255], ["", "01", "000A", "FF00"], [('""', "00"), ('"abc"', "03616263")], []),
    "CSTR": (["00", "4100", b"a" * 300 + b"\0"], ["", "41", "0000", "410000"], [('""', "00"), ('"abc"', "61626300")], []),
    "CHAR": (["00", "41", "22", "FF"], ["", "4141"], [('"A"', "41"), ("65", "41")], ["256", "-1"]),
    "TNAM": (["54455354", "00000000", "FF274120"], ["", "545345", "5445535400"], [("'TEST'", "54455354"), ("1", "00000001")], []),
    "RECT": (["0000 0001 7FFF 8000", "FFFF FFFE FFFD FFFC"], ["", "00000000000000", "000000000000000000"],
             [("{1, -1, 32767, -32768}", "0001 FFFF 7FFF 8000")], ["{1, 2, 3, 65536}"]),
    "HEXD": (["", "00", bytes(range(16)), bytes(range(17))], [], [('$""', ""), ('$"01" "A"', "0141")], []),
    "FBYT": (["00"], ["", "01", "0000"], [("", "00")], []),
    "FWRD": (["0000"], ["00", "0001", "000000"], [("", "0000")], []),
    "FLNG": (["00000000"], ["000000", "00000001", "0000000000"], [("", "00000000")], []),
    "AWRD": ([""], ["00", "0000"], [("", "")], []),
    "ALNG": ([""], ["00", "00000000"], [("", "")], []),
}


@BOOK.part()
def each_alone():
    assert list(ONES) != [] and set(ONES) == set(FIELDS)
    for code, (fields, others, items, outside) in ONES.items():
        templates = file_of((code, code))
        BOOK.say("%s alone: `%s`." % (code, FIELDS[code]))
        show("%s" % code, templates, fork_of(code, fields + others), range(128, 128 + len(fields)))
        show("%s behind a byte" % code, file_of((code, "HBYT " + code)), fork_of(code, behind(code, fields)), range(128, 128 + len(fields)))
        source = "".join("resource '%s' (%d) { %s };\n" % (code, 128 + k, item) for k, (item, _) in enumerate(items))
        compiles("%s compiled" % code, templates, source, [content for _, content in items], code)
        for item in outside:
            value = re.findall(r"-?\d+", item)[-1]
            refuse_source("%s of %s" % (code, item), templates, "resource '%s' (1) { %s };\n" % (code, item), "1: error 207 OutOfRange: %s" % value)
    BOOK.say("Items of another kind, too few of them, and too many.")
    for code, item, says in [
            ("DBYT", '"A"', "206 WrongKind: 1"), ("PSTR", "65", "206 WrongKind: 1"), ("RECT", "1", "206 WrongKind: 1"),
            ("HEXD", "{ }", "206 WrongKind: 1"), ("TNAM", '"TEST"', "206 WrongKind: 1"), ("DBYT", "", "208 TooFew: 0"),
            ("FBYT", "0", "209 TooMany: 1"), ("AWRD", "0", "209 TooMany: 1"), ("CHAR", '"AB"', "216 TextTooLong: 2"),
            ("DBYT", "A", '203 UnknownName: "A"'), ("PSTR", '"%s"' % ("a" * 256), "216 TextTooLong: 256"),
        ]:
        refuse_source("%s given %s" % (code, item[:10] or "nothing"), file_of((code, code)), "resource '%s' (1) { %s };\n" % (code, item),
                      "1: error %s" % says)


def behind(code, fields):
    """The contents behind a byte of 1, with what an align puts between."""
    fill = bytes({"AWRD": 1, "ALNG": 3}.get(code, 0))
    return [b"\1" + fill + (bytes.fromhex(each) if isinstance(each, str) else each) for each in fields]


@BOOK.part("Aligns go to the next multiple of 2 or 4 bytes from the start of the resource, by zeros.")
def aligns():
    fields("an align of words behind strings", "PSTR AWRD HBYT", ["0141 AA", "00 00 AA", "024142 00 AA", "00AA", "0001AA"], [128, 129, 130])
    fields("an align of longs behind strings", "PSTR ALNG HBYT", ["03414243 AA", "024142 00 AA", "0141 0000 AA", "00 000000 AA",
                                                                  "0441424344 000000 AA", "00 000001 AA"], [128, 129, 130, 131, 132])
    fields("aligns one after the other", "HBYT AWRD ALNG AWRD HBYT", ["01 000000 02", "01 00 02"], [128])
    fields("aligns in a list", "OCNT LSTC PSTR AWRD LSTE", ["0002 0141 00 00", "0002 0141 00", "0001 00 01"], [128])
    fields("a fill of each size", "FBYT HBYT FWRD HBYT FLNG", ["00 01 0000 02 00000000", "00 01 0000 02 00000001"], [128])


@BOOK.part("Lists with a number of rows, and that number less one.")
def lists():
    for code, none, one, two in [("OCNT", "0000", "0001", "0002"), ("ZCNT", "FFFF", "0000", "0001")]:
        templates = file_of(("Test", code + " LSTC DBYT LSTE"))
        show("%s and rows of a byte" % code, templates, fork_of("Test", [none, one + "05", two + "0506", two + "05", one + "0506", "7F"]),
             [128, 129, 130])
        compiles("%s compiled" % code, templates, "".join("resource 'Test' (%d) { { %s } };\n" % (128 + k, items) for k, items in
                 enumerate(["", "5", "5, 6", "5; 6;"])), [none, one + "05", two + "0506", two + "0506"])
        fields("%s far before its list" % code, code + " PSTR FBYT LSTC DBYT LSTE CSTR", [two + "0141 00 0506 4200", one + "0141 00 05 00"],
               [128, 129])
    BOOK.say("The greatest numbers of rows. Of 65,536 rows the number less one is that of none, so they are shown as bytes.")
    large("OCNT of 65,535 rows", "OCNT", 65535, "FFFF")
    large("ZCNT of 65,535 rows", "ZCNT", 65535, "FFFE")
    large("ZCNT of 65,536 rows", "ZCNT", 65536, "FFFF")
    refuse_source("OCNT of 65,536 rows", file_of(("Test", LIST)), [quoted("resource 'Test' (128) { {"), quoted("1,", 65535), quoted("1 } };\n")],
                  "1: error 207 OutOfRange: 65536")
    BOOK.say("Lists without a number end with the resource, before fields of fixed width.")
    fields("LSTB alone", "LSTB DBYT LSTE", ["", "05", "050607"], [128, 129, 130])
    fields("LSTB of strings", "LSTB PSTR LSTE", ["", "00", "0141 00", "0141 02"], [128, 129, 130])
    fields("LSTB before a number and a rectangle", "LSTB HBYT LSTE DWRD RECT FLNG CHAR TNAM", [rest(), "05" + rest(), "0506" + rest(), "00" * 18],
           [128, 129, 130])
    compiles("LSTB compiled", file_of(("Test", "LSTB DBYT LSTE DWRD")), "resource 'Test' (128) { { 1, 2 }, 3 };\nresource 'Test' (129) { { }, 3 };\n",
             ["01020003", "0003"])
    fields("LSTB behind a list", LIST + " LSTB HBYT LSTE", ["0001 05 0607", "0000"], [128, 129])
    fields("LSTB whose rows have lists", "LSTB OCNT LSTC DBYT LSTE LSTE", ["", "0000", "0001 05 0002 0607", "0002 05"], [128, 129, 130])


def rest():
    """What stands behind a list: a number, a rectangle, a fill, a character and a type."""
    return "0001" + "0001 0002 0003 0004" + "00000000" + "41" + "54455354"


def quoted(text, times=1):
    """A piece of a content: a text, so often."""
    return text.encode().hex().upper() + "*%d" % times


def large(name, code, rows, stored):
    """So many rows of a byte, whose number is stored so: compiled, and shown. 65,536 rows are shown as bytes."""
    templates, row, line = file_of(("Test", code + " LSTC CHAR LSTE")), '        "A"', '    $"%s"\n'
    fork = fork_of("Test", [bytes.fromhex(stored) + b"A" * rows])
    stated = [each[2:] for each in spelled(fork)]
    source = [quoted("resource 'Test' (128) { {"), quoted("65,", rows - 1), quoted("65 } };\n")]
    case(name + ", compiled", "rez s.r -tmpl t -o f", [("s.r", source), ("t", templates)], leaves=[("f", stated)])
    if rows < 65536:
        text = [quoted("resource 'Test' (128) {\n    {\n"), quoted(row + ",\n", rows - 1), quoted(row + "\n    }\n};\n\n")]
    else:
        text = [quoted("data 'Test' (128) {\n" + line % (stored + " 4141" * 7)), quoted(line % " ".join(["4141"] * 8), rows // 16 - 1),
                quoted(line % "4141" + "};\n\n")]
    case(name, "derez f -tmpl t", [("f", stated), ("t", templates)], out=text)


@BOOK.part("Lists in lists. A count is that of the next counted list of the same list, whatever stands between.")
def deep():
    fields("a list in each row", "OCNT LSTC HBYT OCNT LSTC HBYT LSTE LSTE", ["0000", "0001 05 0000", "0002 05 0001 06 07 0002 08 09", "0001 05 0001"],
           [128, 129, 130])
    fields("two lists behind two numbers", "OCNT LSTC HBYT LSTE ZCNT LSTC HWRD LSTE HBYT",
           ["0000 FFFF 01", "0001 05 0001 0506 0708 01", "0002 0506 0000 0506 01"], [128, 129, 130])
    fields("a list without a number between a number and its list", "OCNT LSTB OCNT LSTC HBYT LSTE LSTE LSTC HBYT LSTE", ["0000"], [])
    compiles("the same compiled", file_of(("Test", "OCNT LSTB OCNT LSTC HBYT LSTE LSTE LSTC HBYT LSTE")),
             "resource 'Test' (128) { { { 1, 2 }, { 3 } }, { 4, 5, 6 } };\n", ["0003 0002 0102 0001 03 040506"])
    fields("a number in each row of a list behind its number", "ZCNT LSTC TNAM ZCNT LSTC DWRD DWRD LSTE LSTE",
           ["FFFF", "0000 49434E23 0001 0000 0080 0001 0081", "0001 49434E23 FFFF 46524546 0000 0000 0080"], [128, 129, 130])
    three = "OCNT LSTC OCNT LSTC OCNT LSTC HBYT LSTE LSTE LSTE"
    fields("three lists in one another", three, ["0001 0001 0001 05", "0002 0000 0002 0000 0002 0506"], [128, 129])
    compiles("three lists in one another compiled", file_of(("Test", three)), "resource 'Test' (128) { { { }, { { }, { 5, 6 } } } };\n",
             ["0002 0000 0002 0000 0002 0506"])
    fields("rows whose one value is a list", "OCNT LSTC OCNT LSTC PSTR LSTE LSTE", ["0002 0000 0001 0141"], [128])
    BOOK.say("60 lists may be open at once, and 61 may not. So many may follow one another.")
    for lists, row in [(60, "HBYT"), (2, "HBYT")]:
        nested = "OCNT LSTC " * lists + row + " LSTE" * lists
        fields("%d counted lists in one another" % lists, nested, ["0001" * lists + "05", "0001" * (lists - 1) + "0000"], [128, 129])
    compiles("60 lists compiled", file_of(("Test", "OCNT LSTC " * 60 + "HBYT" + " LSTE" * 60)),
             "resource 'Test' (128) { %s5%s };\n" % ("{" * 60, "}" * 60), ["0001" * 60 + "05"])
    fields("60 lists without numbers in one another", "LSTB " * 60 + "HBYT" + " LSTE" * 60, ["05"], [])
    fields("61 lists one after the other", "OCNT LSTC HBYT LSTE " * 61, ["0001 05" * 61, "0000" * 61], [128, 129])
    fields("60 lists in one another, twice", ("OCNT LSTC " * 60 + "HBYT" + " LSTE" * 60 + " ") * 2, [("0001" * 60 + "05") * 2], [128])
    faulty("61 counted lists", "OCNT LSTC " * 61 + "HBYT" + " LSTE" * 61, 456, 10 * 60 + 5)
    faulty("61 lists without numbers", "LSTB " * 61 + "HBYT" + " LSTE" * 61, 456, 5 * 60)
    faulty("60 lists, and one without a number in the last", "OCNT LSTC " * 60 + "LSTB HBYT" + " LSTE" * 61, 456, 10 * 60)
    faulty("60 lists, and one without a count in the last", "OCNT LSTC " * 60 + "LSTC HBYT" + " LSTE" * 61, 454, 10 * 60)
    faulty("61 lists that never end", "LSTB " * 61, 456, 5 * 60)
    faulty("60 lists that never end", "LSTB " * 60, 453, 5 * 60)


# What stands behind a list or a string to the end, and whether the type can be read then.
ENDS = [
    ("nothing", "", "", True), ("a number", "HBYT", "01", True),
    ("numbers of each size", "DBYT DWRD DLNG HBYT HWRD HLNG", "01 0001 00000001 01 0001 00000001", True),
    ("a character, a type and a rectangle", "CHAR TNAM RECT", "41 54455354 0001 0002 0003 0004", True),
    ("fills", "FBYT FWRD FLNG", "00 0000 00000000", True), ("a string", "PSTR", "00", False),
    ("a string that ends with a zero byte", "CSTR", "00", False), ("an align of words", "AWRD", "", False),
    ("an align of longs behind a number", "HBYT ALNG", "01 00 00", False),
    ("another string to the end", "HEXD", "", False), ("a list to the end", "LSTB HBYT LSTE", "", False),
    ("a counted list", "OCNT LSTC HBYT LSTE", "0000", False),
]


@BOOK.part("What may stand behind a string to the end, and behind a list without a number.")
def to_the_end():
    for name, codes, content, can in ENDS:
        for what, first in [("HEXD", "HEXD"), ("LSTB", "LSTB CHAR LSTE")]:
            fields("%s before %s" % (what, name), "%s %s" % (first, codes), ["4142" + content, content], [128, 129] if can else [])
    compiles("HEXD before a string compiled", file_of(("Test", "HEXD PSTR")), "resource 'Test' (128) { $\"0102\", \"AB\" };\n", ["0102 024142"])
    BOOK.say("In a list nothing may go on to the end.")
    fields("HEXD in a counted list", "OCNT LSTC HEXD LSTE", ["0000", "0001 05"], [])
    fields("HEXD in a list to the end", "LSTB HEXD LSTE", ["", "05"], [])
    fields("LSTB in a counted list", "OCNT LSTC LSTB HBYT LSTE LSTE", ["0000", "0001 05"], [])
    fields("LSTB in a list to the end", "LSTB LSTB HBYT LSTE LSTE", ["", "05"], [])
    fields("LSTB before a count in its rows", "LSTB OCNT LSTC PSTR LSTE AWRD LSTE HWRD", ["0005", "0001 0141 0001 00 00 0005"], [128, 129])
    compiles("HEXD in a counted list compiled", file_of(("Test", "OCNT LSTC HEXD LSTE")), "resource 'Test' (128) { { $\"0102\", \"AB\" } };\n",
             ["0002 0102 4142"])
    BOOK.say("Before a string or a list to the end all may stand.")
    fields("HEXD behind a string, an align and a list", "PSTR ALNG OCNT LSTC CSTR AWRD LSTE HEXD HBYT",
           ["0141 0000 0001 4142 00 00 AABB 05", "03414243 0000 05", "03414243 0001 4100 AA"], [128, 129, 130])


@BOOK.part("A template with another code is passed over, also if it is broken behind that.")
def unknown():
    for code in ["BOOL", "BBIT", "LSTZ", "LSTR", "WSTR", "ESTR", "OSTR", "ECST", "OCST", "H008", "C010", "P020", "DATE", "dbyt", "DByt", "DBY_",
                 "_DBY", "____", "LSTD", "OCN1"]:
        passed_over("the code %s" % code, "HBYT " + code)
    for name, codes in [
            ("alone", "BOOL"), ("first", "BOOL HBYT"), ("in a list", "OCNT LSTC HBYT BOOL LSTE"),
            ("in a list that never ends", "OCNT LSTC BOOL"), ("while a number waits for its list", "OCNT BOOL"),
            ("before an end without a list", "HBYT BOOL LSTE"), ("before a list without a number", "BOOL LSTC"),
            ("before an empty list", "BOOL LSTB LSTE"), ("before 61 lists", "BOOL " + "LSTB " * 61),
        ]:
        passed_over("an unknown code %s" % name, codes)
    passed_over("an unknown code before an entry that is cut", entries("HBYT BOOL HBYT")[:-1])
    passed_over("a code of zeros", entries("HBYT") + bytes(5))
    passed_over("a code with a byte outside ASCII", entries("HBYT") + b"\0DBY\x8E")
    show("beside other templates", file_of(("Unkn", "BOOL"), ("Test", "HBYT"), ("More", "HBYT BBIT")),
         image([(b"Unkn", 1, b"", 0, b"\1"), (b"Test", 2, b"", 0, b"\1"), (b"More", 3, b"", 0, b"\1")]), [2])
    refuse_source("a resource statement of a type whose template is passed over", file_of(("Test", "BOOL")), "resource 'Test' (128) { 1 };\n",
                  "1: error 202 NoType: 'Test' 128")
