"""Writes listing.cases: what `list` prints of files of each form, and of which files it prints nothing.

The text of each file is that of tools/model/listing.py, a second reading of docs/LANGUAGE.md. Beside it stand by hand
the lines of the examples, of each form, of each date and of each form of a name, and the message of each rule that is
broken. Forks with changes by chance are those of the sequence of det_cases.py.
"""
import re
import struct

from casefile import Book, put
from det_cases import BASE, ONE, RULES, TWO, Changes
from fork_cases import SHAPES
from model.breaks import breaks
from model.faults import NAMES, Refused
from model.fork import image
from model.forms import (FORMS, File, crc, dated, double, entries_of, form_of, hqx, hqx_head, hqx_text, macbin,
                         parts_of, single, written)
from model.listing import text_of

BOOK = Book("listing.cases", "What `list` prints of files of each form.",
            "Written by tools/cases/listing_cases.py, each text by hand or by the second reading of tools/model/listing.py.")
NAMED = FORMS[1:]
LAST_OF_2039 = 4291833599
FRONT = ["type 'APPL'", "creator 'Samp'", "flags 0x2100"]


def resource(kind, ident, name=b"", attributes=0, content=b""):
    return kind.encode("mac_roman"), ident, name, attributes, content


def lined(lines):
    return "".join(line + "\n" for line in lines)


def form_named(words):
    """The form that the words name last, or None."""
    return ([None] + re.findall(r"-from (\w+)", words))[-1]


def case(name, data, *lines, words=None, among=()):
    """A case of a file. Where all its lines stand by hand, or some `among` others, they have to be those of the second
    reading."""
    text = text_of(data, form_named(words or ""))
    assert not lines or text == lined(lines), (name, text)
    assert lined(among) in text, (name, text)
    BOOK.case(name, words or "list f", [("f", data)], out=text)


def refused(name, data, says, words="list f"):
    """A case of a file of which nothing is told; what the second reading refuses is what stands by hand."""
    if data is not None:
        try:
            raise AssertionError((name, text_of(data, form_named(words))))
        except Refused as fault:
            assert says.startswith("%d " % fault.number) and says.endswith(": %s" % fault.kept), (name, fault.args)
    BOOK.case(name, words, [] if data is None else [("f", data)], status=2, err="rezkit: error %s\n" % says)


@BOOK.part("An application, and its fork alone.")
def examples():
    fork = image([resource("CODE", 0, b"", 0, bytes(11302)), resource("PICT", 128, b"About", 32, bytes(842))])
    app = File(name=b"MPWmake.sea", kind=b"APPL", creator=b"aust", flags=0x2100, created=3230404328, modified=3230404360,
               data=bytes(4230), res=fork)
    resources = ["fork %d" % len(fork), "'CODE' (0) 11302", "'PICT' (128, \"About\", purgeable) 842", "resources 2"]
    case("an application", macbin(app), "form macbin", 'name "MPWmake.sea"', "type 'APPL'", "creator 'aust'", "flags 0x2100",
         "locked false", "created 2006-05-13 22:32:08", "modified 2006-05-13 22:32:40", "data 4230", *resources)
    case("the fork of an application", fork, "form raw", *resources)
    case("one resource", ONE, "form raw", "fork 312", "'Test' (128) 2", "resources 1")
    case("no bytes", b"", "form raw", "fork 0", "resources 0")


@BOOK.part("Each form has the facts that it carries, and no others.")
def forms():
    file = File(name=b"App", kind=b"APPL", creator=b"Samp", flags=0x2100, vertical=7, horizontal=-7, folder=9, extra=bytes(range(16)),
                locked=True, created=3029529600, modified=LAST_OF_2039, data=b"its data fork", res=TWO)
    rows = ["fork 328", "'Test' (128) 2", "'Test' (129) 0", "resources 2"]
    dates = ["created 2000-01-01 00:00:00", "modified 2039-12-31 23:59:59"]
    lines = {
        "raw": [], "double": ['name "App"', *FRONT, *dates], "single": ['name "App"', *FRONT, *dates, "data 13"],
        "macbin": ['name "App"', *FRONT, "locked true", *dates, "data 13"], "hqx": ['name "App"', *FRONT, "data 13"],
    }
    for form in FORMS:
        data, rest = written(form, file), ["fork 0", "resources 0"]
        case("in %s" % form, data, "form " + form, *lines[form], *rows)
        case("in %s, which is named" % form, data, "form " + form, *lines[form], *rows, words="list f -from %s" % form)
        case("in %s without a fork" % form, written(form, file.but(res=b"")), "form " + form, *lines[form], *rest)
        case("in %s without a data fork" % form, written(form, file.but(data=b"")), "form " + form,
             *(line.replace("13", "0") if line.startswith("data") else line for line in lines[form]), *rows)
        case("in %s with a fork without resources" % form, written(form, file.but(res=image([]))), "form " + form, *lines[form],
             "fork 286", "resources 0")
    BOOK.say("What a form lacks, and more of what it carries.")
    bare = ["type '\\0x00\\0x00\\0x00\\0x00'", "creator '\\0x00\\0x00\\0x00\\0x00'", "flags 0x0000", "created none", "modified none"]
    case("AppleDouble with a fork alone", entries_of("double", [(2, TWO)]), "form double", 'name ""', *bare, *rows)
    case("AppleDouble with nothing", entries_of("double", []), "form double", 'name ""', *bare, "fork 0", "resources 0")
    case("AppleSingle with nothing", entries_of("single", []), "form single", 'name ""', *bare, "data 0", "fork 0", "resources 0")
    case("AppleSingle with a data fork alone", entries_of("single", [(1, b"data")]), "form single", 'name ""', *bare, "data 4",
         "fork 0", "resources 0")
    case("AppleDouble with a data fork, which passes unread", entries_of("double", [(1, b"data"), *parts_of("double", file)]),
         "form double", *lines["double"], *rows)
    case("AppleDouble of version 1", entries_of("double", parts_of("double", file), version=0x00010000), "form double",
         *lines["double"], *rows)
    case("AppleDouble with Finder info of 9 bytes", entries_of("double", [(9, b"APPLSamp\x21")]), "form double", 'name ""',
         *FRONT[:2], "flags 0x2100", "created none", "modified none", "fork 0", "resources 0")
    two = macbin(file)[:102] + bytes(4) + macbin(file)[106:122] + bytes([129, 129])
    case("MacBinary II", two + struct.pack(">H", crc(two)) + macbin(file)[126:], "form macbin", *lines["macbin"], *rows)
    for byte, locked in ((0xFE, "false"), (0xFF, "true"), (0x80, "false"), (3, "true")):
        head = put(macbin(file)[:124], (81, "%02X" % byte))
        case("MacBinary, locked by the lowest bit of %02X" % byte, head + struct.pack(">H", crc(head)) + macbin(file)[126:],
             "form macbin", *("locked " + locked if line == "locked true" else line for line in lines["macbin"]), *rows)
    for flags in (0x0000, 0x0001, 0x00FF, 0x0A0B, 0x8000, 0xFFFF):
        for form in NAMED:
            case("flags %04X in %s" % (flags, form), written(form, file.but(flags=flags)), among=["flags 0x%04X" % flags])
    BOOK.say("The data file beside a header of AppleDouble isn't read.")
    BOOK.case("a data file beside AppleDouble", "list ._f", [("._f", double(file)), ("f", "text\n")],
              out=lined(["form double", *lines["double"], *rows]))
    BOOK.case("a header of AppleDouble without its data file", "list d/._f", [("d/._f", double(file))],
              out=lined(["form double", *lines["double"], *rows]))
    BOOK.say("Which form is read.")
    case("the form before the file", TWO, "form raw", *rows, words="list -from raw f")
    case("of several forms the last counts", macbin(file), "form macbin", *lines["macbin"], *rows, words="list -from hqx f -from raw -from macbin")
    hidden = File(name=b"\x05\x16\x07" + b"\0" * 2, kind=b"APPL", creator=b"Samp", flags=0x2100, res=TWO)
    case("MacBinary whose name begins with the bytes of AppleDouble", macbin(hidden), "form macbin",
         'name "\\0x05\\0x16\\0x07\\0x00\\0x00"', *FRONT, "locked false", "created none", "modified none", "data 0", *rows,
         words="list f -from macbin")
    case("a fork that begins as BinHex doesn't", TWO, "form raw", *rows)


# Seconds since 1904, and how they are told.
DATES = [
    (0, "none"), (1, "1904-01-01 00:00:01"), (59, "1904-01-01 00:00:59"), (60, "1904-01-01 00:01:00"), (3599, "1904-01-01 00:59:59"),
    (3600, "1904-01-01 01:00:00"), (86399, "1904-01-01 23:59:59"), (86400, "1904-01-02 00:00:00"), (2678399, "1904-01-31 23:59:59"),
    (2678400, "1904-02-01 00:00:00"), (5097600, "1904-02-29 00:00:00"), (5184000, "1904-03-01 00:00:00"), (31622399, "1904-12-31 23:59:59"),
    (31622400, "1905-01-01 00:00:00"), (36720000, "1905-03-01 00:00:00"), (882045952, "1931-12-13 20:45:52"), (882045953, "1931-12-13 20:45:53"),
    (2082844799, "1969-12-31 23:59:59"), (2082844800, "1970-01-01 00:00:00"), (2147483647, "1972-01-19 03:14:07"),
    (2147483648, "1972-01-19 03:14:08"), (3029529599, "1999-12-31 23:59:59"), (3029529600, "2000-01-01 00:00:00"),
    (3034627200, "2000-02-29 00:00:00"), (3034713599, "2000-02-29 23:59:59"), (3034713600, "2000-03-01 00:00:00"),
    (3061151999, "2000-12-31 23:59:59"), (3230404328, "2006-05-13 22:32:08"), (4230328447, "2038-01-19 03:14:07"),
    (4230328448, "2038-01-19 03:14:08"), (4291833598, "2039-12-31 23:59:58"), (4291833599, "2039-12-31 23:59:59"),
    (4291833600, "4291833600"), (4291833601, "4291833601"), (4294967295, "4294967295"),
]


@BOOK.part("Dates of MacBinary, both ends and beyond.")
def dates():
    file = File(name=b"App", kind=b"APPL", creator=b"Samp", flags=0x2100)
    for seconds, told_as in DATES:
        case("made at %d" % seconds, macbin(file.but(created=seconds, modified=5)),
             among=["locked false", "created " + told_as, "modified 1904-01-01 00:00:05", "data 0"])
        case("changed at %d" % seconds, macbin(file.but(created=5, modified=seconds)),
             among=["locked false", "created 1904-01-01 00:00:05", "modified " + told_as, "data 0"])
    BOOK.say("Each month of a leap year and of another, from its first second to its last.")
    for year, first in ((1904, 0), (1999, 2997993600), (2036, 4165603200)):
        lengths = [31, 29 if year % 4 == 0 else 28, 31, 30, 31, 30, 31, 31, 30, 31, 30, 31]
        for month, days in enumerate(lengths, 1):
            last = first + 86400 * days - 1
            case("month %d of %d" % (month, year), macbin(file.but(created=first + (first == 0), modified=last)), among=[
                "created %d-%02d-01 00:00:%02d" % (year, month, first == 0), "modified %d-%02d-%02d 23:59:59" % (year, month, days)])
            first = last + 1
    BOOK.say("Dates of AppleDouble and AppleSingle as they are stored.")
    stored = [
        ("80000000", "none"), ("80000001", "1931-12-13 20:45:53"), ("FFFFFFFF", "1999-12-31 23:59:59"), ("00000000", "2000-01-01 00:00:00"),
        ("00000001", "2000-01-01 00:00:01"), ("004DC880", "2000-02-29 00:00:00"), ("4B3D3AFF", "2039-12-31 23:59:59"),
        ("4B3D3B00", "4291833600"), ("4B6D0BFF", "4294967295"), ("4B6D0C00", "none"), ("7FFFFFFF", "none"),
    ]
    for form in ("double", "single"):
        for digits, told_as in stored:
            case("stored as %s in %s" % (digits, form), dated(file, bytes.fromhex(digits + "00000005" + "80000000" * 2), form=form),
                 among=["created " + told_as, "modified 2000-01-01 00:00:05"])
            case("changed as %s in %s" % (digits, form), dated(file, bytes.fromhex("00000005" + digits), form=form),
                 among=["created 2000-01-01 00:00:05", "modified " + told_as])
        case("dates of 7 bytes in %s" % form, dated(file, bytes(7), form=form), among=["created none", "modified none"])
        case("no dates in %s" % form, dated(file, form=form), among=["created none", "modified none"])
        case("two entries of dates in %s, of which the first counts" % form, dated(file, bytes(8), bytes.fromhex("00000005" * 2), form=form),
             among=["created 2000-01-01 00:00:00", "modified 2000-01-01 00:00:00"])


@BOOK.part("Names of every byte; none makes a line end.")
def names():
    every = [resource("Test", byte, bytes([byte])) for byte in range(256)]
    case("each byte as the name of a resource", image(every), among=[
        "'Test' (0, \"\\0x00\") 0", "'Test' (1, \"\\0x01\") 0"])
    by_hand = {0: "\\0x00", 9: "\\0x09", 10: "\\0x0A", 13: "\\0x0D", 31: "\\0x1F", 32: " ", 33: "!", 34: "\\\"", 39: "'", 40: "(", 41: ")",
               44: ",", 92: "\\\\", 126: "~", 127: "\\0x7F", 128: "\\0x80", 202: "\\0xCA", 255: "\\0xFF"}
    for byte, shown in by_hand.items():
        case("the byte %02X in a name" % byte, image([resource("Test", 1, b"a" + bytes([byte]) + b"b")]), "form raw", "fork 314",
             "'Test' (1, \"a%sb\") 0" % shown, "resources 1")
        for form in NAMED:
            case("the byte %02X in the name of a file in %s" % (byte, form), written(form, File(name=b"a" + bytes([byte]) + b"b")),
                 among=["form " + form, "name \"a%sb\"" % shown, "type '????'"])
    for form in ("double", "single"):
        for first in (0, 128):
            case("the bytes from %02X on in the name of a file in %s" % (first, form), written(form, File(name=bytes(range(first, first + 128)))))
    BOOK.say("Names of all lengths, in one piece.")
    lengths = (0, 1, 31, 63, 64, 65, 127, 128, 129, 191, 192, 193, 254, 255)
    for length in lengths:
        name = (b"name " * 51)[:length]
        case("a resource with a name of %d bytes" % length, image([resource("Test", -7, name, 16, b"1")]),
             among=["'Test' (-7%s, locked) 1" % (', "%s"' % name.decode() if name else "")])
        case("a resource with a name of %d bytes of five letters each" % length, image([resource("Test", 7, b"\n" * length)]),
             among=["'Test' (7%s) 0" % (', "%s"' % ("\\0x0A" * length) if length else "")])
        for form in NAMED:
            if length in range(1, 64) or form in ("double", "single"):
                case("a file with a name of %d bytes in %s" % (length, form), written(form, File(name=name)),
                     among=['name "%s"' % name.decode(), "type '????'"])
                case("a file with a name of %d bytes of five letters each in %s" % (length, form), written(form, File(name=b"\xFF" * length)),
                     among=['name "%s"' % ("\\0xFF" * length), "type '????'"])
    case("AppleSingle with a name of 300 bytes, of which it has 255", entries_of("single", [(3, b"n" * 300)]),
         among=['name "%s"' % ("n" * 255), "type '\\0x00\\0x00\\0x00\\0x00'"])
    BOOK.say("Types and creators of any bytes.")
    for kind, shown in ((b"'\"\\ ", "\\'\"\\\\ "), (b"\0\0\0\0", "\\0x00" * 4), (b"\xFF\xFE\x80\x7F", "\\0xFF\\0xFE\\0x80\\0x7F"), (b"a\nb\r", "a\\0x0Ab\\0x0D"),
                        (b"    ", "    "), (b"STR#", "STR#"), (b"\xA5\xBD\xC9\xD0", "\\0xA5\\0xBD\\0xC9\\0xD0")):
        digits = kind.hex().upper()
        case("a resource of the type %s" % digits, image([(kind, 1, b"", 0, b"")]), "form raw", "fork 310", "'%s' (1) 0" % shown, "resources 1")
        for form in NAMED:
            case("a file of the type %s in %s" % (digits, form), written(form, File(name=b"f", kind=kind, creator=kind[::-1])),
                 among=["type '%s'" % shown])


@BOOK.part("Ids, attributes and lengths.")
def resources():
    for ident in (-32768, -32767, -16455, -1, 0, 1, 9, 10, 99, 128, 9999, 10000, 32766, 32767):
        case("the id %d" % ident, image([resource("Test", ident, b"", 0, b"12")]), "form raw", "fork 312", "'Test' (%d) 2" % ident, "resources 1")
    by_hand = {0x00: "", 0x02: ", changed", 0x04: ", preload", 0x08: ", protected", 0x10: ", locked", 0x20: ", purgeable", 0x40: ", sysheap",
               0x7E: ", sysheap, purgeable, locked, protected, preload, changed", 0x01: ", $01", 0x80: ", $80", 0x81: ", $81", 0xFF: ", $FF",
               0x21: ", $21", 0x44: ", sysheap, preload", 0x2A: ", purgeable, protected, changed"}
    for attributes, shown in by_hand.items():
        case("the attributes %02X" % attributes, image([resource("Test", 1, b"n", attributes)]), "form raw", "fork 312",
             "'Test' (1, \"n\"%s) 0" % shown, "resources 1")
    case("each byte of attributes", image([resource("Test", byte, b"", byte) for byte in range(256)]))
    for length in (0, 1, 9, 10, 99, 100, 999, 1000, 65535, 65536, 100000):
        case("a resource of %d bytes" % length, image([resource("Test", 1, b"", 0, bytes(length))]), "form raw", "fork %d" % (310 + length),
             "'Test' (1) %d" % length, "resources 1")
        for form in ("single", "macbin", "hqx"):
            if length < 65536 or form != "hqx":
                case("a data fork of %d bytes in %s" % (length, form), written(form, File(name=b"f", data=bytes(length))), among=["data %d" % length])
    BOOK.say("Forks of other layouts, in the order of their maps.")
    by_hand = {"lists and bytes in another order than the types": ["'Test' (2, \"two\", preload) 1", "'Test' (1) 2", "'Last' (5) 0", "'More' (-1, \"more\") 2"],
               "a name that is the end of another": ["'Test' (1, \"abc\\0x01z\") 2", "'Test' (2, \"z\") 2", "'Test' (3) 2"],
               "types without references alone": []}
    for name, fork in SHAPES.items():
        lines = by_hand.get(name)
        case("a fork of %s" % name, fork, *([] if lines is None else ["form raw", "fork %d" % len(fork), *lines, "resources %d" % len(lines)]))
    BOOK.say("Many resources.")
    many = [resource("Test" if k % 3 else "Last", k, b"name %d" % k if k % 5 == 0 else b"", 32 if k % 7 == 0 else 0, b"x" * (k % 4)) for k in range(2700)]
    case("2,700 resources", image(many), among=["resources 2700"])
    case("300 resources in MacBinary", macbin(File(name=b"Many", res=image(many[:300]))), among=["resources 300"])
    case("256 types", image([((k << 24 | 0x616263).to_bytes(4, "big"), k, b"", 0, b"") for k in range(256)]), among=["resources 256"])


@BOOK.part("A fork that breaks a rule is refused by the first one, in each form, and nothing of it is told.")
def broken():
    for name, change, says in RULES:
        number, word, _, offset, _, value = says.split()
        line = "%s %s: %s %s" % (number, word, offset, value)
        refused("a fork that breaks a rule: %s" % name, put(BASE, change), line)
        for form in NAMED:
            refused("in %s, a fork that breaks a rule: %s" % (form, name), written(form, File(name=b"f", kind=b"APPL", data=b"its data", res=put(BASE, change))), line)
    for length in (1, 2, 15):
        refused("a fork of %d bytes" % length, bytes(length), "401 ShortHeader: 0 %d" % length)
    refused("a fork that is cut", ONE[:-1], "403 MapOutside: 4 50")
    refused("two rules, of which the first is told", put(ONE, (256, "00000003"), (302, "0000")), "408 DataOutside: 256 3")
    BOOK.say("MacBinary I has no mark by which it is found, and is read as a raw fork.")
    one = macbin(File(name=b"Old", kind=b"APPL", creator=b"Samp", data=b"its data", res=ONE))
    old = one[:99] + bytes(29) + one[128:]
    refused("MacBinary I", old, "402 DataAreaOutside: 0 0")
    refused("MacBinary I, whose form is named", old, "422 BadMagic: 0", words="list f -from macbin")
    refused("MacBinary I, a name of one byte and a long one", put(old, (1, "01")), "402 DataAreaOutside: 0 0")
    BOOK.say("Forks with changes by chance: those that are whole are told, and the others refused.")
    changes, seen, sound = Changes(23), set(), 0
    for kind, count in (("one field", 30), ("some bytes", 20), ("two fields", 20), ("bytes taken out", 10)):
        for made in range(count):
            data = changes.changed(kind)
            while data in seen or made % 2 == 0 and breaks(data) or form_of(data) != "raw":
                data = changes.changed(kind)
            seen.add(data)
            faults = breaks(data)
            sound += not faults
            if faults:
                number, offset, value = faults[0]
                refused("the fork %d: %s" % (len(seen), kind), data, "%d %s: %d %d" % (number, NAMES[number], offset, value))
            else:
                case("the fork %d: %s" % (len(seen), kind), data)
    assert sound >= 30, sound


@BOOK.part("A file that breaks a rule of its form, and no file.")
def refusals():
    file = File(name=b"App", kind=b"APPL", creator=b"Samp", data=b"its data fork", res=ONE)
    refused("no file", None, '101 MissingFile: "f"')
    refused("no file, whose form is named", None, '101 MissingFile: "f"', words="list f -from hqx")
    refused("a text", b"data 'Test' (128) { };\n", "441 NoStart: 0")
    refused("a fork that is named as AppleDouble", ONE, "422 BadMagic: 256", words="list f -from double")
    refused("a fork that is named as AppleSingle", ONE, "422 BadMagic: 256", words="list f -from single")
    refused("AppleDouble that is named as AppleSingle", double(file), "422 BadMagic: 333319", words="list f -from single")
    refused("AppleSingle that is named as AppleDouble", single(file), "422 BadMagic: 333312", words="list f -from double")
    refused("a fork that is named as MacBinary", ONE, "422 BadMagic: 0", words="list f -from macbin")
    refused("a fork that is named as BinHex", ONE, "441 NoStart: 0", words="list f -from hqx")
    refused("MacBinary as a raw fork", macbin(file), "402 DataAreaOutside: 0 0", words="list f -from raw")
    refused("AppleDouble as a raw fork", double(file), "402 DataAreaOutside: 0 0", words="list f -from raw")
    refused("AppleDouble that ends in its header", double(file)[:25], "421 ShortHeader: 25")
    refused("AppleDouble of a later version", put(double(file), (4, "00030000")), "427 NewerVersion: 196608")
    refused("AppleDouble with one more entry than it has room for", put(double(file), (24, "FFFF")), "423 EntryOutside: 65535")
    refused("AppleDouble whose fork ends after it", double(file)[:-1], "423 EntryOutside: 2")
    refused("AppleSingle that ends in its header", single(file)[:4], "421 ShortHeader: 4")
    refused("AppleSingle of a later version", put(single(file), (4, "00030000")), "427 NewerVersion: 196608")
    refused("AppleSingle whose fork ends after it", single(file)[:-1], "423 EntryOutside: 2")
    refused("MacBinary of 127 bytes", macbin(file)[:127], "421 ShortHeader: 127", words="list f -from macbin")
    refused("MacBinary whose fork ends after it", macbin(file)[:-128], "426 Truncated: 312")
    refused("MacBinary without its forks", macbin(file)[:128], "426 Truncated: 13")
    refused("MacBinary that needs a version of 130", put(macbin(file), (123, "82")), "427 NewerVersion: 130")
    other = put(macbin(file), (2, "61"))
    refused("MacBinary with another letter of its name", other, "424 BadCrc: 0 %d %d" % (int.from_bytes(other[124:126], "big"), crc(other[:124])))
    longer = put(macbin(file)[:124], (1, "40"))
    refused("MacBinary with a name of 64 bytes", longer + struct.pack(">H", crc(longer)) + macbin(file)[126:], "425 BadName: 64", words="list f -from macbin")
    text = hqx(file)
    refused("BinHex without its first colon", text.replace(b"\n:", b"\n", 1), "441 NoStart: 0")
    refused("BinHex with a letter that it hasn't", text.replace(b"\n:" + text[47:48], b"\n:7"), "442 BadLetter: 55")
    refused("BinHex without its last colon", text.rstrip(b":\n"), "443 NoEnd: %d" % len(text.rstrip(b":\n")))
    head = hqx_head(file)
    refused("BinHex with a wrong CRC of its header", hqx_text(head + b"\0\0"), "444 BadCrc: 1 0 %d" % crc(head))
    whole = head + struct.pack(">H", crc(head))
    refused("BinHex with a wrong CRC of its data fork", hqx_text(whole + file.data + b"\0\0"), "444 BadCrc: 2 0 %d" % crc(file.data))
    whole += file.data + struct.pack(">H", crc(file.data))
    refused("BinHex with a wrong CRC of its resource fork", hqx_text(whole + file.res + b"\0\0"), "444 BadCrc: 3 0 %d" % crc(file.res))
    refused("BinHex that ends in its resource fork", hqx_text(whole + file.res[:10]), "445 Truncated: 10")
    refused("BinHex without a name", hqx_text(b"\0" + head[4:]), "447 BadName: 0")


@BOOK.part("Words that are no command.")
def usage():

    def misused(name, words, position):
        BOOK.case(name, words, [("f", ONE)], status=1, err="rezkit: usage: word %d\n" % position)

    misused("no file is named", "list", 2)
    misused("a form and no file", "list -from raw", 4)
    misused("two files", "list f g", 3)
    misused("a second file after a form", "list f -from raw f", 5)
    misused("a form that isn't named", "list f -from", 4)
    misused("a form that there isn't", "list f -from zip", 4)
    misused("a form in capitals", "list f -from RAW", 4)
    misused("the option of rez for a form", "list f -form raw", 3)
    misused("a file to write", "list f -o x", 3)
    misused("a type that alone is shown", "list f -only Test", 3)
    misused("list with help", "list f --help", 3)
    misused("list in capitals", "List f", 1)
    misused("a command that begins as list does", "lists f", 1)
