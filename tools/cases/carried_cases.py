"""Writes carried.cases: files from each form to each form, and all that AppleDouble, AppleSingle and MacBinary may
have.

What is read stands here by hand: as a file, or by what_is_kept, the table of docs/FORMATS.md that says what a form
carries; and each fault as its message. The readers of forms.py have to come to the same, and its writers give the
bytes.
"""
import struct

from casefile import Book
from model.faults import Refused
from model.forms import (FIRST_DATE, MAGICS, MOST, File, crc, dated, entries_of, form_of, hqx, macbin, parts_of,
                   read_form, single, written)

BOOK = Book("carried.cases", "Files from each form to each form, and all that AppleDouble, AppleSingle and MacBinary may have.",
            "Written by tools/cases/carried_cases.py, every byte by tools/model/forms.py.")
FORMS = {"raw": "f.rsrc", "double": "._f", "single": "f.single", "macbin": "f.bin", "hqx": "f.hqx"}
SPOKEN = {"raw": "raw", "double": "AppleDouble", "single": "AppleSingle", "macbin": "MacBinary", "hqx": "BinHex"}
DATED = ("double", "single", "macbin")
NO_DATE = bytes.fromhex("80000000")
FULL = File(name=b"File", kind=b"TEXT", creator=b"ttxt", flags=0x8123, vertical=-2, horizontal=3, folder=-4,
            extra=bytes(range(1, 17)), locked=True, created=FIRST_DATE, modified=(1 << 32) - 1, data=b"data fork",
            res=bytes.fromhex("0001020304"))
BARE = File(kind=bytes(4), creator=bytes(4))  # an AppleDouble or AppleSingle without entries
ROW = File(name=b"a", data=b"\0", created=3029529600, modified=4294967295)
ROW_SINGLE = bytes.fromhex(
    "00051600 00020000" + "00" * 16 + "0005" "00000003 00000056 00000001 00000008 00000057 00000010"
    "00000009 00000067 00000020 00000001 00000087 00000001 00000002 00000088 00000000"
    "61 00000000 4B6D0BFF 80000000 80000000 3F3F3F3F 3F3F3F3F" + "00" * 24 + "00")
ROW_DOUBLE = bytes.fromhex(
    "00051607 00020000" + "00" * 16 + "0004" "00000003 0000004A 00000001 00000008 0000004B 00000010"
    "00000009 0000005B 00000020 00000002 0000007B 00000000"
    "61 00000000 4B6D0BFF 80000000 80000000 3F3F3F3F 3F3F3F3F" + "00" * 24)
case = BOOK.case


def what_is_kept(form, f):
    """What a form carries of a file, with its data file."""
    if form == "raw":
        return File(res=f.res)
    if form == "hqx":
        return File(name=f.name, kind=f.kind, creator=f.creator, flags=f.flags, data=f.data, res=f.res)
    if form == "macbin":
        return f.but(extra=bytes(8) + f.extra[8:10] + bytes(6))
    early = {key: 0 for key in ("created", "modified") if getattr(f, key) < FIRST_DATE}
    return f.but(name=f.name[:255], locked=False, **early)


def files_of(form, f, folder=""):
    """The files that a file is in a form: AppleDouble has its data fork beside it."""
    return [(folder + FORMS[form], written(form, f))] + [(folder + "f", f.data)] * (form == "double" and f.data != b"")


def told(held, form=None):
    """What forms.py reads in the first of these files, beside which a second one is a data file."""
    form = form or form_of(held[0][1])
    file = read_form(form, held[0][1])
    return file.but(data=held[1][1]) if form == "double" and held[1:] else file


def words_of(held, to, form):
    return "bridge %s%s -to %s -o o/%s" % (held[0][0], " -from " + form if form else "", to, FORMS[to])


def carry(name, held, read, to="macbin", form=None, keys=()):
    """A case of `bridge`: these files have this file in them."""
    assert vars(told(held, form)) == vars(read), (name, vars(told(held, form)), vars(read))
    new = read if read.name else read.but(name=FORMS[to].encode())
    case(name, words_of(held, to, form), held, keys, leaves=files_of(to, new, "o/"),
         gone=["o/f"] * (to == "double" and not read.data))


def refuse(name, held, says, to="raw", form=None):
    """A case of `bridge` that is refused: by the reader, or else by the writer."""
    try:
        written(to, told(held, form))
        assert False, name
    except Refused as fault:
        came = str(fault)
        assert came == says, (name, came)
    case(name, words_of(held, to, form), held, gone=["o/" + FORMS[to]], status=2, err="rezkit: error %s\n" % says)


def laid(form, entries, body=b"", version=0x00020000, filler=bytes(16), count=None):
    """AppleDouble or AppleSingle whose entries have these ids, places and lengths, and the bytes behind them."""
    return (struct.pack(">II", MAGICS[form], version) + filler + struct.pack(">H", len(entries) if count is None else count)
            + b"".join(struct.pack(">III", *each) for each in entries) + body)


@BOOK.part()
def checks():
    """What is known of these forms from elsewhere."""
    assert single(ROW) == ROW_SINGLE and len(ROW_SINGLE) == 136
    assert written("double", ROW) == ROW_DOUBLE and len(ROW_DOUBLE) == 123
    stored = macbin(File(name=b"n" * 63, res=bytes(128)))
    assert stored[102:106].hex() == "6d42494e" and stored[122:124].hex() == "8281"


@BOOK.part()
def each_to_each():
    empty = FULL.but(data=b"", res=b"")
    for what, file in [("", FULL), ("without a fork, ", empty)]:
        BOOK.say("From each form to each form%s." % (", with empty forks" if what else ""))
        for form in FORMS:
            for to in FORMS:
                carry("%s%s to %s" % (what, SPOKEN[form], SPOKEN[to]), files_of(form, file), what_is_kept(form, file), to)


@BOOK.part("Dates, created and modified: the first and the last that AppleDouble and AppleSingle have, those beside "
           "them, and both sides of 2000.")
def dates():
    for form in DATED:
        for to in DATED:
            for created, modified in [(882045952, 882045953), (882045953, 882045952), (3029529599, 3029529600),
                                      (3029529600, 3029529599), (4294967294, 4294967295), (4294967295, 0), (0, 882045954), (1, 0)]:
                file = FULL.but(created=created, modified=modified)
                carry("dates %d and %d, %s to %s" % (created, modified, SPOKEN[form], SPOKEN[to]), files_of(form, file),
                      what_is_kept(form, file), to)
    BOOK.say("A date before the first is written as none, and read as 0.")
    early = what_is_kept("macbin", FULL.but(created=882045952, modified=1))
    for form in MAGICS:
        none = dated(early, NO_DATE * 4, form=form)
        assert written(form, early) == none
        case("dates that are too early in %s" % SPOKEN[form], words_of(files_of("macbin", early), form, None), files_of("macbin", early),
             leaves=[("o/" + FORMS[form], none)] + [("o/f", FULL.data)] * (form == "double"))
        carry("none of them is read in %s" % SPOKEN[form], [(FORMS[form], none)] + [("f", FULL.data)] * (form == "double"),
              early.but(locked=False, created=0, modified=0))


@BOOK.part("What stands in the entry of the dates.")
def stored_dates():
    file = FULL.but(locked=False, data=b"")
    end, ones = bytes.fromhex("4B6D0BFF4B6D0BFE"), bytes.fromhex("0000000100000002")
    rest = b"copied and read!"
    for form in MAGICS:
        for what, stored, created, modified in [
                ("no bytes", b"", 0, 0), ("4 bytes", end[:4], 0, 0), ("7 bytes", end[:7], 0, 0),
                ("8 bytes", end, 4294967295, 4294967294), ("15 bytes", end + rest[:7], 4294967295, 4294967294),
                ("16 bytes", end + rest[:8], 4294967295, 4294967294), ("17 bytes", end + rest[:9], 4294967295, 4294967294),
                ("no dates", NO_DATE * 4, 0, 0), ("created alone", bytes.fromhex("00000000") + NO_DATE * 3, 3029529600, 0),
                ("modified alone", NO_DATE + bytes.fromhex("00000000") + NO_DATE * 2, 0, 3029529600),
                ("the earliest two", bytes.fromhex("8000000180000002"), 882045953, 882045954),
                ("the second before 2000", bytes.fromhex("FFFFFFFF00000000"), 3029529599, 3029529600),
                ("the last and the one after it", bytes.fromhex("4B6D0BFF4B6D0C00"), 4294967295, 0),
                ("the latest that can be stored", bytes.fromhex("7FFFFFFF7FFFFFFE"), 0, 0)]:
            carry("%s: %s" % (SPOKEN[form], what), [(FORMS[form], dated(file, stored, form=form))],
                  file.but(created=created, modified=modified))
        carry("%s: no entry of dates" % SPOKEN[form], [(FORMS[form], dated(file, form=form))], file.but(created=0, modified=0))
        carry("%s: dates twice" % SPOKEN[form], [(FORMS[form], dated(file, ones, end, form=form))],
              file.but(created=3029529601, modified=3029529602))
        carry("%s: short dates before whole ones" % SPOKEN[form], [(FORMS[form], dated(file, end[:7], end, form=form))],
              file.but(created=0, modified=0))


@BOOK.part("Names: AppleDouble and AppleSingle have up to 255 bytes, MacBinary and BinHex 1 to 63, and a file without "
           "one takes one.")
def names():
    for form in MAGICS:
        for length, kept in [(0, 0), (1, 1), (63, 63), (64, 64), (255, 255), (256, 255), (300, 255)]:
            file = FULL.but(name=b"", locked=False, data=b"")
            held = [(FORMS[form], entries_of(form, [(3, b"n" * length)] + parts_of(form, file)))]
            for to in FORMS:
                what = "a name of %d bytes, %s to %s" % (length, SPOKEN[form], SPOKEN[to])
                if kept > 63 and to in ("macbin", "hqx"):
                    refuse(what, held, "425 BadName: %d" % kept, to)
                else:
                    carry(what, held, file.but(name=b"n" * kept), to)
    BOOK.say("A name that is taken has to be one in Mac Roman, and comes before the length of a fork.")
    long = [("f.bin", macbin(FULL.but(data=bytes(MOST + 1))))]
    for to in ("double", "single"):
        case("a name that Mac Roman hasn't, as %s" % SPOKEN[to], "bridge f -to %s -o o/語é" % to, [("f", FULL.res)], gone=["o/語é"],
             status=2, err="rezkit: error 425 BadName: 2\n")
        case("no last name, as %s" % SPOKEN[to], "bridge f -to %s -o o/" % to, [("f", FULL.res)],
             leaves=[("o/", written(to, File(res=FULL.res)))])
        refuse("a data fork that is too long, as %s" % SPOKEN[to], long, "428 ForkTooLong: 33554433", to)
    refuse("a resource fork that is too long, as AppleSingle", [("f.rsrc", bytes(MOST + 2))], "428 ForkTooLong: 33554434", "single")
    refuse("both forks are too long, as AppleSingle", [("f.bin", macbin(FULL.but(data=bytes(MOST + 1), res=bytes(MOST + 3))))],
           "428 ForkTooLong: 33554433", "single")
    refuse("a data file that is too long, as AppleSingle", [("._f", written("double", FULL)), ("f", bytes(MOST + 1))],
           "428 ForkTooLong: 33554433", "single")
    carry("a data file that is just not too long, as AppleSingle", [("._f", written("double", FULL)), ("f", bytes(MOST))],
          FULL.but(data=bytes(MOST), locked=False), "single", keys=["room folder 1 40000000"])
    carry("a resource fork that is just not too long, as AppleSingle", [("f.rsrc", bytes(MOST))], File(res=bytes(MOST)), "single",
          keys=["room folder 1 40000000"])
    case("a name that Mac Roman hasn't, and a fork that is too long, as AppleSingle", "bridge f -to single -o o/語",
         [("f", bytes(MOST + 1))], gone=["o/語"], status=2, err="rezkit: error 425 BadName: 1\n")
    held = [("f.single", single(FULL.but(data=bytes(MOST + 1))))]
    refuse("AppleSingle with a data fork that is too long, as MacBinary", held, "428 ForkTooLong: 33554433", "macbin")
    carry("AppleSingle with a data fork that is too long, as raw", held,
          FULL.but(data=bytes(MOST + 1), locked=False), "raw")


def again(data, *changes):
    """MacBinary with other bytes in its header, and the right CRC."""
    data = bytearray(data)
    for place, other in changes:
        data[place:place + len(other)] = other
    data[124:126] = struct.pack(">H", crc(bytes(data[:124])))
    return bytes(data)


@BOOK.part("The script and the further flags of MacBinary III, which are bytes 8 and 9 of the 16 further bytes.")
def scripts():
    for script, more in [(0, 0), (1, 0), (0, 0x80), (255, 255), (0x84, 0x40)]:
        two = bytes([script, more])
        file = FULL.but(extra=bytes(8) + two + bytes(6))
        third = macbin(file)
        plain = file.but(extra=bytes(16))
        what = "script %d and flags %d" % (script, more)
        for to in FORMS:
            carry("%s, MacBinary to %s" % (what, SPOKEN[to]), [("f.bin", third)], file, to)
        carry(what + ", version II", [("f.bin", again(third, (102, bytes(6)), (122, b"\x81")))], plain)
        carry(what + ", version 129 with mBIN", [("f.bin", again(third, (122, b"\x81")))], file)
        carry(what + ", without mBIN", [("f.bin", again(third, (102, bytes(4))))], plain)
        carry(what + ", version 129 without mBIN", [("f.bin", again(third, (102, bytes(4)), (122, b"\x81")))], plain)
    held = macbin(FULL)
    for what, other in [("mBIM", b"mBIM"), ("MBIN", b"MBIN"), ("nBIN", b"nBIN"), ("mbIN", b"mbIN"), ("mBJN", b"mBJN")]:
        carry("%s in the place of mBIN" % what, [("f.bin", again(held, (102, other)))], FULL.but(extra=bytes(16)))
    kept = FULL.but(extra=bytes(8) + bytes([9, 10]) + bytes(6))
    carry("a version of 255 that 129 can read", [("f.bin", again(held, (122, b"\xFF")))], kept)
    carry("bytes 108 to 119 aren't read", [("f.bin", again(held, (108, b"not read now")))], kept)
    refuse("a version of 130 that is needed", [("f.bin", again(held, (123, b"\x82")))], "427 NewerVersion: 130")
    refuse("a version of 128 that is needed", [("f.bin", again(held, (123, b"\x80")))], "422 BadMagic: 128", form="macbin")
    wrong = held[:106] + b"\0" + held[107:]
    refuse("a script that the CRC doesn't know", [("f.bin", wrong)], "424 BadCrc: 0 %d %d" % (crc(held[:124]), crc(wrong[:124])))
    for form in MAGICS:
        for place in (0, 7, 8, 9, 10, 15):
            extra = bytes(place) + b"\xFF" + bytes(15 - place)
            file = FULL.but(extra=extra, locked=False, data=b"")
            carry("byte %d of the further ones, %s to MacBinary" % (place, SPOKEN[form]), files_of(form, file), file)


@BOOK.part("Entries in any order, twice, over one another, and of other ids.")
def orders():
    whole = FULL.but(locked=False)
    for form in MAGICS:
        spoken, data = SPOKEN[form], b"data fork" if form == "single" else b""
        file = whole.but(data=data)
        parts = parts_of(form, file)

        def entries(name, *given, read=file, **more):
            carry("%s: %s" % (spoken, name), [(FORMS[form], entries_of(form, list(given), **more))], read)

        entries("entries in the other order", *reversed(parts))
        entries("the resource fork first", *(parts[-1:] + parts[:-1]))
        entries("the name last", *(parts[1:] + parts[:1]))
        entries("version 1, with a filler", *parts, version=0x00010000, filler=b"Macintosh       ")
        entries("a filler", *parts, filler=bytes(range(1, 17)))
        entries("each entry twice", *(parts + [(ident, bytes([ident]) * 40) for ident, _ in parts]))
        entries("each entry twice, the first ones empty", *([(ident, b"") for ident, _ in parts] + parts), read=BARE)
        others = [(ident, b"other") for ident in (0, 4, 5, 6, 7, 10, 11, 12, 13, 14, 15, 256, 0x80000000, 0xFFFFFFFF)]
        entries("entries of other ids", *(others[:7] + parts + others[7:]))
        entries("no entries", read=BARE)
        entries("a name alone", (3, b"File"), read=BARE.but(name=b"File"))
        entries("a resource fork alone", (2, b"\0\1"), read=BARE.but(res=b"\0\1"))
        entries("a data fork alone", (1, b"data fork"), read=BARE.but(data=data))
        entries("data forks of which the first counts", (1, data), (1, b"another"), (2, b"\0"), read=BARE.but(data=data, res=b"\0"))
        info = parts_of(form, file)[2][1]
        for length in (0, 1, 4, 8, 9, 16, 17, 31):
            kept = info[:length].ljust(32, b"\0")
            flags, vertical, horizontal, folder = struct.unpack(">Hhhh", kept[8:16])
            entries("%d bytes of the Finder" % length, (9, info[:length]), (2, b"\0"), read=BARE.but(
                kind=kept[:4], creator=kept[4:8], flags=flags, vertical=vertical, horizontal=horizontal, folder=folder,
                extra=kept[16:], res=b"\0"))
        finder = file.but(name=b"", created=0, modified=0, data=b"", res=b"\0")
        entries("33 bytes of the Finder", (9, info + b"x"), (2, b"\0"), read=finder)
        entries("70 bytes of the Finder", (9, info + b"x" * 38), (2, b"\0"), read=finder)
        shared(form, spoken)


def shared(form, spoken):
    """Entries whose bytes are those of others, of the table, or stand behind a gap."""
    def entries(name, given, read, body=b"", **more):
        carry("%s: %s" % (spoken, name), [(FORMS[form], laid(form, given, body, **more))], read)

    data = b"same" if form == "single" else b""
    entries("both forks and the name are the same bytes", [(1, 62, 4), (2, 62, 4), (3, 62, 4)],
            BARE.but(name=b"same", data=data, res=b"same"), b"same")
    entries("the name is a part of the resource fork", [(2, 50, 8), (3, 52, 4)], BARE.but(name=b"name", res=b"a name!!"), b"a name!!")
    entries("the resource fork is the whole file", [(2, 0, 38)], BARE.but(res=laid(form, [(2, 0, 38)])))
    entries("the resource fork is the table of entries", [(2, 24, 14)], BARE.but(res=bytes.fromhex("0001 00000002 00000018 0000000E")))
    entries("bytes between the entries and at the end", [(3, 60, 4), (2, 70, 2)], BARE.but(name=b"name", res=b"\0\1"),
            b"between it" + b"name" + b"  gap " + b"\0\1" + b"and what follows")
    for place in (0, 26, 37, 38, 39, 1 << 31, (1 << 32) - 1):
        entries("a fork of no bytes at %d" % place, [(2, place, 0)], BARE)
    entries("a name of no bytes after the end, and then a name", [(3, 9999, 0), (3, 50, 1)], BARE, b"n")


@BOOK.part("Entries that end after the file, and entries that are cut: the first in the order of the entries is told.")
def cuts():
    for form in MAGICS:
        spoken, parts = SPOKEN[form], parts_of(form, FULL)
        whole = entries_of(form, parts)

        def refused(name, data, says):
            refuse("%s: %s" % (spoken, name), [(FORMS[form], data)], says)

        table = 26 + 12 * len(parts)
        refused("an end in the last entry of the table", whole[:table - 1], "423 EntryOutside: %d" % len(parts))
        refused("an end behind the number of entries", whole[:26], "423 EntryOutside: %d" % len(parts))
        refused("an end right behind the entries", whole[:table], "423 EntryOutside: 3")
        place = table
        for ident, content in parts:
            place += len(content)
            if content:
                refused("an end in the bytes of entry %d" % ident, whole[:place - 1], "423 EntryOutside: %d" % ident)
        refused("65535 entries", laid(form, [(2, 38, 0)], b"x" * 100, count=65535), "423 EntryOutside: 65535")
        refused("one entry, and no bytes of it", laid(form, [], count=1), "423 EntryOutside: 1")
        refused("an entry that begins at the end", laid(form, [(2, 38, 1)]), "423 EntryOutside: 2")
        refused("an entry that begins after the end", laid(form, [(2, 39, 1)]), "423 EntryOutside: 2")
        refused("an entry of the greatest place and length", laid(form, [(2, (1 << 32) - 1, (1 << 32) - 1)]), "423 EntryOutside: 2")
        refused("an entry whose end passes 32 bits", laid(form, [(2, (1 << 32) - 1, 39)]), "423 EntryOutside: 2")
        refused("an entry whose end is 0 in 32 bits", laid(form, [(3, 38, (1 << 32) - 38)]), "423 EntryOutside: 3")
        for ident in (0, 1, 4, 77, (1 << 32) - 1):
            refused("entry %d outside, of an id that may be unread" % ident, laid(form, [(3, 62, 1), (ident, 62, 2), (2, 62, 2)], b"n"),
                    "423 EntryOutside: %d" % ident)
        refused("a second entry of an id outside", laid(form, [(3, 50, 1), (3, 50, 2)], b"n"), "423 EntryOutside: 3")


@BOOK.part("Entry 1 is the data fork of AppleSingle, and AppleDouble has it in a file of its own.")
def first_entries():
    parts = [(1, b"an entry"), (2, b"\0\1")]
    read = BARE.but(res=b"\0\1")
    carry("AppleDouble with an entry 1 and a data file", [("._f", entries_of("double", parts)), ("f", b"a file")], read.but(data=b"a file"))
    carry("AppleDouble with an entry 1 and no data file", [("._f", entries_of("double", parts))], read)
    carry("AppleSingle with an entry 1", [("f.single", entries_of("single", parts))], read.but(data=b"an entry"))
    case("AppleSingle reads no data file", "bridge ._f -to macbin -o o/f.bin", [("._f", entries_of("single", parts)), ("f", b"a file")],
         ["fail folder 3", "fails never"], leaves=[("o/f.bin", macbin(read.but(name=b"f.bin", data=b"an entry")))])
    both = what_is_kept("macbin", FULL)
    case("AppleSingle writes no data file", "bridge f.bin -to single -o ._f", [("f.bin", macbin(both)), ("f", b"a file")],
         ["fail folder 3", "fails never"], leaves=[("._f", single(both))])
    case("AppleSingle to AppleDouble: the data file is written first", "bridge f.single -to double -o ._f", [("f.single", single(FULL))],
         ["fail folder 3"], status=3, leaves=[("f", FULL.data)], gone=["._f"], err="rezkit: write fault\n")
    case("AppleSingle over the file that is read", "bridge f -to single -o f", [("f", macbin(both))], leaves=[("f", single(both))])
    case("AppleSingle over the data file of what is read", "bridge ._f -to single -o f",
         [("._f", written("double", FULL)), ("f", b"a file")], leaves=[("f", single(FULL.but(data=b"a file")))])


@BOOK.part("Two files whose bytes stand in tools/cases/carried_cases.py by hand.")
def rows():
    for to, data in [("single", ROW_SINGLE), ("double", ROW_DOUBLE)]:
        case("a file of two dates as %s" % SPOKEN[to], "bridge a.bin -to %s -o a" % to, [("a.bin", macbin(ROW))],
             leaves=[("a", data)] + [("a.data", b"\0")] * (to == "double"))
    carry("and back from AppleSingle", [("a", ROW_SINGLE)], ROW)
    carry("and back from AppleDouble", [("a", ROW_DOUBLE), ("a.data", b"\0")], ROW)


@BOOK.part("Each form read as each other one.")
def given_forms():
    short = FULL.but(name=b"f", data=b"")
    bad = {("raw", "macbin"): "421 ShortHeader: 5", ("raw", "double"): "421 ShortHeader: 5", ("raw", "single"): "421 ShortHeader: 5",
           ("raw", "hqx"): "441 NoStart: 0", ("double", "single"): "422 BadMagic: 333319", ("double", "macbin"): "422 BadMagic: 102",
           ("double", "hqx"): "441 NoStart: 0", ("single", "double"): "422 BadMagic: 333312", ("single", "macbin"): "422 BadMagic: 4",
           ("single", "hqx"): "441 NoStart: 0", ("macbin", "double"): "422 BadMagic: 91648", ("macbin", "single"): "422 BadMagic: 91648",
           ("macbin", "hqx"): "441 NoStart: 0", ("hqx", "double"): "422 BadMagic: 676620393", ("hqx", "single"): "422 BadMagic: 676620393",
           ("hqx", "macbin"): "421 ShortHeader: 87"}
    for form in FORMS:
        held = [(FORMS[form], written(form, short))]
        for given in FORMS:
            what = "%s read as %s" % (SPOKEN[form], SPOKEN[given])
            if given == form:
                carry(what, held, what_is_kept(form, short), "hqx", given)
            elif given == "raw":
                carry(what, held, File(res=held[0][1]), "hqx", given)
            else:
                refuse(what, held, bad[form, given], "raw", given)
    refuse("a longer BinHex read as MacBinary", [("f.hqx", hqx(short.but(data=bytes(range(200)))))], "422 BadMagic: 40", form="macbin")
    BOOK.say("What is found to be AppleSingle by its first four bytes, and what isn't.")
    magic = bytes.fromhex("00051600")
    carry("three bytes of the number are raw", [("f", magic[:3])], File(res=magic[:3]), "hqx")
    carry("another number beside it is raw", [("f", bytes.fromhex("00051601") + bytes(40))], File(res=bytes.fromhex("00051601") + bytes(40)), "hqx")
    refuse("four bytes of AppleSingle", [("f", magic)], "421 ShortHeader: 4")
    named = FULL.but(name=b"\x16\0nam", extra=bytes(16))
    held = [("f.bin", macbin(named))]
    refuse("MacBinary whose name has five bytes and looks like AppleSingle", held, "427 NewerVersion: 1851878656")
    carry("and is read as what it is", held, named, "hqx", "macbin")


@BOOK.part("What AppleSingle is refused for, the first rule that is broken.")
def refusals():

    def refused(name, data, says, form=None):
        refuse("AppleSingle: " + name, [("f", data)], says, form=form)

    whole = single(FULL)
    for length in (0, 1, 3, 4, 8, 25):
        refused("the first %d bytes" % length, whole[:length], "421 ShortHeader: %d" % length, "single")
    refused("25 bytes that are found", whole[:25], "421 ShortHeader: 25")
    refused("25 bytes with another number and version", bytes(25), "421 ShortHeader: 25", "single")
    for number in (0, 333311, 333313, 333319, (1 << 32) - 1):
        refused("the number %d" % number, struct.pack(">I", number) + whole[4:], "422 BadMagic: %d" % number, "single")
    refused("another number and another version", bytes(8) + whole[8:], "422 BadMagic: 0", "single")
    for version in (0, 1, 0x00010001, 0x00020001, 0x00030000, 0x02000000, (1 << 32) - 1):
        refused("the version %d" % version, whole[:4] + struct.pack(">I", version) + whole[8:], "427 NewerVersion: %d" % version)
    refused("a later version, and entries outside", laid("single", [], version=0x00030000, count=9), "427 NewerVersion: 196608")
    refused("entries outside, of which one would be too", laid("single", [(2, 99, 99)], count=2), "423 EntryOutside: 2")
    refused("a missing end of the first version", entries_of("single", parts_of("single", FULL), version=0x00010000)[:-1], "423 EntryOutside: 2")
    case("AppleSingle: no file", "bridge no -from single -to raw -o x", gone=["x"], status=2, err='rezkit: error 101 MissingFile: "no"\n')
    case("AppleSingle: the file can't be read", "bridge f -from single -to raw -o x", [("f", whole)], ["fail folder 1"], status=3, gone=["x"],
         err="rezkit: read fault\n")
    case("AppleSingle: the file can't be written", "bridge f -to single -o x", [("f", whole)], ["fail folder 2"], status=3, gone=["x"],
         err="rezkit: write fault\n")
