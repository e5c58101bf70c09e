"""Writes det.cases: what `det` tells of forks that break rules of admission, alone, together, and past every bound.

Each list is that of tools/model/breaks.py, a second reading of docs/FORMATS.md. Beside it stand by hand the lines of
each rule that is broken alone, of each bound and of the examples, and which rules of two can be told together. The
forks of the last part are changed by a sequence of numbers of its own.
"""
import itertools

from casefile import Book, put
from fork_cases import SHAPES
from model.breaks import breaks, text_of
from model.faults import Refused
from model.fork import image, number, number_at, type_places
from model.fork_shapes import ABSENT, each, held, laid, named, reference
from model.forms import File, double, form_of, hqx, macbin, read_form, single, written

BOOK = Book("det.cases", "All broken rules of a fork, told by `det`.",
            "Written by tools/cases/det_cases.py, each list by hand or by the second reading of tools/model/breaks.py.")
ONE = image([(b"Test", 128, b"", 0, b"\1\2")])
TWO = image([(b"Test", 128, b"", 0, b"\1\2"), (b"Test", 129, b"", 0, b"")])

# A fork of two types. The data area is at 256 and has 15 bytes; the map is at 271 and has 114: the type list is at 28, the
# names are at 106. The types stand at 301 and 309, the references of the first at 317 and 329, of the second at 341, 353, 365.
BASE = laid(*each(("Test", [reference(1), reference(2, 6, 0)]), ("Last", [reference(1, 6, 4), reference(-1), reference(3, 11)])),
            held(b"\1\2", b"\3", b""), named(b"one", b"two"))


# Each rule: its name here, what breaks it in the fork, and what is told of it alone. The rules of types and of ids have one number.
RULES = [
    ("the data area", (8, "0000FFFF"), "402 DataAreaOutside offset 0 value 65535"),
    ("the map", (4, "00000180"), "403 MapOutside offset 4 value 114"),
    ("the length of the map", (12, "0000001B"), "404 ShortMap offset 12 value 27"),
    ("the type list", (295, "0071"), "405 TypeListOutside offset 295 value 113"),
    ("the types", (299, "0020"), "406 TypesOutside offset 299 value 33"),
    ("a reference list", (307, "0100"), "407 ReferencesOutside offset 555 value 2"),
    ("data", (346, "00000C"), "408 DataOutside offset 268 value 0"),
    ("a name", (355, "0100"), "409 NameOutside offset 633 value 256"),
    ("a type that stands again", (309, "54657374"), "410 Repeated offset 309 value 1415934836"),
    ("an id that stands again", (365, "FFFF"), "410 Repeated offset 365 value 65535"),
]

# The rules without which others aren't asked.
HIDES = {0: {6}, 1: set(range(3, 10)), 2: set(range(3, 10)), 3: set(range(4, 10)), 4: set(range(5, 10))}


def case(name, data, *lines, words=None, file=None):
    """A case of a fork, as a file of its own unless another is given. Where lines stand by hand, they have to be what the
    second reading tells."""
    words = words or ("det f" if file is not None or form_of(data) == "raw" else "det f -from raw")
    text = text_of(breaks(data))
    assert not lines or text == "".join(line + "\n" for line in lines) + "broken %d\n" % len(lines), (name, text)
    BOOK.case(name, words, [("f", data if file is None else file)], out=text)


def sound(name, data):
    """A case of a fork that is admitted."""
    assert not breaks(data), (name, breaks(data)[:3])
    case(name, data)


@BOOK.part("A fork that is cut, and one with a wrong length and a wrong place of a name.")
def examples():
    case("a fork cut behind the data", ONE[:261], "402 DataAreaOutside offset 0 value 6", "403 MapOutside offset 4 value 50")
    case("a length of 3 and a name at the end of the map", put(ONE, (256, "00000003"), (302, "0000")),
         "408 DataOutside offset 256 value 3", "409 NameOutside offset 312 value 0")
    case("a fork that is whole", ONE)
    BOOK.say("Each front of that fork that ends in another part.")
    for length in (0, 1, 15, 16, 17, 255, 256, 262, 263, 289, 290, 311):
        case("its first bytes: %d" % length, ONE[:length])
    case("a byte behind it", ONE + b"\0")
    BOOK.say("Forks of other layouts, which share bytes, names and lists, and are admitted.")
    for name, fork in SHAPES.items():
        if name != "no bytes":
            if breaks(fork):
                case(name, fork)
            else:
                sound(name, fork)


@BOOK.part("Each rule broken alone, and each two together.")
def pairs():
    sound("none is broken", BASE)
    for name, change, line in RULES:
        case("%s alone" % name, put(BASE, change), line)
        case("a header cut short, and %s" % name, put(BASE, change)[:15], "401 ShortHeader offset 0 value 15")
    for (one, (first, change, line)), (other, (second, more, behind)) in itertools.combinations(enumerate(RULES), 2):
        both = put(BASE, change, more)
        numbers = [int(line[:3])] + [int(behind[:3])] * (other not in HIDES.get(one, ()))
        assert [fault[0] for fault in breaks(both)] == numbers, (first, second, breaks(both))
        case("%s and %s" % (first, second), both)
    case("all that can be broken at once", put(BASE, (8, "0000FFFF"), (307, "0100"), *(change for _, change, _ in RULES[6:])))
    case("the header alone, of zeros", bytes(16), "404 ShortMap offset 12 value 0")
    case("the header alone, of ones", b"\xFF" * 16, "402 DataAreaOutside offset 0 value 4294967295",
         "403 MapOutside offset 4 value 4294967295")


@BOOK.part("The last place that is allowed, and the one behind it.")
def bounds():
    sound("a data area up to the end of the file", put(ONE, (8, "00000038")))
    case("a data area up to one byte behind it", put(ONE, (8, "00000039")), "402 DataAreaOutside offset 0 value 57")
    case("a data area at 16,777,216", put(ONE, (0, "01000000"), (8, "00000000")), "402 DataAreaOutside offset 0 value 0")
    case("a data area at 4,294,967,295 of as many bytes", put(ONE, (0, "FFFFFFFF"), (8, "FFFFFFFF")),
         "402 DataAreaOutside offset 0 value 4294967295")
    case("a map of one byte more", put(ONE, (12, "00000033")), "403 MapOutside offset 4 value 51")
    case("a map at the end of the file, of no bytes", put(ONE, (4, "00000138"), (12, "00000000")), "404 ShortMap offset 12 value 0")
    case("a map behind the file, of no bytes", put(ONE, (4, "00000139"), (12, "00000000")),
         "403 MapOutside offset 4 value 0", "404 ShortMap offset 12 value 0")
    case("a map of 27 bytes", put(ONE, (12, "0000001B")), "404 ShortMap offset 12 value 27")
    case("a map of 28 bytes", put(ONE, (12, "0000001C")), "405 TypeListOutside offset 286 value 28")
    case("a map of 30 bytes with one type", put(ONE, (12, "0000001E")), "406 TypesOutside offset 290 value 1")
    sound("a map of 30 bytes without types", put(ONE, (12, "0000001E"), (290, "FFFF")))
    sound("a type list in the last two bytes of the map, without types", put(ONE, (286, "0030"), (310, "FFFF")))
    case("a type list in the last two bytes of the map", put(ONE, (286, "0030")), "406 TypesOutside offset 310 value 1")
    case("a type list that ends one byte behind the map", put(ONE, (286, "0031")), "405 TypeListOutside offset 286 value 49")
    case("a type list at 65,535", put(ONE, (286, "FFFF")), "405 TypeListOutside offset 286 value 65535")
    case("a type list in the header of the map", put(ONE, (286, "0000")))
    sound("a list that ends with the map", put(ONE, (298, "000A")))
    case("a list that ends one byte behind the map", put(ONE, (298, "000B")), "407 ReferencesOutside offset 301 value 1")
    sound("a list of none at the end of the map", put(ONE, (296, "FFFF0016")))
    case("a list of none behind the map", put(ONE, (296, "FFFF0017")), "407 ReferencesOutside offset 313 value 0")
    case("65,535 references", put(ONE, (296, "FFFE")), "407 ReferencesOutside offset 300 value 65535")
    case("a length that ends one byte behind the data area", put(ONE, (305, "000003")), "408 DataOutside offset 259 value 0")
    case("a length in the last four bytes of the data area, of 258 bytes", put(ONE, (305, "000002")),
         "408 DataOutside offset 258 value 131330")
    case("a resource of one byte more", put(ONE, (259, "03")), "408 DataOutside offset 256 value 3")
    case("a resource of 4,294,967,295 bytes", put(ONE, (256, "FFFFFFFF")), "408 DataOutside offset 256 value 4294967295")
    case("data at 16,777,215", put(ONE, (305, "FFFFFF")), "408 DataOutside offset 16777471 value 0")
    sound("a name of no bytes in the last byte of the map", put(ONE, (288, "0031"), (302, "0000")))
    case("a name of one byte in the last byte of the map", put(ONE, (288, "0031"), (302, "0000"), (311, "01")),
         "409 NameOutside offset 311 value 0")
    sound("no name, whatever the place of the name list", put(ONE, (288, "FFFF")))
    case("a name at 65,534", put(ONE, (302, "FFFE")), "409 NameOutside offset 65846 value 65534")
    case("a name and a name list at 65,534", put(ONE, (288, "FFFE"), (302, "FFFE")), "409 NameOutside offset 131330 value 65534")


@BOOK.part("References are looked at where the list of their type is sound, data where the data area is, too.")
def only_where():
    """Rules that are asked of some types and references alone."""
    far = [reference(1, 99), reference(1, 0, 99)]
    types = [("A   ", far), ("B   ", far), ("A   ", far)]
    for name, places in [("no list is broken", []), ("the first list is", [0]), ("the list in the midst is", [1]),
                         ("the last list is", [2]), ("the first two lists are", [0, 1]), ("the first and the last list are", [0, 2]),
                         ("all lists are", [0, 1, 2])]:
        data = put(laid(*each(*types), held(b"\1\2")), *((262 + 28 + 2 + 8 * k + 6, "FFF0") for k in places))
        case("data, names and ids are, and %s" % name, data)
        case("the data area too, and %s" % name, put(data, (8, "0000FFFF")))
    BOOK.say("One list of two types is looked at for each of them, and so is a list that begins in another.")
    shared = reference(1, 99) + reference(1, 0, 99) + reference(2)
    case("a list that two types share, and each rule of references is broken", laid([("A   ", 3, 0), ("B   ", 3, 0)], shared, held(b"\1\2")))
    case("lists that overlap, and each rule of references is broken", laid([("A   ", 2, 0), ("B   ", 2, 12), ("C   ", 1, 8)], shared, held(b"\1\2")))
    case("ids that stand again in another type alone", laid(*each(("A   ", [reference(1), reference(2)]), ("B   ", [reference(2), reference(1)])),
                                                            held(b"\1\2")))
    BOOK.say("What stands again is told of each later entry, the types first.")
    case("a type that stands four times", laid(*each(*[("Same", [])] * 4)), *("410 Repeated offset %d value 1398893925" % place for place in (298, 306, 314)))
    case("two types that stand twice, in turn", laid(*each(("A   ", []), ("B   ", []), ("B   ", []), ("A   ", []))),
         "410 Repeated offset 306 value 1109401632", "410 Repeated offset 314 value 1092624416")
    case("types that differ in the case of a letter", laid(*each(("Test", []), ("TEST", []), ("test", []))))
    case("a type of four zeros and one of four ones, twice", laid(*each(*[(b"\0" * 4, []), (b"\xFF" * 4, [])] * 2)),
         "410 Repeated offset 306 value 0", "410 Repeated offset 314 value 4294967295")
    case("an id that stands four times", laid(*each(("A   ", [reference(-32768)] * 4)), held(b"")),
         *("410 Repeated offset %d value 32768" % place for place in (310, 322, 334)))
    case("ids in turn", laid(*each(("A   ", [reference(k) for k in (0, 1, -1, 1, 0, -1)])), held(b"")),
         "410 Repeated offset 334 value 1", "410 Repeated offset 346 value 0", "410 Repeated offset 358 value 65535")
    case("a type that stands again with the ids of the first", laid(*each(("A   ", [reference(1), reference(2)]), ("A   ", [reference(1), reference(1)])),
                                                                    held(b"")),
         "410 Repeated offset 298 value 1092624416", "410 Repeated offset 342 value 1")


def counted(first, last, behind):
    """Entries of which each begins with a number, of as many bytes as the last one fills, and ends with the same bytes."""
    size = len(last) // 2
    return b"".join(number(k, size) + behind for k in range(int(first, 16), int(last, 16) + 1))


def spelled(data, first, last, behind):
    """The pieces of a content in which such entries stand once, spelled as one."""
    entries = counted(first, last, behind)
    at = data.index(entries)
    rows = lambda part: [part[k:k + 32].hex().upper() for k in range(0, len(part), 32)]
    zeros = data[16:256] == bytes(240)
    head = rows(data[:16]) + ["00*240"] * zeros + rows(data[256 if zeros else 16:at])
    return head + ["%s..%s:%s" % (first, last, behind.hex().upper())] + rows(data[at + len(entries):])


def large(name, data, first, last, behind, *lines):
    """A case of a fork with such entries."""
    text = text_of(breaks(data))
    assert text == "".join(line + "\n" for line in lines) + "broken %d\n" % len(lines), (name, text[:300])
    BOOK.case(name, "det f", [("f", spelled(data, first, last, behind))], out=text)


@BOOK.part("8,192 types and one more; their codes are numbers that count up, and none has references.")
def limits():
    none = b"\xFF\xFF\0\0"

    def types(count, *others):
        """Types whose codes count up from 0, and others behind them, whose lists stand at the beginning of the type list."""
        codes = [*range(count), *others]
        return laid([(number(code, 4), 0, -(2 + 8 * len(codes))) for code in codes], b"")

    large("8,192 types", types(8192), "00000000", "00001FFF", none)
    large("8,193 types", types(8193), "00000000", "00002000", none, "406 TypesOutside offset 288 value 8193")
    large("8,192 types, the last like the second",
          types(8191, 1), "00000000", "00001FFE", none, "410 Repeated offset %d value 1" % (290 + 8 * 8191))
    BOOK.say("16,384 references, and more. From where they pass that number on each type's list is broken, also one of none.")
    plain = reference(0)[2:]

    def references(before, behind, count=16384, *last):
        """A type of so many references, whose ids count up from 0, between others, each with its ids. The lists of the others
        stand first, since the places of lists have 16 bits."""
        types, lists = [], b"".join(reference(k) for _, idents in before + behind for k in idents)
        for name, idents in before + behind:
            types.append((name, len(idents), 12 * sum(count for _, count, _ in types)))
        types.insert(len(before), ("Many", count + len(last), len(lists)))
        return laid(types, lists + b"".join(reference(k) for k in [*range(count), *last]), held(b""))

    span = ("0000", "3FFF", plain)
    one, two, nil = ("One ", [7]), ("Two ", [1, 1]), ("None", [])
    # The map is at 260 and its type list at 288; the lists stand behind the types.
    large("16,384 references", references([], []), *span)
    large("16,384 references, and types of none", references([nil], [("Nil ", [])]), *span)
    large("16,384 references and one more", references([], [one]), *span, "407 ReferencesOutside offset 306 value 1")
    large("one reference and 16,384 more", references([one], []), *span, "407 ReferencesOutside offset 318 value 16384")
    large("16,384 references, one more, and types behind", references([nil], [one, nil, two]), *span,
          *("407 ReferencesOutside offset %d value %d" % place for place in ((330, 1), (342, 0), (342, 2))), "410 Repeated offset 314 value 1315925605")
    large("16,384 references, the last with an id that stands there", references([], [], 16383, 5), "0000", "3FFE", plain,
          "410 Repeated offset %d value 5" % (298 + 12 * 16383))
    BOOK.say("References of a list that is broken count too.")
    far = laid([("Far ", 16000, 60000), ("Some", 384, 0), ("One ", 1, 0), ("None", 0, 0)], b"".join(reference(k) for k in range(384)), held(b""))
    large("16,000 references outside, 384 within, and one more", far, "0000", "017F", plain,
          "407 ReferencesOutside offset 60322 value 16000", "407 ReferencesOutside offset 322 value 1", "407 ReferencesOutside offset 322 value 0")
    far = laid([("Far ", 65535, 0), ("Some", 3, 0), ("None", 0, 0)], b"".join(reference(k) for k in range(3)), held(b""))
    case("65,535 references outside, and others", far, *("407 ReferencesOutside offset 314 value %d" % count for count in (65535, 3, 0)))


@BOOK.part("A hundred faults, each rule in the order of the map, and one list in the midst that is broken.")
def hundred():
    types = [("T%03d" % (k % 7), [reference(j % 3, 40 + k, 30 * j) for j in range(4 + k % 3)]) for k in range(10)]
    data = put(laid(*each(*types), held(b"\1\2"), named(b"name")), (262 + 28 + 2 + 8 * 4 + 6, "FF00"))
    assert len(breaks(data)) == 100, len(breaks(data))
    case("a hundred faults", data)


@BOOK.part("The forks of files of each form: offsets are those of the fork. No data file is read.")
def files():
    broken = put(ONE, (256, "00000003"), (302, "0000"))
    lines = ["408 DataOutside offset 256 value 3", "409 NameOutside offset 312 value 0"]
    file = File(name=b"App", kind=b"APPL", creator=b"Samp", data=b"its data fork", res=broken)
    for form in ("double", "single", "macbin", "hqx"):
        case("in %s" % form, broken, *lines, file=written(form, file))
        case("in %s, which is named" % form, broken, *lines, words="det f -from %s" % form, file=written(form, file))
        case("in %s without a fork" % form, b"", file=written(form, file.but(res=b"")))
    case("raw, which is named", broken, *lines, words="det f -from raw")
    case("the form before the file", broken, *lines, words="det -from raw f")
    case("of several forms the last counts", broken, *lines, words="det -from hqx f -from raw -from macbin", file=macbin(file))
    case("MacBinary as a raw fork", macbin(file), words="det f -from raw", file=macbin(file))
    case("AppleDouble as a raw fork", double(file), words="det f -from raw", file=double(file))
    case("a text as a raw fork", b"data 'Test' (128) { };\n", words="det f -from raw")
    BOOK.case("a data file beside AppleDouble is left alone", "det ._f", [("._f", double(file)), ("f", "text\n")],
              out=text_of(breaks(broken)))
    BOOK.say("What can't be told.")

    def refused(name, words, says, data=None):
        BOOK.case(name, words, [] if data is None else [("f", data)], status=2, err="rezkit: error %s\n" % says)

    refused("no file", "det f", '101 MissingFile: "f"')
    refused("no file, whose form is named", "det f -from hqx", '101 MissingFile: "f"')
    refused("a text", "det f", "441 NoStart: 0", "data 'Test' (128) { };\n")
    refused("a fork that is named as AppleDouble", "det f -from double", "422 BadMagic: 256", ONE)
    refused("a fork that is named as AppleSingle", "det f -from single", "422 BadMagic: 256", ONE)
    refused("AppleDouble that is named as AppleSingle", "det f -from single", "422 BadMagic: 333319", double(file))
    refused("a fork that is named as MacBinary", "det f -from macbin", "422 BadMagic: 0", ONE)
    refused("a fork that is named as BinHex", "det f -from hqx", "441 NoStart: 0", ONE)
    refused("AppleDouble that ends in its header", "det f", "421 ShortHeader: 25", double(file)[:25])
    refused("AppleDouble whose fork ends after it", "det f", "423 EntryOutside: 2", double(file)[:-1])
    refused("AppleSingle whose fork ends after it", "det f", "423 EntryOutside: 2", single(file)[:-1])
    refused("MacBinary whose fork ends after it", "det f", "426 Truncated: 312", macbin(file)[:-128])
    refused("MacBinary with another letter of its name", "det f", "424 BadCrc: 0 %d %d" % crcs(put(macbin(file), (2, "61"))), put(macbin(file), (2, "61")))
    refused("BinHex without its last colon", "det f", "443 NoEnd: %d" % len(hqx(file).rstrip(b":\n")), hqx(file).rstrip(b":\n"))


def crcs(data):
    """The stored and the computed CRC of a MacBinary file."""
    try:
        read_form("macbin", data)
    except Refused as refused:
        return refused.args[2:]
    raise AssertionError("the CRC is right")


class Sequence:
    """Numbers that look like chance and are always the same: those of a linear congruence, the high bits of each."""

    def __init__(self, seed):
        self.state = seed

    def below(self, count):
        self.state = (self.state * 6364136223846793005 + 1442695040888963407) % (1 << 64)
        return (self.state >> 33) % count

    def some(self, *choices):
        return choices[self.below(len(choices))]

    def bytes(self, count):
        return bytes(self.below(256) for _ in range(count))


class Changes:
    """Small forks, and what is changed in them."""

    def __init__(self, seed):
        self.by = Sequence(seed)

    def fork(self):
        """A fork of up to four types, which may share bytes and names."""
        by = self.by
        contents = [by.bytes(by.below(5)) for _ in range(1 + by.below(3))]
        names = [b"name"[:by.below(5)] for _ in range(by.below(3))]
        starts = [sum(4 + len(content) for content in contents[:k]) for k in range(len(contents))]
        called = [sum(1 + len(name) for name in names[:k]) for k in range(len(names))] + [ABSENT]
        groups = [(code, [reference(first + j, by.some(*starts), by.some(*called), by.some(0, 0, 32)) for j in range(by.below(4))])
                  for code, first in (("A   ", 0), ("B   ", 128), ("C   ", -2), ("D   ", -32768))[:1 + by.below(4)]]
        return laid(*each(*groups), held(*contents), b"".join(number(len(name), 1) + name for name in names), parts=by.some("dm", "dm", "dm", "md", "dxmx"))

    def places(self, data):
        """The places and lengths of the fields of a fork, some of them more than once."""
        the_map = number_at(data, 4, 4)
        types = the_map + number_at(data, the_map + 24, 2)
        fields = [(0, 4), (4, 4), (8, 4), (12, 4), (the_map + 24, 2), (the_map + 26, 2), (the_map + 26, 2), (types, 2)]
        for entry, references in type_places(data):
            fields += [(entry, 4), (entry + 4, 2), (entry + 6, 2)] * 2
            for one in references:
                content = number_at(data, 0, 4) + number_at(data, one + 5, 3)
                fields += [(one, 2), (one, 2), (one + 2, 2), (one + 5, 3), (content, 4)]
        return fields

    def field(self, data, place, size):
        """The fork with another value of a field: one near it, a small one, a large one, or that of a like field."""
        by, old = self.by, int.from_bytes(data[place:place + size], "big")
        like = [int.from_bytes(data[at:at + size], "big") for at in (place - 12, place - 8, place + 8, place + 12) if at >= 0]
        new = by.some(old + 1, old - 1, old + 8, old + 12, old + 1 + by.below(64), 0, 1, -1, len(data), by.below(256), *[by.some(*like)] * 5)
        return data[:place] + number(new, size) + data[place + size:]

    def changed(self, kind):
        """A fork with a change of a kind."""
        by, data = self.by, self.fork()
        if kind == "one field":
            return self.field(data, *by.some(*self.places(data)))
        if kind == "two fields" or kind == "four fields":
            places = self.places(data)
            for _ in range(2 if kind == "two fields" else 4):
                data = self.field(data, *by.some(*places))
            return data
        if kind == "bytes taken out":
            place = by.some(16, 256, 260, 280, 300) + by.below(30)
            return data[:place] + data[place + 1 + by.below(12):]
        if kind == "bytes put in":
            place = by.some(16, 256, 260, 280, 300) + by.below(30)
            return data[:place] + by.bytes(1 + by.below(12)) + data[place:]
        if kind == "cut, and a field":
            return self.field(data[:len(data) - 1 - by.below(20)], *by.some((0, 4), (4, 4), (8, 4), (12, 4)))
        assert kind == "some bytes"
        for _ in range(6):
            place = 256 + by.below(len(data) - 256)
            data = data[:place] + by.bytes(1) + data[place + 1:]
        return data


# How many forks there are of each kind of change.
KINDS = [("one field", 50), ("two fields", 45), ("four fields", 45), ("some bytes", 20), ("bytes taken out", 14), ("bytes put in", 14),
         ("cut, and a field", 12)]


@BOOK.part("200 forks with changes by chance; of each kind at most every second breaks one rule alone, and every tenth "
           "none.")
def mutated():
    changes, seen = Changes(18), set()
    for kind, count in KINDS:
        for made in range(count):
            least = 0 if made % 10 == 0 else 1 + made % 2
            data = changes.changed(kind)
            while data in seen or len(breaks(data)) < least:
                data = changes.changed(kind)
            seen.add(data)
            case("the fork %d: %s" % (len(seen), kind), data)
