"""Writes late.cases: numbers that are computed after all others, and what reads bits."""
from label_book import Cases, FUNCTIONS, KINDS
from model.label_types import (Array, Fill, Label, at, bits_at, byte, byte_at, integer, longint, num, number, points,
                               text)

LATE = Cases("late.cases", "late_cases.py", "Numbers that are computed after all others, what reads bits, and the order of refusals.",
    "late_read.cases")


# Bits.

@LATE.part("What reads bits: widths, and where they begin and end.")
def reading():
    row = LATE.row
    eight = [Label("a"), longint(), longint(), Label("m")]
    values = [0x01234567, -1985229329]  # 89ABCDEF
    for width in (-2147483648, -1, 0, 33, 64, 2147483647):
        row("%d bits" % width, eight + [longint(bits_at("a", number(0), number(width)))], values, "213 LaterData: %d" % width)
    for width, wanted in [(1, "00000000"), (2, "00000000"), (7, "00000000"), (8, "00000001"), (9, "00000002"), (16, "00000123"),
        (31, "0091A2B3"), (32, "01234567")]:
        row("%d bits" % width, eight + [longint(bits_at("a", number(0), number(width)))], values, "01234567 89ABCDEF " + wanted)
    for start, width, wanted in [(4, 8, "00000012"), (28, 8, "00000078"), (31, 1, "00000001"), (32, 32, "89ABCDEF"),
        (63, 1, "00000001"), (1, 31, "01234567"), (33, 31, "09ABCDEF")]:
        row("%d bits from %d" % (width, start), eight + [longint(bits_at("a", number(start), number(width)))], values,
            "01234567 89ABCDEF " + wanted)
    for start, width, wanted in [(-8, 8, "000000EF"), (-1, 1, "00000001"), (-64, 32, "01234567"), (-32, 32, "89ABCDEF"),
        (-36, 8, "00000078"), (-64, 1, "00000000")]:
        row("%d bits from %d before a label" % (width, -start), eight + [longint(bits_at("m", number(start), number(width)))],
            values, "01234567 89ABCDEF " + wanted)
    for start, width, end in [(-65, 1, 0), (-65, 32, 31), (-72, 8, 0), (-2147483647, 32, -2147483551), (0, 1, 65), (0, 32, 96),
        (-31, 32, 65), (1, 8, 73), (2147483647, 32, 2147483743)]:
        row("%d bits %d behind a label, which aren't there" % (width, start),
            eight + [longint(bits_at("m", number(start), number(width)))], values, "213 LaterData: %d" % end)
    LATE.table(r"""
        bits up to the place of the number @ a: bitstring[3]; bitstring[5] = $$BitField(a, 0, 3); @ 5 => A5
        bits of which the last is the number's first @ a: bitstring[3]; bitstring[5] = $$BitField(a, 0, 4); @ 5 => 213 LaterData: 4
        a byte over bounds of bytes @ a: bitstring[4]; b: byte; bitstring[4]; byte = $$Byte(b); @ 1, 35, 4 => 1234 23
        a long of which the first bit is set @ a: longint; longint = $$Long(a); @ -2 => FFFFFFFE FFFFFFFE
        a long of which the first bit is set, in an integer @ a: longint; integer = $$Long(a); @ -2 => FFFFFFFE FFFE
        a word of which the first bit is set, in an integer @ a: integer; integer = $$Word(a); @ -2 => FFFE FFFE
        a word is never negative @ a: integer; longint = $$Word(a) + 1; @ -1 => FFFF 00010000
        a byte is never negative @ a: byte; integer = $$Byte(a) - 256; @ -1 => FF FFFF
        the start is computed @ a: byte; byte; byte; byte = $$BitField(a, $$Byte(a) * 8, 8); @ 2, 5, 6 => 020506 06
        the width is computed @ a: byte; byte; byte = $$BitField(a, 8, $$Byte(a)); @ 4, 95 => 045F 05
        start and width from places @ a: byte; b: byte; c: byte = $$BitField(a, b, c - b); @ 1, 7 => 0107 07
        the fault of the start before that of the width @ a: byte; byte = $$BitField(a, 1 / 0, 1 << 32); @ 1 => 211 ZeroDivisor
        the fault in the width @ a: byte; byte = $$BitField(a, 99, 1 << 32); @ 1 => 215 BadShift: 32
        the width before the place of the bits @ a: byte; byte = $$BitField(a, 99, 33); @ 1 => 213 LaterData: 33
        bits in the start that aren't there @ a: byte; byte = $$BitField(a, $$Long(a), 33); @ 1 => 213 LaterData: 32
        bits of zeros in a fill @ a: fill word; byte = $$Byte(a); @  => 0000 00
        bits of an align @ byte; a: align long; byte = $$Byte(a); @ 255 => FF000000 00
        bits of a point @ a: point; integer = $$BitField(a, 16, 16); @ (1, -2) => 0001 FFFE FFFE
        a number of a point reads the one before it @ a: point = {7, $$Word(a)}; @  => 0007 0007
        a number of a rectangle reads those before it @ a: rect = {7, $$Word(a) + 1, $$BitField(a, 16, 16) + 1, $$Word(a)}; @  => 0007 0008 0009 0007
        a number of a point reads itself @ a: point = {$$Word(a), 1}; @  => 213 LaterData: 16
        bits of a string @ a: string; integer = $$Word(a); @ b"AB" => "AB" 4142
        bits of the length of a string @ a: pstring; byte = $$Byte(a); @ b"ABC" => 03 "ABC" 03
        bits of rows @ a: array { byte; }; integer = $$Word(a); @ [[1], [2], [3]] => 010203 0102
        bits of rows that aren't there @ a: array { byte; }; integer = $$Word(a); @ [[1]] => 213 LaterData: 16
        bits of a key @ a: switch { case A: key byte = 7; case B: key byte = 9; }; byte = $$Byte(a); @ ("B", []) => 09 09
        a row reads the row before it @ a: array { byte; byte = $$Byte(a); }; @ [[5], [6]] => 0505 0605
        a number as it grows @ a: array r { byte; byte = $$BitField(a, $$CountOf(r) * 8 - 8, 8); }; @ [[5], [6]] => 213 LaterData: 16
    """)
    for which, function in FUNCTIONS:
        row("%s at its own place" % which, [Label("a"), longint(function("a"))], [],
            "213 LaterData: %d" % ({"a byte": 8, "a word": 16, "a long": 32}.get(which) or int(which.split()[0])))
        row("%s at the end of all" % which, [byte(), longint(function("e")), Label("e")], [1],
            "213 LaterData: %d" % (40 + ({"a byte": 8, "a word": 16, "a long": 32}.get(which) or int(which.split()[0]))))
        row("%s from zero bits" % which, [Label("a"), longint(), longint(function("a"))], [0], "00000000 00000000")
        row("%s from one bits" % which, [Label("a"), longint(), longint(function("a"))], [-1])


# Late numbers.

@LATE.part("Late numbers of each type.")
def lateness():
    row = LATE.row
    for form, fits in [("boolean", (0, 1)), ("byte", (-128, 255)), ("char", (0, 255)), ("integer", (-32768, 65535)),
        ("bitstring[1]", (-1, 1)), ("bitstring[5]", (-16, 31)),
                       ("bitstring[31]", (-2 ** 30, 2 ** 31 - 1))]:
        for value, what in [(fits[0], "least"), (fits[1], "most"), (fits[0] - 1, "one below the least"),
            (fits[1] + 1, "one above the most")]:
            if -2 ** 31 <= value < 2 ** 31:
                row("a late %s of the %s" % (form, what), [num(form, at("e") * 0 + value), byte(), Label("e")], [1],
                    None if fits[0] <= value <= fits[1] else "207 OutOfRange: %d" % value)
    for form in ("longint", "bitstring[32]"):
        for value in (-2 ** 31, -1, 2 ** 31 - 1):
            row("a late %s of %d" % (form, value), [num(form, (at("e") - at("e")) + value), Label("e")], [])
    LATE.table(r"""
        a late number of a point @ point = {e, 5}; e: @  => 0020 0005
        both numbers of a point late @ point = {e, e + 1}; e: @  => 0020 0021
        late numbers of a rectangle @ rect = {e, 1, a, 2}; a: byte; e: @ 9 => 0048 0001 0040 0002 09
        a late number of a point that is out of range @ point = {5, e << 16}; e: @  => 207 OutOfRange: 2097152
        a number of a point reads a late one before it @ a: point = {e, $$Word(a) + 1}; e: @  => 0020 0021
        // Late because bits of a late number are read.
        a late number that reads a late one @ a: byte = e; byte = $$Byte(a) + 1; e: @  => 10 11
        late numbers that read each the one before it @ a: byte = e; b: byte = $$Byte(a) + 1; c: byte = $$Byte(b) + 1; d: byte = $$Byte(c) + 1; e: @  => 20 21 22 23
        the last bit of a late number @ a: bitstring[3] = e & 7 | 1; bitstring[5] = $$BitField(a, 2, 1); byte; e: @ 255 => 21 FF
        the first bit of a late number @ bitstring[3] = 5; a: bitstring[5] = e; byte = $$BitField(a, -3, 4); e: @  => B0 0B
        bits directly before a late number @ bitstring[3] = 5; a: bitstring[5] = e; string[$$BitField(a, -3, 3)]; e: @ b"abcdef" => 207 OutOfRange: 48
        bits directly before a late number in a size @ bitstring[3] = 5; a: bitstring[5] = e & 31; string[$$BitField(a, -3, 3)]; e: @ b"abcdef" => B0 "abcde"
        bits directly behind a late number in a size @ a: bitstring[5] = e & 31; bitstring[3] = 2; string[$$BitField(a, 5, 3)]; e: @ b"abcdef" => C2 "ab"
        a bit of a late number in a size @ a: bitstring[5] = e & 31; bitstring[3] = 2; string[$$BitField(a, 4, 4)]; e: @ b"abcdef" => 214 SizeLater: 3
        a late number between two others in a size @ a: byte = 1; byte = e; byte = 2; string[$$BitField(a, 0, 24)]; e: @ b"a" => 214 SizeLater: 4
        all bits of a late number in a size @ a: byte = e; string[$$Byte(a)]; e: @ b"a" => 214 SizeLater: 2
        a number that doesn't name a label, of late bits and others @ a: byte = e; byte = 2; integer = $$Word(a); e: @  => 2002 2002
        a size of a number that is late by its bits @ a: byte = e; b: byte = $$Byte(a); string[$$Byte(b)]; e: @ b"a" => 214 SizeLater: 4
        a number that isn't late beside one that is @ a: byte = e; b: byte = 3; string[$$Byte(b)]; e: @ b"abcd" => 28 03 "abc"
        late bits that a product with 0 hides @ a: byte = e; string[$$Byte(a) * 0]; e: @ b"a" => 214 SizeLater: 2
        a label that a product with 0 hides @ string[e * 0]; e: @ b"a" => 214 SizeLater: 0
        a late number of no label @ byte = e * 0 + 7; e: @  => 07
        late bits in the start @ a: byte = e; byte = 7; byte = $$BitField(a, $$Byte(a) - 16, 8); e: @  => 18 07 07
        late bits in the width @ a: byte = e / 3; byte = 7; byte = $$BitField(a, 8, $$Byte(a)); e: @  => 08 07 07
        late bits in the start, and bits that aren't there @ a: byte = e; byte = 7; byte = $$BitField(a, $$Byte(a), 8); e: @  => 213 LaterData: 32
        late bits in the width, and a width that can't be @ a: byte = e + 16; byte = 7; byte = $$BitField(a, 8, $$Byte(a)); e: @  => 213 LaterData: 40
        a late number read at a label that stands later @ byte = $$BitField(e, -8, 8); e: @  => 213 LaterData: 8
        bits before a label that stands later @ byte; byte = $$BitField(e, -16, 8); e: @ 7 => 07 07
        bits before a label that stands later, in a size @ byte; string[$$BitField(e, -8, 8)]; e: @ 1, b"a" => 214 SizeLater: 1
        a late number reads a later one @ a: byte = $$Byte(b); b: byte = e; e: @  => 213 LaterData: 16
        places around late numbers are as wide @ integer = a; a: longint = b; b: bitstring[3] = c & 7; c: @  => 0010 00000030 60
    """)


@LATE.part("Late numbers in rows and in cases.")
def late_rows():
    row = LATE.row
    LATE.table(r"""
        a late number in each row @ array { byte; integer = e; }; e: @ [[1], [2], [3]] => 01 0048 02 0048 03 0048
        late numbers in rows of rows @ array { array { byte = e; byte; }; byte = e + 1; }; e: @ [[[[1], [2]]], [[]], [[[3]]]] => 48014802 49 49 4803 49
        late numbers in rows of rows of rows @ array a { array b { array c { byte = e + $$CountOf(c); byte; }; byte = $$CountOf(b); }; byte = e + $$CountOf(a); }; e: @ [[[[[[1], [2]]], [[]]]]] => 3A01 3A02 02 02 39
        the number of rows of its own row in a late number @ array { byte = e + $$CountOf(in); array in { byte; }; }; e: @ [[[[1], [2]]], [[]], [[[3]]]] => 32 0102 30 31 03
        the number of rows of the row around in a late number @ array { array in { byte = e + $$CountOf(in); byte; }; }; e: @ [[[[1], [2]]], [[[3]]]] => 3201 3202 3103
        late numbers in rows that read the row before @ a: array r { byte; byte = $$BitField(a, 0, 8) + e; }; e: @ [[1], [2], [3]] => 0131 0231 0331
        a late number in each row that reads a late one before the rows @ a: byte = e; array { byte; byte = $$Byte(a); }; e: @ [[1], [2], [3]] => 38 0138 0238 0338
        numbers in rows that read late ones in rows @ a: array { byte = e; byte; }; byte = $$BitField(a, 16, 8) + 1; e: @ [[1], [2], [3]] => 3801 3802 3803 39
        a size in rows that reads a late number in rows before @ a: array { byte = e; byte; }; array { string[$$Byte(a)]; }; e: @ [[1]], [[b"a"]] => 214 SizeLater: 3
        a size in rows that reads a late number in a row before it @ byte; a: array { string[$$BitField(a, -8, 8)]; byte = e; }; e: @ 0, [[b"a"], [b"b"]] => 00 18 18
        a late number in rows that is out of range in the second @ array { array in { byte; }; byte = e * $$CountOf(in); }; e: @ [[[[1]]], [[[1], [2], [3], [4], [5], [6]]]] => 207 OutOfRange: 432
        a late number in no row @ array { byte; byte = e / 0; }; e: @ [] =>
        late numbers in rows with a stated number @ array[2] { byte; byte = e; }; e: @ [[1], [2]] => 0120 0220
        a late number in a case @ switch { case A: key byte = 1; byte = e; case B: key byte = 2; integer = e; }; e: @ ("B", []) => 02 0018
        a late number in a case by its own label @ switch { case A: key byte = 1; byte = e; cstring; e: }; byte; @ ("A", [b"ab"]), 9 => 01 28 "ab" 00 09
        late numbers in cases in rows @ array { switch { case A: key byte = 1; byte = e; case B: key byte = 2; integer = e; }; }; e: @ [[("B", [])], [("A", [])]] => 02 0028 01 28
        a late number in rows of a case by labels of the case and around @ o: switch { case A: key byte = 1; s: array { byte; byte = t - s; byte = e - o; }; t: }; e: @ ("A", [[[5], [6]]]) => 01 053038 063038
        late numbers in their order over rows and behind @ a: byte = e; array { byte = $$Byte(a); byte; }; byte = $$Byte(a) + 2; e: @ [[1], [2], [3]] => 40 4001 4002 4003 42
    """)
    for count in (0, 1, 2, 7, 40):
        row("%d rows with late numbers" % count, [longint(at("e")), Array("r", None, [byte(), integer(at("e") - at("s"))]),
            Label("s"), pad(count), Label("e")], [[[k] for k in range(count)]])


def pad(count):
    return Fill("bit", count % 8)


# The order of refusals.

ZERO, SHIFT, GONE = number(1) / 0, number(1) << 32, at("e") - at("e")


@LATE.part("A late number has its faults in the second pass.")
def refusals():
    row = LATE.row
    tail = [Label("e")]
    LATE.table(r"""
        a late number with a zero divisor @ byte = e / 0; e: @  => 211 ZeroDivisor
        a late number with a remainder by zero @ byte = e % (e - e); e: @  => 211 ZeroDivisor
        a late number with a bad shift @ byte = e << 32; e: @  => 215 BadShift: 32
        a late number with a shift by a negative count @ byte = e >> -1; e: @  => 215 BadShift: -1
        a late number with a shift by a place @ byte = 1 << e; integer; bitstring[8]; e: @ 1, 2 => 215 BadShift: 32
        a late number out of range @ byte = e * 100; e: @  => 207 OutOfRange: 800
        a late number whose width can't be @ byte = $$BitField(e, 0, 33); e: @  => 213 LaterData: 33
        a late number whose bits aren't there @ byte = $$Byte(e); e: @  => 213 LaterData: 16
        the first fault of a late number, on its left @ byte = e / 0 + (1 << e + 99); e: @  => 211 ZeroDivisor
        the first fault of a late number, on its right @ byte = (1 << e + 99) + e / 0; e: @  => 215 BadShift: 107
        a fault of a number that names a label behind it comes late @ byte = 1 / 0 + e; byte = 1 << 32; e: @  => 215 BadShift: 32
        a fault before late bits comes early @ a: byte = e * 100; byte = 1 / 0 + $$Byte(a); e: @  => 211 ZeroDivisor
        a fault behind late bits comes late @ a: byte = e * 100; byte = $$Byte(a) + 1 / 0; e: @  => 207 OutOfRange: 1600
        bits that aren't there before late bits come early @ a: byte = e * 100; byte = $$Long(a) + $$Byte(a); e: @  => 213 LaterData: 32
        bits that aren't there over late bits come early @ a: byte = e * 100; byte = $$Word(a); e: @  => 213 LaterData: 16
        bits that aren't there behind late bits come late @ a: byte = e * 100; byte = $$Byte(a) + $$Long(a); e: @  => 207 OutOfRange: 1600
    """)
    faults = [("a zero divisor", at("e") / 0, ZERO, "211 ZeroDivisor"), ("a bad shift", at("e") << 40, number(1) << 40,
        "215 BadShift: 40"),
              ("bits that aren't there", byte_at("e"), bits_at("a", number(999), number(8)), None), ("a value out of range",
                  at("e") + 999, number(999), None)]
    for first, late, _, _ in faults:
        for second, other, early, _ in faults:
            row("late: %s, and then %s" % (first, second), [Label("a"), byte(late), byte(other)] + tail, [])
            row("late %s, and behind it %s at once" % (first, second), [Label("a"), byte(late), byte(early)] + tail, [])
    late = [Label("a"), byte(at("e"))]
    LATE.table(r"""
        the first late number in order, in rows and behind @ array { byte; byte = e / 0; }; byte = e << 32; e: @ [[1]] => 211 ZeroDivisor
        the first late number in order, behind no rows @ array { byte; byte = e / 0; }; byte = e << 32; e: @ [] => 215 BadShift: 32
        a late number before a string that is too long @ byte = e / 0; pstring; e: @ b"«a×256»" => 216 TextTooLong: 256
        // The order in a string with a size.
        a label behind it before a zero divisor @ a: byte = e; string[1 / 0 + e]; e: @ b"a" => 214 SizeLater: 2
        a label behind it before a bad shift @ a: byte = e; string[(1 << 32) + e]; e: @ b"a" => 214 SizeLater: 2
        a label behind it before bits that aren't there @ a: byte = e; string[$$Long(a) + e]; e: @ b"a" => 214 SizeLater: 2
        a label behind it, of which bits are read, before all @ a: byte = e; string[1 / 0 + $$Byte(e)]; e: @ b"a" => 214 SizeLater: 2
        a label behind it in the start of bits @ a: byte = e; string[1 / 0 + $$BitField(a, e, 1)]; e: @ b"a" => 214 SizeLater: 2
        a label behind it in the width of bits @ a: byte = e; string[1 / 0 + $$BitField(a, 1, e)]; e: @ b"a" => 214 SizeLater: 2
        a label behind it in a format before the size @ a: byte = e; string[1 / 0] = $$Format("%d", e); e: @  => 214 SizeLater: 2
        a label behind it in a format before a bad format @ a: byte = e; string[2] = $$Format("%d%d", e); e: @  => 214 SizeLater: 2
        a label behind it in the size before a bad format @ a: byte = e; string[e] = $$Format("%d"); e: @  => 214 SizeLater: 2
        a zero divisor before late bits @ a: byte = e; string[1 / 0 + $$Byte(a)]; e: @ b"a" => 211 ZeroDivisor
        late bits before a zero divisor @ a: byte = e; string[$$Byte(a) + 1 / 0]; e: @ b"a" => 214 SizeLater: 2
        bits that aren't there before late bits @ a: byte = e; string[$$Long(a) + $$Byte(a)]; e: @ b"a" => 213 LaterData: 32
        late bits before bits that aren't there @ a: byte = e; string[$$Byte(a) + $$Long(a)]; e: @ b"a" => 214 SizeLater: 2
        bits that aren't there over late bits @ a: byte = e; string[$$Word(a)]; e: @ b"a" => 213 LaterData: 16
        a width that can't be over late bits @ a: byte = e; string[$$BitField(a, 0, 0)]; e: @ b"a" => 213 LaterData: 0
        a bad shift before late bits @ a: byte = e; string[(1 << 32) + $$Byte(a)]; e: @ b"a" => 215 BadShift: 32
        a zero divisor in the size before late bits in a format @ a: byte = e; string[1 / 0] = $$Format("%d", $$Byte(a)); e: @  => 211 ZeroDivisor
        late bits in the size before a zero divisor in a format @ a: byte = e; string[$$Byte(a)] = $$Format("%d", 1 / 0); e: @  => 214 SizeLater: 2
        late bits in a format before a zero divisor in the next @ a: byte = e; string[2] = $$Format("%d%d", $$Byte(a), 1 / 0); e: @  => 214 SizeLater: 2
        a zero divisor in a format before late bits in the next @ a: byte = e; string[2] = $$Format("%d", 1 / 0) $$Format("%d", $$Byte(a)); e: @  => 211 ZeroDivisor
        late bits before a bad format @ a: byte = e; string[2] = $$Format("%d%d", $$Byte(a)); e: @  => 214 SizeLater: 2
        bits that aren't there before a bad format @ a: byte = e; string[2] = $$Format("%d%d", $$Long(a)); e: @  => 213 LaterData: 32
        a zero divisor behind a bad format @ a: byte = e; string[2] = $$Format("%d") $$Format("%d", 1 / 0); e: @  => 211 ZeroDivisor
        a bad format before a size out of range @ a: byte = e; string[a - 1] = $$Format("%d"); e: @  => 222 BadFormat
        a bad format before a size that is too large @ a: byte = e; pstring[a + 256] = $$Format("%d"); e: @  => 222 BadFormat
        a byte of a format out of range before a size out of range @ a: byte = e; string[a - 1] = $$Format("%c", a + 256); e: @  => 222 BadFormat
        a size out of range with a good format @ a: byte = e; string[a - 1] = $$Format("%d", a); e: @  => 207 OutOfRange: -1
        a size out of range before a value of an item that is cut @ a: byte = e; pstring[a + 256]; e: @ b"«a×300»" => 207 OutOfRange: 256
        a bad format before a string that is too long @ a: byte = e; pstring = "aaaaaaaaaaaaaaaaaaaaaaaaaaaaaaaaaaaaaaaaaaaaaaaaaaaaaaaaaaaaaaaaaaaaaaaaaaaaaaaaaaaaaaaaaaaaaaaaaaaaaaaaaaaaaaaaaaaaaaaaaaaaaaaaaaaaaaaaaaaaaaaaaaaaaaaaaaaaaaaaaaaaaaaaaaaaaaaaaaaaaaaaaaaaaaaaaaaaaaaaaaaaaaaaaaaaaaaaaaaaaaaaaaaaaaaaaaaaaaaaaaaaaaaaaaaaaaaa" $$Format("%d"); e: @  => 222 BadFormat
        a format that makes a string too long @ a: byte = e; pstring = "aaaaaaaaaaaaaaaaaaaaaaaaaaaaaaaaaaaaaaaaaaaaaaaaaaaaaaaaaaaaaaaaaaaaaaaaaaaaaaaaaaaaaaaaaaaaaaaaaaaaaaaaaaaaaaaaaaaaaaaaaaaaaaaaaaaaaaaaaaaaaaaaaaaaaaaaaaaaaaaaaaaaaaaaaaaaaaaaaaaaaaaaaaaaaaaaaaaaaaaaaaaaaaaaaaaaaaaaaaaaaaaaaaaaaaaaaaaaaaaaaaaaaaaaaaaaaaa" $$Format("%d", a); e: @  => 216 TextTooLong: 256
        a label behind it in a format before a string that is too long @ a: byte = e; pstring = "aaaaaaaaaaaaaaaaaaaaaaaaaaaaaaaaaaaaaaaaaaaaaaaaaaaaaaaaaaaaaaaaaaaaaaaaaaaaaaaaaaaaaaaaaaaaaaaaaaaaaaaaaaaaaaaaaaaaaaaaaaaaaaaaaaaaaaaaaaaaaaaaaaaaaaaaaaaaaaaaaaaaaaaaaaaaaaaaaaaaaaaaaaaaaaaaaaaaaaaaaaaaaaaaaaaaaaaaaaaaaaaaaaaaaaaaaaaaaaaaaaaaaaaaaaaaaaaa" $$Format("%d", e); e: @  => 214 SizeLater: 2
        late bits in a format of a format @ a: byte = e; pstring = $$Format("%s", $$Format("%d", $$Byte(a))); e: @  => 214 SizeLater: 2
    """)
    LATE.say("The pieces that a refusal counts.")
    for name, field, values in KINDS:
        row("the piece of a size behind %s" % name, [Label("a"), byte(at("e")), field, text("string", byte_at("a"))] + tail,
            values + [b"x"])
    for count in (0, 1, 2, 5):
        row("the piece of a size behind %d rows" % count, [Array(None, None, [byte(), points(count=2)]),
            text("string", at("e"))] + tail, [[[k, (1, 2)] for k in range(count)], b"x"],
            "214 SizeLater: %d" % (3 * count))
    LATE.table(r"""
        the piece of a size in the second row @ array { switch { case A: key byte = 1; string[e]; case B: key byte = 2; }; }; e: @ [[("B", [])], [("A", [b"x"])]] => 214 SizeLater: 2
        // Too long, before the values of late numbers.
        a late number that ends too far @ type 'Test' { fill byte[16777211]; integer = e / 0; e: };¶resource 'Test' (1) { }; => 2: 301 ResourceTooLong: 16777213
        a late number behind a fill that ends too far @ type 'Test' { longint = e / 0; fill long[4194303]; e: };¶resource 'Test' (1) { }; => 2: 301 ResourceTooLong: 16777216
        bits that end too far by one @ type 'Test' { fill byte[16777212]; bitstring[1] = e; e: };¶resource 'Test' (1) { }; => 2: 301 ResourceTooLong: 16777213
        a size that ends too far @ type 'Test' { a: longint = 16777212; string[$$Long(a)] = ""; e: };¶resource 'Test' (1) { }; => 2: 301 ResourceTooLong: 16777216
        a size that ends far too far @ type 'Test' { a: longint = 2147483647; string[$$Long(a)] = ""; e: };¶resource 'Test' (1) { }; => 2: 301 ResourceTooLong: 2147483651
        a bad format before a size that ends too far @ type 'Test' { a: longint = 2147483647; string[$$Long(a)] = $$Format("%d"); e: };¶resource 'Test' (1) { }; => 2: 222 BadFormat
        a size out of range with a late number out of range behind it @ type 'Test' { a: byte = 0; cstring[$$Byte(a)] = ""; byte = e * 999; e: };¶resource 'Test' (1) { }; => 2: 207 OutOfRange: 0
    """)
