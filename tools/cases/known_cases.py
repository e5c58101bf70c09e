"""Writes known.cases: what `derez` shows of types with labels whose places are known without solving."""
from label_book import FUNCTIONS, KINDS, Shown
from model.label_types import (Align, Array, Fill, Label, at, bits_at, byte, byte_at, field_bits, longint, number,
                               rows_of, text)
from model.labels import width_of

KNOWN = Shown("known.cases", "known_cases.py", "What derez shows of types with labels whose places are known.")
LAST = text("pstring")


@KNOWN.part("A label a few fields behind the number that names it: at its last place, and one field too far.")
def near():
    for name, field, values in KINDS:
        if isinstance(field, Array) and field.count is None and not field.name:
            continue
        counted = [byte(rows_of(field.name))] if isinstance(field, Array) and field.name else []
        is_open = getattr(field, "form", None) == "string" and field.size is None
        fixed = width_of(field) is not None or isinstance(field, Align)
        body = counted + [field_bits(3), byte(at("e") & 127), Fill("bit", 2), field, Label("e"), Align("byte"), LAST]
        KNOWN.shows("a place that can't be undone over %s" % name, body, "r" if fixed else "d", [5] + values + [b"end"])
        body = counted + [field_bits(3), byte(at("e") & 127), Align("long"), field_bits(2), Label("e"), field, Align("byte"),
            LAST]
        KNOWN.shows("a place that can't be undone before %s" % name, body, "d" if is_open else "r", [5, 1] + values + [b"end"])
    for name, field, values in KINDS:
        if isinstance(field, Align) or (width_of(field) is not None and width_of(field) > 0):
            body = [longint(at("e") / 16 + at("e") % 16), field, field, Align("byte"), field, Label("e"), byte()]
            KNOWN.shows("a place in words over %s three times" % name, body, "r", values * 3 + [9])


@KNOWN.part("What is known needs not solve: a number that can't be undone exactly is right if its value is.")
def far():
    case = KNOWN.shows
    KNOWN.table(r"""
        a place in words that is near @ byte = e / 16; byte; e: byte; => r 01 07 08 | d 02 07 08 | d 01 07
        a place in words that is far @ byte = e / 16; cstring; e: byte; => r 01 00 08 | d 01 "a" 00 08
        a near place over 31 bits @ longint = e << 26; byte; e: => r A0000000 07 | d 20000000 07
        a near place over 32 bits @ longint = e << 27; byte; e: => r 40000000 07 | d 00000000 07
        a near place times 0 @ byte = e * 0; byte; e: => r 00 07 | d 01 07
        a near place twice @ byte = e + e; e: byte; => r 10 07 | d 08 07
        two near places @ byte = e * f / 8; e: byte; f: => r 10 07 | d 11 07
        a near place and one that is solved @ byte = e + f; e: cstring; f: byte; => r 18 00 07 | r 20 "a" 00 07 | d 18 "a" 00 07 | d 21 "a" 00 07
        a near place that is negative @ byte = -e; byte; e: => r F0 07 | d 10 07
        a near place out of range @ bitstring[4] = e * 2; byte; e: => d 80 70 | d 00 70
        a near place out of range of a number with a sign @ byte = e * 16; e: => r 80 | d 00
        a near place in a boolean @ boolean = e > 6; bitstring[6]; e: bitstring[1]; => r 83 | d 03
        a near place by a zero divisor @ byte = e / 0; e: => d 00 | d 08
        a near place to the left by 32 @ byte = e << 32; e: => d 00 | d 08
        places before, in front and behind @ byte = a; a: byte = a + b; b: byte = a - b; => r 08 18 F8 | d 08 18 08 | d 10 18 F8
        a near place in a point @ point = {e, e - 1}; e: byte; => r 0020 001F 07 | d 0020 0020 07 | d 0021 001F 07
        a near place of the end of its own point @ byte; point = {e, e}; e: => r 07 0028 0028 | d 07 0028 0020
        a near place in rows, of the fields around @ byte; array[2] { byte = e; byte; }; e: => d 07 28 01 28 02
        a near place in a case, of the fields around @ switch { case A: key byte = 1; byte = e & 255; }; e: => d 01 10
        a near place in a case @ switch { case A: key byte = 1; byte = e & 255; byte; e: }; byte; => r 01 18 07 08 | d 01 10 07 08
        a near place of a case's key @ switch { case A: byte = e & 255; key byte = 1; e: byte; }; => r 10 01 07 | d 18 01 07
        a near place with the id @ byte = e + $$ID; byte; e: => r 11 07 | d 11 07
        labels alone @ a: b: => r | d 00
        a label of which nothing is asked, behind a string up to the end @ string; e: => r | r 616263
        labels between all fields @ a: byte; b: cstring; c: d: align word; f: string; g: => r 01 00 | r 01 "ab" 00 "c" | d 01 02
    """)
    for start in range(8):
        for unit in ("nibble", "byte", "word", "long"):
            case("a near place over an align to a %s from bit %d on" % (unit, start),
                [field_bits(start) if start else Fill("bit", 0), byte(at("e") & 255), Align(unit), Label("e"), Align("byte"),
                    byte()], "r", ([0] if start else []) + [7])


@KNOWN.part("Numbers that read bits before them.")
def functions():
    case = KNOWN.shows
    for width in (1, 2, 7, 8, 9, 16, 31, 32):
        body = [Label("a"), field_bits(width), longint(bits_at("a", number(0), number(width))), Align("byte")]
        case("a number of %d bits read" % width, body, "rrr", [0], [2 ** width - 1], [2 ** width // 2])
        body = [byte(), Label("a"), field_bits(width), longint(bits_at("a", number(-3), number(width))), Align("byte")]
        case("a number of %d bits read from before its label" % width, body, "rrr", [5, 0], [7, 2 ** width - 1],
            [250, 2 ** width // 2])
    for width in (0, 33, -1, 64):
        case("a number of %d bits can't be read" % width, "a: longint; integer; longint = $$BitField(a, 0, %d);"
             % width, "dd", "00000000 0000 00000000", "FFFFFFFF FFFF FFFFFFFF")
    far_off = ((2147483647, "d"), (-2147483647, "d"))
    for start, mark in ((-9, "d"), (-8, "r"), (-1, "r"), (0, "r"), (1, "r"), (8, "r"), (9, "d"), (16, "d")) + far_off:
        case("a byte read at %d of 16 bits before" % start,
             "byte = 5; a: byte = 3; byte = 10; byte = $$BitField(a, %d, 8);" % start, mark, [])
    KNOWN.table(r"""
        a byte read over the own place @ byte; a: byte = $$BitField(a, -4, 8); => d 00 00 | d 12 20
        a byte read at the own place @ a: byte = $$Byte(a); => d 00 | d 07
        a byte read right before @ a: byte; byte = $$Byte(a); => r 07 07 | r 80 80 | d 07 08
        a long read with its sign @ a: longint; byte = $$Long(a); => r FFFFFFFF FF | r 00000007 07 | d 00000107 07 | d FFFFFF00 00
        31 bits read without a sign @ a: longint; longint = $$BitField(a, 1, 31); => r FFFFFFFF 7FFFFFFF | d FFFFFFFF FFFFFFFF
        bits before the resource @ a: byte; byte = $$BitField(a, -1, 1); => d 00 00
        bits by a start that is read @ a: byte; byte = $$BitField(a, $$Byte(a), 4); => r 04 04 | r 00 00 | d 05 0A | d 20 00 | d FF 00
        bits by a width that is read @ a: byte; byte = $$BitField(a, 0, $$Byte(a)); => r 08 08 | r 02 00 | d 09 00 | d 00 00 | d 22 00
        bits at a label behind the number @ byte = $$Byte(e); e: byte; => d 07 07
        bits at a label behind the number, from before it @ byte; byte = $$BitField(e, -16, 8); e: => d 07 07 | d 00 00
        bits at a solved label behind the number @ byte; byte = e / 8; cstring; byte = $$BitField(e, s - e, 8); e: s: => d 00 04 00 00
        bits at a label of the fields around, in rows @ a: byte; array { byte = $$Byte(a); byte; }; => r 07 | r 07 07 01 | r 07 07 01 07 02 | d 07 07 01 08 02
        bits of the row before, in rows @ a: byte = 3; array { byte; byte = $$BitField(a, 8, 8); }; => r 03 | r 03 05 05 | r 03 05 05 06 05 | d 03 05 05 06 06 | d 03 05 06
        bits of a case's number @ switch { case A: a: key byte = 1; byte; byte = $$Word(a) - 256; }; => r 01 07 07 | d 01 07 08
        bits of a key @ switch { case A: a: key byte = 1; byte = $$Byte(a); case B: key byte = 2; }; => r 01 01 | r 02 | d 01 02
        a sum of two bytes @ a: byte; b: byte; byte = $$Byte(a) + $$Byte(b); => r 05 06 0B | r 7F 80 FF | d 80 80 00 | d 05 06 0C
        a checksum in a point @ a: integer; b: integer; point = {$$Word(a) ^ $$Word(b), $$Word(a) & $$Word(b)}; => r 0F0F 00FF 0FF0 000F | d 0F0F 00FF 0FF0 00FF
        bits of strings @ a: string[2]; b: pstring; byte = $$Byte(a); byte = $$Byte(b); => r "xy" 02 "ab" 78 02 | r 0000 00 00 00 | d "xy" 02 "ab" 79 02 | d "xy" 02 "ab" 78 01
        bits of a number that is solved @ n: byte = (e - s) / 8; s: string; e: byte = $$Byte(n); => r 02 "ab" 02 | r 00 00 | d 02 "ab" 01
        bits of a near number @ n: byte = s; s: byte = $$Byte(n) + 1; => r 08 09 | d 08 08 | d 09 0A
    """)


@KNOWN.part("Sizes that read bits or name places.")
def sizes():
    case = KNOWN.shows
    for form in ("string", "pstring", "wstring", "cstring"):
        for which, function in FUNCTIONS:
            width = {"a byte": 8, "a word": 16, "a long": 32}.get(which) or int(which.split()[0])
            size = 3 if width > 1 else 1
            case("a %s with a size of %s" % (form, which),
                [Label("n"), field_bits(width), Align("byte"), text(form, function("n")), byte()], "rr",
                [size, b"ab"[:size - (form == "cstring")], 9], [1, b"", 9])
        body = [Label("n"), byte(), text(form, byte_at("n"))]
        least = "d" if form == "cstring" else "r"
        head = {"pstring": "00", "wstring": "0000"}.get(form, "")
        case("a %s with a size of 0 that is read" % form, body, least, "00 " + head)
        case("a %s with a size that is cut" % form, body, "dd", "02 " + head, "02 " + head + " 00")
        case("a %s with a size below none" % form, [Label("n"), byte(), text(form, byte_at("n") - 4)], "dd", "03 " + head,
            "00 " + head)
        case("a %s with a size by a place behind" % form, [byte(), text(form, at("e") / 8), Label("e")], "d",
            "02 " + head + " 00")
        case("a %s with a size by its own place" % form, [byte(), Label("s"), text(form, at("s") / 8)], "r",
            "02 " + head + " 00")
        case("a %s with a size by a late number" % form,
            [Label("n"), byte(at("e") / 8), text("cstring"), Label("e"), text(form, byte_at("n"))], "d",
            "02 00 " + head + " 0000")
        case("a %s with a size by itself" % form, [Label("n"), text(form, byte_at("n"))], "dd", "00", "01 00")
        case("a fixed %s with a size that is read" % form, [Label("n"), byte(), text(form, byte_at("n"), b"abc"), byte()],
            "rrd", [3, 9], [5, 9], "03 " + {"pstring": "03", "wstring": "0003"}.get(form, "") + ' "abd" 09')
    KNOWN.table(r"""
        a size of a pstring that is too large @ n: integer; pstring[$$Word(n)]; => r 00FF 00 00*255 | d 0100 00 00*256
        a string with a zero at its end, by a size that is read @ n: byte; string[$$Byte(n)]; => r 03 "ab" 00 | r 03 000000 | r 03 00 "a" 00
        a cstring with a zero in it, by a size that is read @ n: byte; cstring[$$Byte(n)]; => r 03 "ab" 00 | d 04 "a" 00 "b" 00 | d 03 "abc"
        a pstring longer than its size @ n: byte; pstring[$$Byte(n)]; => r 03 02 "ab" 00 | d 03 04 "abc" | d 03 02 "abc"
        a size by a near place behind it @ byte; string[2] = $$Format("%d", e); e: => d 07 "24"
        a size by a place behind a string of one size @ string[e / 8]; byte; e: => d 07
        a size by a solved place @ byte = e / 8; cstring; string[e / 8 - 3]; byte; e: => d 04 00 61 07 | d 03 00 07
        a size by rows that were counted @ byte = $$CountOf(a); array a { byte; }; p: string[p / 8]; => r 02 07 08 616263 | d 02 07 08 6162
        a byte for padding where the length is odd @ s: pstring; e: string[(e - s) / 8 % 2]; byte; => r 02 "ab" 00 07 | r 01 "a" 07 | d 02 "ab" 07 | d 01 "a" 00 07
        a size by a number with symbols @ n: hex byte; string[$$Byte(n)]; => r 0A 00*10 | r 01 61
        a size in rows by a number before them @ n: byte; array { string[$$Byte(n)]; byte; }; => r 02 "ab" 01 "c" 00 02 | r 00 01 02 03 | d 02 "ab" 01 "c"
        a size in rows by a late number before them @ n: byte = e / 8; cstring; e: array { byte; string[$$Byte(n)]; }; => r 02 00 | d 02 00 07 0000
        a format with a place @ byte; a: pstring = "<" $$Format("%d", a) ">"; => r 07 03 "<8>" | d 07 03 "<9>" | d 07 02 "<8"
        a format with bits @ a: byte; cstring = $$Format("%x", $$Byte(a)); => r AB "ab" 00 | r 01 "1" 00 | d AB "AB" 00
        a format with rows behind it @ pstring = $$Format("%d", $$CountOf(a)); array a { byte; }; => d 01 "1" 07
        a format with rows before it @ byte = $$CountOf(a); array a { byte; }; pstring = $$Format("%d", $$CountOf(a)); => r 01 07 01 "1" | r 00 01 "0" | d 01 07 01 "0"
        a format with a place behind it @ pstring = $$Format("%d", e); e: => d 02 "24"
        a format with late bits @ n: byte = e / 8; cstring; e: pstring = $$Format("%d", $$Byte(n)); => d 02 00 01 "2"
        a bad format with a place @ a: pstring = $$Format("%d%d", a); => d 01 "0"
    """)


KNOWN.lines_of("Late numbers: they are looked at when all else is known.", r"""
a number that reads a near late one @ n: byte = e; byte = $$Byte(n); e: => r 10 10 | d 10 11 | d 11 11
a number that reads a late one that is solved @ n: byte = (e - s) / 8; s: byte = $$Byte(n) * 2; string; e: => r 03 06 "ab" | d 03 05 "ab"
a number that reads a late one, and a string @ n: byte = e / 8; byte = $$Byte(n) * 2; string; e: pstring; => r 04 08 "ab" 00 | r 02 04 00 | d 04 07 "ab" 00 | d 03 08 "ab" 00
a place over a number that reads late bits @ n: byte = e & 63; byte = f - $$Byte(n); e: cstring; f: => r 10 08 00 | r 10 10 "a" 00 | d 10 08 "a" 00
late numbers in rows @ byte = e / 8; array { byte = e; byte; }; e: pstring; => r 01 00 | r 03 18 07 00 | r 05 28 07 28 08 00 | d 05 28 07 20 08 00
late numbers in rows that read the row before @ a: byte = e / 8; array { byte = $$BitField(a, 0, 8) + e; byte; }; e: pstring; => r 03 1B 07 00 | r 05 2D 07 2D 08 00 | d 05 2D 07 2C 08 00
late numbers in cases in rows @ byte = e / 8; array { switch { case A: key byte = 1; byte = e; case B: key byte = 2; integer = e; }; }; e: pstring; => r 06 01 30 02 0030 00 | r 01 00 | d 06 01 30 02 0031 00 | d 06 02 0030 01 31 00
a late number that is out of range in the resource @ byte = e / 8; cstring; e: bitstring[4] = e; bitstring[4]; => d 02 00 01 | d 02 00 F1
a late number over a number of rows @ byte = $$CountOf(a); byte = e + $$CountOf(a); array a { byte; }; e: byte = 9; => r 02 22 05 06 09 | r 00 10 09 | d 02 21 05 06 09
bits over an early and a late number @ a: byte = 5; byte = e; e: integer = $$Word(a); => r 05 10 0510 | d 05 10 0511
a late point @ point = {e, e / 8}; cstring; e: => r 0028 0005 00 | r 0030 0006 6100 | d 0028 0006 00
a size behind rows that reads none of the late bits @ n: byte = 1; array[1] { byte; }; byte = e & 255; e: string[$$Byte(n)]; => r 01 07 18 61 | d 01 07 18 6162
a size behind rows that reads a late number in them @ byte = e / 8; a: array { byte = e; byte; }; e: string[$$BitField(a, 0, 8) - 23]; pstring; => d 03 18 07 "a" 00
a number behind rows that reads a late number in them @ byte = e / 8; a: array { byte = e; byte; }; e: byte = $$BitField(a, 0, 8) + f; f: pstring; => r 03 18 07 38 00 | d 03 18 07 39 00
a size behind a case that reads a late number in it @ a: switch { case A: byte = e; key byte = 1; e: }; string[$$BitField(a, 0, 8) - 15]; pstring; => d 10 01 "a" 00
a size in rows that reads a late number in the first row @ byte = e / 8; a: array { byte = e; string[$$BitField(a, 0, 8) - 55]; byte; }; e: pstring; => d 07 38 "a" 07 38 "a" 07 00
a format behind rows that reads a late number in them @ byte = e / 8; a: array { byte = e; byte; }; e: pstring = $$Format("%d", $$BitField(a, 0, 8)); => d 03 18 07 02 "24"
a size that reads a number that reads late bits @ n: byte = e & 255; m: byte = $$Byte(n) - 15; e: string[$$Byte(m)]; => d 10 01 61
""")
