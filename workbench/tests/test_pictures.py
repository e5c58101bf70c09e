"""Pictures of QuickDraw: the frame, each opcode that sets something, modes, patterns, text, and what is counted."""
import pytest
from picture_builder import (NUMBERS, back, bitmap, color, extended, fore, op, picture, pixmap, polygon, region, rows_of, table,
                             words)
from rezkit_workbench import pictures
from rezkit_workbench.errors import Damaged, TooLarge

FOUR = (0, 0, 4, 4)
FULL = words(*FOUR)
WHITE = ["...."] * 4
DOT = op("paintRect", words(1, 1, 2, 2))
DOTTED = ["....", ".X..", "....", "...."]


def decoded(*ops, frame=FOUR, **more):
    return pictures.decode(picture(*ops, frame=frame, **more), None)


def drawn(*ops, more=None, **rest):
    shown = decoded(*ops, **rest)
    assert shown.notes == []
    return rows_of(shown, more)


# The frame.

def test_a_picture_is_decoded_by_its_type():
    assert pictures.KINDS == {b"PICT": pictures.decode}


@pytest.mark.parametrize("version", (1, 2))
def test_the_frame_is_the_picture(version):
    assert decoded(DOT, version=version).size == (4, 4) and drawn(DOT, version=version) == DOTTED
    assert drawn(DOT, frame=(1, 1, 3, 4), version=version) == ["X..", "..."]
    assert drawn(DOT, frame=(-2, -1, 3, 3), version=version) == ["....", "....", "....", "..X.", "...."]
    assert drawn(frame=(0, 0, 1, 2), version=version) == [".."]


def test_the_header_of_extended_version_2_gives_the_size():
    source = (0, 0, 3, 5)
    shown = decoded(op("paintRect", words(2, 4, 3, 5)), frame=(0, 0, 1, 2), header=extended(source, (144, 144)))
    assert shown.size == (5, 3) and rows_of(shown) == [".....", ".....", "....X"]
    assert drawn(DOT, header=extended((0, 0, 0, 0))) == drawn(DOT, header=extended((3, 3, 1, 1))) == DOTTED
    assert drawn(DOT, header=b"") == DOTTED
    assert drawn(op("HeaderOp", extended((0, 0, 9, 9))), DOT) == DOTTED  # a second header changes nothing


@pytest.mark.parametrize("frame", ((0, 0, 0, 4), (0, 0, 4, 0), (4, 4, 0, 0), (0, 32767, 4, -32768), (0, 0, 0, 0)))
def test_a_frame_without_width_or_height_is_refused(frame):
    for version in (1, 2):
        with pytest.raises(Damaged, match="^a picture has no width or no height at byte 2$"):
            decoded(DOT, frame=frame, version=version)


@pytest.mark.parametrize("frame", ((0, 0, 32767, 32767), (-32768, -32768, 32767, 32767), (0, 0, 4097, 4096)))
def test_a_frame_of_too_many_pixels_is_refused(frame):
    with pytest.raises(TooLarge, match="pixels are more than the 16777216 that are decoded$"):
        decoded(DOT, frame=frame)
    with pytest.raises(TooLarge):
        decoded(DOT, header=extended(frame))


def test_what_is_no_picture_is_refused():
    for begin in (b"\0\x11\3\xFF", b"\x11\2", b"\x11\0", b"\0\0\0\0", b"\xFF\xFF"):
        with pytest.raises(Damaged, match="^a picture has no version 1 or 2 at byte 10$"):
            pictures.decode(words(0, 0, 0, 4, 4) + begin + bytes(100), None)


def test_the_length_in_front_means_nothing():
    whole = picture(DOT, frame=FOUR)
    for length in (0, 1, 0x7FFF, 0x8000, 0xFFFF):
        assert rows_of(pictures.decode(words(length) + whole[2:], None)) == DOTTED
    assert rows_of(pictures.decode(whole + b"more", None)) == DOTTED


# Opcodes that draw nothing.

PASSED = [("NOP", b""), ("TxFont", 2), ("SpExtra", 4), ("TxRatio", 8), ("VersionOp", b"\2"), ("PnLocHFrac", 2), ("ChExtra", 2),
          ("HiliteColor", 6), ("DefHilite", b""), ("fontName", words(6, 20) + b"\3Abc"), ("lineJustify", words(8) + bytes(8)),
          ("glyphState", words(4) + bytes(4)), ("ShortComment", 2), ("LongComment", words(100, 3) + b"abc"),
          ("LongComment", words(100, 0))]


def named(data):
    return data if isinstance(data, bytes) else b"\x30" * data


@pytest.mark.parametrize("name, data", PASSED)
@pytest.mark.parametrize("version", (1, 2))
def test_opcodes_that_change_nothing_are_passed(name, data, version):
    assert drawn(op(name, named(data)), DOT, version=version) == DOTTED


SHAPE_DATA = {0x30: 8, 0x40: 8, 0x50: 8, 0x60: 12, 0x70: polygon((0, 0), (3, 3)), 0x80: region(FOUR)}
RESERVED = [(0x17, b""), (0x18, b""), (0x19, b""), (0x1C, b"")]
RESERVED += [(number, words(3) + b"abc") for number in (0x24, 0x27, 0x2F, 0x92, 0x97, 0x9C, 0x9F, 0xA2, 0xAF)]
RESERVED += [(number, b"") for number in (0xB0, 0xCF)]
RESERVED += [(number, words(0, 5) + b"abcde") for number in (0xD0, 0xFE)]
RESERVED += [(base + number, named(data)) for base, data in SHAPE_DATA.items() for number in (5, 6, 7)]
RESERVED += [(base + number, bytes(4) if base == 0x60 else b"") for base in SHAPE_DATA for number in (13, 14, 15)]
ONLY_2 = [(number, named(length)) for number, length in ((0x0100, 2), (0x01FF, 2), (0x0200, 4), (0x0BFF, 22), (0x0C01, 24), (0x7F00, 254),
                                                         (0x7FFF, 254), (0x8000, 0), (0x80FF, 0))]
ONLY_2 += [(0x8100, words(0, 3) + b"abc"), (0x8201, words(0, 2) + b"ab"), (0x8202, words(0, 0)), (0xFFFF, words(0, 1) + b"a")]


@pytest.mark.parametrize("number, data", RESERVED + ONLY_2)
def test_opcodes_that_are_reserved_are_passed_and_counted(number, data):
    shown = decoded(op(number, data), DOT, op(number, data))
    assert rows_of(shown) == DOTTED and shown.notes == ["opcode $%04X isn't drawn: 2 times" % number]
    if number < 256:
        shown = decoded(op(number, data), DOT, version=1)
        assert rows_of(shown) == DOTTED and shown.notes == ["opcode $%04X isn't drawn: 1 time" % number]


def test_more_than_20_notes_are_left_out():
    shown = decoded(DOT, *[op(number) for number in range(0xB0, 0xB0 + 22)])
    assert rows_of(shown) == DOTTED and len(shown.notes) == 21
    assert shown.notes[19:] == ["opcode $00C3 isn't drawn: 1 time", "notes that are left out: 2"]


def test_each_opcode_of_the_table_is_known():
    known = set(pictures.OPCODES) | {NUMBERS["OpEndPic"], NUMBERS["HiliteMode"], NUMBERS["UncompressedQuickTime"]}
    assert set(NUMBERS.values()) - known == set()


# Opcodes that set something.

def test_pen_size_and_oval_size_are_heights_and_widths():
    assert drawn(op("PnSize", words(1, 2)), op("Line", words(0, 0, 0, 0))) == ["XX..", "....", "....", "...."]
    assert drawn(op("PnSize", words(2, 1)), op("Line", words(0, 0, 0, 0))) == ["X...", "X...", "....", "...."]


def test_the_clip():
    full = op("paintRect", FULL)
    assert drawn(op("Clip", region((1, 1, 3, 4))), full) == ["....", ".XXX", ".XXX", "...."]
    ring = region(FOUR, (0, 0, 4), (1, 1, 3), (3, 1, 3), (4, 0, 4))
    assert drawn(op("Clip", ring), full) == ["XXXX", "X..X", "X..X", "XXXX"]
    assert drawn(op("Clip", ring), op("Clip", region((-32767, -32767, 32767, 32767))), full) == ["XXXX"] * 4
    assert drawn(op("Clip", region((0, 0, 0, 0))), full) == WHITE
    assert drawn(op("Clip", ring), op("paintOval", FULL), op("invertRect", words(0, 0, 1, 4))) == ["X..X", "X..X", "X..X", ".XX."]


def test_the_origin_moves_what_comes_after():
    moved = op("Origin", words(1, 2))  # across, down
    assert drawn(moved, op("paintRect", words(3, 2, 4, 3))) == DOTTED
    assert drawn(moved, op("Origin", words(-1, -2)), DOT) == DOTTED
    assert drawn(moved, op("Line", words(3, 2, 3, 3))) == ["....", ".XX.", "....", "...."]
    assert drawn(moved, op("paintRgn", region((3, 2, 4, 3)))) == DOTTED
    assert drawn(moved, op("paintPoly", polygon((2, 3), (3, 3), (3, 4), (2, 4)))) == DOTTED
    assert drawn(moved, op("Clip", region((2, 1, 4, 3))), op("paintRect", words(0, 0, 9, 9))) == ["XX..", "XX..", "....", "...."]
    assert drawn(moved, op("BitsRect", bitmap(2, (0, 0, 1, 1)), words(0, 0, 1, 1), words(3, 2, 4, 3), words(0), b"\x80\0")) == DOTTED
    assert drawn(op("eraseRect", words(1, 1, 2, 2)), moved, op("paintSameRect")) == DOTTED


def test_the_two_colors():
    assert drawn(fore("r"), op("paintRect", FULL)) == ["rrrr"] * 4
    assert drawn(back("b"), op("eraseRect", FULL)) == ["bbbb"] * 4
    assert drawn(fore("r"), back("b"), op("PnPat", b"\xAA" * 8), op("paintRect", FULL)) == ["rbrb"] * 4


OLD = {30: (255, 255, 255), 33: (0, 0, 0), 69: (252, 243, 5), 137: (242, 8, 132), 205: (221, 8, 6), 273: (2, 171, 234),
       341: (0, 128, 17), 409: (0, 0, 212)}


@pytest.mark.parametrize("number", OLD)
def test_the_eight_colors_of_old(number):
    more = {OLD[number]: "1"}
    assert drawn(op("FgColor", words(0, number)), op("paintRect", FULL), more=more, version=1) == ["1111"] * 4
    assert drawn(op("BkColor", words(0, number)), op("eraseRect", FULL), more=more) == ["1111"] * 4


def test_a_color_of_old_that_does_not_exist_is_told():
    shown = decoded(op("FgColor", words(0, 1)), op("paintRect", FULL))
    assert rows_of(shown) == ["XXXX"] * 4
    assert shown.notes == ["a color of old that doesn't exist is shown as black: 1 time"]


# Patterns.

def test_patterns_begin_at_the_coordinates_0_0():
    corner = op("PnPat", b"\x80" + bytes(7))
    assert drawn(corner, op("paintRect", words(-9, -9, 20, 20)), frame=(-2, -3, 9, 9)) == [
        "............", "............", "...X.......X"] + ["............"] * 7 + ["...X.......X"]
    diagonal = op("PnPat", bytes(1 << bit for bit in range(7, -1, -1)))
    assert drawn(diagonal, op("paintRect", FULL)) == ["X...", ".X..", "..X.", "...X"]


PIXELS = pixmap(2, (0, 0, 2, 2), 8) + table("r", "g", "b", ".") + b"\0\1\2\3"


@pytest.mark.parametrize("name, verb", (("PnPixPat", "paintRect"), ("BkPixPat", "eraseRect"), ("FillPixPat", "fillRect")))
def test_pixel_patterns(name, verb):
    """They have colors of their own, whatever the two colors are."""
    ground = fore("X"), op("paintRect", FULL), fore("m"), back("y")
    assert drawn(*ground, op(name, words(1), bytes(8), PIXELS), op(verb, FULL)) == ["rgrg", "b.b."] * 2
    assert drawn(*ground, op(name, words(2), bytes(8), color("c")), op(verb, FULL)) == ["cccc"] * 4
    assert drawn(*ground, op(name, words(0), b"\xC0" * 8), op(verb, FULL)) == ["mmyy"] * 4


def test_a_pattern_that_is_wider_than_what_is_drawn():
    wide = pixmap(6, (0, 0, 1, 6), 8) + table("r", "g", "b", ".", "X") + b"\0\1\2\3\4\1"
    assert drawn(op("PnPixPat", words(1), bytes(8), wide), op("paintRect", words(0, 4, 1, 8)), op("paintRect", words(1, 1, 2, 3)),
                 op("paintRect", words(2, 0, 3, 20)), frame=(0, 0, 3, 20)) == ["....Xgrg............", ".gb.................", "rgb.Xgrgb.Xgrgb.Xgrg"]


def test_a_packed_pixel_pattern_and_an_unknown_one():
    rows = b"".join(bytes([len(row)]) + row for row in (b"\7\0\0\0\0\1\1\1\1", b"\xF9\2"))
    pattern = pixmap(8, (0, 0, 2, 8), 8) + table("r", "g", "b") + rows
    assert drawn(op("PnPixPat", words(1), bytes(8), pattern), op("paintRect", words(0, 0, 4, 8)), frame=(0, 0, 4, 9)) == [
        "rrrrgggg.", "bbbbbbbb."] * 2
    for sort in (3, 0x7FFF, 0x8000, 0xFFFF):
        shown = decoded(DOT, op("PnPixPat", words(sort), bytes(8), pattern))
        assert shown.notes == ["the picture breaks off at byte 50: a pattern is of the sort %d" % sort]


# Modes: black and white of the source on a blue ground, with red and green as the two colors.

BOOLEAN = (("copy", "rg"), ("or", "rb"), ("xor", "yb"), ("bic", "gb"),
           ("not copy", "gr"), ("not or", "br"), ("not xor", "by"), ("not bic", "bg"))
HALF = op("PnPat", b"\xAA" * 8)


@pytest.mark.parametrize("mode", range(8))
def test_boolean_modes(mode):
    expected = [BOOLEAN[mode][1] * 2] * 4
    ground = fore("b"), op("paintRect", FULL), fore("r"), back("g"), HALF
    for number in (mode, mode + 8, mode + 64):
        assert drawn(*ground, op("PnMode", words(number)), op("paintRect", FULL)) == expected
    bits = bitmap(2, FOUR), FULL, FULL, words(mode), b"\xA0\0" * 4
    assert drawn(*ground, op("BitsRect", *bits)) == expected


def rgb(*parts):
    return b"".join(bytes((part, part)) for part in parts)


# (100, 200, 50) on (200, 100, 50), with an operand.
SUMS = ((32, (255, 0, 128), (100, 100, 50)),   # all of the source's red, none of its green, half of its blue
        (33, (255, 150, 80), (255, 150, 80)),  # the sum, 255 at most, and not more than the operand
        (34, (0, 0, 0), (44, 44, 100)),        # the sum without 256
        (35, (10, 20, 30), (100, 20, 30)),     # the difference, and not less than the operand
        (36, (0, 0, 0), (100, 200, 50)),       # the source, if it isn't the color of white
        (37, (0, 0, 0), (200, 200, 50)),       # the larger
        (38, (0, 0, 0), (100, 156, 0)),        # the difference, and 256
        (39, (0, 0, 0), (100, 100, 50)))       # the smaller


@pytest.mark.parametrize("mode, operand, result", SUMS)
def test_arithmetic_modes(mode, operand, result):
    ops = (op("RGBFgCol", rgb(200, 100, 50)), op("paintRect", FULL), op("RGBFgCol", rgb(100, 200, 50)), op("OpColor", rgb(*operand)),
           op("PnMode", words(mode)), op("paintRect", FULL))
    assert drawn(*ops, more={result: "1"}) == ["1111"] * 4
    colored = ops[:3] + (op("PnPixPat", words(2), bytes(8), rgb(100, 200, 50)),) + ops[3:]
    assert drawn(*colored, more={result: "1"}) == ["1111"] * 4


def test_the_transparent_mode_leaves_the_ground_where_the_source_is_white():
    ground = fore("b"), op("paintRect", FULL), fore("r"), back("g"), HALF
    assert drawn(*ground, op("PnMode", words(36)), op("paintRect", FULL)) == ["rbrb"] * 4


@pytest.mark.parametrize("mode, row, said", (
    (50, "yb", "inverting"), (49, "rb", "or"), (16, "rg", "copying"), (0x8000, "rg", "copying"), (0xFFFF, "rg", "copying")))
def test_a_mode_that_is_not_known_is_told(mode, row, said):
    shown = decoded(fore("b"), op("paintRect", FULL), fore("r"), back("g"), HALF, op("PnMode", words(mode)), op("paintRect", FULL))
    assert rows_of(shown) == [row * 2] * 4 and shown.notes == ["the mode %d is shown as %s: 1 time" % (mode, said)]


# Text.

LETTER_A = ["XXXX..", ".XXX..", ".X.X..", "XXXXX.", "XX.XX.", "XX.XXX"]  # of the font in Pillow, on its line
NOTE = ["text is drawn in another font"]


def text(*ops, frame=(0, 0, 8, 14), notes=NOTE, **more):
    shown = decoded(*ops, frame=frame, **more)
    assert shown.notes == notes
    return rows_of(shown)


def page(*pieces, width=14, height=8, ground="."):
    """Rows of letters with others at places (across, down)."""
    rows = [[ground] * width for _ in range(height)]
    for across, down, piece in pieces:
        for number, row in enumerate(piece):
            for place, letter in enumerate(row):
                if letter != ".":
                    rows[down + number][across + place] = letter
    return ["".join(row) for row in rows]


@pytest.mark.parametrize("version", (1, 2))
def test_text_stands_on_its_point(version):
    assert text(op("LongText", words(7, 2), b"\1A"), version=version) == page((2, 1, LETTER_A))
    assert text(op("LongText", words(7, 2), b"\2AA"), version=version) == page((2, 1, LETTER_A), (8, 1, LETTER_A))
    assert text(op("LongText", words(7, 2), b"\0"), version=version, notes=[]) == page()


@pytest.mark.parametrize("version", (1, 2))
def test_text_after_other_text_lies_at_a_distance_from_its_begin(version):
    first = op("LongText", words(6, 1), b"\1A")
    assert text(first, op("DHText", b"\7\1A"), version=version) == page((1, 0, LETTER_A), (8, 0, LETTER_A))
    assert text(first, op("DVText", b"\2\1A"), version=version) == page((1, 0, LETTER_A), (1, 2, LETTER_A))
    assert text(first, op("DHDVText", b"\7\2\1A"), version=version) == page((1, 0, LETTER_A), (8, 2, LETTER_A))
    blank = op("LongText", words(6, 1), b"\1 "), op("DHText", b"\3\1 ")
    assert text(*blank, op("DHDVText", b"\4\2\1A"), version=version) == page((8, 2, LETTER_A))
    assert text(op("Origin", words(1, 1)), op("LongText", words(8, 3), b"\1A"), version=version) == page((2, 1, LETTER_A))


def test_larger_letters_have_larger_pixels():
    double = [row for letters in LETTER_A for row in ["".join(pixel * 2 for pixel in letters)] * 2]
    for size in (15, 18, 24):
        assert text(op("TxSize", words(size)), op("LongText", words(12, 1), b"\1A"), frame=(0, 0, 13, 14)) == page((1, 0, double), height=13)
    for size in (0, 1, 9, 12, 14, -5):
        assert text(op("TxSize", words(size)), op("LongText", words(6, 1), b"\1A")) == page((1, 0, LETTER_A))
    text(op("TxSize", words(32767)), op("LongText", words(6, 1), b"\1A"))


def test_bold_and_underlined_letters():
    bold = ["XXXXX..", ".XXXX..", ".XXXX..", "XXXXXX.", "XXXXXX.", "XXXXXXX"]
    assert text(op("TxFace", b"\1"), op("LongText", words(6, 1), b"\1A")) == page((1, 0, bold))
    assert text(op("TxFace", b"\4"), op("LongText", words(6, 1), b"\1A")) == page((1, 0, LETTER_A), (1, 6, ["XXXXXX"]))
    assert text(op("TxFace", b"\x7A"), op("LongText", words(6, 1), b"\1A")) == page((1, 0, LETTER_A))


def test_text_has_a_mode_and_colors_and_is_clipped():
    red = [row.replace("X", "r") for row in LETTER_A]
    letter = op("LongText", words(6, 1), b"\1A")
    ground = fore("b"), op("paintRect", words(0, 0, 8, 14)), fore("r"), back("g")
    assert text(*ground, letter) == page((1, 0, red), ground="b")
    assert text(*ground, op("TxMode", words(3)), letter) == page((1, 0, [row.replace("X", "g") for row in LETTER_A]), ground="b")
    box = ["g" * 7] * 8  # of the letters, from the first row of the font, and a pixel more at the right
    assert text(*ground, op("TxMode", words(0)), letter) == page((1, 0, box), (1, 0, red), ground="b")
    assert text(op("Clip", region((0, 0, 8, 4))), letter) == page((1, 0, [row[:3] for row in LETTER_A]))


def test_all_letters_of_the_macintosh_are_drawn_or_have_another_in_their_place():
    for first in (0, 128):
        shown = decoded(op("LongText", words(20, 0), b"\x80" + bytes(range(first, first + 128))), frame=(0, 0, 30, 800))
        assert shown.notes == NOTE and any("X" in row for row in rows_of(shown))


# What breaks off.

def test_a_picture_that_breaks_off_is_shown_as_far_as_it_goes():
    shown = decoded(DOT, op("paintRect", words(0, 0)), end=False)
    assert rows_of(shown) == DOTTED
    assert shown.notes == ["the picture breaks off at byte 56: 2 bytes are wanted and 0 are there"]
    shown = decoded(DOT, op(0x17), end=False)
    assert shown.notes == ["opcode $0017 isn't drawn: 1 time", "the picture breaks off at byte 52: 2 bytes are wanted and 0 are there"]
    with pytest.raises(Damaged, match="^2 bytes are wanted and 0 are there at byte 40$"):
        decoded(end=False)
    with pytest.raises(Damaged, match="^2 bytes are wanted and 0 are there at byte 46$"):
        decoded(op("paintRect", words(0, 0)), end=False)
    assert rows_of(decoded()) == WHITE and decoded().notes == []
