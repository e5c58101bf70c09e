"""Icons, cursors and patterns: of each type the pixels by hand, and what is refused."""
import io
import os
import struct

import pytest
from icon_bytes import (BLACK, BLUE, CICN, CRSR, GREEN, OLD_PPAT, PPAT, RED, RGB_PPAT, TABLE, WHITE, WHOLE, bit_map, cicn, color_pattern,
                        color_table, crsr, pixel_map, ppat, ppt_list)
from helpers import TYPES, rezkit, write
from rezkit_workbench import facts, icons, pixels
from rezkit_workbench.errors import Damaged, Refused, TooLarge

Image = pytest.importorskip("PIL.Image")
# Colors by letters: of black and white, of TABLE, of the table of 16 colors and of that of 256.
LETTERS = {(255, 255, 255, 255): "W", (0, 0, 0, 255): "K", (255, 0, 0, 255): "R", (0, 128, 18, 255): "G", (0, 0, 255, 255): "B",
           (252, 243, 5, 255): "y", (255, 100, 2, 255): "o", (255, 255, 0, 255): "y"}


def nothing(kind):
    """No resource has the id."""


def decoded(kind, data, beside=nothing):
    return icons.KINDS[kind](data, beside)


def rows_of(shown):
    """The rows of a PNG, a letter for each pixel; transparent ones are dots."""
    picture = Image.open(io.BytesIO(shown.data))
    assert shown.ending == "png" and picture.format == "PNG" and picture.size == shown.size
    letters = ["." if not pixel[3] else LETTERS[pixel] for pixel in picture.convert("RGBA").getdata()]
    return ["".join(letters[at:at + picture.size[0]]) for at in range(0, len(letters), picture.size[0])]


def cells(shown, ground):
    """The pixels that aren't the ground: (from the left, from the top) and a letter, and the size."""
    rows = rows_of(shown)
    return {(left, top): letter for top, row in enumerate(rows) for left, letter in enumerate(row) if letter != ground}, shown.size


def refusal(kind, data, beside=nothing):
    with pytest.raises(Refused) as fault:
        decoded(kind, data, beside)
    return type(fault.value), str(fault.value)


SOURCE = """
resource 'cicn' (128) {
    0, 0x8002, {0, 0, 2, 4}, 0, unpacked, 0, 0x480000, 0x480000, chunky, 2, 1, 2, 0, 0, 0,
    0, 2, {0, 0, 2, 4}, 0, 2, {0, 0, 2, 4}, 0, $"7000 E000", $"F000 F000",
    0, 0, { 0, 65535, 65535, 65535; 1, 65535, 0, 0; 2, 0, 0x8000, 0x1234; 3, 0, 0, 0 }, $"1B00 F100"
};
resource 'ppat' (128) {
    newPattern, -1, $"AA55 AA55 AA55 AA55",
    0, 0x8002, {0, 0, 2, 4}, 0, unpacked, 0, 0x480000, 0x480000, chunky, 2, 1, 2, 0, 0, $"1B00 F100",
    0, 0, { 0, 65535, 65535, 65535; 1, 65535, 0, 0; 2, 0, 0x8000, 0x1234; 3, 0, 0, 0 }
};
resource 'crsr' (128) {
    newCursor, $"%s", $"8000%s", {2, 1}, 0, 0,
    0, 0x8002, {0, 0, 16, 16}, 0, unpacked, 0, 0x480000, 0x480000, chunky, 1, 1, 1, 0, 0, $"C000%s0001",
    0, 0, { 0, 65535, 65535, 65535; 1, 65535, 0, 0 }
};
""" % ("00" * 32, "00" * 30, "00" * 28)  # the same as CICN, PPAT and CRSR


# Icons of fixed sizes.

def test_an_icon_without_a_mask():
    shown = decoded(b"ICON", b"\x80\0\0\0" + b"\0\x30\0\1" + bytes(119) + b"\2")
    assert cells(shown, "W") == ({(0, 0): "K", (10, 1): "K", (11, 1): "K", (31, 1): "K", (30, 31): "K"}, (32, 32)) and shown.notes == []


@pytest.mark.parametrize("kind, width, height", ((b"ICN#", 32, 32), (b"ics#", 16, 16), (b"icm#", 16, 12)))
def test_bits_with_a_mask(kind, width, height):
    length, row = width * height // 8, width // 8
    bits = b"\xA0" + bytes(row - 1) + b"\x80" + bytes(length - row - 2) + b"\1"
    mask = b"\xC0" + bytes(row - 1) + b"\xC0" + bytes(length - row - 2) + b"\3"
    seen = {(0, 0): "K", (1, 0): "W", (0, 1): "K", (1, 1): "W", (width - 2, height - 1): "W", (width - 1, height - 1): "K"}
    shown = decoded(kind, bits + mask)
    assert cells(shown, ".") == (seen, (width, height)) and shown.notes == []
    shown = decoded(kind, bits)
    black = {(0, 0): "K", (2, 0): "K", (0, 1): "K", (width - 1, height - 1): "K"}
    assert cells(shown, "W") == (black, (width, height)) and shown.notes == ["It has no mask. All pixels are shown."]
    shown = decoded(kind, bits + mask + b"xyz")
    assert cells(shown, ".")[0] == seen and shown.notes == ["Bytes after the picture that aren't shown: 3."]


@pytest.mark.parametrize("kind, other, width, height, depth", (
    (b"icl4", b"ICN#", 32, 32, 4), (b"icl8", b"ICN#", 32, 32, 8), (b"ics4", b"ics#", 16, 16, 4), (b"ics8", b"ics#", 16, 16, 8),
    (b"icm4", b"icm#", 16, 12, 4), (b"icm8", b"icm#", 16, 12, 8)))
def test_colors_with_the_mask_of_the_icon_beside(kind, other, width, height, depth):
    length, count = width * height // 8, width * height
    first, last = (b"\x12\xF0", b"\x01") if depth == 4 else (b"\x23\xD2\xFF\0", b"\x05")
    colors = {4: "yoKW", 8: "RBKW"}[depth]
    data = first + bytes(count * depth // 8 - len(first) - 1) + last
    mask = b"\xE0" + bytes(length - 2) + b"\2"
    resources = {other: b"\xFF" * length + mask}
    shown = decoded(kind, data, resources.get)
    assert cells(shown, ".") == ({(0, 0): colors[0], (1, 0): colors[1], (2, 0): colors[2], (width - 2, height - 1): "W"}, (width, height))
    assert shown.notes == []
    for resources in ({}, {other: b"\xFF" * length}, {other: (b"\xFF" * length + mask)[:-1]}):
        shown = decoded(kind, data, resources.get)
        assert cells(shown, "W")[0] == {(0, 0): colors[0], (1, 0): colors[1], (2, 0): colors[2], (width - 1, height - 1): "y"}
        assert shown.notes == ["There is no '%s' of the same id with a mask. All pixels are shown." % other.decode()]
    assert decoded(kind, data + b"!", {other: bytes(length) + mask}.get).notes == ["Bytes after the picture that aren't shown: 1."]


def test_only_the_icon_of_the_same_family_gives_the_mask():
    asked = []
    decoded(b"ics8", bytes(256), asked.append)
    decoded(b"icl4", bytes(512), asked.append)
    decoded(b"icm8", bytes(192), asked.append)
    assert asked == [b"ics#", b"ICN#", b"icm#"]


def test_small_icons_side_by_side():
    shown = decoded(b"SICN", b"\x80\1" + bytes(30) + bytes(30) + b"\0\1" + b"\xC0" + bytes(31))
    assert cells(shown, "W") == ({(0, 0): "K", (15, 0): "K", (31, 15): "K", (32, 0): "K", (33, 0): "K"}, (48, 16)) and shown.notes == []
    shown = decoded(b"SICN", bytes(32) + b"\xFF" * 31)
    assert cells(shown, "W") == ({}, (16, 16)) and shown.notes == ["Bytes after the last icon that aren't shown: 31."]
    assert decoded(b"SICN", bytes(32 * 4096)).size == (65536, 16)
    assert refusal(b"SICN", bytes(32 * 4097)) == (TooLarge, "4097 pictures are more than the 4096 of one resource that are decoded")


# Icons in color.

def test_a_color_icon():
    shown = decoded(b"cicn", CICN)
    assert rows_of(shown) == [".RGK", "KKW."] and shown.notes == []


@pytest.mark.parametrize("depth, row_bytes, rows, letters", (
    (1, 2, (b"\x50\xFF", b"\xA0\xFF"), "WRWR RWRW"),
    (1, 1, (b"\x50", b"\xA0"), "WRWR RWRW"),
    (2, 1, (b"\x1B", b"\xE4"), "WRGK KGRW"),
    (2, 4, (b"\x1B\xFF\xFF\xFF", b"\xE4\xFF\xFF\xFF"), "WRGK KGRW"),
    (4, 2, (b"\x01\x23", b"\x32\x10"), "WRGK KGRW"),
    (8, 4, (b"\0\1\2\3", b"\3\2\1\0"), "WRGK KGRW"),
    (8, 7, (b"\0\1\2\3xxx", b"\3\2\1\0xxx"), "WRGK KGRW"),
))
def test_each_depth_and_row_bytes(depth, row_bytes, rows, letters):
    data = cicn(pixel_map(row_bytes, 4, 2, depth), bit_map(1, 4, 2), b"\xFF\xFF", bit_map(0, 4, 2), b"", TABLE, b"".join(rows))
    assert rows_of(decoded(b"cicn", data)) == letters.split()
    pattern = color_pattern(depth, row_bytes, 4, 2, b"".join(rows), TABLE)
    shown = decoded(b"ppat", pattern)
    assert rows_of(shown) == letters.split() and shown.notes == []


def test_a_color_icon_of_256_colors_of_which_all_are_seen():
    table = color_table(*[(number, (number << 8 | 7, 0, 0x100)) for number in range(256)])
    data = cicn(pixel_map(16, 16, 17, 8), bit_map(2, 16, 17), b"\xFF\xFF" * 16 + b"\x7F\xFF", bit_map(0, 0, 0), b"", table,
                bytes(range(256)) + bytes(16))
    picture = Image.open(io.BytesIO(decoded(b"cicn", data).data)).convert("RGBA")
    assert list(picture.getdata())[:257] == [(number, 0, 1, 255) for number in range(256)] + [(0, 0, 1, 0)]


def test_bounds_that_dont_begin_at_zero():
    data = cicn(pixel_map(2, 4, 2, 2, left=-3, top=100), bit_map(2, 4, 2), b"\x70\0\xE0\0", bit_map(2, 4, 2), b"\xF0\0\xF0\0", TABLE,
                b"\x1B\0\xF1\0")
    assert rows_of(decoded(b"cicn", data)) == [".RGK", "KKW."]


def test_a_color_icon_without_a_mask_or_with_bytes_after_it():
    data = cicn(pixel_map(2, 4, 2, 2), bit_map(0, 0, 0), b"", bit_map(2, 4, 2), b"\xF0\0\xF0\0", TABLE, b"\x1B\0\xF1\0")
    shown = decoded(b"cicn", data)
    assert rows_of(shown) == ["WRGK", "KKWR"] and shown.notes == ["It has no mask. All pixels are shown."]
    shown = decoded(b"cicn", CICN + b"ab")
    assert rows_of(shown) == [".RGK", "KKW."] and shown.notes == ["Bytes after the picture that aren't shown: 2."]


def test_pixels_without_a_color():
    said = ["Some pixels have values that aren't in the color table. They are shown black."]
    two = color_table((0, WHITE), (1, RED))
    for table, rows, notes in ((two, [".RKK", "KKW."], said), (color_table(), [".KKK", "KKK."], said),
                               (color_table((7, RED), (7, RED), (7, GREEN), (7, BLUE), flags=0x8000), [".RGB", "BBR."], [])):
        data = cicn(pixel_map(2, 4, 2, 2), bit_map(2, 4, 2), b"\x70\0\xE0\0", bit_map(0, 0, 0), b"", table, b"\x1B\0\xF1\0")
        shown = decoded(b"cicn", data)
        assert (rows_of(shown), shown.notes) == (rows, notes)
    data = cicn(pixel_map(2, 4, 2, 2), bit_map(2, 4, 2), b"\xC0\0\x20\0", bit_map(0, 0, 0), b"", two, b"\x1B\0\xF1\0")
    shown = decoded(b"cicn", data)  # the pixels without a color are outside of the mask
    assert rows_of(shown) == ["WR..", "..W."] and shown.notes == []


def color_icon(pixels_at=pixel_map(2, 4, 2, 2), mask_at=bit_map(2, 4, 2), bits_at=bit_map(2, 4, 2)):
    return cicn(pixels_at, mask_at, b"\x70\0\xE0\0", bits_at, b"\xF0\0\xF0\0", TABLE, b"\x1B\0\xF1\0")


@pytest.mark.parametrize("data, said", (
    (color_icon(pixel_map(2, 0, 2, 2)), "bounds of 0 by 2 pixels at byte 6"),
    (color_icon(pixel_map(2, 4, -2, 2)), "bounds of 4 by -2 pixels at byte 6"),
    (color_icon(pixel_map(0, 4, 2, 2)), "rows of 0 bytes for 4 pixels of 2 bits at byte 4"),
    (color_icon(pixel_map(2, 9, 2, 2)), "rows of 2 bytes for 9 pixels of 2 bits at byte 4"),
    (color_icon(pixel_map(2, 3, 2, 8)), "rows of 2 bytes for 3 pixels of 8 bits at byte 4"),
    (color_icon(pixel_map(2, 4, 2, 0)), "pixels of 0 bits at byte 32"),
    (color_icon(pixel_map(2, 4, 2, 3)), "pixels of 3 bits at byte 32"),
    (color_icon(pixel_map(16, 4, 2, 32)), "pixels of 32 bits at byte 32"),
    (color_icon(mask_at=bit_map(2, 3, 2)), "a mask of 3 by 2 pixels for 4 by 2 at byte 56"),
    (color_icon(mask_at=bit_map(2, 4, 0)), "bounds of 4 by 0 pixels at byte 56"),
    (color_icon(mask_at=bit_map(2, 17, 2)), "rows of 2 bytes for 17 pixels of 1 bits at byte 54"),
    (color_icon(bits_at=bit_map(2, 4, -1)), "bounds of 4 by -1 pixels at byte 70"),
    (color_icon(bits_at=bit_map(0x3FFF, 4, 2)), "32766 bytes are wanted and 48 are there at byte 86"),
), ids=range(13))
def test_a_color_icon_that_is_damaged(data, said):
    assert refusal(b"cicn", data) == (Damaged, said)


def test_pictures_that_are_too_large():
    large = cicn(pixel_map(0x3FFF, 32767, 32767, 1), bit_map(0, 0, 0), b"", bit_map(0, 0, 0), b"", TABLE, b"")
    assert refusal(b"cicn", large) == (TooLarge, "32767 by 32767 pixels are more than the 16777216 that are decoded")
    side = 4096
    bits = bytes(side * side // 8)
    opaque = cicn(pixel_map(side // 8, side, side, 1), bit_map(0, 0, 0), b"", bit_map(0, 0, 0), b"", TABLE, bits)
    assert decoded(b"cicn", opaque).size == (side, side)
    with_mask = cicn(pixel_map(side // 8, side, side, 1), bit_map(side // 8, side, side), bits, bit_map(0, 0, 0), b"", TABLE, bits)
    said = "4096 by 4096 pixels, of which some can be transparent, are more than the 4194304 that are decoded"
    assert refusal(b"cicn", with_mask) == (TooLarge, said)


# Cursors.

def test_a_cursor():
    bits = b"\xA0\0" + bytes(30)
    mask = b"\xC0\0" + bytes(29) + b"\1"
    shown = decoded(b"CURS", bits + mask + b"\0\3\xFF\xFF")
    assert cells(shown, ".") == ({(0, 0): "K", (1, 0): "W", (2, 0): "K", (15, 15): "W"}, (16, 16))
    assert shown.notes == ["The hot spot is -1 from the left and 3 from the top.", "Pixels that invert the screen: 1. They are shown black."]
    shown = decoded(b"CURS", bits + b"\xE0\0" + bytes(30) + b"\0\1\0\2" + b"end")
    assert cells(shown, ".") == ({(0, 0): "K", (1, 0): "W", (2, 0): "K"}, (16, 16))
    assert shown.notes == ["The hot spot is 2 from the left and 1 from the top.", "Bytes after the picture that aren't shown: 3."]


@pytest.mark.parametrize("depth, first", ((1, b"\x60\0"), (2, b"\x14\0"), (4, b"\x01\x10"), (8, b"\0\1\1\0")))
def test_a_color_cursor_of_each_depth(depth, first):
    row_bytes = 2 * depth
    pixels_of = first.ljust(row_bytes, b"\0") + bytes(15 * row_bytes)
    data = crsr(depth, row_bytes, pixels_of, color_table((0, WHITE), (1, RED)), mask=b"\xC0\0" + bytes(30))
    shown = decoded(b"crsr", data)
    assert cells(shown, ".") == ({(0, 0): "W", (1, 0): "R", (2, 0): "R"}, (16, 16))
    assert shown.notes == ["The hot spot is 1 from the left and 2 from the top.", "Pixels that invert the screen: 1. They are shown in their own color."]


def test_a_color_cursor_without_inverting_pixels_and_without_colors():
    shown = decoded(b"crsr", crsr(1, 2, b"\xC0\0" + bytes(30), color_table((0, WHITE), (1, BLUE)), mask=b"\xE0\0" + bytes(30)))
    assert cells(shown, ".")[0] == {(0, 0): "B", (1, 0): "B", (2, 0): "W"} and len(shown.notes) == 1
    shown = decoded(b"crsr", crsr(1, 2, b"\xC0\0" + bytes(30), color_table((0, WHITE)), mask=b"\xE0\0" + bytes(30)))
    assert cells(shown, ".")[0] == {(0, 0): "K", (1, 0): "K", (2, 0): "W"}
    assert shown.notes[1:] == ["Some pixels have values that aren't in the color table. They are shown black."]


def test_a_color_cursor_of_the_old_kind():
    data = crsr(1, 2, b"\xFF" * 32, TABLE, bits=b"\x80\0" + bytes(30), mask=b"\xC0\0" + bytes(30), kind=0x8000)
    shown = decoded(b"crsr", data)
    assert cells(shown, ".") == ({(0, 0): "K", (1, 0): "W"}, (16, 16)) and len(shown.notes) == 1
    assert cells(decoded(b"crsr", data[:96]), ".")[0] == {(0, 0): "K", (1, 0): "W"}


def test_a_color_cursor_that_is_damaged():
    table = color_table((0, WHITE), (1, RED))
    assert refusal(b"crsr", crsr(1, 2, bytes(32), table, kind=0x8002)) == (Damaged, "a cursor of the kind $8002 at byte 0")
    assert refusal(b"crsr", crsr(1, 4, bytes(128), table, side=32)) == (Damaged, "a cursor of 32 by 32 pixels at byte 102")
    assert refusal(b"crsr", CRSR[:2] + b"\xFF" * 4 + CRSR[6:]) == (Damaged, "4 bytes are wanted and 0 are there at byte 4294967295")
    assert refusal(b"crsr", CRSR[:6] + b"\x7F\xFF\xFF\xFF" + CRSR[10:]) == (Damaged, "32 bytes are wanted and 0 are there at byte 2147483647")


# Patterns.

def test_a_pattern():
    shown = decoded(b"PAT ", b"\xAA\0\0\0\0\0\0\x0F")
    assert rows_of(shown) == ["KWKWKWKW"] + ["WWWWWWWW"] * 6 + ["WWWWKKKK"] and shown.notes == []
    assert decoded(b"PAT ", bytes(9)).notes == ["Bytes after the picture that aren't shown: 1."]


def test_patterns_side_by_side():
    shown = decoded(b"PAT#", b"\0\3" + b"\xAA" * 8 + b"\0" * 8 + b"\xF0" * 8)
    assert rows_of(shown) == ["KWKWKWKW.WWWWWWWW.KKKKWWWW"] * 8 and shown.notes == []
    assert rows_of(decoded(b"PAT#", b"\0\1" + b"\xAA" * 8)) == ["KWKWKWKW"] * 8
    assert decoded(b"PAT#", b"\0\1" + bytes(12)).notes == ["Bytes after the picture that aren't shown: 4."]
    assert decoded(b"PAT#", b"\x10\0" + bytes(8 * 4096)).size == (9 * 4096 - 1, 8)
    assert refusal(b"PAT#", b"\0\0") == (Refused, "has no patterns")
    assert refusal(b"PAT#", b"\0\2" + bytes(15)) == (Damaged, "16 bytes are wanted and 15 are there at byte 2")
    assert refusal(b"PAT#", b"\x10\1" + bytes(8 * 4097)) == (TooLarge, "4097 pictures are more than the 4096 of one resource that are decoded")


def test_color_patterns_of_each_type():
    assert rows_of(decoded(b"ppat", OLD_PPAT)) == ["KWWWWWWW"] + ["WWWWWWWW"] * 6 + ["WWWWWWWK"]
    assert rows_of(decoded(b"ppat", PPAT)) == ["WRGK", "KKWR"]
    shown = decoded(b"ppat", RGB_PPAT)
    assert rows_of(shown) == ["GGGGGGGG"] * 8
    assert shown.notes == ["An RGB pattern: the tile is filled with the color that the pattern stands for."]


def test_a_color_pattern_that_is_damaged():
    assert refusal(b"ppat", ppat(3, bytes(8))) == (Damaged, "a pattern of the type 3 at byte 0")
    assert refusal(b"ppat", ppat(0xFFFF, bytes(8))) == (Damaged, "a pattern of the type 65535 at byte 0")
    assert refusal(b"ppat", ppat(1, bytes(8))) == (Damaged, "4 bytes are wanted and 0 are there at byte 28")
    assert refusal(b"ppat", ppat(2, bytes(8), pixel_map(2, 8, 8, 2, 78), b"", color_table())) == (
        Damaged, "an RGB pattern without a color at byte 78")
    assert refusal(b"ppat", color_pattern(2, 2, 4, 3, b"\x1B\0\xF1\0", b"")) == (Damaged, "4 bytes are wanted and 0 are there at byte 82")
    assert refusal(b"ppat", color_pattern(1, 0x3FFF, 32767, 32767, b"", TABLE)[:-1])[0] is TooLarge


def test_color_patterns_side_by_side():
    shown = decoded(b"ppt#", ppt_list(PPAT, OLD_PPAT, PPAT))
    assert rows_of(shown) == ["WRGK.KWWWWWWW.WRGK", "KKWR.WWWWWWWW.KKWR"] + [".....WWWWWWWW....."] * 5 + [".....WWWWWWWK....."]
    assert shown.notes == []
    one_color = color_pattern(2, 2, 4, 2, b"\x1B\0\xF1\0", color_table((0, WHITE)))
    shown = decoded(b"ppt#", ppt_list(one_color, RGB_PPAT, one_color, RGB_PPAT))
    assert shown.size == (4 + 1 + 8 + 1 + 4 + 1 + 8, 8)
    assert shown.notes == ["Some pixels have values that aren't in the color table. They are shown black.",
                           "An RGB pattern: the tile is filled with the color that the pattern stands for."]


def test_lists_of_color_patterns_that_are_damaged():
    assert refusal(b"ppt#", b"\0\0") == (Refused, "has no patterns")
    assert refusal(b"ppt#", b"\0\1\xFF\xFF\xFF\xFF" + PPAT) == (Damaged, "2 bytes are wanted and 0 are there at byte 4294967295")
    assert refusal(b"ppt#", b"\0\1\0\0\0\0" + PPAT) == (Damaged, "pixels of 43605 bits at byte 32")
    assert refusal(b"ppt#", b"\x10\1" + bytes(4 * 4097)) == (TooLarge, "4097 pictures are more than the 4096 of one resource that are decoded")
    shared = struct.pack(">H", 1000) + struct.pack(">I", 4002) * 1000 + color_pattern(1, 0x3FFF, 1, 10, bytes(163830), TABLE)
    assert refusal(b"ppt#", shared) == (Damaged, "patterns that share their pixels at byte 2")
    wide = ppt_list(*[color_pattern(1, 64, 512, 1, bytes(64), TABLE)] * 16, color_pattern(1, 1, 1, 600, bytes(600), TABLE))
    assert refusal(b"ppt#", wide) == (
        TooLarge, "8209 by 600 pixels, of which some can be transparent, are more than the 4194304 that are decoded")


# All types.

MASKS = {b"ICN#": bytes(128) + b"\xFF" * 128, b"ics#": bytes(32) + b"\xFF" * 32, b"icm#": bytes(24) + b"\xFF" * 24}
WHOLE_WHEN_CUT = {b"ICN#": [128], b"ics#": [32], b"icm#": [24], b"SICN": list(range(32, 64))}


@pytest.mark.parametrize("kind, data", WHOLE, ids=["%s %d" % (kind.decode(), number) for number, (kind, _) in enumerate(WHOLE)])
def test_each_type_cut_at_each_length(kind, data):
    assert decoded(kind, data, MASKS.get).ending == "png"
    whole = []
    for length in range(len(data)):
        try:
            decoded(kind, data[:length], MASKS.get)
            whole.append(length)
        except Damaged as fault:
            assert " at byte " in str(fault)
    assert whole == WHOLE_WHEN_CUT.get(kind, [])


@pytest.mark.parametrize("kind", sorted({kind for kind, _ in WHOLE}), ids=lambda kind: kind.decode())
def test_each_type_with_numbers_that_lie(kind):
    found = {"decoded": 0, "refused": 0}
    for data in [data for each, data in WHOLE if each == kind]:
        for place in range(0, min(len(data), 300), 2):
            for number in (b"\0\0", b"\0\1", b"\x7F\xFF", b"\x80\0", b"\xFF\xFF"):
                try:
                    decoded(kind, data[:place] + number + data[place + 2:], MASKS.get)
                    found["decoded"] += 1
                except (Damaged, TooLarge, Refused) as fault:
                    assert str(fault) and "\n" not in str(fault)
                    found["refused"] += 1
    has_numbers = kind in (b"cicn", b"crsr", b"ppat", b"PAT#", b"ppt#")
    assert found["decoded"] >= 20 and (found["refused"] > 0) == has_numbers


def test_the_type_file_has_the_same_layouts(tmp_path):
    write(tmp_path, "a.r", SOURCE.encode())
    rezkit("rez", os.path.join(TYPES, "Types.r"), "a.r", "-o", "a.rsrc", folder=str(tmp_path))
    with facts.Opened(str(tmp_path / "a.rsrc")) as file:
        found = facts.facts_of(file)
        assert {one.kind: one.bytes_in(found.fork) for one in found.resources()} == {b"cicn": CICN, b"ppat": PPAT, b"crsr": CRSR}


def test_all_types_are_there():
    names = "ICON ICN# icl4 icl8 ics# ics4 ics8 icm# icm4 icm8 SICN CURS crsr cicn PAT# ppat ppt#".split() + ["PAT "]
    assert {kind.decode() for kind in icons.KINDS} == {kind.decode() for kind, _ in WHOLE} == set(names)


def test_without_pillow(monkeypatch):
    monkeypatch.setattr(pixels, "Image", None)
    for kind, data in WHOLE:
        assert refusal(kind, data) == (Refused, "Python's module PIL is missing (Debian's package python3-pil)")
