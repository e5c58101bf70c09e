"""Bitmaps, pixmaps and direct pixels of a picture: each way of packing, each depth, stretched, clipped; and a JPEG of QuickTime."""
import pytest
from picture_builder import JPEG, back, bitmap, direct, fore, op, picture, pixmap, quicktime, region, rows_of, table, words
from rezkit_workbench import packing, pictures
from rezkit_workbench.errors import Damaged

FOUR = (0, 0, 4, 4)
FULL = words(*FOUR)
COPY, OR, XOR, BIC = words(0), words(1), words(2), words(3)
SLANT = b"\x80\0\x40\0\x20\0\x10\0"  # four rows of two bytes, a black pixel in each
SLANTED = ["X...", ".X..", "..X.", "...X"]


def drawn(*ops, frame=FOUR, more=None, **rest):
    shown = pictures.decode(picture(*ops, frame=frame, **rest), None)
    assert shown.notes == []
    return rows_of(shown, more)


def copied(name, pixels, data, target=FULL, source=FULL, mode=COPY, mask=b""):
    return op(name, pixels, source, target, mode, mask, data)


# One bit a pixel.

@pytest.mark.parametrize("version", (1, 2))
@pytest.mark.parametrize("name", ("BitsRect", "PackBitsRect"))
def test_rows_of_less_than_8_bytes_are_not_packed(name, version):
    assert drawn(copied(name, bitmap(2, FOUR), SLANT), version=version) == SLANTED


def test_rows_of_a_bitmap_that_is_not_packed_by_its_opcode():
    rows = b"".join(bytes([byte]) + bytes(7) for byte in (0x80, 0x40, 0x20, 0x10))
    assert drawn(copied("BitsRect", bitmap(8, FOUR), rows)) == SLANTED


def packed(*rows, wide=False):
    """Packed rows, each after its length of one or two bytes."""
    return b"".join((words(len(row)) if wide else bytes([len(row)])) + row for row in rows)


BY_LITERALS = [b"\7" + bytes([byte]) + bytes(7) for byte in (0x80, 0x40, 0x20, 0x10)]
BY_RUNS = [b"\0" + bytes([byte]) + b"\xFA\0" for byte in (0x80, 0x40, 0x20, 0x10)]  # -6 is 7 times
WITH_NOTHING = [b"\x80\0" + bytes([byte]) + b"\x80\x80\xFE\0\3\0\0\0\0" for byte in (0x80, 0x40, 0x20, 0x10)]


@pytest.mark.parametrize("rows", (BY_LITERALS, BY_RUNS, WITH_NOTHING), ids=("literals", "runs", "nothing"))
@pytest.mark.parametrize("version", (1, 2))
def test_packed_rows_after_a_length_of_one_byte(rows, version):
    assert drawn(copied("PackBitsRect", bitmap(8, FOUR), packed(*rows)), version=version) == SLANTED


@pytest.mark.parametrize("row_bytes, wide", ((250, False), (251, True), (252, True)))
def test_rows_of_more_than_250_bytes_have_a_length_of_two_bytes(row_bytes, wide):
    rows = [b"\0" + bytes([byte]) + b"\x81\0" + bytes([257 - (row_bytes - 129)]) + b"\0" for byte in (0x80, 0x40, 0x20, 0x10)]
    assert drawn(copied("PackBitsRect", bitmap(row_bytes, FOUR), packed(*rows, wide=wide))) == SLANTED


def test_a_row_that_gives_more_than_its_bytes_is_cut_and_one_that_gives_its_pixels_alone_is_filled():
    rows = [row + b"\x81\xFF" for row in BY_LITERALS]
    assert drawn(copied("PackBitsRect", bitmap(8, FOUR), packed(*rows))) == SLANTED
    rows = [b"\0" + bytes([byte]) for byte in (0x80, 0x40, 0x20, 0x10)]
    assert drawn(copied("PackBitsRect", bitmap(8, FOUR), packed(*rows))) == SLANTED
    with pytest.raises(Damaged, match="a packed row gives 0 bytes, and has to give 1 at byte 70"):
        drawn(copied("PackBitsRect", bitmap(8, FOUR), packed(b"\0", *BY_RUNS)))


def test_packbits_by_the_example_of_its_technical_note():
    data = bytes.fromhex("FEAA0280002AFDAA0380002A22F7AA")
    whole = bytes.fromhex("AAAAAA80002AAAAAAAAA80002A22AAAAAAAAAAAAAAAAAAAA")
    assert packing.unpacked(data, 1, 1000) == whole
    assert packing.unpacked(data, 1, 5) == whole[:5]
    assert packing.unpacked(b"\1\0\1\0\2\xFF\7\7", 2, 1000) == b"\0\1\0\2\7\7\7\7"
    assert packing.unpacked(b"\x05abc", 1, 1000) == b"abc" and packing.unpacked(b"\xFF", 1, 1000) == packing.unpacked(b"\x80", 1, 9) == b""


def test_a_bitmap_is_drawn_in_the_two_colors():
    assert drawn(fore("r"), back("b"), copied("BitsRect", bitmap(2, FOUR), SLANT)) == ["rbbb", "brbb", "bbrb", "bbbr"]
    ground = op("BkPat", b"\xFF" * 8), fore("g"), op("eraseRect", FULL), fore("r"), back("b")
    assert drawn(*ground, copied("BitsRect", bitmap(2, FOUR), SLANT, mode=OR)) == ["rggg", "grgg", "ggrg", "gggr"]
    assert drawn(*ground, copied("BitsRect", bitmap(2, FOUR), SLANT, mode=BIC)) == ["bggg", "gbgg", "ggbg", "gggb"]
    assert drawn(*ground, copied("BitsRect", bitmap(2, FOUR), SLANT, mode=XOR)) == ["mggg", "gmgg", "ggmg", "gggm"]


# Two, four and eight bits a pixel.

LETTERS = "Xrgb"
DEPTHS = ((1, 2, "rX", b"\x50\0\xA0\0\x50\0\xA0\0", ["rXrX", "XrXr"] * 2),
          (2, 2, LETTERS, b"\x1B\0\xE4\0\x1B\0\xE4\0", ["Xrgb", "bgrX"] * 2),
          (4, 2, LETTERS, b"\x01\x23\x32\x10" * 2, ["Xrgb", "bgrX"] * 2),
          (8, 4, LETTERS, b"\0\1\2\3\3\2\1\0" * 2, ["Xrgb", "bgrX"] * 2))


@pytest.mark.parametrize("depth, row_bytes, letters, data, rows", DEPTHS)
@pytest.mark.parametrize("name", ("BitsRect", "PackBitsRect"))
def test_pixmaps_of_each_depth(depth, row_bytes, letters, data, rows, name):
    assert drawn(copied(name, pixmap(row_bytes, FOUR, depth) + table(*letters), data)) == rows


@pytest.mark.parametrize("depth, row_bytes, letters, data, rows", DEPTHS)
def test_packed_pixmaps_of_each_depth(depth, row_bytes, letters, data, rows):
    lines = [bytes([row_bytes - 1]) + data[place:place + row_bytes] + bytes([256 - (7 - row_bytes)]) + b"\0"
             for place in range(0, len(data), row_bytes)]
    assert drawn(copied("PackBitsRect", pixmap(8, FOUR, depth) + table(*letters), packed(*lines))) == rows


def test_a_color_table_goes_by_its_values_or_by_its_order():
    data = b"\0\1\2\3" * 4
    assert drawn(copied("BitsRect", pixmap(4, FOUR, 8) + table("r", "g", "b", values=(3, 0, 1)), data)) == ["gbXr"] * 4
    assert drawn(copied("BitsRect", pixmap(4, FOUR, 8) + table("r", "g", "b", values=(3, 0, 1), flags=0x8000), data)) == ["rgbX"] * 4
    assert drawn(copied("BitsRect", pixmap(4, FOUR, 8) + table("r", "g", "b", values=(0, 300, 65535)), data)) == ["rXXX"] * 4
    assert drawn(copied("BitsRect", pixmap(4, FOUR, 8) + bytes(6) + words(-1), data)) == ["XXXX"] * 4


def test_a_pixmap_is_drawn_in_the_two_colors_too():
    assert drawn(fore("r"), copied("BitsRect", pixmap(4, FOUR, 8) + table("X", "."), b"\0\1\0\1" * 4)) == ["r.r."] * 4


# Direct pixels.

WORDS = {"X": 0, ".": 0x7FFF, "r": 0x7C00, "g": 0x03E0, "b": 0x001F, "c": 0x03FF}


def words_of(letters):
    return words(*[WORDS[letter] for letter in letters])


@pytest.mark.parametrize("packing_way", (0, 3))
def test_pixels_of_16_bits_packed_by_words(packing_way):
    rows = [b"\3" + words_of("Xrgb"), b"\xFD" + words_of("c"), b"\0" + words_of("r") + b"\xFE" + words_of("."),
            b"\xFF" + words_of("b") + b"\1" + words_of("Xg")]
    assert drawn(copied("DirectBitsRect", direct(8, FOUR, 16, packing_way), packed(*rows))) == ["Xrgb", "cccc", "r...", "bbXg"]


def test_pixels_of_16_bits_that_are_not_packed():
    data = words_of("Xrgb") + words_of("....") + words_of("cccc") + words_of("bgrX")
    assert drawn(copied("DirectBitsRect", direct(8, FOUR, 16, 1), data)) == ["Xrgb", "....", "cccc", "bgrX"]
    data = words_of("Xrg") + words_of("...")
    bounds = (0, 0, 2, 3)
    assert drawn(copied("DirectBitsRect", direct(6, bounds, 16, 0), data, words(*bounds), words(*bounds)), frame=bounds) == ["Xrg", "..."]


def test_five_bits_become_eight_by_their_upper_bits_again():
    data = words(0b0_00001_10000_11110, 0b1_10101_01010_00011)  # 8, 132, 247; 173, 82, 24
    bounds = (0, 0, 1, 2)
    assert drawn(copied("DirectBitsRect", direct(4, bounds, 16), data, words(*bounds), words(*bounds)), frame=bounds,
                 more={(8, 132, 247): "1", (173, 82, 24): "2"}) == ["12"]


PLANES = {"X": (0, 0, 0), ".": (255, 255, 255), "r": (255, 0, 0), "g": (0, 255, 0), "b": (0, 0, 255)}
ROW = (b"\0\xFF\0\0", b"\0\0\xFF\0", b"\0\0\0\xFF")  # the red, green and blue bytes of X, r, g, b


@pytest.mark.parametrize("packing_way", (0, 4))
def test_pixels_of_32_bits_packed_by_components(packing_way):
    rows = [b"\x0B" + b"".join(ROW), b"\xF5\xFF", b"\3" + ROW[0] + b"\7" + ROW[1] + ROW[2], b"\xFD\xFF\xF9\0"]
    assert drawn(copied("DirectBitsRect", direct(16, FOUR, 32, packing_way), packed(*rows))) == ["Xrgb", "....", "Xrgb", "rrrr"]


def test_four_components_have_a_first_one_that_is_not_shown():
    rows = [b"\x0F" + b"\x12\x34\x56\x78" + b"".join(ROW), b"\xFD\xAA\xF5\xFF", b"\xFD\0\xFD\xFF\xF9\0", b"\xF1\0"]
    assert drawn(copied("DirectBitsRect", direct(16, FOUR, 32, 4, 4), packed(*rows))) == ["Xrgb", "....", "rrrr", "XXXX"]


def test_components_of_rows_that_are_longer_than_the_pixels():
    rows = [b"\x0E" + ROW[0] + b"\x99" + ROW[1] + b"\x99" + ROW[2] + b"\x99"] * 4  # five bytes of each color
    assert drawn(copied("DirectBitsRect", direct(20, FOUR, 32, 4), packed(*rows))) == ["Xrgb"] * 4


def test_pixels_of_32_bits_that_are_not_packed_or_lack_their_first_byte():
    whole = b"".join(b"\x77" + bytes(PLANES[letter]) for letter in "Xrgb....XXXXbgrX")
    short = b"".join(bytes(PLANES[letter]) for letter in "Xrgb....XXXXbgrX")
    rows = ["Xrgb", "....", "XXXX", "bgrX"]
    assert drawn(copied("DirectBitsRect", direct(16, FOUR, 32, 1), whole)) == rows
    assert drawn(copied("DirectBitsRect", direct(16, FOUR, 32, 2), short)) == rows
    bounds = (0, 0, 2, 1)
    two = whole[4:8] + whole[12:16]
    assert drawn(copied("DirectBitsRect", direct(4, bounds, 32), two, words(*bounds), words(*bounds)), frame=bounds) == ["r", "b"]


# Where pixels go.

def test_pixels_are_stretched():
    small = words(0, 0, 2, 2)
    data = b"\x80\0\x40\0"
    assert drawn(copied("BitsRect", bitmap(2, (0, 0, 2, 2)), data, FULL, small)) == ["XX..", "XX..", "..XX", "..XX"]
    assert drawn(copied("BitsRect", bitmap(2, (0, 0, 2, 2)), data, words(0, 1, 2, 4), small)) == [".X..", "..XX", "....", "...."]
    every_second = b"\xF0\0\x40\0\xF0\0\x10\0"  # the pixels (1, 1), (3, 1), (1, 3), (3, 3) remain
    assert drawn(copied("BitsRect", bitmap(2, FOUR), every_second, words(0, 0, 2, 2))) == ["X...", ".X..", "....", "...."]


def test_a_piece_of_the_pixels_is_drawn_and_nothing_beyond_them():
    assert drawn(copied("BitsRect", bitmap(2, FOUR), SLANT, words(0, 0, 2, 2), words(1, 1, 3, 3))) == ["X...", ".X..", "....", "...."]
    ground = op("paintRect", FULL)
    far = (10, 20, 14, 24)
    assert drawn(copied("BitsRect", bitmap(2, far), SLANT, FULL, words(*far))) == SLANTED
    assert drawn(ground, copied("BitsRect", bitmap(2, FOUR), bytes(8), FULL, words(2, 2, 6, 6))) == ["..XX", "..XX", "XXXX", "XXXX"]
    assert drawn(ground, copied("BitsRect", bitmap(2, FOUR), bytes(8), FULL, words(-1, -2, 3, 2))) == ["XXXX", "XX..", "XX..", "XX.."]
    assert drawn(ground, copied("BitsRect", bitmap(2, FOUR), bytes(8), FULL, words(0, 0, 6, 6))) == ["...X"] * 3 + ["XXXX"]  # 4 of 6
    for source in ((4, 4, 8, 8), (0, 0, 0, 0), (3, 3, 1, 1)):
        assert drawn(ground, copied("BitsRect", bitmap(2, FOUR), bytes(8), FULL, words(*source))) == ["XXXX"] * 4
    for target in ((0, 0, 0, 4), (3, 3, 1, 1), (4, 0, 8, 4), (-9, -9, 0, 0)):
        assert drawn(ground, copied("BitsRect", bitmap(2, FOUR), bytes(8), words(*target))) == ["XXXX"] * 4


def test_pixels_are_clipped_by_the_clip_and_by_a_region_of_their_own():
    ring = region((0, 0, 4, 4), (0, 0, 4), (1, 1, 3), (3, 1, 3), (4, 0, 4))
    black = b"\xF0\0" * 4
    assert drawn(copied("BitsRgn", bitmap(2, FOUR), black, mask=ring)) == ["XXXX", "X..X", "X..X", "XXXX"]
    assert drawn(op("Clip", region((0, 0, 4, 2))), copied("BitsRgn", bitmap(2, FOUR), black, mask=ring)) == ["XX..", "X...", "X...", "XX.."]
    rows = packed(*[b"\0\xF0\xFA\0"] * 4)
    assert drawn(copied("PackBitsRgn", bitmap(8, FOUR), rows, mask=ring)) == ["XXXX", "X..X", "X..X", "XXXX"]
    rows = packed(*[b"\xFD" + words_of("r")] * 4)
    assert drawn(copied("DirectBitsRgn", direct(8, FOUR, 16), rows, mask=ring)) == ["rrrr", "r..r", "r..r", "rrrr"]


def test_pixels_are_read_in_strips():
    """600 by 600 pixels are more than a strip has; the row 500 is black."""
    bounds = (0, 0, 600, 600)
    rows = [b"\xB6\xFF" if row == 500 else b"\xB6\0" for row in range(600)]  # -74 is 75 times
    shown = drawn(copied("PackBitsRect", bitmap(76, bounds), packed(*rows), words(*bounds), words(*bounds)), frame=bounds)
    assert [number for number, row in enumerate(shown) if row != "." * 600] == [500] and shown[500] == "X" * 600


# What QuickTime puts in.

WIDE = (0, 0, 8, 16)


def test_a_jpeg_is_drawn_where_its_matrix_says():
    assert drawn(op("CompressedQuickTime", quicktime(JPEG, WIDE)), frame=WIDE) == ["X" * 8 + "." * 8] * 8
    assert drawn(op("CompressedQuickTime", quicktime(JPEG, WIDE, scale=(0.5, 0.5), at=(2, 1))), frame=(0, 0, 4, 12)) == [
        "............"] + ["..XXXX......"] * 3
    assert drawn(op("CompressedQuickTime", quicktime(JPEG, (0, 6, 2, 10), at=(-6, 1))), frame=FOUR) == ["....", "XX..", "XX..", "...."]


def test_the_origin_moves_a_jpeg_and_its_mask():
    moved = op("Origin", words(-2, -1))
    assert drawn(moved, op("CompressedQuickTime", quicktime(JPEG, WIDE)), frame=(0, 0, 4, 12)) == ["............"] + ["..XXXXXXXX.."] * 3
    clipped = op("CompressedQuickTime", quicktime(JPEG, WIDE, mask=region((1, 1, 2, 3))))
    assert drawn(moved, clipped, frame=FOUR) == ["....", "....", "...X", "...."]


def test_a_jpeg_has_a_mode_a_mask_and_a_length_of_its_own():
    ground = fore("r"), op("paintRect", words(*WIDE)), fore("X")
    assert drawn(*ground, op("CompressedQuickTime", quicktime(JPEG, WIDE, mode=1)), frame=WIDE) == ["X" * 8 + "r" * 8] * 8
    assert drawn(op("CompressedQuickTime", quicktime(JPEG, WIDE, mask=region((1, 4, 2, 16)))), frame=WIDE) == [
        "." * 16, "....XXXX........"] + ["." * 16] * 6
    assert drawn(op("CompressedQuickTime", quicktime(JPEG, WIDE, length=0)), frame=WIDE) == ["X" * 8 + "." * 8] * 8


def test_a_jpeg_keeps_what_its_pixels_need_and_nothing_else():
    more = b"\xFF\xE0\0\x04ab" + b"\xFF\xE1\0\x0AExif\0\0MM" + b"\xFF\xFF\xFE\0\x05abc" + b"\xFF\xDD\0\x04\0\0"
    assert drawn(op("CompressedQuickTime", quicktime(JPEG[:2] + more + JPEG[2:], WIDE)), frame=WIDE) == ["X" * 8 + "." * 8] * 8


def test_what_is_not_drawn_of_quicktime_is_counted():
    shown = pictures.decode(picture(op("CompressedQuickTime", quicktime(b"abc", WIDE, kind=b"rle ")),
                                    op("CompressedQuickTime", quicktime(JPEG, WIDE, turned=0.5)),
                                    op("UncompressedQuickTime", words(0, 3), b"abc"), frame=WIDE), None)
    assert rows_of(shown) == ["." * 16] * 8
    assert shown.notes == ["opcode $8200 isn't drawn: 2 times", "opcode $8201 isn't drawn: 1 time"]
    shown = pictures.decode(picture(op("CompressedQuickTime", quicktime(JPEG, WIDE, matte=b"1234")), frame=WIDE), None)
    assert rows_of(shown) == ["X" * 8 + "." * 8] * 8
    assert shown.notes == ["the matte of a QuickTime picture isn't drawn: 1 time"]


def test_text_on_a_jpeg_is_for_machines_without_quicktime():
    words_on_it = [op("LongText", words(5, 2), b"\5Quick"), op("DVText", b"\1\1X")]
    shown = pictures.decode(picture(op("CompressedQuickTime", quicktime(JPEG, WIDE)), *words_on_it, frame=WIDE), None)
    assert rows_of(shown) == ["X" * 8 + "." * 8] * 8
    assert shown.notes == ["text on a QuickTime picture isn't drawn: 2 times"]
