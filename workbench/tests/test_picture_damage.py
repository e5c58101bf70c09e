"""Damaged pictures: cut at each length, with numbers that lie, with more work than is done. Nothing but a refusal may be raised."""
import random
import time

import pytest
from picture_builder import (JPEG, bitmap, color, direct, extended, fore, op, picture, pixmap, polygon, quicktime, region, rows_of,
                             table, words)
from rezkit_workbench import pictures, quickdraw, quicktime as decoder
from rezkit_workbench.errors import Damaged, TooLarge

FOUR = (0, 0, 4, 4)
FULL = words(*FOUR)
BITS = FULL + FULL + words(0)
DOT = op("paintRect", words(1, 1, 2, 2))
DOTTED = ["....", ".X..", "....", "...."]
RING = region(FOUR, (0, 0, 4), (1, 1, 3), (3, 1, 3), (4, 0, 4))
ROWS = b"".join(bytes([len(row)]) + row for row in [b"\0\x80\xFA\0"] * 4)
ALL = (
    DOT, op("Clip", RING), op("PnSize", words(2, 1)), op("PnPat", b"\xAA" * 8), op("OvSize", words(2, 2)), fore("r"),
    op("BkPixPat", words(1), bytes(8), pixmap(2, (0, 0, 2, 2), 8), table("r", "g"), b"\0\1\1\0"),
    op("FillPixPat", words(2), bytes(8), color("c")),
    op("Line", words(0, 0, 3, 3)), op("ShortLineFrom", b"\1\2"), op("eraseRRect", FULL), op("fillOval", FULL),
    op("frameArc", FULL, words(0, 90)), op("invertPoly", polygon((0, 0), (4, 0), (0, 4))), op("frameRgn", RING),
    op("BitsRect", bitmap(2, FOUR), BITS, b"\x80\0" * 4), op("PackBitsRgn", pixmap(8, FOUR, 4), table("r", "g"), BITS, RING, ROWS),
    op("DirectBitsRect", direct(16, FOUR, 32), BITS, b"\2\xF5\xFF" * 4), op("LongText", words(4, 0), b"\1A"), op("DHDVText", b"\1\1\1B"),
    op("LongComment", words(1, 2), b"ab"), op("CompressedQuickTime", quicktime(JPEG, (0, 0, 4, 8), mask=RING)), DOT)


def ended(data):
    """How a picture ended: shown whole, shown up to where it breaks off, or refused."""
    try:
        shown = pictures.decode(data, None)
    except (Damaged, TooLarge) as fault:
        return type(fault).__name__
    rows_of(shown)
    return "broken" if any("breaks off" in note for note in shown.notes) else "whole"


@pytest.mark.parametrize("version", (1, 2))
def test_each_opcode_cut_at_each_length(version):
    ops = ALL if version == 2 else [each for each in ALL if each[0] < 256]
    whole = picture(*ops, frame=FOUR, version=version)
    first = len(picture(DOT, frame=FOUR, version=version, end=False))
    assert ended(whole) == "whole"
    found = [ended(whole[:length]) for length in range(len(whole))]
    assert found == ["Damaged"] * first + ["broken"] * (len(whole) - first)


@pytest.mark.parametrize("number", range(len(ALL)))
def test_each_opcode_alone_cut_at_each_length(number):
    whole = picture(ALL[number], DOT, frame=FOUR)
    for length in range(len(whole)):
        assert ended(whole[:length]) in ("Damaged", "broken")


@pytest.mark.parametrize("number", range(len(ALL)))
def test_numbers_that_lie(number):
    """Each word of each opcode becomes 0, 1, 7FFF, 8000 and FFFF in turn."""
    before = picture(DOT, frame=FOUR, end=False)
    name, data = ALL[number]
    found = set()
    for place in range(0, min(len(data), 240), 2):
        for lie in (0, 1, 0x7FFF, 0x8000, 0xFFFF):
            lied = data[:place] + words(lie) + data[place + 2:]
            found.add(ended(before + picture(op(name, lied), DOT, frame=FOUR)[len(before) - 10:]))
    assert found <= {"whole", "broken"}


def test_numbers_in_front_that_lie():
    whole, found = picture(DOT, frame=FOUR, header=extended(FOUR)), set()
    for place in range(0, 40, 2):
        for lie in (0, 1, 0x7FFF, 0x8000, 0xFFFF):
            found.add(ended(whole[:place] + words(lie) + whole[place + 2:]))
    assert found == {"whole", "Damaged"}


def test_pictures_changed_by_chance():
    chance, whole, found = random.Random(5), picture(*ALL, frame=FOUR), []
    for _ in range(400):
        data = bytearray(whole)
        for _ in range(chance.choice((1, 2, 8))):
            data[chance.randrange(14, len(data))] = chance.choice((0, 1, 127, 128, 255, chance.randrange(256)))
        if chance.random() < 0.2:
            place = chance.randrange(14, len(data))
            data[place:place] = bytes(chance.randrange(256) for _ in range(chance.randrange(20)))
        found.append(ended(bytes(data)))
    assert found.count("whole") > 20 and found.count("broken") > 20


# What is refused, and where.

def broken(*ops, frame=FOUR):
    """The note of a picture that draws a dot and breaks off in the first of these opcodes, whose data begin at byte 52."""
    shown = pictures.decode(picture(DOT, *ops, frame=frame), None)
    assert rows_of(shown) == DOTTED
    note, = shown.notes
    assert note.startswith("the picture breaks off at byte ")
    return note[len("the picture breaks off at byte "):]


def test_row_bytes_that_lie():
    assert broken(op("BitsRect", bitmap(0, FOUR), BITS)) == "52: a row has 0 bytes, and 4 pixels of 1 bits"
    assert broken(op("BitsRect", bitmap(1, (0, 0, 4, 9)), BITS)) == "52: a row has 1 bytes, and 9 pixels of 1 bits"
    assert broken(op("BitsRect", bitmap(0x7FFF, FOUR), BITS, bytes(100))).endswith(": 131068 bytes are wanted and 102 are there")
    assert broken(op("BitsRect", pixmap(3, FOUR, 8), table("X"), BITS)) == "52: a row has 3 bytes, and 4 pixels of 8 bits"
    assert broken(op("DirectBitsRect", direct(8, FOUR, 32), BITS)) == "52: a row has 8 bytes, and 4 pixels of 32 bits"
    assert broken(op("DirectBitsRect", direct(9, FOUR, 16), BITS)) == "52: a row of pixels of 16 bits has 9 bytes"
    assert broken(op("DirectBitsRect", direct(18, FOUR, 32), BITS)) == "52: a row of pixels of 32 bits has 18 bytes"
    assert broken(op("PackBitsRect", bitmap(8, FOUR), BITS, b"\2\xF8\0\1\0")) == "83: a packed row gives 0 bytes, and has to give 1"


def test_pixels_that_do_not_exist():
    assert broken(op("BitsRect", pixmap(8, FOUR, 3), table("X"), BITS)) == "52: a pixmap has 3 bits a pixel"
    assert broken(op("BitsRect", pixmap(16, FOUR, 32), table("X"), BITS)) == "52: a pixmap has 32 bits a pixel"
    assert broken(op("DirectBitsRect", direct(8, FOUR, 8), BITS)) == "52: a pixmap of direct pixels has 8 bits a pixel"
    assert broken(op("DirectBitsRect", direct(16, FOUR, 32, 3), BITS)) == "52: pixels of 32 bits are packed in the way 3"
    assert broken(op("DirectBitsRect", direct(16, FOUR, 16, 4), BITS)) == "52: pixels of 16 bits are packed in the way 4"
    assert broken(op("DirectBitsRect", direct(16, FOUR, 32, 0, 2), BITS)) == "52: direct pixels have 2 components"
    assert broken(op("BitsRect", pixmap(4, FOUR, 8), bytes(6), words(-2), BITS)) == "98: a color table has -1 colors"
    assert broken(op("BitsRect", bitmap(2, (4, 0, 4, 4)), BITS)) == "52: pixels have no width or no height"
    assert broken(op("BitsRect", bitmap(2, (0, 3, 4, 2)), BITS)) == "52: pixels have no width or no height"


def test_too_many_pixels_within_a_picture():
    far = (0, 0, 32767, 32767)
    many = "50: 32767 by 32767 pixels are more than the 16777216 that are decoded"
    assert broken(op("BitsRect", bitmap(0x7FFE, far), BITS)) == many
    assert broken(op("PackBitsRect", pixmap(0x7FFF, far, 8), table("X"), BITS)) == many
    assert broken(op("DirectBitsRect", direct(0x7FFC, (0, 0, 32767, 8191), 32), BITS)).startswith("50: 8191 by 32767 pixels are more")
    pattern = pixmap(2048, (0, 0, 1024, 2048), 8) + table("X")
    assert broken(op("PnPixPat", words(1), bytes(8), pattern)) == "50: a pattern has 2048 by 1024 pixels"
    alone = picture(op("BitsRect", bitmap(0x7FFE, far), BITS), frame=FOUR)
    with pytest.raises(TooLarge, match="^32767 by 32767 pixels are more"):
        pictures.decode(alone, None)


def test_regions_and_polygons_that_lie():
    for length in (0, 2, 8, 11):
        assert broken(op("paintRgn", words(length, *FOUR))) == "52: a region has %d bytes" % length
    for length in (0, 8, 11, 12):
        assert broken(op("paintPoly", words(length, *FOUR))) == "52: a polygon has %d bytes" % length
    assert broken(op("paintPoly", words(0x7FFE, *FOUR))).endswith("62: 32756 bytes are wanted and 2 are there")
    falls = "62: the scan lines of a region don't rise"
    for line in ((0, 2, 1), (0, 1, 1), (0, 1)):
        assert broken(op("Clip", region(FOUR, line))) == falls
    for row in (0, -1):
        assert broken(op("Clip", region(FOUR, (0, 1, 2), (row, 1, 2)))) == "70: the scan lines of a region don't rise"
    assert broken(op("Clip", words(18, *FOUR), words(0, 1, 2, 3))) == "70: a region has no end"


def test_a_region_covers_nothing_beyond_the_rectangle_around_it():
    shown = pictures.decode(picture(op("paintRgn", region((1, 1, 3, 3), (0, 0, 4), (4, 0, 4))), frame=FOUR), None)
    assert rows_of(shown) == ["....", ".XX.", ".XX.", "...."]


# A JPEG that lies.

WIDE = (0, 0, 4, 8)


def refusal(data, **more):
    """Why the JPEG isn't drawn; its own bytes begin at byte 210: after 4 for the length, 68, and 86 of its description."""
    return broken(op("CompressedQuickTime", quicktime(data, WIDE, **more)))


def test_a_jpeg_that_is_cut_is_refused_at_each_length():
    for length in range(len(JPEG) - 5):
        refusal(JPEG[:length])
    assert refusal(b"") == refusal(b"GIF89a") == "210: there is no JPEG"


def test_sizes_of_a_jpeg_that_lie():
    frame = JPEG.index(b"\xFF\xC0")
    many = JPEG[:frame + 5] + words(0x7FFF, 0x7FFF) + JPEG[frame + 9:]
    assert refusal(many) == "50: 32767 by 32767 pixels are more than the 16777216 that are decoded"
    for size in (words(0, 16), words(8, 0)):
        assert refusal(JPEG[:frame + 5] + size + JPEG[frame + 9:]).endswith(": a JPEG has no size")
    assert refusal(JPEG[:frame] + JPEG[frame + 13:]).endswith(": a JPEG has no size")
    assert refusal(JPEG[:frame] + b"\xFF\xD9").endswith(": a JPEG has no picture")
    assert refusal(JPEG[:2] + b"\xFF\xDB\0\1" + JPEG[2:]) == "214: a segment of a JPEG has 1 bytes"
    assert refusal(JPEG, mask=words(4)).endswith("124: a region has 4 bytes")
    assert refusal(JPEG, length=1000).endswith(": a compressed picture has 1000 bytes, and %d are there" % len(JPEG))
    assert refusal(JPEG[:frame + 4] + b"\x0C" + JPEG[frame + 5:]).startswith("210: a JPEG can't be decoded (")


def test_words_of_a_jpeg_that_lie():
    for place in range(len(JPEG) - 1):
        for lie in (0, 0x7FFF, 0xFFFF):
            ended(picture(DOT, op("CompressedQuickTime", quicktime(JPEG[:place] + words(lie) + JPEG[place + 2:], WIDE)), frame=FOUR))


def test_many_scans_are_more_work_than_is_done_and_many_pixels_in_scans_are_refused():
    frame, scan = JPEG.index(b"\xFF\xC0"), JPEG.index(b"\xFF\xDA")

    def large(width, height, marker=b"\xC0", scans=1, components=b"\1"):
        return (JPEG[:frame + 1] + marker + JPEG[frame + 2:frame + 5] + words(height, width) + JPEG[frame + 9:scan]
                + (JPEG[scan:scan + 4] + components + JPEG[scan + 5:-2]) * scans + JPEG[-2:])

    for data in (large(4096, 4096, b"\xC2"), large(4096, 4096, scans=2), large(4096, 4096, components=b"\2")):
        with pytest.raises(TooLarge, match="^a progressive JPEG has 16777216 pixels, more than the 8388608 that are decoded$"):
            decoder.needed_segments(data, quickdraw.Work())
    decoder.needed_segments(large(4096, 4096), quickdraw.Work())
    decoder.needed_segments(large(4096, 2048, b"\xC2", 10), quickdraw.Work())
    with pytest.raises(TooLarge, match="more work than is done"):
        decoder.needed_segments(large(4096, 2048, b"\xC2", 100), quickdraw.Work())


# Work. A tenth of what is else done is done here, so that the tests take little time.

SECONDS = 2  # of the processor; less than a half on a machine that does nothing else
MORE = ": to draw the whole picture is more work than is done"
MOST = (-32768, -32768, 32767, 32767)


@pytest.fixture
def tenth(monkeypatch):
    """Lets pictures do a tenth of the work; gives a function that decodes one and tells the work that was left."""
    given = []

    def less():
        given.append(quickdraw.Work(quickdraw.MOST_WORK // 10))
        return given[-1]

    def decode(data):
        begun = time.process_time()
        shown = pictures.decode(data, None)
        assert time.process_time() - begun < SECONDS
        return shown, given[-1].left

    monkeypatch.setattr(pictures, "Work", less)
    return decode


@pytest.mark.parametrize("name, data", (
    ("frameRect", words(*MOST)), ("paintRRect", words(*MOST)), ("frameOval", words(*MOST)), ("frameArc", words(*MOST, 10, 300)),
    ("Line", words(-32768, -32768, 32767, 32767)), ("Line", words(-32768, 5, 32767, 6)), ("frameRgn", region(MOST)),
    ("framePoly", polygon((-32768, -32768), (32767, 32767), (-32768, 32767), (32767, -32768))),
    ("paintPoly", polygon((-32768, -32768), (32767, 32767), (-32768, 32767), (32767, -32768))),
    ("BitsRect", bitmap(2, FOUR) + FULL + words(*MOST) + words(0) + b"\xF0\0" * 4)))
@pytest.mark.parametrize("pen", (1, 32767))
def test_shapes_far_beyond_the_frame_take_little_work(tenth, name, data, pen):
    shown, left = tenth(picture(op("PnSize", words(pen, pen)), op("OvSize", words(32767, 32767)), op(name, data), frame=(0, 0, 100, 100)))
    assert shown.notes == [] and left > quickdraw.MOST_WORK // 10 - 400000


AGAIN = ((b"\x31" + FULL, b"\x39"), (b"\x31" + FULL, b"\0"), (b"\x20" + FULL, b"\x21\0\0\0\0"), (b"\x51" + FULL, b"\x58"),
         (b"\x31" + FULL, b"\x28" + FULL[:4] + b"\1A"), (b"\x31" + FULL, b"\x90" + bitmap(2, FOUR) + BITS + bytes(8)))


@pytest.mark.parametrize("begin, again", AGAIN, ids=("rectangles", "nothing", "lines", "ovals", "text", "bits"))
def test_many_opcodes_are_more_work_than_is_done(tenth, begin, again):
    shown, left = tenth(words(0, *FOUR) + b"\x11\1" + begin + again * 200000)
    assert left < 0 and shown.notes[-1].startswith("the picture breaks off at byte ") and shown.notes[-1].endswith(MORE)


def test_pixels_many_times_over_are_more_work_than_is_done(tenth):
    large = (0, 0, 1000, 1000)
    for each in (op("paintRect", words(*large)), op("invertRect", words(*large)), op("frameOval", words(*large)),
                 op("PackBitsRect", bitmap(126, large), words(*large) * 2, words(2), b"\2\x83\xFF" * 1000)):
        shown, left = tenth(picture(*[each] * 30, frame=large))
        assert left < 0 and shown.notes[-1].endswith(MORE)


def test_many_scan_lines_and_edges_are_more_work_than_is_done(tenth):
    lines = region(MOST, [0] + list(range(-16000, 16000, 2)), *[(row, 0, 1) for row in range(1, 4000)])
    zigzag = polygon(*[(number, (number % 2) * 4096) for number in range(8000)])
    for each in (op("Clip", lines), op("paintPoly", zigzag), op("framePoly", zigzag)):
        shown, left = tenth(picture(DOT, each, frame=(0, 0, 4096, 40)))
        assert left < 0 and shown.notes == ["the picture breaks off at byte 50" + MORE]


def test_a_thick_pen_around_a_region_takes_little_work(tenth):
    """From the row 1000 on the region lacks a column, so the border leaves other columns free from 500 rows above it on."""
    tall = region((0, 0, 2000, 10), (0, 0, 10), (1000, 1, 2), (2000, 0, 1, 2, 10))
    shown, left = tenth(picture(op("PnSize", words(500, 1)), op("frameRgn", tall), frame=(0, 0, 2000, 10)))
    assert shown.notes == [] and left > 0
    assert rows_of(shown) == ["XXXXXXXXXX"] * 500 + ["XXX......X"] * 500 + ["X.X......X"] * 500 + ["X.XXXXXXXX"] * 500


def test_large_pictures_are_drawn_whole():
    """4096 by 4096 pixels of 8 bits, by the whole of the work."""
    large = (0, 0, 4096, 4096)
    row = b"\x81\1" * 32
    data = pixmap(4096, large, 8) + table("X", "r") + words(*large) * 2 + words(0) + (words(len(row)) + row) * 4096
    shown = pictures.decode(picture(op("PackBitsRect", data), frame=large), None)
    assert shown.notes == [] and shown.size == (4096, 4096)
