"""What lines, rectangles, ovals, arcs, polygons and regions of a picture look like, with each verb and with the same shape again."""
import pytest
from picture_builder import back, fore, op, picture, polygon, region, rows_of, words
from rezkit_workbench import pictures

FULL = ["........"] * 8
RED_GROUND = (fore("r"), op("paintRect", words(0, 0, 8, 8)), fore("X"))
STRIPES = b"\xFF\0" * 4


def drawn(*ops, **more):
    shown = pictures.decode(picture(*ops, **more), None)
    assert shown.ending == "png" and shown.notes == []
    return rows_of(shown)


def filled(rows):
    """Rows of letters, filled up with white to a picture of 8 by 8."""
    return ([row.ljust(8, ".") for row in rows] + FULL)[:8]


# Each shape: what is read of one, what is read of the same again, the pixels within it, and those of its frame.
SHAPES = {
    "Rect": (words(1, 2, 5, 7), b"",
             ["........", "..XXXXX.", "..XXXXX.", "..XXXXX.", "..XXXXX.", "........", "........", "........"],
             ["........", "..XXXXX.", "..X...X.", "..X...X.", "..XXXXX.", "........", "........", "........"]),
    "RRect": (words(0, 0, 8, 8), b"",
              ["..XXXX..", ".XXXXXX.", "XXXXXXXX", "XXXXXXXX", "XXXXXXXX", "XXXXXXXX", ".XXXXXX.", "..XXXX.."],
              ["..XXXX..", ".X....X.", "X......X", "X......X", "X......X", "X......X", ".X....X.", "..XXXX.."]),
    "Oval": (words(0, 0, 8, 8), b"",
             ["..XXXX..", ".XXXXXX.", "XXXXXXXX", "XXXXXXXX", "XXXXXXXX", "XXXXXXXX", ".XXXXXX.", "..XXXX.."],
             ["..XXXX..", ".X....X.", "X......X", "X......X", "X......X", "X......X", ".X....X.", "..XXXX.."]),
    "Arc": (words(0, 0, 8, 8, 0, 90), words(0, 90),
            ["....XX..", "....XXX.", "....XXXX", "....XXXX", "........", "........", "........", "........"],
            ["....XX..", "......X.", ".......X", ".......X", "........", "........", "........", "........"]),
    "Poly": (polygon((0, 0), (8, 0), (8, 4), (4, 4), (4, 8), (0, 8), (0, 0)), b"",
             ["XXXXXXXX", "XXXXXXXX", "XXXXXXXX", "XXXXXXXX", "XXXX....", "XXXX....", "XXXX....", "XXXX...."],
             ["XXXXXXXX", "X.......", "X.......", "X.......", "X...XXXX", "X...X...", "X...X...", "X...X..."]),
    "Rgn": (region((0, 0, 8, 8), (0, 0, 8), (4, 4, 8), (8, 0, 4)), b"",
            ["XXXXXXXX", "XXXXXXXX", "XXXXXXXX", "XXXXXXXX", "XXXX....", "XXXX....", "XXXX....", "XXXX...."],
            ["XXXXXXXX", "X......X", "X......X", "X..XXXXX", "X..X....", "X..X....", "X..X....", "XXXX...."]),
}
OVAL_8 = op("OvSize", words(8, 8))


def on_red(rows, letter):
    return [row.replace(".", "r").replace("X", letter) for row in rows]


@pytest.mark.parametrize("noun", SHAPES)
@pytest.mark.parametrize("version", (1, 2))
def test_frame_and_paint(noun, version):
    shape, _, within, frame = SHAPES[noun]
    assert drawn(OVAL_8, op("paint" + noun, shape), version=version) == within
    assert drawn(OVAL_8, op("frame" + noun, shape), version=version) == frame


@pytest.mark.parametrize("noun", SHAPES)
def test_erase_invert_and_fill(noun):
    shape, _, within, _ = SHAPES[noun]
    assert drawn(*RED_GROUND, OVAL_8, op("erase" + noun, shape)) == on_red(within, ".")
    assert drawn(*RED_GROUND, OVAL_8, op("invert" + noun, shape)) == on_red(within, "c")
    assert drawn(*RED_GROUND, OVAL_8, op("fill" + noun, shape)) == on_red(within, "X")


@pytest.mark.parametrize("noun", SHAPES)
def test_the_same_shape_again(noun):
    shape, again, within, frame = SHAPES[noun]
    first = (OVAL_8, op("erase" + noun, shape))
    assert drawn(*first, op("paintSame" + noun, again)) == within
    assert drawn(*first, op("frameSame" + noun, again)) == frame
    assert drawn(*first, op("fillSame" + noun, again)) == drawn(*first, op("invertSame" + noun, again)) == within
    assert drawn(*first, op("paintSame" + noun, again), op("eraseSame" + noun, again)) == FULL


def test_shapes_share_the_last_rectangle():
    assert drawn(op("eraseOval", words(0, 0, 2, 8)), op("paintSameRect")) == filled(["XXXXXXXX", "XXXXXXXX"])
    assert drawn(op("eraseRect", words(0, 0, 4, 4)), op("paintSameOval")) == filled([".XX.", "XXXX", "XXXX", ".XX."])
    assert drawn(op("paintSameRect")) == FULL


def test_verbs_use_patterns_of_their_own():
    patterns = (op("PnPat", STRIPES), op("FillPat", b"\0\xFF" * 4), op("BkPat", b"\xF0" * 8), fore("r"), back("b"))
    full = words(0, 0, 8, 8)
    assert drawn(*patterns, op("paintRect", full)) == ["rrrrrrrr", "bbbbbbbb"] * 4
    assert drawn(*patterns, op("fillRect", full)) == ["bbbbbbbb", "rrrrrrrr"] * 4
    assert drawn(*patterns, op("eraseRect", full)) == ["rrrrbbbb"] * 8
    assert drawn(*patterns, op("invertRect", full)) == ["XXXXXXXX"] * 8
    assert drawn(*patterns, op("frameRect", full))[:3] == ["rrrrrrrr", "b......b", "r......r"]


# Lines.

def line(across, down, to_across, to_down):
    return op("Line", words(down, across, to_down, to_across))


@pytest.mark.parametrize("version", (1, 2))
def test_lines_of_each_slope(version):
    assert drawn(line(1, 2, 6, 2), version=version) == filled(["", "", ".XXXXXX."])
    assert drawn(line(2, 6, 2, 1), version=version) == filled(["", "..X", "..X", "..X", "..X", "..X", "..X"])
    assert drawn(line(0, 0, 7, 7), version=version) == [
        "X.......", ".X......", "..X.....", "...X....", "....X...", ".....X..", "......X.", ".......X"]
    assert drawn(line(7, 0, 0, 7), version=version) == [
        ".......X", "......X.", ".....X..", "....X...", "...X....", "..X.....", ".X......", "X......."]
    assert drawn(line(0, 0, 7, 3), version=version) == filled(["XX......", "..XX....", "....XX..", "......XX"])
    assert drawn(line(7, 3, 0, 0), version=version) == filled(["XX......", "..XX....", "....XX..", "......XX"])
    assert drawn(line(0, 0, 3, 7), version=version) == [
        "X.......", "X.......", ".X......", ".X......", "..X.....", "..X.....", "...X....", "...X...."]
    assert drawn(line(3, 3, 3, 3), version=version) == filled(["", "", "", "...X"])


def test_lines_that_go_on_from_the_pen():
    first = line(1, 1, 5, 1)
    assert drawn(first, op("LineFrom", words(4, 5))) == filled(["", ".XXXXX", ".....X", ".....X", ".....X"])
    assert drawn(op("ShortLine", words(1, 1), b"\4\0")) == filled(["", ".XXXXX"])
    assert drawn(op("ShortLine", words(1, 1), b"\4\0"), op("ShortLineFrom", b"\0\3")) == drawn(first, op("LineFrom", words(4, 5)))
    assert drawn(op("ShortLine", words(4, 5), b"\xFC\xFC")) == filled([".X", "..X", "...X", "....X", ".....X"])
    assert drawn(op("ShortLine", words(4, 5), b"\xFC\0")) == filled(["", "", "", "", ".XXXXX"])
    assert drawn(op("LineFrom", words(0, 3))) == filled(["XXXX"])


def test_the_pen_hangs_right_of_and_below_the_line():
    pen = op("PnSize", words(3, 2))
    assert drawn(pen, line(1, 1, 4, 1)) == filled(["", ".XXXXX", ".XXXXX", ".XXXXX"])
    assert drawn(pen, line(1, 1, 1, 3)) == filled(["", ".XX", ".XX", ".XX", ".XX", ".XX"])
    assert drawn(op("PnSize", words(2, 2)), line(0, 0, 3, 3)) == filled(["XX", "XXX", ".XXX", "..XXX", "...XX"])
    assert drawn(pen, op("frameRect", words(0, 0, 8, 8))) == ["XXXXXXXX"] * 3 + ["XX....XX"] * 2 + ["XXXXXXXX"] * 3
    for size in (words(0, 1), words(1, 0), words(-1, 5), words(0, 0)):
        assert drawn(op("PnSize", size), line(1, 1, 4, 1), op("frameRect", words(0, 0, 8, 8))) == FULL
        assert drawn(op("PnSize", size), op("paintRect", words(0, 0, 8, 8))) == ["XXXXXXXX"] * 8


# Ovals, rounded rectangles, arcs.

def test_small_ovals():
    assert drawn(op("paintOval", words(0, 0, 4, 4))) == filled([".XX.", "XXXX", "XXXX", ".XX."])
    assert drawn(op("paintOval", words(0, 0, 3, 3))) == filled(["XXX", "XXX", "XXX"])
    assert drawn(op("paintOval", words(0, 0, 1, 1))) == filled(["X"])
    assert drawn(op("paintOval", words(0, 0, 4, 8))) == filled([".XXXXXX.", "XXXXXXXX", "XXXXXXXX", ".XXXXXX."])
    assert drawn(op("paintOval", words(0, 0, 7, 7))) == filled(
        ["..XXX..", ".XXXXX.", "XXXXXXX", "XXXXXXX", "XXXXXXX", ".XXXXX.", "..XXX.."])


def test_corners_of_rounded_rectangles():
    full = words(0, 0, 8, 8)
    assert drawn(op("paintRRect", full)) == ["XXXXXXXX"] * 8
    assert drawn(op("OvSize", words(4, 4)), op("paintRRect", full)) == [".XXXXXX."] + ["XXXXXXXX"] * 6 + [".XXXXXX."]
    assert drawn(op("OvSize", words(4, 4)), op("frameRRect", full)) == [".XXXXXX."] + ["X......X"] * 6 + [".XXXXXX."]
    assert drawn(op("OvSize", words(4, 8)), op("paintRRect", full)) == [".XXXXXX."] + ["XXXXXXXX"] * 6 + [".XXXXXX."]
    assert drawn(op("OvSize", words(8, 4)), op("frameRRect", full)) == [".XXXXXX."] + ["X......X"] * 6 + [".XXXXXX."]
    for size in (words(100, 100), words(32767, 32767)):
        assert drawn(op("OvSize", size), op("paintRRect", full)) == SHAPES["Oval"][2]
    for size in (words(-4, -4), words(0, 32767), words(32767, 0)):
        assert drawn(op("OvSize", size), op("paintRRect", full)) == ["XXXXXXXX"] * 8


def arc(start, extent, rect=(0, 0, 8, 8)):
    return op("paintArc", words(*rect, start, extent))


def test_arcs_go_clockwise_from_the_top():
    assert drawn(arc(0, 360)) == drawn(arc(90, -720)) == SHAPES["Oval"][2]
    assert drawn(arc(90, 90)) == filled(["", "", "", "", "....XXXX", "....XXXX", "....XXX.", "....XX.."])
    assert drawn(arc(180, 90)) == filled(["", "", "", "", "XXXX....", "XXXX....", ".XXX....", "..XX...."])
    assert drawn(arc(270, 90)) == drawn(arc(0, -90)) == drawn(arc(-90, 90)) == drawn(arc(630, 90)) == filled(
        ["..XX....", ".XXX....", "XXXX....", "XXXX...."])
    assert drawn(arc(0, 180)) == ["....XX..", "....XXX.", "....XXXX", "....XXXX", "....XXXX", "....XXXX", "....XXX.", "....XX.."]
    assert drawn(arc(0, 135)) == ["....XX..", "....XXX.", "....XXXX", "....XXXX", ".....XXX", "......XX", "........", "........"]
    assert drawn(arc(0, 270)) == ["....XX..", "....XXX.", "....XXXX", "....XXXX", "XXXXXXXX", "XXXXXXXX", ".XXXXXX.", "..XXXX.."]
    assert drawn(arc(17, 0)) == FULL


def test_the_angle_45_leads_to_the_corner_of_any_rectangle():
    """The middles of pixels on the first ray belong to the arc, those on the last don't."""
    assert drawn(arc(45, 90)) == ["........", "......X.", ".....XXX", "....XXXX", ".....XXX", "......XX", "........", "........"]
    assert drawn(arc(0, 45, (0, 0, 4, 8))) == filled(["....XXX.", "....X"])
    assert drawn(arc(45, 45, (0, 0, 4, 8))) == filled(["", ".....XXX"])


# Polygons and regions.

def test_polygons_are_filled_where_an_odd_number_of_edges_lies_left():
    triangle = polygon((0, 0), (8, 0), (0, 8))
    assert drawn(op("paintPoly", triangle)) == [
        "XXXXXXX.", "XXXXXX..", "XXXXX...", "XXXX....", "XXX.....", "XX......", "X.......", "........"]
    assert drawn(op("framePoly", triangle)) == [
        "XXXXXXXX", ".......X", "......X.", ".....X..", "....X...", "...X....", "..X.....", ".X......"]  # not tied
    ring = polygon((0, 0), (8, 0), (8, 8), (0, 8), (0, 0), (2, 2), (6, 2), (6, 6), (2, 6), (2, 2), (0, 0))
    assert drawn(op("paintPoly", ring)) == ["XXXXXXXX"] * 2 + ["XX....XX"] * 4 + ["XXXXXXXX"] * 2
    assert drawn(op("paintPoly", polygon())) == drawn(op("framePoly", polygon())) == FULL
    assert drawn(op("paintPoly", polygon((3, 3)))) == drawn(op("paintPoly", polygon((3, 3), (7, 3)))) == FULL


def test_regions_are_drawn_by_their_scan_lines():
    ring = region((0, 0, 8, 8), (0, 0, 8), (2, 2, 6), (6, 2, 6), (8, 0, 8))
    assert drawn(op("paintRgn", ring)) == ["XXXXXXXX"] * 2 + ["XX....XX"] * 4 + ["XXXXXXXX"] * 2
    assert drawn(op("frameRgn", ring)) == ["XXXXXXXX", "XXXXXXXX"] + ["XX....XX"] * 4 + ["XXXXXXXX"] * 2
    assert drawn(op("paintRgn", region((1, 1, 3, 4)))) == filled(["", ".XXX", ".XXX"])
    assert drawn(op("frameRgn", region((0, 0, 4, 4)))) == filled(["XXXX", "X..X", "X..X", "XXXX"])
    assert drawn(op("PnSize", words(1, 2)), op("frameRgn", region((0, 0, 5, 7)))) == filled(
        ["XXXXXXX", "XX...XX", "XX...XX", "XX...XX", "XXXXXXX"])
    assert drawn(op("paintRgn", region((0, 0, 0, 0)))) == FULL
    two = region((0, 0, 2, 8), (0, 0, 2, 4, 6), (1, 1, 2, 4, 8), (2, 0, 1, 6, 8))
    assert drawn(op("paintRgn", two)) == filled(["XX..XX", "X.....XX"])
