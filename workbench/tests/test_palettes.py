"""The standard color tables, and color tables of resources."""
import pytest
from icon_bytes import BLACK, GREEN, RED, WHITE, color_table
from rezkit_workbench.errors import Damaged
from rezkit_workbench.palettes import STANDARD, colors_of, read_color_table
from rezkit_workbench.reading import Reader

SIXTEEN = ("FFFFFF", "FCF305", "FF6402", "DD0806", "F20884", "4600A5", "0000D4", "02ABEA",
           "1FB714", "006411", "562C05", "90713A", "C0C0C0", "808080", "404040", "000000")
SOME_OF_256 = {0: "FFFFFF", 1: "FFFFCC", 5: "FFFF00", 6: "FFCCFF", 35: "FF0000", 36: "CCFFFF", 43: "CCCCCC", 172: "333333", 185: "00FF00",
               210: "0000FF", 214: "000033", 215: "EE0000", 216: "DD0000", 224: "110000", 225: "00EE00", 234: "001100", 235: "0000EE",
               244: "000011", 245: "EEEEEE", 246: "DDDDDD", 247: "BBBBBB", 248: "AAAAAA", 249: "888888", 250: "777777", 251: "555555",
               252: "444444", 253: "222222", 254: "111111", 255: "000000"}


def spelled(color):
    return "%02X%02X%02X" % color


def test_the_standard_tables():
    assert [spelled(color) for color in STANDARD[1]] == ["FFFFFF", "000000"]
    assert [spelled(color) for color in STANDARD[2]] == ["FFFFFF", "AAAAAA", "555555", "000000"]
    assert tuple(spelled(color) for color in STANDARD[4]) == SIXTEEN
    assert {number: spelled(STANDARD[8][number]) for number in SOME_OF_256} == SOME_OF_256
    assert len(STANDARD[8]) == len(set(STANDARD[8])) == 256


@pytest.mark.parametrize("flags, found", (
    (0, {5: (255, 0, 0), 0: (0, 128, 18)}),
    (0x7FFF, {5: (255, 0, 0), 0: (0, 128, 18)}),
    (0x8000, {0: (255, 0, 0), 1: (0, 128, 18)}),
    (0xFFFF, {0: (255, 0, 0), 1: (0, 128, 18)}),
))
def test_values_and_places(flags, found):
    reader = Reader(b"xx" + color_table((5, RED), (0, GREEN), flags=flags) + b"rest", 2)
    colors = colors_of(read_color_table(reader))
    assert len(colors) == 256 and {number: color for number, color in enumerate(colors) if color} == found
    assert reader.take(4) == b"rest"


def test_the_last_of_equal_values_counts_and_values_over_255_dont():
    colors = colors_of(read_color_table(Reader(color_table((1, RED), (256, RED), (1, WHITE), (0xFFFF, BLACK)))))
    assert colors == [None, (255, 255, 255)] + [None] * 254


def test_no_colors_and_256_and_257():
    assert read_color_table(Reader(color_table())) == []
    assert read_color_table(Reader(color_table(*[(number, BLACK) for number in range(256)])))[-1] == (255, (0, 0, 0))
    with pytest.raises(Damaged) as fault:
        read_color_table(Reader(color_table(*[(number, BLACK) for number in range(257)])))
    assert str(fault.value) == "a color table of 257 colors at byte 6"


@pytest.mark.parametrize("size, said", (
    (b"\0\1", "16 bytes are wanted and 8 are there at byte 8"), (b"\x7F\xFF", "a color table of 32768 colors at byte 6"),
    (b"\x80\0", "a color table of 32769 colors at byte 6"), (b"\xFF\xFE", "a color table of 65535 colors at byte 6")))
def test_a_count_that_lies(size, said):
    whole = color_table((0, WHITE))
    with pytest.raises(Damaged) as fault:
        read_color_table(Reader(whole[:6] + size + whole[8:]))
    assert str(fault.value) == said
    for length in range(len(whole)):
        with pytest.raises(Damaged):
            read_color_table(Reader(whole[:length]))
