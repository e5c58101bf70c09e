"""Colors: the standard color tables of 1, 2, 4 and 8 bits, and the color tables of resources.

Source: Inside Macintosh: Imaging With QuickDraw, chapter 4, 'Color QuickDraw': the record ColorTable, and the resources
'clut' 1, 2, 4 and 8 that GetCTable reads. A color is (red, green, blue), each from 0 to 255; of the 16 bits that a color
table has of each the first 8 are taken.
"""
import struct

from .errors import Damaged

WHITE, BLACK = (255, 255, 255), (0, 0, 0)
MOST_COLORS = 256
BY_PLACE = 0x8000  # the flag of a color table whose entries are numbered from 0, whatever values they have

CUBE = (255, 204, 153, 102, 51, 0)
RAMP = (238, 221, 187, 170, 136, 119, 85, 68, 34, 17)


def with_8_bits():
    """215 colors of six steps each, ten steps of red, of green, of blue and of gray, and black."""
    cube = [(red, green, blue) for red in CUBE for green in CUBE for blue in CUBE][:-1]
    reds, greens, blues = [(step, 0, 0) for step in RAMP], [(0, step, 0) for step in RAMP], [(0, 0, step) for step in RAMP]
    return cube + reds + greens + blues + [(step, step, step) for step in RAMP] + [BLACK]


STANDARD = {
    1: [WHITE, BLACK],
    2: [WHITE, (170, 170, 170), (85, 85, 85), BLACK],
    4: [WHITE, (252, 243, 5), (255, 100, 2), (221, 8, 6), (242, 8, 132), (70, 0, 165), (0, 0, 212), (2, 171, 234),
        (31, 183, 20), (0, 100, 17), (86, 44, 5), (144, 113, 58), (192, 192, 192), (128, 128, 128), (64, 64, 64), BLACK],
    8: with_8_bits(),
}  # by the bits of a pixel


def read_color_table(reader):
    """The entries of the color table that is read next, (value, color), in their order. More than 256 are refused."""
    reader.take(4)  # seed
    flags, place = reader.word(), reader.place
    count = (reader.word() + 1) & 0xFFFF
    if count > MOST_COLORS:
        raise Damaged(place, "a color table of %d colors" % count)
    entries = [(value, (red, green, blue)) for value, red, green, blue in struct.iter_unpack(">HBxBxBx", reader.take(8 * count))]
    return [(number, color) for number, (_, color) in enumerate(entries)] if flags & BY_PLACE else entries


def colors_of(entries):
    """The colors of the pixel values from 0 to 255; None where no entry has the value. Of several the last counts."""
    found = dict(entries)
    return [found.get(value) for value in range(MOST_COLORS)]
