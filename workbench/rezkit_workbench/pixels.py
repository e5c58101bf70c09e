"""Pictures of a resource's pixels: bit maps, pixel maps with an index for each pixel, and PNG files.

Source: Inside Macintosh: Imaging With QuickDraw, chapter 2, 'Basic QuickDraw' (BitMap), and chapter 4, 'Color QuickDraw'
(PixMap). The pixels of a row stand from left to right, in bytes from the highest bit to the lowest, and the row bytes say
how far a row begins after the one above. Pillow keeps the pictures: one of mode P has an index for each pixel and a
palette, one of mode 1 has bits.
"""
import io

from .errors import Damaged, Refused, TooLarge
from .palettes import BLACK, STANDARD, colors_of, read_color_table
from .reading import MOST_PIXELS, Reader, Shown, check_pixels

try:
    from PIL import Image, ImageChops, ImageDraw, ImageFont
except ImportError:  # which `pillow` tells
    Image = ImageChops = ImageDraw = ImageFont = None

DEPTHS = (1, 2, 4, 8)  # bits of a pixel that is an index
ROW_BYTES = 0x3FFF  # the two bits above them are flags
MOST_FULL = MOST_PIXELS // 4  # pixels of four bytes
MOST_IN_ROW = 4096  # pictures side by side
QUICK = 1  # how hard PNG is packed
NO_COLOR = "Some pixels have values that aren't in the color table. They are shown black."


def pillow():
    """Pillow's module of pictures."""
    if Image is None:
        raise Refused("Python's module PIL is missing (Debian's package python3-pil)")
    return Image


def check_full(width, height):
    """Refuses a picture in which pixels can be transparent, before memory is taken: such a pixel takes four bytes."""
    if width * height > MOST_FULL:
        raise TooLarge("%d by %d pixels, of which some can be transparent, are more than the %d that are decoded" % (width, height, MOST_FULL))


def check_row(count):
    """Refuses more pictures side by side than a page can show."""
    if count > MOST_IN_ROW:
        raise TooLarge("%d pictures are more than the %d of one resource that are decoded" % (count, MOST_IN_ROW))


class Grid:
    """Where pixels stand: the width and height in pixels, the bits of a pixel, and the bytes of a row."""

    def __init__(self, size, depth=1, row_bytes=None):
        self.size, self.depth = size, depth
        self.row_bytes = (size[0] * depth + 7) // 8 if row_bytes is None else row_bytes

    def length(self):
        """How many bytes the pixels take."""
        return self.row_bytes * self.size[1]

    def check(self, place):
        """Refuses no width or height, too many pixels, and too few row bytes. `place` is where the row bytes stand."""
        width, height = self.size
        if width <= 0 or height <= 0:
            raise Damaged(place + 2, "bounds of %d by %d pixels" % (width, height))
        check_pixels(width, height)
        if 8 * self.row_bytes < width * self.depth:
            raise Damaged(place, "rows of %d bytes for %d pixels of %d bits" % (self.row_bytes, width, self.depth))

    def bits(self, data):
        """A picture of mode 1, which is 255 where a bit is 1."""
        return pillow().frombytes("1", self.size, data, "raw", "1", self.row_bytes)

    def indexes(self, data, colors):
        """A picture of mode P. `colors` are those of the pixel values from 0; None is shown black."""
        form = "P" if self.depth == 8 else "P;%d" % self.depth
        picture = pillow().frombytes("P", self.size, data, "raw", form, self.row_bytes)
        picture.putpalette(b"".join(bytes(color or BLACK) for color in colors[:1 << self.depth]))
        return picture


def read_grid(reader):
    """The row bytes and the bounds, with which a BitMap and a PixMap begin after four bytes for the place of their pixels."""
    reader.take(4)
    row_bytes = reader.word() & ROW_BYTES
    top, left, bottom, right = [reader.integer() for _ in range(4)]
    return Grid((right - left, bottom - top), 1, row_bytes)


class PixelMap:
    """A PixMap record: the grid of its pixels, and where in the resource its color table begins."""

    def __init__(self, reader):
        begin = reader.place
        self.grid = read_grid(reader)
        reader.take(18)  # version, packing, resolution, kind of pixels
        self.grid.depth = reader.word()
        if self.grid.depth not in DEPTHS:
            raise Damaged(reader.place - 2, "pixels of %d bits" % self.grid.depth)
        self.grid.check(begin + 4)
        reader.take(8)  # components, planes
        self.table = reader.long()
        reader.take(4)

    def picture(self, data, begin, place):
        """The picture and its colors. The pixels are at `place` after `begin`, from which the color table is counted too."""
        colors = colors_of(read_color_table(Reader(data, begin + self.table)))
        return self.grid.indexes(Reader(data, begin + place).take(self.grid.length()), colors), colors


def black_and_white(data, size):
    """A picture of bits, 0 white and 1 black."""
    return Grid(size).indexes(data, STANDARD[1])


def notes_of_colors(picture, colors, mask=None):
    """A note if a pixel that is seen has a value without a color."""
    counts = picture.histogram(mask)
    return [NO_COLOR] if any(count and colors[value] is None for value, count in enumerate(counts)) else []


def masked(picture, mask):
    """The picture with transparent pixels where the mask, of mode 1, is 0."""
    check_full(*picture.size)
    full = picture.convert("RGBA")
    full.putalpha(mask.convert("L"))
    return full


def row_size(sizes, between):
    """The width and height of pictures of these sizes in a row, with so many empty columns between two; refused if too large."""
    width, height = sum(width for width, _ in sizes) + between * (len(sizes) - 1), max(height for _, height in sizes)
    check_full(width, height)
    return width, height


def side_by_side(tiles, between):
    """Pictures in a row, with so many empty columns between two of them."""
    row, left = pillow().new("RGBA", row_size([tile.size for tile in tiles], between)), 0
    for tile in tiles:
        row.paste(tile.convert("RGBA"), (left, 0))
        left += tile.size[0] + between
    return row


def shown(picture, notes=()):
    """The picture as PNG."""
    out = io.BytesIO()
    picture.save(out, "PNG", compress_level=QUICK)
    return Shown("png", out.getvalue(), picture.size, notes)
