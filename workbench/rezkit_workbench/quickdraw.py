"""What QuickDraw draws with: colors, patterns, modes of transfer, and the pixels that are drawn on.

Source: Inside Macintosh: Imaging With QuickDraw, chapter 3 'QuickDraw Drawing' (patterns, Boolean modes) and chapter 4
'Color QuickDraw' (the eight colors of old, pixel patterns, arithmetic modes).
"""
import collections
import dataclasses
import functools

from .errors import TooLarge
from .pixels import Image, ImageChops
from .regions import ROW, Rect, Shape, in_both, rectangle

BLACK, WHITE = (0, 0, 0), (255, 255, 255)
OLD_COLORS = {
    33: BLACK, 30: WHITE, 69: (0xFC, 0xF3, 0x05), 137: (0xF2, 0x08, 0x84), 205: (0xDD, 0x08, 0x06), 273: (0x02, 0xAB, 0xEA),
    341: (0x00, 0x80, 0x11), 409: (0x00, 0x00, 0xD4)}  # black, white, yellow, magenta, red, cyan, green, blue
COPY, OR, XOR, BIC = range(4)
NOT, DITHER, TRANSPARENT = 4, 64, 36
GRAY_TEXT, HIGHLIGHT = 49, 50
STRIP, STRIP_PIXELS = 64, 16384  # rows that are drawn at a time at least, and pixels of narrow ones
MOST_WORK = 200000000  # about two seconds, in steps: a pixel that is copied takes one
SHAPE, BOX = 4000, 2000  # steps that a shape takes, and each strip of it
MIXED, TINTED = 5, 2  # more steps of a pixel in a mode other than to copy, and in other colors than black and white


class Work:
    """How much is still drawn, so that a picture that lies about its sizes doesn't take long."""

    def __init__(self, most=MOST_WORK):
        self.left = most

    def spend(self, steps):
        self.left -= steps
        if self.left < 0:
            raise TooLarge("to draw the whole picture is more work than is done")


class Colors(collections.namedtuple("Colors", "fore back operand")):
    """The color that black is drawn in, that of white, and the one that arithmetic modes use."""


PLAIN = Colors(BLACK, WHITE, BLACK)


# Patterns.

class Pattern:
    """What fills a shape: rows of colors that come again across and down, from the coordinates (0, 0) on.

    `rows` are the bytes of red, green and blue. A pattern of black and white is drawn in the two colors of the pen, one
    that has colors (`colored`) in its own.
    """

    def __init__(self, width, rows, colored=False):
        self.width, self.rows, self.colored = width, rows, colored

    def pixels(self, box):
        """The piece of it that lies at a rectangle."""
        first, length, count = 3 * (box.left % self.width), 3 * box.width, len(self.rows)
        lines = [repeated(self.rows[row % count], first, length) for row in range(box.top, box.top + min(count, box.height))]
        times, rest = divmod(box.height, count)
        return Image.frombytes("RGB", (box.width, box.height), b"".join(lines) * times + b"".join(lines[:rest]))


def repeated(row, first, length):
    """So many bytes of a row from a place in it on, as it comes again and again."""
    begin = row[first:first + length]
    times, rest = divmod(length - len(begin), len(row))
    return begin + row * times + row[:rest]


ROWS_OF_8 = [b"".join(bytes(BLACK if byte >> bit & 1 else WHITE) for bit in range(7, -1, -1)) for byte in range(256)]


def old_pattern(data):
    """The pattern of 8 by 8 pixels in 8 bytes, in which a bit of 1 is black."""
    return Pattern(8, [ROWS_OF_8[byte] for byte in data])


def plain_pattern(color):
    """A pattern of one color."""
    return Pattern(1, [bytes(color)], colored=True)


def pixel_pattern(width, data):
    """The pattern of the rows of a picture, three bytes a pixel."""
    return Pattern(width, [data[place:place + 3 * width] for place in range(0, len(data), 3 * width)], colored=True)


ALL_BLACK, ALL_WHITE = old_pattern(b"\xFF" * 8), old_pattern(bytes(8))


# Modes.

def known_mode(number):
    """The mode that a number means: 0 to 7, or an arithmetic one; or None. Modes of patterns are those of pixels and 8."""
    if DITHER <= number < 2 * DITHER:
        number -= DITHER
    if number < 16:
        return number & 7
    return number if number in ARITHMETIC else None


def ramp(first, last):
    """A table for Pillow that maps black to a color, white to another, and what lies between in proportion."""
    return [value for low, high in zip(first, last) for value in between(low, high)]


@functools.lru_cache(maxsize=4096)
def between(low, high):
    """256 values in equal steps from one to another."""
    return [(low * (255 - value) + high * value + 127) // 255 for value in range(256)]


def colored(source, colors):
    """A picture in the two colors in place of black and white."""
    if (colors.fore, colors.back) == (BLACK, WHITE):
        return source
    return source.point(ramp(colors.fore, colors.back))


def exclusive(first, second):
    """Two pictures of one size, of whose bits those are 1 that differ."""
    one, other = first.tobytes(), second.tobytes()
    bits = int.from_bytes(one, "big") ^ int.from_bytes(other, "big")
    return Image.frombytes("RGB", first.size, bits.to_bytes(len(one), "big"))


def mixed(mode, source, target, colors):
    """The pixels that come of drawing a picture on another in a mode.

    Copied, black becomes the one color and white the other. By `or` black becomes the color and white changes nothing; by
    `bic` black becomes the color of white; by `xor` black inverts. NOT changes black and white of the source first.
    """
    if mode in ARITHMETIC:
        return ARITHMETIC[mode](colored(source, colors), target, colors)
    if mode & NOT:
        source = ImageChops.invert(source)
    if mode & 3 == COPY:
        return colored(source, colors)
    if mode & 3 == XOR:
        return exclusive(ImageChops.invert(source), target)
    ink = colors.fore if mode & 3 == OR else colors.back
    kept = ImageChops.multiply(source, target)
    return kept if ink == BLACK else ImageChops.add(kept, source.point(ramp(ink, BLACK)))


def plain(color, like):
    """A picture of one color."""
    return Image.new("RGB", like.size, color)


def blended(source, target, colors):
    """The mean of both, in which the operand weighs the source."""
    rest = tuple(255 - part for part in colors.operand)
    return ImageChops.add(source.point(ramp(BLACK, colors.operand)), target.point(ramp(BLACK, rest)))


def without_ground(source, target, colors):
    """The source, but where it has the color of white."""
    red, green, blue = ImageChops.difference(source, plain(colors.back, source)).split()
    differs = ImageChops.lighter(ImageChops.lighter(red, green), blue).point([0] + [255] * 255)
    return Image.composite(source, target, differs)


ARITHMETIC = {
    32: blended,
    33: lambda source, target, colors: ImageChops.darker(ImageChops.add(source, target), plain(colors.operand, source)),
    34: lambda source, target, colors: ImageChops.add_modulo(source, target),
    35: lambda source, target, colors: ImageChops.lighter(ImageChops.subtract(target, source), plain(colors.operand, source)),
    TRANSPARENT: without_ground,
    37: lambda source, target, colors: ImageChops.lighter(source, target),
    38: lambda source, target, colors: ImageChops.subtract_modulo(target, source),
    39: lambda source, target, colors: ImageChops.darker(source, target),
}


# What is drawn with, and on.

@dataclasses.dataclass
class State:
    """What the opcodes of a picture set for the drawing after them. Points and sizes are (across, down)."""

    clip: Shape
    origin: tuple = (0, 0)
    pen_place: tuple = (0, 0)
    pen_size: tuple = (1, 1)
    pen_mode: int = 8
    pen_pattern: Pattern = ALL_BLACK
    back_pattern: Pattern = ALL_WHITE
    fill_pattern: Pattern = ALL_BLACK
    fore: tuple = BLACK
    back: tuple = WHITE
    operand: tuple = BLACK
    oval: tuple = (0, 0)
    rect: Rect = Rect(0, 0, 0, 0)
    angles: tuple = (0, 0)
    polygon: tuple = ()
    region: Shape = rectangle(Rect(0, 0, 0, 0))
    text_place: tuple = (0, 0)
    text_face: int = 0
    text_mode: int = OR
    text_size: int = 0

    def colors(self):
        return Colors(self.fore, self.back, self.operand)


class Raster:
    """The pixels within a frame of coordinates, which are white before anything is drawn."""

    def __init__(self, frame, work):
        self.frame, self.work = frame, work
        self.image = Image.new("RGB", (frame.width, frame.height), WHITE)

    def fill(self, shape, clip, pattern, mode, colors):
        """Draws a pattern where a shape and the clip both cover."""
        self.draw(shape, clip, mode, PLAIN._replace(operand=colors.operand) if pattern.colored else colors, pattern.pixels)

    def copy(self, image, bounds, source, target, clip, mode, colors):
        """Draws the pixels of a picture that a rectangle of its coordinates has, stretched to a rectangle of the frame.

        `bounds` are the coordinates of the picture. What the source has beyond them isn't drawn.
        """
        part = source.common(bounds)
        if part.is_empty() or target.is_empty():
            return
        where = Rect(*(stretched(part[side], source, target, side) for side in range(4)))

        def pixels(box):
            across, down = part.width / where.width, part.height / where.height
            left, top = part.left - bounds.left + (box.left - where.left) * across, part.top - bounds.top + (box.top - where.top) * down
            piece = left, top, min(image.width, left + box.width * across), min(image.height, top + box.height * down)
            return image.resize((box.width, box.height), Image.NEAREST, piece).convert("RGB")

        self.draw(rectangle(where), clip, mode, colors, pixels)

    def draw(self, shape, clip, mode, colors, pixels):
        """Draws pixels where a shape and the clip both cover; `pixels` is a function that gives those of a rectangle."""
        steps = 1 + MIXED * (mode not in (COPY, COPY | NOT)) + TINTED * (colors[:2] != PLAIN[:2])
        for box, mask in self.boxes(shape, clip):
            self.work.spend(steps * box.width * box.height)
            left, top = box.left - self.frame.left, box.top - self.frame.top
            target = self.image.crop((left, top, left + box.width, top + box.height))
            self.image.paste(mixed(mode, pixels(box), target, colors), (left, top), mask)

    def boxes(self, shape, clip):
        """The rectangles of the frame that hold what both cover, each with a mask of its pixels, or None for all of them."""
        visible = shape.around.common(clip.around).common(self.frame)
        self.work.spend(SHAPE)
        if visible.is_empty():
            return
        rows_at_a_time = max(STRIP, STRIP_PIXELS // visible.width)
        for top in range(visible.top, visible.bottom, rows_at_a_time):
            strip = visible._replace(top=top, bottom=min(top + rows_at_a_time, visible.bottom))
            self.work.spend(BOX + ROW // 4 * strip.height)
            if shape.is_rectangle and clip.is_rectangle:
                yield strip, None
                continue
            rows = [covered(shape, clip, strip, row) for row in range(strip.top, strip.bottom)]
            self.work.spend((shape.steps + clip.steps) * len(rows) + 40 * sum(map(len, rows)))
            columns = [column for row in rows if row for column in (row[0], row[-1])]
            if columns:
                box = strip._replace(left=min(columns), right=max(columns))
                self.work.spend(box.width * box.height)
                yield box, mask_of(rows, box)


def covered(shape, clip, strip, row):
    """The columns of a row, within a strip, that both cover."""
    columns = in_both([strip.left, strip.right], shape.at(row))
    return columns if clip.is_rectangle else in_both(columns, clip.at(row))


def mask_of(rows, box):
    """The mask for Pillow, as large as a rectangle, that covers lists of columns, one for each row."""
    data, before, line = bytearray(), None, b""
    for row in rows:
        if row != before:
            line = bytearray(box.width)
            for first, last in zip(row[::2], row[1::2]):
                line[first - box.left:last - box.left] = b"\xFF" * (last - first)
            before = row
        data += line
    return Image.frombytes("L", (box.width, box.height), bytes(data))


def stretched(value, source, target, side):
    """Where a coordinate of a source lies in its target; `side` is 0 or 2 for rows, and 1 or 3 for columns."""
    first, last = side % 2, side % 2 + 2
    size, length = source[last] - source[first], target[last] - target[first]
    return target[first] + (2 * (value - source[first]) * length + size) // (2 * size)

