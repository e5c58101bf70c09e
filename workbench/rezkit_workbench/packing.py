"""Pixels as pictures of QuickDraw keep them: bitmaps, pixmaps with a color table, direct pixels; packed or not.

They are read in strips of rows, so that a picture of many pixels takes little memory at a time.

Source: Inside Macintosh: Imaging With QuickDraw, chapter 4 'Color QuickDraw' (pixel maps, color tables) and appendix A
'Picture Opcodes' (pixel data); Technical Note 1023 'Understanding PackBits'.
"""
import collections

from .errors import Damaged
from .pixels import Image, ImageChops
from .reading import check_pixels
from .regions import read_rect

INDEXED = {1: "P;1", 2: "P;2", 4: "P;4", 8: "P"}  # bits of a pixel, and what Pillow calls such rows
DEVICE_TABLE = 0x8000
STRIP = 1 << 18  # pixels that are read at a time
UNPACKED, WITHOUT_FILLING, BY_WORDS, BY_COMPONENTS = 1, 2, 3, 4


class Pixels(collections.namedtuple("Pixels", "row_bytes bounds depth packing components palette")):
    """What stands before the pixels: bytes of a row, the rectangle of their coordinates, bits of a pixel, how rows are
    packed, parts of a direct pixel, and the 768 bytes of the colors."""


def unpacked(packed, unit, most):
    """The bytes of a row that PackBits packed by units of so many bytes; no more than `most`.

    A count below 128 stands before one unit more than the count; above 128, the next unit is repeated 257 less the count
    times; 128 means nothing.
    """
    out, place = bytearray(), 0
    while place < len(packed) and len(out) < most:
        count = packed[place]
        place += 1
        if count < 128:
            length = (count + 1) * unit
            out += packed[place:place + length]
            place += length
        elif count > 128:
            out += packed[place:place + unit] * (257 - count)
            place += unit
    return bytes(out[:most])


# What stands before the pixels.

def read_pixels(reader):
    """A bitmap or a pixmap with its color table, up to its pixels. Refused are rows that are too short."""
    place = reader.place
    row_bytes = reader.word()
    bounds = read_rect(reader)
    if row_bytes & 0x8000:
        _, depth, components = read_pixmap(reader)
        if depth not in INDEXED:
            raise Damaged(place, "a pixmap has %d bits a pixel" % depth)
        pixels = Pixels(row_bytes & 0x7FFF, bounds, depth, 0, components, read_palette(reader, depth))
    else:
        pixels = Pixels(row_bytes, bounds, 1, 0, 1, b"\xFF\xFF\xFF\0\0\0")
    return checked(pixels, place)


def read_direct_pixels(reader):
    """A pixmap of direct pixels, up to its pixels. Refused are rows that are too short, and ways of packing that don't exist."""
    place = reader.place
    reader.long()  # an address that means nothing
    row_bytes = reader.word() & 0x7FFF
    bounds = read_rect(reader)
    packing, depth, components = read_pixmap(reader)
    if depth not in (16, 32):
        raise Damaged(place, "a pixmap of direct pixels has %d bits a pixel" % depth)
    packing = UNPACKED if row_bytes < 8 else packing or (BY_WORDS if depth == 16 else BY_COMPONENTS)
    if packing not in ((UNPACKED, BY_WORDS) if depth == 16 else (UNPACKED, WITHOUT_FILLING, BY_COMPONENTS)):
        raise Damaged(place, "pixels of %d bits are packed in the way %d" % (depth, packing))
    if packing == BY_COMPONENTS and components not in (3, 4):
        raise Damaged(place, "direct pixels have %d components" % components)
    if row_bytes % (depth // 8):
        raise Damaged(place, "a row of pixels of %d bits has %d bytes" % (depth, row_bytes))
    return checked(Pixels(row_bytes, bounds, depth, packing, components, None), place)


def read_pixmap(reader):
    """The fields of a pixmap after its bounds: how rows are packed, bits of a pixel, components."""
    reader.word()  # the version
    packing = reader.word()
    reader.take(14)  # the length of the pixels, the resolutions, the type of the pixels
    depth, components = reader.word(), reader.word()
    reader.take(14)  # the bits of a component, the distance of planes, the color table, and a field that is reserved
    return packing, depth, components


def read_palette(reader, depth):
    """The 768 bytes of a color table. Colors that it lacks are black."""
    place = reader.place
    reader.long()  # the seed
    in_order = reader.word() & DEVICE_TABLE
    count = reader.integer() + 1
    if count < 0:
        raise Damaged(place, "a color table has %d colors" % count)
    entries, palette = reader.take(8 * count), bytearray(768)
    for number in range(count):
        entry = entries[8 * number:8 * number + 8]
        index = number if in_order else entry[0] << 8 | entry[1]
        if index < 1 << depth:
            palette[3 * index:3 * index + 3] = entry[2::2]
    return bytes(palette)


def checked(pixels, place):
    """The same, if its rows have bytes for its pixels and there aren't too many."""
    width, height = pixels.bounds.width, pixels.bounds.height
    if pixels.bounds.is_empty():
        raise Damaged(place, "pixels have no width or no height")
    if pixels.row_bytes * 8 < width * pixels.depth:
        raise Damaged(place, "a row has %d bytes, and %d pixels of %d bits" % (pixels.row_bytes, width, pixels.depth))
    check_pixels(width, height)
    return pixels


# The pixels.

def strips(reader, pixels, is_packed):
    """The pixels, strip after strip: the rectangle of its coordinates, and a picture of Pillow.

    `is_packed` says whether the rows of indexed pixels may be packed; those of less than 8 bytes never are.
    """
    bounds = pixels.bounds
    rows = max(1, STRIP // bounds.width)
    for top in range(bounds.top, bounds.bottom, rows):
        strip = bounds._replace(top=top, bottom=min(top + rows, bounds.bottom))
        yield strip, strip_of(reader, pixels, strip, is_packed)


def strip_of(reader, pixels, strip, is_packed):
    """The picture of a strip, whose rows come next."""
    if pixels.depth == 32:
        return direct_strip(reader, pixels, strip)
    if pixels.depth == 16:
        return strip_of_words(read_rows(reader, pixels, strip, 2, pixels.packing != UNPACKED), strip, pixels.row_bytes)
    rows = read_rows(reader, pixels, strip, 1, is_packed and pixels.row_bytes >= 8)
    image = Image.frombytes("P", (strip.width, strip.height), rows, "raw", INDEXED[pixels.depth], pixels.row_bytes, 1)
    image.putpalette(pixels.palette)
    return image


def read_rows(reader, pixels, strip, unit, is_packed):
    """The bytes of the rows of a strip, unpacked, each as long as the pixmap says."""
    if not is_packed:
        return reader.take(pixels.row_bytes * strip.height)
    least = (strip.width * pixels.depth + 7) // 8
    return b"".join(packed_row(reader, pixels.row_bytes, unit, least, pixels.row_bytes).ljust(pixels.row_bytes, b"\0")
                    for _ in range(strip.height))


def packed_row(reader, row_bytes, unit, least, most):
    """A row that stands packed after its length: from `least` to `most` bytes."""
    place = reader.place
    row = unpacked(reader.take(reader.byte() if row_bytes <= 250 else reader.word()), unit, most)
    if len(row) < least:
        raise Damaged(place, "a packed row gives %d bytes, and has to give %d" % (len(row), least))
    return row


def strip_of_words(rows, strip, row_bytes):
    """Pixels of 16 bits: one that means nothing, then five each of red, green and blue; the upper bits of five come again below."""
    upper, lower = (Image.frombytes("L", (strip.width, strip.height), rows[first::2], "raw", "L", row_bytes // 2, 1) for first in (0, 1))
    red = upper.point([widened(byte >> 2 & 31) for byte in range(256)])
    green = ImageChops.add(upper.point([widened((byte & 3) << 3) for byte in range(256)]),
                           lower.point([widened(byte >> 5) for byte in range(256)]))
    return Image.merge("RGB", (red, green, lower.point([widened(byte & 31) for byte in range(256)])))


def widened(five):
    """Five bits as eight."""
    return five << 3 | five >> 2


def direct_strip(reader, pixels, strip):
    """Pixels of 32 bits: a byte that means nothing, red, green, blue; packed, all bytes of a row of one color after the other."""
    size = strip.width, strip.height
    if pixels.packing == UNPACKED:
        return Image.frombytes("RGB", size, reader.take(pixels.row_bytes * strip.height), "raw", "XRGB", pixels.row_bytes, 1)
    if pixels.packing == WITHOUT_FILLING:
        length = pixels.row_bytes // 4 * 3
        return Image.frombytes("RGB", size, reader.take(length * strip.height), "raw", "RGB", length, 1)
    planes = [bytearray(), bytearray(), bytearray()]
    for _ in range(strip.height):
        row = packed_row(reader, pixels.row_bytes, 1, pixels.components * strip.width, pixels.components * pixels.row_bytes // 4)
        length = len(row) // pixels.components
        for number, plane in enumerate(planes, pixels.components - 3):
            plane += row[number * length:number * length + strip.width]
    return Image.merge("RGB", [Image.frombytes("L", size, bytes(plane)) for plane in planes])
