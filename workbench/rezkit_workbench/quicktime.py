"""Compressed pictures that QuickTime puts into a PICT: where one lies, and its pixels if it is a JPEG.

Before a JPEG is decoded, its segments are read here: its size and the number of its scans are tested, and what isn't needed
for its pixels (Exif, profiles, comments) is left out.

Source: Inside Macintosh: QuickTime, chapter 3 'Image Compression Manager' (image descriptions, and the opcode of compressed
pictures); Recommendation T.81 of the ITU (segments of a JPEG).
"""
import collections
import io
import re

from .errors import Damaged, TooLarge
from .pixels import Image
from .reading import Reader, check_pixels
from .regions import Rect, read_rect, read_region

FIXED_ONE = 65536
DESCRIPTION = 86  # bytes of an image description at least
START, SCAN, END, ADOBE = 0xD8, 0xDA, 0xD9, 0xEE
SEQUENTIAL = (0xC0, 0xC1)
FRAMES = [0xC0 + number for number in range(16) if number not in (4, 8, 12)]
TABLES = [0xC4, 0xDB, 0xDD]  # Huffman tables, quantization tables, the interval of restarts
MOST_PROGRESSIVE = 1 << 23
JPEG = 60000  # steps of work that a JPEG takes, beside those for its pixels
MARKER = re.compile(rb"\xFF+([^\xFF])", re.S)


class Compressed(collections.namedtuple("Compressed", "kind source target mode mask has_matte place data")):
    """A compressed picture: its four letters, the rectangle of it that is drawn, where, the mode, the shape that it is clipped
    to or None, whether there is a matte, the place of its bytes, and these. `target` is None if it is turned or slanted."""


class Frame(collections.namedtuple("Frame", "marker pixels components")):
    """What the frame of a JPEG says: its marker, how many pixels there are, and the byte that counts the components."""


def at_place(place, function, data, *more):
    """What a function gives of bytes that stand at a place; where they are damaged is told from there."""
    try:
        return function(data, *more)
    except Damaged as fault:
        raise Damaged(place + fault.place, fault.said) from None


def read_compressed(data, work, origin):
    """What the data of the opcode say."""
    reader = Reader(data)
    reader.word()  # the version
    matrix = [reader.signed(4) for _ in range(9)]
    matte_length, _, mode, source = reader.long(), read_rect(reader), reader.word(), read_rect(reader)
    reader.long()  # the accuracy
    mask_length = reader.long()
    if matte_length:
        reader.take(max(0, reader.long() - 4))
        reader.take(matte_length)
    place = reader.place
    mask = at_place(place, mask_of, reader.take(mask_length), work, origin) if mask_length else None
    place = reader.place
    length, kind = reader.long(), reader.take(4)
    if length < DESCRIPTION:
        raise Damaged(place, "an image description has %d bytes" % length)
    length_of_data = int.from_bytes(reader.take(length - 8)[36:40], "big")
    if length_of_data > reader.left():
        raise Damaged(reader.place, "a compressed picture has %d bytes, and %d are there" % (length_of_data, reader.left()))
    return Compressed(kind, source, target_of(matrix, source, origin), mode, mask, matte_length > 0, reader.place,
                      reader.take(length_of_data or reader.left()))


def mask_of(data, work, origin):
    """The region to which a picture is clipped."""
    return read_region(Reader(data), work, origin)


def target_of(matrix, source, origin):
    """The rectangle to which a matrix maps another one; None if it doesn't give a rectangle."""
    wide, slant, _, lean, high, _, across, down, _ = matrix
    if slant or lean or wide < 0 or high < 0:
        return None
    columns = [(wide * column + across + FIXED_ONE // 2) // FIXED_ONE - origin[0] for column in (source.left, source.right)]
    rows = [(high * row + down + FIXED_ONE // 2) // FIXED_ONE - origin[1] for row in (source.top, source.bottom)]
    return Rect(rows[0], columns[0], rows[1], columns[1])


def jpeg_picture(data, work):
    """The picture of Pillow that a JPEG is. Refused are too many pixels, and what can't be decoded."""
    kept = needed_segments(data, work)
    try:
        image = Image.open(io.BytesIO(kept), formats=("JPEG",))
        image.load()
        return image
    except (OSError, SyntaxError, ValueError) as fault:
        raise Damaged(0, "a JPEG can't be decoded (%s)" % fault) from None


def needed_segments(data, work):
    """A JPEG without the segments that don't matter for its pixels."""
    if data[:2] != bytes((0xFF, START)):
        raise Damaged(0, "there is no JPEG")
    reader, kept, frame = Reader(data, 2), [data[:2]], None
    while True:
        work.spend(200)
        place, marker = next_marker(reader)
        if marker == SCAN:
            break
        length = reader.word()
        if length < 2:
            raise Damaged(place, "a segment of a JPEG has %d bytes" % length)
        body = reader.take(length - 2)
        if marker in FRAMES:
            frame = Frame(marker, pixels_of(body, place), body[5:6])
        if marker in FRAMES or marker in TABLES or (marker == ADOBE and len(body) >= 12):
            kept.append(bytes((0xFF, marker)) + length.to_bytes(2, "big") + body)
    if not frame:
        raise Damaged(place, "a JPEG has no size")
    check_scans(frame, data, place, work)
    return b"".join(kept) + bytes((0xFF, SCAN)) + data[place:]


def check_scans(frame, data, place, work):
    """Refuses a JPEG whose pixels come in several scans, if there are many: all of them are kept until the last scan."""
    scans = 1 + data.count(bytes((0xFF, SCAN)), place)
    is_sequential = frame.marker in SEQUENTIAL and scans == 1 and data[place + 2:place + 3] == frame.components
    if frame.pixels > MOST_PROGRESSIVE and not is_sequential:
        raise TooLarge("a progressive JPEG has %d pixels, more than the %d that are decoded" % (frame.pixels, MOST_PROGRESSIVE))
    work.spend(JPEG + frame.pixels * (3 + scans) // 2)


def next_marker(reader):
    """The place after a marker, and its number."""
    found = MARKER.match(reader.data, reader.place)
    if not found or found[1][0] == END:
        raise Damaged(reader.place, "a JPEG has no picture")
    reader.place = found.end()
    return reader.place, found[1][0]


def pixels_of(body, place):
    """How many pixels a frame has, by its segment."""
    reader = Reader(body)
    reader.byte()
    height, width = reader.word(), reader.word()
    if not width or not height:
        raise Damaged(place, "a JPEG has no size")
    check_pixels(width, height)
    return width * height
