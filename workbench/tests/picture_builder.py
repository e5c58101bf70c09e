"""Pictures of QuickDraw for the tests, written by appendix A of Imaging With QuickDraw; the decoder isn't asked for anything.

Pixels stand in the tests as rows of letters: a point is white, X black, and COLORS has the others.
"""
import io
import struct

import pytest

Image = pytest.importorskip("PIL.Image")

NUMBERS = {
    "NOP": 0x00, "Clip": 0x01, "BkPat": 0x02, "TxFont": 0x03, "TxFace": 0x04, "TxMode": 0x05, "SpExtra": 0x06, "PnSize": 0x07,
    "PnMode": 0x08, "PnPat": 0x09, "FillPat": 0x0A, "OvSize": 0x0B, "Origin": 0x0C, "TxSize": 0x0D, "FgColor": 0x0E,
    "BkColor": 0x0F, "TxRatio": 0x10, "VersionOp": 0x11, "BkPixPat": 0x12, "PnPixPat": 0x13, "FillPixPat": 0x14,
    "PnLocHFrac": 0x15, "ChExtra": 0x16, "RGBFgCol": 0x1A, "RGBBkCol": 0x1B, "HiliteMode": 0x1C, "HiliteColor": 0x1D,
    "DefHilite": 0x1E, "OpColor": 0x1F, "Line": 0x20, "LineFrom": 0x21, "ShortLine": 0x22, "ShortLineFrom": 0x23,
    "LongText": 0x28, "DHText": 0x29, "DVText": 0x2A, "DHDVText": 0x2B, "fontName": 0x2C, "lineJustify": 0x2D,
    "glyphState": 0x2E, "BitsRect": 0x90, "BitsRgn": 0x91, "PackBitsRect": 0x98, "PackBitsRgn": 0x99, "DirectBitsRect": 0x9A,
    "DirectBitsRgn": 0x9B, "ShortComment": 0xA0, "LongComment": 0xA1, "OpEndPic": 0xFF, "HeaderOp": 0x0C00,
    "CompressedQuickTime": 0x8200, "UncompressedQuickTime": 0x8201}
for first, noun in ((0x30, "Rect"), (0x40, "RRect"), (0x50, "Oval"), (0x60, "Arc"), (0x70, "Poly"), (0x80, "Rgn")):
    for number, verb in enumerate(("frame", "paint", "erase", "invert", "fill")):
        NUMBERS[verb + noun] = first + number
        NUMBERS[verb + "Same" + noun] = first + 8 + number

COLORS = {".": (255, 255, 255), "X": (0, 0, 0), "r": (255, 0, 0), "g": (0, 255, 0), "b": (0, 0, 255), "y": (255, 255, 0),
          "c": (0, 255, 255), "m": (255, 0, 255)}
LETTERS = {color: letter for letter, color in COLORS.items()}


def words(*numbers):
    """Numbers of 16 bits, with a sign or without."""
    return b"".join(struct.pack(">H", number & 0xFFFF) for number in numbers)


def op(name, *data):
    """An opcode, by its name or its number, and its data."""
    return (NUMBERS[name] if isinstance(name, str) else name), b"".join(data)


def picture(*ops, frame=(0, 0, 8, 8), version=2, header=words(0xFFFF, 0xFFFF) + bytes(20), end=True):
    """A picture. The frame is its top, left, bottom, right."""
    out = words(0, *frame)
    ops = list(ops) + [op("OpEndPic")] * end
    if version == 1:
        return out + b"\x11\x01" + b"".join(bytes([number]) + data for number, data in ops)
    out += words(0x0011, 0x02FF)
    for number, data in ([op("HeaderOp", header)] if header else []) + ops:
        out += words(number) + data + bytes(len(data) % 2)
    return out


def extended(source, resolution=(72, 72)):
    """The data of the header of extended version 2."""
    return words(0xFFFE, 0, resolution[0], 0, resolution[1], 0, *source, 0, 0)


def color(letter):
    return b"".join(bytes((part, part)) for part in COLORS[letter])


def fore(letter):
    return op("RGBFgCol", color(letter))


def back(letter):
    return op("RGBBkCol", color(letter))


def region(around, *lines):
    """A region: the rectangle around it, and scan lines, each a row and columns."""
    data = words(*around)
    for line in lines:
        data += words(*line, 0x7FFF)
    data += words(0x7FFF) if lines else b""
    return words(2 + len(data)) + data


def polygon(*points):
    """A polygon of points (across, down)."""
    across, down = [point[0] for point in points] or [0], [point[1] for point in points] or [0]
    data = words(min(down), min(across), max(down), max(across)) + b"".join(words(point[1], point[0]) for point in points)
    return words(2 + len(data)) + data


def bitmap(row_bytes, bounds):
    return words(row_bytes, *bounds)


def pixmap(row_bytes, bounds, depth, packing=0, components=1):
    """A pixmap up to its color table."""
    return (words(row_bytes | 0x8000, *bounds) + words(0, packing, 0, 0, 72, 0, 72, 0, 16 if depth > 8 else 0, depth, components)
            + words(5 if depth == 16 else 8 if depth == 32 else depth) + bytes(12))


def table(*letters, flags=0, values=None):
    """A color table of colors, whose values count from 0 on unless they are stated."""
    entries = (words(value) + color(letter) for value, letter in zip(values or range(len(letters)), letters))
    return bytes(4) + words(flags, len(letters) - 1) + b"".join(entries)


def direct(row_bytes, bounds, depth, packing=0, components=3):
    """A pixmap of direct pixels, after an address that means nothing."""
    return words(0, 0xFF) + pixmap(row_bytes, bounds, depth, packing, components)


def fixed(number):
    return struct.pack(">i", int(number * 65536))


def quicktime(data, source, kind=b"jpeg", scale=(1, 1), at=(0, 0), turned=0, mode=0, mask=b"", matte=b"", length=None):
    """The data of a compressed picture of QuickTime, its length in front."""
    matrix = (fixed(scale[0]) + fixed(turned) + fixed(0) + fixed(0) + fixed(scale[1]) + fixed(0) + fixed(at[0]) + fixed(at[1])
              + struct.pack(">i", 0x40000000))
    head = words(0) + matrix + struct.pack(">I", len(matte)) + bytes(8) + words(mode, *source) + bytes(4) + struct.pack(">I", len(mask))
    described = struct.pack(">I4s", 86, kind) + bytes(36) + struct.pack(">I", len(data) if length is None else length) + bytes(38)
    body = head + (described + matte if matte else b"") + mask + described + data
    return struct.pack(">I", len(body)) + body


def rows_of(shown, more=None):
    """The pixels of a decoded picture as rows of letters; `more` maps colors to letters of their own."""
    letters = {**LETTERS, **(more or {})}
    image = Image.open(io.BytesIO(shown.data))
    assert image.format == "PNG" and image.mode == "RGB" and image.size == shown.size
    data = image.tobytes()
    pixels = [tuple(data[place:place + 3]) for place in range(0, len(data), 3)]
    return ["".join(letters.get(pixel, "?") for pixel in pixels[row * image.width:(row + 1) * image.width])
            for row in range(image.height)]


# A JPEG of 16 by 8 pixels, black at the left, white at the right. The one quantizer is 8, the one code of each Huffman table
# is the bit 0: for a difference of 8 bits, and for the end of a block. So the bits are 0 01111111 0 (-128), 0 11111111 0 (+255).
JPEG = (b"\xFF\xD8" + b"\xFF\xDB\0\x43\0" + b"\x08" * 64 + b"\xFF\xC0\0\x0B\x08\0\x08\0\x10\1\1\x11\0"
        + b"\xFF\xC4\0\x14\0\1" + bytes(15) + b"\x08" + b"\xFF\xC4\0\x14\x10\1" + bytes(15) + b"\0"
        + b"\xFF\xDA\0\x08\1\1\0\0\x3F\0" + b"\x3F\x9F\xEF" + b"\xFF\xD9")
