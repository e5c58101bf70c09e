"""Resources of icons, cursors and patterns, written by the layouts of Inside Macintosh alone: nothing here is the decoders'.

WHOLE has one or more whole resources of each type, as (type, bytes).
"""
import struct

WHITE, BLACK, RED, GREEN, BLUE = (0xFFFF, 0xFFFF, 0xFFFF), (0, 0, 0), (0xFFFF, 0, 0), (0, 0x8000, 0x1234), (0, 0, 0xFFFF)


def bit_map(row_bytes, width, height):
    """A BitMap record."""
    return struct.pack(">IHhhhh", 0, row_bytes, 0, 0, height, width)


def pixel_map(row_bytes, width, height, depth, table=0, left=0, top=0):
    """A PixMap record; `table` is where its color table begins."""
    head = struct.pack(">IHhhhh", 0, 0x8000 | row_bytes, top, left, top + height, left + width)
    packing, resolution = struct.pack(">HHI", 0, 0, 0), struct.pack(">II", 0x480000, 0x480000)
    return head + packing + resolution + struct.pack(">HHHH", 0, depth, 1, depth) + struct.pack(">III", 0, table, 0)


def color_table(*entries, flags=0):
    """A ColorTable: each entry is a value and a color of three parts of 16 bits."""
    return struct.pack(">IHH", 0, flags, (len(entries) - 1) & 0xFFFF) + b"".join(
        struct.pack(">HHHH", value, *color) for value, color in entries)


def cicn(pixel_map, mask_map, mask, bits_map, bits, table, pixels):
    """A cicn of its parts."""
    return pixel_map + mask_map + bits_map + bytes(4) + mask + bits + table + pixels


def crsr(depth, row_bytes, pixels, table, bits=bytes(32), mask=b"\xFF" * 32, spot=(2, 1), kind=0x8001, side=16):
    """A crsr: its head of 96 bytes, the pixel map, the pixels and the color table."""
    head = struct.pack(">HIIIHI", kind, 96, 146, 0, 0, 0) + bits + mask + struct.pack(">hhII", *spot, 0, 0)
    return head + pixel_map(row_bytes, side, side, depth, 146 + len(pixels)) + pixels + table


def ppat(kind, bits, map_bytes=b"", pixels=b"", table=b""):
    """A ppat: its head of 28 bytes, the pixel map, the pixels and the color table."""
    return struct.pack(">HIIIHI", kind, 28, 28 + len(map_bytes), 0, 0xFFFF, 0) + bits + map_bytes + pixels + table


def color_pattern(depth, row_bytes, width, height, pixels, table):
    return ppat(1, b"\xAA\x55" * 4, pixel_map(row_bytes, width, height, depth, 78 + len(pixels)), pixels, table)


def ppt_list(*patterns):
    """A ppt#: a count, where each pattern begins, and the patterns."""
    places, place = b"", 2 + 4 * len(patterns)
    for pattern in patterns:
        places += struct.pack(">I", place)
        place += len(pattern)
    return struct.pack(">H", len(patterns)) + places + b"".join(patterns)


TABLE = color_table((0, WHITE), (1, RED), (2, GREEN), (3, BLACK))
# 4 by 2 pixels of 2 bits, in rows of 2 bytes: the values 0 1 2 3 and 3 3 0 1; the mask lacks the first and the last.
CICN = cicn(pixel_map(2, 4, 2, 2), bit_map(2, 4, 2), b"\x70\0\xE0\0", bit_map(2, 4, 2), b"\xF0\0\xF0\0", TABLE, b"\x1B\0\xF1\0")
CRSR = crsr(1, 2, b"\xC0\0" + bytes(28) + b"\0\1", color_table((0, WHITE), (1, RED)), mask=b"\x80\0" + bytes(30))
PPAT = color_pattern(2, 2, 4, 2, b"\x1B\0\xF1\0", TABLE)
RGB_PPAT = ppat(2, bytes(8), pixel_map(2, 8, 8, 2, 78), b"", color_table((0, BLACK), (1, GREEN)))
OLD_PPAT = ppat(0, b"\x80" + bytes(6) + b"\1")
WHOLE = [
    (b"ICON", b"\x80" + bytes(126) + b"\1"), (b"ICN#", b"\xC0" + bytes(127) + b"\xE0" + bytes(127)),
    (b"icl4", b"\x12" + bytes(511)), (b"icl8", b"\x23\xD2" + bytes(1022)),
    (b"ics#", b"\xC0" + bytes(31) + b"\xE0" + bytes(31)), (b"ics4", b"\x12" + bytes(127)), (b"ics8", b"\x23\xD2" + bytes(254)),
    (b"icm#", b"\xC0" + bytes(23) + b"\xE0" + bytes(23)), (b"icm4", b"\x12" + bytes(95)), (b"icm8", b"\x23\xD2" + bytes(190)),
    (b"SICN", b"\x80" + bytes(31) + b"\x40" + bytes(31)), (b"cicn", CICN),
    (b"CURS", b"\xC0" + bytes(31) + b"\xA0" + bytes(31) + b"\0\3\0\4"), (b"crsr", CRSR),
    (b"PAT ", b"\x80" + bytes(6) + b"\1"), (b"PAT#", b"\0\2\x80" + bytes(7) + b"\x40" + bytes(7)),
    (b"ppat", OLD_PPAT), (b"ppat", PPAT), (b"ppat", RGB_PPAT), (b"ppt#", ppt_list(OLD_PPAT, PPAT, RGB_PPAT)),
]
