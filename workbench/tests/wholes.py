"""Whole resources of each type that is shown or drawn, written from the formats of Inside Macintosh, and ways to damage them.

    Imaging With QuickDraw    icons, cursors and patterns in color, color tables, pictures
    More Macintosh Toolbox    icons with masks
    Macintosh Toolbox Essentials    dialogs, alerts, their items, controls, menus
    Sound    the resource 'snd '
    Text    the resource 'styl', which is a StScrpRec
"""
import struct

ODD = (0, 1, 0x7FFF, 0x8000, 0xFFFF)
HUGE = struct.pack(">4h", 0, 0, 32767, 32767)
DEPTHS = (1, 2, 4, 8)


def noise(chance, length):
    """Bytes by chance, with runs among them, as pictures have."""
    out = bytearray()
    while len(out) < length:
        out += bytes([chance.randrange(256)]) * chance.choice((1, 1, 1, 2, 9))
    return bytes(out[:length])


def color_table(depth, chance):
    """A color table with a color for each value."""
    count = 1 << depth
    return struct.pack(">LHH", 7, chance.choice((0, 0x8000)), count - 1) + b"".join(
        struct.pack(">4H", value, *(chance.randrange(65536) for _ in range(3))) for value in range(count))


def row_bytes(width, depth):
    """The bytes of a row: a multiple of two."""
    return (width * depth + 15) // 16 * 2


def pixel_map(width, height, depth, table=0):
    """A PixMap, with the place of its color table."""
    return (struct.pack(">LH4h", 0, 0x8000 | row_bytes(width, depth), 0, 0, height, width)
            + struct.pack(">HHLLLHHHHLLL", 0, 0, 0, 72 << 16, 72 << 16, 0, depth, 1, depth, 0, table, 0))


def bit_map(width, height):
    """A BitMap without its bits."""
    return struct.pack(">LH4h", 0, row_bytes(width, 1), 0, 0, height, width)


# Icons, cursors and patterns.

SIZES = {b"ICON": 128, b"ICN#": 256, b"icl4": 512, b"icl8": 1024, b"ics#": 64, b"ics4": 128, b"ics8": 256, b"icm#": 48, b"icm4": 96,
         b"icm8": 192, b"SICN": 96, b"CURS": 68, b"PAT ": 8}


def pattern_list(chance):
    count = chance.randrange(1, 5)
    return struct.pack(">H", count) + noise(chance, 8 * count)


def color_icon(chance):
    """A cicn: its three maps, a mask, a bitmap, a color table and pixels."""
    width, height, depth = chance.randrange(1, 40), chance.randrange(1, 40), chance.choice(DEPTHS)
    bits = row_bytes(width, 1) * height
    return (pixel_map(width, height, depth) + 2 * bit_map(width, height) + bytes(4) + noise(chance, 2 * bits)
            + color_table(depth, chance) + noise(chance, row_bytes(width, depth) * height))


def color_cursor(chance):
    """A crsr: 96 bytes of its own, a pixel map, pixels and a color table."""
    depth = chance.choice(DEPTHS)
    pixels = row_bytes(16, depth) * 16
    return (struct.pack(">HLLLHL", 0x8001, 96, 146, 0, 0, 0) + noise(chance, 64) + struct.pack(">HHLL", 8, 8, 146 + pixels, 0)
            + pixel_map(16, 16, depth, 146 + pixels) + noise(chance, pixels) + color_table(depth, chance))


def color_pattern(chance):
    """A ppat: of black and white, of pixels, or of one color in a table."""
    kind, depth = chance.choice((0, 1, 1, 1, 2)), chance.choice(DEPTHS)
    width, height = chance.choice((8, 16, 32)), chance.choice((8, 16, 32))
    pixels = row_bytes(width, depth) * height
    return (struct.pack(">HLLLHL", kind, 28, 78, 0, 0xFFFF, 0) + noise(chance, 8) + pixel_map(width, height, depth, 78 + pixels)
            + noise(chance, pixels) + color_table(depth, chance))


def color_patterns(chance):
    """A ppt#: a count, the place of each pattern, and the patterns."""
    patterns = [color_pattern(chance) for _ in range(chance.randrange(1, 4))]
    place, places = 2 + 4 * len(patterns), b""
    for each in patterns:
        places += struct.pack(">L", place)
        place += len(each)
    return struct.pack(">H", len(patterns)) + places + b"".join(patterns)


# Pictures.

def packed(row):
    """A row as PackBits without runs, with its count in front: of two bytes where a row has more than 250."""
    out = b"".join(bytes([len(part) - 1]) + part for part in (row[at:at + 128] for at in range(0, len(row), 128)))
    return struct.pack(">H" if len(row) > 250 else ">B", len(out)) + out


def rows_of(chance, row, height):
    """The pixels of a map: as they are where a row has fewer than 8 bytes, else packed."""
    rows = [noise(chance, row) for _ in range(height)]
    return b"".join(rows if row < 8 else map(packed, rows))


def a_bitmap(chance, width, height):
    """PackBitsRect of a bitmap or of a pixel map."""
    bounds, depth = struct.pack(">4h", 0, 0, height, width), chance.choice((0,) + DEPTHS)
    row = row_bytes(width, depth or 1)
    head = struct.pack(">H", row) + bounds if not depth else pixel_map(width, height, depth)[4:] + color_table(depth, chance)
    return b"\0\x98" + head + 2 * bounds + b"\0\0" + padded(rows_of(chance, row, height))


def padded(data):
    return data + bytes(len(data) % 2)


def direct_pixels(chance, width, height):
    """DirectBitsRect: 16 bits packed by words, or 32 bits packed by components."""
    bounds, depth = struct.pack(">4h", 0, 0, height, width), chance.choice((16, 32))
    row = width * depth // 8
    head = struct.pack(">LH", 0xFF, 0x8000 | row) + bounds + struct.pack(
        ">HHLLLHHHHLLL", 0, 3 if depth == 16 else 4, 0, 72 << 16, 72 << 16, 16, depth, 3, 5 if depth == 16 else 8, 0, 0, 0)
    if row < 8:
        pixels = noise(chance, row * height)
    elif depth == 16:
        pixels = b"".join(counted(words_packed(noise(chance, row)), row) for _ in range(height))
    else:
        pixels = b"".join(packed_as(noise(chance, row * 3 // 4), row) for _ in range(height))
    return b"\0\x9A" + head + 2 * bounds + b"\0\0" + padded(pixels)


def words_packed(row):
    """A row as PackBits by words, without runs."""
    return b"".join(bytes([len(part) // 2 - 1]) + part for part in (row[at:at + 256] for at in range(0, len(row), 256)))


def counted(data, row):
    return struct.pack(">H" if row > 250 else ">B", len(data)) + data


def packed_as(data, row):
    """Components of a row as PackBits without runs; the count's size goes by the row bytes of the map."""
    return counted(b"".join(bytes([len(part) - 1]) + part for part in (data[at:at + 128] for at in range(0, len(data), 128))), row)


def shapes(chance, width, height):
    """Rectangles, ovals, arcs, polygons, regions, lines and texts."""
    def rectangle():
        return struct.pack(">4h", *(chance.randrange(-5, height + 5) for _ in range(4)))

    def point():
        return struct.pack(">2h", chance.randrange(height), chance.randrange(width))

    out = b""
    for _ in range(chance.randrange(1, 12)):
        verb = chance.randrange(5)
        out += chance.choice((
            b"\0" + bytes([0x30 + verb]) + rectangle(), b"\0" + bytes([0x50 + verb]) + rectangle(), b"\0\x0B\0\4\0\4\0" + bytes([0x40 + verb]) + rectangle(),
            b"\0" + bytes([0x60 + verb]) + rectangle() + struct.pack(">2h", chance.randrange(360), chance.randrange(-360, 361)),
            b"\0" + bytes([0x70 + verb]) + struct.pack(">H", 22) + rectangle() + point() + point() + point(),
            b"\0" + bytes([0x80 + verb]) + struct.pack(">H", 10) + rectangle(), b"\0\x20" + point() + point(), b"\0\x28" + point() + b"\3abc",
            b"\0\7" + struct.pack(">2h", chance.randrange(9), chance.randrange(9)), b"\0\x1A" + noise(chance, 6), b"\0\x0A" + noise(chance, 8),
            b"\0\xA0\0\x64", b"\0\xA1\0\x64\0\2ab"))
    return out


def picture(chance):
    """A PICT of version 2 with shapes, a bitmap, a pixel map or direct pixels, or of version 1 with a rectangle."""
    width, height = chance.randrange(1, 90), chance.randrange(1, 60)
    bounds = struct.pack(">4h", 0, 0, height, width)
    if chance.random() < 0.1:
        return b"\0\0" + bounds + b"\x11\1\x31" + bounds + b"\xFF"
    body = b"\0\1\0\x0A" + bounds  # the clip region
    for make in chance.sample((a_bitmap, direct_pixels, shapes), chance.randrange(1, 4)):
        body += make(chance, width, height)
    return b"\0\0" + bounds + b"\0\x11\2\xFF\x0C\0\xFF\xFE\0\0" + struct.pack(">LL", 72 << 16, 72 << 16) + bounds + bytes(4) + body + b"\0\xFF"


# Sounds and texts.

def sound(chance):
    """A 'snd ' of format 1 or 2 with a standard, an extended or a compressed header."""
    front = chance.choice((b"\0\1\0\1\0\5\0\0\0\xA0", b"\0\1\0\0", b"\0\2\0\0"))
    place = len(front) + 10
    head, count = chance.choice((0, 0, 0xFF, 0xFE)), chance.randrange(1, 400)
    rate = chance.choice((22050 << 16, 0x56EE8BA3, 11127 << 16))
    if head == 0:
        body = struct.pack(">LLLLLBB", 0, count, rate, 0, 0, 0, 60) + noise(chance, count)
    else:
        channels, bits = chance.choice((1, 2)), chance.choice((8, 16))
        kind = chance.choice((b"twos", b"sowt", b"raw ", b"NONE", b"ima4"))
        body = struct.pack(">LLLLLBBL", 0, channels, rate, 0, 0, head, 60, count) + bytes(10) + (
            bytes(12) + struct.pack(">H", bits) + bytes(14) if head == 0xFF
            else bytes(4) + kind + bytes(12) + struct.pack(">HHHH", chance.choice((0, 0xFFFE, 0xFFFF, 3)), 0, 0, bits)) + noise(chance, count * channels * bits // 8)
    return front + b"\0\1\x80\x51\0\0" + struct.pack(">L", place) + body


def text(chance):
    return b"".join(chance.choice((b"word ", b"Caf\x8E", b"<b>", b"\r", b"&", b"\t")) for _ in range(chance.randrange(40)))


def styles(chance):
    """A 'styl': a count, and for each run where it begins, its height, ascent, font, face, size and color."""
    runs = sorted(chance.randrange(60) for _ in range(chance.randrange(1, 5)))
    return struct.pack(">H", len(runs)) + b"".join(
        struct.pack(">LHHHBBH3H", start, 16, 12, 3, chance.randrange(128), 0, chance.choice((9, 12, 24)), *(chance.randrange(65536) for _ in range(3)))
        for start in runs)


# Dialogs and menus.

def string(chance):
    letters = chance.choice((b"", b"OK", b"Cancel", b"Caf\x8E <b>", b"^0 and ^1", b"A text that is longer than its rectangle", b"-"))
    return bytes([len(letters)]) + letters


def bounds(chance):
    top, left = chance.randrange(-20, 200), chance.randrange(-20, 300)
    return struct.pack(">4h", top, left, top + chance.randrange(0, 60), left + chance.randrange(0, 200))


def dialog(chance):
    """A DLOG whose items are those of the DITL 128."""
    return (struct.pack(">4hhBBBBLh", 40, 40, 240, 400, chance.choice((0, 1, 2, 3, 4, 5, 8, 12, 16)), 1, 0, 1, 0, 0, 128) + string(chance)
            + chance.choice((b"", b"\x28\x0A", b"\0\x28\x0A")))


def alert(chance):
    return struct.pack(">4hhH", 40, 40, 140, 340, 128, chance.randrange(65536)) + chance.choice((b"", b"\x28\x0A"))


def items(chance):
    """A DITL with items of all kinds."""
    out, count = b"", chance.randrange(1, 12)
    for _ in range(count):
        kind = chance.choice((0, 1, 4, 5, 6, 7, 7, 7, 8, 16, 32, 64))
        data = {0: b"\0", 1: b"\4\0\1\0\x80", 7: b"\2\0\x80", 32: b"\2\0\x80", 64: b"\2\0\x80"}.get(kind, None) or string(chance)
        out += bytes(4) + bounds(chance) + bytes([kind | chance.choice((0, 0x80))]) + padded_item(data)
    return struct.pack(">H", count - 1) + out


def padded_item(data):
    return data + bytes((len(data) + 1) % 2)


def control(chance):
    return bounds(chance) + struct.pack(">hBBhhhL", 0, 1, 0, 100, 0, chance.choice((0, 1, 2, 16, 160, 368, 400, 1008)), 0) + string(chance)


def menu(chance):
    """A MENU with marks, keys, icons, styles, submenus and separators."""
    out = struct.pack(">hhhhhL", 128, 0, 0, 0, 0, chance.randrange(1 << 32)) + chance.choice((b"\4File", b"\1\x14"))
    for _ in range(chance.randrange(12)):
        letters = string(chance)
        if letters != b"\0":
            out += letters + bytes([chance.choice((0, 1)), chance.choice((0, 0x51, 0x1B, 0x1C, 0x1D, 0x1E)), chance.choice((0, 0x12, 128)), chance.randrange(128)])
    return out + b"\0"


def menu_bar(chance):
    count = chance.randrange(1, 5)
    return struct.pack(">H", count) + b"".join(struct.pack(">h", chance.choice((128, 129, -1))) for _ in range(count))


DRAWN = {b"DLOG": dialog, b"ALRT": alert, b"DITL": items, b"CNTL": control, b"MENU": menu, b"MBAR": menu_bar}
MADE = {b"PAT#": pattern_list, b"cicn": color_icon, b"crsr": color_cursor, b"ppat": color_pattern, b"ppt#": color_patterns, b"PICT": picture,
        b"snd ": sound, b"TEXT": text}


def whole(kind, chance):
    """The bytes of a whole resource of a type."""
    make = MADE.get(kind) or DRAWN.get(kind)
    return make(chance) if make else noise(chance, SIZES[kind])


KINDS = tuple(SIZES) + tuple(MADE)
# Where sizes, counts, offsets and row bytes stand, by type; of all types also the first bytes, by chance.
PLACES = {b"cicn": (4, 6, 8, 10, 12, 32, 54, 60, 62, 68, 74, 76), b"crsr": (0, 2, 4, 6, 8, 88, 90, 100, 106, 108, 128, 138), b"PAT#": (0,),
          b"ppat": (0, 2, 4, 6, 8, 32, 34, 36, 38, 40, 60, 70, 72), b"ppt#": (0, 2, 4, 6, 8), b"PICT": (2, 4, 6, 8, 50, 60, 62, 64, 66, 68, 70),
          b"snd ": (0, 2, 4, 8, 10, 14, 16, 24, 26, 28, 30, 42, 44), b"CURS": (64, 66)}
BOUNDS = {b"PICT": 2, b"cicn": 6, b"crsr": 102, b"ppat": 34}  # where the rectangle around a picture stands


def damaged(kind, data, chance):
    """A resource that is cut or lengthened, or whose sizes, counts and row bytes lie, or all of that."""
    out = bytearray(data)
    for _ in range(chance.choice((1, 1, 2, 3))):
        places = PLACES.get(kind, ())
        at = chance.choice(places) if places and chance.random() < 0.5 else chance.randrange(0, max(2, min(len(out), 140)), 2)
        out[at:at + 2] = struct.pack(">H", chance.choice(ODD))
    if kind in BOUNDS and chance.random() < 0.15:
        out[BOUNDS[kind]:BOUNDS[kind] + 8] = HUGE
    if chance.random() < 0.25:
        out = out[:chance.randrange(len(out) + 1)]
    elif chance.random() < 0.2:
        out += noise(chance, chance.choice((1, 2, 300)))
    return bytes(out)


MASKS = {b"icl4": b"ICN#", b"icl8": b"ICN#", b"ics4": b"ics#", b"ics8": b"ics#", b"icm4": b"icm#", b"icm8": b"icm#"}


def mostly_damaged(kinds, chance):
    """A resource of each of some types, by type."""
    found = {}
    for kind in kinds:
        data = whole(kind, chance)
        found[kind] = damaged(kind, data, chance) if chance.random() < 0.85 else data
    return found


def drawn_fork(chance):
    """The resources of a fork with dialogs and menus, whose items name the icons, pictures and controls in it."""
    found = mostly_damaged(tuple(DRAWN) + (b"ICON", b"cicn", b"SICN", b"PICT"), chance)
    return [(kind, ident, b"", 0, data) for kind, data in found.items() if chance.random() < 0.8 for ident in ((128, 257) if kind in KINDS else (128,))]


def fork_resources(chance):
    """The resources of a fork: some ten of all types, mostly damaged, and all with one id, so that masks and styles meet."""
    found = mostly_damaged(chance.sample(KINDS, 10), chance)
    for kind in [kind for kind in found if kind in MASKS]:
        found.setdefault(MASKS[kind], noise(chance, SIZES[MASKS[kind]]))
    if b"TEXT" in found:
        found[b"styl"] = damaged(b"styl", styles(chance), chance)
    return [(kind, 128, b"", 0, data) for kind, data in found.items()]
