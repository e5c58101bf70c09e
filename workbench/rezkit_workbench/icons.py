"""Icons, cursors and patterns as PNG.

Sources: Inside Macintosh: More Macintosh Toolbox, chapter 5, 'Icon Utilities' (ICON, ICN#, icl4, icl8, ics#, ics4, ics8,
icm#, icm4, icm8, SICN, cicn); Imaging With QuickDraw, chapter 8, 'Cursor Utilities' (CURS, crsr), chapter 3, 'QuickDraw
Drawing' (PAT , PAT#), and chapter 4, 'Color QuickDraw' (ppat, cicn). ppt# is a list as ResEdit writes it: a count, and for
each pattern where its ppat begins.

    ICON                     32 by 32 bits, without a mask
    ICN#, ics#, icm#         bits, 32 by 32, 16 by 16, and 16 wide and 12 high, and a mask after them
    icl4, ics4, icm4         the same sizes in 16 colors; the mask is that of the ICN#, ics# or icm# of the same id
    icl8, ics8, icm8         the same in 256 colors
    SICN                     icons of 16 by 16 bits, shown side by side
    cicn                     a picture in up to 256 colors with its mask; the black and white picture in it isn't shown
    CURS, crsr               16 by 16 pixels and a mask; outside of the mask pixels that aren't white invert the screen
    PAT , ppat               one tile, of bits or of up to 256 colors; of an RGB pattern a tile of its color
    PAT#, ppt#               their tiles side by side, with an empty column between two of them

Pixels outside of a mask are transparent, but those of a cursor that invert the screen.
"""
from functools import partial

from .errors import Damaged, Refused
from .palettes import STANDARD, WHITE, colors_of, read_color_table
from .pixels import Grid, PixelMap, black_and_white, check_row, masked, notes_of_colors, pillow, read_grid, row_size, shown, side_by_side
from .reading import Reader

LARGE, SMALL, MINI, TILE = (32, 32), (16, 16), (16, 12), (8, 8)
BYTES_OF_SMALL, BYTES_OF_TILE = 32, 8
OLD_CURSOR, COLOR_CURSOR = 0x8000, 0x8001
OLD_PATTERN, COLOR_PATTERN, RGB_PATTERN = 0, 1, 2
PLACE_OF_TABLE = 42  # in a PixMap, where the place of the color table stands
NO_MASK = "It has no mask. All pixels are shown."
RGB_NOTE = "An RGB pattern: the tile is filled with the color that the pattern stands for."


def note_of_rest(reader):
    """A note if bytes are left."""
    return ["Bytes after the picture that aren't shown: %d." % reader.left()] if reader.left() else []


# Icons of fixed sizes.

def icon(data, beside):
    """An ICON."""
    reader = Reader(data)
    picture = black_and_white(reader.take(Grid(LARGE).length()), LARGE)
    return shown(picture, note_of_rest(reader))


def icon_with_mask(size, data, beside):
    """An ICN#, ics# or icm#."""
    reader, grid = Reader(data), Grid(size)
    picture = black_and_white(reader.take(grid.length()), size)
    if not reader.left():
        return shown(picture, [NO_MASK])
    mask = grid.bits(reader.take(grid.length()))
    return shown(masked(picture, mask), note_of_rest(reader))


def icon_in_colors(size, depth, kind, data, beside):
    """An icl4, icl8, ics4, ics8, icm4 or icm8, with the mask of the icon of type `kind` that has its id."""
    reader, grid = Reader(data), Grid(size, depth)
    picture = grid.indexes(reader.take(grid.length()), STANDARD[depth])
    mask, notes = mask_beside(size, kind, beside), note_of_rest(reader)
    if mask is None:
        return shown(picture, ["There is no '%s' of the same id with a mask. All pixels are shown." % kind.decode("ascii")] + notes)
    return shown(masked(picture, mask), notes)


def mask_beside(size, kind, beside):
    """The mask in the second half of the resource of the same id and another type; None if that is missing or short."""
    grid, other = Grid(size), beside(kind)
    if other is None or len(other) < 2 * grid.length():
        return None
    return grid.bits(other[grid.length():2 * grid.length()])


def small_icons(data, beside):
    """A SICN, whose icons stand side by side."""
    Reader(data).take(BYTES_OF_SMALL)
    count, rest = divmod(len(data), BYTES_OF_SMALL)
    check_row(count)
    icons = [black_and_white(data[at:at + BYTES_OF_SMALL], SMALL) for at in range(0, len(data) - rest, BYTES_OF_SMALL)]
    notes = ["Bytes after the last icon that aren't shown: %d." % rest] if rest else []
    return shown(side_by_side(icons, 0), notes)


# Icons with a color table of their own.

def read_bit_map(reader):
    """The grid of a BitMap; None where its row bytes are 0, with which there are no bits."""
    begin = reader.place
    grid = read_grid(reader)
    if not grid.row_bytes:
        return None
    grid.check(begin + 4)
    return grid


def color_icon(data, beside):
    """A cicn. Its mask may be missing, else it has the size of the picture."""
    reader = Reader(data)
    grid, place = PixelMap(reader).grid, reader.place
    mask_grid, bit_map = read_bit_map(reader), read_bit_map(reader)
    if mask_grid and mask_grid.size != grid.size:
        raise Damaged(place + 6, "a mask of %d by %d pixels for %d by %d" % (mask_grid.size + grid.size))
    reader.take(4)  # where the pixels are in memory
    mask = mask_grid.bits(reader.take(mask_grid.length())) if mask_grid else None
    reader.take(bit_map.length() if bit_map else 0)
    colors = colors_of(read_color_table(reader))
    picture = grid.indexes(reader.take(grid.length()), colors)
    notes = notes_of_colors(picture, colors, mask) + note_of_rest(reader)
    return shown(masked(picture, mask), notes) if mask else shown(picture, [NO_MASK] + notes)


# Cursors.

def cursor(data, beside):
    """A CURS."""
    reader = Reader(data)
    bits, mask = reader.take(BYTES_OF_SMALL), reader.take(BYTES_OF_SMALL)
    notes = [note_of_spot(reader)] + note_of_rest(reader)
    return shown_cursor(black_and_white(bits, SMALL), STANDARD[1], mask, notes)


def color_cursor(data, beside):
    """A crsr; one of the old kind has bits alone."""
    reader = Reader(data)
    kind, map_place, place = reader.word(), reader.long(), reader.long()
    if kind not in (OLD_CURSOR, COLOR_CURSOR):
        raise Damaged(0, "a cursor of the kind $%04X" % kind)
    reader.take(10)  # what the Macintosh makes for a screen
    bits, mask = reader.take(BYTES_OF_SMALL), reader.take(BYTES_OF_SMALL)
    notes = [note_of_spot(reader)]
    if kind == OLD_CURSOR:
        return shown_cursor(black_and_white(bits, SMALL), STANDARD[1], mask, notes)
    pixel_map = PixelMap(Reader(data, map_place))
    if pixel_map.grid.size != SMALL:
        raise Damaged(map_place + 6, "a cursor of %d by %d pixels" % pixel_map.grid.size)
    return shown_cursor(*pixel_map.picture(data, 0, place), mask, notes)


def note_of_spot(reader):
    """A note of the hot spot, which is read next."""
    down, across = reader.integer(), reader.integer()
    return "The hot spot is %d from the left and %d from the top." % (across, down)


def shown_cursor(picture, colors, mask, notes):
    """A cursor of 16 by 16 pixels. Those that invert the screen are shown in their own color."""
    inside = Grid(SMALL).bits(mask)
    colored = picture.point([0 if color == WHITE else 255 for color in colors] + [0] * (256 - len(colors)), "1")
    inverting = colored.copy()
    inverting.paste(0, None, inside)
    seen = inside.copy()
    seen.paste(255, None, colored)
    if inverting.getbbox():
        shown_as = "black" if colors == STANDARD[1] else "in their own color"
        notes = notes + ["Pixels that invert the screen: %d. They are shown %s." % (inverting.histogram()[255], shown_as)]
    return shown(masked(picture, seen), notes + notes_of_colors(picture, colors, seen))


# Patterns.

def tile(data, beside):
    """A PAT ."""
    reader = Reader(data)
    picture = black_and_white(reader.take(BYTES_OF_TILE), TILE)
    return shown(picture, note_of_rest(reader))


def tiles(data, beside):
    """A PAT#, whose tiles stand side by side."""
    reader = Reader(data)
    count = reader.word()
    if not count:
        raise Refused("has no patterns")
    check_row(count)
    bits = reader.take(count * BYTES_OF_TILE)
    pictures = [black_and_white(bits[at:at + BYTES_OF_TILE], TILE) for at in range(0, len(bits), BYTES_OF_TILE)]
    return shown(side_by_side(pictures, 1), note_of_rest(reader))


class Pattern:
    """A ppat that begins at a place of a resource. Its pixels and colors are read when its picture is made."""

    def __init__(self, data, begin):
        reader = Reader(data, begin)
        self.data, self.begin, self.kind = data, begin, reader.word()
        if self.kind not in (OLD_PATTERN, COLOR_PATTERN, RGB_PATTERN):
            raise Damaged(begin, "a pattern of the type %d" % self.kind)
        self.map_place, self.place = reader.long(), reader.long()
        reader.take(10)  # what the Macintosh makes for a screen
        self.bits = reader.take(BYTES_OF_TILE)
        self.pixel_map = PixelMap(Reader(data, begin + self.map_place)) if self.kind == COLOR_PATTERN else None
        grid = self.pixel_map.grid if self.pixel_map else Grid(TILE)
        self.size, self.length = grid.size, grid.length()

    def picture(self):
        """The tile, and notes."""
        if self.kind == OLD_PATTERN:
            return black_and_white(self.bits, TILE), []
        if self.kind == RGB_PATTERN:
            return pillow().new("RGB", TILE, self.color()), [RGB_NOTE]
        picture, colors = self.pixel_map.picture(self.data, self.begin, self.place)
        return picture, notes_of_colors(picture, colors)

    def color(self):
        """The color of an RGB pattern: the last of its table."""
        table = self.begin + Reader(self.data, self.begin + self.map_place + PLACE_OF_TABLE).long()
        entries = read_color_table(Reader(self.data, table))
        if not entries:
            raise Damaged(table, "an RGB pattern without a color")
        return entries[-1][1]


def color_tile(data, beside):
    """A ppat."""
    return shown(*Pattern(data, 0).picture())


def color_tiles(data, beside):
    """A ppt#, whose tiles stand side by side. Patterns that share pixels are refused: a short list could make long work."""
    reader = Reader(data)
    count = reader.word()
    if not count:
        raise Refused("has no patterns")
    check_row(count)
    patterns = [Pattern(data, reader.long()) for _ in range(count)]
    if sum(pattern.length for pattern in patterns) > len(data):
        raise Damaged(2, "patterns that share their pixels")
    row_size([pattern.size for pattern in patterns], 1)  # before their pixels are read
    made = [pattern.picture() for pattern in patterns]
    notes = dict.fromkeys(note for _, some in made for note in some)
    return shown(side_by_side([picture for picture, _ in made], 1), notes)


KINDS = {
    b"ICON": icon,
    b"ICN#": partial(icon_with_mask, LARGE),
    b"icl4": partial(icon_in_colors, LARGE, 4, b"ICN#"),
    b"icl8": partial(icon_in_colors, LARGE, 8, b"ICN#"),
    b"ics#": partial(icon_with_mask, SMALL),
    b"ics4": partial(icon_in_colors, SMALL, 4, b"ics#"),
    b"ics8": partial(icon_in_colors, SMALL, 8, b"ics#"),
    b"icm#": partial(icon_with_mask, MINI),
    b"icm4": partial(icon_in_colors, MINI, 4, b"icm#"),
    b"icm8": partial(icon_in_colors, MINI, 8, b"icm#"),
    b"SICN": small_icons,
    b"cicn": color_icon,
    b"CURS": cursor,
    b"crsr": color_cursor,
    b"PAT ": tile,
    b"PAT#": tiles,
    b"ppat": color_tile,
    b"ppt#": color_tiles,
}
