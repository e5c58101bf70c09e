"""The opcodes of pictures: for each an action that reads its data, and sets or draws what they say.

An action is a function of a player (`pictures.Player`), whose reader stands at the data of the opcode.

Source: Inside Macintosh: Imaging With QuickDraw, appendix A 'Picture Opcodes'.
"""
from . import lettering, packing, quicktime, regions
from .errors import Damaged, TooLarge
from .quickdraw import BLACK, OLD_COLORS, old_pattern, pixel_pattern, plain_pattern
from .regions import both, hollow, read_rect, rectangle

HEADER, END_OF_PICTURE = 0x0C00, 0x00FF
LARGEST_PATTERN = 1 << 20  # pixels
LARGE, LETTER = 6000, 80  # steps of work that an opcode of several parts takes, beside those for its pixels, and a letter


# Opcodes that set something.

def skip(length):
    """The action that passes so many bytes."""
    return lambda play: play.reader.take(length)


def skip_counted(play):
    """Passes data whose length stands before them, in 16 bits."""
    play.reader.take(play.reader.word())


def skip_comment(play):
    play.reader.take(2)
    skip_counted(play)


def skip_reserved(play, number):
    """Passes the data of a reserved opcode, whose length appendix A states for each."""
    if 0x24 <= number <= 0x2F or 0x92 <= number <= 0xAF:
        skip_counted(play)
    elif 0xD0 <= number <= 0xFF or number >= 0x8100:
        play.reader.take(play.reader.long())
    elif 0x0100 <= number <= 0x7FFF:
        play.reader.take(2 * (number >> 8))


def sets(name, read):
    """The action that reads a part of the state."""
    return lambda play: setattr(play.state, name, read(play))


def read_old_pattern(play):
    return old_pattern(play.reader.take(8))


def read_old_color(play):
    """One of the eight colors of old, by its number."""
    number = play.reader.long()
    if number not in OLD_COLORS:
        play.remarks["a color of old that doesn't exist is shown as black"] += 1
    return OLD_COLORS.get(number, BLACK)


def read_pixel_pattern(play):
    """A pattern with a sort: 0 has its 8 bytes alone, 1 has a pixmap after them, 2 has one color after them."""
    play.work.spend(LARGE)
    sort, pattern = play.reader.word(), read_old_pattern(play)
    if sort == 0:
        return pattern
    if sort == 2:
        return plain_pattern(play.color())
    if sort != 1:
        raise Damaged(play.place, "a pattern is of the sort %d" % sort)
    pixels = packing.read_pixels(play.reader)
    if pixels.bounds.width * pixels.bounds.height > LARGEST_PATTERN:
        raise TooLarge("a pattern has %d by %d pixels" % (pixels.bounds.width, pixels.bounds.height))
    parts = [image.convert("RGB").tobytes() for _, image in packing.strips(play.reader, pixels, True)]
    play.work.spend(8 * pixels.bounds.width * pixels.bounds.height)
    return pixel_pattern(pixels.bounds.width, b"".join(parts))


def set_clip(play):
    play.state.clip = both(rectangle(play.raster.frame), play.region())


def move_origin(play):
    across, down = play.reader.integer(), play.reader.integer()
    play.state.origin = play.state.origin[0] + across, play.state.origin[1] + down


def signed_bytes(play):
    return play.reader.signed(1), play.reader.signed(1)


# Lines.

def draw_line(play, last):
    """Draws from the place of the pen to a point, where the pen is afterwards."""
    state = play.state
    play.paint(regions.line(state.pen_place, last, *state.pen_size))
    state.pen_place = last


def line(play):
    play.state.pen_place = play.point()
    draw_line(play, play.point())


def short_line(play):
    play.state.pen_place = play.point()
    short_line_from(play)


def short_line_from(play):
    across, down = signed_bytes(play)
    draw_line(play, (play.state.pen_place[0] + across, play.state.pen_place[1] + down))


# Shapes: what is read of each, what lies within it, and what its frame covers.

def read_nothing(play):
    pass


def read_shape_rect(play):
    play.state.rect = play.rect()


def read_arc(play):
    read_shape_rect(play)
    read_angles(play)


def read_angles(play):
    play.state.angles = play.reader.integer(), play.reader.integer()


def read_shape_polygon(play):
    play.state.polygon = regions.read_polygon(play.reader, play.work, play.state.origin)


def read_shape_region(play):
    play.state.region = play.region()


def within_rect(play):
    return rectangle(play.state.rect)


def frame_of_rect(play):
    return [hollow(within_rect(play), rectangle(play.state.rect.inset(*play.state.pen_size)))]


def within_rounded(play):
    return regions.rounded(play.state.rect, *play.state.oval)


def frame_of_rounded(play):
    (width, height), (across, down) = play.state.oval, play.state.pen_size
    return [hollow(within_rounded(play), regions.rounded(play.state.rect.inset(across, down), width - 2 * across, height - 2 * down))]


def within_oval(play):
    return regions.oval(play.state.rect)


def frame_of_oval(play):
    return [hollow(within_oval(play), regions.oval(play.state.rect.inset(*play.state.pen_size)))]


def within_arc(play):
    return regions.arc(play.state.rect, *play.state.angles)


def frame_of_arc(play):
    return [both(within_arc(play), shape) for shape in frame_of_oval(play)]


def within_polygon(play):
    return regions.polygon(play.state.polygon, play.raster.frame, play.work)


def frame_of_polygon(play):
    """Its lines one after the other, each drawn alone; the last corner isn't tied to the first."""
    points = play.state.polygon
    return (regions.line(first, last, *play.state.pen_size) for first, last in zip(points, points[1:]))


def within_region(play):
    return play.state.region


def frame_of_region(play):
    return [regions.outline(play.state.region, *play.state.pen_size, play.work)]


def verbs(within, frame):
    """What the five verbs do with a shape: frame, paint, erase, invert, fill."""
    def draw_frame(play):
        if min(play.state.pen_size) > 0:
            for shape in frame(play):
                play.paint(shape)

    return (draw_frame,
            lambda play: play.paint(within(play)),
            lambda play: play.fill(within(play), play.state.back_pattern),
            lambda play: play.invert(within(play)),
            lambda play: play.fill(within(play), play.state.fill_pattern))


# Pixels.

def bits(is_packed, has_region, is_direct=False):
    """The action that draws a bitmap or a pixmap."""
    def action(play):
        reader = play.reader
        play.work.spend(LARGE)
        pixels = packing.read_direct_pixels(reader) if is_direct else packing.read_pixels(reader)
        source, target, mode = read_rect(reader), play.rect(), play.mode(reader.word())
        clip = both(play.state.clip, play.region()) if has_region else play.state.clip
        place = reader.place
        for bounds, image in packing.strips(reader, pixels, is_packed):
            play.work.spend(2 * bounds.width * bounds.height + 8 * (reader.place - place))
            place = reader.place
            play.copy(image, bounds, source, target, clip, mode)

    return action


def compressed_picture(play):
    """Draws a JPEG that QuickTime has put in; what else it may be is counted."""
    place = play.reader.place + 4
    play.work.spend(LARGE)
    data = play.reader.take(play.reader.long())
    found = quicktime.at_place(place, quicktime.read_compressed, data, play.work, play.state.origin)
    if found.kind != b"jpeg" or found.target is None:
        play.missed[0x8200] += 1
        return
    image = quicktime.at_place(place + found.place, quicktime.jpeg_picture, found.data, play.work)
    if found.has_matte:
        play.remarks["the matte of a QuickTime picture isn't drawn"] += 1
    clip = both(play.state.clip, found.mask) if found.mask else play.state.clip
    play.copy(image, regions.Rect(0, 0, image.height, image.width), found.source, found.target, clip, play.mode(found.mode))
    play.quicktime = found.target


# Text.

def text_at(play, place):
    """Draws the text that comes next, its first letter at a place."""
    play.work.spend(LARGE)
    state, data = play.state, play.reader.take(play.reader.byte())
    state.text_place = place
    over = play.quicktime
    if over and over.left <= place[0] < over.right and over.top <= place[1] < over.bottom:
        play.remarks["text on a QuickTime picture isn't drawn"] += 1
        return
    play.work.spend(LETTER * len(data))
    image = lettering.letters(data, state.text_face)
    if not image:
        return
    play.has_text = True
    bounds = regions.Rect(0, 0, image.height, image.width)
    play.copy(image, bounds, bounds, lettering.place_of(image, place, state.text_size), state.clip, play.mode(state.text_mode))


def text_after(reads_across, reads_down):
    """The action that draws a text right of and below the one before."""
    def action(play):
        across = play.reader.byte() if reads_across else 0
        down = play.reader.byte() if reads_down else 0
        text_at(play, (play.state.text_place[0] + across, play.state.text_place[1] + down))

    return action


# The table.

OPCODES = {
    0x0000: read_nothing,                                            # NOP
    0x0001: set_clip,                                                # Clip
    0x0002: sets("back_pattern", read_old_pattern),                  # BkPat
    0x0003: skip(2),                                                 # TxFont
    0x0004: sets("text_face", lambda play: play.reader.byte()),      # TxFace
    0x0005: sets("text_mode", lambda play: play.reader.word()),      # TxMode
    0x0006: skip(4),                                                 # SpExtra
    0x0007: sets("pen_size", lambda play: play.size()),              # PnSize
    0x0008: sets("pen_mode", lambda play: play.reader.word()),       # PnMode
    0x0009: sets("pen_pattern", read_old_pattern),                   # PnPat
    0x000A: sets("fill_pattern", read_old_pattern),                  # FillPat
    0x000B: sets("oval", lambda play: play.size()),                  # OvSize
    0x000C: move_origin,                                             # Origin
    0x000D: sets("text_size", lambda play: play.reader.integer()),   # TxSize
    0x000E: sets("fore", read_old_color),                            # FgColor
    0x000F: sets("back", read_old_color),                            # BkColor
    0x0010: skip(8),                                                 # TxRatio
    0x0011: skip(1),                                                 # VersionOp
    0x0012: sets("back_pattern", read_pixel_pattern),                # BkPixPat
    0x0013: sets("pen_pattern", read_pixel_pattern),                 # PnPixPat
    0x0014: sets("fill_pattern", read_pixel_pattern),                # FillPixPat
    0x0015: skip(2),                                                 # PnLocHFrac
    0x0016: skip(2),                                                 # ChExtra
    0x001A: sets("fore", lambda play: play.color()),                 # RGBFgCol
    0x001B: sets("back", lambda play: play.color()),                 # RGBBkCol
    0x001D: skip(6),                                                 # HiliteColor
    0x001E: read_nothing,                                            # DefHilite
    0x001F: sets("operand", lambda play: play.color()),              # OpColor
    0x0020: line,                                                    # Line
    0x0021: lambda play: draw_line(play, play.point()),              # LineFrom
    0x0022: short_line,                                              # ShortLine
    0x0023: short_line_from,                                         # ShortLineFrom
    0x0028: lambda play: text_at(play, play.point()),                # LongText
    0x0029: text_after(True, False),                                 # DHText
    0x002A: text_after(False, True),                                 # DVText
    0x002B: text_after(True, True),                                  # DHDVText
    0x002C: skip_counted,                                            # fontName
    0x002D: skip_counted,                                            # lineJustify
    0x002E: skip_counted,                                            # glyphState
    0x0090: bits(is_packed=False, has_region=False),                 # BitsRect
    0x0091: bits(is_packed=False, has_region=True),                  # BitsRgn
    0x0098: bits(is_packed=True, has_region=False),                  # PackBitsRect
    0x0099: bits(is_packed=True, has_region=True),                   # PackBitsRgn
    0x009A: bits(is_packed=True, has_region=False, is_direct=True),  # DirectBitsRect
    0x009B: bits(is_packed=True, has_region=True, is_direct=True),   # DirectBitsRgn
    0x00A0: skip(2),                                                 # ShortComment
    0x00A1: skip_comment,                                            # LongComment
    HEADER: skip(24),                                                # HeaderOp
    0x8200: compressed_picture,                                      # CompressedQuickTime
}
SHAPES = (
    (0x30, read_shape_rect, read_nothing, within_rect, frame_of_rect),           # frameRect and so on
    (0x40, read_shape_rect, read_nothing, within_rounded, frame_of_rounded),     # frameRRect
    (0x50, read_shape_rect, read_nothing, within_oval, frame_of_oval),           # frameOval
    (0x60, read_arc, read_angles, within_arc, frame_of_arc),                     # frameArc
    (0x70, read_shape_polygon, read_nothing, within_polygon, frame_of_polygon),  # framePoly
    (0x80, read_shape_region, read_nothing, within_region, frame_of_region),     # frameRgn
)


def add_shapes(opcodes):
    """Adds the opcodes of shapes: for each, 8 that read one and 8 of the same one as before, of which 5 draw and 3 are reserved."""
    for base, read, read_same, within, frame in SHAPES:
        for first, reading in ((base, read), (base + 8, read_same)):
            for number, verb in enumerate(verbs(within, frame), first):
                opcodes[number] = in_turn(reading, verb)
            for number in range(first + 5, first + 8):
                opcodes[number] = in_turn(reading, counted(number))


def in_turn(first, second):
    """The action that does one thing and then another."""
    def action(play):
        first(play)
        second(play)

    return action


def counted(number):
    """The action that only counts an opcode."""
    return lambda play: play.missed.update((number,))


add_shapes(OPCODES)
