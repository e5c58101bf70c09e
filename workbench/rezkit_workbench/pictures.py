"""Pictures of QuickDraw: PICT of version 1, version 2, and extended version 2.

A picture is played, opcode after opcode, on white pixels, one for each unit of its coordinates. The rectangle that gives
them is the frame that stands first (picFrame). Extended version 2 states a resolution: there the source rectangle of the
header gives them, in whose coordinates the opcodes are, and the frame only says how large the picture is in points.

Counted for the page are opcodes that aren't drawn: those that are reserved, and pictures of QuickTime other than JPEG. Text
is drawn in another font. Comments, and opcodes that only say how text is spaced, change nothing.

Source: Inside Macintosh: Imaging With QuickDraw, chapter 7 'Pictures' and appendix A 'Picture Opcodes'.
"""
import collections
import io

from .errors import Damaged, TooLarge
from .opcodes import END_OF_PICTURE, HEADER, OPCODES, skip_reserved
from .pixels import pillow
from .quickdraw import ALL_BLACK, COPY, GRAY_TEXT, HIGHLIGHT, OR, PLAIN, XOR, Raster, State, Work, known_mode
from .reading import Reader, Shown, check_pixels
from .regions import read_rect, read_region, rectangle

MOST_NOTES = 20
EXTENDED = 0xFFFE  # the version of the header of extended version 2


class Player:
    """A picture that is played: its bytes, what its opcodes have set, its pixels, and what wasn't drawn."""

    def __init__(self, reader, version, frame):
        self.reader, self.version, self.work = reader, version, Work()
        self.raster = Raster(frame, self.work)
        self.state = State(rectangle(frame))
        self.drawn, self.place = 0, reader.place
        self.missed, self.remarks = collections.Counter(), collections.Counter()
        self.quicktime, self.has_text = None, False

    def play(self):
        """Plays the opcodes up to the end of the picture."""
        while True:
            self.work.spend(300)
            self.place = self.reader.place
            number = self.reader.byte() if self.version == 1 else self.reader.word()
            if number == END_OF_PICTURE:
                return
            action = OPCODES.get(number)
            if action:
                action(self)
            else:
                self.missed[number] += 1
                skip_reserved(self, number)
            if self.version == 2 and self.reader.place % 2:
                self.reader.take(1)

    # What is read.

    def point(self):
        """A point (across, down) as it lies in the frame."""
        down, across = self.reader.integer(), self.reader.integer()
        return across - self.state.origin[0], down - self.state.origin[1]

    def size(self):
        """A size (across, down)."""
        down, across = self.reader.integer(), self.reader.integer()
        return across, down

    def rect(self):
        return read_rect(self.reader).moved(-self.state.origin[0], -self.state.origin[1])

    def region(self):
        return read_region(self.reader, self.work, self.state.origin)

    def color(self):
        """A color of which each part has 16 bits."""
        return tuple(self.reader.take(6)[::2])

    def mode(self, number):
        """The mode that a number means."""
        known = known_mode(number)
        if known is None:
            known = {GRAY_TEXT: OR, HIGHLIGHT: XOR}.get(number, COPY)
            self.remarks["the mode %d is shown as %s" % (number, {COPY: "copying", OR: "or", XOR: "inverting"}[known])] += 1
        return known

    # What is drawn.

    def fill(self, shape, pattern, mode=COPY):
        self.raster.fill(shape, self.state.clip, pattern, mode, self.state.colors())
        self.drawn += 1

    def paint(self, shape):
        """Fills a shape with the pattern of the pen."""
        self.fill(shape, self.state.pen_pattern, self.mode(self.state.pen_mode))

    def invert(self, shape):
        self.raster.fill(shape, self.state.clip, ALL_BLACK, XOR, PLAIN)
        self.drawn += 1

    def copy(self, image, bounds, source, target, clip, mode):
        self.raster.copy(image, bounds, source, target, clip, mode, self.state.colors())
        self.drawn += 1

    def notes(self):
        """Sentences about what isn't shown; MOST_NOTES of them, and how many more there are."""
        told = ["text is drawn in another font"] if self.has_text else []
        told += ["opcode $%04X isn't drawn: %s" % (number, times(count)) for number, count in sorted(self.missed.items())]
        told += ["%s: %s" % (said, times(count)) for said, count in sorted(self.remarks.items())]
        return told[:MOST_NOTES] + ["notes that are left out: %d" % (len(told) - MOST_NOTES)] * (len(told) > MOST_NOTES)


def times(count):
    return "1 time" if count == 1 else "%d times" % count


def read_frame(reader):
    """The version, and the rectangle whose coordinates have a pixel each; the reader stands at the first opcode."""
    reader.word()  # the length, which means nothing
    frame = read_rect(reader)
    place = reader.place
    begin = reader.take(2)
    if begin == b"\x11\x01":
        return 1, frame
    if begin != b"\0\x11" or reader.byte() != 2:
        raise Damaged(place, "a picture has no version 1 or 2")
    reader.byte()
    header = Reader(reader.data, reader.place)
    if header.word() == HEADER and header.word() == EXTENDED:
        header.take(10)  # a word that is reserved, and the resolutions
        source = read_rect(header)
        frame = frame if source.is_empty() else source
    return 2, frame


def decode(data, beside):
    """A picture as PNG. Refused is one without a size, and one that breaks off before anything is drawn."""
    pillow()
    reader = Reader(data)
    version, frame = read_frame(reader)
    if frame.is_empty():
        raise Damaged(2, "a picture has no width or no height")
    check_pixels(frame.width, frame.height)
    player, notes = Player(reader, version, frame), []
    try:
        player.play()
    except Damaged as fault:
        if not player.drawn:
            raise
        notes = ["the picture breaks off at byte %d: %s" % (fault.place, fault.said)]
    except TooLarge as fault:
        if not player.drawn:
            raise
        notes = ["the picture breaks off at byte %d: %s" % (player.place, fault)]
    file = io.BytesIO()
    player.raster.image.save(file, "PNG")
    return Shown("png", file.getvalue(), (frame.width, frame.height), player.notes() + notes)


KINDS = {b"PICT": decode}
