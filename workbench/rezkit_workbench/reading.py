"""Bytes that are read from left to right, numbers with the highest byte first, and what a decoder of resources gives."""
from .errors import Damaged, TooLarge

MOST_PIXELS = 16777216


class Reader:
    """The bytes of a resource and the place, from 0, of the one that is read next. What reads beyond the end is refused."""

    def __init__(self, data, place=0):
        self.data, self.place = data, place

    def left(self):
        return max(0, len(self.data) - self.place)

    def take(self, length):
        """The next bytes."""
        if length < 0 or length > self.left():
            raise Damaged(self.place, "%d bytes are wanted and %d are there" % (length, self.left()))
        self.place += length
        return self.data[self.place - length:self.place]

    def unsigned(self, length):
        return int.from_bytes(self.take(length), "big")

    def signed(self, length):
        return int.from_bytes(self.take(length), "big", signed=True)

    def byte(self):
        return self.unsigned(1)

    def word(self):
        """An unsigned number of 16 bits."""
        return self.unsigned(2)

    def integer(self):
        """A signed number of 16 bits."""
        return self.signed(2)

    def long(self):
        """An unsigned number of 32 bits."""
        return self.unsigned(4)


def check_pixels(width, height):
    """Refuses a picture of more pixels than are decoded, before memory is taken for it."""
    if width * height > MOST_PIXELS:
        raise TooLarge("%d by %d pixels are more than the %d that are decoded" % (width, height, MOST_PIXELS))


class Shown:
    """What a resource looks or sounds like: the bytes of a file, the ending of its name, and what the page says of it.

    `ending` is png, wav, aifc or html; a fragment of HTML is text that stands in the page. `size` is the width and the
    height of a picture in pixels. `notes` are sentences about what isn't shown.
    """

    def __init__(self, ending, data, size=None, notes=()):
        self.ending, self.data, self.size, self.notes = ending, data, size, list(notes)
