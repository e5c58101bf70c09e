"""Pictures of a fork's icons and pictures, as addresses that stand in a page."""
import base64

from . import icons, pictures
from .errors import Refused
from .reading import Reader

DECODERS = {**icons.KINDS, **pictures.KINDS}
FRAMES = {b"PICT": 2, b"cicn": 6}  # where a rectangle states how large the picture will be
MOST_PIXELS = 16777216  # of all pictures of a fork
MOST_READ = 64 << 20  # bytes of the resources that are decoded, of a fork
MOST_BYTES = 16 << 20  # of all addresses of a fork
ENOUGH = "the page has enough pictures"


class Embedded:
    """The pictures of a fork. `find` gives the bytes of a resource by its type and id, or None.

    The work and the bytes are limited: pictures beyond the limits are refused.
    """

    def __init__(self, find):
        self.find, self.known, self.pixels, self.read, self.bytes = find, {}, MOST_PIXELS, MOST_READ, MOST_BYTES

    def picture(self, kinds, ident):
        """The address of the first resource of these types that has this id and is decoded, and why there is none, or None."""
        reason = "isn't in the file"
        for kind in kinds:
            if (kind, ident) not in self.known:
                self.known[kind, ident] = self.decoded(kind, ident)
            address, refused = self.known[kind, ident]
            if address and len(address) > self.bytes:
                address, refused = None, "isn't shown: " + ENOUGH
            if address:
                self.bytes -= len(address)
                return address, None
            reason = refused or reason
        return None, reason

    def decoded(self, kind, ident):
        """The address of a resource, and why there is none, or None for both if it isn't there."""
        if kind not in DECODERS or self.find(kind, ident) is None:
            return None, None
        try:
            data = self.taken(kind, ident)
            self.take_pixels(kind, data)
            shown = DECODERS[kind](data, lambda other: self.taken(other, ident))
        except Refused as fault:
            return None, "isn't shown: %s" % fault
        return "data:image/png;base64," + base64.b64encode(shown.data).decode("ascii"), None

    def taken(self, kind, ident):
        """The bytes of a resource, or None. They are counted."""
        data = self.find(kind, ident)
        if data is None:
            return None
        if len(data) > self.read:
            raise Refused(ENOUGH)
        self.read -= len(data)
        return bytes(data)

    def take_pixels(self, kind, data):
        """Counts the pixels that a picture states, before it is decoded."""
        if kind in FRAMES:
            reader = Reader(data, FRAMES[kind])
            top, left, bottom, right = (reader.integer() for _ in range(4))
            pixels = max(0, bottom - top) * max(0, right - left)
            if pixels > self.pixels:
                raise Refused(ENOUGH)
            self.pixels -= pixels
