"""The icons of an application made of a picture: a source with the family ICN#, icl4, icl8, ics#, ics4, ics8.

    rezkit-icons PICTURE ID [-o ICONS.r] [-f] [--name NAME]

A picture that is too large for an icon is reduced, a smaller one is enlarged by a whole number, and it stands in the middle.
So one of 32 by 32 or of 16 by 16 pixels keeps them in the icons of its size. What becomes of a pixel:

    mask              it is in the mask if it is at least half opaque (alpha 128 of 255); other pixels are 0
    black and white   it is black if its luminance (0.299 red, 0.587 green, 0.114 blue) is under 128 of 255
    colors            it gets the nearest of the standard color table, by the sum of the squares of the three distances
"""
import functools
import os
import re
import struct
import unicodedata
import warnings
import zlib

from . import command, facts
from .errors import Refused, Usage
from .palettes import STANDARD
from .pixels import pillow
from .reading import MOST_PIXELS
from .roman import SCRIPTS, printable
from .writing import write_file

NAME = "rezkit-icons"
ABOUT = "Writes a source with the icons of a picture: ICN#, icl4, icl8, ics#, ics4, ics8."
MORE = """The source needs no type file: `rezkit rez ICONS.r -o ICONS.rsrc` makes a fork of it. A picture of 32 by 32 or of
16 by 16 pixels keeps them; others are reduced, or enlarged by a whole number. Pixels that are at least half opaque are in
the mask.

exit status: 0 done, 1 refused, 2 wrong arguments"""
FORMATS = ("PNG", "GIF", "JPEG", "BMP")
NOT_DECODED = (OSError, SyntaxError, ValueError, EOFError, IndexError, KeyError, TypeError, OverflowError, struct.error, zlib.error)
SIZES = ((32, "ICN#", "icl4", "icl8"), (16, "ics#", "ics4", "ics8"))
OPAQUE = 128  # the least alpha in the mask
LUMINANCE, WHITE_FROM = (299, 587, 114), 128000  # in thousandths
LEAST_ID, LAST_ID, LONGEST_NAME = -32768, 32767, 255
IN_LINE = 16  # bytes


# The picture.

def picture_of(file):
    """The picture in an opened file, with red, green, blue and alpha. What Pillow can't decode and what is too large is refused."""
    image = pillow()
    with open(file.number, "rb", closefd=False) as stream, warnings.catch_warnings():
        warnings.simplefilter("ignore")
        stream.seek(0)
        try:
            picture = image.open(stream, formats=FORMATS)
            check_size(picture.size, file.told)
            return with_alpha(picture)
        except image.DecompressionBombError:
            raise too_large(file.told) from None
        except image.UnidentifiedImageError:
            raise Refused("%s: is no picture that is read (%s)" % (file.told, ", ".join(FORMATS))) from None
        except NOT_DECODED as fault:
            raise Refused("%s: can't be decoded: %s" % (file.told, printable(str(fault)))) from None


def check_size(size, told):
    """Refuses a picture of no pixels or too many, before they are decoded."""
    if size[0] * size[1] > MOST_PIXELS:
        raise too_large(told)
    if not size[0] * size[1]:
        raise Refused("%s: has no pixels" % told)


def too_large(told):
    return Refused("%s: has more than the %d pixels that are decoded" % (told, MOST_PIXELS))


def with_alpha(picture):
    """A picture of any mode as one of red, green, blue and alpha. Of 16 bits of gray the first 8 count."""
    if picture.mode.startswith("I"):
        transparent = picture.info.get("transparency")
        picture = picture.convert("I").point(lambda gray: gray * (1 / 256)).convert("L")
        picture.info.pop("transparency", None)
        if transparent is not None:
            picture.info["transparency"] = transparent >> 8
    return picture.convert("RGBA")


def fitted(picture, side):
    """The picture in the middle of a square of this side: reduced if it is larger, else enlarged by a whole number.

    The filter weighs no pixel negatively, as others do: so no bright or dark seams come up beside an edge.
    """
    image, (width, height) = pillow(), picture.size
    longest = max(width, height)
    if longest > side:
        size = max(1, round(width * side / longest)), max(1, round(height * side / longest))
        picture = picture.resize(size, image.HAMMING)
    else:
        times = side // longest
        picture = picture.resize((width * times, height * times), image.NEAREST)
    square = image.new("RGBA", (side, side))
    square.paste(picture, ((side - picture.size[0]) // 2, (side - picture.size[1]) // 2))
    return square


# The icons.

def is_black(color):
    """Whether a color is black in an icon of bits."""
    return sum(weight * part for weight, part in zip(LUMINANCE, color)) < WHITE_FROM


@functools.lru_cache(maxsize=None)
def nearest(color, depth):
    """The number of the nearest color of the standard color table of this depth."""
    def distance(number):
        return sum((one - other) ** 2 for one, other in zip(color, STANDARD[depth][number]))
    return min(range(len(STANDARD[depth])), key=distance)


def packed(values, depth):
    """Numbers of so many bits as bytes, the first in the highest bits."""
    bits = "".join(format(value, "0%db" % depth) for value in values)
    return int(bits, 2).to_bytes(len(bits) // 8, "big")


def family(picture):
    """The type and the bytes of each icon."""
    for side, plain, *colored in SIZES:
        parts = fitted(picture, side).tobytes()
        pixels = [(tuple(parts[at:at + 3]), parts[at + 3] >= OPAQUE) for at in range(0, len(parts), 4)]
        bits = packed([is_in and is_black(color) for color, is_in in pixels], 1)
        yield plain, bits + packed([is_in for _, is_in in pixels], 1)
        for kind, depth in zip(colored, (4, 8)):
            yield kind, packed([nearest(color, depth) if is_in else 0 for color, is_in in pixels], depth)


# The source.

def statement(kind, ident, name, data):
    """A resource as a statement, written as `derez` writes it."""
    called = ', "%s"' % "".join(letter(byte) for byte in name) if name else ""
    lines = [data[at:at + IN_LINE].hex(" ", 2).upper() for at in range(0, len(data), IN_LINE)]
    return "data '%s' (%d%s, purgeable) {\n%s};\n" % (kind, ident, called, "".join('    $"%s"\n' % line for line in lines))


def letter(byte):
    """A letter of a name in a source, whatever letters the source has."""
    if byte in b'"\\':
        return "\\" + chr(byte)
    return chr(byte) if 0x20 <= byte <= 0x7E else "\\0x%02X" % byte


def source(picture, called, ident, name):
    """The source of all icons."""
    head = "// Icons of %s, by rezkit-icons.\n" % called.encode("ascii", "backslashreplace").decode("ascii")
    return head + "".join("\n" + statement(kind, ident, name, data) for kind, data in family(picture))


# The program.

def number_of(word):
    """The id that a word says."""
    if not re.fullmatch(r"-?[0-9]{1,5}", word) or not LEAST_ID <= int(word) <= LAST_ID:
        raise Usage("ID is a number from %d to %d, not %s" % (LEAST_ID, LAST_ID, printable(word)))
    return int(word)


def name_of(word):
    """A resource's name in letters of the Macintosh."""
    try:
        name = unicodedata.normalize("NFC", word).encode(SCRIPTS["roman"])
    except UnicodeEncodeError:
        raise Usage("NAME has letters that the Macintosh's Roman letters lack: %s" % printable(word)) from None
    if len(name) > LONGEST_NAME:
        raise Usage("NAME has more than %d letters" % LONGEST_NAME)
    return name


def body(words):
    parser = command.parser(NAME, ABOUT, MORE)
    parser.add_argument("picture", metavar="PICTURE", help="a picture (%s) of any size; - is standard input" % ", ".join(FORMATS))
    parser.add_argument("ident", metavar="ID", help="the id of the icons, from %d to %d" % (LEAST_ID, LAST_ID))
    parser.add_argument("-o", metavar="ICONS.r", dest="output", default="-", help="the source to write (standard output unless stated)")
    parser.add_argument("-f", action="store_true", dest="force", help="replace a file that has the name of -o")
    parser.add_argument("--name", metavar="NAME", default="", help="the name of the icons (none unless stated)")
    options = parser.parse_args(words)
    ident, name = number_of(options.ident), name_of(options.name)
    with facts.Opened(options.picture) as file:
        text = source(picture_of(file), os.path.basename(file.told), ident, name)
    write_file(options.output, text.encode("ascii"), options.force)
    return 0


def main():
    return command.ended(NAME, body)
