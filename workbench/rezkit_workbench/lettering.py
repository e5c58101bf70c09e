"""Letters in Pillow's own font, in place of the fonts of the Macintosh, which aren't here.

The font has one size. Larger letters are the same ones with each pixel twice, three times and so on as wide and high.
Bold and underlined letters are shown, the other styles are plain.
"""
import functools

from .pixels import Image, ImageChops, ImageDraw, ImageFont
from .regions import Rect
from .roman import text_of

ASCENT = 9  # rows of the font above the line on which letters stand
USUAL_SIZE, STEP = 12, 10  # in points: the size 0, and how much a size grows until letters are one pixel larger
BOLD, UNDERLINE = 1, 4
INK, GROUND = 0, 255


@functools.lru_cache(maxsize=None)
def font():
    """The font of pixels that Pillow has built in."""
    return getattr(ImageFont, "load_default_imagefont", ImageFont.load_default)()


def letters(data, face):
    """The picture of a text, black on white, as large as it is; or None if it has no letters."""
    text = "".join(letter if letter.isprintable() else " " for letter in text_of(data))
    text = text.encode("latin-1", "replace").decode("latin-1")
    width, height = font().getmask(text).size
    if width <= 0 or height <= 0:
        return None
    image = Image.new("L", (width + 1, height + 1), GROUND)
    ImageDraw.Draw(image).text((0, 0), text, font=font(), fill=INK)
    if face & BOLD:
        image = ImageChops.darker(image, ImageChops.offset(image, 1, 0))
    if face & UNDERLINE:
        image.paste(INK, (0, ASCENT, width, ASCENT + 1))
    return image


def place_of(image, point, size):
    """The rectangle for a text of a size in points, on whose line the point (across, down) lies at the left."""
    times = max(1, ((size if size > 0 else USUAL_SIZE) + STEP // 2) // STEP)
    top = point[1] - ASCENT * times
    return Rect(top, point[0], top + image.height * times, point[0] + image.width * times)
