"""How wide a text is in the system font of the Macintosh, Chicago of 12 points, and where its lines break.

Source of the line: Inside Macintosh: Text, chapter 4, 'Font Manager' (ascent 12, descent 3, leading 1). The widths are those
of the bitmap font as its letters stand in menus and dialogs. They were written down without a copy of the font at hand: one
may be off by a pixel, so what is said by them is an estimate. A letter with an accent is as wide as without, and a letter
that isn't in the table has 7 pixels.
"""
import functools
import re
import unicodedata

OTHER = 7
ASCENT, LINE, LEADING = 12, 16, 1  # pixels from the top of a line to its base line, from line to line, and between them
BY_WIDTH = {3: "'", 4: " ,.:;il\u00A0", 5: "()[]{}|", 6: "!<>IT`fjrt", 7: '"$*+-/\\EFJLScs', 8: "0123456789=?ABCDGHOPQRUVXYZ^_abdeghknopquvxyz~",
            9: "KN\u2713\u25C6", 10: "#&", 11: "%@\u2318", 12: "MWmw\u2026"}  # with the check mark, the diamond, the command key, and three dots
WIDTHS = {letter: width for width, letters in BY_WIDTH.items() for letter in letters}
WORDS = re.compile("[^ ]+ *| +")


@functools.lru_cache(maxsize=1024)
def letter_width(letter):
    """The pixels from a letter to the next."""
    return WIDTHS.get(letter) or WIDTHS.get(unicodedata.normalize("NFD", letter)[0], OTHER)


def width_of(text):
    """The pixels of a line of text."""
    return sum(map(letter_width, text))


def height_of(lines):
    """The pixels of so many lines; the leading of the last one is left out."""
    return LINE * lines - LEADING


def wrapped(text, width):
    """The lines of a text in a rectangle so wide. A line ends after a word; a word wider than the rectangle is broken."""
    return [line.rstrip(" ") for paragraph in text.split("\n") for line in wrapped_paragraph(paragraph, width)]


def wrapped_paragraph(text, width):
    """The lines of a text without line ends. The spaces after a word may reach out of the rectangle."""
    lines, line, used = [], "", 0
    for piece in WORDS.findall(text):
        word = piece.rstrip(" ")
        if line and used + width_of(word) > width:
            lines.append(line)
            line, used = "", 0
        if width_of(word) > width:
            *parts, word = broken(word, width)
            lines += parts
            piece = word + " " * (len(piece) - len(piece.rstrip(" ")))
        line, used = line + piece, used + width_of(piece)
    return lines + [line]


def broken(word, width):
    """A word in parts of at most this width, each of at least one letter."""
    parts, used = [""], 0
    for letter in word:
        if parts[-1] and used + letter_width(letter) > width:
            parts.append("")
            used = 0
        parts[-1] += letter
        used += letter_width(letter)
    return parts
