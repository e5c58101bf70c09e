"""Letters of a resource's text as a page can have them: escaped, and without control letters."""
import html

from .roman import text_of

SYSTEM = {0x11: "\u2318", 0x12: "\u2713", 0x13: "\u25C6"}  # the letters of Chicago: command, check mark, diamond
CONTROL_PICTURES, DELETE = 0x2400, 0x7F
SHOWN = {code: SYSTEM.get(code, chr(CONTROL_PICTURES + code)) for code in range(32) if chr(code) not in "\t\n"}
SHOWN[DELETE] = "\u2421"


def lines_of(data):
    """Bytes of the Macintosh as text: LF ends a line, and a control letter is its picture."""
    return text_of(data).replace("\r\n", "\n").replace("\r", "\n").translate(SHOWN)


def escaped(text):
    """A text as it stands in a page and between the quotation marks of an attribute."""
    return html.escape(text, quote=True)
