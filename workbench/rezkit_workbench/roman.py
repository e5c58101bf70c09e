"""Letters of the Macintosh, and what may be printed of a text that someone else wrote."""
import unicodedata

SCRIPTS = {
    "roman": "mac_roman", "central-european": "mac_latin2", "cyrillic": "mac_cyrillic", "turkish": "mac_turkish",
    "greek": "mac_greek", "icelandic": "mac_iceland", "romanian": "mac_romanian", "croatian": "mac_croatian",
}
NEVER_PRINTED = ("Cc", "Cf", "Cs", "Zl", "Zp")


def text_of(data, script="roman"):
    """Bytes of the Macintosh as text."""
    return bytes(data).decode(SCRIPTS[script])


def printable(text):
    """A text in which control characters, and bytes of a name that aren't UTF-8, are told by `\\`."""
    if text.isprintable() and "\\" not in text:
        return text
    return "".join(escaped(letter) for letter in text)


def escaped(letter):
    """A letter, or what is printed in its place."""
    if letter == "\\":
        return "\\\\"
    if unicodedata.category(letter) not in NEVER_PRINTED:
        return letter
    code = ord(letter)
    if 0xDC80 <= code <= 0xDCFF:  # a byte of a file's name, as Python keeps it
        return "\\x%02x" % (code - 0xDC00)
    return "\\x%02x" % code if code < 0x100 else "\\u%04x" % code if code < 0x10000 else "\\U%08x" % code


def shown(data, script="roman"):
    """Bytes of the Macintosh as they may be printed."""
    return printable(text_of(data, script))


def four(kind):
    """A type or a creator between its marks."""
    return "'%s'" % shown(kind).replace("'", "\\'")


def quoted(name):
    """A name of a file or a resource between its marks."""
    return '"%s"' % shown(name).replace('"', '\\"')
