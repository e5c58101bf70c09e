"""Catalogues of texts, as `rezkit strings` writes them and `rezkit restring` reads them, and where `derez` shows each text.

A catalogue numbers the texts of a resource. `derez` shows them in the same order, with what stands around them: the kind
of a dialog's item and its rectangle, and whether a text is a hex string, as padding is. Between them it shows also single
letters that are no texts, as the keys of menu items; so the two are laid beside each other here.
"""
import re

from .errors import Refused

ESCAPE = re.compile(rb"\\0x(..)|\\(.)", re.S)
ENTRY = re.compile(rb"'((?:[^'\\]|\\.)*)' (-?\d+) (\d+)((?:\n    \"(?:[^\"\\]|\\.)*\")+);\n")
PART = re.compile(
    rb"""(?P<blank>\s+)|(?P<string>"(?:[^"\\]|\\.)*")|(?P<hex>\$"[^"]*")|(?P<literal>'(?:[^'\\]|\\.)*')"""
    rb"""|(?P<word>\$[0-9A-Fa-f]+|-?\w+)|(?P<sign>[{}(),;])""", re.S)


def plain(quoted):
    """The bytes that stand between marks."""
    return ESCAPE.sub(lambda found: bytes([int(found[1], 16)]) if found[1] else found[2], quoted)


def strings_in(text):
    """The bytes of strings that stand one after the other."""
    return b"".join(plain(piece) for piece in re.findall(rb'"((?:[^"\\]|\\.)*)"', text, re.S))


def entries_of(catalogue):
    """The entries of a catalogue of `strings`: type, id, number and text."""
    found, place = [], 0
    for entry in ENTRY.finditer(catalogue):
        if entry.start() != place:
            break
        found.append((plain(entry[1]), int(entry[2]), int(entry[3]), strings_in(entry[4])))
        place = entry.end()
    if place != len(catalogue):
        raise Refused("strings wrote what is no catalogue, at byte %d" % place)
    return found


def entry_text(kind, ident, leaf, text):
    """An entry of a catalogue, in one line."""
    return b"%s %d %d %s;\n" % (marked(kind, b"'"), ident, leaf, marked(text, b'"'))


def marked(data, mark):
    """Bytes between marks, letters in ASCII as they are and all others as \\0x."""
    return mark + b"".join(
        b"\\" + bytes([byte]) if byte in b"\\" + mark else bytes([byte]) if 0x20 <= byte <= 0x7E else b"\\0x%02X" % byte
        for byte in data) + mark


class Shown:
    """A string that `derez` shows: its bytes, whether it is a hex string, and the kind and the rectangle of its item."""

    def __init__(self, text, is_hex, kind, rectangle):
        self.text, self.is_hex, self.kind, self.rectangle = text, is_hex, kind, rectangle


class Statement:
    """A statement of `derez`: its word, type, id and name, and the strings that it shows."""

    def __init__(self, word, kind):
        self.word, self.kind, self.ident, self.name, self.strings = word, kind, None, b"", []


def parts_of(text):
    """The words, strings and signs of what `derez` writes: (kind, bytes)."""
    place = 0
    while place < len(text):
        part = PART.match(text, place)
        if not part:
            raise Refused("derez wrote what can't be read, at byte %d" % place)
        if part.lastgroup != "blank":
            yield part.lastgroup, part.group()
        place = part.end()


def statements_of(text):
    """The statements of what `derez` writes."""
    parts, found = parts_of(text), []
    for kind, word in parts:
        if word not in (b"data", b"resource"):
            raise Refused("derez wrote a statement that can't be read: %s" % word.decode("ascii", "replace"))
        statement = Statement(word.decode(), plain(next(parts)[1][1:-1]))
        read_header(statement, parts)
        read_body(statement, parts)
        found.append(statement)
    return found


def read_header(statement, parts):
    """Reads from `(` to `)`."""
    for kind, word in parts:
        if kind == "word" and statement.ident is None:
            statement.ident = int(word)
        elif kind == "string":
            statement.name += plain(word[1:-1])
        elif word == b")":
            return


def read_body(statement, parts):
    """Reads from `{` to `;` after its `}`. `open_braces` has for each brace the word before it, and what was last within."""
    open_braces, before, last = [], None, None
    for kind, word in parts:
        if word == b"{":
            open_braces.append([before, [], None])
        elif word == b"}":
            closed = open_braces.pop()
            if open_braces and len(closed[1]) == 4:
                open_braces[-1][2] = closed[1]
        elif word == b";" and not open_braces:
            return
        elif kind == "word" and open_braces:
            open_braces[-1][1].append(word)
        elif kind in ("string", "hex") and statement.word == "resource":
            add_string(statement, kind, word, last in ("string", "hex"), open_braces)
        before, last = word if kind == "word" else None, kind


def add_string(statement, kind, word, goes_on, open_braces):
    """Adds a string, or more of the one before it."""
    text = bytes.fromhex(word[2:-1].decode()) if kind == "hex" else plain(word[1:-1])
    if goes_on:
        statement.strings[-1].text += text
        return
    item, _, _ = open_braces[-1]
    rectangle = open_braces[-2][2] if len(open_braces) > 1 and item else None
    statement.strings.append(Shown(text, kind == "hex", item.decode() if item else None,
                                   [part.decode() for part in rectangle] if rectangle else None))


def beside(texts, strings):
    """For each text of a resource the string that `derez` shows of it, or None for all if they don't fit.

    A string of one byte may be a letter that is no text, and is passed over where the text isn't the same.
    """
    found, place = [], 0
    for text in texts:
        while place < len(strings) and strings[place].text != text and len(strings[place].text) == 1 and not strings[place].is_hex:
            place += 1
        if place == len(strings) or strings[place].text != text:
            return [None] * len(texts)
        found.append(strings[place])
        place += 1
    return found
