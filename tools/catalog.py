#!/usr/bin/env python3
"""Helps with catalogues of texts, as `rezkit strings` writes them and `rezkit restring` reads them.

    python3 tools/catalog.py legible CATALOGUE            the same texts, with their letters as they are, in UTF-8
    python3 tools/catalog.py carry OLD TRANSLATED NEW     the translation of an old version, for a new one
    python3 tools/catalog.py same OLD TRANSLATED          the entries that aren't translated yet

The catalogue goes to standard output, in UTF-8 after the mark without which `restring` reads Mac Roman. OLD and NEW
are what `strings` says of both versions, and TRANSLATED has the texts for OLD. A text is carried only if the text
that it stands for is the same in both versions, at the same place, or else at just one place of the same resource in
each; what isn't carried is told on standard error, and stays as it is in the new version. Nothing here is proved:
`restring` checks what it is given.
"""
import sys

from model.catalogues import entries_of, message, roman_text, tokens_of_catalogue
from model.faults import Refused
from model.lists import key_text
from model.shown import pieces


def entries_in(name):
    """The texts of a catalogue by type, id and leaf."""
    with open(name, "rb") as file:
        try:
            found = entries_of(tokens_of_catalogue(roman_text(file.read())))
        except Refused as fault:
            sys.exit(message(fault, name))
    return {entry[:3]: entry[3] for entry in found}


def legible(text):
    """A piece of a text: letters as they are, all else as `strings` has it."""
    out = ""
    for byte in text:
        letter = bytes([byte]).decode("mac_roman")
        shown = letter if letter.isprintable() or byte == 0xCA else "\\0x%02X" % byte
        out += "\\" + letter if letter in '\\"' else shown
    return '    "%s"' % out


def entry_text(key, text):
    kind, ident, leaf = key
    return "%s %d\n%s;\n" % (key_text(kind, ident), leaf, "\n".join(legible(piece) for piece in pieces(text, 64)))


def only(texts, resource, text):
    """The one leaf of a resource that has this text, or None."""
    found = [key for key, own in texts.items() if key[:2] == resource and own == text]
    return found[0] if len(found) == 1 else None


def carried(old, translated, new):
    """The texts that can be carried, and the keys of those that can't."""
    out, left = {}, []
    for key, text in new.items():
        place = key if old.get(key) == text else only(old, key[:2], text) if only(new, key[:2], text) else None
        if place in translated:
            out[key] = translated[place]
        else:
            left.append(key)
    return out, left


def main():
    command, names = (sys.argv[1:2] or [""])[0], sys.argv[2:]
    if (command, len(names)) not in (("legible", 1), ("carry", 3), ("same", 2)):
        sys.exit(__doc__)
    catalogues = [entries_in(name) for name in names]
    texts = catalogues[0]
    if command == "carry":
        texts, left = carried(*catalogues)
        for key in left:
            print("not carried: %s %d" % (key_text(*key[:2]), key[2]), file=sys.stderr)
    elif command == "same":
        texts = {key: text for key, text in texts.items() if catalogues[1].get(key, text) == text}
    text = "".join(entry_text(*each) for each in texts.items())
    sys.stdout.buffer.write(b"\xEF\xBB\xBF" + text.encode("utf-8"))


if __name__ == "__main__":
    main()
