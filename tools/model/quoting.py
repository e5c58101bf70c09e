"""Bytes between marks, and words of attributes, as messages, shown text and sources have them."""

WORDS = {"sysheap": 0x40, "purgeable": 0x20, "locked": 0x10, "protected": 0x08, "preload": 0x04, "changed": 0x02}
WITHOUT_WORD = 0x81


def quoted(data, mark='"'):
    """The bytes in one piece: a mark and a backslash after a backslash, and a byte outside ASCII by its digits."""
    shown = ("\\" + chr(b) if chr(b) in ("\\", mark) else chr(b) if 0x20 <= b <= 0x7E else "\\0x%02X" % b for b in data)
    return mark + "".join(shown) + mark


def words_of(attributes):
    """The attributes as `derez` writes them: words, or a number where a bit has no word."""
    if attributes & WITHOUT_WORD:
        return ["$%02X" % attributes]
    return [word for word, bit in WORDS.items() if attributes & bit]
