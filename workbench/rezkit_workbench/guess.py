"""A guess at the type of a resource by its bytes alone.

A type is guessed if the bytes have its form from their first to their last. Several types can have the same form, and
bytes of another type can have it by chance: it stays a guess.
"""

ICONS = {8: ("PAT ",), 64: ("ics#",), 68: ("CURS",), 128: ("ICON", "ics4"), 256: ("ICN#", "ics8"), 512: ("icl4",), 1024: ("icl8",)}
NO_LETTERS = bytes(byte for byte in (*range(32), 127) if byte not in b"\t\r")
PLAIN = bytes(range(128))


def number(data, place, length=2):
    return int.from_bytes(data[place:place + length], "big")


def after_strings(data, place, count):
    """The place after so many Pascal strings, or None if they end after the bytes."""
    for _ in range(count):
        if place >= len(data):
            return None
        place += 1 + data[place]
    return place if place <= len(data) else None


def is_string(data):
    return len(data) > 1 and data[0] + 1 == len(data) and is_letters(data[1:])


def is_string_list(data):
    return len(data) > 2 and 0 < number(data, 0) <= len(data) and after_strings(data, 2, number(data, 0)) == len(data)


def is_letters(data):
    return len(data.translate(None, NO_LETTERS)) == len(data)


def is_text(data):
    """Letters, of which no more than half are accented ones and signs."""
    return len(data) > 3 and is_letters(data) and 2 * len(data.translate(None, PLAIN)) <= len(data)


def is_version(data):
    """Four bytes of the version, two of the country, and two strings."""
    return len(data) >= 8 and data[2] in (0x20, 0x40, 0x60, 0x80) and after_strings(data, 6, 2) == len(data)


def is_menu(data):
    """14 bytes, the title, and items of a string and four bytes up to a zero."""
    place = after_strings(data, 14, 1) if len(data) > 15 else None
    while place is not None and place < len(data) and data[place]:
        place = after_strings(data, place, 1)
        place = None if place is None else place + 4
    return place is not None and place + 1 == len(data) and number(data, 6) == number(data, 8) == 0


def is_rectangle(data, place):
    top, left, bottom, right = [number(data, at) for at in range(place, place + 8, 2)]
    return top < bottom and left < right and max(bottom, right) < 0x4000


def is_item_list(data):
    """The count of items less one, and for each 4 zeros, a rectangle, a kind, and a length with so many bytes, made even."""
    if len(data) < 2 or number(data, 0) > 1000:
        return False
    place = 2
    for _ in range(number(data, 0) + 1):
        if place + 14 > len(data) or any(data[place:place + 4]):
            return False
        place += 14 + data[place + 13] + data[place + 13] % 2
    return place == len(data)


def is_window(data):
    """A rectangle, 10 bytes and a title; 7.0 may add a position."""
    return len(data) >= 19 and is_rectangle(data, 0) and after_strings(data, 18, 1) in (len(data), len(data) - 2, len(data) - 3)


def is_dialog(data):
    return len(data) >= 21 and is_rectangle(data, 0) and after_strings(data, 20, 1) in (len(data), len(data) - 2, len(data) - 3)


def is_alert(data):
    return len(data) in (12, 14) and is_rectangle(data, 0)


def is_picture(data):
    return len(data) > 12 and (data[10:12] == b"\x11\1" or data[10:14] == b"\0\x11\2\xFF")


def is_sound(data):
    """Format 1 with one to three synthesizers, or format 2, and then at least one command."""
    first = data[:2] == b"\0\1" and 1 <= number(data, 2) <= 3 and 0 < number(data, 4 + 6 * number(data, 2)) < 1000
    return len(data) >= 14 and (first or data[:2] == b"\0\2" and 0 < number(data, 4) < 1000 and number(data, 6) & 0x7FFF < 128)


def is_color_table(data):
    return len(data) >= 16 and number(data, 4) in (0, 0x8000) and number(data, 6) < 256 and len(data) == 8 + 8 * (number(data, 6) + 1)


def is_bundle(data):
    """A signature, an id, the number of lists less one, and lists of a type and pairs of ids."""
    if len(data) < 14 or number(data, 6) > 8:
        return False
    place = 8
    for _ in range(number(data, 6) + 1):
        place += 6 + 4 * (number(data, place + 4) + 1) if place + 6 <= len(data) else len(data) + 1
    return place == len(data)


FORMS = (
    ("vers", is_version), ("STR#", is_string_list), ("STR ", is_string), ("MENU", is_menu), ("DITL", is_item_list), ("DLOG", is_dialog),
    ("WIND", is_window), ("ALRT", is_alert), ("PICT", is_picture), ("snd ", is_sound), ("clut", is_color_table), ("BNDL", is_bundle),
    ("TEXT", is_text),
)


def kinds_of(data):
    """The types whose form the bytes have: the first that fits, or those of an icon of this length."""
    found = next((kind for kind, fits in FORMS if fits(data)), None)
    return (found,) if found else ICONS.get(len(data), ())
