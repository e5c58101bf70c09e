"""Resources of dialogs and menus as bytes, by the layouts of Inside Macintosh: Macintosh Toolbox Essentials; and forks of
such resources that are damaged by chance."""
import random
import struct

from model.fork import fork_of
from helpers import some_bytes


def rectangle(top, left, bottom, right):
    return struct.pack(">4h", top, left, bottom, right)


def text(letters):
    return bytes([len(letters)]) + letters


def item(kind, place, data=b"", disabled=False):
    """An item of a DITL, filled to an even length."""
    return bytes(4) + rectangle(*place) + bytes([kind | (0x80 if disabled else 0)]) + text(data) + bytes(len(data) % 2)


def ditl(*items, count=None):
    return struct.pack(">H", (len(items) if count is None else count) - 1 & 0xFFFF) + b"".join(items)


def dlog(place, proc, items, title=b"", visible=True, close_box=False):
    return rectangle(*place) + struct.pack(">hBBBBIh", proc, visible, 0, close_box, 0, 0, items) + text(title)


def alrt(place, items, stages):
    return rectangle(*place) + struct.pack(">hH", items, stages)


def cntl(proc, title=b"", value=0, minimum=0, maximum=1, visible=True, place=(0, 0, 0, 0)):
    return rectangle(*place) + struct.pack(">hBBhhhI", value, visible, 0, maximum, minimum, proc, 0) + text(title)


def menu(ident, title, *items, flags=0xFFFFFFFF, definition=0):
    """A MENU; an item is its letters, or these with icon, key, mark and style."""
    rows = [(each,) + (0, 0, 0, 0) if isinstance(each, bytes) else each for each in items]
    return (struct.pack(">hhhhhI", ident, 0, 0, definition, 0, flags) + text(title)
            + b"".join(text(letters) + bytes(rest) for letters, *rest in rows) + b"\0")


def mbar(*idents, count=None):
    return struct.pack(">H", len(idents) if count is None else count) + struct.pack(">%dh" % len(idents), *idents)


ODD = (b"\0\0", b"\0\1", b"\x7F\xFF", b"\x80\0", b"\xFF\xFF")
ITEMS = ditl(*(item(kind, (10 * kind, 10, 10 * kind + 20, 90), data) for kind, data in (
    (4, b"OK"), (5, b"Check"), (6, b"Radio"), (7, b"\0\x80"), (8, b"Some text that is wrapped"), (16, b"name"), (32, b"\0\x80"), (64, b"\0\x80"), (0, b""),
    (1, b"\0\1\0\x80"))))
WHOLE = [(b"DLOG", 128, dlog((40, 40, 240, 340), 0, 128, b"Title", close_box=True)), (b"DLOG", 129, dlog((40, 40, 140, 340), 5, 128, b"Title")),
         (b"ALRT", 128, alrt((40, 40, 140, 340), 128, 0x5555)), (b"DITL", 128, ITEMS), (b"DITL", 129, ITEMS),
         (b"CNTL", 128, cntl(1008, b"Size:", 0, 128, 40)), (b"MBAR", 128, mbar(128, 129)),
         (b"MENU", 128, menu(128, b"\x14", b"About", b"-")), (b"MENU", 129, menu(129, b"Edit", (b"Undo", 1, 90, 0x12, 3), (b"Font", 0, 0x1B, 5, 0))),
         (b"MENU", 5, menu(5, b"Font", *[b"Geneva"] * 40)), (b"ICON", 128, bytes(range(128))), (b"ICON", 257, bytes(128)),
         (b"PICT", 128, bytes(2) + b"\0\0\0\0\0\x20\0\x20" + b"\x11\x01\xFF"),
         (b"cicn", 128, bytes(4) + b"\x80\4" + b"\0\0\0\0\0\x10\0\x10" + bytes(100))]


def mutated(chance, data):
    """A resource with some odd words, or cut, or longer."""
    out = bytearray(data)
    for _ in range(chance.choice((0, 1, 1, 2, 4))):
        if len(out) > 1:
            place = chance.randrange(len(out) - 1)
            out[place:place + 2] = chance.choice(ODD)
    if chance.random() < 0.2:
        out = out[:chance.randrange(len(out) + 1)]
    return bytes(out) + (some_bytes(chance, 300) if chance.random() < 0.1 else b"")


def forks(seed, count):
    """Whole forks of mutated resources."""
    chance = random.Random(seed)
    for _ in range(count):
        yield fork_of([(kind, ident, b"", 0, mutated(chance, data)) for kind, ident, data in WHOLE])
