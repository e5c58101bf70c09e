"""Menus and menu bars: the resources MENU and MBAR, as they are read.

Source: Inside Macintosh: Macintosh Toolbox Essentials, chapter 3, 'Menu Manager': the menu and menu bar resources.
"""
from typing import NamedTuple

from .errors import Damaged
from .reading import Reader

APPLE = b"\x14"  # the title of the Apple menu
SUBMENU, SCRIPT, REDUCED, SMALL = 0x1B, 0x1C, 0x1D, 0x1E  # what the byte of the key can mean
FIRST_ICON = 256  # is added to the number of an icon
FLAGGED = 31  # items that have a bit of the flags
BOLD, ITALIC, UNDERLINE, OUTLINE, SHADOW, CONDENSE, EXTEND = 1, 2, 4, 8, 16, 32, 64
STYLES = ((BOLD, "bold"), (ITALIC, "italic"), (UNDERLINE, "underlined"), (OUTLINE, "outlined"), (SHADOW, "with a shadow"),
          (CONDENSE, "condensed"), (EXTEND, "extended"))


class MenuItem(NamedTuple):
    """An item of a menu, numbered from 1."""

    number: int
    text: bytes
    icon: int
    key: int
    mark: int
    style: int
    is_enabled: bool

    def is_separator(self):
        return self.text[:1] == b"-"

    def submenu(self):
        """The id of the menu that hangs here, or None."""
        return self.mark if self.key == SUBMENU else None

    def icon_id(self):
        """The id of the item's ICON, cicn or SICN, or None. With a script's number the byte is no icon."""
        return self.icon + FIRST_ICON if self.icon and self.key != SCRIPT else None

    def key_letter(self):
        """The letter that chooses the item, or None."""
        return bytes([self.key]) if self.key > 0x20 else None

    def mark_letter(self):
        return bytes([self.mark]) if self.mark and self.key != SUBMENU else None

    def styles(self):
        """The words of the item's style."""
        return [word for bit, word in STYLES if self.style & bit]


class Menu(NamedTuple):
    """A menu: its id, whether it can be chosen, its title, its items, and why the rest isn't read, or None."""

    ident: int
    definition: int
    is_enabled: bool
    title: bytes
    items: list
    rest: str


def read_menu(data, most):
    """A menu with at most so many items."""
    reader = Reader(data)
    ident = reader.integer()
    reader.take(4)
    definition = reader.integer()
    reader.take(2)
    flags, title = reader.long(), bytes(reader.take(reader.byte()))
    items, rest = read_items(reader, flags, most)
    return Menu(ident, definition, bool(flags & 1), title, items, rest)


def read_items(reader, flags, most):
    """The items up to the byte 0 that ends them, and why the rest isn't read, or None."""
    items = []
    try:
        length = reader.byte()
        while length:
            if len(items) == most:
                return items, "more than %d items" % most
            letters, number = bytes(reader.take(length)), len(items) + 1
            is_enabled = bool(number > FLAGGED or flags >> number & 1)
            items.append(MenuItem(number, letters, *reader.take(4), is_enabled))
            length = reader.byte()
    except Damaged as fault:
        return items, str(fault)
    return items, None


def read_bar(data, most):
    """The ids of at most so many menus of a menu bar, and why the rest isn't read, or None."""
    reader, idents = Reader(data), []
    try:
        count = reader.word()
        while len(idents) < min(count, most):
            idents.append(reader.integer())
    except Damaged as fault:
        return idents, str(fault)
    return idents, "more than %d menus" % most if count > most else None


class Placed(NamedTuple):
    """A menu in the order of a page: the resource's number in the list, and the place of its parent in that list, or None."""

    index: int
    parent: int


def ordered(menus, first):
    """The order of menus on a page: those that `first` numbers, then the others; a submenu comes after its parent.

    `menus` are the pairs of a resource's id and its menu. A submenu is found by the id in the menu, else by the resource's.
    """
    by_ident = {}
    for index, (ident, menu) in enumerate(menus):
        by_ident.setdefault(ident, index)
    for index, (_, menu) in reversed(list(enumerate(menus))):
        by_ident[menu.ident] = index
    submenus = {item.submenu() for _, menu in menus for item in menu.items}
    hanging = {by_ident[ident] for ident in submenus if ident in by_ident}
    order, done = [], set()
    for root in [*first, *(index for index in range(len(menus)) if index not in hanging), *range(len(menus))]:
        waiting = [Placed(root, None)]
        while waiting:
            placed = waiting.pop()
            if placed.index in done:
                continue
            done.add(placed.index)
            order.append(placed)
            below = [item.submenu() for item in menus[placed.index][1].items]
            waiting += [Placed(by_ident[ident], placed.index) for ident in reversed(below) if ident in by_ident]
    return order
