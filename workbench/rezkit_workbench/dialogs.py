"""Dialogs, alerts and their items: the resources DLOG, ALRT, DITL and CNTL, as they are read.

Source: Inside Macintosh: Macintosh Toolbox Essentials, chapter 6, 'Dialog Manager' (DLOG, ALRT, DITL), chapter 5, 'Control
Manager' (CNTL), chapter 4, 'Window Manager' (kinds of windows); of help items More Macintosh Toolbox, 'Help Manager'.
"""
from typing import NamedTuple

from .errors import Damaged
from .reading import Reader

USER, HELP, BUTTON, CHECK_BOX, RADIO_BUTTON, CONTROL, STATIC, EDITABLE, ICON, PICTURE = 0, 1, 4, 5, 6, 7, 8, 16, 32, 64
KINDS_OF_ITEMS = {USER: "user item", HELP: "help item", BUTTON: "button", CHECK_BOX: "check box", RADIO_BUTTON: "radio button",
                  CONTROL: "control", STATIC: "static text", EDITABLE: "editable text", ICON: "icon", PICTURE: "picture"}
WITH_TEXT = (BUTTON, CHECK_BOX, RADIO_BUTTON, STATIC, EDITABLE)
WITH_ID = (CONTROL, ICON, PICTURE)
HELP_KINDS = {1: "hdlg", 2: "hrct", 8: "hdlg"}
PUSH, CHECK, RADIO, SCROLL_BAR, POP_UP, GROUP_BOX, OTHER_CONTROL = range(7)


class Rectangle(NamedTuple):
    """Pixels from a top and left edge up to a bottom and right one."""

    top: int
    left: int
    bottom: int
    right: int

    @property
    def width(self):
        return self.right - self.left

    @property
    def height(self):
        return self.bottom - self.top

    def is_empty(self):
        return self.width <= 0 or self.height <= 0

    def meets(self, other):
        """Whether two rectangles have a pixel in common."""
        return (max(self.top, other.top) < min(self.bottom, other.bottom)
                and max(self.left, other.left) < min(self.right, other.right))

    def holds(self, other):
        return self.top <= other.top and self.left <= other.left and self.bottom >= other.bottom and self.right >= other.right


class Stage(NamedTuple):
    """What an alert does when it comes for the first, second, third or fourth time."""

    default: int  # the item that the return key chooses
    is_shown: bool
    beeps: int


class Window(NamedTuple):
    """A DLOG or an ALRT. An ALRT has no procID (that of a modal dialog box holds), no title and four stages, the first first."""

    rectangle: Rectangle
    proc: int
    is_visible: bool
    has_close_box: bool
    items: int
    title: bytes
    stages: tuple


class Item(NamedTuple):
    """An item of a DITL, numbered from 1."""

    number: int
    rectangle: Rectangle
    kind: int
    is_enabled: bool
    data: bytes

    def ident(self):
        """The id of the resource that an item names, or None where its bytes don't."""
        return Reader(self.data).integer() if len(self.data) >= 2 else None

    def told(self):
        """What kind of item it is."""
        return KINDS_OF_ITEMS.get(self.kind, "item of the unknown kind %d" % self.kind)


class Control(NamedTuple):
    """A CNTL. Of a pop-up menu the minimum is the id of the MENU, and the maximum the width of the title in pixels."""

    rectangle: Rectangle
    value: int
    is_visible: bool
    maximum: int
    minimum: int
    proc: int
    title: bytes

    def look(self):
        """How a control is drawn: its definition is a sixteenth of its procID, and its variation is the rest."""
        definition, variation = self.proc >> 4, self.proc & 7
        if definition in (0, 23):
            return {0: PUSH, 1: CHECK, 2: RADIO}.get(variation, OTHER_CONTROL)
        return {1: SCROLL_BAR, 24: SCROLL_BAR, 25: POP_UP, 63: POP_UP, 10: GROUP_BOX}.get(definition, OTHER_CONTROL)


def read_rectangle(reader):
    return Rectangle(reader.integer(), reader.integer(), reader.integer(), reader.integer())


def read_string(reader):
    """A text after the byte that has its length."""
    return bytes(reader.take(reader.byte()))


def read_dialog(data):
    """A DLOG. Where it is centered isn't read."""
    reader = Reader(data)
    rectangle, proc = read_rectangle(reader), reader.integer()
    is_visible, has_close_box = bool(reader.word() >> 8), bool(reader.word() >> 8)
    reader.take(4)
    return Window(rectangle, proc, is_visible, has_close_box, reader.integer(), read_string(reader), ())


def read_alert(data):
    """An ALRT. Its stages have four bits each, the fourth stage first: the default button, whether it is shown, the beeps."""
    reader = Reader(data)
    rectangle, items, stages = read_rectangle(reader), reader.integer(), reader.word()
    parts = [stages >> shift & 15 for shift in (0, 4, 8, 12)]
    return Window(rectangle, 1, True, False, items, b"",
                  tuple(Stage(2 if part & 8 else 1, bool(part & 4), part & 3) for part in parts))


def read_items(data, most):
    """At most so many items of a DITL, how many it states, and what is wrong with the next one, or None."""
    reader, found = Reader(data), []
    try:
        count = (reader.word() + 1) & 0xFFFF
        while len(found) < min(count, most):
            found.append(read_item(reader, len(found) + 1))
    except Damaged as fault:
        return found, len(found), str(fault)
    return found, count, None


def read_item(reader, number):
    """An item. Its bytes are filled to an even length; the filling of the last one may be missing."""
    reader.take(4)
    rectangle, kind = read_rectangle(reader), reader.byte()
    data = read_string(reader)
    reader.take(min(len(data) % 2, reader.left()))
    return Item(number, rectangle, kind & 0x7F, not kind & 0x80, data)


def read_control(data):
    """A CNTL."""
    reader = Reader(data)
    rectangle, value, is_visible = read_rectangle(reader), reader.integer(), bool(reader.word() >> 8)
    maximum, minimum, proc = reader.integer(), reader.integer(), reader.integer()
    reader.take(4)
    return Control(rectangle, value, is_visible, maximum, minimum, proc, read_string(reader))
