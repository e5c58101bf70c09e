"""Menus and menu bars as SVG."""
from . import menus, svg
from .chicago import ASCENT, LINE, width_of
from .letters import escaped, lines_of

BAR, EDGE, MARK, GAP, KEY = 20, 12, 14, 24, 22  # pixels: the bar's height, around, for the mark, before the key, for the key
ICON, SMALL_ICON = 32, 16
LEAST = 60
APPLE = ("M8.6 3.4C9.9 2.7 10.3 1.6 10.2.5 9 .7 8 1.9 8.1 3.4ZM8 4.6C7 4.6 6.4 4 5.2 4 3.2 4 1.6 5.6 1.6 8.2c0 3 2 5.8 3.6 5.8 "
         "1 0 1.5-.6 2.8-.6s1.7.6 2.8.6c1.3 0 2.6-1.8 3.2-3.4-1.7-.7-2.2-3.6-.2-4.9C12.9 4.5 11.8 4 10.8 4 9.6 4 9 4.6 8 4.6Z")
APPLE_WIDTH = 15


class Row:
    """An item of a menu with what is drawn of it: its text, its icon's address, and how large it is."""

    def __init__(self, item, embedded):
        self.item, self.text, self.icon, self.icon_size = item, lines_of(item.text).replace("\n", " "), None, 0
        if item.icon_id() is not None and not item.is_separator():
            small = item.key in (menus.REDUCED, menus.SMALL)
            kinds = (b"SICN",) if item.key == menus.SMALL else (b"cicn", b"ICON")
            self.icon, _ = embedded.picture(kinds, item.icon_id())
            self.icon_size = SMALL_ICON if small else ICON
        self.height = max(LINE, self.icon_size)
        self.text_width = styled_width(self.text, item.style)

    def width(self):
        """The pixels of icon and text."""
        return self.text_width + (self.icon_size + 4 if self.icon_size else 0)


def styled_width(text, style):
    """The width of a text in a style: a letter that is bold, outlined or extended is a pixel wider, with a shadow two."""
    more = sum(pixels for bit, pixels in ((menus.BOLD, 1), (menus.OUTLINE, 1), (menus.SHADOW, 2), (menus.CONDENSE, -1), (menus.EXTEND, 1))
               if style & bit)
    return max(len(text), width_of(text) + more * len(text))


def menu_drawing(menu, label, embedded):
    """A menu that hangs from its title."""
    rows = [Row(item, embedded) for item in menu.items]
    has_keys = any(row.item.key_letter() or row.item.submenu() is not None for row in rows)
    width = MARK + max([LEAST] + [row.width() for row in rows]) + (GAP + KEY if has_keys else GAP)
    height = sum(row.height for row in rows)
    parts = [svg.box(0, BAR - 1, width, height + 2, "box")] if rows else []
    top = BAR
    for row in rows:
        parts.append(row_drawing(row, top, width, menu.is_enabled))
        top += row.height
    title, title_width = title_drawing(menu, EDGE)
    width = max(width, title_width + 2 * EDGE)
    bar = svg.area(0, 0, title_width + 2 * EDGE, BAR, "bar") + svg.group(title_told(menu), title)
    return svg.drawing(-4, -4, width + 8, BAR + height + 9, label, bar + "".join(parts))


def title_told(menu):
    """What is said of a menu's title."""
    name = "the Apple menu" if menu.title == menus.APPLE else "title %s" % lines_of(menu.title)
    return name + ("" if menu.is_enabled else ", the menu is disabled")


def title_drawing(menu, left):
    """The title of a menu, and its width."""
    look = None if menu.is_enabled else "dim"
    if menu.title == menus.APPLE:
        return svg.tag("path", d=APPLE, transform="translate(%d 2)" % left, class_=look or "black"), APPLE_WIDTH
    letters = lines_of(menu.title).replace("\n", " ")
    return svg.text(left, ASCENT + 2, letters, class_=look), width_of(letters)


def row_drawing(row, top, width, menu_is_enabled):
    """An item: a line, or its mark, icon, text, and key or submenu."""
    item = row.item
    look = None if item.is_enabled and menu_is_enabled and not item.is_separator() else "dim"
    if item.is_separator():
        return svg.group(told(item), svg.line(1, top + LINE // 2, width - 2, top + LINE // 2, "separator"))
    base = top + (row.height - LINE) // 2 + ASCENT
    left = MARK + (row.icon_size + 4 if row.icon_size else 0)
    parts = svg.text(2, base, lines_of(item.mark_letter()), class_=look) if item.mark_letter() else ""
    parts += icon_drawing(row, top) + styled_text(left, base, row, look)
    if item.key_letter():
        parts += svg.text(width - KEY - 4, base, "\u2318" + lines_of(item.key_letter()).upper(), class_=look, font_size=12)
    elif item.submenu() is not None:
        parts += svg.tag("path", d="M%d %dl6 5l-6 5z" % (width - 14, base - 9), class_=look or "black")
    return svg.group(told(item), parts)


def icon_drawing(row, top):
    """The icon of an item, or a box in its place."""
    if not row.icon_size:
        return ""
    top += (row.height - row.icon_size) // 2
    if row.icon:
        return svg.image(MARK, top, row.icon_size, row.icon_size, row.icon)
    return svg.box(MARK, top, row.icon_size, row.icon_size, "dashed")


def styled_text(left, base, row, look):
    """The text of an item in its style."""
    style = row.item.style
    words = {"font_weight": "bold" if style & menus.BOLD else None, "font_style": "italic" if style & menus.ITALIC else None,
             "text_decoration": "underline" if style & menus.UNDERLINE else None}
    looks = [each for each in (look, "hollow" if style & (menus.OUTLINE | menus.SHADOW) else None) if each]
    shadow = svg.text(left + 1, base + 1, row.text, row.text_width, class_="dim", **words) if style & menus.SHADOW else ""
    return shadow + svg.text(left, base, row.text, row.text_width, class_=" ".join(looks) or None, **words)


def told(item):
    """What is said of an item: its number, and what the drawing shows of it in few pixels."""
    parts = ["%d: %s" % (item.number, "separator" if item.is_separator() else lines_of(item.text).replace("\n", " "))]
    if item.submenu() is not None:
        parts.append("submenu MENU %d" % item.submenu())
    if item.icon_id() is not None:
        parts.append("icon %d" % item.icon_id())
    parts += item.styles()
    return ", ".join(parts + ([] if item.is_enabled else ["disabled"]))


def bar_drawing(bar, label):
    """A menu bar with the titles of its menus."""
    left, parts = EDGE, []
    for menu in bar:
        title, width = title_drawing(menu, left)
        parts.append(svg.group(title_told(menu), title))
        left += width + EDGE
    return svg.drawing(0, 0, left + EDGE, BAR, label, "".join(parts) + svg.line(0, BAR - 1, left + EDGE, BAR - 1))


def row_cells(item):
    """An item as the cells of a table: number, text, mark or submenu, key, and what else is said of it."""
    text = "(separator)" if item.is_separator() else lines_of(item.text)
    mark = "submenu %d" % item.submenu() if item.submenu() is not None else lines_of(item.mark_letter() or b"")
    key = "\u2318" + lines_of(item.key_letter()) if item.key_letter() else ""
    more = ["icon %d" % item.icon_id()] if item.icon_id() is not None else []
    more += item.styles() + ([] if item.is_enabled else ["disabled"])
    return [escaped(each) for each in (str(item.number), text, mark, key, ", ".join(more))]
