"""Dialogs and alerts as SVG, and which of their texts may not fit.

Places are those of the window: its contents begin at 0, 0. Texts are measured as `chicago` says; a static or editable text
is wrapped at words, and a title of a button or a control stands on one line for each return in it.
"""
from . import dialogs, frames, menus, svg
from .chicago import ASCENT, LEADING, LINE, height_of, width_of, wrapped
from .dialogs import Rectangle
from .errors import Damaged
from .letters import escaped, lines_of

MOST_SIDE = 4096  # pixels of a drawing's width and height
MOST_LINES = 20000  # lines of text in a drawing
MOST_IN_MENU = 64  # items of a pop-up menu that are looked at
BUTTON_EDGE, BOX, BOX_TEXT = 2, 12, 18  # pixels at the sides of a button; a check box, and where its text begins
POP_UP_EDGE = 15
MOST_TOLD = 60  # letters of a text that are told above the drawing
AROUND = 6
UNSEEN = (dialogs.USER, dialogs.HELP)


class DialogDrawing:
    """A drawing of a window with items: the SVG, the texts that may not fit, and sentences about what isn't seen.

    `window` is None for items without a window, which get a plain box as large as they are. `find` gives the bytes of a
    resource by its type and id. `default` is the number of the item that is drawn as the default button. `lines` counts the
    lines of text that are drawn.
    """

    def __init__(self, window, items, label, find, embedded, default=1):
        self.window, self.items, self.find, self.embedded, self.default = window, items, find, embedded, default
        self.over, self.notes, self.menus, self.lines, self.lines_too_many = [], [], {}, 0, 0
        self.contents = self.bounds_of_contents()
        self.svg = self.drawn(label)

    def bounds_of_contents(self):
        """The rectangle that is seen, cut to the largest side."""
        if self.window is None:
            shown = [item.rectangle for item in self.items if not item.rectangle.is_empty()] or [Rectangle(0, 0, 20, 20)]
            found = Rectangle(min(each.top for each in shown) - AROUND, min(each.left for each in shown) - AROUND,
                              max(each.bottom for each in shown) + AROUND, max(each.right for each in shown) + AROUND)
        else:
            found = Rectangle(0, 0, self.window.rectangle.height, self.window.rectangle.width)
            if found.is_empty():
                self.notes.append("The rectangle of the window is empty.")
        cut = Rectangle(found.top, found.left, max(found.top, min(found.bottom, found.top + MOST_SIDE)),
                        max(found.left, min(found.right, found.left + MOST_SIDE)))
        if cut.height < found.height or cut.width < found.width:
            self.notes.append("It has %d by %d pixels; %d by %d of them are drawn." % (found.width, found.height, cut.width, cut.height))
        return cut

    def drawn(self, label):
        """The whole drawing."""
        inside = self.contents
        look, title = frames.PLAIN, ""
        if self.window is not None:
            look, title = frames.window_kind(self.window.proc)[1], lines_of(self.window.title).replace("\n", " ")
        has_close_box = self.window is not None and self.window.has_close_box
        if frames.has_title(look) and title and width_of(title) > frames.title_room(inside.width, has_close_box):
            self.over.append("The title %s: about %d pixels, with room for %d." % (
                begin_of(title), width_of(title), max(0, frames.title_room(inside.width, has_close_box))))
        border = svg.tag("g", frames.frame(look, inside.width, inside.height, title, has_close_box),
                         transform="translate(%d %d)" % (inside.left, inside.top))
        items = svg.clipped(inside.left, inside.top, inside.width, inside.height, "".join(self.seen_items()))
        left, top, width, height = frames.bounds(look, inside.width, inside.height)
        return svg.drawing(left + inside.left - AROUND, top + inside.top - AROUND, width + 2 * AROUND, height + 2 * AROUND, label,
                           border + items)

    def seen_items(self):
        """The drawings of the items that are seen; the others are told."""
        outside, reaching, parts = [], [], []
        for item in self.items:
            if item.kind == dialogs.HELP:
                continue
            if item.rectangle.is_empty() or not item.rectangle.meets(self.contents):
                outside.append(item.number)
                continue
            if item.kind not in UNSEEN and not self.contents.holds(item.rectangle):
                reaching.append(item.number)
            parts.append(self.item_drawing(item))
        if outside:
            self.notes.append("Items that aren't seen, because they are outside the window or have no area: %s." % numbers(outside))
        if reaching:
            self.notes.append("Items that reach out of the window: %s." % numbers(reaching))
        if self.lines_too_many:
            self.notes.append("Lines of text that aren't drawn, because there are more than %d: %d." % (MOST_LINES, self.lines_too_many))
        return parts

    def item_drawing(self, item):
        """An item with the text that a pointer over it shows."""
        place, letters = item.rectangle, lines_of(item.data)
        if item.kind == dialogs.BUTTON:
            content = self.button(place, letters, item, item.number == self.default)
        elif item.kind in (dialogs.CHECK_BOX, dialogs.RADIO_BUTTON):
            content = self.box_with_text(place, letters, item, item.kind == dialogs.RADIO_BUTTON, False)
        elif item.kind in (dialogs.STATIC, dialogs.EDITABLE):
            content = self.paragraph(place, letters, item)
        elif item.kind == dialogs.CONTROL:
            content = self.control(item)
        elif item.kind == dialogs.ICON:
            content = self.picture(item, (b"cicn", b"ICON"))
        elif item.kind == dialogs.PICTURE:
            content = self.picture(item, (b"PICT",))
        else:
            content = dashed(place)
        return svg.group(self.told(item), content)

    def told(self, item):
        """What is said of an item: number, kind, text or id."""
        return "%d: %s" % (item.number, ", ".join(part for part in (item.told(), words_of(item), state_of(item)) if part))

    def mark(self, place, item, letters, said):
        """The mark of a text that may not fit, which is also told above the drawing."""
        self.over.append("Item %d, %s %s: %s." % (item.number, item.told(), begin_of(letters), said))
        return svg.box(place.left, place.top, place.width, place.height, "over")

    # The kinds of items.

    def fits(self, place, lines, room, item):
        """Nothing, or the mark where lines may be too wide or too many."""
        widest, height = max(map(width_of, lines)), height_of(len(lines))
        if not any(lines):
            return ""
        if widest > room:
            return self.mark(place, item, "\n".join(lines), "about %d pixels, with room for %d" % (widest, max(0, room)))
        if height > place.height:
            return self.mark(place, item, "\n".join(lines), "%d pixels high, with room for %d" % (height, place.height))
        return ""

    def button(self, place, letters, item, is_default):
        """A push button; a thick line around the default one."""
        lines = letters.split("\n")
        parts = [svg.box(place.left, place.top, place.width, place.height, "box", rx=min(8, place.height / 2))]
        if is_default:
            parts.append(svg.tag("rect", x=place.left - 2.5, y=place.top - 2.5, width=place.width + 5, height=place.height + 5,
                                 rx=10, class_="line", stroke_width=3))
        parts.append(self.fits(place, lines, place.width - 2 * BUTTON_EDGE, item))
        top = place.top + (place.height - LINE * len(lines)) // 2
        for line_top, each in self.seen_lines(top, lines):
            parts.append(svg.text(place.left + (place.width - width_of(each)) // 2, line_top + ASCENT, each))
        return "".join(parts)

    def box_with_text(self, place, letters, item, is_round, is_on):
        """A check box or a radio button."""
        lines = letters.split("\n")
        top = place.top + (place.height - BOX) // 2
        parts = [self.fits(place, lines, place.width - BOX_TEXT, item),
                 svg.box(place.left + 2, top, BOX, BOX, "box", rx=BOX / 2 if is_round else None)]
        if is_on and is_round:
            parts.append(svg.tag("circle", cx=place.left + 2 + BOX / 2, cy=top + BOX / 2, r=3, class_="black"))
        elif is_on:
            parts.append(svg.line(place.left + 3, top + 1, place.left + BOX, top + BOX - 2))
            parts.append(svg.line(place.left + BOX, top + 1, place.left + 3, top + BOX - 2))
        top = place.top + (place.height - LINE * len(lines)) // 2
        return "".join(parts) + self.lines_drawing(place.left + BOX_TEXT, top, lines)

    def paragraph(self, place, letters, item):
        """A static or an editable text; a frame three pixels around an editable one."""
        lines = wrapped(letters, place.width)
        widest = max([0] + [width_of(word) for word in letters.split()])
        frame = svg.box(place.left - 3, place.top - 3, place.width + 6, place.height + 6, "box") if item.kind == dialogs.EDITABLE else ""
        mark = ""
        if widest > place.width:
            mark = self.mark(place, item, letters, "a word of about %d pixels, with room for %d" % (widest, place.width))
        elif letters.strip() and height_of(len(lines)) > place.height:
            mark = self.mark(place, item, letters, "%d lines, with room for %d" % (len(lines), (place.height + LEADING) // LINE))
        return frame + mark + self.lines_drawing(place.left, place.top, lines)

    def lines_drawing(self, left, top, lines):
        """Lines one below the other."""
        return "".join([svg.text(left, line_top + ASCENT, each) for line_top, each in self.seen_lines(top, lines)])

    def seen_lines(self, top, lines):
        """The top and the text of each line that is seen, as long as there aren't too many."""
        for number, each in enumerate(lines):
            line_top = top + LINE * number
            if not each or not self.contents.top - LINE < line_top < self.contents.bottom:
                continue
            if self.lines == MOST_LINES:
                self.lines_too_many += 1
                continue
            self.lines += 1
            yield line_top, each

    def picture(self, item, kinds):
        """The picture that the item names, scaled into its rectangle, or a box with the id."""
        place, ident = item.rectangle, item.ident()
        if ident is None:
            return dashed(place)
        address, reason = self.embedded.picture(kinds, ident)
        if address:
            return svg.image(place.left, place.top, place.width, place.height, address)
        self.notes.append("Item %d: the %s %d %s." % (item.number, item.told(), ident, reason))
        return dashed(place, str(ident))

    # Controls.

    def control(self, item):
        """What the CNTL of an item says, in the item's rectangle."""
        place, ident = item.rectangle, item.ident()
        data = None if ident is None else self.find(b"CNTL", ident)
        if data is None:
            self.notes.append("Item %d: %s." % (item.number, "it names no CNTL" if ident is None else "CNTL %d isn't in the file" % ident))
            return dashed(place, "" if ident is None else "CNTL %d" % ident)
        try:
            control = dialogs.read_control(data)
        except Damaged as fault:
            self.notes.append("Item %d: CNTL %d is damaged: %s." % (item.number, ident, fault))
            return dashed(place, "CNTL %d" % ident)
        if not control.is_visible:
            self.notes.append("Item %d: CNTL %d is hidden until the program shows it." % (item.number, ident))
        return svg.group("%s, procID %d" % (lines_of(control.title) or "no title", control.proc), self.control_drawing(item, control, ident))

    def control_drawing(self, item, control, ident):
        """A control by its look."""
        place, look, letters = item.rectangle, control.look(), lines_of(control.title)
        if look == dialogs.PUSH:
            return self.button(place, letters, item, item.number == self.default)
        if look in (dialogs.CHECK, dialogs.RADIO):
            return self.box_with_text(place, letters, item, look == dialogs.RADIO, control.value > 0)
        if look == dialogs.SCROLL_BAR:
            return scroll_bar(place)
        if look == dialogs.POP_UP:
            return self.pop_up(item, control)
        lines = letters.split("\n") if letters.strip() else ["CNTL %d" % ident]
        mark = self.fits(place, lines, place.width, item) if letters.strip() else ""
        if look == dialogs.GROUP_BOX:
            return mark + svg.box(place.left, place.top + LINE // 2, place.width, place.height - LINE // 2, "line") + svg.area(
                place.left + 8, place.top, width_of(lines[0]) + 4, LINE, "paper") + svg.text(place.left + 10, place.top + ASCENT, lines[0])
        return mark + dashed(place) + self.lines_drawing(place.left, place.top, lines)

    def pop_up(self, item, control):
        """A pop-up menu: its title, and a box with the first item of its menu. The widest item should fit into the box."""
        place, title = item.rectangle, lines_of(control.title)
        title_width = min(max(0, control.maximum), place.width) if title.strip() else 0
        left, width = place.left + title_width, place.width - title_width
        room = max(0, width - 2 * POP_UP_EDGE)
        first, widest = self.menu_items(control.minimum)
        parts = []
        if title.strip() and width_of(title) > title_width:
            parts.append(self.mark(Rectangle(place.top, place.left, place.bottom, left), item, title,
                                   "about %d pixels, with room for %d" % (width_of(title), title_width)))
        base = place.top + (place.height - LINE) // 2 + ASCENT
        parts += [svg.text(place.left, base, title), svg.box(left, place.top, width, place.height, "box")]
        if width_of(widest) > room:
            parts.append(self.mark(Rectangle(place.top, left, place.bottom, place.right), item, widest,
                                   "about %d pixels in MENU %d, with room for %d" % (width_of(widest), control.minimum, room)))
        parts += [svg.clipped(left, place.top, max(0, width - POP_UP_EDGE), place.height, svg.text(left + POP_UP_EDGE, base, first)),
                  svg.tag("path", d="M%d %dh8l-4 5z" % (left + width - POP_UP_EDGE, place.top + place.height // 2 - 2), class_="black")]
        return "".join(parts)

    def menu_items(self, ident):
        """The text of the first item of a MENU, or its id where it can't be read, and the text of its widest item."""
        if ident not in self.menus:
            texts = menu_texts(self.find(b"MENU", ident))
            self.menus[ident] = texts[0] if texts else "MENU %d" % ident, max(texts, key=width_of, default="")
        return self.menus[ident]


def menu_texts(data):
    """The texts of the items of a MENU, none where it can't be read."""
    try:
        return [] if data is None else [lines_of(item.text) for item in menus.read_menu(data, MOST_IN_MENU).items]
    except Damaged:
        return []


def begin_of(letters):
    """A text between its marks, on one line; of a long one the beginning."""
    line = letters.replace("\n", " ")
    return "\u201c%s\u201d" % (line if len(line) <= MOST_TOLD else line[:MOST_TOLD] + "\u2026")


def dashed(place, letters=""):
    """A box for what is drawn by the program, or isn't here."""
    label = svg.text(place.left + 3, place.top + ASCENT + 1, letters) if place.height >= LINE else ""
    return svg.box(place.left, place.top, place.width, place.height, "dashed") + label


def scroll_bar(place):
    """A scroll bar with its two arrows, upright or lying."""
    parts = [svg.box(place.left, place.top, place.width, place.height, "box")]
    if place.height >= place.width:
        ends = [(place.left, place.top), (place.left, place.bottom - place.width)]
    else:
        ends = [(place.left, place.top), (place.right - place.height, place.top)]
    side = min(place.width, place.height)
    return "".join(parts + [svg.box(left, top, side, side, "box") for left, top in ends])


def words_of(item):
    """The text of an item, or the resource that it names."""
    if item.kind in dialogs.WITH_TEXT:
        return lines_of(item.data)
    if item.kind == dialogs.HELP:
        return help_words(item)
    if item.kind in dialogs.WITH_ID and item.ident() is not None:
        return "%s %d" % ({dialogs.CONTROL: "CNTL", dialogs.ICON: "ICON or cicn", dialogs.PICTURE: "PICT"}[item.kind], item.ident())
    return ""


def help_words(item):
    """The resource that a help item names."""
    kind, ident = item.data[:2], item.data[2:4]
    if len(ident) < 2:
        return ""
    return "%s %d" % (dialogs.HELP_KINDS.get(int.from_bytes(kind, "big"), "resource"), int.from_bytes(ident, "big", signed=True))


def state_of(item):
    """Whether clicks in an item aren't reported, which doesn't change how it looks."""
    return "" if item.is_enabled else "disabled"


def numbers(found):
    """Numbers of items as a sentence has them; runs as from .. to."""
    runs = []
    for number in found:
        if runs and runs[-1][1] == number - 1:
            runs[-1][1] = number
        else:
            runs.append([number, number])
    return ", ".join(str(first) if first == last else "%d to %d" % (first, last) for first, last in runs)


def item_cells(item):
    """An item as the cells of a table: number, kind, text or resource, rectangle, and whether it is disabled."""
    return [escaped(each) for each in (str(item.number), item.told(), words_of(item), "%d, %d, %d, %d" % item.rectangle, state_of(item))]
