"""Dialogs, alerts and menus as they will look: drawings on one page, with the texts marked that may not fit.

    rezkit-draw FILE.. -o PAGE.html [-f]

The page has no script and no address of another page. A file that isn't read, or whose fork breaks a rule, is told and is
named on the page; a resource that is damaged is drawn as far as it goes. Of a file 10,000 items are drawn at
most. A drawing counts as two items, and so do eight lines of text beyond one for each item. What isn't drawn is told.
"""
import os

from . import command, dialogs, drawn_page, facts, frames, menu_drawing, menus
from .dialog_drawing import DialogDrawing, item_cells
from .embed import Embedded
from .errors import Damaged, Refused
from .roman import printable, shown
from .writing import check_free, is_stream, write_file

NAME = "rezkit-draw"
ABOUT = "Draws dialogs, alerts and menus of files as they will look, as SVG on one page, and marks texts that may not fit."
MORE = """Texts are measured by a table of the widths of Chicago, 12 points: what may not fit is an estimate.

exit status: 0 done, 1 a file was refused or not read, 2 wrong arguments"""
MOST_DRAWN, MOST_OF_ONE, MOST_IN_BAR = 10000, 4096, 1000  # items of a file and of a list, and menus of a bar
COST = 2  # what a drawing counts without its items
ITEM_HEAD = ("Item", "Kind", "Text or resource", "Top, left, bottom, right", "State")
MENU_HEAD = ("Item", "Text", "Mark", "Key", "Look")


class FileDrawing:
    """What is drawn of a file: the parts of its page, how many drawings and texts that may not fit, and what is told of it."""

    def __init__(self, found):
        self.fork, self.resources = memoryview(found.fork), found.resources()
        self.by_id = {}
        for one in self.resources:
            self.by_id.setdefault((one.kind, one.ident), one)
        self.embedded = Embedded(self.find)
        self.left, self.undrawn, self.drawings, self.over, self.told, self.parts = MOST_DRAWN, 0, 0, 0, [], []
        self.draw_windows()
        self.draw_menus()
        if self.undrawn:
            self.told.append("the page has enough drawings: %d more resources aren't drawn" % self.undrawn)
            self.parts.append(drawn_page.paragraph("The page has enough drawings of this file: %d more resources aren't drawn." % self.undrawn))
        if not self.parts:
            self.parts.append(drawn_page.paragraph("The file has no dialogs, alerts or menus."))

    def bytes_of(self, one):
        """The bytes of a resource, which aren't copied."""
        return self.fork[one.place:one.place + one.length]

    def find(self, kind, ident):
        """The bytes of a resource, or None."""
        one = self.by_id.get((kind, ident))
        return None if one is None else self.bytes_of(one)

    def of(self, kind, without=()):
        """The resources of a type but those of these ids, as long as the page has room for them."""
        for one in self.resources:
            if one.kind != kind or one.ident in without:
                continue
            if self.left > 0:
                yield one
            else:
                self.undrawn += 1

    def add(self, one, *parts):
        self.parts.append(drawn_page.section(heading(one), *parts))

    def add_drawing(self, one, cost, *parts):
        """Adds a drawing; `cost` are its items, or what counts as such."""
        self.drawings, self.left = self.drawings + 1, self.left - cost - COST
        self.add(one, *parts)

    def add_damaged(self, one, fault):
        """Tells of a resource that can't be drawn at all."""
        self.left -= COST
        self.told.append("%s %d: %s" % (shown(one.kind), one.ident, fault))
        self.add(one, drawn_page.paragraph("It is damaged, and isn't drawn: %s." % fault))

    # Dialogs and alerts.

    def draw_windows(self):
        """Draws each DLOG, each ALRT, and each DITL that belongs to none of them."""
        used = set()
        for kind, read in ((b"DLOG", dialogs.read_dialog), (b"ALRT", dialogs.read_alert)):
            for one in self.of(kind):
                try:
                    window = read(self.bytes_of(one))
                except Damaged as fault:
                    self.add_damaged(one, fault)
                    continue
                used.add(window.items)
                self.draw_window(one, window)
        for one in self.of(b"DITL", used):
            self.draw_window(one, None)

    def draw_window(self, one, window):
        """Draws a window with its items, or items alone."""
        items, notes = self.items_of(one.ident if window is None else window.items)
        default = window.stages[0].default if window is not None and window.stages else 1
        drawing = DialogDrawing(window, items, heading(one), self.find, self.embedded, default)
        self.over += len(drawing.over)
        cost = len(items) + max(0, drawing.lines - len(items)) // 4
        self.add_drawing(one, cost, drawn_page.paragraph(window_facts(window)), drawn_page.listed(stage_facts(window)),
                         drawn_page.warning(drawing.over), drawn_page.listed(notes + drawing.notes), drawn_page.figure(drawing.svg),
                         drawn_page.table("Items: %d" % len(items), ITEM_HEAD, [item_cells(item) for item in items]))

    def items_of(self, ident):
        """The items of a DITL, and sentences about those that aren't drawn."""
        data = self.find(b"DITL", ident)
        if data is None:
            return [], ["DITL %d isn't in the file, so no items are drawn." % ident]
        items, count, fault = dialogs.read_items(data, min(self.left, MOST_OF_ONE))
        if fault:
            self.told.append("DITL %d: %s" % (ident, fault))
            return items, ["DITL %d is damaged after item %d: %s." % (ident, len(items), fault)]
        return items, ["DITL %d has %d items; %d of them are drawn." % (ident, count, len(items))] if count > len(items) else []

    # Menus.

    def draw_menus(self):
        """Draws each MBAR, and then each MENU, in the order of the bars; a submenu comes after its parent."""
        found = []
        for one in self.of(b"MENU"):
            try:
                menu = menus.read_menu(self.bytes_of(one), min(self.left, MOST_OF_ONE))
            except Damaged as fault:
                self.add_damaged(one, fault)
                continue
            self.left -= len(menu.items) + COST
            found.append((one, menu))
        places = {}
        for place, (one, _) in enumerate(found):
            places.setdefault(one.ident, place)
        first = [places[ident] for one in self.of(b"MBAR") for ident in self.draw_bar(one, found, places) if ident in places]
        for placed in menus.ordered([(one.ident, menu) for one, menu in found], first):
            parent = None if placed.parent is None else found[placed.parent][0]
            self.draw_menu(*found[placed.index], parent)

    def draw_bar(self, one, found, places):
        """Draws a menu bar, and gives the ids of its menus."""
        try:
            idents, rest = menus.read_bar(self.bytes_of(one), min(self.left, MOST_IN_BAR))
        except Damaged as fault:
            self.add_damaged(one, fault)
            return []
        bar = [found[places[ident]][1] for ident in idents if ident in places]
        missing = ["MENU %d isn't among the menus that are drawn." % ident for ident in idents if ident not in places]
        self.add_drawing(one, len(idents), drawn_page.listed(missing + self.rest(one, "menu", len(idents), rest)),
                         drawn_page.figure(menu_drawing.bar_drawing(bar, heading(one))))
        return idents

    def draw_menu(self, one, menu, parent):
        """Draws a menu, whose items are counted already."""
        notes = ["Submenu of MENU %d." % parent.ident] if parent is not None else []
        notes += ["Its id in the resource is %d." % menu.ident] if menu.ident != one.ident else []
        notes += ["It is disabled."] if not menu.is_enabled else []
        notes += ["Its items are drawn by the program (MDEF %d)." % menu.definition] if menu.definition else []
        self.drawings += 1
        self.add(one, drawn_page.listed(notes + self.rest(one, "item", len(menu.items), menu.rest)),
                 drawn_page.figure(menu_drawing.menu_drawing(menu, heading(one), self.embedded)),
                 drawn_page.table("Items: %d" % len(menu.items), MENU_HEAD, [menu_drawing.row_cells(item) for item in menu.items]))

    def rest(self, one, word, count, rest):
        """The sentence about what of a list isn't drawn."""
        if rest is None:
            return []
        if rest.startswith("more"):
            return ["It has %s, and those are drawn." % rest]
        self.told.append("%s %d: %s" % (shown(one.kind), one.ident, rest))
        return ["It is damaged after %s %d: %s." % (word, count, rest)]


def heading(one):
    """A resource's type, id and name."""
    return "%s %d%s" % (shown(one.kind), one.ident, ", \u201c%s\u201d" % shown(one.name) if one.name else "")


def window_facts(window):
    """What is said of a window before its drawing."""
    if window is None:
        return "Items without a DLOG or an ALRT."
    kind = "alert" if window.stages else frames.window_kind(window.proc)[0]
    size = "%s %s of %d by %d pixels, with the items of DITL %d." % (
        "An" if kind[0] in "aeiou" else "A", kind, window.rectangle.width, window.rectangle.height, window.items)
    return size + ("" if window.is_visible else " It is hidden until the program shows it.")


def stage_facts(window):
    """What an alert does at each of its stages; stages that are alike are told together."""
    told, first = [], 1
    stages = window.stages if window is not None else ()
    for number, stage in enumerate(stages, 1):
        if number < len(stages) and stages[number] == stage:
            continue
        which = "Stage %d" % number if first == number else "Stages %d to %d" % (first, number)
        told.append("%s: %s, default item %d, beeps: %d." % (which, "shown" if stage.is_shown else "not shown", stage.default, stage.beeps))
        first = number + 1
    return told


# The program.

def drawn(name):
    """What is drawn of a file that is named."""
    told = "standard input" if name == "-" else printable(os.fsdecode(name))
    try:
        with facts.Opened(name) as file:
            found = facts.facts_of(file)
        if found.refused or found.broken:
            raise Refused(found.refused or found.broken)
    except Refused as fault:
        said, front = str(fault), told + ": "
        raise Refused(said if said.startswith(front) else front + said) from None
    return FileDrawing(found)


def draw_all(names):
    """The page of the files, whether each was read, and the counts of drawings and of texts that may not fit."""
    told = ["standard input" if name == "-" else printable(os.fsdecode(name)) for name in names]
    sections, well, drawings, over = [], True, 0, 0
    for number, name in enumerate(names, 1):
        command.progress("%s: %d of %d files" % (NAME, number, len(names)))
        try:
            file = drawn(name)
        except Refused as fault:
            command.progress("")
            command.say(NAME, fault)
            well = False
            sections.append(drawn_page.file_section(number, told[number - 1], [drawn_page.paragraph("It isn't drawn: %s." % fault)]))
            continue
        command.progress("")
        for each in file.told:
            command.say(NAME, "%s: %s" % (told[number - 1], each))
        drawings, over = drawings + file.drawings, over + file.over
        sections.append(drawn_page.file_section(number, told[number - 1], file.parts))
    return drawn_page.page(told, sections), well, drawings, over


def body(words):
    parser = command.parser(NAME, ABOUT, MORE)
    parser.add_argument("names", metavar="FILE", nargs="+", help="a file with a resource fork; - is standard input")
    parser.add_argument("-o", metavar="PAGE.html", dest="page", required=True, help="the page that is written; - is standard output")
    parser.add_argument("-f", action="store_true", dest="force", help="replace a file of that name")
    options = parser.parse_args(words)
    if options.page != "-" and not is_stream(options.page):
        check_free(options.page, options.force)
    page, well, drawings, over = draw_all(options.names)
    write_file(options.page, page.encode("utf-8"), options.force)
    command.say(NAME, "drawings: %d, texts that may not fit: %d" % (drawings, over))
    return 0 if well else 1


def main():
    return command.ended(NAME, body)
