"""The frames of windows as SVG: what a procID says of a window, its border, its title bar.

Source: Inside Macintosh: Macintosh Toolbox Essentials, chapter 4, 'Window Manager', types of windows.
"""
from . import svg
from .chicago import ASCENT, width_of

PLAIN, SHADOW, DOUBLE, TITLED, TITLED_DOUBLE = range(5)
BAR = 18  # pixels of a title bar
AROUND = {PLAIN: 1, SHADOW: 3, DOUBLE: 8, TITLED: 1, TITLED_DOUBLE: 8}  # pixels of a border
CLOSE_BOX, TITLE_EDGE = 11, 6
DEFINITIONS = {0: {0: ("document window", TITLED), 1: ("modal dialog box", DOUBLE), 2: ("plain box", PLAIN), 3: ("plain box with a shadow", SHADOW),
                   4: ("document window without a size box", TITLED), 5: ("movable modal dialog box", TITLED_DOUBLE),
                   8: ("document window with a zoom box", TITLED), 12: ("document window with a zoom box and no size box", TITLED)},
               64: {number: ("document window", TITLED) for number in range(8)},
               65: {0: ("plain dialog box", PLAIN), 1: ("dialog box with a shadow", SHADOW), 2: ("modal dialog box", DOUBLE),
                    3: ("movable modal dialog box", TITLED_DOUBLE), 4: ("alert box", DOUBLE), 5: ("movable alert box", TITLED_DOUBLE),
                    6: ("movable modal dialog box that can be sized", TITLED_DOUBLE)}}
EVERY_VARIATION = {1: ("rounded window", TITLED), 66: ("floating window", TITLED), 67: ("floating window", TITLED),
                   124: ("floating window", TITLED)}


def window_kind(proc):
    """What a procID says of a window: words, and its look. It is 16 times the id of a definition, and a variation."""
    definition, variation = proc >> 4, proc & 15
    known = EVERY_VARIATION.get(definition) or DEFINITIONS.get(definition, {}).get(variation)
    return known or ("window of its own kind (procID %d)" % proc, PLAIN)


def has_title(look):
    return look in (TITLED, TITLED_DOUBLE)


def title_room(width, has_close_box):
    """The pixels that a title may have."""
    return width - 2 * (TITLE_EDGE + (CLOSE_BOX + 2 * TITLE_EDGE if has_close_box else 0))


def frame(look, width, height, title, has_close_box):
    """The border of a window around contents from 0, 0 on, and its title bar."""
    outer = {DOUBLE: 8, TITLED_DOUBLE: 8}.get(look, 1)
    top = BAR if has_title(look) else 0
    parts = [svg.area(2, 2, width + 1, height + 1, "black")] if look == SHADOW else []
    parts.append(svg.box(-outer, -outer - top, width + 2 * outer, height + 2 * outer + top, "box"))
    if look in (DOUBLE, TITLED_DOUBLE):
        parts.append(svg.tag("rect", x=-4, y=-4, width=width + 8, height=height + 8, class_="line", stroke_width=2))
    if top:
        parts.append(title_bar(-outer, -outer - top, width + 2 * outer, has_close_box))
        ground = "paper" if width_of(title) <= title_room(width, has_close_box) else "over"
        parts.append(title_text(-outer, -outer - top, width + 2 * outer, title, ground))
    return "".join(parts)


def title_bar(left, top, width, has_close_box):
    """Six lines, the close box, and the line below."""
    stripes = "".join(svg.line(left + 2, top + y, left + width - 3, top + y, "stripe") for y in range(4, 15, 2))
    close_box = svg.area(left + 8, top + 3, CLOSE_BOX + 2, CLOSE_BOX + 2, "paper") if has_close_box else ""
    close_box += svg.box(left + 9, top + 4, CLOSE_BOX, CLOSE_BOX, "box") if has_close_box else ""
    return stripes + close_box + svg.line(left, top + BAR, left + width - 1, top + BAR)


def title_text(left, top, width, title, ground):
    """The title in the middle of the bar, on its ground."""
    if not title.strip():
        return ""
    begin = left + (width - width_of(title)) // 2
    return svg.area(begin - 4, top + 1, width_of(title) + 8, BAR - 1, ground) + svg.group("title: " + title, svg.text(begin, top + 1 + ASCENT, title))


def bounds(look, width, height):
    """The left and top edge, the width and the height of a window with its border."""
    around, top = AROUND[look], BAR if has_title(look) else 0
    return -around, -around - top, width + 2 * around, height + 2 * around + top
