"""Menus: what is read of them, their order on a page, and the elements of their SVG, against places that are written here."""
import os
from xml.etree import ElementTree

import pytest
from dialog_makers import mbar, menu
from helpers import SECONDS
from rezkit_workbench import embed, menus
from rezkit_workbench.errors import Damaged
from rezkit_workbench.menu_drawing import bar_drawing, menu_drawing, row_cells
from rezkit_workbench.reading import Shown

CHECK_MARK, DIAMOND = 0x12, 0x13


def read(data):
    return menus.read_menu(data, 9999)


def drawing(data, found=()):
    resources = dict(found)
    return ElementTree.fromstring(menu_drawing(read(data), "the label", embed.Embedded(lambda kind, ident: resources.get((kind, ident)))))


def rows(tree):
    """The groups of a drawing: the text for a pointer, and the elements as (name, look, places or text)."""
    return [(group.find("title").text, [short(part) for part in group if part.tag != "title"]) for group in tree.findall("g")]


def short(part):
    if part.tag == "text":
        return ("text", part.get("class"), float(part.get("x")), float(part.get("y")), int(part.get("textLength")), part.text)
    if part.tag == "path":
        return ("path", part.get("class"), part.get("d") if "M" in part.get("d") and len(part.get("d")) < 30 else "apple")
    return (part.tag, part.get("class")) + tuple(float(part.get(name)) for name in ("x", "y", "width", "height"))


def test_what_is_read():
    """The lowest bit of the flags is that of the menu, the next one that of item 1."""
    found = read(menu(129, b"Edit", (b"Undo", 0, 90, 0, 0), b"-", (b"Font", 3, 0x1B, 200, 1), (b"Show", 0, 0, CHECK_MARK, 6), (b"K", 5, 0x1C, 0, 0),
                      flags=0b101011, definition=7))
    assert (found.ident, found.definition, found.is_enabled, found.title, found.rest) == (129, 7, True, b"Edit", None)
    undo, line, font, show, script = found.items
    assert [each.is_enabled for each in found.items] == [True, False, True, False, True]
    assert (undo.number, undo.text, undo.key_letter(), undo.mark_letter(), undo.submenu(), undo.icon_id(), undo.styles()) == (1, b"Undo", b"Z", None, None, None, [])
    assert line.is_separator() and not undo.is_separator()
    assert (font.key_letter(), font.mark_letter(), font.submenu(), font.icon_id(), font.styles()) == (None, None, 200, 259, ["bold"])
    assert (show.mark_letter(), show.styles()) == (bytes([CHECK_MARK]), ["italic", "underlined"])
    assert script.icon_id() is None
    assert not read(menu(1, b"Off", b"One", flags=0xFFFFFFFE)).is_enabled


def test_items_after_the_31st_have_no_flag():
    found = read(menu(1, b"Long", *[b"x"] * 40, flags=1))
    assert [each.is_enabled for each in found.items] == [False] * 31 + [True] * 9


def test_the_places_of_a_menu():
    """The text begins at 14. 'Open' has 8 + 8 + 8 + 8 pixels, and the least width of a text is 60; 14 + 60 + 24 + 22 is 120."""
    tree = drawing(menu(129, b"File", (b"Open", 0, ord("o"), 0, 0), b"-", (b"Close", 0, 0, CHECK_MARK, 0), flags=0xFFFFFFF7))
    assert tree.get("viewBox") == "-4 -4 128 77" and (tree.get("role"), tree.get("aria-label")) == ("img", "the label")
    assert [short(part) for part in tree.findall("rect")] == [("rect", "bar", 0, 0, 47, 20), ("rect", "box", 0.5, 19.5, 119, 49)]
    assert rows(tree) == [
        ("title File", [("text", None, 12, 14, 23, "File")]),  # 7 4 4 8
        ("1: Open", [("text", None, 14, 32, 32, "Open"), ("text", None, 94, 32, 19, "\u2318O")]),
        ("2: separator", [("path", "separator", "M1.5 44.5L118.5 44.5")]),
        ("3: Close, disabled", [("text", "dim", 2, 64, 9, "\u2713"), ("text", "dim", 14, 64, 35, "Close")])]  # 8 4 8 7 8


def test_a_submenu_and_marks():
    tree = drawing(menu(129, b"A", (b"Font", 0, 0x1B, 5, 0), (b"B", 0, 0, DIAMOND, 0), (b"C", 0, 0, ord("*"), 0)))
    assert rows(tree)[1] == ("1: Font, submenu MENU 5", [("text", None, 14, 32, 29, "Font"), ("path", "black", "M106 23l6 5l-6 5z")])
    assert rows(tree)[2][1][0] == ("text", None, 2, 48, 9, "\u25C6") and rows(tree)[3][1][0] == ("text", None, 2, 64, 7, "*")


def test_styles():
    styles = [0, 1, 2, 4, 8, 16, 32, 64, 7]
    tree = drawing(menu(1, b"Style", *[(b"Aa", 0, 0, 0, each) for each in styles]))
    texts = [group.findall("text") for group in tree.findall("g")[1:]]
    assert [int(each[-1].get("textLength")) for each in texts] == [16, 18, 16, 16, 18, 20, 14, 18, 18]
    said = [(each[-1].get("font-weight"), each[-1].get("font-style"), each[-1].get("text-decoration"), each[-1].get("class")) for each in texts]
    plain = (None, None, None, None)
    assert said == [plain, ("bold", None, None, None), (None, "italic", None, None), (None, None, "underline", None), (None, None, None, "hollow"),
                    (None, None, None, "hollow"), plain, plain, ("bold", "italic", "underline", None)]
    assert [len(each) for each in texts] == [1, 1, 1, 1, 1, 2, 1, 1, 1] and texts[5][0].get("class") == "dim" and texts[5][0].get("x") == "15"
    titles = [title for title, _ in rows(tree)][1:]
    assert titles[0] == "1: Aa" and titles[4:8] == ["5: Aa, outlined", "6: Aa, with a shadow", "7: Aa, condensed", "8: Aa, extended"]


def test_the_apple_and_a_disabled_menu():
    tree = drawing(menu(128, b"\x14", b"About"))
    assert rows(tree)[0] == ("the Apple menu", [("path", "black", "apple")]) and short(tree.find("rect")) == ("rect", "bar", 0, 0, 39, 20)
    tree = drawing(menu(128, b"Off", b"About", flags=0xFFFFFFFE))
    assert rows(tree)[0] == ("title Off, the menu is disabled", [("text", "dim", 12, 14, 20, "Off")])
    assert rows(tree)[1] == ("1: About", [("text", "dim", 14, 32, 38, "About")])


def test_icons(monkeypatch):
    """An icon of 32 pixels stands before its text, a reduced one and a small one have 16."""
    decode = {kind: lambda data, beside: Shown("png", data, (32, 32)) for kind in (b"ICON", b"cicn", b"SICN")}
    monkeypatch.setattr(embed, "DECODERS", decode)
    found = {(b"ICON", 257): b"a", (b"ICON", 258): b"b", (b"SICN", 259): b"c", (b"ICON", 259): b"x"}
    tree = drawing(menu(1, b"Icons", (b"One", 1, 0, 0, 0), (b"Two", 2, 0x1D, 0, 0), (b"Three", 3, 0x1E, 0, 0), (b"Four", 4, 0, 0, 0)), found)
    assert rows(tree)[1:] == [
        ("1: One, icon 257", [("image", None, 14, 20, 32, 32), ("text", None, 50, 40, 24, "One")]),
        ("2: Two, icon 258", [("image", None, 14, 52, 16, 16), ("text", None, 34, 64, 26, "Two")]),
        ("3: Three, icon 259", [("image", None, 14, 68, 16, 16), ("text", None, 34, 80, 36, "Three")]),
        ("4: Four, icon 260", [("rect", "dashed", 14.5, 84.5, 31, 31), ("text", None, 50, 104, 29, "Four")])]
    assert [image.get("href")[-4:] for image in tree.iter("image")] == ["YQ==", "Yg==", "Yw=="]


def test_a_menu_without_items():
    tree = drawing(menu(1, b"None"))
    assert rows(tree) == [("title None", [("text", None, 12, 14, 33, "None")])] and len(tree.findall("rect")) == 1


def test_the_cells_of_a_table():
    found = read(menu(1, b"A", (b"a<b", 2, ord("K"), CHECK_MARK, 3), (b"Sub", 0, 0x1B, 9, 0), b"-", flags=0xFFFFFFF7))
    assert [row_cells(each) for each in found.items] == [["1", "a&lt;b", "\u2713", "\u2318K", "icon 258, bold, italic"], ["2", "Sub", "submenu 9", "", ""],
                                                         ["3", "(separator)", "", "", "disabled"]]


def test_a_menu_bar():
    bar = [read(menu(1, b"\x14")), read(menu(2, b"File")), read(menu(3, b"Off", flags=0))]
    tree = ElementTree.fromstring(bar_drawing(bar, "the bar"))
    assert tree.get("viewBox") == "0 0 118 20" and tree.get("aria-label") == "the bar"  # 12 + 15 + 12 + 23 + 12 + 20 + 12 and 12
    assert rows(tree) == [("the Apple menu", [("path", "black", "apple")]), ("title File", [("text", None, 39, 14, 23, "File")]),
                          ("title Off, the menu is disabled", [("text", "dim", 74, 14, 20, "Off")])]


# The order of a page.

def order(*found, first=()):
    """The ids of menus in the order of a page, each with its parent's id."""
    placed = menus.ordered([(ident, read(data)) for ident, data in found], first)
    return [(found[each.index][0], None if each.parent is None else found[each.parent][0]) for each in placed]


def sub(ident):
    return (b"sub", 0, 0x1B, ident, 0)


def test_the_order_of_menus():
    found = [(128, menu(128, b"A")), (129, menu(129, b"B", sub(10), b"x", sub(11))), (10, menu(10, b"C", sub(12))), (11, menu(11, b"D")), (12, menu(12, b"E")),
             (130, menu(130, b"F", sub(99)))]
    assert order(*found) == [(128, None), (129, None), (10, 129), (12, 10), (11, 129), (130, None)]
    assert order(*found, first=[5, 0]) == [(130, None), (128, None), (129, None), (10, 129), (12, 10), (11, 129)]


def test_menus_that_hang_from_each_other():
    assert order((1, menu(1, b"A", sub(2))), (2, menu(2, b"B", sub(1)))) == [(1, None), (2, 1)]
    assert order((1, menu(1, b"A", sub(1)))) == [(1, None)]
    assert order((1, menu(1, b"A", sub(3))), (2, menu(2, b"B", sub(3))), (3, menu(3, b"C"))) == [(1, None), (3, 1), (2, None)]


def test_a_submenu_is_found_by_the_id_in_the_menu_before_that_of_the_resource():
    assert order((128, menu(1, b"A", sub(7))), (7, menu(2, b"B")), (129, menu(7, b"C"))) == [(128, None), (129, 128), (7, None)]
    assert order((128, menu(1, b"A", sub(7))), (7, menu(2, b"B"))) == [(128, None), (7, 128)]


def test_a_long_chain_of_submenus():
    found = [(each, menu(each, b"M", sub(each + 1))) for each in range(1, 255)]
    assert order(*reversed(found)) == [(1, None)] + [(each, each - 1) for each in range(2, 255)]


# Bytes that lie.

def test_a_menu_is_cut_at_each_length():
    whole = menu(129, b"Edit", (b"Undo", 0, 90, 0, 0), b"-")
    assert len(whole) == 14 + 5 + 9 + 6 + 1
    for length in range(len(whole)):
        if length < 19:
            with pytest.raises(Damaged):
                read(whole[:length])
        else:
            found = read(whole[:length])
            assert len(found.items) == (0 if length < 28 else 1 if length < 34 else 2)
            assert "bytes are wanted and" in found.rest
    assert read(whole).rest is None


@pytest.mark.parametrize("data, idents, rest", (
    (mbar(128, 129, -5), [128, 129, -5], None), (mbar(), [], None), (mbar(128, 129, count=1), [128], None), (mbar(128, count=0), [], None),
    (mbar(128, count=2), [128], "2 bytes are wanted and 0 are there at byte 4"), (mbar(128, count=0x7FFF), [128], "2 bytes are wanted and 0 are there at byte 4"),
    (mbar(128, count=0xFFFF)[:3], [], "2 bytes are wanted and 1 are there at byte 2"), (b"\0", [], "2 bytes are wanted and 1 are there at byte 0"),
    (mbar(1, 2, 3, 4, 5, 6), [1, 2, 3, 4, 5], "more than 5 menus"),
))
def test_menu_bars(data, idents, rest):
    assert menus.read_bar(data, 5) == (idents, rest)


def test_no_more_items_than_asked():
    whole = menu(129, b"Edit", *[b"x"] * 50)
    assert len(menus.read_menu(whole, 50).items) == 50 and menus.read_menu(whole, 50).rest is None
    found = menus.read_menu(whole, 49)
    assert len(found.items) == 49 and found.rest == "more than 49 items"


def test_odd_words_give_a_drawing():
    whole = menu(129, b"Edit", (b"Undo", 1, 90, 0, 0), b"-", (b"Font", 3, 0x1B, 200, 0xFF))
    drawn = 0
    for place in range(len(whole) - 1):
        for word in (b"\0\0", b"\0\1", b"\x7F\xFF", b"\x80\0", b"\xFF\xFF"):
            try:
                assert drawing(whole[:place] + word + whole[place + 2:]).tag == "svg"
                drawn += 1
            except Damaged:
                assert place in (13, 14)
    assert drawn > 150


def test_any_letters_make_xml():
    letters = bytes(range(1, 256))
    tree = drawing(menu(1, letters, (letters, 0, 0, 0, 16), *[(b"x", 0, key, mark, 0) for key, mark in zip(range(256), reversed(range(256)))]))
    assert "\u2401\u2402" in rows(tree)[0][0] and len(rows(tree)) == 258


def test_many_items_take_little_time():
    begin = os.times().user
    tree = drawing(menu(1, b"Many", *[(b"some words of an item", 0, 65, CHECK_MARK, 31)] * 4000))
    assert len(rows(tree)) == 4001
    assert os.times().user - begin < SECONDS / 2
