"""Drawings of dialogs: the elements of their SVG, against rectangles and texts of items that are written here."""
import os
from xml.etree import ElementTree

import pytest
from dialog_makers import alrt, cntl, ditl, dlog, item, menu
from helpers import SECONDS
from rezkit_workbench import chicago, dialogs, embed, frames
from rezkit_workbench.dialog_drawing import DialogDrawing, item_cells, numbers
from rezkit_workbench.errors import Damaged
from rezkit_workbench.reading import Shown

BUTTON, CHECK, RADIO, CONTROL, STATIC, EDIT, ICON, PICTURE, USER, HELP = 4, 5, 6, 7, 8, 16, 32, 64, 0, 1
BOX = dlog((40, 40, 240, 340), 2, 128)  # a plain box, 300 wide and 200 high


def drawing(items, window=BOX, found=(), default=1):
    """The drawing of a list of items; `found` are other resources by their type and id."""
    resources = dict(found)

    def find(kind, ident):
        return resources.get((kind, ident))

    return DialogDrawing(dialogs.read_dialog(window) if window else None, dialogs.read_items(items, 9999)[0], "the label", find, embed.Embedded(find), default)


def groups(made):
    """The drawn items: for each its text for a pointer, and its elements after that text."""
    tree = ElementTree.fromstring(made.svg)
    inside = tree.find("svg")
    return [(group.find("title").text, [part for part in group.iter() if part.tag not in ("g", "title")]) for group in inside.findall("g")]


def short(parts):
    """Elements as (name, look, numbers or text)."""
    out = []
    for part in parts:
        if part.tag == "text":
            out.append(("text", float(part.get("x")), float(part.get("y")), int(part.get("textLength")), part.text))
        elif part.tag in ("rect", "image"):
            out.append((part.tag, part.get("class")) + tuple(float(part.get(name)) for name in ("x", "y", "width", "height")))
        else:
            out.append((part.tag, part.get("class")))
    return out


def only(made):
    (title, parts), = groups(made)
    return title, short(parts)


def test_a_button_and_the_default_one():
    made = drawing(ditl(item(BUTTON, (100, 230, 120, 290), b"Save"), item(BUTTON, (100, 150, 120, 210), b"Cancel")))
    first, second = groups(made)
    assert first[0] == "1: button, Save" and second[0] == "2: button, Cancel"
    assert short(first[1]) == [("rect", "box", 230.5, 100.5, 59, 19), ("rect", "line", 227.5, 97.5, 65, 25), ("text", 244, 114, 31, "Save")]
    assert first[1][1].get("stroke-width") == "3"
    assert short(second[1]) == [("rect", "box", 150.5, 100.5, 59, 19), ("text", 158, 114, 43, "Cancel")]  # 8 8 8 7 8 4
    assert made.over == [] and made.notes == []


def test_a_check_box_and_a_radio_button():
    made = drawing(ditl(item(CHECK, (10, 20, 26, 120), b"Beep"), item(RADIO, (30, 20, 46, 120), b"Off")))
    first, second = groups(made)
    assert first[0] == "1: check box, Beep" and second[0] == "2: radio button, Off"
    assert short(first[1]) == [("rect", "box", 22.5, 12.5, 11, 11), ("text", 38, 22, 32, "Beep")]
    assert short(second[1]) == [("rect", "box", 22.5, 32.5, 11, 11), ("text", 38, 42, 20, "Off")]
    assert first[1][0].get("rx") is None and second[1][0].get("rx") == "6"


def test_texts_are_wrapped_at_words():
    """'Save changes to' has 31 + 4 + 54 + 4 + 14 = 107 pixels, and ' all' 24 more."""
    made = drawing(ditl(item(STATIC, (10, 20, 42, 132), b"Save changes to all")))
    assert only(made) == ("1: static text, Save changes to all", [("text", 20, 22, 107, "Save changes to"), ("text", 20, 38, 16, "all")])
    assert made.over == []
    made = drawing(ditl(item(STATIC, (10, 20, 42, 132), b"One\r\rTwo")))
    assert [part[-1] for part in only(made)[1] if part[0] == "text"] == ["One", "Two"]
    assert made.over == ["Item 1, static text \u201cOne  Two\u201d: 3 lines, with room for 2."]


def test_an_editable_text_has_a_frame_of_three_pixels():
    made = drawing(ditl(item(EDIT, (60, 73, 76, 287), b"name")))
    assert only(made) == ("1: editable text, name", [("rect", "box", 70.5, 57.5, 219, 21), ("text", 73, 72, 36, "name")])


def test_places_of_the_program_stay_as_they_are():
    made = drawing(ditl(item(STATIC, (10, 20, 42, 200), b"Save ^0 as ^1^2^3?")))
    assert [part[-1] for part in only(made)[1]] == ["Save ^0 as ^1^2^3?"]


def test_lines_below_the_window_are_not_drawn():
    """The window is 200 high: of a text at 150 the lines at 150, 166, 182 and 198 are seen."""
    made = drawing(ditl(item(STATIC, (150, 20, 600, 99), b"\r".join(b"%d" % each for each in range(20)))))
    assert [part[-1] for part in only(made)[1]] == ["0", "1", "2", "3"] and made.over == []


def test_a_disabled_item_looks_the_same():
    for kind, data in ((BUTTON, b"Hi"), (CHECK, b"Hi"), (RADIO, b"Hi"), (STATIC, b"Hi"), (EDIT, b"Hi"), (USER, b""), (ICON, b"\0\1"), (PICTURE, b"\0\1")):
        one, other = (only(drawing(ditl(item(kind, (10, 20, 30, 80), data, disabled)))) for disabled in (False, True))
        assert other == (one[0] + ", disabled", one[1])


def test_user_and_help_items():
    made = drawing(ditl(item(USER, (1, 2, 11, 22)), item(HELP, (0, 0, 10, 10), b"\0\1\0\x80"), item(HELP, (0, 0, 0, 0), b"\0\2\xFF\xFF")))
    assert only(made) == ("1: user item", [("rect", "dashed", 2.5, 1.5, 19, 9)]) and made.notes == []
    assert [item_cells(each) for each in made.items] == [
        ["1", "user item", "", "1, 2, 11, 22", ""], ["2", "help item", "hdlg 128", "0, 0, 10, 10", ""], ["3", "help item", "hrct -1", "0, 0, 0, 0", ""]]


def test_an_item_of_an_unknown_kind():
    made = drawing(ditl(item(3, (1, 2, 11, 22), b"what")))
    assert only(made) == ("1: item of the unknown kind 3", [("rect", "dashed", 2.5, 1.5, 19, 9)])


PNG = b"\x89PNG not really"


def test_icons_and_pictures(monkeypatch):
    asked = []

    def decode(data, beside):
        asked.append((data, beside(b"ICN#")))
        return Shown("png", PNG, (32, 32))

    monkeypatch.setattr(embed, "DECODERS", {b"ICON": decode, b"cicn": decode, b"PICT": decode})
    frame = bytes(2) + b"\0\0\0\0\0\x10\0\x10"
    made = drawing(ditl(item(ICON, (10, 20, 42, 52), b"\0\x80"), item(PICTURE, (10, 60, 40, 100), b"\0\x81"), item(ICON, (50, 20, 82, 52), b"\0\x82")),
                   found={(b"ICON", 128): b"icon", (b"ICN#", 128): b"mask", (b"PICT", 129): frame, (b"ICON", 130): b"no", (b"cicn", 130): bytes(4) + frame})
    first, second, third = groups(made)
    assert first[0] == "1: icon, ICON or cicn 128" and short(first[1]) == [("image", None, 20, 10, 32, 32)]
    assert second[0] == "2: picture, PICT 129" and short(second[1]) == [("image", None, 60, 10, 40, 30)]
    assert short(third[1]) == [("image", None, 20, 50, 32, 32)]
    assert first[1][0].get("href") == "data:image/png;base64,iVBORyBub3QgcmVhbGx5" and first[1][0].get("preserveAspectRatio") == "none"
    assert asked == [(b"icon", b"mask"), (frame, None), (bytes(4) + frame, None)] and made.notes == []


def test_icons_and_pictures_that_are_not_shown(monkeypatch):
    def damaged(data, beside):
        raise Damaged(7, "it is broken")

    monkeypatch.setattr(embed, "DECODERS", {b"ICON": damaged, b"PICT": damaged})
    large = bytes(2) + b"\0\0\0\0\x7F\xFF\x7F\xFF"
    made = drawing(ditl(item(ICON, (0, 0, 32, 32), b"\0\x80"), item(PICTURE, (0, 40, 32, 90), b"\0\x81"), item(ICON, (40, 0, 72, 32), b"\xFF\xFF"),
                        item(PICTURE, (40, 40, 72, 90), b"\0"), item(PICTURE, (80, 0, 99, 50), b"\0\x82")),
                   found={(b"ICON", 128): b"icon", (b"PICT", 129): large, (b"PICT", 130): b"short"})
    assert [short(parts) for _, parts in groups(made)] == [
        [("rect", "dashed", 0.5, 0.5, 31, 31), ("text", 3, 13, 24, "128")], [("rect", "dashed", 40.5, 0.5, 49, 31), ("text", 43, 13, 24, "129")],
        [("rect", "dashed", 0.5, 40.5, 31, 31), ("text", 3, 53, 15, "-1")], [("rect", "dashed", 40.5, 40.5, 49, 31)],
        [("rect", "dashed", 0.5, 80.5, 49, 18), ("text", 3, 93, 24, "130")]]
    assert made.notes == ["Item 1: the icon 128 isn't shown: it is broken at byte 7.",
                          "Item 2: the picture 129 isn't shown: the page has enough pictures.", "Item 3: the icon -1 isn't in the file.",
                          "Item 5: the picture 130 isn't shown: 2 bytes are wanted and 1 are there at byte 4."]


def test_pictures_of_a_page_are_limited(monkeypatch):
    monkeypatch.setattr(embed, "DECODERS", {b"ICON": lambda data, beside: Shown("png", bytes(3000), (32, 32))})
    monkeypatch.setattr(embed, "MOST_BYTES", 9000)  # an address has 4022
    made = drawing(ditl(*[item(ICON, (0, 0, 32, 32), b"\0\x80")] * 3), found={(b"ICON", 128): b"icon"})
    assert [parts[0].tag for _, parts in groups(made)] == ["image", "image", "rect"]
    assert made.notes == ["Item 3: the icon 128 isn't shown: the page has enough pictures."]


# Controls.

def test_controls_by_their_procs():
    found = {(b"CNTL", 1): cntl(0, b"Push"), (b"CNTL", 2): cntl(1, b"Check", 1), (b"CNTL", 3): cntl(10, b"Radio", 1), (b"CNTL", 4): cntl(16),
             (b"CNTL", 5): cntl(160, b"Group"), (b"CNTL", 6): cntl(4000, b"Own")}
    made = drawing(ditl(*(item(CONTROL, (20 * each, 10, 20 * each + 16, 110), bytes([0, each])) for each in range(1, 7))), found=found, default=0)
    shown = [short(parts) for _, parts in groups(made)]
    assert shown[0] == [("rect", "box", 10.5, 20.5, 99, 15), ("text", 44, 32, 31, "Push")]
    assert shown[1] == [("rect", "box", 12.5, 42.5, 11, 11), ("path", "line"), ("path", "line"), ("text", 28, 52, 39, "Check")]
    assert shown[2] == [("rect", "box", 12.5, 62.5, 11, 11), ("circle", "black"), ("text", 28, 72, 36, "Radio")]
    assert shown[3] == [("rect", "box", 10.5, 80.5, 99, 15), ("rect", "box", 10.5, 80.5, 15, 15), ("rect", "box", 94.5, 80.5, 15, 15)]
    assert shown[4] == [("rect", "line", 10.5, 108.5, 99, 7), ("rect", "paper", 18, 100, 42, 16), ("text", 20, 112, 38, "Group")]
    assert shown[5] == [("rect", "dashed", 10.5, 120.5, 99, 15), ("text", 10, 132, 28, "Own")]
    assert groups(made)[0][0] == "1: control, CNTL 1" and ">Push, procID 0</title>" in made.svg and made.notes == [] and made.over == []


def test_a_pop_up_menu_has_its_title_and_first_item():
    """The box is 60 wide, and 15 at each side have no text."""
    found = {(b"CNTL", 1): cntl(1008, b"Size:", 0, 130, 40), (b"MENU", 130): menu(130, b"Sizes", b"12", b"Big")}
    made = drawing(ditl(item(CONTROL, (60, 100, 80, 200), b"\0\1")), found=found)
    assert only(made)[1] == [("text", 100, 74, 31, "Size:"), ("rect", "box", 140.5, 60.5, 59, 19), ("svg", None), ("text", 155, 74, 16, "12"), ("path", "black")]
    assert made.over == []
    found[b"MENU", 130] = menu(130, b"Sizes", b"Small", b"Large")  # 7 12 8 4 4 and 7 8 6 8 8
    made = drawing(ditl(item(CONTROL, (60, 100, 80, 200), b"\0\1")), found=found)
    assert only(made)[1][1:3] == [("rect", "box", 140.5, 60.5, 59, 19), ("rect", "over", 140.5, 60.5, 59, 19)]
    assert made.over == ["Item 1, control \u201cLarge\u201d: about 37 pixels in MENU 130, with room for 30."]


def test_a_pop_up_menu_whose_title_may_not_fit_and_whose_menu_is_not_there():
    for more in ({}, {(b"MENU", 131): menu(131, b"Sizes")[:9]}, {(b"MENU", 131): menu(131, b"Sizes")}):
        made = drawing(ditl(item(CONTROL, (60, 100, 80, 200), b"\0\1")), found={(b"CNTL", 1): cntl(1009, b"Large size:", 0, 131, 40), **more})
        assert only(made)[1][0] == ("rect", "over", 100.5, 60.5, 39, 19) and ">MENU 131</text>" in made.svg
        assert made.over == ["Item 1, control \u201cLarge size:\u201d: about 72 pixels, with room for 40."]  # 7 8 6 8 8, 4, 7 4 8 8 4


def test_controls_that_are_missing_damaged_or_hidden():
    found = {(b"CNTL", 2): cntl(0, b"Push")[:22], (b"CNTL", 3): cntl(0, b"Push", visible=False)}
    made = drawing(ditl(*(item(CONTROL, (20 * each, 10, 20 * each + 16, 110), bytes([0, each])) for each in range(1, 4)), item(CONTROL, (90, 10, 99, 20), b"")),
                   found=found)
    assert made.notes == ["Item 1: CNTL 1 isn't in the file.", "Item 2: CNTL 2 is damaged: 1 bytes are wanted and 0 are there at byte 22.",
                          "Item 3: CNTL 3 is hidden until the program shows it.", "Item 4: it names no CNTL."]
    assert [short(parts)[0][1] for _, parts in groups(made)] == ["dashed", "dashed", "box", "dashed"]
    assert short(groups(made)[0][1])[1] == ("text", 13, 33, 42, "CNTL 1")  # 8 9 6 7, 4, 8


# What may not fit.

@pytest.mark.parametrize("kind, place, data, said", (
    (BUTTON, (10, 10, 30, 44), b"Save", "about 31 pixels, with room for 30"),
    (BUTTON, (10, 10, 30, 45), b"Save", None),
    (BUTTON, (10, 10, 24, 60), b"Save", "15 pixels high, with room for 14"),
    (BUTTON, (10, 10, 25, 60), b"Save", None),
    (BUTTON, (10, 10, 40, 60), b"Save\rall", "31 pixels high, with room for 30"),
    (CHECK, (10, 10, 26, 58), b"Save", "about 31 pixels, with room for 30"),
    (CHECK, (10, 10, 26, 59), b"Save", None),
    (RADIO, (10, 10, 26, 20), b"Save", "about 31 pixels, with room for 0"),
    (STATIC, (10, 10, 25, 41), b"Save", None),
    (STATIC, (10, 10, 26, 40), b"Save", "a word of about 31 pixels, with room for 30"),
    (STATIC, (10, 10, 40, 60), b"Save as text", "2 lines, with room for 1"),
    (STATIC, (10, 10, 41, 60), b"Save as text", None),
    (STATIC, (10, 10, 24, 60), b"Save", "1 lines, with room for 0"),
    (EDIT, (10, 10, 26, 60), b"Save as text", "2 lines, with room for 1"),
    (STATIC, (10, 10, 12, 60), b"", None),
    (STATIC, (10, 10, 12, 60), b" \r ", None),
    (BUTTON, (10, 10, 12, 12), b"", None),
))
def test_what_may_not_fit(kind, place, data, said):
    made = drawing(ditl(item(USER, (0, 0, 1, 1)), item(kind, place, data)))
    over = [part for part in short(groups(made)[1][1]) if part[1] == "over"]
    if said is None:
        assert made.over == [] and over == []
        return
    top, left, bottom, right = place
    words = {BUTTON: "button", CHECK: "check box", RADIO: "radio button", STATIC: "static text", EDIT: "editable text"}[kind]
    letters = data.decode().replace("\r", " ")
    assert made.over == ["Item 2, %s \u201c%s\u201d: %s." % (words, letters, said)]
    assert over == [("rect", "over", left + 0.5, top + 0.5, right - left - 1, bottom - top - 1)]


def test_a_long_text_is_told_by_its_beginning():
    made = drawing(ditl(item(BUTTON, (0, 0, 20, 50), b"a" * 200)))
    assert made.over == ["Item 1, button \u201c%s\u2026\u201d: about 1600 pixels, with room for 46." % ("a" * 60)]


def test_widths():
    assert chicago.width_of("") == 0 and chicago.width_of("iW m") == 4 + 12 + 4 + 12
    assert chicago.width_of("\u00e9\u00fc\u00c5\u00f1") == 32 and chicago.width_of("\u2318\u0394\u2026") == 11 + 7 + 12
    assert {letter for letter in map(chr, range(32, 127)) if letter not in chicago.WIDTHS} == set()
    assert chicago.wrapped("aa aa  aa", 36) == ["aa aa", "aa"]      # a letter has 8 pixels, a space 4
    assert chicago.wrapped("aa aa  aa", 35) == ["aa", "aa", "aa"]
    assert chicago.wrapped("aaaaa b", 16) == ["aa", "aa", "a", "b"]
    assert chicago.wrapped("x aaaaa", 16) == ["x", "aa", "aa", "a"]
    assert chicago.wrapped("aaa", 1) == chicago.wrapped("aaa", -9) == ["a", "a", "a"]
    assert chicago.wrapped("", 9) == [""] and chicago.wrapped("\n", 9) == ["", ""] and chicago.wrapped("  a", 99) == ["  a"]
    assert "".join(chicago.BY_WIDTH.values()).count("a") == 1 and len("".join(chicago.BY_WIDTH.values())) == len(chicago.WIDTHS)


# Windows.

def outer(made):
    """The bounds of a drawing, and the elements of its frame."""
    tree = ElementTree.fromstring(made.svg)
    assert (tree.get("role"), tree.get("aria-label")) == ("img", "the label")
    assert tree.get("width") == tree.get("viewBox").split()[2] and tree.get("height") == tree.get("viewBox").split()[3]
    inside = tree.find("svg")
    return ([int(each) for each in tree.get("viewBox").split()], short(part for part in tree.find("g").iter() if part.tag not in ("g", "title")),
            [int(inside.get(name)) for name in ("x", "y", "width", "height")])


@pytest.mark.parametrize("proc, words, look, bounds, frame", (
    (1, "modal dialog box", frames.DOUBLE, [-14, -14, 128, 78], [("rect", "box", -7.5, -7.5, 115, 65), ("rect", "line", -4, -4, 108, 58)]),
    (2, "plain box", frames.PLAIN, [-7, -7, 114, 64], [("rect", "box", -0.5, -0.5, 101, 51)]),
    (3, "plain box with a shadow", frames.SHADOW, [-9, -9, 118, 68], [("rect", "black", 2, 2, 101, 51), ("rect", "box", -0.5, -0.5, 101, 51)]),
    (1042, "modal dialog box", frames.DOUBLE, [-14, -14, 128, 78], None),
    (-32, "window of its own kind (procID -32)", frames.PLAIN, [-7, -7, 114, 64], None),
))
def test_windows_without_a_title_bar(proc, words, look, bounds, frame):
    made = drawing(ditl(), dlog((60, 60, 110, 160), proc, 1, b"Name"))
    assert frames.window_kind(proc) == (words, look)
    assert outer(made)[0] == bounds and outer(made)[2] == [0, 0, 100, 50] and "Name" not in made.svg
    assert frame is None or outer(made)[1] == frame


def test_windows_with_a_title_bar():
    made = drawing(ditl(), dlog((60, 60, 110, 160), 4, 1, b"Name", close_box=True))
    view, frame, inside = outer(made)
    assert view == [-7, -25, 114, 82] and inside == [0, 0, 100, 50]
    assert frame[0] == ("rect", "box", -0.5, -18.5, 101, 69) and frame.count(("path", "stripe")) == 6
    assert frame[7:] == [("rect", "paper", 7, -16, 13, 13), ("rect", "box", 8.5, -14.5, 10, 10), ("path", "line"),
                         ("rect", "paper", 27, -18, 45, 17), ("text", 31, -6, 37, "Name")]  # 9 8 12 8
    for proc, words in ((0, "document window"), (8, "document window with a zoom box"), (16, "rounded window"), (1985, "floating window")):
        assert frames.window_kind(proc) == (words, frames.TITLED)
    assert "title: Name" in made.svg and made.over == []
    movable = drawing(ditl(), dlog((60, 60, 110, 160), 5, 1, b"Name"))
    view, frame, _ = outer(movable)
    assert view == [-14, -32, 128, 96] and frame[:2] == [("rect", "box", -7.5, -25.5, 115, 83), ("rect", "line", -4, -4, 108, 58)]
    assert ("rect", "box", 8.5, -14.5, 10, 10) not in frame and frame[-1] == ("text", 31, -13, 37, "Name")


def test_a_title_that_may_not_fit():
    """With a close box a title has the width less 58 pixels, without one less 12."""
    for width, close_box, over in ((95, True, []), (94, True, ["The title \u201cName\u201d: about 37 pixels, with room for 36."]), (49, False, []),
                                   (48, False, ["The title \u201cName\u201d: about 37 pixels, with room for 36."])):
        made = drawing(ditl(), dlog((0, 0, 50, width), 0, 1, b"Name", close_box=close_box))
        assert made.over == over and (' class="over"' in made.svg) == bool(over)


def test_items_outside_the_window():
    made = drawing(ditl(item(STATIC, (200, 10, 220, 90), b"below"), item(STATIC, (10, -90, 26, 0), b"left"), item(BUTTON, (10, 290, 30, 320), b"OK"),
                        item(STATIC, (10, 10, 10, 90), b"flat"), item(STATIC, (0, 0, 16, 60), b"inside"), item(USER, (-1, -1, 300, 400))))
    assert [title for title, _ in groups(made)] == ["3: button, OK", "5: static text, inside", "6: user item"]
    assert made.notes == ["Items that aren't seen, because they are outside the window or have no area: 1 to 2, 4.", "Items that reach out of the window: 3."]
    assert len(made.items) == 6 and numbers([1, 2, 3, 5, 7, 8]) == "1 to 3, 5, 7 to 8"


def test_a_window_without_area():
    made = drawing(ditl(item(STATIC, (0, 0, 16, 60), b"text")), dlog((60, 60, 60, 160), 1, 1))
    assert made.notes[0] == "The rectangle of the window is empty." and groups(made) == []
    made = drawing(ditl(item(STATIC, (0, 0, 16, 60), b"text")), dlog((32767, 32767, -32768, -32768), 1, 1))
    assert made.notes[0] == "The rectangle of the window is empty." and outer(made)[0] == [-14, -14, 28, 28]


def test_a_window_that_is_too_large():
    made = drawing(ditl(item(STATIC, (5000, 0, 5016, 60), b"text")), dlog((-32768, -32768, 32767, 32767), 2, 1))
    assert outer(made)[0] == [-7, -7, 4110, 4110] and groups(made) == []
    assert made.notes[0] == "It has 65535 by 65535 pixels; 4096 by 4096 of them are drawn."


def test_items_without_a_window():
    made = drawing(ditl(item(BUTTON, (70, 30, 90, 90), b"OK"), item(STATIC, (-10, 20, 6, 80), b"text")), None)
    assert outer(made) == ([7, -23, 96, 126], [("rect", "box", -0.5, -0.5, 83, 113)], [14, -16, 82, 112])  # six pixels around
    assert ElementTree.fromstring(made.svg).find("g").get("transform") == "translate(14 -16)"
    assert ElementTree.fromstring(made.svg).find("svg").get("viewBox") == "14 -16 82 112"
    assert [title for title, _ in groups(made)] == ["1: button, OK", "2: static text, text"] and made.notes == []
    assert outer(drawing(ditl(), None))[2] == [-6, -6, 32, 32]
    far = drawing(ditl(item(USER, (-32768, -32768, 32767, 32767))), None)
    assert far.notes[0] == "It has 65547 by 65547 pixels; 4096 by 4096 of them are drawn."


# Bytes.

def test_what_is_read_of_a_dialog_and_an_alert():
    read = dialogs.read_dialog(dlog((1, 2, 30, 40), 5, 129, b"Title", visible=False, close_box=True))
    assert read == ((1, 2, 30, 40), 5, False, True, 129, b"Title", ())
    read = dialogs.read_alert(alrt((1, 2, 30, 40), 129, 0xF5C6))
    assert read == ((1, 2, 30, 40), 1, True, False, 129, b"", ((1, True, 2), (2, True, 0), (1, True, 1), (2, True, 3)))


@pytest.mark.parametrize("count, found, stated, fault", (
    (0, 0, 0, None), (1, 1, 1, None), (2, 2, 2, None),
    (3, 2, 2, "4 bytes are wanted and 0 are there at byte 36"), (0x7FFF, 2, 2, "4 bytes are wanted and 0 are there at byte 36"),
    (0x8000, 2, 2, "4 bytes are wanted and 0 are there at byte 36"), (0xFFFF, 2, 2, "4 bytes are wanted and 0 are there at byte 36"),
))
def test_counts_that_lie(count, found, stated, fault):
    data = ditl(item(BUTTON, (0, 0, 20, 60), b"OK"), item(BUTTON, (0, 0, 20, 60), b"No!"), count=count)
    items, number, said = dialogs.read_items(data, 9999)
    assert (len(items), number, said) == (found, stated, fault)
    assert [(each.number, each.data) for each in items] == [(1, b"OK"), (2, b"No!")][:found]


def test_no_more_items_than_asked():
    data = ditl(*[item(USER, (0, 0, 9, 9))] * 2000)
    items, number, said = dialogs.read_items(data, 9999)
    assert (len(items), number, said) == (2000, 2000, None) and items[-1].number == 2000
    items, number, said = dialogs.read_items(data, 30)
    assert (len(items), number, said) == (30, 2000, None)
    assert dialogs.read_items(data, 0) == ([], 2000, None)


def test_the_filling_of_the_last_item_may_be_missing():
    whole = ditl(item(BUTTON, (0, 0, 20, 60), b"OK!"))
    assert dialogs.read_items(whole[:-1], 9)[0] == dialogs.read_items(whole, 9)[0] and dialogs.read_items(whole[:-1], 9)[2] is None


def test_each_resource_is_cut_at_each_length():
    for read, whole in ((dialogs.read_dialog, dlog((1, 2, 3, 4), 5, 6, b"Name")), (dialogs.read_alert, alrt((1, 2, 3, 4), 5, 6)),
                        (dialogs.read_control, cntl(0, b"Name"))):
        for length in range(len(whole)):
            with pytest.raises(Damaged):
                read(whole[:length])
        assert read(whole) == read(whole + b"more")
    whole = ditl(item(STATIC, (0, 0, 16, 60), b"text"), item(CONTROL, (0, 0, 16, 60), b"\0\1"))
    counts = [len(drawing(whole[:length]).items) for length in range(len(whole))]
    assert counts == [0] * 20 + [1] * 16


def test_odd_words_give_a_drawing():
    whole = ditl(item(STATIC, (0, 0, 16, 60), b"text"), item(CONTROL, (20, 0, 36, 60), b"\0\1"), item(ICON, (40, 0, 72, 32), b"\0\1"))
    control = cntl(1008, b"Name")
    for data, other in ((whole, False), (control, True)):
        for place in range(len(data) - 1):
            for word in (b"\0\0", b"\0\1", b"\x7F\xFF", b"\x80\0", b"\xFF\xFF"):
                odd = data[:place] + word + data[place + 2:]
                made = drawing(whole if other else odd, BOX if place % 2 else None, {(b"CNTL", 1): odd if other else control})
                assert ElementTree.fromstring(made.svg).tag == "svg"


def test_any_letters_make_xml():
    letters = bytes(range(1, 256))
    made = drawing(ditl(item(STATIC, (0, 0, 199, 299), letters), item(BUTTON, (0, 0, 199, 299), letters[:120]), item(3, (0, 0, 9, 9), letters)),
                   dlog((0, 0, 200, 300), 0, 1, letters))
    first = groups(made)[0]
    assert "\u2401\u2402" in first[0] and "\u2318\u2713\u25C6\u2414" in first[0] and "<=>" in first[0] and "&" in first[0]


def test_2000_items_take_little_time():
    """The window is 200 high, and so 13 lines of an item are seen."""
    begin = os.times().user
    made = drawing(ditl(*(item(STATIC, (0, 0, 100, 100), b"a few words that are wrapped " * 8) for _ in range(2000))))
    assert len(groups(made)) == 2000 and len(made.over) == 2000 and made.svg.count("<text ") == made.lines == 20000
    assert made.notes == ["Lines of text that aren't drawn, because there are more than 20000: 6000."]
    assert os.times().user - begin < SECONDS / 2


def test_lines_of_a_button_that_are_seen():
    """Of 61 lines around the middle of a window that is 200 high, those from 30 - 6 to 30 + 6 are seen, and one is cut at each end."""
    made = drawing(ditl(item(BUTTON, (92, 20, 108, 99), b"\r".join(b"%d" % each for each in range(61)))), default=0)
    assert [part[-1] for part in only(made)[1] if part[0] == "text"] == [str(each) for each in range(24, 37)]
