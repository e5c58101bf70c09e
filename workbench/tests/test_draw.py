"""rezkit-draw: its page, its messages, its statuses, and what it never does."""
import base64
import collections
import contextlib
import html.parser
import io
import os
import re
import struct
import unittest.mock
from xml.etree import ElementTree

import pytest
from dialog_makers import alrt, cntl, ditl, dlog, forks, item, mbar, menu
from model.fork import fork_of
from model.forms import double, hqx, macbin, single
from helpers import MEMORY, SECONDS, WHOLE, mutants, names_in, read, rezkit, run, write
from rezkit_workbench import command, draw

BUTTON, STATIC, ICON, PICTURE = 4, 8, 32, 64
ITEMS = ditl(item(BUTTON, (70, 230, 90, 290), b"OK"), item(STATIC, (10, 10, 26, 60), b"Save as text", disabled=True))
FORK = fork_of([
    (b"MENU", 129, b"", 0, menu(129, b"File", (b"Open", 0, ord("O"), 0, 0), b"-", (b"Font", 0, 0x1B, 5, 0))),
    (b"MENU", 5, b"", 0, menu(5, b"Font", b"Geneva")),
    (b"MENU", 128, b"Apple", 0, menu(128, b"\x14", b"About")),
    (b"MENU", 200, b"", 0, menu(201, b"Other", b"x", flags=0xFFFFFFFE, definition=3)),
    (b"MBAR", 128, b"", 0, mbar(128, 129, 999)),
    (b"DITL", 128, b"", 0, ITEMS), (b"DITL", 129, b"", 0, ditl(item(BUTTON, (10, 10, 30, 70), b"No"))),
    (b"DLOG", 128, b"Caf\x8E", 0, dlog((40, 40, 140, 340), 1, 128)), (b"DLOG", 129, b"", 0, dlog((40, 40, 140, 340), 4, 77, b"Win", visible=False)),
    (b"ALRT", 130, b"", 0, alrt((40, 40, 140, 340), 128, 0x55CE)),
])
EMPTY = fork_of([(b"STR ", 128, b"", 0, b"\5Hello")])


class Page(html.parser.HTMLParser):
    """A page as (name, attributes) of its elements, and the texts of some of them. Each element has to be closed."""

    VOID = ("meta", "br")
    KEPT = ("title", "h1", "h2", "h3", "p", "li", "td", "a", "summary")

    def __init__(self, data):
        html.parser.HTMLParser.__init__(self)
        self.elements, self.texts, self.open = [], [], []
        self.feed(data.decode("utf-8"))
        self.close()
        assert self.open == []

    def handle_starttag(self, tag, attrs):
        self.elements.append((tag, dict(attrs)))
        if tag not in self.VOID:
            self.open.append([tag, ""])

    def handle_startendtag(self, tag, attrs):
        self.elements.append((tag, dict(attrs)))

    def handle_endtag(self, tag):
        name, text = self.open.pop()
        assert name == tag
        if tag in self.KEPT and not any(each[0] == "svg" for each in self.open):
            self.texts.append((tag, text))

    def handle_data(self, data):
        for each in self.open:
            if each[0] in self.KEPT:
                each[1] += data

    def of(self, *names):
        return [text for name, text in self.texts if name in names]


def drawn(tmp_path, data, *words, name="fork"):
    """The status, the page or None, and the messages of the program, which is run in this process."""
    page = tmp_path / "page.html"
    with contextlib.redirect_stderr(io.TextIOWrapper(io.BytesIO(), "utf-8")) as messages, unittest.mock.patch.object(command, "drop_out"):
        status = command.ended("rezkit-draw", draw.body, [write(tmp_path, name, data), "-o", str(page), *words])
    return status, read(str(page)) if page.exists() else None, messages.buffer.getvalue().decode("utf-8")


def drawings(data):
    """The drawings of a page, by their names."""
    found = re.findall(r'<figure>(<svg class="drawing".*?)</figure>', data.decode("utf-8"), re.S)
    trees = [ElementTree.fromstring(each) for each in found]
    return [(tree.get("aria-label"), tree) for tree in trees]


def test_the_page(tmp_path):
    status, data, messages = drawn(tmp_path, FORK)
    assert (status, messages) == (0, "rezkit-draw: drawings: 9, texts that may not fit: 2\n")
    page = Page(data)
    assert page.of("title") == ["Dialogs and menus of %s/fork" % tmp_path] and page.of("h1") == ["Dialogs and menus"]
    assert page.of("h2") == ["%s/fork" % tmp_path]
    headings = ["DLOG 128, \u201cCaf\u00e9\u201d", "DLOG 129", "ALRT 130", "DITL 129", "MBAR 128", "MENU 128, \u201cApple\u201d", "MENU 129", "MENU 5", "MENU 200"]
    assert page.of("h3") == headings and [name for name, _ in drawings(data)] == headings
    assert page.of("p")[1:] == ["A modal dialog box of 300 by 100 pixels, with the items of DITL 128.", "What may not fit:",
                                "A document window without a size box of 300 by 100 pixels, with the items of DITL 77. It is hidden until the program shows it.",
                                "An alert of 300 by 100 pixels, with the items of DITL 128.", "What may not fit:", "Items without a DLOG or an ALRT."]
    over = "Item 2, static text \u201cSave as text\u201d: 2 lines, with room for 1."
    assert page.of("li") == [over, "DITL 77 isn't in the file, so no items are drawn.",
                             "Stage 1: shown, default item 2, beeps: 2.", "Stage 2: shown, default item 2, beeps: 0.",
                             "Stages 3 to 4: shown, default item 1, beeps: 1.", over,
                             "MENU 999 isn't among the menus that are drawn.", "Submenu of MENU 129.", "Its id in the resource is 201.", "It is disabled.",
                             "Its items are drawn by the program (MDEF 3)."]
    assert page.of("summary") == ["Items: 2", "Items: 2", "Items: 1", "Items: 1", "Items: 3", "Items: 1", "Items: 1"]
    assert page.of("td")[:10] == ["1", "button", "OK", "70, 230, 90, 290", "", "2", "static text", "Save as text", "10, 10, 26, 60", "disabled"]


def test_the_drawings_of_the_page(tmp_path):
    _, data, _ = drawn(tmp_path, FORK)
    by_name = dict(drawings(data))
    dialog, alert, alone = by_name["DLOG 128, \u201cCaf\u00e9\u201d"], by_name["ALRT 130"], by_name["DITL 129"]
    for tree, inside in ((dialog, ["0", "0", "300", "100"]), (alert, ["0", "0", "300", "100"]), (alone, ["4", "4", "72", "32"])):
        assert tree.find("svg").get("viewBox").split() == inside
    assert [each.get("y") for each in dialog.iter("text")] == ["84", "22", "38"]
    assert [each.text for each in dialog.iter("text")] == [each.text for each in alert.iter("text")] == ["OK", "Save as", "text"]
    assert [each.text for each in dialog.iter("title")] == ["1: button, OK", "2: static text, Save as text, disabled"]
    rings = [len([each for each in tree.find("svg").iter("rect") if each.get("stroke-width") == "3"]) for tree in (dialog, alert, alone)]
    assert rings == [1, 0, 1]  # the default of the alert's first stage is item 2, which is no button
    assert [each.text for each in by_name["MENU 129"].iter("text")] == ["File", "Open", "\u2318O", "Font"]
    assert [each.text for each in by_name["MBAR 128"].iter("text")] == ["File"]


def pixels(address):
    """The rows of a picture's pixels: `#` is black, `.` is white or nothing."""
    front = "data:image/png;base64,"
    assert address.startswith(front)
    picture = pytest.importorskip("PIL.Image").open(io.BytesIO(base64.b64decode(address[len(front):]))).convert("RGBA")
    return ["".join("#" if picture.getpixel((x, y)) == (0, 0, 0, 255) else "." for x in range(picture.width)) for y in range(picture.height)]


def test_an_icon_and_a_picture_are_in_the_page(tmp_path):
    """The icon has a black pixel more in each row; the picture is a black square in a frame of 4 by 4."""
    icon = b"".join(struct.pack(">I", (0xFFFFFFFF << (31 - y)) & 0xFFFFFFFF) for y in range(32))
    picture = bytes(2) + struct.pack(">4h", 0, 0, 4, 4) + b"\x11\x01" + b"\x31" + struct.pack(">4h", 1, 1, 3, 3) + b"\xFF"
    items = ditl(item(ICON, (10, 10, 42, 42), b"\0\x80"), item(PICTURE, (10, 60, 30, 90), b"\0\x81"))
    _, data, messages = drawn(tmp_path, fork_of([(b"DITL", 1, b"", 0, items), (b"ICON", 128, b"", 0, icon), (b"PICT", 129, b"", 0, picture)]))
    first, second = [each.attrib for each in drawings(data)[0][1].iter("image")]
    assert pixels(first["href"]) == ["#" * (y + 1) + "." * (31 - y) for y in range(32)]
    assert pixels(second["href"]) == ["....", ".##.", ".##.", "...."]
    assert [second[name] for name in ("x", "y", "width", "height")] == ["60", "10", "30", "20"]
    assert messages == "rezkit-draw: drawings: 1, texts that may not fit: 0\n"


def test_the_page_stands_alone(tmp_path):
    """No script, no address outside, each heading a step below, quoted addresses, names for the drawings."""
    _, data, _ = drawn(tmp_path, FORK)
    page = Page(data)
    names = [name for name, _ in page.elements]
    assert ("html", {"lang": "en"}) in page.elements and "script" not in names and "link" not in names and "img" not in names
    assert ("meta", {"charset": "utf-8"}) in page.elements and names.count("h1") == 1
    assert all("href" not in attributes and "src" not in attributes for _, attributes in page.elements)
    assert not re.search(rb"https?:|//|@import|url\((?!#)", data)
    assert not re.search(rb"<[a-z][^>]*=(?!\")", re.sub(rb"\"[^\"]*\"", b'""', data))
    assert re.search(rb"@media \(prefers-color-scheme:dark\)", data) and b".drawing{background:#fff;max-width:100%" in data
    levels = [int(name[1]) for name in names if re.fullmatch("h[1-6]", name)]
    assert levels == [1, 2] + [3] * 9
    shown = [attributes for name, attributes in page.elements if attributes.get("class") == "drawing"]
    assert len(shown) == 9 and all(each["role"] == "img" and each["aria-label"] for each in shown)
    assert len([name for name, attributes in page.elements if attributes.get("id") == "over-hatching"]) == 1


@pytest.mark.parametrize("make", (double, single, macbin, hqx))
def test_each_form(tmp_path, make):
    status, data, messages = drawn(tmp_path, make(WHOLE.but(res=FORK)))
    assert (status, messages) == (0, "rezkit-draw: drawings: 9, texts that may not fit: 2\n")
    assert data == drawn(tmp_path, FORK, "-f")[1]


def test_a_file_without_any(tmp_path):
    status, data, messages = drawn(tmp_path, EMPTY)
    assert (status, messages) == (0, "rezkit-draw: drawings: 0, texts that may not fit: 0\n")
    assert Page(data).of("p")[1:] == ["The file has no dialogs, alerts or menus."] and drawings(data) == []


def test_several_files_and_refused_ones(tmp_path):
    write(tmp_path, "broken", FORK[:-1])
    write(tmp_path, "good", FORK)
    write(tmp_path, "other", EMPTY)
    status, output, messages = run("rezkit-draw", "good", "broken", "nofile", ".", "other", "-o", "page.html", folder=str(tmp_path))
    lines = messages.splitlines()
    assert status == 1 and output == b"" and len(lines) == 4
    assert lines[0].startswith("rezkit-draw: broken: 4") and lines[1] == "rezkit-draw: nofile: can't be read: No such file or directory"
    assert lines[2] == "rezkit-draw: .: is a folder" and lines[3] == "rezkit-draw: drawings: 9, texts that may not fit: 2"
    page = Page(read(str(tmp_path / "page.html")))
    assert page.of("h2") == ["good", "broken", "nofile", ".", "other"] and page.of("title") == ["Dialogs and menus of 5 files"]
    assert page.of("a") == page.of("h2")
    assert [attributes["href"] for name, attributes in page.elements if name == "a"] == ["#file-%d" % number for number in range(1, 6)]
    assert [attributes["id"] for name, attributes in page.elements if attributes.get("id", "").startswith("file-")] == ["file-%d" % number for number in range(1, 6)]
    assert page.of("p")[-4:-1] == ["It isn't drawn: %s." % line[len("rezkit-draw: "):] for line in lines[:3]]


def test_names_of_files_and_texts_are_escaped(tmp_path):
    bad = b"<script>alert(1)</script>\"'&"
    data = fork_of([(b"DLOG", 1, bad, 0, dlog((0, 0, 99, 300), 0, 1, bad)), (b"DITL", 1, b"\x1B\0", 0, ditl(item(STATIC, (0, 0, 16, 20), bad))),
                    (b"MENU", 1, bad, 0, menu(1, bad, bad))])
    names = [b"<script>'\"&", b"a b", b"caf\xE9", b"new\nline", b"-o", b"--"]
    for name in names:
        write(tmp_path, name, data)
    status, _, messages = run("rezkit-draw", "-o", "page.html", "--", *names, folder=str(tmp_path))
    assert (status, messages) == (0, "rezkit-draw: drawings: 12, texts that may not fit: 6\n")
    page = Page(read(str(tmp_path / "page.html")))
    assert "script" not in [name for name, _ in page.elements]
    assert page.of("h2") == ["<script>'\"&", "a b", "caf\\xe9", "new\\x0aline", "-o", "--"]
    assert page.of("h3")[0] == "DLOG 1, \u201c<script>alert(1)</script>\"'&\u201d"
    assert page.of("td")[2] == bad.decode()


def test_standard_input_and_output(tmp_path):
    status, output, messages = run("rezkit-draw", "-", "-o", "-", given=FORK)
    assert (status, messages) == (0, "rezkit-draw: drawings: 9, texts that may not fit: 2\n")
    assert Page(output).of("h2") == ["standard input"]
    assert output.replace(b"standard input", ("%s/fork" % tmp_path).encode()) == drawn(tmp_path, FORK)[1]
    with open("/dev/full", "wb") as full:
        status, _, messages = run("rezkit-draw", "-", "-o", "-", given=FORK, to=full)
    assert status == 1 and messages == "rezkit-draw: standard output: can't be written: No space left on device\n"


def test_nothing_is_overwritten_without_f(tmp_path):
    target = write(tmp_path, "target", b"mine")
    os.symlink("target", str(tmp_path / "page.html"))
    status, _, messages = drawn(tmp_path, FORK)
    assert (status, messages) == (1, "rezkit-draw: %s/page.html: is there already (-f replaces a file)\n" % tmp_path)
    status, data, _ = drawn(tmp_path, FORK, "-f")
    assert status == 0 and len(drawings(data)) == 9 and not os.path.islink(str(tmp_path / "page.html")) and read(target) == b"mine"
    status, _, messages = run("rezkit-draw", str(tmp_path / "fork"), "-o", str(tmp_path), "-f")
    assert (status, messages) == (1, "rezkit-draw: %s: is a folder\n" % tmp_path)
    assert names_in(tmp_path) == ["fork", "page.html", "target"]


def test_a_full_disk_leaves_nothing(tmp_path):
    fork = write(tmp_path, "fork", FORK)
    status, _, messages = run("rezkit-draw", fork, "-o", str(tmp_path / "page.html"), largest=8192)
    assert status == 1 and messages == "rezkit-draw: %s/page.html: can't be written: File too large\n" % tmp_path
    assert names_in(tmp_path) == ["fork"]


def test_wrong_arguments(tmp_path):
    for words in ([], ["a"], ["-o", "x"], ["a", "-o"], ["a", "-o", "x", "-z"]):
        status, output, messages = run("rezkit-draw", *words, folder=str(tmp_path))
        assert (status, output) == (2, b"") and messages
    assert run("rezkit-draw", "--version")[:2] == (0, rezkit("--version"))
    for word in ("-h", "--help"):
        status, output, messages = run("rezkit-draw", word)
        assert status == 0 and b"-o PAGE.html" in output and messages == ""


def test_damaged_resources_are_told(tmp_path):
    data = fork_of([(b"DLOG", 1, b"", 0, dlog((0, 0, 99, 300), 2, 1)[:15]), (b"DLOG", 2, b"", 0, dlog((0, 0, 99, 300), 2, 1)),
                    (b"DITL", 1, b"", 0, ditl(item(BUTTON, (0, 0, 20, 60), b"OK"), count=9)), (b"ALRT", 1, b"", 0, b""),
                    (b"MENU", 1, b"", 0, menu(1, b"File", b"x")[:-1]), (b"MENU", 2, b"", 0, b"\0\1"), (b"MBAR", 1, b"", 0, b"\0\2\0\1"), (b"MBAR", 2, b"", 0, b"")])
    status, page, messages = drawn(tmp_path, data)
    fork = "%s/fork" % tmp_path
    told = ["DLOG 1: 4 bytes are wanted and 1 are there at byte 14", "DITL 1: 4 bytes are wanted and 0 are there at byte 18",
            "ALRT 1: 2 bytes are wanted and 0 are there at byte 0", "MENU 2: 4 bytes are wanted and 0 are there at byte 2",
            "MBAR 1: 2 bytes are wanted and 0 are there at byte 4", "MBAR 2: 2 bytes are wanted and 0 are there at byte 0",
            "MENU 1: 1 bytes are wanted and 0 are there at byte 25"]
    assert messages.splitlines() == ["rezkit-draw: %s: %s" % (fork, each) for each in told] + ["rezkit-draw: drawings: 4, texts that may not fit: 0"]
    assert status == 0
    page = Page(page)
    assert page.of("h3") == ["DLOG 1", "DLOG 2", "ALRT 1", "MENU 2", "MBAR 1", "MBAR 2", "MENU 1"]
    assert "It is damaged, and isn't drawn: 4 bytes are wanted and 1 are there at byte 14." in page.of("p")
    assert "DITL 1 is damaged after item 1: 4 bytes are wanted and 0 are there at byte 18." in page.of("li")
    assert "It is damaged after item 1: 1 bytes are wanted and 0 are there at byte 25." in page.of("li")


def test_a_resource_that_is_there_twice_counts_once(tmp_path):
    data = fork_of([(b"DITL", 1, b"", 0, ditl(item(BUTTON, (0, 0, 20, 60), b"One"))), (b"CNTL", 1, b"", 0, cntl(0, b"x")),
                    (b"DLOG", 1, b"", 0, dlog((0, 0, 99, 300), 2, 1)), (b"DLOG", 2, b"", 0, dlog((0, 0, 99, 300), 2, 1))])
    status, page, _ = drawn(tmp_path, data)
    assert status == 0 and Page(page).of("h3") == ["DLOG 1", "DLOG 2"]


# Limits.

def test_the_items_of_a_page_are_limited(tmp_path):
    items = ditl(*[item(STATIC, (0, 0, 16, 60), b"text")] * 5000)
    data = fork_of([(b"DITL", 1, b"", 0, items)] + [(b"DLOG", each, b"", 0, dlog((0, 0, 99, 300), 2, 1)) for each in range(8)])
    status, page, messages = drawn(tmp_path, data)
    assert status == 0 and messages == ("rezkit-draw: %s/fork: the page has enough drawings: 5 more resources aren't drawn\n"
                                        "rezkit-draw: drawings: 3, texts that may not fit: 0\n" % tmp_path)
    page = Page(page)  # 10000 less 4096 and 2, less 4096 and 2, is 1804
    assert page.of("li") == ["DITL 1 has 5000 items; %d of them are drawn." % most for most in (4096, 4096, 1804)]
    assert page.of("p")[-1] == "The page has enough drawings of this file: 5 more resources aren't drawn."


def test_many_resources_take_little_time_and_memory(tmp_path):
    lines = ditl(*[item(STATIC, (0, 0, 4000, 60), b"a\r" * 127)] * 4000)
    words = ditl(*[item(STATIC, (0, 0, 16, 60), b"words that are wrapped " * 10)] * 1000)
    controls = ditl(*[item(7, (0, 0, 16, 60), b"\0\1")] * 1000)
    data = fork_of([(b"DITL", ident, b"", 0, items) for ident, items in enumerate((words, controls, lines))]
                   + [(b"CNTL", 1, b"", 0, cntl(1008, b"x" * 255, maximum=32767))]
                   + [(b"DLOG", each, b"", 0, dlog((0, 0, 4000, 300), 2, min(each, 2))) for each in range(500)]
                   + [(b"MBAR", each, b"", 0, mbar(*[each] * 2000)) for each in range(50)]
                   + [(b"MENU", each, b"", 0, menu(each, b"M", *[(b"x", 0, 0x1B, each % 256, 0)] * 10)) for each in range(200)])
    path = write(tmp_path, "fork", data)
    status, _, messages = run("rezkit-draw", path, "-o", str(tmp_path / "page.html"), memory=MEMORY, cpu=SECONDS)
    assert status == 0 and "more resources aren't drawn" in messages
    page = read(str(tmp_path / "page.html"))
    assert b"<h3>DLOG 0</h3>" in page and page.count(b"<text ") < 60000


def test_many_references_to_the_same_bytes(tmp_path):
    """5,000 windows that have the same bytes, and whose items are followed by 8 MB."""
    data = bytearray(fork_of([(b"DLOG", 0, b"", 0, dlog((0, 0, 99, 300), 2, 1))] + [(b"DLOG", each, b"", 0, b"") for each in range(1, 5000)]
                             + [(b"DITL", 1, b"", 0, ditl(item(BUTTON, (0, 0, 20, 60), b"OK")) + bytes(8 << 20))]))
    first = int.from_bytes(data[4:8], "big") + 28 + 2 + 2 * 8  # the map, its head, and a list of two types
    for place in range(first, first + 12 * 5000, 12):
        data[place + 5:place + 8] = bytes(3)
    path = write(tmp_path, "fork", bytes(data))
    status, _, messages = run("rezkit-draw", path, "-o", str(tmp_path / "page.html"), memory=MEMORY, cpu=SECONDS)
    assert status == 0 and messages.endswith("rezkit-draw: drawings: 3334, texts that may not fit: 0\n")  # 10000 by 3


def test_60_mutated_files_in_this_process(tmp_path, capsysbinary):
    ended = []
    for data in mutants(12, 60):
        ended.append(draw.body([write(tmp_path, "f", data), "-o", str(tmp_path / "page.html"), "-f"]))
    assert ended.count(0) > 8 and ended.count(1) > 30 and names_in(tmp_path) == ["f", "page.html"]


def test_60_whole_forks_with_mutated_resources(tmp_path, capsysbinary):
    drawings_of = collections.Counter()
    for data in forks(13, 60):
        assert draw.body([write(tmp_path, "f", data), "-o", str(tmp_path / "page.html"), "-f"]) == 0
        drawings_of.update(name.split()[0] for name, _ in drawings(read(str(tmp_path / "page.html"))))
    assert names_in(tmp_path) == ["f", "page.html"]
    assert all(drawings_of[kind] > 40 for kind in ("DLOG", "ALRT", "MENU", "MBAR")), drawings_of
