"""rezkit-look: the files of an album, its page, what is told of what isn't shown, and its statuses."""
import os
import pty
import signal
import struct
import subprocess
import sys
import tracemalloc
import wave

import pytest
from model.fork import fork_of
from model.forms import double, hqx, macbin, single
from helpers import MEMORY, WHOLE, WORKBENCH, names_in, read, rezkit, run, write
from pages import Page

Image = pytest.importorskip("PIL.Image")

from rezkit_workbench import album, facts, look, writing  # noqa: E402
from rezkit_workbench.palettes import STANDARD  # noqa: E402
from rezkit_workbench.reading import Shown  # noqa: E402

# An icon with a black frame of one pixel, in a mask that leaves out its lowest row.
FULL, SIDES = b"\xFF" * 4, b"\x80\0\0\1"
ICON = FULL + SIDES * 30 + FULL + FULL * 31 + bytes(4)
BLACK, WHITE, CLEAR = (0, 0, 0, 255), (255, 255, 255, 255), 0
TYPES = (b"ICON", b"ICN#", b"icl4", b"icl8", b"ics#", b"ics4", b"ics8", b"icm#", b"icm4", b"icm8", b"SICN", b"CURS", b"crsr", b"cicn",
         b"PAT ", b"PAT#", b"ppat", b"ppt#", b"PICT", b"snd ", b"TEXT")


def picture(width, height, last=b"\xFF"):
    """A PICT of version 1 that paints its left half black."""
    bounds = struct.pack(">4h", 0, 0, height, width)
    return b"\0\0" + bounds + b"\x11\1" + b"\x31" + struct.pack(">4h", 0, 0, height, width // 2) + last


def beep(samples, encoding=0):
    """A sound of format 1 with samples of 8 bits, 22,050 a second."""
    return (b"\0\1\0\1\0\5\0\0\0\xA0" + b"\0\1\x80\x51\0\0\0\0\0\x14"
            + struct.pack(">LLLLLBB", 0, len(samples), 22050 << 16, 0, 0, encoding, 60) + samples)


RESOURCES = [
    (b"ICN#", 128, b"App", 0, ICON), (b"ICN#", -16455, b"", 0, ICON), (b"ICN#", 129, b"Cut", 0, ICON[:-1]),
    (b"PICT", 200, b"Half", 0, picture(300, 2)), (b"PICT", 201, b"", 0, picture(32767, 32767)),
    (b"snd ", 1, b"Beep", 0, beep(b"\x80\xFF\x80\0")), (b"snd ", 2, b"", 0, b"\0\2\0\0\0\0"),
    (b"TEXT", 1, b"Read me", 0, b"Caf\x8E <b> & more"),
    (b"styl", 1, b"", 0, b"\0\0"), (b"styl", 3, b"", 0, b"\0\0"),
    (b"CODE", 0, b"", 0, b"\1"), (b"CODE", 1, b"", 0, b"\1"), (b"STR ", 128, b"", 0, b"\5Hello")]
FORK = fork_of(RESOURCES)
NAMES = ["1-ICNx23--16455.png", "1-ICNx23-128.png", "1-PICT-200.png", "1-TEXT-1.html", "1-sndx20-1.wav", "index.html"]
LEFT = [["'CODE'", "2", "no decoder"], ["'ICN#'", "1", "damaged"], ["'PICT'", "1", "too large"], ["'STR '", "1", "no decoder"],
        ["'snd '", "1", "has no samples: its commands are beeps, notes or wave tables"],
        ["'styl'", "1", "has no TEXT of the same id"], ["'styl'", "1", "is shown in the TEXT of the same id"]]


def looked(tmp_path, *files, out="album", **more):
    """An album of files that are there: the status, the messages, and the page or None."""
    status, output, messages = run("rezkit-look", *files, "-o", out, folder=str(tmp_path), **more)
    assert output == b""
    folder = os.path.join(str(tmp_path), out)
    page = Page(read(os.path.join(folder, "index.html")).decode("utf-8"), names_in(folder)) if os.path.exists(folder) else None
    assert page is None or page.faults == []
    return status, messages, page


def left_of(page):
    """The rows of the table of what isn't shown."""
    texts = page.texts[page.texts.index("Reason") + 1:]
    return [texts[place:place + 3] for place in range(0, len(texts), 3)]


def test_an_album_of_one_file(tmp_path):
    write(tmp_path, "App.bin", macbin(WHOLE.but(res=FORK)))
    status, messages, page = looked(tmp_path, "App.bin")
    assert (status, messages) == (0, "rezkit-look: resources shown: 5 of 13, damaged: 1\n")
    assert names_in(tmp_path) == ["App.bin", "album"] and names_in(tmp_path / "album") == NAMES
    assert page.all("html") == [{"lang": "en"}]
    assert page.texts[0] == page.texts[2] == "Album of App.bin" and "Resources shown: 5 of 13. " in page.texts
    assert "MacBinary 'APPL' 'CAF '" in page.texts
    assert [each["src"] for each in page.all("img") + page.all("audio")] == [
        "1-ICNx23-128.png", "1-ICNx23--16455.png", "1-PICT-200.png", "1-sndx20-1.wav"]
    assert [each["alt"] for each in page.all("img")] == ["'ICN#' 128 \"App\"", "'ICN#' -16455", "'PICT' 200 \"Half\""]
    assert [(each.get("class"), each["width"], each["height"]) for each in page.all("img")] == [
        ("small checked", "96", "96"), ("small checked", "96", "96"), (None, "300", "2")]
    assert page.all("audio")[0]["aria-label"] == "'snd ' 1 \"Beep\""
    assert "Not shown: 'ICN#' 129 \"Cut\": 128 bytes are wanted and 127 are there at byte 128" in page.texts
    assert "Not shown: 'PICT' 201: 32767 by 32767 pixels are more than the 16777216 that are decoded" in page.texts
    assert "Not shown: 'snd ' 2: has no samples: its commands are beeps, notes or wave tables" in page.texts
    assert left_of(page) == LEFT


def test_what_the_files_of_an_album_have(tmp_path):
    write(tmp_path, "fork", FORK)
    looked(tmp_path, "fork")
    with Image.open(str(tmp_path / "album" / "1-ICNx23-128.png")) as icon:
        pixels = icon.convert("RGBA")
        assert pixels.size == (32, 32)
        assert [pixels.getpixel((x, 0)) for x in (0, 1, 31)] == [BLACK] * 3
        assert [pixels.getpixel((x, 1)) for x in (0, 1, 30, 31)] == [BLACK, WHITE, WHITE, BLACK]
        assert [pixels.getpixel((x, 31))[3] for x in (0, 16, 31)] == [CLEAR] * 3
    with Image.open(str(tmp_path / "album" / "1-PICT-200.png")) as half:
        pixels = half.convert("RGBA")
        assert pixels.size == (300, 2) and [pixels.getpixel((x, 1)) for x in (0, 149, 150, 299)] == [BLACK, BLACK, WHITE, WHITE]
    with wave.open(str(tmp_path / "album" / "1-sndx20-1.wav")) as sound:
        assert sound.getparams()[:4] == (1, 1, 22050, 4) and sound.readframes(4) == b"\x80\xFF\x80\0"
    text = read(str(tmp_path / "album" / "1-TEXT-1.html")).decode("utf-8")
    found = Page(text.replace("<body>", "<body><main>").replace("</body>", "</main></body>"))
    assert found.faults == [] and "Caf\u00e9 <b> & more" in "".join(found.texts) and "'TEXT' 1 \"Read me\"" in found.texts


@pytest.mark.parametrize("side, kind", ((32, "icl8"), (16, "ics8")))
def test_the_pixels_of_a_picture_come_back_by_a_source_a_fork_and_an_album(tmp_path, side, kind):
    pixels = [STANDARD[8][(7 * number + 3) % 256] + (0 if number % 5 == 4 else 255,) for number in range(side * side)]
    with Image.new("RGBA", (side, side)) as picture:
        picture.putdata(pixels)
        picture.save(str(tmp_path / "icon.png"))
    assert run("rezkit-icons", "icon.png", "128", "-o", "icons.r", folder=str(tmp_path))[0] == 0
    rezkit("rez", "icons.r", "-o", "icons", folder=str(tmp_path))
    looked(tmp_path, "icons")
    with Image.open(str(tmp_path / "album" / ("1-%s-128.png" % kind))) as icon:
        back = list(icon.convert("RGBA").getdata())
    assert [pixel if pixel[3] else CLEAR for pixel in back] == [pixel if pixel[3] else CLEAR for pixel in pixels]


def test_the_contents_lead_to_each_file_and_type(tmp_path):
    write(tmp_path, "one", FORK)
    write(tmp_path, "two", fork_of(RESOURCES[5:6] + RESOURCES[10:]))
    write(tmp_path, "three", fork_of(RESOURCES[10:]))
    write(tmp_path, "four", fork_of([]))
    status, messages, page = looked(tmp_path, "one", "two", "three", "four")
    assert (status, messages) == (0, "rezkit-look: resources shown: 6 of 20, damaged: 1\n")
    assert page.texts[0] == "Album of 4 files"
    contents = page.texts[page.texts.index("Contents") + 1:page.texts.index("resource fork") - 1]
    assert contents == [
        "one", ": 5 of 13 resources shown\n", "'ICN#'", " 2 of 3", "'PICT'", " 1 of 2", "'snd '", " 1 of 2", "'TEXT'", " 1",
        "two", ": 1 of 4 resources shown\n", "'snd '", " 1", "three", ": 0 of 3 resources shown", "four", ": 0 of 0 resources shown"]
    assert page.inside[1:] == ["file-1", "1-ICNx23", "1-PICT", "1-sndx20", "1-TEXT", "file-2", "2-sndx20", "file-3", "file-4"]
    assert page.texts.count("None of its resources is shown.") == 1 and page.texts.count("It has no resources.") == 1


def test_an_album_of_nothing_says_so(tmp_path):
    write(tmp_path, "fork", fork_of(RESOURCES[10:]))
    status, messages, page = looked(tmp_path, "fork")
    assert (status, messages) == (0, "rezkit-look: resources shown: 0 of 3\n") and names_in(tmp_path / "album") == ["index.html"]
    assert "Resources shown: 0 of 3. " in page.texts and "None of its resources is shown." in page.texts
    assert left_of(page) == [["'CODE'", "2", "no decoder"], ["'STR '", "1", "no decoder"]]


@pytest.mark.parametrize("make", (double, single, macbin, hqx))
def test_each_form(tmp_path, make):
    write(tmp_path, "._file", make(WHOLE.but(res=FORK)))
    assert looked(tmp_path, "._file")[0] == 0 and names_in(tmp_path / "album") == NAMES


def test_files_that_are_not_read_are_told_and_the_others_shown(tmp_path):
    write(tmp_path, "cut", FORK[:-1])
    write(tmp_path, "text", b"Read me first.\n")
    write(tmp_path, "fork", FORK)
    os.mkdir(str(tmp_path / "folder"))
    status, messages, page = looked(tmp_path, "cut", "nofile", "fork", "folder", "text")
    assert status == 1 and messages.splitlines() == [
        "rezkit-look: cut: 403 MapOutside offset 4 value %d" % struct.unpack(">I", FORK[12:16]),
        "rezkit-look: nofile: can't be read: No such file or directory",
        "rezkit-look: folder: is a folder",
        "rezkit-look: text: 441 NoStart: 0",
        "rezkit-look: resources shown: 5 of 13, damaged: 1"]
    assert names_in(tmp_path / "album") == [name.replace("1-", "3-", 1) if name != "index.html" else name for name in NAMES]
    assert "Resources shown: 5 of 13. Files that weren't read: 4 of 5. " in page.texts
    assert [text for text in page.texts if text.startswith("Not read: ")] == [
        "Not read: 403 MapOutside offset 4 value %d" % struct.unpack(">I", FORK[12:16]), "Not read: can't be read: No such file or directory",
        "Not read: is a folder", "Not read: 441 NoStart: 0"]
    assert page.texts.count("not read") == 4


def test_odd_names_of_files_and_standard_input(tmp_path):
    names = (b"-f", b"a b", b"it's", b'"q"', b"caf\xE9", b"new\nline", b"<script>", b"--", b"\xE2\x80\xAEtxt")
    for name in names:
        write(tmp_path, name, FORK)
    status, messages, page = looked_after_marks(tmp_path, names)
    assert status == 0 and messages == "rezkit-look: resources shown: 45 of 117, damaged: 9\n"
    headings = [text for text in page.texts if text in ("-f", "a b", "it's", '"q"', "caf\\xe9", "new\\x0aline", "<script>", "--", "\\u202etxt")]
    assert len(headings) == 18  # in the contents and above its resources
    status, output, messages = run("rezkit-look", "-", "-o", "in", folder=str(tmp_path), given=FORK)
    assert (status, output) == (0, b"") and names_in(tmp_path / "in") == NAMES
    assert "Album of standard input" in read(str(tmp_path / "in" / "index.html")).decode()


def looked_after_marks(tmp_path, names):
    """An album of files after `--`, in a folder whose name begins with a hyphen."""
    status, output, messages = run("rezkit-look", "-o", "./-album", "--", *names, folder=str(tmp_path))
    page = Page(read(str(tmp_path / "-album" / "index.html")).decode("utf-8"), names_in(tmp_path / "-album"))
    assert output == b"" and page.faults == []
    return status, messages, page


def test_hostile_names_and_texts_of_resources(tmp_path):
    odd = [b"<script>alert(1)</script>", b'" onerror="x', b"' onerror='x", b"&lt;&#60;", b"\0\1\r\n\t\x1B[31m\x7F", b"\xCA\xF0", b"--><!--", b"x" * 255]
    write(tmp_path, "fork", fork_of(
        [(b"ICN#", number, name, 0, ICON) for number, name in enumerate(odd)] + [(b"snd ", number, name, 0, beep(b"x")) for number, name in enumerate(odd)]
        + [(b"TEXT", number, name, 0, name) for number, name in enumerate(odd)] + [(b"ICON", number, name, 0, b"cut") for number, name in enumerate(odd)]
        + [(b"<b>\"", 1, b"", 0, b""), (b"\0\1'&", 1, b"", 0, b"")]))
    status, messages, page = looked(tmp_path, "fork")
    assert (status, messages) == (0, "rezkit-look: resources shown: 24 of 34, damaged: 8\n")
    assert [each["alt"] for each in page.all("img")] == ["'ICN#' %d %s" % (number, told) for number, told in enumerate((
        '"<script>alert(1)</script>"', '"\\" onerror=\\"x"', "\"' onerror='x\"", '"&lt;&#60;"', '"\\x00\\x01\\x0d\\x0a\\x09\\x1b[31m\\x7f"',
        '"\u00a0\uf8ff"', '"--><!--"', '"%s"' % ("x" * 255)))]
    assert [row[0] for row in left_of(page)] == ["'\\x00\\x01\\'&'", "'<b>\"'", "'ICON'"]


def test_a_long_text_has_a_page_of_its_own(tmp_path):
    write(tmp_path, "fork", fork_of([(b"TEXT", 1, b"", 0, b"word " * 20000), (b"TEXT", 2, b"", 0, b"short")]))
    status, _, page = looked(tmp_path, "fork")
    assert status == 0 and "on a page of its own" in page.texts and len(read(str(tmp_path / "album" / "index.html"))) < 20000
    assert read(str(tmp_path / "album" / "1-TEXT-1.html")).count(b"word ") == 20000


def test_pictures_are_enlarged_and_long_lists_scroll(tmp_path):
    """Small pictures up to 4 times, 96 pixels high and, but for lists, 480 wide."""
    write(tmp_path, "fork", fork_of([
        (b"PAT ", 1, b"", 0, bytes(8)), (b"ICON", 1, b"", 0, bytes(128)), (b"SICN", 1, b"", 0, bytes(32)), (b"SICN", 2, b"", 0, bytes(32 * 200)),
        (b"PICT", 1, b"", 0, picture(100, 10)), (b"PICT", 2, b"", 0, picture(160, 10)), (b"PICT", 3, b"", 0, picture(481, 10)),
        (b"PICT", 4, b"", 0, picture(10, 49))]))
    _, _, page = looked(tmp_path, "fork")
    assert [(each["width"], each["height"]) for each in page.all("img")] == [
        ("32", "32"), ("96", "96"), ("64", "64"), ("12800", "64"), ("400", "40"), ("480", "30"), ("481", "10"), ("10", "49")]
    assert [each["aria-label"] for each in page.all("div") if each.get("class") == "scroll"] == ["'SICN' 2"]


def test_names_of_files_differ_without_regard_to_case():
    assert sorted(look.DECODERS) == sorted(TYPES + look.PARTS)
    words = [album.type_word(kind) for kind in TYPES]
    assert words[:2] == ["ICON", "ICNx23"] and words[14:16] == ["PATx20", "PATx23"] and album.type_word(b"\0\xC4a-") == "x00xC4ax2D"
    assert len({word.lower() for word in words}) == len(words) and all(word.isascii() and word.isalnum() for word in words)
    assert set(album.WORDS) == set(TYPES)


# Writing.

def test_nothing_is_overwritten_without_f(tmp_path):
    write(tmp_path, "fork", FORK)
    target = write(tmp_path, "target", b"mine")
    os.mkdir(str(tmp_path / "album"))
    os.symlink("../target", str(tmp_path / "album" / "1-PICT-200.png"))
    write(tmp_path / "album", "note", b"mine too")
    words = ("fork", "-o", "album")
    status, _, messages = run("rezkit-look", *words, folder=str(tmp_path))
    assert (status, messages) == (1, "rezkit-look: album: is there already (-f writes into a folder)\n")
    assert names_in(tmp_path / "album") == ["1-PICT-200.png", "note"] and names_in(tmp_path) == ["album", "fork", "target"]
    assert run("rezkit-look", *words, "-f", folder=str(tmp_path))[0] == 0
    assert names_in(tmp_path / "album") == sorted(NAMES + ["note"]) and read(target) == b"mine"
    assert read(str(tmp_path / "album" / "note")) == b"mine too" and not os.path.islink(str(tmp_path / "album" / "1-PICT-200.png"))
    assert run("rezkit-look", *words, "-f", folder=str(tmp_path))[0] == 0
    status, _, messages = run("rezkit-look", "fork", "-o", "target", "-f", folder=str(tmp_path))
    assert (status, messages) == (1, "rezkit-look: target: is there already (-f writes into a folder)\n") and read(target) == b"mine"
    os.symlink("nowhere", str(tmp_path / "link"))
    assert run("rezkit-look", "fork", "-o", "link", folder=str(tmp_path))[0] == 1 and os.path.islink(str(tmp_path / "link"))
    assert names_in(tmp_path) == ["album", "fork", "link", "target"]


def test_a_full_disk_leaves_nothing(tmp_path):
    for largest, count, name in ((20, 1, "1-ICNx23-0.png"), (2000, 1, "index.html"), (9000, 100, "index.html")):
        write(tmp_path, "fork", fork_of([(b"ICN#", number, b"", 0, ICON) for number in range(count)]))
        status, output, messages = run("rezkit-look", "fork", "-o", "album", folder=str(tmp_path), largest=largest)
        assert (status, output, messages) == (1, b"", "rezkit-look: album/%s: can't be written: File too large\n" % name)
        assert names_in(tmp_path) == ["fork"]
    status, _, messages = run("rezkit-look", "fork", "-o", "no/album", folder=str(tmp_path))
    assert (status, messages) == (1, "rezkit-look: no/album: can't be made: No such file or directory\n")


def test_wrong_arguments(tmp_path):
    write(tmp_path, "fork", FORK)
    for words in ([], ["fork"], ["-o", "x"], ["fork", "-o"], ["fork", "-o", "-"], ["fork", "-o", "x", "-z"]):
        status, output, messages = run("rezkit-look", *words, folder=str(tmp_path))
        assert (status, output) == (2, b"") and messages and names_in(tmp_path) == ["fork"]
    assert run("rezkit-look", "--version")[:2] == (0, rezkit("--version"))
    status, output, _ = run("rezkit-look", "--help")
    assert status == 0 and b"ALBUM gets index.html" in output


def test_without_pillow_nothing_is_made(tmp_path):
    write(tmp_path, "fork", FORK)
    status, output, messages = run(sys.executable, "-S", os.path.join(WORKBENCH, "rezkit-look"), "fork", "-o", "album", folder=str(tmp_path))
    assert (status, output) == (1, b"") and names_in(tmp_path) == ["fork"]
    assert messages == "rezkit-look: Python's module PIL is missing (Debian's package python3-pil)\n"


def test_a_break_leaves_nothing(tmp_path):
    """The program waits for a pipe when it is broken off. Where the tests run in the background, it would else pass over SIGINT."""
    os.mkfifo(str(tmp_path / "pipe"))
    write(tmp_path, "fork", FORK)
    running = subprocess.Popen([os.path.join(WORKBENCH, "rezkit-look"), "fork", "pipe", "-o", "album"], cwd=str(tmp_path),
                               stderr=subprocess.PIPE, preexec_fn=lambda: signal.signal(signal.SIGINT, signal.default_int_handler))
    pipe = os.open(str(tmp_path / "pipe"), os.O_WRONLY)  # waits until the program opens it
    made = [name for name in names_in(tmp_path) if name.startswith(".rezkit-")]
    running.send_signal(signal.SIGINT)
    os.close(pipe)  # a break that came just before the program began to wait is seen when the waiting ends
    assert running.wait(60) == 130 and running.stderr.read() == b"" and len(made) == 1
    running.stderr.close()
    assert names_in(tmp_path) == ["fork", "pipe"]


# Time and memory.

def test_2000_resources_take_less_than_20_seconds(tmp_path):
    whole = [(b"ICN#", ICON), (b"PICT", picture(300, 200)), (b"snd ", beep(bytes(2000))), (b"TEXT", b"word " * 400)]
    write(tmp_path, "fork", fork_of([(kind, number, b"name", 0, data) for kind, data in whole for number in range(500)]))
    status, messages, page = looked(tmp_path, "fork", memory=MEMORY, cpu=20)
    assert (status, messages) == (0, "rezkit-look: resources shown: 2000 of 2000\n")
    assert len(names_in(tmp_path / "album")) == 2001 and (len(page.all("img")), len(page.all("audio"))) == (1000, 500)


def test_resources_that_share_bytes_are_shown_up_to_four_times_the_fork(tmp_path):
    """All 1,000 references lead to the 20,000 bytes of the first."""
    fork = bytearray(fork_of([(b"TEXT", number, b"", 0, b"x" * 20000 * (number == 0)) for number in range(1000)]))
    first = struct.unpack(">I", fork[4:8])[0] + 28 + 10
    for number in range(1000):
        fork[first + 12 * number + 5:first + 12 * number + 8] = bytes(3)
    write(tmp_path, "fork", bytes(fork))
    count = 4 * len(fork) // 20000
    status, messages, page = looked(tmp_path, "fork")
    assert (status, messages, count) == (0, "rezkit-look: resources shown: %d of 1000\n" % count, 7)
    assert left_of(page) == [["'TEXT'", str(1000 - count), "shares bytes with too many others"]]


def test_a_file_that_is_too_long_is_not_read(tmp_path):
    with open(str(tmp_path / "long"), "wb") as file:
        file.truncate((128 << 20) + 1)
    status, messages, page = looked(tmp_path, "long", memory=MEMORY, cpu=5)
    assert (status, messages) == (1, "rezkit-look: long: is longer than 134217728 bytes\nrezkit-look: resources shown: 0 of 0\n")


def test_progress_is_shown_on_a_terminal(tmp_path):
    write(tmp_path, "fork", FORK)
    ours, theirs = pty.openpty()
    ran = subprocess.run([os.path.join(WORKBENCH, "rezkit-look"), "fork", "-o", "album"], cwd=str(tmp_path), stderr=theirs)
    os.close(theirs)
    assert ran.returncode == 0 and b"rezkit-look: file 1 of 1, resource 1 of 13" in os.read(ours, 4096)


def test_an_album_keeps_no_files_in_memory(tmp_path):
    """300 texts of 60,000 bytes."""
    shown = Shown("html", b"x" * 60000)
    tracemalloc.start()
    with writing.Folder(str(tmp_path / "album")) as folder, album.Album(folder) as made:
        made.begin_file(1, "file", "resource fork", 300)
        made.begin_type(b"TEXT", 300)
        for number in range(300):
            made.show(facts.Resource(b"TEXT", number, b"", 0, 0, 60000), shown)
        made.end_type()
        made.end_file()
        made.finish()
    most = tracemalloc.get_traced_memory()[1]
    tracemalloc.stop()
    assert len(read(str(tmp_path / "album" / "index.html"))) > 300 * 60000 and most < 6 << 20


def test_a_resource_for_which_there_is_no_memory_is_told(tmp_path, monkeypatch):
    def refuse(*_):
        raise MemoryError

    monkeypatch.setitem(look.DECODERS, b"PICT", refuse)
    path = write(tmp_path, "fork", FORK)
    assert look.body([path, "-o", str(tmp_path / "album")]) == 0
    page = Page(read(str(tmp_path / "album" / "index.html")).decode("utf-8"), names_in(tmp_path / "album"))
    assert page.faults == [] and "Not shown: 'PICT' 200 \"Half\": out of memory" in page.texts and ["'PICT'", "2", "out of memory"] in left_of(page)


def test_other_endings_have_a_link(tmp_path):
    with writing.Folder(str(tmp_path / "album")) as folder, album.Album(folder) as made:
        made.begin_file(1, "file", "resource fork", 1)
        made.begin_type(b"snd ", 1)
        made.show(facts.Resource(b"snd ", 7, b"", 0, 0, 4), Shown("aifc", b"FORM", notes=["a <note>"]))
        made.end_type()
        made.end_file()
        made.finish()
    page = Page(read(str(tmp_path / "album" / "index.html")).decode("utf-8"), names_in(tmp_path / "album"))
    assert page.faults == [] and read(str(tmp_path / "album" / "1-sndx20-7.aifc")) == b"FORM"
    assert "A browser can't play this file." in page.texts and "a <note>" in page.texts and {"href": "1-sndx20-7.aifc"} in page.all("a")
