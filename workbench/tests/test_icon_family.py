"""rezkit-icons: the icons of pictures by hand, that they come back by `rez` and the decoders, and what is refused."""
import io
import os
import struct
import zlib

import pytest
from helpers import names_in, read, rezkit, run, write
from rezkit_workbench import facts, icon_family, icons
from rezkit_workbench.errors import Refused, Usage
from rezkit_workbench.palettes import STANDARD

Image = pytest.importorskip("PIL.Image")
CLEAR, WHITE, BLACK, RED = (0, 0, 0, 0), (255, 255, 255, 255), (0, 0, 0, 255), (255, 0, 0, 255)
KINDS = [b"ICN#", b"icl4", b"icl8", b"ics#", b"ics4", b"ics8"]
SMALL_SOURCE = """
data 'ics#' (128, purgeable) {
    $"A000 0000 0000 0000 0000 0000 0000 0000"
    $"0000 0000 0000 0000 0000 0000 0000 0001"
    $"E000 0000 0000 0000 0000 0000 0000 0000"
    $"0000 0000 0000 0000 0000 0000 0000 0001"
};

data 'ics4' (128, purgeable) {
    $"F030 0000 0000 0000 0000 0000 0000 0000"
    $"0000 0000 0000 0000 0000 0000 0000 0000"
    $"0000 0000 0000 0000 0000 0000 0000 0000"
    $"0000 0000 0000 0000 0000 0000 0000 0000"
    $"0000 0000 0000 0000 0000 0000 0000 0000"
    $"0000 0000 0000 0000 0000 0000 0000 0000"
    $"0000 0000 0000 0000 0000 0000 0000 0000"
    $"0000 0000 0000 0000 0000 0000 0000 000F"
};

data 'ics8' (128, purgeable) {
    $"FF00 4700 0000 0000 0000 0000 0000 0000"
""" + '    $"0000 0000 0000 0000 0000 0000 0000 0000"\n' * 14 + """    $"0000 0000 0000 0000 0000 0000 0000 00FF"
};
"""  # black, white, a dark red, and black as the last


def chunk(kind, data):
    return struct.pack(">I", len(data)) + kind + data + struct.pack(">I", zlib.crc32(kind + data))


def png(width, height, pixels=None, kind=6, bits=8, more=b""):
    """A PNG of pixels, which are tuples of bytes; without pixels it has none, whatever its size says."""
    rows = b"" if pixels is None else b"".join(
        b"\0" + b"".join(bytes(pixel) for pixel in pixels[at:at + width]) for at in range(0, width * height, width))
    return (b"\x89PNG\r\n\x1a\n" + chunk(b"IHDR", struct.pack(">IIBBBBB", width, height, bits, kind, 0, 0, 0)) + more
            + chunk(b"IDAT", zlib.compress(rows)) + chunk(b"IEND", b""))


def picture(width, height, *others, ground=CLEAR):
    """Pixels of one ground with others: (from the left, from the top, pixel)."""
    pixels = [ground] * (width * height)
    for left, top, pixel in others:
        pixels[top * width + left] = pixel
    return pixels


def icons_of(tmp_path, data):
    """The bytes of the icons of a picture, by type."""
    with facts.Opened(write(tmp_path, "picture", data)) as file:
        return {kind.encode(): icon for kind, icon in icon_family.family(icon_family.picture_of(file))}


def compiled(tmp_path, data, *words):
    """The resources of the source that the program writes, read back through `rez`: (type, id, name, attributes), and bytes by type."""
    status, output, messages = run("rezkit-icons", "-", "128", "-o", str(tmp_path / "icons.r"), "-f", *words, given=data)
    assert (status, output, messages) == (0, b"", "")
    rezkit("rez", "icons.r", "-ov", "-o", "icons.rsrc", folder=str(tmp_path))
    with facts.Opened(str(tmp_path / "icons.rsrc")) as file:
        found = facts.facts_of(file)
        resources = found.resources()
        return ([(one.kind, one.ident, one.name, one.words()) for one in resources],
                {one.kind: one.bytes_in(found.fork) for one in resources})


def pixels_of(resources, kind):
    """The pixels that a decoder shows, with red, green, blue and alpha."""
    shown = icons.KINDS[kind](resources[kind], resources.get)
    return list(Image.open(io.BytesIO(shown.data)).convert("RGBA").getdata())


def small_pixels():
    return picture(16, 16, (0, 0, BLACK), (1, 0, WHITE), (2, 0, (200, 0, 0, 255)), (15, 15, BLACK))


# The icons.

def test_the_source_of_a_small_picture():
    def made(name):
        status, output, messages = run("rezkit-icons", "-", "128", *name, given=png(16, 16, small_pixels()))
        assert (status, messages) == (0, "")
        return output.decode("ascii")

    text = made([])
    assert text.startswith("// Icons of standard input, by rezkit-icons.\n\ndata 'ICN#' (128, purgeable) {\n    $\"CC00 0000 CC00 0000 ")
    assert text.endswith(SMALL_SOURCE) and text.count("\ndata '") == 6
    assert "data 'icl8' (128, \"a \\\"b\\\\ \\0x8E\\0x0D\", purgeable) {\n    $\"FFFF 0000 4747 0000 " in made(["--name", "a \"b\\ \u00E9\r"])


def test_the_source_is_that_of_derez(tmp_path):
    path = write(tmp_path, "a.png", png(16, 16, small_pixels()))
    text = run("rezkit-icons", path, "-5", "--name", "Caf\u00E9 \"")[1]
    write(tmp_path, "a.r", text)
    rezkit("rez", "a.r", "-o", "a.rsrc", folder=str(tmp_path))
    head = b"// Icons of a.png, by rezkit-icons.\n\n"
    assert text.startswith(head) and text[len(head):] + b"\n" == rezkit("derez", "a.rsrc", folder=str(tmp_path))


@pytest.mark.parametrize("side, kind", ((32, b"icl8"), (16, b"ics8"), (32, b"icl4"), (16, b"ics4")))
def test_colors_of_the_table_come_back_exactly(tmp_path, side, kind):
    table = STANDARD[int(kind[3:])]
    pixels = [table[(7 * number + 3) % len(table)] + (0 if number % 5 == 4 else 255,) for number in range(side * side)]
    heads, resources = compiled(tmp_path, png(side, side, pixels), "--name", "Mine")
    assert heads == [(each, 128, b"Mine", ["purgeable"]) for each in KINDS]
    assert [len(resources[each]) for each in KINDS] == [256, 512, 1024, 64, 128, 256]
    back = pixels_of(resources, kind)
    assert all(one == other if other[3] else one[3] == 0 for one, other in zip(back, pixels)) and len(back) == len(pixels)
    if kind == b"icl8":
        assert resources[kind][:10] == bytes([3, 10, 17, 24, 0, 38, 45, 52, 59, 0])
    if kind == b"ics4":
        assert resources[kind][:5] == b"\x3A\x18\x06\xD4\xB0"


def test_black_and_white_come_back_exactly(tmp_path):
    pixels = picture(32, 32, (0, 0, BLACK), (31, 0, WHITE), (5, 31, BLACK), (6, 31, WHITE))
    _, resources = compiled(tmp_path, png(32, 32, pixels))
    assert resources[b"ICN#"] == b"\x80" + bytes(123) + b"\4\0\0\0" + b"\x80\0\0\1" + bytes(120) + b"\6\0\0\0"
    assert pixels_of(resources, b"ICN#") == [pixel if pixel[3] else (255, 255, 255, 0) for pixel in pixels]


def test_luminance_and_alpha(tmp_path):
    grays = [(127, 127, 127), (128, 128, 128), (255, 0, 0), (0, 255, 0), (0, 0, 255), (255, 87, 0), (255, 90, 0), (0, 0, 0)]
    row = [gray + (255,) for gray in grays] + [(0, 0, 0, 127), (0, 0, 0, 128)] + [CLEAR] * 6
    resources = icons_of(tmp_path, png(16, 16, row + [CLEAR] * 240))
    # black is 76.2 of red, 29.1 of blue, 127.3 of the first orange; 149.7 of green and 129.1 of the second orange are white
    assert resources[b"ics#"] == bytes([0b10101101, 0b01000000]) + bytes(30) + bytes([0b11111111, 0b01000000]) + bytes(30)
    assert resources[b"ics4"][:5] == bytes([0xDD, 0x38, 0x62, 0x2F, 0x0F])


def test_the_nearest_color():
    assert [icon_family.nearest(color, 8) for color in ((255, 0, 0), (254, 1, 3), (230, 0, 0), (28, 28, 28), (0, 0, 5), (205, 204, 203))] == [
        35, 35, 215, 253, 255, 43]
    assert [icon_family.nearest(color, 4) for color in ((255, 0, 0), (250, 250, 0), (100, 100, 100), (200, 200, 200))] == [3, 1, 13, 12]


# Sizes.

def sizes_of(tmp_path, data):
    """Where the masks of the large and the small icon are: left, top, right, bottom."""
    resources = icons_of(tmp_path, data)
    found = []
    for kind, side in ((b"ICN#", 32), (b"ics#", 16)):
        mask = resources[kind][side * side // 8:]
        places = [(at % side, at // side) for at in range(side * side) if mask[at // 8] >> (7 - at % 8) & 1]
        left, top, right, bottom = [pick(place[axis] for place in places) for pick in (min, max) for axis in (0, 1)]
        assert len(places) == (right - left + 1) * (bottom - top + 1)
        found.append((left, top, right + 1, bottom + 1))
    return found


@pytest.mark.parametrize("width, height, large, small", (
    (64, 64, (0, 0, 32, 32), (0, 0, 16, 16)), (64, 32, (0, 8, 32, 24), (0, 4, 16, 12)), (300, 300, (0, 0, 32, 32), (0, 0, 16, 16)),
    (1, 1, (0, 0, 32, 32), (0, 0, 16, 16)), (10, 5, (1, 8, 31, 23), (3, 5, 13, 10)), (20, 20, (6, 6, 26, 26), (0, 0, 16, 16)),
    (1, 1000, (15, 0, 16, 32), (7, 0, 8, 16)), (16, 16, (0, 0, 32, 32), (0, 0, 16, 16)), (32, 8, (0, 12, 32, 20), (0, 6, 16, 10)),
), ids=lambda each: str(each) if isinstance(each, int) else "")
def test_pictures_of_other_sizes_stand_in_the_middle(tmp_path, width, height, large, small):
    assert sizes_of(tmp_path, png(width, height, [RED] * (width * height))) == [large, small]


def test_a_picture_of_one_color_keeps_it(tmp_path):
    resources = icons_of(tmp_path, png(100, 100, [RED] * 10000))
    assert resources[b"icl8"] == b"\x23" * 1024 and resources[b"ics8"] == b"\x23" * 256
    assert resources[b"icl4"] == b"\x33" * 512 and resources[b"ICN#"] == b"\xFF" * 256


def test_what_is_transparent_gives_no_color_when_it_is_reduced(tmp_path):
    """The green of the transparent half isn't mixed into the red one."""
    pixels = [RED if at % 64 < 32 else (0, 255, 0, 0) for at in range(64 * 64)]
    resources = icons_of(tmp_path, png(64, 64, pixels))
    assert resources[b"icl8"] == (b"\x23" * 16 + bytes(16)) * 32 and resources[b"ics8"] == (b"\x23" * 8 + bytes(8)) * 16


def test_no_seams_beside_an_edge(tmp_path):
    """Half of the picture is gray of 204, half of 51: nothing lighter or darker comes of it."""
    data = png(128, 128, [(204, 204, 204, 255) if at % 128 < 64 else (51, 51, 51, 255) for at in range(128 * 128)])
    with facts.Opened(write(tmp_path, "a", data)) as file:
        assert icon_family.fitted(icon_family.picture_of(file), 32).getextrema() == ((51, 204), (51, 204), (51, 204), (255, 255))


def test_a_small_picture_is_doubled(tmp_path):
    resources = icons_of(tmp_path, png(16, 16, small_pixels()))
    assert resources[b"icl8"][:6] == resources[b"icl8"][32:38] == b"\xFF\xFF\0\0\x47\x47"
    assert resources[b"ICN#"][128:132] == resources[b"ICN#"][132:136] == b"\xFC\0\0\0" and resources[b"ICN#"][136:140] == bytes(4)


# Kinds of pictures.

def first_of(tmp_path, data):
    """The first eight pixels of ics8, and of its mask."""
    resources = icons_of(tmp_path, data)
    return resources[b"ics8"][:4], resources[b"ics#"][32]


def test_other_kinds_of_png(tmp_path):
    grays = [(0, 0), (0xFF, 0xFF), (0x80, 0), (0x7F, 0xFF)] + [(0, 0)] * 252
    assert first_of(tmp_path, png(16, 16, grays, kind=0, bits=16)) == (b"\xFF\0\xF9\xFA", 0xFF)
    assert first_of(tmp_path, png(16, 16, grays, kind=0, bits=16, more=chunk(b"tRNS", b"\xFF\xFF"))) == (b"\xFF\0\xF9\xFA", 0b10111111)
    assert first_of(tmp_path, png(16, 16, [(0,), (255,), (0,)] + [(0,)] * 253, kind=0)) == (b"\xFF\0\xFF\xFF", 0xFF)
    assert first_of(tmp_path, png(16, 16, [(0, 255), (0, 0)] + [(0, 255)] * 254, kind=4)) == (b"\xFF\0\xFF\xFF", 0b10111111)
    assert first_of(tmp_path, png(16, 16, [(255, 0, 0), (0, 0, 255)] + [(0, 0, 0)] * 254, kind=2)) == (b"\x23\xD2\xFF\xFF", 0xFF)
    palette = chunk(b"PLTE", bytes([255, 0, 0, 0, 0, 255])) + chunk(b"tRNS", b"\xFF\x7F")
    assert first_of(tmp_path, png(16, 16, [(0,), (1,), (0,)] + [(0,)] * 253, kind=3, more=palette)) == (b"\x23\0\x23\x23", 0b10111111)


@pytest.mark.parametrize("form, mode, color", (("GIF", "P", 0), ("BMP", "RGB", (255, 0, 0)), ("JPEG", "CMYK", (0, 0, 0, 0)), ("JPEG", "L", 0)))
def test_other_forms(tmp_path, form, mode, color):
    out, made = io.BytesIO(), Image.new(mode, (16, 16), color)
    if mode == "P":
        made.putpalette([255, 0, 0])
    made.save(out, form)
    value = {"P": 35, "RGB": 35, "CMYK": 0, "L": 255}[mode]
    assert first_of(tmp_path, out.getvalue()) == (bytes([value] * 4), 0xFF)


# What is refused.

@pytest.mark.parametrize("data, said", (
    (b"", "is no picture that is read (PNG, GIF, JPEG, BMP)"),
    (b"text", "is no picture that is read (PNG, GIF, JPEG, BMP)"),
    (b"%!PS-Adobe-3.0 EPSF-3.0\n%%BoundingBox: 0 0 9 9\n", "is no picture that is read (PNG, GIF, JPEG, BMP)"),
    (png(4097, 4096), "has more than the 16777216 pixels that are decoded"),
    (png(10000, 10000), "has more than the 16777216 pixels that are decoded"),
    (png(100000, 100000), "has more than the 16777216 pixels that are decoded"),
    (b"BM" + struct.pack("<IIIIiiHHIIIIII", 54, 0, 54, 40, 32767, 32767, 1, 24, 0, 0, 0, 0, 0, 0), "has more than the 16777216 pixels that are decoded"),
    (b"GIF89a\xFF\xFF\xFF\xFF\0\0\0,\0\0\0\0\xFF\xFF\xFF\xFF\0\2\0;", "has more than the 16777216 pixels that are decoded"),
), ids=range(8))
def test_what_is_refused(tmp_path, data, said):
    path = write(tmp_path, "a", data)
    assert run("rezkit-icons", path, "128", "-o", str(tmp_path / "b"), memory=524288 << 10) == (1, b"", "rezkit-icons: %s: %s\n" % (path, said))
    assert names_in(tmp_path) == ["a"]


def test_a_picture_that_is_cut(tmp_path):
    """A part of a picture is refused, or has all pixels: Pillow doesn't look at what stands after them."""
    def pixels_or_none(data):
        with facts.Opened(write(tmp_path, "a", data)) as file:
            try:
                return list(icon_family.picture_of(file).getdata())
            except Refused as fault:
                assert str(fault).startswith("%s: " % (tmp_path / "a")) and "\n" not in str(fault)
                return None

    out, some = io.BytesIO(), Image.new("P", (16, 16))
    some.putdata([5 * number % 7 for number in range(256)])
    some.save(out, "GIF")
    for whole in (png(16, 16, small_pixels()), out.getvalue()):
        found = [pixels_or_none(whole[:length]) for length in range(len(whole) + 1)]
        cut = [each for each in found if each is not None]
        assert len(found[-1]) == 256 and all(each == found[-1] for each in cut) and len(cut) < 30
    status, _, messages = run("rezkit-icons", write(tmp_path, "a", png(16, 16, small_pixels())[:50]), "1")
    assert (status, messages) == (1, "rezkit-icons: %s: can't be decoded: image file is truncated\n" % (tmp_path / "a"))


def test_files_that_cant_be_read(tmp_path):
    assert run("rezkit-icons", str(tmp_path / "none"), "1") == (1, b"", "rezkit-icons: %s: can't be read: No such file or directory\n" % (tmp_path / "none"))
    assert run("rezkit-icons", str(tmp_path), "1") == (1, b"", "rezkit-icons: %s: is a folder\n" % tmp_path)
    assert run("rezkit-icons", "-", "1") == (1, b"", "rezkit-icons: standard input: is no picture that is read (PNG, GIF, JPEG, BMP)\n")


def test_wrong_arguments(tmp_path):
    path = write(tmp_path, "a.png", png(1, 1, [RED]))
    for words in ([], [path], [path, "1", "2"], [path, "1", "--no"], [path, "32768"], [path, "-32769"], [path, "1.0"], [path, ""], [path, " 1"],
                  [path, "1_0"], [path, "\u0661"], [path, "$80"], [path, "1\n"], [path, "1", "--name", "x" * 256],
                  [path, "1", "--name", "\u4E00"], [path, "1", "--name", "\uDCFF"], [path, "1", "-o"], ["none", "x"]):
        with pytest.raises((SystemExit, Usage)) as fault:
            icon_family.body(words)
        assert (fault.value.code if isinstance(fault.value, SystemExit) else fault.value.status) == 2, words
    assert run("rezkit-icons", path, "70000") == (2, b"", "rezkit-icons: ID is a number from -32768 to 32767, not 70000\n")
    assert run("rezkit-icons", path)[::2] == (2, run("rezkit-icons")[2].replace("PICTURE, ID", "ID"))
    assert run("rezkit-icons", path, "1", "--name", b"\xFF") == (
        2, b"", "rezkit-icons: NAME has letters that the Macintosh's Roman letters lack: \\xff\n")
    assert run("rezkit-icons", path, "1", "--name", "x" * 256)[2] == "rezkit-icons: NAME has more than 255 letters\n"
    assert names_in(tmp_path) == ["a.png"]


def test_ids_and_names(tmp_path):
    path = write(tmp_path, "a.png", png(1, 1, [RED]))
    for ident in ("-32768", "32767", "0", "-1"):
        write(tmp_path, "a.r", run("rezkit-icons", path, ident, "--name", "e\u0301" * 255)[1])
        rezkit("rez", "a.r", "-ov", "-o", "a.rsrc", folder=str(tmp_path))
        with facts.Opened(str(tmp_path / "a.rsrc")) as file:
            assert {(one.ident, one.name) for one in facts.facts_of(file).resources()} == {(int(ident), b"\x8E" * 255)}


def test_nothing_is_overwritten_without_f(tmp_path):
    path = write(tmp_path, "a.png", png(1, 1, [RED]))
    target = write(tmp_path, "target", b"mine")
    os.symlink("target", str(tmp_path / "a.r"))
    assert run("rezkit-icons", path, "1", "-o", str(tmp_path / "a.r")) == (
        1, b"", "rezkit-icons: %s: is there already (-f replaces a file)\n" % (tmp_path / "a.r"))
    assert run("rezkit-icons", path, "1", "-o", str(tmp_path / "a.r"), "-f") == (0, b"", "")
    assert read(target) == b"mine" and not os.path.islink(str(tmp_path / "a.r")) and b"'ics8' (1, purgeable)" in read(str(tmp_path / "a.r"))
    assert run("rezkit-icons", path, "1", "-o", str(tmp_path / "b.r"), largest=1000)[::2] == (
        1, "rezkit-icons: %s: can't be written: File too large\n" % (tmp_path / "b.r"))
    with open("/dev/full", "wb") as full:
        assert run("rezkit-icons", path, "1", to=full)[2] == "rezkit-icons: standard output: can't be written: No space left on device\n"
    assert names_in(tmp_path) == ["a.png", "a.r", "target"]


def test_odd_names_of_files(tmp_path):
    data = png(1, 1, [RED])
    for name, told in ((b"-x.png", "-x.png"), (b"a b.png", "a b.png"), (b"*\\\n.png", "*\\\\\\x0a.png"), (b"caf\xE9", "caf\\xe9"),
                       ("\u00E9\u4E00".encode(), "\\xe9\\u4e00")):
        write(tmp_path, name, data)
        status, output, messages = run("rezkit-icons", "--", name, "1", folder=str(tmp_path))
        assert (status, messages) == (0, "") and output.startswith(("// Icons of %s, by rezkit-icons.\n\ndata 'ICN#'" % told).encode())
        write(tmp_path, "a.r", output)
        rezkit("rez", "a.r", "-ov", "-o", "a.rsrc", folder=str(tmp_path))


def test_without_pillow(monkeypatch, tmp_path):
    monkeypatch.setattr("rezkit_workbench.pixels.Image", None)
    with facts.Opened(write(tmp_path, "a.png", png(1, 1, [RED]))) as file, pytest.raises(Refused) as fault:
        icon_family.picture_of(file)
    assert str(fault.value) == "Python's module PIL is missing (Debian's package python3-pil)"


def test_help_and_version():
    assert run("rezkit-icons", "--version")[:2] == (0, rezkit("--version"))
    status, output, _ = run("rezkit-icons", "-h")
    assert status == 0 and output.startswith(b"usage: rezkit-icons ") and b"exit status: 0 done, 1 refused, 2 wrong arguments" in output
