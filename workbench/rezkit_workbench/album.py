"""The page of an album: how it shows resources, what it says of those that it doesn't show, and the names of its files.

The page has a table of contents, a section for each file with one for each type in it, and last a table of what isn't
shown. It has no script and leads to no address outside. Texts that someone else wrote are escaped, and addresses are quoted.
Figures go to a file of their own until the page is written, so that memory doesn't grow with their number.
"""
import collections
import contextlib
import io
import tempfile
import wave

from .letters import escaped
from .roman import four, quoted
from .writing import cant

PAGE = "index.html"
INLINE_MOST = 1 << 16  # bytes of a text that stands in the page; a longer one has a link alone
WIDE, HIGH, TIMES_MOST = 480, 96, 4  # pictures are enlarged up to so many pixels, and by so much
OF_ANY_SIZE = (b"PICT", b"cicn", b"ppat")  # types of pictures of which the page says the size
LISTS, SCROLLED = (b"SICN", b"PAT#", b"ppt#"), 300  # pictures side by side; a list that is wider scrolls
PIECE = 1 << 20
WORDS = {
    b"ICON": "icons", b"ICN#": "icons with masks", b"icl4": "icons in 16 colors", b"icl8": "icons in 256 colors",
    b"ics#": "small icons with masks", b"ics4": "small icons in 16 colors", b"ics8": "small icons in 256 colors",
    b"icm#": "mini icons with masks", b"icm4": "mini icons in 16 colors", b"icm8": "mini icons in 256 colors",
    b"SICN": "lists of small icons", b"cicn": "color icons", b"CURS": "cursors", b"crsr": "color cursors",
    b"PAT ": "patterns", b"PAT#": "lists of patterns", b"ppat": "color patterns", b"ppt#": "lists of color patterns",
    b"PICT": "pictures", b"snd ": "sounds", b"TEXT": "texts",
}
STYLE = """
:root { color-scheme: light dark; --ground: #fff; --text: #1c1c22; --faint: #5a5a66; --line: #d3d3dc; --link: #0b50c0; --wrong: #b00020; }
@media (prefers-color-scheme: dark) {
  :root { --ground: #17171c; --text: #ececf2; --faint: #a8a8b4; --line: #3c3c48; --link: #8ab4f8; --wrong: #ff8a80; }
}
body { margin: 0 auto; max-width: 76rem; padding: 1rem; background: var(--ground); color: var(--text);
  font: 1rem/1.5 system-ui, sans-serif; overflow-wrap: anywhere; }
a { color: var(--link); }
h1, h2, h3 { line-height: 1.25; }
h2 { margin: 2.5rem 0 .5rem; padding-top: .75rem; border-top: 1px solid var(--line); }
h3 { margin: 1rem 0 .5rem; font-size: 1.05rem; }
.file { display: flex; flex-wrap: wrap; gap: 0 3rem; }
.file > h2, .file > p { flex: 0 0 100%; }
.file > h2 { margin-top: 1.5rem; }
.file > p { margin: 0 0 .5rem; }
.file > section { max-width: 100%; }
h3 span, .faint, figcaption { color: var(--faint); font-weight: normal; }
.types { display: flex; flex-wrap: wrap; gap: 0 1.25rem; margin: 0 0 .5rem; padding: 0; list-style: none; }
.figures { display: flex; flex-wrap: wrap; gap: 1rem; align-items: flex-start; }
figure { margin: 0; min-width: 6rem; max-width: 100%; }
figure.noted { min-width: 11rem; }
figure.wide { width: 100%; }
figcaption { width: 0; min-width: 100%; margin-top: .25rem; font-size: .85rem; line-height: 1.35; }
figcaption ul { margin: .15rem 0 0; padding-left: 1rem; }
img { display: block; max-width: 100%; height: auto; outline: 1px solid var(--line); }
img.small { image-rendering: pixelated; }
img.checked { outline: none; background: repeating-conic-gradient(#d9d9df 0 25%, #c3c3cb 0 50%) 0 0 / 16px 16px; }
audio { display: block; width: 20rem; max-width: 100%; }
.box { max-height: 20rem; overflow: auto; border: 1px solid var(--line); }
.text { padding: .75rem; }
.wrong { color: var(--wrong); }
ul.wrong { margin: .5rem 0; padding-left: 1.25rem; font-size: .85rem; line-height: 1.4; }
.scroll { overflow-x: auto; }
.scroll img { max-width: none; }
table { border-collapse: collapse; }
th, td { padding: .25rem 1.25rem .25rem 0; border-bottom: 1px solid var(--line); text-align: left; vertical-align: top; }
td.number { text-align: right; }
"""
TEXT_STYLE = """
:root { color-scheme: light dark; }
body { margin: 0 auto; max-width: 50rem; padding: 1rem; font: 1rem/1.5 system-ui, sans-serif; overflow-wrap: anywhere; }
h1 { font-size: 1.05rem; }
"""
HEAD = """<!DOCTYPE html>
<html lang="en">
<head>
<meta charset="utf-8">
<meta name="viewport" content="width=device-width, initial-scale=1">
<title>%s</title>
<style>%s</style>
</head>
<body>
"""
FOOT = "</body>\n</html>\n"
FRONT = """<header>
<h1>%s</h1>
<p>%s</p>
</header>
<nav aria-labelledby="contents">
<h2 id="contents">Contents</h2>
<ol>
%s</ol>
</nav>
<main>
"""
SCROLLING = '<div class="scroll" role="region" tabindex="0" aria-label="%s">%s</div>'
FIGURE = """<figure%s>
%s
<figcaption>%s%s</figcaption>
</figure>
"""
LEFT = """<section>
<h2 id="left">What isn't shown</h2>
<div class="scroll">
<table>
<thead><tr><th scope="col">Type</th><th scope="col">Resources</th><th scope="col">Reason</th></tr></thead>
<tbody>
%s</tbody>
</table>
</div>
</section>
"""


def type_word(kind):
    """A type in letters and digits: another byte is `x` with two hexadecimal digits."""
    return "".join(chr(byte) if byte < 128 and chr(byte).isalnum() else "x%02X" % byte for byte in kind)


def file_name(number, one, ending):
    """The name of a resource's file: the number of its file in the album, its type and its id."""
    return "%d-%s-%d.%s" % (number, type_word(one.kind), one.ident, ending)


def told(one):
    """A resource by its type, id and name."""
    return "%s %d%s" % (four(one.kind), one.ident, " " + quoted(one.name) if one.name else "")


# A figure.

def times(kind, width, height):
    """How many times as large as it is a picture is shown."""
    across = TIMES_MOST if kind in LISTS else WIDE // width
    return max(1, min(TIMES_MOST, across, HIGH // height))


def picture(name, one, shown):
    """The element of a picture. A small one is enlarged, and what may let the ground through stands on checks."""
    larger = times(one.kind, *shown.size)
    width, height = (larger * pixels for pixels in shown.size)
    classes = ["small"] * (larger > 1) + ["checked"] * (one.kind != b"PICT")
    element = '<img%s src="%s" alt="%s" width="%d" height="%d" loading="lazy">' % (
        ' class="%s"' % " ".join(classes) if classes else "", name, escaped(told(one)), width, height)
    return SCROLLING % (escaped(told(one)), element) if one.kind in LISTS and width > SCROLLED else element


def sound(name, one, _):
    """The element of a sound."""
    return '<audio controls preload="none" src="%s" aria-label="%s"></audio>' % (name, escaped(told(one)))


def text(name, one, shown):
    """A text in a box that scrolls, or a word about its length."""
    if len(shown.data) > INLINE_MOST:
        return '<p>A long text, <a href="%s">on a page of its own</a>.</p>' % name
    return '<div class="box" role="region" tabindex="0" aria-label="%s">%s</div>' % (escaped(told(one)), shown.data.decode("utf-8"))


ELEMENTS = {"png": picture, "wav": sound, "html": text}


def other(*_):
    """What stands in place of a file that browsers don't show."""
    return '<p>A browser can\'t play this file.</p>'


def length_of(one, shown):
    """What a figure says of a picture's size or of a sound's length."""
    if one.kind in OF_ANY_SIZE:
        return "%d\u00a0×\u00a0%d" % shown.size
    if shown.ending == "wav":
        with wave.open(io.BytesIO(shown.data)) as file:
            return "%.2f s" % (file.getnframes() / file.getframerate())
    return ""


def figure(name, one, shown):
    """A resource with its id, its name, and what isn't shown of it."""
    notes = "".join("<li>%s</li>" % escaped(note) for note in shown.notes)
    parts = ['<a href="%s">%d</a>' % (name, one.ident), escaped(quoted(one.name)) if one.name else "", escaped(length_of(one, shown))]
    return FIGURE % (
        ' class="wide"' if shown.ending == "html" else ' class="noted"' if notes else "", ELEMENTS.get(shown.ending, other)(name, one, shown),
        " ".join(part for part in parts if part), "<ul>%s</ul>" % notes if notes else "")


# The parts of the page.

def counts(shown, there):
    return "%d" % shown if shown == there else "%d of %d" % (shown, there)


class Entry:
    """What the table of contents says of a file: `types` are (type, how many are shown, how many are there)."""

    def __init__(self, number, name, fault=None):
        self.number, self.name, self.fault, self.types, self.there = number, name, fault, [], 0

    def shown(self):
        return sum(shown for _, shown, _ in self.types)

    def text(self):
        """The entry as an item of a list."""
        if self.fault:
            return '<li><a href="#file-%d">%s</a>: <span class="wrong">not read</span></li>\n' % (self.number, escaped(self.name))
        types = "".join('<li><a href="#%d-%s">%s</a> %s</li>' % (self.number, type_word(kind), escaped(four(kind)), counts(shown, there))
                        for kind, shown, there in self.types)
        return '<li><a href="#file-%d">%s</a>: %d of %d resources shown%s</li>\n' % (
            self.number, escaped(self.name), self.shown(), self.there, '\n<ul class="types">%s</ul>\n' % types if types else "")


class Album:
    """The page and the files of an album, which is made in a folder; used by `with`, and written by `finish`.

    `left` counts what isn't shown, by type and reason.
    """

    def __init__(self, folder):
        self.folder, self.entries, self.left, self.faults = folder, [], collections.Counter(), []
        self.path = folder.name + "/" + PAGE
        with self.writing():
            self.body = tempfile.TemporaryFile(dir=folder.beside)

    def __enter__(self):
        return self

    def __exit__(self, *_):
        with contextlib.suppress(OSError):  # what its buffer holds can't be written; the write before said so
            self.body.close()

    @contextlib.contextmanager
    def writing(self):
        """Tells a write that fails."""
        try:
            yield
        except OSError as fault:
            raise cant("be written", self.path, fault) from None

    def put(self, written):
        with self.writing():
            self.body.write(written.encode("utf-8"))

    def shown(self):
        return sum(entry.shown() for entry in self.entries)

    def there(self):
        return sum(entry.there for entry in self.entries)

    def refuse_file(self, number, name, fault):
        """A file that wasn't read, and why."""
        self.entries.append(Entry(number, name, fault))
        self.put('<section>\n<h2 id="file-%d">%s</h2>\n<p class="wrong">Not read: %s</p>\n</section>\n' % (
            number, escaped(name), escaped(fault)))

    def begin_file(self, number, name, about, there):
        """A file with so many resources; `about` says what it is."""
        self.entries.append(Entry(number, name))
        self.entries[-1].there = there
        self.put('<section class="file">\n<h2 id="file-%d">%s</h2>\n<p class="faint">%s</p>\n' % (number, escaped(name), escaped(about)))

    def end_file(self):
        entry = self.entries[-1]
        if not entry.shown():
            self.put("<p>%s</p>\n" % ("None of its resources is shown." if entry.there else "It has no resources."))
        self.put("</section>\n")

    def begin_type(self, kind, there):
        """A type of the file that is open, with so many resources."""
        self.entries[-1].types.append((kind, 0, there))
        words = " <span>%s</span>" % WORDS[kind] if kind in WORDS else ""
        self.put('<section>\n<h3 id="%d-%s">%s%s</h3>\n<div class="figures">\n' % (
            self.entries[-1].number, type_word(kind), escaped(four(kind)), words))

    def show(self, one, shown):
        """Writes a resource's file, and puts the resource on the page."""
        name = file_name(self.entries[-1].number, one, shown.ending)
        if shown.ending == "html":
            head = HEAD % (escaped(told(one)), TEXT_STYLE) + "<h1>%s</h1>\n" % escaped(told(one))
            self.folder.write_pieces(name, (head.encode("utf-8"), shown.data, FOOT.encode("utf-8")))
        else:
            self.folder.write(name, shown.data)
        self.put(figure(name, one, shown))
        kind, count, there = self.entries[-1].types[-1]
        self.entries[-1].types[-1] = kind, count + 1, there

    def leave_out(self, one, fault, reason):
        """A resource that isn't shown: the fault is told with its type, the reason is counted."""
        self.faults.append("%s: %s" % (told(one), fault))
        self.left[one.kind, reason] += 1

    def end_type(self):
        faults = "".join('<li>Not shown: %s</li>\n' % escaped(fault) for fault in self.faults)
        self.put("</div>\n%s</section>\n" % ('<ul class="wrong">\n%s</ul>\n' % faults if faults else ""))
        self.faults = []

    def finish(self):
        """Writes the page."""
        self.folder.write_pieces(PAGE, self.pieces())

    def pieces(self):
        """The page, piece by piece."""
        yield (HEAD % (escaped(self.title()), STYLE) + self.front()).encode("utf-8")
        with self.writing():
            self.body.seek(0)
            yield from iter(lambda: self.body.read(PIECE), b"")
        yield (self.left_table() + "</main>\n" + FOOT).encode("utf-8")

    def title(self):
        return "Album of %s" % self.entries[0].name if len(self.entries) == 1 else "Album of %d files" % len(self.entries)

    def front(self):
        """What stands before the files."""
        refused = sum(entry.fault is not None for entry in self.entries)
        lines = ["Resources shown: %d of %d." % (self.shown(), self.there())]
        lines += ["Files that weren't read: %d of %d." % (refused, len(self.entries))] if refused else []
        lines += ['<a href="#left">What isn\'t shown</a>.'] if self.left else []
        return FRONT % (escaped(self.title()), " ".join(lines), "".join(entry.text() for entry in self.entries))

    def left_table(self):
        """What isn't shown, by type and reason; nothing where all is."""
        rows = "".join('<tr><td>%s</td><td class="number">%d</td><td>%s</td></tr>\n' % (escaped(four(kind)), count, escaped(reason))
                       for (kind, reason), count in sorted(self.left.items()))
        return LEFT % rows if rows else ""
