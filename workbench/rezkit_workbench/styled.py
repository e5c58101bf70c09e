"""Texts as a fragment of HTML: TEXT, with the styles of the 'styl' of the same id.

Source: Inside Macintosh: Text, chapter 2, 'TextEdit': the style scrap record (StScrpRec); 'styl' and 'TEXT' are so kept in
files too.

Letters are Mac Roman. A return ends a line, and other control letters are shown as their pictures. Of a style are shown
the size in points as pixels, bold, italic, underline, shadow, outline, the wider and narrower letters, and the color.
The font isn't: its number means another font in each system.
"""
from .errors import Damaged, Refused
from .letters import escaped, lines_of
from .reading import Reader, Shown

MOST_SHOWN = 1 << 20  # bytes of a text
MOST_SIZE = 127  # the largest size of a letter in QuickDraw
BLACK = (0, 0, 0)
FACES = ((1, "font-weight:bold"), (2, "font-style:italic"), (4, "text-decoration:underline"),
         (8, "-webkit-text-stroke:1px;-webkit-text-fill-color:#fff"), (16, "text-shadow:1px 1px 1px #666"),
         (32, "letter-spacing:-1px"), (64, "letter-spacing:1px"))
PLAIN = '<div class="text" style="white-space:pre-wrap">'
PAPER = '<div class="text" style="white-space:pre-wrap;background:#fff;color:#000">'


class Run:
    """Letters of one style: where they begin in the text, and what CSS says of them."""

    def __init__(self, begin, css):
        self.begin, self.css = begin, css


def decode_text(data, beside):
    """A TEXT with its styles. A 'styl' that is damaged is told in a note, and the text is shown without styles."""
    notes = []
    if len(data) > MOST_SHOWN:
        notes.append("The first %d of %d bytes are shown." % (MOST_SHOWN, len(data)))
        data = data[:MOST_SHOWN]
    styles = beside(b"styl")
    runs = []
    if styles is not None:
        try:
            runs = runs_of(Reader(styles), notes)
        except Damaged as fault:
            notes.append("The text is shown without styles, for its 'styl' is damaged: %s." % fault)
    fragment = (PAPER if runs else PLAIN) + spans_of(data, runs) + "</div>\n"
    return Shown("html", fragment.encode("utf-8"), None, notes)


def decode_styles(data, beside):
    """The styles of a TEXT are shown in it."""
    if beside(b"TEXT") is None:
        raise Refused("has no TEXT of the same id")
    raise Refused("is shown in the TEXT of the same id")


def runs_of(reader, notes):
    """The runs that a 'styl' states. Their beginnings have to go up, from 0."""
    place = reader.place
    count = reader.integer()
    if count < 0:
        raise Damaged(place, "%d runs" % count)
    runs, odd_sizes = [], 0
    for _ in range(count):
        place = reader.place
        begin = reader.long()
        is_in_order = begin >= runs[-1].begin if runs else begin == 0
        if not is_in_order:
            raise Damaged(place, "a run that begins at %d" % begin)
        reader.take(6)  # height of the line, ascent, font
        face = reader.byte()
        reader.take(1)
        size = reader.integer()
        odd_sizes += not 0 <= size <= MOST_SIZE
        runs.append(Run(begin, css_of(face, size, (reader.word(), reader.word(), reader.word()))))
    if odd_sizes:
        notes.append("Sizes that no letter has, and that aren't shown: %d." % odd_sizes)
    return runs


def css_of(face, size, color):
    """A style as CSS. The size 0 is that of the system; the wider and the narrower letters together are the usual ones."""
    parts = ["font-size:%dpx" % size] if 1 <= size <= MOST_SIZE else []
    face = face & ~96 if face & 96 == 96 else face
    parts += [css for bit, css in FACES if face & bit]
    parts += ["color:#%02x%02x%02x" % tuple(part >> 8 for part in color)] if color != BLACK else []
    return ";".join(parts)


def spans_of(data, runs):
    """The text with a span for each run of letters that isn't plain."""
    if not runs:
        return escaped(lines_of(data))
    ends = [run.begin for run in runs[1:]] + [len(data)]
    return "".join(span_of(data[run.begin:end], run.css) for run, end in zip(runs, ends))


def span_of(data, css):
    """The letters of a run; nothing for a run without any."""
    letters = escaped(lines_of(data))
    return '<span style="%s">%s</span>' % (css, letters) if css and letters else letters


KINDS = {b"TEXT": decode_text, b"styl": decode_styles}
