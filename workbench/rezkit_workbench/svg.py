"""Elements of SVG, and texts in it that are as wide as the system font of the Macintosh."""
from .chicago import width_of
from .letters import escaped

HALF = 0.5  # a line of one pixel stands half a pixel inside
HATCHING = "over-hatching"  # the pattern that fills what a text may not fit
DEFINITIONS = ('<svg class="definitions" width="0" height="0" aria-hidden="true"><defs><pattern id="%s" width="6" height="6" '
               'patternUnits="userSpaceOnUse" patternTransform="rotate(45)"><rect width="6" height="6" fill="#fff3e0"/>'
               '<rect width="2" height="6" fill="#f0a080"/></pattern></defs></svg>\n' % HATCHING)
STYLE = """.drawing{background:#fff;max-width:100%%;height:auto;font:12px Chicago,ChicagoFLF,Charcoal,Geneva,Verdana,sans-serif}
.drawing text{white-space:pre;fill:#000}
.drawing .line{fill:none;stroke:#000}
.drawing .box{fill:#fff;stroke:#000}
.drawing .black{fill:#000}
.drawing .dashed{fill:none;stroke:#667;stroke-dasharray:3 2}
.drawing .over{fill:url(#%s);stroke:#b00020;stroke-dasharray:5 2}
.drawing .dim{fill:#777}
.drawing .bar{fill:#ddd}
.drawing .paper{fill:#fff}
.drawing .stripe{fill:none;stroke:#888}
.drawing .separator{fill:none;stroke:#999}
.drawing .hollow{fill:#fff;stroke:#000;stroke-width:.6}
.drawing image{image-rendering:pixelated}
.definitions{position:absolute}
""" % HATCHING


def quoted(value):
    """A text or a number as an attribute has it."""
    return escaped(value) if isinstance(value, str) else "%g" % value


def tag(element, content="", **attributes):
    """An element. In the name of an attribute _ stands for a hyphen, and one at its end is left out; None leaves it out."""
    words = "".join([' %s="%s"' % (name.rstrip("_").replace("_", "-"), quoted(value)) for name, value in attributes.items() if value is not None])
    return "<%s%s>%s</%s>" % (element, words, content, element) if content else "<%s%s/>" % (element, words)


def box(left, top, width, height, look, **more):
    """A rectangle whose line of one pixel is within these bounds."""
    return tag("rect", x=left + HALF, y=top + HALF, width=max(0, width - 1), height=max(0, height - 1), class_=look, **more)


def area(left, top, width, height, look):
    """A filled rectangle."""
    return tag("rect", x=left, y=top, width=max(0, width), height=max(0, height), class_=look)


def line(left, top, right, bottom, look="line"):
    """A line from the middle of a pixel to the middle of another."""
    return tag("path", d="M%g %gL%g %g" % (left + HALF, top + HALF, right + HALF, bottom + HALF), class_=look)


def image(left, top, width, height, address):
    """A picture that fills a rectangle."""
    return tag("image", x=left, y=top, width=width, height=height, href=address, preserveAspectRatio="none")


def text(left, base, letters, width=None, **more):
    """A line of text on its base line, as wide as is stated, or as its letters are."""
    if not letters.strip():
        return ""
    return tag("text", escaped(letters), x=left, y=base, textLength=width_of(letters) if width is None else width,
               lengthAdjust="spacingAndGlyphs", **more)


def group(title, content):
    """What belongs to one thing, with the text that a pointer over it shows."""
    return tag("g", tag("title", escaped(title)) + content)


def drawing(left, top, width, height, label, content):
    """A drawing on its own ground: its bounds, its name, its elements."""
    return tag("svg", content, class_="drawing", role="img", aria_label=label, width=width, height=height,
               viewBox="%g %g %g %g" % (left, top, width, height))


def clipped(left, top, width, height, content):
    """What is seen through a rectangle; the places within it count from where they did outside."""
    return tag("svg", content, x=left, y=top, width=width, height=height, viewBox="%g %g %g %g" % (left, top, width, height))
