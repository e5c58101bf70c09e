"""The page of rezkit-draw: what stands around the drawings."""
from . import svg
from .letters import escaped

STYLE = """:root{color-scheme:light dark;--ground:#fff;--ink:#1a1a1a;--soft:#555;--line:#ccc;--warning:#fff3e0;--warning-ink:#7a1500;--link:#0645ad}
@media (prefers-color-scheme:dark){:root{--ground:#16181c;--ink:#e6e6e6;--soft:#aaa;--line:#444;--warning:#3a2412;--warning-ink:#ffcba4;--link:#8ab4f8}}
body{margin:0 auto;padding:1rem;max-width:60rem;background:var(--ground);color:var(--ink);font:1rem/1.45 system-ui,sans-serif}
body{overflow-wrap:anywhere}
a{color:var(--link)}
h1{font-size:1.6rem}h2{font-size:1.3rem;border-top:2px solid var(--line);padding-top:1rem;margin-top:2.5rem}h3{font-size:1.05rem;margin:2rem 0 .3rem}
p,ul{margin:.3rem 0}
.about{color:var(--soft);font-size:.9rem}
.warning{background:var(--warning);color:var(--warning-ink);border-left:4px solid;padding:.4rem .8rem;margin:.5rem 0}
figure{margin:.7rem 0}
summary{cursor:pointer}
.wide{overflow-x:auto}
table{border-collapse:collapse;font-size:.85rem;overflow-wrap:normal}
th,td{border:1px solid var(--line);padding:.15rem .5rem;text-align:left;vertical-align:top;white-space:pre-wrap}
""" + svg.STYLE
ABOUT = """The drawings show what the resources say. Each text is as wide as it is in Chicago, the system font, at 12 points; a table
has the widths. So it is an estimate that a text may not fit. A box with a dashed line stands for what the program draws, and for
what the file lacks. Item 1 of a dialog is drawn as the default button if it is a button. That is the custom, and a program can
choose another item. ^0 to ^3 stand for texts that the program puts in. A disabled item of a dialog looks like the others: it
is disabled only in that the program isn't told of clicks in it."""
PAGE = """<!DOCTYPE html>
<html lang="en">
<head>
<meta charset="utf-8">
<meta name="viewport" content="width=device-width, initial-scale=1">
<title>%s</title>
<style>
%s</style>
</head>
<body>
%s<main>
<h1>Dialogs and menus</h1>
<p class="about">%s</p>
%s%s</main>
</body>
</html>
"""


def paragraph(text, look=None):
    return svg.tag("p", escaped(text), class_=look) + "\n" if text else ""


def listed(texts):
    """A list of sentences, or nothing."""
    return "<ul>%s</ul>\n" % "".join("<li>%s</li>" % escaped(each) for each in texts) if texts else ""


def warning(texts):
    """The texts that may not fit."""
    return '<div class="warning"><p>What may not fit:</p>%s</div>\n' % listed(texts).rstrip("\n") if texts else ""


def table(title, head, rows):
    """A table that opens by a click. The cells of the rows are escaped already."""
    if not rows:
        return ""
    names = "".join('<th scope="col">%s</th>' % escaped(each) for each in head)
    body = "".join("<tr>%s</tr>\n" % "".join("<td>%s</td>" % each for each in row) for row in rows)
    return ('<details><summary>%s</summary><div class="wide"><table>\n<thead><tr>%s</tr></thead>\n<tbody>\n%s</tbody>\n</table></div></details>\n'
            % (escaped(title), names, body))


def section(heading, *parts):
    """A resource with its heading."""
    return "<section>\n<h3>%s</h3>\n%s</section>\n" % (escaped(heading), "".join(parts))


def figure(drawing):
    return "<figure>%s</figure>\n" % drawing


def file_section(number, name, parts):
    """A file with what was drawn of it."""
    return '<section id="file-%d">\n<h2>%s</h2>\n%s</section>\n' % (number, escaped(name), "".join(parts))


def contents(names):
    """The files as links, if there are several."""
    if len(names) < 2:
        return ""
    links = "".join('<li><a href="#file-%d">%s</a></li>' % (number, escaped(name)) for number, name in enumerate(names, 1))
    return '<nav aria-label="Files"><ul>%s</ul></nav>\n' % links


def page(names, sections):
    """The whole page."""
    title = "Dialogs and menus of %s" % (names[0] if len(names) == 1 else "%d files" % len(names))
    return PAGE % (escaped(title), STYLE, svg.DEFINITIONS, escaped(ABOUT), contents(names), "".join(sections))
