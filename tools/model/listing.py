"""What `list` prints of a file, by docs/LANGUAGE.md and docs/FORMATS.md alone: a second reading that knows nothing of
the code.

The file is read by forms.py and its fork by fork.py. The calendar is that of Python's datetime.
"""
import datetime

from model.fork import admitted
from model.forms import form_of, read_form
from model.quoting import quoted, words_of

FIRST, FIRST_OF_2040 = datetime.datetime(1904, 1, 1), 4291833600

# Which facts stand beside the name, the type, the creator and the flags. Of a raw file none does.
CARRIED = {"raw": (), "double": ("dates",), "single": ("dates", "data"), "macbin": ("lock", "dates", "data"), "hqx": ("data",)}


def text_of(data, form=None):
    """The lines of the file in these bytes, in the form that is stated or that it has; forms.Refused where it isn't told."""
    form = form or form_of(data)
    file = read_form(form, data)
    resources, _, _ = admitted(file.res)
    return "".join(line + "\n" for line in lines_of(form, file, resources))


def lines_of(form, file, resources):
    """The lines of a file of a form and of its resources."""
    lines = ["form " + form]
    if form != "raw":
        lines += ["name " + quoted(file.name, '"'), "type " + quoted(file.kind, "'"), "creator " + quoted(file.creator, "'"),
                  "flags 0x%04X" % file.flags]
    if "lock" in CARRIED[form]:
        lines.append("locked " + ("true" if file.locked else "false"))
    if "dates" in CARRIED[form]:
        lines += ["created " + date_text(file.created), "modified " + date_text(file.modified)]
    if "data" in CARRIED[form]:
        lines.append("data %d" % len(file.data))
    return lines + ["fork %d" % len(file.res), *map(resource_text, resources), "resources %d" % len(resources)]


def resource_text(resource):
    """The line of a resource: its type, its id, its name and its attributes, and its length."""
    kind, ident, name, attributes, content = resource
    parts = [str(ident)] + [quoted(name, '"')] * bool(name) + words_of(attributes)
    return "%s (%s) %d" % (quoted(kind, "'"), ", ".join(parts), len(content))


def date_text(seconds):
    """A date without a zone: `none` for 0, and from 2040 on the number of seconds since 1904."""
    if seconds == 0:
        return "none"
    if seconds >= FIRST_OF_2040:
        return str(seconds)
    return (FIRST + datetime.timedelta(seconds=seconds)).strftime("%Y-%m-%d %H:%M:%S")
