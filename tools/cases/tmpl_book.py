"""The cases of 'TMPL' resources, and templates that many of them have. tmpl_cases.py writes them."""
import re

from casefile import Book
from model import shown
from model.faults import Refused
from model.fork import image
from model.templates import types_of


BOOK = Book("tmpl.cases", "Types from 'TMPL' resources: `rez` and `derez` with -tmpl.",
            "Written by tools/cases/tmpl_cases.py, each message and what is shown by hand, the texts by tools/model/shown.py and tools/model/templates.py.")
case = BOOK.case
STRINGS = bytes.fromhex("05436F756E74 4F434E54 012A 4C535443 0454657874 50535452 012A 4C535445")
TWO_STRINGS = bytes.fromhex("0002 0141 024243")
LIST = "OCNT LSTC DBYT LSTE"
BROKEN = "LSTE"


def entries(codes):
    """The entries of codes with blanks between them, each maybe behind its label and a colon; `_` is a blank of an entry."""
    out = b""
    for word in codes.split():
        label, _, code = word.replace("_", " ").rpartition(":")
        out += bytes([len(label)]) + label.encode("mac_roman") + code.encode("mac_roman")
    return out


def file_of(*templates):
    """A fork of templates from 128 on: each a name and codes, or entries."""
    return image([(b"TMPL", 128 + k, name.encode("mac_roman"), 0, codes if isinstance(codes, bytes) else entries(codes))
                  for k, (name, codes) in enumerate(templates)])


def fork_of(kind, contents):
    """A fork of resources of a type from 128 on; a string spells bytes in hexadecimal."""
    return image([(kind.encode("mac_roman"), 128 + k, b"", 0, bytes.fromhex(content) if isinstance(content, str) else content)
                  for k, content in enumerate(contents)])


def message(number, ident, place):
    return "rezkit: error %s\n" % Refused(number, ident, place)


def told_by_model(file):
    """The message of a file with templates by the second reading, or nothing."""
    try:
        types_of(file)
        return ""
    except Refused as fault:
        return message(fault.number, *fault.args[1:])


def show(name, templates, fork, ids, words="derez f -tmpl t", others=(), warns="", again=True):
    """A case of `derez`: by hand stand the ids of the resources that are shown by their fields. Its text is compiled again."""
    text = shown.derez(words.split()[1:], {"t": templates, "f": fork, **{file: data.encode() for file, data in others}})
    came = [int(ident) for ident in re.findall(r"^resource '.*' \((-?\d+)", text, re.M)]
    assert came == list(ids), (name, came, text)
    case(name, words, [("f", fork), ("t", templates), *others], out=text, err=warns)
    if ids and again:
        types = " ".join(file for file, _ in others)
        case(name + ", again", "rez %s -rd -tmpl t -o g" % (types + " a.r").strip() if others else "rez a.r -tmpl t -o g",
             [("a.r", text), ("t", templates), *others], leaves=[("g", fork)])


def fields(name, codes, contents, ids):
    """The same of one template for the type of all resources."""
    show(name, file_of(("Test", codes)), fork_of("Test", contents), ids)


def compiles(name, templates, source, contents, kind="Test", words="rez s.r -tmpl t -o f", warns="", others=()):
    """A case of `rez` whose source gives resources of a type from 128 on."""
    case(name, words, [("s.r", source), ("t", templates), *others], leaves=[("f", fork_of(kind, contents))], err=warns)


def refuse(name, templates, says, words="derez f -tmpl t", files=(("f", fork_of("Test", ["00"])),)):
    """A case of `derez` that is refused, or of `rez`, and leaves no file."""
    case(name, words, [*files, ("t", templates)], gone=["o"] * words.startswith("rez"), status=2, err=says)


def refuse_source(name, templates, source, says):
    """A case of `rez` whose source is refused."""
    refuse(name, templates, "".join("rezkit: s.r:%s\n" % line for line in says.split("; ")), "rez s.r -tmpl t -o o", [("s.r", source)])


def faulty(name, codes, number, place):
    """A case of a template that is refused with the place of an entry: in turn by `derez` and by `rez`."""
    templates, says = file_of(("Test", codes)), message(number, 128, place)
    assert told_by_model(templates) == says, (name, told_by_model(templates))
    if len(BOOK.names) % 2:
        refuse(name, templates, says)
    else:
        refuse(name, templates, says, "rez s.r -tmpl t -o o", [("s.r", ";\n")])


def passed_over(name, codes):
    """A case of a template that declares nothing: its resources are shown as bytes."""
    show(name, file_of(("Test", codes)), fork_of("Test", ["00", ""]), [])
