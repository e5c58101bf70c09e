"""'TMPL' resources as declarations of types: a second reading of docs/LANGUAGE.md and docs/FORMATS.md.

It knows nothing of the code. Each list of a template is read by itself, and becomes the text of the fields of a `type`
statement, of which shown.py makes a declaration.
"""
from model.faults import Refused
from model.fork import admitted
from model.forms import form_of, read_form

FIELDS = {
    "DBYT": "byte", "DWRD": "integer", "DLNG": "longint", "HBYT": "hex byte", "HWRD": "hex integer", "HLNG": "hex longint",
    "FBYT": "fill byte", "FWRD": "fill word", "FLNG": "fill long", "AWRD": "align word", "ALNG": "align long",
    "PSTR": "pstring", "CSTR": "cstring", "CHAR": "char", "TNAM": "literal longint", "RECT": "rect", "HEXD": "hex string"}
COUNTS = {"OCNT": "integer = $$CountOf(%s)", "ZCNT": "integer = $$CountOf(%s) - 1"}
LISTS = ("LSTC", "LSTB")
CODES = {*FIELDS, *COUNTS, *LISTS, "LSTE"}
MOST_OPEN = 60


class Template:
    """The entries of a template, from the front, and how many of its lists have a name so far."""

    def __init__(self, data):
        self.data, self.at, self.named = data, 0, 0

    def next(self):
        """The place of the next entry and its code; at the end no code."""
        place = self.at
        if place == len(self.data):
            return place, None
        self.at += 1 + self.data[place] + 4
        if self.at > len(self.data):
            raise Refused(451, place)
        code = self.data[self.at - 4:self.at].decode("latin-1")
        if code not in CODES:
            raise Refused(452, place)
        return place, code

    def fields(self, lists):
        """The fields up to the end of a list, or of the template where no list is open: so many are. Each is a text."""
        found, count = [], None
        while True:
            place, code = self.next()
            if code in FIELDS:
                found.append(FIELDS[code])
            elif code in COUNTS:
                need(count is None, 454, place)
                count = len(found)
                found.append(COUNTS[code])
            elif code in LISTS:
                name = ""
                if code == "LSTC":
                    need(count is not None, 454, place)
                    self.named += 1
                    name = "L%d " % self.named
                    found[count] %= name.strip()
                    count = None
                need(lists < MOST_OPEN, 456, place)
                found.append("array %s{ %s; }" % (name, "; ".join(self.fields(lists + 1))))
            else:
                need((code == "LSTE") == (lists > 0), 453, place)
                need(count is None, 454, place)
                need(lists == 0 or any(not field.startswith(("fill", "align")) for field in found), 455, place)
                return found


def need(holds, number, place):
    if not holds:
        raise Refused(number, place)


def fields_of(data):
    """The text of the fields that a template declares, or its first fault with the place of the entry."""
    return "".join(field + "; " for field in Template(data).fields(0))


def types_of(file):
    """What the templates of a file declare, in their order: each a type and the text of its fields. Or the first fault."""
    found = []
    for kind, ident, name, _, content in admitted(read_form(form_of(file), file).res)[0]:
        if kind == b"TMPL" and len(name) == 4:
            try:
                found.append((name, fields_of(content)))
            except Refused as fault:
                if fault.number != 452:
                    raise Refused(fault.number, ident, fault.args[1]) from None
    return found
