#!/usr/bin/env python3
"""Makes random 'TMPL' resources, and compares what the built program does under them with a second reading.

    python3 tools/random/random_templates.py [PROGRAM [COUNT [SEED]]]

PROGRAM is the one that ./rezkit runs, COUNT 10,000 and SEED 1 unless others are named. Each list of entries is one
that declares fields, or such a one that is changed or cut, or lists about as deep as may be, or entries by chance. It
stands in a file of templates, beside others, in one of the forms. `derez` shows a fork of resources under it, whose
bytes are of its fields, or nearly, or by chance; each text with a `resource` statement is compiled again, which must
give the fork. What comes has to be what templates.py and shown.py say, which know nothing of the code. Printed is how
often each answer came. The status is 1 if another came. This is no part of the gate.
"""
import random
import re
import sys

import top  # noqa: F401
from model.faults import Refused
from model.fork import image
from model.forms import File, written
from model.label_types import Align, Fill, Number, Points, Text, UNITS
from model.labels import width_of
from model.shown import derez
from model.templates import COUNTS, FIELDS, LISTS, types_of
from model.type_files import fields_of
from runs import run_all

CODES = [*FIELDS, *COUNTS, *LISTS, "LSTE"]
OTHERS = ["BOOL", "BBIT", "LSTZ", "H010", "dbyt", "\0\0\0\0"]


class Maker:
    """Makes entries, files and bytes by a random sequence."""

    def __init__(self, seed):
        self.random = random.Random(seed)

    def some(self, *choices):
        return self.random.choice(choices)

    def bytes(self, count):
        return bytes(self.random.randrange(256) for _ in range(count))

    # Templates.

    def sound(self, room, free, lists=0):
        """Codes that declare fields, with lists in lists; where they aren't free, none of them goes on to the end."""
        out, waits = [], False
        for _ in range(self.random.randrange(room + 1)):
            counted = waits and self.some(0, 1)
            if self.random.random() < 0.65 or room < 4 or lists > 5:
                out.append(self.some(*[code for code in FIELDS if free or code != "HEXD"]))
            elif not waits:
                out, waits = out + [self.some(*COUNTS)], True
            elif counted or free:
                out, waits = out + self.list("LSTC" if counted else "LSTB", room, free, lists), not counted
        return out + self.list("LSTC", room, free, lists) if waits else out

    def list(self, code, room, free, lists):
        """A list whose rows have a value."""
        return [code, *self.sound(room // 2, free, lists + 1), self.some("HBYT", "PSTR", "DWRD", "CSTR", "CHAR"), "LSTE"]

    def whole(self, room):
        """Codes that declare fields; those of most can be read."""
        end = self.some([], [], ["HEXD"], self.list("LSTB", room, False, 0))
        behind = [self.some("DBYT", "HLNG", "CHAR", "TNAM", "RECT", "FWRD") for _ in range(self.some(0, 0, 1, 2))]
        return self.sound(room, True) if self.some(0, 0, 0, 1) else self.sound(room, False) + end + behind

    def codes(self):
        """Codes of one of several kinds."""
        kind = self.random.random()
        if kind < 0.55:
            return self.whole(self.some(2, 4, 8, 12))
        if kind < 0.8:
            return self.changed(self.whole(self.some(4, 8)) or ["DBYT"])
        if kind < 0.88:
            count, lists = self.random.randrange(58, 63), self.some(["OCNT", "LSTC"], ["ZCNT", "LSTC"], ["LSTB"])
            deep = lists * count + ["HBYT"] + ["LSTE"] * count
            return self.changed(deep) if self.some(0, 1) else deep
        return [self.some(*CODES, "LSTE", "LSTC", "OCNT", "LSTB") for _ in range(self.random.randrange(10))]

    def changed(self, codes):
        """The codes with one or two of them changed."""
        codes = list(codes)
        for _ in range(self.some(1, 1, 2)):
            place = self.random.randrange(len(codes) + 1)
            how = self.some("in", "out", "other", "swap", "unknown")
            if how == "in":
                codes.insert(place, self.some(*CODES, "LSTE", "LSTC", "OCNT"))
            elif how == "unknown" and self.some(0, 1):
                codes.insert(place, self.some(*OTHERS))
            elif how == "out":
                codes[place:place + 1] = []
            elif how == "other" and place < len(codes):
                codes[place] = self.some(*CODES)
            elif place + 1 < len(codes):
                codes[place:place + 2] = codes[place + 1], codes[place]
        return codes

    def entries(self, codes):
        """The bytes of such entries, their labels by chance; some are cut."""
        out = b""
        for code in codes:
            label = self.bytes(self.some(0, 0, 0, 1, 3, 9, 255 if self.some(*range(40)) == 0 else 2))
            out += bytes([len(label)]) + label + code.encode("latin-1")
        return out[:self.random.randrange(len(out) + 1)] if self.random.random() < 0.1 else out

    # Bytes of fields.

    def rows(self, at):
        """A number of rows; far from the start there are none."""
        return self.random.randrange(4) if at < 200 else 0

    def row_of(self, fields, counts, at):
        """Bytes of a row of fields from a place on."""
        out = b""
        for field in fields:
            if isinstance(field, Number) and field.fixed is not None:
                tree = field.fixed.tree
                less, name = (1, tree[1][1]) if tree[0] == "-" else (0, tree[1])
                counts[name] = self.rows(at + len(out))
                out += ((counts[name] - less) % 65536).to_bytes(2, "big")
            elif isinstance(field, (Number, Points, Fill)):
                out += bytes(width_of(field) // 8) if isinstance(field, Fill) else self.bytes(width_of(field) // 8)
            elif isinstance(field, Text):
                text = self.bytes(self.some(0, 1, 2, 3, 20))
                out += {"pstring": bytes([len(text)]) + text, "cstring": text.replace(b"\0", b"") + b"\0"}.get(field.form, text)
            elif isinstance(field, Align):
                out += bytes(-(at + len(out)) % (UNITS[field.unit] // 8))
            else:
                for _ in range(counts[field.name] if field.name else self.rows(at + len(out))):
                    out += self.row_of(field.row, counts, at + len(out))
        return out

    def content(self, fields):
        """Bytes of a row of fields, half of them changed."""
        data = self.row_of(fields, {}, 0)
        place = self.random.randrange(len(data) + 1)
        how = self.random.random()
        return (data if how < 0.5 else data[:place] + self.bytes(1) + data[place + 1:] if how < 0.7 else data[:place] + data[place + 1:] if how < 0.8
                else data + self.some(b"\0", b"\1") if how < 0.9 else self.bytes(self.random.randrange(12)))

    # Files.

    def templates(self):
        """A file of one template or more, some with a name that isn't one of a type."""
        held = {}
        for k in range(self.some(1, 1, 1, 2, 3)):
            name = self.some(b"Test", b"Test", b"Test", b"Test", b"More", b"Tes", b"")
            held[self.random.randrange(-32768, 32768)] = (name, self.entries(self.codes()))
        res = image([(self.some(b"TMPL", b"TMPL", b"TMPL", b"TMPl") if k else b"TMPL", ident, name, 0, data) for k, (ident, (name, data)) in enumerate(held.items())])
        form = self.some("raw", "raw", "raw", "double", "single", "macbin", "hqx")
        return written(form, File(name=b"Templates", res=res))

    def fork(self, types):
        """A fork of resources of the types."""
        held = []
        for kind in [b"Test"] + [b"More"] * self.some(0, 1):
            fields = [fields_of(text) for name, text in types if name == kind]
            for k in range(self.some(1, 2, 4)):
                content = self.content(self.some(*fields)) if fields else self.bytes(self.random.randrange(4))
                held.append((kind, 128 + k, b"", 0, content))
        return image(held)


def wanted(templates, make):
    """A fork, and what `derez` has to print of it, or its message."""
    try:
        types = types_of(templates)
    except Refused as fault:
        return make.fork([]), "", "rezkit: error %s\n" % fault
    fork = make.fork(types)
    return fork, derez(["f", "-tmpl", "t"], {"f": fork, "t": templates}), ""


def steps(runs, count, seed):
    make = Maker(seed)
    for number in range(count):
        templates = make.templates()
        fork, out, err = wanted(templates, make)
        answer = err[14:17] or ("by fields" if re.search("^resource ", out, re.M) else "by bytes")
        files = {"f": fork, "t": templates}
        good = runs.run(number, ["derez", "f", "-tmpl", "t"], files, (2 if err else 0, out.encode(), err.encode(), {}), answer)
        if good and answer == "by fields":
            files = {"a.r": out.encode(), "t": templates}
            runs.run(number, ["rez", "a.r", "-tmpl", "t", "-o", "g"], files, (0, b"", b"", {"g": fork}), "again")


def main():
    run_all(sys.argv[1:], 10000, steps, "lists")


if __name__ == "__main__":
    main()
