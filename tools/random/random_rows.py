#!/usr/bin/env python3
"""Prints random cases of `derez` with a type file, and of `rez` on what it shows, as tools/model/shown.py tells them.

    python3 tools/random/random_rows.py SEED COUNT > FOLDER/random.cases

Each two cases have one random declaration and resources of it: most spell a row, and some of these are changed in a
byte, cut or lengthened; now and then a name is a live macro. Every other declaration has labels, by random_types.py.
The first case has what `derez` shows, and the second has this text after the type file, from which `rez` must make
the fork again. This is no part of the gate: the program can be tried against it for as long as one likes.
"""
import random

import top  # noqa: F401
from runs import seeded
from random_types import LONG, changed, row_bytes, some_type
from model import shown
from model.case_lines import byte_lines
from model.fork import fork_of
from model.label_reading import read
from model.label_types import FORMS as WIDTHS, type_text
from model.type_files import declarations_of, tokens_of

NAMES = ["one", "Two", "three", "locked", "true", "kFour", "_five", "ONE"]
FORMS = ["byte", "integer", "longint", "boolean", "char", "bitstring"]


def some_number():
    """A number field: its words and its symbols."""
    form = random.choice(FORMS)
    width = WIDTHS.get(form) or random.choice([1, 2, 3, 7, 8, 9, 15, 16, 24, 31, 32])
    text = random.choice(["", "", "unsigned "]) + random.choice(["", "", "hex ", "decimal ", "octal ", "binary ", "literal "])
    text += form + ("[%d]" % width if form == "bitstring" else "")
    low = 0 if form in ("boolean", "char") else -2 ** (width - 1)
    symbols, value = [], -1
    for name in random.sample(NAMES, random.choice([0, 0, 0, 1, 2, 4])):
        given = value >= 2 ** min(width, 31) - 2 or random.random() < 0.5
        value = random.choice([0, 1, low, max(low, -1), min(2 ** width, 2 ** 31) - 1]) if given else value + 1
        symbols.append(name + (" = %d" % value if given else ""))
    return text + " " * bool(symbols) + ", ".join(symbols)


class Declaration:
    """The text of random fields; arrays get names that are used once."""

    def __init__(self):
        self.arrays = 0

    def body(self, depth):
        fields = [field for _ in range(random.randrange(1, 4)) for field in self.fields(depth)]
        return "; ".join(fields) + ";"

    def row(self, depth):
        """Fields of which one takes an item and has a width."""
        return self.body(depth) + " " + random.choice(["byte;", "pstring;", "bitstring[3]; boolean;"])

    def fields(self, depth):
        kinds = ["number"] * 4 + ["text"] * 3 + ["points", "fill", "align", "fixed"] + ["array", "counted", "switch"] * (depth > 0)
        kind = random.choice(kinds)
        if kind == "number":
            return [some_number()]
        if kind == "text":
            form = random.choice(["pstring", "wstring", "cstring", "string"])
            size = "[%d]" % random.randrange(1, 6) if form == "string" or random.random() < 0.3 else ""
            return [random.choice(["", "hex "]) + form + size]
        if kind == "points":
            return [random.choice(["point", "rect", "point = {1, -1}", "rect = {0, 2, $$ID, -4}"])]
        if kind == "fill":
            return ["fill " + random.choice(["bit", "nibble", "byte", "bit[3]", "byte[0]", "word"])]
        if kind == "align":
            return ["align " + random.choice(["nibble", "byte", "word", "long"])]
        if kind == "fixed":
            return [random.choice(["byte = 5", "integer = $$ID", "bitstring[3] = -1", 'pstring = "ab"', 'string[3] = "x"',
                                   'cstring = "q"', "boolean = true", "pstring = $$Name", "byte = 7 / 2 << 1"])]
        if kind == "array":
            return ["array [%d] { %s }" % (random.randrange(4), self.row(depth - 1))]
        if kind == "counted":
            self.arrays += 1
            name = "a%d" % self.arrays
            term = random.choice(["%s", "%s", "%s - 1", "%s * 3", "2 + %s", "9 - %s", "-%s", "%s << 2", "%s / 2", "%s >> 1",
                                  "(%s - 1) * 2", "%s & 3"]) % ("$$CountOf(%s)" % name)
            number = random.choice(["byte", "integer", "bitstring[5]", "longint"])
            return ["%s = %s" % (number, term)] + self.fields(0) + ["array %s { %s }" % (name, self.row(depth - 1))]
        first = random.choice(["", "byte; ", "boolean; fill bit[2]; "])
        number, most = random.choice([("byte", 20), ("bitstring[3]", 8), ("integer", 20)])
        keys = zip(["One", "two", "false"], random.sample(range(most), 3))
        return ["switch { %s }" % " ".join(
            "case %s: %skey %s = %d; %s" % (name, first, number, key, self.body(depth - 1)) for name, key in keys)]

    def whole(self):
        text = self.body(2)
        last = random.choice(["", "", "string; ", "hex string; integer; ", "array { %s }; " % self.row(1), "align byte; array { byte; }; byte = 0; "])
        return text + " " + last


# Resources.

def some_head(ident):
    name = bytes(random.choice(b'ab"\\\0\xE9') for _ in range(random.choice([0, 0, 1, 5, 65, 130])))
    attr = random.choice([0, 0, 0x20, 0x7E, random.randrange(256)])
    return b"Rand", ident, name, attr, b""


def some_resource(body, ident):
    """A resource of a type, or bytes near to those of one."""
    head = some_head(ident)
    content = row_bytes(body, shown.all_facts(head), LONG)
    return head[:4] + (changed(content) if random.random() < 0.4 else content,)


def text_lines(text):
    return "".join("| %s\n" % line if line else "|\n" for line in text.split("\n")[:-1])


MACROS = [""] * 4 + ["#define one\n", "#define Two 2\n", "#define TRUTH\n#define three four\n"]


def some_idents():
    return random.sample(range(-3, 4), random.randrange(1, 4))


def declared(types):
    """The fields of the one type that a text declares."""
    return declarations_of(tokens_of(types))[0][3]


def labelled():
    """A declaration with labels, and resources of it. Its text, when it is read, is the same declaration."""
    body = some_type(2, 3)
    resources = [some_resource(body, ident) for ident in some_idents()]
    types = type_text(body, "Rand")
    for each in resources:
        facts = shown.all_facts(each)
        assert read(body, each[4], facts) == read(declared(types), each[4], facts), types
    return types, resources


def unlabelled():
    """A declaration without labels, and resources of it."""
    types = "type 'Rand' { %s };\n" % Declaration().whole()
    return types, [some_resource(declared(types), ident) for ident in some_idents()]


def cases(k):
    """The two cases of a random declaration."""
    types, resources = labelled() if random.random() < 0.5 else unlabelled()
    types += random.choice(MACROS)
    fork = fork_of(resources)
    text = shown.derez(["f", "t.r"], {"f": fork, "t.r": types.encode()})
    given = "file text t.r\n" + text_lines(types)
    print("case random rows %d\nwords derez f t.r\nfile bytes f\n%s%sstatus 0\nout text\n%s" % (k, byte_lines(fork), given, text_lines(text)))
    print("case again: random rows %d\nwords rez t.r s.r -o x\n%sfile text s.r\n%sstatus 0\nleaves bytes x\n%s" % (k, given, text_lines(text), byte_lines(fork)))


def main():
    for k in seeded():
        cases(k)


if __name__ == "__main__":
    main()
