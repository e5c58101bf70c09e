"""The cases of the types in types/. type_cases.py writes them."""
import os
import re

from casefile import Book
from top import TOP
from model.fork import image, spelled


FOLDER = os.path.join(TOP, "types")
BOOK = Book("standard_types.cases",
            "Resources of each type of types/Types.r and types/Texts.r: shown, and compiled again.",
            "Written by tools/cases/type_cases.py, with items and bytes by hand.")


# The declarations, as they stand in the type files.

class TypeFile:
    """A type file: its macros and its declarations, each name, or head of a declaration, with its lines.

    choices: the lines that give a macro a value which has none; used: the heads of which a resource stands here.
    """

    def __init__(self, name):
        self.name, self.macros, self.types, self.choices, self.used = name, {}, {}, [], set()
        with open(os.path.join(FOLDER, name), encoding="ascii") as file:
            self.read(file.read().split("\n"))

    def read(self, lines):
        """Cuts the lines into choices, macros and declarations."""
        at = 0
        while at < len(lines):
            line, first = lines[at], at
            define = re.match(r"#define (\w+)", line)
            kind = re.match(r"type ('.{4}'(?: \(\d+\))?)", line)
            if re.match(r"#ifndef (SystemSevenOrLater|thng_RezTemplateVersion)$", line):
                depth = 1
                while depth:
                    at += 1
                    depth += lines[at].startswith("#if") - lines[at].startswith("#endif")
                self.choices.append("\n".join(lines[first:at + 1]))
            elif define:
                while lines[at].endswith("\\"):
                    at += 1
                self.macros[define[1]] = re.sub(r"\\\n *", "", "\n".join(lines[first:at + 1]))
            elif kind:
                while not re.match(r"};$|type .* as .*;$", lines[at]):
                    at += 1
                self.types[kind[1]] = "\n".join(lines[first:at + 1])
            at += 1

    def macros_of(self, text, found):
        """The macros that a text needs, those that they need first."""
        for word in re.findall(r"\w+", re.sub(r"//.*|/\*.*?\*/", "", text)):
            if word in self.macros and word not in found:
                found = self.macros_of(self.macros[word].split(word, 1)[1], found + [word])
        return found

    def declared(self, head):
        """The lines that declare a type, after those of the type that it is declared as."""
        other = re.match(r"type .* as ('.{4}');$", self.types[head])
        return (self.declared(other[1]) if other else "") + self.types[head] + "\n"

    def declaration(self, *heads):
        """The part of the file that declares types."""
        text = "".join(self.declared(head) for head in heads)
        needed = self.macros_of(text, [])
        choices = [each for each in self.choices if each.split()[1] in text]
        macros = [line for name, line in self.macros.items() if name in needed]
        return "".join(each + "\n" for each in choices + macros) + text


STANDARD, TEXTS = TypeFile("Types.r"), TypeFile("Texts.r")


# The layout of items.

def hex_lines(piece):
    data = spelled(piece)
    rows = [data[at:at + 16].hex().upper() for at in range(0, len(data), 16)] or [""]
    return ['$"%s"' % " ".join(row[at:at + 4] for at in range(0, len(row), 4)) for row in rows]


def laid(items):
    """Items in the layout of docs/LANGUAGE.md."""
    tokens = [token for line in items.strip().split("\n") for token in line.strip().split("; ") if token]
    lines, depth = [], 1
    for token, after in zip(tokens, tokens[1:] + ["}"]):
        depth -= token == "}"
        parts = hex_lines(token[1:]) if token.startswith("$") else [token]
        parts[-1] += "," if after != "}" and not token.endswith("{") else ""
        lines += ["    " * depth + part for part in parts]
        depth += token.endswith("{")
    return "".join(line + "\n" for line in lines)


def shown(kind, ident, items):
    """A resource as derez shows it."""
    return "resource '%s' (%d) {\n%s};\n\n" % (kind, ident, laid(items))


def one(kind, items, content, ident=128, name="", options="", of=STANDARD):
    """Two cases of a resource of a type."""
    head = "'%s'" % kind if "'%s'" % kind in of.types else "'%s' (%d)" % (kind, ident)
    of.used.add(head)
    title = "".join([head[1:5] + head[6:], ", " + name if name else "", "" if of is STANDARD else ", of " + of.name])
    text = shown(kind, ident, items)
    fork = image([(kind.encode(), ident, b"", 0, spelled(content))])
    types = ("t.r", of.declaration(head))
    BOOK.case("shown: " + title, "derez f t.r" + options, [("f", fork), types], out=text)
    BOOK.case("compiled: " + title, "rez t.r s.r -o x" + options, [types, ("s.r", text)], leaves=[("x", fork)])


EITHER, BEFORE = " -d EitherSystem", " -d SystemSevenOrLater=0"
