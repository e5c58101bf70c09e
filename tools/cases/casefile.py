"""Case files of crates/rezkit_cases: a Book is the lines of one. Also forks and strings that several scripts put in."""
import os
import re

from top import TOP
from files import rows_of
from model.case_lines import content
from model.fork import image, resource_of

DATA = os.path.join(TOP, "crates", "rezkit_cases", "data")


def pascal(text):
    """A string after its length."""
    return bytes([len(text)]) + text


def one(content, kind=b"Test", ident=1, name=b"", attr=0):
    """A fork with one resource."""
    return image([(kind, ident, name, attr, content)])


def put(data, *changes):
    """The bytes with others from places on: pairs of a place and hexadecimal digits."""
    for at, digits in changes:
        other = bytes.fromhex(digits)
        data = data[:at] + other + data[at + len(other):]
    return data


def resources_of(text):
    """The resources that a text names as comments of model.fork do, with ` & ` between them, or `nothing`."""
    return [] if text == "nothing" else [resource_of("# fork " + each) for each
                                         in text.replace("\\0x01", "\1").split(" & ")]


def expanded(text):
    """A text in which `«TEXT×N»` stands for N times TEXT."""
    return re.sub("«(.*?)×([0-9]+)»", lambda run: run[1] * int(run[2]), text)


class Book:
    """The lines of a case file, which its parts put in. No two cases of a file have one name."""

    all = []  # in the order in which they begin

    def __init__(self, name, *says):
        self.name, self.lines, self.names, self.parts = name, [], set(), []
        self.say(*says)
        self.all.append(self)

    def say(self, *says):
        """A comment between cases."""
        self.lines += ["# " + line for line in says] + [""]

    def part(self, *says):
        """Makes a function the next part of the file, after a comment."""
        def added(function):
            self.parts.append((says, function))
            return function
        return added

    def case(self, name, words, files=(), keys=(), status=0, leaves=(), gone=(), out="", err=""):
        """A case: `files` and `leaves` are pairs of a name and a content, `keys` further lines."""
        assert name not in self.names, name
        self.names.add(name)
        self.lines += ["case " + name, "words " + words] + list(keys)
        for file, data in files:
            self.lines += content("file", file, data)
        self.lines.append("status %d" % status)
        for file, data in leaves:
            self.lines += content("leaves", file, data)
        self.lines += ["gone " + file for file in gone]
        for stream, text in (("out", out), ("err", err)):
            self.lines += content(stream, "", text) if text else []
        self.lines.append("")

    def table(self, rows, add=None):
        """The cases that `add`, or else `line`, makes of each row of a table. A line after `//` says what is tried."""
        for row in rows_of(rows):
            if row.startswith("//"):
                self.say(row[2:].strip())
            else:
                (add or self.line)(row)

    def lines_of(self, says, rows, add=None):
        """Makes a table the next part of the file, after a comment."""
        self.part(says)(lambda: self.table(rows, add))

    def refused(self, name, words, says, files=(), gone=(), keys=(), status=2):
        """A case with a line on `err` alone, as it stands after the program's name."""
        self.case(name, words, files, keys, status, gone=gone, err="rezkit: %s\n" % says)

    def rez(self, name, source, leaves=None, err="", files=(), words="rez s.r -o x", keys=()):
        """A case of `rez` of a source s.r: what is left in x, or the line on `err` after the file's name."""
        files = [("s.r", source), *files]
        if err:
            self.refused(name, words, "s.r:" + err, files, ["x"] * ("-a" not in words), keys)
        else:
            self.case(name, words, files, keys, leaves=[("x", leaves)] * (leaves is not None))

    def derez(self, name, types, fork, shown, keys=()):
        """A case of `derez` of a fork with a line of types."""
        self.case(name, "derez f t.r", [("f", fork), ("t.r", types + "\n")], keys, out=shown)

    def make(self):
        """Has the parts put in their cases."""
        for says, function in self.parts:
            if says:
                self.say(*says)
            function()

    def finish(self, writes):
        """Writes the file, or says whether it is what stands there."""
        path, text = os.path.join(DATA, self.name), "\n".join(self.lines[:-1]) + "\n"
        before = None
        if os.path.exists(path):
            with open(path, encoding="utf-8") as file:
                before = file.read()
        if writes:
            with open(path, "w", encoding="utf-8") as file:
                file.write(text)
        same = writes or before == text
        print("%s: %d cases%s" % (self.name, text.count("\ncase "), "" if same else ", and the file has others"))
        return same
