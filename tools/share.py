#!/usr/bin/env python3
"""How much of a fork `derez` shows by the fields of types, why not the rest, and that the text gives the fork again.

    python3 tools/share.py [OPTION..] FORK..

    --program NAME   the program (the one that ./rezkit runs unless stated)
    --types NAME     the type file (types/Types.r of the repository unless stated; types/Texts.r for a translation); also
                     of `rez`, by -i of its folder
    --define MACRO   a macro of -d, for both commands; as often as you like
    --changed N      looks at N more forks for each FORK, in which some bytes of each resource were changed by chance
    --seed N         where chance begins (1 unless stated)

A FORK may have any form: `bridge -to raw` takes its resource fork. For each, a line says how many resources are shown
as `resource`, and whether `rez` makes of the text the same file again ("same bytes") or, if the file had another
layout, other reserved bytes or attributes of its map, which text doesn't keep, the same resources in the same order
("same resources"). Then a table says for each type how many resources are shown by fields, and of the others

    no declaration   `rez` says 202 of an empty `resource` statement with the type and id
    don't fit        the type can be read, since a resource of it was shown: one of the forks, or one that is tried,
                     of zero bytes alone or after the first bytes of one of those that weren't shown. So the bytes
                     are of no plain row of the fields, or a case of the row has the name of a macro
    not readable?    nothing of the type was shown. The type can't be read, or no bytes that were tried fit it: the
                     program doesn't say which

The status is 0 if each fork came back, 1 if one didn't or a command refused it, and 2 for wrong arguments.
"""
import argparse
import os
import random
import re
import subprocess
import sys
import tempfile

from model.faults import Refused
from model.fork import admitted, image
from running import program_to_run

TOP = os.path.dirname(os.path.dirname(os.path.realpath(__file__)))
HEAD = re.compile(rb"^(data|resource) '((?:\\0x..|\\.|[^'\\])*)' \((-?\d+)", re.M)
ZEROS, FRONT, FRONTS = 601, 48, 4  # so many zero bytes are tried, and so many after as many bytes of so many resources


class Failed(Exception):
    """A command refused what it was given."""


class Program:
    """The commands, with the program and the options that they all have."""

    def __init__(self, name, types, defines, folder):
        self.name, self.types, self.folder = os.path.abspath(name), os.path.abspath(types), folder
        self.options = ["-i", os.path.dirname(self.types)] + [word for each in defines for word in ("-d", each)]
        self.undeclared, self.readable, self.hidden = {}, {}, {}

    def path(self, name):
        return os.path.join(self.folder, name)

    def write(self, name, data):
        with open(self.path(name), "wb") as file:
            file.write(data)
        return self.path(name)

    def run(self, *words):
        """What a command prints, or its first line of standard error if it refuses."""
        ran = subprocess.run([self.name, *words], stdout=subprocess.PIPE, stderr=subprocess.PIPE)
        if ran.returncode:
            said = ran.stderr.decode("utf-8", "replace").splitlines()
            raise Failed(said[-1] if said else "status %d" % ran.returncode)
        return ran.stdout

    def derez(self, fork):
        """The text of a fork under the types, and of each resource whether its fields are shown."""
        text = self.run("derez", fork, self.types, *self.options)
        return text, [found[1] == b"resource" for found in heads(text)]

    def is_undeclared(self, kind, ident):
        """Whether `rez` knows no declaration for the type and id."""
        if (kind, ident) not in self.undeclared:
            literal = b"".join(b"\\0x%02X" % byte for byte in kind)
            source = self.write("empty.r", b"resource '%s' (%d) { };\n" % (literal, ident))
            try:
                self.run("rez", self.types, source, "-o", self.path("empty"), *self.options)
                self.undeclared[kind, ident] = False
            except Failed as fault:
                self.undeclared[kind, ident] = "error 202 " in str(fault)
        return self.undeclared[kind, ident]

    def can_be_read(self, kind):
        """Whether some bytes that are tried are shown by the fields of a type, with ids from 0 on."""
        if kind not in self.readable:
            tried = [bytes(count) for count in range(ZEROS)]
            tried += [content[:front] + bytes(count) for content in self.hidden[kind]
                      for front in range(1, FRONT + 1) for count in range(FRONT + 1)]
            fork = self.write("tried", image([(kind, ident, b"", 0, each) for ident, each in enumerate(tried)]))
            self.readable[kind] = any(self.derez(fork)[1])
        return self.readable[kind]


def heads(text):
    """The heads of the statements of a text, which begin its lines; a text has no such lines but them."""
    return HEAD.finditer(text)


def changed(resources, chance):
    """The resources, some bytes of each another, and now and then one more or fewer at the end."""
    out = []
    for kind, ident, name, attr, content in resources:
        data = bytearray(content)
        for _ in range(chance.choice((1, 1, 2, 5)) if data else 0):
            data[chance.randrange(len(data))] = chance.choice((0, 1, 2, 255, chance.randrange(256)))
        ends = chance.randrange(8)
        data = data[:-1] if ends == 0 else data + bytes([chance.randrange(3)]) if ends == 1 else data
        out.append((kind, ident, name, attr, bytes(data)))
    return out


def came_back(program, fork, text):
    """How the text gives the fork again."""
    source = program.write("text.r", text)
    again = program.path("again")
    program.run("rez", program.types, source, "-o", again, *program.options)
    with open(again, "rb") as file:
        after = file.read()
    if after == fork:
        return "same bytes"
    return "same resources" if admitted(after)[0] == admitted(fork)[0] else "OTHER RESOURCES"


def looked_at(program, fork, table):
    """One fork: its line, with what is added to the table of types."""
    text, shown = program.derez(program.write("fork", fork))
    resources = admitted(fork)[0]
    if len(shown) != len(resources):
        return "OTHER STATEMENTS: %d for %d resources" % (len(shown), len(resources))
    for (kind, ident, _, _, content), is_shown in zip(resources, shown):
        table.setdefault(kind, []).append((ident, is_shown))
        hidden = program.hidden.setdefault(kind, [])
        if not is_shown and len(hidden) < FRONTS:
            hidden.append(content)
    return "%d of %d resources by fields, %s" % (sum(shown), len(shown), came_back(program, fork, text))


def raw_fork(program, name):
    program.run("bridge", name, "-to", "raw", "-o", program.path("raw"))
    with open(program.path("raw"), "rb") as file:
        return file.read()


def print_table(program, table):
    """For each type how many resources were shown, and why not the others."""
    columns = ("type", "all", "by fields", "no declaration", "don't fit", "not readable?")
    print("%-8s %7s %10s %15s %10s %14s" % columns)
    total = [0] * 5
    for kind in sorted(table):
        shown = sum(is_shown for _, is_shown in table[kind])
        others = [ident for ident, is_shown in table[kind] if not is_shown]
        undeclared = sum(program.is_undeclared(kind, ident) for ident in others)
        left = len(others) - undeclared
        fits = left if left and (shown or program.can_be_read(kind)) else 0
        row = (len(table[kind]), shown, undeclared, fits, left - fits)
        total = [one + other for one, other in zip(total, row)]
        print("%-8s %7d %10d %15d %10d %14d" % ((repr(kind.decode("mac_roman")),) + row))
    print("%-8s %7d %10d %15d %10d %14d" % (("total",) + tuple(total)))


def arguments():
    parser = argparse.ArgumentParser(description=__doc__.splitlines()[0])
    parser.add_argument("--program")
    parser.add_argument("--types", default=os.path.join(TOP, "types", "Types.r"))
    parser.add_argument("--define", action="append", default=[])
    parser.add_argument("--changed", type=int, default=0)
    parser.add_argument("--seed", type=int, default=1)
    parser.add_argument("forks", nargs="+", metavar="FORK")
    return parser.parse_args()


def main():
    options = arguments()
    name = options.program or program_to_run()
    for wanted in (name, options.types):
        if not os.path.isfile(wanted):
            sys.exit("there is no %s: name the program by --program and the types by --types" % wanted)
    chance, table, failed = random.Random(options.seed), {}, 0
    with tempfile.TemporaryDirectory() as folder:
        program = Program(name, options.types, options.define, folder)
        for name in options.forks:
            for turn in range(options.changed + 1):
                try:
                    fork = raw_fork(program, name) if not turn else image(changed(resources, chance))
                    resources = admitted(fork)[0] if not turn else resources
                    line = looked_at(program, fork, table)
                except (Failed, Refused) as fault:
                    line = "REFUSED: %s" % fault
                if "OTHER" in line or "REFUSED" in line:
                    failed += 1
                if not turn or "OTHER" in line or "REFUSED" in line:
                    print("%s%s: %s" % (name, " changed %d" % turn if turn else "", line), flush=True)
                if not turn and "REFUSED" in line:
                    break
        print_table(program, table)
    print("%d forks failed" % failed)
    sys.exit(1 if failed else 0)


if __name__ == "__main__":
    main()
