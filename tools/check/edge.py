#!/usr/bin/env python3
"""Runs the built program where the host's words and files are unlike those of a run in memory.

    python3 tools/check/edge.py [PROGRAM]

PROGRAM is the one that ./rezkit runs unless another is named. A run has the words after the program's name, and none
begins if one of them isn't UTF-8. Names at which no file can stand are missing files; files that have the names of
temporary ones hinder no write; and a file that is longer than the process may write is a write fault that leaves what
was there. What comes otherwise than it stands here, by hand, is printed. The status is 1 if anything does. The quick
checks run it.
"""
import os
import resource
import subprocess
import sys
import tempfile

import top  # noqa: F401
from files import found_in, write_all
from looks import Looks
from model.fork import image
from model.forms import File, double, macbin
from running import program_of

ONE = image([(b"Test", 128, b"", 0, bytes.fromhex("0102"))])
SOURCE = b"data 'Test' (128) { $\"0102\" };\n"
SHOWN = b"data 'Test' (128) {\n    $\"0102\"\n};\n\n"
HEADER = double(File(name=b"Folder", res=ONE))
LONG = "n" * 256
DEEP = "./" * 2048 + "f"
WRITE_FAULT = "rezkit: write fault\n"


def missing(name, mark=""):
    return 'rezkit: %serror 101 MissingFile: "%s"\n' % (mark, name)


class Edge(Looks):
    """A program, and how many of its runs came out otherwise."""

    def __init__(self, program):
        super().__init__()
        self.program = program

    def run(self, says, words, files, status=0, err="", out=b"", leaves=(), gone=(), limit=None, ignored=False, links=()):
        """A run over these files (None: a folder), which may write files of `limit` bytes at most; `ignored`: the signal of
        a longer one is ignored. It has to leave these files, and no others but those that were there."""
        with tempfile.TemporaryDirectory(prefix="rezkit-edge-") as folder, tempfile.TemporaryFile() as stream:
            write_all(folder, files)
            for name, target in links:
                os.symlink(target, os.path.join(folder, name))

            def limited():
                if limit is not None:
                    resource.setrlimit(resource.RLIMIT_FSIZE, (limit, limit))
            ran = subprocess.run([self.program, *words], cwd=folder, stdin=subprocess.DEVNULL, stdout=stream,
                                 stderr=subprocess.PIPE, preexec_fn=limited, restore_signals=not ignored)
            stream.seek(0)
            self.count += 1
            for what, wanted, came in (("the status", status, ran.returncode), ("out", out, stream.read()),
                                       ("err", err, ran.stderr.decode("utf-8", "replace"))):
                if wanted != came:
                    self.differs("%s: %s" % (says, what), wanted, came)
            wanted = {**{name: data for name, data in files.items() if name not in gone}, **dict(leaves)}
            came = {name: data for name, data in found_in(folder).items() if name not in dict(links)}
            for name in sorted({*wanted, *came}):
                if wanted.get(name, "no file") != came.get(name, "no file"):
                    self.differs("%s: the file %.80r" % (says, name), wanted.get(name, "no file"),
                                 came.get(name, "no file"))


def words(edge):
    """The words that the host gives."""
    files = {"one.r": SOURCE}
    usage = "rezkit: usage: word %d\n"
    edge.run("no words", [], files, 1, usage % 1)
    edge.run("the program's name is no word", ["rezkit"], files, 1, usage % 1)
    edge.run("one word", ["--version"], files, out=b"rezkit 0.1.0\n")
    edge.run("a value is missing", ["rez", "-o"], files, 1, usage % 3)
    edge.run("a name that isn't ASCII", ["rez", "one.r", "-o", "\u00e9"], files, leaves=[("\u00e9", ONE)])
    for none in ([b"\xff"], ["rez", "one.r", b"\xc3"], ["rez", b"\xed\xa0\x80", "-o", "x"], ["--version", b"\xff"]):
        edge.run("a word that isn't UTF-8", none, files, 5, "rezkit: no words\n")


def places(edge):
    """Names at which no file can stand."""
    files = {"one.r": SOURCE, "f": ONE, "d": None}
    for name in ("d", "d/", ".", "/", "f/", "f/one.r", "no/one.r", LONG, LONG + "/f", DEEP):
        edge.run("the source " + name[:20], ["rez", name, "-o", "x"], files, 2, missing(name))
        edge.run("the fork " + name[:20], ["derez", name], files, 2, missing(name))
        edge.run("the file of bridge " + name[:20], ["bridge", name, "-to", "raw", "-o", "x"], files, 2, missing(name))
        for statement in ("#include \"%s\"", "include \"%s\";", "read 'Test' (1) \"%s\";"):
            if len(name) < 250:
                source = (statement % name + "\n").encode()
                edge.run("%s of %s" % (statement[:8], name), ["rez", "s.r", "-o", "x"], {**files, "s.r": source}, 2,
                         missing(name, "s.r:1: "))
    edge.run("a folder has the name of what -a begins with", ["rez", "one.r", "-a", "-o", "d"], files, 3, WRITE_FAULT)
    edge.run("an empty name", ["rez", "", "-o", "x"], files, 2, missing(""))
    source = b"#include \"in.r\"\n"
    edge.run("the next path is tried behind a path that is a file, one that is missing, and a folder of the name",
             ["rez", "s.r", "-i", "f", "-i", "no", "-i", "d", "-i", "e", "-o", "x"],
             {"s.r": source, "f": b"a file", "d": None, "d/in.r": None, "e": None, "e/in.r": SOURCE}, leaves={"x": ONE}.items())
    edge.run("a folder in the data file's place is no data fork", ["bridge", "._Folder", "-to", "macbin", "-o", "x"],
             {"._Folder": HEADER, "Folder": None}, leaves=[("x", macbin(File(name=b"Folder", res=ONE)))])
    edge.run("a folder in the data file's place is no place to write", ["bridge", "m", "-to", "double", "-o", "._Folder"],
             {"m": macbin(File(name=b"Folder", data=b"a", res=ONE)), "Folder": None}, 3, WRITE_FAULT)


def leftovers(edge):
    """Files that have the names of temporary ones."""
    files = {"one.r": SOURCE, **{".rezkit-%d" % number: b"another's" for number in range(1000)}}
    edge.run("a thousand temporary files are left", ["rez", "one.r", "-o", "x"], files, leaves=[("x", ONE)])
    edge.run("a thousand temporary files are left beside an old file", ["rez", "one.r", "-o", "x"], {**files, "x": b"old"},
             leaves=[("x", ONE)])


def limits(edge):
    """A limit on the length of files."""
    files = {"one.r": SOURCE, "f": ONE}
    write = ["rez", "one.r", "-o", "x"]
    for limit in (0, 1, 311):
        for ignored in (False, True):
            edge.run("no new file above the limit", write, files, 3, WRITE_FAULT, limit=limit, ignored=ignored)
            edge.run("the old file stays", write, {**files, "x": b"old"}, 3, WRITE_FAULT, limit=limit, ignored=ignored)
            edge.run("what a link leads to stays", write, {**files, "y": b"old"}, 3, WRITE_FAULT, limit=limit, ignored=ignored,
                     links=[("x", "y")])
    edge.run("a file up to the limit", write, files, leaves=[("x", ONE)], limit=312)
    edge.run("a device has no limit", ["rez", "one.r", "-o", "/dev/null"], files, limit=0)
    edge.run("the data file of bridge stands", ["bridge", "m", "-to", "double", "-o", "._T"],
             {"m": macbin(File(name=b"T", data=b"a", res=ONE))}, 3, WRITE_FAULT, leaves=[("T", b"a")], limit=300)
    edge.run("an output above the limit, where the signal is ignored", ["derez", "f"], files, 3, WRITE_FAULT, SHOWN[:20],
             limit=20, ignored=True)
    edge.run("an output up to the limit", ["derez", "f"], files, out=SHOWN, limit=len(SHOWN))


def main():
    edge = Edge(program_of(sys.argv[1:]))
    words(edge)
    places(edge)
    leftovers(edge)
    limits(edge)
    edge.end("runs")


if __name__ == "__main__":
    main()
