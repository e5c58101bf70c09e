"""Books whose cases are runs of lists.py, and forks that several of them have.

Each line of `err` is written by hand where a case stands, and must be what the run comes to.
"""
import re

from casefile import Book
from model.fork import image, number
from model.lists import DeRez, Folder, Rez, Source, ends, paired, text_of


def resource(kind, ident, name="", attr=0, content=b""):
    return kind.encode("mac_roman"), ident, name.encode("mac_roman"), attr, content


TEST = resource("Test", 128, content=b"\1\2")
FOUR = [resource("Test", 1, "a", 0, b"\1"), resource("Test", 2, "b", 0x10, b"\2"), resource("Test", -3, "b", 0, b"\3"),
        resource("Last", 1, "c", 0x20, b"\4")]
ONE, SOME = image([TEST]), image(FOUR)
LONG = "n" * 256
NOTHING = (";", None)


def odd_fork():
    """A fork of another layout: two references share their bytes, and the data area stands after the header."""
    fork = image([resource("Test", 1, "", 0, b"\1\2"), resource("Test", 2)])
    begins = int.from_bytes(fork[4:8], "big")
    area, lists = fork[256:begins], bytearray(fork[begins:])
    lists[-7:-4] = bytes(3)
    head = number(26, 4) + number(26 + len(area), 4) + fork[8:16]
    return head + b"0123456789" + area + head + bytes(lists[16:])


def cut_fork():
    """A fork whose reference list ends after its map."""
    return ONE[:15] + b"\x2E" + ONE[16:308]


class Runs(Book):
    """A book whose cases are runs of lists.py, those of `rez` with these words."""

    def __init__(self, name, *says, words="rez s.r -o x"):
        super().__init__(name, *says)
        self.words = words

    def add(self, name, words, run, before, after, gone, err, keys, warned=""):
        """A case of a run, whose line on `err` is as it was written by hand."""
        status, out, line = ends(run)
        wanted = "rezkit: %s\n" % err if err else ""
        assert line == wanted, (name, line, wanted)
        left = [(file, held) for file, held in after.files.items() if before.get(file) != held]
        if after.fails:
            keys = keys + ["fail folder %d" % after.fails] + ["fails never"] * (after.calls < after.fails)
        self.case(name, words, before.items(), keys, status, left, gone, out, warned + line)

    def rez(self, name, *items, words="", files=None, more=None, err="", fails=None, moment=0, room="", gone=(), code=None,
            warned="", **by_name):
        """A case of `rez`: the items of the source s.r, other words or more of them, sources and files, which may stand by
        their names, and the line on `err`: as it is, or as a fault of the first line of s.r, or of another before a colon."""
        words = words if words.startswith("rez") else (self.words + " " + words).rstrip()
        sources = dict({"s.r": items}, **(more or {}))
        sources = {file: given for file, given in sources.items() if given is not None}
        before = {file: coded(text_of(given), code) for file, given in every(sources).items()}
        before.update(files or {}, **by_name)
        after = Folder(before, fails)
        keys = ["moment %d" % moment] * bool(moment) + ["room folder " + room] * bool(room)
        fault = re.match("(?:([0-9]+): )?([0-9]{3} .*)", err)
        err = "s.r:%s: error %s" % (fault[1] or 1, fault[2]) if fault else err
        self.add(name, words, Rez(words.split()[1:], after, sources, moment), before, after, gone, err, keys, warned)

    def derez(self, name, words, files, types=None, form=None, err="", fails=None):
        """A case of `derez` with type files that declare nothing."""
        before = {file: text_of(items) for file, items in (types or {}).items()}
        before.update(files)
        after = Folder(before, fails)
        self.add(name, words, DeRez(words.split()[1:], after, types or {}, form), before, after, (), err, [])


def every(sources):
    """The sources of the words and all that they include."""
    found = {}
    for file, items in sources.items():
        found[file] = items
        found.update(every({what.name: what.items for _, what in paired(items) if isinstance(what, Source)}))
    return found


def said_as(text, statement):
    """A statement with a text of its own, if there is one."""
    return (text, statement) if text else statement


def coded(text, code):
    return text if text.isascii() else text.encode(code or "mac_roman")
