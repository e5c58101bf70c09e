"""Copies of the sources of a program, mended, in a folder of their own; and the messages of rezkit about them.

Copied are the files of the command line and those that they reach by `#include`. A name of `#include` is looked for as
rezkit looks for it: as it stands, then in the folders of `-i`. Then come the places where other Rezes look: the folder of
the source, frameworks (`-F`), and rezkit's own types, which aren't copied; at last all of them again with capital and
small letters taken for the same, as on the Macintosh.
"""
import functools
import os
import re
import stat
import sys

from . import macros, mend, program, tokens
from .errors import Refused
from .roman import printable
from .writing import cant


class CantRead(Refused):
    """A source can't be read. The program ends with 3, as rezkit does."""

    status = 3


class Copy:
    """A source and its copy: the name that the person knows, the name of the copy, its bytes, and how they are read."""

    def __init__(self, name, copy, data):
        self.name, self.copy = name, copy
        self.given_mark = False
        self.data, self.is_text = self.readable(data), True
        self.source = tokens.Source(self.data)
        self.encoding = "utf-8" if self.source.front else "mac_roman"

    def readable(self, data):
        """The bytes with a byte order mark, if they are UTF-8 without one and anything outside comments isn't ASCII."""
        if data.startswith(tokens.MARK) or data.isascii() or not is_utf8(data):
            return data
        if all(token.text.isascii() for token in tokens.Source(data).tokens() if token.kind != "comment"):
            return data
        self.given_mark = True
        return tokens.MARK + data

    def can_be_read(self):
        """Whether rezkit can read the text at all: it refuses UTF-8 that isn't all in Mac Roman, by the place in the file."""
        if self.encoding == "mac_roman":
            return True
        try:
            self.data.decode("utf-8")[1:].encode("mac_roman")
        except UnicodeError:
            return False
        return True


def is_utf8(data):
    """Whether bytes are UTF-8."""
    try:
        data.decode("utf-8")
    except UnicodeDecodeError:
        return False
    return True


class Sources:
    """The sources of a run. `includes` and `frameworks` are folders, and `folder` takes the copies."""

    def __init__(self, folder, includes, frameworks):
        self.folder, self.includes, self.frameworks = folder, includes, frameworks
        self.types = program.types_folder()
        self.copies, self.order, self.macros = {}, [], macros.Macros()
        self.notes, self.found = [], {}

    def add(self, name):
        """Takes a file of the command line, and all that it reaches; gives the name that rezkit is told."""
        if name == "-":
            return self.reach(self.take("-", sys.stdin.buffer.read())).copy
        found = self.named(name)
        try:
            mode = os.stat(found).st_mode
        except (OSError, ValueError):
            return program.word_of(name)
        if stat.S_ISREG(mode) and self.is_type(found):
            return program.word_of(found)
        if not stat.S_ISREG(mode) and not stat.S_ISFIFO(mode):
            return program.word_of(name)
        return self.reach(self.read(found)).copy

    def named(self, name):
        """The file of the command line that a name means: one that isn't there is looked for in the folders of `-i`."""
        if os.path.exists(name):
            return name
        places = [os.path.join(place, name) for place in self.includes + [self.types]]
        return next((place for place in places if os.path.isfile(place)), name)

    def is_type(self, name):
        """Whether a file is one of rezkit's own types, which need no mending."""
        return os.path.dirname(os.path.realpath(name)) == os.path.realpath(self.types)

    def read(self, name):
        """The copy of a file."""
        key = os.path.realpath(name)
        if key not in self.copies:
            try:
                with open(name, "rb") as file:
                    data = file.read()
            except OSError as fault:
                raise CantRead(str(cant("be read", name, fault))) from None
            self.copies[key] = self.take(name, data)
        return self.copies[key]

    def take(self, name, data):
        """A copy with these bytes, which isn't written yet."""
        made = Copy(name, os.path.join(self.folder, "%d.r" % len(self.order)), data)
        if made.given_mark:
            self.notes.append((True, "%s: is UTF-8 without a byte order mark, and is read as UTF-8" % printable(name)))
        self.order.append(made)
        return made

    def reach(self, first):
        """Reads all files that a copy reaches by `#include`, in order, and notes their macros with parameters."""
        waiting, seen = [(first, first.source.lines())], {first.copy}
        while waiting:
            copy, lines = waiting[-1]
            line = next(lines, None)
            if line is None:
                waiting.pop()
                continue
            reached = self.line(copy, line)
            if reached and reached.copy not in seen:
                seen.add(reached.copy)
                waiting.append((reached, reached.source.lines()))
        return first

    def line(self, copy, line):
        """Notes the macro that a line defines; gives the copy of the file that it includes, or None."""
        words = [token for token in line[:8] if not macros.is_gap(token)]
        if len(words) < 3 or words[0].text != b"#":
            return None
        defined = macros.definition(line, (copy.name, copy.source.line_of(words[0].start)))
        if defined:
            self.macros.note(defined)
        if words[1].text.lower() != b"include" or words[2].kind not in ("angle", "text"):
            return None
        found = self.find(copy, words[2].text[1:-1], words[2].kind == "angle")
        return self.read(found) if found and not self.is_type(found) else None

    def find(self, copy, written, is_angle):
        """The file that a name of `#include` means, or None."""
        name, beside = written.decode(copy.encoding, "surrogateescape"), os.path.dirname(copy.name) or "."
        if (name, is_angle, beside) not in self.found:
            self.found[name, is_angle, beside] = self.look_for(name, is_angle, beside)
        return self.found[name, is_angle, beside]

    def look_for(self, name, is_angle, beside):
        """The same of a name in a source of the folder `beside`."""
        names = names_of(name, is_angle)
        places = [""] + self.includes + [beside, self.types]
        found = (is_file_in(place, name) for name in names for place in places)
        framed = (is_file_in(place, inside) for place in self.frameworks for inside in framed_names(names[0]) if is_angle)
        alike = (alike_in(place, name) for name in names for place in places)
        tried = (path for some in (framed, found, alike) for path in some if path)
        return next((path for path in tried if can_be_copied(path)), None)

    def instead(self, copy, written, is_angle):
        """What stands between the quote marks of `#include` in a copy, and what is told of it, or None."""
        found = self.find(copy, written, is_angle)
        if not found:
            return None
        said = "#include %s is %s" % (mend.told(written), printable(found))
        if self.is_type(found):
            return os.fsencode(os.path.basename(found)), said
        return os.fsencode(self.read(found).copy), said

    def is_there(self, copy, written, searched):
        """Whether a file has a name as it stands."""
        name = written.decode(copy.encoding, "surrogateescape")
        return any(is_file_in(place, name) for place in [""] + searched)

    def write(self, searched):
        """Writes the mended copies. `searched` are the folders of the files of statements."""
        for copy in self.order:
            data = self.mended(copy, searched) if copy.can_be_read() else copy.data
            with open(copy.copy, "xb") as file:
                file.write(data)
        for name, (first, second) in sorted(self.macros.twice.items()):
            self.notes.append((True, "%s:%d: the macro %s has another definition at %s:%d, so it isn't expanded" % (
                printable(second[0]), second[1], mend.told(name), printable(first[0]), first[1])))

    def mended(self, copy, searched):
        """The bytes of a mended copy; what is told of it goes to the notes."""
        mending = mend.Mending(copy.source, functools.partial(self.instead, copy),
                               lambda written: self.is_there(copy, written, searched), self.macros)
        try:
            made = mending.run()
        except macros.TooLong as fault:
            raise macros.TooLong("%s:%s" % (printable(copy.name), fault)) from None
        for start, said in sorted(mending.mended):
            self.notes.append((False, "%s:%d: %s" % (printable(copy.name), copy.source.line_of(start), said)))
        return made

    def original(self, line):
        """A message of rezkit with the names of the person's files in it."""
        found = re.match(r"rezkit: (%s/\d+\.r):" % re.escape(self.folder), line)
        copy = found and next((copy for copy in self.order if copy.copy == found[1]), None)
        if copy:
            line = "rezkit: %s:%s" % (printable(copy.name), line[found.end():])
            offset = re.fullmatch(r"(.*error 102 BadText: )(\d+)", line)
            if offset and copy.given_mark:
                line = offset[1] + str(int(offset[2]) - len(tokens.MARK))
        for macro in self.macros.found.values():
            line = line.replace('"%s"' % macro.mark.decode("ascii"), '"%s"' % mend.told(macro.name))
        return line


def names_of(name, is_angle):
    """The names under which a file of `#include` is looked for: as it stands, with slashes, and without its folder."""
    names = [name]
    if ":" in name:
        names.append(os.fsdecode(mend.slashed(os.fsencode(name))))
    if is_angle and "/" in name:
        names.append(name.rsplit("/", 1)[-1])
    return names


def framed_names(name):
    """Where a framework keeps the file `Name/File.r`."""
    first, _, last = name.partition("/")
    return ["%s.framework/%s/%s" % (first, inside, last) for inside in ("Headers", "Versions/Current/Headers")] if last else []


def is_file_in(place, name):
    """The path of the file of this name in a place, or None; the place `` is where the command runs."""
    path = "%s/%s" % (place, name) if place else name
    return path if name and os.path.isfile(path) else None


def can_be_copied(path):
    """Whether a file can be opened; one that can't is left for rezkit to tell, if it is read at all."""
    return os.access(path, os.R_OK)


def alike_in(place, name):
    """The same with capital and small letters taken for the same."""
    path = place or ("/" if name.startswith("/") else ".")
    for part in name.split("/"):
        if part in ("", "."):
            continue
        if part != "..":
            part = alike(path, part)
        if not part:
            return None
        path = part if path == "." else os.path.join(path, part)
    return path if os.path.isfile(path) else None


def alike(folder, name):
    """The first entry of a folder that has a name but for capital and small letters, or None."""
    entries = entries_of(folder)
    return name if name in entries.get(name.casefold(), ()) else min(entries.get(name.casefold(), ()), default=None)


@functools.lru_cache(maxsize=64)
def entries_of(folder):
    """The entries of a folder, by their names without regard to capital and small letters."""
    found = {}
    try:
        for entry in os.listdir(folder):
            found.setdefault(entry.casefold(), []).append(entry)
    except (OSError, ValueError):
        pass
    return found
