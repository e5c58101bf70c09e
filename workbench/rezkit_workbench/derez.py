"""`DeRez`: rezkit's `derez` with the options of MPW's and Apple's DeRez, over mended copies of the type files.

The status is rezkit's, 1 where the arguments are no command, and 3 where a file can't be read or written.
"""
import os
import re
import subprocess
import sys
import tempfile

from . import command, options, program
from .roman import printable
from .outputs import is_plain
from .rez import CANT, in_utf8, open_streams, spawn, tell, tell_notes, work_folder
from .sources import Sources

USAGE = "DeRez [OPTION].. FORK [TYPE FILE].."
ABOUT = ("Shows the resources of a file as rezkit does, with the options of MPW's and Apple's DeRez. - is standard input. A type "
         "file that isn't there is looked for in the folders of -i, and then among rezkit's own types, so that Types.r is found. "
         "Type files are copied, and the copies are mended as docs/PORTING.md says.")
HEAD = re.compile(rb"(?:resource|data) '((?:[^'\\]|\\.)*)' \((-?[0-9]+)")
STRING = re.compile(rb'"((?:[^"\\]|\\.)*)"')
ESCAPE = re.compile(rb"\\(?:0x([0-9A-F]{2})|(.))", re.S)
PICKED = re.compile(r"\s*\(?\s*(?:(-?\w+|\$\w+)\s*(?::\s*(-?\w+|\$\w+))?|\"(.*)\")\s*\)?\s*", re.S)
END = b"};\n"


class Pick:
    """The resources that a value of -only or -skip means: a type, and maybe ids or a name."""

    def __init__(self, used, value):
        self.kind, rest = self.cut(used, value)
        self.first = self.last = self.name = None
        found = PICKED.fullmatch(rest) if rest.strip() else None
        if rest.strip() and not found:
            raise options.BadWords("%s: %s is no type with ids or a name" % (used, value))
        if found and found[3] is not None:
            self.name = options_name(found[3])
        elif found:
            self.first = number(used, found[1])
            self.last = number(used, found[2]) if found[2] else self.first

    @staticmethod
    def cut(used, value):
        """The type, in four characters, and what follows it."""
        value = value.strip() if value.strip().startswith("'") else value
        quoted = re.match(r"'((?:[^'\\]|\\.)*)'", value)
        if quoted and len(value) != 4:
            kind = unescaped(quoted[1].encode("mac_roman", "replace")).decode("mac_roman")
            return options.four(used, kind), value[quoted.end():]
        return options.four(used, value[:4]), value[4:]

    def is_whole(self):
        """Whether the type alone is meant."""
        return self.first is None and self.name is None

    def takes(self, kind, number, name):
        """Whether a resource is meant."""
        if kind != self.kind.encode("mac_roman"):
            return False
        if self.name is not None:
            return name == self.name
        return self.first is None or self.first <= number <= self.last


def options_name(text):
    """The name of a resource, as the person typed it, in Mac Roman."""
    try:
        return text.encode("mac_roman")
    except UnicodeEncodeError:
        raise options.BadWords("the name %s isn't Mac Roman" % text) from None


def number(used, text):
    """An id, in decimal or in hexadecimal."""
    digits = text.replace("$", "0x")
    try:
        return int(digits, 16 if "x" in digits.lower() else 10)
    except ValueError:
        raise options.BadWords("%s: %s is no id" % (used, text)) from None


def unescaped(text):
    """The bytes of a string as `derez` shows it."""
    return ESCAPE.sub(lambda found: bytes([int(found[1], 16)]) if found[1] else found[2], text)


def as_mac_roman(line):
    """A line with characters from $80 on as they are."""
    return ESCAPE.sub(lambda found: bytes([int(found[1], 16)]) if found[1] and found[1] >= b"80" else found[0], line)


class Filter:
    """Passes on the lines of the statements that are meant."""

    def __init__(self, only, skipped, escape):
        self.only, self.skipped, self.escape = only, skipped, escape
        self.head, self.is_shown = [], None

    def lines(self, line):
        """The lines that are passed on after this one was taken."""
        if self.is_shown is None:
            self.head.append(line)
            if not line.endswith(b") {\n"):
                return []
            self.is_shown = self.takes(b"".join(self.head))
            head, self.head = self.head, []
            return self.out(head)
        shown = self.out([line])
        if line == b"\n":
            self.is_shown = None
        return shown

    def out(self, lines):
        """Lines as they go out."""
        if not self.is_shown:
            return []
        return [as_mac_roman(line) for line in lines] if self.escape else lines

    def takes(self, head):
        """Whether the resource of a header is meant."""
        found = HEAD.match(head)
        kind, number = unescaped(found[1]), int(found[2])
        name = unescaped(b"".join(STRING.findall(head[found.end():])))
        if self.only and not any(pick.takes(kind, number, name) for pick in self.only):
            return False
        return not any(pick.takes(kind, number, name) for pick in self.skipped)


def filtered(words, filter_lines, files):
    """Runs rezkit and passes on a part of its text: its status and its messages."""
    with tempfile.TemporaryFile() as told:
        with subprocess.Popen([program.path()] + words, stdout=subprocess.PIPE, stderr=told, pass_fds=files, restore_signals=False) as ran:
            try:
                for line in ran.stdout:
                    for out in filter_lines.lines(line):
                        sys.stdout.buffer.write(out)
                sys.stdout.buffer.flush()
            except OSError:
                ran.kill()
                raise
        told.seek(0)
        messages = told.read().decode("utf-8", "replace")
    return (ran.returncode if ran.returncode >= 0 else 128 - ran.returncode), messages


def fork_word(name):
    """The word for the fork's file, and the descriptors that rezkit needs for it."""
    if name == "-":
        return "/dev/stdin", ()
    if is_plain(name):
        return program.word_of(name), ()
    opened = os.open(name, os.O_RDONLY)
    return "/dev/fd/%d" % opened, (opened,)


def words_of(asked, sources, folder):
    """The words for rezkit after the fork: each, and what the person wrote."""
    words = [(sources.add(name), name) for name in asked.files[1:]]
    sources.write([])
    words += options.definitions(asked.macros)
    for value in [value for _, value in asked.includes] + [sources.types]:
        words += [("-i", "-i"), (in_utf8(value, folder), value)]
    words += [("-rd", "-rd")] if asked.redeclare else []
    for used, value in (("-tmpl", asked.templates), ("-from", asked.__dict__["from"])):
        words += [(used, used), (in_utf8(value, folder), value)] if value else []
    return words


def show(asked, folder):
    """Shows a fork."""
    only = [Pick(*pair) for pair in asked.only]
    skipped = [Pick(*pair) for pair in asked.skip]
    sources = Sources(folder, [value for _, value in asked.includes], options.frameworks(asked))
    fork, files = fork_word(asked.files[0])
    words = [("derez", "derez"), (fork, asked.files[0])] + words_of(asked, sources, folder)
    for used, kinds in (("-only", [pick.kind for pick in only]), ("-skip", [pick.kind for pick in skipped if pick.is_whole()])):
        words += [(word, word) for kind in dict.fromkeys(kinds) for word in (used, kind)]
    tell_notes(sources, asked.told, "DeRez")
    plain = [word for word, _ in words]
    if asked.escape or not all(pick.is_whole() for pick in only + skipped):
        status, messages = filtered(plain, Filter(only, skipped, asked.escape), files)
    else:
        status, messages = spawn(plain, files=files)
    tell(messages, words, sources, "DeRez")
    return status


def body(words):
    """What the program does with its arguments: its status."""
    asked = options.read("DeRez", options.DEREZ, words)
    if asked.help:
        print(options.help_text(USAGE, ABOUT, options.DEREZ))
        return 0
    if asked.version:
        print(program.version())
        return 0
    if not asked.files:
        raise options.BadWords("the file with the fork is missing; DeRez --help tells the usage")
    options.check_script(asked.script)
    for used, value in (("-c", asked.compatible), ("-m", asked.longest)):
        if value:
            command.say("DeRez", "%s has no effect: rezkit shows strings in pieces of 64 bytes, as its own rez reads them" % used)
    try:
        with work_folder() as folder:
            return show(asked, folder)
    except BrokenPipeError:
        raise
    except OSError as fault:
        command.say("DeRez", "%s: %s" % (printable(os.fsdecode(fault.filename or "standard output")), fault.strerror))
        command.drop_out()
        return CANT


def main():
    """Runs the program."""
    open_streams()
    return command.ended("DeRez", body, sys.argv[1:])
