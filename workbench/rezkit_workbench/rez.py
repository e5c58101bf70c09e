"""`Rez`: rezkit's `rez` with the options of MPW's, Apple's and Retro68's Rez, over mended copies of the sources.

The status is rezkit's, 1 where the arguments are no command, 2 where an expansion of a macro is too long, and 3 where a
file can't be read or written.
"""
import os
import subprocess
import sys
import tempfile

from . import command, options, outputs, program
from .errors import Refused, RezkitRefused
from .outputs import is_plain
from .roman import printable
from .sources import Sources

USAGE = "Rez [OPTION].. [SOURCE].."
ABOUT = ("Compiles sources as rezkit does, with the options of MPW's, Apple's and Retro68's Rez. Without a source, or for -, "
         "standard input is read. The ending of the file to write tells its form: .bin is MacBinary, .as AppleSingle, .hqx "
         "BinHex, ._NAME and %NAME.ad AppleDouble, .dsk a disk image (by hfsutils), and all else a resource fork. The sources "
         "are copied, and the copies are mended as docs/PORTING.md says.")
WRONG, CANT = 1, 3


def spawn(words, stdout=None, files=(), moment=None):
    """Runs rezkit: its status and its messages. Its output goes where this program's goes, or where `stdout` says."""
    environment = dict(os.environ, SOURCE_DATE_EPOCH=moment) if moment else None
    try:
        ran = subprocess.run([program.path()] + list(words), stdout=stdout, stderr=subprocess.PIPE, pass_fds=tuple(files),
                             restore_signals=False, env=environment)
    except (OSError, ValueError) as fault:
        raise Refused("%s can't be run: %s" % (program.path(), fault)) from None
    status = ran.returncode if ran.returncode >= 0 else 128 - ran.returncode
    return status, ran.stderr.decode("utf-8", "replace")


def tell(messages, words, sources, name):
    """Prints the messages of rezkit with the names of the person's files and words."""
    for line in options.said_by_rezkit(messages, [written for _, written in words], name):
        sys.stderr.write(sources.original(line) + "\n")


def tell_notes(sources, told, name):
    """Prints what was mended, and what is told always."""
    for always, note in sources.notes:
        if always or told:
            command.say(name, note)


def work_folder():
    """A folder for copies, whose name may stand in a source."""
    usual = tempfile.gettempdir()
    is_simple = usual.isascii() and usual.isprintable() and not set(usual) & set("\\\"'")
    return tempfile.TemporaryDirectory(prefix="rezkit-", dir=usual if is_simple else "/tmp")


def include_all(name, folder, number):
    """A source that begins with the resources of a file."""
    try:
        written = name.encode("mac_roman")
    except UnicodeEncodeError:  # the name can't stand in a source
        written = link_to(name, folder).encode("ascii")
    plain = "".join(chr(byte) if 32 <= byte < 127 and byte not in b'"\\' else "\\0x%02X" % byte for byte in written)
    path = os.path.join(folder, "copy%d.r" % number)
    with open(path, "xb") as file:
        file.write(b'include "%s";\n' % plain.encode("ascii"))
    return path


def link_to(name, folder):
    """A link to a file or a folder, among the copies."""
    link = os.path.join(folder, "link%d" % len(os.listdir(folder)))
    os.symlink(os.path.abspath(name), link)
    return link


def in_utf8(name, folder):
    """A name, or a link to what has it, where it isn't UTF-8: rezkit doesn't take such an argument."""
    return name if is_plain(name) else link_to(name, folder)


class Run:
    """One call of Rez: what is asked for, the folder of its copies, and the words for rezkit."""

    def __init__(self, asked, folder):
        self.asked, self.folder = asked, folder
        self.includes = [value for _, value in asked.includes]
        self.searched = [value for _, value in asked.searched]
        self.sources = Sources(folder, self.includes, options.frameworks(asked))
        self.moment = None

    def read_sources(self):
        """Copies and mends the sources; gives the words for them."""
        files = self.asked.files or ([] if self.asked.copied else ["-"])
        words = [(include_all(name, self.folder, number), name) for number, (_, name) in enumerate(self.asked.copied)]
        words += [(self.sources.add(name), name) for name in files]
        folders = [os.path.dirname(copy.name) or "." for copy in self.sources.order if copy.name != "-"]
        self.searched += [folder for folder in dict.fromkeys(folders) if folder != "."]
        self.sources.write(self.searched)
        return words

    def settings(self):
        """The words for the options that hold for each file that is written."""
        asked = self.asked
        words = options.definitions(asked.macros)
        for used, values in (("-i", self.includes + [self.sources.types]), ("-s", self.searched)):
            words += [(word, value) for value in values for word in (used, in_utf8(value, self.folder))]
        for used, value in (("-t", asked.type), ("-c", asked.creator)):
            if value is not None:
                words += [(used, used), (options.four(used, value), value)]
        words += [(used, used) for used, is_set in (("-ov", asked.override), ("-ro", asked.read_only), ("-rd", asked.redeclare)) if is_set]
        if asked.templates:
            words += [("-tmpl", "-tmpl"), (in_utf8(asked.templates, self.folder), asked.templates)]
        return words

    def rez(self, words, target, form, append=False, quiet=False):
        """Compiles into one file: rezkit's status."""
        more = [("-o", "-o"), (target, target)] + [("-a", "-a")] * append
        if form:
            more += [("-form", "-form"), (form, form)]
        words = [("rez", "rez")] + words + more
        status, messages = spawn([word for word, _ in words], moment=self.moment)
        if status or not quiet:
            tell(messages, words, self.sources, "Rez")
        return status


def compile_all(asked, folder):
    """Compiles, and writes all files that are asked for."""
    target = outputs.target(asked.out or "Rez.Out", outputs.asked_form(asked))
    others = [outputs.target(name, None) for _, name in asked.also]
    outputs.check(asked, target)
    run = Run(asked, folder)
    words, settings = run.read_sources(), run.settings()
    tell_notes(run.sources, asked.told, "Rez")
    outputs.note(asked, target)
    if others:
        run.moment = outputs.moment()
    status = outputs.write(run, words + settings, target, bool(asked.append))
    for number, other in enumerate(others):
        if status == 0 and outputs.can_be_written(other):
            again = words
            if asked.append:
                again = [(include_all(target.name, folder, len(asked.copied) + number), target.name)]
            status = outputs.write(run, again + settings, other, False, quiet=True)
    return status


def body(words):
    """What the program does with its arguments: its status."""
    asked = options.read("Rez", options.REZ, words)
    if asked.help:
        print(options.help_text(USAGE, ABOUT, options.REZ))
        return 0
    if asked.version:
        print(program.version())
        return 0
    options.check_script(asked.script)
    try:
        with work_folder() as folder:
            return compile_all(asked, folder)
    except RezkitRefused as fault:
        command.say("Rez", fault)
        return fault.ended
    except OSError as fault:
        command.say("Rez", "%s: %s" % (printable(os.fsdecode(fault.filename or "a file")), fault.strerror))
        command.drop_out()
        return CANT


def open_streams():
    """Opens the standard streams that the caller has closed, as rezkit does: nothing comes in, and nothing goes out."""
    for number, name, mode in ((0, "stdin", "r"), (1, "stdout", "w"), (2, "stderr", "w")):
        if getattr(sys, name) is None:
            os.dup2(os.open(os.devnull, os.O_RDWR), number)
            setattr(sys, name, open(number, mode, closefd=False))


def main():
    """Runs the program."""
    open_streams()
    return command.ended("Rez", body, sys.argv[1:])
