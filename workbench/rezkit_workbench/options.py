"""The options of Rez and DeRez: those of MPW's, of Apple's and of Retro68's, and rezkit's own, in one table.

A word after an option that takes a value is its value, whatever it begins with. `--name=VALUE` is taken, and for options
of one letter that stand in JOINED also `-IPATH`.
"""
import os
import textwrap

from . import mend
from .errors import Refused


class BadWords(Refused):
    """The arguments are no command. The program ends with 1, as rezkit does."""

    status = 1


class Option:
    """An option: its names, what it takes (`` is nothing, `[..]` may be left out), whether it may come again, its help."""

    def __init__(self, key, names, takes, about):
        self.key, self.names, self.takes, self.about = key, names.split(), takes, about
        self.again = key in ("only", "skip", "includes", "searched", "macros", "frameworks", "roots", "copied", "also", "form")


BOTH = (
    Option("macros", "-d -define -D --define -u -undef", "NAME[=TEXT]",
           "-d, -D: the macro NAME stands for TEXT; without TEXT for nothing, after -D for 1; -u: NAME is undefined again"),
    Option("includes", "-i -include -I --include", "FOLDER", "a folder in which files of #include are looked for"),
    Option("frameworks", "-F", "FOLDER", "a folder of frameworks, for #include <Name/File.r>"),
    Option("roots", "-isysroot -is -sysroot --sysroot", "FOLDER", "the folder whose System/Library/Frameworks is such a folder"),
    Option("redeclare", "-rd", "", "types may be declared again without a warning"),
    Option("templates", "-tmpl", "FILE", "a file whose 'TMPL' resources declare types"),
    Option("script", "-script", "LANGUAGE", "roman is the only one that is taken"),
    Option("resolve", "-noResolve -noresolve", "[output|include]", "does nothing: no alias is resolved here"),
    Option("data_fork", "-useDF", "", "resources are read from and written to data forks, so Rez writes a raw fork"),
    Option("told", "-v -p --debug", "", "tells what is mended in the sources"),
    Option("force", "-f", "", "a data file beside ._NAME may be replaced"),
    Option("help", "-h --help", "", "prints this help"),
    Option("version", "--version", "", "prints the version of rezkit"),
)
REZ = (
    Option("out", "-o --output", "FILE", "the file to write, Rez.Out if none is named; - is standard output"),
    Option("append", "-a -append --append", "", "begins with the file that has this name, and adds to it"),
    Option("type", "-t -type --type", "TYPE", "the type of the file"),
    Option("creator", "-c -creator --creator", "CREATOR", "its creator"),
    Option("form", "-form", "FORM", "its form (raw, double, single, macbin, hqx), in place of that of its ending"),
    Option("searched", "-s -search", "FOLDER", "a folder in which files of include and read statements are looked for"),
    Option("override", "-ov", "", "protected resources may be replaced"),
    Option("read_only", "-ro", "", "the fork is read-only"),
    Option("copied", "--copy", "FILE", "begins with the resources of FILE"),
    Option("data", "--data", "FILE", "the data fork is that of FILE"),
    Option("also", "--cc", "FILE", "writes this file as well"),
    Option("modified", "-m -modification", "", "leaves the time of modification of the file as it was"),
    Option("align", "-align", "word|longword", "does nothing, and says so: rezkit lays forks out without gaps"),
    Option("arch", "-arch", "NAME", "does nothing: no macro is defined for a processor"),
) + BOTH
DEREZ = (
    Option("only", "-only", "TYPE[(ID[:ID])]", "shows these resources alone; also TYPE(\"NAME\")"),
    Option("skip", "-s -skip", "TYPE[(ID[:ID])]", "doesn't show these"),
    Option("from", "-from", "FORM", "the form of the fork's file; else its first bytes tell it"),
    Option("escape", "-e -escape", "", "shows characters from $80 on as Mac Roman, and not as \\0x and two digits"),
    Option("compatible", "-c -compatible", "", "does nothing, and says so"),
    Option("longest", "-m -maxstringsize", "NUMBER", "does nothing, and says so: strings are shown in pieces of 64 bytes"),
) + BOTH
JOINED = ("-I", "-D", "-F", "-t", "-c", "-i", "-d")


class Read:
    """What the arguments say: files, and for each option its value, `True`, or a list of (name, value)."""

    def __init__(self, table):
        self.files = []
        for option in table:
            setattr(self, option.key, [] if option.again else None)


def read(name, table, words):
    """The arguments of a program."""
    by_name = {one: option for option in table for one in option.names}
    made, words, open_for_options = Read(table), list(words), True
    while words:
        word = words.pop(0)
        if not open_for_options or word == "-" or not word.startswith("-"):
            made.files.append(word)
        elif word == "--":
            open_for_options = False
        else:
            used, value, joined = split(by_name, word)
            option = by_name.get(used)
            if not option or joined and not option.takes:
                raise BadWords("%s isn't an option; %s --help tells them" % (word, name))
            put(made, option, used, value if joined else value_of(option, used, words))
    return made


def split(by_name, word):
    """The option of a word, and the value that stands in the word, if there is one."""
    if word in by_name:
        return word, None, False
    if word.startswith("--") and "=" in word:
        return (*word.split("=", 1), True)
    if word[:2] in JOINED and by_name.get(word[:2]) and by_name[word[:2]].takes:
        return word[:2], word[2:], True
    return word, None, False


def value_of(option, used, words):
    """The value of an option, taken from the words after it."""
    if option.takes.startswith("["):
        return words.pop(0) if words and words[0].lower() in option.takes[1:-1].split("|") else True
    if not option.takes:
        return True
    if not words:
        raise BadWords("%s: its value is missing" % used)
    return words.pop(0)


def put(made, option, used, value):
    """Keeps an option."""
    if option.again:
        getattr(made, option.key).append((used, value))
    else:
        setattr(made, option.key, value)


def help_text(usage, about, table):
    """The help of a program."""
    lines = ["usage: %s" % usage, "", *textwrap.wrap(about, 92), ""]
    for option in table:
        head = "  %s%s" % (", ".join(option.names), " " + option.takes if option.takes else "")
        told = textwrap.wrap(option.about, 68)
        if len(head) < 22:
            lines.append("%-24s%s" % (head, told.pop(0)))
        else:
            lines.append(head)
        lines.extend(" " * 24 + line for line in told)
    return "\n".join(lines)


def four(used, value):
    """A type or a creator as four characters; it may stand between quote marks as in a source."""
    inner = value[1:-1] if len(value) > 2 and value[0] == value[-1] == "'" else value
    try:
        is_four = len(inner.encode("mac_roman")) == 4
    except UnicodeEncodeError:
        is_four = False
    if not is_four:
        raise BadWords("%s: %s isn't four characters of Mac Roman" % (used, value))
    return inner


def definitions(pairs):
    """The words of rezkit for options of macros, and for each what the person wrote."""
    made = []
    for used, value in pairs:
        if used in ("-u", "-undef"):
            made += [("-u", used), (value, value)]
            continue
        if used in ("-D", "--define") and "=" not in value:
            value += "=1"
        name, equals, text = value.partition("=")
        made += [("-d", used), (name + equals + os.fsdecode(mend.value(os.fsencode(text))), value)]
    return made


def check_script(value):
    """Refuses a language whose characters have two bytes."""
    if value and value.lower() != "roman":
        raise BadWords("-script: %s isn't taken: rezkit reads characters of one byte" % value)


def frameworks(read_words):
    """The folders of frameworks."""
    system = [value.rstrip("/") + "/System/Library/Frameworks" for _, value in read_words.roots]
    return [value for _, value in read_words.frameworks] + system


def said_by_rezkit(messages, words, name):
    """Messages of rezkit in which a wrong word is told as the person wrote it."""
    lines = []
    for line in messages.splitlines():
        front, _, number = line.partition("usage: word ")
        if front == "rezkit: " and number.isdigit():
            wrong = words[int(number) - 1] if int(number) <= len(words) else ""
            line = "%s: usage: %s" % (name, wrong or "a file is missing")
        lines.append(line)
    return lines
