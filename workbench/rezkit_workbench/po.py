"""The texts of an application as gettext PO, which translators' tools know, and back.

    rezkit-po out FILE [-o X.po] [-f] [--types TYPES] [--script SCRIPT] [--language CODE]
    rezkit-po in FILE X.po -o NEW [-f] [--types TYPES] [--script SCRIPT] [--protected]

An entry's context is the type and id of its resource, and which of equal texts it is where a resource has a text twice: so
a translation stays with its text if items are put in before it. Only entries whose text is still the file's are put in,
and fuzzy and obsolete ones stay out. What is left out is told.
"""
import collections
import datetime
import os
import re
import tempfile
import time

try:
    import polib
except ImportError:
    polib = None

from . import catalogue, command, facts, program
from .errors import Refused, RezkitRefused, Usage
from .roman import SCRIPTS, four, printable, quoted, text_of
from .writing import cant, check_free, give_name, is_stream, write_file, write_out

NAME = "rezkit-po"
ABOUT = "Writes the texts of a file's resources as gettext PO, and puts their translations into a copy of the file."
MORE = "exit status: 0 done, 1 refused, 2 wrong arguments"
STRING_MOST, WITHOUT_LIMIT = 255, (b"TEXT",)
USUAL_SCRIPT = "roman"
CONTROLS = re.compile(rb"[\x00-\x08\x0B\x0C\x0E-\x1F\x7F]")
TITLES = {b"WIND": ("title",), b"DLOG": ("title",), b"CNTL": ("title",), b"MENU": ("title",), b"vers": ("short version", "long version")}
PLACES_OF_ITEMS = {b"DLOG": 18, b"ALRT": 8}  # where a dialog and an alert have the id of their items
PO_LINE = re.compile(r"\(line (\d+)\)")


# The texts of a file.

class Text:
    """A text of a resource: its number there, its bytes, what `derez` shows of it, and why it is no entry, or None."""

    def __init__(self, kind, ident, leaf, data, shown):
        self.kind, self.ident, self.leaf, self.data, self.shown, self.context = kind, ident, leaf, data, shown, None
        self.left_out = self.why_left_out()

    def why_left_out(self):
        if self.shown is not None and self.shown.is_hex:
            return "hex"
        if not self.data:
            return "empty"
        if CONTROLS.search(self.data):
            return "control bytes"
        return "both CR and LF" if b"\r" in self.data and b"\n" in self.data else None

    def source(self, script):
        """The text as a PO file has it."""
        return self.data.replace(b"\r", b"\n").decode(SCRIPTS[script])

    def bytes_for(self, text, script):
        """The bytes of a translation of it, whose line ends are as its own."""
        return text.replace("\n", "\n" if b"\n" in self.data else "\r").encode(SCRIPTS[script])


class Texts:
    """All texts of a file's resources, the statements that `derez` shows, and the words that both commands took."""

    def __init__(self, file, options):
        self.form = facts.form_of(file.head(128))
        self.is_usual = options.types is None
        types = options.types or os.path.join(program.types_folder(), "Texts.r")
        self.words = [program.word_of(types), "-d", "EitherSystem", "-i", os.path.dirname(types) or "."]
        entries = catalogue.entries_of(file.rezkit(["strings", file.word, "-from", self.form] + self.words))
        self.facts = facts.facts_of(file, self.form)
        only = self.only({entry[0] for entry in entries})
        shown = b"" if only is None else file.rezkit(["derez", file.word, "-from", self.form] + self.words + only)
        self.statements = catalogue.statements_of(shown)
        self.all = self.texts_of(entries)
        self.give_contexts()

    def only(self, with_texts):
        """The words of `derez` by which it shows the types that have texts or fields, or None if there are none of them."""
        kinds = collections.OrderedDict((one.kind, one.ident) for one in reversed(self.facts.resources() or []))
        kinds = [kind for kind, ident in reversed(kinds.items()) if kind in with_texts or is_declared(kind, ident, self.words)]
        if any(b"\0" in kind for kind in kinds):
            return []  # no argument can have a zero: all types are shown
        return [word for kind in kinds for word in ("-only", text_of(kind))] or None

    def texts_of(self, entries):
        """The texts, each with what `derez` shows of it."""
        shown = {(one.kind, one.ident): one.strings for one in self.statements}
        by_resource = collections.OrderedDict()
        for kind, ident, leaf, data in entries:
            by_resource.setdefault((kind, ident), []).append((leaf, data))
        return [Text(*key, leaf, data, string) for key, leaves in by_resource.items()
                for (leaf, data), string in zip(leaves, catalogue.beside([data for _, data in leaves], shown.get(key, [])))]

    def give_contexts(self):
        """Gives each text that is an entry its context: type and id, and which of equal texts it is from the second on."""
        counts = collections.Counter()
        for text in self.entries():
            key = text.kind, text.ident, text.data.replace(b"\r", b"\n")
            counts[key] += 1
            text.context = resource_name(text.kind, text.ident) + (" #%d" % counts[key] if counts[key] > 1 else "")

    def entries(self):
        return [text for text in self.all if text.left_out is None]


def resource_name(kind, ident):
    return "%s %d" % (four(kind), ident)


# Out.

def comment_of(text, dialogs, is_usual):
    """What a translator wants to know of a text."""
    about = ["text %d of %s" % (text.leaf, resource_name(text.kind, text.ident))]
    about += ["of " + name for name in dialogs.get(text.ident, ()) if text.kind == b"DITL"]
    titles = TITLES.get(text.kind, ())
    if text.leaf < len(titles):
        about.append(titles[text.leaf])
    if text.shown is not None and text.shown.kind:
        about.append(text.shown.kind)
    if text.shown is not None and text.shown.rectangle:
        about.append("rectangle {%s}" % ", ".join(text.shown.rectangle))
    if is_usual and text.kind not in WITHOUT_LIMIT:
        about.append("at most %d bytes" % STRING_MOST)
    return ", ".join(about)


def dialogs_of(found):
    """For each id of a list of items the dialogs and alerts that have it, by the facts of the file."""
    dialogs = collections.defaultdict(list)
    for one in found.resources() or []:
        place = PLACES_OF_ITEMS.get(one.kind)
        content = one.bytes_in(found.fork) if place is not None else b""
        if place is not None and place + 2 <= len(content):
            ident = (int.from_bytes(content[place:place + 2], "big") + 32768) % 65536 - 32768
            dialogs[ident].append(resource_name(one.kind, one.ident) + (" " + quoted(one.name) if one.name else ""))
    return dialogs


def moment():
    """The moment of the run, as a header of PO has it."""
    seconds = int(os.environ.get("SOURCE_DATE_EPOCH", "") or time.time())
    return datetime.datetime.fromtimestamp(seconds, datetime.timezone.utc).strftime("%Y-%m-%d %H:%M+0000")


def po_of(texts, dialogs, title, options):
    """The PO of the texts."""
    po = polib.POFile(wrapwidth=0)
    po.header = "Texts of %s, by rezkit-po." % title
    po.metadata = collections.OrderedDict((
        ("Project-Id-Version", title), ("POT-Creation-Date", moment()), ("PO-Revision-Date", moment()), ("Last-Translator", ""),
        ("Language-Team", ""), ("Language", options.language), ("MIME-Version", "1.0"),
        ("Content-Type", "text/plain; charset=UTF-8"), ("Content-Transfer-Encoding", "8bit"), ("X-Rezkit-Script", options.script or USUAL_SCRIPT)))
    for text in texts.entries():
        po.append(polib.POEntry(msgctxt=text.context, msgid=text.source(options.script or USUAL_SCRIPT),
                                comment=comment_of(text, dialogs, texts.is_usual)))
    return str(po)


def is_declared(kind, ident, words):
    """Whether a type file declares fields for a resource: rez says 202 of a `resource` statement if none does."""
    source = b"resource %s (%d) {};" % (catalogue.marked(kind, b"'"), ident)
    with tempfile.TemporaryFile() as file:
        file.write(source)
        file.flush()
        _, _, messages = program.run(["rez"] + words + ["/dev/fd/%d" % file.fileno(), "-o", "/dev/null"], files=(file.fileno(),))
    return ": error 202 " not in messages


def report(texts):
    """A line for each resource and reason of texts that are no entries."""
    reasons = collections.OrderedDict()
    for text in texts.all:
        if text.left_out not in (None, "hex"):
            reasons.setdefault((text.kind, text.ident, text.left_out), []).append(str(text.leaf))
    for (kind, ident, reason), leaves in reasons.items():
        yield "left out: %s: %s: %s" % (resource_name(kind, ident), reason, ", ".join(leaves))
    declared = {}
    for one in texts.statements:
        if one.word == "data" and one.kind not in declared:
            declared[one.kind] = is_declared(one.kind, one.ident, texts.words)
        if one.word == "data" and declared[one.kind]:
            yield "left out: %s: no row: its bytes don't fit the fields of its type" % resource_name(one.kind, one.ident)


def out(options):
    """Writes a file's texts as PO."""
    if not options.language.strip() or not options.language.isprintable():
        raise Usage("--language: no code of a language: %s" % printable(options.language))
    with facts.Opened(options.file) as file:
        texts = Texts(file, options)
        title = printable(os.path.basename(options.file)) if options.file != "-" else "standard input"
        made = po_of(texts, dialogs_of(texts.facts), title, options)
    for line in report(texts):
        command.say(NAME, line)
    write_file(options.output, made.encode("utf-8"), options.force)
    return 0


# In.

class Translation:
    """A translated entry of a PO file: its text, and its line there."""

    def __init__(self, entry):
        self.text, self.line = entry.msgstr, entry.linenum


def po_entries(file):
    """The entries of a PO file."""
    try:
        return polib.pofile(file.word)
    except (OSError, UnicodeError, LookupError, ValueError) as fault:
        line = PO_LINE.search(str(fault))
        raise Refused("%s%s: is no PO file that can be read" % (file.told, ":" + line[1] if line else "")) from None


def translations_of(entries, told):
    """The translations by context and source, and how many entries are fuzzy, obsolete and untranslated."""
    found, left = {}, collections.Counter()
    for entry in entries:
        state = "obsolete" if entry.obsolete else "fuzzy" if "fuzzy" in entry.flags else "untranslated" if not entry.msgstr else None
        if state:
            left[state] += 1
            continue
        key = entry.msgctxt, entry.msgid
        if key in found:
            raise Refused("%s:%d: the entry of line %d stands here again" % (told, entry.linenum, found[key].line))
        found[key] = Translation(entry)
    return found, left


class Change:
    """A text that is put in: the text of the file, its new bytes, and the entry."""

    def __init__(self, text, data, translation):
        self.text, self.data, self.translation = text, data, translation


def script_of(entries):
    """The script by which `out` has read the texts."""
    found = entries.metadata.get("X-Rezkit-Script", USUAL_SCRIPT)
    return found if found in SCRIPTS else USUAL_SCRIPT


def changes_of(texts, translations, told, own_script, script):
    """The changes that translations make, and the lines of what is wrong with them."""
    changes, wrong = [], []
    for text in texts.entries():
        translation = translations.pop((text.context, text.source(own_script)), None)
        if translation is None:
            continue
        problem, data = data_of(text, translation.text, script, texts.is_usual)
        if problem:
            wrong.append("%s:%d: %s: %s" % (told, translation.line, text.context, problem))
        elif data != text.data:
            changes.append(Change(text, data, translation))
    return changes + (paddings(texts, changes) if texts.is_usual else []), wrong


def paddings(texts, changes):
    """What becomes of the byte of padding after a text whose length was odd and is even now, or the other way round.

    There is no such byte then, or there is one that was none and is zero. An empty entry says both.
    """
    by_leaf = {(text.kind, text.ident, text.leaf): text for text in texts.all}
    after = [(change, by_leaf.get((change.text.kind, change.text.ident, change.text.leaf + 1))) for change in changes]
    return [Change(text, b"", change.translation) for change, text in after
            if text is not None and text.left_out == "hex" and len(text.data) == 1 and (len(change.data) - len(change.text.data)) % 2]


def data_of(text, translated, script, is_usual):
    """What is wrong with a translation, and its bytes."""
    if any(ord(letter) < 32 and letter not in "\n\t" or letter == "\x7F" for letter in translated):
        return "has a control character", None
    try:
        data = text.bytes_for(translated, script)
    except UnicodeEncodeError as fault:
        lacking = printable(translated[fault.start])
        return "the script %s has no letter %s (U+%04X)" % (script, lacking, ord(translated[fault.start])), None
    if is_usual and text.kind not in WITHOUT_LIMIT and len(data) > STRING_MOST:
        return "has %d bytes, and at most %d have room" % (len(data), STRING_MOST), None
    return None, data


def say_what_stays_out(translations, left, told):
    """Tells the entries that aren't put in."""
    for (context, _), translation in sorted(translations.items(), key=lambda each: each[1].line):
        command.say(NAME, "%s:%d: %s: the file has no such text" % (told, translation.line, printable(context or "no context")))
    for state in ("fuzzy", "obsolete", "untranslated"):
        if left[state]:
            command.say(NAME, "%s: entries that are %s and stay out: %d" % (told, state, left[state]))


def restrung(file, texts, changes, told, options, output):
    """Runs restring into the file `output`, and tells a refusal by the line of the PO file."""
    with tempfile.TemporaryFile() as entries:
        for change in changes:
            text = change.text
            entries.write(catalogue.entry_text(text.kind, text.ident, text.leaf, change.data))
        entries.flush()
        words = ["restring", file.word, "/dev/fd/%d" % entries.fileno(), "-from", texts.form, "-o", output.word] + texts.words
        try:
            program.call(words + (["-ov"] if options.protected else []), files=(file.number, entries.fileno(), output.folder_number))
        except RezkitRefused as fault:
            place = re.match(r"/dev/fd/\d+:(\d+): (?:error )?(.*)", fault.said, re.S)
            if not place:
                raise
            change = changes[int(place[1]) - 1]
            hint = " (--protected changes it)" if place[2].startswith("219 ") else ""
            raise Refused("%s:%d: %s%s" % (told, change.translation.line, place[2], hint)) from None


class Output:
    """The file that `in` writes, and of AppleDouble its data file, which have other names until both are whole."""

    def __init__(self, options, form):
        self.name, self.force, self.beside, self.data = options.output, options.force, None, None
        if form == "double":
            self.set_data(options.file)
        if self.name != "-" and not is_stream(self.name):
            check_free(self.name, self.force)

    def set_data(self, source):
        """Finds the data file that is copied."""
        if "-" in (source, self.name) or is_stream(self.name):
            raise Refused("AppleDouble is two files: name them, as FILE and by -o")
        own, new = facts.data_file_of(source), facts.data_file_of(self.name)
        if os.path.exists(own) and os.path.exists(new) and os.path.samefile(own, new):
            return
        if os.path.lexists(own):
            check_free(new, self.force)
            self.data = own, new
        elif os.path.lexists(new):
            raise Refused("%s: is there, and would become the data fork of %s: move it away" % (printable(new), printable(self.name)))

    def __enter__(self):
        folder, last = os.path.split(self.name)
        if not last:
            raise Refused("%s: is no name of a file" % printable(self.name))
        is_file = self.name != "-" and not is_stream(self.name)
        try:
            self.folder = tempfile.mkdtemp(prefix=".rezkit-", dir=(folder or ".") if is_file else None)
        except OSError as fault:
            raise cant("be written", self.name, fault) from None
        name = last if is_file and is_utf8(last) else "new"
        self.folder_number = os.open(self.folder, os.O_RDONLY)
        self.path, self.word = os.path.join(self.folder, name), "/dev/fd/%d/%s" % (self.folder_number, name)
        self.copy = os.path.join(self.folder, "data" if name != "data" else "copy")
        return self

    def finish(self):
        """Copies the data file, and gives both their names."""
        if self.name == "-" or is_stream(self.name):
            with open(self.path, "rb") as file:
                write_file(self.name, file.read())
            return
        try:
            if self.data:
                self.copy_data()
                give_name(self.copy, self.data[1], self.force)
            give_name(self.path, self.name, self.force)
        except OSError as fault:
            raise cant("be written", self.name, fault) from None

    def copy_data(self):
        with facts.Opened(self.data[0]) as own, open(self.copy, "xb") as file:
            for piece in own.pieces():
                file.write(piece)

    def __exit__(self, *_):
        for path in (self.path, self.copy):
            if os.path.lexists(path):
                os.unlink(path)
        os.close(self.folder_number)
        os.rmdir(self.folder)


def is_utf8(name):
    """Whether rezkit takes a name."""
    try:
        name.encode("utf-8")
    except UnicodeEncodeError:
        return False
    return True


def into(options):
    """Puts the translations of a PO file into a copy of a file."""
    if options.file == options.po == "-":
        raise Usage("FILE and X.po can't both be standard input")
    with facts.Opened(options.file) as file, facts.Opened(options.po) as po:
        texts = Texts(file, options)
        entries = po_entries(po)
        translations, left = translations_of(entries, po.told)
        own_script = script_of(entries)
        changes, wrong = changes_of(texts, translations, po.told, own_script, options.script or own_script)
        for line in wrong:
            command.say(NAME, line)
        if wrong:
            raise Refused("%s: translations that don't fit: %d; nothing was written" % (po.told, len(wrong)))
        with Output(options, texts.form) as output:
            restrung(file, texts, changes, po.told, options, output)
            output.finish()
    say_what_stays_out(translations, left, po.told)
    if options.output != "-":
        write_out(b"texts put in: %d\n" % len([change for change in changes if change.text.left_out is None]))
    return 0


def options_of(words):
    parser = command.parser(NAME, ABOUT, MORE)
    commands = parser.add_subparsers(dest="command", metavar="out|in", required=True)
    both = [("--types", dict(metavar="TYPES", help="the type file that tells where texts are (Texts.r unless stated)")),
            ("--script", dict(choices=sorted(SCRIPTS), metavar="SCRIPT", help=(
                "the letters of the file's texts, of `in` those of the translations: %s (roman unless stated; of `in` as `out` had it)"
                % ", ".join(sorted(SCRIPTS)))))]
    writes = commands.add_parser("out", help="write the texts of a file as PO", allow_abbrev=False)
    writes.add_argument("file", metavar="FILE", help="a file with a resource fork, in any form; - is standard input")
    writes.add_argument("-o", metavar="X.po", dest="output", default="-", help="the file to write (standard output unless stated)")
    writes.add_argument("--language", metavar="CODE", default="und", help="the language into which is translated, as de")
    reads = commands.add_parser("in", help="put the translations of a PO file into a copy of the file", allow_abbrev=False)
    reads.add_argument("file", metavar="FILE", help="the file that `out` has read")
    reads.add_argument("po", metavar="X.po", help="the PO file; - is standard input")
    reads.add_argument("-o", metavar="NEW", dest="output", required=True, help="the file to write; - is standard output")
    reads.add_argument("--protected", action="store_true", help="change protected resources too")
    for each in (writes, reads):
        each.add_argument("-f", action="store_true", dest="force", help="replace a file that has the name of -o")
        for name, rest in both:
            each.add_argument(name, **rest)
    return parser.parse_args(words)


def body(words):
    options = options_of(words)
    if polib is None:
        raise Refused("Python's module polib is missing (Debian's package python3-polib)")
    return out(options) if options.command == "out" else into(options)


def main():
    return command.ended(NAME, body)
