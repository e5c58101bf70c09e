"""Reads the case files of crates/rezkit_cases, whose README has the format, as strictly as the proved case runner does.

A second reader of the format: `read_cases` gives the cases of a file, or raises Malformed at the line that breaks a
rule.
"""
import re

MOST_TIMES = 20000000
PLACES = ("status", "out", "err")
TARGETS = ("folder", "out", "err")


class Malformed(Exception):
    """A line of a case file has another form than the format."""

    def __init__(self, line, what):
        super().__init__("line %d: %s" % (line, what))


class Entry:
    """A key with its argument, and the lines of the content after it."""

    def __init__(self, line, key, argument):
        self.line, self.key, self.argument, self.block = line, key, argument, []

    def flaw(self, what):
        return Malformed(self.line, what)


class Case:
    """One case: what a run is given, and what it must leave."""

    def __init__(self, line, name):
        self.line, self.name, self.words = line, name, []
        self.files, self.left, self.out, self.err = {}, {}, None, None
        self.moment = self.status = self.sweep = None
        self.room, self.fail, self.never, self.wrong = {}, {}, False, []

    def wanted(self):
        """The files that are wanted after the run, by their names."""
        files = {**self.files, **self.left}
        return {name: data for name, data in files.items() if data is not None}


def entries_of(text, first=1):
    """The entries of a text whose first line has this number. Empty lines and lines that begin with `#` are comments."""
    entries = []
    lines = text.split("\n")
    for number, line in enumerate(lines[:-1] if lines[-1] == "" else lines, first):
        line = line[:-1] if line.endswith("\r") else line
        if not line or line[0] == "#":
            continue
        if line[0] == "|":
            if not entries:
                raise Malformed(number, "content before the first key")
            entries[-1].block.append(line[2:] if line[1:2] == " " else line[1:])
        else:
            key, _, argument = line.partition(" ")
            entries.append(Entry(number, key, argument))
    return entries


def cases_of(entries):
    """The entries of each case."""
    cases = []
    for entry in entries:
        if entry.key == "case":
            cases.append([])
        elif not cases:
            raise entry.flaw("no case begins before this line")
        cases[-1].append(entry)
    return cases


def digits_of(entry, text):
    """Bytes that are spelled by hexadecimal digits."""
    if len(text) % 2 or not re.fullmatch(r"[0-9A-Fa-f]*", text):
        raise entry.flaw("not hexadecimal digits, two a byte: %s" % text)
    return bytes.fromhex(text)


def piece_bytes(entry, piece):
    """The bytes of a piece that is no text: digits, as often as a number after `*` says, or numbers that count up."""
    first, dots, rest = piece.partition("..")
    if dots:
        last, _, after = rest.partition(":")
        start, end, after = (digits_of(entry, text) for text in (first, last, after))
        if not 1 <= len(start) <= 4 or len(end) != len(start):
            raise entry.flaw("numbers that count up have not one to four bytes, or not as many")
        numbers = range(int.from_bytes(start, "big"), int.from_bytes(end, "big") + 1)
        if not 1 <= len(numbers) <= MOST_TIMES:
            raise entry.flaw("numbers that count up go down, or are too many")
        return b"".join(number.to_bytes(len(start), "big") + after for number in numbers)
    digits, star, times = piece.partition("*")
    if star and (not re.fullmatch(r"\+?[0-9]+", times) or int(times) > MOST_TIMES):
        raise entry.flaw("a wrong number of times")
    return digits_of(entry, digits) * (int(times) if star else 1)


def spelled(entry, line):
    """The bytes of a line: pieces with blanks between them, and texts between quote marks."""
    out = []
    parts = line.split('"')
    if len(parts) % 2 == 0:
        raise entry.flaw("a text doesn't end on its line")
    for place, part in enumerate(parts):
        if place % 2:
            out.append(part.encode("utf-8"))
        else:
            out += [piece_bytes(entry, piece) for piece in part.split()]
    return b"".join(out)


def content_of(entry, kind):
    """The bytes of the content of an entry."""
    if kind == "text":
        return "".join(line + "\n" for line in entry.block).encode("utf-8")
    if kind == "open":
        return "\n".join(entry.block).encode("utf-8")
    if kind == "bytes":
        return b"".join(spelled(entry, line) for line in entry.block)
    raise entry.flaw("the kind of content is none of text, open and bytes")


def number_of(entry, text, least=0, most=4294967295):
    if not re.fullmatch(r"-?[0-9]+", text) or not least <= int(text) <= most:
        raise entry.flaw("a number is missing, wrong or too great")
    return int(text)


def once(entry, known):
    """Looks that what an entry states wasn't stated before."""
    if known:
        raise entry.flaw("the case states this twice")


def numbers_after_target(entry, count):
    """The target that an argument names first, and the numbers after it."""
    target, *rest = entry.argument.split() or [""]
    if target not in TARGETS:
        raise entry.flaw("what is named is none of folder, out and err")
    if len(rest) != (count[target] if isinstance(count, dict) else count):
        raise entry.flaw("not as many numbers as the key takes")
    return target, [number_of(entry, text) for text in rest]


def add_content(case, entry):
    """Adds a file before the run, a file after it, or what stands on a stream."""
    if entry.key in ("out", "err"):
        once(entry, getattr(case, entry.key) is not None)
        setattr(case, entry.key, content_of(entry, entry.argument))
        return
    kind, _, name = entry.argument.partition(" ")
    files = case.files if entry.key == "file" else case.left
    once(entry, name in files)
    files[name] = content_of(entry, kind)


def add_words(case, entry):
    if entry.key == "words":
        case.words += entry.argument.split()
    elif entry.key == "word":
        case.words.append(entry.argument)
    else:
        try:
            case.words.append(spelled(entry, entry.argument).decode("utf-8"))
        except UnicodeDecodeError:
            raise entry.flaw("a word isn't UTF-8") from None


def add_wrong(case, entry):
    """Adds the places in which the case is wrong on purpose."""
    word, _, name = entry.argument.partition(" ")
    if word == "file" and name:
        places = ["file " + name]
    elif word == "fail" and name in TARGETS:
        places = ["fail " + name]
    else:
        places = entry.argument.split()
        if not places or any(place not in PLACES for place in places):
            raise entry.flaw("a place is none of status, out, err, file NAME and fail PLACE")
    for place in places:
        once(entry, place in case.wrong)
        case.wrong.append(place)


def add_calls(case, entry):
    """Adds what an entry says of calls that fail, and of room."""
    if entry.key == "fails":
        once(entry, case.never)
        if entry.argument != "never":
            raise entry.flaw("of calls that are to fail nothing is said but never")
        case.never = True
    elif entry.key == "sweep":
        once(entry, case.sweep)
        case.sweep = numbers_after_target(entry, 2)
    else:
        known = case.fail if entry.key == "fail" else case.room
        count = {"fail": {"folder": 1, "out": 2, "err": 2}, "room": {"folder": 2, "out": 1, "err": 1}}[entry.key]
        target, numbers = numbers_after_target(entry, count)
        once(entry, target in known)
        known[target] = numbers


def add_entry(case, entry):
    """Adds what an entry says to its case."""
    if entry.key in ("file", "leaves", "out", "err"):
        return add_content(case, entry)
    if entry.block:
        raise entry.flaw("this key takes no content")
    if entry.key in ("words", "word", "word-bytes"):
        add_words(case, entry)
    elif entry.key == "moment":
        once(entry, case.moment is not None)
        case.moment = number_of(entry, entry.argument, -2 ** 63, 2 ** 63 - 1)
    elif entry.key == "status":
        once(entry, case.status is not None)
        case.status = number_of(entry, entry.argument, 0, 255)
    elif entry.key == "gone":
        once(entry, entry.argument in case.left)
        case.left[entry.argument] = None
    elif entry.key == "differs":
        add_wrong(case, entry)
    elif entry.key in ("fail", "fails", "sweep", "room"):
        add_calls(case, entry)
    else:
        raise entry.flaw("there is no such key")
    return None


def case_of(entries):
    """The case of its entries, the first of which has its name."""
    case = Case(entries[0].line, entries[0].argument)
    for entry in entries[1:]:
        add_entry(case, entry)
    if case.status is None:
        raise entries[0].flaw("the case states no status")
    if case.never and not case.fail:
        raise entries[0].flaw("no call is named that never comes")
    if case.sweep and (case.fail or case.wrong):
        raise entries[0].flaw("a sweep names no other call that fails, and isn't wrong on purpose")
    return case


def read_cases(text, first=1):
    """The cases of the text of a case file, or of the part of it that begins with the line of this number."""
    return [case_of(entries) for entries in cases_of(entries_of(text, first))]
