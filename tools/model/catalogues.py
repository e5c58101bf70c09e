"""Catalogues of texts, and texts put back: a second, plain reading of what docs/LANGUAGE.md says of `strings` and
`restring`.

It knows nothing of the code. The row of a resource is the one that label_reading.py finds; a changed row counts if
labels.py lays it, and label_reading.py finds the same row in the bytes. A catalogue is cut into lines and tokens by a
lexer of its own. catalog_cases.py and random_catalogues.py stand on it.

A resource is a tuple of type, id, name, attributes and bytes. An entry is a tuple of type, id, leaf, text and line.
"""
import re

from model.faults import Refused
from model.fork import admitted, image
from model.forms import File, form_of, read_form, written
from model.label_reading import read
from model.labels import bytes_of
from model.lists import MOMENT, key_text
from model.quoting import quoted
from model.shown import all_facts, pieces
from model.type_files import declarations_of, found, program_of, tokens_of

MOST = 16777212
PROTECTED, READ_ONLY = 8, 0x80


def refused(number, *kept, line=None):
    """A fault, with the line of the catalogue that it speaks of."""
    fault = Refused(number, *kept)
    fault.line = line
    return fault


# The texts of a row, outermost first and from the front.

def leaves(row):
    for value in row:
        if isinstance(value, bytes):
            yield value
        elif isinstance(value, list):
            for each in value:
                yield from leaves(each)
        elif isinstance(value, tuple) and isinstance(value[0], str):
            yield from leaves(value[1])


def with_leaves(row, texts):
    """The row with the next of these texts in the place of each of its own."""
    out = []
    for value in row:
        if isinstance(value, bytes):
            value = next(texts)
        elif isinstance(value, list):
            value = [with_leaves(each, texts) for each in value]
        elif isinstance(value, tuple) and isinstance(value[0], str):
            value = (value[0], with_leaves(value[1], texts))
        out.append(value)
    return out


class Tree:
    """The fields that are declared for a resource, its facts and its row."""

    def __init__(self, body, facts, row):
        self.body, self.facts, self.row, self.texts = body, facts, row, list(leaves(row))

    def bytes_with(self, texts):
        """The bytes of the row with other texts, or None where there are none that are read as this row again."""
        row = with_leaves(self.row, iter(texts))
        try:
            data = bytes_of(self.body, row, self.facts)
        except Refused:
            return None
        return data if read(self.body, data, self.facts) == row else None


def tree_of(table, resource, moment):
    """The tree of a resource, or None."""
    body, facts = found(table, resource[0], resource[1]), all_facts(tuple(resource) + (moment,))
    row = None if body is None else read(body, resource[4], facts)
    return None if row is None else Tree(body, facts, row)


# A catalogue as text.

def entry_text(kind, ident, leaf, text):
    lines = ["    " + quoted(piece) for piece in pieces(text, 64)]
    return "%s %d\n%s;\n" % (key_text(kind, ident), leaf, "\n".join(lines))


def entries_in(table, resources, moment=0):
    """The entries of the texts of resources: type, id, leaf and text."""
    out = []
    for one in resources:
        tree = tree_of(table, one, moment)
        out += [one[:2] + (leaf, text) for leaf, text in enumerate(tree.texts if tree else ())]
    return out


def catalogue_text(table, resources, moment):
    return "".join(entry_text(*entry) for entry in entries_in(table, resources, moment))


# Lines and tokens of a catalogue.

def roman_text(data):
    """The text of a source in Mac Roman, or 102."""
    if data[:3] != b"\xEF\xBB\xBF":
        return data
    try:
        text, bad = data[3:].decode("utf-8"), None
    except UnicodeDecodeError as fault:
        text, bad = data[3:3 + fault.start].decode("utf-8"), 3 + fault.start
    try:
        roman = text.encode("mac_roman")
    except UnicodeEncodeError as fault:
        raise refused(102, 3 + len(text[:fault.start].encode("utf-8")), line=1) from None
    if bad is not None:
        raise refused(102, bad, line=1)
    return roman


def placed_bytes(text):
    """The bytes with their physical lines, each line end as one byte, without those after a backslash."""
    out, line = [], 1
    for part in re.findall(rb"\\(?:\r\n|\r|\n)|\r\n|[^\\]|\\", text, re.S):
        if len(part) > 1 and part[:1] == b"\\":
            line += 1
            continue
        out.append((b"\n" if part in (b"\r\n", b"\r") else part, line))
        line += out[-1][0] == b"\n"
    return out


def quoted_end(text, at):
    """The place after a quoted part that begins here, and whether it ends at its mark."""
    mark, at = text[at:at + 1], at + 1
    while at < len(text) and text[at:at + 1] not in (mark, b"\n"):
        at += 2 if text[at:at + 1] == b"\\" else 1
    at = min(at, len(text))
    return (at + 1, True) if text[at:at + 1] == mark else (at, False)


def logical_lines(text):
    """The logical lines without comments, each after its physical line; last the line of an open comment, or None."""
    placed = placed_bytes(text)
    plain, out, at, line, mark = b"".join(byte for byte, _ in placed), [], 0, b"", None
    while at < len(plain):
        mark = placed[at][1] if mark is None else mark
        begins, end = plain[at:at + 2], at + 1
        if plain[at:at + 1] == b"\n":
            out.append((mark, line))
            line, mark = b"", None
        elif begins == b"/*":
            end = plain.find(b"*/", at + 2) + 2
            if end == 1:
                return out, mark
            line += b" "
        elif begins == b"//":
            end = (plain + b"\n").index(b"\n", at)
            line += b" "
        else:
            end = quoted_end(plain, at)[0] if plain[at:at + 1] in (b"'", b'"') else end
            line += plain[at:end]
        at = end
    return out + ([] if mark is None else [(mark, line)]), None


PART = re.compile(rb"""(?P<blank>[\x20\x09\x0B\x0C]+)|(?P<word>(?:\$\$(?=[A-Za-z]))?[A-Za-z_]\w*)|(?P<number>(?:\d|\$[0-9A-Fa-f])\w*)"""
                  rb"""|(?P<quote>\$"|"|')|(?P<sign><<|>>|<=|>=|==|!=|&&|\|\||[]{}()[,;:=+*/%<>&|^~!-])""", re.A)
ESCAPE = re.compile(rb"""\\(?:0[Bb](?P<two>[01]{8})|0[Dd](?P<ten>\d{3})|0[Xx](?P<hex>[0-9A-Fa-f]{2})|\$(?P<dollar>[0-9A-Fa-f]{2})"""
                    rb"""|(?P<eight>[0-7]{3})|(?P<letter>[tbnrvf?\\'"]))""")
LETTERS = dict(zip(b"tbnrvf?", (9, 8, 13, 10, 11, 12, 127)))
BASES = {"two": 2, "ten": 10, "hex": 16, "dollar": 16, "eight": 8}


def without_escapes(body):
    """The bytes that the inside of a literal or a text says, or None."""
    out, at = b"", 0
    while at < len(body):
        if body[at:at + 1] != b"\\":
            out, at = out + body[at:at + 1], at + 1
            continue
        escape = ESCAPE.match(body, at)
        wrong = escape is None or escape.lastgroup != "letter" and int(escape[escape.lastgroup], BASES[escape.lastgroup]) > 255
        if wrong or (escape.lastgroup == "eight" and body[at + 1:at + 3].lower() in (b"0b", b"0d", b"0x")):
            return None
        letter = escape[0][1]
        out += bytes([LETTERS.get(letter, letter) if escape.lastgroup == "letter" else int(escape[escape.lastgroup], BASES[escape.lastgroup])])
        at = escape.end()
    return out


def number_of(token):
    """The value of a number, or None."""
    for form, base in ((rb"0[xX]([0-9A-Fa-f]+)", 16), (rb"0[bB]([01]+)", 2), (rb"\$([0-9A-Fa-f]+)", 16), (rb"0([0-7]+)", 8), (rb"([1-9]\d*|0)", 10)):
        digits = re.fullmatch(form, token)
        if digits and int(digits[1], base) < 1 << 32:
            return int(digits[1], base)
    return None


def quoted_token(line, mark, at):
    """The literal or the text that begins here, and the place after it."""
    is_hex = line[at:at + 1] == b"$"
    end, ends = quoted_end(line, at + is_hex)
    if not ends:
        raise refused(108, line=mark)
    token, body = line[at:end], line[at + is_hex + 1:end - 1]
    if is_hex:
        digits = re.sub(rb"[\x20\x09\x0B\x0C]", b"", body)
        if not re.fullmatch(rb"([0-9A-Fa-f]{2})*", digits):
            raise refused(113, line=mark)
        return ("text", bytes.fromhex(digits.decode())), end
    value = without_escapes(body)
    if value is None:
        raise refused(109, quoted(token[:255]), line=mark)
    if token[:1] == b"'" and not 1 <= len(value) <= 4:
        raise refused(110, quoted(token[:255]), line=mark)
    return ("literal" if token[:1] == b"'" else "text", value), end


def tokens_in(mark, line):
    """The tokens of a logical line: kind, value and physical line."""
    out, at = [], 0
    while at < len(line):
        part = PART.match(line, at)
        if not part:
            raise refused(111, line[at], line=mark)
        kind, token, at = part.lastgroup, part[0], part.end()
        if kind in ("word", "number") and len(token) > 255:
            raise refused(115, len(token), line=mark)
        if kind == "quote":
            (kind, token), at = quoted_token(line, mark, part.start())
        elif kind == "number":
            token = number_of(part[0])
            if token is None:
                raise refused(110, quoted(part[0]), line=mark)
        if kind != "blank":
            out.append((kind, token, mark))
    return out


def tokens_of_catalogue(text):
    lines, comment = logical_lines(text)
    out = [token for mark, line in lines for token in tokens_in(mark, line)]
    if comment is not None:
        raise refused(107, line=comment)
    return out


# Entries.

LETTER = {"literal": "l", "number": "n", "text": "t", "word": "w"}


def entries_of(tokens):
    """The entries that tokens are, or 461 at the first token of the first that is none."""
    form = "".join(LETTER.get(kind) or {b"-": "-", b";": ";"}.get(value, "o") for kind, value, _ in tokens)
    out, at = [], 0
    while at < len(form):
        match = re.compile("l(-?)n(n)(t+);").match(form, at)
        if not match or len(tokens[at][1]) != 4:
            raise refused(461, line=tokens[at][2])
        ident = tokens[match.start(2) - 1][1] * (-1 if match[1] else 1)
        if not -32768 <= ident <= 32767:
            raise refused(461, line=tokens[at][2])
        text = b"".join(tokens[k][1] for k in range(match.start(3), match.end(3)))
        out.append((tokens[at][1], ident, tokens[match.start(2)][1], text, tokens[at][2]))
        at = match.end()
    return out


def check(entries, trees, resources, over):
    """The first refusal of the entries, one after the other."""
    protected = {one[:2] for one in resources if one[3] & PROTECTED}
    before = set()
    for kind, ident, leaf, _, line in entries:
        tree = trees.get((kind, ident))
        if tree is None or leaf >= len(tree.texts):
            raise refused(462, key_text(kind, ident), line=line)
        if (kind, ident) in protected and not over:
            raise refused(219, key_text(kind, ident), line=line)
        if (kind, ident, leaf) in before:
            raise refused(463, key_text(kind, ident), line=line)
        before.add((kind, ident, leaf))


def applied(table, resources, entries, moment, over):
    """The resources with the texts of the entries in the place of theirs."""
    trees = {one[:2]: tree_of(table, one, moment) for one in resources}
    check(entries, trees, resources, over)
    out = []
    for one in resources:
        mine = [entry for entry in entries if entry[:2] == one[:2]]
        if mine:
            tree = trees[one[:2]]
            texts = list(tree.texts)
            for _, _, leaf, text, _ in mine:
                texts[leaf] = text
            data = tree.bytes_with(texts)
            if data is None:
                raise refused(464, key_text(*one[:2]), line=mine[0][4])
            one = one[:4] + (data,)
        out.append(one)
    return out


# The commands.

class Asked:
    """The words of a command after its name; `files` are those that it names."""

    def __init__(self, words):
        self.files, self.macros, self.paths, self.form, self.output, self.over = [], {}, [], None, "Rez.Out", False
        rest = iter(words)
        for word in rest:
            if word == "-d":
                name, _, text = next(rest).partition("=")
                self.macros[name.lower()] = tokens_of(text)
            elif word == "-u":
                self.macros.pop(next(rest).lower(), None)
            elif word == "-i":
                self.paths.append(next(rest))
            elif word == "-from":
                self.form = next(rest)
            elif word == "-o":
                self.output = next(rest)
            elif word in ("-ov", "-rd"):
                self.over |= word == "-ov"
            else:
                assert word[:1] != "-", word
                self.files.append(word)

    def table(self, names, files):
        texts = {name: held.decode() for name, held in files.items() if name not in self.files[:len(self.files) - len(names)]}
        return declarations_of([token for name in names for token in program_of(name, texts, self.paths, self.macros)])


def held(files, name):
    if name not in files:
        raise refused(101, quoted(name.encode()))
    return files[name]


def fork_held(asked, files):
    """The form, the file, the resources, the attributes of the map and the reserved bytes of the fork that is named first."""
    data = held(files, asked.files[0])
    form = asked.form or form_of(data)
    file = read_form(form, data)
    resources, attributes, reserved = admitted(file.res)
    for one in resources:
        if len(one[4]) > MOST:
            raise refused(301, len(one[4]))
    return form, file, resources, attributes, reserved


def strings(words, files, moment=0):
    """What `strings` with these words writes."""
    asked = Asked(words)
    table = asked.table(asked.files[1:], files)
    return catalogue_text(table, fork_held(asked, files)[2], moment)


def in_form(form, base, fork, output, moment):
    """The file of a form with another fork."""
    if form == "raw":
        return fork
    now = (MOMENT + moment) % (1 << 32)
    file = base.but(res=fork, created=base.created or now, modified=now)
    if not file.name:
        last = output.rsplit("/", 1)[-1]
        try:
            file.name = last.encode("mac_roman")
        except UnicodeEncodeError:
            raise refused(425, len(last)) from None
    return written(form, file)


def restring(words, files, moment=0):
    """The name and the bytes of the file that `restring` with these words writes."""
    asked = Asked(words)
    table = asked.table(asked.files[2:], files)
    form, base, resources, attributes, reserved = fork_held(asked, files)
    if attributes & READ_ONLY:
        raise refused(220, attributes)
    entries = entries_of(tokens_of_catalogue(roman_text(held(files, asked.files[1]))))
    fork = image(applied(table, resources, entries, moment, asked.over), attributes, reserved)
    return asked.output, in_form(form, base if form != "raw" else File(), fork, asked.output, moment)


def message(fault, catalogue=None):
    """The line of a fault, of which those of a catalogue tell its name."""
    line = getattr(fault, "line", None)
    place = "" if line is None else "%s:%s: " % (catalogue, line)
    return "%serror %s" % (place, fault)
