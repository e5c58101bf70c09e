"""What is mended in a source, by tokens: what docs/PORTING.md tells people to change by hand.

Nothing inside a string, a literal or a comment changes, but the name of a file of `#include`, `include`, `read`, `$$Read`
and `$$Resource`. Each token keeps its line.
"""
import collections
import re

from . import macros, tokens

SUFFIX = re.compile(rb"(0[xX][0-9A-Fa-f]+|0[bB][01]+|[0-9]+)[uUlL]+")
LEFT_OUT = (b"pragma", b"printf")
TESTS = (b"ifdef", b"ifndef", b"if", b"elif", b"undef")

# What was mended: the place in the source, and what is told of it.
Mended = collections.namedtuple("Mended", "start said")


def slashed(name):
    """The name of a file with colons as one with slashes: `:a:b` is a/b, `::b` is ../b, and `Disk:b` is Disk/b."""
    if b":" not in name:
        return name
    parts = name.split(b":")
    if not parts[0]:
        del parts[0]
    last = len(parts) - 1
    return b"/".join(part or (b".." if at < last else b"") for at, part in enumerate(parts))


class Names:
    """Finds the strings that name files in statements: each is the list of its tokens. Tokens come one by one."""

    def __init__(self):
        self.state, self.depth, self.pieces = "", 0, []

    def feed(self, token):
        """Takes a token that isn't a blank; gives the strings of a name that ends before it, or nothing."""
        if self.state == "name" and token.kind == "text" and token.text[:1] == b'"':
            self.pieces.append(token)
            return []
        found = self.end()
        self.state = self.after(token)
        return found

    def end(self):
        """The strings of a name that ends here."""
        found, self.pieces = self.pieces, []
        return found

    def after(self, token):
        """Where in a statement the next token stands."""
        word = token.text.lower() if token.kind == "word" else None
        if word in (b"$$read", b"$$resource"):
            return "bracket"
        if self.state == "bracket":
            return "name" if token.text == b"(" else ""
        if self.state == "type":
            self.depth = 0
            return "header" if token.text[:1] == b"'" else ""
        if self.state == "header":
            return self.after_header(token)
        return {b"include": "name", b"read": "type"}.get(word, "")

    def after_header(self, token):
        """The same in the header of a `read` statement."""
        self.depth += (token.text == b"(") - (token.text == b")")
        if token.text == b";":
            return ""
        return "name" if token.text == b")" and self.depth == 0 else "header"


class Mending:
    """The edits of one source. `find` gives for a name of `#include` what stands for it between quote marks, or None."""

    def __init__(self, source, find, is_there, known):
        self.source, self.find, self.is_there, self.known = source, find, is_there, known
        self.edits, self.mended, self.names = [], [], Names()

    def run(self):
        """The mended source."""
        if self.known.found:
            self.expand(self.statements())
        else:
            for line in self.source.lines():
                if not self.directive(line):
                    self.plain(line, self.names)
        self.name(self.names.end())
        return self.source.rebuilt(self.edits)

    def edit(self, token, instead, said=None):
        """Puts bytes in the place of a token."""
        self.edits.append((token.start, token.start + len(token.text), instead))
        if said:
            self.mended.append(Mended(token.start, said))

    def statements(self):
        """The tokens outside directives; a directive, which ends a call, stands for itself as None."""
        for line in self.source.lines():
            if self.directive(line):
                yield None
            else:
                yield from line

    def plain(self, line, names):
        """Mends numbers and names of files of tokens."""
        for token in line:
            if macros.is_gap(token):
                continue
            self.name(names.feed(token))
            if token.kind == "number":
                self.number(token)

    def number(self, token):
        """Leaves the suffix of a number out."""
        found = SUFFIX.fullmatch(token.text)
        if found:
            self.edit(token, found[1], "the number %s is written %s" % (told(token.text), told(found[1])))

    def name(self, pieces):
        """Puts slashes in the place of the colons of a file's name, if no file has the name as it stands."""
        written = b"".join(token.text[1:-1] for token in pieces if tokens.is_whole(token))
        if b":" not in written or self.is_there(written):
            return
        made = slashed(written)
        self.edit(pieces[0], b'"%s"' % made, 'the name "%s" is written "%s"' % (told(written), told(made)))
        for token in pieces[1:]:
            self.edit(token, b'""')

    def directive(self, line):
        """Mends a line if it is a directive, and says whether it is one."""
        words = [token for token in line if not macros.is_gap(token)]
        if not words or words[0].text != b"#":
            return False
        word = words[1].text.lower() if len(words) > 1 else b""
        if word == b"include":
            self.include(words)
        elif word in LEFT_OUT:
            for token in words:
                self.edit(token, b"")
            self.mended.append(Mended(words[0].start, "#%s is left out" % told(word)))
        elif word == b"define" and self.definition(line):
            pass
        else:
            self.other(line, words, word)
        return True

    def include(self, words):
        """Names the file that is meant by `#include`."""
        if len(words) < 3 or words[2].kind not in ("angle", "text"):
            return
        name = words[2].text[1:-1]
        is_angle = words[2].kind == "angle"
        if not is_angle and (words[2].text[:1] != b'"' or not tokens.is_whole(words[2]) or b"\\" in name):
            return
        found = self.find(name, is_angle)
        if found:
            self.edit(words[2], b'"%s"' % found[0], found[1])
        elif is_angle:
            last = name.rsplit(b"/", 1)[-1].replace(b'"', b'\\"')
            self.edit(words[2], b'"%s"' % last, '<%s> is written "%s"' % (told(name), told(last)))

    def definition(self, line):
        """Puts its mark in the place of a definition with parameters, and says whether there is one that is expanded."""
        defined = macros.definition(line, None)
        known = defined and self.known.get(defined.name)
        if not known:
            return False
        words = [token for token in line if not macros.is_gap(token)]
        self.edit(words[2], known.mark, "the macro %s is expanded where it is used" % told(known.name))
        for token in words[3:]:
            self.edit(token, b"")
        return True

    def other(self, line, words, word):
        """Mends the tokens after the word of any other directive."""
        tail = [token for token in line if len(words) > 1 and token.start > words[1].start]
        if word == b"define":
            tail = [token for token in tail if token is not words[2]] if len(words) > 2 else tail
        names = Names()
        if not self.known.found:
            self.plain(tail, names)
        else:
            self.expand(iter(self.marked(tail, word)), names)
        self.name(names.end())

    def marked(self, tail, word):
        """The tokens of a directive, without those names of macros that stand for the macro itself, as in `#ifdef Text`."""
        rest, pairs = [], macros.brackets(tail)
        for at, token in enumerate(tail):
            macro = self.known.get(token.text) if token.kind == "word" and word in TESTS else None
            if macro and not self.known.call_at(tail, at, pairs):
                self.edit(token, macro.mark)
            else:
                rest.append(token)
        return rest

    def expand(self, stream, names=None):
        """Expands the calls of macros, and mends all other tokens."""
        part = []
        for token in stream:
            if token is None:
                self.expand_part(part, names or self.names)
                part = []
            else:
                part.append(token)
        self.expand_part(part, names or self.names)

    def expand_part(self, part, names):
        """The same of tokens between two directives: no call goes over a directive."""
        at, pairs = 0, macros.brackets(part)
        while at < len(part):
            call = self.known.call_at(part, at, pairs)
            if not call:
                self.plain(part[at:at + 1], names)
                at += 1
                continue
            macro, given, after = call
            self.name(names.end())
            names.state = ""
            self.call(macro, given, part[at], part[after - 1])
            at = after

    def call(self, macro, given, first, last):
        """Puts an expansion in the place of a call."""
        try:
            made = self.known.expansion(macro, given)
        except macros.TooLong as fault:
            raise macros.TooLong("%d: %s" % (self.source.line_of(first.start), fault)) from None
        inner = Mending(tokens.Source(made), self.find, self.is_there, macros.Macros())
        self.edits.append((first.start, last.start + len(last.text), b" " + inner.run() + b" "))


def value(data):
    """The value of a macro that the arguments define, mended."""
    source = tokens.Source(data)
    mending = Mending(source, None, lambda written: True, macros.Macros())
    mending.plain(source.tokens(), Names())
    return source.rebuilt(mending.edits)


def told(text):
    """Bytes of a source as they are told: they are ASCII, or a name."""
    return text.decode("mac_roman")
