"""Cuts a source into tokens as rezkit does ('Text and tokens' of docs/LANGUAGE.md), and puts a changed source together.

Lines that a backslash joins are joined first, so all places are places in the joined text; what is put together has every
line end of the source again, so each token keeps its line.
"""
import bisect
import collections
import re

MARK = b"\xef\xbb\xbf"
JOIN = re.compile(rb"\\(?:\r\n|\r|\n)")
LINE_END = re.compile(rb"\r\n|\r|\n")
TOKEN = re.compile(rb"""
    (?P<end>\r\n|\r|\n)
    | (?P<blank>[ \t\v\f]+)
    | (?P<comment>/\*|//[^\r\n]*)
    | (?P<text>\$?"|')
    | (?P<word>(?:\$\$(?=[A-Za-z]))?[A-Za-z_][A-Za-z0-9_]*)
    | (?P<number>(?:[0-9]|\$[0-9A-Fa-f])[A-Za-z0-9_]*)
    | (?P<other>.)
    """, re.X | re.S)
STOP = {mark: re.compile(b"[\\\\\r\n%s]" % mark) for mark in (b'"', b"'")}
ANGLE = re.compile(rb"<[^>\r\n]*>")

# kind: the name of a group of TOKEN, or "angle" for the name between < and > of a directive #include.
Token = collections.namedtuple("Token", "kind start text")


class Source:
    """The bytes of a source: the text without joins, where the joins were, and its tokens."""

    def __init__(self, data):
        self.data = data
        self.front = MARK if data.startswith(MARK) else b""
        body = data[len(self.front):]
        parts, self.joins, at, length = [], [], 0, 0
        for join in JOIN.finditer(body):
            parts.append(body[at:join.start()])
            length += join.start() - at
            self.joins.append((length, join[0]))
            at = join.end()
        self.text = b"".join(parts) + body[at:]
        self.join_places = [place for place, _ in self.joins]
        self.line_ends = [found.end() for found in LINE_END.finditer(self.text)]

    def line_of(self, start):
        """The number of the physical line at a place, from 1."""
        return 1 + bisect.bisect_right(self.line_ends, start) + bisect.bisect_right(self.join_places, start)

    def tokens(self):
        """The tokens in order, blanks and comments among them."""
        at, ahead = 0, []
        while at < len(self.text):
            angle = ahead == [b"#", b"include"] and ANGLE.match(self.text, at)
            found = angle or TOKEN.match(self.text, at)
            kind = "angle" if angle else found.lastgroup
            after = self.end_of(kind, found)
            yield Token(kind, at, self.text[at:after])
            at = after
            if kind == "end":
                ahead = []
            elif kind not in ("blank", "comment") and len(ahead) < 3:
                ahead.append(found[0].lower())

    def end_of(self, kind, found):
        """The place after a token, of which the first bytes are found."""
        if kind == "text":
            return end_of_quotes(self.text, found.end(), found[0][-1:])
        if kind == "comment" and found[0] == b"/*":
            closing = self.text.find(b"*/", found.end())
            return closing + 2 if closing >= 0 else len(self.text)
        return found.end()

    def lines(self):
        """The tokens of each logical line, its line end among them."""
        line = []
        for token in self.tokens():
            line.append(token)
            if token.kind == "end":
                yield line
                line = []
        if line:
            yield line

    def rebuilt(self, edits):
        """The source with edits (start, end, bytes), which don't overlap, and with all of its line ends."""
        made, at = [self.front], 0
        joins = [(place, place, text) for place, text in self.joins]
        for start, end, instead in sorted(joins + edits):
            made.append(self.text[at:start])
            made.append(instead)
            made.extend(LINE_END.findall(self.text[start:end]))
            at = max(at, end)
        made.append(self.text[at:])
        return b"".join(made)


def end_of_quotes(text, at, mark):
    """The place after a quoted part, from after its first mark on: it ends at the same mark, or at the line's end."""
    while True:
        found = STOP[mark].search(text, at)
        if not found:
            return len(text)
        if found[0] == mark:
            return found.end()
        if found[0] != b"\\":
            return found.start()
        at = found.end() + 1
        if at > len(text):
            return len(text)


def is_whole(token):
    """Whether a string or a literal ends on its line."""
    body = token.text[1:] if token.text[:1] == b"$" else token.text
    mark = body[:1]
    at = 1
    while True:
        found = STOP[mark].search(body, at)
        if not found:
            return False
        if found[0] == mark:
            return True
        at = found.end() + 1
