"""Macros with parameters, which rezkit's language doesn't have: they are expanded in the copies of the sources.

    #define Text(id, text) resource 'STR ' (id) { text }
    Text(128, "Hello");

A definition becomes that of a macro without parameters and without tokens, its *mark*, and each expansion begins with the
mark. So an expansion means something only where rezkit has read the definition, whatever the conditionals are; elsewhere
the mark stays, and rezkit refuses the line. A macro that has two different definitions isn't expanded: which of them
holds is known to rezkit alone, and it refuses the definition that it reads (104).
"""
from .errors import Refused

MARK = b"rezkit_macro_%d"
MOST_TOKENS, DEEPEST = 65536, 64


class TooLong(Refused):
    """Too many tokens are handled for a call, or too many calls stand within each other. The program ends with 2."""

    status = 2


class Macro:
    """A macro with parameters. `place` is the file and line of its first definition, for messages."""

    def __init__(self, name, parameters, body, place):
        self.name, self.parameters, self.body, self.place = name, parameters, body, place
        self.mark = None

    def means_the_same(self, other):
        """Whether two definitions have the same parameters and tokens."""
        return (self.parameters, [token.text for token in self.body]) == (other.parameters, [token.text for token in other.body])


def is_gap(token):
    """Whether a token parts others and means nothing itself."""
    return token.kind in ("blank", "comment", "end")


def definition(line, place):
    """The macro that a logical line defines, or None if it defines none with parameters."""
    words = [token for token in line if not is_gap(token)]
    if len(words) < 4 or words[0].text != b"#" or words[1].text.lower() != b"define" or words[2].kind != "word":
        return None
    name, bracket = words[2], words[3]
    if bracket.text != b"(" or bracket.start != name.start + len(name.text):
        return None
    closing = next((at for at in range(4, len(words)) if words[at].text == b")"), None)
    if closing is None:
        return None
    between = words[4:closing]
    named, commas = between[::2], between[1::2]
    if any(token.kind != "word" for token in named) or any(token.text != b"," for token in commas) or between and len(between) % 2 == 0:
        return None
    body = [token for token in line if token.start > words[closing].start and not is_gap(token)]
    if any(token.text == b"#" for token in body):
        return None
    return Macro(name.text, [token.text for token in named], body, place)


class Macros:
    """The macros with parameters of all sources of a program."""

    def __init__(self):
        self.found, self.twice = {}, {}

    def note(self, macro):
        """Takes a definition, in the order of the sources."""
        first = self.found.setdefault(macro.name, macro)
        first.mark = first.mark or MARK % len(self.found)
        if not first.means_the_same(macro):
            self.twice.setdefault(macro.name, (first.place, macro.place))

    def get(self, name):
        """The macro of a name that is expanded, or None."""
        return None if name in self.twice else self.found.get(name)

    def call_at(self, tokens, at, pairs):
        """The macro that is called at a token, its arguments, and the token after the call; or None."""
        macro = self.get(tokens[at].text) if tokens[at].kind == "word" else None
        if not macro:
            return None
        opening = next((place for place in range(at + 1, len(tokens)) if not is_gap(tokens[place])), None)
        if opening not in pairs:
            return None
        closing, commas = pairs[opening]
        if len(commas) + 1 != max(len(macro.parameters), 1):
            return None
        ends = [opening] + commas + [closing]
        given = [tokens[first + 1:last] for first, last in zip(ends, ends[1:])]
        if not macro.parameters and any(not is_gap(token) for token in given.pop()):
            return None
        return macro, given, closing + 1

    def expansion(self, macro, given):
        """The bytes that a call means."""
        texts = self.replaced(macro, given, frozenset(), [MOST_TOKENS], 0)
        return b" ".join(texts)

    def replaced(self, macro, given, hidden, room, depth):
        """The texts of the tokens of a call, its mark in front."""
        if depth > DEEPEST:
            raise TooLong("calls of macros stand more than %d deep" % DEEPEST)
        values = dict(zip(macro.parameters, (self.expanded(part, hidden, room, depth + 1) for part in given)))
        made = []
        for token in macro.body:
            made.extend(values[token.text] if token.text in values else [token])
            spend(room, len(values.get(token.text, ())) + 1)
        rest = self.expanded(made, hidden | {macro.name}, room, depth + 1)
        return [macro.mark] + [getattr(token, "text", token) for token in rest]

    def expanded(self, tokens, hidden, room, depth):
        """Tokens in which each call of a macro that isn't hidden is replaced."""
        if depth > DEEPEST:
            raise TooLong("calls of macros stand more than %d deep" % DEEPEST)
        tokens, made, at = [token for token in tokens if not is_gap(token)], [], 0
        pairs = brackets(tokens)
        while at < len(tokens):
            call = None if tokens[at].text in hidden else self.call_at(tokens, at, pairs)
            if call:
                macro, given, at = call
                made.extend(as_tokens(self.replaced(macro, given, hidden, room, depth + 1)))
            else:
                made.append(tokens[at])
                at += 1
            spend(room, 1)
        return made


def spend(room, tokens):
    """Refuses a call for which too many tokens are handled."""
    room[0] -= tokens
    if room[0] < 0:
        raise TooLong("more than %d tokens are handled for a call of a macro" % MOST_TOKENS)


class Replaced:
    """A token of an expansion. It calls nothing again."""

    kind, start = "replaced", -1

    def __init__(self, text):
        self.text = text


def as_tokens(texts):
    """Tokens of the texts of an expansion."""
    return [Replaced(text) for text in texts]


def brackets(tokens):
    """The pairs of brackets ( and ): for the first of each the place of the second, and those of the commas between."""
    pairs, waiting = {}, []
    for at, token in enumerate(tokens):
        if token.text == b"(":
            waiting.append((at, []))
        elif token.text == b"," and waiting:
            waiting[-1][1].append(at)
        elif token.text == b")" and waiting:
            opening, commas = waiting.pop()
            pairs[opening] = at, commas
    return pairs
