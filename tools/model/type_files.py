"""Type files: their tokens and macros, and their declarations as lists of fields of label_types.py.

A second, plain reading of docs/LANGUAGE.md, which knows nothing of the code. Type files with conditionals are beyond
it: NotImplementedError.
"""
import re

from model.label_types import Align, Array, Expr, Fill, FORMS, Format, Label, Points, Switch, Text, num, value_of
from model.templates import types_of

TOKEN = re.compile(r"""\s+|//[^\n]*|/\*.*?\*/|(?P<token>\$"[^"]*"|"(?:\\.|[^"\\])*"|'(?:\\.|[^'\\])*'"""
                   r"""|\$\$[A-Za-z_]\w*|[A-Za-z_]\w*|\$[0-9A-Fa-f]+|\d\w*|<<|>>|<=|>=|==|!=|&&|\|\||.)""", re.S)
LEVELS = (("||",), ("&&",), ("|",), ("^",), ("&",), ("==", "!="), (">=", "<=", ">", "<"), ("<<", ">>"), ("+", "-"),
          ("*", "/", "%"))
FUNCTIONS = {"$$bitfield": "BitField", "$$byte": "Byte", "$$word": "Word", "$$long": "Long"}
TEXT_FACTS = ("$$name", "$$date", "$$time", "$$version")
STRINGS = ("string", "cstring", "pstring", "wstring")
FACTS = {"$$" + word.lower(): word for word in (
    "ID", "Type", "Attributes", "Year", "Month", "Day", "Hour", "Minute", "Second", "Weekday", "Name", "Date", "Time", "Version")}


# Tokens, and the program of type files.

def tokens_of(text):
    return [found["token"] for found in TOKEN.finditer(text) if found["token"]]


def bytes_of(token):
    """The bytes of a string or a literal."""
    if token.startswith("$"):
        return bytes.fromhex(token[2:-1])
    out, at, body = b"", 0, token[1:-1]
    letters = {"t": 9, "b": 8, "n": 13, "r": 10, "v": 11, "f": 12, "?": 127}
    while at < len(body):
        if body[at] != "\\":
            out += body[at].encode("mac_roman")
            at += 1
        elif body[at + 1:at + 3].lower() == "0x":
            out += bytes([int(body[at + 3:at + 5], 16)])
            at += 5
        else:
            letter = body[at + 1]
            out += bytes([letters.get(letter, ord(letter))])
            at += 2
    return out


def expand(tokens, macros, hidden=()):
    out = []
    for token in tokens:
        name = token.lower()
        if name in macros and name not in hidden:
            out += expand(macros[name], macros, hidden + (name,))
        else:
            out.append(token)
    return out


def program_of(name, files, paths, macros):
    """The tokens of a type file; the macros change on the way."""
    out = []
    for line in files[name].replace("\\\n", "").split("\n"):
        if not line.lstrip().startswith("#"):
            out += expand(tokens_of(line), macros)
            continue
        word, *rest = tokens_of(line.lstrip()[1:])
        if word == "define":
            macros[rest[0].lower()] = rest[1:]
        elif word == "undef":
            macros.pop(rest[0].lower(), None)
        elif word == "include":
            wanted = bytes_of(rest[0]).decode("mac_roman")
            found = [each for each in [wanted] + [path + "/" + wanted for path in paths] if each in files]
            out += program_of(found[0], files, paths, macros)
        else:
            raise NotImplementedError(word)
    return out


# Declarations.

class Reader:
    """Tokens, from the front."""

    def __init__(self, tokens):
        self.tokens, self.at = tokens, 0

    def peek(self, ahead=0):
        return self.tokens[self.at + ahead].lower() if self.at + ahead < len(self.tokens) else ""

    def next(self):
        self.at += 1
        return self.tokens[self.at - 1]

    def take(self, token):
        if self.peek() == token:
            self.at += 1
            return True
        return False

    def want(self, token):
        if not self.take(token):
            raise SyntaxError("%s wanted, %s there" % (token, self.peek()))

    def expression(self, level=0):
        if level == len(LEVELS):
            return self.operand()
        left = self.expression(level + 1)
        while self.peek() in LEVELS[level]:
            operator = self.next()
            left = (operator, left, self.expression(level + 1))
        return left

    def operand(self):
        token = self.next()
        if token in "-~!":
            return token, self.operand()
        if token == "(":
            inner = self.expression()
            self.want(")")
            return inner
        if token.lower() in ("$$countof", "$$arrayindex"):
            self.want("(")
            name = self.next()
            self.want(")")
            return "rows" if token.lower() == "$$countof" else "row", name
        if token.lower() in FUNCTIONS:
            self.want("(")
            bits = ("bits", FUNCTIONS[token.lower()], self.next())
            while self.take(","):
                bits += (self.expression(),)
            self.want(")")
            return bits
        if token[0] == "'" or token[0] == '"':
            return "number", int.from_bytes(bytes_of(token), "big")
        if token[0] == "$" and token[1] != "$":
            return "number", int(token[1:], 16)
        if token[0].isdigit():
            return "number", int(token, 8 if re.fullmatch(r"0[0-7]+", token) else 0)
        if self.take("["):
            index = self.expression()
            self.want("]")
            return "index", token, index
        if token.lower() in ("true", "false"):
            return "number", int(token.lower() == "true")
        return ("fact", FACTS[token.lower()]) if token.lower() in FACTS else ("name", token)

    def constant(self):
        return value_of(self.expression(), None)

    def expr(self):
        return Expr(*self.expression())

    def fields(self):
        """The fields up to a closing brace or the next case."""
        out = []
        while self.peek() not in ("}", "case"):
            if not self.take(";"):
                out.append(self.field())
        return out

    def field(self):
        if self.peek(1) == ":":
            name = self.next()
            self.want(":")
            return Label(name)
        if self.peek() in ("fill", "align"):
            return self.zeros()
        if self.peek() in ("wide", "array"):
            return self.array()
        if self.peek() == "switch":
            return self.switch()
        if self.peek() in ("point", "rect"):
            return self.points()
        is_hex = self.peek() == "hex"
        if self.peek(is_hex) in STRINGS:
            return self.text()
        return self.number()

    def zeros(self):
        """A fill or an align."""
        word, unit, count = self.next().lower(), self.next().lower(), None
        if word == "align":
            return Align(unit)
        if self.take("["):
            count = self.constant()
            self.want("]")
        return Fill(unit, count)

    def points(self):
        count, fixed = (2 if self.next().lower() == "point" else 4), None
        if self.take("="):
            self.want("{")
            fixed = [self.expr()]
            while self.take(","):
                fixed.append(self.expr())
            self.want("}")
        return Points(count, fixed)

    def text(self):
        says, form, size, fixed = "hex " * self.take("hex"), self.next().lower(), None, None
        if self.take("["):
            size = self.expr()
            self.want("]")
        if self.take("="):
            fixed = self.parts()
        return Text(form, size, fixed, says)

    def begins_part(self):
        token = self.peek()
        return token[:1] == '"' or token[:2] == '$"' or token in TEXT_FACTS or token == "$$format"

    def parts(self):
        """The parts of a string: bytes, facts, and formats with an argument each that is an expression or a list of parts."""
        out = []
        while self.begins_part():
            token = self.next()
            if token.lower() != "$$format":
                out.append(FACTS[token.lower()] if token.lower() in FACTS else bytes_of(token))
                continue
            self.want("(")
            text, arguments = bytes_of(self.next()), []
            while self.take(","):
                arguments.append(self.parts() if self.begins_part() else self.expr())
            self.want(")")
            out.append(Format(text, arguments))
        return out

    def number(self):
        key, says, fixed, symbols = self.take("key"), "", None, []
        while self.peek() not in FORMS and self.peek() != "bitstring":
            says += self.next().lower() + " "
        form = self.next().lower()
        if self.take("["):
            form += "[%d]" % self.constant()
            self.want("]")
        if self.take("="):
            fixed = self.expr()
        elif self.peek() not in ("", ";", "}"):
            symbols = self.symbols()
        return num(form, fixed, key=key, says=says, symbols=symbols)

    def symbols(self):
        """The symbols of a number: pairs of a name and a value."""
        out, value = [], -1
        while True:
            name = self.next()
            value = self.constant() if self.take("=") else value + 1
            out.append((name, value))
            if not self.take(","):
                return out

    def array(self):
        self.take("wide")
        self.want("array")
        name, count = None, None
        if self.take("["):
            count = self.constant()
            self.want("]")
        elif self.peek() != "{":
            name = self.next()
        self.want("{")
        row = self.fields()
        self.want("}")
        return Array(name, count, row)

    def switch(self):
        self.want("switch")
        self.want("{")
        cases = []
        while self.take("case"):
            name = self.next()
            self.want(":")
            cases.append((name, self.fields()))
        self.want("}")
        return Switch(cases)


def declarations_of(tokens, first=()):
    """The declarations of a program after the first ones, in their order: type, first id, last id (none for one id), fields."""
    table, reader = list(first), Reader([{"derez": "1", "rez": "0"}.get(token.lower(), token) for token in tokens])
    while reader.peek():
        if not reader.take("type"):
            depth = 0
            while depth or reader.peek() != ";":
                token = reader.next()
                depth += (token in "([{") - (token in ")]}")
            reader.want(";")
            continue
        kind, first, last = bytes_of(reader.next()), None, None
        if reader.take("("):
            first = reader.constant()
            if reader.take(":"):
                last = reader.constant()
            reader.want(")")
        if reader.take("as"):
            other, ident = bytes_of(reader.next()), None
            if reader.take("("):
                ident = reader.constant()
                reader.want(")")
            fields = found(table, other, ident)
        else:
            reader.want("{")
            fields = reader.fields()
            reader.want("}")
        reader.want(";")
        table = [each for each in table if each[:3] != (kind, first, last)] + [(kind, first, last, fields)]
    return table


def fields_of(text):
    """The fields that a text declares."""
    return Reader(tokens_of(text + "}")).fields()


def templates_of(file):
    """The declarations of a file with templates, in their order."""
    table = []
    for kind, fields in types_of(file):
        table = [each for each in table if each[0] != kind] + [(kind, None, None, fields_of(fields))]
    return table


def found(table, kind, ident):
    """The fields that are declared for an id of a type, or for any id; none if there are none."""
    mine = [each for each in reversed(table) if each[0] == kind]
    exact = [each for each in mine if ident is not None and each[1] == ident and each[2] is None]
    ranged = [each for each in mine if ident is not None and each[2] is not None and each[1] <= ident <= each[2]]
    whole = [each for each in mine if each[1] is None]
    chosen = exact + ranged + whole
    return chosen[0][3] if chosen else None
