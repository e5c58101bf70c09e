"""What `derez` shows of a fork under type files: a second, plain reading of docs/LANGUAGE.md and docs/FORMATS.md.

It knows nothing of the code. type_files.py reads the type files, and label_reading.py finds the row of a resource.
"""
from datetime import datetime, timedelta

from model.fork import admitted
from model.forms import form_of, read_form
from model.label_reading import read
from model.label_types import Array, Number, Points, Switch, Text
from model.labels import takes
from model.quoting import quoted, words_of
from model.type_files import declarations_of, found, program_of, templates_of, tokens_of


def all_facts(facts):
    """The facts of a resource and of the moment by their names. The moment, in seconds after the first one of 1970, stands
    after the parts of the resource; without it the moment is that second."""
    now = datetime(1970, 1, 1) + timedelta(seconds=(facts[5:] + (0,))[0])
    return {"ID": facts[1], "Type": int.from_bytes(facts[0], "big"), "Attributes": facts[3], "Name": facts[2],
            "Year": now.year, "Month": now.month, "Day": now.day, "Weekday": now.isoweekday() % 7 + 1,
            "Hour": now.hour, "Minute": now.minute, "Second": now.second, "Date": now.strftime("%Y-%m-%d").encode(),
            "Time": now.strftime("%H:%M:%S").encode(), "Version": b"V1.0"}


def uses_hidden(fields, row, hidden):
    """Whether a row chooses a case with one of these names."""
    for field, value in zip(filter(takes, fields), row):
        if isinstance(field, Array) and any(uses_hidden(field.row, each, hidden) for each in value):
            return True
        if isinstance(field, Switch):
            if value[0].lower() in hidden or uses_hidden(dict(field.cases)[value[0]], value[1], hidden):
                return True
    return False


# The text.

def hex_text(content):
    digits = content.hex().upper()
    return '$"%s"' % " ".join(digits[at:at + 4] for at in range(0, len(digits), 4))


def pieces(content, size):
    return [content[at:at + size] for at in range(0, len(content), size)] or [b""]


def signed(number, width):
    return number - 2 ** width if number >= 2 ** (width - 1) else number


def number_text(field, number, hidden):
    words, width, first = field.says.split(), field.width, {}
    for name, value in field.symbols:
        first.setdefault(name.lower(), value)
    for name, _ in field.symbols:
        if first[name.lower()] % 2 ** width == number:
            if name.lower() not in hidden:
                return name
            break
    if field.form == "char":
        return quoted(bytes([number]), '"')
    if field.form == "boolean":
        return str(number) if field.symbols else ("false", "true")[number]
    if "literal" in words and width in (8, 16, 32):
        return quoted(number.to_bytes(width // 8, "big"), "'")
    if "hex" in words or "literal" in words:
        return "0x%0*X" % ((width + 3) // 4, number)
    if "octal" in words:
        return "0%o" % number if number else "0"
    if "binary" in words:
        return "0B{:0{}b}".format(number, width)
    return str(number if "unsigned" in words else signed(number, width))


def items_of(fields, row, hidden):
    """Items: a list of lines each, or (begin, items) with items of its own."""
    out = []
    for field, value in zip(filter(takes, fields), row):
        if isinstance(field, Number):
            out.append([number_text(field, value, hidden)])
        elif isinstance(field, Points):
            out.append(["{%s}" % ", ".join(str(signed(each, 16)) for each in value)])
        elif isinstance(field, Text):
            texts = map(hex_text, pieces(value, 16)) if field.says else (quoted(each, '"') for each in pieces(value, 64))
            out.append(list(texts))
        elif isinstance(field, Array):
            out.append(("{", [item for each in value for item in items_of(field.row, each, hidden)]))
        else:
            out.append((value[0] + " {", items_of(dict(field.cases)[value[0]], value[1], hidden)))
    return out


def lines_of(items, depth):
    out, margin = [], " " * min(4 * depth, 32)
    for at, item in enumerate(items):
        comma = "," if at + 1 < len(items) else ""
        if isinstance(item, tuple):
            out += [margin + item[0]] + lines_of(item[1], depth + 1) + [margin + "}" + comma]
        else:
            out += [margin + each for each in item[:-1]] + [margin + item[-1] + comma]
    return out


def head_text(word, resource):
    kind, ident, name, attr, _ = resource
    text = "%s %s (%d" % (word, quoted(kind, "'"), ident)
    if len(name) > 64:
        text += ",\n" + "\n".join("    " + quoted(each, '"') for each in pieces(name, 64))
    elif name:
        text += ", " + quoted(name, '"')
    return text + "".join(", " + word for word in words_of(attr)) + ") {"


def resource_text(resource, table, hidden, moment):
    fields, content = found(table, resource[0], resource[1]), resource[4]
    word, lines = "data", ["    " + hex_text(each) for each in pieces(content, 16)]
    row = None if fields is None else read(fields, content, all_facts(resource + (moment,)))
    if row is not None and not (hidden and uses_hidden(fields, row, hidden)):
        word, lines = "resource", lines_of(items_of(fields, row, hidden), 1)
    return "\n".join([head_text(word, resource)] + lines + ["};", "", ""])


def derez(words, files, moment=0):
    """What `derez` with these words shows, so many seconds after the first one of 1970."""
    names, macros, paths, only, skip, form, templates = [], {}, [], [], [], None, None
    words = list(words)
    while words:
        word = words.pop(0)
        if word == "-d":
            name, _, text = words.pop(0).partition("=")
            macros[name.lower()] = tokens_of(text)
        elif word == "-u":
            macros.pop(words.pop(0).lower(), None)
        elif word == "-from":
            form = words.pop(0)
        elif word == "-tmpl":
            templates = words.pop(0)
        elif word in ("-i", "-only", "-skip", "-s"):
            value = words.pop(0)
            (paths if word == "-i" else only if word == "-only" else skip).append(value)
        elif word != "-rd":
            names.append(word)
    texts = {name: content.decode() for name, content in files.items() if name not in (names[0], templates)}
    tokens = [token for name in names[1:] for token in program_of(name, texts, paths, macros)]
    table = declarations_of(tokens, templates_of(files[templates]) if templates else ())
    only, skip = [[each.encode("mac_roman") for each in kinds] for kinds in (only, skip)]
    fork = read_form(form or form_of(files[names[0]]), files[names[0]]).res
    chosen = [each for each in admitted(fork)[0] if (not only or each[0] in only) and each[0] not in skip]
    return "".join(resource_text(each, table, set(macros), moment) for each in chosen)
