"""How a case file spells a file or a stream: the lines of its content.

A fork with the layout of docs/FORMATS.md stands after the comments that fork_bytes.py reads, and a file of another
form after one that tells its form.
"""
import re

from model.faults import Refused
from model.fork import admitted, image
from model.forms import form_of, read_form

RUNS = [re.compile(re.escape(bytes([byte])) + b"+") for byte in range(256)]  # of one byte each, which Python matches fast


def lines_of(content):
    """Content lines that spell the bytes, sixteen on a line, with rows of zeros as one piece."""
    lines, zeros = [], 0
    for at in range(0, len(content), 16):
        row = content[at:at + 16]
        if row == bytes(16):
            zeros += 16
            continue
        lines += ["| 00*%d" % zeros] * (zeros > 0)
        zeros = 0
        digits = row.hex().upper()
        lines.append("| " + " ".join(digits[at:at + 4] for at in range(0, len(digits), 4)))
    return lines + ["| 00*%d" % zeros] * (zeros > 0)


def parts(data, least):
    """The bytes cut into runs of at least so many equal ones and what stands between: pairs of bytes and of whether it is a run."""
    begin, out, at = re.compile(rb"(.)\1{%d}" % (least - 1), re.S), [], 0
    found = begin.search(data)
    while found:
        run = RUNS[found[0][0]].match(data, found.start())
        out += [(data[at:run.start()], False)] * (run.start() > at) + [(run.group(), True)]
        at = run.end()
        found = begin.search(data, at)
    return out + [(data[at:], False)] * (at < len(data))


def pieces(data):
    """Bytes in pieces of a comment of fork_bytes.py: equal ones from eight on shortly."""
    return " ".join("%02X*%d" % (part[0], len(part)) if run else part.hex().upper() for part, run in parts(data, 8))


def spelled(data):
    """Bytes as lines of a content: equal ones from sixteen on shortly."""
    lines = []
    for part, run in parts(data, 16):
        if run:  # a piece of a case file stands for at most 20,000,000 bytes
            rows = ["%02X*%d" % (part[0], len(part[k:k + 20000000])) for k in range(0, len(part), 20000000)]
        else:
            rows = [part[k:k + 32].hex().upper() for k in range(0, len(part), 32)]
        lines += ["| " + row for row in rows]
    return lines


def byte_lines(data):
    """Bytes as the text of a content, sixty-four on a line."""
    return "".join("| %s\n" % data[at:at + 64].hex() for at in range(0, len(data), 64))


def source_lines(data):
    """A text with bytes outside ASCII: each line in pieces, what can be printed between quote marks."""
    if not re.fullmatch(rb"([ -~\x80-\xFF]*\n)+", data):
        return []
    lines = []
    for line in data.splitlines(True):
        found = re.finditer(rb'([ !#-~]+)|["\n]|[\x80-\xFF]+', line)
        lines.append("| " + " ".join('"%s"' % one[1].decode() if one[1] else one[0].hex().upper() for one in found))
    return lines


def resource_line(resource):
    """What a comment says of a resource, or None where it has a type or a name that no comment of fork_bytes.py spells."""
    kind, ident, name, attr, content = resource
    if not re.fullmatch(rb"[ -~]{4}", kind) or not re.fullmatch(rb"[ !#-~]*", name):
        return None
    return ("'%s' %d" % (kind.decode(), ident) + (' "%s"' % name.decode() if name else "")
            + (" %02X" % attr if attr else "") + (" = " + pieces(content) if content else ""))


def fork_lines(data):
    """The lines of a fork of this layout with the comments that fork_bytes.py reads, or None."""
    try:
        resources, attributes, reserved = admitted(data)
        same = bool(data) and image(resources, attributes, reserved) == data
    except Refused:
        return None
    lines = [resource_line(each) for each in resources]
    if not same or None in lines:
        return None
    out = ["# fork " + line for line in lines] or ["# fork"]
    kept = reserved.rstrip(b"\0")
    if kept:
        out.append("# put 16 " + pieces(kept))
    if attributes:
        out.append("# put %d %04X" % (int.from_bytes(data[4:8], "big") + 22, attributes))
    return out + lines_of(data)


def form_lines(data):
    """What a comment says of a file of another form, or of a fork of another layout."""
    form = form_of(data)
    if not data:
        return []
    try:
        file = read_form(form, data)
        resources, attributes, _ = admitted(file.res)
    except Refused:
        return []
    name = {"double": "AppleDouble", "single": "AppleSingle", "macbin": "MacBinary", "hqx": "BinHex", "raw": "another layout,"}[form]
    lines = [resource_line(each) for each in resources]
    return (["# %s with no resources" % name] if not lines else
            ["# %s with %s" % (name, line) for line in lines if line]
            + ["# and the attributes %04X of the map" % attributes] * bool(attributes))


def content(key, name, data):
    """The lines of a key with a file or a stream: a str is text, bytes are spelled, and a list has pieces that spell bytes."""
    key_line = ("%s %%s %s" % (key, name)).rstrip()
    if isinstance(data, list):
        return [key_line % "bytes"] + ["| " + piece for piece in data]
    if isinstance(data, str):
        kind = "text" if data.endswith("\n") or not data else "open"
        lines = data.split("\n")
        return [key_line % kind] + ["| " + line if line else "|" for line in (lines[:-1] if kind == "text" else lines)]
    if data[:5] == b"(This" and data.isascii() and data.endswith(b"\n") and b"\r" not in data:
        return [key_line % "text"] + form_lines(data) + ["| " + line for line in data.decode().split("\n")[:-1]]
    return [key_line % "bytes"] + (source_lines(data) or fork_lines(data) or form_lines(data) + spelled(data))
