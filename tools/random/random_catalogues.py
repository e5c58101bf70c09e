#!/usr/bin/env python3
"""Runs `strings` and `restring` on random types, forks and catalogues, and compares what the built program says with
a second reading.

    python3 tools/random/random_catalogues.py [PROGRAM [COUNT [SEED]]]

PROGRAM is the one that ./rezkit runs, COUNT 2,000 and SEED 1 unless others are named. Each fork has resources of one
random type, as random_rows.py makes them, in one of the forms raw, AppleDouble, AppleSingle, MacBinary and BinHex.
`strings` has to write the catalogue that catalogues.py tells, and `restring` has to write the same file, or the same
message, for five catalogues: that of the fork itself, and others with changed texts, in another order, with an entry
too many, or with something changed in their bytes. Printed is how often each answer came. The status is 1 if another
came. This is no part of the gate.
"""
import random
import re
import sys

import top  # noqa: F401
from random_rows import labelled, unlabelled
from model.catalogues import entries_in, entry_text, message, restring, strings
from model.faults import Refused
from model.fork import image
from model.forms import FORMS, File, written
from model.type_files import declarations_of, tokens_of
from runs import run_all

LETTERS = [0, 34, 39, 92, 97, 98, 99, 233, 255]


def some_text(old):
    """A new text for an old one."""
    change = random.random()
    if change < 0.3:
        return bytes(random.choice(LETTERS[4:]) for _ in old)
    if change < 0.6:
        return old + bytes(random.choice(LETTERS) for _ in range(random.choice([1, 1, 2, 3, 8])))
    if change < 0.8:
        return old[:random.randrange(len(old) + 1)]
    return bytes(random.choice(LETTERS) for _ in range(random.choice([0, 1, 2, 3, 63, 64, 65, 255, 256])))


def some_entries(own):
    """Entries for the texts of a fork: type, id, leaf and text."""
    part = random.choice([1, 1, 0.5, 0.2])
    out = [entry[:3] + (some_text(entry[3]) if random.random() < 0.5 else entry[3],) for entry in own if random.random() < part]
    if random.random() < 0.3:
        random.shuffle(out)
    if own and random.random() < 0.25:
        kind, ident, leaf, text = random.choice(own)
        more = random.choice([(kind, ident, leaf, text), (kind, ident, leaf + random.choice([1, 2, 99]), text),
                              (kind, ident + 1, leaf, text), (b"Bare", 1, 0, b"")])
        out.insert(random.randrange(len(out) + 1), more)
    return out


def spoiled(text):
    """The bytes of a catalogue with something changed."""
    at = random.randrange(len(text) + 1)
    return random.choice([
        lambda: text[:at], lambda: text[:at] + text[at + 1:], lambda: text.replace(b"\n", b"\r\n"), lambda: text.replace(b"\n", b" "),
        lambda: text[:at] + bytes([random.randrange(256)]) + text[at + 1:], lambda: text[:at] + random.choice([b"/*", b"//", b"\\\n", b";", b'"', b"'", b"$", b"#", b"-"]) + text[at:],
        lambda: b"\xEF\xBB\xBF" + text.decode("mac_roman").encode(), lambda: b"\xEF\xBB\xBF" + text[:at] + b"\xC3" + text[at:],
        lambda: re.sub(rb" (\d+)\n", rb" 0x\1 ", text), lambda: text + text])()


def catalogues(own):
    """Five catalogues for the texts of a fork."""
    plain = "".join(entry_text(*entry) for entry in own).encode()
    yield plain
    for _ in range(3):
        yield "".join(entry_text(*entry) for entry in some_entries(own)).encode()
    yield spoiled("".join(entry_text(*entry) for entry in some_entries(own)).encode())


def some_file():
    """A type file, and a file with a fork of its resources."""
    types, resources = labelled() if random.random() < 0.5 else unlabelled()
    resources = [each[:3] + (each[3] & ~8 if random.random() < 0.7 else each[3],) + each[4:] for each in resources]
    if random.random() < 0.3:
        resources.insert(random.randrange(len(resources) + 1), (b"Bare", 1, b"", 0, b"\1\2"))
    file = File(name=random.choice([b"App", b"n" * 63]), kind=b"APPL", creator=b"ttxt", flags=0x2000,
                created=random.choice([0, 3000000000]),
                modified=3000000001, data=random.choice([b"", b"data"]), res=image(resources))
    return types, resources, written(random.choice(FORMS), file)


def told(command, words, files):
    """The status that is wanted, with the output or the file, and the message."""
    try:
        return 0, command(words, files), b""
    except Refused as fault:
        return 2, None, ("rezkit: %s\n" % message(fault, words[1])).encode()


def run(runs, number, words, files, command):
    """Runs the program on files, of which the model of a command tells what it leaves."""
    status, value, err = told(command, words[1:], files)
    out = value.encode() if isinstance(value, str) else b""
    made = dict([value]) if isinstance(value, tuple) else {}
    answer = re.sub(rb".*error (\d+ \w+).*\n", rb"\1", err).decode() or "done"
    runs.run(number, words, files, (status, out, err, made), answer)


def steps(runs, count, seed):
    random.seed(seed)
    for number in range(count):
        types, resources, data = some_file()
        files = {"f": data, "t.r": types.encode()}
        run(runs, number, ["strings", "f", "t.r"], files, strings)
        table = declarations_of(tokens_of(re.sub(r"(?m)^#.*$", "", types)))
        own = entries_in(table, resources)
        for catalogue in catalogues(own):
            words = ["f", "c", "t.r", "-o", "x"] + ["-ov"] * (random.random() < 0.5)
            run(runs, number, ["restring", *words], {**files, "c": catalogue}, restring)


def main():
    run_all(sys.argv[1:], 2000, steps, "forks")


if __name__ == "__main__":
    main()
