#!/usr/bin/env python3
"""Changes files that are like real ones, and compares what the built program says of each with a second reading.

    python3 tools/random/mutated.py [PROGRAM [COUNT [SEED]]]

PROGRAM is the one that ./rezkit runs, COUNT 4,000 and SEED 1 unless others are named. Each file is a fork of
resources of the cases in crates/rezkit_cases/data, in one of the forms raw, AppleDouble, AppleSingle, MacBinary and
BinHex, of which something is changed: fields of the fork, bits, bytes, or how long it is, before or after it is put
into its form, with check sums that are computed again or not. `derez` shows it, `det` tells what is broken, and
`bridge` carries it to a form. What comes has to be what fork.py, breaks.py and forms.py say, which know the layouts
of docs/FORMATS.md and nothing of the code: the first broken rule, or each byte of the text and of the files. Printed
is how often each answer came. The status is 1 if another came, or the program ended in another way. This is no part
of the gate.
"""
import glob
import os
import random
import struct
import sys

from top import TOP
from files import text_of as text_of_file
from model.breaks import breaks, text_of
from model.case_reader import read_cases
from model.faults import Refused
from model.fork import admitted, image, number_at, type_places
from model.forms import (ALPHABET, FORMS, MAGICS, File, checked, crc, form_of, hqx_head, hqx_text, macbin, read_form,
                         written)
from model.shown import resource_text
from runs import run_all

MOST_FILE, MOST = 2_000_000, 60_000  # the bytes of a file that is read, and of a resource that is taken


def resources_of_cases():
    """The resources of all forks of the case files, each once."""
    found = {}
    for name in sorted(glob.glob(os.path.join(TOP, "crates", "rezkit_cases", "data", "*.cases"))):
        for case in read_cases(text_of_file(name)):
            for data in case.files.values():
                if len(data) > MOST_FILE:
                    continue
                try:
                    resources = admitted(read_form(form_of(data), data).res)[0]
                except Refused:
                    continue
                found.update((each, None) for each in resources if len(each[4]) <= MOST)
    return list(found)


class Maker:
    """Makes files by a random sequence."""

    def __init__(self, seed):
        self.random, self.resources = random.Random(seed), resources_of_cases()

    def some(self, *choices):
        return self.random.choice(choices)

    def bytes(self, count):
        return bytes(self.random.randrange(256) for _ in range(count))

    def fork(self):
        """A fork of some resources, no two of them with one type and id."""
        kept = {}
        for kind, ident, name, attr, content in self.random.sample(self.resources, self.some(0, 1, 1, 2, 3, 5, 8, 20)):
            kept.setdefault((kind, ident), (kind, ident, name, attr, content))
        return image(list(kept.values()), self.some(0, 0, 0x80, self.random.randrange(65536)), self.some(b"", self.bytes(128)))

    def file(self, res):
        """A file of a fork, with what the Finder keeps."""
        number = self.random.randrange
        return File(name=self.some(b"App", b"a", b"n" * 63, b"", b"n" * 64, b"caf\x8e", b"x" * 255), kind=self.some(b"APPL", b"????", self.bytes(4)),
                    creator=self.some(b"ttxt", self.bytes(4)), flags=number(65536), vertical=number(-32768, 32768),
                    horizontal=number(-32768, 32768), folder=number(-32768, 32768), extra=self.some(bytes(16), self.bytes(16)),
                    locked=self.some(False, True), created=number(1 << 32), modified=number(1 << 32),
                    data=self.some(b"", b"a", b"\x90" * 5 + b"A" * 300, self.bytes(200)), res=res)

    def field(self, data, place, size):
        """The bytes with another value of a field."""
        if place + size > len(data):
            return data
        old, other = int.from_bytes(data[place:place + size], "big"), max(place - 12, 0)
        new = self.some(old + 1, old - 1, 0, -1, 1, len(data), len(data) - old, self.random.randrange(1 << 8 * size), int.from_bytes(data[other:other + size], "big"), old ^ 1 << self.random.randrange(8 * size))
        return data[:place] + (new % (1 << 8 * size)).to_bytes(size, "big") + data[place + size:]

    def fields_of_fork(self, data):
        """The places and lengths of the fields of a fork."""
        the_map = number_at(data, 4, 4)
        fields = [(0, 4), (4, 4), (8, 4), (12, 4), (the_map + 22, 2), (the_map + 24, 2), (the_map + 26, 2),
                  (the_map + number_at(data, the_map + 24, 2), 2)]
        for entry, references in type_places(data, 40):
            fields += [(entry, 4), (entry + 4, 2), (entry + 6, 2)] * 2
            for one in references:
                content = number_at(data, 0, 4) + number_at(data, one + 5, 3)
                fields += [(one, 2), (one + 2, 2), (one + 4, 1), (one + 5, 3), (one + 8, 4), (content, 4)]
        return fields

    def changed_fork(self, data):
        for _ in range(self.some(0, 1, 1, 1, 2)):
            data = self.field(data, *self.random.choice(self.fields_of_fork(data))) if data and self.some(0, 1, 1, 1) else self.changed(data)
        return data

    def changed(self, data):
        """The bytes with something changed somewhere."""
        place = self.random.randrange(len(data) + 1)
        other = self.random.randrange(len(data) + 1)
        return self.some(
            lambda: data[:place], lambda: data[:place % 131], lambda: data[place:], lambda: data + self.bytes(self.some(1, 2, 128)),
            lambda: data[:place] + self.bytes(1) + data[place:], lambda: data[:place] + data[place + 1:],
            lambda: data[:place] + self.bytes(1) + data[place + 1:], lambda: data[:place] + self.bytes(1) + data[place + 1:],
            lambda: self.field(data, place, self.some(1, 2, 4)), lambda: self.field(data, place, self.some(1, 2, 4)),
            lambda: data[:place] + data[min(place, other):max(place, other)][:200] + data[place:], lambda: data)()

    def in_form(self, form, file):
        """A file in a form, maybe with something changed in it."""
        is_changed = self.some(False, False, True)
        if form == "raw":
            return self.changed(file.res) if is_changed else file.res
        if form in MAGICS:
            data = written(form, file)
            return self.field(data, *self.some(*ENTRY_FIELDS)) if is_changed and self.some(0, 1, 1) else self.changed(data) if is_changed else data
        file = file.but(name=file.name[:63] or b"none")
        if form == "macbin":
            data = macbin(file)
            if is_changed:
                data = self.field(data, *self.some(*MACBIN_FIELDS)) if self.some(0, 1, 1) else self.changed(data)
                if len(data) >= 128 and self.some(0, 1, 1):
                    data = data[:124] + struct.pack(">H", crc(data[:124])) + data[126:]
            return data
        head = hqx_head(file)
        if is_changed and self.some(False, True):
            head = self.field(head, self.random.randrange(len(head)), self.some(1, 2, 4))
        plain = checked(head) + checked(file.data) + checked(file.res)
        if is_changed and self.some(False, True):
            plain = self.changed(plain)
        text = hqx_text(plain)
        return self.changed_text(text) if self.some(False, is_changed) else text

    def changed_text(self, text):
        """A text of BinHex with lines that end otherwise, a letter or a sign too many, or something else changed."""
        place = self.random.randrange(len(text))
        return self.some(
            lambda: text.replace(b"\n", b"\r"), lambda: text.replace(b"\n", b"\r\n"), lambda: b"Dear all,\n\n" + text + b"-- \n:)\n",
            lambda: text[:place] + self.some(b":", b" ", b"\t", b"\n> ", b"=\n", b"7", b"\x00") + text[place:],
            lambda: text[:place] + ALPHABET[self.random.randrange(64)].encode() + text[place + 1:],
            lambda: text.replace(b"\n:", RUN_FIRST, 1), lambda: text.rstrip(b":\n"), lambda: text.replace(b"(This", b"(this"), lambda: self.changed(text))()


RUN_FIRST = ("\n:" + ALPHABET[0x90 >> 2] + ALPHABET[0] + ALPHABET[5 << 2] + ALPHABET[0]).encode()  # the bytes 90 05 00
ENTRY_FIELDS = [(0, 4), (4, 4), (24, 2)] + [(26 + 12 * k + 4 * j, 4) for k in range(5) for j in range(3)]
MACBIN_FIELDS = [(0, 1), (1, 1), (2, 1), (65, 4), (73, 1), (74, 1), (81, 1), (82, 1), (83, 4), (87, 4), (99, 2), (102, 4), (106, 2), (120, 2), (122, 1), (123, 1), (124, 2)]


def shown(data, form):
    """What `derez` shows of a file."""
    resources = admitted(read_form(form or form_of(data), data).res)[0]
    return "".join(resource_text(each, [], set(), 0) for each in resources).encode(), {}


def told(data, form):
    """What `det` tells of a file."""
    return text_of(breaks(read_form(form or form_of(data), data).res)).encode(), {}


def carried(data, own, form, to):
    """What `bridge` writes of a file with this data file, or None: its output, and the files by their names."""
    form = form or form_of(data)
    file = read_form(form, data)
    if form == "double":
        file = file.but(data=own or b"")
    if not file.name and to != "raw":
        file = file.but(name=b"x")
    files = {"x": written(to, file)}
    if to == "double" and file.data:
        files["x.data"] = file.data
    return b"", files


def answer_of_det(out):
    """How many rules `det` says are broken."""
    count = out.split()[-1].decode()
    return "broken " + (count if len(count) == 1 else "10 or more")


def run(runs, number, words, files, expected):
    """Runs the program on files, of which `expected` gives the output and what it makes of them, or refuses."""
    try:
        out, made = expected()
        wanted, answer = (0, out, b"", made), "done" if words[0] != "det" else answer_of_det(out)
    except Refused as refused:
        wanted, answer = (2, b"", ("rezkit: error %s\n" % refused).encode(), {}), str(refused).split(":")[0]
    runs.run(number, words, files, wanted, answer)


def steps(runs, count, seed):
    maker = Maker(seed)
    for number in range(count):
        form = FORMS[number % len(FORMS)]
        data = maker.in_form(form, maker.file(maker.changed_fork(maker.fork())))
        given = maker.some(None, None, form)
        behind = ["-from", given] if given else []
        files = {"f": data}
        run(runs, number, ["derez", "f", *behind], files, lambda: shown(data, given))
        run(runs, number, ["det", "f", *behind], files, lambda: told(data, given))
        own, to = maker.some(None, b"its data fork"), maker.some(*FORMS)
        files = {**files, "f.data": own} if own else files
        run(runs, number, ["bridge", "f", *behind, "-to", to, "-o", "x"], files, lambda: carried(data, own, given, to))


def main():
    run_all(sys.argv[1:], 4000, steps, "files")


if __name__ == "__main__":
    main()
