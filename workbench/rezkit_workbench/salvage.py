"""What is left of a fork whose map is lost: its resources, one after the other, and a source that reads them back.

    rezkit-salvage FORK -o FOLDER [-f]

In the data area each resource stands after its length; which type, id and name it had only the map tells. So the files
are numbered, and the source calls each of them 'Lost' and guesses its type in a comment. A file in another form than raw
gives its fork; where its form is damaged too, the fork is taken from where the header says that it begins.
"""
import binascii
import re
import struct

from . import command, facts, guess
from .errors import Refused, RezkitRefused, Usage
from .writing import Folder, write_out

NAME = "rezkit-salvage"
ABOUT = "Writes what is left of a fork whose map is lost: its resources as numbered files, and sources that read them back."
MORE = """FOLDER gets 00001.bin and so on, found1.r with at most 4000 of them, found2.r and so on, and rest.bin with the
bytes from which no resource could be found. In FOLDER, `rezkit rez found1.r -o found1.rsrc` makes a fork again.

exit status: 0 done, 1 refused, 2 wrong arguments"""
IN_SOURCE, MOST, AREA_MOST, LONGEST = 4000, 16384, 1 << 24, 256 << 20
USUAL_AREA = 256
NO_LENGTHS = re.compile(rb"(?:\0\0\0\0)+")
LETTERS = b"!\"#$%&'()*+,-012345689@ABCDEFGHIJKLMNPQRSTUVXYZ[`abcdefhijklmpqr"
TO_BASE64 = bytes.maketrans(LETTERS, b"ABCDEFGHIJKLMNOPQRSTUVWXYZabcdefghijklmnopqrstuvwxyz0123456789+/")


class Found:
    """What a walk through a data area found: (place, length) of each resource with bytes, how many have none, and its end."""

    def __init__(self, area, end):
        self.area, self.place, self.end, self.resources, self.empty = area, area, end, [], 0

    def is_exact(self):
        return self.place == self.end


def walked(fork, area, end, most):
    """The resources from `area` up to `end`, or up to the first that would end after it; no more than `most`."""
    found = Found(area, end)
    while found.place + 4 <= end and len(found.resources) < most:
        none = NO_LENGTHS.match(fork, found.place, end)
        if none:
            found.empty += (none.end() - found.place) // 4
            found.place = none.end()
            continue
        length = int.from_bytes(fork[found.place:found.place + 4], "big")
        if is_map(fork, area, found.place):
            found.end = found.place
        if found.place + 4 + length > found.end:
            break
        found.resources.append((found.place, length))
        found.place += 4 + length
    return found


def is_map(fork, area, place):
    """Whether the map begins here: with a copy of the header, by which the data area ends here."""
    return fork[place:place + 12] == struct.pack(">III", area, place, place - area)


def areas_of(fork):
    """Where the data area may lie, what the header says first: (begin, end)."""
    area, the_map, data_length, _ = struct.unpack(">IIII", fork[:16].ljust(16, b"\0"))
    found = []
    for begin in (area, USUAL_AREA):
        last = min(len(fork), begin + AREA_MOST)
        for end in (the_map, begin + data_length, last):
            if 16 <= begin < end <= last and (begin, end) not in found:
                found.append((begin, end))
    return found


def best(fork, most):
    """The first walk that ends where its area does, else the one that passed most bytes."""
    walks = [walked(fork, begin, end, most) for begin, end in areas_of(fork)]
    exact = [found for found in walks if found.is_exact() and found.resources]
    return exact[0] if exact else max(walks, key=lambda found: found.place - found.area) if walks else Found(0, 0)


# The fork of a file, whole or damaged.

def fork_of(file):
    """The resource fork of an opened file, and a line about it, or None."""
    if file.size > LONGEST:
        raise Refused("%s: is longer than %d bytes" % (file.told, LONGEST))
    form = facts.form_of(file.head(128))
    try:
        rules = file.rezkit(["det", file.word, "-from", form]).decode("ascii", "replace").splitlines()
        fork = b"".join(file.pieces()) if form == "raw" else file.rezkit(
            ["bridge", file.word, "-from", form, "-to", "raw", "-o", "/dev/stdout"])
        return fork, None if len(rules) > 1 else "the map is whole, and tells resources: %d; `rezkit derez` shows them" % len(facts.resources(fork))
    except RezkitRefused as fault:
        whole = b"".join(file.pieces())
        return damaged_fork(form, whole), "the form %s is damaged too (%s)" % (form, fault.said)


def damaged_fork(form, whole):
    """The fork in a file whose form is damaged, from where its header says."""
    if form in ("double", "single"):
        return whole[entry_place(whole):]
    if form == "macbin":
        return whole[macbin_place(whole):]
    return fork_in_letters(whole) if form == "hqx" else whole


def entry_place(whole):
    """Where the entry of the resource fork begins, by the list of entries as far as it goes; else the end."""
    for place in range(26, min(len(whole) - 11, 26 + 12 * int.from_bytes(whole[24:26], "big")), 12):
        ident, begin, _ = struct.unpack(">III", whole[place:place + 12])
        if ident == 2:
            return begin
    return len(whole)


def macbin_place(whole):
    """Where the fork of MacBinary begins, behind its header, a second header and the data fork."""
    second, data = int.from_bytes(whole[120:122], "big"), int.from_bytes(whole[83:87], "big")
    return 128 + second + -second % 128 + data + -data % 128


def fork_in_letters(whole):
    """The fork in a BinHex text, as far as its letters go; no sum is looked at."""
    begin = re.search(rb"\(This file must be converted with BinHex[^\r\n]*[\r\n]\s*:", whole)
    if not begin:
        return b""
    letters = re.match(rb"[%s]*" % re.escape(LETTERS), re.sub(rb"[ \t\r\n]", b"", whole[begin.end():])).group()
    letters = letters[:len(letters) // 4 * 4].translate(TO_BASE64)
    plain = without_runs(binascii.a2b_base64(letters))
    if len(plain) < 22 or len(plain) < 22 + plain[0]:
        return b""
    data = int.from_bytes(plain[plain[0] + 12:plain[0] + 16], "big")
    return plain[plain[0] + 22 + data + 2:]


def without_runs(packed):
    """The bytes with runs undone."""
    parts = re.split(rb"\x90(.)", packed, flags=re.S)
    out = bytearray(parts[0])
    for count, rest in zip(parts[1::2], parts[2::2]):
        out += b"\x90" if count == b"\0" else out[-1:] * (count[0] - 1)
        out += rest
    return bytes(out)


# What is written.

def file_name(number):
    return "%05d.bin" % number


def source_line(number, ident, place, content):
    """The statement that reads a resource."""
    guesses = " or ".join("'%s'" % kind for kind in guess.kinds_of(content))
    return "read 'Lost' (%d) \"%s\"; // %d bytes at %d%s\n" % (
        ident, file_name(number), len(content), place, ", maybe " + guesses if guesses else "")


def write_found(folder, fork, found):
    """Writes the resources, the sources and the rest."""
    lines = []
    for number, (place, length) in enumerate(found.resources, 1):
        content = fork[place + 4:place + 4 + length]
        folder.write(file_name(number), content)
        lines.append(source_line(number, (number - 1) % IN_SOURCE, place, content))
    for number, first in enumerate(range(0, len(lines), IN_SOURCE), 1):
        folder.write("found%d.r" % number, "".join(lines[first:first + IN_SOURCE]).encode("ascii"))
    if not found.is_exact():
        folder.write("rest.bin", fork[found.place:found.end])


def summary(fork, found):
    """What was found, in lines."""
    lines = ["%d resources in the bytes %d to %d of the fork" % (len(found.resources), found.area, found.place)]
    lines += ["%d of no bytes, which aren't written" % found.empty] if found.empty else []
    if not found.is_exact():
        length = int.from_bytes(fork[found.place:found.place + 4], "big")
        why = "a resource of %d bytes would end after the area" % length if found.place + 4 <= found.end else "no length fits"
        lines.append("at %d %s: rest.bin has the bytes from there to %d" % (found.place, why, found.end))
    return "".join(line + "\n" for line in lines)


def body(words):
    parser = command.parser(NAME, ABOUT, MORE)
    parser.add_argument("fork", metavar="FORK", help="the damaged fork, or a file of another form with it; - is standard input")
    parser.add_argument("-o", metavar="FOLDER", dest="folder", required=True, help="the folder that is made")
    parser.add_argument("-f", action="store_true", dest="force",
                        help="write into a folder that is there, replacing files of the same names; and more than %d resources" % MOST)
    options = parser.parse_args(words)
    if options.folder == "-":
        raise Usage("-o names a folder, which can't be standard output")
    with facts.Opened(options.fork) as file:
        fork, note = fork_of(file)
        found = best(fork, len(fork) if options.force else MOST + 1)
        if len(found.resources) > MOST and not options.force:
            raise Refused("%s: has more than %d resources (-f writes them all)" % (file.told, MOST))
        if not found.resources:
            raise Refused("%s: no resource was found" % file.told)
    if note:
        command.say(NAME, note)
    with Folder(options.folder, options.force) as folder:
        write_found(folder, fork, found)
    write_out(summary(fork, found).encode("ascii"))
    return 0


def main():
    return command.ended(NAME, body)
