"""What a file is: its form, what the Finder keeps of it, its forks, and the resources of its fork.

`facts_of` is the one function that tells it. It asks rezkit: `list` what the form of the file carries, and `bridge` for the
forks. Of a file whose fork is broken, which `list` refuses, `det` tells the first broken rule, and the facts come with the
forks as AppleSingle, which keeps neither the lock nor dates before 1932; those of MacBinary are in its header, where
FORMATS.md says. A file is handed to rezkit as `/dev/fd/N`: no name can be taken for an option, names that aren't UTF-8 are
read too, and the data file beside a header of AppleDouble isn't read.
"""
import datetime
import os
import re
import stat
import struct
import sys
import tempfile

from . import program
from .errors import Refused, RezkitRefused
from .roman import printable
from .writing import cant

FORMS = {"raw": "resource fork", "double": "AppleDouble", "single": "AppleSingle", "macbin": "MacBinary", "hqx": "BinHex 4.0"}
MOST_COPIED = 256 << 20  # what is read of a pipe
BY_HEAD, HEAD = 128 << 20, 4096  # a longer file is told by its first bytes alone
FIRST_OF_2000, NO_DATE = 3029529600, -1 << 31  # in seconds since 1904; as AppleSingle has it
FIRST_DAY, LAST_DATE = datetime.datetime(1904, 1, 1), 4291833600  # the first second of 2040
FORK_TOO_LONG = "428 "
FORK_IS_BROKEN = re.compile(r"4(0[1-9]|10) ")
ATTRIBUTES = ((64, "sysheap"), (32, "purgeable"), (16, "locked"), (8, "protected"), (4, "preload"), (2, "changed"))
WITHOUT_WORD = 0x81


class Opened:
    """A file that is read, by a descriptor that rezkit can open as well; used by `with`."""

    def __init__(self, name, only_regular=False):
        self.name, self.told = name, "standard input" if name == "-" else printable(os.fsdecode(name))
        if name == "-" and sys.stdin is None:
            raise Refused("standard input: can't be read: it is closed")
        try:
            self.number = copied(sys.stdin.fileno(), self.told) if name == "-" else opened(name, only_regular, self.told)
            self.size = os.fstat(self.number).st_size
        except OSError as fault:
            raise cant("be read", name, fault) from None
        self.word = "/dev/fd/%d" % self.number

    def __enter__(self):
        return self

    def __exit__(self, *_):
        os.close(self.number)

    def head(self, length=HEAD, place=0):
        """Bytes at a place of the file."""
        try:
            return os.pread(self.number, length, place)
        except OSError as fault:
            raise cant("be read", self.name, fault) from None

    def pieces(self, length=1 << 20):
        """All bytes of the file, piece by piece."""
        place, piece = 0, self.head(length)
        while piece:
            yield piece
            place += len(piece)
            piece = self.head(length, place)

    def rezkit(self, words):
        """The output of rezkit with these words, which may have that of this file."""
        return program.call(words, files=(self.number,))


def opened(name, only_regular, told):
    """The descriptor of a file; of a pipe, that of a copy. With `only_regular` no link is followed."""
    number = os.open(name, os.O_RDONLY | os.O_CLOEXEC | (os.O_NOFOLLOW | os.O_NONBLOCK if only_regular else 0))
    mode = os.fstat(number).st_mode
    if stat.S_ISREG(mode):
        return number
    try:
        if only_regular or stat.S_ISDIR(mode) or stat.S_ISBLK(mode):
            raise Refused("%s: is %s" % (told, "a folder" if stat.S_ISDIR(mode) else "no regular file"))
        return copied(number, told)
    finally:
        os.close(number)


def copied(number, told):
    """The descriptor of a file without a name that has what a pipe has."""
    if stat.S_ISREG(os.fstat(number).st_mode):
        return os.dup(number)
    with tempfile.TemporaryFile(prefix="rezkit-") as file:
        left = MOST_COPIED
        piece = os.read(number, 1 << 20)
        while piece:
            left -= len(piece)
            if left < 0:
                raise Refused("%s: is longer than %d bytes" % (told, MOST_COPIED))
            file.write(piece)
            piece = os.read(number, 1 << 20)
        file.flush()
        return os.dup(file.fileno())


class Facts:
    """What a file is. A fact that its form doesn't carry is None.

    form, name, kind, creator, flags, locked, created, modified (seconds since 1904), data (the length of the data fork) are
    as the form has them; `fork` is the bytes of the resource fork. `refused` is why rezkit doesn't read the file,
    `broken` the first rule that its fork breaks, `lacking` why facts that the form carries, or the bytes of its data fork,
    aren't told.
    """

    def __init__(self, form):
        self.form = form
        self.name = self.kind = self.creator = self.flags = self.locked = self.created = self.modified = self.data = None
        self.fork = self.data_fork = self.refused = self.broken = self.lacking = None

    def fault(self):
        """What is wrong with the file, or None."""
        return self.refused or self.broken or self.lacking

    def resources(self):
        """The resources of a whole fork, in the order of its map, else None."""
        return None if self.refused or self.broken or self.fork is None else resources(self.fork)


class Resource:
    """A resource: type, id, name, attributes, and where its bytes are in the fork."""

    def __init__(self, kind, ident, name, attributes, place, length):
        self.kind, self.ident, self.name, self.attributes, self.place, self.length = kind, ident, name, attributes, place, length

    def bytes_in(self, fork):
        return bytes(fork[self.place:self.place + self.length])

    def words(self):
        """Its attributes as `derez` has them: words, or a number where a bit has no word."""
        if self.attributes & WITHOUT_WORD:
            return ["$%02X" % self.attributes]
        return [word for bit, word in ATTRIBUTES if self.attributes & bit]


def form_of(head):
    """The form that the first bytes of a file tell, as rezkit finds it."""
    if head[:4] in (b"\0\5\x16\7", b"\0\5\x16\0"):
        return "double" if head[3] else "single"
    if head[:1] not in (b"", b"\0"):
        return "hqx"
    looks = len(head) >= 128 and 1 <= head[1] <= 63 and head[74] == head[82] == 0 and head[122] >= 129 and head[123] >= 129
    return "macbin" if looks else "raw"


def facts_of(file, form=None):
    """The facts of an opened file, in the form that is stated, else that is found."""
    facts = Facts(form or form_of(file.head(128)))
    try:
        put_listed(file.rezkit(["list", file.word, "-from", facts.form]).decode("ascii"), facts)
    except RezkitRefused as fault:
        if not FORK_IS_BROKEN.match(fault.said):
            facts.refused = fault.said
            return facts
        facts.broken = file.rezkit(["det", file.word, "-from", facts.form]).decode("ascii").splitlines()[0]
    if facts.form == "raw":
        facts.fork = b"".join(file.pieces())
    else:
        put_forks(file, facts)
    return facts


def put_listed(text, facts):
    """Puts in the facts that `list` tells."""
    for line in text.splitlines():
        word, value = line.split(" ", 1)
        if word in LISTED:
            field, read = LISTED[word]
            setattr(facts, field, read(value))


def unquoted(text):
    """The bytes between quote marks."""
    found = re.finditer(r"\\0x([0-9A-F]{2})|\\(.)|(.)", text[1:-1])
    return b"".join(bytes.fromhex(one[1]) if one[1] else (one[2] or one[3]).encode("ascii") for one in found)


def seconds_of(text):
    """The seconds since 1904 of a date without a zone; 0 of `none`."""
    if text == "none" or text.isdigit():
        return 0 if text == "none" else int(text)
    since = datetime.datetime.strptime(text, "%Y-%m-%d %H:%M:%S") - FIRST_DAY
    return 86400 * since.days + since.seconds


# The facts that `list` tells beside the form, the fork and its resources: where each goes, and how it is read.
LISTED = {"name": ("name", unquoted), "type": ("kind", unquoted), "creator": ("creator", unquoted),
          "flags": ("flags", lambda text: int(text, 16)), "locked": ("locked", lambda text: text == "true"),
          "created": ("created", seconds_of), "modified": ("modified", seconds_of), "data": ("data", int)}


def put_forks(file, facts):
    """Puts in the forks of a form other than raw, and if the resource fork is broken, the other facts."""
    try:
        single = bridged(file, facts.form, "/dev/stdout")
    except RezkitRefused as fault:
        if not fault.said.startswith(FORK_TOO_LONG):
            raise
        facts.lacking, facts.fork = fault.said, file.rezkit(["bridge", file.word, "-from", facts.form, "-to", "raw", "-o", "/dev/stdout"])
        return
    parts = parts_of(single)
    facts.fork, facts.data_fork = parts[2], None if facts.form == "double" else parts[1]
    if facts.broken:
        put_carried(file, parts, facts)


def put_carried(file, parts, facts):
    """Puts in what a form other than raw carries beside the forks."""
    info, dates = parts[9], struct.unpack(">ii", parts[8][:8])
    facts.kind, facts.creator, facts.flags = bytes(info[:4]), bytes(info[4:8]), struct.unpack(">H", info[8:10])[0]
    facts.name = bytes(parts.get(3, b""))
    if facts.name == b"stdout" and parts_of(bridged(file, facts.form, "/dev/fd/1")).get(3) == b"1":
        facts.name = b""  # bridge fills in the last part of -o where a file has no name
    if facts.form != "double":
        facts.data = len(parts[1])
    if facts.form in ("double", "single"):
        facts.created, facts.modified = [0 if date == NO_DATE else date + FIRST_OF_2000 for date in dates]
    if facts.form == "macbin":
        head = file.head(128)
        facts.locked, (facts.created, facts.modified) = bool(head[81] & 1), struct.unpack(">II", head[91:99])


def bridged(file, form, output):
    """The file as AppleSingle."""
    return file.rezkit(["bridge", file.word, "-from", form, "-to", "single", "-o", output])


def parts_of(single):
    """The entries of AppleSingle by their ids, without copies of their bytes."""
    parts, view = {}, memoryview(single)
    for entry in range(struct.unpack(">H", single[24:26])[0]):
        ident, place, length = struct.unpack(">III", single[26 + 12 * entry:38 + 12 * entry])
        parts[ident] = view[place:place + length]
    return parts


def resources(fork):
    """The resources of a fork of which `det` says that it breaks no rule, in the order of its map."""
    if not len(fork):
        return []

    def number(place, length):
        return int.from_bytes(fork[place:place + length], "big")

    area, the_map = number(0, 4), number(4, 4)
    types, names, found = the_map + number(the_map + 24, 2), the_map + number(the_map + 26, 2), []
    for entry in range(types + 2, types + 2 + 8 * ((number(types, 2) + 1) & 0xFFFF), 8):
        kind, first = bytes(fork[entry:entry + 4]), types + number(entry + 6, 2)
        for place in range(first, first + 12 * ((number(entry + 4, 2) + 1) & 0xFFFF), 12):
            ident, at, data = number(place, 2), number(place + 2, 2), area + number(place + 5, 3)
            name = b"" if at == 0xFFFF else bytes(fork[names + at + 1:names + at + 1 + fork[names + at]])
            found.append(Resource(kind, (ident + 32768) % 65536 - 32768, name, fork[place + 4], data + 4, number(data, 4)))
    return found


def date_text(seconds):
    """A date without a zone: `none` for 0, and from 2040 on the number of seconds since 1904."""
    if seconds == 0:
        return "none"
    if seconds >= LAST_DATE:
        return str(seconds)
    return (FIRST_DAY + datetime.timedelta(seconds=seconds)).strftime("%Y-%m-%d %H:%M:%S")


def data_file_of(name):
    """The name of the data file of a header of AppleDouble."""
    folder, last = os.path.split(name)
    return os.path.join(folder, last[2:] if last.startswith("._") and len(last) > 2 else last + ".data")


def header_names_of(name):
    """The names that the header of a data file can have."""
    folder, last = os.path.split(name)
    names = [os.path.join(folder, "._" + last)]
    if last.endswith(".data"):
        names.append(os.path.join(folder, last[:-5]))
    return [each for each in names if data_file_of(each) == name]
