"""What files are, a line each: their form, what the Finder keeps of them, their forks and resources, and what is wrong.

    rezkit-ls [-l | --resources | --json] [--sha256] [--once] [-j N] FILE|FOLDER..

A folder stands for the regular files in it and in its folders; links aren't followed there. A file `App` and its header
of AppleDouble, `._App`, are one row, that of the header. `--json` writes an object a line. The status is 1 if a file is
damaged or can't be read; files that rezkit doesn't read, as pictures, are no reason for that.
"""
import argparse
import collections
import concurrent.futures
import concurrent.futures.process
import hashlib
import json
import os
import re
import signal
import stat
import sys
import time

from . import command, facts, heads, program
from .errors import Refused
from .roman import four, printable, quoted, text_of
from .writing import write_out

NAME = "rezkit-ls"
CHUNK, AHEAD = 32, 4  # files that are given to a process at once, and such pieces for each process that are under way
SUM_IS_WRONG = {"macbin": "424 ", "hqx": "444 "}
BINHEX = b"(This file must be converted with BinHex"
FLAGS = ((0x8000, "alias"), (0x4000, "invisible"), (0x2000, "bundle"), (0x1000, "name locked"), (0x0800, "stationery"),
         (0x0400, "custom icon"), (0x0100, "inited"), (0x0080, "no INITs"), (0x0040, "shared"))
ABOUT = "Says what files are, a line each: form, type, creator, forks, resources, and what is wrong."
MORE = """A folder stands for the regular files in it and in its folders; links aren't followed there.
A data file and its header of AppleDouble, ._NAME, are one row, which has the header's name.

exit status: 0 done, 1 a file is damaged or can't be read, 2 wrong arguments"""


class Row:
    """What is told of a file: what it is, its facts where rezkit reads it, and what is wrong."""

    def __init__(self, path, what, found=None, fault=None, size=None):
        self.path, self.what, self.facts, self.fault, self.size, self.sums = path, what, found, fault, size, (None, None, None)


# What a file is.

def row_of(path, asked):
    """The row of a file."""
    try:
        with facts.Opened(path, only_regular=asked.in_folder) as file:
            row = row_of_opened(path, file)
            if asked.sha256:
                row.sums = sums_of(file, row)
            return row
    except MemoryError:
        return Row(path, "not read", fault="out of memory")
    except Refused as fault:
        said = str(fault)
        front = printable(path) + ": "
        return Row(path, "not read", fault=said[len(front):] if said.startswith(front) else said)


def row_of_opened(path, file):
    """The row of a file that is open."""
    head = file.head()
    if file.size > facts.BY_HEAD:
        return row_by_head(path, file, head)
    form = facts.form_of(head)
    if file.size == 0 or form == "hqx" and not has_binhex(file):
        return Row(path, named(file, head) or "unknown", size=file.size)
    found = facts.facts_of(file, form)
    if found.fault() and form in ("raw", "macbin"):
        name = named(file, head)
        if name or form == "raw" and not heads.looks_like_fork(head, file.size):
            return Row(path, name or "unknown", size=file.size)
    if form == "double":
        found.data = data_length(path)
    what = facts.FORMS[form]
    if found.refused and found.refused.startswith(SUM_IS_WRONG.get(form, "none")):
        what += " with a wrong sum"
    return Row(path, what, found, found.fault(), file.size)


def named(file, head):
    """The name of a file that rezkit doesn't read."""
    return heads.named(head, file.size, file.head(6, heads.CD))


def row_by_head(path, file, head):
    """The row of a file that is too long to be read whole."""
    form = facts.form_of(head)
    if form in ("raw", "hqx") and not BINHEX in head:
        return Row(path, named(file, head) or "unknown", size=file.size)
    return Row(path, facts.FORMS[form], fault="longer than %d bytes" % facts.BY_HEAD, size=file.size)


def has_binhex(file):
    """Whether the line by which BinHex begins stands anywhere."""
    rest = b""
    for piece in file.pieces():
        if BINHEX in rest + piece:
            return True
        rest = piece[-len(BINHEX):]
    return False


def data_length(path):
    """The length of the data file beside a header of AppleDouble, 0 if no regular file is there."""
    try:
        found = os.lstat(facts.data_file_of(path))
    except OSError:
        return 0
    return found.st_size if stat.S_ISREG(found.st_mode) else 0


def sums_of(file, row):
    """The sums of the file, its data fork and its resource fork."""
    whole = hashlib.sha256()
    for piece in file.pieces():
        whole.update(piece)
    found = row.facts
    if found is None or found.refused:
        return whole.hexdigest(), None, None
    data = None if found.data_fork is None else hashlib.sha256(found.data_fork).hexdigest()
    if found.form == "double":
        data = data_file_sum(row.path)
    return whole.hexdigest(), data, None if found.fork is None else hashlib.sha256(found.fork).hexdigest()


def data_file_sum(path):
    """The sum of the data file beside a header of AppleDouble, of no bytes if there is none."""
    whole = hashlib.sha256()
    if data_length(path):
        with facts.Opened(facts.data_file_of(path), only_regular=True) as file:
            for piece in file.pieces():
                whole.update(piece)
    return whole.hexdigest()


# How a row is told.

def line_of(row):
    """A row as a line."""
    found = row.facts
    parts = [row.what]
    if found and found.kind is not None:
        parts[0] += " %s %s" % (four(found.kind), four(found.creator))
    parts += sizes_of(found)
    resources = found.resources() if found else None
    parts += ["resources %d" % len(resources)] if resources is not None else []
    parts += [row.fault] if row.fault else []
    return "%s: %s\n" % (printable(row.path), ", ".join(parts))


def sizes_of(found):
    """The lengths of the forks that are known."""
    parts = ["data %d" % found.data] if found and found.data is not None else []
    return parts + (["fork %d" % len(found.fork)] if found and found.fork is not None else [])


def block_of(row, each):
    """A row as lines: its facts, and its resources one by one or by their types."""
    found = row.facts
    lines = ["%s: %s%s" % (printable(row.path), row.what, ", %s" % row.fault if row.fault else "")]
    lines += ["    " + line for line in fact_lines(found)] if found else []
    lines += ["    sha256%s %s" % (name, each_sum) for name, each_sum in zip(("", " data", " fork"), row.sums) if each_sum]
    resources = (found.resources() if found else None) or []
    lines += ["    " + (resource_line(one)) for one in resources] if each else type_lines(resources)
    return "\n".join(lines) + "\n"


def fact_lines(found):
    """The facts that a form carries."""
    lines = []
    if found.kind is not None:
        flags = [word for bit, word in FLAGS if found.flags & bit]
        lines.append("name " + quoted(found.name))
        lines.append("type %s creator %s flags 0x%04X%s" % (four(found.kind), four(found.creator), found.flags,
                                                            " (%s)" % ", ".join(flags) if flags else ""))
    if found.locked is not None:
        lines.append("locked %s" % ("true" if found.locked else "false"))
    if found.created is not None:
        lines.append("created %s modified %s" % (facts.date_text(found.created), facts.date_text(found.modified)))
    sizes = " ".join(sizes_of(found))
    resources = found.resources()
    return lines + [sizes + ("" if resources is None else " resources %d" % len(resources))] * bool(sizes)


def resource_line(one):
    """A resource as a line: its type, its id, name and attributes, and its length."""
    parts = [str(one.ident)] + ([quoted(one.name)] if one.name else []) + one.words()
    return "%s (%s) %d" % (four(one.kind), ", ".join(parts), one.length)


def type_lines(resources):
    """For each type a line: how many resources it has, and their bytes and ids."""
    by_type = collections.OrderedDict()
    for one in resources:
        by_type.setdefault(one.kind, []).append(one)
    lines = []
    for kind, group in by_type.items():
        ids = [one.ident for one in group]
        told = "id %d" % ids[0] if len(ids) == 1 else "ids %d to %d" % (min(ids), max(ids))
        lines.append("    %s %d, %d bytes, %s" % (four(kind), len(group), sum(one.length for one in group), told))
    return lines


def object_of(row, with_sums):
    """A row as the object of --json. What a form doesn't carry is null."""
    found = row.facts or facts.Facts(None)
    told = {
        "schema": 1, "path": readable_path(row.path), "path_hex": path_hex(row.path), "form": found.form, "what": row.what,
        "name": None if found.name is None else text_of(found.name), "name_hex": None if found.name is None else found.name.hex(),
        "type": None if found.kind is None else text_of(found.kind), "creator": None if found.kind is None else text_of(found.creator),
        "flags": found.flags, "locked": found.locked,
        "created": None if found.created is None else facts.date_text(found.created),
        "modified": None if found.modified is None else facts.date_text(found.modified),
        "size": row.size, "data": found.data, "fork": None if found.fork is None else len(found.fork), "fault": row.fault}
    if with_sums:
        told.update(zip(("sha256", "data_sha256", "fork_sha256"), row.sums))
    resources = found.resources()
    told["resources"] = None if resources is None else [resource_object(one) for one in resources]
    return told


def resource_object(one):
    return {"type": text_of(one.kind), "id": one.ident, "name": text_of(one.name), "name_hex": one.name.hex(),
            "attributes": one.attributes, "bytes": one.length}


def path_hex(path):
    """The bytes of a path that isn't UTF-8, else None."""
    try:
        path.encode("utf-8")
    except UnicodeEncodeError:
        return os.fsencode(path).hex()
    return None


def readable_path(path):
    return path if path_hex(path) is None else printable(path)


def told(row, asked):
    """A row as the bytes that are written."""
    if asked.json:
        text = json.dumps(object_of(row, asked.sha256), ensure_ascii=False, separators=(",", ":")) + "\n"
        return text.replace("\x7F", "\\u007f").encode("utf-8")
    long = asked.long or asked.resources or asked.sha256
    return (block_of(row, asked.resources) if long else line_of(row)).encode("utf-8")


# Which files.

class Asked:
    """What holds for all rows of a piece of work."""

    def __init__(self, options):
        self.json, self.long, self.resources, self.sha256 = options.json, options.long, options.resources, options.sha256
        self.in_folder = False


class Walk:
    """The files that the words name, in the order of the words and of the bytes of names. It keeps what it passed over."""

    def __init__(self, words, once):
        self.words, self.once, self.passed, self.faults, self.given = words, once, 0, [], set()

    def files(self):
        """Each file: its path, and whether it was found in a folder."""
        for word in self.words:
            if word != "-" and os.path.isdir(word):
                for path in self.below(word):
                    yield path, True
            else:
                path = self.row_name(word)
                if path is not None:
                    yield path, False

    def row_name(self, word):
        """The path of the row of a file that is named, or None if another word gives it."""
        header = next((name for name in facts.header_names_of(word) if is_header(name)), None) if os.path.isfile(word) else None
        name = word if header is None else header
        if name in self.given or header is not None and self.once:
            return None
        self.given.add(name)
        return name

    def below(self, folder):
        """The files in a folder and its folders."""
        open_folders = [iter(self.listed(folder))]
        while open_folders:
            entry = next(open_folders[-1], None)
            if entry is None:
                open_folders.pop()
            elif entry[1]:
                open_folders.append(iter(self.listed(entry[0])))
            else:
                yield entry[0]

    def listed(self, folder):
        """What a folder has, in order: (path, whether it is a folder). Data files with a header aren't among it."""
        try:
            with os.scandir(folder) as found:
                entries = sorted(found, key=lambda entry: os.fsencode(entry.name))
                names = {entry.name for entry in entries}
                return [each for entry in entries for each in self.kept(entry, names)]
        except OSError as fault:
            self.faults.append((folder, fault.strerror))
            return []

    def kept(self, entry, names):
        """An entry of a folder, or nothing."""
        if entry.is_dir(follow_symlinks=False):
            return [(entry.path, True)]
        if not entry.is_file(follow_symlinks=False):
            self.passed += 1
            return []
        headers = [name for name in facts.header_names_of(entry.path) if os.path.basename(name) in names]
        return [] if any(is_header(name) for name in headers) else [(entry.path, False)]


def is_header(name):
    """Whether a file is a header of AppleDouble."""
    try:
        if not stat.S_ISREG(os.lstat(name).st_mode):
            return False
        with facts.Opened(name, only_regular=True) as file:
            return file.head(4) == b"\0\5\x16\7"
    except (OSError, Refused):
        return False


# The work.

def piece_of_work(files, asked):
    """The rows of some files as bytes, and for each whether all is well with it."""
    out = []
    for path, asked.in_folder in files:
        row = row_of(path, asked)
        out.append((told(row, asked), row.fault is None))
    return out


def pieces(files):
    """The files in lists of CHUNK."""
    piece = []
    for each in files:
        piece.append(each)
        if len(piece) == CHUNK:
            yield piece
            piece = []
    if piece:
        yield piece


def worked_alone(files, asked):
    """The rows, one file after the other."""
    for each in files:
        yield from piece_of_work([each], asked)


def worked_together(files, asked, jobs):
    """The rows in the same order, from processes that each have a piece of work."""
    with concurrent.futures.ProcessPoolExecutor(jobs, initializer=signal.signal, initargs=(signal.SIGINT, signal.SIG_IGN)) as pool:
        under_way = collections.deque()
        try:
            for piece in pieces(files):
                under_way.append(pool.submit(piece_of_work, piece, asked))
                if len(under_way) == AHEAD * jobs:
                    yield from under_way.popleft().result()
            while under_way:
                yield from under_way.popleft().result()
        except concurrent.futures.process.BrokenProcessPool:
            raise Refused("a process was ended by the system; -j 1 needs the least memory") from None
        finally:
            for future in under_way:
                future.cancel()


def show_rows(rows):
    """Writes the rows; whether all is well, and how many there are."""
    well, count, shown_at, is_shown = True, 0, 0, sys.stdout is not None and not sys.stdout.isatty()
    for data, fine in rows:
        write_out(data)
        well, count = well and fine, count + 1
        if is_shown and time.monotonic() - shown_at > 0.5:
            shown_at = time.monotonic()
            command.progress("%s: %d files" % (NAME, count))
    if is_shown:
        command.progress("")
    return well


def options_of(words):
    parser = command.parser(NAME, ABOUT, MORE)
    how = parser.add_mutually_exclusive_group()
    how.add_argument("-l", dest="long", action="store_true", help="all facts of a file, and how many resources of each type it has")
    how.add_argument("--resources", action="store_true", help="all facts and each resource")
    how.add_argument("--json", action="store_true", help="an object a line, for an archive's manifest")
    parser.add_argument("--sha256", action="store_true", help="the SHA-256 of each file and of its forks")
    parser.add_argument("--once", action="store_true",
                        help="a data file that is named gives no row if its header is beside it: for names that `find` gives")
    parser.add_argument("-j", metavar="N", type=count_of, dest="jobs", default=processors(),
                        help="files that are read at once (as many as there are processors, unless stated)")
    parser.add_argument("names", metavar="FILE|FOLDER", nargs="+", help="what is looked at; - is standard input")
    return parser.parse_args(words)


def count_of(word):
    """The number of -j."""
    if not re.fullmatch("[0-9]{1,3}", word) or not 1 <= int(word) <= 256:
        raise argparse.ArgumentTypeError("no number from 1 to 256: %s" % printable(word))
    return int(word)


def processors():
    """How many processors this process may use."""
    return len(os.sched_getaffinity(0)) if hasattr(os, "sched_getaffinity") else os.cpu_count() or 1


def is_done_alone(options):
    """Whether one process does all: of few files, and where standard input is among them, which no other process has."""
    few = len(options.names) < 3 and not any(os.path.isdir(name) for name in options.names)
    return options.jobs == 1 or few or "-" in options.names


def body(words):
    options = options_of(words)
    program.path()
    walk, asked = Walk(options.names, options.once), Asked(options)
    rows = worked_alone(walk.files(), asked) if is_done_alone(options) else worked_together(walk.files(), asked, options.jobs)
    well = show_rows(rows)
    for folder, reason in walk.faults:
        command.say(NAME, "%s: can't be read: %s" % (printable(folder), reason))
    if walk.passed:
        command.say(NAME, "links, devices and pipes in folders that weren't looked at: %d" % walk.passed)
    return 0 if well and not walk.faults else 1


def main():
    return command.ended(NAME, body)
