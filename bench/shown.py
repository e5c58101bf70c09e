#!/usr/bin/env python3
"""Measures `derez` with a type file, which shows resources by their fields, against `derez` of the same fork without.

usage: bench/shown.py [PROGRAM [SEED]]

Two forks are made from the seed in a folder of their own, which is removed at the end: lists of strings ('STR#') of a
few strings each, and one array whose rows are a number, a string and a flag, counted before it. The same array is made
with a length in front of it, which two labels around it tell, in place of its count; and one whose rows each have the
place of a label in a row of an array before it, and a number. Each is made in two sizes, of which the second is four
times the first. Each run is done five times; printed are the median of the seconds,
the peak memory, both for each byte that is read and written, and how much of both the second size takes in place of the
first. What each run writes is compared, byte by byte, with a text that is made here together with the fork; and the text
with the fields is compiled by `rez` with the type file in front of it, which must give the fork again. The status is 1
where something differs, where the second size takes more than five times the time or the memory of the first, or where
the array with labels takes more than twice the time or the memory of the one with a count, shown by fields.
Memory is told by `/usr/bin/time -v`; where that isn't on the machine, none is told.
"""
import os
import random
import re
import shutil
import statistics
import subprocess
import sys
import tempfile
import time

sys.path.insert(0, os.path.join(os.path.dirname(os.path.abspath(__file__)), "..", "tools"))
from model.fork import fork_of  # noqa: E402

MB = 1_000_000
RUNS = 5
MOST_GROWTH = 5.0
MOST_TIMES_COUNTED = 2.0
TIME = "/usr/bin/time"
LETTERS = "abcdefghijklmnopqrstuvwxyz ABCDEFGHIJKLMNOPQRSTUVWXYZ.,!?"


def data_text(kind, ident, content):
    """A `data` statement, as docs/LANGUAGE.md says."""
    lines = ["data '%s' (%d) {" % (kind, ident)]
    for at in range(0, len(content), 16):
        digits = content[at:at + 16].hex().upper()
        lines.append('    $"%s"' % " ".join(digits[at:at + 4] for at in range(0, len(digits), 4)))
    return "\n".join(lines + ["};", "", ""])


def resource_text(kind, ident, items):
    """A `resource` statement of one array with these items."""
    lines = ["resource '%s' (%d) {" % (kind, ident), "    {"]
    lines += ["        %s%s" % (item, "," if at + 1 < len(items) else "") for at, item in enumerate(items)]
    return "\n".join(lines + ["    }", "};", "", ""])


def strings(rng, count):
    """Lists of strings: the type file, the fork, its text without the type file and with it."""
    types = "type 'STR#' { integer = $$CountOf(Strings); array Strings { pstring; }; };\n"
    resources, plain, shown = [], [], []
    for ident in range(count):
        texts = ["".join(rng.choices(LETTERS, k=rng.randrange(33))) for _ in range(rng.randrange(2, 7))]
        content = len(texts).to_bytes(2, "big") + b"".join(bytes([len(text)]) + text.encode() for text in texts)
        resources.append((b"STR#", ident, b"", 0, content))
        plain.append(data_text("STR#", ident, content))
        shown.append(resource_text("STR#", ident, ['"%s"' % text for text in texts]))
    return types, fork_of(resources), "".join(plain), "".join(shown)


ROW = "{ integer none, one, last = -1; pstring; boolean off, on; align byte; };"


def some_rows(rng, count):
    """The bytes of so many rows, and their items."""
    content, items = bytearray(), []
    for _ in range(count):
        number, flag = rng.choice((0, 1, 65535, rng.randrange(65536))), rng.randrange(2)
        text = "".join(rng.choices(LETTERS, k=rng.randrange(13)))
        content += number.to_bytes(2, "big") + bytes([len(text)]) + text.encode() + bytes([128 * flag])
        signed = number - 65536 if number >= 32768 else number
        items += [{0: "none", 1: "one", -1: "last"}.get(signed, "%d" % signed), '"%s"' % text, ("off", "on")[flag]]
    return bytes(content), items


def one_array(types, content, items):
    """One resource of one array: the type file, the fork, its text without the type file and with it."""
    resource = (b"Rows", 128, b"", 0, content)
    return types, fork_of([resource]), data_text("Rows", 128, content), resource_text("Rows", 128, items)


def rows(rng, count):
    """One array of so many rows behind its count."""
    content, items = some_rows(rng, count)
    types = "type 'Rows' { longint = $$CountOf(All);\n    array All %s };\n" % ROW
    return one_array(types, count.to_bytes(4, "big") + content, items)


def lengths(rng, count):
    """The same array behind its length in bytes, with labels around it."""
    content, items = some_rows(rng, count)
    types = "type 'Rows' { longint = (end - start) / 8;\n    start: array %s\n    end: };\n" % ROW
    return one_array(types, len(content).to_bytes(4, "big") + content, items)


def indexes(rng, count):
    """Strings behind their count, and one number for each of them behind the place of its string, the last one first."""
    content, places, texts = bytearray(count.to_bytes(4, "big")), [], []
    for _ in range(count):
        texts.append("".join(rng.choices(LETTERS, k=rng.randrange(5))))
        places.append(len(content))
        content += bytes([len(texts[-1])]) + texts[-1].encode()
    numbers = [rng.randrange(128) for _ in range(count)]
    for place, number in zip(reversed(places), numbers):
        content += place.to_bytes(4, "big") + bytes([number])
    types = "type 'Rows' { longint = $$CountOf(Parts); array Parts { part: pstring; };\n"
    types += "    array All { longint = part[$$CountOf(Parts) + 1 - $$ArrayIndex(All)] / 8; byte; }; };\n"
    lists = ["    {\n        %s\n    }" % ",\n        ".join(items) for items in (['"%s"' % text for text in texts], map(str, numbers))]
    shown = "resource 'Rows' (128) {\n%s\n};\n\n" % ",\n".join(lists)
    return types, fork_of([(b"Rows", 128, b"", 0, bytes(content))]), data_text("Rows", 128, content), shown


def put(folder, name, content):
    with open(os.path.join(folder, name), "wb") as file:
        file.write(content)


def holds(folder, name, wanted):
    """Whether a file of the folder holds these bytes."""
    path = os.path.join(folder, name)
    if not os.path.exists(path):
        return False
    with open(path, "rb") as file:
        return file.read() == wanted


def run(program, folder, words):
    """The seconds, the peak memory in bytes (1 where it isn't told), and the status of a run in a folder."""
    told = os.path.exists(TIME)
    before = [TIME, "-v", "-o", "told"] if told else []
    with open(os.path.join(folder, "out"), "wb") as out:
        start = time.monotonic()
        status = subprocess.run(before + [program] + words, cwd=folder, stdout=out).returncode
        took = time.monotonic() - start
    if not told:
        return took, 1, status
    with open(os.path.join(folder, "told")) as lines:
        found = re.search(r"Maximum resident set size \(kbytes\): (\d+)", lines.read())
    return took, 1024 * int(found[1]), status


def measured(program, folder, words, name, wanted):
    """The median of the seconds, the peak memory, and whether each run wrote what is wanted into the file."""
    seconds, memory, right = [], 0, True
    for _ in range(RUNS):
        took, peak, status = run(program, folder, words)
        seconds.append(took)
        memory = max(memory, peak)
        right = right and status == 0 and holds(folder, name, wanted)
    return statistics.median(seconds), memory, right


def measures(program, rng, make, count):
    """What each way takes: its name, the bytes read and written, the seconds, the memory, and whether all is right."""
    folder = tempfile.mkdtemp(prefix="rezkit-bench-")
    try:
        types, fork, plain, shown = make(rng, count)
        put(folder, "types.r", types.encode())
        put(folder, "main", fork)
        put(folder, "shown.r", shown.encode())
        ways = (
            ("as data", ["derez", "main"], "out", plain.encode()),
            ("by fields", ["derez", "main", "types.r"], "out", shown.encode()),
            ("rez again", ["rez", "types.r", "shown.r", "-o", "again"], "again", fork),
        )
        for name, words, made, wanted in ways:
            handled = len(fork) + len(plain if name == "as data" else shown)
            yield (name, handled) + measured(program, folder, words, made, wanted)
    finally:
        shutil.rmtree(folder)


def main():
    here = os.path.dirname(os.path.abspath(__file__))
    built = os.path.join(here, "..", "crates", "rezkit", "out", "rezkit")
    program = os.path.abspath(sys.argv[1] if len(sys.argv) > 1 else built)
    seed = int(sys.argv[2]) if len(sys.argv) > 2 else 1984
    print("%s, seed %d, %d cores, median of %d runs" % (program, seed, os.cpu_count(), RUNS))
    print("%-8s %8s %-10s %10s %8s %7s %8s %7s %10s" % ("kind", "count", "way", "bytes", "seconds", "MB/s", "peak MB", "/byte", "growth"))
    good, by_fields = True, {}
    kinds = (("strings", strings, (1_000, 4_000)), ("rows", rows, (25_000, 100_000)), ("lengths", lengths, (25_000, 100_000)),
             ("indexes", indexes, (25_000, 100_000)))
    for kind, make, counts in kinds:
        before, took = {}, {}
        for count in counts:
            for name, handled, seconds, memory, right in measures(program, random.Random(seed), make, count):
                growth = ""
                if name in before:
                    times = (seconds / before[name][0], memory / before[name][1])
                    growth = "%.1f %.1f" % times
                    good = good and max(times) <= MOST_GROWTH
                print("%-8s %8d %-10s %10d %8.3f %7.1f %8.1f %7.1f %10s%s"
                      % (kind, count, name, handled, seconds, handled / MB / seconds, memory / MB, memory / handled,
                         growth, "" if right else "  other bytes"))
                good = good and right
                before[name] = (seconds, memory)
                took[name] = seconds
        print("%s: by fields takes %.1f times the time of as data" % (kind, took["by fields"] / took["as data"]))
        by_fields[kind] = before["by fields"]
    times = [of_lengths / of_rows for of_lengths, of_rows in zip(by_fields["lengths"], by_fields["rows"])]
    print("lengths: by fields takes %.2f times the time and %.2f times the memory of rows" % tuple(times))
    good = good and max(times) <= MOST_TIMES_COUNTED
    print("all is as wanted" if good else "something differs or takes too much")
    sys.exit(0 if good else 1)


if __name__ == "__main__":
    main()
