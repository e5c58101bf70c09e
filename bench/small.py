#!/usr/bin/env python3
"""Measures what small sources and forks take that were made to take much: time and memory grow with them and no faster.

usage: bench/small.py [PROGRAM [KIND..]]

Files are made in a folder of their own, which is removed at the end, each kind in three sizes: n, 2n and 4n.

again       n types, each declared twice, and a resource of the last one
copies      a type of n fields, n/10 copies of it (`as`), and a resource of the last one
scopes      one type declared for n ids, each for itself, and a resource of the last one
labels      one type of n labels with a byte after each, and a resource of it
choices     one type with a switch of n cases, and a resource of the last one
included    n statements that each include one of 16,384 small resources
named       a type of n labels, each with a number that is the place of one of them, and a resource of it
weightless  `derez` of n/4 rows, each with an array of no rows before the key of a case; its row has n fields
cases       `derez` of n rows, each of another case of a switch of n cases
symbols     `derez` of ten numbers 1 under n/2 symbols with the value 0 and n/2 of the same names with the value 1

Without KIND all are measured. Three runs are made of each, each ended after 60 seconds or at 1,000 MB of addresses, and
one alone where it takes more than six seconds; counted are the least seconds of the processor and the most memory. What
is written is compared byte by byte with what is made here. The status is 1 where a run fails, something differs, more
time or memory is taken than wanted, or four times as much takes more than six times the time or the memory; times under
0.02 seconds count as 0.02, and memory under 8 MB as 8 MB. Memory is told by `/usr/bin/time -v`.
"""
import os
import shutil
import subprocess
import sys
import tempfile

sys.path.insert(0, os.path.join(os.path.dirname(os.path.abspath(__file__)), "..", "tools"))
from model.fork import fork_of  # noqa: E402
from model.fork_shapes import each, held, laid, reference  # noqa: E402
from forks import ADDRESSES, MB, SECONDS, TIME, limits_of, peak_in, seconds_of_children  # noqa: E402

RUNS = 3
MOST_GROWTH = 6.0
# Times and memory below these count as these where growth is told.
LEAST_SECONDS, LEAST_MEMORY = 0.02, 8 * MB


def kind_of(number):
    """A type of four letters for each number below 456,976."""
    letters = ""
    for _ in range(4):
        number, letter = divmod(number, 26)
        letters += chr(ord("a") + letter)
    return letters


def compiled(source, resources):
    """What `rez` makes of a source: the files, the words, the file that is made, and what it must hold."""
    return {"one.r": source.encode()}, ["rez", "-rd", "one.r", "-o", "made"], "made", fork_of(resources)


def shown(types, kind, content, items):
    """What `derez` shows of one resource by its fields."""
    text = "resource '%s' (128) {\n%s\n};\n\n" % (kind, items)
    files = {"main": fork_of([(kind.encode(), 128, b"", 0, content)]), "types.r": types.encode()}
    return files, ["derez", "main", "types.r"], "out", text.encode()


def again(count):
    kinds = [kind_of(number) for number in range(count)]
    source = "".join("type '%s' { %s; };\n" % (kind, field) for field in ("integer", "byte") for kind in kinds)
    return compiled(source + "resource '%s' (1) { 7 };\n" % kinds[-1], [(kinds[-1].encode(), 1, b"", 0, b"\7")])


def copies(count):
    kinds = [kind_of(number) for number in range(count // 10)]
    source = "type 'Many' {\n%s};\n" % ("byte;\n" * count) + "".join("type '%s' as 'Many';\n" % kind for kind in kinds)
    source += "resource '%s' (1) {\n%s\n};\n" % (kinds[-1], ",\n".join(["7"] * count))
    return compiled(source, [(kinds[-1].encode(), 1, b"", 0, b"\7" * count)])


def scopes(count):
    source = "".join("type 'Many' (%d) { integer; };\n" % ident for ident in range(count))
    return compiled(source + "resource 'Many' (%d) { 7 };\n" % (count - 1), [(b"Many", count - 1, b"", 0, b"\0\7")])


def labels(count):
    source = "type 'Many' {\n%s};\n" % "".join("Label%d: byte;\n" % number for number in range(count))
    source += "resource 'Many' (1) {\n%s\n};\n" % ",\n".join(["7"] * count)
    return compiled(source, [(b"Many", 1, b"", 0, b"\7" * count)])


def choices(count):
    source = "type 'Many' { switch {\n%s}; };\n" % "".join(
        "case C%d: key longint = %d; byte;\n" % (number, number) for number in range(count))
    source += "resource 'Many' (1) { C%d { 7 } };\n" % (count - 1)
    return compiled(source, [(b"Many", 1, b"", 0, (count - 1).to_bytes(4, "big") + b"\7")])


def included(count):
    resources = [(b"Test", ident, b"", 0, ident.to_bytes(4, "big")) for ident in range(5_000)]
    references = [reference(ident, 8 * (ident % 5_000)) for ident in range(16_384)]
    fork = laid(*each(("Test", references)), held(*[one[-1] for one in resources]))
    asked = [k * 5_000 // count for k in range(count)]
    source = "".join("include \"T\" 'Test' (%d);\n" % ident for ident in asked)
    files, words, made, wanted = compiled(source, [resources[ident] for ident in asked])
    return {"T": fork, **files}, words, made, wanted


def named(count):
    places = [number * 7_919 % count for number in range(count)]
    fields = "".join("L%d: longint = L%d;\n" % one for one in enumerate(places))
    source = "type 'Many' {\n%s};\nresource 'Many' (1) {};\n" % fields
    return compiled(source, [(b"Many", 1, b"", 0, b"".join((32 * one).to_bytes(4, "big") for one in places))])


def weightless(count):
    rows = count // 4
    case = "case One: array [0] {\n%s}; key byte = 1; byte;" % ("byte;\n" * count)
    types = "type 'Rows' { array { switch { %s }; }; };\n" % case
    one = "        One {\n            {\n            },\n            %d\n        }"
    items = ",\n".join(one % (row % 100) for row in range(rows))
    return shown(types, "Rows", b"".join(bytes([1, row % 100]) for row in range(rows)), "    {\n%s\n    }" % items)


def cases(count):
    types = "type 'Rows' { array { switch {\n%s}; }; };\n" % "".join(
        "case C%d: key longint = %d; byte;\n" % (number, number) for number in range(count))
    numbers = [number * 7_919 % count for number in range(count)]
    content = b"".join(number.to_bytes(4, "big") + b"\5" for number in numbers)
    items = ",\n".join("        C%d {\n            5\n        }" % number for number in numbers)
    return shown(types, "Rows", content, "    {\n%s\n    }" % items)


def symbols(count):
    names = ["S%d" % number for number in range(count // 2)]
    symbols = ["%s = %d" % (name, value) for value in (0, 1) for name in names]
    types = "type 'Rows' { array { longint %s; }; };\n" % ",\n".join(symbols)
    return shown(types, "Rows", b"\0\0\0\1" * 10, "    {\n%s\n    }" % ",\n".join(["        1"] * 10))


# Each kind: what makes it, its least size, and the seconds and the memory that four times as much may take at most.
KINDS = {
    "again": (again, 5_000, 1.0, 32 * MB),
    "copies": (copies, 5_000, 0.5, 32 * MB),
    "scopes": (scopes, 5_000, 1.0, 32 * MB),
    "labels": (labels, 5_000, 0.5, 48 * MB),
    "choices": (choices, 5_000, 0.5, 48 * MB),
    "included": (included, 500, 0.5, 16 * MB),
    "named": (named, 5_000, 0.5, 64 * MB),
    "weightless": (weightless, 5_000, 0.2, 32 * MB),
    "cases": (cases, 2_500, 1.0, 32 * MB),
    "symbols": (symbols, 2_000, 0.1, 32 * MB),
}


def run(program, folder, words):
    """The seconds of the processor, the peak memory in bytes, and the status of a run in a folder."""
    command = [TIME, "-v", "-o", "told", "timeout", "-s", "KILL", str(SECONDS), program] + words
    with open(os.path.join(folder, "out"), "wb") as out:
        before = seconds_of_children()
        status = subprocess.run(command, cwd=folder, stdout=out, preexec_fn=limits_of(ADDRESSES)).returncode
        return seconds_of_children() - before, peak_in(os.path.join(folder, "told")), status


def measured(program, files, words, made, wanted):
    """The least seconds and the most memory of runs over these files, and what is wrong with them."""
    folder = tempfile.mkdtemp(prefix="rezkit-bench-")
    try:
        for name, content in files.items():
            with open(os.path.join(folder, name), "wb") as file:
                file.write(content)
        runs = []
        for _ in range(RUNS):
            runs.append(run(program, folder, words))
            if runs[-1][2] or runs[-1][0] > SECONDS / 10:
                break
        says = ["status %d" % status for _, _, status in runs if status][:1]
        path = os.path.join(folder, made)
        if not says and os.path.exists(path):
            with open(path, "rb") as file:
                says = ["other bytes"] * (file.read() != wanted)
    finally:
        shutil.rmtree(folder)
    return min(one[0] for one in runs), max(one[1] for one in runs), says


class Bench:
    """A program, and whether all of its runs so far are as wanted."""

    def __init__(self, program):
        self.program, self.good = program, True
        print("%-10s %8s %10s %9s %9s" % ("kind", "n", "bytes read", "seconds", "peak MB"))

    def measure(self, kind, count, before):
        """What so many of a kind take, which is printed; it is measured by what a fourth of them took."""
        make, _, most_seconds, most_memory = KINDS[kind]
        files, words, made, wanted = make(count)
        seconds, memory, says = measured(self.program, files, words, made, wanted)
        taken = max(seconds, LEAST_SECONDS), max(memory, LEAST_MEMORY)
        if before:
            times = taken[0] / before[0], taken[1] / before[1]
            says += ["%.1f times the time and %.1f times the memory of a fourth" % times] * (max(times) > MOST_GROWTH)
        says += ["too slow"] * (seconds > most_seconds) + ["too much memory"] * (memory > most_memory)
        self.good = self.good and not says
        size = sum(len(content) for content in files.values())
        print("%-10s %8d %10d %9.3f %9.1f  %s" % (kind, count, size, seconds, memory / MB, ", ".join(says)), flush=True)
        return taken

    def grow(self, kind):
        least = KINDS[kind][1]
        first = self.measure(kind, least, None)
        self.measure(kind, 2 * least, None)
        self.measure(kind, 4 * least, first)


def main():
    here = os.path.dirname(os.path.abspath(__file__))
    built = os.path.join(here, "..", "crates", "rezkit", "out", "rezkit")
    bench = Bench(os.path.abspath(sys.argv[1] if len(sys.argv) > 1 else built))
    for kind in sys.argv[2:] or KINDS:
        bench.grow(kind)
    print("all is as wanted" if bench.good else "something differs or takes too much")
    sys.exit(0 if bench.good else 1)


if __name__ == "__main__":
    main()
