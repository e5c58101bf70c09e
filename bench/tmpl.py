#!/usr/bin/env python3
"""Measures what `derez` takes under the templates of a file, and that its time grows with them and no faster.

usage: bench/tmpl.py [PROGRAM [KIND..]]

Files are made here, in a folder of their own, which is removed at the end. Each kind is one template of 2 to 16 MB:

numbers   numbers of two bytes, each with a label of one byte
labels    the same with labels of 255 bytes
counted   numbers of rows, each with its list of a byte
waiting   the same, and between each number and its list another list without a number
deep      lists in lists, sixty of them, again and again
torn      numbers, and an entry that is cut at the end, which is refused
unknown   numbers, and a code at the end that isn't taken, so that the template is passed over

or 250 to 2,000 templates:

many      of different names, with 20 lists each; a resource of each is shown by its fields
again     of one name, with 20 lists each; each takes the place of the one before it

Without KIND all are measured. What the program prints is compared with what stands here. Counted are the least seconds of the
processor of five runs, without those of a run that has no templates, and the most memory. The status is 1 where something
else is printed, where eight times as much takes more than sixteen times the time, where 16 MB take more than 10 seconds or
1,000 MB, or 2,000 templates more than 1 second or 60 MB. Memory is told by `/usr/bin/time -v`.
"""
import os
import subprocess
import sys
import tempfile

from forks import MB, TIME, peak_in, seconds_of_children

sys.path.insert(0, os.path.join(os.path.dirname(os.path.abspath(__file__)), "..", "tools"))
from model.fork import fork_of  # noqa: E402

RUNS = 5
MOST_GROWTH = 16.0
LEAST = 0.004  # less than so many seconds are too few to compare
SIZES, COUNTS = (2 * MB, 4 * MB, 8 * MB, 16 * MB), (250, 500, 1_000, 2_000)
LIMITS = {SIZES: (10.0, 1_000 * MB), COUNTS: (1.0, 60 * MB)}
NONE = [(b"None", 128, b"", 0, b"\1")]
SHOWN = b"data 'None' (128) {\n    $\"01\"\n};\n\n"


def entries(codes, label=b""):
    return b"".join(bytes([len(label)]) + label + code.encode() for code in codes.split())


def filled(size, part, behind=b""):
    """One template of about so many bytes: a part again and again, and what stands behind; the fork, and what is printed."""
    content = part * (size // len(part)) + behind
    return [(b"TMPL", 128, b"Test", 0, content)], NONE, SHOWN, b""


def torn(size):
    templates, fork, _, _ = filled(size, entries("DWRD", b"n"), b"\4name")
    return templates, fork, b"", b"rezkit: error 451 TornEntry: 128 %d\n" % (len(templates[0][4]) - 5)


TWENTY = entries("OCNT LSTC DBYT LSTE " * 20)


def many(count):
    kinds = [b"T%03X" % k for k in range(count)]
    rows = b",\n".join([b"    {\n    }"] * 19 + [b"    {\n        7\n    }"])
    text = b"".join(b"resource '%s' (128) {\n%s\n};\n\n" % (kind, rows) for kind in kinds)
    return ([(b"TMPL", k, kind, 0, TWENTY) for k, kind in enumerate(kinds)],
            [(kind, 128, b"", 0, b"\0\0" * 19 + b"\0\1\7") for kind in kinds], text, b"")


def again(count):
    return [(b"TMPL", k, b"Test", 0, TWENTY) for k in range(count)], NONE, SHOWN, b""


# Each kind: what makes its templates, and for which sizes or counts.
KINDS = {
    "numbers": (lambda size: filled(size, entries("DWRD", b"n")), SIZES), "labels": (lambda size: filled(size, entries("DWRD", b"n" * 255)), SIZES),
    "counted": (lambda size: filled(size, entries("OCNT LSTC DBYT LSTE")), SIZES),
    "waiting": (lambda size: filled(size, entries("OCNT LSTB DBYT LSTE LSTC DBYT LSTE")), SIZES),
    "deep": (lambda size: filled(size, entries("LSTB " * 60 + "DBYT" + " LSTE" * 60)), SIZES), "torn": (torn, SIZES),
    "unknown": (lambda size: filled(size, entries("DWRD", b"n"), entries("BOOL")), SIZES), "many": (many, COUNTS), "again": (again, COUNTS)}


class Bench:
    """A program in a folder, and whether all is as wanted so far."""

    def __init__(self, program, folder):
        self.program, self.folder, self.good = program, folder, True

    def run(self, *words):
        """The seconds of the processor of a command, and what it prints."""
        before = seconds_of_children()
        ran = subprocess.run([*words], cwd=self.folder, stdout=subprocess.PIPE, stderr=subprocess.PIPE)
        return seconds_of_children() - before, ran.stdout, ran.stderr

    def put(self, name, resources):
        fork = fork_of(resources)
        with open(os.path.join(self.folder, name), "wb") as file:
            file.write(fork)
        return len(fork)

    def measured(self, name, made, seconds, memory):
        """The seconds that templates take; what they take is printed."""
        templates, fork, out, err = made
        length = self.put("t", templates)
        self.put("f", fork)
        runs = [self.run(self.program, "derez", "f", "-tmpl", "t") for _ in range(RUNS)]
        without = min(self.run(self.program, "derez", "f")[0] for _ in range(RUNS))
        self.run(TIME, "-v", "-o", "told", self.program, "derez", "f", "-tmpl", "t")
        took, peak = min(run[0] for run in runs) - without, peak_in(os.path.join(self.folder, "told"))
        says = ["other text"] * any(run[1:] != (out, err) for run in runs) + ["too slow"] * (took > seconds) + ["too much memory"] * (peak > memory)
        self.good = self.good and not says
        print("%-8s %5d templates %11d bytes %8.3f s %7.1f MB  %s" % (name, len(templates), length, took, peak / MB, ", ".join(says)), flush=True)
        return took

    def grow(self, name):
        """Templates of a kind."""
        make, sizes = KINDS[name]
        took = [self.measured(name, make(size), *LIMITS[sizes]) for size in sizes]
        times = took[-1] / max(took[0], LEAST)
        is_slow = times > MOST_GROWTH
        self.good = self.good and not is_slow
        print("%-8s eight times as much takes %.1f times the time%s" % (name, times, "  too slow" * is_slow), flush=True)


def main():
    here = os.path.dirname(os.path.abspath(__file__))
    program = os.path.abspath(sys.argv[1] if sys.argv[1:] else os.path.join(here, "..", "crates", "rezkit", "out", "rezkit"))
    with tempfile.TemporaryDirectory(prefix="rezkit-bench-") as folder:
        bench = Bench(program, folder)
        for name in sys.argv[2:] or KINDS:
            bench.grow(name)
    print("all is as wanted" if bench.good else "something differs or takes too much")
    sys.exit(0 if bench.good else 1)


if __name__ == "__main__":
    main()
