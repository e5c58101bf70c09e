#!/usr/bin/env python3
"""Measures what `det` takes of forks of which all is broken, and that its time grows with them and no faster.

usage: bench/det.py [PROGRAM]

Forks are made here, in a folder of their own, which is removed at the end:

references  2,048 to 16,384 references of one type, whose data lie outside; of the second half the ids stand again
ids         the same of one id
shared      the same in types of 1,024 references, which share one list; their names lie outside, too (those of 16,384 references
            in one list can't, since a name's place has 16 bits)
codes       1,024 to 8,192 types of one code, without references
types       the same of different codes, each of which is compared with those before it
far         one reference to data that lie outside, behind a data area of 16 MB

Each fork is told twenty times. Counted are the least seconds of the processor, without those that a fork of no bytes
takes, and the most memory. The text is compared byte by byte with that of tools/model/breaks.py. The status is 1
where it differs, where eight times as much takes more than sixteen times the time, but for types of different codes,
where a fork takes more than 0.2 seconds, or where more memory is taken than the fork, its text twice, and 8 MB.
Memory is told by `/usr/bin/time -v`.
"""
import os
import subprocess
import sys
import tempfile

from forks import MB, TIME, peak_in, seconds_of_children

sys.path.insert(0, os.path.join(os.path.dirname(os.path.abspath(__file__)), "..", "tools"))
from model.breaks import breaks, text_of  # noqa: E402
from model.fork_shapes import each, held, laid, reference  # noqa: E402

RUNS = 20
MOST_GROWTH, MOST_SECONDS = 16.0, 0.2
ADDED = 8 * MB


def references(count):
    return laid(*each(("Test", [reference(k % (count // 2), 999) for k in range(count)])), held(b"\1\2"))


def ids(count):
    return laid(*each(("Test", [reference(7, 999)] * count)), held(b"\1\2"))


def shared(count):
    return laid([("T%03d" % k, 1_024, 0) for k in range(count // 1_024)], reference(7, 999, 999) * 1_024, held(b"\1\2"))


def types(count):
    return laid([((k * 40_503_001 % 2 ** 32).to_bytes(4, "big"), 0, 0) for k in range(count)], b"")


def codes(count):
    return laid([("Test", 0, 0)] * count, b"")


def far(count):
    return laid(*each(("Test", [reference(1, 0xFFFFFF)])), bytes(count))


IDS, CODES = (2_048, 4_096, 8_192, 16_384), (1_024, 2_048, 4_096, 8_192)
# Each kind: its name, what makes its forks, how many there are of each, and how many times the time and how long it may take.
KINDS = [("references", references, IDS, MOST_GROWTH, MOST_SECONDS), ("ids", ids, IDS, MOST_GROWTH, MOST_SECONDS),
         ("shared", shared, IDS, MOST_GROWTH, MOST_SECONDS),
         ("codes", codes, CODES, MOST_GROWTH, MOST_SECONDS), ("types", types, CODES, None, MOST_SECONDS),
         ("far", far, (16 * MB,), None, MOST_SECONDS)]


class Bench:
    """A program in a folder, what it takes of a fork of no bytes, and whether all is as wanted so far."""

    def __init__(self, program, folder):
        self.program, self.folder, self.good, self.least = program, folder, True, 0.0
        self.least = self.measured("nothing", b"", None)

    def run(self, command):
        """The seconds of the processor of a command, whose output goes to a file, and its status."""
        with open(os.path.join(self.folder, "out"), "wb") as out:
            before = seconds_of_children()
            status = subprocess.run(command, cwd=self.folder, stdout=out).returncode
            return seconds_of_children() - before, status

    def measured(self, name, fork, most):
        """The seconds that a fork takes; what it takes is printed."""
        with open(os.path.join(self.folder, "f"), "wb") as file:
            file.write(fork)
        faults = breaks(fork)
        wanted = text_of(faults).encode()
        runs = [self.run([self.program, "det", "f"]) for _ in range(RUNS)]
        with open(os.path.join(self.folder, "out"), "rb") as file:
            says = ["other bytes"] * (file.read() != wanted)
        self.run([TIME, "-v", "-o", "told", self.program, "det", "f"])
        took, peak = min(run[0] for run in runs) - self.least, peak_in(os.path.join(self.folder, "told"))
        says += ["a status"] * any(run[1] for run in runs) + ["too slow"] * (most is not None and took > most)
        says += ["too much memory"] * (peak > len(fork) + 2 * len(wanted) + ADDED)
        self.good = self.good and not says
        print("%-12s %11d bytes %7d broken %9d bytes of text %8.4f s %7.1f MB  %s" % (
            name, len(fork), len(faults), len(wanted), took, peak / MB, ", ".join(says)), flush=True)
        return took

    def grow(self, name, make, counts, growth, seconds):
        """Forks of so many of a kind."""
        took = [self.measured(name, make(count), seconds) for count in counts]
        if len(took) > 1:
            times = took[-1] / max(took[0], 1e-6)
            is_slow = growth is not None and times > growth
            self.good = self.good and not is_slow
            print("%-12s %d times as many take %.1f times the time%s" % (name, counts[-1] // counts[0], times, "  too slow" * is_slow))


def main():
    here = os.path.dirname(os.path.abspath(__file__))
    built = os.path.join(here, "..", "crates", "rezkit", "out", "rezkit")
    with tempfile.TemporaryDirectory(prefix="rezkit-bench-") as folder:
        bench = Bench(os.path.abspath(sys.argv[1] if len(sys.argv) > 1 else built), folder)
        for kind in KINDS:
            bench.grow(*kind)
    print("all is as wanted" if bench.good else "something differs or takes too much")
    sys.exit(0 if bench.good else 1)


if __name__ == "__main__":
    main()
