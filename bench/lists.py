#!/usr/bin/env python3
"""Measures the statements over lists of resources, `-a`, and `bridge`.

usage: bench/lists.py [PROGRAM [SEED]]

Files are made from the seed in a folder of their own, which is removed at the end, each in two sizes, of which the second
is four times the first: forks of many resources, which are included, changed and begun with; a file that is read as one
resource, and one that a string names; and a fork of one file in BinHex and MacBinary, written by `bridge` and read
again. Each run is done five times; printed are the median of the seconds, the peak memory, both for each byte that is
read and written, and how much of both the second size takes in place of the first. What is written is compared, byte by
byte, with what is made here; of the forms what is read again. The status is 1 where something differs, or where the
second size takes more than five times the time or the memory of the first.
"""
import os
import random
import shutil
import sys
import tempfile

sys.path.insert(0, os.path.dirname(os.path.abspath(__file__)))
from shown import MB, MOST_GROWTH, RUNS, fork_of, measured, put  # noqa: E402


def resources_of(rng, count):
    """So many resources of ten types, each with a name and some bytes."""
    return [(b"Tp%02d" % (number % 10), number, b"name %d" % number, 0, rng.randbytes(rng.randrange(600)))
            for number in range(count)]


def included(rng, count):
    """A fork of many resources is included."""
    fork = fork_of(resources_of(rng, count))
    return {"main": fork, "one.r": b'include "main";\n'}, ["rez", "one.r", "-o", "made"], "made", fork, 2 * len(fork)


def renamed(rng, count):
    """The resources of one type are included as another type, one after the other by ranges."""
    resources = resources_of(rng, count)
    source = b"".join(b'include "main" \'Tp%02d\' (0:%d) as \'Nw%02d\';\n' % (kind, count, kind) for kind in range(10))
    wanted = fork_of([(b"Nw" + kind[2:], *rest) for kind, *rest in sorted(resources, key=lambda it: it[0])])
    fork = fork_of(resources)
    return {"main": fork, "one.r": source}, ["rez", "one.r", "-o", "made"], "made", wanted, 11 * len(fork)


def begun(rng, count):
    """A program begins with a fork, and changes the id of one of its resources and then back."""
    resources = resources_of(rng, count)
    middle = count // 2
    kind = resources[middle][0]
    source = b"change '%s' (%d) to '%s' (-1);\nchange '%s' (-1) to '%s' (%d);\n" % (kind, middle, kind, kind, kind, middle)
    fork = fork_of(resources)
    return {"made": fork, "one.r": source}, ["rez", "one.r", "-a", "-o", "made"], "made", fork, 2 * len(fork)


def read(rng, size):
    """A file of so many bytes is read as one resource."""
    content = rng.randbytes(size)
    fork = fork_of([(b"Big ", 0, b"", 0, content)])
    return {"big": content, "one.r": b"read 'Big ' (0) \"big\";\n"}, ["rez", "one.r", "-o", "made"], "made", fork, 2 * size


def named(rng, size):
    """A file of so many bytes is named by a string, between two formats."""
    content = rng.randbytes(size)
    source = b"data 'Big ' (0) { $$Format(\"%d\", 1) $$Read(\"big\") $$Format(\"%s\", \"end\") };\n"
    fork = fork_of([(b"Big ", 0, b"", 0, b"1" + content + b"end")])
    return {"big": content, "one.r": source}, ["rez", "one.r", "-o", "made"], "made", fork, 2 * size


def measures(program, rng, make, count):
    folder = tempfile.mkdtemp(prefix="rezkit-bench-")
    try:
        files, words, name, wanted, handled = make(rng, count)
        for each, content in files.items():
            put(folder, each, content)
        yield ("", handled) + measured(program, folder, words, name, wanted)
    finally:
        shutil.rmtree(folder)


def bridges(program, rng, form, size):
    """A fork is written in a form, and then read again."""
    folder = tempfile.mkdtemp(prefix="rezkit-bench-")
    try:
        # (half of it is runs, which BinHex makes short)
        fork = fork_of([(b"Big ", 0, b"", 0, rng.randbytes(size // 2) + b"\0" * (size // 2))])
        put(folder, "main", fork)
        seconds, memory, _ = measured(program, folder, ["bridge", "main", "-to", form, "-o", "kept"], "main", fork)
        kept = os.path.getsize(os.path.join(folder, "kept"))
        yield "to", len(fork) + kept, seconds, memory, True
        yield ("from", kept + len(fork)) + measured(program, folder, ["bridge", "kept", "-to", "raw", "-o", "again"], "again", fork)
    finally:
        shutil.rmtree(folder)


def main():
    here = os.path.dirname(os.path.abspath(__file__))
    built = os.path.join(here, "..", "crates", "rezkit", "out", "rezkit")
    program = os.path.abspath(sys.argv[1] if len(sys.argv) > 1 else built)
    seed = int(sys.argv[2]) if len(sys.argv) > 2 else 1984
    print("%s, seed %d, %d cores, median of %d runs" % (program, seed, os.cpu_count(), RUNS))
    print("%-10s %9s %-5s %10s %8s %7s %8s %7s %10s" % ("kind", "count", "way", "bytes", "seconds", "MB/s", "peak MB", "/byte", "growth"))
    good = True
    kinds = [("included", measures, included, (675, 2_700)), ("renamed", measures, renamed, (675, 2_700)),
             ("begun", measures, begun, (675, 2_700)), ("read", measures, read, (4_000_000, 16_000_000)),
             ("named", measures, named, (4_000_000, 16_000_000))]
    kinds += [(form, bridges, form, (4_000_000, 16_000_000)) for form in ("macbin", "hqx", "double")]
    for kind, measure, make, counts in kinds:
        before = {}
        for count in counts:
            for name, handled, seconds, memory, right in measure(program, random.Random(seed), make, count):
                growth = ""
                if name in before:
                    times = (seconds / before[name][0], memory / before[name][1])
                    growth = "%.1f %.1f" % times
                    good = good and max(times) <= MOST_GROWTH
                print("%-10s %9d %-5s %10d %8.3f %7.1f %8.1f %7.1f %10s%s"
                      % (kind, count, name, handled, seconds, handled / MB / seconds, memory / MB, memory / handled,
                         growth, "" if right else "  other bytes"))
                good = good and right
                before[name] = (seconds, memory)
    print("all is as wanted" if good else "something differs or takes too much")
    sys.exit(0 if good else 1)


if __name__ == "__main__":
    main()
