#!/usr/bin/env python3
"""Measures `strings` and `restring` beside `derez` and `rez` of the same lists of strings.

usage: bench/catalog.py [PROGRAM]

PROGRAM is crates/rezkit/out/rezkit unless another is named. A fork of 5,000 lists of ten strings each, and one of 5,000 lists
of twenty, are made in folders of their own, which are removed at the end. `strings` writes their catalogue, and `restring`
puts another text in the place of each; `derez` shows the fork by the fields of the type, and `rez` compiles that text.
What is written is compared byte by byte with what is made here. Seven runs are made of each, in turn; counted are the
least time of the processor and the most memory. The status is 1 where a run fails, something differs, twice as many texts
take more than 2.5 times the time or the memory, or with lists of ten `strings` takes more than twice the time of `derez`,
or `restring` more than twice that of `rez`. Memory is told by `/usr/bin/time -v`.
"""
import os
import random
import shutil
import subprocess
import sys
import tempfile

sys.path.insert(0, os.path.join(os.path.dirname(os.path.abspath(__file__)), "..", "tools"))
from derez import TYPE, lists_text  # noqa: E402
from model.fork import fork_of  # noqa: E402
from forks import MB, TIME, peak_in, seconds_of_children  # noqa: E402

RUNS = 7
LISTS = 5_000
MOST_GROWTH = 2.5
MOST_TIMES = 2.0
BESIDE = {"strings": "derez", "restring": "rez"}


def fork_with(lists):
    return fork_of([(b"STR#", ident, b"", 0, len(texts).to_bytes(2, "big") + b"".join(bytes([len(text)]) + text.encode() for text in texts))
                    for ident, texts in lists])


def catalogue_of(lists):
    return "".join("'STR#' %d %d\n    \"%s\";\n" % (ident, leaf, text) for ident, texts in lists for leaf,
                   text in enumerate(texts)).encode()


def some_lists(chance, count):
    return [(ident, ["".join(chance.choices("abcdefgh", k=chance.randrange(40))) for _ in range(count)]) for ident in range(LISTS)]


def ways_of(count):
    """The files, and each way: its name, its words, the file that it leaves, and the bytes of that."""
    chance = random.Random(46)
    lists, others = some_lists(chance, count), some_lists(chance, count)
    shown, catalogue = lists_text(lists), catalogue_of(lists)
    files = {"F": fork_with(lists), "t.r": TYPE, "shown.r": shown, "other": catalogue_of(others)}
    return files, [("derez", ["derez", "F", "t.r"], "out", shown), ("strings", ["strings", "F", "t.r"], "out", catalogue),
                   ("rez", ["rez", "t.r", "shown.r", "-o", "made"], "made", files["F"]),
                   ("restring", ["restring", "F", "other", "t.r", "-o", "made"], "made", fork_with(others))]


def run(program, folder, words, made, wanted):
    """The seconds of the processor, the peak memory in bytes, and whether all is right."""
    with open(os.path.join(folder, "out"), "wb") as out:
        before = seconds_of_children()
        status = subprocess.run([TIME, "-v", "-o", "told", program] + words, cwd=folder, stdout=out).returncode
        took = seconds_of_children() - before
    with open(os.path.join(folder, made), "rb") as file:
        return took, peak_in(os.path.join(folder, "told")), status == 0 and file.read() == wanted


def measured(program, count):
    """What each way takes, the least time and the most memory of its runs, and whether all is right."""
    files, ways = ways_of(count)
    folder = tempfile.mkdtemp(prefix="rezkit-bench-")
    try:
        for name, content in files.items():
            with open(os.path.join(folder, name), "wb") as file:
                file.write(content)
        runs = {name: [] for name, *_ in ways}
        for _ in range(RUNS):
            for name, *way in ways:
                runs[name].append(run(program, folder, *way))
    finally:
        shutil.rmtree(folder)
    return {name: (min(each[0] for each in of), max(each[1] for each in of), all(each[2] for each in of)) for name, of in runs.items()}


def main():
    here = os.path.dirname(os.path.abspath(__file__))
    program = os.path.abspath((sys.argv[1:] or [os.path.join(here, "..", "crates", "rezkit", "out", "rezkit")])[0])
    good, before = True, None
    print("%-8s %-9s %8s %8s %14s %8s" % ("texts", "way", "seconds", "peak MB", "growth", "beside"))
    for count in (10, 20):
        took = measured(program, count)
        for name, (seconds, memory, right) in took.items():
            growth = (seconds / before[name][0], memory / before[name][1]) if before else (0, 0)
            beside = seconds / took[BESIDE[name]][0] if name in BESIDE else 0
            good = good and right and (name not in BESIDE or max(growth) <= MOST_GROWTH and (before or beside <= MOST_TIMES))
            print("%-8d %-9s %8.3f %8.1f %7s %6s %8s%s" % (LISTS * count, name, seconds, memory / MB,
                                                           *("%.2f" % each if each else "" for each in growth),
                                                          "%.2f" % beside if beside else "", "" if right else "  other bytes"), flush=True)
        before = took
    print("all is as wanted" if good else "something differs or takes too much")
    sys.exit(0 if good else 1)


if __name__ == "__main__":
    main()
