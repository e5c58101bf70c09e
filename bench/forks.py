#!/usr/bin/env python3
"""Measures what the program takes where a file is only read: forks of which little is taken, and a source of comments.

usage: bench/forks.py [PROGRAM [KIND..]]

Files are made in a folder of their own, which is removed at the end:

shared    a fork of 16,974,118 bytes, whose 16,384 references have all the same 16,777,212 bytes: one of them is included,
          one is the bytes of a `data` statement, `derez` shows the others, which are none, and all of them are too many
          to be included or begun with (status 4)
many      a thousand statements that each include one of 16,384 small resources
types     forks of 1,000 to 8,000 types, each admitted a hundred times by statements that take nothing of it
ids       the same with 2,048 to 16,384 ids of one type
source    a source of nearly 100,000,000 bytes, of which all but one statement is comments
begun     `-a` on a fork of 16 MB, to which nothing is added

Without KIND all are measured. Each run is ended after 60 seconds, and may have 1,000 MB of addresses, unless its file alone
needs more. Three runs are made of each; counted are the least time and the most memory. Printed are the seconds of the
processor and the peak memory in MB (of 1,000,000 bytes), each with what it may be at most; of types and ids how many times
the time of an eighth is taken. What is written is compared byte by byte with what is made here. The status is 1 where a run fails,
something differs, or more is taken. Memory is told by `/usr/bin/time -v`.
"""
import os
import re
import resource
import shutil
import subprocess
import sys
import tempfile

sys.path.insert(0, os.path.join(os.path.dirname(os.path.abspath(__file__)), "..", "tools"))
from model.fork import fork_of  # noqa: E402
from model.fork_shapes import each, held, laid, reference  # noqa: E402

MB = 1_000_000
RUNS = 3
SECONDS = 60
ADDRESSES = 1_000 * MB
MOST_GROWTH = 12.0
TIME = "/usr/bin/time"


def seconds_of_children():
    usage = resource.getrusage(resource.RUSAGE_CHILDREN)
    return usage.ru_utime + usage.ru_stime


def limits_of(addresses):
    """What gives a run so many bytes of addresses."""
    return lambda: resource.setrlimit(resource.RLIMIT_AS, (addresses, addresses))


def peak_in(told):
    """The peak memory in bytes that is told in this file."""
    with open(told) as lines:
        return 1024 * int(re.search(r"Maximum resident set size \(kbytes\): (\d+)", lines.read())[1])


class Bench:
    """A program, and whether all of its runs so far are as wanted."""

    def __init__(self, program):
        self.program, self.good = program, True
        print("%-48s %17s %21s" % ("run", "seconds (at most)", "peak MB (at most)"))

    def run(self, folder, words, addresses, quiet):
        """The seconds of the processor, the peak memory in bytes, and the status of a run in a folder."""
        command = [TIME, "-v", "-o", "told", "timeout", "-s", "KILL", str(SECONDS), self.program] + words
        with open(os.path.join(folder, "out"), "wb") as out:
            before = seconds_of_children()
            status = subprocess.run(command, cwd=folder, stdout=out, stderr=quiet, preexec_fn=limits_of(addresses)).returncode
            took = seconds_of_children() - before
        return took, peak_in(os.path.join(folder, "told")), status

    def measure(self, name, files, words, made, wanted, seconds=None, memory=None, status=0):
        """Measures runs over these files, with this status, and compares what they leave in a file (None: there is none); they
        may take at most so many seconds and bytes of memory."""
        folder = tempfile.mkdtemp(prefix="rezkit-bench-")
        try:
            for each_name, content in files.items():
                with open(os.path.join(folder, each_name), "wb") as file:
                    file.write(content)
            addresses = max(ADDRESSES, 8 * max(len(content) for content in files.values()))
            runs = [self.run(folder, words, addresses, subprocess.DEVNULL if status else None) for _ in range(RUNS)]
            took, peak = min(run[0] for run in runs), max(run[1] for run in runs)
            says = ["status %d" % run[2] for run in runs if run[2] != status][:1] or self.differs(folder, made, wanted)
        finally:
            shutil.rmtree(folder)
        says += ["too slow"] * (seconds is not None and took > seconds) + ["too much memory"] * (memory is not None and peak > memory)
        self.tell(name, took, seconds, peak / MB, None if memory is None else memory / MB, says)
        return took

    @staticmethod
    def differs(folder, made, wanted):
        path, found = os.path.join(folder, made), None
        if os.path.exists(path):
            with open(path, "rb") as file:
                found = file.read()
        return ["other bytes"] * (found != wanted)

    def tell(self, name, took, seconds, peak, memory, says):
        self.good = self.good and not says
        print("%-48s %7.3f %9s %10.1f %10s  %s" % (
            name, took, "" if seconds is None else "(%.1f)" % seconds, peak, "" if memory is None else "(%.1f)" % memory,
            ", ".join(says)), flush=True)


def shared(bench):
    """One fork whose references have all the same bytes."""
    content = bytes(16_777_212)
    fork = laid(*each(("Test", [reference(ident) for ident in range(16_384)])), held(content))
    assert len(fork) == 16_974_118
    files = {"S": fork, "one.r": b"include \"S\" 'Test' (5);\n", "two.r": b"data 'X   ' (1) { $$Resource(\"S\", 'Test', 5) };\n",
             "all.r": b'include "S";\n', "none.r": b";\n"}
    bench.measure("include one of 16,384 that share 16 MB", files, ["rez", "one.r", "-o", "made"], "made",
                  fork_of([(b"Test", 5, b"", 0, content)]), memory=64 * MB)
    bench.measure("$$Resource of one of them", files, ["rez", "two.r", "-o", "made"], "made",
                  fork_of([(b"X   ", 1, b"", 0, content)]), memory=4 * len(content) + 8 * MB)
    bench.measure("derez that skips them", files, ["derez", "-skip", "Test", "S"], "out", b"", memory=len(fork) + 20 * MB)
    bench.measure("include all of them", files, ["rez", "all.r", "-o", "made"], "made", None, status=4)
    bench.measure("-a on them", files, ["rez", "none.r", "-a", "-o", "S"], "S", fork, status=4)


def many(bench):
    """A thousand statements that each include one of many small resources."""
    resources = [(b"Test", ident, b"", 0, ident.to_bytes(4, "big")) for ident in range(5_000)]
    small = laid(*each(("Test", [reference(ident, 8 * (ident % 5_000)) for ident in range(16_384)])),
                 held(*[one[-1] for one in resources]))
    source = "".join("include \"T\" 'Test' (%d);\n" % (5 * k) for k in range(1_000))
    bench.measure("1,000 statements that include one of 16,384", {"T": small, "one.r": source.encode()},
                  ["rez", "one.r", "-o", "made"], "made", fork_of(resources[::5]), seconds=5.0)


def growing(bench, name, counts, make):
    """Forks of so many types or ids are admitted by a hundred statements each, in a time that grows with them."""
    took = []
    source = b"include \"F\" 'None';\n" * 100
    for count in counts:
        took.append(bench.measure("100 times a fork of %s %s" % (format(count, ","), name), {"F": make(count), "one.r": source},
                                  ["rez", "one.r", "-o", "made"], "made", fork_of([])))
    growth = took[-1] / took[0]
    says = ["too slow"] * (growth > MOST_GROWTH)
    bench.good = bench.good and not says
    print("%s times as many take %.1f times the time (%.1f)  %s" % (counts[-1] // counts[0], growth, MOST_GROWTH, "".join(says)))
    bench.measure("derez of a fork of %s %s" % (format(counts[-1], ","), name), {"F": make(counts[-1])},
                  ["derez", "F", "-only", "None"], "out", b"", memory=20 * MB)


def types(bench):
    """Forks of many types, of which all but one have no references."""
    def fork(count):
        kinds = [(k * 40_503_001 % 2 ** 32).to_bytes(4, "big") for k in range(1, count)]
        return laid([("Test", 1, 0)] + [(kind, 0, 0) for kind in kinds], reference(1))
    growing(bench, "types", (1_000, 2_000, 4_000, 8_000), fork)


def ids(bench):
    """Forks of many ids of one type, in no order."""
    def fork(count):
        return laid(*each(("Test", [reference(k * 40_503 % 65_536) for k in range(count)])))
    growing(bench, "ids", (2_048, 4_096, 8_192, 16_384), fork)


def source(bench):
    """A source of comments and one statement."""
    line = b"// " + b"comment " * 12 + b"\n"
    block = b"/* " + b"comment\n" * 99 + b"*/\n"
    half = 50 * MB
    text = line * (half // len(line)) + b"data 'Test' (1) { $\"01\" };\n"
    text += block * ((2 * half - len(text)) // len(block))
    bench.measure("a source of 100 MB of comments", {"one.r": text}, ["rez", "one.r", "-o", "made"], "made",
                  fork_of([(b"Test", 1, b"", 0, b"\1")]), memory=len(text) + 8 * MB)


def begun(bench):
    """A fork of 16 MB is begun with, and nothing is added to it."""
    fork = fork_of([(b"Test", ident, b"", 0, ident.to_bytes(2, "big") * 8_000) for ident in range(1_000)])
    bench.measure("-a on a fork of 16 MB", {"made": fork, "one.r": b";\n"}, ["rez", "one.r", "-a", "-o", "made"], "made", fork,
                  memory=int(3.2 * len(fork)))


KINDS = {"shared": shared, "many": many, "types": types, "ids": ids, "source": source, "begun": begun}


def main():
    here = os.path.dirname(os.path.abspath(__file__))
    built = os.path.join(here, "..", "crates", "rezkit", "out", "rezkit")
    bench = Bench(os.path.abspath(sys.argv[1] if len(sys.argv) > 1 else built))
    for kind in sys.argv[2:] or KINDS:
        KINDS[kind](bench)
    print("all is as wanted" if bench.good else "something differs or takes too much")
    sys.exit(0 if bench.good else 1)


if __name__ == "__main__":
    main()
