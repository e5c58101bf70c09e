#!/usr/bin/env python3
"""Measures what `derez` takes, which puts one line after the other, and that it stops where a pipe closes.

usage: bench/derez.py [PROGRAM [BEFORE]]

PROGRAM is crates/rezkit/out/rezkit unless another is named. Files are made in a folder of their own, which is removed at
the end:

names     a fork of 2,700 resources of 6,000 bytes, each with a name
one       a fork of one resource of 16,777,212 bytes
lists     a fork of 2,700 lists of a hundred strings, shown by the fields of a type
shared    a fork of 16,974,118 bytes, whose 16,384 references have all the same 16,777,212 bytes: more than 800 GB of text

The text of the first three goes to a file, and is compared byte by byte with what is made here. Seven runs are made of each,
in turn with as many of BEFORE where that is named; counted are the least time of the processor and the most memory, which
may be at most the length of the fork and 8 MB (of 1,000,000 bytes each). The time may be at most 1.1 times that of BEFORE.

The text of the last goes to `head -n 3`. Its three lines have to come, and the program has to end, within two seconds, with
the status 3, the line of a write fault, no more memory than that, and no file beside those that were there. The same is
asked where the text goes to /dev/full. BEFORE makes its whole text first: what it ends with is printed.

The status is 1 where a run fails, something differs, or more is taken. Memory is told by `/usr/bin/time -v`.
"""
import os
import random
import shutil
import subprocess
import sys
import tempfile
import time

sys.path.insert(0, os.path.join(os.path.dirname(os.path.abspath(__file__)), "..", "tools"))
from model.fork import fork_of  # noqa: E402
from model.fork_shapes import each, held, laid, reference  # noqa: E402
from forks import ADDRESSES, MB, TIME, limits_of, peak_in, seconds_of_children  # noqa: E402

RUNS = 7
SPARE = 8 * MB
SLOWER = 1.1
AT_ONCE = 2.0
TYPE = b"type 'STR#' { integer = $$CountOf(list); array list { pstring; }; };\n"
FAULT = b"rezkit: write fault\n"


def data_text(resources):
    """What is shown of resources by their bytes."""
    lines = []
    for kind, ident, name, _, content in resources:
        lines.append("data '%s' (%d%s) {\n" % (kind.decode(), ident, ', "%s"' % name.decode() if name else ""))
        digits = content.hex(" ", 2).upper() if len(content) % 2 == 0 else None
        assert digits, "an odd number of bytes"
        lines += ['    $"%s"\n' % digits[at:at + 39] for at in range(0, len(digits), 40)]
        lines.append("};\n\n")
    return "".join(lines).encode()


def lists_text(lists):
    """What is shown of lists of strings by their fields."""
    return "".join("resource 'STR#' (%d) {\n    {\n%s\n    }\n};\n\n" % (
        ident, ",\n".join('        "%s"' % text for text in texts)) for ident, texts in lists).encode()


def kinds():
    """Each kind that goes to a file: its name, the files, the words, and the text."""
    chance = random.Random(41)
    named = [(b"Test", ident, b"name of %d" % ident, 0, chance.randbytes(6_000)) for ident in range(2_700)]
    yield "2,700 resources", {"F": fork_of(named)}, ["derez", "F"], data_text(named)
    one = [(b"Test", 128, b"", 0, chance.randbytes(16_777_212))]
    yield "one resource of 16 MB", {"F": fork_of(one)}, ["derez", "F"], data_text(one)
    lists = [(ident, ["".join(chance.choices("abcdefgh", k=chance.randrange(40))) for _ in range(100)]) for ident in range(2_700)]
    fork = fork_of([(b"STR#", ident, b"", 0, b"\0\x64" + b"".join(bytes([len(text)]) + text.encode() for text in texts))
                    for ident, texts in lists])
    yield "2,700 lists by their fields", {"F": fork, "t.r": TYPE}, ["derez", "F", "t.r"], lists_text(lists)


class Folder:
    """A folder with files, which is removed at the end."""

    def __init__(self, files):
        self.files = files

    def __enter__(self):
        self.path = tempfile.mkdtemp(prefix="rezkit-bench-")
        for name, content in self.files.items():
            with open(self.name(name), "wb") as file:
                file.write(content)
        return self

    def __exit__(self, *_):
        shutil.rmtree(self.path)

    def name(self, name):
        return os.path.join(self.path, name)

    def start(self, program, words, **streams):
        """A run that began in the folder, whose memory is told at its end."""
        return subprocess.Popen([TIME, "-v", "-o", "told", program] + words, cwd=self.path, preexec_fn=limits_of(ADDRESSES), **streams)

    def peak(self):
        return peak_in(self.name("told"))


def to_file(folder, program, words, wanted):
    """The seconds of the processor and the peak memory of a run whose text goes to a file, and what is wrong of it."""
    with open(folder.name("out"), "wb") as out:
        before = seconds_of_children()
        status = folder.start(program, words, stdout=out).wait()
        took = seconds_of_children() - before
    with open(folder.name("out"), "rb") as file:
        says = ["status %d" % status] if status else ["other bytes"] if file.read() != wanted else []
    return took, folder.peak(), says


def measure(name, files, words, wanted, programs):
    """Measures a kind, prints what it took, and says whether it is as wanted."""
    runs = {program: [] for program in programs}
    with Folder(files) as folder:
        for _ in range(RUNS):
            for program in programs:
                runs[program].append(to_file(folder, program, words, wanted))
    found = {program: (min(run[0] for run in of), max(run[1] for run in of), [says for run in of for says in run[2]][:1])
             for program, of in runs.items()}
    most, (took, peak, says) = len(files["F"]) + SPARE, found[programs[0]]
    says += ["too much memory"] * (peak > most)
    before = ""
    if len(programs) > 1:
        before = "%.3f s, %.1f MB" % (found[programs[1]][0], found[programs[1]][1] / MB)
        says += ["too slow"] * (took > SLOWER * found[programs[1]][0])
    print("%-28s %7.3f %8.1f (%5.1f)   %-20s %s" % (name, took, peak / MB, most / MB, before, ", ".join(says)), flush=True)
    return not says


def ends_at_once(name, program, fork, to_head):
    """Whether a run over text without end stops where its output does."""
    with Folder({"F": fork}) as folder:
        began = time.monotonic()
        with open("/dev/full", "wb") as full:
            run = folder.start(program, ["derez", "F"], stdout=subprocess.PIPE if to_head else full, stderr=subprocess.PIPE)
        shown = b""
        if to_head:
            head = subprocess.Popen(["head", "-n", "3"], stdin=run.stdout, stdout=subprocess.PIPE)
            run.stdout.close()
            shown = head.communicate()[0]
        try:
            said = run.communicate(timeout=60)[1]
        except subprocess.TimeoutExpired:
            run.kill()
            said = run.communicate()[1] + b"(killed)"
        took, status, peak = time.monotonic() - began, run.returncode, folder.peak()
        left = sorted(os.listdir(folder.path))
    line = b'    $"0000 0000 0000 0000 0000 0000 0000 0000"\n'
    says = ["status %d" % status] * (status != 3) + ["other lines"] * (shown != (b"data 'Test' (0) {\n" + 2 * line if to_head else b""))
    says += ["says %r" % said] * (said != FAULT) + ["files %s" % left] * (left != ["F", "told"])
    says += ["too slow"] * (took > AT_ONCE) + ["too much memory"] * (peak > len(fork) + SPARE)
    print("%-28s %7.3f %8.1f (%5.1f)   %-20s %s" % (name, took, peak / MB, (len(fork) + SPARE) / MB, "", ", ".join(says)), flush=True)
    return not says


def main():
    here = os.path.dirname(os.path.abspath(__file__))
    built = os.path.join(here, "..", "crates", "rezkit", "out", "rezkit")
    programs = [os.path.abspath(word) for word in sys.argv[1:3] or [built]]
    print("%-28s %7s %17s   %s" % ("run", "seconds", "peak MB (at most)", "before" if len(programs) > 1 else ""))
    good = [measure(*kind, programs) for kind in kinds()]
    fork = laid(*each(("Test", [reference(ident) for ident in range(16_384)])), held(bytes(16_777_212)))
    assert len(fork) == 16_974_118
    good.append(ends_at_once("800 GB to head -n 3", programs[0], fork, True))
    good.append(ends_at_once("800 GB to /dev/full", programs[0], fork, False))
    for program in programs[1:]:
        print("before:")
        ends_at_once("800 GB to head -n 3", program, fork, True)
    print("all is as wanted" if all(good) else "something differs or takes too much")
    sys.exit(0 if all(good) else 1)


if __name__ == "__main__":
    main()
