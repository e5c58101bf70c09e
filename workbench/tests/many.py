#!/usr/bin/python3
"""Runs a program of the workbench over many damaged files, in one process with little memory, each within ten seconds.

    /usr/bin/python3 workbench/tests/many.py ls|po|salvage FORKS FILES [SEED]

FORKS are forks of all forms, of which bytes are changed by chance; FILES are larger files that are cut, or overwritten in
a stretch. Printed is how often each status came. A status but 0 and 1, a traceback and more than ten seconds end it with 1.
"""
import collections
import contextlib
import io
import os
import random
import resource
import signal
import sys
import tempfile

sys.dont_write_bytecode = True
HERE = os.path.dirname(os.path.abspath(__file__))
for folder in (HERE, os.path.dirname(HERE), os.path.join(HERE, "..", "..", "tools")):
    sys.path.insert(0, os.path.abspath(folder))

from model.fork import fork_of  # noqa: E402
from model.forms import double, hqx, macbin, single  # noqa: E402
from helpers import MEMORY, SECONDS, WHOLE, mutants, some_bytes  # noqa: E402
from rezkit_workbench import command, ls, po, program, salvage  # noqa: E402

KINDS = (b"STR#", b"DITL", b"DLOG", b"MENU", b"PICT", b"CODE", b"snd ", b"STR ", b"TEXT", b"vers")


def large_files(seed, count):
    """Files with some thirty resources, cut or overwritten by chance."""
    chance = random.Random(seed)
    forms = [lambda file: file.res, macbin, hqx, single, double]
    wholes = []
    for make in forms:
        area = [(chance.choice(KINDS), number, some_bytes(chance, 20), chance.randrange(128), some_bytes(chance, 2000)) for number in range(30)]
        wholes.append(make(WHOLE.but(res=fork_of(area), data=some_bytes(chance, 3000))))
    for number in range(count):
        data = bytearray(wholes[number % len(wholes)])
        if chance.random() < 0.5:
            yield bytes(data[:chance.randrange(len(data))])
        else:
            at = chance.randrange(len(data))
            data[at:at + chance.randrange(2000)] = chance.choice((bytes(500), b"\xFF" * 500, some_bytes(chance, 2000)))
            yield bytes(data)


def bodies(folder):
    """For each program how it is called with a file."""
    new = os.path.join(folder, "new")
    return {"ls": lambda name: command.ended("rezkit-ls", ls.body, ["--resources", "--sha256", "-j", "1", name]),
            "po": lambda name: command.ended("rezkit-po", po.body, ["out", name, "-o", new, "-f"]),
            "salvage": lambda name: command.ended("rezkit-salvage", salvage.body, [name, "-o", new, "-f"])}


def main():
    which, forks, files = sys.argv[1], int(sys.argv[2]), int(sys.argv[3])
    seed = int(sys.argv[4]) if len(sys.argv) > 4 else 1
    program.path()
    resource.setrlimit(resource.RLIMIT_AS, (MEMORY, MEMORY))
    command.drop_out = lambda: None
    counts, told = collections.Counter(), io.BytesIO()
    with tempfile.TemporaryDirectory(prefix="many-") as folder:
        run, name = bodies(folder)[which], os.path.join(folder, "file")
        for data in [*mutants(seed, forks), *large_files(seed, files)]:
            with open(name, "wb") as file:
                file.write(data)
            signal.setitimer(signal.ITIMER_PROF, SECONDS)  # ends the process with SIGPROF after so much of its time
            signal.alarm(6 * SECONDS)  # ends the process with SIGALRM, whatever else the machine does
            with contextlib.redirect_stdout(io.TextIOWrapper(told)), contextlib.redirect_stderr(io.TextIOWrapper(io.BytesIO())):
                counts[run(name)] += 1
            told = io.BytesIO()
            signal.setitimer(signal.ITIMER_PROF, 0)
            signal.alarm(0)
    print("%s: %s" % (which, ", ".join("status %d: %d" % each for each in sorted(counts.items()))))
    return 0 if set(counts) <= {0, 1} and sum(counts.values()) == forks + files else 1


if __name__ == "__main__":
    sys.exit(main())
