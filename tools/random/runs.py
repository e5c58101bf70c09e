"""Runs of a program on files, whose answers are counted and compared with what is wanted."""
import collections
import os
import random
import shutil
import subprocess
import sys
import tempfile

import top  # noqa: F401
from files import found_in, write_all
from running import program_of

SECONDS = 60


class Runs:
    """A program, how often each answer came, and how many others did."""

    def __init__(self, program, folder):
        self.program, self.folder, self.answers, self.wrong = program, folder, collections.Counter(), 0

    def run(self, number, words, files, wanted, answer):
        """Whether the program leaves what is wanted: the status, the output, the messages, and the files that it makes."""
        shutil.rmtree(self.folder)
        os.mkdir(self.folder)
        write_all(self.folder, files)
        ran = subprocess.run([self.program, *words], cwd=self.folder, stdin=subprocess.DEVNULL, stdout=subprocess.PIPE,
                             stderr=subprocess.PIPE, timeout=SECONDS, env={**os.environ, "SOURCE_DATE_EPOCH": "0"})
        status, out, err, made = wanted
        self.answers[words[0], answer] += 1
        differs = [(what, one, came) for what, one, came in (
            ("status", status, ran.returncode), ("out", out, ran.stdout), ("err", err, ran.stderr),
            ("files", {**files, **made}, found_in(self.folder))) if one != came]
        for what, one, came in differs:
            self.wrong += 1
            print("%d: %s: %s\n  given:  %.3000r\n  wanted: %.300r\n  came:   %.300r" % (number, " ".join(words), what, files, one, came))
        return not differs


def seeded():
    """A range of as many as the words of a script ask for, after the seed with which chance begins."""
    if len(sys.argv) != 3:
        sys.exit(sys.modules["__main__"].__doc__)
    random.seed(int(sys.argv[1]))
    return range(int(sys.argv[2]))


def run_all(words, count, steps, says):
    """Lets `steps` make its runs, and ends with how often each answer came. The words of the script are the program,
    the number of its steps, `count` unless stated, and the seed, 1 unless stated; `steps` gets both numbers."""
    program, count, seed = program_of(words), int((words[1:] + [count])[0]), int((words[2:] + [1])[0])
    with tempfile.TemporaryDirectory(prefix="rezkit-random-") as room:
        runs = Runs(program, os.path.join(room, "run"))
        os.mkdir(runs.folder)
        steps(runs, count, seed)
    for (command, answer), times in sorted(runs.answers.items()):
        print("%-9s %-22s %6d" % (command, answer, times))
    print("%d %s, %d runs, %d differences" % (count, says, sum(runs.answers.values()), runs.wrong))
    sys.exit(1 if runs.wrong else 0)
