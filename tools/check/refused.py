#!/usr/bin/env python3
"""Runs commands with each allocation of memory refused in turn, and looks at what each run leaves.

    python3 tools/check/refused.py [PROGRAM]

PROGRAM is the one that ./rezkit runs unless another is named. A library that `cc` makes stands before the C library's
`malloc` and `realloc` (LD_PRELOAD) and refuses the call of one number; it tells whether that call came. Each command
is run with the first call refused, then the second, and so on, until a run in which none was. It is a case of
crates/rezkit_cases/data, over files of the host in a folder of its own. A run of which a call was refused ends as its
case does, or with the status 4; then each file is as before, and no other is there, standard output has a front of
the text, and standard error the line that says so: alone, if nothing was put, or after all that a case says that
isn't refused. Last comes a run of `sample 5000` whose 5,000th call is refused; it has to end with 4.

Printed are how many calls of each command were refused, how many of its runs ended with 4, and the longest time of a
run; then the sums. The status is 1 if a run leaves anything else. This is no part of the gate: it wants a C compiler
and takes some minutes.
"""
import os
import subprocess
import sys
import tempfile
import time

from top import TOP
from files import found_in, text_of, write, write_all
from model.case_reader import read_cases
from running import program_of

DATA = os.path.join(TOP, "crates", "rezkit_cases", "data")
NO_MEMORY = b"rezkit: no memory\n"
SECONDS = 60

# The commands: the file and the name of a case.
COMMANDS = [
    ("failures", "room for exactly the fork and its name"), ("failures", "the output has room for exactly the text"),
    ("again", "again: two strings of a list"), ("shown", "two strings of a list"),
    ("append", "delete both of one name"), ("append", "delete protected resources, with -ov"),
    ("append", "delete protected resources"), ("forms", "include from AppleDouble without a name, 394 bytes"),
    ("bridge", "an AppleDouble header of 394 bytes"), ("bridge", "both forks as AppleDouble over old files"),
    ("bridge", "both forks as AppleSingle: one file"), ("bridge", "AppleSingle as AppleDouble"),
    ("bridge", "BinHex as a fork"), ("lists", "an application with an icon that is read"),
    ("again", "an application is compiled"), ("again", "an application is shown"),
    ("typefiles", "two warnings, the second of a range"), ("types", "a declaration again is warned of"),
    ("det", "a length of 3 and a name at the end of the map"), ("det", "a hundred faults"), ("det", "in double"),
    ("det", "in hqx"), ("det", "BinHex without its last colon"), ("det", "no file"), ("sample", "a sample of 2"),
    ("sample", "a sample of none"),
]

LIBRARY = r"""
#define _GNU_SOURCE
#include <dlfcn.h>
#include <errno.h>
#include <stdlib.h>
#include <unistd.h>

static void *(*next_malloc)(size_t);
static void *(*next_realloc)(void *, size_t);
static long wanted = -1, made;

__attribute__((constructor)) static void begin(void)
{
    next_malloc = (void *(*)(size_t))dlsym(RTLD_NEXT, "malloc");
    next_realloc = (void *(*)(void *, size_t))dlsym(RTLD_NEXT, "realloc");
    const char *text = getenv("REFUSED_CALL");
    wanted = text ? atol(text) : 0;
}

static int refuses(void)
{
    if (wanted < 0 || ++made != wanted)
        return 0;
    const char *told = getenv("REFUSED_TOLD");
    if (told && write(atoi(told), "r", 1) != 1)
        abort();
    errno = ENOMEM;
    return 1;
}

void *malloc(size_t size)
{
    if (!next_malloc)
        next_malloc = (void *(*)(size_t))dlsym(RTLD_NEXT, "malloc");
    return refuses() ? NULL : next_malloc(size);
}

void *realloc(void *block, size_t size)
{
    if (!next_realloc)
        next_realloc = (void *(*)(void *, size_t))dlsym(RTLD_NEXT, "realloc");
    return refuses() ? NULL : next_realloc(block, size);
}
"""


def files_in(folder):
    return {name: data for name, data in found_in(folder).items() if data is not None}


class Refuser:
    """A program, the library that refuses, and the sums of all runs."""

    def __init__(self, program, library):
        self.program, self.library = program, library
        self.runs = self.refused = self.short = self.wrong = 0
        self.longest = 0.0

    def run(self, words, folder, call, moment):
        """A run whose call of this number is refused: whether it came, the status, out, err, and the seconds."""
        read, told = os.pipe()
        env = {"LD_PRELOAD": self.library, "REFUSED_CALL": str(call), "REFUSED_TOLD": str(told),
               "SOURCE_DATE_EPOCH": str(moment)}
        begin = time.monotonic()
        ran = subprocess.run([self.program, *words], cwd=folder, env=env, stdin=subprocess.DEVNULL,
                             stdout=subprocess.PIPE, stderr=subprocess.PIPE, pass_fds=[told], timeout=SECONDS)
        took = time.monotonic() - begin
        os.close(told)
        came = os.read(read, 1) == b"r"
        os.close(read)
        self.runs += 1
        self.refused += came
        self.short += came and ran.returncode == 4
        self.longest = max(self.longest, took)
        return came, ran.returncode, ran.stdout, ran.stderr, took

    def differs(self, name, call, *says):
        self.wrong += 1
        print("%s, call %d: %s" % (name, call, " ".join(map(str, says))))

    def sweep(self, name, case):
        """Runs a case with each call refused in turn."""
        before, after = case.files, case.wanted()
        out, err, status = case.out or b"", case.err or b"", case.status
        call, short, longest, came = 0, 0, 0.0, True
        while came:
            call += 1
            with tempfile.TemporaryDirectory(prefix="rezkit-refused-") as folder:
                write_all(folder, before)
                came, ended, put, said, took = self.run(case.words, folder, call, case.moment or 0)
                left = files_in(folder)
            longest = max(longest, took)
            if came and ended == 4:
                short += 1
                if left != before:
                    self.differs(name, call, "files", sorted(left), "and not as before", sorted(before))
                if not out.startswith(put):
                    self.differs(name, call, "out", put[:200])
                if said not in [NO_MEMORY] * (not put) + [err + NO_MEMORY] * (status == 0):
                    self.differs(name, call, "err", said)
            elif (ended, put, said, left) != (status, out, err, after):
                self.differs(name, call, "status", ended, "out", put[:200], "err", said, "files", sorted(left))
        print("%-70s %6d refused %6d status 4 %7.3f s" % (name, call - 1, short, longest), flush=True)

    def sample(self, count, call):
        """A run of `sample` that makes at least so many allocations."""
        with tempfile.TemporaryDirectory(prefix="rezkit-refused-") as folder:
            came, ended, put, said, took = self.run(["sample", str(count)], folder, call, 0)
            left = files_in(folder)
        if (came, ended, put, said, left) != (True, 4, b"", NO_MEMORY, {}):
            self.differs("sample %d" % count, call, "status", ended, "out", put, "err", said, "files", sorted(left))
        print("%-70s %6d refused %6d status 4 %7.3f s" % ("sample %d, call %d alone" % (count, call), 1, ended == 4, took), flush=True)


def main():
    program = program_of(sys.argv[1:])
    with tempfile.TemporaryDirectory(prefix="rezkit-refuser-") as folder:
        source, library = os.path.join(folder, "refuser.c"), os.path.join(folder, "refuser.so")
        write(source, LIBRARY)
        subprocess.run(["cc", "-O1", "-shared", "-fPIC", "-o", library, source, "-ldl"], check=True)
        refuser, begin = Refuser(program, library), time.monotonic()
        for file, name in COMMANDS:
            found = [case for case in read_cases(text_of(DATA, file + ".cases")) if case.name == name]
            if not found:
                sys.exit("%s.cases has no case %r" % (file, name))
            refuser.sweep("%s: %s" % (" ".join(found[0].words)[:30], name), found[0])
        refuser.sample(5000, 5000)
    print("%d runs, %d calls refused, %d ended with 4, longest %.3f s, %.0f s in all, %d differences" % (
        refuser.runs, refuser.refused, refuser.short, refuser.longest, time.monotonic() - begin, refuser.wrong))
    sys.exit(1 if refuser.wrong else 0)


if __name__ == "__main__":
    main()
