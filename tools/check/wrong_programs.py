#!/usr/bin/env python3
"""Shows that the runner of ./test finds programs that are wrong.

    python3 tools/check/wrong_programs.py [PROGRAM]

PROGRAM is the one that ./rezkit runs unless another is named. A few cases, which stand here, are run by
tools/check/run_cases.py: first with the program itself, which must pass, then with small scripts around it, each
wrong in one place: a byte of a message, a byte of a fork, a status, a file too many. Then come case files that are
broken. What tools/check/run_cases.py prints of each stands here by hand. What comes otherwise is printed, and the
status is 1.
"""
import os
import subprocess
import sys
import tempfile

import top  # noqa: F401
from files import write
from running import program_of

RUNNER = os.path.join(os.path.dirname(os.path.abspath(__file__)), "run_cases.py")

# A fork of one resource that is written, one that is shown, a message, and a case that is wrong on purpose.
CASES = """case a fork
words rez one.r -o one.rsrc
file text one.r
| data 'Test' (128) { $"0102" };
status 0
leaves bytes one.rsrc
| 0000 0100 0000 0106 0000 0006 0000 0032 00*240
| 0000 0002 0102 0000 0100 0000 0106 0000 0006 0000 0032 0000 0000 0000 0000 001C
| 0032 0000 5465 7374 0000 000A 0080 FFFF 0000 0000 0000 0000
case a text
words derez one.rsrc
file bytes one.rsrc
| 0000 0100 0000 0106 0000 0006 0000 0032 00*240
| 0000 0002 0102 0000 0100 0000 0106 0000 0006 0000 0032 0000 0000 0000 0000 001C
| 0032 0000 5465 7374 0000 000A 0080 FFFF 0000 0000 0000 0000
status 0
out text
| data 'Test' (128) {
|     $"0102"
| };
|
case a message
words rez none.r -o x
status 2
err text
| rezkit: error 101 MissingFile: "none.r"
case wrong on purpose
words --version
status 1
differs status out
case a call that fails
words --version
fail out 1 0
status 3
"""


def part(word, digits, text):
    """A line that shows a part of what is expected or found."""
    return "    %-8s %-48s %s" % (word, digits, text)


FORK = ["FILE:1: a fork", "  rezkit 'rez' 'one.r' '-o' 'one.rsrc'"]
TEXT = ["FILE:10: a text", "  rezkit 'derez' 'one.rsrc'"]
MESSAGE = ["FILE:22: a message", "  rezkit 'rez' 'none.r' '-o' 'x'"]
ON_PURPOSE = ["FILE:27: wrong on purpose", "  rezkit '--version'"]
# Of each wrong program what it is, a script around the program "$0" with the words "$@", and what is told.
WRAPPERS = [
    ("the program itself", 'exec "$0" "$@"', []),
    ("a byte of a message", '"$0" "$@" 2>.said; s=$?; sed s/MissingFile/MissingFale/ .said >&2; rm .said; exit $s', [
        *MESSAGE, "  standard error differs at byte 26 (expected are 40 bytes, found were 40)",
        part("expected", "69 6C 65 3A 20 22 6E 6F 6E 65 2E 72 22 0A", 'ile: "none.r".'),
        part("found", "61 6C 65 3A 20 22 6E 6F 6E 65 2E 72 22 0A", 'ale: "none.r".')]),
    ("a byte of a fork", '"$0" "$@" || exit; [ "$1" != rez ] || printf A | dd of=one.rsrc bs=1 seek=261 conv=notrunc status=none', [
        *FORK, "  the file 'one.rsrc' differs at byte 261 (expected are 312 bytes, found were 312)",
        part("expected", "02 00 00 01 00 00 00 01 06 00 00 00 06 00 00 00", "................"),
        part("found", "41 00 00 01 00 00 00 01 06 00 00 00 06 00 00 00", "A...............")]),
    ("a fork that is cut", '"$0" "$@" || exit; [ "$1" != rez ] || truncate -s 311 one.rsrc', [
        *FORK, "  the file 'one.rsrc' differs at byte 311 (expected are 312 bytes, found were 311)",
        part("expected", "00", "."), "    found    (it ends here)"]),
    ("no fork", '"$0" "$@" || exit; [ "$1" != rez ] || rm one.rsrc', [
        *FORK, "  the file 'one.rsrc' differs",
        part("expected", "00 00 01 00 00 00 01 06 00 00 00 06 00 00 00 32", "...............2"), "    found    no file"]),
    ("a source that is changed", '"$0" "$@" || exit; [ "$1" != rez ] || printf X >one.r', [
        *FORK, "  the file 'one.r' differs at byte 0 (expected are 31 bytes, found were 1)",
        part("expected", "64 61 74 61 20 27 54 65 73 74 27 20 28 31 32 38", "data 'Test' (128"), part("found", "58", "X")]),
    ("a byte of the output", 'if [ "$1" = derez ]; then "$0" "$@" | sed s/0102/0103/; else exec "$0" "$@"; fi', [
        *TEXT, "  standard output differs at byte 29 (expected are 36 bytes, found were 36)",
        part("expected", "32 22 0A 7D 3B 0A 0A", '2".};..'), part("found", "33 22 0A 7D 3B 0A 0A", '3".};..')]),
    ("a status", '"$0" "$@"; s=$?; [ $s != 2 ] || s=3; exit $s', [
        *MESSAGE, "  the status differs", "    expected 2", "    found    3"]),
    ("a folder and a link too many", '"$0" "$@"; s=$?; [ $s != 2 ] || { mkdir d; ln -s none d/l; }; exit $s', [
        *MESSAGE, "  the file 'd' differs", "    expected no file", "    found    a folder", "  the file 'd/l' differs",
        "    expected no file", "    found    something that is no file (120000)"]),
    ("right where it is wrong on purpose", '[ "$1" != --version ] || exit 1; exec "$0" "$@"', [
        *ON_PURPOSE, "  status is wrong on purpose, and doesn't differ", "  out is wrong on purpose, and doesn't differ"]),
]
APART = "can't be shown by a host: 1 cases with a call that fails"
# Case files that can't be read as such: the text, and what is told.
BROKEN = [
    ("", "there are no cases"),
    ("case a\nwords --version\n", "FILE: line 1: the case states no status"),
    ("case a\nstatus 0\nout text\n| b\nout text\n| b\n", "FILE: line 5: the case states this twice"),
    ("case a\nstatus 0\nfile bytes x\n| 0g\n", "FILE: line 3: not hexadecimal digits, two a byte: 0g"),
    ("# one\ncase a\nstatus 256\n", "FILE: line 3: a number is missing, wrong or too great"),
    ("words x\n", "FILE: line 1: no case begins before this line"),
    ("case a\nstatus 0\nwant x\n", "FILE: line 3: there is no such key"),
]


def told(room, program, text):
    """What the runner prints of a case file, with FILE for its path, and its status."""
    path = os.path.join(room, "one.cases")
    write(path, text)
    ran = subprocess.run([sys.executable, RUNNER, "--program", program, path], stdin=subprocess.DEVNULL,
                         stdout=subprocess.PIPE, stderr=subprocess.STDOUT)
    return ran.stdout.decode("utf-8", "replace").replace(path, "FILE").rstrip("\n").split("\n"), ran.returncode


def wrapped(room, program, script):
    """A program that runs the script around the program."""
    path = os.path.join(room, "wrapper")
    script, program = (text.replace("'", "'\\''") for text in (script, program))
    write(path, "#!/bin/sh\nexec /bin/sh -c '%s' '%s' \"$@\"\n" % (script, program), 0o755)
    return path


def differs(says, lines, came):
    """Whether the runner told something else of a program than these lines, the sums and the status."""
    sums = "3 passed, 1 failed, 1 skipped" if lines else "4 passed, 0 failed, 1 skipped"
    wanted = [*lines, APART, sums], 1 if lines else 0
    if came != wanted:
        print("%s\n--- wanted, and the status %d\n%s\n--- came, and the status %d\n%s"
              % (says, wanted[1], "\n".join(wanted[0]), came[1], "\n".join(came[0])))
    return came != wanted


def main():
    program = program_of(sys.argv[1:])
    wrong = 0
    with tempfile.TemporaryDirectory(prefix="rezkit-wrong-") as room:
        for says, script, lines in WRAPPERS:
            wrong += differs(says, lines, told(room, wrapped(room, program, script), CASES))
        for text, line in BROKEN:
            came, status = told(room, program, text)
            if (came[0], status) != (line, 1):
                wrong += 1
                print("%r\n  wanted: %s\n  came:   %s, and the status %d" % (text, line, came, status))
    print("%d programs and %d case files, %d told otherwise" % (len(WRAPPERS), len(BROKEN), wrong))
    sys.exit(1 if wrong else 0)


if __name__ == "__main__":
    main()
