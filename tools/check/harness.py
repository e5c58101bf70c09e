#!/usr/bin/env python3
"""Runs rezkit_cases over case files that are broken or differ, and looks at what it prints and at its status.

    python3 tools/check/harness.py [PROGRAM]

PROGRAM is crates/rezkit_cases/out/rezkit_cases unless another is named. Cases that are wrong on purpose are in
crates/rezkit_cases/data/wrong.cases; here stands what no case file can say of itself: that a broken file is refused
with the line at which it breaks, and what is printed of a case that differs. What is printed otherwise than it stands
here, by hand, is printed with what came. The status is 1 if anything is. The quick checks run it.
"""
import os
import re
import subprocess
import sys
import tempfile

from top import TOP
from files import rows_of, write
from looks import Looks

RUN = ["case a case", "words rez no.r -o x", "status 2", "err text", '| rezkit: error 101 MissingFile: "no.r"']
SOURCE = ["case a source", "words rez s.r -o x", "file open s.r", "| ;", "status 0", "leaves bytes x"]
NONE = ["| 0000 0100 0000 0100 0000 0000 0000 001E 00*240", "| 0000 0100 0000 0100 0000 0000 0000 001E",
        "| 0000 0000 0000 0000 001C 001E FFFF"]

# Lines after those of a case, the line at which the file breaks, and what is said of it. A line that is stated again
# stands in line 7.
BROKEN = """
moment 0¶moment 0 ‖ moment 1¶moment 2 => 7: the case states this twice
moment today => 6: a number is missing, wrong or too great ‖ moment 2208988800 => 1: the moment is outside 1904 to 2039
room folder 1 10¶room folder 1 10 ‖ room out 1¶room out 2 ‖ room err 1¶room err 2 => 7: the case states this twice
room folder 1 => 6: a number is missing, wrong or too great ‖ room folder 1 2 3 => 6: the argument has too many parts
room in 1 => 6: what is named is none of folder, out and err
fail folder 1¶fail folder 2 ‖ fail out 1 0¶fail out 2 0 ‖ fail err 1 0¶fail err 1 1 => 7: the case states this twice
fail folder 0 ‖ fail err 0 0 ‖ fail out 1 => 6: a number is missing, wrong or too great
fail x 1 => 6: what is named is none of folder, out and err
fail folder 1¶fails never¶fails never => 8: the case states this twice
fails never => 1: no call is named that never comes
fail folder 1¶fails sometimes => 7: of calls that are to fail nothing is said but never
differs => 6: no place is named ‖ differs 1 => 6: a place is none of status, out, err, file NAME and fail PLACE
differs status x => 6: a place is none of status, out, err, file NAME and fail PLACE
differs status status => 6: the case states this twice ‖ differs err¶differs out err => 7: the case states this twice
differs file x¶differs file x ‖ differs fail folder¶differs fail folder => 7: the case states this twice
differs fail x => 6: what is named is none of folder, out and err ‖ status 2 => 6: the case states this twice
out text¶out text ‖ gone x¶leaves text x ‖ file text x¶file open x => 7: the case states this twice
file words x => 6: the kind of content is none of text, open and bytes
file bytes x¶| 0 ‖ file bytes x¶| 00..0 ‖ file bytes x¶| 0x..01 => 6: hexadecimal digits are wrong or odd in number
file bytes x¶| 00..01..02 ‖ file bytes x¶| 00..01:0 => 6: hexadecimal digits are wrong or odd in number
file bytes x¶| 00..01*2 => 6: hexadecimal digits are wrong or odd in number
file bytes x¶| .. ‖ file bytes x¶| 00..0100 => 6: numbers that count up have not one to four bytes, or not as many
file bytes x¶| 0000000000..0000000001 => 6: numbers that count up have not one to four bytes, or not as many
file bytes x¶| 02..01 ‖ file bytes x¶| 00000000..01312D00 => 6: numbers that count up go down, or are too many
file bytes x¶| 00*20000001 => 6: a wrong number of times ‖ gone x¶| y => 6: this key takes no content
says x => 6: there is no such key ‖ sweep folder 1 0¶sweep out 1 0 => 7: the case states this twice
sweep folder 0 0 ‖ sweep out 0 1 ‖ sweep err 100001 0 => 6: a sweep of no calls, or of more than 100,000
sweep folder 1 ‖ sweep folder 1 x => 6: a number is missing, wrong or too great
sweep out 1 2 3 => 6: the argument has too many parts ‖ sweep in 1 0 => 6: what is named is none of folder, out and err
sweep folder 1 0¶fail out 1 0 => 1: a sweep names no other call that fails, and isn't wrong on purpose
sweep folder 1 0¶fail folder 2¶fails never => 1: a sweep names no other call that fails, and isn't wrong on purpose
sweep folder 1 0¶differs out => 1: a sweep names no other call that fails, and isn't wrong on purpose
case another case => 6: the case states no status
"""

# Whole files, what is printed of each, and the status.
PRINTED = [
    ([], "0 cases, 0 differ", 1),
    (RUN, "1 cases, 0 differ", 0),
    (["words --version"], "./one.cases:1: no case begins before this line\n0 cases, 1 differ", 1),
    (["# a comment", "| x"], "./one.cases:2: content before the first key\n0 cases, 1 differ", 1),
    (["\udcff"], "./one.cases:the file can't be read as UTF-8\n0 cases, 1 differ", 1),
    (RUN + ["differs status", "differs file x", "differs fail err"],
     "./one.cases:1: a case: the status is wrong on purpose, and doesn't differ\n"
     './one.cases:1: a case: the file "x" is wrong on purpose, and doesn\'t differ\n'
     "./one.cases:1: a case: the piece of err that fails is wrong on purpose, and doesn't differ\n"
     "1 cases, 1 differ", 1),
    (["case a text", "words --version", "fail folder 1", "fail out 3 0", "fail err 1 0", "status 1", "leaves open x", "| y", "out text",
      "| rezkit 0.1.1", "err open", "| z"],
     "./one.cases:1: a text: the status differs\n  wanted: 1\n  came:   0\n"
     './one.cases:1: a text: the file "x" differs\n  wanted: 1 bytes, from 0 on "y"\n  came:   no file\n'
     './one.cases:1: a text: out differs\n  wanted: 13 bytes, from 0 on "rezkit 0.1.1\\n"\n'
     '  came:   13 bytes, from 0 on "rezkit 0.1.0\\n"\n'
     './one.cases:1: a text: err differs\n  wanted: 1 bytes, from 0 on "z"\n  came:   0 bytes, from 0 on ""\n'
     "./one.cases:1: a text: the call of the folder that fails differs\n  wanted: it comes\n  came:   it never comes\n"
     "./one.cases:1: a text: the piece of out that fails differs\n  wanted: it comes\n  came:   it never comes\n"
     "./one.cases:1: a text: the piece of err that fails differs\n  wanted: it comes\n  came:   it never comes\n"
     "1 cases, 1 differ", 1),
    (["case numbers", "words --help", "room out 0", "status 3", "out bytes", "| 31..33:2C2E 41..41 00FE..0101 25*2", "differs err"],
     "./one.cases:1: numbers: out differs\n"
     '  wanted: 20 bytes, from 0 on "1,.2,.3,.A\\x00\\xfe\\x00\\xff\\x01\\x00\\x01\\x01%%"\n  came:   0 bytes, from 0 on ""\n'
     "1 cases, 1 differ", 1),
    (["case a source", "words rez s.r", "file open s.r", "| ;", "fail folder 1", "fails never", "status 3", "differs err"],
     "./one.cases:1: a source: the call of the folder that fails differs\n  wanted: it never comes\n  came:   it comes\n"
     "1 cases, 1 differ", 1),
    (RUN + ["sweep folder 1 0"], "1 sweeps, 2 runs\n1 cases, 0 differ", 0),
    (SOURCE + NONE + ["sweep folder 1 1"], "1 sweeps, 3 runs\n1 cases, 0 differ", 0),
    (SOURCE + NONE + ["sweep folder 1 2"],
     "./one.cases:1: a source: run 3: the status differs\n  wanted: 3\n  came:   0\n"
     './one.cases:1: a source: run 3: err differs\n  wanted: 20 bytes, from 0 on "rezkit: write fault\\n"\n'
     '  came:   0 bytes, from 0 on ""\n'
     "./one.cases:1: a source: run 3: the call of the folder that fails differs\n  wanted: it comes\n  came:   it never comes\n"
     "1 sweeps, 4 runs\n1 cases, 1 differ", 1),
    (SOURCE + NONE + ["sweep folder 1 0"],
     "./one.cases:1: a source: run 2: the status differs\n  wanted: 0\n  came:   3\n"
     './one.cases:1: a source: run 2: the file "x" differs\n  wanted: 286 bytes, from 0 on "'
     + "\\x00\\x00\\x01\\x00" * 2 + "\\x00" * 7 + "\\x1e" + "\\x00" * 64 + '"\n  came:   no file\n'
     './one.cases:1: a source: run 2: err differs\n  wanted: 0 bytes, from 0 on ""\n'
     '  came:   20 bytes, from 0 on "rezkit: write fault\\n"\n'
     "./one.cases:1: a source: run 2: the call of the folder that fails differs\n  wanted: it never comes\n  came:   it comes\n"
     "1 sweeps, 2 runs\n1 cases, 1 differ", 1),
    (SOURCE + NONE + ["sweep folder 0 2"],
     "./one.cases:1: a source: run 1: err differs\n"
     '  wanted: 20 bytes, from 0 on "rezkit: write fault\\n"\n  came:   19 bytes, from 0 on "rezkit: read fault\\n"\n'
     "1 sweeps, 3 runs\n1 cases, 1 differ", 1),
    (SOURCE + ["| 00"] + ["sweep folder 1 1"],
     './one.cases:1: a source: run 3: the file "x" differs\n  wanted: 1 bytes, from 0 on "\\x00"\n'
     '  came:   286 bytes, from 0 on "' + "\\x00\\x00\\x01\\x00" * 2 + "\\x00" * 7 + "\\x1e" + "\\x00" * 64 + '"\n'
     "1 sweeps, 3 runs\n1 cases, 1 differ", 1),
    (["case a text", "words --version", "sweep out 2 3", "status 0", "out text", "| rezkit 0.1.0"], "1 sweeps, 3 runs\n1 cases, 0 differ", 0),
    (["case a text", "words --version", "sweep out 2 3", "status 0", "out text", "| rez"],
     './one.cases:1: a text: run 2: out differs\n  wanted: 4 bytes, from 0 on "rez\\n"\n  came:   13 bytes, from 0 on "rezkit 0.1.0\\n"\n'
     "1 sweeps, 3 runs\n1 cases, 1 differ", 1),
    (["case a text", "words --version", "sweep out 2 3", "status 0", "out text", "| kit"],
     './one.cases:1: a text: run 1: out differs\n  wanted: 4 bytes, from 0 on "kit\\n"\n  came:   3 bytes, from 0 on "rez"\n'
     "1 sweeps, 3 runs\n1 cases, 1 differ", 1),
    (RUN[:-1] + ["| rezkit: error 102"] + ["sweep err 2 17"],
     './one.cases:1: a case: run 1: err differs\n  wanted: 18 bytes, from 0 on "rezkit: error 102\\n"\n'
     '  came:   17 bytes, from 0 on "rezkit: error 101"\n'
     "1 sweeps, 3 runs\n1 cases, 1 differ", 1),
    (["case a folder", "words rez s.r", "file open s.r", "| ;", "status 0", "differs status"],
     './one.cases:1: a folder: the file "Rez.Out" differs\n  wanted: no file\n'
     '  came:   286 bytes, from 0 on "' + "\\x00\\x00\\x01\\x00" * 2 + "\\x00" * 7 + "\\x1e" + "\\x00" * 64 + '"\n'
     "./one.cases:1: a folder: the status is wrong on purpose, and doesn't differ\n"
     "1 cases, 1 differ", 1),
]


def files():
    """Each file: its lines, what is printed of it, and the status."""
    for row in rows_of(BROKEN):
        lines, line, says = re.match("(.*) => ([0-9]+): (.*)", row).groups()
        # A moment is looked at when its case is run, and else the file isn't read.
        cases = 1 if says.startswith("the moment") else 0
        yield RUN + lines.split("¶"), "./one.cases:%s: %s\n%d cases, 1 differ" % (line, says, cases), 1
    yield from PRINTED


def main():
    program = os.path.abspath(sys.argv[1] if len(sys.argv) > 1 else os.path.join(TOP, "crates", "rezkit_cases", "out", "rezkit_cases"))
    looks = Looks()
    with tempfile.TemporaryDirectory(prefix="rezkit-harness-") as folder:
        for lines, wanted, status in files():
            write(os.path.join(folder, "one.cases"), "".join(line + "\n" for line in lines))
            ran = subprocess.run([program], cwd=folder, stdout=subprocess.PIPE, stderr=subprocess.STDOUT)
            looks.tell("\n".join(map(ascii, lines)), (wanted + "\n", status),
                       (ran.stdout.decode("utf-8", "replace"), ran.returncode))
    looks.end("case files")


if __name__ == "__main__":
    main()
