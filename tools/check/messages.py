#!/usr/bin/env python3
"""Looks whether docs/MESSAGES.md has each message, and whether a case is refused by a warning.

    python3 tools/check/messages.py

Each fault that crates/rz_core/src/message.rt names has a row of a table in docs/MESSAGES.md, which begins with its
number and name, and a line of output there, but 452, which no command says. tools/check/tour.py looks whether the
commands there print these lines. No case of crates/rezkit_cases that is refused ends with the line of a warning, of
which there is one, 240. What is wrong is printed, and the status is 1 if anything is.
"""
import glob
import os
import re
import sys

from top import TOP
from files import text_of
from model.case_reader import read_cases

UNSAID = {("452", "UnknownCode")}


def refusals():
    """Each case that is refused: its file, its name and the last line of its messages."""
    for path in sorted(glob.glob(os.path.join(TOP, "crates/rezkit_cases/data/*.cases"))):
        for case in read_cases(text_of(path)):
            if case.status == 2 and case.err:
                yield os.path.basename(path), case.name, case.err.decode("utf-8", "replace").splitlines()[-1]


def main():
    named = set(re.findall(r'(\d{3}) => Some\("(\w+)"\)', text_of(TOP, "crates/rz_core/src/message.rt")))
    text = text_of(TOP, "docs/MESSAGES.md")
    rows = re.findall(r"^\| (\d{3}) (\w+)", text, re.M)
    lines = set(re.findall(r"^rezkit: .*?(?:error|warning) (\d{3}) (\w+)", text, re.M))
    wrong = ["%s %s: no row" % fault for fault in sorted(named - set(rows))]
    wrong += ["%s %s: no line that a command prints" % fault for fault in sorted(named - lines - UNSAID)]
    wrong += ["%s %s: a row, but no fault of today" % fault for fault in sorted(set(rows) - named)]
    wrong += ["%s %s: two rows" % fault for fault in sorted(set(rows)) if rows.count(fault) > 1]
    refused = list(refusals())
    wrong += ["%s: %s: refused by a warning" % (file, name) for file, name, line in refused
              if re.match(r"rezkit: (.*?:\d+: )?warning ", line)]
    for line in wrong:
        print(line)
    print("%d messages, %d refusals, %d faults" % (len(named), len(refused), len(wrong)))
    sys.exit(1 if wrong or not named or not refused else 0)


if __name__ == "__main__":
    main()
