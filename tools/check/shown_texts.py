#!/usr/bin/env python3
"""Compares what the cases of `derez` have on `out` with what tools/model/shown.py works out.

    python3 tools/check/shown_texts.py crates/rezkit_cases/data/shown.cases

Cases of other commands, cases with another status than 0, and those that shown.py doesn't read are passed over, and
counted. What differs is printed, and the status is 1 then.
"""
import sys

import top  # noqa: F401
from files import text_of
from model.case_reader import read_cases
from model.shown import derez


def main():
    tried, passed, wrong = 0, 0, 0
    for name in sys.argv[1:]:
        for case in read_cases(text_of(name)):
            if case.words[:1] != ["derez"] or case.status != 0:
                passed += 1
                continue
            try:
                came = derez(case.words[1:], case.files, case.moment or 0)
            except NotImplementedError:
                passed += 1
                continue
            except Exception as fault:
                came = "? %r\n" % fault
            tried += 1
            stated = case.out or b""
            if came.encode() != stated:
                wrong += 1
                print("%s: %s\n  stated\n%s  worked out\n%s" % (name, case.name, stated.decode(), came))
    print("%d cases, %d otherwise, %d passed over" % (tried, wrong, passed))
    sys.exit(1 if wrong else 0)


if __name__ == "__main__":
    main()
