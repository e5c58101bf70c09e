#!/usr/bin/env python3
"""Writes the case files that scripts make, in crates/rezkit_cases/data.

    python3 tools/cases/make.py [--check] [NAME..]

NAME is that of a script NAME_cases.py of this folder, which says what its files have. Files of the scripts that it
takes something of are written too. Without names all are, and those of sweep_cases.py last, since it takes cases of
other files. With --check nothing is written, and the status is 1 where a file would change.
"""
import glob
import importlib
import os
import sys

from casefile import Book

ENDING = "_cases.py"


def names_of_all():
    """The names of all scripts, `sweep` last."""
    paths = glob.glob(os.path.join(glob.escape(os.path.dirname(os.path.abspath(__file__))), "*" + ENDING))
    return sorted((os.path.basename(path)[:-len(ENDING)] for path in paths), key=lambda name: (name == "sweep", name))


def main(words):
    same, done = True, 0
    for name in [word for word in words if word != "--check"] or names_of_all():
        importlib.import_module(name + "_cases")
        books, done = Book.all[done:], len(Book.all)
        for book in books:
            book.make()
        for book in books:
            same &= book.finish("--check" not in words)
    return 0 if same else 1


if __name__ == "__main__":
    sys.exit(main(sys.argv[1:]))
