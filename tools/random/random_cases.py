#!/usr/bin/env python3
"""Prints random cases of expressions, with what docs/LANGUAGE.md says that they must leave.

    python3 tools/random/random_cases.py SEED COUNT > FOLDER/random.cases
    crates/rezkit_cases/out/rezkit_cases FOLDER

They stand in ids and in conditions. This is no part of the gate: it is a second, plain reading of the document,
against which the program can be tried for as long as one likes.
"""
import random
import sys

import top  # noqa: F401
from runs import seeded
from model.case_lines import byte_lines
from model.faults import Refused
from model.fork import fork_of
from model.label_types import LEVEL, value_of
from model.quoting import quoted

VALUES = [0, 1, 2, 3, 5, 7, 31, 32, 255, 65535, 2 ** 31 - 1, 2 ** 31, 2 ** 32 - 1]


def some_expression(depth):
    kind = random.random()
    if depth == 0 or kind < 0.2:
        return "number", random.choice(VALUES + [random.randrange(2 ** 32)])
    if kind < 0.4:
        return random.choice("-~!"), some_expression(depth - 1)
    return random.choice(list(LEVEL)), some_expression(depth - 1), some_expression(depth - 1)


def literal(value):
    content = value.to_bytes(4, "big").lstrip(b"\0") or b"\0"
    return quoted(content, "'")


def spelled(tree, loosest):
    """The text of an expression, in brackets where its operator is looser than may stand there."""
    blank = random.choice(["", " ", "\t", "/* x */"])
    if tree[0] == "number":
        value = tree[1]
        forms = ["$%X" % value, "0x%x" % value, "0b{:b}".format(value), "%d" % value, literal(value)]
        words = {0: "false", 1: "true"}
        return random.choice(forms + [words.get(value, "0%o" % value if value else "0")])
    if len(tree) == 2:
        return tree[0] + blank + spelled(tree[1], -1)
    level = LEVEL[tree[0]]
    text = "%s %s %s" % (spelled(tree[1], level), tree[0], spelled(tree[2], level - 1))
    return "(%s%s)" % (blank, text) if level > loosest or random.random() < 0.1 else text


def id_case(text, tree):
    given = "| data 'Test' (%s) { };\n" % text
    try:
        value = value_of(tree, None)
        if not -32768 <= value <= 32767:
            raise Refused(204, value)
    except Refused as fault:
        return given + "status 2\nerr text\n| rezkit: e.r:1: error %s\n" % fault
    return given + "status 0\nleaves bytes x\n" + byte_lines(fork_of([(b"Test", value, b"", 0, b"")]))


def condition_case(text, tree):
    given = "| #if %s\n| data 'Test' (1) { };\n| #endif\n" % text
    try:
        chosen = [(b"Test", 1, b"", 0, b"")] if value_of(tree, None) else []
    except Refused:
        return given + "status 2\nerr text\n| rezkit: e.r:1: error 114 BadCondition\n"
    return given + "status 0\nleaves bytes x\n" + byte_lines(fork_of(chosen))


def expression_case(k):
    tree = some_expression(random.randrange(1, 6))
    text = spelled(tree, 99)
    case = random.choice([id_case, condition_case])
    return "case expression %d\nwords rez e.r -o x\nfile text e.r\n%s" % (k, case(text, tree))


def main():
    for k in seeded():
        sys.stdout.write(expression_case(k) + "\n")


if __name__ == "__main__":
    main()
