#!/usr/bin/env python3
"""Counts errors that are handed on by hand, and functions of many parameters, in the sources of all crates or of those named.

    python3 tools/check/handed_on.py [-v] [CRATE..]

An arm hands an error on that gives the error which it matched, under the same name, and does nothing else:
`Err(stop) => Err(stop),`, also with `return` or in a block. An arm that drops a value first is another.
A function has a parameter for each that isn't `self` or the allocator. With -v each arm and each function is listed."""
import os
import re
import sys

from top import TOP

ARM = re.compile(r"(?:Err\((\w[\w:]*)\)|(\w+::NoMemory|\w+::ReadFault)) => (?:\{\s*)?(?:return )?(Err\((?:\w+::)*[\w:()]+\))[,;\s}]")
MOST = 5


def sources(crate):
    folder = os.path.join(TOP, "crates", crate, "src")
    for name in sorted(os.listdir(folder)):
        if name.endswith(".rt"):
            yield os.path.join(folder, name)


def arms(text):
    """The lines of the arms that hand an error on."""
    for it in ARM.finditer(text):
        error, given = it.group(1), it.group(3)
        if error and given in (f"Err({error})", f"Err({error}.into())"):
            yield text.count("\n", 0, it.start()) + 1


def parameters(text, at):
    """The parameters of a function whose list begins at this place."""
    depth, word, all_words = 1, "", []
    while depth:
        char = text[at]
        if char in "([{<":
            depth += 1
        elif char in ")]}" or (char == ">" and text[at - 1] != "-"):
            depth -= 1
        if depth == 1 and char == ",":
            all_words.append(word.strip())
            word = ""
        elif depth:
            word += char
        at += 1
    all_words.append(word.strip())
    own = re.compile(r"(&(mut )?)?(mut )?self$|alloc:|$")
    return [it for it in all_words if not own.match(it)]


def main(words):
    shows = "-v" in words
    crates = [it for it in words if it != "-v"] or sorted(os.listdir(os.path.join(TOP, "crates")))
    lines = handed = wide = 0
    for crate in crates:
        for path in sources(crate):
            with open(path, encoding="utf-8") as file:
                text = file.read()
            lines += text.count("\n")
            short = os.path.relpath(path, TOP)
            for line in arms(text):
                handed += 1
                if shows:
                    print(f"{short}:{line}: an error is handed on")
            for it in re.finditer(r"\bfn (\w+)(?:<[^(]*>)?\(", text):
                count = len(parameters(text, it.end()))
                if count > MOST:
                    wide += 1
                    if shows:
                        print(f"{short}: {it.group(1)} has {count} parameters")
    print(f"{lines} lines, {handed} errors handed on ({1000 * handed / max(lines, 1):.1f} in 1,000 lines), {wide} functions of more than {MOST} parameters")


if __name__ == "__main__":
    main(sys.argv[1:])
