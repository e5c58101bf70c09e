#!/usr/bin/env python3
"""Writes the bytes of resource forks into case files, by the layout of docs/FORMATS.md alone.

    python3 tools/cases/fork_bytes.py [--check] crates/rezkit_cases/data/*.cases

In a case file, comment lines before a content name what its fork holds, and the content is written anew:

    # fork 'Test' 128 "name" 20 = 0102    a resource: type, id, name, attribute byte, bytes
    # fork 'Test' 129                     one with no name, attributes 0 and no bytes
    # fork                                no resources
    # length 308                          the fork is cut, or filled with zeros, to so many bytes
    # put 15 2E                           bytes from an offset on are changed

The lines after them that begin with a bar are replaced. With --check nothing is written, and the status is 1 where a
file would change.
"""
import sys

import top  # noqa: F401
from model.case_lines import lines_of
from model.fork import fork_of, resource_of, spelled


def rewritten(lines):
    """The lines of a case file with the contents of its forks written anew."""
    out, at = [], 0
    while at < len(lines):
        line = lines[at]
        out.append(line)
        at += 1
        if line != "# fork" and not line.startswith("# fork "):
            continue
        resources = [] if line == "# fork" else [resource_of(line)]
        while at < len(lines) and lines[at].startswith("# fork "):
            resources.append(resource_of(lines[at]))
            out.append(lines[at])
            at += 1
        content = fork_of(resources)
        while at < len(lines) and lines[at].startswith(("# length ", "# put ")):
            word, *rest = lines[at][2:].split(" ", 2)
            if word == "length":
                content = content[:int(rest[0])].ljust(int(rest[0]), b"\0")
            else:
                put = spelled(rest[1])
                content = content[:int(rest[0])] + put + content[int(rest[0]) + len(put):]
            out.append(lines[at])
            at += 1
        while at < len(lines) and lines[at].startswith("|"):
            at += 1
        out += lines_of(content)
    return out


def main():
    names = [name for name in sys.argv[1:] if name != "--check"]
    changed = False
    for name in names:
        with open(name, encoding="utf-8") as file:
            before = file.read()
        after = "".join(line + "\n" for line in rewritten(before.splitlines()))
        changed = changed or after != before
        if "--check" not in sys.argv and after != before:
            with open(name, "w", encoding="utf-8") as file:
                file.write(after)
    sys.exit(1 if changed and "--check" in sys.argv else 0)


if __name__ == "__main__":
    main()
