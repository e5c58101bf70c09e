#!/usr/bin/env python3
"""Looks whether the documents name what is there.

    python3 tools/check/links.py [FOLDER]

FOLDER is the top of this repository unless another is named. In README.md, docs/, bench/, tools/ and the READMEs of
crates, each link that isn't one of the web leads to a file or folder of the repository, and its part after `#` is a
heading of that file. A link that is a name in code quotes and leads to a source or a script leads to the definition:
the file defines the name, and doesn't merely cite it, or the name is that of the file or of its crate. Each word that
begins with `rz_` or `rezkit_` in code quotes, and is no file's or call's name, is a crate of crates.txt. Each path in
code quotes that begins with one of the folders in PATH is there. Each crate of crates.txt stands in the table of
docs/ARCHITECTURE.md. What is wrong is printed, and the status is 1 if anything is. wrong_links.py tests this script.
"""
import glob
import os
import re
import sys

from top import TOP
from files import text_of

LINK = re.compile(r"\[([^\]]*)\]\(([^)\s]+)\)")
CRATE = re.compile(r"(?<![\w/.])(rz_[a-z_]+|rezkit_[a-z_]+)(?![\w(])")
NAME = re.compile(r"`((?:\w+::)?\w+)`")
PATH = re.compile(r"`((?:tools|bench|docs|workbench|types|examples|editors)/[\w./-]+)`")
CALLS = "docs/CALLS.md"  # tools/calls.py writes it, and tests its own links

# How a file of each kind defines a name: with `%s` for it, at the begin of a line.
DEFINITIONS = {
    ".antt": (r" *(?:(?:pub|abbrev|unfoldable|mutual|record|data|infixl) +)+%s(?= *[:({]| *$)", r" *(?:pub +)?%s *:"),
    ".rt": (r" *(?:pub(?:\(crate\))? +)?(?:const +)?(?:fn|struct|enum|trait|type|mod|const|static) +%s\b",),
    ".py": (r" *(?:def|class) +%s\b", r"%s *="),
}
# The types, traits and blocks of a source in which a call `Type::call` stands.
OWNER = r"(?m)^(?:(?:pub +)?(?:struct|enum|trait|type) +|impl\b.*\b)%s\b"


def anchors_of(text):
    """The anchors of a document's headings, as GitHub makes them."""
    found = set()
    for line in re.sub(r"(?ms)^```.*?^```", "", text).split("\n"):
        head = re.match(r"#+ (.*)$", line)
        if head:
            words = re.sub(r"[^\w\- ]", "", head[1].strip().lower())
            found.add(words.replace(" ", "-"))
    return found


def crates():
    return [line.split(":")[0] for line in text_of("crates.txt").split("\n") if ":" in line and not line.startswith("#")]


def defines(path, name):
    """Whether a file defines a name, or has it itself."""
    stem, kind = os.path.splitext(os.path.basename(path))
    if name == stem or path.startswith("crates/%s/" % name):
        return True
    owner, _, last = name.rpartition("::")
    text = text_of(path)
    found = any(re.search("(?m)^" + form % re.escape(last), text) for form in DEFINITIONS[kind])
    return found and (not owner or re.search(OWNER % re.escape(owner), text) is not None)


def fault_of(document, shown, target):
    """What is wrong with a link of a document, or None."""
    file, _, anchor = target.partition("#")
    path = os.path.normpath(os.path.join(os.path.dirname(document), file)) if file else document
    if not os.path.exists(path):
        return "no %s" % target
    if anchor and path.endswith(".md") and anchor not in anchors_of(text_of(path)):
        return "no heading for %s" % target
    name = NAME.fullmatch(shown)
    if name and os.path.splitext(path)[1] in DEFINITIONS and not defines(path, name[1]):
        return "%s isn't defined in %s" % (name[1], target)
    return None


def documents():
    kinds = ("README.md", "docs/*.md", "bench/*.md", "tools/*.md", "crates/*/README.md")
    return [path for kind in kinds for path in sorted(glob.glob(kind)) if path != CALLS]


def main(words):
    os.chdir(words[0] if words else TOP)
    names, wrong = set(crates()), []
    for document in documents():
        text = text_of(document)
        for shown, target in LINK.findall(text):
            fault = None if re.match(r"\w+://|mailto:", target) else fault_of(document, shown, target)
            wrong += ["%s: %s" % (document, fault)] * bool(fault)
        wrong += ["%s: no %s" % (document, path) for path in PATH.findall(text) if path != CALLS and not os.path.exists(path)]
        wrong += ["%s: %s is no crate" % (document, name) for name in CRATE.findall(text) if name not in names]
    table = text_of("docs/ARCHITECTURE.md")
    wrong += ["docs/ARCHITECTURE.md: no row of %s" % it for it in crates() if "| `%s` |" % it not in table]
    for line in wrong:
        print(line)
    print("%d documents, %d faults" % (len(documents()), len(wrong)))
    return 1 if wrong else 0


if __name__ == "__main__":
    sys.exit(main(sys.argv[1:]))
