#!/usr/bin/env python3
"""Writes what the laws of docs/PROOFS.md say: after the name of each, its comment in the source.

    python3 tools/laws.py            writes docs/PROOFS.md
    python3 tools/laws.py --check    says whether docs/PROOFS.md is what would be written now

In the sections SECTIONS each line of a list tells a law, and has the form `- `NAME`: ..`, but for those of `inverse`, a
clause of the headline. The law is one of the crates that the last line names which is links to crates alone, and a
colon. Which laws stand there is chosen by hand. The names in the table after TABLE are laws of the crates of their
row. The status is 1 if a heading isn't there, a line of a list has another form or a crate has no such law, and with
--check if a text is another.
"""
import os
import re
import sys

import calls

PAGE = os.path.join("docs", "PROOFS.md")
SECTIONS = ("## The inverse", "## Laws")
TABLE = "## Exactly one answer"
CRATES = re.compile(r"(\[`\w+`\]\(\.\./crates/\w+/src/\w+\.rt\)(, |:$))+")
LISTED = re.compile(r" *[-*+] ")


def laws_of(crate):
    """The comments of a crate's laws by their names, each without the words that say that it is a law."""
    found = {}
    for module, seen in calls.exported(crate).items():
        lines = calls.text_of("crates/%s/src/%s.rt" % (crate, module)).split("\n")
        for law in calls.calls_in(crate, module, seen, set()):
            if calls.is_law(law):
                place = next(number for number, line in enumerate(lines) if re.match(r"pub fn %s\b" % law.name, line))
                found[law.name] = said(calls.comment_above(lines, place))
    return found


def said(comment):
    """What a comment says, on one line: its first paragraph, without links and without what it is after."""
    end = next((number for number, line in enumerate(comment) if not line.strip()), len(comment))
    text = " ".join(line.strip() for line in comment[:end]).replace(" (MPW Rez.)", "")
    return re.sub(r"\[(`[^`]*`)\](\([^)]*\))?", r"\1", text[len(calls.LAW):] if text.startswith(calls.LAW) else text)


def wrong_in(row):
    """The names in a row of the table that are no laws of its crates."""
    crates = [name for name in re.findall(r"`(rz_\w+)`", row.split("|")[1])]
    laws = {name for crate in crates for name in laws_of(crate)}
    named = re.findall(r"`(\w+)`", row.split("|")[2])
    return ["%s is no law of %s" % (name, ", ".join(crates)) for name in named if name not in laws]


def written(text):
    """The page with the comments of today, how many laws it tells, and what is wrong with it."""
    lines, laws, count, section = [], {}, 0, ""
    wrong = ["no heading %s" % head for head in (*SECTIONS, TABLE) if head not in text.split("\n")]
    for line in text.split("\n"):
        if line.startswith("## "):
            section, laws = line, {}
        if section == TABLE and line.startswith("|") and "`" in line:
            wrong += wrong_in(line)
        if section in SECTIONS and CRATES.fullmatch(line):
            laws = {name: says for crate in re.findall(r"crates/(\w+)/", line) for name, says in laws_of(crate).items()}
        if section in SECTIONS and LISTED.match(line) and not line.startswith("- `inverse`:"):
            law = re.match(r"- `(\w+)`:(?= |$)", line)
            if law and law[1] in laws:
                line = "%s %s" % (law[0], laws[law[1]])
                count += 1
            else:
                wrong.append("no law of the crates named before it: %s" % line[:60])
        lines.append(line)
    return "\n".join(lines), count, wrong


def main(words):
    if words not in ([], ["--check"]):
        sys.exit(__doc__)
    os.chdir(calls.TOP)
    before = calls.text_of(PAGE)
    after, count, wrong = written(before)
    for fault in wrong:
        print("%s: %s" % (PAGE, fault))
    if words:
        if after != before:
            print("%s has other texts than the comments of its laws: run python3 tools/laws.py" % PAGE)
        print("%d laws, %d bytes" % (count, len(after.encode("utf-8"))))
        return 1 if wrong or after != before else 0
    with open(PAGE, "w", encoding="utf-8") as file:
        file.write(after)
    return 1 if wrong else 0


if __name__ == "__main__":
    sys.exit(main(sys.argv[1:]))
