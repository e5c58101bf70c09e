#!/usr/bin/env python3
"""Tries the wrong bodies that the gate doesn't try: the prover must refuse each.

    python3 tools/check/wrong_bodies.py            those of every crate that has a folder wrong-bodies
    python3 tools/check/wrong_bodies.py CRATE..    those of these crates
    python3 tools/check/wrong_bodies.py --check    whether all apply, and were tried once

A file `crates/CRATE/wrong-bodies/NAME.edit` is a must-fail edit: it turns the meaning of a public function. The gate
tries the edits of each folder `must-fail`, and for that it proves the crate a second time from nothing. Only the
crates that are cheapest to prove have such a folder, with one edit each. All other edits stand in folders that the
gate doesn't read, and this script tries them. Run it over a crate after a change of the crate's src/ or specs/.

The script needs `rt`, Rattle's command. It copies the crates, names the folders `must-fail` in the copy, and has
`rt must-fail` try them there, over what `rt` kept of the proofs in `out/`. So it takes about a minute for a crate
whose libraries are built (`rt lib` in the crate's folder builds them), and else as long as these take to be proved.
What is tried is told a line each. Of each edit that was refused it writes into tools/check/wrong_bodies.txt, after its
crate: its name, and the front of the sum of the crate's src/ and specs/, without the lines that are comments, and of
the edit, for which it was refused. It removes an edit that wasn't. The status is 1 if an edit isn't refused, or can't be
tried.

With --check it needs no `rt` and changes nothing. The status is 1 if an edit of wrong-bodies/ or must-fail/ doesn't
apply (the text after each `old:` stands in its file exactly once, where the pairs before it have been applied), or if
one of wrong-bodies/ isn't in tools/check/wrong_bodies.txt. Edits whose sum is another now are printed, which is
no failure.
"""
import glob
import hashlib
import os
import re
import shutil
import subprocess
import sys
import tempfile
import textwrap

from top import TOP

RECORD = os.path.join(TOP, "tools", "check", "wrong_bodies.txt")
ABOUT = "# Of each wrong body the sum for which it was last refused; tools/check/wrong_bodies.py says what is summed, and writes this file.\n"
BOUND = "\0"  # the blank between an edit and its sum, where no line may end
COMMENT = re.compile(rb"^[ \t]*(//|--).*\n?", re.MULTILINE)
TRIED = re.compile(r"must-fail (\w+/[\w.-]+\.edit): (refused, as it must be|NOT REFUSED)")


def crates_below():
    """Of each crate of crates.txt the names that it uses."""
    below = {}
    with open(os.path.join(TOP, "crates.txt"), encoding="utf-8") as file:
        for line in file:
            name, colon, uses = line.partition("#")[0].partition(":")
            if colon:
                below[name.split()[0]] = uses.split()
    return below


def with_those_below(names):
    """The crates and all that they stand on."""
    below, found, left = crates_below(), set(), list(names)
    while left:
        name = left.pop()
        if name in below and name not in found:
            found.add(name)
            left += below[name]
    return found


def linked(one, other):
    """Copies a file. Of what was proved, which rt replaces and never changes, it makes a link where it can."""
    if one.endswith(".oantt") or "/out/rlib/" in one:
        try:
            return os.link(one, other)
        except OSError:
            pass
    return shutil.copy2(one, other)


def copied(names, room):
    """Copies the crates and those below them, and names the wrong bodies of the crates so that rt reads them."""
    for name in ("crates.txt", "HANDLES"):
        shutil.copy2(os.path.join(TOP, name), room)
    needed = with_those_below(names)
    for name in crates_below():
        unread = () if name in needed else ("out",)
        shutil.copytree(f"{TOP}/crates/{name}", f"{room}/crates/{name}", copy_function=linked,
                        ignore=shutil.ignore_patterns("must-fail", *unread))
    for name in names:
        os.rename(f"{room}/crates/{name}/wrong-bodies", f"{room}/crates/{name}/must-fail")


def edits(top, folder):
    """The edits in the folders of this name below `top`: the crate, the name of the file, and its path."""
    for path in sorted(glob.glob(f"{glob.escape(top)}/crates/*/{folder}/*.edit")):
        parts = path.split("/")
        yield parts[-3], parts[-1], path


def text_of(path):
    with open(path, encoding="utf-8", newline="") as file:
        return file.read()


def flaw_of(crate, path):
    """Why an edit doesn't apply to its crate, or None."""
    inside, old, texts = "", "", {}
    for line in text_of(path).split("\n"):
        if line.startswith("file: "):
            inside = line[6:].strip()
        elif line.startswith("old: "):
            old = line[5:]
        elif line.startswith("new:"):
            whole = os.path.join(TOP, "crates", crate, inside)
            if not old or not re.match("(src|specs|proofs)/", inside) or not os.path.isfile(whole):
                return "a line 'new:' has no line 'old:' before it, or names no file of the crate"
            text = texts.get(inside) or text_of(whole)
            if text.count(old) != 1:
                return f"the text after 'old:' is in {inside} {text.count(old)} times, and not once: {old}"
            texts[inside], old = text.replace(old, line[4:].removeprefix(" ")), ""
    if not texts or old:
        return "a line 'old:' has no line 'new:' after it, or there is none"
    same = all(text == text_of(os.path.join(TOP, "crates", crate, inside)) for inside, text in texts.items())
    return "it changes nothing" if same else None


def sum_of(top, crate, path):
    """The sum of the src/ and specs/ of a crate, without the lines that are comments, and of an edit of it."""
    whole = hashlib.sha256()
    for part in ("src", "specs"):
        for folder, folders, names in os.walk(os.path.join(top, "crates", crate, part)):
            folders.sort()
            for name in sorted(names):
                with open(os.path.join(folder, name), "rb") as file:
                    code = COMMENT.sub(b"", file.read())
                whole.update(b"%s\0%s\0" % (name.encode(), hashlib.sha256(code).digest()))
    with open(path, "rb") as file:
        whole.update(file.read())
    return whole.hexdigest()[:8]


def record():
    """Of each edit that was ever refused the sum for which it was."""
    if not os.path.exists(RECORD):
        return {}
    told, crate, words = {}, "", iter(text_of(RECORD).partition("\n")[2].split())
    for word in words:
        if word.endswith(":"):
            crate = word[:-1]
        else:
            told[f"{crate}/{word}.edit"] = next(words).rstrip(",")
    return told


def write_record(sums):
    """Puts sums into the record, and leaves out edits that are no more, or have None for a sum."""
    there = {f"{crate}/{name}" for crate, name, _ in edits(TOP, "wrong-bodies")}
    told = {name: total for name, total in {**record(), **sums}.items() if total and name in there}
    pairs = {}
    for name in sorted(told):
        crate, edit = name.split("/")
        pairs.setdefault(crate, []).append(f"{edit.removesuffix('.edit')}{BOUND}{told[name]}")
    lines = [textwrap.fill(f"{crate}: {', '.join(some)}", 120, subsequent_indent="  ", break_on_hyphens=False)
             for crate, some in pairs.items()]
    with open(RECORD, "w", encoding="utf-8") as file:
        file.write(ABOUT + "\n".join(lines).replace(BOUND, " ") + "\n")


def check():
    """Looks at all edits. Gives the status."""
    told, wrong, other, count = record(), 0, 0, 0
    for folder in ("must-fail", "wrong-bodies"):
        for crate, name, path in edits(TOP, folder):
            count += 1
            flaw = flaw_of(crate, path)
            if not flaw and folder == "wrong-bodies" and f"{crate}/{name}" not in told:
                flaw = f"it was never refused: run `python3 tools/check/wrong_bodies.py {crate}`"
            if flaw:
                wrong += 1
                print(f"crates/{crate}/{folder}/{name}: {flaw}")
            elif folder == "wrong-bodies" and told[f"{crate}/{name}"] != sum_of(TOP, crate, path):
                other += 1
                print(f"crates/{crate}/{folder}/{name}: its crate or the edit has changed since it was refused")
    print(f"{count} edits, {wrong} wrong, {other} refused for what the crate was before")
    return 1 if wrong else 0


def try_in(room, names):
    """Has `rt` try the edits of these crates in the copy, and prints what it says. Gives its status, and of each edit that
    was tried the sum if it was refused, and else None."""
    sums = {f"{crate}/{name}": sum_of(room, crate, path) for crate, name, path in edits(room, "must-fail")}
    with subprocess.Popen(["rt", "must-fail", *names], cwd=room, stdin=subprocess.DEVNULL, stdout=subprocess.PIPE,
                          stderr=subprocess.STDOUT, encoding="utf-8", errors="replace") as ran:
        lines = []
        for line in ran.stdout:
            print(line, end="", flush=True)
            lines.append(line)
    tried = [found.groups() for found in map(TRIED.search, lines) if found]
    return ran.returncode, {name: sums.get(name) if says.startswith("refused") else None for name, says in tried}


def main(names):
    if names == ["--check"]:
        return check()
    every = sorted({crate for crate, _, _ in edits(TOP, "wrong-bodies")})
    lacking = [name for name in names if name not in every]
    if lacking:
        sys.exit(f"no crate with a folder wrong-bodies: {lacking[0]}; there are {', '.join(every)}")
    if not shutil.which("rt"):
        sys.exit("rt, Rattle's command, is not on the path")
    names = names or every
    with tempfile.TemporaryDirectory(prefix="wrong-bodies-") as room:
        copied(names, room)
        status, sums = try_in(room, names)
    write_record(sums)
    if status < 0:
        print("rt was ended by signal %d, so nothing is known of the edits that it didn't tell" % -status)
    return 1 if status else 0


if __name__ == "__main__":
    sys.exit(main(sys.argv[1:]))
