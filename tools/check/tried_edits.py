#!/usr/bin/env python3
"""Looks that tools/check/wrong_bodies.py finds edits that don't apply or weren't tried, and writes down which were
refused.

    python3 tools/check/tried_edits.py

It makes a small repository of one crate with a few edits, and a command `rt` that refuses all edits but those whose
names begin with `proved`. What tools/check/wrong_bodies.py prints there stands here by hand. What comes otherwise is
printed, and the status is 1.
"""
import os
import shutil
import subprocess
import sys
import tempfile

import top  # noqa: F401
from files import write, write_all
from looks import Looks

SCRIPT = os.path.join(os.path.dirname(os.path.abspath(__file__)), "wrong_bodies.py")
RT = """#!/bin/sh
for path in crates/one/must-fail/*.edit; do
    name=${path##*/}
    case $name in
    proved*) echo "rt: must-fail one/$name: NOT REFUSED: the crate is still proved with this edit" ;;
    *) echo "rt: must-fail one/$name: refused, as it must be" ;;
    esac
done
"""
FILES = {
    "crates.txt": "one:\n", "HANDLES": "Handles allowed: none.\n",
    "crates/one/src/lib.rt": "fn a() -> u8 {\n    1 + 1\n}\n",
    "crates/one/specs/Lib.antt": "a\n",
    "crates/one/wrong-bodies/good.edit": "file: src/lib.rt\nold: fn a() -> u8 {\nnew: fn a() -> u8 { 0 } fn b() -> u8 {\n",
    "crates/one/wrong-bodies/pairs.edit": "file: src/lib.rt\nold: 1 + 1\nnew: 2 + 3\nold: 2 +\nnew: 3 +\n",
    "crates/one/wrong-bodies/proved.edit": "file: src/lib.rt\nold: u8\nnew: u16\n",
}
NEVER = "crates/one/wrong-bodies/%s.edit: it was never refused: run `python3 tools/check/wrong_bodies.py one`\n"
CHANGED = "crates/one/wrong-bodies/%s.edit: its crate or the edit has changed since it was refused\n"
SUMS = "%d edits, %d wrong, %d refused for what the crate was before\n"
# Edits that don't apply: the folder, the text, and why.
WRONG = [
    ("must-fail", "file: src/lib.rt\nold: 1\nnew: 2\n", "the text after 'old:' is in src/lib.rt 2 times, and not once: 1"),
    ("wrong-bodies", "file: src/lib.rt\nold: c\nnew: 2\n", "the text after 'old:' is in src/lib.rt 0 times, and not once: c"),
    ("wrong-bodies", "file: src/lib.rt\nold: 1 + 1\nnew: 4\nold: 1 + 1\nnew: 5\n",
     "the text after 'old:' is in src/lib.rt 0 times, and not once: 1 + 1"),
    ("must-fail", "file: src/none.rt\nold: a\nnew: b\n", "a line 'new:' has no line 'old:' before it, or names no file of the crate"),
    ("must-fail", "file: ../one/src/lib.rt\nold: a\nnew: b\n",
     "a line 'new:' has no line 'old:' before it, or names no file of the crate"),
    ("must-fail", "file: src/lib.rt\nnew: b\n", "a line 'new:' has no line 'old:' before it, or names no file of the crate"),
    ("must-fail", "file: src/lib.rt\nold: a()\n", "a line 'old:' has no line 'new:' after it, or there is none"),
    ("must-fail", "", "a line 'old:' has no line 'new:' after it, or there is none"),
    ("must-fail", "file: src/lib.rt\nold: 1 + 1\nnew: 1 + 1\n", "it changes nothing"),
]


class Repository(Looks):
    """The small repository, and how many looks came out otherwise."""

    def __init__(self, room):
        super().__init__()
        self.room = room
        write(os.path.join(room, "bin/rt"), RT, 0o755)
        write_all(room, FILES)
        os.makedirs(os.path.join(room, "tools", "check"))
        for script in (SCRIPT, os.path.join(os.path.dirname(SCRIPT), "top.py")):
            shutil.copy2(script, os.path.join(room, "tools", "check"))

    def write(self, name, text):
        write(os.path.join(self.room, name), text)

    def look(self, says, words, out, status):
        """Runs the script with these words: what it has to print, and the status."""
        path = os.path.join(self.room, "bin") + os.pathsep + os.environ.get("PATH", os.defpath)
        ran = subprocess.run([sys.executable, "tools/check/wrong_bodies.py", *words], cwd=self.room,
                             env=dict(os.environ, PATH=path), stdin=subprocess.DEVNULL, stdout=subprocess.PIPE,
                             stderr=subprocess.STDOUT)
        self.tell(says, (out, status), (ran.stdout.decode("utf-8", "replace"), ran.returncode))


def looks(it):
    said = "rt: must-fail one/%s.edit: %s\n"
    refused, proved = "refused, as it must be", "NOT REFUSED: the crate is still proved with this edit"
    it.look("none was tried", ["--check"], NEVER % "good" + NEVER % "pairs" + NEVER % "proved" + SUMS % (3, 3, 0), 1)
    it.look("a crate that isn't there", ["two"], "no crate with a folder wrong-bodies: two; there are one\n", 1)
    it.look("all are tried", [], said % ("good", refused) + said % ("pairs", refused) + said % ("proved", proved), 0)
    it.look("one was proved", ["--check"], NEVER % "proved" + SUMS % (3, 1, 0), 1)
    os.remove(os.path.join(it.room, "crates/one/wrong-bodies/proved.edit"))
    it.look("all were refused", ["--check"], SUMS % (2, 0, 0), 0)
    it.write("crates/one/specs/Lib.antt", "-- of it\na\n")
    it.write("crates/one/src/lib.rt", "/// It.\n" + FILES["crates/one/src/lib.rt"].replace("    1", "    // here\n    1"))
    it.look("comments came", ["--check"], SUMS % (2, 0, 0), 0)
    it.write("crates/one/src/lib.rt", FILES["crates/one/src/lib.rt"])
    it.write("crates/one/specs/Lib.antt", "b\n")
    it.look("the crate has changed", ["--check"], CHANGED % "good" + CHANGED % "pairs" + SUMS % (2, 0, 2), 0)
    it.write("crates/one/specs/Lib.antt", "a\n")
    it.write("crates/one/wrong-bodies/good.edit", FILES["crates/one/wrong-bodies/good.edit"].replace("0", "9"))
    it.look("an edit has changed", ["--check"], CHANGED % "good" + SUMS % (2, 0, 1), 0)
    os.rename(os.path.join(it.room, "crates/one/wrong-bodies/good.edit"), os.path.join(it.room, "crates/one/wrong-bodies/proved.edit"))
    it.look("tried once more", ["one"], said % ("pairs", refused) + said % ("proved", proved), 0)
    it.look("one is no more", ["--check"], NEVER % "proved" + SUMS % (2, 1, 0), 1)
    os.remove(os.path.join(it.room, "crates/one/wrong-bodies/proved.edit"))
    for folder, text, why in WRONG:
        it.write("crates/one/%s/a.edit" % folder, text)
        it.look(text, ["--check"], "crates/one/%s/a.edit: %s\n" % (folder, why) + SUMS % (2, 1, 0), 1)
        os.remove(os.path.join(it.room, "crates/one/%s/a.edit" % folder))


def main():
    with tempfile.TemporaryDirectory(prefix="rezkit-edits-") as room:
        repository = Repository(room)
        looks(repository)
    repository.end()


if __name__ == "__main__":
    main()
