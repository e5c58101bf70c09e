#!/usr/bin/env python3
"""Looks that tools/check/links.py finds links that are wrong, and no others.

    python3 tools/check/wrong_links.py

It makes a small repository with documents whose links are right, and adds one line after the other that is wrong. What
links.py prints of each stands here by hand. What comes otherwise is printed, and the status is 1.
"""
import os
import subprocess
import sys
import tempfile

import top  # noqa: F401
from files import write_all
from looks import Looks

SCRIPT = os.path.join(os.path.dirname(os.path.abspath(__file__)), "links.py")
RIGHT = """# One page

The [other page](docs/ARCHITECTURE.md#a-heading), [this one](#one-page), [the web](https://example.org/none), a crate
[`rz_one`](crates/rz_one/src/lib.rt), `rz_one`, a call [`made`](crates/rz_one/src/lib.rt), a method
[`Kind::of`](crates/rz_one/src/lib.rt), a definition [`Made`](crates/rz_one/specs/Made.antt) in a file that has its name,
others [`is_made`](crates/rz_one/specs/Made.antt), [`Part`](crates/rz_one/specs/Made.antt) and a field
[`front`](crates/rz_one/specs/Made.antt), a script [`main`](tools/one.py), paths `tools/one.py`, `docs/ARCHITECTURE.md`,
`docs/CALLS.md` and `tools/*.none`.
"""
FILES = {
    "crates.txt": "# The crates.\nrz_one:\n",
    "README.md": RIGHT,
    "docs/ARCHITECTURE.md": "# A page\n\n## A heading\n\n| `rz_one` | the one crate |\n",
    "docs/CALLS.md": "[none](none.md)\n",
    "bench/README.md": "The [script](../tools/one.py).\n",
    "tools/README.md": "The [script](one.py).\n",
    "crates/rz_one/README.md": "The [source](src/lib.rt).\n",
    "crates/rz_one/src/lib.rt": "use other::cited;\n\npub struct Kind;\n\nimpl Kind {\n    pub fn of() -> Kind {\n        cited()\n    }\n}\n\n"
                                "pub fn made() -> Kind {\n    Kind::of()\n}\n",
    "crates/rz_one/specs/Made.antt": "use Rattle.rz_other.specs.Cited.{Cited}\n\nabbrev pub is_made : Bool → Type 0\nis_made made = Cited made\n\n"
                                     "mutual\n  pub record Part : Type 0 where\n    pub front : Bool\n",
    "tools/one.py": "import cited\n\n\ndef main():\n    cited.run()\n",
}
# Lines that are wrong, and what is printed of them.
WRONG = [
    ("[none](docs/NONE.md)", "no docs/NONE.md"),
    ("[none](docs/ARCHITECTURE.md#none)", "no heading for docs/ARCHITECTURE.md#none"),
    ("[none](#a-heading)", "no heading for #a-heading"),
    ("`rz_two`", "rz_two is no crate"),
    ("`tools/none.py`", "no tools/none.py"),
    ("`docs/none`", "no docs/none"),
    # Names that stand in the file, and aren't defined there.
    ("[`cited`](crates/rz_one/src/lib.rt)", "cited isn't defined in crates/rz_one/src/lib.rt"),
    ("[`Cited`](crates/rz_one/specs/Made.antt)", "Cited isn't defined in crates/rz_one/specs/Made.antt"),
    ("[`cited`](tools/one.py)", "cited isn't defined in tools/one.py"),
    ("[`Other::of`](crates/rz_one/src/lib.rt)", "Other::of isn't defined in crates/rz_one/src/lib.rt"),
    ("[`Kind::cited`](crates/rz_one/src/lib.rt)", "Kind::cited isn't defined in crates/rz_one/src/lib.rt"),
    # A name that is a part of one that is defined, and one that is nowhere.
    ("[`mad`](crates/rz_one/src/lib.rt)", "mad isn't defined in crates/rz_one/src/lib.rt"),
    ("[`None`](crates/rz_one/specs/Made.antt)", "None isn't defined in crates/rz_one/specs/Made.antt"),
]
# The documents but README.md. In each a link to none.md is found.
OTHERS = ["docs/ARCHITECTURE.md", "bench/README.md", "tools/README.md", "crates/rz_one/README.md"]


def told(folder):
    """What links.py prints of a repository, and its status."""
    ran = subprocess.run([sys.executable, SCRIPT, folder], stdin=subprocess.DEVNULL, stdout=subprocess.PIPE, stderr=subprocess.STDOUT)
    return ran.stdout.decode("utf-8", "replace"), ran.returncode


def main():
    looks = Looks()
    with tempfile.TemporaryDirectory(prefix="rezkit-links-") as folder:
        write_all(folder, FILES)
        tries = [("README.md", RIGHT, "", 0)] + [
            ("README.md", "%s\n%s\n" % (RIGHT, line), "README.md: %s\n" % fault, 1) for line, fault in WRONG] + [
            (name, FILES[name] + "[none](none.md)\n", "%s: no none.md\n" % name, 1) for name in OTHERS] + [
            ("crates.txt", "rz_one:\nrz_two: rz_one\n", "docs/ARCHITECTURE.md: no row of rz_two\n", 1)]
        for name, text, says, status in tries:
            write_all(folder, {**FILES, name: text})
            looks.tell(text.splitlines()[-1], ("%s5 documents, %d faults\n" % (says, status), status), told(folder))
    looks.end()


if __name__ == "__main__":
    main()
