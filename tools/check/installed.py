#!/usr/bin/env python3
"""Looks what tools/install puts below a folder, and that it works from there.

    python3 tools/check/installed.py [PROGRAM]

PROGRAM is the one that ./rezkit runs, which tools/install has to take. It is installed twice into a folder whose name
has a blank. Then the program compiles an installed example with the installed types, the scripts that the documents
call are run, and each document, type file and example has to be there. What comes otherwise is printed, and the
status is 1.
"""
import glob
import os
import subprocess
import sys
import tempfile

from top import TOP
from files import bytes_of, write
from looks import Looks
from running import program_of

CATALOGUE = b"'MENU' 128 1 \"Qu\\0x8Ebec\";\n"
LEGIBLE = "\ufeff'MENU' 128 1\n    \"Qu\u00e9bec\";\n".encode()
MADE = ["share/bash-completion/completions/rezkit", "share/fish/vendor_completions.d/rezkit.fish", "share/man/man1/rezkit.1",
        "share/zsh/site-functions/_rezkit"]
WORKBENCH = {"workbench/rezkit-*": "bin/", "workbench/Rez": "lib/rezkit/bin/", "workbench/DeRez": "lib/rezkit/bin/"}


def run(words, folder, path=None):
    """Runs a command. Gives its status, and what it printed."""
    environment = dict(os.environ, PATH=(path + os.pathsep if path else "") + os.environ.get("PATH", os.defpath))
    ran = subprocess.run(words, cwd=folder, env=environment, stdin=subprocess.DEVNULL, stdout=subprocess.PIPE, stderr=subprocess.STDOUT)
    return ran.returncode, ran.stdout


def wanted_files():
    """The files that have to be below PREFIX, but for the scripts."""
    kinds = ("docs/*.md", "docs/*.png", "editors/**", "examples/*", "types/*.r", "workbench/rezkit_workbench/*.py", *WORKBENCH)
    paths = [path for kind in kinds for path in glob.glob(os.path.join(glob.escape(TOP), kind), recursive=True)]
    shared = ["README.md"] + [os.path.relpath(path, TOP) for path in paths if os.path.isfile(path)]
    return sorted(["bin/rezkit", *MADE, *("share/rezkit/" + path for path in shared), *links_of_workbench()])


def links_of_workbench():
    """The links to the programs of the workbench."""
    for kind, folder in WORKBENCH.items():
        for path in glob.glob(os.path.join(glob.escape(TOP), kind)):
            yield folder + os.path.basename(path)


def found_files(prefix):
    paths = (os.path.relpath(os.path.join(at, name), prefix) for at, _, names in os.walk(prefix) for name in names)
    return sorted(path for path in paths if not path.startswith("share/rezkit/tools/"))


def looks(room, prefix, program):
    """Each look: what it is of, what is wanted, and what came."""
    install, share = os.path.join(TOP, "tools", "install"), os.path.join(prefix, "share", "rezkit")
    yield "without PREFIX", (1, b"usage: tools/install PREFIX\n"), run([install], room)
    yield "an empty PREFIX", (1, b"usage: tools/install PREFIX\n"), run([install, ""], room)
    yield "installed", (0, b""), run([install, "a prefix"], room)
    yield "installed once more", (0, b""), run([install, prefix], "/")
    yield "the files", wanted_files(), found_files(prefix)
    yield "the program", bytes_of(program), bytes_of(prefix, "bin/rezkit")
    yield "the man page", b".TH REZKIT 1", bytes_of(prefix, "share/man/man1/rezkit.1")[:12]
    here = [os.path.join(prefix, "bin", "rezkit"), "rez", os.path.join(share, "examples", "App.r"), "-i", os.path.join(share, "types")]
    yield "an example", (0, b""), run([*here, "-o", "App.rsrc"], room)
    ls = os.path.join(prefix, "bin", "rezkit-ls")
    yield "rezkit-ls", (0, b"App.rsrc: resource fork, fork 779, resources 6\n"), run([ls, "App.rsrc"], room)
    write(os.path.join(room, "a.texts"), CATALOGUE)
    script = os.path.join(share, "tools", "catalog.py")
    yield "catalog.py", (0, LEGIBLE), run([sys.executable, script, "legible", "a.texts"], room)
    status, said = run([sys.executable, os.path.join(share, "tools", "share.py"), "App.rsrc"], room, os.path.join(prefix, "bin"))
    yield "share.py", (0, b"0 forks failed"), (status, said.rstrip(b"\n").split(b"\n")[-1])


def main():
    taken = Looks()
    with tempfile.TemporaryDirectory(prefix="rezkit-installed-") as room:
        for look in looks(room, os.path.join(room, "a prefix"), program_of(sys.argv[1:])):
            taken.tell(*look)
    taken.end()


if __name__ == "__main__":
    main()
