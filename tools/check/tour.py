#!/usr/bin/env python3
"""Runs the commands that the documents for people show, and compares what they print with what stands there.

    python3 tools/check/tour.py [--write] [PROGRAM]

In the code blocks of WALKS a line that begins with `$ ` is a command, lines that begin with `> ` right after it go on
with it, and what follows, up to the next command or the end of the block, is its output. The commands of the
documents of one walk are run in their order, by `sh`, in a folder of their own that has `examples`, `types`, `tools`,
`workbench` and, as `./rezkit`, the built program (the one that ./rezkit runs unless another is named). A command is
skipped if it names a tool of TOOLS that isn't installed, or a program of MODULES whose module isn't; and so is a
later one of the document if it prints something else, since it may lack what the skipped one makes. What differs is
printed, and with `--write` put into the document. The examples of the man page (tools/help.py) are run too: each has
to end with the status 0 and to print what EXAMPLES_PRINT says. The status is 1 if anything differs. The quick checks
run it.
"""
import functools
import os
import re
import shutil
import subprocess
import sys
import tempfile

from top import TOP
from help import EXAMPLES
from running import program_of

WALKS = (
    ("README.md", "docs/TOUR.md"), ("docs/MESSAGES.md",), ("docs/DAMAGED.md",), ("docs/TEMPLATES.md",),
    ("docs/TYPES.md",), ("docs/TRANSLATING.md",), ("docs/PORTING.md",), ("docs/ARCHIVING.md",), ("docs/LOOKING.md",),
)
MODULES = (("workbench/rezkit-po", "polib"), ("workbench/rezkit-look", "PIL"), ("workbench/rezkit-icons", "PIL"))
PYTHON = "/usr/bin/python3"
TOOLS = ("cpp", "git", "hformat", "hmount", "make", "msgmerge", "parallel", "sqlite3", "unar", "xxd")
# Files that the examples of the man page begin with, by a command that makes them, and what an example prints.
EXAMPLE_FILES = """cp examples/App.r App.r && cp examples/patch.r Changes.r && mkdir Includes
rezkit rez App.r -i types -form hqx -o Old.hqx && echo '#define kTitle "Old"' > Includes/Title.r
printf '#include "Types.r"\n#include "Title.r"\nresource '"'WIND'"' (128) ' > Port.r
echo '{ {40, 20, 240, 420}, documentProc, visible, goAway, 0, kTitle };' >> Port.r"""
EXAMPLES_PRINT = {"rezkit det Old.hqx": ["broken 0"], "rezkit list Old.hqx": """form hqx
name "Old.hqx"
type 'APPL'
creator '????'
flags 0x0000
data 0
fork 779
'vers' (1, purgeable) 21
'MENU' (128) 29
'ALRT' (128) 14
'DITL' (128) 18
'STR#' (128) 11
'ICN#' (128) 256
resources 6""".split("\n")}


def parts_of(text):
    """The lines of a document, cut into the text and the commands: (lines, None), or (command, lines of its output)."""
    parts, inside, tour = [([], None)], False, False
    for line in text.split("\n"):
        if line.startswith("```"):
            inside, tour = not inside, False
        if inside and line.startswith("$ "):
            parts.append(([line], []))
            tour = True
        elif not tour:
            if parts[-1][1] is not None:
                parts.append(([], None))
            parts[-1][0].append(line)
        elif line.startswith("> ") and not parts[-1][1]:
            parts[-1][0].append(line)
        else:
            parts[-1][1].append(line)
    return parts


def text_of(parts):
    return "\n".join("\n".join(head + (output or [])) for head, output in parts if head)


def missing_tool(command):
    """A tool that a command needs and that isn't there, or None."""
    words = re.findall(r"[\w./-]+", command)
    module = next((module for program, module in MODULES if program in words and not has_module(module)), None)
    return module or next((tool for tool in TOOLS if tool in words and not shutil.which(tool)), None)


@functools.lru_cache(maxsize=None)
def has_module(name):
    """Whether the Python of the workbench has a module."""
    return subprocess.run([PYTHON, "-c", "import " + name], stderr=subprocess.DEVNULL).returncode == 0


def missing_tools():
    """The tools that aren't installed, as the end of a line; nothing if all are."""
    missing = [tool for tool in TOOLS if not shutil.which(tool)]
    return ", for there is no %s" % " and no ".join(missing) if missing else ""


def printed(command, folder):
    """What a command prints, as lines, and anything after the last line end as a line that no document has."""
    ran = subprocess.run(["sh", "-c", command], cwd=folder, stdout=subprocess.PIPE, stderr=subprocess.STDOUT)
    lines = ran.stdout.decode("utf-8", "replace").split("\n")
    return lines[:-1] if not lines[-1] else lines[:-1] + [lines[-1] + " (without a line end)"]


def walk_document(document, folder, write):
    """Runs the commands of a document in the folder; gives how many there are, how many differ, how many are skipped."""
    path = os.path.join(TOP, document)
    with open(path, encoding="utf-8") as file:
        parts = parts_of(file.read())
    count = wrong = skipped = 0
    absent = None  # a tool for which a command of this document was skipped, so that later ones may lack what it makes
    for head, output in parts:
        if output is None:
            continue
        count += 1
        command = "\n".join(line[2:] for line in head)
        tool = missing_tool(command)
        if tool:
            absent = tool
            skipped += 1
            print("%s: skipped, for there is no %s: %s" % (document, tool, head[0]))
            continue
        came = printed(command, folder)
        if came != output and absent:
            skipped += 1
            print("%s: skipped, since there is no %s for a command before it: %s" % (document, absent, head[0]))
        elif came != output:
            wrong += 1
            print("%s\n%s\n--- the document\n%s\n--- the program\n%s" % (document, "\n".join(head), "\n".join(output), "\n".join(came)))
            output[:] = came
    if write and wrong:
        with open(path, "w", encoding="utf-8") as file:
            file.write(text_of(parts))
    return count, wrong, skipped


def walk(documents, program, write):
    """The same of all documents of a walk, in one folder."""
    with tempfile.TemporaryDirectory(prefix="rezkit-tour-") as folder:
        for name in ("examples", "types", "tools", "workbench"):
            os.symlink(os.path.join(TOP, name), os.path.join(folder, name))
        os.symlink(program, os.path.join(folder, "rezkit"))
        return [sum(column) for column in zip(*(walk_document(document, folder, write) for document in documents))]


def walk_examples(program):
    """Runs the examples of the man page in a folder of their own; gives the same numbers as walk."""
    commands = [command.replace("TYPES", "types") for _, commands in EXAMPLES for command in commands]
    wrong = 0
    with tempfile.TemporaryDirectory(prefix="rezkit-tour-") as folder:
        os.mkdir(os.path.join(folder, "bin"))
        os.symlink(program, os.path.join(folder, "bin", "rezkit"))
        for name in ("examples", "types"):
            os.symlink(os.path.join(TOP, name), os.path.join(folder, name))
        for command in (EXAMPLE_FILES, *commands):
            came = printed('PATH="$PWD/bin:$PATH"; set -e; %s' % command + '\necho "status $?"', folder)
            if came != EXAMPLES_PRINT.get(command, []) + ["status 0"]:
                wrong += 1
                print("the man page\n%s\n--- the program\n%s" % (command, "\n".join(came)))
    return len(commands), wrong, 0


def main():
    arguments = [argument for argument in sys.argv[1:] if argument != "--write"]
    program = program_of(arguments)
    with tempfile.TemporaryDirectory(prefix="rezkit-home-") as home:
        os.environ["HOME"] = home  # some tools keep files there
        sums = [walk(documents, program, "--write" in sys.argv[1:]) for documents in WALKS] + [walk_examples(program)]
    count, wrong, skipped = (sum(column) for column in zip(*sums))
    print("%d commands, %d print something else, %d skipped%s" % (count, wrong, skipped, missing_tools()))
    sys.exit(1 if wrong else 0)


if __name__ == "__main__":
    main()
