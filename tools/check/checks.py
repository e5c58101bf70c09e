#!/usr/bin/env python3
"""The repository's own quick checks, which ./test runs after the cases.

    python3 tools/check/checks.py

The files of cases that a script writes are what it would write now, and a second reading shows what they show; the
documents name what is there, and wrong links are found; the laws of docs/PROOFS.md are those of the sources; what
each public call promises can be written, and only those that docs/PROOFS.md names promise nothing; docs/MESSAGES.md
has each message; the help text describes each option; the edits of wrong-bodies/ and must-fail/ apply, and
tools/check/wrong_bodies.py finds those that don't. With the program that ./rezkit runs: ./test finds programs that are
wrong; ./rezkit tells why it runs no program; tools/install installs it; the commands that README.md, docs/TOUR.md,
docs/MESSAGES.md, docs/DAMAGED.md, docs/TEMPLATES.md, docs/TYPES.md, docs/TRANSLATING.md, docs/PORTING.md,
docs/ARCHIVING.md and docs/LOOKING.md show print what stands there; SOURCE_DATE_EPOCH is the moment of a run; odd
words, names and limits of the host are met; editors/ has each word of the language and shows sources and errors as it
should. With the case runner that `rt ci` built, broken or failing case files are reported. Without `rt` that check is
skipped, as is any check whose program isn't there, and the line of the check says so.

The tests of the workbench are run by pytest, a file of them as one check, with the Python that sees Debian's
packages. Where pytest or a module that the tests need is missing, the line says so, and the tests are skipped.

The checks run side by side, as many as there are cores. The last line is `quick checks: N passed, N failed, N skipped`.
A check is one, but of the workbench each test. The status is 1 if one fails.
"""
import concurrent.futures
import glob
import os
import re
import subprocess
import sys
import tempfile

from top import TOP

HARNESS = os.path.join("crates", "rezkit_cases", "out", "rezkit_cases")
PARTS = 8  # into so many checks the one of all cases is cut
LONGEST = ("workbench/tests/test_look_many.py", "workbench/tests/test_many.py", "workbench/tests/test_ls.py",
           "tools/check/shown_texts.py (part 8 of 8)", "workbench/tests/test_po.py")  # they are begun first
PYTEST = ("/usr/bin/python3", "-m", "pytest", "-q", "-p", "no:cacheprovider")


def checks(program):
    """Each check: its name, its command, and the file that it needs, or None."""
    found = []
    cases = sorted(glob.glob("crates/rezkit_cases/data/*.cases"), key=os.path.getsize, reverse=True)
    for part in range(PARTS):
        name = "tools/check/shown_texts.py (part %d of %d)" % (part + 1, PARTS)
        found.append((name, ["tools/check/shown_texts.py", *cases[part::PARTS]], None))
    for name in ("tour", "epoch", "edge", "editors", "first_answer", "wrong_programs", "installed"):
        found.append(("tools/check/%s.py" % name, ["tools/check/%s.py" % name, program], program))
    scripts = sorted(glob.glob("tools/cases/*_cases.py"))
    found += [(script, ["tools/cases/make.py", "--check", os.path.basename(script)[:-len("_cases.py")]], None)
              for script in scripts]
    found.append(("tools/cases/fork_bytes.py", ["tools/cases/fork_bytes.py", "--check", *sorted(cases)], None))
    for script in ("tools/calls.py", "tools/laws.py", "tools/help.py", "tools/check/wrong_bodies.py"):
        found.append((script, [script, "--check"], None))
    for name in ("links", "wrong_links", "messages", "tried_edits"):
        found.append(("tools/check/%s.py" % name, ["tools/check/%s.py" % name], None))
    found.append(("tools/check/harness.py", ["tools/check/harness.py"], HARNESS))
    for file in sorted(glob.glob("workbench/tests/test_*.py")):
        found.append((file, [*PYTEST, file], program))
    return sorted(found, key=lambda check: check[0] not in LONGEST)


def outcome(check):
    """Runs a check. Gives its line, and how many passed, failed and were skipped."""
    name, command, needed = check
    if needed is not None and not os.path.exists(needed):
        return "%s: skipped, for there is no %s" % (name, needed or "program that ./rezkit can run"), (0, 0, 1)
    if name.startswith("workbench/"):
        return outcome_of_tests(name, command)
    ran = subprocess.run([sys.executable, *command], stdin=subprocess.DEVNULL, stdout=subprocess.PIPE, stderr=subprocess.STDOUT)
    if ran.returncode:
        return "%s: FAILED\n%s" % (name, ran.stdout.decode("utf-8", "replace")), (0, 1, 0)
    last = ran.stdout.decode("utf-8", "replace").strip().split("\n")[-1]
    return "%s: ok%s" % (name, ", " + last if last else ""), (1, 0, 0)


def outcome_of_tests(name, command):
    """Runs a file of tests by pytest, in a folder of its own. Gives the same as outcome."""
    if subprocess.run([PYTEST[0], "-c", "import pytest"], stderr=subprocess.DEVNULL).returncode:
        return "%s: skipped, for %s has no pytest (Debian: python3-pytest)" % (name, PYTEST[0]), (0, 0, 1)
    with tempfile.TemporaryDirectory(prefix="rezkit-tests-") as folder:
        ran = subprocess.run([*command, "--basetemp=" + os.path.join(folder, "tests")], stdin=subprocess.DEVNULL,
                             stdout=subprocess.PIPE, stderr=subprocess.STDOUT)
    said = ran.stdout.decode("utf-8", "replace").strip()
    counts = {word: int(number) for number, word in re.findall(r"(\d+) (passed|failed|error|skipped)", said.split("\n")[-1])}
    passed, failed = counts.get("passed", 0), counts.get("failed", 0) + counts.get("error", 0)
    # A file whose module is missing has no test that runs: pytest ends with 5 then.
    if failed or ran.returncode not in (0, 5):
        return "%s: FAILED\n%s" % (name, said), (passed, max(failed, 1), counts.get("skipped", 0))
    return "%s: ok, %s" % (name, said.split("\n")[-1]), (passed, 0, counts.get("skipped", 0))


def program_or_none():
    """The program that ./rezkit runs, or an empty name. tools/program says why there is none."""
    ran = subprocess.run(["/bin/sh", os.path.join(TOP, "tools", "program")], stdin=subprocess.DEVNULL, stdout=subprocess.PIPE)
    return "" if ran.returncode else os.fsdecode(ran.stdout).rstrip("\n")


def run_checks(program):
    """Runs all checks and prints a line for each. Gives how many passed, failed and were skipped."""
    os.chdir(TOP)
    ends = []
    with concurrent.futures.ThreadPoolExecutor(len(os.sched_getaffinity(0))) as pool:
        for line, counts in pool.map(outcome, checks(program)):
            print(line, flush=True)
            ends.append(counts)
    return tuple(sum(column) for column in zip(*ends))


def main():
    os.chdir(TOP)
    counts = run_checks(program_or_none())
    print("quick checks: %d passed, %d failed, %d skipped" % counts)
    return 1 if counts[1] else 0


if __name__ == "__main__":
    sys.exit(main())
