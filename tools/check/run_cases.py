#!/usr/bin/env python3
"""Runs cases of crates/rezkit_cases as processes of the host, and compares what each run leaves, byte for byte.

    python3 tools/check/run_cases.py [--program PROGRAM] [FILE..]

PROGRAM is the one that ./rezkit runs unless another is named, and each FILE is a case file; without one, all files of
crates/rezkit_cases/data are meant, which have to have as many cases as crates/rezkit_cases/stdout says. Each case is
run in a folder of its own that has the files of the case, at its moment (SOURCE_DATE_EPOCH), as many side by side as
there are cores. Its status, every file that is there after the run, standard output and standard error must be those
of the case. A case that is wrong on purpose must differ in the places that it names, and in no others.

Some cases can't be shown by a host: a call that fails, a room that is too small, a sweep, a file whose name no file
can have, a word that no process can get, a moment that SOURCE_DATE_EPOCH can't say. What a case asks for decides
this, never what comes. They are counted apart, with the reason, and must be at most 300.

Of a case that differs each place is shown, with the first byte that differs. The last line is `N passed, N failed`,
with `, N skipped` for the cases that were counted apart. The status is 1 if a case differs or a case file can't be
read.
"""
import argparse
import collections
import concurrent.futures
import functools
import glob
import os
import re
import shutil
import subprocess
import sys
import tempfile

from top import TOP
from files import found_in, text_of, write_all
from model.case_reader import Malformed, read_cases
from running import program_to_run

CASES = os.path.join(TOP, "crates", "rezkit_cases")
AMPLE = {"folder": (100, 1000000), "out": (1000000,), "err": (100000,)}
LAST_MOMENT = 2208988799
MOST_APART = 300
MOST_SHOWN = 20
SECONDS = 60
TOGETHER = 20  # so many cases are handed to a process at once


def can_be_a_file(name):
    """Whether a file of this name can stand in a folder of the case's own."""
    parts = name.split("/")
    return ("\0" not in name and not any(part in ("", ".", "..") for part in parts)
            and all(len(os.fsencode(part)) <= 255 for part in parts) and len(os.fsencode(name)) < 1024)


def apart(case):
    """Why no host can show a case, or None."""
    names = [*case.files, *(name for name, data in case.left.items() if data is not None)]
    if case.sweep:
        return "a sweep, whose calls fail in turn"
    if case.fail:
        return "a call that fails"
    if any(number < ample for target, numbers in case.room.items() for number, ample in zip(numbers, AMPLE[target])):
        return "a room that is too small"
    if not 0 <= (case.moment or 0) <= LAST_MOMENT:
        return "a moment that SOURCE_DATE_EPOCH can't say"
    if any("\0" in word for word in case.words):
        return "a word that no process can get"
    folders = {name[:at.start()] for name in names for at in re.finditer("/", name)}
    if not all(can_be_a_file(name) and name not in folders for name in names):
        return "a file whose name no file can have"
    return None


def write_files(folder, case):
    """Puts the files of a case into a folder, and makes the folders of those that the run writes. Gives all folders."""
    folders = set()
    for name in [*case.files, *case.left]:
        at = os.path.dirname(name)
        if at and can_be_a_file(name):
            os.makedirs(os.path.join(folder, at), exist_ok=True)
            folders.update(at[:end] for end, byte in enumerate(at + "/") if byte == "/")
    write_all(folder, case.files)
    return folders


def differences(program, case, folder):
    """Runs a case in an empty folder. Gives the places that differ: the place, what is expected, and what is found."""
    folders = write_files(folder, case)
    env = {"PATH": os.environ.get("PATH", os.defpath), "SOURCE_DATE_EPOCH": str(case.moment or 0)}
    try:
        ran = subprocess.run([program, *map(os.fsencode, case.words)], cwd=folder, env=env, stdin=subprocess.DEVNULL,
                             stdout=subprocess.PIPE, stderr=subprocess.PIPE, timeout=SECONDS)
    except subprocess.TimeoutExpired:
        return [("status", case.status, "no end in %d seconds" % SECONDS)]
    wanted, found = {**dict.fromkeys(folders), **case.wanted()}, found_in(folder)
    places = [("status", case.status, ran.returncode)]
    places += [("file " + name, wanted.get(name, "no file"), found.get(name, "no file")) for name in sorted({*wanted, *found})]
    places += [("out", case.out or b"", ran.stdout), ("err", case.err or b"", ran.stderr)]
    return [place for place in places if place[1] != place[2]]


def shown_part(data, at):
    """Sixteen bytes from a place on, as digits and as text."""
    if not isinstance(data, bytes):
        return "a folder" if data is None else str(data)
    part = data[at:at + 16]
    text = "".join(chr(byte) if 32 <= byte < 127 else "." for byte in part)
    return "%-48s %s" % (" ".join("%02X" % byte for byte in part), text) if part else "(it ends here)"


def told(place, expected, found):
    """The lines that tell of a place that differs."""
    names = {"out": "standard output", "err": "standard error", "status": "the status"}
    name = names.get(place) or "the file %s" % ascii(place[5:])
    at, where = 0, ""
    if isinstance(expected, bytes) and isinstance(found, bytes):
        pairs = zip(expected, found)
        at = next((k for k, (one, other) in enumerate(pairs) if one != other), min(len(expected), len(found)))
        where = " at byte %d (expected are %d bytes, found were %d)" % (at, len(expected), len(found))
    return ["  %s differs%s" % (name, where), "    expected " + shown_part(expected, at), "    found    " + shown_part(found, at)]


def run_case(program, case, folder):
    """Runs a case. Gives the lines that tell how it differs; none if it doesn't."""
    os.mkdir(folder)
    try:
        found = differences(program, case, folder)
    finally:
        shutil.rmtree(folder, ignore_errors=True)
    lines = [line for place in found if place[0] not in case.wrong for line in told(*place)]
    places = [place[0] for place in found]
    return lines + ["  %s is wrong on purpose, and doesn't differ" % place for place in case.wrong if place not in places]


def run_part(program, room, part):
    """Runs the cases of a part of a case file: (path, number of the first line, number of cases, text)."""
    path, first, count, text = part
    try:
        cases = read_cases(text, first)
    except Malformed as fault:
        return [(None, ["%s: %s" % (path, fault)])] * max(1, count)
    results = []
    for case in cases:
        reason = apart(case)
        lines = [] if reason else run_case(program, case, os.path.join(room, "%s-%d" % (os.path.basename(path), case.line)))
        head = "%s:%d: %s" % (path, case.line, case.name)
        command = "  rezkit " + " ".join(map(ascii, case.words))
        results.append((reason, [head, command, *lines] if lines else []))
    return results


def parts_of(path):
    """A case file cut into parts of a few cases each."""
    with open(path, encoding="utf-8", newline="\n") as file:
        lines = file.read().split("\n")
    starts = [number for number, line in enumerate(lines) if line.split(" ")[0] == "case"]
    cuts = [0, *starts[TOGETHER::TOGETHER], len(lines)]
    for one, other in zip(cuts, cuts[1:]):
        yield path, one + 1, sum(one <= start < other for start in starts), "\n".join(lines[one:other])


def stated_count():
    """How many cases there have to be."""
    return int(re.search(r"^(\d+) cases, 0 differ$", text_of(CASES, "stdout"), re.M)[1])


def all_results(program, files):
    """What comes of each case of the files, and of each file that can't be read."""
    results, parts = [], []
    for path in files:
        try:
            parts += parts_of(path)
        except (OSError, ValueError) as fault:
            results.append((None, ["%s can't be read: %s" % (path, fault)]))
    with tempfile.TemporaryDirectory(prefix="rezkit-cases-") as room:
        with concurrent.futures.ProcessPoolExecutor(len(os.sched_getaffinity(0))) as pool:
            for some in pool.map(functools.partial(run_part, program, room), parts):
                results += some
    return results


def run_files(program, files=()):
    """Runs the cases of case files, or all, and prints what differs. Gives how many passed, failed and were counted apart."""
    paths = list(files) or sorted(glob.glob(os.path.join(glob.escape(CASES), "data", "*.cases")))
    results = all_results(os.path.abspath(program), paths)
    failed = [lines for _, lines in results if lines]
    reasons = collections.Counter(reason for reason, _ in results if reason)
    if not files and len(results) != stated_count():
        failed.append(["there are %d cases, and crates/rezkit_cases/stdout says %d" % (len(results), stated_count())])
    if sum(reasons.values()) > MOST_APART:
        failed.append(["more than %d cases are counted apart" % MOST_APART])
    if not results:
        failed.append(["there are no cases"])
    for lines in failed[:MOST_SHOWN]:
        print("\n".join(lines).replace(TOP + os.sep, ""))
    if failed[MOST_SHOWN:]:
        print("and %d more cases differ" % len(failed[MOST_SHOWN:]))
    for reason, count in sorted(reasons.items()):
        print("can't be shown by a host: %d cases with %s" % (count, reason))
    passed = sum(not reason and not lines for reason, lines in results)
    return passed, len(failed), sum(reasons.values())


def last_line(passed, failed, skipped):
    """The line that ends all tests."""
    return "%d passed, %d failed%s" % (passed, failed, ", %d skipped" % skipped if skipped else "")


def main():
    parser = argparse.ArgumentParser(description="Runs cases of crates/rezkit_cases as processes.", allow_abbrev=False)
    parser.add_argument("--program", help="the program (the one that ./rezkit runs unless stated)")
    parser.add_argument("files", nargs="*", metavar="FILE", help="case files (all unless stated)")
    given = parser.parse_args()
    counts = run_files(given.program or program_to_run(), given.files)
    print(last_line(*counts))
    return 1 if counts[1] else 0


if __name__ == "__main__":
    sys.exit(main())
