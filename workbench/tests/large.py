#!/usr/bin/python3
"""Measures rezkit-ls over a large tree: one process against several, memory, and the same rows by GNU parallel.

    /usr/bin/python3 workbench/tests/large.py FOLDER [FILES [SSH]]

FOLDER is made, and has FILES files (100,000 unless stated) in folders of 20: the examples, and forks of them in each form.
Printed are the times of `-j 1` and `-j 4`, how many times faster the second is, and the most memory that a process took
in the first and in the last tenth of the rows. GNU parallel then makes the rows of a part of the tree, is broken off and
goes on: on this machine, by the command SSH and this machine's own address if one is named, as 'ssh -p 2222 -i KEY'. The
status is 1 if rows differ. Nothing is compared with a limit.
"""
import glob
import os
import shutil
import signal
import subprocess
import sys
import time

HERE = os.path.dirname(os.path.abspath(__file__))
TOP = os.path.dirname(os.path.dirname(HERE))
LS = os.path.join(TOP, "workbench", "rezkit-ls")
FORMS = ("raw", "single", "macbin", "hqx", "double")


def make_tree(folder, count):
    """Folders of 20 files: 14 sources of the examples and six files of the Macintosh."""
    one = os.path.join(folder, "one")
    os.makedirs(one)
    for source in sorted(glob.glob(os.path.join(TOP, "examples", "*.r")))[:13]:
        shutil.copy(source, one)
    for form in FORMS:
        name = "._Notes" if form == "double" else "ask." + form
        subprocess.run([os.path.join(TOP, "rezkit"), "rez", os.path.join(TOP, "examples", "ask.r"), "-i", os.path.join(TOP, "types"),
                        "-form", form, "-o", os.path.join(one, name)], check=True)
    for name, text in (("Notes", "Read me first.\n"), ("about.txt", "About\n")):
        with open(os.path.join(one, name), "w", encoding="ascii") as file:
            file.write(text)
    files = [(name, read(os.path.join(one, name))) for name in sorted(os.listdir(one))]
    for number in range(-(-count // len(files))):
        place = os.path.join(folder, "%03d" % (number // 100), "%02d" % (number % 100))
        os.makedirs(place)
        for name, data in files:
            with open(os.path.join(place, name), "wb") as file:
                file.write(data)
    shutil.rmtree(one)


def read(path):
    with open(path, "rb") as file:
        return file.read()


def memory_of(pid):
    """The most memory that a process and its children take now, in kB each."""
    most = 0
    for status in glob.glob("/proc/[0-9]*/status"):
        try:
            told = dict(line.split(":\t", 1) for line in read(status).decode().splitlines() if ":\t" in line)
        except (OSError, ValueError):
            continue
        if str(pid) in (told.get("Pid"), told.get("PPid")):
            most = max(most, int(told.get("VmRSS", "0").split()[0]))
    return most


def timed(folder, jobs, rows):
    """The seconds that all rows take, and the memory by how many bytes of rows there were."""
    begun, memory = time.monotonic(), []
    with open(rows, "wb") as out, subprocess.Popen([LS, "--json", "-j", str(jobs), folder], stdout=out) as running:
        while running.poll() is None:
            memory.append((os.path.getsize(rows), memory_of(running.pid)))
            time.sleep(0.5)
    taken = time.monotonic() - begun
    size = os.path.getsize(rows)
    first = max((kilobytes for place, kilobytes in memory if place < size / 10), default=0)
    last = max((kilobytes for place, kilobytes in memory if place > size * 9 / 10), default=0)
    print("-j %d: %.1f s, %d rows; memory %d kB in the first tenth, %d kB in the last"
          % (jobs, taken, read(rows).count(b"\n"), first, last), flush=True)
    return taken


def by_parallel(folder, rows, ssh):
    """The rows of a folder by GNU parallel, which is broken off once and goes on."""
    where = "--ssh '%s' -S 4/127.0.0.1 --wd '%s'" % (ssh, os.getcwd()) if ssh else "-j4"
    command = "find '%s' -type f -print0 | sort -z | parallel --will-cite -0 %s --joblog '%s.log' --resume -n 50 '%s' --json --once >> '%s'" % (
        folder, where, rows, LS, rows)
    for last in (False, True):
        with subprocess.Popen(["sh", "-c", command], start_new_session=True) as running:
            while not last and not (os.path.exists(rows) and os.path.getsize(rows)):
                time.sleep(0.2)
            if not last:
                os.killpg(running.pid, signal.SIGKILL)
    print("parallel, %s: %d pieces" % ("by ssh" if ssh else "without ssh", read(rows + ".log").count(b"\n") - 1))


def main():
    folder, count = os.path.abspath(sys.argv[1]), int(sys.argv[2]) if len(sys.argv) > 2 else 100000
    make_tree(os.path.join(folder, "tree"), count)
    os.chdir(folder)
    many = timed("tree", 4, "rows4")
    alone = timed("tree", 1, "rows1")
    print("-j 4 is %.2f times as fast as -j 1" % (alone / many))
    by_parallel("tree/000", "pieces", sys.argv[3] if len(sys.argv) > 3 else None)
    part = [line for line in read("rows1").splitlines() if line.startswith(b'{"schema":1,"path":"tree/000/')]
    same = read("rows1") == read("rows4") and sorted(set(read("pieces").splitlines())) == sorted(part)
    print("the rows are the same" if same else "ROWS DIFFER")
    return 0 if same else 1


if __name__ == "__main__":
    sys.exit(main())
