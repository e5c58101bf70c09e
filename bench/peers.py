#!/usr/bin/env python3
"""Measures a program beside other tools on the same files, in one run.

usage: bench/peers.py [-n RUNS] [-before PROGRAM] [PROGRAM]

PROGRAM is crates/rezkit/out/rezkit, or else prebuilt/rezkit, unless another is named. Each kind of file is made once, in
memory where the machine has a disk there (/dev/shm), and given in turn to the program, to the other tool and, where
`-before` names one, to an older program: so many times (nine), one after the other. Counted is the least user time of
each; of files in a form the least processor time, user and system, and the most memory. Printed are these seconds and
what the program takes for each second of the other tool. Where `valgrind` is on the machine, and `-before` names an
older program, the instructions of both are counted too, on sources a tenth as long. A file that the program writes is
compared with what it must have: of hexadecimal texts with what `xxd -r -p` writes, of sources with their length, of
forms with the fork that went into them, and of sources with what the older program writes. The status is 1 where one
differs, 2 where a word is no option.
"""

import filecmp
import os
import random
import resource
import shutil
import subprocess
import sys
import tempfile

from bench import MB, write_hex, write_small, write_values
from shown import fork_of

SEED = 1984
LENGTH = 20 * MB
TOP = os.path.dirname(os.path.dirname(os.path.abspath(__file__)))


def digits_of(folder):
    """Writes the digits of the hexadecimal texts of main.r alone, a line for each, and gives the file's name."""
    with open(os.path.join(folder, "main.r")) as source, open(os.path.join(folder, "digits"), "w") as digits:
        digits.writelines(line[6:-2] + "\n" for line in source if line.startswith('    $"'))
    return "digits"


# of each kind how its source is made, and the other tool's command on it
KINDS = {
    "hexadecimal": (write_hex, lambda folder: ["xxd", "-r", "-p", digits_of(folder)]),
    "small data": (write_small, lambda folder: ["cpp", "-P", "main.r"]),
    "values": (write_values, lambda folder: ["cpp", "-P", "main.r"]),
}


# of each form: the file that is read, the form that is written, and the other tool's command, which reads that file or its
# input
FORMS = {
    "BinHex read": ("main.hqx", "raw", ["hexbin", "-r", "main.hqx"], None),
    "BinHex write": ("main.rsrc", "hqx", ["binhex", "-r", "main.rsrc"], None),
    "MacBinary read": ("main.bin", "raw", ["macsave", "-r"], "main.bin"),
    "MacBinary write": ("main.rsrc", "macbin", ["macstream", "-r", "main.rsrc"], None),
}
FORK_LENGTH = 16 * MB


def user_seconds(words, folder, out):
    """Runs a command in the folder, its output in a file of that name, and gives its user time."""
    with open(os.path.join(folder, out), "wb") as file:
        before = resource.getrusage(resource.RUSAGE_CHILDREN).ru_utime
        subprocess.run(words, cwd=folder, stdout=file, check=True)
        return resource.getrusage(resource.RUSAGE_CHILDREN).ru_utime - before


def taken_by(words, folder, given):
    """Runs a command in the folder, with a file of it as its input, and gives its processor time and peak memory in MB.

    It is forked by hand: the memory of a child of `subprocess` begins with the most that this script ever had."""
    process = os.fork()
    if process == 0:
        os.chdir(folder)
        for place, name, way in ((0, given or os.devnull, os.O_RDONLY), (1, "out", os.O_WRONLY | os.O_CREAT | os.O_TRUNC)):
            os.dup2(os.open(name, way), place)
        os.execvp(words[0], words)
    _, status, used = os.wait4(process, 0)
    if status != 0:
        raise subprocess.CalledProcessError(status, words)
    return used.ru_utime + used.ru_stime, used.ru_maxrss / 1000


def instructions(words, folder):
    """The instructions that a command takes, as valgrind counts them."""
    counted = subprocess.run(
        ["valgrind", "--tool=callgrind", "--callgrind-out-file=/dev/null", *words],
        cwd=folder, stdout=subprocess.DEVNULL, stderr=subprocess.PIPE, check=True, text=True)
    return int(next(line for line in counted.stderr.splitlines() if "Collected" in line).split(":")[1])


def rez(program, out):
    return [program, "rez", "main.r", "-o", out]


def contents(folder, name):
    with open(os.path.join(folder, name), "rb") as file:
        return file.read()


def data_of(fork):
    """The bytes of the resources of a fork that rezkit wrote, one after the other."""
    place, end, data = 256, 256 + int.from_bytes(fork[8:12], "big"), []
    while place < end:
        size = int.from_bytes(fork[place : place + 4], "big")
        data.append(fork[place + 4 : place + 4 + size])
        place += 4 + size
    return b"".join(data)


def measure(kind, program, before, runs):
    """Prints the line of a kind, and gives whether what was written is right."""
    make, other = KINDS[kind]
    folder = tempfile.mkdtemp(prefix="rezkit-peers-", dir="/dev/shm" if os.path.isdir("/dev/shm") else None)
    try:
        length = make(folder, random.Random(SEED), LENGTH)
        commands = {"program": rez(program, "new.rsrc"), "other": other(folder)}
        if before:
            commands["before"] = rez(before, "old.rsrc")
        if not shutil.which(commands["other"][0]):
            del commands["other"]
        least = {}
        for _ in range(runs):
            for name, words in commands.items():
                taken = user_seconds(words, folder, name + ".out")
                least[name] = min(taken, least.get(name, taken))
        line = "%-12s %.3f s" % (kind, least["program"])
        if "other" in least:
            line += "   %s %.3f s: %.2f" % (" ".join(commands["other"][:-1]), least["other"], least["program"] / least["other"])
        if before:
            line += "   before %.3f s: %.2f" % (least["before"], least["program"] / least["before"])
        fork = contents(folder, "new.rsrc")
        is_right = len(fork) == length
        if kind == "hexadecimal" and "other" in least:
            is_right = is_right and data_of(fork) == contents(folder, "other.out")
        if before:
            is_right = is_right and fork == contents(folder, "old.rsrc")
        if before and shutil.which("valgrind"):
            make(folder, random.Random(SEED), LENGTH // 10)
            line += "   instructions %.2f" % (
                instructions(commands["program"], folder) / instructions(commands["before"], folder))
        print(line if is_right else line + "   WRONG", flush=True)
        return is_right
    finally:
        shutil.rmtree(folder)


def form_files(folder, program):
    """Makes a fork of random bytes in the folder, and the same in both forms."""
    with open(os.path.join(folder, "main.rsrc"), "wb") as file:
        file.write(fork_of([(b"Big ", 0, b"", 0, random.Random(SEED).randbytes(FORK_LENGTH))]))
    for form, name in (("hqx", "main.hqx"), ("macbin", "main.bin")):
        subprocess.run([program, "bridge", "main.rsrc", "-to", form, "-o", name], cwd=folder, check=True)


def is_same(folder, name, other):
    return filecmp.cmp(os.path.join(folder, name), os.path.join(folder, other), shallow=False)


def holds_fork(program, folder, name):
    """Whether a file in a form holds the fork."""
    subprocess.run([program, "bridge", name, "-to", "raw", "-o", "back"], cwd=folder, check=True)
    return is_same(folder, "back", "main.rsrc")


def measure_forms(program, before, runs):
    """Prints a line for each form, and gives whether what was written is right."""
    folder = tempfile.mkdtemp(prefix="rezkit-peers-", dir="/dev/shm" if os.path.isdir("/dev/shm") else None)
    try:
        form_files(folder, program)
        all_right = True
        for kind, (name, form, other, given) in FORMS.items():
            bridged = lambda tool, out: [tool, "bridge", name, "-to", form, "-o", out]
            commands = {"program": (bridged(program, "new"), None)}
            if shutil.which(other[0]):
                commands["other"] = (other, given)
            if before:
                commands["before"] = (bridged(before, "old"), None)
            least = {}
            for _ in range(runs):
                for who, (words, given_to) in commands.items():
                    seconds, megabytes = taken_by(words, folder, given_to)
                    was = least.get(who, (seconds, 0))
                    least[who] = min(seconds, was[0]), max(megabytes, was[1])
            line = "%-15s %.3f s %.1f MB" % (kind, *least["program"])
            for who, tool in (("other", other[0]), ("before", "before")):
                if who in least:
                    line += "   %s %.3f s %.1f MB: %.2f" % (tool, *least[who], least["program"][0] / least[who][0])
            is_right = all(holds_fork(program, folder, out) for out in ("new", "old")[: 2 if before else 1])
            print(line if is_right else line + "   WRONG", flush=True)
            all_right = all_right and is_right
        return all_right
    finally:
        shutil.rmtree(folder)


def main(words):
    runs, before, program = 9, None, None
    words = list(words)
    while words:
        word = words.pop(0)
        if word == "-n" and words and words[0].isdigit():
            runs = int(words.pop(0))
        elif word == "-before" and words:
            before = os.path.abspath(words.pop(0))
        elif program is None and not word.startswith("-"):
            program = os.path.abspath(word)
        else:
            print(__doc__.split("\n\n")[1], file=sys.stderr)
            return 2
    if program is None:
        built = os.path.join(TOP, "crates", "rezkit", "out", "rezkit")
        program = built if os.path.exists(built) else os.path.join(TOP, "prebuilt", "rezkit")
    are_right = [measure_forms(program, before, runs)] + [measure(kind, program, before, runs) for kind in KINDS]
    return 0 if all(are_right) else 1


if __name__ == "__main__":
    sys.exit(main(sys.argv[1:]))
