#!/usr/bin/env python3
"""Runs rezkit with values of SOURCE_DATE_EPOCH, and looks at the date that it writes, its status and what it says.

    python3 tools/check/epoch.py [PROGRAM]

PROGRAM is the one that ./rezkit runs unless another is named. A value that is the decimal of a number of seconds up
to the end of 2039 is the moment of the run: `$$Date` and `$$Time` tell it, and a file of MacBinary has it as its
dates. Any other value ends the program with status 5 before it does anything. Without the variable the date is that
of the clock. What differs is printed. The status is 1 if anything does. The quick checks run it.
"""
import datetime
import os
import subprocess
import sys
import tempfile

import top  # noqa: F401
from files import bytes_of, write, write_all
from looks import Looks
from running import program_of

NAME = "SOURCE_DATE_EPOCH"
SOURCE = b"data 'Date' (128) { $$Date $$Time };\n"
LINE = b"rezkit: SOURCE_DATE_EPOCH isn't a decimal number from 0 to 2208988799\n"

# Worked out by hand.
TOLD = {
    b"0": b"1970-01-0100:00:00", b"951827696": b"2000-02-2912:34:56", b"2147483648": b"2038-01-1903:14:08",
    b"2208988799": b"2039-12-3123:59:59",
}
REFUSED = [b"2208988800", b"4294967296", b"18446744073709551616", b"-1", b"+1", b"01", b"00", b"", b" 1", b"1 ", b"1.5",
           b"0x10", b"today", b"\xff"]


def run(program, folder, value, *args):
    """Runs the program in the folder with this value, or without one. Gives its status, and what it wrote and said."""
    environment = {**os.environb, NAME.encode(): value}
    if value is None:
        del environment[NAME.encode()]
    ran = subprocess.run([program, *args], cwd=folder, env=environment, capture_output=True)
    return ran.returncode, ran.stdout, ran.stderr


def written(program, folder, value, *options):
    """The bytes of the file that rez writes of SOURCE, or none, and its status, what it wrote and what it said."""
    ended = run(program, folder, value, "rez", "date.r", "-o", "date.out", *options)
    path = os.path.join(folder, "date.out")
    data = bytes_of(path) if os.path.exists(path) else b""
    write(path, b"")
    return data, ended


def today():
    return datetime.datetime.now(datetime.timezone.utc).strftime("%Y-%m-%d").encode()


def look(looks, program, folder):
    done, refused = (0, b"", b""), (5, b"", LINE)
    for value, date in TOLD.items():
        fork, ended = written(program, folder, value)
        looks.tell(value, (date, done), (fork[260:260 + len(date)], ended))
        file, _ = written(program, folder, value, "-form", "macbin")
        dates = 2 * (int(value) + 2082844800).to_bytes(4, "big")  # created and modified, from 1904
        looks.tell("%r: the dates of the file of MacBinary" % value, dates, file[91:99])
    for value in REFUSED:
        looks.tell(value, (b"", refused), written(program, folder, value))
        looks.tell("%r: --version" % value, refused, run(program, folder, value, "--version"))
    before = today()
    fork, ended = written(program, folder, None)
    looks.tell("without the variable", (True, done), (fork[260:270] in (before, today()), ended))


def main():
    looks = Looks()
    with tempfile.TemporaryDirectory(prefix="rezkit-epoch-") as folder:
        write_all(folder, {"date.r": SOURCE, "date.out": b""})
        look(looks, program_of(sys.argv[1:]), folder)
    looks.end("looks at values of " + NAME)


if __name__ == "__main__":
    main()
