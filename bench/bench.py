#!/usr/bin/env python3
"""Measures the built program on sources and forks of 1, 4 and 16 MB (of 1,000,000 bytes each).

usage: bench/bench.py [PROGRAM [SEED]]

The sources and forks are made from the seed in a folder of their own, which is removed at the end. Each
kind is run at each size; the length of each result is compared with the one worked out here, from the
layout of a resource fork and the form of the shown text. Each is run five times;
counted are the least time, since whatever else the machine does only adds to it, and the most memory.
Printed are the bytes read, the seconds, MB/s, the peak memory in MB and for each byte read, and how much of
both the next size takes in place of the one before. Where `cpp` and `xxd` are on the machine, the 16 MB of
the two longest kinds of source are given to `cpp -P`, and the digits of the hexadecimal one to `xxd -r -p`.
The status is 1 where a length is wrong, or where from 4 to 16 MB more than five times the time or
the memory is taken, or where a source of hexadecimal texts takes more than 12 bytes for each of its own,
or where 16 MB of rows take more than twice the time of the same bytes as `data`, with a string for each value.
"""

import os
import random
import shutil
import struct
import subprocess
import sys
import tempfile
import time

MB = 1_000_000
SIZES = (1, 4, 16)
MOST_GROWTH = 5.0
MOST_HEX_BYTES = 12.0
MOST_TIMES_DATA = 2.0
RUNS = 5


def hex_line(rng, count):
    """A hexadecimal text of so many bytes."""
    return '    $"%s"\n' % rng.randbytes(count).hex().upper()


def fork_length(resources, names=()):
    """The length of the fork of these resources: a map from (type, id) to the number of their bytes."""
    kinds = {kind for kind, _ in resources}
    area = sum(4 + size for size in resources.values())
    return 256 + area + 28 + 2 + 8 * len(kinds) + 12 * len(resources) + sum(1 + len(name) for name in names)


def write_hex(folder, rng, size):
    """`data` statements of 16,000 bytes each, in lines of 16 bytes."""
    resources, made = {}, 0
    with open(os.path.join(folder, "main.r"), "w") as source:
        while made < size:
            number = len(resources)
            lines = "".join(hex_line(rng, 16) for _ in range(1000))
            made += source.write("data 'Hexa' (%d) {\n%s};\n" % (number, lines))
            resources["Hexa", number] = 16_000
    return fork_length(resources)


def write_small(folder, rng, size):
    """Statements of a few bytes on 5,000 ids; a later one takes the place of an earlier one."""
    resources, made, number = {}, 0, 0
    with open(os.path.join(folder, "main.r"), "w") as source:
        while made < size:
            count = rng.randrange(4)
            text = '$"%s"' % rng.randbytes(count).hex()
            made += source.write("data 'Smal' (%d) { %s };\n" % (number % 5000, text))
            resources["Smal", number % 5000] = count
            number += 1
    return fork_length(resources)


def write_macros(folder, rng, size):
    """Macros of macros, defined and undefined again, and conditionals around each statement."""
    resources, made, number = {}, 0, 0
    with open(os.path.join(folder, "main.r"), "w") as source:
        made += source.write("#define open {\n#define close } ;\n#define both open bytes close\n")
        while made < size:
            count = rng.randrange(1, 9)
            made += source.write(
                "#define bytes $\"%s\"\n"
                "#define level%d (%d)\n"
                "#if defined(level%d) && %d %% 2 == %d\n"
                "data 'Macr' level%d both\n"
                "#elif rez\n"
                "data 5;\n"
                "#endif\n"
                "#undef level%d\n"
                % (rng.randbytes(count).hex(), number, number % 4000, number, number, number % 2, number, number)
            )
            resources["Macr", number % 4000] = count
            number += 1
    return fork_length(resources)


def write_includes(folder, rng, size):
    """Files of about 2,000 bytes; the source includes those with even numbers, and each of them the next."""
    resources, made, number = {}, 0, 0
    with open(os.path.join(folder, "main.r"), "w") as source:
        while made < size:
            name = "part%d.r" % number
            if number % 2 == 0:
                made += source.write('#include "%s"\n' % name)
            with open(os.path.join(folder, name), "w") as part:
                if number % 2 == 0:
                    made += part.write('#include "part%d.r"\n' % (number + 1))
                lines = "".join(hex_line(rng, 16) for _ in range(48))
                made += part.write("data 'Incl' (%d) {\n%s};\n" % (number % 5000, lines))
                resources["Incl", number % 5000] = 48 * 16
            number += 1
        if number % 2 == 1:
            with open(os.path.join(folder, "part%d.r" % number), "w") as part:
                made += part.write("// the last\n")
    return fork_length(resources)


def write_names(folder, rng, size):
    """2,700 `data` statements with names of 1 to 22 bytes and attributes."""
    count = 2700
    resources, names = {}, []
    with open(os.path.join(folder, "main.r"), "w") as source:
        for number in range(count):
            name = "n" * rng.randrange(1, 23)
            head = "data 'Name' (%d, \"%s\", purgeable, locked) {\n" % (number - 1350, name)
            lines = max(1, (size // count - len(head)) // len(hex_line(rng, 16)))
            source.write(head + "".join(hex_line(rng, 16) for _ in range(lines)) + "};\n")
            resources["Name", number] = 16 * lines
            names.append(name)
    return fork_length(resources, names)


def write_types(folder, rng, size):
    """A thousand declarations of types, with fields and symbols."""
    count = 1000
    field = "    integer zero, one, minus = -1, hundred = 10 * 10;\n    hex string [%d];\n    point = { 1, 2 };\n"
    with open(os.path.join(folder, "main.r"), "w") as source:
        for number in range(count):
            fields = [field % rng.randrange(1000) for _ in range(max(1, size // count // len(field)))]
            source.write("type 't%03d' (%d) {\n%s};\n" % (number, number, "".join(fields)))
    return fork_length({})


def write_values(folder, rng, size):
    """`resource` statements of a number and a string on 5,000 ids; a later one takes the place of an earlier one."""
    resources, made, number = {}, 0, 0
    with open(os.path.join(folder, "main.r"), "w") as source:
        made += source.write("type 'Valu' { integer zero, one, ten = 10; pstring; align word; };\n")
        while made < size:
            text = "x" * rng.randrange(4)
            value = rng.choice(("zero", "ten", "%d" % rng.randrange(65536)))
            made += source.write("resource 'Valu' (%d) { %s, \"%s\" };\n" % (number % 5000, value, text))
            resources["Valu", number % 5000] = 2 + (1 + len(text) + 1) // 2 * 2
            number += 1
    return fork_length(resources)


def write_items(folder, rng, size):
    """One type of many fields, and one `resource` statement with an item for each."""
    count = size // len("byte;\n100,\n")
    with open(os.path.join(folder, "main.r"), "w") as source:
        source.write("type 'Item' {\n" + "byte;\n" * count + "};\nresource 'Item' (0) {\n")
        source.writelines("%d,\n" % rng.randrange(100, 256) for _ in range(count))
        source.write("};\n")
    return fork_length({("Item", 0): count})


def write_rows(folder, rng, size):
    """One array, each row of a number and a string of three bytes, counted by a number before it."""
    count = size // len('100, "abc";\n')
    with open(os.path.join(folder, "main.r"), "w") as source:
        source.write("type 'Rows' { longint = $$CountOf(All); array All { byte; pstring; }; };\nresource 'Rows' (0) { {\n")
        source.writelines('%d, "abc";\n' % rng.randrange(100, 256) for _ in range(count))
        source.write("} };\n")
    return fork_length({("Rows", 0): 4 + 5 * count})


def write_rows_data(folder, rng, size):
    """The bytes of `write_rows` as `data`, with a string for each value."""
    count = size // len('100, "abc";\n')
    with open(os.path.join(folder, "main.r"), "w") as source:
        source.write("data 'Rows' (0) {\n$\"%08X\"\n" % count)
        source.writelines('$"%02X" "\\0x03abc"\n' % rng.randrange(100, 256) for _ in range(count))
        source.write("};\n")
    return fork_length({("Rows", 0): 4 + 5 * count})


def write_inner(folder, rng, size):
    """An array of arrays of ten numbers each, every one counted before it."""
    count = size // (len("{ };\n") + 10 * len("100, "))
    with open(os.path.join(folder, "main.r"), "w") as source:
        source.write(
            "type 'Rows' { longint = $$CountOf(All); array All { byte = $$CountOf(Inner); array Inner { byte; }; }; };\n"
            "resource 'Rows' (0) { {\n"
        )
        for _ in range(count):
            source.write("{ %s };\n" % ", ".join("%d" % rng.randrange(100, 256) for _ in range(10)))
        source.write("} };\n")
    return fork_length({("Rows", 0): 4 + 11 * count})


def write_inner_data(folder, rng, size):
    """The bytes of `write_inner` as `data`, with a string for each value."""
    count = size // (len("{ };\n") + 10 * len("100, "))
    with open(os.path.join(folder, "main.r"), "w") as source:
        source.write("data 'Rows' (0) {\n$\"%08X\"\n" % count)
        for _ in range(count):
            source.write('$"0A" %s\n' % " ".join('$"%02X"' % rng.randrange(100, 256) for _ in range(10)))
        source.write("};\n")
    return fork_length({("Rows", 0): 4 + 11 * count})


def write_sizes(folder, rng, size):
    """One array, each row of a string whose size is read from a number before the array."""
    count = size // len('"abc";\n')
    with open(os.path.join(folder, "main.r"), "w") as source:
        source.write("type 'Size' { n: integer; array { string[$$Word(n)]; }; };\nresource 'Size' (0) { 5, {\n")
        source.writelines('"%s";\n' % rng.choice(("abc", "def", "xyz")) for _ in range(count))
        source.write("} };\n")
    return fork_length({("Size", 0): 2 + 5 * count})


def write_late(folder, rng, size):
    """One array, each row of two numbers and the place of a label behind the array."""
    count = size // len("100, 100;\n")
    with open(os.path.join(folder, "main.r"), "w") as source:
        source.write("type 'Late' { array { longint = e; byte; byte; }; e: };\nresource 'Late' (0) { {\n")
        source.writelines("%d, %d;\n" % (rng.randrange(100, 256), rng.randrange(100, 256)) for _ in range(count))
        source.write("} };\n")
    return fork_length({("Late", 0): 6 * count})


def write_indexes(folder, rng, size):
    """Two arrays: each row of the second has the place of a label in a row of the first, the last one first."""
    count = size // len("100,\n100,\n")
    with open(os.path.join(folder, "main.r"), "w") as source:
        source.write("type 'Indx' { array Parts { part: byte; }; array All { longint = part[$$CountOf(All) + 1 - $$ArrayIndex(All)]; byte; }; };\n")
        source.write("resource 'Indx' (0) { {\n")
        source.writelines("%d,\n" % rng.randrange(100, 256) for _ in range(count))
        source.write("}, {\n")
        source.writelines("%d,\n" % rng.randrange(100, 256) for _ in range(count))
        source.write("} };\n")
    return fork_length({("Indx", 0): 6 * count})


def write_fork(folder, rng, size):
    """A fork of 4,000 resources in 500 types. Gives the length of its text."""
    count, kinds = 4000, 500
    each = (size - 256 - 30 - 8 * kinds - 12 * count) // count - 4
    area, references, text = bytearray(), [[] for _ in range(kinds)], 0
    for number in range(count):
        place = len(area)
        area += struct.pack(">I", each) + rng.randbytes(each)
        references[number % kinds].append((number // kinds, place))
        text += len("data 'k%03d' (%d) {\n" % (number % kinds, number // kinds)) + len("};\n\n")
        full, rest = divmod(each, 16)
        text += full * len('    $"0001 0203 0405 0607 0809 0A0B 0C0D 0E0F"\n')
        if rest:
            text += len('    $""\n') + 2 * rest + (rest - 1) // 2
    entries, lists = bytearray(), bytearray()
    for number, members in enumerate(references):
        at = 2 + 8 * kinds + len(lists)
        entries += b"k%03d" % number + struct.pack(">HH", len(members) - 1, at)
        for name, place in members:
            lists += struct.pack(">hHII", name, 0xFFFF, place, 0)
    end = 28 + 2 + len(entries) + len(lists)
    header = struct.pack(">IIII", 256, 256 + len(area), len(area), end)
    with open(os.path.join(folder, "main"), "wb") as fork:
        fork.write(header + bytes(240) + area + header + bytes(8) + struct.pack(">HH", 28, end))
        fork.write(struct.pack(">H", kinds - 1) + entries + lists)
    return text


def run(program, folder, words):
    """The seconds, the peak memory in bytes, and the status of a run in a folder."""
    start = time.monotonic()
    child = os.fork()
    if child == 0:
        os.chdir(folder)
        out = os.open("out", os.O_WRONLY | os.O_CREAT | os.O_TRUNC)
        os.dup2(out, 1)
        os.execv(program, [program] + words)
    _, status, usage = os.wait4(child, 0)
    return time.monotonic() - start, usage.ru_maxrss * 1024, os.waitstatus_to_exitcode(status)


def least_time(words, folder, given):
    """The least seconds of the runs of another program, which reads a file and writes nowhere."""
    seconds = float("inf")
    for _ in range(RUNS):
        with open(os.path.join(folder, given), "rb") as source, open(os.devnull, "wb") as sink:
            start = time.monotonic()
            subprocess.run(words, stdin=source, stdout=sink, check=True)
            seconds = min(seconds, time.monotonic() - start)
    return seconds


def compare(rng_of):
    """What other programs take for the same sources: `cpp -P` to read them, and `xxd -r -p` to turn hex digits."""
    for kind, make in (("hex", write_hex), ("small", write_small)):
        folder = tempfile.mkdtemp(prefix="rezkit-bench-")
        try:
            make(folder, rng_of(), SIZES[-1] * MB)
            if shutil.which("cpp"):
                print("%-9s %5d   cpp -P      %8.2f" % (kind, SIZES[-1], least_time(["cpp", "-P"], folder, "main.r")))
            if kind == "hex" and shutil.which("xxd"):
                with open(os.path.join(folder, "main.r")) as source, open(os.path.join(folder, "digits"), "w") as digits:
                    digits.writelines(line[6:-2] + "\n" for line in source if line.startswith('    $"'))
                print("%-9s %5d   xxd -r -p   %8.2f" % (kind, SIZES[-1], least_time(["xxd", "-r", "-p"], folder, "digits")))
        finally:
            shutil.rmtree(folder)


def bytes_in(folder):
    """The bytes of all files of a folder."""
    return sum(entry.stat().st_size for entry in os.scandir(folder))


def measure(program, rng, kind, make, size):
    """The bytes read, the least seconds and the peak memory of the runs, and whether each result has its length."""
    folder = tempfile.mkdtemp(prefix="rezkit-bench-")
    try:
        wanted = make(folder, rng, size * MB)
        read = bytes_in(folder)
        seconds, memory, right = float("inf"), 0, True
        for _ in range(RUNS):
            if kind == "fork":
                words, name = ["derez", "main"], "out"
            else:
                words, name = ["rez", "main.r", "-o", "fork"], "fork"
            took, peak, status = run(program, folder, words)
            made = os.path.join(folder, name)
            found = os.path.getsize(made) if os.path.exists(made) else -1
            if status != 0 or found != wanted:
                print("%s: status %d, %d bytes and not %d" % (kind, status, found, wanted))
                right = False
            seconds, memory = min(seconds, took), max(memory, peak)
        return read, seconds, memory, right
    finally:
        shutil.rmtree(folder)


def main():
    here = os.path.dirname(os.path.abspath(__file__))
    built = os.path.join(here, "..", "crates", "rezkit", "out", "rezkit")
    program = os.path.abspath(sys.argv[1] if len(sys.argv) > 1 else built)
    seed = int(sys.argv[2]) if len(sys.argv) > 2 else 1984
    kinds = (
        ("hex", write_hex),
        ("small", write_small),
        ("macros", write_macros),
        ("includes", write_includes),
        ("names", write_names),
        ("types", write_types),
        ("values", write_values),
        ("items", write_items),
        ("rows", write_rows),
        ("rowsdata", write_rows_data),
        ("inner", write_inner),
        ("innerdata", write_inner_data),
        ("sizes", write_sizes),
        ("late", write_late),
        ("indexes", write_indexes),
        ("fork", write_fork),
    )
    print("%s, seed %d, %d cores" % (program, seed, os.cpu_count()))
    print("%-9s %5s %10s %8s %7s %8s %7s %12s" % ("kind", "MB", "bytes", "seconds", "MB/s", "peak MB", "/byte", "growth"))
    good = True
    took = {}
    for kind, make in kinds:
        before = None
        for size in SIZES:
            read, seconds, memory, right = measure(program, random.Random(seed), kind, make, size)
            growth = "" if before is None else "%.1f %.1f" % (seconds / before[0], memory / before[1])
            print(
                "%-9s %5d %10d %8.2f %7.1f %8.1f %7.1f %12s"
                % (kind, size, read, seconds, read / MB / seconds, memory / MB, memory / read, growth)
            )
            good = good and right
            if size == SIZES[-1]:
                good = good and max(seconds / before[0], memory / before[1]) <= MOST_GROWTH
                good = good and (kind != "hex" or memory / read <= MOST_HEX_BYTES)
            before = (seconds, memory)
        took[kind] = before[0]
    for kind in ("rows", "inner"):
        times = took[kind] / took[kind + "data"]
        print("%s: %.1f times the time of the same bytes as data" % (kind, times))
        good = good and times <= MOST_TIMES_DATA
    compare(lambda: random.Random(seed))
    print("all lengths and limits hold" if good else "a length or a limit does not hold")
    sys.exit(0 if good else 1)


if __name__ == "__main__":
    main()
