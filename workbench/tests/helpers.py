"""What the tests of the workbench share: how its programs are run, and files that are made by a second writer.

The files come from tools/model/fork.py and tools/model/forms.py, which write what docs/FORMATS.md says and know
nothing of rezkit.
"""
import os
import random
import resource
import subprocess

from model.fork import fork_of
from model.forms import File
from rezkit_workbench import program

WORKBENCH = os.path.abspath(os.path.join(os.path.dirname(os.path.abspath(__file__)), ".."))
TOP = os.path.dirname(WORKBENCH)
TYPES = os.path.join(TOP, "types")
MEMORY = 524288 << 10  # bytes that a program may use where a test says so
SECONDS = 10


def run(program, *words, given=None, folder=None, memory=None, largest=None, cpu=None, seconds=300, to=None, **more):
    """Runs a program of the workbench: its status, its output and its messages.

    `memory` and `largest` are as those of `ulimit -v` and `ulimit -f`, in bytes, and `cpu` are the seconds of `ulimit -t`:
    they don't depend on what else the machine does. `to` is a file for its output.
    """
    def limit():
        if memory:
            resource.setrlimit(resource.RLIMIT_AS, (memory, memory))
        if cpu:
            resource.setrlimit(resource.RLIMIT_CPU, (cpu, cpu))
        if largest:
            resource.setrlimit(resource.RLIMIT_FSIZE, (largest, largest))

    path = program if os.path.isabs(program) else os.path.join(WORKBENCH, program)
    ran = subprocess.run([path] + [os.fsencode(word) for word in words], cwd=folder, preexec_fn=limit, timeout=seconds,
                         stdout=to or subprocess.PIPE, stderr=subprocess.PIPE,
                         **({"input": given} if given is not None else {"stdin": subprocess.DEVNULL}), **more)
    messages = ran.stderr.decode("utf-8", "replace")
    assert "Traceback" not in messages, messages
    return ran.returncode, ran.stdout, messages


def rezkit(*words, folder=None):
    """The output of rezkit, which has to end with 0."""
    status, output, messages = run(program.path(), *words, folder=folder)
    assert status == 0, messages
    return output


def write(folder, name, data):
    """Writes a file and gives its path."""
    path = os.path.join(os.fsencode(str(folder)), os.fsencode(name))
    with open(path, "wb") as file:
        file.write(data)
    return os.fsdecode(path)


def read(path):
    with open(path, "rb") as file:
        return file.read()


def names_in(folder):
    return sorted(os.listdir(str(folder)))


TWO = [(b"STR ", 128, b"", 0, b"\5Hello"), (b"CODE", 0, b"Main", 0x24, b"\x4E\x75")]
FORK = fork_of(TWO)
# 2001-09-09 01:46:40 and 1996-05-01 12:00:00, in seconds since 1904.
WHOLE = File(name=b"Caf\x8E", kind=b"APPL", creator=b"CAF ", flags=0x2100, locked=True, created=3082844800,
             modified=2913796800, data=b"Data!", res=FORK)


def some_bytes(chance, most):
    return bytes(chance.randrange(256) for _ in range(chance.randrange(most)))


def some_resources(chance):
    """Resources by chance: odd types, names and attributes, none with the type and id of another."""
    kinds = [b"STR ", b"'\\\"\n", b"ICN#", bytes(4), some_bytes(chance, 2).ljust(4, b"\xF0")]
    found = {}
    for _ in range(chance.randrange(12)):
        key = chance.choice(kinds), chance.choice((-32768, -1, 0, 1, 128, 32767, chance.randrange(-32768, 32768)))
        found[key] = key + (some_bytes(chance, chance.choice((1, 4, 200))), chance.randrange(256), some_bytes(chance, 60))
    return list(found.values())


def mutated(chance, data):
    """A file of which some bytes are others, or that is cut, or both."""
    out = bytearray(data)
    for _ in range(chance.choice((0, 1, 1, 2, 8))):
        if out:
            out[chance.randrange(min(len(out), chance.choice((16, 300, len(out)))))] = chance.choice((0, 1, 127, 128, 255, chance.randrange(256)))
    if chance.random() < 0.4:
        out = out[:chance.randrange(len(out) + 1)]
    if chance.random() < 0.2 and out:
        at = chance.randrange(len(out))
        out[at:at + 200] = some_bytes(chance, 200)
    return bytes(out)


def mutants(seed, count):
    """Files that are damaged by chance, of all forms."""
    from model.forms import double, hqx, macbin, single
    chance = random.Random(seed)
    forms = [lambda file: file.res, double, single, macbin, hqx]
    for number in range(count):
        file = WHOLE.but(res=fork_of(some_resources(chance)) if number % 2 else WHOLE.res)
        yield mutated(chance, forms[number % len(forms)](file))
