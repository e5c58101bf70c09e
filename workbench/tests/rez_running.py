"""Runs Rez, DeRez and rezkit in a folder, for the tests."""
import os
import resource
import subprocess
import sys
import tempfile
import traceback

from rezkit_workbench import derez, program, rez

TOP = os.path.dirname(os.path.dirname(os.path.dirname(os.path.abspath(__file__))))
WORKBENCH = os.path.join(TOP, "workbench")
REZKIT = "rezkit"
MODULES = {"Rez": rez, "DeRez": derez}
FILE, MEMORY, SECONDS = resource.RLIMIT_FSIZE, resource.RLIMIT_AS, resource.RLIMIT_CPU


def run(name, words, folder, given=b"", limits=(), **environment):
    """Status, output and messages of a program with these words, in a folder.

    Rez and DeRez run in a fork of the tests, which costs less than a new process: `limits` are pairs for setrlimit.
    """
    with tempfile.TemporaryFile() as source, tempfile.TemporaryFile() as out, tempfile.TemporaryFile() as told:
        source.write(given)
        source.seek(0)
        streams = [file.fileno() for file in (source, out, told)]
        if name in MODULES:
            status = forked(name, words, folder, streams, limits, environment)
        else:
            status = subprocess.run([program.path(), *words], cwd=folder, stdin=source, stdout=out, stderr=told, timeout=60).returncode
        out.seek(0)
        told.seek(0)
        return status, out.read(), told.read().decode("utf-8")


def forked(name, words, folder, streams, limits, environment):
    """The status of a program in a fork of this one."""
    program.path()
    child = os.fork()
    if child:
        return os.waitstatus_to_exitcode(os.waitpid(child, 0)[1])
    status = 99
    try:
        status = begun(name, words, folder, streams, limits, environment)
    except BaseException:  # whatever came out of the program is a fault of it
        os.write(2, traceback.format_exc().encode("utf-8", "replace"))
    finally:
        os._exit(status)  # whatever happens, the fork goes no further in the tests


def begun(name, words, folder, streams, limits, environment):
    """The same in the fork."""
    os.chdir(folder)
    for number, stream in enumerate(streams):
        os.dup2(stream, number)
    sys.stdin, sys.stdout, sys.stderr = (open(number, mode, closefd=False) for number, mode in enumerate("rww"))
    os.environ.update(environment)
    for which, value in limits:
        resource.setrlimit(which, (value, value))
    sys.argv = [name, *words]
    status = MODULES[name].main()
    sys.stdout.flush()
    sys.stderr.flush()
    return status


def write(folder, files):
    """Writes files into a folder; a text is written in UTF-8."""
    for name, data in files.items():
        path = os.path.join(os.fsencode(str(folder)), os.fsencode(name))
        os.makedirs(os.path.dirname(path), exist_ok=True)
        with open(path, "wb") as file:
            file.write(data.encode("utf-8") if isinstance(data, str) else data)


def read(folder, name):
    """The bytes of a file of a folder."""
    with open(os.path.join(os.fsencode(str(folder)), os.fsencode(name)), "rb") as file:
        return file.read()


def bytes_shown(folder, name):
    """The resources of a file as rezkit shows them without types."""
    status, text, messages = run(REZKIT, ["derez", name], folder)
    assert (status, messages) == (0, "")
    return text.decode("ascii")
