"""Where rezkit is, and calls of it.

In a checkout it is the program that the script `rezkit` at its top runs: tools/program says which, once. Installed in
PREFIX/share/rezkit/workbench, it is PREFIX/bin/rezkit. If neither is there, it is the one on the path.
"""
import functools
import os
import shutil
import subprocess

from .errors import OutOfMemory, Refused, RezkitRefused

FOLDER = os.path.dirname(os.path.dirname(os.path.realpath(__file__)))
REFUSED, OUT_OF_MEMORY = 2, 4


def checkout():
    """The top of the checkout that this package stands in, or None."""
    top = os.path.dirname(FOLDER)
    return top if os.path.isfile(os.path.join(top, "tools", "program")) else None


def prefix():
    """The folder below which this package is installed."""
    return os.path.dirname(os.path.dirname(os.path.dirname(FOLDER)))


@functools.lru_cache(maxsize=None)
def path():
    """The path of rezkit."""
    top = checkout()
    if top:
        return path_in_checkout(top)
    beside = os.path.join(prefix(), "bin", "rezkit")
    found = beside if os.access(beside, os.X_OK) else shutil.which("rezkit")
    if not found:
        raise Refused("there is no rezkit: neither %s nor one on the path" % beside)
    return found


def path_in_checkout(top):
    """The program that the script of a checkout runs; tools/program says which, and builds it if need be."""
    ran = subprocess.run(["/bin/sh", os.path.join(top, "tools", "program")], stdout=subprocess.PIPE)
    if ran.returncode:
        raise Refused("there is no rezkit: tools/program ended with %d" % ran.returncode)
    return os.fsdecode(ran.stdout.rstrip(b"\n"))


def types_folder():
    """The folder of the type files."""
    top = checkout()
    return os.path.join(top, "types") if top else os.path.join(prefix(), "share", "rezkit", "types")


def version():
    """What `rezkit --version` says."""
    return call(["--version"]).decode("ascii", "replace").strip()


def run(words, given=None, files=()):
    """Runs rezkit with these words: its status, its output and its messages. `files` are descriptors that it may open.

    SIGPIPE and SIGXFSZ stay as Python has them, ignored: a write that fails is rezkit's to tell.
    """
    source = {"stdin": subprocess.DEVNULL} if given is None else {"input": given}
    try:
        ran = subprocess.run([path()] + list(words), stdout=subprocess.PIPE, stderr=subprocess.PIPE, pass_fds=tuple(files),
                             restore_signals=False, **source)
    except MemoryError:
        raise OutOfMemory("out of memory") from None
    except OSError as fault:
        raise Refused("%s can't be run: %s" % (path(), fault.strerror)) from None
    return ran.returncode, ran.stdout, ran.stderr.decode("utf-8", "replace")


def call(words, given=None, files=()):
    """The output of rezkit with these words, or what it refused."""
    status, output, messages = run(words, given, files)
    if status:
        raise refusal(status, messages)
    return output


def refusal(status, messages):
    """What a status other than 0 means."""
    said = "; ".join(plain(line) for line in messages.splitlines()) or "rezkit ended with %d" % status
    if status == OUT_OF_MEMORY:
        return OutOfMemory(said)
    return RezkitRefused(status, said)


def plain(line):
    """A message of rezkit without its name in front, and without the word `error`."""
    for front in ("rezkit: ", "error "):
        line = line[len(front):] if line.startswith(front) else line
    return line


def word_of(name):
    """A file's name as a word that rezkit takes for no option."""
    return "./" + name if name.startswith("-") else name
