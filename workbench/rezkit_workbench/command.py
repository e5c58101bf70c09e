"""The frame of a program of the workbench: its options, its messages, its statuses.

The status is 0, 1 if a file was refused or not read (the others are done), 2 for wrong arguments, and 130 if the person
broke it off.
"""
import argparse
import os
import signal
import sys

from . import program
from .errors import OutOfMemory, Refused


class Version(argparse.Action):
    """`--version` says rezkit's."""

    def __init__(self, option_strings, dest, **rest):
        argparse.Action.__init__(self, option_strings, dest, nargs=0, help="print the version of rezkit, and end")

    def __call__(self, parser, *_):
        print(program.version())
        parser.exit()


def parser(name, about, more=None):
    """A parser of arguments with what all programs have."""
    made = argparse.ArgumentParser(prog=name, description=about, epilog=more, formatter_class=argparse.RawDescriptionHelpFormatter,
                                   allow_abbrev=False)
    made.add_argument("--version", action=Version)
    return made


def say(name, text):
    """Prints a message, if standard error is open."""
    if sys.stderr is None:
        return
    sys.stderr.write("%s: %s\n" % (name, text))
    sys.stderr.flush()


def progress(text):
    """Shows how far long work has come, on one line, if standard error is a terminal."""
    if sys.stderr is not None and sys.stderr.isatty():
        sys.stderr.write("\r\x1b[K" + text)
        sys.stderr.flush()


def drop_out():
    """Lets nothing more go to a standard output that has gone, also not at the end."""
    if sys.stdout is not None:
        os.dup2(os.open(os.devnull, os.O_WRONLY), sys.stdout.fileno())


def fill_closed():
    """Opens the null device where a standard stream is closed, so that no file gets its number."""
    for number in range(3):
        try:
            os.fstat(number)
        except OSError:
            os.open(os.devnull, os.O_RDWR)


def ended(name, body, words=None):
    """Runs a program's body and gives its status; what it refuses is told in a line."""
    fill_closed()
    if sys.stderr is not None:
        sys.stderr.reconfigure(errors="backslashreplace")
    try:
        return body(words)
    except BrokenPipeError:
        drop_out()
        return 1
    except (Refused, MemoryError) as fault:
        fault = OutOfMemory("out of memory") if isinstance(fault, MemoryError) else fault
        say(name, fault)
        drop_out()
        return fault.status
    except KeyboardInterrupt:
        drop_out()
        return 128 + signal.SIGINT
