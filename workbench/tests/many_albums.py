#!/usr/bin/python3
"""Looks at many whole forks whose resources are damaged, in one process with little memory, each within ten seconds.

    /usr/bin/python3 workbench/tests/many_albums.py look|draw FORKS [SEED]

`look` makes an album of each fork, `draw` a page of its dialogs and menus. Printed are how often each status came and, for
each reader of resources, how many it was given and of how many it said nothing wrong. Of what is written the names of the
files are looked at, the page, and that nothing else was written. A status but 0, a traceback, more than ten seconds and
anything wrong with a page end it with 1.
"""
import collections
import contextlib
import io
import os
import random
import re
import resource
import shutil
import signal
import sys
import tempfile

sys.dont_write_bytecode = True
HERE = os.path.dirname(os.path.abspath(__file__))
for place in (HERE, os.path.dirname(HERE), os.path.join(HERE, "..", "..", "tools")):
    sys.path.insert(0, os.path.abspath(place))

from model.fork import fork_of  # noqa: E402
from helpers import MEMORY, SECONDS, names_in, read  # noqa: E402
from pages import Page  # noqa: E402
from rezkit_workbench import command, dialogs, draw, look, menus, program  # noqa: E402
from wholes import drawn_fork, fork_resources  # noqa: E402

NAME = re.compile(r"1-[A-Za-z0-9]+-128\.(?:png|wav|aifc|html)|index\.html")
READERS = ((dialogs, "read_dialog"), (dialogs, "read_alert"), (dialogs, "read_items"), (dialogs, "read_control"), (menus, "read_menu"),
           (menus, "read_bar"))


class Counts:
    """What readers of resources are given, and of how many of these they raise nothing."""

    def __init__(self):
        self.given, self.well = collections.Counter(), collections.Counter()

    def counting(self, name, reader):
        """The reader, counted."""
        def counted(*words):
            self.given[name] += 1
            found = reader(*words)
            self.well[name] += 1
            return found
        return counted

    def count_look(self):
        for kind, decode in list(look.DECODERS.items()):
            look.DECODERS[kind] = self.counting(kind.decode("ascii").replace(" ", "_"), decode)

    def count_draw(self):
        for module, name in READERS:
            setattr(module, name, self.counting(name, getattr(module, name)))


def in_time(name, body, words):
    """The status of a program's body, which gets as much time as it may have."""
    signal.setitimer(signal.ITIMER_PROF, SECONDS)  # ends the process with SIGPROF after so much of its time
    signal.alarm(6 * SECONDS)  # ends the process with SIGALRM, whatever else the machine does
    with contextlib.redirect_stderr(io.TextIOWrapper(io.BytesIO())):
        status = command.ended(name, body, words)
    signal.setitimer(signal.ITIMER_PROF, 0)
    signal.alarm(0)
    return status


def look_at(folder, path):
    """Makes the album of a fork; gives its status, and what is wrong with it."""
    album = os.path.join(folder, "album")
    status = in_time(look.NAME, look.body, [path, "-o", album])
    names = names_in(album)
    faults = Page(read(os.path.join(album, "index.html")).decode("utf-8"), names).faults
    faults += ["the file " + name for name in names if not NAME.fullmatch(name)]
    faults += ["written outside: " + name for name in names_in(folder) if name not in ("album", "fork")]
    shutil.rmtree(album)
    return status, faults


def draw_at(folder, path):
    """Makes the page of a fork's dialogs and menus; gives the same."""
    page = os.path.join(folder, "page.html")
    status = in_time(draw.NAME, draw.body, [path, "-o", page])
    faults = Page(read(page).decode("utf-8")).faults
    faults += ["written outside: " + name for name in names_in(folder) if name not in ("page.html", "fork")]
    os.unlink(page)
    return status, faults


def main():
    which, forks, seed = sys.argv[1], int(sys.argv[2]), int(sys.argv[3]) if len(sys.argv) > 3 else 1
    counts, statuses, wrong = Counts(), collections.Counter(), 0
    counts.count_look() if which == "look" else counts.count_draw()
    make, run = (fork_resources, look_at) if which == "look" else (drawn_fork, draw_at)
    program.path()
    resource.setrlimit(resource.RLIMIT_AS, (MEMORY, MEMORY))
    command.drop_out = lambda: None
    with tempfile.TemporaryDirectory(prefix="many-") as folder:
        path = os.path.join(folder, "fork")
        for number in range(forks):
            with open(path, "wb") as file:
                file.write(fork_of(make(random.Random("%d %d" % (seed, number)))))
            status, faults = run(folder, path)
            statuses[status] += 1
            wrong += bool(faults)
            if faults:
                print("fork %d: %s" % (number, "; ".join(faults)))
    print(", ".join("status %d: %d" % each for each in sorted(statuses.items())))
    for name in counts.given:
        print("%s %d %d" % (name, counts.given[name], counts.well[name]))
    return 0 if set(statuses) == {0} and not wrong else 1


if __name__ == "__main__":
    sys.exit(main())
