"""An album of files: what their resources look and sound like, as PNG, WAV and HTML, and a page that shows them all.

    rezkit-look FILE.. -o ALBUM [-f]

The page, `index.html`, shows the resources by file and type, and counts those that it doesn't show by type and reason. A
resource's file is named by the number of its file, its type and its id, as `1-ICNx23-128.png`: in a type a byte that is no
letter or digit is `x` with two hexadecimal digits. The status is 1 if a file isn't read; a resource that is damaged is told
on the page, and is no reason for that.
"""
import itertools
import os
import time

from . import album, command, facts, icons, pictures, pixels, program, sounds, styled
from .errors import Damaged, Refused, TooLarge, Usage
from .roman import four, printable
from .writing import Folder

NAME = "rezkit-look"
ABOUT = "Makes an album of files: icons, cursors, patterns and pictures as PNG, sounds as WAV, texts as HTML, and a page of them all."
MORE = """ALBUM gets index.html, which shows all by file and type, and a file for each resource, as 1-ICNx23-128.png:
the number of its file, its type, its id. In a type x23 is the byte 23 that is no letter or digit, here #.

exit status: 0 done, 1 a file isn't read, 2 wrong arguments"""
DECODERS = {**icons.KINDS, **pictures.KINDS, **sounds.KINDS, **styled.KINDS}
PARTS = (b"styl",)  # types that are shown with another, and have no section of their own
NO_DECODER, DAMAGED, TOO_LARGE, NO_MEMORY = "no decoder", "damaged", "too large", "out of memory"
SHARED = "shares bytes with too many others"
SHARED_MOST = 4  # how many times as long as its fork all resources of a file may be together
BETWEEN = 0.2  # seconds between two lines of progress


class Progress:
    """A line on a terminal that says how far the work has come."""

    def __init__(self, files):
        self.files, self.told_at = files, 0.0

    def tell(self, number, done, there):
        if time.monotonic() - self.told_at > BETWEEN:
            self.told_at = time.monotonic()
            command.progress("%s: file %d of %d, resource %d of %d" % (NAME, number, self.files, done, there))


def say(text):
    """A message, in place of the line of progress."""
    command.progress("")
    command.say(NAME, text)


# What is decoded.

class Resources:
    """The resources of a file, by type in the order of the map, and by type and id."""

    def __init__(self, found):
        self.fork, self.all = found.fork, found.resources()
        self.by_key = {(one.kind, one.ident): one for one in self.all}
        self.left = SHARED_MOST * len(self.fork)

    def groups(self):
        """Each type with its resources."""
        for kind, group in itertools.groupby(self.all, lambda one: one.kind):
            yield kind, list(group)

    def beside(self, ident):
        """What gives the bytes of a resource of this id and another type, or None."""
        def bytes_of(kind):
            other = self.by_key.get((kind, ident))
            self.left -= other.length if other else 0
            return other.bytes_in(self.fork) if other else None
        return bytes_of

    def shown(self, one):
        """What a resource looks or sounds like; or None, why it isn't shown, and the reason that is counted."""
        if one.kind not in DECODERS:
            return None, NO_DECODER, NO_DECODER
        self.left -= one.length
        if self.left < 0:
            return None, SHARED, SHARED
        try:
            return DECODERS[one.kind](one.bytes_in(self.fork), self.beside(one.ident)), None, None
        except Damaged as fault:
            return None, str(fault), DAMAGED
        except TooLarge as fault:
            return None, str(fault), TOO_LARGE
        except Refused as fault:
            return None, str(fault), str(fault)
        except MemoryError:
            return None, NO_MEMORY, NO_MEMORY


# The work.

def read(name):
    """The facts of a file. It is refused if it is too long, rezkit doesn't read it, or its fork is broken."""
    with facts.Opened(name) as file:
        if file.size > facts.BY_HEAD:
            raise Refused("is longer than %d bytes" % facts.BY_HEAD)
        found = facts.facts_of(file)
    if found.refused or found.broken:
        raise Refused(found.refused or found.broken)
    return found


def printed_name(name):
    """What a file is called."""
    return "standard input" if name == "-" else printable(os.fsdecode(name))


def about(found):
    """What a file is, in words."""
    kinds = "" if found.kind is None else " %s %s" % (four(found.kind), four(found.creator))
    return facts.FORMS[found.form] + kinds


def show_file(made, number, name, progress):
    """Puts a file into the album; gives whether it was read."""
    called = printed_name(name)
    try:
        found = read(name)
    except (Refused, MemoryError) as refused:
        fault = NO_MEMORY if isinstance(refused, MemoryError) else str(refused)
        fault = fault[len(called) + 2:] if fault.startswith(called + ": ") else fault
        made.refuse_file(number, called, fault)
        say("%s: %s" % (called, fault))
        return False
    show_resources(made, number, called, found, progress)
    return True


def show_resources(made, number, called, found, progress):
    """Puts the resources of a file into the album."""
    resources, done = Resources(found), 0
    made.begin_file(number, called, about(found), len(resources.all))
    for kind, group in resources.groups():
        if kind not in DECODERS or kind in PARTS:
            made.left.update((kind, resources.shown(one)[2]) for one in group)
            done += len(group)
            continue
        made.begin_type(kind, len(group))
        for one in group:
            done += 1
            progress.tell(number, done, len(resources.all))
            shown, fault, reason = resources.shown(one)
            if shown:
                made.show(one, shown)
            else:
                made.leave_out(one, fault, reason)
        made.end_type()
    made.end_file()


def summary(made):
    """How many resources of how many are shown, and what is damaged."""
    damaged = sum(count for (_, reason), count in made.left.items() if reason == DAMAGED)
    return "resources shown: %d of %d%s" % (made.shown(), made.there(), ", damaged: %d" % damaged if damaged else "")


def options_of(words):
    parser = command.parser(NAME, ABOUT, MORE)
    parser.add_argument("files", metavar="FILE", nargs="+", help="a file with a fork, in any form that rezkit reads; - is standard input")
    parser.add_argument("-o", metavar="ALBUM", dest="folder", required=True, help="the folder that is made")
    parser.add_argument("-f", action="store_true", dest="force",
                        help="write into a folder that is there, replacing files of the same names")
    options = parser.parse_args(words)
    if options.folder == "-":
        raise Usage("-o names a folder, which can't be standard output")
    return options


def body(words):
    options = options_of(words)
    program.path()
    pixels.pillow()
    with Folder(options.folder, options.force) as folder, album.Album(folder) as made:
        progress = Progress(len(options.files))
        read_all = [show_file(made, number, name, progress) for number, name in enumerate(options.files, 1)]
        made.finish()
    say(summary(made))
    return 0 if all(read_all) else 1


def main():
    return command.ended(NAME, body)
