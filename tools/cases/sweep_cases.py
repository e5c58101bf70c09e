"""Writes sweeps.cases: cases of other files, each run once for each read, write, piece or flush that fails in turn.

What a run must leave of which a call failed is no part of a case: crates/rezkit_cases/README.md has the rules. Here
stand the calls of each command, by hand: its reads and then its writes, or those of its output or of what it says,
which put its pieces and then flush it. `derez` puts each line by itself, so the pieces of its output are the lines
that the case wants. The cases are read as lines, and not by tools/model/case_reader.py, for they are written again as
they stand, with their comments.
"""
import functools
import os

from casefile import DATA, Book

BOOK = Book("sweeps.cases",
            "Cases of other files, each run once for each read, write, piece or flush that fails in turn, and",
            "once more, where none does. Written by tools/cases/sweep_cases.py.")

# The file and the name of a case, and its sweep; `lines` are as many pieces as the case wants lines, and a flush.
SWEEPS = r"""
// Rez: reads of sources and of the files that they name, and a write.
failures: room for exactly the fork and its name => folder 1 1 ‖ again: an application is compiled => folder 2 1
lists: an application with an icon that is read => folder 3 1
options: the first path that has the file counts => folder 4 1 ‖ options: an included file => folder 2 1
forms: include from MacBinary ‖ forms: include from AppleDouble ‖ forms: include from AppleSingle => folder 2 1
forms: include from BinHex => folder 2 1
// Rez -a: a read of the file that is added to, too.
append: a file that is added to ‖ append: a file that is missing => folder 2 1
append: a file to which nothing is added is kept whole ‖ forms: add to MacBinary => folder 2 1
forms: add to AppleDouble ‖ forms: add to AppleSingle without a name => folder 2 1
// Rez in other forms.
bridge: rez writes macbin ‖ bridge: rez writes hqx ‖ bridge: rez writes double ‖ bridge: rez writes single => folder 1 1
// Bridge: the data fork is read and written as a file of its own, the data file first.
bridge: a fork as BinHex ‖ bridge: BinHex as a fork => folder 1 1
bridge: both forks as AppleDouble: the data fork is a file of its own => folder 1 2
bridge: both forks as AppleDouble over old files ‖ bridge: the data file is the file that is read => folder 1 2
bridge: AppleDouble beside its data file ‖ bridge: AppleDouble without its data file => folder 2 1
bridge: both forks as AppleSingle: one file => folder 1 1 ‖ bridge: AppleSingle as AppleDouble => folder 1 2
bridge: AppleDouble as AppleSingle => folder 2 1 ‖ bridge: a file may be written over itself => folder 1 1
// Derez: reads alone.
again: an application is shown ‖ typefiles: two warnings, the second of a range => folder 2 0
bridge: derez shows MacBinary ‖ bridge: derez shows AppleDouble ‖ bridge: derez shows AppleSingle => folder 1 0
// Templates: their file is read behind the sources, and before the file that is added to and the fork.
tmpl: strings behind their number are compiled => folder 2 1
tmpl: rez: templates, and a file that is added to => folder 3 1
tmpl: rez: the file of templates is the file that is added to => folder 3 1
tmpl: rez: a broken template, and a read-only file that is added to ‖ tmpl: strings behind their number => folder 2 0
tmpl: a type in place of a template => folder 3 0 ‖ tmpl: templates in macbin => folder 2 0
tmpl: derez: a broken template, and no fork => folder 1 0 ‖ tmpl: strings behind their number => out lines 0
tmpl: a type in place of a template => err 2 30
// Det: one read, and one piece of its output.
det: a length of 3 and a name at the end of the map ‖ det: in double ‖ det: a text => folder 1 0
det: a hundred faults => out 2 0 ‖ det: a hundred faults => out 2 20 ‖ det: a fork that is whole => out 2 8
det: BinHex without its last colon => err 2 12
// List: one read, and a piece of its output up to the name of the file, for each 64 bytes of a name, after it up to the length of the fork, for each resource without a name, and for their number.
listing: in macbin ‖ listing: in double ‖ listing: a text => folder 1 0 ‖ listing: in macbin => out 7 0
listing: in macbin => out 7 2 ‖ listing: a resource with a name of 255 bytes of five letters each => out 10 7
listing: MacBinary I => err 2 0 ‖ listing: BinHex without its last colon => err 2 12
// Strings and restring: reads of the type file, the fork and the catalogue, and a write.
catalog: listed: an application => folder 2 0 ‖ catalog: an application in French => folder 3 1
catalog: AppleDouble: the header alone is written => folder 3 1
// Warnings: after a read none is said, after a write all are.
types: a declaration again is warned of => folder 1 1
// Refusals: a read that fails comes before what is refused behind it.
resource: a warning comes before the line of the fault of a resource => folder 1 0
typefiles: a warning comes before the line of a broken fork => folder 2 0
typefiles: a warning comes before the line of a missing fork => folder 2 0
bridge: a wrong CRC of MacBinary => folder 1 0
// The output: each line of derez, and the one piece of other commands.
again: an application is shown => out lines 0 ‖ again: an application is shown => out lines 1
again: an application is shown => out lines 1000 ‖ failures: the output has room for exactly the text => out lines 0
failures: the output has room for exactly the text => out lines 5
typefiles: two warnings, the second of a range => out lines 0 ‖ bridge: derez shows BinHex => out lines 3
rows: STR# 128: array { pstring; }; @ 0141 024243 => out lines 0
rows: STR# 128: pstring; string[64]; @ 81 «62×129» «63×64» ‖ rows: STR# 128: «41×40» => out lines 0
rows: Long -32768: byte; @ 05 => out lines 0 ‖ sample: a sample of 2 => out 2 0 ‖ sample: a sample of 2 => out 2 20
// What is said: nothing else changes.
rules: a warning for a type with arrays that is declared again => err 2 0
typefiles: two warnings, the second of a range => err 2 60
types: warnings come before the line of the fault => err 2 20 ‖ widths: over 8 bits => err 2 0
bridge: a wrong CRC of MacBinary => err 2 0 ‖ bridge: a wrong CRC of MacBinary => err 2 9
bridge: words: no file => err 2 0
"""


@functools.lru_cache(None)
def cases_of(name):
    """The lines of each case of a file, by its name."""
    cases, lines = {}, []
    with open(os.path.join(DATA, name + ".cases"), encoding="utf-8") as file:
        for line in file.read().splitlines():
            if line.startswith("case "):
                lines = cases.setdefault(line[5:], [])
            elif line:
                lines.append(line)
    return cases


def pieces_of(lines):
    """How many lines a case wants of the output."""
    at = lines.index("out text") + 1
    count = 0
    while at + count < len(lines) and lines[at + count].startswith("|"):
        count += 1
    return count


def without_comments_after(lines):
    """The lines of a case without the comments that stand after it, which speak of the next."""
    while lines and lines[-1].startswith("#"):
        lines = lines[:-1]
    return lines


def swept(row):
    """The case of a row of the table, with its sweep."""
    given, sweep = row.split(" => ")
    file, name = given.split(": ", 1)
    lines = without_comments_after(cases_of(file)[name])
    sweep = sweep.replace("lines", str(pieces_of(lines) + 1) if "lines" in sweep else "")
    BOOK.lines += ["case %s.cases: %s" % (file, name), "sweep " + sweep] + lines + [""]


@BOOK.part()
def sweeps():
    BOOK.table(SWEEPS, swept)
