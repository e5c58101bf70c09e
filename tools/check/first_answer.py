#!/usr/bin/env python3
"""Looks what ./rezkit does before it runs a program: which program it takes, what it says if it takes none, and how
long.

    python3 tools/check/first_answer.py [PROGRAM]

PROGRAM is the one that ./rezkit runs unless another is named. It is put into a copy of what ./rezkit needs, and
tools/ship writes prebuilt/ there, with a command `rt` that tells a version and does nothing else. Then ./rezkit is
run without `rt`: as it stands, with a changed source, a damaged program, a program of another sum, a stale record and
so on; with a program that can't be loaded, on another processor, through a link, in a read-only folder, from another
folder, eight at once. Last it is run with an `rt` that seems to prove the program. What ./rezkit has to write and to
say stands here by hand, and each run has to end in less than a second of processor time. What comes otherwise is
printed, and the status is 1.
"""
import os
import resource
import shutil
import subprocess
import sys
import tempfile

from top import TOP
from files import bytes_of, write
from looks import Looks
from model.fork import image
from running import program_of

SECONDS = 1
KIT = "a kit of this test"

# What examples/ask.r is compiled to, by the tables of Inside Macintosh.
DIALOG = bytes.fromhex("0064 0064 00C8 019C 0001 0100 0000 0000 0000 0080 0000 280A")
ITEMS = (bytes.fromhex("0002")
         + bytes.fromhex("00000000 0044 00E6 0058 012A 04 04") + b"Save"
         + bytes.fromhex("00000000 0044 0096 0058 00DA 04 06") + b"Cancel"
         + bytes.fromhex("00000000 000C 0048 003C 012A 88 20") + b"Save the changes before closing?")
ASK = image([(b"DLOG", 128, b"Save changes", 32, DIALOG), (b"DITL", 128, b"", 32, ITEMS)])

NO_RT = "rezkit: to build the program of these sources takes the kit's command rt, and there is none on the PATH\n"
MACHINE = "Linux on x86-64 with glibc 2.34 or later"
SOURCE = "rezkit: a source file has changed: prebuilt/rezkit was built of other files crates/*/src/*.rt\n" + NO_RT
DAMAGED = "rezkit: prebuilt/rezkit has changed: its sum is not the one that prebuilt/rezkit.txt has\n" + NO_RT
CRATES = "rezkit: crates.txt has changed: prebuilt/rezkit was built of other crates\n" + NO_RT
STALE = "rezkit: prebuilt/rezkit.txt is the record of another program and of other sources\n" + NO_RT
NO_RECORD = "rezkit: the record of the program that ships is missing: there is no prebuilt/rezkit.txt that can be read\n" + NO_RT
NO_SHIPPED = "rezkit: the program that ships is missing: there is no prebuilt/rezkit that can be read\n" + NO_RT
NOTHING = "rezkit: no program ships with these sources: there is no prebuilt/rezkit\n" + NO_RT
SHORT = "rezkit: prebuilt/rezkit.txt is damaged: it has no line that begins with 'sources: '\n" + NO_RT


class Copy(Looks):
    """A copy of what ./rezkit needs, and how many of its runs came out otherwise."""

    def __init__(self, room, program):
        super().__init__()
        self.room, self.top = room, os.path.join(room, "a clone's copy")
        os.makedirs(os.path.join(self.top, "tools"))
        for name in ("rezkit", "crates.txt", "HANDLES", "tools/program", "tools/ship"):
            shutil.copy2(os.path.join(TOP, name), os.path.join(self.top, name))
        for name in ("examples", "types"):
            shutil.copytree(os.path.join(TOP, name), os.path.join(self.top, name))
        for crate in os.listdir(os.path.join(TOP, "crates")):
            shutil.copytree(os.path.join(TOP, "crates", crate, "src"), self.path("crates", crate, "src"))
        write(self.path("crates/rezkit/out/rezkit"), bytes_of(program), 0o755)
        self.tools("kit", rt="#!/bin/sh\necho '%s'\n" % KIT)
        self.path_words = self.tools("few")

    def path(self, *parts):
        return os.path.join(self.top, *parts)

    def tools(self, name, **scripts):
        """A folder of commands: these scripts, and the commands of coreutils and findutils that ./rezkit needs."""
        folder = os.path.join(self.room, name)
        os.mkdir(folder)
        for command in ("readlink", "uname", "find", "sort", "xargs", "sha256sum"):
            if command not in scripts:
                os.symlink(shutil.which(command), os.path.join(folder, command))
        for command, text in scripts.items():
            write(os.path.join(folder, command), text, 0o755)
        return folder

    def ship(self, *words):
        """Runs tools/ship with the `rt` of this test."""
        environment = dict(os.environ, PATH=os.path.join(self.room, "kit") + os.pathsep + os.environ.get("PATH", os.defpath))
        ran = subprocess.run([sys.executable, self.path("tools/ship"), *words], env=environment, stdin=subprocess.DEVNULL,
                             stdout=subprocess.PIPE, stderr=subprocess.STDOUT)
        return ran.stdout.decode("utf-8", "replace"), ran.returncode

    def run(self, says, words, status, out, err, path=None, script=None, folder=None, **how):
        """Runs ./rezkit with these words. `err` is what it has to say, or the front of it if `front` is set."""
        front = how.pop("front", False)
        begin = resource.getrusage(resource.RUSAGE_CHILDREN)
        how = {"stdin": subprocess.DEVNULL, "env": {"PATH": path or self.path_words}, **how}
        ran = subprocess.run([*(script or [self.path("rezkit")]), *words], cwd=folder or self.top, stdout=subprocess.PIPE,
                             stderr=subprocess.PIPE, **how)
        end = resource.getrusage(resource.RUSAGE_CHILDREN)
        said = ran.stderr.decode("utf-8", "replace").replace(self.top, "TOP")
        said = said[:len(err)] if front else said
        self.tell(says, (status, out, err), (ran.returncode, ran.stdout.decode("utf-8", "replace"), said))
        took = end.ru_utime + end.ru_stime - begin.ru_utime - begin.ru_stime
        if took >= SECONDS:
            self.wrong += 1
            print("%s: took %.2f seconds of processor time" % (says, took))

    def answers(self, says, **how):
        """That ./rezkit compiles the example."""
        out = os.path.join(self.room, "ask.rsrc")
        write(out, "no file")
        self.run(says, ["rez", self.path("examples/ask.r"), "-i", self.path("types"), "-o", out], 0, "", "", **how)
        self.tell(says + ": the fork", ASK, bytes_of(out))

    def refuses(self, says, err, **how):
        self.run(says, ["--version"], 6, "", err, **how)


def kept(change):
    """A change of a copy that is undone afterwards: the function is given the copy, and gives the paths that it changes."""
    def whole(copy):
        paths = [copy.path(name) for name in ("prebuilt/rezkit", "prebuilt/rezkit.txt", "crates.txt", "crates/rz_lex/src/lexer.rt")]
        before = [(path, bytes_of(path), os.stat(path).st_mode) for path in paths]
        change(copy)
        for path, data, mode in before:
            write(path, data, mode)
    return whole


@kept
def changed_sources(copy):
    lexer, other = copy.path("crates/rz_lex/src/lexer.rt"), copy.path("crates/rz_lex/src/other.rt")
    text = bytes_of(lexer)
    write(lexer, text + b"\n")
    copy.refuses("a source that is longer", SOURCE)
    copy.tell("--check of a changed source", ("tools/ship: a source file has changed since prebuilt/rezkit was built\n"
                                              "to mend this: run `rt ci`, then `tools/ship`\n", 1), copy.ship("--check"))
    write(lexer, text.replace(b"a", b"b", 1))
    copy.refuses("a byte of a source", SOURCE)
    os.remove(lexer)
    copy.refuses("a source is missing", SOURCE)
    write(lexer, text)
    write(other, "")
    copy.refuses("a source too many", SOURCE)
    os.rename(other, other + "~")
    copy.answers("a file that is no source")
    os.remove(other + "~")
    write(copy.path("crates/rz_test_host/src/lib.rt"), "")
    copy.answers("a source of a crate that the program doesn't stand on")


@kept
def changed_crates(copy):
    path = copy.path("crates.txt")
    text = bytes_of(path)
    write(path, text.replace(b"rz_set: rz_core indexmap", b"rz_set: rz_core"))
    copy.refuses("a line of crates.txt", CRATES)
    write(path, text + b"rz_new: rz_core\n")
    copy.answers("a crate that the program doesn't stand on")
    write(path, text[:-1])
    copy.answers("crates.txt without its last line end")


@kept
def changed_programs(copy):
    path, record = copy.path("prebuilt/rezkit"), copy.path("prebuilt/rezkit.txt")
    data, text = bytes_of(path), bytes_of(record)
    write(path, data[:100000] + bytes([data[100000] ^ 1]) + data[100001:], 0o755)
    copy.refuses("a damaged program", DAMAGED)
    mend = ("to mend this: take both files of prebuilt/ from git again (`git checkout HEAD prebuilt`), or run `rt ci`, then "
            "`tools/ship`\n")
    copy.tell("--check of a damaged program", ("tools/ship: prebuilt/rezkit has another sum than the one in prebuilt/rezkit.txt\n"
                                               + mend, 1), copy.ship("--check"))
    write(path, "#!/bin/sh\necho another\n", 0o755)
    copy.refuses("a program of another sum", DAMAGED)
    write(copy.path("crates/rz_lex/src/lexer.rt"), "another\n")
    copy.refuses("a stale record", STALE)
    os.remove(path)
    copy.refuses("a record without its program", NO_SHIPPED)
    copy.tell("--check without the program", ("tools/ship: prebuilt/rezkit.txt is there, and prebuilt/rezkit is missing\n"
                                              + mend, 1), copy.ship("--check"))
    os.remove(record)
    copy.refuses("no program ships", NOTHING)
    copy.tell("--check where no program ships", ("no program ships\n", 0), copy.ship("--check"))
    write(path, data, 0o755)
    copy.refuses("a program without its record", NO_RECORD)
    copy.tell("--check without the record", ("tools/ship: prebuilt/rezkit is there, and prebuilt/rezkit.txt is missing\n"
                                             + mend, 1), copy.ship("--check"))
    write(record, b"".join(line for line in text.splitlines(True) if not line.startswith(b"sources")))
    copy.refuses("a record that lacks a line", SHORT)


@kept
def unloadable_programs(copy):
    """Programs that this machine can't load, whose sums are recorded all the same."""
    def record(data, mode=0o755):
        write(copy.path("crates/rezkit/out/rezkit"), data, 0o755)
        copy.tell("tools/ship", 0, copy.ship()[1])
        os.remove(copy.path("crates/rezkit/out/rezkit"))
        os.chmod(copy.path("prebuilt/rezkit"), mode)
    data = bytes_of(copy.path("prebuilt/rezkit"))
    cant = "rezkit: this machine can't load the program TOP/prebuilt/rezkit; it is for %s\n" % MACHINE
    record(data.replace(b"/lib64/ld-linux-x86-64.so.2", b"/lib64/no-linux-x86-64.so.2"))
    copy.refuses("no loader", cant, front=True)
    record(data.replace(b"GLIBC_2.34\0", b"GLIBC_2.94\0"))
    copy.refuses("a C library that is too old", cant, front=True)
    record(data, 0o644)
    copy.refuses("a program that isn't executable", "rezkit: the system refuses to run TOP/prebuilt/rezkit: its mode isn't "
                 "executable, or its file system is mounted noexec; it is for %s\n" % MACHINE, front=True)


def other_machines(copy):
    for number, name in enumerate(("Linux aarch64", "Darwin x86_64", "Darwin arm64", "Linux i686")):
        path = copy.tools("machine%d" % number, uname="#!/bin/sh\necho '%s'\n" % name, rt="#!/bin/sh\necho proved >&2\n")
        copy.refuses(name, "rezkit: this machine is '%s', and the program is for %s\n" % (name, MACHINE), path=path)


def places(copy):
    copy.answers("as it stands")
    copy.answers("from another folder", folder="/")
    copy.answers("by a relative name", script=["./rezkit"])
    copy.answers("from a folder within", script=["../rezkit"], folder=copy.path("types"))
    copy.answers("by sh", script=["/bin/sh", "rezkit"])
    link, chain = os.path.join(copy.room, "a link"), os.path.join(copy.room, "chain")
    os.symlink(copy.path("rezkit"), link)
    os.symlink("a link", chain)
    copy.answers("through a link", script=[link], folder="/")
    copy.answers("through a link to a link", script=["./chain"], folder=copy.room)
    os.mkdir(os.path.join(copy.room, "tools"))
    copy.run("tools/program where CDPATH has another folder tools", [], 0, copy.path("prebuilt/rezkit\n"), "",
             script=["/bin/sh", "tools/program"], env={"PATH": copy.path_words, "CDPATH": copy.room})
    copy.answers("without standard input", stdin=None, preexec_fn=lambda: os.close(0))
    copy.run("words that hold blanks and stars", ["derez", "* $(no)"], 2, "", 'rezkit: error 101 MissingFile: "* $(no)"\n')
    copy.run("a moment that is none", ["--version"], 5, "", "rezkit: SOURCE_DATE_EPOCH isn't a decimal number from 0 to "
             "2208988799\n", env={"PATH": copy.path_words, "SOURCE_DATE_EPOCH": "x"})


def two_at_once(copy):
    """Eight runs side by side."""
    outs = [os.path.join(copy.room, "ask%d.rsrc" % number) for number in range(8)]
    words = [copy.path("rezkit"), "rez", copy.path("examples/ask.r"), "-i", copy.path("types"), "-o"]
    runs = [subprocess.Popen([*words, out], env={"PATH": copy.path_words}, stdin=subprocess.DEVNULL) for out in outs]
    copy.tell("eight at once", [0] * 8, [run.wait() for run in runs])
    copy.tell("eight at once: the forks", [ASK] * 8, [bytes_of(out) if os.path.exists(out) else b"" for out in outs])


def read_only(copy):
    """No file of the copy may be written, and none is."""
    folders = [copy.top] + [os.path.join(at, name) for at, names, _ in os.walk(copy.top) for name in names]
    before = sorted(os.path.join(at, name) for at, _, names in os.walk(copy.top) for name in names)
    for folder in folders:
        os.chmod(folder, 0o555)
    try:
        copy.answers("a read-only folder")
    finally:
        for folder in folders:
            os.chmod(folder, 0o755)
    copy.tell("no file is made", before, sorted(os.path.join(at, name) for at, _, names in os.walk(copy.top) for name in names))


@kept
def proving(copy):
    """With `rt` the program of changed sources is proved and built; here by an `rt` that only seems to do so."""
    write(copy.path("crates/rz_lex/src/lexer.rt"), "another\n")
    built = copy.path("crates/rezkit/out/rezkit")
    said = (SOURCE[:-len(NO_RT)] + "rezkit: proving and building the program; this is done once, and takes about an hour on "
            "four cores\n")
    os.makedirs(copy.path("crates/rz_lex/must-fail"), exist_ok=True)
    check = "#!/bin/sh\nset -e\n[ $# = 1 ]\n[ $1 = ci ]\necho 'rt: rz_core proved'\n"
    fails = copy.tools("fails", rt=check + "echo 'rt: rz_lex NOT PROVED'\nexit 1\n")
    # What is proved is a repository of the program's crates alone, without edits that must fail.
    proves = copy.tools("proves", rt=check + "[ $(wc -l <crates.txt) = $(ls crates | wc -l) ]\n[ ! -e crates/rz_lex/must-fail ]\n"
                        "[ ! -e crates/rz_test_host ]\ngrep -q another crates/rz_lex/src/lexer.rt\n[ -s HANDLES ]\n"
                        "mkdir -p crates/rezkit/out\ncp \"%s\" crates/rezkit/out/rezkit\n" % copy.path("prebuilt/rezkit"))
    others = os.pathsep + os.environ.get("PATH", os.defpath)
    copy.refuses("proofs that fail", said, path=fails + others, front=True)
    copy.tell("proofs that fail: no program", False, os.path.exists(built))
    copy.tell("proofs that fail: what was said of them", b"rt: rz_core proved\nrt: rz_lex NOT PROVED\n",
              bytes_of(copy.path("crates/rezkit/out/proving.txt")))
    copy.run("proofs that end well", ["--version"], 0, "rezkit 0.1.0\n", said, path=proves + others, front=True)
    copy.run("the program that was proved", ["--version"], 0, "rezkit 0.1.0\n", "")
    os.remove(built)


def built_here(copy):
    """A program that was built here goes first, unless a source is newer."""
    built = copy.path("crates/rezkit/out/rezkit")
    write(built, "#!/bin/sh\necho built here\n", 0o755)
    copy.run("a program that was built here", ["--version"], 0, "built here\n", "")
    copy.tell("--check with another program that was built here",
              ("prebuilt/rezkit has the sums of its record, and so have the sources\n"
               "tools/ship: prebuilt/rezkit is another program than crates/rezkit/out/rezkit, which the same kit built\n"
               "to mend this: run `rt ci`, then `tools/ship`\n", 1), copy.ship("--check"))
    os.utime(built, (1, 1))
    copy.answers("a program that is older than the sources")
    copy.tell("tools/ship of a program that is older", 1, copy.ship()[1])
    os.remove(built)


def main():
    program = program_of(sys.argv[1:])
    with tempfile.TemporaryDirectory(prefix="rezkit-first-") as room:
        copy = Copy(room, program)
        copy.tell("tools/ship", ("prebuilt/rezkit: %d bytes, %s\n" % (os.path.getsize(program), KIT), 0), copy.ship())
        copy.tell("--check", ("prebuilt/rezkit has the sums of its record, and so have the sources\n"
                              "prebuilt/rezkit is crates/rezkit/out/rezkit byte for byte\n", 0), copy.ship("--check"))
        os.remove(copy.path("crates/rezkit/out/rezkit"))
        for tries in (places, two_at_once, read_only, changed_sources, changed_crates, changed_programs, proving,
                      built_here, other_machines, unloadable_programs):
            tries(copy)
    copy.end()


if __name__ == "__main__":
    main()
