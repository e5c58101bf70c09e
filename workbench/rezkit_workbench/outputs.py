"""The files that `Rez` writes: their forms by the endings of their names, a data fork, and disk images.

Where a file needs more than one call of rezkit, it is made in the folder of the copies, and written last.
"""
import collections
import os
import shutil
import stat
import subprocess
import time

from . import command, options, program
from .errors import Refused
from .roman import printable
from .writing import cant, check_free, write_file

DISK, BESIDE = "disk", "beside"
ENDINGS = {".bin": "macbin", ".as": "single", ".hqx": "hqx", ".dsk": DISK, ".appl": BESIDE}
FORMS = ("raw", "double", "single", "macbin", "hqx")
LEAST_DISK, ROUND = 800 * 1024, 64 * 1024

# A file to write: its name as it was given, its form, or None for raw, and whether an option states the form.
Target = collections.namedtuple("Target", "name form is_stated")


class CantWrite(Refused):
    """A file can't be written. The program ends with 3, as rezkit does."""

    status = 3


def form_of(name):
    """The form that the ending of a name tells, or None."""
    last = os.path.basename(name)
    if last.startswith("._") or last.startswith("%") and last.lower().endswith(".ad"):
        return "double"
    return ENDINGS.get(os.path.splitext(last)[1].lower())


def asked_form(asked):
    """The form that an option states, or None."""
    stated = [value for _, value in asked.form]
    if stated and stated[-1] not in FORMS:
        raise options.BadWords("-form: %s is none of %s" % (stated[-1], ", ".join(FORMS)))
    if stated:
        return stated[-1]
    return "raw" if asked.data_fork else None


def target(name, form):
    """The file of a name, in a form that is stated, or that its ending tells."""
    return Target(name, form or form_of(name), form is not None)


def form_beside(it, append, name):
    """The form that rezkit is told: none where it adds to a file, which keeps its form unless an option states another."""
    return None if append and os.path.exists(name) and not it.is_stated else it.form


def can_be_written(it):
    """Whether a file of `--cc` can be written here. One that can't is told, and the others are written."""
    if it.form == BESIDE:
        command.say("Rez", "%s isn't written: its form has the folders .rsrc and .finf beside it; .bin has both forks in one file" % (
            printable(it.name)))
    elif it.form == DISK and not shutil.which("hformat"):
        command.say("Rez", "%s isn't written: a disk image needs the programs of hfsutils" % printable(it.name))
    else:
        return True
    return False


def check(asked, it):
    """Refuses a file that can't be written as it is asked for."""
    if it.form == BESIDE or it.form == DISK and not shutil.which("hformat"):
        can_be_written(it)
        raise options.BadWords("no file is written")
    if it.form == DISK and asked.append:
        raise options.BadWords("-a: nothing can be added to a disk image")
    if asked.data is not None and it.form in (None, "raw"):
        raise options.BadWords("--data: a resource fork alone has no room for a data fork; the ending .bin, .as or .hqx, or ._NAME, has")
    for used, value in (("-t", asked.type), ("-c", asked.creator)):
        if value is not None:
            options.four(used, value)


def note(asked, it):
    """Tells what is asked for and has no effect."""
    name = printable(it.name)
    is_kept = asked.append and os.path.exists(it.name) and not it.is_stated
    if (asked.type or asked.creator) and it.form in (None, "raw") and not is_kept:
        command.say("Rez", "%s: a resource fork alone has no type and no creator; the ending .bin, .as or .hqx, or ._NAME, has" % name)
    if asked.align:
        command.say("Rez", "-align has no effect: rezkit lays a fork out without gaps")


def moment():
    """The moment of the run, so that all files have the same one."""
    return os.environ.get("SOURCE_DATE_EPOCH") or str(int(time.time()))


def write(run, words, it, append, quiet=False):
    """Writes a file: rezkit's status."""
    before = times(it.name) if run.asked.modified else None
    if it.name == "-":
        status = run.rez(words, "/dev/stdout", it.form, False, quiet)
    elif it.form == DISK:
        status = write_disk(run, words, it, quiet)
    elif run.asked.data is not None:
        status = write_both(run, words, it, append, quiet)
    elif is_plain(it.name):
        status = run.rez(words, program.word_of(it.name), form_beside(it, append, it.name), append, quiet)
    else:
        status = write_odd(run, words, it, append, quiet)
    if before and status == 0:
        os.utime(it.name, ns=before)
    return status


def times(name):
    """The times of a file, or None."""
    try:
        found = os.stat(name)
    except OSError:
        return None
    return found.st_atime_ns, found.st_mtime_ns


def is_plain(name):
    """Whether rezkit takes a name: it has to be UTF-8."""
    try:
        name.encode("utf-8")
    except UnicodeEncodeError:
        return False
    return True


def new_folder(run):
    """A new folder among the copies."""
    number = 0
    while os.path.exists(os.path.join(run.folder, "made%d" % number)):
        number += 1
    made = os.path.join(run.folder, "made%d" % number)
    os.mkdir(made)
    return made


def last_of(name):
    """The last part of a name; bytes that aren't UTF-8 are taken for Mac Roman."""
    last = os.path.basename(name)
    return last if is_plain(last) else os.fsencode(last).decode("mac_roman").replace("/", ":")


def write_odd(run, words, it, append, quiet):
    """Writes a file whose name isn't UTF-8."""
    made = os.path.join(new_folder(run), last_of(it.name))
    if append and os.path.exists(it.name):
        shutil.copyfile(it.name, made)
    status = run.rez(words, made, form_beside(it, append, made), append, quiet)
    if status == 0:
        put_file(it.name, made)
    return status


def put_file(name, made):
    """Writes a file that was made among the copies; an old one is replaced, as rezkit replaces it."""
    with open(made, "rb") as file:
        data = file.read()
    try:
        write_file(name, data, True)
    except Refused as fault:
        raise CantWrite(str(fault)) from None


def read_data(name):
    """The bytes of the file of `--data`."""
    try:
        with open(0 if name == "-" else name, "rb", closefd=name != "-") as file:
            return file.read()
    except OSError as fault:
        raise CantWrite(str(cant("be read", name, fault))) from None


def data_name(name):
    """The data file of an AppleDouble header file: `App` of `._App`, and `App.ad` of `%App.ad`."""
    folder, last = os.path.split(name)
    if last.startswith("._") and len(last) > 2:
        return os.path.join(folder, last[2:])
    return os.path.join(folder, last[1:] if last.startswith("%") and len(last) > 1 else last + ".data")


def write_both(run, words, it, append, quiet):
    """Writes a file with the data fork of `--data`."""
    data = read_data(run.asked.data)
    if it.form == "double":
        return write_double(run, words, it, data, append, quiet)
    header = os.path.join(new_folder(run), last_of(it.name))
    if append and os.path.exists(it.name):
        bridged(run, it.name, "double", header)
    status = run.rez(words, header, None if os.path.exists(header) else "double", append, quiet)
    if status:
        return status
    with open(header + ".data", "wb") as file:
        file.write(data)
    made = os.path.join(new_folder(run), last_of(it.name))
    bridged(run, header, it.form, made)
    put_file(it.name, made)
    return 0


def write_double(run, words, it, data, append, quiet):
    """Writes a header file and its data file, the data file first."""
    beside = data_name(it.name)
    if not has_bytes(beside, data):
        check_free(beside, run.asked.force)
    header = os.path.join(new_folder(run), last_of(it.name))
    if append and os.path.exists(it.name):
        shutil.copyfile(it.name, header)
    status = run.rez(words, header, None if os.path.exists(header) else "double", append, quiet)
    if status == 0:
        if not has_bytes(beside, data):
            write_file(beside, data, run.asked.force)
        put_file(it.name, header)
    return status


def has_bytes(name, data):
    """Whether a file has exactly these bytes."""
    try:
        if not stat.S_ISREG(os.stat(name).st_mode) or os.path.getsize(name) != len(data):
            return False
        with open(name, "rb") as file:
            return file.read() == data
    except OSError:
        return False


def bridged(run, name, form, made):
    """Writes a file in another form."""
    source = program.word_of(name) if is_plain(name) else os.path.join(new_folder(run), "from")
    if not is_plain(name):
        shutil.copyfile(name, source)
    program.call(["bridge", source, "-to", form, "-o", made])


def write_disk(run, words, it, quiet):
    """Writes a disk image with the file on it, by the programs of hfsutils."""
    folder = new_folder(run)
    title = os.path.splitext(last_of(it.name))[0] or "Disk"
    file = Target(os.path.join(folder, title), "macbin", True)
    status = write_both(run, words, file, False, quiet) if run.asked.data is not None else run.rez(words, file.name, "macbin", False, quiet)
    if status:
        return status
    image = os.path.join(folder, "image.dsk")
    size = max(LEAST_DISK, (os.path.getsize(file.name) * 9 // 8 // ROUND + 2) * ROUND)
    with open(image, "xb") as made:
        made.truncate(size)
    for words in (["hformat", "-l", title[:27], image], ["hmount", image], ["hcopy", "-m", file.name, ":"], ["humount"]):
        hfs(words, folder)
    put_file(it.name, image)
    return 0


def hfs(words, folder):
    """Runs a program of hfsutils, which keeps what it has mounted in the home folder."""
    ran = subprocess.run(words, env=dict(os.environ, HOME=folder), stdout=subprocess.DEVNULL, stderr=subprocess.PIPE)
    if ran.returncode:
        raise CantWrite("%s: %s" % (words[0], ran.stderr.decode("utf-8", "replace").strip()))
