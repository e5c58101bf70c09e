"""Files and folders that are written without overwriting any.

A file is made whole under another name beside the wanted one, and then gets its name. A folder of files is made beside the
wanted one, which gets its name last. With `force` a file that has the name is unlinked, so a link is replaced and never
written through. A device, a pipe and `-` are written into.
"""
import errno
import os
import stat
import sys
import tempfile

from .errors import Refused
from .roman import printable


def cant(verb, name, fault):
    """The refusal that an OSError is."""
    return Refused("%s: can't %s: %s" % (printable(os.fsdecode(name)), verb, fault.strerror or fault))


def is_stream(name):
    """Whether a name leads to a device or a pipe."""
    try:
        mode = os.stat(name).st_mode
    except OSError:
        return False
    return stat.S_ISCHR(mode) or stat.S_ISFIFO(mode)


def check_free(name, force):
    """Refuses a name that is taken, unless it may be replaced."""
    if not os.path.lexists(name) or (force and not os.path.isdir(name)):
        return
    if os.path.isdir(name):
        raise Refused("%s: is a folder" % printable(name))
    raise Refused("%s: is there already (-f replaces a file)" % printable(name))


def write_file(name, data, force=False):
    """Writes a file, or standard output where the name is `-`."""
    if name == "-":
        return write_out(data)
    if is_stream(name):
        return write_stream(name, data)
    check_free(name, force)
    folder, last = os.path.split(name)
    if not last:
        raise Refused("%s: is no name of a file" % printable(name))
    try:
        made, beside = tempfile.mkstemp(prefix=".rezkit-", dir=folder or ".")
    except OSError as fault:
        raise cant("be written", name, fault) from None
    try:
        fill(made, data)
        give_name(beside, name, force)
    except OSError as fault:
        raise cant("be written", name, fault) from None
    finally:
        if os.path.lexists(beside):
            os.unlink(beside)


def fill(made, data):
    """Writes and closes a descriptor, and gives its file the rights that a new file has."""
    with open(made, "wb") as file:
        file.write(data)
        file.flush()
        os.fsync(file.fileno())
        os.fchmod(file.fileno(), 0o666 & ~mask())


def mask():
    """The rights that new files don't get."""
    own = os.umask(0o022)
    os.umask(own)
    return own


def give_name(beside, name, force):
    """Gives a whole file its name. Without `force` a file that has come there meanwhile stays, and the call fails."""
    if force:
        os.replace(beside, name)
        return
    try:
        os.link(beside, name, follow_symlinks=False)
    except OSError as fault:
        if fault.errno not in (errno.EPERM, errno.ENOTSUP, errno.ENOSYS, errno.EMLINK):
            raise
        os.close(os.open(name, os.O_CREAT | os.O_EXCL | os.O_WRONLY))  # a host without links
        os.replace(beside, name)


def write_stream(name, data):
    """Writes into a device or a pipe."""
    try:
        with open(name, "wb", buffering=0) as file:
            write_all(file, data)
    except OSError as fault:
        raise cant("be written", name, fault) from None


def write_all(file, data):
    """Writes all bytes into a file without a buffer, which may take a part of them at a time."""
    view = memoryview(data)
    while view:
        view = view[file.write(view):]


def write_out(data):
    """Writes to standard output."""
    if sys.stdout is None:
        raise Refused("standard output: can't be written: it is closed")
    try:
        sys.stdout.buffer.write(data)
        sys.stdout.buffer.flush()
    except BrokenPipeError:
        raise
    except OSError as fault:
        raise cant("be written", "standard output", fault) from None


class Folder:
    """A folder of files that is made beside the wanted one, and gets its name last; used by `with`.

    Where a folder has the name, `force` moves each file into it: a file there of the same name is unlinked, and all
    others stay. Whatever fails, what was made so far is taken away.
    """

    def __init__(self, name, force=False):
        self.name, self.force, self.names = name.rstrip("/") or name, force, []

    def __enter__(self):
        if os.path.lexists(self.name) and not (self.force and os.path.isdir(self.name)):
            raise Refused("%s: is there already (-f writes into a folder)" % printable(self.name))
        try:
            self.beside = tempfile.mkdtemp(prefix=".rezkit-", dir=os.path.dirname(self.name) or ".")
        except OSError as fault:
            raise cant("be made", self.name, fault) from None
        return self

    def write(self, name, data):
        """Writes a file of the folder."""
        self.write_pieces(name, (data,))

    def write_pieces(self, name, pieces):
        """Writes a file of the folder, whose bytes come piece by piece."""
        try:
            with open(os.path.join(self.beside, name), "xb") as file:
                self.names.append(name)
                for piece in pieces:
                    file.write(piece)
        except OSError as fault:
            raise cant("be written", os.path.join(self.name, name), fault) from None

    def __exit__(self, kind, fault, trace):
        try:
            if kind is None:
                self.finish()
        except OSError as fault:
            raise cant("be written", self.name, fault) from None
        finally:
            self.clear()

    def finish(self):
        """Gives the folder its name, or moves its files into the one that has it."""
        if not os.path.lexists(self.name):
            os.chmod(self.beside, 0o777 & ~mask())
            os.rename(self.beside, self.name)
            return
        for name in self.names:
            os.replace(os.path.join(self.beside, name), os.path.join(self.name, name))

    def clear(self):
        """Takes away what is left beside."""
        if not os.path.isdir(self.beside):
            return
        for name in self.names:
            if os.path.lexists(os.path.join(self.beside, name)):
                os.unlink(os.path.join(self.beside, name))
        os.rmdir(self.beside)
