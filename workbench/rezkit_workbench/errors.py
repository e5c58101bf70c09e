"""What a program of the workbench refuses. A message names the file, and the resource and the place where there is one."""


class Refused(Exception):
    """A file was refused or can't be read or written. The program goes on with the others, and ends with 1."""

    status = 1


class Usage(Refused):
    """The arguments mean nothing. The program ends with 2."""

    status = 2


class RezkitRefused(Refused):
    """rezkit refused what it was given. `ended` is its status, `said` are its messages without its name in front."""

    def __init__(self, ended, said):
        Refused.__init__(self, said)
        self.ended, self.said = ended, said


class OutOfMemory(Refused):
    """Memory was refused, to rezkit or to Python."""


class Damaged(Refused):
    """A resource isn't what its type's format says. `place` is the byte, from 0, from which it isn't."""

    def __init__(self, place, said):
        Refused.__init__(self, "%s at byte %d" % (said, place))
        self.place, self.said = place, said


class TooLarge(Refused):
    """A picture has more pixels than are decoded."""
