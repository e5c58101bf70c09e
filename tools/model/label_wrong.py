"""Compilers that are wrong: each takes an index or the number of a row for another one.

What they make of a row isn't its bytes where the index or the number tells, and `derez` has to show it as bytes.
"""
from model.labels import Laid, Sight


class Clamped(Sight):
    """An index outside is taken to the nearest row."""

    def place_in(self, name, index):
        places = self.places(name)
        return places[min(max(index, 1), len(places)) - 1] if places else 0


class Last(Sight):
    """Each index names the last row."""

    def place_in(self, name, index):
        Sight.place_in(self, name, index)
        return self.places(name)[-1]


class First(Sight):
    """Each index names the first row."""

    def place_in(self, name, index):
        Sight.place_in(self, name, index)
        return self.places(name)[0]


class FromZero(Sight):
    """Indexes count from 0."""

    def place_in(self, name, index):
        return Sight.place_in(self, name, index + 1)


class NumbersFromZero(Sight):
    """The rows count from 0, and indexes from 1."""

    def row(self, name):
        return Sight.row(self, name) - 1


class Innermost(Sight):
    """The number is that of the innermost row, whatever array is named."""

    def row(self, name):
        found = self.names
        while not found.number:
            found = found.outer
        return found.number


class Counted(Sight):
    """The number of the row is the number of rows."""

    def row(self, name):
        return self.rows(name)


class Beginning(Sight):
    """A label of a row is taken for the first label of its row."""

    def place_in(self, name, index):
        Sight.place_in(self, name, index)
        return min(self.names.lines_of(name).lines[name.lower()][index - 1].labels.values())


def lays(sees):
    return type(sees.__name__, (Laid,), {"sees": sees})


WRONG = [lays(each) for each in (Clamped, Last, First, FromZero, NumbersFromZero, Innermost, Counted, Beginning)]
