"""All broken rules of a resource fork, found by the table of docs/FORMATS.md alone: a second reading that knows
nothing of the code.

A fault is a number, an offset in the fork and a value. Faults stand by rule, and within a rule in the order of the map.
"""
import itertools

from model.faults import NAMES

MOST_TYPES, MOST_REFERENCES, MOST_PLACE = 8192, 16384, 1 << 24
NO_NAME = 0xFFFF


class Fork:
    """A fork that has a header: where its parts lie."""

    def __init__(self, data):
        self.data = data
        self.area, self.map, self.area_length, self.map_length = (self.at(place, 4) for place in (0, 4, 8, 12))

    def at(self, place, size):
        """The number of so many bytes."""
        return int.from_bytes(self.data[place:place + size], "big")

    def in_map(self, place, size):
        """Whether so many bytes from a place in the map on lie in it."""
        return place + size <= self.map_length

    def area_faults(self):
        if self.area >= MOST_PLACE or self.area + self.area_length > len(self.data):
            yield 402, 0, self.area_length

    def map_faults(self):
        if self.map + self.map_length > len(self.data):
            yield 403, 4, self.map_length
        if self.map_length < 28:
            yield 404, 12, self.map_length

    def type_list_faults(self):
        """The rules on the place of the type list and on how many types there are."""
        place = self.at(self.map + 24, 2)
        if not self.in_map(place, 2):
            yield 405, self.map + 24, place
            return
        self.types, self.names, self.count = place, self.at(self.map + 26, 2), (self.at(self.map + place, 2) + 1) % 65536
        if not self.in_map(place, 2 + 8 * self.count) or self.count > MOST_TYPES:
            yield 406, self.map + place, self.count

    def entries(self):
        """The places of the types in the fork."""
        return [self.map + self.types + 2 + 8 * k for k in range(self.count)]

    def lists(self):
        """Of each type whether its reference list is sound, the place of that list, and its count."""
        total = 0
        for entry in self.entries():
            count, place = (self.at(entry + 4, 2) + 1) % 65536, self.types + self.at(entry + 6, 2)
            total += count
            yield self.in_map(place, 12 * count) and total <= MOST_REFERENCES, self.map + place, count

    def sound_lists(self):
        """The places of the references of each type whose list is sound."""
        return [range(place, place + 12 * count, 12) for is_sound, place, count in self.lists() if is_sound]

    def list_faults(self):
        return ((407, place, count) for is_sound, place, count in self.lists() if not is_sound)

    def data_faults(self):
        for one in itertools.chain(*self.sound_lists()):
            place = self.at(one + 5, 3)
            stored = self.at(self.area + place, 4) if place + 4 <= self.area_length else 0
            if place + 4 + stored > self.area_length:
                yield 408, self.area + place, stored

    def name_faults(self):
        for one in itertools.chain(*self.sound_lists()):
            name = self.at(one + 2, 2)
            place = self.names + name
            if name != NO_NAME and not (self.in_map(place, 1) and self.in_map(place, 1 + self.at(self.map + place, 1))):
                yield 409, self.map + place, name

    def repeated(self):
        """Types that stand there again, and then ids that a type has again."""
        for places, size in [(self.entries(), 4)] + [(references, 2) for references in self.sound_lists()]:
            known = set()
            for place in places:
                value = self.at(place, size)
                if value in known:
                    yield 410, place, value
                known.add(value)


def breaks(data):
    """The broken rules of a fork."""
    if not data:
        return []
    if len(data) < 16:
        return [(401, 0, len(data))]
    fork = Fork(data)
    of_area, of_map = list(fork.area_faults()), list(fork.map_faults())
    types = [] if of_map else list(fork.type_list_faults())
    found = of_area + of_map + types
    if of_map or types:
        return found
    return found + [*fork.list_faults(), *([] if of_area else fork.data_faults()), *fork.name_faults(), *fork.repeated()]


def text_of(faults):
    """What `det` prints of broken rules."""
    return "".join("%d %s offset %d value %d\n" % (number, NAMES[number], place, value) for number, place, value in faults) + "broken %d\n" % len(faults)
