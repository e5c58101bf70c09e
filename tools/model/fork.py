"""The bytes of resource forks, written and read by the layout of docs/FORMATS.md alone.

A resource is a tuple of type, id, name, attribute byte and bytes. A comment of a case file names one so, as does a
line of the scripts that write cases:

    # fork 'Test' 128 "name" 20 = 0102    a resource: type, id, name, attribute byte, bytes
    # fork 'Test' 129                     one with no name, attributes 0 and no bytes
"""
import re
import sys

from model.breaks import NO_NAME, breaks
from model.faults import Refused

RESOURCE = re.compile(
    r"""# fork '(?P<type>.{4})' (?P<id>-?\d+)(?: "(?P<name>[^"]*)")?(?: (?P<attr>[0-9A-F]{2}))?(?: = (?P<bytes>.*))?$""")


def spelled(text):
    """The bytes of pieces like 0102, 00*240 and "abc" with blanks between them."""
    out = b""
    for piece in re.findall(r'"[^"]*"|[0-9A-Fa-f]+(?:\*\d+)?', text):
        if piece[0] == '"':
            out += piece[1:-1].encode()
        else:
            digits, _, times = piece.partition("*")
            out += bytes.fromhex(digits) * int(times or 1)
    return out


def resource_of(line):
    """The resource that a comment line names."""
    found = RESOURCE.match(line)
    if not found:
        sys.exit("not a resource: " + line)
    return (found["type"].encode("mac_roman"), int(found["id"]), spelled('"%s"' % (found["name"] or "")),
            int(found["attr"] or "0", 16), spelled(found["bytes"] or ""))


def number(value, size):
    return (value % (1 << 8 * size)).to_bytes(size, "big")


def fork_of(resources):
    """The one fork of a list of resources."""
    types = []
    for kind, *_ in resources:
        if kind not in types:
            types.append(kind)
    area, lists, names, entries = b"", b"", b"", b""
    for kind in types:
        group = [each for each in resources if each[0] == kind]
        entries += kind + number(len(group) - 1, 2) + number(2 + 8 * len(types) + len(lists), 2)
        for _, ident, name, attr, content in group:
            at_name = len(names) if name else 0xFFFF
            lists += number(ident, 2) + number(at_name, 2) + number(attr, 1) + number(len(area), 3) + bytes(4)
            names += number(len(name), 1) + name if name else b""
            area += number(len(content), 4) + content
    type_list = number(len(types) - 1, 2) + entries + lists
    map_length = 28 + len(type_list) + len(names)
    header = number(256, 4) + number(256 + len(area), 4) + number(len(area), 4) + number(map_length, 4)
    offsets = number(28, 2) + number(28 + len(type_list), 2)
    return header + bytes(240) + area + header + bytes(8) + offsets + type_list + names


def number_at(data, place, size):
    return int.from_bytes(data[place:place + size], "big")


def type_places(data, most=65536):
    """Of each type of a fork its place, and those of its references; of so many at most."""
    types = number_at(data, 4, 4)
    types += number_at(data, types + 24, 2)
    for k in range(min((number_at(data, types, 2) + 1) % 65536, most)):
        entry = types + 2 + 8 * k
        first, count = types + number_at(data, entry + 6, 2), min((number_at(data, entry + 4, 2) + 1) % 65536, most)
        yield entry, range(first, first + 12 * count, 12)


def admitted(data):
    """The resources of a fork, the attributes of its map and its reserved bytes, or the first broken rule."""
    for fault in breaks(data)[:1]:
        raise Refused(*fault)
    if not data:
        return [], 0, b""
    area, the_map, resources = number_at(data, 0, 4), number_at(data, 4, 4), []
    names = the_map + number_at(data, the_map + 26, 2)
    for entry, references in type_places(data):
        for one in references:
            name, begins = number_at(data, one + 2, 2), area + number_at(data, one + 5, 3)
            at = names + name
            resources.append((data[entry:entry + 4], (number_at(data, one, 2) + 32768) % 65536 - 32768,
                              b"" if name == NO_NAME else data[at + 1:at + 1 + data[at]], data[one + 4],
                              data[begins + 4:begins + 4 + number_at(data, begins, 4)]))
    ends = min(max(min(area, the_map), 16), 256, len(data))
    return resources, number_at(data, the_map + 22, 2), data[16:ends]


def image(resources, attributes=0, reserved=b""):
    """The one fork of a list of resources, the attributes of its map and its reserved bytes, or its limit's fault."""
    area = sum(4 + len(content) for *_, content in resources)
    if area > 16777216:
        raise Refused(302, area)
    length = 30 + 8 * len({kind for kind, *_ in resources}) + 12 * len(resources)
    if length > 65535:
        raise Refused(303, length)
    names = sum(1 + len(name) for _, _, name, *_ in resources if name)
    if names > 65535:
        raise Refused(304, names)
    fork = fork_of(resources)
    at = int.from_bytes(fork[4:8], "big") + 22
    return fork[:16] + reserved.ljust(240, b"\0") + fork[256:at] + number(attributes, 2) + fork[at + 2:]
