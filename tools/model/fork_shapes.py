"""Forks of other layouts than the one that rezkit writes, put together by the layout of docs/FORMATS.md alone.

References may share bytes, names and lists, types may have no references, and the parts may stand in any order. A
fork is made of its types, of reference lists, of a data area and of names, whose places are counted in bytes by
whoever makes it.
"""
from model.fork import number

ABSENT = 0xFFFF


def held(*contents):
    """A data area of these contents."""
    return b"".join(number(len(content), 4) + content for content in contents)


def named(*names):
    """A name list of these names."""
    return b"".join(bytes([len(name)]) + name for name in names)


def reference(ident, place=0, name=ABSENT, attr=0):
    """A reference: an id, the place of its bytes in the data area, that of its name in the name list, and attributes."""
    return number(ident, 2) + number(name, 2) + number(attr, 1) + number(place, 3) + bytes(4)


def each(*groups):
    """Types with a list each, one list after the other: the types and the lists, as `laid` takes them."""
    types, lists = [], b""
    for kind, references in groups:
        types.append((kind, len(references), len(lists)))
        lists += b"".join(references)
    return types, lists


def laid(types, lists, area=held(b""), names=b"", attributes=0, reserved=b"", parts="dm", copy=None, shift=0):
    """The bytes of a fork. Each type has a code, a number of references, and the place of its list in the lists. The parts
    after the header and its reserved bytes are the data area, `d`, the map, `m`, and four other bytes, `x`, in any order;
    `copy` stands in the map in place of the copy of the header, and the name list begins `shift` bytes before the names."""
    begins = 2 + 8 * len(types)
    entries = b"".join(code_of(kind) + number(count - 1, 2) + number(begins + place, 2) for kind, count, place in types)
    type_list = number(len(types) - 1, 2) + entries + lists
    length = 28 + len(type_list) + len(names)
    front, places = 16 + (240 if "x" not in parts else len(reserved)), {}
    for part in parts:
        places[part] = front
        front += {"d": len(area), "m": length, "x": 4}[part]
    header = number(places["d"], 4) + number(places["m"], 4) + number(len(area), 4) + number(length, 4)
    offsets = number(28, 2) + number(28 + len(type_list) - shift, 2)
    the_map = (header if copy is None else copy) + bytes(6) + number(attributes, 2) + offsets + type_list + names
    room = min(places.values()) - 16
    return header + reserved.ljust(room, b"\0") + b"".join({"d": area, "m": the_map, "x": b"else"}[part] for part in parts)


def code_of(kind):
    return kind.encode("mac_roman") if isinstance(kind, str) else kind
