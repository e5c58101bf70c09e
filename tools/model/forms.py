"""Files in the forms raw, AppleDouble, AppleSingle, MacBinary and BinHex, written and read by the layouts of
docs/FORMATS.md alone.

It knows nothing of the code. The CRC is that of Python's binascii; the fields, the run codes and the letters of BinHex
are written and read here a second time. bridge_cases.py, carried_cases.py and lists.py stand on it.
"""
import binascii
import re
import struct

from model.faults import Refused

ALPHABET = "!\"#$%&'()*+,-012345689@ABCDEFGHIJKLMNPQRSTUVXYZ[`abcdefhijklmpqr"
MOST = 33554432


class File:
    """A file with both forks and what the Finder keeps."""

    def __init__(self, name=b"", kind=b"????", creator=b"????", flags=0, vertical=0, horizontal=0, folder=0,
                 extra=bytes(16), locked=False, created=0, modified=0, data=b"", res=b""):
        self.name, self.kind, self.creator, self.flags = name, kind, creator, flags
        self.vertical, self.horizontal, self.folder, self.extra = vertical, horizontal, folder, extra
        self.locked, self.created, self.modified, self.data, self.res = locked, created, modified, data, res

    def but(self, **fields):
        """The same file with other fields."""
        new = File()
        new.__dict__.update(self.__dict__)
        new.__dict__.update(fields)
        return new


def padded(data):
    return data + bytes(-len(data) % 128)


def crc(data):
    return binascii.crc_hqx(data, 0)


def macbin(f):
    """The file as MacBinary III."""
    head = bytearray(128)
    head[1] = len(f.name)
    head[2:2 + len(f.name)] = f.name
    head[65:69], head[69:73] = f.kind, f.creator
    head[73], head[101] = f.flags >> 8, f.flags & 255
    head[75:81] = struct.pack(">hhh", f.vertical, f.horizontal, f.folder)
    head[81] = int(f.locked)
    head[83:99] = struct.pack(">IIII", len(f.data), len(f.res), f.created, f.modified)
    head[102:108] = b"mBIN" + f.extra[8:10]
    head[122:124] = bytes([130, 129])
    head[124:126] = struct.pack(">H", crc(bytes(head[:124])))
    return bytes(head) + padded(f.data) + padded(f.res)


NO_DATE = 1 << 31
FIRST_DATE = 882045953
FIRST_OF_2000 = 3029529600
FORMS = ("raw", "double", "single", "macbin", "hqx")
MAGICS = {"double": 0x00051607, "single": 0x00051600}


def stored_date(seconds):
    """A date of AppleDouble and AppleSingle: seconds since the first of 2000, with a sign."""
    return struct.pack(">i", seconds - FIRST_OF_2000 if FIRST_DATE <= seconds else -NO_DATE)


def mac_date(stored):
    """The seconds since the first of 1904 of such a date; 0 where it is none or doesn't fit."""
    seconds = struct.unpack(">i", stored)[0] + FIRST_OF_2000
    return seconds if FIRST_DATE <= seconds < 1 << 32 else 0


def double(f):
    """The header file of AppleDouble, without the data fork."""
    return entries_of("double", parts_of("double", f))


def single(f):
    """The file as AppleSingle, with both forks."""
    return entries_of("single", parts_of("single", f))


def dated(f, *dates, form="double"):
    """The same with other bytes as its dates, or without any."""
    return entries_of(form, [part for each in parts_of(form, f) for part in ([each] if each[0] != 8 else [(8, d) for d in dates])])


def parts_of(form, f):
    """What AppleDouble or AppleSingle keeps of a file, by the ids of its entries."""
    info = f.kind + f.creator + struct.pack(">Hhhh", f.flags, f.vertical, f.horizontal, f.folder) + f.extra
    dates = stored_date(f.created) + stored_date(f.modified) + 2 * stored_date(0)
    return ([(3, f.name[:255])] if f.name else []) + [(8, dates), (9, info)] + [(1, f.data)] * (form == "single") + [(2, f.res)]


def entries_of(form, parts, version=0x00020000, filler=bytes(16)):
    """A file of AppleDouble or AppleSingle with these entries, their bytes in the same order."""
    place, entries = 26 + 12 * len(parts), b""
    for ident, content in parts:
        entries += struct.pack(">III", ident, place, len(content))
        place += len(content)
    return (struct.pack(">II", MAGICS[form], version) + filler + struct.pack(">H", len(parts)) + entries
            + b"".join(content for _, content in parts))


def runs(data):
    """The bytes with runs of 4 and more as codes."""
    out, k = b"", 0
    while k < len(data):
        n = 1
        while k + n < len(data) and data[k + n] == data[k] and n < 255:
            n += 1
        one = b"\x90\x00" if data[k] == 0x90 else data[k:k + 1]
        out += one + bytes([0x90, n]) if n >= 4 else one * n
        k += n
    return out


def checked(data):
    return data + struct.pack(">H", crc(data))


def hqx(f):
    """The file as the text of BinHex 4.0."""
    return hqx_text(checked(hqx_head(f)) + checked(f.data) + checked(f.res))


def hqx_head(f):
    """The fields of BinHex before the forks, without their CRC."""
    return (bytes([len(f.name)]) + f.name + b"\0" + f.kind + f.creator
            + struct.pack(">HII", f.flags, len(f.data), len(f.res)))


def hqx_text(plain):
    """The text of BinHex of the bytes of its fields."""
    bits = "".join(format(b, "08b") for b in runs(plain))
    bits += "0" * (-len(bits) % 6)
    body = ":" + "".join(ALPHABET[int(bits[k:k + 6], 2)] for k in range(0, len(bits), 6)) + ":"
    lines = [body[k:k + 64] for k in range(0, len(body), 64)]
    return ("(This file must be converted with BinHex 4.0)\n" + "".join(line + "\n" for line in lines)).encode()


def written(form, f):
    """The file in a form, or the refusal of its writer."""
    if form == "raw":
        return f.res
    if form in ("macbin", "hqx") and not 1 <= len(f.name) <= 63:
        raise Refused(425, len(f.name))
    for part in (f.data, f.res):
        if len(part) > MOST:
            raise Refused(428, len(part))
    return {"macbin": macbin, "hqx": hqx, "double": double, "single": single}[form](f)


def form_of(data):
    """The form that the first bytes tell."""
    if not data:
        return "raw"
    for form, magic in MAGICS.items():
        if data[:4] == struct.pack(">I", magic):
            return form
    if data[0] != 0:
        return "hqx"
    if len(data) >= 128 and 1 <= data[1] <= 63 and data[74] == data[82] == 0 and data[122] >= 129 and data[123] >= 129:
        return "macbin"
    return "raw"


def read_entries(form, data):
    """The file of AppleDouble, whose header file has no data fork, or of AppleSingle."""
    if len(data) < 26:
        raise Refused(421, len(data))
    magic, version = struct.unpack(">II", data[:8])
    if magic != MAGICS[form]:
        raise Refused(422, magic)
    if version not in (0x00010000, 0x00020000):
        raise Refused(427, version)
    count = struct.unpack(">H", data[24:26])[0]
    if 26 + 12 * count > len(data):
        raise Refused(423, count)
    parts = {}
    for k in range(count):
        ident, place, length = struct.unpack(">III", data[26 + 12 * k:38 + 12 * k])
        if length and place + length > len(data):
            raise Refused(423, ident)
        parts.setdefault(ident, data[place:place + length])
    info = parts.get(9, b"")[:32].ljust(32, b"\0")
    dates = parts.get(8, b"")
    created, modified = (mac_date(dates[:4]), mac_date(dates[4:8])) if len(dates) >= 8 else (0, 0)
    flags, vertical, horizontal, folder = struct.unpack(">Hhhh", info[8:16])
    return File(name=parts.get(3, b"")[:255], kind=info[:4], creator=info[4:8], flags=flags, vertical=vertical,
                horizontal=horizontal, folder=folder, extra=info[16:], created=created, modified=modified,
                data=parts.get(1, b"") if form == "single" else b"", res=parts.get(2, b""))


def read_macbin(data):
    """The file of MacBinary."""
    if len(data) < 128:
        raise Refused(421, len(data))
    for place, least in ((0, 0), (74, 0), (82, 0), (122, 129), (123, 129)):
        if (data[place] != 0) if least == 0 else (data[place] < least):
            raise Refused(422, data[place])
    if data[123] > 129:
        raise Refused(427, data[123])
    stored = struct.unpack(">H", data[124:126])[0]
    if stored != crc(data[:124]):
        raise Refused(424, 0, stored, crc(data[:124]))
    if not 1 <= data[1] <= 63:
        raise Refused(425, data[1])
    lengths = struct.unpack(">IIII", data[83:99])
    place, forks = 128 + len(padded(bytes(struct.unpack(">H", data[120:122])[0]))), []
    for length in lengths[:2]:
        if length and place + length > len(data):
            raise Refused(426, length)
        forks.append(data[place:place + length])
        place += length + -length % 128
    vertical, horizontal, folder = struct.unpack(">hhh", data[75:81])
    two = data[106:108] if data[102:106] == b"mBIN" else bytes(2)
    return File(name=data[2:2 + data[1]], kind=data[65:69], creator=data[69:73], flags=data[73] << 8 | data[101],
                vertical=vertical, horizontal=horizontal, folder=folder, extra=bytes(8) + two + bytes(6), locked=bool(data[81] & 1),
                created=lengths[2], modified=lengths[3], data=forks[0], res=forks[1])


def read_letters(data):
    """The bytes that the letters of a BinHex text make, before runs are undone."""
    found = re.search(rb"(?:\A|[\r\n])\(This file must be converted with BinHex[^\r\n]*[\r\n](.*)", data, re.S)
    rest = found[1].lstrip(b" \t\r\n") if found else b""
    if rest[:1] != b":":
        raise Refused(441, 0)
    bits = ""
    for byte in rest[1:]:
        if byte == 0x3A:
            return bytes(int(bits[k:k + 8], 2) for k in range(0, len(bits) - 7, 8))
        if byte in b" \t\r\n":
            continue
        if chr(byte) not in ALPHABET:
            raise Refused(442, byte)
        bits += format(ALPHABET.index(chr(byte)), "06b")
    raise Refused(443, len(data))


def read_runs(packed):
    """The bytes with runs undone."""
    out, k = b"", 0
    while k < len(packed):
        if packed[k] != 0x90:
            out, k = out + packed[k:k + 1], k + 1
        elif k + 1 == len(packed):
            raise Refused(445, 1)
        elif packed[k + 1] == 0:
            out, k = out + b"\x90", k + 2
        elif not out:
            raise Refused(446, packed[k + 1])
        else:
            out, k = out + out[-1:] * (packed[k + 1] - 1), k + 2
    return out


def read_hqx(data):
    """The file of BinHex."""
    plain = read_runs(read_letters(data))
    place = 0

    def take(length):
        nonlocal place
        if place + length > len(plain):
            raise Refused(445, len(plain) - place)
        place += length
        return plain[place - length:place]

    def check(number, part):
        stored = struct.unpack(">H", take(2))[0]
        if stored != crc(part):
            raise Refused(444, number, stored, crc(part))

    length = take(1)[0]
    if not 1 <= length <= 63:
        raise Refused(447, length)
    name, _ = take(length), take(1)
    kind, creator = take(4), take(4)
    flags, data_length, res_length = (int.from_bytes(take(size), "big") for size in (2, 4, 4))
    check(1, plain[:place])
    own = take(data_length)
    check(2, own)
    res = take(res_length)
    check(3, res)
    return File(name=name, kind=kind, creator=creator, flags=flags, data=own, res=res)


def read_form(form, data):
    """The file that the bytes are in a form."""
    if form == "raw":
        return File(res=data)
    if form in MAGICS:
        return read_entries(form, data)
    return {"macbin": read_macbin, "hqx": read_hqx}[form](data)
