"""What a file is that rezkit doesn't read, by its first bytes.

`named` gives the name that TABLE has, `text`, or None. A short mark could stand at the beginning of any file; so where a
mark has fewer than four bytes, a second fact of the format is tested too.
"""
import struct

FIRST, CD = 4096, 32768  # so many bytes are looked at; an ISO 9660 image has its mark here
TEXT_CONTROLS = frozenset(b"\t\n\f\r")


def number(head, place, length):
    return int.from_bytes(head[place:place + length], "big")


def padded(length):
    return length + -length % 128


def is_hfs(head, size):
    """A master directory block: its mark, blocks of a multiple of 512 bytes, a name of at most 27 letters."""
    block = head[1024:1024 + 162]
    return (len(block) == 162 and block[:2] == b"BD" and number(block, 18, 2) > 0 and number(block, 20, 4) > 0
            and number(block, 20, 4) % 512 == 0 and 1 <= block[36] <= 27)


def is_hfs_plus(head, size):
    return head[1024:1028] in (b"H+\0\4", b"HX\0\5")


def is_mfs(head, size):
    """The mark of 1984, and a block size that is a multiple of 512."""
    return head[1024:1026] == b"\xD2\xD7" and len(head) >= 1061 and number(head, 1044, 4) % 512 == 0 and 1 <= head[1060] <= 27


def is_disk_copy(head, size):
    """DiskCopy 4.2: a name, sectors and tags that fill the file, and the mark at 82."""
    if len(head) < 84 or not 1 <= head[0] <= 63 or head[82:84] != b"\1\0":
        return False
    data, tags = struct.unpack(">II", head[64:72])
    return data > 0 and data % 512 == 0 and 84 + data + tags <= size


def is_stuffit(head, size):
    return head[10:14] == b"rLau" and head[:4] in (b"SIT!", b"ST46", b"ST50", b"ST60", b"ST65", b"STin", b"STi2", b"STi3", b"STi4")


def is_compact_pro(head, size):
    """The first part of an archive whose directory lies behind a file in it. There is no mark but 1 and 1."""
    return len(head) >= 8 and head[:2] == b"\1\1" and 8 <= number(head, 4, 4) <= size - 7 and number(head, 2, 2) > 0


def is_macbinary_1(head, size):
    """A header without a check sum: a name, forks that fill the file, and zeros after the dates."""
    if len(head) < 128 or head[0] or head[74] or head[82] or not 1 <= head[1] <= 63 or any(head[99:126]):
        return False
    data, fork = struct.unpack(">II", head[83:91])
    whole = 128 + padded(data) + padded(fork)
    letters = head[2:2 + head[1]] + head[65:73]
    return data + fork > 0 and whole - 127 <= size <= whole + 127 and min(letters) >= 32


def is_pict(head, size):
    """512 bytes of any kind, then a picture of version 1 or 2, whose frame isn't empty."""
    top, left, bottom, right = struct.unpack(">hhhh", head[514:522]) if len(head) >= 526 else (0, 0, 0, 0)
    return top < bottom and left < right and (head[522:524] == b"\x11\1" or head[522:526] == b"\0\x11\2\xFF")


def is_tar(head, size):
    return head[257:262] == b"ustar"


def is_lha(head, size):
    return head[2:5] == b"-lh" and head[6:7] == b"-"


def is_quicktime(head, size):
    return head[4:8] in (b"moov", b"mdat", b"ftyp", b"wide") and (number(head, 0, 4) == 1 or 8 <= number(head, 0, 4) <= size)


def is_bzip2(head, size):
    return head[:3] == b"BZh" and head[4:10] == b"1AY&SY"


def is_gzip(head, size):
    return head[:3] == b"\x1F\x8B\x08"


def is_jpeg(head, size):
    return head[:3] == b"\xFF\xD8\xFF"


def is_bmp(head, size):
    return head[:2] == b"BM" and head[6:10] == bytes(4) and int.from_bytes(head[2:6], "little") == size


def is_riff(kind):
    return lambda head, size: head[:4] == b"RIFF" and head[8:12] == kind


def is_iff(*kinds):
    return lambda head, size: head[:4] == b"FORM" and head[8:12] in kinds


def is_icns(head, size):
    return head[:4] == b"icns" and 8 <= number(head, 4, 4) <= size


def is_partitioned(head, size):
    return head[:2] == b"ER" and head[512:514] == b"PM"


def begins(*marks):
    """The test of marks of four bytes or more."""
    return lambda head, size: head.startswith(marks)


TABLE = (
    ("HFS disk image", is_hfs),
    ("HFS+ disk image", is_hfs_plus),
    ("MFS disk image", is_mfs),
    ("disk image with an Apple partition map", is_partitioned),
    ("DiskCopy 4.2 disk image", is_disk_copy),
    ("StuffIt archive", is_stuffit),
    ("StuffIt 5 archive", begins(b"StuffIt (c)1997-")),
    ("StuffIt X archive", begins(b"StuffIt!", b"StuffIt?")),
    ("Compact Pro archive", is_compact_pro),
    ("PackIt archive", begins(b"PMag", b"PMa4")),
    ("DiskDoubler file", begins(b"\xAB\xCD\0\x54")),
    ("MacBinary I", is_macbinary_1),
    ("zip archive", begins(b"PK\3\4", b"PK\5\6")),
    ("gzip file", is_gzip),
    ("bzip2 file", is_bzip2),
    ("xz file", begins(b"\xFD7zXZ\0")),
    ("7z archive", begins(b"7z\xBC\xAF\x27\x1C")),
    ("RAR archive", begins(b"Rar!\x1A\7")),
    ("LHA archive", is_lha),
    ("tar archive", is_tar),
    ("PNG", begins(b"\x89PNG\r\n\x1A\n")),
    ("GIF", begins(b"GIF87a", b"GIF89a")),
    ("JPEG", is_jpeg),
    ("TIFF", begins(b"MM\0*", b"II*\0")),
    ("BMP", is_bmp),
    ("PICT file", is_pict),
    ("icns", is_icns),
    ("Photoshop file", begins(b"8BPS\0\1")),
    ("PDF", begins(b"%PDF-")),
    ("PostScript", begins(b"%!PS")),
    ("RTF", begins(b"{\\rtf")),
    ("OLE document", begins(b"\xD0\xCF\x11\xE0\xA1\xB1\x1A\xE1")),
    ("AIFF", is_iff(b"AIFF", b"AIFC")),
    ("WAV", is_riff(b"WAVE")),
    ("MIDI", begins(b"MThd\0\0\0\6")),
    ("QuickTime movie", is_quicktime),
    ("TrueType font", begins(b"\0\1\0\0\0", b"true\0")),
    ("PEF program", begins(b"Joy!peff")),
    ("Mach-O program", begins(b"\xFE\xED\xFA\xCE", b"\xFE\xED\xFA\xCF", b"\xCE\xFA\xED\xFE", b"\xCF\xFA\xED\xFE")),
    ("ELF program", begins(b"\x7FELF")),
    ("SQLite database", begins(b"SQLite format 3\0")),
)


def named(head, size, at_cd=b""):
    """The name of a file by its first bytes, its length, and its bytes at CD; None where nothing fits."""
    if size == 0:
        return "empty"
    found = next((name for name, fits in TABLE if fits(head, size)), None)
    if not found and at_cd[1:6] == b"CD001":
        return "ISO 9660 disk image"
    return found or ("text" if is_text(head) else None)


def is_text(head):
    """Whether the bytes are letters: no control character but those of texts, and not more letters over 127 than plain ones."""
    if any(byte < 32 and byte not in TEXT_CONTROLS or byte == 127 for byte in head):
        return False
    high = sum(byte > 127 for byte in head)
    return high == 0 or is_utf8(head) or 2 * high < len(head)


def is_utf8(head):
    """Whether the bytes are UTF-8, of which the last letter may be cut."""
    try:
        head.decode("utf-8")
    except UnicodeDecodeError as fault:
        return fault.end == len(head) and len(head) - fault.start < 4 and fault.reason == "unexpected end of data"
    return True


def looks_like_fork(head, size):
    """Whether a header's four numbers are as those of a fork that was cut or changed later."""
    if len(head) < 16:
        return False
    area, the_map, data_length, map_length = struct.unpack(">IIII", head[:16])
    return 16 <= area < 1 << 24 and data_length <= 1 << 24 and 28 <= map_length <= 1 << 20 and the_map >= 16 and (
        area + data_length <= the_map or the_map + map_length <= area)
