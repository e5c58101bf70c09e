"""Files that rezkit doesn't read: for each the name that is stated, by bytes that stand here."""
import json
import struct

import pytest
from model.forms import hqx, macbin
from helpers import FORK, WHOLE, run, write


def at(*parts, length=0):
    """Bytes with others at places of theirs: (place, bytes).."""
    out = bytearray(length)
    for place, data in parts:
        out[len(out):] = bytes(max(0, place + len(data) - len(out)))
        out[place:place + len(data)] = data
    return bytes(out)


HFS = at((1024, b"BD"), (1042, b"\x06\x40\0\0\x02\0"), (1060, b"\x06System"), length=2048)
MFS = at((1024, b"\xD2\xD7"), (1042, b"\x01\x87\0\0\x04\0"), (1060, b"\x06System"), length=2048)
DISK_COPY = at((0, b"\x04Disk"), (64, struct.pack(">II", 512, 12)), (80, b"\0\x22\1\0"), length=84 + 524)
MACBINARY_1 = at((1, b"\x04Note"), (65, b"TEXTttxt"), (83, struct.pack(">II", 3, 0)), (91, b"\xA0\0\0\0\xA0\0\0\0"), (128, b"Hi!"), length=256)
PICT = at((514, struct.pack(">hhhh", 0, 0, 10, 10)), (522, b"\0\x11\2\xFF"), length=600)
PICT_1 = at((512, b"\0\x20\0\0\0\0\0\x0A\0\x0A\x11\1"), length=600)

HEADS = (
    (HFS, "HFS disk image"),
    (at((1024, b"H+\0\4"), length=2048), "HFS+ disk image"),
    (at((1024, b"HX\0\5"), length=2048), "HFS+ disk image"),
    (MFS, "MFS disk image"),
    (at((0, b"ER\2\0"), (512, b"PM"), length=1024), "disk image with an Apple partition map"),
    (DISK_COPY, "DiskCopy 4.2 disk image"),
    (at((32768, b"\1CD001\1"), length=34816), "ISO 9660 disk image"),
    (b"SIT!\0\1\0\0\1\0rLau\1\0", "StuffIt archive"),
    (b"StuffIt (c)1997-1999 Aladdin Systems, Inc.", "StuffIt 5 archive"),
    (b"StuffIt!" + bytes(20), "StuffIt X archive"),
    (b"\1\1\x53\xC6\0\0\0\x0C" + bytes(20), "Compact Pro archive"),
    (b"PMag\4Read", "PackIt archive"),
    (b"\xAB\xCD\0\x54" + bytes(80), "DiskDoubler file"),
    (MACBINARY_1, "MacBinary I"),
    (b"PK\3\4\x14\0", "zip archive"),
    (b"PK\5\6" + bytes(18), "zip archive"),
    (b"\x1F\x8B\x08\0", "gzip file"),
    (b"BZh91AY&SY", "bzip2 file"),
    (b"\xFD7zXZ\0\0\4", "xz file"),
    (b"7z\xBC\xAF\x27\x1C\0\4", "7z archive"),
    (b"Rar!\x1A\7\0", "RAR archive"),
    (b"\x22\x5B-lh5-\0", "LHA archive"),
    (at((0, b"Read"), (257, b"ustar"), length=512), "tar archive"),
    (b"\x89PNG\r\n\x1A\n\0\0\0\rIHDR", "PNG"),
    (b"GIF89a\1\0\1\0", "GIF"),
    (b"\xFF\xD8\xFF\xE0\0\x10JFIF", "JPEG"),
    (b"MM\0*\0\0\0\x08", "TIFF"),
    (b"II*\0\x08\0\0\0", "TIFF"),
    (at((0, b"BM\x3A\0\0\0"), (10, b"\x36"), length=58), "BMP"),
    (PICT, "PICT file"),
    (PICT_1, "PICT file"),
    (b"icns\0\0\0\x10TOC \0\0\0\x08", "icns"),
    (b"8BPS\0\1" + bytes(6), "Photoshop file"),
    (b"%PDF-1.2\r", "PDF"),
    (b"%!PS-Adobe-3.0\r", "PostScript"),
    (b"{\\rtf1\\mac", "RTF"),
    (b"\xD0\xCF\x11\xE0\xA1\xB1\x1A\xE1" + bytes(8), "OLE document"),
    (b"FORM\0\0\0\4AIFC", "AIFF"),
    (b"RIFF\4\0\0\0WAVE", "WAV"),
    (b"MThd\0\0\0\6\0\1\0\2\0\x60", "MIDI"),
    (b"\0\0\0\x10ftypqt  \0\0\0\0", "QuickTime movie"),
    (b"\0\1\0\0\0\x0C\0\x80", "TrueType font"),
    (b"Joy!peffpwpc", "PEF program"),
    (b"\xFE\xED\xFA\xCE\0\0\0\x12", "Mach-O program"),
    (b"\x7FELF\2\1\1", "ELF program"),
    (b"SQLite format 3\0\x10\0", "SQLite database"),
    (b"BD is how this text begins.\n", "text"),
    (b"BM, PK, II and MM begin words as well.\r", "text"),
    (b"The end is na\x95ve in Mac Roman\r", "text"),
    ("Größe\n".encode(), "text"),
    (b"A", "text"),
    (b"", "empty"),
    (b"\0", "unknown"),
    (bytes(4096), "unknown"),
    (b"\x93\x01\x80\x81\x82", "unknown"),
    (at((1024, b"BD"), length=2048), "unknown"),
    (MACBINARY_1[:125] + b"\1" + MACBINARY_1[126:], "unknown"),
)


def test_there_are_forty_heads_and_more():
    assert len({name for _, name in HEADS}) > 40


def test_each_head_has_its_name(tmp_path):
    """All in one run, by the names of the files."""
    for number, (data, _) in enumerate(HEADS):
        write(tmp_path, "%02d" % number, data)
    status, output, messages = run("rezkit-ls", "--json", "-j", "2", ".", folder=tmp_path)
    rows = [json.loads(line) for line in output.splitlines()]
    assert [(row["path"], row["what"]) for row in rows] == [("./%02d" % number, name) for number, (_, name) in enumerate(HEADS)]
    assert {row["fault"] for row in rows} == {None} and {row["form"] for row in rows} == {None}
    assert (status, messages) == (0, "")


def test_each_head_has_its_name_in_a_file_that_is_too_long_to_be_read(tmp_path):
    for number, (data, _) in enumerate(HEADS):
        path = write(tmp_path, "%02d" % number, data)
        with open(path, "r+b") as file:
            file.truncate((128 << 20) + 1)
    status, output, _ = run("rezkit-ls", "--json", ".", folder=tmp_path, seconds=30)
    rows = [json.loads(line)["what"] for line in output.splitlines()]
    by_length = {"MacBinary I", "icns", "BMP"}  # whose length is a part of the test
    wanted = [name for _, name in HEADS]
    assert [what for what, name in zip(rows, wanted) if name not in by_length | {"text", "empty", "unknown"}] == [
        name for name in wanted if name not in by_length | {"text", "empty", "unknown"}]
    assert status == 0


def damaged_hqx(place, byte):
    text = bytearray(hqx(WHOLE))
    text[place:place + 1] = byte
    return bytes(text)


WRONG_SUM = bytearray(macbin(WHOLE))
WRONG_SUM[124] ^= 0xFF


DAMAGED = (
    (bytes(WRONG_SUM), "macbin", "MacBinary with a wrong sum", "424 BadCrc: 0 "),
    (damaged_hqx(70, b"!"), "hqx", "BinHex 4.0 with a wrong sum", "444 BadCrc: 1 "),
    (hqx(WHOLE)[:90], "hqx", "BinHex 4.0", "443 NoEnd: 90"),
    (macbin(WHOLE)[:300], "macbin", "MacBinary", "426 Truncated: "),
    (FORK[:100], "raw", "resource fork", "402 DataAreaOutside offset 0 value 16"),
    (FORK[:-1], "raw", "resource fork", "403 MapOutside offset 4 value 75"),
    (b"\0\5\x16\7" + bytes(30), "double", "AppleDouble", "427 NewerVersion: 0"),
    (b"\0\5\x16\0\0\2", "single", "AppleSingle", "421 ShortHeader: 6"),
)


@pytest.mark.parametrize("data, form, what, fault", DAMAGED, ids=[row[3][:3] for row in DAMAGED])
def test_damaged_files_keep_their_form_and_tell_the_fault(tmp_path, data, form, what, fault):
    status, output, messages = run("rezkit-ls", "--json", write(tmp_path, "file", data))
    row = json.loads(output)
    assert (row["form"], row["what"], row["resources"]) == (form, what, None)
    assert row["fault"].startswith(fault)
    assert (status, messages) == (1, "")
