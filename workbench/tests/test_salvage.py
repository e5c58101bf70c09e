"""rezkit-salvage: what it finds in damaged forks, what it writes, and what it never does."""
import os
import struct

import pytest
from model.fork import fork_of, image
from model.forms import double, hqx, macbin, single
from helpers import MEMORY, SECONDS, TYPES, WHOLE, mutants, names_in, read, rezkit, run, write
from rezkit_workbench import facts, guess, program, salvage

ICON = bytes(range(128)) + bytes([255]) * 128
LOST = fork_of([(b"STR#", 1, b"", 0, b"\0\2\1a\2bc"), (b"NONE", 1, b"", 0, b""), (b"ICN#", 1, b"", 0, ICON), (b"Data", 9, b"x", 0, b"\0\1\2")])
FOUND = ("read 'Lost' (0) \"00001.bin\"; // 7 bytes at 256, maybe 'STR#'\n"
         "read 'Lost' (1) \"00002.bin\"; // 256 bytes at 271, maybe 'ICN#' or 'ics8'\n"
         "read 'Lost' (2) \"00003.bin\"; // 3 bytes at 531\n").encode()
SUMMARY = b"3 resources in the bytes 256 to 538 of the fork\n1 of no bytes, which aren't written\n"
CONTENTS = {"00001.bin": b"\0\2\1a\2bc", "00002.bin": ICON, "00003.bin": b"\0\1\2"}


def without_map(fork):
    """The fork with a map that means nothing."""
    return fork[:538] + b"\xFF" * (len(fork) - 538)


def salvaged(tmp_path, data, *words, name="fork"):
    status, output, messages = run("rezkit-salvage", write(tmp_path, name, data), "-o", str(tmp_path / "out"), *words)
    folder = tmp_path / "out"
    return status, output, messages, {each: read(str(folder / each)) for each in names_in(folder)} if folder.exists() else None


LOST_IN_ZEROS = (b"3 resources in the bytes 256 to 650 of the fork\n"
                 b"29 of no bytes, which aren't written\n")  # 112 zeros after the area are 28 lengths


@pytest.mark.parametrize("data, summary", (
    (without_map(LOST), SUMMARY),
    (bytes(256) + LOST[256:], SUMMARY),                                                # the header is lost, the map isn't
    (LOST[:538], SUMMARY),                                                             # cut before the map
    (without_map(LOST)[:4] + bytes(4) + without_map(LOST)[8:], SUMMARY),               # the length of the area is left alone
    (struct.pack(">IIII", 9, 9, 9, 9) + LOST[16:538] + bytes(112), LOST_IN_ZEROS),     # a header that means nothing
), ids=("map", "header", "cut", "place", "odd"))
def test_a_fork_whose_map_or_header_is_lost(tmp_path, data, summary):
    assert salvaged(tmp_path, data) == (0, summary, "", dict(CONTENTS, **{"found1.r": FOUND}))


def test_a_fork_without_header_and_map(tmp_path):
    status, output, messages, found = salvaged(tmp_path, bytes(256) + without_map(LOST)[256:])
    assert found == dict(CONTENTS, **{"found1.r": FOUND, "rest.bin": b"\xFF" * 112}) and (status, messages) == (0, "")
    assert output == SUMMARY + b"at 538 a resource of 4294967295 bytes would end after the area: rest.bin has the bytes from there to 650\n"


def test_a_map_of_zeros_is_whole_and_tells_one_resource(tmp_path):
    status, output, messages, found = salvaged(tmp_path, LOST[:538] + bytes(112))
    assert (status, output, found) == (0, SUMMARY, dict(CONTENTS, **{"found1.r": FOUND}))
    assert messages == "rezkit-salvage: the map is whole, and tells resources: 1; `rezkit derez` shows them\n"


def test_the_source_reads_them_back(tmp_path):
    salvaged(tmp_path, without_map(LOST))
    rezkit("rez", "found1.r", "-o", "found1.rsrc", folder=str(tmp_path / "out"))
    with facts.Opened(str(tmp_path / "out" / "found1.rsrc")) as file:
        found = facts.facts_of(file)
        assert [(one.kind, one.ident, one.bytes_in(found.fork)) for one in found.resources()] == [
            (b"Lost", 0, CONTENTS["00001.bin"]), (b"Lost", 1, ICON), (b"Lost", 2, b"\0\1\2")]


def test_a_fork_that_is_cut_in_a_resource(tmp_path):
    status, output, _, found = salvaged(tmp_path, LOST[:400])
    assert sorted(found) == ["00001.bin", "found1.r", "rest.bin"]
    assert found["rest.bin"] == LOST[271:400] and found["found1.r"] == FOUND[:FOUND.index(b"\n") + 1]
    assert output == (b"1 resources in the bytes 256 to 271 of the fork\n1 of no bytes, which aren't written\n"
                      b"at 271 a resource of 256 bytes would end after the area: rest.bin has the bytes from there to 400\n")
    assert status == 0


def test_a_length_that_is_wrong_ends_the_walk(tmp_path):
    data = bytearray(LOST)
    data[271] = 0x7F
    status, output, _, found = salvaged(tmp_path, bytes(data))
    assert status == 0 and sorted(found) == ["00001.bin", "found1.r", "rest.bin"]
    assert b"at 271 a resource of 2130706688 bytes would end after the area" in output


def test_a_whole_fork_says_that_it_is_whole(tmp_path):
    status, output, messages, found = salvaged(tmp_path, LOST)
    assert (status, output, found) == (0, SUMMARY, dict(CONTENTS, **{"found1.r": FOUND}))
    assert messages == "rezkit-salvage: the map is whole, and tells resources: 4; `rezkit derez` shows them\n"


@pytest.mark.parametrize("make", (double, single, macbin, hqx))
def test_the_fork_of_each_form_whole_and_cut(tmp_path, make):
    status, _, messages, found = salvaged(tmp_path, make(WHOLE.but(res=without_map(LOST))))
    assert (status, messages, found) == (0, "", dict(CONTENTS, **{"found1.r": FOUND}))
    whole = make(WHOLE.but(res=LOST))
    os.rename(str(tmp_path / "out"), str(tmp_path / "first"))
    status, _, messages, found = salvaged(tmp_path, whole[:-150])
    assert status == 0 and messages.startswith("rezkit-salvage: the form ") and " is damaged too (" in messages
    assert found["00001.bin"] == CONTENTS["00001.bin"]


def test_binhex_whose_sum_is_wrong_gives_its_fork(tmp_path):
    text = bytearray(hqx(WHOLE.but(res=LOST)))
    text[56:57] = b"!"  # a letter of the type
    status, _, messages, found = salvaged(tmp_path, bytes(text))
    assert (status, found) == (0, dict(CONTENTS, **{"found1.r": FOUND}))
    assert messages.startswith("rezkit-salvage: the form hqx is damaged too (444 BadCrc: 1 ")


def test_runs_are_undone():
    assert salvage.without_runs(b"ab\x90\3c\x90\0\x90\2") == b"abbbc\x90\x90"
    assert salvage.without_runs(b"\x90\5") == b""


def test_sources_have_4000_resources_each_and_compile(tmp_path):
    area = b"".join(struct.pack(">I", 2) + struct.pack(">H", number) for number in range(4001))
    status, output, _, found = salvaged(tmp_path, bytes(256) + area)
    assert status == 0 and output == b"4001 resources in the bytes 256 to 24262 of the fork\n"
    assert found["found1.r"].count(b"\n") == 4000 and found["found2.r"] == b"read 'Lost' (0) \"04001.bin\"; // 2 bytes at 24256\n"
    rezkit("rez", "found1.r", "-o", "all.rsrc", folder=str(tmp_path / "out"))
    assert rezkit("derez", str(tmp_path / "out" / "all.rsrc")).count(b"data 'Lost'") == 4000


def test_more_than_16384_are_refused_without_f(tmp_path):
    data = bytes(256) + (struct.pack(">I", 1) + b"x") * 16385
    status, output, messages, found = salvaged(tmp_path, data)
    assert (status, output, found) == (1, b"", None)
    assert messages == "rezkit-salvage: %s: has more than 16384 resources (-f writes them all)\n" % (tmp_path / "fork")
    status, _, _, found = salvaged(tmp_path, data, "-f")
    assert status == 0 and len(found) == 16385 + 5
    assert salvaged(tmp_path / "out", data[:-5])[0] == 0


def test_nothing_found_is_refused(tmp_path):
    for data in (b"", b"\0", bytes(5000), b"text", macbin(WHOLE)[:100], image([])):
        status, output, messages, found = salvaged(tmp_path, data)
        assert (status, output, found) == (1, b"", None) and messages.endswith(": no resource was found\n")
    assert names_in(tmp_path) == ["fork"]


def test_nothing_is_overwritten_without_f(tmp_path):
    target = write(tmp_path, "target", b"mine")
    (tmp_path / "out").mkdir()
    os.symlink("../target", str(tmp_path / "out" / "00001.bin"))
    write(tmp_path / "out", "note", b"mine too")
    status, _, messages, _ = salvaged(tmp_path, without_map(LOST))
    assert status == 1 and messages == "rezkit-salvage: %s: is there already (-f writes into a folder)\n" % (tmp_path / "out")
    assert names_in(tmp_path / "out") == ["00001.bin", "note"]
    status, _, _, found = salvaged(tmp_path, without_map(LOST), "-f")
    assert status == 0 and found == dict(CONTENTS, note=b"mine too", **{"found1.r": FOUND})
    assert read(target) == b"mine" and not os.path.islink(str(tmp_path / "out" / "00001.bin"))
    write(tmp_path, "file", b"mine")
    status, _, messages = run("rezkit-salvage", str(tmp_path / "fork"), "-o", str(tmp_path / "file"), "-f")
    assert status == 1 and messages.endswith("/file: is there already (-f writes into a folder)\n") and read(str(tmp_path / "file")) == b"mine"


def test_a_full_disk_leaves_nothing(tmp_path):
    big = bytes(256) + struct.pack(">I", 200000) + bytes(200000)
    path = write(tmp_path, "fork", big)
    status, _, messages = run("rezkit-salvage", path, "-o", str(tmp_path / "out"), largest=100000)
    assert status == 1 and messages == "rezkit-salvage: %s/out/00001.bin: can't be written: File too large\n" % tmp_path
    assert names_in(tmp_path) == ["fork"]
    with open("/dev/full", "wb") as full:
        status, _, messages = run("rezkit-salvage", path, "-o", str(tmp_path / "out"), to=full)
    assert status == 1 and "standard output: can't be written" in messages and names_in(tmp_path / "out") == ["00001.bin", "found1.r"]


def test_odd_names_and_standard_input(tmp_path):
    for name in (b"-o", b"a b", b"it's", b"caf\xE9", b"new\nline", b"--"):
        write(tmp_path, name, without_map(LOST))
        status, _, messages = run("rezkit-salvage", "-o", name + b".out", "--", name, folder=str(tmp_path)) if not name.startswith(b"-") else run(
            "rezkit-salvage", "-o", b"./" + name + b".out", "--", name, folder=str(tmp_path))
        assert (status, messages) == (0, "")
        assert names_in(os.path.join(os.fsencode(str(tmp_path)), name + b".out").decode("utf-8", "surrogateescape")) == [
            "00001.bin", "00002.bin", "00003.bin", "found1.r"]
    assert run("rezkit-salvage", "-", "-o", str(tmp_path / "in"), given=without_map(LOST))[:2] == (0, SUMMARY)


def test_wrong_arguments(tmp_path):
    for words in ([], ["a"], ["-o", "x"], ["a", "-o", "-"], ["a", "b", "-o", "x"], ["a", "-o", "x", "-z"]):
        status, output, messages = run("rezkit-salvage", *words, folder=str(tmp_path))
        assert (status, output) == (2, b"") and messages
    status, _, messages = run("rezkit-salvage", "nofile", "-o", "x", folder=str(tmp_path))
    assert (status, messages) == (1, "rezkit-salvage: nofile: can't be read: No such file or directory\n")
    status, _, messages = run("rezkit-salvage", "fork", "-o", "no/where", folder=str(tmp_path), given=write(tmp_path, "fork", LOST[:538]) and b"")
    assert status == 1 and messages == "rezkit-salvage: no/where: can't be made: No such file or directory\n"
    assert run("rezkit-salvage", "--version")[:2] == (0, rezkit("--version"))


def test_100_mutated_files_in_this_process(tmp_path, capsysbinary):
    """The whole number is in tests/many.py."""
    ended = []
    for number, data in enumerate(mutants(11, 100)):
        ended.append(salvage.body([write(tmp_path, "f", data), "-o", str(tmp_path / str(number))]) if is_found(tmp_path, data) else 1)
    assert ended.count(0) > 25 and ended.count(1) > 25


def is_found(tmp_path, data):
    with facts.Opened(write(tmp_path, "g", data)) as file:
        return bool(salvage.best(salvage.fork_of(file)[0], 100).resources)


def test_many_lengths_of_zero_take_little_time_and_memory(tmp_path):
    path = write(tmp_path, "zeros", bytes(64 << 20))
    status, _, messages = run("rezkit-salvage", path, "-o", str(tmp_path / "out"), memory=MEMORY, cpu=SECONDS)
    assert status == 1 and messages.endswith(": no resource was found\n")
    path = write(tmp_path, "ones", bytes(256) + b"\0\0\0\1x" * 3000000)
    status, _, messages = run("rezkit-salvage", path, "-o", str(tmp_path / "out"), memory=MEMORY, cpu=SECONDS)
    assert status == 1 and "has more than 16384 resources" in messages


# Guesses.

RECTANGLE = b"\0\x28\0\x28\1\0\1\x80"
ITEM = bytes(4) + b"\0\x44\0\xE6\0\x58\1\x2A" + b"\4\4Save"
GUESSES = (
    (b"\5Hello", "STR "),
    (b"\0\2\1a\2bc", "STR#"),
    (b"\1\0\x80\0\0\0\0031.0\0061.0 US", "vers"),
    (b"\0\x80\0\0\0\0\0\0\0\0\xFF\xFF\xFF\xFF\4File\4Quit\0\x51\0\0\0", "MENU"),
    (b"\0\1" + ITEM + ITEM, "DITL"),
    (RECTANGLE + b"\0\1\1\0\0\0\0\0\0\0\0\x80\0", "DLOG"),
    (RECTANGLE + b"\0\0\1\0\1\0\0\0\0\0\3Win", "WIND"),
    (RECTANGLE + b"\0\x80\x44\x44", "ALRT"),
    (b"\0\x10" + RECTANGLE + b"\0\x11\2\xFF\x0C\0", "PICT"),
    (b"\0\x0E" + RECTANGLE + b"\x11\1\xA0\0\x82\xFF", "PICT"),
    (b"\0\1\0\1\0\5\0\0\0\xA0\0\1\x80\x51\0\0\0\0\0\x14", "snd "),
    (b"\0\2\0\0\0\1\x80\x51\0\0\0\0\0\x0E", "snd "),
    (bytes(6) + b"\0\1" + bytes(8) + b"\0\1\xFF\xFF\xFF\xFF\xFF\xFF", "clut"),
    (b"CAF \0\0\0\1FREF\0\0\0\0\0\x80ICN#\0\0\0\0\0\x80", "BNDL"),
    (b"Read me first.\r", "TEXT"),
)


def test_guesses_by_the_form_of_the_bytes():
    for data, kind in GUESSES:
        assert guess.kinds_of(data) == (kind,), kind
        assert guess.kinds_of(data + b"\0\1\2\3\4") != (kind,) or kind in ("PICT", "snd "), kind
    for length, kinds in ((8, ("PAT ",)), (64, ("ics#",)), (68, ("CURS",)), (128, ("ICON", "ics4")), (256, ("ICN#", "ics8")),
                          (512, ("icl4",)), (1024, ("icl8",)), (100, ())):
        assert guess.kinds_of(bytes([1, 2, 3, 0x91] * 256)[:length]) == kinds
    for data in (b"", b"\0", b"\0\0", b"\xFF" * 5, bytes(12), bytes(14), bytes(30)):
        assert guess.kinds_of(data) == () or len(data) == 8, data


def test_standard_types_of_the_examples_are_guessed(tmp_path):
    rezkit("rez", "examples/App.r", "-i", TYPES, "-o", str(tmp_path / "App.rsrc"), folder=os.path.dirname(TYPES))
    with facts.Opened(str(tmp_path / "App.rsrc")) as file:
        found = facts.facts_of(file)
    assert [(one.kind.decode(), guess.kinds_of(one.bytes_in(found.fork))[0]) for one in found.resources()] == [
        (kind, kind) for kind in ("vers", "MENU", "ALRT", "DITL", "STR#", "ICN#")]
    assert program.path()
