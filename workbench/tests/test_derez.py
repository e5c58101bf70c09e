"""DeRez as a program: its options, its text, its messages and statuses, and hostile input."""
import os
import random

import pytest
from rez_running import FILE, MEMORY, REZKIT, SECONDS, read, run, write

SOURCE = """#include "Types.r"
resource 'STR ' (128, "Caf\\0x8E \\"x\\"") { "A\\0x8E\\0x01\\\\" };
resource 'STR ' (-5) { "B" };
resource 'STR ' (200, "last", purgeable) { "C" };
data 'Te\\0xA5t' (1) { $"00" };
resource 'STR#' (128) { { "x"; "y" } };
"""
SHOWN = {
    128: "resource 'STR ' (128, \"Caf\\0x8E \\\"x\\\"\") {\n    \"A\\0x8E\\0x01\\\\\"\n};\n\n",
    -5: "resource 'STR ' (-5) {\n    \"B\"\n};\n\n",
    200: "resource 'STR ' (200, \"last\", purgeable) {\n    \"C\"\n};\n\n",
    1: "data 'Te\\0xA5t' (1) {\n    $\"00\"\n};\n\n",
    2: "resource 'STR#' (128) {\n    {\n        \"x\",\n        \"y\"\n    }\n};\n\n",
}
NEEDS_FILE = "DeRez: the file with the fork is missing; DeRez --help tells the usage\n"


@pytest.fixture
def folder(tmp_path):
    write(tmp_path, {"a.r": SOURCE})
    assert run("Rez", ["a.r", "-o", "App"], tmp_path) == (0, b"", "")
    return tmp_path


def shown(*numbers):
    return "".join(SHOWN[number] for number in numbers).encode("ascii")


def derez(words, folder, given=b"", limits=(), **environment):
    return run("DeRez", words, folder, given, limits, **environment)


def test_types_are_found_by_their_name(folder):
    assert derez(["App", "Types.r"], folder) == (0, shown(128, -5, 200, 1, 2), "")
    write(folder, {"mine/Types.r": "type 'STR ' { pstring; };\n"})
    assert derez(["App", "Types.r", "-i", "mine", "-only", "STR#"], folder)[1].startswith(b"data 'STR#'")
    assert derez(["App"], folder) == run(REZKIT, ["derez", "App"], folder)


@pytest.mark.parametrize("words, numbers", [
    (["-only", "STR "], (128, -5, 200)),
    (["-only", "'STR '"], (128, -5, 200)),
    (["-only", "'STR ' (128)"], (128,)),
    (["-only", "STR (-5:128)"], (128, -5)),
    (["-only", "'STR '($80)"], (128,)),
    (["-only", "'STR ' (\"last\")"], (200,)),
    (["-only", "'STR ' \"last\""], (200,)),
    (["-only", "'STR ' (\"Café \"x\"\")"], (128,)),
    (["-only", "'STR ' (\"LAST\")"], ()),
    (["-only", "'STR ' (-5)", "-only", "STR#"], (-5, 2)),
    (["-only", "Te•t"], (1,)),
    (["-only", "'Te\\0xA5t'"], (1,)),
    (["-skip", "'STR ' (128:200)"], (-5, 1, 2)),
    (["-s", "STR "], (1, 2)),
    (["-skip", "STR ", "-skip", "'STR#' (128)"], (1,)),
    (["-only", "STR ", "-skip", "'STR ' (\"last\")"], (128, -5)),
    (["-only", "NONE"], ()),
])
def test_resources_that_are_meant(folder, words, numbers):
    assert derez(["App", "Types.r", *words], folder) == (0, shown(*numbers), "")


def test_characters_as_they_are(folder):
    text = shown(128, 1).replace(b"\\0x8E", b"\x8e").replace(b"\\0xA5", b"\xa5")
    assert derez(["App", "Types.r", "-e", "-skip", "'STR ' (-5:127)", "-only", "'STR ' (128)", "-only", "Te•t"], folder) == (0, text, "")
    write(folder, {"again.r": b"#include \"Types.r\"\n" + derez(["App", "Types.r", "-escape"], folder)[1]})
    assert run("Rez", ["again.r", "-o", "again"], folder) == (0, b"", "")
    assert read(folder, "again") == read(folder, "App")


def test_a_name_over_several_lines(folder):
    name = "n" * 200
    write(folder, {"b.r": "data 'TEXT' (1, \"%s\") { \"};\" };\ndata 'TEXT' (2) { \"x\" };" % name})
    assert run("Rez", ["b.r", "-o", "b"], folder) == (0, b"", "")
    status, text, _ = derez(["b", "-only", "'TEXT' (\"%s\")" % name], folder)
    assert (status, text.count(b"data"), text.endswith(b"};\n\n")) == (0, 1, True)
    assert derez(["b", "-only", "'TEXT' (2)"], folder) == (0, b"data 'TEXT' (2) {\n    $\"78\"\n};\n\n", "")


def test_type_files_are_mended(folder):
    write(folder, {"mine.r": "#include <Types.r>\n#pragma once\n#define Field(n) integer; // caf\u00e9\ntype 'Te\u2022t' { byte = 0L; };\n"})
    told = "DeRez: mine.r: is UTF-8 without a byte order mark, and is read as UTF-8\n"
    assert derez(["App", "mine.r", "-only", "Te•t"], folder) == (0, b"resource 'Te\\0xA5t' (1) {\n};\n\n", told)
    write(folder, {"bad.r": "\n\ntype X;"})
    assert derez(["App", "bad.r"], folder) == (2, b"", "rezkit: bad.r:3: error 201 Syntax\n")


def test_macros_and_folders(folder):
    write(folder, {"inc/b.r": "#if kOne\ntype 'STR#' { hex string; };\n#endif\n", "b.r": "#include \"b1.r\"\n", "inc/b1.r": "#include <C.R>\n", "inc/c.r": "#if kOne\n#endif\n"})
    wanted = b"resource 'STR#' (128) {\n    $\"0002 0178 0179\"\n};\n\n"
    for words in (["-dkOne=1L", "-i", "inc"], ["-D", "kOne", "-Iinc"]):
        assert derez(["App", "inc/b.r", "-only", "STR#", *words], folder) == (0, wanted, "")
    assert derez(["App", "b.r", "-DkOne", "-i", "inc", "-only", "STR#"], folder)[0] == 0


def test_standard_streams(folder):
    assert derez(["-", "Types.r"], folder, read(folder, "App")) == (0, shown(128, -5, 200, 1, 2), "")
    assert derez(["App", "-"], folder, b"type 'STR ' { pstring; };")[1].startswith(b"resource 'STR ' (128")


@pytest.mark.parametrize("name", ["-x", "a b", "a\"b'c", "é", "日", b"\xff\xfe", "a\nb", "$(x)", "a\\b"])
def test_odd_names(folder, name):
    write(folder, {name: read(folder, "App"), (os.fsencode(name) + b".r"): "type 'STR ' { pstring; };"})
    words = ["-only", "'STR ' (-5)", "--", os.fsdecode(name), os.fsdecode(name) + ".r"]
    assert derez(words, folder) == (0, shown(-5), "")


def test_a_link_is_read(folder):
    os.symlink("App", folder / "link")
    assert derez(["link", "Types.r", "-only", "STR#"], folder) == (0, shown(2), "")


@pytest.mark.parametrize("words, wanted", [
    ([], NEEDS_FILE), (["-only", "STR "], NEEDS_FILE),
    (["App", "-only"], "DeRez: -only: its value is missing\n"),
    (["App", "-only", "AB"], "DeRez: -only: AB isn't four characters of Mac Roman\n"),
    (["App", "-only", "STR (x)"], "DeRez: -only: x is no id\n"),
    (["App", "-only", "STR ;"], "DeRez: -only: STR ; is no type with ids or a name\n"),
    (["App", "-skip", "'STR' (1)"], "DeRez: -skip: STR isn't four characters of Mac Roman\n"),
    (["App", "-o", "x"], "DeRez: -o isn't an option; DeRez --help tells them\n"),
    (["App", "-from", "x"], "DeRez: usage: x\n"),
    (["App", "-script", "Korean"], "DeRez: -script: Korean isn't taken: rezkit reads characters of one byte\n"),
])
def test_wrong_arguments(folder, words, wanted):
    assert derez(words, folder) == (1, b"", wanted)


def test_options_that_do_nothing(folder):
    words = ["App", "Types.r", "-useDF", "-noResolve", "-rd", "-p", "-script", "ROMAN", "-only", "STR#"]
    assert derez(words, folder) == (0, shown(2), "")
    told = "DeRez: -%s has no effect: rezkit shows strings in pieces of 64 bytes, as its own rez reads them\n"
    assert derez(words + ["-c", "-m", "20"], folder) == (0, shown(2), told % "c" + told % "m")


def test_statuses(folder):
    assert derez(["nix"], folder) == (2, b"", "rezkit: error 101 MissingFile: \"nix\"\n")
    write(folder, {"broken": read(folder, "App")[:300]})
    assert derez(["broken"], folder)[0] == 2
    assert derez([os.fsdecode(b"\xff")], folder) == (3, b"", "DeRez: \\xff: No such file or directory\n")
    status, output, _ = derez(["--version"], folder)
    assert (status, output) == (0, run(REZKIT, ["--version"], folder)[1])
    assert derez(["-h"], folder)[1].startswith(b"usage: DeRez [OPTION].. FORK [TYPE FILE]..\n")


def test_a_full_disk(folder):
    for words in (["App"], ["App", "-only", "'STR ' (-5:200)"], ["App", "-e"]):
        status, _, messages = derez(words, folder, limits=[(FILE, 100)])
        assert status == 3 and "Traceback" not in messages, (words, messages)


def test_changed_forks_end_in_time(folder):
    chance, whole = random.Random(3), read(folder, "App")
    for count in range(60):
        fork = bytearray(whole[:chance.randrange(len(whole))] if count % 3 == 0 else whole)
        for _ in range(chance.randrange(1, 5)):
            if fork:
                fork[chance.randrange(len(fork))] = chance.randrange(256)
        write(folder, {"b": bytes(fork)})
        words = ["b", "Types.r", "-e", "-skip", "'STR ' (1:2)"]
        status, _, messages = derez(words, folder, limits=[(MEMORY, 1 << 29), (SECONDS, 10)])
        assert status in (0, 2) and "Traceback" not in messages, messages


def test_many_warnings_beside_the_text(folder):
    write(folder, {"many.r": "type 'STR ' { pstring; };\n" * 5000})
    status, text, messages = derez(["App", "many.r", "-only", "'STR ' (-5)"], folder)
    assert (status, text, messages.count("\n")) == (0, shown(-5), 4999)
    assert messages.startswith("rezkit: many.r:2: warning 240 Redeclared: 'STR ' 0\n")
