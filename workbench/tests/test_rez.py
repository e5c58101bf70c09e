"""Rez as a program: its options, the files that it writes, its messages and statuses, and hostile input."""
import os
import random
import re
import shutil
import subprocess

import pytest
from rez_running import FILE, MEMORY, REZKIT, SECONDS, TOP, bytes_shown, read, run, write
from rezkit_workbench import options, program

ONE = "data 'TEXT' (1, \"one\") { \"1\" };\n"
ONE_SHOWN = "data 'TEXT' (1, \"one\") {\n    $\"31\"\n};\n\n"
TWO_SHOWN = "data 'TEXT' (2) {\n    $\"32\"\n};\n\n"
EPOCH = {"SOURCE_DATE_EPOCH": "1000000000"}


def rez(words, folder, given=b"", limits=(), **environment):
    return run("Rez", words, folder, given, limits, **environment)


@pytest.mark.parametrize("name, front", [
    ("App.bin", b"\0\x07App.bin"), ("App.as", b"\0\5\x16\0"), ("._App", b"\0\5\x16\7"), ("%App.ad", b"\0\5\x16\7"),
    ("App.hqx", b"(This file must be converted with BinHex 4.0)"), ("App.BIN", b"\0\x07App.BIN"), ("App", b"\0\0\1\0"),
    ("%App", b"\0\0\1\0"), ("App.rsrc", b"\0\0\1\0"),
])
def test_the_ending_tells_the_form(tmp_path, name, front):
    write(tmp_path, {"a.r": ONE})
    assert rez(["a.r", "-o", name], tmp_path) == (0, b"", "")
    assert read(tmp_path, name).startswith(front)
    assert bytes_shown(tmp_path, name) == ONE_SHOWN


def test_an_option_tells_the_form(tmp_path):
    write(tmp_path, {"a.r": ONE})
    assert rez(["a.r", "-o", "a.bin", "-useDF"], tmp_path) == (0, b"", "")
    assert read(tmp_path, "a.bin").startswith(b"\0\0\1\0")
    assert rez(["a.r", "-o", "a.bin", "-form", "single"], tmp_path) == (0, b"", "")
    assert read(tmp_path, "a.bin").startswith(b"\0\5\x16\0")
    assert rez(["a.r", "-form", "none"], tmp_path) == (1, b"", "Rez: -form: none is none of raw, double, single, macbin, hqx\n")


def test_rez_out_is_the_name_and_is_replaced(tmp_path):
    write(tmp_path, {"a.r": ONE, "Rez.Out": "old"})
    assert rez(["a.r"], tmp_path) == (0, b"", "")
    assert bytes_shown(tmp_path, "Rez.Out") == ONE_SHOWN


def test_append_keeps_the_form(tmp_path):
    write(tmp_path, {"a.r": ONE, "b.r": "data 'TEXT' (2) { \"2\" };"})
    assert rez(["a.r", "-o", "App", "-form", "macbin"], tmp_path)[0] == 0
    assert rez(["b.r", "-append", "-o", "App"], tmp_path) == (0, b"", "")
    assert bytes_shown(tmp_path, "App") == ONE_SHOWN + TWO_SHOWN
    assert read(tmp_path, "App")[1:5] == b"\x03App"
    assert rez(["b.r", "-a", "-o", "App", "-form", "raw"], tmp_path) == (0, b"", "")
    assert read(tmp_path, "App").startswith(b"\0\0\1\0") and bytes_shown(tmp_path, "App") == ONE_SHOWN + TWO_SHOWN
    assert rez(["b.r", "-a", "-o", "new.bin"], tmp_path) == (0, b"", "")
    assert bytes_shown(tmp_path, "new.bin") == TWO_SHOWN


def test_data_is_the_data_fork(tmp_path):
    write(tmp_path, {"a.r": ONE, "code": b"CODE\0\xff"})
    for name in ("a.bin", "a.as", "a.hqx"):
        assert rez(["a.r", "-t", "APPL", "-c", "Samp", "--data", "code", "-o", name], tmp_path, **EPOCH) == (0, b"", "")
        write(tmp_path, {"new/x": b""})
        assert run(REZKIT, ["bridge", name, "-to", "double", "-o", "new/._x"], tmp_path) == (0, b"", "")
        assert read(tmp_path, "new/x") == b"CODE\0\xff"
        assert bytes_shown(tmp_path, name) == ONE_SHOWN
    made = read(tmp_path, "a.bin")
    assert made[1:8] == b"\x05a.bin" + b"\0" and made[65:73] == b"APPLSamp" and made[83:87] == b"\0\0\0\6"
    assert made[91:95] == made[95:99] == (1000000000 + 2082844800).to_bytes(4, "big")


def test_data_and_append(tmp_path):
    write(tmp_path, {"a.r": ONE, "b.r": "data 'TEXT' (2) { \"2\" };", "old": b"OLD", "new": b"NEWER"})
    assert rez(["a.r", "--data=old", "-o", "a.bin", "-t", "APPL", "-c", "Samp"], tmp_path) == (0, b"", "")
    assert rez(["b.r", "-a", "--data", "new", "-o", "a.bin"], tmp_path) == (0, b"", "")
    made = read(tmp_path, "a.bin")
    assert made[65:73] == b"APPLSamp" and made[83:87] == b"\0\0\0\5" and made[128:133] == b"NEWER"
    assert bytes_shown(tmp_path, "a.bin") == ONE_SHOWN + TWO_SHOWN


def test_a_fork_alone_has_no_room(tmp_path):
    write(tmp_path, {"a.r": ONE, "code": b"x"})
    status, output, messages = rez(["a.r", "--data", "code", "-o", "App"], tmp_path)
    assert (status, output) == (1, b"") and messages.startswith("Rez: --data: a resource fork alone has no room")
    status, output, messages = rez(["a.r", "-t", "APPL", "-o", "App"], tmp_path)
    assert (status, output) == (0, b"") and messages.startswith("Rez: App: a resource fork alone has no type and no creator")


def test_the_data_file_of_appledouble(tmp_path):
    write(tmp_path, {"a.r": ONE, "code": b"CODE", "d/App": b"mine"})
    words = ["a.r", "--data", "code", "-o", "d/._App"]
    assert rez(words, tmp_path) == (1, b"", "Rez: d/App: is there already (-f replaces a file)\n")
    assert read(tmp_path, "d/App") == b"mine" and not os.path.exists(tmp_path / "d/._App")
    assert rez(words + ["-f"], tmp_path) == (0, b"", "")
    assert read(tmp_path, "d/App") == b"CODE"
    assert rez(words, tmp_path) == (0, b"", "")  # it has these bytes already
    assert rez(["a.r", "--data", "code", "-o", "%App.ad"], tmp_path) == (0, b"", "")
    assert read(tmp_path, "App.ad") == b"CODE" and bytes_shown(tmp_path, "%App.ad") == ONE_SHOWN


def test_a_link_is_replaced_with_force_and_not_written_through(tmp_path):
    write(tmp_path, {"a.r": ONE, "code": b"CODE", "other": b"mine"})
    os.symlink("other", tmp_path / "App")
    assert rez(["a.r", "--data", "code", "-o", "._App", "-f"], tmp_path) == (0, b"", "")
    assert read(tmp_path, "other") == b"mine" and read(tmp_path, "App") == b"CODE"


def test_other_files_are_written_too(tmp_path):
    write(tmp_path, {"a.r": "data 'TEXT' (1) { $$Date };", "code": b"CODE"})
    words = ["a.r", "-o", "a.bin", "-t", "APPL", "-c", "Samp", "--data", "code", "--cc", "b.hqx", "--cc", "%b.ad", "--cc", "b.APPL"]
    status, output, messages = rez(words, tmp_path, **EPOCH)
    assert (status, output) == (0, b"")
    assert messages == "Rez: b.APPL isn't written: its form has the folders .rsrc and .finf beside it; .bin has both forks in one file\n"
    shown = "data 'TEXT' (1) {\n    $\"3230 3031 2D30 392D 3039\"\n};\n\n"
    assert [bytes_shown(tmp_path, name) for name in ("a.bin", "b.hqx", "%b.ad")] == [shown] * 3
    assert read(tmp_path, "b.ad") == b"CODE" and not os.path.exists(tmp_path / "b.APPL")
    assert rez(["a.r", "-o", "b.APPL"], tmp_path)[0] == 1


def test_other_files_have_what_was_there(tmp_path):
    write(tmp_path, {"a.r": ONE, "b.r": "data 'TEXT' (2) { \"2\" };"})
    assert rez(["a.r", "-o", "a.rsrc"], tmp_path)[0] == 0
    assert rez(["b.r", "-a", "-o", "a.rsrc", "--cc", "b.bin"], tmp_path) == (0, b"", "")
    assert bytes_shown(tmp_path, "b.bin") == bytes_shown(tmp_path, "a.rsrc") == ONE_SHOWN + TWO_SHOWN


def test_copy_begins_with_the_resources_of_a_file(tmp_path):
    for name in ("old.rsrc", "o\"l\\d.rsrc", "- é.rsrc", "日本.rsrc", b"\xff.rsrc", "a'b c.rsrc"):
        write(tmp_path, {"a.r": ONE, "b.r": "data 'TEXT' (2) { \"2\" };"})
        assert rez(["a.r", "-o", os.fsdecode(name)], tmp_path) == (0, b"", "")
        assert rez(["b.r", "--copy", os.fsdecode(name), "-o", "new"], tmp_path) == (0, b"", "")
        assert bytes_shown(tmp_path, "new") == ONE_SHOWN + TWO_SHOWN
    assert rez(["--copy", "new", "-o", "copy"], tmp_path) == (0, b"", "")
    assert read(tmp_path, "copy") == read(tmp_path, "new")


def test_standard_streams(tmp_path):
    write(tmp_path, {"a.r": ONE})
    assert rez(["a.r", "-o", "a"], tmp_path)[0] == 0
    for words in (["-o", "-"], ["-", "-o", "-"]):
        assert rez(words, tmp_path, ONE.encode()) == (0, read(tmp_path, "a"), "")
    assert rez(["-o", "-"], tmp_path, b"\ndata X;") == (2, b"", "rezkit: -:2: error 201 Syntax\n")


@pytest.mark.parametrize("name", ["-x.r", "a b.r", "a\"b'c.r", "é.r", "日.r", b"\xff\xfe.r", "a\nb.r", "$(x).r", "a\\b.r"])
def test_odd_names_of_sources_and_files(tmp_path, name):
    write(tmp_path, {name: ONE})
    out = os.fsdecode(name)[:-2] + ".rsrc"
    assert rez(["-o", out, "--", os.fsdecode(name)], tmp_path) == (0, b"", "")
    os.rename(os.path.join(os.fsencode(str(tmp_path)), os.fsencode(out)), tmp_path / "out")
    assert bytes_shown(tmp_path, "out") == ONE_SHOWN


def test_messages_name_the_files_of_the_person(tmp_path):
    write(tmp_path, {"d/a.r": "#include \"b.r\"\n", "d/b.r": "#pragma x\n\\\n12L;\n", b"\xff.r": "data X;", "e.r": "12345678901L",
                     "f.r": "#include \"nix:g.r\"\n"})
    assert rez(["d/a.r"], tmp_path) == (2, b"", "rezkit: d/b.r:3: error 201 Syntax\n")
    assert rez([os.fsdecode(b"\xff.r")], tmp_path) == (2, b"", "rezkit: \\xff.r:1: error 201 Syntax\n")
    assert rez(["e.r"], tmp_path) == (2, b"", "rezkit: e.r:1: error 110 BadNumber: \"12345678901\"\n")
    assert rez(["f.r"], tmp_path) == (2, b"", "rezkit: f.r:1: error 101 MissingFile: \"nix:g.r\"\n")
    assert rez(["nix.r"], tmp_path) == (2, b"", "rezkit: error 101 MissingFile: \"nix.r\"\n")


def test_letters_without_a_byte(tmp_path):
    write(tmp_path, {"a.r": "data 'a' (1) { \"\u65e5\" };", "b.r": "\ufeffdata 'a' (1) { \"\u65e5\" };", "c.r": "\u65e5"})
    told = "Rez: a.r: is UTF-8 without a byte order mark, and is read as UTF-8\n"
    assert rez(["a.r"], tmp_path) == (2, b"", told + "rezkit: a.r:1: error 102 BadText: 16\n")
    assert rez(["b.r"], tmp_path) == (2, b"", "rezkit: b.r:1: error 102 BadText: 19\n")


def test_what_was_mended_is_told(tmp_path):
    write(tmp_path, {"a.r": "#pragma x\n#include <b.r>\n#define F(a) a\ndata 'TEXT' (12L) { F(\"x\") };\nread 'TEXT' (1) \":b.r\";\n", "b.r": "// \u00e9\n"})
    told = ["a.r:1: #pragma is left out", "a.r:2: #include b.r is b.r", "a.r:3: the macro F is expanded where it is used",
            "a.r:4: the number 12L is written 12", "a.r:5: the name \":b.r\" is written \"b.r\""]
    assert rez(["a.r", "-v"], tmp_path) == (0, b"", "".join("Rez: %s\n" % line for line in told))
    assert rez(["a.r"], tmp_path) == (0, b"", "")
    assert read(tmp_path, "a.r").startswith(b"#pragma x\n")


def test_macros_follow_the_conditionals(tmp_path):
    text = "#if kOne\n#define F(a) 'TEXT' (a, \"one\")\n#endif\ndata F(1) { \"1\" };\n"
    write(tmp_path, {"a.r": text, "b.r": "#ifdef F\n#else\n#define F(a) a\n#endif\n#ifdef F\ndata 'TEXT' (F(2)) { \"2\" };\n#endif\n"})
    assert rez(["a.r", "-D", "kOne", "-o", "a"], tmp_path) == (0, b"", "")
    assert bytes_shown(tmp_path, "a") == ONE_SHOWN
    assert rez(["a.r", "-D", "kOne=0", "-o", "b"], tmp_path) == (2, b"", "rezkit: a.r:4: error 201 Syntax\n")
    assert rez(["b.r", "-o", "b"], tmp_path) == (0, b"", "")
    assert bytes_shown(tmp_path, "b") == TWO_SHOWN


def test_a_macro_with_two_definitions_is_refused(tmp_path):
    write(tmp_path, {"a.r": "#define F(a) a\n#define F(b) b b\n"})
    status, output, messages = rez(["a.r"], tmp_path)
    assert (status, output) == (2, b"")
    assert messages == ("Rez: a.r:2: the macro F has another definition at a.r:1, so it isn't expanded\n"
                        "rezkit: a.r:1: error 104 BadDirective: \"define\"\n")


def test_macros_that_grow_are_refused(tmp_path):
    write(tmp_path, {"a.r": "#define F(a) a\n\n" + "F(" * 100 + "1" + ")" * 100, "b.r": "#include \"a.r\"\n"})
    assert rez(["b.r"], tmp_path) == (2, b"", "Rez: a.r:3: calls of macros stand more than 64 deep\n")
    assert not os.path.exists(tmp_path / "Rez.Out")


@pytest.mark.parametrize("words, wanted", [
    (["-q"], "Rez: -q isn't an option; Rez --help tells them\n"),
    (["-o"], "Rez: -o: its value is missing\n"),
    (["-t", "AB"], "Rez: -t: AB isn't four characters of Mac Roman\n"),
    (["-script", "japanese"], "Rez: -script: japanese isn't taken: rezkit reads characters of one byte\n"),
    (["-d", "9x"], "Rez: usage: 9x\n"),
    (["--ouput=x"], "Rez: --ouput=x isn't an option; Rez --help tells them\n"),
    (["--append=x"], "Rez: --append=x isn't an option; Rez --help tells them\n"),
    (["-overwrite"], "Rez: -overwrite isn't an option; Rez --help tells them\n"),
])
def test_wrong_arguments(tmp_path, words, wanted):
    write(tmp_path, {"a.r": ONE})
    assert rez(["a.r", *words], tmp_path) == (1, b"", wanted)
    assert not os.path.exists(tmp_path / "Rez.Out")


def test_options_of_the_three(tmp_path):
    write(tmp_path, {"a.r": "#ifdef A\n#ifndef B\n#if C\n" + ONE + "#endif\n#endif\n#endif\n", "F/N.framework/Headers/h.r": ""})
    words = ["a.r", "-d", "A", "-d", "B", "-u", "B", "-DC", "-script", "Roman", "-arch", "ppc", "-noResolve", "include", "-rd", "-ov", "-F", "F"]
    assert rez(words + ["-o", "a"], tmp_path) == (0, b"", "")
    assert bytes_shown(tmp_path, "a") == ONE_SHOWN
    assert rez(words + ["-align", "word", "-o", "b"], tmp_path) == (0, b"", "Rez: -align has no effect: rezkit lays a fork out without gaps\n")
    assert rez(["a.r", "-DA", "-D", "C", "-ro", "-o", "c"], tmp_path) == (0, b"", "")
    assert rez(["a.r", "-a", "-o", "c"], tmp_path) == (2, b"", "rezkit: error 220 ReadOnlyMap: 128\n")


def test_frameworks(tmp_path):
    write(tmp_path, {"a.r": "#include <Own/own.r>\ndata 'TEXT' (1, kName) { \"1\" };",
                     "S/System/Library/Frameworks/Own.framework/Headers/own.r": "#define kName \"one\""})
    assert rez(["a.r", "-isysroot", "S", "-o", "a"], tmp_path) == (0, b"", "")
    assert bytes_shown(tmp_path, "a") == ONE_SHOWN
    assert rez(["a.r", "-o", "b"], tmp_path) == (2, b"", "rezkit: a.r:1: error 101 MissingFile: \"own.r\"\n")


def test_the_time_of_modification_is_kept(tmp_path):
    write(tmp_path, {"a.r": ONE, "a": b""})
    os.utime(tmp_path / "a", (1, 2))
    assert rez(["a.r", "-m", "-o", "a"], tmp_path) == (0, b"", "")
    assert os.stat(tmp_path / "a").st_mtime == 2 and bytes_shown(tmp_path, "a") == ONE_SHOWN


def test_statuses_of_rezkit(tmp_path):
    write(tmp_path, {"a.r": ONE})
    assert rez(["a.r"], tmp_path, SOURCE_DATE_EPOCH="x")[0] == 5
    assert rez(["a.r", "-o", "/dev/full"], tmp_path) == (3, b"", "rezkit: write fault\n")
    assert rez(["a.r", "-o", "nix/a"], tmp_path)[0] == 3
    assert rez(["a.r", "-o", "."], tmp_path)[0] == 3
    status, output, _ = rez(["--version"], tmp_path)
    assert (status, output) == (0, run(REZKIT, ["--version"], tmp_path)[1])
    assert rez(["-h"], tmp_path)[1].startswith(b"usage: Rez [OPTION].. [SOURCE]..\n")


def test_a_source_that_cant_be_read(tmp_path):
    assert rez(["/proc/self/mem"], tmp_path) == (3, b"", "Rez: /proc/self/mem: can't be read: Input/output error\n")


def test_closed_streams(tmp_path):
    write(tmp_path, {"a.r": ONE})
    for program, words in (("Rez", "- -o a"), ("Rez", "a.r -o a"), ("DeRez", "a -e"), ("DeRez", "nix"), ("DeRez", "-h")):
        steps = "'%s' %s <&- >&- 2>&-" % (os.path.join(TOP, "workbench", program), words)
        assert subprocess.run(["sh", "-c", steps], cwd=tmp_path).returncode == (2 if "nix" in words else 0)


def test_a_full_disk_leaves_the_old_files(tmp_path):
    write(tmp_path, {"a.r": "data 'TEXT' (1) { $$Read(\"big\") };", "big": b"x" * 200000, "App": b"old", "._App": b"old", "a.bin": b"old"})
    limits = [(FILE, 100000)]
    assert rez(["a.r", "-o", "a.bin"], tmp_path, limits=limits)[0] == 3
    assert rez(["a.r", "-o", "a.bin", "--data", "big"], tmp_path, limits=limits)[0] == 3
    assert rez(["a.r", "-o", "._App", "--data", "big", "-f"], tmp_path, limits=limits)[0] == 3
    assert sorted(os.listdir(tmp_path)) == ["._App", "App", "a.bin", "a.r", "big"]
    assert [read(tmp_path, name) for name in ("App", "._App", "a.bin")] == [b"old"] * 3


def test_hostile_sources_end_in_time(tmp_path):
    chance = random.Random(2)
    more = [b"(", b")", b'"', b"'", b"\\", b"/*", b"*/", b"\n", b"\r", b"#include \"a.r\"\n", b"F(", b"\0", b"\xff", b"\xc3\xa9", b"12L", b"<a>"]
    whole = b"#define F(a, b) b a\n#include <Types.r>\nresource 'STR ' (128L) { F(\"b\", \"a\") };\nread 'a' (1) \":a.r\";\n"
    for _ in range(60):
        text = bytearray(whole)
        for _ in range(chance.randrange(1, 8)):
            place = chance.randrange(len(text) + 1)
            text[place:place + chance.randrange(9)] = chance.choice(more)
        write(tmp_path, {"a.r": bytes(text)})
        status, _, messages = rez(["a.r", "-o", "out"], tmp_path, limits=[(MEMORY, 1 << 29), (SECONDS, 10)])
        assert status in (0, 2) and "Traceback" not in messages, (bytes(text), messages)


@pytest.mark.parametrize("text, wanted", [
    (b"#include \"a.r\"\n", 2), (b"/*" * 200000, 2), (b"\"" + b"x" * 3000000, 2), (b"(" * 50000, 2), (b"\\\n" * 100000, 0),
    (b"#define F(a) a\n" + b"F(1," * 20000 + b")" * 20000, 2), (b"\"" + b"\\x" * 100000, 2), (b"1L " * 40000, 2), (b"\0" * 50000, 2), (b"#include <" + b"a/" * 100000 + b">\n", 2),
    (b"include \"" + b":" * 100000 + b"\";", 2),
], ids=["itself", "comments", "string", "brackets", "joins", "calls", "escapes", "suffixes", "zeros", "folders", "colons"])
def test_extreme_sources_end_in_time(tmp_path, text, wanted):
    write(tmp_path, {"a.r": text})
    status, _, messages = rez(["a.r", "-o", "out"], tmp_path, limits=[(MEMORY, 1 << 29), (SECONDS, 10)])
    assert status == wanted and "Traceback" not in messages, messages[-300:]


def test_porting_tells_each_option():
    with open(os.path.join(TOP, "docs", "PORTING.md"), encoding="utf-8") as file:
        told = file.read().split("## `Rez` and `DeRez` of the workbench")[1]
    named = set(re.findall(r"(?<![\w-])(--?[A-Za-z]+)", " ".join(re.findall(r"`([^`]*)`", told))))
    known = {name for option in options.REZ + options.DEREZ for name in option.names}
    assert known - named <= {"-noresolve", "--sysroot"}  # other spellings of options that are told
    assert named - known <= {"-IPATH", "-iPATH", "-DNAME", "-dNAME", "-FPATH", "-tTYPE", "-cCREATOR", "--name", "-"}


@pytest.mark.parametrize("status", [0, 1, 2, 3, 4, 5, 6])
def test_each_status_is_handed_on(tmp_path, monkeypatch, status):
    write(tmp_path, {"a.r": ONE, "rezkit": "#!/bin/sh\necho 'rezkit: said' >&2\nexit %d\n" % status})
    os.chmod(tmp_path / "rezkit", 0o755)
    monkeypatch.setattr(program, "path", lambda: str(tmp_path / "rezkit"))
    assert rez(["a.r"], tmp_path) == (status, b"", "rezkit: said\n")
    assert run("DeRez", ["a"], tmp_path) == (status, b"", "rezkit: said\n")
    assert run("DeRez", ["a", "-e"], tmp_path) == (status, b"", "rezkit: said\n")


def test_a_program_that_is_killed_or_missing(tmp_path, monkeypatch):
    write(tmp_path, {"a.r": ONE, "rezkit": "#!/bin/sh\nkill -9 $$\n"})
    os.chmod(tmp_path / "rezkit", 0o755)
    monkeypatch.setattr(program, "path", lambda: str(tmp_path / "rezkit"))
    assert rez(["a.r"], tmp_path) == (137, b"", "")
    monkeypatch.setattr(program, "path", lambda: str(tmp_path / "nix"))
    status, output, messages = rez(["a.r"], tmp_path)
    assert (status, output) == (1, b"") and "nix can't be run" in messages


@pytest.mark.parametrize("folder", ["a b", "-x", "é", b"\xff", "a\"b"])
def test_odd_names_of_folders(tmp_path, folder):
    name = os.fsdecode(folder)
    write(tmp_path, {"a.r": "#include \"b.r\"\nread 'TEXT' (2) \"two\";\n", os.path.join(os.fsencode(folder), b"b.r"): ONE,
                     os.path.join(os.fsencode(folder), b"two"): "2"})
    assert rez(["a.r", "-i", name, "-s", name, "-o", "a"], tmp_path) == (0, b"", "")
    assert bytes_shown(tmp_path, "a") == ONE_SHOWN + TWO_SHOWN
    assert rez(["-o", name + "/a.bin", "--", name + "/b.r"], tmp_path) == (0, b"", "")
    assert read(tmp_path, os.path.join(os.fsencode(folder), b"a.bin"))[1:7] == b"\x05a.bin"


def test_a_line_of_a_makefile_of_retro68(tmp_path):
    write(tmp_path, {"RIncludes/Retro68APPL.r": "#include \"Processes.r\"\nread 'CODE' (1) FLT_FILE_NAME;\n", "app.flt": b"\x4e\x75", "a.r": ONE})
    assert rez(["a.r", "-o", "app.rsrc.bin"], tmp_path) == (0, b"", "")
    words = ["RIncludes/Retro68APPL.r", "-IRIncludes", "-DFLT_FILE_NAME=\"app.flt\"", "-t", "APPL", "-c", "????",
             "-o", "app.bin", "--cc", "app.APPL", "--cc", "%app.ad", "--copy", "app.rsrc.bin"]
    status, output, messages = rez(words, tmp_path)
    assert (status, output, messages.count("\n")) == (0, b"", 1)
    shown = ONE_SHOWN + "data 'CODE' (1) {\n    $\"4E75\"\n};\n\n"
    assert bytes_shown(tmp_path, "app.bin") == bytes_shown(tmp_path, "%app.ad") == shown


def test_a_data_fork_that_is_too_long(tmp_path):
    write(tmp_path, {"a.r": ONE, "big": b""})
    os.truncate(tmp_path / "big", 33554433)
    assert rez(["a.r", "--data", "big", "-o", "a.bin"], tmp_path) == (2, b"", "Rez: 428 ForkTooLong: 33554433\n")
    assert not os.path.exists(tmp_path / "a.bin")


def test_many_names_in_a_folder_of_many_files(tmp_path):
    write(tmp_path, {"inc/file%d.r" % number: "" for number in range(10000)})
    write(tmp_path, {"a.r": "".join("#include \"FILE%d.r\"\n" % number for number in range(0, 10000, 20)) + ONE})
    assert rez(["a.r", "-i", "inc", "-o", "a"], tmp_path, limits=[(SECONDS, 10)]) == (0, b"", "")
    assert bytes_shown(tmp_path, "a") == ONE_SHOWN


def test_a_disk_image(tmp_path):
    write(tmp_path, {"a.r": ONE, "code": b"CODE"})
    words = ["a.r", "-t", "APPL", "-c", "Samp", "--data", "code", "-o", "My App.dsk"]
    if not shutil.which("hformat"):
        assert rez(words, tmp_path) == (1, b"", "Rez: My App.dsk isn't written: a disk image needs the programs of hfsutils\n"
                                        "Rez: no file is written\n")
        return
    assert rez(words, tmp_path) == (0, b"", "")
    assert os.path.getsize(tmp_path / "My App.dsk") == 819200
    assert read(tmp_path, "My App.dsk")[1024:1026] == b"BD"
    steps = "export HOME=$PWD; hmount 'My App.dsk' && hcopy -m ':My App' back.bin && humount"
    assert subprocess.run(["sh", "-c", steps], cwd=tmp_path, stdout=subprocess.DEVNULL).returncode == 0
    back = read(tmp_path, "back.bin")
    assert back[1:8] == b"\x06My App" and back[65:73] == b"APPLSamp" and back[128:132] == b"CODE"
    assert bytes_shown(tmp_path, "back.bin") == ONE_SHOWN
    assert rez(words + ["-a"], tmp_path) == (1, b"", "Rez: -a: nothing can be added to a disk image\n")
