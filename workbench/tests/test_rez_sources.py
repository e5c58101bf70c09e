"""Twelve sources by hand, one for each row of docs/PORTING.md: with MPW's options and with Retro68's they give the same
resources, which stand here as bytes."""
import pytest
from rez_running import bytes_shown, run, write

HELLO = "data 'STR ' (128) {\n    $\"0548 656C 6C6F\"\n};\n\n"

# A name, the files, MPW's words, Retro68's words, and the resources as data.
SOURCES = [
    ("line ends of the Macintosh and letters in Mac Roman",
     {"a.r": b"#include \"Types.r\"\r// caf\x8e\rresource 'STR ' (128) { \"Caf\x8e\" };\r"},
     ["a.r"], ["a.r"],
     "data 'STR ' (128) {\n    $\"0443 6166 8E\"\n};\n\n"),
    ("words and punctuation of other Rezes",
     {"a.r": "TYPE 'Nums' { Wide Array { Integer; }; };\nRESOURCE 'Nums' (128, Purgeable) { { 1; 2, 0x10 } };\n"},
     ["a.r"], ["a.r"],
     "data 'Nums' (128, purgeable) {\n    $\"0001 0002 0010\"\n};\n\n"),
    ("included files in other folders, and in another case",
     {"Source/a.r": "#include \"Kinds.r\"\n#include \"beside.r\"\n#include \"menus.r\"\nresource 'STR ' (kOne) { kText };\n",
      "Includes/kinds.r": "#define kOne 128\n", "Source/beside.r": "#define kText \"Hello\"\n"},
     ["Source/a.r", "-i", "Includes"], ["Source/a.r", "-IIncludes"],
     HELLO),
    ("windows from before System 7, and a macro with a value",
     {"a.r": "#include \"Types.r\"\nresource 'WIND' (kId) { {40, 20, 240, 420}, documentProc, visible, goAway, 0, \"Old\" };\n"},
     ["a.r", "-d", "SystemSevenOrLater=0", "-define", "kId=128L"], ["a.r", "-DSystemSevenOrLater=0", "--define=kId=128"],
     "data 'WIND' (128) {\n    $\"0028 0014 00F0 01A4 0000 0100 0100 0000\"\n    $\"0000 034F 6C64\"\n};\n\n"),
    ("angle brackets",
     {"a.r": "#  include <Carbon/Carbon.r>\n#include <Own/own.r>\nresource 'STR ' (128) { kText };\n", "inc/Own/own.r": "#define kText \"Hello\"\n"},
     ["a.r", "-i", "inc"], ["a.r", "-I", "inc"],
     HELLO),
    ("paths with colons",
     {"a.r": "#include \":Sub:ids.r\"\ninclude \":Sub:old.rsrc\";\nread 'STR ' (kId, \"a:b\") \":Sub:text\";\ndata 'TEXT' (1) { $$Read(\"::up:Sub:text\") };\n",
      "Sub/ids.r": "#define kId 128\n", "Sub/text": b"\x01x", "Sub/old.rsrc": b""},
     ["a.r"], ["a.r"],
     "data 'STR ' (128, \"a:b\") {\n    $\"0178\"\n};\n\ndata 'TEXT' (1) {\n    $\"0178\"\n};\n\n"),
    ("letters in UTF-8 without a mark",
     {"a.r": "#include \"Types.r\"\nresource 'STR ' (128) { \"Café €\" };\n"},
     ["a.r"], ["a.r"],
     "data 'STR ' (128) {\n    $\"0643 6166 8E20 DB\"\n};\n\n"),
    ("numbers with the suffixes of C",
     {"a.r": "#define kFirst 128L\n#define kTitle \"Model 128L\"\n#define kSize 12UL // it\"s 3L\ndata 'TEXT' (kFirst, kTitle) { $\"00\" };\n"
             "data '128L' (1) { $$Format(\"%d\", kSize) };\n"},
     ["a.r"], ["a.r"],
     "data 'TEXT' (128, \"Model 128L\") {\n    $\"00\"\n};\n\ndata '128L' (1) {\n    $\"3132\"\n};\n\n"),
    ("macros with parameters",
     {"a.r": "#include <Types.r>\n#define Text(id, text) resource 'STR ' (id) { text }\n#define Two(id) Text(id, \"A\"); Text(id + 1L, \"B\")\nTwo(128);\n"},
     ["a.r"], ["a.r"],
     "data 'STR ' (128) {\n    $\"0141\"\n};\n\ndata 'STR ' (129) {\n    $\"0142\"\n};\n\n"),
    ("directives that aren't in the language",
     {"a.r": "#pragma once\n#printf(\"compiling %d\", 12L)\n#include \"Types.r\"\nresource 'STR ' (128) { \"Hello\" };\n"},
     ["a.r", "-p"], ["a.r", "--debug"],
     HELLO),
    ("a string that the shell gives, in place of $$Shell",
     {"a.r": "#include \"Types.r\"\nresource 'STR ' (128) { Greeting };\n"},
     ["a.r", "-d", "Greeting=\"Hello\""], ["a.r", "-DGreeting=\"Hello\""],
     HELLO),
    ("types with labels, which rezkit has",
     {"a.r": "type 'Blob' { integer = (End - Start) / 8; Start: hex string; End: ; };\nresource 'Blob' (128) { $\"010203\" };\n"},
     ["a.r", "-rd", "-noResolve", "output"], ["a.r"],
     "data 'Blob' (128) {\n    $\"0003 0102 03\"\n};\n\n"),
]


@pytest.mark.parametrize("name, files, mpw, retro, wanted", SOURCES, ids=[source[0] for source in SOURCES])
def test_a_source_of_each_row(tmp_path, name, files, mpw, retro, wanted):
    folder = tmp_path / "up"
    folder.mkdir()
    write(folder, files)
    status, output, messages = run("Rez", [*mpw, "-o", "App", "-t", "APPL", "-c", "Samp"], folder)
    assert (status, output) == (0, b""), messages
    status, output, messages = run("Rez", [*retro, "-o", "App.bin", "--type=APPL", "-cSamp"], folder)
    assert (status, output) == (0, b""), messages
    assert bytes_shown(folder, "App") == wanted
    assert bytes_shown(folder, "App.bin") == wanted
    with open(folder / "App.bin", "rb") as file:
        assert file.read(128)[65:73] == b"APPLSamp"


def test_there_are_twelve():
    assert len(SOURCES) == 12
