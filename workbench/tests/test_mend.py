"""What is mended in sources, by tokens, with what comes out worked out by hand."""
import glob
import os
import random
import re

import pytest
from model import case_reader
from rez_running import TOP
from rezkit_workbench import macros, mend, sources, tokens
from rezkit_workbench.errors import Refused


def mended(data, find=lambda name, is_angle: None, is_there=lambda name: False):
    """A source that is mended alone, with the macros that it defines."""
    source, known = tokens.Source(data), macros.Macros()
    for line in source.lines():
        defined = macros.definition(line, ("x.r", 1))
        if defined:
            known.note(defined)
    return mend.Mending(source, find, is_there, known).run()


@pytest.mark.parametrize("given, wanted", [
    (b"128L 128UL 0x00FFuL 0b11l 12", b"128 128 0x00FF 0b11 12"),
    (b"12Q $FFL kL 1LL x12UL", b"12Q $FFL kL 1 x12UL"),
    (b"kSize = 12UL, // it\"s 12UL\n13L", b"kSize = 12, // it\"s 12UL\n13"),
    (b'#define kTitle "Model 128L"', b'#define kTitle "Model 128L"'),
    (b"data '128L' (1) { \"12L\" $\"12\" };", b"data '128L' (1) { \"12L\" $\"12\" };"),
    (b"/* 12L\n13L */ 14L", b"/* 12L\n13L */ 14"),
    (b"#define k 12L /* 3L */", b"#define k 12 /* 3L */"),
    (b"#if 12L > 3UL", b"#if 12 > 3"),
    (b'"open 12L\n13L', b'"open 12L\n13'),
    (b"'open 12L\r13L", b"'open 12L\r13"),
    (b"12\\\nUL,13L", b"12\\\n,13"),
    (b"// joined \\\n12L\n13L", b"// joined \\\n12L\n13"),
    (b'"a\\"12L" 3L', b'"a\\"12L" 3'),
])
def test_suffixes_of_numbers(given, wanted):
    assert mended(given) == wanted


@pytest.mark.parametrize("given, wanted", [
    (b'include ":a:b";', b'include "a/b";'),
    (b'Include "::b";', b'Include "../b";'),
    (b'include ":::c:b";', b'include "../../c/b";'),
    (b'include "Disk:b";', b'include "Disk/b";'),
    (b'include ":a:" "b";', b'include "a/b" "";'),
    (b'include "b" not \'a:b\';', b'include "b" not \'a:b\';'),
    (b'include ":b" \'STR \' ("a:b");', b'include "b" \'STR \' ("a:b");'),
    (b"read 'STR ' (1, \"a:b\") \":c:d\";", b"read 'STR ' (1, \"a:b\") \"c/d\";"),
    (b"read 'STR ' (1, \"a)b:\") /* :x: */ \":c:d\";", b"read 'STR ' (1, \"a)b:\") /* :x: */ \"c/d\";"),
    (b"read 'STR ' (1,\n \"a:b\")\n \":c:d\";", b"read 'STR ' (1,\n \"a:b\")\n \"c/d\";"),
    (b"data 'a' (1) { $$Read(\":a:b\") \"c:d\" };", b"data 'a' (1) { $$Read(\"a/b\") \"c:d\" };"),
    (b"{ $$resource(\":a\", 'a:b:', \"c:d\") }", b"{ $$resource(\"a\", 'a:b:', \"c:d\") }"),
    (b'#define kFile include ":a:b"', b'#define kFile include "a/b"'),
    (b'data \'a\' (1, "a:b") { ":c:d" };', b'data \'a\' (1, "a:b") { ":c:d" };'),
    (b'// include ":a:b"\n/* read "a:b" */', b'// include ":a:b"\n/* read "a:b" */'),
    (b'include "a:b', b'include "a:b'),
])
def test_colons_in_names_of_files(given, wanted):
    assert mended(given) == wanted


def test_a_name_that_is_there_keeps_its_colons():
    assert mended(b'include "a:b"; include "c:d";', is_there=lambda name: name == b"a:b") == b'include "a:b"; include "c/d";'


@pytest.mark.parametrize("given, wanted", [
    (b"#include <Types.r>", b'#include "Types.r"'),
    (b"#  Include\t<Carbon/Carbon.r> // c", b'#  Include\t"Carbon.r" // c'),
    (b"  /* c */ # include <a//b.r>", b'  /* c */ # include "b.r"'),
    (b'#include "Types.r"', b'#include "Types.r"'),
    (b"a #include <b>", b"a #include <b>"),
    (b"#pragma once\n#printf(\"a\", 1)\nx", b" \n \nx"),
    (b"#pragma a \\\nb\nx", b"  \\\n\nx"),
    (b"/*\n#pragma once\n*/", b"/*\n#pragma once\n*/"),
    (b"#", b"#"),
    (b"#include", b"#include"),
    (b"#include <a", b"#include <a"),
    (b"#define", b"#define"),
])
def test_directives(given, wanted):
    assert mended(given) == wanted


def test_a_found_file_is_named():
    found = mended(b'#include <a.r>\n#include ":b.r"\n', find=lambda name, is_angle: (b"/t/" + name.strip(b":"), "said"))
    assert found == b'#include "/t/a.r"\n#include "/t/b.r"\n'


@pytest.mark.parametrize("given, wanted", [
    ("#define F(a) a\nF(1)", "#define rezkit_macro_1\n rezkit_macro_1 1 "),
    ("#define F(a, b) b a\nF(1, (2, 3))", "#define rezkit_macro_1\n rezkit_macro_1 ( 2 , 3 ) 1 "),
    ("#define F() 7L\nF( )", "#define rezkit_macro_1\n rezkit_macro_1 7 "),
    ("#define F(a) a F(a)\nF(1)", "#define rezkit_macro_1\n rezkit_macro_1 1 F ( 1 ) "),
    ("#define F(a) a\n#define G(a) F(a) a\nG(2)",
     "#define rezkit_macro_1\n#define rezkit_macro_2\n rezkit_macro_2 rezkit_macro_1 2 2 "),
    ("#define F(a) a\nF(F(1))", "#define rezkit_macro_1\n rezkit_macro_1 rezkit_macro_1 1 "),
    ("#define F(a) \"F(a)\" a\nF('a,b')", "#define rezkit_macro_1\n rezkit_macro_1 \"F(a)\" 'a,b' "),
    ("#define F(a) a\nF(1,\n 2) F F (1\n)", "#define rezkit_macro_1\nF(1,\n 2) F  rezkit_macro_1 1 \n"),
    ("#define F(a) a\n#ifdef F\n#if defined(F) && F(1)\n#undef F\n",
     "#define rezkit_macro_1\n#ifdef rezkit_macro_1\n#if defined(rezkit_macro_1) &&  rezkit_macro_1 1 \n#undef rezkit_macro_1\n"),
    ("#define F(a) a\n#define A F(2L)\n", "#define rezkit_macro_1\n#define A  rezkit_macro_1 2 \n"),
    ("#define F(a) a\nF(1) f(1) FF(1)", "#define rezkit_macro_1\n rezkit_macro_1 1  f(1) FF(1)"),
    ("#define F (a)\nF(1)", "#define F (a)\nF(1)"),
    ("#define F(a) #a\nF(1)", "#define F(a) #a\nF(1)"),
    ("#define F(a, ...) a\nF(1)", "#define F(a, ...) a\nF(1)"),
    ("#define F(a) a\n#define F(b) b c\nF(1)", "#define F(a) a\n#define F(b) b c\nF(1)"),
    ("#define F(a) a\n#define F(a)  a /* same */\nF(1)", "#define rezkit_macro_1\n#define rezkit_macro_1 /* same */\n rezkit_macro_1 1 "),
    ("#define F(a) include a\nF(\":x:y\");", "#define rezkit_macro_1\n rezkit_macro_1 include \"x/y\" ;"),
])
def test_macros_with_parameters(given, wanted):
    found = mended(given.encode("ascii")).decode("ascii")
    assert [line.split() for line in found.split("\n")] == [line.split() for line in wanted.split("\n")]


@pytest.mark.parametrize("given", [
    "#define A(x) x x\n" + "".join("#define A%d(x) A%s(x) A%s(x)\n" % (k, k - 1 or "", k - 1 or "") for k in range(1, 40)) + "A39(1)",
    "#define D(x)\n#define A(x) x x\n" + "#define B(x) A(A(A(A(A(A(A(A(A(A(A(A(A(A(A(A(A(A(x))))))))))))))))))\n" + "D(B(1))",
    "#define F(a) a\n" + "F(" * 5000 + "1" + ")" * 5000,
], ids=["doubling", "dropped", "deep"])
def test_macros_that_grow_are_refused(given):
    with pytest.raises(Refused):
        mended(given.encode("ascii"))


def cases():
    """The words, the status and the files with texts of each case of commands."""
    for path in sorted(glob.glob(os.path.join(TOP, "crates", "rezkit_cases", "data", "*.cases"))):
        with open(path, encoding="utf-8") as file:
            for entries in case_reader.cases_of(case_reader.entries_of(file.read())):
                case = case_reader.case_of(entries)
                texts = [entry.argument[5:] for entry in entries if entry.key == "file" and entry.argument.startswith("text ")]
                yield case.words, case.status, {name: case.files[name] for name in texts}


def test_sources_that_compile_stay_as_they_are():
    count = 0
    for words, status, texts in cases():
        if words[:1] == ["rez"] and status == 0:
            for text in texts.values():
                if not re.search(rb"#\s*(pragma|printf|include\s*<)|[0-9][uUlL]", text):  # in what isn't read, and mended all the same
                    assert mended(text, is_there=lambda name: True) == text
                    count += 1
    assert count > 2000


def test_changed_sources_keep_their_lines():
    chance = random.Random(1)
    whole = b"".join(open(path, "rb").read() for path in sorted(glob.glob(os.path.join(TOP, "examples", "*.r"))))
    whole += b"#define F(a) a\\\n F(F(1L))\r\n#pragma x\r#include <a/b>\ninclude \":a:b\";\n/* x\n */ read 'a' (1) \"::b\";\n"
    more = [b"(", b")", b'"', b"'", b"\\", b"/*", b"*/", b"//", b"\n", b"\r\n", b"#", b"F(", b"\\\n", b"12L", b"<", b"\0", b"\xff", b"#define F(x) x"]
    for _ in range(2000):
        start = chance.randrange(len(whole))
        text = bytearray(whole[start:start + chance.randrange(400)])
        for _ in range(chance.randrange(6)):
            place = chance.randrange(len(text) + 1)
            text[place:place + chance.randrange(3)] = chance.choice(more)
        made = mended(bytes(text))
        ends = tokens.LINE_END
        assert len(ends.findall(made)) == len(ends.findall(bytes(text)))


@pytest.mark.parametrize("data, is_marked", [
    (b"data 'a' (1) { \"caf\xc3\xa9\" };", True),
    (b"data 'a' (1) { \"caf\x8e\" };", False),
    (b"// caf\xc3\xa9 \xe2\x86\x92\ndata 'a' (1) { \"x\" };", False),
    (b"\xef\xbb\xbf\"caf\xc3\xa9\"", False),
    (b"plain", False),
])
def test_utf8_without_a_mark(data, is_marked):
    assert sources.Copy("x.r", "0.r", data).given_mark == is_marked
