"""rezkit-po: the PO that it writes, what it puts in, what it refuses, and that all else of a file stays."""
import os
import random
import re
import subprocess

import pytest
from model.fork import fork_of
from model.forms import File, double, hqx, macbin, read_form, single
from helpers import FORK, MEMORY, SECONDS, TYPES, WHOLE, names_in, read, rezkit, run, write
from rezkit_workbench import catalogue

polib = pytest.importorskip("polib")
TEXTS = os.path.join(TYPES, "Texts.r")
MOMENT = dict(os.environ, SOURCE_DATE_EPOCH="1000000000")


def item(kind, text, rectangle=b"\0\x0A\0\x14\0\x1E\0\x50", padding=b"\0"):
    """An item of a dialog."""
    return bytes(4) + rectangle + bytes([kind, len(text)]) + text + padding * (len(text) % 2)


def strings(*texts):
    return len(texts).to_bytes(2, "big") + b"".join(bytes([len(text)]) + text for text in texts)


def items(*each):
    return (len(each) - 1).to_bytes(2, "big") + b"".join(each)


DIALOG = b"\0\x28\0\x28\1\0\1\x80\0\1\1\0\0\0\0\0\0\0\0\x81\4Find"
RESOURCES = [
    (b"DLOG", 128, b"Find \"it\"", 0x20, DIALOG),
    (b"DITL", 129, b"", 0x20, items(item(4, b"OK"), item(8, b"OK", padding=b"x"), item(0x88, b"Na\x95ve?", padding=b"\7"), item(16, b""))),
    (b"STR#", 128, b"", 0, strings(b"One\rTwo", b"", b"One\rTwo", b"a\x01b", b"x\r\ny", b"x\ny", b"quote \" and \\")),
    (b"STR ", 5, b"", 0, b"\5Hello, too long"),
    (b"TEXT", 1, b"About", 0, b"Long " * 60),
    (b"CODE", 0, b"", 0, b"\1\2\3"),
]
PO = '''# Texts of App.rsrc, by rezkit-po.
msgid ""
msgstr ""
"Project-Id-Version: App.rsrc\\n"
"POT-Creation-Date: 2001-09-09 01:46+0000\\n"
"PO-Revision-Date: 2001-09-09 01:46+0000\\n"
"Last-Translator: \\n"
"Language-Team: \\n"
"Language: de\\n"
"MIME-Version: 1.0\\n"
"Content-Type: text/plain; charset=UTF-8\\n"
"Content-Transfer-Encoding: 8bit\\n"
"X-Rezkit-Script: roman\\n"

#. text 0 of 'DLOG' 128, title, at most 255 bytes
msgctxt "'DLOG' 128"
msgid "Find"
msgstr ""

#. text 0 of 'DITL' 129, of 'DLOG' 128 "Find \\"it\\"", Button, rectangle {10, 20, 30, 80}, at most 255 bytes
msgctxt "'DITL' 129"
msgid "OK"
msgstr ""

#. text 2 of 'DITL' 129, of 'DLOG' 128 "Find \\"it\\"", StaticText, rectangle {10, 20, 30, 80}, at most 255 bytes
msgctxt "'DITL' 129 #2"
msgid "OK"
msgstr ""

#. text 4 of 'DITL' 129, of 'DLOG' 128 "Find \\"it\\"", StaticText, rectangle {10, 20, 30, 80}, at most 255 bytes
msgctxt "'DITL' 129"
msgid "Naïve?"
msgstr ""

#. text 0 of 'STR#' 128, at most 255 bytes
msgctxt "'STR#' 128"
msgid ""
"One\\n"
"Two"
msgstr ""

#. text 2 of 'STR#' 128, at most 255 bytes
msgctxt "'STR#' 128 #2"
msgid ""
"One\\n"
"Two"
msgstr ""

#. text 5 of 'STR#' 128, at most 255 bytes
msgctxt "'STR#' 128"
msgid ""
"x\\n"
"y"
msgstr ""

#. text 6 of 'STR#' 128, at most 255 bytes
msgctxt "'STR#' 128"
msgid "quote \\" and \\\\"
msgstr ""

#. text 0 of 'TEXT' 1
msgctxt "'TEXT' 1"
msgid "%s"
msgstr ""
''' % ("Long " * 60)
REPORT = ("rezkit-po: left out: 'DITL' 129: empty: 6\n"
          "rezkit-po: left out: 'STR#' 128: empty: 1\n"
          "rezkit-po: left out: 'STR#' 128: control bytes: 3\n"
          "rezkit-po: left out: 'STR#' 128: both CR and LF: 4\n"
          "rezkit-po: left out: 'STR ' 5: no row: its bytes don't fit the fields of its type\n")


def translated(po, **texts):
    """A PO with the translations of these contexts: `context|source` for each."""
    made = polib.pofile(po)
    left = {tuple(key.split("|")): text for key, text in texts.items()}
    for entry in made:
        entry.msgstr = left.pop((entry.msgctxt, entry.msgid), entry.msgstr)
    assert not left, left
    return str(made).encode("utf-8")


def po_of(tmp_path, data, *words, name="App.rsrc"):
    """What `out` writes of a file."""
    status, output, messages = run("rezkit-po", "out", write(tmp_path, name, data), *words)
    assert status == 0, messages
    return output.decode("utf-8")


def put_in(tmp_path, name, po, *words, new="new"):
    return run("rezkit-po", "in", str(tmp_path / name), write(tmp_path, "X.po", po), "-o", str(tmp_path / new), *words)


def texts_of(path):
    return catalogue.entries_of(rezkit("strings", str(path), TEXTS))


def test_the_po_of_a_file(tmp_path):
    path = write(tmp_path, "App.rsrc", fork_of(RESOURCES))
    status, output, messages = run("rezkit-po", "out", path, "--language", "de", env=MOMENT)
    assert output.decode("utf-8") == PO
    assert (status, messages) == (0, REPORT)


def test_msgfmt_has_nothing_to_say(tmp_path):
    """Of the PO as it is written, and of a translated one."""
    path = write(tmp_path, "App.rsrc", fork_of(RESOURCES))
    for name, data in (("a.po", run("rezkit-po", "out", path)[1]), ("b.po", translated(PO, **{"'DITL' 129|OK": "Gut"}))):
        ran = subprocess.run(["msgfmt", "--check", "-o", "/dev/null", write(tmp_path, name, data)], stdout=subprocess.PIPE, stderr=subprocess.STDOUT)
        assert (ran.returncode, ran.stdout) == (0, b"")


TRANSLATIONS = {
    "'DLOG' 128|Find": "Suchen", "'DITL' 129|OK": "Gut", "'DITL' 129 #2|OK": "Fertig", "'DITL' 129|Naïve?": "Arglos\nund süß?",
    "'STR#' 128|One\nTwo": "Eins\nZwei", "'STR#' 128 #2|One\nTwo": "Noch\neins", "'STR#' 128|x\ny": "u\nv",
    "'STR#' 128|quote \" and \\": "\"Zitat\" \\ \u20AC", "'TEXT' 1|" + "Long " * 60: "Lang " * 100}
NEW = [
    (b"DLOG", 128, b"Find \"it\"", 0x20, DIALOG[:-5] + b"\6Suchen"),
    (b"DITL", 129, b"", 0x20, items(item(4, b"Gut"), item(8, b"Fertig"), item(0x88, b"Arglos\rund s\x9F\xA7?"), item(16, b""))),
    (b"STR#", 128, b"", 0, strings(b"Eins\rZwei", b"", b"Noch\reins", b"a\x01b", b"x\r\ny", b"u\nv", b"\"Zitat\" \\ \xDB")),
    RESOURCES[3],
    (b"TEXT", 1, b"About", 0, b"Lang " * 100),
    RESOURCES[5],
]


def test_texts_out_and_in_again_in_each_form(tmp_path):
    """What comes is the file of the new resources, as the second writer makes it: all but the texts and `modified` is the same."""
    old = WHOLE.but(res=fork_of(RESOURCES), extra=bytes(8) + b"\1\2" + bytes(6))
    po = translated(PO, **TRANSLATIONS)
    for form, make in (("raw", lambda file: file.res), ("double", double), ("single", single), ("macbin", macbin), ("hqx", hqx)):
        write(tmp_path, "._" + form, make(old))
        if form == "double":
            write(tmp_path, form, b"the data file")
        status, output, messages = put_in(tmp_path, "._" + form, po, new="._new" + form)
        assert (status, output) == (0, b"texts put in: 9\n") and messages == ""
        new = read(str(tmp_path / ("._new" + form)))
        if form == "raw":
            assert new == fork_of(NEW)
            continue
        then = read_form(form, new)
        assert then.modified != old.modified or form == "hqx"
        assert make(then.but(modified=old.modified)) == make(old.but(res=fork_of(NEW)))
    assert read(str(tmp_path / "newdouble")) == b"the data file"
    assert not [name for name in names_in(tmp_path) if name.startswith(".rezkit")]


def test_nothing_translated_changes_nothing(tmp_path):
    write(tmp_path, "a", fork_of(RESOURCES))
    assert put_in(tmp_path, "a", PO.encode())[:2] == (0, b"texts put in: 0\n")
    assert read(str(tmp_path / "new")) == fork_of(RESOURCES)


def test_an_item_before_translated_ones_keeps_all_translations(tmp_path):
    """msgmerge finds each old translation without a mark of doubt, and `in` puts them at their new places."""
    old = fork_of([(b"DITL", 1, b"", 0, items(item(4, b"Save"), item(4, b"Cancel"), item(8, b"Save"), item(8, b"Sure?")))])
    new = fork_of([(b"DITL", 1, b"", 0, items(item(4, b"Help"), item(4, b"Save"), item(4, b"Cancel"), item(8, b"Save"), item(8, b"Sure?")))])
    german = {"'DITL' 1|Save": "Sichern", "'DITL' 1|Cancel": "Abbrechen", "'DITL' 1 #2|Save": "Gesichert", "'DITL' 1|Sure?": "Sicher?"}
    write(tmp_path, "de.po", translated(po_of(tmp_path, old), **german))
    write(tmp_path, "new.pot", po_of(tmp_path, new, name="New.rsrc").encode())
    subprocess.run(["msgmerge", "-q", "-U", "de.po", "new.pot"], cwd=str(tmp_path), check=True)
    merged = polib.pofile(str(tmp_path / "de.po"))
    assert [(entry.msgctxt, entry.msgid, entry.msgstr, entry.flags, entry.obsolete) for entry in merged] == [
        ("'DITL' 1", "Help", "", [], 0), ("'DITL' 1", "Save", "Sichern", [], 0), ("'DITL' 1", "Cancel", "Abbrechen", [], 0),
        ("'DITL' 1 #2", "Save", "Gesichert", [], 0), ("'DITL' 1", "Sure?", "Sicher?", [], 0)]
    status, _, messages = put_in(tmp_path, "New.rsrc", read(str(tmp_path / "de.po")))
    assert (status, messages) == (0, "rezkit-po: %s: entries that are untranslated and stay out: 1\n" % (tmp_path / "X.po"))
    assert read(str(tmp_path / "new")) == fork_of([(b"DITL", 1, b"", 0, items(
        item(4, b"Help"), item(4, b"Sichern"), item(4, b"Abbrechen"), item(8, b"Gesichert"), item(8, b"Sicher?")))])


SCRIPT_TEXTS = {
    "roman": ("Größe ÷ ÿ", b"Gr\x9A\xA7e \xD6 \xD8"),
    "central-european": ("Zażółć Čeština Őrült", b"Za\xFD\x97\xB8\x8D \x89e\xE4tina \xCCr\x9Flt"),
    "cyrillic": ("Файл Ёж", b"\x94\xE0\xE9\xEB \xDD\xE6"),
    "turkish": ("Dosyayı Ğ İ ş", b"Dosyay\xDD \xDA \xDC \xDF"),
    "greek": ("Αρχείο", b"\xB0\xF2\xF8\xE5\xDD\xEF"),
    "icelandic": ("Skrá Þ ð ý", b"Skr\x87 \xDE \xDD \xE0"),
    "romanian": ("Fișier ț", b"Fi\xBFier \xDF"),
    "croatian": ("Datoteka šđčćž", b"Datoteka \xB9\xF0\xE8\xE6\xBE"),
}


@pytest.mark.parametrize("script", sorted(SCRIPT_TEXTS))
def test_each_script_out_and_in(tmp_path, script):
    """An English text becomes one of the script, which comes out again as it is."""
    text, data = SCRIPT_TEXTS[script]
    write(tmp_path, "App.rsrc", fork_of([(b"STR ", 1, b"", 0, b"\4File"), (b"STR ", 2, b"", 0, b"\4Caf\x8E")]))
    po = po_of(tmp_path, read(str(tmp_path / "App.rsrc")))
    status, _, messages = put_in(tmp_path, "App.rsrc", translated(po, **{"'STR ' 1|File": text, "'STR ' 2|Café": text}), "--script", script)
    assert (status, messages) == (0, "")
    assert [entry[3] for entry in texts_of(tmp_path / "new")] == [data, data]
    back = po_of(tmp_path, read(str(tmp_path / "new")), "--script", script)
    assert [entry.msgid for entry in polib.pofile(back)] == [text, text]
    assert 'X-Rezkit-Script: %s\\n' % script in back
    status, _, _ = put_in(tmp_path, "App.rsrc", translated(back, **{"'STR ' 1|" + text: "x"}), new="again")
    assert status == 0 and [entry[3] for entry in texts_of(tmp_path / "again")] == [b"x", data]


def test_letters_that_a_script_lacks_and_texts_that_are_too_long_are_told_with_their_line(tmp_path):
    write(tmp_path, "a", fork_of(RESOURCES))
    po = translated(PO, **{"'DLOG' 128|Find": "\u0416uk", "'DITL' 129|OK": "o" * 256, "'STR#' 128|One\nTwo": "tab\tand \x07bell",
                           "'TEXT' 1|" + "Long " * 60: "Lang " * 1000, "'DITL' 129 #2|OK": "\u00E4" * 255}).decode()
    status, output, messages = put_in(tmp_path, "a", po.encode())
    lines = po.splitlines()
    told = [re.match(r"rezkit-po: %s:(\d+): (.*)" % re.escape(str(tmp_path / "X.po")), line) for line in messages.splitlines()[:-1]]
    assert [(lines[int(one[1]) - 1].split(",")[0], one[2]) for one in told] == [
        ("#. text 0 of 'DLOG' 128", "'DLOG' 128: the script roman has no letter \u0416 (U+0416)"),
        ("#. text 0 of 'DITL' 129", "'DITL' 129: has 256 bytes, and at most 255 have room"),
        ("#. text 0 of 'STR#' 128", "'STR#' 128: has a control character")]
    assert messages.splitlines()[-1] == "rezkit-po: %s: translations that don't fit: 3; nothing was written" % (tmp_path / "X.po")
    assert (status, output) == (1, b"") and "new" not in names_in(tmp_path)


def test_what_restring_refuses_is_told_with_the_line_of_the_po_file(tmp_path):
    """A text of 255 bytes leaves no room for a fixed string of ten, which a type file of the test declares."""
    types = write(tmp_path, "T.r", b"type 'Fix ' { pstring; string[10]; };")
    write(tmp_path, "a", fork_of([(b"Fix ", 1, b"", 0, b"\1aTen bytes!")]))
    po = po_of(tmp_path, read(str(tmp_path / "a")), "--types", types)
    assert [(entry.msgid, entry.comment) for entry in polib.pofile(po)] == [("a", "text 0 of 'Fix ' 1"), ("Ten bytes!", "text 1 of 'Fix ' 1")]
    made = translated(po, **{"'Fix ' 1|a": "b", "'Fix ' 1|Ten bytes!": "Eleven bytes"})
    status, _, messages = put_in(tmp_path, "a", made, "--types", types)
    line = made.decode().splitlines().index("#. text 0 of 'Fix ' 1") + 1
    assert (status, messages) == (1, "rezkit-po: %s:%d: 464 TextRefused: 'Fix ' 1\n" % (tmp_path / "X.po", line))
    assert "new" not in names_in(tmp_path)


def test_protected_resources_and_read_only_forks(tmp_path):
    write(tmp_path, "a", fork_of([(b"STR ", 1, b"", 8, b"\4File")]))
    po = translated(po_of(tmp_path, read(str(tmp_path / "a"))), **{"'STR ' 1|File": "Datei"})
    status, _, messages = put_in(tmp_path, "a", po)
    assert status == 1 and messages.endswith(": 219 Protected: 'STR ' 1 (--protected changes it)\n")
    assert put_in(tmp_path, "a", po, "--protected")[0] == 0 and texts_of(tmp_path / "new")[0][3] == b"Datei"
    rezkit("rez", write(tmp_path, "s.r", b"data 'STR ' (1) { \"\\0x04File\" };"), "-ro", "-o", str(tmp_path / "ro"))
    status, _, messages = put_in(tmp_path, "ro", po, new="x")
    assert (status, messages) == (1, "rezkit-po: 220 ReadOnlyMap: 128\n") and "x" not in names_in(tmp_path)


def test_fuzzy_obsolete_and_foreign_entries_stay_out(tmp_path):
    write(tmp_path, "a", fork_of([(b"STR ", 1, b"", 0, b"\4File"), (b"STR ", 2, b"", 0, b"\4Edit")]))
    head = PO[:PO.index("#. text 0")]
    po = head + ('#, fuzzy\nmsgctxt "\'STR \' 1"\nmsgid "File"\nmsgstr "Datei"\n\nmsgctxt "\'STR \' 2"\nmsgid "Edit"\nmsgstr "Bearbeiten"\n\n'
                 'msgctxt "\'STR \' 2"\nmsgid "Other"\nmsgstr "Anderes"\n\nmsgid "Edit"\nmsgstr "Ohne Kontext"\n\n'
                 '#~ msgctxt "\'STR \' 1"\n#~ msgid "File"\n#~ msgstr "Alt"\n')
    status, output, messages = put_in(tmp_path, "a", po.encode())
    front = "rezkit-po: %s" % (tmp_path / "X.po")
    first = po.splitlines().index('msgid "Other"')
    assert messages == ("%s:%d: 'STR ' 2: the file has no such text\n%s:%d: no context: the file has no such text\n"
                        "%s: entries that are fuzzy and stay out: 1\n%s: entries that are obsolete and stay out: 1\n"
                        % (front, first, front, first + 4, front, front))
    assert (status, output) == (0, b"texts put in: 1\n")
    assert [entry[3] for entry in texts_of(tmp_path / "new")] == [b"File", b"Bearbeiten"]


def test_an_entry_that_stands_twice_is_refused(tmp_path):
    write(tmp_path, "a", fork_of([(b"STR ", 1, b"", 0, b"\4File")]))
    entry = 'msgctxt "\'STR \' 1"\nmsgid "File"\nmsgstr "Datei"\n\n'
    status, _, messages = put_in(tmp_path, "a", (PO[:PO.index("#. text 0")] + entry + entry).encode())
    assert (status, messages) == (1, "rezkit-po: %s:19: the entry of line 15 stands here again\n" % (tmp_path / "X.po"))


def test_padding_that_isnt_zero_doesnt_stand_in_the_way(tmp_path):
    """Each text of a dialog with padding of 'x' gets one letter more, and then one letter less."""
    fork = fork_of([(b"DITL", 1, b"", 0, items(item(4, b"odd", padding=b"x"), item(8, b"even"), item(8, b"o", padding=b"y")))])
    write(tmp_path, "a", fork)
    po = po_of(tmp_path, fork)
    assert put_in(tmp_path, "a", translated(po, **{"'DITL' 1|odd": "oddx", "'DITL' 1|even": "evens", "'DITL' 1|o": "abc"}))[0] == 0
    assert read(str(tmp_path / "new")) == fork_of([(b"DITL", 1, b"", 0, items(item(4, b"oddx"), item(8, b"evens"), item(8, b"abc", padding=b"y")))])


def test_types_of_ones_own_and_all_kinds_of_the_usual_ones(tmp_path):
    """Types.r gives the same texts of these resources as Texts.r, and icons no entry."""
    fork = fork_of(RESOURCES[:3] + [(b"ICN#", 1, b"", 0, bytes(range(256)))])
    usual, all_types = po_of(tmp_path, fork), po_of(tmp_path, fork, "--types", os.path.join(TYPES, "Types.r"))
    assert [(entry.msgctxt, entry.msgid) for entry in polib.pofile(usual)] == [(entry.msgctxt, entry.msgid) for entry in polib.pofile(all_types)]
    comments = [entry.comment for entry in polib.pofile(po_of(tmp_path, fork_of([
        (b"MENU", 1, b"", 0, b"\0\1" + bytes(8) + b"\xFF" * 4 + b"\4File\1Q\0Q\0\0\0"), (b"ALRT", 2, b"", 0, b"\0\x28\0\x28\1\0\1\x80\0\3\x44\x44"),
        (b"DITL", 3, b"", 0, items(item(4, b"OK"))), (b"vers", 1, b"", 0, b"\1\0\x80\0\0\0\0031.0\0061.0 US"),
        (b"WIND", 1, b"", 0, b"\0\x28\0\x28\1\0\1\x80\0\0\1\0\1\0\0\0\0\0\3Win")])))]
    assert comments == [
        "text 0 of 'MENU' 1, title, at most 255 bytes", "text 1 of 'MENU' 1, at most 255 bytes",
        "text 0 of 'DITL' 3, of 'ALRT' 2, Button, rectangle {10, 20, 30, 80}, at most 255 bytes",
        "text 0 of 'vers' 1, short version, at most 255 bytes", "text 1 of 'vers' 1, long version, at most 255 bytes",
        "text 0 of 'WIND' 1, title, at most 255 bytes"]


def test_what_derez_shows_is_read():
    statements = catalogue.statements_of(
        b"data 'A\\0x00\\'\\\\' (-1, \"na\"\n    \"me\", sysheap, $81) {\n    $\"0001\"\n};\n\n"
        b"resource 'DITL' (128) {\n    {\n        {1, 2, 3, -4},\n        Button {\n            enabled,\n            \"a\\\"b\"\n            \"c\",\n"
        b"            $\"0a FF\"\n        };\n    },\n    \"\"\n};\n\n")
    assert [(one.word, one.kind, one.ident, one.name) for one in statements] == [
        ("data", b"A\0'\\", -1, b"name"), ("resource", b"DITL", 128, b"")]
    assert [(one.text, one.is_hex, one.kind, one.rectangle) for one in statements[1].strings] == [
        (b"a\"bc", False, "Button", ["1", "2", "3", "-4"]), (b"\n\xFF", True, "Button", ["1", "2", "3", "-4"]), (b"", False, None, None)]


def test_a_catalogue_comes_back(tmp_path):
    chance = random.Random(7)
    texts = [(b"S'\\\"", -1, number, bytes(chance.randrange(256) for _ in range(chance.randrange(200)))) for number in range(200)]
    written = b"".join(catalogue.entry_text(*each) for each in texts)
    as_strings = re.sub(rb"(\d+) (\".*\");\n", rb"\1\n    \2;\n", written)
    assert catalogue.entries_of(as_strings) == texts


# Names, streams, statuses.

def test_odd_names_and_streams(tmp_path):
    fork = fork_of([(b"STR ", 1, b"", 0, b"\4File")])
    po = translated(po_of(tmp_path, fork), **{"'STR ' 1|File": "Datei"})
    wanted = fork_of([(b"STR ", 1, b"", 0, b"\5Datei")])
    for name in (b"-o", b"a b", b"it's", b"\"q\"", b"caf\xE9", b"new\nline", b"\\", b"data"):
        write(tmp_path, name, fork)
        write(tmp_path, name + b".po", po)
        status, _, messages = run("rezkit-po", "in", "-o", b"./" + name + b".new", "--", name, name + b".po", folder=str(tmp_path))
        assert (status, messages) == (0, "") and read(os.path.join(os.fsencode(str(tmp_path)), name + b".new")) == wanted
        assert run("rezkit-po", "out", "--", name, folder=str(tmp_path))[0] == 0
    assert run("rezkit-po", "in", "a b", "-", "-o", "-", folder=str(tmp_path), given=po)[:2] == (0, wanted)
    assert run("rezkit-po", "in", "-", "a b.po", "-o", "x", folder=str(tmp_path), given=fork)[0] == 0 and read(str(tmp_path / "x")) == wanted
    assert run("rezkit-po", "out", "-", given=fork)[1].count(b'msgid "File"') == 1


def test_a_name_that_the_new_file_gets(tmp_path):
    """A file without a name gets that of the new file, as restring gives it."""
    write(tmp_path, "._a", double(File(name=b"", res=fork_of([(b"STR ", 1, b"", 0, b"\4File")]))))
    po = po_of(tmp_path, fork_of([(b"STR ", 1, b"", 0, b"\4File")]), name="x")
    assert put_in(tmp_path, "._a", po.encode(), new="._Datei")[0] == 0
    assert read_form("double", read(str(tmp_path / "._Datei"))).name == b"._Datei"


def test_nothing_is_overwritten_without_f(tmp_path):
    write(tmp_path, "._a", double(WHOLE.but(res=fork_of([(b"STR ", 1, b"", 0, b"\4File")]))))
    write(tmp_path, "a", b"data")
    po = po_of(tmp_path, fork_of([(b"STR ", 1, b"", 0, b"\4File")]), name="x").encode()
    target = write(tmp_path, "target", b"mine")
    os.symlink("target", str(tmp_path / "._new"))
    status, _, messages = put_in(tmp_path, "._a", po, new="._new")
    assert (status, messages) == (1, "rezkit-po: %s: is there already (-f replaces a file)\n" % (tmp_path / "._new"))
    os.unlink(str(tmp_path / "._new"))
    write(tmp_path, "new", b"mine too")
    status, _, messages = put_in(tmp_path, "._a", po, new="._new")
    assert (status, messages) == (1, "rezkit-po: %s: is there already (-f replaces a file)\n" % (tmp_path / "new"))
    assert not os.path.lexists(str(tmp_path / "._new")) and read(str(tmp_path / "new")) == b"mine too"
    os.symlink("target", str(tmp_path / "._new"))
    assert put_in(tmp_path, "._a", po, "-f", new="._new")[0] == 0
    assert read(target) == b"mine" and not os.path.islink(str(tmp_path / "._new")) and read(str(tmp_path / "new")) == b"data"
    status, _, messages = run("rezkit-po", "out", str(tmp_path / "._a"), "-o", str(tmp_path / "target"))
    assert (status, messages) == (1, "rezkit-po: %s: is there already (-f replaces a file)\n" % (tmp_path / "target"))
    (tmp_path / "folder").mkdir()
    status, _, messages = put_in(tmp_path, "._a", po, "-f", new="folder")
    assert (status, messages) == (1, "rezkit-po: %s: is a folder\n" % (tmp_path / "folder"))


def test_a_foreign_data_file_does_not_become_the_data_fork(tmp_path):
    write(tmp_path, "._a", double(WHOLE.but(res=FORK)))
    write(tmp_path, "new", b"another file")
    status, _, messages = put_in(tmp_path, "._a", PO.encode(), "-f", new="._new")
    assert status == 1 and messages == "rezkit-po: %s: is there, and would become the data fork of %s: move it away\n" % (
        tmp_path / "new", tmp_path / "._new")


def test_the_header_in_its_own_place_keeps_its_data_file(tmp_path):
    write(tmp_path, "._a", double(WHOLE.but(res=fork_of([(b"STR ", 1, b"", 0, b"\4File")]))))
    write(tmp_path, "a", b"data")
    po = translated(po_of(tmp_path, fork_of([(b"STR ", 1, b"", 0, b"\4File")]), name="x"), **{"'STR ' 1|File": "Datei"})
    assert put_in(tmp_path, "._a", po, "-f", new="._a")[0] == 0
    assert read(str(tmp_path / "a")) == b"data" and texts_of(tmp_path / "._a")[0][3] == b"Datei"


def test_a_full_disk_leaves_nothing(tmp_path):
    fork = fork_of([(b"STR ", 1, b"", 0, b"\4File"), (b"Data", 1, b"", 0, bytes(100000))])
    write(tmp_path, "a", fork)
    po = po_of(tmp_path, fork, name="x").encode()
    before = names_in(tmp_path)
    status, _, messages = run("rezkit-po", "in", str(tmp_path / "a"), write(tmp_path, "X.po", po), "-o", str(tmp_path / "new"), largest=50000)
    assert (status, messages) == (1, "rezkit-po: write fault\n") and names_in(tmp_path) == sorted(before + ["X.po"])
    status, _, messages = run("rezkit-po", "out", str(tmp_path / "a"), "-o", str(tmp_path / "b.po"), largest=100)
    assert (status, messages) == (1, "rezkit-po: %s: can't be written: File too large\n" % (tmp_path / "b.po"))
    assert names_in(tmp_path) == sorted(before + ["X.po"])
    with open("/dev/full", "wb") as full:
        status, _, messages = run("rezkit-po", "out", str(tmp_path / "a"), to=full)
    assert (status, messages) == (1, "rezkit-po: standard output: can't be written: No space left on device\n")
    status, _, messages = run("rezkit-po", "in", str(tmp_path / "a"), str(tmp_path / "X.po"), "-o", "/dev/full")
    assert (status, messages) == (1, "rezkit-po: /dev/full: can't be written: No space left on device\n")


def test_wrong_arguments_and_files_that_arent_there(tmp_path):
    write(tmp_path, "a", FORK)
    for words in ([], ["out"], ["in", "a"], ["in", "a", "b"], ["up", "a"], ["out", "a", "--script", "latin"], ["in", "-", "-", "-o", "x"],
                  ["out", "a", "--language", ""], ["out", "a", "b"], ["out", "a", "--typ", "x"]):
        status, output, messages = run("rezkit-po", *words, folder=str(tmp_path), given=b"")
        assert (status, output) == (2, b"") and messages, words
    for words, message in (
            (["out", "nofile"], "nofile: can't be read: No such file or directory"),
            (["in", "a", "no.po", "-o", "x"], "no.po: can't be read: No such file or directory"),
            (["in", "no", "no.po", "-o", "x"], "no: can't be read: No such file or directory"),
            (["out", "."], ".: is a folder"),
            (["in", "a", "a", "-o", "x"], "a: is no PO file that can be read"),
            (["out", "a", "--types", "no.r"], "101 MissingFile: \"no.r\"")):
        status, output, messages = run("rezkit-po", *words, folder=str(tmp_path))
        assert (status, output, messages) == (1, b"", "rezkit-po: %s\n" % message)
    assert names_in(tmp_path) == ["a"]
    assert run("rezkit-po", "--version")[:2] == (0, rezkit("--version"))
    for words in (["-h"], ["out", "--help"], ["in", "-h"]):
        assert run("rezkit-po", *words)[0] == 0


def test_damaged_forks_are_refused(tmp_path):
    status, output, messages = run("rezkit-po", "out", write(tmp_path, "a", FORK[:-1]))
    assert (status, output, messages) == (1, b"", "rezkit-po: 403 MapOutside: 4 75\n")


def test_300_damaged_po_files(tmp_path):
    """Each is refused in a line, or puts in what it says; none is taken for something else."""
    from rezkit_workbench import facts, po as module
    from rezkit_workbench.errors import Refused
    chance, made, ended = random.Random(3), PO.replace('msgstr ""\n\n#.', 'msgstr "neu"\n\n#.').encode(), []
    for number in range(300):
        data = bytearray(made)
        for _ in range(chance.choice((1, 3, 20))):
            at = chance.randrange(len(data))
            data[at:at + chance.choice((0, 1, 5))] = chance.choice((b"\xFF", b"\"", b"\\", b"\n", b"\0", b"msgstr[9] ", b"msgstr[\xD9\xA3] \"", b"charset=hex", b"#~ "))
        with facts.Opened(write(tmp_path, "x.po", bytes(data))) as file:
            try:
                module.translations_of(module.po_entries(file), file.told)
                ended.append(0)
            except Refused as fault:
                assert str(fault).startswith(file.told)
                ended.append(1)
    assert ended.count(0) > 20 and ended.count(1) > 20


def test_a_large_fork_in_little_memory_and_time(tmp_path):
    """16 MB of resources without texts, and 4,000 texts."""
    fork = fork_of([(b"STR ", number, b"", 0, b"\4File") for number in range(4000)] + [(b"Data", 1, b"", 0, bytes(15 << 20))])
    status, output, _ = run("rezkit-po", "out", write(tmp_path, "a", fork), memory=MEMORY, cpu=SECONDS)
    assert status == 0 and output.count(b'msgid "File"') == 4000
