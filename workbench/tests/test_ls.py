"""rezkit-ls: its rows, its manifest, which files it looks at, and its statuses."""
import json
import os
import pty
import random
import re
import shutil
import signal
import subprocess
import time

from model.fork import fork_of
from model.forms import double, hqx, macbin, single
from helpers import FORK, MEMORY, SECONDS, TOP, TYPES, WHOLE, WORKBENCH, mutants, names_in, read, rezkit, run, some_resources, write

PNG = b"\x89PNG\r\n\x1A\n\0\0\0\rIHDR"
RESOURCES = [{"type": "STR ", "id": 128, "name": "", "name_hex": "", "attributes": 0, "bytes": 6},
             {"type": "CODE", "id": 0, "name": "Main", "name_hex": "4d61696e", "attributes": 36, "bytes": 2}]
NOTHING = {"schema": 1, "path_hex": None, "form": None, "name": None, "name_hex": None, "type": None, "creator": None, "flags": None,
           "locked": None, "created": None, "modified": None, "data": None, "fork": None, "fault": None, "resources": None}
FINDER = {"name": "Café", "name_hex": "4361668e", "type": "APPL", "creator": "CAF ", "flags": 8448, "fork": 347, "resources": RESOURCES}
DATES = {"created": "2001-09-09 01:46:40", "modified": "1996-05-01 12:00:00"}


def rows(*words, **more):
    """The rows of --json, with the status and the messages."""
    status, output, messages = run("rezkit-ls", "--json", *words, **more)
    return [json.loads(line) for line in output.decode("utf-8").splitlines()], status, messages


def row(path, **told):
    return dict(NOTHING, path=path, **told)


def test_a_manifest_of_a_file_in_each_form(tmp_path):
    for name, data in (("a.rsrc", FORK), ("._b", double(WHOLE)), ("b", b"Data!!"), ("c.as", single(WHOLE)), ("d.bin", macbin(WHOLE)),
                       ("e.hqx", hqx(WHOLE)), ("f.png", PNG), ("g.rsrc", FORK[:-1])):
        write(tmp_path, name, data)
    found, status, messages = rows("d", folder=_moved(tmp_path, "d"))
    assert found == [
        row("d/._b", form="double", what="AppleDouble", size=len(double(WHOLE)), data=6, **dict(FINDER, **DATES)),
        row("d/a.rsrc", form="raw", what="resource fork", size=347, fork=347, resources=RESOURCES),
        row("d/c.as", form="single", what="AppleSingle", size=len(single(WHOLE)), data=5, **dict(FINDER, **DATES)),
        row("d/d.bin", form="macbin", what="MacBinary", size=640, locked=True, data=5, **dict(FINDER, **DATES)),
        row("d/e.hqx", form="hqx", what="BinHex 4.0", size=len(hqx(WHOLE)), data=5, **FINDER),
        row("d/f.png", what="PNG", size=16),
        row("d/g.rsrc", form="raw", what="resource fork", size=346, fork=346, fault="403 MapOutside offset 4 value 75")]
    assert (status, messages) == (1, "")


def _moved(tmp_path, name):
    """A folder whose one folder of this name has all files that were here."""
    os.mkdir(str(tmp_path / ".new"))
    for each in names_in(tmp_path):
        if each != ".new":
            os.rename(str(tmp_path / each), str(tmp_path / ".new" / each))
    os.rename(str(tmp_path / ".new"), str(tmp_path / name))
    return str(tmp_path)


def test_a_manifest_of_the_examples(tmp_path):
    """The sources of examples/ are texts, and one is a picture; what they compile to has the resources that stand in them."""
    os.symlink(os.path.join(TOP, "examples"), str(tmp_path / "examples"))
    rezkit("rez", "examples/App.r", "-i", TYPES, "-o", "App.rsrc", folder=str(tmp_path))
    rezkit("rez", "examples/ask.r", "-i", TYPES, "-o", "ask.bin", "-form", "macbin", "-t", "rsrc", "-c", "RSED", folder=str(tmp_path))
    found, status, _ = rows("examples", "App.rsrc", "ask.bin", folder=str(tmp_path))
    whats = {each["path"]: each["what"] for each in found[:-2]}
    assert whats.pop("examples/icon.png") == "PNG" and set(whats.values()) == {"text"}
    assert [each["path"] for each in found[:-2]] == ["examples/" + name for name in names_in(tmp_path / "examples")]
    assert [(one["type"], one["id"]) for one in found[-2]["resources"]] == [
        ("vers", 1), ("MENU", 128), ("ALRT", 128), ("DITL", 128), ("STR#", 128), ("ICN#", 128)]
    assert found[-1]["resources"] == [
        {"type": "DLOG", "id": 128, "name": "Save changes", "name_hex": b"Save changes".hex(), "attributes": 32, "bytes": 24},
        {"type": "DITL", "id": 128, "name": "", "name_hex": "", "attributes": 32, "bytes": 86}]
    assert (found[-1]["type"], found[-1]["creator"], found[-1]["name"], status) == ("rsrc", "RSED", "ask.bin", 0)


def test_rows_as_lines(tmp_path):
    for name, data in (("a.bin", macbin(WHOLE)), ("b.rsrc", FORK), ("c.rsrc", FORK[:-1]), ("d.png", PNG), ("e", b"")):
        write(tmp_path, name, data)
    status, output, _ = run("rezkit-ls", ".", folder=str(tmp_path))
    assert output.decode() == (
        "./a.bin: MacBinary 'APPL' 'CAF ', data 5, fork 347, resources 2\n"
        "./b.rsrc: resource fork, fork 347, resources 2\n"
        "./c.rsrc: resource fork, fork 346, 403 MapOutside offset 4 value 75\n"
        "./d.png: PNG\n"
        "./e: empty\n")
    assert status == 1


def test_long_rows(tmp_path):
    write(tmp_path, "a.bin", macbin(WHOLE))
    facts = ('a.bin: MacBinary\n    name "Café"\n    type \'APPL\' creator \'CAF \' flags 0x2100 (bundle, inited)\n    locked true\n'
             "    created 2001-09-09 01:46:40 modified 1996-05-01 12:00:00\n    data 5 fork 347 resources 2\n")
    assert run("rezkit-ls", "-l", "a.bin", folder=str(tmp_path))[1].decode() == (
        facts + "    'STR ' 1, 6 bytes, id 128\n    'CODE' 1, 2 bytes, id 0\n")
    assert run("rezkit-ls", "--resources", "a.bin", folder=str(tmp_path))[1].decode() == (
        facts + "    'STR ' (128) 6\n    'CODE' (0, \"Main\", purgeable, preload) 2\n")


def test_sums(tmp_path):
    """The sums are those of sha256sum."""
    write(tmp_path, "data", b"Data!")
    write(tmp_path, "fork", FORK)
    for name, make in (("file", macbin), ("._n", double)):
        write(tmp_path, name, make(WHOLE))
    write(tmp_path, "n", b"Data!")
    said = subprocess.run(["sha256sum", "file", "data", "fork", "._n"], cwd=str(tmp_path), stdout=subprocess.PIPE).stdout.decode()
    file, data, fork, header = re.findall("^[0-9a-f]{64}", said, re.M)
    found, _, _ = rows("--sha256", "file", "._n", "data", folder=str(tmp_path))
    assert [[each[key] for key in ("sha256", "data_sha256", "fork_sha256")] for each in found] == [
        [file, data, fork], [header, data, fork], [data, None, None]]


HEADER = re.compile(r"data '((?:[^'\\]|\\0x..|\\.){4})' \((-?\d+)((?:,\s*(?:\"(?:[^\"\\]|\\.)*\"\s*)+)?)((?:, [$\w]+)*)\) \{(.*?)\n\};", re.S)
BITS = {"sysheap": 64, "purgeable": 32, "locked": 16, "protected": 8, "preload": 4, "changed": 2}


def unescaped(text):
    """The bytes of a text of derez."""
    parts = re.findall(r"\\0x(..)|\\(.)|([^\\])", text, re.S)
    return b"".join(bytes([int(digits, 16)]) if digits else (letter or plain).encode() for digits, letter, plain in parts)


def told_by_derez(path):
    """Type, id, name, attributes and length of each resource, from the text that derez writes."""
    found = []
    for kind, ident, name, words, content in HEADER.findall(rezkit("derez", path).decode("ascii")):
        words = words.replace(",", " ").split()
        bits = int(words[0][1:], 16) if words and words[0][0] == "$" else sum(BITS[word] for word in words)
        name = b"".join(unescaped(piece) for piece in re.findall(r'"((?:[^"\\]|\\.)*)"', name))
        found.append((unescaped(kind).hex(), int(ident), name.hex(), bits, len(re.findall("[0-9A-F]{2}", content.replace(" ", "")))))
    return found


def test_500_forks_against_derez(tmp_path):
    chance = random.Random(5)
    for number in range(500):
        write(tmp_path, "%03d" % number, fork_of(some_resources(chance)))
    found, status, _ = rows(str(tmp_path))
    assert (len(found), status) == (500, 0)
    count = 0
    for each in found:
        own = [(one["type"].encode("mac_roman").hex(), one["id"], one["name_hex"], one["attributes"], one["bytes"]) for one in each["resources"]]
        assert own == told_by_derez(each["path"])
        count += len(own)
    assert count > 1500


def test_500_mutated_files_in_little_memory(tmp_path):
    for number, data in enumerate(mutants(1, 500)):
        write(tmp_path, "%03d" % number, data)
    found, status, messages = rows("-j", "2", str(tmp_path), memory=MEMORY)
    assert (len(found), status, messages) == (500, 1, "")
    assert sum(each["fault"] is None for each in found) > 100 and sum(each["fault"] is not None for each in found) > 100


def test_a_damaged_file_alone_takes_little_time(tmp_path):
    for number, data in enumerate(mutants(2, 20)):
        path = write(tmp_path, "%03d" % number, data)
        assert run("rezkit-ls", "--resources", path, memory=MEMORY, cpu=SECONDS)[0] in (0, 1)


def test_the_largest_forks_in_little_memory(tmp_path):
    """A data fork of 32 MB and a fork of nearly 16 MB."""
    big = WHOLE.but(data=bytes(33554432), res=fork_of([(b"DATA", 1, b"", 0, bytes(16777000))]))
    for number, make in enumerate((macbin, single)):
        path = write(tmp_path, str(number), make(big))
        found, status, _ = rows("--sha256", path, memory=MEMORY)
        assert status == 0 and found[0]["data"] == 33554432 and found[0]["resources"][0]["bytes"] == 16777000


# Which files.

def test_a_data_file_and_its_header_are_one_row(tmp_path):
    folder = tmp_path / "pairs"
    folder.mkdir()
    for name, data in (("App", b"data"), ("._App", double(WHOLE)), ("._Lone", double(WHOLE)), ("x.hdr", double(WHOLE)), ("x.hdr.data", b"12"),
                       ("Text", b"text"), ("._Text", b"no header")):
        write(folder, name, data)
    top = str(tmp_path)
    by_folder, status, _ = rows("pairs", folder=top)
    assert [(each["path"], each["what"], each["data"]) for each in by_folder] == [
        ("pairs/._App", "AppleDouble", 4), ("pairs/._Lone", "AppleDouble", 0), ("pairs/._Text", "text", None), ("pairs/Text", "text", None),
        ("pairs/x.hdr", "AppleDouble", 2)]
    assert status == 0
    named = sorted("pairs/" + name for name in os.listdir(str(folder)))
    by_name, _, _ = rows("pairs/App", folder=top)
    assert by_name == by_folder[:1]
    assert sorted(rows(*named, folder=top)[0], key=lambda each: each["path"]) == by_folder
    assert [each["path"] for word in named for each in rows("--once", word, folder=top)[0]] == [each["path"] for each in by_folder]


def test_a_header_whose_data_file_is_a_link_or_a_pipe(tmp_path):
    write(tmp_path, "._a", double(WHOLE))
    os.symlink("/etc/passwd", str(tmp_path / "a"))
    write(tmp_path, "._b", double(WHOLE))
    os.mkfifo(str(tmp_path / "b"))
    found, status, messages = rows("--sha256", ".", folder=str(tmp_path), cpu=SECONDS)
    assert [(each["path"], each["data"], each["fault"]) for each in found] == [("./._a", 0, None), ("./._b", 0, None)]
    assert status == 0 and messages == "rezkit-ls: links, devices and pipes in folders that weren't looked at: 2\n"


def test_links_and_pipes_in_folders_are_not_opened(tmp_path):
    os.mkdir(str(tmp_path / "d"))
    os.symlink("..", str(tmp_path / "d" / "loop"))
    os.symlink("/etc/passwd", str(tmp_path / "d" / "link"))
    os.mkfifo(str(tmp_path / "d" / "pipe"))
    write(tmp_path / "d", "plain", b"text")
    found, status, messages = rows("d", folder=str(tmp_path), cpu=SECONDS)
    assert [each["path"] for each in found] == ["d/plain"] and status == 0
    assert messages == "rezkit-ls: links, devices and pipes in folders that weren't looked at: 3\n"
    os.symlink("d/plain", str(tmp_path / "named"))
    assert rows("named", folder=str(tmp_path))[0][0]["what"] == "text"


NAMES = [b"-j", b"--json", b"-", b" a b ", b"it's", b'"q"', b"back\\slash", b"new\nline", b"\x1B[31mred", b"caf\xC3\xA9", b"caf\xE9", b"$(id)",
         b"\xE2\x80\xAEgnp.exe"]


def test_odd_names_in_a_folder_and_as_words(tmp_path):
    for name in NAMES:
        write(tmp_path, name, macbin(WHOLE))
    found, status, _ = rows("./", folder=str(tmp_path))
    assert status == 0 and len(found) == len(NAMES)
    assert [bytes.fromhex(each["path_hex"]) if each["path_hex"] else each["path"].encode() for each in found] == [b"./" + name for name in sorted(NAMES)]
    assert {each["fork"] for each in found} == {347}
    assert {each["path"] for each in found if each["path_hex"]} == {"./caf\\xe9"}
    words = [name for name in NAMES if name != b"-"]
    by_word = run("rezkit-ls", "--json", "--", *words, folder=str(tmp_path))
    assert by_word[0] == 0 and by_word[1].count(b'"fork":347') == len(words)


def test_no_control_byte_is_printed_raw(tmp_path):
    write(tmp_path, b"\x1B[31m\x7F", macbin(WHOLE.but(name=b"a\x1B[2J\x07\x7F", kind=b"\x9B\r\n\0")))
    for words in ([], ["-l"], ["--resources"], ["--json"]):
        output = run("rezkit-ls", *words, ".", folder=str(tmp_path))[1]
        assert not [byte for byte in output.replace(b"\n", b"") if byte < 32 or byte == 127]
    assert run("rezkit-ls", ".", folder=str(tmp_path))[1].decode() == (
        "./\\x1b[31m\\x7f: MacBinary 'õ\\x0d\\x0a\\x00' 'CAF ', data 5, fork 347, resources 2\n")


def test_standard_input(tmp_path):
    assert run("rezkit-ls", "-", given=hqx(WHOLE))[:2] == (0, b"-: BinHex 4.0 'APPL' 'CAF ', data 5, fork 347, resources 2\n")
    status, output, _ = run("rezkit-ls", "-j", "4", "-", write(tmp_path, "a", PNG), write(tmp_path, "b", PNG), str(tmp_path), given=FORK)
    assert status == 0 and output.startswith(b"-: resource fork, fork 347, resources 2\n") and output.count(b": PNG\n") == 4
    with open(write(tmp_path, "f", FORK), "rb") as file:
        ran = subprocess.run([os.path.join(WORKBENCH, "rezkit-ls"), "-"], stdin=file, stdout=subprocess.PIPE)
    assert ran.stdout == b"-: resource fork, fork 347, resources 2\n"


def test_a_deep_and_a_large_folder(tmp_path):
    """Folders as deep as a path may be long, and 10,000 files of one folder in the order of their names."""
    deep = str(tmp_path)
    for _ in range(1200):
        deep += "/d"
        os.mkdir(deep)
    write(deep, "leaf", b"text")
    large = tmp_path / "large"
    large.mkdir()
    for number in range(10000):
        write(large, "%05d" % number, FORK if number % 100 == 0 else PNG)
    found, status, _ = rows(str(tmp_path))
    assert status == 0 and len(found) == 10001
    assert found[0]["path"] == deep + "/leaf"
    assert [os.path.basename(each["path"]) for each in found[1:]] == ["%05d" % number for number in range(10000)]
    assert sum(each["form"] == "raw" for each in found) == 100
    subprocess.run(["rm", "-r", str(tmp_path / "d")])  # pytest can't: it goes down by recursion


def test_the_rows_are_the_same_however_many_are_read_at_once(tmp_path):
    for number, data in enumerate(mutants(3, 120)):
        write(tmp_path, "%03d" % number, data)
    alone = run("rezkit-ls", "--json", "--sha256", "-j", "1", str(tmp_path))
    assert alone == run("rezkit-ls", "--json", "--sha256", "-j", "3", str(tmp_path))
    assert alone[1].count(b"\n") == 120


def test_gnu_parallel_gives_the_same_rows_and_goes_on_where_it_was_broken_off(tmp_path):
    """As docs/ARCHIVING.md says. The first time one piece of work never ends, and parallel is killed."""
    for number, data in enumerate(mutants(4, 60)):
        write(tmp_path, "%03d it's" % number, data)
    write(tmp_path, "App", b"data")
    write(tmp_path, "._App", double(WHOLE))
    wanted = run("rezkit-ls", "--json", str(tmp_path))[1].splitlines()
    log, stop, out = (str(tmp_path) + end for end in (".log", ".stop", ".json"))
    script = write(tmp_path.parent, "once.sh", (
        '#!/bin/sh\ncase "$*" in *"040 it"*) [ -e "%s" ] || { : > "%s"; exec sleep 60; };; esac\nexec "%s" --json --once "$@"\n'
        % (stop, stop, os.path.join(WORKBENCH, "rezkit-ls"))).encode())
    os.chmod(script, 0o755)
    command = "find '%s' -type f -print0 | sort -z | parallel -0 -j2 --will-cite --joblog '%s' --resume -n 7 '%s' >> '%s'" % (
        tmp_path, log, script, out)
    with subprocess.Popen(["sh", "-c", command], stderr=subprocess.DEVNULL, start_new_session=True) as under_way:
        while not (os.path.exists(stop) and os.path.getsize(out)):
            time.sleep(0.1)
        os.killpg(under_way.pid, signal.SIGKILL)
    broken_off = read(out).splitlines()
    assert 0 < len(broken_off) < len(wanted)
    subprocess.run(["sh", "-c", command], stderr=subprocess.DEVNULL)
    assert sorted(set(read(out).splitlines())) == sorted(wanted)


# Statuses.

def test_a_file_that_is_not_there_and_the_others_are_done(tmp_path):
    write(tmp_path, "b", PNG)
    found, status, messages = rows("a", "b", "c/d", folder=str(tmp_path))
    assert [(each["path"], each["what"], each["fault"]) for each in found] == [
        ("a", "not read", "can't be read: No such file or directory"), ("b", "PNG", None),
        ("c/d", "not read", "can't be read: No such file or directory")]
    assert (status, messages) == (1, "")


def test_wrong_arguments():
    for words in ([], ["-x", "a"], ["-j", "0", "a"], ["-j", "257", "a"], ["-j", "x", "a"], ["-l", "--json", "a"], ["--js", "a"]):
        status, output, messages = run("rezkit-ls", *words)
        assert (status, output) == (2, b"") and messages.startswith("usage: rezkit-ls ")


def test_help_and_version():
    status, output, messages = run("rezkit-ls", "--version")
    assert (status, output, messages) == (0, rezkit("--version"), "")
    for word in ("-h", "--help"):
        status, output, messages = run("rezkit-ls", word)
        assert status == 0 and output.startswith(b"usage: rezkit-ls ") and b"exit status" in output and messages == ""


def test_an_output_that_is_full_or_gone(tmp_path):
    path = write(tmp_path, "a", FORK)
    with open("/dev/full", "wb") as full:
        status, _, messages = run("rezkit-ls", path, to=full)
    assert (status, messages) == (1, "rezkit-ls: standard output: can't be written: No space left on device\n")
    ran = subprocess.run(["sh", "-c", '"$1" --json "$2" "$2" "$3" | head -c 1', "sh", os.path.join(WORKBENCH, "rezkit-ls"), path, str(tmp_path)],
                         stdout=subprocess.PIPE, stderr=subprocess.PIPE)
    assert (ran.stdout, ran.stderr) == (b"{", b"")


def test_closed_streams(tmp_path):
    path = write(tmp_path, "a", macbin(WHOLE))
    for program, words, message in (
            ("rezkit-ls", "- <&-", "standard input: can't be read: it is closed"),
            ("rezkit-ls", "'%s' >&-" % path, "standard output: can't be written: it is closed"),
            ("rezkit-po", "out '%s' >&-" % path, "standard output: can't be written: it is closed"),
            ("rezkit-salvage", "- -o x <&-", "standard input: can't be read: it is closed")):
        ran = subprocess.run(["sh", "-c", "'%s' %s" % (os.path.join(WORKBENCH, program), words)], stdout=subprocess.PIPE, stderr=subprocess.PIPE)
        said = ran.stderr.decode() + ran.stdout.decode()
        assert ran.returncode == 1 and message in said and "Traceback" not in said
    ran = subprocess.run(["sh", "-c", "'%s' '%s' <&- 2>&-" % (os.path.join(WORKBENCH, "rezkit-ls"), path)], stdout=subprocess.PIPE)
    assert ran.returncode == 0 and ran.stdout.endswith(b": MacBinary 'APPL' 'CAF ', data 5, fork 347, resources 2\n")


def test_a_terminal_sees_the_progress_and_a_file_doesnt(tmp_path):
    for number in range(40):
        write(tmp_path, "%02d" % number, FORK)
    ours, theirs = pty.openpty()
    ran = subprocess.run([os.path.join(WORKBENCH, "rezkit-ls"), str(tmp_path)], stdout=subprocess.PIPE, stderr=theirs)
    os.close(theirs)
    assert ran.returncode == 0 and b"files" in os.read(ours, 4096) and ran.stdout.count(b"\n") == 40


def test_it_runs_through_a_link_and_from_another_folder(tmp_path):
    os.symlink(os.path.join(WORKBENCH, "rezkit-ls"), str(tmp_path / "ls"))
    write(tmp_path, "a", PNG)
    assert run(str(tmp_path / "ls"), "a", folder=str(tmp_path))[:2] == (0, b"a: PNG\n")


def test_it_runs_installed(tmp_path):
    """In PREFIX/share/rezkit/workbench, by links of PREFIX/bin, with PREFIX/bin/rezkit."""
    share = tmp_path / "share" / "rezkit" / "workbench"
    shutil.copytree(os.path.join(WORKBENCH, "rezkit_workbench"), str(share / "rezkit_workbench"), ignore=shutil.ignore_patterns("__pycache__"))
    shutil.copy(os.path.join(WORKBENCH, "rezkit-ls"), str(share))
    (tmp_path / "bin").mkdir()
    os.symlink("../share/rezkit/workbench/rezkit-ls", str(tmp_path / "bin" / "rezkit-ls"))
    write(tmp_path, "a", FORK)
    status, _, messages = run(str(tmp_path / "bin" / "rezkit-ls"), str(tmp_path / "a"), env={"PATH": "/nowhere"})
    assert status == 1 and messages.startswith("rezkit-ls: there is no rezkit: neither ")
    write(tmp_path / "bin", "rezkit", ('#!/bin/sh\nexec "%s" "$@"\n' % os.path.join(TOP, "rezkit")).encode())
    os.chmod(str(tmp_path / "bin" / "rezkit"), 0o755)
    assert run(str(tmp_path / "bin" / "rezkit-ls"), str(tmp_path / "a"))[0] == 0
