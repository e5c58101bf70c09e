"""The facts of a file, against files whose fields stand here."""
import os

import pytest
from model.forms import double, hqx, macbin, single
from helpers import FORK, TWO, WHOLE, write
from rezkit_workbench import facts
from rezkit_workbench.errors import Refused


def facts_in(folder, data, name="file", form=None):
    with facts.Opened(write(folder, name, data)) as file:
        return facts.facts_of(file, form)


def told(found):
    return found.form, found.name, found.kind, found.creator, found.flags, found.locked, found.created, found.modified, found.data


def test_each_form_tells_what_it_carries(tmp_path):
    assert told(facts_in(tmp_path, FORK)) == ("raw", None, None, None, None, None, None, None, None)
    for form, data, locked, dates, length in (
            ("double", double(WHOLE), None, (3082844800, 2913796800), None),
            ("single", single(WHOLE), None, (3082844800, 2913796800), 5),
            ("macbin", macbin(WHOLE), True, (3082844800, 2913796800), 5),
            ("hqx", hqx(WHOLE), None, (None, None), 5)):
        found = facts_in(tmp_path, data)
        assert told(found) == (form, b"Caf\x8E", b"APPL", b"CAF ", 0x2100, locked) + dates + (length,)
        assert bytes(found.fork) == FORK and found.fault() is None


def test_resources_stand_in_the_order_of_the_map(tmp_path):
    found = facts_in(tmp_path, macbin(WHOLE))
    assert [(one.kind, one.ident, one.name, one.attributes, one.bytes_in(found.fork)) for one in found.resources()] == TWO
    assert facts.resources(b"") == []


def test_attributes_are_words_or_a_number():
    assert facts.Resource(b"CODE", 0, b"", 0x7E, 0, 0).words() == ["sysheap", "purgeable", "locked", "protected", "preload", "changed"]
    assert facts.Resource(b"CODE", 0, b"", 0x81, 0, 0).words() == ["$81"]
    assert facts.Resource(b"CODE", 0, b"", 0, 0, 0).words() == []


def test_names_that_are_empty_or_that_bridge_would_fill_in(tmp_path):
    for name in (b"", b"stdout", b"1", b"x" * 63):
        assert facts_in(tmp_path, single(WHOLE.but(name=name))).name == name
        assert facts_in(tmp_path, double(WHOLE.but(name=name))).name == name


def test_names_and_types_of_any_bytes(tmp_path):
    odd = WHOLE.but(name=bytes(range(255, 0, -1)), kind=b"'\"\\\n", creator=b"\0\xFF a")
    found = facts_in(tmp_path, single(odd))
    assert (found.name, found.kind, found.creator) == (odd.name, odd.kind, odd.creator)


def test_dates_that_a_form_cant_say(tmp_path):
    old = WHOLE.but(created=1, modified=0)
    assert told(facts_in(tmp_path, macbin(old)))[6:8] == (1, 0)
    assert told(facts_in(tmp_path, single(old)))[6:8] == (0, 0)
    late = WHOLE.but(created=(1 << 32) - 1, modified=4291833600)
    assert told(facts_in(tmp_path, macbin(late)))[6:8] == (4294967295, 4291833600)
    assert told(facts_in(tmp_path, double(late)))[6:8] == (4294967295, 4291833600)


def test_dates_as_text():
    assert facts.date_text(0) == "none"
    assert facts.date_text(1) == "1904-01-01 00:00:01"
    assert facts.date_text(3082844800) == "2001-09-09 01:46:40"
    assert facts.date_text(4291833599) == "2039-12-31 23:59:59"
    assert facts.date_text(4291833600) == "4291833600"


def test_what_is_broken(tmp_path):
    assert facts_in(tmp_path, FORK[:-1]).broken == "403 MapOutside offset 4 value 75"
    head = bytearray(macbin(WHOLE))
    head[2] ^= 1
    found = facts_in(tmp_path, bytes(head))
    assert found.refused.startswith("424 BadCrc: 0 ") and found.fork is None and found.resources() is None
    found = facts_in(tmp_path, macbin(WHOLE.but(res=FORK[:-1])))
    assert found.broken == "403 MapOutside offset 4 value 75"
    assert told(found)[1:4] == (b"Caf\x8E", b"APPL", b"CAF ") and len(found.fork) == len(FORK) - 1 and found.resources() is None


def test_a_data_fork_that_is_too_long_for_applesingle_is_lacking(tmp_path):
    found = facts_in(tmp_path, macbin(WHOLE.but(data=bytes(33554433))))
    assert found.lacking == "428 ForkTooLong: 33554433" and bytes(found.fork) == FORK and len(found.resources()) == 2
    assert told(found)[1:] == (b"Caf\x8E", b"APPL", b"CAF ", 0x2100, True, 3082844800, 2913796800, 33554433)
    assert found.data_fork is None
    broken = facts_in(tmp_path, macbin(WHOLE.but(data=bytes(33554433), res=FORK[:-1])))
    assert broken.broken == "403 MapOutside offset 4 value 75" and broken.lacking and told(broken)[1:] == (None,) * 8


def test_the_data_file_beside_a_header_is_not_read(tmp_path):
    os.mkfifo(str(tmp_path / "App"))  # who opens it waits for ever
    found = facts_in(tmp_path, double(WHOLE), "._App")
    assert bytes(found.fork) == FORK and found.data is None


def test_the_names_of_headers_and_data_files():
    assert facts.data_file_of("a/._App") == "a/App"
    assert facts.data_file_of("App.hdr") == "App.hdr.data"
    assert facts.data_file_of("._") == "._.data"
    assert facts.header_names_of("a/App") == ["a/._App"]
    assert facts.header_names_of("App.hdr.data") == ["._App.hdr.data", "App.hdr"]
    assert facts.header_names_of("._.data") == ["._._.data", "._"]
    assert facts.header_names_of("._x.data") == ["._._x.data"]


def test_what_is_no_regular_file(tmp_path):
    with pytest.raises(Refused, match="is a folder"):
        facts.Opened(str(tmp_path))
    write(tmp_path, "target", FORK)
    os.symlink("target", str(tmp_path / "link"))
    with facts.Opened(str(tmp_path / "link")) as file:
        assert file.size == len(FORK)
    with pytest.raises(Refused):
        facts.Opened(str(tmp_path / "link"), only_regular=True)
    os.mkfifo(str(tmp_path / "pipe"))
    with pytest.raises(Refused, match="is no regular file"):
        facts.Opened(str(tmp_path / "pipe"), only_regular=True)
