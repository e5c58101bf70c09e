"""Styled texts: what of a TEXT and its 'styl' stands in the fragment of HTML."""
import os
import struct
from xml.etree import ElementTree

import pytest
from helpers import SECONDS
from rezkit_workbench import styled
from rezkit_workbench.errors import Refused

BLACK = (0, 0, 0)


def run(begin, face=0, size=12, color=BLACK, font=3):
    return struct.pack(">IHHHBBh3H", begin, 16, 12, font, face, 0, size, *color)


def styl(*runs, count=None):
    return struct.pack(">H", len(runs) if count is None else count) + b"".join(runs)


def shown(text, styles=None):
    """The letters of a text with the CSS of each part, and the notes."""
    found = styled.KINDS[b"TEXT"](text, lambda kind: styles if kind == b"styl" else None)
    assert found.ending == "html" and found.size is None
    tree = ElementTree.fromstring(found.data.decode("utf-8"))
    assert tree.tag == "div" and tree.get("class") == "text" and "white-space:pre-wrap" in tree.get("style")
    parts = [(None, tree.text)] if tree.text and tree.text != "\n" else []
    for span in tree:
        assert span.tag == "span" and not list(span)
        parts += [(span.get("style"), span.text)] + ([(None, span.tail)] if span.tail else [])
    return parts, found.notes


def test_a_text_alone():
    assert shown(b"One\rTwo\nThree\r\nFour") == ([(None, "One\nTwo\nThree\nFour")], [])
    assert shown(b"Caf\x8E \xC7\xA5\xC8 <b>&amp;</b> \"'") == ([(None, "Caf\u00e9 \u00ab\u2022\u00bb <b>&amp;</b> \"'")], [])
    assert shown(b"") == ([], [])
    assert styled.decode_text(b"a<b", lambda kind: None).data == b'<div class="text" style="white-space:pre-wrap">a&lt;b</div>\n'


def test_control_letters_are_their_pictures():
    assert shown(b"\0\x1B\t\x7F\x11\x12\x13\x14") == ([(None, "\u2400\u241B\t\u2421\u2318\u2713\u25C6\u2414")], [])


def test_each_style():
    for face, css in ((1, "font-weight:bold"), (2, "font-style:italic"), (4, "text-decoration:underline"),
                      (8, "-webkit-text-stroke:1px;-webkit-text-fill-color:#fff"), (16, "text-shadow:1px 1px 1px #666"),
                      (32, "letter-spacing:-1px"), (64, "letter-spacing:1px"),
                      (3, "font-weight:bold;font-style:italic"), (99, "font-weight:bold;font-style:italic"), (129, "font-weight:bold")):
        assert shown(b"Hi", styl(run(0, face))) == ([("font-size:12px;" + css, "Hi")], [])
    assert shown(b"Hi", styl(run(0, 0, 127))) == ([("font-size:127px", "Hi")], [])
    assert shown(b"Hi", styl(run(0, 0, 0))) == ([(None, "Hi")], [])
    assert shown(b"Hi", styl(run(0, 0, 0, (0xFFFF, 0x8000, 0x01FF)))) == ([("color:#ff8001", "Hi")], [])


def test_runs_part_the_text():
    styles = styl(run(0, 1, 0), run(3, 0, 0), run(5, 2, 0), run(5, 4, 0), run(8, 1, 9))
    assert shown(b"one\r<two>", styles) == ([("font-weight:bold", "one"), (None, "\n<"), ("text-decoration:underline", "two"),
                                             ("font-size:9px;font-weight:bold", ">")], [])
    assert styled.decode_text(b"a<b", lambda kind: styl(run(0, 1, 9))).data == (
        b'<div class="text" style="white-space:pre-wrap;background:#fff;color:#000">'
        b'<span style="font-size:9px;font-weight:bold">a&lt;b</span></div>\n')


def test_runs_after_the_text_have_no_letters():
    assert shown(b"ab", styl(run(0, 1, 0), run(2, 2), run(0x7FFFFFFF, 4))) == ([("font-weight:bold", "ab")], [])
    assert shown(b"", styl(run(0, 1))) == ([], [])


def test_a_styl_of_no_runs():
    assert shown(b"ab", styl()) == ([(None, "ab")], [])


@pytest.mark.parametrize("styles, said", (
    (b"", "2 bytes are wanted and 0 are there at byte 0"),
    (styl(run(0, 1), count=2), "4 bytes are wanted and 0 are there at byte 22"),
    (styl(run(0, 1), count=0x7FFF), "4 bytes are wanted and 0 are there at byte 22"),
    (styl(run(0, 1), count=0x8000), "-32768 runs at byte 0"),
    (styl(run(0, 1), count=0xFFFF), "-1 runs at byte 0"),
    (styl(run(1, 1)), "a run that begins at 1 at byte 2"),
    (styl(run(0, 1), run(5), run(4)), "a run that begins at 4 at byte 42"),
))
def test_a_damaged_styl_is_told(styles, said):
    assert shown(b"<text>", styles) == ([(None, "<text>")], ["The text is shown without styles, for its 'styl' is damaged: %s." % said])


def test_odd_sizes_are_told():
    styles = styl(run(0, 1, -1), run(1, 2, 128), run(2, 4, 0x7FFF), run(3, 0, 127))
    assert shown(b"abcd", styles) == ([("font-weight:bold", "a"), ("font-style:italic", "b"), ("text-decoration:underline", "c"),
                                       ("font-size:127px", "d")], ["Sizes that no letter has, and that aren't shown: 3."])


def test_a_styl_is_cut_at_each_length():
    whole = styl(run(0, 1), run(1, 2))
    for length in range(len(whole)):
        parts, notes = shown(b"ab", whole[:length])
        assert parts == [(None, "ab")] and len(notes) == 1
    assert shown(b"ab", whole)[1] == []


def test_each_word_of_a_styl_is_put_to_odd_numbers():
    whole, damaged = styl(run(0, 1), run(1, 2)), 0
    for place in range(0, len(whole), 2):
        for word in (b"\0\0", b"\0\1", b"\x7F\xFF", b"\x80\0", b"\xFF\xFF"):
            parts, notes = shown(b"ab", whole[:place] + word + whole[place + 2:])
            assert "".join(letters for _, letters in parts) == "ab"
            damaged += any("damaged" in note for note in notes)
    assert damaged == 3 + 4 + 4  # counts but 0 and 1, and both halves of the first beginning but 0


def test_a_styl_is_shown_in_its_text():
    with pytest.raises(Refused, match="^has no TEXT of the same id$"):
        styled.KINDS[b"styl"](styl(), lambda kind: None)
    with pytest.raises(Refused, match="^is shown in the TEXT of the same id$"):
        styled.KINDS[b"styl"](styl(), lambda kind: b"" if kind == b"TEXT" else None)


def test_long_texts_are_cut_and_many_runs_take_little_time():
    begin = os.times().user
    parts, notes = shown(b"\xA5<" * (8 << 20))
    assert parts == [(None, "\u2022<" * (1 << 19))] and notes == ["The first 1048576 of 16777216 bytes are shown."]
    parts, notes = shown(b"ab" * 20000, styl(*(run(place, place % 2, 9, (0x1000, 0, 0)) for place in range(0x7FFF))))
    assert len(parts) == 0x7FFF and notes == []
    assert os.times().user - begin < SECONDS / 3
