"""The check of pages finds what is wrong with one."""
import pytest
from pages import Page

WHOLE = ('<!DOCTYPE html>\n<html lang="en">\n<head><title>T</title><style>p { color: red; }</style></head>\n<body><main id="m"><h1>One</h1><h2>Two</h2>'
         '<p><a href="#m">in</a> <a href="a.png">out</a><br></p><img src="a.png" alt="A"><svg><title>S</title><path d="M0 0" style="fill: url(#m)"/></svg>'
         '<img src="data:image/png;base64,AA==" alt="B"></main></body>\n</html>\n')


def faults(before, after):
    assert WHOLE.count(before) >= 1
    return Page(WHOLE.replace(before, after, 1), ["a.png"]).faults


def test_a_whole_page_has_no_faults():
    assert faults("One", "One") == []
    assert Page(WHOLE, ["a.png"]).texts == ["T", "p { color: red; }", "One", "Two", "in", "out", "S"]


@pytest.mark.parametrize("before, after, fault", (
    (' lang="en"', "", "no language"),
    (' lang="en"', ' lang=""', "no language"),
    (' alt="A"', "", "no text for a picture: "),
    ('"a.png" alt', "a.png alt", "marks are missing: "),
    ('"a.png" alt', "'a.png' alt", "marks are missing: "),
    ('src="a.png"', 'src="b.png"', "leads to no file of the folder: "),
    ('src="a.png"', 'src="//b/a.png"', "leads to no file of the folder: "),
    ('src="a.png"', 'src="a.png" src="a.png"', "an attribute stands twice: "),
    ('href="a.png"', 'href="http://b/a.png"', "leads to no file of the folder: "),
    ('href="a.png"', 'href="javascript:alert(1)"', "leads to no file of the folder: "),
    ("data:image/png", "data:text/html", "leads to no file of the folder: "),
    ('href="#m"', 'href="#n"', "no heading #n"),
    ("<h2>Two</h2>", '<h2 id="m">Two</h2>', "an id stands twice"),
    ("<h2>Two</h2>", "<h3>Two</h3>", "h3 after h1"),
    ("<h1>One</h1>", "", "h1: 0"),
    ("<h2>Two</h2>", "<h1>Two</h1>", "h1: 2"),
    ("<h2>Two</h2>", "<h2>Two", "</main> closes nothing"),
    ("</h2>", "</h2></p>", "</p> closes nothing"),
    ("</html>", "", "not closed: html"),
    ("Two", "<script>x</script>", "not allowed: <script>"),
    ("<p>", '<p onclick="x">', 'not allowed: <p onclick="x">'),
    ("<p>", '<p style="background: url(b)">', "leads outside: "),
    ("url(#m)", "url(b)", "leads outside: "),
    ("<title>T</title>", "", "title: 0"),
    ("color: red", "@import b", "the style leads outside"),
    ("Two", "<audio></audio>", "no name for a sound: <audio>"),
    ("Two", "T\x1bwo", "a control letter"),
    ("<!DOCTYPE html>\n", "", "no doctype"),
))
def test_a_fault_is_found(before, after, fault):
    found = faults(before, after)
    assert any(each.startswith(fault) for each in found), found
