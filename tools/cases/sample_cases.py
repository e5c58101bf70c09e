"""Writes sample.cases: what `sample` tells, by a source, a fork and a text that are put together here.

It knows nothing of the code: the fork has the layout of tools/model/fork.py, and the text is what docs/LANGUAGE.md
says of rows.
"""
from casefile import Book
from model.fork import image

BOOK = Book("sample.cases", "Samples, and the words that are none.",
            "Written by tools/cases/sample_cases.py, by a source, a fork and a text of its own.")
TYPES = "type 'Samp' { integer = $$CountOf(r); array r { byte; pstring; }; };\n"


def rows(k):
    """The rows of a resource: numbers and texts."""
    return [((7 * k + 13 * j) % 128, "a" * ((k + j) % 5)) for j in range(k % 8)]


def source(count):
    """The type and so many resources, one on each line."""
    lines = ["resource 'Samp' (%d) { { %s } };\n" % (k, ", ".join('%d, "%s"' % row for row in rows(k))) for k in range(count)]
    return TYPES + "".join(lines)


def content(k):
    """The bytes of a resource: the number of its rows, and each number with its text behind its length."""
    return len(rows(k)).to_bytes(2, "big") + b"".join(bytes([v, len(t)]) + t.encode() for v, t in rows(k))


def fork(count):
    return image([(b"Samp", k, b"", 0, content(k)) for k in range(count)])


def text(count):
    """What is shown of the resources: each item on a line of its own."""
    shown = ""
    for k in range(count):
        items = ["        %s" % item for v, t in rows(k) for item in (v, '"%s"' % t)]
        shown += "resource 'Samp' (%d) {\n    {\n%s    }\n};\n\n" % (k, ",\n".join(items) + "\n" * bool(items))
    return shown


@BOOK.part()
def samples():
    for count in (1, 2, 3, 8, 40, 500, 5000):
        length = len(fork(count))
        out = "resources %d\nfork %d\ntext %d\nagain %d\n" % (count, length, len(text(count)), length)
        BOOK.case("a sample of %d" % count, "sample %d" % count, out=out)


@BOOK.part("What a sample does, with files.")
def steps():
    BOOK.case("the source of a sample is compiled", "rez source -o fork", [("source", source(8))], leaves=[("fork", fork(8))])
    BOOK.case("the fork of a sample is shown", "derez fork types", [("fork", fork(8)), ("types", TYPES)], out=text(8))
    BOOK.case("the text of a sample is compiled", "rez types text -o again", [("types", TYPES), ("text", text(8))],
              leaves=[("again", fork(8))])


@BOOK.part("Words that are no sample.")
def wrong():
    for says, words, position in (("of none", "sample 0", 2), ("with a leading zero", "sample 01", 2), ("of too many", "sample 5001", 2),
                                  ("of fewer than none", "sample -5", 2), ("with a sign", "sample +5", 2),
                                  ("of a number past all bounds", "sample 99999999999999999999", 2), ("of no number", "sample two", 2),
                                  ("with an option", "sample -o", 2), ("of two numbers", "sample 2 3", 3),
                                  ("with an option behind the number", "sample 2 -rd", 3), ("without a number", "sample", 2)):
        BOOK.case("a sample " + says, words, status=1, err="rezkit: usage: word %d\n" % position)
