"""The cases of catalogues, and resources that many of them have. catalog_cases.py writes them."""
from casefile import Book
from model.catalogues import entry_text, message, restring, strings
from model.faults import Refused
from model.fork import admitted, image


BOOK = Book("catalog.cases", "Catalogues of texts by `strings`, and texts put back by `restring`.",
            "Written by tools/cases/catalog_cases.py, by the second reading of tools/model/catalogues.py.")
LIST = "type 'STR#' { integer = $$CountOf(Strings); array Strings { pstring; }; };\n"


def resource(kind, ident, content, name="", attr=0):
    """A resource of bytes, or of hexadecimal digits."""
    held = bytes.fromhex(content) if isinstance(content, str) else content
    return kind.encode("mac_roman"), ident, name.encode("mac_roman"), attr, held


def texts_of(*texts):
    """The bytes of a list of strings."""
    return len(texts).to_bytes(2, "big") + b"".join(bytes([len(text)]) + text for text in texts)


TWO = resource("STR#", 128, texts_of(b"A", b"BC"))
FORK = image([TWO])


def case(name, words, files, keys=(), **more):
    BOOK.case(name, words, list(files.items()), keys, **more)


def told(command, words, files, moment):
    """What the second reading tells: what comes, and no line, or nothing and the line of the fault."""
    plain = {name: held.encode() if isinstance(held, str) else held for name, held in files.items()}
    asked = [word for word in words.split()[1:]]
    try:
        return command(asked, plain, moment), ""
    except Refused as fault:
        return None, message(fault, asked[1])


def files_of(fork, catalogue, types, more):
    files = {"f": fork if isinstance(fork, bytes) else image(fork)}
    files.update({"c": catalogue} if catalogue is not None else {})
    files.update({"t.r": types} if types is not None else {})
    return {**files, **(more or {})}


def says(err, warned):
    return warned + ("rezkit: %s\n" % err if err else "")


def listed(name, types, fork, text=None, words="strings f t.r", err="", more=None, moment=0, warned=""):
    """A case of `strings`; the text may stand by hand."""
    files = files_of(fork, None, types, more)
    came, line = told(strings, words, files, moment)
    assert line == err and (text is None or came == text), (name, line, came)
    keys = ["moment %d" % moment] * bool(moment)
    case("listed: " + name, words, files, keys, status=2 if err else 0, out=came or "", err=says(err, warned))


def put(name, types, fork, catalogue, gives=None, words="restring f c t.r -o x", err="", more=None, moment=0, warned=""):
    """A case of `restring`; the bytes of the first resource that changes, or of all by their types and ids, may stand by hand."""
    files = files_of(fork, catalogue, types, more)
    came, line = told(restring, words, files, moment)
    assert line == err, (name, line, err)
    keys = ["moment %d" % moment] * bool(moment)
    if err:
        target = words.split()[words.split().index("-o") + 1] if "-o" in words.split() else "Rez.Out"
        gone = [target] * (target not in files)
        return case(name, words, files, keys, status=2, gone=gone, err=says(err, warned))
    if gives is not None:
        before, after = (admitted(each)[0] for each in (files["f"], came[1]))
        changed = [new[4] for old, new in zip(before, after) if old != new]
        assert [each.hex() for each in changed] == [bytes.fromhex(each).hex() for each in ([gives] if isinstance(gives, str) else gives)], (name, changed)
    return case(name, words, files, keys, leaves=[came] if files.get(came[0]) != came[1] else [], err=says("", warned))


def entry(kind, ident, leaf, text):
    return entry_text(kind.encode("mac_roman"), ident, leaf, text)
