"""Writes broken.cases: a fork and files of other forms with one thing broken, and what each command says of them.

Each answer stands here by hand, and is what the second readings of fork.py and forms.py say.
"""
from casefile import Book, put
from model.faults import Refused
from model.fork import admitted, image
from model.forms import File, dated, form_of, hqx, macbin, read_form, single

BOOK = Book("broken.cases", "A fork and files of other forms with one thing broken.",
            "Written by tools/cases/broken_cases.py, each answer by hand and by the second readings of fork.py and forms.py.")
ONE = image([(b"Test", 128, b"", 0, bytes.fromhex("0102"))])
TWO = image([(b"Test", 128, b"", 0, bytes.fromhex("0102")), (b"Test", 129, b"", 0, b"")])
SHOWN = "data 'Test' (128) {\n    $\"0102\"\n};\n\n"
SAME = "data 'Test' (129) {\n    $\"0102\"\n};\n\n"
N63 = macbin(File(name=b"n" * 63, res=bytes(128)))
APP = dated(File(res=ONE))
BOTH = single(File(name=b"a", data=b"\0", res=ONE))
A = hqx(File(name=b"a", data=b"\0"))


# What is changed in a fork, its bytes, and what is shown, or the number of the rule, the place and the value.
FORKS = [
    ("a data area up to the map", put(ONE, (8, "00000006")), SHOWN),
    ("a data area up to the end of the file", put(ONE, (8, "00000038")), SHOWN),
    ("a data area one byte longer than that", put(ONE, (8, "00000039")), (402, 0, 57)),
    ("a map one byte longer than the file", put(ONE, (12, "00000033")), (403, 4, 51)),
    ("a map of 27 bytes", put(ONE, (12, "0000001B")), (404, 12, 27)),
    ("a type list that begins one byte before the end of the map", put(ONE, (286, "0031")), (405, 286, 49)),
    ("a count of six types where one has room", put(ONE, (290, "0005")), (406, 290, 6)),
    ("a count of no types", put(ONE, (290, "FFFF")), ""),
    ("a count of two references where one has room", put(ONE, (296, "0001")), (407, 300, 2)),
    ("bytes that begin three bytes before the end of the data area", put(ONE, (305, "000003")), (408, 259, 0)),
    ("two resources", TWO, SHOWN + "data 'Test' (129) {\n    $\"\"\n};\n\n"),
    ("two resources with the same bytes", put(TWO, (321, "000000")), SHOWN + SAME),
    ("two resources with the same id", put(TWO, (316, "0080")), (410, 316, 128)),
]

# What is changed in a file of another form, its bytes, the form, whether it is found, and the number of the rule and what
# it keeps.
FORMS = [
    ("MacBinary whose first byte is 1", put(N63, (0, "01")), "macbin", False, (422, 1)),
    ("MacBinary that needs a version of 130", put(N63, (123, "82")), "macbin", True, (427, 130)),
    ("MacBinary of 127 bytes", N63[:127], "macbin", False, (421, 127)),
    ("MacBinary of 255 bytes", N63[:255], "macbin", True, (426, 128)),
    ("AppleDouble with another magic number", put(APP, (3, "06")), "double", False, (422, 333318)),
    ("AppleDouble of a later version", put(APP, (4, "00030000")), "double", True, (427, 196608)),
    ("AppleDouble with an entry one byte longer than the file", put(APP, (49, "39")), "double", True, (423, 2)),
    ("AppleSingle with the number of AppleDouble", put(BOTH, (3, "07")), "single", False, (422, 333319)),
    ("AppleSingle of a later version", put(BOTH, (4, "00030000")), "single", True, (427, 196608)),
    ("AppleSingle with a data fork one byte longer than the file", put(BOTH, (70, "0000013A")), "single", True,
     (423, 1)),
    ("AppleSingle with one more entry than it has room for", put(BOTH, (24, "0024")), "single", True, (423, 36)),
    ("BinHex with a letter that it hasn't", A.replace(b"\n:" + A[47:48], b"\n:7"), "hqx", True, (442, 55)),
]


def line_of(number, *kept):
    return "error %s\n" % Refused(number, *kept)


def told(read, *given):
    """The resources that a second reading gives, or the rule and what it keeps."""
    try:
        return read(*given)
    except Refused as refused:
        return (refused.number, *refused.args[1:])


@BOOK.part("A broken fork is told by the first rule that it breaks, wherever it is read.")
def forks():
    source = ("s.r", "include \"f\" 'Test' (128);\n")
    for name, data, wanted in FORKS:
        came = told(admitted, data)
        if isinstance(wanted, str):
            assert isinstance(came[0], list) and len(came[0]) == wanted.count("data"), (name, came)
            BOOK.case(name, "derez f", [("f", data)], out=wanted)
            continue
        assert came == wanted, (name, came)
        BOOK.case(name, "derez f", [("f", data)], status=2, err="rezkit: " + line_of(*wanted))
        BOOK.case(name + " that is included", "rez s.r -o x", [source, ("f", data)], status=2, gone=["x"],
                  err="rezkit: s.r:1: " + line_of(*wanted))
        BOOK.case(name + " that is added to", "rez s.r -a -o f", [("s.r", ";\n"), ("f", data)], status=2,
                  err="rezkit: " + line_of(*wanted))
        BOOK.case(name + " in BinHex", "derez f", [("f", hqx(File(name=b"f", res=data)))], status=2,
                  err="rezkit: " + line_of(*wanted))
        BOOK.case(name + " is carried as it is", "bridge f -to hqx -o x", [("f", data)],
                  leaves=[("x", hqx(File(name=b"x", res=data)))])


@BOOK.part("A broken file of another form, by the form that is found, or else given.")
def forms():
    for name, data, form, is_found, wanted in FORMS:
        assert told(read_form, form, data) == wanted, (name, told(read_form, form, data))
        assert (form_of(data) == form) == is_found, (name, form_of(data))
        says = "rezkit: " + line_of(*wanted)
        for command, behind in [("bridge f", " -to raw -o x"), ("derez f", "")]:
            BOOK.case("%s: %s" % (command.split()[0], name), "%s -from %s%s" % (command, form, behind), [("f", data)],
                      gone=["x"], status=2, err=says)
            if is_found:
                BOOK.case("%s: %s, which is found" % (command.split()[0], name), command + behind, [("f", data)],
                          gone=["x"], status=2, err=says)
