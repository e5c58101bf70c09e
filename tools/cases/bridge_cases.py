"""Writes bridge.cases: `bridge`, and the forms of `rez` and `derez`, by the layouts of docs/FORMATS.md alone.

It knows nothing of the code; the forms are written by forms.py.
"""
from casefile import Book
from model.fork import image
from model.forms import File, crc, dated, double, hqx, macbin, runs, single

MOMENT = 2082844800  # the first second of 1970, counted from 1904
BOOK = Book("bridge.cases",
            "Files in the forms raw, AppleDouble, AppleSingle, MacBinary and BinHex, from one to another, and forms of rez and derez.",
            "Written by tools/cases/bridge_cases.py, every byte by tools/model/forms.py.")
ONE = image([(b"Test", 128, b"", 0, bytes.fromhex("0102"))])
SHOWN = "data 'Test' (128) {\n    $\"0102\"\n};\n\n"
SOURCE = [("one.r", "data 'Test' (128) { $\"0102\" };\n")]
RAW = File(res=ONE)
APP = File(res=ONE)
T = File(name=b"T", data=b"a", kind=b"TEXT", creator=b"ttxt", flags=0x0123, vertical=-2, horizontal=3, folder=-4,
         locked=True, created=1, modified=2, res=ONE)
BARE = T.but(locked=False, created=0, modified=0)
A = File(name=b"a", kind=b"TEXT", creator=b"ttxt", flags=0x8001, data=b"\0", locked=True, created=5, modified=6)
N = File(name=b"n" * 63, res=bytes(128))
R = File(name=b"r", data=b"\x90" * 5 + b"A" * 300 + b"AAA", res=b"")
LONG = "n" * 64
case = BOOK.case


def refused(name, words, says, files=(), gone=("x",)):
    case(name, words, files, gone=gone, status=2, err="rezkit: error %s\n" % says)


@BOOK.part()
def checks():
    """What is known of these forms from elsewhere."""
    assert len(ONE) == 312 and ONE[:16].hex() == "00000100000001060000000600000032", ONE[:16].hex()
    assert runs(bytes.fromhex("9090909090")).hex() == "90009005" and runs(b"A" * 300).hex() == "4190ff41902d"
    assert crc(b"123456789") == 0x31C3
    assert len(dated(APP)) == 394 and len(double(APP)) == 422 and len(macbin(APP.but(name=b"App.bin"))) == 512 and len(macbin(N)) == 256


@BOOK.part("From one form to another.")
def from_form_to_form():
    case("a fork as BinHex", "bridge one.rsrc -to hqx -o One", [("one.rsrc", ONE)],
         leaves=[("One", hqx(RAW.but(name=b"One")))])
    case("BinHex as a fork", "bridge One -to raw -o back", [("One", hqx(RAW.but(name=b"One")))], leaves=[("back", ONE)])
    case("both forks as AppleDouble: the data fork is a file of its own", "bridge T.bin -to double -o ._T",
         [("T.bin", macbin(T))], leaves=[("T", b"a"), ("._T", double(T))])
    case("both forks as AppleDouble over old files", "bridge T.bin -to double -o ._T",
         [("T.bin", macbin(T)), ("T", "an old one\n"), ("._T", "another\n")], leaves=[("T", b"a"), ("._T", double(T))])
    case("AppleDouble beside its data file", "bridge ._T -to macbin -o again.bin", [("._T", double(T)), ("T", b"a")],
         leaves=[("again.bin", macbin(BARE))])
    case("AppleDouble without its data file", "bridge ._T -to macbin -o again.bin", [("._T", double(T))],
         leaves=[("again.bin", macbin(BARE.but(data=b"")))])
    case("in a folder", "bridge d/._T -to macbin -o e/again.bin", [("d/._T", double(T)), ("d/T", b"a")],
         leaves=[("e/again.bin", macbin(BARE))])
    case("both forks as AppleSingle: one file", "bridge T.bin -to single -o T", [("T.bin", macbin(T))],
         leaves=[("T", single(T))], gone=["T.data"])
    case("AppleSingle as MacBinary", "bridge T -to macbin -o again.bin", [("T", single(T))], leaves=[("again.bin", macbin(BARE))])
    case("AppleDouble as AppleSingle", "bridge ._T -to single -o one", [("._T", double(T)), ("T", b"a")], leaves=[("one", single(T))])
    case("AppleSingle as AppleDouble", "bridge one -to double -o ._T", [("one", single(T))], leaves=[("T", b"a"), ("._T", double(T))])
    case("a fork as AppleSingle", "bridge one.rsrc -to single -o One", [("one.rsrc", ONE)], leaves=[("One", single(RAW.but(name=b"One")))])
    case("AppleSingle as a fork", "bridge One -to raw -o back", [("One", single(RAW.but(name=b"One")))], leaves=[("back", ONE)])
    case("any other name has a data file with .data behind it", "bridge T.bin -to double -o d/T", [("T.bin", macbin(T))],
         leaves=[("d/T.data", b"a"), ("d/T", double(T))])
    case("and so has the name ._ itself", "bridge T.bin -to double -o d/._", [("T.bin", macbin(T))],
         leaves=[("d/._.data", b"a"), ("d/._", double(T))])
    case("no data file for an empty data fork", "bridge T.bin -to double -o ._T", [("T.bin", macbin(T.but(data=b"")))],
         leaves=[("._T", double(T.but(data=b"")))], gone=["T", "._T.data"])
    case("the name is taken where there is none", "bridge one.rsrc -to macbin -o d/App.bin", [("one.rsrc", ONE)],
         leaves=[("d/App.bin", macbin(RAW.but(name=b"App.bin")))])
    case("an AppleDouble header of 394 bytes", "bridge ._App -to macbin -o App.bin", [("._App", dated(APP))],
         leaves=[("App.bin", macbin(APP.but(name=b"App.bin")))])
    case("in Mac Roman", "bridge one.rsrc -to macbin -o é", [("one.rsrc", ONE)],
         leaves=[("é", macbin(RAW.but(name=b"\x8e")))])
    case("a name of 63 bytes", "bridge n.bin -to macbin -o again", [("n.bin", macbin(N))], leaves=[("again", macbin(N))])
    case("BinHex keeps no dates", "bridge a.bin -to hqx -o a.hqx", [("a.bin", macbin(A))], leaves=[("a.hqx", hqx(A))])
    case("and gives name, type, creator, flags and both forks again", "bridge a.hqx -to macbin -o b.bin",
         [("a.hqx", hqx(A))],
         leaves=[("b.bin", macbin(A.but(locked=False, created=0, modified=0)))])
    case("runs of bytes", "bridge r.bin -to hqx -o r.hqx", [("r.bin", macbin(R))], leaves=[("r.hqx", hqx(R))])
    case("and back", "bridge r.hqx -to macbin -o r.bin", [("r.hqx", hqx(R))], leaves=[("r.bin", macbin(R))])
    case("a file of no bytes is raw", "bridge e -to raw -o f", [("e", b"")], leaves=[("f", b"")])
    case("raw is the resource fork alone", "bridge T.bin -to raw -o t.rsrc", [("T.bin", macbin(T))],
         leaves=[("t.rsrc", ONE)])
    case("a raw file that isn't admitted as a fork is written all the same", "bridge x -to raw -o y", [("x", b"\0\1\2")],
         leaves=[("y", b"\0\1\2")])
    case("the form that is given counts", "bridge T.bin -from raw -to raw -o t", [("T.bin", macbin(T))],
         leaves=[("t", macbin(T))])
    case("the last of several words counts", "bridge T.bin -to hqx -o u -to raw -o t.rsrc -from raw -from macbin",
         [("T.bin", macbin(T))], leaves=[("t.rsrc", ONE)], gone=["u"])
    case("a file may be written over itself", "bridge one.rsrc -to hqx -o one.rsrc", [("one.rsrc", ONE)],
         leaves=[("one.rsrc", hqx(RAW.but(name=b"one.rsrc")))])


@BOOK.part("What -to double does to the file that has the data file's name: it is written first, without asking.")
def data_files():
    both = macbin(T.but(name=b"App"))
    header = double(T.but(name=b"App"))
    case("the data file is the file that is read", "bridge App -to double -o ._App", [("App", both)],
         leaves=[("App", b"a"), ("._App", header)])
    case("and the header can't be written: its resources are gone", "bridge App -to double -o ._App", [("App", both)],
         ["fail folder 3"], status=3, leaves=[("App", b"a")], gone=["._App"], err="rezkit: write fault\n")
    case("into a folder of its own it is kept, also then", "bridge App -to double -o out/._App", [("App", both)],
         ["fail folder 3"], status=3, leaves=[("App", both), ("out/App", b"a")], gone=["out/._App"],
         err="rezkit: write fault\n")
    case("into a folder of its own", "bridge App -to double -o out/._App", [("App", both)],
         leaves=[("App", both), ("out/App", b"a"), ("out/._App", header)])
    empty = T.but(data=b"")
    case("an empty data fork beside an old file, which stays", "bridge T.bin -to double -o ._T",
         [("T.bin", macbin(empty)), ("T", b"old")], leaves=[("T", b"old"), ("._T", double(empty))])
    case("and is the data fork from then on", "bridge ._T -to macbin -o again.bin", [("._T", double(empty)), ("T", b"old")],
         leaves=[("again.bin", macbin(BARE.but(data=b"old")))])
    case("an empty data fork whose data file is the file that is read", "bridge App -to double -o ._App",
         [("App", macbin(empty.but(name=b"App")))], leaves=[("._App", double(empty.but(name=b"App")))])
    case("and that file is the data fork from then on", "bridge ._App -to macbin -o again.bin",
         [("._App", double(empty.but(name=b"App"))), ("App", macbin(empty.but(name=b"App")))],
         leaves=[("again.bin", macbin(BARE.but(name=b"App", data=macbin(empty.but(name=b"App")))))])
    case("the file that is read is the header's", "bridge ._T -from macbin -to double -o ._T", [("._T", macbin(T))],
         leaves=[("T", b"a"), ("._T", double(T))])


def turned():
    """MacBinary with a wrong CRC, and what a message keeps of it."""
    data = bytearray(macbin(N))
    data[65] ^= 1
    return bytes(data), "0 %d %d" % (crc(macbin(N)[:124]), crc(bytes(data[:124])))


@BOOK.part("Dates of AppleDouble.")
def dates():
    first, last = T.but(created=882045953, modified=4294967295), T.but(created=3029529599, modified=3029529600)
    for name, file in [("at both ends", first), ("on both sides of 2000", last)]:
        case("dates " + name, "bridge T.bin -to double -o ._T", [("T.bin", macbin(file))],
             leaves=[("T", b"a"), ("._T", double(file))])
        case("dates %s, read" % name, "bridge ._T -to macbin -o again.bin", [("._T", double(file)), ("T", b"a")],
             leaves=[("again.bin", macbin(file.but(locked=False)))])
    early = T.but(created=882045952, modified=1)
    case("dates that are too early are written as none", "bridge T.bin -to double -o ._T", [("T.bin", macbin(early))],
         leaves=[("T", b"a"), ("._T", dated(T, bytes.fromhex("80000000") * 4))])
    end = bytes.fromhex("4b6d0bff4b6d0bff")
    for name, stored, created, modified in [
            ("80000000 is no date", bytes.fromhex("8000000080000001"), 0, 882045953),
            ("a negative date", bytes.fromhex("ffffffff00000000"), 3029529599, 3029529600),
            ("the last date and the second after it", bytes.fromhex("4b6d0bff4b6d0c00"), 4294967295, 0),
            ("the latest stored date", bytes.fromhex("7fffffff00000001"), 0, 3029529601),
            ("dates of 7 bytes", end[:7], 0, 0), ("dates of 8 bytes", end, 4294967295, 4294967295),
            ("no bytes of dates", b"", 0, 0)]:
        case("dates: " + name, "bridge ._T -to macbin -o again.bin", [("._T", dated(T, stored)), ("T", b"a")],
             leaves=[("again.bin", macbin(T.but(locked=False, created=created, modified=modified)))])
    case("dates: the first entry counts", "bridge ._T -to macbin -o again.bin", [("._T", dated(T, end, bytes(16)))],
         leaves=[("again.bin", macbin(T.but(locked=False, created=4294967295, modified=4294967295, data=b"")))])


@BOOK.part("What is refused.")
def refusals():
    refused("no file", "bridge no -to raw -o x", '101 MissingFile: "no"')
    wrong, kept = turned()
    refused("a wrong CRC of MacBinary", "bridge n.bin -to raw -o x", "424 BadCrc: " + kept, [("n.bin", wrong)])
    refused("a header of 20 bytes", "bridge h -to raw -o x", "421 ShortHeader: 20", [("h", double(APP)[:20])])
    refused("an entry outside", "bridge h -to raw -o x", "423 EntryOutside: 2", [("h", double(APP)[:-1])])
    refused("a newer version", "bridge h -to raw -o x", "427 NewerVersion: 196608",
            [("h", double(APP)[:4] + bytes.fromhex("00030000") + double(APP)[8:])])
    refused("another magic number", "bridge h -from double -to raw -o x", "422 BadMagic: 256", [("h", ONE)])
    refused("another magic number of AppleSingle", "bridge h -from single -to raw -o x", "422 BadMagic: 256", [("h", ONE)])
    refused("an entry of AppleSingle outside", "bridge h -to raw -o x", "423 EntryOutside: 2", [("h", single(T)[:-1])])
    refused("MacBinary of 127 bytes", "bridge h -from macbin -to raw -o x", "421 ShortHeader: 127", [("h", macbin(N)[:127])])
    refused("a fork of MacBinary outside", "bridge a.bin -to raw -o x", "426 Truncated: 1", [("a.bin", macbin(A)[:128])])
    text = hqx(A)
    no_end = text.rstrip(b"\n")[:-1] + b"\n"
    refused("BinHex without its last colon", "bridge a.hqx -to raw -o x", "443 NoEnd: %d" % len(no_end), [("a.hqx", no_end)])
    refused("no start of BinHex", "bridge a.hqx -to raw -o x", "441 NoStart: 0", [("a.hqx", b"(This file isn't BinHex)\n")])
    refused("a letter that BinHex hasn't", "bridge a.hqx -to raw -o x", "442 BadLetter: 55",
            [("a.hqx", text.replace(b"\n:", b"\n:7", 1))])
    refused("a name of 64 bytes", "bridge one.rsrc -to macbin -o " + LONG, "425 BadName: 64", [("one.rsrc", ONE)], (LONG,))
    refused("the same for BinHex", "bridge one.rsrc -to hqx -o " + LONG, "425 BadName: 64", [("one.rsrc", ONE)], (LONG,))
    case("AppleDouble has room for it", "bridge one.rsrc -to double -o " + LONG, [("one.rsrc", ONE)],
         leaves=[(LONG, double(RAW.but(name=b"n" * 64)))])
    refused("no last name", "bridge one.rsrc -to hqx -o d/", "425 BadName: 0", [("one.rsrc", ONE)], ("d/",))
    refused("a name that Mac Roman hasn't keeps its characters", "bridge one.rsrc -to double -o d/語é語", "425 BadName: 3",
            [("one.rsrc", ONE)], ("d/語é語",))
    case("raw takes no name", "bridge one.rsrc -to raw -o 語", [("one.rsrc", ONE)], leaves=[("語", ONE)])
    case("nor does a file that has one", "bridge T.bin -to hqx -o 語", [("T.bin", macbin(T))], leaves=[("語", hqx(T))])


@BOOK.part("Words.")
def words():
    for name, given, position in [
            ("no file", "bridge", 2), ("no form", "bridge a -o b", 5), ("no name", "bridge a -to raw", 5),
            ("neither", "bridge a", 3),
            ("no file at all", "bridge -to raw -o b", 6), ("two files", "bridge a b -to raw -o c", 3),
            ("the second file behind options", "bridge a -to raw b -o c", 5), ("no such form", "bridge a -to bin -o b", 4),
            ("no such form to read", "bridge a -from RAW -to raw -o b", 4), ("no form in capitals", "bridge a -to Single -o b", 4),
            ("nor cut", "rez a -form singl", 4), ("a word is missing", "bridge a -to", 4),
            ("no option of rez", "bridge a -to raw -o b -t APPL", 7), ("no -rd", "bridge a -rd", 3),
            ("rez takes no -from", "rez a -from raw", 3), ("derez takes no -form", "derez f -form raw", 3),
            ("rez takes no -to", "rez a -to raw", 3), ("a type of three characters", "rez a -t abc", 4),
            ("a creator of five", "rez -c abcde a", 3), ("no such form of rez", "rez a -form zip", 4)]:
        case("words: " + name, given, status=1, err="rezkit: usage: word %d\n" % position)


@BOOK.part("Forms of derez and rez.")
def rez_and_derez():
    for name, given, data in [
            ("MacBinary", "derez f", macbin(T)), ("BinHex", "derez f", hqx(T)), ("AppleDouble", "derez f", double(T)),
            ("AppleSingle", "derez f", single(T)), ("AppleSingle that is given", "derez f -from single", single(T)),
            ("a form that is given", "derez f -from macbin", macbin(T)), ("raw that is given", "derez -from raw f", ONE)]:
        case("derez shows " + name, given, [("f", data)], out=SHOWN)
    refused("derez takes the form that is given", "derez f -from raw", "402 DataAreaOutside: 0 0", [("f", macbin(T))], ())
    wrong, kept = turned()
    refused("derez refuses what the form refuses", "derez n.bin", "424 BadCrc: " + kept, [("n.bin", wrong)], ())
    new = File(kind=b"APPL", creator=b"????", created=MOMENT, modified=MOMENT, res=ONE)
    for form, write in [("macbin", macbin), ("hqx", hqx), ("double", double), ("single", single)]:
        case("rez writes " + form, "rez one.r -o d/One -form " + form, SOURCE,
             leaves=[("d/One", write(new.but(name=b"One")))],
             gone=["d/One.data"])
    case("rez with a type and a creator", "rez one.r -form macbin -t Text -c éabc -o One", SOURCE,
         leaves=[("One", macbin(new.but(name=b"One", kind=b"Text", creator=b"\x8eabc")))])
    case("rez writes raw as before", "rez one.r -form raw -t Text -o 語", SOURCE, leaves=[("語", ONE)])
    case("rez without -form writes raw", "rez one.r -t Text -c abcd -o One", SOURCE, leaves=[("One", ONE)])
    refused("rez refuses a name that Mac Roman hasn't", "rez one.r -form double -o 語", "425 BadName: 1", SOURCE, ("語",))
    refused("rez refuses a name of 64 bytes", "rez one.r -form hqx -o " + LONG, "425 BadName: 64", SOURCE, (LONG,))
    case("Rez.Out is a name too", "rez one.r -form macbin", SOURCE, leaves=[("Rez.Out", macbin(new.but(name=b"Rez.Out")))])
