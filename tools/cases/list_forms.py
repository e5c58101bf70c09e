"""The cases of forms.cases: statements, `rez` and `derez` over files of all forms. list_cases.py writes them."""
from list_book import FOUR, ONE, Runs, SOME, TEST, cut_fork
from model.fork import image, number
from model.forms import MAGICS, File, checked, crc, dated, double, hqx, hqx_head, hqx_text, macbin, single
from model.lists import Head, Id, Name, Stray, data, delete, include, read, wrong

formed = Runs("forms.cases",
    "Statements, `rez` and `derez` over files in the forms raw, AppleDouble, AppleSingle, MacBinary and BinHex.",
    "Written by tools/cases/list_cases.py. What each run leaves is told by tools/model/lists.py and tools/model/forms.py.")

T = File(name=b"T", data=b"data of T", kind=b"TEXT", creator=b"ttxt", flags=0x0123, vertical=-2, horizontal=3,
         folder=-4,
         locked=True, created=1000, modified=2000, res=SOME)
D = T.but(extra=bytes(range(16)), data=b"")
WRITERS = [("MacBinary", "macbin", macbin, "T.bin"), ("AppleDouble", "double", double, "._T"),
           ("AppleSingle", "single", single, "T.single"), ("BinHex", "hqx", hqx, "T.hqx")]


def parted(f):
    """MacBinary with a secondary header and a comment."""
    held = bytearray(macbin(f))
    held[99:101], held[120:122] = number(5, 2), number(130, 2)
    held[124:126] = number(crc(bytes(held[:124])), 2)
    return bytes(held[:128]) + b"s" * 130 + bytes(126) + bytes(held[128:]) + b"a com" + bytes(123)


def entries(version, *parts, form="double"):
    """AppleDouble or AppleSingle with entries of one's own, their bytes in the other order."""
    place, head, body = 26 + 12 * len(parts), b"", b""
    for ident, held in reversed(parts):
        head = number(ident, 4) + number(place, 4) + number(len(held), 4) + head
        body, place = body + held, place + len(held)
    return number(MAGICS[form], 4) + number(version, 4) + b"filler".ljust(16, b"!") + number(len(parts), 2) + head + body


@formed.part("include and read over the forms.")
def included_forms():
    for name, _, write, file in WRITERS:
        formed.rez("include from " + name, ('include "%s";' % file, include(file)), files={file: write(T.but(res=ONE))})
    formed.rez("include by a name from a file behind a path, as another type",
               ("include \"T\" 'Test' (\"b\") as 'Last' ($$ID);",
                include("T", "Test", Name("b"), "Last", Head(lambda one: one.ident))), words="-s d",
               files={"d/T": macbin(T)})
    formed.rez("include from MacBinary with a second header and a comment", include("f"), f=parted(T.but(res=ONE)))
    formed.rez("include from MacBinary without a resource fork", include("f"), f=macbin(T.but(res=b"")))
    formed.rez("include from AppleDouble without a name, 394 bytes", include("._App"),
               files={"._App": dated(File(res=ONE))})
    formed.rez("include from AppleDouble of the first version with other entries", include("f"),
               f=entries(0x00010000, (1, b"data"), (2, ONE), (8, b"dates"), (2, b"second")))
    formed.rez("include from AppleDouble without a resource fork", include("f"), f=entries(0x00020000, (3, b"T")))
    formed.rez("include from AppleDouble reads the header file alone", include("._T"),
               files={"._T": double(T.but(res=ONE)), "T": b"data"}, fails=4)
    formed.rez("include from AppleSingle of the first version with other entries", include("f"),
               f=entries(0x00010000, (1, b"data"), (2, ONE), (8, b"dates"), (2, b"second"), form="single"))
    formed.rez("include from AppleSingle without a resource fork", include("f"),
               f=entries(0x00020000, (1, ONE), form="single"))
    formed.rez("a map that is read-only within AppleSingle that is included", include("f"),
               f=single(T.but(res=image([TEST], 0x0080))))
    formed.rez("include from BinHex behind other lines", include("f"),
               f=b"From: someone\n\n" + hqx(T.but(res=ONE)).replace(b"\n:", b"\n \t\n:") + b"Bye!\n")
    formed.rez("include from BinHex whose lines end in CR and in CR LF", include("f"),
               f=hqx(T.but(res=ONE)).replace(b"\n", b"\r", 1).replace(b"\n", b"\r\n"))
    for name, _, write, file in WRITERS:
        formed.rez("read %s as it is" % name, ("read 'File' (1) \"%s\";" % file, read("File", file, 1)),
                   files={file: write(T.but(res=b""))})
    formed.rez("a map that is read-only within MacBinary that is included", include("f"),
               f=macbin(T.but(res=image([TEST], 0x0080))))


@formed.part("Broken forms in a statement: the mark is that of the statement, and the pick comes later.")
def broken_forms():
    whole, text, name = macbin(T), hqx(T.but(res=b"")), entries(0x00020000, (3, b"T"))

    def refused(name, says, held):
        formed.rez("include " + name, (";", None), ("include \"f\" 'Test'\n    (40000);",
                                                    include("f", "Test", Id(40000))), f=held,
                   err="2: " + says)

    refused("a text", "441 NoStart: 0", b"no fork\n")
    refused("AppleDouble of 20 bytes", "421 ShortHeader: 20", double(T)[:20])
    refused("AppleDouble of a later version", "427 NewerVersion: 196608", entries(0x00030000, (3, b"T")))
    refused("AppleDouble whose entries end after the file", "423 EntryOutside: 2", dated(T.but(name=b""))[:49])
    refused("AppleDouble with an entry outside", "423 EntryOutside: 3", name[:-1])
    refused("AppleSingle of 20 bytes", "421 ShortHeader: 20", single(T)[:20])
    refused("AppleSingle of a later version", "427 NewerVersion: 196608", entries(0x00030000, (2, ONE), form="single"))
    refused("AppleSingle whose entries end after the file", "423 EntryOutside: 5", single(T)[:85])
    refused("AppleSingle with an entry outside", "423 EntryOutside: 1",
            entries(0x00020000, (1, b"data"), (2, ONE), form="single")[:-1])
    refused("AppleSingle with a broken fork", "407 ReferencesOutside: 300 1", single(T.but(res=cut_fork())))
    refused("MacBinary with a wrong CRC", "424 BadCrc: 0 %d %d" % (crc(whole[:124]),
                                                                   crc(whole[:65] + b"t" + whole[66:124])),
                                                                   whole[:65] + b"t" + whole[66:])
    refused("MacBinary of a later version", "427 NewerVersion: 130", whole[:123] + b"\x82" + whole[124:])
    refused("MacBinary whose data fork ends after the file", "426 Truncated: 9", whole[:136])
    refused("MacBinary whose resource fork ends after the file", "426 Truncated: %d" % len(SOME),
            whole[:255 + len(SOME)])
    refused("BinHex without its end", "443 NoEnd: %d" % (len(text) - 2), text[:-2])
    refused("BinHex with another letter", "442 BadLetter: 111", text.replace(b"\n:", b"\n:o"))
    refused("BinHex with a wrong CRC of its resource fork", "444 BadCrc: 3 0 %d" % crc(b"\1"), bent(b"\1"))
    refused("BinHex of one letter", "445 Truncated: 0", BEGINS + b":!:\n")
    refused("BinHex that begins with a run", "446 RunAtStart: 2", BEGINS + b":N!):\n")
    refused("BinHex with a name of no bytes", "447 BadName: 0", BEGINS + b":!!:\n")
    refused("MacBinary with a broken fork", "407 ReferencesOutside: 300 1", macbin(T.but(res=cut_fork())))
    refused("BinHex with a fork of one byte", "401 ShortHeader: 0 1", hqx(T.but(res=b"\0")))


BEGINS = b"(This file must be converted with BinHex 4.0)\n"


def bent(res):
    """BinHex of a resource fork whose CRC is written as 0."""
    return hqx_text(checked(hqx_head(File(name=b"T", res=res))) + checked(b"") + res + bytes(2))


@formed.part("-a keeps the form of the file that is there, and what it has beside its resources.")
def added_forms():
    item = data("Test", 1, b"")

    def added(name, words, base, file="x", others=(), **more):
        formed.rez("add to " + name, item, words="rez s.r -a " + words, files=dict({file: base}, **dict(others)),
                   moment=86400, **more)

    added("MacBinary", "-o x", macbin(T))
    added("MacBinary whose creation isn't known", "-o x", macbin(T.but(created=0, data=b"")))
    added("MacBinary with a second header and a comment", "-o x", parted(T))
    added("MacBinary, with a type and a creator", "-o x -t APPL -c rzkt", macbin(T))
    added("MacBinary with a map that becomes read-only", "-ro -o x",
          macbin(T.but(res=image([TEST], 0x0040, b"reserved"))))
    added("MacBinary without a resource fork", "-o x", macbin(T.but(res=b"")))
    added("AppleDouble", "-o x", double(D), gone=["x.data"])
    added("AppleDouble, of which the header file alone is read and written", "-o ._T", double(D), "._T", {"T": b"data"},
          fails=4)
    added("AppleDouble without a name", "-o d/._App", double(D.but(name=b"")), "d/._App", gone=["d/App"])
    added("AppleDouble with nothing but a name", "-o x", entries(0x00010000, (3, b"T")))
    added("AppleSingle", "-o x", single(T), fails=4, gone=["x.data"])
    added("AppleSingle without a name", "-o d/._App", single(D.but(name=b"")), "d/._App", gone=["d/App"])
    added("AppleSingle with nothing but a data fork", "-o x", entries(0x00010000, (1, b"data"), form="single"))
    added("AppleSingle whose creation isn't known", "-o x", single(T.but(created=0)))
    added("AppleSingle with a map that becomes read-only, and a type and a creator", "-ro -o x -t APPL -c rzkt", single(T))
    added("BinHex", "-o x", hqx(T))
    added("a raw file with a type", "-o x -t APPL -c rzkt", SOME)
    formed.say("-a and -form: the fields of the file that is there in another form.")
    added("MacBinary as raw", "-o x -form raw", macbin(T))
    added("MacBinary as AppleDouble", "-o x -form double", macbin(T), gone=["x.data"])
    added("MacBinary as BinHex", "-o x -form raw -form hqx", macbin(T))
    added("AppleDouble as MacBinary", "-form macbin -o x -c éabc", double(D), others={"x.data": b"data"})
    added("BinHex as MacBinary", "-form macbin -o x", hqx(T))
    added("MacBinary as AppleSingle", "-o x -form single", macbin(T))
    added("AppleSingle as MacBinary", "-o x -form macbin", single(T))
    added("AppleSingle as AppleDouble: its data fork is lost", "-o ._T -form double", single(T), "._T", gone=["T"])
    added("AppleDouble as AppleSingle: the data file isn't read", "-o ._T -form single", double(T), "._T", {"T": b"data"},
          fails=4)
    added("AppleSingle as BinHex", "-o x -form hqx", single(T))
    added("BinHex as AppleSingle", "-o x -form double -form single", hqx(T))
    added("AppleSingle as raw", "-o x -form raw", single(T))
    added("a raw file as AppleSingle", "-form single -o d/One", SOME, "d/One")
    added("a raw file as MacBinary", "-form macbin -o d/One", SOME, "d/One")
    added("a raw file as AppleDouble with a type", "-form double -o x -t TEXT", SOME)
    formed.rez("add to a file that is missing as MacBinary", item, words="rez s.r -a -form macbin -o One")
    formed.rez("add to a file of no bytes as BinHex", item, words="rez s.r -a -form hqx -o One", files={"One": b""})
    formed.rez("a file that is written anew keeps nothing of what was there", item, words="rez s.r -form macbin -o x",
               x=macbin(T), moment=86400)


@formed.part("Broken forms that -a can't read: there is no mark.")
def broken_form_bases():
    whole, item = macbin(T), ("x;", wrong(201))

    def refused(name, says, base):
        formed.rez("add to " + name, item, words="rez s.r -a -ov -form raw -o x", x=base, err="error " + says)

    refused("a text", "441 NoStart: 0", b"no fork\n")
    refused("MacBinary with a wrong CRC", "424 BadCrc: 0 0 %d" % crc(whole[:124]), whole[:124] + b"\0\0" + whole[126:])
    refused("AppleDouble with an entry outside", "423 EntryOutside: 2", double(T)[:-1])
    refused("AppleSingle with an entry outside", "423 EntryOutside: 2", single(T)[:-1])
    refused("AppleSingle with a map that is read-only", "220 ReadOnlyMap: 128", single(T.but(res=image(FOUR, 0x0080))))
    refused("BinHex without its end", "443 NoEnd: %d" % (len(hqx(T)) - 2), hqx(T)[:-2])
    refused("MacBinary with a broken fork", "407 ReferencesOutside: 300 1", macbin(T.but(res=cut_fork())))
    refused("MacBinary with a map that is read-only", "220 ReadOnlyMap: 128", macbin(T.but(res=image(FOUR, 0x0080))))


@formed.part("Names: of the file that is there, else the last one of the words.")
def names():
    item = data("Test", 128, b"\1\2")
    long = "n" * 64
    formed.rez("a name of 63 bytes in Mac Roman", item, words="rez s.r -form macbin -o d/é" + long[2:])
    formed.rez("a name of 64 bytes", item, words="rez s.r -form macbin -o d/" + long, err="error 425 BadName: 64")
    formed.rez("a name of 64 bytes as AppleDouble", item, words="rez s.r -form double -o d/" + long)
    formed.rez("a name of 64 bytes as AppleSingle", item, words="rez s.r -form single -o d/" + long)
    formed.rez("no name behind the last folder as AppleSingle", item, words="rez s.r -form single -o d/")
    formed.rez("a name that Mac Roman hasn't, as AppleSingle", item, words="rez s.r -form single -o d/語",
               err="error 425 BadName: 1")
    formed.rez("a name that Mac Roman hasn't, of an AppleSingle that has one", item, words="rez s.r -a -o 語",
               files={"語": single(T)})
    formed.rez("a name of 64 bytes that AppleSingle has", item, words="rez s.r -a -form macbin -o x",
               x=single(D.but(name=b"n" * 64)), err="error 425 BadName: 64")
    formed.rez("no name behind the last folder", item, words="rez s.r -form macbin -o d/", err="error 425 BadName: 0")
    formed.rez("no name behind the last folder as AppleDouble", item, words="rez s.r -form double -o d/")
    formed.rez("a name of 70 characters that Mac Roman hasn't", item,
               words="rez s.r -form macbin -o 語/" + long + "語12345", err="error 425 BadName: 70")
    formed.rez("a folder that Mac Roman hasn't", item, words="rez s.r -form hqx -o 語/n")
    formed.rez("a name that Mac Roman hasn't, of a file that has one", item, words="rez s.r -a -o 語",
               files={"語": macbin(T)})
    formed.rez("a name that Mac Roman hasn't, of a file that has none", item, words="rez s.r -a -o 語",
               files={"語": double(D.but(name=b""))}, err="error 425 BadName: 1")
    formed.rez("a name that Mac Roman hasn't, of a raw file", item, words="rez s.r -a -o 語", files={"語": ONE})
    formed.rez("a name of 64 bytes that AppleDouble has", item, words="rez s.r -a -form hqx -o x",
               x=double(D.but(name=b"n" * 64)), err="error 425 BadName: 64")
    formed.rez("a name of 300 bytes that AppleDouble has", item, words="rez s.r -a -form macbin -o x",
               x=entries(0x00020000, (3, b"n" * 300)), err="error 425 BadName: 255")
    formed.rez("a fault of a statement comes before one of the name", delete("Test"),
               words="rez s.r -form double -o 語", err="205 NeedsAppend")
    formed.rez("a resource that is too long comes before the name", read("Big ", "big", 0), item,
               words="rez s.r -form hqx -o d/", big=bytes(16777212), err="error 302 DataFull: 16777222")
    formed.rez("a name comes before a write that fails", item, words="rez s.r -form hqx -o d/", fails=2,
               err="error 425 BadName: 0")
    formed.rez("the write of a form fails", item, words="rez s.r -form hqx -o d/n", fails=2, err="write fault")
    formed.rez("the write of AppleSingle fails", item, words="rez s.r -form single -o d/n", fails=2, err="write fault")
    formed.rez("a data fork of AppleSingle that is too long", item, words="rez s.r -a -o x",
               x=single(T.but(data=bytes(33554433))), err="error 428 ForkTooLong: 33554433")
    formed.rez("a data fork that is too long for a form", item, words="rez s.r -a -o x",
               x=macbin(T.but(data=bytes(33554433))), err="error 428 ForkTooLong: 33554433")


@formed.part("derez over the forms.")
def shown_forms():
    for name, form, write, file in WRITERS:
        formed.derez("derez of %s by its form" % name, "derez %s -from %s" % (file, form), {file: write(T)}, form=form)
    formed.derez("the last of two forms counts", "derez -from hqx f -from macbin", {"f": macbin(T)}, form="macbin")
    formed.derez("AppleDouble is shown by its header file alone", "derez ._T", {"._T": double(T), "T": b"data"},
                 fails=2)
    formed.derez("AppleSingle is shown by itself alone", "derez ._T", {"._T": single(T), "T": b"data"}, fails=2)
    formed.derez("a file of no bytes has no resources", "derez f", {"f": b""})

    def refused(name, says, words, held, form=None, **more):
        formed.derez("derez of " + name, words, {"f": held}, form=form, err="error " + says, **more)

    refused("a text", "441 NoStart: 0", "derez f", b"data 'Test' (128) { };\n")
    refused("no bytes as MacBinary", "421 ShortHeader: 0", "derez f -from macbin", b"", "macbin")
    refused("no bytes as AppleDouble", "421 ShortHeader: 0", "derez f -from double", b"", "double")
    refused("no bytes as BinHex", "441 NoStart: 0", "derez f -from hqx", b"", "hqx")
    refused("no bytes as AppleSingle", "421 ShortHeader: 0", "derez f -from single", b"", "single")
    refused("a raw file as AppleSingle", "422 BadMagic: 256", "derez f -from single", ONE, "single")
    refused("AppleSingle as AppleDouble", "422 BadMagic: 333312", "derez f -from double", single(T), "double")
    refused("AppleDouble as AppleSingle", "422 BadMagic: 333319", "derez f -from single", double(T), "single")
    refused("AppleSingle as raw", "402 DataAreaOutside: 0 0", "derez f -from raw", single(T), "raw")
    refused("AppleSingle with a broken fork", "407 ReferencesOutside: 300 1", "derez f", single(T.but(res=cut_fork())))
    refused("a raw file as MacBinary", "422 BadMagic: 0", "derez f -from macbin", ONE, "macbin")
    refused("a raw file as AppleDouble", "422 BadMagic: 256", "derez f -from double", ONE, "double")
    refused("a raw file as BinHex", "441 NoStart: 0", "derez f -from hqx", ONE, "hqx")
    refused("MacBinary as AppleDouble", "422 BadMagic: 87040", "derez f -from double", macbin(T), "double")
    refused("BinHex as raw", "402 DataAreaOutside: 0 1818566765", "derez f -from raw", hqx(T), "raw")
    refused("MacBinary with a broken fork", "407 ReferencesOutside: 300 1", "derez f", macbin(T.but(res=cut_fork())))


@formed.part("derez with type files: what is no `type` statement is read, and does nothing.")
def type_files():
    items = (("include \"no\" 'Test' (40000) as 'Last' (256, \"n\", 256);", None), ("include \"no\" not 'Test';", None),
             ("read 'Test' (1 / 0, 256) \"no\";", None),
             ("change 'Test' (5) to 'Last';", None), ("delete 'Test' (128);", None))
    formed.derez("derez with statements on lists does nothing but read them", "derez f t.r", {"f": ONE}, {"t.r": items},
                 fails=3)
    for name, text in [("include", "include \"f\" 'Test' (1:2) as 'Last' (5);"), ("read", "read 'Test' \"f\";"),
                       ("change", "change 'Test';"), ("delete", "delete 'Test' ($$ID);")]:
        formed.derez("derez with no statement of " + name, "derez f t.r", {"f": ONE},
                     {"t.r": items[:1] + ((text, Stray(201)),)}, err="t.r:2: error 201 Syntax")
    formed.derez("derez with too many brackets in a statement on lists", "derez f t.r", {"f": ONE},
                 {"t.r": (("delete 'Test' " + "(" * 65, Stray(221)),)}, err="t.r:1: error 221 TooDeep")
    formed.derez("a type file comes before a broken form", "derez f t.r", {"f": b"no fork\n"},
                 {"t.r": (("delete;", Stray(201)),)}, err="t.r:1: error 201 Syntax")
    formed.derez("a missing file behind a type file", "derez f t.r -from hqx", {}, {"t.r": items}, "hqx",
                 err='error 101 MissingFile: "f"')
