"""The cases of append.cases: changes of a file that is there, by `-a`, `change` and `delete`. list_cases.py writes them."""
from list_book import FOUR, LONG, NOTHING, ONE, Runs, SOME, TEST, cut_fork, odd_fork, resource, said_as
from model.fork import image
from model.lists import All, Bad, Head, Id, Name, Range, Source, Stray, change, data, delete, include, read, wrong

append = Runs("append.cases",
              "Changes of a file that is there: `-a` with `change`, `delete` and all others; `-ov` and `-ro`.",
              "Written by tools/cases/list_cases.py. What each run leaves is told by tools/model/lists.py.",
              words="rez s.r -a -o x")


@append.part("What -a keeps of the file that is there.")
def what_is_kept():
    base = image(FOUR, 0x0060, bytes(range(1, 241)))
    append.rez("a file to which nothing is added is kept whole", NOTHING, x=base)
    append.rez("a file to which nothing is added, by a source of no bytes", words="rez -a s.r", files={"Rez.Out": base})
    append.rez("a file that is added to", data("Data", 1, b""), data("Test", 9, b"\x09"), words="rez s.r -o x -a",
               x=base)
    append.rez("a file that is missing", data("Test", 128, b"\1\2"))
    append.rez("a file of no bytes is added to", data("Test", 128, b"\1\2"), words="rez s.r -a -a -o x", x=b"")
    append.rez("a file that is missing, and nothing is added", NOTHING)
    append.rez("a data statement in the place of a resource that is there", data("Test", 1, b"\xFF\xFF"), x=SOME)
    append.rez("a fork of another layout whose resources share bytes", data("Test", 2, b"\3"), x=odd_fork())
    append.rez("what else stands in a map and in its references is zero", NOTHING, x=marked_fork())
    append.rez("include what is there already", include("x", "Test"), include("x", "Last", Id(1), "Copy"), x=SOME)
    append.rez("the file that is added to isn't looked for behind a path", NOTHING, words="-s d", files={"d/x": SOME})
    append.rez("without -a what is there isn't read", NOTHING, words="rez s.r -o x", x=b"no fork", fails=3)


def marked_fork():
    """A fork with a handle, a file number and reserved bytes in its reference."""
    return ONE[:262 + 16] + b"\1\2\3\4\5\6" + ONE[262 + 22:-4] + b"\7\7\7\7"


@append.part("-ro, and maps that are read-only.")
def read_only():
    append.rez("a map that becomes read-only", NOTHING, words="rez s.r -a -ro -o x", x=ONE)
    append.rez("a map that is read-only", NOTHING, x=image([TEST], 0x0080), err="error 220 ReadOnlyMap: 128")
    append.rez("a map that is read-only and has other attributes", NOTHING, words="rez s.r -a -ro -o x",
               x=image([], 0x01A0), err="error 220 ReadOnlyMap: 416")
    append.rez("-ov doesn't open a map that is read-only", NOTHING, words="rez s.r -a -ov -o x",
               x=image([TEST], 0x0080), err="error 220 ReadOnlyMap: 128")
    append.rez("-ro without -a", data("Test", 128, b"\1\2"), words="rez -ro s.r -o x -ro")
    append.rez("-ro beside other attributes of the map", NOTHING, words="rez s.r -ro -a -o x", x=image([TEST], 0x1060))
    append.rez("-ro of a file that is missing", NOTHING, words="rez s.r -ro -a -o x")
    append.rez("without -a a map that is read-only is written over", NOTHING, words="rez s.r -o x",
               x=image([TEST], 0x0080))
    append.rez("a map that is read-only in a file that is included", include("f"), x=ONE, f=image(FOUR, 0x0080))


@append.part("Files that -a can't read. They have no mark, and come before all statements and behind all lines.")
def broken_bases():

    def refused(name, says, base, item=NOTHING):
        append.rez(name, item, x=base, err="error " + says)

    refused("fifteen bytes are added to", "401 ShortHeader: 0 15", ONE[:15])
    refused("a fork with a reference list outside is added to", "407 ReferencesOutside: 300 1", cut_fork())
    refused("a fork with a name outside is added to", "409 NameOutside: 312 0", ONE[:302] + b"\0\0" + ONE[304:])
    refused("a fork with a type twice is added to", "410 Repeated: 304 1415934836", twice())
    refused("a broken fork whose map is read-only", "407 ReferencesOutside: 300 1",
            cut_fork()[:285] + b"\x80" + cut_fork()[286:])
    refused("a broken fork comes before what is no statement", "401 ShortHeader: 0 1", b"\0", ("x;", wrong(201)))
    refused("a map that is read-only comes before a missing file", "220 ReadOnlyMap: 128", image([TEST], 0x0080),
            include("no"))
    append.rez("a line that can't be read comes before a broken fork", ("@", Stray(111, 64)), x=ONE[:15],
               err="111 BadCharacter: 64")
    append.rez("a missing source comes before a broken fork", words="rez no.r -a -o x", more={"s.r": None},
               x=ONE[:15], err='error 101 MissingFile: "no.r"')
    append.rez("the read of the file that is added to fails", ("x;", wrong(201)), x=ONE, fails=2, err="read fault")
    append.rez("the read of a file that is added to isn't made behind a bad line", ("@", Stray(111, 64)),
               x=ONE, fails=2, err="111 BadCharacter: 64")
    append.rez("the write of a file that is added to fails", delete("Test"), x=ONE, fails=3, err="write fault")
    append.rez("no call behind the write of a file that is added to", delete("Test"), x=ONE, fails=4)


def twice():
    """A fork whose second type is its first one again."""
    fork = image([TEST, resource("Last", 1)])
    return fork.replace(b"Last", b"Test")


@append.part("delete.")
def deletes():
    def of_x(name, *said, text=None):
        append.rez("delete " + name, said_as(text, delete(*said)), x=SOME)

    of_x("all of a type", "Test")
    of_x("all of a type that isn't there", "None", text="DELETE 'None';")
    of_x("an id", "Test", Id(2))
    of_x("a range", "Test", Range(-32768, 1))
    of_x("a range that begins behind its end", "Test", Range(2, -3))
    of_x("a range without a resource", "Test", Range(3, 9))
    of_x("a name", "Last", Name("c"))
    of_x("a name that two resources have", "Test", Name("b"))
    append.rez("delete all that is there", delete("Test"), delete("Last", Id(1)), x=image(FOUR, 0x0020, b"kept"))
    append.rez("delete both of one name", delete("Test", Name("b")), delete("Test", Name("b")), x=SOME)
    append.rez("delete what an earlier statement made, and make it again", data("Last", 2, b""), delete("Last", Id(1)),
               data("Last", 1, b"\xFF"), x=SOME)
    append.rez("delete of a file that is missing", delete("Test"), delete("Test", Range(1, 2)))
    append.rez("delete twice", delete("Test", Id(2)), delete("Test", Id(2)), x=SOME,
               err="2: 218 NoSuchResource: 'Test' 2")


@append.part("change.")
def what_changes():
    def of_x(name, *said, text=None):
        append.rez("change " + name, said_as(text, change(*said)), x=SOME)

    append.rez("change all of a type to a new type", change("Test", All(), "Next"), x=SOME)
    append.rez("change all of a type to one that is there", change("Test", All(), "Last"), x=SOME)
    append.rez("change one that takes the type and id of an earlier one", change("Last", All(), "Test"), x=SOME)
    append.rez("change all of a type that isn't there", ("CHANGE 'None' To 'Last';", change("None", All(), "Last")),
               x=SOME)
    of_x("a range", "Test", Range(1, 2), "Next")
    of_x("a range that begins behind its end", "Test", Range(2, 1), "Next")
    of_x("an id", "Test", Id(2), "Next")
    of_x("a name that two have", "Test", Name("b"), "Next")
    of_x("an id keeps its place", "Test", Id(1), "Last", Head(9))
    of_x("an id to one that another has", "Test", Id(1), "Test", Head(2))
    of_x("an id to itself", "Test", Id(2), "Test", Head(2))
    of_x("a name", "Test", Name("a"), "Test", Head(lambda one: one.ident, "new"),
         text="change 'Test' (\"a\") to 'Test' ($$ID, \"new\");")
    of_x("a name to none", "Last", Name("c"), "Last", Head(1, ""))
    of_x("attributes, which begin from 0", "Last", Name("c"), "Last", Head(1, None, "locked"))
    of_x("attributes to a number", "Last", Id(1), "Last", Head(1, lambda one: one.name, "protected", 0x21),
         text="change 'Last' (1) to 'Last' (1, $$Name, protected, 0x21);")
    of_x("by facts of the resource", "Test", Id(2), "Next", Head(lambda one: one.ident + one.attr,
        lambda one: one.name * 2, lambda one: one.attr, "unlocked", 0x40),
        text="change 'Test' (2) to 'Next' ($$ID + $$Attributes, $$Name $$Name, $$Attributes, unlocked, ($$Type == 'Test') << 6);")
    append.rez("change one resource to another type, id and name", change("Test", Id(128), "Last", Head(5, "n")), x=ONE)
    append.derez("derez shows the one resource with its other type, id and name", "derez x",
                 {"x": image([resource("Last", 5, "n", 0, b"\1\2")])})
    append.rez("change two resources into each other", change("Test", Id(1), "Test", Head(9)),
               change("Test", Id(2), "Test", Head(1)), change("Test", Id(9), "Test", Head(2)), x=SOME)
    append.rez("change a name and delete by it", change("Test", Id(1), "Test", Head(1, "b")), delete("Test", Name("b")),
               x=SOME)
    append.rez("the first of a name is the first in the list, which isn't the first that was put",
               data("Test", 9, b"", "c"), change("Last", Id(1), "Test"), change("Test", Name("c"), "Next"),
               x=image(FOUR[1:]))
    append.rez("change, include, read and delete one after the other", change("Last", Id(1), "Copy", Head(3)),
               include("x", "Last"), read("Copy", "b", 4, "four"), delete("Test", Name("a")),
               change("Copy", Name("four"), "Test", Head(1, None, "preload")),
               include("x", "Test", Id(1), "Copy", Head(3)), x=SOME, b=b"\xFF")
    append.rez("change what an included source made", ('#include "in.r"', Source("in.r", data("Test", 4, b"", "d"))),
               change("Test", Name("d"), "Last", Head(4)), x=SOME)


PROTECTED = [resource("Test", 1, "p", 8, b"\1"), resource("Test", 2, "", 0, b"\2"),
             resource("Test", 3, "", 0x28, b"\3"),
             resource("Last", 1, "", 0, b"\4"), resource("Last", 2, "", 8, b"\5")]


@append.part("Protected resources: the first one in order is named, and with -ov there is no such fault.")
def protected_ones():
    files = {"x": image(PROTECTED), "f": image([resource("Test", 2), resource("Test", 3), resource("Test", 1)]),
             "b": b"\xFF"}

    def both(name, says, *items):
        append.rez(name, *items, files=files, err="s.r:%d: error 219 Protected: %s" % (len(items), says))
        append.rez(name + ", with -ov", *items, words="rez s.r -ov -a -o x", files=files)

    both("data over a protected resource", "'Test' 1", data("Last", 1, b""), data("Test", 1, b""))
    both("read over a protected resource that is there", "'Last' 2", read("Last", "b", 2, "", "protected"))
    both("include over protected resources in another order", "'Test' 3", include("f"))
    both("include over a protected resource under a head that isn't", "'Last' 2",
         include("f", "Test", Id(2), "Last", Head(2, None, "unprotected")))
    both("change a range with a protected resource", "'Test' 3", change("Test", Range(2, 9), "Next"))
    both("change one that takes the place of a protected resource", "'Last' 2", change("Last", Id(1), "Last", Head(2)))
    both("change a protected resource that takes the place of another", "'Test' 1",
         change("Test", Id(1), "Last", Head(2)))
    both("change two of which the first takes the place of a protected resource", "'Last' 2",
         change("Test", Range(2, 3), "Last"))
    both("change a protected resource to itself", "'Test' 1", change("Test", Name("p"), "Test"))
    both("delete protected resources", "'Test' 1", delete("Test"))
    both("delete a range with a protected resource", "'Test' 3", delete("Test", Range(2, 32767)))
    append.rez("protected resources that stay are no fault", delete("Test", Id(2)),
               change("Last", Id(1), "Last", Head(3, None, "protected")), include("f", "Test", Id(2)), files=files)
    append.rez("protect a resource and change it again", change("Last", Id(1), "Last", Head(1, None, "protected")),
               change("Last", Id(1), "Last", Head(1, None, "unprotected")), files=files,
               err="2: 219 Protected: 'Last' 1")
    append.rez("unprotect with -ov keeps the name", change("Test", Id(1), "Test", Head(1, None, "unprotected")),
               words="rez s.r -a -ov -o x", files=files)
    append.rez("-ov without -a", data("Test", 1, b"", "", "protected"), data("Test", 1, b"\1"),
               words="rez s.r -ov -o x")
    append.rez("delete the one protected resource", delete("Test", Id(128)),
               x=image([resource("Test", 128, "", 8, b"\1\2")]),
               err="219 Protected: 'Test' 128")
    append.rez("delete the one protected resource with -ov", delete("Test", Id(128)), words="rez s.r -a -ov -o x",
               x=image([resource("Test", 128, "", 8, b"\1\2")]))


@append.part("change and delete: the first fault. Without -a nothing else is looked at but that it is a statement.")
def refused_changes():
    files = {"x": image(FOUR[:2] + [resource("Last", 1, "c", 0x28, b"\4")])}

    def bare(name, says, item):
        append.rez(name + " without -a", item, words="rez s.r -o x", files=files, err=says)

    def refused(name, says, item):
        append.rez(name, item, files=files, err=says)

    bare("delete", "205 NeedsAppend", delete("Test", Id(1)))
    bare("delete nothing", "205 NeedsAppend", delete("None"))
    bare("delete a wrong id", "205 NeedsAppend", delete("Test", Id(40000)))
    bare("change", "205 NeedsAppend", change("Test", All(), "Last"))
    bare("change a wrong id under a wrong head", "205 NeedsAppend",
         ("change 'Test' (1 / 0) to 'Last' (40000, 256);", change("Test", Id(Bad(211)), "Last",
                                                                  Head(40000, None, 256))))
    bare("delete of no type", "201 Syntax", ("delete;", wrong(201)))
    bare("delete in too many brackets", "221 TooDeep", ("delete %s;" % ("[" * 65), wrong(221)))
    bare("change under a head without a pick", "201 Syntax", ("change 'Test' to 'Last' (5);", wrong(201)))
    append.rez("a warning comes before what needs -a", ("type 'Byte' { byte; };", None),
               ("type 'Byte' { byte; };", None), delete("Byte"), words="rez s.r -o x",
               err="3: 205 NeedsAppend", warned="rezkit: s.r:2: warning 240 Redeclared: 'Byte' 0\n")
    for name, text in [("delete with a head", "delete 'Test' (1, \"n\");"),
                       ("delete without brackets", "delete 'Test' 1;"), ("delete of a fact", "delete 'Test' ($$ID);"),
                       ("delete all but a type", "delete not 'Test';"),
                       ("delete of two types", "delete 'Test', 'Last';"),
                       ("change to nothing", "change 'Test' (1) to;"),
                       ("change as another type", "change 'Test' (1) as 'Last';"),
                       ("change a range under a head", "change 'Test' (1:1) to 'Last' (5);"),
                       ("change without to", "change 'Test' (1) 'Last' (5);"),
                       ("change to a type of three bytes", "change 'Test' (1) to 'abc';"),
                       ("change to an unknown name", "change 'Test' (1) to 'Last' (kLast);"),
                       ("change a fact", "change 'Test' ($$Name) to 'Last';")]:
        refused(name, "201 Syntax", (text, wrong(201)))
    refused("delete a wrong id", "204 BadId: 40000", delete("None", Id(40000)))
    refused("delete a range with a wrong first id", "204 BadId: -32769",
            ("delete 'Test' (-32769 : 1 / 0);", delete("Test", Range(-32769, Bad(211)))))
    refused("delete an id without a value", "211 ZeroDivisor", ("delete 'Test' (1 / 0);", delete("Test", Id(Bad(211)))))
    refused("delete an id that isn't there", "218 NoSuchResource: 'Test' 5", delete("Test", Id(5)))
    refused("delete a name that isn't there", "218 NoSuchResource: \"\"", delete("Test", Name("")))
    refused("change a wrong id", "204 BadId: 32768", ("change 'Test' (32768) to 'Last' (1 / 0);",
                                                      change("Test", Id(32768), "Last", Head(Bad(211)))))
    refused("change an id that isn't there", "218 NoSuchResource: 'Test' 5", change("Test", Id(5), "Last", Head(40000)))
    refused("change a name that isn't there", "218 NoSuchResource: \"A\"", change("Test", Name("A"), "Last", Head(1)))
    refused("change to a wrong id and a long name", "204 BadId: 32768",
            change("Test", Id(2), "Last", Head(32768, LONG)))
    refused("change to a long name and a wrong attribute", "216 TextTooLong: 256",
            change("Test", Id(2), "Last", Head(1, LONG, 256)))
    refused("change to a wrong attribute in the place of a protected resource", "207 OutOfRange: 256",
            change("Test", Id(2), "Last", Head(1, None, 256)))
    append.rez("change a resource that an earlier one took the place of", change("Test", Id(1), "Test", Head(2)),
               change("Test", Id(1), "Last"), files=files, err="2: 218 NoSuchResource: 'Test' 1")
    append.rez("what is refused leaves the file as it was", delete("Test"), ("", None),
               ("delete\n'Last'\n(5);", delete("Last", Id(5))), files=files,
               err="3: 218 NoSuchResource: 'Last' 5")
