"""Writes forks.cases: commands over forks whose references share bytes, names and lists, or whose types have none.

Each fork is put together by fork_shapes.py, its resources stand beside it by hand, and fork.py has to read the same
from its bytes. What a run leaves is told by lists.py, and each line of `err` stands here by hand.
"""
from casefile import resources_of
from list_book import NOTHING, Runs
from model.fork import admitted, image, number
from model.fork_shapes import ABSENT, each, held, laid, named, reference
from model.forms import FORMS, File, written
from model.lists import All, Bad, Head, Id, Name, Range, Resource, change, data, delete, include, shown

FORKS = Runs("forks.cases", "Forks that share bytes, names and lists, types without references, and repeated keys.",
             "Written by tools/cases/fork_cases.py. What each run leaves is told by tools/model/lists.py.")


def patched():
    """The fork of `data 'Test' (128) { $"0102" }; data 'Test' (129) { };` whose second reference has the first one's bytes."""
    fork = image(resources_of("'Test' 128 = 0102 & 'Test' 129"))
    assert fork[-7:-4] == number(6, 3)
    return fork[:-7] + bytes(3) + fork[-4:]


TWO = held(b"\1\2", b"\3")
# Forks: what each is, its bytes, and the resources that it has.
FORKS_BY_HAND = [
    ("two resources of the same bytes", patched(), "'Test' 128 = 0102 & 'Test' 129 = 0102"),
    ("the same bytes in two types",
     laid(*each(("Test", [reference(1), reference(2, 6)]), ("Last", [reference(1, 6), reference(2)])), TWO),
     "'Test' 1 = 0102 & 'Test' 2 = 03 & 'Last' 1 = 03 & 'Last' 2 = 0102"),
    ("no bytes that three resources share", laid(*each(("Test", [reference(3), reference(2), reference(1)]))),
     "'Test' 3 & 'Test' 2 & 'Test' 1"),
    ("bytes within the bytes of another",
     laid(*each(("Test", [reference(1), reference(2, 6), reference(3, 11)])),
          held(b"ab" + held(b"\5") + held(b"\6\7"))),
     "'Test' 1 = 61620000000105000000020607 & 'Test' 2 = 05 & 'Test' 3 = 0607"),
    ("bytes that begin within the bytes of another and end behind them",
     laid(*each(("Test", [reference(1), reference(2, 5)])), number(5, 4) + b"a\0\0\0\3bcd"),
     "'Test' 1 = 6100000003 & 'Test' 2 = 626364"),
    ("bytes that are the length of others",
     laid(*each(("Test", [reference(1), reference(2, 4)])), number(4, 4) + number(1, 4) + b"z"),
     "'Test' 1 = 00000001 & 'Test' 2 = 7A"),
    ("a name that resources of two types share",
     laid(*each(("Test", [reference(1, 0, 0), reference(2, 6, 0, 0x20)]),
                ("Last", [reference(9, 0, 4), reference(1, 6, 0)])), TWO, named(b"one", b"two")),
     "'Test' 1 \"one\" = 0102 & 'Test' 2 \"one\" 20 = 03 & 'Last' 9 \"two\" = 0102 & 'Last' 1 \"one\" = 03"),
    ("a name that is the end of another",
     laid(*each(("Test", [reference(1, 0, 0), reference(2, 0, 4), reference(3, 0, 6)])), TWO,
          named(b"abc\1z") + named(b"")), "'Test' 1 \"abc\\0x01z\" = 0102 & 'Test' 2 \"z\" = 0102 & 'Test' 3 = 0102"),
    ("names that are empty and names that are absent",
     laid(*each(("Test", [reference(1, 0, ABSENT), reference(2, 0, 0), reference(3, 0, 1), reference(4, 0, 0)])), TWO,
          named(b"", b"n")), "'Test' 1 = 0102 & 'Test' 2 = 0102 & 'Test' 3 \"n\" = 0102 & 'Test' 4 = 0102"),
    ("a name in the copy of the header",
     laid(*each(("Test", [reference(1, 0, 0), reference(2, 6, 0)])), TWO, copy=named(b"fifteen bytes..").ljust(16),
          shift=62), "'Test' 1 \"fifteen bytes..\" = 0102 & 'Test' 2 \"fifteen bytes..\" = 03"),
    ("a list that two types share", laid([("Test", 2, 0), ("Last", 2, 0)], reference(1) + reference(2, 6), TWO),
     "'Test' 1 = 0102 & 'Test' 2 = 03 & 'Last' 1 = 0102 & 'Last' 2 = 03"),
    ("lists that overlap",
     laid([("Test", 2, 12), ("None", 0, 12), ("Last", 3, 0), ("More", 1, 24)],
          reference(3) + reference(1, 6) + reference(2), TWO),
     "'Test' 1 = 03 & 'Test' 2 = 0102 & 'Last' 3 = 0102 & 'Last' 1 = 03 & 'Last' 2 = 0102 & 'More' 2 = 0102"),
    ("a list that begins in the reserved bytes of another",
     laid([("Test", 1, 0), ("Last", 1, 8)], reference(1)[:8] + reference(7, 6), TWO),
     "'Test' 1 = 0102 & 'Last' 7 = 03"),
    ("lists and bytes in another order than the types",
     laid([("Test", 2, 24), ("Last", 1, 0), ("More", 1, 12)],
          reference(5, 11) + reference(-1, 0, 4) + reference(2, 6, 0, 4) + reference(1, 0), held(b"\1\2", b"\3", b""),
          named(b"two", b"more")), "'Test' 2 \"two\" 04 = 03 & 'Test' 1 = 0102 & 'Last' 5 & 'More' -1 \"more\" = 0102"),
    ("two types whose bytes stand in turn",
     laid(*each(("Test", [reference(1), reference(2, 10)]), ("Last", [reference(1, 5), reference(2, 15)])),
          held(b"a", b"b", b"c", b"d")), "'Test' 1 = 61 & 'Test' 2 = 63 & 'Last' 1 = 62 & 'Last' 2 = 64"),
    ("a map before the data area", laid(*each(("Test", [reference(1), reference(2)])), TWO, parts="md"),
     "'Test' 1 = 0102 & 'Test' 2 = 0102"),
    ("parts with others between them, and a front of the reserved bytes",
     laid(*each(("Test", [reference(1), reference(2)])), TWO, attributes=0x0060, reserved=b"the front", parts="dxmx"),
     "'Test' 1 = 0102 & 'Test' 2 = 0102"),
    ("a type without references first", laid(*each(("None", []), ("Test", [reference(1), reference(2)])), TWO),
     "'Test' 1 = 0102 & 'Test' 2 = 0102"),
    ("types without references between others",
     laid(*each(("Test", [reference(1), reference(2)]), ("None", []), ("Nil ", []), ("Last", [reference(1)])), TWO),
     "'Test' 1 = 0102 & 'Test' 2 = 0102 & 'Last' 1 = 0102"),
    ("types without references last",
     laid(*each(("Test", [reference(1), reference(2, 6)]), ("None", []), ("Nil ", [])), TWO),
     "'Test' 1 = 0102 & 'Test' 2 = 03"),
    ("types without references alone", laid(*each(("None", []), ("Nil ", []), ("Zero", []))), "nothing"),
    ("no types, and bytes that no reference has", laid([], b"", TWO, named(b"name"), 0x0040, b"reserved"), "nothing"),
    ("no bytes", b"", "nothing"),
]


for what, shape, resources in FORKS_BY_HAND:
    assert admitted(shape)[0] == resources_of(resources), (what, admitted(shape)[0])
SHAPES = {what: shape for what, shape, _ in FORKS_BY_HAND}


@FORKS.part("Each fork as text, as what is included, and as what is begun with.")
def every_shape():
    for name, fork in SHAPES.items():
        FORKS.derez("derez of %s" % name, "derez f", {"f": fork})
        FORKS.rez("include %s" % name, include("f"), f=fork)
        FORKS.rez("begin with %s" % name, NOTHING, words="rez s.r -a -o x", x=fork)
    FORKS.say("The text of a fork is compiled to a fork in which nothing is shared.")
    for name in ("two resources of the same bytes", "a name that resources of two types share", "lists that overlap",
                 "types without references alone"):
        resources = [Resource(*one) for one in admitted(SHAPES[name])[0]]
        FORKS.rez("again: %s" % name, *[(shown(one)[:-1], data(one.kind, one.ident, one.content, one.name.decode(),
                                                               *words_of(one))) for one in resources])


def words_of(one):
    return ["purgeable"] * (one.attr == 0x20)


# A fork of four types, of which one has no references, and of six resources that share bytes and names.
SIX = laid(*each(
    ("Test", [reference(1, 0, 0), reference(2, 6, 4, 0x20), reference(-3, 0, 4)]), ("None", []),
    ("Last", [reference(1, 6, 0, 8), reference(2, 6)]), ("More", [reference(2, 0, 8)])),
    held(b"\1\2", b"\3"), named(b"one", b"two", b""))
HAS_SIX = resources_of("""'Test' 1 "one" = 0102 & 'Test' 2 "two" 20 = 03 & 'Test' -3 "two" = 0102 & 'Last' 1 "one" 08 = 03 & \
'Last' 2 = 03 & 'More' 2 = 0102""")
assert admitted(SIX)[0] == HAS_SIX


def of_six(name, *items, words="", **more):
    """A case of `rez` with the fork of six beside the source, as f."""
    FORKS.rez(name, *items, words="rez s.r -o x" + words, files=dict({"f": SIX}, **more.pop("files", {})), **more)


@FORKS.part("Each pick of a fork that shares bytes and names.")
def picks():
    for name, text, *said in [
            ("all of a type", "'Test'", "Test"),
            ("all of a type without references", "'None'", "None"),
            ("all of no type of the fork", "'Nope'", "Nope"),
            ("an id", "'Test' (-3)", "Test", Id(-3)),
            ("an id that two types have", "'Last' (1)", "Last", Id(1)),
            ("a range", "'Test' (-3:1)", "Test", Range(-3, 1)),
            ("a range of a type without references", "'None' (-1:1)", "None", Range(-1, 1)),
            ("a name that one of the type has", "'Test' (\"one\")", "Test", Name("one")),
            ("a name that two of the type share", "'Test' (\"two\")", "Test", Name("two")),
            ("a name that is empty", "'More' (\"\")", "More", Name("")),
            ("a name that is absent", "'Last' (\"\")", "Last", Name("")),
            ("a type as another", "'Test' as 'Copy'", "Test", All(), "Copy"),
            ("a range as another type", "'Test' (1:2) as 'Copy'", "Test", Range(1, 2), "Copy"),
            ("an id as another type", "'Last' (2) as 'Test'", "Last", Id(2), "Test"),
            ("an id under a head", "'Test' (2) as 'Copy' (9, \"n\", locked)", "Test", Id(2), "Copy", Head(9, "n", "locked")),
            ("a shared name under a head of its facts", "'Test' (\"two\") as 'Test' ($$ID + 10, $$Name \"!\", $$Attributes)",
             "Test", Name("two"), "Test",
             Head(lambda one: one.ident + 10, lambda one: one.name + b"!", lambda one: one.attr))]:
        of_six("include " + name, ("include \"f\" %s;" % text, include("f", *said)))
    of_six("include all but a type", include("f", but="Test"))
    of_six("include all but a type without references", include("f", but="None"))
    of_six("include by several statements", include("f", "Last"), include("f", "Test", Id(2)),
           include("f", "Test", Name("two"), "Last"), include("f", "More", All(), "Test"))
    FORKS.say("Which types are shown of it.")
    for words in ("-only Test", "-only None", "-only Nope", "-skip Test", "-skip None -only More", "-only Last -only Test -skip Test",
                  "-skip Test -skip Last -skip More"):
        FORKS.derez("derez " + words, "derez f " + words, {"f": SIX})
    FORKS.case("shared bytes shown by their fields", "derez f t.r -only Test", [
        ("f", SIX), ("t.r", "type 'Test' { hex byte; hex byte; };\ntype 'Test' (2) { byte; };\n")], out="""\
resource 'Test' (1, "one") {
    0x01,
    0x02
};

resource 'Test' (2, "two", purgeable) {
    3
};

resource 'Test' (-3, "two") {
    0x01,
    0x02
};

""")
    FORKS.case("shared bytes of which one declaration fits and the other doesn't", "derez f t.r", [
        ("f", SIX), ("t.r", "type 'More' { integer; };\ntype 'Last' { integer; };\n")], out="".join(
            shown(Resource(*one)) for one in HAS_SIX[:5]) + "resource 'More' (2) {\n    258\n};\n\n")


@FORKS.part("include: a protected resource of the list would be replaced, and all else is looked at before.")
def protected_ones():
    first = data("Test", -3, b"\xFF", "mine", "protected")
    second = data("Last", 2, b"", "", "protected")
    third = data("Test", 2, b"", "", "protected")
    every = include("f")

    def refused(name, says, *items, **more):
        of_six("include " + name, *items, err="%d: %s" % (len(items), says), **more)

    refused("in the place of a protected one", "219 Protected: 'Test' -3", first, every)
    refused("in the place of the last, which is protected", "219 Protected: 'More' 2",
            data("More", 2, b"", "", "protected"), every)
    refused("in the place of several protected ones: the first of the file is told", "219 Protected: 'Test' 2", second, first,
            third, every)
    refused("in the place of several protected ones of a range", "219 Protected: 'Test' 2", first, third,
            include("f", "Test", Range(-3, 2)))
    refused("as another type in the place of a protected one", "219 Protected: 'Last' 2", second,
            include("f", "Test", All(), "Last"))
    refused("under a head in the place of a protected one", "219 Protected: 'Last' 2", second,
            include("f", "Test", Name("one"), "Last", Head(2)))
    refused("the first of a name in the place of a protected one", "219 Protected: 'Test' 2", third,
            include("f", "Test", Name("two")))
    refused("what an include before has put, and is protected", "219 Protected: 'Last' 1", every, include("f", "Last"))
    refused("a protected one a second time under its own head", "219 Protected: 'Last' 1", include("f", "Last", Id(1)),
            ("include \"f\" 'Last' (1) as 'Last' ($$ID, unprotected);",
             include("f", "Last", Id(1), "Last", Head(lambda one: one.ident, None, "unprotected"))))
    of_six("include the first of a name where the second is protected in the list", first,
           include("f", "Test", Name("two")))
    of_six("include beside a protected one", first, include("f", but="Test"))
    of_six("include a protected one in the place of another", data("Last", 1, b""), every)
    for name, *items in [("in the place of a protected one", first, every),
                         ("in the place of several protected ones", second, first, third, every),
                         ("a file twice", every, every)]:
        of_six("-ov: include " + name, *items, words=" -ov")
    FORKS.say("218 and the faults of a head come before 219.")
    refused("no such id before what is protected", "218 NoSuchResource: 'Test' 9", first,
            include("f", "Test", Id(9), "Test", Head(-3)))
    refused("no such name before what is protected", '218 NoSuchResource: "three"', first,
            include("f", "Test", Name("three"), "Test", Head(-3)))
    refused("an id of a type without references", "218 NoSuchResource: 'None' 1", include("f", "None", Id(1)))
    refused("an empty name of a type without references", '218 NoSuchResource: ""', include("f", "None", Name("")))
    refused("no such id before the faults of a head", "218 NoSuchResource: 'More' 1",
            include("f", "More", Id(1), "More", Head(40000)))
    refused("an id of a head before what is protected", "204 BadId: 32770", second,
            ("include \"f\" 'Test' (2) as 'Last' ($$ID + 32768);",
             include("f", "Test", Id(2), "Last", Head(lambda one: one.ident + 32768))))
    refused("an attribute of a head before what is protected", "207 OutOfRange: 256", second,
            include("f", "Test", Id(2), "Last", Head(2, None, 256)))
    refused("a zero divisor of a head before what is protected", "211 ZeroDivisor", second,
            ("include \"f\" 'Test' (2) as 'Last' (1 / 0);", include("f", "Test", Id(2), "Last", Head(Bad(211)))))


def asked_of(file, kind, pick):
    """`$$Resource`: its text, and the bytes that a run has of it."""
    def found(run):
        pick.test()
        resources = [Resource(*each) for each in admitted(run.form(run.find(file.encode())).res)[0]]
        return pick.choose(kind.encode(), resources)[0].content
    key = '"%s"' % pick.name.decode() if isinstance(pick, Name) else pick.said
    return "$$Resource(\"%s\", '%s', %s)" % (file, kind, key), found


@FORKS.part("`$$Resource`: the bytes of one of the resources that share them.")
def bytes_of_resources():
    def given(name, content, *asked, err="", **more):
        """A case of a `data` statement of such bytes, which are these."""
        texts, finds = zip(*[asked_of(*each) for each in asked])

        def step(run):
            made = b"".join(find(run) for find in finds)
            assert made == content, (name, made)
            data("Data", 1, made)(run)
        of_six("$$Resource " + name, ("data 'Data' (1) { %s };" % " ".join(texts), step), err="s.r:1: error " + err if err else "", **more)

    given("by an id", b"\1\2", ("f", "Test", Id(-3)))
    given("by the same id of three types", b"\3\3\1\2", ("f", "Test", Id(2)), ("f", "Last", Id(2)), ("f", "More", Id(2)))
    given("by a name", b"\3", ("f", "Last", Name("one")))
    given("by a name that two share", b"\3", ("f", "Test", Name("two")))
    given("by names that are empty and absent", b"\1\2\3", ("f", "More", Name("")), ("f", "Last", Name("")))
    given("of bytes within the bytes of another", b"\6\7ab\0\0\0\1\5\0\0\0\2\6\7", ("g", "Test", Id(3)), ("g", "Test", Id(1)),
          files={"g": SHAPES["bytes within the bytes of another"]})
    given("of no bytes that are shared", b"\3", ("g", "Test", Id(1)), ("f", "Last", Id(1)), ("g", "Test", Id(3)),
          files={"g": SHAPES["no bytes that three resources share"]})
    given("by an id that another type has", b"", ("f", "More", Id(1)), err="218 NoSuchResource: 'More' 1")
    given("by an id of a type without references", b"", ("f", "None", Id(1)), err="218 NoSuchResource: 'None' 1")
    given("by a name that another type has", b"", ("f", "More", Name("one")), err='218 NoSuchResource: "one"')
    given("by an empty name of a type without references", b"", ("f", "None", Name("")), err='218 NoSuchResource: ""')
    given("of a fork with an id twice", b"", ("g", "Test", Id(1)), err="410 Repeated: 310 1", files={"g": SAME_ID})
    given("of a fork with an id twice, behind one that is there", b"", ("f", "Test", Id(1)), ("g", "Test", Id(5)),
          err="410 Repeated: 310 1", files={"g": SAME_ID})
    of_six("$$Resource in a format", ("data 'Data' (1) { $$Format(\"<%s>\", $$Resource(\"f\", 'Last', 1)) };", data("Data", 1, b"<\3>")))
    of_six("$$Resource in an item", ("type 'Data' { pstring; };", None),
           ("resource 'Data' (1) { $$Resource(\"f\", 'Test', \"one\") };", data("Data", 1, b"\2\1\2")))


def in_form(form, fork):
    return written(form, File(name=b"T", kind=b"rsrc", creator=b"RSED", data=b"" if form == "double" else b"data", res=fork))


@FORKS.part("A fork that shares bytes in each form.")
def forms():
    kept = SHAPES["parts with others between them, and a front of the reserved bytes"]
    for form in FORMS:
        FORKS.derez("derez of a fork that shares bytes in %s" % form, "derez f -only More", {"f": in_form(form, SIX)})
        of_six("include from a fork that shares bytes in %s" % form, include("f", "Test", Name("two")),
               files={"f": in_form(form, SIX)})
        FORKS.rez("begin with a fork that shares bytes in %s" % form, NOTHING, words="rez s.r -a -o x",
                  x=in_form(form, kept), moment=86400)
        FORKS.rez("begin with a fork that shares bytes in %s, and change it" % form, delete("Test", Id(1)),
                  change("Last", Id(2), "Test", Head(2, "")), include("x", "Test", Id(1), "Copy"),
                  words="rez s.r -a -ov -o x", x=in_form(form, SIX))
    FORKS.say("One that may be read only isn't begun with (220), in each form; statements take from it.")
    for form in FORMS:
        closed = in_form(form, laid(*each(("Test", [reference(1), reference(2)])), held(b"\1\2"), attributes=0x10C0))
        FORKS.rez("begin with a read-only fork that shares bytes in %s" % form, ("x;", None),
                  words="rez s.r -a -ov -o x", x=closed, err="error 220 ReadOnlyMap: 4288")
        FORKS.rez("include from a read-only fork that shares bytes in %s" % form, include("x"), x=closed)


def of_ids(*groups, area=held(b"")):
    """A fork of types with these ids, which all have the same bytes: no bytes."""
    return laid(*each(*[(kind, [reference(ident) for ident in idents]) for kind, idents in groups]), area)


def place_of(types, position):
    """Where the reference at a position stands in such a fork of so many types."""
    return 260 + 28 + 2 + 8 * types + 12 * position


SAME_ID = of_ids(("Test", [1, 1]))


@FORKS.part("Ids that are far from each other, and ids of several types.")
def ids():
    for name, *groups in [
            ("ids that differ by 64", ("Test", [0, 64, 128, 192, 256, -64, -128])),
            ("ids that differ by 256", ("Test", [1, 257, 513, -255, -511])),
            ("ids that differ by 16,384", ("Test", [5, 16389, -16379, -32763])),
            ("the first and the last ids", ("Test", [0, 1, -1, 32767, -32768, 63, 64, 65])),
            ("the same ids in two types", ("Test", [1, 2, 64]), ("Last", [64, 1, 2])),
            ("the same ids in types around one without references", ("Test", [7, 71]), ("None", []), ("Last", [71, 7]))]:
        FORKS.derez("derez of " + name, "derez f", {"f": of_ids(*groups)})
        FORKS.rez("begin with " + name, NOTHING, words="rez s.r -a -o x", x=of_ids(*groups))
    many = list(range(65))
    for name, idents in [("65 ids in a row", many), ("65 ids in a row backwards", many[::-1]),
                         ("65 ids of which each is 64 after one before", [64 * k for k in many]),
                         ("130 ids around 0", list(range(-65, 65)))]:
        FORKS.derez("derez of " + name, "derez f -skip Test", {"f": of_ids(("Test", idents))})
    FORKS.rez("include one of 65 ids of two types", include("f", "Last", Id(64)),
              f=of_ids(("Test", many), ("Last", many)))
    FORKS.say("Ids that a type has twice: the first later reference is told.")
    for name, position, value, *groups in [
            ("an id twice in a row", 1, 1, ("Test", [1, 1])),
            ("an id three times", 2, 5, ("Test", [5, 6, 5, 5])),
            ("the id 0 twice", 2, 0, ("Test", [0, 64, 0])),
            ("the id -1 twice", 2, 65535, ("Test", [-1, 1, -1])),
            ("the last id twice", 2, 32767, ("Test", [32767, -32768, 32767])),
            ("the first id twice", 2, 32768, ("Test", [-32768, 32767, -32768])),
            ("65 ids of which the last is the first", 64, 0, ("Test", many[:64] + [0])),
            ("65 ids of which the last is the one before", 64, 63, ("Test", many[:64] + [63])),
            ("65 ids far from each other of which the last is the first", 64, 49152, ("Test", [-16384 + 256 * k for k in range(64)] + [-16384])),
            ("two ids twice, one within the other", 2, 2, ("Test", [1, 2, 2, 1])),
            ("two ids twice in turn", 2, 1, ("Test", [1, 2, 1, 2])),
            ("an id twice in the second type, which the first has once", 3, 1, ("Test", [1]), ("Last", [2, 1, 1])),
            ("an id twice in the last of three types", 5, 9, ("Test", [9, 8]), ("None", []), ("Last", [8, 9, 7, 9])),
            ("an id twice in each of two types", 1, 3, ("Test", [3, 3]), ("Last", [2, 2]))]:
        FORKS.derez("derez of " + name, "derez f", {"f": of_ids(*groups)},
                    err="error 410 Repeated: %d %d" % (place_of(len(groups), position), value))
    shared = laid([("Test", 2, 0), ("Last", 3, 0)], reference(1) + reference(2) + reference(1))
    FORKS.derez("derez of an id twice in the longer of two lists that overlap", "derez f", {"f": shared},
                err="error 410 Repeated: %d 1" % place_of(2, 2))
    FORKS.rez("include from a fork with an id twice", NOTHING, include("f", "Test", Id(40000)), f=SAME_ID,
              err="2: 410 Repeated: %d 1" % place_of(1, 1))
    for form in FORMS:
        FORKS.rez("begin with a fork with an id twice in %s" % form, ("x;", None), words="rez s.r -a -o x",
                  x=in_form(form, SAME_ID), err="error 410 Repeated: %d 1" % place_of(1, 1))


def codes(count):
    """So many type codes, of which no two are equal and many differ in one byte."""
    return [number(0x54000000 + (k % 16 << 20) + (k // 16 % 16 << 8) + k // 256, 4) for k in range(count)]


@FORKS.part("Types that are near each other, and types that stand twice: the first later one is told.")
def types():
    near = [("Test", [1]), ("test", [1]), ("Tesu", [1]), ("\x00est", [1]), (b"\0\0\0\0", [1]), (b"\xFF\xFF\xFF\xFF", [1]),
            (b"\x80\0\0\0", [1]), (b"\0\0\0\x80", [1]), (b"tTse", [1]), (b"seTt", [])]
    FORKS.derez("derez of types that are near each other", "derez f", {"f": of_ids(*near)})
    many = codes(300)
    FORKS.derez("derez of a type behind 300 others", "derez f -only Last", {"f": of_ids(*[(kind, []) for kind in many], ("Last", [1]))})
    FORKS.rez("include a type behind 300 others", include("f", "Last", Id(1)),
              f=of_ids(*[(kind, []) for kind in many], ("Last", [1])))
    for name, position, kinds in [
            ("a type twice in a row", 1, [b"Test", b"Test", b"Last"]),
            ("a type three times", 2, [b"Test", b"Last", b"Test", b"Test"]),
            ("two types twice, one within the other", 2, [b"Test", b"Last", b"Last", b"Test"]),
            ("two types twice in turn", 2, [b"Test", b"Last", b"Test", b"Last"]),
            ("300 types and the first of them again", 300, many + many[:1]),
            ("300 types and the last of them again", 300, many + many[-1:]),
            ("a type twice among 300", 200, many[:200] + many[17:18] + many[200:]),
            ("a type twice within others that stand twice", 3, [b"Test", b"Last", b"More", b"More", b"Last", b"Test"]),
            ("the type of zeros twice", 2, [b"\0\0\0\0", b"Test", b"\0\0\0\0"]),
            ("the last type twice", 2, [b"\xFF\xFF\xFF\xFF", b"Test", b"\xFF\xFF\xFF\xFF"])]:
        FORKS.derez("derez of " + name, "derez f", {"f": of_ids(*[(kind, []) for kind in kinds])},
                    err="error 410 Repeated: %d %d" % (290 + 8 * position, int.from_bytes(kinds[position], "big")))
    FORKS.say("Types come before ids, names before types, and bytes before names.")
    twice = of_ids(("Test", [1, 1]), ("Last", []), ("Test", [1]))
    FORKS.derez("derez of a type twice behind an id twice", "derez f", {"f": twice}, err="error 410 Repeated: 306 1415934836")
    FORKS.rez("include from a fork with a type twice, of which one has no references", include("f"),
              f=of_ids(("Test", []), ("Test", [1])), err="410 Repeated: 298 1415934836")
    FORKS.rez("begin with a fork with a type twice", NOTHING, words="rez s.r -a -o x", x=twice,
              err="error 410 Repeated: 306 1415934836")
    outside = laid(*each(("Test", [reference(1, 0, 0)]), ("Test", [reference(1)])), names=b"\5name")
    FORKS.derez("derez of a name outside and a type twice", "derez f", {"f": outside}, err="error 409 NameOutside: 330 0")
    outside = laid(*each(("Test", [reference(1, 0, 0)]), ("Last", [reference(1, 1)])), names=b"\5name")
    FORKS.derez("derez of bytes outside behind a name outside", "derez f", {"f": outside}, err="error 408 DataOutside: 257 0")
