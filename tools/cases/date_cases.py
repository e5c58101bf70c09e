"""Writes dates.cases: the numbers and strings of the date and the time, by the calendar of Python's datetime alone.

It knows nothing of the code. Bytes and shown text are put together here of the moment's parts, and each fault is
written by hand.
"""
from datetime import datetime, timedelta

from casefile import Book, one, pascal
from model.fork import image

EPOCH = datetime(1970, 1, 1)
BOOK = Book("dates.cases",
            "The numbers and strings of the date and the time, which are those of the moment in universal time.",
            "Written by tools/cases/date_cases.py, by the calendar of Python.")
NOW = datetime(2024, 2, 29, 13, 5, 9)  # a Thursday; no two of its parts are the same
LATER = datetime(2024, 3, 1, 0, 0, 0)
WORDS = ("Year", "Month", "Day", "Hour", "Minute", "Second", "Weekday")


def unix(moment):
    """The seconds since the first one of 1970."""
    return (moment - EPOCH) // timedelta(seconds=1)


def numbers(moment):
    """The seven numbers; isoweekday has Monday as 1 and Sunday as 7."""
    return [moment.year, moment.month, moment.day, moment.hour, moment.minute, moment.second, moment.isoweekday() % 7 + 1]


def date(moment):
    return ("%04d-%02d-%02d" % (moment.year, moment.month, moment.day)).encode()


def time(moment):
    return ("%02d:%02d:%02d" % (moment.hour, moment.minute, moment.second)).encode()


def word(value):
    """A number of 16 bits."""
    return (value % 65536).to_bytes(2, "big")


def rez(name, source, leaves=None, err="", moment=NOW, files=(), words="rez s.r -o x"):
    """A case of `rez`: what it leaves in x, or the line on `err` behind the file's name."""
    BOOK.rez(name, source, leaves, err, files, words, ["moment %d" % unix(moment)])


def refused(name, statement, err="1: error 201 Syntax", files=()):
    """A statement that is refused."""
    rez(name, statement + "\n", err=err, files=files)


def derez(name, types, fork, shown, moment=NOW):
    BOOK.derez(name, types, fork, shown, ["moment %d" % unix(moment)])


ALL = """type 'Date' { integer; byte; byte; byte; byte; byte; byte; pstring; pstring; };
resource 'Date' (1) { $$Year, $$Month, $$Day, $$Hour, $$Minute, $$Second, $$Weekday, $$Date, $$Time };
"""


def at(name, *parts):
    """All numbers and strings at a moment."""
    moment = datetime(*parts)
    year, *rest = numbers(moment)
    rez("at " + name, ALL, one(word(year) + bytes(rest) + pascal(date(moment)) + pascal(time(moment)), b"Date"),
        moment=moment)


@BOOK.part()
def checks():
    """What is known of these moments from elsewhere."""
    assert unix(datetime(1904, 1, 1)) == -2082844800 and unix(datetime(2039, 12, 31, 23, 59, 59)) == 2208988799
    assert unix(datetime(2038, 1, 19, 3, 14, 7)) == 2 ** 31 - 1
    assert numbers(EPOCH)[6] == 5 and numbers(datetime(2000, 1, 1))[6] == 7 and numbers(datetime(2024, 12, 1))[6] == 1
    assert numbers(NOW) == [2024, 2, 29, 13, 5, 9, 5] and date(NOW) == b"2024-02-29" and time(NOW) == b"13:05:09"


@BOOK.part("All of them at moments that tell. The years 1900 and 2100, which have no leap day, have no moments.")
def moments():
    row = "type 'Date' { integer; pstring; };\nresource 'Date' (1) { $$Weekday, $$Date };\n"
    rez("at the first second of 1970", row, one(bytes.fromhex("00050A313937302D30312D3031"), b"Date"), moment=EPOCH)
    at("the first second that has a moment", 1904, 1, 1)
    at("the second after it", 1904, 1, 1, 0, 0, 1)
    at("the last second of its day", 1904, 1, 1, 23, 59, 59)
    at("the second before the last", 2039, 12, 31, 23, 59, 58)
    at("the last second that has a moment", 2039, 12, 31, 23, 59, 59)
    at("the first second of its day", 2039, 12, 31)
    at("the last second before 1970", 1969, 12, 31, 23, 59, 59)
    at("the first second of 1970, all of them", 1970, 1, 1)
    at("the last second of 31 bits", 2038, 1, 19, 3, 14, 7)
    at("the first second of 32 bits", 2038, 1, 19, 3, 14, 8)
    for year in (1904, 1972, 2000, 2024, 2036):
        at("the last second of 28 February %d" % year, year, 2, 28, 23, 59, 59)
        at("the first second of the leap day of %d" % year, year, 2, 29)
        at("the last second of the leap day of %d" % year, year, 2, 29, 23, 59, 59)
        at("the first second of March %d" % year, year, 3, 1)
    for year in (1905, 1970, 2023, 2039):
        at("the last second of February %d, a common year" % year, year, 2, 28, 23, 59, 59)
        at("the first second of March %d, a common year" % year, year, 3, 1)
    for year in (1904, 1969, 1999, 2000, 2023, 2038):
        at("the last second of %d" % year, year, 12, 31, 23, 59, 59)
        at("the first second after %d" % year, year + 1, 1, 1)
    for month in range(1, 12):
        at("the first second after month %d of 2025" % month, 2025, month + 1, 1)
        last = datetime(2025, month + 1, 1) - timedelta(seconds=1)
        at("the last second of month %d of 2025" % month, *last.timetuple()[:6])
    for day in range(7):
        at("noon of 2026-08-%02d" % (9 + day), 2026, 8, 9 + day, 12)
    for parts in ((0, 0, 59), (0, 1, 0), (0, 59, 59), (1, 0, 0), (9, 9, 9), (10, 10, 10), (11, 59, 59), (12, 34, 56), (22, 59, 59)):
        at("%02d:%02d:%02d" % parts, 1984, 1, 24, *parts)


@BOOK.part("In the strings of `data`.")
def texts():
    for name, text, content in [
            ("the date", "$$Date", date(NOW)), ("the time", "$$Time", time(NOW)), ("the version", "$$Version", b"V1.0"),
            ("the date in small letters", "$$date", date(NOW)), ("the time in capitals", "$$TIME", time(NOW)),
            ("the version in mixed letters", "$$vErSiOn", b"V1.0"),
            ("all of them among strings", '"on " $$Date " at " $$Time " by " $$Version $"00"',
             b"on " + date(NOW) + b" at " + time(NOW) + b" by V1.0\0"),
            ("twice, and with a semicolon", "$$Date $$Date;", date(NOW) * 2)]:
        rez("data: " + name, "data 'Test' (1) { %s };\n" % text, one(content))
    rez("data: with the name of the resource", "data 'Test' (1, \"n\") { $$Name $$Date };\n", one(b"n" + date(NOW), name=b"n"))
    rez("data: by a macro", "#define stamp $$Date \" \" $$Time\ndata 'Test' (1) { stamp };\n", one(date(NOW) + b" " + time(NOW)))
    rez("data: one moment for all statements", "data 'Test' (1) { $$Time };\ndata 'Test' (2) { $$Time };\n",
        image([(b"Test", 1, b"", 0, time(NOW)), (b"Test", 2, b"", 0, time(NOW))]))
    refused("data: a number isn't a string", "data 'Test' (1) { $$Year };")
    refused("data: nor is a number behind a string", "data 'Test' (1) { \"a\" $$Day };")


@BOOK.part("In items.")
def items():
    for name, value in zip(WORDS, numbers(NOW)):
        rez("item: $$%s" % name, "type 'Test' { integer; };\nresource 'Test' (1) { $$%s };\n" % name, one(word(value)))
    rez("item: in small letters", "type 'Test' { integer; };\nresource 'Test' (1) { $$weekday };\n", one(word(5)))
    rez("item: a sum", "type 'Test' { longint; };\nresource 'Test' (1) { $$Year * 10000 + $$Month * 100 + $$Day };\n",
        one((20240229).to_bytes(4, "big")))
    rez("item: with those of the resource", "type 'Test' { integer; };\nresource 'Test' (100) { $$ID + $$Second };\n",
        one(word(109), ident=100))
    rez("item: in a point, in rows and in a case",
        "type 'Test' { point; array { byte; }; switch { case On: key byte = 1; byte; }; };\n"
        "resource 'Test' (1) { {$$Hour, -$$Minute}, { $$Month, $$Day, $$Month }, On { $$Second } };\n",
        one(word(13) + word(-5) + bytes([2, 29, 2, 1, 9])))
    rez("item: beside symbols", "type 'Test' { byte day = 1, second; };\nresource 'Test' (1) { day + $$Second };\n",
        one(bytes([10])))
    for name, text, content in [("the date", "$$Date", date(NOW)), ("the time", "$$Time", time(NOW)),
                                ("the version", "$$Version", b"V1.0"),
                                ("all of them among strings", '"(" $$Date "," $$Time "," $$Version ")"',
                                 b"(" + date(NOW) + b"," + time(NOW) + b",V1.0)")]:
        rez("item: " + name, "type 'Test' { pstring; };\nresource 'Test' (1) { %s };\n" % text, one(pascal(content)))
    rez("item: a date that is cut, and one that is filled",
        "type 'Test' { string[7]; cstring[12]; };\nresource 'Test' (1) { $$Date, $$Date };\n",
        one(date(NOW)[:7] + date(NOW) + b"\0\0"))
    for name, field, item, says in [
            ("a year in a byte", "byte", "$$Year", "207 OutOfRange: 2024"), ("a date for a number", "integer", "$$Date", "206 WrongKind: 1"),
            ("a year for a string", "pstring", "$$Year", "206 WrongKind: 1"), ("a version for a char", "char", "$$Version", "216 TextTooLong: 4"),
            ("a divisor that is zero now", "byte", "1 / ($$Second - 9)", "211 ZeroDivisor"),
            ("a count that is none now", "byte", "1 << $$Hour + 20", "215 BadShift: 33")]:
        rez("item: " + name, "type 'Test' { %s; };\nresource 'Test' (1) { %s };\n" % (field, item), err="2: error " + says)
    for name, item in [("a date in a sum", "$$Date + 1"), ("a year behind a string", '"a" $$Year'), ("a year before one", '$$Year "a"')]:
        rez("item: " + name, "type 'Test' { integer; };\nresource 'Test' (1) { %s };\n" % item, err="2: error 201 Syntax")


@BOOK.part("In types.")
def types():

    def made(name, fields, content, items="", moment=NOW):
        rez("type: " + name, "type 'Test' { %s };\nresource 'Test' (1) { %s };\n" % (fields, items), one(content), moment=moment)

    for name, value in zip(WORDS, numbers(NOW)):
        made("a fixed $$%s" % name, "integer = $$%s;" % name, word(value))
    made("a fixed sum", "unsigned longint = ($$Hour * 60 + $$Minute) * 60 + $$Second;", (47109).to_bytes(4, "big"))
    made("a fixed point and rectangle", "point = {$$Hour, $$Minute}; rect = {$$Year, $$Month, $$Day, $$Weekday};",
         b"".join(word(each) for each in (13, 5, 2024, 2, 29, 5)))
    made("a fixed number with rows", "integer = $$CountOf(Rows) + $$Day; array Rows { byte; };", word(31) + b"\1\2", "{ 1, 2 }")
    made("a fixed date", "pstring = $$Date;", pascal(date(NOW)))
    made("a fixed time", "cstring = $$Time;", time(NOW) + b"\0")
    made("a fixed version", "string = $$Version;", b"V1.0")
    made("fixed strings around them", 'wstring = "on " $$Date " at " $$Time ", " $$Version;',
         word(31) + b"on " + date(NOW) + b" at " + time(NOW) + b", V1.0")
    made("a fixed date that is cut", "string[4] = $$Date;", b"2024")
    made("a fixed date at another moment", "pstring = $$Date;", pascal(date(LATER)), moment=LATER)
    made("a size", "string[$$Weekday];", b"abc\0\0", '"abc"')
    made("a size that cuts", "pstring[$$Month];", b"\2ab", '"abc"')
    made("a fixed string with a size", "cstring[$$Second] = \"day\";", b"day" + bytes(6))
    for name, fields, says in [
            ("a fixed year in a byte", "byte = $$Year;", "207 OutOfRange: 2024"), ("a zero divisor", "byte = 1 / ($$Second - 9);", "211 ZeroDivisor"),
            ("a shift", "byte = 1 << $$Hour + 20;", "215 BadShift: 33"), ("a size that can't be", "pstring[$$Year] = \"a\";", "207 OutOfRange: 2024"),
            ("a negative size", "string[-$$Day] = \"a\";", "207 OutOfRange: -29")]:
        rez("type: " + name, "type 'Test' { %s };\nresource 'Test' (1) { };\n" % fields, err="2: error " + says)
    for name, fields in [("a width", "bitstring[$$Day];"), ("a number of rows", "array [$$Day] { byte; };"), ("a count of fill", "fill byte[$$Day];"),
                         ("a symbol", "byte day = $$Day;"), ("a key", "switch { case A: key byte = $$Day; };"),
                         ("a date as a fixed number", "integer = $$Date;"), ("a date as a fixed char", "char = $$Date;"),
                         ("a year as a fixed string", "pstring = $$Year;"), ("a date as a size", "string[$$Date];")]:
        refused("type: no " + name, "type 'Test' { %s };" % fields)
    refused("type: no id of a scope", "type 'Test' ($$Day) { byte; };")
    refused("type: no id of a copy", "type 'Test' as 'Else' ($$Day);")


@BOOK.part("In the headers of new resources.")
def heads():
    for name, value in zip(WORDS, numbers(NOW)):
        rez("head: the id is $$%s" % name, "data 'Test' ($$%s) { \"a\" };\n" % name, one(b"a", ident=value))
    rez("head: a name and attributes", "data 'Test' (1, $$Date, $$Month | $$Hour) { };\n", one(b"", name=date(NOW), attr=15))
    rez("head: a name of all of them", "data 'Test' (1, \"at \" $$Time \" of \" $$Date \" by \" $$Version) { };\n",
        one(b"", name=b"at " + time(NOW) + b" of " + date(NOW) + b" by V1.0"))
    rez("head: of a resource statement", "type 'Test' { integer; pstring; };\nresource 'Test' ($$Year - 1904, $$Time, $$Second) { $$ID, $$Name };\n",
        one(word(120) + pascal(time(NOW)), ident=120, name=time(NOW), attr=9))
    rez("head: of a read statement", "read 'Test' ($$Day, $$Date, $$Minute) \"f\";\n", one(b"held", ident=29, name=date(NOW), attr=5),
        files=[("f", b"held")])
    refused("head: an id that is too large", "data 'Test' ($$Year * 100) { };", "1: error 204 BadId: 202400")
    refused("head: an attribute that is too large", "data 'Test' (1, $$Year) { };", "1: error 207 OutOfRange: 2024")
    refused("head: a name that is too long", "data 'Test' (1, %s) { };" % " ".join(["$$Date"] * 26), "1: error 216 TextTooLong: 260")
    refused("head: a zero divisor", "data 'Test' (1 / ($$Second - 9)) { };", "1: error 211 ZeroDivisor")
    for word_ in ("$$ID", "$$Type", "$$Attributes"):
        refused("head: no id by %s" % word_, "data 'Test' (%s) { };" % word_)
        refused("head: no attribute by %s" % word_, "data 'Test' (1, %s + $$Day) { };" % word_)
    refused("head: no $$Name", "data 'Test' (1, $$Name) { };")
    refused("head: no $$Name behind the date", "data 'Test' (1, $$Date $$Name) { };")
    refused("head: no $$Name of a resource statement", "resource 'Test' (1, $$Name) { };")
    refused("head: no $$ID of a read statement", "read 'Test' ($$ID) \"f\";", files=[("f", b"held")])
    refused("head: no $$Name of a read statement", "read 'Test' (1, $$Name) \"f\";", files=[("f", b"held")])
    refused("head: no date as an id", "data 'Test' ($$Date) { };")


@BOOK.part("In picks, and in headers after `as` and `to`.")
def lists():
    test, day, named = (b"Test", 1, b"old", 0x20, b"a"), (b"Test", 29, b"", 0, b"b"), (b"Test", 3, date(NOW), 0, b"c")
    files = [("f", image([test, day, named]))]
    base = [("x", image([test, day, named]))]
    for name, pick, chosen in [("one id", "$$Day", [day]), ("a range", "$$Month:$$Day", [day, named]), ("a name", "$$Date", [named])]:
        rez("pick: " + name, "include \"f\" 'Test' (%s);\n" % pick, image(chosen), files=files)
        rez("pick: delete, " + name, "delete 'Test' (%s);\n" % pick, image([each for each in (test, day, named) if each not in chosen]),
            files=base, words="rez s.r -o x -a")
    refused("pick: none with this id", "include \"f\" 'Test' ($$Hour);", "1: error 218 NoSuchResource: 'Test' 13", files)
    refused("pick: none with this name", "include \"f\" 'Test' ($$Time);", "1: error 218 NoSuchResource: \"13:05:09\"", files)
    refused("pick: an id that is too large", "include \"f\" 'Test' ($$Year << 5);", "1: error 204 BadId: 64768", files)
    refused("pick: no $$ID", "include \"f\" 'Test' ($$ID);", files=files)
    refused("pick: no $$Name", "include \"f\" 'Test' ($$Name);", files=files)
    refused("pick: no $$Name behind the date", "include \"f\" 'Test' ($$Date $$Name);", files=files)
    rez("as: with the date", "include \"f\" 'Test' (1) as 'Last' ($$Day, $$Name \" of \" $$Date, $$Attributes | $$Month);\n",
        one(b"a", b"Last", 29, b"old of " + date(NOW), 0x22), files=files)
    rez("as: with the time and the version", "include \"f\" 'Test' (1) as 'Last' ($$ID + $$Year, $$Version \" \" $$Time);\n",
        one(b"a", b"Last", 2025, b"V1.0 " + time(NOW), 0x20), files=files)
    rez("to: with the date", "change 'Test' (1) to 'Last' ($$ID + $$Weekday, $$Date, $$Minute);\n",
        image([(b"Last", 6, date(NOW), 5, b"a"), day, named]), files=base, words="rez s.r -o x -a")
    refused("no date as the name of a file", "include $$Date;")
    refused("nor as that of a read statement", "read 'Test' (1) $$Date;")


@BOOK.part("What derez shows.")
def shown():
    stamped = one(pascal(date(NOW)) + b"\7")
    types = "type 'Test' { pstring = $$Date; byte; };"
    resource = "resource 'Test' (1) {\n    7\n};\n\n"
    data = "data 'Test' (1) {\n    $\"0A32 3032 342D 3032 2D32 3907\"\n};\n\n"
    derez("derez: a fixed date of the same moment", types, stamped, resource)
    derez("derez: a fixed date later on the same day", types, stamped, resource, NOW.replace(hour=23, minute=59, second=59))
    derez("derez: a fixed date of another day", types, stamped, data, LATER)
    derez("derez: a fixed time of the same moment", "type 'Test' { pstring = $$Time; };", one(pascal(time(NOW))), "resource 'Test' (1) {\n};\n\n")
    derez("derez: a fixed time a second later", "type 'Test' { pstring = $$Time; };", one(pascal(time(NOW))),
          "data 'Test' (1) {\n    $\"0831 333A 3035 3A30 39\"\n};\n\n", NOW + timedelta(seconds=1))
    derez("derez: a fixed version at any moment", "type 'Test' { cstring = $$Version; };", one(b"V1.0\0"), "resource 'Test' (1) {\n};\n\n", EPOCH)
    derez("derez: a fixed year", "type 'Test' { integer = $$Year; byte; };", one(word(2024) + b"\7"), resource)
    derez("derez: a fixed year of another year", "type 'Test' { integer = $$Year; byte; };", one(word(2024) + b"\7"),
          "data 'Test' (1) {\n    $\"07E8 07\"\n};\n\n", EPOCH)
    derez("derez: a size", "type 'Test' { string[$$Month]; };", one(b"ab"), "resource 'Test' (1) {\n    \"ab\"\n};\n\n")
    derez("derez: a size in another month", "type 'Test' { string[$$Month]; };", one(b"ab"), "data 'Test' (1) {\n    $\"6162\"\n};\n\n", LATER)
    rows = "type 'Test' { integer = $$CountOf(Rows) + $$Day; array Rows { byte; }; };"
    derez("derez: a number that tells rows", rows, one(word(31) + b"\1\2"), "resource 'Test' (1) {\n    {\n        1,\n        2\n    }\n};\n\n")
    derez("derez: a number that tells rows on another day", rows, one(word(31) + b"\1\2"), "data 'Test' (1) {\n    $\"001F 0102\"\n};\n\n", LATER)
    derez("derez: dates that were items are strings", "type 'Date' { integer; pstring; };", one(word(5) + pascal(b"1970-01-01"), b"Date"),
          "resource 'Date' (1) {\n    5,\n    \"1970-01-01\"\n};\n\n")
    for name, moment in (("the same moment", NOW), ("another day", LATER)):
        rez("again: what was shown with a fixed date, at " + name, types + "\n" + resource, one(pascal(date(moment)) + b"\7"), moment=moment)
