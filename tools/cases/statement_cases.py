"""Writes statements.cases: the form of each statement, what it means, what is no statement, and the rules of fields.

The tables below have sources, in which `|` is a line end and `«TEXT×N»` is TEXT N times, and after ` => ` by hand what
comes: the resources of the fork, as comments of tools/model/fork.py name them, with ` & ` between them, `nothing`, or a
fault with what it keeps, after its line and a colon where that isn't the first. After ` SHOWS ` stand the items that
`derez` shows of the first resource, with `¶` between their lines.
"""
import re

from casefile import Book, expanded, resources_of
from model import shown
from statement_texts import DATA, RESOURCES, TYPES
from model.fork import image

BOOK = Book("statements.cases", "The form of each statement, what it means, and what is no statement.",
            "Written by tools/cases/statement_cases.py, where all that comes stands by hand.")

INCLUDES = r"""
// of a file all resources, all but those of a type, or those of a type
include "File"; => 'Test' -1 = A0 & 'Test' 1 "name" 10 = A1 & 'Test' 2 = A2 & 'Test' 128 "Name" = A3 & 'tEST' 1 "name" = B1
INCLUDE "Fi" $"6C" "e"; => 'Test' -1 = A0 & 'Test' 1 "name" 10 = A1 & 'Test' 2 = A2 & 'Test' 128 "Name" = A3 & 'tEST' 1 "name" = B1
include "File" not 'Test'; => 'tEST' 1 "name" = B1 ‖ include "" NOT 'tEST'; => 101 MissingFile: ""
include "File" NOT 'tEST'; => 'Test' -1 = A0 & 'Test' 1 "name" 10 = A1 & 'Test' 2 = A2 & 'Test' 128 "Name" = A3
include "File" 'Test'; => 'Test' -1 = A0 & 'Test' 1 "name" 10 = A1 & 'Test' 2 = A2 & 'Test' 128 "Name" = A3
include "File" 'Test' (128); => 'Test' 128 "Name" = A3
include "File" 'Test' (-1 : 2 * (3 + 4)); => 'Test' -1 = A0 & 'Test' 1 "name" 10 = A1 & 'Test' 2 = A2
include "File" 'Test' (!false : TRUE + 1); => 'Test' 1 "name" 10 = A1 & 'Test' 2 = A2
include "File" 'Test' ("name"); ‖ include "File" 'Test' ("na" $"6D" "e"); => 'Test' 1 "name" 10 = A1
// as resources of another type, and one with another head
include "File" 'Test' as 'Othe'; => 'Othe' -1 = A0 & 'Othe' 1 "name" 10 = A1 & 'Othe' 2 = A2 & 'Othe' 128 "Name" = A3
include "File" 'Test' (1:2) AS 'Othe'; => 'Othe' 1 "name" 10 = A1 & 'Othe' 2 = A2
include "File" 'Test' (1) as 'Othe'; ‖ include "File" 'Test' ("name") as 'Othe'; => 'Othe' 1 "name" 10 = A1
include "File" 'Test' (1) as 'Othe' (2); => 'Othe' 2 "name" 10 = A1
include "File" 'Test' ("name") as 'Othe' (2, "new", locked, 3); => 'Othe' 2 "new" 03 = A1
// such a head may speak of the resource
include "File" 'Test' (1) as 'Othe' ($$ID + 1); => 'Othe' 2 "name" 10 = A1
include "File" 'Test' (1) as 'Othe' ($$Type + 2, $$Name); => 204 BadId: 1415934838
include "File" 'Test' (1) as 'Othe' ($$Type - 1415934834, $$Name); => 'Othe' 2 "name" 10 = A1
include "File" 'Test' (1) as 'Othe' (3, "new " $$NAME, $$Attributes, unlocked); => 'Othe' 3 "new name" = A1
// no `include`
include 'Test'; ‖ include not 'Test'; ‖ include 'Test' "File"; ‖ include "File" ‖ include "File" 'Test' => 201 Syntax
include "File" 'Test' (1) ‖ include "File" 'Test' (1) as 'Othe' => 201 Syntax
include "File" 'Test' (1) as 'Othe' (2) ‖ include "File" 'Tes'; ‖ include "File" not; => 201 Syntax
include "File" not 'Test' (1); ‖ include "File" not 'Test' as 'Othe'; ‖ include "File" (1); => 201 Syntax
include "File" 'Test' (); ‖ include "File" 'Test' (1:2:3); ‖ include "File" 'Test' (1, 2); => 201 Syntax
include "File" 'Test' (1:); ‖ include "File" 'Test' ("a" : "b"); ‖ include "File" 'Test' (x); => 201 Syntax
include "File" 'Test' (1 : locked); ‖ include "File" 'Test' ($$ID); => 201 Syntax
include "File" 'Test' (1 : $$Type); ‖ include "File" 'Test' ($$Name); => 201 Syntax
include "File" 'Test' ("a" $$Name); ‖ include "File" 'Test' as 'Othe' (1); => 201 Syntax
include "File" 'Test' (1:2) as 'Othe' (1); ‖ include "File" 'Test' (1) to 'Othe'; => 201 Syntax
include "File" 'Test' (1) as; ‖ include "File" 'Test' (1) as 'Othe' (); => 201 Syntax
include "File" 'Test' (1) as 'Othe' ("n"); ‖ include "File" 'Test' (1) as 'Othe' (x); => 201 Syntax
include "File" 'Test' (1) as 'Othe' (2) (3); ‖ include "File" 'Test' 'Othe'; => 201 Syntax
"""

READS = r"""
// the bytes of a file as a new resource
read 'Test' (128) "File"; => 'Test' 128 = 4142
READ 'tEST' (1 + 1, "na" "me", locked, 3) "Fi" "le"; => 'tEST' 2 "name" 03 = 4142 ‖ read; => 201 Syntax
read 'Test' (1) "File" ‖ read 'Test' "File"; ‖ read 'Test' () "File"; ‖ read 'Test' (1:2) "File"; => 201 Syntax
read 'Test' ("name") "File"; ‖ read 'Test' (x) "File"; ‖ read 'Test' ($$ID) "File"; => 201 Syntax
read 'Test' (1, $$Name) "File"; ‖ read 'Test' (1, $$Attributes) "File"; ‖ read 'Test' (1) 'File'; => 201 Syntax
read 'Test' (1) "File" 'Test'; ‖ read "File" 'Test' (1); => 201 Syntax
"""

CHANGES = r"""
// resources with another type, and one with another head
change 'Test' to 'Othe'; => 'Othe' -1 = A0 & 'Othe' 1 "name" 10 = A1 & 'Othe' 2 = A2 & 'Othe' 128 "Name" = A3 & 'tEST' 1 "name" = B1
change 'Test' (1) to 'Othe'; => 'Test' -1 = A0 & 'Othe' 1 "name" 10 = A1 & 'Test' 2 = A2 & 'Test' 128 "Name" = A3 & 'tEST' 1 "name" = B1
CHANGE 'Test' (1:2) TO 'Othe'; => 'Test' -1 = A0 & 'Othe' 1 "name" 10 = A1 & 'Othe' 2 = A2 & 'Test' 128 "Name" = A3 & 'tEST' 1 "name" = B1
change 'Test' ("name") to 'Othe'; => 'Test' -1 = A0 & 'Othe' 1 "name" 10 = A1 & 'Test' 2 = A2 & 'Test' 128 "Name" = A3 & 'tEST' 1 "name" = B1
change 'Test' ("na" "me") to 'Othe' (2); => 'Test' -1 = A0 & 'Othe' 2 "name" 10 = A1 & 'Test' 2 = A2 & 'Test' 128 "Name" = A3 & 'tEST' 1 "name" = B1
change 'Test' (1) to 'Test' (2, "new", purgeable); => 'Test' -1 = A0 & 'Test' 2 "new" 20 = A1 & 'Test' 128 "Name" = A3 & 'tEST' 1 "name" = B1
change 'Test' (1) to 'Test' ($$ID + 1, $$Name, $$Type + 2, $$Attributes); => 207 OutOfRange: 1415934838
change 'Test' (1) to 'Test' ($$ID + 8, $$Name, $$Type - 1415934834, $$Attributes); => 'Test' -1 = A0 & 'Test' 9 "name" 10 = A1 & 'Test' 2 = A2 & 'Test' 128 "Name" = A3 & 'tEST' 1 "name" = B1
change; ‖ change 'Test'; ‖ change 'Test' (1); ‖ change 'Test' to; ‖ change (1) to 'Othe'; => 201 Syntax
change 'Test' (1) to 'Othe' ‖ change 'Test' (1) to 'Othe' (2) ‖ change 'Test' (1) as 'Othe'; => 201 Syntax
change 'Test' to 'Othe' (1); ‖ change 'Test' (1:2) to 'Othe' (1); ‖ change 'Test' (x) to 'Othe'; => 201 Syntax
change 'Test' ($$ID) to 'Othe'; ‖ change 'Test' (1) to 'Othe' (x); ‖ change 'Test' (1) to 'Othe' "name"; => 201 Syntax
// resources that go
delete 'Test'; => 'tEST' 1 "name" = B1
delete 'Test' (1); => 'Test' -1 = A0 & 'Test' 2 = A2 & 'Test' 128 "Name" = A3 & 'tEST' 1 "name" = B1
Delete 'tEST' (1:2); => 'Test' -1 = A0 & 'Test' 1 "name" 10 = A1 & 'Test' 2 = A2 & 'Test' 128 "Name" = A3
delete 'Test' ("name"); => 'Test' -1 = A0 & 'Test' 2 = A2 & 'Test' 128 "Name" = A3 & 'tEST' 1 "name" = B1
delete 'Test' ("na" $"6D65"); => 'Test' -1 = A0 & 'Test' 2 = A2 & 'Test' 128 "Name" = A3 & 'tEST' 1 "name" = B1
delete; ‖ delete 'Test' ‖ delete 'Test' (1) ‖ delete 'Test' (); ‖ delete 'Test' (x); => 201 Syntax
delete 'Test' ($$ID); ‖ delete 'Test' (1) to 'Othe'; ‖ delete 'Test', 'Othe'; ‖ delete not 'Test'; => 201 Syntax
delete "File"; ‖ deletes 'Test'; ‖ "delete" 'Test'; => 201 Syntax
// ids without a value
delete 'Test' (1 / 0 : 1 << 32); => 211 ZeroDivisor ‖ delete 'Test' (1 : 1 << 32); => 215 BadShift: 32
// the mark is that of the first token
||delete|'Test' => 3: 201 Syntax
"""

RULES = r"""
// widths are 1 to 32
type 'Test' { bitstring[-1]; }; => 238 BadWidth: -1 ‖ type 'Test' { bitstring[0]; }; => 238 BadWidth: 0
type 'Test' { bitstring[1]; }; ‖ type 'Test' { bitstring[32]; }; => nothing
type 'Test' { bitstring[33]; }; => 238 BadWidth: 33
// other numbers have their own width
type 'Test' { byte; }; ‖ type 'Test' { boolean; }; ‖ type 'Test' { longint; }; => nothing
// fills are no longer than a resource
type 'Test' { fill bit[-1]; }; => 238 BadWidth: -1
type 'Test' { fill bit[0]; }; resource 'Test' (1) { }; => 'Test' 1
type 'Test' { fill bit[16777212]; }; resource 'Test' (1) { }; => 'Test' 1 = 00*2097152
type 'Test' { fill bit[16777213]; }; => 238 BadWidth: 16777213
type 'Test' { fill bit[2147483647]; }; => 238 BadWidth: 2147483647
// sizes are those of the type
type 'Test' { string[-1]; }; => 238 BadWidth: -1 ‖ type 'Test' { string[0]; }; => nothing
type 'Test' { string[2147483647]; }; => nothing ‖ type 'Test' { pstring[-1]; }; => 238 BadWidth: -1
type 'Test' { pstring[0]; }; ‖ type 'Test' { pstring[255]; }; => nothing
type 'Test' { pstring[256]; }; => 238 BadWidth: 256 ‖ type 'Test' { wstring[-1]; }; => 238 BadWidth: -1
type 'Test' { wstring[65535]; }; => nothing ‖ type 'Test' { wstring[65536]; }; => 238 BadWidth: 65536
type 'Test' { cstring[-1]; }; => 238 BadWidth: -1 ‖ type 'Test' { cstring[0]; }; => 238 BadWidth: 0
type 'Test' { cstring[1]; }; => nothing
// a size is tested here only if it is a constant
type 'Test' { pstring[2 * 128]; }; => 238 BadWidth: 256 ‖ type 'Test' { pstring[256 / 0]; }; => nothing
type 'Test' { cstring[FALSE]; }; => 238 BadWidth: 0 ‖ type 'Test' { cstring[$$ID]; }; => nothing
// the first field counts
type 'Test' { align byte; rect; cstring[0]; bitstring[33]; }; => 238 BadWidth: 0
// a body without fields
type 'Test' { }; => nothing
// stated rows are at most 1,048,576
type 'Test' { array [0] { byte; }; }; ‖ type 'Test' { array [1048576] { byte; }; }; => nothing
type 'Test' { array [1048577] { byte; }; }; => 238 BadWidth: 1048577
type 'Test' { array [2147483647] { byte; }; }; => 238 BadWidth: 2147483647
// also in a row of a row
type 'Test' { array { byte; }; array { array { byte; bitstring[33]; }; }; }; => 238 BadWidth: 33
// an index is of a label that stands directly in the rows of an array, of this body or of one around
type 'Test' { byte = p[1] / 8; array { p: byte; }; }; => nothing
type 'Test' { array { p: byte; }; array { byte = P[2] / 8; byte; }; }; => nothing
type 'Test' { array { byte = p[1] / 8; p: byte; }; }; => nothing
type 'Test' { array { p: byte; }; byte = p; }; => 212 UnknownLabel: "p"
type 'Test' { array { array { p: byte; }; }; byte = p[1]; }; => 212 UnknownLabel: "p"
type 'Test' { array { switch { case A: key byte = 1; p: byte; }; }; byte = p[1]; }; => 212 UnknownLabel: "p"
type 'Test' { p: byte = p[1]; }; => 212 UnknownLabel: "p"
// the label comes before its index
type 'Test' { byte = p[q]; }; => 212 UnknownLabel: "p"
type 'Test' { byte = p[q]; array { p: byte; }; }; => 212 UnknownLabel: "q"
// the number of a row is asked of an array around
type 'Test' { array a { byte = $$ArrayIndex(A); byte; }; }; => nothing
type 'Test' { array a { array [2] { byte = $$ArrayIndex(a); byte; }; }; }; => nothing
type 'Test' { array a { switch { case A: key byte = 1; byte = $$ArrayIndex(a); }; }; }; => nothing
type 'Test' { array rows { byte; }; integer = $$ArrayIndex(rows); }; => 212 UnknownLabel: "rows"
type 'Test' { array { array b { byte; }; byte = $$ArrayIndex(b); }; }; => 212 UnknownLabel: "b"
// labels differ in all bodies
type 'Test' { array { p: byte; }; array { P: byte; }; }; => 230 LabelTwice: "P"
"""

SCOPES = r"""
// the last declaration with the id counts, else the last whose range has it, else the one for any id
resource 'ICON' (1) { }; => 'ICON' 1 = 00*7 ‖ resource 'ICON' (4) { }; => 'ICON' 4 = 00*6
resource 'ICON' (8) { }; => 'ICON' 8 = 00*7 ‖ resource 'ICON' (9) { }; => 'ICON' 9 = 00*5
resource 'ICON' (10) { }; => 'ICON' 10 = 00*3 ‖ resource 'ICON' (15) { }; => 'ICON' 15 = 00*3
resource 'ICON' (16) { }; => 'ICON' 16 = 00 ‖ resource 'ICON' (-32768) { }; => 'ICON' -32768 = 00
resource 'ICON' (32767) { }; => 'ICON' 32767 = 00
// none of another type does
resource 'MENU' (1) { }; => 202 NoType: 'MENU' 1 ‖ resource 'MENU' (4) { }; => 202 NoType: 'MENU' 4
resource 'MENU' (8) { }; => 202 NoType: 'MENU' 8 ‖ resource 'MENU' (9) { }; => 202 NoType: 'MENU' 9
resource 'MENU' (10) { }; => 202 NoType: 'MENU' 10 ‖ resource 'MENU' (15) { }; => 202 NoType: 'MENU' 15
resource 'MENU' (16) { }; => 202 NoType: 'MENU' 16 ‖ resource 'MENU' (-32768) { }; => 202 NoType: 'MENU' -32768
resource 'MENU' (32767) { }; => 202 NoType: 'MENU' 32767
// copies are of the declaration that counts
type 'Copy' as 'ICON'; resource 'Copy' (1) { }; => 'Copy' 1 = 00
type 'Copy' as 'ICON' (4); resource 'Copy' (1) { }; => 'Copy' 1 = 00*6
type 'MENU' (-5) { fill byte[9]; }; type 'Copy' as 'MENU' (-5); resource 'Copy' (1) { }; => 'Copy' 1 = 00*9
type 'MENU' (-5) { fill byte[9]; }; type 'Copy' as 'MENU'; => 239 NoSuchType: 'MENU' 0
type 'MENU' (-5) { fill byte[9]; }; type 'Copy' as 'MENU' (-6); => 239 NoSuchType: 'MENU' -6
// all parts are copied
type 'ALL ' { unsigned hex byte one = 1; unsigned hex byte = -$$ID; hex string[2] = "ab"; point = {1, $$Type}; align word; };|type 'Copy' as 'ALL ';|resource 'Copy' (3) { one }; => 3: 207 OutOfRange: 1131376761
type 'ALL ' { unsigned hex byte one = 1; unsigned hex byte = -$$ID; hex string[2] = "ab"; point = {1, $$ID}; byte; align word; }; type 'Copy' as 'ALL '; resource 'Copy' (3) { 2, 4 }; => 'Copy' 3 = 02 FD 6162 0001 0003 04 00 SHOWS 0x02,¶4
type 'ALL ' { unsigned hex byte one = 1; unsigned hex byte = -$$ID; hex string[2] = "ab"; point = {1, $$ID}; byte; align word; }; type 'Copy' as 'ALL '; resource 'Copy' (4) { one, 5 }; => 'Copy' 4 = 01 FC 6162 0001 0004 05 00 SHOWS one,¶5
"""

LIMITS = r"""
// 64 brackets may be open, of whatever kind, and 60 in a type statement
x «{×64»«]×64»; => 201 Syntax ‖ x «[×65»«}×65»; => 221 TooDeep ‖ TYPE «{×60»«}×60»; => 201 Syntax
TYPE «{×61»«}×61»; => 221 TooDeep
// 1,024 tokens side by side without one of { } , ;
data 'Test' (1« + 1×509») { }; => 'Test' 510 ‖ data 'Test' (1« + 1×510») { }; => 221 TooDeep
"""


# What the run of a table has beside its source, and its words.
FILE = """'Test' -1 = A0 & 'Test' 1 "name" 10 = A1 & 'Test' 2 = A2 & 'Test' 128 "Name" = A3 & 'tEST' 1 "name" = B1"""

DECLARED = """type 'ICON' { fill byte[1]; };
type 'ICON' (1:9) { fill byte[2]; };
type 'ICON' (5:15) { fill byte[3]; };
type 'ICON' (4) { fill byte[4]; };
type 'ICON' (1:9) { fill byte[5]; };
type 'ICON' (4) { fill byte[6]; };
type 'ICON' (1:8) { fill byte[7]; };
type 'ICON' (20:10) { fill byte[8]; };
"""
AGAIN = """rezkit: t.r:5: warning 240 Redeclared: 'ICON' 1
rezkit: t.r:6: warning 240 Redeclared: 'ICON' 4
"""


def shown_text(resource, items):
    """The text of a resource of which these items are shown."""
    lines = [shown.head_text("resource", resource)] + ["    " + line for line in items.split("¶")] + ["};", "", ""]
    return "\n".join(lines)


def row(line, words="rez s.r -o x", files=()):
    """The case of a row, whose name is its text, and one of what is shown. Its run has these files beside the source."""
    text, wanted = line.split(" => ")
    source, (wanted, _, items) = expanded(text).replace("|", "\n"), wanted.partition(" SHOWS ")
    fault = re.fullmatch("(?:([0-9]+): )?([0-9]{3} .*)", wanted)
    if fault:
        files = () if fault[2] == "201 Syntax" else files
        return BOOK.refused(text, words, "s.r:%s: error %s" % (fault[1] or 1, fault[2]), [("s.r", source), *files])
    resources = resources_of(wanted)
    fork = image(resources)
    room = ["room folder 1 10000000"] * (len(fork) > 900000)
    BOOK.case(text, words, [("s.r", source), *files], room, leaves=[("x", fork)])
    if items:
        BOOK.case("shown: " + text, "derez f s.r", [("f", fork), ("s.r", source)], out=shown_text(resources[0], items))
    return None


@BOOK.part()
def tables():
    fork = image(resources_of(FILE))
    for says, rows, *given in [
            ("`data` statements.", DATA), ("`type` statements, and resources of what they declare.", TYPES),
            ("`resource` statements.", RESOURCES), ("`include` statements.", INCLUDES, "rez s.r -o x", [("File", fork)]),
            ("`read` statements.", READS, "rez s.r -o x", [("File", "AB")]),
            ("`change` and `delete` statements.", CHANGES, "rez s.r -a -o x", [("x", fork)]), ("Rules of fields.", RULES),
            ("Which declaration counts.", SCOPES, "rez -rd t.r s.r -o x", [("t.r", DECLARED)])]:
        BOOK.say(says)
        BOOK.table(rows, lambda line, given=given: row(line, *given))
    BOOK.case("declarations of the same ids", "rez t.r -o x", [("t.r", DECLARED)], leaves=[("x", image([]))], err=AGAIN)


@BOOK.part("The limits of depth and of length.")
def limits():
    BOOK.table(LIMITS, row)
