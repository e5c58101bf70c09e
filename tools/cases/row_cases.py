"""Writes rows.cases: what bytes tell under fields, that it gives the bytes again, and how it is shown.

Each row of the tables has fields, after ` @ ` bytes in hexadecimal, and after ` => ` by hand what comes. In the
tables of rows that is the row: numbers without a sign, a text in quote marks, the numbers of a point in brackets, the
rows of an array in braces with `|` between them, and a case as its name with its row in parentheses; `none` where
there is no row; and `unreadable` where nothing is read under the fields, with items after it that give the bytes. In
the others it is the text of a resource, with `¶` for each line end. `«TEXT×N»` is TEXT N times. What
tools/model/shown.py tells has to be the same.
"""
from casefile import Book, expanded
from model import shown
from model.fork import image
from model.label_reading import read
from model.quoting import quoted
from model.type_files import declarations_of, found, tokens_of

BOOK = Book("rows.cases", "What bytes tell under fields, that it gives the bytes again, and how it is shown.",
    "Written by tools/cases/row_cases.py, where all that comes stands by hand, and is told by tools/model/shown.py.")
NUMBERS = r"""
// the ends of each width
byte; byte; byte; @ 00 80 FF => 0 128 255 ‖ integer; longint; @ FFFF 80000000 => 65535 2147483648
boolean; boolean; boolean; boolean; boolean; boolean; boolean; boolean; @ 81 => 1 0 0 0 0 0 0 1 ‖ char; @ 41 => 65
bitstring[32]; @ FFFFFFFF => 4294967295 ‖ bitstring[1]; bitstring[31]; @ 80000001 => 1 1 ‖ integer; @ 01 => none
longint; @ 010203 => none
// after the last field fewer than eight bits, all of them zero
bitstring[7]; @ FE => 127 ‖ bitstring[1]; @ 80 => 1 ‖ byte; @ 4100 ‖ byte; @ 4180 => none
// fixed numbers, and facts of the resource
byte = 5; integer; @ 05 0102 => 258 ‖ byte = 5; integer; @ 06 0102 => none ‖ byte = -1; byte; @ FF 07 => 7
byte = 300; byte; @ 2C 07 ‖ byte = 1 / 0; byte; @ 00 07 => none ‖ integer = $$ID; byte; @ 0080 07 => 7
longint = $$Type; byte; @ 54657374 07 ‖ byte = $$Attributes; byte; @ 00 07 ‖ byte = true; byte; @ 01 07 => 7
// points and rectangles
point; @ 0001 FFFF => [1 65535] ‖ rect; @ 0028 0014 00F0 01A4 => [40 20 240 420] ‖ point; @ 000100 => none
point = {1, -1}; byte; @ 0001 FFFF 07 => 7 ‖ point = {1, -1}; byte; @ 0001 FFFE 07 => none
rect = {1, 2, 3, $$ID}; byte; @ 0001 0002 0003 0080 07 => 7 ‖ bitstring[4]; point; @ 10 00 10 00 20 => 1 [1 2]
// fill and align
byte; fill byte; byte; @ 01 00 02 => 1 2 ‖ byte; fill byte; byte; @ 01 01 02 => none ‖ fill bit[7]; boolean; @ 01 => 1
fill bit[7]; boolean; @ 03 => none ‖ fill byte[0]; byte; @ 05 ‖ fill long[2]; byte; @ 00000000 00000000 05 => 5
fill long[2]; byte; @ 00000000 00000001 05 ‖ fill long[2]; @ 00000000 0000 => none
byte; align long; byte; @ 01 000000 02 => 1 2 ‖ byte; align long; byte; @ 01 000100 02 => none
align word; byte; @ 07 => 7 ‖ bitstring[4]; align byte; byte; @ F0 01 => 15 1
bitstring[4]; align byte; byte; @ F1 01 => none ‖ byte; align word; @ 01 00 => 1 ‖ byte; align word; @ 01 => none
"""

TEXTS = r"""
// without a size
pstring; @ 00 => "" ‖ pstring; @ 03 414243 => "ABC" ‖ pstring; @ 03 4142 ‖ pstring; @ 02 414243 => none
wstring; @ 0002 4142 => "AB" ‖ wstring; @ 0003 4142 => none ‖ cstring; @ 00 => "" ‖ cstring; @ 414200 => "AB"
cstring; @ 4142 ‖ cstring; @ 41004200 => none ‖ cstring; cstring; @ 41004200 => "A" "B"
string; @ 004100 => "\0x00A\0x00" ‖ string; integer; @ 4142 0001 => "AB" 1 ‖ string; integer; @ 01 => none
string; string[1]; @ 414200 => "AB" "" ‖ string; fill byte; @ 4100 => "A"
// with a size: no longer than it leaves, and filled with zero bytes
string[4]; @ 41420000 => "AB" ‖ string[4]; @ 00000000 => "" ‖ string[4]; @ 41004200 => "A\0x00B"
string[4]; @ 414243 ‖ string[4]; @ 4142430001 => none ‖ string[0]; byte; @ 07 => "" 7 ‖ pstring[3]; @ 02414200 => "AB"
pstring[3]; @ 03414243 => "ABC" ‖ pstring[3]; @ 04414243 ‖ pstring[3]; @ 01414200 => none
pstring[0]; byte; @ 00 07 => "" 7 ‖ wstring[2]; @ 0001 4100 => "A" ‖ wstring[2]; @ 0003 4142 => none
cstring[3]; @ 414200 => "AB" ‖ cstring[3]; @ 410000 => "A" ‖ cstring[3]; @ 410042 ‖ cstring[3]; @ 414243 => none
cstring[1]; @ 00 => "" ‖ cstring[1]; @ 41 => none ‖ string[$$ID - 126]; byte; @ 4142 07 => "AB" 7
// at any bit
bitstring[4]; pstring; @ 101410 => 1 "A" ‖ bitstring[4]; string; @ 141420 => 1 "AB"
bitstring[4]; string; @ 141421 => none
// fixed texts
pstring = "ab"; byte; @ 026162 07 => 7 ‖ pstring = "ab"; byte; @ 026163 07 => none
pstring[3] = "ab"; byte; @ 02616200 07 ‖ string = "ab"; byte; @ 6162 07 => 7
string = "ab"; byte; @ 616263 07 => none ‖ pstring = $$Name; byte; @ 046E616D65 07 => 7
"""

ARRAYS = r"""
// stated
array [2] { byte; }; @ 0102 => {1|2} ‖ array [2] { byte; }; @ 01 ‖ array [2] { byte; }; @ 010203 => none
array [0] { byte; }; byte; @ 05 => {} 5 ‖ array [2] { array [2] { byte; }; }; @ 01020304 => {{1|2}|{3|4}}
array [3] { array [0] { byte; }; }; byte; @ 07 => {{}|{}|{}} 7
array [2] { byte; pstring; }; @ 01 0141 02 00 => {1 "A"|2 ""}
// counted before
integer = $$CountOf(a); array a { pstring; }; @ 0002 0141 024243 => {"A"|"BC"}
integer = $$CountOf(a); array a { pstring; }; @ 0001 => none
integer = $$CountOf(a); array a { pstring; }; @ 0000 => {}
integer = $$CountOf(a); array a { pstring; }; @ 0001 0141 00 => none
integer = $$CountOf(STRINGS); array Strings { byte; }; @ 0001 05 => {5}
integer = $$CountOf(a) - 1; array a { byte; }; @ FFFF => {}
integer = $$CountOf(a) - 1; array a { byte; }; @ 0000 05 => {5}
byte = 2 * $$CountOf(a); array a { byte; }; @ 04 0102 => {1|2}
byte = $$CountOf(a) >> 1; array a { byte; }; @ 01 0102 => {1|2}
byte = 10 + $$CountOf(a); array a { byte; }; @ 0C 0102 => {1|2}
byte = $$CountOf(a); array a { boolean; }; @ 03 A0 => {1|0|1}
byte = $$CountOf(a); array a { boolean; }; @ 03 B0 => none
byte = $$CountOf(a); byte = $$CountOf(a) + 1; array a { byte; }; @ 01 02 05 => {5}
byte = $$CountOf(a); byte = $$CountOf(a) + 1; array a { byte; }; @ 01 03 05 => none
point = {$$CountOf(a), 2 * $$CountOf(a)}; array a { byte; }; @ 0001 0002 05 => {5}
point = {$$CountOf(a), 2 * $$CountOf(a)}; array a { byte; }; @ 0001 0001 05 => none
byte = 4 / $$CountOf(a); array a { byte; }; @ 04 05 => unreadable: { 5 }
byte = ~$$CountOf(a); array a { byte; }; @ FE 05 => unreadable: { 5 }
byte = $$CountOf(a); array a { array [0] { byte; }; }; @ 02 => unreadable: { { }, { } }
// to the end of the resource
array { byte; }; @ 010203 => {1|2|3} ‖ array { byte; }; integer; @ 0102 0003 => {1|2} 3
array { byte; }; integer; @ 03 => none ‖ array { bitstring[7]; }; @ 02 => unreadable: { 1 }
array { bitstring[8]; }; @ 0102 => {1|2} ‖ array { integer; }; @ 000102 => none
integer; integer = 0; pstring; array { pstring; byte; }; byte = 0; @ 0080 0000 0446696C65 044F70656E00 045175697451 00 => 128 "File" {"Open" 0|"Quit" 81}
// rows in rows, each with names of its own
byte = $$CountOf(a); array a { byte = $$CountOf(b); array b { byte; }; }; @ 02 01 05 02 0607 => {{5}|{6|7}}
"""

SWITCHES = r"""
switch { case A: key byte = 1; byte; case B: key byte = 2; pstring; }; @ 01 05 => A(5)
switch { case A: key byte = 1; byte; case B: key byte = 2; pstring; }; @ 02 0141 => B("A")
switch { case A: key byte = 1; byte; case B: key byte = 2; pstring; }; @ 03 05 => none
switch { case A: key byte = 1; byte; case B: key byte = 2; pstring; }; @ 01 => none
switch { case A: key byte = 1; byte; case B: key byte = 2; pstring; }; @ => none
switch { case A: key byte = -1; byte; }; @ FF 05 => A(5) ‖ switch { case A: key byte = 300; byte; }; @ 2C 05 => none
switch { case A: byte; key byte = 1; case B: byte; key byte = 2; pstring; }; @ 07 02 0141 => B(7 "A")
array { switch { case A: key byte = 1; array [2] { byte; }; case B: key byte = 2; cstring; }; }; @ 01 0708 02 414200 => {A({7|8})|B("AB")}
byte = $$CountOf(a); array a { switch { case A: key byte = 1; case B: key byte = 2; }; }; @ 03 01 02 01 => {A()|B()|A()}
integer = $$CountOf(Parts) - 1; array Parts { fill long; rect; switch { case Button: boolean enabled, disabled; key bitstring[7] = 4; pstring; case UserItem: boolean enabled, disabled; key bitstring[7] = 0; fill byte; }; align word; }; @ 0000 00000000 000A0014001E0050 04 024F4B => {[10 20 30 80] Button(0 "OK")}
integer = $$CountOf(Parts) - 1; array Parts { fill long; rect; switch { case Button: boolean enabled, disabled; key bitstring[7] = 4; pstring; case UserItem: boolean enabled, disabled; key bitstring[7] = 0; fill byte; }; align word; }; @ 0000 00000000 000A0014001E0050 04 034E6F21 00 => {[10 20 30 80] Button(0 "No!")}
integer = $$CountOf(Parts) - 1; array Parts { fill long; rect; switch { case Button: boolean enabled, disabled; key bitstring[7] = 4; pstring; case UserItem: boolean enabled, disabled; key bitstring[7] = 0; fill byte; }; align word; }; @ 0000 00000000 000A0014001E0050 05 024F4B => none
integer = $$CountOf(Parts) - 1; array Parts { fill long; rect; switch { case Button: boolean enabled, disabled; key bitstring[7] = 4; pstring; case UserItem: boolean enabled, disabled; key bitstring[7] = 0; fill byte; }; align word; }; @ 0000 00000000 000A0014001E0050 80 00 => {[10 20 30 80] UserItem(1)}
integer = $$CountOf(Parts) - 1; array Parts { fill long; rect; switch { case Button: boolean enabled, disabled; key bitstring[7] = 4; pstring; case UserItem: boolean enabled, disabled; key bitstring[7] = 0; fill byte; }; align word; }; @ FFFF => {}
"""

LABELS = r"""
// of the row itself
integer = $$CountOf(recs); array recs { b: byte = (e - b) / 8; string; e: }; @ 0002 0241 034243 => {"A"|"BC"}
integer = $$CountOf(recs); array recs { b: byte = (e - b) / 8; string; e: }; @ 0002 0241 044243 => none
// of a row by its number, after the array
array [2] { g: byte; }; byte = g[2] / 8; @ AABB 01 => {170|187}
array [2] { g: byte; }; byte = g[2] / 8; @ AABB 00 => none
array [2] { g: byte; h: byte; }; byte = h[1] / 8; @ AABB CCDD 01 => {170 187|204 221}
array [2] { g: byte; h: byte; }; byte = h[1] / 8; @ AABB CCDD 00 => none
array [2] { g: byte; }; byte = g[g[2] / 8 + 1] / 8; @ AABB 01 => {170|187}
array [2] { g: byte; }; byte = g[e / 16]; e: byte; @ AABB 00 07 => {170|187} 7
array [2] { g: byte; }; byte = g[e / 16]; e: byte; @ AABB 08 07 => none
array [2] { g: byte; }; byte = (e - g[2]) / 8; string; e: byte; @ AABB 04 4142 2A => {170|187} "AB" 42
array [2] { g: byte; }; byte = (e - g[2]) / 8; string; e: byte; @ AABB 03 4142 2A => none
array [0] { w: byte; }; byte = w[1]; @ 00 => none
byte = $$CountOf(a); array a { byte = $$CountOf(c); array c { w: byte; }; byte = w[1] / 8; }; @ 02 01 AA 02 02 BBCC 05 => {{170}|{187|204}}
byte = $$CountOf(a); array a { byte = $$CountOf(c); array c { w: byte; }; byte = w[1] / 8; }; @ 02 01 AA 02 02 BBCC 02 => none
// not before the array, and not within
byte = $$CountOf(a); array a { b: byte = b[1] / 8; byte; }; @ 01 01 05 => unreadable: { 5 }
// an index isn't solved
array [2] { g: byte; }; byte = g[e] + e; string; e: byte; @ AABB 00 07 => unreadable
// the number of the row of an array around
byte = $$CountOf(a); array a { array [1] { byte = $$ArrayIndex(a); byte; }; }; @ 02 01AA 02BB => {{170}|{187}}
byte = $$CountOf(a); array a { array [1] { byte = $$ArrayIndex(a); byte; }; }; @ 02 01AA 01BB => none
array a { byte = $$ArrayIndex(a); byte; }; @ 0105 0206 => {5|6}
array a { byte = $$ArrayIndex(a); byte; }; @ 0005 0106 => none
"""

ITEMS = r"""
byte; @ FF =>     -1¶ ‖ unsigned decimal byte; @ FF =>     255¶ ‖ unsigned hex bitstring[5]; @ F0 =>     0x1E¶
octal longint; @ FFFFFFFF =>     037777777777¶ ‖ binary bitstring[5]; @ 30 =>     0B00110¶
literal integer; @ 4127 =>     'A\''¶ ‖ longint; @ 80000000 =>     -2147483648¶ ‖ boolean; @ 80 =>     true¶
char; @ 22 =>     "\""¶
string[65]; @ «61×65» =>     "aaaaaaaaaaaaaaaaaaaaaaaaaaaaaaaaaaaaaaaaaaaaaaaaaaaaaaaaaaaaaaaa"¶    "a"¶
hex string[17]; @ «AB×17» =>     $"ABAB ABAB ABAB ABAB ABAB ABAB ABAB ABAB"¶    $"AB"¶ ‖ hex string[0]; @  =>     $""¶
point; @ 0001 FFFF =>     {1, -1}¶
// one after the other, at any bit
byte; unsigned decimal byte; unsigned hex bitstring[5]; octal longint; binary bitstring[5]; literal integer; longint; boolean; char; string[65]; hex string[17]; hex string[0]; point; @ FFFFF7FFFFFFF99049E0000000244C«2C×64»35«75×16»60003FFFE0 =>     -1,¶    255,¶    0x1E,¶    037777777777,¶    0B00110,¶    'A\'',¶    -2147483648,¶    true,¶    "\"",¶    "aaaaaaaaaaaaaaaaaaaaaaaaaaaaaaaaaaaaaaaaaaaaaaaaaaaaaaaaaaaaaaaa"¶    "a",¶    $"ABAB ABAB ABAB ABAB ABAB ABAB ABAB ABAB"¶    $"AB",¶    $"",¶    {1, -1}¶
"""

NAMED = r"""
byte; string; @ FF 676F7266 => resource 'gorf' (-5, "N", sysheap, locked) {¶    -1,¶    "gorf"¶};¶¶
"""

LISTS = r"""
// rows of an array stand one level deeper
array { pstring; }; @ 0141 024243 => resource 'STR#' (128) {¶    {¶        "A",¶        "BC"¶    }¶};¶¶
// nothing between braces
fill byte; @ 00 => resource 'STR#' (128) {¶};¶¶ ‖ array { byte; }; @  => resource 'STR#' (128) {¶    {¶    }¶};¶¶
array [0] { byte; }; byte; @ 07 => resource 'STR#' (128) {¶    {¶    },¶    7¶};¶¶
switch { case one: key byte = 1; }; @ 01 => resource 'STR#' (128) {¶    one {¶    }¶};¶¶
array [2] { array [0] { byte; }; }; @  => resource 'STR#' (128) {¶    {¶        {¶        },¶        {¶        }¶    }¶};¶¶
// fields without a value have no item and no comma
byte; fill byte; byte; fill byte; @ 01 00 02 00 => resource 'STR#' (128) {¶    1,¶    2¶};¶¶
fill byte; array [2] { byte; fill byte; }; fill byte; @ 00 01 00 02 00 00 => resource 'STR#' (128) {¶    {¶        1,¶        2¶    }¶};¶¶
// arrays in arrays, and a switch
array { array [2] { byte; }; switch { case one: key byte = 1; integer; case two: key byte = 2; array [1] { pstring; }; }; }; @ 0506 01 0007 FF00 02 03616263 => resource 'STR#' (128) {¶    {¶        {¶            5,¶            6¶        },¶        one {¶            7¶        },¶        {¶            -1,¶            0¶        },¶        two {¶            {¶                "abc"¶            }¶        }¶    }¶};¶¶
switch { case one: key byte = 1; switch { case two: key byte = 2; byte; }; byte; }; byte; @ 01 02 03 04 05 => resource 'STR#' (128) {¶    one {¶        two {¶            3¶        },¶        4¶    },¶    5¶};¶¶
// at most 32 blanks before an item
«array [1] { ×9»byte; «}; ×9» @ 05 => resource 'STR#' (128) {¶    {¶        {¶            {¶                {¶                    {¶                        {¶                            {¶                                {¶                                {¶                                5¶                                }¶                                }¶                            }¶                        }¶                    }¶                }¶            }¶        }¶    }¶};¶¶
// the comma after a text stands after its last piece
array [2] { hex string[17]; }; byte; @ «AB×34» 05 => resource 'STR#' (128) {¶    {¶        $"ABAB ABAB ABAB ABAB ABAB ABAB ABAB ABAB"¶        $"AB",¶        $"ABAB ABAB ABAB ABAB ABAB ABAB ABAB ABAB"¶        $"AB"¶    },¶    5¶};¶¶
pstring; string[64]; @ 81 «62×129» «63×64» => resource 'STR#' (128) {¶    "bbbbbbbbbbbbbbbbbbbbbbbbbbbbbbbbbbbbbbbbbbbbbbbbbbbbbbbbbbbbbbbb"¶    "bbbbbbbbbbbbbbbbbbbbbbbbbbbbbbbbbbbbbbbbbbbbbbbbbbbbbbbbbbbbbbbb"¶    "b",¶    "cccccccccccccccccccccccccccccccccccccccccccccccccccccccccccccccc"¶};¶¶
// a line of four signs for each byte is the longest
array [1] { string[65]; }; @ «01×65» => resource 'STR#' (128) {¶    {¶        "\0x01\0x01\0x01\0x01\0x01\0x01\0x01\0x01\0x01\0x01\0x01\0x01\0x01\0x01\0x01\0x01\0x01\0x01\0x01\0x01\0x01\0x01\0x01\0x01\0x01\0x01\0x01\0x01\0x01\0x01\0x01\0x01\0x01\0x01\0x01\0x01\0x01\0x01\0x01\0x01\0x01\0x01\0x01\0x01\0x01\0x01\0x01\0x01\0x01\0x01\0x01\0x01\0x01\0x01\0x01\0x01\0x01\0x01\0x01\0x01\0x01\0x01\0x01\0x01"¶        "\0x01"¶    }¶};¶¶
rect; point; @ 8000 7FFF 0000 FFFF 0001 0002 => resource 'STR#' (128) {¶    {-32768, 32767, 0, -1},¶    {1, 2}¶};¶¶
byte one = 1, two; pstring = "x"; byte one = 1, two; @ 01 0178 02 => resource 'STR#' (128) {¶    one,¶    two¶};¶¶
"""

LONG = r"""
byte; @ 05 => resource 'Long' (-32768,¶    "nnnnnnnnnnnnnnnnnnnnnnnnnnnnnnnnnnnnnnnnnnnnnnnnnnnnnnnnnnnnnnnn"¶    "mmmmmmmmmmmmmmmmmmmmmmmmmmmmmmmmmmmmmmmmmmmmmmmmmmmmmmmmmmmmmmmm"¶    "l", $81) {¶    5¶};¶¶
"""

NAMED_BYTES = r"""
nothing => data 'gorf' (-5, "N", sysheap, locked) {¶    $""¶};¶¶
FF => data 'gorf' (-5, "N", sysheap, locked) {¶    $"FF"¶};¶¶
"""

BYTES = r"""
0102 => data 'STR#' (128) {¶    $"0102"¶};¶¶
«41×15» => data 'STR#' (128) {¶    $"4141 4141 4141 4141 4141 4141 4141 41"¶};¶¶
«41×16» => data 'STR#' (128) {¶    $"4141 4141 4141 4141 4141 4141 4141 4141"¶};¶¶
«41×17» => data 'STR#' (128) {¶    $"4141 4141 4141 4141 4141 4141 4141 4141"¶    $"41"¶};¶¶
// 40 bytes give five lines and the empty one
«41×40» => data 'STR#' (128) {¶    $"4141 4141 4141 4141 4141 4141 4141 4141"¶    $"4141 4141 4141 4141 4141 4141 4141 4141"¶    $"4141 4141 4141 4141"¶};¶¶
"""

LONG_BYTES = r"""
00 => data 'Long' (-32768,¶    "nnnnnnnnnnnnnnnnnnnnnnnnnnnnnnnnnnnnnnnnnnnnnnnnnnnnnnnnnnnnnnnn"¶    "mmmmmmmmmmmmmmmmmmmmmmmmmmmmmmmmmmmmmmmmmmmmmmmmmmmmmmmmmmmmmmmm"¶    "l", $81) {¶    $"00"¶};¶¶
"""

# What a resource of a table has besides its bytes: type, id, name, attributes.
TEST = (b"Test", 128, b"name", 0)
NAMED_HEAD = (b"gorf", -5, b"N", 0x50)
STRINGS = (b"STR#", 128, b"", 0)
LONG_HEAD = (b"Long", -32768, b"n" * 64 + b"m" * 64 + b"l", 0x81)


def row_text(row):
    """A row as the tables spell it."""
    return " ".join(value_text(value) for value in row)


def value_text(value):
    """A value of a row as the tables spell it."""
    if isinstance(value, bytes):
        return quoted(value)
    if isinstance(value, list):
        return "{%s}" % "|".join(row_text(row) for row in value)
    if isinstance(value, tuple) and isinstance(value[0], str):
        return "%s(%s)" % (value[0], row_text(value[1]))
    return "[%s]" % " ".join(map(str, value)) if isinstance(value, tuple) else str(value)


def row_of(types, resource):
    """The row that tools/model/label_reading.py finds for a resource, as the tables spell it."""
    fields = found(declarations_of(tokens_of(types)), resource[0], resource[1])
    row = read(fields, resource[4], shown.all_facts(resource))
    return "none" if row is None else row_text(row)


def same(wanted, told, text):
    """What stands by hand is what is told."""
    assert wanted == told, "%s\nby hand %s\ntold    %s" % (text, wanted, told)


def parts_of(line):
    """The fields of a row, or None, its bytes, and what comes."""
    text, _, wanted = line.partition(" => ")
    fields, has_fields, digits = expanded(text).rpartition(" @")
    if text == "nothing":
        digits = ""
    return fields if has_fields else None, bytes.fromhex(digits), wanted


def read_row(line):
    """A case of what is read of bytes, and one of the text that is shown, or of items by hand."""
    fields, content, wanted = parts_of(line)
    wanted, _, items = wanted.partition(": ") if wanted.startswith("unreadable") else (wanted, "", "")
    types, resource = "type 'Test' { %s };\n" % fields, TEST + (content,)
    same("none" if wanted == "unreadable" else wanted, row_of(types, resource), line)
    fork = image([resource])
    text = shown.derez(["f", "t.r"], {"f": fork, "t.r": types.encode()})
    name = line.split(" => ")[0]
    BOOK.case("shown: " + name, "derez f t.r", [("f", fork), ("t.r", types)], out=text)
    if items:
        text = "%s %s\n};\n" % (shown.head_text("resource", resource), items)
    if items or wanted not in ("none", "unreadable"):
        BOOK.case(("laid: " if items else "again: ") + name, "rez t.r s.r -o x", [("t.r", types), ("s.r", text)],
                  leaves=[("x", fork)])


def text_row(line, head=TEST):
    """A case of the whole text of a resource; of its items alone in the table of items."""
    fields, content, wanted = parts_of(line)
    kind, resource = head[0].decode(), head + (content,)
    files = [] if fields is None else [("t.r", "type '%s' { %s };\n" % (kind, fields))]
    if head is TEST:
        wanted = shown.head_text("resource", resource) + "¶" + wanted + "};¶¶"
    text, fork = wanted.replace("¶", "\n"), image([resource])
    words = ["f"] + [name for name, _ in files]
    same(text, shown.derez(words, {"f": fork, **{name: types.encode() for name, types in files}}), line)
    BOOK.case("%s %s: %s" % (kind, head[1], line.split(" => ")[0]), " ".join(["derez", *words]), [("f", fork), *files],
              out=text)


@BOOK.part()
def tables():
    for says, rows in (("Numbers, points, fills and aligns.", NUMBERS), ("Texts.", TEXTS), ("Arrays.", ARRAYS),
                       ("Switches.", SWITCHES), ("Labels in rows, indexes and numbers of rows.", LABELS)):
        BOOK.say(says)
        BOOK.table(rows, read_row)
    BOOK.say("Items of each kind.")
    BOOK.table(ITEMS, text_row)
    for rows, bytes_alone, head in ((NAMED, NAMED_BYTES, NAMED_HEAD), (LISTS, BYTES, STRINGS), (LONG, LONG_BYTES, LONG_HEAD)):
        for says, table in (("Resources of the type '%s', by fields." % head[0].decode(), rows), ("The same by their bytes.", bytes_alone)):
            BOOK.say(says)
            BOOK.table(table, lambda line, head=head: text_row(line, head))


@BOOK.part("A row of one number counts as two values. 1,048,576 values are read, and no more.")
def limits():
    for fields, count, rows in [("array { byte; };", 524288, 524288), ("array { byte; };", 524289, 0),
                                ("byte; array { byte; };", 524288, 524287), ("byte; array { byte; };", 524289, 0)]:
        many(fields, count, rows)


def many(fields, count, rows):
    """A case of so many zero bytes, of which so many rows are read at the end; all bytes where there are none."""
    types, fork = "type 'Test' { %s };\n" % fields, image([TEST + (bytes(count),)])
    front = "resource 'Test' (128, \"name\") {¶" + "    0,¶" * (count - rows) + "    {¶"
    pieces = [(front, 1), ("        0,¶", rows - 1), ("        0¶    }¶};¶¶", 1)]
    if not rows:
        whole, rest = divmod(count, 16)
        line = '    $"' + " ".join(["0000"] * 8) + '"¶'
        pieces = [("data 'Test' (128, \"name\") {¶", 1), (line, whole), ('    $"%s"¶};¶¶' % ("00" * rest), 1)]
    out = [text.replace("¶", "\n").encode().hex().upper() + "*%d" % times * (times > 1) for text, times in pieces]
    BOOK.case("%d bytes: %s" % (count, fields), "derez f t.r", [("f", fork), ("t.r", types)], ["room out 10000000"],
              out=out)
