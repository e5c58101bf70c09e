"""The cases of `data`, `type` and `resource` statements, as text. statement_cases.py writes them."""


DATA = r"""
// texts of either kind, none, and a `;` after them
data 'Test' (1) { }; ‖ data 'Test' (1) { ; }; => 'Test' 1 ‖ data 'Test' (0) { "AB" }; => 'Test' 0 = 4142
data 'Test' (1) { "A" $"00FF" "\n" "" }; => 'Test' 1 = 4100FF0D ‖ data 'Test' (1) { "A"; }; => 'Test' 1 = 41
// the word in whatever case, the type as it is
DATA 'tEST' (0x10) { $"" }; => 'tEST' 16 ‖ Data'A\0x01b '(32767){"a"}; => 'A\0x01b ' 32767 = 61
// the id is an expression
data 'Test' (-1) { }; => 'Test' -1 ‖ data 'Test' (2 * (3 + 4), "n") { }; => 'Test' 14 "n"
data 'Test' ('a') { }; => 'Test' 97 ‖ data 'Test' (TRUE + !false) { }; => 'Test' 2
data 'Test' (99999) { }; => 204 BadId: 99999 ‖ data 'Test' (4294967295) { }; => 'Test' -1
data 'Test' (1 / 0) { }; => 211 ZeroDivisor ‖ data 'Test' (1 << 32) { }; => 215 BadShift: 32
// a name, in one piece or in more, and after it attributes in any order
data 'Test' (1, "name") { }; => 'Test' 1 "name" ‖ data 'Test' (1, "") { }; => 'Test' 1
data 'Test' (1, "na" $"6D" "e") { }; => 'Test' 1 "name" ‖ data 'Test' (1, locked) { }; => 'Test' 1 10
data 'Test' (1, "n", sysheap, purgeable, locked, protected, preload, changed) { }; => 'Test' 1 "n" 7E
data 'Test' (1, appheap, nonpurgeable, unlocked, unprotected, nonpreload, unchanged) { }; => 'Test' 1
data 'Test' (1, LOCKED, UnLocked, $81, 1 + 1) { }; => 'Test' 1 02
data 'Test' (1, -5, 256) { }; => 207 OutOfRange: -5 ‖ data 'Test' (1, 5, 256) { }; => 207 OutOfRange: 256
data 'Test' (1, true, 5 % 0) { }; => 211 ZeroDivisor
// a `;` alone
; => nothing
// no statement
data ‖ data; ‖ data 'Test' (1) { "a" } ‖ data 'Test' (1) { "a" ; ‖ data 'Test' (1) { "a" ; ; }; => 201 Syntax
data 'Test' (1) { ; "a" }; ‖ data 'Test' (1) { 1 }; ‖ data 'Test' (1) { 'a' }; => 201 Syntax
data 'Test' (1) [ "a" ]; ‖ data 'Test' 1 { "a" }; ‖ data 'Test' (1 { "a" }; ‖ data 'Test' (1)) { "a" }; => 201 Syntax
data 'Test' () { "a" }; ‖ data 'Test' ("n") { "a" }; ‖ data 'Test' (1,) { "a" }; => 201 Syntax
data 'Test' (1, , 2) { "a" }; ‖ data 'Test' (1, locked, "n") { "a" }; => 201 Syntax
data 'Test' (1, "n", "m") { "a" }; ‖ data 'Test' (1, "n" locked) { "a" }; => 201 Syntax
data 'Test' (1, locked unlocked) { "a" }; ‖ data 'Test' (1, (locked)) { "a" }; => 201 Syntax
data 'Test' (1, name) { "a" }; ‖ data 'Test' (x) { "a" }; ‖ data 'Test' (locked) { "a" }; => 201 Syntax
data 'Test' (1 + ) { "a" }; ‖ data 'Test' (1 2) { "a" }; ‖ data 'Test' ($$ID) { "a" }; => 201 Syntax
data 'Test' ($$CountOf(a)) { "a" }; ‖ data 'Test' ($$BitField(a, 1, 2)) { "a" }; => 201 Syntax
data 'Test' (a[1]) { "a" }; ‖ data 'Test' ($$ArrayIndex(a)) { "a" }; ‖ data 'Test' (1, $$Name) { "a" }; => 201 Syntax
data 'Tes' (1) { "a" }; ‖ data "Test" (1) { "a" }; ‖ dat 'Test' (1) { "a" }; ‖ datas 'Test' (1) { "a" }; => 201 Syntax
"data" 'Test' (1) { "a" }; => 201 Syntax
// the mark is that of the first token
/* |*/ |data |'Test' (1) => 3: 201 Syntax ‖ ||data|'Test'|(1 / 0)|{|}; => 3: 211 ZeroDivisor
"""

TYPES = r"""
// ids, bodies, and copies
type 'Byte' { byte; }; resource 'Byte' (1) { 5 }; ‖ TYPE 'Byte' { BYTE }; resource 'Byte' (1) { 5 }; => 'Byte' 1 = 05
type 'None' { }; resource 'None' (1) { }; ‖ type 'None' { ; ; }; resource 'None' (1) { }; => 'None' 1
type 'Scop' (128) { integer; longint; }; resource 'Scop' (128) { 1, 2 }; => 'Scop' 128 = 0001 00000002
type 'Scop' (128) { integer; longint; };|resource 'Scop' (129) { 1, 2 }; => 2: 202 NoType: 'Scop' 129
type 'Scop' (-1 : 2 * (3 + 4)) { boolean; char; }; resource 'Scop' (-1) { true, "A" }; resource 'Scop' (14) { true, "A" }; => 'Scop' -1 = A080 & 'Scop' 14 = A080
type 'Scop' (-1 : 2 * (3 + 4)) { boolean; char; };|resource 'Scop' (-2) { true, "A" }; => 2: 202 NoType: 'Scop' -2
type 'Scop' (-1 : 2 * (3 + 4)) { boolean; char; };|resource 'Scop' (15) { true, "A" }; => 2: 202 NoType: 'Scop' 15
type 'Byte' { byte; }; type 'Copy' as 'Byte'; resource 'Copy' (1) { 5 }; => 'Copy' 1 = 05
type 'Byte' (-3) { byte; }; type 'Byte' { integer; }; type 'Copy' (5) AS 'Byte' (TRUE - 4); resource 'Copy' (5) { 7 }; => 'Copy' 5 = 07
type 'Byte' (-3) { byte; }; type 'Byte' { integer; }; type 'Copy' (5) AS 'Byte' (TRUE - 4);|resource 'Copy' (6) { 7 }; => 2: 202 NoType: 'Copy' 6
// numbers
type 'Numb' { bitstring[1 + 2]; bitstring[33]; bitstring[-1] }; => 238 BadWidth: 33
type 'Numb' { bitstring[1 + 2]; bitstring[-1] }; => 238 BadWidth: -1
type 'Numb' { bitstring[1 + 2]; bitstring[5] }; resource 'Numb' (1) { 5, 1 }; => 'Numb' 1 = A1
type 'Numb' { unsigned hex byte; HEX Unsigned byte; literal longint; }; resource 'Numb' (1) { 255, 128, 'ABCD' }; => 'Numb' 1 = FF 80 41424344 SHOWS 0xFF,¶0x80,¶'ABCD'
type 'Numb' { decimal byte = 5; octal char = "a"; binary char = 'a'; byte = !false; }; resource 'Numb' (1) { }; => 'Numb' 1 = 05 61 61 01
type 'Numb' { byte = 1 / 0; };|resource 'Numb' (1) { }; => 2: 211 ZeroDivisor
// symbols: the next value where none is given, and whatever names
type 'Symb' { byte a, B, c = 7, d; }; resource 'Symb' (1) { a }; resource 'Symb' (2) { B }; resource 'Symb' (3) { c }; resource 'Symb' (4) { d }; => 'Symb' 1 = 00 & 'Symb' 2 = 01 & 'Symb' 3 = 07 & 'Symb' 4 = 08
type 'Symb' { boolean False, True; }; resource 'Symb' (1) { False }; resource 'Symb' (2) { True }; => 'Symb' 1 = 00 & 'Symb' 2 = 80
type 'Symb' { char a = "x", b; byte locked = 1 + 1; }; resource 'Symb' (1) { a, locked }; resource 'Symb' (2) { b, locked }; => 'Symb' 1 = 78 02 & 'Symb' 2 = 79 02
type 'Symb' { longint a = 2147483647, b; }; resource 'Symb' (1) { a }; resource 'Symb' (2) { b }; => 'Symb' 1 = 7FFFFFFF & 'Symb' 2 = 80000000
// the ends of ranges
type 'Rang' { byte a = -128, b = 255; integer a = -32768, b = 65535; }; resource 'Rang' (1) { a, a }; resource 'Rang' (2) { b, b }; => 'Rang' 1 = 80 8000 & 'Rang' 2 = FF FFFF
type 'Rang' { bitstring[3] a = -4, b = 7; bitstring[32] c = $80000000; }; resource 'Rang' (1) { a, c }; resource 'Rang' (2) { b, c }; => 'Rang' 1 = 90 00000000 & 'Rang' 2 = F0 00000000
type 'Rang' { bitstring[33] a = 99; bitstring[0] b = -99; }; => 238 BadWidth: 33
type 'Rang' { bitstring[0] b = -99; }; => 238 BadWidth: 0
// texts, points, rectangles, fills and aligns
type 'Text' { string; hex string; pstring[2 * 5]; }; resource 'Text' (1) { "a", "b", "c" }; => 'Text' 1 = 61 62 01 63 00*9
type 'Text' { hex string; pstring[2 * 5]; }; resource 'Text' (1) { "b", "c" }; => 'Text' 1 = 62 01 63 00*9 SHOWS $"62",¶"c"
type 'Text' { cstring[4] = "ab" "c"; wstring = $"0102"; }; resource 'Text' (1) { }; => 'Text' 1 = 616263 00 0002 0102
type 'Poin' { point; rect; point = {1, 2}; rect = { 1, -2, (3), 4 }; }; resource 'Poin' (1) { {5, 6}, {7, 8, 9, 10} }; => 'Poin' 1 = 0005 0006 0007 0008 0009 000A 0001 0002 0001 FFFE 0003 0004
type 'Fill' { fill bit; fill nibble[3]; fill byte[2 * 2]; fill word; fill long[-1]; }; => 238 BadWidth: -1
type 'Fill' { fill bit; fill nibble[3]; fill byte[2 * 2]; fill word; fill long; bitstring[3]; }; resource 'Fill' (1) { 7 }; => 'Fill' 1 = 00*11 07
type 'Alig' { align nibble; align byte; ALIGN Word; align long }; resource 'Alig' (1) { }; => 'Alig' 1
type 'Alig' { boolean; align nibble; boolean; align byte; boolean; ALIGN Word; boolean; align long }; resource 'Alig' (1) { true, true, true, true }; => 'Alig' 1 = 88 80 80 00
// no statement
type ‖ type 'Byt' { byte; }; ‖ type "Byte" { byte; }; ‖ types 'Byte' { byte; }; => 201 Syntax
type 'Byte' ( ) { byte; }; ‖ type 'Byte' (1, 2) { byte; }; ‖ type 'Byte' (1:2:3) { byte; }; => 201 Syntax
type 'Byte' (x) { byte; }; ‖ type 'Byte' ("n") { byte; }; ‖ type 'Byte' as; => 201 Syntax
type 'Byte' as 'Othe' (1:2); ‖ type 'Byte' as 'Othe' { byte; }; ‖ type 'Byte' { byte byte; }; => 201 Syntax
type 'Byte' { unsigned unsigned byte; }; ‖ type 'Byte' { unsigned; }; => 201 Syntax
type 'Byte' { unsigned string; }; ‖ type 'Byte' { decimal string; }; ‖ type 'Byte' { hex point; }; => 201 Syntax
type 'Byte' { hex fill bit; }; ‖ type 'Byte' { bitstring; }; ‖ type 'Byte' { bitstring[]; }; => 201 Syntax
type 'Byte' { byte[3]; }; ‖ type 'Byte' { byte = ; }; ‖ type 'Byte' { byte a = $$ID; }; => 201 Syntax
type 'Byte' { byte = "a"; }; ‖ type 'Byte' { char = "ab"; }; ‖ type 'Byte' { byte a b; }; => 201 Syntax
type 'Byte' { byte a,; }; ‖ type 'Byte' { byte hex; }; ‖ type 'Byte' { byte a = "a"; }; => 201 Syntax
type 'Byte' { string = 1; }; ‖ type 'Byte' { point = { 1 }; }; ‖ type 'Byte' { rect = { 1, 2 }; }; => 201 Syntax
type 'Byte' { point = 1; }; ‖ type 'Byte' { fill; }; ‖ type 'Byte' { fill bit[1] 2; }; => 201 Syntax
type 'Byte' { align word[2]; }; => 201 Syntax
// facts of the resource, and of the moment, which is the first second of 1970
type 'Byte' { byte = $$ID; }; resource 'Byte' (7) { }; => 'Byte' 7 = 07
type 'Byte' { byte = $$Year; };|resource 'Byte' (7) { }; => 2: 207 OutOfRange: 1970
// arrays and switches
type 'Byte' { array { byte; }; }; resource 'Byte' (1) { { 1, 2 } }; => 'Byte' 1 = 01 02
type 'Byte' { wide array a { byte; integer }; byte }; resource 'Byte' (1) { { 1, 2 }, 3 }; => 'Byte' 1 = 01 0002 03
type 'Byte' { ARRAY [1 + 2] { array TRUE { char } } }; resource 'Byte' (1) { { { "a" }, { "b", "c" }, { } } }; => 'Byte' 1 = 61 62 63
type 'Byte' { switch { case a: key byte = 1; case Locked: ; byte; }; }; => 233 KeyMissing: "Locked"
type 'Byte' { switch { case a: key byte = 1; case Locked: ; key byte = 2; byte; }; }; resource 'Byte' (1) { a { } }; resource 'Byte' (2) { Locked { 7 } }; => 'Byte' 1 = 01 & 'Byte' 2 = 02 07
type 'Byte' { switch { }; };|resource 'Byte' (1) { a { } }; => 2: 210 NoCase: "a"
type 'Byte' { switch { case a: byte b, c; key unsigned hex bitstring[7] = 4; pstring case d: switch { case e: } } }; => 233 KeyMissing: "e"
type 'Byte' { switch { case a: byte b, c; key unsigned hex bitstring[7] = 4; pstring case d: byte; key bitstring[7] = 5; switch { case e: key byte = 6 } } }; resource 'Byte' (1) { a { c, "x" } }; resource 'Byte' (2) { d { 1, e { } } }; => 'Byte' 1 = 01 08 02 F0 & 'Byte' 2 = 01 0A 0C
type 'Byte' { array a b { byte; }; }; ‖ type 'Byte' { array a [1] { byte; }; }; => 201 Syntax
type 'Byte' { array [1] a { byte; }; }; ‖ type 'Byte' { array 1 { byte; }; }; => 201 Syntax
type 'Byte' { array byte { byte; }; }; ‖ type 'Byte' { array a; }; ‖ type 'Byte' { array { byte; } a; }; => 201 Syntax
type 'Byte' { wide wide array { byte; }; }; ‖ type 'Byte' { wide switch { }; }; => 201 Syntax
type 'Byte' { hex array { byte; }; }; ‖ type 'Byte' { unsigned wide array { byte; }; }; => 201 Syntax
type 'Byte' { array { byte } byte; }; ‖ type 'Byte' { switch { byte; case a: }; }; => 201 Syntax
type 'Byte' { switch { ; case a: }; }; ‖ type 'Byte' { switch { case: byte; }; }; => 201 Syntax
type 'Byte' { switch { case a byte; }; }; ‖ type 'Byte' { switch { case byte: byte; }; }; => 201 Syntax
type 'Byte' { switch { case a: case }; }; ‖ type 'Byte' { switch a { case a: }; }; => 201 Syntax
type 'Byte' { case a: byte; }; ‖ type 'Byte' { array { key byte = 1; }; }; => 201 Syntax
type 'Byte' { switch { case a: array { key byte = 1; }; }; }; => 201 Syntax
type 'Byte' { switch { case a: key byte; }; }; ‖ type 'Byte' { switch { case a: key byte b; }; }; => 201 Syntax
type 'Byte' { switch { case a: key char = 1; }; }; => 201 Syntax
type 'Byte' { switch { case a: key boolean = 1; }; }; => 201 Syntax
type 'Byte' { switch { case a: key string = "a"; }; }; => 201 Syntax
type 'Byte' { switch { case a: hex key byte = 1; }; }; => 201 Syntax
type 'Byte' { switch { case a: key key byte = 1; }; }; => 201 Syntax
type 'Byte' { switch { case a: key byte = $$ID; }; }; => 201 Syntax
type 'Byte' { switch { case a: key byte = $$CountOf(b); }; }; ‖ type 'Byte' { string[$$CountOf(a)]; }; => 201 Syntax
type 'Byte' { bitstring[$$CountOf(a)]; }; ‖ type 'Byte' { array [$$CountOf(a)] { byte; }; }; => 201 Syntax
// constants within, from left to right
type 'Byte' { array [1 / 0] { bitstring[1 << 40]; }; }; => 211 ZeroDivisor
type 'Byte' { array { bitstring[1 << 40]; }; fill bit[1 / 0]; }; => 215 BadShift: 40
type 'Byte' { switch { case a: key bitstring[1 / 0] = 1 << 40; }; }; => 211 ZeroDivisor
type 'Byte' { switch { case a: key byte = 1 << 40; case b: byte c = 256; }; }; => 215 BadShift: 40
type 'Byte' { switch { case a: byte c = 256; key byte = 1 / 0; }; }; => 207 OutOfRange: 256
// labels, and expressions that name them
type 'Byte' { x: byte; }; resource 'Byte' (1) { 5 }; => 'Byte' 1 = 05
type 'Byte' { x: }; resource 'Byte' (1) { }; => 'Byte' 1
type 'Byte' { a: b: byte; c: ; d: byte; ; e: f: }; resource 'Byte' (1) { 1, 2 }; => 'Byte' 1 = 01 02
type 'Byte' { byte = a; a: b: byte = b; c: ; d: byte = c + d; ; e: f: byte = e + f }; resource 'Byte' (1) { }; => 'Byte' 1 = 08 08 20 30
type 'Byte' { switch { case a: e: key byte = 1; case b: e: }; }; => 230 LabelTwice: "e"
type 'Byte' { byte = x; }; ‖ type 'Byte' { string[x]; }; => 212 UnknownLabel: "x"
type 'Byte' { integer = $$Word(a); }; ‖ type 'Byte' { string[$$BitField(a, b, 3)]; }; => 212 UnknownLabel: "a"
type 'Byte' { string[$$BitField(a, $$CountOf(b), 3)]; }; => 201 Syntax
type 'Byte' { array { x: byte; }; }; resource 'Byte' (1) { { 7 } }; => 'Byte' 1 = 07
type 'Byte' { array { byte; x: }; }; resource 'Byte' (1) { { 7 } }; => 'Byte' 1 = 07
type 'Byte' { array { switch { case a: x: byte; }; }; }; => 233 KeyMissing: "a"
type 'Byte' { array { switch { case a: x: key byte = 1; byte; }; }; }; resource 'Byte' (1) { { a { 7 } } }; => 'Byte' 1 = 01 07
type 'Byte' { switch { x: case a: }; }; ‖ type 'Byte' { true: byte; }; ‖ type 'Byte' { locked: byte; }; => 201 Syntax
type 'Byte' { byte: byte; }; ‖ type 'Byte' { $$x: byte; }; ‖ type 'Byte' { x: : byte; }; => 201 Syntax
type 'Byte' { x; byte; }; ‖ type 'Byte' { byte x: ; }; => 201 Syntax
// labels in rows by their numbers, and the number of the row around
type 'Byte' { byte = x[1]; array { x: byte; }; }; resource 'Byte' (1) { { 7 } }; => 'Byte' 1 = 08 07
type 'Byte' { string[x[1 / 0]]; }; => 212 UnknownLabel: "x"
type 'Byte' { array { x: byte; }; string[x[1 / 0]]; };|resource 'Byte' (1) { { 7 }, "a" }; => 2: 211 ZeroDivisor
type 'Byte' { byte = x[x[1] + 1]; }; ‖ type 'Byte' { byte = x[$$CountOf(a)]; }; => 212 UnknownLabel: "x"
type 'Byte' { array a { byte = $$ArrayIndex(a); string[$$ArrayIndex(a)]; }; }; resource 'Byte' (1) { { "p", "q" } }; => 'Byte' 1 = 01 70 02 71 00
type 'Byte' { string[x[$$CountOf(a)]]; }; ‖ type 'Byte' { bitstring[x[1]]; }; => 201 Syntax
type 'Byte' { fill byte[x[1]]; }; ‖ type 'Byte' { array [$$ArrayIndex(a)] { byte; }; }; => 201 Syntax
type 'Byte' { switch { case a: key byte = x[1]; }; }; ‖ type 'Byte' { byte = x[]; }; => 201 Syntax
type 'Byte' { byte = x[1; }; ‖ type 'Byte' { byte = x[1][1]; }; ‖ type 'Byte' { byte = locked[1]; }; => 201 Syntax
type 'Byte' { byte = $$Word(x[1]); }; => 201 Syntax
// constants without a value, the first from left to right, after the form
type 'Byte' (1 / 0) { byte; }; => 211 ZeroDivisor ‖ type 'Byte' (1 << 32 : 1 / 0) { byte; }; => 215 BadShift: 32
type 'Byte' (1 / 0) { byte x y; }; => 201 Syntax ‖ type 'Byte' as 'Othe' (5 % 0); => 211 ZeroDivisor
type 'Byte' { bitstring[1 >> -1]; }; => 215 BadShift: -1
type 'Byte' { bitstring[1 / 0] a = 1 << 40; }; => 211 ZeroDivisor
type 'Byte' { fill bit[1 << 40]; }; => 215 BadShift: 40
type 'Byte' { byte a = 256; byte b = 1 / 0; }; => 207 OutOfRange: 256
type 'Byte' { byte a = 256; x; }; => 201 Syntax ‖ type 'Byte' { byte a = -129; }; => 207 OutOfRange: -129
type 'Byte' { boolean a = -1; }; => 207 OutOfRange: -1 ‖ type 'Byte' { integer a = 65536; }; => 207 OutOfRange: 65536
type 'Byte' { char a = -1; }; => 207 OutOfRange: -1 ‖ type 'Byte' { bitstring[3] a = 7, b; }; => 207 OutOfRange: 8
type 'Byte' { bitstring[3] a = -5; }; => 207 OutOfRange: -5 ‖ type 'Byte' { byte a = 300 = 1; }; => 201 Syntax
// the mark is that of the first token
|type 'Byte'|{ byte a = 256; }; => 2: 207 OutOfRange: 256
"""

RESOURCES = r"""
// no items, one, and more, with either sign between them and maybe after the last
type 'Test' { }; resource 'Test' (1) { }; => 'Test' 1
type 'Test' { byte; }; resource 'Test' (1) { 5 }; => 'Test' 1 = 05
type 'Test' { byte; }; resource 'Test' (1) { 5, }; => 'Test' 1 = 05
type 'Test' { byte; }; resource 'Test' (1) { 5; }; => 'Test' 1 = 05
type 'Test' { byte; byte; byte; }; resource 'Test' (1) { 1, 2; 3 }; => 'Test' 1 = 01 02 03
type 'tEST' { byte; }; RESOURCE 'tEST' (128, "n", locked) { 1 }; => 'tEST' 128 "n" 10 = 01
// a separator stands for no item
resource 'Test' (1) { , }; ‖ resource 'Test' (1) { ; }; ‖ resource 'Test' (1) { 1,, 2 }; => 201 Syntax
resource 'Test' (1) { 1,, }; ‖ resource 'Test' (1) { , 1 }; => 201 Syntax
// texts, of parts side by side
type 'Test' { pstring; pstring; }; resource 'Test' (1) { "a" "b", $"41" }; => 'Test' 1 = 02 6162 01 41
resource 'Test' (1) { "a" 1 }; => 201 Syntax
type 'Test' { pstring; pstring; }; resource 'Test' (1) { $$Name, $$NAME "x" }; => 'Test' 1 = 00 01 78
type 'Test' { pstring; pstring; }; resource 'Test' (1, "n") { $$Name, $$NAME "x" }; => 'Test' 1 "n" = 01 6E 02 6E78
type 'Test' { pstring; }; resource 'Test' (1) { $$Date }; => 'Test' 1 = 0A "1970-01-01"
// numbers, with facts of the resource and the moment
type 'Test' { byte; byte; byte; byte; byte; }; resource 'Test' (1) { 1 + 2 * 3, (4), 'a', -1, true }; => 'Test' 1 = 07 04 61 FF 01
type 'Test' { byte; longint; byte; }; resource 'Test' (1, locked) { $$ID + 1, $$Type, $$Attributes }; => 'Test' 1 10 = 02 "Test" 10
type 'Test' { integer; }; resource 'Test' (1) { $$Year }; => 'Test' 1 = 07B2
resource 'Test' (1) { 1 + $$CountOf(a) }; ‖ resource 'Test' (1) { $$Word(a) }; => 201 Syntax
resource 'Test' (1) { a[1] }; ‖ resource 'Test' (1) { $$ArrayIndex(a) }; ‖ resource 'Test' (1) { 1 2 }; => 201 Syntax
// items in braces, with a name or without
type 'Test' { array { byte; }; }; resource 'Test' (1) { { } }; => 'Test' 1
type 'Test' { array { byte; array { byte; pstring; }; }; byte; }; resource 'Test' (1) { { 1, { 2; "x" }, }, 3 }; => 'Test' 1 = 01 02 01 78 03
type 'Test' { array { switch { case a: key byte = 1; byte; case Locked: key byte = 2; case true: key byte = 3; array { byte; }; }; }; }; resource 'Test' (1) { { a { 1 }, locked { }, TRUE { { 4 } } } }; => 'Test' 1 = 01 01 02 03 04
resource 'Test' (1) { type { 1 } }; ‖ resource 'Test' (1) { $$ID { 1 } }; => 201 Syntax
resource 'Test' (1) { { 1 } 2 }; ‖ resource 'Test' (1) { a { 1 } 2 }; ‖ resource 'Test' (1) { 1 { 2 } }; => 201 Syntax
resource 'Test' (1) { { , } }; => 201 Syntax
// lines: of an item of a wrong kind, or of one too many
type 'Test' { byte; }; resource 'Test' (1) {|1,|a|{|"x"|"y", {|2 } } }; => 3: 209 TooMany: 2
type 'Test' { pstring; byte; }; resource 'Test' (1) {|1,|a|{|"x"|"y", {|2 } } }; => 2: 206 WrongKind: 1
type 'Test' { byte; byte; }; resource 'Test' (1) {|1,|a|{|"x"|"y", {|2 } } }; => 3: 206 WrongKind: 2
type 'Test' { byte; switch { case a: key byte = 1; byte; byte; }; }; resource 'Test' (1) {|1,|a|{|"x"|"y", {|2 } } }; => 5: 206 WrongKind: 1
type 'Test' { byte; switch { case a: key byte = 1; pstring; byte; }; }; resource 'Test' (1) {|1,|a|{|"x"|"y", {|2 } } }; => 6: 206 WrongKind: 2
type 'Test' { byte; switch { case a: key byte = 1; pstring; array { pstring; }; }; }; resource 'Test' (1) {|1,|a|{|"x"|"y", {|2 } } }; => 7: 206 WrongKind: 1
// no name of the resource in a head, and no statement
resource 'Test' (1, "a" $$Name) { }; ‖ resource 'Test' () { }; ‖ resource 'Test' (1) { } => 201 Syntax
resource 'Test' (1); ‖ resource 'Test' { }; ‖ resource 'Test' (1) { 1 ; ‖ resource 'Test' (1) ( 1 ); => 201 Syntax
resource (1) { }; => 201 Syntax
"""
