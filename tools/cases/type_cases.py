"""Writes standard_types.cases: resources of each type of types/Types.r and of types/Texts.r, by hand.

For each resource below stand its items and its bytes, both written by hand: the bytes by the layouts in Inside
Macintosh, never by the program. Of each two cases are made: `derez` shows the items, and `rez` makes the bytes of
them. The type file of a case is the declaration as it stands in types/Types.r or types/Texts.r, with what it needs of
the lines before it; a macro is one line there, for tools/model/shown.py, which knows no joined lines. A file with
padding that isn't zero is also shown as a whole, and its texts go out and back. With --check nothing is written, and
the status is 1 where the file would change, or if a type of the two files has no resource here.

Items stand as derez shows them, but for the layout: several on a line with `; ` between them, no commas and no blanks
in front, and a string of hexadecimal digits as `$` and pieces, as fork.py spells bytes.
"""
from type_book import BEFORE, BOOK, EITHER, STANDARD, TEXTS, one
from type_texts import padded, translated
from model.fork import image, spelled


@BOOK.part("Texts.")
def texts():
    one("STR ", '"A text."', '07 "A text."')
    one("STR#", '{\n"one"; ""; "three"\n}', '0003 03 "one" 00 05 "three"')
    one("TEXT", '"No length."', '"No length."')
    one("styl", "{\n0; 16; 12; 3; bold; 12; 65535; 0; 0\n5; 16; 12; 3; 0x03; 12; 0; 0; 1\n}",
        "0002 00000000 0010 000C 0003 01 00 000C FFFF 0000 0000 00000005 0010 000C 0003 03 00 000C 0000 0000 0001")


@BOOK.part("Menus.")
def menus():
    one("MENU", """
        129; textMenuProc; 0x7FFFFFFD; enabled; "File"
        {
        "Open"; noIcon; "O"; noMark; plain
        "-"; noIcon; noKey; noMark; plain
        "Zoom"; 1; hierarchicalMenu; "\\0x82"; 0x03
        "Ruler"; 200; noKey; check; extend
        }
        """, """0081 0000 0000 0000 0000 FFFFFFFB 04 "File" 04 "Open" 00 "O" 00 00 01 "-" 00 00 00 00
        04 "Zoom" 01 1B 82 03 05 "Ruler" C8 00 12 40 00""")
    one("MENU", '129; 80; 48; textMenuProc; allEnabled; disabled; "\\0x14"\n{\n}',
        "0081 0050 0030 0000 0000 FFFFFFFE 01 14 00", 128, "with its width and height", EITHER)
    one("MBAR", "{\n128; 129; 130\n}", "0003 0080 0081 0082")
    one("mctb", "{\nmctAllItems; 0\n{\n0; 0; 0; 1; 1; 1; 2; 2; 2; 65535; 65535; 65535\n}\n129; 1\n{\n9; 8; 7; 6; 5; 4; 3; 2; 1; 0; 0; 0\n}\n}",
        "0002 FF9E 0000 0000*3 0001*3 0002*3 FFFF*3 0000 0081 0001 0009 0008 0007 0006 0005 0004 0003 0002 0001 0000*3 0000")
    one("xmnu", "versionZero {\n{\ndataItem {\n16; kMenuOptionModifier; currScript; 7; 0; noHierID; sysFont; naturalGlyph\n}\nskipItem {\n}\n}\n}",
        "0000 0002 0001 00000010 02 00 00000000 FFFFFFFE 00000007 00000000 0000 0000 0000 0000")


@BOOK.part("Windows.")
def windows():
    page = '{50, 40, 250, 400}; zoomDocProc; visible; goAway; 0x00000005; "Page"'
    bytes_ = '0032 0028 00FA 0190 0008 0100 0100 00000005 04 "Page"'
    one("WIND", page + "; staggerMainScreen", bytes_ + " 00 380A")
    one("WIND", page, bytes_, 128, "of before System 7", BEFORE)
    one("WIND", page + "\n{\n$\nstaggerMainScreen\n}", bytes_ + " 00 380A", 128, "with a position", EITHER)
    one("WIND", page + "\n{\n$70\nstaggerMainScreen\n}", bytes_ + " 70 380A", 128, "with padding that isn't zero", EITHER)
    one("WIND", page + "\n{\n}", bytes_, 128, "with or without a position", EITHER)
    one("wctb", "0x00000000; 0\n{\nwContentColor; 65535; 65535; 65535\nwTitleBarColor; 0; 0; 32768\n}",
        "00000000 0000 0001 0000 FFFF FFFF FFFF 0004 0000 0000 8000")


@BOOK.part("Dialogs and alerts.")
def dialogs():
    ask = '{50, 40, 250, 400}; dBoxProc; invisible; noGoAway; 0x00000000; 128; "Ask"'
    bytes_ = '0032 0028 00FA 0190 0001 0000 0000 00000000 0080 03 "Ask"'
    one("DLOG", ask + "; centerMainScreen", bytes_ + " 280A")
    one("DLOG", ask, bytes_, 128, "of before System 7", BEFORE)
    one("DLOG", ask + "\n{\n$\n0x1234\n}", bytes_ + " 1234", 128, "with a position", EITHER)
    one("DLOG", ask.replace("Ask", "Find") + "\n{\n$61\ncenterMainScreen\n}", bytes_.replace('03 "Ask"', '04 "Find" 61 280A'),
        128, "with padding that isn't zero", EITHER)
    one("DLOG", ask + "\n{\n}", bytes_, 128, "with or without a position", EITHER)
    stop = """{40, 20, 160, 296}; 129
        {\nOK; visible; silent\nCancel; visible; sound1\nOK; invisible; sound2\nOK; visible; sound3\n}"""
    one("ALRT", stop + "\nalertPositionMainScreen", "0028 0014 00A0 0128 0081 4D27 300A", 129)
    one("ALRT", stop, "0028 0014 00A0 0128 0081 4D27", 129, "of before System 7", BEFORE)
    one("ALRT", stop + "\n{\n}", "0028 0014 00A0 0128 0081 4D27", 129, "with or without a position", EITHER)
    items()
    one("dlgx", "versionZero {\nkDialogFlagsUseThemeBackground\n}", "0000 00000001")
    one("dftb", """versionZero {\n{\nskipItem {\n}\ndataItem {
        0x0003; kControlFontSmallSystemFont; 12; 1; 0; 0; 0; 0; 0; 65535; 65535; 65535; "Geneva"\n}\n}\n}""",
        '0000 0002 0000 0001 0003 FFFE 000C 0001 0000 0000 0000*3 FFFF*3 06 "Geneva"')
    colours = "00000000 0000 0000 0002 0000 8000 FFFF"
    one("dctb", "0x00000000; 0\n{\nwTextColor; 0; 32768; 65535\n}", colours)
    one("actb", "0x00000000; 0\n{\nwTextColor; 0; 32768; 65535\n}", colours)


def items():
    """Each kind of item of a dialog."""
    rect = "00000000 0001 0002 0003 0004 "
    parts = [('Button {\nenabled; "OK"\n}', '04 02 "OK"'), ('CheckBox {\ndisabled; "Cut"\n}', '85 03 "Cut" 00'),
             ('RadioButton {\nenabled; "On"\n}', '06 02 "On"'), ("Control {\nenabled; 128\n}", "07 02 0080"),
             ('StaticText {\ndisabled; "Name:"\n}', '88 05 "Name:" 00'), ('EditText {\nenabled; ""\n}', "10 00"),
             ("Icon {\ndisabled; 1\n}", "A0 02 0001"), ("Picture {\ndisabled; 200\n}", "C0 02 00C8"),
             ("UserItem {\nenabled\n}", "00 00"),
             ("HelpItem {\ndisabled\nHMScanhdlg {\n130\n}\n}", "81 04 0001 0082"),
             ("HelpItem {\ndisabled\nHMScanhrct {\n131\n}\n}", "81 04 0002 0083"),
             ("HelpItem {\ndisabled\nHMScanAppendhdlg {\n132; 5\n}\n}", "81 06 0008 0084 0005")]
    one("DITL", "{\n" + "\n".join("{1, 2, 3, 4}\n" + text for text, _ in parts) + "\n}",
        "000B " + " ".join(rect + content for _, content in parts))
    one("DITL", """{\n{1, 2, 3, 4}\nCheckBox {\nenabled; "Cut"\n}\n$41\n{1, 2, 3, 4}\nButton {\nenabled; "OK"\n}\n$
        {1, 2, 3, 4}\nStaticText {\ndisabled; "?"\n}\n$\n{1, 2, 3, 4}\nEditText {\nenabled; ""\n}\n$\n}""",
        "0003 " + rect + '05 03 "Cut" 41 ' + rect + '04 02 "OK" ' + rect + '88 01 "?" 00 ' + rect + "10 00",
        128, "with padding that isn't zero", EITHER)


@BOOK.part("Controls.")
def controls():
    one("CNTL", '{0, 0, 20, 100}; 1; visible; 1; 0; checkBoxProc; 0; "Save"',
        '0000 0000 0014 0064 0001 0100 0001 0000 0001 00000000 04 "Save"')
    one("CNTL", '{90, 18, 109, 198}; 255; invisible; 50; 140; 1009; -1; "Speed:"',
        '005A 0012 006D 00C6 00FF 0000 0032 008C 03F1 FFFFFFFF 06 "Speed:"', 129, "a pop-up menu")
    one("cctb", "0x00000000; 0\n{\ncFrameColor; 0; 0; 0\ncThumbColor; 65535; 0; 0\n}",
        "00000000 0000 0001 0000 0000 0000 0000 0003 FFFF 0000 0000")
    one("ldes", "versionZero {\n0; 1; 16; 0; hasVertScroll; noHorizScroll; 0; hasGrowSpace\n}",
        "0000 0000 0001 0010 0000 0100 0000 0000 0100")


@BOOK.part("Icons.")
def icons():
    box, mask = "FFFFFFFF 80000001*30 FFFFFFFF", "FFFFFFFF*32"
    one("ICON", "$" + box, box)
    one("ICN#", "{\n$%s\n$%s\n}" % (box, mask), box + " " + mask)
    one("icl4", "$F0*512", "F0*512")
    one("icl8", "$2A*1024", "2A*1024")
    small, full = "FFFF 8001*14 FFFF", "FFFF*16"
    one("ics#", "{\n$%s\n$%s\n}" % (small, full), small + " " + full)
    one("ics4", "$0F*128", "0F*128")
    one("ics8", "$00FF*128", "00FF*128")
    one("icm#", "{\n$FFFF 8001*10 FFFF\n$FFFF*12\n}", "FFFF 8001*10 FFFF FFFF*12")
    one("icm4", "$12*96", "12*96")
    one("icm8", "$0001*96", "0001*96")
    one("SICN", "{\n$%s\n$%s\n$\n}" % (small, full), "%s %s 00*32" % (small, full))
    one("cicn", """0x00000000; 0x8002; {0, 0, 2, 8}; 0; unpacked; 0; 0x00480000; 0x00480000; chunky; 1; 1; 1; 0; 0; 0x00000000
        0x00000000; 2; {0, 0, 2, 8}; 0x00000000; 2; {0, 0, 2, 8}; 0x00000000\n$FF00 FF\n$AA00 55
        0x00000000; 0x0000\n{\n0; 65535; 65535; 65535\n1; 0; 0; 0\n}\n$AA00 5500""",
        """00000000 8002 0000 0000 0002 0008 0000 0000 00000000 00480000 00480000 0000 0001 0001 0001 00000000 00000000
        00000000 00000000 0002 0000 0000 0002 0008 00000000 0002 0000 0000 0002 0008 00000000
        FF00 FF00 AA00 5500 00000000 0000 0001 0000 FFFF*3 0001 0000*3 AA00 5500""")


@BOOK.part("Cursors, patterns and pictures.")
def pictures():
    arrow, mask = "8000 C000 E000 F0", "C000 E000 F000 F8"  # zeros at the end of a string with a size aren't shown
    zeros = " 00*25 "
    one("CURS", "$%s\n$%s\n{1, 1}" % (arrow, mask), arrow + zeros + mask + zeros + "0001 0001")
    one("acur", "{\n128; 129\n}", "0002 0000 0080 0000 0081 0000")
    table = "00000000 0000 0001 0000 FFFF*3 0001 0000*3"
    colours = "0x00000000; 0x0000\n{\n0; 65535; 65535; 65535\n1; 0; 0; 0\n}"
    one("crsr", """newCursor\n$%s\n$%s\n{1, 2}; 0; 0
        0x00000000; 0x8002; {0, 0, 16, 16}; 0; unpacked; 0; 0x00480000; 0x00480000; chunky; 1; 1; 1; 0; 0x00000000
        $AA00*16\n%s""" % (arrow, mask, colours),
        """8001 00000060 00000092 00000000 0000 00000000 %s 00*25 %s 00*25 0001 0002 00000000 00000000
        00000000 8002 0000 0000 0010 0010 0000 0000 00000000 00480000 00480000 0000 0001 0001 0001 00000000 000000B2 00000000
        AA00*16 %s""" % (arrow, mask, table))
    one("PAT ", "$AA55*4", "AA55*4")
    one("PAT#", "{\n$AA55*4\n$FF*8\n}", "0002 AA55*4 FF*8")
    one("ppat", """newPattern; -1\n$AA55*4
        0x00000000; 0x8002; {0, 0, 8, 8}; 0; unpacked; 0; 0x00480000; 0x00480000; chunky; 1; 1; 1; 0; 0x00000000
        $AA00*8\n%s""" % colours,
        """0001 0000001C 0000004E 00000000 FFFF 00000000 AA55*4
        00000000 8002 0000 0000 0008 0008 0000 0000 00000000 00480000 00480000 0000 0001 0001 0001 00000000 0000005E 00000000
        AA00*8 %s""" % table)
    one("PICT", "13; {0, 0, 10, 10}\n$1101 FF", "000D 0000 0000 000A 000A 1101 FF")
    one("PICT", "40000; {-1, -2, 10, 10}\n$", "9C40 FFFF FFFE 000A 000A", 129, "without commands")
    one("clut", "0x00000000; 0x8000\n{\n0; 65535; 65535; 65535\n1; 0; 0; 0\n}", "00000000 8000 0001 0000 FFFF*3 0001 0000*3")
    one("pltt", "{\n65535; 65535; 65535; pmTolerant; 0\n0; 0; 0; 0x000A; 5000\n}",
        "0002 0000*7 FFFF*3 0002 0000 0000*3 0000*3 000A 1388 0000*3")


@BOOK.part("Fonts and sounds.")
def fonts():
    letter = "9000 0041 0041 0004 0000 FFFF 0004 0002 000A 0001 0001 0000 0001 E000 A000 0000 0003 0006 0004 FFFF FFFF"
    text = """propFont; 65; 65; 4; 0; -1; 4; 2; 1; 1; 0; 1\n$E000 A0\n{\n0; 3; 6\n}\n{\n0; 4; -1; -1; -1; -1\n}"""
    one("NFNT", text, letter)
    one("FONT", text, letter, 396)
    one("FOND", """0x2000; 128; 65; 65; 3072; -1024; 256; 4096; 0; 0; 0\n{\n0; 0; 0; 0; 0; 0; 0; 0; -1\n}
        {\n0x0000; 0x8000\n}\n2\n{\n12; plain; 128\n24; bold; 129\n}\n$""",
        """2000 0080 0041 0041 0C00 FC00 0100 1000 00000000*3 0000*8 FFFF 0000 8000 0002 0001 000C 0000 0080 0018 0001 0081""")
    wave = "00000000 00000004 56EE8BA3 00000000 00000000 00 3C 80FF8000"
    one("snd ", "FormatOne {\n{\nsampledSynth; initMono\n}\n}\n{\nhasData; bufferCmd; 0; 20\n}\n$" + wave,
        "0001 0001 0005 00000080 0001 8051 0000 00000014 " + wave)
    one("snd ", "FormatTwo {\nfree\n}\n{\nhasData; soundCmd; 0; 22\nnoData; freqDurationCmd; 500; -1\n}\n$" + wave,
        "0002 0000 0002 8050 0000 00000016 0028 01F4 FFFFFFFF " + wave, 129, "the second form")


@BOOK.part("What the Finder reads.")
def finder():
    one("BNDL", "'Samp'; 0\n{\n'ICN#'\n{\n0; 128; 1; 129\n}\n'FREF'\n{\n0; 128\n}\n}",
        '"Samp" 0000 0001 "ICN#" 0001 0000 0080 0001 0081 "FREF" 0000 0000 0080')
    one("FREF", "'APPL'; 0; \"\"", '"APPL" 0000 00')
    one("vers", '0x01; 0x23; beta; 0x04; verJapan; "1.2.3b4"; "Sample 1.2.3b4"',
        '01 23 60 04 000E 07 "1.2.3b4" 0E "Sample 1.2.3b4"', 1)
    one("mstr", '"Close Up"', '08 "Close Up"', 101)
    one("mst#", '{\n"Load"; "Get"\n}', '0002 04 "Load" 03 "Get"', 103)


@BOOK.part("What the system does for a file.")
def system():
    one("SIZE", """reserved; acceptSuspendResumeEvents; reserved; canBackground; doesActivateOnFGSwitch
        backgroundAndForeground; dontGetFrontClicks; ignoreAppDiedEvents; is32BitCompatible; isHighLevelEventAware
        localAndRemoteHLEvents; notStationeryAware; dontUseTextEditServices; reserved; reserved; reserved
        524288; 262144""", "58E0 00080000 00040000", -1)
    one("cfrg", """{\nkPowerPCCFragArch; kIsCompleteCFrag; kNoVersionNum; kNoVersionNum; kDefaultStackSize; kNoAppSubFolder
        kApplicationCFrag; kDataForkCFragLocator; kZeroOffset; kCFragGoesToEOF; "Sample"
        kMotorola68KCFragArch; kFirstCFragUpdate; 0x02108001; 0x01000000; 32768; 128
        kImportLibraryCFrag; kResourceCFragLocator; 16; 1024; "SampleLib"\n}""",
        """00000000*2 00000001 00000000*4 00000002
        "pwpc" 00000000 00000000 00000000 00000000 0000 01 01 00000000 00000000 00000000*2 0034 06 "Sample" 000000
        "m68k" 00000001 02108001 01000000 00008000 0080 00 02 00000010 00000400 00000000*2 0034 09 "SampleLib" """, 0)
    one("carb", "", "", 0)
    one("plst", '"<plist/>"', '"<plist/>"', 0)
    thing = "'draw'; 'oval'; 'Smpl'; 0x80000000; kAnyComponentFlagsMask; 'CODE'; 128; 'STR '; 128; 'STR '; 129; 'ICON'; 128"
    bytes_ = '"draw" "oval" "Smpl" 80000000 00000000 "CODE" 0080 "STR " 0080 "STR " 0081 "ICON" 0080'
    longer = "; 0x00010002; componentHasMultiplePlatforms; 130\n{\n0x80000000; 'cpnt'; 131; platformPowerPC\n}"
    more = ' 00010002 00000008 0082 00000001 80000000 "cpnt" 0083 0002'
    one("thng", thing, bytes_)
    one("thng", thing + longer, bytes_ + more, 128, "with platforms", " -d UseExtendedThingTemplate")
    one("thng", thing + longer + "\n'thnr'; 132", bytes_ + more + ' "thnr" 0084', 128, "with a map", " -d thng_RezTemplateVersion=2")
    one("thng", thing + "\n$00010002 00000000 0082 00000000", bytes_ + " 00010002 00000000 0082 00000000", 128, "of any form", EITHER)
    one("mach", "0xFFFF; 0x0000", "FFFF 0000", -4064)
    one("nrct", "{\n{-1, 87, 255, 322}\n{10, 10, 20, 20}\n}", "0002 FFFF 0057 00FF 0142 000A 000A 0014 0014", -4064)


    member = """kPowerPC, kFullLib, kNoVersionNum, kNoVersionNum, kDefaultStackSize, kNoAppSubFolder, kIsApp, kOnDiskFlat,
        kZeroOffset, kWholeFork, "App\""""
    BOOK.case("compiled: cfrg, with the names of before Mac OS 8", "rez t.r s.r -o x", [("t.r", STANDARD.declaration("'cfrg'")),
        ("s.r", "resource 'cfrg' (0) { { %s } };\n" % member)], leaves=[("x", image([(b"cfrg", 0, b"", 0, spelled(
            '00000000*2 00000001 00000000*4 00000001 "pwpc" 00000000*4 0000 01 01 00000000*4 0030 03 "App" 0000'))]))])


@BOOK.part("Words of scripts.")
def words():
    reserved = "reserved; " * 8
    one("aete", """0x01; 0x00; english; roman\n{\n"Test"; "Some"; 'tsui'; 1; 1
        {\n"open"; "Open"; 'aevt'; 'odoc'; noReply; ""; replyOptional; singleItem; notEnumerated; notTightBindingFunction
        %s; reserved; reserved; reserved; reserved
        'alis'; "files"; directParamRequired; listOfItems; notEnumerated; changesState
        %s; reserved; reserved; reserved; reserved
        {\n"with"; 'kwrd'; 'long'; ""; optional; singleItem; notEnumerated; reserved
        %s; prepositionParam; notFeminine; notMasculine; plural\n}\n}
        {\n"window"; 'cwin'; "A window"
        {\n"bounds"; 'pbnd'; 'qdrt'; ""; reserved; singleItem; notEnumerated; readWrite
        %s; noApostrophe; notFeminine; notMasculine; singular\n}
        {\n'cobj'\n{\nformAbsolutePosition; formName\n}\n}\n}
        {\n"starts"; 'bgwt'; ""\n}
        {\n'savo'\n{\n"yes"; 'yes '; "Yes"\n}\n}\n}""" % ((reserved.rstrip("; "),) * 4),
        """01 00 0000 0000 0001 04 "Test" 04 "Some" "tsui" 0001 0001
        0001 04 "open" 04 "Open" "aevt" "odoc" "null" 00 00 8000 "alis" 05 "files" 5000
        0001 04 "with" 00 "kwrd" "long" 00 00 8001
        0001 06 "window" 00 "cwin" 08 "A window" 00 0001 06 "bounds" 00 "pbnd" "qdrt" 00 00 1000
        0001 "cobj" 0002 "indx" "name"
        0001 06 "starts" 00 "bgwt" 00 00
        0001 "savo" 0001 03 "yes" "yes " 03 "Yes" """, 0)
    one("aeut", "0x01; 0x00; japanese; japanese\n{\n}", "01 00 000B 0001 0000", 0)


@BOOK.part("Balloon help.")
def helps():
    one("hwin", "HelpMgrVersion; hmDefaultOptions\n{\n128; 'hdlg'; 8; \"Untitled\"\n129; 'hrct'; -8; \"\"\n}",
        '0002 00000000 0002 0080 "hdlg" 0008 08 "Untitled" 00 0081 "hrct" FFF8 00 00')
    one("hrct", """HelpMgrVersion; hmMatchInTitle; 0; 1\n{
        HMStringItem {\n{1, 2}; {3, 4, 5, 6}; "Here."\n}
        HMStringItem {\n{1, 2}; {3, 4, 5, 6}; "Even"\n}\nHMPictItem {\n{1, 2}; {3, 4, 5, 6}; 131\n}
        HMStringResItem {\n{1, 2}; {3, 4, 5, 6}; 132; 1\n}
        HMTEResItem {\n{1, 2}; {3, 4, 5, 6}; 133\n}
        HMSTRResItem {\n{-1, -1}; {3, 4, 5, 6}; 134\n}\nHMSkipItem {\n}\n}""",
        """0002 00000010 0000 0001 0007 0016 0001 0001 0002 0003 0004 0005 0006 05 "Here."
        0016 0001 0001 0002 0003 0004 0005 0006 04 "Even" 00 0012 0002 0001 0002 0003 0004 0005 0006 0083
        0014 0003 0001 0002 0003 0004 0005 0006 0084 0001
        0012 0006 0001 0002 0003 0004 0005 0006 0085 0012 0007 FFFF FFFF 0003 0004 0005 0006 0086
        0004 0100""")
    one("hfdr", "HelpMgrVersion; hmDefaultOptions; 0; 0\n{\nHMSTRResItem {\n1000\n}\n}",
        "0002 00000000 0000 0000 0001 0006 0007 03E8", -5696)
    one("hfdr", """HelpMgrVersion; hmDefaultOptions; 0; 0\n{\nHMStringItem {\n"It draws."\n}\nHMStringItem {\n"It writes."\n}
        HMPictItem {\n128\n}\nHMStringResItem {\n129; 2\n}\nHMTEResItem {\n130\n}\nHMSkipItem {\n}\n}""",
        """0002 00000000 0000 0000 0006 000E 0001 09 "It draws." 0010 0001 0A "It writes." 00
        0006 0002 0080 0008 0003 0081 0002 0006 0006 0082 0004 0100""", -5696, "of each part")


@BOOK.part("What tools keep.")
def tools():
    one("DRVW", """dontNeedLock; needTime; dontNeedGoodbye; noStatusEnable; ctlEnable; noWriteEnable; noReadEnable
        300; updateMask; 0; "Memory"\n$4E75""",
        '2400 012C 0040 0000 0032 0036 003A 003E 0042 06 "Memory" 00*25 4E75', 12)
    one("TMPL", "{\n\"Name\"; 'PSTR'; \"Id\"; 'DWRD'\n}", '04 "Name" "PSTR" 02 "Id" "DWRD"')
    one("MPSR", '9; "Monaco"\n$0004', '0009 "Monaco" 00*26 0004', 1005)
    one("MPSR", '{\n0; 5; "mark"\n}', '0001 00000000 00000005 04 "mark"', 1007)
    one("Estr", '"File not found."', '0F "File not found."', -43)


def compiled(name, heads, source, resource):
    """A case that sources alone need: rez makes the one resource of a source."""
    macros = [line for word, line in STANDARD.macros.items() if word in source]
    types = "".join(line + "\n" for line in macros) + STANDARD.declaration(*heads)
    kind, ident, own_name, attributes, content = resource
    fork = image([(kind.encode(), ident, own_name, attributes, spelled(content))])
    BOOK.case("compiled: " + name, "rez t.r s.r -o x", [("t.r", types), ("s.r", source)], leaves=[("x", fork)])


@BOOK.part("As sources write them.")
def as_sources_write():
    compiled("xmnu, as a source writes it", ["'xmnu'"], """resource 'xmnu' (128, "File", purgeable) {
    versionZero {
        {   /* array ItemExtensions: 3 elements */
            dataItem { 'new ', kMenuNoModifiers, currScript, 0, 0, noHierID, sysFont, naturalGlyph };
            skipItem { };
            dataItem { 'save', kMenuOptionModifier | kMenuShiftModifier, sysScript, 7, 0, 130, sysFont, 0x17 };
        }
    }
};
""", ("xmnu", 128, b"File", 0x20, """0000 0003 0001 "new " 00 00 00000000 FFFFFFFE 00000000 00000000 0000 0000 0000 0000
        0001 "save" 03 00 00000000 FFFFFFFF 00000007 00000000 0082 0000 0017"""))
    compiled("dftb, as a source writes it", ["'dftb'"], """resource 'dftb' (129, purgeable) {
    versionZero {
        {   /* array FontStyles: 3 elements */
            skipItem { },
            dataItem { kDialogFontUseFontMask | kDialogFontUseFaceMask, kControlFontSmallSystemFont, 0, 1, 0, 0, 0, 0, 0, 0, 0, 0, "" },
            dataItem { kDialogFontUseFontNameMask + kDialogFontUseSizeMask, 0, 9, 0, 1, -1, 65535, 0, 0, 0, 0, 65535, "Monaco" }
        }
    }
};
""", ("dftb", 129, b"", 0x20, """0000 0003 0000 0001 0003 FFFE 0000 0001 0000 0000 0000*3 0000*3 00
        0001 0204 0000 0009 0000 0001 FFFF FFFF 0000 0000 0000 0000 FFFF 06 "Monaco" """))
    compiled("ldes, as a source writes it", ["'ldes'"], """resource 'ldes' (130) {
    versionZero { 10, 1, 0, 0, hasVertScroll, noHorizScroll, 0, noGrowSpace }
};
""", ("ldes", 130, b"", 0, "0000 000A 0001 0000 0000 0100 0000 0000 0000"))
    compiled("hfdr, by the name of its id", ["'hfdr'"], """resource 'hfdr' (kHMHelpID, "icon help", purgeable) {
    HelpMgrVersion, hmDefaultOptions, 0, 0, { HMStringResItem { kHMHelpID, 1 } }
};
""", ("hfdr", -5696, b"icon help", 0x20, "0002 00000000 0000 0000 0001 0008 0003 E9C0 0001"))


@BOOK.part()
def wholes():
    translated()
    padded()
    missing = ["%s of %s" % (head, of.name) for of in (STANDARD, TEXTS) for head in of.types if head not in of.used]
    assert not missing, "no resource of " + ", ".join(missing)
