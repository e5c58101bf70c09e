"""The cases of the texts of standard types. type_cases.py writes them."""
from type_book import BOOK, EITHER, STANDARD, TEXTS, one, shown
from model.fork import image, spelled


def translated():
    BOOK.say("The types of texts alone, whose numbers may have any value.")
    text_types()
    window_texts()
    item_texts()
    help_texts()


def text_types():
    """Texts of Texts.r that stand for themselves or in menus, controls and versions."""
    one("STR ", '"A text."', '07 "A text."', of=TEXTS)
    one("STR#", '{\n"one"; ""; "three"\n}', '0003 03 "one" 00 05 "three"', of=TEXTS)
    one("TEXT", '"No length."', '"No length."', of=TEXTS)
    one("mstr", '"Close Up"', '08 "Close Up"', 101, of=TEXTS)
    one("mst#", '{\n"Load"; "Get"\n}', '0002 04 "Load" 03 "Get"', 103, of=TEXTS)
    one("Estr", '"File not found."', '0F "File not found."', -43, of=TEXTS)
    one("MENU", """129; 80; 48; 1; 2; 0xFFFFFFFB; "File"\n{\n"Open"; 0; "O"; "\\0x00"; 0x00\n"Zoom"; 255; "\\0x1B"; "\\0x82"; 0x83\n}""",
        '0081 0050 0030 0001 0002 FFFFFFFB 04 "File" 04 "Open" 00 "O" 00 00 04 "Zoom" FF 1B 82 83 00', 128, of=TEXTS)
    one("CNTL", '{90, 18, 109, 198}; 255; 0x01FF; 50; 140; 1009; 0xFFFFFFFF; "Speed:"',
        '005A 0012 006D 00C6 00FF 01FF 0032 008C 03F1 FFFFFFFF 06 "Speed:"', 129, of=TEXTS)
    one("vers", '0x01236004; 14; "1.2.3b4"; "Sample 1.2.3b4"', '01 23 60 04 000E 07 "1.2.3b4" 0E "Sample 1.2.3b4"', 1, of=TEXTS)


def window_texts():
    """Windows and dialogs of Texts.r: without a position, and with one after each padding."""
    page = '{50, 40, 250, 400}; 8; 0x01FF; 0xFF00; 0x00000005; "%s"'
    bytes_ = "0032 0028 00FA 0190 0008 01FF FF00 00000005 "
    one("WIND", page % "Page" + "\n{\n}", bytes_ + '04 "Page"', 128, "without a position", of=TEXTS)
    one("WIND", page % "Page" + "\n{\n$; 0x380A\n}", bytes_ + '04 "Page" 00 380A', 128, "with padding that is zero", of=TEXTS)
    one("WIND", page % "Page" + "\n{\n$70; 0x380A\n}", bytes_ + '04 "Page" 70 380A', 128, "with padding that isn't zero", of=TEXTS)
    one("WIND", page % "Pages" + "\n{\n$; 0x380A\n}", bytes_ + '05 "Pages" 380A', 128, "with no padding", of=TEXTS)
    ask = page.replace('"%s"', '128; "%s"')
    bytes_ += "0080 "
    one("DLOG", ask % "Find" + "\n{\n}", bytes_ + '04 "Find"', 128, "without a position", of=TEXTS)
    one("DLOG", ask % "Find" + "\n{\n$; 0x280A\n}", bytes_ + '04 "Find" 00 280A', 128, "with padding that is zero", of=TEXTS)
    one("DLOG", ask % "Find" + "\n{\n$61; 0x280A\n}", bytes_ + '04 "Find" 61 280A', 128, "with padding that isn't zero", of=TEXTS)
    one("DLOG", ask % "Ask" + "\n{\n$; 0x280A\n}", bytes_ + '03 "Ask" 280A', 128, "with no padding", of=TEXTS)


def item_texts():
    """Each kind of item of Texts.r, and each padding of those with a text."""
    rect = "00FF0000 0001 0002 0003 0004 "
    parts = [('Button {\nenabled; "OK"; $\n}', '04 02 "OK"'), ('Button {\nenabled; "Stop"; $\n}', '04 04 "Stop"'),
             ('Button {\ndisabled; "Yes"; $41\n}', '84 03 "Yes" 41'), ('CheckBox {\ndisabled; "Cut"; $\n}', '85 03 "Cut" 00'),
             ('CheckBox {\nenabled; "Cut"; $FF\n}', '05 03 "Cut" FF'), ('RadioButton {\nenabled; "On"; $\n}', '06 02 "On"'),
             ('RadioButton {\nenabled; "Off"; $66\n}', '06 03 "Off" 66'), ("Control {\nenabled; 128\n}", "07 02 0080"),
             ('StaticText {\ndisabled; "Name:"; $\n}', '88 05 "Name:" 00'), ('StaticText {\ndisabled; "?"; $3F\n}', '88 01 "?" 3F'),
             ('EditText {\nenabled; ""; $\n}', "10 00"), ('EditText {\nenabled; "a"; $01\n}', '10 01 "a" 01'),
             ("Icon {\ndisabled; 1\n}", "A0 02 0001"), ("Picture {\ndisabled; 200\n}", "C0 02 00C8"),
             ("UserItem {\nenabled; 0x00\n}", "00 00"), ("UserItem {\nenabled; 0x07\n}", "00 07"),
             ("HelpItem {\ndisabled\n{\n1; 130\n}\n}", "81 04 0001 0082"),
             ("HelpItem {\ndisabled\n{\n8; 132; 5\n}\n}", "81 06 0008 0084 0005")]
    one("DITL", "{\n" + "\n".join("0x00FF0000; {1, 2, 3, 4}\n" + text for text, _ in parts) + "\n}",
        "0011 " + " ".join(rect + content for _, content in parts), of=TEXTS)


def help_texts():
    """Balloon help of Texts.r."""
    one("hwin", "2; 0x00000000\n{\n128; 'hdlg'; 8; \"Untitled\"\n129; 'hrct'; -8; \"\"\n}",
        '0002 00000000 0002 0080 "hdlg" 0008 08 "Untitled" 00 0081 "hrct" FFF8 00 00', of=TEXTS)
    spot = "{1, 2}; {3, 4, 5, 6}; "
    one("hrct", """3; 0x00000010; 0; 1\n{\nHMStringItem {\n%s"Here."\n}\nHMStringItem {\n%s"Even"\n}\nHMPictItem {\n%s131\n}
        HMStringResItem {\n%s132; 1\n}\nHMTEResItem {\n%s133\n}\nHMSTRResItem {\n%s134\n}\nHMSkipItem {\n}\n}""" % (spot, spot, spot, spot, spot, spot),
        """0003 00000010 0000 0001 0007 0016 0001 0001 0002 0003 0004 0005 0006 05 "Here."
        0016 0001 0001 0002 0003 0004 0005 0006 04 "Even" 00 0012 0002 0001 0002 0003 0004 0005 0006 0083
        0014 0003 0001 0002 0003 0004 0005 0006 0084 0001
        0012 0006 0001 0002 0003 0004 0005 0006 0085 0012 0007 0001 0002 0003 0004 0005 0006 0086 0004 0100""", of=TEXTS)
    one("hfdr", """2; 0x00000000; 0; 0\n{\nHMStringItem {\n"It draws."\n}\nHMStringItem {\n"It writes."\n}
        HMPictItem {\n128\n}\nHMStringResItem {\n129; 2\n}\nHMTEResItem {\n130\n}\nHMSTRResItem {\n1000\n}\nHMSkipItem {\n}\n}""",
        """0002 00000000 0000 0000 0007 000E 0001 09 "It draws." 0010 0001 0A "It writes." 00
        0006 0002 0080 0008 0003 0081 0002 0006 0006 0082 0006 0007 03E8 0004 0100""", -5696, of=TEXTS)


# A file whose padding isn't zero, as examples/padded.r makes it.

def padded_fork(window, dialog, parts):
    """The fork with a title and its padding of a window and of a dialog, and the contents of four items with a text."""
    places = ("005A 010E 006E 0154", "005A 00B4 006E 00FA", "0014 0014 0024 005A", "0014 0064 0024 0154", "0032 0064 0044 0154",
              "0032 0014 0044 005A")
    items = " ".join("00000000 %s %s" % each for each in zip(places, parts + ["A0 02 0001"]))
    contents = (("WIND", 128, "0028 0014 00F0 01A4 0000 0100 0100 00000000 %s 380A" % window),
                ("DLOG", 129, "003C 0028 00B4 0190 0001 0100 0000 00000000 0081 %s 280A" % dialog),
                ("DITL", 129, "0005 " + items))
    return image([(kind.encode(), ident, b"", 0, spelled(content)) for kind, ident, content in contents])


def catalogue(texts):
    """The entries of texts, each a type, an id, a number and a text, as strings writes them."""
    return "".join("'%s' %d %d\n    \"%s\";\n" % each for each in texts)


PADDED = padded_fork('08 "Untitled" 6C', '04 "Find" 74',
                     ['04 04 "Find"', '04 06 "Cancel"', '88 05 "Find:" 6F', "10 00", '05 05 "Words" 00'])
PADDED_TEXTS = [("WIND", 128, 0, "Untitled"), ("WIND", 128, 1, "l"), ("DLOG", 129, 0, "Find"), ("DLOG", 129, 1, "t")] + [
    ("DITL", 129, number, text) for number, text in enumerate(["Find", "", "Cancel", "", "Find:", "o", "", "", "Words", ""])]


def padded():
    """The whole file is shown and compiled, and its texts go out and back."""
    BOOK.say("A file whose padding isn't zero: whole by values, and its texts out and back.")
    types = ("t.r", STANDARD.declaration("'WIND'", "'DLOG'", "'DITL'"))
    text = shown("WIND", 128, """{40, 20, 240, 420}; documentProc; visible; goAway; 0x00000000; "Untitled"\n{\n$6C; staggerMainScreen\n}""")
    text += shown("DLOG", 129, """{60, 40, 180, 400}; dBoxProc; visible; noGoAway; 0x00000000; 129; "Find"\n{\n$74; centerMainScreen\n}""")
    text += shown("DITL", 129, """{\n{90, 270, 110, 340}\nButton {\nenabled; "Find"\n}\n$
        {90, 180, 110, 250}\nButton {\nenabled; "Cancel"\n}\n$\n{20, 20, 36, 90}\nStaticText {\ndisabled; "Find:"\n}\n$6F
        {20, 100, 36, 340}\nEditText {\nenabled; ""\n}\n$\n{50, 100, 68, 340}\nCheckBox {\nenabled; "Words"\n}\n$
        {50, 20, 68, 90}\nIcon {\ndisabled; 1\n}\n$\n}""")
    BOOK.case("shown: a file whose padding isn't zero", "derez f t.r" + EITHER, [("f", PADDED), types], out=text)
    BOOK.case("compiled: the same", "rez t.r s.r -o x" + EITHER, [types, ("s.r", text)], leaves=[("x", PADDED)])
    of_texts = ("t.r", TEXTS.declaration("'WIND'", "'DLOG'", "'DITL'"))
    BOOK.case("its texts and paddings", "strings f t.r", [("f", PADDED), of_texts], out=catalogue(PADDED_TEXTS))
    BOOK.case("its texts go back", "restring f c t.r -o x", [("f", PADDED), ("c", catalogue(PADDED_TEXTS)), of_texts],
              leaves=[("x", PADDED)])
    translations(of_texts)


def translations(types):
    """Other texts for the file: of the same evenness, longer ones, and such for which the padding is emptied."""
    longer = [("WIND", 128, 0, "Ohne Titel"), ("DLOG", 129, 0, "Suchen"), ("DITL", 129, 0, "Suchen"), ("DITL", 129, 2, "Abbrechen"),
              ("DITL", 129, 8, "Ganze W\\0x9Arter")]
    odd, even, padding = ("DITL", 129, 4, "Suchen:"), ("DITL", 129, 4, "Suche:"), ("DITL", 129, 5, "")
    around = ['04 06 "Suchen"', '04 09 "Abbrechen" 00', None, "10 00", '05 0C "Ganze W" 9A "rter"']
    for name, entries, part in (("odd as before", longer + [odd], '88 07 "Suchen:" 6F'),
                                ("even, and its padding empty", longer + [even, padding], '88 06 "Suche:"'),
                                ("odd, and its padding empty", longer + [odd, padding], '88 07 "Suchen:" 00')):
        fork = padded_fork('0A "Ohne Titel" 6C', '06 "Suchen" 74', [each or part for each in around])
        BOOK.case("longer texts, of which one is " + name, "restring f c t.r -o x", [("f", PADDED), ("c", catalogue(entries)), types],
                  leaves=[("x", fork)])
    for name, entries, line, resource in (("an item", [even], 1, "'DITL' 129"), ("a window", [("WIND", 128, 0, "Leer!")], 1, "'WIND' 128"),
                                          ("a dialog", longer[:1] + [("DLOG", 129, 0, "Suche")], 3, "'DLOG' 129")):
        BOOK.case("a text of %s that has no room for its padding" % name, "restring f c t.r -o x",
                  [("f", PADDED), ("c", catalogue(entries)), types], status=2,
                  err="rezkit: c:%d: error 464 TextRefused: %s\n" % (line, resource))
