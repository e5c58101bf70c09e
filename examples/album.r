// What rezkit-look shows: a picture, icons, cursors, patterns, a sound and a text with its styles.
#include "Types.r"

// Opcodes of a picture of version 2.
data 'PICT' (128, "House") {
    $"0000 0000 0000 0078 00C8 0011 02FF 0C00 FFFE 0000 0048 0000 0048 0000 0000 0000"  // size, bounds, version 2, header
    $"0078 00C8 0000 0000"
    $"0001 000A 0000 0000 0078 00C8"  // clip region
    $"001A 9696 CDCD F5F5 0031 0000 0000 0050 00C8"  // sky
    $"001A 7878 B4B4 5050 0031 0050 0000 0078 00C8"  // meadow
    $"001A FFFF DCDC 4646 0051 000C 0094 0030 00B8"  // sun
    $"001A 5050 8C8C 4646 0071 001A 0024 000A 0050 0078 0050 000A 0024 003E 0050 0078"  // hill
    $"0050 000A"
    $"001A CDCD 5A5A 4646 0031 003E 005C 0068 0098"  // house
    $"001A 6E6E 3232 2828 0071 001A 0024 0054 003E 00A0 003E 0054 0024 007A 003E 00A0"  // roof
    $"003E 0054"
    $"001A FAFA F0F0 D7D7 000B 0008 0008 0041 004C 0072 0068 0082"  // door
    $"001A 0000 0000 0000 0030 003E 005C 0068 0098 0050 000C 0094 0030 00B8"  // outlines
    $"000D 000C 0028 0071 0008 0B72 657A 6B69 742D 6C6F 6F6B"  // text
    $"00FF"  // end
};

// An icon in color: its maps, 24 lines of a mask, 24 lines of black and white, four colors, 24 lines of two bits a pixel.
data 'cicn' (128, "Stop") {
    $"0000 0000 8006 0000 0000 0018 0018 0000 0000 0000 0000 0048 0000 0048 0000 0000 0002 0001 0002"
    $"0000 0000 0000 0000 0000 0000"
    $"0000 0000 0004 0000 0000 0018 0018" $"0000 0000 0004 0000 0000 0018 0018" $"0000 0000"
    $"0000 0000" $"03FF C000" $"07FF E000" $"0FFF F000" $"1FFF F800" $"3FFF FC00" $"7FFF FE00" $"7FFF FE00"
    $"7FFF FE00" $"7FFF FE00" $"7FFF FE00" $"7FFF FE00" $"7FFF FE00" $"7FFF FE00" $"7FFF FE00" $"7FFF FE00"
    $"7FFF FE00" $"7FFF FE00" $"3FFF FC00" $"1FFF F800" $"0FFF F000" $"07FF E000" $"03FF C000" $"0000 0000"
    $"0000 0000" $"03FF C000" $"07FF E000" $"0FFF F000" $"1FFF F800" $"3FFF FC00" $"7FFF FE00" $"7FFF FE00"
    $"7FFF FE00" $"7000 0E00" $"7000 0E00" $"7000 0E00" $"7000 0E00" $"7000 0E00" $"7000 0E00" $"7FFF FE00"
    $"7FFF FE00" $"7FFF FE00" $"3FFF FC00" $"1FFF F800" $"0FFF F000" $"07FF E000" $"03FF C000" $"0000 0000"
    $"0000 0000 0000 0003" $"0000 FFFF FFFF FFFF" $"0001 E8E8 3030 3030" $"0002 B4B4 1818 1818" $"0003 0000 0000 0000"
    $"0000 0000 0000" $"000F FFFF F000" $"0035 5555 5C00" $"00D5 5555 5700" $"0355 5555 55C0" $"0D55 5555 5570"
    $"3555 5555 555C" $"3555 5555 555C" $"3555 5555 555C" $"3500 0000 005C" $"3500 0000 005C" $"3500 0000 005C"
    $"3A00 0000 00AC" $"3A00 0000 00AC" $"3A00 0000 00AC" $"3AAA AAAA AAAC" $"3AAA AAAA AAAC" $"3AAA AAAA AAAC"
    $"0EAA AAAA AAB0" $"03AA AAAA AAC0" $"00EA AAAA AB00" $"003A AAAA AC00" $"000F FFFF F000" $"0000 0000 0000"
};

resource 'CURS' (128, "Arrow") {
    $"0000 4000 6000 7000 7800 7C00 7E00 7F00 7F80 7C00 6C00 4600 0600 0300 0300 0000",
    $"C000 E000 F000 F800 FC00 FE00 FF00 FF80 FFC0 FFE0 FE00 EF00 CF00 8780 0780 0380",
    {1, 1}
};

resource 'PAT ' (128, "Gray") { $"AA55 AA55 AA55 AA55" };
resource 'PAT#' (128, "Desks") { {
    $"8822 8822 8822 8822", $"FF80 8080 FF08 0808", $"8142 2418 1824 4281", $"0814 2241 8241 2214", $"0102 0408 1020 4080"
} };

// A tenth of a second of 882 hertz: 88 waves of 25 samples, at 22,050 samples a second.
#define wave    $"8096 ABBE CCD6 DAD8 D1C5 B5A1 8B75 5F4B 3B2F 2826 2A34 4255 6A"
#define eleven  wave wave wave wave wave wave wave wave wave wave wave
data 'snd ' (128, "Beep") {
    $"0001 0001 0005 0000 00A0"  // format 1, samples
    $"0001 8051 0000 0000 0014"  // one command: play what stands at 20
    $"0000 0000 0000 0898 5622 0000 0000 0000 0000 0000 003C"  // 2,200 samples
    eleven eleven eleven eleven eleven eleven eleven eleven
};

data 'TEXT' (128, "Read me") {
    "Read me first\n"
    "A text can have bold, italic and underlined letters, larger ones, and letters in color.\n"
};
resource 'styl' (128, "Read me") { {  // for each run: where it begins, its line, ascent, font, face, size and color
    0, 24, 18, 3, 0x1, 18, 0, 0, 0;
    14, 16, 12, 3, 0x0, 12, 0, 0, 0;
    30, 16, 12, 3, 0x1, 12, 0, 0, 0;
    34, 16, 12, 3, 0x0, 12, 0, 0, 0;
    36, 16, 12, 3, 0x2, 12, 0, 0, 0;
    42, 16, 12, 3, 0x0, 12, 0, 0, 0;
    47, 16, 12, 3, 0x4, 12, 0, 0, 0;
    57, 16, 12, 3, 0x0, 12, 0, 0, 0;
    92, 16, 12, 3, 0x0, 12, 46260, 6168, 6168;
    100, 16, 12, 3, 0x0, 12, 0, 0, 0
} };
