// The resources of a small application.
#include "Types.r"

resource 'vers' (1, purgeable) { 0x01, 0x00, release, 0x00, verUS, "1.0", "1.0 Sample" };
resource 'MENU' (128) { 128, textMenuProc, allEnabled, enabled, "File", { "Quit", noIcon, "Q", noMark, plain } };
resource 'ALRT' (128) { {40, 40, 140, 340}, 128, {
    OK, visible, sound1; OK, visible, sound1; OK, visible, sound1; OK, visible, sound1
}, centerMainScreen };
resource 'DITL' (128) { { {60, 220, 80, 290}, Button { enabled, "OK" } } };
resource 'STR#' (128) { { "Untitled" } };

// The icon, a box, and its mask: 32 lines of 32 bits each.
#define line  $"FFFF FFFF"
#define ends  $"8000 0001"
#define box   ends ends ends ends ends ends ends ends ends ends
#define lines line line line line line line line line
resource 'ICN#' (128) { { line box box box line, lines lines lines lines } };
