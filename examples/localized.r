// The application in French: all its resources but the menu, a French menu, and a text about it.
#include "Types.r"

include "App.rsrc" not 'MENU';
include "App.rsrc" 'vers' (1) as 'vers' (2, "English", $$Attributes);

resource 'MENU' (128) {
    128, textMenuProc, allEnabled, enabled, "Fichier", { "Quitter", noIcon, "Q", noMark, plain }
};
read 'TEXT' (128, "About") "about.txt";
