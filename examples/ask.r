// A dialog that asks whether to save, and its items.
#include "Types.r"

resource 'DLOG' (128, "Save changes", purgeable) {
    {100, 100, 200, 412}, dBoxProc, visible, noGoAway, 0, 128, "", centerMainScreen
};

resource 'DITL' (128, purgeable) { {
    {68, 230, 88, 298}, Button { enabled, "Save" };
    {68, 150, 88, 218}, Button { enabled, "Cancel" };
    {12, 72, 60, 298}, StaticText { disabled, "Save the changes before closing?" };
} };
