// A window and a dialog as ResEdit leaves them now and then: the bytes that make lengths even aren't zero.
#define EitherSystem
#include "Types.r"

resource 'WIND' (128) {
    {40, 20, 240, 420}, documentProc, visible, goAway, 0, "Untitled", { $"6C", staggerMainScreen }
};
resource 'DLOG' (129) {
    {60, 40, 180, 400}, dBoxProc, visible, noGoAway, 0, 129, "Find", { $"74", centerMainScreen }
};
resource 'DITL' (129) { {
    {90, 270, 110, 340}, Button { enabled, "Find" }, "";
    {90, 180, 110, 250}, Button { enabled, "Cancel" }, "";
    {20, 20, 36, 90}, StaticText { disabled, "Find:" }, $"6F";
    {20, 100, 36, 340}, EditText { enabled, "" }, "";
    {50, 100, 68, 340}, CheckBox { enabled, "Words" }, "";
    {50, 20, 68, 90}, Icon { disabled, 1 }, "";
} };
