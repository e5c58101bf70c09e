// A type of plain fields, as that of a window, and one resource of it.
type 'WIND' {
    rect;                                                        // top, left, bottom, right
    integer documentProc, dBoxProc, plainDBox, zoomDocProc = 8;  // what the window looks like
    byte invisible, visible;
    fill byte;
    byte noGoAway, goAway;
    fill byte;
    unsigned hex longint;                                        // a number for the program
    pstring;                                                     // the title
};

resource 'WIND' (128, "main", purgeable) {
    {40, 20, 240, 420}, zoomDocProc, visible, goAway, $$ID, "Untitled"
};
