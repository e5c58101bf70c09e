// Types of an application's resources, after those that Macintosh programmers use.

// A list of strings.
type 'STR#' { integer = $$CountOf(Strings); array Strings { pstring; }; };

// A version: numbers, a region, and what the Finder shows.
type 'vers' {
    hex byte; hex byte;
    hex byte development = 0x20, alpha = 0x40, beta = 0x60, release = 0x80;
    hex byte;
    integer;
    pstring; pstring;
};

// A menu: its id, which items can be chosen, its title and its items. It is shorter than the standard MENU, which is in
// types/Types.r and takes `textMenuProc` and `enabled` as items too, so that the example stands for itself.
type 'MENU' {
    integer; fill word[2]; integer = 0; fill word;
    unsigned hex longint allEnabled = 0xFFFFFFFF;
    pstring;
    array { pstring; byte noIcon; char noKey = "\0x00"; char noMark = "\0x00"; byte plain; };
    byte = 0;
};

// An alert: its place, the list of its items, and what happens at each time that it comes up.
type 'ALRT' { rect; integer; unsigned hex integer; };

// The items of a dialog or an alert.
type 'DITL' {
    integer = $$CountOf(Parts) - 1;
    wide array Parts {
        fill long; rect;
        switch {
        case Button: boolean enabled, disabled; key bitstring[7] = 4; pstring;
        case UserItem: boolean enabled, disabled; key bitstring[7] = 0; fill byte;
        };
        align word;
    };
};
