// A dialog's items and a list of strings.
type 'STR#' { integer = $$CountOf(Strings); array Strings { pstring; }; };

type 'DITL' {
    integer = $$CountOf(Parts) - 1;
    array Parts {
        fill long;
        rect;
        switch {
        case Button: boolean enabled, disabled; key bitstring[7] = 4; pstring;
        case UserItem: boolean enabled, disabled; key bitstring[7] = 0; fill byte;
        };
        align word;
    };
};

resource 'STR#' (128, "Messages") { { "Really?", "Yes", "No" } };

resource 'DITL' (128) { {
    {60, 220, 80, 290}, Button { enabled, "Yes" };
    {60, 140, 80, 210}, Button { enabled, "No" };
    {10, 10, 50, 290}, UserItem { disabled };
} };
