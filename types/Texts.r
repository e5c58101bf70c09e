/* Texts.r: the types whose texts a translator changes, for strings, restring and derez.

   strings FORK types/Texts.r            writes the texts of a fork
   restring FORK TEXTS types/Texts.r     puts them back
   derez FORK types/Texts.r              shows where each text stands

   In a catalogue are the texts of these resources, and padding. All else is a number, which may have any value, also one
   without a meaning. Sources include Types.r, which names the values.

   Padding is one byte where a text ends at an odd place, and else none. Most programs write a zero there, some leave any
   byte. Only a string can be one byte or none by the place where it stands. So the padding after the text of a dialog
   item, and after the title of a window or a dialog that has a position, is a string, and an entry with the number after
   that of its text. An empty entry stands for no padding, and for one that is zero.

   Each comment names the book of Inside Macintosh that has the layout, and its chapter: Essentials is Macintosh Toolbox
   Essentials, More is More Macintosh Toolbox, and Text has its own name. Types without a book are as Types.r has them. */
#ifndef __TEXTS_R__
#define __TEXTS_R__

/* A text of at most 255 bytes. Text, Text Utilities. */
type 'STR ' {
    pstring;
};

/* A list of texts. Text, Text Utilities. */
type 'STR#' {
    integer = $$CountOf(Strings);
    array Strings {
        pstring;
    };
};

/* Text without a length. Text, TextEdit. */
type 'TEXT' {
    string;
};

/* A menu: its title, then its items. Essentials, Menu Manager. */
type 'MENU' {
    integer;                                            // id of the menu
    integer;                                            // width and height, which some tools store
    integer;
    integer;                                            // id of its definition
    integer;                                            // reserved
    unsigned hex longint;                               // which items can be chosen
    pstring;                                            // title
    array {
        pstring;
        unsigned byte;                                  // icon
        char;                                           // key
        char;                                           // mark
        unsigned hex byte;                              // style
    };
    byte = 0;
};

/* A window: its title, and the padding before a position. Essentials, Window Manager. */
type 'WIND' {
    rect;
    integer;                                            // procID
    unsigned hex integer;                               // visible
    unsigned hex integer;                               // goAway
    unsigned hex longint;                               // refCon
    pstring;                                            // title
    array {
    afterTitle:
        hex string[afterTitle / 8 % 2];                 // padding
        unsigned hex integer;                           // position
    };
};

/* A dialog: its title, and the padding before a position. Essentials, Dialog Manager. */
type 'DLOG' {
    rect;
    integer;                                            // procID
    unsigned hex integer;                               // visible
    unsigned hex integer;                               // goAway
    unsigned hex longint;                               // refCon
    integer;                                            // id of the DITL
    pstring;                                            // title
    array {
    afterTitle:
        hex string[afterTitle / 8 % 2];                 // padding
        unsigned hex integer;                           // position
    };
};

/* The items of a dialog or an alert: of each that has a text this text, and its padding. Essentials, Dialog Manager;
   HelpItem: More, Help Manager. */
type 'DITL' {
    integer = $$CountOf(Items) - 1;
    array Items {
        unsigned hex longint;                           // reserved for a handle
        rect;
        switch {
        case Button:
            boolean enabled, disabled;
            key bitstring[7] = 4;
            pstring;
        afterButton:
            hex string[afterButton / 8 % 2];            // padding
        case CheckBox:
            boolean enabled, disabled;
            key bitstring[7] = 5;
            pstring;
        afterCheckBox:
            hex string[afterCheckBox / 8 % 2];          // padding
        case RadioButton:
            boolean enabled, disabled;
            key bitstring[7] = 6;
            pstring;
        afterRadioButton:
            hex string[afterRadioButton / 8 % 2];       // padding
        case StaticText:
            boolean enabled, disabled;
            key bitstring[7] = 8;
            pstring;
        afterStaticText:
            hex string[afterStaticText / 8 % 2];        // padding
        case EditText:
            boolean enabled, disabled;
            key bitstring[7] = 16;
            pstring;
        afterEditText:
            hex string[afterEditText / 8 % 2];          // padding
        case Control:
            boolean enabled, disabled;
            key bitstring[7] = 7;
            byte = 2;
            integer;                                    // id of the CNTL
        case Icon:
            boolean enabled, disabled;
            key bitstring[7] = 32;
            byte = 2;
            integer;                                    // id of the ICON
        case Picture:
            boolean enabled, disabled;
            key bitstring[7] = 64;
            byte = 2;
            integer;                                    // id of the PICT
        case HelpItem:
            boolean enabled, disabled;
            key bitstring[7] = 1;
            byte = (end - start) / 8;
        start:
            array {
                integer;                                // kind, id, and maybe the item to begin with
            };
        end:
        case UserItem:
            boolean enabled, disabled;
            key bitstring[7] = 0;
            unsigned hex byte;                          // reserved
        };
    };
};

/* A control: its title. Essentials, Control Manager. */
type 'CNTL' {
    rect;
    integer;                                            // value
    unsigned hex integer;                               // visible
    integer;                                            // maximum
    integer;                                            // minimum
    integer;                                            // procID
    unsigned hex longint;                               // refCon
    pstring;                                            // title
};

/* A version: the number, and what Get Info shows. Essentials, Finder Interface. */
type 'vers' {
    unsigned hex longint;                               // the number by digits, and the stage
    integer;                                            // region
    pstring;
    pstring;
};

/* The words of Open and Quit in menus with other ones, and lists of them. */
type 'mstr' as 'STR ';
type 'mst#' as 'STR#';

/* The text of an error, whose id is the error's number. */
type 'Estr' as 'STR ';

/* Which help belongs to which window, by the beginning of its title. More, Help Manager. */
type 'hwin' {
    integer;                                            // version
    unsigned hex longint;                               // options
    integer = $$CountOf(Windows);
    array Windows {
        integer;                                        // id
        literal longint;                                // hrct or hdlg
        integer;                                        // how many bytes of the title, or the kind of window
        pstring;
        align word;
    };
};

/* The help of places in a window, with texts of its own or of other resources. More, Help Manager. */
type 'hrct' {
    integer;                                            // version
    unsigned hex longint;                               // options
    integer;                                            // id of the WDEF of balloons
    integer;                                            // variation
    integer = $$CountOf(Places);
    array Places {
        switch {
        case HMStringItem:
        start:
            integer = (end - start) / 8;
            key integer = 1;
            point;                                      // tip
            rect;
            pstring;
            align word;
        end:
        case HMPictItem:
            integer = 18;
            key integer = 2;
            point;
            rect;
            integer;                                    // id of the PICT
        case HMStringResItem:
            integer = 20;
            key integer = 3;
            point;
            rect;
            integer;                                    // id of the STR#
            integer;                                    // which of its texts
        case HMTEResItem:
            integer = 18;
            key integer = 6;
            point;
            rect;
            integer;                                    // id of the TEXT and styl
        case HMSTRResItem:
            integer = 18;
            key integer = 7;
            point;
            rect;
            integer;                                    // id of the STR
        case HMSkipItem:
            integer = 4;
            key integer = 256;
        };
    };
};

/* The help of an icon of the Finder, with the id -5696. More, Help Manager. */
type 'hfdr' {
    integer;                                            // version
    unsigned hex longint;                               // options
    integer;                                            // id of the WDEF of balloons
    integer;                                            // variation
    integer = $$CountOf(Parts);
    array Parts {
        switch {
        case HMStringItem:
        start:
            integer = (end - start) / 8;
            key integer = 1;
            pstring;
            align word;
        end:
        case HMPictItem:
            integer = 6;
            key integer = 2;
            integer;                                    // id of the PICT
        case HMStringResItem:
            integer = 8;
            key integer = 3;
            integer;                                    // id of the STR#
            integer;                                    // which of its texts
        case HMTEResItem:
            integer = 6;
            key integer = 6;
            integer;                                    // id of the TEXT and styl
        case HMSTRResItem:
            integer = 6;
            key integer = 7;
            integer;                                    // id of the STR
        case HMSkipItem:
            integer = 4;
            key integer = 256;
        };
    };
};
#endif
