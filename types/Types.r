/* Types.r: the standard types of the Toolbox, the Finder and the system, as declarations for rezkit.

   rez -i types SOURCE.r      the source has #include "Types.r", or the name of a file beside this one, as "SysTypes.r"
   derez FORK types/Types.r   shows a fork by these types

   All types stand in this one file, since a type file of derez finds what it includes by -i alone. If it is included
   twice, by whatever names, nothing is declared twice.

   Macros that choose (by -d, or by #define before the #include):

   SystemSevenOrLater   1 unless stated: the items of WIND, DLOG and ALRT end in a position on the screen. 0 is the
                        form of before System 7, without it.
   EitherSystem         For derez of a fork of any age, and for rez of its text; not for other sources. The position
                        of WIND, DLOG and ALRT is a list of none or one, and in those of WIND and DLOG a string of the
                        padding stands before it. The width and height of a MENU are items, each item of a DITL has a
                        string of the padding after it, and what stands after the short form of a thng is a string.
   thng_RezTemplateVersion, UseExtendedThingTemplate
                        which form of thng: 0 (the short one, unless stated), 1 (also by UseExtendedThingTemplate) or 2.

   Types, by section:

   texts       STR  STR# TEXT styl
   menus       MENU MBAR mctb xmnu
   windows     WIND wctb
   dialogs     DLOG ALRT DITL dlgx dftb dctb actb
   controls    CNTL cctb ldes
   icons       ICON ICN# icl4 icl8 ics# ics4 ics8 icm# icm4 icm8 SICN cicn
   cursors     CURS acur crsr; patterns: PAT  PAT# ppat; pictures: PICT
   colours     clut pltt
   fonts       NFNT FONT FOND
   sounds      snd
   Finder      BNDL FREF vers mstr mst#
   system      SIZE cfrg carb plst thng mach nrct aete aeut
   help        hwin hrct hfdr
   tools       DRVW TMPL MPSR Estr

   Macros that stay, for sources: apple, Untitled, kHMHelpID, those of pop-up menus (popupTitleLeftJust and so on),
   Reserved8, Reserved9, Reserved12 and Reserved13.

   Each comment says after "Items:" what a source writes, in order, where [..] is an item that not all forms have, and
   then the book of Inside Macintosh that has the layout, and its chapter: Essentials is Macintosh Toolbox Essentials,
   More is More Macintosh Toolbox, Imaging is Imaging With QuickDraw, and the others have their own names. Types
   without a book are of Mac OS 8 or of a tool.

   Not here yet: hmnu, hdlg and hovr, whose parts begin with their length as those of hfdr do, and ictb. Of snd and FOND
   the parts after the fields here are one string, and so are pixels. Texts.r has the types of a translation alone. */
#ifndef __TYPES_R__
#define __TYPES_R__

#ifndef SystemSevenOrLater
#define SystemSevenOrLater 1
#endif

#ifndef thng_RezTemplateVersion
#ifdef UseExtendedThingTemplate
#define thng_RezTemplateVersion 1
#else
#define thng_RezTemplateVersion 0
#endif
#endif

/* What several types share. Macros that begin with types_ are undefined at the end. */
#define types_styles plain = 0, bold = 1, italic = 2, underline = 4, outline = 8, shadow = 16, condense = 32, extend = 64
#define types_rgb unsigned integer; unsigned integer; unsigned integer


/* ---- Texts ---- */

/* A text of at most 255 bytes. Items: "text". Text, Text Utilities. */
type 'STR ' {
    pstring;
};

/* A list of texts. Items: { "one"; "two" }. Text, Text Utilities. */
type 'STR#' {
    integer = $$CountOf(StringArray);
    array StringArray {
        pstring;
    };
};

/* Text without a length. Items: "text". Text, TextEdit. */
type 'TEXT' {
    string;
};

/* The styles of a TEXT with the same id. Items: { first character, height, ascent, font, style, size, red, green,
   blue; .. }. Text, TextEdit (the style scrap). */
type 'styl' {
    integer = $$CountOf(ScrpArray);
    array ScrpArray {
        longint;                                        // first character
        integer;                                        // height of the line
        integer;                                        // ascent
        integer;                                        // font
        unsigned hex byte types_styles;
        fill byte;
        integer;                                        // size
        types_rgb;
    };
};


/* ---- Menus ---- */

/* The apple, as the title of the first menu. */
#define apple "\0x14"

/* A menu. Items: id, textMenuProc, flags, enabled, "title", { "item", icon, key, mark, style; .. }. The flags are
   allEnabled, or a bit for each item, the first one lowest. Essentials, Menu Manager. */
type 'MENU' {
    integer;                                            // id of the menu
#ifdef EitherSystem
    integer; integer;                                   // width and height, which some tools store
#else
    fill word[2];
#endif
    integer textMenuProc = 0;                           // id of its definition
    fill word;
    unsigned hex bitstring[31] allEnabled = 0x7FFFFFFF; // which items can be chosen
    boolean disabled, enabled;                          // whether the menu can
    pstring;                                            // title
    wide array {
        pstring;
        unsigned byte noIcon;                           // number of an icon, less 256
        char noKey = "\0x00", hierarchicalMenu = "\0x1B";
        char noMark = "\0x00", check = "\0x12";         // or the id of the menu that hangs here
        unsigned hex byte types_styles;
    };
    byte = 0;
};

/* A menu bar. Items: { id; .. }. Essentials, Menu Manager. */
type 'MBAR' {
    integer = $$CountOf(MenuArray);
    array MenuArray {
        integer;
    };
};

/* The colours of menus. Items: { menu, item, { title or mark, item, key, background or bar: red, green, blue each };
   .. }. Essentials, Menu Manager. */
type 'mctb' {
    integer = $$CountOf(MCEntryArray);
    wide array MCEntryArray {
        integer mctAllItems = -98, mctLastIDIndic = -99;
        integer;                                        // number of the item
        wide array [4] {
            types_rgb;
        };
        fill word;
    };
};

/* What Mac OS 8 keeps of a menu beside MENU. Items: versionZero { { dataItem { command, modifiers, text encoding,
   two refCons, id of a submenu, font, glyph of the key }; skipItem { }; .. } }. */
type 'xmnu' {
    switch {
    case versionZero:
        key integer = 0;
        integer = $$CountOf(ItemExtensions);
        array ItemExtensions {
            switch {
            case skipItem:
                key integer = 0;
            case dataItem:
                key integer = 1;
                unsigned longint;                       // command
                unsigned hex byte kMenuNoModifiers = 0, kMenuShiftModifier = 1, kMenuOptionModifier = 2,
                    kMenuControlModifier = 4, kMenuNoCommandModifier = 8;
                fill byte;                              // kind of icon
                fill long;                              // handle of the icon
                longint sysScript = -1, currScript = -2; // text encoding
                unsigned longint;                       // refCon
                unsigned longint;                       // another one
                unsigned integer noHierID = 0;          // id of the submenu
                unsigned integer sysFont = 0;
                integer naturalGlyph = 0;
            };
        };
    };
};


/* ---- Windows ---- */

/* The procID of a WIND and a DLOG: 16 times the id of a WDEF, and a variation. */
#define types_window_procs documentProc = 0, dBoxProc = 1, plainDBox = 2, altDBoxProc = 3, noGrowDocProc = 4, \
    movableDBoxProc = 5, zoomDocProc = 8, zoomNoGrow = 12, rDocProc = 16, \
    kWindowDocumentProc = 1024, kWindowGrowDocumentProc = 1025, kWindowVertZoomDocumentProc = 1026, \
    kWindowVertZoomGrowDocumentProc = 1027, kWindowHorizZoomDocumentProc = 1028, \
    kWindowHorizZoomGrowDocumentProc = 1029, kWindowFullZoomDocumentProc = 1030, \
    kWindowFullZoomGrowDocumentProc = 1031, kWindowPlainDialogProc = 1040, kWindowShadowDialogProc = 1041, \
    kWindowModalDialogProc = 1042, kWindowMovableModalDialogProc = 1043, kWindowAlertProc = 1044, \
    kWindowMovableAlertProc = 1045, kWindowMovableModalGrowProc = 1046, kWindowFloatProc = 1057, \
    kWindowFloatGrowProc = 1059, kWindowFloatVertZoomProc = 1061, kWindowFloatVertZoomGrowProc = 1063, \
    kWindowFloatHorizZoomProc = 1065, kWindowFloatHorizZoomGrowProc = 1067, kWindowFloatFullZoomProc = 1069, \
    kWindowFloatFullZoomGrowProc = 1071, kWindowFloatSideProc = 1073, kWindowFloatSideGrowProc = 1075, \
    floatProc = 1985, floatGrowProc = 1987, floatZoomProc = 1989, floatZoomGrowProc = 1991, floatSideProc = 1993, \
    floatSideGrowProc = 1995, floatSideZoomProc = 1997, floatSideZoomGrowProc = 1999

/* Where a window, a dialog or an alert comes up, from System 7 on. */
#define types_positions noAutoCenter = 0x0000, staggerParentWindow = 0xB80A, alertPositionParentWindow = 0xB00A, \
    centerParentWindow = 0xA80A, staggerParentWindowScreen = 0x780A, \
    alertPositionParentWindowScreen = 0x700A, centerParentWindowScreen = 0x680A, \
    staggerMainScreen = 0x380A, alertPositionMainScreen = 0x300A, centerMainScreen = 0x280A, \
    kWindowDefaultPosition = 0x0000, kWindowStaggerParentWindow = 0xB80A, \
    kWindowAlertPositionParentWindow = 0xB00A, kWindowCenterParentWindow = 0xA80A, \
    kWindowStaggerParentWindowScreen = 0x780A, kWindowAlertPositionParentWindowScreen = 0x700A, \
    kWindowCenterParentWindowScreen = 0x680A, kWindowStaggerMainScreen = 0x380A, \
    kWindowAlertPositionMainScreen = 0x300A, kWindowCenterMainScreen = 0x280A

/* The title that a new window has in many sources. */
#define Untitled "Untitled"

/* A window. Items: {top, left, bottom, right}, procID, visible or not, goAway or not, refCon, "title", [position].
   With EitherSystem the position is { padding, position } or { }: the padding makes the length before it even. Essentials,
   Window Manager. */
type 'WIND' {
    rect;
    integer types_window_procs;
    byte invisible, visible;
    fill byte;
    byte noGoAway, goAway;
    fill byte;
    unsigned hex longint;                               // refCon
    pstring;                                            // title
#ifdef EitherSystem
    array {
    padding:
        hex string[padding / 8 % 2];
        unsigned hex integer types_positions;
    };
#elif SystemSevenOrLater
    align word;
    unsigned hex integer types_positions;
#endif
};

/* The colours of a window. Items: 0, 0, { part, red, green, blue; .. }. Essentials, Window Manager. */
type 'wctb' {
    unsigned hex longint;                               // seed
    integer;                                            // reserved
    integer = $$CountOf(ColorSpec) - 1;
    wide array ColorSpec {
        integer wContentColor, wFrameColor, wTextColor, wHiliteColor, wTitleBarColor, wHiliteColorLight,
            wHiliteColorDark, wTitleBarLight, wTitleBarDark, wDialogLight, wDialogDark, wTingeLight, wTingeDark;
        types_rgb;
    };
};


/* ---- Dialogs ---- */

/* A dialog. Items: those of a WIND, with the id of its DITL before the title. Essentials, Dialog Manager. */
type 'DLOG' {
    rect;
    integer types_window_procs;
    byte invisible, visible;
    fill byte;
    byte noGoAway, goAway;
    fill byte;
    unsigned hex longint;                               // refCon
    integer;                                            // id of the DITL
    pstring;                                            // title
#ifdef EitherSystem
    array {
    padding:
        hex string[padding / 8 % 2];
        unsigned hex integer types_positions;
    };
#elif SystemSevenOrLater
    align word;
    unsigned hex integer types_positions;
#endif
};

/* An alert. Items: {top, left, bottom, right}, id of the DITL, { the fourth stage: OK or Cancel, visible or not,
   sound; the third; the second; the first }, [position]. Essentials, Dialog Manager. */
type 'ALRT' {
    rect;
    integer;                                            // id of the DITL
    wide array [4] {
        boolean OK, Cancel;                             // which button is the default
        boolean invisible, visible;
        unsigned bitstring[2] silent, sound1, sound2, sound3;
    };
#ifdef EitherSystem
    array {
        unsigned hex integer types_positions;
    };
#elif SystemSevenOrLater
    unsigned hex integer types_positions;
#endif
};

/* The items of a dialog or an alert. Items: { {top, left, bottom, right}, Button { enabled, "OK" } [, padding]; .. }. The
   padding after an odd text is zero, or else, as ResEdit leaves it now and then, a string of EitherSystem. Essentials,
   Dialog Manager; HelpItem: More, Help Manager. */
type 'DITL' {
    integer = $$CountOf(DITLarray) - 1;
    wide array DITLarray {
        fill long;
        rect;
        switch {
        case HelpItem:
            boolean enabled, disabled;
            key bitstring[7] = 1;
            switch {
            case HMScanhdlg:
                byte = 4;
                key integer = 1;
                integer;                                // id of the hdlg
            case HMScanhrct:
                byte = 4;
                key integer = 2;
                integer;                                // id of the hrct
            case HMScanAppendhdlg:
                byte = 6;
                key integer = 8;
                integer;                                // id of the hdlg
                integer;                                // offset of its first item
            };
        case Button:
            boolean enabled, disabled;
            key bitstring[7] = 4;
            pstring;
        case CheckBox:
            boolean enabled, disabled;
            key bitstring[7] = 5;
            pstring;
        case RadioButton:
            boolean enabled, disabled;
            key bitstring[7] = 6;
            pstring;
        case Control:
            boolean enabled, disabled;
            key bitstring[7] = 7;
            byte = 2;
            integer;                                    // id of the CNTL
        case StaticText:
            boolean enabled, disabled;
            key bitstring[7] = 8;
            pstring;
        case EditText:
            boolean enabled, disabled;
            key bitstring[7] = 16;
            pstring;
        case Icon:
            boolean enabled, disabled;
            key bitstring[7] = 32;
            byte = 2;
            integer;                                    // id of the ICON or cicn
        case Picture:
            boolean enabled, disabled;
            key bitstring[7] = 64;
            byte = 2;
            integer;                                    // id of the PICT
        case UserItem:
            boolean enabled, disabled;
            key bitstring[7] = 0;
            fill byte;
        };
#ifdef EitherSystem
    padding:
        hex string[padding / 8 % 2];
#else
        align word;
#endif
    };
};

/* What Mac OS 8 keeps of a dialog beside DLOG. Items: versionZero { flags }. */
type 'dlgx' {
    switch {
    case versionZero:
        key integer = 0;
        unsigned hex longint kDialogFlagsUseThemeBackground = 1, kDialogFlagsUseControlHierarchy = 2,
            kDialogFlagsHandleMovableModal = 4, kDialogFlagsUseThemeControls = 8;
    };
};

/* The fonts of the items of a dialog in Mac OS 8. Items: versionZero { { skipItem { }; dataItem { which of these count,
   font, size, style, mode, justification, red, green, blue, and those of the background, "font" }; .. } }. */
type 'dftb' {
    switch {
    case versionZero:
        key integer = 0;
        integer = $$CountOf(FontStyles);
        array FontStyles {
            switch {
            case skipItem:
                key integer = 0;
            case dataItem:
                key integer = 1;
                unsigned hex integer kDialogFontNoFontStyle = 0, kDialogFontUseFontMask = 0x0001,
                    kDialogFontUseFaceMask = 0x0002, kDialogFontUseSizeMask = 0x0004,
                    kDialogFontUseForeColorMask = 0x0008, kDialogFontUseBackColorMask = 0x0010,
                    kDialogFontUseModeMask = 0x0020, kDialogFontUseJustMask = 0x0040,
                    kDialogFontUseThemeFontIDMask = 0x0080, kDialogFontUseAllMask = 0x00FF,
                    kDialogFontAddFontSizeMask = 0x0100, kDialogFontUseFontNameMask = 0x0200;
                integer kControlFontBigSystemFont = -1, kControlFontSmallSystemFont = -2,
                    kControlFontSmallBoldSystemFont = -3, kControlFontViewSystemFont = -4;
                integer;                                // size
                integer;                                // style
                integer;                                // mode
                integer;                                // justification
                types_rgb;
                types_rgb;
                pstring;                                // name of the font
            };
        };
    };
};

/* The colours of a dialog and of an alert, as those of a window. Essentials, Dialog Manager. */
type 'dctb' as 'wctb';
type 'actb' as 'wctb';


/* ---- Controls ---- */

/* What a pop-up menu has in the value of its control, and what is added to popupMenuProc. They are macros, so the
   values of other controls aren't shown by them. */
#define popupMenuCDEFproc popupMenuProc
#define popupTitleLeftJust 0x0000
#define popupTitleCenterJust 0x0001
#define popupTitleRightJust 0x00FF
#define popupTitleBold 0x0100
#define popupTitleItalic 0x0200
#define popupTitleUnderline 0x0400
#define popupTitleOutline 0x0800
#define popupTitleShadow 0x1000
#define popupTitleCondense 0x2000
#define popupTitleExtend 0x4000
#define popupTitleNoStyle 0x8000
#define popupFixedWidth 1
#define popupVariableWidth 2
#define popupUseAddResMenu 4
#define popupUseWFont 8

/* A control. Items: {top, left, bottom, right}, value, visible or not, maximum, minimum, procID, refCon, "title".
   Essentials, Control Manager. */
type 'CNTL' {
    rect;
    integer;                                            // value
    byte invisible, visible;
    fill byte;
    integer;                                            // maximum
    integer;                                            // minimum
    integer pushButProc = 0, checkBoxProc = 1, radioButProc = 2, pushButProcUseWFont = 8, checkBoxProcUseWFont = 9,
        radioButProcUseWFont = 10, scrollBarProc = 16, kControlBevelButtonSmallBevelProc = 32,
        kControlBevelButtonNormalBevelProc = 33, kControlBevelButtonLargeBevelProc = 34, kControlSliderProc = 48,
        kControlTriangleProc = 64, kControlProgressBarProc = 80, kControlLittleArrowsProc = 96,
        kControlChasingArrowsProc = 112, kControlTabLargeProc = 128, kControlTabSmallProc = 129,
        kControlSeparatorLineProc = 144, kControlGroupBoxTextTitleProc = 160, kControlGroupBoxCheckBoxProc = 161,
        kControlGroupBoxPopupButtonProc = 162, kControlImageWellProc = 176, kControlPlacardProc = 224,
        kControlClockTimeProc = 240, kControlClockTimeSecondsProc = 241, kControlClockDateProc = 242,
        kControlClockMonthYearProc = 243, kControlUserPaneProc = 256, kControlEditTextProc = 272,
        kControlEditTextPasswordProc = 274, kControlStaticTextProc = 288, kControlPictureProc = 304,
        kControlPictureNoTrackProc = 305, kControlIconProc = 320, kControlIconNoTrackProc = 321,
        kControlIconSuiteProc = 322, kControlWindowHeaderProc = 336, kControlWindowListViewHeaderProc = 337,
        kControlListBoxProc = 352, kControlListBoxAutoSizeProc = 353, kControlPushButtonProc = 368,
        kControlCheckBoxProc = 369, kControlRadioButtonProc = 370, kControlScrollBarProc = 384,
        kControlScrollBarLiveProc = 386, kControlPopupButtonProc = 400, kControlRadioGroupProc = 416,
        popupMenuProc = 1008;
    longint;                                            // refCon
    pstring;                                            // title
};

/* The colours of a control. Items: 0, 0, { part, red, green, blue; .. }. Essentials, Control Manager. */
type 'cctb' {
    unsigned hex longint;                               // seed
    integer;                                            // reserved
    integer = $$CountOf(ColorSpec) - 1;
    wide array ColorSpec {
        integer cFrameColor, cBodyColor, cTextColor, cThumbColor;
        types_rgb;
    };
};

/* A list box of Mac OS 8. Items: versionZero { rows, columns, height and width of a cell, hasVertScroll or not,
   hasHorizScroll or not, id of the LDEF, hasGrowSpace or not }. */
type 'ldes' {
    switch {
    case versionZero:
        key integer = 0;
        integer;                                        // rows
        integer;                                        // columns
        integer;                                        // height of a cell
        integer;                                        // width of a cell
        byte noVertScroll, hasVertScroll;
        fill byte;
        byte noHorizScroll, hasHorizScroll;
        fill byte;
        integer;                                        // id of the LDEF
        byte noGrowSpace, hasGrowSpace;
        fill byte;
    };
};


/* ---- Icons ---- */

/* An icon of 32 by 32 bits. Items: $"..", of 128 bytes. More, Icon Utilities, as all of this section. */
type 'ICON' {
    hex string[128];
};

/* An icon and its mask. Items: { $".."; $".." }. */
type 'ICN#' {
    array {
        hex string[128];
    };
};

/* Icons of 32 by 32 pixels with 4 and with 8 bits each. Items: $"..". */
type 'icl4' {
    hex string[512];
};
type 'icl8' {
    hex string[1024];
};

/* Small icons, 16 by 16 pixels: of bits with a mask, and with 4 and 8 bits. Items: as above. */
type 'ics#' {
    array {
        hex string[32];
    };
};
type 'ics4' {
    hex string[128];
};
type 'ics8' {
    hex string[256];
};

/* Mini icons, 12 rows of 16 pixels: of bits with a mask, and with 4 and 8 bits. Items: as above. */
type 'icm#' {
    array {
        hex string[24];
    };
};
type 'icm4' {
    hex string[96];
};
type 'icm8' {
    hex string[192];
};

/* Any number of icons of 16 by 16 bits. Items: { $".."; .. }. */
type 'SICN' {
    array {
        hex string[32];
    };
};

/* A pixel map, as it stands in cicn, crsr and ppat: where its pixels are, 8000 and the bytes of a row, bounds, version,
   packing and packed size, pixels to the inch (across and down), kind, bits of a pixel, components, bits of one,
   distance of planes. Where its colour table is and what is reserved stand after them. Imaging, Color QuickDraw. */
#define types_pixmap unsigned hex longint; unsigned hex integer; rect; integer; integer unpacked = 0; unsigned longint; \
    unsigned hex longint; unsigned hex longint; integer chunky, chunkyPlanar, planar; integer; integer; integer; \
    unsigned longint

/* A colour table. Items: seed, flags, { value, red, green, blue; .. }. Imaging, Color QuickDraw. */
#define types_colours unsigned hex longint; unsigned hex integer; integer = $$CountOf(ColorSpec) - 1; \
    wide array ColorSpec { integer; types_rgb; }

/* An icon in colour. Items: the fields of its pixel map, where its colour table is, reserved, of its two bit maps (mask and
   icon) each where its bits are, the bytes of a row and the bounds, a handle, $".." (the mask), $".." (the icon), the
   colour table, $".." (the pixels). Imaging, Color QuickDraw. */
type 'cicn' {
    types_pixmap;
    unsigned longint;                                   // where the colour table is
    unsigned hex longint;
    unsigned hex longint;                               // where the bits of the mask are
maskBytes:
    integer;
maskBounds:
    rect;
    unsigned hex longint;                               // where the bits of the icon are
iconBytes:
    integer;
iconBounds:
    rect;
    unsigned hex longint;                               // handle of the pixels
    hex string[$$Word(maskBytes) * ($$BitField(maskBounds, 32, 16) - $$Word(maskBounds))];
    hex string[$$Word(iconBytes) * ($$BitField(iconBounds, 32, 16) - $$Word(iconBounds))];
    types_colours;
    hex string;
};


/* ---- Cursors, patterns and pictures ---- */

/* A cursor: 16 by 16 bits, its mask, and its hot spot. Items: $"..", $"..", {down, right}. Imaging, Cursor
   Utilities. */
type 'CURS' {
    hex string[32];
    hex string[32];
    point;
};

/* The cursors of a moving one. Items: { id of a CURS; .. }. Imaging, Cursor Utilities. */
type 'acur' {
    integer = $$CountOf(CursIdArray);
    fill word;                                          // the one that is shown
    array CursIdArray {
        integer;
        fill word;
    };
};

/* A cursor in colour. Items: kind, $"..", $"..", {down, right}, seed, id, the fields of its pixel map, $".." (the
   pixels), its colour table. Imaging, Cursor Utilities. */
type 'crsr' {
    unsigned hex integer oldCursor = 0x8000, newCursor = 0x8001;
    unsigned longint = pixelMap / 8;
    unsigned longint = pixels / 8;
    fill long;
    fill word;
    fill long;
    hex string[32];                                     // bits
    hex string[32];                                     // mask
    point;
    unsigned longint;                                   // seed of the colour table
    unsigned longint;                                   // id
pixelMap:
    types_pixmap;
    unsigned longint = colours / 8;
    unsigned hex longint;                               // reserved
pixels:
    hex string;
colours:
    types_colours;
};

/* A pattern of 8 by 8 bits, and a list of them. Items: $".."; { $".."; .. }. Imaging, QuickDraw Drawing. */
type 'PAT ' {
    hex string[8];
};
type 'PAT#' {
    integer = $$CountOf(PatArray);
    array PatArray {
        hex string[8];
    };
};

/* A pattern in colour. Items: kind, -1, the pattern of bits, the fields of its pixel map, $".." (the pixels), its colour
   table. Imaging, Color QuickDraw. */
type 'ppat' {
    integer oldPattern, newPattern, ditherPattern;
    unsigned longint = pixelMap / 8;
    unsigned longint = pixels / 8;
    fill long;
    integer;                                            // -1: to be expanded
    fill long;
    hex string[8];
pixelMap:
    types_pixmap;
    unsigned longint = colours / 8;
    unsigned hex longint;                               // reserved
pixels:
    hex string;
colours:
    types_colours;
};

/* A picture. Items: the low half of its length, {top, left, bottom, right}, its opcodes as one string. Imaging,
   Pictures. Pict.r of MPW has each opcode as an item; here they are bytes. */
type 'PICT' {
    unsigned integer;
    rect;
    hex string;
};


/* ---- Colours ---- */

/* A table of colours. Items: seed, flags, { value, red, green, blue; .. }. Imaging, Color QuickDraw. */
type 'clut' {
    unsigned hex longint;
    unsigned hex integer;
    integer = $$CountOf(ColorSpec) - 1;
    wide array ColorSpec {
        integer;
        types_rgb;
    };
};

/* A palette. Items: { red, green, blue, usage, tolerance; .. }. Advanced Color Imaging, Palette Manager. */
type 'pltt' {
    integer = $$CountOf(ColorInfo);
    fill word[7];
    wide array ColorInfo {
        types_rgb;
        unsigned hex integer pmCourteous = 0x0000, pmDithered = 0x0001, pmTolerant = 0x0002, pmAnimated = 0x0004,
            pmExplicit = 0x0008, pmWhite = 0x0010, pmBlack = 0x0020, pmInhibitG2 = 0x0100, pmInhibitC2 = 0x0200,
            pmInhibitG4 = 0x0400, pmInhibitC4 = 0x0800, pmInhibitG8 = 0x1000, pmInhibitC8 = 0x2000;
        unsigned integer;                               // tolerance
        fill word[3];
    };
};


/* ---- Fonts ---- */

/* A font of bits. Items: kind, first and last character, widest width, kerning, 0 less the descent, width and height of
   the box, ascent, descent, leading, words of a row, $".." (the rows of bits), { where each character begins in a row;
   .. }, { offset and width of each; .. }. Both lists have one character more, which stands for those that are missing, and
   the first one has its end too; a missing character has -1, -1. Tables that a kind has after them go on in the second
   list. Text, Font Manager. */
type 'NFNT' {
    unsigned hex integer propFont = 0x9000, prpFntH = 0x9001, prpFntW = 0x9002, prpFntHW = 0x9003,
        fixedFont = 0xB000, fxdFntH = 0xB001, fxdFntW = 0xB002, fxdFntHW = 0xB003, fontWid = 0xACB0;
    integer;                                            // first character
    integer;                                            // last character
    integer;                                            // widest width
    integer;                                            // kerning, at most 0
    integer;                                            // 0 less the descent
    integer;                                            // width of the box
height:
    integer;                                            // height of the box
offsets:
    unsigned integer = (widths - offsets) / 16;
    integer;                                            // ascent
    integer;                                            // descent
    integer;                                            // leading
words:
    integer;                                            // words of a row
    hex string[2 * $$Word(words) * $$Word(height)];
    wide array {
        unsigned integer;
    };
widths:
    wide array {
        byte;                                           // offset
        byte;                                           // width
    };
};

/* The same, with an id of 128 times the family and the size. One without bytes, which has but the family's name, is
   shown as data. */
type 'FONT' as 'NFNT';

/* A family of fonts. Items: flags, id, first and last character, ascent, descent, leading and widest width (in 4096ths
   of the size), where the tables of widths, kerning and style names begin, { nine widths of styles }, { two for other
   scripts }, version, { size, style, id of the font; .. }, and then the tables as one string. Text, Font Manager. */
type 'FOND' {
    unsigned hex integer;                               // flags
    integer;                                            // id
    integer;                                            // first character
    integer;                                            // last character
    integer;                                            // ascent
    integer;                                            // descent
    integer;                                            // leading
    integer;                                            // widest width
    longint;                                            // where the widths begin
    longint;                                            // where the kerning begins
    longint;                                            // where the names of styles begin
    wide array [9] {
        integer;
    };
    wide array [2] {
        unsigned hex integer;
    };
    integer;                                            // version
    integer = $$CountOf(FontAssociation) - 1;
    wide array FontAssociation {
        integer;                                        // size; 0 is an outline
        unsigned hex integer types_styles;
        integer;                                        // id of the FONT, NFNT or sfnt
    };
    hex string;
};


/* ---- Sounds ---- */

/* A sound. Items: FormatOne { { synthesizer, how it begins; .. } } or FormatTwo { free }, { hasData or not, command,
   two values; .. }, and then the samples as one string, or $"". The second value of a command with data is where the
   samples begin, in bytes. Sources for MPW write the values of a command in braces, and samples by their fields; that
   takes labels. Sound, Sound Manager. */
type 'snd ' {
    switch {
    case FormatOne:
        key unsigned integer = 1;
        unsigned integer = $$CountOf(Synthesizers);
        wide array Synthesizers {
            integer squareWaveSynth = 1, waveTableSynth = 3, sampledSynth = 5, MACE3snthID = 11, MACE6snthID = 13;
            unsigned hex longint initMono = 0x0080, initStereo = 0x00C0, initMACE3 = 0x0300, initMACE6 = 0x0400;
        };
    case FormatTwo:
        key unsigned integer = 2;
        integer free = 0, keepInMemory = 257;
    };
    unsigned integer = $$CountOf(SoundCmnds);
    wide array SoundCmnds {
        boolean noData, hasData;
        unsigned bitstring[15] nullCmd = 0, initCmd = 1, freeCmd = 2, quietCmd = 3, flushCmd = 4, reInitCmd = 5,
            waitCmd = 10, pauseCmd = 11, resumeCmd = 12, callBackCmd = 13, syncCmd = 14, emptyCmd = 15,
            availableCmd = 24, versionCmd = 25, totalLoadCmd = 26, loadCmd = 27, freqDurationCmd = 40, noteCmd = 40,
            restCmd = 41, freqCmd = 42, ampCmd = 43, timbreCmd = 44, getAmpCmd = 45, volumeCmd = 46,
            getVolumeCmd = 47, waveTableCmd = 60, phaseCmd = 61, soundCmd = 80, bufferCmd = 81, rateCmd = 82,
            continueCmd = 83, doubleBufferCmd = 84, getRateCmd = 85;
        integer;
        longint;
    };
    hex string;
};


/* ---- What the Finder reads ---- */

/* Which files belong to an application. Items: 'CRTR', 0, { 'ICN#', { local id, id; .. }; 'FREF', { .. } }.
   Essentials, Finder Interface, as all of this section. */
type 'BNDL' {
    literal longint;                                    // creator
    integer;                                            // id of the resource of the creator
    integer = $$CountOf(TypeArray) - 1;
    array TypeArray {
        literal longint;
        integer = $$CountOf(IDArray) - 1;
        wide array IDArray {
            integer;
            integer;
        };
    };
};

/* A type of files. Items: 'TYPE', local id of its icon, "". */
type 'FREF' {
    literal longint;
    integer;
    pstring;
};

/* A version: 1 of the file, 2 of what it belongs to. Items: 0x01, 0x00, release, 0x00, verUS, "1.0", "1.0, a name". */
type 'vers' {
    hex byte;                                           // before the point, in decimal digits
    hex byte;                                           // after it, a digit for each half
    hex byte development = 0x20, alpha = 0x40, beta = 0x60, final = 0x80, release = 0x80;
    hex byte;                                           // number of a version that isn't released
    integer verUS = 0, verFrance = 1, verBritain = 2, verGermany = 3, verItaly = 4, verNetherlands = 5,
        verBelgiumLux = 6, verFrBelgiumLux = 6, verSweden = 7, verSpain = 8, verDenmark = 9, verPortugal = 10,
        verFrCanada = 11, verNorway = 12, verIsrael = 13, verJapan = 14, verAustralia = 15, verArabia = 16,
        verArabic = 16, verFinland = 17, verFrSwiss = 18, verGrSwiss = 19, verGreece = 20, verIceland = 21,
        verMalta = 22, verCyprus = 23, verTurkey = 24, verYugoslavia = 25, verYugoCroatian = 25, verIndia = 33,
        verIndiaHindi = 33, verPakistan = 34, verItalianSwiss = 36, verInternational = 37, verRomania = 39,
        verLithuania = 41, verPoland = 42, verHungary = 43, verEstonia = 44, verLatvia = 45, verLapland = 46,
        verFaeroeIsl = 47, verIran = 48, verRussia = 49, verIreland = 50, verKorea = 51, verChina = 52,
        verTaiwan = 53, verThailand = 54, verCzech = 56, verSlovak = 57, verBelarus = 61, verUkraine = 62,
        verSlovenian = 66, verMacedonian = 67, verCroatia = 68, verBrazil = 71, verBulgaria = 72,
        verCatalonia = 73, verMultilingual = 74, verAustria = 92;
    pstring;                                            // the version
    pstring;                                            // what Get Info shows
};

/* The words of Open and Quit in menus with other ones. Items: as those of STR and STR#. */
type 'mstr' as 'STR ';
type 'mst#' as 'STR#';


/* ---- What the system does for a file ---- */

/* How an application runs (id -1). Items: sixteen flags, wanted memory, least memory, both in bytes. Sources before
   System 7 write dontSaveScreen, enableOptionSwitch and multiFinderAware for the first, the third and the fifth flag,
   and reserved for the last seven. Essentials, Event Manager. */
type 'SIZE' {
    boolean reserved, dontSaveScreen = 0, saveScreen = 1;
    boolean ignoreSuspendResumeEvents, acceptSuspendResumeEvents;
    boolean reserved, enableOptionSwitch = 0, disableOptionSwitch = 1;
    boolean cannotBackground, canBackground;
    boolean needsActivateOnFGSwitch, doesActivateOnFGSwitch, notMultiFinderAware = 0, multiFinderAware = 1;
    boolean backgroundAndForeground, onlyBackground;
    boolean dontGetFrontClicks, getFrontClicks;
    boolean ignoreAppDiedEvents, acceptAppDiedEvents, ignoreChildDiedEvents = 0, acceptChildDiedEvents = 1;
    boolean not32BitCompatible, is32BitCompatible, reserved = 0;
    boolean notHighLevelEventAware, isHighLevelEventAware, reserved = 0;
    boolean onlyLocalHLEvents, localAndRemoteHLEvents, reserved = 0;
    boolean notStationeryAware, isStationeryAware, reserved = 0;
    boolean dontUseTextEditServices, useTextEditServices, reserved = 0;
    boolean reserved, notDisplayManagerAware = 0, isDisplayManagerAware = 1;
    boolean reserved;
    boolean reserved;
    unsigned longint;                                   // wanted
    unsigned longint;                                   // least
};

/* The code fragments of a file (id 0). Items: { kPowerPCCFragArch, kIsCompleteCFrag, version, oldest version that it can
   stand for, kDefaultStackSize, kNoAppSubFolder, kApplicationCFrag, kDataForkCFragLocator, kZeroOffset, kCFragGoesToEOF,
   "name"; .. }. One with extensions of Mac OS 8 after its names is shown as data. PowerPC System Software, Code Fragment
   Manager. */
type 'cfrg' {
    fill long[2];
    longint = 1;                                        // version of this form
    fill long[4];
    longint = $$CountOf(memberArray);
    array memberArray {
    memberStart:
        literal longint kPowerPCCFragArch = 'pwpc', kMotorola68KCFragArch = 'm68k', kPowerPC = 'pwpc', kPowerPCArch = 'pwpc',
            kMotorola68K = 'm68k', kMotorola68KArch = 'm68k';
        longint kIsCompleteCFrag, kFirstCFragUpdate, kFullLib = 0, kUpdateLib = 1;
        unsigned hex longint kNoVersionNum;             // version
        unsigned hex longint kNoVersionNum;             // the oldest that it can stand for
        unsigned longint kDefaultStackSize;
        integer kNoAppSubFolder, kNoAppLibFolder = 0;   // id of an alis
        byte kImportLibraryCFrag, kApplicationCFrag, kDropInAdditionCFrag, kStubLibraryCFrag, kWeakStubLibraryCFrag, kIsLib = 0,
            kIsApp = 1, kIsDropIn = 2;
        byte kMemoryCFragLocator, kDataForkCFragLocator, kResourceCFragLocator, kByteStreamCFragLocator,
            kNamedFragmentCFragLocator, kInMem = 0, kOnDiskFlat = 1, kOnDiskSegmented = 2;
        unsigned longint kZeroOffset;                   // where it begins
        unsigned longint kCFragGoesToEOF, kWholeFork = 0; // its length
        fill long[2];
        unsigned integer = (memberEnd - memberStart) / 8;
        pstring;
        align long;
    memberEnd:
    };
};

/* That a file is made for Carbon (id 0). Items: none. */
type 'carb' {
};

/* The property list of an application for Mac OS X, as text (id 0). Items: "..". */
type 'plst' {
    string;
};

/* A component. Items: 'type', 'styp', 'manu', flags, mask of flags, and type and id of its code, its name, its text and
   its icon; [version, what is done when it is registered, id of its icons, { flags, type and id of the code, platform;
   .. }]; [type and id of its resource map]. More, Component Manager. */
type 'thng' {
    literal longint;                                    // type
    literal longint;                                    // subtype
    literal longint;                                    // manufacturer
    unsigned hex longint;                               // flags
    unsigned hex longint kAnyComponentFlagsMask = 0;    // mask of flags
    literal longint;                                    // code
    integer;
    literal longint;                                    // name
    integer;
    literal longint;                                    // text
    integer;
    literal longint;                                    // icon
    integer;
#ifdef EitherSystem
    hex string;
#elif thng_RezTemplateVersion >= 1
    unsigned hex longint;                               // version
    unsigned hex longint componentDoAutoVersion = 0x01, componentWantsUnregister = 0x02,
        componentAutoVersionIncludeFlags = 0x04, componentHasMultiplePlatforms = 0x08, componentLoadResident = 0x10;
    integer;                                            // id of the icons
    longint = $$CountOf(ComponentPlatformInfo);
    wide array ComponentPlatformInfo {
        unsigned hex longint;                           // flags
        literal longint;                                // code
        integer;
        integer platform68k = 1, platformPowerPC = 2, platformInterpreted = 3, platformWin32 = 4,
            platformPowerPCNativeEntryPoint = 5;
    };
#if thng_RezTemplateVersion >= 2
    literal longint;                                    // resource map
    integer;
#endif
#endif
};

/* The machines that a control panel runs on (id -4064). Items: 0xFFFF, 0x0000: the features of which one must be there,
   and those that all must. More, Control Panels. */
type 'mach' {
    unsigned hex integer;
    unsigned hex integer;
};

/* The places of a control panel's parts (id -4064). Items: { {top, left, bottom, right}; .. }. More, Control Panels. */
type 'nrct' {
    integer = $$CountOf(RectArray);
    array RectArray {
        rect;
    };
};


/* ---- Words of scripts ---- */

/* The flags that sources leave in rows of so many. */
#define Reserved8 reserved, reserved, reserved, reserved, reserved, reserved, reserved, reserved
#define Reserved9 Reserved8, reserved
#define Reserved12 Reserved8, reserved, reserved, reserved, reserved
#define Reserved13 Reserved12, reserved

#define types_flag boolean reserved
#define types_flags8 types_flag; types_flag; types_flag; types_flag; types_flag; types_flag; types_flag; types_flag

/* What an application can be told by Apple events (id 0). Items: 0x01, 0x00, english, roman, { suites }; a suite is its
   name, a text, 'code', level, version, { events }, { classes }, { comparisons }, { enumerations }, and what these are
   the fields say. Each row of flags is sixteen items. Interapplication Communication, Apple Event Terminology. */
type 'aete' {
    hex byte;                                           // version
    hex byte;
    integer english = 0, french = 1, german = 2, italian = 3, dutch = 4, swedish = 5, spanish = 6, danish = 7,
        portuguese = 8, norwegian = 9, hebrew = 10, japanese = 11, arabic = 12, finnish = 13, greek = 14,
        icelandic = 15, maltese = 16, turkish = 17, croatian = 18, tradChinese = 19, urdu = 20, hindi = 21, thai = 22,
        korean = 23;
    integer roman = 0, japanese = 1, tradChinese = 2, korean = 3, arabic = 4, hebrew = 5, greek = 6, cyrillic = 7,
        simpChinese = 25;
    integer = $$CountOf(Suites);
    array Suites {
        pstring;                                        // name
        pstring;                                        // text
        align word;
        literal longint;                                // code
        integer;                                        // level
        integer;                                        // version
        integer = $$CountOf(Events);
        array Events {
            pstring;                                    // name
            pstring;                                    // text
            align word;
            literal longint;                            // class
            literal longint;                            // id
            literal longint noReply = 'null';           // type of the reply
            pstring;                                    // its text
            align word;
            boolean replyRequired, replyOptional;
            boolean singleItem, listOfItems, reserved = 0;
            boolean notEnumerated, enumerated, reserved = 0;
            boolean notTightBindingFunction, tightBindingFunction, reserved = 0;
            types_flag; types_flag; types_flag; types_flag; types_flags8;
            literal longint noParams = 'null';          // type of the direct parameter
            pstring;                                    // its text
            align word;
            boolean directParamRequired, directParamOptional;
            boolean singleItem, listOfItems, reserved = 0;
            boolean notEnumerated, enumerated, reserved = 0;
            boolean doesntChangeState, changesState, reserved = 0;
            types_flag; types_flag; types_flag; types_flag; types_flags8;
            integer = $$CountOf(OtherParams);
            array OtherParams {
                pstring;                                // name
                align word;
                literal longint;                        // keyword
                literal longint;                        // type
                pstring;                                // text
                align word;
                boolean required, optional;
                boolean singleItem, listOfItems, reserved = 0;
                boolean notEnumerated, enumerated, reserved = 0;
                types_flag; types_flags8;
                boolean prepositionParam, labeledParam, reserved = 0;
                boolean notFeminine, feminine, reserved = 0;
                boolean notMasculine, masculine, reserved = 0;
                boolean singular, plural, reserved = 0;
            };
        };
        integer = $$CountOf(Classes);
        array Classes {
            pstring;                                    // name
            align word;
            literal longint;                            // code
            pstring;                                    // text
            align word;
            integer = $$CountOf(Properties);
            array Properties {
                pstring;                                // name
                align word;
                literal longint;                        // code
                literal longint;                        // type
                pstring;                                // text
                align word;
                types_flag;
                boolean singleItem, listOfItems, reserved = 0;
                boolean notEnumerated, enumerated, reserved = 0;
                boolean readOnly, readWrite, reserved = 0;
                types_flags8;
                boolean noApostrophe, apostrophe, reserved = 0;
                boolean notFeminine, feminine, reserved = 0;
                boolean notMasculine, masculine, reserved = 0;
                boolean singular, plural, reserved = 0;
            };
            integer = $$CountOf(Elements);
            array Elements {
                literal longint;                        // class
                integer = $$CountOf(KeyForms);
                array KeyForms {
                    literal longint formAbsolutePosition = 'indx', formName = 'name', formPropertyID = 'prop',
                        formRange = 'rang', formRelativePosition = 'rele', formTest = 'test', formUniqueID = 'ID  ';
                };
            };
        };
        integer = $$CountOf(ComparisonOps);
        array ComparisonOps {
            pstring;                                    // name
            align word;
            literal longint;                            // code
            pstring;                                    // text
            align word;
        };
        integer = $$CountOf(Enumerations);
        array Enumerations {
            literal longint;                            // code
            integer = $$CountOf(Enumerators);
            array Enumerators {
                pstring;                                // name
                align word;
                literal longint;                        // code
                pstring;                                // text
                align word;
            };
        };
    };
};
type 'aeut' as 'aete';


/* ---- Balloon help ---- */

/* The help of a window's places: which hrct or hdlg a window has. Items: HelpMgrVersion, hmDefaultOptions, { id,
   'hrct' or 'hdlg', length of the title to compare or kind of window, "title"; .. }. More, Help Manager. */
type 'hwin' {
    integer HelpMgrVersion = 2;
    longint hmDefaultOptions = 0, hmUseSubID = 1, hmAbsoluteCoords = 2, hmSaveBitsNoWindow = 4, hmSaveBitsWindow = 8,
        hmMatchInTitle = 16;
    integer = $$CountOf(HelpWindowArray);
    wide array HelpWindowArray {
        integer;                                        // id
        literal longint;                                // hrct or hdlg
        integer;                                        // how many bytes of the title, or the kind
        pstring;
        align word;
    };
};

/* The help of places in a window. Items: HelpMgrVersion, hmDefaultOptions, 0, 0, { HMStringResItem { {tip},
   {top, left, bottom, right}, id, index }; .. }. More, Help Manager. */
type 'hrct' {
    integer HelpMgrVersion = 2;
    longint hmDefaultOptions = 0, hmUseSubID = 1, hmAbsoluteCoords = 2, hmSaveBitsNoWindow = 4, hmSaveBitsWindow = 8,
        hmMatchInTitle = 16;
    integer;                                            // id of the WDEF of balloons
    integer;                                            // variation
    integer = $$CountOf(HelpRectArray);
    wide array HelpRectArray {
        switch {
        case HMStringItem:
        itemStart:
            integer = (itemEnd - itemStart) / 8;
            key integer = 1;
            point;
            rect;
            pstring;
            align word;
        itemEnd:
        case HMPictItem:
            integer = 18;
            key integer = 2;
            point;
            rect;
            integer;                                    // id of the PICT
        case HMStringResItem:
            integer = 20;
            key integer = 3;
            point;
            rect;
            integer;                                    // id of the STR#
            integer;                                    // which of its texts
        case HMTEResItem:
            integer = 18;
            key integer = 6;
            point;
            rect;
            integer;                                    // id of the TEXT and styl
        case HMSTRResItem:
            integer = 18;
            key integer = 7;
            point;
            rect;
            integer;                                    // id of the STR
        case HMSkipItem:
            integer = 4;
            key integer = 256;
        };
    };
};

/* The id of the help of an application's icon. */
#define kHMHelpID (-5696)

/* The help of an icon of the Finder, with the id kHMHelpID. Items: HelpMgrVersion, hmDefaultOptions, 0, 0,
   { HMSTRResItem { id } }. More, Help Manager. */
type 'hfdr' {
    integer HelpMgrVersion = 2;
    longint hmDefaultOptions = 0, hmUseSubID = 1, hmAbsoluteCoords = 2, hmSaveBitsNoWindow = 4, hmSaveBitsWindow = 8,
        hmMatchInTitle = 16;
    integer;                                            // id of the WDEF of balloons
    integer;                                            // variation
    integer = $$CountOf(HelpIconArray);
    wide array HelpIconArray {
        switch {
        case HMStringItem:
        itemStart:
            integer = (itemEnd - itemStart) / 8;
            key integer = 1;
            pstring;
            align word;
        itemEnd:
        case HMPictItem:
            integer = 6;
            key integer = 2;
            integer;                                    // id of the PICT
        case HMStringResItem:
            integer = 8;
            key integer = 3;
            integer;                                    // id of the STR#
            integer;                                    // which of its texts
        case HMTEResItem:
            integer = 6;
            key integer = 6;
            integer;                                    // id of the TEXT and styl
        case HMSTRResItem:
            integer = 6;
            key integer = 7;
            integer;                                    // id of the STR
        case HMSkipItem:
            integer = 4;
            key integer = 256;
        };
    };
};


/* ---- What tools keep ---- */

/* A driver as MPW links it, to be made a DRVR. Items: seven flags, ticks between calls, mask of events, id of the menu,
   "name", the code, mostly $$Resource(..). A source says type 'DRVR' as 'DRVW' itself. Devices, Device Manager. */
type 'DRVW' {
    boolean = 0;
    boolean dontNeedLock, needLock;
    boolean dontNeedTime, needTime;
    boolean dontNeedGoodbye, needGoodbye;
    boolean noStatusEnable, statusEnable;
    boolean noCtlEnable, ctlEnable;
    boolean noWriteEnable, writeEnable;
    boolean noReadEnable, readEnable;
    byte = 0;
    unsigned integer;                                   // ticks between calls
    unsigned hex integer mDownMask = 0x0002, mUpMask = 0x0004, keyDownMask = 0x0008, keyUpMask = 0x0010,
        autoKeyMask = 0x0020, updateMask = 0x0040, diskMask = 0x0080, activMask = 0x0100,
        highLevelEventMask = 0x0400, osMask = 0x8000, everyEvent = 0xFFFF;
    integer;                                            // id of the menu
    unsigned integer = 50;                              // where open, prime, control, status and close begin
    unsigned integer = 54;
    unsigned integer = 58;
    unsigned integer = 62;
    unsigned integer = 66;
    pstring[31];
    hex string;
};

/* A template of ResEdit. Items: { "label", 'TYPE'; .. }. */
type 'TMPL' {
    array {
        pstring;
        literal longint;
    };
};

/* What the MPW Shell keeps of a text: its font, its windows and where one stands (1005), and its markers (1007).
   Items: size, "font", the rest as one string; { first, last, "name"; .. }. */
type 'MPSR' (1005) {
    integer;
    string[32];
    hex string;
};
type 'MPSR' (1007) {
    integer = $$CountOf(Markers);
    array Markers {
        longint;
        longint;
        pstring;
    };
};

/* The text of an error, whose id is the error's number. Items: "text". */
type 'Estr' as 'STR ';


#undef types_styles
#undef types_rgb
#undef types_window_procs
#undef types_positions
#undef types_pixmap
#undef types_colours
#undef types_flag
#undef types_flags8
#endif
