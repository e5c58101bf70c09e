"""What the programs of the workbench share, and a module for each of them.

    errors     what is refused, and with which status
    program    where rezkit is, and calls of it
    roman      letters of the Macintosh, and what may be printed
    facts      what a file is: its form, what the Finder keeps, its forks and resources
    writing    files and folders that are written without overwriting any
    command    the frame of a program: options, messages, statuses
    reading    bytes that are read from left to right, and what a decoder of resources gives

Of rezkit-look, rezkit-icons and rezkit-draw; a module of decoders has KINDS, the decoder of each type:

    album      the page of an album, and the names of its files
    icons      icons, cursors and patterns as PNG
    sounds     sounds as WAV
    styled     texts and their styles as HTML
    letters    letters of texts as a page can have them
    palettes   the standard color tables, and those of resources
    pixels     pictures of bit maps and pixel maps, PNG, and Pillow

Of pictures (PICT):

    pictures   a picture that is played, and its frame
    opcodes    what each opcode reads, sets and draws
    quickdraw  patterns, modes, and the pixels that are drawn on
    regions    the pixels that a shape covers
    packing    bitmaps and pixmaps, packed or not
    quicktime  JPEG in a picture
    lettering  letters of a picture in another font

Of rezkit-draw:

    dialogs         what DLOG, ALRT, DITL and CNTL hold
    menus           what MENU and MBAR hold, and the order of menus on a page
    dialog_drawing  dialogs and alerts as SVG, and their texts that may not fit
    menu_drawing    menus and menu bars as SVG
    frames          the borders and title bars of windows
    chicago         how wide a text is in the system font, and where its lines break
    svg             elements of SVG
    embed           icons and pictures as addresses that stand in a page
    drawn_page      what stands around the drawings

Of Rez and DeRez:

    options    the options of other Rezes, in one table
    sources    the sources that are reached, and their copies
    tokens     a source cut into tokens, and put together again
    mend       what is mended in a source, by tokens
    macros     macros with parameters
    outputs    the files that are written, in the form of their ending
"""
