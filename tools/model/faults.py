"""Faults: their names, by the table of docs/LANGUAGE.md, and the exception with which a model refuses."""

NAMES = {
    101: "MissingFile", 102: "BadText", 103: "IncludeDepth", 104: "BadDirective", 105: "OpenIf", 106: "StrayElse",
    107: "OpenComment", 108: "OpenString", 109: "BadEscape", 110: "BadNumber", 111: "BadCharacter",
    112: "ExpansionTooLong", 113: "BadHex", 114: "BadCondition", 115: "WordTooLong", 201: "Syntax", 202: "NoType",
    203: "UnknownName", 204: "BadId", 205: "NeedsAppend", 206: "WrongKind", 207: "OutOfRange", 208: "TooFew",
    209: "TooMany", 210: "NoCase", 211: "ZeroDivisor", 212: "UnknownLabel", 213: "LaterData", 214: "SizeLater",
    215: "BadShift", 216: "TextTooLong", 217: "ArrayCount", 218: "NoSuchResource", 219: "Protected",
    220: "ReadOnlyMap", 221: "TooDeep", 222: "BadFormat", 223: "BadIndex", 230: "LabelTwice", 231: "ArrayTwice",
    232: "CaseTwice", 233: "KeyMissing", 234: "KeyWidth", 235: "KeyDistance", 236: "KeyTwice",
    237: "ElementWithoutValues", 238: "BadWidth", 239: "NoSuchType", 240: "Redeclared", 301: "ResourceTooLong",
    302: "DataFull", 303: "MapFull", 304: "NamesFull", 401: "ShortHeader", 402: "DataAreaOutside", 403: "MapOutside",
    404: "ShortMap", 405: "TypeListOutside", 406: "TypesOutside", 407: "ReferencesOutside", 408: "DataOutside",
    409: "NameOutside", 410: "Repeated", 421: "ShortHeader", 422: "BadMagic", 423: "EntryOutside", 424: "BadCrc",
    425: "BadName", 426: "Truncated", 427: "NewerVersion", 428: "ForkTooLong", 441: "NoStart", 442: "BadLetter",
    443: "NoEnd", 444: "BadCrc", 445: "Truncated", 446: "RunAtStart", 447: "BadName", 451: "TornEntry",
    452: "UnknownCode", 453: "ListUnbalanced", 454: "CountUnpaired", 455: "EmptyElement", 456: "ListTooDeep",
    461: "BadEntry", 462: "NoLeaf", 463: "EntryTwice", 464: "TextRefused"}


class Refused(Exception):
    """A fault: its number, and what it keeps, as a message says it, or None. As a text it is the end of the message."""

    def __init__(self, number, *kept):
        Exception.__init__(self, number, *kept)
        self.number = number
        self.kept = " ".join(str(each) for each in kept) if kept else None

    def __str__(self):
        return "%d %s%s" % (self.number, NAMES[self.number], "" if self.kept is None else ": " + self.kept)
