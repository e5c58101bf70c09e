"""What is wrong with a page that a program of the workbench wrote: its language, headings, addresses, texts for pictures."""
import html.parser
import re

VOID = ("area", "base", "br", "col", "embed", "hr", "img", "input", "link", "meta", "source", "track", "wbr")
ATTRIBUTE = r'\s+[a-zA-Z_:][-\w:.]*(?:="[^"<]*")?'
TAG = re.compile(r"<[a-zA-Z][\w:-]*(?:%s)*\s*/?>" % ATTRIBUTE)
ADDRESSES = ("src", "href", "xlink:href", "action", "data", "poster", "srcset", "background", "cite", "formaction")
FORBIDDEN = ("script", "iframe", "object", "embed", "base", "link", "form", "foreignobject")
OUTSIDE = re.compile(r"(?:url\((?!#)|@import|https?:|javascript:|//)", re.I)


class Page(html.parser.HTMLParser):
    """The elements of a page, with what is wrong in `faults`. `names` are the files that it may lead to."""

    def __init__(self, text, names=()):
        html.parser.HTMLParser.__init__(self)
        self.names, self.faults, self.open, self.elements, self.levels = names, [], [], [], []
        self.ids, self.inside, self.texts = [], [], []
        self.feed(text)
        self.close()
        self.look_at_whole(text)

    def handle_starttag(self, tag, attributes):
        told, raw = dict(attributes), self.get_starttag_text()
        self.elements.append(("svg:title" if tag == "title" and "svg" in self.open else tag, told))
        if not TAG.fullmatch(raw):
            self.faults.append("marks are missing: " + raw)
        if len(told) != len(attributes):
            self.faults.append("an attribute stands twice: " + raw)
        self.ids += [told["id"]] if "id" in told else []
        self.look_at(tag, told, raw)
        if tag not in VOID and not raw.endswith("/>"):
            self.open.append(tag)

    def handle_startendtag(self, tag, attributes):
        self.handle_starttag(tag, attributes)

    def look_at(self, tag, told, raw):
        """The faults of an element."""
        if tag in FORBIDDEN or any(name.startswith("on") for name in told):
            self.faults.append("not allowed: " + raw)
        if tag == "html" and not told.get("lang"):
            self.faults.append("no language")
        if tag == "img" and not told.get("alt"):
            self.faults.append("no text for a picture: " + raw)
        if tag == "audio" and not told.get("aria-label"):
            self.faults.append("no name for a sound: " + raw)
        if re.fullmatch("h[1-6]", tag):
            self.levels.append(int(tag[1]))
        if OUTSIDE.search(told.get("style") or ""):
            self.faults.append("leads outside: " + raw)
        for name in ADDRESSES:
            address = told.get(name)
            if address is not None and address.startswith("#"):
                self.inside.append(address[1:])
            elif address is not None and address not in self.names and not re.match(r"data:image/png;base64,[A-Za-z0-9+/=]+\Z", address):
                self.faults.append("leads to no file of the folder: " + raw)

    def handle_endtag(self, tag):
        if not self.open or self.open.pop() != tag:
            self.faults.append("</%s> closes nothing" % tag)

    def handle_data(self, data):
        if self.open and self.open[-1] == "style" and OUTSIDE.search(data):
            self.faults.append("the style leads outside")
        if data.strip():
            self.texts.append(data)

    def look_at_whole(self, text):
        """The faults of the page as a whole."""
        tags = [tag for tag, _ in self.elements]
        self.faults += ["not closed: %s" % ", ".join(self.open)] if self.open else []
        self.faults += ["no doctype"] if not text.startswith("<!DOCTYPE html>\n") else []
        self.faults += ["%s: %d" % (tag, tags.count(tag)) for tag in ("html", "title", "h1", "main") if tags.count(tag) != 1]
        self.faults += ["h%d after h%d" % (after, before) for before, after in zip([0] + self.levels, self.levels) if after > before + 1]
        self.faults += ["no heading #%s" % name for name in self.inside if name not in self.ids]
        self.faults += ["an id stands twice"] if len(set(self.ids)) != len(self.ids) else []
        self.faults += ["a control letter"] if re.search("[\0-\x08\x0b-\x1f\x7f-\x9f]", text) else []

    def all(self, tag):
        """The attributes of each element of a kind."""
        return [told for name, told in self.elements if name == tag]
