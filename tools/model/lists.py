"""A second, plain reading of the statements on lists of resources, and of -a, -ov, -ro, -s and -form of `rez`.

It knows nothing of the code and reads no source. A statement is what a call (`data`, `include`, `read`, `change`,
`delete`) gives: the run applies it, and its text is spelled from what it is called with. Where a source spells it
otherwise, it stands in a pair behind its text. list_cases.py and fork_cases.py write the cases.
"""
from model import forms
from model.faults import Refused
from model.fork import admitted, image
from model.quoting import WORDS, quoted
from model.shown import resource_text

MOMENT = 2082844800  # the first second of 1970, counted from 1904
CLEARS = {"appheap": 0x40, "nonpurgeable": 0x20, "unlocked": 0x10, "unprotected": 0x08, "nonpreload": 0x04, "unchanged": 0x02}


class ReadFault(Exception):
    """A read failed."""


class WriteFault(Exception):
    """A write failed."""


class Bad:
    """An expression without a value: 211, or 215 with the count."""

    def __init__(self, number, *kept):
        self.fault = Refused(number, *kept)


class Resource:
    """A resource, which is the same one while it is changed."""

    def __init__(self, kind, ident, name=b"", attr=0, content=b""):
        self.kind, self.ident, self.name, self.attr, self.content = kind, ident, name, attr, content

    @property
    def key(self):
        return self.kind, self.ident

    def plain(self):
        return self.kind, self.ident, self.name, self.attr, self.content

    def but(self, **fields):
        new = Resource(*self.plain())
        new.__dict__.update(fields)
        return new


def key_text(kind, ident):
    return "%s %d" % (quoted(kind, "'"), ident)


def roman(text):
    return text.encode("mac_roman") if isinstance(text, str) else text


# What a statement's expressions come to.

def value(said, one=None):
    """The number that is said: a number, a Bad, or a function of the chosen resource."""
    if isinstance(said, Bad):
        raise said.fault
    return said(one) if callable(said) else said


def id_of(said, one=None):
    ident = value(said, one)
    if not -32768 <= ident <= 32767:
        raise Refused(204, ident)
    return ident


def name_of(said, one=None):
    name = roman(said(one) if callable(said) else said)
    if len(name) > 255:
        raise Refused(216, len(name))
    return name


def attributes_of(said, one=None):
    """Attributes begin from 0; a word sets or clears its bit, and a number sets all eight."""
    attr = 0
    for part in said:
        if part in WORDS:
            attr |= WORDS[part]
        elif part in CLEARS:
            attr &= ~CLEARS[part]
        else:
            attr = value(part, one)
            if not 0 <= attr <= 255:
                raise Refused(207, attr)
    return attr


def spelled(said):
    """The text of what is said, unless it is computed."""
    assert isinstance(said, (int, str)), said
    return str(said)


class Head:
    """A head: an id, and a name and attributes where they are given."""

    def __init__(self, ident, name=None, *attributes):
        self.ident, self.name, self.attributes = ident, name, attributes

    def __str__(self):
        names = [] if self.name is None else ['"%s"' % spelled(self.name)]
        return "(%s)" % ", ".join([spelled(self.ident), *names, *map(spelled, self.attributes)])

    def fields(self, one=None):
        """What it says, of a chosen resource where there is one: id, then name, then attributes."""
        fields = {"ident": id_of(self.ident, one)}
        if self.name is not None:
            fields["name"] = name_of(self.name, one)
        if self.attributes:
            fields["attr"] = attributes_of(self.attributes, one)
        return fields


class All:
    """A pick of all resources of a type."""

    def __str__(self):
        return ""

    def test(self):
        pass

    def choose(self, kind, found):
        return [one for one in found if one.kind == kind]


class Id(All):
    """A pick by id."""

    def __init__(self, ident):
        self.said = ident

    def __str__(self):
        return "(%s)" % spelled(self.said)

    def test(self):
        self.ident = id_of(self.said)

    def choose(self, kind, found):
        chosen = [one for one in found if one.key == (kind, self.ident)]
        if not chosen:
            raise Refused(218, key_text(kind, self.ident))
        return chosen


class Range(All):
    """A pick of the ids from one to another."""

    def __init__(self, first, last):
        self.said = first, last

    def __str__(self):
        return "(%s)" % ":".join(map(spelled, self.said))

    def test(self):
        self.first, self.last = [id_of(said) for said in self.said]

    def choose(self, kind, found):
        return [one for one in found if one.kind == kind and self.first <= one.ident <= self.last]


class Name(All):
    """A pick by name: the first of the type with it."""

    def __init__(self, name):
        self.said, self.name = name, roman(name)

    def __str__(self):
        return '("%s")' % spelled(self.said)

    def choose(self, kind, found):
        chosen = [one for one in found if one.kind == kind and one.name == self.name]
        if not chosen:
            raise Refused(218, quoted(self.name))
        return chosen[:1]


# The statements.

class Statement:
    """What a statement does to a run, and the parts of its text, of which some may be empty."""

    def __init__(self, step, *parts):
        self.step, self.parts = step, parts

    def __call__(self, run):
        self.step(run)

    def text(self):
        return " ".join(filter(None, map(str, self.parts))) + ";"


def typed(kind, word=""):
    """The text of a type after a word, or nothing without a type."""
    return "" if kind is None else "%s'%s'" % (word, kind)


def data(kind, ident, content, name="", *attributes):
    """A `data` or a `resource` statement, by the bytes that it gives."""
    head = Head(ident, name or None, *attributes)

    def step(run):
        run.put([Resource(roman(kind), 0, content=content).but(**head.fields())])
    return Statement(step, "data", typed(kind), head, '{ $"%s" }' % content.hex().upper() if content else "{ }")


def include(file, kind=None, pick=All(), to=None, head=None, but=None):
    """An `include` statement: of all resources, of all but a type, or of a type by a pick, maybe as another."""
    def step(run):
        found = [Resource(*each) for each in admitted(run.form(run.find(roman(file))).res)[0]]
        if kind is None:
            chosen = [one for one in found if but is None or one.kind != roman(but)]
        else:
            pick.test()
            chosen = pick.choose(roman(kind), found)
        run.put([one.but(**changes(one, to, head)) for one in chosen])
    return Statement(step, "include", '"%s"' % file, typed(but, "not "), typed(kind), pick, typed(to, "as "),
                     head or "")


def changes(one, to, head):
    """The fields that a chosen resource has anew."""
    fields = {} if to is None else {"kind": roman(to)}
    fields.update({} if head is None else head.fields(one))
    return fields


def read(kind, file, ident, name="", *attributes):
    """A `read` statement."""
    head = Head(ident, name or None, *attributes)

    def step(run):
        fields = head.fields()
        content = run.find(roman(file))
        if len(content) > 16777212:
            raise Refused(301, len(content))
        run.put([Resource(roman(kind), 0, content=content).but(**fields)])
    return Statement(step, "read", typed(kind), head, '"%s"' % file)


def change(kind, pick, to, head=None):
    """A `change` statement: one chosen resource after the other, each in its place."""
    def step(run):
        run.needs_append()
        pick.test()
        chosen = pick.choose(roman(kind), run.list)
        news = [changes(one, to, head) for one in chosen]
        victims = []
        for one, new in zip(chosen, news):
            key = new["kind"], new.get("ident", one.ident)
            victims.append([other for other in run.list if other.key == key and other is not one])
            run.touch([one] + victims[-1])
        for one, new, gone in zip(chosen, news, victims):
            one.__dict__.update(new)
            run.list = [other for other in run.list if other not in gone]
    return Statement(step, "change", typed(kind), pick, typed(to, "to "), head or "")


def delete(kind, pick=All()):
    """A `delete` statement."""
    def step(run):
        run.needs_append()
        pick.test()
        chosen = pick.choose(roman(kind), run.list)
        run.touch(chosen)
        run.list = [one for one in run.list if one not in chosen]
    return Statement(step, "delete", typed(kind), pick)


def wrong(number, *kept):
    """A statement that is refused before anything is computed (221, 201)."""
    def step(run):
        raise Refused(number, *kept)
    return step


class Stray:
    """A line that is refused before any statement."""

    def __init__(self, number, *kept):
        self.fault = Refused(number, *kept)


class Source:
    """A source that a line includes: its name and its items."""

    def __init__(self, name, *items):
        self.name, self.items = name, items


def paired(items):
    """The items of a source as pairs of a text, of one line or more, and what it does."""
    return [item if isinstance(item, tuple) else (item.text(), item) for item in items]


def text_of(items):
    """The text of a source."""
    return "".join(text + "\n" for text, _ in paired(items))


# A run.

class Options:
    """The words of `rez`: each option, and the sources."""

    def __init__(self, words):
        self.files, self.paths, self.flags = [], [], set()
        self.output, self.kind, self.creator, self.form = "Rez.Out", None, None, None
        takes = {"-o": "output", "-t": "kind", "-c": "creator", "-form": "form"}
        rest = iter(words)
        for word in rest:
            if word in takes:
                setattr(self, takes[word], next(rest))
            elif word == "-s":
                self.paths.append(next(rest))
            elif word in ("-i", "-d", "-u"):
                next(rest)
            elif word.startswith("-"):
                assert word in ("-a", "-ov", "-ro", "-rd"), word
                self.flags.add(word)
            else:
                self.files.append(word)


class Folder:
    """Files by name, whose call of a number fails. Reads and writes are counted together."""

    def __init__(self, files, fails=None):
        self.files, self.fails, self.calls = dict(files), fails, 0

    def call(self, fault):
        self.calls += 1
        if self.calls == self.fails:
            raise fault

    def read(self, name):
        self.call(ReadFault())
        held = self.files.get(name)
        return held.encode() if isinstance(held, str) else held

    def write(self, name, content):
        self.call(WriteFault())
        self.files[name] = content


class Rez:
    """A run of `rez` over a folder: its sources are items by file name."""

    def __init__(self, words, folder, sources, moment=0):
        self.options, self.folder, self.sources = Options(words), folder, sources
        self.moment = MOMENT + moment
        self.list = []

    def run(self):
        """Compiles the sources and writes the file. A fault has the place that it tells in `place`."""
        statements = []
        for name in self.options.files:
            self.open(name, self.sources.get(name, ()), statements)
        base, attributes, reserved = self.base()
        for place, step in statements:
            self.at(place, step)
        if "-ro" in self.options.flags:
            attributes |= 0x80
        fork = image([one.plain() for one in self.list], attributes, reserved)
        self.folder.write(self.options.output, self.output(base, fork))

    def at(self, place, step):
        try:
            step(self)
        except Refused as fault:
            fault.place = place
            raise

    def open(self, name, items, statements):
        """The statements of a source and of those that it includes, each with its place."""
        if self.folder.read(name) is None:
            raise Refused(101, quoted(name.encode()))
        line = 1
        for text, what in paired(items):
            if isinstance(what, Source):
                self.open(what.name, what.items, statements)
            elif isinstance(what, Stray):
                what.fault.place = "%s:%d" % (name, line)
                raise what.fault
            elif what is not None:
                statements.append(("%s:%d" % (name, line), what))
            line += 1 + text.count("\n")

    def base(self):
        """The base as a file, the attributes of its map, and its reserved bytes."""
        if "-a" not in self.options.flags:
            return None, 0, b""
        held = self.folder.read(self.options.output) or b""
        base = self.form(held)
        base.form = forms.form_of(held)
        resources, attributes, reserved = admitted(base.res)
        if attributes & 0x80:
            raise Refused(220, attributes)
        self.list = [Resource(*each) for each in resources]
        return base, attributes, reserved

    def output(self, base, fork):
        """The bytes of the file that is written."""
        form = self.options.form or (base.form if base else "raw")
        if form == "raw":
            return fork
        file = base or forms.File(kind=b"APPL", creator=b"????")
        file = file.but(res=fork, created=file.created or self.moment, modified=self.moment)
        if self.options.kind:
            file.kind = roman(self.options.kind)
        if self.options.creator:
            file.creator = roman(self.options.creator)
        if not file.name:
            last = self.options.output.rsplit("/", 1)[-1]
            try:
                file.name = roman(last)
            except UnicodeEncodeError:
                raise Refused(425, len(last))
        return forms.written(form, file)

    # What statements ask.

    def form(self, held):
        return forms.read_form(forms.form_of(held), held)

    def find(self, name):
        """The file of a name, as it is and then after each path."""
        plain = name.decode("mac_roman")
        for each in [plain] + [path + "/" + plain for path in self.options.paths]:
            held = self.folder.read(each)
            if held is not None:
                return held
        raise Refused(101, quoted(name))

    def needs_append(self):
        if "-a" not in self.options.flags:
            raise Refused(205)

    def touch(self, touched):
        """Refuses the first protected one of these."""
        for one in touched:
            if one.attr & 8 and "-ov" not in self.options.flags:
                raise Refused(219, key_text(*one.key))

    def put(self, news):
        """Puts resources in order, each in the place of the one with its type and id, or at the end."""
        self.touch([one for new in news for one in self.list if one.key == new.key])
        for new in news:
            places = [k for k, one in enumerate(self.list) if one.key == new.key]
            if places:
                self.list[places[0]] = new
            else:
                self.list.append(new)


class DeRez:
    """A run of `derez` without types: its type files have statements that do nothing."""

    def __init__(self, words, folder, sources, form=None):
        self.folder, self.sources, self.form = folder, sources, form
        self.files, self.only, self.skip = [], [], []
        takes = {"-only": self.only, "-skip": self.skip, "-s": self.skip, "-from": []}
        rest = iter(words)
        for word in rest:
            if word in takes:
                takes[word].append(roman(next(rest)))
            else:
                self.files.append(word)

    def run(self):
        """The text that it writes."""
        for name in self.files[1:]:
            self.folder.read(name)
            line = 1
            for text, what in paired(self.sources[name]):
                if isinstance(what, Stray):
                    what.fault.place = "%s:%d" % (name, line)
                    raise what.fault
                line += 1 + text.count("\n")
        held = self.folder.read(self.files[0])
        if held is None:
            raise Refused(101, quoted(self.files[0].encode()))
        resources, *_ = admitted(forms.read_form(self.form or forms.form_of(held), held).res)
        return "".join(shown(Resource(*each)) for each in resources if self.is_shown(each[0]))

    def is_shown(self, kind):
        return kind not in self.skip and (kind in self.only or not self.only)


def shown(one):
    """A resource as a `data` statement."""
    return resource_text(one.plain(), [], (), 0)


def ends(run):
    """How a run ends: its status, its text on `out`, and its line on `err`."""
    try:
        return 0, run.run() or "", ""
    except Refused as fault:
        place = getattr(fault, "place", None)
        return 2, "", "rezkit: %serror %s\n" % (place + ": " if place else "", fault)
    except ReadFault:
        return 3, "", "rezkit: read fault\n"
    except WriteFault:
        return 3, "", "rezkit: write fault\n"
