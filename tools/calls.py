#!/usr/bin/env python3
"""Writes docs/CALLS.md: what each public call promises, and where the definitions stand.

    python3 tools/calls.py            writes docs/CALLS.md, which the repository doesn't keep
    python3 tools/calls.py --check    writes nothing, and says whether the page can be written, and what has no contract

Of each library of crates.txt but those of tests it lists, from the sources alone: the first sentence of the crate;
each public type that contracts see as something else, or that has invariants; each public call with its parameters,
the first sentence of its comment, and its clauses with the definitions that they cite; its laws likewise; and its
definitions, first those that the contract of `run` rests on. The status is 1 if a definition that a clause cites
doesn't stand where its `ghost use` says, or if the calls without a contract aren't those of NO_CONTRACT; else it is 0.
"""
import os
import re
import sys
from collections import namedtuple

TOP = os.path.join(os.path.dirname(os.path.abspath(__file__)), "..")
TARGET = "docs/CALLS.md"

# What a cell shows of a clause that cites no definition of the repository: its text, if it isn't longer than this.
LONGEST_TEXT = 90

LAW = "A law, with nothing to run: "

# The public calls that have no contract. docs/PROOFS.md names them, in "Safe and total".
NO_CONTRACT = {"Listing::allocator", "RealHost::new", "CaseHints::by_name", "CaseHints::by_key"}

HEAD = """# What each call promises

`tools/calls.py` makes this page from the sources. It has a section for each library \
that ships, lowest first; programs and crates of tests have no public calls. [PROOFS.md](PROOFS.md) says what the whole \
promises.

- **Call**: what other crates can call, with the names of its parameters and what it gives. `&mut` stands before what \
the call may change. The name leads to the source, whose contract is the promise.
- **What it does**: the first sentence of its comment. It isn't the promise; the clauses are. The code calls the \
arguments of the command line `words`.
- **Clauses**: what is proved, `needs` before what the caller has to know, and the definitions that each clause cites, \
which lead to their files. A clause that cites none is shown itself, if it is short; the words in it are those of the \
kit's library. A clause without a name says what the call gives. `as` names a trait whose contract holds too, `always` \
stands before an invariant of a type, and `seen as` before what contracts see of it. `.old`, `.new` and `.now` are what \
is lent before, after and during the call.
- A call that can give `NoMemory` may do so instead of any other answer, unless a clause says when.
- **Law**: the contract of a function with nothing to run. It says what holds of the definitions, whatever the code does.
- **Definitions**: the files of `specs`. The contract of `run` rests on %d of them, and each of these stands after those \
that it cites, so that they can be read in this order, crate by crate.

%s

"""

Clause = namedtuple("Clause", "kind name text")
Call = namedtuple("Call", "owner trait name shape says clauses")
Kind = namedtuple("Kind", "name says clauses")


def text_of(path):
    with open(path, encoding="utf-8") as file:
        return file.read()


def libraries():
    """The libraries of crates.txt in order, without those of tests."""
    lines = [line.split(":")[0] for line in text_of("crates.txt").split("\n") if ":" in line and not line.startswith("#")]
    return [name for name in lines if os.path.exists("crates/%s/src/lib.rt" % name) and not name.startswith("rz_test_")]


def first_sentence(lines):
    """The first sentence of a comment's lines, on one line."""
    end = next((number for number, line in enumerate(lines) if not line.strip()), len(lines))
    text = " ".join(line.strip() for line in lines[:end])
    text = re.sub(r"\[(`[^`]*`)\](\(crate::[^)]*\))?", r"\1", text)
    text = re.sub(r":(?: - .*|)$", ".", text)
    found = re.match(r".*?\.(?= [A-Z0-9`'(]| *$)", text)
    return found[0] if found else text


def exported(crate):
    """The modules of a crate, each with the set of names that others see, or None if they see all public ones."""
    root = text_of("crates/%s/src/lib.rt" % crate)
    inner = re.findall(r"(?m)^(?:pub )?mod (\w+);", root)
    seen = {module: set() for module in inner}
    seen["lib"] = None
    for module in re.findall(r"(?m)^pub mod (\w+);", root):
        seen[module] = None
    for module, names in re.findall(r"(?ms)^pub use (\w+)::(\{.*?\}|\w+);", root):
        if module in seen:
            seen[module] = seen[module] | set(re.findall(r"\w+", names))
    return seen


def matching(text, start):
    """The position after the brace that closes the one at `start`."""
    depth = 0
    for place in range(start, len(text)):
        depth += {"{": 1, "}": -1}.get(text[place], 0)
        if depth == 0:
            return place + 1
    raise ValueError("a brace is never closed: " + text[start : start + 60])


def clauses_from(text, place):
    """The clauses of a contract that begins at `place`."""
    found = []
    while True:
        head = re.compile(r"(?:\s|//[^\n]*\n)*(requires|ensures)\s*(\w*)\s*(?=\{)").match(text, place)
        if not head:
            return found
        end = matching(text, head.end())
        found.append(Clause(head[1], head[2], " ".join(text[head.end() + 1 : end - 1].split())))
        place = end


def comment_above(lines, number):
    """The lines of the comment above a line, with attributes between them or not."""
    above = []
    while number > 0 and lines[number - 1].strip():
        number -= 1
        line = lines[number].strip()
        if line.startswith("///"):
            above.insert(0, line[3:])
        elif above or line.endswith(("}", ";", "{")):
            break
    return above


def parameter(text):
    """A parameter in short: its name, after `&mut` if the call may change what is lent."""
    text = text.strip()
    if re.match(r"(&('\w+ )?(mut )?|mut )?self$", text):
        return re.sub(r"'\w+ |^mut ", "", text)
    name, _, kind = text.partition(":")
    return ("&mut " if re.match(r"\s*&('\w+ )?mut ", kind) else "") + re.sub(r"^mut ", "", name.strip())


def split_parameters(text):
    """The parameters of a list, cut at the commas outside brackets."""
    parts, depth = [""], 0
    for char in text.replace("->", ""):
        depth += (char in "(<[") - (char in ")>]")
        if char == "," and depth == 0:
            parts.append("")
        else:
            parts[-1] += char
    return [part for part in parts if part.strip()]


def shape_at(text, place):
    """The parameters and the result of the function whose name ends at `place`, in short, and where its contract begins."""
    if text[place] == "<":
        depth = 0
        for place in range(place, len(text)):
            depth += (text[place] == "<") - (text[place] == ">" and text[place - 1] != "-")
            if depth == 0:
                break
        place += 1
    start, depth = place, 0
    for place in range(start, len(text)):
        depth += (text[place] == "(") - (text[place] == ")")
        if depth == 0:
            break
    inner = ", ".join(parameter(one) for one in split_parameters(text[start + 1 : place]))
    result = re.compile(r"\)(?: -> (.*?))?(?=\s+(?:\{|requires|ensures|where)|\s*;|\s*//)", re.S).match(text, place)
    gives = re.sub(r"&'\w+ ", "&", re.sub(r"<'\w+>", "", " ".join((result[1] or "").split())))
    return "(%s)%s" % (inner, " -> " + gives if gives else ""), result.end()


def owner_of(line):
    """The type or trait whose block a line begins, and the trait whose functions stand in it."""
    found = re.match(r"pub trait (\w+)", line)
    if found:
        return found[1], found[1]
    found = re.match(r"impl(?:<.*?>)? (?:(\w+)(?:<.*>)? for )?(\w+)", line)
    if found and found[1] not in ("Model", "From", "Drop"):
        return found[2], found[1]
    return None, None


def calls_in(crate, module, seen, types):
    """The public calls of a module, of which others see these names, and the methods of these types."""
    text = text_of("crates/%s/src/%s.rt" % (crate, module))
    lines, found, owner, trait, place = text.split("\n"), [], None, None, 0
    for number, line in enumerate(lines):
        if re.match(r"impl\b|pub trait\b", line):
            owner, trait = owner_of(line)
        elif line.startswith("}"):
            owner, trait = None, None
        head = re.match(r"(    )?(pub )?fn (\w+)", line)
        if head and (head[2] or (head[1] and trait)) and bool(head[1]) == bool(owner):
            if owner in types if owner else seen is None or head[3] in seen:
                shape, end = shape_at(text, place + head.end())
                says = first_sentence(comment_above(lines, number))
                inherited = [Clause("as", "", trait)] if trait and trait != owner else []
                found.append(Call(owner, trait, head[3], shape, says, inherited + clauses_from(text, end)))
        place += len(line) + 1
    return found


def kinds_in(crate, module, seen):
    """The public types of a module, each with its invariants."""
    text = text_of("crates/%s/src/%s.rt" % (crate, module))
    lines, found = text.split("\n"), []
    models = {name: body for name, body in re.findall(r"(?ms)^impl(?:<[^\n]*?>)? Model for (\w+)[^\n]*\{\n(.*?)^\}", text)}
    for number, line in enumerate(lines):
        head = re.match(r"pub (?:struct|enum|trait) (\w+)", line)
        if not head or not (seen is None or head[1] in seen):
            continue
        body = ""
        if line.endswith("{"):
            body = "\n".join(lines[number + 1 : lines.index("}", number)])
        clauses = []
        if line.startswith("pub struct"):
            named = re.findall(r"(?ms)^    ghost (\w+): \{ (.*?) \},$", body)
            clauses = [Clause("invariant", name, " ".join(said.split())) for name, said in named]
        law = re.search(r"(?ms)^    ghost law: \{ (.*?) \};$", body)
        if law:
            clauses.append(Clause("law", "", " ".join(law[1].split())))
        view = re.search(r"ghost Value = \{ (.*?) \};", models.get(head[1], ""))
        if view:
            clauses.append(Clause("seen as", "", view[1]))
        found.append(Kind(head[1], first_sentence(comment_above(lines, number)), clauses))
    return found


def handed_on(crate, file):
    """The file of a definition that a crate's `specs` has, or hands on from another's."""
    path = "crates/%s/specs/%s.antt" % (crate, file)
    if os.path.exists(path):
        return path
    root = "crates/%s/specs/Lib.antt" % crate
    found = re.search(r"pub use Rattle\.(\w+)\.specs\.%s\b" % file, text_of(root)) if os.path.exists(root) else None
    if not found:
        sys.exit("tools/calls.py: no definitions %s of %s" % (file, crate))
    return handed_on(found[1], file)


def definitions_of(crate, module):
    """The names of the definitions that a module's contracts cite, each with its name there and its file."""
    text, found = text_of("crates/%s/src/%s.rt" % (crate, module)), {}
    for place, file, names in re.findall(r"ghost use Rattle\.(\w+)\.specs\.(\w+)\.\{([^}]*)\};", text):
        if not os.path.isdir("crates/" + place):
            continue
        for one in names.split(","):
            name, _, called = one.strip().partition(" as ")
            if re.fullmatch(r"\w+", name):
                found[called or name] = (name, handed_on(place, file))
    return found


def link(shown, path):
    return "[`%s`](../%s)" % (shown, path)


def code(text):
    return "`%s`" % text.replace("|", "\\|")


FRONTS = {"requires": "needs ", "invariant": "always ", "law": "law ", "seen as": "seen as ", "as": "as "}


def cited_by(clause, parameters, definitions):
    """The definitions that a clause cites, as links: words of it that are imported, and neither bound in it nor parameters."""
    bound = re.findall(r"λ ([\w ]+)\.", clause.text) + re.findall(r"\(([\w ]+) :", clause.text)
    hidden, cited = set(" ".join(bound).split()) | parameters, []
    for name in re.findall(r"(?<![\w.])\w+", clause.text):
        if name in definitions and name not in hidden:
            real, path = definitions[name]
            if not re.search(r"\b%s\b" % real, text_of(path)):
                sys.exit("tools/calls.py: %s doesn't stand in %s" % (real, path))
            cited.append(link(real, path))
    return list(dict.fromkeys(cited))


def clause_cell(clause, parameters, definitions):
    """A clause in a cell: its name, and the definitions that it cites or its text."""
    said = ", ".join(cited_by(clause, parameters, definitions))
    if not said and len(clause.text) <= LONGEST_TEXT:
        said = code(clause.text)
    if clause.name:
        return "%s`%s`%s" % (FRONTS.get(clause.kind, ""), clause.name, ": " + said if said else "")
    return FRONTS.get(clause.kind, "") + (said or "in words of the kit's library alone")


def row(name, shape, path, says, clauses, definitions):
    parameters = set(re.findall(r"\w+", shape.partition(" -> ")[0]))
    cells = "; ".join(clause_cell(one, parameters, definitions) for one in clauses) or "none"
    return "| %s%s | %s | %s |" % (link(name, path), code(shape) if shape else "", says.replace("|", "\\|"), cells)


def name_of(call):
    return "%s::%s" % (call.owner, call.name) if call.owner else call.name


def call_row(call, path, definitions):
    """The row of a call, or that of a law."""
    name = name_of(call)
    says = call.says or ("As `%s` says." % call.trait if call.trait else "")
    if says.startswith(LAW):
        says = says[len(LAW) :]
    return row(name, "" if is_law(call) else call.shape, path, says[:1].upper() + says[1:], call.clauses, definitions)


def is_law(call):
    """Whether a function has nothing to run: it takes nothing, gives nothing and promises something."""
    return not call.owner and call.shape == "()" and bool(call.clauses)


def modules_of(crate):
    """Each module of a crate: its name, the names that others see of it, and its public calls."""
    modules = exported(crate)
    types = set().union(*(seen or () for seen in modules.values()))
    return [(module, seen, calls_in(crate, module, seen, types)) for module, seen in modules.items()]


def without_contract():
    """The names of the public calls that promise nothing: they have no clause, or only those of what the caller has to know."""
    calls = [call for crate in libraries() for _, _, made in modules_of(crate) for call in made]
    return {name_of(call) for call in calls if all(clause.kind == "requires" for clause in call.clauses)}


def rows_of(crate):
    """The rows of a crate: those of its types and calls, and those of its laws."""
    rows, laws = [], []
    for module, seen, calls in modules_of(crate):
        path, definitions = "crates/%s/src/%s.rt" % (crate, module), definitions_of(crate, module)
        rows += [row(one.name, "", path, one.says, one.clauses, definitions) for one in kinds_in(crate, module, seen) if one.clauses]
        for call in calls:
            (laws if is_law(call) else rows).append(call_row(call, path, definitions))
    return rows, laws


def cited_files(path):
    """The files of definitions that a file of definitions cites."""
    cited = re.findall(r"(?m)^(?:pub )?use Rattle\.(\w+)\.specs\.(\w+)(?=\.\{| as |$)", text_of(path))
    return [handed_on(crate, file) for crate, file in cited if os.path.isdir("crates/" + crate)]


def beneath_run():
    """The files of definitions that the contract of `run` rests on, each after those that it cites."""
    found, entered = [], set()

    def enter(path):
        if path not in entered:
            entered.add(path)
            for cited in cited_files(path):
                enter(cited)
            found.append(path)

    for _, path in definitions_of("rz_tools", "program").values():
        enter(path)
    return found


def definition_row(path):
    lines = text_of(path).split("\n")
    comment = [line[2:] for line in lines[: next(number for number, line in enumerate(lines) if not line.startswith("--"))]]
    name = os.path.basename(path)[: -len(".antt")]
    return "| %s | %s |" % (link(name, path), first_sentence(comment).replace("|", "\\|"))


def definitions_in(crate, beneath):
    """The tables of a crate's definitions: those that `run` rests on, in order, and the others."""
    folder = "crates/%s/specs/" % crate
    first = [path for path in beneath if path.startswith(folder)]
    names = sorted(os.listdir(folder)) if os.path.isdir(folder) else []
    others = [folder + name for name in names if name.endswith(".antt") and name != "Lib.antt" and folder + name not in first]
    parts = []
    for title, paths in (("Definitions that `run` rests on", first), ("Other definitions", others)):
        if paths:
            parts.append("\n".join(["| %s | What they say |" % title, "|---|---|"] + [definition_row(path) for path in paths]))
    return parts


def table(title, rows):
    return "\n".join([title, "|---|---|---|"] + rows)


def section(crate, beneath):
    path = "crates/%s/src/lib.rt" % crate
    comment = [line[3:] for line in text_of(path).split("\n") if line.startswith("//!")]
    parts = ["## " + crate, "%s: %s" % (link("lib.rt", path), first_sentence(comment))]
    rows, laws = rows_of(crate)
    if rows:
        parts.append(table("| Call | What it does | Clauses |", rows))
    if laws:
        parts.append(table("| Law | What it says | Definitions |", laws))
    return "\n\n".join(parts + definitions_in(crate, beneath))


def main():
    os.chdir(TOP)
    beneath = beneath_run()
    contents = ", ".join("[%s](#%s)" % (crate, crate) for crate in libraries())
    page = HEAD % (len(beneath), contents) + "\n\n".join(section(crate, beneath) for crate in libraries()) + "\n"
    if sys.argv[1:] not in ([], ["--check"]):
        sys.exit(__doc__)
    if not sys.argv[1:]:
        with open(TARGET, "w", encoding="utf-8") as file:
            file.write(page)
    found = without_contract()
    wrong = ["%s has no contract" % name for name in sorted(found - NO_CONTRACT)]
    wrong += ["%s has a contract, or isn't there" % name for name in sorted(NO_CONTRACT - found)]
    for line in wrong:
        print(line)
    print("%s: %d bytes" % (TARGET, len(page.encode("utf-8"))))
    return 1 if wrong else 0


if __name__ == "__main__":
    sys.exit(main())
