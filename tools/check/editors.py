#!/usr/bin/env python3
"""Looks at editors/: that no word of the language is missing, and that the editors show sources as they should.

    python3 tools/check/editors.py [PROGRAM]

The words are read from the tables of the language: crates/rz_words (reserved words, attributes, functions) and
crates/rz_pre_source (directives). Each stands in the Vim syntax and in the TextMate grammar, and these have no other.
At PLACES of examples/ the colours are those that stand there: of Vim, without a window, and of the grammar, by a
small reading of its rules. `:make` in Vim goes to the line of an error, by a Makefile and by `:compiler rezkit`, with
PROGRAM (crates/rezkit/out/rezkit unless another is named). What differs is printed, and the status is 1 then. Where
there is no vim or no program, the line at the end says that it wasn't tried.
"""
import json
import os
import re
import shutil
import subprocess
import sys
import tempfile

from top import TOP
from files import text_of, write, write_all

VIM = os.path.join(TOP, "editors", "vim")
GRAMMAR = os.path.join(TOP, "editors", "vscode", "syntaxes", "rez.tmLanguage.json")
# A file of examples/, a line in it and a text in the line, and what its first byte is in Vim and in the grammar.
PLACES = (
    ("ask.r", 1, "A dialog", "rezComment", "comment.line.double-slash.rez"),
    ("ask.r", 2, "#include", "rezInclude", "keyword.control.directive.include.rez"),
    ("ask.r", 2, "Types.r", "rezString", "string.quoted.double.rez"),
    ("ask.r", 4, "resource", "rezStatement", "keyword.control.statement.rez"),
    ("ask.r", 4, "DLOG", "rezLiteral", "constant.character.literal.rez"),
    ("ask.r", 4, "128", "rezNumber", "constant.numeric.rez"),
    ("ask.r", 4, "purgeable", "rezAttribute", "support.constant.attribute.rez"),
    ("ask.r", 5, "dBoxProc", "", ""),
    ("dialog.r", 7, "fill long", "rezField", "keyword.other.field.rez"),
    ("dialog.r", 7, "long", "rezType", "storage.type.rez"),
    ("dialog.r", 5, "$$CountOf", "rezFunction", "support.function.rez"),
    ("dialog.r", 10, "case", "rezField", "keyword.other.field.rez"),
    ("dialog.r", 17, "Really", "rezString", "string.quoted.double.rez"),
    ("dialog.r", 10, "key bit", "rezField", "keyword.other.field.rez"),
    ("AppTypes.r", 16, "types/", "rezComment", "comment.line.double-slash.rez"),
    ("AppTypes.r", 19, "unsigned", "rezFormat", "storage.modifier.rez"),
    ("AppTypes.r", 19, "0xFFFF", "rezNumber", "constant.numeric.rez"),
    ("AppTypes.r", 21, "\\0x00", "rezEscape", "constant.character.escape.rez"),
    ("greeting.r", 4, "#ifdef", "rezCondition", "keyword.control.directive.conditional.rez"),
    ("greeting.r", 5, "#define", "rezDefine", "keyword.control.directive.define.rez"),
    ("greeting.r", 10, "kText", "", ""),
    ("greeting.r", 11, "\\n", "rezEscape", "constant.character.escape.rez"),
)


def table_words():
    """The words of the language, in three groups: words, functions, directives; small letters."""
    words, functions = set(), set()
    folder = os.path.join(TOP, "crates", "rz_words", "src")
    for name in sorted(os.listdir(folder)):
        text = text_of(folder, name)
        words |= set(re.findall(r'=> b"([a-z]+)"', text)) | set(re.findall(r'\bis\(b"([a-z]+)"', text))
        functions |= {word.lower() for word in re.findall(r'\bis\(b"([A-Z]\w+)"', text)}
    directive = text_of(TOP, "crates", "rz_pre_source", "src", "directive.rt")
    return words, functions, set(re.findall(r'eq_ignore_ascii_case\(b"(\w+)"\)', directive))


def vim_words():
    """The same of the Vim syntax."""
    text = text_of(VIM, "syntax", "rez.vim")
    words = {word for line in re.findall(r"(?m)^syn keyword rez(?!Todo)\w+ (.*)$", text) for word in line.split()}
    functions = {word.lower() for group in re.findall(r"rezFunction \"\\\$\\\$\\%\((.*?)\\\)", text) for word in group.split("\\|")}
    directives = {word for group in re.findall(r'"\^\\s\*#\\s\*(?:\\%\()?([a-z\\|]+?)(?:\\\))?\\>"', text) for word in group.split("\\|")}
    return words, functions, directives


def grammar_words(grammar):
    """The same of the grammar."""
    def of(part, front):
        found = (re.fullmatch(front + r"\(\?i:(.*)\)\\b", rule["match"]) for rule in grammar["repository"][part]["patterns"])
        return {word.lower() for one in found for word in one[1].split("|")}

    return of("words", r"\\b"), of("functions", r"\\\$\\\$"), of("directives", r"\^\\s\*#\\s\*")


def missing_words(grammar):
    """Lines about words that an editor lacks, or has and the language hasn't."""
    lines = []
    for name, found in (("Vim syntax", vim_words()), ("grammar", grammar_words(grammar))):
        for kind, wanted, has in zip(("words", "functions", "directives"), table_words(), found):
            if len(wanted) < 9 or wanted != has:
                lines.append("%s, %s: lacks %s, has no use for %s" % (name, kind, sorted(wanted - has), sorted(has - wanted)))
    return lines


def rules_of(grammar, patterns):
    """The rules of a list of patterns, those that it includes in their place."""
    for rule in patterns:
        if "include" in rule:
            yield from rules_of(grammar, grammar["repository"][rule["include"][1:]]["patterns"])
        else:
            yield rule


def scopes(grammar, text):
    """The name of each byte of a source by the grammar, a list for each line: of a text in ASCII."""
    outside, open_rule, found = list(rules_of(grammar, grammar["patterns"])), None, []
    for line in text.split("\n"):
        names, at = [""] * len(line), 0
        while at <= len(line):
            inside = list(rules_of(grammar, open_rule.get("patterns", []))) if open_rule else outside
            tried = [(re.compile(open_rule["end"]).search(line, at), open_rule)] if open_rule else []
            tried += [(re.compile(rule.get("match") or rule["begin"]).search(line, at), rule) for rule in inside]
            tried = [(match.start(), order, match, rule) for order, (match, rule) in enumerate(tried) if match]
            start, _, match, rule = min(tried, key=lambda one: one[:2]) if tried else (len(line), 0, None, None)
            for place in range(at, start):
                names[place] = open_rule["name"] if open_rule else ""
            if not match:
                break
            for place in range(start, match.end()):
                names[place] = rule["name"]
            if rule is open_rule:
                open_rule = None
            elif "begin" in rule:
                open_rule = rule
            if match.end() == at and (start == len(line) or open_rule is None):
                if start == len(line):
                    break
                at += 1
            else:
                at = match.end()
        found.append(names)
    return found


def wrong_scopes(grammar):
    """Lines about places that the grammar names otherwise."""
    lines = []
    for name, line, text, _, wanted in PLACES:
        source = text_of(TOP, "examples", name)
        column = source.split("\n")[line - 1].find(text)
        came = scopes(grammar, source)[line - 1][column]
        if column < 0 or came != wanted:
            lines.append("grammar, %s:%d %s: %r, and not %r" % (name, line, text, came, wanted))
    return lines


def vim(commands, folder):
    """What Vim writes into the file `out` of a folder by these commands, without a window."""
    script = os.path.join(folder, "script.vim")
    write(script, "\n".join(["set nocompatible nomore", "filetype plugin on", "syntax on", *commands, "qall!"]) + "\n")
    words = ["vim", "-u", "NONE", "-i", "NONE", "-n", "-es", "--cmd", "set rtp^=%s" % VIM.replace(" ", "\\ "), "-S", script]
    subprocess.run(words, cwd=folder, stdin=subprocess.DEVNULL, stdout=subprocess.DEVNULL, stderr=subprocess.DEVNULL, timeout=60)
    try:
        return text_of(folder, "out").split("\n")[:-1]
    except FileNotFoundError:
        return []


def wrong_colours(folder):
    """Lines about places that Vim colours otherwise."""
    commands, wanted = ["let out = []"], []
    os.symlink(os.path.join(TOP, "examples"), os.path.join(folder, "examples"))
    for name, line, text, group, _ in PLACES:
        # After a file was opened again, Vim looks a line up anew only after another one.
        commands += ["edit examples/%s" % name, "call synID(%d, 1, 1)" % (2 if line == 1 else 1), "call cursor(%d, 1)" % line,
                     "let at = stridx(getline('.'), '%s')" % text.replace("'", "''"),
                     "call add(out, &filetype .. ' ' .. at .. ' ' .. synIDattr(synID(%d, at + 1, 1), 'name'))" % line]
        wanted.append("rez %d %s" % (text_of(TOP, "examples", name).split("\n")[line - 1].find(text), group))
    found = vim(commands + ["call writefile(out, 'out')"], folder)
    if len(found) != len(wanted):
        return ["vim wrote %d lines, and not %d: %s" % (len(found), len(wanted), found[:3])]
    return ["vim, %s:%d %s: %s, and not %s" % (*place[:3], came, want) for place, came, want in zip(PLACES, found, wanted) if came != want]


def wrong_kinds(folder):
    """Lines about files that Vim takes for sources of Rez and aren't, or the other way round."""
    lines = []
    for text, wanted in (("# R\ndata(cars)\ntype <- 'a'\nread.csv('b')\n", "r"), ("/* c */\n\n\tResource 'STR ' (1) {\n", "rez"),
                         ("#  include <Types.r>\n", "rez"), ("Include \"a.rsrc\";\n", "rez"), ("/* Rexx */\nsay 'data'\n", "rexx")):
        write(os.path.join(folder, "kind.r"), text)
        came = vim(["edit kind.r", "call writefile([&filetype], 'out')"], folder)
        if came != [wanted]:
            lines.append("vim takes %r for %s, and not for %s" % (text, came, wanted))
    return lines


def wrong_jumps(folder, program):
    """Lines about `:make` in Vim, where it doesn't go to the line of the error."""
    write_all(folder, {"a.r": "#include \"b.r\"\ndata 'TEXT' (1) { \"x\" };\n",
                       "b.r": "data 'TEXT' (2) { \"x\" };\n\ndata 'TEXT' (99999) { \"x\" };\n",
                       "Makefile": "a.rsrc: a.r\n\t'%s' rez a.r -o a.rsrc\n" % program})
    tell = "call writefile([expand('%:t') .. ' ' .. line('.') .. ' ' .. getqflist()[-1].nr .. ' ' .. getqflist()[-1].text], 'out')"
    lines = []
    quoted = program.replace("'", "'\\''")
    for name, before in (("by a Makefile", []), ("by the compiler", ["let g:rezkit_program = \"'%s'\"" % quoted, "compiler rezkit"])):
        if before == [] and not shutil.which("make"):
            continue
        if os.path.exists(os.path.join(folder, "out")):
            os.unlink(os.path.join(folder, "out"))
        came = vim(["edit a.r", *before, "silent! make", "call setqflist(filter(getqflist(), 'v:val.valid'))", tell], folder)
        if came != ["b.r 3 204 BadId: 99999"]:
            lines.append(":make %s: %s" % (name, came))
    return lines


def main():
    program = os.path.abspath(sys.argv[1] if len(sys.argv) > 1 else os.path.join(TOP, "crates", "rezkit", "out", "rezkit"))
    grammar = json.loads(text_of(GRAMMAR))
    for name in ("package.json", "language-configuration.json"):
        json.loads(text_of(TOP, "editors", "vscode", name))
    lines, not_tried = missing_words(grammar) + wrong_scopes(grammar), []
    with tempfile.TemporaryDirectory(prefix="rezkit-editors-") as folder:
        if not shutil.which("vim"):
            not_tried.append("there is no vim, so its colours and :make weren't tried")
        else:
            lines += wrong_colours(folder) + wrong_kinds(folder)
            if os.path.exists(program):
                lines += wrong_jumps(folder, program)
            else:
                not_tried.append("there is no %s, so :make wasn't tried" % program)
    print("\n".join(lines + ["; ".join(["%d places, %d faults" % (len(PLACES), len(lines))] + not_tried)]))
    sys.exit(1 if lines else 0)


if __name__ == "__main__":
    main()
