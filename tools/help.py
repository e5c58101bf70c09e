#!/usr/bin/env python3
"""Writes the man page and the completions of rezkit from its help text: the usage of each command in the table of
crates/rz_tools_args/src/syntax.rt, and the rest in crates/rz_tools_answer/src/help.rt.

    python3 tools/help.py man [TYPES]    the man page rezkit(1); TYPES is the folder in which the type files are installed
    python3 tools/help.py bash           completions for bash
    python3 tools/help.py zsh            completions for zsh
    python3 tools/help.py fish           completions for fish
    python3 tools/help.py --check        that all of them can be made

They go to standard output. The script tools/install makes them when it installs the program, so none is kept in the
repository, where it could be older than the help text. The status is 1 if the help text isn't as this script reads it:
each option of the forms of the commands has a row that describes it, and each row is of such an option; and the forms
have the options of the table.
"""
import os
import re
import sys

CRATES = os.path.join(os.path.dirname(os.path.abspath(__file__)), "..", "crates")
HELP = os.path.join(CRATES, "rz_tools_answer", "src", "help.rt")
SYNTAX = os.path.join(CRATES, "rz_tools_args", "src", "syntax.rt")
OPTION = re.compile(r"(-[a-z]+)(?: ([A-Z]+))?")
ALONE = {"--help": "writes this help", "--version": "writes the version"}
# The examples of the man page, for each kind of user: what they do, and their commands, with TYPES for the folder of the
# type files. tools/check/tour.py runs them.
EXAMPLES = (
    ("Compile a source, show the fork as text, and compile the text after it was edited",
     ("rezkit rez App.r -i TYPES -o App.rsrc", "rezkit derez App.rsrc TYPES/Types.r > App.txt",
      "rezkit rez TYPES/Types.r App.txt -o New.rsrc")),
    ("Change a file that has a fork", ("rezkit rez Changes.r -a -o App.rsrc",)),
    ("Look for damage in an old file, convert it, and part it into the two files of AppleDouble in a new folder",
     ("rezkit det Old.hqx", "rezkit list Old.hqx", "rezkit bridge Old.hqx -to macbin -o Old.bin",
      "mkdir parts && rezkit bridge Old.hqx -to double -o parts/._Old")),
    ("Translate a program: write its texts, edit them, and put them back",
     ("rezkit strings Old.bin TYPES/Texts.r > Old.texts", "rezkit restring Old.bin Old.texts TYPES/Texts.r -o German.bin")),
    ("Compile a source for MPW from before System 7, with a folder of its own files, into an application",
     ("rezkit rez Port.r -i TYPES -i Includes -d SystemSevenOrLater=0 -form macbin -t APPL -c Samp -o Port.bin",)),
    ("Give the same bytes in each build, whatever the clock says",
     ("SOURCE_DATE_EPOCH=0 rezkit rez App.r -i TYPES -form macbin -o App.bin",)),
)


class Help:
    """The parts of the help text.

    forms: of each command what follows it in its form; table: of each its options in the table of commands, and whether a
    value follows; commands: what each does, in a line; about: what they do, in a paragraph; rows: what stands first in
    each row that describes options, and what the row says; kinds: the forms of a file; files: what is said of them; moment
    and statuses: what the last two paragraphs say.
    """

    def __init__(self):
        with open(HELP, encoding="utf-8") as file:
            text, version = re.findall(r'^    b"(.*?)"\n}', file.read(), re.S | re.M)
        with open(SYNTAX, encoding="utf-8") as file:
            commands = re.findall(r'name: "(.*?)",(.*?)usage: "(.*?)",\n', file.read(), re.S)
        self.version = version.replace("\\n", "").strip()
        about, files, moment, statuses = (part.strip("\n") for part in text.split("\n\n"))
        self.forms, self.table = {}, {}
        for command, options, usage in commands:
            name, *rest = usage.replace("\\n", "").split()
            self.forms[name] = " ".join(rest)
            self.table[command] = {(name, sort == "Flag") for name, sort in re.findall(r'\("(-[a-z]+)", (Flag|Switch)::', options)}
        about, rows = about.split("  -", 1)
        about, self.order = " ".join(about.split()).rsplit(". ", 1)
        self.about = about + "."
        others = r"[.;] ?|, and (?=(?:%s) )" % "|".join(self.forms)
        said = (sentence.split(" ", 1) for sentence in re.split(others, about))
        self.commands = {name: does for name, does in said if name in self.forms}
        self.rows = {}
        for row in re.split(r"(?m)^  (?=-)", "  -" + rows)[1:]:
            head, text = re.match(r"(.*?)(?: {2,}|\n)(.*)", row, re.S).groups()
            self.rows[head] = " ".join(text.split())
        self.files, self.moment = " ".join(files.split()), " ".join(moment.split())
        self.kinds = re.findall(r"(\w+) \(", self.files.split(". ")[0])
        self.statuses = re.findall(r"(\d) (.*?)(?:, (?=\d )|$)", " ".join(statuses.split()))
        self.described = {name: text for head, text in self.rows.items() for name in OPTION.findall(head)}

    def options(self, command):
        """The options of a command: each its name, what it takes or nothing, what it does, and whether it may come again."""
        found = []
        for name, takes, again in re.findall(r"(?<!\w)(-[a-z]+)(?: ([A-Z]+))?(?:\[=TEXT\])?\]?(\.\.\.)?", self.forms[command]):
            found.append((name, takes, self.described[name, takes], bool(again)))
        return found

    def takes_files(self, command):
        """Whether files stand outside the options of a command."""
        return re.search(r"\b(FILE|FORK)\b", self.forms[command])

    def check(self):
        """Ends the program if an option has no row, or a row no option."""
        given = set()
        for command in self.commands:
            try:
                found = {(name, takes) for name, takes, _, _ in self.options(command)}
            except KeyError as missing:
                sys.exit("help: no row describes %s of %s" % (" ".join(missing.args[0]), command))
            other = self.table[command] ^ {(name, bool(takes)) for name, takes in found}
            if other - {("-s", True)} or ("-s", True) in other and command != "derez":
                sys.exit("help: the form of %s hasn't the options of the table: %s" % (command, other))
            given |= found
        # The short name of an option of derez stands in a row alone.
        more = set(self.described) - given - {("-s", "TYPE")}
        if more or set(self.forms) != {*self.commands, *ALONE} or len(self.statuses) != 6 or len(self.kinds) != 5:
            sys.exit("help: the help text isn't as this script reads it: %s" % (more or "its parts"))


def troff(text):
    """The text for a line of a man page."""
    return text.replace("\\", "\\e").replace("-", "\\-").replace("'", "\\(aq")


def styled(text):
    """A form or the head of a row: options are bold, and what they take is italic."""
    bold = re.sub(r"(?<![\w-])(--?[a-z]+)", lambda it: "\\fB%s\\fR" % it[0], text)
    return re.sub(r"\b[A-Z]{4,}\b", lambda it: "\\fI%s\\fR" % it[0], bold).replace("-", "\\-")


def man(it, types):
    lines = [".TH REZKIT 1 \"\" \"%s\" \"User Commands\"" % it.version, ".ad l", ".SH NAME",
             "rezkit \\- Rez and DeRez, the resource compiler pair of the classic Macintosh", ".SH SYNOPSIS"]
    for command, form in sorted(it.forms.items(), key=lambda pair: pair[0] not in ALONE):
        whole = re.sub(r"\[.*?\](?=[ .]|$)", lambda part: part[0].replace(" ", "\\ "), styled(form))
        lines += [".HP", "\\fBrezkit %s\\fR %s" % (troff(command), whole)]
    lines += [".SH DESCRIPTION", troff(it.about), ".SH OPTIONS", troff(it.order.replace(":", "."))]
    for head, text in it.rows.items():
        lines += [".TP", styled(head), troff(text) + "."]
    lines += [".SH FORMS OF A FILE", troff(it.files), ".SH ENVIRONMENT", ".TP", "\\fBSOURCE_DATE_EPOCH\\fR", troff(it.moment)]
    lines += [".SH EXIT STATUS"]
    for number, text in it.statuses:
        lines += [".TP", "\\fB%s\\fR" % number, troff(text) + "."]
    if types:
        types = troff(types.rstrip("/"))
        lines += [".SH FILES", ".TP", "\\fI%s\\fR" % types, "type files, for", "\\fB\\-i\\fR", "and as files after a fork.",
                  ".SH EXAMPLES"]
        for place, (does, commands) in enumerate(EXAMPLES):
            lines += [".PP"] * bool(place) + [troff(does) + ":", ".PP", ".nf"]
            lines += [troff(command).replace("TYPES", types) for command in commands] + [".fi"]
    return lines


def values_of(name, takes):
    """What may stand after an option: `forms`, `folders`, `files`, `any`, or nothing if it takes none."""
    if not takes:
        return ""
    return "files" if name == "-o" else {"FORM": "forms", "PATH": "folders"}.get(takes, "any")


def bash(it):
    lines = ["# Completions of rezkit for bash.", "_rezkit() {",
             "    local word=${COMP_WORDS[COMP_CWORD]} before=${COMP_WORDS[COMP_CWORD-1]} command=${COMP_WORDS[1]}",
             "    local options", "    COMPREPLY=()", "    if [ \"$COMP_CWORD\" -eq 1 ]; then",
             "        COMPREPLY=($(compgen -W '%s' -- \"$word\"))" % " ".join(it.forms), "        return", "    fi",
             "    case $command:$before in"]
    given = {"forms": "$(compgen -W '%s' -- \"$word\")" % " ".join(it.kinds), "folders": "$(compgen -d -- \"$word\")",
             "files": "$(compgen -f -- \"$word\")", "any": ""}
    for kind, values in given.items():
        names = ["%s:%s" % (command, name) for command in it.commands for name, takes, _, _ in it.options(command)
                 if values_of(name, takes) == kind]
        lines += ["        %s)" % " | ".join(names)]
        lines += ["            local IFS=$'\\n'", "            compopt -o filenames 2>/dev/null"] * (kind in ("folders", "files"))
        lines += ["            COMPREPLY=(%s)" % values, "            return ;;"]
    lines += ["    esac", "    case $command in"]
    for command in it.commands:
        if it.takes_files(command):
            lines += ["        %s) options='%s' ;;" % (command, " ".join(name for name, _, _, _ in it.options(command)))]
    lines += ["        *) return ;;", "    esac", "    if [[ $word == -* ]]; then",
              "        COMPREPLY=($(compgen -W \"$options\" -- \"$word\"))", "    else", "        local IFS=$'\\n'",
              "        compopt -o filenames 2>/dev/null", "        COMPREPLY=($(compgen -f -- \"$word\"))", "    fi", "}",
              "complete -F _rezkit rezkit"]
    return lines


def zsh(it):
    def plain(text):
        return re.sub(r"([\[\]:\\])", r"\\\1", text).replace("'", "'\\''")

    action = {"forms": "(%s)" % " ".join(it.kinds), "folders": "_files -/", "files": "_files", "any": " "}
    said = {**it.commands, **ALONE}
    lines = ["#compdef rezkit", "# Completions of rezkit for zsh.", "_rezkit() {", "    local -a commands", "    commands=("]
    lines += ["        '%s:%s'" % (command, plain(text)) for command, text in said.items()]
    lines += ["    )", "    if (( CURRENT == 2 )); then", "        _describe command commands", "        return", "    fi",
              "    local command=$words[2]", "    shift words", "    (( CURRENT-- ))", "    case $command in"]
    for command in it.commands:
        lines += ["        %s)" % command, "            _arguments \\"]
        for name, takes, text, again in it.options(command):
            value = ":%s:%s" % (takes, action[values_of(name, takes)]) if takes else ""
            lines += ["                '%s%s[%s]%s' \\" % ("*" * again, name, plain(text), value)]
        lines += ["                '%s' ;;" % ("*:file:_files" if it.takes_files(command) else "1:%s: " % it.forms[command])]
    return lines + ["    esac", "}", "_rezkit \"$@\""]


def fish(it):
    def quoted(text):
        return "'%s'" % text.replace("\\", "\\\\").replace("'", "\\'")

    action = {"": "", "forms": " -x -a %s" % quoted(" ".join(it.kinds)), "folders": " -x -a '(__fish_complete_directories)'",
              "files": " -r -F", "any": " -x"}
    lines = ["# Completions of rezkit for fish."]
    for command, text in {**it.commands, **ALONE}.items():
        lines += ["complete -c rezkit -f -n __fish_use_subcommand -a %s -d %s" % (quoted(command), quoted(text))]
    for command in it.commands:
        if not it.takes_files(command):
            lines += ["complete -c rezkit -f -n '__fish_seen_subcommand_from %s'" % command]
        for name, takes, text, _ in it.options(command):
            lines += ["complete -c rezkit -n '__fish_seen_subcommand_from %s' -o %s%s -d %s" % (
                command, name[1:], action[values_of(name, takes)], quoted(text))]
    return lines


def main():
    makers = {"man": lambda it: man(it, sys.argv[2] if len(sys.argv) > 2 else ""), "bash": bash, "zsh": zsh, "fish": fish}
    wanted = sys.argv[1] if len(sys.argv) > 1 else ""
    if wanted not in (*makers, "--check"):
        sys.exit(__doc__)
    it = Help()
    it.check()
    if wanted == "--check":
        print("%d options, %d rows" % (sum(len(it.options(command)) for command in it.commands), len(it.rows)))
        for make in makers.values():
            make(it)
    else:
        print("\n".join(makers[wanted](it)))


if __name__ == "__main__":
    main()
