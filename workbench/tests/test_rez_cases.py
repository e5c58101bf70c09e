"""Cases of rezkit's commands through Rez and DeRez: one of forty leaves what it leaves by rezkit."""
import glob
import os
import random
import re

import run_cases
from model.case_reader import read_cases
from rez_running import TOP, run


def is_mended(part):
    """Whether Rez answers a case otherwise by design: it leaves out `#pragma` and `#printf`, which rezkit refuses, and finds a
    file by its name in whatever case."""
    missing = re.search(r'MissingFile: "(.*)"', part)
    names = re.findall(r"\nfile \S+ (.*)", part)
    return bool(re.search(r"(?i)#\s*(pragma|printf)\b", part)
                or missing and missing[1].lower() in [name.lower() for name in names])


def some_cases():
    """The cases that are tried, always the same. Arguments that are no command of rezkit may be one of Rez."""
    chance = random.Random(1)
    for path in sorted(glob.glob(os.path.join(TOP, "crates", "rezkit_cases", "data", "*.cases"))):
        with open(path, encoding="utf-8") as file:
            parts = file.read().split("\ncase ")
        for part in parts[1:]:
            if chance.random() < 1 / 40 and re.search(r"\nwords (de)?rez ", part) and not is_mended(part):
                case = read_cases("case " + part + "\n")[0]
                if case.status != 1 and not case.wrong and not run_cases.apart(case):
                    yield case


def test_cases_of_commands(tmp_path):
    count = 0
    for case in some_cases():
        folder = tmp_path / str(count)
        folder.mkdir()
        run_cases.write_files(folder, case)
        name = {"rez": "Rez", "derez": "DeRez"}[case.words[0]]
        status, output, messages = run(name, case.words[1:], folder, SOURCE_DATE_EPOCH=str(case.moment or 0))
        files = {at: data for at, data in run_cases.found_in(str(folder)).items() if data is not None}
        told = "".join(line for line in messages.splitlines(True) if not line.startswith("Rez: "))
        assert (status, output, told.encode("utf-8")) == (case.status, case.out or b"", case.err or b""), case.name
        assert files == case.wanted(), case.name
        count += 1
    assert count > 60
