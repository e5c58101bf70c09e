"""Many whole forks whose resources are damaged through rezkit-look and rezkit-draw: each is shown, in little memory and time."""
import os
import re
import sys

import pytest
from helpers import WORKBENCH, run

pytest.importorskip("PIL")

LEAST = 300
SHOWN = ("ICON", "ICN#", "icl4", "icl8", "ics#", "ics4", "ics8", "icm#", "icm4", "icm8", "SICN", "CURS", "crsr", "cicn", "PAT_", "PAT#", "ppat",
         "ppt#", "PICT", "snd_", "TEXT", "styl")
DRAWN = ("read_dialog", "read_alert", "read_items", "read_control", "read_menu", "read_bar")
NEVER_SHOWN = "styl"  # it is shown in its TEXT


@pytest.mark.parametrize("which, forks, names", (("look", 1300, SHOWN), ("draw", 700, DRAWN)))
def test_forks_whose_resources_are_damaged(which, forks, names):
    status, output, messages = run(sys.executable, os.path.join(WORKBENCH, "tests", "many_albums.py"), which, str(forks), seconds=1800)
    first, *lines = output.decode().splitlines()
    assert (status, first, messages) == (0, "status 0: %d" % forks, "")
    counts = dict((name, (int(given), int(well))) for name, given, well in (re.fullmatch(r"(\S+) (\d+) (\d+)", line).groups() for line in lines))
    assert sorted(counts) == sorted(names)
    for name, (given, well) in counts.items():
        assert given >= LEAST and (well == 0 if name == NEVER_SHOWN else given / 10 < well), (name, counts)
