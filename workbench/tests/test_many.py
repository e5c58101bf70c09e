"""Many damaged files through ls, po and salvage: each is done or refused, in little memory and time."""
import os
import re
import sys

import pytest
from helpers import WORKBENCH, run

FORKS, FILES = 500, 1000


@pytest.mark.parametrize("which", ("ls", "po", "salvage"))
def test_mutated_forks_and_cut_files(which):
    if which == "po":
        pytest.importorskip("polib")
    status, output, messages = run(sys.executable, os.path.join(WORKBENCH, "tests", "many.py"), which, str(FORKS), str(FILES), seconds=1800)
    assert (status, messages) == (0, "")
    done, refused = (int(count) for count in re.fullmatch(r"\w+: status 0: (\d+), status 1: (\d+)\n", output.decode()).groups())
    assert done > 100 and refused > 100 and done + refused == FORKS + FILES
