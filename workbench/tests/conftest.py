"""Lets the tests import the package, the tools of the repository, and the helpers beside this file."""
import os
import sys

sys.dont_write_bytecode = True
HERE = os.path.dirname(os.path.abspath(__file__))
TOOLS = os.path.join(HERE, "..", "..", "tools")
for folder in (HERE, os.path.dirname(HERE), TOOLS, os.path.join(TOOLS, "check")):
    sys.path.insert(0, os.path.abspath(folder))
