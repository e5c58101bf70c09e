"""Which program the scripts run, unless another is named."""
import os
import shutil
import subprocess
import sys

TOP = os.path.abspath(os.path.join(os.path.dirname(os.path.abspath(__file__)), ".."))


def program_of(words):
    """The path of the program that the words of a script name first, or of program_to_run."""
    return os.path.abspath(words[0] if words and words[0] else program_to_run())


def program_to_run():
    """The path of the program that ./rezkit runs, or, where these scripts are installed, of the `rezkit` on the PATH. It
    ends the script with the status 6 if there is none; tools/program has said why."""
    script = os.path.join(TOP, "tools", "program")
    if not os.path.exists(script):
        found = shutil.which("rezkit")
        return found or sys.exit("there is no rezkit on the PATH")
    ran = subprocess.run(["/bin/sh", script], stdin=subprocess.DEVNULL, stdout=subprocess.PIPE)
    if ran.returncode:
        sys.exit(6)
    return os.fsdecode(ran.stdout).rstrip("\n")
