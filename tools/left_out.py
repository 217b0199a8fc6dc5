"""Says in one form what a check leaves out. Whoever runs checks can count the lines that begin with `left out: `."""
import functools
import re
import shutil
import subprocess
import sys


def left_out(what):
    """Says what is left out, and why."""
    print(f"left out: {what}", flush=True)


def is_here(program, without):
    """Returns whether a program is here. If it isn't, says what is left out without it."""
    if shutil.which(program):
        return True
    left_out(f"{program} isn't here, so {without}")
    return False


@functools.cache
def has_version(program, *least):
    """Returns whether a program is here, in a version of at least these two numbers."""
    if not shutil.which(program):
        return False
    found = re.search(r"(\d+)\.(\d+)", subprocess.run([program, "--version"], capture_output=True, text=True).stdout)
    return found is not None and tuple(map(int, found.groups())) >= least


def say_skipped(verbose):
    """Says which tests Python's unittest skipped, by what it writes if it is told to be verbose."""
    for why in re.findall(r" \.\.\. skipped ['\"](.*)['\"]$", verbose, re.MULTILINE):
        left_out(f"{why}, so a test of bindings/python isn't run")


def python_with(*modules):
    """Returns a Python that has these modules, or None. Debian's modules are those of /usr/bin/python3."""
    words = "import " + ", ".join(modules)
    for python in dict.fromkeys([sys.executable, "/usr/bin/python3"]):
        if shutil.which(python) and subprocess.run([python, "-c", words], capture_output=True).returncode == 0:
            return python
    return None
