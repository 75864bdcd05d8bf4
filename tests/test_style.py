#!/usr/bin/env python3
"""flake8 finds nothing in the Python of the repository, and shellcheck nothing in its shell scripts. What they pass over stands in
.flake8 and .shellcheckrc, with the reason, and nowhere else. Where one of them is not there, its test is skipped, and the last line says so."""
import re
import shutil
import subprocess
import unittest
from pathlib import Path

from service import check, main

TOP = Path(__file__).resolve().parent.parent
PYTHON, SHELL = r"\.py$|^#!.*\bpython3$", r"\.(?:ba)?sh$|^#!.*\b(?:ba)?sh$"


def scripts(pattern):
    """The files of the repository whose name, or whose first line, is as a pattern says."""
    names = subprocess.run(["git", "ls-files", "-z"], cwd=TOP, capture_output=True, text=True, check=True).stdout.split("\0")
    for name in filter(None, names):
        if (TOP / name).is_file():
            with open(TOP / name, errors="replace") as file:
                if re.search(pattern, name) or re.search(pattern, file.readline().rstrip("\n")):
                    yield name


def finds_nothing(tool, pattern):
    files = list(scripts(pattern))
    done = subprocess.run([tool, *files], cwd=TOP, capture_output=True, text=True)
    check(f"{tool} over {len(files)} files", files and done.returncode == 0, done.stdout + done.stderr)


class Style(unittest.TestCase):
    @unittest.skipUnless(shutil.which("flake8"), "flake8 is not there")
    def test_flake8(self):
        finds_nothing("flake8", PYTHON)

    @unittest.skipUnless(shutil.which("shellcheck"), "shellcheck is not there")
    def test_shellcheck(self):
        finds_nothing("shellcheck", SHELL)

    def test_no_file_has_exceptions_of_its_own(self):
        for name in scripts(f"{PYTHON}|{SHELL}"):
            check(name, not re.search(r"# *(?:noqa|shellcheck disable)", (TOP / name).read_text()) or name == "tests/test_style.py")

    def test_each_file_is_python(self):
        for name in scripts(PYTHON):
            compile((TOP / name).read_text(), name, "exec")


if __name__ == "__main__":
    main("style")
