#!/usr/bin/env python3
"""Each case of docs/DIFFERENCES.md, run as it stands: what follows a command on the page is what it prints."""
import os
import re
import subprocess
import unittest

from service import PROGRAM, TOP, main, same


class Differences(unittest.TestCase):
    def test_the_cases(self):
        with open(os.path.join(TOP, "docs", "DIFFERENCES.md")) as page:
            blocks = re.findall(r"^```\n(.*?)^```$", page.read(), re.M | re.S)
        same("the cases", [printed.count("\n") for printed in blocks[1::2]], [5, 4])
        for command, printed in zip(blocks[::2], blocks[1::2]):
            run = subprocess.run(command.replace("./bureau", PROGRAM), shell=True, cwd=TOP, capture_output=True, text=True)
            same(command, (run.returncode, run.stdout, run.stderr), (0, printed, ""))


if __name__ == "__main__":
    main("differences")
