#!/usr/bin/env python3
"""Where standard error is a terminal, a report tells how much it read, and a report and `check` what a fault means, unasked."""
import os
import subprocess
import unittest

from service import PROGRAM, TOP, folder, main, same

SITE = os.path.join(TOP, "examples", "site")
ROOM = folder()
ZONE = ["--zone", os.path.join(SITE, "north", "zones", "MVSPROD.csv")]
PUBLICATION = os.path.join(SITE, "publication.txt")


def aside(*words):
    """Status, standard output and standard error of a run on which nobody looks."""
    done = subprocess.run([PROGRAM, *words], capture_output=True, text=True, timeout=60, cwd=ROOM)
    return done.returncode, done.stdout, done.stderr


def watched(*words):
    """The same of one whose standard error is a terminal."""
    terminal, side = os.openpty()
    done = subprocess.run([PROGRAM, *words], stdout=subprocess.PIPE, stderr=side, text=True, timeout=60, cwd=ROOM)
    os.close(side)
    told = b""
    try:
        while piece := os.read(terminal, 65536):
            told += piece
    except OSError:  # nobody has the terminal open any more
        pass
    os.close(terminal)
    return done.returncode, done.stdout, told.decode().replace("\r\n", "\n")


class Terminal(unittest.TestCase):
    def test_report(self):
        """How much was read is told."""
        status, output, errors = watched("errsysmods", *ZONE, PUBLICATION)
        same("a line", (status, errors), (0, "read 8 SYSMODs, 5 holds from 1 file\n"))
        same("as with --verbose", (status, output, errors), aside("errsysmods", "--verbose", *ZONE, PUBLICATION))
        same("and not unasked elsewhere", aside("errsysmods", *ZONE, PUBLICATION), (0, output, ""))

    def test_faults(self):
        """What a fault means is told, with status and first line as they are."""
        for words in (
            ["errsysmods", *ZONE, "missing.txt"],
            ["chain", *ZONE, "UJ92005", ZONE[1]],
            ["missingfix", *ZONE, "--categories", ZONE[1], PUBLICATION],
            ["check", "missing"],
            ["check", "missing/store"],
        ):
            status, output, errors = watched(*words)
            same("as with --explain: %s" % words, (status, output, errors), aside(words[0], "--explain", *words[1:]))
            same("a line more: %s" % words, (status, output, errors.splitlines(True)[:1]), (*aside(*words)[:2], [aside(*words)[2]]))
            same("two lines: %s" % words, errors.count("\n"), 2)

    def test_others(self):
        """Other commands tell what they tell elsewhere."""
        for words in (["holds", "missing"], ["migrate", "missing"], ["init", "missing/store", "missing"], ["holds", "--help"]):
            same(" ".join(words), watched(*words), aside(*words))


if __name__ == "__main__":
    main("terminal")
