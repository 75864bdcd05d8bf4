#!/usr/bin/env python3
"""A desk that finds a report's holds among all holds, which it keeps from 5,000 rows on: each report is that of a run from files."""
import os
import random
import subprocess
import unittest

from service import PROGRAM, Desk, folder, main, same, write

ROOM = folder()
PUBLISHER, ALPHA = "publisher-token", "alpha-token"
CALLERS = "NAME,TOKEN\nPUBLISH,%s\nALPHA,%s\n" % (PUBLISHER, ALPHA)
KINDS = ["ERROR", "FIXCAT", "SYSTEM", "USER"]
NAMES = ["UA%05d" % number for number in range(9000)]
# rows enough for the desk to read all holds, and to look among them; few rows, and SYSMODs that nobody has heard of, for which it does not
ZONES = {"LARGE": NAMES[:6000], "MIDDLE": NAMES[5800:6200], "SMALL": [NAMES[7], NAMES[5999], NAMES[6000]], "STRANGE": ["UZ00001"]}


def operands(name, kind):
    """The list and the operands that tell a hold from others."""
    return "(%s) %s FMID(HBB77E0) REASON(A%s)" % (name, kind, name[2:])


def drawn(seed):
    """A publication of 12,000 holds of all kinds, and one that releases some of them and holds others."""
    draw = random.Random(seed)
    held = sorted({(draw.choice(NAMES), draw.choice(KINDS)) for _ in range(12000)})
    text = "++FUNCTION(HBB77E0).\n++VER(Z038).\n"
    for name, kind in held:
        text += "++HOLD%s%s.\n" % (operands(name, kind), " CATEGORY(IBM.A%s)" % name[-1] if kind == "FIXCAT" else "")
    released = draw.sample(held, 3000)
    later = "".join("++RELEASE%s.\n" % operands(name, kind) for name, kind in released)
    return text, later + "".join("++HOLD%s CLASS(PE).\n" % operands(name, "ERROR") for name in draw.sample(NAMES, 500))


def of_zone(names):
    return "SYSMOD,STATE\n" + "".join("%s,%s\n" % (name, ["APPLIED", "ACCEPTED", "SUPERSEDED"][place % 3]) for place, name in enumerate(sorted(names)))


class KeptHolds(unittest.TestCase):
    def reports(self, desk, publications):
        """Each report of each zone is asked for, three times over."""
        files = ["publication-%d.txt" % place for place in range(len(publications))]
        for file, text in zip(files, publications):
            write(os.path.join(ROOM, file), text)
        for turn in range(3):
            for zone in ZONES:
                for words in (["errsysmods"], ["missingfix", "--categories", "categories.csv"]):
                    from_files = [PROGRAM, *words, "--zone", zone + ".csv", *files]
                    wanted = subprocess.run(from_files, capture_output=True, cwd=ROOM, check=True, timeout=60).stdout
                    same("%s of %s, turn %d" % (words[0], zone, turn), desk.ask("GET", "/zones/%s/%s" % (zone, words[0]), ALPHA), (200, wanted))

    def test_reports(self):
        """Also after a publication, and after a change of the client's own."""
        callers = write(os.path.join(ROOM, "callers.csv"), CALLERS)
        write(os.path.join(ROOM, "categories.csv"), "CATEGORY\nIBM.A1\nIBM.A7\n")
        first, later = drawn(81)
        desk = Desk(callers)
        same("a publication", desk.ask("POST", "/publish", PUBLISHER, 1, first.encode())[0], 200)
        number = 0
        for zone, names in ZONES.items():
            lists = {"": of_zone(names), "/categories": "CATEGORY\nIBM.A1\nIBM.A7\n"}
            write(os.path.join(ROOM, zone + ".csv"), lists[""])
            for path, text in lists.items():
                number += 1
                same("a list of %s" % zone, desk.ask("PUT", "/zones/%s%s" % (zone, path), ALPHA, number, text.encode())[0], 200)
        self.reports(desk, [first])
        same("a later publication", desk.ask("POST", "/publish", PUBLISHER, 2, later.encode())[0], 200)
        self.reports(desk, [first, later])
        ZONES["SMALL"] = NAMES[5000:8000]
        write(os.path.join(ROOM, "SMALL.csv"), of_zone(ZONES["SMALL"]))
        same("another list", desk.ask("PUT", "/zones/SMALL", ALPHA, number + 1, of_zone(ZONES["SMALL"]).encode())[0], 200)
        self.reports(desk, [first, later])
        same("a zone that is dropped", desk.ask("DELETE", "/zones/SMALL", ALPHA, number + 2)[0], 200)
        same("and is asked for", desk.ask("GET", "/zones/SMALL/errsysmods", ALPHA)[0], 404)
        desk.end()


if __name__ == "__main__":
    main("kept holds")
