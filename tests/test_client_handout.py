#!/usr/bin/env python3
"""`bureau-client report`: the page, the mail, the workbook and the CSV that are handed on, by unittest, against a stand-in for a desk.

    test_client_handout.py [-v] [NAME..]
"""
import csv
import email
import email.policy
import html.parser
import io
import json
import os
import re
import subprocess
import sys
import unittest

from service import CLIENT, TOP, Client, folder, main, write
from stand_in import StandIn

NORTH, MARKED = "north-token", 'IBM.<b>"&amp;'
VOID = {"meta", "br"}
ERRORS = [
    ("HBB77E0", "UA1", "AA1", None, None, None, "HIPER", "2025-11-01"), ("HBB77E0", "UA2", "AA2", "UB2", "HELD", False, "PE", "2025-10-01"),
    ("HBB77E0", "UA2", "AA2", "UB3", "GOOD", True, "PE", "2025-10-01"), ("HBB77E0", "UA3", "AA3", None, None, None, "HIPER", None),
    ("HBB77E0", "UA4", "AA4", "UB4", "GOOD", False, None, "2025-09-01"),
]
NAMES = ("fmid", "sysmod", "reason", "resolver", "status", "received", "class", "date")
FIXES = [{"category": MARKED, "sysmod": "HBB77E0", "reason": "AA5", "resolver": "UB5", "status": "GOOD", "received": False, "date": None}]
SYMPTOMS = "SYSMOD,REASON,DATE,CHGDT,SYMP,FIX\nUA3,AA3,25001,,PRV,UB9\n"
MEMBER = {
    "fmids": ["HBB77E0"], "holds": [{"sysmod": "UA2", "reason": "AA2"}], "id": "UB3", "needed_by": [], "received": True, "step": 1,
    "system": ["IPL"], "user": [],
}
FAKE = """import json
class Cell: value = data_type = None
class Width: width = 0
class Sheet:
    def __init__(self, name): self.name, self.cells, self.column_dimensions = name, {}, {letter: Width() for letter in "ABCDEFGHIJKLMNOPQRSTUVWXYZ"}
    dimensions, auto_filter = "A1:Z9", Width()
    def cell(self, row, column): return self.cells.setdefault((row, column), Cell())
class Workbook:
    def __init__(self): self.active, self.sheets = None, []
    def remove(self, sheet): pass
    def create_sheet(self, name): self.sheets.append(Sheet(name)); return self.sheets[-1]
    def save(self, path):
        with open(path, "w") as file:
            json.dump({s.name: [[*at, cell.value, cell.data_type] for at, cell in s.cells.items()] for s in self.sheets}, file)
"""


# A Python that has openpyxl, if there is one.
PYTHONS = (sys.executable, "/usr/bin/python3")
PYTHON = next((each for each in PYTHONS if not subprocess.run([each, "-c", "import openpyxl"], capture_output=True).returncode), None)
READ = """import json, openpyxl, sys
book = openpyxl.load_workbook(sys.argv[1])
print(json.dumps({sheet.title: [[cell.value for cell in row] for row in sheet.iter_rows()] for sheet in book}))
"""


def stand(with_front=True, with_plans=True, python=None):
    """A desk with the zones TGT1, which has holds, and T@2, which has none."""
    desk = StandIn()
    front = {"/page/": "<title>bureau</title>", "/page/symptoms.csv": SYMPTOMS, "/page/publication.json": '{"newest": "2025-11-26", "number": 7}'}
    answers = {"/published": "PUBLISHED SYSMODS 9 HOLDS 7\n", "/zones.json": '{"zones":[{"sysmods":4,"zone":"T@2"},{"sysmods":4,"zone":"TGT1"}]}'}
    for zone, errors, fixes in (("TGT1", [dict(zip(NAMES, row)) for row in ERRORS], FIXES), ("T@2", [], [])):
        for report, rows in (("errsysmods", errors), ("missingfix", fixes)):
            answers[f"/zones/{zone}/{report}.json"] = json.dumps({"report": report, "rows": rows, "zone": zone})
            plan = {"blocked": [], "held": [], "members": [MEMBER] if errors and report == "errsysmods" else [], "report": report}
            if with_plans:
                answers[f"/zones/{zone}/{report}/plan.json"] = json.dumps({**plan, "resolved": [], "unresolved": [], "zone": zone})
    answers.update(front if with_front else {})
    changes = {"DELETE /zones/A": (409, b"GAP LAST 0\n"), "PUT /received": (200, b"RECEIVED ROWS 0\n")}
    desk.reply = lambda first: changes.get(first.rpartition(" ")[0]) or answers.get(first.split()[1], "").encode() or (404, b"NOT FOUND\n")
    return Client("http://127.0.0.1:%d" % desk.port, NORTH, python)


class Page(html.parser.HTMLParser):
    """The texts of a page by their elements, its links, and what it would fetch."""

    def __init__(self, text):
        super().__init__()
        self.open, self.cells, self.links, self.fetched, self.ids = [], [], [], [], []
        self.feed(text)
        self.close()

    def handle_starttag(self, tag, attributes):
        given = dict(attributes)
        self.fetched += [tag] if tag in ("script", "link", "img", "iframe") or "src" in given else []
        self.links += [given["href"]] if "href" in given else []
        self.ids += [given["id"]] if "id" in given else []
        self.open += [] if tag in VOID else [tag]
        if tag in ("td", "th", "tr"):
            self.cells.append((tag, ""))

    def handle_endtag(self, tag):
        if self.open.pop() != tag:
            raise AssertionError(tag)

    def handle_data(self, text):
        if {"td", "th"} & set(self.open):
            tag, before = self.cells[-1]
            self.cells[-1] = tag, before + text

    @property
    def rows(self):
        found = []
        for tag, text in self.cells:
            if tag == "tr":
                found.append([])
            else:
                found[-1].append(text)
        return found


class Reports(unittest.TestCase):
    def test_a_page(self):
        """One file: the overview, and each zone with its holds, fixes and plan. What can be done something about comes first."""
        client = stand()
        status, text, err = client.run("report", "--html")
        self.assertEqual((status, err), (0, ""))
        page, url = Page(text), client.environment["BUREAU_URL"]
        self.assertEqual((page.open, page.fetched), ([], []))
        self.assertEqual(page.rows[1][:5], ["T@2", "4", "0", "0", "0"])
        holds = [row for row in page.rows if len(row) == 6]
        self.assertEqual([row[1] for row in holds], ["SYSMOD", "UA3", "UA2", "UA4", "UA1", "FMID", "HBB77E0"])
        self.assertEqual(holds[1], ["HIPER", "UA3", "AA3", "", "order UB9", "no resolver"])
        self.assertEqual(holds[2], ["PE", "UA2", "AA2", "2025-10-01", "GOOD", "UB3 GOOD receivedUB2 HELD"])
        self.assertEqual(holds[4][4], "nothing known")
        self.assertEqual(holds[6][0], MARKED)
        self.assertIn(["1", "UB3", "received", "SYSTEM IPL", "resolves UA2 (AA2)"], page.rows)
        self.assertIn("HOLDDATA up to 2025-11-26 · publication 7", text)
        self.assertIn(url + "/page/#TGT1/errors/UB3", page.links)
        self.assertEqual([each for each in page.links if not each.startswith((url + "/page/#", "#"))], [])
        self.assertEqual([each for each in page.links if each.startswith("#") and each[1:] not in page.ids], [])
        self.assertIn("Nothing is held in error", text)

    def test_a_desk_alone(self):
        """Without a front there is no page to lead to, and without plans none is shown."""
        text = stand(with_front=False, with_plans=False).run("report", "--html", "TGT1")[1]
        page = Page(text)
        self.assertEqual(page.links, ["#TGT1"])
        self.assertNotIn("Plan for", text)
        self.assertEqual([row[1] for row in page.rows if len(row) == 6][1:5], ["UA2", "UA4", "UA1", "UA3"])

    def test_accepted(self):
        """An accepted hold is the last, says so, and is not counted."""
        client, place = stand(), folder()
        accepted = "ZONE,SYSMOD,REASON,UNTIL,WHY\n*,UA2,AA2,2099-12-31,=ours\n"
        write(place + "/accepted.csv", accepted)
        write(place + "/received.csv", "SYSMOD\n")
        client.run("sync", place)
        home = [os.path.join(client.home, "desks", name) for name in os.listdir(client.home + "/desks")][0]
        write(home + "/accepted.csv", accepted)
        page = Page(client.run("report", "--html")[1])
        holds = [row for row in page.rows if len(row) == 6]
        self.assertEqual(holds[4][1:5], ["UA2", "AA2", "2025-10-01", "GOODaccepted until 2099-12-31 =ours"])
        self.assertEqual(dict(zip(page.rows[0], page.rows[2]))["ACCEPTED"], "1")
        self.assertIn(",2099-12-31,'=ours\n", client.run("report", "--csv")[1])

    def test_csv(self):
        """A row for each row of both reports."""
        status, text, _ = stand().run("report", "--csv", "TGT1")
        rows = list(csv.DictReader(io.StringIO(text)))
        self.assertEqual((status, len(rows)), (0, len(ERRORS) + len(FIXES)))
        self.assertEqual([(row["SYSMOD"], row["RESOLVER"], row["FIX"]) for row in rows][:3], [("UA3", "", "UB9"), ("UA2", "UB2", ""), ("UA2", "UB3", "")])
        self.assertEqual((rows[-1]["REPORT"], rows[-1]["CATEGORY"]), ("fix", MARKED))

    def test_a_mail(self):
        """A mail as sendmail takes it: the overview as text, and the page."""
        client = stand()
        status, text, _ = client.run("report", "--mail", "ops@example.com")
        message = email.message_from_string(text, policy=email.policy.default)
        self.assertEqual((status, message["To"]), (0, "ops@example.com"))
        self.assertRegex(message["Subject"], r"^bureau: 2 zones, \d{4}-\d\d-\d\d$")
        plain, page = (message.get_body((kind,)).get_content() for kind in ("plain", "html"))
        self.assertRegex(plain, r"(?m)^TGT1 +4 +4 +4 +2 +1")
        self.assertEqual(Page(page).open, [])

    def test_a_workbook(self):
        """Three sheets by openpyxl. A text is never a formula."""
        client, place = stand(), folder()
        write(place + "/openpyxl.py", FAKE)
        self.assertEqual(client.run("report", "--xlsx", place + "/a.xlsx", PYTHONPATH=place)[::2], (0, ""))
        with open(place + "/a.xlsx") as file:
            book = json.load(file)
        self.assertEqual(list(book), ["Overview", "Holds", "Plans"])
        self.assertEqual({kind for sheet in book.values() for _, _, value, kind in sheet if isinstance(value, str)}, {"s"})
        self.assertEqual(max(row for row, *_ in book["Holds"]), 1 + len(ERRORS) + len(FIXES))

    @unittest.skipUnless(PYTHON, "openpyxl is not there")
    def test_a_workbook_that_is_one(self):
        """openpyxl reads what it wrote: the rows of the CSV, and counts as numbers."""
        client, path = stand(python=PYTHON), folder() + "/a.xlsx"
        self.assertEqual(client.run("report", "--xlsx", path), (0, "", ""))
        book = json.loads(subprocess.run([PYTHON, "-c", READ, path], capture_output=True, text=True).stdout)
        self.assertEqual([[each or "" for each in row] for row in book["Holds"]], list(csv.reader(io.StringIO(client.run("report", "--csv")[1]))))
        self.assertEqual(book["Overview"][2][:3], ["TGT1", 4, 4])
        self.assertEqual(book["Plans"][1][:4], ["error", "TGT1", "1", "UB3"])

    def test_without_a_library(self):
        """Without openpyxl there is CSV, and that is said."""
        client, place = stand(), folder()
        write(place + "/openpyxl.py", "raise ImportError\n")
        status, out, err = client.run("report", "--xlsx", place + "/a.xlsx", PYTHONPATH=place)
        self.assertEqual((status, out, os.path.exists(place + "/a.xlsx")), (0, "", False))
        self.assertIn("python3-openpyxl", err)
        with open(place + "/a.csv") as file:
            self.assertEqual(file.read(), client.run("report", "--csv")[1])

    def test_each_morning(self):
        """The line of the unit sends the lists and then the mail; and no mail where the lists can't be sent."""
        with open(os.path.join(TOP, "deploy", "bureau-report.service")) as unit:
            line = re.search("^ExecStart=/bin/bash -c '(.*)'$", unit.read(), re.M)[1].replace("$$", "$")
        client, place = stand(), folder()
        write(place + "/site/received.csv", "SYSMOD\n")
        write(place + "/bin/sendmail", '#!/bin/sh\necho "$@" >%s/words\ncat >%s/mail\n' % (place, place))
        os.chmod(place + "/bin/sendmail", 0o755)
        path = "%s/bin:%s:%s" % (place, os.path.dirname(CLIENT), client.environment["PATH"])
        for site, status in (("/nowhere", 2), ("/site", 0)):
            environment = {**client.environment, "PATH": path, "FOLDER": place + site, "ADDRESS": "ops"}
            self.assertEqual(subprocess.run(["bash", "-c", line], env=environment, capture_output=True).returncode, status)
            self.assertEqual(os.path.exists(place + "/mail"), status == 0)
        with open(place + "/mail") as mail, open(place + "/words") as words:
            self.assertEqual((email.message_from_file(mail)["To"], words.read()), ("ops", "-t\n"))

    def test_words(self):
        client = stand()
        for words in ((), ("--html", "--csv"), ("--mail", "a b"), ("--mail", ""), ("--fixes", "--html"), ("--xlsx",)):
            self.assertEqual(client.run("report", *words)[:2], (2, ""), words)
        self.assertEqual(client.run("report", "--html", "NONE")[:2], (1, ""))


if __name__ == "__main__":
    main("client's report")
