#!/usr/bin/env python3
"""The page in a headless Chromium, behind the real front: what it shows is what the desk's reports say.

    test_page.py [-v] [NAME..]

Pictures of the page go to the folder that BUREAU_PICTURES names, where it names one.
"""
import csv
import io
import json
import os
import re
import time
import unittest

from chromium import Browser
from drawn_desk import DrawnDesk, Zone
from front import Front
from page import NORTH, PUBLISHER, SOUTH, ZONES, check, click, enter, filter_by, go, is_wide, lines, no_faults, picture, said, same, shows
from page_looks import CUT
from service import SAMPLE, TOP, Client, Desk, exchange, folder, main, without_time, write
from stand_in import StandIn, until

SITE = os.path.join(TOP, "examples", "site")
MARKED = 'IBM.<b>"&amp;<img/src=x/onerror=document.title=1>'
TWO_LINES = """[...document.querySelectorAll('td.of-fmid, td.of-sysmod, td.of-reason')].filter(cell => {
    const text = document.createRange(); text.selectNodeContents(cell); return text.getClientRects().length > 1;
}).map(cell => cell.innerText)"""


BELOW = """[...document.querySelectorAll('tbody tr:not(.space)')].flatMap(row => [...row.cells]).filter(cell =>
    Math.abs(cell.getBoundingClientRect().left - document.querySelectorAll('thead th')[cell.cellIndex].getBoundingClientRect().left) > 1
).map(cell => cell.innerText)"""


# makes what the browser has kept a day older, and gives its keys
A_DAY_AGO = """new Promise(done => { const opening = indexedDB.open('bureau', 1); opening.onsuccess = () => {
    const store = opening.result.transaction('zones', 'readwrite').objectStore('zones'), keys = store.getAllKeys();
    const yesterday = new Date(Date.now() - 86400000).toLocaleString('sv-SE').slice(0, 10);
    keys.onsuccess = () => keys.result.forEach(key => { const got = store.get(key); got.onsuccess = () => {
        const kept = got.result; kept.day = yesterday; kept.counts[0][0] = yesterday;
        store.put(kept, key).onsuccess = () => done(keys.result); }; }); }; })"""


def csv_rows(client, report, zone):
    """The report by bureau-client: a dictionary for each row."""
    rows = list(csv.DictReader(io.StringIO(client.run(report, "--csv", zone)[1])))
    for row in rows:
        for name, text in row.items():
            row[name] = text[1:] if text.startswith("'") else text
    return rows


def chosen_as(rows, *columns):
    return sorted([row[column] for column in columns] for row in rows)


def open_all(browser):
    browser.run("document.querySelectorAll('.opener[aria-expanded=false]').forEach(b => b.click())")
    return lines(browser)


def chain_job(browser, north):
    """The chain as an SMP/E job. bureau-client makes the same."""
    place = folder()
    browser.call("Browser.setDownloadBehavior", behavior="allow", downloadPath=place)
    click(browser, ".beside [aria-label='Save as SMP/E job']")
    path = place + "/MVSPROD-UJ92003.smpcntl.txt"
    check("the chain is saved as a job", until(lambda: os.path.exists(path)))
    same("as bureau-client makes it", without_time(open(path).read()), without_time(north.run("job", "MVSPROD", "UJ92003")[1]))
    lines = [line for line in open(path).read().splitlines() if line and not line.startswith(" /*")]
    same(
        "with both members",
        lines,
        [
            " SET BOUNDARY(GLOBAL).", " RECEIVE SYSMODS SELECT(", "    UJ92003,UJ93001", "    ).",
            " SET BOUNDARY(MVSPROD).", " APPLY CHECK SELECT(", "    UJ92003,UJ93001", "    )", " .",
        ],
    )


class Page(unittest.TestCase):
    @classmethod
    def setUpClass(cls):
        cls.desk = Desk(os.path.join(SAMPLE, "callers.csv"))
        cls.front = Front([cls.desk.port, cls.desk.port], {NORTH: 1, SOUTH: 2})
        cls.publisher, cls.north, cls.south = (Client(cls.desk.url, token) for token in (PUBLISHER, NORTH, SOUTH))
        cls.browser = Browser()
        cls.addClassCleanup(cls.browser.end)

    def test_nothing_there(self):
        """A caller without zones, and a desk on which nothing is published."""
        browser, front, north = self.browser, self.front, self.north
        browser.open(front.url + "/page/?nothing")
        enter(browser, NORTH)
        said(browser, "You have no zone on this desk.")
        shows(browser, "bureau-client sync sends your lists.")
        same("once", browser.run("document.body.innerText.split('You have no zone').length - 1"), 1)
        north.run("sync", SITE + "/north")
        click(browser, "#again")
        browser.until("document.querySelectorAll('.figures').length === 1")
        go(browser, "#MVSPROD/errors")
        shows(browser, "Nothing is published yet")
        click(browser, "#leave")

    def test_sample(self):
        browser, front, north = self.browser, self.front, self.north
        self.publisher.run("publish", os.path.join(SITE, "publication.txt"))
        browser.open(front.url + "/page/")
        said(browser, "Enter your token.")
        picture(browser, "begin")
        enter(browser, NORTH)
        browser.until("document.querySelectorAll('.figures').length === 1")
        same(
            "the overview",
            browser.run(ZONES),
            [["MVSPROD", "0 HIPER, 1 PE, 0 other, 0 no resolver, 0 held, 1 can be resolved, 1 fix missing"]],
        )
        same("the level", browser.run("document.getElementById('level').innerText.split(' · ')[0]"), "8 SYSMODs and 5 holds published")
        click(browser, ".zone-name", "MVSPROD")
        browser.until("document.querySelector('tbody tr.first')")
        same("its address", browser.run("location.hash"), "#MVSPROD/errors")
        same(
            "the errors, the resolvers of one hold together, the best one first",
            open_all(browser),
            [["PE", "UJ92001", "AJ64001", "HBB77E0", "UJ92005", "GOOD", "received"], ["", "", "", "", "UJ92002", "HELD", "no"]],
        )
        rows = csv_rows(north, "errsysmods", "MVSPROD")
        same("as the report says", sorted(line[4:6] for line in lines(browser)), chosen_as(rows, "RESOLVER", "STATUS"))
        colours = "new Set([...document.querySelectorAll('footer .badge')].map(e => getComputedStyle(e).color)).size"
        same("each status with a colour of its own", browser.run(colours), 5)
        picture(browser, "sample-errors")
        click(browser, "tbody tr.first")
        shows(browser, "UJ92005 can be installed by itself.", ".beside")
        shows(browser, "SYSTEM hold: IPL", ".beside")
        click(browser, "tbody tr.more")
        shows(browser, "UJ92002 can’t be installed now: AJ64002 is in the way.", ".beside")
        browser.until("document.querySelectorAll('.needs .box').length > 1")
        same(
            "what blocks is followed to its end",
            browser.run("[...document.querySelectorAll('.needs .box')].map(e => e.innerText.split('\\n')[0] + ' ' + e.className)"),
            ["UJ92002 box held", "AJ64002 box lack"],
        )
        # what would give AJ64002 is held, and neither the report nor the plan tells of it
        shows(browser, "is needed. What would give it is held, or is not for this zone, or is not published", ".needs")
        picture(browser, "sample-held")
        click(browser, ".tab-count", "1")
        go(browser, "#MVSPROD/fixes")
        fixes = csv_rows(north, "missingfix", "MVSPROD")
        same("one fix, once, for both categories", lines(browser), [["IBM.Function.HealthChecker and 1 more", "HBB77E0", "AJ64005", "UJ92003", "GOOD", "no"]])
        same("which are those of the report", browser.run("document.querySelector('.of-category .cut').title.split('\\n')"), [row["CATEGORY"] for row in fixes])
        click(browser, "tbody tr.first")
        shows(browser, "UJ92003 can be installed, together with 1 other SYSMOD.", ".beside")
        same("its members", browser.run("[...document.querySelectorAll('.members .id')].map(e => e.innerText)"), ["UJ92003", "UJ93001"])
        chain_job(browser, north)
        browser.run("(i => { i.value = 'uj92005'; i.form.requestSubmit(); })(document.querySelector('.ask-chain input'))")
        shows(browser, "UJ92005 can be installed by itself.", ".beside")
        same("any SYSMOD has an address", browser.run("location.hash"), "#MVSPROD/fixes/UJ92005")
        check("the token stands nowhere else", browser.run("document.cookie + location.href + JSON.stringify(localStorage)").find(NORTH) < 0)
        browser.call("Page.reload")
        shows(browser, "UJ92005 can be installed by itself.", ".beside")
        click(browser, "#leave")
        said(browser, "The token is forgotten.")
        same("forgotten", (browser.run("sessionStorage.length"), browser.run("document.querySelectorAll('main *').length")), (0, 0))
        check("the form is there again", browser.run("document.getElementById('token').offsetParent !== null"))

    def test_chosen(self):
        """SYSMODs that are chosen by boxes, in two reports, and their chains together. bureau-client makes the same job."""
        browser, front, north = self.browser, self.front, self.north
        place = folder()
        browser.open(front.url + "/page/?chosen")
        enter(browser, NORTH)
        go(browser, "#MVSPROD/errors")
        browser.until("document.querySelector('td.of-box input')")
        click(browser, "td.of-box input")
        same("a box opens nothing", browser.run("location.hash"), "#MVSPROD/errors")
        shows(browser, "1 SYSMOD chosen", ".choice-bar")
        go(browser, "#MVSPROD/fixes")
        shows(browser, "1 SYSMOD chosen", ".choice-bar")
        click(browser, "th.of-box input")
        shows(browser, "2 SYSMODs chosen", ".choice-bar")
        picture(browser, "chosen-bar")
        click(browser, ".choice-bar .main")
        shows(browser, "3 SYSMODs to install, 1 of them received, 1 with holds to heed.", ".together")
        same("their address", browser.run("location.hash"), "#MVSPROD/fixes/UJ92003+UJ92005")
        members = "[...document.querySelectorAll('.together .box')].map(e => e.innerText.replaceAll('\\n', ' '))"
        wanted = ["UJ92003 for HBB77E0 (AJ64005)", "UJ92005 for UJ92001 (AJ64001) SYSTEM hold: IPL", "UJ93001 needed by UJ92003"]
        same("each with its reason", browser.run(members), wanted)
        picture(browser, "chosen")
        browser.call("Browser.setDownloadBehavior", behavior="allow", downloadPath=place)
        click(browser, ".together [aria-label='Save as SMP/E job']")
        path = place + "/MVSPROD-chosen.smpcntl.txt"
        check("saved as a job", until(lambda: os.path.exists(path)))
        time.sleep(0.2)
        same("the client's", without_time(open(path).read()), without_time(north.run("job", "MVSPROD", "UJ92003", "UJ92005")[1]))
        for only, left in (("ipl", "UJ92005 needs an IPL."), ("received", "UJ92003 needs what was not received."), ("hiper", "UJ92003 is for no HIPER hold.")):
            click(browser, ".together .only-" + only)
            shows(browser, left, ".left-out")
            same("the focus stays", browser.run("document.activeElement.className"), "chip only-" + only)
        shows(browser, "Nothing is left to install.", ".together")
        same("no job of nothing", browser.run("document.querySelectorAll('.together .saves').length"), 0)
        browser.call("Page.reload")
        shows(browser, "3 SYSMODs to install", ".together")
        same("the boxes too", browser.run("document.querySelector('td.of-box input').checked"), True)
        click(browser, "td.of-box input")
        shows(browser, "UJ92005 can be installed by itself.", ".beside")
        same("one is left", browser.run("location.hash"), "#MVSPROD/fixes/UJ92005")
        go(browser, "#MVSPROD/errors/UJ92003+UJ92002")
        shows(browser, "UJ92002 can’t be installed: AJ64002 is in the way.", ".left-out")
        click(browser, ".choice-bar .plain")
        same("none", browser.run("location.hash"), "#MVSPROD/errors")
        click(browser, "#leave")

    def test_sent_link(self):
        """A link leads there also who has to enter the token first."""
        browser, front = self.browser, self.front
        browser.open(front.url + "/page/?sent#MVSPROD/errors/UJ92002?status=GOOD")
        said(browser, "Enter your token.")
        enter(browser, NORTH)
        shows(browser, "UJ92002 can’t be installed now", ".beside")
        same("what the link says", browser.run("location.hash"), "#MVSPROD/errors/UJ92002?status=GOOD")
        same("the row of its hold is marked", browser.run("document.querySelector('tr.chosen .of-resolver').innerText"), "UJ92002")

    def test_installed(self):
        """A SYSMOD that is installed is told as such. What would give its need is held, and for what, the report and the plan tell."""
        browser, front, north, south = self.browser, self.front, self.north, self.south
        same("lists of SOUTH", south.run("sync", SITE + "/south")[0], 0)
        browser.open(front.url + "/page/?installed")
        click(browser, "#leave")
        enter(browser, NORTH)
        go(browser, "#MVSPROD/errors/UJ92001")
        shows(browser, "UJ92001 is installed, and is held in error. 1 other SYSMOD would give what it needs.", ".beside")
        place = folder()
        browser.call("Browser.setDownloadBehavior", behavior="allow", downloadPath=place)
        click(browser, ".beside [aria-label='Save as SMP/E job']")
        path = place + "/MVSPROD-UJ92001.smpcntl.txt"
        check("its chain is saved as a job", until(lambda: os.path.exists(path)))
        time.sleep(0.2)
        saved = open(path).read()
        same("as bureau-client makes it", without_time(saved), without_time(north.run("job", "MVSPROD", "UJ92001")[1]))
        same("which does not apply it again", re.findall(r"(?m)^ {4}(U\w+)$", saved), ["UJ92005"])
        click(browser, "#leave")
        enter(browser, SOUTH)
        go(browser, "#MVSTEST/errors/UJ92002")
        shows(browser, "UJ92002 is installed, and is held in error. It needs AJ64002, and nothing that can be installed gives that.", ".beside")
        shows(browser, "would be given by UJ92004, which is held: it needs AJ64003", ".needs")
        needs = "[...document.querySelectorAll('.needs .box')].map(e => e.innerText.replace('\\n', ' '))"
        same(
            "its needs, to the one that nothing gives",
            browser.run(needs),
            [
                "UJ92002 asked for, and installed",
                "AJ64002 is needed, and would be given by UJ92004, which is held: it needs AJ64003",
                "AJ64003 is needed, and nothing that is published gives it",
            ],
        )
        status, _, err = south.run("job", "MVSTEST", "UJ92002")
        check("the client says so too", status == 1 and "UJ92002 is installed, and is held in error: AJ64002 is needed" in err, err)
        go(browser, "#MVSTEST/plan")
        click(browser, ".left summary")
        shows(browser, "UJ92002 held for AJ64002: UJ92004 needs → AJ64003, which nothing that is published gives", ".left")
        shows(browser, "Nothing can be installed for this report.", ".plan")
        same("no job of nothing", browser.run("[...document.querySelectorAll('.plan .pair-name')].map(e => e.innerText)"), ["CSV", "JSON"])
        click(browser, "#leave")
        enter(browser, NORTH)

    def test_symptoms(self):
        """A file of symptoms joins the holds. It stays in the tab until the token is forgotten."""
        browser, north = self.browser, self.north
        give = """(input => { const data = new DataTransfer(); data.items.add(new File([%s], 'symptoms.csv'));
        input.files = data.files; input.dispatchEvent(new Event('change')); })(document.querySelector('input[type=file]'))"""
        text = "SYSMOD,REASON,DATE,CHGDT,SYMP,FIX\nUJ92001,AJ64001,25001,250102,PRV DAL,UJ92005\nUJ1,AJ2,,,'=IPL,\n"
        place = folder()
        go(browser, "#MVSPROD/errors")
        browser.run(give % json.dumps("SYSMOD,STATE\n"))
        said(browser, "This file has no symptoms.")
        same("no column", browser.run("document.querySelectorAll('.of-symptom').length"), 0)
        browser.run(give % json.dumps(text))
        said(browser, "The file has the symptoms of 2 holds.")
        browser.until("document.querySelector('td.of-symptom')")
        same("a column more", [line[-2:] for line in open_all(browser)], [["UJ92005", "pervasive, data loss"], ["", ""]])
        click(browser, "tbody tr.first")
        shows(browser, "HOLDDATA says: pervasive, data loss; fix UJ92005; held 2025-01-01; changed 2025-01-02.", ".beside")
        picture(browser, "symptoms")
        browser.call("Browser.setDownloadBehavior", behavior="allow", downloadPath=place)
        click(browser, ".report [aria-label='Save as CSV']")
        check("it is saved", until(lambda: os.path.exists(place + "/MVSPROD-errsysmods.csv")))
        time.sleep(0.2)
        by_client = north.run("errsysmods", "--csv", "MVSPROD", "--symptoms", write(place + "/symptoms.csv", text))[1]
        same("as bureau-client joins it", open(place + "/MVSPROD-errsysmods.csv").read(), by_client)
        go(browser, "#MVSPROD/errors?symptom=DAL")
        same("a filter", (len(lines(browser)), browser.run("document.querySelector('select[aria-label=Symptom]')?.value ?? ''")), (1, "=DAL"))
        click(browser, "#again")
        browser.until("document.querySelector('td.of-symptom')")
        go(browser, "#MVSPROD/fixes")
        same("not for the fixes", browser.run("document.querySelectorAll('.of-symptom, input[type=file]').length"), 0)
        click(browser, "#leave")
        enter(browser, NORTH)
        go(browser, "#MVSPROD/errors")
        browser.until("document.querySelector('tbody tr.first')")
        same("forgotten with the token", browser.run("document.querySelectorAll('.of-symptom').length"), 0)

    def test_fixes_by_name(self):
        """What `publish` keeps beside the page is joined without a word: by the page, and by the client that names the front."""
        browser, front, publisher = self.browser, self.front, self.publisher
        page, place = front.place + "/page", folder()
        text = "++HOLD(UJ92001) ERROR FMID(HBB77E0)\n REASON(AJ7%d) CLASS(%s) DATE(25204)%s.\n"
        smrt = "\n COMMENT(SMRTDATA(FIX(%s) SYMP(PRV,DAL) CHGDT(250725)))"
        both = text % (1, "PE", smrt % "UJ92013") + text % (2, "HIPER", "")
        same("published", publisher.run("publish", write(place + "/p", both), BUREAU_PAGE=page)[0], 0)
        url = front.url + "/page/symptoms.csv"
        same("not for anyone", exchange(url, "GET", "", "nobodys-token", context=front.context)[0], 401)
        table = b"SYSMOD,REASON,DATE,CHGDT,SYMP,FIX\nUJ92001,AJ71,25204,250725,PRV DAL,UJ92013\n"
        same("but for callers", exchange(url, "GET", "", NORTH, context=front.context), (200, table))
        click(browser, "#again")
        go(browser, "#")
        shows(browser, " · HOLDDATA up to 2025-08-19 · publication 2 · asked ", "#level")
        same("which is old", browser.run("document.querySelector('#level .old').innerText"), "HOLDDATA up to 2025-08-19")
        shows(browser, "in 1 of 1 zone, 1 to order", ".tile.status-none")
        go(browser, "#MVSPROD/errors")
        browser.until("document.querySelector('td.of-fix')")
        rows = [[row[at] for at in (2, 5, 7, 8)] for row in lines(browser)]
        wanted = [["AJ71", "order UJ92013", "UJ92013", "pervasive, data loss"], ["AJ64001", "GOOD", "", ""], ["AJ72", "nothing known", "", ""]]
        same("what can be ordered before what nothing is known of", sorted(rows), sorted(wanted))
        same("which is the last", rows[-1], wanted[-1])
        picture(browser, "fixes-by-name")
        for width in (320, 390, 721, 768, 1000, 1201, 1300, 1400):
            browser.size(width)
            beyond = browser.run("(s => s.scrollWidth - s.clientWidth)(document.querySelector('.scroll'))")
            same("no sideways scrolling at %d pixels" % width, (is_wide(browser), beyond), (False, 0))
            same("nothing is cut at %d pixels" % width, sorted(set(browser.run(CUT))), [])
            picture(browser, "fixes-by-name-%d" % width)
        browser.size(1400)
        filter_by(browser, "uj92013")
        same("a word finds it", [row[2] for row in lines(browser)], ["AJ71"])
        filter_by(browser, "")
        go(browser, "#MVSPROD/errors?fix=to+order")
        same("a filter", [row[2] for row in lines(browser)], ["AJ71"])
        click(browser, "tbody tr.first")
        shows(browser, "HOLDDATA names UJ92013 as its fix: order it.", ".beside")
        go(browser, "#MVSPROD/plan")
        browser.until("document.querySelector('.left')")
        left = browser.run("[...document.querySelectorAll('.left li')].map(e => e.textContent)")
        same("the plan says so too", left, ["UJ92001 held for AJ71: order UJ92013", "UJ92001 held for AJ72: nothing known"])
        by_front = Client(front.url, NORTH, BUREAU_CACERT=front.certificate)
        report = by_front.run("errsysmods", "MVSPROD")[1]
        same("the client joins it by itself", [line[61:] for line in report.splitlines()[1:-1]], ["FIX", "", "", "order UJ92013", "nothing known"])
        same("as CSV too", [line.split(",")[-1] for line in by_front.run("errsysmods", "--csv", "MVSPROD")[1].splitlines()], ["FIX", "", "", "UJ92013", ""])
        status, handed, err = by_front.run("report", "--html")
        wanted = ["order UJ92013", '<a href="%s/page/#MVSPROD/errors/UJ92005">' % front.url, "HOLDDATA up to 2025-08-19 · publication 2", "Plan for the errors"]
        same("what is handed on leads to the page", (status, err, [each for each in wanted if each not in handed]), (0, "", []))
        releases = "".join("++RELEASE(UJ92001) ERROR REASON(AJ7%d).\n" % n for n in (1, 2))
        same("publish takes it back", publisher.run("publish", write(place + "/q", releases))[0], 0)
        os.remove(page + "/symptoms.csv")
        os.remove(page + "/publication.json")
        click(browser, "#again")
        go(browser, "#MVSPROD/errors")
        browser.until("document.querySelector('tbody tr.first')")
        same("without it the page is as before", browser.run("document.querySelectorAll('.of-fix').length"), 0)

    def test_news(self):
        """The page tells what is new since the report of an earlier day, which this browser has kept for this caller."""
        browser, publisher = self.browser, self.publisher
        place, hold = folder(), "++HOLD(UJ92001) ERROR FMID(HBB77E0)\n REASON(%s) CLASS(%s).\n"
        go(browser, "#")
        browser.until("document.querySelectorAll('.figures').length === 1")
        news = "[document.querySelector('.tile.since').hidden, document.querySelectorAll('.zone-news, .trend').length]"
        same("nothing of the same day", browser.run(news), [True, 0])
        browser.until("indexedDB.databases().then(all => all.length)")
        time.sleep(0.3)
        keys = browser.run(A_DAY_AGO)
        zones = sorted(key[33:] for key in keys if re.match("[0-9a-f]{32} ", key))
        same("kept for each caller, by a sum over the token", (zones, len({key[:32] for key in keys})), (["MVSPROD", "MVSTEST"], 2))
        text = hold % ("AJ81", "HIPER") + hold % ("AJ82", "PE") + hold % ("AJ64001", "HIPER")
        same("published", publisher.run("publish", write(place + "/p", text))[0], 0)
        click(browser, "#again")
        shows(browser, "Since yesterday\n+2 −0\n+1 HIPER, 1 changed", ".tile.since")
        same("for each zone too", browser.run("document.querySelector('.zone-news').innerText"), "+2 −0 ~1")
        trend = browser.run("document.querySelector('.zone .trend title').textContent.replace(/[0-9-]{10}/g, '')")
        same("with its holds day by day", trend, "Holds: 1 on , 3 on ")
        same("as the sums have", browser.run("document.querySelectorAll('.tile .trend').length"), 4)
        picture(browser, "news-zones")
        click(browser, ".tile.since")
        browser.until("document.querySelector('.news.of-zones tbody tr.first')")
        rows = [["came", "MVSPROD"], ["changed", "MVSPROD"], ["came", "MVSPROD"]]
        same("the tile leads to what is new in all zones", (browser.run("location.hash"), [row[:2] for row in lines(browser)]), ("#*/new", rows))
        click(browser, "tbody tr.first")
        browser.until("location.hash === '#MVSPROD/new'")
        go(browser, "#MVSPROD/errors")
        marks = """[...document.querySelectorAll('tbody tr.first')].map(
            r => [r.querySelector('.of-reason').innerText, r.querySelector('.news-mark')?.title ?? ''])"""
        check("marks come", browser.until("document.querySelectorAll('.news-mark').length === 3"))
        want = [["AJ64001", "changed since yesterday"], ["AJ81", "came since yesterday"], ["AJ82", "came since yesterday"]]
        same("each is marked", sorted(browser.run(marks)), want)
        click(browser, ".chip.is-came")
        same("and can be looked for", sorted(row[2] for row in lines(browser)), ["AJ81", "AJ82"])
        go(browser, "#")
        browser.until("document.querySelector('.zone-news')")
        click(browser, ".zone-news")
        browser.until("document.querySelector('.news tbody tr.first')")
        same("its address", browser.run("location.hash"), "#MVSPROD/new")
        shows(browser, "2 holds came, 0 went, 1 changed since yesterday.", ".count")
        wanted = [
            ["came", "error", "HIPER", "UJ92001", "AJ81", "", "none", ""], ["changed", "error", "HIPER", "UJ92001", "AJ64001", "UJ92005", "GOOD", "was PE"],
            ["came", "error", "PE", "UJ92001", "AJ82", "", "none", ""],
        ]
        same("each hold", lines(browser), wanted)
        picture(browser, "news-zone")
        for width in (390, 768):
            browser.size(width)
            check("nothing is wider than %d pixels" % width, not is_wide(browser))
            picture(browser, "news-%d" % width)
        browser.size(1400)
        browser.run("[...document.querySelectorAll('tr.first')].find(row => row.innerText.includes('AJ64001')).click()")
        shows(browser, "UJ92005 can be installed by itself.", ".beside")
        releases = "".join("++RELEASE(UJ92001) ERROR REASON(%s).\n" % each for each in ("AJ81", "AJ82", "AJ64001"))
        same("published", publisher.run("publish", write(place + "/q", releases))[0], 0)
        go(browser, "#MVSPROD/new")
        click(browser, "#again")
        shows(browser, "0 holds came, 1 went, 0 changed since yesterday.", ".count")
        same("what went", lines(browser), [["went", "error", "PE", "UJ92001", "AJ64001", "UJ92005", "GOOD", ""]])
        publisher.run("publish", write(place + "/r", "++HOLD(UJ92001) ERROR FMID(HBB77E0)\n REASON(AJ64001) CLASS(PE) DATE(25176).\n"))
        click(browser, "#again")
        shows(browser, "0 holds came, 0 went, 0 changed since yesterday.", ".count")
        click(browser, "#leave")
        enter(browser, NORTH)

    def test_accepted_holds(self):
        """What a site has accepted is grey, the last, and counted apart. It stays in the browser."""
        browser, north = self.browser, self.north
        give = """(input => { const data = new DataTransfer(); data.items.add(new File([%s], 'accepted.csv'));
        input.files = data.files; input.dispatchEvent(new Event('change')); })(document.querySelectorAll('input[type=file]')[1])"""
        text = "ZONE,SYSMOD,REASON,UNTIL,WHY\n*,UJ92001,AJ64001,2099-12-31,\"not used, says \"\"ops\"\"\"\nMVSPROD,UJ1,AJ1,,\n"
        place = folder()
        go(browser, "#MVSPROD/errors")
        for wrong in ("SYSMOD\n", text.replace("2099-12-31", "soon"), text + "A,B\n"):
            browser.run(give % json.dumps(wrong))
            said(browser, "This file has no accepted holds")
        browser.run(give % json.dumps(text))
        said(browser, "The file has 2 accepted holds.")
        browser.until("document.querySelector('tbody tr.accepted')")
        colours = "[...document.querySelectorAll('tr.accepted :is(td, .badge, .yes)')].map(e => getComputedStyle(e).color)"
        same("grey", browser.run("[...new Set(%s)]" % colours), ["rgb(86, 96, 114)"])
        click(browser, "tbody tr.first")
        shows(browser, 'Accepted until 2099-12-31: not used, says "ops".', ".beside")
        picture(browser, "accepted")
        browser.call("Browser.setDownloadBehavior", behavior="allow", downloadPath=place)
        click(browser, ".report [aria-label='Save as CSV']")
        check("it is saved", until(lambda: os.path.exists(place + "/MVSPROD-errsysmods.csv")))
        time.sleep(0.2)
        site = folder()
        write(site + "/zones/MVSPROD.csv", open(SITE + "/north/zones/MVSPROD.csv").read())
        write(site + "/accepted.csv", text)
        same("the client takes the same file", north.run("sync", site)[0], 0)
        same("and joins the same", open(place + "/MVSPROD-errsysmods.csv").read(), north.run("errsysmods", "--csv", "MVSPROD")[1])
        os.remove(site + "/accepted.csv")
        same("which is taken back", north.run("sync", site)[0], 0)
        for _ in range(2):
            go(browser, "#")
            shows(browser, "0\nin 0 of 1 zone, 1 accepted", ".tile.of-all")
            browser.call("Page.reload")
            browser.until("document.querySelector('.figures')")
        browser.run("new Promise(done => { const opening = indexedDB.open('bureau', 1); opening.onsuccess = () => {"
                    "opening.result.transaction('zones', 'readwrite').objectStore('zones').clear().onsuccess = done; }; }).then(() => 1)")
        click(browser, "#leave")
        enter(browser, NORTH)
        go(browser, "#MVSPROD/errors")
        browser.until("document.querySelector('tbody tr.first')")
        same("forgotten", browser.run("document.querySelectorAll('tr.accepted').length"), 0)

    def test_all_zones(self):
        """The tiles lead to one list over all zones, and a slash to the filter. A hold has its date, and can be looked for by its age."""
        browser, publisher, south = self.browser, self.publisher, self.south
        place = folder()
        for zone in ("ONE", "TWO"):
            south.run("zone", zone, write(place + "/z", "SYSMOD,STATE\nHBB77E0,APPLIED\nUJ92001,APPLIED\nUJ92004,APPLIED\n"))
        click(browser, "#leave")
        enter(browser, SOUTH)
        go(browser, "#")
        shows(browser, "3 zones", ".tile.status-none")
        browser.until("document.querySelectorAll('.figures').length === 3")
        click(browser, ".tile.of-all")
        browser.until("document.querySelector('.all tbody tr.first')")
        same("its address", browser.run("location.hash"), "#*/errors")
        wanted = [
            ["PE", "UJ92001", "AJ64001", "UJ92002", "GOOD", "2", "ONE TWO"], ["HIPER", "UJ92002", "AJ64002", "UJ92004", "HELD", "1", "MVSTEST"],
            ["PE", "UJ92004", "AJ64003", "", "none", "2", "ONE TWO"],
        ]
        same("each hold once, with its zones", sorted(lines(browser)), sorted(wanted))
        picture(browser, "all-zones")
        for width in (320, 390, 768):
            browser.size(width)
            check("nothing is wider than %d pixels" % width, not is_wide(browser))
            picture(browser, "all-zones-%d" % width)
        browser.size(1400)
        go(browser, "#")
        click(browser, ".tile.status-none")
        browser.until("document.querySelector('.all tbody tr.first')")
        same("a tile leads to what it counts", (browser.run("location.hash"), [row[1] for row in lines(browser)]), ("#*/errors?status=none", ["UJ92004"]))
        browser.run("document.activeElement.blur()")
        browser.key("/", 191, "/")
        same("a slash leads to the filter", browser.run("document.activeElement.ariaLabel"), "Show rows with these words")
        browser.write("two")
        same("which knows zones", [row[1] for row in lines(browser)], ["UJ92004"])
        click(browser, "tbody tr.first")
        browser.until("document.querySelector('.zone-view .tabs')")
        same("a line leads to its zone", browser.run("location.hash.split('?')[0]"), "#ONE/errors")
        go(browser, "#*/fixes")
        shows(browser, "1 fix", ".count")
        go(browser, "#ONE/errors")
        dates = "[...document.querySelectorAll('tbody tr.first')].map(row => row.querySelector('.of-date').innerText)"
        check("dates come", browser.until(dates + ".every(Boolean)"))
        same("that of each hold", sorted(browser.run(dates)), ["2025-06-25", "2025-08-19"])
        same("none is new", browser.run("document.querySelector('select[aria-label=Age]').offsetParent"), None)
        today = time.strftime("%y%j", time.localtime(time.time() - 9 * 86400))
        same("published", publisher.run("publish", write(place + "/p", "++HOLD(UJ92001) ERROR REASON(AJ91) DATE(%s).\n" % today))[0], 0)
        click(browser, "#again")
        go(browser, "#ONE/errors?age=30")
        browser.until("document.querySelector('tbody tr.first')")
        same("one is nine days old", [row[2] for row in lines(browser)], ["AJ91"])
        options = browser.run("[...document.querySelector('select[aria-label=Age]').options].map(option => option.text)")
        same("which is not older than these", options, ["Any age", "not older than 30 days (1)", "not older than 90 days (1)", "not older than a year (1)"])
        go(browser, "#ONE/errors?fmid=HBB77E0")
        same("or by the FMID of the hold", sorted(row[2] for row in lines(browser)), ["AJ64001", "AJ64003"])
        publisher.run("publish", write(place + "/q", "++RELEASE(UJ92001) ERROR REASON(AJ91).\n"))
        click(browser, "#leave")
        enter(browser, NORTH)

    def test_refusals(self):
        browser, front = self.browser, self.front
        browser.open(front.url + "/page/?refused")
        click(browser, "#leave")
        enter(browser, "nobodys-token")
        said(browser, "The desk does not know this token.")
        same("the token can be entered anew at once", browser.run("document.activeElement.id + document.activeElement.ariaInvalid"), "tokentrue")
        places = browser.run("['enter', 'message'].map(id => document.getElementById(id).getBoundingClientRect().toJSON())")
        form, words = places
        check("what is wrong stands below the field", 0 <= words["top"] - form["bottom"] < 30 and words["left"] == form["left"], places)
        same("and is read with it", browser.run("document.getElementById('token').getAttribute('aria-describedby')"), "message")
        picture(browser, "refused")
        same("nothing of the earlier token is shown", browser.run("document.querySelectorAll('main *').length"), 0)
        same("nor kept", browser.run("sessionStorage.length"), 0)
        browser.run("sessionStorage.setItem('bureau-token', 'nobodys-token')")
        browser.open(front.url + "/page/?refused-again")
        said(browser, "The desk does not know this token.")
        same("a kept one that is refused is forgotten", browser.run("sessionStorage.length"), 0)
        enter(browser, PUBLISHER)
        said(browser, "publisher has no zones")
        enter(browser, "short")
        said(browser, "A token has 8 to 64")
        same("no token is kept", browser.run("sessionStorage.length"), 0)
        check("another can be entered", browser.run("document.getElementById('token').offsetParent !== null"))

    def put_marks(self):
        """What has marks in it: a publication, and lists of SOUTH."""
        place, south = folder(), self.south
        self.publisher.run(
            "publish",
            write(
                place + "/p",
                (
                    "++PTF(@A$#001).\n++VER(Z038) FMID(HBB77E0).\n++HOLD(UJ1) ERROR REASON(@A$#001).\n"
                    "++PTF(UR1).\n++VER(Z038) FMID(HBB77E0) REQ(UR2).\n++PTF(UR2).\n++VER(Z038) FMID(HBB77E0) REQ(UR1,ZZ1).\n"
                    "++HOLD(@A$#001) SYSTEM REASON(IPL).\n++HOLD(@A$#001) USER REASON(OURS).\n"
                    "++HOLD(UJ1) FIXCAT REASON(AJ3)\n CATEGORY(%s,\n IBM.%s).\n" % (MARKED, "Long" * 15)
                ),
            ),
        )
        south.run("zone", "Z@#$", write(place + "/z", "SYSMOD,STATE\nHBB77E0,APPLIED\nUJ1,APPLIED\n"))
        south.run("categories", "Z@#$", write(place + "/c", "CATEGORY\n*\n"))
        south.run("zone", "Z0", write(place + "/0", "SYSMOD,STATE\nHBB77E0,APPLIED\n"))
        south.run("zone", "Z1", write(place + "/1", "SYSMOD,STATE\n"))

    def test_marks(self):
        """A category and ids with marks that HTML knows, shown as they are."""
        browser, front, client = self.browser, self.front, self.south
        self.put_marks()
        browser.open(front.url + "/page/?marks")
        enter(browser, SOUTH)
        shows(browser, "Z@#$", ".zones")
        go(browser, "#")
        click(browser, ".zone-name", "Z@#$")
        browser.until("document.querySelector('tbody tr.first')")
        same("its address", browser.run("location.hash"), "#Z%40%23%24/errors")
        same("the errors", lines(browser), [["–", "UJ1", "@A$#001", "", "@A$#001", "GOOD", "no"]])
        go(browser, "#Z%40%23%24/fixes")
        rows = csv_rows(client, "missingfix", "Z@#$")
        titles = browser.run("[...document.querySelectorAll('.of-category .cut')].flatMap(cell => cell.title.split('\\n')).sort()")
        same("texts are texts", titles, sorted(row["CATEGORY"] for row in rows))
        check("with marks", MARKED in titles, titles)
        same("a row without a resolver is the last", lines(browser)[-1][3:], ["no resolver", "none", ""])
        go(browser, "#Z%40%23%24/fixes?status=none")
        browser.until("document.querySelector('tbody tr.first')")
        shows(browser, MARKED, ".of-category .cut")
        same("nothing of it became an element", browser.run("document.querySelectorAll('main b, main img').length"), 0)
        same("it is there alone", [row[3:] for row in lines(browser)], [["no resolver", "none", ""]])
        click(browser, "tbody tr.first")
        shows(browser, "No published SYSMOD resolves this hold yet.", ".beside")
        go(browser, "#Z0/fixes")
        shows(browser, "No fix is missing, or no fix categories are set for this zone")
        go(browser, "#Z1/errors")
        shows(browser, "This zone has no SYSMOD: its list is empty.")
        go(browser, "#Z%40%23%24/errors/%40A%24%23001")
        shows(browser, "SYSTEM hold: IPL", ".beside")
        shows(browser, "USER hold: OURS", ".beside")
        go(browser, "#Z%40%23%24/errors/UR1")
        shows(browser, "UR1 can’t be installed now: UR2 is in the way.", ".beside")
        shows(browser, "and so on: UR1 stands above, and waits for this", ".needs")
        go(browser, "#Z%40%23%24/errors/%40A%24%23001")
        shows(browser, "USER hold: OURS", ".beside")
        browser.size(700)
        browser.call("Emulation.setEmulatedMedia", media="print")
        check("on paper nothing is cut off", not is_wide(browser), browser.run("document.documentElement.scrollWidth"))
        same("and no id takes two lines", browser.run(TWO_LINES), [])
        same("each field stands below its heading", browser.run(BELOW), [])
        top, bottom = (browser.run("document.querySelector('%s').getBoundingClientRect().%s" % of) for of in ((".beside", "top"), ("table", "bottom")))
        is_static = browser.run("getComputedStyle(document.querySelector('.beside')).position") == "static"
        check("the chain stands below the table", top > bottom - 1 and is_static)
        picture(browser, "paper")
        browser.call("Emulation.setEmulatedMedia", media="")
        browser.size(1400)

    def test_slow(self):
        """A desk that lets one wait, and answers that are none."""
        browser = self.browser
        desk = StandIn()
        zones = [Zone(name, 3, 1, at) for at, name in enumerate(("A", "B", "C"))]
        desk.reply = made_up = DrawnDesk(zones)
        # without TLS, since Chromium keeps no answer of a front whose certificate it doesn't know
        front = Front([desk.port, desk.port], {NORTH: 1}, plain=True)
        browser.open(front.url + "/page/?slow")
        enter(browser, NORTH)
        browser.until("document.querySelectorAll('.figures').length === 3")
        go(browser, "#A/errors")
        browser.until("document.querySelector('tbody tr.first')")
        desk.may_answer.clear()
        legend = "document.querySelector('footer').getBoundingClientRect().top"
        before = browser.run(legend)
        click(browser, "#again")
        said(browser, "Asking for the zones.")
        check("the legend stays in its place", before > 700 and browser.run(legend) == before, (before, browser.run(legend)))
        same("nothing old is shown meanwhile", browser.run("document.querySelectorAll('main *').length"), 0)
        for zone in "BACABC":  # more than the front lets one token ask at a time
            browser.run("location.hash = '#%s/errors'" % zone)
            time.sleep(0.1)
        began = browser.run("Date.now()")
        time.sleep(1)
        desk.may_answer.set()
        browser.until("document.querySelector('tbody tr.first')")
        heads = "document.querySelector('h1').innerText + document.querySelector('caption').innerText"
        same("of the zone chosen last", browser.run(heads), "CException SYSMODs of C")
        asked = browser.run("Date.parse(document.getElementById('level').innerText.split('asked ')[1].replace(' ', 'T'))")
        check("the time is that of asking", began - 60000 < asked <= began, asked - began)
        whole = made_up("GET /zones/A/errsysmods x")
        for name, reply in (
            ("half a report", whole[: len(whole) // 2]),
            ("a report that lost a row", whole.replace(b"\nROWS ", b"\nROWS 1")),
            ("a status that no desk has", whole.replace(b" GOOD ", b" FINE ")),
            ("the report of another zone", made_up("GET /zones/B/errsysmods x")),
            ("a page of something between", b"<html><b>Please log in</b></html>\n"),
        ):
            desk.reply = lambda first: reply if "errsysmods" in first and "plan" not in first else made_up(first)
            browser.run("location.hash = '#A/errors'")
            click(browser, "#again")
            said(browser, "What came is no answer of a desk.")
            same(name, lines(browser), [])
        desk.reply = made_up
        click(browser, "#again")
        browser.until("document.querySelector('tbody tr.first')")
        front.end()

    def test_away(self):
        browser, front, desk = self.browser, self.front, self.desk
        browser.open(front.url + "/page/?away")
        click(browser, "#leave")
        enter(browser, NORTH)
        go(browser, "#MVSPROD/errors")
        browser.until("document.querySelector('tbody tr.first')")
        desk.end()
        click(browser, "tbody tr.first")
        shows(browser, "No answer: the desk is away", ".beside")
        same("no chain is shown", browser.run("document.querySelectorAll('.members').length"), 0)
        click(browser, "#again")
        said(browser, "No answer: the desk is away")
        same("nothing old is shown", (lines(browser), browser.run("document.getElementById('level').innerText")), ([], ""))
        front.end()
        click(browser, "#again")
        said(browser, "No answer: the desk is away")

    def test_no_faults(self):
        no_faults(self.browser)

    def test_no_token_in_a_path(self):
        log = open(self.front.place + "/tmp/access.log").read()
        check("no token stands in a path", "/errsysmods" in log and "north-token" not in log and "NORTH-TOKEN" in log)


if __name__ == "__main__":
    main("page")
