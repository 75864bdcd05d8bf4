#!/usr/bin/env python3
"""The page in a headless Chromium with a drawn zone of 10,000 rows: how fast it is, what filters, addresses, copies,
files, the keyboard and paper do, on a desktop and on a phone, light and dark.

    test_page_large.py [-v] [NAME..]

Pictures of the page go to the folder that BUREAU_PICTURES names, where it names one.
"""
import csv
import io
import json
import os
import re
import time
import unittest

from chromium import Browser
from drawn_desk import DrawnDesk, Zone
from front import Front
from page import NORTH, check, click, count, enter, filter_by, go, lines, no_faults, picture, said, same, shows
from page_looks import looks, paper, without_resolver
from service import TOP, folder, main
from stand_in import StandIn, until

LARGE = Zone("LARGE", 10000, 3000, 1)
MANY = [Zone("Z%02d" % at, 2000, 40, at) for at in range(64)]
ZONES = [Zone("Z@#$", 30, 5, 4), LARGE, Zone("CLEAN", 0, 0, 3), Zone("MIDDLE", 300, 40, 2)]
HOLDS = {hold: found for hold, found in LARGE.holds}
BEST = {"GOOD": 0, "HELD": 1}
TIMED = """new Promise(done => { const began = performance.now(); %s;
    const look = () => requestAnimationFrame((%s) ? () => done(performance.now() - began) : look); look(); })"""

# What a page of this kind can't do without: the report comes through the front, its fields are cut out, and a hundred lines are drawn.
YARDSTICK = """(async () => {
    const began = performance.now();
    const reply = await fetch('../zones/LARGE/errsysmods', { headers: { 'bureau-token': '%s' }, cache: 'no-store' });
    const lines = (await reply.text()).split('\\n').map(line => [0, 9, 18, 27, 36, 43, 52].map(at => line.slice(at, at + 8).trimEnd()));
    const table = document.createElement('table');
    for (const line of lines.slice(0, 100)) for (const field of line) table.insertRow().insertCell().append(field);
    document.body.append(table);
    await new Promise(done => requestAnimationFrame(() => setTimeout(done)));
    table.remove();
    return performance.now() - began;
})()""" % NORTH
# And of many zones: their counts come through the front, three at a time, and a list of a line for each is drawn.
ZONES_YARDSTICK = """(async () => {
    const began = performance.now(), names = %s, list = document.createElement('ul');
    const ask = async () => {
        for (let name = names.shift(); name; name = names.shift()) {
            const reply = await fetch('../zones/' + name + '/counts.json', { headers: { 'bureau-token': '%s' }, cache: 'no-store' });
            list.append(Object.assign(document.createElement('li'), { textContent: name + JSON.stringify(await reply.json()) }));
        }
    };
    await Promise.all([ask(), ask(), ask()]);
    document.body.append(list);
    await new Promise(done => requestAnimationFrame(() => setTimeout(done)));
    list.remove();
    return performance.now() - began;
})()"""
# All is asked anew, and as soon as all zones have their counts, one is chosen: the milliseconds of both.
CHOSEN = """new Promise(done => { const began = performance.now(); document.getElementById('again').click();
    const zone = took => () => requestAnimationFrame(document.querySelector('.errsysmods tbody tr.first')
        ? () => done([took, performance.now() - began - took]) : zone(took));
    const look = () => { if (document.querySelectorAll('.figures').length < 64) return requestAnimationFrame(look);
        location.hash = '#%s/errors'; zone(performance.now() - began)(); }; look(); })"""
# The report that the browser has kept of LARGE becomes one of yesterday which lacks each tenth row; and what it has kept goes.
KEPT = """new Promise(done => { const opening = indexedDB.open('bureau', 1); opening.onsuccess = () => {
    const store = opening.result.transaction('zones', 'readwrite').objectStore('zones'), keys = store.getAllKeys();
    %s }; })"""
A_DAY_AGO = KEPT % """keys.onsuccess = () => keys.result.filter(key => key.endsWith(' LARGE')).forEach(key => {
        const got = store.get(key); got.onsuccess = () => { const kept = got.result, lines = kept.errors.split('\\n');
            const rows = lines.slice(2, -2).filter((_, at) => at % 10);
            kept.errors = [...lines.slice(0, 2), ...rows, 'ROWS ' + rows.length, ''].join('\\n');
            kept.day = new Date(Date.now() - 86400000).toLocaleString('sv-SE').slice(0, 10);
            store.put(kept, key).onsuccess = () => done(true); }; });"""
FORGET = KEPT % "store.clear().onsuccess = () => done(true);"
TIMES = 1.75  # how many times as long each step may take, where the machine is so busy that this is over 300 ms


def state(found):
    """The status of a hold: that of its best resolver."""
    return min((one[1] for one in found), key=BEST.get, default="none")


def holds(wanted):
    return [hold for hold, found in HOLDS.items() if wanted(hold, found)]


def number(browser):
    return int(count(browser).split()[0].replace(",", ""))


def boxes(browser):
    """A blank ticks the box of the active line, and the box on top all that are shown, as far as there is room."""
    ticked = "document.querySelector('.choice-bar').hidden ? '' : document.querySelector('.choice-bar .count').innerText"
    go(browser, "#MIDDLE/errors?status=GOOD")
    browser.run("document.querySelector('table').focus()")
    browser.key("Home", 36)
    same("none", browser.run(ticked), "")
    for wanted in ("1 SYSMOD chosen", ""):
        browser.key(" ", 32, " ")
        same("ticked: " + wanted, browser.run(ticked), wanted)
    good = {min(found, key=lambda one: (BEST[one[1]], one[2] == "NO"))[0] for _, found in ZONES[3].holds if state(found) == "GOOD"}
    click(browser, "th.of-box input")
    same("all that are shown", browser.run(ticked), "%d SYSMODs chosen" % len(good))
    same("each is marked", browser.run("[...document.querySelectorAll('tbody tr.first')].every(r => r.ariaSelected === 'true')"), True)
    click(browser, ".choice-bar .plain")
    same("and none again", (browser.run(ticked), browser.run("document.querySelectorAll('tr[aria-selected=true]').length")), ("", 0))
    go(browser, "#LARGE/errors?status=GOOD")
    click(browser, "th.of-box input")
    said(browser, "At most 200 SYSMODs can be chosen at once.")
    same("none of too many", (browser.run(ticked), browser.run("document.querySelector('th.of-box input').checked")), ("", False))
    go(browser, "#LARGE/errors?status=HELD")
    same("no box of what can't be installed", browser.run("document.querySelectorAll('td.of-box input').length"), 0)
    check("nor one on top", browser.run("document.querySelector('th.of-box input').disabled"))
    go(browser, "#MIDDLE/errors")


def plan_filter(browser):
    """The plan has a filter too, which the files do not follow; and boxes."""
    members = ZONES[3].plan("errsysmods")["members"]
    classes = {hold[:2]: hold[2] or "other" for hold, _ in ZONES[3].holds}
    hiper = [one["id"] for one in members if "HIPER" in [classes[each["sysmod"], each["reason"]] for each in one["holds"]]]
    browser.until("document.querySelector('.plan-filters .is-hiper')")
    click(browser, ".plan-filters .is-hiper")
    same("only HIPER", browser.run("document.querySelector('.plan-filters .count').innerText"), "%d of %d SYSMODs" % (len(hiper), len(members)))
    shows(browser, "Job, CSV and JSON have the whole plan.", ".plan-filters")
    same("these", [row[1] for row in lines(browser)][:7], hiper[:7])
    click(browser, ".plan-filters .is-received")
    received = [one["id"] for one in members if one["received"] and one["id"] in hiper]
    same("and received", [row[1] for row in lines(browser)][:7], received[:7])
    same("the address has it", browser.run("location.hash"), "#MIDDLE/plan?class=HIPER&received=received")
    click(browser, "td.of-box input")
    shows(browser, "1 SYSMOD chosen", ".choice-bar")
    click(browser, ".choice-bar .plain")
    click(browser, ".filters .plain")
    go(browser, "#MIDDLE/plan?heed=IPL")
    same("those with an IPL", [row[1] for row in lines(browser)][:5], [one["id"] for one in members if "IPL" in one["system"]][:5])
    filter_by(browser, "no such thing")
    shows(browser, "No SYSMOD of the plan has all that is chosen above.", ".scroll")
    filter_by(browser, "")
    go(browser, "#MIDDLE/plan")


def job(text, members):
    """A job that SMP/E could read: upper case, columns 2 to 71, each SYSMOD once, nothing bypassed."""
    same("columns 2 to 71", [line for line in text.splitlines() if len(line) > 71 or line[:1] not in ("", " ")], [])
    same("upper case", re.findall("[a-z]", text), [])
    left = re.sub(r"/\*.*?\*/", "", text)
    same("each comment ends on its line", ("/*" in left, "*/" in left), (False, False))
    statements = [" ".join(part.split()) for part in left.split(".") if part.strip()]
    same("the statements", [part.split("(")[0] for part in statements], ["SET BOUNDARY", "RECEIVE SYSMODS SELECT", "SET BOUNDARY", "APPLY CHECK SELECT"])
    ids = [re.findall(r"[A-Z0-9@#$]+", part.partition("SELECT")[2]) for part in statements]
    same("received is what was not", ids[1], [one["id"] for one in members if not one["received"]])
    same("all are applied, in order", ids[3], [one["id"] for one in members])
    same("nothing is bypassed", "BYPASS" in left, False)
    check("but told how", "/* BYPASS(HOLDSYSTEM(ACTION,IPL),HOLDUSER(OURS)) */" in text and "HAS A SYSTEM HOLD: ACTION" in text)
    check("not tried", "NOT TRIED ON A REAL Z/OS" in text)


def modules(browser):
    """All scripts are asked for at once, and not each when another one names it."""
    named = browser.run("[...document.querySelectorAll('link[rel=modulepreload], script')].map(e => (e.href || e.src).split('/').pop())")
    same("the page names its scripts", sorted(named), sorted(name for name in os.listdir(os.path.join(TOP, "clients", "page")) if name.endswith(".js")))


class PageLarge(unittest.TestCase):
    @classmethod
    def setUpClass(cls):
        cls.desk = StandIn()
        cls.desk.reply = DrawnDesk(ZONES)
        for zone in ZONES:
            for path in ("errsysmods", "missingfix", "errsysmods.json", "missingfix.json", "errsysmods/plan.json"):
                cls.desk.reply("GET /zones/%s/%s HTTP/1.1" % (zone.name.replace("#", "%23").replace("@", "%40").replace("$", "%24"), path))
        # without TLS, since Chromium takes the certificate of a trial for none
        cls.front = Front([cls.desk.port, cls.desk.port], {NORTH: 1}, plain=True)
        cls.browser = Browser()
        cls.addClassCleanup(cls.front.end)
        cls.addClassCleanup(cls.browser.end)

    def test_modules(self):
        self.browser.open(self.front.url + "/")
        same("the front door leads to the page", self.browser.run("location.pathname"), "/page/")
        modules(self.browser)
        enter(self.browser, NORTH)

    def test_overview(self):
        """The most urgent zone first; a figure leads to what it counts."""
        browser = self.browser
        shows(browser, "LARGE", ".zone:first-child .zone-name")
        browser.until("document.querySelectorAll('.figures').length === 4")
        picture(browser, "overview")
        hiper = len(holds(lambda hold, _: hold[2] == "HIPER"))
        none = len(holds(lambda _, found: not found))
        shows(browser, "{:,}".format(hiper), ".zone:first-child .figure.class-hiper")
        shows(browser, "{:,}".format(none), ".zone:first-child .figure.status-none")
        same("in the order of urgency", browser.run("[...document.querySelectorAll('.zone-name')].map(z => z.innerText)"), ["LARGE", "MIDDLE", "Z@#$", "CLEAN"])
        label = browser.run("document.querySelector('.zone:first-child .figure.status-none').ariaLabel")
        same("which a screen reader tells with its zone", label, "LARGE: {:,} no resolver".format(none))
        shows(browser, "20,000 SYSMODs and 40,000 holds published · asked 20", "#level")
        same("once", browser.run("document.body.innerText.match(/asked 20/g).length"), 1)
        check("the form is gone", browser.run("document.getElementById('enter').offsetParent === null"))
        click(browser, ".zone:first-child .figure.status-none")
        browser.until("document.querySelector('tbody tr.first')")
        same("a figure leads there", browser.run("location.hash"), "#LARGE/errors?status=none")
        same("to as many", number(browser), none)

    def test_speed(self):
        """From the question to the table, and each step in it: the best of some, since the machine has other work. What
        is asked anew travels too, from the desk and through the front. On a machine that is busy all the time, a yardstick of the same run
        tells how much longer a step may take. A filter has a third of the time of the others."""
        browser = self.browser
        ready = "document.querySelector('.errsysmods tbody tr.first') && !document.querySelector('.wait')"
        steps = {
            "asked anew": ("document.getElementById('again').click()", ready),
            "the fixes": ("location.hash = '#LARGE/fixes'", "document.querySelector('.missingfix tbody tr.first')"),
            "the errors": ("location.hash = '#LARGE/errors'", ready),
            "filtered": (
                "(f => { f.value = 'aj0123'; f.dispatchEvent(new Event('input')); })(document.querySelector('.filters input'))",
                "document.querySelector('.count').innerText.startsWith('10 ')",
            ),
            "not filtered": ("document.querySelector('.filters .plain').click()", "!document.querySelector('.count').innerText.includes(' of ')"),
            "sorted": ("document.querySelectorAll('th button')[2].click()", "document.querySelector('th[aria-sort]')"),
            "scrolled": (
                "document.querySelector('.scroll').scrollTop = 90000",
                "[...document.querySelectorAll('tbody tr.first')].some(r => r.getAttribute('aria-rowindex') > 2000 && r.getBoundingClientRect().top > 300)",
            ),
            "the plan": ("location.hash = '#LARGE/plan'", "document.querySelector('.plan tbody tr.first')"),
            "what is new": ("location.hash = '#LARGE/new'", "document.querySelector('.news tbody tr.first')"),
        }
        check("a report of yesterday is kept", browser.run(A_DAY_AGO))
        for slower in (1, 4):
            browser.call("Emulation.setCPUThrottlingRate", rate=slower)
            best, yardstick = {}, 1e9
            for _ in range(12):
                go(browser, "#LARGE/errors")
                yardstick = min(yardstick, browser.run(YARDSTICK))
                for name, (script, test) in steps.items():
                    best[name] = min(best.get(name, 1e9), browser.run(TIMED % (script, test)))
                    # what is still asked for, such as the counts of the other tabs, is another step's
                    browser.until("[...document.querySelectorAll('.tab-count')].every(c => c.innerText)")
                busy = max(1, TIMES * yardstick / 300)
                most = {name: busy * (100 if slower == 1 and name.endswith("filtered") else 300) for name in steps}
                if all(best[name] < most[name] for name in steps):
                    break
            told = ", ".join("%s %d ms" % pair for pair in {**best, "the yardstick": yardstick}.items())
            print("page: 10,000 rows, %d times slower: %s" % (slower, told))
            late = {name: took for name, took in best.items() if took > most[name]}
            same("all in time, %d times slower: 300 ms, and 100 for a filter, on a machine %.1f times as busy" % (slower, busy), late, {})
        browser.call("Emulation.setCPUThrottlingRate", rate=1)
        check("only what is seen is drawn", browser.run("document.querySelectorAll('tbody tr').length") < 120)
        go(browser, "#LARGE/errors?news=came")
        check("what is new is marked", browser.until("document.querySelector('tr.first .news-mark.is-came')"))
        check("and no row else is shown", number(browser) > 100 and browser.run("document.querySelectorAll('tr.first:not(:has(.news-mark))').length") == 0)
        browser.run(FORGET)
        click(browser, "#again")
        go(browser, "#LARGE/errors")
        browser.until("document.querySelector('tbody tr.first')")

    def test_many_zones(self):
        """With 64 zones of 2,000 rows the overview is there by their counts alone, before any report is asked for. A zone that is chosen
        then does not wait for the reports of the others."""
        browser, desk = self.browser, self.desk
        desk.reply = DrawnDesk(MANY)
        names = [zone.name for zone in MANY]
        for name in names:
            for path in ("errsysmods", "missingfix", "counts.json"):
                desk.reply("GET /zones/%s/%s HTTP/1.1" % (name, path))
        best, yardstick = 1e9, 1e9
        for _ in range(6):
            go(browser, "#")
            browser.until("document.getElementById('message').innerText === ''", 60)  # all reports have come
            yardstick = min(yardstick, browser.run(ZONES_YARDSTICK % (json.dumps(names), NORTH)))
            desk.requests.clear()
            took, opened = browser.run(CHOSEN % names[-1])
            best = min(best, took)
            asked = [first.split()[1].split("/")[2:] for first, *_ in desk.requests if first.startswith("GET /zones/")]
            most = max(2000, 3 * yardstick)
            if best < most:
                break
        print("page: 64 zones: the overview %d ms, a zone after it %d ms, the yardstick %d ms" % (best, opened, yardstick))
        check("the overview within %d ms" % most, best < most, best)
        same("their counts come before any report", [path for _, path in asked[:64]], ["counts.json"] * 64)
        before = asked[64:].index([names[-1], "errsysmods"])
        check("a zone that is chosen does not wait for the others", before < 32, before)
        same("it has as many holds", number(browser), MANY[-1].counts()["errsysmods"]["holds"])
        go(browser, "#")
        browser.until("document.querySelectorAll('.figures').length === 64")
        for name, tile in (("hiper", "class-hiper"), ("unresolved", "status-none"), ("holds", "of-all")):
            shows(browser, "{:,}".format(sum(zone.counts()["errsysmods"][name] for zone in MANY)), ".tile." + tile)
        desk.reply = DrawnDesk(ZONES)
        click(browser, "#again")
        browser.until("document.querySelectorAll('.figures').length === 4")

    def test_filters(self):
        """Class, status, receipt and text combine, and stand in the address."""
        browser = self.browser
        go(browser, "#LARGE/errors")
        same("all", number(browser), len(HOLDS))
        click(browser, ".chip.is-hiper")
        same("one class", number(browser), len(holds(lambda hold, _: hold[2] == "HIPER")))
        click(browser, ".chip.is-pe")
        same("or another", number(browser), len(holds(lambda hold, _: hold[2] in ("HIPER", "PE"))))
        click(browser, ".chip.is-held")
        both = holds(lambda hold, found: hold[2] in ("HIPER", "PE") and state(found) == "HELD")
        same("and a status", number(browser), len(both))
        part = both[0][0][2:6].lower()
        filter_by(browser, part)
        want = [hold for hold in both if part in " ".join((*hold, *(one[0] for one in HOLDS[hold]))).lower()]
        same("and a text", (number(browser), {tuple(row[1:3]) for row in lines(browser)} == {hold[:2] for hold in want}), (len(want), True))
        address = browser.run("location.hash")
        same("all in the address", address, "#LARGE/errors?class=HIPER&class=PE&status=HELD&text=" + part)
        browser.call("Page.reload")
        browser.until("document.querySelector('tbody tr.first')")
        same("also after a reload", (number(browser), browser.run("location.hash")), (len(want), address))
        same("with what was chosen", browser.run("[...document.querySelectorAll('[aria-pressed=true]')].map(c => c.firstChild.data)"), ["HIPER", "PE", "HELD"])
        click(browser, ".filters .plain", "Show all")
        same("and all again", (number(browser), browser.run("location.hash")), (len(HOLDS), "#LARGE/errors"))
        for text in ("none", "NONE"):
            filter_by(browser, text)
            same("the word " + text, number(browser), len(holds(lambda _, found: not found)))
        filter_by(browser, "no such thing")
        same("nothing", (number(browser), lines(browser)), (0, []))
        shows(browser, "No hold has all that is chosen above.", ".scroll")
        filter_by(browser, "")
        same("else that is not said", browser.run("document.querySelector('.scroll .nothing')?.offsetParent ?? null"), None)

    def test_order(self):
        """What can be resolved comes first, then what is held, and what nothing resolves last: each by its class."""
        browser = self.browser
        go(browser, "#MIDDLE/errors")
        browser.run("dispatchEvent(new Event('beforeprint'))")  # which draws all lines
        got = browser.run("[...document.querySelectorAll('tbody tr.first')].map(r => [...r.cells].slice(2, 4).map(c => c.innerText))")
        browser.run("dispatchEvent(new Event('afterprint'))")
        classes, statuses = ["HIPER", "PE"], ["GOOD", "HELD", "none"]

        def ranks(one):
            hold, resolvers = one
            return statuses.index(state(resolvers)), classes.index(hold[2]) if hold[2] in classes else 2

        same("all of them", got, [list(hold[:2]) for hold, _ in sorted(ZONES[3].holds, key=ranks)])

    def test_groups(self):
        """The resolvers of a hold are one group, the best one first."""
        browser = self.browser
        go(browser, "#MIDDLE/errors")
        hold, found = max(ZONES[3].holds, key=lambda one: len(one[1]))
        filter_by(browser, hold[0])
        same("one line", [row[1] for row in lines(browser)], [hold[0]])
        found = sorted(found, key=lambda one: (BEST[one[1]], one[2] == "NO", one[0]))
        wanted = [[one[0], one[1], "received" if one[2] == "YES" else "no"] for one in found]
        same("with the best resolver", [row[4:] for row in lines(browser)], wanted[:1])
        click(browser, ".opener")
        same("opened", [row[4:] for row in lines(browser)], wanted)
        check("each hold has its date", browser.until("document.querySelector('tbody tr.first .of-date').innerText.startsWith('2025-06-')"))
        same("the hold stands once", [row[1] for row in lines(browser)], [hold[0]] + [""] * (len(found) - 1))
        click(browser, ".opener")
        same("and closed", len(lines(browser)), 1)
        filter_by(browser, "")

    def test_without_resolver(self):
        without_resolver(self.browser)

    def test_beside(self):
        """The chain stands beside the table, at an address of its own."""
        browser = self.browser
        go(browser, "#LARGE/errors?status=HELD")
        click(browser, "tbody tr.first")
        shows(browser, "can’t be installed now", ".beside")
        row = lines(browser)[0]
        same("its address", browser.run("location.hash"), "#LARGE/errors/%s?status=HELD" % row[4])
        shows(browser, "is needed, and would be given by UJ99998, which is held: it needs AJ99999", ".needs")
        shows(browser, "is needed, and nothing that is published gives it", ".needs")
        same(
            "the row of needs, to the first that nothing gives",
            browser.run("[...document.querySelectorAll('.needs .id')].map(e => e.innerText)"),
            [row[4], "AJ99998", "AJ99999"],
        )
        same("the line is marked", browser.run("document.querySelector('tr.chosen .of-sysmod').innerText"), row[1])
        left = "document.querySelector('.beside').getBoundingClientRect().left"
        check("beside the table", browser.run("document.querySelector('.tab-body').getBoundingClientRect().right < %s + 1" % left))
        check("and as high as it", browser.run("document.querySelector('.beside').getBoundingClientRect().top < 200"))
        browser.call("Page.reload")
        shows(browser, "can’t be installed now", ".beside")
        same("marked after a reload too", browser.run("document.querySelector('tr.chosen .of-sysmod').innerText"), row[1])
        click(browser, ".close")
        same("closed", (browser.run("location.hash"), browser.run("document.querySelectorAll('tr.chosen').length")), ("#LARGE/errors?status=HELD", 0))
        browser.run("history.back()")
        shows(browser, "can’t be installed now", ".beside")

    def test_keyboard(self):
        """All of it without a mouse."""
        browser = self.browser
        go(browser, "#MIDDLE/errors")
        browser.run("document.activeElement.blur()")
        reached = []
        for _ in range(40):
            browser.key("Tab", 9)
            reached.append(browser.run("document.activeElement.firstChild?.data ?? document.activeElement.ariaLabel ?? ''"))
        wanted = {"Ask again", "Zones", "Errors", "HIPER", "none", "Copy", "Class", "Show its chain"}
        check("Tab reaches all", wanted <= set(reached), (wanted - set(reached), reached))
        browser.run("document.querySelector('table').focus()")
        for key, code in (("ArrowDown", 40), ("ArrowDown", 40), ("PageDown", 34), ("PageUp", 33)):
            browser.key(key, code)
        at = "document.getElementById(document.querySelector('table').getAttribute('aria-activedescendant'))"
        same("the active line is told", browser.run(at + ".getAttribute('aria-rowindex')"), "3")
        same("and the number of all", browser.run("document.querySelector('table').getAttribute('aria-rowcount')"), str(number(browser) + 1))
        browser.key("End", 35)
        same("the last line", browser.run(at + ".getAttribute('aria-rowindex')"), str(number(browser) + 1))
        bottom = "document.querySelector('.scroll').getBoundingClientRect().bottom"
        check("is in sight", browser.run("%s.getBoundingClientRect().bottom <= %s + 1" % (at, bottom)))
        browser.key("Home", 36)
        first = browser.run(at + ".querySelector('.of-sysmod').innerText")
        browser.key("Enter", 13, "\r")
        browser.until("document.activeElement.className.includes('beside')")
        same("Enter leads to the chain", browser.run("document.activeElement.ariaLabel"), "Chain")
        browser.key("Escape", 27)
        browser.until("document.activeElement.tagName === 'TABLE'")
        same("and Escape back to the line", browser.run(at + ".querySelector('.of-sysmod').innerText"), first)
        boxes(browser)
        browser.run("[...document.querySelectorAll('th button')].find(b => b.innerText.includes('SYSMOD')).focus()")
        for wanted in ("ascending", "descending", "none"):
            browser.key("Enter", 13, "\r")
            names = [row[1] for row in lines(browser)]
            same("sorted: " + wanted, browser.run("document.querySelector('th.of-sysmod').getAttribute('aria-sort') ?? 'none'"), wanted)
            if wanted != "none":
                same("it is", names, sorted(names, reverse=wanted == "descending"))
        browser.run("document.querySelector('.tab').focus()")
        browser.key("ArrowRight", 39)
        browser.until("document.querySelector('.missingfix tbody tr.first')")
        same("from tab to tab", browser.run("location.hash + document.activeElement.ariaSelected"), "#MIDDLE/fixestrue")
        same("each with its name", browser.run("document.querySelector('[role=tabpanel]').getAttribute('aria-labelledby')"), "tab-fixes")

    def test_plan(self):
        """The plan with its order and its reasons, and as a job, CSV and JSON: copied and saved."""
        browser, front = self.browser, self.front
        place = folder()
        origin = front.url
        browser.call("Browser.grantPermissions", origin=origin, permissions=["clipboardReadWrite", "clipboardSanitizedWrite"])
        browser.call("Browser.setDownloadBehavior", behavior="allow", downloadPath=place)
        go(browser, "#MIDDLE/plan")
        browser.until("document.querySelector('.plan tbody tr.first')")
        picture(browser, "plan")
        wanted = ZONES[3].plan("errsysmods")
        members = wanted["members"]
        same("the members in order", [row[:2] for row in lines(browser)][:9], [[str(at + 1), one["id"]] for at, one in enumerate(members[:9])])
        same("why", lines(browser)[1][5], "resolves %(sysmod)s (%(reason)s)" % members[1]["holds"][0])
        same("what to heed", lines(browser)[0][4], "SYSTEM ACTION")
        click(browser, ".left summary")
        shows(browser, "needs → AJ99998 → AJ99999", ".left")
        saved = {}
        for title, name in (("SMP/E job", "smpcntl.txt"), ("CSV", "csv"), ("JSON", "json")):
            click(browser, "[aria-label='Copy as %s']" % title)
            said(browser, title + " is in the clipboard.")
            browser.call("Page.bringToFront")
            copied = browser.run("navigator.clipboard.readText()")
            click(browser, "[aria-label='Save as %s']" % title)
            path = os.path.join(place, "MIDDLE-errsysmods-plan." + name)
            check("saved: " + path, until(lambda: os.path.exists(path)))
            saved[title] = open(path).read()
            same("the same is copied: " + title, copied, saved[title])
        same("JSON as the desk gave it", json.loads(saved["JSON"]), wanted)
        rows = list(csv.reader(io.StringIO(saved["CSV"])))
        same("each row of CSV has nine fields", {len(row) for row in rows}, {9})
        same("the members", [row[1] for row in rows[1 : len(members) + 1]], [one["id"] for one in members])
        same("and what is left over", len(rows), 1 + len(members) + len(wanted["held"]) + len(wanted["unresolved"]))
        job(saved["SMP/E job"], members)
        plan_filter(browser)
        go(browser, "#MIDDLE/errors?class=HIPER")
        click(browser, "[aria-label='Save as CSV']")
        path = os.path.join(place, "MIDDLE-errsysmods.csv")
        check("a report too", until(lambda: os.path.exists(path)))
        rows = list(csv.DictReader(open(path)))
        held = {hold[:2] for hold, _ in ZONES[3].holds if hold[2] == "HIPER"}
        same("of what is shown", {(row["SYSMOD"], row["REASON"]) for row in rows}, held)
        same("each resolver with a row", len(rows), sum(max(1, len(found)) for hold, found in ZONES[3].holds if hold[2] == "HIPER"))

    def test_without_plans(self):
        """A desk that has no such call has no such tab."""
        browser, desk = self.browser, self.desk
        desk.reply = DrawnDesk(ZONES, with_plans=False)
        click(browser, "#again")
        go(browser, "#MIDDLE/errors")
        browser.until("document.querySelector('#tab-fixes .tab-count').innerText")
        time.sleep(0.5)
        check("no tab", browser.run("document.getElementById('tab-plan').offsetParent === null"))
        go(browser, "#MIDDLE/plan")
        shows(browser, "This desk has no plans.")
        desk.reply = DrawnDesk(ZONES)

    def test_no_room(self):
        """A desk or a front without room for a moment is asked again. One that has none for long is said to have none."""
        browser, desk = self.browser, self.desk
        whole, refused = DrawnDesk(ZONES), []

        def reply(first):
            if "errsysmods" in first and len(refused) < 2:
                refused.append(first)
                return 503, b"NO ROOM\n"
            return whole(first)

        desk.reply = reply
        click(browser, "#again")
        go(browser, "#MIDDLE/errors")
        check("the table is there all the same", browser.until("document.querySelector('tbody tr.first')"))
        same("after two refusals", len(refused), 2)
        desk.reply = lambda first: (503, b"NO ROOM\n")
        click(browser, "#again")
        said(browser, "No answer: the desk is away or has no room now (503).")
        desk.reply = whole
        click(browser, "#again")
        check("and later it has", browser.until("document.querySelector('tbody tr.first')"))

    def test_empty(self):
        browser = self.browser
        go(browser, "#CLEAN/errors")
        shows(browser, "Nothing is wrong")
        go(browser, "#CLEAN/fixes")
        shows(browser, "no fix categories are set")
        go(browser, "#NOWHERE/errors")
        said(browser, "You have no zone NOWHERE on this desk.")
        same("once", browser.run("document.body.innerText.split('You have no zone').length - 1"), 1)
        click(browser, "main a", "All zones")
        check("and a way to all", browser.until("document.querySelectorAll('.figures').length === 4"))
        go(browser, "#CLEAN/plan")
        shows(browser, "Nothing can be installed for this report.")
        same("no job is offered", browser.run("[...document.querySelectorAll('.pair-name')].map(e => e.innerText)"), ["CSV", "JSON"])
        go(browser, "#Z%40%23%24/errors")
        shows(browser, "Z@#$", "h1")
        check("its rows", browser.until("document.querySelectorAll('tbody tr.first').length > 5"))

    def test_looks(self):
        looks(self.browser)

    def test_paper(self):
        paper(self.browser, sum(max(1, len(found)) for hold, found in HOLDS.items() if hold[2] == "HIPER"))

    def test_no_faults(self):
        no_faults(self.browser)


if __name__ == "__main__":
    main("page, large")
