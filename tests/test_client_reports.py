#!/usr/bin/env python3
"""What bureau-client makes of reports, against a desk: alerts, why a report is empty, the overview, news, and jobs.

    test_client_reports.py [SYSMODS] [-v] [NAME..]

SYSMODS (1,000) is how many are drawn for the large zones. CLIENT_PYTHON names what runs the client, such as `python3.9`.
"""
import collections
import csv
import datetime
import glob
import io
import json
import os
import random
import re
import shutil
import subprocess
import sys
import time
import unittest

from service import CLIENT, PROGRAM, SAMPLE, TOP, Client, Desk, check, folder, main, numbers, same, without_time, write
from stand_in import StandIn

PYTHON = os.environ.get("CLIENT_PYTHON")
(SYSMODS,) = numbers(1000)
NORTH, PUBLISHER = "north-token", "publisher-token"
CALLERS = os.path.join(SAMPLE, "callers.csv")
SITE = os.path.join(TOP, "examples", "site")
OVERVIEW = "ZONE     SYSMODS IN-ERROR HOLDS  HIPER  PE     OTHER  NONE   HELD   GOOD   FIXES  SENT\n"
TODAY = datetime.date.today().isoformat()
NO_ZONE = OVERVIEW + "ROWS 0\n"
WITHOUT = "bureau-client: no fix categories were sent from here, so that FIXES may be 0 for that:"


def client(url, token):
    return Client(url, token, PYTHON)


class Bench:
    """A desk with its publisher and NORTH, and a folder for files."""

    def __init__(self):
        self.desk, self.place = Desk(CALLERS), folder()
        self.publisher, self.north = (client(self.desk.url, token) for token in (PUBLISHER, NORTH))

    def publish(self, text):
        same("published", self.publisher.run("publish", write(self.place + "/publication", text))[0], 0)

    def send(self, *words, text):
        same("sent: " + " ".join(words), self.north.run(*words, write(self.place + "/list", text))[0], 0)

    def zone(self, name, *sysmods):
        rows = ["SYSMOD,STATE", *(each + ",APPLIED" for each in sysmods)]
        self.send("zone", name, text="\n".join(rows) + "\n")


def sample():
    """The sample's desk, with the lists of NORTH."""
    bench = Bench()
    same("published", bench.publisher.run("publish", SITE + "/publication.txt")[0], 0)
    same("sent", bench.north.run("sync", SITE + "/north")[0], 0)
    return bench


def drawn(dice, count):
    """A publication of so many PTFs with ERROR and FIXCAT holds, zones of them, and what was received."""
    functions = ["HBB77E%d" % at for at in range(6)]
    ptfs = ["UJ%05d" % at for at in range(count)]
    lines = ["++FUNCTION(%s).\n++VER(Z038)." % each for each in functions]
    for at, ptf in enumerate(ptfs):
        fmid, older = dice.choice(functions), ptfs[max(0, at - 40) : at]
        pre = dice.sample(older, min(len(older), dice.choice((0, 0, 1, 2))))
        sup = dice.sample(older, min(len(older), dice.choice((0, 0, 1)))) + ["AJ%05d" % at]
        lines.append("++PTF(%s).\n++VER(Z038) FMID(%s)" % (ptf, fmid))
        lines += [" PRE(%s)" % ",".join(pre)] * bool(pre) + [" SUP(%s)." % ",".join(sup)]
    for ptf in dice.sample(ptfs, count // 4):
        kind = dice.choice(("HIPER", "PE", "PE", "OTHER", ""))
        reason, of_class = dice.randrange(count + count // 8), " CLASS(%s)" % kind if kind else ""
        lines.append("++HOLD(%s) ERROR FMID(%s)\n REASON(AJ%05d)%s." % (ptf, functions[0], reason, of_class))
    for ptf in dice.sample(ptfs, count // 20):
        lines.append("++HOLD(%s) FIXCAT REASON(AJ%05d)\n CATEGORY(IBM.A%d,IBM.B%d)." % (ptf, dice.randrange(count), dice.randrange(5), dice.randrange(5)))
    for ptf in dice.sample(ptfs, count // 20):
        lines.append("++HOLD(%s) SYSTEM REASON(%s)." % (ptf, dice.choice(("IPL", "DOC", "ACTION"))))
    zones = {name: functions[:3] + dice.sample(ptfs, count // share) for name, share in (("LARGE", 2), ("SMALL", 20), ("Z@#$", 50))}
    return "\n".join(lines) + "\n", zones, dice.sample(ptfs, count // 5)


def drawn_site(count):
    bench = Bench()
    text, zones, received = drawn(random.Random(count), count)
    bench.publish(text)
    for name, sysmods in zones.items():
        bench.zone(name, *sysmods)
    bench.send("categories", "LARGE", text="CATEGORY\n*\n")
    bench.send("categories", "Z@#$", text="CATEGORY\nIBM.A*\n")
    bench.send("received", text="SYSMOD\n" + "".join(each + "\n" for each in received))
    return bench


def rows_of(north, report, zone):
    """The report by the client's CSV."""
    rows = list(csv.DictReader(io.StringIO(north.run(report, "--csv", zone)[1])))
    return [{name: text.removeprefix("'") for name, text in row.items()} for row in rows]


def counts(north, zone):
    """What the overview has to say of a zone: from its rows, one after the other."""
    holds = collections.defaultdict(lambda: [set(), ""])
    for row in rows_of(north, "errsysmods", zone):
        hold = holds[row["SYSMOD"] + " " + row["REASON"]]
        hold[0].add(row["STATUS"])
        hold[1] = row["CLASS"]
    classes = [kind if kind in ("HIPER", "PE") else "OTHER" for _, kind in holds.values()]
    best = ["GOOD" if "GOOD" in found else "HELD" if "HELD" in found else "NONE" for found, _ in holds.values()]
    fixes = {row["FMID"] + " " + row["REASON"] for row in rows_of(north, "missingfix", zone)}
    names = {key.split()[0] for key in holds}
    by = [each.count(name) for each, some in ((classes, ("HIPER", "PE", "OTHER")), (best, ("NONE", "HELD", "GOOD"))) for name in some]
    return [str(number) for number in (len(names), len(holds), *by, len(fixes))]


def north_of(bench):
    return glob.glob(bench.north.home + "/desks/*")[0]


def on_terminal(north, *words):
    """What a run prints on a terminal."""
    terminal, side = os.openpty()
    subprocess.run([*north.python, CLIENT, *words], env=north.environment, stdout=side, stderr=subprocess.DEVNULL)
    os.close(side)
    told = b""
    try:
        while piece := os.read(terminal, 65536):
            told += piece
    except OSError:  # nobody has it open any more
        pass
    os.close(terminal)
    return told.decode()


def overview_of_many(bench):
    status, out, err = bench.north.run("overview", "--csv")
    same("an overview of many", (status, err), (0, WITHOUT + " SMALL\n"))
    for zone, sysmods, *got, sent in list(csv.reader(io.StringIO(out)))[1:]:
        same("of " + zone, [each.removeprefix("'") for each in got], counts(bench.north, zone.removeprefix("'")))
        check("which has some", int(got[1]) > 0, got)


def news_of_many(bench):
    """Each row that came, went or changed is told, and no other."""
    old = {each: bench.north.run(each, "LARGE")[1].splitlines()[2:-1] for each in ("errsysmods", "missingfix")}
    bench.north.run("news", "LARGE")
    rows = bench.desk.ask("GET", "/zones/LARGE/errsysmods", NORTH)[1].decode().splitlines()[2:-1]
    releases = ["++RELEASE(%s) ERROR REASON(%s)." % (row[9:16].strip(), row[18:25].strip()) for row in rows[::9]]
    bench.publish("\n".join(releases) + "\n++HOLD(HBB77E1) ERROR REASON(AJ99999).\n")
    bench.send("received", text="SYSMOD\n" + "".join(sorted({row[27:34].strip() + "\n" for row in rows[1::7] if row[27] != "-"})))
    status, out, err = bench.north.run("news", "LARGE")
    same("news of many", (status, err), (0, ""))
    told = {word: sorted(line[5:] for line in out.splitlines() if line.startswith(word)) for word in ("CAME ", "WENT ", "WAS ", "NOW ")}
    told = {word: [line for line in lines if not line.startswith("WENT")] for word, lines in told.items()}
    gone, come = [], []
    for report, before in old.items():
        after = bench.north.run(report, "LARGE")[1].splitlines()[2:-1]
        gone += set(before) - set(after)
        come += set(after) - set(before)
    counts_told = [line for line in out.splitlines() if re.fullmatch(r"CAME \d+ WENT \d+ CHANGED \d+", line)]
    told["CAME "] = [line for line in told["CAME "] if not re.fullmatch(r"\d+ WENT \d+ CHANGED \d+", line)]
    same("what went, and what was", sorted(told["WENT "] + told["WAS "]), sorted(gone))
    same("what came, and what is now", sorted(told["CAME "] + told["NOW "]), sorted(come))
    check("of each kind some", all(told.values()) and counts_told, {word: len(lines) for word, lines in told.items()})


def bypasses(bench):
    """Where the comment marks are taken away, one BYPASS is left, with the reasons of all holds."""
    for count, user, lines in ((1, ["OURS"], 1), (6, [], 1), (7, [], 5), (24, ["OURS"], 10)):
        holds = [("SYSTEM", "IPL"), *(("SYSTEM", "R%06d" % at) for at in range(count - 1)), *(("USER", each) for each in user)]
        bench.publish("".join("++HOLD(UJ92005) %s REASON(%s).\n" % hold for hold in holds))
        out = bench.north.run("job", "MVSPROD", "UJ92005")[1].split("    )\n")[-1].splitlines()
        system = ",".join(reason for kind, reason in holds if kind == "SYSTEM")
        wanted = "BYPASS(HOLDSYSTEM(%s)%s)." % (system, ",HOLDUSER(OURS)" if user else "")
        same("one operand", re.sub(r" /\* | \*/| ", "", "".join(out)), wanted)
        same("in so many lines", len(out) - 1, lines)
        check("within column 71", max(map(len, out)) <= 71, out)
        bench.publish("".join("++RELEASE(UJ92005) %s REASON(%s).\n" % hold for hold in holds))


def jobs_of_many(bench):
    """The job of a chain is that of the page's own code; each line is one of SMP/E."""
    rows = [row for row in rows_of(bench.north, "errsysmods", "LARGE") if row["STATUS"] == "GOOD"]
    dice = random.Random(1)
    several = [row["RESOLVER"] for row in dice.sample(rows, min(len(rows), 40))]
    for resolvers in (*([each] for each in several[:12]), several):
        status, out, err = bench.north.run("job", "LARGE", *resolvers)
        same("a job of %d" % len(resolvers), (status, err), (0, ""))
        check("in columns 1 to 71", all(len(line) <= 71 and line == line.upper() and line[:1] in ("", " ") for line in out.splitlines()), out)
        chains = [json.loads(bench.desk.ask("GET", "/zones/LARGE/chains/" + each, NORTH)[1]) for each in resolvers]
        members = sorted({member["id"] for chain in chains for member in chain["plan"]})
        selected = re.search(r"APPLY CHECK SELECT\((.*?)\)", out, re.S)[1]
        same("with all members", re.findall("[A-Z0-9]+", selected), members)
        if len(resolvers) == 1:
            same("as the page makes it", out, page_job(bench, chains[0], out))
    check("some have holds to heed", any("BYPASS" in bench.north.run("job", "LARGE", row["RESOLVER"])[1] for row in rows[:40]))


def page_job(bench, chain, out):
    """What clients/page/job.js makes of a chain, with the title of a job."""
    place = folder()
    shutil.copy(os.path.join(TOP, "clients", "page", "job.js"), place + "/job.mjs")
    rows = rows_of(bench.north, "errsysmods", "LARGE") + rows_of(bench.north, "missingfix", "LARGE")
    holds = []
    for row in rows:
        hold = {"sysmod": row.get("SYSMOD", row["FMID"]), "reason": row["REASON"]}
        if row["RESOLVER"] == chain["sysmod"] and hold not in holds:
            holds.append(hold)
    received = bench.received
    members = [
        {**member, "received": member["id"] in received, "needed_by": [] if own else [chain["sysmod"]], "holds": holds if own else []}
        for member in chain["plan"]
        for own in [member["id"] == chain["sysmod"]]
    ]
    title = " ".join(re.findall(r"^ /\* (.*) \*/$", out.split(" /* MADE BY")[0], re.M))
    plan = {"zone": "LARGE", "members": members, "unresolved": [], "held": []}
    write(place + "/run.mjs", "import { jobOf } from './job.mjs';\nprocess.stdout.write(jobOf(%s, %s));\n" % (json.dumps(plan), json.dumps(title)))
    return subprocess.run(["node", place + "/run.mjs"], capture_output=True, text=True).stdout


def plans(bench, zone):
    """The plan as the desk gives it, and its job: all members in order, and RECEIVE of those that were not received."""
    north, ask = bench.north, bench.desk.ask
    for report, words in (("errsysmods", ()), ("missingfix", ("--fixes",))):
        path = "/zones/%s/%s/plan" % (zone, report)
        same("the plan for %s of %s" % (report, zone), north.run("plan", *words, zone), (0, ask("GET", path, NORTH)[1].decode(), ""))
        plan = json.loads(ask("GET", path + ".json", NORTH)[1])
        check("which has members", plan["members"], plan)
        status, out, _ = north.run("job", zone, *words)
        left = re.sub(r"/\*.*?\*/", "", out)
        select = dict(re.findall(r"(RECEIVE|APPLY)[A-Z ]*\((.*?)\)", left, re.S))
        ids = {name: re.findall("[A-Z0-9@#$]+", part) for name, part in select.items()}
        same("its job", (status, ids.get("APPLY")), (0, [one["id"] for one in plan["members"]]))
        same("what is received", ids.get("RECEIVE", []), [one["id"] for one in plan["members"] if not one["received"]])
        said = " ".join(re.findall(r"/\* (.*?) \*/", out))
        for begin, holds in (("NOTHING RESOLVES ", plan["unresolved"]), ("ALL RESOLVERS ARE HELD OF ", plan["held"])):
            named = begin + ", ".join("%(sysmod)s (%(reason)s)" % hold for hold in holds)
            check("what is left over", named in said if holds else begin not in said, said[:300])


class Reports(unittest.TestCase):
    def test_words_that_are_wrong(self):
        north = client("http://127.0.0.1:9", NORTH)
        kept = write(folder() + "/kept", "")
        for words in (
            ("errsysmods", "A", "--alert"),
            ("errsysmods", "A", "--alert", "hiper"),
            ("missingfix", "A", "--alert", "PE"),
            ("errsysmods", "A", "--since", kept),
            ("news", "a"),
            ("news", "A", "B"),
            ("news", "--since", kept),
            ("history", "a"),
            ("history", "A", "--since", kept),
            ("news", "A", "--since", kept + "-none"),
            ("news", "A", "--csv"),
            ("overview", "A"),
            ("missingfix", "A", "--csv", "--symptoms", kept),
            ("errsysmods", "A", "--csv", "--symptoms", kept + "-none"),
            ("job",),
            ("job", "A", "uj1"),
            ("job", "A", "UJ1", "UJ1234567"),
            ("zones", "--all"),
            ("errsysmods", "--all", "A"),
            ("errsysmods",),
            ("compare", "A"),
            ("compare", "A", "b"),
            ("installed", "uj1"),
            ("installed",),
        ):
            same("no such words: %s" % (words,), north.run(*words)[0], 2)

    def test_alerts(self):
        bench = sample()
        text = bench.north.run("errsysmods", "MVSPROD")[1]
        for words, status in (
            (("HIPER",), 0),
            (("PE",), 4),
            (("P",), 0),
            (("ANY",), 4),
            (("HIPER", "PE"), 4),
        ):
            options = [word for each in words for word in ("--alert", each)]
            same("alert: %s" % (words,), bench.north.run("errsysmods", "MVSPROD", *options), (status, text, ""))
        same("also as CSV", bench.north.run("errsysmods", "--csv", "MVSPROD", "--alert", "PE")[0], 4)
        same("a zone that is not there", bench.north.run("errsysmods", "NONE", "--alert", "ANY")[0], 1)
        bench.zone("GOOD", "HBB77E0")
        same("no row, no alert", bench.north.run("errsysmods", "GOOD", "--alert", "ANY")[0], 0)
        bench.publish("++HOLD(HBB77E0) ERROR REASON(AJ1).\n")
        same("a row without a class is one of any", bench.north.run("errsysmods", "GOOD", "--alert", "ANY")[0], 4)
        same("and of no class", bench.north.run("errsysmods", "GOOD", "--alert", "HIPER", "--alert", "PE")[0], 0)
        bench.desk.end()

    def test_why_empty(self):
        """A report without rows says why on standard error. The report itself is the desk's."""
        bench = Bench()

        def says(report, zone, words, caller=bench.north):
            status, out, err = caller.run(report, zone)
            check("%s of %s: %s" % (report, zone, words), status == 0 and out.endswith("ROWS 0\n") and words in err, (status, out, err))

        bench.zone("A", "UJ1")
        for report in ("errsysmods", "missingfix"):
            says(report, "A", "nothing is published yet")
        bench.publish("++PTF(UJ1).\n")
        for report in ("errsysmods", "missingfix"):
            says(report, "A", "no hold is published yet, so there is nothing to report: PUBLISHED SYSMODS 1 HOLDS 0")
        bench.publish("++HOLD(UJ2) ERROR REASON(AJ2).\n++HOLD(UJ2) FIXCAT REASON(AJ3) CATEGORY(IBM.X).\n")
        says("errsysmods", "A", "nothing is wrong: of what is published, no ERROR hold concerns the zone A. PUBLISHED SYSMODS 1 HOLDS 2")
        says("missingfix", "A", "no fix categories of the zone A were sent from here")
        bench.send("categories", "A", text="CATEGORY\n")
        says("missingfix", "A", "no fix categories are set for the zone A: the list that was sent has none")
        bench.send("categories", "A", text="CATEGORY\nIBM.*\n")
        says("missingfix", "A", "nothing is wrong: no fix of the categories of the zone A is missing, if each pattern is spelled as a category")
        same("in another code", "no fix of" in bench.north.run("missingfix", "A", BUREAU_CODE="ISO-8859-1")[2], True)
        says("missingfix", "A", "were sent from here", client(bench.desk.url, NORTH))
        bench.zone("EMPTY")
        for report in ("errsysmods", "missingfix"):
            says(report, "EMPTY", "the zone EMPTY has no SYSMOD at http://127.0.0.1:")
        bench.zone("B", "UJ2")
        same("one with rows says nothing", bench.north.run("errsysmods", "B")[2], "")
        same("a refused one too", "nothing" in bench.north.run("errsysmods", "C")[2], False)
        bench.desk.end()

    def test_overviews(self):
        bench = Bench()
        same("no zone", bench.north.run("overview"), (0, NO_ZONE + "PUBLISHED SYSMODS 0 HOLDS 0\n", ""))
        same("the publisher's", bench.publisher.run("overview"), (0, "PUBLISHED SYSMODS 0 HOLDS 0\nLAST PUBLICATION 0\n", ""))
        bench.desk.end()
        bench = sample()
        line = "MVSPROD  3       1        1      0      1      0      0      0      1      1      %s\n" % TODAY
        same("of the sample", bench.north.run("overview"), (0, OVERVIEW + line + "ROWS 1\nPUBLISHED SYSMODS 8 HOLDS 5\n", ""))
        heading = "ZONE,SYSMODS,IN-ERROR,HOLDS,HIPER,PE,OTHER,NONE,HELD,GOOD,FIXES,SENT\n"
        same("as CSV", bench.north.run("overview", "--csv"), (0, heading + "MVSPROD,3,1,1,0,1,0,0,0,1,1,%s\n" % TODAY, ""))
        same("in another code", bench.north.run("overview", BUREAU_CODE="ISO-8859-1")[1].splitlines()[1] + "\n", line)
        same("the publisher's", bench.publisher.run("overview"), (0, "PUBLISHED SYSMODS 8 HOLDS 5\nLAST PUBLICATION 1\n", ""))
        for name in ("NONE", "EMPTY", "SOME"):
            bench.zone(name, "HBB77E0")
        bench.send("categories", "EMPTY", text="CATEGORY\n")
        bench.send("categories", "SOME", text="CATEGORY\nIBM.No*\n")
        same("zones without categories are named", bench.north.run("overview")[2], WITHOUT + " EMPTY NONE\n")
        same("also from another code", bench.north.run("overview", BUREAU_CODE="ISO-8859-1")[2], WITHOUT + " EMPTY NONE\n")
        same("an unknown token", client(bench.desk.url, "nobodys-token").run("overview")[0], 1)
        sent = glob.glob(north_of(bench) + "/sent/zones/SOME")[0]
        long_ago = datetime.date.today() - datetime.timedelta(9)
        os.utime(sent, (time.time() - 9 * 86400,) * 2)
        status, out, err = bench.north.run("overview")
        same("a list that was sent long ago", (status, err.splitlines()[0]), (0, "bureau-client: lists that were sent long ago: SOME (9 days)"))
        check("with its day, in no colour", re.search("(?m)^SOME .* %s$" % long_ago, out), out)
        same("which is yellow on a terminal", re.findall("\033\\[33m(.*?)\033", on_terminal(bench.north, "overview")), [str(long_ago)])
        other = client(bench.desk.url, NORTH).run("overview")[1]
        same("one that was not sent from here has no day", set(re.findall("(?m)^[A-Z]+ .*[0-9]$", other)) and "-" in "".join(other.splitlines()[1:-2]), False)
        bench.desk.end()
        same("no desk", bench.north.run("overview")[:2], (3, ""))

    def test_counts_of_a_desk(self):
        """The overview takes the counts of the desk, and the reports of one that counts nothing itself."""
        desk = StandIn()
        north = client("http://127.0.0.1:%d" % desk.port, NORTH)
        errors = {"held": 4, "hiper": 3, "holds": 9, "other": 1, "pe": 5, "resolved": 3, "rows": 12, "sysmods": 7, "unresolved": 2}
        told = {"errsysmods": errors, "missingfix": {"holds": 6, "rows": 8}, "zone": "A"}
        row = {"class": "PE", "date": None, "fmid": None, "reason": "AJ2", "received": None, "resolver": None, "status": None, "sysmod": "UJ2"}
        answers = {
            "zones.json": {"zones": [{"sysmods": 20, "zone": "A"}]},
            "errsysmods.json": {"report": "errsysmods", "rows": [row], "sysmods": [], "zone": "A"},
            "missingfix.json": {"holds": [], "report": "missingfix", "rows": [], "sysmods": [], "zone": "A"},
        }

        def overview(counts):
            def reply(first):
                name = first.split()[1].rsplit("/")[-1]
                if name == "published":
                    return b"PUBLISHED SYSMODS 1 HOLDS 1\n"
                told = counts if name == "counts.json" else answers.get(name)
                return (404, b"NOT FOUND\n") if told is None else json.dumps(told).encode()

            desk.reply, desk.requests = reply, []
            status, out, _ = north.run("overview", "--csv")
            return status, out.splitlines()[1:], any("errsysmods" in first for first, *_ in desk.requests)

        same("counts of the desk", overview(told), (0, ["A,20,7,9,3,5,1,2,4,3,6,"], False))
        same("a desk that counts nothing", overview(None), (0, ["A,20,1,1,0,1,0,1,0,0,0,"], True))
        for name, wrong in (
            ("of another zone", {**told, "zone": "B"}), ("without one of them", {**told, "missingfix": {}}),
            ("with a word", {**told, "errsysmods": {**errors, "pe": "5"}}),
        ):
            same("counts " + name, overview(wrong)[0], 3)

    def test_histories(self):
        """sync keeps a line a day and zone, and history prints them."""
        bench = Bench()
        status, out, err = bench.north.run("history")
        same("none", (status, out), (0, "DATE       ZONE     HIPER  PE     OTHER  NONE   HELD   FIXES\nROWS 0\n"))
        check("and why", "'bureau-client sync' keeps them" in err, err)
        same("published", bench.publisher.run("publish", SITE + "/publication.txt")[0], 0)
        same("sent", bench.north.run("sync", SITE + "/north")[0], 0)
        heading, line = "DATE,ZONE,HIPER,PE,OTHER,NONE,HELD,FIXES\n", TODAY + ",MVSPROD,0,1,0,0,0,1\n"
        same("a line a day", bench.north.run("history", "--csv"), (0, heading + line, ""))
        bench.publish("++HOLD(UJ92001) ERROR REASON(AJ9) CLASS(HIPER).\n")
        same("nothing new is sent", "nothing to do" in bench.north.run("sync", SITE + "/north")[2], True)
        same("so that the day's line stays", bench.north.run("history", "--csv", "MVSPROD")[1], heading + line)
        path = north_of(bench) + "/history.csv"
        write(path, open(path).read().replace(TODAY, "2026-01-31"))
        bench.north.run("sync", SITE + "/north")
        later = TODAY + ",MVSPROD,1,1,0,1,0,1\n"
        same("another day has a line of its own", bench.north.run("history", "--csv")[1], heading + "2026-01-31,MVSPROD,0,1,0,0,0,1\n" + later)
        bench.publish("++RELEASE(UJ92001) ERROR REASON(AJ9).\n")
        bench.north.run("sync", "--all", SITE + "/north")
        same("lists that are sent count anew", bench.north.run("history", "--csv")[1].splitlines()[-1] + "\n", line)
        same("of another zone", bench.north.run("history", "A")[1].splitlines()[-1], "ROWS 0")
        same("as text", bench.north.run("history", "MVSPROD")[1].splitlines()[1], "2026-01-31 MVSPROD  0      1      0      0      0      1")
        bench.desk.end()

    def test_accepted_holds(self):
        """Holds of accepted.csv are told as such, count apart, and are left out of alerts and news until their day."""
        bench, site = sample(), folder()
        north, day = bench.north, datetime.date.today()
        later, before = (str(day + datetime.timedelta(days)) for days in (3, -1))
        bench.publish("++HOLD(UJ92001) ERROR REASON(AJ9) CLASS(HIPER).\n")
        shutil.copytree(SITE + "/north", site + "/north")
        path = site + "/north/accepted.csv"

        def sync(*records):
            write(path, "\n".join(["ZONE,SYSMOD,REASON,UNTIL,WHY", *records]) + "\n")
            return north.run("sync", site + "/north")

        north.run("news")
        report, rows = north.run("errsysmods", "MVSPROD")[1], north.run("errsysmods", "--csv", "MVSPROD")[1]
        same("an alert", north.run("errsysmods", "--alert", "HIPER", "MVSPROD")[0], 4)
        same("the list is taken", sync("MVSPROD,UJ92001,AJ9,%s,we do not use it" % later, "OTHER,UJ92001,AJ64001,,", "*,UJ92001,AJ64001,%s," % before)[0], 0)
        status, out, err = north.run("errsysmods", "--alert", "HIPER", "MVSPROD")
        lines = [(line.ljust(61) + ("ACCEPTED UNTIL %s we do not use it" % later if "AJ9 " in line else "")).rstrip() for line in report.splitlines()]
        lines[1] = lines[1].ljust(61) + "ACCEPTED"
        same("no alert any more", (status, out, err), (0, "\n".join([lines[0].rstrip(), *lines[1:-1], lines[-1].rstrip()]) + "\n", ""))
        same("nor as CSV", north.run("errsysmods", "--csv", "--alert", "HIPER", "MVSPROD")[0], 0)
        same("another one is told", north.run("errsysmods", "--alert", "PE", "MVSPROD")[0], 4)
        lines = rows.splitlines()
        wanted = [lines[0] + ",UNTIL,WHY", *(line + (",%s,we do not use it" % later if ",AJ9," in line else ",,") for line in lines[1:])]
        same("as CSV", north.run("errsysmods", "--csv", "MVSPROD")[1].splitlines(), wanted)
        grey = re.findall("\033\\[90m(.*?)\033", on_terminal(north, "errsysmods", "MVSPROD"))
        same("grey on a terminal", [line[9:22] for line in grey], ["UJ92001  AJ9 "])
        line = "MVSPROD  3       1        1      0      1      0      0      0      1      1      1        %s" % TODAY
        same("counted apart", north.run("overview")[1].splitlines()[:2], [OVERVIEW.rstrip().replace("SENT", "ACCEPTED SENT"), line])
        same("not among the history", north.run("history", "--csv")[1].splitlines()[-1], TODAY + ",MVSPROD,0,1,0,0,0,1")
        same("no news", north.run("news"), (0, "", ""))
        bench.publish("++HOLD(UJ92001) ERROR REASON(AJ9) CLASS(PE).\n")
        same("nor of a change of it", north.run("news"), (0, "", ""))
        same("its day has come", sync("MVSPROD,UJ92001,AJ9,%s," % before)[0], 0)
        out = north.run("news")[1]
        check("then it is news", "CAME -        UJ92001  AJ9 " in out and out.endswith("CAME 1 WENT 0 CHANGED 0\n"), out)
        same("a fix too", (sync("*,HBB77E0,AJ64005,,")[0], north.run("overview", "--csv")[1].splitlines()[1].split(",")[-3:]), (0, ["0", "1", TODAY]))
        for name, record, words in (
            ("a field too few", "A,UJ1,AJ1,", "line 3: it has 4 fields"), ("no id", "A,uj1,AJ1,,", "line 3: ZONE, SYSMOD or REASON is no id"),
            ("no day", "A,UJ1,AJ1,2026-02-30,", "line 3: UNTIL is no day"), ("another form of a day", "A,UJ1,AJ1,20260230,", "line 3: UNTIL is no day"),
        ):
            status, _, err = sync("A,UJ1,AJ1,,", record)
            check(name, status == 1 and "accepted.csv, " + words in err, (status, err))
        write(path, "ZONE,SYSMOD\n")
        check("another table", "line 1: it does not begin with ZONE,SYSMOD,REASON,UNTIL,WHY" in north.run("sync", site + "/north")[2])
        same("what was there before stays", north.run("overview", "--csv")[1].splitlines()[1].split(",")[-2], "1")
        os.remove(path)
        same("without the file nothing is accepted", (north.run("sync", site + "/north")[0], "ACCEPTED" in north.run("overview")[1]), (0, False))
        bench.desk.end()

    def test_across(self):
        """One list over all zones, two lists beside each other, and where a SYSMOD is."""
        bench = sample()
        north, place = bench.north, bench.place
        bench.zone("A", "HBB77E0", "UJ92001", "UJ92004")
        bench.zone("B", "HDZ33E0", "UJ92004")
        symptoms = write(place + "/symptoms.csv", "SYSMOD,REASON,DATE,CHGDT,SYMP,FIX\nUJ92004,AJ64003,,,,UJ92013\n")
        heading = "SYSMOD,REASON,CLASS,DATE,RESOLVER,STATUS,ZONES\n"
        first, second = "UJ92001,AJ64001,PE,2025-06-25,UJ92005,GOOD,A MVSPROD\n", "UJ92004,AJ64003,PE,2025-08-19,,,A B\n"
        same("as CSV", north.run("errsysmods", "--all", "--csv"), (0, heading + first + second, ""))
        wanted = (
            "SYSMOD   REASON   CLASS   DATE       RESOLVER STATUS ZONES\n"
            "UJ92001  AJ64001  PE      2025-06-25 UJ92005  GOOD   A MVSPROD\nUJ92004  AJ64003  PE      2025-08-19                 A B\nROWS 2\n"
        )
        same("as text", north.run("errsysmods", "--all"), (0, wanted, ""))
        out = north.run("errsysmods", "--all", "--csv", "--symptoms", symptoms)[1]
        named = heading + first.replace("GOOD,", "GOOD,,") + second.replace(",,A", ",,order UJ92013,A")
        same("with fixes by name", out, named.replace("STATUS,", "STATUS,FIX,"))
        same("alerts", [north.run("errsysmods", "--all", "--alert", each)[0] for each in ("HIPER", "PE", "ANY")], [0, 4, 4])
        bench.publish("++HOLD(UJ92004) ERROR REASON(AJ1) CLASS(HIPER).\n")
        third = "UJ92004,AJ1,HIPER,,,,A B\n"
        same("what can be resolved comes first, and of the rest HIPER", north.run("errsysmods", "--all", "--csv")[1], heading + first + third + second)
        out = north.run("errsysmods", "--all", "--csv", "--symptoms", symptoms)[1]
        same("what can be ordered before what nothing is known of", [line.split(",")[1] for line in out.splitlines()[1:]], ["AJ64001", "AJ64003", "AJ1"])
        write(place + "/north/accepted.csv", "ZONE,SYSMOD,REASON,UNTIL,WHY\nA,UJ92004,AJ1,,\n*,UJ92004,AJ64003,,\n")
        shutil.copy(SITE + "/north/received.csv", place + "/north")
        same("accepted", north.run("sync", place + "/north")[0], 0)
        lines = [first.replace("\n", ",\n"), "UJ92004,AJ1,HIPER,,,,B,A\n", second.replace(",A B", ",,A B")]
        same("zones apart", north.run("errsysmods", "--all", "--csv")[1], heading.replace("ZONES", "ZONES,ACCEPTED") + "".join(lines))
        other = client(bench.desk.url, "south-token")
        same("no zones", other.run("errsysmods", "--all", "--csv"), (0, heading, ""))
        compared = "SYSMOD   MVSPROD     A\nHBB77E0  ACCEPTED    APPLIED\nHDZ33E0  ACCEPTED\nUJ92004              APPLIED\nROWS 3\n"
        same("two zones", north.run("compare", "MVSPROD", "A"), (0, compared, ""))
        same("as CSV", north.run("compare", "--csv", "A", "A")[1], "SYSMOD,A,A\n")
        bench.send("zone", "B", text="SYSMOD,STATE\nUJ92004,ACCEPTED\n")
        same("another state", north.run("compare", "B", "A", "--csv")[1].splitlines()[-1], "UJ92004,ACCEPTED,APPLIED")
        status, _, err = north.run("compare", "A", "C")
        check("a list that was not sent", status == 1 and "no list of the zone C was sent from here" in err, (status, err))
        same("where it is", north.run("installed", "UJ92004"), (0, "ZONE     STATE\nA        APPLIED\nB        ACCEPTED\nROWS 2\n", ""))
        status, out, err = north.run("installed", "UJ99999", "--csv")
        check("nowhere", (status, out) == (0, "ZONE,STATE\n") and "of the 3 zones whose lists were sent from here none has UJ99999" in err, (status, out, err))
        bench.desk.end()

    def test_news(self):
        bench = sample()
        north = bench.north
        status, out, err = north.run("news", "MVSPROD")
        check("the first", (status, out) == (0, "") and "first news of the zone MVSPROD" in err, (status, out, err))
        same("nothing is new", north.run("news", "MVSPROD"), (0, "", ""))
        kept = write(bench.place + "/kept", north.run("errsysmods", "MVSPROD")[1])
        bench.zone("A", "HBB77E0", "UJ92001")
        err = north.run("news")[2]
        same("of all zones: the first of one of them", (err.count("first news"), "zone A:" in err), (1, True))
        same("and then nothing", north.run("news"), (0, "", ""))
        bench.publish("++RELEASE(UJ92001) ERROR REASON(AJ64001).\n++HOLD(UJ92001) ERROR REASON(AJ8).\n")
        out = north.run("news")[1]
        same("what is new in all zones", (re.findall("(?m)ZONE .*$", out), out.count("CAME -")), (["ZONE A", "ZONE MVSPROD"], 2))
        bench.publish("++RELEASE(UJ92001) ERROR REASON(AJ8).\n++HOLD(UJ92001) ERROR FMID(HBB77E0)\n REASON(AJ64001) CLASS(PE) DATE(25176).\n")
        same("dropped", north.run("drop-zone", "A")[0], 0)
        north.run("news")
        bench.publish("++RELEASE(UJ92001) ERROR REASON(AJ64001).\n")
        heading = "EXCEPTION SYSMOD REPORT FOR ZONE MVSPROD\n     FMID     SYSMOD   REASON   RESOLVER STATUS RECEIVED CLASS\n"
        rows = ["HBB77E0  UJ92001  AJ64001  UJ92002  HELD   NO       PE\n", "HBB77E0  UJ92001  AJ64001  UJ92005  GOOD   YES      PE\n"]
        went = heading + "".join("WENT " + row for row in rows) + "CAME 0 WENT 2 CHANGED 0\n"
        same("what went", north.run("news", "MVSPROD"), (0, went, ""))
        same("is told once", north.run("news", "MVSPROD"), (0, "", ""))
        same("since a kept report", north.run("news", "--since", kept, "MVSPROD"), (0, went, ""))
        same("as often as it is asked", north.run("news", "MVSPROD", "--since", kept), (0, went, ""))
        bench.publish("++HOLD(UJ92001) ERROR FMID(HBB77E0) REASON(AJ64001) CLASS(HIPER).\n")
        changed = [row.replace("PE", "HIPER") for row in rows]
        pairs = "".join("WAS  %sNOW  %s" % pair for pair in zip(rows, changed))
        same("what changed", north.run("news", "MVSPROD", "--since", kept), (0, heading + pairs + "CAME 0 WENT 0 CHANGED 2\n", ""))
        came = "".join("CAME " + row for row in changed)
        same("what came", north.run("news", "MVSPROD")[1], heading + came + "CAME 2 WENT 0 CHANGED 0\n")
        bench.send("categories", "MVSPROD", text="CATEGORY\nIBM.Function.*\n")
        status, out, _ = north.run("news", "MVSPROD")
        is_whole = out.startswith("MISSING FIX REPORT FOR ZONE MVSPROD\n     CATEGORY ") and out.endswith("CAME 0 WENT 1 CHANGED 0\n")
        check("of the missing fixes too", is_whole, out)
        bench.send("received", text="SYSMOD\n")
        before = north.run("errsysmods", "MVSPROD")[1]
        with open("/dev/full", "w") as full:
            run = subprocess.run([CLIENT, "news", "MVSPROD"], env=north.environment, stdout=full, stderr=subprocess.PIPE)
        same("what could not be told", run.returncode, 3)
        same("is told the next time", "NOW  HBB77E0  UJ92001  AJ64001  UJ92005  GOOD   NO       HIPER" in north.run("news", "MVSPROD")[1], True)
        same("a report in another code", north.run("news", "MVSPROD", "--since", write(bench.place + "/now", before), BUREAU_CODE="ISO-8859-1"), (0, "", ""))
        for name, text in (
            ("no report", "SYSMOD,STATE\n"),
            ("nothing", ""),
            ("half a report", before[:-7]),
            ("the report of another zone", before.replace("MVSPROD", "MVSTEST")),
        ):
            status, out, err = north.run("news", "--since", write(bench.place + "/bad", text), "MVSPROD")
            check("since " + name, (status, out) == (1, "") and "no report on the zone MVSPROD" in err, (status, out, err))
        same("with CR LF", north.run("news", "--since", write(bench.place + "/crlf", before.replace("\n", "\r\n")), "MVSPROD"), (0, "", ""))
        same("no such zone", north.run("news", "NONE")[:2], (1, ""))
        bench.desk.end()

    def test_symptoms(self):
        """The rows with the symptoms that `publication` wrote of their holds."""
        bench = Bench()
        text = "++PTF(@J2).\n++VER(Z038) FMID(HBB77E0) SUP(AJ1).\n"
        text += "++HOLD(@J1) ERROR FMID(HBB77E0) REASON(AJ1) DATE(25001) CLASS(HIPER)\n COMMENT(SMRTDATA(SYMP(PRV,DAL) FIX(@J2,UJ3) CHGDT(250102))).\n"
        text += "++HOLD(UJ2) ERROR REASON(AJ1).\n"
        more = "++HOLD(@J1) ERROR FMID(HBB77E0) REASON(AJ1) DATE(25009) CLASS(HIPER)\n COMMENT(SMRTDATA(SYMP(=IPL) CHGDT(250109))).\n"
        bench.publish(text)
        bench.zone("A", "HBB77E0", "@J1", "UJ2")
        table, path = bench.place + "/symptoms.csv", bench.place + "/publication"

        def make():
            words = [TOP + "/clients/publication", "--symptoms", table, path]
            return subprocess.run(words, env={**os.environ, "BUREAU_PROGRAM": PROGRAM}, capture_output=True)

        same("the symptoms are written", make().returncode, 0)

        def joined(**more):
            return bench.north.run("errsysmods", "--csv", "A", "--symptoms", table, **more)

        heading = "FMID,SYSMOD,REASON,RESOLVER,STATUS,RECEIVED,CLASS,DATE,CHGDT,SYMP,FIX\n"
        other = ",UJ2,AJ1,'@J2,GOOD,NO,,,,,\n"
        first = "HBB77E0,'@J1,AJ1,'@J2,GOOD,NO,HIPER,25001,250102,PRV DAL,'@J2 UJ3\n"
        same("joined, by SYSMOD and reason", joined(), (0, heading + other + first, ""))
        same("in another code", joined(BUREAU_CODE="ISO-8859-1"), (0, heading + other + first, ""))
        same("with an alert", bench.north.run("errsysmods", "--csv", "A", "--symptoms", table, "--alert", "HIPER")[0], 4)
        named = write(bench.place + "/named.csv", "SYSMOD,REASON,DATE,CHGDT,SYMP,FIX\n'@J1,AJ1,,,,'@J2\nUJ2,AJ9,,,IPL,UJ8 UJ9\n")
        bench.publish("++HOLD(UJ2) ERROR REASON(AJ9).\n++HOLD(UJ2) ERROR REASON(AJ8).\n")

        def north(*words):
            return bench.north.run(*words, "--symptoms", named)

        report = bench.north.run("errsysmods", "A")[1].splitlines()
        fixes = {("UJ2", "AJ1"): "", ("@J1", "AJ1"): "@J2", ("UJ2", "AJ8"): "nothing known", ("UJ2", "AJ9"): "order UJ8 UJ9"}
        lines = [(line.ljust(61) + fixes[line[9:16].strip(), line[18:26].strip()]).rstrip() for line in report[2:-1]]
        wanted = "\n".join([report[0], report[1].ljust(61) + "FIX", *lines, report[-1]]) + "\n"
        same("the text has a column more", north("errsysmods", "A"), (0, wanted, ""))
        same("its rows are told apart without it", bench.north.run("news", "A", "--since", write(bench.place + "/with", wanted)), (0, "", ""))
        columns = "ZONE,SYSMODS,IN-ERROR,HOLDS,HIPER,PE,OTHER,NONE,HELD,GOOD,FIXES,ORDER,SENT"
        same("the overview counts those to order", north("overview", "--csv")[1], f"{columns}\nA,3,2,4,1,0,3,2,0,2,0,1,{TODAY}\n")
        check("as text too", re.search(r"FIXES  ORDER  SENT\nA .* 0      1      \S+\nROWS 1\n", north("overview")[1]))
        plan = bench.north.run("plan", "A")[1]
        left = "SYSMOD   REASON\nUJ2      AJ8\nUJ2      AJ9\n"
        check("the plan has both", left in plan, plan)
        joined_table = "SYSMOD   REASON   FIX\nUJ2      AJ8      nothing known\nUJ2      AJ9      order UJ8 UJ9\n"
        same("each with what can be done", north("plan", "A")[:2], (0, plan.replace(left, joined_table)))
        bench.publish("++RELEASE(UJ2) ERROR REASON(AJ9).\n++RELEASE(UJ2) ERROR REASON(AJ8).\n")
        write(path, text + more)
        same("and anew", make().returncode, 0)
        same("the last record of a hold counts", joined()[1], heading + other + "HBB77E0,'@J1,AJ1,'@J2,GOOD,NO,HIPER,25009,250109,'=IPL,\n")
        with open(table, "ab") as file:
            file.write(b"\r\n")
        same("an empty line at its end is none", joined()[0], 0)
        for name, text in (("another table", "SYSMOD,REASON\n"), ("nothing", "")):
            write(table, text)
            status, out, err = joined()
            check(name, (status, out) == (1, "") and "does not begin with SYSMOD,REASON,DATE,CHGDT,SYMP,FIX" in err, (status, out, err))
        bench.desk.end()

    def test_jobs(self):
        bench = sample()
        north = bench.north
        with open(os.path.join(TOP, "docs", "FIRST-STEPS.md")) as page:
            shown = re.search(r"^```\n( /\* CHAIN OF.*?)^```$", page.read(), re.M | re.S)[1]
        status, out, err = north.run("job", "MVSPROD", "UJ92005")
        same("as the page of the first steps shows it", (status, without_time(out), err), (0, without_time(shown), ""))
        status, out, err = north.run("job", "MVSPROD", "UJ92003", "UJ92002", "UJ92005", "UJ99999")
        same("what can't be installed ends it with 1", status, 1)
        for sentence in ("UJ92002 can't be installed: AJ64002 is in the way", "UJ99999 is not published, or is for a function that the zone lacks"):
            check("and is told", sentence in err, err)
            check("in the job too", sentence.upper() in " ".join(re.findall(r" /\* (.*) \*/", out)), out)
        lines = [line for line in out.splitlines() if line and not line.startswith(" /*")]
        same(
            "what was received is not received again",
            lines,
            [
                " SET BOUNDARY(GLOBAL).", " RECEIVE SYSMODS SELECT(", "    UJ92003,UJ93001", "    ).",
                " SET BOUNDARY(MVSPROD).", " APPLY CHECK SELECT(", "    UJ92003,UJ92005,UJ93001", "    )", " .",
            ],
        )
        once, twice = (north.run("job", "MVSPROD", *["UJ92003"] * times)[1] for times in (1, 2))
        same("one that is named twice stands once", without_time(twice), without_time(once))
        check("nothing is left", "NOTHING CAN BE INSTALLED" in north.run("job", "MVSPROD", "UJ92002")[1])
        same("no such zone", north.run("job", "NONE", "UJ92005")[:2], (1, ""))
        bypasses(bench)
        plans(bench, "MVSPROD")
        bench.desk.end()

    def test_jobs_that_are_none(self):
        """What is no chain makes no job."""
        desk = StandIn()
        north = client("http://127.0.0.1:%d" % desk.port, NORTH)
        reports = {
            "errsysmods": "EXCEPTION SYSMOD REPORT FOR ZONE A\nFMID     SYSMOD   REASON   RESOLVER STATUS RECEIVED CLASS\nROWS 0\n",
            "missingfix": "MISSING FIX REPORT FOR ZONE A\nCATEGORY\nROWS 0\n",
            "errsysmods.json": '{"report":"errsysmods","rows":[],"sysmods":[],"zone":"A"}',
            "missingfix.json": '{"holds":[],"report":"missingfix","rows":[],"sysmods":[],"zone":"A"}',
            "published": "PUBLISHED SYSMODS 1 HOLDS 1\n",
        }
        member = {"id": "UJ1", "system": [], "user": []}
        good = {"plan": [member], "status": "GOOD", "sysmod": "UJ1", "zone": "A"}
        held = {"blocked": "AJ1", "status": "HELD", "sysmod": "UJ1", "zone": "A"}
        for name, chain, status in (
            ("GOOD", good, 0),
            ("HELD", held, 1),
            ("of another zone", {**good, "zone": "B"}, 3),
            ("of another SYSMOD", {**good, "sysmod": "UJ2"}, 3),
            ("without the SYSMOD itself", {**good, "plan": [{**member, "id": "UJ2"}]}, 3),
            ("a member that is no SYSMOD", {**good, "plan": [member, {**member, "id": "UJ2) BYPASS(HOLDERROR"}]}, 3),
            ("a hold that ends a comment", {**good, "plan": [{**member, "system": ["IPL */"]}]}, 3),
            ("a hold that is none", {**good, "plan": [{**member, "user": [7]}]}, 3),
            ("holds that are no list", {**good, "plan": [{**member, "user": "OURS"}]}, 3),
            ("members that are no list", {**good, "plan": {"UJ1": member}}, 3),
            ("a need that is none", {**held, "blocked": "nothing"}, 3),
            ("of another status", {**held, "status": "FINE"}, 3),
            ("a list", [good], 3),
            ("lists in lists", "[" * 100000, 3),
            ("half of one", json.dumps(good)[:-9], 3),
        ):
            chain = chain if isinstance(chain, str) else json.dumps(chain)
            desk.reply = lambda first: reports.get(first.split()[1].rsplit("/")[-1], chain).encode()
            got, out, err = north.run("job", "A", "UJ1")
            check("a chain: " + name, got == status and (got < 3) == (" SET BOUNDARY(A)." in out or "CAN'T BE INSTALLED" in out), (got, out, err))
            same("which is none prints nothing", (bool(out), "no answer of a desk" in err), (got < 3, got == 3))
        desk.reply = lambda first: reports.get(first.split()[1].rsplit("/")[-1], json.dumps(good)).encode()
        reports["errsysmods"] = reports["errsysmods"].replace("ROWS 0", "-        UJ2      AJ2 */   UJ1      GOOD   NO       PE\nROWS 1")
        row = {"class": "PE", "date": None, "fmid": None, "reason": "AJ2 */", "received": False, "resolver": "UJ1", "status": "GOOD", "sysmod": "UJ2"}
        reports["errsysmods.json"] = json.dumps({"report": "errsysmods", "rows": [row], "sysmods": [], "zone": "A"})
        same("a report with a reason that is none", north.run("job", "A", "UJ1")[:2], (3, ""))

    def test_alone(self):
        """One file is the whole client. A link to the client is the client too."""
        bench, place = sample(), folder()
        made = subprocess.run([sys.executable, TOP + "/clients/make_client.py", "one-file", place], capture_output=True, text=True)
        same("one file is made", (made.returncode, os.listdir(place)), (0, [os.path.basename(made.stdout.split()[-1])]))
        one = made.stdout.split()[-1]

        def run(path, *words):
            return subprocess.run([path, *words], cwd=place, env=bench.north.environment, capture_output=True, text=True)

        for words in (("errsysmods", "MVSPROD", "--alert", "PE"), ("overview",), ("missingfix", "--csv", "MVSPROD"), ("fault", "13"), ("help",)):
            done = run(one, *words)
            same("by itself: %s" % (words,), (done.returncode, done.stdout, done.stderr), bench.north.run(*words))
        listing = TOP + "/examples/lists/tgt1.smplist.txt"
        os.symlink(one, place + "/zone-csv")
        for words in ((one, "zone-csv"), (place + "/zone-csv",)):
            same("zone-csv too", run(*words, "zone", "TGT1", listing).stdout, open(TOP + "/examples/lists/tgt1.csv").read())
        os.symlink(CLIENT, place + "/link")
        os.symlink("link", place + "/another")
        same("by a link", run(place + "/another", "overview").returncode, 0)
        bench.desk.end()


class LargeZones(unittest.TestCase):
    @classmethod
    def setUpClass(cls):
        cls.bench = drawn_site(SYSMODS)
        cls.bench.received = set(drawn(random.Random(SYSMODS), SYSMODS)[2])
        cls.addClassCleanup(cls.bench.desk.end)

    def test_overview(self):
        overview_of_many(self.bench)

    def test_jobs(self):
        jobs_of_many(self.bench)

    def test_plans(self):
        plans(self.bench, "LARGE")

    def test_news(self):
        news_of_many(self.bench)


if __name__ == "__main__":
    main("client's reports")
