#!/usr/bin/env python3
"""`plan` and `job` of bureau-client for a whole report, against a stand-in that answers as a desk with plans does.

    test_client_plans.py [-v] [NAME..]

CLIENT_PYTHON names what runs the client, such as `python3.9`.
"""
import json
import os
import random
import re
import shutil
import subprocess
import unittest

from service import TOP, Client, check, folder, main, same, without_time, write
from stand_in import StandIn

PYTHON = os.environ.get("CLIENT_PYTHON")
NORTH = "north-token"
LEVEL = "PUBLISHED SYSMODS 9 HOLDS 7\n"

# The worked plans of tests/rows/desk/plans.txt: a received resolver that needs two others, a resolver that is held, and a fix.
TEXT = """\
EXCEPTION SYSMOD PLAN FOR ZONE TGT1
STEP     SYSMOD   RECEIVED FMID
1        UA10008  NO       HBB7790,HXX0001
1        UA10009  NO       HBB7790
2        UA10005  YES      HBB7790
ROWS 3
CAUSES
SYSMOD   FOR      REASON   NEEDED BY
UA10008  -        -        UA10005
UA10009  -        -        UA10005
UA10005  UA10001  AA20002  -
ROWS 3
HOLDS TO HEED
SYSMOD   KIND     REASON
UA10008  USER     OURS
UA10005  SYSTEM   ACTION
UA10005  SYSTEM   DOC
ROWS 3
HOLDS WITHOUT GOOD OR HELD RESOLVER
SYSMOD   REASON
ROWS 0
HOLDS WITH HELD RESOLVERS
SYSMOD   REASON   RESOLVER
ROWS 0
BLOCKED NEEDS
SYSMOD   NEED     GIVER
ROWS 0
"""
NEEDS_TWO = (
    '{"blocked":[],"held":[],"members":['
    '{"fmids":["HBB7790","HXX0001"],"holds":[],"id":"UA10008","needed_by":["UA10005"],"received":false,"step":1,"system":[],"user":["OURS"]},'
    '{"fmids":["HBB7790"],"holds":[],"id":"UA10009","needed_by":["UA10005"],"received":false,"step":1,"system":[],"user":[]},'
    '{"fmids":["HBB7790"],"holds":[{"reason":"AA20002","sysmod":"UA10001"}],"id":"UA10005","needed_by":[],"received":true,"step":2,'
    '"system":["ACTION","DOC"],"user":[]}],"report":"errsysmods",'
    '"resolved":[{"reason":"AA20002","resolver":"UA10005","sysmod":"UA10001"}],"unresolved":[],"zone":"TGT1"}'
)
IS_HELD = (
    '{"blocked":[{"giver":"UA10007","need":"AA30003","published":true,"sysmod":"UA10002"},'
    '{"giver":null,"need":"AA40004","published":false,"sysmod":"UA10007"}],'
    '"held":[{"reason":"AA20002","resolver":"UA10002","sysmod":"UA10001"}],'
    '"members":[],"report":"errsysmods","resolved":[],"unresolved":[],"zone":"TGT1"}'
)
FIX = (
    '{"blocked":[],"held":[],"members":[{"fmids":["HBB7790"],"holds":[{"reason":"AA40001","sysmod":"HBB7790"}],"id":"UA10009",'
    '"needed_by":[],"received":true,"step":1,"system":[],"user":[]}],"report":"missingfix",'
    '"resolved":[{"reason":"AA40001","resolver":"UA10009","sysmod":"HBB7790"}],"unresolved":[],"zone":"TGT1"}'
)
NOTHING = {"blocked": [], "held": [], "members": [], "report": "errsysmods", "resolved": [], "unresolved": [], "zone": "TGT1"}
EMPTY = re.sub(r"(?m)^(\d|UA).*\n", "", TEXT).replace("ROWS 3", "ROWS 0")


class Stand:
    """A stand-in with these answers, by their paths, and the client NORTH."""

    def __init__(self, zone="TGT1", **answers):
        self.desk = StandIn()
        zones = "ZONE     SYSMODS\n%-9s4\nROWS 1\n" % zone
        as_json = '{"zones":[{"sysmods":4,"zone":"%s"}]}' % zone
        self.answers = {"/published": LEVEL, "/zones": zones, "/zones.json": as_json, **answers}
        self.desk.reply = lambda first: self.answers.get(first.split()[1], "").encode() or (404, b"NOT FOUND\n")
        self.north = Client("http://127.0.0.1:%d" % self.desk.port, NORTH, PYTHON)

    def asked(self):
        return [first.split()[1] for first, _, _ in self.desk.requests]


def of(report, form, text, zone="TGT1"):
    return Stand(**{"/zones/%s/%s/%s" % (zone, report, form): text})


def drawn(dice, count):
    """A plan of so many members in steps, with what is left over."""
    ids = dice.sample(["U%s%05d" % (letter, at) for letter in "A@#$" for at in range(count)], count)
    reasons = ["R%06d" % at for at in range(40)]

    def hold(at):
        return {"reason": "AJ%05d" % at, "sysmod": "UZ%05d" % at}

    members = [
        {
            "fmids": ["HBB77E0"], "holds": [hold(at * 9 + n) for n in range(dice.choice((0, 1, 1, 2, 7)))], "id": name,
            "needed_by": dice.sample(ids, min(count, dice.choice((0, 0, 1, 9)))), "received": dice.random() < 0.5, "step": at // 4 + 1,
            "system": dice.sample(reasons, dice.choice((0, 0, 1, 9))), "user": dice.sample(reasons, dice.choice((0, 0, 0, 1, 9))),
        }
        for at, name in enumerate(ids)
    ]
    held = [{**hold(at), "resolver": "UH%05d" % at} for at in range(dice.choice((0, 1, count)))]
    left = [hold(at) for at in range(dice.choice((0, 1, count)))]
    return {**NOTHING, "members": members, "held": held, "unresolved": left}


def page_job(plan, title):
    """What clients/page/job.js makes of it."""
    place = folder()
    shutil.copy(os.path.join(TOP, "clients", "page", "job.js"), place + "/job.mjs")
    write(place + "/plan.json", json.dumps(plan))
    write(
        place + "/run.mjs",
        "import { readFileSync } from 'node:fs';\nimport { jobOf } from './job.mjs';\n"
        "process.stdout.write(jobOf(JSON.parse(readFileSync(process.argv[2])), process.argv[3]));\n",
    )
    return subprocess.run(["node", place + "/run.mjs", place + "/plan.json", title], capture_output=True, text=True).stdout


class Plans(unittest.TestCase):
    def test_words_that_are_wrong(self):
        north = Client("http://127.0.0.1:9", NORTH, PYTHON)
        for words in (
            ("plan",),
            ("plan", "tgt1"),
            ("plan", "A", "UJ1"),
            ("plan", "--csv", "A"),
            ("job", "--fixes", "A", "UJ1"),
            ("errsysmods", "--fixes", "A"),
            ("job", "--fixes"),
        ):
            same("no such words: %s" % (words,), north.run(*words)[0], 2)

    def test_plans(self):
        stand = of("errsysmods", "plan", TEXT)
        same("as the desk gives it", stand.north.run("plan", "TGT1"), (0, TEXT, ""))
        same("by one question", stand.asked(), ["/zones/TGT1/errsysmods/plan"])
        same("in another code", stand.north.run("plan", "TGT1", BUREAU_CODE="ISO-8859-1"), (0, TEXT, ""))
        fixes = TEXT.replace("EXCEPTION SYSMOD PLAN", "MISSING FIX PLAN")
        same("of the fixes", of("missingfix", "plan", fixes).north.run("plan", "TGT1", "--fixes"), (0, fixes, ""))
        stand = of("errsysmods", "plan", TEXT.replace("TGT1", "A#1"), "A%231")
        same("of a zone with a sign", stand.north.run("plan", "A#1")[0], 0)
        for name, text in (
            ("a page of something between", "<html>Please log in</html>\n"),
            ("nothing of a plan", "\n"),
            ("another zone's", TEXT.replace("TGT1", "TGT11")),
            ("the other report's", fixes),
            ("one that ends inside a table", TEXT[:-7]),
            ("one that lost a row", TEXT.replace("UA10009  -        -        UA10005\n", "")),
            ("one that lost a number", TEXT.replace("ROWS 3\nCAUSES", "CAUSES")),
        ):
            status, out, err = of("errsysmods", "plan", text).north.run("plan", "TGT1")
            check(name, (status, out) == (3, "") and "is no answer of a desk" in err, (status, out, err))

    def test_no_plans(self):
        """A desk without plans is told from one without the zone."""
        stand = Stand()
        for words in (("plan",), ("plan", "--fixes"), ("job",), ("job", "--fixes")):
            status, out, err = stand.north.run(*words, "TGT1")
            check("no plans: %s" % (words,), (status, out) == (1, "") and "has no plans" in err, (status, out, err))
            status, out, err = stand.north.run(*words, "TGT")
            check("no zone: %s" % (words,), (status, out) == (1, "") and "has no zone TGT of yours" in err, (status, out, err))
        stand.desk.reply = (401, b"UNKNOWN TOKEN\n")
        status, _, err = stand.north.run("plan", "TGT1")
        check("an unknown token", status == 1 and "does not know the token" in err, err)

    def test_why_empty(self):
        """A plan without any row says why, as a report does."""
        stand = of("errsysmods", "plan", EMPTY)
        status, out, err = stand.north.run("plan", "TGT1")
        check("nothing is wrong", (status, out) == (0, EMPTY) and "nothing is wrong" in err, (status, out, err))
        stand.answers["/published"] = "PUBLISHED SYSMODS 0 HOLDS 0\n"
        check("nothing is published", "nothing is published yet" in stand.north.run("plan", "TGT1")[2])
        stand = of("missingfix", "plan", EMPTY.replace("EXCEPTION SYSMOD PLAN", "MISSING FIX PLAN"))
        check("no categories", "no fix categories of the zone TGT1 were sent" in stand.north.run("plan", "--fixes", "TGT1")[2])
        held = EMPTY.replace("RESOLVER\nROWS 0", "RESOLVER\nUA10001  AA20002  UA10002\nROWS 1")
        same("one that has a row in a later table says nothing", of("errsysmods", "plan", held).north.run("plan", "TGT1"), (0, held, ""))

    def test_jobs(self):
        stand = of("errsysmods", "plan.json", NEEDS_TWO)
        status, out, err = stand.north.run("job", "TGT1")
        wanted = (
            " /* PLAN FOR THE EXCEPTION SYSMODS OF ZONE TGT1, PUBLISHED 9 SYSMODS */\n"
            " /* AND 7 HOLDS, ASKED */\n"
            " /* MADE BY BUREAU, AND NOT TRIED ON A REAL Z/OS. READ IT BEFORE YOU */\n /* RUN IT. */\n\n"
            " SET BOUNDARY(GLOBAL).\n RECEIVE SYSMODS SELECT(\n    UA10008,UA10009\n    ).\n\n"
            " /* UA10008 IS NEEDED BY UA10005 */\n /* UA10008 HAS A USER HOLD: OURS */\n /* UA10009 IS NEEDED BY UA10005 */\n"
            " /* UA10005 FOR UA10001 (AA20002) */\n /* UA10005 HAS A SYSTEM HOLD: ACTION */\n /* UA10005 HAS A SYSTEM HOLD: DOC */\n\n"
            " SET BOUNDARY(TGT1).\n APPLY CHECK SELECT(\n    UA10008,UA10009,UA10005\n    )\n"
            " /* BYPASS(HOLDSYSTEM(ACTION,DOC),HOLDUSER(OURS)) */\n .\n"
        )
        same("a job of the whole plan", (status, without_time(out), err), (0, wanted, ""))
        same("by two questions", stand.asked(), ["/zones/TGT1/errsysmods/plan.json", "/published"])
        same("in another code", without_time(stand.north.run("job", "TGT1", BUREAU_CODE="ISO-8859-1")[1]), wanted)
        status, out, err = of("missingfix", "plan.json", FIX).north.run("job", "--fixes", "TGT1")
        statements = [line for line in out.splitlines() if line and not line.startswith(" /*")]
        same(
            "of the fixes, where all was received",
            (status, statements, err),
            (0, [" SET BOUNDARY(TGT1).", " APPLY CHECK SELECT(", "    UA10009", "    )", " ."], ""),
        )
        check("for its report", " /* PLAN FOR THE MISSING FIXES OF ZONE TGT1," in out and " /* UA10009 FOR HBB7790 (AA40001) */" in out, out)
        status, out, err = of("errsysmods", "plan.json", IS_HELD).north.run("job", "TGT1")
        check(
            "nothing can be installed",
            status == 0 and " /* ALL RESOLVERS ARE HELD OF UA10001 (AA20002) */\n /* NOTHING CAN BE INSTALLED */\n" in out and "SET BOUNDARY" not in out,
            (status, out),
        )
        left_over = "0 holds that nothing resolves, and 1 hold of which all resolvers are held. 'bureau-client plan TGT1' tells more"
        same("and what is left over is said", err, f"bureau-client: left over: {left_over}\n")
        status, _, err = of("errsysmods", "plan.json", json.dumps(NOTHING)).north.run("job", "TGT1")
        same("nothing is to be done", (status, err), (0, "bureau-client: nothing is to be installed: the plan has no member\n"))

    def test_forms(self):
        """A job with a card, an order, classes to bypass, RETRY, and without CHECK: each only where it is asked for."""
        stand = of("errsysmods", "plan.json", NEEDS_TWO)
        plain = without_time(stand.north.run("job", "TGT1")[1])

        def run(*words):
            return without_time(stand.north.run("job", "TGT1", *words)[1])

        card = "//BUREAU   JOB (ACCT),'SMP/E',CLASS=A,MSGCLASS=H\n//SMPE     EXEC PGM=GIMSMP,\n//         PARM='CSI=SMPE.GLOBAL.CSI'\n//SMPCNTL  DD *\n"
        same("a card and a step", run("--jcl", "SMPE.GLOBAL.CSI"), card + plain + "/*\n")
        same("RETRY", run("--retry"), plain.replace("UA10005\n    )\n /*", "UA10005\n    )\n RETRY(YES)\n /*"))
        same("without CHECK", run("--apply"), plain.replace("APPLY CHECK", "APPLY"))
        job = run("--holdclass", "ERREL,HIPER")
        bypass = " BYPASS(HOLDCLASS(\n    ERREL,HIPER\n    ))\n /* OR, IN ITS PLACE: */\n"
        check("classes", bypass in job and job.count("HOLDCLASS(") == 2 and "ACTION,DOC" in job, job)
        order = run("--order")
        statements = [line for line in order.splitlines() if not line.startswith(" /*")]
        wanted = [
            " RECEIVE SYSMODS HOLDDATA ORDER(", "    CONTENT(PTFS(", "    UA10008,UA10009", "    ))", "    ORDERSERVER(ORDSRVR) CLIENT(CLIENT)", "    ).",
        ]
        check("an order", "\n".join(wanted) in "\n".join(statements), order)
        whole = run("--order", "--retry", "--apply", "--holdclass", ",".join("ERREL%02d" % n for n in range(12)), "--jcl", "A" * 8 + ".B" * 18)
        same("in columns 1 to 71", [line for line in whole.splitlines() if len(line) > 71], [])
        for words in (("--jcl", "smpe.csi"), ("--jcl", "A" * 9), ("--jcl", "A'B"), ("--holdclass", "erel"), ("--holdclass", "A,,B"), ("--holdclass", "A)")):
            status, out, _ = stand.north.run("job", "TGT1", *words)
            same("no such words: %s" % (words,), (status, out), (2, ""))

    def test_jobs_of_zones(self):
        """One job for several zones: what they want is received once, and each is applied by itself."""
        other = NEEDS_TWO.replace("TGT1", "TGT2").replace("UA10005", "UA10006")
        zones = '{"zones":[{"sysmods":4,"zone":"TGT1"},{"sysmods":4,"zone":"TGT2"},{"sysmods":0,"zone":"TGT3"}]}'
        plans = {"/zones/TGT1/errsysmods/plan.json": NEEDS_TWO, "/zones/TGT2/errsysmods/plan.json": other,
                 "/zones/TGT3/errsysmods/plan.json": IS_HELD.replace("TGT1", "TGT3")}
        stand = Stand(**{**plans, "/zones.json": zones})
        status, out, err = stand.north.run("job", "--all")
        one = without_time(stand.north.run("job", "TGT1")[1])
        same("all zones", (status, stand.north.run("job", "--zones", "TGT1,TGT2,TGT3,TGT1")[0]), (0, 0))
        check("one title", " /* PLANS FOR THE EXCEPTION SYSMODS OF ZONES TGT1, TGT2, TGT3," in out, out)
        check("what is left over, by its zone", " /* IN ZONE TGT3 ALL RESOLVERS ARE HELD OF UA10001 (AA20002) */" in out, out)
        same("one RECEIVE", re.findall(r"RECEIVE SYSMODS SELECT\(\n(.*)", out), ["    UA10008,UA10009"])
        same("each zone", re.findall(r"SET BOUNDARY\((\w+)\)", out), ["GLOBAL", "TGT1", "TGT2"])
        part = one[one.index(" /* UA10008 IS NEEDED") :]
        same("as its own job has it", part in out and part.replace("UA10005", "UA10006").replace("TGT1", "TGT2") in out, True)
        check("said of each zone", "'bureau-client plan TGT3' tells more" in err, err)
        same("one zone is as by its name", without_time(stand.north.run("job", "--zones", "TGT1")[1]), one)
        check("columns 1 to 71", not [line for line in out.splitlines() if len(line) > 71])
        for words in (("TGT1", "--all"), ("TGT1", "--zones", "TGT2"), ("--zones", "TGT1,,TGT2"), ("--zones", "tgt1"), ("--zones", ""), ("--zones",)):
            same("no such words: %s" % (words,), stand.north.run("job", *words)[:2], (2, ""))
        stand.answers["/zones.json"] = '{"zones":[]}'
        same("no zone", stand.north.run("job", "--all")[:2], (1, ""))

    def test_jobs_that_are_none(self):
        """What is no plan makes no job."""
        whole = json.loads(NEEDS_TWO)
        member = whole["members"][0]
        for name, text in (
            ("a page of something between", "<html>Please log in</html>\n"),
            ("half a plan", NEEDS_TWO[:-20]),
            ("another zone's", NEEDS_TWO.replace("TGT1", "TGT2")),
            ("the other report's", FIX),
            ("a list", "[]"),
            ("a number", "7"),
            ("lists in lists", "[" * 100000),
            ("without members", json.dumps({**whole, "members": None})),
            ("members that are no list", json.dumps({**whole, "members": {}})),
            ("holds that are no list", json.dumps({**whole, "members": [{**member, "system": "IPL"}]})),
            ("a member that is no object", json.dumps({**whole, "members": [7]})),
            ("a member without a hold's reason", json.dumps({**whole, "members": [{**member, "holds": [{"sysmod": "UJ1"}]}]})),
            ("a member that is no SYSMOD", json.dumps({**whole, "members": [{**member, "id": "UA1).\n DELETE("}]})),
            ("a hold that ends a comment", json.dumps({**whole, "members": [{**member, "user": ["A*/"]}]})),
            ("a member of which nobody knows whether it came", json.dumps({**whole, "members": [{**member, "received": "NO"}]})),
            ("a hold that is none", json.dumps({**whole, "unresolved": [{"sysmod": None, "reason": "AJ1"}]})),
        ):
            status, out, err = of("errsysmods", "plan.json", text).north.run("job", "TGT1")
            check(name, (status, out) == (3, "") and "no answer of a desk" in err, (status, out, err))
        stand = of("errsysmods", "plan.json", NEEDS_TWO)
        stand.answers["/published"] = "NOTHING\n"
        same("no level", stand.north.run("job", "TGT1")[:2], (3, ""))

    def test_jobs_of_many(self):
        """A drawn plan as a job: columns 1 to 71, each member once and in order; and the page's own code makes the same."""
        dice = random.Random(51)
        for count in (1, 2, 3, 4, 8, 9, 17, 1000):
            plan = drawn(dice, count)
            status, out, _ = of("errsysmods", "plan.json", json.dumps(plan)).north.run("job", "TGT1")
            same("a job of %d" % count, status, 0)
            bad = [line for line in out.splitlines() if len(line) > 71 or line != line.upper() or line[:1] not in ("", " ")]
            same("in columns 2 to 71", bad, [])
            left = re.sub(r"/\*.*?\*/", "", out)
            same("each comment ends on its line", ("/*" in left, "*/" in left, "BYPASS" in left), (False, False, False))
            select = {name: re.findall(r"[A-Z0-9@#$]+", part) for name, part in re.findall(r"(RECEIVE|APPLY)[A-Z ]*\((.*?)\)", left, re.S)}
            ids = [member["id"] for member in plan["members"]]
            same("all are applied, in order", select["APPLY"], ids)
            same("what was not received is", select.get("RECEIVE", []), [one["id"] for one in plan["members"] if not one["received"]])
            said = " ".join(re.findall(r"/\* (.*?) \*/", out))
            for words, holds in (("NOTHING RESOLVES ", plan["unresolved"]), ("ALL RESOLVERS ARE HELD OF ", plan["held"])):
                named = words + ", ".join("%(sysmod)s (%(reason)s)" % hold for hold in holds)
                check("what is left over is named", named in said if holds else words not in said, said[:300])
            title = " ".join(re.findall(r"^ /\* (.*) \*/$", out.split(" /* MADE BY")[0], re.M))
            same("as the page makes it", page_job(plan, title), out)


if __name__ == "__main__":
    main("client's plans")
