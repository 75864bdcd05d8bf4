#!/usr/bin/env python3
"""The JSON of reports, zones and counts beside their texts: in worked cases, over the sample, and over drawn SYSMODs.

    test_json.py [SYSMODS [SEED]]

JSON has the rows of the text. What the text has not is worked out from the published statements by `plain.py`: the last ++HOLD of
a key counts, ++RELEASE takes it away, and a SYSMOD that is published again replaces the earlier one. Dates are Python's.
"""
import datetime
import json
import os
import random
import unittest

from plain import changes
from service import TOP, Desk, check, folder, main, numbers, same, write

SYSMODS, SEED = numbers(20000, 20261128)
PUBLISHER, ALPHA, BETA = "publisher-token", "alpha-token", "beta-token"
CALLERS = write(folder() + "/callers", "NAME,TOKEN\nPUBLISH,%s\nALPHA,%s\nBETA,%s\n" % (PUBLISHER, ALPHA, BETA))
ERROR, FIXCAT = 0, 3
ERR_COLUMNS = [("fmid", 0, 9), ("sysmod", 9, 18), ("reason", 18, 27), ("resolver", 27, 36), ("status", 36, 43), ("received", 43, 52), ("class", 52, None)]
MISSING_COLUMNS = [("category", 0, 66), ("sysmod", 66, 75), ("reason", 75, 84), ("resolver", 84, 93), ("status", 93, 100), ("received", 100, None)]
FIELDS = {"-": None, "- NONE -": None, "YES": True, "NO": False}


def text(name):
    return None if name is None else name.decode()


def day(date):
    """DATE of ++HOLD as a day of the calendar, or None: the years are 1970 to 2069."""
    if date is None:
        return None
    year = int(date[:2]) + (2000 if date[:2] < b"70" else 1900)
    found = datetime.datetime.strptime("%d%s" % (year, date[2:].decode()), "%Y%j")
    return found.strftime("%Y-%m-%d") if found.year == year else None


def compact(told):
    return json.dumps(told, separators=(",", ":"), sort_keys=True).encode()


class Published:
    """What stands after publications, by a plain reading of their statements."""

    def __init__(self):
        self.catalogue, self.book = {}, {}

    def read(self, statements):
        for key, said in changes(statements):
            if isinstance(key, bytes):
                self.catalogue[key] = said
            elif said is None:
                self.book.pop(key, None)
            else:
                self.book[key] = said

    def hold(self, row, kind):
        return self.book[row["sysmod"].encode(), kind, row["reason"].encode()]

    def sysmods(self, rows):
        held = [(name, self.catalogue.get(name.encode())) for name in sorted({row["sysmod"] for row in rows})]
        return [{"fmids": record and sorted(map(text, record[b"FMID"])), "sysmod": name} for name, record in held]

    def err_json(self, zone, printed):
        """The JSON of a report by its text."""
        rows = rows_of(printed, ERR_COLUMNS)
        holds = [self.hold(row, ERROR) for row in rows]
        said = [(text(hold.get(b"FMID")), text(hold.get(b"CLASS"))) for hold in holds]
        same("what the text says of the holds of " + zone, [(row["fmid"], row["class"]) for row in rows], said)
        rows = [dict(row, date=day(hold.get(b"DATE"))) for row, hold in zip(rows, holds)]
        return {"report": "errsysmods", "rows": rows, "sysmods": self.sysmods(rows), "zone": zone}

    def missing_json(self, zone, printed):
        rows = rows_of(printed, MISSING_COLUMNS)
        named = sorted({(row["sysmod"], row["reason"]) for row in rows})
        holds = []
        for sysmod, reason in named:
            hold = self.hold({"sysmod": sysmod, "reason": reason}, FIXCAT)
            holds.append({"categories": list(map(text, hold[b"CATEGORY"])), "fmid": text(hold.get(b"FMID")), "reason": reason, "sysmod": sysmod})
        for row in rows:
            hold = self.hold(row, FIXCAT)
            row.update({"class": text(hold.get(b"CLASS")), "date": day(hold.get(b"DATE"))})
        return {"holds": holds, "report": "missingfix", "rows": rows, "sysmods": self.sysmods(rows), "zone": zone}

    def counts_json(self):
        return {"holds": len(self.book), "sysmods": len(self.catalogue)}


def rows_of(printed, columns):
    """The rows of a report in print, field by field."""
    fields = [{name: line[begin:end].strip() for name, begin, end in columns} for line in printed.splitlines()[2:-1]]
    return [{name: FIELDS.get(field, field) for name, field in row.items()} for row in fields]


def zones_json(printed):
    return {"zones": [{"sysmods": int(line[9:]), "zone": line[:9].strip()} for line in printed.splitlines()[1:-1]]}


class Watched:
    """A desk with what was published at it, and the numbers of its callers."""

    def __init__(self):
        self.desk, self.published, self.last = Desk(CALLERS), Published(), {}

    def change(self, method, path, token, body):
        self.last[token] = number = self.last.get(token, 0) + 1
        status, reply = self.desk.ask(method, path, token, number, body if isinstance(body, bytes) else body.encode())
        same("%s %s is accepted" % (method, path), (status, reply[:6]), (200, reply[:6]))

    def publish(self, parts):
        """A publication of parts, each of whole statements."""
        self.change("POST", "/publish", PUBLISHER, "".join(parts))
        for part in parts:
            self.published.read(part.encode())

    def put(self, token, zone, rows, categories, received=()):
        def lines(header, records):
            return "".join(line + "\n" for line in [header, *records])

        path = "/zones/" + zone.replace("#", "%23")
        self.change("PUT", path, token, lines("SYSMOD,STATE", rows))
        self.change("PUT", path + "/categories", token, lines("CATEGORY", categories))
        self.change("PUT", "/received", token, lines("SYSMOD", received))

    def get(self, path, token=ALPHA):
        status, body = self.desk.ask("GET", path, token)
        same("GET %s is answered" % path, status, 200)
        return body

    def see_zone(self, zone, token=ALPHA):
        """Both reports on a zone: what their JSON has."""
        path, found = "/zones/%s/" % zone.replace("#", "%23"), []
        for name, wanted in (("errsysmods", self.published.err_json), ("missingfix", self.published.missing_json)):
            found.append(wanted(zone, self.get(path + name, token).decode()))
            same_text("%s.json of %s" % (name, zone), self.get(path + name + ".json", token), compact(found[-1]))
        return found

    def see_lists(self):
        for token in (PUBLISHER, ALPHA, BETA):
            counts = self.published.counts_json()
            same("published.json", self.get("/published.json", token), compact(counts))
            told = b"PUBLISHED SYSMODS %d HOLDS %d\n" % (counts["sysmods"], counts["holds"])
            same("and its text", self.get("/published", token), told)
        for token in (ALPHA, BETA):
            same("zones.json", self.get("/zones.json", token), compact(zones_json(self.get("/zones", token).decode())))


def same_text(name, got, wanted):
    """Long texts are compared whole, and shown where they differ."""
    place = next((at for at, pair in enumerate(zip(got, wanted)) if pair[0] != pair[1]), min(len(got), len(wanted)))
    around = slice(max(0, place - 90), place + 90)
    return check(name, got == wanted, "at byte %d\n   got: %r\nwanted: %r" % (place, got[around], wanted[around]))


# ---- worked cases

DAYS = [
    ("", "null"), ("DATE(25366)", "null"), ("DATE(24366)", '"2024-12-31"'), ("DATE(70001)", '"1970-01-01"'), ("DATE(69365)", '"2069-12-31"'),
    ("DATE(00060)", '"2000-02-29"'), ("DATE(01060)", '"2001-03-01"'), ("DATE(25031)", '"2025-01-31"'), ("DATE(25032)", '"2025-02-01"'),
    ("DATE(99365)", '"1999-12-31"'), ("DATE(69366)", "null"), ("DATE(70366)", "null"), ("DATE(00366)", '"2000-12-31"'),
]


MARKS = r"""++FUNCTION(HBB77E0).
++VER(Z038).
++PTF(UJ00001).
++VER(Z038) FMID(HDZ33E0,HBB77E0).
++VER(P115) FMID(HBB77E0,JBB77E1).
++PTF(UJ00002).
++VER(Z038) FMID(HBB77E0) SUP(AJ00001).
++HOLD(UJ00001) FIXCAT REASON(AJ00001) CLASS(HIPER) DATE(25119)
 CATEGORY(Say"it\now,Other,IBM.{A}~).
++HOLD(HBB77E0) FIXCAT REASON(AJ00009) RESOLVER(UJ99999) FMID(HDZ33E0)
 CATEGORY(IBM.{A}~).
++HOLD(UJ00001) FIXCAT REASON(AJ00003) CATEGORY(IBM.B).
++HOLD(UJ00001) ERROR REASON(AJ00003)
 CLASS(PE) DATE(25001) FMID(HBB77E0).
"""
MARKED = (
    r'{"holds":[{"categories":["IBM.{A}~"],"fmid":"HDZ33E0","reason":"AJ00009","sysmod":"HBB77E0"},'
    r'{"categories":["IBM.{A}~","Other","Say\"it\\now"],"fmid":null,"reason":"AJ00001","sysmod":"UJ00001"},'
    r'{"categories":["IBM.B"],"fmid":null,"reason":"AJ00003","sysmod":"UJ00001"}],"report":"missingfix","rows":['
    r'{"category":"IBM.B","class":null,"date":null,"reason":"AJ00003","received":null,"resolver":null,"status":null,"sysmod":"UJ00001"},'
    r'{"category":"IBM.{A}~","class":null,"date":null,"reason":"AJ00009","received":false,"resolver":"UJ99999","status":"LACK","sysmod":"HBB77E0"},'
    r'{"category":"IBM.{A}~","class":"HIPER","date":"2025-04-29","reason":"AJ00001","received":true,"resolver":"UJ00002","status":"GOOD","sysmod":"UJ00001"},'
    r'{"category":"Say\"it\\now","class":"HIPER","date":"2025-04-29","reason":"AJ00001","received":true,'
    r'"resolver":"UJ00002","status":"GOOD","sysmod":"UJ00001"}],'
    r'"sysmods":[{"fmids":[],"sysmod":"HBB77E0"},{"fmids":["HBB77E0","HDZ33E0","JBB77E1"],"sysmod":"UJ00001"}],"zone":"T#3"}'
)


def refusals(desk):
    """Each path is refused as its text is, and has no other method. ALPHA has the zone A."""
    reports = ["/zones/A/errsysmods.json", "/zones/A/missingfix.json"]
    for path in ["/zones.json", *reports]:
        same("the publisher asks for " + path, desk.ask("GET", path, PUBLISHER), (403, b"NOT ALLOWED\n"))
    for path in reports:
        same("another client asks for " + path, desk.ask("GET", path, BETA), (404, b"NOT FOUND\n"))
        same("no such zone", desk.ask("GET", path.replace("A/", "B/"), ALPHA), (404, b"NOT FOUND\n"))
        same("no id", desk.ask("GET", path.replace("A/", "a/"), ALPHA), (404, b"NOT FOUND\n"))
    for path in ["/published.json", "/zones.json", *reports]:
        same("nobody asks for " + path, desk.ask("GET", path, "nobody-token"), (401, b"UNKNOWN TOKEN\n"))
        for method in ("PUT", "POST", "DELETE", "HEAD", "OPTIONS"):
            status, headers, body = desk.reply(method, path, [("bureau-token", ALPHA), ("content-length", 0)])
            text = b"" if method == "HEAD" else b"METHOD NOT ALLOWED\n"
            same("%s %s" % (method, path), (status, headers.get("allow"), body), (405, "GET", text))
    for path in (
        "/published.json/", "/publish.json", "/zones.json/A", "/zones/A/errsysmods.json/plan", "/zones/A/plan.json", "/received.json",
        "/zones/A/chains/UJ00001.json",
    ):
        same("no path " + path, desk.ask("GET", path, ALPHA), (404, b"NOT FOUND\n"))
    asked = [desk.reply("GET", path, [("bureau-token", ALPHA)]) for path in ("/zones/A.json", "/zones/A")]
    same("a zone alone has no JSON", asked[0][:2], (405, asked[1][1]))


# ---- the sample


# ---- drawn SYSMODs

FUNCTIONS = ["HBB77E0", "HDZ33E0", "JBB77E1", "HXX0001"]
CATEGORIES = ["IBM.Device.%02d" % at for at in range(12)] + ["IBM.Function.HealthChecker", "Other", r'Say"it\now', "X" * 64, "\\", "z/OS.V3R1"]
PATTERNS = ["ibm.device.0*", "IBM.Function.*", "say*", "X*", "\\", "Nobody"]


class Draw:
    """Publications of so many SYSMODs with holds of each kind, and a zone with half of them."""

    def __init__(self, count, seed):
        self.dice, self.count = random.Random(seed), count
        self.names = ["UJ%05d" % at for at in range(count)]
        self.installed = set(self.dice.sample(self.names, count // 2)) | {"HBB77E0", "HDZ33E0"}
        self.unknown = ["UX%05d" % at for at in range(count // 100 + 5)]  # installed and held, and never published
        self.held = sorted(self.installed | set(self.unknown)) + FUNCTIONS

    def apar(self):
        return "AJ%05d" % self.dice.randrange(self.count)

    def first(self):
        parts = ["++FUNCTION(%s).\n++VER(Z038)%s.\n" % (name, " FMID(HBB77E0)" if name[0] == "J" else "") for name in FUNCTIONS]
        return parts + [self.sysmod(name) for name in self.names] + self.holds(2 * self.count)

    def later(self):
        """Some SYSMODs again, holds again, releases, and new holds, mixed."""
        parts = [self.sysmod(name) for name in self.dice.sample(self.names, self.count // 20)] + self.holds(self.count // 5)
        self.dice.shuffle(parts)
        return parts

    def sysmod(self, name):
        dice, text = self.dice, "++%s(%s).\n" % (self.dice.choice(["PTF", "PTF", "APAR", "USERMOD"]), name)
        for _ in range(dice.choice([1, 1, 2])):
            lists = ["FMID(%s)" % ",".join(dice.sample(FUNCTIONS, dice.choice([1, 1, 2])))]
            if dice.random() < 0.2:
                lists.append("%s(%s)" % (dice.choice(["PRE", "REQ"]), dice.choice(self.names)))
            if dice.random() < (0.02 if name in self.installed else 0.9):
                lists.append("SUP(%s,%s)" % (self.apar(), self.apar()))
            text += "++VER(Z038) %s.\n" % "\n ".join(lists)
        return text

    def holds(self, count):
        return [self.release() if self.dice.random() < 0.05 else self.hold() for _ in range(count)]

    def key(self):
        kind = self.dice.choice(["ERROR", "ERROR", "ERROR", "FIXCAT", "FIXCAT", "SYSTEM", "USER"])
        reason = self.dice.choice(["IPL", "DOC"]) if kind in ("SYSTEM", "USER") else self.apar()
        return self.dice.choice(self.held), kind, reason

    def hold(self):
        dice, (sysmod, kind, reason) = self.dice, self.key()
        words = ["FMID(%s)" % dice.choice(FUNCTIONS), "CLASS(%s)" % dice.choice(["HIPER", "PE", "SECINT"]),
                 "DATE(%02d%03d)" % (dice.randrange(100), dice.choice([1, 59, 60, 61, 365, 366, dice.randint(1, 366)]))]
        words = [word for word in words if dice.random() < 0.8]
        if kind == "FIXCAT":
            words.append("CATEGORY(\n  %s)" % ",\n  ".join(dice.sample(CATEGORIES, dice.randint(1, 5))))
            words += ["RESOLVER(%s)" % dice.choice([dice.choice(self.names), "UQ00001"])] if dice.random() < 0.5 else []
        words.append("REASON(%s)" % reason)
        dice.shuffle(words)
        return "++HOLD(%s) %s\n %s.\n" % (sysmod, kind, "\n ".join(words))

    def release(self):
        return "++RELEASE(%s) %s REASON(%s).\n" % self.key()

    def rows(self):
        states = ["APPLIED", "APPLIED", "ACCEPTED", "SUPERSEDED"]
        return ["%s,%s" % (name, "APPLIED" if name[0] == "H" else self.dice.choice(states)) for name in sorted(self.installed | set(self.unknown))]


def see_kinds(errors, fixes):
    """What was drawn has each kind of row, so that the comparison means something."""
    rows = errors["rows"] + fixes["rows"]
    kinds = {(row["status"], row["received"]) for row in rows}
    for kind in ((None, None), ("GOOD", True), ("GOOD", False), ("HELD", False), ("LACK", False)):
        check("a row of the kind %s" % (kind,), kind in kinds, kinds)
    for name, places in (("date", rows), ("class", rows), ("fmid", errors["rows"] + fixes["holds"])):
        check("with and without its %s" % name, {row[name] is None for row in places} == {False, True})
    lengths = {None if one["fmids"] is None else len(one["fmids"]) for one in errors["sysmods"] + fixes["sysmods"]}
    check("held SYSMODs without a record, without a function, with one, with several", {None, 0, 1, 2} <= lengths, lengths)
    asked = {(row["sysmod"], row["reason"], row["category"]) for row in fixes["rows"]}
    named = {(hold["sysmod"], hold["reason"], category) for hold in fixes["holds"] for category in hold["categories"]}
    check("categories that are asked for, and others", asked < named)


class Json(unittest.TestCase):
    def test_worked_dates(self):
        """The day of each date, as it is written."""
        watched = Watched()
        parts = ["++HOLD(UJ%05d) ERROR REASON(AJ00001) %s.\n" % (at, date) for at, (date, _) in enumerate(DAYS)]
        watched.publish(["++FUNCTION(HBB77E0).\n++VER(Z038).\n", *parts])
        watched.put(ALPHA, "TGT1", ["UJ%05d,APPLIED" % at for at in range(len(DAYS))], [])
        row = '{"class":null,"date":%s,"fmid":null,"reason":"AJ00001","received":null,"resolver":null,"status":null,"sysmod":"UJ%05d"}'
        rows = ",".join(row % (shown, at) for at, (_, shown) in enumerate(DAYS))
        sysmods = ",".join('{"fmids":null,"sysmod":"UJ%05d"}' % at for at in range(len(DAYS)))
        same(
            "each date",
            watched.get("/zones/TGT1/errsysmods.json").decode(),
            '{"report":"errsysmods","rows":[%s],"sysmods":[%s],"zone":"TGT1"}' % (rows, sysmods),
        )
        watched.see_zone("TGT1")
        watched.desk.end()

    def test_worked_marks(self):
        """Marks in categories, a hold with several categories of which two are asked for, LACK, functions in order, and changes after it."""
        watched = Watched()
        watched.publish([MARKS])
        watched.put(ALPHA, "T#3", ["HBB77E0,ACCEPTED", "UJ00001,APPLIED"], ['say"*', "ibm.*"], ["UJ00002"])
        same("marks", watched.get("/zones/T%233/missingfix.json").decode(), MARKED)
        watched.see_zone("T#3")
        watched.see_lists()
        watched.publish([
            "++HOLD(UJ00001) ERROR REASON(AJ00003) DATE(69365).\n", "++RELEASE(UJ00001) FIXCAT REASON(AJ00001).\n",
            "++PTF(UJ00001).\n++VER(Z038) FMID(HXX0001).\n",
        ])
        same(
            "the last ++HOLD and the last record count",
            watched.get("/zones/T%233/errsysmods.json").decode(),
            '{"report":"errsysmods","rows":[{"class":null,"date":"2069-12-31","fmid":null,"reason":"AJ00003","received":null,"resolver":null,"status":null,'
            '"sysmod":"UJ00001"}],"sysmods":[{"fmids":["HXX0001"],"sysmod":"UJ00001"}],"zone":"T#3"}',
        )
        watched.see_zone("T#3")
        watched.see_lists()
        watched.desk.end()

    def test_worked_empty(self):
        """What a desk tells of which nothing is known yet."""
        watched = Watched()
        watched.see_lists()
        same("no zones", watched.get("/zones.json"), b'{"zones":[]}')
        same("nothing is published", watched.get("/published.json", PUBLISHER), b'{"holds":0,"sysmods":0}')
        watched.put(ALPHA, "A", [], [])
        same("no exceptions", watched.get("/zones/A/errsysmods.json"), b'{"report":"errsysmods","rows":[],"sysmods":[],"zone":"A"}')
        same("no fixes", watched.get("/zones/A/missingfix.json"), b'{"holds":[],"report":"missingfix","rows":[],"sysmods":[],"zone":"A"}')
        same("an empty zone", watched.get("/zones.json"), b'{"zones":[{"sysmods":0,"zone":"A"}]}')
        refusals(watched.desk)
        watched.desk.end()

    def test_sample(self):
        site = os.path.join(TOP, "examples", "site")

        def lines(*parts):
            with open(os.path.join(site, *parts)) as file:
                return file.read().splitlines()

        watched = Watched()
        watched.publish(["\n".join(lines("publication.txt")) + "\n"])
        for token, client, zone in ((ALPHA, "north", "MVSPROD"), (BETA, "south", "MVSTEST")):
            rows, categories = (lines(client, part, zone + ".csv")[1:] for part in ("zones", "categories"))
            watched.put(token, zone, rows, categories, lines(client, "received.csv")[1:])
            for told in watched.see_zone(zone, token):
                check("the sample has rows", told["rows"], told)
        watched.see_lists()
        watched.desk.end()

    def test_drawn(self):
        draw = Draw(SYSMODS, SEED)
        watched = Watched()
        watched.publish(draw.first())
        watched.put(ALPHA, "TGT1", draw.rows(), PATTERNS, draw.dice.sample(draw.names, SYSMODS // 4))
        watched.put(BETA, "TGT1", ["HDZ33E0,ACCEPTED", "HBB77E0,SUPERSEDED", "UX00001,APPLIED", *("%s,APPLIED" % name for name in draw.names[::7])], ["*"])
        see_kinds(*watched.see_zone("TGT1"))
        watched.see_zone("TGT1", BETA)
        watched.see_lists()
        for _ in range(2):
            watched.publish(draw.later())
            see_kinds(*watched.see_zone("TGT1"))
            watched.see_zone("TGT1", BETA)
            watched.see_lists()
        # another date of one hold would be seen
        printed = watched.get("/zones/TGT1/errsysmods").decode()
        told, row = watched.get("/zones/TGT1/errsysmods.json"), rows_of(printed, ERR_COLUMNS)[-1]
        watched.published.hold(row, ERROR)[b"DATE"] = b"84001" if watched.published.hold(row, ERROR).get(b"DATE") != b"84001" else b"84002"
        check("another date is seen", told != compact(watched.published.err_json("TGT1", printed)))
        watched.desk.end()


if __name__ == "__main__":
    main("json")
