"""What a desk would answer about drawn zones: reports of any size, their plans, and chains."""
import json
import random
import urllib.parse

CLASSES = ["HIPER", "PE", "PE", "", "", "SECINT"]
CATEGORIES = ["IBM.Function.HealthChecker", "IBM.Device.Server.z16-3931.RequiredService", "IBM.TargetSystem-RequiredService.z/OS.V3R1"]
ERRORS = "FMID     SYSMOD   REASON   RESOLVER STATUS RECEIVED CLASS\n"
FIXES = "%-65s FMID     REASON   RESOLVER STATUS RECEIVED\n" % "CATEGORY"


def resolvers(dice, serial):
    """Up to four, each with its status and whether it was received."""
    count = dice.choice((0, 1, 1, 1, 2, 2, 3, 4))
    return [
        ("UJ%05d" % (serial * 4 + n), dice.choice(("GOOD", "GOOD", "GOOD", "HELD")), dice.choice(("YES", "NO")))
        for n in range(count)
    ]


class Zone:
    """A zone whose reports have this many rows, or a few more."""

    def __init__(self, name, rows, fixes, seed):
        dice = random.Random(seed)
        self.name, self.errors, self.fixes = name, [], []
        self.holds, serial = [], 0
        while len(self.errors) < rows:
            serial += 1
            hold = "UA%05d" % serial, "AJ%05d" % serial, dice.choice(CLASSES)
            found = resolvers(dice, serial)
            self.holds.append((hold, found))
            for one in found or [("- NONE -", "-", "-")]:
                self.errors.append("HBB77E0  %-8s %-8s %-8s %-6s %-8s %s" % (*hold[:2], *one, hold[2] or "-"))
        while len(self.fixes) < fixes:
            serial += 1
            for one in resolvers(dice, serial) or [("- NONE -", "-", "-")]:
                self.fixes.append("%-65s HBB77E0  AK%05d  %-8s %-6s %s" % (dice.choice(CATEGORIES), serial, *one))
        self.fixes.sort()

    def report(self, name):
        if name == "errsysmods":
            first, heading, rows = "EXCEPTION SYSMOD REPORT FOR ZONE ", ERRORS, self.errors
        else:
            first, heading, rows = "MISSING FIX REPORT FOR ZONE ", FIXES, self.fixes
        return "%s%s\n%s%sROWS %d\n" % (first, self.name, heading, "".join(row + "\n" for row in rows), len(rows))

    def dates(self, report):
        """The dates of the holds, as far as the page asks for them as JSON."""
        held = [hold[:2] for hold, _ in self.holds] if report == "errsysmods" else [("HBB77E0", row[75:84].strip()) for row in self.fixes]
        rows = [{"date": "2025-06-%02d" % (at % 28 + 1), "reason": reason, "sysmod": sysmod} for at, (sysmod, reason) in enumerate(held)]
        return {"report": report, "rows": rows, "zone": self.name}

    def counts(self):
        """The counts of both reports, as a desk makes them of a zone."""
        status = [min((one[1] for one in found), default="none") for _, found in self.holds]
        classes = [hold[2] for hold, _ in self.holds]
        by_class = {"hiper": classes.count("HIPER"), "pe": classes.count("PE")}
        errors = {
            "held": status.count("HELD"), **by_class, "holds": len(classes), "other": len(classes) - sum(by_class.values()),
            "resolved": status.count("GOOD"), "rows": len(self.errors), "sysmods": len({hold[0] for hold, _ in self.holds}),
            "unresolved": status.count("none"),
        }
        fixes = {row[75:84] for row in self.fixes}
        return {"errsysmods": errors, "missingfix": {"holds": len(fixes), "rows": len(self.fixes)}, "zone": self.name}

    def plan(self, report):
        """Each hold's first GOOD resolver, and one more that the first one needs."""
        members, held, resolved, unresolved, blocked = [], [], [], [], {}
        for (sysmod, reason, _), found in self.holds:
            good = [one for one in found if one[1] == "GOOD"]
            hold = {"reason": reason, "sysmod": sysmod}
            if not found:
                unresolved.append(hold)
            elif not good:
                held.append({**hold, "resolver": found[0][0]})
                blocked[found[0][0]] = {"giver": "UJ99998", "need": "AJ99998", "published": True, "sysmod": found[0][0]}
                blocked["UJ99998"] = {"giver": None, "need": "AJ99999", "published": False, "sysmod": "UJ99998"}
            else:
                step = len(members) + 2
                members.append(member(step, good[0][0], [hold], [], good[0][2] == "YES", ["IPL"] if step % 9 == 2 else []))
                resolved.append({**hold, "resolver": good[0][0]})
        if members:
            members.insert(0, member(1, "UJ90000", [], [members[0]["id"]], False, ["ACTION"]))
        return {
            "blocked": [blocked[name] for name in sorted(blocked)], "held": held, "members": members, "report": report,
            "resolved": resolved, "unresolved": unresolved, "zone": self.name,
        }


def member(step, name, holds, needed_by, is_received, system):
    return {
        "fmids": ["HBB77E0"], "holds": holds, "id": name, "needed_by": needed_by, "received": is_received,
        "step": step, "system": system, "user": ["OURS"] if name.endswith("7") else [],
    }


class DrawnDesk:
    """Replies to the first line of a request, as a StandIn takes them."""

    def __init__(self, zones, with_plans=True):
        self.zones, self.with_plans = {zone.name: zone for zone in zones}, with_plans
        self.made = {}

    def __call__(self, first):
        """What was made once is not made again, so that the desk takes no time of the page's."""
        if first not in self.made:
            self.made[first] = self.answer(first)
        return self.made[first]

    def answer(self, first):
        parts = [urllib.parse.unquote(part) for part in first.split()[1].split("?")[0].split("/")[1:]]
        if parts == ["published"]:
            return b"PUBLISHED SYSMODS 20000 HOLDS 40000\n"
        if parts == ["zones"]:
            rows = "".join("%-8s %d\n" % (name, len(zone.errors) + 1) for name, zone in self.zones.items())
            return ("ZONE     SYSMODS\n%sROWS %d\n" % (rows, len(self.zones))).encode()
        zone = self.zones.get(parts[1]) if parts[0] == "zones" and len(parts) > 2 else None
        if zone and parts[2:] in (["errsysmods"], ["missingfix"]):
            return zone.report(parts[2]).encode()
        if zone and parts[2:] in (["errsysmods.json"], ["missingfix.json"]):
            return json.dumps(zone.dates(parts[2].removesuffix(".json")), separators=(",", ":")).encode()
        if zone and parts[2:] == ["counts.json"]:
            return json.dumps(zone.counts(), separators=(",", ":")).encode()
        if zone and len(parts) == 4 and parts[3] == "plan.json" and self.with_plans:
            return json.dumps(zone.plan(parts[2]), separators=(",", ":")).encode()
        if zone and len(parts) == 4 and parts[2] == "chains":
            return json.dumps(self.chain(zone, parts[3]), separators=(",", ":")).encode()
        return 404, b"NOT FOUND\n"

    def chain(self, zone, sysmod):
        words = {"sysmod": sysmod, "zone": zone.name}
        status = next((one[1] for _, found in zone.holds for one in found if one[0] == sysmod), None)
        if status == "GOOD":
            plan = [{"id": sysmod, "system": ["IPL"], "user": []}, {"id": "UJ90000", "system": [], "user": ["OURS"]}]
            return {"plan": sorted(plan, key=lambda one: one["id"]), "status": "GOOD", **words}
        if status == "HELD":
            return {"blocked": "AJ99998", "status": "HELD", **words}
        if sysmod in ("AJ99998", "UJ99998"):
            return {"blocked": "AJ99999", "status": "HELD", **words}
        return {"status": "LACK", **words}
