"""A second desk, in plain Python: what a caller is told, worked out anew for each question from all that was accepted.

It was written from the rules alone, beside the program. It has no cache, no frames and no store; a plan is found by leaving out
what is in none. The fuzzer compares the program with it.
"""
import datetime
import json
from urllib.parse import unquote_to_bytes

from limits import LIMITS
from plain import Fault, changes, is_id, patterns, received_ids, refusal, zone_rows

ROUTES = [
    (("publish",), {b"POST": "publish"}),
    (("published",), {b"GET": "counts"}),
    (("published.json",), {b"GET": "counts_json"}),
    (("zones",), {b"GET": "list_zones"}),
    (("zones.json",), {b"GET": "list_zones_json"}),
    (("zones", None), {b"DELETE": "drop_zone", b"PUT": "put_zone"}),
    (("zones", None, "categories"), {b"PUT": "put_patterns"}),
    (("received",), {b"PUT": "put_received"}),
    (("zones", None, "errsysmods"), {b"GET": "err_report"}),
    (("zones", None, "errsysmods.json"), {b"GET": "err_report_json"}),
    (("zones", None, "missingfix"), {b"GET": "missing_report"}),
    (("zones", None, "missingfix.json"), {b"GET": "missing_report_json"}),
    (("zones", None, "errsysmods", "plan"), {b"GET": "err_plan"}),
    (("zones", None, "errsysmods", "plan.json"), {b"GET": "err_plan_json"}),
    (("zones", None, "missingfix", "plan"), {b"GET": "missing_plan"}),
    (("zones", None, "missingfix", "plan.json"), {b"GET": "missing_plan_json"}),
    (("zones", None, "counts.json"), {b"GET": "zone_counts"}),
    (("zones", None, "chains", None), {b"GET": "chain"}),
]
CHANGES = {"publish", "put_zone", "drop_zone", "put_patterns", "put_received"}
OF_ALL = {"counts", "counts_json"}  # who may ask these: the publisher too
OF_NO_ZONE = OF_ALL | {"list_zones", "list_zones_json"}
REASONS = {200: "OK", 400: "Bad Request", 401: "Unauthorized", 403: "Forbidden", 404: "Not Found", 405: "Method Not Allowed",
           409: "Conflict", 411: "Length Required", 413: "Payload Too Large", 422: "Unprocessable Entity",
           431: "Request Header Fields Too Large"}
ERROR, SYSTEM, USER, FIXCAT = range(4)
OF_RESOLVER = [("RESOLVER", 9, "resolver"), ("STATUS", 7, "status"), ("RECEIVED", 9, "received")]


class Refused(Exception):
    """A status with its body, and more lines of the head."""


class Zone:
    def __init__(self, rows):
        self.rows, self.patterns = rows, set()

    def installed(self, name):
        return self.rows.get(name) in (b"APPLIED", b"ACCEPTED")


class PlainDesk:
    def __init__(self, tokens):
        self.names = {token.encode(): name for name, token in tokens.items()}
        self.last = {name: (0, "") for name in tokens}
        self.zones, self.received = {name: {} for name in tokens}, {name: set() for name in tokens}
        self.catalogue, self.book = {}, {}

    # ---- bytes

    def connection(self, sent):
        """The reply to each request of a connection that stands whole, up to one that ends it."""
        written = []
        while (first := refusal(sent)) is not None:
            if len(first) == 2:
                return written + [reply(*first, close=True)]
            (method, target, is_old, headers), body, sent = first
            closes = is_old or any(
                b"close" in [each.strip(b" \t").lower() for each in value.split(b",")] for name, value in headers if name == b"connection")
            try:
                status, text, kind, more = 200, *self.answered(method, target, headers, body), ""
            except Refused as refused:
                (status, text, *more), kind = refused.args, "text/plain"
                more = "".join(more)
            written.append(reply(status, text, more, closes, kind, method == b"HEAD"))
            if closes:
                break
        return written

    def answered(self, method, target, headers, body):
        tokens = [value for name, value in headers if name == b"bureau-token"]
        if len(tokens) != 1 or tokens[0] not in self.names:
            raise Refused(401, "UNKNOWN TOKEN\n", "www-authenticate: Bureau\r\n")
        caller = self.names[tokens[0]]
        parts = target.split(b"?")[0][1:].split(b"/")
        methods, captured = route(parts)
        if method not in methods:
            raise Refused(405, "METHOD NOT ALLOWED\n", "allow: %s\r\n" % ", ".join(sorted(each.decode() for each in methods)))
        if not all(is_id(each) for each in captured):
            raise Refused(404, "NOT FOUND\n")
        call = methods[method]
        if (call == "publish") != (caller == "PUBLISH") and call not in OF_ALL:
            raise Refused(403, "NOT ALLOWED\n")
        if call in CHANGES:
            return self.change(caller, call, captured, headers, body), "text/plain"
        if call not in OF_NO_ZONE and captured[0] not in self.zones[caller]:
            raise Refused(404, "NOT FOUND\n")
        is_json = call in ("chain", "zone_counts") or call.endswith("_json")
        return getattr(self, call)(caller, *captured), "application/json" if is_json else "text/plain"

    # ---- changes

    def change(self, caller, call, captured, headers, body):
        numbers = [value for name, value in headers if name == b"bureau-number"]
        reads = len(numbers) == 1 and numbers[0].isdigit() and len(numbers[0]) <= 19 and 0 < int(numbers[0]) <= LIMITS.change_number
        if not reads:
            raise Refused(400, "BAD NUMBER\n")
        number, (last, kept) = int(numbers[0]), self.last[caller]
        if number == last:
            return kept
        if number < last:
            raise Refused(409, "STALE\n")
        if number > last + 1:
            raise Refused(409, "GAP LAST %d\n" % last)
        if call in ("drop_zone", "put_patterns") and captured[0] not in self.zones[caller]:
            raise Refused(404, "NOT FOUND\n")
        try:
            text = getattr(self, call)(caller, body, *captured)
        except Fault as fault:
            raise Refused(422, fault.line + "\n")
        self.last[caller] = number, text
        return text

    def publish(self, _, body):
        found, counts = changes(body), [0, 0, 0]
        for key, said in found:
            if isinstance(key, bytes):
                self.catalogue[key] = said
                counts[0] += 1
            else:
                self.book.pop(key, None)
                if said:
                    self.book[key] = said
                counts[1 if said else 2] += 1
        return "ACCEPTED SYSMODS %d HOLDS %d RELEASES %d\n" % tuple(counts)

    def put_zone(self, caller, body, name):
        rows = zone_rows(body)
        if name not in self.zones[caller] and len(self.zones[caller]) == LIMITS.zones:
            raise Fault(61)
        zone = Zone(rows)
        if name in self.zones[caller]:
            zone.patterns = self.zones[caller][name].patterns
        self.zones[caller][name] = zone
        return "ZONE %s ROWS %d\n" % (name.decode(), len(rows))

    def drop_zone(self, caller, _, name):
        del self.zones[caller][name]
        return "ZONE %s DROPPED\n" % name.decode()

    def put_patterns(self, caller, body, name):
        self.zones[caller][name].patterns = found = patterns(body)
        return "ZONE %s PATTERNS %d\n" % (name.decode(), len(found))

    def put_received(self, caller, body):
        self.received[caller] = found = received_ids(body)
        return "RECEIVED ROWS %d\n" % len(found)

    # ---- questions

    def counts(self, _):
        return "PUBLISHED SYSMODS %d HOLDS %d\n" % (len(self.catalogue), len(self.book))

    def counts_json(self, _):
        return compact({"holds": len(self.book), "sysmods": len(self.catalogue)})

    def list_zones(self, caller):
        rows = ["%-9s%d\n" % row for row in self.sizes(caller)]
        return "%-9sSYSMODS\n" % "ZONE" + "".join(rows) + "ROWS %d\n" % len(rows)

    def list_zones_json(self, caller):
        return compact({"zones": [{"sysmods": count, "zone": zone} for zone, count in self.sizes(caller)]})

    def sizes(self, caller):
        """The zones in order, each with how many SYSMODs it has."""
        zones = self.zones[caller]
        return [(name.decode(), len(zones[name].rows)) for name in sorted(zones, key=ordered)]

    # ---- reports

    def err_report(self, caller, name):
        columns = [("FMID", 9, "fmid"), ("SYSMOD", 9, "sysmod"), ("REASON", 9, "reason"), *OF_RESOLVER, ("CLASS", 0, "class")]
        return report("EXCEPTION SYSMOD REPORT FOR ZONE ", name, columns, self.err_rows(caller, name))

    def err_report_json(self, caller, name):
        rows = self.err_rows(caller, name)
        return compact({"report": "errsysmods", "rows": rows, "sysmods": self.held_sysmods(rows), "zone": name.decode()})

    def missing_report(self, caller, name):
        columns = [("CATEGORY", 66, "category"), ("FMID", 9, "sysmod"), ("REASON", 9, "reason"), *OF_RESOLVER]
        return report("MISSING FIX REPORT FOR ZONE ", name, columns, self.missing_rows(caller, name))

    def missing_report_json(self, caller, name):
        rows, holds = self.missing_rows(caller, name), []
        for sysmod, reason in sorted({(row["sysmod"], row["reason"]) for row in rows}):
            hold = self.book[sysmod.encode(), FIXCAT, reason.encode()]
            categories = [each.decode() for each in hold[b"CATEGORY"]]
            holds.append({"categories": categories, "fmid": text(hold.get(b"FMID")), "reason": reason, "sysmod": sysmod})
        told = {"holds": holds, "report": "missingfix", "rows": rows, "sysmods": self.held_sysmods(rows), "zone": name.decode()}
        return compact(told)

    def err_rows(self, caller, name):
        """The rows of a report in its order, as JSON has them. The columns of the text are among it."""
        rows = []
        for key, hold, resolvers in self.err_holds(self.zones[caller][name]):
            rows += self.rows_of(caller, key, hold, resolvers, fmid=text(hold.get(b"FMID")))
        return sorted(rows, key=lambda row: (row["fmid"] or "", row["sysmod"], row["reason"]))

    def missing_rows(self, caller, name):
        rows = []
        for key, hold, categories, resolvers in self.missing_holds(self.zones[caller][name]):
            for category in categories:
                rows += self.rows_of(caller, key, hold, resolvers, category=category.decode())
        return sorted(rows, key=lambda row: (row["category"], row["sysmod"], row["reason"]))

    def rows_of(self, caller, key, hold, resolvers, **more):
        """A row of a hold for each of its resolvers, or one for none."""
        said = {"class": text(hold.get(b"CLASS")), "date": day(hold.get(b"DATE")), "reason": text(key[1]), "sysmod": text(key[0]), **more}
        shown = [{"received": y in self.received[caller], "resolver": text(y), "status": text(resolvers[y])} for y in sorted(resolvers, key=ordered)]
        return [{**said, **each} for each in shown or [{"received": None, "resolver": None, "status": None}]]

    def held_sysmods(self, rows):
        """The held SYSMODs of rows, each once, with their functions."""
        held = [(sysmod, self.catalogue.get(sysmod.encode())) for sysmod in sorted({row["sysmod"] for row in rows})]
        return [{"fmids": record and [text(fmid) for fmid in sorted(record[b"FMID"], key=ordered)], "sysmod": sysmod} for sysmod, record in held]

    def err_holds(self, zone):
        """The ERROR holds on what is installed, each with what resolves it and its status."""
        good = self.good(zone)
        for (sysmod, kind, reason), hold in self.book.items():
            if kind == ERROR and zone.installed(sysmod) and not self.there(zone, reason):
                yield (sysmod, reason), hold, {y: status(y in good) for y in self.givers(reason) if self.candidate(zone, y)}

    def missing_holds(self, zone):
        """The FIXCAT holds on what is installed, each with those of its categories that are asked for, and what resolves it."""
        good = self.good(zone)
        for (sysmod, kind, reason), hold in self.book.items():
            named = hold.get(b"RESOLVER")
            if kind != FIXCAT or not zone.installed(sysmod) or self.there(zone, reason) or (named and self.there(zone, named)):
                continue
            givers = self.givers(reason) | (self.givers(named) if named else set())
            resolvers = {y: status(y in good) for y in givers if self.candidate(zone, y)}
            if named:
                resolvers.setdefault(named, b"LACK")
            categories = [each for each in hold[b"CATEGORY"] if any(matches(pattern, each) for pattern in zone.patterns)]
            if categories:
                yield (sysmod, reason), hold, categories, resolvers

    def zone_counts(self, caller, name):
        zone = self.zones[caller][name]
        classes, statuses = {"hiper": 0, "pe": 0, "other": 0}, {"resolved": 0, "held": 0, "unresolved": 0}
        errors, sysmods, fixes = list(self.err_holds(zone)), set(), list(self.missing_holds(zone))
        for (sysmod, _), hold, resolvers in errors:
            sysmods.add(sysmod)
            classes[{b"HIPER": "hiper", b"PE": "pe"}.get(hold.get(b"CLASS"), "other")] += 1
            found = resolvers.values()
            statuses["resolved" if b"GOOD" in found else "held" if b"HELD" in found else "unresolved"] += 1
        rows = {"rows": len(self.err_rows(caller, name)), "sysmods": len(sysmods)}
        missing = {"holds": len(fixes), "rows": len(self.missing_rows(caller, name))}
        return compact({"errsysmods": {"holds": len(errors), **classes, **statuses, **rows}, "missingfix": missing, "zone": name.decode()})

    def chain(self, caller, name, sysmod):
        zone = self.zones[caller][name]
        good = self.good(zone)
        told = {"sysmod": sysmod.decode(), "zone": name.decode()}
        if not self.candidate(zone, sysmod):
            told["status"] = "LACK"
        elif sysmod in good:
            told["status"], told["plan"] = "GOOD", [self.member(y) for y in self.plan(zone, good, sysmod)]
        else:
            told["status"], told["blocked"] = "HELD", self.blocking(zone, good, sysmod).decode()
        return compact(told)

    # ---- plans of a zone

    def err_plan(self, caller, name):
        zone = self.zones[caller][name]
        return plan_text("EXCEPTION SYSMOD PLAN FOR ZONE ", self.zone_plan(caller, name, zone, "errsysmods", self.err_holds(zone)))

    def err_plan_json(self, caller, name):
        zone = self.zones[caller][name]
        return compact(self.zone_plan(caller, name, zone, "errsysmods", self.err_holds(zone)))

    def missing_plan(self, caller, name):
        zone = self.zones[caller][name]
        return plan_text("MISSING FIX PLAN FOR ZONE ", self.zone_plan(caller, name, zone, "missingfix", self.missing_holds(zone)))

    def missing_plan_json(self, caller, name):
        zone = self.zones[caller][name]
        return compact(self.zone_plan(caller, name, zone, "missingfix", self.missing_holds(zone)))

    def zone_plan(self, caller, name, zone, report, holds):
        """What is to be installed so that each hold with a GOOD resolver is resolved, and what becomes of the others."""
        good, resolved, held, unresolved = self.good(zone), [], [], []
        for (sysmod, reason), *_, resolvers in sorted(holds, key=lambda one: [ordered(each) for each in one[0]]):
            hold = {"reason": reason.decode(), "sysmod": sysmod.decode()}
            if best := self.chosen(caller, b"GOOD", resolvers):
                resolved.append(dict(hold, resolver=best.decode()))
            elif best := self.chosen(caller, b"HELD", resolvers):
                held.append(dict(hold, resolver=best.decode()))
            else:
                unresolved.append(hold)
        steps = self.steps(zone, good, {one["resolver"].encode() for one in resolved})
        return {
            "blocked": self.blocked(zone, good, [one["resolver"].encode() for one in held]), "held": held,
            "members": [self.planned(caller, zone, steps, resolved, at, y) for at, step in enumerate(steps) for y in sorted(step, key=ordered)],
            "report": report, "resolved": resolved, "unresolved": unresolved, "zone": name.decode(),
        }

    def chosen(self, caller, kind, resolvers):
        """Of a kind those that were received, or else all; of these those that no other one gives; of these the greatest."""
        left = {y for y in resolvers if resolvers[y] == kind}
        left = left & self.received[caller] or left
        left = {y for y in left if not self.givers(y) & left - {y}} or left
        return max(left, key=ordered, default=None)

    def steps(self, zone, good, chosen):
        """What the chosen plans have, without what another one outdoes and what nothing needs any more, in steps."""
        united = {y for x in chosen for y in self.plan(zone, good, x)}
        givers = {y: self.givers(y) for y in united}
        left = {y for y in united if not any(y != z and z in givers[y] and (y not in givers[z] or ordered(y) < ordered(z)) for z in united)}
        needs = {y: self.needed(zone, y, left) for y in left}
        members = closed({y for y in left if any(y in self.givers(x) for x in chosen)}, needs)
        steps, rest = [], members
        while rest:
            steps.append({y for y in rest if all(y in closed({z}, needs) for z in closed({y}, needs) & rest)})
            rest = rest - steps[-1]
        return steps

    def needed(self, zone, y, members):
        """The members that give what one needs and isn't there."""
        return {z for need in self.needs(zone, y) if not self.there(zone, need) for z in self.givers(need) & members}

    def planned(self, caller, zone, steps, resolved, at, y):
        members = {z for step in steps for z in step}
        needed_by = [z.decode() for z in sorted(members, key=ordered) if z != y and y in self.needed(zone, z, members)]
        holds = [{"reason": one["reason"], "sysmod": one["sysmod"]} for one in resolved if y in self.givers(one["resolver"].encode())]
        fmids = [each.decode() for each in sorted(self.catalogue[y][b"FMID"], key=ordered)]
        return dict(self.member(y), fmids=fmids, holds=holds, needed_by=needed_by, received=y in self.received[caller], step=at + 1)

    def blocked(self, zone, good, resolvers):
        """What blocks each of these, and each that would give what blocks another, if it applies."""
        rows = {}
        while resolvers:
            y = resolvers.pop()
            if y not in rows and y not in good and self.candidate(zone, y):
                need = self.blocking(zone, good, y)
                givers = sorted(self.givers(need), key=ordered)
                giver = next((z for z in givers if self.candidate(zone, z)), None)
                rows[y] = {"giver": giver and giver.decode(), "need": need.decode(), "published": bool(givers), "sysmod": y.decode()}
                resolvers += [giver] if giver else []
        return [rows[y] for y in sorted(rows, key=ordered)]

    def blocking(self, zone, good, y):
        return min((r for r in self.needs(zone, y) if not self.there(zone, r) and not self.givers(r) & good), key=ordered)

    def member(self, y):
        def reasons(kind):
            return [r.decode() for r in sorted((k[2] for k in self.book if k[:2] == (y, kind)), key=ordered)]

        return {"id": y.decode(), "system": reasons(SYSTEM), "user": reasons(USER)}

    # ---- resolution

    def givers(self, r):
        found, new = set(), {r}
        while new:
            found |= new
            new = {y for y, record in self.catalogue.items() if record[b"SUP"] & new} - found
        return found & set(self.catalogue)

    def there(self, zone, r):
        return r in zone.rows or any(zone.installed(y) for y in self.givers(r))

    def candidate(self, zone, y):
        return y in self.catalogue and any(zone.installed(fmid) for fmid in self.catalogue[y][b"FMID"])

    def needs(self, zone, y):
        """What has to be there for a SYSMOD in a zone. The REQ of an IF counts where its function is installed."""
        record = self.catalogue[y]
        under = {need for fmid, need in record[b"IF"] if zone.installed(fmid)}
        return record[b"PRE"] | record[b"REQ"] | under | {key[2] for key in self.book if key[:2] == (y, ERROR)}

    def good(self, zone):
        """What is in some plan: all candidates, without those that need what neither is there nor is given by one that is left."""
        left = {y for y in self.catalogue if self.candidate(zone, y)}
        wanted = {y: [self.givers(r) for r in self.needs(zone, y) if not self.there(zone, r)] for y in left}
        while True:
            out = {y for y in left if any(not givers & left for givers in wanted[y])}
            if not out:
                return left
            left -= out

    def plan(self, zone, good, x):
        found, new = set(), {x}
        while new:
            found |= new
            needed = {r for y in new for r in self.needs(zone, y) if not self.there(zone, r)}
            new = {r if r in good else min(self.givers(r) & good, key=ordered) for r in needed} - found
        return sorted(found, key=ordered)


def route(parts):
    for names, methods in ROUTES:
        if len(names) == len(parts) and all(part and (name is None or name.encode() == part) for name, part in zip(names, parts)):
            return methods, [unquote_to_bytes(part) for name, part in zip(names, parts) if name is None]
    raise Refused(404, "NOT FOUND\n")


def ordered(name):
    return name.ljust(7)


def closed(found, needs):
    """These, what they need, what that needs, and so on."""
    new = found
    while new:
        new = {z for y in new for z in needs[y]} - found
        found = found | new
    return found


def compact(told):
    return json.dumps(told, separators=(",", ":"), sort_keys=True)


def plan_text(title, plan):
    """The six tables of a plan."""
    members = plan["members"]
    tables = [
        (title + plan["zone"], (9, 9, 9), ("STEP", "SYSMOD", "RECEIVED", "FMID"),
         [(str(one["step"]), one["id"], "YES" if one["received"] else "NO", ",".join(one["fmids"]) or "-") for one in members]),
        ("CAUSES", (9, 9, 9), ("SYSMOD", "FOR", "REASON", "NEEDED BY"),
         [row for one in members for row in
          [(one["id"], hold["sysmod"], hold["reason"], "-") for hold in one["holds"]] + [(one["id"], "-", "-", by) for by in one["needed_by"]]]),
        ("HOLDS TO HEED", (9, 9), ("SYSMOD", "KIND", "REASON"),
         [(one["id"], kind.upper(), reason) for one in members for kind in ("system", "user") for reason in one[kind]]),
        ("HOLDS WITHOUT GOOD OR HELD RESOLVER", (9,), ("SYSMOD", "REASON"), [(one["sysmod"], one["reason"]) for one in plan["unresolved"]]),
        ("HOLDS WITH HELD RESOLVERS", (9, 9), ("SYSMOD", "REASON", "RESOLVER"),
         [(one["sysmod"], one["reason"], one["resolver"]) for one in plan["held"]]),
        ("BLOCKED NEEDS", (9, 9), ("SYSMOD", "NEED", "GIVER"),
         [(one["sysmod"], one["need"], one["giver"] or ("- NOT APPLICABLE -" if one["published"] else "- NOT PUBLISHED -"))
          for one in plan["blocked"]]),
    ]
    return "".join(table(*each) for each in tables)


def table(title, widths, heading, rows):
    lines = ["".join(field.ljust(width) for field, width in zip(row, widths)) + row[-1] + "\n" for row in [heading] + rows]
    return "%s\n%sROWS %d\n" % (title, "".join(lines), len(rows))


def status(is_good):
    return b"GOOD" if is_good else b"HELD"


def matches(pattern, category):
    pattern, category = pattern.upper(), category.upper()
    return category.startswith(pattern[:-1]) if pattern.endswith(b"*") else pattern == category


def report(title, name, columns, rows):
    headings, widths, keys = zip(*columns)
    return table(title + name.decode(), widths[:-1], headings, [[shown(row[key], key) for key in keys] for row in rows])


def shown(field, key):
    """A field of a row in print."""
    if field is None:
        return "- NONE -" if key == "resolver" else "-"
    return {True: "YES", False: "NO"}.get(field, field)


def text(name):
    return None if name is None else name.decode()


def day(date):
    """The date of a hold as YYYY-MM-DD. Its years are 1970 to 2069. None where it has none, or where its year has no such day."""
    if date is None:
        return None
    year = int(date[:2]) + (2000 if int(date[:2]) < 70 else 1900)
    found = datetime.date(year, 1, 1) + datetime.timedelta(int(date[2:]) - 1)
    return found.isoformat() if found.year == year else None


def reply(status, body, more="", close=False, kind="text/plain", is_bare=False):
    return ("HTTP/1.1 %d %s\r\ncontent-type: %s\r\ncontent-length: %d\r\n%s%s\r\n%s" % (
        status, REASONS[status], kind, len(body), more, "connection: close\r\n" if close else "", "" if is_bare else body)).encode()
