"""The shapes of load.py: what is sent, and the replies that follow from how a shape was made."""
import sys
from json import dumps
from pathlib import Path

sys.path.insert(0, str(Path(__file__).resolve().parent.parent / "tests"))
from limits import LIMITS

PUBLISHER, ALPHA, BETA = "publisher-token", "alpha-token", "beta-token"
TOKENS = {"PUBLISH": PUBLISHER, "ALPHA": ALPHA, "BETA": BETA}
FULL, LISTED, PATTERNS, LARGEST = LIMITS.zone_records, LIMITS.received_records, LIMITS.patterns, LIMITS.body_bytes
BASE = """++FUNCTION(HBB7790).
++VER(Z038).
++PTF(UA10001).
++VER(Z038) FMID(HBB7790).
++PTF(UA10002).
++VER(Z038) FMID(HBB7790) PRE(UA10001) SUP(AA20002).
++HOLD(UA10001) ERROR FMID(HBB7790)
 REASON(AA20002) CLASS(PE) DATE(12045).
"""
FUNCTION = "++FUNCTION(HBB7790).\n++VER(Z038).\n"
PHRASES = {200: "OK", 401: "Unauthorized", 409: "Conflict", 413: "Payload Too Large", 422: "Unprocessable Entity"}
ERR = "%-9s%-9s%-9s%-9s%-7s%-9s%s\n"
MISSING = "%-66s%-9s%-9s%-9s%-7s%s\n"


def list_of_callers(tokens):
    return ("NAME,TOKEN\n" + "".join("%s,%s\n" % row for row in tokens.items())).encode()


class Shape:
    """Connections with their replies."""

    def __init__(self, tokens=None, left_out=()):
        self.tokens, self.left_out = tokens or TOKENS, left_out
        self.connections, self.last = [], {}

    def connect(self):
        self.connections.append([])

    def ask(self, first, token, wanted, number=None, body=None, status=200, close=False, json=False):
        lines = [first + " HTTP/1.1", "bureau-token: " + token]
        if number is not None:
            lines.append("bureau-number: %d" % number)
        if body is not None:
            body = body if isinstance(body, bytes) else body.encode()
            lines.append("content-length: %d" % len(body))
        sent = "\r\n".join(lines + ["", ""]).encode() + (body or b"")
        self.connections[-1].append((sent, reply(status, wanted, close, json)))

    def change(self, first, token, wanted, body=None):
        """A change that is accepted."""
        self.last[token] = number = self.last.get(token, 0) + 1
        self.ask(first, token, wanted + "\n", number, body)

    def publish(self, text, sysmods, holds, releases=0):
        self.change("POST /publish", PUBLISHER, "ACCEPTED SYSMODS %d HOLDS %d RELEASES %d" % (sysmods, holds, releases), text)

    def put_zone(self, token, zone, ids):
        rows = "SYSMOD,STATE\n" + "".join("%s,APPLIED\n" % name for name in ids)
        self.change("PUT /zones/" + zone, token, "ZONE %s ROWS %d" % (zone, len(ids)), rows)

    def put_received(self, token, ids):
        self.change("PUT /received", token, "RECEIVED ROWS %d" % len(ids), "SYSMOD\n" + "".join(name + "\n" for name in ids))

    def put_patterns(self, token, zone, patterns):
        text = "CATEGORY\n" + "".join(each + "\n" for each in patterns)
        self.change("PUT /zones/%s/categories" % zone, token, "ZONE %s PATTERNS %d" % (zone, len(patterns)), text)

    def chain(self, token, zone, name, answer):
        self.ask("GET /zones/%s/chains/%s" % (zone, name), token, '{%s,"sysmod":"%s","zone":"%s"}' % (answer, name, zone), json=True)

    def err_report(self, token, zone, rows, fmids=None, dates=None):
        """A report, and then its JSON. FMIDs are those of the held SYSMODs that are published, dates those of holds by their reasons."""
        heading = ERR % ("FMID", "SYSMOD", "REASON", "RESOLVER", "STATUS", "RECEIVED", "CLASS")
        text = "EXCEPTION SYSMOD REPORT FOR ZONE %s\n%s%sROWS %d\n" % (zone, heading, "".join(ERR % row for row in rows), len(rows))
        self.ask("GET /zones/%s/errsysmods" % zone, token, text)
        names = ("fmid", "sysmod", "reason", "resolver", "status", "received", "class")
        rows = [{**fields(names, row), "date": (dates or {}).get(row[2])} for row in rows]
        self.ask_json(token, zone, {"report": "errsysmods", "rows": rows}, fmids)

    def missing_report(self, token, zone, rows):
        """A report, and then its JSON. Each hold has the categories of its rows and no others, the FMID HBB7790, no class and no date."""
        heading = MISSING % ("CATEGORY", "FMID", "REASON", "RESOLVER", "STATUS", "RECEIVED")
        text = "MISSING FIX REPORT FOR ZONE %s\n%s%sROWS %d\n" % (zone, heading, "".join(MISSING % row for row in rows), len(rows))
        self.ask("GET /zones/%s/missingfix" % zone, token, text)
        names = ("category", "sysmod", "reason", "resolver", "status", "received")
        rows, holds = [{**fields(names, row), "class": None, "date": None} for row in rows], {}
        for row in rows:
            holds.setdefault((row["sysmod"], row["reason"]), set()).add(row["category"])
        holds = [{"categories": sorted(holds[key]), "fmid": "HBB7790", "reason": key[1], "sysmod": key[0]} for key in sorted(holds)]
        self.ask_json(token, zone, {"holds": holds, "report": "missingfix", "rows": rows}, None)

    def ask_json(self, token, zone, told, fmids):
        held_ones = sorted({row["sysmod"] for row in told["rows"]})
        told.update(sysmods=[{"fmids": (fmids or {"HBB7790": []}).get(name), "sysmod": name} for name in held_ones], zone=zone)
        self.ask("GET /zones/%s/%s.json" % (zone, told["report"]), token, dumps(told, separators=(",", ":"), sort_keys=True), json=True)

    def sent(self):
        return [b"".join(sent for sent, _ in connection) for connection in self.connections]

    def wanted(self):
        return b"".join(wanted for connection in self.connections for _, wanted in connection)


def fields(names, row):
    """A row of a text as JSON has it."""
    return {name: {"-": None, "YES": True, "NO": False}.get(field, field) for name, field in zip(names, row)}


def reply(status, body, close=False, json=False):
    head = "HTTP/1.1 %d %s\r\ncontent-type: %s\r\ncontent-length: %d\r\n" % (
        status, PHRASES[status], "application/json" if json else "text/plain", len(body))
    if status == 401:
        head += "www-authenticate: Bureau\r\n"
    return (head + ("connection: close\r\n" if close else "") + "\r\n" + body).encode()


def ptf(name, operands=""):
    return "++PTF(%s).\n++VER(Z038) FMID(HBB7790) %s.\n" % (name, operands)


def good(plan):
    return '"plan":[%s],"status":"GOOD"' % ",".join('{"id":"%s","system":[],"user":[]}' % name for name in plan)


def held(need):
    return '"blocked":"%s","status":"HELD"' % need


def ring(names, operand="REQ"):
    return "".join(ptf(name, "%s(%s)" % (operand, needed)) for name, needed in zip(names, names[1:] + names[:1]))


def row_of_needs(names, last, operand="PRE"):
    return "".join(ptf(name, "%s(%s)" % (operand, needed)) for name, needed in zip(names, names[1:] + [last]))


# ---- the shapes


def worked():
    """Rings of 100, a chain of 100 and a row of 40 that supersede each other, over the base that the worked examples have."""
    shape = Shape()
    shape.connect()
    shape.publish(BASE, 3, 1)
    shape.put_zone(ALPHA, "TGT1", ["HBB7790", "UA10001"])
    rings, needs, row = (["%s%04d" % (letter, place) for place in range(1, count + 1)] for letter, count in (("R", 100), ("N", 100), ("S", 40)))
    text = ring(rings) + row_of_needs(needs, "N9999") + ptf(row[0])
    text += "".join(ptf(name, "SUP(%s)" % before) for before, name in zip(row, row[1:]))
    shape.publish(text + "++HOLD(UA10001) ERROR FMID(HBB7790) REASON(S0001).\n", 240, 1)
    shape.chain(ALPHA, "TGT1", "R0001", good(rings))
    shape.chain(ALPHA, "TGT1", "N0001", held("N0002"))
    rows = [("HBB7790", "UA10001", "AA20002", "UA10002", "GOOD", "NO", "PE")]
    rows += [("HBB7790", "UA10001", "S0001", name, "GOOD", "NO", "-") for name in row]
    shape.err_report(ALPHA, "TGT1", rows, {"UA10001": ["HBB7790"]}, {"AA20002": "2012-02-14"})
    shape.put_zone(ALPHA, "TGT3", ["T%06d" % place for place in range(FULL)])
    shape.put_received(ALPHA, ["T%06d" % place for place in range(LISTED)])
    shape.put_patterns(ALPHA, "TGT3", ["IBM.Category.%02d.*" % place for place in range(PATTERNS)])
    shape.chain(ALPHA, "TGT1", "R0100", good(rings))
    shape.missing_report(ALPHA, "TGT3", [])
    return shape


def full_zone():
    """Both reports and chains of a full zone: each SYSMOD in it has an ERROR and a FIXCAT hold, and each reason two resolvers. The
    resolvers hang together in rings of five, and one ring in seven needs what is nowhere. Then a publication holds another tenth."""
    count = FULL - 1
    installed, reasons, first, second = (["%s%06d" % (letter, place) for place in range(count)] for letter in "UAVW")
    groups = [list(range(begin, min(begin + 5, count))) for begin in range(0, count, 5)]
    text, blocked = FUNCTION, set()
    for number, group in enumerate(groups):
        for place, following in zip(group, group[1:] + group[:1]):
            pre = " PRE(NEVER)" if number % 7 == 0 and place == group[0] else ""
            text += ptf(first[place], "REQ(%s) SUP(%s)%s" % (first[following], reasons[place], pre))
            text += ptf(second[place], "PRE(%s) SUP(%s)" % (first[place], reasons[place]))
        blocked.update(group if number % 7 == 0 else ())
    for place in range(count):
        text += "++HOLD(%s) ERROR FMID(HBB7790) REASON(%s) CLASS(PE).\n" % (installed[place], reasons[place])
        text += "++HOLD(%s) FIXCAT FMID(HBB7790) REASON(%s)\n RESOLVER(%s) CATEGORY(IBM.Category.%02d.Name).\n" % (
            installed[place], reasons[place], first[place], place % PATTERNS)
    received = set(first[: LISTED : 2] + second[: LISTED // 2])
    shape = Shape()
    shape.connect()
    shape.publish(text, 1 + 2 * count, 2 * count)
    shape.put_zone(ALPHA, "FULL", ["HBB7790"] + installed)
    shape.put_received(ALPHA, sorted(received))
    shape.put_patterns(ALPHA, "FULL", ["ibm.category.%02d.*" % place for place in range(PATTERNS)])

    def ask():
        resolvers = [(place, name) for place in range(count) for name in (first[place], second[place])]
        status = ["HELD" if place in blocked else "GOOD" for place in range(count)]

        def is_received(name):
            return "YES" if name in received else "NO"

        shape.err_report(ALPHA, "FULL", [
            ("HBB7790", installed[place], reasons[place], name, status[place], is_received(name), "PE") for place, name in resolvers])
        shape.missing_report(ALPHA, "FULL", [
            ("IBM.Category.%02d.Name" % (place % PATTERNS), installed[place], reasons[place], name, status[place], is_received(name))
            for place, name in sorted(resolvers, key=lambda each: each[0] % PATTERNS)])
        shape.chain(ALPHA, "FULL", second[9], good(first[5:10] + [second[9]]))
        shape.chain(ALPHA, "FULL", first[0], held("NEVER"))

    ask()
    now = [group for number, group in enumerate(groups) if number % 10 == 3]
    blocked.update(place for group in now for place in group)
    shape.publish("".join("++HOLD(%s) ERROR FMID(HBB7790) REASON(NEVER).\n" % first[group[0]] for group in now), 0, len(now))
    ask()
    return shape


def one_component():
    """A report of 10,000 rows whose resolvers all hang together, and plans of 2,000."""
    count = 10000
    names, small, small_row = (["%s%06d" % (letter, place) for place in range(many)] for letter, many in (("Q", count), ("R", 2000), ("P", 2000)))
    text = FUNCTION + "".join(
        ptf(name, "REQ(%s) SUP(A%06d)" % (needed, place)) for place, (name, needed) in enumerate(zip(names, names[1:] + names[:1])))
    text += ring(small) + row_of_needs(small_row, "HBB7790")
    text += "".join("++HOLD(U%06d) ERROR FMID(HBB7790) REASON(A%06d).\n" % (place, place) for place in range(count))
    shape = Shape()
    shape.connect()
    shape.publish(text, 1 + count + 4000, count)
    shape.put_zone(ALPHA, "TGT1", ["HBB7790"] + ["U%06d" % place for place in range(count)])
    shape.err_report(ALPHA, "TGT1", [
        ("HBB7790", "U%06d" % place, "A%06d" % place, name, "GOOD", "NO", "-") for place, name in enumerate(names)])
    shape.chain(ALPHA, "TGT1", small[7], good(small))
    shape.chain(ALPHA, "TGT1", small_row[0], good(small_row))
    shape.chain(ALPHA, "TGT1", names[0], good(names))
    return shape


def conditions(count=10000):
    """Pairs in rings: each of so many requires the next of its ring of five, and of one ring of a tenth, where a second function is
    installed. Another tenth is a row whose last requires what is nowhere."""
    names, large, row = (["%s%06d" % (letter, place) for place in range(many)] for letter, many in (("C", count), ("D", count // 10), ("E", count // 10)))
    rings = [names[begin : begin + 5] for begin in range(0, count, 5)] + [large]
    pairs = [pair for ring in rings for pair in zip(ring, ring[1:] + ring[:1])] + list(zip(row, row[1:] + ["NEVER"]))
    shape = Shape()
    shape.connect()
    shape.publish(FUNCTION + "".join(ptf(name) + "++IF FMID(HXX0001) THEN REQ(%s).\n" % need for name, need in pairs), 1 + len(pairs), 0)
    shape.put_zone(ALPHA, "TGT1", ["HBB7790"])
    shape.put_zone(ALPHA, "TGT2", ["HBB7790", "HXX0001"])
    for _ in range(2):
        shape.chain(ALPHA, "TGT1", names[7], good(names[7:8]))
        shape.chain(ALPHA, "TGT2", names[7], good(names[5:10]))
        shape.chain(ALPHA, "TGT1", large[0], good(large[:1]))
        shape.chain(ALPHA, "TGT2", large[0], good(large))
        shape.chain(ALPHA, "TGT1", row[0], good(row[:1]))
        shape.chain(ALPHA, "TGT2", row[0], held(row[1]))
        shape.publish("++HOLD(%s) ERROR FMID(HBB7790) REASON(HBB7790).\n" % names[0], 0, 1)
    return shape


def superseding(count=1000):
    """A row in which each supersedes the one before, asked for at both ends."""
    names = ["S%06d" % place for place in range(count)]
    shape = Shape()
    shape.connect()
    shape.publish(FUNCTION + ptf(names[0]) + "".join(ptf(name, "SUP(%s)" % before) for before, name in zip(names, names[1:])), 1 + count, 0)
    shape.put_zone(ALPHA, "TGT1", ["HBB7790"])
    shape.chain(ALPHA, "TGT1", names[0], good(names[:1]))
    shape.chain(ALPHA, "TGT1", names[-1], good(names[-1:]))
    shape.publish("++HOLD(HBB7790) ERROR FMID(HBB7790) REASON(%s).\n" % names[0], 0, 1)
    shape.err_report(ALPHA, "TGT1", [("HBB7790", "HBB7790", names[0], name, "GOOD", "NO", "-") for name in names])
    return shape


def reasons_in_a_row(count=19000):
    """Holds whose reasons stand in a row of superseding. The last of it is installed, so each reason is there and no row is shown.
    A report that walked the row anew for each hold would cost the square of its length (`bench/README.md`)."""
    names = ["S%06d" % place for place in range(count)]
    held_ones = ["U%06d" % place for place in range(count)]
    text = FUNCTION + ptf(names[0]) + "".join(ptf(name, "SUP(%s)" % before) for before, name in zip(names, names[1:]))
    for held_one, name in zip(held_ones, names):
        text += "++HOLD(%s) ERROR FMID(HBB7790) REASON(%s).\n" % (held_one, name)
        text += "++HOLD(%s) FIXCAT REASON(%s) CATEGORY(C).\n" % (held_one, name)
    shape = Shape()
    shape.connect()
    shape.publish(text, 1 + count, 2 * count)
    shape.put_zone(ALPHA, "TGT1", ["HBB7790", names[-1]] + held_ones)
    shape.put_patterns(ALPHA, "TGT1", ["C"])
    shape.err_report(ALPHA, "TGT1", [])
    shape.missing_report(ALPHA, "TGT1", [])
    return shape


def full_zones():
    """As many full zones as a client may have, the list of them, and one more."""
    shape = Shape()
    shape.connect()
    ids = ["Z%06d" % place for place in range(FULL)]
    zones = ["TGT%02d" % place for place in range(LIMITS.zones)]
    for zone in zones:
        shape.put_zone(ALPHA, zone, ids)
    text = "%-9sSYSMODS\n" % "ZONE" + "".join("%-9s%d\n" % (zone, FULL) for zone in zones) + "ROWS %d\n" % len(zones)
    shape.ask("GET /zones", ALPHA, text)
    shape.ask("GET /zones.json", ALPHA, '{"zones":[%s]}' % ",".join('{"sysmods":%d,"zone":"%s"}' % (FULL, zone) for zone in zones), json=True)
    shape.ask("PUT /zones/MORE", ALPHA, "FAULT 61\n", len(zones) + 1, "SYSMOD,STATE\n", status=422)
    more = "SYSMOD,STATE\n" + "".join("Z%06d,APPLIED\n" % place for place in range(FULL + 1))
    shape.ask("PUT /zones/TGT00", ALPHA, "FAULT 37\n", len(zones) + 1, more, status=422)
    shape.put_zone(ALPHA, zones[-1], ids[:1])
    shape.ask("GET /zones", ALPHA, text.replace("%s    %d" % (zones[-1], FULL), "%s    1" % zones[-1]))
    return shape


def largest_comment():
    """The largest publication, nearly all of it a comment, one of a byte more, and one after it."""
    shape = Shape()
    shape.connect()
    text = BASE.encode()
    shape.publish(text + b"/*" + b"x" * (LARGEST - len(text) - 4) + b"*/", 3, 1)
    shape.ask("GET /published", ALPHA, "PUBLISHED SYSMODS 3 HOLDS 1\n")
    shape.ask("POST /publish", PUBLISHER, "TOO LARGE\n", 2, b" " * (LARGEST + 1), status=413, close=True)
    shape.connect()
    shape.publish("++RELEASE(UA10001) ERROR REASON(AA20002).\n", 0, 0, 1)
    shape.ask("GET /published", BETA, "PUBLISHED SYSMODS 3 HOLDS 0\n")
    return shape


def largest_publication():
    """A publication of nearly the largest size: SYSMODs with a requisite, and a hold on every tenth."""
    shape = Shape()
    shape.connect()
    parts, size, count, holds, name = [FUNCTION], len(FUNCTION), 0, 0, None
    while size < LARGEST - 200:
        before, name = name, "%s%06d" % ("UV"[count // 1000000], count % 1000000)
        text = ptf(name, "PRE(%s)" % before if count % 50 else "")
        if count % 10 == 0:
            text += "++HOLD(%s) ERROR FMID(HBB7790)\n REASON(A%s) CLASS(PE) DATE(12045).\n" % (name, name[1:])
            holds += 1
        parts.append(text)
        size, count = size + len(text), count + 1
    shape.publish("".join(parts), count + 1, holds)
    shape.ask("GET /published", PUBLISHER, "PUBLISHED SYSMODS %d HOLDS %d\n" % (count + 1, holds))
    shape.ask("GET /published.json", PUBLISHER, '{"holds":%d,"sysmods":%d}' % (holds, count + 1), json=True)
    shape.put_zone(ALPHA, "TGT1", ["HBB7790"])
    shape.chain(ALPHA, "TGT1", "U000049", held("U000048"))
    return shape


def callers():
    """As many callers as there may be, the longest tokens, a zone for each, and connections of as many requests as one may have."""
    names = ["C%05d" % place for place in range(LIMITS.callers - 1)]
    tokens = {"PUBLISH": "p" * LIMITS.token_bytes}
    tokens.update((name, ("%s-" % name) + "t" * (LIMITS.token_bytes - 7 if place % 2 else 1)) for place, name in enumerate(names))
    shape, half = Shape(tokens), LIMITS.requests // 2
    for part in (names[:half], names[half:]):
        shape.connect()
        for place, name in enumerate(part):
            shape.put_zone(tokens[name], "TGT1", ["HBB7790", "U%s" % name])
            shape.ask("GET /zones", tokens[name], "ZONE     SYSMODS\nTGT1     2\nROWS 1\n", close=place == half - 1)
    shape.connect()
    shape.ask("GET /zones", "nobody-token", "UNKNOWN TOKEN\n", status=401)
    return shape


def requests():
    """The requests that one connection may have, and one more, which is not read."""
    shape = Shape()
    shape.connect()
    for place in range(LIMITS.requests):
        shape.ask("GET /published", ALPHA, "PUBLISHED SYSMODS 0 HOLDS 0\n", close=place == LIMITS.requests - 1)
    shape.connections[-1].append((b"GET /zones HTTP/1.1\r\nbureau-token: alpha-token\r\n\r\n", b""))
    return shape


SHAPES = {
    "worked": worked,
    "full-zone": full_zone,
    "one-component": one_component,
    "conditions": conditions,
    "superseding": superseding,
    "reasons": reasons_in_a_row,
    "full-zones": full_zones,
    "comment": largest_comment,
    "publication": largest_publication,
    "callers": callers,
    "requests": requests,
}
