"""Random desks for fuzz.py: callers, and connections with what they send.

A desk is drawn from a seed. Its callers send publications with rings of requisites, superseding, holds of all four kinds and
releases; zones, received lists and patterns; questions; repeats, wrong numbers, wrong tokens; and requests that are mangled or
cut. Which numbers come next is followed, so that most changes are accepted.
"""
import random
from collections import namedtuple

# What one caller sends: a whole request, or the `tail` of a connection (something mangled or cut, with what follows it).
# The owner is whose token it has, None where it has nobody's. `change` is the number of a whole change.
Item = namedtuple("Item", "owner sent tail change")
# `tokens` by caller; `connections` are lists of items.
Desk = namedtuple("Desk", "seed tokens connections")

PUBLISHER = "PUBLISH"
FUNCTIONS = ["HBB7790", "HXX0001"]
PTFS = ["UA1", "UA2", "UA3", "UA4", "UA5", "UA6", "U#7", "U@8", "U$9"]
APARS = ["AA1", "AA2", "AA3", "AA4"]
IDS = FUNCTIONS + PTFS + APARS
ZONES = ["TGT1", "TGT2", "T#3", "TGT4"]
STATES = ["APPLIED", "APPLIED", "ACCEPTED", "SUPERSEDED"]
CATEGORIES = ["IBM.Device.Server", "IBM.Device", "IBM.Function.HealthChecker", "Other", "X", r'Say"it\now']
PATTERNS = ["*", "IBM.*", "ibm.device.*", "IBM.Device", "OTHER", "X*", "Nobody.*", 'say"*']
DATES = [12045, 12045, 12045, 25366, 24366, 70001, 69365, 60]  # the fourth is no day of its year
FAR = 9223372036854775807
BAD_STATEMENTS = [
    b"++VER(Z038).\n",
    b"++HOLD(UA1) REASON(AA1).\n",
    b"++HOLD(UA1) ERROR REASON(AA1)\n",
    b"++PTF(UA1) )).\n",
    b"++HOLD(UA1) ERROR SYSTEM REASON(AA1).\n",
    b"++PTF(TOOLONGNAME).\n",
    b"++HOLD(UA1) ERROR REASON(AA1) DATE(12367).\n",
    b"++PTF(UA1).\n++VER(Z038) PRE(NOT.ID).\n",
    b"++IF FMID(HBB7790) REQ(UA1).\n",
    b"++PTF(UA1).\n++IF REQ(not.id).\n",
    b"++PTF(UA1).\n++IF FMID(HBB7790) REQ(not.id).\n",
    b"++PTF(UA1).\n++IF(HBB7790) REQ(UA2).\n",
]
BAD_LISTS = [b"", b"SYSMOD\nbad-id\n", b"NAME\nUA1\n", b"SYSMOD,STATE\nUA1,GONE\n", b"SYSMOD,STATE\nUA1\n", b"CATEGORY\na*b\n", b"\xff\n"]


def list_of_callers(tokens):
    return ("NAME,TOKEN\n" + "".join("%s,%s\n" % row for row in tokens.items())).encode()


class Drawing:
    """What is drawn of one desk, and what its callers' next numbers are."""

    def __init__(self, seed):
        self.seed = seed
        self.dice = dice = random.Random(seed)
        clients = ["ALPHA", "BETA", "GAMMA", "D#4"][: dice.choice([1, 2, 2, 3, 3, 4])]
        letters = "ABCDEFGHIJKLMNOPQRSTUVWXYZabcdefghijklmnopqrstuvwxyz0123456789-._~"
        self.tokens = {
            name: "".join(dice.choices(letters, k=dice.choice([8, 16, 33, 64]))) for name in [PUBLISHER] + clients
        }
        self.clients = clients
        self.last = dict.fromkeys(self.tokens, 0)
        self.zones = {name: set() for name in clients}
        self.unsure = set()  # whose last number may be one more
        self.closing = False  # whether the next request ends its connection

    def desk(self):
        connections = [self.reported()] if self.dice.random() < 0.5 else []
        connections += [[self.next_change(name, self.sure)] for name in self.tokens if self.dice.random() < 0.7]
        connections += [self.connection() for _ in range(self.dice.randint(4, 12))]
        return Desk(self.seed, self.tokens, connections)

    def connection(self):
        dice = self.dice
        several, count = dice.random() < 0.3, dice.choice([1, 1, 2, 4, 8])
        caller, items = self.caller(), []
        for place in range(count):
            self.closing = place + 1 == count and dice.random() < 0.2
            items += self.items(caller)
            if several:
                caller = self.caller()
        self.closing = False
        if dice.random() < 0.3:
            items.append(self.tail(self.caller()))
        return items

    def caller(self):
        return PUBLISHER if self.dice.random() < 0.3 else self.dice.choice(self.clients)

    def items(self, caller):
        """One request of this caller, or a few that belong together."""
        turn = self.dice.random()
        if turn < 0.08:
            return [self.odd(caller)]
        if turn < 0.5:
            return self.changes(caller)
        return [self.question(caller)]

    def reported(self):
        """What reports have rows of: many holds, and for each client a zone with patterns, and what it received."""
        dice, items = self.dice, []
        text = self.statements().decode() + "".join(self.hold() for _ in range(dice.randint(10, 30)))
        items.append(self.next_change(PUBLISHER, lambda _: ("POST", "/publish", text.encode())))
        for client in self.clients:
            zone = dice.choice(ZONES)
            self.zones[client].add(zone)
            path = "/zones/" + escaped(zone)
            rows = ["%s,%s" % (name, dice.choice(STATES)) for name in FUNCTIONS[:1] + dice.sample(PTFS, 4)]
            for path, header, rows in (
                (path, "SYSMOD,STATE", rows),
                (path + "/categories", "CATEGORY", dice.sample(PATTERNS, 3)),
                ("/received", "SYSMOD", dice.sample(PTFS, 4)),
            ):
                items.append(self.next_change(client, lambda _: ("PUT", path, self.records(header, rows))))
        return items

    # ---- questions

    def question(self, caller):
        if caller == PUBLISHER and self.dice.random() < 0.9:
            return self.whole(caller, "GET", self.dice.choice(["/published", "/published.json"]))
        return self.whole(caller, "GET", self.path_of_question(caller))

    def path_of_question(self, caller):
        known = sorted(self.zones.get(caller, ()))
        zone = "/zones/" + escaped(self.dice.choice(known if known and self.dice.random() < 0.9 else ZONES))
        return self.dice.choice(
            ["/published", "/published.json", "/zones", "/zones.json"]
            + [zone + report + form for report in ("/errsysmods", "/missingfix") for form in ("", ".json", "/plan", "/plan.json")]
            + [zone + "/counts.json"]
            + [zone + "/chains/" + escaped(self.dice.choice(IDS)) for _ in range(4)]
        )

    def odd(self, caller):
        """A request that is refused for its head, its path, its token or its role."""
        turn, path = self.dice.random(), self.path_of_question(caller)
        if turn < 0.3:
            return Item(None, self.request("GET", path, self.dice.choice(["nobody-token", "short", "", None])), False, 0)
        if turn < 0.5:
            path = self.dice.choice(["/published", "/published.json", "/zones.json"])
            return self.whole(caller, self.dice.choice(["DELETE", "HEAD", "PATCH", "PUT"]), path, body=b"")
        if turn < 0.7:
            nowhere = ["/", "/zone", "/zones/", "/zones/TGT1.json", "/zones/a/errsysmods.json"]
            return self.whole(caller, "GET", self.dice.choice(nowhere + ["/zones/a/errsysmods", "/zones/%41%42/errsysmods"]))
        if turn < 0.85 and caller != PUBLISHER:
            return self.whole(caller, "POST", "/publish", "1", self.statements())
        return self.whole(caller, "GET", path + "?x=/zones", more=["x-more: " + "y" * self.dice.randrange(300)])

    # ---- changes

    def changes(self, caller):
        if caller in self.unsure:
            # The next number may have been used. Both are accepted, or the first one is a repeat.
            self.unsure.discard(caller)
            self.closing = False
            if caller != PUBLISHER:
                self.zones[caller] = set()
            return [self.next_change(caller, self.sure), self.next_change(caller, self.sure)]
        turn = self.dice.random()
        if turn < 0.8:
            return [self.next_change(caller, self.accepted)]
        if turn < 0.9:
            method, path, body = self.refused(caller)
            return [self.whole(caller, method, path, str(self.last[caller] + 1), body)]
        last = self.last[caller]
        number = self.dice.choice([last, last, last - 1, last + 2, 0, FAR, FAR + 1, "", "x", "1 1", None, "9" * 20])
        if number == last + 1:
            number = last + 2
        zones = set(self.zones.get(caller, ()))
        method, path, body = self.sure(caller)
        if caller != PUBLISHER:
            self.zones[caller] = zones  # it is not accepted, so no zone comes of it
        return [self.whole(caller, method, path, None if number is None else str(number), body)]

    def next_change(self, caller, draw):
        method, path, body = draw(caller)
        self.last[caller] += 1
        number = self.last[caller]
        return self.whole(caller, method, path, str(number), body)._replace(change=number)

    def sure(self, caller):
        """A change that is accepted whatever was there before."""
        if caller == PUBLISHER:
            return "POST", "/publish", self.statements()
        zone = self.dice.choice(ZONES)
        self.zones[caller].add(zone)
        return "PUT", "/zones/" + escaped(zone), self.zone_rows()

    def accepted(self, caller):
        if caller == PUBLISHER:
            return self.sure(caller)
        turn, zones = self.dice.random(), sorted(self.zones[caller])
        if turn < 0.2:
            return "PUT", "/received", self.records("SYSMOD", self.dice.sample(IDS, self.dice.randrange(6)))
        if turn < 0.35 and zones:
            patterns = self.dice.sample(PATTERNS, self.dice.randrange(4))
            return "PUT", "/zones/%s/categories" % escaped(self.dice.choice(zones)), self.records("CATEGORY", patterns)
        if turn < 0.45 and zones:
            zone = self.dice.choice(zones)
            self.zones[caller].discard(zone)
            return "DELETE", "/zones/" + escaped(zone), None
        return self.sure(caller)

    def refused(self, caller):
        """A change that has the next number, and is refused without using it."""
        if caller == PUBLISHER:
            return "POST", "/publish", self.dice.choice(BAD_STATEMENTS) + self.statements()
        return self.dice.choice(
            [
                ("PUT", "/zones/" + escaped(self.dice.choice(ZONES)), self.dice.choice(BAD_LISTS)),
                ("PUT", "/received", self.dice.choice(BAD_LISTS)),
                ("PUT", "/zones/NONE/categories", b"CATEGORY\nX\n"),
                ("DELETE", "/zones/NONE", None),
            ]
        )

    # ---- what is published

    def statements(self):
        dice, text = self.dice, ""
        if dice.random() < 0.4 or self.last[PUBLISHER] == 0:
            text += "".join("++FUNCTION(%s).\n++VER(Z038).\n" % name for name in FUNCTIONS)
        if dice.random() < 0.1:
            text += self.shape()
        for _ in range(dice.choice([0, 1, 1, 2, 3, 8])):
            kind = dice.choice(["PTF", "PTF", "PTF", "APAR", "USERMOD"])
            text += "++%s(%s).\n" % (kind, dice.choice(PTFS + APARS[:2]))
            for _ in range(dice.choice([1, 1, 1, 2])):
                lists = "".join(
                    "\n %s(%s)" % (operand, ",".join(dice.choices(IDS, k=dice.randint(1, 3))))
                    for operand in ("PRE", "REQ", "SUP")
                    if dice.random() < 0.35
                )
                text += "++VER(Z038) FMID(%s)%s.\n" % (dice.choice(FUNCTIONS[:1] * 4 + FUNCTIONS), lists)
                if dice.random() < 0.3:
                    text += self.condition()
        for _ in range(dice.choice([0, 0, 1, 2, 4])):
            text += self.hold()
        if dice.random() < 0.2:
            text = text.replace(".\n", ". /* rest */\n++JCLIN\n//STEP EXEC PGM=IEBCOPY\n", 1)
        if dice.random() < 0.1:
            text = "".join("%-72s%08d\n" % (line, number) for number, line in enumerate(text.splitlines()))
        return text.encode()

    def condition(self):
        """What is required where a function is installed, or, now and then, a PTF in a function's place."""
        dice = self.dice
        fmid, needs = dice.choice(FUNCTIONS * 2 + PTFS[:2]), ",".join(dice.choices(IDS, k=dice.randint(1, 3)))
        return "++IF FMID(%s)%s\n REQ(%s).\n" % (fmid, dice.choice([" THEN", ""]), needs)

    def hold(self):
        dice = self.dice
        if dice.random() < 0.3:
            return "++RELEASE(%s) %s REASON(%s).\n" % (
                dice.choice(IDS), dice.choice(["ERROR", "ERR", "SYSTEM", "USER", "FIXCAT"]), dice.choice(APARS))
        kind = dice.choice(["ERROR", "ERROR", "ERROR", "SYSTEM", "SYS", "USER", "FIXCAT", "FIXCAT"])
        reason = dice.choice(APARS + PTFS[:3]) if kind in ("ERROR", "FIXCAT") else dice.choice(["IPL", "ACTION", "DOC"])
        words = ["FMID(%s)" % FUNCTIONS[0], "CLASS(%s)" % dice.choice(["PE", "HIPER"]), "DATE(%05d)" % dice.choice(DATES),
                 "COMMENT(SEE (2.1). /* TOO)"]
        words = [word for word in words if dice.random() < 0.6]
        if kind == "FIXCAT":
            words += ["CATEGORY(%s)" % ",".join(dice.sample(CATEGORIES, dice.randint(1, 3)))]
            words += ["RESOLVER(%s)" % dice.choice(IDS)] if dice.random() < 0.6 else []
        words += [kind if dice.random() < 0.8 else kind.lower(), "REASON(%s)" % reason]
        dice.shuffle(words)
        return "++HOLD(%s)\n %s.\n" % (dice.choice(IDS), "\n ".join(words))

    def shape(self):
        """A ring, a chain or a row of superseding, longer than what is drawn otherwise."""
        count, turn = self.dice.choice([10, 30, 70]), self.dice.choice(["REQ", "PRE", "SUP"])
        ends = {"REQ": "L0", "PRE": self.dice.choice(["L0", "UA1", "NEVER"]), "SUP": "AA1"}[turn]
        names = ["L%d" % place for place in range(count)] + [ends]
        return "".join(
            "++PTF(%s).\n++VER(Z038) FMID(HBB7790) %s(%s).\n" % (name, turn, following) for name, following in zip(names, names[1:])
        )

    # ---- lists

    def zone_rows(self):
        dice = self.dice
        rows = ["HBB7790,APPLIED"] if dice.random() < 0.8 else []
        rows += ["%s,%s" % (name, dice.choice(STATES)) for name in dice.sample(IDS[1:], dice.choice([0, 1, 2, 4, 9]))]
        if dice.random() < 0.1:
            rows += ["L%d,APPLIED" % place for place in range(dice.choice([5, 70]))]
        dice.shuffle(rows)
        return self.records("SYSMOD,STATE", rows + rows[: dice.choice([0, 0, 1])])

    def records(self, header, rows):
        end = self.dice.choice(["\n", "\n", "\r\n"])
        text = end.join([header] + rows) + self.dice.choice([end, ""])
        if self.dice.random() < 0.1:
            text = "\ufeff" + text.replace(",", " , ")
        return text.encode()

    # ---- bytes

    def whole(self, caller, method, path, number=None, body=None, more=()):
        return Item(caller, self.request(method, path, self.tokens[caller], number, body, more), False, 0)

    def request(self, method, path, token, number=None, body=None, more=()):
        dice = self.dice
        lines = list(more)
        if token is not None:
            lines.append("%s: %s" % (dice.choice(["bureau-token", "Bureau-Token", "BUREAU-TOKEN"]), token))
        if number is not None:
            lines.append("bureau-number:%s%s" % (dice.choice(["", " ", "\t "]), number))
        if body is not None or method in ("PUT", "POST"):
            lines.append("content-length: %d" % len(body or b""))
        if dice.random() < 0.3:
            lines.append("host: localhost")
        version = "HTTP/1.1"
        if self.closing:
            if dice.random() < 0.5:
                version = "HTTP/1.0"
            else:
                lines.append("connection: keep-alive, Close")
        dice.shuffle(lines)
        end = "\n" if dice.random() < 0.05 else "\r\n"
        head = end.join(["%s %s %s" % (method, path, version)] + lines) + end * 2
        return (end * dice.choice([0, 0, 0, 1, 3]) + head).encode() + (body or b"")

    def tail(self, caller):
        """Something that ends a connection: a request that is cut or mangled, or no request at all."""
        dice, turn = self.dice, self.dice.random()
        if turn < 0.15:
            lines = dice.choice([["transfer-encoding: chunked"], ["content-length: 67108865"], ["content-length: +5"], ["x: y"] * 65])
            return self.whole(caller, "GET", "/published", None, None, lines)._replace(tail=True)
        if turn < 0.25:
            return Item(caller, bytes(dice.choices(range(256), k=dice.randrange(200))), True, 0)
        if dice.random() < 0.7:
            method, path, body = self.sure(caller)
            sent = self.request(method, path, self.tokens[caller], str(self.last[caller] + 1), body)
            self.unsure.add(caller)
        else:
            sent = self.question(caller).sent
        if dice.random() < 0.5:
            return Item(caller, sent[: dice.randrange(len(sent))], True, 0)
        sent = mangled(dice, sent)
        for _ in range(dice.randrange(3)):
            sent += self.question(caller).sent
        return Item(caller, sent, True, 0)


def mangled(dice, sent):
    """These bytes with one to three places replaced, put in or taken out."""
    sent = bytearray(sent)
    for _ in range(dice.choice([1, 1, 2, 3])):
        place, turn = dice.randrange(len(sent)), dice.random()
        byte = dice.choice([0, 10, 13, 32, 40, 41, 43, 44, 46, 48, 58, 255, dice.randrange(256)])
        if turn < 0.6:
            sent[place] = byte
        elif turn < 0.8:
            sent.insert(place, byte)
        else:
            del sent[place : place + dice.choice([1, 1, 7])]
        if not sent:
            break
    return bytes(sent)


def escaped(name):
    return name.replace("#", "%23")


def drawn(seed):
    return Drawing(seed).desk()
