"""What is drawn from a seed: the callers of a desk, runs of the desk, and turns. In a turn several connections send at once, and
something may befall the desk meanwhile.

Each turn has dice of its own, so that what the system made of an earlier one shifts no later one.
"""
import random
from collections import namedtuple

from fuzz_desks import FAR, PUBLISHER, Drawing

from .lanes import Request

LANES = [1, 1, 1, 2, 2, 3, 4, 6]
ENDINGS = ["keep"] * 6 + ["close", "half", "half"]
CUTS = ["cut", "reset", "cut inside", "reset inside", "half inside"]
LONG = 25  # seconds, which is more than a desk waits for a head
NAMES = ["ALPHA", "BETA", "GAMMA", "D#4", "EPS"]

# What is sent over one connection in a turn: `kept` is which of the open connections it is, or None for a new one.
Load = namedtuple("Load", "kept requests plan ending")
# What befalls the desk: its kind, after how many pieces it comes, and how much of it.
Event = namedtuple("Event", "kind after much")
# A run of the desk.
Run = namedtuple("Run", "options reading descriptors")

MUCH = b"\n" * 50000  # lines that say nothing, behind a publication or a list
EVENTS = {"none": 60, "pause": 8, "kill": 9, "term": 3, "full": 6, "memory": 6, "device": 2}


def dice_of(seed, *more):
    return random.Random(":".join(map(str, [seed, *more])))


class TurnDrawing(Drawing):
    """Draws the requests of a turn, as the fuzzer does, in a state of the desk."""

    def __init__(self, dice, tokens, last, zones):
        self.dice, self.tokens, self.seed = dice, tokens, 0
        self.clients = [name for name in tokens if name != PUBLISHER]
        self.last, self.zones = dict(last), {name: set(each) for name, each in zones.items()}
        self.unsure, self.closing, self.is_large = set(), False, False

    def shape(self):
        return ""  # long chains are slow to answer in plain Python

    def sure(self, caller):
        """A change that is accepted. Where memory is scarce it may be a large one."""
        method, path, body = super().sure(caller)
        return method, path, body + MUCH if self.is_large and self.dice.random() < 0.5 else body

    def requests_of(self, caller, count):
        """Requests of one caller, one after the other."""
        items = []
        while len(items) < count:
            items += self.items(caller)
        return [Request(item.owner, item.sent) for item in items[:count]]

    def audit(self, share):
        """Of all that each caller can ask so large a share."""
        for name in self.tokens:
            paths = ["/published", "/published.json"]
            paths += ["/zones", "/zones.json"] if name != PUBLISHER else []
            for zone in sorted(self.zones.get(name, ())):
                path = "/zones/" + zone.replace("#", "%23")
                paths += [path + "/" + each for each in ("errsysmods", "missingfix.json", "errsysmods/plan", "missingfix/plan.json", "counts.json")]
            for path in paths:
                if self.dice.random() < share:
                    yield Request(name, self.request("GET", path, self.tokens[name]))
        yield from self.last_numbers()

    def last_numbers(self):
        """Asks for the number of each caller's last change, and for the kept reply to it."""
        for name in self.tokens:
            words = ("POST", "/publish") if name == PUBLISHER else ("DELETE", "/zones/A")
            for number in (FAR, self.last[name]):
                yield Request(name, self.request(*words, self.tokens[name], str(number), b""))


class Turn:
    """What happens in a turn. OPEN_ONES is how many connections are open, AGAIN the changes that had no reply; CAN_FILL says whether the
    disk can be filled, and IS_LONG whether a pause may be longer than a desk's patience."""

    def __init__(self, dice, drawing, open_ones, again, can_fill, is_long):
        self.dice, self.drawing = dice, drawing
        self.event = self.draw_event(can_fill, is_long)
        drawing.is_large = self.event.kind == "memory"
        self.loads = []
        kept = list(range(open_ones))
        dice.shuffle(kept)
        for _ in range(dice.choice(LANES)):
            self.loads.append(self.load(kept.pop() if kept and dice.random() < 0.6 else None, again))
        if len(self.loads) == 1 and self.event.kind == "none" and dice.random() < 0.15:
            self.add_tail()
        self.pace = random.Random(dice.random())

    def draw_event(self, can_fill, is_long):
        kind = self.dice.choices(list(EVENTS), EVENTS.values())[0]
        if kind == "full" and not can_fill:
            kind = "device"
        much = {
            "pause": self.dice.choice([0.001, 0.005, 0.02, 0.05, *[LONG] * is_long]),
            "kill": self.dice.random() ** 3 * 0.02, "term": self.dice.random() ** 3 * 0.02,
            "full": self.dice.choice([0, 4096, 8192, 20000]), "memory": self.dice.choice([0, 0, 4096, 100000]),
            "device": self.dice.choice([0, 2000, 5000, 20000]), "none": 0}[kind]
        return Event(kind, self.dice.choice([0, 0, 1, 2, 4, 8]), much)

    def load(self, kept, again):
        dice = self.dice
        caller = self.drawing.caller()
        requests = [again.pop() for _ in range(1) if again and dice.random() < 0.5]
        requests += self.drawing.requests_of(caller, dice.choice([1, 1, 1, 2, 3, 5]))
        ending = dice.choice(CUTS) if dice.random() < 0.12 else dice.choice(ENDINGS)
        plan = self.pieces(requests, ending)
        return Load(kept, requests[:-1] if ending.endswith("inside") else requests, plan, ending.split()[0])

    def pieces(self, requests, ending):
        """The pieces in which requests are sent, each with the requests that end in it. With `inside` the last one is cut short."""
        dice, found = self.dice, []
        manner = dice.choice(["whole"] * 6 + ["together", "together", "cut", "bytes"])
        for request in requests:
            sent, ended, cuts = request.sent, (request,), []
            if ending.endswith("inside") and request is requests[-1]:
                sent, ended = sent[: dice.randrange(len(sent))], ()
            if manner == "cut":
                cuts = sorted({dice.randrange(len(sent)) for _ in range(dice.choice([1, 3, 8]))} - {0}) if sent else []
            elif manner == "bytes":
                cuts = list(range(1, min(len(sent), 40)))
            parts = [sent[begin:end] for begin, end in zip([0, *cuts], [*cuts, len(sent)])]
            found += [(part, ()) for part in parts[:-1]] + [(parts[-1], ended)]
        return together(found) if manner == "together" else [piece for piece in found if piece[0]]

    def add_tail(self):
        """A connection ends with something mangled: what comes then is one reply, or several."""
        last = self.loads[-1]
        item = self.drawing.tail(self.drawing.caller())
        if item.sent:
            tail = Request(item.owner, item.sent, is_tail=True)
            requests = [request for request in last.requests if b"close" not in request.sent.lower() and b"HTTP/1.0" not in request.sent]
            pieces = [(request.sent, (request,)) for request in (*requests, tail)]
            self.loads[-1] = last._replace(requests=[*requests, tail], plan=pieces, ending="half")


def together(pieces):
    """The same in one piece."""
    return [(b"".join(piece for piece, _ in pieces), tuple(request for _, ended in pieces for request in ended))]


def drawn_run(dice):
    """How the desk is started next."""
    options = ["--cache", str(dice.choice([1, 2, 16, 65536]))] if dice.random() < 0.5 else []
    options += ["--open", str(dice.choice([8, 64, 8192]))] if dice.random() < 0.3 else []
    reading = dice.choice([None, None, "all", "all", "slow", "nobody", "gone"])
    return Run(options, reading, 40 if dice.random() < 0.08 else None)


def drawn_tokens(dice):
    """The callers of a new desk."""
    clients = NAMES[: dice.choice([1, 2, 2, 3, 4])]
    return {name: token_of(dice) for name in [PUBLISHER, *clients]}


def token_of(dice):
    return "".join(dice.choices("ABCDEFGHIJKLMNOPQRSTUVWXYZabcdefghijklmnopqrstuvwxyz0123456789-._~", k=dice.choice([8, 16, 64])))


def other_callers(dice, tokens):
    """The callers after someone came, went, or got another token."""
    tokens, clients = dict(tokens), [name for name in tokens if name != PUBLISHER]
    turn, absent = dice.random(), [name for name in NAMES if name not in tokens]
    if turn < 0.4 and absent:
        tokens[dice.choice(absent)] = token_of(dice)
    elif turn < 0.7 and len(clients) > 1:
        del tokens[dice.choice(clients)]
    else:
        tokens[dice.choice(list(tokens))] = token_of(dice)
    return tokens
