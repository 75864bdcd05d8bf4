"""The plain desk as states that never change, so that several of them can be thought of at once.

A state is a tuple: what is published, and then what the desk has of each caller. Each part is an object of its own that is never
changed, so two states that came about alike are equal.
"""
import copy
from collections import namedtuple

from plain_desk import PlainDesk

PUBLISHER = "PUBLISH"
BOOK = "CALLER   ZONES  ROWS        LAST\n"


class Published:
    """What is published."""

    def __init__(self, catalogue, book):
        self.catalogue, self.book = catalogue, book

    def value(self):
        """What two of them have alike where they are the same."""
        records = frozenset((name, *(frozenset(each) for _, each in sorted(record.items()))) for name, record in self.catalogue.items())
        return records, frozenset((key, repr(sorted(hold.items()))) for key, hold in self.book.items())


class Own:
    """What a desk has of one caller. `last` is the number of its last change, and the reply to it."""

    def __init__(self, zones, received, last):
        self.zones, self.received, self.last = zones, received, last

    def value(self):
        zones = frozenset((name, frozenset(zone.rows.items()), frozenset(zone.patterns)) for name, zone in self.zones.items())
        return zones, frozenset(self.received), self.last


# What a desk answers in a state, the state after that, and whether the connection ends with it.
Answer = namedtuple("Answer", "reply after closes")


class Model:
    """What a desk with these callers answers."""

    def __init__(self, tokens):
        self.names, self.desk, self.known, self.parts = sorted(tokens), PlainDesk(tokens), {}, {}

    def begin(self):
        """The state of a new store."""
        return (self.one(Published({}, {})), *(self.one(Own({}, set(), (0, ""))) for _ in self.names))

    def one(self, part):
        """The one object that stands for all of this value."""
        return self.parts.setdefault(part.value(), part)

    def own(self, state, name):
        return state[1 + self.names.index(name)]

    def last(self, state, name):
        return self.own(state, name).last[0]

    def answer(self, state, sent, owner):
        """What is answered to these bytes. OWNER is whose token they have, or None."""
        own = self.own(state, owner) if owner else None
        key = sent, state[0], own
        if key not in self.known:
            self.known[key] = self.answered(state[0], own, sent, owner)
        reply, published, after, closes = self.known[key]
        return Answer(reply, self.put(state, published, after, owner), closes)

    def put(self, state, published, own, owner):
        if published is state[0] and (own is None or own is self.own(state, owner)):
            return state
        return (published, *(own if name == owner else each for name, each in zip(self.names, state[1:])))

    def answered(self, published, own, sent, owner):
        """The reply, what is published and what is the caller's after it, and whether the connection ends."""
        desk = self.desk
        desk.catalogue, desk.book = (dict(published.catalogue), dict(published.book)) if owner == PUBLISHER else (published.catalogue, published.book)
        if owner:
            desk.last[owner], desk.received[owner] = own.last, own.received
            desk.zones[owner] = {name: copy.copy(zone) for name, zone in own.zones.items()}
        replies = desk.connection(sent)
        closes = not replies or b"\r\nconnection: close\r\n" in replies[-1].split(b"\r\n\r\n", 1)[0] + b"\r\n"
        if owner and desk.last[owner] is not own.last:
            own = self.one(Own(desk.zones[owner], desk.received[owner], desk.last[owner]))
            published = self.one(Published(desk.catalogue, desk.book)) if owner == PUBLISHER else published
        return b"".join(replies), published, own, closes

    def checked(self, state):
        """What `check` prints of a store in this state."""
        published, rows = state[0], []
        for name in self.names:
            own = self.own(state, name)
            rows.append("%-9s%-7d%-12d%d\n" % (name, len(own.zones), sum(len(zone.rows) for zone in own.zones.values()), own.last[0]))
        first = "STORE VERSION 2 CALLERS %d SYSMODS %d HOLDS %d\n" % (len(self.names), len(published.catalogue), len(published.book))
        return first + BOOK + "".join(rows) + "ROWS %d\n" % len(rows)


def with_callers(old, new, state):
    """The state of NEW's callers, where OLD's had this one. Who stays keeps all."""
    kept = dict(zip(old.names, state[1:]))
    return tuple(map(new.one, (state[0], *(kept.get(name) or Own({}, set(), (0, "")) for name in new.names))))
