"""In which orders a desk may have answered what came over several connections at once, by what each was told.

A thread is a tuple of requests that came one after the other over one connection. Each that was answered has been answered in some
order of all: one of the threads' own, and one in which a request whose reply was there before another one was sent stands before it.
A request without a reply may have been answered, or may be later, or never.
"""
from collections import namedtuple

SOON = 1000  # so many changes of a caller don't come while a request is on its way
MOST = 300000  # states that are looked at

# What the desk may have: a state, and the threads of which a part may still come.
World = namedtuple("World", "state pending")


class TooMany(Exception):
    """There are too many orders to look at."""


class Orders:
    """The orders of threads from one world on. `may_refuse` says whether a desk may have had no room, and `may_keep` whether it may
    have made a change to which it said so."""

    def __init__(self, model, may_refuse, may_keep):
        self.model, self.may_refuse, self.may_keep = model, may_refuse, may_keep
        self.furthest = (-1, None, None, None)

    def worlds(self, world, threads):
        """Each world that the desk may have come to."""
        threads = tuple(world.pending) + tuple(threads)
        todo, seen, found = [(world.state, (0,) * len(threads))], set(), []
        while todo:
            state, at = self.past_questions(todo.pop(), threads)
            if (state, at) in seen:
                continue
            seen.add((state, at))
            if len(seen) > MOST:
                raise TooMany()
            limit = first_end(threads, at)
            if limit is None:
                found.append(World(state, left_of(threads, at)))
            else:
                self.note(state, at, threads)
            for place, request in next_ones(threads, at, limit):
                for after, closes in self.ways(state, request):
                    if after != state or not self.is_past(request):
                        todo.append((after, moved(at, place, len(threads[place]) if closes else at[place] + 1)))
        return found

    def past_questions(self, node, threads):
        """Goes past what changes nothing and can be answered now. That takes no other order away."""
        state, at = node
        moves = True
        while moves:
            moves = False
            for place, request in next_ones(threads, at, first_end(threads, at)):
                for after, closes in self.ways(state, request) if self.is_past(request) else ():
                    if after == state:
                        at, moves = moved(at, place, len(threads[place]) if closes else at[place] + 1), True
                        break
                if moves:
                    break
        return state, at

    def is_past(self, request):
        """Whether a request that changes nothing now is over: it would change nothing later."""
        return not (self.may_keep and request.is_refused) if request.is_answered else not request.is_change

    def ways(self, state, request):
        """The states in which the desk may be after it answered a request as it was answered, each with whether the connection ends."""
        answer = self.model.answer(state, request.sent, request.owner)
        if request.fits(answer.reply):
            yield answer.after, answer.closes and request.is_answered
        if self.may_refuse and request.is_answered and request.fits(no_room(request, answer.closes)):
            yield state, answer.closes
            if self.may_keep and answer.after != state:
                yield answer.after, answer.closes

    def note(self, state, at, threads):
        """Keeps the state in which most was answered as it was answered."""
        if sum(at) > self.furthest[0]:
            self.furthest = (sum(at), state, at, threads)

    def told(self):
        """What stands next in each thread where no order goes on, with what the desk should have said."""
        _, state, at, threads = self.furthest
        lines = []
        for place, request in next_ones(threads, at, None) if threads else ():
            if request.is_answered:
                wanted = self.model.answer(state, request.sent, request.owner).reply
                lines.append("%s\n   sent: %r\n    got: %r\n wanted: %r" % (
                    request.owner, request.sent[:400], shown(request.reply or request.part, wanted), shown(wanted, request.reply or request.part)))
        return "\n".join(lines)


def no_room(request, closes):
    """The reply of a desk that has no room for a request."""
    head = "HTTP/1.1 503 Service Unavailable\r\ncontent-type: text/plain\r\ncontent-length: 8\r\n%s\r\n" % ("connection: close\r\n" if closes else "")
    return head.encode() + (b"" if request.is_bare else b"NO ROOM\n")


def shown(text, other):
    """A text from a little before the place where it differs from another."""
    place = next((at for at, (one, two) in enumerate(zip(text, other)) if one != two), min(len(text), len(other)))
    return text[: 600] if place < 400 else b".." + text[place - 200 : place + 400]


def first_end(threads, at):
    """When the first of the replies that are still to come was there, or None where none is to come."""
    ends = [thread[place].ended for thread, place in zip(threads, at) if place < len(thread) and thread[place].is_answered]
    return min(ends, default=None)


def next_ones(threads, at, limit):
    """The next request of each thread, as far as it was sent before the first of the replies that are still to come was there."""
    for place, (thread, next_one) in enumerate(zip(threads, at)):
        if next_one < len(thread) and (limit is None or thread[next_one].began <= limit):
            yield place, thread[next_one]


def moved(at, place, to):
    return (*at[:place], to, *at[place + 1 :])


def left_of(threads, at):
    return tuple(thread[place:] for thread, place in zip(threads, at) if place < len(thread))


def can_still_act(model, state, thread):
    """What of a thread without replies could still change something: a change does if its number is soon to come."""
    def can_act(request):
        return request.is_change and request.owner and 0 < (request.number or 0) - model.last(state, request.owner) < SOON

    return tuple(thread) if any(map(can_act, thread)) else ()


def settled(model, worlds, is_over):
    """The worlds without what can't change anything any more, each once. After the end of a run nothing is on its way."""
    found = {}
    for world in worlds:
        pending = () if is_over else tuple(filter(None, (can_still_act(model, world.state, thread) for thread in world.pending)))
        found[World(world.state, pending)] = True
    return list(found)
