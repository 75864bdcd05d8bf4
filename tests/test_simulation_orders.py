#!/usr/bin/env python3
"""What the simulation makes of what several connections were told at once, by unittest: which orders there are. No desk is needed.

    test_simulation_orders.py [-v] [CLASS.TEST..]
"""
import unittest

from service import main
from simulation.lanes import Request
from simulation.model import Model, with_callers
from simulation.orders import Orders, World, no_room, settled

TOKENS = {"PUBLISH": "publisher-token", "ALPHA": "alpha-token", "BETA": "beta-token"}
PTF = "++PTF(UA1).\n++VER(Z038).\n"


def sent(owner, first, number=None, body=None):
    lines = [f"{first} HTTP/1.1", f"bureau-token: {TOKENS[owner]}", *([f"bureau-number: {number}"] if number else [])]
    lines += [] if body is None else [f"content-length: {len(body)}"]
    return ("\r\n".join(lines) + "\r\n\r\n" + (body or "")).encode()


class Possible(unittest.TestCase):
    def setUp(self):
        self.model = Model(TOKENS)
        self.begin = World(self.model.begin(), ())

    def request(self, owner, words, began=None, ended=None, reply=None):
        """A request that was sent and answered at these times."""
        made = Request(owner, sent(owner, *words))
        made.began, made.ended = began, ended
        made.reply = reply
        return made

    def told(self, state, words, owner):
        return self.model.answer(state, sent(owner, *words), owner)

    def worlds(self, *threads, may_refuse=False, may_keep=False, world=None):
        return Orders(self.model, may_refuse, may_keep).worlds(world or self.begin, threads)

    def published(self):
        """A publication, the state after it, and what is told of it before and after."""
        words = "POST /publish", 1, PTF
        answer = self.told(self.begin.state, words, "PUBLISH")
        asked = ("GET /published",)
        return words, answer, self.told(self.begin.state, asked, "ALPHA").reply, self.told(answer.after, asked, "ALPHA").reply

    def test_side_by_side(self):
        """A question beside a change is answered before it or after it."""
        words, answer, old, new = self.published()
        for reply, wanted in ((old, 1), (new, 1), (new[:-2], 0)):
            change = self.request("PUBLISH", words, 1, 10, answer.reply)
            self.assertEqual(len(self.worlds((change,), (self.request("ALPHA", ("GET /published",), 2, 9, reply),))), wanted)

    def test_one_after_the_other(self):
        """Once a client was told of a change, another one that asks later is told of it too."""
        words, answer, old, new = self.published()
        for first, second, wanted in ((old, new, 1), (new, new, 1), (old, old, 1), (new, old, 0)):
            threads = [(self.request("PUBLISH", words, 1, 10, answer.reply),)]
            threads += [(self.request("ALPHA", ("GET /published",), 2, 3, first),), (self.request("BETA", ("GET /published",), 4, 5, second),)]
            self.assertEqual(len(self.worlds(*threads)), wanted, (first, second))

    def test_after_its_reply(self):
        """A question that is sent after the reply to a change is answered after it."""
        words, answer, old, new = self.published()
        for reply, wanted in ((old, 0), (new, 1)):
            threads = (self.request("PUBLISH", words, 1, 2, answer.reply),), (self.request("ALPHA", ("GET /published",), 3, 4, reply),)
            self.assertEqual(len(self.worlds(*threads)), wanted)

    def test_without_a_reply(self):
        """A change without a reply was made, or may be later. After a stop it was made or not."""
        words, answer, _, new = self.published()
        worlds = self.worlds((self.request("PUBLISH", words, 1),))
        self.assertEqual({world.state for world in worlds}, {self.begin.state, answer.after})
        self.assertEqual(sorted(len(world.pending) for world in settled(self.model, worlds, False)), [0, 1])
        self.assertEqual(len(settled(self.model, worlds, True)), 2)
        waits = next(world for world in worlds if world.pending)
        self.assertTrue(self.worlds((self.request("ALPHA", ("GET /published",), 5, 6, new),), world=waits))

    def test_part_of_a_reply(self):
        """What has part of its reply was answered, and so."""
        words, answer, _, _ = self.published()
        for part, wanted in ((answer.reply[:50], {answer.after}), (b"HTTP/1.1 409", set())):
            change = self.request("PUBLISH", words, 1, 2)
            change.part = part
            self.assertEqual({world.state for world in self.worlds((change,))}, wanted)

    def test_no_room(self):
        """A change that had no room was not made; where the device failed it may be. Where nothing is scarce no reply says so."""
        words, answer, _, _ = self.published()
        change = self.request("PUBLISH", words, 1, 2)
        change.reply = no_room(change, False)
        self.assertEqual(self.worlds((change,)), [])
        self.assertEqual([world.state for world in self.worlds((change,), may_refuse=True)], [self.begin.state])
        kept = self.worlds((change,), may_refuse=True, may_keep=True)
        self.assertEqual({world.state for world in kept}, {self.begin.state, answer.after})

    def test_threads_keep_their_order(self):
        """Two changes of one connection are made in their order."""
        first, second = ("PUT /received", 1, "SYSMOD\n"), ("PUT /received", 2, "SYSMOD\nUA1\n")
        one = self.told(self.begin.state, first, "ALPHA")
        two = self.told(one.after, second, "ALPHA")
        right = self.request("ALPHA", first, 1, 2, one.reply), self.request("ALPHA", second, 1, 3, two.reply)
        wrong = self.request("ALPHA", second, 1, 2, two.reply), self.request("ALPHA", first, 1, 3, one.reply)
        self.assertEqual([[world.state for world in self.worlds(each)] for each in (right, wrong)], [[two.after], []])

    def test_callers(self):
        """Who stays keeps all, and who is gone and comes again has nothing."""
        after = self.told(self.begin.state, ("PUT /received", 1, "SYSMOD\nUA1\n"), "ALPHA").after
        without = Model({name: token for name, token in TOKENS.items() if name != "ALPHA"})
        again = with_callers(without, self.model, with_callers(self.model, without, after))
        self.assertEqual([self.model.last(state, "ALPHA") for state in (after, again)], [1, 0])
        self.assertEqual(with_callers(self.model, self.model, after), after)


if __name__ == "__main__":
    main("orders of the simulation")
