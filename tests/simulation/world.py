"""A desk from its first start to its last end, as one seed draws it, and what is seen of it."""
import itertools
import os
import signal
import sqlite3
import subprocess
import time
from collections import Counter

from fuzz_desks import list_of_callers

from . import drawing
from .disk import Disk
from .lanes import Difference, Lane
from .lies import Truth
from .life import Life
from .model import PUBLISHER, Model, with_callers
from .moment import PATIENCE, Moment
from .orders import Orders, TooMany, World, settled

MOST_OPEN = 12  # connections from turn to turn
MANY = 8  # states in which the desk may be
IDLE = 5  # seconds after which a connection is not used again
FEW = 60  # connections that are held open where descriptors are few


class Simulation:
    """All of a seed: the desk, what it may have in its store, and the connections that are open."""

    def __init__(self, program, seed, lie=None, is_long=False):
        self.program, self.seed, self.lie, self.is_long = program, seed, lie or Truth(), is_long
        self.steps, self.turn, self.runs, self.counts = 0, 0, 0, Counter()
        self.scarce = False  # whether a turn may have no room
        self.clock = itertools.count().__next__
        self.disk = Disk()
        self.store = os.path.join(self.disk.path, "store")
        self.lanes, self.idle, self.again, self.life = [], [], [], None
        self.tokens = drawing.drawn_tokens(drawing.dice_of(seed, "callers"))
        self.model = Model(self.tokens)
        self.worlds = [World(self.model.begin(), ())]

    # ---- runs of the desk

    def command(self, name, *words):
        """What a command prints, which has to succeed."""
        done = subprocess.run([self.program, name, *words], capture_output=True, timeout=PATIENCE)
        if done.returncode or done.stderr:
            raise Difference("%s ended with %d: %r" % (name, done.returncode, done.stderr))
        return done.stdout.decode()

    def write_callers(self):
        path = os.path.join(self.disk.path, "callers.csv")
        with open(path, "wb") as file:
            file.write(list_of_callers(self.tokens))
        return path

    def start(self):
        self.runs += 1
        run = drawing.drawn_run(drawing.dice_of(self.seed, "run", self.runs))
        self.life = Life(self.program, self.store, run.options, run.reading, run.descriptors)
        self.counts["runs"] += 1
        self.idle = [Lane(self.life.port, self.clock, self.lie) for _ in range(FEW if run.descriptors else 0)]

    def after_end(self, may_fail):
        """The desk is over: sees how it ended, looks at the store in one way or another, and starts it again."""
        dice = drawing.dice_of(self.seed, "end", self.runs)
        self.close_lanes()
        self.life.see_end(may_fail, self.lie)
        self.counts["ends with 42"] += not self.life.was_stopped
        self.lie.ended(self)
        self.worlds = settled(self.model, self.worlds, True)
        if dice.random() < 0.25:
            self.check()
        if dice.random() < 0.15:
            self.change_callers(dice)
        self.start()
        if dice.random() < 0.5:
            self.audit(dice, dice.choice([0.1, 0.1, 0.5]))

    def check(self):
        """What `check` prints has to be that of a state in which the store may be."""
        told = self.command("check", self.store)
        wanted = [self.model.checked(world.state) for world in self.worlds]
        if told not in wanted:
            raise Difference("check printed\n%s and not\n%s" % (told, "or\n".join(wanted)))
        self.worlds = [world for world, text in zip(self.worlds, wanted) if text == told]
        self.steps += 1

    def change_callers(self, dice):
        before, self.tokens = self.tokens, drawing.other_callers(dice, self.tokens)
        counts = len(set(self.tokens) - set(before)), len(set(before) - set(self.tokens))
        changed = sum(before.get(name, token) != token for name, token in self.tokens.items())
        told = self.command("callers", self.store, self.write_callers())
        if told != "CALLERS %d ADDED %d REMOVED %d TOKENS %d\n" % (len(self.tokens), *counts, changed):
            raise Difference("callers printed %r" % told)
        old, self.model = self.model, Model(self.tokens)
        self.worlds = [World(with_callers(old, self.model, world.state), ()) for world in self.worlds]
        self.again = []
        self.steps += 1

    def close_lanes(self):
        for lane in self.lanes + self.idle:
            lane.end()
        self.lanes, self.idle = [], []

    # ---- turns

    def run(self, steps):
        """So many steps: requests, and events."""
        self.command("init", self.store, self.write_callers())
        self.lie.turned(self)
        self.start()
        while self.steps < steps:
            self.one_turn()
            self.look()
        self.last_looks()

    def one_turn(self):
        self.turn += 1
        dice, state = drawing.dice_of(self.seed, "turn", self.turn), self.worlds[0].state
        self.lie.turned(self)
        self.lanes = [lane for lane in self.lanes if time.monotonic() < lane.used + IDLE or lane.end()]
        drawn = drawing.TurnDrawing(dice, self.tokens, *self.known(state))
        turn = drawing.Turn(dice, drawn, len(self.lanes), self.again, self.disk.is_mounted, self.is_long)
        open_ones = list(self.lanes)
        lanes = [self.lane_for(load, open_ones) for load in turn.loads]
        self.go_through(lanes, turn.event, turn.pace)

    def known(self, state):
        """The last number and the zones of each caller."""
        last = {name: self.model.last(state, name) for name in self.tokens}
        zones = {name: [zone.decode() for zone in self.model.own(state, name).zones] for name in self.tokens if name != PUBLISHER}
        return last, zones

    def audit(self, dice, share=1):
        """Asks for all that each caller can ask, or for so large a share of it."""
        self.ask(dice, drawing.TurnDrawing(dice, self.tokens, *self.known(self.worlds[0].state)).audit(share))

    def look(self):
        """Where much is not known, since replies were lost, asks what became of it."""
        dice = drawing.dice_of(self.seed, "look", self.turn)
        if len(self.worlds) > MANY:
            self.ask(dice, drawing.TurnDrawing(dice, self.tokens, *self.known(self.worlds[0].state)).last_numbers())
        if len(self.worlds) > MANY * 4:
            self.audit(dice)

    def ask(self, dice, requests):
        """Sends requests over one connection."""
        requests = list(requests)
        lane = Lane(self.life.port, self.clock, self.lie)
        lane.carry(requests, [(request.sent, (request,)) for request in requests], "half")
        self.go_through([lane], drawing.Event("none", 0, 0), dice)

    def lane_for(self, load, open_ones):
        lane = open_ones[load.kept] if load.kept is not None else Lane(self.life.port, self.clock, self.lie)
        if load.kept is not None:
            self.lanes.remove(lane)
        lane.carry(load.requests, list(load.plan), load.ending)
        return lane

    def go_through(self, lanes, event, pace):
        """Sends what the lanes have, lets the event befall the desk, and sees that what came is right."""
        self.steps += sum(len(lane.requests) for lane in lanes) + (event.kind != "none")
        self.counts[event.kind] += 1
        self.scarce = event.kind in ("full", "memory", "device") or self.life.may_fail
        Moment(self, lanes, event, pace).pass_by()
        if event.kind == "device":
            self.life.may_fail |= any(lane.was_cut for lane in lanes) or any(world.pending for world in self.worlds)
        if (event.kind == "device" or self.life.may_fail) and any(lane.lacks or lane.has_refusal for lane in lanes):
            self.life.wait_for_end(event.kind == "device")
        self.life.lift()
        self.disk.empty()
        is_over = self.life.is_over
        self.see(lanes, event, is_over)
        if is_over:
            self.after_end(event.kind in ("device", "full") or self.life.may_fail)
        else:
            self.keep(lanes)

    def see(self, lanes, event, is_over):
        """Whether some order of all requests tells what was told, in a state in which the desk may have been."""
        for lane in lanes:
            if lane.lacks and not is_over and not self.may_lack(lane, event):
                raise Difference("the desk ended a connection without a reply to %r, after %r" % (lane.waits[0].sent[:300], lane.waits[0].part))
        threads = list(filter(None, (lane.thread(is_over) for lane in lanes)))
        self.count(lanes)
        found, orders = [], Orders(self.model, self.scarce, is_over and not self.life.was_stopped)
        try:
            for world in self.worlds:
                found += orders.worlds(world, threads)
        except TooMany:
            raise Difference("there are too many orders in turn %d" % self.turn)
        if not found:
            raise Difference("no order tells what was told. In the one that goes furthest\n%s" % orders.told())
        self.worlds = settled(self.model, found, False)

    def may_lack(self, lane, event):
        """Whether a connection may have ended without a reply: there was no memory to read it, or it was idle and gave way to another."""
        nothing_came = not lane.waits[0].part
        return nothing_came and (event.kind == "memory" or self.life.is_narrow)

    def count(self, lanes):
        for lane in lanes:
            for request in lane.requests:
                self.counts[(request.reply or b"HTTP/1.1 none")[9:13].decode().strip()] += 1
            self.again += [anew(each) for each in lane.waits if each.is_change and not each.is_tail and each.owner][:1]
        del self.again[:-4]

    def keep(self, lanes):
        """The connections that stay open, at most so many."""
        for lane in lanes:
            if not lane.is_over and lane.ending == "keep" and len(self.lanes) < MOST_OPEN:
                self.lanes.append(lane)
            else:
                lane.end()
        self.idle = [lane for lane in self.idle if not lane.is_over]

    # ---- the end

    def last_looks(self):
        """All that can be asked, before and after a last stop; `check`; and what sqlite3 makes of the file."""
        dice = drawing.dice_of(self.seed, "last")
        self.audit(dice)
        self.life.stop(signal.SIGKILL)
        self.close_lanes()
        self.life.see_end(False, self.lie)
        self.lie.ended(self)
        self.worlds = settled(self.model, self.worlds, True)
        self.check()
        connection = sqlite3.connect(self.store)
        sound = connection.execute("PRAGMA integrity_check").fetchall()
        connection.close()
        if sound != [("ok",)]:
            raise Difference("sqlite3 finds in the store: %r" % sound)

    def end(self):
        """Leaves nothing."""
        self.close_lanes()
        if self.life:
            self.life.kill()
        self.disk.remove()


def anew(request):
    """The same request, to be sent once more."""
    return type(request)(request.owner, request.sent)
