#!/usr/bin/env python3
"""Takes the power away from a desk at many moments, and starts it again: losses.py PROGRAM [--quick] [--images N] [--seed N]

strace tells all that the program asks of a store's two files: in `init`, in `serve` with ten calls of three callers, in `serve`
with so many rows that the log is copied into the database in between, in `migrate`, and in each of them once more over what a loss
has left. At each sync, and behind each reply, a loss is drawn in several ways: of the calls since the last sync none, all or
some are on the disk, in whichever order, torn at sectors or at any byte, or with anything where a write was to go; the length and the
name of a file are lost too. Each image of the files is opened by the program. It has all that was acknowledged, with or
without the change that was on its way, and from there on the calls are told what they are told without a loss. What is told is compared
with a second desk, tests/plain_desk.py. At last a disk that does nothing at a sync of the log has to lose something.

    --quick        some three hundred images
    --images N     so many images of each way that draws, at each moment (4 where it isn't given)
    --seed N       other draws
    --ways WAY..   these ways alone. With `around`, which is not among them else, anything stands in the whole sectors at both ends of
                   a write. No desk supposes that of its disk: what is lost is counted, and is no failure
    --sector N     bytes of a sector (512)
    --only NAME..  of init, serve, migrate, long, lie

It needs strace, and Python 3.9.
"""
import argparse
import hashlib
import os
import random
import shutil
import socket
import subprocess
import sys
import tempfile

HERE = os.path.dirname(os.path.abspath(__file__))
sys.path.append(os.path.join(HERE, "..", "tests"))
import losses_disk
from load_shapes import ALPHA, TOKENS, list_of_callers
from losses_disk import FILES, SUPPOSED, WAYS, Disk, Lying, calls_of, can_trace, strace
from refusals import QUESTIONS, SCRIPT, Wrong, of_version_1, replies_of, second, see
from resources import request

MOST_WRONG = 5
REST = 6  # so many calls of a story are made after a loss
BEFORE_MIGRATE = 6  # so many calls of the script come before the first conditional requisite
CHANGES = 34  # of the long story: together more than the 1,000 frames at which the log is copied


def rows(turn):
    return ("SYSMOD,STATE\n" + "".join("X%d,APPLIED\n" % (turn * 7 + i) for i in range(3000 + turn))).encode()


LONG = [SCRIPT[0]] + [request("PUT /zones/TGT1", ALPHA, turn, rows(turn)) for turn in range(1, CHANGES)]


class Story:
    """Calls that come one after the other, and what is told to the questions after each."""

    def __init__(self, script):
        self.script = script
        whole = [second(script[:many] + QUESTIONS)[0] for many in range(len(script) + 1)]
        self.told, self.replies = [each[many:] for many, each in enumerate(whole)], whole[-1][: len(script)]


class Refused(Wrong):
    """The program takes no such files."""


class Losing:
    """Runs the program over files, traced or not."""

    def __init__(self, program, room):
        self.program, self.room = program, room
        self.callers, self.store = os.path.join(room, "callers"), os.path.join(room, "desk", "store")
        with open(self.callers, "wb") as out:
            out.write(list_of_callers(TOKENS))

    def lay(self, files):
        """Puts files there, and nothing else."""
        folder = os.path.dirname(self.store)
        shutil.rmtree(folder, ignore_errors=True)
        os.mkdir(folder)
        for name, data in files.items():
            with open(os.path.join(folder, name), "wb") as out:
                out.write(data)

    def files(self):
        found = {}
        for name in FILES:
            path = os.path.join(os.path.dirname(self.store), name)
            if os.path.exists(path):
                with open(path, "rb") as file:
                    found[name] = file.read()
        return found

    def run(self, *words, trace=None):
        words = [self.program, *words]
        done = subprocess.run(strace(trace, *words) if trace else words, capture_output=True, timeout=120)
        return done.returncode, done.stdout, done.stderr

    def serve(self, requests, trace=None, is_killed=False):
        """The replies to these requests in one connection, after which the desk ends, or is killed."""
        with socket.socket() as probe:
            probe.bind(("127.0.0.1", 0))
            port = probe.getsockname()[1]
        words = [self.program, "serve", "--connections", "2" if is_killed else "1", "--port", str(port), self.store]
        desk = subprocess.Popen(strace(trace, *words) if trace else words, stdout=subprocess.PIPE, stderr=subprocess.PIPE)
        is_there, replies = desk.stdout.readline(), []
        try:
            replies = exchange(port, requests) if is_there else []
        except OSError:
            desk.kill()
        if is_killed:
            desk.kill()
        output, errors = desk.communicate(timeout=120)
        if not is_there:
            raise Refused("refused with %d %r" % (desk.returncode, errors))
        see((desk.returncode, output, errors) == (-9 if is_killed else 0, b"", b""), "the desk", desk.returncode, output, errors)
        return replies


def exchange(port, requests):
    with socket.create_connection(("127.0.0.1", port), timeout=120) as connection:
        connection.sendall(b"".join(requests))
        connection.shutdown(socket.SHUT_WR)
        written = []
        while part := connection.recv(1 << 16):
            written.append(part)
    return replies_of(b"".join(written))


# ---- the runs that lose their power


class Init:
    """`init`, over what was found. Nothing is acknowledged before its line."""

    name = "init"

    def __init__(self, losing, story, found):
        self.losing, self.story, self.found = losing, story, found

    def calls(self, trace):
        self.losing.lay(self.found)
        self.losing.run("init", self.losing.store, self.losing.callers, trace=trace)
        return calls_of(trace, self.losing.store, lambda text: text == b"CALLERS 3\n")

    def see_kept(self, told):
        """A store is there once it was acknowledged. Before that there is one, or one is made."""
        if not told:
            status, output, errors = self.losing.run("init", self.losing.store, self.losing.callers)
            see_taken(status, errors)
            see(output == b"CALLERS 3\n" or errors == b"FAULT 44\n", "init after a loss", output, errors)
        return see_story(self.losing, self.story, 0, [0])

    def again(self, found, told, place):
        return Init(self.losing, self.story, found)


class Serve:
    """`serve`, over what was found: the tables after `place` calls of the story, of which the first `sent` were replied to."""

    name = "serve"

    def __init__(self, losing, story, found, sent=0, place=0, questions=()):
        self.losing, self.story, self.found = losing, story, found
        self.sent, self.place, self.questions = sent, place, questions

    def calls(self, trace):
        self.losing.lay(self.found)
        requests = [*self.questions, *self.story.script[self.sent :]]
        replies = self.losing.serve(requests, trace)
        found = calls_of(trace, self.losing.store, lambda text: text.startswith(b"HTTP/1.1 "))
        see(sum(call.what == "told" for call in found) == len(replies) == len(requests), "a reply isn't seen")
        return found

    def see_kept(self, told):
        """Tables that were shown stay. From there on the next call of the story may be made or not."""
        sent = self.sent + max(0, told - len(self.questions))
        after = [sent, sent + 1] if told >= len(self.questions) else [self.place]
        return see_story(self.losing, self.story, sent, [max(each, self.place) for each in after])

    def again(self, found, told, place):
        sent = self.sent + max(0, told - len(self.questions))
        return Serve(self.losing, self.story, found, sent, place, QUESTIONS)


class Migrate:
    """`migrate`, over what was found. The tables are the same before and after it."""

    name = "migrate"

    def __init__(self, losing, story, found):
        self.losing, self.story, self.found = losing, story, found

    def calls(self, trace):
        self.losing.lay(self.found)
        self.losing.run("migrate", self.losing.store, trace=trace)
        return calls_of(trace, self.losing.store, lambda text: text == b"MIGRATED VERSION 2\n")

    def see_kept(self, told):
        if not told:
            status, output, errors = self.losing.run("migrate", self.losing.store)
            see_taken(status, errors)
            see(output == b"MIGRATED VERSION 2\n" or errors == b"FAULT 45\n", "migrate after a loss", output, errors)
        return see_story(self.losing, self.story, BEFORE_MIGRATE, [BEFORE_MIGRATE])

    def again(self, found, told, place):
        return Migrate(self.losing, self.story, found)


def see_taken(status, errors):
    if status == 3:
        raise Refused("refused with %d %r" % (status, errors))


def see_story(losing, story, sent, places):
    """The tables are those after one of these calls, and the story goes on where it was stopped. Tells which one."""
    rest = story.script[sent : sent + REST]
    replies = losing.serve([*QUESTIONS, *rest, *QUESTIONS])
    found, after, last = (replies[: len(QUESTIONS)], replies[len(QUESTIONS) : -len(QUESTIONS)], replies[-len(QUESTIONS) :])
    place = next((each for each in places if each < len(story.told) and story.told[each] == found), None)
    see(place is not None, "found after", sent, "replies", found)
    right = story.replies[sent : sent + REST], story.told[sent + len(rest)]
    see((after, last) == right, "what comes after", sent, "replies", after, last)
    return place


# ---- the losses


def moments(calls, disk):
    """The disk before each sync, behind each reply, and at the end."""
    for call in calls:
        if call.what in ("sync", "named"):
            yield disk
        disk.take(call)
        if call.what == "told":
            yield disk
    yield disk


class Drawn:
    """At most so many of what is added, each as likely as any other."""

    def __init__(self, most, draw):
        self.most, self.draw, self.kept, self.met = most, draw, [], 0

    def add(self, one):
        self.met += 1
        place = self.draw.randrange(self.met)
        if len(self.kept) < self.most:
            self.kept.append(one)
        elif place < self.most:
            self.kept[place] = one


class Tally:
    """How many images were tried of each way, how many of them the program refused, and how many lost something without a word."""

    def __init__(self, seed, ways, images, kind=Disk):
        self.seed, self.ways, self.images, self.kind = seed, ways, images, kind
        self.tried, self.refused, self.lost = ({way: 0 for way in ways} for _ in range(3))
        self.wrong = 0

    def lose(self, run, title, every=1, most=1):
        """Draws images at each moment of a run, and opens each. Gives drawn ones of those that are right, with what was found there."""
        self.run, seen, right = run, set(), Drawn(most, random.Random("%d %s" % (self.seed, title)))
        trace = os.path.join(run.losing.room, "trace")
        calls = run.calls(trace)
        os.remove(trace)
        for moment, disk in enumerate(moments(calls, self.kind(run.found))):
            is_tried = moment % every == 0 or disk.pending["store"]
            for way in self.ways if is_tried else ():
                for turn in range(1 if way in ("none", "all") else self.images):
                    if self.wrong < MOST_WRONG:
                        self.open(disk, way, "%s, moment %d, %s %d" % (title, moment, way, turn), seen, right)
        return right.kept

    def open(self, disk, way, place, seen, right):
        image = disk.image(way, random.Random("%d %s" % (self.seed, place)))
        mark = (disk.told, *(name in image and hashlib.sha256(image[name]).digest() for name in FILES))
        if mark in seen:
            return
        seen.add(mark)
        self.tried[way] += 1
        self.run.losing.lay(image)
        try:
            right.add((image, disk.told, self.run.see_kept(disk.told)))
        except Wrong as fault:
            (self.refused if isinstance(fault, Refused) else self.lost)[way] += 1
            if way in SUPPOSED and self.kind is Disk:
                self.wrong += 1
                print("losses: %s ... FAILED: %s" % (place, fault), flush=True)

    def told(self, title):
        rows = ("%s %d" % (way, many) + (", %d refused" % self.refused[way]) * (self.refused[way] > 0)
                + (", %d lost" % self.lost[way]) * (self.lost[way] > 0) for way, many in self.tried.items())
        print("losses: %s: %d images: %s" % (title, sum(self.tried.values()), "; ".join(rows)), flush=True)
        return self.wrong == 0


def begun(losing, story, name):
    """A run of this name over the files that it begins with."""
    losing.lay({})
    if name == "init":
        return Init(losing, story, {})
    see(losing.run("init", losing.store, losing.callers)[1] == b"CALLERS 3\n", "init")
    if name != "migrate":
        return Serve(losing, story, losing.files())
    losing.serve(story.script[:BEFORE_MIGRATE])
    earlier = of_version_1(losing.store)
    with open(earlier, "rb") as file:
        return Migrate(losing, story, {"store": file.read()})


def part(losing, name, story, words):
    """The losses of one run, and of the same run over what they left. Tells whether nothing was lost that must not be."""
    is_long = name == "long"
    tally = Tally(words.seed, words.ways or SUPPOSED, words.images)
    run = begun(losing, story, name)
    left = tally.lose(run, name, (4 if is_long else 1) * (2 if words.quick else 1), 3 if words.quick or is_long else 12)
    good = tally.told(name)
    again = Tally(words.seed, tally.ways, 1)
    for turn, (image, told, place) in enumerate(left):
        again.lose(run.again(image, told, place), "%s again %d" % (name, turn), 5 if words.quick or is_long else 1)
    return again.told(name + " again") and good


def lie(losing, story, words):
    """Of a disk that does nothing at a sync of the log something is lost, and that is seen."""
    tally = Tally(words.seed, ["none"], 1, Lying)
    tally.lose(begun(losing, story, "serve"), "lie")
    return tally.told("a disk that lies") and tally.lost["none"] > 0


def main():
    reader = argparse.ArgumentParser(description=__doc__, formatter_class=argparse.RawDescriptionHelpFormatter)
    reader.add_argument("program")
    reader.add_argument("--quick", action="store_true")
    reader.add_argument("--images", type=int, default=4)
    reader.add_argument("--seed", type=int, default=1)
    reader.add_argument("--sector", type=int, default=losses_disk.SECTOR)
    reader.add_argument("--ways", nargs="+", choices=WAYS)
    reader.add_argument("--only", nargs="+", choices=["init", "serve", "migrate", "long", "lie"])
    words = reader.parse_args()
    if not can_trace():
        sys.exit("losses: strace is not there, or may not trace")
    losses_disk.SECTOR, words.images = words.sector, 1 if words.quick else words.images
    names = words.only or ["init", "serve", "migrate", *["long"] * (not words.quick), "lie"]
    with tempfile.TemporaryDirectory(dir="/dev/shm" if os.access("/dev/shm", os.W_OK) else None) as room:
        losing = Losing(os.path.abspath(words.program), os.path.realpath(room))
        short = Story(SCRIPT)
        good = [
            lie(losing, short, words) if name == "lie" else part(losing, name, Story(LONG) if name == "long" else short, words)
            for name in names
        ]
    print("losses: %d passed, %d failed" % (sum(good), len(good) - sum(good)))
    sys.exit(0 if all(good) else 1)


if __name__ == "__main__":
    main()
