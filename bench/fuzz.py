#!/usr/bin/env python3
"""Tries random desks.

    fuzz.py PROGRAM [--lists DESKS] [--seconds N] [--desks N] [--seed S] [--failures N] [--keep FOLDER] [--skip CHECK]

A desk is drawn from a seed (fuzz_desks.py): callers, and what they send on each connection. PROGRAM serves it over a file, and
once more in each of these ways (fuzz_checks.py), in which each reply has to be the same, byte for byte:

    by `replay`, with room for 1, 2 and 1,024 frames          each change sent again between connections
    the requests in other connections                         the publisher alone, with no other caller known
    the publisher and one client alone, for each client
    over lists, judged by `Whole` and with room for 1 and 16 frames, by the program that desks.sh makes (where it is given)

Its replies are those of a second desk in plain Python (tests/plain_desk.py). None is 503, and each is well formed. The first desk
has the seed S (1), the next one S + 1. It ends after N seconds (60), after N desks, or at the Nth failure (5). A failure prints its
seed, with the line that tries it again; --keep keeps its files in FOLDER. A check whose name has CHECK in it is skipped.
`fuzz_lies.py` shows that each of these is seen where it is wrong. Connections side by side, pieces, pauses and kills are drawn by
tests/test_simulation.py. Python 3.9.
"""
import argparse
import os
import random
import shutil
import sys
import tempfile
import time
from collections import Counter

from fuzz_checks import Checks, Difference, Runner
from fuzz_desks import drawn

# Files here need no disk, and what is tried is not what a disk loses.
MEMORY = "/dev/shm" if os.access("/dev/shm", os.W_OK) else None


def arguments():
    reader = argparse.ArgumentParser(description=__doc__, formatter_class=argparse.RawDescriptionHelpFormatter)
    reader.add_argument("program")
    reader.add_argument("--lists")
    reader.add_argument("--seconds", type=float, default=60)
    reader.add_argument("--desks", type=int, default=1 << 60)
    reader.add_argument("--seed", type=int, default=1)
    reader.add_argument("--failures", type=int, default=5)
    reader.add_argument("--keep")
    reader.add_argument("--skip", action="append", default=[])
    return reader.parse_args()


class Count:
    """What was tried, and what failed."""

    def __init__(self):
        self.passed = self.failed = self.desks = self.requests = 0
        self.statuses = Counter()

    def of(self, checks):
        for connection in checks.told:
            self.requests += len(connection)
            self.statuses.update(each.reply[9:12].decode() or "none" for each in connection)


def try_desk(seed, words, count):
    """Draws a desk, and runs each check on it. Tells which failed first."""
    room, name = tempfile.mkdtemp(prefix="bureau-fuzz-", dir=MEMORY), "served over a file"
    count.desks += 1
    try:
        desk = drawn(seed)
        checks = Checks(Runner(os.path.abspath(words.program), room, words.lists), desk, random.Random(seed))
        count.of(checks)
        count.passed += 1
        for name, check in checks.all():
            if any(skipped in name for skipped in words.skip):
                continue
            check()
            count.passed += 1
    except Difference as difference:
        count.failed += 1
        print("fuzz: seed %d: %s ... FAILED: %s" % (seed, name, difference))
        again = words.program + (" --lists " + words.lists if words.lists else "")
        print("fuzz: again: bench/fuzz.py %s --seed %d --desks 1 --keep FOLDER" % (again, seed), flush=True)
        if words.keep:
            shutil.copytree(room, words.keep, dirs_exist_ok=True)
    finally:
        shutil.rmtree(room, ignore_errors=True)


def main():
    words, count = arguments(), Count()
    end = time.monotonic() + words.seconds
    while time.monotonic() < end and count.desks < words.desks and count.failed < words.failures:
        try_desk(words.seed + count.desks, words, count)
    shown = ", ".join("%s: %d" % pair for pair in sorted(count.statuses.items()))
    print("fuzz: seeds %d to %d, %d requests, replies by status: %s" % (
        words.seed, words.seed + count.desks - 1, count.requests, shown))
    print("fuzz: %d passed, %d failed" % (count.passed, count.failed))
    sys.exit(1 if count.failed else 0)


if __name__ == "__main__":
    main()
