#!/usr/bin/env python3
"""A desk in service, drawn from one seed: clients, pauses, cuts, kills, full disks, want of memory and descriptors, slow readers of the log.

    test_simulation.py [--steps N] [--seeds N] [--seed S] [--of N] [--times N] [--long] [-v]

Each reply is compared, byte for byte, with what a plain desk (plain_desk.py) answers, in some order of the requests that were sent at
once. After each stop the store has what was acknowledged. A seed has N steps (500), which are requests and what befalls the desk. It
tries seeds from S (1) on, until there are so many steps in all (10,000) or so many seeds. A failure prints the line that tries it again.
What the system does with time is not drawn: a failure may want the same seed several times (--times). With --long some pauses take 25
seconds. test_simulation_lies.py shows that it sees what is wrong.
"""
import argparse
import signal
import sys
import time
import unittest
from collections import Counter

from service import PROGRAM, check, main
from simulation.drawing import EVENTS
from simulation.lanes import Difference
from simulation.world import Simulation

ALL = [*EVENTS, "200", "400", "401", "403", "404", "405", "409", "422", "503", "ends with 42"]  # what comes in so many steps


def try_seed(seed, steps, lie=None, is_long=False):
    """Runs a seed. Gives the simulation, and the difference that it found, or None."""
    simulation = Simulation(PROGRAM, seed, lie, is_long)
    try:
        simulation.run(steps)
        return simulation, None
    except Difference as difference:
        return simulation, difference
    finally:
        simulation.end()


def read_words():
    reader = argparse.ArgumentParser(description=__doc__, formatter_class=argparse.RawDescriptionHelpFormatter)
    reader.add_argument("--steps", type=int, default=10000)
    reader.add_argument("--seeds", type=int)
    reader.add_argument("--seed", type=int, default=1)
    reader.add_argument("--of", type=int, default=500)
    reader.add_argument("--times", type=int, default=1)
    reader.add_argument("--long", action="store_true")
    words, sys.argv[1:] = reader.parse_known_args()
    return words


class Seeds(unittest.TestCase):
    def test_each_reply_of_each_seed(self):
        counts, steps, began = Counter(), 0, time.monotonic()
        seed = WORDS.seed
        while seed < WORDS.seed + WORDS.seeds if WORDS.seeds else steps < WORDS.steps:
            for _ in range(WORDS.times):
                simulation, difference = try_seed(seed, WORDS.of, None, WORDS.long)
                again = f"\nagain: tests/test_simulation.py --seeds 1 --seed {seed} --of {WORDS.of} --times 10"
                with self.subTest(seed=seed):
                    check(f"seed {seed}", difference is None, f"turn {simulation.turn} of run {simulation.runs}: {difference}{again}")
                counts += simulation.counts
                steps += simulation.steps
            seed += 1
        told = ", ".join(f"{name} {count}" for name, count in sorted(counts.items()))
        print(f"simulation: {steps} steps of seeds {WORDS.seed} to {seed - 1} in {time.monotonic() - began:.0f} seconds: {told}")
        if steps >= 10000:
            check("all of it came", all(counts[each] for each in ALL), counts)


if __name__ == "__main__":
    WORDS = read_words()
    signal.signal(signal.SIGTERM, lambda *_: sys.exit(3))  # so that nothing is left
    main("simulation")
