#!/usr/bin/env python3
"""Shows that test_simulation.py can fail: lies that it has to see.

    test_simulation_lies.py [-v] [Lies.test_LIE..]

Each lie (simulation/lies.py) stands between the desk and what is seen of it. It prints for each which seed saw it, and after how many steps.
"""
import signal
import sys
import unittest

from service import check, main
from simulation.lies import LIES
from test_simulation import try_seed

SEEDS, STEPS = 8, 400


def try_lie(kind):
    """Tells a lie in one seed after the other, until one sees it."""
    for seed in range(1, SEEDS + 1):
        lie = kind()
        simulation, difference = try_seed(seed, STEPS, lie)
        if difference:
            print(f"{kind.__name__}: seed {seed}, {simulation.steps} steps: {str(difference).splitlines()[0][:120]}", flush=True)
            return check(f"{kind.__name__} is seen where it is told", lie.lied)
    return check(f"{kind.__name__} is seen", False, f"it was told {lie.lied} times in the last seed")


class Lies(unittest.TestCase):
    """Has a test for each lie."""


for each in LIES:
    setattr(Lies, f"test_{each.__name__}", lambda self, kind=each: try_lie(kind))


if __name__ == "__main__":
    signal.signal(signal.SIGTERM, lambda *_: sys.exit(3))  # so that nothing is left
    main("lies of the simulation")
