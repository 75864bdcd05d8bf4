#!/usr/bin/env python3
"""Times `bureau holds` beside `wc -l` and `cat`, over HOLDDATA made for it.

    holds.py [MIB] [SHAPE..]

Runs are interleaved; the median is printed, and the lowest in brackets. Peak memory is the most that the
program had resident. Inputs stand in bench/out, which is not committed.
"""
import os
import statistics
import subprocess
import sys
import time

HERE = os.path.dirname(os.path.abspath(__file__))
OUT = os.path.join(HERE, "out")
BUREAU = os.path.join(HERE, "..", "bureau")
RUNS = 5


def made(mib, shape):
    """The path of an input, which is made where it is not there."""
    path = os.path.join(OUT, "%s-%s.txt" % (shape, mib))
    if not os.path.exists(path):
        os.makedirs(OUT, exist_ok=True)
        with open(path + ".part", "wb") as to:
            subprocess.run([sys.executable, os.path.join(HERE, "make_holddata.py"), mib, shape], stdout=to, check=True)
        os.rename(path + ".part", path)
    return path


def timed(words, path):
    """Seconds, peak bytes and status of one run with the file on standard input."""
    with open(path, "rb") as source:
        began = time.perf_counter()
        child = subprocess.Popen(words, stdin=source, stdout=subprocess.DEVNULL, stderr=subprocess.DEVNULL)
        _, status, usage = os.wait4(child.pid, 0)
        return time.perf_counter() - began, usage.ru_maxrss * 1024, os.waitstatus_to_exitcode(status)


def main():
    mib = sys.argv[1] if sys.argv[1:] else "64"
    subprocess.run([BUREAU, "holds", os.devnull], stdout=subprocess.DEVNULL, check=True)
    for shape in sys.argv[2:] or ["holds"]:
        path = made(mib, shape)
        size = os.path.getsize(path)
        rows = {"bureau holds": [BUREAU, "holds", "-"], "wc -l": ["wc", "-l"], "cat": ["cat"]}
        runs = {name: [] for name in rows}
        for _ in range(RUNS):
            for name, words in rows.items():
                runs[name].append(timed(words, path))
        print("\n%s: %d bytes" % (os.path.basename(path), size))
        print("%-14s %18s %9s %10s %16s %7s" % ("", "ms (lowest)", "MB/s", "peak MiB", "peak for a byte", "status"))
        for name, its in runs.items():
            median = statistics.median(seconds for seconds, _, _ in its)
            peak = max(peak for _, peak, _ in its)
            print("%-14s %18s %9.0f %10.1f %16.2f %7d" % (
                name, "%.0f (%.0f)" % (1000 * median, 1000 * min(its)[0]), size / median / 1e6,
                peak / 2**20, peak / size, its[0][2]))


main()
