#!/usr/bin/env python3
"""Runs files of rows through the built program: each row says what is asked, and what the answer must be.

    tests/rows.py PROGRAM [FILE..]

Without FILE it runs all below `tests/rows` and in the data of the crates of rows, those that `tests/drawn_content.py` and
`tests/drawn_requests.py` draw, and then tries that wrong rows are seen: those in `tests/rows/planted`. `tests/row_files.py` says how a
file is written. The kind of its rows is the name of its folder: `content` (`tests/row_content.py`), `desk` (`tests/row_desk.py`), `runs`
(`tests/row_runs.py`) or `store` (`tests/row_store.py`), with `_rows` after it for a crate's data. There a row that the program can't show
is passed over, and counted, and `planted.txt` is left to the crate, since its rows are wrong. The last line counts the answers; a row
that asks nothing, as `publish`, has none. Files run side by side, as many as there are processors.
"""
import glob
import os
import sys
from concurrent.futures import ProcessPoolExecutor

import drawn_content
import drawn_requests
import row_content
import row_desk
import row_runs
import row_store
from row_files import Unreadable, read

HERE = os.path.dirname(os.path.abspath(__file__))
TOP = os.path.dirname(HERE)
KINDS = {"content": row_content, "desk": row_desk, "runs": row_runs, "store": row_store}


def kind_of(name):
    """The kind of a file's rows, by the folder that it stands in."""
    for folder in reversed(os.path.abspath(name).split(os.sep)[:-1]):
        if folder.removesuffix("_rows") in KINDS:
            return KINDS[folder.removesuffix("_rows")]
    raise Unreadable(f"{name}: its folder names no kind of rows ({', '.join(KINDS)})")


class Tally:
    """How many answers were right and wrong, and how many rows were passed over."""

    def __init__(self):
        self.right = self.wrong = self.passed_over = 0
        self.said = []

    def compare(self, row, told, way):
        """Compares what a row was told; `told` is None if the program can't show it, as it may in a crate's data."""
        if told is None and f"{os.sep}crates{os.sep}" in os.path.abspath(row.place):
            self.passed_over += 1
        elif told is None:
            self.wrong += 1
            self.said.append(f"{row.place}: {row.text}: the program can't show it")
        elif row.as_compared(told) == row.wanted:
            self.right += bool(row.wanted)
        else:
            self.wrong += 1
            self.said.append(f"{row.place}: {row.text}{way and f' ({way})'}:\n  told   {row.as_compared(told)}\n  wanted {row.wanted}")


def run(program, name):
    """Runs a file of rows. A file that can't be read is one wrong answer."""
    tally = Tally()
    try:
        for case in read(name):
            for row, told, way in kind_of(name).answers(program, case):
                tally.compare(row, told, way)
    except Unreadable as why:
        tally.wrong += 1
        tally.said.append(str(why))
    return tally


def drawn(program):
    """Runs the rows that are drawn."""
    tally = Tally()
    for made in (drawn_content, drawn_requests):
        for row, told, way in made.answers(program):
            tally.compare(row, told, way)
    return tally


def planted(program):
    """Tries that each file of wrong rows has as many wrong answers as its name says: `NAME.2.txt` has two."""
    tally = Tally()
    for name in sorted(glob.glob(f"{HERE}/rows/planted/*/*.txt")):
        wanted = int(name.split(".")[-2])
        seen = run(program, name).wrong
        if seen == wanted:
            tally.right += 1
        else:
            tally.wrong += 1
            tally.said.append(f"{name}: {seen} wrong answers were seen, and not {wanted}")
    return tally


def all_files():
    return sorted(it for kind in KINDS for folder in (f"{HERE}/rows/{kind}", f"{TOP}/crates/{kind}_rows/data")
                  for it in glob.glob(f"{folder}/*.txt") if not it.endswith("/data/planted.txt"))


def main(words):
    if not words:
        print(__doc__)
        return 2
    program = os.path.realpath(words[0])
    with ProcessPoolExecutor(len(os.sched_getaffinity(0))) as pool:
        tasks = [pool.submit(run, program, name) for name in words[1:] or all_files()]
        if not words[1:]:
            tasks += [pool.submit(drawn, program), pool.submit(planted, program)]
        tallies = [task.result() for task in tasks]
    for line in (line for tally in tallies for line in tally.said):
        print(line)
    print(f"rows: {sum(tally.passed_over for tally in tallies)} rows of crates are passed over, since the program can't show them")
    wrong = sum(tally.wrong for tally in tallies)
    print(f"rows: {sum(tally.right for tally in tallies)} passed, {wrong} failed")
    return int(wrong > 0)


if __name__ == "__main__":
    sys.exit(main(sys.argv[1:]))
