"""What a FAULT of `bureau` or of a desk means, and what to do about it: the rows of faults.csv. docs/FAULTS.md has the same rows."""
import csv
import functools
import os
import pkgutil

from . import run
from .run import Stop


@functools.lru_cache(None)
def table():
    """Each fault's row, by its number: MEANING, DO (what to do about it), and BRIEF, its meaning where the statement stands beside it."""
    rows = csv.DictReader(pkgutil.get_data(__package__, "faults.csv").decode().splitlines())
    return {row["FAULT"]: row for row in rows}


def meaning(fault):
    row = table().get(fault)
    return ": ".join(filter(None, (row["MEANING"], row["DO"]))) if row else "docs/FAULTS.md has the faults"


def brief(fault):
    row = table().get(str(fault), {})
    return row.get("BRIEF") or row.get("MEANING") or "see docs/FAULTS.md"


def shown(data, line):
    """The beginning of a line, as it is shown."""
    lines = data.split(b"\n")
    return os.fsdecode(lines[line - 1][:100].replace(b"\0", b"")) if 0 < line <= len(lines) else ""


def place_of(words, data):
    """The line of a fault, of which the desk says FAULT, its number and its place. From 31 on that is a record of a list: its header
    and empty lines are no records."""
    if len(words) < 3 or not all(word.isascii() and word.isdigit() for word in words[1:3]):
        return None
    fault, place = int(words[1]), int(words[2])
    if fault < 31:
        return place
    lines = [at for at, line in enumerate(data.split(b"\n"), 1) if line.removesuffix(b"\r")]
    return lines[place] if place < len(lines) else None


def fault(number):
    """The command: it needs no desk."""
    if number not in table():
        raise Stop(2, f"there is no FAULT {number}: docs/FAULTS.md has the faults")
    run.out(meaning(number) + "\n")
