"""History: the counts of each zone, a line a day. `sync` keeps them in the folder of the desk."""
import csv
import os

from . import ages, reports, run
from .changes import Changes
from .run import Stop, csv_line, say

COLUMNS = {"DATE": 11, "ZONE": 9, "HIPER": 7, "PE": 7, "OTHER": 7, "NONE": 7, "HELD": 7, "FIXES": 0}
NAME = "history.csv"


def path_of(changes):
    return f"{changes.folder}/{NAME}"


def lines_in(changes):
    """The kept lines, in the order of their days."""
    path = path_of(changes)
    if not os.path.isfile(path):
        return []
    first, *lines = list(csv.reader(run.bytes_in(path).decode("utf-8", "replace").splitlines())) or [[]]
    return [[each.removeprefix("'") for each in line] for line in lines if first == list(COLUMNS) and len(line) == len(COLUMNS)]


def keep(changes, is_fresh):
    """Adds today's counts of each zone. Those of a day that is kept already are counted anew where lists were sent."""
    desk, day, lines = changes.desk, ages.today().isoformat(), lines_in(changes)
    known, worst = {line[1] for line in lines if line[0] == day}, run.worst
    try:
        zones = [(zone, count) for zone, count in desk.zones() if is_fresh or zone not in known]
        counted = [[day, *counts_of(desk, zone, count)] for zone, count in zones]
    except Stop as end:  # what was sent was sent
        run.worst = worst
        return say(f"today's counts are not kept: {end.text or desk.first_line()}")
    if counted:
        told = {line[1] for line in counted}
        kept = [line for line in lines if line[0] != day or line[1] not in told] + counted
        run.write(path_of(changes), "".join(map(csv_line, [COLUMNS, *sorted(kept, key=lambda line: line[0])])).encode())


def counts_of(desk, zone, sysmods):
    counts, _ = reports.counts_on(desk, zone, sysmods)
    return [str(counts[name]) for name in list(COLUMNS)[1:]]


def history(desk, zone="", csv=False):
    """Prints the counts of all zones, or of one."""
    lines = [line for line in lines_in(Changes(desk)) if zone in ("", line[1])]
    if not lines:
        say("no counts are kept" + (f" of the zone {zone}" if zone else "") + ": 'bureau-client sync' keeps them, a line a day and zone")
    if csv:
        return run.out("".join(map(csv_line, [COLUMNS, *lines])))
    padded = ["".join(map(str.ljust, line, COLUMNS.values())).rstrip() for line in [COLUMNS, *lines]]
    run.out("\n".join([*padded, f"ROWS {len(lines)}\n"]))
