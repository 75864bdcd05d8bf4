"""Across zones: the exception SYSMODs of all zones as one list, two zones beside each other, and where a SYSMOD is installed.

The last two look at the lists that this client has sent. They ask no desk.
"""
import csv as csv_files
import os

from . import reports, run
from .accepted import Accepted
from .changes import Changes
from .run import Stop, csv_line, say
from .symptoms import symptoms_of

RANKS = {"GOOD": 0, "HELD": 1, "": 2}  # of a status, the best first
CLASSES = {"HIPER": 0, "PE": 1}
WIDTHS = {"SYSMOD": 9, "REASON": 9, "CLASS": 8, "DATE": 11, "RESOLVER": 9, "STATUS": 7}


def table(columns, widths, rows, csv):
    """Rows as CSV, or as a text in columns with their number below."""
    if csv:
        return run.out("".join(map(csv_line, [columns, *rows])))
    lines = ["".join(text.ljust(width) for text, width in zip(row, [*widths, *[0] * len(row)])).rstrip() for row in [columns, *rows]]
    run.out("\n".join([*lines, f"ROWS {len(rows)}\n"]))


def urgency(name, status, fix, is_accepted):
    """Where a hold stands in a list. What can be done something about comes first, since a resolver is GOOD or the fix is known by name. Then
    comes what is held, then what nothing resolves, and then what is accepted: in each of these HIPER, then PE. The page has the same order."""
    place = 3 if is_accepted else 0 if status == "GOOD" or not status and fix else 1 if status else 2
    return place, CLASSES.get(name, 2), RANKS.get(status, 2)


# --- Exception SYSMODs --------------------------------------------------------------------------------------------------


def holds_of_all(desk):
    """Each hold of all zones: the row of its best resolver, received ones first, the zones that have it, and those in which it is accepted."""
    found = {}
    for zone, _ in desk.zones():
        accepted = Accepted(desk, zone)
        for hold, rows in reports.holds_of("errsysmods", reports.report_of(desk, "errsysmods", zone, DATE="date")).items():
            row, zones, apart = found.setdefault(hold, ({}, [], []))
            best = min([row, *rows] if row else rows, key=lambda each: (RANKS.get(each["STATUS"], 2), each["RECEIVED"] != "YES"))
            row.update(best)
            (apart if hold in accepted else zones).append(zone)
    return found


def errsysmods_of_all(desk, csv=False, alert=(), symptoms=None):
    """One list over all zones."""
    found = holds_of_all(desk)
    known = symptoms_of(desk, symptoms) if found or symptoms else None

    def place(hold):
        row, zones, _ = found[hold]
        return urgency(row["CLASS"], row["STATUS"], known and known.fix(*hold), not zones), hold

    is_apart = any(apart for _, _, apart in found.values())
    rows = []
    for hold in sorted(found, key=place):
        row, zones, apart = found[hold]
        fix = [known.fix(*hold) if row["STATUS"] else known.order(*hold)] if known else []
        rows.append([*(row[name] for name in WIDTHS), *fix, " ".join(zones), *([" ".join(apart)] if is_apart else [])])
    widths = [*WIDTHS.values(), *([max([3, *(len(row[6]) for row in rows)]) + 2] if known else [])]
    widths += [max([5, *(len(row[len(widths)]) for row in rows)]) + 2]
    columns = [*WIDTHS, *(["FIX"] if known else []), "ZONES", *(["ACCEPTED"] if is_apart else [])]
    classes = {row["CLASS"] for row, zones, _ in found.values() if zones}
    if classes and ("ANY" in alert or classes & set(alert)):
        run.ends_with(4)
    table(columns, widths, rows, csv)


# --- Lists of zones -----------------------------------------------------------------------------------------------------


def sent_zones(desk):
    """The zones whose lists this client has sent."""
    place = Changes(desk).sent("zones")
    return sorted(os.listdir(place)) if os.path.isdir(place) else []


def states_of(desk, zone):
    """The SYSMODs of a list with their states. It is one that a desk has accepted."""
    data = Changes(desk).copy("zones/" + zone)
    if data is None:
        raise Stop(1, f"no list of the zone {zone} was sent from here")
    records = csv_files.reader(data.decode("utf-8-sig").splitlines())
    return {record[0].strip(" \t"): record[1].strip(" \t") for record in list(records)[1:] if len(record) > 1}


def compare(desk, one, other, csv=False):
    """Prints the SYSMODs that two zones have in different states, or one of them not at all."""
    lists = [states_of(desk, zone) for zone in (one, other)]
    rows = [[sysmod, *(states.get(sysmod, "") for states in lists)] for sysmod in sorted({*lists[0], *lists[1]})]
    table(["SYSMOD", one, other], [9, 12, 0], [row for row in rows if row[1] != row[2]], csv)


def installed(desk, sysmod, csv=False):
    """Prints the zones whose lists have a SYSMOD, with its state in each."""
    zones = sent_zones(desk)
    rows = [[zone, states_of(desk, zone)[sysmod]] for zone in zones if sysmod in states_of(desk, zone)]
    if not rows:
        say(f"of the {len(zones)} zones whose lists were sent from here none has {sysmod}")
    table(["ZONE", "STATE"], [9, 0], rows, csv)
