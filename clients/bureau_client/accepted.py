"""Known and accepted: holds that a site has decided to live with, until a day. No desk knows of them.

The site keeps them in accepted.csv of its folder. `sync` looks at the file, and keeps a copy of it in the folder of the desk.
"""
import csv
import datetime
import os
import re

from . import ages, run
from .changes import Changes
from .run import ID, refused

NAME = "accepted.csv"
COLUMNS = ["ZONE", "SYSMOD", "REASON", "UNTIL", "WHY"]


def records_in(data):
    """The records of a file, each with its line, and those that are none, each with what is wrong."""
    reader = csv.reader(data.decode("utf-8-sig", "replace").splitlines())
    good, bad = [], [] if next(reader, None) == COLUMNS else [(1, f"it does not begin with {','.join(COLUMNS)}")]
    for record in reader if not bad else ():
        fault = fault_of(record) if record else None
        if fault:
            bad.append((reader.line_num, fault))
        elif record:
            good.append([each.strip() for each in record])
    return good, bad


def fault_of(record):
    if len(record) != len(COLUMNS):
        return f"it has {len(record)} fields, and not {len(COLUMNS)}"
    zone, *ids, until, _ = (each.strip() for each in record)
    if not (zone == "*" or ID.fullmatch(zone)) or not all(map(ID.fullmatch, ids)):
        return "ZONE, SYSMOD or REASON is no id; ZONE may be *, which is any"
    if until and not day_of(until):
        return "UNTIL is no day, as 2027-03-31"
    return None


def day_of(text):
    try:
        return datetime.date.fromisoformat(text) if re.fullmatch(r"\d{4}-\d\d-\d\d", text) else None
    except ValueError:
        return None


def keep(changes, folder):
    """Keeps a copy of the file of a site's folder. One with a fault is refused whole, and the copy stays as it was."""
    path, copy = f"{folder}/{NAME}", f"{changes.folder}/{NAME}"
    if not os.path.isfile(path):
        return run.remove(copy)
    data = run.bytes_of(path)
    bad = records_in(data)[1]
    for line, fault in bad:
        refused(f"{path}, line {line}: {fault}")
    if not bad and (not os.path.isfile(copy) or run.bytes_in(copy) != data):
        run.write(copy, data)


class Accepted:
    """The holds of a zone that are accepted today: a SYSMOD and a reason, each with UNTIL and WHY. Without an UNTIL it has no end."""

    def __init__(self, desk, zone):
        path, today = f"{Changes(desk).folder}/{NAME}", ages.today()
        self.is_known = os.path.isfile(path)
        records = records_in(run.bytes_in(path))[0] if self.is_known else []
        self.holds = {
            (sysmod, reason): (until, why)
            for named, sysmod, reason, until, why in records
            if named in ("*", zone) and (not until or today <= day_of(until))
        }

    def __contains__(self, hold):
        return hold in self.holds

    def told(self, hold):
        """What is said of a hold: nothing where it is not accepted."""
        if hold not in self.holds:
            return ""
        until, why = self.holds[hold]
        return " ".join(["ACCEPTED", *(["UNTIL", until] if until else []), *([why] if why else [])])
