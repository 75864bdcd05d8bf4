"""Symptoms: what SMRTDATA in the COMMENT of holds says. They name the fix of a hold, also one that nobody has published.

`publish` keeps them in a file, and a front serves it beside the page. The reports join it to their rows.
"""
import csv
from http.client import HTTPException

from . import run
from .run import Stop, csv_line, visible

COLUMNS = ("SYSMOD", "REASON", "DATE", "CHGDT", "SYMP", "FIX")  # of the file
JOINED = COLUMNS[2:]  # what a row of a report gets of it
NAME = "symptoms.csv"
PATH = "/page/" + NAME  # where a front has it
NOTHING = "nothing known"


class NoSymptoms(Exception):
    """A file that is none of symptoms."""


class Symptoms:
    """The symptoms of holds. Those of a hold are those of the last record for its SYSMOD and reason."""

    def __init__(self, data=b""):
        self.known = {}
        if data:
            first, *records = list(csv.reader(data.decode("utf-8-sig", "replace").splitlines(True))) or [None]
            if first != list(COLUMNS):
                raise NoSymptoms()
            for record in records:
                if len(record) == len(COLUMNS):
                    self.put([each.removeprefix("'") for each in record])

    def put(self, record):
        self.known[tuple(record[:2])] = list(map(visible, record[2:]))

    def fields(self, sysmod, reason):
        """DATE, CHGDT, SYMP and FIX of a hold, which are empty where nothing is known of it."""
        return self.known.get((sysmod, reason), [""] * len(JOINED))

    def fix(self, sysmod, reason):
        return self.fields(sysmod, reason)[-1]

    def order(self, sysmod, reason):
        """What can be done about a hold that nothing published resolves."""
        fix = self.fix(sysmod, reason)
        return "order " + fix if fix else NOTHING

    def data(self):
        return "".join(map(csv_line, [COLUMNS, *([*key, *fields] for key, fields in self.known.items())])).encode()


def symptoms_in(path):
    """Those of a file of the user's."""
    try:
        return Symptoms(run.bytes_of(path) or b"\n")
    except NoSymptoms:
        raise Stop(1, f"{path} does not begin with {','.join(COLUMNS)}: publication --symptoms makes such a file") from None


def symptoms_of(desk, path=None):
    """Those of a file that is named, or else those that the front of a desk has, or None. A desk without a front has none, and no run
    fails for want of them."""
    if path:
        return symptoms_in(path)
    try:
        status, data = desk.exchange("GET", PATH, "", None)
        return Symptoms(data) if status == 200 and data else None
    except (OSError, ValueError, HTTPException, NoSymptoms):
        return None
