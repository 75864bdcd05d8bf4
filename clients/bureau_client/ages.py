"""How old what is known is: the newest hold, the last publication, and the lists that this client sent."""
import datetime
import json
import os
from http.client import HTTPException

from .changes import Changes
from .run import visible

NAME = "publication.json"  # what a publisher keeps beside the page of a front
OLD = 7  # days from which on something is old


def today():
    return datetime.date.today()


def published_at(desk):
    """The newest day of a hold and the number of the last publication, where a front tells them, else two empty ones."""
    try:
        status, data = desk.exchange("GET", "/page/" + NAME, "", None)
        told = json.loads(data) if status == 200 else {}
        newest, number = told.get("newest"), told.get("number")
    except (OSError, ValueError, AttributeError, RecursionError, HTTPException):
        return "", 0
    return visible(newest) if isinstance(newest, str) else "", number if isinstance(number, int) else 0


def sent_on(desk, zone):
    """The day on which this client sent the list of a zone last, or None."""
    path = Changes(desk).sent("zones/" + zone)
    return datetime.date.fromtimestamp(os.stat(path).st_mtime) if os.path.isfile(path) else None


def days_since(day):
    """How many days have passed since a day, or None where it is none."""
    try:
        return (today() - (day if isinstance(day, datetime.date) else datetime.date.fromisoformat(day))).days
    except ValueError:
        return None


def is_old(day):
    days = days_since(day)
    return days is not None and days >= OLD


def coloured(colour, text):
    """A text that whoever looks at a terminal sees in a colour: 33 is yellow, and 90 grey."""
    return f"\033[{colour}m{text}\033[0m" if os.isatty(1) else text
