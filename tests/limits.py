"""The table of limits, checks/limits.txt: LIMITS.zone_records is how many records a zone's list may have."""
from pathlib import Path
from types import SimpleNamespace

TABLE = Path(__file__).resolve().parent.parent / "checks/limits.txt"


def rows():
    """The name, the value and the places of each limit. A place is a file and the text in which the number stands there."""
    found = []
    for line in TABLE.read_text(encoding="utf-8").splitlines():
        if line.startswith("    "):
            found[-1][2].append(tuple(line.split(maxsplit=1)))
        elif line and not line.startswith("#"):
            name, value, *_ = line.split()
            found.append((name, int(value), []))
    return found


LIMITS = SimpleNamespace(**{name: value for name, value, _ in rows()})
