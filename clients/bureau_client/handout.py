"""What is handed on: the holds, fixes and plans of all zones, or of some, as one page of HTML, a mail, a workbook or CSV."""
import os
import re
import time
from email.message import EmailMessage
from http.client import HTTPException

from . import ages, jobs, reports, run
from .accepted import Accepted
from .across import RANKS, urgency
from .desk import escaped, in_form
from .run import NoAnswer, Stop, csv_line, say
from .symptoms import symptoms_of

COLUMNS = ("REPORT", "ZONE", "SYSMOD", "REASON", "CLASS", "CATEGORY", "FMID", "DATE", "RESOLVER", "STATUS", "RECEIVED", "FIX", "UNTIL", "WHY")
PLAN = ("REPORT", "ZONE", "STEP", "SYSMOD", "RECEIVED", "FOR", "NEEDED BY", "SYSTEM HOLDS", "USER HOLDS")
NAMES = {"errsysmods": "error", "missingfix": "fix"}


class Hold:
    """A hold of a report, with a row for each resolver, and for each category of a fix. FIX is what can be done where nothing resolves it."""

    def __init__(self, kind, key, rows, known, accepted):
        self.kind, (self.sysmod, self.reason), self.rows = kind, key, rows
        self.name, self.date, self.fmid = rows[0].get("CLASS", ""), rows[0]["DATE"], rows[0]["FMID"]
        self.categories = list(dict.fromkeys(row["CATEGORY"] for row in rows)) if kind == "missingfix" else []
        self.status = min((row["STATUS"] for row in rows), key=lambda each: RANKS.get(each, 2))
        self.resolvers = sorted(
            {(RANKS.get(row["STATUS"], 2), row["RECEIVED"] != "YES", row["RESOLVER"]): row for row in rows if row["RESOLVER"]}.items()
        )
        self.is_accepted, self.until_why = key in accepted, accepted.holds.get(key, ("", ""))
        self.fix = known.fix(*key) if known and kind == "errsysmods" else ""
        self.has_symptoms = bool(known) and kind == "errsysmods"

    def place(self):
        return urgency(self.name, self.status, self.fix, self.is_accepted)


class Zone:
    """What is handed on of a zone."""

    def __init__(self, desk, zone, sysmods, known):
        accepted = Accepted(desk, zone)
        rows = {kind: reports.report_of(desk, kind, zone, DATE="date") for kind in reports.KINDS}
        self.zone, self.is_accepting = zone, accepted.is_known
        self.counts = reports.counts_of(zone, sysmods, *rows.values(), accepted, known)
        self.holds = {
            kind: sorted((Hold(kind, key, found, known, accepted) for key, found in reports.holds_of(kind, rows[kind]).items()), key=Hold.place)
            for kind in rows
        }
        self.plans = {kind: plan_of(desk, zone, kind) for kind in rows}


def plan_of(desk, zone, kind):
    """The members of a plan, each with its step, or nothing where the desk has no plans."""
    desk.send("GET", f"/zones/{escaped(zone)}/{kind}/plan.json")
    if desk.status == 404:
        return []
    form = {"report": kind, "zone": zone, "members": [{**jobs.PLAN["members"][0], "step": int}]}
    return in_form(desk.need_200(), form, NoAnswer)["members"]


class Handout:
    """What is handed on, of some zones or of all."""

    def __init__(self, desk, named, symptoms):
        all_zones = desk.zones()
        counts = dict(all_zones)
        for zone in named:
            if zone not in counts:
                raise Stop(1, f"{desk.url} has no zone {zone} of yours")
        chosen = list(dict.fromkeys(named)) or list(counts)
        if not chosen:
            raise Stop(1, f"{desk.url} has no zone of yours")
        self.asked = time.strftime("%Y-%m-%d %H:%M")
        self.known = symptoms_of(desk, symptoms)
        self.newest, self.number = ages.published_at(desk)
        self.zones = [Zone(desk, zone, counts[zone], self.known) for zone in chosen]
        self.level = desk.ask("/published").decode("ascii", "replace").strip()
        self.page = page_of(desk)
        self.columns = list(reports.columns_of(self.known, any(zone.is_accepting for zone in self.zones)))[:-1]  # without SENT

    @property
    def title(self):
        named = [zone.zone for zone in self.zones]
        return "bureau: " + (named[0] if len(named) == 1 else f"{len(named)} zones") + ", " + self.asked[:10]

    def rows(self):
        """The rows of both reports of each zone, the most urgent holds first."""
        for zone in self.zones:
            for kind in reports.KINDS:
                for hold in zone.holds[kind]:
                    for row in hold.rows:
                        yield [NAMES[kind], zone.zone, hold.sysmod, hold.reason, hold.name, row.get("CATEGORY", ""), hold.fmid, hold.date,
                               row["RESOLVER"], row["STATUS"], row["RECEIVED"], hold.fix, *hold.until_why]

    def members(self):
        """The members of both plans of each zone, in their order."""
        for zone in self.zones:
            for kind in reports.KINDS:
                for member in zone.plans[kind]:
                    held = " ".join(f"{hold['sysmod']} {hold['reason']}" for hold in member["holds"])
                    more = [" ".join(member[name]) for name in ("needed_by", "system", "user")]
                    yield [NAMES[kind], zone.zone, str(member["step"]), member["id"], "YES" if member["received"] else "NO", held, *more]

    def csv(self):
        return "".join(map(csv_line, [COLUMNS, *self.rows()]))

    def text(self):
        """The overview as text, for whoever reads mails without HTML."""
        widths = {name: max(len(name), *(len(str(zone.counts[name])) for zone in self.zones)) + 2 for name in self.columns}
        lines = [self.columns, *([str(zone.counts[name]) for name in self.columns] for zone in self.zones)]
        table = ["".join(text.ljust(width) for text, width in zip(line, widths.values())).rstrip() for line in lines]
        return "\n".join([*table, "", self.level + ", asked " + self.asked]) + "\n"


def page_of(desk):
    """The address of the page that a front has beside the desk, or nothing."""
    try:
        status, data = desk.exchange("GET", "/page/", "", None)
        return desk.url + "/page/" if status == 200 and b"<title>bureau</title>" in data else ""
    except (OSError, ValueError, HTTPException):
        return ""


def report(desk, *zones, html=False, csv=False, mail="", xlsx="", symptoms=None):
    """Prints what is handed on, or writes a workbook."""
    if bool(html) + bool(csv) + bool(mail) + bool(xlsx) != 1:
        raise Stop(2, "report wants one of --html, --csv, --mail ADDRESS and --xlsx FILE")
    if mail and not re.fullmatch(r"[^\s<>,;:]+", mail):
        raise Stop(2, f"'{mail}' is no address for a mail")
    made = Handout(desk, zones, symptoms)
    if csv:
        run.out(made.csv())
    elif xlsx:
        write_workbook(made, xlsx)
    else:
        from .handout_page import page  # most runs make none

        run.out(page(made) if html else mail_to(mail, made.title, made.text(), page(made)))


def mail_to(address, title, text, html):
    """A mail, as `sendmail -t` takes it."""
    message = EmailMessage()
    message["To"], message["Subject"] = address, title
    message.set_content(text)
    message.add_alternative(html, subtype="html")
    return message.as_bytes()


def write_workbook(made, path):
    """Writes a workbook by openpyxl, and CSV where that is not there. All fields are texts but the counts, so none is taken for a formula."""
    try:
        from openpyxl import Workbook
    except ImportError:
        other = (path[: -len(".xlsx")] if path.endswith(".xlsx") else path) + ".csv"
        run.write(other, made.csv().encode())
        return say(f"openpyxl is not there (Debian: python3-openpyxl), so that no workbook can be made: {other} has the rows as CSV")
    book = Workbook()
    book.remove(book.active)
    counts = [[zone.counts[name] for name in made.columns] for zone in made.zones]
    for name, heading, rows in (("Overview", made.columns, counts), ("Holds", COLUMNS, made.rows()), ("Plans", PLAN, made.members())):
        sheet = book.create_sheet(name)
        widths = [len(each) for each in heading]
        for at, row in enumerate([heading, *rows], 1):
            for column, value in enumerate(row, 1):
                cell = sheet.cell(at, column)
                cell.value = value
                if isinstance(value, str):
                    cell.data_type = "s"
                widths[column - 1] = min(60, max(widths[column - 1], len(str(value))))
        for letter, width in zip("ABCDEFGHIJKLMNOPQRSTUVWXYZ", widths):
            sheet.column_dimensions[letter].width = width + 2
        sheet.freeze_panes, sheet.auto_filter.ref = "A2", sheet.dimensions
    with run.or_stop(f"{path} can't be written"):
        book.save(path + ".new")
        os.replace(path + ".new", path)
