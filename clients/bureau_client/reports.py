"""The reports of a desk, and what follows from them: CSV, alerts, an overview, what is new, and rows with their symptoms.

What is printed as the desk gives it is its text. All else is read from the desk's JSON.
"""
import functools
import os
import re
from collections import Counter
from contextlib import suppress

from . import ages, run
from .accepted import Accepted
from .changes import Changes
from .desk import ZONES, Unanswered, escaped, in_form, zones_in
from .lists import rows as rows_in_list
from .run import NoAnswer, Stop, csv_line, say
from .symptoms import JOINED, symptoms_of

KINDS = ("errsysmods", "missingfix")
TITLES = {"errsysmods": "EXCEPTION SYSMOD %s FOR ZONE ", "missingfix": "MISSING FIX %s FOR ZONE "}

# The columns of each report, with the keys of the desk's JSON.
COLUMNS = {
    "errsysmods": dict(FMID="fmid", SYSMOD="sysmod", REASON="reason", RESOLVER="resolver", STATUS="status", RECEIVED="received", CLASS="class"),
    "missingfix": dict(CATEGORY="category", FMID="sysmod", REASON="reason", RESOLVER="resolver", STATUS="status", RECEIVED="received"),
}
# Which columns make a row the same row.
KEYS = {"errsysmods": ("SYSMOD", "REASON", "RESOLVER"), "missingfix": ("CATEGORY", "FMID", "REASON", "RESOLVER")}
HELD = {"errsysmods": "SYSMOD", "missingfix": "FMID"}  # the column of the SYSMOD that is held
FIX, FIX_OF_FIXES = 61, 109  # where a column begins that this client adds to the text of a report, from 0


# --- What a desk answers ------------------------------------------------------------------------------------------------


def report_of(desk, kind, zone, **more):
    """The rows of a report, each a dictionary of its columns, and of MORE ones. An absent value is empty."""
    columns, texts = {**COLUMNS[kind], **more}, {None: "", True: "YES", False: "NO"}
    form = {"report": kind, "zone": zone, "rows": [dict.fromkeys(columns.values(), (str, bool, type(None)))]}
    rows = desk.ask_json(f"/zones/{escaped(zone)}/{kind}.json", form)["rows"]
    return [{name: texts.get(row[key], row[key]) for name, key in columns.items()} for row in rows]


def text_of(desk, path, first, above):
    """A report as text. What is none, such as a page of something between, is never shown as one."""
    lines = desk.ask(path).removesuffix(b"\n").split(b"\n")
    if not lines[0].startswith(first.encode()) or lines[-1] != b"ROWS %d" % (len(lines) - above - 1):
        raise desk.no_report()
    return desk.reply


def report_text(desk, kind, zone):
    return text_of(desk, f"/zones/{escaped(zone)}/{kind}", TITLES[kind] % "REPORT" + zone, 2)


def tables_in(lines, fault=NoAnswer):
    """The tables that stand one after the other: each has a title, a heading, its rows, and their number."""
    table = []
    for line in lines:
        if not re.fullmatch(r"ROWS \d+", line):
            table.append(line)
        elif line == f"ROWS {len(table) - 2}":
            yield table
            table = []
        else:
            raise fault()
    if table:
        raise fault()


class Text:
    """A report that stands as text. Its heading tells where its columns begin."""

    def __init__(self, kind, lines):
        self.kind = kind
        self.zone, self.head, self.lines, self.keys = lines[0][len(TITLES[kind] % "REPORT") :], lines[:2], lines[2:], KEYS[kind]
        starts = {found[0]: found.start() for found in re.finditer(r"\S+", lines[1])}
        self.columns = dict(zip(starts, map(slice, starts.values(), [*list(starts.values())[1:], None])))
        more = min((starts[name] for name in ("FIX", "ACCEPTED") if name in starts), default=None)
        self.head[1], *self.lines = (line[:more].rstrip() for line in (lines[1], *lines[2:]))  # what a desk reports

    def column(self, line, name):
        return line[self.columns.get(name, slice(0))].rstrip()

    def hold(self, line):
        """The SYSMOD and the reason of a row."""
        return self.column(line, HELD[self.kind]), self.column(line, "REASON")

    def without(self, accepted):
        """The report without the rows of accepted holds."""
        self.lines = [line for line in self.lines if self.hold(line) not in accepted]
        return self

    def by_key(self):
        return {tuple(self.column(line, name) for name in self.keys): line for line in self.lines}


def texts_in(data):
    """The reports that stand in a text, one after the other, by their kinds."""
    text, found = data.decode(), {}
    for lines in tables_in([line.removesuffix("\r") for line in text.removesuffix("\n").split("\n")] if text else ()):
        kind = next((kind for kind in KINDS if lines[0].startswith(TITLES[kind] % "REPORT")), None)
        if kind is None:
            raise NoAnswer()
        found[kind] = Text(kind, lines)
    return found


# --- The questions: a function for each command -------------------------------------------------------------------------


def published(desk):
    run.out(desk.ask("/published"))


def last(desk):
    run.out(f"{desk.ask_last('client')}\n")


def last_publication(desk):
    run.out(f"{desk.ask_last('publisher')}\n")


def zones(desk, csv=False):
    if csv:
        run.out("ZONE,SYSMODS\n" + "".join(csv_line([zone, str(count)]) for zone, count in desk.zones()))
    else:
        run.out(text_of(desk, "/zones", "ZONE     SYSMODS", 1))


def report(kind, desk, zone="", csv=False, alert=(), symptoms=None, all=False):
    if all:
        from .across import errsysmods_of_all  # it stands on this module

        return errsysmods_of_all(desk, csv, alert, symptoms)
    known, accepted = None, Accepted(desk, zone)
    if csv:
        rows = report_of(desk, kind, zone)
        known, held = known_of(desk, kind, rows, symptoms), HELD[kind]
        answer = csv_of(kind, rows, known, accepted)
        classes = {row.get("CLASS") for row in rows if (row[held], row["REASON"]) not in accepted}
    else:
        answer = report_text(desk, kind, zone)
        rows = not answer.endswith((b"\nROWS 0\n", b"\nROWS 0"))
        known = known_of(desk, kind, rows, symptoms)
        text = texts_in(answer)[kind] if alert or known or accepted.holds else None
        classes = {text.column(line, "CLASS") for line in text.lines if text.hold(line) not in accepted} if alert else ()
        answer = with_more(text, known, accepted) if known or accepted.holds else answer
    if classes and ("ANY" in alert or any(each in classes for each in alert)):
        run.ends_with(4)
    run.out(answer)
    if not rows:
        tell_why_empty(desk, kind, zone)


errsysmods, missingfix = (functools.partial(report, kind) for kind in KINDS)


def known_of(desk, kind, rows, path):
    """The symptoms that are joined to a report, or None. Where it has no row, there is nothing to join, and a front is not asked."""
    return symptoms_of(desk, path) if kind == "errsysmods" and (rows or path) else None


def csv_of(kind, rows, known, accepted):
    """The rows with what is known of the symptoms of their holds, and with UNTIL and WHY of those that are accepted, where a site has a
    list of these."""
    heading = [*COLUMNS[kind], *(JOINED if known else ()), *(("UNTIL", "WHY") if accepted.is_known else ())]
    lines = [csv_line(heading)]
    for row in rows:
        hold = row[HELD[kind]], row["REASON"]
        more = [*(known.fields(*hold) if known else ()), *(accepted.holds.get(hold, ("", "")) if accepted.is_known else ())]
        lines.append(csv_line([*row.values(), *more]))
    return "".join(lines)


def with_more(text, known, accepted):
    """The text of a report with more columns: the fix by name, or of a hold that nothing resolves what can be done; and that a hold is
    accepted. On a terminal such a row is grey."""
    at = FIX if text.kind == "errsysmods" else FIX_OF_FIXES
    width = max([0, *(len(fix_of(text, line, known)) for line in text.lines)]) + 2 if known else 0
    mark = "FIX".ljust(width) if known else ""
    lines = [text.head[0], text.head[1].ljust(at) + (mark + "ACCEPTED" if accepted.holds else mark).rstrip()]
    for line in text.lines:
        told = accepted.told(text.hold(line))
        whole = (line.ljust(at) + (fix_of(text, line, known).ljust(width) if known else "") + told).rstrip()
        lines.append(ages.coloured("90", whole) if told else whole)
    return "\n".join([*lines, f"ROWS {len(text.lines)}\n"])


def fix_of(text, line, known):
    return known.fix(*text.hold(line)) if text.column(line, "STATUS") in ("GOOD", "HELD") else known.order(*text.hold(line))


# --- A report without rows ----------------------------------------------------------------------------------------------


def categories_sent(desk, zone):
    """How many fix categories this client sent for a zone, or None if it sent no list. No desk tells which are set."""
    copy = Changes(desk).copy("categories/" + zone)
    return None if copy is None else rows_in_list(copy)


def tell_why_empty(desk, kind, zone):
    """Says why a report has no rows, as far as the desk tells it and this client knows what it sent."""
    with suppress(Unanswered):
        desk.send("GET", "/published")
        level = desk.first_line() if desk.status == 200 else ""
        if level == "PUBLISHED SYSMODS 0 HOLDS 0":
            say("nothing is published yet, so there is nothing to report")
        elif re.fullmatch("PUBLISHED SYSMODS .* HOLDS 0", level):
            say("no hold is published yet, so there is nothing to report: " + level)
        elif desk.status == 200:
            desk.send("GET", "/zones.json")
            if desk.status == 200:
                say(why_empty(desk, kind, zone, level))


def why_empty(desk, kind, zone, level):
    if (zone, 0) in zones_in(in_form(desk.reply, ZONES, desk.no_report)):
        return f"the zone {zone} has no SYSMOD at {desk.url}: 'bureau-client zone {zone} FILE' sends its list"
    if kind == "errsysmods":
        return f"nothing is wrong: of what is published, no ERROR hold concerns the zone {zone}. {level}"
    count = categories_sent(desk, zone)
    if count:
        spelled = "if each pattern is spelled as a category that 'bureau-client categories --published FILE' lists"
        return f"nothing is wrong: no fix of the categories of the zone {zone} is missing, {spelled}. {level}"
    if count == 0:
        return f"no fix categories are set for the zone {zone}: the list that was sent has none"
    text = f"no fix categories of the zone {zone} were sent from here, and without any the report has no rows:"
    return f"{text} 'bureau-client categories {zone} FILE' sends them"


# --- The overview -------------------------------------------------------------------------------------------------------

# The columns of the overview with their widths. IN-ERROR counts installed SYSMODs, and HOLDS the holds on them: by class,
# and by the best resolver of each. FIXES counts a fix once, however many categories it has.
OVERVIEW = {"ZONE": 9, "SYSMODS": 8, "IN-ERROR": 9, "HOLDS": 7, "HIPER": 7, "PE": 7, "OTHER": 7, "NONE": 7, "HELD": 7, "GOOD": 7, "FIXES": 7}

# Those that a desk counts itself, with the keys of its JSON.
COUNTED = {"IN-ERROR": "sysmods", "HOLDS": "holds", "HIPER": "hiper", "PE": "pe", "OTHER": "other", "NONE": "unresolved", "HELD": "held", "GOOD": "resolved"}


def holds_of(kind, rows):
    """The rows of each hold: of a SYSMOD and a reason. A hold of a fix category may have several categories."""
    found, held = {}, HELD[kind]
    for row in rows:
        found.setdefault((row[held], row["REASON"]), []).append(row)
    return found


def counts_of(zone, sysmods, errors, fixes, accepted, known=None):
    """The counts of a zone, by the columns of the overview. Holds that are accepted count apart."""
    all_holds, all_fixes = holds_of("errsysmods", errors), holds_of("missingfix", fixes)
    holds = {hold: rows for hold, rows in all_holds.items() if hold not in accepted}
    left = [hold for hold in all_fixes if hold not in accepted]
    counts = Counter(dict.fromkeys([*OVERVIEW, "ORDER"], 0))
    for hold, rows in holds.items():
        statuses, kind = {row["STATUS"] for row in rows}, rows[0]["CLASS"]
        counts["GOOD" if "GOOD" in statuses else "HELD" if "HELD" in statuses else "NONE"] += 1
        counts[kind if kind in ("HIPER", "PE") else "OTHER"] += 1
        counts["ORDER"] += bool(known and not rows[0]["RESOLVER"] and known.fix(*hold))
    in_error, apart = len({sysmod for sysmod, _ in holds}), len(all_holds) - len(holds) + len(all_fixes) - len(left)
    return {**counts, "ZONE": zone, "SYSMODS": sysmods, "IN-ERROR": in_error, "HOLDS": len(holds), "FIXES": len(left), "ACCEPTED": apart}


def counts_by_desk(desk, zone):
    """What a desk counts of a zone itself, by the columns of the overview, or None where it is of a version that doesn't."""
    desk.send("GET", f"/zones/{escaped(zone)}/counts.json")
    if desk.status == 404:
        return None
    form = {"errsysmods": dict.fromkeys(COUNTED.values(), int), "missingfix": {"holds": int}, "zone": zone}
    told = in_form(desk.need_200(), form, desk.no_report)
    return {**{name: told["errsysmods"][key] for name, key in COUNTED.items()}, "FIXES": told["missingfix"]["holds"]}


def counts_on(desk, zone, sysmods, known=None):
    """The counts of a zone, by the columns of the overview, and whether fixes are missing at all. The desk counts itself, but for what it
    doesn't know of: holds that are accepted, and fixes by name."""
    accepted = Accepted(desk, zone)
    counts = None if accepted.holds else counts_by_desk(desk, zone)
    if counts and not (known and counts["NONE"]):
        return {**counts, "ZONE": zone, "SYSMODS": sysmods, "ORDER": 0, "ACCEPTED": 0}, counts["FIXES"] > 0
    errors = report_of(desk, "errsysmods", zone)
    if counts:
        return {**counts_of(zone, sysmods, errors, [], accepted, known), "FIXES": counts["FIXES"]}, counts["FIXES"] > 0
    fixes = report_of(desk, "missingfix", zone)
    return counts_of(zone, sysmods, errors, fixes, accepted, known), bool(fixes)


def columns_of(known, is_accepting):
    """The columns of the overview with their widths. ORDER counts the holds of NONE for which a fix is known by name, and ACCEPTED those
    that are accepted. SENT is the day on which this client sent the list of the zone."""
    return {**OVERVIEW, **({"ORDER": 7} if known else {}), **({"ACCEPTED": 9} if is_accepting else {}), "SENT": 0}


def age_line(newest, number):
    """How new the HOLDDATA of the desk is, where a front tells it. On a terminal an old day is yellow."""
    shown = ages.coloured("33", newest) if ages.is_old(newest) else newest
    words = ["HOLDDATA UP TO " + shown] if newest else []
    return " ".join([*words, *([f"PUBLICATION {number}"] if number else [])]) + "\n" if words or number else ""


def overview(desk, csv=False, symptoms=None):
    desk.send("GET", "/zones.json")
    if desk.status == 403:  # the publisher has no zones
        run.out(desk.ask("/published"))
        return run.out(f"LAST PUBLICATION {desk.ask_last('publisher')}\n")
    zones = zones_in(in_form(desk.need_200(), ZONES, desk.no_report))
    known = symptoms_of(desk, symptoms) if zones else None
    newest, number = ages.published_at(desk) if zones else ("", 0)
    columns = columns_of(known, any(Accepted(desk, zone).is_known for zone, _ in zones[:1]))
    lines, without, old = [list(columns)], [], []
    for zone, sysmods in zones:
        counts, has_fixes = counts_on(desk, zone, sysmods, known)
        if not has_fixes and not categories_sent(desk, zone):
            without.append(zone)
        sent = ages.sent_on(desk, zone)
        old += [f"{zone} ({ages.days_since(sent)} days)"] if sent and ages.is_old(sent) else []
        counts["SENT"] = sent.isoformat() if sent else ""
        lines.append([str(counts[name]) for name in columns])
    if csv:
        run.out("".join(map(csv_line, lines)))
    else:
        padded = ["".join(map(str.ljust, line, columns.values())).rstrip() for line in lines]
        for at, line in enumerate(lines[1:], 1):
            if line[-1] and ages.is_old(line[-1]):
                padded[at] = padded[at].removesuffix(line[-1]) + ages.coloured("33", line[-1])
        run.out("\n".join([*padded, f"ROWS {len(lines) - 1}\n"]).encode() + desk.ask("/published") + age_line(newest, number).encode())
    if old:
        say("lists that were sent long ago: " + ", ".join(old))
    if without:
        say("no fix categories were sent from here, so that FIXES may be 0 for that: " + " ".join(without))


# --- What is new --------------------------------------------------------------------------------------------------------


def changes_of(old, new):
    """The lines on what came, went and changed from one report to another, each with a word in front."""
    before, after = old.by_key(), new.by_key()
    came = ["CAME " + line for key, line in after.items() if key not in before]
    went = ["WENT " + line for key, line in before.items() if key not in after]
    changed = [f"WAS  {before[key]}\nNOW  {line}" for key, line in after.items() if before.get(key, line) != line]
    if not came + went + changed:
        return ""
    counts = f"CAME {len(came)} WENT {len(went)} CHANGED {len(changed)}"
    return "\n".join([new.head[0], "     " + new.head[1], *came, *went, *changed, counts]) + "\n"


def news(desk, *named, since=""):
    """Prints what came, went or changed in a zone, or in all of them."""
    for zone in named or [zone for zone, _ in desk.zones()]:
        news_of(desk, zone, since)


def news_of(desk, zone, since):
    """Prints what came, went or changed since the last news, or since the report in a file. The reports of the last news stand in the
    folder of the desk. They are replaced once the news is told."""
    kept = f"{Changes(desk).folder}/news/{zone}"
    old = run.bytes_of(since) if since else run.bytes_in(kept) if os.path.isfile(kept) else None
    accepted = Accepted(desk, zone)
    new = b"".join(without(report_text(desk, kind, zone), accepted) for kind in KINDS)
    if old is None:
        say(f"this is the first news of the zone {zone}: the next tells what came, went or changed from now on")
    else:
        run.out(what_is_new(zone, old, new, since or kept, accepted))
    if not since:
        run.make_folder(os.path.dirname(kept))
        run.write(kept, new)


def without(data, accepted):
    """A report as it is kept: without accepted holds. So one whose UNTIL has passed comes as new."""
    if not accepted.holds:
        return data
    (text,) = texts_in(data).values()
    text.without(accepted)
    return "\n".join([*text.head, *text.lines, f"ROWS {len(text.lines)}\n"]).encode()


def what_is_new(zone, old, new, path, accepted):
    new, reports = texts_in(new), {}
    with suppress(NoAnswer, UnicodeDecodeError):
        reports = texts_in(old)
    if not reports or any(report.zone != zone for report in reports.values()):
        say(f"what was kept is no report on the zone {zone}")
        raise Stop(1, "nothing can be told of " + path)
    return "".join(changes_of(reports[kind].without(accepted), report) for kind, report in new.items() if kind in reports)
