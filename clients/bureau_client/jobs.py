"""Chains, plans, and the jobs for SMP/E that are made of them."""
import csv
import re
import textwrap
import time

from . import run
from .changes import Changes
from .desk import escaped, fits, in_form
from .reports import KINDS, TITLES, holds_of, report_of, tables_in, tell_why_empty
from .run import ID, NoAnswer, Stop, say
from .symptoms import symptoms_of

# Control statements, as SMP/E writes them into SMPPUNCH. They stand in columns 1 to 71. Column 1 is blank, since `/*` there
# would end the data of a DD * statement. clients/page/job.js makes the same bytes, which the tests of plans see to.
COLUMNS = 71
NONE = "HOLDS WITHOUT GOOD OR HELD RESOLVER"  # the title of a table of a plan


# --- The questions: a function for each command -------------------------------------------------------------------------


def chain(desk, zone, sysmod):
    run.out(desk.ask(path_of_chain(zone, sysmod)) + b"\n")  # its JSON has no line end


def plan(desk, zone, fixes=False, symptoms=None):
    report = report_for(fixes)
    data = ask_plan(desk, zone, report, "plan")
    tables = list(tables_in(data.decode("latin-1").removesuffix("\n").split("\n"), desk.no_report))
    if tables[0][0] != TITLES[report] % "PLAN" + zone:
        raise desk.no_report()
    none = next((at for at, table in enumerate(tables) if table[0] == NONE), None)
    if none and len(tables[none]) > 2 and not fixes and (known := symptoms_of(desk, symptoms)):
        tables[none] = with_fixes(tables[none], known)
        data = "".join("\n".join([*table, f"ROWS {len(table) - 2}\n"]) for table in tables).encode("latin-1", "replace")
    run.out(data)
    if all(len(table) == 2 for table in tables):
        tell_why_empty(desk, report, zone)


def with_fixes(table, known):
    """The holds that nothing resolves, each with what can be done: the fix to order by name, where one is known."""
    title, heading, *rows = table
    return [title, heading.ljust(18) + "FIX", *(row.ljust(18) + known.order(*row.split()[:2]) for row in rows)]


def job(desk, zone="", *sysmods, fixes=False, zones="", all=False, **wanted):
    form = Form(**wanted)
    if sysmods:
        return job_of_chains(desk, zone, list(dict.fromkeys(sysmods)), form)
    named = [zone] if zone else list(dict.fromkeys(zones.split(","))) if zones else [each for each, _ in desk.zones()]
    if not named:
        raise Stop(1, f"{desk.url} has no zone of yours")
    job_of_plans(desk, named, report_for(fixes), form)


def report_for(fixes):
    return "missingfix" if fixes else "errsysmods"


def path_of_chain(zone, sysmod):
    return f"/zones/{escaped(zone)}/chains/{escaped(sysmod)}"


def ask_plan(desk, zone, report, form):
    """The plan for a report. A desk of an earlier version has none. It answers 404 then, as if the zone were not there."""
    desk.send("GET", f"/zones/{escaped(zone)}/{report}/{form}")
    if desk.status == 404:
        if zone in [each for each, _ in desk.zones()]:
            raise Stop(1, f"{desk.url} has no plans: its program is of an earlier version")
        raise Stop(1, f"{desk.url} has no zone {zone} of yours")
    return desk.need_200()


# --- Control statements -------------------------------------------------------------------------------------------------


def comment(text):
    """A comment, in as many lines as it takes. No text here has `*/` in it."""
    lines = textwrap.wrap(text.upper(), COLUMNS - 7, break_long_words=False, break_on_hyphens=False)
    return [f" /* {line} */" for line in lines]


def list_of(ids):
    """Ids in lines of eight."""
    lines = [",".join(ids[at : at + 8]) for at in range(0, len(ids), 8)]
    return ["    " + line for line in ",\n".join(lines).split("\n")]


def named(holds):
    return ", ".join(f"{sysmod} ({reason})" for sysmod, reason in holds)


def about(member):
    """Why a member is there, and what to heed."""
    id, lines = member["id"], []
    if member["holds"]:
        lines += comment(f"{id} FOR {named(member['holds'])}")
    if member["needed_by"]:
        lines += comment(f"{id} IS NEEDED BY {', '.join(member['needed_by'])}")
    for kind in ("system", "user"):
        for reason in member[kind]:
            lines += comment(f"{id} HAS A {kind} HOLD: {reason}")
    return lines


class Form:
    """How a job is written. JCL is the data set of the CSI, for a job card and a step; ORDER asks IBM for what is not received; HOLDCLASS are
    classes of holds to bypass; RETRY tries again out of space; and APPLY leaves CHECK out."""

    def __init__(self, jcl="", order=False, holdclass="", retry=False, apply=False):
        self.jcl, self.is_ordered, self.is_applied, self.retry = jcl, order, apply, [" RETRY(YES)"] if retry else []
        self.classes = holdclass.split(",") if holdclass else []
        if jcl and (len(jcl) > 44 or not re.fullmatch(r"[A-Z@#$][A-Z0-9@#$-]{0,7}(\.[A-Z@#$][A-Z0-9@#$-]{0,7})*", jcl)):
            raise Stop(2, f"'{jcl}' is no name of a data set, as SMPE.GLOBAL.CSI")
        if not all(map(ID.fullmatch, self.classes)):
            raise Stop(2, f"--holdclass takes classes with commas between them, as ERREL,HIPER, and not '{holdclass}'")

    def receive(self, ids):
        if not self.is_ordered:
            return [" RECEIVE SYSMODS SELECT(", *list_of(ids), "    )."]
        note = comment("ORDSRVR and CLIENT are the names of two DD statements: those of the order server and of its client")
        return [*note, " RECEIVE SYSMODS HOLDDATA ORDER(", "    CONTENT(PTFS(", *list_of(ids), "    ))", "    ORDERSERVER(ORDSRVR) CLIENT(CLIENT)", "    )."]

    def bypass(self, members):
        """The BYPASS of the classes, and commented out that of SYSTEM and USER holds, which has the classes too: there may be one alone."""
        one = [" BYPASS(HOLDCLASS(", *list_of(self.classes), "    ))"] if self.classes else []
        other = bypass(members, self.classes)
        return [*one, *(comment("or, in its place:") if one and other else []), *other]

    def whole(self, text):
        """A job card and a step around the statements, where they are wanted. No statement begins in column 1, so none ends the data."""
        if not self.jcl:
            return text
        card = ["//BUREAU   JOB (ACCT),'SMP/E',CLASS=A,MSGCLASS=H", "//SMPE     EXEC PGM=GIMSMP,", f"//         PARM='CSI={self.jcl}'", "//SMPCNTL  DD *"]
        return "\n".join(card) + "\n" + text + "/*\n"


def bypass(members, classes=()):
    """What SYSTEM and USER holds need, commented out: whoever has done what they ask takes the comment marks away. It is one
    operand with all reasons, as SMP/E's manuals write it."""
    reasons = {kind: sorted({reason for member in members for reason in member[kind]}) for kind in ("system", "user")}
    lists = [("HOLD" + kind.upper(), found) for kind, found in reasons.items() if found]
    if not lists:
        return []
    lists = [*([("HOLDCLASS", list(classes))] if classes else []), *lists]
    lines = ["BYPASS(%s)" % ",".join(f"{name}({','.join(found)})" for name, found in lists)]
    if len(lines[0]) > COLUMNS - 7:
        parts = ["\n".join([name + "(", *(line.strip() for line in list_of(found)), ")"]) for name, found in lists]
        lines = ["BYPASS(", *",\n".join(parts).split("\n"), ")"]
    return [f" /* {line} */" for line in lines]


def job_of(parts, left_over, title, form):
    """The job that installs members in zones: each part is a zone with its members. LEFT_OVER says what it can't install, a sentence each.
    What several zones want is received once."""
    notes = [title, "made by bureau, and not tried on a real z/OS. Read it before you run it.", *left_over]
    notes += [] if any(members for _, members in parts) else ["nothing can be installed"]
    lines = [line for note in notes for line in comment(note)]
    to_receive = dict.fromkeys(member["id"] for _, members in parts for member in members if not member["received"])
    if to_receive:
        lines += ["", " SET BOUNDARY(GLOBAL).", *form.receive(list(to_receive))]
    for zone, members in parts:
        if members:
            lines += ["", *(line for member in members for line in about(member)), "", f" SET BOUNDARY({zone})."]
            ids = [member["id"] for member in members]
            lines += [" APPLY SELECT(" if form.is_applied else " APPLY CHECK SELECT(", *list_of(ids), "    )", *form.retry, *form.bypass(members), " ."]
    return form.whole("\n".join(lines) + "\n")


# --- What a desk answers ------------------------------------------------------------------------------------------------


# What stands in a job goes to SMP/E as statements: so each id has to be one.
MEMBER = {"id": ID, "system": [ID], "user": [ID]}
HOLD = {"sysmod": ID, "reason": ID}
PLAN = {"members": [{**MEMBER, "received": bool, "needed_by": [ID], "holds": [HOLD]}], "unresolved": [HOLD], "held": [HOLD]}
CHAINS = ({"status": "LACK"}, {"status": "HELD", "blocked": ID}, {"status": "GOOD", "plan": [MEMBER]})


def ask_chain(desk, zone, sysmod):
    chain = in_form(desk.ask(path_of_chain(zone, sysmod)), {"zone": zone, "sysmod": sysmod}, NoAnswer)
    if not any(fits(chain, form) for form in CHAINS) or chain["status"] == "GOOD" and sysmod not in [each["id"] for each in chain["plan"]]:
        raise NoAnswer()
    return chain


def pairs_of(holds):
    return [(hold["sysmod"], hold["reason"]) for hold in holds]


def age_of(desk, asked):
    """How old a job is, as its title says it."""
    level = re.fullmatch(rb"PUBLISHED SYSMODS (\d+) HOLDS (\d+)\n", desk.ask("/published"))
    if not level:
        raise NoAnswer()
    sysmods, holds = (each.decode() for each in level.groups())
    return f"published {sysmods} SYSMODs and {holds} holds, asked {asked}"


def now():
    return time.strftime("%Y-%m-%d %H:%M:%S")


# --- The job of SYSMODs with their chains -------------------------------------------------------------------------------


def members_of(chains, resolved, received, installed):
    """The members of all plans, each once, in ascending order. What is installed is none. RESOLVED has the holds that each resolver
    resolves."""
    members = {}
    for chain in chains:
        for member in chain["plan"]:
            id = member["id"]
            if id in installed:
                continue
            one = members.setdefault(id, {**member, "received": id in received, "holds": [], "needed_by": []})
            if id == chain["sysmod"]:
                one["holds"] = resolved.get(id, [])
            else:
                one["needed_by"].append(chain["sysmod"])
    return [members[id] for id in sorted(members)]


def why_not(chain, installed):
    if chain["status"] == "HELD" and chain["sysmod"] in installed:
        return f"{chain['sysmod']} is installed, and is held in error: {chain['blocked']} is needed, and nothing that can be installed gives it"
    if chain["status"] == "HELD":
        return f"{chain['sysmod']} can't be installed: {chain['blocked']} is in the way"
    return f"{chain['sysmod']} is not published, or is for a function that the zone lacks"


def resolvers_of(reports):
    """The holds that each resolver resolves, and which resolvers were received."""
    resolved, received = {}, set()
    for kind, all_rows in reports.items():
        for hold, rows in holds_of(kind, all_rows).items():
            if not fits(list(hold), [ID]):
                raise NoAnswer()
            for row in rows:
                resolved.setdefault(row["RESOLVER"], {})[hold] = True
                received |= {row["RESOLVER"]} if row["RECEIVED"] == "YES" else set()
    return {resolver: list(holds) for resolver, holds in resolved.items()}, received


def received_list(desk):
    """The ids of the received list that this client sent last. It is one that a desk has accepted."""
    records = csv.reader((Changes(desk).copy("received") or b"").decode("utf-8-sig").split("\n"))
    return {record[0].strip(" \t") for record in records if record}


def job_of_chains(desk, zone, sysmods, form):
    """Which members of a chain were received, the rows of both reports tell of resolvers, and the list that was sent of all."""
    asked = now()
    reports = {kind: report_of(desk, kind, zone) for kind in KINDS}
    age = age_of(desk, asked)
    chains = [ask_chain(desk, zone, each) for each in sysmods]
    resolved, received = resolvers_of(reports)
    installed = {row["SYSMOD"] for row in reports["errsysmods"]}  # only what is installed is an exception SYSMOD
    good = [chain for chain in chains if chain["status"] == "GOOD"]
    left_over = [why_not(chain, installed) for chain in chains if chain["status"] != "GOOD"]
    title = f"Chain{'s' if len(sysmods) > 1 else ''} of {', '.join(sysmods)} in zone {zone}, {age}"
    members = members_of(good, resolved, received | received_list(desk), installed)
    run.out(job_of([(zone, members)], left_over, title, form))
    for sentence in left_over:
        run.refused(sentence)


# --- The job of a plan, or of several -----------------------------------------------------------------------------------


def several(number, word):
    return f"{number} {word}{'' if number == 1 else 's'}"


def plan_for(desk, zone, report):
    """The members of a plan, and the holds that it leaves over: those that nothing resolves, and those whose resolvers are all held."""
    data = ask_plan(desk, zone, report, "plan.json")
    plan = in_form(data, {**PLAN, "report": report, "zone": zone}, NoAnswer)
    members = [{**member, "holds": pairs_of(member["holds"])} for member in plan["members"]]
    return zone, members, pairs_of(plan["unresolved"]), pairs_of(plan["held"])


def job_of_plans(desk, zones, report, form):
    """A plan tells of each member whether it was received."""
    asked = now()
    plans = [plan_for(desk, zone, report) for zone in zones]
    age, is_one = age_of(desk, asked), len(zones) == 1
    left_over = []
    for zone, _, unresolved, held in plans:
        place = "" if is_one else f"in zone {zone} "
        left_over += [f"{place}nothing resolves {named(unresolved)}"] if unresolved else []
        left_over += [f"{place}all resolvers are held of {named(held)}"] if held else []
    subject = "exception SYSMODs" if report == "errsysmods" else "missing fixes"
    title = f"Plan for the {subject} of zone {zones[0]}, {age}" if is_one else f"Plans for the {subject} of zones {', '.join(zones)}, {age}"
    run.out(job_of([plan[:2] for plan in plans], left_over, title, form))
    option = "" if report == "errsysmods" else "--fixes "
    for zone, members, unresolved, held in plans:
        if unresolved or held:
            told = f"{several(len(unresolved), 'hold')} that nothing resolves, and {several(len(held), 'hold')}"
            say(f"left over: {told} of which all resolvers are held. 'bureau-client plan {option}{zone}' tells more")
        elif not members:
            say("nothing is to be installed" + ("" if is_one else f" in zone {zone}") + ": the plan has no member")
