"""Requests that are drawn anew at each run, always the same ones: of the publisher and three clients at one desk.

What is wanted is what a desk in plain Python says (`tests/plain_desk.py`), which was written from the rules alone. What a SYSMOD requires
under a condition comes and goes, and what is required is held and released. The rows are those of a desk (`tests/row_desk.py`), so each is
asked with room for few frames and for many, over a file, and where the other clients ask nothing.
"""
import random

import row_desk
from plain_desk import PlainDesk
from row_files import BASE, Case, Row

CALLS = 1000
ZONES, SYSMODS = ["TGT1", "TGT2"], ["UA10001", "UA10002", "UA10020"]
PUBLICATIONS = [
    BASE,
    ["++PTF(UA10005).", "++VER(Z038) FMID(HBB7790) SUP(UA10002)."],
    ["++PTF(UA10005).", "++VER(Z038) FMID(HBB7790) SUP(UA10002).", "++IF FMID(HXX0001) REQ(UA10021)."],
    ["++PTF(UA10020).", "++VER(Z038) FMID(HBB7790).", "++IF FMID(HXX0001) THEN REQ(UA10021)."],
    ["++PTF(UA10020).", "++VER(Z038) FMID(HBB7790)."],
    ["++FUNCTION(HXX0001).", "++VER(Z038).", "++PTF(UA10021).", "++VER(Z038) FMID(HXX0001)."],
    ["++HOLD(UA10002) ERROR FMID(HBB7790) REASON(AA30003).", "++HOLD(UA10021) ERROR FMID(HXX0001) REASON(AA30004).",
     "++HOLD(HBB7790) FIXCAT FMID(HBB7790) REASON(AA40001) RESOLVER(UA10009)", " CATEGORY(IBM.Device)."],
    ["++RELEASE(UA10002) ERROR FMID(HBB7790) REASON(AA30003).", "++RELEASE(UA10021) ERROR FMID(HXX0001) REASON(AA30004)."],
]
BODIES = {
    "zone": [
        ["SYSMOD,STATE", "HBB7790,APPLIED", "UA10001,APPLIED"], ["SYSMOD,STATE", "HBB7790,APPLIED"],
        ["SYSMOD,STATE", "HBB7790,APPLIED", "UA10001,ACCEPTED", "UA10002,APPLIED"], ["no header"],
        ["SYSMOD,STATE", "HBB7790,APPLIED", "HXX0001,APPLIED"], ["SYSMOD,STATE", "HBB7790,APPLIED", "HXX0001,SUPERSEDED"],
        ["SYSMOD,STATE", "HBB7790,APPLIED", "HXX0001,ACCEPTED", "UA10001,APPLIED"],
        ["SYSMOD,STATE", "HBB7790,APPLIED", "HXX0001,APPLIED", "UA10021,ACCEPTED"],
    ],
    "received": [["SYSMOD", "UA10002"], ["SYSMOD", "UA10005", "UA10002"], ["SYSMOD"], ["SYSMOD,STATE"]],
    "categories": [["CATEGORY", "*"], ["CATEGORY", "IBM.Device"], ["CATEGORY"], ["CATEGORY", "IBM.*.X"]],
}
CHANGES = ["PUT /zones/{zone} zone", "PUT /zones/{zone} zone", "PUT /zones/{zone} zone", "PUT /received received",
           "PUT /zones/{zone}/categories categories", "DELETE /zones/{zone} "]
QUESTIONS = ["/zones", "/zones.json", "/published", "/published.json", "/zones/{zone}/chains/{sysmod}", "/zones/{zone}/chains/{sysmod}",
             "/zones/{zone}/counts.json",
             *(f"/zones/{{zone}}/{report}{end}" for report in ("errsysmods", "missingfix") for end in ("", ".json", "/plan", "/plan.json"))]
# what some request is told: each status; a chain with what is required, one that it blocks, one without; a report in which that shows
TOLD = ["\n200\n", "\n400\n", "\n404\n", "\n409\n", "\n422\n", '"UA10020","system":[],"user":[]},{"id":"UA10021"', '"blocked":"UA10021"',
        '{"plan":[{"id":"UA10020","system":[],"user":[]}],"status":"GOOD","sysmod":"UA10020","zone":"TGT2"}',
        "HBB7790  UA10001  AA20002  UA10005  HELD   NO       PE"]


def number_after(draw, last):
    """Mostly the number after the last one, or none."""
    return draw.choice([None, last, last + 2, last - 1, *[last + 1] * 6])


def drawn_request(draw, last):
    """A request, with the lines of its body."""
    caller = draw.choice(list(row_desk.CALLERS))
    names = {"zone": draw.choice(ZONES), "sysmod": draw.choice(SYSMODS)}
    number = number_after(draw, last[caller])
    if caller == "PUBLISH":
        words, given = "POST /publish", draw.choice(PUBLICATIONS)
    elif draw.random() < .5:
        words, _, body = draw.choice(CHANGES).format(**names).rpartition(" ")
        given = draw.choice(BODIES.get(body, [[]]))
    else:
        return caller, f"{caller} GET {draw.choice(QUESTIONS).format(**names)}", []
    return caller, " ".join([caller, words, *([str(number)] if number is not None and number >= 0 else [])]), given


def case():
    """The rows, with what the plain desk says of each."""
    draw, desk, made = random.Random(20261129), PlainDesk(row_desk.CALLERS), Case("drawn requests")
    last = dict.fromkeys(row_desk.CALLERS, 0)
    for at in range(CALLS):
        caller, text, given = drawn_request(draw, last)
        row = Row(f"drawn request {at}", text, given)
        row.wanted = next(row_desk.replies(desk.connection(row_desk.request(row))[0]))
        last[caller] = desk.last[caller][0]
        made.rows.append(row)
    return made


def answers(program):
    """Of each row what the program says, in each way; and whether each of TOLD was drawn."""
    rows = case()
    yield from row_desk.answers(program, rows)
    told = "".join(f"\n{line}\n" for row in rows.rows for line in row.wanted)
    for text in TOLD:
        row = Row("drawn requests", f"one is told {text.strip()}", [])
        row.wanted = ["yes"]
        yield row, ["yes" if text in told else "no"], ""
