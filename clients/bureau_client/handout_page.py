"""A page of HTML for what is handed on. It stands alone: no script, no font, no picture is fetched. It is dark where the machine is, and
has colours on paper too. Each colour stands beside a word."""
from html import escape

from .reports import KINDS

STYLE = """
:root { color-scheme: light dark; --back: #f4f6f8; --card: #fff; --text: #1c2330; --soft: #566072; --line: #d9dfe7; --accent: #0b5cad;
  --good: #0a6b2d; --held: #a14400; --none: #8a1c7c; --order: #1a4f9c; --hiper: #b3161b; --pe: #9a4a00; --other: #47546b; }
@media (prefers-color-scheme: dark) { :root { --back: #0f141b; --card: #181f29; --text: #e4e9f0; --soft: #9aa6b8; --line: #2c3644;
  --accent: #7ab8ff; --good: #7fdca0; --held: #ffb27a; --none: #f0a3e6; --order: #9cc4ff; --hiper: #ff9c9c; --pe: #ffbe7d; --other: #b7c3d6; } }
body { font: 15px/1.45 system-ui, "Segoe UI", "DejaVu Sans", sans-serif; background: var(--back); color: var(--text);
  margin: 0 auto; max-width: 72rem; padding: 1rem; }
h1 { font-size: 1.5rem; margin: 0; } h2 { font-size: 1.25rem; margin: 2rem 0 .25rem; } h3 { font-size: 1rem; margin: 1.25rem 0 .5rem; }
p { margin: .25rem 0; } a { color: var(--accent); } .soft { color: var(--soft); } .id { font-family: ui-monospace, "DejaVu Sans Mono", monospace; }
.scroll { overflow-x: auto; } table { border-collapse: collapse; width: 100%; background: var(--card); border: 1px solid var(--line); }
th, td { text-align: left; vertical-align: top; padding: .3rem .6rem; border-top: 1px solid var(--line); }
th { color: var(--soft); font-weight: 600; white-space: nowrap; }
td.number, .counts th + th { text-align: right; font-variant-numeric: tabular-nums; } tr.accepted { color: var(--soft); }
b.mark { white-space: nowrap; } .good { color: var(--good); } .held { color: var(--held); } .none { color: var(--none); } .order { color: var(--order); }
.hiper { color: var(--hiper); } .pe { color: var(--pe); } .other { color: var(--other); } .heed { color: var(--held); font-weight: 600; }
@media print { :root { --back: #fff; --card: #fff; --text: #000; --soft: #333; --line: #999; --accent: #000; --good: #0a6b2d; --held: #a14400;
  --none: #8a1c7c; --order: #1a4f9c; --hiper: #b3161b; --pe: #9a4a00; --other: #333; } body { font-size: 9pt; max-width: none; padding: 0; }
  * { print-color-adjust: exact; } tr { break-inside: avoid; } h2, h3 { break-after: avoid; } thead { display: table-header-group; } }
"""
TITLES = {"errsysmods": "Errors", "missingfix": "Fixes"}
TABS = {"errsysmods": "errors", "missingfix": "fixes"}


def mark(name, text):
    return f'<b class="mark {name}">{escape(text)}</b>'


def id_of(text):
    return f'<span class="id">{escape(text)}</span>'


def table(heading, rows, kind="rows"):
    """ROWS have what stands in a `tr`, with its attributes."""
    head = "".join(f"<th scope=col>{escape(each)}</th>" for each in heading)
    return f"<div class=scroll><table class={kind}><thead><tr>{head}</tr></thead><tbody>\n" + "\n".join(rows) + "\n</tbody></table></div>"


def row(cells, attribute=""):
    return f"<tr{attribute}>" + "".join(f"<td>{each}</td>" for each in cells) + "</tr>"


def anchor(zone):
    return "".join(each if each.isalnum() else "_%x" % ord(each) for each in zone)


def encoded(text):
    return text.replace("#", "%23").replace("@", "%40").replace("$", "%24")


def link(made, zone, tab, sysmod, text):
    """A link to the page of the front, where there is one."""
    if not made.page:
        return text
    return f'<a href="{escape(made.page)}#{encoded(zone)}/{tab}' + (f"/{encoded(sysmod)}" if sysmod else "") + f'">{text}</a>'


def overview(made):
    rows = []
    for zone in made.zones:
        cells = [f'<td><a class=id href="#{anchor(zone.zone)}">{escape(zone.zone)}</a></td>']
        for name in made.columns[1:]:
            count, colour = zone.counts[name], {"HIPER": "hiper", "NONE": "none", "HELD": "held", "ORDER": "order"}.get(name)
            cells.append(f"<td class=number>{mark(colour, str(count)) if colour and count else count}</td>")
        rows.append("<tr>" + "".join(cells) + "</tr>")
    return table(made.columns, rows, "counts")


def status_of(hold):
    if hold.status:
        return mark(hold.status.lower(), hold.status)
    if not hold.has_symptoms:
        return mark("none", "none")
    return mark("order", "order " + hold.fix) if hold.fix else mark("none", "nothing known")


def resolvers_of(made, zone, tab, hold):
    """All resolvers, the best one first."""
    lines = []
    for _, one in hold.resolvers:
        received = " received" if one["RECEIVED"] == "YES" else ""
        lines.append(link(made, zone, tab, one["RESOLVER"], id_of(one["RESOLVER"])) + " " + mark(one["STATUS"].lower(), one["STATUS"]) + received)
    return "<br>".join(lines) or '<span class=soft>no resolver</span>'


def holds(made, zone, kind):
    """The holds of a report, a line each."""
    rows, is_errors = [], kind == "errsysmods"
    for hold in zone.holds[kind]:
        first = mark({"HIPER": "hiper", "PE": "pe"}.get(hold.name, "other"), hold.name or "–") if is_errors else escape(", ".join(hold.categories))
        until, why = hold.until_why
        told = "<br>" + escape(" ".join(["accepted", *(["until", until] if until else []), why])) if hold.is_accepted else ""
        cells = [first, id_of(hold.sysmod), id_of(hold.reason), escape(hold.date), status_of(hold) + told, resolvers_of(made, zone.zone, TABS[kind], hold)]
        rows.append(row(cells, " class=accepted" if hold.is_accepted else ""))
    return table(["Class" if is_errors else "Category", "SYSMOD" if is_errors else "FMID", "Reason", "Date", "Status", "Resolvers"], rows)


def plan(made, zone, kind):
    """What to install, in its order."""
    rows = []
    for member in zone.plans[kind]:
        held = ["%(sysmod)s (%(reason)s)" % hold for hold in member["holds"]]
        why = [words + ", ".join(found) for words, found in (("resolves ", held), ("needed by ", member["needed_by"])) if found]
        heed = ", ".join([*("SYSTEM " + each for each in member["system"]), *("USER " + each for each in member["user"])])
        sysmod, received = link(made, zone.zone, "plan", member["id"], id_of(member["id"])), "received" if member["received"] else "no"
        rows.append(row([str(member["step"]), sysmod, received, f"<span class=heed>{escape(heed)}</span>", escape("; ".join(why))]))
    return table(["Step", "SYSMOD", "Received", "Holds to heed", "Why"], rows)


def section(made, zone):
    parts = [f'<h2 id="{anchor(zone.zone)}">{link(made, zone.zone, "errors", "", id_of(zone.zone))}</h2>']
    for kind in KINDS:
        if zone.holds[kind]:
            parts += [f"<h3>{TITLES[kind]}</h3>", holds(made, zone, kind)]
            if zone.plans[kind]:
                parts += [f"<h3>Plan for the {TITLES[kind].lower()}</h3>", plan(made, zone, kind)]
    if len(parts) == 1:
        parts.append("<p class=soft>Nothing is held in error, and no fix of the wanted categories is missing.</p>")
    return "\n".join(parts)


def page(made):
    age = ([f"HOLDDATA up to {made.newest}"] if made.newest else []) + ([f"publication {made.number}"] if made.number else [])
    told = escape(" · ".join([made.level, *age, "asked " + made.asked]))
    parts = [
        "<!doctype html>", '<html lang="en"><head><meta charset="utf-8"><meta name="viewport" content="width=device-width, initial-scale=1">',
        f"<title>{escape(made.title)}</title><style>{STYLE}</style></head><body>", f"<h1>{escape(made.title)}</h1>", f"<p class=soft>{told}</p>",
        overview(made), *(section(made, zone) for zone in made.zones),
        "<p class=soft>GOOD can be installed with its chain. HELD needs something that is missing. APPLY CHECK of SMP/E decides.</p>", "</body></html>",
    ]
    return "\n".join(parts) + "\n"
