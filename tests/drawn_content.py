"""Rows that are drawn anew at each run, always the same ones: what is published, zones, and the verdicts there.

What is wanted comes from a plain slow body, which tries every set of the eight SYSMODs: one that has all that its members need is a plan,
and what stands in a plan is good. The rows are those of a desk (`tests/row_desk.py`), and the same of files
(`tests/row_content.py`). `tests/rows.py` runs them.

    tests/drawn_content.py PROGRAM RUNS [SEED]      draws other publications, and more of them: 12 of each run
"""
import json
import random
import sys
import tempfile

import row_content
import row_desk
import row_files

IDS = range(8)
EVERY = 0xFF
CONTENTS, OF_FILES, RUNS, PUBLICATIONS = 300, 100, 20, 12
# the zone has the first function of conditions, not the second, and the third as SUPERSEDED
ZONE = {"HYY0001": "ACCEPTED", "HYY0003": "SUPERSEDED"}


def has(ids, it):
    return ids >> it & 1 == 1


def names(ids):
    return [f"UA1000{it}" for it in IDS if has(ids, it)]


class Content:
    """What is catalogued, by number: of each SYSMOD its function, what it needs, by which condition, and what it supersedes. Sets of
    SYSMODs are numbers, whose bits tell who is in them."""

    def __init__(self):
        self.records = {}
        self.reasons = [0] * len(IDS)

    def given_by(self, it):
        """All that a SYSMOD gives."""
        if it not in self.records:
            return 0
        given = 1 << it
        for _ in IDS:
            for other in IDS:
                if has(given, other) and other in self.records:
                    given |= self.records[other]["sup"]
        return given

    def given(self, ids):
        given = 0
        for it in IDS:
            given |= self.given_by(it) if has(ids, it) else 0
        return given

    def verdicts(self, functions, listed, installed):
        """The verdict on each SYSMOD, in a zone that has these functions installed and these SYSMODs listed and installed."""
        there = listed | self.given(installed)
        candidates = [it for it in IDS if it in self.records and self.records[it]["fmid"] in functions]
        given = [self.given_by(it) for it in IDS]
        needs = [0] * len(IDS)
        for it in candidates:
            record = self.records[it]
            needs[it] = (record["needs"] | self.reasons[it]) & ~there
            for function, required in record["conds"]:
                needs[it] |= required & ~there if function in functions else 0
        good = 0
        for ids in range(EVERY + 1):
            members = [it for it in IDS if has(ids, it)]
            gives = 0
            for it in members:
                gives |= given[it]
            if all(it in candidates and needs[it] & ~gives == 0 for it in members):
                good |= ids
        return [self.verdict(it, good, candidates, needs, given) for it in IDS]

    def verdict(self, it, good, candidates, needs, given):
        def pick(need):
            return need if has(good, need) else next((it for it in IDS if has(good, it) and has(given[it], need)), None)

        if has(good, it):
            chosen = 1 << it
            for _ in IDS:
                for other in IDS:
                    for need in IDS:
                        chosen |= 1 << pick(need) if has(chosen, other) and has(needs[other], need) else 0
            return ["GOOD", *names(chosen)]
        if it in candidates:
            return ["HELD", f"UA1000{next(need for need in IDS if has(needs[it], need) and pick(need) is None)}"]
        return ["LACK"]


def chain(zone, it, verdict):
    """A chain as JSON."""
    told = {"status": verdict[0], "sysmod": f"UA1000{it}", "zone": zone}
    if verdict[0] == "GOOD":
        told["plan"] = [{"id": name, "system": [], "user": []} for name in verdict[1:]]
    if verdict[0] == "HELD":
        told["blocked"] = verdict[1]
    return json.dumps(told, sort_keys=True, separators=(",", ":"))


def operand(name, ids):
    return [f" {name}({','.join(names(ids))})"] if ids else []


def statements(it, record):
    """The statements that publish a SYSMOD."""
    yield f"++PTF(UA1000{it})."
    yield f"++VER(Z038) FMID({record['fmid']})"
    yield from [*operand("PRE", record["pre"]), *operand("REQ", record["needs"] & ~record["pre"]), *operand("SUP", record["sup"]), " ."]
    for function, required in record["conds"]:
        yield from [f"++IF FMID({function})", *operand("REQ", required), " ."] if required else []


def hold(verb, it, reason):
    return f"++{verb}(UA1000{it}) ERROR FMID(HBB7790) REASON(UA1000{reason})."


def drawn_content(draw):
    """A content, the statements that publish it, and the rows of a zone with what of it is listed and installed."""
    def rare(rarity):
        ids = EVERY
        for _ in range(rarity):
            ids &= draw.getrandbits(8)
        return ids

    content, lines = Content(), []
    catalogued = rare(1) | rare(1)
    for it in IDS:
        needs, is_of_zone = rare(2), draw.random() < .75
        record = {"fmid": "HBB7790" if is_of_zone else "HXX0001", "needs": needs & 0x1F, "pre": needs & 0x07, "sup": rare(3),
                  "conds": [(f"HYY000{number}", rare(3)) for number in (1, 2, 3)]}
        if has(catalogued, it):
            content.records[it] = record
            lines += statements(it, record)
        content.reasons[it] = needs & (0xE0 if has(catalogued, it) else EVERY)
        lines += [hold("HOLD", it, reason) for reason in IDS if has(content.reasons[it], reason)]
    listed = rare(2)
    installed = listed & rare(1)
    rows = [f"UA1000{it},{'ACCEPTED' if has(installed, it) else 'SUPERSEDED'}" for it in IDS if has(listed, it)]
    zone = ["HBB7790,APPLIED", *(f"{function},{state}" for function, state in ZONE.items()), *rows]
    verdicts = content.verdicts({"HBB7790", "HYY0001"}, listed, installed)
    return lines, zone, verdicts


def content_case(draw, number):
    """Rows of a drawn content, from files."""
    lines, zone, verdicts = drawn_content(draw)
    it = number % len(IDS)
    return [*lines, "publish", f"zone {' '.join(zone)}", f"chain UA1000{it}", f"= {chain('TGT1', it, verdicts[it])}"]


def asked_at_desk(zone, verdicts):
    for it, verdict in zip(IDS, verdicts):
        yield from [f"ALPHA GET /zones/{zone}/chains/UA1000{it}", "= 200", f"= {chain(zone, it, verdict)}"]


def put_zone(zone, rows, number):
    return [*(f"|{row}" for row in ["SYSMOD,STATE", *rows]), f"ALPHA PUT /zones/{zone} {number}", "= 200", f"= ZONE {zone} ROWS {len(rows)}"]


def accepted(lines, number):
    """A publication, and what it is told."""
    sysmods, holds, releases = (sum(line.startswith(verb) for line in lines) for verb in ("++PTF", "++HOLD", "++RELEASE"))
    return [*(lines or ["|"]), f"PUBLISH POST /publish {number}", "= 200", f"= ACCEPTED SYSMODS {sysmods} HOLDS {holds} RELEASES {releases}"]


def desk_case(draw, _):
    """Rows of a drawn content, at a desk."""
    lines, zone, verdicts = drawn_content(draw)
    return [*accepted(lines, 1), *put_zone("TGT1", zone, 1), *asked_at_desk("TGT1", verdicts)]


# one function of the conditions is installed in one of the zones, and listed in another
ZONES = {
    "TGT1": (["HBB7790,APPLIED", "UA10003,APPLIED"], {"HBB7790"}, 1 << 3, 1 << 3),
    "TGT2": (["HBB7790,APPLIED", "HXX0001,APPLIED", "UA10003,APPLIED"], {"HBB7790", "HXX0001"}, 1 << 3, 1 << 3),
    "TGT3": (["HBB7790,APPLIED", "HXX0001,SUPERSEDED", "HXX0002,ACCEPTED"], {"HBB7790", "HXX0002"}, 0, 0),
}


def two(draw):
    """Two SYSMODs, or none."""
    return 1 << draw.randrange(8) | 1 << draw.randrange(8) if draw.random() < .5 else 0


def publication(draw, content):
    """The statements of a publication of up to three SYSMODs with a hold and a release, which changes the content."""
    lines = []
    for _ in range(draw.randrange(4)):
        it, pre, req = draw.randrange(8), two(draw), two(draw)
        content.records[it] = {"fmid": "HBB7790", "pre": pre, "needs": pre | req, "sup": two(draw),
                               "conds": [("HXX0001", two(draw)), ("HXX0002", two(draw))]}
        lines += statements(it, content.records[it])
    if draw.random() < .5:
        it, reason = draw.randrange(8), draw.randrange(8)
        content.reasons[it] |= 1 << reason
        lines.append(hold("HOLD", it, reason))
    if draw.random() < .5:
        it, reason = draw.randrange(8), draw.randrange(8)
        content.reasons[it] &= ~(1 << reason)
        lines.append(hold("RELEASE", it, reason))
    return lines


def publications_case(draw, _):
    """Rows of publications, after each of which all chains are asked for in three zones."""
    content, lines = Content(), []
    for number, (zone, (rows, *_)) in enumerate(ZONES.items(), 1):
        lines += put_zone(zone, rows, number)
    for number in range(1, PUBLICATIONS + 1):
        lines += accepted(publication(draw, content), number)
        for zone, (_, functions, listed, installed) in ZONES.items():
            lines += asked_at_desk(zone, content.verdicts(functions, listed, installed))
    return lines


def read(make, count, name, seed=20260101):
    """So many cases, as files of rows are read. They are drawn alike at each run."""
    draw = random.Random(seed)
    for number in range(count):
        reader = row_files.Reader()
        for at, line in enumerate(make(draw, number), 1):
            reader.take(line, f"drawn {name} {number}, line {at}")
        yield from reader.cases


def at_desk(program, case, frames):
    """Of each row of a case what a desk replies that has room for so many frames."""
    with tempfile.TemporaryDirectory() as room:
        row_desk.write(room, "callers", row_desk.CALLERS_FILE)
        told = list(row_desk.replayed(frames, True)(program, room, [row_desk.request(row) for row in case.rows]))
    yield from row_desk.paired(case.rows, told, f"room for {frames} frames")


def answers(program):
    """Of each row that is drawn what the program says."""
    for case in read(content_case, OF_FILES, "content"):
        yield from row_content.answers(program, case)
    for number, case in enumerate(read(desk_case, CONTENTS, "content of a desk")):
        yield from at_desk(program, case, 1 + number % 8)
    yield from after_publications(program, RUNS, 20261124)


def after_publications(program, runs, seed):
    """The same after drawn publications."""
    for number, case in enumerate(read(publications_case, runs, "publications", seed)):
        for frames in (1 + number % 8, 1024):
            yield from at_desk(program, case, frames)


def main(words):
    right = 0
    for row, told, way in after_publications(words[0], int(words[1]), int(words[2]) if words[2:] else 1):
        if told != row.wanted:
            print(f"{row.place}: {row.text} ({way}):\n  told   {told}\n  wanted {row.wanted}")
            return 1
        right += 1
    print(f"{right} answers are right")
    return 0


if __name__ == "__main__":
    sys.exit(main(sys.argv[1:]))
