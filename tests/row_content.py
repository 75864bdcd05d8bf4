"""Rows of content: what is published, a zone, and what `bureau chain`, `errsysmods`, `missingfix` and `holds` say of them.

    publish                    publishes the lines before it
    zone ROW..                 the zone has these rows, as UA10001,APPLIED, and the lines before it
    received ID..              these SYSMODs are received
    categories                 the zone's patterns of categories are the lines before it
    fault                      the first fault of the lines before it, which are not published
    verdict ID..               of each id, and of those on the lines before it, a line: GOOD and its plan, HELD and the need that
                               blocks it, or LACK
    chain ID..                 the same with chains, as JSON
    members ID                 the same chain, with a line for each member
    errors                     the report of exception SYSMODs
    missing                    the report of missing fixes

Words that only the crate `content_rows` knows are in ELSEWHERE.
"""
import json
import os
import subprocess
import tempfile

from row_files import Unreadable, lines_of_run

ELSEWHERE = {"room", "answers", "changes", "touched", "catalogued", "record", "givers", "frame", "nodes", "in-frame", "statuses", "together",
             "candidates", "unkept", "kept", "kept-nodes", "built", "same", "reads", "fails"}


class Content:
    """What a case has published so far, and the lists of its zone, as files in a folder."""

    def __init__(self, program, room):
        self.program, self.room = program, room
        self.publications = []
        self.write("zone", ["SYSMOD,STATE"])
        self.write("received", ["SYSMOD"])
        self.write("categories", ["CATEGORY"])
        self.write("nothing", ["++RELEASE(NOTHING) USER REASON(NOTHING)."])

    def write(self, name, lines):
        with open(os.path.join(self.room, name), "w", encoding="utf-8") as file:
            file.writelines(f"{line}\n" for line in lines)
        return name

    def run(self, command, *words, files=None):
        """What the program prints, or tells."""
        words = [self.program, command, "--zone", "zone", "--name", "TGT1", *words, *(files or self.publications or ["nothing"])]
        return lines_of_run(subprocess.run(words, cwd=self.room, capture_output=True))

    def publish(self, row):
        self.publications.append(self.write(f"publication.{len(self.publications)}", row.given))
        return []

    def zone(self, row):
        self.write("zone", ["SYSMOD,STATE", *row.rest.split(), *row.given])
        return []

    def received(self, row):
        self.write("received", ["SYSMOD", *row.rest.split(), *row.given])
        return []

    def categories(self, row):
        self.write("categories", ["CATEGORY", *row.given])
        return []

    def fault(self, row):
        return [line.removesuffix(" suspect") for line in self.run("chain", "UA1", files=[self.write("suspect", row.given)])]

    def chain_of(self, sysmod):
        return self.run("chain", sysmod)

    def chain(self, row):
        return [line for sysmod in ids_of(row) for line in self.chain_of(sysmod)]

    def members(self, row):
        return "\n".join(self.chain(row)).replace('{"id":', '\n{"id":').split("\n")

    def verdict(self, row):
        return [verdict_of(sysmod, self.chain_of(sysmod)) for sysmod in ids_of(row)]

    def errors(self, _):
        return self.run("errsysmods", "--received", "received")

    def missing(self, _):
        return self.run("missingfix", "--received", "received", "--categories", "categories")

    def answer(self, row):
        if row.word in ELSEWHERE:
            return None
        if row.word not in WORDS:
            raise Unreadable(f"{row.place}: an unknown word: {row.word}")
        if row.word in ALONE and (row.rest or row.given):
            raise Unreadable(f"{row.place}: {row.word} takes nothing")
        return getattr(self, row.word)(row)


WORDS = {"publish", "zone", "received", "categories", "fault", "chain", "members", "verdict", "errors", "missing"}
ALONE = {"errors", "missing"}


def ids_of(row):
    """The ids that a row asks for: those on its own line, and on the lines before it."""
    return [*row.rest.split(), *row.given]


def verdict_of(sysmod, chain):
    """A verdict in words, of its chain, which must be written as each chain is. Of another chain all that was printed."""
    try:
        told = json.loads(chain[0])
    except ValueError:
        return " ".join(chain)
    plan = [member["id"] for member in told.get("plan", [])]
    blocked = [told["blocked"]] if "blocked" in told else []
    wanted = {"GOOD": ["plan"], "HELD": ["blocked"], "LACK": []}.get(told.get("status"), [])
    is_plain = json.dumps(told, separators=(",", ":"), sort_keys=True) == chain[0] and len(chain) == 1
    if sorted(told) != sorted([*wanted, "status", "sysmod", "zone"]) or told["sysmod"] != sysmod or not is_plain:
        return " ".join(chain)
    return " ".join([told["status"], *plan, *blocked])


def answers(program, case):
    """Of each row of a case what the program says."""
    with tempfile.TemporaryDirectory() as room:
        content = Content(program, room)
        for row in case.rows:
            yield row, content.answer(row), ""
