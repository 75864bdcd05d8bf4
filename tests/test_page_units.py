#!/usr/bin/env python3
"""The parts of the page that touch no browser, each by itself in node, by unittest: what is chosen, and what is made of it.

    test_page_units.py [-v] [NAME..]
"""
import atexit
import json
import os
import shutil
import subprocess
import sys
import tempfile
import unittest

TOP = os.path.dirname(os.path.dirname(os.path.abspath(__file__)))
sys.path.insert(0, os.path.join(TOP, "clients"))
sys.dont_write_bytecode = True

from bureau_client import jobs
from service import main

PLACE = tempfile.mkdtemp(prefix="bureau-tests-")
atexit.register(shutil.rmtree, PLACE, True)
shutil.copytree(os.path.join(TOP, "clients", "page"), PLACE + "/page")
with open(PLACE + "/package.json", "w") as package:
    package.write('{"type": "module"}\n')

FACTS = """
const report = (...holds) => ({ holds: holds.map(([sysmod, reason, name, ...ids]) =>
    ({ sysmod, reason, class: name, resolvers: ids.map((id) => ({ id })) })) });
const errors = report(['UA1', 'AA1', 'HIPER', 'UB1', 'UB2'], ['UA2', 'AA2', 'PE', 'UB2'], ['UA3', 'AA3', 'PE', 'UB3']);
const reports = [errors, report(['HBB7790', 'AA9', '', 'UB3'])];
const member = (id, system = [], user = []) => ({ id, system, user });
const chain = (sysmod, ...plan) => ({ sysmod, zone: 'TGT1', status: 'GOOD', plan });
const CHAINS = {
    UB1: chain('UB1', member('UB1', ['IPL']), member('UB9')),
    UB2: chain('UB2', member('UA3'), member('UB2'), member('UB9')),
    UB3: chain('UB3', member('UB2'), member('UB3', [], ['OURS'])),
    UB4: { sysmod: 'UB4', status: 'HELD', blocked: 'AA4' }, UA3: { sysmod: 'UA3', status: 'HELD', blocked: 'AA5' }, UB5: { sysmod: 'UB5', status: 'LACK' },
};
const facts = (ids) => ({ holds: holdsOf(ids, reports), isReceived: (id) => id !== 'UB3' && id !== 'UB9', isInstalled: (id) => id.startsWith('UA') });
const wanted = (ids, only = []) => wantedOf(ids.map((id) => CHAINS[id]), only, facts(ids));
"""


def in_node(script, imports="Choice, MOST, chosenIn, holdsOf, titleOf, together, wantedOf"):
    """What a script of the page's modules prints as JSON."""
    with open(PLACE + "/run.js", "w") as file:
        file.write("import { %s } from './page/choice.js';\nimport { jobOf } from './page/job.js';\n" % imports)
        file.write("import { addressOf, whereIs } from './page/address.js';\nimport { sumsByDay } from './page/words.js';\n")
        file.write("import { byUrgency } from './page/holds.js';\nimport { countsIn } from './page/report.js';\n%s\n" % FACTS)
        file.write("const tell = (value) => console.log(JSON.stringify(value));\n" + script)
    done = subprocess.run(["node", PLACE + "/run.js"], capture_output=True, text=True)
    if done.returncode:
        raise AssertionError(done.stderr)
    return json.loads(done.stdout)


class Chosen(unittest.TestCase):
    def test_boxes(self):
        """What is chosen stands in order, each once; too many are refused whole."""
        told = in_node("""const choice = new Choice(); const many = Array.from({ length: MOST }, (_, at) => 'U' + at);
            tell([choice.set(['UB2', 'UB1'], true), choice.set(['UB2'], true), choice.ids, choice.address, choice.has('UB1'),
                choice.set(['UB1', 'UB9'], false), choice.ids, choice.set(many, true), choice.ids, choice.set(many.slice(1), true), choice.ids.length]);""")
        self.assertEqual(told, [True, True, ["UB1", "UB2"], "UB1+UB2", True, True, ["UB2"], False, ["UB2"], True, 200])

    def test_address(self):
        """An address names several with a + between them, and leads back to them."""
        address = "#TGT1/errors/UB1+U@#$?class=HIPER"
        told = in_node("""const address = addressOf({ zone: 'TGT1', tab: 'errors', sysmod: 'UB1+U@#$', words: 'class=HIPER' });
            const { sysmod } = whereIs(address);
            tell([address, sysmod, chosenIn(sysmod), chosenIn('UB1'), chosenIn(''), chosenIn('UB1+'), chosenIn('UB1+U/1')]);""")
        self.assertEqual(told, [address.replace("@#$", "%40%23%24"), "UB1+U@#$", ["UB1", "U@#$"], None, None, None, None])


class Sums(unittest.TestCase):
    def test_by_day(self):
        """The sums begin where each zone has counts. A zone without counts of a day has those of its last day."""
        days = [[["1", {"holds": 5}], ["3", {"holds": 7}]], [["2", {"holds": 1}], ["4", {"holds": 0}]]]
        told = in_node("tell(sumsByDay(%s, 'holds'));" % json.dumps(days))
        self.assertEqual(told, [["2", 6], ["3", 8], ["4", 7]])

    def test_counts_of_a_desk(self):
        """The counts of a desk are taken as they are, and what is none of its zone is refused."""
        errors = {"held": 4, "hiper": 3, "holds": 9, "other": 1, "pe": 5, "resolved": 3, "rows": 12, "sysmods": 7, "unresolved": 2}
        told = {"errsysmods": errors, "missingfix": {"holds": 6, "rows": 8}, "zone": "A"}
        wrong = [{**told, "zone": "B"}, {**told, "missingfix": {}}, {**told, "errsysmods": {**errors, "pe": "5"}}, []]
        got, *refused = in_node("""const of = (told) => {
            try { return countsIn(JSON.stringify(told), 'A'); } catch (fault) { return fault.constructor.name; } };
            tell(%s.map(of));""" % json.dumps([told, *wrong]))
        self.assertEqual(got, {"accepted": 0, "order": 0, "holds": 9, "hiper": 3, "pe": 5, "other": 1, "unresolved": 2, "held": 4, "good": 3, "fixes": 6})
        self.assertEqual(refused, ["NoReport"] * 4)

    def test_what_comes_first(self):
        """That about which something can be done, then what is held, then what nothing resolves, and then what is accepted."""
        told = in_node("""const RANKS = { GOOD: 0, HELD: 2, none: 6 };
            const hold = (id, classRank, status, more) => ({ sysmod: id, reason: '', classRank, status, rank: RANKS[status], order: 0, ...more });
            const holds = [hold('A', 0, 'none'), hold('B', 1, 'HELD'), hold('C', 0, 'HELD'), hold('D', 2, 'GOOD'),
                hold('E', 0, 'GOOD', { accepted: {} }), hold('F', 0, 'GOOD'), hold('G', 0, 'none', { fix: 'U1' })];
            const ids = (symptoms) => [...holds].sort(byUrgency(symptoms)).map(({ sysmod }) => sysmod).join('');
            tell([ids(undefined), ids({ fixOf: ({ fix }) => fix })]);""")
        self.assertEqual(told, ["FDCBAGE", "FGDCBAE"])


class Together(unittest.TestCase):
    def test_only(self):
        """Which chains are left out: those for no HIPER hold, those that need what was not received, and those with a restart."""
        for only, left in (
            ([], []),
            (["hiper"], ["UB3 is for no HIPER hold"]),
            (["received"], ["UB1 needs what was not received", "UB2 needs what was not received", "UB3 needs what was not received"]),
            (["ipl"], ["UB1 needs an IPL"]),
            (["hiper", "ipl"], ["UB1 needs an IPL", "UB3 is for no HIPER hold"]),
        ):
            self.assertEqual(in_node("tell(wanted(['UB1', 'UB2', 'UB3'], %s).left);" % json.dumps(only)), left, only)

    def test_what_is_installed_is_none(self):
        """An installed member neither has to be received nor to be heeded."""
        told = in_node("""CHAINS.UB2.plan = [member('UA7', ['IPL']), member('UB2')]; tell(wanted(['UB2'], ['received', 'ipl']).left);""")
        self.assertEqual(told, [])

    def test_a_job(self):
        """The job is the client's, to the byte: of chains that share members, with those that can't be installed."""
        for ids in (["UB1"], ["UB1", "UB2"], ["UB1", "UB2", "UB3"], ["UB2", "UB4"], ["UA3", "UB2", "UB5"], ["UB4"]):
            told = in_node("""const ids = %s; const { wanted: chains, notes } = wanted(ids); const plan = together('TGT1', chains, notes, facts(ids));
                tell([ids.map((id) => CHAINS[id]), jobOf(plan, titleOf('TGT1', ids, 'published 9 SYSMODs and 7 holds, asked now'))]);""" % json.dumps(ids))
            chains, got = told
            installed = {"UA1", "UA2", "UA3"}
            resolved = {"UB1": [("UA1", "AA1")], "UB2": [("UA1", "AA1"), ("UA2", "AA2")], "UB3": [("UA3", "AA3"), ("HBB7790", "AA9")]}
            good = [chain for chain in chains if chain["status"] == "GOOD"]
            members = jobs.members_of(good, resolved, {"UB1", "UB2", "UA3"}, installed)
            notes = [jobs.why_not(chain, installed) for chain in chains if chain["status"] != "GOOD"]
            title = "Chain%s of %s in zone TGT1, published 9 SYSMODs and 7 holds, asked now" % ("s" if len(ids) > 1 else "", ", ".join(ids))
            self.assertEqual(got, jobs.job_of([("TGT1", members)], notes, title, jobs.Form()))

    def test_a_plan(self):
        """All that the chains have, each SYSMOD once: so each member's needs are met by those of its own chain."""
        script = "const ids = ['UB1', 'UB2', 'UB3']; tell(together('TGT1', wanted(ids).wanted, [], facts(ids)).members.map((one) => [one.id, one.needed_by]));"
        self.assertEqual(in_node(script), [["UB1", []], ["UB2", ["UB3"]], ["UB3", []], ["UB9", ["UB1", "UB2"]]])


if __name__ == "__main__":
    main("page's parts")
