#!/usr/bin/env python3
"""Times reports of a desk in service over a file: the text beside the JSON.

    served_reports.py PROGRAM

PROGRAM is the built program. Of 3,000, 9,000 and 30,000 SYSMODs a third is installed and held in error, each with a resolver: reports
of 1,000, 3,000 and 10,000 rows. Then one FIXCAT hold has 100, 300 and 1,000 categories and 10 resolvers: as many rows. Prints for each
report its rows, and of the text and of the JSON the bytes of the reply, and the milliseconds of processor time that the desk takes for
it, the least of five, after the first one, in turns. Last it prints the exponents with which the JSON grows. Linux, Python 3.9.
"""
import http.client
import json
import math
import os
import subprocess
import sys
import tempfile

from served_chains import free_port

ROUNDS = 5
FUNCTION = "++FUNCTION(HBB7790).\n++VER(Z038).\n"


def many_holds(count):
    """A third of so many SYSMODs is held for a reason each, which another one supersedes."""
    parts = [FUNCTION]
    for place in range(count // 3):
        parts.append("++PTF(U%06d).\n++VER(Z038) FMID(HBB7790).\n" % place)
        parts.append("++PTF(V%06d).\n++VER(Z038) FMID(HBB7790) SUP(A%06d).\n" % (place, place))
        parts.append("++PTF(W%06d).\n++VER(Z038) FMID(HBB7790) PRE(V%06d).\n" % (place, place))
        parts.append("++HOLD(U%06d) ERROR FMID(HBB7790)\n REASON(A%06d) CLASS(PE) DATE(%02d%03d).\n" % (place, place, place % 100, 1 + place % 365))
    return "".join(parts), ["HBB7790"] + ["U%06d" % place for place in range(count // 3)], count // 3


def many_categories(count):
    """One hold with so many categories, and ten that resolve it."""
    parts = [FUNCTION] + ["++PTF(V%06d).\n++VER(Z038) FMID(HBB7790) SUP(A000001).\n" % place for place in range(10)]
    categories = ",\n ".join("IBM.Category.%04d.RequiredService" % place for place in range(count))
    parts.append("++HOLD(HBB7790) FIXCAT FMID(HBB7790)\n REASON(A000001) DATE(25119) CATEGORY(\n %s).\n" % categories)
    return "".join(parts), ["HBB7790"], 10 * count


class Desk:
    """A desk over a new store, with a publication and a zone."""

    def __init__(self, program, folder, published, installed):
        callers, store = os.path.join(folder, "callers.csv"), os.path.join(folder, "store")
        with open(callers, "w") as out:
            out.write("NAME,TOKEN\nPUBLISH,publisher-token\nALPHA,alpha-token\n")
        self.start(program, store, callers)
        self.ask("POST", "/publish", "publisher-token", published, 1)
        self.ask("PUT", "/zones/TGT1", "alpha-token", "SYSMOD,STATE\n" + "".join("%s,APPLIED\n" % name for name in installed), 1)
        self.ask("PUT", "/zones/TGT1/categories", "alpha-token", "CATEGORY\n*\n", 2)

    def start(self, program, store, callers):
        """Makes the store, and begins to serve."""
        subprocess.run([program, "init", store, callers], check=True, stdout=subprocess.DEVNULL)
        port = free_port()
        self.process = subprocess.Popen([program, "serve", "--port", str(port), store], stdout=subprocess.PIPE)
        self.process.stdout.readline()
        self.line = http.client.HTTPConnection("127.0.0.1", port, timeout=600)

    def ask(self, method, path, token="alpha-token", body=None, number=None):
        """The milliseconds of processor time that the desk takes, and the reply."""
        heads = {"bureau-token": token, **({"bureau-number": str(number)} if number else {})}
        began = self.used()
        self.line.request(method, path, body, heads)
        reply = self.line.getresponse()
        text = reply.read()
        took = self.used() - began
        if reply.status != 200:
            sys.exit("%s %s: %d %r" % (method, path, reply.status, text[:300]))
        return took, text

    def used(self):
        """Milliseconds that the desk was on a processor."""
        with open("/proc/%d/schedstat" % self.process.pid) as times:
            return int(times.read().split()[0]) / 1e6

    def end(self):
        self.line.close()
        self.process.terminate()
        self.process.wait()


def compared(program, made, report):
    """Prints a row of the table, and tells the time of the JSON."""
    published, installed, rows = made
    with tempfile.TemporaryDirectory() as folder:
        desk = Desk(program, folder, published, installed)
        try:
            paths = ["/zones/TGT1/" + report, "/zones/TGT1/%s.json" % report]
            text, told = (desk.ask("GET", path)[1] for path in paths)
            if not text.endswith(b"ROWS %d\n" % rows) or len(json.loads(told)["rows"]) != rows:
                sys.exit("%s has other rows than %d" % (report, rows))
            times = [min(column) for column in zip(*([desk.ask("GET", path)[0] for path in paths] for _ in range(ROUNDS)))]
        finally:
            desk.end()
    print("| `%s` | %d | %d | %.1f | %d | %.1f |" % (report, rows, len(text), times[0], len(told), times[1]), flush=True)
    return times[1]


def main():
    program, sizes = os.path.abspath(sys.argv[1]), (100, 300, 1000)
    print("| Report | Rows | Text, bytes | ms | JSON, bytes | ms |\n|---|---|---|---|---|---|")
    errors = [compared(program, many_holds(30 * size), "errsysmods") for size in sizes]
    fixes = [compared(program, many_categories(size), "missingfix") for size in sizes]
    print("exponents of the JSON: %s" % ", ".join("%.2f" % math.log10(times[-1] / times[0]) for times in (errors, fixes)))


if __name__ == "__main__":
    main()
