#!/usr/bin/env python3
"""Times the requests of many clients that ask in turns, beside those of one client alone.

    many_clients.py PROGRAM [CLIENTS [ROWS]]

PROGRAM is the built program. Each of so many clients (1,000) puts two zones of so many SYSMODs (1,000), of which a part is held. Then
the clients ask in turns for the list of their zones and for the ERRSYSMODS of each, twice over; one client alone asks as often. Last
both are asked beside another client, which puts a zone before each request. Prints for each the milliseconds of processor time that the
desk takes for a request, those of the changes left out, and what many take of what one takes. Linux, Python 3.9.
"""
import os
import random
import sys
import tempfile

from served_reports import Desk

FUNCTION = "++FUNCTION(HBB7790).\n++VER(Z038).\n"
NAMES = ["U%06d" % place for place in range(5000)]
PATHS = ("/zones", "/zones/TGT1/errsysmods", "/zones/TGT2/errsysmods")
ROUNDS = 2


def published():
    """5,000 SYSMODs, each tenth of which is held."""
    parts = [FUNCTION]
    for place, name in enumerate(NAMES):
        parts.append("++PTF(%s).\n++VER(Z038) FMID(HBB7790).\n" % name)
        if place % 10 == 0:
            parts.append("++HOLD(%s) ERROR FMID(HBB7790) REASON(A%06d).\n" % (name, place))
    return "".join(parts)


class Many(Desk):
    """A desk over a new store, whose clients have two zones each."""

    def __init__(self, program, folder, clients, rows):
        callers = os.path.join(folder, "callers.csv")
        self.tokens = ["token-of-client-%05d" % place for place in range(clients)]
        with open(callers, "w") as out:
            out.write("NAME,TOKEN\nPUBLISH,publisher-token\nWRITER,writer-token\n")
            out.writelines("C%05d,%s\n" % (place, token) for place, token in enumerate(self.tokens))
        self.start(program, os.path.join(folder, "store"), callers)
        self.ask("POST", "/publish", "publisher-token", published(), 1)
        self.changes = 0
        draw = random.Random(7)
        for token in self.tokens:
            for number in (1, 2):
                names = sorted(draw.sample(NAMES, rows))
                self.ask("PUT", "/zones/TGT%d" % number, token, "SYSMOD,STATE\n" + "".join("%s,APPLIED\n" % name for name in names), number)

    def change(self):
        """Another client's change."""
        self.changes += 1
        self.ask("PUT", "/zones/TGT1", "writer-token", "SYSMOD,STATE\n%s,APPLIED\n" % NAMES[self.changes % 5000], self.changes)

    def turns(self, tokens, beside):
        """The milliseconds for a request, if these clients ask in turns."""
        spent = asked = 0
        for token in tokens:
            for path in PATHS:
                if beside:
                    self.change()
                spent += self.ask("GET", path, token)[0]
                asked += 1
        return spent / asked


def main():
    program = os.path.abspath(sys.argv[1])
    clients, rows = (int(word) for word in [*sys.argv[2:], "1000", "1000"][:2])
    with tempfile.TemporaryDirectory() as folder:
        desk = Many(program, folder, clients, rows)
        try:
            for beside in (False, True):
                desk.turns(desk.tokens, beside)
                one = min(desk.turns(desk.tokens[:1] * clients, beside) for _ in range(ROUNDS))
                many = min(desk.turns(desk.tokens, beside) for _ in range(ROUNDS))
                words = "beside changes of another client" if beside else "alone"
                print("%s: one client %.3f ms, %d clients %.3f ms: %.2f times" % (words, one, clients, many, many / one), flush=True)
        finally:
            desk.end()


if __name__ == "__main__":
    main()
