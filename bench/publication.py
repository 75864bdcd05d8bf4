#!/usr/bin/env python3
"""Times reading and publishing a publication over lists, and shapes of it that would show a quadratic walk.

    publication.py [SYSMODS]

SYSMODS (30,000 where it isn't given) are published with twice as many holds. The program that is timed is
publication/main.rt.txt, which `rt` proves and builds as a crate of a repository of its own in the folder for
temporary files, beside copies of the crates that it uses and of what is kept of their proofs.
"""
import os
import shutil
import statistics
import subprocess
import sys
import tempfile

HERE = os.path.dirname(os.path.abspath(__file__))
CRATES = os.path.join(HERE, "..", "crates")
OUT = os.path.join(tempfile.gettempdir(), "bureau-publication")
PROGRAM = os.path.join(OUT, "crates", "publication")
USES = ("columns", "faults", "mcs_reader", "holddata", "catalogue")
RUNS = 5


def statements(sysmods):
    """A function and PTFs for it, each with a VER that names one before it, and two holds for each."""
    yield "++FUNCTION(HBB7790)."
    yield "++VER(Z038)."
    for i in range(sysmods):
        yield "++PTF(U%d)." % i
        yield "++VER(Z038) FMID(HBB7790) PRE(U%d) SUP(A%d)." % (max(0, i - 7), i * 7919 % sysmods)
    for i in range(2 * sysmods):
        yield "++HOLD(U%d) ERROR FMID(HBB7790) REASON(A%d)" % (i * 7919 % sysmods, i)
        yield " CLASS(PE) DATE(12045)."


SHAPES = {
    "SYSMODs and holds": statements,
    "VERs after one header": lambda n: ["++PTF(U)."] + ["++VER(Z038) PRE(P%d) SUP(S%d)." % (i, i) for i in range(n)],
    "one SYSMOD again and again": lambda n: [line for i in range(n) for line in ("++PTF(U).", "++VER(Z038) SUP(S%d)." % i)],
    "superseders of one SYSMOD": lambda n: [line for i in range(n) for line in ("++PTF(U%d)." % i, "++VER(Z038) SUP(A).")],
}


def built():
    """The path of the program, proved and built where its source or a crate below it has changed."""
    os.makedirs(os.path.join(PROGRAM, "src"), exist_ok=True)
    shutil.copy(os.path.join(HERE, "publication", "main.rt.txt"), os.path.join(PROGRAM, "src", "main.rt"))
    for name in USES:
        for part in ("src", "specs", "proofs"):
            shutil.rmtree(os.path.join(OUT, "crates", name, part), ignore_errors=True)
        subprocess.run(["cp", "-au", os.path.join(CRATES, name), os.path.join(OUT, "crates")], check=True)
    with open(os.path.join(HERE, "..", "crates.txt")) as source:
        rows = [row for row in source.read().splitlines() if row.split(":")[0] in USES]
    with open(os.path.join(OUT, "crates.txt"), "w") as to:
        to.write("\n".join(rows + ["publication: mcs_reader holddata catalogue anyhow"]) + "\n")
    making = subprocess.run(["rt", "run"], cwd=PROGRAM, stdin=subprocess.DEVNULL, capture_output=True, text=True)
    if making.returncode != 0:
        sys.exit(making.stdout + making.stderr)
    return os.path.join(PROGRAM, "out", "publication")


def timed(program, lines):
    """What it prints over these lines, of each of several runs: SYSMODs, holds, milliseconds."""
    source = ("\n".join(lines) + "\n").encode()
    runs = [subprocess.run([program], input=source, stdout=subprocess.PIPE, check=True).stdout for _ in range(RUNS)]
    return [[int(word) for word in printed.split()] for printed in runs], len(source)


def main():
    sysmods = int(sys.argv[1]) if sys.argv[1:] else 30_000
    program = built()
    print("%-28s %8s %8s %10s %16s %18s" % ("", "SYSMODs", "holds", "bytes", "read, ms", "published, ms"))
    for name, shape in SHAPES.items():
        for times in (1, 2):
            its, size = timed(program, list(shape(times * sysmods)))
            read, published = ([row[column] for row in its] for column in (2, 3))
            print("%-28s %8d %8d %10d %16s %18s" % (
                name, its[0][0], its[0][1], size, "%d (%d)" % (statistics.median(read), min(read)),
                "%d (%d)" % (statistics.median(published), min(published))))


if __name__ == "__main__":
    main()
