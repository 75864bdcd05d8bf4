#!/usr/bin/env python3
"""Turns bits of a store while its desk is stopped, and starts the desk: bits.py PROGRAM [--sums] [--made-by OTHER] [--bits N] [--seed N]

A store is made, ten calls of three callers, a publication of 300 SYSMODs and a zone that has them go into it, and the desk ends. Then
one bit is turned: in each page of the file N drawn ones (8 where it isn't given), and each bit of what is left of the log. The desk
refuses the file; or all questions and all tables are as before; or something else is told. Where the pages of the file end
in sums (--sums), the last of these is a failure; else it is counted. With --made-by another program makes the store and serves the
calls.
Python 3.9.
"""
import argparse
import os
import random
import sqlite3
import sys
import tempfile

from load_shapes import ALPHA, PUBLISHER
from losses import Losing, Refused
from refusals import QUESTIONS, SCRIPT, Wrong, see
from resources import request
from texts import statements, zone

PAGE, SUM = 4096, 8
RESERVED = 20  # the place of the header at which it says how many bytes at the end of each page are no part of it
MORE = [request("POST /publish", PUBLISHER, 3, statements(300)), request("PUT /zones/TGT2", ALPHA, 2, zone(301))]
ASKED = QUESTIONS + [request("GET /zones/TGT2/errsysmods", ALPHA), request("GET /zones/TGT2/chains/U299", ALPHA)]


def made(maker, sums):
    """The files of a store that has served the calls."""
    maker.lay({})
    see(maker.run("init", *sums, maker.store, maker.callers)[1] == b"CALLERS 3\n", "init")
    maker.serve(SCRIPT + MORE)
    files = maker.files()
    see(not sums or files["store"][RESERVED] == SUM, "init made pages without sums")
    return files


def turned(files, name, place, bit):
    data = bytearray(files[name])
    data[place] ^= 1 << bit
    return {**files, name: bytes(data)}


def places(files, many, draw):
    """Which bits are turned: drawn ones of each page, and all of the log."""
    for page in range(0, len(files["store"]), PAGE):
        yield from (("store", page + draw.randrange(PAGE), draw.randrange(8)) for _ in range(many))
    yield from (("store-wal", place, bit) for place in range(len(files["store-wal"])) for bit in range(8))


def asked(losing, files):
    """What is told to the questions, and the rows of all tables."""
    losing.lay(files)
    replies = losing.serve(ASKED)
    conn = sqlite3.connect(losing.store)
    try:
        names = sorted(name for (name,) in conn.execute("SELECT name FROM sqlite_schema WHERE type = 'table'"))
        return replies, [sorted(conn.execute('SELECT * FROM "%s"' % name).fetchall()) for name in names]
    finally:
        conn.close()


def found(losing, files, told):
    try:
        return "as before" if asked(losing, files) == told else "otherwise"
    except (sqlite3.Error, Wrong) as fault:
        return str(fault) if isinstance(fault, Refused) else "otherwise"


def sweep(losing, files, words):
    """Counts what comes of each bit, by file. Tells whether all is as it has to be."""
    has_sums = files["store"][RESERVED] == SUM
    told, counts = asked(losing, files), {"store": {}, "store-wal": {}}
    for name, place, bit in places(files, words.bits, random.Random(words.seed)):
        came = found(losing, turned(files, name, place, bit), told)
        counts[name][came] = counts[name].get(came, 0) + 1
        if came == "otherwise" and (has_sums or name == "store-wal"):
            print("bits: %s, byte %d, bit %d ... FAILED" % (name, place, bit), flush=True)
    for name, came in counts.items():
        kind = "pages with sums" if has_sums else "pages without sums"
        rows = ", ".join("%s: %d" % row for row in sorted(came.items()))
        print("bits: %s, %s, %d pages: %s" % (name, kind, len(files[name]) // PAGE, rows), flush=True)
    return not any("otherwise" in came for name, came in counts.items() if has_sums or name == "store-wal")


def main():
    reader = argparse.ArgumentParser(description=__doc__, formatter_class=argparse.RawDescriptionHelpFormatter)
    reader.add_argument("program")
    reader.add_argument("--sums", action="store_const", const=["--sums"], default=[])
    reader.add_argument("--made-by")
    reader.add_argument("--bits", type=int, default=8)
    reader.add_argument("--seed", type=int, default=1)
    words = reader.parse_args()
    with tempfile.TemporaryDirectory(dir="/dev/shm" if os.access("/dev/shm", os.W_OK) else None) as room:
        losing = Losing(os.path.abspath(words.program), os.path.realpath(room))
        maker = Losing(os.path.abspath(words.made_by), os.path.realpath(room)) if words.made_by else losing
        good = sweep(losing, made(maker, words.sums), words)
    print("bits: %d passed, %d failed" % (good, not good))
    sys.exit(0 if good else 1)


if __name__ == "__main__":
    main()
