#!/usr/bin/env python3
"""Times a store in a file with each reading of a torn write, and with sums on its pages or without: disks.py [NAME=PROGRAM ..]

Into a new store go a publication of 30,000 SYSMODs with 60,000 holds, a zone of 10,000 rows, and 200 changes of one row each, over
HTTP on one kept connection; then the desk is started again. It does so in turns with each program, five times, and prints the
medians in seconds, and the least in brackets. Each program is also started over files that a kill of each other one has left.
Without programs it makes the four: copies of this repository in which `main` names `Unknown` or `Wary`, and `open_database` asks for sums
or not, each proved and built by `rt run` (minutes each, where the crates below are proved).

    --folder FOLDER    the disk that is measured (the folder for temporary files)
    --runs N           so many turns (5)

Python 3.9.
"""
import argparse
import http.client
import os
import shutil
import socket
import statistics
import subprocess
import sys
import tempfile
import time

from load_shapes import ALPHA, BASE, PUBLISHER, TOKENS, list_of_callers
from losses import Losing
from refusals import BOTH, QUESTIONS, second
from resources import request
from texts import statements, zone

TOP = os.path.join(os.path.dirname(os.path.abspath(__file__)), "..")
READINGS, SUMS = ("Unknown", "Wary"), {"false": "no sums", "true": "sums"}
SMALL = 200
PUBLICATION, PUT = request("POST /publish", PUBLISHER, 1, BASE.encode()), request("PUT /zones/TGT1", ALPHA, 1, BOTH)
COLUMNS = ("publication", "zone", "small change", "processor", "start again", "processor of it", "bytes of the file")


def built(folder):
    """The four programs, made one after the other in one copy of the repository, which has what is proved of the crates below."""
    copy = os.path.join(folder, "copy")
    shutil.copytree(TOP, copy, symlinks=True, ignore=shutil.ignore_patterns(".git", "bench", "tests", "incremental"))
    crate, programs = os.path.join(copy, "crates", "bureau_main"), {}
    for reading in READINGS:
        for sums in SUMS:
            name = "%s, %s" % (reading, SUMS[sums])
            change(os.path.join(crate, "src", "main.rt"), READINGS, reading)
            change(os.path.join(crate, "src", "database.rt"), ["options, %s)" % each for each in SUMS], "options, %s)" % sums)
            subprocess.run(["rt", "run"], cwd=crate, stdin=subprocess.DEVNULL, stdout=subprocess.DEVNULL)
            programs[name] = shutil.move(os.path.join(crate, "out", "bureau_main"), os.path.join(folder, name.replace(", ", "-").replace(" ", "-")))
    return programs


def change(path, old, new):
    """Puts a text in the place of each of these."""
    with open(path) as source:
        text = source.read()
    for each in old:
        text = text.replace(each, new)
    with open(path, "w") as out:
        out.write(text)


class Desk:
    """A desk over a store. `began` is the time up to its line LISTENING."""

    def __init__(self, program, store):
        with socket.socket() as probe:
            probe.bind(("127.0.0.1", 0))
            port = probe.getsockname()[1]
        began = time.monotonic()
        self.process = subprocess.Popen([program, "serve", "--connections", "1", "--port", str(port), store], stdout=subprocess.PIPE)
        if not self.process.stdout.readline():
            sys.exit("%s does not start over %s" % (program, store))
        self.began = time.monotonic() - began
        self.connection = http.client.HTTPConnection("127.0.0.1", port, timeout=600)

    def timed(self, method, path, token, number, body):
        began = time.monotonic()
        self.connection.request(method, path, body, {"bureau-token": token, "bureau-number": str(number)})
        reply = self.connection.getresponse()
        told = reply.read()
        if reply.status != 200:
            sys.exit("%s %s: %d %r" % (method, path, reply.status, told))
        return time.monotonic() - began

    def end(self):
        """The seconds of the processor that it took, from start to end."""
        self.connection.close()
        _, self.process.returncode, used = os.wait4(self.process.pid, 0)
        return used.ru_utime + used.ru_stime


def measured(program, room):
    """Seconds of each of COLUMNS, and bytes."""
    store, callers = os.path.join(room, "store"), os.path.join(room, "callers")
    with open(callers, "wb") as out:
        out.write(list_of_callers(TOKENS))
    subprocess.run([program, "init", store, callers], check=True, stdout=subprocess.DEVNULL)
    desk = Desk(program, store)
    publication = desk.timed("POST", "/publish", PUBLISHER, 1, statements(30000))
    zoned = desk.timed("PUT", "/zones/TGT1", ALPHA, 1, zone(10000))
    small = [desk.timed("PUT", "/received", ALPHA, 2 + i, b"SYSMOD\nU%d\n" % i) for i in range(SMALL)]
    processor = desk.end()
    again = Desk(program, store)
    again.connection.connect()
    processor_again = again.end()
    size = os.path.getsize(store)
    for name in os.listdir(room):
        os.remove(os.path.join(room, name))
    return publication, zoned, statistics.median(small), processor, again.began, processor_again, size


def exchanged(programs, room):
    """How many programs tell over another one's files, which a kill has left, what that one told."""
    script, told = [PUBLICATION, PUT], second([PUBLICATION, PUT] + QUESTIONS)[0][2:]
    right = 0
    for maker in programs.values():
        made = Losing(maker, room)
        made.lay({})
        made.run("init", made.store, made.callers)
        made.serve(script, is_killed=True)
        files = made.files()
        for reader in programs.values():
            read = Losing(reader, room)
            read.lay(files)
            right += read.serve(QUESTIONS) == told and read.serve(QUESTIONS) == told
    return right


def syncs(room, many=200):
    """What a write of one byte and its sync take on this disk: the median."""
    took = []
    with open(os.path.join(room, "probe"), "wb", 0) as file:
        file.write(bytes(1 << 20))
        os.fsync(file.fileno())
        for place in range(many):
            began = time.monotonic()
            os.pwrite(file.fileno(), b"1", place * 4096)
            os.fdatasync(file.fileno())
            took.append(time.monotonic() - began)
    return statistics.median(took)


def main():
    reader = argparse.ArgumentParser(description=__doc__, formatter_class=argparse.RawDescriptionHelpFormatter)
    reader.add_argument("programs", nargs="*", metavar="NAME=PROGRAM")
    reader.add_argument("--folder")
    reader.add_argument("--runs", type=int, default=5)
    words = reader.parse_args()
    with tempfile.TemporaryDirectory(dir=words.folder) as room:
        programs = dict(each.split("=", 1) for each in words.programs) or built(room)
        seen = {name: [] for name in programs}
        for turn in range(words.runs):
            for name in list(programs)[turn % len(programs) :] + list(programs)[: turn % len(programs)]:
                with tempfile.TemporaryDirectory(dir=words.folder) as place:
                    seen[name].append(measured(programs[name], place))
        print("a write of one byte and its sync: %.0f us" % (syncs(room) * 1e6))
        print("one program over another one's files: %d of %d are right" % (exchanged(programs, room), len(programs) ** 2))
    for name, rows in seen.items():
        told = ["%s %.4g (%.4g)" % (column, statistics.median(values), min(values)) for column, values in zip(COLUMNS, zip(*rows))]
        print("%s: %s" % (name, "; ".join(told)))


if __name__ == "__main__":
    main()
