#!/usr/bin/env python3
"""Times the served store beside python's sqlite3 and nginx, side by side in one run.

    store.py [publication zone small start zones reports first same]

Without names it times all of it. The program is crates/bureau_main/out/bureau_main, or the one that BUREAU_PROGRAM
names. `same` publishes the file that BUREAU_PUBLICATION names, where it names one. nginx and wrk are needed for `zones` alone: a
client in Python would measure itself. Each figure is the best of three runs in turns, in seconds or as it says.
"""
import http.client
import os
import shutil
import sqlite3
import subprocess
import sys
import tempfile
import time

from nginx import Nginx, free_port, is_there, rate
from texts import apars, statements, zone

HERE = os.path.dirname(os.path.abspath(__file__))
PROGRAM = os.environ.get("BUREAU_PROGRAM") or os.path.join(HERE, "..", "crates", "bureau_main", "out", "bureau_main")
PUBLISHER, ALPHA = "publisher-token", "alpha-token"
RUNS = 3

room = tempfile.mkdtemp(prefix="bureau-bench-")
callers = os.path.join(room, "callers.csv")
with open(callers, "w") as out:
    out.write("NAME,TOKEN\nPUBLISH,%s\nALPHA,%s\n" % (PUBLISHER, ALPHA))


class Desk:
    """A desk over a store, made where it isn't there. `began` is the time up to its line LISTENING."""

    def __init__(self, name):
        self.store = os.path.join(room, name)
        if not os.path.exists(self.store):
            subprocess.run([PROGRAM, "init", self.store, callers], check=True, stdout=subprocess.DEVNULL)
        began = time.monotonic()
        self.port = free_port()
        self.process = subprocess.Popen(
            [PROGRAM, "serve", "--port", str(self.port), self.store], stdout=subprocess.PIPE, text=True
        )
        line = self.process.stdout.readline()
        self.began = time.monotonic() - began
        if not line.startswith("LISTENING"):
            sys.exit("the desk does not start: %r" % line)
        self.connection = http.client.HTTPConnection("127.0.0.1", self.port, timeout=600)

    def ask(self, method, path, token, number=None, body=None):
        headers = {"bureau-token": token}
        if number:
            headers["bureau-number"] = str(number)
        self.connection.request(method, path, body, headers)
        reply = self.connection.getresponse()
        text = reply.read()
        if reply.status != 200:
            sys.exit("%s %s: %d %r" % (method, path, reply.status, text))
        return text

    def last(self):
        """The number of ALPHA's last change."""
        self.connection.request("PUT", "/received", b"SYSMOD\n", {"bureau-token": ALPHA, "bureau-number": str((1 << 63) - 1)})
        return int(self.connection.getresponse().read().split()[2])

    def timed(self, *words):
        began = time.monotonic()
        self.ask(*words)
        return time.monotonic() - began

    def peak(self):
        """The peak of its memory, in MB."""
        with open("/proc/%d/status" % self.process.pid) as status:
            return next(int(line.split()[1]) for line in status if line.startswith("VmHWM")) / 1024

    def processor(self):
        """The processor's time that it took so far, in seconds."""
        with open("/proc/%d/stat" % self.process.pid) as stat:
            fields = stat.read().rsplit(")", 1)[1].split()
        return (int(fields[11]) + int(fields[12])) / os.sysconf("SC_CLK_TCK")

    def end(self):
        self.connection.close()
        self.process.kill()
        self.process.wait()


def tables():
    """A database of python's with the tables of the desk, and its settings."""
    path = tempfile.mktemp(dir=room)
    subprocess.run([PROGRAM, "init", path + ".model", callers], check=True, stdout=subprocess.DEVNULL)
    model = sqlite3.connect(path + ".model")
    texts = [sql for (sql,) in model.execute("SELECT sql FROM sqlite_schema WHERE sql IS NOT NULL")]
    model.close()
    conn = sqlite3.connect(path, isolation_level=None)
    conn.execute("PRAGMA journal_mode = WAL")
    conn.execute("PRAGMA synchronous = FULL")
    for text in texts:
        conn.execute(text)
    return conn


def python_publication(count, superseded, deletes):
    """The same rows, by prepared statements in one transaction. With `deletes` each row that could be there is deleted first, as
    the desk does it; without them nothing is done but the inserts."""
    conn = tables()
    began = time.monotonic()
    conn.execute("BEGIN")
    conn.execute("INSERT INTO sysmod VALUES ('HBB7790', 0, '', '', '')")
    for i in range(count):
        name, before = "U%d" % i, "U%d" % max(0, i - 7)
        if deletes:
            conn.execute("DELETE FROM sysmod WHERE id = ?", (name,))
            conn.execute("DELETE FROM sysmod_sup WHERE id = ?", (name,))
        conn.execute("INSERT INTO sysmod VALUES (?, 1, 'HBB7790', ?, '')", (name, before))
        for apar in apars(i, superseded):
            conn.execute("INSERT INTO sysmod_sup VALUES (?, ?)", (name, apar))
    for i in range(count):
        name = "U%d" % i
        for kind, reason, css, date in ((0, "B%d" % i, "PE", 12045), (1, "IPL", "", -1)):
            if deletes:
                conn.execute("DELETE FROM hold_row WHERE sysmod = ? AND kind = ? AND reason = ?", (name, kind, reason))
            conn.execute("INSERT INTO hold_row VALUES (?, ?, ?, 'HBB7790', ?, ?, '', '')", (name, kind, reason, css, date))
    conn.execute("COMMIT")
    took = time.monotonic() - began
    conn.close()
    return took


def python_zone(count):
    conn = tables()
    began = time.monotonic()
    conn.execute("BEGIN")
    conn.execute("DELETE FROM zone_row WHERE client = 'ALPHA' AND zone = 'TGT1'")
    conn.execute("INSERT INTO zone_head VALUES ('ALPHA', 'TGT1', '')")
    for i in range(count):
        conn.execute("INSERT INTO zone_row VALUES ('ALPHA', 'TGT1', ?, 0)", ("U%d" % i,))
    conn.execute("COMMIT")
    took = time.monotonic() - began
    conn.close()
    return took


def least(*ways):
    """The least time of each of these, run in turns."""
    times = [[] for _ in ways]
    for _ in range(RUNS):
        for way, found in zip(ways, times):
            found.append(way())
    return [min(found) for found in times]


fresh = iter(range(1 << 30))


def publication(count=30000):
    for superseded in (1, 5):
        one_publication(count, superseded)


def one_publication(count, superseded):
    text = statements(count, superseded=superseded)
    peaks = []

    def ours():
        desk = Desk("publication%d" % next(fresh))
        took = desk.timed("POST", "/publish", PUBLISHER, 1, text)
        peaks.append(desk.peak())
        desk.end()
        return took

    mine, deleting, inserting = least(
        ours, lambda: python_publication(count, superseded, True), lambda: python_publication(count, superseded, False))
    print("a publication of %d SYSMODs, %d superseded ids and %d holds: %.2f; python's sqlite3 with deletes %.2f: %.2f times; "
          "inserts alone %.2f: %.2f times; peak %.0f MB, text %.1f MB" % (
              count, superseded * count, 2 * count, mine, deleting, mine / deleting, inserting, mine / inserting, max(peaks), len(text) / 1e6))


def rows_of(store):
    """The rows of a desk's own file, table by table, as it has them."""
    conn = sqlite3.connect(store)
    names = [name for (name,) in conn.execute("SELECT name FROM sqlite_schema WHERE type = 'table'")]
    found = {name: conn.execute("SELECT * FROM %s" % name).fetchall() for name in names}
    conn.close()
    return {name: rows for name, rows in found.items() if rows}


def python_rows(found):
    """Inserts these rows by prepared statements in one transaction, into tables with the desk's indexes and settings."""
    conn = tables()
    for name in found:
        conn.execute("DELETE FROM %s" % name)
    began = time.monotonic()
    conn.execute("BEGIN")
    for name, rows in found.items():
        text = "INSERT INTO %s VALUES (%s)" % (name, ", ".join("?" * len(rows[0])))
        for row in rows:
            conn.execute(text, row)
    conn.execute("COMMIT")
    took = time.monotonic() - began
    conn.close()
    return took


def same():
    """A publication beside a program that inserts the very rows that it leaves, and nothing else."""
    path = os.environ.get("BUREAU_PUBLICATION")
    if not path:
        return
    with open(path, "rb") as source:
        text = source.read()
    stores = []

    def ours():
        desk = Desk("same%d" % next(fresh))
        took = desk.timed("POST", "/publish", PUBLISHER, 1, text)
        stores.append((desk.store, os.path.getsize(desk.store + "-wal")))
        desk.end()
        return took

    ours()
    found = rows_of(stores[0][0])
    mine, theirs = least(ours, lambda: python_rows(found))
    print("%s: %d rows: %.2f; python's sqlite3, inserts alone %.2f: %.2f times; log %.1f MB, database %.1f MB" % (
        os.path.basename(path), sum(map(len, found.values())), mine, theirs, mine / theirs, stores[-1][1] / 1e6,
        os.path.getsize(stores[0][0]) / 1e6))


def a_zone(count=40000):
    text = zone(count)

    def ours():
        desk = Desk("zone%d" % next(fresh))
        took = desk.timed("PUT", "/zones/TGT1", ALPHA, 1, text)
        desk.end()
        return took

    mine, theirs = least(ours, lambda: python_zone(count))
    print("a zone of %d rows: %.3f; python's sqlite3 %.3f; %.2f times" % (count, mine, theirs, mine / theirs))


def filled(rows):
    """A store with so many rows: a fifth SYSMODs with their superseded ids and two holds each, and zones."""
    name = "filled%d" % rows
    is_there = os.path.exists(os.path.join(room, name))
    desk = Desk(name)
    if is_there:
        return desk
    desk.ask("POST", "/publish", PUBLISHER, 1, statements(rows // 5))
    left, number = rows - rows // 5 * 4, 0
    while left > 0:
        number += 1
        desk.ask("PUT", "/zones/Z%d" % number, ALPHA, number, zone(min(left, 40000)))
        left -= 40000
    desk.end()
    return Desk(name)


def small():
    for rows in (1000, 10000, 50000, 200000):
        desk = filled(rows)
        first, turns = desk.last() + 1, 200
        look = min(timed_look(desk) for _ in range(turns))
        took = sorted(desk.timed("PUT", "/zones/SMALL", ALPHA, first + i, zone(3)) for i in range(turns))
        counts = min(desk.timed("GET", "/published", ALPHA) for _ in range(5))
        print("%7d rows: LISTENING after %.2f s, a question for a zone that isn't there %.0f us, a small change %.0f us, counts %.1f ms, peak %.0f MB" % (
            rows, desk.began, look * 1e6, took[turns // 2] * 1e6, counts * 1e3, desk.peak()))
        desk.end()


def timed_look(desk):
    """A look-up of the token and of one zone."""
    began = time.monotonic()
    desk.connection.request("GET", "/zones/NONE/errsysmods", None, {"bureau-token": ALPHA})
    reply = desk.connection.getresponse()
    reply.read()
    return time.monotonic() - began


def zones():
    if not is_there():
        print("GET /zones: nginx or wrk is not there")
        return
    desk = Desk("zones")
    for number in range(1, 9):
        desk.ask("PUT", "/zones/TGT%d" % number, ALPHA, number, zone(20))
    other = Nginx(os.path.join(room, "nginx"), desk.ask("GET", "/zones", ALPHA))
    desk.connection.close()
    try:
        for kept in (True, False):
            rates = [(rate(desk.port, ALPHA, is_kept=kept), rate(other.port, ALPHA, is_kept=kept)) for _ in range(RUNS)]
            mine, theirs = max(rate for rate, _ in rates), max(rate for _, rate in rates)
            print("GET /zones, %s: %.0f a second; nginx %.0f; %.2f of it" % (
                "one connection" if kept else "a connection each", mine, theirs, mine / theirs))
    finally:
        other.end()
        desk.end()


def reports():
    for count in (10000, 30000):
        desk = Desk("reports%d" % count)
        desk.ask("POST", "/publish", PUBLISHER, 1, statements(count))
        desk.ask("PUT", "/zones/TGT1", ALPHA, 1, zone(1000))
        shown = []
        for path in ("errsysmods", "missingfix", "chains/U%d" % (count - 1)):
            shown.append("%s %.1f ms" % (path, 1e3 * min(desk.timed("GET", "/zones/TGT1/" + path, ALPHA) for _ in range(3))))
        print("%d SYSMODs, a zone of 1000 rows: %s" % (count, ", ".join(shown)))
        desk.end()


def first(count=30000, rows=10000):
    """Reports of a large zone: the first of a desk, later ones, and the first after a publication of one PTF, by processor time. Each
    of its SYSMODs is held in error, and a PTF resolves that which isn't installed. So all that is catalogued has to be looked over."""
    desk = Desk("first%d" % next(fresh))
    held = ["++HOLD(U%d) ERROR FMID(HBB7790) REASON(A%d)." % (i, rows + i) for i in range(rows - 1)]
    desk.ask("POST", "/publish", PUBLISHER, 1, statements(count) + "\n".join(held + [""]).encode())
    desk.ask("PUT", "/zones/TGT1", ALPHA, 1, zone(rows))
    path, shown = "/zones/TGT1/errsysmods", []
    desk.ask("GET", "/zones", ALPHA)
    for name, number in (("first", None), ("warm", None), ("warm", None), ("after one PTF", 2), ("after one PTF", 3), ("warm", None)):
        if number:
            ptf = b"++PTF(N%d).\n++VER(Z038) FMID(HBB7790) PRE(U1) SUP(M%d).\n++HOLD(U%d) ERROR FMID(HBB7790) REASON(M%d).\n"
            desk.ask("POST", "/publish", PUBLISHER, number, ptf % (number, number, number, number))
        before = desk.processor()
        desk.ask("GET", path, ALPHA)
        shown.append("%s %.0f ms" % (name, 1e3 * (desk.processor() - before)))
    print("%d SYSMODs, a zone of %d rows, exception reports: %s; peak %.0f MB" % (count, rows, ", ".join(shown), desk.peak()))
    desk.end()


def start():
    desk = filled(200000)
    print("LISTENING at 200,000 rows: %.2f s, peak %.0f MB" % (desk.began, desk.peak()))
    desk.end()


PARTS = {"publication": publication, "zone": a_zone, "small": small, "start": start, "zones": zones, "reports": reports, "first": first, "same": same}
try:
    for name in sys.argv[1:] or PARTS:
        PARTS[name]()
finally:
    shutil.rmtree(room, ignore_errors=True)
