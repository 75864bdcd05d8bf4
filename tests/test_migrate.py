#!/usr/bin/env python3
"""Stores of version 1: `serve` refuses them, and `migrate` makes them stores of version 2 with all that they had.

One is kept in data/version-1.store.xz. A program of version 1 made it: a store with the callers of the sample, to which the
requests of examples/desk/requests.sh were sent. What that program replied to them a second time is kept beside. The other
stores have the tables as version 1 had them, made by sqlite3.
"""
import lzma
import os
import random
import shutil
import signal
import sqlite3
import subprocess
import time
import unittest

from service import HERE, PROGRAM, SAMPLE, TOP, check, exchange, folder, free_port, main, same, write

KEPT, REPLIES = (os.path.join(HERE, "data", "version-1." + name) for name in ("store.xz", "replies"))
TABLES = """CREATE TABLE bureau_version (one INTEGER PRIMARY KEY CHECK (one = 1),
  version INTEGER NOT NULL) STRICT;
CREATE TABLE caller (name TEXT NOT NULL PRIMARY KEY,
  token TEXT NOT NULL UNIQUE) STRICT;
CREATE TABLE last_change (caller TEXT NOT NULL PRIMARY KEY,
  number INTEGER NOT NULL CHECK (number > 0), body BLOB NOT NULL) STRICT;
CREATE TABLE sysmod (id TEXT NOT NULL PRIMARY KEY,
  kind INTEGER NOT NULL CHECK (kind BETWEEN 0 AND 3),
  fmids TEXT NOT NULL, pre TEXT NOT NULL, req TEXT NOT NULL) STRICT;
CREATE TABLE sysmod_sup (id TEXT NOT NULL, member TEXT NOT NULL,
  PRIMARY KEY (id, member)) STRICT;
CREATE INDEX by_member ON sysmod_sup (member, id);
CREATE TABLE hold_row (sysmod TEXT NOT NULL,
  kind INTEGER NOT NULL CHECK (kind BETWEEN 0 AND 3),
  reason TEXT NOT NULL, fmid TEXT NOT NULL, class TEXT NOT NULL,
  dated INTEGER NOT NULL, resolver TEXT NOT NULL,
  categories TEXT NOT NULL, PRIMARY KEY (sysmod, kind, reason)) STRICT;
CREATE TABLE zone_head (client TEXT NOT NULL, zone TEXT NOT NULL,
  patterns TEXT NOT NULL, PRIMARY KEY (client, zone)) STRICT;
CREATE TABLE zone_row (client TEXT NOT NULL, zone TEXT NOT NULL,
  sysmod TEXT NOT NULL,
  state INTEGER NOT NULL CHECK (state BETWEEN 0 AND 2),
  PRIMARY KEY (client, zone, sysmod)) STRICT;
CREATE TABLE received_list (client TEXT NOT NULL PRIMARY KEY,
  ids TEXT NOT NULL) STRICT;
"""
PUBLISHER, ALPHA, BETA = "publisher-token", "alpha-token", "beta-token"
CALLERS = b"NAME,TOKEN\nPUBLISH,publisher-token\nALPHA,alpha-token\nBETA,beta-token\n"
ZONE = b"SYSMOD,STATE\nHBB7790,APPLIED\nUA10001,APPLIED\n"
FUNCTIONS = b"SYSMOD,STATE\nHBB7790,APPLIED\nHXX0001,APPLIED\n"
BASE = b"""++FUNCTION(HBB7790).
++VER(Z038).
++PTF(UA10001).
++VER(Z038) FMID(HBB7790).
++PTF(UA10002).
++VER(Z038) FMID(HBB7790) PRE(UA10001) SUP(AA20002).
++HOLD(UA10001) ERROR FMID(HBB7790)
 REASON(AA20002) CLASS(PE) DATE(12045).
"""
CONDITIONAL = b"""++PTF(UA10020).
++VER(Z038) FMID(HBB7790).
++IF FMID(HXX0001) THEN REQ(UA10021).
++PTF(UA10021).
++VER(Z038) FMID(HBB7790).
"""
ACCEPTED = b"ACCEPTED SYSMODS 3 HOLDS 1 RELEASES 0\n"
DONE = (0, "MIGRATED VERSION 2\n", "")

room = folder()


def run(*words):
    """Status, standard output and standard error of a run that ends."""
    done = subprocess.run([PROGRAM, *words], capture_output=True, text=True, timeout=60, cwd=room)
    return done.returncode, done.stdout, done.stderr


def refused(fault, status):
    return status, "", "FAULT %d\n" % fault


def read(path):
    with open(path, "rb") as file:
        return file.read()


def rows_of(store, tables=None):
    """Each table's rows, the version aside."""
    conn = sqlite3.connect(store)
    names = [name for (name,) in conn.execute("SELECT name FROM sqlite_schema WHERE type = 'table' AND name NOT LIKE 'sqlite_%'")]
    rows = {name: sorted(conn.execute("SELECT * FROM %s" % name).fetchall()) for name in names if name != "bureau_version"}
    conn.close()
    return rows


class Served:
    """A desk over a store, until it is ended."""

    def __init__(self, store):
        command = [PROGRAM, "serve", "--port", str(free_port()), store]
        self.process = subprocess.Popen(command, stdout=subprocess.PIPE, text=True, cwd=room)
        line = self.process.stdout.readline()
        check("the desk listens", line.startswith("LISTENING "), line)
        self.url = "http://" + line.split()[1]

    def ask(self, method, path, token, number=None, body=None):
        return exchange(self.url, method, path, token, number, body)

    def end(self):
        self.process.terminate()
        self.process.wait()
        self.process.stdout.close()


def of_version_1(name, *statements):
    """A store with the tables of version 1 and the rows of a desk that had a publication and two zones."""
    new = os.path.join(room, name + ".new")
    run("init", new, write(room + "/callers", CALLERS))
    desk = Served(new)
    same("a publication", desk.ask("POST", "/publish", PUBLISHER, 1, BASE), (200, ACCEPTED))
    same("a zone", desk.ask("PUT", "/zones/TGT1", ALPHA, 1, ZONE), (200, b"ZONE TGT1 ROWS 2\n"))
    same("another client's zone", desk.ask("PUT", "/zones/TGT1", BETA, 1, FUNCTIONS), (200, b"ZONE TGT1 ROWS 2\n"))
    desk.end()
    old = os.path.join(room, name)
    conn = sqlite3.connect(old)
    conn.executescript(TABLES)
    conn.execute("INSERT INTO bureau_version VALUES (1, 1)")
    for table, rows in rows_of(new).items():
        if rows and table != "sysmod_cond":
            conn.executemany("INSERT INTO %s VALUES (%s)" % (table, ", ".join("?" * len(rows[0]))), rows)
    for statement in statements:
        conn.execute(statement)
    conn.commit()
    conn.close()
    return old


def with_no_pairs(rows):
    return {**rows, "sysmod_cond": []}


class Migrate(unittest.TestCase):
    def test_a_store_with_the_tables_of_version_1(self):
        old = of_version_1("old")
        kept, rows = read(old), rows_of(old)
        same("serve refuses a store of version 1", run("serve", old), refused(45, 1))
        same("and leaves it as it is", read(old), kept)
        same("migrate", run("migrate", old), DONE)
        same("keeps all rows, and no SYSMOD has a pair", rows_of(old), with_no_pairs(rows))
        conn = sqlite3.connect(old)
        same("the version", conn.execute("SELECT * FROM bureau_version").fetchall(), [(1, 2)])
        same("sqlite3 finds it sound", conn.execute("PRAGMA integrity_check").fetchall(), [("ok",)])
        conn.close()
        kept = read(old)
        same("a second time", run("migrate", old), refused(45, 1))
        same("changes nothing", read(old), kept)

        desk = Served(old)
        same("a change that is sent again has its kept reply", desk.ask("PUT", "/zones/TGT1", ALPHA, 1, ZONE), (200, b"ZONE TGT1 ROWS 2\n"))
        same("the next number is the next", desk.ask("PUT", "/zones/TGT2", BETA, 3, ZONE), (409, b"GAP LAST 1\n"))
        same("a publication with a pair", desk.ask("POST", "/publish", PUBLISHER, 2, CONDITIONAL)[0], 200)
        alone = b'{"plan":[{"id":"UA10020","system":[],"user":[]}],"status":"GOOD","sysmod":"UA10020","zone":"TGT1"}'
        both = alone.replace(b"}],", b'},{"id":"UA10021","system":[],"user":[]}],')
        same("is not asked for without the function", desk.ask("GET", "/zones/TGT1/chains/UA10020", ALPHA), (200, alone))
        same("is asked for where the function is", desk.ask("GET", "/zones/TGT1/chains/UA10020", BETA), (200, both))
        desk.end()
        desk = Served(old)
        same("also after a new start", desk.ask("GET", "/zones/TGT1/chains/UA10020", BETA), (200, both))
        same("a store that is served", run("migrate", old), refused(42, 3))
        same("goes on", desk.ask("GET", "/published", PUBLISHER), (200, b"PUBLISHED SYSMODS 5 HOLDS 1\n"))
        desk.end()

    def test_what_migrate_refuses(self):
        before = sorted(os.listdir(room))
        same("a store that is not there", run("migrate", "missing"), refused(44, 1))
        same("a name that is no file's", run("migrate", ":memory:")[0] in (1, 2, 3), True)
        same("is not made", sorted(os.listdir(room)), before)
        with_all = of_version_1("all")
        conn = sqlite3.connect(with_all)
        tables = [name for (name,) in conn.execute("SELECT name FROM sqlite_schema WHERE type = 'table'")]
        columns = [(table, row[1]) for table in tables for row in conn.execute("PRAGMA table_info(%s)" % table)]
        conn.close()
        check("version 1 has nine tables", len(tables) == 9, tables)
        for name, statement, fault in (
            ("taken", "CREATE TABLE sysmod_cond (id TEXT)", 44),
            ("later", "UPDATE bureau_version SET version = 3", 45),
            *(("without " + table, "DROP TABLE " + table, 44) for table in tables),
            *(
                ("without %s of %s" % (column, table), "ALTER TABLE %s RENAME COLUMN %s TO other" % (table, column), 44)
                for table, column in columns
            ),
        ):
            odd = os.path.join(room, name)
            shutil.copy(with_all, odd)
            conn = sqlite3.connect(odd)
            conn.execute(statement)
            conn.commit()
            conn.close()
            kept = read(odd)
            same("a store that is %s" % name, run("migrate", odd), refused(fault, 1))
            same("is left as it is: %s" % name, read(odd), kept)
        text = write(room + "/text", b"This file is no database, and has more than a hundred bytes. " * 20)
        same("a file that is no database", run("migrate", text), refused(42, 3))
        full = of_version_1("full")
        done = subprocess.run([PROGRAM, "migrate", full], stdout=open("/dev/full", "wb"), stderr=subprocess.PIPE, text=True)
        same("where the line can't be written", (done.returncode, done.stderr), (3, "FAULT 72\n"))
        same("the store is migrated", run("migrate", full), refused(45, 1))

    def test_a_stop_in_it(self):
        dice, found = random.Random(1), set()
        start = of_version_1("start")
        rows = rows_of(start)
        for number in range(40):
            store = os.path.join(room, "stop%d" % number)
            shutil.copy(start, store)
            process = subprocess.Popen([PROGRAM, "migrate", store], stdout=subprocess.PIPE, stderr=subprocess.PIPE)
            time.sleep(dice.random() * 0.03)
            process.send_signal(signal.SIGKILL)
            process.communicate()
            status, output, errors = run("migrate", store)
            found.add(errors)
            check("a stop leaves a store of version 1 or 2", (status, output, errors) in (DONE, refused(45, 1)), (status, output, errors))
            same("with all its rows", rows_of(store), with_no_pairs(rows))

    def test_the_store_that_the_program_of_version_1_made(self):
        with lzma.open(KEPT) as file:
            store = write(os.path.join(room, "kept"), file.read())
        rows = rows_of(store)
        same("serve refuses it", run("serve", store), refused(45, 1))
        same("migrate of it", run("migrate", store), DONE)
        same("keeps all its rows", rows_of(store), with_no_pairs(rows))
        desk = Served(store)
        done = subprocess.run(["sh", os.path.join(SAMPLE, "requests.sh"), desk.url], cwd=TOP, capture_output=True)
        desk.end()
        check("the earlier program answered", len(read(REPLIES)) > 1000)
        same("its desk answers the sample as the earlier program did", done.stdout, read(REPLIES))


if __name__ == "__main__":
    main("migrate")
