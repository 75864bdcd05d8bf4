#!/usr/bin/env python3
"""`callers`: a desk before and after it. Who stays sees the same bytes, who is gone leaves nothing, and who is new has nothing."""
import os
import random
import shutil
import signal
import sqlite3
import stat
import subprocess
import time
import unittest

from service import PROGRAM, check, exchange, folder, free_port, main, same, write

PUBLISHER, ALPHA, BETA = "publisher-token", "alpha-token", "beta-token"
BASE = b"""++HOLD(UJ90201) ERROR FMID(HBB7790) REASON(AJ00001) CLASS(PE).
++FUNCTION(HBB7790).
++PTF(UJ90201).
++VER(Z038) FMID(HBB7790).
++HOLD(UJ90201) FIXCAT FMID(HBB7790) REASON(AJ00002) RESOLVER(UJ90201)
  CATEGORY(IBM.Function.Fix).
"""
ZONE = b"SYSMOD,STATE\nHBB7790,APPLIED\nUJ90201,APPLIED\n"
CATEGORIES = b"CATEGORY\nIBM.*\n"
RECEIVED = b"SYSMOD\nUJ90201\n"
NO_ZONE = (200, b"ZONE     SYSMODS\nROWS 0\n")

room = folder()
store = room + "/store"


def run(*words, **more):
    """Status, standard output and standard error of a run that ends."""
    done = subprocess.run([PROGRAM, *words], capture_output=True, text=True, timeout=60, cwd=room, **more)
    return done.returncode, done.stdout, done.stderr


def refused(fault, status, place=""):
    return status, "", "FAULT %s\n" % (fault if not place else "%s %s" % (fault, place))


def of(*rows):
    """A callers file with these names and tokens."""
    return write(room + "/callers.csv", "NAME,TOKEN\n" + "".join("%s,%s\n" % row for row in rows))


def read(path):
    with open(path, "rb") as file:
        return file.read()


def rows_of(store):
    """Each table's rows, without their numbers."""
    conn = sqlite3.connect(store)
    names = [name for (name,) in conn.execute("SELECT name FROM sqlite_schema WHERE type = 'table' AND name NOT LIKE 'sqlite_%'")]
    rows = {name: sorted(conn.execute("SELECT * FROM %s" % name).fetchall()) for name in names}
    sound = conn.execute("PRAGMA integrity_check").fetchall()
    conn.close()
    same("sqlite3 finds it sound", sound, [("ok",)])
    return rows


class Served:
    """A desk over a store, until it is ended."""

    def __init__(self, store):
        command = [PROGRAM, "serve", "--port", str(free_port()), store]
        self.process = subprocess.Popen(command, stdout=subprocess.PIPE, text=True, cwd=room)
        line = self.process.stdout.readline()
        check("the desk listens", line.startswith("LISTENING "), line)
        self.url = "http://" + line.split()[1]

    def ask(self, method, path, token, number=None, body=None):
        return exchange(self.url, method, path, token, number, body)

    def end(self):
        self.process.terminate()
        self.process.wait()
        self.process.stdout.close()


QUESTIONS = [
    ("GET", "/published"), ("GET", "/zones"), ("GET", "/zones/TGT1/errsysmods"), ("GET", "/zones/TGT1/missingfix"),
    ("GET", "/zones/TGT1/chains/UJ90201"), ("GET", "/zones/TGT2/errsysmods"), ("GET", "/zones/TGT1/errsysmods/plan.json"), ("DELETE", "/zones/TGT9", 9),
]


def seen(desk, token):
    """All that a client may see: each reply, to the byte."""
    return [desk.ask(question[0], question[1], token, *question[2:]) for question in QUESTIONS]


def filled(desk, token):
    """A client sends one of each list."""
    for number, (method, path, body) in enumerate([
        ("PUT", "/zones/TGT1", ZONE), ("PUT", "/zones/TGT2", ZONE), ("PUT", "/zones/TGT1/categories", CATEGORIES), ("PUT", "/received", RECEIVED),
    ], 1):
        same("change %d of %s" % (number, token), desk.ask(method, path, token, number, body)[0], 200)


class Callers(unittest.TestCase):
    def test_a_desk_with_two_clients(self):
        os.umask(0o022)
        same("init", run("init", store, of(("PUBLISH", PUBLISHER), ("ALPHA", ALPHA), ("BETA", BETA))), (0, "CALLERS 3\n", ""))
        same("only the owner may read the store", oct(stat.S_IMODE(os.stat(store).st_mode)), "0o600")
        same("nor the log", oct(stat.S_IMODE(os.stat(store + "-wal").st_mode)), "0o600")

        desk = Served(store)
        same("a publication", desk.ask("POST", "/publish", PUBLISHER, 1, BASE)[0], 200)
        filled(desk, ALPHA)
        filled(desk, BETA)
        beta = seen(desk, BETA)
        Callers.alpha = seen(desk, ALPHA)
        busy = run("callers", store, of(("PUBLISH", PUBLISHER), ("ALPHA", ALPHA)))
        same("while the desk runs, the store is in use", busy, refused(42, 3))
        same("and nothing has changed", seen(desk, BETA), beta)
        desk.end()
        Callers.before = rows_of(store)

    def test_the_same_callers_again(self):
        done = run("callers", store, of(("PUBLISH", PUBLISHER), ("ALPHA", ALPHA), ("BETA", BETA)))
        same("the same file", done, (0, "CALLERS 3 ADDED 0 REMOVED 0 TOKENS 0\n", ""))
        same("changes no row", rows_of(store), self.before)

    def test_one_goes_one_comes_and_the_one_who_stays_gets_another_token(self):
        same(
            "another file", run("callers", store, of(("PUBLISH", PUBLISHER), ("ALPHA", "alpha-token-2"), ("GAMMA", BETA))),
            (0, "CALLERS 3 ADDED 1 REMOVED 1 TOKENS 1\n", ""),
        )
        after = rows_of(store)
        for table in ("sysmod", "sysmod_sup", "sysmod_cond", "hold_row", "bureau_version"):
            same("what is published stays: %s" % table, after[table], self.before[table])
        for table in ("last_change", "zone_head", "zone_row", "received_list"):
            same("no row of BETA is left: %s" % table, after[table], [row for row in self.before[table] if row[0] != "BETA"])
        same("the callers are those of the file", sorted(after["caller"]), [("ALPHA", "alpha-token-2"), ("GAMMA", BETA), ("PUBLISH", PUBLISHER)])

        desk = Served(store)
        same("the token that was replaced is nobody's", desk.ask("GET", "/zones", ALPHA), (401, b"UNKNOWN TOKEN\n"))
        same("who stays sees the same bytes", seen(desk, "alpha-token-2"), self.alpha)
        same("a kept reply comes again", desk.ask("PUT", "/received", "alpha-token-2", 4, RECEIVED)[0], 200)
        same("and the next number is the next", desk.ask("PUT", "/zones/TGT3", "alpha-token-2", 5, ZONE)[0], 200)
        same("the publisher's number stays", desk.ask("POST", "/publish", PUBLISHER, 1, BASE)[0], 200)
        same("and no other is taken", desk.ask("POST", "/publish", PUBLISHER, 3, BASE), (409, b"GAP LAST 1\n"))
        same("a new client with an old token has no zone", desk.ask("GET", "/zones", BETA), NO_ZONE)
        same("and begins with number 1", desk.ask("PUT", "/zones/TGT1", BETA, 1, ZONE)[0], 200)
        desk.end()

    def test_tokens_that_change_hands_and_a_client_who_comes_back(self):
        same(
            "tokens that change hands", run("callers", store, of(("PUBLISH", PUBLISHER), ("ALPHA", BETA), ("GAMMA", "alpha-token-2"))),
            (0, "CALLERS 3 ADDED 0 REMOVED 0 TOKENS 2\n", ""),
        )
        same(
            "a client who comes back", run("callers", store, of(("PUBLISH", "publisher-token-2"), ("ALPHA", BETA), ("BETA", "beta-token-2"))),
            (0, "CALLERS 3 ADDED 1 REMOVED 1 TOKENS 1\n", ""),
        )
        desk = Served(store)
        same("has no zone", desk.ask("GET", "/zones", "beta-token-2"), NO_ZONE)
        same("and no last number", desk.ask("DELETE", "/zones/TGT1", "beta-token-2", 9), (409, b"GAP LAST 0\n"))
        same("the publisher has another token", desk.ask("GET", "/published", "publisher-token-2")[0], 200)
        same("who stayed has its zones", desk.ask("GET", "/zones", BETA)[1].count(b"TGT"), 3)
        desk.end()

    def test_what_is_refused_changes_nothing(self):
        kept = read(store)
        short = write(room + "/short.csv", "NAME,TOKEN\nPUBLISH,publisher-token\nALPHA,short\n")
        headless = write(room + "/headless.csv", "PUBLISH,publisher-token\n")
        unpublished = write(room + "/unpublished.csv", "NAME,TOKEN\nALPHA,alpha-token\n")
        twice = write(room + "/twice.csv", "NAME,TOKEN\nPUBLISH,publisher-token\nALPHA,publisher-token\n")
        good = of(("PUBLISH", PUBLISHER))
        for name, words, answer in (
            ("a token that is too short", (store, short), refused(47, 1, "2")),
            ("no header", (store, headless), refused(46, 1)),
            ("no publisher", (store, unpublished), refused(48, 1)),
            ("a token that comes twice", (store, twice), refused(47, 1, "2")),
            ("a callers file that is missing", (store, "missing"), refused(71, 3)),
            ("a store that is missing", ("missing", good), refused(44, 1)),
            ("a file that is no store", (good, good), refused(42, 3)),
        ):
            same(name, run("callers", *words), answer)
        same("the store is as it was", read(store), kept)
        check("no file is made", not os.path.exists(room + "/missing"))

    def test_where_the_line_cant_be_written_the_store_has_the_callers(self):
        good = of(("PUBLISH", PUBLISHER))
        with open("/dev/full", "wb") as full:
            done = subprocess.run([PROGRAM, "callers", store, good], stdout=full, stderr=subprocess.PIPE, text=True, timeout=60)
        same("the line can't be written", (done.returncode, done.stderr), (3, "FAULT 72\n"))
        same("the store has the callers", run("callers", store, good), (0, "CALLERS 1 ADDED 0 REMOVED 0 TOKENS 0\n", ""))

    def test_a_stop_in_it(self):
        large = room + "/large"
        clients = [("C%d" % number, "token-of-%d" % number) for number in range(20)]
        same("a store of 20 clients", run("init", large, of(("PUBLISH", PUBLISHER), *clients)), (0, "CALLERS 21\n", ""))
        desk = Served(large)
        rows = b"SYSMOD,STATE\n" + b"".join(b"UA%05d,APPLIED\n" % number for number in range(300))
        for name, token in clients:
            same("a zone of %s" % name, desk.ask("PUT", "/zones/TGT1", token, 1, rows)[0], 200)
        desk.end()
        old = rows_of(large)
        others = write(room + "/others.csv", "NAME,TOKEN\nPUBLISH,%s\nC0,another-token\nNEW,newcomer-token\n" % PUBLISHER)
        dice, found = random.Random(1), set()
        for number in range(40):
            cut = room + "/cut"
            shutil.copy(large, cut)
            process = subprocess.Popen([PROGRAM, "callers", cut, others], stdout=subprocess.PIPE, stderr=subprocess.PIPE)
            if number == 39:
                process.wait()  # the last one has ended before it is stopped
            elif number:
                time.sleep(dice.random() * 0.06)
            process.send_signal(signal.SIGKILL)
            process.communicate()
            status, output, errors = run("callers", cut, others)
            found.add(output)
            both = ["CALLERS 3 ADDED 1 REMOVED 19 TOKENS 1\n", "CALLERS 3 ADDED 0 REMOVED 0 TOKENS 0\n"]
            check("a stop leaves the callers before or those of the file", status == 0 and output in both, (status, output, errors))
            new = rows_of(cut)
            same("who stays has its rows", new["zone_row"], [row for row in old["zone_row"] if row[0] == "C0"])
            same("and its number", new["last_change"], [row for row in old["last_change"] if row[0] == "C0"])
            for path in (cut, cut + "-wal"):
                if os.path.exists(path):
                    os.remove(path)
        check("some stops came before it and some after", len(found) == 2, found)

    def test_only_the_owner_may_read_what_is_made_whatever_the_umask(self):
        for umask in (0o000, 0o022, 0o077, 0o277):
            os.umask(umask)
            made = room + "/made-%o" % umask
            same("init under umask %o" % umask, run("init", made, of(("PUBLISH", PUBLISHER))), (0, "CALLERS 1\n", ""))
            os.umask(0o022)
            same("only the owner may read it", oct(stat.S_IMODE(os.stat(made).st_mode)), "0o600")
            same("nor its log", oct(stat.S_IMODE(os.stat(made + "-wal").st_mode)), "0o600")


if __name__ == "__main__":
    main("callers")
