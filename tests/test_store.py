#!/usr/bin/env python3
"""The program with real files: `init`, `serve`, what they refuse, stops, and the tables that sqlite3 reads."""
import os
import re
import shutil
import signal
import socket
import sqlite3
import subprocess
import threading
import time
import unittest

from service import PROGRAM, TOP, check, exchange, folder, free_port, main, same, write

PAGE = os.path.join(TOP, "docs", "API.md")
PUBLISHER, ALPHA, BETA = "publisher-token", "alpha-token", "beta-token"
CALLERS = b"NAME,TOKEN\nPUBLISH,publisher-token\nALPHA,alpha-token\nBETA,beta-token\n"
ZONE = b"SYSMOD,STATE\nHBB77E0,APPLIED\nUJ90201,APPLIED\n"
TABLES = [
    "bureau_version", "caller", "last_change", "sysmod", "sysmod_cond", "sysmod_sup", "hold_row", "zone_head",
    "zone_row", "received_list",
]

HELD = ["UJ%05d" % number for number in range(6000)]
HOLDS = "++FUNCTION(HBB77E0).\n++VER(Z038).\n" + "".join("++HOLD(%s) ERROR FMID(HBB77E0) REASON(A%s).\n" % (name, name[1:]) for name in HELD)
LONG_ZONE = "SYSMOD,STATE\nHBB77E0,APPLIED\n" + "".join("%s,APPLIED\n" % name for name in HELD)

room = folder()
callers = write(room + "/callers.csv", CALLERS)
store, again = room + "/store", room + "/again"


def run(*words, **more):
    """Status, standard output and standard error of a run that ends."""
    done = subprocess.run([PROGRAM, *words], capture_output=True, text=True, timeout=60, cwd=room, **more)
    return done.returncode, done.stdout, done.stderr


def refused(fault, status):
    return status, "", "FAULT %d\n" % fault


def read(path):
    with open(path, "rb") as file:
        return file.read()


def there():
    return sorted(os.listdir(room))


def made(name):
    """A new store with the three callers."""
    path = os.path.join(room, name)
    same("init makes %s" % name, run("init", path, callers), (0, "CALLERS 3\n", ""))
    return path


class Served:
    """A desk over a store, until it is ended."""

    def __init__(self, store, *options, under=()):
        self.process = subprocess.Popen(
            [*under, PROGRAM, "serve", "--port", str(free_port()), *options, store],
            stdout=subprocess.PIPE, stderr=subprocess.PIPE, text=True, cwd=room,
        )
        self.line = self.process.stdout.readline()
        self.address = self.line.split()[1] if self.line.startswith("LISTENING 127.0.0.1:") else ""
        check("serve says where it listens", self.address, self.line or self.process.stderr.read())
        self.port = int(self.address.split(":")[1])
        self.url = "http://" + self.address

    def ask(self, method, path, token, number=None, body=None):
        return exchange(self.url, method, path, token, number, body)

    def bytes(self, request):
        """All that the desk writes on one connection."""
        with socket.create_connection(("127.0.0.1", self.port), timeout=60) as connection:
            connection.sendall(request)
            connection.shutdown(socket.SHUT_WR)
            reply = b""
            try:
                while piece := connection.recv(65536):
                    reply += piece
            except OSError as fault:
                reply += repr(fault).encode()
            return reply

    def end(self, how=signal.SIGTERM):
        self.process.send_signal(how)
        self.process.wait()
        self.process.stdout.close()
        self.process.stderr.close()


def be_silent(port, silence):
    began = time.monotonic()
    with socket.create_connection(("127.0.0.1", port), timeout=75) as silent:
        try:
            silence.append((silent.recv(1), time.monotonic() - began))
        except OSError as fault:
            silence.append((fault, time.monotonic() - began))


def altered(name, *statements):
    """A copy of the store, changed behind the bureau's back."""
    path = os.path.join(room, name)
    shutil.copy(store, path)
    with sqlite3.connect(path) as conn:
        for statement in statements:
            conn.execute(statement)
    conn.close()
    return path


def is_reached(address, port):
    try:
        socket.create_connection((address, port), timeout=5).close()
        return True
    except OSError:
        return False


def request(first, token, number="", body=b""):
    lines = "%s HTTP/1.1\r\nbureau-token: %s\r\n" % (first, token)
    if number:
        lines += "bureau-number: %s\r\ncontent-length: %d\r\n" % (number, len(body))
    return lines.encode() + b"\r\n" + body


def exchanges():
    """The requests and replies of the page by connection, as `checks/exchanges` takes them off it."""
    place = folder()
    subprocess.run([os.path.join(TOP, "checks", "exchanges"), PAGE, place], check=True)
    names = sorted(name for name in os.listdir(place) if name.startswith("connection."))
    return place + "/callers.csv", [read(os.path.join(place, name)) for name in names], read(place + "/replies.txt")


def curl_lines():
    """Each `curl` of the page with the body that it sends, and the body of the reply that the page shows."""
    with open(PAGE) as file:
        text = file.read()
    for block, line in re.findall(r"```\n(> [^`]*?)```\n\n`(curl [^`]*)`", text):
        sent = re.search(r"^>\n((?:[^<].*\n)*)<", block, re.M)[1]
        yield line, sent.encode(), re.search(r"^<\n((?:.*\n)*)", block, re.M)[1].encode()


class Store(unittest.TestCase):
    @classmethod
    def setUpClass(cls):
        """A store, and a client that says nothing while all else is tried."""
        made("store")
        cls.empty_log = os.path.getsize(store + "-wal")
        cls.quiet, cls.silence = Served(made("quiet")), []
        cls.silent = threading.Thread(target=be_silent, args=(cls.quiet.port, cls.silence))
        cls.silent.start()

    def test_init(self):
        kept = read(store)
        same("init refuses a store that is there", run("init", store, callers), refused(44, 1))
        same("and leaves it as it is", read(store), kept)
        before = there()
        same("a missing callers file", run("init", "new", "missing"), refused(71, 3))
        for name, text, line in (
            ("short", CALLERS.replace(b"beta-token", b"beta"), "FAULT 47 3\n"),
            ("headless", CALLERS[11:], "FAULT 46\n"),
            ("unpublished", b"NAME,TOKEN\nALPHA,alpha-token\n", "FAULT 48\n"),
        ):
            bad = write(room + "/" + name, text)
            same("callers: %s" % name, run("init", "new", bad), (1, "", line))
            os.remove(bad)
        same("a refused init leaves no file behind", there(), before)
        same("a store in a folder that is not there", run("init", "nowhere/store", callers), refused(42, 3))

        others = sqlite3.connect(room + "/others")
        others.execute("CREATE TABLE letters (letter TEXT)")
        others.commit()
        others.close()
        same("init refuses a database of somebody else", run("init", "others", callers), refused(44, 1))

    def test_what_serve_refuses(self):
        before = there()
        same("a store that is not there", run("serve", "missing"), refused(44, 1))
        same("serve on a folder that is not there", run("serve", "nowhere/store"), refused(42, 3))
        same("is not made", there(), before)
        same("a database of somebody else", run("serve", "others"), refused(44, 1))
        text = write(room + "/text", b"This file is no database, and has more than a hundred bytes. " * 20)
        same("a file that is no database", run("serve", "text"), refused(42, 3))
        same("is left as it is", read(text), b"This file is no database, and has more than a hundred bytes. " * 20)
        same("a folder", run("serve", room)[0], 3)

        same(
            "a store of another version",
            run("serve", altered("later", "UPDATE bureau_version SET version = 3")),
            refused(45, 1),
        )
        with sqlite3.connect(store) as conn:
            tables = [name for (name,) in conn.execute("SELECT name FROM sqlite_schema WHERE type = 'table'")]
            columns = [(table, row[1]) for table in tables for row in conn.execute("PRAGMA table_info(%s)" % table)]
        conn.close()
        check("the store has ten tables", len(tables) == 10, tables)
        for table in tables:
            less = altered("less " + table, "DROP TABLE " + table)
            same("a store without %s" % table, run("serve", less), refused(44, 1))
        for table, column in columns:
            less = altered("less %s %s" % (table, column), "ALTER TABLE %s RENAME COLUMN %s TO other" % (table, column))
            same("a store without %s of %s" % (column, table), run("serve", less), refused(44, 1))

        # `check`: what else wrote into a store is told with the table that it is in, and a store that is whole stays as it was.
        whole = made("looked")
        written = read(whole)
        LOOKED = """STORE VERSION 2 CALLERS 3 SYSMODS 0 HOLDS 0
CALLER   ZONES  ROWS        LAST
ALPHA    0      0           0
BETA     0      0           0
PUBLISH  0      0           0
ROWS 3
"""
        same("a new store is whole", run("check", whole), (0, LOOKED, ""))
        same("and has the same bytes", read(whole), written)
        whole, copy = sqlite3.connect(whole), sqlite3.connect(room + "/copied")
        whole.backup(copy)
        whole.close()
        copy.close()
        same("a copy that sqlite3 makes is whole", run("check", "copied"), (0, LOOKED, ""))
        same("a store of another version, looked through", run("check", altered("later", "UPDATE bureau_version SET version = 3")), refused(45, 1))
        for table in tables:
            less = altered("looked less " + table, "DROP TABLE " + table)
            same("a store without %s, looked through" % table, run("check", less), refused(44, 1))
        for table, row in (
            ("caller", "('no id', 'some-token')"), ("last_change", "('no id', 1, x'00')"), ("sysmod", "('UA10001', 1, 'B,A', '', '')"),
            ("sysmod_sup", "('UA10001', 'no id')"), ("sysmod_cond", "('UA10001', 'HXX0001', '')"),
            ("hold_row", "('UA10001', 0, 'AA20001', '', '', 12367, '', '')"), ("zone_head", "('ALPHA', 'TGT1', '*,*')"),
            ("zone_row", "('ALPHA', 'TGT1', 'no id', 0)"), ("received_list", "('ALPHA', 'B,A')"),
        ):
            wrong = altered("wrong " + table, "INSERT INTO %s VALUES %s" % (table, row))
            same("a wrong row in %s" % table, run("check", wrong), (1, "", "FAULT 44 %s\n" % table))
        for text in ("DROP INDEX by_member", "CREATE TABLE more (id TEXT)"):
            same("after " + text, run("check", altered("other tables", text)), refused(44, 1))
        before = there()
        for name in (":memory:", "file:odd", "file:odd?mode=memory", ""):
            for words in (("init", name, callers), ("serve", name)):
                status, output, errors = run(*words)
                check("%s of %r is refused" % (words[0], name), status in (1, 2, 3) and not output, (status, output, errors))
        same("and makes nothing", there(), before)

    def test_one_server(self):
        desk = Served(store)
        same("published", desk.ask("GET", "/published", PUBLISHER), (200, b"PUBLISHED SYSMODS 0 HOLDS 0\n"))
        same("a second server on the store", run("serve", "--port", str(free_port()), store), refused(42, 3))
        same("init of a store that is served", run("init", store, callers), refused(42, 3))
        short = write(room + "/short of it", CALLERS.replace(b"beta-token", b"beta"))
        same("also for callers with a fault", run("init", store, short), refused(42, 3))
        os.remove(short)
        same("a port in use", run("serve", "--port", str(desk.port), made("other")), refused(73, 3))
        same("harms nobody", desk.ask("PUT", "/zones/TGT1", ALPHA, 1, ZONE), (200, b"ZONE TGT1 ROWS 2\n"))
        desk.end()

        os.symlink(store, room + "/link")
        desk = Served("link")
        same("a store through a link", desk.ask("GET", "/zones", ALPHA), (200, b"ZONE     SYSMODS\nTGT1     2\nROWS 1\n"))
        desk.end()

        desk = Served(store)

        same("it listens on 127.0.0.1 alone", [is_reached(address, desk.port) for address in ("127.0.0.1", "127.0.0.2")], [True, False])
        desk.end()

        desk = Served(store, "--connections", "2")
        first, second = desk.ask("GET", "/published", ALPHA), desk.ask("PUT", "/zones/TGT1", BETA, 1, ZONE)
        desk.process.wait(timeout=10)
        same("two connections, and the end", (first[0], second[0], desk.process.returncode), (200, 200, 0))
        same("which leaves nothing in the log", os.path.getsize(store + "-wal"), self.empty_log)

    def test_a_long_report(self):
        asked = write(
            room + "/asked",
            request("POST /publish", PUBLISHER, "1", HOLDS.encode())
            + request("PUT /zones/TGT1", ALPHA, "1", LONG_ZONE.encode())
            + request("GET /zones/TGT1/errsysmods", ALPHA),
        )
        replies = subprocess.run([PROGRAM, "replay", callers, asked], capture_output=True, cwd=room, timeout=100).stdout
        check("a report of 6,000 rows", replies.endswith(b"ROWS 6000\n") and len(replies) > 300000, len(replies))
        desk = Served(made("long"))
        check("is the same over a socket, to the byte", desk.bytes(read(asked)) == replies)
        desk.end()

    def test_a_reply_of_two_writes_on_a_connection_that_stays_open(self):
        desk = Served(made("open"))
        part = "".join(HOLDS.splitlines(True)[:42])
        same("40 holds", desk.ask("POST", "/publish", PUBLISHER, 1, part.encode()), (200, b"ACCEPTED SYSMODS 1 HOLDS 40 RELEASES 0\n"))
        part = "".join(LONG_ZONE.splitlines(True)[:42])
        same("a zone of 41 rows", desk.ask("PUT", "/zones/TGT2", ALPHA, 1, part.encode()), (200, b"ZONE TGT2 ROWS 41\n"))
        took = []
        with socket.create_connection(("127.0.0.1", desk.port), timeout=60) as connection:
            for _ in range(40):
                connection.sendall(request("GET /zones/TGT2/errsysmods", ALPHA))
                got = connection.recv(65536)
                began = time.monotonic()
                while not got.endswith(b"ROWS 40\n") and (piece := connection.recv(65536)):
                    got += piece
                took.append(time.monotonic() - began)
        # a body that waits until the client has acknowledged the head comes 40 milliseconds after it
        check("each reply goes out without delay", len(got) > 2000 and sorted(took)[20] < 0.02, took)
        desk.end()

    def test_a_device_that_fails(self):
        limited = made("limited")
        desk = Served(limited, under=("bash", "-c", 'trap "" XFSZ; ulimit -f 300; exec "$@"', "bash"))
        same("a change before the device fails", desk.ask("PUT", "/zones/TGT1", ALPHA, 1, ZONE), (200, b"ZONE TGT1 ROWS 2\n"))
        large = request("PUT /zones/TGT2", ALPHA, "2", LONG_ZONE.encode())
        check("the change under which it fails is not acknowledged", desk.bytes(large).endswith(b"\r\n\r\nNO ROOM\n"))
        output, errors = desk.process.communicate(timeout=60)
        same("the desk ends, and says why", (desk.process.returncode, output, errors), (3, "", "FAULT 42\n"))
        desk = Served(limited)
        same("what was acknowledged is there", desk.ask("GET", "/zones", ALPHA)[1], b"ZONE     SYSMODS\nTGT1     2\nROWS 1\n")
        check("and the change that was not is made now", desk.bytes(large).endswith(b"ZONE TGT2 ROWS 6001\n"))
        desk.end()

    def test_a_store_whose_file_is_gone_or_replaced(self):
        def put_away(place):
            os.rename(place, place + " away")

        def replace(place):
            shutil.copy(place, place + " copy")
            os.rename(place + " copy", place)

        def put_a_pipe(place):
            put_away(place)
            os.mkfifo(place)

        for what in (put_away, replace, os.remove, put_a_pipe):
            for part in ("", "-wal"):
                name = "%s of %s" % (what.__name__, "the log" if part else "the file")
                placed = made(name)
                desk = Served(placed)
                same("a change before it", desk.ask("PUT", "/zones/TGT1", ALPHA, 1, ZONE), (200, b"ZONE TGT1 ROWS 2\n"))
                what(placed + part)
                same("%s: questions are answered" % name, desk.ask("GET", "/zones", ALPHA)[0], 200)
                same("%s: a change is not acknowledged" % name, desk.ask("PUT", "/zones/TGT2", ALPHA, 2, ZONE), (503, b"NO ROOM\n"))
                output, errors = desk.process.communicate(timeout=60)
                same("%s: the desk ends, and says why" % name, (desk.process.returncode, output, errors), (3, "", "FAULT 42\n"))
                if what == put_away:
                    os.rename(placed + part + " away", placed + part)
                    desk = Served(placed)
                    zones = desk.ask("GET", "/zones", ALPHA)[1]
                    check("%s: back in its place it has what was acknowledged" % name, b"TGT1     2\n" in zones, zones)
                    same("%s: and takes the change" % name, desk.ask("PUT", "/zones/TGT2", ALPHA, 2, ZONE), (200, b"ZONE TGT2 ROWS 2\n"))
                    desk.end()

    def test_a_link_that_leads_elsewhere(self):
        first, second, link = made("first"), made("second"), os.path.join(room, "leads")
        os.symlink(first, link)
        desk = Served(link)
        same("a change", desk.ask("PUT", "/zones/TGT1", ALPHA, 1, ZONE), (200, b"ZONE TGT1 ROWS 2\n"))
        os.remove(link)
        os.symlink(second, link)
        same("a change that the link would not lead to", desk.ask("PUT", "/zones/TGT2", ALPHA, 2, ZONE), (503, b"NO ROOM\n"))
        output, errors = desk.process.communicate(timeout=60)
        same("ends the desk", (desk.process.returncode, output, errors), (3, "", "FAULT 42\n"))

    def test_the_mode_of_a_log_that_lies_there(self):
        for name, is_there in (("fresh", False), ("empty", True)):
            place = os.path.join(room, name)
            if is_there:
                os.chmod(write(place, ""), 0o640)
            os.chmod(write(place + "-wal", ""), 0o666)
            made(name)
            modes = [oct(os.stat(path).st_mode & 0o777) for path in (place, place + "-wal")]
            same("the modes of both files", modes, ["0o640" if is_there else "0o600"] * 2)

    def test_each_exchange_of_the_page_over_a_file_that_is_opened_again_before_each_connection(self):
        listed, connections, wanted = exchanges()
        page = os.path.join(room, "page")
        same("the callers of the page", run("init", page, listed)[:2], (0, "CALLERS 3\n"))
        got = b""
        for number, connection in enumerate(connections):
            desk = Served(page)
            got += desk.bytes(connection)
            desk.end(signal.SIGKILL if number % 2 else signal.SIGTERM)
        same("each exchange of the page", got, wanted)

        run("init", again, listed)
        desk = Served(again)
        lines = list(curl_lines())
        check("the page has lines for curl", len(lines) >= 8, len(lines))
        for line, sent, shown in lines:
            for name in re.findall(r"@(\S+)", line):
                write(os.path.join(room, name), sent)
            if "/zones/PROD" in line:
                desk.ask("PUT", "/zones/PROD", BETA, 1, ZONE)
            line = line.replace("127.0.0.1:8080", desk.address)
            done = subprocess.run(line, shell=True, capture_output=True, cwd=room)
            same(line, (done.returncode, done.stdout.rstrip(b"\n")), (0, shown.rstrip(b"\n")))
        desk.end()

    def test_a_stop_in_the_middle(self):
        desk = Served(again)
        whole = b"PUT /zones/TGT2 HTTP/1.1\r\nbureau-token: alpha-token\r\nbureau-number: 4\r\ncontent-length: 45\r\n\r\n" + ZONE
        for how in (signal.SIGTERM, signal.SIGKILL):
            with socket.create_connection(("127.0.0.1", desk.port)) as half:
                half.sendall(whole[:-7])
                time.sleep(0.1)
                desk.end(how)
            desk = Served(again)
            same(
                "what was acknowledged is there, and half a request did nothing",
                (desk.ask("GET", "/zones", ALPHA), desk.ask("PUT", "/received", ALPHA, 9, b"SYSMOD\n")),
                ((200, b"ZONE     SYSMODS\nTGT1     2\nROWS 1\n"), (409, b"GAP LAST 3\n")),
            )
        for how in (signal.SIGTERM, signal.SIGKILL):
            same("a change that was acknowledged", desk.bytes(whole)[-17:], b"ZONE TGT2 ROWS 2\n")
            desk.end(how)
            desk = Served(again)
            same("is there after a stop", desk.ask("GET", "/zones", ALPHA)[1], b"ZONE     SYSMODS\nTGT1     2\nTGT2     2\nROWS 2\n")
        desk.end()

    def test_what_another_program_reads_in_it_with_the_server_stopped(self):
        desk = Served(again)
        published = desk.ask("GET", "/published", PUBLISHER)
        desk.end()
        conn = sqlite3.connect(again)
        same("sqlite3 finds it sound", conn.execute("PRAGMA integrity_check").fetchall(), [("ok",)])
        same(
            "its tables",
            sorted(name for (name,) in conn.execute("SELECT name FROM sqlite_schema WHERE type = 'table' AND name NOT LIKE 'sqlite_%'")),
            sorted(TABLES),
        )
        same("its version", conn.execute("SELECT * FROM bureau_version").fetchall(), [(1, 2)])
        same(
            "its callers",
            conn.execute("SELECT name, token FROM caller ORDER BY name").fetchall(),
            [("ALPHA", ALPHA), ("BETA", BETA), ("PUBLISH", PUBLISHER)],
        )
        same(
            "a zone's rows",
            conn.execute("SELECT sysmod, state FROM zone_row WHERE client = 'ALPHA' AND zone = 'TGT1' ORDER BY sysmod").fetchall(),
            [("HBB77E0", 0), ("UJ90201", 0)],
        )
        same(
            "patterns and what was received",
            (
                conn.execute("SELECT zone, patterns FROM zone_head WHERE client = 'ALPHA' ORDER BY zone").fetchall(),
                conn.execute("SELECT client, ids FROM received_list").fetchall(),
            ),
            ([("TGT1", "IBM.Function.*"), ("TGT2", "")], [("ALPHA", "UJ90203")]),
        )
        same(
            "a SYSMOD with what it supersedes",
            (
                conn.execute("SELECT kind, fmids, pre, req FROM sysmod WHERE id = 'UJ90203'").fetchall(),
                conn.execute("SELECT member FROM sysmod_sup WHERE id = 'UJ90203' ORDER BY member").fetchall(),
            ),
            ([(1, "HBB77E0", "", "")], [("AJ61140",), ("UJ90201",), ("UJ90202",)]),
        )
        same(
            "a hold",
            conn.execute("SELECT kind, reason, fmid, class, dated, resolver, categories FROM hold_row WHERE sysmod = 'UJ90201'").fetchall(),
            [(0, "AJ61140", "HBB77E0", "HIPER", 25119, "", "")],
        )
        same(
            "the last change of each",
            conn.execute("SELECT caller, number, body FROM last_change ORDER BY caller").fetchall(),
            [
                ("ALPHA", 4, b"ZONE TGT2 ROWS 2\n"),
                ("BETA", 2, b"ZONE PROD DROPPED\n"),
                ("PUBLISH", 1, b"ACCEPTED SYSMODS 7 HOLDS 4 RELEASES 0\n"),
            ],
        )
        # A copy that sqlite3 makes is a store too.
        backup = sqlite3.connect(room + "/backup")
        conn.backup(backup)
        backup.close()
        conn.close()
        desk = Served(room + "/backup")
        same("a copy by sqlite3 is served", desk.ask("GET", "/published", PUBLISHER), published)
        desk.end()
        desk = Served(again)
        same("and so is the store that sqlite3 looked at", desk.ask("GET", "/published", PUBLISHER), published)
        desk.end()

    def test_the_client_that_said_nothing(self):
        self.silent.join()
        ((got, waited),) = self.silence
        check("it sees its end after a minute", got == b"" and 59 < waited < 75, self.silence)
        same("and the next one is served", self.quiet.ask("GET", "/published", PUBLISHER)[0], 200)
        self.quiet.end()


if __name__ == "__main__":
    main("store")
