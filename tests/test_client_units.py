#!/usr/bin/env python3
"""The parts of the package bureau_client, each by itself, by unittest. No desk is needed.

    test_client_units.py [-v] [NAME..]
"""
import os
import socket
import subprocess
import sys
import tempfile
import threading
import time
import unittest
import unittest.mock

TOP = os.path.dirname(os.path.dirname(os.path.abspath(__file__)))
sys.path.insert(0, os.path.join(TOP, "clients"))
sys.dont_write_bytecode = True

from bureau_client import changes, desk, faults, holddata, jobs, lists, reports, run, statements, zone_csv
from bureau_client import words as command_line
from service import main


class Checksums(unittest.TestCase):
    def test_of_posix(self):
        """The values of POSIX cksum, by which an earlier client named its folders."""
        for data, wanted in ((b"", 4294967295), (b"123456789", 930766865), (b"http://127.0.0.1:8080", None)):
            if wanted is None:
                wanted = int(subprocess.run(["cksum"], input=data, capture_output=True).stdout.split()[0])
            self.assertEqual(changes.checksum(data), wanted)


class Lists(unittest.TestCase):
    def test_rows(self):
        """Each SYSMOD or pattern counts once, and neither the header nor an empty line does."""
        for data, wanted in (
            (b"", 0),
            (b"SYSMOD\n", 0),
            (b"\n\nSYSMOD\nUJ1\n\nUJ1\nUJ2", 2),
            (b"\xef\xbb\xbfSYSMOD,STATE\r\n\r\n UJ1 ,APPLIED\r\n\"UJ1\",ACCEPTED\r\n", 1),
        ):
            self.assertEqual(lists.rows(data), wanted, data)


class Faults(unittest.TestCase):
    def test_table(self):
        """Each number once, in order, with a meaning and with what to do."""
        numbers = [int(number) for number in faults.table()]
        self.assertEqual(numbers, sorted(set(numbers)))
        self.assertTrue(all(row["MEANING"] and row["DO"] and None not in row.values() for row in faults.table().values()))

    def test_meaning(self):
        self.assertEqual(faults.meaning("33"), "the SYSMOD is no id: 1 to 7 characters of A-Z 0-9 @ # $, in upper case")
        self.assertEqual(faults.meaning("13"), "the hold or release has no REASON with a value: add REASON(..)")
        self.assertEqual(faults.brief(13), "no REASON with a value")
        self.assertEqual((faults.meaning("99"), faults.brief(99)), ("docs/FAULTS.md has the faults", "see docs/FAULTS.md"))

    def test_place(self):
        """From 31 on the place is a record: the header and empty lines are none."""
        data = b"SYSMOD,STATE\r\n\r\nUJ1,APPLIED\r\nUJ2,LOST\r\n"
        self.assertEqual(faults.place_of(["FAULT", "34", "2"], data), 4)
        self.assertEqual(faults.place_of(["FAULT", "13", "2"], data), 2)
        for words in (["FAULT"], ["FAULT", "37"], ["FAULT", "x", "1"], ["FAULT", "34", "9"]):
            self.assertIsNone(faults.place_of(words, data))
        self.assertEqual((faults.shown(b"a\nb" + b"c" * 200, 2), faults.shown(b"a", 5)), ("b" + "c" * 99, ""))


class Starters(unittest.TestCase):
    def test_safe_path(self):
        """Each command begins where Python is told not to look into the folder of what it runs."""
        for name, words, status in (("bureau-client", ["fault", "13"], 0), ("zone-csv", [], 2), ("publication", [], 2)):
            for options, more in ((["-I"], {}), ([], {"PYTHONSAFEPATH": "1"})):
                line = [sys.executable, *options, os.path.join(TOP, "clients", name), *words]
                made = subprocess.run(line, capture_output=True, text=True, cwd="/", env={**os.environ, **more})
                self.assertEqual((made.returncode, "Traceback" in made.stderr), (status, False), (line, more, made.stderr))


class HoldData(unittest.TestCase):
    """What needs HOLDDATA alone."""

    TEXT = (
        "++HOLD(UJ1) FIXCAT REASON(A)\n CATEGORY(IBM.X.Y,\n  IBM.Z).\n++HOLD(UJ2) ERROR REASON(A) COMMENT(A (B) FIXCAT) CATEGORY(IBM.NOT).\n"
        "++HOLD(UJ3) FIXCAT REASON(B) CATEGORY(IBM.GONE).\n++RELEASE(UJ3) FIXCAT REASON(B).\n"
        "++HOLD(UJ4) FIXCAT REASON(C) CATEGORY(IBM.A).\n++HOLD(UJ4) FIXCAT REASON(C) CATEGORY(IBM.C /* X */).\n"
    )

    def run_client(self, *words, **settings):
        """The status, the output and what is said. The program is one that prints its words and what it is given."""
        with tempfile.TemporaryDirectory() as place:
            for name, text in (("program", '#!/bin/sh\necho "$@" && exec cat\n'), ("holddata", self.TEXT), *settings.items()):
                with open(f"{place}/{name}", "wb") as file:
                    file.write(text if isinstance(text, bytes) else text.encode())
            os.chmod(place + "/program", 0o755)
            environment = {"PATH": os.environ["PATH"], "BUREAU_PROGRAM": place + "/program"}
            line = [sys.executable, os.path.join(TOP, "clients", "bureau-client"), *words]
            made = subprocess.run(line, capture_output=True, text=True, cwd=place, env=environment)
            return made.returncode, made.stdout, made.stderr

    def test_categories(self):
        """Those that are in force, once each, as a list."""
        self.assertEqual(self.run_client("categories", "--published", "holddata"), (0, "CATEGORY\nIBM.C\nIBM.X.Y\nIBM.Z\n", ""))
        self.assertEqual(self.run_client("categories", "--published", "none", none="++PTF(A).\n")[0], 1)
        for words in (["categories"], ["categories", "--published", "nowhere"], ["holds", "--published", "holddata", "holddata"]):
            self.assertEqual(self.run_client(*words)[0], 2, words)

    def test_patterns(self):
        """What matches no category is named."""
        with tempfile.NamedTemporaryFile() as file:
            file.write(self.TEXT.encode())
            file.flush()
            patterns, told = ["IBM.X.Y", "IBM.X", "IBM.X*", "*", "ibm*", "IBM.NOT"], []
            with unittest.mock.patch.object(holddata, "say", told.append):
                holddata.name_unmatched(patterns, "list", file.name)
            self.assertEqual([text.split()[1] for text in told], ["IBM.X", "ibm*", "IBM.NOT"])

    def test_holds(self):
        """A hold book is of the lines that `publication` reads. What is none, or is lost, is told, and the status says so."""
        whole = "".join(f"{line:<80}" for line in self.TEXT.splitlines())
        lost = "++PTF(A). ++HOLD(A) ERROR REASON(B).\n"
        for name, given, status, wanted, said in (
            ("as it is", self.TEXT, 0, self.TEXT, ""),
            ("with a mark and CR LF", "\ufeff" + self.TEXT.replace("\n", "\r\n"), 0, self.TEXT, "begins with a UTF-8 mark"),
            ("records of 80 bytes", whole, 0, "\n".join(f"{line:<80}" for line in self.TEXT.splitlines()), "it is cut into records of 80 bytes"),
            ("a lost statement", lost, 1, lost, "line 1: left out, since its ++ is not in column 1"),
        ):
            with self.subTest(name):
                result = self.run_client("holds", "given", given=given)
                self.assertEqual(result[:2], (status, "holds -\n" + wanted))
                self.assertIn(said, result[2])
        nothing = "has no statement"
        for name, given, said in (("EBCDIC", self.TEXT.encode("cp037"), "seems to be EBCDIC"), ("CSV", "SYSMOD\n", nothing), ("empty", "", nothing)):
            with self.subTest(name):
                status, out, err = self.run_client("holds", "given", given=given)
                self.assertEqual((status, out), (1, ""))
                self.assertIn(said, err)


class Fields(unittest.TestCase):
    def test_csv(self):
        self.assertEqual(run.csv_line(["=A", "b,c", 'd"e', "", "-"]), "'=A,\"b,c\",\"d\"\"e\",,'-\n")


class Replies(unittest.TestCase):
    def read(self, *pieces):
        """What is read of a reply that comes in these pieces, and then ends."""
        here, there = socket.socketpair()
        with here, there:
            sender = threading.Thread(target=lambda: [there.sendall(piece) for piece in pieces] + [there.shutdown(socket.SHUT_WR)])
            sender.start()
            try:
                return desk.read_reply(here, b"", time.monotonic() + 5)
            finally:
                sender.join()

    def test_whole(self):
        reply = b"HTTP/1.1 200 OK\r\nContent-Length: 5\r\n\r\nabc\r\n"
        self.assertEqual(self.read(reply), (200, b"abc\r\n"))
        self.assertEqual(self.read(*(reply[at : at + 1] for at in range(len(reply)))), (200, b"abc\r\n"))
        self.assertEqual(self.read(b"HTTP/1.1 100 Continue\r\n\r\n" + reply), (200, b"abc\r\n"))

    def test_cut(self):
        """A reply that is cut anywhere is none: also inside its head, and inside the number of its length."""
        reply = b"HTTP/1.1 200 OK\r\ncontent-length: 10\r\nx: y\r\n\r\n0123456789"
        for length in range(len(reply)):
            with self.assertRaises(OSError, msg=reply[:length]):
                self.read(reply[:length])

    def test_no_length(self):
        for reply in (b"HTTP/1.1 200 OK\r\n\r\nabc", b"HTTP/1.1 200 OK\r\ntransfer-encoding: chunked\r\n\r\n0\r\n\r\n", b"SSH-2.0\r\n\r\n"):
            with self.assertRaises(OSError):
                self.read(reply)

    def test_too_late(self):
        here, there = socket.socketpair()
        with here, there, self.assertRaises(OSError):
            desk.read_reply(here, b"", time.monotonic() + 0.1)

    def test_refused_before_its_end(self):
        """A front refuses a body before it has read it, and goes: its reply is read all the same."""
        listener = socket.create_server(("127.0.0.1", 0))

        def refuse():
            line = listener.accept()[0]
            line.recv(4096)
            line.sendall(b"HTTP/1.1 413 Too Large\r\ncontent-length: 2\r\n\r\nno")
            line.shutdown(socket.SHUT_WR)
            line.recv(4096)
            time.sleep(0.5)
            line.close()

        front = threading.Thread(target=refuse)
        front.start()
        with listener, socket.create_connection(listener.getsockname()) as line:
            end = time.monotonic() + 20
            received, _ = desk.send_body(line, b"x" * (1 << 26), end)
            self.assertEqual(desk.read_reply(line, received, end), (413, b"no"))
        front.join()


class Locks(unittest.TestCase):
    def test_owner(self):
        """Only the lock of a process of this machine that has ended is one to be taken over."""
        here, ended = os.uname().nodename, subprocess.Popen(["true"])
        ended.wait()
        for owner, is_dead in (
            ([here, str(ended.pid)], True),
            ([here, "9" * 30], True),
            ([here, str(os.getpid())], False),
            (["elsewhere." + here, str(ended.pid)], False),
            ([here, "x"], False),
            ([], False),
        ):
            self.assertEqual(changes.is_dead(owner), is_dead, owner)

    def test_taken_and_given_back(self):
        class Settings:
            turns = 1

        with tempfile.TemporaryDirectory() as Settings.home:
            with changes.Lock(Settings):
                self.assertEqual(os.listdir(Settings.home), ["lock"])
                with self.assertRaises(run.Stop):
                    changes.Lock(Settings).__enter__()
            self.assertEqual(os.listdir(Settings.home), [])


class Texts(unittest.TestCase):
    HEAD = "MISSING FIX REPORT FOR ZONE A\nCATEGORY   FMID     REASON   RESOLVER STATUS RECEIVED\n"

    def test_columns_by_heading(self):
        text = self.HEAD + "IBM.X      HBB77E0  AJ1      - NONE - -      -\nROWS 1\n"
        report = reports.texts_in(text.encode())["missingfix"]
        self.assertEqual(list(report.by_key()), [("IBM.X", "HBB77E0", "AJ1", "- NONE -")])

    def test_no_report(self):
        for text in ("x\n", self.HEAD, self.HEAD + "ROWS 1\n", self.HEAD + "ROWS 0\nmore\n"):
            with self.assertRaises(run.NoAnswer):
                reports.texts_in(text.encode())


class Jobs(unittest.TestCase):
    def test_comment(self):
        self.assertEqual(jobs.comment("a b"), [" /* A B */"])
        for line in jobs.comment("word " * 40):
            self.assertLessEqual(len(line), 71)

    def test_list(self):
        ids = ["UJ%05d" % at for at in range(17)]
        self.assertEqual([line.count("UJ") for line in jobs.list_of(ids)], [8, 8, 1])
        self.assertEqual([line.endswith(",") for line in jobs.list_of(ids)], [True, True, False])
        self.assertLessEqual(max(map(len, jobs.list_of(ids))), 71)

    def test_no_id(self):
        self.assertTrue(desk.fits([], [run.ID]) and desk.fits(["UJ1", "A#$@"], [run.ID]))
        for value in (["a"], ["UJ1 */"], [7], [None], "UJ1", None):
            self.assertFalse(desk.fits(value, [run.ID]), value)

    def test_forms(self):
        """An object has the keys of its form, and may have more."""
        for value, form, wanted in (
            ({"a": True, "b": 1}, {"a": bool}, True),
            ({"a": 1}, {"a": bool}, False),
            ({}, {"a": bool}, False),
            ([{"a": []}], [{"a": [run.ID]}], True),
            ({"a": {}}, {"a": [run.ID]}, False),
            ({"a": None}, {"a": (str, type(None))}, True),
            ({"a": "x"}, {"a": "y"}, False),
        ):
            self.assertEqual(desk.fits(value, form), wanted, (value, form))


class Statements(unittest.TestCase):
    def test_end(self):
        for text, wanted in (
            (b"++PTF(A). more", 9),
            (b"++PTF(A) /* . */.", 17),
            (b"++PTF(A) /* .\n */\n . more", 20),
            (b"++HOLD(A) COMMENT(/* .).", 24),
            (b"++HOLD(A) COMMENT(A (/* .) B) /* ) */.", 38),
            (b"++PTF(A", None),
            (b"++PTF(A)).", None),
            (b"++PTF(A) /* .", None),
        ):
            self.assertEqual(statements.end_of(text), wanted, text)


class ZoneLists(unittest.TestCase):
    def test_states(self):
        for fields, wanted in (
            ({"DELBY": ["HDZ33E0"], "SUPBY": ["UJ1"]}, (None, "deleted by a function")),
            ({"TYPE": ["DELETED"], "STATUS": ["APP"]}, (None, "deleted by a function")),
            ({"SUPBY": ["UJ1"], "STATUS": ["ERR"]}, ("SUPERSEDED", None)),
            ({"LASTSUP": ["UJ1"]}, ("SUPERSEDED", None)),
            ({"SUPBY": [], "STATUS": ["APP"]}, ("APPLIED", None)),
            ({"STATUS": ["APP", "ERR(1)"], "RESTORE": ["YES"]}, (None, "in error")),
            ({"ERROR": ["NO"], "STATUS": ["APP", "RES"]}, (None, "whose RESTORE did not end")),
            ({"STATUS": ["REC", "ACC", "APP"]}, ("APPLIED", None)),
            ({"STATUS": ["ACC"]}, ("ACCEPTED", None)),
            ({"STATUS": ["REC"]}, (None, "not installed")),
            ({}, (None, "not installed")),
        ):
            self.assertEqual(zone_csv.state_of(fields, "zone"), wanted, fields)
        self.assertEqual(zone_csv.state_of({"STATUS": ["APP", "REC"]}, "received"), ("RECEIVED", None))
        self.assertEqual(zone_csv.state_of({"STATUS": ["APP"]}, "received"), (None, "not received"))


class Completion(unittest.TestCase):
    """What bash completes, in a bash of its own."""

    @classmethod
    def setUpClass(cls):
        cls.client = os.path.join(TOP, "clients", "bureau-client")
        cls.script = subprocess.run([cls.client, "completion"], capture_output=True, text=True).stdout
        cls.place = tempfile.TemporaryDirectory()
        for zone in ("MVSPROD", "MVSTEST"):
            os.makedirs(cls.place.name + "/desks/x.1/sent/zones", exist_ok=True)
            with open(cls.place.name + "/desks/x.1/sent/zones/" + zone, "w"):
                pass
        with open(cls.place.name + "/made.csv", "w"):
            pass

    @classmethod
    def tearDownClass(cls):
        cls.place.cleanup()

    def of(self, *typed):
        lines = self.script + "COMP_WORDS=(\"$@\") COMP_CWORD=$(($# - 1)); _bureau_client; printf '%s\\n' \"${COMPREPLY[@]}\""
        done = subprocess.run(
            ["bash", "-c", lines, "bash", "bureau-client", *typed], capture_output=True, text=True, cwd=self.place.name,
            env={**os.environ, "BUREAU_HOME": self.place.name},
        )
        self.assertEqual(done.stderr, "")
        return done.stdout.split()

    def test_commands(self):
        self.assertEqual(set(self.of("")), {"help", *(each for each in command_line.COMMANDS if " " not in each)})
        self.assertEqual(self.of("err"), ["errsysmods"])
        self.assertEqual(self.of("--csv", "overv"), ["overview"])

    def test_options(self):
        """Of each command its own options, as the words are read."""
        self.assertEqual(self.of("errsysmods", "--a"), ["--all", "--alert"])
        self.assertEqual(self.of("zone", "--"), ["--to"])
        self.assertEqual(self.of("fault", "--"), [])
        for command in (each for each in command_line.COMMANDS if " " not in each):
            for option in self.of(command, "--"):
                self.assertTrue(option == "--to" or option[2:] in command_line.COMMANDS[command][2].split(), (command, option))

    def test_zones_and_files(self):
        """Zones are those whose lists were sent from here."""
        self.assertEqual(sorted(self.of("errsysmods", "MVS")), ["MVSPROD", "MVSTEST"])
        self.assertEqual(self.of("report", "--html", "MVSP"), ["MVSPROD"])
        self.assertEqual(self.of("zone", "MVSPROD", "ma"), ["made.csv"])
        self.assertEqual(self.of("errsysmods", "--symptoms", "m"), ["made.csv"])
        self.assertEqual(self.of("--to", "http://127.0.0.1:9", "last-"), ["last-publication"])
        self.assertEqual(self.of("errsysmods", "--alert", "H"), [])


if __name__ == "__main__":
    main("client's parts")
