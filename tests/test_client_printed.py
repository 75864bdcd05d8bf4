#!/usr/bin/env python3
"""What bureau-client prints of a reply, by unittest: each control character stands as what it is. No desk is needed.

    test_client_printed.py [-v] [CLASS.TEST..]
"""
import json
import os
import re
import socket
import subprocess
import sys
import tempfile
import threading
import unittest

from service import CLIENT, main
from stand_in import StandIn

PAINT = "\x1b[2J\x07\x7f\x9b31m"  # clears a terminal, rings, and paints it red by C1
SHOWN = r"\x1b[2J\x07\x7f\x9b31m"
CONTROL = re.compile(rb"[\x00-\x09\x0b-\x1f\x7f]|\xc2[\x80-\x9f]")

TEXTS = {
    "published": "PUBLISHED SYSMODS 1 HOLDS 1" + PAINT,
    "zones": f"ZONE     SYSMODS\n{PAINT}  1\nROWS 1\n",
    "errsysmods": f"EXCEPTION SYSMOD REPORT FOR ZONE A\nFMID     SYSMOD   REASON   RESOLVER STATUS RECEIVED CLASS\n{PAINT}\nROWS 1\n",
    "missingfix": f"MISSING FIX REPORT FOR ZONE A\nCATEGORY FMID     REASON   RESOLVER STATUS RECEIVED\n{PAINT}\nROWS 1\n",
    "plan": f"EXCEPTION SYSMOD PLAN FOR ZONE A\nORDER\n{PAINT}\nROWS 1\n",
    "UJ1": '{"zone":"A"}' + PAINT,
    "symptoms.csv": f"SYSMOD,REASON,DATE,CHGDT,SYMP,FIX\n{PAINT},AJ1,{PAINT},{PAINT},{PAINT},{PAINT}\n",
}
ROW = dict.fromkeys("fmid sysmod reason resolver status category class date".split(), PAINT)
ROWS = [{**ROW, "received": True}, {**ROW, "resolver": None, "reason": "AJ1", "received": None}]
JSONS = {
    "zones.json": {"zones": [{"zone": "A", "sysmods": 1}, {"zone": PAINT + "\n\t", "sysmods": 2}]},
    "errsysmods.json": {"report": "errsysmods", "rows": ROWS},
    "missingfix.json": {"report": "missingfix", "rows": ROWS},
    "publication.json": {"newest": PAINT, "number": 3},
}


def answer(first):
    """The reply of a desk that would paint: a text, or JSON in which its characters stand as escapes."""
    method, path, _ = first.split()
    *_, zone, name = path.split("/")
    if method == "DELETE":
        return 409, b"GAP LAST 0"
    if name in JSONS:
        return json.dumps({**JSONS[name], "zone": zone}).encode()
    return TEXTS[name].encode() if name in TEXTS else (404, ("NOT FOUND" + PAINT).encode())


class Printed(unittest.TestCase):
    """Runs of the client at a stand-in for a desk."""

    def setUp(self):
        self.desk, self.home = StandIn(), tempfile.TemporaryDirectory()
        self.addCleanup(self.home.cleanup)
        self.desk.reply = answer

    def run_client(self, *words, **settings):
        """The status, and both outputs one after the other. Neither has a control character but line ends."""
        settings = {"BUREAU_URL": f"http://127.0.0.1:{self.desk.port}", "BUREAU_TOKEN": "a-token", "no_proxy": "*", **settings}
        settings = {"PATH": os.environ["PATH"], "BUREAU_HOME": self.home.name, "BUREAU_TRIES": "1", "BUREAU_PAUSE": "0", **settings}
        made = subprocess.run([sys.executable, CLIENT, *words], capture_output=True, env=settings, timeout=60)
        text = made.stdout + made.stderr
        self.assertIsNone(CONTROL.search(text), (words, text))
        self.assertNotIn(b"Traceback", text)
        return made.returncode, text.decode()

    def test_texts(self):
        """What is printed as the desk gives it."""
        for words in (["published"], ["zones"], ["errsysmods", "A"], ["missingfix", "A"], ["chain", "A", "UJ1"]):
            with self.subTest(words):
                status, text = self.run_client(*words)
                self.assertEqual(status, 0, text)
                self.assertIn(SHOWN, text)

    def test_rows(self):
        """What is read from JSON, with the symptoms of a front beside it."""
        for words in (["zones", "--csv"], ["errsysmods", "--csv", "A"], ["missingfix", "--csv", "A"], ["overview"]):
            with self.subTest(words):
                status, text = self.run_client(*words)
                self.assertEqual(status, 0, text)
                self.assertIn(SHOWN, text)

    def test_all_zones(self):
        for words in (["errsysmods", "--all"], ["report", "--csv"], ["report", "--html"], ["plan", "A"]):
            with self.subTest(words):
                self.assertIn(SHOWN, self.run_client(*words)[1])

    def test_refusals(self):
        """What is said of a status that is no 200."""
        for status in (400, 401, 404, 409, 422, 503):
            with self.subTest(status):
                self.desk.reply = lambda first: (status, ("FAULT 13 1 " + PAINT).encode())
                for words in (["published"], ["errsysmods", "A"], ["last"]):
                    self.run_client(*words)
        self.assertIn(SHOWN, self.run_client("published")[1])

    def test_change(self):
        """The answer to a change, which is none of a desk."""
        with open(self.home.name + "/list.csv", "w") as file:
            file.write("SYSMOD,STATE\nUJ1,APPLIED\n")
        self.desk.reply = lambda first: answer(first) if first.startswith("DELETE") else f"ZONE A ROWS 1{PAINT}".encode()
        status, text = self.run_client("zone", "A", self.home.name + "/list.csv")
        self.assertEqual(status, 1, text)
        self.assertIn("was answered 'ZONE A ROWS 1" + SHOWN, text)

    def test_bytes_of_no_utf8(self):
        """A terminal of 8 bits takes a byte for a control character that is none in UTF-8."""
        self.desk.reply = b"PUBLISHED \x9b31m\xff SYSMODS 1"
        status, text = self.run_client("published")
        self.assertEqual((status, text), (0, r"PUBLISHED \x9b31m\xff SYSMODS 1"))

    def test_plain(self):
        """Lines, with CR or without, and characters beyond ASCII stay as they are."""
        self.desk.reply = "PUBLISHED \u00fc\u2013\r\nSYSMODS 1\r\n".encode()
        self.assertEqual(self.run_client("published"), (0, "PUBLISHED \u00fc\u2013\nSYSMODS 1\n"))

    def test_proxy(self):
        """The reason that a proxy gives for its refusal."""
        listener = socket.create_server(("127.0.0.1", 0))
        self.addCleanup(listener.close)

        def refuse():
            line = listener.accept()[0]
            line.recv(65536)
            line.sendall(("HTTP/1.1 403 " + PAINT + "\r\n\r\n").encode("latin-1"))
            line.close()

        threading.Thread(target=refuse, daemon=True).start()
        proxy = f"http://127.0.0.1:{listener.getsockname()[1]}"
        status, text = self.run_client("published", BUREAU_URL="https://desk.test", https_proxy=proxy, no_proxy="")
        self.assertEqual(status, 3)
        self.assertIn(r"\x1b[2J", text)


if __name__ == "__main__":
    main("client's prints")
