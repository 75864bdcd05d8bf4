#!/usr/bin/env python3
"""Truncated and mangled input: each call returns, with the answer that the rules give to what was sent.

    test_hostile.py [--all]

A publication, a zone's list and a request are sent in every prefix, and with each byte replaced by each of seven others. What has
to come is told by a second reader in plain Python (plain.py). Then tables of what is refused, and clients that are gone in the
middle of a request or before its reply. With --all `holds` gets each mangled publication; else every tenth.
"""
import socket
import struct
import subprocess
import sys
import unittest

from plain import Fault, hold_book, is_id, publication, refusal, zone_rows
from service import PROGRAM, Desk, check, folder, main, same, write

BASE = b"""++FUNCTION(HBB7790).
++VER(Z038).
++PTF(UA10001).
++VER(Z038) FMID(HBB7790).
++PTF(UA10002).
++VER(Z038) FMID(HBB7790) PRE(UA10001) SUP(AA20002).
++IF FMID(HXX0001) REQ(UA10001).
++HOLD(UA10001) ERROR FMID(HBB7790)
 REASON(AA20002) CLASS(PE) DATE(12045).
"""
ZONE = b"SYSMOD,STATE\nHBB7790,APPLIED\nUA10001,APPLIED\n"
BYTES = b"\0()+.\n\xff"
REASONS = {200: "OK", 400: "Bad Request", 401: "Unauthorized", 404: "Not Found", 405: "Method Not Allowed", 409: "Conflict",
           411: "Length Required", 413: "Payload Too Large", 422: "Unprocessable Entity", 431: "Request Header Fields Too Large"}
RESET = struct.pack("ii", 1, 0)
NAMES = ["V%05d" % place for place in range(2000)]
TOKENS = {name: "tok-" + name + "0" for name in NAMES}  # as long as alpha-token
room = folder()
STEP = 1 if "--all" in sys.argv else 10
sys.argv[1:] = [word for word in sys.argv[1:] if word != "--all"]


def mangled(text):
    """Every prefix, and each byte replaced by each other of the seven."""
    found = [text[:count] for count in range(len(text) + 1)]
    return found + [text[:i] + bytes([byte]) + text[i + 1 :] for i in range(len(text)) for byte in BYTES if byte != text[i]]


def told(reader, text):
    """What a plain reader makes of a text: a status and a body."""
    try:
        return 200, reader(text)
    except Fault as fault:
        return 422, fault.line + "\n"


def reply(status, body, more="", close=False):
    return ("HTTP/1.1 %d %s\r\ncontent-type: text/plain\r\ncontent-length: %d\r\n%s%s\r\n%s" % (
        status, REASONS[status], len(body), more, "connection: close\r\n" if close else "", body)).encode()


def request(first, token, number, body):
    return b"%s HTTP/1.1\r\nbureau-token: %s\r\nbureau-number: %d\r\ncontent-length: %d\r\n\r\n%s" % (
        first, token.encode(), number, len(body), body)


def replayed(callers, connections):
    """What a desk in memory writes to these connections."""
    listed = "NAME,TOKEN\nPUBLISH,publisher-token\n" + "".join("%s,%s\n" % row for row in callers.items())
    files = [write("%s/connection%d" % (room, place), sent) for place, sent in enumerate(connections)]
    done = subprocess.run([PROGRAM, "replay", write(room + "/callers", listed), *files], capture_output=True, timeout=300)
    same("replay ends well", (done.returncode, done.stderr), (0, b""))
    return done.stdout


def see_each(name, cases, got):
    """Compares what was written in all with what each case has to be told, and names the first that differs."""
    at = 0
    for sent, wanted in cases:
        if got[at : at + len(wanted)] != wanted:
            same("%s: %r" % (name, sent), got[at : at + len(wanted)], wanted)
            return
        at += len(wanted)
    check("%s: %d cases" % (name, len(cases)), at == len(got), got[at : at + 300])


def answers(sent, token):
    """What is written to a connection of a client that has sent no change before."""
    written, last = b"", 0
    while True:
        first = refusal(sent)
        if first is None:
            return written
        if len(first) == 2:
            return written + reply(*first, close=True)
        (method, target, is_old, headers), body, sent = first
        status, text, more = answer(method, target, headers, body, token, last)
        last += status == 200
        written += reply(status, text, more, is_old)
        if is_old:
            return written


def answer(method, target, headers, body, token, last):
    if [value for name, value in headers if name == b"bureau-token"] != [token.encode()]:
        return 401, "UNKNOWN TOKEN\n", "www-authenticate: Bureau\r\n"
    parts = target.split(b"?")[0].split(b"/")
    if len(parts) != 3 or parts[1] != b"zones" or not parts[2]:
        return 404, "NOT FOUND\n", ""
    if method not in (b"PUT", b"DELETE"):
        return 405, "METHOD NOT ALLOWED\n", "allow: DELETE, PUT\r\n"
    if not is_id(parts[2]):
        return 404, "NOT FOUND\n", ""
    numbers = [value for name, value in headers if name == b"bureau-number"]
    if len(numbers) != 1 or not numbers[0].isdigit() or len(numbers[0]) > 19 or int(numbers[0]) == 0:
        return 400, "BAD NUMBER\n", ""
    if int(numbers[0]) != last + 1:
        return 409, "GAP LAST %d\n" % last, ""
    return told(lambda text: "ZONE %s ROWS %d\n" % (parts[2].decode(), len(zone_rows(text))), body) + ("",)


def exchange(desk, sent):
    with socket.create_connection(("127.0.0.1", desk.port), timeout=60) as connection:
        connection.sendall(sent)
        connection.shutdown(socket.SHUT_WR)
        written = b""
        while piece := connection.recv(1 << 16):
            written += piece
        return written


class Hostile(unittest.TestCase):
    @classmethod
    def setUpClass(cls):
        cls.desk = Desk(write(room + "/many", "NAME,TOKEN\nPUBLISH,publisher-token\nALPHA,alpha-token\nBETA,beta-token\n"
                              + "".join("%s,%s\n" % row for row in TOKENS.items())))
        cls.addClassCleanup(cls.desk.end)

    def test_a_publication(self):
        cases, number = [], 1
        for text in mangled(BASE):
            status, body = told(publication, text)
            cases.append((text, reply(status, body)))
            number += status == 200
        number, requests = 1, []
        for text, wanted in cases:
            requests.append(request(b"POST /publish", "publisher-token", number, text))
            number += wanted.startswith(b"HTTP/1.1 200")
        see_each("a publication", cases, replayed({}, [b"".join(requests)]))
        for text in mangled(BASE)[:: STEP]:
            status, body = told(hold_book, text)
            done = subprocess.run([PROGRAM, "holds", "-"], input=text, capture_output=True, timeout=60)
            wanted = (0, body.encode(), b"") if status == 200 else (1, b"", body.encode())
            if (done.returncode, done.stdout, done.stderr) != wanted:
                same("holds of %r" % text, (done.returncode, done.stdout, done.stderr), wanted)

    def test_a_zones_list_each_from_a_client_of_its_own(self):
        cases, connections = [], []
        for name, text in zip(NAMES, mangled(ZONE)):
            status, body = told(lambda text: "ZONE TGT1 ROWS %d\n" % len(zone_rows(text)), text)
            cases.append((text, reply(status, body)))
            connections.append(request(b"PUT /zones/TGT1", TOKENS[name], 1, text))
        see_each("a zone's list", cases, replayed(TOKENS, connections))

    def test_a_request_each_from_a_client_of_its_own(self):
        cases = []
        for place in range(len(mangled(request(b"PUT /zones/TGT1", "alpha-token", 1, ZONE)))):
            token = TOKENS[NAMES[place]]
            sent = mangled(request(b"PUT /zones/TGT1", token, 1, ZONE))[place]
            cases.append((sent, answers(sent, token)))
        see_each("a request", cases, replayed(TOKENS, [sent for sent, _ in cases]))
        statuses = {wanted[9:12] for _, wanted in cases}
        same("of each kind", statuses, {b"", b"200", b"400", b"401", b"404", b"405", b"411", b"422"})

        see_each("a request over a socket", cases, b"".join(exchange(self.desk, sent) for sent, _ in cases))

    def test_tables_of_what_is_refused(self):
        for text, wanted in (
            (b"++HOLD(UA10001 ERROR.", "FAULT 3 1"),
            (b"++HOLD UA10001 ERROR REASON(AA1).", "FAULT 2 1"),
            (b"++HOLD(UA10001) ERROR REASON(AA20002) ; .", "FAULT 4 1"),
            (b"++HOLD(UA10001) /* ERROR", "FAULT 3 1"),
            (b"++HOLD(UA10001) ERROR REASON(AA20002).)))", "ROWS 1"),
            (b"++HOLD(UA10001) ERROR REASON(AA20002) COMMENT(\n++PTF(X)\n).", "ROWS 1"),
            (b"++HOLD(UA10001) ERROR REASON(AA20002) COMMENT(\n" + (b"(" * 50 + b"\n") * 2000 + (b")" * 50 + b"\n") * 2000 + b").", "ROWS 1"),
            (b"++IF FMID(HXX0001)", "FAULT 1 1"),
            (b"++IF (HXX0001) REQ(UA10001).", "FAULT 2 1"),
            (b"++IF FMID(HXX0001) THEN REQ(UA10001).", "ROWS 0"),
            (b" " * 67108864, "ROWS 0"),
            (b" " * 67108865, "FAULT 5"),
        ):
            done = subprocess.run([PROGRAM, "holds", "-"], input=text, capture_output=True, timeout=60)
            last = (done.stdout + done.stderr).decode().splitlines()[-1]
            same("holds of %r" % text[:60], (done.returncode, last), (0 if wanted.startswith("ROWS") else 1, wanted))

        ask = b"GET /published HTTP/1.1\r\nbureau-token: alpha-token\r\n"
        counts = reply(200, "PUBLISHED SYSMODS 0 HOLDS 0\n")
        head_too_large = reply(431, "HEAD TOO LARGE\n", close=True)
        bad, no_length = reply(400, "BAD REQUEST\n", close=True), reply(411, "LENGTH REQUIRED\n", close=True)
        for name, sent, wanted in (
            ("64 lines", ask + b"a: b\r\n" * 63 + b"\r\n", counts),
            ("65 lines", ask + b"a: b\r\n" * 64 + b"\r\n" + ask + b"\r\n", head_too_large),
            ("65 lines and the end", ask + b"a: b\r\n" * 64, b""),
            ("a head of 16,384 bytes", ask + b"a: " + b"b" * (16384 - len(ask) - 7) + b"\r\n\r\n", counts),
            ("a head of 16,385 bytes", ask + b"a: " + b"b" * (16385 - len(ask) - 7) + b"\r\n\r\n", head_too_large),
            ("16,385 bytes without an end", (ask + b"a: " + b"b" * 16385)[:16385], head_too_large),
            ("16,385 bytes of empty lines", b"\r\n" * 8193, head_too_large),
            ("empty lines and the end", b"\r\n\n\r\n", b""),
            ("a body of a byte too many", ask + b"content-length: 67108865\r\n\r\n", reply(413, "TOO LARGE\n", close=True)),
            ("a length with a sign", ask + b"content-length: +5\r\n\r\n12345" + ask + b"\r\n", bad),
            ("two lengths in one line", ask + b"content-length: 1, 1\r\n\r\n1", bad),
            ("two lengths", ask + b"content-length: 1\r\ncontent-length: 1\r\n\r\n1", bad),
            ("a length of 40 digits", ask + b"content-length: " + b"0" * 40 + b"\r\n\r\n", counts),
            ("a length beyond any number", ask + b"content-length: " + b"9" * 40 + b"\r\n\r\n", reply(413, "TOO LARGE\n", close=True)),
            ("chunks", ask + b"transfer-encoding: chunked\r\n\r\n0\r\n\r\n" + ask + b"\r\n", no_length),
            ("a change without a length", b"PUT /received HTTP/1.1\r\nbureau-token: alpha-token\r\n\r\n", no_length),
            ("two tokens", ask + b"bureau-token: alpha-token\r\n\r\n", reply(401, "UNKNOWN TOKEN\n", "www-authenticate: Bureau\r\n")),
            ("a request in two lines", b"GET /published\r\n HTTP/1.1\r\n\r\n", bad),
            ("an absolute target", b"GET http://localhost/published HTTP/1.1\r\n\r\n", bad),
            ("another version", b"GET /published HTTP/2.0\r\n\r\n", bad),
            ("TLS", bytes.fromhex("16030100c8010000c40303") + bytes(range(200)) + b"\n\n", bad),
            ("a whole request and one without its last byte", ask + b"\r\n" + request(b"PUT /zones/TGT1", "alpha-token", 1, ZONE)[:-1], counts),
        ):
            same(name, replayed({"ALPHA": "alpha-token"}, [sent, ask + b"\r\n"]), wanted + counts)
            same(name + ", over a socket", exchange(self.desk, sent), wanted)

    def test_clients_that_are_gone_in_the_middle_of_a_request_and_before_its_reply(self):
        whole = request(b"PUT /zones/TGT1", "beta-token", 1, ZONE)
        for cut in range(0, len(whole), 3):
            with socket.create_connection(("127.0.0.1", self.desk.port), timeout=60) as gone:
                gone.sendall(whole[:cut])
                gone.setsockopt(socket.SOL_SOCKET, socket.SO_LINGER, RESET)
        same("half a request did nothing", self.desk.ask("GET", "/zones", "beta-token")[1], b"ZONE     SYSMODS\nROWS 0\n")
        with socket.create_connection(("127.0.0.1", self.desk.port), timeout=60) as gone:
            gone.sendall(whole)
            gone.setsockopt(socket.SOL_SOCKET, socket.SO_LINGER, RESET)
        same("a change whose client is gone, sent again", exchange(self.desk, whole), reply(200, "ZONE TGT1 ROWS 2\n"))
        same("was made once", exchange(self.desk, request(b"PUT /received", "beta-token", 3, b"SYSMOD\n")), reply(409, "GAP LAST 1\n"))


if __name__ == "__main__":
    main("hostile")
