#!/usr/bin/env python3
"""The log of `serve --log`: a line for each request and for each connection that failed, and nothing else is as it isn't without it.

    test_log.py

Requests are sent to a desk that keeps a log and to one that keeps none. Both answer the same, to the byte, and the log has a line
for each: its caller, its method and path, the status, and as many bytes as went each way. No line has a token or a body.
"""
import contextlib
import datetime
import os
import re
import socket
import struct
import subprocess
import sys
import unittest

from service import PROGRAM, check, command_of, folder, main, same, write

CALLERS = "NAME,TOKEN\nPUBLISH,publisher-token\nALPHA,alpha-token\nBRAVO,bravo-token\n"
ZONE = b"SYSMOD,STATE\nHBB7790,APPLIED\nUA10001,APPLIED\n"
RESET = struct.pack("ii", 1, 0)
LINE = re.compile(r"(\d{4}-\d\d-\d\dT\d\d:\d\d:\d\d\.\d{3}Z) (\S+) (\S+) (\S+) (\d+) (\d+) (\d+) (\d+)")
LACKING = re.compile(LINE.pattern + " (memory|size|device)")
FAULT = re.compile(r"(\d{4}-\d\d-\d\dT\d\d:\d\d:\d\d\.\d{3}Z) - FAULT (\d+)")
LOST = re.compile(r"(\d{4}-\d\d-\d\dT\d\d:\d\d:\d\d\.\d{3}Z) - LOST (\d+)")
room = folder()
LOG = room + "/log"
callers = write(room + "/callers", CALLERS)


class Served:
    """A desk with standard error in this file."""

    def __init__(self, errors, *words, store=None, under=()):
        command = command_of(callers, 0)
        command[-1:] = [store or command[-1]]
        self.process = subprocess.Popen([*under, *command[:2], *words, *command[2:]], stdout=subprocess.PIPE, stderr=errors)
        line = self.process.stdout.readline()
        if not line.startswith(b"LISTENING "):
            sys.exit("the desk does not start: %r" % line)
        self.port = int(line.split(b":")[1])

    def connect(self):
        return socket.create_connection(("127.0.0.1", self.port), timeout=30)

    def told(self, sent, ends=True):
        """What is written to a connection over which this is sent."""
        with self.connect() as connection:
            connection.sendall(sent)
            if ends:
                connection.shutdown(socket.SHUT_WR)
            got = b""
            while True:
                more = connection.recv(65536)
                if not more:
                    return got
                got += more

    def end(self):
        self.process.terminate()
        return self.process.communicate(timeout=30)[0]


def request(first, token=None, number=None, body=None):
    lines = [first + " HTTP/1.1"]
    lines += ["bureau-token: " + token] if token else []
    lines += ["bureau-number: %d" % number] if number is not None else []
    lines += ["content-length: %d" % len(body)] if body is not None else []
    return ("\r\n".join(lines) + "\r\n\r\n").encode() + (body or b"")


LONG = "/zones/" + "A" * 80
# each request, and what its line has between the time and the bytes
REQUESTS = [
    (request("GET /zones", "alpha-token"), "ALPHA GET /zones 200"),
    (request("GET /published", "publisher-token"), "PUBLISH GET /published 200"),
    (request("PUT /zones/TGT1", "alpha-token", 1, ZONE), "ALPHA PUT /zones/TGT1 200"),
    (request("PUT /zones/TGT1", "alpha-token", 7, ZONE), "ALPHA PUT /zones/TGT1 409"),
    (request("GET /zones/TGT1/errsysmods", "alpha-token"), "ALPHA GET /zones/TGT1/errsysmods 200"),
    (request("HEAD /zones/TGT1/errsysmods", "bravo-token"), "BRAVO HEAD /zones/TGT1/errsysmods 405"),
    (request("GET /zones?token=alpha-token&more", "alpha-token"), "ALPHA GET /zones 200"),
    (request("GET /zones/%54GT1/chains/UA10001", "alpha-token"), "ALPHA GET /zones/%54GT1/chains/UA10001 200"),
    (request("GET /nowhere", "bravo-token"), "BRAVO GET /nowhere 404"),
    (request("BREW /zones", "bravo-token"), "BRAVO BREW /zones 405"),
    (request("GET /zones", "nobody-token"), "- GET /zones 401"),
    (request("GET /zones"), "- GET /zones 401"),
    (request("GET " + LONG, "bravo-token"), "BRAVO GET " + LONG[:64] + " 405"),
    # a head that is refused: nothing of it is known
    (request("PUT /zones/TGT1", "alpha-token", 2), "- - - 411"),
    (b"no head\r\n\r\n", "- - - 400"),
    (b"GET /" + b"a" * 20000 + b" HTTP/1.1\r\n\r\n", "- - - 431"),
]
CLOSING = ("411", "400", "431")


class Log(unittest.TestCase):
    def test_a_line_for_each_and_the_same_replies_as_without(self):
        began = datetime.datetime.now(datetime.timezone.utc)
        with open(LOG, "wb") as errors, open(room + "/none", "wb") as none:
            logged, plain = Served(errors, "--log"), Served(none)
            went = []
            for sent, _ in REQUESTS:
                told = logged.told(sent)
                same("with a log and without: %r" % sent[:60], told, plain.told(sent))
                went.append(len(told))
            # all that end no connection, over one
            kept = [(sent, wanted) for sent, wanted in REQUESTS if not wanted.endswith(CLOSING)]
            same("over one connection", logged.told(b"".join(sent for sent, _ in kept)), plain.told(b"".join(sent for sent, _ in kept)))
            same("the end of a desk that keeps a log", logged.end(), b"")
            plain.end()
        ended = datetime.datetime.now(datetime.timezone.utc)
        same("standard error without a log", open(room + "/none", "rb").read(), b"")
        lines = open(LOG, "rb").read().decode("ascii").split("\n")
        same("the last line is whole", lines.pop(), "")
        same("as many lines as requests", len(lines), len(REQUESTS) + len(kept))
        for line, (sent, wanted), out in zip(lines, REQUESTS, went):
            got = LINE.fullmatch(line)
            if check("a line of %r" % sent[:60], got, line):
                came = min(len(sent), 16384) if wanted.endswith("431") else len(sent)
                same("the line of %r" % sent[:60], " ".join(got.group(2, 3, 4, 5, 6, 7)), "%s %d %d" % (wanted, came, out))
                at = datetime.datetime.strptime(got.group(1), "%Y-%m-%dT%H:%M:%S.%fZ").replace(tzinfo=datetime.timezone.utc)
                check("its time", began - datetime.timedelta(milliseconds=1) <= at <= ended and int(got.group(8)) < 10000, line)
        for line, (sent, wanted) in zip(lines[len(REQUESTS) :], kept):
            got = LINE.fullmatch(line)
            check("a line over one connection", got and got.group(2, 3, 4) == tuple(wanted.split()[:3]), line)
        text = "\n".join(lines)
        check("no token and no body", not re.search("[a-z]+-token|SYSMOD,STATE|UA10001,|content|HTTP", text.replace("/chains/UA10001", "")), text)

    def test_connections_that_failed(self):
        with open(LOG, "wb") as errors:
            desk = Served(errors, "--log")
            same("half a head, and the end", desk.told(b"GET /zones HT"), b"")
            same("half a body, and the end", desk.told(request("PUT /zones/T", "alpha-token", 1, ZONE)[:-5]), b"")
            same("nothing, and the end", desk.told(b""), b"")
            same("line ends alone", desk.told(b"\r\n\r\n"), b"")
            check("a request, and half of the next", desk.told(request("GET /zones", "alpha-token") + b"GET /z").startswith(b"HTTP/1.1 200"))
            with desk.connect() as connection:
                connection.sendall(b"GET /zones HT")
                connection.setsockopt(socket.SOL_SOCKET, socket.SO_LINGER, RESET)
            desk.told(request("GET /zones", "alpha-token"))
            desk.end()
        lines = open(LOG).read().splitlines()
        faults = [FAULT.fullmatch(line).group(2) for line in lines if FAULT.fullmatch(line)]
        same("the faults of connections that failed", sorted(faults), ["51", "53", "53", "53"])
        same("and a line for each request", sum(bool(LINE.fullmatch(line)) for line in lines), 2)
        same("and no other line", len(lines), 6)

    def test_what_a_call_lacked(self):
        large = "SYSMOD,STATE\n" + "".join("UA%05d,APPLIED\n" % i for i in range(40000))
        one = "++PTF(UA{0:05d}).\n++VER(Z038) FMID(HBB7790) PRE(UA00001).\n++HOLD(UA{0:05d}) ERROR FMID(HBB7790) REASON(AA00001).\n"
        publication = request("POST /publish", "publisher-token", 1, "".join(map(one.format, range(60000))).encode())
        disk = folder()
        with contextlib.ExitStack() as mounted:
            self.lacks("memory", "ulimit -d 30000", publication)
            self.lacks("device", 'trap "" XFSZ; ulimit -f 300', request("PUT /zones/TGT1", "alpha-token", 1, large.encode()))
            if subprocess.run(["mount", "-t", "tmpfs", "-o", "size=1M", "tmpfs", disk], capture_output=True).returncode:
                self.skipTest("no disk that is full: it takes root to mount one")
            mounted.callback(subprocess.run, ["umount", disk], check=True)
            self.lacks("size", ":", request("PUT /zones/TGT1", "alpha-token", 1, large.encode()), disk)

    def lacks(self, lack, limit, sent, place=None):
        """A request that is answered 503 under a limit is logged with what it lacked; one before it has no such word."""
        place = place or folder()
        store = os.path.join(place, "store")
        subprocess.run([PROGRAM, "init", store, callers], check=True, stdout=subprocess.DEVNULL)
        with open(LOG, "wb") as errors:
            desk = Served(errors, "--log", store=store, under=["bash", "-c", limit + '; exec "$@"', "bash"])
            desk.told(request("GET /zones", "alpha-token"))
            check("503 for want of %s" % lack, desk.told(sent).endswith(b"\r\n\r\nNO ROOM\n"))
            # the line is written behind the reply: a desk whose device failed ends then, another one goes on
            if lack == "device":
                desk.process.wait(timeout=60)
            else:
                desk.told(request("GET /zones", "alpha-token"))
            desk.end()
        lines = open(LOG).read().splitlines()
        check("the line before it", LINE.fullmatch(lines[0]), lines[0])
        got = LACKING.fullmatch(lines[1])
        same("what it lacked", got and got.group(5, 9), ("503", lack))

    def test_a_log_that_cant_be_written(self):
        gone_read, gone = os.pipe()
        os.close(gone_read)
        peer, alone = socket.socketpair()
        peer.close()
        with open("/dev/full", "wb") as full, os.fdopen(gone, "wb") as nobody, alone:
            for name, errors in (("a full device", full), ("a pipe that nobody reads", nobody), ("a socket that nobody reads", alone)):
                desk, plain = Served(errors, "--log"), Served(subprocess.DEVNULL)
                for sent, _ in REQUESTS:
                    same("%s: %r" % (name, sent[:60]), desk.told(sent), plain.told(sent))
                same("%s, and the end" % name, (desk.process.poll(), desk.end()), (None, b""))
                plain.end()
        # Nothing is taken from this pipe, and it is full long before the last line: no call waits for it.
        unread, full = os.pipe()
        desk = Served(full, "--log")
        os.close(full)
        same("a pipe that is full", desk.told(request("GET /zones", "alpha-token") * 2000).count(b"HTTP/1.1 200 "), 2000)
        same("a pipe that is full, and the end", (desk.process.poll(), desk.end()), (None, b""))
        os.close(unread)
        # A reader that is slow gets whole lines, and is told how many were left out.
        unread, full = os.pipe()
        desk = Served(full, "--log")
        os.close(full)
        clients = [desk.connect() for _ in range(150)]
        ASKED = request("GET /zones", "alpha-token")
        for _ in range(40):
            for client in clients:
                client.sendall(ASKED)
            for client in clients:
                check("a reply beside a slow reader of the log", client.recv(65536).startswith(b"HTTP/1.1 200 "))
        for client in clients:
            client.close()
        os.set_blocking(unread, False)
        text = b""
        for _ in range(4):
            # the pipe is empty after the first, so the next line tells of those that were left out
            while True:
                try:
                    text += os.read(unread, 65536)
                except BlockingIOError:
                    break
            desk.told(ASKED)
        desk.end()
        text += os.read(unread, 65536)
        lines = text.decode("ascii").split("\n")
        same("the last line for a slow reader is whole", lines.pop(), "")
        lost = [int(LOST.fullmatch(line).group(2)) for line in lines if LOST.fullmatch(line)]
        whole = sum(bool(LINE.fullmatch(line)) for line in lines)
        same("no line for a slow reader is torn", [line for line in lines if not LINE.fullmatch(line) and not LOST.fullmatch(line)], [])
        check("some lines are left out for a slow reader", lost)
        same("lines for a slow reader, with those that were left out", whole + sum(lost), 150 * 40 + 4)
        os.close(unread)
        # Where it is closed, another file may have its descriptor: no line may come into the store.
        command = command_of(callers, 0)
        closed = subprocess.Popen(["sh", "-c", 'exec "$@" 2>&-', "sh", *command[:2], "--log", *command[2:]], stdout=subprocess.PIPE)
        port = int(closed.stdout.readline().split(b":")[1])
        for _ in range(50):
            with socket.create_connection(("127.0.0.1", port), timeout=30) as connection:
                connection.sendall(request("GET /zones", "alpha-token"))
                check("standard error that is closed", connection.recv(65536).startswith(b"HTTP/1.1 200"))
        closed.terminate()
        closed.wait()
        looked = subprocess.run([PROGRAM, "check", command[-1]], capture_output=True)
        same("the store after it", (looked.returncode, looked.stderr), (0, b""))


if __name__ == "__main__":
    main("log")
