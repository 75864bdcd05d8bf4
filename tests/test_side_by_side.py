#!/usr/bin/env python3
"""Many connections side by side at one desk: none keeps another waiting. test_simulation.py tries what each is told.

    test_side_by_side.py [-v] [CLASS.TEST..]
"""
import os
import resource
import signal
import socket
import struct
import subprocess
import threading
import time
import unittest

from service import PROGRAM, Desk, check, folder, free_port, main, same, write

SLOW = 1000
SOON = 10  # seconds: half of what a desk waits for a head, on however busy a machine
RESET = struct.pack("ii", 1, 0)
NORTH, SOUTH, PUBLISHER = "north-token", "south-token", "publisher-token"
CALLERS = write(os.path.join(folder(), "callers.csv"), "NAME,TOKEN\nPUBLISH,%s\nNORTH,%s\nSOUTH,%s\n" % (PUBLISHER, NORTH, SOUTH))

soft, hard = resource.getrlimit(resource.RLIMIT_NOFILE)
resource.setrlimit(resource.RLIMIT_NOFILE, (min(hard, 16384), hard))


def request(method, path, token, number=None, body=b"", is_last=False):
    lines = ["%s %s HTTP/1.1" % (method, path), "host: desk", "bureau-token: " + token]
    if number is not None:
        lines += ["bureau-number: %d" % number, "content-length: %d" % len(body)]
    if is_last:
        lines.append("connection: close")
    return ("\r\n".join(lines) + "\r\n\r\n").encode() + body


ASKED = request("GET", "/zones", NORTH)


def connect(port):
    connection = socket.create_connection(("127.0.0.1", port), timeout=30)
    connection.setsockopt(socket.IPPROTO_TCP, socket.TCP_NODELAY, 1)
    return connection


class Reader:
    """The replies that come over a connection, one after the other."""

    def __init__(self, connection):
        self.connection, self.text = connection, b""

    def reply(self):
        """The next reply as its bytes, or what was left of them where the connection ended."""
        while b"\r\n\r\n" not in self.text:
            if not self.more():
                return self.rest()
        head = self.text[: self.text.index(b"\r\n\r\n") + 4]
        length = next(int(line.split(b":")[1]) for line in head.split(b"\r\n") if line.lower().startswith(b"content-length"))
        while len(self.text) < len(head) + length:
            if not self.more():
                return self.rest()
        reply, self.text = self.text[: len(head) + length], self.text[len(head) + length :]
        return reply

    def more(self):
        read = self.connection.recv(65536)
        self.text += read
        return bool(read)

    def rest(self):
        left, self.text = self.text, b""
        return left


def answered(port, asked=ASKED):
    """The reply to one request on a connection of its own."""
    with connect(port) as connection:
        connection.sendall(asked)
        return Reader(connection).reply()


def longest(port, count=200):
    """The longest that a client waited for one of so many replies on one connection, in seconds."""
    waited = 0.0
    with connect(port) as connection:
        reader = Reader(connection)
        for _ in range(count):
            began = time.monotonic()
            connection.sendall(ASKED)
            if not reader.reply().startswith(b"HTTP/1.1 200 "):
                return 3600.0
            waited = max(waited, time.monotonic() - began)
    return waited


def open_desk(*words, errors=None):
    """A desk with these words more: its process and its port."""
    store, port = os.path.join(folder(), "store"), free_port()
    subprocess.run([PROGRAM, "init", store, CALLERS], check=True, stdout=subprocess.DEVNULL)
    process = subprocess.Popen([PROGRAM, "serve", "--port", str(port), *words, store], stdout=subprocess.PIPE, stderr=errors, text=True)
    check("a desk with %s listens" % " ".join(words), process.stdout.readline() == "LISTENING 127.0.0.1:%d\n" % port)
    return process, port


class SideBySide(unittest.TestCase):
    @classmethod
    def setUpClass(cls):
        cls.desk = Desk(CALLERS)
        cls.addClassCleanup(cls.desk.end)
        with connect(cls.desk.port) as connection:
            connection.sendall(request("PUT", "/zones/NORTH", NORTH, 1, b"SYSMOD,STATE\nUJ90001,APPLIED\n"))
            Reader(connection).reply()
        cls.desk.zones = answered(cls.desk.port)
        check("the desk answers", cls.desk.zones.startswith(b"HTTP/1.1 200 "), cls.desk.zones)

    def test_nobody_waits(self):
        """Whoever keeps a connection open and says nothing, or half of what it has to say, keeps nobody waiting."""
        desk = self.desk
        silent, half, stopped, kept = (connect(desk.port) for _ in range(4))
        half.sendall(ASKED[:20])
        stopped.sendall(request("POST", "/publish", PUBLISHER, 1, b"x" * 3000000)[:1000])
        kept.sendall(ASKED)
        Reader(kept).reply()
        waited = longest(desk.port)
        check("nobody waits for silence, half a head, a body that stops or a kept connection", waited < SOON, "%.3f s" % waited)
        half.sendall(ASKED[20:])
        same("half a head is answered once it is whole", Reader(half).reply(), desk.zones)
        for connection in (silent, half, stopped, kept):
            connection.close()

    def test_a_thousand_slow_ones(self):
        """A thousand clients send a byte a second. One asks without pause, and each of them is answered in the end."""
        desk = self.desk
        slow = [connect(desk.port) for _ in range(SLOW)]
        for place in range(3):
            for connection in slow:
                connection.sendall(ASKED[place : place + 1])
            waited = longest(desk.port, 100)
            check("one quick client waits for no slow one", waited < SOON, "%.3f s" % waited)
            time.sleep(1)
        for connection in slow:
            connection.sendall(ASKED[3:])
        replies = [Reader(connection).reply() for connection in slow]
        same("each slow client is answered", replies.count(desk.zones), SLOW)
        for connection in slow:
            connection.close()

    def test_who_never_reads(self):
        """A client that asks nine thousand times and doesn't read: it keeps nobody waiting, and gets all replies once it reads."""
        desk = self.desk
        count = 9000  # a connection carries 10,000 at most
        with connect(desk.port) as greedy:
            sender = threading.Thread(target=greedy.sendall, args=(ASKED * count,), daemon=True)
            sender.start()
            time.sleep(0.5)
            waited = longest(desk.port)
            check("nobody waits for a client that doesn't read", waited < SOON, "%.3f s" % waited)
            reader = Reader(greedy)
            same("it gets all replies once it reads", all(reader.reply() == desk.zones for _ in range(count)), True)
            sender.join()

    def test_ends(self):
        """Connections that are half-closed, that ask to be closed, that are reset in any state."""
        desk = self.desk
        with connect(desk.port) as connection:
            connection.sendall(ASKED * 3)
            connection.shutdown(socket.SHUT_WR)
            reader = Reader(connection)
            same("a half-closed connection gets its replies", [reader.reply() for _ in range(3)], [desk.zones] * 3)
            same("and then its end", reader.reply(), b"")
        with connect(desk.port) as connection:
            connection.sendall(request("GET", "/zones", NORTH, is_last=True) + ASKED)
            reader = Reader(connection)
            check("the last request is answered", reader.reply().startswith(b"HTTP/1.1 200 "))
            same("and none behind it", reader.reply(), b"")
        with connect(desk.port) as connection:
            connection.sendall(request("GET", "/zones", NORTH, is_last=True) + b"x" * 100000)
            reader = Reader(connection)
            check("no reply is lost where a client sends on", reader.reply().startswith(b"HTTP/1.1 200 "))
            same("and its end comes without a reset", reader.reply(), b"")
        body = request("POST", "/publish", PUBLISHER, 1, b"x" * 3000000)
        for sent in (b"", ASKED[:9], ASKED, ASKED + ASKED[:9], body[:5000], ASKED * 5000):
            connection = connect(desk.port)
            connection.settimeout(1)
            try:
                connection.sendall(sent)
            except OSError:
                pass  # it reads nothing, so the desk stopped to read, too
            connection.setsockopt(socket.SOL_SOCKET, socket.SO_LINGER, RESET)
            connection.close()
        same("after resets in each state the desk goes on", answered(desk.port), desk.zones)

    def test_turns_go_by_caller(self):
        """A caller asks for long reports over sixty connections at once. Another one waits for a few of them at most."""
        process, port = open_desk()
        self.addCleanup(lambda: (process.terminate(), process.wait(), process.stdout.close()))
        held = ["UJ%05d" % number for number in range(2000)]
        holds = "++FUNCTION(HBB77E0).\n++VER(Z038).\n" + "".join("++HOLD(%s) ERROR FMID(HBB77E0) REASON(A%s).\n" % (name, name[1:]) for name in held)
        zone = "SYSMOD,STATE\nHBB77E0,APPLIED\n" + "".join("%s,APPLIED\n" % name for name in held)
        for method, path, token, body in (("POST", "/publish", PUBLISHER, holds), ("PUT", "/zones/LONG", NORTH, zone)):
            reply = answered(port, request(method, path, token, 1, body.encode()))
            check("%s %s" % (method, path), reply.startswith(b"HTTP/1.1 200 "), reply[:300])
        report, other = request("GET", "/zones/LONG/errsysmods", NORTH), request("GET", "/zones", SOUTH)
        with connect(port) as connection:
            reader, alone = Reader(connection), []
            for _ in range(5):
                began = time.monotonic()
                connection.sendall(report)
                check("a long report", len(reader.reply()) > 100000)
                alone.append(time.monotonic() - began)
        crowd = [connect(port) for _ in range(60)]
        with connect(port) as connection:
            for it in crowd:
                it.sendall(report * 2)
            began = time.monotonic()
            connection.sendall(other)
            check("the other is answered", Reader(connection).reply().startswith(b"HTTP/1.1 200 "))
            waited = time.monotonic() - began
        for it in crowd:
            it.close()
        check("in the time of a few reports", waited < 15 * sorted(alone)[2], "%.3f s, and %.3f s for one report" % (waited, sorted(alone)[2]))

    def test_who_comes_last(self):
        """While a desk is stopped, a crowd asks, and then one other. Once it goes on, the log tells whom it answers first."""
        strangers = ["stranger-%d" % number for number in range(200)]
        for name, tokens, known in (("one caller", [NORTH] * 200, True), ("strangers", strangers, True), ("one caller at a start", [NORTH] * 200, False)):
            path = os.path.join(folder(), "log")
            with open(path, "w") as log:
                process, port = open_desk("--log", errors=log)
            self.addCleanup(lambda process=process: (process.terminate(), process.wait(), process.stdout.close()))
            crowd, other = [connect(port) for _ in tokens], connect(port)
            before = 0
            if known:  # whoever was answered before is no stranger
                before = 3
                other.sendall(request("GET", "/zones", SOUTH))
                first = Reader(other).reply()
                for token in (NORTH, SOUTH):
                    same("an answer before", answered(port, request("GET", "/zones", token)), first)
            process.send_signal(signal.SIGSTOP)
            for it, token in zip(crowd, tokens):
                it.sendall(request("GET", "/zones", token) * 2)
            other.sendall(request("GET", "/zones", SOUTH))
            process.send_signal(signal.SIGCONT)
            Reader(other).reply()
            for it in crowd:
                reader = Reader(it)
                check("all are answered", len(reader.reply()) > 0 and len(reader.reply()) > 0)
                it.close()
            other.close()
            wanted, callers, late = before + 2 * len(tokens) + 1, [], time.monotonic() + 20
            while len(callers) < wanted and time.monotonic() < late:  # a line is written behind its reply
                time.sleep(0.05)
                with open(path) as log:
                    callers = [line.split()[1] for line in log]
            process.terminate()
            process.wait()
            same("all are in the log, beside " + name, len(callers), wanted)
            # One is answered as the desk goes on, and one more of the crowd's as the other is heard of. The first eight tokens that
            # wait have turns of their own, whether a caller has them or not.
            at, most = callers[before:].index("SOUTH"), 2 + min(8, len(set(tokens)) - 1)
            check("the other waits for few, beside " + name, at <= most, at)

    def test_places(self):
        """With four places the connection that has been idle longest gives way; --connections counts who was accepted."""
        process, port = open_desk("--open", "4", "--connections", "7")
        idle = [connect(port) for _ in range(4)]
        for connection in idle:
            connection.sendall(ASKED)
            Reader(connection).reply()
            time.sleep(0.05)
        check("a fifth is answered", answered(port).startswith(b"HTTP/1.1 200 "))
        same("the one that was idle longest gave way", Reader(idle[0]).reply(), b"")
        for connection in idle[2:]:
            connection.sendall(ASKED)
            check("the others go on", Reader(connection).reply().startswith(b"HTTP/1.1 200 "))
        for connection in idle[1:]:
            connection.close()
        for _ in range(2):
            check("the last ones are answered", answered(port).startswith(b"HTTP/1.1 200 "))
        same("after seven connections the desk ends", process.wait(timeout=30), 0)


if __name__ == "__main__":
    main("side_by_side")
