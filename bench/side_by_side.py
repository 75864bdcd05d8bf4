#!/usr/bin/env python3
"""Times a desk with many connections side by side, in one run beside nginx, which serves a file as long as the desk's reply.

    side_by_side.py [rates waiting memory]

Without names it does all of it. The program is crates/bureau_main/out/bureau_main, or the one that BUREAU_PROGRAM names; it serves
with `--open 1024`, as it does without a word. Each rate is the best of three runs in turns. A time of one client's replies is told as
its median and as the time under which 99 of 100 stay, beside the same of an idle desk. Python 3.9.
"""
import os
import resource
import shutil
import socket
import subprocess
import sys
import tempfile
import threading
import time

from nginx import Nginx, free_port, is_there, rate
from texts import zone

HERE = os.path.dirname(os.path.abspath(__file__))
PROGRAM = os.environ.get("BUREAU_PROGRAM") or os.path.join(HERE, "..", "crates", "bureau_main", "out", "bureau_main")
PUBLISHER, ALPHA = "publisher-token", "alpha-token"
RUNS = 3
SLOW = 500  # connections that send a byte a second
IDLE = 1000  # connections that send nothing
ASKED = ("GET /zones HTTP/1.1\r\nhost: desk\r\nbureau-token: %s\r\n\r\n" % ALPHA).encode()

room = tempfile.mkdtemp(prefix="bureau-bench-")


def head(method, path, token, number, length):
    lines = "%s %s HTTP/1.1\r\nhost: desk\r\nbureau-token: %s\r\nbureau-number: %d\r\ncontent-length: %d\r\n\r\n"
    return (lines % (method, path, token, number, length)).encode()


def read_reply(connection):
    """One reply: its status and its body."""
    text = b""
    while b"\r\n\r\n" not in text:
        text += some(connection)
    lines, _, body = text.partition(b"\r\n\r\n")
    length = next(int(line.split(b":")[1]) for line in lines.split(b"\r\n") if line.lower().startswith(b"content-length"))
    while len(body) < length:
        body += some(connection)
    return int(lines.split()[1]), body


def some(connection):
    read = connection.recv(65536)
    if not read:
        sys.exit("the desk ended a connection inside a reply")
    return read


class Desk:
    """A desk with eight zones of ALPHA."""

    def __init__(self, name):
        callers, store = os.path.join(room, "callers.csv"), os.path.join(room, name)
        with open(callers, "w") as out:
            out.write("NAME,TOKEN\nPUBLISH,%s\nALPHA,%s\n" % (PUBLISHER, ALPHA))
        subprocess.run([PROGRAM, "init", store, callers], check=True, stdout=subprocess.DEVNULL)
        self.port = free_port()
        self.process = subprocess.Popen(
            [PROGRAM, "serve", "--port", str(self.port), store], stdout=subprocess.PIPE, text=True
        )
        line = self.process.stdout.readline()
        if not line.startswith("LISTENING"):
            sys.exit("the desk does not start: %r" % line)
        with self.connect() as connection:
            for number in range(1, 9):
                rows = zone(20)
                connection.sendall(head("PUT", "/zones/TGT%d" % number, ALPHA, number, len(rows)) + rows)
                status, told = read_reply(connection)
                if status != 200:
                    sys.exit("a zone is refused: %d %r" % (status, told))
            connection.sendall(ASKED)
            self.zones = read_reply(connection)[1]

    def connect(self):
        connection = socket.create_connection(("127.0.0.1", self.port), timeout=60)
        connection.setsockopt(socket.IPPROTO_TCP, socket.TCP_NODELAY, 1)
        return connection

    def memory(self):
        """The desk's memory now, in KiB."""
        with open("/proc/%d/status" % self.process.pid) as lines:
            return next(int(line.split()[1]) for line in lines if line.startswith("VmRSS"))

    def times(self, count=4000):
        """Seconds of replies to GET /zones on one kept connection: the median, and that under which 99 of 100 stay."""
        took = []
        with self.connect() as connection:
            for _ in range(count):
                began = time.perf_counter()
                connection.sendall(ASKED)
                read_reply(connection)
                took.append(time.perf_counter() - began)
        took.sort()
        return took[count // 2], took[count * 99 // 100]

    def end(self):
        self.process.terminate()
        self.process.wait()


def rates():
    if not is_there():
        print("GET /zones: nginx or wrk is not there")
        return
    desk = Desk("rates")
    other = Nginx(os.path.join(room, "nginx"), desk.zones)
    try:
        for name, connections, is_kept in (
            ("a connection each", 1, False),
            ("one kept connection", 1, True),
            ("64 kept connections", 64, True),
        ):
            found = [
                (rate(desk.port, ALPHA, connections, is_kept), rate(other.port, ALPHA, connections, is_kept))
                for _ in range(RUNS)
            ]
            mine, theirs = (max(rates) for rates in zip(*found))
            print("GET /zones, %s: %.0f a second; nginx %.0f; %.2f of it" % (name, mine, theirs, mine / theirs))
    finally:
        other.end()
        desk.end()


def told(name, times, idle):
    print("GET /zones %s: median %.0f us, 99 of 100 within %.0f us; %.1f times an idle desk" % (
        name, times[0] * 1e6, times[1] * 1e6, times[1] / idle[1]), flush=True)


class Trickle(threading.Thread):
    """Connections over which a byte of a request comes each second."""

    def __init__(self, desk, count):
        super().__init__(daemon=True)
        self.connections = [desk.connect() for _ in range(count)]
        self.is_over = threading.Event()

    def run(self):
        place = 0
        while not self.is_over.wait(1):
            for connection in self.connections:
                try:
                    connection.sendall(ASKED[place % len(ASKED) : place % len(ASKED) + 1])
                except OSError:
                    pass  # the desk ended it, since its head took too long
            place += 1

    def end(self):
        self.is_over.set()
        self.join()
        for connection in self.connections:
            connection.close()


class Upload(threading.Thread):
    """A publication of 64 MiB that comes at 1 MB a second."""

    def __init__(self, desk):
        super().__init__(daemon=True)
        self.connection = desk.connect()
        self.is_over = threading.Event()

    def run(self):
        self.connection.sendall(head("POST", "/publish", PUBLISHER, 1, 64 << 20))
        part = b" " * 10000
        while not self.is_over.wait(0.01):
            self.connection.sendall(part)

    def end(self):
        self.is_over.set()
        self.join()
        self.connection.close()


def waiting():
    desk = Desk("waiting")
    idle = min((desk.times() for _ in range(RUNS)), key=lambda times: times[1])
    told("at an idle desk", idle, idle)
    for name, begin in (
        ("beside %d connections that send a byte a second" % SLOW, lambda: Trickle(desk, SLOW)),
        ("beside a body of 64 MiB at 1 MB a second", lambda: Upload(desk)),
    ):
        load = begin()
        load.start()
        time.sleep(2)
        times = min((desk.times() for _ in range(RUNS)), key=lambda times: times[1])
        load.end()
        told(name, times, idle)
    silent = [desk.connect() for _ in range(3)]
    silent[1].sendall(ASKED[:20])
    silent[2].sendall(head("POST", "/publish", PUBLISHER, 1, 3000000) + b"++PTF")
    told("beside a silent one, half a head and a body that stops", desk.times(), idle)
    for connection in silent:
        connection.close()
    desk.end()


def memory():
    desk = Desk("memory")
    before = desk.memory()
    connections = [desk.connect() for _ in range(IDLE)]
    desk.times(10)
    idle = desk.memory() - before
    for connection in connections:
        connection.sendall(ASKED)
        read_reply(connection)
    print("%d connections: %d KiB before any request, %d KiB after one of each; %.2f KiB each" % (
        IDLE, idle, desk.memory() - before, (desk.memory() - before) / IDLE))
    for connection in connections:
        connection.close()
    desk.end()


PARTS = {"rates": rates, "waiting": waiting, "memory": memory}
soft, hard = resource.getrlimit(resource.RLIMIT_NOFILE)
resource.setrlimit(resource.RLIMIT_NOFILE, (min(hard, 16384), hard))
try:
    for name in sys.argv[1:] or PARTS:
        PARTS[name]()
finally:
    shutil.rmtree(room, ignore_errors=True)
