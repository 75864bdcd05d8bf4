#!/usr/bin/env python3
"""Sees that a desk in service keeps nothing of what it served: resources.py PROGRAM [SHARE]

Memory and descriptors of `serve`, after it was warmed up, after 100,000 requests, after 10,000 connections, after 1,000 malformed
requests and clients that are gone, and after 1,000 changes that each replace the same lists. SHARE (1) of these numbers is tried.
"""
import os
import random
import socket
import struct
import subprocess
import sys
import tempfile
import time

from fuzz_desks import mangled
from load_shapes import ALPHA, BASE, BETA, PUBLISHER, TOKENS, list_of_callers

RESET = struct.pack("ii", 1, 0)
MOST_MORE = 1024  # kB
QUESTIONS = ["/zones", "/published", "/zones/TGT1/errsysmods", "/zones/TGT1/missingfix", "/zones/TGT1/chains/UA10002", "/nothing"]
QUESTIONS += [path + ".json" for path in QUESTIONS[:4]]


def request(first, token, number=None, body=None):
    head = "%s HTTP/1.1\r\nbureau-token: %s\r\n" % (first, token)
    head += "" if number is None else "bureau-number: %d\r\n" % number
    head += "" if body is None else "content-length: %d\r\n" % len(body)
    return head.encode() + b"\r\n" + (body or b"")


class Desk:
    def __init__(self, program, room):
        callers, self.store = os.path.join(room, "callers"), os.path.join(room, "store")
        with open(callers, "wb") as out:
            out.write(list_of_callers(TOKENS))
        subprocess.run([program, "init", self.store, callers], check=True, stdout=subprocess.DEVNULL)
        with socket.socket() as probe:
            probe.bind(("127.0.0.1", 0))
            self.port = probe.getsockname()[1]
        self.process = subprocess.Popen([program, "serve", "--port", str(self.port), self.store], stdout=subprocess.PIPE)
        self.process.stdout.readline()

    def exchange(self, sent):
        with socket.create_connection(("127.0.0.1", self.port), timeout=60) as connection:
            connection.sendall(sent)
            connection.shutdown(socket.SHUT_WR)
            written = []
            while part := connection.recv(1 << 16):
                written.append(part)
            return b"".join(written)

    def leave(self, sent):
        """A client that is gone before anything comes back."""
        with socket.create_connection(("127.0.0.1", self.port), timeout=60) as connection:
            connection.sendall(sent)
            connection.setsockopt(socket.SOL_SOCKET, socket.SO_LINGER, RESET)

    def held(self):
        """kB of memory, descriptors, and bytes of the store's files, once the desk has closed the last connection."""
        folder = "/proc/%d/fd" % self.process.pid
        descriptors = min(len(os.listdir(folder)) for _ in range(10) if not time.sleep(0.1))
        with open("/proc/%d/status" % self.process.pid) as status:
            memory = next(int(line.split()[1]) for line in status if line.startswith("VmRSS"))
        place, name = os.path.split(self.store)
        size = sum(os.path.getsize(os.path.join(place, each)) for each in os.listdir(place) if each.startswith(name))
        return memory, descriptors, size

    def end(self):
        self.process.terminate()
        self.process.wait()


def replies(written):
    return written.count(b"HTTP/1.1 ")


def requests(desk, count):
    """Questions of all kinds, 5,000 in a connection."""
    for _ in range(max(1, count // 5000)):
        sent = b"".join(request("GET " + QUESTIONS[place % len(QUESTIONS)], (ALPHA, BETA)[place // len(QUESTIONS) % 2]) for place in range(min(count, 5000)))
        assert replies(desk.exchange(sent)) == min(count, 5000)


def connections(desk, count):
    for place in range(count):
        assert replies(desk.exchange(request("GET " + QUESTIONS[place % len(QUESTIONS)], ALPHA))) == 1


def malformed(desk, count):
    dice = random.Random(count)
    for place in range(count):
        sent = mangled(dice, request("GET " + QUESTIONS[place % len(QUESTIONS)], ALPHA, None, b"x" * dice.randrange(300)))
        desk.leave(sent) if place % 3 == 0 else desk.exchange(sent[: dice.randrange(len(sent) + 1)] if place % 3 == 1 else sent)


def changes(desk, count):
    """The same lists are put again and again, by one client, in connections of 100."""
    rows = "SYSMOD,STATE\nHBB7790,APPLIED\nUA10001,APPLIED\n" + "".join("U%05d,APPLIED\n" % place for place in range(300))
    for begin in range(0, count, 100):
        sent = b"".join(request("PUT /zones/TGT1", ALPHA, desk.number + place, rows.encode()) for place in range(1, 101))
        desk.number += 100
        assert desk.exchange(sent).count(b"ZONE TGT1 ROWS 302\n") == 100


def main():
    share = float(sys.argv[2]) if len(sys.argv) > 2 else 1
    with tempfile.TemporaryDirectory() as room:
        desk = Desk(os.path.abspath(sys.argv[1]), room)
        desk.exchange(request("POST /publish", PUBLISHER, 1, BASE.encode()))
        desk.number, passed, failed = 0, 0, 0
        for way, count in ((changes, 300), (requests, 5000), (connections, 500), (malformed, 200)):
            way(desk, max(100, int(count * min(1, share * 10))))
        memory, descriptors, size = desk.held()
        print("resources: warm: %d kB, %d descriptors, %d bytes of files" % (memory, descriptors, size), flush=True)
        for way, count in ((requests, 100000), (connections, 10000), (malformed, 1000), (changes, 1000)):
            count = max(100, int(count * share))
            way(desk, count)
            held = desk.held()
            good = held[0] <= memory + MOST_MORE and held[1] == descriptors and held[2] <= 2 * size
            passed, failed = passed + good, failed + (not good)
            print("resources: %d %s: %d kB, %d descriptors, %d bytes of files ... %s" % (count, way.__name__, *held, "ok" if good else "FAILED"), flush=True)
        desk.end()
    print("resources: %d passed, %d failed" % (passed, failed))
    sys.exit(1 if failed else 0)


if __name__ == "__main__":
    main()
