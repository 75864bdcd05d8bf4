#!/usr/bin/env python3
"""A desk with a limit of its own for memory tells 503 where it has none left, and goes on. One with a limit for bodies and
replies keeps to it, whoever reads nothing.

    test_memory.py
"""
import os
import socket
import subprocess
import time
import unittest
import urllib.error

from service import PROGRAM, check, exchange, folder, free_port, main, same, write

CALLERS = write(os.path.join(folder(), "callers.csv"), "NAME,TOKEN\nPUBLISH,publisher-token\nALPHA,alpha-token\nBETA,beta-token\n")
LIMIT = 30000  # KB of data: a small desk starts with them, and a large publication needs more
STATEMENTS = "++PTF(UA{0:05d}).\n++VER(Z038) FMID(HBB7790) PRE(UA00001,UA00002) REQ(UB00001).\n++HOLD(UA{0:05d}) FMID(HBB7790) ERROR REASON(AA{0:05d}).\n"
HELD, REASONS = 16000, "ABCDEF"  # SYSMODs, each held for so many reasons: a report on them is larger than what the system keeps of a reply that nobody reads
UNREAD = 64
MEMORY = 128  # MiB: some twenty of these reports
SOON = 30  # seconds: half of what a desk waits for who reads nothing, on however busy a machine

store, port = os.path.join(folder(), "store"), free_port()


class Memory(unittest.TestCase):
    def test_a_limit_of_memory(self):
        subprocess.run([PROGRAM, "init", store, CALLERS], check=True, stdout=subprocess.DEVNULL)
        command = ["sh", "-c", 'ulimit -d %d; exec "$@"' % LIMIT, "sh", PROGRAM, "serve", "--port", str(port), store]
        desk = subprocess.Popen(command, stdout=subprocess.PIPE, text=True)
        check("it listens", desk.stdout.readline().startswith("LISTENING "))
        url = "http://127.0.0.1:%d" % port
        small, large = STATEMENTS.format(1).encode(), "".join(map(STATEMENTS.format, range(60000))).encode()
        try:
            same("a publication for which there is no memory", exchange(url, "POST", "/publish", "publisher-token", 1, large), (503, b"NO ROOM\n"))
            same("the same number for one that fits", exchange(url, "POST", "/publish", "publisher-token", 1, small)[0], 200)
            same("what is published then", exchange(url, "GET", "/published", "alpha-token"), (200, b"PUBLISHED SYSMODS 1 HOLDS 1\n"))
        except urllib.error.URLError as error:
            check("the desk goes on", False, str(error))
        same("it goes on", desk.poll(), None)
        desk.kill()
        desk.wait()

    def test_replies_that_nobody_reads(self):
        """Many clients ask for large reports and read nothing. The desk keeps to its limit, and another client is answered."""
        kept, at = os.path.join(folder(), "unread"), free_port()
        subprocess.run([PROGRAM, "init", kept, CALLERS], check=True, stdout=subprocess.DEVNULL)
        desk = subprocess.Popen([PROGRAM, "serve", "--port", str(at), "--memory", str(MEMORY), kept], stdout=subprocess.PIPE, text=True)
        self.addCleanup(lambda: (desk.terminate(), desk.wait(), desk.stdout.close()))
        check("it listens", desk.stdout.readline().startswith("LISTENING "))
        url = "http://127.0.0.1:%d" % at
        names = ["UJ%05d" % number for number in range(HELD)]
        holds = "++FUNCTION(HBB77E0).\n++VER(Z038).\n" + "".join("++HOLD(%s) ERROR FMID(HBB77E0) REASON(%s%s).\n" % (name, reason, name[1:]) for name in names for reason in REASONS)
        zone = "SYSMOD,STATE\nHBB77E0,APPLIED\n" + "".join("%s,APPLIED\n" % name for name in names)
        same("the holds are published", exchange(url, "POST", "/publish", "publisher-token", 1, holds.encode())[0], 200)
        same("the zone is put", exchange(url, "PUT", "/zones/LARGE", "alpha-token", 1, zone.encode())[0], 200)
        large = max(len(exchange(url, "GET", "/zones/LARGE/errsysmods", "alpha-token")[1]) for _ in range(3))
        before = peak(desk.pid)
        report = b"GET /zones/LARGE/errsysmods HTTP/1.1\r\nhost: desk\r\nbureau-token: alpha-token\r\n\r\n"
        unread = [silent(at) for _ in range(UNREAD)]
        for it in unread:
            it.sendall(report)
        waited = []
        for _ in range(5):
            time.sleep(1)
            began = time.monotonic()
            same("another client is answered", exchange(url, "GET", "/zones", "beta-token")[0], 200)
            waited.append(time.monotonic() - began)
        for it in unread:
            it.close()
        check("in good time", max(waited) < SOON, "%.1f s" % max(waited))
        grown, most = peak(desk.pid) - before, (MEMORY << 20) + 2 * large
        check("the limit is less than all replies", UNREAD * large > 2 * most)
        check("the desk keeps to its limit", grown < most, "%d MB more than before, and %d MB a reply" % (grown >> 20, large >> 20))


def peak(pid):
    """The most memory that a process has had, in bytes."""
    with open("/proc/%d/status" % pid) as status:
        return next(int(line.split()[1]) for line in status if line.startswith("VmHWM")) * 1024


def silent(at):
    """A connection over which the system keeps little."""
    connection = socket.socket()
    connection.setsockopt(socket.SOL_SOCKET, socket.SO_RCVBUF, 4096)
    connection.connect(("127.0.0.1", at))
    return connection


if __name__ == "__main__":
    main("memory")
