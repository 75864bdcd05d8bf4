#!/usr/bin/env python3
"""Times chains of a desk in service over a file, where the frame has to be built and where it is kept.

    served_chains.py PROGRAM

PROGRAM is the built program. SYSMODs stand in groups: each has PRE of the next of its group, and the last supersedes the first.
Prints, as columns: how many SYSMODs, how many to a group, and microseconds of the wall: the least of `GET /zones`, and least and
median of chains whose frame is built and of chains whose frame is kept.
"""
import http.client
import os
import socket
import statistics
import subprocess
import sys
import tempfile
import time

SHAPES = ((1000, 5, 100), (10000, 5, 100), (30000, 5, 100), (10000, 100, 10), (1000, 1000, 1))


def statements(count, group):
    for at in range(100000, 100000 + count):
        place = (at - 100000) % group
        name, to = ("PRE", at + 1) if place + 1 < group else ("SUP", at - place)
        yield "++PTF(N%06d).\n++VER(Z038) FMID(HBB7790) %s(N%06d).\n" % (at, name, to)


def free_port():
    with socket.socket() as one:
        one.bind(("127.0.0.1", 0))
        return one.getsockname()[1]


def ask(desk, method, path, token, body=None, number=None):
    """Microseconds until the whole reply has come."""
    heads = {"bureau-token": token}
    if number:
        heads["bureau-number"] = str(number)
    start = time.perf_counter()
    desk.request(method, path, body, heads)
    reply = desk.getresponse()
    text = reply.read()
    took = time.perf_counter() - start
    if reply.status != 200:
        sys.exit("%s %s: %d %r" % (method, path, reply.status, text))
    return took * 1e6


def timed(program, folder, count, group, asked):
    store = os.path.join(folder, "%d-%d.store" % (count, group))
    callers = os.path.join(folder, "callers.csv")
    with open(callers, "w") as to:
        to.write("NAME,TOKEN\nPUBLISH,publisher-token\nALPHA,alpha-token\n")
    subprocess.run([program, "init", store, callers], check=True, stdout=subprocess.DEVNULL)
    port = free_port()
    serving = subprocess.Popen([program, "serve", "--port", str(port), "--cache", "1024", store], stdout=subprocess.PIPE)
    try:
        serving.stdout.readline()
        desk = http.client.HTTPConnection("127.0.0.1", port)
        ask(desk, "POST", "/publish", "publisher-token", "".join(statements(count, group)), 1)
        ask(desk, "PUT", "/zones/TGT1", "alpha-token", "SYSMOD,STATE\nHBB7790,APPLIED\n", 1)
        zones = min(ask(desk, "GET", "/zones", "alpha-token") for _ in range(50))
        paths = ["/zones/TGT1/chains/N%06d" % (100000 + at * (count // asked)) for at in range(asked)]
        rounds = [[ask(desk, "GET", path, "alpha-token") for path in paths] for _ in range(6)]
        kept = [min(times) for times in zip(*rounds[1:])]
        return zones, min(rounds[0]), statistics.median(rounds[0]), min(kept), statistics.median(kept)
    finally:
        serving.terminate()
        serving.wait()


def main():
    with tempfile.TemporaryDirectory() as folder:
        print("SYSMODs,group,zones,built,median,kept,median")
        for count, group, asked in SHAPES:
            print("%d,%d,%s" % (count, group, ",".join("%d" % time for time in timed(sys.argv[1], folder, count, group, asked))))


if __name__ == "__main__":
    main()
