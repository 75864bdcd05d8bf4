#!/usr/bin/env python3
"""Refuses each growth of memory in turn, while ten calls of three callers run: refusals.py PROGRAM [WAY..] [--every N] [--lists DESKS]

    replay     by `replay`, with room for 1 and 16 frames, in one connection and in a connection each; then each change is sent again,
               and all is asked that can be asked
    large      the same by `replay` with growths of 16 KiB and more alone, each of them in any case: those of its files are among them
    lists      the same over lists, judged by `Whole` and with room for 1 and 16 frames, by DESKS, the program that desks.sh makes
    serve      by `serve` over a file; then what was answered 503 is sent again, and all is asked that can be asked, before and after
               the desk is started again
    log        the same by `serve --log`; the log has a line for each reply
    open       `serve` is refused before it listens
    init       `init` is refused
    migrate    `migrate` is refused
    check      `check` is refused
    callers    `callers` is refused
    holds      `holds` is refused
    reports    `errsysmods`, `missingfix` and `chain` are refused, over files with the same lists and publications

For N = 1, 2, .. the Nth growth alone is refused, up to the first run that meets no refusal. What is told otherwise than by 503 is
what a second desk tells, which never got the call that was answered 503. The second desk is tests/plain_desk.py. With --every N
only each Nth growth is refused, from a place that moves with each run. It makes hostile/refuse.c with any C compiler. Python 3.9.
"""
import argparse
import mmap
import os
import shutil
import socket
import sqlite3
import struct
import subprocess
import sys
import tempfile

HERE = os.path.dirname(os.path.abspath(__file__))
sys.path.append(os.path.join(HERE, "..", "tests"))
from load_shapes import ALPHA, BASE, BETA, PUBLISHER, TOKENS, list_of_callers
from plain_desk import PlainDesk
from resources import request

MEMORY = {6, 17, 24, 25, 38, 41, 49, 54, 74}  # the faults that tell of memory
DEVICE = {42}  # and of a device. The files of `replay` are in memory: where they can't grow, the device of the store has failed
NO_ROOM = b"HTTP/1.1 503 Service Unavailable\r\ncontent-type: text/plain\r\ncontent-length: 8\r\n\r\nNO ROOM\n"
BOTH, ONE = b"SYSMOD,STATE\nHBB7790,APPLIED\nUA10001,APPLIED\n", b"SYSMOD,STATE\nHBB7790,APPLIED\n"
SCRIPT = [
    request("POST /publish", PUBLISHER, 1, BASE.encode()),
    request("PUT /zones/TGT1", ALPHA, 1, BOTH),
    request("PUT /zones/TGT1", BETA, 1, ONE),
    request("GET /zones/TGT1/chains/UA10002", ALPHA),
    request("GET /zones/TGT1/chains/UA10002", BETA),
    request("GET /zones/TGT1/errsysmods", ALPHA),
    request("POST /publish", PUBLISHER, 2, b"++PTF(UA10005).\n++VER(Z038) FMID(HBB7790) SUP(UA10002).\n"
            b"++PTF(UA10020).\n++VER(Z038) FMID(HBB7790).\n++IF FMID(HXX0001) THEN REQ(UA10021).\n"
            b"++PTF(UA10021).\n++VER(Z038) FMID(HBB7790).\n"),
    request("PUT /zones/TGT1", BETA, 2, BOTH),
    request("GET /zones/TGT1/errsysmods", ALPHA),
    request("GET /zones/TGT1/chains/UA10002", ALPHA),
]
ASKED = ["", "/TGT1/errsysmods", "/TGT1/missingfix"]
ASKED += [path + ".json" for path in ASKED] + ["/TGT1/chains/" + name for name in ("UA10001", "UA10002", "UA10005", "UA10020", "AA20002")]
QUESTIONS = [request("GET /published", PUBLISHER), request("GET /published.json", PUBLISHER)] + [
    request("GET /zones" + path, token)
    for token in (ALPHA, BETA)
    for path in ASKED
] + [request("PUT /received", token, 1 << 62, b"SYSMOD\n") for token in (ALPHA, BETA)]
AGAIN = [sent for sent in SCRIPT if not sent.startswith(b"GET ")]

MOST_WRONG = 5


class Wrong(Exception):
    """The program did what it must not do."""


def see(good, *shown):
    if not good:
        raise Wrong(" ".join(str(each)[:1500] for each in shown))


def compiled(room, name="refuse"):
    """The library that hostile/NAME.c makes."""
    kit = os.path.dirname(os.path.dirname(os.path.realpath(shutil.which("rt") or "/")))
    target = os.path.join(room, name + ".so")
    for compiler in ("cc", "gcc", "clang", os.path.join(kit, "toolchain", "bin", "clang")):
        more = ["-fuse-ld=lld"] if "toolchain" in compiler else []
        words = [compiler, "-O1", "-shared", "-fPIC", "-nostdlib", *more, "-o", target, os.path.join(HERE, "hostile", name + ".c")]
        try:
            if subprocess.run(words, capture_output=True).returncode == 0:
                return target
        except OSError:
            pass
    sys.exit("no C compiler makes hostile/%s.c" % name)


class Refusing:
    """Runs the program with one growth refused."""

    def __init__(self, program, room, lists=None):
        self.program, self.room, self.lists = program, room, lists
        path = self.write("counts", bytes(24))
        self.environment = {**os.environ, "LD_PRELOAD": compiled(room), "REFUSE": path}
        with open(path, "r+b") as file:
            self.counts = mmap.mmap(file.fileno(), 24)
        self.callers = self.write("callers", list_of_callers(TOKENS))

    def write(self, name, text):
        path = os.path.join(self.room, name)
        with open(path, "wb") as out:
            out.write(text)
        return path

    def refuse(self, place, least=0):
        """From here on growths of so many bytes at least are counted from 1, and the one at this place is refused; 0 refuses none."""
        self.counts[:] = struct.pack("QQQ", 0, place, least)

    def met(self):
        """Whether so many growths were asked for that one was refused."""
        asked, refused, _ = struct.unpack("QQQ", self.counts[:])
        return asked >= refused

    def run(self, *words, program=None, **more):
        done = subprocess.run([program or self.program, *words], env=self.environment, capture_output=True, timeout=120, **more)
        see(done.returncode >= 0, "ended by signal", -done.returncode)
        return done.returncode, done.stdout, done.stderr

    def refused_run(self, place, *words, faults=MEMORY, least=0, **more):
        """A run that is refused or is what it is without: whether it was refused, and its output."""
        self.refuse(place, least)
        status, output, errors = self.run(*words, **more)
        if status != 3:
            see(status == 0 and not errors, "status", status, errors)
            return False, output
        number = int(errors.split()[1]) if errors.startswith(b"FAULT ") else 0
        see(number in faults and not output and self.met(), "status 3 with", errors, "and", output)
        return True, output


def replies_of(written):
    """The replies in some written bytes."""
    found, place = [], 0
    while place < len(written):
        end = written.index(b"\r\n\r\n", place) + 4
        length = int(written[place:end].split(b"content-length: ")[1].split(b"\r\n")[0])
        found.append(written[place : end + length])
        place = end + length
    return found


def second(requests):
    """What a second desk tells to these requests, and the desk."""
    desk = PlainDesk(TOKENS)
    return [b"".join(desk.connection(sent)) for sent in requests], desk


def see_replies(replies, requests):
    """At most one is 503, and the others are those of a desk that didn't get that call. Tells which one."""
    refused = [place for place, reply in enumerate(replies) if reply.startswith(b"HTTP/1.1 503 ")]
    see(len(refused) <= 1 and all(replies[place] == NO_ROOM for place in refused), "refused", refused, replies)
    told, _ = second([sent for place, sent in enumerate(requests) if place not in refused])
    got = [reply for place, reply in enumerate(replies) if place not in refused]
    see(got == told, "got", got, "wanted", told)
    return refused


def replay(words, is_cut, is_over_lists=False, least=0):
    """A change that is answered 503 is accepted when it is sent again. Another one is a repeat then, or comes out of its turn."""

    def way(refusing, place):
        sent = SCRIPT + AGAIN + QUESTIONS
        files = [refusing.write("file%d" % i, text) for i, text in enumerate(sent if is_cut else [b"".join(sent)])]
        how = {"program": refusing.lists} if is_over_lists else {"faults": MEMORY | DEVICE}
        ended, output = refusing.refused_run(place, *words, refusing.callers, *files, least=least, **how)
        if ended:
            return "no replies", True
        replies = replies_of(output)
        see(len(replies) == len(sent), "replies", replies)
        refused = see_replies(replies, sent)
        for first in refused:
            if sent[first] in AGAIN and first < len(SCRIPT):
                reply = replies[len(SCRIPT) + AGAIN.index(sent[first])]
                see(reply.startswith(b"HTTP/1.1 200 "), "a refused change, sent again", reply)
        return "a 503" if refused else "all replies", refusing.met()

    return way


def holds(refusing, place):
    ended, output = refusing.refused_run(place, "holds", "-", input=BASE.encode())
    see(ended or output.endswith(b"ROWS 1\n"), output)
    return "no print" if ended else "the print", refusing.met()


RECEIVED, CATEGORIES = b"SYSMOD\nUA10005\n", b"CATEGORY\nIBM.*\n"
REPORTS = {
    "errsysmods": (("errsysmods", "--zone", "zone", "--received", "received"), ()),
    "missingfix": (("missingfix", "--zone", "zone", "--categories", "categories", "--received", "received"), ()),
    "chains/UA10002": (("chain", "--zone", "zone"), ("UA10002",)),
}


def desks_report(path):
    """What a second desk tells a client that has sent the lists of these files, with a line end after a chain."""
    publications = [sent for sent in SCRIPT if sent.startswith(b"POST ")]
    sent = publications + [
        request("PUT /zones/TGT1", ALPHA, 1, BOTH),
        request("PUT /zones/TGT1/categories", ALPHA, 2, CATEGORIES),
        request("PUT /received", ALPHA, 3, RECEIVED),
        request("GET /zones/TGT1/" + path, ALPHA),
    ]
    told, _ = second(sent)
    see(all(reply.startswith(b"HTTP/1.1 200 ") for reply in told), "the second desk", told)
    return told[-1].split(b"\r\n\r\n", 1)[1] + (b"\n" if path.startswith("chains/") else b"")


def report(path):
    """A refused report prints nothing, and one that is printed is whole."""

    def way(refusing, place):
        bodies = [sent.split(b"\r\n\r\n", 1)[1] for sent in SCRIPT if sent.startswith(b"POST ")]
        files = [refusing.write("publication%d" % i, body) for i, body in enumerate(bodies)]
        for name, text in (("zone", BOTH), ("categories", CATEGORIES), ("received", RECEIVED)):
            refusing.write(name, text)
        words, more = REPORTS[path]
        ended, output = refusing.refused_run(place, *words, "--name", "TGT1", *more, *files, cwd=refusing.room)
        see(ended or output == desks_report(path), "got", output, "wanted", desks_report(path))
        return "no report" if ended else "the report", refusing.met()

    return way


def init(refusing, place):
    """A refused `init` leaves nothing, or nothing that keeps it from being made after it; or a store with its callers."""
    store = os.path.join(refusing.room, "made")
    ended, output = refusing.refused_run(place, "init", store, refusing.callers)
    see(ended or output == b"CALLERS 3\n", output)
    met = refusing.met()
    refusing.refuse(0)
    if ended:
        status, output, errors = refusing.run("init", store, refusing.callers)
        see((status, output, errors) == (0, b"CALLERS 3\n", b"") or errors == b"FAULT 44\n", "again", status, output, errors)
    desk = Desk(refusing, store)
    see(desk.exchange(QUESTIONS[:1]) == second(QUESTIONS[:1])[0], "the store that was made")
    desk.end()
    remove(store)
    return "refused" if ended else "made", met


def opening(refusing, place):
    """A refused `serve` ends before it listens, or serves as ever; the store is as it was."""
    store = os.path.join(refusing.room, "opened")
    shutil.copy(refusing.made, store)
    desk = Desk(refusing, store, place)
    told, met = "served" if desk.line else "refused", refusing.met()
    if desk.line:
        desk.end()
    else:
        output, errors = desk.process.communicate(timeout=60)
        number = int(errors.split()[1]) if errors.startswith(b"FAULT ") else 0
        see(desk.process.returncode == 3 and not output and number in MEMORY, "ended with", desk.process.returncode, output, errors)
    refusing.refuse(0)
    desk = Desk(refusing, store)
    replies = desk.exchange(SCRIPT + QUESTIONS)
    see(replies == second(SCRIPT + QUESTIONS)[0], "after a refused opening", replies)
    desk.end()
    remove(store)
    return told, met


def migrating(refusing, place):
    """A refused `migrate` leaves the store as it was, so it is made after it."""
    store = os.path.join(refusing.room, "migrated")
    shutil.copy(refusing.earlier, store)
    ended, output = refusing.refused_run(place, "migrate", store)
    see(ended or output == b"MIGRATED VERSION 2\n", output)
    met = refusing.met()
    refusing.refuse(0)
    again = refusing.run("migrate", store)
    see(again == ((0, b"MIGRATED VERSION 2\n", b"") if ended else (1, b"", b"FAULT 45\n")), "again", again)
    desk = Desk(refusing, store)
    see(desk.exchange(SCRIPT + QUESTIONS) == second(SCRIPT + QUESTIONS)[0], "the store that was migrated")
    desk.end()
    remove(store)
    return "refused" if ended else "migrated", met


def checking(refusing, place):
    """A refused `check` prints nothing, and the store is as it was."""
    store = os.path.join(refusing.room, "looked")
    shutil.copy(refusing.made, store)
    ended, output = refusing.refused_run(place, "check", store)
    met = refusing.met()
    refusing.refuse(0)
    told = refusing.run("check", store)
    see(told[0] == 0 and told[1].startswith(b"STORE VERSION 2 CALLERS 3 ") and not told[2], "without a refusal", told)
    see(ended or output == told[1], "got", output, "wanted", told[1])
    desk = Desk(refusing, store)
    see(desk.exchange(SCRIPT + QUESTIONS) == second(SCRIPT + QUESTIONS)[0], "the store that was looked through")
    desk.end()
    remove(store)
    return "refused" if ended else "looked", met


def setting(refusing, place):
    """A refused `callers` leaves the callers before, or those of its file, and can be run again. Who stays sees the same."""
    store = os.path.join(refusing.room, "set")
    shutil.copy(refusing.made, store)
    names = [name for name in TOKENS if TOKENS[name] not in (PUBLISHER, ALPHA)]
    others = {name: token for name, token in TOKENS.items() if name not in names}
    callers = refusing.write("others", list_of_callers({**others, "NEW": "newcomer-token"}))
    done, again = (b"CALLERS %d ADDED %d REMOVED %d TOKENS 0\n" % (len(others) + 1, *counts) for counts in ((1, len(names)), (0, 0)))
    ended, output = refusing.refused_run(place, "callers", store, callers)
    see(ended or output == done, output)
    met = refusing.met()
    refusing.refuse(0)
    told = refusing.run("callers", store, callers)
    see(told == (0, again, b"") or ended and told == (0, done, b""), "again", told)
    desk = Desk(refusing, store)
    asked = [sent for sent in SCRIPT + QUESTIONS if BETA.encode() not in sent]
    see(desk.exchange(asked) == second(asked)[0], "the store that got other callers")
    desk.end()
    remove(store)
    return "refused" if ended else "set", met


class Desk:
    """A desk over a store."""

    def __init__(self, refusing, store, place=0, capacity=16, more=()):
        with socket.socket() as probe:
            probe.bind(("127.0.0.1", 0))
            self.port = probe.getsockname()[1]
        refusing.refuse(place)
        words = [refusing.program, "serve", "--cache", str(capacity), "--port", str(self.port), *more, store]
        self.process = subprocess.Popen(words, env=refusing.environment, stdout=subprocess.PIPE, stderr=subprocess.PIPE)
        self.line = self.process.stdout.readline()

    def exchange(self, requests):
        """The replies to these requests in one connection."""
        written = []
        try:
            with socket.create_connection(("127.0.0.1", self.port), timeout=60) as connection:
                connection.sendall(b"".join(requests))
                connection.shutdown(socket.SHUT_WR)
                while part := connection.recv(1 << 16):
                    written.append(part)
        except (BrokenPipeError, ConnectionRefusedError, ConnectionResetError):
            pass  # it ended while something of it lay unread
        return replies_of(b"".join(written))

    def end(self):
        """Stops it. Tells what stood on standard error."""
        see(self.process.poll() is None, "the desk ended", self.process.poll())
        self.process.kill()
        return self.process.communicate()[1]


def remove(store):
    for name in os.listdir(os.path.dirname(store)):
        if name.startswith(os.path.basename(store)):
            os.remove(os.path.join(os.path.dirname(store), name))


def serve(capacity, more=()):
    def way(refusing, place):
        store = os.path.join(refusing.room, "served")
        shutil.copy(refusing.made, store)
        desk = Desk(refusing, store, 0, capacity, more)
        refusing.refuse(place)
        replies = desk.exchange(SCRIPT)
        met = refusing.met()
        refusing.refuse(0)
        refused = see_replies(replies, SCRIPT[: len(replies)])
        see(met or (len(replies) == len(SCRIPT) and not refused), "without a refusal", replies)
        given = [sent for i, sent in enumerate(SCRIPT[: len(replies)]) if i not in refused]
        again = [SCRIPT[i] for i in refused] + SCRIPT[len(replies) :]
        told, plain = second(given + again + QUESTIONS)
        got = desk.exchange(again + QUESTIONS)
        see(got == told[len(given) :], "sent again: got", got, "wanted", told[len(given) :])
        see(all(reply.startswith(b"HTTP/1.1 200 ") for reply in got[: len(refused)]), "a refused call, sent again", got)
        see_log(desk.end(), replies, got, more)
        see_tables(store, plain)
        desk = Desk(refusing, store, 0, capacity)
        got = desk.exchange(QUESTIONS)
        see(got == told[-len(QUESTIONS) :], "started again: got", got, "wanted", told[-len(QUESTIONS) :])
        desk.end()
        remove(store)
        return "a 503" if refused else "a connection's end" if len(replies) < len(SCRIPT) else "all replies", met

    return way


def see_log(errors, first, then, more):
    """A log has a line for each reply, in their order; those of the last round may be lost. A connection that ended early may have one."""
    lines = [line.split() for line in errors.decode("ascii").splitlines()]
    faults = [line[3] for line in lines if line[2] == "FAULT"]
    told = [line[4] for line in lines if line[2] != "FAULT"]
    wanted = [reply.split()[1].decode() for reply in first + then] if more else []
    see(told == wanted[: len(told)] and (not more or len(told) >= len(first)), "the log", lines, "wanted", wanted)
    see(not faults or more and len(first) < len(SCRIPT) and faults in (["51"], ["52"], ["53"], ["54"]), "the log", lines)


def see_tables(store, plain):
    """The file holds what the second desk holds."""
    conn = sqlite3.connect(store)
    states = (b"APPLIED", b"ACCEPTED", b"SUPERSEDED")
    for text, wanted in (
        ("SELECT caller, number, CAST(body AS TEXT) FROM last_change", [(name, *last) for name, last in plain.last.items() if last[0]]),
        ("SELECT client, zone, sysmod, state FROM zone_row",
         [(client, zone.decode(), name.decode(), states.index(state)) for client, zones in plain.zones.items()
          for zone, kept in zones.items() for name, state in kept.rows.items()]),
        ("SELECT id FROM sysmod", [(name.decode(),) for name in plain.catalogue]),
        ("SELECT id, member FROM sysmod_sup", [(name.decode(), member.decode()) for name, record in plain.catalogue.items() for member in record[b"SUP"]]),
        ("SELECT id, fmid, member FROM sysmod_cond",
         [(name.decode(), fmid.decode(), need.decode()) for name, record in plain.catalogue.items() for fmid, need in record[b"IF"]]),
        ("SELECT sysmod, kind, reason FROM hold_row", [(key[0].decode(), key[1], key[2].decode()) for key in plain.book]),
    ):
        got = sorted(conn.execute(text).fetchall())
        see(got == sorted(wanted), text, "got", got, "wanted", sorted(wanted))
    conn.close()


def of_version_1(store):
    """A copy of a store without conditional requisites, as a store of version 1."""
    earlier = store + "-1"
    shutil.copy(store, earlier)
    conn = sqlite3.connect(earlier)
    conn.execute("DROP TABLE sysmod_cond")
    conn.execute("UPDATE bureau_version SET version = 1")
    conn.commit()
    conn.close()
    return earlier


WAYS = {
    "holds": [holds],
    "reports": [report(path) for path in REPORTS],
    "init": [init],
    "migrate": [migrating],
    "check": [checking],
    "callers": [setting],
    "open": [opening],
    "replay": [replay(("replay", "--cache", capacity), is_cut) for capacity in ("1", "16") for is_cut in (False, True)],
    "large": [replay(("replay", "--cache", "1"), False, least=1 << 14)],
    "lists": [replay((judge,), is_cut, True) for judge in ("whole", "1", "16") for is_cut in (False, True)],
    "serve": [serve(capacity) for capacity in (1, 16)],
    "log": [serve(16, ("--log",))],
}


def sweep(name, way, refusing, every, place):
    """Refuses one growth after the other, up to the first run that meets no refusal. Tells whether all went well."""
    counts, met, wrong = {}, True, 0
    while met and wrong < MOST_WRONG:
        try:
            told, met = way(refusing, place)
            counts[told] = counts.get(told, 0) + 1
        except Wrong as fault:
            wrong += 1
            print("refusals: %s: growth %d ... FAILED: %s" % (name, place, fault), flush=True)
        place += every
    print("refusals: %s: up to growth %d: %s" % (name, place - every, ", ".join("%s: %d" % pair for pair in sorted(counts.items()))), flush=True)
    return wrong == 0


def main():
    reader = argparse.ArgumentParser(description=__doc__, formatter_class=argparse.RawDescriptionHelpFormatter)
    reader.add_argument("program")
    reader.add_argument("ways", nargs="*", metavar="WAY")
    reader.add_argument("--every", type=int, default=1)
    reader.add_argument("--lists")
    words, passed, failed = reader.parse_args(), 0, 0
    if "lists" in words.ways and not words.lists:
        reader.error("the way over lists needs --lists")
    ways = words.ways or [name for name in WAYS if words.lists or name != "lists"]
    with tempfile.TemporaryDirectory(dir="/dev/shm" if os.access("/dev/shm", os.W_OK) else None) as room:
        refusing = Refusing(os.path.abspath(words.program), room, words.lists and os.path.abspath(words.lists))
        refusing.made = os.path.join(room, "store")
        refusing.refuse(0)
        see(refusing.run("init", refusing.made, refusing.callers)[1] == b"CALLERS 3\n", "init")
        refusing.earlier = of_version_1(refusing.made)
        for name in ways:
            for turn, way in enumerate(WAYS[name]):
                every = 1 if name == "large" else words.every
                if sweep(name, way, refusing, every, 1 + turn * 7 % every):
                    passed += 1
                else:
                    failed += 1
    print("refusals: %d passed, %d failed" % (passed, failed))
    sys.exit(1 if failed else 0)


if __name__ == "__main__":
    main()
