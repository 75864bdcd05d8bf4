#!/usr/bin/env python3
"""bureau-client through a proxy that cuts connections at random moments: the desk has each change once.

    test_cuts.py [CHANGES [SEED]]

Between client and desk stands a proxy of the test's own. It lets a connection through, or cuts it:
before the request, inside it, after it, inside the reply, or at the reply's end; with an orderly
end or a reset; on the client's side first or on the desk's. Some runs of the client are killed.
After CHANGES changes (1,000) the desk's last number is CHANGES, so each change was made once, and
each zone has the rows of the last change that named it.
"""
import os
import random
import signal
import socket
import struct
import subprocess
import threading
import time
import unittest

from service import CLIENT, SAMPLE, Client, Desk, check, folder, main, numbers, same, write

CHANGES, SEED = numbers(1000, 20261123)
RESET = struct.pack("ii", 1, 0)
NORTH, PUBLISHER = "north-token", "publisher-token"


class Proxy:
    """Lets a number of bytes through on each side, and then cuts."""

    def __init__(self, port, dice):
        self.port_of_desk, self.dice, self.cuts, self.whole = port, dice, 0, 0
        self.listener = socket.create_server(("127.0.0.1", 0), backlog=64)
        self.port = self.listener.getsockname()[1]
        threading.Thread(target=self.accept, daemon=True).start()

    def accept(self):
        while True:
            client, _ = self.listener.accept()
            threading.Thread(target=self.pass_on, args=(client,), daemon=True).start()

    def pass_on(self, client):
        request, reply = self.plan()
        desk = socket.create_connection(("127.0.0.1", self.port_of_desk))
        if request is None:
            self.whole += 1
        else:
            self.cuts += 1
        back = threading.Thread(target=self.copy, args=(desk, client, reply), daemon=True)
        back.start()
        self.copy(client, desk, request)
        if request is None:
            back.join()
        sides = [client, desk]
        self.dice.shuffle(sides)
        for side in sides:
            if request is not None and self.dice.random() < 0.5:
                side.setsockopt(socket.SOL_SOCKET, socket.SO_LINGER, RESET)
            side.close()

    def plan(self):
        """How many bytes go on in each direction; None is all of them."""
        turn = self.dice.random()
        if turn < 0.55:
            return None, None
        if turn < 0.65:
            return 0, 0
        if turn < 0.80:
            return self.dice.randrange(1, 400), 0
        return None if self.dice.random() < 0.5 else 1 << 30, self.dice.randrange(0, 150)

    def copy(self, source, target, limit):
        """Passes bytes on, up to the limit or to the end."""
        left = 1 << 62 if limit is None else limit
        try:
            while left > 0:
                piece = source.recv(min(65536, left))
                if not piece:
                    break
                target.sendall(piece)
                left -= len(piece)
            if limit is not None and left == 0:
                # the limit is reached: both sides end here
                for side in (source, target):
                    side.shutdown(socket.SHUT_RDWR)
            else:
                target.shutdown(socket.SHUT_WR)
        except OSError:
            pass


def lists(site, dice, serial, wanted):
    """Writes new lists into the folder: each differs from the one before. Tells how many."""
    names = dice.sample(["Z%d" % n for n in range(30)] + ["received"], dice.randrange(1, 8))
    for name in names:
        ids = sorted(dice.sample(range(100), dice.randrange(1, 20)) + [100 + serial % 100])
        if name == "received":
            write(site + "/received.csv", "SYSMOD\n" + "".join("UJ%05d\n" % i for i in ids))
        else:
            write(
                "%s/zones/%s.csv" % (site, name),
                "SYSMOD,STATE\n" + "".join("UJ%05d,APPLIED\n" % i for i in ids),
            )
        wanted[name] = ids
    return len(names)


def killed_run(client, words, seconds):
    run = subprocess.Popen(
        [CLIENT, *words],
        env=client.environment,
        stdout=subprocess.DEVNULL,
        stderr=subprocess.DEVNULL,
        start_new_session=True,
    )
    time.sleep(seconds)
    os.killpg(run.pid, signal.SIGKILL)
    run.wait()


def publications(desk, proxy, dice, count):
    """The publisher sends COUNT publications, of one hold each: each is published once, and kept under its number."""
    publisher = Client("http://127.0.0.1:%d" % proxy.port, PUBLISHER, BUREAU_SECONDS="5", BUREAU_TRIES="4")
    place, before = folder(), desk.last(PUBLISHER)
    for serial in range(count):
        path = write(place + "/%d" % serial, "++HOLD(UK%05d) ERROR REASON(AK%05d).\n" % (serial, serial))
        if dice.random() < 0.4:
            killed_run(publisher, ("publish", path), dice.random() * 0.15)
        status = 3
        while status == 3:
            status, _, err = publisher.run("publish", path)
        check("publication %d" % serial, status == 0, err)
    same("each publication has one number", desk.last(PUBLISHER), before + count)
    kept = publisher.home + "/publications/%09d"
    for serial in range(count):
        with open(kept % (before + serial + 1)) as file:
            same("it is kept", file.read().split("(")[1][:7], "UK%05d" % serial)


class Cuts(unittest.TestCase):
    def test_each_change_is_made_once(self):
        dice = random.Random(SEED)
        desk, site = Desk(os.path.join(SAMPLE, "callers.csv")), folder()
        # a hold on each SYSMOD, so that a zone's report tells the whole list, and whether each was received
        desk.ask(
            "POST",
            "/publish",
            "publisher-token",
            1,
            b"++PTF(UJ99999).\n++VER(Z038).\n"
            + b"".join(b"++HOLD(UJ%05d) ERROR REASON(AJ%05d).\n" % (i, i) for i in range(200)),
        )
        proxy = Proxy(desk.port, random.Random(SEED + 1))
        north = Client("http://127.0.0.1:%d" % proxy.port, NORTH, BUREAU_SECONDS="5", BUREAU_TRIES="4")
        wanted, changes, serial, killed, unanswered = {}, 0, 0, 0, 0
        while changes < CHANGES:
            changes, serial = changes + lists(site, dice, serial, wanted), serial + 1
            if dice.random() < 0.2:
                killed += 1
                killed_run(north, ("sync", site), dice.random() * 0.3)
            status = 3
            while status == 3:
                status, _, err = north.run("sync", site)
                unanswered += status == 3
            if not check("sync %d" % serial, status == 0, err):
                break
        same("each change has one number", desk.last(NORTH), changes)
        rows = "".join(
            "%-9s%d\n" % (zone, len(ids)) for zone, ids in sorted(wanted.items()) if zone != "received"
        )
        same(
            "each zone is there",
            desk.ask("GET", "/zones", NORTH)[1].decode(),
            "ZONE     SYSMODS\n%sROWS %d\n" % (rows, rows.count("\n")),
        )
        for zone in sorted(wanted):
            if zone != "received":
                report = desk.ask("GET", "/zones/%s/errsysmods" % zone, NORTH)[1].decode()
                same(
                    "the rows of " + zone,
                    [line.split()[1] for line in report.splitlines()[2:-1]],
                    ["UJ%05d" % i for i in wanted[zone]],
                )
        publications(desk, proxy, dice, CHANGES // 20)
        check("connections were cut", proxy.cuts > CHANGES / 10, proxy.cuts)
        print(
            "cuts: %d changes in %d runs, %d of them killed; %d runs had no answer; %d connections cut, %d whole"
            % (changes, serial, killed, unanswered, proxy.cuts, proxy.whole)
        )
        desk.end()


if __name__ == "__main__":
    main("client, connections cut")
