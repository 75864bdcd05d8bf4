#!/usr/bin/env python3
"""Two desks behind a real nginx give every reply that one desk gives, also after one of them was lost
and built anew.

    test_front.py [REQUESTS [SEED]]

The publisher and four clients send requests at random: to one desk alone, and through the front.
Each reply is compared: its status, the head that the desk wrote, and the body. Then a desk is
thrown away in mid-run and built from the kept publications and the clients' folders, and the
comparison goes on. Then a client moves to the other desk, and back.
"""
import http.client
import os
import random
import socket
import time
import unittest

from front import Front
from service import Client, Desk, check, folder, main, numbers, same, write

REQUESTS, SEED = numbers(600, 20261123)
CLIENTS = ["CLIENT%d" % n for n in range(1, 5)]
PUBLISHER = "publisher-token"
TOKENS = {name: name.lower() + "-token" for name in CLIENTS}
AT = {name: 1 + n % 2 for n, name in enumerate(CLIENTS)}  # the desk of each client
ZONES, IDS = ("TGT1", "Z#2", "A@$"), ["UJ%05d" % n for n in range(40)] + ["HBB77E0"]
OF_THE_FRONT = ("server", "date", "connection", "strict-transport-security", "vary")


def ask(port, context, method, path, token, number=None, body=None):
    """Status, head and body; of the head only what the desk writes."""
    if context:
        line = http.client.HTTPSConnection("127.0.0.1", port, timeout=120, context=context)
    else:
        line = http.client.HTTPConnection("127.0.0.1", port, timeout=120)
    headers = {"bureau-token": token, **({} if number is None else {"bureau-number": str(number)})}
    line.request(method, path, body, headers)
    reply = line.getresponse()
    head = sorted(
        (name.lower(), value) for name, value in reply.getheaders() if name.lower() not in OF_THE_FRONT
    )
    answer = reply.status, head, reply.read()
    line.close()
    return answer


class Installation:
    """A client with its folder of lists, as bureau-client sends it, and its last numbers at both."""

    def __init__(self, name, url, certificate):
        self.name, self.token, self.site = name, TOKENS[name], folder()
        self.client = Client(url, self.token, BUREAU_CACERT=certificate)
        self.at_one = self.at_front = 0
        self.is_repeatable = True
        os.makedirs(self.site + "/zones")

    def keep(self, method, path, body):
        """An accepted change, in the folder."""
        parts = path.replace("%23", "#").split("/")
        if path == "/received":
            write(self.site + "/received.csv", body)
        elif len(parts) == 4:
            write("%s/categories/%s.csv" % (self.site, parts[2]), body)
        elif method == "PUT":
            write("%s/zones/%s.csv" % (self.site, parts[2]), body)
        else:
            for kind in ("zones", "categories"):
                if os.path.exists("%s/%s/%s.csv" % (self.site, kind, parts[2])):
                    os.remove("%s/%s/%s.csv" % (self.site, kind, parts[2]))


def publication(dice, serial):
    lines = []
    for sysmod in dice.sample(IDS[:-1], 4):
        need, given = dice.choice(IDS[:-1]), dice.choice(IDS[:-1])
        lines += [
            "++PTF(%s)." % sysmod,
            "++VER(Z038) FMID(HBB77E0)%s%s."
            % (
                " PRE(%s)" % need if dice.random() < 0.5 else "",
                " SUP(%s,AJ%05d)" % (given, dice.randrange(40)),
            ),
        ]
    for _ in range(5):
        lines.append(
            "++HOLD(%s) ERROR FMID(HBB77E0) REASON(AJ%05d) CLASS(PE)."
            % (dice.choice(IDS), dice.randrange(40))
        )
        lines.append(
            "++HOLD(HBB77E0) FIXCAT REASON(AK%05d)\n RESOLVER(%s) CATEGORY(IBM.C%d)."
            % (serial, dice.choice(IDS), dice.randrange(4))
        )
    return "\n".join(lines) + "\n"


def request(dice):
    """A request of a client: method, path, body, and whether it is a change."""
    zone = dice.choice(ZONES).replace("#", "%23")
    rows = "".join(
        "%s,%s\n" % (one, dice.choice(("APPLIED", "ACCEPTED", "SUPERSEDED"))) for one in dice.sample(IDS, 15)
    )
    return dice.choice(
        [
            ("PUT", "/zones/" + zone, "SYSMOD,STATE\nHBB77E1,APPLIED\n" + rows, True),
            ("PUT", "/zones/" + zone, "SYSMOD,STATE\nHBB77E0,LOST\n", True),
            ("PUT", "/zones/%s/categories" % zone, "CATEGORY\nIBM.C%d\n" % dice.randrange(4), True),
            ("PUT", "/received", "SYSMOD\n" + "".join(one + "\n" for one in dice.sample(IDS, 9)), True),
            ("DELETE", "/zones/" + zone, None, True),
            ("GET", "/zones", None, False),
            ("GET", "/zones/%s/errsysmods" % zone, None, False),
            ("GET", "/zones/%s/errsysmods" % zone, None, False),
            ("GET", "/zones/%s/missingfix" % zone, None, False),
            ("GET", "/zones/%s/missingfix.json" % zone, None, False),
            ("GET", "/zones/%s/counts.json" % zone, None, False),
            ("GET", "/zones/%s/errsysmods/plan.json" % zone, None, False),
            ("GET", "/zones/%s/chains/%s" % (zone, dice.choice(IDS)), None, False),
            ("GET", "/published", None, False),
            ("GET", "/nowhere", None, False),
            ("POST", "/zones", "", False),
            ("HEAD", "/zones", None, False),
        ]
    )


def number_for(dice, site, last, after_loss):
    """The next number, mostly; or the last one, one before it, or one with a gap."""
    turn = dice.random()
    if turn < 0.8 or after_loss and not site.is_repeatable:
        return last + 1
    if turn < 0.9:
        return last
    return last + 1 if after_loss else dice.choice((last - 1, last + 5, 0))


def compare(count, dice, one, front, sites, after_loss):
    for turn in range(count):
        site = sites[dice.choice(CLIENTS)]
        method, path, body, is_change = request(dice)
        token = site.token if dice.random() < 0.97 else "nobodys-token"
        state = dice.getstate()
        numbers = []
        for last in (site.at_one, site.at_front):
            dice.setstate(state)
            numbers.append(number_for(dice, site, last, after_loss) if is_change else None)
        wanted = ask(one.port, None, method, path, token, numbers[0], body)
        got = ask(front.port, front.context, method, path, token, numbers[1], body)
        if not same("turn %d, %s, %s %s" % (turn, site.name, method, path), got, wanted):
            return
        if is_change and wanted[0] == 200 and numbers[0] == site.at_one + 1:
            site.at_one, site.at_front, site.is_repeatable = numbers[0], numbers[1], True
            site.keep(method, path, body)


def slow_client(front, port):
    """A client that stops inside its request keeps nobody waiting."""
    with socket.create_connection(("127.0.0.1", port)) as line, front.context.wrap_socket(
        line, server_hostname="127.0.0.1"
    ) as slow:
        slow.sendall(
            b"PUT /received HTTP/1.1\r\nhost: a\r\nbureau-token: %s\r\nbureau-number: 1\r\ncontent-length: 99\r\n\r\nSYS"
            % TOKENS["CLIENT1"].encode()
        )
        began = time.time()
        status = ask(port, front.context, "GET", "/zones", TOKENS["CLIENT3"])[0]
        check(
            "a slow client keeps nobody waiting",
            status == 200 and time.time() - began < 10,
            (status, time.time() - began),
        )


class FrontOfTwoDesks(unittest.TestCase):
    def test_same_replies(self):
        dice = random.Random(SEED)
        callers = write(
            folder() + "/callers.csv",
            "NAME,TOKEN\nPUBLISH,%s\n" % PUBLISHER + "".join("%s,%s\n" % pair for pair in TOKENS.items()),
        )
        one, desks = Desk(callers), [Desk(callers), Desk(callers)]
        front = Front([desk.port for desk in desks], {TOKENS[name]: at for name, at in AT.items()})
        sites = {name: Installation(name, front.url, front.certificate) for name in CLIENTS}
        alone = Client(one.url, PUBLISHER)
        publisher = Client(front.url, PUBLISHER, BUREAU_CACERT=front.certificate)
        to_both = ("--to", front.url + "/desk/1", "--to", front.url + "/desk/2")
        place = folder()

        def publish(serial):
            path = write(place + "/publication", publication(dice, serial))
            same("published on one desk", alone.run("publish", path)[0], 0)
            return publisher.run("publish", *to_both, path)

        for serial in range(4):
            status, _, err = publish(serial)
            same("published on both: " + err, status, 0)
            compare(REQUESTS // 8, dice, one, front, sites, False)
        slow_client(front, front.port)
        status, _, err = publisher.run("publish", write(place + "/publication", "++PTF(UJ1).\n"))
        check("the publisher has to name a desk", status == 3 and "/desk/1, /desk/2" in err, (status, err))

        # the clients of the second desk have sent their folders, as each night
        def send_folder(name, *words):
            site, desk = sites[name], desks[AT[name] - 1]
            status, _, err = site.client.run("sync", *words, site.site)
            same("the lists of %s: %s" % (name, err), status, 0)
            site.at_front, site.is_repeatable = desk.last(TOKENS[name]), False
            return err

        for name in CLIENTS:
            if AT[name] == 2:
                send_folder(name)

        # the second desk is lost: its clients get no answer, those of the first don't notice
        lost = desks[1]
        lost.end()
        status, out, _ = publish(4)
        same("published on the one that is left", (status, out.count("publication 5")), (3, 1))
        same(
            "who is at the lost desk gets 502",
            ask(front.port, front.context, "GET", "/zones", TOKENS["CLIENT2"])[0],
            502,
        )
        same("the client says no answer", sites["CLIENT2"].client.run("zones")[0], 3)
        compare(REQUESTS // 8, dice, one, front, {name: sites[CLIENTS[0]] for name in CLIENTS}, False)

        # it is built anew: from the kept publications, and from each client's folder
        desks[1] = Desk(callers, lost.port)
        status, out, err = publisher.run("catch-up", front.url + "/desk/2")
        same("the publications: " + err, (status, out.count("publication")), (0, 5))
        for name in CLIENTS:
            if AT[name] == 2:
                check("a desk built anew is noticed", "was built anew" in send_folder(name))
        compare(REQUESTS // 4, dice, one, front, sites, True)
        status, _, err = publish(5)
        same("published on both again: " + err, status, 0)
        compare(REQUESTS // 8, dice, one, front, sites, True)

        # a client moves to the other desk, and later back to the one that has its old lists
        for turn, to in enumerate((1, 2)):
            AT["CLIENT4"] = to
            front.deal_out({TOKENS[name]: at for name, at in AT.items()})
            front.reload()
            if to == 1:
                answer = ask(front.port, front.context, "GET", "/zones/TGT1/errsysmods", TOKENS["CLIENT4"])
                same("nothing is there before it has sent its lists", (answer[0], answer[2]), (404, b"NOT FOUND\n"))
            for line in send_folder("CLIENT4", "--all").splitlines():
                if "also has the zone" in line:
                    zone = line.split("also has the zone ")[1].split(",")[0]
                    same("dropped", sites["CLIENT4"].client.run("drop-zone", zone)[0], 0)
            sites["CLIENT4"].at_front = desks[to - 1].last(TOKENS["CLIENT4"])
            compare(REQUESTS // 8, dice, one, front, sites, True)
            status, _, err = publish(6 + turn)
            same("published on both after a move: " + err, status, 0)
        for each in (front, one, *desks):
            each.end()


if __name__ == "__main__":
    main("front")
