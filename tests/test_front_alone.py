#!/usr/bin/env python3
"""What the front promises of each request, with stand-ins for the desks that write down what reaches them.

No desk would show it: how a request arrives at a desk, how often, when, and how its reply is taken.
"""
import gzip
import http.client
import os
import resource
import socket
import threading
import time
import unittest

from front import Front
from service import check, main, same
from stand_in import StandIn, until

CLIENT, OTHER, LONG, PUBLISHER = "north-token", "south-token", "A~" + "z" * 62, "publisher-token"
LARGE = 32 << 20  # more than the sockets of a machine hold by themselves
LIMIT = 67108864  # of a body, as at the desk


def ask(front, method, path, token, body=None, **headers):
    line = http.client.HTTPSConnection("127.0.0.1", front.port, timeout=20, context=front.context)
    line.request(method, path, body, {**({"bureau-token": token} if token else {}), **headers})
    reply = line.getresponse()
    answer = reply.status, reply.read()
    line.close()
    return answer


def lines_of(fields, *names):
    return [value for name, value in fields if name.lower() in names]


def begun(front, address, text, with_tls=True):
    """A connection from an address of this machine, on which a request has begun."""
    line = socket.create_connection(("127.0.0.1", front.port), 30, (address, 0))
    if with_tls:
        line = front.context.wrap_socket(line, server_hostname="127.0.0.1")
    line.sendall(text)
    return line


def is_refused(line, seconds=10):
    """Whether a request that has only begun is answered already."""
    line.settimeout(seconds)
    try:
        return line.recv(100).startswith(b"HTTP/1.1 503")
    except OSError:
        return False


def half_a_head(front, ended):
    """A head that does not come to its end, and after how many seconds the front ends the connection."""
    began = time.time()
    line = front.context.wrap_socket(
        socket.create_connection(("127.0.0.1", front.port)), server_hostname="127.0.0.1"
    )
    line.sendall(b"GET /zones HTTP/1.1\r\nhost: a\r\n")
    line.settimeout(40)
    try:
        line.recv(1000)
        ended.append(time.time() - began)
    except OSError:
        pass
    line.close()


class FrontAlone(unittest.TestCase):
    @classmethod
    def setUpClass(cls):
        cls.one, cls.two = StandIn(), StandIn()
        # as many clients as a callers file may have
        many = {"client-%05d" % n: 1 for n in range(9997)}
        cls.front = Front([cls.one.port, cls.two.port], {CLIENT: 1, OTHER: 2, LONG: 2, **many})
        cls.addClassCleanup(cls.front.end)
        cls.ended = []
        cls.idle = threading.Thread(target=half_a_head, args=(cls.front, cls.ended))
        cls.idle.start()

    def test_as_it_came(self):
        front, one, two = self.front, self.one, self.two
        one.reply = two.reply = b"ZONE Z#1 ROWS 1\n"
        path, body = "/zones/Z%23%31//a/../b?x=%2f", bytes(range(256)) * 300
        got = ask(front, "PUT", path, OTHER, body, **{"bureau-number": "7", "Expect": ""})
        same("the reply as the desk gives it", got, (200, one.reply))
        same("at the client's desk alone", (one.connections, two.connections), (0, 1))
        first, fields, received = two.requests[0]
        same("the path as it came", first, "PUT %s HTTP/1.1" % path)
        same("the body as it came", received == body, True)
        same(
            "token and number",
            (lines_of(fields, "bureau-token"), lines_of(fields, "bureau-number")),
            ([OTHER], ["7"]),
        )
        until(lambda: two.rest is not None)
        same("the connection ends after its reply", (lines_of(fields, "connection"), two.rest), (["close"], b""))
        ask(front, "PUT", "/received", LONG, iter([b"SYSMOD\n", b"UJ1\n"]))
        same(
            "chunks are joined, for the desk of a token of 64 characters",
            two.requests[-1][2] + str(lines_of(two.requests[-1][1], "content-length", "transfer-encoding")).encode(),
            b"SYSMOD\nUJ1\n['11']",
        )
        ask(front, "GET", "/zones", "nobodys-token")
        ask(front, "GET", "/zones", None)
        same("who is not listed is at the first desk", len(one.requests), 2)

    def test_once(self):
        """A change whose reply does not come is not sent again, nor to another desk: the client does that, with
        its number."""
        front, one, two = self.front, self.one, self.two
        one.reply = None
        one.connections = two.connections = 0
        same("no reply of the desk", ask(front, "PUT", "/received", CLIENT, b"SYSMOD\n")[0], 502)
        same("sent once", (one.connections, two.connections), (1, 0))
        one.reply = b"ok\n"

    def test_of_the_publisher(self):
        front, one, two = self.front, self.one, self.two
        one.requests.clear()
        two.requests.clear()
        for method, path in (("POST", "/publish"), ("GET", "/published"), ("GET", "/zones")):
            status, text = ask(front, method, path, PUBLISHER, b"" if method == "POST" else None)
            check(
                "the publisher has to name a desk", status == 421 and b"/desk/1, /desk/2" in text, (status, text)
            )
        same("nothing of it reached a desk", one.requests + two.requests, [])
        for number, desk in ((1, one), (2, two)):
            ask(front, "POST", "/desk/%d/publish" % number, PUBLISHER, b"++PTF(UJ1).\n")
            for path in ("published", "published.json"):
                ask(front, "GET", "/desk/%d/%s" % (number, path), PUBLISHER)
            same(
                "the path of desk %d" % number,
                [first for first, _, _ in desk.requests],
                ["POST /publish HTTP/1.1", "GET /published HTTP/1.1", "GET /published.json HTTP/1.1"],
            )

    def test_slow_clients(self):
        """A request that stops inside its body, and a reply that nobody reads, wait at the front."""
        front, one = self.front, self.one
        one.connections = 0
        slow = front.context.wrap_socket(
            socket.create_connection(("127.0.0.1", front.port)), server_hostname="127.0.0.1"
        )
        head = b" HTTP/1.1\r\nhost: a\r\nconnection: close\r\nbureau-token: %s\r\n" % CLIENT.encode()
        slow.sendall(b"PUT /received" + head + b"content-length: 11\r\n\r\nSYSM")
        time.sleep(1)
        same("half a request does not reach the desk", one.connections, 0)
        slow.sendall(b"OD\nUJ1\n")
        check("the whole one does", slow.recv(100).startswith(b"HTTP/1.1 200") and one.connections == 1)
        slow.close()

        one.reply, one.seconds = b"x" * LARGE, None
        line = socket.socket()
        line.setsockopt(socket.SOL_SOCKET, socket.SO_RCVBUF, 65536)
        line.connect(("127.0.0.1", front.port))
        idle = front.context.wrap_socket(line, server_hostname="127.0.0.1")
        idle.sendall(b"GET /zones" + head + b"\r\n")
        check("a reply that nobody reads is taken off the desk", until(lambda: one.seconds is not None))
        read = 0
        idle.settimeout(30)
        while piece := idle.recv(1 << 20):
            read += len(piece)
        check("and its client gets it whole", LARGE < read < LARGE + 1000, read)
        one.reply = b"ok\n"

    def test_limits(self):
        front, one, two = self.front, self.one, self.two
        two.reply = b"ok\n"
        body = b"x" * LIMIT
        same("a body of 64 MiB", ask(front, "POST", "/desk/2/publish", PUBLISHER, body)[0], 200)
        same("which reaches the desk", len(two.requests[-1][2]), LIMIT)
        count = two.connections
        same("one byte more", ask(front, "POST", "/desk/2/publish", PUBLISHER, body + b"x")[0], 413)
        same("which no desk sees", two.connections, count)

        one.may_answer.clear()
        statuses = []
        asking = [
            threading.Thread(target=lambda: statuses.append(ask(front, "GET", "/zones", CLIENT)[0]))
            for _ in range(4)
        ]
        count = one.connections
        for each in asking:
            each.start()
        until(lambda: one.connections == count + 4)
        threading.Timer(5, one.may_answer.set).start()  # a fifth that is let through is answered then
        same("a fifth request of one client", ask(front, "GET", "/zones", CLIENT)[0], 503)
        same("another client", ask(front, "GET", "/zones", OTHER)[0], 200)
        one.may_answer.set()
        for each in asking:
            each.join()
        same("the four", statuses, [200] * 4)

    def test_compressed(self):
        """A report goes small to who takes it so, and as it is to all others."""
        front, one = self.front, self.one
        one.reply = b"HBB77E0  UJ92001  AJ64001  UJ92002  HELD   NO       PE\n" * 1000
        got = {}
        for coding in ("gzip", "identity"):
            line = http.client.HTTPSConnection("127.0.0.1", front.port, context=front.context)
            line.request("GET", "/zones/A/errsysmods?token=%s" % CLIENT, headers={"bureau-token": CLIENT, "accept-encoding": coding})
            reply = line.getresponse()
            got[coding] = reply.getheader("content-encoding"), reply.read(), reply.getheader("strict-transport-security")
            line.close()
        same("as it is", got["identity"], (None, one.reply, "max-age=31536000"))
        same("and small", (got["gzip"][0], gzip.decompress(got["gzip"][1]) == one.reply), ("gzip", True))
        check("a tenth of it", len(got["gzip"][1]) < len(one.reply) / 10, len(got["gzip"][1]))
        one.reply = b"ok\n"

    def test_files(self):
        """Of the files of the front, the page alone is served, as what it is."""
        front = self.front
        paths = ("/desks.map", "/page/../desks.map", "/page/%2e%2e/key.pem", "/page/..%2fdesks.map", "/tmp/access.log")
        for path in paths:
            text = ask(front, "GET", path, None)[1]
            check("no file at " + path, b"token" not in text and b"KEY" not in text and b"GET" not in text, text)
        line = http.client.HTTPSConnection("127.0.0.1", front.port, context=front.context)
        line.request("GET", "/")
        reply = line.getresponse()
        same("the front door leads to the page", (reply.status, reply.getheader("location")), (302, "/page/"))
        line.close()
        for name, kind in (("", "html"), ("page.js", "javascript"), ("page.css", "css")):
            line = http.client.HTTPSConnection("127.0.0.1", front.port, context=front.context)
            line.request("GET", "/page/" + name)
            reply = line.getresponse()
            same("the kind of /page/" + name, reply.getheader("content-type"), "text/" + kind)
            policy = reply.getheader("content-security-policy") or ""
            check("it fetches nothing from elsewhere", "default-src 'none'" in policy and "unsafe" not in policy, policy)
            same("and is asked for anew", reply.getheader("cache-control"), "no-cache")
            same("and never without TLS again", reply.getheader("strict-transport-security"), "max-age=31536000")
            line.close()
        logs = "".join(open(os.path.join(front.place, "tmp", name + ".log")).read() for name in ("access", "error"))
        check("the logs tell requests", "PUT /zones/Z%23%31" in logs)
        check("and who made them", ' 127.0.0.1 SOUTH-TOKEN "PUT /zones/Z%23%31//a/../b" 200 ' in logs, logs[-3000:])
        check("and no token", not any(token in logs for token in (CLIENT, OTHER, LONG, PUBLISHER)))
        try:
            line = http.client.HTTPConnection("127.0.0.1", front.port, timeout=10)
            line.request("GET", "/zones", headers={"bureau-token": CLIENT})
            status = line.getresponse().status
        except (OSError, http.client.HTTPException):
            status = 400
        same("nothing without TLS", status, 400)

    def test_a_head_has_10_seconds(self):
        self.idle.join()
        check("a head has 10 seconds", len(self.ended) == 1 and 9 < self.ended[0] < 20, self.ended)

    def test_floods(self):
        """An address that opens over a thousand connections and ends no request stops nobody else."""
        front, one = self.front, self.one
        resource.setrlimit(resource.RLIMIT_NOFILE, (resource.getrlimit(resource.RLIMIT_NOFILE)[1],) * 2)
        one.reply = b"ok\n"
        half = b"PUT /received HTTP/1.1\r\nhost: a\r\n%scontent-length: 11\r\n\r\nSYSM"
        lines = [begun(front, "127.0.0.2", half % (b"bureau-token: token-%05d\r\n" % n)) for n in range(1100)]
        began = time.time()
        same("bodies that don't end stop nobody", ask(front, "GET", "/zones", CLIENT), (200, b"ok\n"))
        check("nor for long", time.time() - began < 5, time.time() - began)
        same("of an address 32 are let in", [is_refused(lines[at]) for at in (-1, 500, 40)], [True] * 3)
        for line in lines:
            line.close()
        lines = [begun(front, "127.0.0.3", b"GET /zones HTTP/1.1\r\n", with_tls=False) for _ in range(1100)]
        same("nor do heads that don't end", ask(front, "GET", "/zones", CLIENT), (200, b"ok\n"))
        for line in lines:
            line.close()
        lines = [begun(front, "127.0.0.4", half % b"") for _ in range(5)]
        same("without a token an address counts", is_refused(lines[4]), True)
        same("and so do these four alone", [is_refused(line, 1) for line in lines[:1]], [False])
        for line in lines:
            line.close()


if __name__ == "__main__":
    main("front alone")
