"""What fuzz.py sees of a desk: each check but one runs the program once more over what was drawn, changed in a way that must not be
seen, and compares the replies with those of the first run. The one compares these with what a second desk tells."""
import os
import re
import socket
import subprocess
import sys
from collections import namedtuple

sys.path.append(os.path.join(os.path.dirname(os.path.abspath(__file__)), "..", "tests"))
from plain_desk import PlainDesk

from fuzz_desks import PUBLISHER, list_of_callers

# A request with the bytes of its reply; of a tail, with all that was written behind the replies before it.
Told = namedtuple("Told", "item reply")
REPLY = re.compile(rb"HTTP/1\.1 (\d{3}) [A-Za-z ]+\r\n(?:[a-z-]+: [^\r\n]*\r\n)*?content-length: (\d+)\r\n(?:[a-z-]+: [^\r\n]*\r\n)*\r\n")
STATUSES = {200, 400, 401, 403, 404, 405, 409, 411, 413, 422, 431}


class Difference(Exception):
    """The program did what it must not do."""


def free_port():
    with socket.socket() as probe:
        probe.bind(("127.0.0.1", 0))
        return probe.getsockname()[1]


class Runner:
    """Runs the program, with files in a folder."""

    def __init__(self, program, room, lists=None):
        self.program, self.room, self.made = program, room, 0
        self.lists = lists and os.path.abspath(lists)  # the program that desks.sh makes

    def write(self, name, text):
        path = os.path.join(self.room, name)
        with open(path, "wb") as out:
            out.write(text)
        return path

    def replay(self, tokens, connections, *options):
        return self.run_over([self.program, "replay", *options], tokens, connections)

    def run_over(self, words, tokens, connections):
        """What a run without sockets writes to these connections."""
        callers = self.write("callers.csv", list_of_callers(tokens))
        files = [self.write("connection%d" % place, sent) for place, sent in enumerate(connections)]
        done = subprocess.run([*words, callers, *files], capture_output=True, timeout=120)
        if done.returncode or done.stderr:
            raise Difference("it ended with %d: %r" % (done.returncode, done.stderr))
        return done.stdout

    def store(self, tokens):
        """A new store with these callers."""
        self.made += 1
        store = os.path.join(self.room, "store%d" % self.made)
        callers = self.write("callers.csv", list_of_callers(tokens))
        done = subprocess.run([self.program, "init", store, callers], capture_output=True, timeout=60)
        if done.returncode or done.stdout != b"CALLERS %d\n" % len(tokens):
            raise Difference("init ended with %d: %r %r" % (done.returncode, done.stdout, done.stderr))
        return store

    def served(self, tokens, connections):
        """What a desk over a file writes to each connection."""
        with Life(self.program, self.store(tokens), len(connections)) as desk:
            written = [desk.exchange(sent) for sent in connections]
            desk.see_end()
        for name in os.listdir(self.room):
            if name.startswith("store"):
                os.remove(os.path.join(self.room, name))
        return written


class Life:
    """A desk in service, from its start to its end."""

    def __init__(self, program, store, count):
        for _ in range(20):
            self.port = free_port()
            self.process = subprocess.Popen(
                [program, "serve", "--port", str(self.port), "--connections", str(count), store],
                stdout=subprocess.PIPE, stderr=subprocess.PIPE,
            )
            if self.process.stdout.readline() == b"LISTENING 127.0.0.1:%d\n" % self.port:
                return
            fault = self.process.communicate()[1]
            if fault != b"FAULT 73\n":
                break
        raise Difference("the desk does not start: %r" % fault)

    def __enter__(self):
        return self

    def __exit__(self, *_):
        self.process.kill()
        self.process.wait()
        self.process.stdout.close()
        self.process.stderr.close()

    def connect(self):
        connection = socket.create_connection(("127.0.0.1", self.port), timeout=90)
        connection.setsockopt(socket.IPPROTO_TCP, socket.TCP_NODELAY, 1)
        return connection

    def see_end(self):
        try:
            output, errors = self.process.communicate(timeout=60)
        except subprocess.TimeoutExpired:
            raise Difference("the desk does not end after its last connection")
        if self.process.returncode or output or errors:
            raise Difference("the desk ended with %d: %r %r" % (self.process.returncode, output, errors))

    def exchange(self, sent):
        """Sends a connection's bytes, and gives all that is written to it."""
        with self.connect() as connection:
            try:
                connection.sendall(sent)
                connection.shutdown(socket.SHUT_WR)
            except OSError:
                pass  # the desk may have ended the connection
            written = b""
            try:
                while piece := connection.recv(1 << 16):
                    written += piece
            except OSError as fault:
                raise Difference("a connection ended with %r" % fault)
            return written


def sent_by(items):
    return b"".join(item.sent for item in items)


def told(items, written):
    """Each request of a connection that was answered, with its reply."""
    found, place = [], 0
    for item in items:
        if item.tail:
            found.append(Told(item, written[place:]))
            return found
        head = REPLY.match(written, place)
        if not head:
            raise Difference("no reply to %r, but %r" % (item.sent[:300], written[place : place + 300]))
        if int(head[1]) not in STATUSES:
            raise Difference("a reply is %s to %r" % (head[1].decode(), item.sent[:300]))
        is_bare = item.sent.lstrip(b"\r\n").startswith(b"HEAD ")
        end = head.end() + (0 if is_bare else int(head[2]))
        found.append(Told(item, written[place:end]))
        place = end
        if b"\r\nconnection: close\r\n" in head[0]:
            break
    if place != len(written):
        raise Difference("more was written than replies: %r" % written[place : place + 300])
    return found


def see_same(got, wanted):
    if got == wanted:
        return
    place = next((i for i, (a, b) in enumerate(zip(got, wanted)) if a != b), min(len(got), len(wanted)))
    begin = max(0, place - 200)
    raise Difference("at byte %d\n   got: ..%r\nwanted: ..%r" % (place, got[begin : place + 200], wanted[begin : place + 200]))


class Checks:
    """The first run of a desk, over a file, and the checks that compare another run with it."""

    def __init__(self, runner, desk, dice):
        self.runner, self.desk, self.dice = runner, desk, dice
        self.sent = [sent_by(items) for items in desk.connections]
        self.written = runner.served(desk.tokens, self.sent)
        self.told = [told(*pair) for pair in zip(desk.connections, self.written)]
        if any(b"HTTP/1.1 503 " in written for written in self.written):
            raise Difference("a reply is 503, with ample memory")

    def all(self):
        """Each check by its name."""
        for capacity in (1, 2, 1024):
            yield "replay with room for %d frames" % capacity, lambda: self.replayed("--cache", str(capacity))
        for judge in ("whole", "1", "16") if self.runner.lists else ():
            yield "over lists, judge %s" % judge, lambda: self.over_lists(judge)
        yield "each change sent again", self.repeated
        yield "requests in other connections", self.regrouped
        yield "the publisher alone", lambda: self.alone({PUBLISHER})
        for client in self.desk.tokens:
            if client != PUBLISHER:
                yield "the publisher and %s alone" % client, lambda: self.alone({PUBLISHER, client})
        yield "the plain desk", self.plain

    def plain(self):
        """What is told is what a desk in plain Python tells."""
        desk = PlainDesk(self.desk.tokens)
        for sent, written in zip(self.sent, self.written):
            see_same(written, b"".join(desk.connection(sent)))

    def replayed(self, *options):
        see_same(self.runner.replay(self.desk.tokens, self.sent, *options), b"".join(self.written))

    def over_lists(self, judge):
        see_same(self.runner.run_over([self.runner.lists, judge], self.desk.tokens, self.sent), b"".join(self.written))

    def alone(self, names):
        """The replies to these callers are those of a desk that nobody else uses, or knows."""
        kept = [[each for each in connection if each.item.owner in names] for connection in self.told]
        kept = [connection for connection in kept if connection or self.dice.random() < 0.5]
        tokens = {name: token for name, token in self.desk.tokens.items() if name in names}
        got = self.runner.replay(tokens, [sent_by(each.item for each in connection) for connection in kept] or [b""])
        see_same(got, b"".join(each.reply for connection in kept for each in connection))

    def regrouped(self):
        """The same requests, in connections that begin elsewhere."""
        connections, wanted = [[]], b""
        for each in (each for connection in self.told for each in connection):
            if self.dice.random() < 0.3:
                connections.append([])
            connections[-1].append(each.item)
            wanted += each.reply
            if each.item.tail or b"\r\nconnection: close\r\n" in each.reply:
                connections.append([])
        got = self.runner.replay(self.desk.tokens, [sent_by(items) for items in connections])
        see_same(got, wanted)

    def repeated(self):
        """Between connections each caller sends its last change again, or another one under its number, or a number that is
        no longer or not yet its turn. Nothing changes by it."""
        connections, wanted, last = [], [], {}
        for sent, written, connection in zip(self.sent, self.written, self.told):
            connections.append(sent)
            wanted.append(written)
            for each in connection:
                name, number = each.item.owner, each.item.change
                if number and each.reply.startswith(b"HTTP/1.1 200 "):
                    last[name] = number, each.reply.split(b"\r\n\r\n", 1)[1]
                elif each.item.tail:
                    last.pop(name, None)  # it may have been a change
            for name, (number, reply) in last.items():
                for shift, status, body in ((0, b"200 OK", reply), (-1, b"409 Conflict", b"STALE\n"),
                                            (2, b"409 Conflict", b"GAP LAST %d\n" % number)):
                    if number + shift > 0 and self.dice.random() < (0.7 if shift == 0 else 0.2):
                        connections.append(change(self.desk.tokens[name], name, number + shift, self.dice))
                        wanted.append(b"HTTP/1.1 %s\r\ncontent-type: text/plain\r\ncontent-length: %d\r\n\r\n%s" % (status, len(body), body))
        see_same(self.runner.replay(self.desk.tokens, connections), b"".join(wanted))


def change(token, name, number, dice):
    """Some change under this number."""
    body = dice.choice([b"", b"SYSMOD\nUA1\n", b"SYSMOD,STATE\nUA2,APPLIED\n", b"++PTF(UA1).\n++VER(Z038).\n"])
    first = b"POST /publish" if name == PUBLISHER else dice.choice([b"PUT /received", b"PUT /zones/TGT1", b"DELETE /zones/NONE", b"PUT /zones/T%23/categories"])
    return b"%s HTTP/1.1\r\nbureau-token: %s\r\nbureau-number: %d\r\ncontent-length: %d\r\n\r\n%s" % (
        first, token.encode(), number, len(body), body)
