"""Lies: what stands between a desk and what the simulation sees of it, and changes one thing. The simulation has to see each of them.

`Truth` changes nothing. A lie says with `lied` how often it did.
"""
import os
import re
import shutil
import socket
import sqlite3

OF_PUBLICATION = ("sysmod", "sysmod_sup", "sysmod_cond", "hold_row")


class Truth:
    """Changes nothing."""

    def __init__(self):
        self.lied = 0

    def came(self, lane, piece):
        """The bytes that came over a connection; none at its end."""
        return piece

    def told(self, lane, request, reply):
        """The reply to a request."""
        return reply

    def logged(self, text):
        """The log of a run that is over."""
        return text

    def turned(self, simulation):
        """A turn begins."""
        self.simulation = simulation

    def ended(self, simulation):
        """A run of the desk is over."""


def path_of(request):
    return request.sent.lstrip(b"\r\n").split(b" ", 2)[1]


def is_question(request, reply):
    return request.owner and not request.is_change and reply.startswith(b"HTTP/1.1 200 ")


class Remembers(Truth):
    """Remembers a reply to each question, by who asked it."""

    def __init__(self):
        super().__init__()
        self.first, self.latest = {}, {}

    def told(self, lane, request, reply):
        if not is_question(request, reply):
            return reply
        key = request.owner, path_of(request)
        lie = self.instead(key, reply)
        self.first.setdefault(key, reply)
        self.latest[key] = reply
        self.lied += lie != reply
        return lie

    def instead(self, key, reply):
        return reply


class AnswersOfAnother(Remembers):
    """A client is told what another one was told."""

    def instead(self, key, reply):
        return next((other for (owner, path), other in self.latest.items() if path == key[1] and owner != key[0] and other != reply), reply)


class OldReport(Remembers):
    """A report is the one of before a change."""

    def instead(self, key, reply):
        return self.first.get(key, reply) if b"errsysmods" in key[1] or b"missingfix" in key[1] else reply


class LostChange(Truth):
    """After a stop the store is as it was before the last turn."""

    def turned(self, simulation):
        super().turned(simulation)
        self.kept = {path: read(path) for path in files_of(simulation.store)}

    def ended(self, simulation):
        for path in files_of(simulation.store):
            os.remove(path)
        for path, data in self.kept.items():
            with open(path, "wb") as file:
                file.write(data)
        self.lied += 1


class MadeTwice(Truth):
    """A change is made a second time, under the next number."""

    def told(self, lane, request, reply):
        if request.is_change and request.owner and reply.startswith(b"HTTP/1.1 200 ") and request.number and not self.lied:
            sent = re.sub(rb"(?i)(bureau-number:[ \t]*)\d+", rb"\g<1>%d" % (request.number + 1), request.sent)
            with socket.create_connection(("127.0.0.1", self.simulation.life.port), timeout=1) as line:
                line.sendall(sent)
                try:
                    self.lied += line.recv(1 << 16).startswith(b"HTTP/1.1 200 ")
                except OSError:
                    pass
        return reply


class CutReply(Truth):
    """A connection ends inside a reply."""

    def came(self, lane, piece):
        if self.lied or len(piece) < 300:
            return piece
        self.lied = 1
        lane.is_broken = True
        return piece[:-3]


class NoReply(Truth):
    """A connection ends in place of a reply."""

    def came(self, lane, piece):
        if self.lied or not piece.startswith(b"HTTP/1.1 409"):
            return piece
        self.lied = 1
        lane.is_broken = True
        return b""


class WrongStatus(Truth):
    """A wrong number is told as a path that is not there."""

    def told(self, lane, request, reply):
        self.lied += reply.startswith(b"HTTP/1.1 409 Conflict")
        return reply.replace(b"HTTP/1.1 409 Conflict", b"HTTP/1.1 404 Not Found")


class Refuses(Truth):
    """A question has no room, and nothing is scarce."""

    def told(self, lane, request, reply):
        if self.simulation.scarce or not is_question(request, reply):
            return reply
        self.lied += 1
        return b"HTTP/1.1 503 Service Unavailable\r\ncontent-type: text/plain\r\ncontent-length: 8\r\n\r\nNO ROOM\n"


class OutOfOrder(Truth):
    """Of two requests on one connection each gets the other's reply."""

    def __init__(self):
        super().__init__()
        self.before = None

    def told(self, lane, request, reply):
        at = lane.requests.index(request)
        if at + 1 < len(lane.requests) and at % 2 == 0:
            self.before = request
            return reply
        before, self.before = self.before, None
        if before and before in lane.requests and before.reply != reply:
            self.lied += 1
            before.reply, reply = reply, before.reply
        return reply


class LostHeader(Truth):
    """A reply lacks a line of its head."""

    def told(self, lane, request, reply):
        short = re.sub(rb"(?:www-authenticate|allow): [^\r]*\r\n", b"", reply)
        self.lied += short != reply
        return short


class WrongCount(Truth):
    """A report counts a row more than it has."""

    def told(self, lane, request, reply):
        wrong = re.sub(rb"ROWS ([0-8])\n\Z", lambda found: b"ROWS %d\n" % (int(found[1]) + 1), reply) if is_question(request, reply) else reply
        self.lied += wrong != reply
        return wrong


class OldPublication(Truth):
    """After a stop it has the publications of an earlier run. The publisher's number is right."""

    def __init__(self):
        super().__init__()
        self.kept = None

    def ended(self, simulation):
        old, self.kept = self.kept, simulation.store + ".kept"
        connection = sqlite3.connect(simulation.store)
        if old:
            connection.execute("ATTACH ? AS old", (old,))
            for table in OF_PUBLICATION:
                connection.execute(f"DELETE FROM main.{table}")
                connection.execute(f"INSERT INTO main.{table} SELECT * FROM old.{table}")
            connection.commit()
            self.lied += 1
        connection.close()
        shutil.copyfile(simulation.store, self.kept)


class TornLog(Truth):
    """A line of the log is torn."""

    def logged(self, text):
        self.lied += len(text) > 100
        return text[:40] + "\n" + text[40:] if len(text) > 100 else text


def files_of(store):
    """The files of a store."""
    return [path for path in (store, store + "-wal") if os.path.exists(path)]


def read(path):
    with open(path, "rb") as file:
        return file.read()


LIES = [AnswersOfAnother, OldReport, LostChange, MadeTwice, CutReply, NoReply, WrongStatus, Refuses, OutOfOrder, LostHeader, WrongCount,
        OldPublication, TornLog]
