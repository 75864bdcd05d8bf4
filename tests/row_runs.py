"""Rows of runs: the program's words and files, and all that a run of it leaves.

    text TEXT                  more bytes for the next command, in which \\r, \\n, \\t, \\xEF and \\\\ stand for bytes
    times COUNT TEXT           the same, so many times
    file NAME                  writes the lines and bytes before it into a file
    sql NAME                   the lines before it are written into a store by something else, each a command of SQL
    run WORD..                 runs the program, with the lines and bytes before it on standard input: the lines that it prints,
                               `error` and each line of standard error, and `status` and its status unless that is 0. A CR is \\r
    last COUNT WORD ..         another of these commands; of its answer the last lines alone
    find TEXT                  of what the last run printed each line that has this text
    refused WORD..             runs the program, which must print nothing, and end with status 2: texts that standard error has
    as CALLER                  the requests after it are this caller's (CALLERS), or nobody's
    ask METHOD PATH            a request to `bureau replay`, with the lines before it: those of its head, an empty one, those of its
                               body, of which the head then tells the length: the reply (`replies`)
    connection                 the lines before it, each with CR LF, and the bytes: all replies to them. None are kept for what follows

The requests of a case have a connection each at one desk. Each is asked in three ways: alone, where a connection before it was cut
after each byte, and twice in one connection, where the reply comes once if it closes that one.
"""
import codecs
import os
import shlex
import sqlite3
import subprocess
import tempfile

from row_desk import CALLERS, CALLERS_FILE
from row_files import Unreadable, lines_of


def bytes_of(text):
    """The bytes of a text with escapes."""
    return codecs.escape_decode(text.encode())[0]


def replies(data, has_bodies=True):
    """The lines of replies: of each its status, the lines of its head but for a text's kind and then the length, and its body."""
    lines = []
    while data:
        head, end, data = data.partition(b"\r\n\r\n")
        status, *head = head.decode().split("\r\n")
        length = next((line for line in head if line.startswith("content-length: ")), "content-length: 0")
        count = int(length.split()[1]) if has_bodies else 0
        body, data = data[:count], data[count:]
        plain = ["content-type: text/plain", f"content-length: {count}"]
        head = [line for line, usual in zip(head, plain) if line != usual] + head[2:]
        cut = "" if end and len(body) == count else f" and {len(body)} of {count} bytes"
        lines += [status.removeprefix("HTTP/1.1 ") + cut, *head]
        lines += body.decode().removesuffix("\n").split("\n") if body else []
    return lines


class Room:
    """A folder of files, in which the program is run."""

    def __init__(self, program, room):
        self.program, self.room = program, room
        self.data = b""
        self.printed = []
        self.token = ""
        self.asked = []
        self.write("callers", CALLERS_FILE)

    def write(self, name, data):
        with open(os.path.join(self.room, name), "wb") as file:
            file.write(data)
        return name

    def taken(self):
        """The bytes before a command, which it takes."""
        data, self.data = self.data, b""
        return data

    def ended(self, words, data=b""):
        return subprocess.run([self.program, *words], cwd=self.room, input=data, capture_output=True)

    def text(self, row):
        self.data += bytes_of(row.rest)
        return []

    def times(self, row):
        count, _, text = row.rest.partition(" ")
        self.data += bytes_of(text) * int(count)
        return []

    def file(self, row):
        self.write(row.rest, self.taken())
        return []

    def sql(self, row):
        connection = sqlite3.connect(os.path.join(self.room, row.rest), isolation_level=None)
        for command in self.taken().decode().splitlines():
            connection.execute(command)
        connection.close()
        return []

    def run(self, row):
        done = self.ended(shlex.split(row.rest), self.taken())
        self.printed = lines_of(done.stdout)
        errors = [f"error {line}" for line in lines_of(done.stderr)]
        return [*self.printed, *errors, *([f"status {done.returncode}"] if done.returncode else [])]

    def last(self, row):
        count, word, row.rest = f"{row.rest} ".split(" ", 2)
        row.rest = row.rest.rstrip()
        return WORDS[word](self, row)[-int(count):]

    def find(self, row):
        return [line for line in self.printed if row.rest in line]

    def refused(self, row):
        done = self.ended(shlex.split(row.rest), self.taken())
        if not row.wanted:
            raise Unreadable(f"{row.place}: no text is wanted of what is refused")
        if done.stdout or done.returncode != 2:
            return [f"status {done.returncode}", *done.stdout.decode().splitlines()]
        told = done.stderr.decode()
        return [text if text in told else f"not told: {text}" for text in row.wanted]

    def named(self, row):
        if row.rest not in (*CALLERS, "NOBODY"):
            raise Unreadable(f"{row.place}: no caller has this name: {row.rest}")
        self.token = CALLERS.get(row.rest, "")
        return []

    def request(self, row):
        """The bytes of a request, of the lines before it."""
        at = row.given.index("") if "" in row.given else len(row.given)
        body = "".join(f"{line}\n" for line in row.given[at + 1:]).encode()
        token = [f"bureau-token: {self.token}"] if self.token else []
        length = [f"content-length: {len(body)}"] if "" in row.given else []
        return "\r\n".join([f"{row.rest} HTTP/1.1", *token, *row.given[:at], *length, "", ""]).encode() + body

    def replay(self, connections):
        """What replay writes to connections, or tells."""
        names = [self.write(f"connection.{at}", data) for at, data in enumerate(connections)]
        done = self.ended(["replay", "callers", *names])
        fault = b"HTTP/1.1 status %d and %s\r\n\r\n" % (done.returncode, done.stderr)
        return done.stdout + (fault if done.returncode or done.stderr else b"")

    def ask(self, row):
        """The reply to a request, in each way."""
        data = self.request(row)
        before = self.replay(self.asked) if self.asked else b""
        ways = {"alone": [data], "after its cuts": [*(data[:cut] for cut in range(1, len(data))), data], "twice": [data + data]}
        told = {way: self.replay(self.asked + more).removeprefix(before) for way, more in ways.items()}
        once = told["alone"]
        if told["twice"] == once + once and b"\r\nconnection: close\r\n" not in once:
            told["twice"] = once
        elif b"\r\nconnection: close\r\n" not in once:
            told["twice"] = b"HTTP/1.1 not the same twice\r\n\r\n"
        self.asked.append(data)
        return {way: replies(data, not row.rest.startswith("HEAD ")) for way, data in told.items()}

    def connection(self, row):
        return replies(self.replay([self.taken()]))

    def take(self, row):
        """Takes the lines before a row, unless they are those of a request."""
        end = "\r\n" if row.word == "connection" else "\n"
        if row.word != "ask":
            self.data += "".join(f"{line}{end}" for line in row.given).encode()

    def answers(self, row):
        """What a row is told, by its way."""
        if row.word not in WORDS:
            raise Unreadable(f"{row.place}: an unknown word: {row.word}")
        self.take(row)
        told = WORDS[row.word](self, row)
        return told if isinstance(told, dict) else {"": told}


WORDS = {"text": Room.text, "times": Room.times, "file": Room.file, "sql": Room.sql, "run": Room.run, "last": Room.last,
         "find": Room.find, "refused": Room.refused, "as": Room.named, "ask": Room.ask, "connection": Room.connection}


def answers(program, case):
    """Of each row of a case what the program does, in each way."""
    with tempfile.TemporaryDirectory() as folder:
        room = Room(program, folder)
        for row in case.rows:
            for way, told in room.answers(row).items():
                yield row, told, way
        if room.data:
            raise Unreadable(f"{case.place}: the bytes at the end have no command")
