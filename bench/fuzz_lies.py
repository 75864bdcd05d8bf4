#!/usr/bin/env python3
"""Shows that fuzz.py can fail: fuzz_lies.py PROGRAM [DESKS]

Each lie is a program in front of PROGRAM that changes what is sent to it, or what it writes, in one way that fuzz.py has to see. Two
more stand in front of DESKS, the program that desks.sh makes, where it is given.
It prints for each lie which check saw it, and after how many desks.
"""
import ctypes
import os
import re
import signal
import socket
import sqlite3
import subprocess
import sys
import tempfile

HERE = os.path.dirname(os.path.abspath(__file__))
HEAD = re.compile(rb"(?:GET|PUT|POST|DELETE) [^\n]*HTTP/1\.[01]\r?\n(?:[^\r\n]+\r?\n)*")
NUMBER = re.compile(rb"(bureau-number:[ \t]*)(\d+)", re.IGNORECASE)
REPORT = re.compile(rb"HTTP/1\.1 200 OK(\r\n[^\0]{0,120}?\r\n\r\nMISSING FIX)")


class Truth:
    """Changes nothing. A lie changes one of these. `sent` is what goes to one connection, `written` what comes back."""

    seen_by = None
    is_over_lists = False

    def __init__(self, tokens, words):
        self.tokens, self.words = tokens, words
        self.clients = [token for name, token in sorted(tokens.items()) if name != "PUBLISH"]

    def sent(self, connection):
        return connection

    def written(self, reply):
        return reply


class Leaks(Truth):
    """Questions of the second client are answered as those of the first."""

    seen_by = "alone"

    def sent(self, connection):
        if len(self.clients) < 2:
            return connection
        one, other = (token.encode() for token in self.clients[:2])
        return HEAD.sub(lambda head: head[0].replace(other, one) if head[0].startswith(b"GET") else head[0], connection)


class ActsAgain(Truth):
    """A change that comes again under its number acts again."""

    seen_by = "sent again"

    def __init__(self, *words):
        super().__init__(*words)
        self.seen = set()

    def sent(self, connection):
        def again(head):
            number = NUMBER.search(head[0])
            token = next((token for token in self.tokens.values() if token.encode() in head[0]), None)
            if not number or not token or (token, number[2]) not in self.seen:
                self.seen.add((token, number and number[2]))
                return head[0]
            return NUMBER.sub(lambda found: found[1] + b"%d" % (int(found[2]) + 1), head[0])

        return HEAD.sub(again, connection)


class ForgetsInSmallCache(Truth):
    """With room for one frame a verdict is wrong."""

    seen_by = "room for 1 frames"

    def written(self, reply):
        return reply.replace(b'"status":"GOOD"', b'"status":"HELD"') if "--cache 1 " in " ".join(self.words) + " " else reply


class HasNoRoom(Truth):
    """A report of missing fixes is 503."""

    seen_by = "over a file"

    def written(self, reply):
        return REPORT.sub(rb"HTTP/1.1 503 Service Unavailable\1", reply)


class CountsClients(Truth):
    """What the publisher is told depends on how many clients there are."""

    seen_by = "publisher alone"

    def written(self, reply):
        return reply.replace(b"PUBLISHED SYSMODS 1", b"PUBLISHED SYSMODS 2") if len(self.clients) > 1 else reply


class KnowsTheStore(Truth):
    """Files in memory tell another number than those on a disk."""

    seen_by = "replay with room"

    def written(self, reply):
        return reply.replace(b"RELEASES 1\n", b"RELEASES 0\n") if self.words[0] == "replay" else reply


class CountsRequests(Truth):
    """The third question of a connection is nobody's."""

    seen_by = "other connections"

    def sent(self, connection):
        heads = [head for head in HEAD.finditer(connection) if head[0].startswith(b"GET")]
        if len(heads) < 3:
            return connection
        begin, end = heads[2].span()
        return connection[:begin] + re.sub(rb"(?i)bureau-token", b"bureau-taken", connection[begin:end]) + connection[end:]


class IsWrong(Truth):
    """A SYSMOD that no plan has is told as one that is no candidate, always and to all."""

    seen_by = "the plain desk"

    def written(self, reply):
        return re.sub(rb'content-length: \d+\r\n\r\n\{"blocked":"[^"]*","status":"HELD","sysmod":"UA(\d)","zone":"TGT(\d)"\}',
                      rb'content-length: 46\r\n\r\n{"status":"LACK","sysmod":"UA\1","zone":"TGT\2"}', reply)


class TellsAnotherDay(Truth):
    """A hold is a day older in the JSON of a report, always and to all."""

    seen_by = "the plain desk"

    def written(self, reply):
        return reply.replace(b'"date":"2012-02-14"', b'"date":"2012-02-13"')


class KnowsLists(Truth):
    """Lists tell another number than SQL."""

    seen_by = "over lists, judge whole"
    is_over_lists = True

    def written(self, reply):
        return reply.replace(b"RELEASES 1\n", b"RELEASES 0\n")


class ForgetsOverLists(Truth):
    """With room for sixteen frames over lists a verdict is wrong."""

    seen_by = "over lists, judge 16"
    is_over_lists = True

    def written(self, reply):
        return reply.replace(b'"status":"GOOD"', b'"status":"HELD"') if self.words[0] == "16" else reply


LIES_OVER_LISTS = [KnowsLists, ForgetsOverLists]
LIES = [Leaks, ActsAgain, ForgetsInSmallCache, HasNoRoom, CountsClients, KnowsTheStore, CountsRequests, IsWrong, TellsAnotherDay]


def replay(lie, program, words):
    place = next(i for i, word in enumerate(words) if word.endswith("callers.csv"))
    for name in words[place + 1 :]:
        with open(name, "rb") as file:
            sent = lie.sent(file.read())
        with open(name, "wb") as file:
            file.write(sent)
    done = subprocess.run([program, *words], stdout=subprocess.PIPE)
    sys.stdout.buffer.write(lie.written(done.stdout))
    return done.returncode


def end_with_parent():
    """A desk behind a lie ends when the lie is killed (prctl, PR_SET_PDEATHSIG)."""
    ctypes.CDLL(None).prctl(1, signal.SIGKILL)


def serve(lie, program, words):
    """Stands on the port that was asked for, before a desk on another one."""
    port, count = (int(words[words.index(name) + 1]) for name in ("--port", "--connections"))
    with socket.create_server(("127.0.0.1", port)) as listener, socket.socket() as probe:
        probe.bind(("127.0.0.1", 0))
        behind = probe.getsockname()[1]
        probe.close()
        words[words.index("--port") + 1] = str(behind)
        desk = subprocess.Popen([program, *words], stdout=subprocess.PIPE, preexec_fn=end_with_parent)
        desk.stdout.readline()
        print("LISTENING 127.0.0.1:%d" % port, flush=True)
        for _ in range(count):
            client, _ = listener.accept()
            taken = b""
            while piece := client.recv(1 << 16):
                taken += piece
            with socket.create_connection(("127.0.0.1", behind)) as connection:
                connection.sendall(lie.sent(taken))
                connection.shutdown(socket.SHUT_WR)
                reply = b""
                while piece := connection.recv(1 << 16):
                    reply += piece
            client.sendall(lie.written(reply))
            client.close()
        return desk.wait()


def tell(name, program, words):
    """Runs the program behind a lie."""
    store, tokens = words[-1], {}
    if words[0] == "serve":
        conn = sqlite3.connect(store)
        tokens = dict(conn.execute("SELECT name, token FROM caller"))
        conn.close()
    if words[0] not in ("serve", "init"):
        with open(next(word for word in words if word.endswith("callers.csv"))) as file:
            tokens = dict(line.strip().split(",") for line in file.readlines()[1:])
    if words[0] == "init":
        return subprocess.run([program, *words]).returncode
    lie = next(lie for lie in LIES + LIES_OVER_LISTS if lie.__name__ == name)(tokens, words)
    return serve(lie, program, words) if words[0] == "serve" else replay(lie, program, words)


def main():
    program, passed = os.path.abspath(sys.argv[1]), 0
    desks = [os.path.abspath(word) for word in sys.argv[2:3]]
    lies = LIES + (LIES_OVER_LISTS if desks else [])
    for lie in lies:
        with tempfile.TemporaryDirectory() as room:
            liar = os.path.join(room, "liar")
            with open(liar, "w") as out:
                behind = desks[0] if lie.is_over_lists else program
                out.write('#!/bin/sh\nexec %s %s --as %s %s "$@"\n' % (sys.executable, os.path.abspath(__file__), lie.__name__, behind))
            os.chmod(liar, 0o755)
            words = [program, "--lists", liar] if lie.is_over_lists else [liar]
            words += ["--skip", "plain desk"] if "plain desk" not in lie.seen_by else []  # which sees each of them
            done = subprocess.run(
                [sys.executable, os.path.join(HERE, "fuzz.py"), *words, "--desks", "60", "--seconds", "600", "--failures", "1"],
                capture_output=True, text=True)
        failure = re.search(r"fuzz: seed (\d+): (.*?) \.\.\. FAILED", done.stdout)
        seen = failure and lie.seen_by in failure[2]
        passed += bool(seen)
        print("%-20s %s" % (lie.__name__, "seed %s: %s" % failure.groups() if failure else "NOT SEEN " + done.stdout + done.stderr), flush=True)
        if failure and not seen:
            print("    seen by another check than %r\n%s" % (lie.seen_by, done.stdout))
    print("fuzz_lies: %d passed, %d failed" % (passed, len(lies) - passed))
    return 0 if passed == len(lies) else 1


if __name__ == "__main__":
    sys.exit(tell(sys.argv[2], sys.argv[3], sys.argv[4:]) if sys.argv[1] == "--as" else main())
