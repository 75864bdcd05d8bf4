#!/usr/bin/env python3
"""Ends the built program at each write, cut and sync of a store's files in turn: stops.py PROGRAM [--every N]

A store is made, and a desk serves ten calls of three callers over it and closes the store. The program is killed at the first of
these calls of the database, then at the second, up to the first run that isn't killed; then the same with the log. Each is done
twice: the write that it is killed at is not made, or half of it is. Then a store is there with all that was acknowledged, with or
without the change that was on its way, or none where none was made yet; and from that change on the calls are told what they are
told without a stop. What is told is compared with a second desk, tests/plain_desk.py. With --every N the program is killed at
each Nth call only. It makes hostile/stop.c with any C compiler. Python 3.9.
"""
import argparse
import mmap
import os
import signal
import socket
import struct
import subprocess
import sys
import tempfile

HERE = os.path.dirname(os.path.abspath(__file__))
sys.path.append(os.path.join(HERE, "..", "tests"))
from load_shapes import TOKENS, list_of_callers
from refusals import QUESTIONS, SCRIPT, Wrong, compiled, remove, replies_of, second, see

KINDS = {"database": 1, "log": 0}
MOST_WRONG = 5


class Stopping:
    """Runs the program up to one of its calls."""

    def __init__(self, program, room):
        self.program, self.room = program, room
        path = os.path.join(room, "calls")
        with open(path, "wb") as out:
            out.write(bytes(40))
        with open(path, "r+b") as file:
            self.calls = mmap.mmap(file.fileno(), 40)
        self.environment = {**os.environ, "LD_PRELOAD": compiled(room, "stop"), "STOP": path}
        self.callers, self.store = os.path.join(room, "callers"), os.path.join(room, "store")
        with open(self.callers, "wb") as out:
            out.write(list_of_callers(TOKENS))
        # what is told to the questions after so many calls of the script, and to the script
        self.told = [second(SCRIPT[:many] + QUESTIONS)[0] for many in range(len(SCRIPT) + 1)]

    def stop(self, kind=0, place=0, half=0):
        """From here on calls are counted from 1, and the program ends at this one of its kind; at none where that is 0."""
        last = [0, 0]
        last[kind] = place
        self.calls[:] = struct.pack("5Q", 0, 0, *last, half)

    def init(self):
        """Whether a store was made; not, where the program was killed."""
        done = subprocess.run([self.program, "init", self.store, self.callers], env=self.environment, capture_output=True, timeout=60)
        if done.returncode == -signal.SIGKILL:
            return False
        see((done.returncode, done.stdout, done.stderr) == (0, b"CALLERS 3\n", b""), "init", done)
        return True

    def init_again(self):
        """A store is made where none is, and refused where one is there."""
        done = subprocess.run([self.program, "init", self.store, self.callers], env=self.environment, capture_output=True, timeout=60)
        see(done.stdout == b"CALLERS 3\n" or done.stderr == b"FAULT 44\n", "init after a stop", done)

    def serve(self, requests):
        """The replies to these requests in one connection, up to a stop, and whether the desk was stopped."""
        with socket.socket() as probe:
            probe.bind(("127.0.0.1", 0))
            port = probe.getsockname()[1]
        words = [self.program, "serve", "--connections", "1", "--port", str(port), self.store]
        desk = subprocess.Popen(words, env=self.environment, stdout=subprocess.PIPE, stderr=subprocess.PIPE)
        replies = self.ask(port, requests) if desk.stdout.readline() else []
        output, errors = desk.communicate(timeout=60)
        see(desk.returncode in (0, -signal.SIGKILL) and not output and not errors, "the desk", desk.returncode, output, errors)
        return replies, desk.returncode != 0

    def ask(self, port, requests):
        """The replies, each awaited before the next request, up to the first that doesn't come."""
        replies = []
        try:
            with socket.create_connection(("127.0.0.1", port), timeout=60) as connection:
                for request in requests:
                    connection.sendall(request)
                    written = b""
                    while not (b"\r\n\r\n" in written and is_whole(written)):
                        part = connection.recv(1 << 16)
                        if not part:
                            see(not written, "a part of a reply", written)
                            return replies
                        written += part
                    replies += replies_of(written)
        except ConnectionError:
            pass
        return replies

    def see_kept(self, answered):
        """What is found after so many replies is what was told by then, or with one call more; then the script goes on."""
        told, stopped = self.serve(QUESTIONS)
        right = [each[-len(QUESTIONS) :] for each in self.told[answered : answered + 2]]
        see(not stopped and told in right, "found after", answered, "replies", told)
        rest, stopped = self.serve(SCRIPT[answered:])
        see(not stopped and rest == self.told[-1][answered : len(SCRIPT)], "what comes after", answered, "replies", rest)


def is_whole(written):
    head, body = written.split(b"\r\n\r\n", 1)
    return len(body) >= int(head.split(b"content-length: ")[1].split(b"\r\n")[0])


def way(stopping, kind, place, half):
    """One run with its stop. Tells where it was stopped."""
    stopping.stop(kind, place, half)
    if not stopping.init():
        stopping.stop()
        stopping.init_again()
        stopping.see_kept(0)
        return "in init"
    replies, stopped = stopping.serve(SCRIPT)
    stopping.stop()
    see(replies == stopping.told[-1][: len(replies)], "replies", replies)
    stopping.see_kept(len(replies))
    return "after %d replies" % len(replies) if stopped else "never"


def sweep(stopping, kind, half, every):
    """A stop at one call after the other, up to the first run that has none. Tells whether all went well."""
    counts, place, wrong, told = {}, 1, 0, ""
    while told != "never" and wrong < MOST_WRONG:
        try:
            told = way(stopping, KINDS[kind], place, half)
            counts[told] = counts.get(told, 0) + 1
        except Wrong as fault:
            wrong += 1
            print("stops: %s, call %d ... FAILED: %s" % (kind, place, fault), flush=True)
        remove(stopping.store)
        place += every
    how = "half written" if half else "not made"
    print("stops: %s, the last call %s: %s" % (kind, how, ", ".join("%s: %d" % pair for pair in counts.items())), flush=True)
    return wrong == 0


def main():
    reader = argparse.ArgumentParser(description=__doc__, formatter_class=argparse.RawDescriptionHelpFormatter)
    reader.add_argument("program")
    reader.add_argument("--every", type=int, default=1)
    words = reader.parse_args()
    with tempfile.TemporaryDirectory(dir="/dev/shm" if os.access("/dev/shm", os.W_OK) else None) as room:
        stopping = Stopping(os.path.abspath(words.program), room)
        good = [sweep(stopping, kind, half, words.every) for kind in KINDS for half in (0, 1)]
    print("stops: %d passed, %d failed" % (sum(good), len(good) - sum(good)))
    sys.exit(0 if all(good) else 1)


if __name__ == "__main__":
    main()
