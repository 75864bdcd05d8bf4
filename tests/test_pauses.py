#!/usr/bin/env python3
"""A desk that was stopped, or that has no descriptor left, resets nobody whose request has come, and keeps nobody waiting.

    test_pauses.py
"""
import os
import resource
import signal
import socket
import subprocess
import time
import unittest

from service import PROGRAM, check, folder, free_port, main, same, write

ALPHA = "alpha-token"
CALLERS = write(os.path.join(folder(), "callers.csv"), "NAME,TOKEN\nPUBLISH,publisher-token\nALPHA,%s\n" % ALPHA)
ASKED = ("GET /zones HTTP/1.1\r\nhost: desk\r\nbureau-token: %s\r\n\r\n" % ALPHA).encode()
REPLY = b"HTTP/1.1 200 OK\r\n"
PAUSE = 23  # seconds: more than a desk waits for a head
CLIENTS = 1500
SOON = 15  # seconds

soft, hard = resource.getrlimit(resource.RLIMIT_NOFILE)
resource.setrlimit(resource.RLIMIT_NOFILE, (min(hard, 8192), hard))


def served(*words, before=""):
    """A desk over a new store, with these words more, after a command of the shell: its process and its port."""
    store, port = os.path.join(folder(), "store"), free_port()
    subprocess.run([PROGRAM, "init", store, CALLERS], check=True, stdout=subprocess.DEVNULL)
    command = ["sh", "-c", before + 'exec "$@"', "sh", PROGRAM, "serve", "--port", str(port), *words, store]
    desk = subprocess.Popen(command, stdout=subprocess.PIPE, text=True)
    check("it listens", desk.stdout.readline().startswith("LISTENING "))
    return desk, port


def connect(port):
    return socket.create_connection(("127.0.0.1", port), timeout=60)


def is_answered(client):
    """Whether a client gets a reply, and no reset."""
    try:
        return client.recv(65536).startswith(REPLY)
    except OSError:
        return False


class Pauses(unittest.TestCase):
    def test_an_idle_connection_gives_its_descriptor(self):
        """With few descriptors and the usual number of places, idle connections keep no other client waiting."""
        desk, port = served(before="ulimit -n 128; ")
        idle = [connect(port) for _ in range(300)]
        time.sleep(2)
        began = time.monotonic()
        with connect(port) as client:
            client.sendall(ASKED)
            answered = is_answered(client)
        waited = time.monotonic() - began
        check("a client beside idle ones that have all descriptors", answered and waited < SOON, "%.1f s" % waited)
        for client in idle:
            client.close()
        desk.kill()
        desk.wait()

    def test_a_stop_resets_nobody(self):
        """Heads that begin before a stop of the desk, and come whole during it, are answered. So are those that come during it alone, and
        a connection that was idle before it."""
        desk, port = served("--open", "4096")
        began, silent, kept = ([connect(port) for _ in range(CLIENTS // 3)] for _ in range(3))
        for client in began:
            client.sendall(ASKED[:20])
        for client in kept:
            client.sendall(ASKED)
        same("replies before the stop", sum(map(is_answered, kept)), len(kept))
        time.sleep(1)
        desk.send_signal(signal.SIGSTOP)
        for client in began:
            client.sendall(ASKED[20:])
        for client in silent + kept:
            client.sendall(ASKED)
        time.sleep(PAUSE)
        desk.send_signal(signal.SIGCONT)
        for name, clients in (("begun before", began), ("made before", silent), ("kept from before", kept)):
            same("replies after a stop, over connections %s it" % name, sum(map(is_answered, clients)), len(clients))
        desk.kill()
        desk.wait()


if __name__ == "__main__":
    main("pauses")
