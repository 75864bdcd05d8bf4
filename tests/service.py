"""What the tests of the service share: a desk on a port, the client, what is compared, and the run of a file by unittest."""
import atexit
import http.client
import itertools
import os
import re
import shutil
import socket
import subprocess
import sys
import tempfile
import threading
import unittest
import urllib.request

HERE = os.path.dirname(os.path.abspath(__file__))
TOP = os.path.dirname(HERE)
CLIENT = os.path.join(TOP, "clients", "bureau-client")
PROGRAM = os.environ.get("BUREAU_PROGRAM") or os.path.join(TOP, "crates", "bureau_main", "out", "bureau_main")
SAMPLE = os.path.join(TOP, "examples", "desk")


def check(name, good, shown=""):
    """Fails the test that runs, where something is not so."""
    if not good:
        raise AssertionError("%s\n%s" % (name, shown))
    return good


def same(name, got, wanted):
    return check(name, got == wanted, "   got: %r\nwanted: %r" % (got, wanted))


def numbers(*usual):
    """The numbers at the front of the command line, which are taken off it, or the usual ones."""
    given = list(itertools.takewhile(str.isdigit, sys.argv[1 : 1 + len(usual)]))
    del sys.argv[1 : 1 + len(given)]
    return (*map(int, given), *usual[len(given) :])


class InOrder(unittest.TestLoader):
    """The tests of a class in the order in which they stand there."""

    def getTestCaseNames(self, case):
        order = list(vars(case))
        return sorted(super().getTestCaseNames(case), key=lambda name: order.index(name) if name in order else -1)


def main(name):
    """Runs the tests of a file by unittest, whose words it takes: [-v] [CLASS.TEST..]. The last line is what run-service-tests reads."""
    result = unittest.main(exit=False, testLoader=InOrder(), warnings="ignore").result
    failed, skipped = len(result.failures) + len(result.errors), len(result.skipped)
    for test, why in result.skipped:
        print("%s: %s was not tried: %s" % (name, test.id().split(".")[-1], why))
    print("%s: %d passed, %d failed" % (name, max(0, result.testsRun - failed - skipped), failed))
    sys.exit(int(failed > 0))


def folder():
    """A folder that is gone when the test ends."""
    made = tempfile.mkdtemp(prefix="bureau-tests-")
    atexit.register(shutil.rmtree, made, True)
    return made


def free_port():
    with socket.socket() as probe:
        probe.bind(("127.0.0.1", 0))
        return probe.getsockname()[1]


def command_of(callers, port):
    """What runs a desk with these callers, and with nothing in its store."""
    store = os.path.join(folder(), "store")
    subprocess.run([PROGRAM, "init", store, callers], check=True, stdout=subprocess.DEVNULL)
    return [PROGRAM, "serve", "--port", str(port or free_port()), store]


class Desk:
    """A desk with these callers, on this port of the loopback, or on a free one."""

    def __init__(self, callers, port=0):
        command = command_of(callers, port)
        self.process = subprocess.Popen(command, stdout=subprocess.PIPE, text=True)
        atexit.register(self.end)  # also where the test fails before it ends the desk
        line = self.process.stdout.readline()
        if not line.startswith("LISTENING "):
            sys.exit("the desk does not start: %r" % line)
        self.address = line.split()[1]
        self.port = int(self.address.split(":")[1])
        self.url = "http://" + self.address

    def ask(self, method, path, token, number=None, body=None):
        """The status and the body of a reply, without the client under test."""
        return exchange(self.url, method, path, token, number, body)

    def reply(self, method, path, headers, body=None):
        """The status, the headers and the body of the reply to a request with these headers and no others."""
        connection = http.client.HTTPConnection("127.0.0.1", self.port, timeout=120)
        try:
            connection.putrequest(method, path, skip_host=True, skip_accept_encoding=True)
            for name, value in headers:
                connection.putheader(name, str(value))
            connection.endheaders(body)
            reply = connection.getresponse()
            return reply.status, {name.lower(): value for name, value in reply.getheaders()}, reply.read()
        finally:
            connection.close()

    def last(self, token):
        """The number of a caller's last accepted change."""
        path, method = ("/publish", "POST") if token.startswith("publisher") else ("/zones/A", "DELETE")
        status, body = self.ask(method, path, token, 9223372036854775807, b"" if method == "POST" else None)
        assert status == 409 and body.startswith(b"GAP LAST "), (status, body)
        return int(body.split()[2])

    def end(self):
        self.process.terminate()
        self.process.wait()


def exchange(url, method, path, token, number=None, body=None, context=None):
    headers = {"bureau-token": token}
    if number is not None:
        headers["bureau-number"] = str(number)
    request = urllib.request.Request(url + path, data=body, method=method, headers=headers)
    opener = urllib.request.build_opener(
        urllib.request.ProxyHandler({}), urllib.request.HTTPSHandler(context=context)
    )
    try:
        with opener.open(request, timeout=120) as reply:
            return reply.status, reply.read()
    except urllib.error.HTTPError as refusal:
        return refusal.code, refusal.read()


def write(path, text):
    os.makedirs(os.path.dirname(path), exist_ok=True)
    with open(path, "wb") as out:
        out.write(text if isinstance(text, bytes) else text.encode())
    return path


def without_time(job):
    """A job for SMP/E without the time of asking in its title, which may stand on two lines."""
    return re.sub(r"ASKED( \*/\n /\*)? [0-9-]{10}( \*/\n /\*)? [0-9:]{8}", "ASKED", job)


class LosesReplies:
    """A way to a desk: while FOLDER/lost is there, it loses the replies to changes, which the desk has made. Questions for the last
    number pass."""

    def __init__(self, desk, place):
        self.desk, self.place = desk, place
        self.listener = socket.create_server(("127.0.0.1", 0), backlog=64)
        self.url = "http://127.0.0.1:%d" % self.listener.getsockname()[1]
        threading.Thread(target=self.serve, daemon=True).start()

    def serve(self):
        while True:
            threading.Thread(target=self.pass_on, args=(self.listener.accept()[0],), daemon=True).start()

    def pass_on(self, client):
        with client, socket.create_connection(("127.0.0.1", self.desk.port)) as desk:
            request = b""
            while b"\r\n\r\n" not in request:
                request += client.recv(65536)
            head, _, body = request.partition(b"\r\n\r\n")
            length = int((re.search(rb"content-length: (\d+)", head, re.I) or (0, 0))[1])
            while len(body) < length:
                body += client.recv(65536)
            desk.sendall(head + b"\r\n\r\n" + body)
            reply = b"".join(iter(lambda: desk.recv(65536), b""))
            number = re.search(rb"bureau-number: (\d+)", head, re.I)
            if not (number and int(number[1]) < 9223372036854775807 and os.path.exists(self.place + "/lost")):
                client.sendall(reply)


class Client:
    """bureau-client with a folder of its own, for one caller."""

    def __init__(self, url, token, python=None, **settings):
        self.home = folder()
        self.python = python.split() if python else []
        self.environment = {
            "PATH": os.environ["PATH"],
            "HOME": self.home,
            "BUREAU_HOME": self.home,
            "BUREAU_URL": url,
            "BUREAU_TOKEN": token,
            "BUREAU_PAUSE": "0",
            "BUREAU_TRIES": "2",
            "no_proxy": "*",
            **settings,
        }

    def run(self, *words, **settings):
        """Its status, standard output and standard error."""
        done = subprocess.run(
            [*self.python, CLIENT, *words],
            env={**self.environment, **settings},
            capture_output=True,
            text=True,
        )
        return done.returncode, done.stdout, done.stderr
