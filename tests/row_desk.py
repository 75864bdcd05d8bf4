"""Rows of a desk: requests to `bureau replay` and to `bureau serve`, with their replies.

    CALLER METHOD PATH [NUMBER]    a request of a caller (CALLERS), with the lines before it as its body; a change has a number
    numbered FIRST LAST REQUEST    the same request for each number, which stands for each # of it, of its lines and of what is wanted
    fails REQUEST                  the same as the request: that the store fails at first is shown by the crate of rows alone
    callers                        the lines before it are the callers file of the case. Whom it has besides CALLERS is named by
                                   `token:TOKEN`

What is wanted is the status, and then the lines of the reply's body. Each case is run in each of these ways (WAYS): by `replay` with
room for one frame and for 1,024, in one connection and in one for each request, and by `serve` over a store in a file, which is begun
once, or anew before each request; and then for each client of the case by `replay`, where the publisher and that client alone ask.
Words that only the crate of rows knows are in ELSEWHERE.
"""
import os
import socket
import subprocess
import tempfile

from row_files import Row, Unreadable, each_number

CALLERS = {"PUBLISH": "publisher-token", "ALPHA": "alpha-token", "BETA": "beta-token", "GAMMA": "gamma-token"}
CALLERS_FILE = "".join(f"{name},{token}\n" for name, token in {"NAME": "TOKEN", **CALLERS}.items()).encode()
ELSEWHERE = {"built", "kept", "room"}
PORT_TAKEN = "FAULT 73"  # another one took the port in the meantime


def request(row):
    """The bytes of a request."""
    words = asked_in(row)
    token = CALLERS.get(words[0], words[0].removeprefix("token:"))
    if not 3 <= len(words) <= 4 or token == words[0]:
        raise Unreadable(f"{row.place}: CALLER METHOD PATH [NUMBER] is wanted, with one of the callers {', '.join(CALLERS)}")
    body = "".join(f"{line}\n" for line in row.given).encode()
    number = [f"bureau-number: {words[3]}"] if words[3:] else []
    head = [f"{words[1]} {words[2]} HTTP/1.1", f"bureau-token: {token}", *number, f"content-length: {len(body)}", "", ""]
    return "\r\n".join(head).encode() + body


def asked_in(row):
    """The words of a request."""
    return f"{row.word} {row.rest}".removeprefix("fails ").split(" ")


def caller_of(row):
    return asked_in(row)[0]


def of_number(row, number):
    """A row whose # are a number."""
    def of(line):
        return line.replace("#", str(number))

    made = Row(row.place, of(row.rest.split(" ", 2)[2]), [of(line) for line in row.given])
    made.wanted = [of(line) for line in row.wanted]
    return made


def each_row(row):
    """The rows for which one row stands."""
    if row.word != "numbered":
        return [row]
    words = row.rest.split(" ", 2)
    if len(words) < 3:
        raise Unreadable(f"{row.place}: numbered FIRST LAST REQUEST is wanted")
    return [of_number(row, number) for number in each_number(*words[:2], row.place)]


def replies(text):
    """Of each reply the status, and the lines of the body."""
    while text:
        head, _, text = text.partition(b"\r\n\r\n")
        lines = head.decode().split("\r\n")
        length = next(int(line.split(":")[1]) for line in lines if line.startswith("content-length:"))
        yield [lines[0].split()[1], *body_lines(lines, text[:length].decode())]
        text = text[length:]


def body_lines(head, body):
    """The lines of a body. JSON is told to be so, and has no end of a line; all else is text and has one."""
    is_json = body.startswith("{")
    kind = f"content-type: {'application/json' if is_json else 'text/plain'}"
    if body and (kind not in head or is_json == body.endswith("\n")):
        return [*head, body]
    return body.removesuffix("\n").split("\n")


def write(room, name, data):
    with open(os.path.join(room, name), "wb") as file:
        file.write(data)
    return name


def replayed(frames, is_one):
    """A way: by `replay`, with room for so many frames, in one connection or in one for each request."""
    def way(program, room, requests):
        sent = [b"".join(requests)] if is_one else requests
        names = [write(room, str(at), data) for at, data in enumerate(sent)]
        done = subprocess.run([program, "replay", "--cache", str(frames), "callers", *names], cwd=room, capture_output=True)
        return [*replies(done.stdout), *([[f"status {done.returncode}", done.stderr.decode()]] if done.returncode or done.stderr else [])]
    return way


class Served:
    """`bureau serve` over the file `store` of a folder, until its end. `port` is None where it refuses to serve, and `line` says why."""

    def __init__(self, program, room, *words):
        for _ in range(20):
            self.process = subprocess.Popen([program, "serve", *words, "--port", str(free_port()), "store"], cwd=room,
                                            stdout=subprocess.PIPE, stderr=subprocess.STDOUT, text=True)
            self.line = self.process.stdout.readline().removesuffix("\n")
            if self.line != PORT_TAKEN:
                break
            self.process.communicate()
        self.port = int(self.line.rpartition(":")[2]) if self.line.startswith("LISTENING 127.0.0.1:") else None

    def __enter__(self):
        return self

    def __exit__(self, *_):
        self.process.terminate()
        self.process.communicate()

    def reply(self, sent):
        """The reply to a request, on a connection of its own."""
        with socket.create_connection(("127.0.0.1", self.port), timeout=60) as connection:
            connection.sendall(sent)
            connection.shutdown(socket.SHUT_WR)
            return only(list(replies(b"".join(iter(lambda: connection.recv(65536), b"")))))


def only(told):
    """The one reply of a connection of one request."""
    return told[0] if len(told) == 1 else [f"{len(told)} replies"]


def free_port():
    with socket.socket() as probe:
        probe.bind(("127.0.0.1", 0))
        return probe.getsockname()[1]


def new_store(program, room):
    """Makes a store there in which nothing is published."""
    for name in ("store", "store-wal"):
        if os.path.exists(os.path.join(room, name)):
            os.remove(os.path.join(room, name))
    subprocess.run([program, "init", "store", "callers"], cwd=room, check=True, capture_output=True)


def served(program, room, requests):
    """A way: over a store in a file, by one run of `serve` with room for two frames."""
    new_store(program, room)
    with Served(program, room, "--cache", "2") as desk:
        return [desk.reply(sent) for sent in requests]


def served_anew(program, room, requests):
    """A way: over a store in a file, by a run of `serve` for each request; for every fourth one or so where they are very many."""
    new_store(program, room)
    told, at_once = [], 1 + len(requests) // 40
    for at in range(0, len(requests), at_once):
        with Served(program, room) as desk:
            told += [desk.reply(sent) for sent in requests[at:at + at_once]]
    return told


WAYS = {
    "1 frame, one connection": replayed(1, True),
    "1 frame, a connection for each request": replayed(1, False),
    "1024 frames, one connection": replayed(1024, True),
    "1024 frames, a connection for each request": replayed(1024, False),
    "over a file": served,
    "over a file that is opened again": served_anew,
}


def callers_of(case):
    """The callers file of a case, which its first row may give."""
    given = [row for row in case.rows if row.word == "callers"]
    if given and (given != case.rows[:1] or given[0].wanted or given[0].rest):
        raise Unreadable(f"{given[-1].place}: callers stands first, and answers nothing")
    return "".join(f"{line}\n" for line in given[0].given).encode() if given else CALLERS_FILE


def ways_of(rows):
    """Each way by name, with the rows that are asked in it."""
    for name, way in WAYS.items():
        yield name, way, rows
    for client in sorted({caller_of(row) for row in rows} & set(CALLERS) - {"PUBLISH"}):
        yield f"{client} and the publisher alone", replayed(2, True), [row for row in rows if caller_of(row) in (client, "PUBLISH")]


def answers(program, case):
    """Of each row of a case what the desk replies, in each way."""
    for row in case.rows:
        if row.word in ELSEWHERE:
            yield row, None, ""
    asked = [one for row in case.rows if row.word not in {*ELSEWHERE, "callers"} for one in each_row(row)]
    sent = {row: request(row) for row in asked}
    with tempfile.TemporaryDirectory() as room:
        write(room, "callers", callers_of(case))
        for name, way, rows in ways_of(asked):
            told = list(way(program, room, [sent[row] for row in rows]))
            yield from paired(rows, told, name)


def paired(rows, told, way):
    """Each row with what it was told. What is told beside is told of the last one."""
    for at, row in enumerate(rows):
        beside = told[at + 1:] if at == len(rows) - 1 else []
        yield row, [*told[at], *(f"and {line}" for more in beside for line in more)] if at < len(told) else ["no reply"], way
