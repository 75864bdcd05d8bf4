"""A stand-in for a desk, which writes down what reaches it and answers as it is told."""
import socket
import threading
import time


class StandIn:
    """Keeps each request that comes, and answers it with `reply`: its bytes, or what it makes of the
    request's first line, with a status in front where that is not 200. While `may_answer` is not set, answers wait. Without a reply it
    closes the connection."""

    def __init__(self):
        self.requests, self.connections = [], 0
        self.reply, self.may_answer, self.seconds, self.rest = b"", threading.Event(), None, None
        self.may_answer.set()
        self.listener = socket.create_server(("127.0.0.1", 0), backlog=64)
        self.port = self.listener.getsockname()[1]
        threading.Thread(target=self.serve, daemon=True).start()

    def serve(self):
        while True:
            line = self.listener.accept()[0]
            self.connections += 1
            threading.Thread(target=self.answer, args=(line,), daemon=True).start()

    def answer(self, line):
        with line:
            received = b""
            while b"\r\n\r\n" not in received:
                received += line.recv(65536) or b"\r\n\r\n"
            head, _, body = received.partition(b"\r\n\r\n")
            first, *fields = head.decode().split("\r\n")
            if not first:  # the connection ended before it asked
                return
            fields = [tuple(field.split(": ", 1)) for field in fields]
            length = int(dict((name.lower(), value) for name, value in fields).get("content-length", 0))
            pieces, found = [body], len(body)
            while found < length:
                pieces.append(line.recv(1 << 20))
                if not pieces[-1]:
                    return
                found += len(pieces[-1])
            self.requests.append((first, fields, b"".join(pieces)))
            self.may_answer.wait()
            reply = self.reply(first) if callable(self.reply) else self.reply
            if reply is None:
                return
            status, reply = reply if isinstance(reply, tuple) else (200, reply)
            began = time.time()
            head = b"HTTP/1.1 %d OK\r\ncontent-type: text/plain\r\ncontent-length: %d\r\n\r\n"
            try:
                line.sendall(head % (status, len(reply)) + reply)
            except OSError:  # nobody waits for it any more
                return
            self.seconds = time.time() - began
            # a front that keeps the connection shows here
            line.settimeout(5)
            try:
                self.rest = line.recv(1)
            except OSError:
                self.rest = "still open"


def until(test, seconds=10):
    """Waits until a test is true, and tells whether it came to be."""
    end = time.time() + seconds
    while time.time() < end:
        if test():
            return True
        time.sleep(0.05)
    return False
