"""A connection to the desk, with the requests that it carries and the replies that come."""
import re
import socket
import struct
import time

RESET = struct.pack("ii", 1, 0)
HEAD = re.compile(rb"HTTP/1\.1 \d{3} [A-Za-z ]+\r\n(?:[a-z-]+: [^\r\n]*\r\n)*?content-length: (\d+)\r\n(?:[a-z-]+: [^\r\n]*\r\n)*\r\n")


class Difference(Exception):
    """The desk did what it must not do."""


class Request:
    """A request as it is sent. `began` is when its last byte was sent, and `ended` when its reply was there, as far as it was."""

    def __init__(self, owner, sent, is_tail=False):
        self.owner, self.sent, self.is_tail = owner, sent, is_tail
        first = sent.lstrip(b"\r\n").split(b" ", 1)[0]
        self.is_change, self.is_bare = is_tail or first in (b"PUT", b"POST", b"DELETE"), first == b"HEAD"
        found = re.search(rb"(?i)\nbureau-number:[ \t]*(\d{1,19})\r?\n", sent)
        self.number = int(found[1]) if found else None
        self.began = self.ended = self.reply = None
        self.part = b""

    @property
    def is_answered(self):
        """Whether the desk has begun to answer it."""
        return self.ended is not None

    @property
    def is_refused(self):
        return (self.reply or self.part).startswith(b"HTTP/1.1 503")

    def fits(self, reply):
        """Whether this is its reply, as far as one came."""
        if not self.is_answered:
            return True
        return reply == self.reply if self.reply is not None else reply.startswith(self.part)


class Lane:
    """A connection. `plan` are the pieces that are to be sent, each with the requests that end in it; `ending` says how the client ends it."""

    def __init__(self, port, clock, lie):
        self.clock, self.lie, self.used = clock, lie, time.monotonic()
        self.socket, self.text, self.is_over, self.was_cut = None, b"", False, False
        self.requests, self.plan, self.ending, self.waits = [], [], "keep", []
        self.is_closing = self.is_broken = False
        try:
            self.socket = socket.create_connection(("127.0.0.1", port), timeout=30)
            self.socket.setsockopt(socket.IPPROTO_TCP, socket.TCP_NODELAY, 1)
            self.socket.setblocking(False)
        except OSError:
            self.is_over = True

    def carry(self, requests, plan, ending):
        """Gives it what it is to send next."""
        self.requests, self.plan, self.ending, self.waits = requests, plan, ending, list(requests)
        self.used = time.monotonic()
        if not plan and not self.is_over:
            self.after_sending()

    # ---- sending

    @property
    def can_send(self):
        return bool(self.plan) and not self.is_over and not self.is_closing

    def send_piece(self):
        """Sends the next piece, or as much of it as goes out."""
        piece, ended = self.plan[0]
        for request in ended:
            if not request.is_answered and (len(ended) == 1 or request.began is None):
                request.began = self.clock()
        try:
            count = self.socket.send(piece)
        except BlockingIOError:
            count = 0
        except OSError:
            return self.take_rest()
        if count < len(piece):
            self.plan[0] = (piece[count:], ended)
            return
        self.plan.pop(0)
        if not self.plan:
            self.after_sending()

    def after_sending(self):
        """All is sent: whoever cuts the connection does it now."""
        if self.ending in ("cut", "reset"):
            self.end(self.ending == "reset")
        elif self.ending == "half":
            self.shut()

    def shut(self):
        try:
            self.socket.shutdown(socket.SHUT_WR)
        except OSError:
            pass

    def end(self, is_reset=False):
        """The client ends the connection, whatever is still to come."""
        if self.socket and not self.is_over:
            if is_reset:
                self.socket.setsockopt(socket.SOL_SOCKET, socket.SO_LINGER, RESET)
            self.was_cut = self.is_over = True
            self.end_of_text()
        if self.socket:
            self.socket.close()
            self.socket = None

    # ---- reading

    @property
    def is_waiting(self):
        """Whether something is still to come: a reply, or the desk's end of a connection whose end is asked for."""
        return not self.is_over and bool(self.plan or self.waits or self.is_closing or self.ending == "half")

    def take_rest(self):
        """The connection broke as something was sent: reads what is still there."""
        self.plan = []
        while not self.is_over:
            if not self.take():
                self.is_over = True

    def take(self):
        """Reads what is there. Tells whether something was."""
        try:
            piece = self.socket.recv(1 << 18)
        except BlockingIOError:
            return False
        except OSError:
            piece = b""
        self.text += self.lie.came(self, piece)
        if piece:
            self.share_out()
        if not piece or self.is_broken:
            self.is_over = True
            self.end_of_text()
        return True

    def share_out(self):
        """Gives each request its reply."""
        while self.waits and not self.waits[0].is_tail:
            request = self.waits[0]
            head = HEAD.match(self.text)
            size = head and head.end() + (0 if request.is_bare else int(head[1]))
            if not head or len(self.text) < size:
                return
            reply, self.text = self.text[:size], self.text[size:]
            self.answer(request, reply, b"\r\nconnection: close\r\n" in head[0])
        if self.text and not self.waits:
            raise Difference("more was written than replies: %r" % self.text[:300])

    def answer(self, request, reply, closes):
        request.reply = self.lie.told(self, request, reply)
        request.ended = self.clock()
        if request.began is None:  # it is refused before it is whole
            request.began = request.ended
        self.waits.pop(0)
        if closes:
            self.is_closing, self.plan, self.waits = True, [], []
            self.requests = self.requests[: self.requests.index(request) + 1]

    def end_of_text(self):
        """The connection has ended: what was not shared out belongs to the request whose reply is due."""
        if not self.waits:
            if self.text:
                raise Difference("more was written than replies: %r" % self.text[:300])
        elif self.waits[0].is_tail and not self.plan:
            self.waits[0].reply, self.waits[0].ended = self.text, self.clock()
            self.waits.pop(0)
        elif self.text:
            self.waits[0].part, self.waits[0].ended = self.text, self.clock()
        self.text = b""

    # ---- what came of it

    def thread(self, is_over):
        """The requests that the desk may have answered. Of those without a reply these are all if the client cut the connection, the first
        if the desk is over, and else none."""
        answered = [request for request in self.requests if request.is_answered]
        others = [request for request in self.requests if request.began is not None and not request.is_answered]
        return (*answered, *(others if self.was_cut else others[:1] if is_over else ()))

    @property
    def lacks(self):
        """Whether a reply is lacking though the client did not cut the connection."""
        return bool(self.waits) and not self.was_cut

    @property
    def has_refusal(self):
        return any(request.is_refused for request in self.requests)
