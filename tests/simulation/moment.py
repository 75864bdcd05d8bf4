"""A turn as it passes: what goes out, what comes back, and what befalls the desk meanwhile."""
import select
import signal
import time

from .lanes import Difference

PATIENCE = 60  # seconds in which each request is answered
SCARCE = 0.5  # seconds for which memory is scarce: a desk without room for its first round waits until it has it
SIGNALS = {"kill": signal.SIGKILL, "term": signal.SIGTERM}


class Moment:
    """A turn as it passes: pieces go out in an order that is drawn, replies come, and the event comes after so many pieces."""

    def __init__(self, simulation, lanes, event, pace):
        self.life, self.disk, self.lanes, self.event, self.pace = simulation.life, simulation.disk, lanes, event, pace
        self.sent, self.is_come, self.at, self.until = 0, event.kind == "none", None, None
        self.end = time.monotonic() + PATIENCE

    def pass_by(self):
        while True:
            self.befall()
            senders = [lane for lane in self.lanes if lane.can_send]
            if senders and self.pace.random() < 0.9:
                self.pace.choice(senders).send_piece()
                self.sent += 1
            self.read(0 if senders or not self.is_come else 0.002)
            if self.is_done():
                return
            if time.monotonic() > self.end:
                raise Difference(self.lateness())

    def lateness(self):
        """What is still to come."""
        late = next((lane for lane in self.lanes if lane.is_waiting), None)
        if late and late.waits:
            return "there is no reply within %d seconds to %r" % (PATIENCE, late.waits[0].sent[:300])
        return "the desk does not end a connection within %d seconds, which the client has ended for its part" % PATIENCE

    def is_done(self):
        """Whether all was sent, and all came that was to come. After the end of the desk nothing more comes than is there."""
        if self.life.is_over:
            for lane in self.lanes:
                while not lane.is_over and lane.take():
                    pass
                lane.is_over, lane.plan = True, []
            return True
        return self.is_come and not self.life.is_paused and not any(lane.is_waiting for lane in self.lanes)

    def read(self, seconds):
        ready = {lane.socket.fileno(): lane for lane in self.lanes if lane.socket and not lane.is_over}
        if ready:
            poll = select.poll()
            for number in ready:
                poll.register(number, select.POLLIN)
            for number, _ in poll.poll(seconds * 1000):
                ready[number].take()
        self.life.read_as_drawn()

    def befall(self):
        """Lets the event come once so many pieces are sent, or none is left to send; and lets a pause or want of memory end."""
        now = time.monotonic()
        if self.until is not None and now >= self.until and not any(lane.can_send for lane in self.lanes):
            self.life.go_on()
            self.life.lift()
            self.until = None
        if self.is_come or self.sent < self.event.after and any(lane.can_send for lane in self.lanes):
            return
        kind, much = self.event.kind, self.event.much
        self.at = self.at or now
        if kind in SIGNALS:
            if now < self.at + much:
                return
            self.life.stop(SIGNALS[kind])
        elif kind == "pause":
            self.life.pause()
            self.until = now + much
        elif kind == "full":
            self.disk.fill(much)
        elif kind == "memory":
            self.life.limit_memory(much)
            self.until = now + SCARCE
        elif kind == "device":
            self.life.limit_files(much)
        self.is_come = True
