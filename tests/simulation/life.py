"""A desk in service, from its start to its end, and what befalls it: pauses, kills, a full disk, want of memory, a slow reader of its log."""
import ctypes
import os
import re
import resource
import signal
import socket
import subprocess

from .lanes import Difference

# A request's line has what the call lacked exactly if it is answered 503.
STATUS = r"(?:(?!503)\d{3} \d+ \d+ \d+|503 \d+ \d+ \d+ (?:memory|size|device))"
LINE = re.compile(r"\d{4}-\d\d-\d\dT\d\d:\d\d:\d\d\.\d{3}Z (?:- (?:FAULT|LOST) \d+|\S+ \S+ \S+ %s)|FAULT 42" % STATUS)
ENDLESS = resource.RLIM_INFINITY


def free_port():
    with socket.socket() as probe:
        probe.bind(("127.0.0.1", 0))
        return probe.getsockname()[1]


class Life:
    """A run of `serve` over a store. `reading` says who reads its log: None where it keeps none, `all`, `slow`, `nobody` or `gone`."""

    def __init__(self, program, store, options, reading, descriptors):
        self.store, self.reading, self.descriptors, self.log = store, reading, descriptors, b""
        self.was_stopped = self.is_paused = False
        self.may_fail = False  # whether its disk may have failed under a change of a client that is gone
        self.is_narrow = bool(descriptors) or "8" in options  # idle connections give way to others
        words = [*options, *(["--log"] if reading else [])]
        for _ in range(20):
            self.port = free_port()
            if self.starts([program, "serve", "--port", str(self.port), *words, store]):
                return
        raise Difference("no port is free for the desk")

    def starts(self, command):
        """Whether it listens. A port that another program took in between is no fault of the desk's."""
        self.process = subprocess.Popen(command, stdout=subprocess.PIPE, stderr=subprocess.PIPE, preexec_fn=self.prepare)
        os.set_blocking(self.process.stderr.fileno(), False)
        if self.process.stdout.readline() == b"LISTENING 127.0.0.1:%d\n" % self.port:
            if self.reading == "gone":
                self.process.stderr.close()
            return True
        self.process.wait()
        told = self.process.stderr.read()
        self.close()
        if told != b"FAULT 73\n":
            raise Difference("the desk does not start: %r, status %d" % (told, self.process.returncode))
        return False

    def prepare(self):
        """What stands in the desk's process before it: its descriptors, that a limit of a file's length is an error and no signal, and that
        it ends with the simulation (prctl, PR_SET_PDEATHSIG)."""
        ctypes.CDLL(None).prctl(1, signal.SIGKILL)
        signal.signal(signal.SIGXFSZ, signal.SIG_IGN)
        if self.descriptors:
            resource.setrlimit(resource.RLIMIT_NOFILE, (self.descriptors, self.descriptors))

    # ---- what befalls it

    def pause(self):
        self.process.send_signal(signal.SIGSTOP)
        self.is_paused = True

    def go_on(self):
        if self.is_paused:
            self.process.send_signal(signal.SIGCONT)
            self.is_paused = False

    def stop(self, number):
        """Ends it by a signal."""
        self.was_stopped = True
        self.process.send_signal(number)
        self.process.wait()

    def limit(self, what, soft):
        """Sets a limit of the running desk, which may be lifted again."""
        if not self.is_over:
            resource.prlimit(self.process.pid, what, (soft, ENDLESS))

    def limit_memory(self, more):
        """Lets it have so many bytes of memory more than it has now."""
        with open("/proc/%d/status" % self.process.pid) as file:
            found = re.search(r"VmData:\s+(\d+) kB", file.read())
        if found:
            self.limit(resource.RLIMIT_DATA, int(found[1]) * 1024 + more)

    def limit_files(self, more):
        """Lets its files grow by so many bytes."""
        longest = max(os.path.getsize(path) for path in (self.store, self.store + "-wal") if os.path.exists(path))
        self.limit(resource.RLIMIT_FSIZE, longest + more)

    def lift(self):
        """Takes the limits away again."""
        for what in (resource.RLIMIT_DATA, resource.RLIMIT_FSIZE):
            self.limit(what, ENDLESS)

    def wait_for_end(self, has_failed):
        """Its disk failed, so that it ends; or it may have failed."""
        try:
            self.process.wait(timeout=20 if has_failed else 1)
        except subprocess.TimeoutExpired:
            if has_failed:
                raise Difference("the desk goes on after its disk failed") from None

    @property
    def is_over(self):
        return self.process.poll() is not None

    # ---- its log

    def read_log(self, count):
        """Takes so many bytes of what it wrote into its log, as far as they are there."""
        if self.process.stderr.closed:
            return
        try:
            self.log += os.read(self.process.stderr.fileno(), count)
        except BlockingIOError:
            pass

    def read_as_drawn(self):
        if self.reading != "nobody":
            self.read_log(100 if self.reading == "slow" else 1 << 16)

    def read_all(self):
        before = -1
        while len(self.log) != before:
            before = len(self.log)
            self.read_log(1 << 16)

    # ---- its end

    def see_end(self, may_fail, lie):
        """Sees that it ended as it may: by the signal that it was sent, or with 42 where its disk failed. Its log has whole lines."""
        self.process.wait()
        self.read_all()
        status, text = self.process.returncode, lie.logged(self.log.decode("ascii", "replace"))
        failed = status == 3 and (text.endswith("FAULT 42\n") or self.reading in ("gone", "nobody"))
        if not (self.was_stopped and status in (-signal.SIGKILL, -signal.SIGTERM)) and not (may_fail and failed):
            raise Difference("the desk ended with %d: %r" % (status, text[-300:]))
        if text and not text.endswith("\n"):
            raise Difference("the log ends in the middle of a line: %r" % text[-300:])
        for line in text.splitlines():
            if not LINE.fullmatch(line) or not self.reading and line != "FAULT 42":
                raise Difference("a line of standard error is none: %r" % line[:300])
        self.close()

    def close(self):
        for stream in (self.process.stdout, self.process.stderr):
            stream.close()

    def kill(self):
        """Ends it whatever came."""
        if not self.is_over:
            self.process.kill()
        self.process.wait()
        self.close()
