"""The changes of a client at one desk: their numbers, the one that waits for its answer, and the lock.

The client asks the desk for the number L of the last change. It writes the change down with the number L + 1, and then sends it,
again and again with this number until an answer comes. The desk acts once on a number. So no change is lost, and none is made
twice. The folder of a desk has

    last       the number of the last change, as this client knows it
    waiting/   the change that was sent, or is about to be: number, method, path, body, name, expected, sent
    sent/      a copy of each list that the desk has accepted, so that sync sends what differs
    news/      of each zone the reports that the last news told of
"""
import itertools
import os
import re
import shutil
import time
from contextlib import suppress

from . import run
from .run import Stop, or_stop, refused, say

BUILT_ANEW = "it was built anew or put back. sync sends everything again"


class Lock:
    """One run at a time makes changes. The lock names the machine and the process of the run that has it. A lock whose process has
    ended is taken over."""

    def __init__(self, settings):
        self.home, self.turns = settings.home, settings.turns
        self.path, self.own = f"{self.home}/lock", f"{self.home}/lock.{os.getpid()}"

    def __enter__(self):
        run.make_folder(self.home, f"the client's folder {self.home} can't be made")
        with or_stop(f"nothing can be written into {self.home}"), open(self.own, "w") as file:
            file.write(f"{os.uname().nodename} {os.getpid()}\n")
        try:
            self.take()
        finally:
            run.remove(self.own)

    def __exit__(self, *_):
        run.remove(self.path)

    def take(self):
        misses = 0
        for turn in itertools.count(1):
            with suppress(OSError):
                return os.link(self.own, self.path)
            misses += not os.path.exists(self.path)  # if it is never there, no link can be made in this folder
            if misses >= 5:
                raise Stop(3, f"the lock {self.path} can't be made")
            if turn > self.turns:
                text = f"another run is at work: {' '.join(self.owner())} (machine and process). If it is not, remove"
                raise Stop(3, f"{text} {self.path} and {self.home}/breaking")
            if not self.drop_dead():
                time.sleep(1)

    def owner(self):
        with suppress(OSError):
            return os.fsdecode(run.bytes_in(self.path)).split("\n")[0].split()
        return []

    def drop_dead(self):
        """Removes the lock of a run that has ended. Only one run does so at a time: else a second one could remove the lock that another
        has taken meanwhile."""
        breaking = self.home + "/breaking"
        try:
            os.mkdir(breaking)
        except OSError:
            return False
        try:
            if is_ended := is_dead(self.owner()):
                run.remove(self.path)
            return is_ended
        finally:
            os.rmdir(breaking)


def is_dead(owner):
    """Whether the process of a lock is one of this machine that has ended."""
    if len(owner) != 2 or owner[0] != os.uname().nodename or not re.fullmatch("[0-9]+", owner[1]):
        return False
    try:
        os.kill(int(owner[1]), 0)
    except (ProcessLookupError, OverflowError):
        return True
    except PermissionError:
        pass
    return False


def checksum(data):
    """What POSIX cksum tells of bytes."""
    check = 0
    for byte in data + len(data).to_bytes((len(data).bit_length() + 7) // 8, "little"):
        check ^= byte << 24
        for _ in range(8):
            check = check << 1 ^ (0x104C11DB7 if check & 0x80000000 else 0)
    return check ^ 0xFFFFFFFF


def cleared(folder):
    """Removes a folder, or nothing if it isn't there."""
    with suppress(FileNotFoundError):
        shutil.rmtree(folder)


class Changes:
    """What a client knows of its changes at a desk."""

    def __init__(self, desk):
        self.desk, url = desk, os.fsencode(desk.url)
        plain = re.sub("[^A-Za-z0-9.-]", "_", url.decode("latin-1"))
        self.folder = f"{desk.settings.home}/desks/{plain}.{checksum(url)}"
        self.waiting, self.making = self.folder + "/waiting", self.folder + "/making"
        self.is_known, self.is_idle, self.taken = False, True, None

    def open(self):
        """Makes the folder, and sends the change of an earlier run that had no answer."""
        for name in ("zones", "categories"):
            run.make_folder(self.sent(name), f"{self.folder} can't be made")
        cleared(self.making)
        if os.path.isdir(self.waiting):
            taken = self.noted("waiting/method"), self.noted("waiting/path"), self.body()
            say("a change of an earlier run had no answer and is sent again: %s %s" % taken[:2])
            self.taken = taken if self.send_waiting() else None

    def sent(self, name):
        """The copy of a list that the desk has accepted."""
        return f"{self.folder}/sent/{name}"

    def copy(self, name):
        """What is in this copy, or None."""
        return run.bytes_in(self.sent(name)) if os.path.isfile(self.sent(name)) else None

    def noted(self, name):
        with suppress(FileNotFoundError):
            return os.fsdecode(run.bytes_in(f"{self.folder}/{name}")).rstrip("\n")
        return ""

    def note(self, name, text):
        run.write(f"{self.folder}/{name}", os.fsencode(f"{text}\n"))

    def body(self):
        path = self.waiting + "/body"
        return run.bytes_in(path) if os.path.isfile(path) else None

    def forget_sent(self):
        for folder in (self.sent("zones"), self.sent("categories")):
            run.remove(*(f"{folder}/{name}" for name in (os.listdir(folder) if os.path.isdir(folder) else ())))
        run.remove(self.sent("received"))

    def number_next(self):
        """The number of the next change. If the desk has another last number than this client remembers, what was sent before may not
        be there any more."""
        if self.is_known:
            return int(self.noted("last")) + 1
        last, noted = self.desk.ask_last("client", ". Nothing was sent"), self.noted("last")
        noted = int(noted) if re.fullmatch("[0-9]+", noted) else last
        if last != noted:
            others = f"of which this client made {noted}: another program sends with this token"
            say(f"{self.desk.url} has {last} changes of yours, " + (others if last > noted else f"and had {noted}: {BUILT_ANEW}"))
            self.forget_sent()
        self.note("last", last)
        self.is_known = True
        return last + 1

    def change(self, method, path, name, body, expected, sent):
        """Writes a change down, and sends it. BODY is that of the file NAME, or None; SENT is where its copy goes."""
        if self.taken and self.taken[:2] == (method, path):  # it is the one that waited, and is not made twice
            taken, self.taken = self.taken, None
            if body is None or body == (taken[2] or b""):
                return
        number = self.number_next()
        cleared(self.making)
        with or_stop(f"{self.making} can't be made"):
            os.mkdir(self.making)
        if body is not None:
            run.write(self.making + "/body", body)
        notes = {"number": number, "method": method, "path": path, "name": name, "expected": expected, "sent": sent}
        for each, text in notes.items():
            self.note("making/" + each, text)
        with or_stop(f"{self.waiting} can't be made"):
            os.rename(self.making, self.waiting)
        self.send_waiting()

    def send_waiting(self):
        """Sends the change that waits until its answer comes, and does what the answer asks for. Tells whether it was made."""
        self.is_idle, is_made, desk = False, False, self.desk
        body, path = self.body(), self.noted("waiting/path")
        number = self.send_numbered(path, body)
        if desk.status == 200:
            self.note("last", number)
            is_made = self.keep_answer(number, path, body)
        elif desk.status == 409 and desk.first_line() == "STALE":
            text = f"another program sends with this token: {desk.url} has gone on past number {number}. Whether this change was made"
            refused(f"{text} is not known: {path}. Send it again if it is still wanted")
            self.forget_sent()
            run.remove(self.folder + "/last")
            self.is_known = False
        else:
            desk.explain(self.noted("waiting/name"), body, path)
        # in one step, so that no half of it waits if this run is killed
        os.rename(self.waiting, self.making)
        cleared(self.making)
        if is_made:
            run.out(desk.first_line() + "\n")
        return is_made

    def send_numbered(self, path, body):
        """Sends the change that waits, and tells with which number it was answered. If the desk has fewer changes than when it was asked,
        it has been built anew, and lacks this one: it gets another number."""
        desk = self.desk
        while True:
            number = self.noted("waiting/number")
            more = f". The change waits as number {number}, and the next run sends it first"
            desk.send(self.noted("waiting/method"), path, number, body, more)
            if desk.status != 409 or not desk.first_line().startswith("GAP LAST "):
                return number
            fewer = desk.gap()
            if fewer is None:
                raise Stop(3, f"{desk.url} does not answer as a desk does")
            say(f"{desk.url} has {fewer} changes of yours, and had more: {BUILT_ANEW}")
            self.forget_sent()
            self.note("waiting/number", fewer + 1)

    def keep_answer(self, number, path, body):
        """A 200 came. It is this change's if it says what this change should get."""
        got, expected, sent = self.desk.first_line(), self.noted("waiting/expected"), self.noted("waiting/sent")
        run.remove(self.sent(sent))
        if got != expected:
            self.is_known = False
            text = f"number {number} of {self.desk.url} was answered '{got}', and this change should get '{expected}'. The kept reply is that"
            more = "of another change, so another program sends with this token. This change was probably not made: look, and send it"
            refused(f"{text} {more} again")
            return False
        if body is not None:
            run.write(self.sent(sent), body)
        elif not path.endswith("/categories") and path != "/received":
            run.remove(self.sent("categories/" + sent[len("zones/") :]))
        return True
