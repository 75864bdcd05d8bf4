"""The publisher: each publication goes to several desks, and is kept. The folder `publications` has

    000000001   the first publication, under its number, and so on: these are accepted by one desk at least
    000000001.reply   what the desk answered
    before      where the first kept publication is not the first at all: how many came before
    next        the publication that is being sent; next.sent is there once it was
    symptoms.csv    what all kept publications say of symptoms and fixes
    publication.json    the number of the last publication that is in it, and the newest DATE of a hold
"""
import json
import os
import re
from contextlib import contextmanager

from . import ages, run, symptoms
from .desk import Unanswered
from .publication import take_symptoms
from .run import Stop, refused, say


@contextmanager
def without_answer_goes_on():
    """A desk that gives no answer is told, and the next one is spoken to."""
    try:
        yield
    except Unanswered as end:
        say(end.text)
        run.worst = 3


class Publisher:
    """Sends publications to desks: a method for each command."""

    def __init__(self, desks):
        self.kept, self.desks = desks[0].settings.home + "/publications", desks
        self.next, self.was_sent = self.kept + "/next", self.kept + "/next.sent"
        run.make_folder(self.kept)
        if not os.path.isfile(self.was_sent):
            run.remove(self.next)
        before, numbers = self.kept + "/before", [int(name) for name in os.listdir(self.kept) if re.fullmatch("[0-9]{9}", name)]
        if not numbers and os.path.isfile(before):
            numbers = [int(run.bytes_in(before))]
        self.top = max(numbers, default=None)  # the number of the last kept publication; None if nothing is known

    def name_of(self, number):
        return f"{self.kept}/{number:09}"

    def find_beginning(self, desk, last):
        """If nothing is kept yet, the first desk says how many publications came before."""
        if self.top is None:
            self.top = last
            run.write(self.kept + "/before", b"%d\n" % last)
            if last:
                text = f"{desk.url} had {last} publications before this client kept any: no new desk can be built from the kept ones"
                say(text)

    def is_reply(self, desk, number):
        """All desks answer a publication alike."""
        path = self.name_of(number) + ".reply"
        if not os.path.isfile(path):
            run.write(path, desk.reply)
        elif (kept := run.bytes_in(path)) != desk.reply:
            wanted = os.fsdecode(kept).rstrip("\n")
            text = f"{desk.url} answered publication {number} with '{desk.first_line()}', and it should be '{wanted}': something else"
            refused(text + " was published there under this number")
            return False
        return True

    def is_ours(self, desk, last):
        """The desk's last publication is the one that is kept under its number, as far as its kept reply tells. The desk gives that reply
        again for the last number, whatever comes with it."""
        if not os.path.isfile(self.name_of(last) + ".reply"):
            return True
        desk.send("POST", "/publish", last, b"")
        return self.is_reply(desk, last)

    def tell(self, desk, number):
        run.out(f"{desk.url}: publication {number}: {desk.first_line()}\n")

    def bring_up(self, desk, last):
        """Sends a desk the kept publications that it lacks. Tells whether it has all of them."""
        for number in range(last + 1, self.top + 1):
            path = self.name_of(number)
            if not os.path.isfile(path):
                refused(f"{desk.url} lacks publication {number}, and {path} is not there")
                return False
            body = run.bytes_in(path)
            desk.send("POST", "/publish", number, body)
            if desk.status != 200:
                desk.explain(f"publication {number}", body)
                return False
            if not self.is_reply(desk, number):
                return False
            self.tell(desk, number)
        return True

    def send_next(self, name, is_fresh):
        """Sends the publication that waits to each desk. Tells whether one has it now."""
        waits, body = True, run.bytes_in(self.next)
        for desk in self.desks:
            with without_answer_goes_on():
                last = desk.ask_last("publisher")
                self.find_beginning(desk, last)
                number = self.top + waits
                if last > number or last == number and waits and is_fresh:
                    text = f"{desk.url} has {last} publications, and only {self.top} are kept here: someone else publishes"
                    refused(text + ". Nothing was sent to it")
                    continue
                if not self.is_ours(desk, last) or last < self.top and not self.bring_up(desk, last) or not waits:
                    continue
                run.write(self.was_sent, b"")
                is_fresh, before = False, is_fresh  # without an answer it may be there
                desk.send("POST", "/publish", number, body)
                is_fresh = before
                if desk.status == 200:
                    os.replace(self.next, self.name_of(number))
                    run.remove(self.was_sent)
                    self.top, waits = number, False
                    if self.is_reply(desk, number):
                        self.tell(desk, number)
                        compare_counts(desk, body)
                elif desk.status in (403, 413, 422):
                    desk.explain(name, body)
                    run.remove(self.next, self.was_sent)
                    return False
                else:
                    desk.explain(name)
        return not waits

    def publish(self, name):
        try:
            self.send(name)
        finally:
            self.keep_symptoms()

    def keep_symptoms(self):
        """Keeps the symptoms of what is published. They also stand beside the page that the settings name: a front serves them there."""
        if not self.top:
            return
        path, noted = f"{self.kept}/{symptoms.NAME}", f"{self.kept}/{ages.NAME}"
        is_there = os.path.isfile(noted) and os.path.isfile(path)
        state = json.loads(run.bytes_in(noted)) if is_there else {"newest": "", "number": 0}
        book = symptoms.Symptoms(run.bytes_in(path) if is_there else b"")
        if state["number"] != self.top:
            for number in range(state["number"] + 1, self.top + 1):
                if os.path.isfile(self.name_of(number)):
                    state["newest"] = max(state["newest"], take_symptoms(book, run.bytes_in(self.name_of(number))))
            state["number"] = self.top
            run.write(path, book.data())
            run.write(noted, json.dumps(state).encode() + b"\n")
        self.put_beside_page(symptoms.NAME, book.data())
        self.put_beside_page(ages.NAME, json.dumps(state).encode() + b"\n")

    def put_beside_page(self, name, data):
        """Writes a file that all may read into the folder of the page, where the settings name one."""
        page = self.desks[0].settings.page
        if page and not os.path.isdir(page):
            refused(f"the folder of the page, '{page}', is not there: {name} can't stand beside it")
        elif page:
            run.write(f"{page}/{name}", data, 0o644)

    def send(self, name):
        body, waited = run.bytes_of(name), "the publication of an earlier run"
        if os.path.isfile(self.next):
            is_same = body == run.bytes_in(self.next)
            say(f"{waited} had no answer and is sent again")
            if not self.send_next(waited, False) and os.path.isfile(self.next):
                raise Stop(3, f"'{name}' was not sent: {waited} still waits")
            if is_same:
                return
        # The last publication sent once more would change nothing, so it gets no other number.
        last = self.name_of(self.top) if self.top is not None else ""
        if os.path.isfile(last) and body == run.bytes_in(last):
            say(f"'{name}' is publication {self.top} already")
            return self.bring_all_up()
        run.remove(self.was_sent)
        run.write(self.next, body)
        if not self.send_next(name, True):
            if os.path.isfile(self.was_sent):
                raise Stop(3, f"whether '{name}' was published is not known. It waits, and the next publish sends it first")
            run.remove(self.next)

    def catch_up(self):
        if self.top is None:
            raise Stop(2, f"no publication is kept in {self.kept}")
        self.bring_all_up()
        self.keep_symptoms()

    def bring_all_up(self):
        for desk in self.desks:
            with without_answer_goes_on():
                last = desk.ask_last("publisher")
                if last > self.top:
                    refused(f"{desk.url} has {last} publications, and only {self.top} are kept here")
                elif self.is_ours(desk, last):
                    if last == self.top:
                        run.out(f"{desk.url}: has all {self.top} publications\n")
                    self.bring_up(desk, last)


def compare_counts(desk, body):
    """A statement that the desk passed over makes no fault. So what the file seems to have is compared with the counts."""
    seen = len(re.findall(rb"\+\+[^A-Za-z+\n]*HOLD", body, re.I))
    counted = re.search(" HOLDS ([0-9]*) ", desk.first_line())
    if not counted or int(counted[1]) != seen:
        text = f"the file has ++HOLD {seen} times, and the desk counted {counted[1] if counted else ''}: a statement begins in column 1"
        say(text + ", and ends before column 73")
