"""Rows of a store: what the program does with a file, what callers are told of it, and which rows sqlite3 finds in its tables.

    CALLER METHOD PATH [NUMBER]    a request to `bureau serve` over the store, and `numbered`, as `tests/row_desk.py` says
    init                           `bureau init` makes the store; the lines before it are the callers file
    made                           sqlite3 makes the store; the lines before it are its statements
    sql [QUESTION]                 sqlite3 runs the statements before it, and answers the question: a row a line, its values between |,
                                   the end of a line in one as \\n
    serve, migrate, check          `bureau serve`, `migrate` or `check`, and what it says. One that serves is ended

A case that begins with neither `init` nor `made` has a store with the callers CALLERS. What a command prints and tells are its lines.
"""
import os
import sqlite3
import subprocess
import tempfile

import row_desk
from row_files import Unreadable, lines_of_run


class Store:
    """A store in a folder, and the desk that serves it."""

    def __init__(self, program, room):
        self.program, self.room = program, room
        self.path = os.path.join(room, "store")
        self.desk = None

    def end(self):
        """No desk serves the store."""
        if self.desk:
            self.desk.__exit__()
        self.desk = None

    def run(self, *words):
        """The lines that a run of the program prints, and then those that it tells."""
        self.end()
        return lines_of_run(subprocess.run([self.program, *words], cwd=self.room, capture_output=True))

    def make(self):
        """Makes a store with the callers CALLERS."""
        row_desk.write(self.room, "callers", row_desk.CALLERS_FILE)
        row_desk.new_store(self.program, self.room)

    def begin(self):
        """A desk serves the store."""
        self.desk = self.desk or row_desk.Served(self.program, self.room)

    def init(self, row):
        row_desk.write(self.room, "callers", "".join(f"{line}\n" for line in row.given).encode())
        return self.run("init", "store", "callers")

    def made(self, row):
        return self.sql(row)

    def sql(self, row):
        self.end()
        connection = sqlite3.connect(self.path)
        try:
            connection.executescript("\n".join(row.given))
            found = connection.execute(row.rest).fetchall() if row.rest else []
        except sqlite3.Error as why:
            raise Unreadable(f"{row.place}: {why}") from None
        finally:
            connection.close()
        return ["|".join(text_of(value) for value in values) for values in found]

    def serve(self, _):
        self.end()
        self.begin()
        line = self.desk.line
        self.end()
        return ["LISTENING"] if line.startswith("LISTENING ") else [line]

    def migrate(self, _):
        return self.run("migrate", "store")

    def check(self, _):
        return self.run("check", "store")

    def reply(self, row):
        self.begin()
        return self.desk.reply(row_desk.request(row)) if self.desk.port else [self.desk.line]

    def answer(self, row):
        if row.word in ALONE and (row.rest or row.given):
            raise Unreadable(f"{row.place}: {row.word} takes nothing")
        if row.word in WORDS:
            return getattr(self, row.word)(row)
        if row.word.islower() and ":" not in row.word:
            raise Unreadable(f"{row.place}: an unknown word: {row.word}")
        return self.reply(row)


WORDS = {"init", "made", "sql", "serve", "migrate", "check"}
ALONE = {"serve", "migrate", "check"}


def text_of(value):
    text = value.decode() if isinstance(value, bytes) else "NULL" if value is None else str(value)
    return text.replace("\n", "\\n")


def answers(program, case):
    """Of each row of a case what the program or sqlite3 says, by a desk that goes on and by one for each request."""
    for way in ("", "opened again"):
        with tempfile.TemporaryDirectory() as room:
            store = Store(program, room)
            try:
                if case.rows[0].word not in ("init", "made"):
                    store.make()
                for row in (one for row in case.rows for one in row_desk.each_row(row)):
                    yield row, store.answer(row), way
                    if way:
                        store.end()
            finally:
                store.end()
