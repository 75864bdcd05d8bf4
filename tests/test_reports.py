#!/usr/bin/env python3
"""`errsysmods`, `missingfix` and `chain` beside a desk: over the sample and over drawn files they print what a new desk answers.

    test_reports.py [DRAWN [SEED]]

A desk gets each publication and then the lists of a zone; the commands get the same bytes as files. Status 200 goes with the same
text, and a list or publication that the desk refuses by 422 with the same FAULT and the name of its file.
"""
import os
import random
import subprocess
import sys
import unittest

from service import PROGRAM, TOP, Desk, check, folder, main, numbers, same, write

sys.path.insert(0, os.path.join(TOP, "bench"))
from fuzz_desks import BAD_LISTS, BAD_STATEMENTS, IDS, PATTERNS, STATES, Drawing, escaped

DRAWN, SEED = numbers(40, 20261127)
CALLERS = "NAME,TOKEN\nPUBLISH,publisher-token\nALPHA,alpha-token\n"
site, place = os.path.join(TOP, "examples", "site"), folder()


class Files:
    """The files of one report: publications, and the lists of a zone, of which some may not be there."""

    def __init__(self, name, publications, zone, categories=None, received=None):
        self.name, self.publications, self.zone, self.categories, self.received = name, publications, zone, categories, received

    def write(self, room):
        """Writes them, and tells the options of their lists and the words for the publications."""
        options = {"zone": write("%s/%s.csv" % (room, self.name.lower()), self.zone)}
        for word, text in (("categories", self.categories), ("received", self.received)):
            if text is not None:
                options[word] = write("%s/%s.csv" % (room, word), text)
        return options, [write("%s/%d.txt" % (room, at), text) for at, text in enumerate(self.publications)]


def run(words, room, sent=b""):
    done = subprocess.run([PROGRAM, *words], input=sent, capture_output=True, cwd=room)
    return done.returncode, done.stdout, done.stderr


def of_desk(files, questions):
    """What a new desk answers to each question: the first body that it refuses, with its line, or the texts."""
    callers = write(place + "/callers", CALLERS)
    desk = Desk(callers)
    try:
        zone = "/zones/" + escaped(files.name)
        # as the commands read them: the lists before the publications, and the first fault is told
        lists = [("zone", zone, files.zone), ("categories", zone + "/categories", files.categories), ("received", "/received", files.received)]
        number, refused = 0, {}
        for word, path, body in lists:
            if body is None:
                continue
            status, reply = desk.ask("PUT", path, "alpha-token", number + 1, body)
            if status == 200:
                number += 1
            elif status == 422:
                refused[word] = reply
            elif word != "categories" or "zone" not in refused:
                check("a list is taken or has a fault", False, (status, reply))
        for at, body in enumerate(files.publications):
            status, reply = desk.ask("POST", "/publish", "publisher-token", at + 1 - sum(type(key) is int for key in refused), body)
            if status == 422:
                refused[at] = reply
            else:
                same("a publication is taken", status, 200)
        return refused, [desk.ask("GET", zone + question, "alpha-token") for question in questions]
    finally:
        desk.end()


def compare(case, files, sysmods):
    """Each command says what the desk says, of the text or of the first fault."""
    room = folder()
    options, names = files.write(room)
    questions = ["/errsysmods", "/missingfix"] + ["/chains/" + escaped(sysmod) for sysmod in sysmods]
    refused, answers = of_desk(files, questions)
    for question, (status, text) in zip(questions, answers):
        words, used = words_of(question, options)
        fault = next((key for key in [*used, *range(len(names))] if key in refused), None)
        got = run(words + ["--name", files.name] + sysmod_of(question) + names, room)
        if fault is None:
            same("%s: %s of a desk" % (case, question), status, 200)
            same("%s: %s" % (case, question), got, (0, text + (b"\n" if "/chains/" in question else b""), b""))
        else:
            line = refused[fault].rstrip(b"\n") + b" " + (options[fault] if fault in options else names[fault]).encode() + b"\n"
            same("%s: %s is refused" % (case, question), got, (1, b"", line))


def sysmod_of(question):
    """The SYSMOD that a chain is asked for, as a word."""
    from urllib.parse import unquote

    return [unquote(question.split("/")[2])] if "/chains/" in question else []


def words_of(question, options):
    """The command with its lists, and which of them it reads, in its order."""
    command = {"errsysmods": "errsysmods", "missingfix": "missingfix"}.get(question[1:], "chain")
    used = {"errsysmods": ["zone", "received"], "missingfix": ["zone", "categories", "received"], "chain": ["zone"]}[command]
    given = [word for word in used if word in options]
    return [command] + [part for word in given for part in ("--" + word, options[word])], given


def read(*parts):
    with open(os.path.join(site, *parts), "rb") as file:
        return file.read()


def drawn(dice):
    draw = Drawing(dice.randrange(10**9))
    publications = [draw.statements() for _ in range(dice.choice([1, 1, 2, 3, 6]))]
    rows = {sysmod: dice.choice(STATES) for sysmod in dice.sample(IDS, dice.randrange(len(IDS)))}
    zone = "SYSMOD,STATE\n" + "".join("%s,%s\n" % row for row in rows.items())
    # `missingfix` wants a list of categories, if only an empty one
    categories = "CATEGORY\n" + "".join(one + "\n" for one in dice.sample(PATTERNS, dice.randrange(5)))
    received = None
    if dice.random() < 0.8:
        received = "SYSMOD\n" + "".join(one + "\n" for one in dice.sample(IDS, dice.randrange(8)))
    files = Files("TGT1", publications, zone.encode(), categories.encode(), received and received.encode())
    while dice.random() < 0.25:
        spoil(dice, files)
    return files


def spoil(dice, files):
    """One of the files gets a fault."""
    what = dice.randrange(4)
    if what == 0:
        files.zone = dice.choice(BAD_LISTS)
    elif what == 1:
        files.categories = dice.choice(BAD_LISTS)
    elif what == 2 and files.received is not None:
        files.received = dice.choice(BAD_LISTS)
    else:
        at = dice.randrange(len(files.publications))
        files.publications[at] = dice.choice(BAD_STATEMENTS) + files.publications[at]


class Reports(unittest.TestCase):
    def test_the_sample(self):

        for client, zone in (("north", "MVSPROD"), ("south", "MVSTEST")):
            lists = [read(client, part, zone + ".csv") for part in ("zones", "categories")] + [read(client, "received.csv")]
            compare(client, Files(zone, [read("publication.txt")], *lists), ["UJ92002", "UJ92005", "UJ92003", "UJ93001", "UJ99999"])

        # the name is that of the file, up to its period, without its folder and in upper case
        for name, zone in (("tgt1.csv", "TGT1"), ("a.b.csv", "A"), ("T#3", "T#3"), ("in.a.folder/north.csv", "NORTH")):
            write(place + "/" + name, read("north", "zones", "MVSPROD.csv"))
            status, text, _ = run(["errsysmods", "--zone", name, site + "/publication.txt"], place)
            same("the zone of %s" % name, (status, text.split(b"\n")[0]), (0, b"EXCEPTION SYSMOD REPORT FOR ZONE " + zone.encode()))
        for name in ("too_long.csv", "with blank.csv", "./-.csv", "name-with-minus"):
            write(place + "/" + name, read("north", "zones", "MVSPROD.csv"))
            status, text, told = run(["errsysmods", "--zone", name, site + "/publication.txt"], place)
            check("%s names no zone" % name, (status, text) == (2, b"") and b"--name" in told, (status, text, told))

    def test_drawn_files(self):
        dice = random.Random(SEED)

        for case in range(DRAWN):
            compare("drawn %d" % case, drawn(dice), dice.sample(IDS, 3))


if __name__ == "__main__":
    main("reports")
