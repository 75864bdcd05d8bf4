#!/usr/bin/env python3
"""bureau-client against a desk: every command, refusals, changes that wait, numbers taken by others,
desks built anew."""
import http.server
import os
import re
import shutil
import signal
import subprocess
import threading
import unittest

from service import CLIENT, PROGRAM, SAMPLE, TOP, Client, Desk, LosesReplies, check, exchange, folder, main, same, write
from stand_in import StandIn, until

PYTHON = os.environ.get("CLIENT_PYTHON")  # what runs the client, such as python3.9
NORTH, SOUTH, PUBLISHER = "north-token", "south-token", "publisher-token"
CALLERS = os.path.join(SAMPLE, "callers.csv")
SITE = os.path.join(TOP, "examples", "site")


def client(desk, token, **settings):
    return Client(desk.url, token, PYTHON, **settings)


def replies():
    """The bodies of the sample's replies, as they are kept beside it."""
    with open(os.path.join(SAMPLE, "replies.txt"), "rb") as kept:
        rest = kept.read()
    while rest:
        head, rest = rest.split(b"\r\n\r\n", 1)
        length = int(re.search(rb"content-length: (\d+)", head)[1])
        yield rest[:length].decode()
        rest = rest[length:]


def command_lines():
    """The command lines of all processes of this machine."""
    for name in os.listdir("/proc"):
        try:
            with open("/proc/%s/cmdline" % name, "rb") as file:
                yield file.read()
        except OSError:
            pass


class Commands(unittest.TestCase):
    def test_sample(self):
        desk = Desk(CALLERS)
        wanted = list(replies())
        publisher, north, south = client(desk, PUBLISHER), client(desk, NORTH), client(desk, SOUTH)
        status, out, err = publisher.run("publish", os.path.join(SITE, "publication.txt"))
        same("publish", (status, out, err), (0, "%s: publication 1: %s" % (desk.url, wanted[0]), ""))
        same("published", publisher.run("published"), (0, wanted[1], ""))
        same(
            "sync, the first time", north.run("sync", SITE + "/north"), (0, wanted[2] + wanted[4] + wanted[3], "")
        )
        same(
            "sync, nothing new",
            (north.run("sync", SITE + "/north"), desk.last(NORTH)),
            ((0, "", "bureau-client: nothing to do: %s has accepted each list of %s\n" % (desk.url, SITE + "/north")), 3),
        )
        same("sync --all", (north.run("sync", "--all", SITE + "/north")[0], desk.last(NORTH)), (0, 6))
        same("errsysmods", north.run("errsysmods", "MVSPROD"), (0, wanted[5], ""))
        same("missingfix", north.run("missingfix", "MVSPROD"), (0, wanted[6], ""))
        same("chain, HELD", north.run("chain", "MVSPROD", "UJ92002"), (0, wanted[7] + "\n", ""))
        same("chain, GOOD", north.run("chain", "MVSPROD", "UJ92005"), (0, wanted[8] + "\n", ""))
        same(
            "errsysmods --csv",
            north.run("errsysmods", "--csv", "MVSPROD"),
            (
                0,
                (
                    "FMID,SYSMOD,REASON,RESOLVER,STATUS,RECEIVED,CLASS\n"
                    "HBB77E0,UJ92001,AJ64001,UJ92002,HELD,NO,PE\nHBB77E0,UJ92001,AJ64001,UJ92005,GOOD,YES,PE\n"
                ),
                "",
            ),
        )
        same(
            "missingfix --csv",
            north.run("missingfix", "--csv", "MVSPROD"),
            (
                0,
                (
                    "CATEGORY,FMID,REASON,RESOLVER,STATUS,RECEIVED\nIBM.Function.HealthChecker,HBB77E0,AJ64005,UJ92003,GOOD,NO\n"
                    "IBM.TargetSystem-RequiredService.z/OS.V3R1,HBB77E0,AJ64005,UJ92003,GOOD,NO\n"
                ),
                "",
            ),
        )
        same("zones --csv", north.run("zones", "--csv"), (0, "ZONE,SYSMODS\nMVSPROD,3\n", ""))
        south.run("sync", SITE + "/south")
        same("zones", south.run("zones"), (0, wanted[13], ""))
        same("one client's zone is not another's", south.run("errsysmods", "MVSPROD")[0], 1)
        same("last", (south.run("last")[1], publisher.run("last-publication")[1]), ("3\n", "1\n"))
        same("drop-zone", south.run("drop-zone", "MVSTEST"), (0, "ZONE MVSTEST DROPPED\n", ""))
        same(
            "sync after drop-zone sends zone and categories again",
            (south.run("sync", SITE + "/south")[1], desk.last(SOUTH)),
            (wanted[10] + wanted[12], 6),
        )
        desk.end()

    def test_rows_without_resolver(self):
        """Absent fields, names with the three signs, and a category with marks, as CSV."""
        desk, site = Desk(CALLERS), folder()
        client(desk, PUBLISHER).run(
            "publish",
            write(
                site + "/p",
                (
                    "++PTF(@A$#001).\n++VER(Z038) FMID(HBB77E0).\n++HOLD(UJ1) ERROR REASON(@A$#001).\n++HOLD(UJ1) ERROR REASON(AJ2).\n"
                    '++HOLD(UJ1) FIXCAT REASON(AJ3) CATEGORY(=IBM."a"&<b>).\n'
                ),
            ),
        )
        north = client(desk, NORTH)
        same(
            "a zone with the three signs",
            north.run("zone", "Z@#$", write(site + "/z", "SYSMOD,STATE\nHBB77E0,APPLIED\nUJ1,APPLIED\n")),
            (0, "ZONE Z@#$ ROWS 2\n", ""),
        )
        same(
            "its categories",
            north.run("categories", "Z@#$", write(site + "/c", "CATEGORY\n*\n")),
            (0, "ZONE Z@#$ PATTERNS 1\n", ""),
        )
        same(
            "no resolver",
            north.run("errsysmods", "--csv", "Z@#$")[1],
            "FMID,SYSMOD,REASON,RESOLVER,STATUS,RECEIVED,CLASS\n,UJ1,'@A$#001,'@A$#001,GOOD,NO,\n,UJ1,AJ2,,,,\n",
        )
        same(
            "a category with marks",
            north.run("missingfix", "--csv", "Z@#$")[1],
            'CATEGORY,FMID,REASON,RESOLVER,STATUS,RECEIVED\n"\'=IBM.""a""&<b>",UJ1,AJ3,,,\n',
        )
        same(
            "a chain of such a SYSMOD",
            north.run("chain", "Z@#$", "@A$#001")[1],
            '{"plan":[{"id":"@A$#001","system":[],"user":[]}],"status":"GOOD","sysmod":"@A$#001","zone":"Z@#$"}\n',
        )
        desk.end()

    def test_refusals(self):
        desk, site = Desk(CALLERS), folder()
        north, publisher = client(desk, NORTH), client(desk, PUBLISHER)
        bad = write(site + "/bad.csv", "SYSMOD,STATE\n\nHBB77E0,APPLIED\nUJ92001,RECEIVED\n")
        status, out, err = north.run("zone", "MVSPROD", bad)
        check(
            "a fault names its line",
            (status, out) == (1, "") and "FAULT 34 2: the STATE" in err and "line 4: UJ92001,RECEIVED" in err,
            err,
        )
        status, out, err = publisher.run(
            "publish", write(site + "/bad.txt", "++PTF(UJ1).\n++VER(Z038).\n++HOLD(UJ1) ERROR.\n")
        )
        check(
            "a statement too",
            (status, out) == (1, "") and "FAULT 13 3" in err and "line 3: ++HOLD(UJ1) ERROR." in err,
            err,
        )
        same(
            "a refused publication is not kept",
            (publisher.run("catch-up", desk.url)[0], desk.last(PUBLISHER)),
            (0, 0),
        )
        same(
            "a refused change uses no number",
            (desk.last(NORTH), os.listdir(north.home + "/desks")[0] != ""),
            (0, True),
        )
        status, _, err = publisher.run(
            "publish", write(site + "/lost.txt", "++HOLD(UJ1) ERROR REASON(A). ++HOLD(UJ2) ERROR REASON(A).\n")
        )
        check("a lost statement is noticed", status == 0 and "++HOLD 2 times, and the desk counted 1" in err, err)
        status, _, err = north.run("categories", "Z#1", write(site + "/c", "CATEGORY\n*\n"))
        check(
            "categories of no zone name zone and file",
            status == 1 and "no zone Z#1 of yours" in err and site + "/c" in err and "bureau-client zone" in err,
            (status, err),
        )
        status, _, err = publisher.run("publish", write(site + "/small.txt", "++hold(uj1) ERROR REASON(A).\n"))
        check("an id in lower case is told", status == 1 and "FAULT 2 1" in err and "upper case" in err, err)
        same("a client can't publish", north.run("publish", bad)[0], 1)
        same("a zone for categories", north.run("zone", "Z#2", write(site + "/z2", "SYSMOD,STATE\nHBB77E0,APPLIED\n"))[0], 0)
        wanted = "CATEGORY\nIBM.Function.HealthChecker\nIBM.Function.HealthCheker\nIBM.Device*\n"
        words = ("--published", os.path.join(SITE, "publication.txt"))
        status, out, err = north.run("categories", *words, "Z#2", write(site + "/folder/categories/Z#2.csv", wanted))
        same("categories are sent as they are", (status, out), (0, "ZONE Z#2 PATTERNS 3\n"))
        named = ["IBM.Function.HealthCheker", "IBM.Device*"]
        same("and what matches nothing is named", [line.split(": ")[2].split(" matches")[0] for line in err.splitlines()], named)
        write(site + "/folder/zones/Z#2.csv", "SYSMOD,STATE\nHBB77E0,APPLIED\n")
        err = north.run("sync", *words, site + "/folder")[2]
        same("of a folder too", [name for name in named if f"Z#2.csv: {name} matches no category" in err], named)
        same("which is dropped again", north.run("drop-zone", "Z#2")[0], 0)
        same("the publisher has no zones", publisher.run("zones")[0], 1)
        same("an unknown token", client(desk, "nobody-token").run("zones")[0], 1)
        same("no desk", north.run("zones", BUREAU_URL="http://127.0.0.1:9")[0], 3)
        for words in (
            (),
            ("zone",),
            ("zone", "mvs", bad),
            ("zone", "MVSPRODS", bad),
            ("zones", "--xml"),
            ("published", "--csv"),
            ("received", site + "/none"),
            ("chain", "A"),
            ("sync", site + "/none"),
            ("hold",),
        ):
            same("usage: %s" % (words,), north.run(*words)[0], 2)
        same("no token", north.run("zones", BUREAU_TOKEN="")[0], 2)
        same("no URL", north.run("zones", BUREAU_URL="")[0], 2)
        same(
            "a token with a quotation mark",
            north.run("zones", BUREAU_TOKEN='a"\nurl = "http://127.0.0.1:9')[0],
            2,
        )
        many = folder()
        for name, text in (
            ("A", "SYSMOD,STATE\nUJ1,APPLIED\n"),
            ("B", "SYSMOD,STATE\nUJ1,LOST\n"),
            ("C", "SYSMOD,STATE\n"),
            ("mvs", "SYSMOD,STATE\n"),
        ):
            write("%s/zones/%s.csv" % (many, name), text)
        write(many + "/categories/C.csv", "CATEGORY\n" + "I" * 65 + "\n")
        write(many + "/received.csv", "\ufeffSYSMOD\r\n\r\n UJ1 \r\nUJ1\r\n\"UJ2\"")
        status, out, err = north.run("sync", many)
        same(
            "sync goes on after a refused list",
            (status, out),
            (1, "ZONE A ROWS 1\nZONE C ROWS 0\nRECEIVED ROWS 2\n"),
        )
        check(
            "and names each",
            "B.csv, line 2: UJ1,LOST" in err
            and "C.csv, line 2: III" in err
            and "'mvs' is no name of a zone" in err,
            err,
        )
        os.remove(many + "/zones/A.csv")
        status, out, err = north.run("sync", many)
        check(
            "a file that is gone drops nothing", status == 1 and out == "" and "also has the zone A" in err, err
        )
        same(
            "another code",
            north.run("received", write(site + "/code", "SYSMOD\nUJ1\n"), BUREAU_CODE="ISO-8859-1"),
            (0, "RECEIVED ROWS 1\n", ""),
        )
        config = write(north.home + "/config", "URL=%s\nTOKEN=%s\n" % (desk.url, NORTH))
        os.chmod(config, 0o644)
        same("a file that others may read", north.run("zones", BUREAU_TOKEN="", BUREAU_URL="")[0], 2)
        os.chmod(config, 0o600)
        same("settings from the file", north.run("zones", BUREAU_TOKEN="", BUREAU_URL="")[0], 0)
        desk.end()

    def test_before_any_desk(self):
        """The command line and the settings, and what a FAULT means: no desk is there."""
        north = Client("http://127.0.0.1:9", NORTH, PYTHON)
        status, out, _ = north.run("fault", "13")
        check("the meaning of a FAULT", status == 0 and "REASON" in out, out)
        same("of a store too", "version" in north.run("fault", "45")[1], True)
        same("no number", north.run("fault")[0], 2)
        for number in ("999", "0", "013", "x"):
            status, out, err = north.run("fault", number)
            check("no FAULT " + number, (status, out) == (2, "") and "no FAULT " + number in err, (status, out, err))
        place = folder()
        good, bad = (write(place + name, "++HOLD(UJ1) ERROR REASON(A).\n" + more) for name, more in (("/good", ""), ("/bad", "++HOLD(UJ1) ERROR.\n")))
        status, out, err = north.run("holds", good, BUREAU_PROGRAM=PROGRAM)
        check("a hold book", (status, err) == (0, "") and out.endswith("ROWS 1\n"), (status, out, err))
        status, out, err = north.run("holds", bad, BUREAU_PROGRAM=PROGRAM)
        check("a FAULT with its meaning and its line", (status, out) == (1, "") and "no REASON" in err and "bad, line 2: ++HOLD(UJ1) ERROR." in err, err)
        records = write(place + "/records", "".join("%-80s" % line for line in ("++HOLD(UJ1) ERROR REASON(A).", "++HOLD(UJ2) ERROR.")))
        status, out, err = north.run("holds", records, BUREAU_PROGRAM=PROGRAM)
        check("of records too", (status, out) == (1, "") and "FAULT 13 2" in err and "records, line 2: ++HOLD(UJ2) ERROR." in err, err)
        lost = write(place + "/lost", "++HOLD(UJ1) ERROR REASON(A). ++HOLD(UJ2) ERROR REASON(A).\n")
        status, out, err = north.run("holds", lost, BUREAU_PROGRAM=PROGRAM)
        lost = "line 1: left out, since its ++ is not in column 1: ++HOLD(UJ2)"
        check("what is lost is named", status == 1 and out.endswith("ROWS 1\n") and lost in err, (status, out, err))
        status, out, err = north.run("holds", CALLERS, BUREAU_PROGRAM=PROGRAM)
        check("a file without a statement has no hold book", (status, out) == (1, "") and "has no statement" in err, (status, out, err))
        for words in (("errsysmods", "A", "--csv"), ("errsysmods", "--csv", "A"), ("errsysmods", "--", "A")):
            same("an option stands anywhere: %s" % (words,), north.run(*words)[0], 3)
        for words in (("errsysmods", "A", "--xml"), ("errsysmods", "--", "A", "--csv"), ("publish", "/dev/null", "--to")):
            same("no such words: %s" % (words,), north.run(*words)[0], 2)
        status, _, err = north.run("zones", BUREAU_TOKEN=NORTH + "\r")
        check("a CR in a setting", status == 2 and "CR" in err, err)
        config = write(north.home + "/config", "URL=http://127.0.0.1:9\r\nTOKEN=%s\r\n\r\n" % NORTH)
        os.chmod(config, 0o600)
        status, _, err = north.run("zones", BUREAU_TOKEN="", BUREAU_URL="")
        check("a settings file with CR LF is read", status == 3 and "http://127.0.0.1:9 " in err, (status, err))

    def test_pages(self):
        """The help, the page and the man page have the same commands and options."""

        def read(path):
            with open(os.path.join(TOP, path)) as file:
                return file.read()

        text = Client("http://127.0.0.1:9", NORTH, PYTHON).run("help")[1]
        table = read("docs/CLIENT.md").split("## Commands")[1].split("Options may stand")[0]
        man = read("package/man/bureau-client.1").replace("\\-", "-")
        named = set(re.findall(r"^  bureau-client ([a-z-]+)", text, re.M)) | {"help"}
        cells = "".join(line.split("|")[1] for line in table.splitlines() if line.startswith("| `"))
        same("the page's commands", set(re.findall("`([a-z][a-z-]*)", cells)), named)
        same("the man page's", set(re.findall(r"(?:bureau-client |\| \\fB)([a-z-]+)", man.split(".SH DESCRIPTION")[0].split(".SH SYNOPSIS")[1])), named)
        options = set(re.findall("--[a-z]+", text))
        same("the page's options", set(re.findall("--[a-z]+", cells)), options)
        same("the man page's options", set(re.findall("--[a-z]+", man)), options)
        check("there are some", len(named) > 15 and len(options) > 5, (named, options))

    def test_hidden_token(self):
        """No command line has the token, while the client waits for an answer."""
        desk = StandIn()
        desk.reply = b"ZONE     SYSMODS\nROWS 0\n"
        desk.may_answer.clear()
        north = Client("http://127.0.0.1:%d" % desk.port, "a-hidden-token", PYTHON)
        run = subprocess.Popen([*north.python, CLIENT, "zones"], env=north.environment, stdout=subprocess.DEVNULL)
        check("it has sent the token", until(lambda: desk.requests) and ("bureau-token", "a-hidden-token") in desk.requests[0][1], desk.requests)
        lines = list(command_lines())
        check("the run is one of them", any(CLIENT.encode() in line for line in lines), lines)
        check("the token is on no command line", not any(b"a-hidden-token" in line for line in lines), lines)
        desk.may_answer.set()
        same("and it ends well", run.wait(), 0)

    def test_waiting(self):
        """A desk is away, and comes back; a change waits, and is sent first."""
        desk, site = Desk(CALLERS), folder()
        north, port = client(desk, NORTH), desk.port
        one = write(site + "/one", "SYSMOD,STATE\nHBB77E0,APPLIED\n")
        two = write(site + "/two", "SYSMOD,STATE\nHBB77E0,APPLIED\nUJ1,APPLIED\nUJ1,APPLIED\n")
        same("before", north.run("zone", "A", one)[0], 0)
        desk.end()
        same("the desk is away", north.run("zone", "B", one)[0], 3)
        state = north.home + "/desks/" + os.listdir(north.home + "/desks")[0]
        check("nothing waits that has no number", not os.path.exists(state + "/waiting"))
        desk = Desk(CALLERS, port)
        status, out, err = north.run("zone", "A", two)
        check("a desk built anew is noticed", status == 0 and "built anew" in err, err)
        same("and is numbered from 1", (out, desk.last(NORTH)), ("ZONE A ROWS 2\n", 1))

        def wait(number, path, file, expected):
            for name, text in (
                ("number", number),
                ("method", "PUT"),
                ("path", path),
                ("name", file),
                ("expected", expected),
                ("sent", "zones/B"),
            ):
                write(state + "/waiting/" + name, "%s\n" % text)
            shutil.copy(file, state + "/waiting/body")

        wait(2, "/zones/B", one, "ZONE B ROWS 1")
        status, out, err = north.run("zone", "A", one)
        check("a change that waits goes first", status == 0 and "is sent again" in err, err)
        same("in its place", (out, desk.last(NORTH)), ("ZONE B ROWS 1\nZONE A ROWS 1\n", 3))
        wait(3, "/zones/A", one, "ZONE A ROWS 1")
        same(
            "one that was made is not made twice",
            (north.run("zone", "C", one)[1], desk.last(NORTH)),
            ("ZONE A ROWS 1\nZONE C ROWS 1\n", 4),
        )
        wait(5, "/zones/C", one, "ZONE C ROWS 1")
        same(
            "one that is asked for again is made once",
            (north.run("zone", "C", one)[1], desk.last(NORTH)),
            ("ZONE C ROWS 1\n", 5),
        )
        wait(5, "/zones/B", two, "ZONE B ROWS 2")
        status, out, err = north.run("drop-zone", "C")
        check("a kept reply of another's change is noticed", status == 1 and "another program" in err, err)
        wait(4, "/zones/B", two, "ZONE B ROWS 2")
        status, out, err = north.run("zone", "B", two)
        check(
            "a number below the last is noticed",
            status == 1 and "gone on past number 4" in err and out == "ZONE B ROWS 2\n",
            err,
        )
        wait(9, "/zones/B", one, "ZONE B ROWS 1")
        status, out, err = north.run("zones")
        same("a question sends nothing that waits", (status, os.path.exists(state + "/waiting")), (0, True))
        status, out, err = north.run("zone", "A", two)
        check(
            "a desk that has fewer changes gets it under its next number",
            status == 0 and "ZONE B ROWS 1\nZONE A ROWS 2\n" == out,
            err,
        )
        exchange(desk.url, "PUT", "/zones/A", NORTH, desk.last(NORTH) + 1, b"SYSMOD,STATE\n")
        status, _, err = north.run("received", write(site + "/r", "SYSMOD\n"))
        check("another program is noticed", status == 0 and "another program sends with this token" in err, err)
        desk.end()

    def test_lost_replies(self):
        """The desk makes a change, and each reply is lost: the change waits, keeps its number, and is made once."""
        desk, site = Desk(CALLERS), folder()
        north = Client(LosesReplies(desk, site).url, NORTH, PYTHON)
        one, two = (
            write("%s/%d.csv" % (site, n), "SYSMOD,STATE\n" + "UJ1,APPLIED\nUJ2,APPLIED\n"[: 12 * n])
            for n in (1, 2)
        )
        same("before", north.run("zone", "A", one)[0], 0)
        write(site + "/lost", "")
        status, out, err = north.run("zone", "B", one)
        check("no answer", (status, out) == (3, "") and "waits as number 2" in err, err)
        same("the desk has made it, once", desk.last(NORTH), 2)
        same("no answer again", (north.run("zone", "C", one)[0], desk.last(NORTH)), (3, 2))
        os.remove(site + "/lost")
        same(
            "the change that waits goes first",
            north.run("zone", "B", two)[:2],
            (0, "ZONE B ROWS 1\nZONE B ROWS 2\n"),
        )
        same("each has one number", desk.last(NORTH), 3)
        desk.end()

    def test_together(self):
        """Eight runs at once: each change is made, one after the other."""
        desk, site = Desk(CALLERS), folder()
        north = client(desk, NORTH, BUREAU_LOCK="300")
        write(north.home + "/lock", "%s 999999999\n" % os.uname().nodename)
        lists = [write("%s/%d" % (site, i), "SYSMOD,STATE\nUJ%d,APPLIED\n" % i) for i in range(8)]
        runs = [
            subprocess.Popen(
                [*north.python, CLIENT, "zone", "Z%d" % i, lists[i]],
                env=north.environment,
                stdout=subprocess.PIPE,
                stderr=subprocess.PIPE,
                text=True,
            )
            for i in range(8)
        ]
        ends = [(run.communicate(), run.returncode) for run in runs]
        same("all are made", sorted(end[0][0] for end in ends), sorted("ZONE Z%d ROWS 1\n" % i for i in range(8)))
        same("with a number each", (desk.last(NORTH), [end for end in ends if end[1]]), (8, []))
        check("no lock is left", not os.path.exists(north.home + "/lock"))
        desk.end()

    def test_onlooker(self):
        """Whoever looks on is told at once that a desk gives no answer; a job at night is told once, at the end."""
        north = Client("http://127.0.0.1:9", NORTH, PYTHON)
        terminal, side = os.openpty()
        run = subprocess.run([*north.python, CLIENT, "zones"], env=north.environment, stderr=side)
        os.close(side)
        told = b""
        try:
            while piece := os.read(terminal, 65536):
                told += piece
        except OSError:  # a terminal that nobody has open any more
            pass
        os.close(terminal)
        told = told.decode()
        check(
            "told at once",
            run.returncode == 3 and told.count("no answer from") == 2 and "again, 2 times in all" in told,
            told,
        )
        same("told once", north.run("zones")[2].count("no answer from"), 1)

    def test_reader_that_goes(self):
        """Whoever reads a long answer goes, as `head -1` does: a question ends there without a word, and a change says what was not told."""
        desk, row = StandIn(), "-        UJ00001  AJ00001  UJ00002  GOOD   NO       PE\n"
        report = "EXCEPTION SYSMOD REPORT FOR ZONE A\nFMID     SYSMOD   REASON   RESOLVER STATUS RECEIVED CLASS\n" + row * 40000 + "ROWS 40000\n"
        desk.reply = lambda first: report.encode() if "errsysmods" in first else (409, b"GAP LAST 0\n") if "/zones/A " in first else b"ZONE B ROWS 0\n"
        north = Client("http://127.0.0.1:%d" % desk.port, NORTH, PYTHON)

        def closed(*words):
            run = subprocess.Popen([*north.python, CLIENT, *words], env=north.environment, stdout=subprocess.PIPE, stderr=subprocess.PIPE)
            first = b""
            if words[0] != "zone":
                first = run.stdout.readline()
            run.stdout.close()
            return run.wait(), first.decode(), run.stderr.read().decode()

        same("a question", closed("errsysmods", "A"), (0, report.split("\n")[0] + "\n", ""))
        same("one that ends with 4", closed("errsysmods", "--alert", "PE", "A")[::2], (4, ""))
        status, _, err = closed("zone", "B", write(folder() + "/zone", "SYSMOD,STATE\n"))
        check("a change", status == 3 and "can't be written" in err, (status, err))

    def test_told_to_end(self):
        """A run that is told to end does so with 3, and leaves no lock. One that nohup began goes on."""
        desk = StandIn()
        desk.reply = lambda first: (409, b"GAP LAST 0\n") if "/zones/A " in first else b"ZONE B ROWS 0\n"
        north, path = Client("http://127.0.0.1:%d" % desk.port, NORTH, PYTHON), write(folder() + "/zone", "SYSMOD,STATE\n")
        for name, before, status in (("SIGTERM", "SIG_DFL", 3), ("SIGHUP", "SIG_DFL", 3), ("SIGHUP", "SIG_IGN", 0)):
            desk.requests.clear()
            desk.may_answer.clear()

            def begin(name=name, before=before):
                signal.signal(getattr(signal, name), getattr(signal, before))

            run = subprocess.Popen([*north.python, CLIENT, "zone", "B", path], env=north.environment, preexec_fn=begin, stdout=subprocess.DEVNULL)
            check("it asks", until(lambda: desk.requests))
            run.send_signal(getattr(signal, name))
            if status:
                run.wait()
            desk.may_answer.set()
            same("%s, %s" % (name, before), run.wait(), status)
            same("no lock is left", os.path.exists(north.home + "/lock"), False)

    def test_no_desk(self):
        """What answers is a web page and no desk: it is never shown as a report."""

        class Page(http.server.BaseHTTPRequestHandler):
            def do_GET(self):
                page = b"<html>Please log in</html>\n"
                self.send_response(200)
                self.send_header("content-length", str(len(page)))
                self.end_headers()
                self.wfile.write(page)

            do_DELETE = do_GET

            def log_message(self, *_):
                pass

        server = http.server.HTTPServer(("127.0.0.1", 0), Page)
        threading.Thread(target=server.serve_forever, daemon=True).start()
        north = Client("http://127.0.0.1:%d" % server.server_port, NORTH, PYTHON)
        for words in (("zones",), ("errsysmods", "A"), ("last",), ("drop-zone", "A")):
            status, out, _ = north.run(*words)
            same("no desk: %s" % (words,), (status, out), (3, ""))
        server.shutdown()


if __name__ == "__main__":
    main("client")
