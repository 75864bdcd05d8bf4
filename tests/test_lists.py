#!/usr/bin/env python3
"""zone-csv and publication on the samples of examples/lists, and on what is easily done wrong."""
import os
import subprocess
import unittest

from service import PROGRAM, TOP, check, folder, main, same, write

ZONE_CSV = os.path.join(TOP, "clients", "zone-csv")
PUBLICATION = os.path.join(TOP, "clients", "publication")
LISTS = os.path.join(TOP, "examples", "lists")
LIMIT = 67108864  # bytes that a desk takes at once


def run(*words, given=b""):
    done = subprocess.run(
        words, input=given, capture_output=True, cwd=LISTS, env={**os.environ, "BUREAU_PROGRAM": PROGRAM}
    )
    return done.returncode, done.stdout.decode(), done.stderr.decode()


def kept(name):
    with open(os.path.join(LISTS, name)) as file:
        return file.read()


class Lists(unittest.TestCase):
    def test_zone_lists(self):
        status, out, err = run(ZONE_CSV, "zone", "TGT1", "tgt1.smplist.txt")
        same("the zone of a listing", (status, out), (0, kept("tgt1.csv")))
        check(
            "what is left out is named",
            "in error: 1 (UJ92006)" in err and "deleted by a function: 1 (HDZ33D0)" in err,
            err,
        )
        same("the same of JSON", run(ZONE_CSV, "zone", "TGT1", "tgt1.csi.json")[:2], (0, kept("tgt1.csv")))
        same("the received list", run(ZONE_CSV, "received", "global.smplist.txt")[:2], (0, kept("received.csv")))
        same(
            "the received list of JSON",
            run(ZONE_CSV, "received", "tgt1.csi.json")[:2],
            (0, kept("received.csv")),
        )
        same(
            "a distribution zone of JSON",
            run(ZONE_CSV, "--accepted", "zone", "DLB1", "tgt1.csi.json")[:2],
            (0, "SYSMOD,STATE\nUJ92002,ACCEPTED\n"),
        )
        same(
            "a zone that is not there gives no list, which would empty it at the desk",
            run(ZONE_CSV, "zone", "TGT9", "tgt1.smplist.txt")[:2],
            (1, ""),
        )
        nothing = b"T SYSMOD ENTRIES\nUJ1  TYPE = PTF\n     STATUS = REC\n"
        same("nor one of which nothing is installed", run(ZONE_CSV, "zone", "T", "-", given=nothing)[:2], (1, ""))
        nothing = b"GLOBAL SYSMOD ENTRIES\nUJ1  TYPE = PTF\n     STATUS = APP\n"
        same("a received list may be empty", run(ZONE_CSV, "received", "-", given=nothing)[:2], (0, "SYSMOD\n"))
        same("a file that is not there", run(ZONE_CSV, "zone", "TGT1", "none")[0], 3)
        same("no words", run(ZONE_CSV)[0], 2)
        page = b"DLB1 SYSMOD ENTRIES\r\n  NAME\r\nUJ1  TYPE = PTF\r\n     STATUS = REC ACC\r\n@A#1$  TYPE = PTF\r\n     STATUS = APP\r\n"
        same(
            "line ends with CR, from standard input",
            run(ZONE_CSV, "zone", "DLB1", "-", given=page)[:2],
            (0, "SYSMOD,STATE\n@A#1$,APPLIED\nUJ1,ACCEPTED\n"),
        )
        # a name with a character of another code page is an entry of its own: the one before keeps its state
        listing = kept("tgt1.smplist.txt").replace(" UJ92006", " \u00a7J92006").encode()
        status, out, err = run(ZONE_CSV, "zone", "TGT1", "-", given=listing)
        same("a name of another code page", (status, out), (0, kept("tgt1.csv")))
        check("is named", "\u00a7J92006" in err, err)
        digits = b"T SYSMOD ENTRIES\n0UJ1  TYPE = PTF\n     STATUS = APP\n1UJ2  STATUS = ACC\nA NOTE\n     STATUS = ERR\n"
        status, out, err = run(ZONE_CSV, "zone", "T", "-", given=digits)
        same("names with a digit in front", (status, out), (0, "SYSMOD,STATE\n0UJ1,APPLIED\n1UJ2,ACCEPTED\n"))
        many = b"T SYSMOD ENTRIES\n" + b"".join(b"UA%05d  STATUS = APP\n" % i for i in range(40000))
        same(
            "40,000 rows",
            (
                run(ZONE_CSV, "zone", "T", "-", given=many)[0],
                run(ZONE_CSV, "zone", "T", "-", given=many + b"UB1  STATUS = APP\n")[0],
            ),
            (0, 1),
        )
        shape = b'[{"entryName":"UJ1","subEntries":[{"name":"INSTALLDATE","values":["25100"]},{"name":"ERROR","values":["NO"]}]}]'
        same(
            "JSON of another shape",
            run(ZONE_CSV, "zone", "T", "-", given=shape)[:2],
            (0, "SYSMOD,STATE\nUJ1,APPLIED\n"),
        )

    def test_fields_and_words(self):
        """A field is known by its beginning, and what is not known is named."""
        listing = "T SYSMOD ENTRIES\n UJ1  TYPE = PTF\n      STATUS = REC APP%s\n      %s = UJ2\n"
        listing += " UJ2  STATUS = APP\n      DATE/TIME APP = 25.1\n           ACC = 25.2\n"
        for word, field, row, named in (
            ("", "SUPBY  (IMM)", "UJ1,SUPERSEDED", None),
            ("", "LASTSUP (IMM)", "UJ1,SUPERSEDED", None),
            ("", "DELBY (001)", None, "deleted by a function: 1 (UJ1)"),
            ("", "SUPING   VER(001)", "UJ1,APPLIED", None),
            ("", "SUPPLY", "UJ1,APPLIED", "unknown fields: 1 (SUPPLY)"),
            (" XYZ", "PRE", "UJ1,APPLIED", "unknown words of STATUS: 1 (XYZ)"),
        ):
            status, out, err = run(ZONE_CSV, "zone", "T", "-", given=(listing % (word, field)).encode())
            rows = [row] * (row is not None) + ["UJ2,APPLIED"]
            same("a field " + field + word, (status, out.splitlines()[1:]), (0, rows))
            check("and what is named", named in err if named else "unknown" not in err, err)
        for name in ("tgt1.smplist.txt", "global.smplist.txt"):
            check("the samples have none that is unknown", "unknown" not in run(ZONE_CSV, "zone", "TGT1", name)[2])

    def test_values_of_a_fault(self):
        """FAULT 14 names the operand and its values."""
        for text, named in (
            ("REASON(A) CLASS(HIPER PE)", "CLASS(HIPER PE)"),
            ("REASON(a)", "REASON(a)"),
            ("REASON(A)\n RESOLVER(UJ1)\n RESOLVER(UJ2)", "RESOLVER(UJ1) RESOLVER(UJ2)"),
            ("REASON(A) FMID(HBB77E0,HDZ33E0)", "FMID(HBB77E0,HDZ33E0)"),
        ):
            status, _, err = run(PUBLICATION, "-", given=("++HOLD(UJ1) ERROR %s.\n" % text).encode())
            check("FAULT 14 of " + text, status == 1 and "or there are two: %s: ++HOLD(UJ1)" % named in err, err)

    def test_listings_that_are_none(self):
        """What is no listing, or not yet, and what to do about it."""
        listing = kept("tgt1.smplist.txt").encode("cp037").replace(b"\x25", b"\x15")
        for name, given in (("lines", listing), ("records", listing.replace(b"\x15", b"\x40" * 9)), ("JSON", kept("tgt1.csi.json").encode("cp037"))):
            status, out, err = run(ZONE_CSV, "zone", "TGT1", "-", given=given)
            check("EBCDIC is told: " + name, (status, out) == (1, "") and "iconv -f IBM-1047" in err, (status, err))
        later = b'{"statusurl":"https://host/zosmf/swmgmt/statusmonitor/csiquery/7"}'
        status, out, err = run(ZONE_CSV, "zone", "TGT1", "-", given=later)
        check(
            "an answer 202 of z/OSMF says where to ask again",
            (status, out) == (1, "") and "202" in err and "https://host/zosmf/swmgmt/statusmonitor/csiquery/7" in err,
            (status, err),
        )
        same("no JSON", run(ZONE_CSV, "zone", "TGT1", "-", given=b"{")[0], 3)

    def test_restores(self):
        """A SYSMOD whose RESTORE did not end is not taken for installed."""
        text = "T SYSMOD ENTRIES\n  NAME\nUJ1  TYPE = PTF\n     STATUS = REC APP%s\n%sUJ2  TYPE = PTF\n     STATUS = APP\n"
        for name, given in (
            ("RESTORE = YES", text % ("", "     RESTORE = YES\n")),
            ("RES in STATUS", text % (" RES", "")),
            (
                "JSON",
                '{"entries":[{"entryname":"UJ1","zonename":"T","subentries":{"INSTALLDATE":["25001"],"RESTORE":["YES"]}},'
                '{"entryname":"UJ2","zonename":"T","subentries":{"INSTALLDATE":["25001"],"RESTORE":["NO"]}}]}',
            ),
        ):
            status, out, err = run(ZONE_CSV, "zone", "T", "-", given=given.encode())
            same("a RESTORE that did not end: " + name, (status, out), (0, "SYSMOD,STATE\nUJ2,APPLIED\n"))
            check("is named", "RESTORE did not end: 1 (UJ1)" in err, err)

    def test_reader_that_goes(self):
        """Whoever reads a long list goes, as `head -1` does: the run ends there, and tells what it tells others."""
        site, places = folder(), range(30000)
        entries = ('{"entryname":"UA%05d","zonename":"T","subentries":{"INSTALLDATE":["25001"]}}' % place for place in places)
        listed = write(site + "/listed", '{"entries":[%s]}' % ",".join(entries))
        sent = write(site + "/sent", "".join("++PTF(UA%05d).\n++VER(Z038) FMID(HBB77E0).\n" % place for place in places))
        for words, line in (([ZONE_CSV, "zone", "T", listed], "SYSMOD,STATE\n"), ([PUBLICATION, sent], "++PTF(UA00000).\n")):
            told = subprocess.Popen(words, stdout=subprocess.PIPE, stderr=subprocess.PIPE, env={**os.environ, "BUREAU_PROGRAM": PROGRAM})
            first = told.stdout.readline()
            told.stdout.close()
            same(words[0], (told.wait(), first.decode(), told.stderr.read().decode()), (0, line, run(*words)[2]))

    def test_publications(self):
        status, out, err = run(PUBLICATION, "smpptfin.txt")
        same("the sample", (status, out), (1, kept("publication.txt")))
        for text in (
            "line 15: FAULT 22",
            "line 16: FAULT 3",
            "line 21: FAULT 15",
            "line 23: FAULT 13",
            "line 25: FAULT 1",
            "line 14: left out",
            "line 18: left out, since its ++ is not in column 1: ++VER(Z038)",
            "line 22: left out, since its ++ is not in column 1: ++RELEASE(UJ92003)",
            "2 SYSMODs, 2 ++VER, 1 ++IF, 1 ++HOLD, 1 ++RELEASE; 5 statements with a fault, 2 not in column 1",
        ):
            check("the sample: " + text, text in err, err)
        site = folder()
        clean = write(site + "/clean", kept("publication.txt"))
        same("what is left has no fault", run(PUBLICATION, clean)[:2], (0, kept("publication.txt")))
        records = "".join("%-72s%08d" % (line, i) for i, line in enumerate(kept("publication.txt").splitlines()))
        same(
            "80-byte records",
            run(PUBLICATION, write(site + "/records", records))[:2],
            (0, kept("publication.txt")),
        )
        same(
            "a mark in front, and CR LF",
            run(PUBLICATION, write(site + "/marked", "\ufeff" + kept("publication.txt").replace("\n", "\r\n")))[
                :2
            ],
            (0, kept("publication.txt")),
        )
        status, out, err = run(
            PUBLICATION, write(site + "/ebcdic", bytes(b"\x4e\x4e\xc8\xd6\xd3\xc4\x4d\x15") * 20)
        )
        check("EBCDIC is noticed", (status, out) == (1, "") and "EBCDIC" in err, err)
        same(
            "++VER before any SYSMOD",
            run(PUBLICATION, write(site + "/ver", "++VER(Z038).\n++PTF(A).\n"))[:2],
            (1, "++PTF(A).\n"),
        )
        open_one = "++HOLD(UJ1) ERROR REASON(A) COMMENT(NO END (.\n++HOLD(UJ2) ERROR REASON(A).\n++HOLD(UJ3) ERROR REASON(A) COMMENT()))).\n"
        same(
            "a statement never takes in the next",
            run(PUBLICATION, write(site + "/open", open_one))[:2],
            (1, "++HOLD(UJ2) ERROR REASON(A).\n"),
        )
        same(
            "nothing is judged",
            run(PUBLICATION, "--unchecked", site + "/ver")[:2],
            (0, "++VER(Z038).\n++PTF(A).\n"),
        )
        same(
            "from a pipe",
            run(PUBLICATION, "-", given=kept("publication.txt").encode())[:2],
            (0, kept("publication.txt")),
        )
        same(
            "records from a pipe, over more than one read",
            run(PUBLICATION, "--unchecked", "/dev/stdin", given=b"%-80s" % b"++PTF(A)." * 2000)[:2],
            (0, "++PTF(A).\n" * 2000),
        )
        same("no file", run(PUBLICATION, site + "/none")[0], 3)
        same("no word that begins with -", run(PUBLICATION, "--unchecked", "-x", site + "/ver")[0], 2)
        same("no words", run(PUBLICATION)[0], 2)
        holds = ["++HOLD(UA%05d) ERROR REASON(AB%05d)\n COMMENT(ONE (OF) MANY).\n" % (i, i) for i in range(9000)]
        for bad in (17, 4500, 8999):
            holds[bad] = holds[bad].replace("MANY)", "MANY")
        status, out, err = run(PUBLICATION, write(site + "/many", "".join(holds)))
        same("three bad ones of 9,000", (status, out.count("++HOLD"), err.count("FAULT 3")), (1, 8997, 3))
        same("by their lines", [text in err for text in ("line 35:", "line 9001:", "line 17999:")], [True] * 3)

    def test_lost_statements(self):
        """A run that leaves out a statement ends with 1, and names it."""
        hold, release = "++HOLD(UJ1) ERROR REASON(A).\n", "++release(UJ1) ERROR REASON(A).\n"
        for name, text, left, line in (
            ("a blank before it", " " + hold, "", 1),
            ("a second one on a line", hold + hold.rstrip() + " " + hold, hold * 2, 2),
            ("one without a blank between", hold.rstrip() + hold, hold, 1),
            ("after other statements", "++MOD(A) DISTLIB(B).\n  " + release, "", 2),
            ("on a line after the period", hold + "text\n  " + release, hold, 3),
        ):
            status, out, err = run(PUBLICATION, "--unchecked", "-", given=text.encode())
            check(name, (status, out) == (1, left) and "line %d: left out" % line in err, (status, out, err))
        for name, text in (
            ("in the statement's own text", "++HOLD(UJ1) ERROR REASON(A)\n COMMENT(SEE\n ++HOLD(UJ2) ERROR)."),
            ("in a comment after it", hold.rstrip() + " /* ++HOLD(UJ2) is no more */"),
        ):
            same(name + " nothing is lost", run(PUBLICATION, "--unchecked", "-", given=text.encode())[:2], (0, text.split(" /*")[0] + "\n"))
        status, _, err = run(PUBLICATION, "-", given=b"++hold(uj1) ERROR REASON(A).\n")
        check("an id in lower case is told", status == 1 and "FAULT 2" in err and "upper case" in err, err)

    def test_differences(self):
        """SYSMODs of which a desk knows less than SMP/E are named and counted."""
        status, out, err = run(PUBLICATION, "../differences/publication.txt")
        same("the sample has no fault", (status, err.count("publication: ")), (0, 5))
        check("VERs that differ", "2 SYSMODs with ++VERs that differ in PRE, REQ or ++IF." in err and "\npublication:     UJ94001 UJ94009\n" in err, err)
        check("NPRE", "1 SYSMOD with NPRE." in err and "\npublication:     JBB77E1\n" in err, err)
        two = "++PTF(UJ%d).\n++VER(Z038) FMID(HBB77E0) %s.\n%s++VER(Z038) FMID(HDZ33E0) %s.\n%s"
        for name, text, is_named in (
            ("alike in another order", two % (1, "PRE(A,B)", "", "PRE(B) REQ(A)", ""), False),
            ("a PRE alone", two % (1, "PRE(A)", "", "", ""), True),
            ("a comma before the list", two % (1, "PRE,(A)", "", "REQ , (B)", ""), True),
            ("a list in a list", two % (1, "XY(PRE(A))", "", "XY(PRE(B))", ""), False),
            ("a comment in a list", two % (1, "PRE(A /* ( B */)", "", "/* PRE(C) */ REQ(A)", ""), False),
            ("another SUP", two % (1, "SUP(A)", "", "SUP(B)", ""), False),
            ("an IF of one", two % (1, "", "++IF FMID(A) REQ(B).\n", "", ""), True),
            ("the same IF of both", two % (1, "", "++IF FMID(A) REQ(B).\n", "", "++IF FMID(A) REQ(B).\n"), False),
            ("an IF of another function", two % (1, "", "++IF FMID(A) REQ(B).\n", "", "++IF FMID(C) REQ(B).\n"), True),
            ("NPRE in a comment", two % (1, "/* NPRE(A) */", "", "", ""), False),
            ("NPRE in one of them", two % (1, "", "", "NPRE(A)", ""), True),
        ):
            same(name, "UJ1" in run(PUBLICATION, "--unchecked", "-", given=text.encode())[2], is_named)
        many = "".join(two % (at, "PRE(A)", "", "", "") for at in range(25))
        lines = [line.split()[1:] for line in run(PUBLICATION, "--unchecked", "-", given=many.encode())[2].splitlines() if line.startswith("publication:  ")]
        same("each is named", lines, [["UJ%d" % at for at in range(begin, min(25, begin + 10))] for begin in (0, 10, 20)])
        refused = two % (1, "PRE(a)", "", "NPRE(A)", "")
        same("one that is left out is not", "with" in run(PUBLICATION, "-", given=refused.encode())[2].split("SYSMODs,")[1].replace("with a fault", ""), False)

    def test_symptoms(self):
        """What SMRTDATA says, as CSV."""
        place = folder()
        heading = "SYSMOD,REASON,DATE,CHGDT,SYMP,FIX\n"

        def written(text, *words):
            status, _, err = run(PUBLICATION, *words, "--symptoms", place + "/csv", "-", given=text.encode())
            check("it is written", status == 0 and "the symptoms of" in err, (status, err))
            return open(place + "/csv").read()

        sample = "UJ90012,AH61140,25011,25011,FUNC,UJ90500\nUJ90118,IPL,25030,25030,FUNC,UJ90505\nUJ90177,AH61490,25051,25051,FUNC,UJ90510\n"
        same("of a sample", written(open(LISTS + "/../holddata.txt").read()), heading + sample)
        hold = "++HOLD(UJ1) ERROR REASON(AJ1)\n COMMENT(%s).\n"
        for name, text, wanted in (
            ("several values, in any order", hold % "SMRTDATA(FIX(UJ2,UJ3)\n SYMP(PRV , DAL) CHGDT(250102))", "UJ1,AJ1,,250102,PRV DAL,UJ2 UJ3\n"),
            ("text around it", hold % "SEE (AJ2) SMRTDATA (SYMP(IPL)) AND (MORE)", "UJ1,AJ1,,,IPL,\n"),
            ("none", hold % "SMRT DATA(SYMP(IPL))", ""),
            ("in a comment", "++HOLD(UJ1) ERROR REASON(AJ1) /* COMMENT(SMRTDATA(SYMP(A))) */.\n", ""),
            ("over a line", hold % "SMRTDATA(SYMP(\n A) FIX(\n UJ2))", "UJ1,AJ1,,,A,UJ2\n"),
            ("two of a hold", hold % "SMRTDATA(SYMP(A)) SMRTDATA(SYMP(B))", "UJ1,AJ1,,,A,\nUJ1,AJ1,,,B,\n"),
            ("what a spreadsheet would take for a formula", hold % "SMRTDATA(SYMP(=A\"B))", 'UJ1,AJ1,,,"\'=A""B",\n'),
            ("columns 73 to 80", "++HOLD(UJ1) ERROR REASON(AJ1)\n%-72s00000010\n COMMENT(SMRTDATA(SYMP(A))).\n" % " DATE(25001)", "UJ1,AJ1,25001,,A,\n"),
        ):
            same("symptoms: " + name, written(text), heading + wanted)
        same("in parts too", written(hold % "SMRTDATA(SYMP(A))", "--parts", place + "/part"), heading + "UJ1,AJ1,,,A,\n")
        same("a folder that is not there", run(PUBLICATION, "--symptoms", place + "/none/csv", "-", given=b"++PTF(A).\n")[0], 3)
        same("no file named", run(PUBLICATION, "--symptoms", place + "/csv")[0], 2)

    def test_parts(self):
        """What is too large for a desk is not printed, and is written in parts that are none too large."""
        hold = "++HOLD(UJ%05d) ERROR REASON(AJ00001)\n COMMENT(" + "X" * 60 + ")" + ("\n /* " + "and so on " * 6 + "*/") * 40 + ".\n"
        place = folder()
        # a SYSMOD with its ++VER stands where the first part ends
        count = LIMIT // len(hold % 0)
        text = "".join(hold % i for i in range(count)) + "++PTF(UJ1).\n++VER(Z038) FMID(HBB77E0)\n"
        text += " /**/\n" * ((LIMIT - len(text)) // 6) + " SUP(AJ1).\n" + hold % 1
        path = write(place + "/large", text)
        status, out, err = run(PUBLICATION, "--unchecked", path)
        check("nothing is printed", (status, out) == (1, "") and "--parts" in err, (status, len(out), err))
        status, out, err = run(PUBLICATION, "--unchecked", "--parts", place + "/part", path)
        same("parts are written", (status, out), (0, ""))
        written = [open(place + "/part-%03d.txt" % number).read() for number in (1, 2)]
        same("two", os.path.exists(place + "/part-003.txt"), False)
        check("none is too large", all(len(part) <= LIMIT for part in written))
        same("a SYSMOD stays together", written[1].startswith("++PTF(UJ1).\n++VER(Z038)"), True)
        same("with all of it", sum(part.count("++HOLD") for part in written), count + 1)

    def test_as_they_come(self):
        """docs/CLIENT.md: files as they come, through a pipe to a report."""
        with open(os.path.join(TOP, "docs", "CLIENT.md")) as page:
            line = next(each for each in page if each.startswith("clients/publication ") and "| ./bureau " in each)
        line = line.replace("./bureau ", PROGRAM + " ")
        done = subprocess.run(line, shell=True, cwd=TOP, capture_output=True, text=True, env={**os.environ, "BUREAU_PROGRAM": PROGRAM})
        rows = [row.split()[1:5] for row in done.stdout.splitlines()[2:]]
        same("a report of files as they come", rows, [["UJ92001", "AJ64001", "UJ92002", "HELD"], ["UJ92001", "AJ64001", "UJ92005", "GOOD"], ["2"]])


if __name__ == "__main__":
    main("lists")
