#!/usr/bin/env python3
"""bureau-client for the publisher: several desks, one that is away, one that is built anew, another publisher."""
import os
import unittest

from service import SAMPLE, Client, Desk, LosesReplies, check, exchange, folder, main, same, write

PUBLISHER, NORTH = "publisher-token", "north-token"
CALLERS = os.path.join(SAMPLE, "callers.csv")


class Publisher(unittest.TestCase):
    def test_several_desks(self):
        one, two, site = Desk(CALLERS), Desk(CALLERS), folder()
        publisher = Client(one.url, PUBLISHER)
        files = [write("%s/p%d" % (site, i), "++HOLD(UJ%d) ERROR REASON(AJ%d).\n" % (i, i)) for i in range(5)]
        both = ("--to", one.url, "--to", two.url)
        same("to both", publisher.run("publish", *both, files[0])[0], 0)
        port = two.port
        two.end()
        same("one is away", publisher.run("publish", *both, files[1])[0], 3)
        same(
            "the other has it",
            (one.last(PUBLISHER), publisher.run("publish", "--to", one.url, files[2])[0]),
            (2, 0),
        )
        two = Desk(CALLERS, port)
        status, out, err = publisher.run("catch-up", two.url)
        same("a new desk is brought up", (status, out.count("publication"), two.last(PUBLISHER)), (0, 3, 3))
        same(
            "and is told so",
            publisher.run("catch-up", two.url),
            (0, "%s: has all 3 publications\n" % two.url, ""),
        )
        two.end()
        two = Desk(CALLERS, port)
        same(
            "publish brings it up by itself",
            (publisher.run("publish", *both, files[3])[0], two.last(PUBLISHER)),
            (0, 4),
        )
        same("both have the same", one.ask("GET", "/published", NORTH), two.ask("GET", "/published", NORTH))
        two.end()
        two = Desk(CALLERS, port)
        extra = write(site + "/extra", "++HOLD(UJ9) ERROR REASON(AJ9).\n")
        same(
            "also where it is named first",
            (publisher.run("publish", "--to", two.url, "--to", one.url, extra)[0], two.last(PUBLISHER)),
            (0, 5),
        )
        two.end()
        one.end()
        status, _, err = publisher.run("publish", *both, files[4])
        check(
            "nobody is there", status == 3 and not os.path.exists(publisher.home + "/publications/000000006"), err
        )
        one, two = Desk(CALLERS, one.port), Desk(CALLERS, port)
        exchange(two.url, "POST", "/publish", PUBLISHER, 1, b"++PTF(X).\n")
        for words in (("catch-up", two.url), ("publish", "--to", two.url, files[4])):
            status, _, err = publisher.run(*words)
            check("a desk with another publication", status == 1 and "something else" in err, (words, err))
        same("nothing is sent there", two.last(PUBLISHER), 1)
        status, _, err = publisher.run("catch-up", one.url)
        same("all from the kept ones", (status, one.last(PUBLISHER)), (0, 5))
        exchange(one.url, "POST", "/publish", PUBLISHER, 6, b"++PTF(X).\n")
        status, _, err = publisher.run("publish", files[4])
        check("another publisher is noticed", status == 1 and "someone else publishes" in err, err)
        one.end()
        two.end()

    def test_lost_reply(self):
        """A publication is accepted, and the reply is lost: it keeps its number, and is published once."""
        desk, site = Desk(CALLERS), folder()
        publisher = Client(LosesReplies(desk, site).url, PUBLISHER)
        one, two = (write(site + "/%d" % i, "++HOLD(UJ%d) ERROR REASON(A).\n" % i) for i in range(2))
        write(site + "/lost", "")
        status, _, err = publisher.run("publish", one)
        check("no answer", status == 3 and "the next publish sends it first" in err, err)
        same(
            "the desk has it",
            (desk.last(PUBLISHER), publisher.run("publish", two)[0], desk.last(PUBLISHER)),
            (1, 3, 1),
        )
        os.remove(site + "/lost")
        status, out, err = publisher.run("publish", two)
        same("it is sent first", (status, out.count("publication 1:"), out.count("publication 2:")), (0, 1, 1))
        same("each has one number", desk.last(PUBLISHER), 2)
        with open(publisher.home + "/publications/000000001") as kept:
            check("and is kept under it", "UJ0" in kept.read())
        desk.end()

    def test_same_again(self):
        """The same publication at once again gets no other number; later, it does."""
        desk, site = Desk(CALLERS), folder()
        publisher = Client(desk.url, PUBLISHER)
        one, two = (write(site + "/%d" % i, "++HOLD(UJ%d) ERROR REASON(A).\n" % i) for i in range(2))
        same("first", publisher.run("publish", one)[0], 0)
        status, out, err = publisher.run("publish", one)
        check(
            "again", status == 0 and "is publication 1 already" in err and desk.last(PUBLISHER) == 1, (out, err)
        )
        same("another, and the first again", [publisher.run("publish", path)[0] for path in (two, one)], [0, 0])
        same("three in all", desk.last(PUBLISHER), 3)
        desk.end()

    def test_symptoms(self):
        """What the publications say of symptoms stands in one file, also beside the page. The last word on a hold counts."""
        desk, site, page = Desk(CALLERS), folder(), folder()
        publisher = Client(desk.url, PUBLISHER)
        hold = "++HOLD(%s) ERROR REASON(%s) DATE(25001)\n COMMENT(SMRTDATA(SYMP(%s) FIX(%s) CHGDT(250102))).\n"
        heading = "SYSMOD,REASON,DATE,CHGDT,SYMP,FIX\n"

        def read(path):
            return open(path).read() if os.path.exists(path) else None

        def publish(text, **more):
            return publisher.run("publish", write(site + "/p", text), **more)

        same("without a page", publish(hold % ("UJ1", "AJ1", "IPL", "UJ2") + hold % ("UJ1", "AJ2", "DAL", "UJ3"))[0], 0)
        kept = publisher.home + "/publications/symptoms.csv"
        first, second = "UJ1,AJ1,25001,250102,IPL,UJ2\n", "UJ1,AJ2,25001,250102,DAL,UJ3\n"
        same("it is kept", read(kept), heading + first + second)
        same("with a page", publish("++RELEASE(UJ1) ERROR REASON(AJ1).\n++HOLD(UJ1) USER REASON(AJ2).\n", BUREAU_PAGE=page)[0], 0)
        same("a release takes it away", read(page + "/symptoms.csv"), heading + second)
        same("with the level and the newest hold", read(page + "/publication.json"), '{"newest": "2025-01-01", "number": 2}\n')
        same("all may read it there", os.stat(page + "/symptoms.csv").st_mode & 0o777, 0o644)
        os.remove(page + "/symptoms.csv")
        same("the same publication again", publish("++RELEASE(UJ1) ERROR REASON(AJ1).\n++HOLD(UJ1) USER REASON(AJ2).\n", BUREAU_PAGE=page)[0], 0)
        same("puts it there again", read(page + "/symptoms.csv"), heading + second)
        publish("++HOLD(UJ1) ERROR REASON(AJ2).\n" + hold % ("UJ4", "AJ4", "PRV", ""))
        same("a hold that says nothing any more", read(kept), heading + "UJ4,AJ4,25001,250102,PRV,\n")
        same("the page's is as old as its last publication", read(page + "/symptoms.csv"), heading + second)
        os.remove(kept)
        status = publisher.run("catch-up", desk.url, BUREAU_PAGE=page)[0]
        same("made anew of all publications", (status, read(kept)), (0, heading + "UJ4,AJ4,25001,250102,PRV,\n"))
        same("beside the page too", read(page + "/symptoms.csv"), read(kept))
        status, out, err = publish("++PTF(UJ9).\n", BUREAU_PAGE=site + "/none")
        check("a page that is not there", status == 1 and "publication 4: ACCEPTED" in out and "is not there" in err, (status, out, err))
        config = write(publisher.home + "/config", "PAGE=%s\n" % page)
        os.chmod(config, 0o600)
        os.remove(page + "/symptoms.csv")
        same("named in the settings", (publish("++PTF(UJ10).\n")[0], read(page + "/symptoms.csv")), (0, read(kept)))
        desk.end()


if __name__ == "__main__":
    main("publisher")
