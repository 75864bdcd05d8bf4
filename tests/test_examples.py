#!/usr/bin/env python3
"""The sample as lines for curl, each request with its reply, and the folders of examples/site."""
import os
import re
import subprocess
import unittest

from service import PROGRAM, SAMPLE, TOP, Desk, check, folder, main, same, write

FILES = [os.path.join(SAMPLE, name) for name in sorted(os.listdir(SAMPLE)) if name.endswith(".http")]
CALLERS = os.path.join(SAMPLE, "callers.csv")


def read(path):
    with open(path, "rb") as file:
        return file.read()


def bodies(text):
    """The bodies of messages that stand one after the other."""
    while text:
        head, _, text = text.partition(b"\r\n\r\n")
        length = re.search(rb"content-length: (\d+)", head)
        length = int(length[1]) if length else 0
        yield text[:length]
        text = text[length:]


def pairs(*files):
    return subprocess.run(
        [os.path.join(TOP, "examples", "pairs"), CALLERS, *files],
        capture_output=True,
        text=True,
        env={**os.environ, "BUREAU_PROGRAM": PROGRAM},
    ).stdout


wanted = b"".join(bodies(read(os.path.join(SAMPLE, "replies.txt"))))


class Examples(unittest.TestCase):
    def test_the_lines_for_curl(self):
        for place, script in ((TOP, "examples/desk/requests.sh"), (folder(), SAMPLE + "/requests.sh")):
            desk = Desk(CALLERS)
            run = subprocess.run(
                ["sh", script, desk.url], cwd=place, stdout=subprocess.PIPE, stderr=subprocess.DEVNULL
            )
            same("the lines for curl get the replies of the sample, run in " + place, (run.stdout, run.returncode), (wanted, 22))
            desk.end()
        alone = write(folder() + "/desk/requests.sh", read(SAMPLE + "/requests.sh"))
        run = subprocess.run(["sh", alone, "http://127.0.0.1:9"], capture_output=True, text=True)
        check("without its bodies it sends nothing", run.returncode == 1 and "examples/site" in run.stderr, run.stderr)

    def test_callers_map(self):
        """The line that makes callers.map from the callers file, as it stands in the sample and on its page."""
        front = os.path.join(TOP, "deploy", "callers.map")
        line = re.search(r"awk -F.*callers\.csv", read(front).decode())[0]
        check("it is on its page too", line in read(os.path.join(TOP, "docs", "SCALING.md")).decode())
        names = subprocess.run(line.replace("callers.csv", CALLERS), shell=True, capture_output=True, text=True).stdout
        same("and makes the sample", names, "".join(row + "\n" for row in read(front).decode().splitlines() if row[0] == '"'))
        odd = write(folder() + "/callers.csv", "NAME,TOKEN\r\nPUBLISH,publisher~token\r\n#A$@,another.token\r\n")
        names = subprocess.run(line.replace("callers.csv", odd), shell=True, capture_output=True, text=True).stdout
        same("also with marks", names, '"publisher~token" "PUBLISH";\n"another.token" "#A-@";\n')

    def test_the_site_and_pairs(self):
        sent = b"".join(body for file in FILES for body in bodies(read(file)))
        site = os.path.join(TOP, "examples", "site")
        parts = [site + "/publication.txt"] + [
            os.path.join(site, name, part)
            for name, zone in (("north", "MVSPROD"), ("south", "MVSTEST"))
            for part in ("zones/%s.csv" % zone, "received.csv", "categories/%s.csv" % zone)
        ]
        same("the files of examples/site are the bodies of the sample", b"".join(map(read, parts)), sent)

        shown = pairs(*FILES)
        same("each request has its reply", (shown.count("== "), shown.count("no reply")), (19, 0))
        check(
            "beside it",
            "== 2-north.http: PUT /zones/MVSPROD, number 1\nHTTP/1.1 200 OK\nZONE MVSPROD ROWS 3\n\n" in shown,
            shown,
        )
        stopped = subprocess.Popen(
            [os.path.join(TOP, "examples", "pairs"), CALLERS, *FILES],
            stdout=subprocess.PIPE,
            stderr=subprocess.PIPE,
            env={**os.environ, "BUREAU_PROGRAM": PROGRAM},
        )
        stopped.stdout.close()
        same("a reader that stops is no fault", stopped.stderr.read(), b"")
        cut = write(folder() + "/cut.http", read(FILES[0])[:-1])
        check("a cut request is named", "== cut.http: GET /published (cut off)\nno reply\n" in pairs(cut), pairs(cut))


if __name__ == "__main__":
    main("examples")
