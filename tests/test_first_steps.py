#!/usr/bin/env python3
"""docs/FIRST-STEPS.md as a new user follows it: each of its lines runs as it stands, in a folder with what the package
has, and the page in Chromium gives the job that stands there. Only the ports are other ones."""
import atexit
import os
import re
import shutil
import subprocess
import time
import unittest

from chromium import Browser
from page import check, click, enter, picture, same, shows
from service import PROGRAM, TOP, folder, free_port, main, without_time
from stand_in import until

place = folder()
for part in ("clients", "deploy", "examples"):
    shutil.copytree(os.path.join(TOP, part), os.path.join(place, part))
shutil.copy(PROGRAM, os.path.join(place, "bureau"))
os.chmod(place, 0o755)
ports = {"8081": free_port(), "8443": free_port()}
with open(os.path.join(TOP, "docs", "FIRST-STEPS.md")) as page:
    text = page.read()
for old, new in ports.items():
    text = text.replace(old, str(new))
conf = os.path.join(place, "deploy", "nginx.conf")
with open(conf) as file:
    lines = file.read().replace("listen 8443", "listen 127.0.0.1:%(8443)d" % ports).replace(":8081 ", ":%(8081)d " % ports)
with open(conf, "w") as file:
    file.write(lines)
desk, publish, sync, front, job, _, morning, news, end = re.findall(r"^```\n(.*?)^```$", text, re.M | re.S)
environment = {**os.environ, "PATH": os.environ["PATH"] + ":/usr/sbin", "HOME": place, "no_proxy": "*"}


def run(lines):
    done = subprocess.run(["bash", "-ec", lines], cwd=place, env=environment, capture_output=True, text=True)
    same("these lines run: " + lines.splitlines()[0], done.returncode, 0)
    return done.stdout + done.stderr


class FirstSteps(unittest.TestCase):
    def test_from_nothing_to_a_job(self):
        init, serve = desk.splitlines()
        same("the desk is made", run(init), "CALLERS 3\n")
        server = subprocess.Popen(["bash", "-c", "exec " + serve], cwd=place, stdout=subprocess.PIPE, text=True)
        atexit.register(server.terminate)
        same("and serves", server.stdout.readline(), "LISTENING 127.0.0.1:%d\n" % ports["8081"])
        check("it is published", "publication 1: ACCEPTED SYSMODS 8 HOLDS 5 RELEASES 0" in run(publish))
        # the PATH of an earlier step is that of the same terminal
        path = publish.splitlines()[0] + "\n"
        printed = run(path + sync)
        check("the zone is sent, and has two rows", "GOOD   YES      PE\nROWS 2\n" in printed, printed)
        check("its first news are told as such", "this is the first news of the zone MVSPROD" in printed, printed)
        run(front)
        atexit.register(subprocess.run, ["bash", "-c", end], cwd=place, env=environment, capture_output=True)
        browser = Browser()
        check("the front is there", until(lambda: browser.open("https://localhost:%d/" % ports["8443"])))
        enter(browser, "north-token")
        browser.until("document.querySelector('.figures')")
        figures = browser.run("[...document.querySelectorAll('.figure:not(.zero)')].map(f => f.innerText.replace(/\\s+/g, ' '))")
        same("what the page says of the zone", figures, ["1 PE", "1 can be resolved", "1 fix missing"])
        click(browser, ".zone-name", "MVSPROD")
        browser.until("document.querySelector('tbody tr.first')")
        click(browser, "tbody tr.first")
        shows(browser, "SYSTEM hold: IPL", ".beside")
        picture(browser, "first-steps")
        browser.call("Browser.setDownloadBehavior", behavior="allow", downloadPath=place)
        click(browser, ".beside [aria-label='Save as SMP/E job']")
        saved = os.path.join(place, "MVSPROD-UJ92005.smpcntl.txt")
        check("the job is saved", until(lambda: os.path.exists(saved)))
        time.sleep(0.2)
        same("as it stands on the page", without_time(open(saved).read()), without_time(job))
        same("as the client prints it", without_time(run(path + "BUREAU_HOME=north bureau-client job MVSPROD UJ92005\n")), without_time(job))
        click(browser, "td.of-box input")
        click(browser, ".tab", "Fixes1")
        browser.until("document.querySelector('.missingfix td.of-box input')")
        click(browser, "td.of-box input")
        click(browser, ".choice-bar .main")
        shows(browser, "3 SYSMODs to install, 1 of them received, 1 with holds to heed.", ".together")
        click(browser, ".choice-bar .plain")
        # the next morning
        printed = run(path + morning)
        check("it is published", "publication 2: ACCEPTED SYSMODS 1 HOLDS 1 RELEASES 0" in printed, printed)
        check("the news are those of the page", news in printed, printed)
        click(browser, "#again")
        shows(browser, "HOLDDATA up to 2025-08-20 · publication 2", "#level")
        click(browser, ".tab", "Errors2")
        browser.until("document.querySelectorAll('.errsysmods td.of-box input').length === 2")
        click(browser, "th.of-box input")
        click(browser, ".tab", "Fixes1")
        browser.until("document.querySelector('.missingfix td.of-box input')")
        click(browser, "td.of-box input")
        click(browser, ".choice-bar .main")
        shows(browser, "4 SYSMODs to install, 1 of them received, 1 with holds to heed.", ".together")
        click(browser, ".together [aria-label='Save as SMP/E job']")
        saved = os.path.join(place, "MVSPROD-chosen.smpcntl.txt")
        check("the job of three holds is saved", until(lambda: os.path.exists(saved)))
        time.sleep(0.2)
        command = re.search("`(BUREAU_HOME=north bureau-client job MVSPROD UJ92003 .*?)`", text)[1]
        same("as the client prints it", without_time(open(saved).read()), without_time(run(path + command)))
        browser.end()
        run(end)
        # a terminal sends Ctrl-C, which a run in the background ignores
        server.terminate()
        server.wait()


if __name__ == "__main__":
    main("first_steps")
