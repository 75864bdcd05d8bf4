"""A headless Chromium that is spoken to over a pipe, by the standard library alone."""
import atexit
import base64
import json
import os
import shutil
import subprocess
import time

from service import folder


class Browser:
    def __init__(self):
        to_read, self.to = os.pipe()
        self.back, to_write = os.pipe()
        program = (
            shutil.which("chromium") or shutil.which("chromium-browser") or shutil.which("google-chrome")
        )
        words = [
            program,
            "--headless=new",
            "--no-sandbox",
            "--disable-gpu",
            "--disable-dev-shm-usage",
            "--no-first-run",
            "--disable-background-networking",
            "--disable-component-update",
            "--ignore-certificate-errors",
            "--hide-scrollbars",
            "--remote-debugging-pipe",
            "--user-data-dir=" + folder(),
            "about:blank",
        ]
        # Chromium reads from descriptor 3 and writes to 4
        self.process = subprocess.Popen(
            ["sh", "-c", 'exec "$0" "$@" 3<&%d 4>&%d' % (to_read, to_write), *words],
            pass_fds=(to_read, to_write),
            stdout=subprocess.DEVNULL,
            stderr=subprocess.DEVNULL,
        )
        atexit.register(self.process.terminate)
        os.close(to_read)
        os.close(to_write)
        self.rest, self.count, self.session, self.said = b"", 0, None, []
        target = self.call("Target.createTarget", url="about:blank")["targetId"]
        self.session = self.call("Target.attachToTarget", targetId=target, flatten=True)["sessionId"]
        for domain in ("Page", "Runtime", "Log", "Network"):
            self.call(domain + ".enable")

    def call(self, method, **words):
        self.count += 1
        message = {"id": self.count, "method": method, "params": words}
        if self.session:
            message["sessionId"] = self.session
        os.write(self.to, json.dumps(message).encode() + b"\0")
        while True:
            answer = self.read()
            if answer.get("id") == self.count:
                if "error" in answer:
                    raise RuntimeError("%s: %s" % (method, answer["error"]))
                return answer["result"]

    def read(self):
        while b"\0" not in self.rest:
            piece = os.read(self.back, 1 << 20)
            if not piece:
                raise RuntimeError("Chromium has ended")
            self.rest += piece
        text, self.rest = self.rest.split(b"\0", 1)
        event = json.loads(text)
        if event.get("method") in ("Runtime.exceptionThrown", "Log.entryAdded"):
            self.said.append(event["params"])
        return event

    def run(self, script):
        """The value of an expression on the page."""
        result = self.call("Runtime.evaluate", expression=script, returnByValue=True, awaitPromise=True)
        if "exceptionDetails" in result:
            raise RuntimeError("%s: %s" % (script, result["exceptionDetails"]))
        return result["result"].get("value")

    def until(self, script, seconds=20):
        """Waits until an expression is true, and tells whether it came to be."""
        end = time.time() + seconds
        while time.time() < end:
            if self.run("!!(%s)" % script):
                return True
            time.sleep(0.05)
        return False

    def open(self, url, width=1400, height=900):
        self.size(width, height)
        self.call("Page.navigate", url=url)
        return self.until("document.readyState === 'complete' && location.href.startsWith('http')")

    def size(self, width, height=900):
        self.call(
            "Emulation.setDeviceMetricsOverride",
            width=width,
            height=height,
            deviceScaleFactor=1,
            mobile=False,
        )

    def key(self, name, code, text=None):
        for kind in ("keyDown", "keyUp"):
            words = {"type": kind, "key": name, "code": name, "windowsVirtualKeyCode": code}
            if text and kind == "keyDown":
                words["text"] = text
            self.call("Input.dispatchKeyEvent", **words)

    def write(self, text):
        self.call("Input.insertText", text=text)

    def picture(self, path):
        with open(path, "wb") as out:
            out.write(base64.b64decode(self.call("Page.captureScreenshot")["data"]))

    def end(self):
        self.process.terminate()
        self.process.wait()
