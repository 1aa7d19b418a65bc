"""A real browser, Debian's chromium without a window, driven through a pipe by its own protocol. Python's standard library suffices."""

import base64
import json
import os
import select
import shutil
import subprocess
import tempfile
import time

NAMES = ("/usr/lib/chromium/chromium-headless-shell", "chromium-headless-shell", "/usr/lib/chromium/chromium", "chromium")
SECONDS = 60


def program():
    """The browser, if it is installed."""
    return next(filter(None, map(shutil.which, NAMES)), None)


class Browser:
    """A page in the browser. What goes wrong in it (exceptions, refused scripts, requests) is kept in `troubles` and `requests`."""

    def __init__(self):
        self.folder = tempfile.mkdtemp(prefix="luux-browser-")
        theirs_in, self.out = os.pipe()
        self.back, theirs_out = os.pipe()

        def place():
            """The protocol's pipes are descriptors 3 and 4."""
            ends = os.dup(theirs_in), os.dup(theirs_out)
            for number, end in zip((3, 4), ends):
                os.dup2(end, number)

        words = [program(), "--headless", "--no-sandbox", "--disable-gpu", "--remote-debugging-pipe", f"--user-data-dir={self.folder}"]
        self.process = subprocess.Popen(words, preexec_fn=place, close_fds=False, stdout=subprocess.DEVNULL, stderr=subprocess.DEVNULL)
        os.close(theirs_in)
        os.close(theirs_out)
        self.number, self.buffer, self.session = 0, b"", None
        self.troubles, self.requests, self.events = [], [], []
        target = self.ask("Target.createTarget", url="about:blank")["targetId"]
        self.session = self.ask("Target.attachToTarget", targetId=target, flatten=True)["sessionId"]
        for domain in ("Page", "Runtime", "Network", "Log"):
            self.ask(f"{domain}.enable")

    def close(self):
        try:
            self.ask("Browser.close")
            self.process.wait(timeout=10)
        except (OSError, TimeoutError, subprocess.TimeoutExpired):
            self.process.kill()
            self.process.wait()
        os.close(self.out)
        os.close(self.back)
        shutil.rmtree(self.folder, ignore_errors=True)

    def message(self, ends):
        while b"\0" not in self.buffer:
            if not select.select([self.back], [], [], max(0, ends - time.monotonic()))[0]:
                raise TimeoutError("the browser says nothing")
            part = os.read(self.back, 1 << 20)
            if not part:
                raise OSError("the browser has ended")
            self.buffer += part
        one, self.buffer = self.buffer.split(b"\0", 1)
        return json.loads(one)

    def ask(self, method, **parameters):
        self.number += 1
        whole = {"id": self.number, "method": method, "params": parameters}
        if self.session:
            whole["sessionId"] = self.session
        os.write(self.out, json.dumps(whole).encode() + b"\0")
        ends = time.monotonic() + SECONDS
        while True:
            said = self.message(ends)
            if said.get("id") == self.number:
                assert "error" not in said, said
                return said["result"]
            self.event(said)

    def event(self, said):
        self.events.append(said.get("method"))
        if said.get("method") in ("Runtime.exceptionThrown", "Log.entryAdded", "Page.javascriptDialogOpening"):
            self.troubles.append(said["params"])
        if said.get("method") == "Network.requestWillBeSent":
            self.requests.append(said["params"]["request"]["url"])

    def open(self, path, width=1400, height=1000):
        self.ask("Emulation.setDeviceMetricsOverride", width=width, height=height, deviceScaleFactor=1, mobile=False)
        self.events.clear()
        self.ask("Page.navigate", url="file://" + path)
        ends = time.monotonic() + SECONDS
        while "Page.loadEventFired" not in self.events:
            self.event(self.message(ends))

    def run(self, script):
        """The value of an expression in the page."""
        said = self.ask("Runtime.evaluate", expression=script, returnByValue=True, awaitPromise=True, userGesture=True)
        assert "exceptionDetails" not in said, said
        return said["result"].get("value")

    def click(self, selector):
        """A click of the mouse into the middle of an element."""
        place = self.run(f"(() => {{ const e = document.querySelector({json.dumps(selector)}); e.scrollIntoView({{block: 'center'}});"
                         " const b = e.getBoundingClientRect(); return [b.x + b.width / 2, b.y + b.height / 2]; })()")
        for kind in ("mousePressed", "mouseReleased"):
            self.ask("Input.dispatchMouseEvent", type=kind, x=place[0], y=place[1], button="left", clickCount=1)

    def type(self, selector, text):
        self.run(f"document.querySelector({json.dumps(selector)}).focus()")
        self.ask("Input.insertText", text=text)

    def choose(self, selector, value):
        self.run(f"(() => {{ const e = document.querySelector({json.dumps(selector)}); e.value = {json.dumps(value)};"
                 " e.dispatchEvent(new Event('input', {bubbles: true})); })()")

    def picture(self, path):
        """The whole page as PNG."""
        with open(path, "wb") as file:
            file.write(base64.b64decode(self.ask("Page.captureScreenshot", captureBeyondViewport=True)["data"]))
