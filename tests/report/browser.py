"""A page in a headless Chromium, which is told what to do through a pipe, and what stands on its console."""
import base64
import contextlib
import json
import os
import select
import shutil
import subprocess
import tempfile
import time

PROGRAM = shutil.which("chromium") or shutil.which("chromium-browser")
PATIENCE = 60
WORDS = "--headless", "--no-sandbox", "--disable-gpu", "--hide-scrollbars", "--force-color-profile=srgb", "--no-first-run", "--disable-background-networking", \
    "--remote-debugging-pipe"


class Browser:
    """Chromium with one page. Messages go in by descriptor 3 and come out by 4, each with a zero byte behind it."""

    def __init__(self, width=1300, height=1000):
        self.folder = tempfile.TemporaryDirectory(prefix="try-report-")
        ours, theirs = os.pipe(), os.pipe()
        # A shell puts the descriptors where Chromium looks for them.
        words = ["sh", "-c", f'exec "$@" 3<&{ours[0]} 4>&{theirs[1]}', "sh", PROGRAM, *WORDS, f"--user-data-dir={self.folder.name}", "about:blank"]
        self.running = subprocess.Popen(words, pass_fds=(ours[0], theirs[1]), stdout=subprocess.DEVNULL, stderr=subprocess.DEVNULL)
        os.close(ours[0])
        os.close(theirs[1])
        self.to, self.back, self.held, self.count, self.session = ours[1], theirs[0], b"", 0, None
        self.console, self.loaded = [], 0
        target = next(it for it in self.call("Target.getTargets")["targetInfos"] if it["type"] == "page")
        self.session = self.call("Target.attachToTarget", targetId=target["targetId"], flatten=True)["sessionId"]
        for domain in "Page", "Runtime", "Log":
            self.call(f"{domain}.enable")
        self.call("Emulation.setDeviceMetricsOverride", width=width, height=height, deviceScaleFactor=1, mobile=False)

    def __enter__(self):
        return self

    def __exit__(self, *_):
        os.close(self.to)
        try:
            self.running.wait(timeout=PATIENCE)
        except subprocess.TimeoutExpired:
            self.running.kill()
            self.running.wait()
        os.close(self.back)
        # A process of Chromium's may still write there.
        with contextlib.suppress(OSError):
            self.folder.cleanup()

    def message(self):
        last = time.monotonic() + PATIENCE
        while b"\0" not in self.held:
            assert select.select([self.back], [], [], max(0, last - time.monotonic()))[0], "Chromium doesn't answer"
            more = os.read(self.back, 1 << 20)
            assert more, "Chromium ended"
            self.held += more
        one, _, self.held = self.held.partition(b"\0")
        return json.loads(one)

    def call(self, method, **words):
        """What the method gives. What the page tells meanwhile is kept."""
        self.count += 1
        asked = {"id": self.count, "method": method, "params": words, **({"sessionId": self.session} if self.session else {})}
        text, at = json.dumps(asked).encode() + b"\0", 0
        while at < len(text):
            at += os.write(self.to, text[at:])
        while True:
            told = self.message()
            self.note(told)
            if told.get("id") == self.count:
                assert "error" not in told, (method, told["error"])
                return told["result"]

    def note(self, told):
        method, words = told.get("method"), told.get("params", {})
        if method == "Page.loadEventFired":
            self.loaded += 1
        elif method == "Runtime.exceptionThrown":
            self.console.append(words["exceptionDetails"].get("exception", {}).get("description") or words["exceptionDetails"]["text"])
        elif method == "Runtime.consoleAPICalled":
            self.console.append(str([it.get("value") for it in words["args"]]))
        elif method == "Log.entryAdded":
            self.console.append(words["entry"]["text"])

    def open(self, path, link=""):
        """Loads a page from a file. A question mark makes it another address, so that it is loaded anew if only the link changes."""
        before = self.loaded
        self.call("Page.navigate", url=f"file://{path}?{before}{link}")
        while self.loaded == before:
            self.note(self.message())
        self.settle()

    def settle(self):
        """Waits until what was asked for is drawn."""
        self.tell("new Promise(done => requestAnimationFrame(() => requestAnimationFrame(() => done(1))))")

    def tell(self, expression):
        """The value of an expression in the page."""
        found = self.call("Runtime.evaluate", expression=expression, awaitPromise=True, returnByValue=True)
        assert "exceptionDetails" not in found, (expression, found["exceptionDetails"])
        return found["result"].get("value")

    def center(self, selector):
        """Where the middle of what this selects is on the screen."""
        return self.tell(f"(() => {{ const at = document.querySelector({json.dumps(selector)}).getBoundingClientRect();"
                         " return [at.left + at.width / 2, at.top + at.height / 2]; })()")

    def point(self, x, y, kind="mouseMoved", **words):
        self.call("Input.dispatchMouseEvent", type=kind, x=x, y=y, **words)
        self.settle()

    def touch(self, kind, *place):
        """A finger goes down, moves or, with no place, leaves."""
        self.call("Input.dispatchTouchEvent", type=kind, touchPoints=[{"x": place[0], "y": place[1]}] if place else [])
        self.settle()

    def click(self, selector):
        self.tell(f"document.querySelector({json.dumps(selector)}).scrollIntoView({{ block: 'center' }})")
        at = self.center(selector)
        for kind in "mousePressed", "mouseReleased":
            self.point(*at, kind, button="left", clickCount=1)

    def type(self, selector, text):
        self.tell(f"document.querySelector({json.dumps(selector)}).select()")
        self.call("Input.insertText", text=text)
        self.settle()

    def picture(self, clip=None):
        """A PNG of the screen, or of what a clip says: x, y, width and height."""
        words = {"clip": {**clip, "scale": 1}, "captureBeyondViewport": True} if clip else {}
        return base64.b64decode(self.call("Page.captureScreenshot", format="png", **words)["data"])
