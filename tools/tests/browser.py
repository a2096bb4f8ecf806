"""A headless browser, spoken to by the pipe of its debugging protocol."""
import base64
import json
import os
import shutil
import subprocess
import tempfile
import time

BROWSERS = ("chromium", "chromium-browser", "google-chrome")
SECONDS = 120
FRAMES = "new Promise(done => requestAnimationFrame(() => requestAnimationFrame(done)))"


def found():
    """The browser of this machine, or None."""
    return next(filter(None, map(shutil.which, BROWSERS)), None)


class Failed(Exception):
    """The browser didn't do what it was asked."""


class Browser:
    """A browser with one page."""

    def __init__(self, program):
        self.profile = tempfile.mkdtemp()
        read_end, self.to_browser = os.pipe()
        self.from_browser, write_end = os.pipe()

        def pipes():
            os.dup2(read_end, 63)
            os.dup2(write_end, 64)
            os.dup2(63, 3)
            os.dup2(64, 4)

        words = [program, "--headless=new", "--no-sandbox", "--disable-gpu", "--disable-dev-shm-usage",
                 "--disable-background-networking", "--no-first-run", "--remote-debugging-pipe",
                 f"--user-data-dir={self.profile}", "--window-size=1300,800", "about:blank"]
        self.process = subprocess.Popen(words, preexec_fn=pipes, pass_fds=(3, 4), stdin=subprocess.DEVNULL,
                                        stdout=subprocess.DEVNULL, stderr=subprocess.DEVNULL)
        os.close(read_end)
        os.close(write_end)
        os.set_blocking(self.from_browser, False)
        self.number, self.kept, self.session = 0, b"", None
        self.complaints = []

    def message(self, until):
        """The browser's next message."""
        while b"\0" not in self.kept:
            if time.monotonic() > until or self.process.poll() is not None:
                raise Failed(f"the browser ended, or said nothing for {SECONDS} seconds")
            try:
                self.kept += os.read(self.from_browser, 1 << 16)
            except BlockingIOError:
                time.sleep(0.01)
        text, self.kept = self.kept.split(b"\0", 1)
        return json.loads(text)

    def ask(self, method, **values):
        """The answer to a command; complaints that come before it are kept."""
        self.number += 1
        said = {"id": self.number, "method": method, "params": values}
        if self.session:
            said["sessionId"] = self.session
        os.write(self.to_browser, json.dumps(said).encode() + b"\0")
        until = time.monotonic() + SECONDS
        while True:
            heard = self.message(until)
            if heard.get("id") == self.number:
                if "error" in heard:
                    raise Failed(f"{method}: {heard['error']}")
                return heard["result"]
            if is_complaint(heard):
                self.complaints.append(heard["params"])

    def value(self, expression):
        """What an expression of the page gives, after a frame was drawn."""
        answer = self.ask("Runtime.evaluate", expression=f"{FRAMES}.then(() => {expression})",
                          awaitPromise=True, returnByValue=True)
        if "exceptionDetails" in answer:
            raise Failed(f"{expression}: {answer['exceptionDetails']}")
        return answer["result"].get("value")

    def open(self, path, wide=1300, high=800):
        """Opens a page in a window of a size, and waits until it has drawn."""
        self.session = None
        target = self.ask("Target.createTarget", url="about:blank")["targetId"]
        self.session = self.ask("Target.attachToTarget", targetId=target, flatten=True)["sessionId"]
        for part in ("Page", "Runtime", "Log"):
            self.ask(part + ".enable")
        self.ask("Emulation.setDeviceMetricsOverride", width=wide, height=high, deviceScaleFactor=1, mobile=False)
        self.ask("Page.navigate", url="file://" + path)
        until = time.monotonic() + SECONDS
        while not self.value("document.body && document.body.dataset.view"):
            if time.monotonic() > until:
                raise Failed("the page didn't draw")
            time.sleep(0.05)

    def mouse(self, kind, x, y, **more):
        """Something that the mouse does."""
        self.ask("Input.dispatchMouseEvent", type=kind, x=x, y=y, **more)

    def click(self, x, y):
        """A click."""
        self.mouse("mousePressed", x, y, button="left", clickCount=1)
        self.mouse("mouseReleased", x, y, button="left", clickCount=1)

    def key(self, name):
        """A key that is pressed and let go."""
        typed = {"text": name} if len(name) == 1 else {}
        self.ask("Input.dispatchKeyEvent", type="keyDown", key=name, **typed)
        self.ask("Input.dispatchKeyEvent", type="keyUp", key=name)

    def picture(self, path):
        """Writes what is seen as PNG."""
        with open(path, "wb") as file:
            file.write(base64.b64decode(self.ask("Page.captureScreenshot")["data"]))

    def close(self):
        """Ends the browser, and removes its files, to which processes of its own write a while longer."""
        os.close(self.to_browser)
        os.close(self.from_browser)
        self.process.terminate()
        try:
            self.process.wait(10)
        except subprocess.TimeoutExpired:
            self.process.kill()
            self.process.wait()
        for _ in range(100):
            shutil.rmtree(self.profile, ignore_errors=True)
            if not os.path.exists(self.profile):
                break
            time.sleep(0.05)


def is_complaint(heard):
    """Whether a message tells of an exception or an error on the console."""
    told = heard.get("params", {})
    return (heard.get("method") == "Runtime.exceptionThrown"
            or heard.get("method") == "Log.entryAdded" and told["entry"]["level"] == "error"
            or heard.get("method") == "Runtime.consoleAPICalled" and told["type"] in ("error", "assert"))
