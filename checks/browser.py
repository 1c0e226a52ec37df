"""Chromium without a window, asked through its debugging pipe (no network): a page is opened and its DOM is read."""
import fcntl
import json
import os
import pathlib
import select
import shutil
import signal
import tempfile
import time

NAME = "chromium"
PACKAGE = "chromium"
SECONDS = 60
WORDS = ["--headless", "--no-sandbox", "--disable-gpu", "--disable-dev-shm-usage", "--hide-scrollbars", "--no-first-run", "--remote-debugging-pipe"]
# Collects what the policy of a page refused.
WATCH = "window.refused=[];document.addEventListener('securitypolicyviolation',e=>refused.push(e.violatedDirective+' '+e.blockedURI));"


class Late(Exception):
    """The browser did not answer in time, or went away."""


def pipe():
    """Both ends of a pipe, with numbers above those that the browser takes."""
    return [fcntl.fcntl(end, fcntl.F_DUPFD_CLOEXEC, 10) for end in os.pipe()]


class Browser:
    """A browser with one page. `events` is what it told that nobody asked for."""

    def __init__(self):
        self.folder, self.events, self.left, self.number, self.session = tempfile.mkdtemp(), [], b"", 0, None
        given, self.write = pipe()
        self.read, taken = pipe()
        words = [NAME, *WORDS, f"--user-data-dir={self.folder}", "about:blank"]
        nothing = [(os.POSIX_SPAWN_OPEN, end, os.devnull, os.O_RDWR, 0) for end in (0, 1, 2)]
        ends = [(os.POSIX_SPAWN_DUP2, given, 3), (os.POSIX_SPAWN_DUP2, taken, 4)]
        self.process = os.posix_spawn(shutil.which(NAME), words, os.environ, file_actions=[*nothing, *ends], setpgroup=0)
        os.close(given)
        os.close(taken)
        try:
            target = next(one for one in self.call("Target.getTargets")["targetInfos"] if one["type"] == "page")
            self.session = self.call("Target.attachToTarget", targetId=target["targetId"], flatten=True)["sessionId"]
            for domain in ("Page", "Runtime", "Network"):
                self.call(f"{domain}.enable")
            self.call("Page.addScriptToEvaluateOnNewDocument", source=WATCH)
            self.call("Emulation.setDeviceMetricsOverride", width=1280, height=900, deviceScaleFactor=1, mobile=False)
        except BaseException:
            self.close()
            raise

    def message(self, ends):
        """The next message."""
        while b"\0" not in self.left:
            if not select.select([self.read], [], [], max(0, ends - time.monotonic()))[0]:
                raise Late("no answer")
            piece = os.read(self.read, 1 << 20)
            if not piece:
                raise Late("the browser went away")
            self.left += piece
        text, _, self.left = self.left.partition(b"\0")
        return json.loads(text)

    def call(self, method, **given):
        """What a method answers."""
        self.number += 1
        ends = time.monotonic() + SECONDS
        asked = {"id": self.number, "method": method, "params": given} | ({"sessionId": self.session} if self.session else {})
        left = json.dumps(asked).encode() + b"\0"
        while left:
            left = left[os.write(self.write, left) :]
        while True:
            told = self.message(ends)
            if told.get("id") == self.number:
                if "error" in told:
                    raise Late(f"{method}: {told['error']}")
                return told["result"]
            self.events.append(told)

    def open(self, path):
        """Opens a file, and waits until it is loaded."""
        self.events, ends = [], time.monotonic() + SECONDS
        self.call("Page.navigate", url=pathlib.Path(path).resolve().as_uri())
        while not any(one.get("method") == "Page.loadEventFired" for one in self.events):
            self.events.append(self.message(ends))

    def ask(self, script):
        """The value of a script, run in the page by the browser: the page's policy does not count for it."""
        told = self.call("Runtime.evaluate", expression=script, returnByValue=True, awaitPromise=True)
        if "exceptionDetails" in told:
            raise Late(str(told["exceptionDetails"])[:500])
        return told["result"].get("value")

    def scheme(self, name):
        """Whether the reader prefers light or dark."""
        self.call("Emulation.setEmulatedMedia", media="", features=[{"name": "prefers-color-scheme", "value": name}])

    def close(self):
        """Ends the browser, by its number where it does not end when it is asked to."""
        try:
            self.session = None
            self.call("Browser.close")
        except (Late, OSError):
            os.killpg(self.process, signal.SIGTERM)
        os.close(self.write)
        os.close(self.read)
        ends = time.monotonic() + 10
        while not os.waitpid(self.process, os.WNOHANG)[0]:
            if time.monotonic() > ends:
                os.killpg(self.process, signal.SIGKILL)
                os.waitpid(self.process, 0)
                break
            time.sleep(0.05)
        shutil.rmtree(self.folder, ignore_errors=True)
