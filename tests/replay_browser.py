"""A Chromium that is led over its debugging pipe: JSON over descriptors 3 and 4, each message ended by a NUL."""
import fcntl
import json
import os
import select
import shutil
import subprocess
import sys
import tempfile
import time

from measuring import EVERY, Watch

NAMES = ["chromium", "chromium-browser", "google-chrome", "google-chrome-stable"]
# How long an answer may take, in seconds. Time in which the browser, or the test, waits for a processor doesn't count.
SECONDS = 30
# Puts two descriptors in the places of 3 and 4, and becomes the program that is named behind them.
LAUNCHER = "import os, sys; os.dup2(int(sys.argv[1]), 3); os.dup2(int(sys.argv[2]), 4); os.execv(sys.argv[3], sys.argv[3:])"
LEAST_DESCRIPTOR = 10


def program():
    """Where a Chromium is; None where there is none."""
    return next(filter(None, map(shutil.which, NAMES)), None)


class Refused(Exception):
    """What the browser, or the script of a page in it, answered in place of a value."""


def pipe():
    """The reading and the writing end of a pipe, neither of them one of the places 3 and 4."""
    ends = os.pipe()
    moved = [fcntl.fcntl(end, fcntl.F_DUPFD_CLOEXEC, LEAST_DESCRIPTOR) for end in ends]
    for end in ends:
        os.close(end)
    return moved


class Browser:
    """A Chromium with one page. Close it in any case: with Browser() as browser."""

    def __init__(self, path):
        inward, self.outward = pipe()
        self.inward, outward = pipe()
        self.folder = tempfile.mkdtemp()
        words = [
            path, "--headless=new", "--remote-debugging-pipe", "--no-sandbox", "--disable-gpu", "--disable-dev-shm-usage",
            "--disable-background-networking", "--no-first-run", "--hide-scrollbars", f"--user-data-dir={self.folder}",
        ]
        self.process = subprocess.Popen(
            [sys.executable, "-c", LAUNCHER, str(inward), str(outward), *words], pass_fds=(inward, outward),
            stdin=subprocess.DEVNULL, stdout=subprocess.DEVNULL, stderr=subprocess.DEVNULL,
        )
        os.close(inward)
        os.close(outward)
        self.buffer, self.number, self.session, self.events, self.watch = b"", 0, None, [], Watch.here()

    def __enter__(self):
        target = self.call("Target.createTarget", url="about:blank")["targetId"]
        self.session = self.call("Target.attachToTarget", targetId=target, flatten=True)["sessionId"]
        for domain in ("Page", "Runtime", "Log", "Network"):
            self.call(f"{domain}.enable")
        return self

    def __exit__(self, *_):
        try:
            self.session = None
            self.call("Browser.close")
            self.process.wait(SECONDS)
        except (OSError, Refused, subprocess.TimeoutExpired):
            self.process.kill()
            self.process.wait()
        os.close(self.inward)
        os.close(self.outward)
        shutil.rmtree(self.folder, ignore_errors=True)

    def message(self, until):
        """The next message; what isn't an answer is an event."""
        while b"\0" not in self.buffer:
            ready = select.select([self.inward], [], [], EVERY)[0]
            if not ready and self.watch.fair < until:
                continue
            piece = os.read(self.inward, 1 << 20) if ready else b""
            if not piece:
                raise Refused("the browser says nothing" if not ready else "the browser has ended")
            self.buffer += piece
        text, _, self.buffer = self.buffer.partition(b"\0")
        return json.loads(text)

    def call(self, method, **parameters):
        """Calls a method of the debugging protocol; its result."""
        self.number += 1
        asked = {"id": self.number, "method": method, "params": parameters}
        if self.session:
            asked["sessionId"] = self.session
        os.write(self.outward, json.dumps(asked).encode() + b"\0")
        until = self.watch.fair + SECONDS
        while True:
            got = self.message(until)
            if got.get("id") == self.number:
                if "error" in got:
                    raise Refused(f"{method}: {got['error']}")
                return got["result"]
            if "method" in got:
                self.events.append(got)

    def value(self, expression):
        """The value of an expression in the page."""
        got = self.call("Runtime.evaluate", expression=expression, returnByValue=True, awaitPromise=True)
        if "exceptionDetails" in got:
            raise Refused(f"{expression}: {got['exceptionDetails']}")
        return got["result"].get("value")

    def open(self, url):
        """Opens a page and waits until it is loaded; the events until then are forgotten first."""
        self.events = []
        self.call("Page.navigate", url="about:blank")
        self.call("Page.navigate", url=url)
        self.wait("document.readyState === 'complete' && location.href !== 'about:blank'")

    def wait(self, expression):
        """Waits until an expression in the page is so."""
        until = self.watch.fair + SECONDS
        while not self.value(expression):
            if self.watch.fair > until:
                raise Refused(f"it never came to {expression}")
            time.sleep(0.02)
