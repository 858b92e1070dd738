"""A browser without a window, driven by DevTools over two pipes: a message is a text of JSON, ended by a zero byte.

It is Chromium as Debian has it; where there is none, `installed` gives None.
"""
import base64
import contextlib
import fcntl
import json
import os
import select
import shutil
import subprocess
import tempfile
import time

NAMES = ("chromium", "chromium-browser", "google-chrome")
OPTIONS = (
    "--headless=new", "--no-sandbox", "--disable-gpu", "--disable-dev-shm-usage", "--remote-debugging-pipe", "--hide-scrollbars",
    "--force-device-scale-factor=1", "--force-color-profile=srgb", "--lang=en-GB", "--window-size=1200,800",
)
SECONDS = 60


class Failed(Exception):
    """The browser doesn't do what it was asked, for the reason that is told."""


def installed():
    """The browser's file, or None."""
    return next(filter(None, map(shutil.which, NAMES)), None)


def high_pipe():
    """The ends of a pipe, with high numbers, so that 3 and 4 are free in the browser."""
    low = os.pipe()
    high = [fcntl.fcntl(number, fcntl.F_DUPFD_CLOEXEC, 10) for number in low]
    for number in low:
        os.close(number)
    return high


class Browser:
    """A browser that runs; `call` asks it for something, and gives the answer. `events` are what it told beside."""

    def __init__(self, folder):
        reading, self.writing = high_pipe()
        self.reading, writing = high_pipe()

        def hand_over():
            os.dup2(reading, 3)
            os.dup2(writing, 4)

        self.process = subprocess.Popen(
            [installed(), *OPTIONS, f"--user-data-dir={folder}", "about:blank"], env={"PATH": os.environ["PATH"], "HOME": folder},
            stdin=subprocess.DEVNULL, stdout=subprocess.DEVNULL, stderr=subprocess.DEVNULL, preexec_fn=hand_over, pass_fds=(3, 4)
        )
        os.close(reading)
        os.close(writing)
        self.asked, self.buffer, self.events = 0, bytearray(), []

    def call(self, method, session=None, **parameters):
        """What the method gives."""
        self.asked += 1
        message = {"id": self.asked, "method": method, "params": parameters, **({"sessionId": session} if session else {})}
        os.write(self.writing, json.dumps(message).encode() + b"\0")
        until = time.monotonic() + SECONDS
        while True:
            answer = self.next_message(until)
            if answer.get("id") == self.asked:
                if "error" in answer:
                    raise Failed(f"{method}: {answer['error']}")
                return answer["result"]
            if "method" in answer:
                self.events.append(answer)

    def next_message(self, until):
        while b"\0" not in self.buffer:
            if not select.select([self.reading], [], [], max(0, until - time.monotonic()))[0]:
                raise Failed(f"the browser hasn't answered after {SECONDS} seconds")
            more = os.read(self.reading, 1 << 20)
            if not more:
                raise Failed("the browser has ended")
            self.buffer += more
        text, _, self.buffer = self.buffer.partition(b"\0")
        return json.loads(text)

    def open(self, address):
        """A page of this address."""
        target = self.call("Target.createTarget", url=address)["targetId"]
        return Page(self, target, self.call("Target.attachToTarget", targetId=target, flatten=True)["sessionId"])

    def end(self):
        with contextlib.suppress(OSError, Failed):
            self.call("Browser.close")
        with contextlib.suppress(subprocess.TimeoutExpired):
            self.process.wait(5)
        self.process.kill()
        self.process.wait()
        os.close(self.reading)
        os.close(self.writing)


class Page:
    """A page of the browser."""

    def __init__(self, browser, target, session):
        self.browser, self.target, self.session = browser, target, session

    def call(self, method, **parameters):
        return self.browser.call(method, self.session, **parameters)

    def evaluate(self, expression):
        """The value of an expression of JavaScript."""
        answer = self.call("Runtime.evaluate", expression=expression, returnByValue=True, awaitPromise=True)
        if "exceptionDetails" in answer:
            raise Failed(f"{expression}: {answer['exceptionDetails']}")
        return answer["result"].get("value")

    def wait(self, expression, wanted=True, seconds=SECONDS):
        """Waits until the expression has this value, and gives after how many seconds; or Failed."""
        began = time.monotonic()
        while True:
            # where a page is being loaded there may be nothing yet to ask
            with contextlib.suppress(Failed):
                got = self.evaluate(expression)
                if got == wanted:
                    return time.monotonic() - began
            if time.monotonic() - began > seconds:
                raise Failed(f"{expression} is {self.evaluate(expression)!r}, and {wanted!r} is wanted")
            time.sleep(0.02)

    def picture(self, **clip):
        """What the page shows, as the bytes of a PNG."""
        asked = {"clip": {**clip, "scale": 1}} if clip else {}
        return base64.b64decode(self.call("Page.captureScreenshot", format="png", **asked)["data"])

    def reload(self):
        self.call("Page.reload")

    def close(self):
        self.browser.call("Target.closeTarget", targetId=self.target)


@contextlib.contextmanager
def a_browser():
    """A browser with a folder of its own."""
    folder = tempfile.mkdtemp(prefix="rsp-browser-")
    browser = Browser(folder)
    try:
        yield browser
    finally:
        browser.end()
        shutil.rmtree(folder, ignore_errors=True)
