"""Drives a browser without a window, where one is installed: it is spoken to over two pipes, in JSON (the protocol of
Chromium's developer tools), each message ended by a zero byte."""

import json
import os
import select
import shutil
import subprocess
import sys
import tempfile
import time

NAMES = ("chromium", "chromium-browser", "google-chrome", "google-chrome-stable", "chrome-headless-shell")

SECONDS = 30

# The browser reads from 3 and writes to 4, whatever the numbers of the pipes are.
STARTER = """
import fcntl, os, sys
pipes = [fcntl.fcntl(int(number), fcntl.F_DUPFD, 10) for number in sys.argv[1:3]]
os.dup2(pipes[0], 3)
os.dup2(pipes[1], 4)
for pipe in pipes:
    os.close(pipe)
os.execv(sys.argv[3], sys.argv[3:])
"""


def installed():
    return next((path for path in map(shutil.which, NAMES) if path), None)


class Browser:
    def __init__(self, program):
        self.folder = tempfile.mkdtemp()
        there, self.to = os.pipe()
        self.back, here = os.pipe()
        words = ["--headless", "--no-sandbox", "--disable-gpu", "--remote-debugging-pipe", f"--user-data-dir={self.folder}"]
        self.process = subprocess.Popen(
            [sys.executable, "-c", STARTER, str(there), str(here), program, *words],
            pass_fds=(there, here),
            stdin=subprocess.DEVNULL,
            stdout=subprocess.DEVNULL,
            stderr=subprocess.DEVNULL,
        )
        os.close(there)
        os.close(here)
        self.number = 0
        self.unread = b""
        self.events = []
        self.session = None
        try:
            self.begin()
        except (RuntimeError, OSError):
            self.close()
            raise

    def begin(self):
        page = self.ask("Target.createTarget", url="about:blank")["targetId"]
        self.session = self.ask("Target.attachToTarget", targetId=page, flatten=True)["sessionId"]
        for name in ("Page", "Runtime", "Log", "Network"):
            self.ask(f"{name}.enable")

    def receive(self, end):
        while b"\0" not in self.unread:
            ready, _, _ = select.select([self.back], [], [], max(end - time.monotonic(), 0))
            piece = os.read(self.back, 65536) if ready else b""
            if not piece:
                raise RuntimeError("the browser doesn't answer")
            self.unread += piece
        message, self.unread = self.unread.split(b"\0", 1)
        return json.loads(message)

    def ask(self, method, **words):
        self.number += 1
        message = {"id": self.number, "method": method, "params": words}
        if self.session:
            message["sessionId"] = self.session
        os.write(self.to, json.dumps(message).encode() + b"\0")
        end = time.monotonic() + SECONDS
        while True:
            answer = self.receive(end)
            if answer.get("id") == self.number:
                if "error" in answer:
                    raise RuntimeError(f"{method}: {answer['error']}")
                return answer["result"]
            self.events.append(answer)

    def open(self, path, fragment=""):
        self.events = []
        self.ask("Page.navigate", url="about:blank")
        self.ask("Page.navigate", url=f"file://{path}{fragment}")
        end = time.monotonic() + SECONDS
        while not self.is_there():
            if time.monotonic() > end:
                raise RuntimeError("the page isn't there")

    def is_there(self):
        try:
            return self.value("location.protocol + document.readyState") == "file:complete"
        except RuntimeError:
            # (the page that was there before has just gone)
            return False

    def value(self, expression):
        """What the page gives for an expression of its language."""
        answer = self.ask("Runtime.evaluate", expression=expression, returnByValue=True)
        if "exceptionDetails" in answer:
            raise RuntimeError(f"{expression}: {answer['exceptionDetails']}")
        return answer["result"].get("value")

    def press(self, key):
        for kind in ("keyDown", "keyUp"):
            self.ask("Input.dispatchKeyEvent", type=kind, key=key, text=key if kind == "keyDown" else "")

    def complaints(self):
        """The errors of the page's script, what its policy refused, and each address that it asked for but its own."""
        self.value("0")
        found = [event["params"] for event in self.events if event.get("method") == "Runtime.exceptionThrown"]
        found += [event["params"]["entry"]["text"] for event in self.events if event.get("method") == "Log.entryAdded"]
        requests = [event["params"]["request"]["url"] for event in self.events if event.get("method") == "Network.requestWillBeSent"]
        return found + [url for url in requests if not url.startswith(("file:", "about:"))]

    def close(self):
        try:
            self.ask("Browser.close")
            self.process.wait(10)
        except (RuntimeError, OSError, subprocess.TimeoutExpired):
            self.process.kill()
            self.process.wait()
        os.close(self.to)
        os.close(self.back)
        shutil.rmtree(self.folder, ignore_errors=True)
