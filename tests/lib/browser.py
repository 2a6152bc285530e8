"""A Chromium that tests drive: over two pipes, by the words of its DevTools (`--remote-debugging-pipe`)."""

import itertools
import json
import os
import select
import shutil
import signal
import subprocess
import tempfile
import time

CHROMIUMS = ["chromium", "chromium-browser", "google-chrome", "chrome"]


def found():
    """The path of a Chromium, or none."""
    return next((path for name in CHROMIUMS if (path := shutil.which(name))), None)


class Browser:
    """A browser without a window, with pages that are opened one by one."""

    def __init__(self):
        self.room = tempfile.TemporaryDirectory(prefix="browser-")
        ours, theirs = os.pipe(), os.pipe()
        words = [found(), "--headless", "--no-sandbox", "--disable-gpu", "--disable-background-networking", "--disable-component-update", "--no-first-run",
                 f"--user-data-dir={self.room.name}", "--remote-debugging-pipe"]  # fmt: skip
        # (it reads descriptor 3, and writes 4)
        run = ["sh", "-c", f'exec "$@" 3<&{ours[0]} 4>&{theirs[1]}', "sh", *words]
        self.process = subprocess.Popen(run, pass_fds=(ours[0], theirs[1]), stdin=subprocess.DEVNULL, stdout=subprocess.DEVNULL, stderr=subprocess.DEVNULL, start_new_session=True)
        os.close(ours[0]), os.close(theirs[1])
        self.to, self.come = ours[1], theirs[0]
        self.numbers, self.text, self.told = itertools.count(1), b"", []

    def ask(self, method, session=None, seconds=60, **words):
        """Calls a method of the DevTools: its result."""
        number = next(self.numbers)
        os.write(self.to, json.dumps({"id": number, "method": method, "params": words, **({"sessionId": session} if session else {})}).encode() + b"\0")
        until = time.monotonic() + seconds
        while time.monotonic() < until:
            said = self.next(until - time.monotonic())
            if said and said.get("id") == number:
                if "error" in said:
                    raise RuntimeError(f"{method}: {said['error']}")
                return said["result"]
            if said:
                self.told.append(said)
        raise TimeoutError(method)

    def next(self, seconds):
        """The next message; none within these seconds."""
        while b"\0" not in self.text:
            if not select.select([self.come], [], [], max(seconds, 0))[0]:
                return None
            some = os.read(self.come, 1 << 16)
            if not some:
                raise EOFError("the browser ended")
            self.text += some
        said, _, self.text = self.text.partition(b"\0")
        return json.loads(said)

    def open(self, address):
        """Opens a page of its own."""
        target = self.ask("Target.createTarget", url="about:blank")["targetId"]
        session = self.ask("Target.attachToTarget", targetId=target, flatten=True)["sessionId"]
        page = Page(self, session)
        for domain in ("Page", "Runtime", "DOM", "Network"):
            self.ask(f"{domain}.enable", session)
        self.ask("Page.navigate", session, url=address)
        return page

    def close(self):
        os.killpg(self.process.pid, signal.SIGKILL)
        self.process.wait()
        os.close(self.to), os.close(self.come)
        self.room.cleanup()


class Page:
    """A page of the browser."""

    def __init__(self, browser, session):
        self.browser, self.session = browser, session

    def evaluate(self, code):
        """The value of an expression in the page; none while it is between two documents."""
        try:
            return self.browser.ask("Runtime.evaluate", self.session, expression=code, returnByValue=True)["result"].get("value")
        except RuntimeError:
            return None

    def wait(self, code, seconds=30):
        """Waits until an expression is true. How many seconds that took; none where it never was."""
        begun = time.monotonic()
        while time.monotonic() - begun < seconds:
            if self.evaluate(code):
                return time.monotonic() - begun
            time.sleep(0.05)
        return None

    def drop(self, selector, path):
        """Puts a file into a field, as who drops it there does."""
        root = self.browser.ask("DOM.getDocument", self.session)["root"]["nodeId"]
        node = self.browser.ask("DOM.querySelector", self.session, nodeId=root, selector=selector)["nodeId"]
        self.browser.ask("DOM.setFileInputFiles", self.session, files=[path], nodeId=node)

    def requests(self):
        """The addresses that the page asked for so far."""
        self.evaluate("1")
        return [it["params"]["request"]["url"] for it in self.browser.told if it.get("method") == "Network.requestWillBeSent" and it.get("sessionId") == self.session]
