"""Drives Chromium, where it is installed, over the two pipes that it offers for that."""
import contextlib
import json
import os
import select
import shutil
import subprocess
import tempfile

NAMES = ("chromium", "chromium-browser", "google-chrome")
# Behind so many seconds without a word the browser is taken for dead.
PATIENCE = 60
KEYS = {"ArrowDown": 40, "ArrowUp": 38, "PageDown": 34, "PageUp": 33, "Home": 36, "End": 35}


def program():
    """The browser's program, or None."""
    return next(filter(None, map(shutil.which, NAMES)), None)


class NoBrowser(RuntimeError):
    """The browser does not start here, or it ended."""


class Page:
    """A page in a browser of its own."""

    def __init__(self, process, reads, writes):
        self.process, self.reads, self.writes, self.number = process, reads, writes, 0
        target = self.call("Target.createTarget", url="about:blank")["targetId"]
        self.session = self.call("Target.attachToTarget", targetId=target, flatten=True)["sessionId"]

    session = None

    def call(self, method, **params):
        """What a command of the browser answers."""
        self.number += 1
        command = {"id": self.number, "method": method, "params": params}
        if self.session:
            command["sessionId"] = self.session
        try:
            os.write(self.writes, json.dumps(command).encode() + b"\0")
        except BrokenPipeError:
            raise NoBrowser("the browser ended") from None
        while True:
            answer = json.loads(self.message())
            if answer.get("id") == self.number:
                if "error" in answer:
                    raise RuntimeError("%s: %s" % (method, answer["error"]["message"]))
                return answer["result"]

    waiting = b""

    def message(self):
        while b"\0" not in self.waiting:
            if not select.select([self.reads], [], [], PATIENCE)[0]:
                raise NoBrowser("the browser says nothing")
            part = os.read(self.reads, 65536)
            if not part:
                raise NoBrowser("the browser ended")
            self.waiting += part
        message, _, self.waiting = self.waiting.partition(b"\0")
        return message

    def value(self, script):
        """What a script comes to, in the page."""
        return self.call("Runtime.evaluate", expression=script, returnByValue=True, awaitPromise=True)["result"].get("value")

    def open(self, address):
        self.call("Page.navigate", url=address)
        ready = "new Promise(done => document.readyState === 'complete' ? done() : addEventListener('load', done))"
        while self.value("location.href") != address and not self.value("location.href").startswith(address):
            pass
        self.value(ready)

    def press(self, key):
        for kind in ("keyDown", "keyUp"):
            self.call("Input.dispatchKeyEvent", type=kind, key=key, code=key, windowsVirtualKeyCode=KEYS[key])

    def click(self, selector):
        """A click on the middle of an element."""
        x, y = self.value("{ const found = document.querySelector(%s); found.scrollIntoView({ block: 'center', inline: 'center' });"
                          " const box = found.getBoundingClientRect(); [box.x + box.width / 2, box.y + box.height / 2] }" % json.dumps(selector))
        for kind in ("mousePressed", "mouseReleased"):
            self.call("Input.dispatchMouseEvent", type=kind, x=x, y=y, button="left", clickCount=1)


@contextlib.contextmanager
def page():
    """A page in a browser that is started for it and ended behind it."""
    with tempfile.TemporaryDirectory(ignore_cleanup_errors=True) as profile:
        to_browser, to_us = os.pipe(), os.pipe()

        def hand_over():
            # The browser reads commands from 3 and writes answers to 4. Copies that lie higher stay out of the way.
            reads, writes = os.dup(to_browser[0]), os.dup(to_us[1])
            low, high = max(reads, 10), max(writes, 11)
            os.dup2(reads, low)
            os.dup2(writes, high)
            os.dup2(low, 3)
            os.dup2(high, 4)

        words = [program(), "--headless", "--no-sandbox", "--disable-gpu", "--disable-dev-shm-usage", "--remote-debugging-pipe",
                 "--user-data-dir=" + profile]
        # All that it keeps for itself goes where it may write, whoever runs it.
        kept = dict.fromkeys(("HOME", "XDG_CONFIG_HOME", "XDG_CACHE_HOME"), profile)
        process = subprocess.Popen(words, preexec_fn=hand_over, close_fds=False, stdin=subprocess.DEVNULL,
                                   stdout=subprocess.DEVNULL, stderr=subprocess.DEVNULL, env=dict(os.environ, **kept))
        os.close(to_browser[0])
        os.close(to_us[1])
        try:
            yield Page(process, to_us[0], to_browser[1])
        finally:
            process.kill()
            process.wait()
            os.close(to_us[0])
            os.close(to_browser[1])


def fault():
    """Why no page can be driven here, or None: no browser is installed, or the one that is does not start."""
    if not program():
        return "chromium is not installed"
    try:
        with page() as empty:
            return None if empty.value("1 + 1") == 2 else "chromium runs no script"
    except NoBrowser as told:
        return "%s does not start here: %s" % (program(), told)
