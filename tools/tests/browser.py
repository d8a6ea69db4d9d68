"""Drives a headless Chromium by its own protocol, over two pipes: no other library is needed."""
import json
import os
import subprocess
import tempfile

OPTIONS = ("--headless", "--no-sandbox", "--disable-gpu", "--remote-debugging-pipe")


class Browser:
    """A browser with one page open."""

    def __init__(self, command, address):
        self.profile = tempfile.TemporaryDirectory()
        read, self.to = os.pipe()
        self.back, write = os.pipe()
        words = ["bash", "-c", f'exec "$@" 3<&{read} 4>&{write}', "bash", command, *OPTIONS, f"--user-data-dir={self.profile.name}"]
        self.process = subprocess.Popen(words, pass_fds=(read, write), stdin=subprocess.DEVNULL, stdout=subprocess.DEVNULL, stderr=subprocess.DEVNULL)
        os.close(read)
        os.close(write)
        self.number, self.waiting, self.session = 0, b"", None
        target = self.ask("Target.createTarget", url="about:blank")["targetId"]
        self.session = self.ask("Target.attachToTarget", targetId=target, flatten=True)["sessionId"]
        self.ask("Page.enable")
        self.ask("Page.navigate", url=address)
        self.wait_for("Page.loadEventFired")

    def send(self, method, **words):
        self.number += 1
        message = {"id": self.number, "method": method, "params": words}
        if self.session:
            message["sessionId"] = self.session
        os.write(self.to, json.dumps(message).encode() + b"\0")
        return self.number

    def next(self):
        """The next message of the browser."""
        while b"\0" not in self.waiting:
            more = os.read(self.back, 1 << 16)
            if not more:
                raise EOFError("the browser has ended")
            self.waiting += more
        message, self.waiting = self.waiting.split(b"\0", 1)
        return json.loads(message)

    def ask(self, method, **words):
        number = self.send(method, **words)
        while (message := self.next()).get("id") != number:
            pass
        if "error" in message:
            raise ValueError(message["error"])
        return message["result"]

    def wait_for(self, method):
        while self.next().get("method") != method:
            pass

    def value(self, script):
        """What the script comes to in the page."""
        done = self.ask("Runtime.evaluate", expression=script, returnByValue=True)
        if "exceptionDetails" in done:
            raise ValueError(done["exceptionDetails"])
        return done["result"].get("value")

    def press(self, key, code):
        """Presses a key, as someone at the keyboard does."""
        for kind in ("keyDown", "keyUp"):
            self.ask("Input.dispatchKeyEvent", type=kind, key=key, code=key, windowsVirtualKeyCode=code)

    def point(self, x, y):
        """Moves the mouse there."""
        self.ask("Input.dispatchMouseEvent", type="mouseMoved", x=x, y=y)

    def click(self, x, y):
        """Clicks there, as someone at the mouse does."""
        self.point(x, y)
        for kind in ("mousePressed", "mouseReleased"):
            self.ask("Input.dispatchMouseEvent", type=kind, x=x, y=y, button="left", clickCount=1)

    def close(self):
        try:
            self.session = None
            self.ask("Browser.close")
        except (EOFError, OSError):
            pass
        self.process.wait(20)
        os.close(self.to)
        os.close(self.back)
        self.profile.cleanup()
