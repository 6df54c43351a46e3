"""A chromium without a window, which is told what to do over two pipes, by the DevTools protocol."""

import base64
import json
import os
import select
import shutil
import subprocess
import sys
import tempfile
import time

# in seconds: how long an answer is waited for
PATIENCE = 60
# becomes the program of the words behind two pipes, which it finds under the numbers of the protocol, 3 and 4
LAUNCH = """
import fcntl, os, sys
pipes = [fcntl.fcntl(int(it), fcntl.F_DUPFD, 10) for it in sys.argv[1:3]]
for number, pipe in zip((3, 4), pipes):
    os.dup2(pipe, number)
os.execv(sys.argv[3], sys.argv[3:])
"""
KEYS = {"Enter": (13, "\r"), "Tab": (9, ""), "Space": (32, " ")}


def command():
    """The program, or None where there is none."""
    return shutil.which("chromium") or shutil.which("chromium-browser")


class Browser:
    """One page of a chromium. It is a context manager: behind the block the chromium has ended."""

    def __init__(self):
        self.folder = tempfile.mkdtemp()
        told, self.to = os.pipe()
        self.answers, said = os.pipe()
        words = [command(), "--headless", "--no-sandbox", "--disable-gpu", "--disable-dev-shm-usage"]
        words += ["--hide-scrollbars", "--remote-debugging-pipe", f"--user-data-dir={self.folder}", "about:blank"]
        quiet = {"stdin": subprocess.DEVNULL, "stdout": subprocess.DEVNULL, "stderr": subprocess.DEVNULL}
        launch = [sys.executable, "-c", LAUNCH, str(told), str(said), *words]
        self.process = subprocess.Popen(launch, pass_fds=(told, said), **quiet)
        os.close(told)
        os.close(said)
        self.number, self.buffer, self.events, self.session = 0, b"", [], None
        target = self.call("Target.createTarget", url="about:blank")["targetId"]
        self.session = self.call("Target.attachToTarget", targetId=target, flatten=True)["sessionId"]
        for it in ("Page", "Runtime", "Accessibility", "Log"):
            self.call(f"{it}.enable")

    def __enter__(self):
        return self

    def __exit__(self, *_exception):
        os.close(self.to)
        try:
            self.process.wait(10)
        except subprocess.TimeoutExpired:
            self.process.kill()
            self.process.wait()
        os.close(self.answers)
        shutil.rmtree(self.folder, ignore_errors=True)

    def read(self, until):
        """The next message that the browser sends."""
        while b"\0" not in self.buffer:
            if not select.select([self.answers], [], [], max(until - time.monotonic(), 0))[0]:
                raise TimeoutError("chromium doesn't answer")
            piece = os.read(self.answers, 1 << 16)
            if not piece:
                raise ConnectionError("chromium has ended")
            self.buffer += piece
        message, _, self.buffer = self.buffer.partition(b"\0")
        return json.loads(message)

    def call(self, method, **parameters):
        """What a method of the protocol answers."""
        self.number += 1
        message = {"id": self.number, "method": method, "params": parameters}
        if self.session:
            message["sessionId"] = self.session
        os.write(self.to, json.dumps(message).encode() + b"\0")
        until = time.monotonic() + PATIENCE
        while True:
            answer = self.read(until)
            if answer.get("id") == self.number:
                if "error" in answer:
                    raise RuntimeError(answer["error"])
                return answer["result"]
            self.events.append(answer)

    def wait_for(self, method):
        """Waits until an event has come since the last one was waited for, and forgets those before it."""
        until = time.monotonic() + PATIENCE
        while True:
            for at, it in enumerate(self.events):
                if it.get("method") == method:
                    del self.events[: at + 1]
                    return it["params"]
            self.events.append(self.read(until))

    def open(self, address):
        """Goes to an address, and waits for the page."""
        self.events.clear()
        self.call("Page.navigate", url=address)
        self.wait_for("Page.loadEventFired")

    def ask(self, script):
        """The value of an expression on the page."""
        answer = self.call("Runtime.evaluate", expression=script, returnByValue=True)
        if "exceptionDetails" in answer:
            raise RuntimeError(answer["exceptionDetails"])
        return answer["result"].get("value")

    def wait_until(self, script):
        """Waits until an expression on the page holds, as that the box has the caret, which it has soon behind the load."""
        until = time.monotonic() + PATIENCE
        while not self.ask(script):
            if time.monotonic() > until:
                raise TimeoutError(script)
            time.sleep(0.02)

    def type(self, text):
        """Types a text where the caret is."""
        self.call("Input.insertText", text=text)

    def press(self, key):
        """Presses a key and lets it go."""
        code, text = KEYS[key]
        known = {"key": " " if key == "Space" else key, "code": key, "windowsVirtualKeyCode": code, "text": text}
        self.call("Input.dispatchKeyEvent", type="keyDown" if text else "rawKeyDown", **known)
        self.call("Input.dispatchKeyEvent", type="keyUp", **known)

    def press_and_load(self, key):
        """Presses a key that leads to another page, and waits for that."""
        self.events.clear()
        self.press(key)
        self.wait_for("Page.loadEventFired")

    def look(self, width, is_dark):
        """Makes the window so wide, and day or night."""
        self.call("Emulation.setDeviceMetricsOverride", width=width, height=900, deviceScaleFactor=1, mobile=False)
        scheme = {"name": "prefers-color-scheme", "value": "dark" if is_dark else "light"}
        self.call("Emulation.setEmulatedMedia", features=[scheme])

    def picture(self, path):
        """Writes a picture of the whole page."""
        data = self.call("Page.captureScreenshot", format="png", captureBeyondViewport=True)["data"]
        with open(path, "wb") as it:
            it.write(base64.b64decode(data))
