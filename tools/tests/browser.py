"""A real browser without a window, for tests of pages: Debian's chromium, spoken to over a pipe by its remote debugging."""
from __future__ import annotations

import base64
import json
import os
import select
import shutil
import subprocess
import tempfile
import time
from typing import Any

SECONDS = 300
"""How long an answer may take, also on a machine that is busy."""


def path() -> str | None:
    """Where the browser is, if it is there."""
    return shutil.which("chromium") or shutil.which("chromium-browser")


class Browser:
    """A browser with one page. It asks no network: `asked` has each address that it would have, but for files and data."""

    def __init__(self, width: int = 1400, height: int = 1000) -> None:
        found = path()
        assert found
        self.asked: list[str] = []
        self.said: list[str] = []
        self._number = 0
        self._rest = b""
        self._home = tempfile.mkdtemp(prefix="browser-")
        to_read, self._to = os.pipe()
        self._from, to_write = os.pipe()
        words = [found, "--headless=new", "--no-sandbox", "--disable-gpu", "--disable-dev-shm-usage", "--remote-debugging-pipe",
                 "--no-first-run", "--hide-scrollbars", f"--window-size={width},{height}", f"--user-data-dir={self._home}", "about:blank"]
        self._process = subprocess.Popen(
            ["/bin/sh", "-c", f'exec "$@" 3<&{to_read} 4>&{to_write}', "sh", *words], pass_fds=(to_read, to_write),
            stdout=subprocess.DEVNULL, stderr=subprocess.DEVNULL, stdin=subprocess.DEVNULL)
        os.close(to_read)
        os.close(to_write)
        self._session = ""
        target = self.ask("Target.createTarget", url="about:blank")["targetId"]
        self._session = self.ask("Target.attachToTarget", targetId=target, flatten=True)["sessionId"]
        for domain in ("Page", "Network", "Runtime", "Log"):
            self.ask(f"{domain}.enable")
        self.ask("Emulation.setDeviceMetricsOverride", width=width, height=height, deviceScaleFactor=1, mobile=False)

    def close(self) -> None:
        """Ends it."""
        try:
            self._session = ""
            self.ask("Browser.close")
        except (OSError, EOFError):
            pass
        try:
            self._process.wait(20)
        except subprocess.TimeoutExpired:
            self._process.kill()
            self._process.wait()
        os.close(self._to)
        os.close(self._from)
        shutil.rmtree(self._home, ignore_errors=True)

    def ask(self, method: str, **parameters: Any) -> Any:
        """The answer to a call."""
        self._number += 1
        session = {"sessionId": self._session} if self._session else {}
        os.write(self._to, json.dumps({"id": self._number, "method": method, "params": parameters, **session}).encode() + b"\0")
        while True:
            message = self._next()
            if message.get("id") == self._number:
                if "error" in message:
                    raise OSError(f"{method}: {message['error']['message']}")
                return message["result"]
            self._heard(message)

    def open(self, file: str, is_dark: bool = False) -> None:
        """Loads a file, as on a machine with a light or a dark look, and waits until it is drawn."""
        self.look(is_dark)
        self.value("window.isLeft = true")
        self.ask("Page.navigate", url=f"file://{os.path.abspath(file)}")
        self.wait("!window.isLeft && document.readyState === 'complete' && document.querySelector('.nsewdrag') !== null")

    def look(self, is_dark: bool) -> None:
        """The look that the system asks for."""
        scheme = {"name": "prefers-color-scheme", "value": "dark" if is_dark else "light"}
        self.ask("Emulation.setEmulatedMedia", features=[scheme])

    def value(self, script: str) -> Any:
        """What a script comes to."""
        done = self.ask("Runtime.evaluate", expression=script, returnByValue=True, awaitPromise=True)
        if "exceptionDetails" in done:
            raise AssertionError(done["exceptionDetails"].get("exception", {}).get("description", done["exceptionDetails"]["text"]))
        return done["result"].get("value")

    def wait(self, script: str) -> None:
        """Until a script comes to true."""
        end = time.monotonic() + SECONDS
        while not self.value(script):
            if time.monotonic() > end:
                raise AssertionError(f"not within {SECONDS} seconds: {script}; {self.said}")
            time.sleep(0.05)

    def mouse(self, x: float, y: float, kind: str = "mouseMoved", **more: Any) -> None:
        """The pointer comes to a place of the window."""
        self.ask("Input.dispatchMouseEvent", type=kind, x=x, y=y, **more)

    def click(self, x: float, y: float) -> None:
        """A click at a place of the window."""
        self.mouse(x, y)
        self.mouse(x, y, "mousePressed", button="left", clickCount=1)
        self.mouse(x, y, "mouseReleased", button="left", clickCount=1)

    def picture(self, file: str) -> None:
        """What is seen, as a PNG file."""
        data = self.ask("Page.captureScreenshot", format="png")["data"]
        with open(file, "wb") as out:
            out.write(base64.b64decode(data))

    def _next(self) -> Any:
        end = time.monotonic() + SECONDS
        while b"\0" not in self._rest:
            if not select.select([self._from], [], [], max(0.0, end - time.monotonic()))[0]:
                raise OSError(f"the browser says nothing for {SECONDS} seconds")
            piece = os.read(self._from, 1 << 20)
            if not piece:
                raise EOFError("the browser has ended")
            self._rest += piece
        message, _, self._rest = self._rest.partition(b"\0")
        return json.loads(message)

    def _heard(self, message: Any) -> None:
        told = message.get("params", {})
        if message.get("method") == "Network.requestWillBeSent":
            address = told["request"]["url"]
            if not address.startswith(("file:", "data:", "blob:", "about:")):
                self.asked.append(address)
        elif message.get("method") == "Runtime.exceptionThrown":
            self.said.append(json.dumps(told["exceptionDetails"])[:500])
        elif message.get("method") == "Log.entryAdded":
            self.said.append(f"{told['entry']['level']}: {told['entry']['text']}")
