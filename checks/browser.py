"""Starts Chromium without a window for the checks, and controls it over its debugging pipe (by the Chrome DevTools protocol)."""
from __future__ import annotations

import base64
import json
import os
import select
import shutil
import subprocess
import tempfile
import time
from pathlib import Path
from typing import Any, Dict, List, Optional

import packages

# The most seconds that an answer of the browser may take. The first one includes its start.
PATIENCE = 60


class NoBrowser(Exception):
    """An error for a browser that doesn't start, doesn't answer in time, or answers with an error."""


def find() -> Optional[str]:
    """Returns the path of Chromium, or `None`. If it is missing, Debian's package is installed first, if that is allowed."""
    return shutil.which("chromium") if packages.has("chromium", "chromium", "fonts-dejavu-core") else None


class Browser:
    """A running browser with one page."""

    def __init__(self, command: str) -> None:
        self.home = tempfile.mkdtemp()
        to_browser, ours = os.pipe()
        theirs, from_browser = os.pipe()
        # The browser reads descriptor 3 and writes to descriptor 4. These pipes may have the same numbers, so they are moved away first.
        script = f'exec 100<&{to_browser} 101>&{from_browser}; exec 3<&100 4>&101 100<&- 101>&-; exec "$0" "$@"'
        words = [command, "--headless", "--remote-debugging-pipe", "--no-sandbox", "--disable-gpu", "--disable-dev-shm-usage", "--no-first-run",
                 "--disable-extensions", "--disable-background-networking", "--disable-component-update", "--mute-audio",
                 f"--user-data-dir={self.home}", "about:blank"]
        # pylint: disable-next=consider-using-with  # `close` ends it
        self.child = subprocess.Popen(["bash", "-c", script, *words], pass_fds=(to_browser, from_browser), stdin=subprocess.DEVNULL,
                                      stdout=subprocess.DEVNULL, stderr=subprocess.DEVNULL, start_new_session=True)
        os.close(to_browser)
        os.close(from_browser)
        self.writer, self.reader, self.left, self.number = ours, theirs, b"", 0
        self.session = ""
        self.complaints: List[str] = []
        """The page's entries in its console and log, and its exceptions."""
        targets = self.ask("Target.getTargets")["targetInfos"]
        page = next(each["targetId"] for each in targets if each["type"] == "page")
        self.session = self.ask("Target.attachToTarget", targetId=page, flatten=True)["sessionId"]
        for domain in ("Page", "Runtime", "Log", "Network"):
            self.ask(f"{domain}.enable")

    def __enter__(self) -> Browser:
        return self

    def __exit__(self, *_: object) -> None:
        self.close()

    def _message(self, until: float) -> Dict[str, Any]:
        """Waits for the browser's next message, and returns it. Adds it to `complaints` if it is one."""
        while b"\0" not in self.left:
            if not select.select([self.reader], [], [], max(0.0, until - time.monotonic()))[0]:
                raise NoBrowser("no answer in time")
            more = os.read(self.reader, 1 << 16)
            if not more:
                raise NoBrowser("the browser has ended")
            self.left += more
        octets, _, self.left = self.left.partition(b"\0")
        message: Dict[str, Any] = json.loads(octets)
        if message.get("method") in ("Runtime.exceptionThrown", "Log.entryAdded", "Runtime.consoleAPICalled"):
            self.complaints.append(json.dumps(message["params"])[:600])
        return message

    def ask(self, method: str, **given: Any) -> Dict[str, Any]:
        """Sends a command of the protocol, and returns its answer."""
        self.number += 1
        about = {"sessionId": self.session} if self.session else {}
        os.write(self.writer, json.dumps({"id": self.number, "method": method, "params": given, **about}).encode() + b"\0")
        until = time.monotonic() + PATIENCE
        while True:
            message = self._message(until)
            if message.get("id") == self.number:
                if "error" in message:
                    raise NoBrowser(f"{method}: {message['error']}")
                result: Dict[str, Any] = message["result"]
                return result

    def open(self, address: str) -> None:
        """Opens a page, and waits until it is loaded."""
        self.ask("Page.navigate", url=address)
        self.wait("document.readyState === 'complete' && location.href !== 'about:blank'")

    def value(self, script: str) -> Any:
        """Evaluates an expression in the page, and returns its value."""
        answer = self.ask("Runtime.evaluate", expression=script, returnByValue=True, awaitPromise=True)
        if "exceptionDetails" in answer:
            raise NoBrowser(f"{script}: {answer['exceptionDetails']}")
        return answer["result"].get("value")

    def wait(self, script: str, seconds: float = 20.0) -> bool:
        """Waits until an expression is true in the page. Returns whether it became true in time."""
        until = time.monotonic() + seconds
        while time.monotonic() < until:
            if self.value(script):
                return True
            time.sleep(0.05)
        return False

    def press(self, key: str) -> None:
        """Presses and releases the key with this name, for example `ArrowDown`."""
        codes = {"ArrowDown": 40, "ArrowUp": 38, "Home": 36, "End": 35, "PageDown": 34, "PageUp": 33, "Escape": 27, "Tab": 9, "Enter": 13}
        for kind in ("keyDown", "keyUp"):
            more = {"text": "\r"} if key == "Enter" and kind == "keyDown" else {}
            self.ask("Input.dispatchKeyEvent", type=kind, key=key, code=key, windowsVirtualKeyCode=codes[key], **more)

    def look(self, width: int, height: int, dark: bool = False) -> None:
        """Sets the page's size, and light or dark colours."""
        self.ask("Emulation.setDeviceMetricsOverride", width=width, height=height, deviceScaleFactor=1, mobile=False)
        self.ask("Emulation.setEmulatedMedia", features=[{"name": "prefers-color-scheme", "value": "dark" if dark else "light"}])

    def picture(self, path: Path, whole: bool = False) -> None:
        """Writes a picture of the page. If `whole` is set, it also has the parts of the page that aren't visible."""
        made = self.ask("Page.captureScreenshot", format="png", captureBeyondViewport=whole)
        path.write_bytes(base64.b64decode(made["data"]))

    def close(self) -> None:
        """Closes the pipes, so that the browser exits. Kills it if that takes more than 10 seconds, and deletes its files."""
        for number in (self.writer, self.reader):
            os.close(number)
        try:
            self.child.wait(10)
        except subprocess.TimeoutExpired:
            self.child.kill()
            self.child.wait()
        shutil.rmtree(self.home, ignore_errors=True)
