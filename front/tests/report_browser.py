"""A headless Chromium that opens pages, for the tests of the report."""

import base64
import fcntl
import json
import os
import shutil
import subprocess
from collections.abc import Iterator
from contextlib import contextmanager
from pathlib import Path
from typing import Any

CHROMIUM = shutil.which("chromium") or shutil.which("chromium-browser")
WORDS = ["--headless", "--no-sandbox", "--disable-gpu", "--disable-dev-shm-usage", "--no-first-run", "--hide-scrollbars", "--remote-debugging-pipe"]
# The pipe's ends are far from those that the browser takes them as, which are 3 and 4.
FIRST_END = 50


class Browser:
    """One tab, led over a pipe by messages of the DevTools protocol. `errors` has what the console said was wrong."""

    def __init__(self, profile: Path) -> None:
        commands, self._out = os.pipe()
        self._in, results = os.pipe()
        ends = [fcntl.fcntl(end, fcntl.F_DUPFD, FIRST_END) for end in (commands, results)]
        script = f'exec "$@" 3<&{ends[0]} 4>&{ends[1]}'
        words = [str(CHROMIUM), *WORDS, f"--user-data-dir={profile}", "about:blank"]
        self._child = subprocess.Popen(["bash", "-c", script, "bash", *words], pass_fds=ends, stderr=subprocess.DEVNULL)
        for end in (commands, results, *ends):
            os.close(end)
        self._number, self._waiting = 0, b""
        self._session: str | None = None
        self.errors: list[str] = []
        self._attach()

    def _attach(self) -> None:
        targets = self.call("Target.getTargets")["targetInfos"]
        page = next(it["targetId"] for it in targets if it["type"] == "page")
        self._session = self.call("Target.attachToTarget", targetId=page, flatten=True)["sessionId"]
        for domain in ("Page", "Runtime", "Log"):
            self.call(f"{domain}.enable")

    def call(self, method: str, **words: Any) -> dict[str, Any]:
        """Calls a method of the protocol, and returns its result."""
        self._number += 1
        message: dict[str, Any] = {"id": self._number, "method": method, "params": words}
        if self._session:
            message["sessionId"] = self._session
        os.write(self._out, json.dumps(message).encode() + b"\0")
        while True:
            found = self._message()
            if found.get("id") == self._number:
                assert "error" not in found, found
                result: dict[str, Any] = found["result"]
                return result

    def _message(self) -> dict[str, Any]:
        while b"\0" not in self._waiting:
            piece = os.read(self._in, 1 << 20)
            assert piece, "the browser ended"
            self._waiting += piece
        text, _, self._waiting = self._waiting.partition(b"\0")
        found: dict[str, Any] = json.loads(text)
        self._hear(found)
        return found

    def _hear(self, found: dict[str, Any]) -> None:
        method, words = found.get("method"), found.get("params", {})
        if method == "Log.entryAdded" and words["entry"]["level"] in ("warning", "error"):
            self.errors.append(words["entry"]["text"])
        if method == "Runtime.exceptionThrown":
            self.errors.append(words["exceptionDetails"]["text"])
        if method == "Runtime.consoleAPICalled":
            self.errors.append(str(words["args"]))

    def open(self, page: Path, *, width: int, is_dark: bool = False) -> None:
        scheme = {"name": "prefers-color-scheme", "value": "dark" if is_dark else "light"}
        self.call("Emulation.setDeviceMetricsOverride", width=width, height=900, deviceScaleFactor=1, mobile=False)
        self.call("Emulation.setEmulatedMedia", features=[scheme])
        self.call("Page.navigate", url=page.absolute().as_uri())
        while self._message().get("method") != "Page.loadEventFired":
            pass

    def value(self, script: str) -> Any:
        """What an expression of JavaScript comes to on the page."""
        return self.call("Runtime.evaluate", expression=script, returnByValue=True)["result"].get("value")

    def picture(self, file: Path) -> None:
        """Writes a PNG of the whole page."""
        shown = self.call("Page.captureScreenshot", captureBeyondViewport=True)
        file.write_bytes(base64.b64decode(shown["data"]))

    def printed(self) -> bytes:
        """The page as a PDF."""
        return base64.b64decode(self.call("Page.printToPDF")["data"])

    def close(self) -> None:
        os.close(self._out)
        os.close(self._in)
        self._child.terminate()
        self._child.wait(30)


@contextmanager
def browsing(profile: Path) -> Iterator[Browser]:
    browser = Browser(profile)
    try:
        yield browser
    finally:
        browser.close()
