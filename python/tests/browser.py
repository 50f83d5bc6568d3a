"""Debian's Chromium without windows, the headless shell, spoken to by its DevTools protocol over two pipes."""

import base64
import fcntl
import json
import os
import select
import subprocess
import tempfile
import time
from collections.abc import Iterator
from contextlib import contextmanager
from pathlib import Path
from types import TracebackType
from typing import Any
from urllib.parse import urlsplit

PROGRAM = "/usr/bin/chromium-headless-shell"
"""It takes half the processor time of the whole browser, of which it has all that draws a page."""
WORDS = ["--no-sandbox", "--disable-gpu", "--hide-scrollbars", "--no-first-run"]
WORDS += ["--disable-dev-shm-usage", "--window-size=1280,800", "--remote-debugging-pipe"]
# No process is held ready for another page, or kept for the one before: all pages are drawn by one, and shown by the browser's own.
WORDS += ["--disable-features=BackForwardCache,SpareRendererForSitePerProcess", "--in-process-gpu"]
# Nor are there threads that work ahead or side by side: one alone takes a tenth less.
WORDS += ["--num-raster-threads=1", "--js-flags=--single-threaded"]
WORDS += ["--process-per-site", "--disable-site-isolation-trials", "--renderer-process-limit=1"]
ONE_THREAD = "--disable-threaded-compositing"
"""One thread draws, which takes less, and there are no frames but those that something new needs. No screenshot is made then."""
WAIT = """new Promise((done) => {
  const painted = () => { requestAnimationFrame(() => requestAnimationFrame(done)); setTimeout(done, 1000); };
  if (document.readyState === "complete") painted(); else addEventListener("load", painted);
}).then(() => 1)"""
"""An expression that waits until the script of a page has run, and the page was painted if it is seen: what is clicked before is lost."""
SECONDS_SILENT = 180
"""So long it may say nothing."""


def _pipe() -> tuple[int, int]:
    """A pipe, on descriptors above those on which the protocol is spoken."""
    read, write = os.pipe()
    return _moved(read), _moved(write)


def _moved(descriptor: int) -> int:
    """The same file on a descriptor of at least 10."""
    moved = fcntl.fcntl(descriptor, fcntl.F_DUPFD_CLOEXEC, 10)
    os.close(descriptor)
    return moved


class Browser:
    """A browser with one page. What its console says that is an error, or a thing that it tried to load, is kept."""

    def __init__(self, *words: str) -> None:
        self._folder = tempfile.TemporaryDirectory(prefix="chromium.")
        read, self._to = _pipe()
        self._from, write = _pipe()
        # The protocol is spoken on the descriptors 3 and 4.
        shell = f'exec "$@" 3<&{read} 4>&{write} {read}<&- {write}>&-'
        command = ["bash", "-c", shell, "chromium", PROGRAM, *WORDS, *words]
        self._process = subprocess.Popen(
            [*command, f"--user-data-dir={self._folder.name}", "about:blank"],
            pass_fds=(read, write),
            stdout=subprocess.DEVNULL,
            stderr=subprocess.DEVNULL,
        )
        os.close(read)
        os.close(write)
        self._number = 0
        self._session: str | None = None
        self._data = b""
        self._origin = "file:"
        self.errors: list[str] = []
        self.loaded: list[str] = []
        targets = self.call("Target.getTargets")["targetInfos"]
        page = next(target["targetId"] for target in targets if target["type"] == "page")
        attached = self.call("Target.attachToTarget", targetId=page, flatten=True)
        self._session = attached["sessionId"]
        for domain in ("Page", "Runtime", "Log", "Network"):
            self.call(f"{domain}.enable")

    def __enter__(self) -> "Browser":
        return self

    def __exit__(
        self,
        kind: type[BaseException] | None,
        error: BaseException | None,
        trace: TracebackType | None,
    ) -> None:
        self._session = None
        try:
            self.call("Browser.close")
            self._process.wait(10)
        except (OSError, AssertionError, subprocess.TimeoutExpired):
            self._process.kill()
            self._process.wait()
        os.close(self._to)
        os.close(self._from)
        self._folder.cleanup()

    def call(self, method: str, **parameters: object) -> Any:
        """Calls a method of the protocol, and waits for what it gives."""
        self._number += 1
        message: dict[str, object] = {"id": self._number, "method": method, "params": parameters}
        if self._session is not None:
            message["sessionId"] = self._session
        os.write(self._to, json.dumps(message).encode() + b"\0")
        while True:
            answer = self._next()
            if answer.get("id") == self._number:
                assert "error" not in answer, answer
                return answer["result"]

    def _next(self) -> Any:
        """The next message."""
        while b"\0" not in self._data:
            assert select.select([self._from], [], [], SECONDS_SILENT)[0], "the browser is silent"
            data = os.read(self._from, 1 << 16)
            assert data, "the browser ended"
            self._data += data
        text, _, self._data = self._data.partition(b"\0")
        message = json.loads(text)
        self._note(message.get("method", ""), message.get("params", {}))
        return message

    def _note(self, method: str, event: Any) -> None:
        """Keeps errors, and what is loaded from elsewhere."""
        if method == "Runtime.exceptionThrown":
            self.errors.append(json.dumps(event["exceptionDetails"]))
        if method == "Runtime.consoleAPICalled" and event["type"] in ("error", "warning"):
            self.errors.append(json.dumps(event["args"]))
        if method == "Log.entryAdded":
            self.errors.append(event["entry"]["text"])
        if method == "Network.requestWillBeSent":
            address = event["request"]["url"]
            if not address.startswith(("data:", "file:", "blob:", self._origin)):
                self.loaded.append(address)

    def open(self, file: Path, width: int = 1280, height: int = 800) -> None:
        """Opens a page, and waits until its script has run."""
        self.visit(file.as_uri(), width, height)

    def visit(self, address: str, width: int = 1280, height: int = 800) -> None:
        """Opens an address, and waits until the script of its page has run. What is asked of its own server isn't kept."""
        # What was shown before ends first: it may say something until then.
        self._go("about:blank")
        self.errors, self.loaded = [], []
        parts = urlsplit(address)
        self._origin = f"{parts.scheme}://{parts.netloc}/"
        size = {"width": width, "height": height, "deviceScaleFactor": 1, "mobile": False}
        self.call("Emulation.setDeviceMetricsOverride", **size)
        self._go(address)

    def _go(self, address: str) -> None:
        """Shows an address in place of what is shown, and waits until the script of its page has run."""
        self.call("Page.navigate", url=address)
        for _ in range(100):
            here = self.value("location.href")
            if here == address:
                break
        self.value(WAIT)

    @contextmanager
    def other_page(self, address: str) -> Iterator["Browser"]:
        """This browser with the page that was opened at an address, until it is closed. What goes wrong in it is kept too."""
        first = self._session
        self._session = None
        for _ in range(100):
            targets = self.call("Target.getTargets")["targetInfos"]
            page = next((one["targetId"] for one in targets if one["url"] == address), None)
            if page is not None:
                break
            time.sleep(0.05)
        assert page is not None, targets
        self._session = first
        with self._attached(page):
            yield self

    @contextmanager
    def afresh(self) -> Iterator["Browser"]:
        """This browser with an empty page, which shares nothing with the others, until it is closed."""
        first, self._session = self._session, None
        context = self.call("Target.createBrowserContext")["browserContextId"]
        page = self.call("Target.createTarget", url="about:blank", browserContextId=context)
        self._session = first
        try:
            with self._attached(page["targetId"]):
                yield self
        finally:
            self._session = None
            self.call("Target.disposeBrowserContext", browserContextId=context)
            self._session = first

    @contextmanager
    def tab(self, address: str) -> Iterator["Browser"]:
        """This browser with a page of its own at an address, until it is closed."""
        with self._attached(self.call("Target.createTarget", url="about:blank")["targetId"]):
            self._go(address)
            yield self

    @contextmanager
    def _attached(self, page: str) -> Iterator[None]:
        """Speaks to another page, and closes it at the end."""
        first = self._session
        self._session = None
        self._session = self.call("Target.attachToTarget", targetId=page, flatten=True)["sessionId"]
        try:
            for domain in ("Page", "Runtime", "Log", "Network"):
                self.call(f"{domain}.enable")
            self.value(WAIT)
            yield
        finally:
            self._session = None
            self.call("Target.closeTarget", targetId=page)
            self._session = first

    def value(self, expression: str) -> Any:
        """The value of an expression of its script."""
        found = self.call(
            "Runtime.evaluate", expression=expression, awaitPromise=True, returnByValue=True
        )
        assert "exceptionDetails" not in found, found
        return found["result"].get("value")

    def click(self, selector: str) -> None:
        """Clicks the middle of the first element of a selector, as a mouse does."""
        place = self.value(
            f"(() => {{ const e = document.querySelector({json.dumps(selector)}); e.scrollIntoView({{block: 'center'}});"
            " const r = e.getBoundingClientRect(); return [r.x + r.width / 2, r.y + r.height / 2]; })()"
        )
        for kind in ("mousePressed", "mouseReleased"):
            self.call(
                "Input.dispatchMouseEvent",
                type=kind,
                x=place[0],
                y=place[1],
                button="left",
                clickCount=1,
            )

    def press(self, key: str, text: str = "") -> None:
        """Presses a key."""
        codes = {"ArrowDown": 40, "ArrowUp": 38, "Enter": 13, "Tab": 9}
        code = codes.get(key, ord(key[0].upper()))
        for kind in ("keyDown", "keyUp"):
            has_text = kind == "keyDown" and (text or len(key) == 1)
            more = {"text": text or key} if has_text else {}
            self.call(
                "Input.dispatchKeyEvent",
                type=kind,
                key=key,
                code=key,
                windowsVirtualKeyCode=code,
                **more,
            )

    def screenshot(self, file: Path) -> None:
        """Writes what is seen as a PNG."""
        file.write_bytes(base64.b64decode(self.call("Page.captureScreenshot")["data"]))
