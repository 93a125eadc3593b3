"""A Chromium that is started, and pages in it, by the DevTools protocol."""

import base64
import json
import shutil
import subprocess
import tempfile
import time
import urllib.request
from pathlib import Path
from typing import Any, Optional

from ..entry import Stop
from .websocket import WebSocket

NAMES = ("chromium", "chromium-browser", "google-chrome")
WORDS = ["--headless", "--no-sandbox", "--disable-gpu", "--no-first-run", "--hide-scrollbars"]
# the system chooses the port
PORT = "--remote-debugging-port=0"
# seconds for the browser to start, and for a page to load
PATIENCE = 60
PAUSE = 0.05
NO_BROWSER = 10


def located() -> str:
    """The browser in the path."""
    found = next((path for path in (shutil.which(name) for name in NAMES) if path), None)
    if not found:
        raise Stop("there is no command chromium in the path; Debian has it as the package chromium", NO_BROWSER)
    return found


class Browser:
    """A headless browser with a profile of its own, which is ended with it."""

    def __init__(self) -> None:
        self.folder = tempfile.TemporaryDirectory()
        words = [located(), *WORDS, PORT, f"--user-data-dir={self.folder.name}", "about:blank"]
        null = subprocess.DEVNULL
        self.process = subprocess.Popen(words, stdin=null, stdout=null, stderr=null)
        self.port = self.listened()

    def listened(self) -> int:
        """The port on which it listens, once it does."""
        file, end = Path(self.folder.name, "DevToolsActivePort"), time.monotonic() + PATIENCE
        while time.monotonic() < end and self.process.poll() is None:
            if file.exists() and file.read_text():
                return int(file.read_text().split()[0])
            time.sleep(PAUSE)
        raise Stop("the browser does not start")

    def __enter__(self) -> "Browser":
        return self

    def __exit__(self, *_: object) -> None:
        self.process.terminate()
        self.process.wait()
        # what it still writes into its profile as it ends is of no use
        shutil.rmtree(self.folder.name, ignore_errors=True)

    def page(self) -> "Page":
        """A new page."""
        asked = urllib.request.Request(f"http://127.0.0.1:{self.port}/json/new?about:blank", method="PUT")
        with urllib.request.urlopen(asked, timeout=PATIENCE) as answer:
            address = json.load(answer)["webSocketDebuggerUrl"]
        return Page(WebSocket(self.port, f"/{address.split('/', 3)[3]}", PATIENCE))


class Page:
    """A page: what it said on its console, and which addresses it asked for."""

    def __init__(self, socket: WebSocket):
        self.socket = socket
        self.asked = 0
        self.events: list[Any] = []
        self.errors: list[Any] = []
        self.requests: list[Any] = []
        for domain in ("Runtime", "Log", "Network", "Page"):
            self.call(f"{domain}.enable")

    def take(self) -> dict[str, Any]:
        """The next message, kept if it is an event."""
        message = json.loads(self.socket.receive())
        if "method" in message:
            self.events.append(message["method"])
            self.note(message["method"], message["params"])
        return message

    def note(self, name: str, given: dict[str, Any]) -> None:
        """Keeps errors and requests."""
        if name == "Runtime.exceptionThrown":
            self.errors.append(given["exceptionDetails"].get("exception", {}).get("description", "an exception"))
        elif name == "Runtime.consoleAPICalled" and given["type"] in ("error", "warning", "assert"):
            self.errors.append(str([one.get("value") for one in given["args"]]))
        elif name == "Log.entryAdded" and given["entry"]["level"] in ("error", "warning"):
            self.errors.append(given["entry"]["text"])
        elif name == "Network.requestWillBeSent":
            self.requests.append(given["request"]["url"])

    def call(self, name: str, **given: Any) -> dict[str, Any]:
        """The result of a command to the browser."""
        self.asked += 1
        self.socket.send(json.dumps({"id": self.asked, "method": name, "params": given}))
        while True:
            message = self.take()
            if message.get("id") == self.asked:
                if "error" in message:
                    raise Stop(f"the browser refuses {name}: {message['error']['message']}")
                return message["result"]

    def open(self, path: Path) -> None:
        """Goes to a file, and waits until it is loaded."""
        self.go(path.resolve().as_uri())

    def go(self, address: str) -> None:
        """Goes to an address, and waits until it is loaded."""
        self.events.clear()
        self.call("Page.navigate", url=address)
        while "Page.loadEventFired" not in self.events:
            self.take()

    def value(self, expression: str) -> Any:
        """What an expression of JavaScript gives."""
        found = self.call("Runtime.evaluate", expression=expression, returnByValue=True, awaitPromise=True)
        if "exceptionDetails" in found:
            raise Stop(f"the page fails: {found['exceptionDetails']}")
        return found["result"].get("value")

    def look(self, width: int, height: int, scheme: str) -> None:
        """Shows the page so wide and high, light or dark."""
        self.call("Emulation.setDeviceMetricsOverride", width=width, height=height, deviceScaleFactor=1, mobile=False)
        self.call("Emulation.setEmulatedMedia", features=[{"name": "prefers-color-scheme", "value": scheme}])

    def press(self, key: str, number: int, shift: bool = False) -> None:
        """Presses and releases a key; `number` is its number in Windows."""
        given = {"key": key, "code": key, "windowsVirtualKeyCode": number, "modifiers": 8 * shift}
        for kind in ("keyDown", "keyUp"):
            self.call("Input.dispatchKeyEvent", type=kind, **given)

    def picture(self, quality: Optional[int] = None) -> bytes:
        """A picture of what is shown: PNG, or WebP of a quality."""
        given: dict[str, Any] = {"format": "png"} if quality is None else {"format": "webp", "quality": quality}
        return base64.b64decode(self.call("Page.captureScreenshot", **given)["data"])
