"""A headless Chromium, driven by its DevTools protocol over two pipes. It needs the program
chromium, and no package.
"""
import base64
import fcntl
import json
import os
import select
import shutil
import tempfile
import time
from typing import Any

Message = dict[str, Any]

PATIENCE = 300  # s, for an answer
KEY_CODES = {
    "Enter": 13,
    "Escape": 27,
    " ": 32,
    "PageUp": 33,
    "PageDown": 34,
    "End": 35,
    "Home": 36,
    "ArrowLeft": 37,
    "ArrowUp": 38,
    "ArrowRight": 39,
    "ArrowDown": 40,
}


class Broken(Exception):
    """The browser does not answer, or refuses a command."""


def moved_up(descriptor: int) -> int:
    """The same file under a number that the browser's own two, 3 and 4, do not meet."""
    high = fcntl.fcntl(descriptor, fcntl.F_DUPFD_CLOEXEC, 10)
    os.close(descriptor)
    return high


class Browser:
    def __init__(self, program: str = "chromium") -> None:
        path = shutil.which(program)
        if path is None:
            raise Broken(f"no program {program}")
        self.folder = tempfile.mkdtemp(prefix="headless-")
        its_in, self.out = map(moved_up, os.pipe())
        self.into, its_out = map(moved_up, os.pipe())
        words = [
            path,
            "--headless=new",
            "--remote-debugging-pipe",
            f"--user-data-dir={self.folder}",
            "--hide-scrollbars",
            "--no-first-run",
            "--disable-gpu",
            *(["--no-sandbox"] if os.geteuid() == 0 else []),
        ]
        actions = [
            (os.POSIX_SPAWN_DUP2, its_in, 3),
            (os.POSIX_SPAWN_DUP2, its_out, 4),
            (os.POSIX_SPAWN_OPEN, 1, os.devnull, os.O_WRONLY, 0),
            (os.POSIX_SPAWN_OPEN, 2, os.devnull, os.O_WRONLY, 0),
        ]
        self.process = os.posix_spawn(path, words, os.environ, file_actions=actions)
        os.close(its_in)
        os.close(its_out)
        self.rest, self.events, self.number = b"", list[Message](), 0

    def __enter__(self) -> "Browser":
        return self

    def __exit__(self, *_: object) -> None:
        try:
            self.ask("Browser.close")
        except Broken:
            os.kill(self.process, 9)
        os.waitpid(self.process, 0)
        os.close(self.out)
        os.close(self.into)
        shutil.rmtree(self.folder, ignore_errors=True)

    def ask(self, method: str, session: str | None = None, **parameters: Any) -> Message:
        """What the browser answers to a command. Events that come before it are kept."""
        self.number += 1
        told = {
            "id": self.number,
            "method": method,
            "params": parameters,
            **({"sessionId": session} if session else {}),
        }
        os.write(self.out, json.dumps(told).encode() + b"\0")
        until = time.monotonic() + PATIENCE
        while True:
            message = self.next(until)
            if message is None:
                raise Broken(f"no answer to {method}")
            if message.get("id") != self.number:
                self.events.append(message)
            elif "error" in message:
                raise Broken(f"{method}: {message['error']['message']}")
            else:
                result: Message = message["result"]
                return result

    def next(self, until: float) -> Message | None:
        """The next message, or none until that moment."""
        while b"\0" not in self.rest:
            if not select.select([self.into], [], [], max(until - time.monotonic(), 0))[0]:
                return None
            piece = os.read(self.into, 1 << 20)
            if not piece:
                raise Broken("the browser has ended")
            self.rest += piece
        message, _, self.rest = self.rest.partition(b"\0")
        read: Message = json.loads(message)
        return read

    def tab(self, width: int, height: int, dark: bool = False, scale: int = 1) -> "Tab":
        return Tab(self, width, height, dark, scale)


class Tab:
    """A page of the browser, of a size in pixels, with the system's colors light or dark."""

    def __init__(self, browser: Browser, width: int, height: int, dark: bool, scale: int) -> None:
        self.browser = browser
        self.target = browser.ask("Target.createTarget", url="about:blank")["targetId"]
        self.session = browser.ask("Target.attachToTarget", targetId=self.target, flatten=True)[
            "sessionId"
        ]
        for domain in ("Performance", "Page", "Runtime", "Log", "Network", "Accessibility"):
            self.ask(f"{domain}.enable")
        self.ask(
            "Emulation.setDeviceMetricsOverride",
            width=width,
            height=height,
            deviceScaleFactor=scale,
            mobile=width < 700,
        )
        color = {"name": "prefers-color-scheme", "value": "dark" if dark else "light"}
        self.ask("Emulation.setEmulatedMedia", features=[color])

    def __enter__(self) -> "Tab":
        return self

    def __exit__(self, *_: object) -> None:
        self.browser.ask("Target.closeTarget", targetId=self.target)

    def ask(self, method: str, **parameters: Any) -> Message:
        return self.browser.ask(method, self.session, **parameters)

    def open(self, address: str) -> None:
        self.ask("Page.navigate", url=address)
        self.wait_for("Page.loadEventFired")
        self.settle()

    def wait_for(self, event: str) -> None:
        until = time.monotonic() + PATIENCE
        while not any(self.taken(event)):
            message = self.browser.next(until)
            if message is None:
                raise Broken(f"no {event}")
            self.browser.events.append(message)

    def taken(self, *methods: str) -> list[Message]:
        """The parameters of the events of this page by these names, which are taken away."""
        mine = [
            told
            for told in self.browser.events
            if told.get("sessionId") == self.session and told.get("method") in methods
        ]
        self.browser.events = [told for told in self.browser.events if told not in mine]
        return [told["params"] for told in mine]

    def value(self, script: str) -> Any:
        """What a script comes to, as JSON has it."""
        answer = self.ask(
            "Runtime.evaluate", expression=script, returnByValue=True, awaitPromise=True
        )
        if "exceptionDetails" in answer:
            raise Broken(
                f"{script[:60]}: "
                f"{answer['exceptionDetails'].get('exception', {}).get('description', '')}"
            )
        return answer["result"].get("value")

    def work(self) -> float:
        """How long the page's own thread has worked so far, in ms of a processor."""
        metrics = {
            told["name"]: told["value"] for told in self.ask("Performance.getMetrics")["metrics"]
        }
        return 1000 * float(metrics["ThreadTime"])

    def settle(self) -> None:
        """Lets the page paint what it has still to paint."""
        self.value(
            "new Promise((done) => requestAnimationFrame(() => requestAnimationFrame(() => "
            "done(1))))"
        )

    def press(self, key: str, shift: bool = False) -> None:
        typed = {"text": key} if len(key) == 1 else {}
        for kind in ("keyDown", "keyUp"):
            told = typed if kind == "keyDown" else {}
            code = KEY_CODES.get(key, ord(key[0].upper()))
            self.ask(
                "Input.dispatchKeyEvent",
                type=kind,
                key=key,
                windowsVirtualKeyCode=code,
                modifiers=8 if shift else 0,
                **told,
            )
        self.settle()

    def point(self, x: float, y: float, click: bool = False) -> None:
        self.ask("Input.dispatchMouseEvent", type="mouseMoved", x=x, y=y)
        for kind in ("mousePressed", "mouseReleased") if click else ():
            self.ask("Input.dispatchMouseEvent", type=kind, x=x, y=y, button="left", clickCount=1)
        self.settle()

    def picture(self, path: str) -> None:
        data = self.ask("Page.captureScreenshot", format="png")["data"]
        with open(path, "wb") as stored:
            stored.write(base64.b64decode(data))
