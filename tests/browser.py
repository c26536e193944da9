"""A browser without a screen, driven over a pipe: Debian's chromium, for tests of pages."""
import argparse
import base64
import fcntl
import json
import os
import shutil
import signal
import subprocess
import tempfile
import threading
import time
from typing import Any

MOST_SECONDS = 55   # after which a browser is ended, whatever it does
NAME = "chromium"


def is_there() -> bool:
    """Whether there is a browser."""
    return shutil.which(NAME) is not None


class Browser:
    """One page in a browser of its own; used by `with`."""

    def __init__(self, wide: int = 1280, high: int = 800) -> None:
        self.size = wide, high

    def __enter__(self) -> "Browser":
        self.folder = tempfile.TemporaryDirectory()
        (from_us, self.to_browser), (self.from_browser, to_us) = os.pipe(), os.pipe()
        # High numbers, so that neither is 3 or 4, of which the browser reads commands and to which it writes answers.
        inner = [fcntl.fcntl(end, fcntl.F_DUPFD_CLOEXEC, 10) for end in (from_us, to_us)]
        words = [NAME, "--headless=new", "--no-sandbox", "--disable-gpu", "--no-first-run", "--disable-dev-shm-usage",
                 "--remote-debugging-pipe", f"--user-data-dir={self.folder.name}",
                 f"--window-size={self.size[0]},{self.size[1]}", "about:blank"]
        self.process = subprocess.Popen(
            words, pass_fds=(3, 4), preexec_fn=lambda: [os.dup2(end, at) for at, end in enumerate(inner, 3)],
            stdin=subprocess.DEVNULL, stdout=subprocess.DEVNULL, stderr=subprocess.DEVNULL, start_new_session=True)
        for end in (from_us, to_us, *inner):
            os.close(end)
        self.timer = threading.Timer(MOST_SECONDS, self.kill)
        self.timer.start()
        self.number, self.rest = 0, b""
        self.session: str | None = None
        self.events: list[dict[str, Any]] = []
        try:
            self.attach()
        except BaseException:
            self.__exit__()
            raise
        return self

    def attach(self) -> None:
        """To the one page of the browser, so that its events come."""
        page = next(target for target in self.call("Target.getTargets")["targetInfos"] if target["type"] == "page")
        self.session = self.call("Target.attachToTarget", targetId=page["targetId"], flatten=True)["sessionId"]
        for domain in ("Page", "Runtime", "Log", "Accessibility", "Network"):
            self.call(f"{domain}.enable")
        self.call("Emulation.setDeviceMetricsOverride", width=self.size[0], height=self.size[1], deviceScaleFactor=1,
                  mobile=False)

    def __exit__(self, *_: object) -> None:
        self.timer.cancel()
        self.kill()
        self.process.wait()
        os.close(self.to_browser)
        os.close(self.from_browser)
        self.folder.cleanup()

    def kill(self) -> None:
        """Ends the browser and what it has started."""
        try:
            os.killpg(self.process.pid, signal.SIGKILL)
        except ProcessLookupError:
            pass

    def call(self, method: str, **words: Any) -> dict[str, Any]:
        """The answer to a command."""
        self.number += 1
        message = {"id": self.number, "method": method, "params": words}
        if self.session:
            message["sessionId"] = self.session
        os.write(self.to_browser, json.dumps(message).encode() + b"\0")
        while True:
            answer = self.read()
            if answer.get("id") == self.number:
                if "error" in answer:
                    raise RuntimeError(f"{method}: {answer['error']['message']}")
                result: dict[str, Any] = answer["result"]
                return result
            self.events.append(answer)

    def read(self) -> dict[str, Any]:
        """The next message of the browser."""
        while b"\0" not in self.rest:
            piece = os.read(self.from_browser, 1 << 20)
            if not piece:
                raise RuntimeError("the browser has ended")
            self.rest += piece
        message, self.rest = self.rest.split(b"\0", 1)
        answer: dict[str, Any] = json.loads(message)
        return answer

    def open(self, address: str) -> None:
        """Goes to a page."""
        self.call("Page.navigate", url=address)

    def value(self, words: str) -> Any:
        """The value of an expression in the page."""
        found = self.call("Runtime.evaluate", expression=words, returnByValue=True, awaitPromise=True)
        if "exceptionDetails" in found:
            raise RuntimeError(f"{words}: {found['exceptionDetails']}")
        return found["result"].get("value")

    def text(self, selector: str) -> str:
        """What an element says."""
        return str(self.value(f"document.querySelector({json.dumps(selector)}).textContent"))

    def wait(self, words: str) -> None:
        """Until an expression is true; the timer ends what never comes."""
        while not self.value(words):
            time.sleep(0.02)

    def settle(self) -> None:
        """Until what is due is painted."""
        self.value("new Promise((done) => requestAnimationFrame(() => requestAnimationFrame(done)))")

    def click(self, x: float, y: float) -> None:
        """Presses and releases at a point of the page."""
        for kind in ("mousePressed", "mouseReleased"):
            self.call("Input.dispatchMouseEvent", type=kind, x=x, y=y, button="left", clickCount=1)
        self.settle()

    def press(self, key: str, text: str | None = None) -> None:
        """A key of the keyboard."""
        words = {"key": key, "code": key, **({"text": text} if text else {})}
        self.call("Input.dispatchKeyEvent", type="keyDown", **words)
        self.call("Input.dispatchKeyEvent", type="keyUp", key=key, code=key)
        self.settle()

    def middle(self, selector: str) -> list[float]:
        """The middle of an element."""
        return list(self.value(f"""(() => {{
            const box = document.querySelector({json.dumps(selector)}).getBoundingClientRect();
            return [box.x + box.width / 2, box.y + box.height / 2];
        }})()"""))

    def screenshot(self, path: str) -> None:
        """Writes what is seen as .png."""
        with open(path, "wb") as file:
            file.write(base64.b64decode(self.call("Page.captureScreenshot", format="png")["data"]))

    def complaints(self) -> list[str]:
        """What the console holds: exceptions, errors and warnings; and what was asked of a network."""
        found = []
        for event in self.events:
            if event["method"] in ("Runtime.exceptionThrown", "Log.entryAdded", "Runtime.consoleAPICalled"):
                found.append(json.dumps(event["params"]))
            if event["method"] == "Network.requestWillBeSent":
                address = event["params"]["request"]["url"]
                if not address.startswith(("file:", "about:")):
                    found.append(address)
        return found


def main() -> None:
    """Writes a screenshot of a page, as those in docs/ are made."""
    parser = argparse.ArgumentParser(description=main.__doc__)
    parser.add_argument("address", metavar="ADDRESS", help="of a page of report.py, as file:///tmp/a.html#region=1")
    parser.add_argument("output", metavar="FILE", help="the .png that is written")
    parser.add_argument("--dark", action="store_true", help="in dark colours")
    asked = parser.parse_args()
    with Browser() as page:
        if asked.dark:
            page.call("Emulation.setEmulatedMedia", features=[{"name": "prefers-color-scheme", "value": "dark"}])
        page.open(asked.address)
        page.wait("document.documentElement?.dataset.picture !== undefined")
        page.settle()
        page.screenshot(asked.output)


if __name__ == "__main__":
    main()
