"""A browser that a test drives: pages, what they answer, keys, clicks and pictures, by Chromium's remote debugging over a pipe."""

import base64
import json
import os
import pathlib
import shutil
import subprocess
import tempfile
import time

BROWSERS = ("chromium", "chromium-browser", "google-chrome")
WORDS = ("--headless", "--no-sandbox", "--disable-gpu", "--no-first-run", "--disable-extensions", "--remote-debugging-pipe")


class NoBrowser(Exception):
    pass


class Failed(Exception):
    """What the page's own code threw, or wrote to the console as a fault."""


class Browser:
    def __init__(self):
        program = next((name for name in BROWSERS if shutil.which(name)), None)
        if program is None:
            raise NoBrowser
        self.folder = tempfile.TemporaryDirectory(ignore_cleanup_errors=True)
        to_browser, self.to = os.pipe()
        self.by, by_browser = os.pipe()
        # It reads the file 3, and writes to the file 4.
        command = f'exec "$@" 3<&{to_browser} 4>&{by_browser}'
        words = ["bash", "-c", command, "browser", program, *WORDS, f"--user-data-dir={self.folder.name}", "about:blank"]
        self.process = subprocess.Popen(words, pass_fds=(to_browser, by_browser), stdout=subprocess.DEVNULL, stderr=subprocess.DEVNULL)
        os.close(to_browser)
        os.close(by_browser)
        self.received = b""
        self.asked = 0
        self.faults = []

    def close(self):
        try:
            self.ask("Browser.close")
        except (EOFError, BrokenPipeError):
            pass
        self.process.wait(timeout=20)
        os.close(self.to)
        os.close(self.by)
        self.folder.cleanup()

    def __enter__(self):
        return self

    def __exit__(self, *_):
        self.close()

    def message(self):
        while b"\0" not in self.received:
            more = os.read(self.by, 1 << 20)
            if not more:
                raise EOFError("the browser has ended")
            self.received += more
        text, _, self.received = self.received.partition(b"\0")
        return json.loads(text)

    def ask(self, method, session=None, **given):
        """The answer to one command; what the page says meanwhile is kept."""
        self.asked += 1
        number = self.asked
        command = {"id": number, "method": method, "params": given, **({"sessionId": session} if session else {})}
        os.write(self.to, json.dumps(command).encode() + b"\0")
        while True:
            said = self.message()
            if said.get("id") == number:
                if "error" in said:
                    raise Failed(f"{method}: {said['error']['message']}")
                return said["result"]
            self.note(said)

    def note(self, said):
        if said.get("method") == "Runtime.exceptionThrown":
            thrown = said["params"]["exceptionDetails"]
            self.faults.append(thrown.get("exception", {}).get("description") or thrown["text"])
        if said.get("method") == "Log.entryAdded" and said["params"]["entry"]["level"] == "error":
            self.faults.append(said["params"]["entry"]["text"])

    def wait(self, condition, seconds=60):
        """Waits for what is not seen in a page, as a file."""
        end = time.monotonic() + seconds
        while not condition():
            if time.monotonic() > end:
                raise Failed("it does not come")
            time.sleep(0.01)

    def page(self, address, width=1280, height=720, dark=False, phone=False):
        return Page(self, address, width, height, dark, phone)


class Page:
    def __init__(self, browser, address, width, height, dark, phone):
        self.browser = browser
        self.target = browser.ask("Target.createTarget", url="about:blank")["targetId"]
        self.session = browser.ask("Target.attachToTarget", targetId=self.target, flatten=True)["sessionId"]
        for domain in ("Page", "Runtime", "Log"):
            self.ask(f"{domain}.enable")
        self.ask("Emulation.setDeviceMetricsOverride", width=width, height=height, deviceScaleFactor=1, mobile=phone)
        self.ask("Emulation.setEmulatedMedia", features=[{"name": "prefers-color-scheme", "value": "dark" if dark else "light"}])
        self.open(address)

    def ask(self, method, **given):
        return self.browser.ask(method, self.session, **given)

    def open(self, address):
        self.ask("Page.navigate", url="about:blank")
        self.ask("Page.navigate", url=address)
        self.until("document.body?.dataset.ready === 'yes'")

    def run(self, code):
        """What a line of JavaScript gives in the page, as data."""
        said = self.ask("Runtime.evaluate", expression=code, returnByValue=True, awaitPromise=True, replMode=True, userGesture=True)
        if "exceptionDetails" in said:
            raise Failed(said["exceptionDetails"].get("exception", {}).get("description", "thrown"))
        return said["result"].get("value")

    def until(self, condition, seconds=60):
        """Waits for what comes later. It asks again and again, since a page that is left forgets what it was asked."""
        end = time.monotonic() + seconds
        while not self.run(f"Boolean({condition})"):
            if time.monotonic() > end:
                raise Failed(f"this does not come: {condition}; {self.browser.faults}")
            time.sleep(0.01)

    def click(self, selector):
        """Clicks in the middle of an element, as a mouse does."""
        place = self.run(f"(() => {{ const one = document.querySelector({json.dumps(selector)}); one.scrollIntoView({{ block: 'center' }}); const box = one.getBoundingClientRect(); return [box.x + box.width / 2, box.y + box.height / 2]; }})()")
        for kind in ("mousePressed", "mouseReleased"):
            self.ask("Input.dispatchMouseEvent", type=kind, x=place[0], y=place[1], button="left", clickCount=1)

    def key(self, key, code=None, shift=False, ctrl=False):
        code = code or (f"Digit{key}" if key.isdigit() else f"Key{key.upper()}" if len(key) == 1 else key)
        given = {"key": key, "code": code, "modifiers": (8 if shift else 0) + (2 if ctrl else 0)}
        for kind in ("rawKeyDown", "keyUp"):
            self.ask("Input.dispatchKeyEvent", type=kind, **given)

    def type(self, text):
        self.ask("Input.insertText", text=text)

    def picture(self, file, whole=False):
        more = {"captureBeyondViewport": True} if whole else {}
        pathlib.Path(file).write_bytes(base64.b64decode(self.ask("Page.captureScreenshot", format="png", **more)["data"]))

    def holds_no_fault(self):
        self.run("0")
        faults, self.browser.faults = self.browser.faults, []
        if faults:
            raise Failed("; ".join(faults))

    def close(self):
        self.browser.ask("Target.closeTarget", targetId=self.target)
