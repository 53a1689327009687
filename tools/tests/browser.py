"""A page in Chromium without a window, told what to do over two pipes (Chrome DevTools Protocol)."""
import base64
import json
import os
import select
import shutil
import subprocess
import tempfile
import time
from pathlib import Path

CHROMIUM = shutil.which("chromium") or shutil.which("chromium-browser")
FLAGS = ["--headless", "--disable-gpu", "--no-sandbox", "--remote-debugging-pipe", "--no-first-run", "--disable-extensions"]


class Browser:
    """A browser with one page. It is ended when the block that it is made for is left."""

    def __init__(self, *flags):
        self.folder = tempfile.TemporaryDirectory(ignore_cleanup_errors=True)
        self.number, self.rest, self.events = 0, b"", []
        theirs, self.out = os.pipe()
        self.into, ours = os.pipe()
        # (the browser reads its descriptor 3 and writes its descriptor 4)
        words = [CHROMIUM, *FLAGS, f"--user-data-dir={self.folder.name}", *flags, "about:blank"]
        shell = f'exec "$@" 3<&{theirs} 4>&{ours}'
        quiet = {"stdin": subprocess.DEVNULL, "stdout": subprocess.DEVNULL, "stderr": subprocess.DEVNULL}
        self.process = subprocess.Popen(["bash", "-c", shell, "bash", *words], pass_fds=(theirs, ours), **quiet)
        os.close(theirs)
        os.close(ours)

    def __enter__(self):
        targets = self.call("Target.getTargets")["targetInfos"]
        target = next(found for found in targets if found["type"] == "page")["targetId"]
        self.session = self.call("Target.attachToTarget", targetId=target, flatten=True)["sessionId"]
        for name in ("Page.enable", "Runtime.enable", "Network.enable", "Log.enable"):
            self.ask(name)
        return self

    def __exit__(self, *_):
        self.process.kill()
        self.process.wait()
        os.close(self.into)
        os.close(self.out)
        self.folder.cleanup()

    def message(self, seconds):
        """The next message. Raises TimeoutError if none comes."""
        end = time.monotonic() + seconds
        while b"\0" not in self.rest:
            if not select.select([self.into], [], [], max(0, end - time.monotonic()))[0]:
                raise TimeoutError("the browser says nothing")
            octets = os.read(self.into, 1 << 20)
            if not octets:
                raise EOFError("the browser has ended")
            self.rest += octets
        text, _, self.rest = self.rest.partition(b"\0")
        return json.loads(text)

    def call(self, method, session=None, seconds=60, **words):
        """What the browser answers to a method. Raises RuntimeError if it is an error."""
        self.number += 1
        asked = {"id": self.number, "method": method, "params": words, **({"sessionId": session} if session else {})}
        octets = json.dumps(asked).encode() + b"\0"
        while octets:
            octets = octets[os.write(self.out, octets) :]
        while True:
            found = self.message(seconds)
            if found.get("id") == self.number:
                if "error" in found:
                    raise RuntimeError(found["error"])
                return found["result"]
            self.events.append(found)

    def ask(self, method, **words):
        """What the page answers to a method."""
        return self.call(method, self.session, **words)

    def open(self, path):
        """Opens a file, and gives the seconds until it was loaded."""
        begun, self.events = time.monotonic(), []
        self.ask("Page.navigate", url=Path(path).absolute().as_uri())
        while not any(found.get("method") == "Page.loadEventFired" for found in self.events):
            self.events.append(self.message(60))
        return time.monotonic() - begun

    def value(self, script):
        """The value of an expression in the page, or what it promises."""
        found = self.ask("Runtime.evaluate", expression=script, returnByValue=True, awaitPromise=True)
        if "exceptionDetails" in found:
            raise RuntimeError(found["exceptionDetails"])
        return found["result"].get("value")

    def click(self, script):
        """Clicks by the mouse on the middle of the element that an expression gives."""
        place = f"(() => {{ const e = {script}; e.scrollIntoView({{block: 'center'}}); const r = e.getBoundingClientRect();"
        x, y = self.value(place + " return [r.x + r.width / 2, r.y + r.height / 2]; })()")
        for kind in ("mousePressed", "mouseReleased"):
            self.ask("Input.dispatchMouseEvent", type=kind, x=x, y=y, button="left", clickCount=1)

    def type(self, text):
        """Types a text where the cursor is."""
        self.ask("Input.insertText", text=text)

    def shot(self, path, **words):
        """Puts what the page shows into a file."""
        Path(path).write_bytes(base64.b64decode(self.ask("Page.captureScreenshot", format="png", **words)["data"]))

    def printed(self, path):
        """Prints the page into a PDF."""
        Path(path).write_bytes(base64.b64decode(self.ask("Page.printToPDF", printBackground=True)["data"]))
