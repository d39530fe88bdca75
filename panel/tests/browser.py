"""Chromium, headless, driven by its own protocol through a pair of pipes: pages are loaded and asked, and dialogs, requests and warnings are noted."""

import base64
import json
import os
import queue
import subprocess
import tempfile
import threading
import time

CHROMIUM = "chromium"
SECONDS = 60
# 3 and 4 are where it reads and writes; the shell, since a program in Python cannot choose its child's numbers
PIPED = ["bash", "-c", 'exec "${@:3}" 3<&"$1" 4>&"$2"', "browser"]
FLAGS = ["--headless=new", "--remote-debugging-pipe", "--disable-gpu", "--disable-dev-shm-usage", "--no-first-run", "--disable-background-networking",
         "--disable-component-update", "--disable-sync", "--hide-scrollbars"]


class Browser:
    """A running browser with one page. `dialogs` has the words of each dialog that opened, `requests` each address that was asked for, `warnings` what
    the browser warned of: a script that was not let run, among others."""

    def __init__(self):
        self.profile = tempfile.TemporaryDirectory(ignore_cleanup_errors=True)
        (theirs_in, ours_out), (ours_in, theirs_out) = os.pipe(), os.pipe()
        # where the user is root, Debian's chromium runs without its own sandbox or not at all
        flags = [*FLAGS, f"--user-data-dir={self.profile.name}", *(["--no-sandbox"] if os.geteuid() == 0 else [])]
        self.process = subprocess.Popen([*PIPED, str(theirs_in), str(theirs_out), CHROMIUM, *flags, "about:blank"], pass_fds=(theirs_in, theirs_out),
                                        stdout=subprocess.DEVNULL, stderr=subprocess.DEVNULL)
        os.close(theirs_in)
        os.close(theirs_out)
        self.to, self.messages, self.count = os.fdopen(ours_out, "wb", buffering=0), queue.Queue(), 0
        self.dialogs, self.requests, self.warnings, self.loaded, self.session = [], [], [], False, None
        threading.Thread(target=self._listen, args=(os.fdopen(ours_in, "rb"),), daemon=True).start()
        page = next(target for target in self.call("Target.getTargets")["targetInfos"] if target["type"] == "page")
        self.session = self.call("Target.attachToTarget", targetId=page["targetId"], flatten=True)["sessionId"]
        for part in ("Page", "Runtime", "Network", "Log", "DOM"):
            self.call(f"{part}.enable")

    def _listen(self, pipe):
        rest = b""
        while taken := pipe.read1(1 << 16):
            *whole, rest = (rest + taken).split(b"\0")
            for message in whole:
                self.messages.put(json.loads(message))
        self.messages.put(None)

    def _next(self, end):
        """The next message, dealt with if it is an event."""
        message = self.messages.get(timeout=max(0.01, end - time.monotonic()))
        if message is None:
            raise RuntimeError("the browser has ended")
        event, told = message.get("method"), message.get("params", {})
        if event == "Page.javascriptDialogOpening":
            self.dialogs.append(told["message"])
            self._send("Page.handleJavaScriptDialog", {"accept": True})
        elif event == "Network.requestWillBeSent":
            self.requests.append(told["request"]["url"])
        elif event == "Log.entryAdded":
            self.warnings.append(told["entry"]["text"])
        elif event == "Page.loadEventFired":
            self.loaded = True
        return message

    def _send(self, method, told):
        self.count += 1
        message = {"id": self.count, "method": method, "params": told, **({"sessionId": self.session} if self.session else {})}
        self.to.write(json.dumps(message).encode() + b"\0")
        return self.count

    def call(self, method, **told):
        """Asks the browser for something, and gives what it answers."""
        number, end = self._send(method, told), time.monotonic() + SECONDS
        while (message := self._next(end)).get("id") != number:
            pass
        if "error" in message:
            raise RuntimeError(f"{method}: {message['error']}")
        return message["result"]

    def evaluate(self, expression):
        """What an expression of the browser's own language gives in the page."""
        given = self.call("Runtime.evaluate", expression=expression, returnByValue=True)
        if "exceptionDetails" in given:
            raise RuntimeError(given["exceptionDetails"])
        return given["result"].get("value")

    def _wait(self):
        end = time.monotonic() + SECONDS
        while not self.loaded:
            self._next(end)
        # what a page does once it is loaded, it does within this
        end = time.monotonic() + 0.3
        while time.monotonic() < end:
            try:
                self._next(end)
            except queue.Empty:
                pass

    def forget(self):
        self.dialogs, self.requests, self.warnings, self.loaded = [], [], [], False

    def load(self, address):
        """Loads a page, and waits until it stands."""
        self.forget()
        self.call("Page.navigate", url=address)
        self._wait()

    def hand_over(self, file, radius):
        """On the panel's page: chooses a file and a radius in the form, and presses its button."""
        root = self.call("DOM.getDocument")["root"]["nodeId"]
        field = self.call("DOM.querySelector", nodeId=root, selector="input[type=file]")["nodeId"]
        self.call("DOM.setFileInputFiles", nodeId=field, files=[str(file)])
        self.forget()
        self.evaluate(f"document.forms[0].elements.radius.value = '{radius}'; document.forms[0].querySelector('button').click()")
        self._wait()

    def screenshot(self, width, height=None):
        """The page as a PNG file's bytes: so many pixels wide, and as high as it is."""
        self.call("Emulation.setDeviceMetricsOverride", width=width, height=height or 600, deviceScaleFactor=1, mobile=False)
        if height is None:
            self.call("Emulation.setDeviceMetricsOverride", width=width, height=int(self.evaluate("document.documentElement.scrollHeight")), deviceScaleFactor=1, mobile=False)
        return base64.b64decode(self.call("Page.captureScreenshot", format="png")["data"])

    def close(self):
        try:
            self.call("Browser.close")
        except (RuntimeError, OSError, queue.Empty):
            self.process.kill()
        self.process.wait()
        self.to.close()
        self.profile.cleanup()
