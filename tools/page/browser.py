"""A browser without windows, driven by the protocol of its development tools over two pipes."""
import base64
import json
import os
import select
import shutil
import subprocess
import tempfile
import time

NAMES = ("chromium-headless-shell", "chromium", "chromium-browser", "google-chrome")
FLAGS = ("--headless", "--remote-debugging-pipe", "--no-sandbox", "--disable-gpu", "--hide-scrollbars")
SECONDS = 180


class Broken(Exception):
    """What the browser did in place of what was asked."""


def found():
    """The path of a browser, or None."""
    return next((path for path in map(shutil.which, NAMES) if path), None)


class Browser:
    """A browser with one page. Requests and messages of the page are gathered."""

    def __init__(self, program):
        self.folder = tempfile.mkdtemp(prefix="page-browser-")
        to_read, self.to = os.pipe()
        self.come, to_write = os.pipe()
        ends = [os.dup(to_read), os.dup(to_write)]
        start = ["sh", "-c", f'exec "$@" 3<&{ends[0]} 4>&{ends[1]}', "sh"]
        words = [*start, program, *FLAGS, f"--user-data-dir={self.folder}"]
        quiet = {"stdin": subprocess.DEVNULL, "stdout": subprocess.DEVNULL, "stderr": subprocess.DEVNULL}
        self.process = subprocess.Popen(words, pass_fds=ends, **quiet)
        for end in (to_read, to_write, *ends):
            os.close(end)
        self.rest, self.count, self.answers = b"", 0, {}
        self.requests, self.complaints, self.tab = [], [], {}
        target = self.send("Target.createTarget", url="about:blank")["targetId"]
        self.tab = {"sessionId": self.send("Target.attachToTarget", targetId=target, flatten=True)["sessionId"]}
        for domain in ("Page", "Runtime", "Network", "Log"):
            self.send(f"{domain}.enable")

    def close(self):
        self.process.terminate()
        self.process.wait()
        shutil.rmtree(self.folder, ignore_errors=True)

    def read(self, until):
        """Reads what has come, or waits for it until a time."""
        if not select.select([self.come], [], [], max(until - time.monotonic(), 0))[0]:
            raise Broken(f"the browser said nothing for {SECONDS} seconds")
        part = os.read(self.come, 1 << 20)
        if not part:
            raise Broken("the browser has ended")
        *whole, self.rest = (self.rest + part).split(b"\0")
        for text in whole:
            self.take(json.loads(text))

    def take(self, message):
        """Keeps an answer, a request of the page, or a complaint of it."""
        given = message.get("params", {})
        if "id" in message:
            self.answers[message["id"]] = message
        elif message.get("method") == "Network.requestWillBeSent":
            self.requests.append(given["request"]["url"])
        elif message.get("method") == "Runtime.exceptionThrown":
            self.complaints.append(given["exceptionDetails"].get("exception", {}).get("description", "an exception"))
        elif message.get("method") == "Log.entryAdded" and given["entry"]["level"] == "error":
            self.complaints.append(given["entry"]["text"])

    def send(self, method, **given):
        """Sends a command, and waits for its answer."""
        self.count += 1
        number, message = self.count, {"id": self.count, "method": method, "params": given, **self.tab}
        os.write(self.to, json.dumps(message).encode() + b"\0")
        until = time.monotonic() + SECONDS
        while number not in self.answers:
            self.read(until)
        answer = self.answers.pop(number)
        if "error" in answer:
            raise Broken(f"{method}: {answer['error']['message']}")
        return answer["result"]

    def add(self, path):
        """Has each page run a script before its own."""
        self.send("Page.addScriptToEvaluateOnNewDocument", source=path.read_text(encoding="utf-8"))

    def value(self, text):
        """The value of an expression in the page; of a promise, what it gives."""
        came = self.send("Runtime.evaluate", expression=text, awaitPromise=True, returnByValue=True, userGesture=True)
        if "exceptionDetails" in came:
            raise Broken(came["exceptionDetails"].get("exception", {}).get("description", "an exception"))
        return came["result"].get("value")

    def call(self, text, *given):
        """What a function of the page gives for these values."""
        return self.value(f"({text})({', '.join(map(json.dumps, given))})")

    def wait(self, text, seconds=SECONDS):
        """Waits until an expression of the page holds."""
        until = time.monotonic() + seconds
        while not self.value(text):
            if time.monotonic() > until:
                raise Broken(f"after {seconds} seconds there is still not: {text}")
            time.sleep(0.02)

    def size(self, width, height, is_phone=False):
        how = {"deviceScaleFactor": 1, "mobile": is_phone}
        self.send("Emulation.setDeviceMetricsOverride", width=width, height=height, **how)

    def scheme(self, name):
        self.send("Emulation.setEmulatedMedia", features=[{"name": "prefers-color-scheme", "value": name}])

    def open(self, url):
        """Opens a page, and waits until it has asked its scripts."""
        self.send("Page.navigate", url="about:blank")
        self.send("Page.navigate", url=url)
        self.wait("document.readyState === 'complete' && location.href !== 'about:blank'")

    def press(self, key, code, **more):
        """Presses a key once."""
        for kind in ("keyDown", "keyUp"):
            self.send("Input.dispatchKeyEvent", type=kind, key=key, code=key, windowsVirtualKeyCode=code, **more)

    def picture(self, path):
        """Writes a picture of what is seen."""
        with open(path, "wb") as file:
            file.write(base64.b64decode(self.send("Page.captureScreenshot", format="png")["data"]))
