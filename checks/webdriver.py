"""Chromium by plain HTTP to its driver, and a server of a folder for it."""
import base64
import contextlib
import functools
import http.server
import json
import os
import re
import shutil
import subprocess
import threading
import time
import urllib.error
import urllib.request

ARGUMENTS = ["--headless=new", "--no-sandbox", "--disable-gpu", "--disable-dev-shm-usage", "--no-first-run", "--window-size=1280,1000"]


class Differs(Exception):
    """Something is not as it must be."""


class NotStarted(Exception):
    """There is a browser, and it does not run here."""


def same(what, seen, expected):
    if seen != expected:
        raise Differs(f"{what} should be {str(expected)[:1000]}, not {str(seen)[:1000]}")


def until(look, holds):
    """What is seen once it holds, or at the deadline."""
    deadline = time.monotonic() + 20
    while not holds(seen := look()) and time.monotonic() < deadline:
        time.sleep(0.01)
    return seen


class Browser:
    """A session of Chromium, by plain HTTP to its driver."""

    def __init__(self, driver, downloads):
        self.address = driver
        self.opener = urllib.request.build_opener(urllib.request.ProxyHandler({}))
        options = {"binary": shutil.which("chromium"), "args": ARGUMENTS, "prefs": {"download.default_directory": str(downloads)}}
        wanted = {"goog:chromeOptions": options, "goog:loggingPrefs": {"browser": "ALL"}, "timeouts": {"script": 30000}}
        begun = self.post("", capabilities={"alwaysMatch": wanted})
        self.address += f"/{begun['sessionId']}"
        self.version = begun["capabilities"]["browserVersion"]

    def call(self, method, path, body=None):
        asked = urllib.request.Request(self.address + path, body, {"Content-Type": "application/json"}, method=method)
        try:
            with self.opener.open(asked, timeout=60) as answer:
                return json.load(answer)["value"]
        except urllib.error.HTTPError as error:
            raise Differs(f"the browser says {json.load(error)['value']['message']}")

    def post(self, path, **body):
        return self.call("POST", path, json.dumps(body).encode())

    def find(self, selector):
        (element,) = self.post("/element", using="css selector", value=selector).values()
        return f"/element/{element}"

    def click(self, selector):
        self.post(f"{self.find(selector)}/click")

    def type(self, selector, text):
        self.post(f"{self.find(selector)}/value", text=text)

    def press(self, key):
        strokes = [{"type": kind, "value": key} for kind in ("keyDown", "keyUp")]
        self.post("/actions", actions=[{"type": "key", "id": "keys", "actions": strokes}])

    def script(self, text, *given, kind="sync"):
        return self.post(f"/execute/{kind}", script=text, args=given)

    def heard(self, selector):
        """The role and the label that a screen reader is given."""
        found = self.find(selector)
        return [self.call("GET", f"{found}/computed{what}") for what in ("role", "label")]

    def log(self):
        """What the browser has complained of since the last look."""
        return [each for each in self.post("/se/log", type="browser") if each["level"] in ("WARNING", "SEVERE")]

    def picture(self):
        return base64.b64decode(self.call("GET", "/screenshot"))


class Handler(http.server.SimpleHTTPRequestHandler):
    def log_message(self, *words):
        self.server.asked.append(self.path)


class Server(http.server.ThreadingHTTPServer):
    """A server of a folder, for this machine alone, that keeps what it was asked for."""

    def __init__(self, folder):
        super().__init__(("127.0.0.1", 0), functools.partial(Handler, directory=str(folder)))
        self.address, self.asked = f"http://127.0.0.1:{self.server_port}/", []
        threading.Thread(target=self.serve_forever, daemon=True).start()


def opened(address, downloads):
    try:
        return Browser(address, downloads)
    except Differs as why:
        raise NotStarted(str(why))


@contextlib.contextmanager
def started(folder):
    """The browser by its driver; both keep their files in the folder, and end with this."""
    pipes = dict(stdout=subprocess.PIPE, stderr=subprocess.DEVNULL, text=True)
    with subprocess.Popen(["chromedriver", "--port=0"], env={**os.environ, "TMPDIR": str(folder), "HOME": str(folder)}, **pipes) as driver:
        try:
            port = next(filter(None, (re.search(r"successfully on port (\d+)", line) for line in driver.stdout)), None)
            if port is None:
                raise NotStarted("its driver did not start")
            browser = opened(f"http://127.0.0.1:{port[1]}/session", folder / "downloads")
            try:
                yield browser
            finally:
                browser.call("DELETE", "")
        finally:
            driver.terminate()
