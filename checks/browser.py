"""A browser that is driven as a person would, by the plain HTTP of its driver (WebDriver): windows, elements, keys, clicks and
pictures. Elements are named by selectors of CSS, and what isn't there yet is waited for."""
import base64
import contextlib
import http.client
import json
import os
import subprocess
import tempfile
import time

from clients import free_port

ELEMENT = "element-6066-11e4-a52e-4f735466cecf"
# How long is waited for what has to come, in seconds.
PATIENCE = 60


class Failed(AssertionError):
    """What the driver says where a command failed."""


class Browser:
    """A session of chromium without a screen."""

    def __init__(self, port, folder):
        self.port = port
        words = ["--headless=new", "--no-sandbox", "--disable-gpu", "--disable-dev-shm-usage", f"--user-data-dir={folder}/profile"]
        words += ["--window-size=1280,900", "--force-device-scale-factor=1", "--hide-scrollbars", "--no-first-run"]
        words += ["--disable-background-timer-throttling", "--disable-renderer-backgrounding", "--disable-backgrounding-occluded-windows"]
        options = {"args": words, "prefs": {"credentials_enable_service": False}}
        wanted = {"acceptInsecureCerts": True, "goog:chromeOptions": options, "goog:loggingPrefs": {"browser": "ALL"}}
        self.path = ""
        got = self.ask("POST", "/session", {"capabilities": {"alwaysMatch": {"browserName": "chrome", **wanted}}})
        self.path = f"/session/{got['sessionId']}"

    def ask(self, method, rest, body=None):
        connection = http.client.HTTPConnection("127.0.0.1", self.port, timeout=120)
        try:
            text = json.dumps(body if body is not None else {}) if method == "POST" else None
            connection.request(method, self.path + rest, text, {"content-type": "application/json"})
            response = connection.getresponse()
            value = json.loads(response.read())["value"]
        finally:
            connection.close()
        if response.status != 200:
            raise Failed(f"{method} {rest} {body}: {value['error']}: {value['message']}")
        return value

    # --- windows ---

    def open(self, url):
        """A window of its own, which shows this page; its handle."""
        window = self.ask("POST", "/window/new", {"type": "window"})["handle"]
        self.turn_to(window)
        self.ask("POST", "/url", {"url": url})
        return window

    def turn_to(self, window):
        self.ask("POST", "/window", {"handle": window})

    def close(self):
        """Closes the window, and turns to another."""
        self.turn_to(self.ask("DELETE", "/window")[0])

    def show_in(self, width, height, is_dark=False):
        """Shows the page as on a screen of this size, in these colours, and without motion, which takes a processor."""
        size = {"width": width, "height": height, "deviceScaleFactor": 1, "mobile": False}
        self.command("Emulation.setDeviceMetricsOverride", size)
        wanted = {"prefers-color-scheme": "dark" if is_dark else "light", "prefers-reduced-motion": "reduce"}
        self.command("Emulation.setEmulatedMedia", {"features": [{"name": name, "value": value} for name, value in wanted.items()]})

    def command(self, name, words):
        return self.ask("POST", "/goog/cdp/execute", {"cmd": name, "params": words})

    def picture(self, path, height=None):
        """The page as a PNG: the whole, or so much of its height."""
        height = height or self.run("return document.documentElement.scrollHeight")
        width = self.run("return window.innerWidth")
        clip = {"x": 0, "y": 0, "width": width, "height": height, "scale": 1}
        got = self.command("Page.captureScreenshot", {"format": "png", "captureBeyondViewport": True, "clip": clip})
        with open(path, "wb") as file:
            file.write(base64.b64decode(got["data"]))

    def run(self, script, *words):
        return self.ask("POST", "/execute/sync", {"script": script, "args": list(words)})

    def logged(self):
        """What the page has told of errors, among them what its policy forbade."""
        return [it["message"] for it in self.ask("POST", "/se/log", {"type": "browser"})]

    # --- elements ---

    def find(self, selector):
        return self.ask("POST", "/element", {"using": "css selector", "value": selector})[ELEMENT]

    def is_shown(self, selector):
        try:
            return self.ask("GET", f"/element/{self.find(selector)}/displayed")
        except Failed:
            return False

    def text(self, selector):
        """The text as it is seen; empty where the element isn't there or isn't shown."""
        try:
            return self.ask("GET", f"/element/{self.find(selector)}/text")
        except Failed:
            return ""

    def click(self, selector):
        wait(lambda: self.is_shown(selector), selector)
        again(lambda: self.ask("POST", f"/element/{self.find(selector)}/click"))

    def type(self, selector, text):
        wait(lambda: self.is_shown(selector), selector)
        element = self.find(selector)
        self.ask("POST", f"/element/{element}/clear")
        self.ask("POST", f"/element/{element}/value", {"text": text})

    def press(self, *keys):
        """Presses keys one after another, wherever the page has its focus."""
        steps = [{"type": kind, "value": key} for key in keys for kind in ("keyDown", "keyUp")]
        self.ask("POST", "/actions", {"actions": [{"type": "key", "id": "keys", "actions": steps}]})


def again(action, count=20):
    """Does what may fail since the page draws a part anew just then."""
    for turn in range(count):
        try:
            return action()
        except Failed:
            if turn == count - 1:
                raise
            time.sleep(0.1)


def wait(is_so, what, seconds=PATIENCE):
    """Waits until something is so, and gives it."""
    end = time.monotonic() + seconds
    while True:
        if found := is_so():
            return found
        assert time.monotonic() < end, f"it didn't come in {seconds} seconds: {what() if callable(what) else what}"
        time.sleep(0.05)


@contextlib.contextmanager
def browser():
    """A driver and a session, in a folder that is removed."""
    with tempfile.TemporaryDirectory(ignore_cleanup_errors=True) as folder:
        port = free_port()
        environ = {**os.environ, "HOME": folder, "XDG_CONFIG_HOME": folder, "XDG_CACHE_HOME": folder}
        words = ["chromedriver", f"--port={port}", f"--log-path={folder}/log"]
        with subprocess.Popen(words, stdout=subprocess.DEVNULL, stderr=subprocess.DEVNULL, env=environ) as driver:
            session = None
            try:
                session = wait(lambda: is_ready(port), "the driver") and Browser(port, folder)
                yield session
            finally:
                with contextlib.suppress(Exception):
                    session.ask("DELETE", "")
                driver.terminate()


def is_ready(port):
    connection = http.client.HTTPConnection("127.0.0.1", port, timeout=10)
    try:
        connection.request("GET", "/status")
        return json.loads(connection.getresponse().read())["value"]["ready"]
    except (OSError, http.client.HTTPException, ValueError):
        return False
    finally:
        connection.close()
