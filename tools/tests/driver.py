"""A browser that a test drives: Chromium by chromedriver, to which the WebDriver protocol is spoken over HTTP."""

import base64
import json
import os
import shutil
import socket
import subprocess
import tempfile
import time
from http.client import HTTPConnection, HTTPException

from tests.browser import CHROMIUM

DRIVER = shutil.which("chromedriver")
NO_DRIVER = "no Chromium with a driver here: Debian's chromium and chromium-driver have them"
SECONDS = 120
ELEMENT = "element-6066-11e4-a52e-4f735466cecf"
WORDS = ["--headless=new", "--no-sandbox", "--disable-gpu", "--disable-dev-shm-usage", "--window-size=1100,760",
         "--force-color-profile=srgb", "--disable-background-networking", "--no-first-run"]
# The keys that have no character, as WebDriver names them.
KEYS = {"Backspace": "\ue003", "Tab": "\ue004", "Enter": "\ue007", "Shift": "\ue008", "Control": "\ue009", "Escape": "\ue00c",
        "End": "\ue010", "Home": "\ue011", "ArrowLeft": "\ue012", "ArrowUp": "\ue013", "ArrowRight": "\ue014", "ArrowDown": "\ue015",
        "Delete": "\ue017"}


class DriverFault(Exception):
    """What the driver says is wrong."""


class Browser:
    """A Chromium with one window, and a driver."""

    def __init__(self):
        self.room = tempfile.TemporaryDirectory(prefix="driver-")
        with socket.socket() as free:
            free.bind(("127.0.0.1", 0))
            self.port = free.getsockname()[1]
        self.driver = subprocess.Popen([DRIVER, f"--port={self.port}"], stdout=subprocess.DEVNULL, stderr=subprocess.DEVNULL,
                                       start_new_session=True)
        self.path = ""
        try:
            self.wait_for_driver()
            options = {"binary": CHROMIUM, "args": [*WORDS, f"--user-data-dir={self.room.name}"]}
            made = self.ask("POST", "/session", {"capabilities": {"alwaysMatch": {"browserName": "chrome", "goog:chromeOptions": options}}})
            self.path = f"/session/{made['sessionId']}"
        except BaseException:
            self.close()
            raise

    def wait_for_driver(self):
        until = time.monotonic() + SECONDS
        while True:
            try:
                if self.ask("GET", "/status")["ready"]:
                    return
            except OSError:
                if time.monotonic() > until:
                    raise
            time.sleep(0.1)

    def ask(self, method, path, value=None):
        """What the driver answers; raises DriverFault."""
        connection = HTTPConnection("127.0.0.1", self.port, timeout=SECONDS)
        try:
            body = None if method == "GET" else json.dumps(value or {})
            connection.request(method, path, body, {"Content-Type": "application/json"})
            answer = json.loads(connection.getresponse().read())["value"]
        finally:
            connection.close()
        if isinstance(answer, dict) and "error" in answer:
            raise DriverFault(answer.get("message", answer["error"]))
        return answer

    def call(self, path, value=None):
        return self.ask("POST", self.path + path, value)

    def go(self, address):
        self.call("/url", {"url": address})

    def reload(self):
        self.call("/refresh")

    def run(self, script, *words):
        """The value of a script's `return`."""
        return self.call("/execute/sync", {"script": script, "args": list(words)})

    def wait(self, script, *words):
        """Waits until a script's value is true, and gives it."""
        until = time.monotonic() + SECONDS
        while not (found := self.run(script, *words)):
            if time.monotonic() > until:
                raise DriverFault(f"never so: {script}")
            time.sleep(0.02)
        return found

    def keys(self, *keys, held=()):
        """Presses keys one after another; a text is its characters. Keys that are held stay down meanwhile."""
        actions = [{"type": "keyDown", "value": KEYS[key]} for key in held]
        for key in keys:
            for letter in [KEYS[key]] if key in KEYS else key:
                actions += [{"type": "keyDown", "value": letter}, {"type": "keyUp", "value": letter}]
        actions += [{"type": "keyUp", "value": KEYS[key]} for key in held]
        self.call("/actions", {"actions": [{"type": "key", "id": "keyboard", "actions": actions}]})

    def click(self, x, y):
        """Clicks at a place of the window, in px."""
        actions = [{"type": "pointerMove", "duration": 0, "x": round(x), "y": round(y)}, {"type": "pointerDown", "button": 0},
                   {"type": "pointerUp", "button": 0}]
        self.call("/actions", {"actions": [{"type": "pointer", "id": "mouse", "actions": actions}]})

    def windows(self):
        return self.ask("GET", self.path + "/window/handles")

    def open_window(self):
        """A new window, which is the one that is driven then."""
        made = self.call("/window/new", {"type": "tab"})["handle"]
        self.call("/window", {"handle": made})
        return made

    def use(self, window):
        self.call("/window", {"handle": window})

    def picture(self):
        """A screenshot, as the bytes of a PNG."""
        return base64.b64decode(self.ask("GET", self.path + "/screenshot"))

    def close(self):
        """Ends the window and the driver, and what they started."""
        try:
            if self.path:
                self.ask("DELETE", self.path)
        except (OSError, HTTPException, DriverFault, ValueError):
            pass
        self.driver.terminate()
        try:
            self.driver.wait(timeout=10)
        except subprocess.TimeoutExpired:
            os.kill(self.driver.pid, 9)
            self.driver.wait()
        try:
            self.room.cleanup()
        except OSError:
            pass
