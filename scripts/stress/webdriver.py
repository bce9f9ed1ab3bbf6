"""A browser that a script drives: Debian's `chromium` by its `chromedriver`, over WebDriver's HTTP. It ends with the script."""
import base64
import glob
import http.client
import json
import os
import shutil
import signal
import subprocess
import tempfile
import time

import program

ELEMENT = "element-6066-11e4-a52e-4f735466cecf"
KEYS = {"Enter": "\ue007", "Tab": "\ue004", "Escape": "\ue00c", "Backspace": "\ue003", "PageUp": "\ue00e", "PageDown": "\ue00f", "End": "\ue010", "Home": "\ue011",
        "ArrowLeft": "\ue012", "ArrowUp": "\ue013", "ArrowRight": "\ue014", "ArrowDown": "\ue015"}
WAIT = 60
"""Seconds that anything may take here."""


def lacking():
    """What of a browser and its driver isn't there, by the names of Debian's packages."""
    return [package for command, package in (("chromium", "chromium"), ("chromedriver", "chromium-driver")) if not shutil.which(command)]


class Failed(Exception):
    """What the driver says of a command that it can't do."""


class Browser:
    name = "chromium"
    narrowest = 320
    """The least width that the page can be given, in pixels."""
    tells = True
    """Whether what is written to the console can be read."""

    def __init__(self, width=1280, height=800, dark=False):
        self.folder = tempfile.mkdtemp(prefix="browser-")
        self.port = program.free_port()
        words = ["chromedriver", f"--port={self.port}", "--allowed-ips=127.0.0.1"]
        env = {**os.environ, "HOME": self.folder, "TMPDIR": self.folder}
        self.driver = subprocess.Popen(words, stdout=subprocess.DEVNULL, stderr=subprocess.DEVNULL, env=env, preexec_fn=program.end_with_parent)
        self.session = None
        try:
            self.open(width, height, dark)
        except BaseException:
            self.close()
            raise

    def open(self, width, height, dark):
        words = ["--headless=new", "--no-sandbox", "--disable-gpu", "--disable-dev-shm-usage", f"--window-size={width},{height}",
                 f"--user-data-dir={self.folder}/profile", "--force-color-profile=srgb", "--disable-background-networking", "--no-first-run",
                 "--host-resolver-rules=MAP evil.example 127.0.0.1"]
        if dark:
            words.append("--force-dark-mode")
        wanted = {"browserName": "chrome", "goog:chromeOptions": {"args": words, "excludeSwitches": ["hide-scrollbars"], "binary": shutil.which("chromium")}, "goog:loggingPrefs": {"browser": "ALL"}}
        end = time.monotonic() + WAIT
        while True:
            try:
                self.session = self.ask("POST", "/session", {"capabilities": {"alwaysMatch": wanted}})["sessionId"]
                break
            except OSError:
                if time.monotonic() > end or self.driver.poll() is not None:
                    raise
                time.sleep(0.05)
        self.ask("POST", self.at("/timeouts"), {"script": WAIT * 1000, "pageLoad": WAIT * 1000})

    def __enter__(self):
        return self

    def __exit__(self, *_):
        self.close()

    def close(self):
        if self.session:
            try:
                self.ask("DELETE", self.at(""))
            except (OSError, Failed):
                pass
        self.driver.terminate()
        self.driver.wait()
        self.end_browser()
        # (some of its processes may still write there)
        end = time.monotonic() + 5
        while os.path.isdir(self.folder) and time.monotonic() < end:
            shutil.rmtree(self.folder, ignore_errors=True)
            time.sleep(0.05)

    def end_browser(self):
        """Ends the browser where the driver hasn't: the processes that name this script's own profile."""
        mark = f"--user-data-dir={self.folder}/".encode()
        for it in glob.glob("/proc/[0-9]*/cmdline"):
            try:
                with open(it, "rb") as file:
                    if mark in file.read():
                        os.kill(int(it.split("/")[2]), signal.SIGKILL)
            except (OSError, ValueError):
                pass

    # The protocol

    def at(self, path):
        return f"/session/{self.session}{path}"

    def ask(self, method, path, body=None):
        stream = http.client.HTTPConnection("127.0.0.1", self.port, timeout=WAIT + 10)
        try:
            stream.request(method, path, json.dumps(body) if body is not None else None, {"Content-Type": "application/json"})
            found = json.loads(stream.getresponse().read())["value"]
        finally:
            stream.close()
        if isinstance(found, dict) and "error" in found:
            raise Failed(f"{found['error']}: {found['message'].splitlines()[0]}")
        return found

    # What a script does with it

    def go(self, address):
        self.ask("POST", self.at("/url"), {"url": address})

    def run(self, code, *given):
        """What a script of the page returns."""
        return self.ask("POST", self.at("/execute/sync"), {"script": code, "args": list(given)})

    def run_later(self, code, *given):
        """What a script gives to its last argument, a function."""
        return self.ask("POST", self.at("/execute/async"), {"script": code, "args": list(given)})

    def wait(self, code, *given, seconds=WAIT):
        """Waits until a script of the page returns something true, and answers it."""
        end = time.monotonic() + seconds
        while True:
            found = self.run(code, *given)
            if found:
                return found
            if time.monotonic() > end:
                raise Failed(f"not within {seconds} s: {code}")
            time.sleep(0.02)

    def find(self, selector):
        return self.ask("POST", self.at("/element"), {"using": "css selector", "value": selector})[ELEMENT]

    def click(self, selector):
        self.ask("POST", self.at(f"/element/{self.find(selector)}/click"), {})

    def type(self, selector, text):
        self.ask("POST", self.at(f"/element/{self.find(selector)}/value"), {"text": text})

    def act(self, actions):
        self.ask("POST", self.at("/actions"), {"actions": [actions]})

    def press(self, *keys):
        """Keys, by their names or letters, to what has the focus."""
        steps = [{"type": kind, "value": KEYS.get(it, it)} for it in keys for kind in ("keyDown", "keyUp")]
        self.act({"type": "key", "id": "keys", "actions": steps})

    def hover(self, x, y):
        steps = [{"type": "pointerMove", "duration": 0, "x": x + dx, "y": y} for dx in (-2, 0)]
        self.act({"type": "pointer", "id": "mouse", "parameters": {"pointerType": "mouse"}, "actions": steps})

    def click_at(self, x, y):
        steps = [{"type": "pointerMove", "duration": 0, "x": x, "y": y}, {"type": "pointerDown", "button": 0}, {"type": "pointerUp", "button": 0}]
        self.act({"type": "pointer", "id": "mouse", "parameters": {"pointerType": "mouse"}, "actions": steps})

    def wheel(self, x, y, by, steps, pause_ms):
        actions = []
        for _ in range(steps):
            actions += [{"type": "scroll", "x": x, "y": y, "deltaX": 0, "deltaY": by, "duration": 0}, {"type": "pause", "duration": pause_ms}]
        self.act({"type": "wheel", "id": "wheel", "actions": actions})

    def size(self, width, height):
        """The size of what the page sees, also below the least window that a desktop allows."""
        self.cdp("Emulation.setDeviceMetricsOverride", width=width, height=height, deviceScaleFactor=1, mobile=False)

    def scheme(self, name):
        """`light` or `dark`, as the system would say it."""
        self.cdp("Emulation.setEmulatedMedia", features=[{"name": "prefers-color-scheme", "value": name}])

    def cdp(self, command, **given):
        return self.ask("POST", self.at("/goog/cdp/execute"), {"cmd": command, "params": given})

    def picture(self, path):
        with open(path, "wb") as file:
            file.write(self.png())

    def png(self):
        return base64.b64decode(self.ask("GET", self.at("/screenshot")))

    def said(self):
        """What the console has been told since the last time, by level and text."""
        return [(it["level"], it["message"]) for it in self.ask("POST", self.at("/se/log"), {"type": "browser"})]
