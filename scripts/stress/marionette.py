"""Debian's `firefox-esr`, driven by its own protocol (Marionette: lines of JSON with their lengths before them), with the calls of
`webdriver.Browser`. It ends with the script."""
import base64
import json
import os
import shutil
import socket
import subprocess
import tempfile
import time

import program
from stress.webdriver import ELEMENT, WAIT, Browser, Failed

PREFERENCES = {"browser.shell.checkDefaultBrowser": False, "datareporting.policy.dataSubmissionEnabled": False, "app.update.auto": False,
               "network.dns.localDomains": "evil.example", "devtools.jsonview.enabled": False, "browser.startup.page": 0,
               "toolkit.telemetry.reportingpolicy.firstRun": False, "security.warn_submit_secure_to_insecure": False}
"""(The last one: a form that another page sends to a name that leads here goes out, in place of a question to the user.)"""


def lacking():
    return [] if shutil.which("firefox-esr") else ["firefox-esr"]


class Firefox(Browser):
    name = "firefox"
    narrowest = 500
    tells = False

    def __init__(self, width=1280, height=890):
        self.folder = tempfile.mkdtemp(prefix="browser-")
        self.port, self.number, self.session = program.free_port(), 0, None
        with open(f"{self.folder}/user.js", "w", encoding="utf-8") as file:
            for name, it in {**PREFERENCES, "marionette.port": self.port}.items():
                file.write(f'user_pref("{name}", {json.dumps(it)});\n')
        env = {**os.environ, "HOME": self.folder, "MOZ_HEADLESS_WIDTH": str(width), "MOZ_HEADLESS_HEIGHT": str(height)}
        words = ["firefox-esr", "--headless", "--no-remote", "--profile", self.folder, "--marionette", "--remote-allow-system-access"]
        self.driver = subprocess.Popen(words, stdout=subprocess.DEVNULL, stderr=subprocess.DEVNULL, env=env, preexec_fn=program.end_with_parent)
        try:
            self.stream = self.connected(time.monotonic() + WAIT)
            self.rest = b""
            self.read()
            self.session = self.do("WebDriver:NewSession")["sessionId"]
            self.do("WebDriver:SetTimeouts", script=WAIT * 1000, pageLoad=WAIT * 1000)
        except BaseException:
            self.close()
            raise

    def connected(self, end):
        while True:
            try:
                return socket.create_connection(("127.0.0.1", self.port), timeout=WAIT + 10)
            except OSError:
                if time.monotonic() > end or self.driver.poll() is not None:
                    raise
                time.sleep(0.1)

    def close(self):
        self.driver.terminate()
        self.driver.wait()
        shutil.rmtree(self.folder, ignore_errors=True)

    # The protocol

    def read(self):
        while True:
            length, colon, rest = self.rest.partition(b":")
            if colon and len(rest) >= int(length):
                self.rest = rest[int(length):]
                return json.loads(rest[:int(length)])
            more = self.stream.recv(1 << 16)
            if not more:
                raise Failed("the browser has ended")
            self.rest += more

    def do(self, command, **given):
        self.number += 1
        data = json.dumps([0, self.number, command, given]).encode()
        self.stream.sendall(b"%d:%s" % (len(data), data))
        _, _, error, result = self.read()
        if error:
            raise Failed(f"{error['error']}: {error['message'].splitlines()[0]}")
        return result

    # What a script does with it

    def go(self, address):
        self.do("WebDriver:Navigate", url=address)

    def run(self, code, *given):
        return self.do("WebDriver:ExecuteScript", script=code, args=list(given))["value"]

    def run_later(self, code, *given):
        return self.do("WebDriver:ExecuteAsyncScript", script=code, args=list(given))["value"]

    def find(self, selector):
        return self.do("WebDriver:FindElement", using="css selector", value=selector)["value"][ELEMENT]

    def click(self, selector):
        self.do("WebDriver:ElementClick", id=self.find(selector))

    def act(self, actions):
        self.do("WebDriver:PerformActions", actions=[actions])

    def size(self, width, height):
        self.do("WebDriver:SetWindowRect", width=width, height=height + 90)

    def scheme(self, name):
        self.do("Marionette:SetContext", value="chrome")
        self.run(f'Services.prefs.setIntPref("layout.css.prefers-color-scheme.content-override", {int(name == "light")})')
        self.do("Marionette:SetContext", value="content")

    def png(self):
        return base64.b64decode(self.do("WebDriver:TakeScreenshot", full=False)["value"])

    def said(self):
        return []
