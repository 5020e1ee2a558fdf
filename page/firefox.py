"""A headless Firefox by Marionette, its own protocol: no driver, no package. It listens on this machine alone."""

import json
import pathlib
import shutil
import socket
import subprocess
import tempfile
import time

from driven import Driven

NAME = "Firefox"
START_SECONDS = 60
ANSWER_SECONDS = 120
_PREFERENCES = {
    # (any port that is free)
    "marionette.port": 0,
    "browser.shell.checkDefaultBrowser": False,
    "datareporting.policy.dataSubmissionEnabled": False,
    "toolkit.telemetry.reportingpolicy.firstRun": False,
    "app.update.enabled": False,
    "network.dns.disabled": True,
}
_DARK_OR_LIGHT = "Services.prefs.setIntPref('layout.css.prefers-color-scheme.content-override', arguments[0]);"


def program():
    for name in ("firefox-esr", "firefox"):
        if shutil.which(name):
            return name
    return None


class Page(Driven):
    def __init__(self, url, width=1500, height=1300):
        self.home = pathlib.Path(tempfile.mkdtemp(prefix="page-"))
        lines = [f"user_pref({json.dumps(name)}, {json.dumps(it)});\n" for name, it in _PREFERENCES.items()]
        (self.home / "user.js").write_text("".join(lines))
        quiet = {"stdout": subprocess.DEVNULL, "stderr": subprocess.DEVNULL}
        words = [program(), "--headless", "--marionette", "--no-remote", "--profile", self.home]
        words += ["--remote-allow-system-access"]
        self.process = subprocess.Popen(words, **quiet)
        self.number, self.left, self.link = 0, b"", None
        try:
            self.link = socket.create_connection(("127.0.0.1", self._port()), timeout=ANSWER_SECONDS)
            self._read()
            self.ask("WebDriver:NewSession", capabilities={"alwaysMatch": {"acceptInsecureCerts": False}})
            self.command("SetTimeouts", script=ANSWER_SECONDS * 1000)
            self.size(width, height)
            self.go(url)
        except BaseException:
            self.close()
            raise

    def _port(self):
        """The port that it names in its folder once it listens."""
        file = self.home / "MarionetteActivePort"
        end = time.monotonic() + START_SECONDS
        while time.monotonic() < end:
            if file.exists() and file.read_text().strip():
                return int(file.read_text())
            if self.process.poll() is not None:
                break
            time.sleep(0.05)
        raise RuntimeError("Firefox does not start")

    def _read(self):
        while b":" not in self.left:
            self._receive()
        count, _, self.left = self.left.partition(b":")
        while len(self.left) < int(count):
            self._receive()
        text, self.left = self.left[: int(count)], self.left[int(count) :]
        return json.loads(text)

    def _receive(self):
        got = self.link.recv(1 << 20)
        if not got:
            raise RuntimeError("Firefox ended")
        self.left += got

    def ask(self, method, **params):
        self.number += 1
        text = json.dumps([0, self.number, method, params]).encode()
        self.link.sendall(str(len(text)).encode() + b":" + text)
        while True:
            _, number, error, result = self._read()
            if number == self.number:
                if error:
                    raise RuntimeError(f"{method}: {error['message'][:600]}")
                return result

    def command(self, name, **params):
        return self.ask(f"WebDriver:{name}", **params).get("value")

    def colours(self, scheme):
        self.ask("Marionette:SetContext", value="chrome")
        self.command("ExecuteScript", script=_DARK_OR_LIGHT, args=[{"dark": 0, "light": 1}[scheme]])
        self.ask("Marionette:SetContext", value="content")

    def close(self):
        if self.link:
            try:
                self.ask("Marionette:Quit", flags=["eForceQuit"])
            except (RuntimeError, OSError):
                pass
            self.link.close()
        else:
            self.process.terminate()
        try:
            self.process.wait(10)
        except subprocess.TimeoutExpired:
            self.process.kill()
            self.process.wait()
        shutil.rmtree(self.home, ignore_errors=True)
