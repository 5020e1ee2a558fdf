"""WebKit as GTK has it, by its driver (Debian: webkit2gtk-driver). It wants a display, of Xvfb where there is none."""

import glob
import http.client
import json
import os
import re
import shutil
import signal
import socket
import subprocess
import time

from driven import Driven

NAME = "WebKit"
START_SECONDS = 60
ANSWER_SECONDS = 120
_BROWSERS = "/usr/lib/*/webkit2gtk-4.*/MiniBrowser"
# The commands of WebDriver that are used here, and where they go.
_COMMANDS = {
    "Navigate": "url", "ExecuteAsyncScript": "execute/async", "SetWindowRect": "window/rect",
    "PerformActions": "actions", "SetTimeouts": "timeouts",
}


def _displays():
    """How a program gets a display: as it is, or by Xvfb; nothing where there is neither."""
    if os.environ.get("DISPLAY"):
        return []
    return ["xvfb-run", "-a", "-s", "-screen 0 1600x1500x24"] if shutil.which("xvfb-run") else None


def program():
    there = shutil.which("WebKitWebDriver") and glob.glob(_BROWSERS) and _displays() is not None
    return "WebKitWebDriver" if there else None


class Page(Driven):
    def __init__(self, url, width=1500, height=1300):
        with socket.socket() as free:
            free.bind(("127.0.0.1", 0))
            self.port = free.getsockname()[1]
        quiet = {"stdout": subprocess.DEVNULL, "stderr": subprocess.DEVNULL}
        words = [*_displays(), program(), f"--port={self.port}"]
        self.process = subprocess.Popen(words, start_new_session=True, **quiet)
        self.session = None
        try:
            self._begin()
            self.command("SetTimeouts", script=ANSWER_SECONDS * 1000)
            self.size(width, height)
            self.go(url)
        except BaseException:
            self.close()
            raise

    def _begin(self):
        options = {"binary": sorted(glob.glob(_BROWSERS))[-1], "args": ["--automation"]}
        words = {"capabilities": {"alwaysMatch": {"webkitgtk:browserOptions": options}}}
        end = time.monotonic() + START_SECONDS
        while True:
            try:
                self.session = self._ask("POST", "/session", words)["sessionId"]
                return
            except OSError:
                if time.monotonic() > end or self.process.poll() is not None:
                    raise RuntimeError("WebKit does not start") from None
            time.sleep(0.1)

    def _ask(self, verb, path, words=None):
        link = http.client.HTTPConnection("127.0.0.1", self.port, timeout=ANSWER_SECONDS)
        try:
            body = json.dumps(words) if words is not None else None
            link.request(verb, path, body, {"Content-Type": "application/json"})
            got = link.getresponse()
            value = json.loads(got.read())["value"]
        finally:
            link.close()
        if got.status != http.client.OK:
            raise RuntimeError(f"{path}: {re.sub(r'[^ -~]+', ' ', str(value))[:600]}")
        return value

    def command(self, name, **params):
        if name == "TakeScreenshot":
            return self._ask("GET", f"/session/{self.session}/screenshot")
        return self._ask("POST", f"/session/{self.session}/{_COMMANDS[name]}", params)

    def close(self):
        try:
            if self.session:
                self._ask("DELETE", f"/session/{self.session}")
        except (RuntimeError, OSError):
            pass
        # (xvfb-run hands no signal on to the driver and Xvfb, which are in its group)
        for sign in (signal.SIGTERM, signal.SIGKILL):
            try:
                os.killpg(self.process.pid, sign)
                self.process.wait(5)
            except (ProcessLookupError, subprocess.TimeoutExpired):
                pass
