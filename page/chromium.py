"""A headless Chromium over a pipe, by its own protocol: no driver, no socket, no package."""

import base64
import json
import os
import shutil
import subprocess
import tempfile
import time


from driven import ENDED

NAME = "Chromium"


def program():
    for name in ("chromium", "chromium-browser", "google-chrome"):
        if shutil.which(name):
            return name
    return None


class Page:
    def __init__(self, url, width=1500, height=1300):
        self.home = tempfile.mkdtemp(prefix="page-")
        to_it, ours = os.pipe()
        from_it, theirs = os.pipe()

        def wire():
            # (both are moved out of the way first, so that neither is closed by the other)
            a, b = os.dup(to_it), os.dup(theirs)
            os.dup2(a, 3)
            os.dup2(b, 4)

        words = [program(), "--headless", "--disable-gpu", "--remote-debugging-pipe", "--no-first-run"]
        words += [f"--user-data-dir={self.home}", *["--no-sandbox"] * (os.geteuid() == 0), "about:blank"]
        quiet = {"stdout": subprocess.DEVNULL, "stderr": subprocess.DEVNULL}
        self.process = subprocess.Popen(words, preexec_fn=wire, close_fds=False, **quiet)
        os.close(to_it)
        os.close(theirs)
        self.to, self.back = os.fdopen(ours, "wb", buffering=0), os.fdopen(from_it, "rb", buffering=0)
        self.left, self.number, self.session, self.said = b"", 0, None, []
        target = self.ask("Target.createTarget", url="about:blank")["targetId"]
        self.session = self.ask("Target.attachToTarget", targetId=target, flatten=True)["sessionId"]
        for domain in ("Page", "Runtime"):
            self.ask(f"{domain}.enable")
        self.size(width, height)
        self.go(url)

    def ask(self, method, **params):
        self.number += 1
        it = {"id": self.number, "method": method, "params": params}
        if self.session:
            it["sessionId"] = self.session
        self.to.write(json.dumps(it).encode() + b"\0")
        while True:
            while b"\0" not in self.left:
                read = self.back.read(1 << 20)
                if not read:
                    raise RuntimeError("Chromium ended")
                self.left += read
            line, _, self.left = self.left.partition(b"\0")
            got = json.loads(line)
            if got.get("method") in ("Runtime.exceptionThrown", "Runtime.consoleAPICalled"):
                self.said.append(got["params"])
            if got.get("id") == self.number:
                if "error" in got:
                    raise RuntimeError(f"{method}: {got['error']}")
                return got["result"]

    def go(self, url, until=ENDED):
        self.ask("Page.navigate", url="about:blank")
        self.ask("Page.navigate", url=url)
        for _ in range(200):
            if self.run(f"document.body && ({until}) || ''"):
                return
            time.sleep(0.05)
        raise RuntimeError("the page does not get ready")

    def run(self, script):
        got = self.ask("Runtime.evaluate", expression=script, awaitPromise=True, returnByValue=True)
        if "exceptionDetails" in got:
            raise RuntimeError(json.dumps(got["exceptionDetails"])[:600])
        return got["result"].get("value")

    def size(self, width, height, is_phone=False):
        """The size of the page; on a phone it is touched, too."""
        words = {"width": width, "height": height, "deviceScaleFactor": 1, "mobile": is_phone}
        self.ask("Emulation.setDeviceMetricsOverride", **words)
        self.ask("Emulation.setTouchEmulationEnabled", enabled=is_phone)

    def mouse(self, kind, x, y, down=False):
        pressed = down or kind == "mousePressed"
        button = "none" if kind == "mouseMoved" and not down else "left"
        words = {"type": kind, "x": x, "y": y, "button": button, "buttons": int(pressed), "clickCount": 1}
        self.ask("Input.dispatchMouseEvent", **words)

    def finger(self, places):
        """A finger goes down at the first of these places, over the others, and up at the last."""
        for kind, place in zip(["touchStart", *["touchMove"] * (len(places) - 1)], places):
            self.ask("Input.dispatchTouchEvent", type=kind, touchPoints=[{"x": place[0], "y": place[1]}])
        self.ask("Input.dispatchTouchEvent", type="touchEnd", touchPoints=[])

    def key(self, name, shift=False):
        codes = {"Tab": 9, "Enter": 13, "Escape": 27, "Delete": 46, "ArrowDown": 40, "ArrowUp": 38, "ArrowRight": 39}
        code = codes.get(name) or ord(name)
        words = {"key": name, "windowsVirtualKeyCode": code, "modifiers": 8 * shift}
        text = {"text": "\r" if name == "Enter" else name} if len(name) == 1 or name == "Enter" else {}
        self.ask("Input.dispatchKeyEvent", type="keyDown", **words, **text)
        self.ask("Input.dispatchKeyEvent", type="keyUp", **words)

    def colours(self, scheme):
        self.ask("Emulation.setEmulatedMedia", features=[{"name": "prefers-color-scheme", "value": scheme}])

    def accessible(self):
        """What a screen reader sees: the roles and names of the page."""
        self.ask("Accessibility.enable")
        nodes = self.ask("Accessibility.getFullAXTree")["nodes"]
        self.ask("Accessibility.disable")
        word = lambda node, of: node.get(of, {}).get("value", "")  # noqa: E731
        return [(word(it, "role"), word(it, "name")) for it in nodes if not it["ignored"]]

    def click(self, x, y):
        self.mouse("mouseMoved", x, y)
        self.mouse("mousePressed", x, y)
        self.mouse("mouseReleased", x, y)

    def shot(self, file):
        with open(file, "wb") as it:
            it.write(base64.b64decode(self.ask("Page.captureScreenshot", format="png")["data"]))

    def close(self):
        try:
            self.ask("Browser.close")
        except (RuntimeError, OSError):
            pass
        try:
            self.process.wait(10)
        except subprocess.TimeoutExpired:
            self.process.kill()
        shutil.rmtree(self.home, ignore_errors=True)
