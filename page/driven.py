"""A browser that is driven as WebDriver says (W3C): what Firefox and WebKit have in common."""

import base64
import json
import pathlib
import time

# (WebDriver's numbers of keys)
_SHIFT = "\ue008"
_KEYS = {"Tab": "\ue004", "Enter": "\ue007", "Escape": "\ue00c", "Delete": "\ue017"}
_KEYS |= {"ArrowUp": "\ue013", "ArrowRight": "\ue014", "ArrowDown": "\ue015"}
_BUTTONS = {"mousePressed": "pointerDown", "mouseReleased": "pointerUp"}
# Runs an expression among the page's own names, and hands on what it answers.
_RUN = """
const [source, done] = [arguments[0], arguments[arguments.length - 1]];
const text = (it) => JSON.stringify(it === undefined ? null : it);
const ran = new Promise((go) => go(window.eval(source)));
ran.then((it) => done([text(it)]), (why) => done([null, `${why}`]));
"""
_LISTEN = """
if (!window.heard) {
  window.heard = [];
  window.addEventListener("error", (event) => window.heard.push(event.message));
  window.addEventListener("unhandledrejection", (event) => window.heard.push(String(event.reason)));
}
"""


def _move(x, y):
    return {"type": "pointerMove", "x": round(x), "y": round(y), "origin": "viewport", "duration": 0}


# Whether the page is there, or says why it is not.
ENDED = "document.body.dataset.ready || document.body.dataset.fault"


class Driven:
    """A page in a browser. Whoever drives it says `command`, a command of WebDriver by its name."""

    def command(self, name, **params):
        raise NotImplementedError

    def go(self, url, until=ENDED):
        self.command("Navigate", url="about:blank")
        self.command("Navigate", url=url)
        self.run(_LISTEN)
        for _ in range(400):
            if self.run(f"document.body && ({until}) || ''"):
                return
            time.sleep(0.05)
        raise RuntimeError("the page does not get ready")

    def run(self, script):
        text, *why = self.command("ExecuteAsyncScript", script=_RUN, args=[script])
        if why:
            raise RuntimeError(f"{script[:100]}: {why[0]}")
        return json.loads(text)

    @property
    def said(self):
        """The exceptions since the page was opened."""
        return self.run("window.heard")

    def size(self, width, height):
        """The window, so that the page in it has about this size."""
        self.command("SetWindowRect", x=0, y=0, width=width, height=height + 90)

    def _act(self, kind, name, actions, **parameters):
        it = {"type": kind, "id": name, "actions": actions}
        if parameters:
            it["parameters"] = parameters
        self.command("PerformActions", actions=[it])

    def mouse(self, kind, x, y, _down=False):
        button = [{"type": _BUTTONS[kind], "button": 0}] if kind in _BUTTONS else []
        self._act("pointer", "mouse", [_move(x, y), *button], pointerType="mouse")

    def finger(self, places):
        """A finger goes down at the first of these places, over the others, and up at the last."""
        moves = [_move(x, y) for x, y in places]
        actions = [moves[0], {"type": "pointerDown", "button": 0}, *moves[1:], {"type": "pointerUp", "button": 0}]
        self._act("pointer", "finger", actions, pointerType="touch")

    def key(self, name, shift=False):
        value = _KEYS.get(name, name)
        keys = [{"type": "keyDown", "value": value}, {"type": "keyUp", "value": value}]
        if shift:
            keys = [{"type": "keyDown", "value": _SHIFT}, *keys, {"type": "keyUp", "value": _SHIFT}]
        self._act("key", "keys", keys)

    def click(self, x, y):
        self.mouse("mousePressed", x, y)
        self.mouse("mouseReleased", x, y)

    def shot(self, file):
        pathlib.Path(file).write_bytes(base64.b64decode(self.command("TakeScreenshot")))
