"""The implementations, each driven by the same calls, and who watches their nonces."""

import importlib.util
import pathlib
import subprocess
import sys
import threading
from collections import namedtuple

from rules import Rules

HERE = pathlib.Path(__file__).resolve().parent
PYTHON = HERE.parent.parent / "python" / "knifesilver" / "oscore.py"

Call = namedtuple("Call", "kind place now data")
Pair = namedtuple("Pair", "secret salt id_context client server")
SECRET, SALT = bytes(range(1, 17)), bytes.fromhex("9e7ca92223786340")
USUAL = Pair(SECRET, SALT, b"", b"", b"\x01")
WAIT_S = 60


def load():
    """The module in Python by itself: its package wants the library."""
    spec = importlib.util.spec_from_file_location("oscore", PYTHON)
    module = importlib.util.module_from_spec(spec)
    sys.modules["oscore"] = module
    spec.loader.exec_module(module)
    return module


def new_line(place, pair, is_client, file=None, begins=False):
    own, other = (pair.client, pair.server) if is_client else (pair.server, pair.client)
    words = [it.hex() or "-" for it in (pair.secret, pair.salt, pair.id_context, own, other)]
    return f"new {place} {' '.join(words)} {file or '-'} {'begins' if begins else 'goes-on'}\n"


def call_line(it):
    return f"{it.kind} {it.place} {it.now} {it.data.hex() or '-'}\n"


class Lines:
    """A program that speaks the lines of lines.c."""

    def __init__(self, program, name, **more):
        self.name = name
        self.process = subprocess.Popen([program], stdin=subprocess.PIPE, stdout=subprocess.PIPE, text=True, **more)

    def __enter__(self):
        return self

    def __exit__(self, kind, *_):
        self.process.stdin.close()
        self.process.stdout.close()
        status = self.process.wait(WAIT_S)
        if kind is None and status != 0:
            raise AssertionError(f"{self.name}: status {status}")

    def say(self, lines):
        def write():
            try:
                self.process.stdin.writelines(lines)
                self.process.stdin.flush()
            except BrokenPipeError:
                pass

        writer = threading.Thread(target=write) if len(lines) > 1 else None
        if writer is None:
            write()
        else:
            writer.start()
        answers = [self.process.stdout.readline().split() for _ in lines]
        if writer is not None:
            writer.join()
        if not all(answers):
            raise AssertionError(f"{self.name}: ended, status {self.process.wait(WAIT_S)}")
        return [(int(answer), bytes.fromhex(data.replace("-", ""))) for answer, data in answers]

    def new(self, *words, **more):
        return self.say([new_line(*words, **more)])[0][0]

    def free(self, place):
        self.say([f"free {place}\n"])

    def calls(self, calls):
        return self.say([call_line(it) for it in calls])


class Spoken:
    """The implementation in Python, by the same calls."""

    name = "Python"

    def __init__(self, module):
        self.module, self.contexts = module, {}

    def __enter__(self):
        return self

    def __exit__(self, *_):
        for place in list(self.contexts):
            self.free(place)

    def new(self, place, pair, is_client, file=None, begins=False):
        own, other = (pair.client, pair.server) if is_client else (pair.server, pair.client)
        self.free(place)
        try:
            keys = self.module.Keys(pair.secret, own, other, pair.salt, pair.id_context)
            self.contexts[place] = self.module.Context(keys, file and str(file), begins)
        except self.module.Refused as why:
            return int(why.answer)
        return 0

    def free(self, place):
        if place in self.contexts:
            self.contexts.pop(place).close()

    def calls(self, calls):
        done = [getattr(self.contexts[it.place], it.kind)(it.now, it.data) for it in calls]
        return [(int(answer), data) for answer, data in done]


class Watch:
    """Looks from outside, with the keys, that an end follows the rules, and that no nonce has two ciphertexts."""

    def __init__(self, module, pair):
        keys = module.Keys(pair.secret, pair.client, pair.server, pair.salt, pair.id_context)
        self.module, self.of_client = module, module.Context(keys)
        self.of_server = module.Context(keys._replace(sender=pair.server, recipient=pair.client))
        self.used, self.rules, self.wrong = {}, {True: Rules(), False: Rules()}, []

    def begins(self, is_client):
        self.rules[is_client].begins()

    def value_of(self, message):
        return self.module.read_value(message.values(self.module.OSCORE)[0])

    def nonce_of(self, is_client, message):
        """The nonce, and whose number it has: our own, or that of a request that we opened."""
        own, other = (self.of_client, self.of_server) if is_client else (self.of_server, self.of_client)
        piv = self.value_of(message).piv
        if piv:
            return own.nonce(own.sender, piv), ("own", int.from_bytes(piv, "big"))
        for number in self.rules[is_client].opened:
            piv = self.module.piv_of(number)
            nonce = own.nonce(own.recipient, piv)
            try:
                other.opens.decrypt(nonce, message.payload, own.additional(own.recipient, piv))
                return nonce, ("of request", number)
            except self.module.InvalidTag:
                continue
        raise AssertionError("a response to no request")

    def sealed(self, is_client, datagram):
        message = self.module.read(datagram)
        if message.code == 0:
            return
        nonce, numbered = self.nonce_of(is_client, message)
        if self.used.setdefault((is_client, nonce), message.payload) != message.payload:
            self.wrong.append(f"a nonce is used twice: {datagram.hex()}")
        if not self.rules[is_client].seals(numbered, message.payload):
            self.wrong.append(f"sealed against the rules: {datagram.hex()}")

    def opened(self, is_client, datagram):
        message = self.module.read(datagram)
        number = int.from_bytes(self.value_of(message).piv, "big") if message.is_request else None
        if number is not None and not self.rules[is_client].opens(number, message.head):
            self.wrong.append(f"opened against the rules: {datagram.hex()}")

    def look(self, name):
        if self.wrong:
            raise AssertionError(f"{name}: {self.wrong[0]}")
