"""What the scripts beside this file that try things share."""

import os
import pathlib
import select
import signal
import socket
import subprocess
import sys
import tempfile
import threading
import time

BOUND_WITHIN_S = 60
SEEN_WITHIN_S = 60
ENDED_WITHIN_S = 30
# Longer than MAX_TRANSMIT_WAIT, 93 s (RFC 7252, section 4.8.2): by then a client says itself that nobody answers.
CLIENT_ENDS_WITHIN_S = 150
# So often something is tried at least, however long the machine stands still meanwhile.
LEAST_TRIES = 100
SAID_AT_MOST = 1 << 24


# The status of what is not tried, as automake's tests have it.
STATUS_NOT_TRIED = 77


class Failed(Exception):
    """Something is not as it should be."""


class NotTried(Exception):
    """What is needed is not there."""


def tell_untried(why):
    """Says what is left out, in the words that the gate looks for."""
    print(f"  not tried: {why}", file=sys.stderr)


def want(holds, what):
    if not holds:
        raise Failed(what)


def run(words, wants=0, seconds=600, **more):
    """What a program prints, as text; its status has to be the one that is wanted."""
    words = [str(it) for it in words]
    ran = subprocess.run(words, capture_output=True, text=True, errors="replace", timeout=seconds, **more)
    if ran.returncode != wants:
        raise Failed(f"{' '.join(words)}: status {ran.returncode}\n{ran.stdout[-3000:]}{ran.stderr[-3000:]}")
    return ran.stdout


def free_port(family=socket.AF_INET):
    with socket.socket(family, socket.SOCK_DGRAM) as it:
        it.bind(("", 0))
        return it.getsockname()[1]


def until(holds, what, seconds=SEEN_WITHIN_S):
    """Waits until it holds. `what` says what does not, or is asked for it."""
    end, tries = time.monotonic() + seconds, 0
    while not holds():
        tries += 1
        if time.monotonic() >= end and tries >= LEAST_TRIES:
            raise Failed(what() if callable(what) else what)
        time.sleep(0.02)


def is_bound(port, front=()):
    """Whether a program has a socket of this port, where `front` runs commands."""
    shown = run([*front, "cat", "/proc/net/udp", "/proc/net/udp6"])
    return f":{port:04X} " in shown


class Server:
    """A program that runs until it is no longer wanted, once it has bound the first number of its words (or `port`).
    What it prints is in `said`. Where a status is wanted, it ends with that one."""

    def __init__(self, *words, port=None, front=(), wants=None, **more):
        self.out = tempfile.TemporaryFile("w+")
        self.port = port if port is not None else next(it for it in words if isinstance(it, int))
        self.words, self.front, self.wants = [str(it) for it in (*front, *words)], front, wants
        self.process = subprocess.Popen(self.words, stdout=self.out, stderr=self.out, **more)

    def __enter__(self):
        what = f"{self.words}: port {self.port} is not bound"
        until(lambda: is_bound(self.port, self.front) or self.process.poll() is not None, what, BOUND_WITHIN_S)
        want(self.process.poll() is None, f"{self.words}: {self.said()}")
        return self

    def __exit__(self, kind, *_):
        self.process.send_signal(signal.SIGTERM)
        status = self.process.wait(ENDED_WITHIN_S)
        if kind is None and self.wants is not None:
            want(status == self.wants, f"{self.words}: status {status}: {self.said()[-3000:]}")

    def said(self):
        # (what is written goes to where this file stands, so it is not moved)
        return os.pread(self.out.fileno(), SAID_AT_MOST, 0).decode("utf-8", "replace")

    def state(self):
        """Whether it runs, and what it said: for a failure."""
        status = self.process.poll()
        return f"{self.words} {'runs' if status is None else f'ended, status {status}'}: {self.said()[-3000:]!r}"


class Reader:
    """Gets a path of 127.0.0.1 again and again, from one port, each time with a Message ID and a token of its own.

    A program that is started for each GET will not do. The system gives it a free port, by and by that of an earlier
    one; one time in 16 its first Message ID is that one's, too. Then the server takes its request for a copy, for
    247 s, and answers as it did then, with the other token (RFC 7252, section 4.5; EMBEDDING, "What a restart
    breaks")."""

    TRIES, WAIT_S = 30, 2

    def __init__(self, port, path):
        self.udp = socket.socket(socket.AF_INET, socket.SOCK_DGRAM)
        self.udp.connect(("127.0.0.1", port))
        self.number, self.path = 0, path.encode()

    def read(self):
        """What the path holds: bytes, or None where it holds nothing (4.04)."""
        self.number += 1
        own = self.number.to_bytes(2, "big")
        get = b"\x42\x01" + own + own + bytes([0xb0 | len(self.path)]) + self.path
        for _ in range(self.TRIES):
            self.udp.send(get)
            answer = self.answer_to(own)
            if answer is not None:
                want(answer[4:6] == own and answer[1] in (0x45, 0x84), f"another answer: {answer.hex()}")
                return answer.partition(b"\xff")[2] if answer[1] == 0x45 else None
        raise Failed(f"no answer to {self.TRIES} copies of {get.hex()}")

    def answer_to(self, own):
        """The acknowledgement of that Message ID, if one comes soon."""
        while select.select([self.udp], [], [], self.WAIT_S)[0]:
            try:
                answer = self.udp.recv(2048)
            except ConnectionRefusedError:
                time.sleep(self.WAIT_S / 10)
                return None
            if answer[:1] == b"\x62" and answer[2:4] == own:
                return answer
        return None


class Stalls:
    """How long the machine stood still at most, in seconds, while this runs."""

    STEP_S = 0.05

    def __enter__(self):
        self.longest, self.over = 0.0, threading.Event()
        self.thread = threading.Thread(target=self.watch, daemon=True)
        self.thread.start()
        return self

    def watch(self):
        last = time.monotonic()
        while not self.over.wait(self.STEP_S):
            now = time.monotonic()
            self.longest, last = max(self.longest, now - last), now

    def __exit__(self, *_):
        self.over.set()
        self.thread.join()
