"""What the tests share: both ends in one process over no socket, free ports, and a loop whose clock jumps."""

from __future__ import annotations

import asyncio
import pathlib
import random
import selectors
import socket
import subprocess
import time
from typing import Any, Callable, List, Optional

from knifesilver import Applied, Client, Config, Report, Server

CLIENT_AT, SERVER_AT = ("127.0.0.1", 40001), ("127.0.0.1", 5683)
PACKAGE = pathlib.Path(__file__).resolve().parent.parent
LONGEST_WAIT_S = 60


class Pair:
    """A server, a client of it, and a network that may lose datagrams. Time is what the test says it is."""

    def __init__(self, config: Config = Config(), lost: Callable[[], bool] = lambda: False) -> None:
        chance = random.Random(7)
        self.server = Server(config, word=lambda: chance.getrandbits(64))
        self.client = Client(SERVER_AT, config, word=lambda: chance.getrandbits(64))
        self.now, self.lost = 1000, lost
        self.applied: List[Applied] = []

    def close(self) -> None:
        self.server.close()
        self.client.close()

    def turn(self) -> None:
        more = True
        while more:
            more = False
            for end, other, at in ((self.client, self.server, CLIENT_AT), (self.server, self.client, SERVER_AT)):
                end.tick(self.now)
                out = end.next_out()
                while out is not None:
                    if not self.lost():
                        other.feed(self.now, at, out[0])
                    more, out = True, end.next_out()
        done = self.server.next_applied()
        while done is not None:
            self.applied.append(done)
            done = self.server.next_applied()

    def report(self) -> Report:
        """The next report; the clock goes from one deadline to the next until there is one."""
        for _ in range(10_000):
            self.turn()
            report = self.client.next_report()
            if report is not None:
                return report
            self.now = min(it for it in (self.client.due(), self.server.due()) if it is not None)
        raise AssertionError("no report")


class _JumpingSelector(selectors.DefaultSelector):
    """Where nothing is ready, no time is waited: the clock jumps."""

    def __init__(self) -> None:
        super().__init__()
        self.jumped = 0.0

    def select(self, timeout: Optional[float] = None) -> Any:
        if timeout is None:
            return super().select(None)
        ready = super().select(0)
        if not ready and timeout > 0:
            self.jumped += timeout
        return ready


class JumpingLoop(asyncio.SelectorEventLoop):
    """A loop that waits for no timer: a test of 93 s is over at once."""

    def __init__(self) -> None:
        self._jumping = _JumpingSelector()
        super().__init__(self._jumping)

    def time(self) -> float:
        return super().time() + self._jumping.jumped


def free_port() -> int:
    with socket.socket(socket.AF_INET, socket.SOCK_DGRAM) as it:
        it.bind(("127.0.0.1", 0))
        port: int = it.getsockname()[1]
        return port


def is_bound(port: int) -> bool:
    """Whether a UDP socket of this machine has that port."""
    lines = pathlib.Path("/proc/net/udp").read_text().splitlines()[1:]
    return any(int(line.split()[1].split(":")[1], 16) == port for line in lines)


def await_bound(port: int) -> None:
    until = time.monotonic() + LONGEST_WAIT_S
    while not is_bound(port):
        if time.monotonic() > until:
            raise AssertionError(f"nobody bound port {port}")
        time.sleep(0.01)


class Program:
    """A program that runs until it is no longer wanted, once it has bound that port."""

    def __init__(self, port: int, *words: object, **more: Any) -> None:
        self._words, self._port, self._more = [str(it) for it in words], port, more

    def __enter__(self) -> "subprocess.Popen[bytes]":
        self._running = subprocess.Popen(
            self._words, stdout=subprocess.DEVNULL, stderr=subprocess.DEVNULL, **self._more
        )
        await_bound(self._port)
        return self._running

    def __exit__(self, *_: object) -> None:
        self._running.terminate()
        self._running.wait()


def finished(*words: object, **more: Any) -> "subprocess.CompletedProcess[bytes]":
    """A program that ran to its end."""
    return subprocess.run([str(it) for it in words], capture_output=True, timeout=LONGEST_WAIT_S, **more)
