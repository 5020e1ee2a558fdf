"""What a client and a server over UDP share: the socket, and the next deadline."""

from __future__ import annotations

import asyncio
import logging
import socket
from typing import Any, Optional, TypeVar

from .errors import Closed
from .values import Address

LOG = logging.getLogger("knifesilver")
_MS = 1000
_LONGEST_WAIT_MS = 3_600_000
_Any = TypeVar("_Any", bound="Driven")


async def resolve(host: str, port: int) -> Address:
    """The first IPv4 address of that host."""
    found = await asyncio.get_running_loop().getaddrinfo(host, port, family=socket.AF_INET, type=socket.SOCK_DGRAM)
    return found[0][4][0], found[0][4][1]


class _Link(asyncio.DatagramProtocol):
    """The socket, which hands what arrives to the end."""

    def __init__(self, owner: Driven) -> None:
        self._owner = owner
        self.error: Optional[Exception] = None

    def datagram_received(self, data: bytes, addr: Any) -> None:
        self._owner._arrived(data, addr)

    def error_received(self, exc: Exception) -> None:
        self.error = exc
        self._owner._told(exc)


class Driven:
    """An end, its socket and its next deadline."""

    def __init__(self) -> None:
        self._loop: Optional[asyncio.AbstractEventLoop] = None
        self._end: Any = None
        self._link: Any = None
        self._transport: Any = None
        self._timer: Optional[asyncio.TimerHandle] = None
        self._refused = False
        #: The address of the end's own socket, once it is open.
        self.address: Address = ("0.0.0.0", 0)

    async def _open(self, end: Any, **where: Any) -> None:
        self._loop = asyncio.get_running_loop()
        self._transport, self._link = await self._loop.create_datagram_endpoint(lambda: _Link(self), **where)
        self.address = self._transport.get_extra_info("sockname")[:2]
        self._end = end

    async def open(self) -> None:
        """Opens the socket. `async with` does it, and closes it."""
        raise NotImplementedError

    def close(self) -> None:
        """Closes the socket and frees the end. Who waits for it is told so by `Closed`."""
        if self._timer is not None:
            self._timer.cancel()
        if self._transport is not None:
            self._transport.close()
        if self._end is not None:
            self._end.close()
        self._end = self._timer = self._transport = None

    async def __aenter__(self: _Any) -> _Any:
        await self.open()
        return self

    async def __aexit__(self, *_: object) -> None:
        self.close()

    def _now(self) -> int:
        if self._loop is None or self._end is None:
            raise Closed("the end is not open")
        return int(self._loop.time() * _MS)

    def _told(self, error: Exception) -> None:
        """The system told of a datagram that nobody took: the end sends again by itself."""
        if not self._refused:
            LOG.warning("%s: %s", self._peer_text(), error)
        self._refused = True

    def _peer_text(self) -> str:
        return "%s:%s" % tuple(self.address)

    def _hand_in(self, data: bytes, source: Address) -> None:
        self._refused = False
        try:
            self._end.feed(self._now(), source, data)
        except MemoryError:
            LOG.warning("a datagram is lost: out of memory")

    def _arrived(self, data: bytes, source: Address) -> None:
        if self._end is not None:
            self._hand_in(data, source)
            self._turn()

    def _send(self, data: bytes, to: Address) -> None:
        raise NotImplementedError

    def _take(self) -> bool:
        """Takes what came out, beside datagrams; whether that handed something in."""
        return False

    def _turn(self) -> None:
        """Does what is due, sends what is out, takes what came out, and waits for the next deadline."""
        more = True
        while more and self._end is not None:
            try:
                self._end.tick(self._now())
            except MemoryError:
                LOG.warning("what is due is done later: out of memory")
            while True:
                out = self._end.next_out()
                if out is None:
                    break
                self._send(*out)
            more = self._take()
        self._wait()

    def _wait(self) -> None:
        if self._timer is not None:
            self._timer.cancel()
            self._timer = None
        if self._end is None or self._loop is None:
            return
        due = self._end.due()
        if due is not None:
            # (a moment is a whole number, so the timer rings when the clock has reached it, and not just before)
            wait = min(max(due - self._now(), 0), _LONGEST_WAIT_MS)
            self._timer = self._loop.call_at((self._now() + wait) / _MS, self._turn)
