"""A client and a server over UDP, for asyncio.

    async with Client("127.0.0.1") as client:
        print((await client.get("temperature")).text)
        async for value in client.observe("temperature"):
            print(value.text)

    async with Server("127.0.0.1") as server:
        server.set("temperature", b"22.3 C")
        async for applied in server.applied():
            print(applied.method.name, applied.path)

An end belongs to the event loop that it was opened in, and has a UDP socket of its own. Its moments are those of the
loop's clock. What the socket does not take is lost, as on the way, and sent again if it is to be.
"""

from __future__ import annotations

import asyncio
from collections import deque
from typing import Any, AsyncIterator, Callable, Deque, Dict, Iterable, List, NamedTuple, Optional, Tuple

from . import ends
from ._driving import LOG, Driven, resolve
from .errors import BadMessage, Closed, QueueFull, failed, unsuccessful
from .values import Address, Applied, Code, Config, Message, Method, Report, ReportKind, Representation

__all__ = ["Applications", "Client", "Fetched", "Observation", "PORT", "Server", "resolve"]

#: The port of CoAP without encryption (RFC 7252, section 12.6).
PORT = 5683

_FIRST_ERROR_CLASS = 4


class Fetched(NamedTuple):
    """A representation that was fetched."""

    #: Its bytes; none where it is `valid`.
    body: bytes
    #: Its Content-Format, or None.
    format: Optional[int]
    #: Its entity-tag, or None.
    tag: Optional[bytes]
    #: Whether it is one that was named by `etags`, so that its bytes were not sent again.
    valid: bool = False

    @property
    def text(self) -> str:
        """The body as UTF-8; other bytes are shown as U+FFFD."""
        return self.body.decode("utf-8", "replace")


class _Stream:
    """What an observation was told, and what its iterator has not taken yet."""

    def __init__(self, path: str, most: int, ended: asyncio.Future[None]) -> None:
        self.path = path
        self.values: Deque[Fetched] = deque(maxlen=most)
        self.number: Optional[int] = None
        self.ended = ended
        self.news = asyncio.Event()

    def told(self, report: Report) -> None:
        if report.kind is ReportKind.VALUE:
            self.values.append(Fetched(report.body, report.format, report.tag))
            self.news.set()
        elif report.kind is ReportKind.ENDED and report.code >> 5 >= _FIRST_ERROR_CLASS:
            self.end(failed(report.code))
        else:
            self.end(unsuccessful(report.kind, report.code))

    def end(self, why: Optional[BaseException]) -> None:
        _settle(self.ended, why)
        self.news.set()


def _settle(future: asyncio.Future[Any], why: Optional[BaseException]) -> None:
    """Ends it by that error, or without; nobody has to have waited for it."""
    if not future.done():
        if why is None:
            future.set_result(None)
        else:
            future.set_exception(why)
            future.exception()


class Observation(AsyncIterator[Fetched]):
    """What an observed path holds, one value after another: `async for value in client.observe(path)`.

    Values may be missed, as in any observation (RFC 7641, section 1.3): where more wait to be iterated than there is
    room for, the oldest goes. An observation that nobody iterates any more is forgotten, and so is one whose task
    was cancelled while it waited: its next notification is answered with a Reset, which ends it at the server."""

    def __init__(self, client: Client, stream: _Stream) -> None:
        self._client = client
        self._stream = stream

    def __aiter__(self) -> Observation:
        return self

    async def __anext__(self) -> Fetched:
        """The next value. After the last one the iteration stops, or raises what ended the observation, as
        `NotFound`."""
        stream = self._stream
        while not stream.values:
            if stream.ended.done():
                stream.ended.result()
                raise StopAsyncIteration
            stream.news.clear()
            try:
                await stream.news.wait()
            except asyncio.CancelledError:
                self.forget()
                raise
        return stream.values.popleft()

    async def cancel(self) -> None:
        """Asks the server to end the observation, and waits until it has."""
        await self._client._cancel(self._stream)

    def forget(self) -> None:
        """Ends the observation here, with no message; its next notification is answered with a Reset."""
        self._client._forget(self._stream)

    def __del__(self) -> None:
        self._client._dropped(self._stream)


class Client(Driven):
    """A client of one server: `async with Client(host, port) as client`.

    Calls run one at a time, in the order in which they were made; any number may wait. Each raises `Failed` (as
    `NotFound`) where another code came than one of success: it was not applied. It raises `PerhapsApplied` (as
    `TimedOut`) where it was perhaps applied, or still may be.

    A task that is cancelled stops waiting. Its request goes on, unless it still waits behind others in this client,
    and may still be applied."""

    def __init__(
        self, host: str, port: int = PORT, *, config: Config = Config(), local: Optional[Address] = None
    ) -> None:
        """host: a name or an IPv4 address. local: where to bind the socket, if not at a free port."""
        super().__init__()
        self._where, self._config, self._local = (host, port), config, local
        self._peer: Address = (host, port)
        self._waiting: Deque[Tuple[Callable[[], None], asyncio.Future[Any]]] = deque()
        self._calls: Dict[int, asyncio.Future[Report]] = {}
        self._streams: Dict[int, _Stream] = {}

    async def open(self) -> None:
        """Opens the socket. `async with` does it, and closes it."""
        self._peer = await resolve(*self._where)
        await self._open(ends.Client(self._peer, self._config), remote_addr=self._peer, local_addr=self._local)

    def close(self) -> None:
        """Closes the socket and frees the end. Who waits for it is told so by `Closed`."""
        super().close()
        why = Closed("the client was closed")
        for future in [*self._calls.values(), *(it[1] for it in self._waiting)]:
            _settle(future, why)
        for stream in self._streams.values():
            stream.end(why)
        self._waiting.clear()
        self._calls.clear()
        self._streams.clear()

    async def get(self, path: str, *, accept: Optional[int] = None, etags: Iterable[bytes] = ()) -> Fetched:
        """What the path holds. accept: the Content-Format that is wanted (RFC 7252, section 12.3). etags: at most 4
        entity-tags of representations that are known; where one of these is valid, the answer says so and has no
        body."""
        report = await self._asked(Method.GET, path, b"", accept=accept, etags=list(etags))
        return Fetched(report.body, report.format, report.tag, report.kind is ReportKind.VALID)

    async def put(
        self,
        path: str,
        body: bytes,
        *,
        format: Optional[int] = None,
        if_match: Iterable[bytes] = (),
        if_none_match: bool = False,
    ) -> Code:
        """Has the path hold that body. Where this returns, it was applied once: 2.01 where the path is new, else 2.04.

        if_match: at most 4 entity-tags, of which the path has to have one. if_none_match: it may hold nothing yet. Else
        `PreconditionFailed` is raised."""
        words = {"format": format, "if_match": list(if_match), "if_none_match": if_none_match}
        return (await self._asked(Method.PUT, path, body, **words)).code

    async def post(self, path: str, body: bytes, *, format: Optional[int] = None) -> Code:
        """Has the server process the body; a server of this package appends it to what the path holds, and answers 4.04
        where that is nothing."""
        return (await self._asked(Method.POST, path, body, format=format)).code

    async def delete(self, path: str) -> Code:
        """Has the path hold nothing: 2.02."""
        return (await self._asked(Method.DELETE, path, b"")).code

    def observe(self, path: str, *, most: int = 64) -> Observation:
        """What the path holds now, and whenever that changes. At most `most` values wait to be iterated."""
        stream = _Stream(path, most, self._future())

        def start() -> None:
            number: int = self._end.observe(self._now(), path)
            stream.number = number
            self._streams[number] = stream

        stream.ended.add_done_callback(lambda _: stream.news.set())
        self._give(start, stream.ended)
        return Observation(self, stream)

    async def _asked(self, method: Method, path: str, body: bytes, **options: Any) -> Report:
        done = self._future()

        def start() -> None:
            self._calls[self._end.call(self._now(), method, path, body, **options)] = done

        self._give(start, done)
        report: Report = await done
        error = unsuccessful(report.kind, report.code)
        if error is not None:
            raise error
        return report

    async def _cancel(self, stream: _Stream) -> None:
        number = stream.number
        if number is None:
            self._forget(stream)
            return
        asked = self._future()

        def start() -> None:
            if not stream.ended.done():
                self._end.cancel(self._now(), number)
            asked.set_result(None)

        self._give(start, asked)
        await asked
        await asyncio.shield(stream.ended)

    def _forget(self, stream: _Stream) -> None:
        if stream.number is not None and self._streams.pop(stream.number, None) is not None:
            self._end.forget(stream.number)
            self._turn()
        stream.end(None)

    def _dropped(self, stream: _Stream) -> None:
        """Nobody iterates it any more. (It may be told from any thread, and in the middle of a turn.)"""
        if self._loop is not None and not self._loop.is_closed() and not stream.ended.done():
            self._loop.call_soon_threadsafe(self._forget, stream)

    # ---- What waits for a place in the end ----

    def _future(self) -> asyncio.Future[Any]:
        self._now()
        assert self._loop is not None
        return self._loop.create_future()

    def _give(self, start: Callable[[], None], done: asyncio.Future[Any]) -> None:
        """Has that call of the end be made as soon as the end has a place for it, unless it is settled before."""
        self._waiting.append((start, done))
        self._turn()

    def _start(self) -> bool:
        """Makes the calls that wait, as far as the end has a place; whether it took one."""
        took = False
        while self._waiting:
            start, done = self._waiting[0]
            if not done.done():
                try:
                    start()
                    took = True
                except QueueFull:
                    break
                except Exception as why:
                    _settle(done, why)
            self._waiting.popleft()
        return took

    def _take(self) -> bool:
        while True:
            report = self._end.next_report()
            if report is None:
                return self._start()
            done, stream = self._calls.pop(report.id, None), self._streams.get(report.id)
            if done is not None and not done.done():
                done.set_result(report)
            if stream is not None:
                stream.told(report)
                if stream.ended.done():
                    del self._streams[report.id]

    def _send(self, data: bytes, to: Address) -> None:
        self._link.error = None
        self._transport.sendto(data)
        if self._link.error is not None:
            # The system told of an earlier datagram, and sent nothing.
            self._transport.sendto(data)

    def _peer_text(self) -> str:
        return "%s:%s" % self._peer


class Applications(AsyncIterator[Applied]):
    """What clients had a server do, each once, in order: `async for applied in server.applied()`."""

    def __init__(self, server: Server, most: int) -> None:
        self._server = server
        self._most = most
        self._queue: Deque[Applied] = deque()
        self._news = asyncio.Event()
        server._queues.append((self._queue, self._news, most))

    def __aiter__(self) -> Applications:
        return self

    async def __anext__(self) -> Applied:
        """The next one. The iteration stops when the server is closed."""
        while not self._queue:
            if self._server._end is None:
                raise StopAsyncIteration
            self._news.clear()
            await self._news.wait()
        return self._queue.popleft()

    def close(self) -> None:
        """Nothing is kept for this iteration any more."""
        self._server._queues = [it for it in self._server._queues if it[0] is not self._queue]

    def __del__(self) -> None:
        self.close()


class Server(Driven):
    """A server: `async with Server(host, port) as server`.

    Whoever reaches its port may write, make and delete every path of it: bind it to an address that strangers don't
    reach. Bound to "0.0.0.0" on a host with several addresses, it may answer from another one than was asked."""

    def __init__(
        self,
        host: str = "127.0.0.1",
        port: int = PORT,
        *,
        config: Config = Config(),
        may: Optional[Callable[[Address, Message], bool]] = None,
    ) -> None:
        """host: the address of the own host to bind, or its name. port: 0 for a free one, which `address` tells.
        may: whether that sender may ask this; a request that it may not is answered by 4.05."""
        super().__init__()
        self._may = may
        self._where = (host, port)
        self._server = ends.Server(config)
        self._queues: List[Tuple[Deque[Applied], asyncio.Event, int]] = []
        #: How many datagrams were dropped, since what was applied was not taken in time.
        self.dropped = 0

    async def open(self) -> None:
        """Opens the socket. `async with` does it, and closes it."""
        await self._open(self._server, local_addr=await resolve(*self._where))

    def close(self) -> None:
        """Closes the socket and frees the end."""
        super().close()
        self._server.close()
        for _, news, _ in self._queues:
            news.set()

    def set(self, path: str, body: bytes, format: Optional[int] = None) -> int:
        """Has the path hold the body, and notifies its observers, also where the body is the same. Its version."""
        version = self._server.set(self._now(), path, body, format)
        self._turn()
        return version

    def update(self, path: str, body: bytes, format: Optional[int] = None) -> Tuple[int, bool]:
        """The same, but nothing changes where the path holds this very body in this format: its version, and whether it
        was set."""
        updated = self._server.update(self._now(), path, body, format)
        self._turn()
        return updated

    def remove(self, path: str) -> bool:
        """Takes away what the path holds, and tells its observers; whether it held something."""
        held = self._server.remove(self._now(), path)
        self._turn()
        return held

    def get(self, path: str) -> Optional[Representation]:
        """What the path holds; None where it holds nothing."""
        return self._server.get(path)

    def set_delay(self, path: str, ms: int) -> None:
        """Has each Confirmable request of the path wait so many ms, be carried out then, and be answered by a separate
        response. Choose delays before the server is opened."""
        self._server.set_delay(path, ms)

    def set_plain(self, path: str) -> None:
        """Has the notifications of the path go in Non-confirmable messages, but for one a day, a state that is older
        than 100 s, and the 4.04 of a path that is gone. Choose plain paths before the server is opened."""
        self._server.set_plain(path)

    def applied(self, *, most: int = 1024) -> Applications:
        """What clients have the server do from now on, each once, in order.

        None of it is lost: while `most` wait to be taken, the server drops what arrives, and clients send it again.
        """
        return Applications(self, most)

    def _arrived(self, data: bytes, source: Address) -> None:
        if any(len(queue) >= most for queue, _, most in self._queues):
            self.dropped += 1
            self._wait()
        else:
            super()._arrived(data, source)

    def _hand_in(self, data: bytes, source: Address) -> None:
        if self._may is None or self._allows(data, source):
            super()._hand_in(data, source)
            return
        try:
            self._server.refuse(self._now(), source, data)
        except MemoryError:
            LOG.warning("a datagram is lost: out of memory")

    def _allows(self, data: bytes, source: Address) -> bool:
        try:
            message = ends.peek(data)
        except BadMessage:
            # (it is no request, and the server knows what to do)
            return True
        return self._may is None or self._may(source, message)

    def _take(self) -> bool:
        while True:
            applied = self._server.next_applied()
            if applied is None:
                return False
            for queue, news, _ in self._queues:
                queue.append(applied)
                news.set()

    def _send(self, data: bytes, to: Address) -> None:
        self._transport.sendto(data, to)
