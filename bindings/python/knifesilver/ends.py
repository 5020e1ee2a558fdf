"""A server and a client with no input or output of their own, as in C.

Hand in what arrived by `feed`, do what is due by `tick`, and after each call take what is out: datagrams by `next_out`,
and what a client had a server do by `next_applied`, or what became of a call by `next_report`. Then wait for a
datagram, at most until `due`. Nothing here reads a clock: a moment is a whole number of milliseconds since a moment
that you chose once. One that is before the last counts as the last.
"""

from __future__ import annotations

import ctypes
import secrets
import threading
from collections import deque
from typing import Any, Callable, Deque, Iterable, List, Optional, Tuple, TypeVar

from ._header import header, numbers
from ._library import library
from .errors import BadMessage, answered
from .values import (
    Address,
    Applied,
    Code,
    Config,
    Ended,
    Load,
    Message,
    Method,
    Report,
    ReportKind,
    Representation,
    Would,
    address_of,
    format_of,
    made,
    path_text,
    raw_address,
    raw_config,
    raw_format,
    raw_path,
    raw_tags,
)

_DONE = numbers["KS_DONE"]
_METHOD_NOT_ALLOWED = Code.of(4, 5)
_SMALL_ROOM = numbers["KS_SMALL_ROOM"]
_DATAGRAM_ROOM = numbers["KS_DATAGRAM_ROOM"]
_PATH_ROOM = numbers["KS_PATH_ROOM"]
_FAULTS = header.enums["ks_fault"]
_WORD_BITS = 64
_GREATEST = 2**64 - 1

_End = TypeVar("_End", bound="_AnyEnd")


def _random_word() -> int:
    return secrets.randbits(_WORD_BITS)


def drawn_base() -> int:
    """A random `Config.base`. A server that begins anew at its address should have one for each of its lives: else an
    entity-tag of a life before names another body. No order between two lives is promised."""
    return library.ks_base(_random_word())


def _moment(now: int) -> int:
    return min(max(now, 0), _GREATEST)


class _AnyEnd:
    """What both ends share. A call is made with the end's lock held: the library takes one call of a handle at a
    time."""

    _KIND = ""

    def __init__(self, config: Config, word: Optional[Callable[[], int]], *peer: Any) -> None:
        self._lock = threading.Lock()
        self._word = word or _random_word
        self._handle = made(f"ks_{self._KIND}")
        self._out = ctypes.create_string_buffer(_DATAGRAM_ROOM)
        seed = made("ks_seed", self._word(), self._word(), self._word())
        answered(self._call("new", *peer, ctypes.byref(raw_config(config)), ctypes.byref(seed)))

    def _call(self, name: str, *words: Any) -> Any:
        return getattr(library, f"ks_{self._KIND}_{name}")(ctypes.byref(self._handle), *words)

    def close(self) -> None:
        """Frees the end. Later calls raise `Closed`."""
        with self._lock:
            self._call("free")

    def __enter__(self: _End) -> _End:
        return self

    def __exit__(self, *_: object) -> None:
        self.close()

    def __del__(self) -> None:
        if hasattr(self, "_handle"):
            self._call("free")

    def _begins(self) -> None:
        """Called before each feed and each tick."""

    def _took(self) -> None:
        """Called after each feed, and each tick that did something."""

    def feed(self, now: int, source: Address, datagram: bytes) -> None:
        """Takes a datagram that arrived from there. After a MemoryError it counts as lost."""
        with self._lock:
            sender = raw_address(source)
            self._begins()
            answered(
                self._call("feed", _moment(now), ctypes.byref(sender), bytes(datagram), len(datagram), self._word())
            )
            self._took()

    def tick(self, now: int) -> None:
        """Does all that is due at that moment. After a MemoryError some of it is still due."""
        with self._lock:
            self._begins()
            while answered(self._call("tick", _moment(now), self._word())) == _DONE:
                self._took()

    def due(self) -> Optional[int]:
        """The moment, in ms, at which a tick has something to do; None: never, unless something is handed in before."""
        with self._lock:
            at = ctypes.c_uint64()
            return at.value if answered(self._call("due", ctypes.byref(at))) == _DONE else None

    def load(self, now: int) -> Load:
        """How much the end has at that moment."""
        with self._lock:
            told = made("ks_end_load")
            told.size = ctypes.sizeof(told)
            answered(self._call("load", _moment(now), ctypes.byref(told)))
            return Load(*(getattr(told, field) for field in Load._fields))

    def would(self, now: int, source: Address, datagram: bytes) -> Would:
        """What `feed` would make of the datagram at that moment."""
        with self._lock:
            sender = raw_address(source)
            answer = self._call("would", _moment(now), ctypes.byref(sender), bytes(datagram), len(datagram))
            return Would(answered(answer))

    def next_out(self) -> Optional[Tuple[bytes, Address]]:
        """The datagram that is to be sent next, and where to. Send it at once or never: the end sends again by
        itself."""
        with self._lock:
            to, length = made("ks_address"), ctypes.c_size_t()
            answer = self._call("next_out", ctypes.byref(to), self._out, _DATAGRAM_ROOM, ctypes.byref(length))
            return (ctypes.string_at(self._out, length.value), address_of(to)) if answered(answer) == _DONE else None


class Server(_AnyEnd):
    """A server: paths that hold representations, which whoever reaches its port may get, put, post to and delete."""

    _KIND = "server"

    def __init__(self, config: Config = Config(), *, word: Optional[Callable[[], int]] = None) -> None:
        """A server that holds nothing. `word` gives 64 random bits at each call; for tests, others."""
        super().__init__(config, word)
        self._applied: Deque[Applied] = deque()
        self._ended: List[Ended] = []
        self._path_room = ctypes.create_string_buffer(_PATH_ROOM)

    def set(self, now: int, path: str, body: bytes, format: Optional[int] = None) -> int:
        """Has the path hold the body, and marks its observers, also where the body is the same. Its version."""
        return self._set("set", now, path, body, format)[1]

    def update(self, now: int, path: str, body: bytes, format: Optional[int] = None) -> Tuple[int, bool]:
        """The same, but nothing changes where the path holds this very body in this format: its version, and whether it
        was set."""
        answer, version = self._set("update", now, path, body, format)
        return version, answer == _DONE

    def _set(self, call: str, now: int, path: str, body: bytes, format: Optional[int]) -> Tuple[int, int]:
        with self._lock:
            version, text, kind = ctypes.c_uint64(), raw_path(path), raw_format(format)
            words = (_moment(now), text, len(text), kind, bytes(body), len(body), ctypes.byref(version))
            return answered(self._call(call, *words), "ks_set_refusal"), version.value

    def remove(self, now: int, path: str) -> bool:
        """Takes away what the path holds, and tells its observers; whether it held something."""
        with self._lock:
            text = raw_path(path)
            return answered(self._call("remove", _moment(now), text, len(text)), "ks_set_refusal") == _DONE

    def get(self, path: str) -> Optional[Representation]:
        """What the path holds; None where it holds nothing."""
        with self._lock:
            return self._held(raw_path(path))

    def _held(self, text: bytes) -> Optional[Representation]:
        shown, room = made("ks_representation"), ctypes.create_string_buffer(1)
        while True:
            answer = self._call("get", text, len(text), ctypes.byref(shown), room, len(room))
            if answer != _SMALL_ROOM:
                break
            room = ctypes.create_string_buffer(shown.body_len)
        if answered(answer) != _DONE:
            return None
        return Representation(shown.version, format_of(shown.format), ctypes.string_at(room, shown.body_len))

    def paths(self) -> List[str]:
        """The paths that hold something, in an order of the server's own."""
        with self._lock:
            shown, length = made("ks_representation"), ctypes.c_size_t()
            found: List[str] = []
            while answered(self._path_at(len(found), shown, length)) == _DONE:
                found.append(path_text(ctypes.string_at(self._path_room, length.value)))
            return found

    def _path_at(self, place: int, shown: Any, length: ctypes.c_size_t) -> int:
        told = ctypes.byref(shown), self._path_room, _PATH_ROOM, ctypes.byref(length)
        return int(self._call("paths", place, *told))

    def set_delay(self, path: str, ms: int) -> None:
        """Has each Confirmable request of the path wait so many ms, be carried out then, and be answered by a separate
        response. Choose delays before the first feed, tick, set and remove."""
        with self._lock:
            text = raw_path(path)
            answered(self._call("set_delay", text, len(text), _moment(ms)), "ks_delay_refusal")

    def set_plain(self, path: str) -> None:
        """Has the notifications of the path go in Non-confirmable messages, but for one a day, a state that is older
        than 100 s, and the 4.04 of a path that is gone. Choose plain paths first, as delays."""
        with self._lock:
            text = raw_path(path)
            answered(self._call("set_plain", text, len(text)), "ks_plain_refusal")

    def refuse(self, now: int, source: Address, datagram: bytes, code: int = _METHOD_NOT_ALLOWED) -> None:
        """In the place of a feed, of what that sender may not ask: a request is answered by 4.05, or that code of class
        4 or 5, and nothing is applied. A copy of a request that was served gets its answer, so the rules of who may do
        what may change at any moment."""
        with self._lock:
            sender, words = raw_address(source), (bytes(datagram), len(datagram), self._word())
            self._begins()
            if code == _METHOD_NOT_ALLOWED:
                answered(self._call("refuse", _moment(now), ctypes.byref(sender), *words))
            else:
                answered(self._call("refuse_by", _moment(now), ctypes.byref(sender), *words, code))
            self._took()

    def knows(self, now: int, peer: Address) -> bool:
        """Whether the server has something of this peer that it may send, or may still need. What tells repeats is not
        counted."""
        with self._lock:
            return answered(self._call("knows", _moment(now), ctypes.byref(raw_address(peer)))) == _DONE

    def forget(self, peer: Address) -> bool:
        """Forgets a peer from which nothing comes any more: its observations, its uploads that are not whole, its
        requests that wait, and what it did not acknowledge. Whether there was anything. Take what is out first, which
        stays. What tells repeats stays, too."""
        with self._lock:
            name = raw_address(peer)
            self._begins()
            known = answered(self._call("forget", ctypes.byref(name))) == _DONE
            self._took()
            return known

    def ended(self) -> List[Ended]:
        """The separate responses and notifications that the last feed, tick or forget ended, in order, by a Reset or
        for want of an acknowledgement."""
        with self._lock:
            return list(self._ended)

    def next_applied(self) -> Optional[Applied]:
        """What a client had this server do, each once, in order. It waits here until it is taken: take all of it each
        time, since clients fill this queue."""
        with self._lock:
            return self._applied.popleft() if self._applied else None

    def _begins(self) -> None:
        self._ended.clear()

    def _took(self) -> None:
        self._keep_ended()
        self._keep_applied()

    def _keep_ended(self) -> None:
        told = made("ks_ended")
        if answered(self._call("ended", ctypes.byref(told))) == _DONE:
            self._ended.append(Ended(address_of(told.to), bytes(told.token[: told.token_len]), told.observe))

    def _keep_applied(self) -> None:
        done = made("ks_applied")
        if answered(self._call("applied", ctypes.byref(done), self._path_room, _PATH_ROOM)) != _DONE:
            return
        text, token = ctypes.string_at(self._path_room, done.path_len), bytes(done.token[: done.token_len])
        held = self._held(text)
        if held is not None and held.version != done.version:
            # (the path of one empty segment is told as "/", which is read as the root)
            held = None
        sender = address_of(getattr(done, "from"))
        self._applied.append(Applied(done.version, sender, Method(done.method), token, path_text(text), held))


class Client(_AnyEnd):
    """A client of one server. One call runs at a time and 8 wait; 16 observations may be live.

    A call starts in a tick: tick after each call, observe, cancel and feed."""

    _KIND = "client"

    def __init__(
        self, server: Address, config: Config = Config(), *, word: Optional[Callable[[], int]] = None
    ) -> None:
        """A client of the server at that address. `word` gives 64 random bits at each call; for tests, others."""
        self._room = ctypes.create_string_buffer(_DATAGRAM_ROOM)
        super().__init__(config, word, ctypes.byref(raw_address(server)))

    def call(
        self,
        now: int,
        method: Method,
        path: str,
        body: bytes = b"",
        *,
        format: Optional[int] = None,
        accept: Optional[int] = None,
        etags: Iterable[bytes] = (),
        if_match: Iterable[bytes] = (),
        if_none_match: bool = False,
    ) -> int:
        """Takes a request, which starts at a later tick. Its number, which its report has, too.

        format: the Content-Format of the body. accept: the one that is wanted. etags: representations that are
        known, at most 4. if_match: those of which one has to be there, at most 4. if_none_match: nothing may be
        there yet."""
        with self._lock:
            what = made("ks_request", raw_format(format), raw_format(accept), method, if_none_match)
            text, known, wanted, number = raw_path(path), raw_tags(etags), raw_tags(if_match), ctypes.c_uint64()
            words = (_moment(now), ctypes.byref(what), text, len(text), bytes(body), len(body), *known, *wanted)
            answered(self._call("call", *words, ctypes.byref(number)), "ks_call_refusal")
            return number.value

    def observe(self, now: int, path: str) -> int:
        """Takes an observation of what the path holds. Its number. Its reports are VALUEs until a last one."""
        with self._lock:
            text, number = raw_path(path), ctypes.c_uint64()
            answered(self._call("observe", _moment(now), text, len(text), ctypes.byref(number)), "ks_call_refusal")
            return number.value

    def cancel(self, now: int, id: int) -> None:
        """Takes the cancel of an observation, which is asked of the server. CANCELLED is its last report."""
        with self._lock:
            answered(self._call("cancel", _moment(now), id), "ks_cancel_refusal")

    def forget(self, id: int) -> bool:
        """Forgets an observation, with no message and no further report; its next notification is answered with a
        Reset, which ends it at the server. False where none is live with that number."""
        with self._lock:
            return answered(self._call("forget", id)) == _DONE

    def next_report(self) -> Optional[Report]:
        """What became of a call or an observation, in order."""
        with self._lock:
            told = made("ks_report")
            while True:
                answer = self._call("next_report", ctypes.byref(told), self._room, len(self._room))
                if answer != _SMALL_ROOM:
                    break
                self._room = ctypes.create_string_buffer(told.body_len)
            if answered(answer) != _DONE:
                return None
            tag = bytes(told.tag[: told.tag_len]) or None
            body = ctypes.string_at(self._room, told.body_len)
            return Report(
                told.id, ReportKind(told.kind), Code(told.code), told.sequence, format_of(told.format), tag, body
            )


def peek(datagram: bytes) -> Message:
    """What a datagram says, so that one may be dropped before it is fed, by its path or its sender: it looks lost to
    both ends then. BadMessage where it is no message of CoAP."""
    # (each byte of a path may take three in its text)
    room = ctypes.create_string_buffer(3 * len(datagram) + 1)
    shown = made("ks_message")
    answer = library.ks_peek(bytes(datagram), len(datagram), ctypes.byref(shown), room, len(room))
    fault = _FAULTS.get(answer)
    if fault is not None:
        raise BadMessage(fault, answer, shown.fault_at)
    answered(answer)
    token = bytes(shown.token[: shown.token_len])
    return Message(
        shown.kind,
        Code(shown.code),
        shown.id,
        token,
        path_text(ctypes.string_at(room, shown.path_len)),
        shown.payload_len,
    )
