"""Names for peers that have no IPv4 address, as an IPv6 address with its scope, a DTLS session, a radio.

An end compares addresses and reads nothing in them, so it can be handed such a name for the address of its peer:

    names, server = Names(1000), Server()
    name = names.fed(now, key)             # a datagram came from the peer of `key`
    if name is not None:
        server.feed(now, name, datagram)
    out = server.next_out()
    if out is not None:
        datagram, name = out
        key = names.sent(now, name)        # it goes to the peer of `key`

No two peers have one name, and no name is given again. A peer keeps its name for 247 s after the last datagram from it
or to it, and while the name is held. Hold the name of a client's server, and of a server's peer while `Server.knows`
says True. A table begins and ends with its end.
"""

from __future__ import annotations

import ctypes
import threading
from typing import Any, Callable, Optional

from ._header import header, numbers
from ._library import library
from .ends import _moment, _random_word
from .errors import answered
from .values import Address, address_of, made, raw_address

_DONE = numbers["KS_DONE"]
_KEY_ROOM = numbers["KS_KEY_ROOM"]
_REFUSALS = "ks_names_refusal"
_NO_NAME = frozenset(header.enums[_REFUSALS])
_GREATEST_PLACES = 2**32 - 1


class Names:
    """A table of names for peers, each told apart by a key of 1 to 60 bytes that you choose."""

    def __init__(self, places: int, *, this_network: bool = True, word: Optional[Callable[[], int]] = None) -> None:
        """No peer has a name, and at most so many have one at once: 1 to 1,048,576. With `this_network` all names are
        in 0.0.0.0/8, from which no datagram comes, so peers with an IPv4 address can go by it. `word` gives 64 random
        bits at each call; for tests, others."""
        draw = word or _random_word
        self._lock = threading.Lock()
        self._handle = made("ks_names")
        self._room = ctypes.create_string_buffer(_KEY_ROOM)
        seed = made("ks_seed", draw(), draw(), draw())
        # (a number that C has no room for is no number of places, as 0 is none)
        fitting = places if 0 <= places <= _GREATEST_PLACES else 0
        answered(self._call("new", fitting, this_network, ctypes.byref(seed)))

    def _call(self, name: str, *words: Any) -> Any:
        return getattr(library, f"ks_names_{name}")(ctypes.byref(self._handle), *words)

    def close(self) -> None:
        """Frees the table. Later calls raise `Closed`."""
        with self._lock:
            self._call("free")

    def __enter__(self) -> Names:
        return self

    def __exit__(self, *_: object) -> None:
        self.close()

    def __del__(self) -> None:
        if hasattr(self, "_handle"):
            self._call("free")

    def fed(self, now: int, key: bytes) -> Optional[Address]:
        """A datagram came from this peer: the name that it has, or a new one. None where no name is left for it: drop
        the datagram, which counts as lost."""
        with self._lock:
            name = made("ks_address")
            answer = self._call("fed", _moment(now), bytes(key), len(key), ctypes.byref(name))
            return None if answered(answer) in _NO_NAME else address_of(name)

    def sent(self, now: int, name: Address) -> Optional[bytes]:
        """A datagram goes to this name: the key of its peer. None where the name is nobody's: drop the datagram."""
        with self._lock:
            return self._told("sent", name, _moment(now))

    def key(self, name: Address) -> Optional[bytes]:
        """The key of the peer of this name. Nothing goes there, and nothing changes."""
        with self._lock:
            return self._told("key", name)

    def _told(self, call: str, name: Address, *moment: int) -> Optional[bytes]:
        length = ctypes.c_size_t()
        words = (ctypes.byref(raw_address(name)), self._room, _KEY_ROOM, ctypes.byref(length))
        if answered(self._call(call, *moment, *words)) != _DONE:
            return None
        return ctypes.string_at(self._room, length.value)

    def of(self, key: bytes) -> Optional[Address]:
        """The name of this peer; None where it has none. Nothing changes."""
        with self._lock:
            name = made("ks_address")
            answer = answered(self._call("of", bytes(key), len(key), ctypes.byref(name)))
            return address_of(name) if answer == _DONE else None

    def hold(self, name: Address) -> bool:
        """Keeps this name until it is released or retired. Whether it is somebody's."""
        with self._lock:
            return answered(self._call("hold", ctypes.byref(raw_address(name)))) == _DONE

    def release(self, now: int, name: Address) -> bool:
        """Holds this name no more, which counts as a datagram. Whether it was held."""
        with self._lock:
            return answered(self._call("release", _moment(now), ctypes.byref(raw_address(name)))) == _DONE

    def retire(self, name: Address) -> bool:
        """Forgets this name at once, where nothing can come from its peer any more. Whether it was somebody's."""
        with self._lock:
            return answered(self._call("retire", ctypes.byref(raw_address(name)))) == _DONE

    def __len__(self) -> int:
        """How many peers have a name."""
        with self._lock:
            taken = ctypes.c_uint64()
            answered(self._call("load", ctypes.byref(taken)))
            return taken.value
