"""The values that go into an end and come out of it."""

from __future__ import annotations

import ctypes
import enum
from typing import Any, Iterable, List, NamedTuple, Optional, Tuple
from urllib.parse import quote_from_bytes, unquote_to_bytes

from ._header import header, numbers

#: An IPv4 address as text and a UDP port, as sockets of Python have them: ("127.0.0.1", 5683).
Address = Tuple[str, int]

# From this version on a path's text has `/` and `%` of a segment as %2F and %25. Before, no text has such a `/`.
_ESCAPES_SINCE = 200
_ESCAPES = numbers["KS_VERSION"] >= _ESCAPES_SINCE


def path_of(segments: Iterable[str]) -> str:
    """The text of the path of these segments, each as it is, with nothing escaped: path_of(["a", "b"]) is "/a/b"."""
    texts = []
    for it in segments:
        if not _ESCAPES and "/" in it:
            raise ValueError(f"a segment with a / in it cannot be named: {it}")
        texts.append("/" + (it.replace("%", "%25").replace("/", "%2F") if _ESCAPES else it))
    return "".join(texts) or "/"


def segments_of(path: str) -> List[str]:
    """The segments of a path's text, with nothing escaped: segments_of("/a/b") is ["a", "b"]."""
    text = path[1:] if path.startswith("/") else path
    parts = text.split("/") if text else []
    return [unquote_to_bytes(it).decode("utf-8", "surrogateescape") for it in parts] if _ESCAPES else parts


def uri_path(path: str) -> str:
    """The path as a URI has it, percent-encoded (RFC 7252, section 6.5)."""
    safe = "-._~!$&'()*+,;=:@"
    return "/" + "/".join(quote_from_bytes(it.encode("utf-8", "surrogateescape"), safe) for it in segments_of(path))


class Method(enum.IntEnum):
    """What a request asks for."""

    GET = numbers["KS_GET"]
    POST = numbers["KS_POST"]
    PUT = numbers["KS_PUT"]
    DELETE = numbers["KS_DELETE"]


class ReportKind(enum.IntEnum):
    """What became of a call or an observation. Each but VALUE is the last report of its number."""

    BODY = numbers["KS_BODY"]
    VALID = numbers["KS_VALID"]
    SUCCESS = numbers["KS_SUCCESS"]
    VALUE = numbers["KS_VALUE"]
    ENDED = numbers["KS_ENDED"]
    CANCELLED = numbers["KS_CANCELLED"]
    FAILED = numbers["KS_FAILED"]
    TIMEOUT = numbers["KS_TIMEOUT"]
    RESET = numbers["KS_RESET"]
    NO_RESPONSE = numbers["KS_NO_RESPONSE"]
    CHANGED = numbers["KS_CHANGED"]
    BAD_BLOCK = numbers["KS_BAD_BLOCK"]
    NO_TAG = numbers["KS_NO_TAG"]
    TOO_LARGE = numbers["KS_TOO_LARGE"]
    NO_IDS = numbers["KS_NO_IDS"]


class Would(enum.IntEnum):
    """What a datagram would be if it were fed now."""

    IGNORE = numbers["KS_WOULD_IGNORE"]
    REJECT = numbers["KS_WOULD_REJECT"]
    REPEAT = numbers["KS_WOULD_REPEAT"]
    TAKE = numbers["KS_WOULD_TAKE"]
    NO_PLACE = numbers["KS_WOULD_NO_PLACE"]
    NO_ID = numbers["KS_WOULD_NO_ID"]
    ACKNOWLEDGE = numbers["KS_WOULD_ACKNOWLEDGE"]
    RESET = numbers["KS_WOULD_RESET"]


class Code(int):
    """A code of a message: three bits of class, five of detail. str(Code(0x45)) is "2.05"."""

    @classmethod
    def of(cls, kind: int, detail: int) -> Code:
        """The code of that class, 0 to 7, and detail, 0 to 31: Code.of(2, 5)."""
        return cls(kind << 5 | detail)

    def __str__(self) -> str:
        return f"{self >> 5}.{self & 31:02d}"

    def __repr__(self) -> str:
        return f"Code({self})"


class Config(NamedTuple):
    """What an end is made with; 0 is the usual number, which stands in brackets."""

    #: Bytes of a block at most: 16, 32, .. 1,024 (1,024).
    block_size: int = 0
    #: Bytes of a body at most, that is sent, joined from blocks or held: up to 1,048,576 (65,536).
    body_limit: int = 0
    #: How many messages are remembered at once, each for 247 s: up to 1,048,576 (4,096).
    remembered: int = 0
    #: How many changes a server's store takes in 256 s: up to 4,194,303 (4,194,303).
    changes: int = 0
    #: The version after which a server's versions begin: a multiple of 2**24 below 2**63, as `drawn_base()` is. With 0
    #: the first is 1.
    base: int = 0


class Representation(NamedTuple):
    """What a path holds."""

    #: The number of the change that made it, which rises with each change of the server.
    version: int
    #: Its Content-Format (RFC 7252, section 12.3), or None.
    format: Optional[int]
    #: Its bytes.
    body: bytes


class Applied(NamedTuple):
    """A request of a client that was applied: one that was answered with 2.01, 2.02 or 2.04."""

    #: The version that it made; 0 where it changed nothing.
    version: int
    #: Whose request it was.
    source: Address
    #: POST, PUT or DELETE.
    method: Method
    #: The token of the request.
    token: bytes
    #: The path, with a `/` before each segment; bytes that are no UTF-8 as `surrogateescape` has them.
    path: str
    #: What the path held as soon as the request was applied; None where it held nothing, as after a DELETE.
    held: Optional[Representation]


class Report(NamedTuple):
    """What became of a call or an observation."""

    #: The number of the call or the observation.
    id: int
    #: What it is a report of.
    kind: ReportKind
    #: The code of the response, or 0.00.
    code: Code
    #: Of a VALUE: rises, modulo 2^24.
    sequence: int
    #: The Content-Format of the body, or None.
    format: Optional[int]
    #: The entity-tag of 1 to 8 bytes, or None.
    tag: Optional[bytes]
    #: The body, of a BODY or a VALUE.
    body: bytes


class Message(NamedTuple):
    """What a datagram says."""

    #: 0 Confirmable, 1 Non-confirmable, 2 Acknowledgement, 3 Reset.
    kind: int
    #: Its code.
    code: Code
    #: Its Message ID.
    id: int
    #: Its token, of 0 to 8 bytes.
    token: bytes
    #: The values of Uri-Path, with a `/` before each.
    path: str
    #: How many bytes its payload has.
    payload_len: int


# ---- As the library has them ----

NO_FORMAT = numbers["KS_NO_FORMAT"]


class Load(NamedTuple):
    """How much an end has at a moment. What an end of the other kind has alone is 0."""

    ids_left: int
    changes_left: int
    remembered: int
    remembered_most: int
    outstanding: int
    queued: int
    observers: int
    partial: int
    deferred: int
    paths: int
    delays: int
    plains: int
    waiting: int
    observations: int
    reports: int


class Ended(NamedTuple):
    """A separate response or a notification that a Reset or a failure ended."""

    to: Address
    token: bytes
    observe: bool


def made(name: str, *fields: Any) -> Any:
    """The struct of the header of that name."""
    return header.structs[name](*fields)


def raw_config(config: Config) -> Any:
    it = made("ks_config")
    it.size = ctypes.sizeof(it)
    for field, value in config._asdict().items():
        if not 0 <= value < (2**64 if field == "base" else 2**32):
            raise ValueError(f"Config.{field} is {value}")
        setattr(it, field, value)
    return it


def raw_address(address: Address) -> Any:
    host, port = address[:2]
    parts = [int(part) for part in host.split(".") if part.isdigit()]
    if len(parts) != 4 or max(parts) > 255 or not 0 <= port < 2**16:
        raise ValueError(f"no IPv4 address and port: {host} {port}")
    return made("ks_address", (ctypes.c_uint8 * 4)(*parts), port)


def address_of(raw: Any) -> Address:
    return ".".join(str(part) for part in raw.ip), raw.port


def raw_path(path: str) -> bytes:
    return path.encode("utf-8", "surrogateescape")


def path_text(raw: bytes) -> str:
    return raw.decode("utf-8", "surrogateescape")


def raw_format(number: Optional[int]) -> int:
    if number is None:
        return NO_FORMAT
    if not 0 <= number < 2**16:
        raise ValueError(f"no Content-Format: {number}")
    return number


def format_of(raw: int) -> Optional[int]:
    return None if raw == NO_FORMAT else raw


def raw_tags(tags: Iterable[bytes]) -> Tuple[Any, int]:
    """An array of them, of one at least, since no pointer is NULL."""
    given = list(tags)
    array = (header.structs["ks_tag"] * max(1, len(given)))()
    for it, tag in zip(array, given):
        it.len = min(len(tag), 255)
        it.bytes[: min(len(tag), 8)] = tag[:8]
    return array, len(given)
