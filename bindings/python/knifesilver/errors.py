"""What is raised.

`Refused`: an end did not take a call, and nothing came of it. `Failed`: another code came than one of success, and the
request was not applied and never will be. `PerhapsApplied`: no answer came that says so, and the request was perhaps
applied, or still may be: ask the server what the path holds before you ask again.
"""

from __future__ import annotations

from typing import Dict, Optional, Tuple, Type

from ._header import header, numbers

__all__ = [
    "BadArgument",
    "BadBlock",
    "BadConfig",
    "BadGateway",
    "BadMessage",
    "BadOption",
    "BadPath",
    "BadRequest",
    "Changed",
    "Closed",
    "Conflict",
    "Error",
    "Failed",
    "Forbidden",
    "GatewayTimeout",
    "HopLimitReached",
    "Incomplete",
    "InternalServerError",
    "MethodNotAllowed",
    "MethodNotImplemented",
    "NoIds",
    "NoResponse",
    "NoTag",
    "NotAcceptable",
    "NotFound",
    "PerhapsApplied",
    "PreconditionFailed",
    "ProxyingNotSupported",
    "QueueFull",
    "Refused",
    "RequestTooLarge",
    "Reset",
    "ServiceUnavailable",
    "TimedOut",
    "TooLarge",
    "TooManyRequests",
    "Unauthorized",
    "UnprocessableEntity",
    "UnsupportedContentFormat",
    "Unsuccessful",
]


class Error(Exception):
    """Whatever this package raises of its own."""


class Closed(Error):
    """The end was closed before, or while this was waited for."""


# ---- What an end does not take ----


class Refused(Error):
    """An end did not take the call: it is as it was before."""

    def __init__(self, name: str, number: int) -> None:
        said = header.said.get(name)
        super().__init__(f"{name}: {said}" if said else name)
        #: The name of the reason in knifesilver.h, as KS_SET_TOO_LARGE.
        self.name = name
        #: Its number there.
        self.number = number


class BadPath(Refused, ValueError):
    """The text is no path, or path and options are too long for one message."""


class BadArgument(Refused, ValueError):
    """An entity-tag of 0 or over 8 bytes, or over 4 of them; a key of 0 or over 60 bytes, or no places or over
    1,048,576."""


class BadConfig(Refused, ValueError):
    """A field of the configuration is out of its range."""


class QueueFull(Refused):
    """8 calls wait. (`knifesilver.aio` waits by itself.)"""


class BadMessage(Refused, ValueError):
    """A datagram is no message of CoAP."""

    def __init__(self, name: str, number: int, at: int) -> None:
        super().__init__(name, number)
        #: Where its first fault is, in bytes from the start.
        self.at = at


_REFUSED: Dict[str, Type[Refused]] = {
    "KS_BAD_PATH": BadPath,
    "KS_CALL_BAD_PATH": BadPath,
    "KS_BAD_ARGUMENT": BadArgument,
    "KS_BAD_SIZE": BadConfig,
    "KS_BAD_BLOCK_SIZE": BadConfig,
    "KS_BAD_BODY_LIMIT": BadConfig,
    "KS_BAD_REMEMBERED": BadConfig,
    "KS_BAD_CHANGES": BadConfig,
    "KS_BAD_BASE": BadConfig,
    "KS_CALL_QUEUE_FULL": QueueFull,
    "KS_CANCEL_QUEUE_FULL": QueueFull,
}


def answered(answer: int, refusals: str = "") -> int:
    """That answer of the library, unless it is a refusal: one of the enum of that name, or a number below 0."""
    name = header.enums[refusals].get(answer, "") if refusals else ""
    if not name and answer >= 0:
        return answer
    if answer == numbers["KS_NO_MEMORY"]:
        raise MemoryError("knifesilver: an allocation was refused")
    if answer == numbers["KS_NOT_LIVE"]:
        raise Closed("the end is closed")
    name = name or header.enums[""].get(answer, f"answer {answer}")
    raise _REFUSED.get(name, Refused)(name, answer)


# ---- What became of a request, where it was no success ----


class Unsuccessful(Error):
    """What a report says, where it is not that of a success."""


class PerhapsApplied(Unsuccessful):
    """The request was perhaps applied, or still may be. Of a GET: no answer can be told."""


class TimedOut(PerhapsApplied, TimeoutError):
    """No acknowledgement came: after 62 to 93 s (RFC 7252, section 4.8.2)."""


class Reset(PerhapsApplied):
    """The server rejected the message by a Reset."""


class NoResponse(PerhapsApplied):
    """The request was acknowledged, but no separate response came within 247 s."""


class Changed(PerhapsApplied):
    """The representation changed again and again while its blocks were fetched."""


class BadBlock(PerhapsApplied):
    """A block is not the one that was asked for."""


class NoTag(PerhapsApplied):
    """One of several blocks has no entity-tag."""


class TooLarge(PerhapsApplied):
    """The body is longer than the client's `body_limit`."""


class NoIds(PerhapsApplied):
    """No Message ID or no token was free."""


class Failed(Unsuccessful):
    """The server answered by a code that is not one of success: the request was not applied, and never will be."""

    #: The code of the class, as (4, 4), where it has one.
    CODE: Optional[Tuple[int, int]] = None

    def __init__(self, code: int) -> None:
        super().__init__(f"{code >> 5}.{code & 31:02d}")
        #: The code: three bits of class, five of detail.
        self.code = code


class BadRequest(Failed):
    """4.00"""

    CODE = (4, 0)


class Unauthorized(Failed):
    """4.01"""

    CODE = (4, 1)


class BadOption(Failed):
    """4.02: the server doesn't know a critical option of the request."""

    CODE = (4, 2)


class Forbidden(Failed):
    """4.03"""

    CODE = (4, 3)


class NotFound(Failed):
    """4.04: the path holds nothing."""

    CODE = (4, 4)


class MethodNotAllowed(Failed):
    """4.05"""

    CODE = (4, 5)


class NotAcceptable(Failed):
    """4.06: the path holds nothing in the Content-Format that was asked for."""

    CODE = (4, 6)


class Incomplete(Failed):
    """4.08: blocks of the body are missing at the server (RFC 7959, section 2.9.2)."""

    CODE = (4, 8)


class Conflict(Failed):
    """4.09 (RFC 8132)"""

    CODE = (4, 9)


class PreconditionFailed(Failed):
    """4.12: If-Match or If-None-Match did not hold."""

    CODE = (4, 12)


class RequestTooLarge(Failed):
    """4.13: the body is longer than the server takes."""

    CODE = (4, 13)


class UnsupportedContentFormat(Failed):
    """4.15"""

    CODE = (4, 15)


class UnprocessableEntity(Failed):
    """4.22 (RFC 8132)"""

    CODE = (4, 22)


class TooManyRequests(Failed):
    """4.29 (RFC 8516)"""

    CODE = (4, 29)


class InternalServerError(Failed):
    """5.00"""

    CODE = (5, 0)


class MethodNotImplemented(Failed):
    """5.01"""

    CODE = (5, 1)


class BadGateway(Failed):
    """5.02"""

    CODE = (5, 2)


class ServiceUnavailable(Failed):
    """5.03: the server has no place for it now."""

    CODE = (5, 3)


class GatewayTimeout(Failed):
    """5.04"""

    CODE = (5, 4)


class ProxyingNotSupported(Failed):
    """5.05"""

    CODE = (5, 5)


class HopLimitReached(Failed):
    """5.08 (RFC 8768)"""

    CODE = (5, 8)


_FAILED = {it.CODE: it for it in Failed.__subclasses__()}
_OPEN: Dict[int, Type[PerhapsApplied]] = {
    numbers["KS_TIMEOUT"]: TimedOut,
    numbers["KS_RESET"]: Reset,
    numbers["KS_NO_RESPONSE"]: NoResponse,
    numbers["KS_CHANGED"]: Changed,
    numbers["KS_BAD_BLOCK"]: BadBlock,
    numbers["KS_NO_TAG"]: NoTag,
    numbers["KS_TOO_LARGE"]: TooLarge,
    numbers["KS_NO_IDS"]: NoIds,
}


def failed(code: int) -> Failed:
    """The error of that code, which is not one of success."""
    return _FAILED.get((code >> 5, code & 31), Failed)(code)


def unsuccessful(kind: int, code: int) -> Optional[Unsuccessful]:
    """The error of a report of that kind and code; None where it is that of a success."""
    if kind == numbers["KS_FAILED"]:
        return failed(code)
    error = _OPEN.get(kind)
    return error((error.__doc__ or "").splitlines()[0].rstrip(".")) if error else None
