"""A client and a server of CoAP (RFC 7252, with Observe, RFC 7641, and blocks, RFC 7959), whose state machines are
proved.

`Server` and `Client` have no input or output of their own: you hand them datagrams and moments, and they hand you
datagrams. `Names` has names for peers that have no IPv4 address. `knifesilver.aio` runs the ends over a UDP socket of
asyncio:

    async with knifesilver.aio.Client("127.0.0.1") as client:
        print((await client.get("temperature")).text)

`python3 -m knifesilver get coap://127.0.0.1/temperature` does it from a shell.

Whoever reaches the port of a server may write, make and delete every path of it: there is no encryption and no list of
who may do what.
"""

# This file is read by a Python that is too old, too, so that it can say so: no newer syntax stands before this.
import sys

OLDEST_PYTHON = (3, 9)
if sys.version_info[:2] < OLDEST_PYTHON:
    raise ImportError(
        "knifesilver needs Python %d.%d or later; this is %d.%d" % (OLDEST_PYTHON + tuple(sys.version_info[:2]))
    )

from ._library import LibraryError, version
from .ends import Client, Server, drawn_base, peek
from .errors import *
from .errors import __all__ as _errors
from .names import Names
from .values import (
    Address,
    Applied,
    Code,
    Config,
    Ended,
    Load,
    Message,
    Method,
    Report,
    ReportKind,
    Representation,
    Would,
    path_of,
    segments_of,
)

__all__ = [
    "Address",
    "Applied",
    "Client",
    "Code",
    "Config",
    "Ended",
    "LibraryError",
    "Load",
    "Message",
    "Method",
    "Names",
    "Report",
    "ReportKind",
    "Representation",
    "Server",
    "Would",
    "drawn_base",
    "path_of",
    "peek",
    "segments_of",
    "version",
] + _errors
__version__ = version()
