"""python3 -m knifesilver: asks a server of CoAP from a shell.

The status is 0 where it succeeded, 1 where it failed (nothing was applied), 3 where nobody knows, and 2 where the
words are wrong. A body goes to standard output as it is, all else to standard error."""

from __future__ import annotations

import argparse
import asyncio
import logging
import sys
from typing import Any, List, NamedTuple, Optional
from urllib.parse import unquote_to_bytes, urlsplit

from . import __version__, aio
from .errors import Error, PerhapsApplied
from .values import path_of

_SUCCEEDED, _FAILED, _NOBODY_KNOWS = 0, 1, 3


class Target(NamedTuple):
    """What a URI names."""

    host: str
    port: int
    path: str


def target(uri: str) -> Target:
    """What that coap URI names (RFC 7252, sections 6.1 and 6.4)."""
    parts = urlsplit(uri)
    if parts.scheme != "coap" or not parts.hostname:
        raise argparse.ArgumentTypeError(f"not a URI as coap://host/path: {uri}")
    if parts.query or parts.fragment or parts.username is not None:
        raise argparse.ArgumentTypeError(f"a query, a fragment or a user can't be asked for: {uri}")
    text = parts.path[1:]
    segments = [unquote_to_bytes(it).decode("utf-8", "surrogateescape") for it in text.split("/")] if text else []
    try:
        return Target(parts.hostname, aio.PORT if parts.port is None else parts.port, path_of(segments))
    except ValueError as why:
        raise argparse.ArgumentTypeError(str(why)) from None


def _words() -> argparse.ArgumentParser:
    words = argparse.ArgumentParser(
        prog="python3 -m knifesilver", description=__doc__, formatter_class=argparse.RawDescriptionHelpFormatter
    )
    words.add_argument("--version", action="version", version=f"knifesilver {__version__}")
    asks = words.add_subparsers(dest="ask", required=True, metavar="get|put|post|delete|observe")
    uri = argparse.ArgumentParser(add_help=False)
    uri.add_argument("uri", type=target, help="coap://host[:5683]/path")
    body = argparse.ArgumentParser(add_help=False)
    body.add_argument("body", nargs="?", help="the text to send; what standard input has, if there is none")
    body.add_argument("--format", type=int, metavar="N", help="its Content-Format")
    get = asks.add_parser("get", parents=[uri], help="prints what the path holds")
    get.add_argument("--accept", type=int, metavar="N", help="the Content-Format that is wanted")
    asks.add_parser("put", parents=[uri, body], help="has the path hold the body")
    asks.add_parser("post", parents=[uri, body], help="has the server process the body")
    asks.add_parser("delete", parents=[uri], help="has the path hold nothing")
    observe = asks.add_parser("observe", parents=[uri], help="prints what the path holds, a line each time")
    observe.add_argument("--count", type=int, metavar="N", help="cancels after N values")
    return words


def _body(given: Any) -> bytes:
    return sys.stdin.buffer.read() if given.body is None else str(given.body).encode("utf-8", "surrogateescape")


def _print(body: bytes) -> None:
    sys.stdout.buffer.write(body)
    sys.stdout.buffer.flush()


async def _observe(client: aio.Client, path: str, count: Optional[int]) -> None:
    values = client.observe(path)
    async for value in values:
        _print(value.body + b"\n")
        count = None if count is None else count - 1
        if count is not None and count <= 0:
            await values.cancel()
            return


async def _ask(given: Any) -> None:
    path = given.uri.path
    async with aio.Client(given.uri.host, given.uri.port) as client:
        if given.ask == "get":
            _print((await client.get(path, accept=given.accept)).body)
        elif given.ask == "observe":
            await _observe(client, path, given.count)
        elif given.ask == "delete":
            print(await client.delete(path), file=sys.stderr)
        else:
            code = await getattr(client, given.ask)(path, _body(given), format=given.format)
            print(code, file=sys.stderr)


def main(words: Optional[List[str]] = None) -> int:
    """Runs the command of these words, and answers its status."""
    given = _words().parse_args(words)
    logging.basicConfig(format="knifesilver: %(message)s")
    try:
        asyncio.run(_ask(given))
    except KeyboardInterrupt:
        return _SUCCEEDED
    except PerhapsApplied as why:
        print(f"knifesilver: {type(why).__name__}: {why}", file=sys.stderr)
        return _NOBODY_KNOWS
    except (Error, OSError) as why:
        print(f"knifesilver: {type(why).__name__}: {why}", file=sys.stderr)
        return _FAILED
    return _SUCCEEDED


if __name__ == "__main__":
    sys.exit(main())
