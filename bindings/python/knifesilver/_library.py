"""Finds and loads the shared library, and looks that it is of the header's version."""

from __future__ import annotations

import ctypes
import ctypes.util
import os
import pathlib
from typing import Any, List

from ._header import header, numbers, spelled_version

#: The environment variable that names the file of the shared library.
VARIABLE = "KNIFESILVER_LIBRARY"


class LibraryError(ImportError):
    """The shared library is missing, or of another version than the header."""


def file_name() -> str:
    """The name of the shared library's file: each version 0.x has one of its own."""
    major, minor, _ = header.version().split(".")
    return f"libknifesilver.so.{major}.{minor}"


def _places() -> List[str]:
    beside = pathlib.Path(__file__).resolve().parent / file_name()
    named = os.environ.get(VARIABLE)
    return [named] if named else [str(it) for it in (beside,) if it.is_file()] + [file_name()]


def _load() -> Any:
    whys = []
    for place in _places():
        try:
            # (a call holds the interpreter's lock: it is over in microseconds)
            return ctypes.PyDLL(place)
        except OSError as why:
            whys.append(str(why))
    raise LibraryError(
        f"the shared library {file_name()} is missing ({'; '.join(whys)}); {VARIABLE} may name its file"
    )


def _declared(library: Any) -> Any:
    try:
        found = library.ks_version
    except AttributeError:
        raise LibraryError(f"{library._name} is no libknifesilver: it has no ks_version") from None
    found.restype, found.argtypes = ctypes.c_uint32, []
    if found() != numbers["KS_VERSION"]:
        raise LibraryError(
            f"{library._name} is version {spelled_version(found())}, and this package is of {header.version()}"
        )
    for name, call in header.calls.items():
        it = getattr(library, name)
        it.restype, it.argtypes = call.answers, call.takes
    return library


library = _declared(_load())


def version() -> str:
    """The version of the library, as 0.2.0."""
    return spelled_version(library.ks_version())
