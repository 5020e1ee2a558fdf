"""Reads `knifesilver.h`, so that no number, struct or call of it is written a second time.

The header lies beside this file in an installed package, and in `bindings/include` in a working copy.
"""

from __future__ import annotations

import ctypes
import pathlib
import re
from typing import Any, Dict, List, NamedTuple, Optional, Type

_HERE = pathlib.Path(__file__).resolve().parent
_PLACES = (_HERE / "knifesilver.h", _HERE.parent.parent / "include" / "knifesilver.h")

_PLAIN: Dict[str, Any] = {
    "bool": ctypes.c_bool,
    "size_t": ctypes.c_size_t,
    "int32_t": ctypes.c_int32,
    "uint8_t": ctypes.c_uint8,
    "uint16_t": ctypes.c_uint16,
    "uint32_t": ctypes.c_uint32,
    "uint64_t": ctypes.c_uint64,
}
_COMMENT = re.compile(r"/\*.*?\*/|//[^\n]*", re.S)
_ENUM = re.compile(r"enum\s*(\w*)\s*(\{.*?\}\s*;(?:[ \t]*/\*.*?\*/)?)", re.S)
_MEMBER = re.compile(r"(KS_\w+)\s*=\s*(-?\w+)\s*,?(?:\s*\}\s*;)?(?:[ \t]*/\*\s*(.*?)\s*\*/)?", re.S)
_DEFINE = re.compile(r"^#define (KS_\w+)\s+\(?(-?\w+)\)?", re.M)
_STRUCT = re.compile(r"typedef struct \{(.*?)\} (ks_\w+);", re.S)
_CALL = re.compile(r"^(\w+) (ks_\w+)\(([^)]*)\);", re.M)


class Call(NamedTuple):
    """A function of the library: what it answers, and what it takes."""

    answers: Any
    takes: List[Any]


def _number(text: str) -> int:
    return int(text.rstrip("uUlL"), 0)


class Header:
    """What a header declares."""

    def __init__(self, text: str) -> None:
        self.numbers: Dict[str, int] = {name: _number(value) for name, value in _DEFINE.findall(text)}
        #: What the comment at a number says.
        self.said: Dict[str, str] = {}
        #: The names of an enum's numbers; those of the enum without a name are under "".
        self.enums: Dict[str, Dict[int, str]] = {}
        for enum, members in _ENUM.findall(text):
            for name, value, said in _MEMBER.findall(members):
                self.numbers[name] = _number(value)
                self.said[name] = re.sub(r"\s+", " ", said)
                self.enums.setdefault(enum, {})[self.numbers[name]] = name
        bare = _COMMENT.sub(" ", text)
        self.structs: Dict[str, Type[ctypes.Structure]] = {}
        for fields, name in _STRUCT.findall(bare):
            pairs = [self._field(it.strip()) for it in fields.split(";") if it.strip()]
            self.structs[name] = type(name, (ctypes.Structure,), {"_fields_": pairs})
        self.calls: Dict[str, Call] = {}
        for answers, name, takes in _CALL.findall(bare):
            words = [] if takes.strip() == "void" else takes.split(",")
            self.calls[name] = Call(
                None if answers == "void" else self._type(answers), [self._taken(it) for it in words]
            )

    def _type(self, word: str) -> Any:
        return _PLAIN.get(word) or self.structs[word]

    def _field(self, text: str) -> Any:
        parts = re.fullmatch(r"(\w+) (\*?)(\w+)(?:\[(\w+)\])?", text)
        if parts is None:
            raise ValueError(f"a field of knifesilver.h that is not understood: {text}")
        kind, star, name, length = parts.groups()
        if star:
            return name, ctypes.c_void_p
        if length is None:
            return name, self._type(kind)
        return name, self._type(kind) * (self.numbers[length] if length in self.numbers else _number(length))

    def _taken(self, text: str) -> Any:
        parts = re.fullmatch(r"\s*(const )?(\w+) (\*?)\w+\s*", text)
        if parts is None:
            raise ValueError(f"a parameter of knifesilver.h that is not understood: {text}")
        const, kind, star = parts.groups()
        if not star:
            return self._type(kind)
        if kind in ("void", "char"):
            return ctypes.c_char_p if const else ctypes.c_void_p
        return ctypes.POINTER(self._type(kind))

    def version(self) -> str:
        """Its version, as 0.2.0."""
        return spelled_version(self.numbers["KS_VERSION"])


def spelled_version(number: int) -> str:
    """What a KS_VERSION says: 200 is 0.2.0."""
    return f"{number // 10000}.{number // 100 % 100}.{number % 100}"


def read(path: Optional[pathlib.Path] = None) -> Header:
    """The header at that path, or the package's own."""
    for place in (path,) if path else _PLACES:
        if place.is_file():
            return Header(place.read_text("utf-8"))
    raise ImportError(f"knifesilver.h is missing: it is at none of {', '.join(str(it) for it in _PLACES)}")


header = read()
numbers = header.numbers
