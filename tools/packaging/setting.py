"""What is packaged: the version, the target, the moment, and the folders."""

from __future__ import annotations

import os
import pathlib
import re
import shutil
import subprocess
from typing import Any, List, NamedTuple

TOP = pathlib.Path(__file__).resolve().parent.parent.parent
BINDINGS = TOP / "bindings"
HEADER = BINDINGS / "include" / "knifesilver.h"
PROGRAM = TOP / "crates" / "coap" / "out" / "coap"
#: The man page and the completions of shells, laid out as below PREFIX/share (tools/words makes them).
SHARE = TOP / "tools" / "packaging" / "share"
PAGE = TOP / "page" / "out" / "knifesilver.html"
#: What the program is linked of.
OBJECT = PROGRAM.with_suffix(".o")
#: On what terms glibc is linked into a program: Debian's copy, which says which glibc it is.
TERMS_OF_GLIBC = pathlib.Path("/usr/share/doc/libc6-dev/copyright")


class Problem(Exception):
    """Why no package is made."""


class Target(NamedTuple):
    """A machine that is packaged for."""

    #: As the toolchain calls it; "" is its own.
    triple: str
    #: In the names of files.
    machine: str
    #: As Debian calls it.
    debian: str
    #: The folder of libraries in Debian's /usr/lib.
    multiarch: str
    #: The C compiler.
    cc: str


TARGETS = {
    "x86_64": Target("", "x86_64", "amd64", "x86_64-linux-gnu", "cc"),
    "aarch64": Target("aarch64-unknown-linux-gnu", "aarch64", "arm64", "aarch64-linux-gnu", "aarch64-linux-gnu-gcc"),
}


def said(*words: object, **more: Any) -> str:
    """What a program prints; a Problem where it fails."""
    try:
        ran = subprocess.run([str(it) for it in words], stdout=subprocess.PIPE, text=True, **more)
    except OSError as why:
        raise Problem(f"{words[0]}: {why.strerror}") from None
    if ran.returncode:
        raise Problem(f"{' '.join(str(it) for it in words)}: status {ran.returncode}")
    return str(ran.stdout)


def version() -> str:
    """The version of the header, as 0.2.0."""
    number = re.search(r"^#define KS_VERSION (\d+)", HEADER.read_text("utf-8"), re.M)
    if number is None:
        raise Problem(f"{HEADER} has no KS_VERSION")
    it = int(number[1])
    return f"{it // 10000}.{it // 100 % 100}.{it % 100}"


def soname() -> str:
    """The shared library's name: each minor version of 0.x has its own."""
    major, minor, _ = version().split(".")
    return f"libknifesilver.so.{major}.{minor}"


def commit() -> str:
    """The commit of the working copy, and whether files of it differ."""
    head = said("git", "-C", TOP, "rev-parse", "HEAD").strip()
    changed = said("git", "-C", TOP, "status", "--porcelain", "--untracked-files=no").strip()
    return head + (" (and files that differ)" if changed else "")


def moment() -> int:
    """The time of each file of a package, in seconds since 1970: SOURCE_DATE_EPOCH, or that of the commit."""
    named = os.environ.get("SOURCE_DATE_EPOCH")
    return int(named or said("git", "-C", TOP, "log", "-1", "--format=%ct"))


def kit() -> pathlib.Path:
    """The folder of the toolchain."""
    if shutil.which("rt") is None:
        raise Problem("the toolchain is missing: its command rt is not on the PATH")
    return pathlib.Path(said("rt", "doc").strip()).parent


def oldest_glibc(file: pathlib.Path) -> str:
    """The oldest glibc that an ELF file can be run with, as 2.14; "" where it wants none."""
    found = re.findall(r"\bGLIBC_(\d+(?:\.\d+)+)\b", said("readelf", "-VW", file))
    return max(found, key=lambda it: [int(part) for part in it.split(".")], default="")


def wanted_libraries(file: pathlib.Path) -> List[str]:
    """The shared libraries that an ELF file wants."""
    return re.findall(r"\(NEEDED\).*\[(.*)\]", said("readelf", "-dW", file))
