"""Which crates of the toolchain are linked into what is packaged, and on what terms."""

from __future__ import annotations

import pathlib
import re
from typing import Dict, List, NamedTuple, Set, Tuple

from .setting import TERMS_OF_GLIBC, TOP, kit

#: What SPDX says where nothing is known.
UNKNOWN = "NOASSERTION"
_MIT = "Permission is hereby granted, free of charge"


class Linked(NamedTuple):
    """A crate of the toolchain."""

    name: str
    #: The version of the Rust crate after which it is made; UNKNOWN where it is the toolchain's own.
    version: str
    #: Its licence, as SPDX writes it.
    licence: str
    #: The texts of its licence, by the names of their files.
    texts: Tuple[Tuple[str, str], ...]


def _crates() -> Dict[str, List[str]]:
    """What each crate of the repository stands on."""
    lines = [
        it for it in (TOP / "crates.txt").read_text("utf-8").splitlines() if ":" in it and not it.startswith("#")
    ]
    return {left.split()[0]: right.split() for left, right in (it.split(":", 1) for it in lines)}


def _below(name: str, crates: Dict[str, List[str]], folder: pathlib.Path) -> List[str]:
    if name in crates:
        # What is written is proved with the standard library below it, whether it is named or not.
        return [*crates[name], "std"]
    form = folder / "rlibs" / f"{name}.rlib" / "format"
    return re.findall(r"^dep (\w+)$", form.read_text("utf-8", "replace"), re.M)


def _licence(texts: Dict[str, str]) -> str:
    if "LICENSE-APACHE" in texts and "LICENSE-MIT" in texts:
        return "MIT OR Apache-2.0"
    if any(_MIT in it for it in texts.values()):
        return "MIT"
    return UNKNOWN


def _described(name: str, folder: pathlib.Path) -> Linked:
    home = folder / "rattle" / name
    texts = {it.name: it.read_text("utf-8") for it in sorted(home.glob("LICENSE*"))}
    readme = home / "README.md"
    after = (
        re.search(rf"Rust crate `{name}` (\d+\.\d+\.\d+)", readme.read_text("utf-8")) if readme.is_file() else None
    )
    return Linked(name, after[1] if after else UNKNOWN, _licence(texts), tuple(texts.items()))


def linked_into(*roots: str) -> List[Linked]:
    """The crates of the toolchain that are linked into these crates of the repository, by name."""
    crates, folder = _crates(), kit()
    seen: Set[str] = set()
    left = list(roots)
    while left:
        name = left.pop()
        if name not in seen:
            seen.add(name)
            left += _below(name, crates, folder)
    return [_described(it, folder) for it in sorted(seen - set(crates))]


def of_wabt() -> Linked:
    """What stands in knifesilver-portable.c beside the library: wasm-rt.h, and the forms that wasm2c writes."""
    terms = pathlib.Path("/usr/share/doc/wabt/copyright").read_text("utf-8")
    return Linked("wabt", "1.0.32", "Apache-2.0", (("LICENSE", terms),))


def of_glibc() -> Linked:
    """What the static program is linked with."""
    terms = ("LICENSE.glibc", TERMS_OF_GLIBC.read_text("utf-8"))
    return Linked("glibc", UNKNOWN, "LGPL-2.1-or-later", (terms,))


def third_party(linked: List[Linked]) -> str:
    """The file THIRD-PARTY."""
    bare = [it.name for it in linked if not it.texts]
    lines = [
        f"The toolchain has no licence text of its standard library: the SBOM says {UNKNOWN} of {', '.join(bare)}."
    ]
    lines += ["", "Linked into what is packaged, beside Knifesilver itself (Apache-2.0, LICENSE):", ""]
    lines += [f"  {it.name} {it.version}: {it.licence}" for it in linked if it.texts]
    for it in linked:
        for name, text in it.texts:
            lines += ["", "=" * 78, f"{it.name} {it.version}, {name}", "=" * 78, "", text.rstrip()]
    return "\n".join(lines) + "\n"
