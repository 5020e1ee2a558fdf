"""The wheel of the Python package, with the shared library inside."""

from __future__ import annotations

import pathlib
from typing import Dict, Tuple

from .archives import wheel
from .setting import BINDINGS, HEADER, TOP, Target, oldest_glibc, soname, version

#: The oldest glibc that pip knows a tag for, on each machine (PEP 600).
_OLDEST_TAG = {"x86_64": "2.5", "aarch64": "2.17"}
_METADATA = """Metadata-Version: 2.1
Name: knifesilver
Version: {version}
Summary: A CoAP client and server whose state machines are proved
License: Apache-2.0
Requires-Python: >=3.9
Classifier: Framework :: AsyncIO
Classifier: Operating System :: POSIX :: Linux
Classifier: Typing :: Typed
Description-Content-Type: text/markdown

{readme}"""
_WHEEL = """Wheel-Version: 1.0
Generator: knifesilver tools/package
Root-Is-Purelib: false
Tag: {tag}
"""


def tag(shared: pathlib.Path, target: Target) -> str:
    """py3-none-manylinux_2_14_x86_64, where the shared library wants glibc 2.14."""
    glibc = max(
        oldest_glibc(shared) or "0.0",
        _OLDEST_TAG[target.machine],
        key=lambda it: [int(part) for part in it.split(".")],
    )
    major, minor = glibc.split(".")[:2]
    return f"py3-none-manylinux_{major}_{minor}_{target.machine}"


def make(folder: pathlib.Path, shared: pathlib.Path, third_party: str, target: Target, moment: int) -> pathlib.Path:
    """Makes it in that folder."""
    home, info = BINDINGS / "python", f"knifesilver-{version()}.dist-info"
    files: Dict[str, Tuple[bytes, bool]] = {}
    for it in sorted((home / "knifesilver").iterdir()):
        if it.suffix == ".py" or it.name == "py.typed":
            files[f"knifesilver/{it.name}"] = (it.read_bytes(), False)
    files["knifesilver/knifesilver.h"] = (HEADER.read_bytes(), False)
    files[f"knifesilver/{soname()}"] = (shared.read_bytes(), True)
    readme = (home / "README.md").read_text("utf-8")
    texts = {
        "METADATA": _METADATA.format(version=version(), readme=readme),
        "WHEEL": _WHEEL.format(tag=tag(shared, target)),
        "LICENSE": (TOP / "LICENSE").read_text("utf-8"),
        "THIRD-PARTY": third_party,
    }
    files.update({f"{info}/{name}": (text.encode(), False) for name, text in texts.items()})
    to = folder / f"knifesilver-{version()}-{tag(shared, target)}.whl"
    wheel(to, files, info, moment)
    return to
