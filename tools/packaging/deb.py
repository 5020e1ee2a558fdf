"""The Debian package: one, with the library, its headers and, where it is built, the program."""

from __future__ import annotations

import gzip
import os
import pathlib
import shutil

from .setting import Target, oldest_glibc, said, soname, version
from .tree import Place

_CONTROL = """Package: knifesilver
Version: {version}-1
Section: libs
Priority: optional
Architecture: {debian}
Maintainer: Knifesilver maintainers <maintainers@users.noreply.knifesilver.example>
Depends: libc6{glibc}
Installed-Size: {kibibytes}
Description: CoAP client and server as proved state machines
 The library for C and C++, static and shared, with its headers, and the
 command coap where it is built. Whoever reaches the port of a server may
 write: there is no encryption and no list of who may do what.
"""


def _as_debian_has_it(share: pathlib.Path) -> None:
    """Man pages are compressed, and completions of zsh have a folder of their own."""
    for page in sorted((share / "man").rglob("*.[1-9]")):
        page.with_name(f"{page.name}.gz").write_bytes(gzip.compress(page.read_bytes(), 9, mtime=0))
        page.unlink()
    of_zsh = share / "zsh"
    if of_zsh.is_dir():
        (of_zsh / "site-functions").rename(of_zsh / "vendor-completions")


def make(folder: pathlib.Path, place: Place, target: Target, moment: int) -> pathlib.Path:
    """Makes it in that folder, of what is laid out below ROOT/usr."""
    root = place.prefix.parent
    (root / "DEBIAN").mkdir()
    doc = place.prefix / "share" / "doc" / "knifesilver"
    shutil.move(str(doc / "LICENSE"), doc / "copyright")
    _as_debian_has_it(place.prefix / "share")
    wants = [
        oldest_glibc(it)
        for it in (place.prefix / place.lib / soname(), place.prefix / "bin" / "coap")
        if it.is_file()
    ]
    glibc = max((it for it in wants if it), key=lambda it: [int(part) for part in it.split(".")], default="")
    size = sum(it.stat().st_size for it in place.prefix.rglob("*") if it.is_file() and not it.is_symlink())
    words = {
        "version": version(),
        "debian": target.debian,
        "kibibytes": -(-size // 1024),
        "glibc": f" (>= {glibc})" if glibc else "",
    }
    (root / "DEBIAN" / "control").write_text(_CONTROL.format(**words))
    (root / "DEBIAN" / "triggers").write_text("activate-noawait ldconfig\n")
    for it in [root, *root.rglob("*")]:
        if it.is_dir() and not it.is_symlink():
            it.chmod(0o755)
    for it in (root / "DEBIAN").iterdir():
        it.chmod(0o644)
    to = folder / f"knifesilver_{version()}-1_{target.debian}.deb"
    environment = {**os.environ, "SOURCE_DATE_EPOCH": str(moment)}
    for it in sorted(root.rglob("*")):
        os.utime(it, (moment, moment), follow_symlinks=False)
    said("dpkg-deb", "--root-owner-group", "-Zxz", "--build", root, to, env=environment)
    return to
