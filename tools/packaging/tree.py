"""The folder that a package has: what is built, laid out as below a prefix."""

from __future__ import annotations

import os
import pathlib
import shutil
import stat
from typing import Dict, List, NamedTuple

from . import linked, sbom
from .archives import files_of, sha256_lines
from .setting import (
    BINDINGS,
    OBJECT,
    PAGE,
    PROGRAM,
    SHARE,
    TERMS_OF_GLIBC,
    TOP,
    Target,
    commit,
    kit,
    oldest_glibc,
    said,
    soname,
    version,
    wanted_libraries,
)

_ONLY_OURS = "{ global: ks_*; local: *; };\n"
_PROGRAM_MODE = 0o755
#: What is made of a crate for cargo: no build of somebody's, no test that wants the repository.
_OF_RUST = ("Cargo.toml", "build.rs", "src", "tests")
_EXAMPLES = ("c", "cpp", "rust", "python")


class Place(NamedTuple):
    """Where things are below a prefix."""

    prefix: pathlib.Path
    #: Of libraries: lib, or lib/x86_64-linux-gnu as Debian has it.
    lib: str

    def at(self, *parts: str) -> pathlib.Path:
        """That path, whose folder is there."""
        it = self.prefix.joinpath(*parts)
        it.parent.mkdir(parents=True, exist_ok=True)
        return it


def built(target: Target, room: pathlib.Path) -> pathlib.Path:
    """The static archive, proved and built, or KNIFESILVER_ARCHIVE with the three calls for memory."""
    words = [BINDINGS / "build", "--prefix", room]
    if target.triple:
        words += ["--target", target.triple]
    said(*words, env={**os.environ, "CC": target.cc})
    return room / "lib" / "libknifesilver.a"


def shared(archive: pathlib.Path, to: pathlib.Path, target: Target) -> None:
    """Makes the shared library of the archive, which shows the calls of the header and nothing else."""
    script = to.with_suffix(".map")
    script.write_text(_ONLY_OURS)
    whole = ["-Wl,--whole-archive", archive, "-Wl,--no-whole-archive"]
    flags = [
        f"-Wl,--version-script={script}",
        f"-Wl,-soname,{soname()}",
        "-Wl,-z,defs,-z,relro,-z,now",
        "-Wl,--build-id=none",
        "-s",
    ]
    said(target.cc, "-shared", *flags, *whole, "-o", to)
    script.unlink()


def _filled(file: pathlib.Path, words: Dict[str, str]) -> str:
    text = file.read_text("utf-8")
    for name, word in words.items():
        text = text.replace(f"@{name}@", word)
    return text


def _pkg_config(up: str, place: Place) -> str:
    return "\n".join(
        [
            f"prefix=${{pcfiledir}}/{up}",
            "includedir=${prefix}/include",
            f"libdir=${{prefix}}/{place.lib}",
            "",
            "Name: knifesilver",
            "Description: A CoAP client and server as proved state machines with no input or output",
            f"Version: {version()}",
            "Cflags: -I${includedir}",
            "Libs: -L${libdir} -lknifesilver",
            "",
        ]
    )


def library(place: Place, archive: pathlib.Path, target: Target) -> None:
    """Headers, archive, shared library, and what pkg-config and CMake read."""
    for header in sorted((BINDINGS / "include").glob("*.h*")):
        shutil.copyfile(header, place.at("include", header.name))
    shutil.copyfile(archive, place.at(place.lib, "libknifesilver.a"))
    shared(archive, place.at(place.lib, soname()), target)
    # (there is no libknifesilver.so, so -lknifesilver takes the archive; the shared library is taken by its whole name)
    up = "/".join([".."] * (place.lib.count("/") + 2))
    place.at(place.lib, "pkgconfig", "knifesilver.pc").write_text(_pkg_config(up, place))
    major, minor, _ = version().split(".")
    words = {
        "TO_PREFIX": f"{up}/..",
        "LIB": place.lib,
        "SONAME": soname(),
        "VERSION": version(),
        "MAJOR": major,
        "MINOR": minor,
    }
    for name in ("KnifesilverConfig.cmake", "KnifesilverConfigVersion.cmake"):
        to = place.at(place.lib, "cmake", "Knifesilver", name)
        to.write_text(_filled(BINDINGS / "cmake" / name, words))


def program(place: Place, target: Target) -> str:
    """The program coap, where it is built and for this machine, with its man page and the completions of shells; what
    it wants, in words."""
    if target.triple or not PROGRAM.is_file():
        return ""
    to = place.at("bin", "coap")
    shutil.copyfile(PROGRAM, to)
    to.chmod(_PROGRAM_MODE)
    for file in files_of(SHARE):
        shutil.copyfile(file, place.at("share", str(file.relative_to(SHARE))))
    return f"{', '.join(wanted_libraries(to))}; glibc {oldest_glibc(to)} or later"


def page(place: Place) -> bool:
    """The page with the simulator, where page/build has made it. It runs in a browser of any machine."""
    if PAGE.is_file():
        shutil.copyfile(PAGE, place.at("share/doc/knifesilver", PAGE.name))
    return PAGE.is_file()


def static_program(place: Place, target: Target) -> bool:
    """The program linked with all of glibc, for machines that have another C library or an older one, where coap.o and
    glibc's terms are there; beside it what it is linked of, so that who has it may link it with another glibc."""
    if target.triple or not OBJECT.is_file() or not TERMS_OF_GLIBC.is_file():
        return False
    of_kit = [kit() / "c" / name for name in ("libos_c.a", "liblibc_c.a")]
    to = place.at("bin", "coap-static")
    said(target.cc, "-static-pie", "-s", "-Wl,--build-id=none", OBJECT, *of_kit, "-o", to)
    for it in (OBJECT, *of_kit):
        shutil.copyfile(it, place.at("share/knifesilver/coap-static", it.name))
    shutil.copyfile(TERMS_OF_GLIBC, place.at("share/doc/knifesilver", "LICENSE.glibc"))
    return True


def documents(place: Place, proof: str, parts: List[linked.Linked], moment: int, name: str) -> None:
    """Licences, the list of what it is made of, how to prove it again, and the examples."""
    home = "share/doc/knifesilver"
    shutil.copyfile(TOP / "LICENSE", place.at(home, "LICENSE"))
    place.at(home, "THIRD-PARTY").write_text(linked.third_party(parts))
    place.at(home, "knifesilver.spdx.json").write_text(sbom.document(name, version(), moment, parts, []))
    place.at(home, "PROOF").write_text(proof)
    shutil.copyfile(BINDINGS / "README.md", place.at(home, "README.md"))
    for kind in _EXAMPLES:
        folder = BINDINGS / "examples" / kind
        if folder.is_dir():
            shutil.copytree(
                folder, place.at(home, "examples", kind), ignore=shutil.ignore_patterns("target", "__pycache__")
            )


def portable(place: Place) -> bool:
    """The one file of C for other processors, where KNIFESILVER_PORTABLE names it; whether it is there."""
    named = os.environ.get("KNIFESILVER_PORTABLE")
    if named:
        shutil.copyfile(named, place.at("share/knifesilver/portable", "knifesilver-portable.c"))
    return bool(named)


def rust(place: Place) -> None:
    """The crate for cargo, which finds the archive of this package by KNIFESILVER_LIB."""
    for name in _OF_RUST:
        source, to = BINDINGS / "rust" / name, place.at("share/knifesilver/rust", name)
        if source.is_dir():
            shutil.copytree(source, to)
        elif source.is_file():
            shutil.copyfile(source, to)
    manifest = place.at("share/knifesilver/rust", "Cargo.toml")
    manifest.write_text(manifest.read_text().replace("../examples/rust/", "../../doc/knifesilver/examples/rust/"))


def proof(archive: pathlib.Path, target: Target, program_wants: str, is_static: bool) -> str:
    """The file PROOF."""
    words = f" --target {target.triple}" if target.triple else ""
    lines = [
        f"knifesilver {version()} for {target.machine} Linux",
        f"commit {commit()}",
        said("rt", "version").strip(),
        f"libknifesilver.a: {sha256_lines(archive.parent, [archive]).split()[0]}",
        "",
        "To prove it again, with the toolchain of that name, in a copy of the repository at that commit:",
        "",
        f"    bindings/build{words} --prefix out && sha256sum out/lib/libknifesilver.a",
        "",
        "It proves each function of the library before it compiles it. The bytes are those above where the C compiler",
        f"is the same ({said(target.cc, '--version').splitlines()[0]}; it compiles the three calls for memory alone).",
    ]
    if program_wants:
        lines += ["", f"bin/coap wants {program_wants}."]
    if is_static:
        lines += ["bin/coap-static wants nothing. It has glibc in it (LICENSE.glibc), and is linked again by", ""]
        lines += ["    cd share/knifesilver/coap-static && cc -static-pie coap.o libos_c.a liblibc_c.a -o coap-static"]
    if PAGE.is_file():
        digest = sha256_lines(PAGE.parent, [PAGE]).split()[0]
        lines += ["", f"share/doc/knifesilver/{PAGE.name}: {digest}", "page/build proves and makes it again."]
    return "\n".join(lines) + "\n"


def sums(place: Place) -> None:
    """SHA256SUMS of all files, and modes that don't depend on who packs."""
    for it in place.prefix.rglob("*"):
        if not it.is_symlink():
            it.chmod(_PROGRAM_MODE if it.is_dir() or it.stat().st_mode & stat.S_IXUSR else 0o644)
    to = place.prefix / "SHA256SUMS"
    to.write_text(
        sha256_lines(place.prefix, [it for it in files_of(place.prefix) if not it.is_symlink() and it != to])
    )
