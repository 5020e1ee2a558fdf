"""Archives whose bytes are those of what is in them alone: a tarball, a wheel."""

from __future__ import annotations

import base64
import gzip
import hashlib
import io
import pathlib
import tarfile
import time
import zipfile
from typing import Dict, Iterator, Tuple

_FILE, _PROGRAM, _LINK_MODE = 0o644, 0o755, 0o777
_OLDEST_ZIP = 315532800


def files_of(folder: pathlib.Path) -> Iterator[pathlib.Path]:
    """The files and links below a folder, in order."""
    return (it for it in sorted(folder.rglob("*")) if it.is_symlink() or it.is_file())


def is_program(file: pathlib.Path) -> bool:
    return bool(file.stat().st_mode & 0o100)


def tarball(folder: pathlib.Path, to: pathlib.Path, moment: int) -> None:
    """Packs the folder, under its own name."""
    packed = io.BytesIO()
    with tarfile.open(fileobj=packed, mode="w", format=tarfile.USTAR_FORMAT) as tar:
        for it in [folder, *sorted(folder.rglob("*"))]:
            entry = tarfile.TarInfo(str(it.relative_to(folder.parent)))
            entry.mtime, entry.uname, entry.gname = moment, "root", "root"
            if it.is_symlink():
                entry.type, entry.linkname, entry.mode = tarfile.SYMTYPE, str(it.readlink()), _LINK_MODE
                tar.addfile(entry)
            elif it.is_dir():
                entry.type, entry.mode = tarfile.DIRTYPE, _PROGRAM
                tar.addfile(entry)
            else:
                body = it.read_bytes()
                entry.size, entry.mode = len(body), _PROGRAM if is_program(it) else _FILE
                tar.addfile(entry, io.BytesIO(body))
    with open(to, "wb") as out, gzip.GzipFile(
        filename="", mode="wb", compresslevel=9, fileobj=out, mtime=moment
    ) as zipped:
        zipped.write(packed.getvalue())


def wheel(to: pathlib.Path, files: Dict[str, Tuple[bytes, bool]], info: str, moment: int) -> None:
    """Packs a wheel: the files, by their names, each with whether it is a program, and the RECORD of them in `info`."""
    record = f"{info}/RECORD"
    lines = []
    for name, (body, _) in sorted(files.items()):
        digest = base64.urlsafe_b64encode(hashlib.sha256(body).digest()).rstrip(b"=").decode()
        lines.append(f"{name},sha256={digest},{len(body)}")
    whole = {**files, record: ("\n".join([*lines, f"{record},,"]).encode() + b"\n", False)}
    when = time.gmtime(max(moment, _OLDEST_ZIP))[:6]
    with zipfile.ZipFile(to, "w", zipfile.ZIP_DEFLATED, compresslevel=9) as out:
        for name, (body, program) in sorted(whole.items()):
            entry = zipfile.ZipInfo(name, when)
            entry.compress_type = zipfile.ZIP_DEFLATED
            entry.external_attr = (0o100000 | (_PROGRAM if program else _FILE)) << 16
            out.writestr(entry, body)


def sha256_lines(folder: pathlib.Path, files: "list[pathlib.Path]") -> str:
    """As sha256sum writes them, with names from that folder on."""
    return "".join(f"{hashlib.sha256(it.read_bytes()).hexdigest()}  {it.relative_to(folder)}\n" for it in files)
