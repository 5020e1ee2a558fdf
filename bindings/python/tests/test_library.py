"""What is said where the library is missing or another one, or Python is too old."""

import os
import pathlib
import shutil
import subprocess
import sys
import tempfile
import unittest

from knifesilver import _library
from knifesilver._header import numbers

from .around import PACKAGE, finished

OTHER_VERSION = numbers["KS_VERSION"] + 1


def imported(python=sys.executable, before="", **variables):
    """The last line of what an import says."""
    environment = {**os.environ, "PYTHONPATH": str(PACKAGE), **variables}
    it = finished(python, "-c", before + "import knifesilver", env=environment)
    return it.returncode, (it.stderr.decode().splitlines() or [""])[-1]


class Library(unittest.TestCase):
    def test_it_is_found(self):
        self.assertEqual(imported(), (0, ""))

    def test_it_is_missing(self):
        status, said = imported(KNIFESILVER_LIBRARY="/nowhere/libknifesilver.so")
        self.assertEqual(status, 1)
        self.assertIn(f"LibraryError: the shared library {_library.file_name()} is missing", said)
        self.assertIn("/nowhere/libknifesilver.so", said)
        self.assertIn("KNIFESILVER_LIBRARY may name its file", said)

    def test_another_version(self):
        cc = shutil.which("cc")
        if cc is None:
            self.skipTest("there is no cc")
        with tempfile.TemporaryDirectory() as room:
            source, library = pathlib.Path(room, "other.c"), pathlib.Path(room, "libother.so")
            source.write_text(f"unsigned ks_version(void) {{ return {OTHER_VERSION}u; }}\n")
            subprocess.run([cc, "-shared", "-fPIC", source, "-o", library], check=True)
            status, said = imported(KNIFESILVER_LIBRARY=str(library))
            self.assertEqual(status, 1)
            self.assertRegex(
                said, r"LibraryError: .*libother.so is version \d+\.\d+\.\d+, and this package is of \d+\.\d+\.\d+"
            )

    def test_no_libknifesilver(self):
        status, said = imported(KNIFESILVER_LIBRARY="libm.so.6")
        self.assertEqual((status, said.endswith("is no libknifesilver: it has no ks_version")), (1, True))


class OldPython(unittest.TestCase):
    WANTS = "ImportError: knifesilver needs Python 3.9 or later; this is "

    def test_said_by_this_one(self):
        status, said = imported(before="import sys; sys.version_info = (3, 8, 0); ")
        self.assertEqual((status, said), (1, self.WANTS + "3.8"))

    def test_said_by_an_old_one(self):
        olds = [it for it in ("python3.8", "python3.7", "python3.6", "python2.7") if _works(it)]
        if not olds:
            self.skipTest("no older Python is there")
        for python in olds:
            status, said = imported(python)
            self.assertEqual((status, said), (1, self.WANTS + python[len("python") :]))


def _works(python):
    found = shutil.which(python)
    return found is not None and subprocess.run([found, "-c", ""], stderr=subprocess.DEVNULL).returncode == 0


if __name__ == "__main__":
    unittest.main()
