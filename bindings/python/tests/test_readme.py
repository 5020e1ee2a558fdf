"""README.md runs as it stands, but for the port."""

import os
import pathlib
import re
import sys
import tempfile
import unittest

from knifesilver._header import header

from .around import PACKAGE, Program, finished, free_port

README = PACKAGE / "README.md"
PORT = "5683"


def blocks():
    """The indented blocks of the document."""
    found = re.findall(r"(?:^    .*\n|^\n(?=    ))+", README.read_text("utf-8") + "\n", re.M)
    return [
        "".join(line[4:] if line.strip() else line for line in it.strip("\n").splitlines(True)) + "\n" for it in found
    ]


class Readme(unittest.TestCase):
    def test_it_runs(self):
        port = str(free_port())
        texts = [it.replace(PORT, port) for it in blocks()]
        with tempfile.TemporaryDirectory() as room:
            environment = {**os.environ, "PYTHONPATH": str(PACKAGE)}
            for text in texts:
                name = re.match(r"# (\w+\.py)\n", text)
                if name:
                    pathlib.Path(room, name[1]).write_text(text)
            ran = 0
            with Program(int(port), sys.executable, "server.py", cwd=room, env=environment):
                for text in texts:
                    for command, said in re.findall(r"^\$ (python3 .*)\n((?:(?!\$ ).*\n)*)", text, re.M):
                        if "guarded" in command and "ks_server_refuse" not in header.calls:
                            continue
                        if not command.endswith("&"):
                            words = command.split()[1:]
                            it = finished(sys.executable, *words, cwd=room, env=environment)
                            self.assertEqual((it.stdout + it.stderr).decode().strip(), said.strip(), command)
                            ran += 1
            self.assertGreaterEqual(ran, 4)


if __name__ == "__main__":
    unittest.main()
