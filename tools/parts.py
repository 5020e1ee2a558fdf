"""The parts of the gate: how they are listed, run, and told of."""

import os
import pathlib
import re
import shutil
import signal
import socket
import subprocess
import sys
import tempfile
from typing import NamedTuple

PASSED, FAILED, NOT_TRIED = "passed", "failed", "not tried"
# The status of a part that was not tried, as automake's tests have it.
STATUS_NOT_TRIED = 77
# So long a part may take to end once it is told to.
ENDED_WITHIN_S = 10
LISTED_WITHIN_S = 60
# Of a list's columns, counted from 0: a command, which may have what parts columns.
LAST_COLUMN = 4
GROUP, NAME, STATE, TOOK = 12, 46, 10, 6
# .. and so much is shown of one that failed.
SHOWN_LINES, SHOWN_COLUMNS = 40, 300
# (what says so may stand before it)
UNTRIED = re.compile(r"^\s*((?:[^:]+: )*)not tried(?:: | )(.*)$")


class Part(NamedTuple):
    """A part of the gate. `seconds` is how long it may take, None where nothing bounds it."""

    group: str
    name: str
    seconds: "int | None"
    needs: "tuple[str, ...]"
    command: str


class Row(NamedTuple):
    """What became of a part."""

    group: str
    name: str
    state: str
    seconds: "float | None" = None
    why: str = ""
    status: int = 0

    def __str__(self):
        took = "" if self.seconds is None else f"{self.seconds:.0f} s"
        told = f"{self.group:<{GROUP}} {self.name:<{NAME}} {self.state:<{STATE}}{took:>{TOOK}} {self.why}"
        return told.rstrip()


def listed(text, group=None):
    """The parts of a list. A line of three columns names a command, whose lines are parts of that group."""
    for line in text.splitlines():
        if not line.strip() or line.startswith("#"):
            continue
        line = f"{group} | {line}" if group else line
        columns = [it.strip() for it in line.split(" | ", LAST_COLUMN)]
        if columns[1:2] == [".."]:
            command = line.split(" | ", 2)[2]
            said = subprocess.run(["sh", "-c", command], stdout=subprocess.PIPE, text=True, check=False)
            if said.returncode:
                # (as a part that fails, whose output is shown)
                yield Part(columns[0], f"which parts of {columns[0]} there are", LISTED_WITHIN_S, (), command)
            else:
                yield from listed(said.stdout, columns[0])
        elif len(columns) == LAST_COLUMN + 1:
            seconds = None if columns[2] == "-" else int(columns[2])
            needs = () if columns[3] == "-" else tuple(columns[3].split())
            yield Part(columns[0], columns[1], seconds, needs, columns[4])
        else:
            sys.exit(f"gate: this line names no part: {line}")


def has_sockets():
    """Whether a socket of 127.0.0.1 can be had."""
    try:
        with socket.socket(socket.AF_INET, socket.SOCK_DGRAM) as it:
            it.bind(("127.0.0.1", 0))
    except OSError:
        return False
    return True


def has_sanitizers():
    """Whether a program runs under the sanitizers of cc."""
    with tempfile.TemporaryDirectory() as room:
        source = pathlib.Path(room) / "none.c"
        source.write_text("int main(void) { return 0; }\n", encoding="utf-8")
        words = [os.environ.get("CC", "cc"), "-fsanitize=address,undefined", source, "-o", f"{room}/none"]
        quiet = {"stdout": subprocess.DEVNULL, "stderr": subprocess.DEVNULL, "check": False}
        return all(subprocess.run(it, **quiet).returncode == 0 for it in (words, [f"{room}/none"]))


PROBES = {
    "sockets": (has_sockets, "there are no sockets of 127.0.0.1"),
    "sanitizers": (has_sanitizers, "nothing runs under the sanitizers"),
}


def lack(part):
    """What a part needs that is not there: a command, a file (which has a slash), or what a probe looks for."""
    for need in part.needs:
        if need in PROBES:
            holds, why = PROBES[need]
            if not holds():
                return why
        elif "/" in need:
            file = pathlib.Path(os.path.expandvars(need))
            if not file.exists():
                return f"there is no {file.name if file.is_absolute() else file}"
        elif shutil.which(need) is None:
            return f"there is no {need}"
    return None


def end(process):
    """Ends a part with all that it began."""
    for number in (signal.SIGTERM, signal.SIGKILL):
        try:
            os.killpg(process.pid, number)
        except ProcessLookupError:
            pass
        try:
            process.wait(ENDED_WITHIN_S)
        except subprocess.TimeoutExpired:
            pass


def begun(command, **streams):
    """A command in a process group of its own."""
    return subprocess.Popen(["sh", "-c", command], stdin=subprocess.DEVNULL, start_new_session=True, **streams)


def run(part, said, seconds):
    """The status of a part, None where it had not ended within so many seconds; what it says goes to that file."""
    with said.open("wb") as out:
        process = begun(part.command, stdout=out, stderr=out)
        try:
            return process.wait(seconds)
        except subprocess.TimeoutExpired:
            return None
        finally:
            end(process)


def run_through(part, said, _):
    """The same without a bound, for the part whose standard output is the gate's."""
    with said.open("wb") as out:
        process = begun(f"exec {part.command}", stdout=subprocess.PIPE)
        try:
            for line in iter(process.stdout.readline, b""):
                for stream in (sys.stdout.buffer, out):
                    stream.write(line)
                    stream.flush()
            return process.wait()
        finally:
            end(process)


def lines_of(said):
    """What a part said, line by line."""
    return said.read_text(encoding="utf-8", errors="replace").splitlines() if said.exists() else []


def untried(lines):
    """What of a part was not tried, by what it said: who says so, and why."""
    found = (UNTRIED.match(line) for line in lines)
    return [(it[1], it[2]) for it in found if it]


def shown(row, lines):
    """The last lines of a part that failed, under its name."""
    yield f"== {row.group}: {row.name}: {row.why or f'status {row.status}'}; the last lines that it said:"
    yield from (line[:SHOWN_COLUMNS] for line in lines[-SHOWN_LINES:])
