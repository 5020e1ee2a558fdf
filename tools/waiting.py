"""Waiting, for scripts that begin programs."""

import pathlib
import socket
import time

TABLES = (pathlib.Path("/proc/net/udp"), pathlib.Path("/proc/net/udp6"))
LONGEST = 60.0
STEP = 0.05


def free_port():
    """A UDP port of the loopback that is free now."""
    with socket.socket(socket.AF_INET, socket.SOCK_DGRAM) as it:
        it.bind(("127.0.0.1", 0))
        return it.getsockname()[1]


def is_open(port):
    """Whether a socket of this machine has that UDP port."""
    rows = (row.split() for table in TABLES if table.exists() for row in table.read_text().splitlines()[1:])
    return any(row[1].endswith(f":{int(port):04X}") for row in rows)


def await_socket(port):
    """Waits until a socket has that UDP port, a minute at most."""
    end = time.monotonic() + LONGEST
    while not is_open(port) and time.monotonic() < end:
        time.sleep(STEP)
