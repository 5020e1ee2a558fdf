"""A server that keeps a journal, as a process that can be killed: kept.py LIBRARY.so PORT FILE LAMP_PORT VARIANT.

It serves at 127.0.0.1:PORT, changes the path t a few times a second, and tells the lamp at LAMP_PORT what the path
lamp holds. Its file holds back what is written until it is synced, as a disk may: a SIGKILL loses what it held. Any
front of that may reach the file before."""

import fcntl
import os
import pathlib
import random
import select
import socket
import struct
import sys
import time

sys.path.insert(0, str(pathlib.Path(__file__).resolve().parents[2] / "bench" / "journal"))
import journal as j
import library as ks
from served import go_on, replay

AT_ONCE, REMEMBERED, CHANGE_EVERY = 64, 65_536, 0.3
DAMAGED = 3


class HeldFile:
    """A file that keeps back what is written until it is synced."""

    def __init__(self, path):
        self.file, self.held = os.open(path, os.O_RDWR | os.O_CREAT, 0o600), b""
        fcntl.flock(self.file, fcntl.LOCK_EX | fcntl.LOCK_NB)
        self.size = os.fstat(self.file).st_size

    def read(self):
        return os.pread(self.file, self.size, 0)

    def cut(self, end):
        os.ftruncate(self.file, end)
        self.size = end

    def append(self, data):
        self.held += data
        if random.random() < 0.3:
            self.reach(random.randrange(len(self.held) + 1))
            time.sleep(random.random() * 0.02)

    def reach(self, count):
        front, self.held = self.held[:count], self.held[count:]
        self.size += os.pwrite(self.file, front, self.size)

    def sync(self):
        self.reach(len(self.held))
        os.fsync(self.file)

    def end(self):
        return self.size + len(self.held)


def boot():
    return int(pathlib.Path("/proc/sys/kernel/random/boot_id").read_text().replace("-", ""), 16)


def uptime():
    return time.clock_gettime_ns(time.CLOCK_BOOTTIME) // 1_000_000


class Kept:
    """The server, its journal and its socket."""

    def __init__(self, port, file, lamp, variant):
        self.variant, self.file, self.lamp, self.batch = variant, HeldFile(file), ("127.0.0.1", lamp), []
        self.socket = socket.socket(socket.AF_INET, socket.SOCK_DGRAM)
        self.shown = None
        found = self.begin()
        last, latest = (0, 0, boot()), 0
        if variant != "no_replay":
            last, latest = replay(self.server, found)
        # What is out and was not sent is taken, and lost.
        self.taken = len(self.server.outs())
        silence, self.moment_then = go_on(last, latest, boot(), uptime())
        time.sleep(silence / 1000)
        self.began = uptime()
        if len(found) > 1:
            self.commit(j.woke(j.life(boot(), self.began, self.moment_then)))
        if self.server.get("log") is None:
            self.set(self.now(), "log", b"")
        self.socket.bind(("127.0.0.1", port))
        self.socket.setblocking(False)

    def begin(self):
        """What the whole frames of the file hold; the first is written where there is none."""
        found, end, rest, damaged = j.frames(self.file.read())
        if damaged:
            sys.exit(DAMAGED)
        if rest and self.variant != "not_cut":
            self.file.cut(end)
        if not found:
            found = [j.begun(random.getrandbits(64), j.life(boot(), uptime(), 0), remembered=REMEMBERED)]
            self.commit(found[0])
        word = struct.unpack(">Q", found[0][25:33])[0]
        self.server = ks.Server(word if self.variant != "no_replay" else random.getrandbits(64), REMEMBERED)
        return found

    def commit(self, body):
        self.file.append(j.frame(self.file.end(), body))
        self.file.sync()

    def now(self):
        return self.moment_then + uptime() - self.began

    def ticks(self, now):
        while (due := self.server.due()) is not None and due <= now:
            word = random.getrandbits(64)
            if self.server.tick(now, word) not in (ks.OK, ks.DONE):
                return
            self.batch.append(j.tick(now, word))

    def receive(self, now):
        for _ in range(AT_ONCE):
            try:
                data, (ip, port) = self.socket.recvfrom(65_536)
            except BlockingIOError:
                return
            source, word = (socket.inet_aton(ip), port), random.getrandbits(64)
            if self.server.feed(now, source, data, word) == ks.OK:
                self.batch.append(j.feed(now, source, data, word))
            self.ticks(now)

    def change(self, now):
        held = self.server.get("t")
        self.set(now, "t", b"%d" % (int(held[1]) + 1 if held else 1))

    def set(self, now, path, value):
        self.server.set(now, path, value)
        self.batch.append(j.setting(now, path, value, 0))

    def send(self, outs):
        for (ip, port), data in outs:
            try:
                self.socket.sendto(data, (socket.inet_ntoa(ip), port))
            except OSError:
                pass

    def turn(self, now):
        self.ticks(now)
        outs = self.server.outs()
        if self.variant == "sends_first":
            self.send(outs)
        if self.batch:
            self.commit(j.turn(now, self.taken, b"".join(self.batch)))
            self.batch, self.taken = [], 0
        self.taken += len(outs)
        if self.variant != "sends_first":
            self.send(outs)
        held = self.server.get("lamp")
        if held and held[1] != self.shown:
            self.shown = held[1]
            self.socket.sendto(self.shown, self.lamp)

    def serve(self):
        next_change = time.monotonic()
        while True:
            due = self.server.due()
            waits = [next_change - time.monotonic(), *([] if due is None else [(due - self.now()) / 1000])]
            select.select([self.socket], [], [], max(0, min(waits)))
            now = self.now()
            self.receive(now)
            if time.monotonic() >= next_change:
                next_change += CHANGE_EVERY
                self.change(now)
            self.turn(now)


def main():
    library, port, file, lamp, variant = sys.argv[1:]
    ks.load(library)
    try:
        Kept(int(port), file, int(lamp), variant).serve()
    except KeyboardInterrupt:
        pass


if __name__ == "__main__":
    main()
