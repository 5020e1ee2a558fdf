"""Small models of both ends with the calls of library.py, for where no library is built: messages of their own
spelling, one block, no delays.

Retransmission, NSTART 1, duplicates for 247 s, Message IDs from a group that the word picks, versions, CON
notifications: as the library's."""

import json
import struct

from library import BODY, DELETE, DONE, FAILED, GET, OK, POST, PUT, SUCCESS, VALUE

LIFETIME, LAST_COPY = 247_000, 47_000
CON, NON, ACK, RST, TIMEOUT = 0, 1, 2, 3, 8


def spelled(kind, code, mid, token, **more):
    return bytes([0x42 | kind << 4, code]) + struct.pack(">HH", mid, token) + json.dumps(more).encode()


def read(data):
    try:
        mid, token = struct.unpack(">HH", data[2:6])
        return data[0] >> 4 & 3, data[1], mid, token, json.loads(data[6:] or b"{}")
    except (ValueError, struct.error):
        return None


class Ends:
    def __init__(self, word):
        self.clock, self.mid, self.arrived, self.open, self.queue = 0, word % 16 * 4096, {}, [], []

    def con(self, to, token, word, code, **more):
        self.mid = (self.mid + 1) % 65536
        data = spelled(CON, code, self.mid, token, **more)
        self.open.append([to, self.mid, token, data, self.clock, 2000 + word % 1001, 0])
        self.queue.append((to, data))

    def known(self, at, mid):
        was = self.arrived.get((at, mid))
        return was if was and self.clock - was[0] <= LIFETIME else None

    def outs(self, most=None):
        most = len(self.queue) if most is None else most
        found, self.queue = self.queue[:most], self.queue[most:]
        return found

    def next_of(self, c):
        """When the next copy is due, or the failure: no copy goes out more than 47 s after the first sending."""
        copies = 4 if self.clock - c[4] > LAST_COPY else c[6]
        return copies, c[4] + c[5] * (2 ** (copies + 1) - 1)

    def due_open(self):
        return min((self.next_of(c)[1] for c in self.open), default=None)

    def step_open(self):
        """A copy or a failure that is due: the open one that failed, or True."""
        for c in self.open:
            copies, at = self.next_of(c)
            if self.clock >= at:
                if copies == 4:
                    self.open.remove(c)
                    return c
                c[6] += 1
                self.queue.append((c[0], c[3]))
                return True
        return None

    def settle(self, at, mid):
        for c in self.open:
            if c[0] == at and c[1] == mid:
                self.open.remove(c)
                return c
        return None


class Server(Ends):
    def __init__(self, word, remembered=0):
        super().__init__(word)
        self.store, self.version, self.watchers, self.done = {}, 0, {}, None

    def change(self, path, body):
        self.version += 1
        self.store[path] = (self.version, body)
        for watcher in self.watchers.values():
            watcher[1] = watcher[1] or watcher[0] == path

    def set(self, now, path, body, form=0):
        self.clock = max(self.clock, now)
        self.change(path, body)
        return OK, self.version

    def get(self, path):
        return self.store.get(path.strip("/"))

    def applied(self):
        return self.done

    def feed(self, now, at, data, word):
        self.clock, self.done, came = max(self.clock, now), None, read(data)
        if came is None:
            return OK
        kind, code, mid, token, more = came
        if kind in (ACK, RST):
            c = self.settle(at, mid)
            if c and kind == RST:
                self.watchers.pop((at, c[2]), None)
            return OK
        if was := self.known(at, mid):
            self.queue.append((at, was[1]))
            return OK
        path, answer = more["path"], {}
        held = self.store.get(path)
        if code == GET:
            reply = 0x45 if held else 0x84
            if held:
                answer = {"tag": held[0], "body": held[1].decode()}
                if more.get("observe") == 0:
                    self.watchers[(at, token)] = [path, False]
                    answer["observe"] = held[0]
        elif code == POST and not held:
            reply = 0x84
        else:
            reply = 0x44 if held else 0x41
            self.change(path, (held[1] if code == POST else b"") + more["body"].encode())
            self.done = self.version, at, code, "/" + path
        ack = spelled(ACK, reply, mid, token, **answer)
        self.arrived[(at, mid)] = (self.clock, ack)
        self.queue.append((at, ack))
        return OK

    def ready(self):
        busy = {c[0] for c in self.open}
        return next((k for k, w in self.watchers.items() if w[1] and k[0] not in busy), None)

    def due(self):
        if self.ready() is not None:
            return self.clock
        at = self.due_open()
        return None if at is None else max(at, self.clock)

    def tick(self, now, word):
        self.clock, self.done = max(self.clock, now), None
        step = self.step_open()
        if step is True:
            return DONE
        if step is not None:
            self.watchers.pop((step[0], step[2]), None)
            return DONE
        if (key := self.ready()) is not None:
            watcher = self.watchers[key]
            watcher[1] = False
            version, body = self.store[watcher[0]]
            self.con(key[0], key[1], word, 0x45, tag=version, body=body.decode(), observe=version)
            return DONE
        return OK


class Client(Ends):
    def __init__(self, server, word):
        super().__init__(word)
        self.server, self.token, self.waiting = server, word % 4096, []
        self.runs, self.found, self.number = None, [], 0
        self.watch, self.last = None, None

    def ask(self, now, method, path, body=b"", form=-1, if_match=()):
        self.number += 1
        self.waiting.append((self.number, method, {"path": path, "body": body.decode()}))
        return self.number

    def observe(self, now, path):
        self.number += 1
        self.waiting.append((self.number, GET, {"path": path, "observe": 0}))
        return self.number

    def forget(self, number):
        """Forgets an observation; its server hears nothing of it."""
        if self.watch is None or self.watch[0] != number:
            return False
        self.watch, self.last = None, None
        return True

    def tick(self, now, word):
        self.clock = max(self.clock, now)
        step = self.step_open()
        if step is True:
            return DONE
        if step is not None:
            self.found.append((self.runs[0], TIMEOUT, 0, 0, b"", b""))
            self.runs = None
            return DONE
        if self.runs is None and self.waiting:
            self.runs, self.token = self.waiting.pop(0), self.token + 1
            self.con(self.server, self.token, word, self.runs[1], **self.runs[2])
            return DONE
        return OK

    def due(self):
        if self.runs is None and self.waiting:
            return self.clock
        return self.due_open()

    def value(self, number, more):
        version = more["observe"]
        if self.last is None or version > self.last[0] or self.clock > self.last[1] + 128_000:
            self.last = (version, self.clock)
            tag = struct.pack(">Q", more["tag"])
            self.found.append((number, VALUE, 0x45, version, tag, more["body"].encode()))

    def feed(self, now, at, data, word):
        self.clock = max(self.clock, now)
        kind, code, mid, token, more = read(data)
        if kind == CON:
            if was := self.known(at, mid):
                self.queue.append((at, was[1]))
                return OK
            if self.runs and "observe" in self.runs[2] and token == self.token:
                self.watch = (self.runs[0], token)      # it overtook the response to the registration
            mine = self.watch is not None and token == self.watch[1]
            answer = spelled(ACK if mine else RST, 0, mid, 0)
            self.arrived[(at, mid)] = (self.clock, answer)
            self.queue.append((at, answer))
            if mine:
                self.value(self.watch[0], more)
            return OK
        if self.settle(at, mid) is None or token != self.token:
            return OK
        number, method, asked = self.runs
        self.runs = None
        if "observe" in asked and code == 0x45:
            self.watch = (number, token)
            self.value(number, more)
        elif code == 0x45:
            self.found.append((number, BODY, code, 0, struct.pack(">Q", more["tag"]), more["body"].encode()))
        else:
            self.found.append((number, SUCCESS if code < 0x80 else FAILED, code, 0, b"", b""))
        return OK

    def reports(self):
        found, self.found = self.found, []
        return found
