"""Both ends of the library with a context each, in made-up time, over a network that loses, doubles and delays, beside
a stranger who replays, changes and forges."""

import heapq
import itertools
import random

from driven import USUAL, Call, Watch

from knifesilver import Client, Method, ReportKind, Server

CLIENT_AT, SERVER_AT = ("127.0.0.1", 40001), ("127.0.0.1", 5683)
DONE, COPY, PASSED = 1, 162, 161
LOST, DOUBLED, LATEST_MS, STEP_MS, LAST_MS = 0.2, 0.2, 3000, 50, 3_600_000
UNAUTHORIZED, OBSERVE = 0x81, 6


class Net:
    CLIENT, SERVER = 0, 1

    def __init__(self, module, end, seed):
        self.module, self.end, self.draw = module, end, random.Random(seed)
        words = (lambda: self.draw.getrandbits(64))
        self.sides = (Client(SERVER_AT, word=words), Server(word=words))
        self.now, self.count = 1000, itertools.count()
        self.way, self.seen, self.reports, self.applied = [], [], [], []
        self.plains, self.told, self.watch = (set(), set()), {}, Watch(module, USUAL)
        for place in (0, 1):
            if end.new(place, USUAL, place == self.CLIENT) != 0:
                raise AssertionError("no context")

    def close(self):
        for side in self.sides:
            side.close()

    def one(self, kind, place, data):
        return self.end.calls([Call(kind, place, self.now, data)])[0]

    def send(self, place, data):
        """To that place, some time later, perhaps twice or never."""
        for chance in (LOST, 1 - DOUBLED):
            if self.draw.random() >= chance:
                at = self.now + self.draw.randrange(LATEST_MS)
                heapq.heappush(self.way, (at, next(self.count), place, data))

    def arrive(self, place, data):
        answer, plain = self.one("open", place, data)
        self.told[answer] = self.told.get(answer, 0) + 1
        if answer in (DONE, COPY) and not self.is_known(place, plain):
            raise AssertionError(f"fed, and never sent: {plain.hex()}")
        if answer in (DONE, COPY):
            self.seen.append((place, data))
            self.watch.opened(place == self.CLIENT, data)
        if answer in (DONE, COPY, PASSED):
            self.sides[place].feed(self.now, CLIENT_AT if place == self.SERVER else SERVER_AT, plain)

    def is_known(self, place, plain):
        """A stranger may deliver it under another head, once; what it says is what was sent."""
        message = self.module.read(plain)
        said = tuple(it for it in message.options if it[0] != OBSERVE)
        return (message.code, said, message.payload) in self.plains[place]

    def out(self, place):
        side, busy = self.sides[place], False
        side.tick(self.now)
        for plain, _ in iter(side.next_out, None):
            busy = True
            message = self.module.read(plain)
            said = tuple(it for it in message.options if it[0] != OBSERVE)
            self.plains[1 - place].add((message.code, said, message.payload))
            answer, sealed = self.one("seal", place, plain)
            if answer not in (DONE, PASSED):
                raise AssertionError(f"not sealed, {answer}: {plain.hex()}")
            if answer == DONE:
                self.watch.sealed(place == self.CLIENT, sealed)
            self.send(1 - place, sealed)
        return busy

    def stranger(self):
        """Replays, under other heads too; flips; forges what is unprotected."""
        chance, (place, data) = self.draw.random(), self.draw.choice(self.seen[-50:])
        size = 4 + (data[0] & 15)
        if chance < 0.3:
            other = bytes([data[0] ^ self.draw.choice((0, 0x10, 0x20)), data[1]]) + self.draw.randbytes(2)
            data = other + data[4:size] + data[size:]
        elif chance < 0.5:
            at = self.draw.randrange(size, len(data))
            data = data[:at] + bytes([data[at] ^ 1 << self.draw.randrange(8)]) + data[at + 1:]
        elif chance < 0.75:
            # of what goes to the server, an answer: a forged 4.01 to whoever asked
            place, data = 1 - place, bytes([0x60 | data[0] & 15, UNAUTHORIZED]) + data[2:size]
        elif chance < 0.85:
            data = bytes([data[0], 3]) + self.draw.randbytes(2) + data[4:size] + b"\xb1t\xff!"
        self.arrive(place, data)

    def step(self):
        self.now += STEP_MS
        while self.way and self.way[0][0] <= self.now:
            _, _, place, data = heapq.heappop(self.way)
            self.arrive(place, data)
        if self.seen and self.draw.random() < 0.2:
            self.stranger()
        while self.out(self.CLIENT) | self.out(self.SERVER):
            pass
        client, server = self.sides
        self.reports += iter(client.next_report, None)
        self.applied += iter(server.next_applied, None)

    def report(self, number, kind):
        """Goes on until this one is told."""
        end = self.now + LAST_MS
        while self.now < end:
            found = [it for it in self.reports if it.id == number and it.kind == kind]
            if found:
                self.reports = [it for it in self.reports if it not in found]
                return found
            others = [it for it in self.reports if it.id == number and it.kind not in (kind, ReportKind.VALUE)]
            if others:
                raise AssertionError(f"{others[0].kind.name} {others[0].code}, and not {kind.name}")
            self.step()
        raise AssertionError(f"no report {kind.name}")


def session(net):
    """Puts, gets, bodies in blocks and an observation. What a lost network ends in Timeout is asked again, so that each
    call that is reported as a success was applied once."""
    client, server = net.sides
    big = bytes(i * 7 % 251 for i in range(3000))
    watched = client.observe(net.now, "t")
    server.set(net.now, "t", b"first")
    net.report(watched, ReportKind.VALUE)
    for n in range(8):
        number = call(net, Method.PUT, f"p{n}", b"value %d" % n, ReportKind.SUCCESS)
        done = [it for it in net.applied if it.path == f"/p{n}"]
        if len(done) != 1:
            raise AssertionError(f"a put that succeeded was applied {len(done)} times, {number}")
        told = call(net, Method.GET, f"p{n}", b"", ReportKind.BODY)
        if told.body != b"value %d" % n:
            raise AssertionError(f"another body: {told.body}")
        server.set(net.now, "t", b"value %d" % n)
    call(net, Method.PUT, "big", big, ReportKind.SUCCESS)
    if call(net, Method.GET, "big", b"", ReportKind.BODY).body != big:
        raise AssertionError("another body of 3,000 bytes")
    client.cancel(net.now, watched)
    values = [it for it in net.reports if it.id == watched]
    net.report(watched, ReportKind.CANCELLED)
    return len(values)


def call(net, method, path, body, kind):
    return net.report(net.sides[0].call(net.now, method, path, body), kind)[0]


def run(module, end, seeds):
    told = {}
    for seed in seeds:
        net = Net(module, end, seed)
        try:
            session(net)
        finally:
            net.close()
        net.watch.look(end.name)
        for answer, count in net.told.items():
            told[answer] = told.get(answer, 0) + count
    return told
