"""Random histories of two ends, by the implementation in Python. The others have to answer alike."""

import collections
import random

from driven import USUAL, Call, Pair, Spoken, Watch, call_line, new_line

TOKENS = [b"", b"\x01", b"\x01\x02", b"tokens08", *(bytes([7, n]) for n in range(20))]
PAIRS = (USUAL, Pair(bytes(range(16)), b"", b"\x37\xcb\xf3", b"client", b"srv"),
         Pair(b"s", b"s", b"", b"\0", b"1234567"))
STEPS_MS = (0, 1, 2000, 46_999, 47_001, 100_000, 246_999, 247_000, 247_001)
A_DAY_MS = 86_647_001
FED, DONE, COPY = (1, 161, 162), 1, 162


def encoded(module, head, code, options, payload):
    return module.write(module.Head(*head), code, options, payload)


def watched(watch, it, told):
    answer, out = told
    if it.kind == "seal" and answer == DONE:
        watch.sealed(it.place == History.CLIENT, out)
    if it.kind == "open" and answer in (DONE, COPY):
        watch.opened(it.place == History.CLIENT, it.data)


class History:
    """Both ends of a pair, what is on the way, and each call with its answer."""

    CLIENT, SERVER = 0, 1

    def __init__(self, module, seed, files):
        self.module, self.end, self.draw = module, Spoken(module), random.Random(seed)
        self.pair = self.draw.choice(PAIRS)
        self.files, self.now = files, 0
        self.plains, self.way, self.asked, self.fed = [], [], [], {}
        self.watch, self.told = Watch(module, self.pair), []
        for place in (self.CLIENT, self.SERVER):
            self.begin(place, True)

    def begin(self, place, begins):
        file = self.files / f"Python-{place}"
        if begins:
            file.unlink(missing_ok=True)
        if (answer := self.end.new(place, self.pair, place == self.CLIENT, file, begins)) != 0:
            raise AssertionError(f"{answer} for a context")
        self.watch.begins(place == self.CLIENT)
        self.told.append(((place, begins), (0, b"")))

    def call(self, kind, place, data):
        """What it answers."""
        it = Call(kind, place, self.now, data)
        (answer, out), = told = self.end.calls([it])
        self.told.append((it, told[0]))
        watched(self.watch, it, told[0])
        self.watch.look("Python")
        return answer, out

    def replay(self, end):
        """The same calls of another implementation, in the same order."""
        watch, lines = Watch(self.module, self.pair), []
        for it, _ in self.told:
            if isinstance(it, Call):
                lines.append(call_line(it))
                continue
            place, begins = it
            file = self.files / f"{end.name}-{place}"
            if begins:
                file.unlink(missing_ok=True)
            else:
                lines.append(f"free {place}\n")
            lines.append(new_line(place, self.pair, place == self.CLIENT, file, begins))
        answers = iter(list(zip(lines, end.say(lines))))
        for it, wants in self.told:
            line, told = next(answers)
            if line.startswith("free"):
                line, told = next(answers)
            if isinstance(it, Call):
                watched(watch, it, told)
            else:
                watch.begins(it[0] == self.CLIENT)
            watch.look(end.name)
            if told != wants:
                both = f"{told[0]} {told[1].hex()}, and not {wants[0]} {wants[1].hex()}"
                raise AssertionError(f"{end.name}: {both}: {line}")

    def options(self, numbers):
        values = (b"", b"x", b"temperature", bytes(14), bytes(300))
        return [(n, self.draw.choice(values)) for n in numbers if self.draw.random() < 0.4]

    def observe(self):
        return [(6, v) for v in [self.draw.choice((None, None, b"", b"", b"\x01", b"\x02"))] if v is not None]

    def request(self):
        head = (self.draw.choice((0, 0, 0, 1)), bytes([0, self.draw.randrange(40)]), self.draw.choice(TOKENS))
        options = self.options((3, 4, 7, 11, 11, 15, 17, 39, 60, 2049)) + self.observe()
        code = self.draw.choice((1, 1, 2, 3, 4, 5))
        payload = self.draw.choice((b"", b"on", bytes(range(200))))
        return encoded(self.module, head, code, sorted(options, key=lambda it: it[0]), payload)

    def again(self):
        """The request of another one, which registers, cancels or asks anew."""
        place, plain = self.draw.choice(self.plains)
        message = self.module.read(plain)
        if not message.is_request:
            return place, plain
        kept = [it for it in message.options if it[0] not in (4, 6)] + self.observe()
        head = message.head._replace(id=bytes([1, self.draw.randrange(256)]))
        return place, encoded(self.module, head, message.code, sorted(kept, key=lambda it: it[0]), message.payload)

    def seal(self, place, plain):
        self.plains.append((place, plain))
        answer, out = self.call("seal", place, plain)
        if answer == DONE:
            self.way.append((1 - place, out))

    def respond(self):
        place, plain = self.draw.choice(self.asked)
        head = self.module.read(plain).head
        head = head._replace(type=2) if self.draw.random() < 0.6 else head._replace(
            type=self.draw.choice((0, 1)), id=bytes([2, self.draw.randrange(60)]))
        options = self.options((4, 12, 14, 27)) + [(6, self.draw.choice((b"", b"\x05", b"\x01\x02\x03")))
                                                   for _ in range(self.draw.choice((0, 0, 1)))]
        code = self.draw.choice((0x45, 0x44, 0x41, 0x84))
        payload = self.draw.choice((b"", b"22.3 C", bytes(300)))
        self.seal(place, encoded(self.module, head, code, sorted(options), payload))

    def changed(self, data):
        """As it is, or as a stranger changes it."""
        chance = self.draw.random()
        if chance < 0.6:
            return data
        if chance < 0.85 and len(data) >= 4 and data[0] & 15 <= 8:
            first = 0x40 | self.draw.randrange(4) << 4
            token = self.draw.choice((data[4:4 + (data[0] & 15)], self.draw.choice(TOKENS)))
            kept = data[4 + (data[0] & 15):]
            number = self.draw.choice((data[2:4], bytes([0, self.draw.randrange(40)])))
            return bytes([first | len(token), data[1]]) + number + token + kept
        at = self.draw.randrange(len(data))
        return data[:at] + bytes([data[at] ^ 1 << self.draw.randrange(8)]) + data[at + 1:]

    def arrive(self):
        place, data = self.draw.choice(self.way[-40:] if self.draw.random() < 0.8 else self.way)
        if self.draw.random() < 0.03:
            place = 1 - place
        data = self.changed(data)
        answer, plain = self.call("open", place, data)
        if answer in (DONE, COPY) and self.module.read(plain).is_request:
            self.asked.append((place, plain))
            self.is_of_one_head(place, data)

    def is_of_one_head(self, place, data):
        """Each number of a request is fed under one type, Message ID and token."""
        message = self.module.read(data)
        number = self.module.read_value(message.values(self.module.OSCORE)[0]).piv
        head, at = self.fed.setdefault((place, number), (message.head, self.now))
        if head != message.head or self.now - at >= 247_000:
            raise AssertionError(f"fed under two heads, or too late: {data.hex()}")

    def unprotected(self):
        data = self.draw.choice((self.request(), bytes.fromhex("6481000139"), bytes.fromhex("60450001ff31"),
                                 bytes.fromhex("40000007"), bytes.fromhex("70000007"), b"", b"\x40", bytes(1300),
                                 self.draw.randbytes(self.draw.randrange(40))))
        self.call(self.draw.choice(("open", "open", "seal")), self.draw.choice((0, 1)), data)

    def step(self):
        chance = self.draw.random()
        if chance < 0.2 or not self.plains:
            self.seal(self.draw.choice((0, 0, 0, 1)), self.request())
        elif chance < 0.3:
            self.seal(*self.draw.choice(self.plains[-30:]))
        elif chance < 0.35:
            self.seal(*self.again())
        elif chance < 0.55 and self.asked:
            self.respond()
        elif chance < 0.9 and self.way:
            self.arrive()
        elif chance < 0.94:
            self.unprotected()
        elif chance < 0.995:
            self.now += self.draw.choice(STEPS_MS[:3] if self.draw.random() < 0.8 else STEPS_MS)
        elif self.draw.random() < 0.2:
            self.now += A_DAY_MS
        else:
            self.begin(self.draw.choice((0, 1)), False)


def made(module, seed, files, steps=400):
    """A history of so many steps."""
    history = History(module, seed, files)
    with history.end:
        for _ in range(steps):
            history.step()
    return history


def answers_of(history):
    """How often each answer came."""
    return collections.Counter((it.kind if isinstance(it, Call) else "new", answer) for it, (answer, _) in history.told)
