"""The format of a journal, byte for byte as crates/coap_journal has it, and a disk that tears."""

import struct

FACTOR, MASK = 0x100_0000_01B3, (1 << 64) - 1
FEED, TICK, SET, REMOVE, DELAY, PLAIN, BEGUN, WOKE, TURN, REFUSE, FORGET = range(1, 12)
FORMAT, LAW = 1, 1
SILENCE_MS = 47_001


def sum_of(place, data):
    total = place
    for byte in data:
        total = ((total + byte + 1) * FACTOR) & MASK
    return total


def sealed(place, data):
    return data + struct.pack(">Q", sum_of(place, data))


def frame(place, body):
    return sealed(place, struct.pack(">I", len(body))) + sealed(place + 12, body)


def read_head(place, data):
    if len(data) < 12 or struct.unpack(">Q", data[4:12])[0] != sum_of(place, data[:4]):
        return None
    return struct.unpack(">I", data[:4])[0]


def read_frame(place, data):
    """What the first frame holds and what follows it, or None."""
    length = read_head(place, data)
    if length is None or len(data) < 20 + length:
        return None
    body = data[12: 12 + length]
    if struct.unpack(">Q", data[12 + length: 20 + length])[0] != sum_of(place + 12, body):
        return None
    return body, data[20 + length:]


def frames(data, place=0):
    """What all whole frames hold, where they end, what follows them, and whether that is damage."""
    found = []
    while (one := read_frame(place, data)) is not None:
        found.append(one[0])
        place += len(data) - len(one[1])
        data = one[1]
    damaged = any(read_head(place + n, data[n:]) is not None for n in range(1, len(data)))
    return found, place, data, damaged


# ---- records

def life(boot, uptime, moment):
    return struct.pack(">QQQQ", boot >> 64, boot & MASK, uptime, moment)


def begun(word, first, szx=6, limit=65_536, remembered=4_096, changes=8_192, base=0):
    seed = struct.pack(">QQQQ", word, 1, 2, base)
    return bytes([BEGUN]) + struct.pack(">IIIIII", FORMAT, LAW, szx, limit, remembered, changes) + seed + first


def woke(further):
    return bytes([WOKE]) + further


def turn(moment, taken, inputs):
    return bytes([TURN]) + struct.pack(">QQ", moment, taken) + inputs


def records(data):
    """Each record of these frames: its kind and its parts."""
    for body in data:
        if body[0] == TURN:
            moment, taken = struct.unpack(">QQ", body[1:17])
            yield TURN, moment, taken, inputs(body[17:])
        else:
            high, low, uptime, moment = struct.unpack(">QQQQ", body[-32:])
            yield body[0], moment, uptime, high << 64 | low


# ---- inputs

def text(data):
    return struct.pack(">I", len(data)) + data


def path_bytes(path):
    segments = [s.encode() for s in path.strip("/").split("/")] if path.strip("/") else []
    return bytes([len(segments)]) + b"".join(text(s) for s in segments)


def feed(now, at, data, word):
    return bytes([FEED]) + struct.pack(">QQ", now, word) + at[0] + struct.pack(">H", at[1]) + text(data)


def tick(now, word):
    return bytes([TICK]) + struct.pack(">QQ", now, word)


def setting(now, path, body, form):
    form = bytes(3) if form < 0 else b"\x01" + struct.pack(">H", form)
    return bytes([SET]) + struct.pack(">Q", now) + form + path_bytes(path) + text(body)


class Reader:
    """Takes the parts of inputs from the front."""

    def __init__(self, data):
        self.data, self.at = data, 0

    def take(self, n):
        self.at += n
        assert self.at <= len(self.data)
        return self.data[self.at - n: self.at]

    def unpack(self, form):
        return struct.unpack(form, self.take(struct.calcsize(form)))

    def text(self):
        return self.take(self.unpack(">I")[0])

    def path(self):
        return "/".join(self.text().decode() for _ in range(self.take(1)[0]))

    def endpoint(self):
        return self.take(4), self.unpack(">H")[0]


def inputs(data):
    """The inputs of a turn."""
    found, reader = [], Reader(data)
    while reader.at < len(data):
        kind = reader.take(1)[0]
        if kind == FEED:
            now, word = reader.unpack(">QQ")
            found.append((FEED, now, reader.endpoint(), reader.text(), word))
        elif kind == TICK:
            found.append((TICK, *reader.unpack(">QQ")))
        elif kind == SET:
            now = reader.unpack(">Q")[0]
            some, form = reader.unpack(">BH")
            found.append((SET, now, reader.path(), reader.text(), form if some else -1))
        elif kind in (REMOVE, DELAY):
            number = reader.unpack(">Q")[0]
            found.append((kind, number, reader.path()))
        elif kind == PLAIN:
            found.append((PLAIN, reader.path()))
        elif kind == REFUSE:
            code, now, word = reader.unpack(">BQQ")
            found.append((REFUSE, now, reader.endpoint(), reader.text(), word, code))
        elif kind == FORGET:
            found.append((FORGET, reader.endpoint()))
        else:
            raise ValueError(kind)
    return found


class Disk:
    """A file: what is on the disk, and what was written after that and not synced."""

    def __init__(self, data=b""):
        self.kept, self.pending = data, b""

    def append(self, data):
        self.pending += data

    def sync(self):
        self.kept, self.pending = self.kept + self.pending, b""

    def crash(self, random):
        """What a crash leaves: what was synced, and of the rest any bytes of any part of it."""
        length = random.randint(0, len(self.pending))
        torn = bytearray(self.pending[:length])
        if torn and random.random() < 0.5:
            hole = random.randrange(len(torn))
            for place in range(hole, min(len(torn), hole + random.choice([1, 16, 512]))):
                torn[place] = random.choice([0, random.randrange(256)])
        self.kept, self.pending = self.kept + bytes(torn), b""
