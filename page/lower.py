#!/usr/bin/env python3
"""Makes a module with a 64-bit memory into one with a 32-bit memory, which every browser has: lower.py IN.wasm OUT.wasm

Addresses stay numbers of 64 bits, on the stack and in memory; each load, store, copy and fill takes the lower half. A
module whose memory has at most 4 GiB, and that addresses nothing beyond it, does the same in both. It stops at what
it does not know."""

import sys

I32_CONST, I64_CONST, WRAP, EXTEND_SIGNED, EXTEND, LOCAL_GET, LOCAL_SET = 0x41, 0x42, 0xA7, 0xAC, 0xAD, 0x20, 0x21
TYPES = {"i32": 0x7F, "i64": 0x7E, "f32": 0x7D, "f64": 0x7C}
STORED = {0x36: "i32", 0x37: "i64", 0x38: "f32", 0x39: "f64", 0x3A: "i32", 0x3B: "i32"}
STORED |= {0x3C: "i64", 0x3D: "i64", 0x3E: "i64"}


class Reader:
    def __init__(self, data, at=0):
        self.data, self.at = data, at

    def byte(self):
        self.at += 1
        return self.data[self.at - 1]

    def leb(self):
        value = shift = 0
        while True:
            it = self.byte()
            value |= (it & 127) << shift
            shift += 7
            if it < 128:
                return value

    def skip_leb(self):
        while self.byte() >= 128:
            pass

    def bytes(self, n):
        self.at += n
        return self.data[self.at - n : self.at]


def leb(n):
    out = bytearray()
    while True:
        out.append(n & 127 | (128 if n > 127 else 0))
        n >>= 7
        if n == 0:
            return bytes(out)


def sized(data):
    return leb(len(data)) + data


def vector(reader, each):
    return [each(reader) for _ in range(reader.leb())]


def limits(reader):
    flags = reader.byte()
    assert flags & ~5 == 0 and flags & 4, f"a memory with flags {flags}"
    least = reader.leb()
    most = leb(min(reader.leb(), 65536)) if flags & 1 else b""
    return bytes([flags & 1]) + leb(least) + most


def parameters(reader):
    assert reader.byte() == 0x60
    taken = reader.leb()
    reader.bytes(taken)
    reader.bytes(reader.leb())
    return taken


def body(data, params):
    """A function's body, with locals behind its own for what stands above an address."""
    reader = Reader(data)
    groups = vector(reader, lambda r: (r.leb(), r.byte()))
    first = params + sum(n for n, _ in groups)
    extra, out = {}, bytearray()

    def spare(kind, n=0):
        return extra.setdefault((kind, n), first + len(extra))

    def get(place):
        return bytes([LOCAL_GET]) + leb(place)

    def put(place):
        return bytes([LOCAL_SET]) + leb(place)

    while reader.at < len(data):
        begin = reader.at
        op = reader.byte()
        if op in (0x02, 0x03, 0x04):  # block, loop, if
            reader.skip_leb()
        elif op in (0x0C, 0x0D, 0x10, 0x20, 0x21, 0x22, 0x23, 0x24):  # branches, call, locals, globals
            reader.leb()
        elif op == 0x0E:  # br_table
            vector(reader, Reader.leb)
            reader.leb()
        elif op in (I32_CONST, I64_CONST):
            reader.skip_leb()
        elif op == 0x43:
            reader.bytes(4)
        elif op == 0x44:
            reader.bytes(8)
        elif 0x28 <= op <= 0x3E:  # loads and stores
            align, offset = reader.leb(), reader.leb()
            assert align < 32 and offset < 2**32, "an offset"
            if op in STORED:
                place = spare(STORED[op])
                out += put(place) + bytes([WRAP]) + get(place)
            else:
                out.append(WRAP)
            out += bytes([op]) + leb(align) + leb(offset)
            continue
        elif op == 0x3F:  # memory.size
            reader.byte()
            out += data[begin : reader.at] + bytes([EXTEND])
            continue
        elif op == 0x40:  # memory.grow
            reader.byte()
            out += bytes([WRAP]) + data[begin : reader.at] + bytes([EXTEND_SIGNED])
            continue
        elif op == 0xFC:
            sub = reader.leb()
            if sub in (10, 11):  # memory.copy, memory.fill
                reader.bytes(2 if sub == 10 else 1)
                a, b = spare("i64", 1), spare("i64", 2) if sub == 10 else spare("i32", 1)
                from_wraps = bytes([WRAP]) if sub == 10 else b""
                out += put(a) + put(b) + bytes([WRAP]) + get(b) + from_wraps + get(a) + bytes([WRAP])
            else:
                assert sub < 8, f"0xFC {sub}"
        else:
            known = op in (0x00, 0x01, 0x05, 0x0B, 0x0F, 0x1A, 0x1B) or 0x45 <= op <= 0xC4
            assert known, f"the instruction {op:#x}"
        out += data[begin : reader.at]
    groups += [(1, TYPES[kind]) for kind, _ in extra]
    return leb(len(groups)) + b"".join(leb(n) + bytes([kind]) for n, kind in groups) + bytes(out)


def signed(reader):
    value = shift = 0
    while True:
        it = reader.byte()
        value |= (it & 127) << shift
        shift += 7
        if it < 128:
            return value - (1 << shift) if it & 64 else value


def signed_leb(n):
    return leb(n) if n & 64 == 0 and n < 64 else bytes([n & 127 | 128]) + signed_leb(n >> 7)


def segment(reader):
    assert reader.leb() == 0, "a data segment that is not active"
    assert reader.byte() == I64_CONST
    place = signed(reader)
    assert 0 <= place < 2**31 and reader.byte() == 0x0B
    return b"\0" + bytes([I32_CONST]) + signed_leb(place) + b"\x0b" + sized(reader.bytes(reader.leb()))


def main():
    data = open(sys.argv[1], "rb").read()
    reader, out = Reader(data, 8), bytearray(data[:8])
    types, imported, defined = [], [], []
    while reader.at < len(data):
        kind, content = reader.byte(), None
        inner = Reader(reader.bytes(reader.leb()))
        whole = inner.data
        if kind == 0:
            continue
        if kind == 1:
            types = vector(inner, parameters)
        elif kind == 2:
            def one(r):
                r.bytes(r.leb()), r.bytes(r.leb())
                assert r.byte() == 0, "an import that is no function"
                return r.leb()
            imported = vector(inner, one)
        elif kind == 3:
            defined = vector(inner, Reader.leb)
        elif kind == 4:  # a table that nothing uses
            continue
        elif kind == 5:
            found = vector(inner, limits)
            content = leb(len(found)) + b"".join(found)
        elif kind == 9:
            raise SystemExit("lower: elements")
        elif kind == 10:
            bodies = vector(inner, lambda r: r.bytes(r.leb()))
            made = [body(it, types[defined[i]]) for i, it in enumerate(bodies)]
            content = leb(len(made)) + b"".join(sized(it) for it in made)
        elif kind == 11:
            found = vector(inner, segment)
            content = leb(len(found)) + b"".join(found)
        out += bytes([kind]) + sized(content if content is not None else whole)
    open(sys.argv[2], "wb").write(out)


main()
