"""The vectors of RFC 8613, appendix C, and what a stranger makes of datagrams."""

from driven import SALT, SECRET, USUAL, Call, Pair

DONE, COPY, PASSED, UNPROTECTED_REQUEST, UNPROTECTED_RESPONSE, REPLAYED, MALFORMED = 1, 162, 161, 163, 164, 168, 165
HELLO = "64455d1f00003974ff48656c6c6f20576f726c6421"
# Its request plain and protected, for each of the contexts of C.1 to C.3 (C.4 to C.6).
REQUESTS = (
    ("C.1, C.4", USUAL, "44015d1f00003974396c6f63616c686f737483747631",
     "44025d1f00003974396c6f63616c686f7374620914ff612f1092f1776f1c1668b3825e"),
    ("C.2, C.5", Pair(SECRET, b"", b"", b"\0", b"\x01"), "440171c30000b932396c6f63616c686f737483747631",
     "440271c30000b932396c6f63616c686f737463091400ff4ed339a5a379b0b8bc731fffb0"),
    ("C.3, C.6", Pair(SECRET, SALT, bytes.fromhex("37cbf3210017a2d3"), b"", b"\x01"),
     "44012f8eef9bbf7a396c6f63616c686f737483747631",
     "44022f8eef9bbf7a396c6f63616c686f73746b19140837cbf3210017a2d3ff72cd7273fd331ac45cffbe55c3"),
)
C_7 = "64445d1f0000397490ffdbaad1e9a7e7b2a813d3c31524378303cdafae119106"
C_8 = "64445d1f00003974920100ff4d4c13669384b67354b2b6175ff4b8658c666a6cf88e"
BEFORE = 20


def same(is_now, wants, what):
    if is_now != wants:
        raise AssertionError(f"{what}: {is_now}, and not {wants}")


def one(end, kind, place, data, now=0):
    (answer, out), = end.calls([Call(kind, place, now, bytes.fromhex(data))])
    return answer, out.hex()


def vectors(end):
    for name, pair, plain, protected in REQUESTS:
        begin(end, pair)
        end.calls([Call("seal", 0, 0, bytes([0x40, 1, 0, n])) for n in range(BEFORE)])
        same(one(end, "seal", 0, plain), (DONE, protected), name)
        same(one(end, "open", 1, protected), (DONE, plain), name)
    begin(end, USUAL)
    end.calls([Call("seal", 0, 0, bytes([0x40, 1, 0, n])) for n in range(BEFORE)])
    one(end, "open", 1, one(end, "seal", 0, REQUESTS[0][2])[1])
    same(one(end, "seal", 1, HELLO), (DONE, C_7), "C.7")
    same(one(end, "open", 0, C_7), (DONE, HELLO), "C.7")
    other = HELLO[:-2] + "3f"
    begin(end, USUAL)
    end.calls([Call("seal", 0, 0, bytes([0x40, 1, 0, n])) for n in range(BEFORE)])
    one(end, "open", 1, one(end, "seal", 0, REQUESTS[0][2])[1])
    one(end, "seal", 1, other)
    same(one(end, "seal", 1, HELLO), (DONE, C_8), "C.8, of a second response")
    same(one(end, "open", 0, C_8), (DONE, HELLO), "C.8")


def begin(end, pair):
    for place, is_client in ((0, True), (1, False)):
        same(end.new(place, pair, is_client), 0, "a context")


def strangers(end):
    """What nobody with a key sent."""
    begin(end, USUAL)
    request = one(end, "seal", 0, REQUESTS[0][2])[1]
    same(one(end, "open", 1, REQUESTS[0][2])[0], UNPROTECTED_REQUEST, "an unprotected request")
    for code in ("81", "45", "84", "a0"):
        plain = f"64{code}5d1f00003974"
        same(one(end, "open", 0, plain)[0], UNPROTECTED_RESPONSE, "an unprotected response")
    same(one(end, "open", 0, HELLO)[0], UNPROTECTED_RESPONSE, "an unprotected response")
    for empty in ("40005d1f", "60005d1f", "70005d1f"):
        same(one(end, "open", 0, empty), (PASSED, empty), "an Empty message")
    same(one(end, "open", 1, request)[0], DONE, "a request")
    same(one(end, "open", 1, request), (COPY, REQUESTS[0][2]), "its copy")
    for other in ("5402" + request[4:], "44025d1e" + request[8:], "44025d1f00003975" + request[16:]):
        same(one(end, "open", 1, other)[0], REPLAYED, "under another type, Message ID or token")
    same(one(end, "open", 1, request, 246_999)[0], COPY, "a late copy")
    same(one(end, "open", 1, request, 247_000)[0], REPLAYED, "a copy that came too late")


def crowds(module, end):
    """Many inner options of Observe, from a peer with the keys: there is one at most."""
    begin(end, USUAL)
    for options in ("600000", "6401020304", "60" + "00" * 300):
        same(one(end, "seal", 0, "4401000100000001" + options)[0], MALFORMED, "Observe, to be sealed")
    (_, request), = end.calls([Call("seal", 0, 0, bytes.fromhex("440100010000000160b174"))])
    peer = module.Context(module.Keys(SECRET, b"\x01", b"", SALT))
    for count in (1, 2, 300):
        piv = bytes((255, 255, 255, 255, count & 255))
        text = b"\x45\x60" + bytes(count - 1)
        sealed = peer.seals.encrypt(peer.nonce(b"\x01", piv), text, peer.additional(b"", b"\0"))
        options = [(module.OBSERVE, b"")] + [(module.OSCORE, module.Value(piv).written())]
        response = module.write(module.Head(0, bytes(2), bytes((0, 0, 0, 1))), 0x45, options, sealed)
        wants = DONE if count == 1 else MALFORMED
        same(one(end, "open", 0, response.hex())[0], wants, f"{count} of Observe inside")


def longest(module, end):
    """A sealed datagram is at most 96 bytes longer than the plain one, and one that is too long is not sealed."""
    begin(end, Pair(SECRET, SALT, bytes(32), b"1234567", b"7654321"))
    most = 0
    for size in (0, 1, 12, 13, 268, 269, 1000, 1900, 1903, 1904, 1905, 1950):
        for options in ([], [(3, b"h" * 13), (6, b"\1"), (7, b"\1"), (39, b"coap")], [(60, b""), (2048, b"")]):
            plain = module.write(module.Head(0, b"id", b"12345678"), 1, options, bytes(size))
            (answer, sealed), = end.calls([Call("seal", 0, 0, plain)])
            same(answer, DONE if len(plain) <= 2048 - 96 else MALFORMED, f"{len(plain)} bytes")
            most = max(most, len(sealed) - len(plain))
    if not 50 < most <= 96:
        raise AssertionError(f"at most {most} bytes more")


def flips(module, end, many, whole_from):
    """Each bit of each byte of so many datagrams. Of those that were not opened, the head is left as it is: it is not
    sealed."""
    begin(end, USUAL)
    tried = 0
    for n in range(many):
        token = n.to_bytes(2, "big")
        plain = bytes.fromhex("4203") + token + token + b"\xb1t" + b"\xff" + bytes(n % 40 + 1)
        (_, request), = end.calls([Call("seal", 0, n * 300_000, plain)])
        (_, _), = opened = end.calls([Call("open", 1, n * 300_000, request)]) if n % 2 else [(DONE, plain)]
        same(opened[0], (DONE, plain), "the request itself")
        if n % 2:
            reply = bytes.fromhex("6245") + token + token + b"\xff" + bytes(n % 50 + 1)
            (_, response), = end.calls([Call("seal", 1, n * 300_000, reply)])
            same(end.calls([Call("open", 0, n * 300_000, response)]), [(DONE, reply)], "the response itself")
            tried += flipped(end, 0, n * 300_000, response, reply, 0)
        tried += flipped(end, 1, n * 300_000, request, plain, 0 if n % 2 else whole_from)
    return tried


def flipped(end, place, now, data, plain, first):
    """Flips from this byte on; what passes is a copy of the same text."""
    places = [(at, 1 << bit) for at in range(first, len(data)) for bit in range(8)]
    changed = [data[:at] + bytes([data[at] ^ bit]) + data[at + 1:] for at, bit in places]
    for datagram, (answer, out) in zip(changed, end.calls([Call("open", place, now, it) for it in changed])):
        is_code = datagram[:1] + datagram[2:] == data[:1] + data[2:]
        if answer == PASSED or not out:
            continue
        if answer != COPY or not is_code or out != plain:
            raise AssertionError(f"opened, {answer}: {datagram.hex()} of {data.hex()}")
    return len(changed)
