"""OSCORE (RFC 8613) between a socket and an end: AES-CCM-16-64-128 and HKDF SHA-256, by the package `cryptography`.

    context = Context(keys, "numbers")                  # begins=True once, for keys that were never used
    answer, sealed = context.seal(now, plain)           # what an end has out; sent after DONE, COPY and PASSED
    answer, plain = context.open(now, datagram)         # what came; fed after these three, and else dropped

`now` is in milliseconds, as the ends have it. bindings/oscore/ks_oscore.h says what holds, and which rules there are.
No part of this is proved. It has the answers and the file of numbers of the C, and shares no line with it."""

import enum
import errno
import fcntl
import hashlib
import hmac
import os
from dataclasses import dataclass, field
from typing import Dict, List, NamedTuple, Optional, Tuple

from cryptography.exceptions import InvalidTag
from cryptography.hazmat.primitives.ciphers.aead import AESCCM


class Answer(enum.IntEnum):
    DONE = 1
    BAD_ARGUMENT = -5
    PASSED = 161
    COPY = 162
    UNPROTECTED_REQUEST = 163
    UNPROTECTED_RESPONSE = 164
    MALFORMED = 165
    OTHER_CONTEXT = 166
    FORGED = 167
    REPLAYED = 168
    UNASKED = 169
    TOKEN_USED = 170
    FULL = 171
    SPENT = 172
    FILE_FAILED = 173
    FILE_FOREIGN = 174
    FILE_DAMAGED = 175
    FILE_TAKEN = 176


FED = (Answer.DONE, Answer.COPY, Answer.PASSED)
MOST_BYTES, MORE, WORD_BYTES, ID_BYTES = 2048, 96, 32, 7
COPY_OF_REQUEST_MS, KEEP_MS, WATCH_MS = 47_000, 247_000, 86_647_000
WINDOW, ASKED, TAKEN, HEARD = 256, 64, 256, 8
URI_HOST, ETAG, OBSERVE, URI_PORT, OSCORE, PROXY_URI, PROXY_SCHEME = 3, 4, 6, 7, 9, 35, 39
OUTER = {URI_HOST, URI_PORT, OSCORE, PROXY_URI, PROXY_SCHEME}
CON, ACK = 0, 2
REGISTERS, CANCELS = 0, 1


class Refused(Exception):
    """What is not sealed, not opened, or no context, with its answer."""

    def __init__(self, answer: Answer) -> None:
        super().__init__(answer.name.lower().replace("_", " "))
        self.answer = answer


class Keys(NamedTuple):
    secret: bytes
    sender: bytes
    recipient: bytes
    salt: bytes = b""
    id_context: bytes = b""


# ---- CBOR, as far as it is needed (RFC 8949, section 3) --------------------------------------------------------------


def cbor(value) -> bytes:
    if value is None:
        return b"\xf6"
    if isinstance(value, int):
        return bytes([value])
    major, data = {bytes: (0x40, value), str: (0x60, None), list: (0x80, None)}[type(value)]
    if isinstance(value, str):
        data = value.encode()
    if isinstance(value, list):
        data = b"".join(map(cbor, value))
    size = len(value)
    return (bytes([major | size]) if size < 24 else bytes([major | 24, size])) + data


def hkdf(keys: Keys, info: bytes, size: int) -> bytes:
    """HKDF SHA-256 (RFC 5869) of at most one block."""
    extracted = hmac.new(keys.salt or bytes(32), keys.secret, hashlib.sha256).digest()
    return hmac.new(extracted, info + b"\x01", hashlib.sha256).digest()[:size]


# ---- Messages (RFC 7252, section 3) ----------------------------------------------------------------------------------


class Head(NamedTuple):
    """By what a message is told outside."""

    type: int
    id: bytes
    token: bytes


@dataclass
class Message:
    head: Head
    code: int
    options: List[Tuple[int, bytes]]
    payload: bytes

    def values(self, number: int) -> List[bytes]:
        return [value for it, value in self.options if it == number]

    @property
    def observe(self) -> Optional[int]:
        """The value of Observe in a request, where it is 0 or 1."""
        found = self.values(OBSERVE)
        value = int.from_bytes(found[0], "big") if found and len(found[0]) < 2 else None
        return value if value in (REGISTERS, CANCELS) else None

    @property
    def is_request(self) -> bool:
        return 0 < self.code < 0x20

    @property
    def is_response(self) -> bool:
        return 0x40 <= self.code < 0xC0

    def same(self) -> bytes:
        """The request but for what may differ where an observation is cancelled or registered anew."""
        kept = [(n, v) for n, v in self.options if n not in OUTER and n not in (OBSERVE, ETAG)]
        return hashlib.sha256(bytes([self.code]) + tail(kept, self.payload)).digest()


class Reader:
    def __init__(self, data: bytes) -> None:
        self.data = data

    def take(self, size: int) -> bytes:
        if size > len(self.data):
            raise Refused(Answer.MALFORMED)
        taken, self.data = self.data[:size], self.data[size:]
        return taken

    def number(self, nibble: int) -> int:
        if nibble == 15:
            raise Refused(Answer.MALFORMED)
        if nibble < 13:
            return nibble
        return 13 + self.take(1)[0] if nibble == 13 else 269 + int.from_bytes(self.take(2), "big")


def read_tail(data: bytes) -> Tuple[List[Tuple[int, bytes]], bytes]:
    """Options and payload."""
    rest, options, number = Reader(data), [], 0
    while rest.data and rest.data[0] != 0xFF:
        first = rest.take(1)[0]
        delta = rest.number(first >> 4)
        size = rest.number(first & 15)
        number += delta
        if number > 65535:
            raise Refused(Answer.MALFORMED)
        options.append((number, rest.take(size)))
    observes = [v for n, v in options if n == OBSERVE]
    if rest.data == b"\xff" or len(observes) > 1 or any(len(v) > 3 for v in observes):
        raise Refused(Answer.MALFORMED)
    if sum(n == OSCORE for n, _ in options) > 1:
        raise Refused(Answer.MALFORMED)
    return options, rest.data[1:]


def read(data: bytes) -> Message:
    if not 4 <= len(data) <= MOST_BYTES or data[0] >> 6 != 1 or data[0] & 15 > 8:
        raise Refused(Answer.MALFORMED)
    rest = Reader(data[4:])
    head = Head(data[0] >> 4 & 3, data[2:4], rest.take(data[0] & 15))
    if data[1] == 0 and len(data) != 4:
        raise Refused(Answer.MALFORMED)
    message = Message(head, data[1], *read_tail(rest.data))
    if data[1] != 0 and not message.is_request and not message.is_response:
        raise Refused(Answer.MALFORMED)
    return message


def tail(options: List[Tuple[int, bytes]], payload: bytes) -> bytes:
    def short(n: int) -> Tuple[int, bytes]:
        if n < 13:
            return n, b""
        return (13, bytes([n - 13])) if n < 269 else (14, (n - 269).to_bytes(2, "big"))

    written, last = b"", 0
    for number, value in sorted(options, key=lambda it: it[0]):
        (delta, more_delta), (size, more_size) = short(number - last), short(len(value))
        written += bytes([delta << 4 | size]) + more_delta + more_size + value
        last = number
    return written + (b"\xff" + payload if payload else b"")


def write(head: Head, code: int, options: List[Tuple[int, bytes]], payload: bytes) -> bytes:
    first = bytes([0x40 | head.type << 4 | len(head.token), code])
    data = first + head.id + head.token + tail(options, payload)
    if len(data) > MOST_BYTES:
        raise Refused(Answer.MALFORMED)
    return data


# ---- The option OSCORE (RFC 8613, section 6.1) -----------------------------------------------------------------------


class Value(NamedTuple):
    piv: bytes = b""
    kid: Optional[bytes] = None
    id_context: bytes = b""

    def written(self) -> bytes:
        flags = len(self.piv) | (self.kid is not None) << 3 | bool(self.id_context) << 4
        context = bytes([len(self.id_context)]) + self.id_context if self.id_context else b""
        return bytes([flags]) + self.piv + context + (self.kid or b"") if flags else b""


def read_value(data: bytes) -> Value:
    if not data:
        return Value()
    rest, flags = Reader(data[1:]), data[0]
    if flags == 0 or flags >> 5 or flags & 7 > 5:
        raise Refused(Answer.MALFORMED)
    piv = rest.take(flags & 7)
    context = rest.take(rest.take(1)[0]) if flags & 16 else b""
    if (len(piv) > 1 and piv[0] == 0) or (rest.data and not flags & 8):
        raise Refused(Answer.MALFORMED)
    return Value(piv, rest.data if flags & 8 else None, context)


def piv_of(number: int) -> bytes:
    return number.to_bytes(max(1, (number.bit_length() + 7) // 8), "big")


# ---- The file of numbers ---------------------------------------------------------------------------------------------


class Numbers:
    """Our sequence numbers, and those of the peer that came. A page names the keys, and each of two a record, of which
    the older one is written over."""

    MAGIC, PAGE, RECORDS, STEP, MOST = b"ks_oscore 1\n".ljust(16, b"\0"), 4096, 2, 1000, 1 << 40

    def __init__(self, check: bytes, path: Optional[str], begins: bool) -> None:
        self.check, self.file, self.is_broken = check, None, False
        self.turn = self.next = self.reserved = self.above = 0
        self.came = 0
        if path is None:
            return
        try:
            flags = os.O_RDWR | os.O_CLOEXEC | os.O_NOFOLLOW | (os.O_CREAT | os.O_EXCL if begins else 0)
            self.file = os.fdopen(os.open(path, flags, 0o600), "r+b", buffering=0)
            fcntl.flock(self.file, fcntl.LOCK_EX | fcntl.LOCK_NB)
            self.begin(path) if begins else self.load()
        except OSError as why:
            self.close()
            raise Refused(Answer.FILE_TAKEN if why.errno == errno.EWOULDBLOCK else Answer.FILE_FAILED) from why
        except Refused:
            self.close()
            raise

    def close(self) -> None:
        if self.file is not None:
            self.file.close()
        self.file = None

    def record(self) -> bytes:
        came = bytes(self.came >> 8 * i & 0xFF for i in range(WINDOW // 8))
        body = b"".join(n.to_bytes(8, "big") for n in (self.turn, self.reserved, self.above)) + came
        return body + hashlib.sha256(self.check + body).digest()[:8]

    def write_at(self, data: bytes, place: int) -> None:
        while data:
            written = os.pwrite(self.file.fileno(), data, place)
            data, place = data[written:], place + written

    def read_at(self, size: int, place: int) -> bytes:
        data = b""
        while len(data) < size:
            more = os.pread(self.file.fileno(), size - len(data), place + len(data))
            if not more:
                raise OSError(errno.EIO, "the file is cut off")
            data += more
        return data

    def begin(self, path: str) -> None:
        os.truncate(self.file.fileno(), self.PAGE * (1 + self.RECORDS))
        self.write_at(self.MAGIC + self.check, 0)
        self.turn = 1
        self.write_at(self.record(), self.PAGE * (1 + self.turn % self.RECORDS))
        os.fsync(self.file.fileno())
        folder = os.open(os.path.dirname(path) or ".", os.O_RDONLY | os.O_DIRECTORY)
        try:
            os.fsync(folder)
        finally:
            os.close(folder)

    def load(self) -> None:
        if os.fstat(self.file.fileno()).st_size != self.PAGE * (1 + self.RECORDS):
            raise Refused(Answer.FILE_FOREIGN)
        if self.read_at(32, 0) != self.MAGIC + self.check:
            raise Refused(Answer.FILE_FOREIGN)
        records = [self.read_at(64, self.PAGE * (1 + i)) for i in range(self.RECORDS)]
        whole = [it[:56] for it in records if hashlib.sha256(self.check + it[:56]).digest()[:8] == it[56:]]
        if not whole:
            raise Refused(Answer.FILE_DAMAGED)
        last = max(whole)
        self.turn, self.reserved, self.above = (int.from_bytes(last[8 * i:8 * i + 8], "big") for i in range(3))
        self.next = self.reserved
        self.came = int.from_bytes(last[24:], "little")

    def keep(self) -> None:
        """Writes the next record, and syncs. After a failure nothing goes on."""
        self.turn += 1
        try:
            if self.file is not None:
                self.write_at(self.record(), self.PAGE * (1 + self.turn % self.RECORDS))
                os.fdatasync(self.file.fileno())
        except OSError as why:
            self.is_broken = True
            raise Refused(Answer.FILE_FAILED) from why

    def take(self) -> int:
        if self.is_broken:
            raise Refused(Answer.FILE_FAILED)
        if self.next >= self.MOST:
            raise Refused(Answer.SPENT)
        if self.next >= self.reserved:
            self.reserved = self.next + self.STEP
            self.keep()
        self.next += 1
        return self.next - 1

    def is_new(self, number: int) -> bool:
        if number >= self.above:
            return True
        return self.above - number <= WINDOW and not self.came >> number % WINDOW & 1

    def note(self, number: int) -> None:
        if self.is_broken:
            raise Refused(Answer.FILE_FAILED)
        for passed in range(max(self.above, number - WINDOW), number):
            self.came &= ~(1 << passed % WINDOW)
        self.came |= 1 << number % WINDOW
        self.above = max(self.above, number + 1)
        self.keep()


# ---- A context -------------------------------------------------------------------------------------------------------


class Sealed(NamedTuple):
    """A plain datagram by its digest: when it was sealed, and a response under which number of its own, or None."""

    digest: bytes
    at: int
    number: Optional[int]


@dataclass
class Request:
    """One that was sealed or opened."""

    head: Head
    number: int
    observe: Optional[int]
    same: bytes
    at: int
    used: int
    is_answered: bool = False
    sealed: List["Sealed"] = field(default_factory=list)
    # The heads of responses by their number, or -1 for what has none.
    heard: Dict[int, Head] = field(default_factory=dict)

    def sealed_before(self, digest: bytes, since: int) -> Optional[Sealed]:
        return next((it for it in self.sealed if it.digest == digest and it.at >= since), None)

    def is_observation_of(self, other: "Request") -> bool:
        return (self.observe == REGISTERS and other.observe is not None and self.head.token == other.head.token
                and self.same == other.same)


class Context:
    """What two ends share; one program at a time has it."""

    def __init__(self, keys: Keys, path: Optional[str] = None, begins: bool = False) -> None:
        if not 0 < len(keys.secret) <= WORD_BYTES or max(len(keys.salt), len(keys.id_context)) > WORD_BYTES:
            raise Refused(Answer.BAD_ARGUMENT)
        if max(len(keys.sender), len(keys.recipient)) > ID_BYTES or keys.sender == keys.recipient:
            raise Refused(Answer.BAD_ARGUMENT)
        self.sender, self.recipient, self.id_context = keys.sender, keys.recipient, keys.id_context

        def derive(who: bytes, kind: str, size: int) -> bytes:
            return hkdf(keys, cbor([who, keys.id_context or None, 10, kind, size]), size)

        sender_key, recipient_key = derive(keys.sender, "Key", 16), derive(keys.recipient, "Key", 16)
        self.iv = derive(b"", "IV", 13)
        self.seals, self.opens = AESCCM(sender_key, tag_length=8), AESCCM(recipient_key, tag_length=8)
        check = hashlib.sha256(sender_key + recipient_key + self.iv).digest()[:16]
        self.numbers = Numbers(check, path, begins)
        self.now = 0
        self.asked: List[Request] = []
        self.taken: List[Request] = []

    def close(self) -> None:
        self.numbers.close()

    def __enter__(self) -> "Context":
        return self

    def __exit__(self, *_) -> None:
        self.close()

    def seal(self, now: int, plain: bytes) -> Tuple[Answer, bytes]:
        return self.passed(now, plain, self.sealed)

    def open(self, now: int, datagram: bytes) -> Tuple[Answer, bytes]:
        return self.passed(now, datagram, self.opened)

    def names(self, datagram: bytes) -> bool:
        """Whether this request names the context."""
        try:
            found = read(datagram).values(OSCORE)
            value = read_value(found[0]) if found else Value()
        except Refused:
            return False
        return value.kid is not None and self.is_named(value)

    def passed(self, now: int, data: bytes, by) -> Tuple[Answer, bytes]:
        self.now = max(self.now, now)
        try:
            message = read(data)
            return (Answer.PASSED, data) if message.code == 0 else by(message, data)
        except Refused as why:
            return why.answer, b""

    def is_named(self, value: Value) -> bool:
        return value.kid == self.recipient and value.id_context in (b"", self.id_context)

    def nonce(self, who: bytes, piv: bytes) -> bytes:
        plain = bytes([len(who)]) + who.rjust(7, b"\0") + piv.rjust(5, b"\0")
        return bytes(a ^ b for a, b in zip(plain, self.iv))

    @staticmethod
    def additional(kid: bytes, request_piv: bytes) -> bytes:
        return cbor(["Encrypt0", b"", cbor([1, [10], kid, request_piv, b""])])

    # ---- Sealing

    def sealed(self, message: Message, plain: bytes) -> Tuple[Answer, bytes]:
        is_long = len(plain) > MOST_BYTES - MORE
        if is_long or message.values(OSCORE) or message.values(PROXY_URI):
            raise Refused(Answer.MALFORMED)
        digest = hashlib.sha256(plain).digest()
        by = self.sealed_request if message.is_request else self.sealed_response
        return Answer.DONE, by(message, digest)

    def sealed_request(self, message: Message, digest: bytes) -> bytes:
        for it in self.asked:
            if it.sealed_before(digest, self.now - COPY_OF_REQUEST_MS) is not None:
                return self.write_request(message, it.number)
        made = Request(message.head, self.numbers.take(), message.observe, message.same(), self.now, self.now)
        data = self.write_request(message, made.number)
        made.sealed.append(Sealed(digest, self.now, None))
        self.asked = [it for it in self.asked if it.head.token != made.head.token
                      or (made.observe == CANCELS and it.is_observation_of(made))]
        if len(self.asked) >= ASKED:
            self.asked.remove(min(self.asked, key=lambda it: (it.observe == REGISTERS, it.used, it.number)))
        self.asked.append(made)
        return data

    def request_of(self, response: Message) -> Request:
        """The request to which this response of ours is."""
        found = [it for it in self.taken if it.head.token == response.head.token]
        if response.head.type == ACK:
            found = [it for it in found if it.head.type == CON and it.head.id == response.head.id]
        else:
            unanswered = [] if response.values(OBSERVE) else [it for it in found if not it.is_answered]
            found = unanswered or [it for it in found if it.observe == REGISTERS]
        if not found:
            raise Refused(Answer.UNASKED)
        return max(found, key=lambda it: it.number)

    def sealed_response(self, message: Message, digest: bytes) -> bytes:
        for it in self.taken:
            before = it.sealed_before(digest, self.now - KEEP_MS)
            if before is not None:
                return self.write_response(message, it, before.number)
        to = self.request_of(message)
        observes = bool(message.values(OBSERVE))
        under_request = [it for it in to.sealed if it.number is None]
        number = self.numbers.take() if observes or under_request else None
        kept = [it for it in to.sealed if (it.number is None) != (number is None)]
        to.sealed = kept + [Sealed(digest, self.now, number)]
        self.end_observations(to if to.observe == CANCELS else None)
        if not observes:
            to.observe = None
        to.is_answered, to.used = True, self.now
        return self.write_response(message, to, number)

    def end_observations(self, of: Optional[Request]) -> None:
        for it in self.taken:
            if of is not None and it is not of and it.is_observation_of(of):
                it.observe, it.is_answered = None, True

    def write_request(self, message: Message, number: int) -> bytes:
        piv = piv_of(number)
        value = Value(piv, self.sender, self.id_context).written()
        inner = bytes([message.code]) + tail([it for it in message.options if it[0] not in OUTER], message.payload)
        sealed = self.seals.encrypt(self.nonce(self.sender, piv), inner, self.additional(self.sender, piv))
        return write(message.head, 0x05 if message.values(OBSERVE) else 0x02, self.outside(message, value), sealed)

    def write_response(self, message: Message, to: Request, number: Optional[int]) -> bytes:
        request_piv = piv_of(to.number)
        nonce = self.nonce(self.recipient, request_piv) if number is None else self.nonce(self.sender, piv_of(number))
        value = b"" if number is None else Value(piv_of(number)).written()
        inside = [(n, b"" if n == OBSERVE else v) for n, v in message.options if n not in OUTER]
        inner = bytes([message.code]) + tail(inside, message.payload)
        sealed = self.seals.encrypt(nonce, inner, self.additional(self.recipient, request_piv))
        return write(message.head, 0x45 if message.values(OBSERVE) else 0x44, self.outside(message, value), sealed)

    @staticmethod
    def outside(message: Message, value: bytes) -> List[Tuple[int, bytes]]:
        return [it for it in message.options if it[0] in OUTER or it[0] == OBSERVE] + [(OSCORE, value)]

    # ---- Opening

    def opened(self, message: Message, _: bytes) -> Tuple[Answer, bytes]:
        found = message.values(OSCORE)
        if not found:
            raise Refused(Answer.UNPROTECTED_REQUEST if message.is_request else Answer.UNPROTECTED_RESPONSE)
        value = read_value(found[0])
        return self.opened_request(message, value) if message.is_request else self.opened_response(message, value)

    def decrypted(self, nonce: bytes, message: Message, additional: bytes) -> Message:
        try:
            if len(message.payload) <= 8:
                raise InvalidTag
            text = self.opens.decrypt(nonce, message.payload, additional)
        except InvalidTag:
            raise Refused(Answer.FORGED) from None
        inner = Message(message.head, text[0], *read_tail(text[1:]))
        if any(number in OUTER for number, _ in inner.options):
            raise Refused(Answer.MALFORMED)
        return inner

    @staticmethod
    def merged(outer: Message, inner: Message) -> bytes:
        if outer.values(PROXY_URI):
            raise Refused(Answer.MALFORMED)
        kept = [it for it in outer.options if it[0] in OUTER and it[0] != OSCORE]
        return write(outer.head, inner.code, kept + inner.options, inner.payload)

    def opened_request(self, message: Message, value: Value) -> Tuple[Answer, bytes]:
        if not value.piv or value.kid is None:
            raise Refused(Answer.MALFORMED)
        if not self.is_named(value):
            raise Refused(Answer.OTHER_CONTEXT)
        number = int.from_bytes(value.piv, "big")
        before = [it for it in self.taken if it.number == number]
        is_new = self.numbers.is_new(number)
        is_copy = any(it.head == message.head and self.now - it.at < KEEP_MS for it in before)
        if not is_new and not is_copy:
            raise Refused(Answer.REPLAYED)
        inner = self.decrypted(self.nonce(value.kid, value.piv), message, self.additional(value.kid, value.piv))
        if not inner.is_request:
            raise Refused(Answer.MALFORMED)
        plain = self.merged(message, inner)
        if not is_new:
            return Answer.COPY, plain
        self.take(Request(message.head, number, inner.observe, inner.same(), self.now, self.now))
        return Answer.DONE, plain

    def may_be_answered(self, it: Request) -> bool:
        if it.observe == REGISTERS:
            return self.now - it.used < WATCH_MS
        return not it.is_answered and self.now - it.at < KEEP_MS

    def take(self, made: Request) -> None:
        for it in self.taken:
            if it.head.token == made.head.token and self.may_be_answered(it) and not it.is_observation_of(made):
                raise Refused(Answer.TOKEN_USED)
        over = [it for it in self.taken if not self.may_be_answered(it)]
        if len(self.taken) >= TAKEN and not over:
            raise Refused(Answer.FULL)
        self.numbers.note(made.number)
        self.end_observations(made if made.observe == REGISTERS else None)
        if len(self.taken) >= TAKEN:
            self.taken.remove(min(over, key=lambda it: (it.used, it.number)))
        self.taken.append(made)

    def opened_response(self, message: Message, value: Value) -> Tuple[Answer, bytes]:
        if value.kid is not None and not self.is_named(value):
            raise Refused(Answer.OTHER_CONTEXT)
        why = Answer.UNASKED
        for it in self.asked:
            if it.head.token != message.head.token:
                continue
            asked = piv_of(it.number)
            nonce = self.nonce(self.recipient, value.piv) if value.piv else self.nonce(self.sender, asked)
            try:
                inner = self.decrypted(nonce, message, self.additional(self.sender, asked))
            except Refused as refused:
                why = refused.answer
                if why == Answer.FORGED:
                    continue
                raise
            return self.heard(it, message, inner, value.piv)
        raise Refused(why)

    def heard(self, to: Request, message: Message, inner: Message, piv: bytes) -> Tuple[Answer, bytes]:
        if not inner.is_response or (inner.values(OBSERVE) and to.observe != REGISTERS):
            raise Refused(Answer.MALFORMED)
        number = int.from_bytes(piv, "big") if piv else -1
        known = to.heard.get(number) if to.observe == REGISTERS else next(iter(to.heard.values()), None)
        is_late = len(to.heard) >= HEARD and number < min(to.heard)
        if known not in (None, message.head) or (known is None and is_late):
            raise Refused(Answer.REPLAYED)
        if known is None:
            if len(to.heard) >= HEARD:
                del to.heard[min(to.heard)]
            to.heard[number] = message.head
        to.used = self.now
        low = max(number, 0) & 0xFFFFFF
        fresh = low.to_bytes((low.bit_length() + 7) // 8, "big")
        inner.options = [(n, fresh if n == OBSERVE else v) for n, v in inner.options]
        return Answer.DONE if known is None else Answer.COPY, self.merged(message, inner)
