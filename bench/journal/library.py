"""The library, by ctypes: servers and clients as objects with no input or output of their own."""

import ctypes as c
import os

OK, DONE, SMALL = 0, 1, -4
GET, POST, PUT, DELETE = 1, 2, 3, 4
BODY, VALID, SUCCESS, VALUE, ENDED, CANCELLED, FAILED = 1, 2, 3, 4, 5, 6, 7
NAMES = ["", "body", "valid", "success", "value", "ended", "cancelled", "failed", "timeout", "reset", "no response",
         "changed", "bad block", "no tag", "too large", "no ids"]

u8, u16, u32, u64, i32, size = c.c_uint8, c.c_uint16, c.c_uint32, c.c_uint64, c.c_int32, c.c_size_t


class Handle(c.Structure):
    _fields_ = [("at", c.c_void_p), ("live", c.c_bool)]


class Address(c.Structure):
    _fields_ = [("ip", u8 * 4), ("port", u16)]


class Config(c.Structure):
    _fields_ = [("size", u32), ("block_size", u32), ("body_limit", u32), ("remembered", u32), ("changes", u32),
                ("base", u64)]


class Seed(c.Structure):
    _fields_ = [("word", u64), ("key0", u64), ("key1", u64)]


class Life(c.Structure):
    _fields_ = [("boot_high", u64), ("boot_low", u64), ("uptime", u64), ("moment", u64)]


class Replayed(c.Structure):
    _fields_ = [("end", u64), ("torn", u64), ("moment", u64), ("life", Life)]


class Representation(c.Structure):
    _fields_ = [("version", u64), ("body_len", size), ("format", i32)]


class Applied(c.Structure):
    _fields_ = [("version", u64), ("path_len", size), ("from_", Address), ("method", u8), ("token_len", u8),
                ("token", u8 * 8)]


class Request(c.Structure):
    _fields_ = [("format", i32), ("accept", i32), ("method", u8), ("if_none_match", c.c_bool)]


class Tag(c.Structure):
    _fields_ = [("len", u8), ("bytes", u8 * 8)]


class Report(c.Structure):
    _fields_ = [("id", u64), ("body_len", size), ("format", i32), ("sequence", u32), ("kind", u8), ("code", u8),
                ("tag_len", u8), ("tag", u8 * 8)]


lib = None


def load(path):
    global lib
    lib = c.CDLL(os.path.abspath(path))


def address(at):
    return Address((u8 * 4)(*at[0]), at[1])


def place(a):
    return (bytes(a.ip), a.port)


def framed(call, *given):
    """The frame that this call of the library writes."""
    length, room = size(), c.create_string_buffer(1 << 18)
    answer = getattr(lib, f"ks_journal_{call}")(*given, room, size(1 << 18), c.byref(length))
    assert answer == DONE, answer
    return room.raw[: length.value]


def begin(word, life):
    config = Config(c.sizeof(Config), 0, 0, 0, 0, 0)
    return framed("begin", c.byref(config), c.byref(Seed(word, 1, 2)), c.byref(life))


def wake(place, life):
    return framed("wake", u64(place), c.byref(life))


def frame(place, turn):
    return framed("frame", u64(place), turn, size(len(turn)))


def go_on(told, life):
    """For how long a server is silent that was replayed, and its moment then."""
    lib.ks_journal_go_on.restype, moment = u64, u64()
    return lib.ks_journal_go_on(c.byref(told), c.byref(life), c.byref(moment)), moment.value


class End:
    """What both ends have in common; `kind` is "server" or "client"."""

    def call(self, name, *rest):
        return getattr(lib, f"ks_{self.kind}_{name}")(c.byref(self.handle), *rest)

    def __del__(self):
        if lib is not None and getattr(self, "handle", None) is not None:
            self.call("free")

    def feed(self, now, at, data, word):
        return self.call("feed", u64(now), c.byref(address(at)), data, size(len(data)), u64(word))

    def tick(self, now, word):
        return self.call("tick", u64(now), u64(word))

    def due(self):
        at = u64()
        return at.value if self.call("due", c.byref(at)) == DONE else None

    def outs(self, most=None):
        found, to, room, length = [], Address(), c.create_string_buffer(1152), size()
        while len(found) != most and self.call("next_out", c.byref(to), room, size(1152), c.byref(length)) == DONE:
            found.append((place(to), room.raw[: length.value]))
        return found


class Server(End):
    kind = "server"

    def __init__(self, word, remembered=0):
        self.handle = Handle()
        config = Config(c.sizeof(Config), 0, 0, remembered, 0, 0)
        assert self.call("new", c.byref(config), c.byref(Seed(word, 1, 2))) == OK

    @classmethod
    def replayed(cls, file):
        """The server of this journal and what is told of it, or the number of why there is none."""
        server, told = cls.__new__(cls), Replayed()
        server.handle = Handle()
        answer = server.call("replay", file, size(len(file)), c.byref(told))
        return (server, told) if answer == OK else (None, answer)

    def noted(self):
        """What was taken since this was asked last."""
        length, room = size(), c.create_string_buffer(1 << 18)
        if self.call("noted", room, size(1 << 18), c.byref(length)) != DONE:
            return None
        return room.raw[: length.value]

    def set(self, now, path, body, form=0):
        version = u64()
        path = path.encode()
        answer = self.call("set", u64(now), path, size(len(path)), i32(form), body, size(len(body)), c.byref(version))
        return answer, version.value

    def remove(self, now, path):
        path = path.encode()
        return self.call("remove", u64(now), path, size(len(path)))

    def set_delay(self, path, ms):
        path = path.encode()
        return self.call("set_delay", path, size(len(path)), u64(ms))

    def set_plain(self, path):
        path = path.encode()
        return self.call("set_plain", path, size(len(path)))

    def get(self, path):
        shown, room = Representation(), c.create_string_buffer(1 << 20)
        path = path.encode()
        if self.call("get", path, size(len(path)), c.byref(shown), room, size(1 << 20)) != DONE:
            return None
        return shown.version, room.raw[: shown.body_len]

    def applied(self):
        done, room = Applied(), c.create_string_buffer(4096)
        if self.call("applied", c.byref(done), room, size(4096)) != DONE:
            return None
        return done.version, place(done.from_), done.method, room.raw[: done.path_len].decode()


class Client(End):
    kind = "client"

    def __init__(self, server, word):
        self.handle = Handle()
        config = Config(c.sizeof(Config), 0, 0, 0, 0, 0)
        assert self.call("new", c.byref(address(server)), c.byref(config), c.byref(Seed(word, 3, 4))) == OK

    def ask(self, now, method, path, body=b"", form=-1, if_match=()):
        number = u64()
        path = path.encode()
        what = Request(form, -1, method, False)
        tags = (Tag * max(1, len(if_match)))(*[Tag(len(t), (u8 * 8)(*t)) for t in if_match])
        answer = self.call("call", u64(now), c.byref(what), path, size(len(path)), body, size(len(body)),
                           c.byref(Tag()), size(0), tags, size(len(if_match)), c.byref(number))
        return number.value if answer == OK else None

    def observe(self, now, path):
        number = u64()
        path = path.encode()
        return number.value if self.call("observe", u64(now), path, size(len(path)), c.byref(number)) == OK else None

    def forget(self, number):
        return self.call("forget", u64(number)) == DONE

    def reports(self):
        found, report, room = [], Report(), c.create_string_buffer(1 << 17)
        while self.call("next_report", c.byref(report), room, size(1 << 17)) == DONE:
            found.append((report.id, report.kind, report.code, report.sequence, bytes(report.tag[: report.tag_len]),
                          room.raw[: report.body_len]))
        return found
