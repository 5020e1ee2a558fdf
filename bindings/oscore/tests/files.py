"""The file of numbers: over a restart, cut off, torn, of other keys, taken, and where it can't be written."""

import os
import random

from driven import USUAL, Call, Watch

PAGE, FILE_LEN, RECORD_LEN = 4096, 3 * 4096, 64
FILE_FAILED, FOREIGN, DAMAGED, TAKEN, REPLAYED, DONE = 173, 174, 175, 176, 168, 1
GET = bytes.fromhex("4401")


def want(is_so, what):
    if not is_so:
        raise AssertionError(what)


def get(n):
    """A request of its own."""
    own = n.to_bytes(4, "big")
    return GET + own[2:] + own + b"\xb1t\xff" + own


def sealed(end, place, n):
    (answer, out), = end.calls([Call("seal", place, 0, get(n))])
    return out if answer == DONE else answer


def lives(module, end, room):
    """Numbers go on over 20 lives, and what came once comes in no other life."""
    watch, draw = Watch(module, USUAL), random.Random(1)
    files = [room / f"lives-{end.name}-{n}" for n in (0, 1)]
    sent = []
    for life in range(20):
        for place, is_client in ((0, True), (1, False)):
            want(end.new(place, USUAL, is_client, files[place], life == 0) == 0, f"life {life}")
            watch.begins(is_client)
        for n in range(draw.choice((0, 3, 700))):
            out = sealed(end, 0, life * 1000 + n)
            watch.sealed(True, out)
            sent.append(out)
        watch.look(end.name)
        opened = [it[0] for it in end.calls([Call("open", 1, 0, it) for it in sent[-50:]])]
        again = [it[0] for it in end.calls([Call("open", 1, 300_000, it) for it in sent[-50:]])]
        want(DONE not in again, f"{end.name}: what came is opened again")
        end.free(1)
        want(end.new(1, USUAL, False, files[1]) == 0, "the server's next life")
        later = {it[0] for it in end.calls([Call("open", 1, 0, it) for it in sent[-50:]])}
        want(later <= {REPLAYED}, f"{end.name}: what came in a life before: {later}, after {set(opened)}")
    want(len(sent) > 1000, "numbers that were used")


def refusals(end, room):
    """Files that are none, and others' files."""
    file = room / f"refused-{end.name}"
    want(end.new(0, USUAL, True, file) == FILE_FAILED, "a file that isn't there is not begun by itself")
    want(end.new(0, USUAL, True, file, True) == 0, "begun")
    want(file.stat().st_mode & 0o777 == 0o600, "its mode")
    want(end.new(1, USUAL, True, file) == TAKEN, "another one of this program")
    end.free(0)
    want(end.new(0, USUAL, True, file, True) == FILE_FAILED, "begun twice")
    want(end.new(0, USUAL._replace(secret=b"other"), True, file) == FOREIGN, "of other keys")
    want(end.new(0, USUAL, False, file) == FOREIGN, "of the other end")
    whole = file.read_bytes()
    for data in (b"", b"notes of mine", whole[:-1], whole + b"\0", whole[:PAGE], bytes(FILE_LEN)):
        file.write_bytes(data)
        want(end.new(0, USUAL, True, file) == FOREIGN, f"{len(data)} bytes that are none")
        want(file.read_bytes() == data, "it is left as it was")
    os.unlink(file)
    os.symlink(room / "elsewhere", file)
    want(end.new(0, USUAL, True, file, True) == FILE_FAILED and not (room / "elsewhere").exists(), "a link")


def torn(end, room):
    """A record that is written in part leaves the one before it."""
    file = room / f"torn-{end.name}"
    want(end.new(0, USUAL, True, file, True) == 0, "begun")
    want(isinstance(sealed(end, 0, 0), bytes), "sealed")
    end.free(0)
    before = file.read_bytes()
    want(end.new(0, USUAL, True, file) == 0 and isinstance(sealed(end, 0, 1), bytes), "the next life")
    end.free(0)
    after = file.read_bytes()
    places = [i for i in range(0, FILE_LEN, PAGE) if before[i:i + PAGE] != after[i:i + PAGE]]
    want(len(places) == 1 and places[0] > 0, "one page is written over")
    for cut in range(1, RECORD_LEN):
        at = places[0] + cut
        file.write_bytes(after[:at] + before[at:])
        want(end.new(0, USUAL, True, file) == 0, f"torn after {cut} bytes")
        end.free(0)
    for page in (1, 2):
        after = after[:page * PAGE] + bytes([after[page * PAGE] ^ 1]) + after[page * PAGE + 1:]
    file.write_bytes(after)
    want(end.new(0, USUAL, True, file) == DAMAGED, "two records that are torn")


def two_programs(one, other, room):
    """The lock is on a file that stays: who comes second is refused, however often the first one wrote."""
    file = room / f"two-{one.name}"
    want(one.new(0, USUAL, True, file, True) == 0, "begun")
    for n in range(3000):
        want(isinstance(sealed(one, 0, n), bytes), "sealed")
    want(other.new(0, USUAL, True, file) == TAKEN, f"{other.name} beside {one.name}")
    one.free(0)
    want(other.new(0, USUAL, True, file) == 0, f"{other.name} after {one.name}")
    want(one.new(0, USUAL, True, file) == TAKEN, f"{one.name} beside {other.name}")
    number = sealed(other, 0, 9)[9:12]
    want(number == bytes.fromhex("0a0bb8"), f"{other.name} goes on where {one.name} was: {number.hex()}")
    other.free(0)


def short_writes(start, room):
    """A write that takes a few bytes at a time is gone on with; one that fails ends the context."""
    file = room / "short-writes"
    with start({}) as end:
        want(end.new(0, USUAL, True, file, True) == 0 and isinstance(sealed(end, 0, 0), bytes), "a short write")
    with start({}) as end:
        want(end.new(0, USUAL, True, file) == 0 and sealed(end, 0, 0)[9:12] == bytes.fromhex("0a03e8"), "goes on")
    for many in range(1, 10):
        with start({"SHORT_WRITES": str(many)}) as end:
            want(end.new(0, USUAL, True, file) == 0, "opened")
            want(sealed(end, 0, 0) == FILE_FAILED, f"a write that fails after {many}")
            want(sealed(end, 0, 1) == FILE_FAILED, "and nothing after it")
    with start({}) as end:
        want(end.new(0, USUAL, True, file) == 0 and isinstance(sealed(end, 0, 0), bytes), "it is whole")
