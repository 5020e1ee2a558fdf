"""The server's process: it is killed and begins again, and its file outlives it."""

import journal as j
import library as ks

SERVER = (bytes([10, 0, 0, 1]), 5683)
VARIANTS = ["right", "sends_first", "no_replay", "no_silence", "applied_at_replay", "changes_only", "applied_only",
            "no_ticks", "another_seed", "not_cut"]
AT_ONCE = 64


class Failed(Exception):
    """What has to hold doesn't."""


def replay(server, found, told=None):
    """Does the records again, and answers the last life and the latest moment."""
    last, latest = None, 0
    for kind, moment, *parts in j.records(found):
        latest = moment
        if kind != j.TURN:
            last = (moment, *parts)
            continue
        taken, inputs = parts
        out = server.outs(taken)
        assert len(out) == taken, "the journal is of another server"
        for one in inputs:
            hand_in(server, one)
            if told is not None and one[0] in (j.FEED, j.TICK):
                told(server)
    return last, latest


def hand_in(server, one):
    if one[0] == j.FEED:
        server.feed(*one[1:])
    elif one[0] == j.TICK:
        server.tick(*one[1:])
    else:
        server.set(*one[1:])


def go_on(last, latest, boot, uptime):
    """How long a server is silent that is replayed, and its moment then."""
    moment, then, same = last
    if same == boot and then <= uptime:
        return 0, max(latest, moment + uptime - then)
    return j.SILENCE_MS, latest + j.SILENCE_MS


class Served:
    """A server over its journal, in made-up time."""

    def __init__(self, world, variant, outage):
        self.world, self.variant, self.outage, self.word = world, variant, outage, world.rng.getrandbits(64)
        self.disk, self.server, self.number, self.batch, self.queue = j.Disk(), None, 0, [], []
        self.boot, self.booted, self.busy, self.taken, self.held = 1, 0, False, 0, b""
        self.began, self.moment_then, self.last = 0, 0, 0
        self.told, self.outages, self.replaced, self.calm = {}, [], {}, False
        self.count = {"crashes": 0, "torn": 0, "inputs": 0, "bytes": 0, "fed": 0}
        world.nodes[SERVER] = self
        self.disk.append(self.begun())
        self.disk.sync()
        self.start()

    def draw(self):
        return self.world.rng.getrandbits(64)

    def uptime(self):
        return self.world.now - self.booted

    # ---- the file

    def begun(self):
        return j.frame(0, j.begun(self.word, j.life(self.boot, 0, 0)))

    def woke(self, moment):
        return j.frame(len(self.disk.kept), j.woke(j.life(self.boot, self.uptime(), moment)))

    def opened(self):
        """Reads the file: for how long the server is silent, and its moment then."""
        found, end, rest, damaged = j.frames(self.disk.kept)
        if damaged:
            raise Failed(f"opens: the file is damaged at {end}")
        self.count["torn"] += bool(rest)
        if self.variant != "not_cut":
            self.disk.kept = self.disk.kept[:end]
        self.server = ks.Server(self.draw() if self.variant in ("another_seed", "no_replay") else self.word)
        last, latest = self.replayed(found)
        dropped = len(self.server.outs())
        self.taken = dropped
        silence, moment = go_on(last, latest, self.boot, self.uptime())
        if self.variant == "no_silence":
            silence, moment = 0, max(latest, moment - silence)
        return silence, moment

    def start(self):
        silence, moment = self.opened()
        self.number, self.batch, self.busy, self.queue = self.number + 1, [], False, []
        self.untold = []
        self.silent = True
        self.world.at(self.world.now + silence, self.if_alive(lambda: self.speak(moment)))

    def replayed(self, found):
        if self.variant == "no_replay":
            for kind, moment, *parts in j.records(found):
                last = (moment, *parts) if kind != j.TURN else last
            if self.number:
                self.server.set(0, "log", b"")
            return last, 0
        if self.variant == "changes_only":
            return self.replay_changes(found)
        return replay(self.server, found, self.tell if self.variant == "applied_at_replay" else None)

    def replay_changes(self, found):
        held, latest, last = {}, 0, None
        for kind, moment, *parts in j.records(found):
            latest, last = moment, last if kind == j.TURN else (moment, *parts)
            for one in parts[1] if kind == j.TURN else []:
                held[one[2]] = one[3]
        for path, body in held.items():
            self.server.set(latest, path, body)
        return last, latest

    def speak(self, moment):
        self.silent, self.last = False, moment
        self.began, self.moment_then = self.world.now, moment
        self.put([], self.woke(moment))
        self.turn()

    def if_alive(self, what):
        number = self.number
        return lambda: what() if self.server is not None and self.number == number else None

    def moment(self):
        self.last = max(self.last, self.moment_then + self.world.now - self.began)
        return self.last

    def put(self, outs, framed):
        """Appends a frame; what is out is sent once it is synced."""
        self.count["bytes"] += len(framed)
        self.disk.append(framed)
        self.busy = True
        if self.variant == "sends_first":
            self.send(outs)
            outs = []
        if self.world.rng.random() < 0.01:      # while the write is under way
            self.world.at(self.world.now, self.if_alive(self.crash))
        self.world.at(self.world.now + self.world.rng.randint(1, 30), self.if_alive(lambda: self.synced(outs)))

    # ---- the loop

    def receive(self, source, data):
        if self.server is not None and not self.silent:
            self.queue.append((source, data))
            self.turn()

    def change(self, path, body):
        """The application's own."""
        if self.server is None or self.silent or self.busy:
            return False
        now = self.moment()
        self.server.set(now, path, body)
        self.batch.append(j.setting(now, path, body, 0))
        self.turn()
        return True

    def tell(self, server):
        """The lamp hears of what was applied."""
        done = server.applied()
        if done:
            self.told[done[0]] = self.told.get(done[0], 0) + 1

    def tell_later(self):
        """.. once the input is kept."""
        done = self.server.applied()
        if done:
            self.untold.append(done[0])

    def note_applied(self, before):
        if self.variant == "changes_only":
            done = self.server.applied()
            if done:
                held = self.server.get(done[3])
                self.batch.append(j.setting(self.last, done[3].strip("/"), held[1] if held else b"", 0))
        elif self.variant == "applied_only" and self.server.applied() is None:
            del self.batch[before:]

    def turn(self):
        if self.busy or self.silent:
            return
        now = self.moment()
        for source, data in self.queue[:AT_ONCE]:
            word, before = self.draw(), len(self.batch)
            if self.server.feed(now, source, data, word) == ks.OK:
                self.count["fed"] += 1
                if self.variant != "changes_only":
                    self.batch.append(j.feed(now, source, data, word))
                self.note_applied(before)
                self.tell_later()
            self.ticks(now)
        del self.queue[:AT_ONCE]
        self.ticks(now)
        outs, framed = self.kept(now)
        if framed is None:
            self.send(outs)
            self.sleep()
        else:
            self.put(outs, framed)

    def kept(self, now):
        """What is out, and the frame of what was taken, if something was."""
        outs, self.count["inputs"] = self.server.outs(), self.count["inputs"] + len(self.batch)
        if not self.batch:
            self.taken += len(outs)
            return outs, None
        body = j.turn(now, self.taken, b"".join(self.batch))
        self.batch, self.taken = [], len(outs)
        return outs, j.frame(len(self.disk.kept), body)

    def ticks(self, now):
        # A tick is made where it is due, so that no idle tick is one of the inputs.
        while (due := self.server.due()) is not None and due <= now:
            word, before = self.draw(), len(self.batch)
            self.server.tick(now, word)
            if self.variant not in ("changes_only", "no_ticks"):
                self.batch.append(j.tick(now, word))
            self.note_applied(before)

    def synced(self, outs):
        self.disk.sync()
        self.busy = False
        for version in self.untold:
            self.told[version] = self.told.get(version, 0) + 1
        self.untold = []
        self.note_replaced()
        if not self.calm and self.world.rng.random() < 0.01:      # between the sync and the last datagram
            self.send(outs[: self.world.rng.randint(0, len(outs))])
            self.crash()
            return
        self.send(outs)
        if self.queue:
            self.turn()
        else:
            self.sleep()

    def note_replaced(self):
        """When each value of the watched path was replaced."""
        held = self.server.get("t")
        if held and held[1] != self.held:
            self.replaced[self.held], self.held = self.world.now, held[1]

    def send(self, outs):
        for to, data in outs:
            self.world.send(SERVER, to, data)

    def sleep(self):
        due = self.server.due()
        if due is not None:
            self.world.at(self.world.now + max(0, due - self.last), self.if_alive(self.turn))

    def crash(self):
        if self.server is None or self.calm:
            return
        self.disk.crash(self.world.rng)
        self.server = None
        self.count["crashes"] += 1
        down, rebooted = self.outage(self.world.rng)
        self.outages.append((self.world.now, down, rebooted))
        self.world.at(self.world.now + down, lambda: self.begin_again(rebooted))

    def begin_again(self, rebooted):
        if rebooted:
            self.boot, self.booted = self.boot + 1, self.world.now
        self.start()
