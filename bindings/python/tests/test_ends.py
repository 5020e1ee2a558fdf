"""Both ends in one process, over no socket and with a clock that the tests hand in."""

import random
import unittest

import knifesilver
from knifesilver import (
    BadArgument,
    BadConfig,
    BadMessage,
    BadPath,
    Client,
    Closed,
    Code,
    Config,
    Method,
    QueueFull,
    Refused,
    ReportKind,
    Server,
    Would,
)
from knifesilver import errors, values
from knifesilver._header import header, numbers, spelled_version

from .around import CLIENT_AT, SERVER_AT, Pair


class Loads(unittest.TestCase):
    OBSERVE = bytes([0x41, 1, 0, 1, 9, 0x60, 0x51]) + b"t"

    def test_a_server_tells_how_much_it_has(self):
        with Server() as server:
            load = server.load(0)
            self.assertEqual((load.ids_left, load.changes_left, load.remembered_most), (65536, 4194303, 4096))
            server.set(0, "t", b"x")
            self.assertEqual(server.would(0, CLIENT_AT, self.OBSERVE), Would.TAKE)
            server.feed(0, CLIENT_AT, self.OBSERVE)
            self.assertEqual(server.would(0, CLIENT_AT, self.OBSERVE), Would.REPEAT)
            load = server.load(0)
            self.assertEqual((load.remembered, load.observers, load.paths, load.queued), (1, 1, 1, 1))
            self.assertEqual((server.knows(0, CLIENT_AT), server.knows(0, SERVER_AT)), (True, False))
            self.assertEqual((server.load(247000).remembered, server.load(247001).remembered), (1, 0))

    def test_a_notification_that_is_rejected_is_told(self):
        with Server() as server:
            server.set(0, "t", b"x")
            server.feed(0, CLIENT_AT, self.OBSERVE)
            server.next_out()
            server.set(0, "t", b"y")
            server.tick(0)
            self.assertEqual(server.ended(), [])
            sent, _ = server.next_out()
            server.feed(0, CLIENT_AT, bytes([0x70, 0]) + sent[2:4])
            self.assertEqual(server.ended(), [(CLIENT_AT, bytes([9]), True)])
            server.tick(0)
            self.assertEqual(server.ended(), [])

    def test_a_forgotten_peer_has_nothing_left_but_what_tells_repeats(self):
        with Server() as server:
            server.set(0, "t", b"x")
            for peer in (CLIENT_AT, SERVER_AT):
                server.feed(0, peer, self.OBSERVE)
                server.next_out()
            server.set(0, "t", b"y")
            server.tick(0)
            while server.next_out():
                pass
            self.assertEqual((server.forget(CLIENT_AT), server.knows(0, CLIENT_AT)), (True, False))
            self.assertEqual(server.ended(), [(CLIENT_AT, bytes([9]), True)])
            load = server.load(0)
            self.assertEqual((load.observers, load.outstanding, load.remembered), (1, 1, 2))
            self.assertEqual((server.forget(CLIENT_AT), server.knows(0, SERVER_AT)), (False, True))
            self.assertEqual(server.ended(), [])
            self.assertEqual(server.would(0, CLIENT_AT, self.OBSERVE), Would.REPEAT)
        with self.assertRaises(Closed):
            server.forget(CLIENT_AT)

    def test_a_client_tells_how_much_it_has(self):
        with Client(SERVER_AT) as client:
            client.observe(0, "t")
            self.assertEqual(client.load(0).waiting, 1)
            client.tick(0)
            load = client.load(0)
            self.assertEqual((load.waiting, load.outstanding, load.queued), (0, 1, 1))
            sent, _ = client.next_out()
            self.assertEqual(client.would(0, SERVER_AT, bytes([0x60, 0]) + sent[2:4]), Would.ACKNOWLEDGE)


class Requests(unittest.TestCase):
    def setUp(self):
        self.pair = Pair()
        self.addCleanup(self.pair.close)

    def asked(self, method, path, body=b"", **options):
        number = self.pair.client.call(self.pair.now, method, path, body, **options)
        report = self.pair.report()
        self.assertEqual(report.id, number)
        return report

    def test_get(self):
        self.assertEqual(self.pair.server.set(self.pair.now, "temperature", b"22.3 C", 0), 1)
        report = self.asked(Method.GET, "/temperature")
        self.assertEqual((report.kind, report.body, report.format), (ReportKind.BODY, b"22.3 C", 0))
        self.assertEqual(report.tag, (1).to_bytes(8, "big"))
        known = self.asked(Method.GET, "temperature", etags=[b"\xff", report.tag])
        self.assertEqual((known.kind, known.tag), (ReportKind.VALID, report.tag))

    def test_a_client_writes(self):
        self.assertEqual(str(self.asked(Method.PUT, "a/b", b"x", format=60).code), "2.01")
        self.assertEqual(str(self.asked(Method.PUT, "a/b", b"y").code), "2.04")
        self.assertEqual(str(self.asked(Method.POST, "a/b", b"z").code), "2.04")
        held = self.pair.server.get("a/b")
        self.assertEqual((held.version, held.body), (3, b"yz"))
        self.assertIn("/a/b", self.pair.server.paths())
        self.assertEqual(str(self.asked(Method.DELETE, "a/b").code), "2.02")
        self.assertIsNone(self.pair.server.get("a/b"))
        self.assertNotIn("/a/b", self.pair.server.paths())
        methods = [(it.method, it.path, it.version, it.source) for it in self.pair.applied]
        self.assertEqual(
            methods,
            [
                (Method.PUT, "/a/b", 1, CLIENT_AT),
                (Method.PUT, "/a/b", 2, CLIENT_AT),
                (Method.POST, "/a/b", 3, CLIENT_AT),
                (Method.DELETE, "/a/b", 4, CLIENT_AT),
            ],
        )
        self.assertEqual(
            [it.held for it in self.pair.applied], [(1, 60, b"x"), (2, None, b"y"), (3, None, b"yz"), None]
        )

    def test_conditions(self):
        self.asked(Method.PUT, "a", b"1")
        late = self.asked(Method.PUT, "a", b"2", if_none_match=True)
        self.assertEqual((late.kind, str(late.code)), (ReportKind.FAILED, "4.12"))
        self.assertEqual(
            self.asked(Method.PUT, "a", b"2", if_match=[(1).to_bytes(8, "big")]).kind, ReportKind.SUCCESS
        )
        self.assertEqual(self.asked(Method.PUT, "a", b"3", if_match=[(1).to_bytes(8, "big")]).kind, ReportKind.FAILED)

    def test_blocks(self):
        body = bytes(i * 7 % 251 for i in range(30_000))
        self.assertEqual(self.asked(Method.PUT, "big", body).kind, ReportKind.SUCCESS)
        self.assertEqual(self.pair.server.get("big").body, body)
        self.assertEqual(self.asked(Method.GET, "big").body, body)

    def test_observe(self):
        server, client = self.pair.server, self.pair.client
        server.set(self.pair.now, "t", b"1")
        number = client.observe(self.pair.now, "t")
        seen = [self.pair.report()]
        server.set(self.pair.now, "t", b"2")
        seen.append(self.pair.report())
        self.assertEqual(
            [(it.id, it.kind, it.body) for it in seen],
            [(number, ReportKind.VALUE, b"1"), (number, ReportKind.VALUE, b"2")],
        )
        self.assertLess(seen[0].sequence, seen[1].sequence)
        client.cancel(self.pair.now, number)
        self.assertEqual(self.pair.report().kind, ReportKind.CANCELLED)
        self.assertFalse(client.forget(number))
        again = client.observe(self.pair.now, "t")
        self.pair.report()
        server.remove(self.pair.now, "t")
        last = self.pair.report()
        self.assertEqual((last.id, last.kind, str(last.code)), (again, ReportKind.ENDED, "4.04"))

    def test_update_changes_what_differs(self):
        now, server = self.pair.now, self.pair.server
        self.assertEqual(server.update(now, "t", b"1"), (1, True))
        self.assertEqual(server.update(now, "t", b"1"), (1, False))
        self.assertEqual(server.update(now, "t", b"1", 0), (2, True))
        self.assertEqual((server.remove(now, "t"), server.remove(now, "t")), (True, False))

    def test_a_delay(self):
        self.pair.server.set_delay("slow", 2000)
        began = self.pair.now
        self.assertEqual(self.asked(Method.PUT, "slow", b"1").kind, ReportKind.SUCCESS)
        self.assertGreaterEqual(self.pair.now - began, 2000)

    def test_no_server(self):
        self.pair.lost = lambda: True
        began = self.pair.now
        self.assertEqual(self.asked(Method.GET, "t").kind, ReportKind.TIMEOUT)
        self.assertLessEqual(self.pair.now - began, 93_000)
        self.assertGreaterEqual(self.pair.now - began, 62_000)

    def test_each_success_was_applied_once(self):
        chance = random.Random(1)
        self.pair.lost = lambda: chance.random() < 0.3
        reports = {}
        for number in range(200):
            reports[number] = self.asked(Method.PUT, f"{number}", b"x").kind
        times = [sum(it.path == f"/{number}" for it in self.pair.applied) for number in range(200)]
        for number, kind in reports.items():
            self.assertIn(times[number], (1,) if kind is ReportKind.SUCCESS else (0, 1))
        self.assertGreater(list(reports.values()).count(ReportKind.SUCCESS), 150)


class Refusals(unittest.TestCase):
    def refused(self, name, call, *words, **options):
        with self.assertRaises(Refused) as why:
            call(*words, **options)
        self.assertEqual((why.exception.name, why.exception.number), (name, numbers[name]))
        self.assertTrue(str(why.exception).startswith(f"{name}: "), str(why.exception))
        return why.exception

    def test_by_a_code(self):
        put = bytes.fromhex("4103000109b174ff78")
        with Server() as server:
            why = self.refused("KS_BAD_ARGUMENT", server.refuse, 0, ("127.0.0.1", 9), put, 0x45)
            self.assertIsInstance(why, BadArgument)
            self.assertIsNone(server.next_out())
            server.refuse(0, ("127.0.0.1", 9), put, Code.of(4, 3))
            self.assertEqual(server.next_out(), (bytes.fromhex("6183000109"), ("127.0.0.1", 9)))
            self.assertIsNone(server.get("t"))

    def test_of_a_server(self):
        with Server(Config(body_limit=10, changes=300)) as server:
            self.refused("KS_SET_TOO_LARGE", server.set, 0, "a", b"01234567890")
            self.assertIsInstance(self.refused("KS_BAD_PATH", server.set, 0, "/" * 40, b""), BadPath)
            for number in range(256):
                server.set(0, f"{number}", b"")
            self.refused("KS_SET_TOO_MANY_PATHS", server.set, 0, "another", b"")
            for number in range(256, 300):
                server.set(0, "0", b"")
            self.refused("KS_SET_RATE_EXCEEDED", server.update, 0, "0", b"x")
            self.refused("KS_SET_RATE_EXCEEDED", server.remove, 0, "0")
        with Server() as server:
            for number in range(16):
                server.set_delay(f"{number}", 5)
                server.set_plain(f"{number}")
            self.refused("KS_DELAY_FULL", server.set_delay, "another", 5)
            self.refused("KS_PLAIN_FULL", server.set_plain, "another")

    def test_of_a_client(self):
        with Client(SERVER_AT) as client:
            self.assertIsInstance(self.refused("KS_CALL_BAD_PATH", client.call, 0, Method.GET, "x" * 200), BadPath)
            for etags in ([b""], [b"123456789"], [b"1"] * 5):
                self.assertIsInstance(
                    self.refused("KS_BAD_ARGUMENT", client.call, 0, Method.GET, "a", etags=etags), BadArgument
                )
            self.refused("KS_CALL_BODY_TOO_LARGE", client.call, 0, Method.PUT, "a", bytes(65_537))
            self.refused("KS_CANCEL_UNKNOWN", client.cancel, 0, 77)
            for _ in range(8):
                client.call(0, Method.GET, "a")
            self.assertIsInstance(self.refused("KS_CALL_QUEUE_FULL", client.observe, 0, "a"), QueueFull)

    def test_of_a_configuration(self):
        wrong = {"block_size": 17, "body_limit": 1_048_577, "remembered": 1_048_577, "changes": 4_194_304, "base": 1}
        for field, number in wrong.items():
            why = self.refused(f"KS_BAD_{field.upper()}", Server, Config(**{field: number}))
            self.assertIsInstance(why, BadConfig)
        with self.assertRaises(ValueError):
            Server(Config(changes=-1))

    def test_a_closed_end(self):
        server = Server()
        server.close()
        server.close()
        for call in (lambda: server.set(0, "a", b""), lambda: server.get("a"), server.due, lambda: server.tick(0)):
            self.assertRaises(Closed, call)

    def test_what_is_no_argument(self):
        with Server() as server, Client(SERVER_AT) as client:
            for wrong in (("::1", 5), ("127.0.0.1", 65_536), ("127.0.0", 5), ("127.0.0.256", 5), ("host", 5)):
                self.assertRaises(ValueError, server.feed, 0, wrong, b"")
            self.assertRaises(ValueError, server.set, 0, "a", b"", 65_536)
            self.assertRaises(TypeError, server.set, 0, "a", "text")
            self.assertRaises(ValueError, client.call, 0, Method.GET, "a", accept=-5)

    def test_a_moment_before_the_last_counts_as_the_last(self):
        with Client(SERVER_AT) as client:
            client.call(5000, Method.GET, "a")
            client.tick(5000)
            client.tick(-1)
            client.tick(2**70)


class Numbers(unittest.TestCase):
    def test_each_kind_of_report_has_a_name(self):
        names = {number: name[len("KS_") :] for number, name in header.enums["ks_report_kind"].items()}
        self.assertEqual({it.value: it.name for it in ReportKind}, names)

    def test_each_method_has_a_name(self):
        names = {number: name[len("KS_") :] for number, name in header.enums["ks_method"].items()}
        self.assertEqual({it.value: it.name for it in Method}, names)

    def test_each_report_is_a_success_or_raises(self):
        kinds = {it: type(errors.unsuccessful(it, Code.of(4, 4))).__name__ for it in ReportKind}
        for kind in ReportKind:
            if kind in (
                ReportKind.BODY,
                ReportKind.VALID,
                ReportKind.SUCCESS,
                ReportKind.VALUE,
                ReportKind.ENDED,
                ReportKind.CANCELLED,
            ):
                self.assertEqual(kinds[kind], "NoneType")
            elif kind is ReportKind.FAILED:
                self.assertEqual(kinds[kind], "NotFound")
            else:
                self.assertTrue(issubclass(getattr(knifesilver, kinds[kind]), knifesilver.PerhapsApplied))
        self.assertEqual(kinds[ReportKind.TIMEOUT], "TimedOut")

    def test_codes(self):
        # Of RFC 7252, section 12.1.2; RFC 7959, section 2.9; RFC 8132, section 3.4.
        texts = {
            (4, 0): "BadRequest",
            (4, 4): "NotFound",
            (4, 8): "Incomplete",
            (4, 9): "Conflict",
            (4, 12): "PreconditionFailed",
            (4, 13): "RequestTooLarge",
            (4, 15): "UnsupportedContentFormat",
            (5, 3): "ServiceUnavailable",
            (5, 7): "Failed",
        }
        for (kind, detail), name in texts.items():
            error = errors.failed(Code.of(kind, detail))
            self.assertEqual((type(error).__name__, str(error)), (name, f"{kind}.{detail:02d}"))
        self.assertEqual((Code.of(2, 5), str(Code(0x45)), repr(Code(0xFF))), (0x45, "2.05", "Code(7.31)"))

    def test_all_structs_and_calls_are_read(self):
        self.assertLessEqual({"ks_server_new", "ks_client_call", "ks_peek", "ks_version"}, set(header.calls))
        self.assertEqual(spelled_version(10203), "1.2.3")
        self.assertEqual(knifesilver.version(), header.version())


class Peek(unittest.TestCase):
    def test_a_request(self):
        # RFC 7252, appendix A: a Confirmable GET of /temperature, Message ID 0x7d34.
        shown = knifesilver.peek(bytes.fromhex("40017d34bb74656d7065726174757265"))
        self.assertEqual(
            (shown.kind, shown.code, shown.id, shown.token, shown.path), (0, Method.GET, 0x7D34, b"", "/temperature")
        )

    def test_faults(self):
        for text, name in (
            ("4001", "KS_FAULT_SHORT"),
            ("00017d34", "KS_FAULT_VERSION"),
            ("49017d34", "KS_FAULT_TOKEN_LENGTH"),
        ):
            with self.assertRaises(BadMessage) as why:
                knifesilver.peek(bytes.fromhex(text))
            self.assertEqual((why.exception.name, why.exception.number), (name, numbers[name]))

    def test_any_bytes(self):
        chance = random.Random(3)
        for _ in range(20_000):
            datagram = bytes(chance.getrandbits(8) for _ in range(chance.randrange(40)))
            try:
                knifesilver.peek(datagram)
            except BadMessage as why:
                self.assertLessEqual(why.at, len(datagram))


class Paths(unittest.TestCase):
    def test_there_and_back(self):
        for segments in ([], ["a"], ["a", "b c", "ü"], ["", "a", ""]):
            self.assertEqual(values.segments_of(values.path_of(segments)), segments)

    def test_a_slash_in_a_segment(self):
        if numbers["KS_VERSION"] < values._ESCAPES_SINCE:
            self.assertRaises(ValueError, values.path_of, ["a/b"])
        else:
            self.assertEqual(values.path_of(["a/b", "5%"]), "/a%2Fb/5%25")
            self.assertEqual(values.segments_of("/a%2fb/5%25"), ["a/b", "5%"])

    def test_as_a_uri_has_it(self):
        self.assertEqual(values.uri_path("a b/c"), "/a%20b/c")


if __name__ == "__main__":
    unittest.main()
