"""Names for peers: what is given, kept and lost, and both ends over peers that have no IPv4 address."""

import random
import unittest

from knifesilver import BadArgument, Client, Closed, Method, Names, Server
from knifesilver._header import numbers

from .around import CLIENT_AT

LIFETIME_MS = 247_000
KEY_ROOM = numbers["KS_KEY_ROOM"]


def table(places, **more):
    chance = random.Random(7)
    return Names(places, word=lambda: chance.getrandbits(64), **more)


class Tables(unittest.TestCase):
    def test_each_peer_has_a_name_of_its_own(self):
        with table(4) as names:
            one, two = names.fed(0, b"one"), names.fed(0, b"two")
            self.assertNotEqual(one, two)
            self.assertTrue(one[0].startswith("0.") and two[0].startswith("0."))
            self.assertEqual((names.fed(0, b"one"), names.of(b"two"), len(names)), (one, two, 2))
            self.assertEqual((names.key(one), names.sent(0, two)), (b"one", b"two"))

    def test_nobody(self):
        with table(4) as names:
            nobody = (names.key(CLIENT_AT), names.sent(0, CLIENT_AT), names.of(b"one"))
            self.assertEqual(nobody, (None, None, None))
            told = (names.hold(CLIENT_AT), names.release(0, CLIENT_AT), names.retire(CLIENT_AT))
            self.assertEqual(told, (False, False, False))

    def test_a_name_is_kept_after_the_last_datagram(self):
        with table(1) as names:
            one = names.fed(0, b"one")
            self.assertIsNone(names.fed(LIFETIME_MS, b"two"))
            self.assertEqual(names.sent(LIFETIME_MS, one), b"one")
            self.assertIsNone(names.fed(2 * LIFETIME_MS, b"two"))
            two = names.fed(2 * LIFETIME_MS + 1, b"two")
            self.assertNotEqual(two, one)
            self.assertEqual((names.key(one), names.key(two), len(names)), (None, b"two", 1))

    def test_a_name_is_held(self):
        with table(1) as names:
            one = names.fed(0, b"one")
            self.assertEqual((names.hold(one), names.hold(one)), (True, True))
            self.assertIsNone(names.fed(9 * LIFETIME_MS, b"two"))
            self.assertEqual((names.release(9 * LIFETIME_MS, one), names.release(9 * LIFETIME_MS, one)), (True, False))
            self.assertIsNone(names.fed(10 * LIFETIME_MS, b"two"))
            self.assertIsNotNone(names.fed(10 * LIFETIME_MS + 1, b"two"))

    def test_a_name_is_retired_and_not_given_again(self):
        with table(1) as names:
            given = []
            for _ in range(100):
                given.append(names.fed(0, b"one"))
                self.assertEqual((names.retire(given[-1]), names.retire(given[-1])), (True, False))
            self.assertEqual((len(set(given)), len(names)), (100, 0))

    def test_names_of_all_addresses(self):
        with table(1, this_network=False) as names:
            self.assertEqual(names.sent(0, names.fed(0, b"one")), b"one")

    def test_keys_and_places(self):
        with table(2) as names:
            longest = bytes(range(KEY_ROOM))
            self.assertEqual(names.key(names.fed(0, longest)), longest)
            self.assertEqual(names.key(names.fed(0, b"\0")), b"\0")
            for key in (b"", longest + b"x"):
                with self.assertRaises(BadArgument):
                    names.fed(0, key)
                with self.assertRaises(BadArgument):
                    names.of(key)
            with self.assertRaises(ValueError):
                names.key(("nowhere", 1))
        for places in (0, -1, 1_048_577, 2**32 + 1):
            with self.assertRaises(BadArgument):
                Names(places)

    def test_it_is_closed(self):
        names = table(1)
        names.close()
        names.close()
        for asked in (lambda: names.fed(0, b"one"), lambda: names.key(CLIENT_AT), lambda: len(names)):
            with self.assertRaises(Closed):
                asked()


class Ends(unittest.TestCase):
    """A server, and clients on radios, each of which names the server."""

    def setUp(self):
        self.names, self.server = table(8), Server()
        self.addCleanup(self.names.close)
        self.addCleanup(self.server.close)
        self.clients = {}
        for key in (b"radio 1", b"radio 2"):
            names = table(1)
            name = names.fed(0, b"server")
            names.hold(name)
            self.clients[key] = (Client(name), names)
            self.addCleanup(names.close)
            self.addCleanup(self.clients[key][0].close)

    def carry(self, now):
        for key, (client, names) in self.clients.items():
            client.tick(now)
            for datagram, name in iter(client.next_out, None):
                self.assertEqual(names.sent(now, name), b"server")
                named = self.names.fed(now, key)
                self.server.feed(now, named, datagram)
                if self.server.knows(now, named):
                    self.names.hold(named)
        self.server.tick(now)
        for datagram, name in iter(self.server.next_out, None):
            client, names = self.clients[self.names.sent(now, name)]
            client.feed(now, names.fed(now, b"server"), datagram)

    def test_each_is_answered_what_it_asked(self):
        self.server.set(0, "a", b"1")
        self.server.set(0, "b", b"2")
        for (client, _), path in zip(self.clients.values(), ("a", "b")):
            client.call(0, Method.GET, path)
        self.carry(0)
        told = [client.next_report().body for client, _ in self.clients.values()]
        self.assertEqual(told, [b"1", b"2"])

    def test_an_observer_keeps_its_name(self):
        self.server.set(0, "t", b"1")
        client, _ = self.clients[b"radio 1"]
        client.observe(0, "t")
        self.carry(0)
        self.assertEqual(client.next_report().body, b"1")
        later = 3 * LIFETIME_MS
        for number in range(20):
            self.names.fed(later, b"stranger %d" % number)
        self.server.set(later, "t", b"2")
        self.carry(later)
        self.assertEqual(client.next_report().body, b"2")


if __name__ == "__main__":
    unittest.main()
