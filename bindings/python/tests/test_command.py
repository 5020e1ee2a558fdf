"""python3 -m knifesilver, against a server of this package."""

import asyncio
import os
import sys
import threading
import unittest

from knifesilver import aio
from knifesilver.__main__ import target

from .around import PACKAGE, finished

FAILED, WRONG_WORDS, NOBODY_KNOWS = 1, 2, 3


class Command(unittest.TestCase):
    """The server runs in a thread of its own."""

    def setUp(self):
        ready = threading.Event()

        async def serve():
            async with aio.Server(port=0) as server:
                server.set("temperature", b"22.3 C", 0)
                server.set("ü b", b"named")
                self.port, self.stop, self.loop = server.address[1], asyncio.Event(), asyncio.get_running_loop()
                ready.set()
                await self.stop.wait()

        thread = threading.Thread(target=lambda: asyncio.run(serve()))
        thread.start()
        ready.wait()
        self.addCleanup(thread.join)
        self.addCleanup(lambda: self.loop.call_soon_threadsafe(self.stop.set))

    def ran(self, *words, **more):
        environment = {**os.environ, "PYTHONPATH": str(PACKAGE)}
        words = [it.replace("HERE", f"coap://127.0.0.1:{self.port}") for it in words]
        it = finished(sys.executable, "-m", "knifesilver", *words, env=environment, **more)
        return it.returncode, it.stdout, it.stderr.decode()

    def test_get(self):
        self.assertEqual(self.ran("get", "HERE/temperature"), (0, b"22.3 C", ""))
        self.assertEqual(self.ran("get", "HERE/%C3%BC%20b"), (0, b"named", ""))

    def test_put_post_delete(self):
        self.assertEqual(self.ran("put", "HERE/lamp", "on", "--format", "0"), (0, b"", "2.01\n"))
        self.assertEqual(self.ran("post", "HERE/lamp", input=b"ce"), (0, b"", "2.04\n"))
        self.assertEqual(self.ran("get", "HERE/lamp")[:2], (0, b"once"))
        self.assertEqual(self.ran("delete", "HERE/lamp"), (0, b"", "2.02\n"))

    def test_observe(self):
        self.assertEqual(self.ran("observe", "HERE/temperature", "--count", "1"), (0, b"22.3 C\n", ""))

    def test_what_fails(self):
        self.assertEqual(self.ran("get", "HERE/nothing"), (FAILED, b"", "knifesilver: NotFound: 4.04\n"))
        self.assertEqual(self.ran("observe", "HERE/nothing"), (FAILED, b"", "knifesilver: NotFound: 4.04\n"))
        for uri in ("http://127.0.0.1/a", "coap:///a", "coap://127.0.0.1/a?b", "coap://127.0.0.1/a#b", "temperature"):
            self.assertEqual(self.ran("get", uri)[0], WRONG_WORDS, uri)
        self.assertEqual(self.ran()[0], WRONG_WORDS)

    def test_targets(self):
        self.assertEqual(target("coap://h"), ("h", 5683, "/"))
        self.assertEqual(target("coap://h/"), ("h", 5683, "/"))
        self.assertEqual(target("coap://h:99/a/b%20c"), ("h", 99, "/a/b c"))


if __name__ == "__main__":
    unittest.main()
