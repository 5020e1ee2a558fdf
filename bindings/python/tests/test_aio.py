"""The client and the server over sockets of 127.0.0.1, in one event loop."""

import asyncio
import gc
import logging
import unittest

import knifesilver
from knifesilver import Closed, Config, Method, aio

from knifesilver._header import header

from .around import JumpingLoop, free_port

PATIENCE_S = 60


class Loopback(unittest.IsolatedAsyncioTestCase):
    async def asyncSetUp(self):
        self.server = aio.Server(port=0)
        await self.server.open()
        self.addCleanup(self.server.close)
        self.client = aio.Client(*self.server.address)
        await self.client.open()
        self.addCleanup(self.client.close)

    async def soon(self, it):
        return await asyncio.wait_for(it, PATIENCE_S)

    async def test_requests(self):
        self.server.set("temperature", b"22.3 C", 0)
        got = await self.soon(self.client.get("temperature"))
        self.assertEqual((got.text, got.format, got.valid), ("22.3 C", 0, False))
        known = await self.soon(self.client.get("temperature", etags=[got.tag]))
        self.assertEqual((known.body, known.tag, known.valid), (b"", got.tag, True))
        self.assertEqual(str(await self.soon(self.client.put("a", b"x"))), "2.01")
        self.assertEqual(str(await self.soon(self.client.post("a", b"y"))), "2.04")
        self.assertEqual(self.server.get("a").body, b"xy")
        self.assertEqual(str(await self.soon(self.client.delete("a"))), "2.02")
        big = bytes(range(250)) * 200
        await self.soon(self.client.put("big", big, format=42))
        self.assertEqual((await self.soon(self.client.get("big"))).body, big)

    async def test_errors(self):
        with self.assertRaises(knifesilver.NotFound) as why:
            await self.soon(self.client.get("nothing"))
        self.assertIsInstance(why.exception, knifesilver.Failed)
        self.assertEqual(str(why.exception), "4.04")
        await self.soon(self.client.put("a", b"x", if_none_match=True))
        with self.assertRaises(knifesilver.PreconditionFailed):
            await self.soon(self.client.put("a", b"x", if_none_match=True))
        with self.assertRaises(knifesilver.NotAcceptable):
            await self.soon(self.client.put("b", b"x", format=0))
            await self.soon(self.client.get("b", accept=50))
        with self.assertRaises(knifesilver.RequestTooLarge):
            async with aio.Client(*self.server.address, config=Config(body_limit=1_000_000)) as client:
                await self.soon(client.put("a", bytes(70_000)))
        with self.assertRaises(knifesilver.BadPath):
            await self.soon(self.client.get("/" * 40))

    async def test_a_thousand_calls_at_once(self):
        self.server.set("t", b"1")
        calls = [self.client.get("t") if i % 2 else self.client.put("t", b"%d" % i) for i in range(1000)]
        done = await self.soon(asyncio.gather(*calls))
        # In order: each GET has what the PUT before it had.
        self.assertEqual([it.text for it in done[1::2]], [str(i) for i in range(0, 1000, 2)])

    async def test_observe(self):
        self.server.set("t", b"1")
        values = self.client.observe("t")
        self.assertEqual((await self.soon(values.__anext__())).text, "1")
        self.server.set("t", b"2")
        self.assertEqual((await self.soon(values.__anext__())).text, "2")
        await self.soon(values.cancel())
        self.assertEqual([it async for it in values], [])

    async def test_observe_what_is_not_there(self):
        with self.assertRaises(knifesilver.NotFound):
            await self.soon(self.client.observe("nothing").__anext__())

    async def test_observe_what_goes(self):
        self.server.set("t", b"1")
        with self.assertRaises(knifesilver.NotFound):
            async for _ in self.client.observe("t"):
                self.server.remove("t")

    async def test_the_newest_values_wait(self):
        self.server.set("t", b"0")
        values = self.client.observe("t", most=3)
        for number in range(1, 20):
            await self.soon(self.client.put("t", b"%d" % number))
        # (the last notification may come after the last answer)
        async with aio.Client(*self.server.address) as other:
            while "19" not in [it.text for it in values._stream.values]:
                await self.soon(other.get("t"))
        self.assertEqual([(await self.soon(values.__anext__())).text for _ in range(3)], ["17", "18", "19"])

    async def test_a_cancelled_task_forgets_its_observation(self):
        self.server.set("t", b"1")
        first = asyncio.Event()

        async def watch():
            async for _ in self.client.observe("t"):
                first.set()

        task = asyncio.ensure_future(watch())
        await self.soon(first.wait())
        task.cancel()
        with self.assertRaises(asyncio.CancelledError):
            await task
        self.assertEqual(self.client._streams, {})

    async def test_an_observation_that_is_left_is_forgotten(self):
        self.server.set("t", b"1")
        async for _ in self.client.observe("t"):
            break
        gc.collect()
        await self.soon(self.client.get("t"))
        self.assertEqual(self.client._streams, {})

    async def test_a_cancelled_call_may_be_applied(self):
        applied = self.server.applied()
        task = asyncio.ensure_future(self.client.put("lamp", b"on"))
        await asyncio.sleep(0)
        task.cancel()
        with self.assertRaises(asyncio.CancelledError):
            await task
        self.assertEqual((await self.soon(applied.__anext__())).path, "/lamp")
        self.assertEqual((await self.soon(self.client.get("lamp"))).text, "on")

    async def test_a_cancelled_call_that_waits_is_not_sent(self):
        calls = [asyncio.ensure_future(self.client.put("t", b"%d" % i)) for i in range(20)]
        await asyncio.sleep(0)
        calls[-1].cancel()
        await self.soon(asyncio.gather(*calls[:-1]))
        self.assertEqual((await self.soon(self.client.get("t"))).text, "18")

    async def test_what_was_applied(self):
        applied = self.server.applied()
        for number in range(3):
            await self.soon(self.client.put(f"lamp/{number}", b"on"))
        told = [await self.soon(applied.__anext__()) for _ in range(3)]
        self.assertEqual([it.path for it in told], ["/lamp/0", "/lamp/1", "/lamp/2"])
        self.assertEqual([it.version for it in told], [1, 2, 3])
        self.assertTrue(all(it.held == (it.version, None, b"on") for it in told))
        self.assertTrue(all(it.method is Method.PUT and it.source == self.client.address for it in told))
        self.server.close()
        self.assertEqual([it async for it in applied], [])

    @unittest.skipIf("ks_server_refuse" not in header.calls, "this library has no ks_server_refuse")
    async def test_who_may_not(self):
        def may(source, message):
            return message.code == Method.GET or message.path.startswith("/open")

        async with aio.Server(port=0, may=may) as server, aio.Client(*server.address) as client:
            server.set("shut", b"1")
            self.assertEqual((await self.soon(client.get("shut"))).text, "1")
            await self.soon(client.put("open/a", b"2"))
            with self.assertRaises(knifesilver.MethodNotAllowed):
                await self.soon(client.put("shut", b"2"))
            self.assertEqual(server.get("shut").body, b"1")

    async def test_a_server_closes_while_it_is_iterated(self):
        async def all_of(it):
            return [each async for each in it]

        task = asyncio.ensure_future(all_of(self.server.applied()))
        await asyncio.sleep(0)
        self.server.close()
        self.assertEqual(await self.soon(task), [])

    async def test_what_waits_is_told_when_the_client_is_closed(self):
        async with aio.Client("127.0.0.1", free_port()) as client:
            calls = [asyncio.ensure_future(client.get("t")) for _ in range(20)]
            values = client.observe("t")
            await asyncio.sleep(0)
        done = await self.soon(asyncio.gather(*calls, return_exceptions=True))
        self.assertTrue(all(isinstance(it, Closed) for it in done), done)
        with self.assertRaises(Closed):
            await self.soon(values.__anext__())
        with self.assertRaises(Closed):
            await client.get("t")

    async def test_two_observations_and_calls_between(self):
        self.server.set("a", b"0")
        self.server.set("b", b"0")
        seen = {"a": [], "b": []}

        async def watch(path):
            async for value in self.client.observe(path):
                seen[path].append(value.text)
                if value.text == "9":
                    return

        tasks = [asyncio.ensure_future(watch(path)) for path in seen]
        while not all(seen.values()):
            await asyncio.sleep(0.001)
        for number in range(1, 10):
            for path in seen:
                await self.soon(self.client.put(path, b"%d" % number))
        await self.soon(asyncio.gather(*tasks))
        for path, texts in seen.items():
            self.assertEqual((texts, texts[-1]), (sorted(texts), "9"))


class FullQueue(unittest.TestCase):
    def test_what_nobody_takes_is_not_lost(self):
        """While the queue is full the server drops what arrives, and the client sends it again."""

        async def run():
            async with aio.Server(port=0) as server, aio.Client(*server.address) as client:
                server.set("log", b"")
                applied, told = server.applied(most=2), []
                calls = asyncio.ensure_future(asyncio.gather(*(client.post("log", b"%d" % i) for i in range(6))))
                while server.dropped < 2:
                    await asyncio.sleep(1)
                while len(told) < 6:
                    told.append((await applied.__anext__()).version)
                await calls
                return told, server.get("log").body

        told, body = _jumping(run())
        self.assertEqual((told, body), ([2, 3, 4, 5, 6, 7], b"012345"))


class DeadPort(unittest.TestCase):
    def test_it_times_out(self):
        port = free_port()

        async def run():
            loop = asyncio.get_running_loop()
            async with aio.Client("127.0.0.1", port) as client:
                began = loop.time()
                with self.assertRaises(knifesilver.TimedOut) as why:
                    await client.get("t")
                self.assertIsInstance(why.exception, knifesilver.PerhapsApplied)
                self.assertIsInstance(why.exception, TimeoutError)
                return loop.time() - began

        with self.assertLogs("knifesilver", logging.WARNING) as said:
            self.assertTrue(62 <= _jumping(run()) <= 93.1)
        self.assertEqual(len(said.output), 1)
        self.assertIn(f"127.0.0.1:{port}", said.output[0])


def _jumping(it):
    loop = JumpingLoop()
    try:
        return loop.run_until_complete(it)
    finally:
        loop.close()


if __name__ == "__main__":
    unittest.main()
