"""The package against others' programs: libcoap's client and server, and aiocoap, where they are there."""

import asyncio
import importlib.util
import pathlib
import shutil
import tempfile
import unittest

import knifesilver
from knifesilver import aio

from .around import LONGEST_WAIT_S, Program, free_port

COAP_CLIENT = shutil.which("coap-client-notls") or shutil.which("coap-client")
COAP_SERVER = shutil.which("coap-server-notls") or shutil.which("coap-server")
BIG = bytes(i * 7 % 251 for i in range(30_000))


async def said_by(*words):
    """What a program prints, while this loop goes on."""
    it = await asyncio.create_subprocess_exec(
        *(str(word) for word in words), stdout=asyncio.subprocess.PIPE, stderr=asyncio.subprocess.STDOUT
    )
    out, _ = await asyncio.wait_for(it.communicate(), LONGEST_WAIT_S * 2)
    return out.decode("utf-8", "replace")


@unittest.skipIf(COAP_CLIENT is None, "libcoap's client is not there (libcoap3-bin)")
class LibcoapsClient(unittest.IsolatedAsyncioTestCase):
    async def asyncSetUp(self):
        self.server = aio.Server(port=0)
        await self.server.open()
        self.addCleanup(self.server.close)
        self.at = f"coap://127.0.0.1:{self.server.address[1]}"

    async def asked(self, method, path, *words):
        return (await said_by(COAP_CLIENT, "-v", "0", "-m", method, *words, self.at + path)).strip()

    async def test_requests(self):
        applied = self.server.applied()
        self.server.set("temperature", b"22.3 C", 0)
        self.assertEqual(await self.asked("get", "/temperature"), "22.3 C")
        self.assertEqual(await self.asked("get", "/temperature", "-N"), "22.3 C")
        await self.asked("put", "/a/b", "-t", "0", "-e", "hello")
        self.assertEqual(self.server.get("a/b")[1:], (0, b"hello"))
        await self.asked("post", "/a/b", "-e", "!")
        await self.asked("delete", "/temperature")
        self.assertIsNone(self.server.get("temperature"))
        told = [(await applied.__anext__()) for _ in range(3)]
        self.assertEqual(
            [(it.method.name, it.path) for it in told],
            [("PUT", "/a/b"), ("POST", "/a/b"), ("DELETE", "/temperature")],
        )
        self.assertIn("4.04", await self.asked("get", "/nothing"))

    async def test_blocks(self):
        with tempfile.TemporaryDirectory() as room:
            big, got = pathlib.Path(room, "big"), pathlib.Path(room, "got")
            big.write_bytes(BIG)
            await self.asked("put", "/big", "-b", "512", "-f", big)
            self.assertEqual(self.server.get("big").body, BIG)
            await self.asked("get", "/big", "-b", "64", "-o", got)
            self.assertEqual(got.read_bytes(), BIG)

    async def test_observe(self):
        self.server.set("t", b"value 0\n")
        watching = asyncio.ensure_future(self.asked("get", "/t", "-s", "2"))
        number = 0
        while not watching.done():
            number += 1
            self.server.set("t", b"value %d\n" % number)
            await asyncio.wait([watching], timeout=0.2)
        values = watching.result().split("\n")
        self.assertGreater(len(values), 3)
        self.assertEqual(sorted(values, key=lambda it: int(it.split()[1])), values)


@unittest.skipIf(COAP_SERVER is None, "libcoap's server is not there (libcoap3-bin)")
class LibcoapsServer(unittest.IsolatedAsyncioTestCase):
    async def asyncSetUp(self):
        self.port = free_port()
        it = Program(self.port, COAP_SERVER, "-A", "127.0.0.1", "-p", self.port, "-d", "10", "-v", "0")
        it.__enter__()
        self.addCleanup(it.__exit__)
        self.client = aio.Client("127.0.0.1", self.port)
        await self.client.open()
        self.addCleanup(self.client.close)

    async def soon(self, it):
        return await asyncio.wait_for(it, LONGEST_WAIT_S)

    async def test_requests(self):
        self.assertRegex((await self.soon(self.client.get("time"))).text, r"^\w{3} \d\d ")
        self.assertEqual((await self.soon(self.client.get("async"))).text, "done")
        with self.assertRaises(knifesilver.NotFound):
            await self.soon(self.client.get("nothing"))
        await self.soon(self.client.put("lamp", b"on", format=0))
        self.assertEqual((await self.soon(self.client.get("lamp"))).text, "on")
        self.assertEqual(str(await self.soon(self.client.delete("lamp"))), "2.02")

    async def test_blocks(self):
        await self.soon(self.client.put("big", BIG))
        self.assertEqual((await self.soon(self.client.get("big"))).body, BIG)

    async def test_observe(self):
        values = self.client.observe("time")
        seen = [(await self.soon(values.__anext__())).text for _ in range(3)]
        self.assertEqual(len(seen), 3)
        await self.soon(values.cancel())


@unittest.skipIf(importlib.util.find_spec("aiocoap") is None, "aiocoap is not there, so it was not tried")
class Aiocoap(unittest.IsolatedAsyncioTestCase):
    async def test_its_client(self):
        import aiocoap

        async with aio.Server(port=0) as server:
            server.set("temperature", b"22.3 C", 0)
            context = await aiocoap.Context.create_client_context()
            at = f"coap://127.0.0.1:{server.address[1]}"
            got = await context.request(aiocoap.Message(code=aiocoap.GET, uri=f"{at}/temperature")).response
            self.assertEqual(got.payload, b"22.3 C")
            await context.request(aiocoap.Message(code=aiocoap.PUT, uri=f"{at}/big", payload=BIG)).response
            self.assertEqual(server.get("big").body, BIG)
            await context.shutdown()


if __name__ == "__main__":
    unittest.main()
