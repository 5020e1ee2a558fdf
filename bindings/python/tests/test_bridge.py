"""The bridge to MQTT, over Debian's broker (mosquitto), which is stopped and started again while devices write."""

import asyncio
import importlib.util
import json
import os
import pathlib
import shutil
import socket
import subprocess
import sys
import tempfile
import time
import unittest

from knifesilver import aio

from .around import PACKAGE, await_bound, free_port

BRIDGE = PACKAGE.parent / "examples" / "python" / "mqtt_bridge.py"
MOSQUITTO = shutil.which("mosquitto") or shutil.which("mosquitto", path="/usr/sbin")
PATIENCE_S = 60
KEEPALIVE_S = 60
QOS = 1


def free_tcp_port():
    with socket.socket() as it:
        it.bind(("127.0.0.1", 0))
        return it.getsockname()[1]


class Broker:
    """mosquitto at a port, with a folder for what it keeps."""

    def __init__(self, folder):
        self.port, self._config = free_tcp_port(), pathlib.Path(folder, "mosquitto.conf")
        self._config.write_text(
            f"listener {self.port} 127.0.0.1\nallow_anonymous true\npersistence true\npersistence_location {folder}/\n"
            "max_queued_messages 0\nautosave_on_changes true\nautosave_interval 1\n"
        )
        if os.getuid() == 0:
            self._config.write_text(self._config.read_text() + "user root\n")

    def start(self):
        self._running = subprocess.Popen(
            [MOSQUITTO, "-c", self._config], stdout=subprocess.DEVNULL, stderr=subprocess.DEVNULL
        )
        until = time.monotonic() + PATIENCE_S
        while time.monotonic() < until:
            with socket.socket() as it:
                if it.connect_ex(("127.0.0.1", self.port)) == 0:
                    return
            time.sleep(0.01)
        raise AssertionError("the broker does not start")

    def stop(self):
        self._running.terminate()
        self._running.wait()

    def kill(self):
        self._running.kill()
        self._running.wait()


class Consumer:
    """Reads changes, with a session that the broker keeps, and drops repeats by run and version."""

    def __init__(self, broker):
        import paho.mqtt.client as mqtt

        self.changes, self.repeats, self.ready = {}, 0, asyncio.Event()
        loop = asyncio.get_running_loop()
        self.client = mqtt.Client(client_id="consumer", clean_session=False)
        self.client.on_connect = lambda client, *_: client.subscribe("gateway/changes/#", QOS)
        self.client.on_subscribe = lambda *_: loop.call_soon_threadsafe(self.ready.set)
        self.client.on_message = lambda _client, _user, message: loop.call_soon_threadsafe(self._arrived, message)
        self.client.reconnect_delay_set(min_delay=1, max_delay=1)
        self.client.connect_async("127.0.0.1", broker.port, KEEPALIVE_S)
        self.client.loop_start()

    def _arrived(self, message):
        told = json.loads(message.payload)
        key = told["run"], told["version"]
        self.repeats += key in self.changes
        assert self.changes.setdefault(key, told) == told, "one version of two changes"

    def close(self):
        self.client.disconnect()
        self.client.loop_stop()


async def until(holds):
    """Waits until that holds."""

    async def poll():
        while not holds():
            await asyncio.sleep(0.01)

    await asyncio.wait_for(poll(), PATIENCE_S)


@unittest.skipIf(MOSQUITTO is None, "there is no mosquitto")
@unittest.skipIf(importlib.util.find_spec("paho") is None, "there is no python3-paho-mqtt")
class Bridge(unittest.IsolatedAsyncioTestCase):
    async def asyncSetUp(self):
        room = tempfile.TemporaryDirectory()
        self.addCleanup(room.cleanup)
        self.broker = Broker(room.name)
        self.broker.start()
        self.addCleanup(self.broker.stop)
        self.port = free_port()

    async def begin(self, *words):
        environment = {**os.environ, "PYTHONPATH": str(PACKAGE)}
        words = [sys.executable, BRIDGE, "--port", self.port, "--broker", f"127.0.0.1:{self.broker.port}", *words]
        running = subprocess.Popen([str(it) for it in words], env=environment, stderr=subprocess.DEVNULL)
        self.addCleanup(running.wait)
        self.addCleanup(running.terminate)
        await asyncio.get_running_loop().run_in_executor(None, await_bound, self.port)
        self.consumer = Consumer(self.broker)
        self.addCleanup(self.consumer.close)
        await asyncio.wait_for(self.consumer.ready.wait(), PATIENCE_S)

    def bodies(self):
        """What the consumer was told, in order of the versions, which have no gap."""
        ordered = sorted(self.consumer.changes.values(), key=lambda it: it["version"])
        before = ordered[0]["version"] - 1 if ordered else 0
        self.assertEqual([it["version"] - before for it in ordered], list(range(1, len(ordered) + 1)))
        return [it["body"] and bytes.fromhex(it["body"]).decode() for it in ordered]

    async def test_no_change_is_lost_where_the_broker_goes_and_comes(self):
        await self.begin()
        async with aio.Client("127.0.0.1", self.port) as device:
            for number in range(300):
                if number in (50, 250):
                    self.broker.stop()
                if number == 150:
                    self.broker.kill()
                if number in (100, 200, 299):
                    self.broker.start()
                await asyncio.wait_for(device.put("sensor/1", b"%d" % number), PATIENCE_S)
            await device.delete("sensor/1")
        await until(lambda: len(self.consumer.changes) == 301)
        self.assertEqual(self.bodies(), [str(number) for number in range(300)] + [None])

    async def test_a_full_queue_has_devices_wait(self):
        await self.begin("--room", "4")
        async with aio.Client("127.0.0.1", self.port) as device:
            await asyncio.wait_for(device.put("sensor/1", b"first"), PATIENCE_S)
            await until(lambda: len(self.consumer.changes) == 1)
            self.broker.stop()
            calls = [asyncio.ensure_future(device.put("sensor/1", b"%d" % number)) for number in range(8)]
            # One is on its way to the broker, and four wait behind it.
            await until(lambda: sum(it.done() for it in calls) >= 5)
            await asyncio.wait([calls[5]], timeout=1)
            self.assertFalse(calls[5].done())
            self.broker.start()
            await asyncio.wait_for(asyncio.gather(*calls), PATIENCE_S)
        await until(lambda: len(self.consumer.changes) == 9)
        self.assertEqual(self.bodies(), ["first", *(str(number) for number in range(8))])

    async def test_commands_are_observed(self):
        await self.begin()
        async with aio.Client("127.0.0.1", self.port) as device:
            await asyncio.wait_for(device.put("lamp", b"off"), PATIENCE_S)
            # (so the bridge has a session at the broker)
            await until(lambda: len(self.consumer.changes) == 1)
            values = device.observe("lamp")
            self.assertEqual((await asyncio.wait_for(values.__anext__(), PATIENCE_S)).text, "off")
            self.consumer.client.publish("gateway/commands/lamp", "on", QOS)
            self.assertEqual((await asyncio.wait_for(values.__anext__(), PATIENCE_S)).text, "on")
        self.assertEqual(self.bodies(), ["off"])


if __name__ == "__main__":
    unittest.main()
