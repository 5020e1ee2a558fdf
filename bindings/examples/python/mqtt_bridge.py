#!/usr/bin/env python3
"""mqtt_bridge.py: a gateway whose changes go to a broker of MQTT, and whose commands come from there.

    python3 mqtt_bridge.py [--port 5683] [--broker 127.0.0.1:1883] [--name gateway] [--room 1000]

What devices write at coap://127.0.0.1:PORT/PATH is published to NAME/changes/PATH, as JSON:

    {"run": "4f..", "version": 7, "method": "PUT", "path": "/lamp", "format": 0, "body": "6f6e"}

`body` is in hexadecimal, null where the path holds nothing any more. The broker may deliver a message twice: a
consumer drops each whose run and version it had. A run is one life of this program; versions rise in it.

What the broker has at NAME/commands/PATH is set at the path, and who observes it hears it.

Changes go one at a time, each when the broker has acknowledged the one before (QoS 1). While the broker is away they
wait: at most --room of them. Then the server drops what arrives. Nothing is applied that could not be published, and
who writes sends again, and gives up after 62 to 93 s. The broker keeps what it acknowledged where its configuration
says `persistence true`, and nearly at once where it says `autosave_on_changes true` and `autosave_interval 1`, too.

What waits in this program is gone with it: it was applied here, and nobody publishes it."""

import argparse
import asyncio
import json
import logging
import secrets
import sys

import paho.mqtt.client as mqtt
from knifesilver import Config, Refused, drawn_base
from knifesilver.aio import PORT, Server

QOS = 1
KEEPALIVE_S = 30
MQTT_PORT = 1883
LONGEST_RECONNECT_S = 2


class Broker:
    """The connection to the broker, which paho's thread keeps, and comes back to by itself."""

    def __init__(self, name, host, port, on_command):
        self._loop, self._on_command, self._commands = asyncio.get_running_loop(), on_command, f"{name}/commands/"
        self._acknowledged = {}
        # (a session that is not clean: the broker keeps commands for it while it is away)
        self._client = mqtt.Client(client_id=name, clean_session=False)
        self._client.on_connect, self._client.on_disconnect = self._connected, self._disconnected
        self._client.on_message, self._client.on_publish = self._arrived, self._published
        self._client.reconnect_delay_set(min_delay=1, max_delay=LONGEST_RECONNECT_S)
        self._client.connect_async(host, port, KEEPALIVE_S)
        self._client.loop_start()

    # ---- In paho's thread ----

    def _connected(self, client, _user, _flags, status):
        logging.info("the broker is there" if status == 0 else f"the broker refuses: {mqtt.connack_string(status)}")
        client.subscribe(self._commands + "#", QOS)

    def _disconnected(self, _client, _user, status):
        if status != 0:
            logging.info("the broker is away")

    def _arrived(self, _client, _user, message):
        self._loop.call_soon_threadsafe(self._on_command, message.topic[len(self._commands) :], message.payload)

    def _published(self, _client, _user, number):
        self._loop.call_soon_threadsafe(self._told, number)

    # ---- In the loop's ----

    def _told(self, number):
        self._acknowledged.setdefault(number, self._loop.create_future()).set_result(None)

    async def publish(self, topic, message):
        """Publishes it, and waits until the broker has acknowledged it."""
        number = self._client.publish(topic, message, QOS).mid
        await self._acknowledged.setdefault(number, self._loop.create_future())
        del self._acknowledged[number]

    def close(self):
        """Leaves the broker, which keeps the session."""
        self._client.disconnect()
        self._client.loop_stop()


def message_of(run, applied):
    """A change as JSON."""
    held = applied.held
    it = {"run": run, "version": applied.version, "method": applied.method.name, "path": applied.path}
    return json.dumps({**it, "format": held and held.format, "body": held and held.body.hex()})


async def bridge(port, host, broker_port, name, room):
    """Runs until it is cancelled."""
    run = secrets.token_hex(8)
    async with Server(port=port, config=Config(base=drawn_base())) as server:

        def command(path, body):
            try:
                server.set(path, body)
            except Refused as why:
                logging.warning("a command for %s is refused: %s", path, why)

        changes = server.applied(most=room)
        broker = Broker(name, host, broker_port, command)
        logging.info("serving at port %s, run %s", server.address[1], run)
        try:
            async for applied in changes:
                if applied.version:
                    await broker.publish(f"{name}/changes{applied.path}", message_of(run, applied))
        finally:
            broker.close()


def main():
    """The words of the command."""
    words = argparse.ArgumentParser(description=__doc__, formatter_class=argparse.RawDescriptionHelpFormatter)
    words.add_argument("--port", type=int, default=PORT)
    words.add_argument("--broker", default=f"127.0.0.1:{MQTT_PORT}")
    words.add_argument("--name", default="gateway")
    words.add_argument("--room", type=int, default=1000)
    given = words.parse_args()
    host, _, port = given.broker.partition(":")
    logging.basicConfig(level=logging.INFO, stream=sys.stderr, format="%(message)s")
    try:
        asyncio.run(bridge(given.port, host, int(port or MQTT_PORT), given.name, given.room))
    except KeyboardInterrupt:
        pass


if __name__ == "__main__":
    main()
