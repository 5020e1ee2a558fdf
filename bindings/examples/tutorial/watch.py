"""watch.py PORT COUNT: prints COUNT values of the lamp of lamp.c, as they come."""

import asyncio
import sys

from knifesilver.aio import Client


async def main(port: int, count: int) -> None:
    async with Client("127.0.0.1", port) as client:
        async for value in client.observe("lamp"):
            print(value.text, flush=True)
            count -= 1
            if count == 0:
                break


asyncio.run(main(int(sys.argv[1]), int(sys.argv[2])))
