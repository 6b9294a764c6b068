#!/usr/bin/env python3
"""delay.py MILLISECONDS FROM TO [FROM TO]..: carries connections, each way so much later.

FROM and TO are numbers of an IP address with a port. It runs until it is ended, and stands for a
line between machines, where the kernel has none that delays."""

import asyncio
import sys

DELAY = float(sys.argv[1]) / 1000
PAIRS = list(zip(sys.argv[2::2], sys.argv[3::2]))
MOST_READ = 1 << 18
MOST_UNDERWAY = 256


def parts(address):
    host, port = address.rsplit(":", 1)
    return host, int(port)


async def send_later(queue, writer):
    """Writes what is queued when its time has come, and closes behind the last."""
    loop = asyncio.get_running_loop()
    while True:
        due, data = await queue.get()
        await asyncio.sleep(max(0, due - loop.time()))
        if data is None:
            break
        writer.write(data)
        await writer.drain()
    writer.close()


async def carry(reader, writer):
    """Carries one way of a connection."""
    loop = asyncio.get_running_loop()
    queue = asyncio.Queue(MOST_UNDERWAY)
    sending = asyncio.create_task(send_later(queue, writer))
    try:
        while data := await reader.read(MOST_READ):
            await queue.put((loop.time() + DELAY, data))
    except OSError:
        pass
    await queue.put((loop.time() + DELAY, None))
    try:
        await sending
    except OSError:
        pass


async def serve(address, to):
    async def carry_both(reader, writer):
        await asyncio.sleep(DELAY)
        try:
            far_reader, far_writer = await asyncio.open_connection(*parts(to))
        except OSError:
            writer.close()
            return
        await asyncio.gather(carry(reader, far_writer), carry(far_reader, writer))

    await asyncio.start_server(carry_both, *parts(address))


async def main():
    for address, to in PAIRS:
        await serve(address, to)
    await asyncio.Event().wait()


asyncio.run(main())
