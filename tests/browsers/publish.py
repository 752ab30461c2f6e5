"""Publishes instances of a run with python-zeroconf, 10 ms apart: ADDRESS COUNT PART, where PART is 'most', those of the first machine, or 'silent', the one
that is killed. On a line 'change' a tenth gets another port and TXT, on a line 'leave' a third says goodbye, 10 ms apart too. Says 'appear', 'change' and
'leave' when all was sent. No names are probed for, since python-zeroconf probes by questions for the service: of 300 instances 900 of them."""

import asyncio
import os
import socket
import sys

from zeroconf import ServiceInfo
from zeroconf.asyncio import AsyncZeroconf

from instances import SERVICE, SILENT_TTL, Instance, changing, leaving, published, silent

APART = 0.010  # seconds

address, count, part = sys.argv[1], int(sys.argv[2]), sys.argv[3]


def info(number, changed=False):
    instance = Instance(number, changed)
    key, value = instance.txt.split("=", 1)
    is_silent = number == silent(count)
    return ServiceInfo(
        SERVICE,
        f"{instance.name}.{SERVICE}",
        addresses=[socket.inet_aton(address)],
        port=instance.port,
        server=f"{instance.host}.",
        properties={key: value},
        **({"other_ttl": SILENT_TTL, "host_ttl": SILENT_TTL} if is_silent else {}),
    )


async def all_of(words, calls):
    """Makes the calls one by one, waits until what each sends is sent, and says so."""
    sending = []
    for call in calls:
        sending.append(await call())
        await asyncio.sleep(APART)
    await asyncio.gather(*sending)
    print(words, flush=True)


async def main():
    print(f"process {os.getpid()}", flush=True)
    zeroconf = AsyncZeroconf(interfaces=[address])
    register = lambda number: lambda: zeroconf.async_register_service(info(number), cooperating_responders=True)
    change = lambda number: lambda: zeroconf.async_update_service(info(number, True))
    leave = lambda number: lambda: zeroconf.async_unregister_service(info(number, number in changing(count)))
    if part == "silent":
        await all_of("appear", [register(silent(count))])
        await asyncio.Event().wait()
    await all_of("appear", map(register, published(count)))
    calls = {"change": (change, changing), "leave": (leave, leaving)}
    while word := (await asyncio.get_running_loop().run_in_executor(None, sys.stdin.readline)).strip():
        call, chosen = calls[word]
        await all_of(word, map(call, chosen(count)))


asyncio.run(main())
