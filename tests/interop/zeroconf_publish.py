"""Publishes an instance with python-zeroconf until it is ended: ADDRESS SERVICE INSTANCE HOST PORT KEY=VALUE...

Where AT is set it begins at that time of the wall clock, in milliseconds since 1970, and says how long after it asks."""

import os
import signal
import socket
import sys
import time

from zeroconf import ServiceInfo, Zeroconf

address, service, instance, host, port, *pairs = sys.argv[1:]
info = ServiceInfo(
    service,
    f"{instance}.{service}",
    addresses=[socket.inet_aton(address)],
    port=int(port),
    server=host,
    properties=dict(pair.split("=", 1) for pair in pairs),
)
at = float(os.environ.get("AT", 0)) / 1000
time.sleep(max(0, at - time.time()))
zeroconf = Zeroconf(interfaces=[address])
if at:
    print(f"asked for {info.name} {round((time.time() - at) * 1000)} ms after", flush=True)
zeroconf.register_service(info)
print("published", flush=True)
signal.pause()
