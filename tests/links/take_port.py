"""Takes port 5353 of UDP for itself, without sharing it, until it is ended."""

import signal
import socket

alone = socket.socket(socket.AF_INET, socket.SOCK_DGRAM)
alone.bind(("0.0.0.0", 5353))
print("taken", flush=True)
signal.pause()
