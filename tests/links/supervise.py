"""A supervisor's socket: prints each line that it is told (sd_notify) until it is ended: PATH."""

import socket
import sys

supervisor = socket.socket(socket.AF_UNIX, socket.SOCK_DGRAM)
supervisor.bind(sys.argv[1])
print("supervising", flush=True)
while True:
    print(supervisor.recv(4096).decode(), flush=True)
