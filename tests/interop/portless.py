"""Asks from port 0, which no reply can be sent to: FROM TO NAME TYPE. Needs a raw socket."""

import socket
import struct
import sys

from packet import name

source, to, spelled, kind = sys.argv[1:]
query = struct.pack("!6H", 7, 0, 1, 0, 0, 0) + name(spelled) + struct.pack("!HH", int(kind), 1)
raw = socket.socket(socket.AF_INET, socket.SOCK_RAW, socket.IPPROTO_UDP)
raw.bind((source, 0))
raw.sendto(struct.pack("!4H", 0, 5353, 8 + len(query), 0) + query, (to, 0))
