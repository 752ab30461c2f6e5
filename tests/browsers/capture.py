"""Prints each packet to port 5353 that a machine sends to the bridge: milliseconds since 1970, as the kernel took them, the machine, whether it goes to
'all' or to 'one', and the bytes in hexadecimal.

Runs where the bridge is; a machine's cable ends there in an interface 'to-MACHINE'."""

import socket
import struct

ALL_PROTOCOLS, IPV4, UDP, PORT, OUTGOING = 0x0003, 0x0800, 17, 5353, 4
GROUP = socket.inet_aton("224.0.0.251")
SO_TIMESTAMPNS = 35

link = socket.socket(socket.AF_PACKET, socket.SOCK_RAW, socket.htons(ALL_PROTOCOLS))
link.setsockopt(socket.SOL_SOCKET, SO_TIMESTAMPNS, 1)
link.setsockopt(socket.SOL_SOCKET, socket.SO_RCVBUF, 1 << 24)
print("capturing", flush=True)
while True:
    frame, extra, _, (interface, protocol, direction, *_) = link.recvmsg(65536, 256)
    if protocol != IPV4 or direction == OUTGOING or not interface.startswith("to-"):
        continue
    ip = frame[14:]
    header = (ip[0] & 15) * 4
    fragment = struct.unpack_from("!H", ip, 6)[0] & 0x1FFF
    if ip[9] != UDP or fragment or struct.unpack_from("!H", ip, header + 2)[0] != PORT:
        continue
    seconds, nanoseconds = struct.unpack("qq", extra[0][2])
    length = struct.unpack_from("!H", ip, header + 4)[0]
    payload = ip[header + 8 : header + length]
    to = "all" if ip[16:20] == GROUP else "one"
    print(seconds * 1000 + nanoseconds // 1_000_000, interface.removeprefix("to-"), to, payload.hex(), flush=True)
