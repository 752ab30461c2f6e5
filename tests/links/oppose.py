"""Holds every name that is probed for, with data of its own, until it is ended: INTERFACE. Prints each name that it defends, and when, in milliseconds."""

import socket
import struct
import sys
import time

from packet import name, read_name

GROUP, PORT = "224.0.0.251", 5353
A, TXT, ANY = 1, 16, 255
IN_FLUSH = 0x8001


def probed(packet):
    """The names that a query probes for."""
    at = 12
    for _ in range(struct.unpack_from("!H", packet, 4)[0]):
        text, at, _ = read_name(packet, at)
        if struct.unpack_from("!H", packet, at)[0] == ANY:
            yield text
        at += 4


def defence(text):
    """A response with an address and a TXT under a name."""
    records = [(A, socket.inet_aton("10.79.1.99")), (TXT, b"\x05other")]
    answers = [name(text) + struct.pack("!HHIH", kind, IN_FLUSH, 120, len(rdata)) + rdata for kind, rdata in records]
    return struct.pack("!6H", 0, 0x8400, 0, len(answers), 0, 0) + b"".join(answers)


index = socket.if_nametoindex(sys.argv[1])
group = socket.socket(socket.AF_INET, socket.SOCK_DGRAM)
group.setsockopt(socket.SOL_SOCKET, socket.SO_REUSEADDR, 1)
group.bind((GROUP, PORT))
member = struct.pack("@4s4xi", socket.inet_aton(GROUP), index)
group.setsockopt(socket.IPPROTO_IP, socket.IP_ADD_MEMBERSHIP, member)
group.setsockopt(socket.IPPROTO_IP, socket.IP_MULTICAST_IF, member)
print("opposing", flush=True)
while True:
    packet, _ = group.recvfrom(9000)
    if packet[2] & 0x80:
        continue
    for text in probed(packet):
        group.sendto(defence(text), (GROUP, PORT))
        print(int(time.time() * 1000), text, flush=True)
