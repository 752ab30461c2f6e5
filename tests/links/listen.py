"""Listens to both groups on an interface until it is ended, and prints each packet: INTERFACE.

A line 'ipv4 query from ..' or 'ipv6 response from ..', and one for each question or record, those of addresses with their address."""

import select
import socket
import struct
import sys

from packet import questions, read_name

PORT = 5353
A, AAAA = 1, 28


def records(packet, at):
    """A line for each record."""
    for _ in range(sum(struct.unpack_from("!3H", packet, 6))):
        owner, at, _ = read_name(packet, at)
        kind, _, ttl, length = struct.unpack_from("!HHIH", packet, at)
        rdata = packet[at + 10 : at + 10 + length]
        family = {A: socket.AF_INET, AAAA: socket.AF_INET6}.get(kind)
        yield f"record {owner} type {kind} ttl {ttl}" + (f" {socket.inet_ntop(family, rdata)}" if family else "")
        at += 10 + length


index = socket.if_nametoindex(sys.argv[1])
ipv4 = socket.socket(socket.AF_INET, socket.SOCK_DGRAM)
ipv4.setsockopt(socket.SOL_SOCKET, socket.SO_REUSEADDR, 1)
ipv4.bind(("224.0.0.251", PORT))
ipv4.setsockopt(socket.IPPROTO_IP, socket.IP_ADD_MEMBERSHIP, struct.pack("@4s4xi", socket.inet_aton("224.0.0.251"), index))
ipv6 = socket.socket(socket.AF_INET6, socket.SOCK_DGRAM)
ipv6.setsockopt(socket.IPPROTO_IPV6, socket.IPV6_V6ONLY, 1)
ipv6.setsockopt(socket.SOL_SOCKET, socket.SO_REUSEADDR, 1)
ipv6.bind(("ff02::fb", PORT, 0, index))
ipv6.setsockopt(socket.IPPROTO_IPV6, socket.IPV6_JOIN_GROUP, socket.inet_pton(socket.AF_INET6, "ff02::fb") + struct.pack("@I", index))
print("listening", flush=True)
while True:
    for ready in select.select([ipv4, ipv6], [], [])[0]:
        packet, sender = ready.recvfrom(9000)
        asked, at = questions(packet)
        family = "ipv4" if ready is ipv4 else "ipv6"
        if packet[2] & 0x80:
            lines = [f"{family} response from {sender[0]}", *records(packet, at)]
        else:
            lines = [f"{family} query from {sender[0]}", *asked]
        print("\n".join(lines), flush=True)
