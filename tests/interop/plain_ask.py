"""A plain resolver: asks one question from a port of its own and shows the reply as it lies in the packet.

FROM TO NAME TYPE: the own address, the address to ask (a link's own as fe80::1%wire), the name as it is to be spelled, the type's number.
Prints who replied, the header, whether the question came back byte for byte, and a line for each record: owner, type, class, TTL, and the target of a PTR or
SRV with 'whole' or 'cut' for how it is written. Prints 'no reply' after a second without one."""

import random
import socket
import struct
import sys

from packet import header, name, records

WAIT = 1.0


def show(packet, query, question):
    print(header(packet, query))
    if not packet[12:].startswith(question):
        print("question not repeated")
        return
    print("question repeated byte for byte")
    print(*records(packet, 12 + len(question)), sep="\n")


def main():
    source, to, spelled, kind = sys.argv[1:]
    family, _, _, _, own = socket.getaddrinfo(source, 0, type=socket.SOCK_DGRAM)[0]
    asker = socket.socket(family, socket.SOCK_DGRAM)
    asker.bind(own)
    asker.settimeout(WAIT)
    question = name(spelled) + struct.pack("!HH", int(kind), 1)
    query = struct.pack("!6H", random.randrange(1, 65536), 0x0100, 1, 0, 0, 0) + question
    asker.sendto(query, socket.getaddrinfo(to, 5353, family, socket.SOCK_DGRAM)[0][4])
    try:
        packet, sender = asker.recvfrom(9000)
    except TimeoutError:
        print("no reply")
        return
    print(f"reply from {sender[0]} port {sender[1]}")
    show(packet, query, question)


main()
