"""A querier: asks the group from port 5353, with the unicast bit or without (RFC 6762 section 5.4), and shows the answers that come in 300 ms.

FROM NAME TYPE BIT .. [, NAME TYPE BIT ..]: the own address, then for each question the name, the type's number, and 'qu' or 'qm'; a comma parts two
queries, of which the second goes out when the first has had its 300 ms. Where AT is set it begins at that time of the wall clock, in milliseconds since 1970.
Prints for each query 'asked', then for each answer who sent it, whether it came by unicast or to the group and after how many milliseconds, the header, and a
line for each record as in plain_ask.py; 'flush' stands where the class has the top bit. Prints 'no answer' where none came."""

import itertools
import os
import random
import select
import socket
import struct
import sys
import time

from packet import header, name, questions, records

GROUP, PORT = "224.0.0.251", 5353
WAIT = 0.3


def bound(address):
    opened = socket.socket(socket.AF_INET, socket.SOCK_DGRAM)
    opened.setsockopt(socket.SOL_SOCKET, socket.SO_REUSEADDR, 1)
    opened.bind((address, PORT))
    return opened


def ask(own, group, words):
    parts = []
    for spelled, kind, bit in zip(words[::3], words[1::3], words[2::3]):
        parts.append(name(spelled) + struct.pack("!HH", int(kind), 0x8001 if bit == "qu" else 1))
    query = struct.pack("!6H", random.randrange(1, 65536), 0, len(parts), 0, 0, 0) + b"".join(parts)
    print("asked", *words)
    own.sendto(query, (GROUP, PORT))
    begun, answers = time.monotonic(), 0
    while (left := begun + WAIT - time.monotonic()) > 0:
        for ready in select.select([own, group], [], [], left)[0]:
            packet, sender = ready.recvfrom(9000)
            if packet[2] & 0x80:
                answers += 1
                how = "by unicast" if ready is own else "to the group"
                print(f"answer from {sender[0]} port {sender[1]} {how} after {round((time.monotonic() - begun) * 1000)} ms")
                print(header(packet, query))
                print(*records(packet, questions(packet)[1]), sep="\n")
    if not answers:
        print("no answer")


def main():
    source, *words = sys.argv[1:]
    time.sleep(max(0, float(os.environ.get("AT", 0)) / 1000 - time.time()))
    own, group = bound(source), bound(GROUP)
    group.setsockopt(socket.IPPROTO_IP, socket.IP_ADD_MEMBERSHIP, socket.inet_aton(GROUP) + socket.inet_aton(source))
    own.setsockopt(socket.IPPROTO_IP, socket.IP_MULTICAST_IF, socket.inet_aton(source))
    own.setsockopt(socket.IPPROTO_IP, socket.IP_MULTICAST_TTL, 255)
    own.setsockopt(socket.IPPROTO_IP, socket.IP_MULTICAST_LOOP, 0)
    for is_comma, query in itertools.groupby(words, lambda word: word == ","):
        if not is_comma:
            ask(own, group, list(query))


main()
