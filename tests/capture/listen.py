"""Prints each mDNS message that comes to 224.0.0.251, once for each sender: OWN_ADDRESS SECONDS NAME=ADDRESS...

Each line is the sender's name and the message in hexadecimal. Meanwhile it asks, as a browser does: for the service types, for the instances and for each
name's host, so that answers are heard beside announcements.
"""

import select
import socket
import struct
import sys
import time

GROUP = ("224.0.0.251", 5353)
PTR, ANY = 12, 255

own, seconds, *senders = sys.argv[1:]
names = {address: name for name, address in (sender.split("=") for sender in senders)}


def query(name, rtype):
    labels = b"".join(bytes([len(label)]) + label for label in name.encode().split(b"."))
    return struct.pack(">6H", 0, 0, 1, 0, 0, 0) + labels + b"\0" + struct.pack(">2H", rtype, 1)


queries = [query(name, rtype) for name, rtype in (
    ("_services._dns-sd._udp.local", PTR), ("_voice._tcp.local", PTR), ("dock.local", ANY), ("other.local", ANY), ("hall.local", ANY), ("annex.local", ANY),
    ("booth._voice._tcp.local", ANY), ("parlour._voice._tcp.local", ANY), ("Hall, west._voice._tcp.local", ANY), ("annex._voice._tcp.local", ANY))]

link = socket.socket(socket.AF_INET, socket.SOCK_DGRAM)
link.setsockopt(socket.SOL_SOCKET, socket.SO_REUSEADDR, 1)
link.setsockopt(socket.SOL_SOCKET, socket.SO_REUSEPORT, 1)
link.bind(("", GROUP[1]))
link.setsockopt(socket.IPPROTO_IP, socket.IP_ADD_MEMBERSHIP, socket.inet_aton(GROUP[0]) + socket.inet_aton(own))
link.setsockopt(socket.IPPROTO_IP, socket.IP_MULTICAST_IF, socket.inet_aton(own))
print("listening", file=sys.stderr, flush=True)

heard = set()
begun = time.monotonic()
asked = 0
while (passed := time.monotonic() - begun) < float(seconds):
    # a third of the time is for probes and announcements, then each question is asked once
    if passed > float(seconds) / 3 + asked * 0.7 and asked < len(queries):
        link.sendto(queries[asked], GROUP)
        asked += 1
    if not select.select([link], [], [], 0.1)[0]:
        continue
    message, (address, _) = link.recvfrom(9000)
    if address in names and (address, message) not in heard:
        heard.add((address, message))
        print(names[address], message.hex(), flush=True)
