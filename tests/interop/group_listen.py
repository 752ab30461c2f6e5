"""Listens to the group on an interface until it is ended, and prints each packet: ADDRESS.

A line 'query from ..' and one for each question, or 'response from ..' and one for each record as in unicast_ask.py."""

import socket
import sys

from packet import questions, records

GROUP, PORT = "224.0.0.251", 5353

address = sys.argv[1]
group = socket.socket(socket.AF_INET, socket.SOCK_DGRAM)
group.setsockopt(socket.SOL_SOCKET, socket.SO_REUSEADDR, 1)
group.bind((GROUP, PORT))
group.setsockopt(socket.IPPROTO_IP, socket.IP_ADD_MEMBERSHIP, socket.inet_aton(GROUP) + socket.inet_aton(address))
print("listening", flush=True)
while True:
    packet, sender = group.recvfrom(9000)
    asked, at = questions(packet)
    if packet[2] & 0x80:
        print(f"response from {sender[0]}", *records(packet, at), sep="\n", flush=True)
    else:
        print(f"query from {sender[0]}", *asked, sep="\n", flush=True)
