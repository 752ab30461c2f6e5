"""Asks all for names, as a querier on the link does, so that who holds one says so to all: two that hold it hear each other.

OWN SECONDS NAME/TYPE..: the own address, for how long, and what to ask for, in one query every 1.1 s; no record is multicast twice within a second."""

import socket
import struct
import sys
import time

from packet import name

GROUP, PORT, CLASS_IN, PERIOD = "224.0.0.251", 5353, 1, 1.1
TYPES = {"A": 1, "SRV": 33}


def question(which):
    """Of 'NAME/TYPE'."""
    text, kind = which.rsplit("/", 1)
    return name(text) + struct.pack("!HH", TYPES[kind], CLASS_IN)


def query(number, whiches):
    return struct.pack("!6H", number, 0, len(whiches), 0, 0, 0) + b"".join(map(question, whiches))


def querier(own):
    """A socket whose packets all take for those of a querier on the link."""
    asker = socket.socket(socket.AF_INET, socket.SOCK_DGRAM)
    asker.setsockopt(socket.SOL_SOCKET, socket.SO_REUSEADDR, 1)
    asker.setsockopt(socket.IPPROTO_IP, socket.IP_MULTICAST_IF, socket.inet_aton(own))
    asker.setsockopt(socket.IPPROTO_IP, socket.IP_MULTICAST_TTL, 255)
    asker.bind((own, PORT))
    return asker


def ask_all(asker, whiches):
    asker.sendto(query(0, whiches), (GROUP, PORT))


def main():
    own, seconds, *whiches = sys.argv[1:]
    asker, end = querier(own), time.time() + float(seconds)
    while time.time() < end:
        ask_all(asker, whiches)
        time.sleep(PERIOD)


if __name__ == "__main__":
    main()
