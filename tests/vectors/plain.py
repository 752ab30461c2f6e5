#!/usr/bin/env python3
# Writes the console script of replies to plain resolvers: queries from ports other than 5353 (RFC 6762, 6.7 and 18.14). Run by make.sh; the expected
# answers come from the reference program.
import sys

sys.dont_write_bytecode = True
from calls import *


def plain(now, questions, port=1024, **more):
    recv(now, query(questions, **more), port=port)


def asked(owner, rtype=255, cls=1, aaaa=SIX, **more):
    """One question from port 1024, asked of a responder that holds both names."""
    now = state("held", aaaa=aaaa)
    plain(now, [question(owner, rtype, cls)], **more)


# --- what a reply is ----------------------------------------------------------------------------------------------------

show("each type at each name, with an AAAA and without: the records asked for, TTL 10, class 1, an SRV target in full, PTR at once; no NSEC")
for aaaa in (SIX, b""):
    now = state("held", aaaa=aaaa)
    for owner in (SERVICE, INSTANCE, HOST):
        for rtype in (A, PTR, TXT, AAAA, SRV, NSEC, 255, 0, 99, 256 + A, 256 + SRV, 65535):
            plain(now, [question(owner, rtype)])
    claims()
show("the query's ID is repeated, its flags are not: RD, AD and CD, the bits without a meaning, AA, TC, RA")
now = state("held")
for ident in (0, 1, 0x00FF, 0xFF00, 0xBEEF, 0xFFFF):
    plain(now, [question(HOST, A)], ident=ident)
for flags in (0x0100, 0x0010, 0x0020, 0x0040, 0x0200, 0x0400, 0x0080, 0x07F0):
    plain(now, [question(HOST, A)], flags=flags, ident=7)
show("the question's class is repeated as it lies: 1 and 255, with the top bit and without; class 3, 0 and 254 ask for nothing")
now = state("held")
for cls in (1, 255, 0x8001, 0x80FF, 3, 0, 254, 0x8000, 0x8003, 256, 257):
    plain(now, [question(HOST, A, cls)])
    plain(now, [question(SERVICE, 255, cls)])
show("ports: all that is not 5353, some of them equal to it in 16 bits")
now = state("held")
for port in (0, 1, 53, 1024, 5352, 5354, 49152, 65535, 65536, 5353 + 65536, 5353 + (1 << 32), 18446744073709551615):
    plain(now, [question(HOST, A)], port)

# --- names --------------------------------------------------------------------------------------------------------------

show("the question's spelling is repeated, and what is byte for byte in it is pointed to: the host's name in each spelling by whole labels")
for spelled in (HOST, name(b"DOCK", b"local"), name(b"dock", b"LOCAL"), name(b"Dock", b"Local"), name(b"docK", b"local"), name(b"dock", b"locaL")):
    asked(spelled)
    asked(spelled, A, aaaa=b"")
show("the instance's name, each set of labels in capitals: SRV, TXT and both; the suffix behind the last label in capitals is what is cut")
parts = (b"booth", b"_voice", b"_tcp", b"local")
for capitals in range(16):
    spelled = name(*(p.upper() if capitals >> i & 1 else p for i, p in enumerate(parts)))
    for rtype in (SRV, TXT, 255):
        asked(spelled, rtype, aaaa=b"")
show("the service's name, each set of labels in capitals: the PTR's owner and its target")
for capitals in range(8):
    asked(name(*(p.upper() if capitals >> i & 1 else p for i, p in enumerate(parts[1:]))), PTR, aaaa=b"")
show("set-ups whose names share labels: the host's label is '_tcp', 'local', the instance's, in the same case and in another")
for host, instance in ((b"_tcp", b"booth"), (b"_TCP", b"booth"), (b"local", b"local"), (b"booth", b"booth"), (b"Booth", b"booth"), (b"_voice", b"_tcp")):
    start(host=host, instance=instance, aaaa=SIX, txt=b"\x0c" + HOST)
    for t in (0, 0, 250, 250, 500, 500, 750, 750):
        tick(t)
    for spelled in (bytes, bytes.upper):
        plain(750, [question(name(spelled(instance), b"_voice", b"_tcp", b"local"))])
        plain(750, [question(name(spelled(host), b"local"))])
        plain(750, [question(name(b"_voice", b"_tcp", spelled(b"local")))])
show("longest labels and a TXT of 400 bytes: the largest reply")
start(instance=b"i" * 63, service=b"_" + b"s" * 15, host=b"h" * 63, txt=b"\xff" + b"x" * 255 + b"\x8f" + b"y" * 143, aaaa=SIX)
for t in (0, 0, 250, 250, 500, 500, 750, 750):
    tick(t)
longest = name(b"i" * 63, b"_" + b"s" * 15, b"_tcp", b"local")
plain(750, [question(longest)])
plain(750, [question(longest.upper())])
plain(750, [question(name(b"h" * 63, b"local"))])
unicast(0, 720)
show("names that are near: longer, shorter, of another service, the root; letters past ASCII do not fold")
now = state("held")
for owner in (name(b"x", b"dock", b"local"), name(b"local"), name(b"deck", b"local"), name(b"booth", b"_voice", b"_udp", b"local"), b"\0"):
    plain(now, [question(owner)])
start(instance="Caf\u00e9".encode())
for t in (0, 0, 250, 250, 500, 500, 750, 750):
    tick(t)
for label in ("Caf\u00e9", "CAF\u00e9", "caf\u00c9"):
    plain(750, [question(labels(label.encode()) + SERVICE, SRV)])

# --- how many questions -------------------------------------------------------------------------------------------------

show("exactly one question is answered: none, two, the same twice, one and one of nothing of ours; bytes behind the message do not matter")
now = state("held")
plain(now, [])
plain(now, [question(HOST, A)])
plain(now, [question(HOST, A), question(INSTANCE, SRV)])
plain(now, [question(HOST, A), question(HOST, A)])
plain(now, [question(HOST, A), question(name(b"x"), A)])
plain(now, [question(name(b"x"), A), question(HOST, A)])
plain(now, [question(HOST, A), question(pointer(12), A)])
recv(now, query([question(HOST, A)]) + question(HOST, TXT), port=1024)
recv(now, header(qd=257, flags=0) + question(HOST, A) + question(pointer(12), A) * 256, port=1024)
claims()
show("Answer, Authority and Additional records beside the one question: known answers are ignored, at any TTL, and of each record")
known = [record(SERVICE, PTR, INSTANCE, ttl=4500), record(INSTANCE, SRV, OWN_SRV), record(INSTANCE, TXT, b"\0", ttl=4500), record(HOST, A, TEN)]
now = state("held")
for owner, rtype in ((SERVICE, PTR), (INSTANCE, SRV), (INSTANCE, TXT), (INSTANCE, 255), (HOST, A), (HOST, 255)):
    plain(now, [question(owner, rtype)], known=known)
    plain(now, [question(owner, rtype)], authority=known)
    recv(now, header(qd=1, ar=len(known), flags=0) + question(owner, rtype) + b"".join(known), port=1024)
show("an OPT record, as resolvers send it, is stepped over")
recv(now, header(qd=1, ar=1, flags=0x0120, ident=0x1234) + question(HOST, A) + b"\0" + (41).to_bytes(2, "big") + (1232).to_bytes(2, "big") + bytes(6), port=40000)

# --- gaps ---------------------------------------------------------------------------------------------------------------

show("the gaps are not obeyed: right after the announcements, and again in the same ms")
now = state("announced", aaaa=SIX)
for owner in (SERVICE, INSTANCE, HOST):
    plain(now, [question(owner)])
    plain(now, [question(owner)])
show("the gaps are not started: a query from port 5353 in the same ms is answered, a probe too, and the second step sends all")
now = state("held", aaaa=SIX) + 1000
for owner in (SERVICE, INSTANCE, HOST):
    plain(now, [question(owner)])
recv(now, query([question(INSTANCE), question(HOST), question(SERVICE)]))
claims()
tick(now + 20)
state("announced", aaaa=SIX)
for owner in (SERVICE, INSTANCE, HOST):
    plain(1700, [question(owner)])
tick(1750)
tick(1750)
tick(1750)
recv(2000, probe(HOST, record(HOST, A, TEN)))
show("nor by a multicast after it; and no PTR reply is set, a set one stays as it is")
now = state("held") + 1000
recv(now, query([question(HOST, A)]))
plain(now, [question(HOST, A)])
plain(now, [question(SERVICE, PTR)])
claims()
recv(now, query([question(SERVICE, PTR)]), draw=100)
plain(now + 1, [question(SERVICE, PTR)])
claims()
tick(now + 99)
tick(now + 100)
plain(now + 100, [question(SERVICE, PTR)])
claims()

# --- claims -------------------------------------------------------------------------------------------------------------

show("in each state: only a held claim answers; the last time is kept")
for which in STATES:
    now = state(which)
    for owner in (SERVICE, INSTANCE, HOST):
        plain(now + 7, [question(owner)])
    claims()
show("one claim is held and the other not")
for conflict in (record(HOST, A, b"\xff" * 4), record(INSTANCE, TXT, b"\1x")):
    now = state("held")
    recv(now, response([conflict]))
    for owner in (SERVICE, INSTANCE, HOST):
        plain(now, [question(owner)])
show("a probe from port 1024 with later records defers nobody, in each state; held, it is a query of one question; from port 5353 it does")
later = record(HOST, A, b"\xff" * 4)
for which in STATES:
    for port in (1024, 5353):
        now = state(which)
        recv(now, probe(HOST, later), port=port)
        recv(now, probe(INSTANCE, record(INSTANCE, SRV, b"\xff" * 6 + HOST)), port=port)
        recv(now, query([question(HOST), question(INSTANCE)], authority=[later, record(INSTANCE, SRV, b"\xff" * 6 + HOST)]), port=port)
        claims()
show("a probe from port 1024 is answered right after the announcement, and after 249 ms; from port 5353 it is not")
now = state("announced")
for port in (1024, 5353):
    for gap in (0, 249):
        recv(now + gap, probe(HOST, record(HOST, A, TEN)), port=port)
recv(now + 250, probe(HOST, record(HOST, A, TEN)))
show("a response from another port, a conflict or not, is refused and changes nothing, not even the last time")
now = state("held")
for port in (1024, 5353 + 65536):
    recv(now + 9, response([later]), port=port)
    recv(now + 9, response(), port=port)
    recv(now + 9, response(questions=[question(HOST, A)]), port=port)
    claims()

# --- refusals -----------------------------------------------------------------------------------------------------------

show("the order of refusals from port 1024: 1, 2, 3, 4, 5 by opcode and RCODE, 5 for a response, 6; then the same as queries, where 5 for the port is gone")
now = state("held")
for flags in (0x8400, 0):
    good = header(qd=1, flags=flags) + question(HOST, A)
    bad = header(qd=1, flags=flags) + question(pointer(12), A)
    recv(now - 1, good[:11], draw=19, port=1024, out=(1451,))
    recv(now, good[:11], draw=19, port=1024, out=(1451,))
    recv(now, good[:11], draw=121, port=1024)
    recv(now, good[:11], port=1024, out=(1451,))
    recv(now, good[:11], port=1024)
    recv(now, good + bytes(8973 - len(good)), port=1024)
    recv(now, header(qd=1, flags=flags | 0x0800) + question(pointer(12), A), port=1024)
    recv(now, header(qd=1, flags=flags | 0x0003) + question(HOST, A), port=1024)
    recv(now, bad, port=1024)
    recv(now, good[:-1], port=1024)
    recv(now, good, port=1024, out=(1451,))
    recv(now, good, draw=19, port=1024)
    recv(now, good, port=1024, out=(4097,))
    recv(now, good, port=1024, out=(4096,))
    recv(now, good + bytes(8972 - len(good)), port=1024)
    claims()
show("the bytes of the second out buffer past a reply are kept; a refused call keeps them all")
now = state("held", aaaa=SIX)
plain(now, [question(INSTANCE)])
unicast(0, 140)
plain(now, [question(HOST, A)])
unicast(0, 140)
recv(now, response(), port=1024)
plain(now, [question(HOST, AAAA), question(HOST, A)])
unicast(0, 140)
out(0, 140)
