#!/usr/bin/env python3
# Writes the console script of the responder's vectors: `start`, `recv`, `tick`, `claims` and `out`, each case under a comment that says what it
# shows (specification, 'Refusal numbers', 'Own records', 'Writing a packet', 'A claim's life', 'Which answers go out'). Run by make.sh; the expected
# answers come from the reference program.
import sys

sys.dont_write_bytecode = True
from calls import *

# --- before any start ---------------------------------------------------------------------------------------------------

show("before the first start: the blank state, refused by the ordinary rules; the out buffer is zeros")
claims()
tick(0)
tick(1)
recv(0, ANNOUNCED)
recv(0, b"\0" * 11)
out(0, 16)
out(0, 4096)
out(4095, 1)
out(4096, 0)
out(4096, 1)
out(4097, 0)
out(18446744073709551615, 18446744073709551615)

# --- the specification's example -------------------------------------------------------------------------------------------------------

show("the specification's start: the instance's probe, more is due, then the 44-byte probe of dock.local; nothing more at 0 and at 249 ms")
start()
claims()
tick(0)
claims()
tick(0)
claims()
tick(0)
tick(249)
show("each probe is due 250 ms after the last was sent, and 250 ms after the third the first announcement, all records; the host's has 38 bytes")
for now in (250, 250, 250, 499, 500, 500, 749, 750, 750, 750):
    tick(now)
claims()
show("the second announcement is due 1,000 ms after the first, and then no step is due")
for now in (1749, 1750, 1750, 1750, 99999):
    tick(now)
claims()
show("the bytes of the out buffer past a packet are kept")
out(0, 120)
out(1400, 100)

show("a start with draw 250 and an AAAA: nothing at 249, probes at 250, the host's with A and AAAA by rising type; then all five records")
start(1000, 250, aaaa=SIX, txt=b"\4a=bc")
tick(1249)
for now in (1250, 1250, 1500, 1500, 1750, 1750, 2000, 2000, 3000, 3000):
    tick(now)
claims()

show("late ticks: steps count from when they were taken, one packet a tick")
start(0, 100)
for now in (5000, 5000, 5000, 5249, 5250, 9000, 9000, 9249, 9250, 20000, 20000, 20999, 21000, 21000, 50000):
    tick(now)
claims()

# --- questions ----------------------------------------------------------------------------------------------------------

show("asked after 249 ms by a probe without the bit: omitted; after 250 ms: sent")
for gap in (249, 250):
    now = state("held")
    recv(now + gap, probe(HOST, record(HOST, A, TEN)))
    claims()
show("asked after 999 ms by a query: omitted; after 1,000 ms: sent")
for gap in (999, 1000):
    now = state("held")
    recv(now + gap, query([question(HOST, A)]))
    recv(now + gap, query([question(INSTANCE, SRV)]))
    recv(now + gap, query([question(INSTANCE, TXT)]))
show("a probe for the host is an ordinary query to the instance's records")
now = state("held")
recv(now + 500, query([question(HOST), question(INSTANCE)], authority=[record(HOST, A, TEN)]))
recv(now + 1500, query([question(HOST), question(INSTANCE)], authority=[record(HOST, A, TEN)]))

show("known PTR at TTL 2250 omits, at 2249 a reply is set; A at 60 omits, at 59 it goes out; SRV 60 and 59, TXT 2250 and 2249")
for ttl in (2250, 2249):
    now = state("held")
    recv(now + 2000, query([question(SERVICE, PTR)], [record(SERVICE, PTR, INSTANCE, ttl=ttl)]))
    claims()
    tick(now + 2020)
    recv(now + 2000 + 20, query([question(INSTANCE, TXT)], [record(INSTANCE, TXT, b"\0", ttl=ttl)]))
for ttl in (60, 59):
    now = state("held")
    recv(now + 2000, query([question(HOST, A)], [record(HOST, A, TEN, ttl=ttl)]))
    recv(now + 2000, query([question(INSTANCE, SRV)], [record(INSTANCE, SRV, OWN_SRV, ttl=ttl)]))
show("a known answer of other rdata, type, class or owner, or in another section, does not omit; a TTL with its top bit counts as 0")
for known, authority in (([record(HOST, A, b"\x0a\0\0\x08")], []), ([record(HOST, TXT, TEN[:0])], []), ([record(HOST, A, TEN, cls=3)], []), ([record(INSTANCE, A, TEN)], []), ([], [record(HOST, A, TEN)]), ([record(HOST, A, TEN, ttl=0x80000078)], []), ([record(HOST, A, TEN, cls=0x8001)], [])):
    now = state("held")
    recv(now + 2000, query([question(HOST, A)], known, authority))
show("a known PTR whose name differs in case in its rdata does not omit; in its owner it does")
now = state("held")
recv(now + 2000, query([question(SERVICE, PTR)], [record(SERVICE, PTR, name(b"BOOTH", b"_voice", b"_tcp", b"local"), ttl=4500)]))
claims()
now = state("held")
recv(now + 2000, query([question(SERVICE, PTR)], [record(name(b"_VOICE", b"_tcp", b"LOCAL"), PTR, INSTANCE, ttl=4500)]))
claims()

show("questions of type 255 and class 255, with the unicast bit, of class 3, of type 99, for other names; names in other case")
now = state("held", aaaa=SIX)
for i, q in enumerate((question(HOST), question(HOST, 255, 255), question(HOST, A, 0x8001), question(HOST, A, 0x80FF), question(HOST, A, 3), question(HOST, 99), question(HOST, 28), question(INSTANCE), question(name(b"other", b"local"), A), question(name(b"DOCK", b"Local"), A), question(SERVICE, 255), question(b"\0", 255))):
    recv(now + 1000 * (i + 1), query([q]))
    claims()
tick(now + 13000)
show("several questions: one packet, each record once, in the order of responses; PTR waits for its step")
recv(now + 20000, query([question(HOST), question(INSTANCE), question(HOST, A), question(SERVICE, PTR)]), draw=120)
claims()
tick(now + 20119)
tick(now + 20120)
claims()
show("every subset of SRV, TXT, A and AAAA asked for at once, with an AAAA and without, where the host's NSEC stands in its place")
for aaaa in (SIX, b""):
    now = state("held", aaaa=aaaa)
    for subset in range(1, 16):
        now += 1000
        recv(now, query([q for i, q in enumerate((question(INSTANCE, SRV), question(INSTANCE, TXT), question(HOST, A), question(HOST, AAAA))) if subset >> i & 1]))
now = state("held", aaaa=SIX)
show("a PTR reply that is set stays as set; at its step it is dropped where PTR was multicast less than 1,000 ms ago")
recv(now + 30000, query([question(SERVICE, PTR)]), draw=100)
recv(now + 30010, query([question(SERVICE, PTR)]), draw=20)
claims()
tick(now + 30100)
recv(now + 30101, query([question(SERVICE, PTR)]), draw=20)
claims()
start()
for t in (0, 0, 250, 250, 500, 500, 750, 750):
    tick(t)
recv(1749, query([question(SERVICE, PTR)]), draw=20)
recv(1750, query([question(SERVICE, PTR)]), draw=20)
claims()
tick(1770)
tick(1770)
tick(1770)
claims()
show("a PTR reply due while the claim is lost or waiting again: dropped")
now = state("held")
recv(now + 2000, query([question(SERVICE, PTR)]), draw=20)
recv(now + 2001, response([record(INSTANCE, TXT, b"\1x")]))
claims()
tick(now + 2020)
tick(now + 2020)
claims()
now = state("held")
recv(now + 2000, query([question(SERVICE, PTR)]), draw=20)
recv(now + 2001, response([record(INSTANCE, TXT, b"\1x")]))
recv(now + 2002, response([record(INSTANCE, TXT, b"\1x")]))
claims()
tick(now + 2020)
claims()
show("questions in each state: only a held claim answers")
for which in STATES:
    now = state(which)
    recv(now + 5000, query([question(HOST), question(INSTANCE), question(SERVICE)]))
    claims()

# --- what doesn't exist -------------------------------------------------------------------------------------------------

ADDRESS = window(0x40)
BOTH = window(0x40, 0, 0, 8)
SERVICES = window(0, 0, 0x80, 0, 0x40)
NAMES = (HOST, INSTANCE, SERVICE)
TYPES = (1, 12, 16, 28, 33, 47, 255, 256, 65535)


def negative(owner=HOST, next=HOST, bits=ADDRESS, cls=1, ttl=120):
    return record(owner, NSEC, next + bits, cls, ttl)


show("a type that a held name has no record of is answered with its NSEC; each type at each name, with and without an AAAA; the service's name has none")
for aaaa in (b"", SIX):
    now = state("held", aaaa=aaaa)
    for owner in NAMES:
        for rtype in TYPES:
            now += 2000
            recv(now, query([question(owner, rtype)]))
        claims()
        tick(now + 1000)
show("every type from 0 to 50 at both names, and those around 255 and 2^15; and those that are a present one in eight bits")
now = state("held", aaaa=SIX)
for rtype in (*range(51), 250, 251, 252, 253, 254, 255, 256, 32767, 32768, 256 + A, 256 + AAAA, 256 + TXT, 256 + SRV, 511, 65280 + A):
    now += 1000
    recv(now, query([question(HOST, rtype), question(INSTANCE, rtype)]))
show("classes 1 and 255, with the unicast bit or without; class 3 and 0 ask for nothing; names in other case; names near")
now = state("held")
for cls in (255, 0x8001, 0x80FF, 3, 0, 0x8000):
    now += 1000
    recv(now, query([question(HOST, AAAA, cls)]))
for owner in (name(b"DOCK", b"Local"), name(b"BOOTH", b"_VOICE", b"_TCP", b"LOCAL"), name(b"deck", b"local"), name(b"x", b"dock", b"local"),
              name(b"local"), b"\0"):
    now += 1000
    recv(now, query([question(owner, AAAA)]))
show("both in one packet, the instance's first, whatever the order of the questions; with the others, after AAAA; each once; PTR waits for its step")
for aaaa in (b"", SIX):
    now = state("held", aaaa=aaaa)
    for qs in ([(HOST, 99), (INSTANCE, 99)], [(INSTANCE, A), (HOST, TXT), (INSTANCE, A), (HOST, NSEC)], [(HOST, A), (HOST, 99)], [(HOST, 99), (INSTANCE, SRV)],
               [(INSTANCE, 99), (HOST, A)], [(INSTANCE, TXT), (HOST, AAAA)], [(HOST, 255), (HOST, 99), (INSTANCE, 255), (INSTANCE, 99), (SERVICE, PTR)]):
        now += 2000
        recv(now, query([question(*q) for q in qs]))
        claims()
        tick(now + 20)
show("questions for what doesn't exist in each state: only a held claim answers")
for which in STATES:
    now = state(which)
    recv(now + 5000, query([question(HOST, AAAA), question(INSTANCE, AAAA)]))
show("one claim is held and the other not")
for conflict in (record(HOST, A, b"\xff" * 4), record(INSTANCE, TXT, b"\1x")):
    now = state("held")
    recv(now, response([conflict]))
    recv(now, query([question(HOST, AAAA), question(INSTANCE, AAAA)]))
show("a question of a response is not answered, and one from another port not with an NSEC")
now = state("held")
recv(now, response(questions=[question(HOST, AAAA)]))
recv(now, query([question(HOST, AAAA)]), port=5354)
recv(now, query([question(HOST, AAAA)]), out=(1451,))
recv(now, query([question(HOST, AAAA)]), out=(1452,))
show("known at TTL 60 and above it is omitted, at 59 not; a TTL with its top bit counts as 0; class 0x8001 is class 1; the host's and the instance's")
for ttl in (60, 59, 0, 1, 61, 119, 120, 4500, 0x7FFFFFFF, 0x8000003C, 0xFFFFFFFF):
    now = state("held")
    recv(now + 2000, query([question(HOST, AAAA)], [negative(ttl=ttl)]))
    recv(now + 2000, query([question(INSTANCE, AAAA)], [negative(INSTANCE, INSTANCE, SERVICES, 0x8001, ttl)]))
show("the known one by a pointer, its owner in other case: omitted; other class, section, owner, next name, bitmap, or none of the form: not")
def absent_known(known=(), authority=(), additional=()):
    now = state("held")
    sections = (known, authority, additional)
    recv(now + 2000, header(1, *map(len, sections), flags=0) + question(HOST, AAAA) + b"".join(r for section in sections for r in section))


SHOUTED = name(b"Dock", b"local")
for known in (negative(next=pointer(12)), negative(name(b"DOCK", b"LOCAL")), negative(cls=3), negative(cls=255), negative(INSTANCE, INSTANCE),
              negative(next=SHOUTED), negative(SHOUTED, SHOUTED), negative(bits=window(0x40, 0)), negative(bits=BOTH), negative(bits=window(0x60)),
              negative(bits=window(0x40, number=1)), negative(next=pointer(0)), negative(next=b"\0"), record(HOST, 46, HOST + ADDRESS), record(HOST, A, TEN)):
    absent_known([known])
absent_known(authority=[negative()])
absent_known(additional=[negative()])
absent_known([negative(bits=BOTH), negative(ttl=59), negative()])
show("with an AAAA: known with both bits it is omitted, with the bit of A alone not; the instance's and its near misses")
for bits in (BOTH, ADDRESS, window(0x40, 0, 0, 8, 0)):
    now = state("held", aaaa=SIX)
    recv(now + 2000, query([question(HOST, TXT)], [negative(bits=bits)]))
for bits in (SERVICES, window(0, 0, 0x80, 0, 0x40, 0), window(0, 0, 0x80), window(0, 8, 0x80, 0, 0x40), window(0, 0, 0x80, 0, 0x40, 1)):
    now = state("held", aaaa=SIX)
    recv(now + 2000, query([question(INSTANCE, PTR)], [negative(INSTANCE, INSTANCE, bits)]))
show("a known NSEC omits no other record, and a known record no NSEC")
now = state("held")
recv(now + 2000, query([question(HOST, A), question(HOST, AAAA)], [negative()]))
recv(now + 4000, query([question(HOST, A), question(HOST, AAAA)], [record(HOST, A, TEN)]))
show("asked again after 999 ms: omitted; after 1,000 ms: sent; by a probe for its claim 249 and 250 ms")
for gap in (0, 1, 249, 250, 999, 1000, 1001):
    now = state("held") + 5000
    recv(now, query([question(HOST, AAAA), question(INSTANCE, AAAA)]))
    recv(now + gap, query([question(HOST, AAAA)]))
    recv(now + gap, query([question(INSTANCE, AAAA)]))
for gap in (0, 249, 250, 251, 999, 1000):
    now = state("held") + 5000
    recv(now, query([question(HOST, AAAA), question(INSTANCE, AAAA)]))
    recv(now + gap, query([question(HOST), question(HOST, AAAA), question(INSTANCE, AAAA)], authority=[record(HOST, A, TEN)]))
    recv(now + gap, query([question(INSTANCE, AAAA), question(INSTANCE)], authority=[record(INSTANCE, TXT, b"\0")]))
show("a probe alone, of type 255, asks for no NSEC; a question of another type with Authority records is no probe")
now = state("held") + 5000
recv(now, query([question(HOST, AAAA)]))
recv(now + 500, probe(HOST, record(HOST, A, TEN)))
recv(now + 999, query([question(HOST, AAAA)], authority=[record(HOST, A, TEN)]))
show("the gap is its own: announced just now, the records' own gaps do not omit it; nor does it them; the host's and the instance's are two")
now = state("announced")
recv(now, query([question(HOST), question(HOST, AAAA), question(INSTANCE), question(INSTANCE, A)]))
recv(now + 999, query([question(HOST, AAAA), question(INSTANCE, A)]))
now = state("held") + 5000
for owner, rtype in ((HOST, AAAA), (HOST, A), (INSTANCE, A), (INSTANCE, SRV), (INSTANCE, TXT), (HOST, AAAA), (INSTANCE, A)):
    recv(now, query([question(owner, rtype)]))
recv(now + 999, query([question(INSTANCE, PTR), question(HOST, PTR), question(SERVICE, PTR)]))
recv(now + 1000, query([question(INSTANCE, PTR), question(HOST, PTR), question(SERVICE, PTR)]))
tick(now + 1020)
show("not in announcements nor in second steps, sent before or not; the second step does not count as its multicast, nor does a probe")
state("announced", aaaa=SIX)
recv(1700, query([question(HOST, 99), question(INSTANCE, 99)]))
for t in (1750, 1750, 1750):
    tick(t)
recv(2699, query([question(HOST, 99), question(INSTANCE, 99)]))
recv(2700, query([question(HOST, 99), question(INSTANCE, 99)]))
show("won again after a conflict: its last multicast is still known")
start()
for t in (0, 0, 250, 250, 500, 500, 750, 750):
    tick(t)
recv(760, query([question(HOST, AAAA), question(INSTANCE, AAAA)]))
recv(760, response([record(HOST, A, b"\xff" * 4)]))
recv(760, query([question(HOST, AAAA)]))
for t in (760, 1010, 1260, 1510):
    tick(t)
recv(1759, query([question(HOST, AAAA)]))
recv(1760, query([question(HOST, AAAA)]))
show("an NSEC never conflicts: of other bitmaps, of other types, of the form or not, with any TTL, in each state")
for which in STATES:
    now = state(which)
    others = [negative(bits=window(0x60)), negative(bits=BOTH, cls=0x8001), negative(INSTANCE, INSTANCE, window(0))]
    recv(now, response(others, [negative(next=b"\0")], [negative(next=pointer(0)), negative(ttl=1)]))
    claims()
show("in a probe it is one more record: of type 47, behind those of the claims; alone it makes a probe too; the probe question alone asks for none")
own_a, earlier_a = record(HOST, A, TEN), record(HOST, A, b"\x0a\0\0\6")
for theirs in ([negative()], [own_a, negative()], [negative(next=pointer(12)), own_a], [record(HOST, NSEC, b"")], [earlier_a, negative()],
               [negative(cls=0)], [own_a, negative(ttl=0)]):
    for aaaa in (b"", SIX):
        state("probing", aaaa=aaaa)
        recv(1, probe(HOST, *theirs))
        claims()
now = state("held") + 5000
recv(now, probe(HOST, negative()))
recv(now + 250, query([question(HOST), question(HOST, AAAA)], authority=[negative(next=pointer(0))]))
recv(now + 500, query([question(HOST), question(HOST, AAAA)], authority=[negative(next=pointer(0))]))
show("our own NSEC comes back, as an answer and as a known one")
now = state("held") + 5000
recv(now, query([question(HOST, AAAA)]))
recv(now, response([negative(next=pointer(12), cls=0x8001)]))
claims()
recv(now + 2000, query([question(HOST, AAAA)], [negative(pointer(12), pointer(12), cls=0x8001)]))

# --- probes heard -------------------------------------------------------------------------------------------------------

show("probes heard in each state: earlier, equal and later data")
for which in STATES:
    now = state(which)
    for address in (b"\x0a\0\0\x06", TEN, b"\x0a\0\0\x08"):
        recv(now, probe(HOST, record(HOST, A, address)))
        claims()
show("169.254.200.50 is later than 169.254.99.200: bytes are unsigned; and the other way round")
for own, theirs in ((bytes([169, 254, 99, 200]), bytes([169, 254, 200, 50])), (bytes([169, 254, 200, 50]), bytes([169, 254, 99, 200]))):
    start(a=own)
    tick(0)
    tick(0)
    recv(1, probe(HOST, record(HOST, A, theirs)))
    claims()
show("{A} is before {A, AAAA}; records in either order; repeats stay; class 3 and type 99 are later, class 0 and type 0 earlier")
six = record(HOST, AAAA, SIX)
ten = record(HOST, A, TEN)
for own, theirs in ((b"", [ten, six]), (b"", [six, ten]), (SIX, [ten]), (SIX, [six, ten]), (SIX, [ten, six]), (SIX, [six]), (b"", [ten, ten]), (SIX, [ten, ten, six]), (b"", [record(HOST, A, TEN, cls=3)]), (b"", [record(HOST, 99, b"")]), (b"", [record(HOST, A, TEN, cls=0)]), (b"", [record(HOST, 0, b"\xff")]), (b"", [record(HOST, A, TEN, cls=0x8001)]), (b"", [record(HOST, A, TEN, ttl=0)]), (b"", [record(INSTANCE, A, b"\xff" * 4), ten])):
    state("probing", aaaa=own)
    recv(1, probe(HOST, *theirs))
    claims()
show("the instance's probes: SRV and TXT in either order, names in SRV expanded, case counts there; TXT that goes on is later")
srv, strings = record(INSTANCE, SRV, OWN_SRV), record(INSTANCE, TXT, b"\0")
for theirs in ([srv, strings], [strings, srv], [strings], [srv], [strings, record(INSTANCE, SRV, bytes(4) + b"\x0f\xa0" + name(b"DOCK", b"local"))], [strings, record(INSTANCE, SRV, bytes(4) + b"\x0f\xa0" + name(b"eock", b"local"))], [record(INSTANCE, TXT, b"\0\0"), srv], [record(INSTANCE, TXT, b""), srv]):
    state("probing")
    recv(1, probe(INSTANCE, *theirs))
    claims()
state("probing")
p = query([question(INSTANCE)], authority=[record(pointer(12), TXT, b"\0"), record(pointer(12), SRV, bytes(4) + b"\x0f\xa0" + labels(b"dock") + pointer(30))])
recv(1, p)
claims()
show("no probes: a type other than 255, class 3, no Authority record under the name, a response; class 255 and the unicast bit are probes")
later = record(HOST, A, b"\xff" * 4)
for p in (query([question(HOST, A)], authority=[later]), query([question(HOST, 255, 3)], authority=[later]), query([question(HOST)], authority=[record(INSTANCE, A, b"\xff" * 4)]), query([question(HOST)], [later]), response(questions=[question(HOST)], authority=[record(HOST, 99, b"x")]), query([question(HOST, 255, 255)], authority=[later]), query([question(HOST, 255, 0x8001)], authority=[later]), query([question(name(b"DOCK", b"LOCAL"))], authority=[record(name(b"Dock", b"local"), A, b"\xff" * 4)])):
    state("probing")
    recv(1, p)
    claims()
show("a deferred claim begins again after 1,000 ms, with three probes")
now = state("deferred")
for t in (999, 1000, 1000, 1250, 1250, 1500, 1500, 1750, 1750, 2750, 2750):
    tick(t)
claims()
show("one probe for both names: each claim by itself")
state("probing")
recv(1, query([question(HOST), question(INSTANCE)], authority=[later, srv, strings]))
claims()

# --- conflicts ----------------------------------------------------------------------------------------------------------

other = record(HOST, A, b"\x0a\0\0\x08")
show("conflicts in each state: held goes back to waiting, any other is lost")
for which in STATES:
    now = state(which)
    recv(now, response([other]))
    claims()
    recv(now, response([record(INSTANCE, SRV, OWN_SRV[:5] + b"\0" + HOST)]))
    claims()
show("conflicts in any section of a response, also one with questions; two records count once")
for p in (response(authority=[other]), response(additional=[other]), response([other], questions=[question(HOST)]), response([other, other], additional=[other]), response([ten, other])):
    now = state("held")
    recv(now + 5, p)
    claims()
show("no conflicts: goodbyes, TTL with its top bit, the same rdata, class 3, type 99, an AAAA that we have not, PTR, a query; a response's questions are not answered")
for p in (response([record(HOST, A, b"\x0a\0\0\x08", ttl=0)]), response([record(HOST, A, b"\x0a\0\0\x08", ttl=0x80000001)]), response([ten]), response([record(HOST, A, b"\x0a\0\0\x08", cls=3)]), response([record(HOST, 99, b"x")]), response([six]), response([record(SERVICE, PTR, HOST)]), response([record(INSTANCE, PTR, HOST)]), query([question(HOST)], [other], [other]), response(questions=[question(HOST), question(INSTANCE), question(SERVICE)])):
    now = state("held")
    recv(now + 5000, p)
    claims()
show("class 1 with the top bit conflicts; owners in other case too; SRV whose target differs only in case conflicts")
for p in (response([record(HOST, A, b"\x0a\0\0\x08", cls=0x8001)]), response([record(name(b"DOCK", b"LOCAL"), A, b"\x0a\0\0\x08")]), response([record(INSTANCE, SRV, OWN_SRV[:6] + name(b"Dock", b"local"))]), response([record(INSTANCE, SRV, OWN_SRV)])):
    now = state("held")
    recv(now + 5, p)
    claims()
show("a held claim is lost to a conflict and won again: first probe at now plus the start draw, first announcement with all records")
start(0, 30)
for t in (30, 30, 280, 280, 530, 530, 780, 780):
    tick(t)
recv(900, response([other]))
claims()
for t in (929, 930, 1180, 1430, 1680, 1780, 2680, 2680):
    tick(t)
claims()
show("the second step leaves out what was multicast less than 1,000 ms ago: SRV and TXT, then all of the host's, where it is taken and passed")
state("announced", aaaa=SIX)
recv(1050, query([question(INSTANCE)], authority=[record(INSTANCE, TXT, b"\0")]))
recv(1051, query([question(HOST)], authority=[record(HOST, A, TEN)]))
for t in (1749, 1750, 1750, 1750):
    tick(t)
claims()
show("a record multicast 1,000 ms before its second step, by a late tick, and one 999 ms before")
for gap in (1000, 999):
    state("announced", aaaa=SIX)
    recv(1050, query([question(HOST), question(INSTANCE, SRV)], authority=[record(HOST, A, TEN)]))
    tick(1050 + gap)
    tick(1050 + gap)
    claims()

show("a conflict with the second announcement to come: it is not sent")
state("announced")
recv(760, response([other, record(INSTANCE, TXT, b"\1x")]))
claims()
tick(1750)
tick(1750)
claims()

# --- refusals -----------------------------------------------------------------------------------------------------------

show("refusals of a start, in the order 1, 2, 7; a refused start changes nothing")
start()
tick(0)
start(LATE + 1, 251, instance=b"")
start(0, 251, instance=b"")
start(0, 18446744073709551615)
start(0, 0, instance=b"")
start(0, 256 + 7)
claims()
show("refusals of a packet, in the order 1, 2, 3, 4, 5, 6, and none")
good = query([question(HOST)])
bad = header(qd=1, flags=0) + question(pointer(12))
start(100)
recv(99, good[:11], draw=19, port=53, out=(1451,))
recv(LATE + 1, good[:11], draw=19, port=53, out=(1451,))
recv(100, good[:11], draw=19, port=53, out=(1451,))
recv(100, good[:11], draw=121, port=53, out=(0,))
recv(100, good[:11], draw=276, port=53, out=(0,))
recv(100, good[:11], port=53, out=(1451,))
recv(100, good[:11], port=53)
recv(100, good + bytes(8973 - len(good)), port=53)
recv(100, good + bytes(8972 - len(good)))
recv(100, good, port=5354)
recv(100, good, port=5353 + 65536)
recv(100, header(qd=1) + question(pointer(12)), port=53)
recv(100, header(), port=5353 + 65536)
recv(100, bad, port=53)
recv(100, header(flags=0x0800))
recv(100, header(flags=0x000F))
recv(100, header(qd=1, flags=0x0001) + question(pointer(12)))
recv(100, bad)
recv(100, good, out=(1452,))
recv(100, good, out=(4096,))
recv(100, good, out=(4097,))
recv(100, good, draw=120)
claims()
show("refusals of a tick, in the order 1, 3; OUT over 4,096 is a bad line")
tick(99, 0)
tick(LATE + 1, 0)
tick(100, 1451)
tick(100, 1452)
tick(100, 4097)
tick(100, 4096)
claims()
show("times 0 and 2^62: the last steps are kept at 2^62 + 1,000 and never come")
start(LATE, 250)
claims()
tick(LATE)
start(LATE - 750)
for t in (LATE - 750, LATE - 750, LATE - 500, LATE - 500, LATE - 250, LATE - 250, LATE, LATE, LATE):
    tick(t)
claims()
recv(LATE, query([question(SERVICE, PTR)]), draw=120)
recv(LATE, response([other]))
claims()
tick(LATE + 1)

# --- set-ups ------------------------------------------------------------------------------------------------------------

show("service labels: 1 to 15 letters, digits or hyphens after '_', with a letter, no hyphen first, last or doubled")
for service in (b"", b"_", b"voice", b"_a", b"_1", b"_1a", b"_-a", b"_a-", b"_a--b", b"_a-b-c", b"_" + b"a" * 15, b"_" + b"a" * 16, b"_a_b", b"_VOICE", b"_a.b", b"_a\0", b"_" + b"a" * 256, b"_1-2", b"__a"):
    start(service=service)
show("protocol and domain labels, exactly; labels and TXT too long, also by 256; empty ones")
for protocol in (b"_udp", b"_TCP", b"_tcp\0", b"_tc", b"", b"_tcp" * 65):
    start(protocol=protocol)
for domain in (b"LOCAL", b"loca", b"local\0", b"", b"local" + b"x" * 256):
    start(domain=domain)
for n in (0, 1, 63, 64, 256, 257, 256 + 63, 512 + 5):
    start(instance=b"i" * n)
    start(host=b"h" * n)
for strings in (b"", b"\0", b"\1", b"\1x\0", b"\xff" + b"x" * 255 + b"\x8f" + b"y" * 143, b"\xff" + b"x" * 255 + b"\x90" + b"y" * 144, b"\0" * 400, b"\0" * 401, b"\0" * 656):
    start(txt=strings)
show("bytes of A and AAAA, and ports")
for a in (b"", TEN[:3], TEN + b"\0"):
    start(a=a)
for aaaa in (SIX[:15], SIX + b"\0", TEN):
    start(aaaa=aaaa)
for port in (0, 65535, 65536, 65536 + 4000):
    start(port=port)


def announced(what, **setup):
    show(what)
    start(**setup)
    for t in (0, 0, 250, 250, 500, 500, 750, 750):
        tick(t)
    claims()


def absent(instance, host):
    """Both NSEC alone, each with the other records of its name, and all that goes out at once."""
    asked = [question(owner, rtype) for owner in (labels(instance) + SERVICE, name(host, b"local")) for rtype in (255, 99)]
    for i, picked in enumerate(([1], [3], [1, 3], [0, 1], [2, 3], [0, 3], [0, 1, 2, 3])):
        recv(3000 + 1000 * i, query([asked[k] for k in picked]))


STRINGS = b"\xff" + b"x" * 255 + b"\x8f" + b"y" * 143
LONGEST = dict(instance=bytes(range(0x20, 0x5F)), service=b"_" + b"s" * 15, protocol=b"_udp", host=b"h" * 63, txt=STRINGS, aaaa=SIX, port=65535)
announced("longest labels and a TXT of 400 bytes: probes, announcements, and all that is asked for at once", **LONGEST)
longest = [labels(LONGEST[k]) for k in ("instance", "service", "protocol", "host")]
longest_host, longest_instance = longest[3] + name(b"local"), longest[0] + longest[1] + longest[2] + name(b"local")
recv(5000, query([question(longest_host), question(longest_instance)]))
show("the same with both NSEC; and these alone")
recv(6000, query([question(longest_host), question(longest_instance), question(longest_host, 99), question(longest_instance, 99)]))
recv(7000, query([question(longest_host, 99), question(longest_instance, 99)]))
recv(8000, query([question(longest_host, 99)]))
recv(9000, query([question(longest_instance, 99)]))
announced("host label '_tcp': the service's name and the host's share '_tcp.local'", host=b"_tcp")
absent(b"booth", b"_tcp")
announced("host label '_voice' and instance label '_tcp'", host=b"_voice", instance=b"_tcp")
announced("host and instance label the same", host=b"booth")
absent(b"booth", b"booth")
announced("labels that differ only in case are not pointed at: host 'Booth', instance 'booth'", host=b"Booth")
absent(b"booth", b"Booth")
announced("host label '_TCP' is not pointed at", host=b"_TCP")
announced("labels with dots, bytes past ASCII, zero bytes and the bytes of 'local'", instance=b"a.b \xc3\xbf", host=b"\0\xff\5local\0")
announced("host label 'local', instance label 'local'", instance=b"local", host=b"local")
absent(b"local", b"local")
announced("TXT with the bytes of a name is never pointed at", txt=b"\x0c" + HOST + b"\7\5local\0", host=b"dock")
absent(b"booth", b"dock")
announced("host label with the bytes of the labels of other names", host=b"x\6_voice\4_tcp\5local\0")
announced("instance label that reads as the labels after it, with dots", instance=b"x._voice._tcp.local", host=b"x")
show("names asked for in other case, and through pointers")
recv(9000, query([question(name(b"X", b"LOCAL"), A), question(pointer(14), A)]))
recv(11000, query([question(name(b"y", b"x", b"local"), A), question(pointer(14), A)]))

# --- instance labels ----------------------------------------------------------------------------------------------------

ACUTE, COFFEE, CRAB = "\u00e9".encode(), "\u2615".encode(), "\U0001f980".encode()


def placed(form):
    """Set-ups whose instance label is a form alone, at the end, in front and in the middle of text, and behind another form."""
    for label in (form, b"a" + form, form + b"b", b"a" + form + b"b", ACUTE + form + CRAB):
        start(instance=label)


show("bytes 00 to 1f and 7f in an instance label are refused as 7, wherever they stand; 20 and 7e are not")
for b in (*range(0x20), 0x7F, 0x20, 0x7E):
    placed(bytes([b]))
show("each byte 80 to ff alone is no UTF-8")
for b in range(0x80, 0x100):
    start(instance=bytes([b]))
show("forms of two bytes: from C2 80 to DF BF; C0 and C1 begin overlong ones; 7e, 7f, c0 and c2 are no tail")
for form in ("c080", "c0af", "c0bf", "c180", "c1bf", "c280", "c285", "c29f", "c2a0", "c2bf", "df80", "dfbf", "c27e", "c27f", "c2c0", "c2c280", "dfc0", "df41"):
    placed(bytes.fromhex(form))
show("forms of three bytes: after E0 from A0, which leaves out overlong ones; after ED to 9F, which leaves out surrogates; U+FEFF, U+FFFE and U+FFFF are legal")
for form in ("e08080", "e09fbf", "e0a080", "e0bfbf", "e0c080", "e17f80", "e18080", "e1bfbf", "ecbfbf", "ed8080", "ed9fbf", "eda080", "edafbf", "edb080",
             "edbfbf", "ee8080", "efbbbf", "efbfbd", "efbfbe", "efbfbf", "efbf7f", "efbfc0", "efc080", "e1807e", "e180e1", "eda080edb080"):
    placed(bytes.fromhex(form))
show("forms of four bytes: after F0 from 90, which leaves out overlong ones; after F4 to 8F, which is U+10FFFF; F5 and up begin none")
for form in ("f0808080", "f08fbfbf", "f0908080", "f0bfbfbf", "f0c08080", "f18080c0", "f180c080", "f1c08080", "f17e8080", "f1807e80", "f180807e", "f1808080",
             "f3bfbfbf", "f4808080", "f48fbfbf", "f4908080", "f4bfbfbf", "f5808080", "f6bfbfbf", "f7bfbfbf", "f888808080", "fbbfbfbfbf", "fc8480808080",
             "fdbfbfbfbfbf", "fe", "ff", "feff", "fffe"):
    placed(bytes.fromhex(form))
show("each form cut short, at the label's end and in the middle")
for form in ("c280", "dfbf", "e0a080", "e18080", "ecbfbf", "ed9fbf", "ee8080", "efbfbf", "f0908080", "f1808080", "f3bfbfbf", "f48fbfbf"):
    for cut in range(1, len(form) // 2):
        placed(bytes.fromhex(form)[:cut])
show("forms of one, two, three and four bytes in a row; a tail too many behind each")
start(instance=b"a" + ACUTE + COFFEE + CRAB)
for form in (b"a", ACUTE, COFFEE, CRAB):
    placed(form + b"\x80")
show("63 bytes that end in a whole form of two, three and four bytes; in one that is cut; and 64 bytes, of which the last completes it")
for form in (ACUTE, COFFEE, CRAB):
    start(instance=b"a" * (63 - len(form)) + form)
    for cut in range(1, len(form)):
        start(instance=b"a" * (63 - cut) + form[:cut])
        start(instance=b"a" * (63 - cut) + form)
start(instance=CRAB * 15 + COFFEE)
start(instance=CRAB * 16)
start(instance=COFFEE * 21)
start(instance=ACUTE * 31 + b"\n")
start(instance=b"\n" * 63)
start(instance=b"\n" * 64)
show("the order 1, 2, 7 with a line feed in the instance label; a refused start changes nothing")
start(5)
tick(5)
start(LATE + 1, 251, instance=b"two\nlines")
start(LATE, 251, instance=b"two\nlines")
start(LATE, 250, instance=b"two\nlines")
claims()
show("the instance label alone is judged so: any bytes in the host's, and in TXT strings")
for label in (b"\n", b"\x7f", b"\0" * 63, b"\xff", b"\xc0\x80", b"\xed\xa0\x80", ACUTE[:1], bytes(range(63))):
    start(host=label)
    start(host=label, instance=label)
start(txt=b"\4\n\0\x7f\xff")
announced("an instance label of forms of all lengths: probes, announcements", instance=b"Caf" + ACUTE + b" " + COFFEE + CRAB)
show("letters past ASCII do not fold: asked for with a capital E acute it is another name; with ASCII capitals it is the same")
full = name(b"_voice", b"_tcp", b"local")
recv(5000, query([question(labels(b"Caf" + "\u00c9".encode() + b" " + COFFEE + CRAB) + full, SRV)]))
recv(5000, query([question(labels(b"CAF" + ACUTE + b" " + COFFEE + CRAB) + full, SRV)]))
ODD = b"two\nlines\x7f\xc0\xff"
odd = name(ODD, b"local")
announced("a host label with a line feed, DEL and bytes that are no UTF-8 is probed for and announced", host=ODD)
show("names with such bytes are received as before: questions, an instance of another, probes and conflicts")
recv(5000, query([question(odd, A), question(labels(ODD) + full, SRV)]))
recv(6000, response([record(full, PTR, labels(ODD) + full)], additional=[record(labels(ODD) + full, TXT, b"\1x")]))
claims()
recv(6000, query([question(odd)], authority=[record(odd, A, TEN)]))
recv(7000, response([record(odd, A, b"\x0a\0\0\x08")]))
claims()

show("all bytes of the out buffer past a packet are kept; a refused call keeps them all")
out(0, 400)
tick(11000, 1451)
recv(11000, b"")
out(0, 400)

show("fields that are missing, left over, or not of their form")
for bad in ("start", "start 0 0 61 5f61 5f746370 61 6c6f63616c 1 00 0a000007", "start 0 0 61 5f61 5f746370 61 6c6f63616c 1 00 0a000007 - 0", "start - 0 61 5f61 5f746370 61 6c6f63616c 1 00 0a000007 -",
            "start 0 x 61 5f61 5f746370 61 6c6f63616c 1 00 0a000007 -", "start 0 0 6 5f61 5f746370 61 6c6f63616c 1 00 0a000007 -", "start 0 0 61 5f61 5f746370 61 6c6f63616c -1 00 0a000007 -", "start 0 0 61 5f61 5f746370 61 6c6f63616c 1 00 0A000007 -",
            "start 000 00 61 5F61 5f746370 61 6c6f63616c 00004000 00 0a000007 -", "recv", "recv 0 0a000001 5353 20 400", "recv 0 0a000001 5353 20 400 0", "recv 0 0a000001 5353 - 400 00", "recv 0 0a000001 5353 20 400 00 1452 0", "recv 0 0a000001 5353 20 400 00 -", "recv 0 0a000001 5353 20 400 00 ", "recv 18446744073709551616 0a000001 5353 20 400 00",
            "recv 0 0a000001 18446744073709551615 20 400 000000000000000000000000", "recv 0 0a000001 005353 00020 00400 000000000000000000000000 04096", "tick", "tick ", "tick -", "tick 0 -", "tick 0 1452 0", "tick 0 18446744073709551616", "tick 0 18446744073709551615", "claims ", "claims 0", "out", "out 0", "out 0 0", "out 0 0 0", "out - 0", "out 0 -", "out 0 4097", "out 1 4096", "out 1 18446744073709551615", "Claims"):
    print(bad)
claims()
