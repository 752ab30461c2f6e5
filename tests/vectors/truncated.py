#!/usr/bin/env python3
# Writes the console script of truncated known answers: queries with TC that are held, what is added to them, and what they are answered with (RFC 6762,
# 7.2). Run by make.sh; the expected answers come from the reference program.
import sys

sys.dont_write_bytecode = True
from calls import *

TC = 0x0200
SOURCES = [bytes([10, 0, 0, n]) for n in range(1, 7)]
PTR_KNOWN = record(SERVICE, PTR, INSTANCE, ttl=4500)
SRV_KNOWN = record(INSTANCE, SRV, OWN_SRV)
TXT_KNOWN = record(INSTANCE, TXT, b"\0", ttl=4500)
A_KNOWN = record(HOST, A, TEN)
HOST_NSEC_KNOWN = record(HOST, NSEC, HOST + window(0x40))
INSTANCE_NSEC_KNOWN = record(INSTANCE, NSEC, INSTANCE + window(0, 0, 0x80, 0, 0x40))
ALL = [question(SERVICE, PTR), question(INSTANCE), question(HOST), question(HOST, AAAA), question(INSTANCE, AAAA)]
ALL_KNOWN = [PTR_KNOWN, SRV_KNOWN, TXT_KNOWN, A_KNOWN, HOST_NSEC_KNOWN, INSTANCE_NSEC_KNOWN]
OTHER_A = record(HOST, A, b"\xff" * 4)


def ask(now, questions=(), known=(), source=SOURCES[0], hold=400, tc=True, **more):
    recv(now, query(list(questions), known, more.pop("authority", ()), flags=TC if tc else 0), source=source, hold=hold, **more)


def ticks(now, count):
    for _ in range(count):
        tick(now)


# --- one hold -----------------------------------------------------------------------------------------------------------

show("a truncated query is held for the second draw: quiet, then not due, then all that it asked for in one packet, PTR and NSEC too; no PTR reply is set")
for aaaa in (b"", SIX):
    for hold in (400, 401, 499, 500):
        now = state("held", aaaa=aaaa) + 2000
        ask(now, ALL, hold=hold)
        holds()
        claims()
        tick(now + hold - 1)
        tick(now + hold)
        holds()
        tick(now + hold)
show("draws of 399 and 501 are refused as 2, whatever the packet and the port; so are those equal to a good one in fewer bits; the first draw is tested too")
now = state("held") + 2000
for hold in (0, 20, 120, 399, 501, 256 + 400, 65536 + 400, (1 << 32) + 450, 18446744073709551615):
    ask(now, ALL, hold=hold)
    ask(now, ALL, hold=hold, tc=False)
    recv(now, response([OTHER_A]), hold=hold)
    recv(now, query([question(HOST, A)]), hold=hold, port=1024)
ask(now, ALL, draw=19)
ask(now, ALL, draw=121, hold=450)
ask(now, ALL, draw=450, hold=100)
show("the order of refusals with the second draw: 1 before 2 before 3, 4, 5 and 6")
recv(now - 2001, b"", draw=20, hold=399, out=(0,))
recv(now, b"", draw=20, hold=399, out=(0,))
recv(now, b"", draw=20, hold=501, port=1024)
recv(now, b"", hold=400, out=(1451,))
recv(now, b"", hold=400)
recv(now, header(flags=0x0A00), hold=400)
recv(now, header(qd=1, flags=TC) + question(pointer(12)), hold=400)
holds()
claims()
show("what is asked for: each record alone, in other case, of class 255, of class 3; the answer waits for the hold")
for q in (question(SERVICE, PTR), question(SERVICE), question(INSTANCE, SRV), question(INSTANCE, TXT), question(HOST, A), question(HOST, 28), question(INSTANCE, 28),
          question(name(b"DOCK", b"LOCAL")), question(HOST, A, 255), question(HOST, A, 0x8001), question(HOST, A, 3), question(HOST, 99, 3)):
    now = state("held") + 2000
    ask(now, [q])
    tick(now + 400)
    tick(now + 400)
show("one that asks for nothing of ours, and one without a question, are held too, and pass without a packet")
now = state("held") + 2000
ask(now)
ask(now, [question(name(b"x", b"local"))], source=SOURCES[1])
holds()
tick(now + 400)
holds()
show("what it knows itself: each at half its TTL, and one second less; other data, class, section or owner is not known")
for known in ([record(SERVICE, PTR, INSTANCE, ttl=2250)], [record(SERVICE, PTR, INSTANCE, ttl=2249)], [record(INSTANCE, SRV, OWN_SRV, ttl=60)], [record(INSTANCE, SRV, OWN_SRV, ttl=59)],
              [record(INSTANCE, TXT, b"\0", ttl=2250)], [record(INSTANCE, TXT, b"\0", ttl=2249)], [record(HOST, A, TEN, ttl=60)], [record(HOST, A, TEN, ttl=59)], [HOST_NSEC_KNOWN],
              [INSTANCE_NSEC_KNOWN], [record(HOST, A, TEN, cls=3)], [record(HOST, A, b"\x0a\0\0\x08")], [record(INSTANCE, A, TEN)], ALL_KNOWN):
    now = state("held") + 2000
    ask(now, ALL, known)
    tick(now + 400)
    holds()
now = state("held") + 2000
ask(now, ALL, authority=[A_KNOWN, PTR_KNOWN])
tick(now + 400)

# --- what is added ------------------------------------------------------------------------------------------------------

show("known answers of later queries from that address are added: with TC and without, one by one, by their TTL at arrival")
for tc in (True, False):
    for known in ([PTR_KNOWN], [A_KNOWN], [HOST_NSEC_KNOWN], [record(SERVICE, PTR, INSTANCE, ttl=2249)], [record(SERVICE, PTR, INSTANCE, ttl=2250)], ALL_KNOWN):
        now = state("held") + 2000
        ask(now, ALL)
        ask(now + 100, known=known, tc=tc, hold=500)
        holds()
        tick(now + 400)
        holds()
now = state("held") + 2000
ask(now, ALL)
for i, known in enumerate(ALL_KNOWN):
    ask(now + 60 * i, known=[known])
holds()
tick(now + 400)
holds()
show("not those from another address, from another port, of a response, of Authority or Additional; nor those that came before it")
for source, port, flags, sections in ((SOURCES[1], 5353, 0, 0), (SOURCES[0], 1024, 0, 0), (SOURCES[0], 5353, 0x8400, 0), (SOURCES[0], 5353, 0, 1), (SOURCES[0], 5353, 0, 2), (SOURCES[0], 5353, 0x0010, 0)):
    now = state("held") + 2000
    ask(now, ALL)
    counts = [0, 0, 0]
    counts[sections] = len(ALL_KNOWN)
    recv(now + 1, header(0, *counts, flags=flags) + b"".join(ALL_KNOWN), source=source, port=port)
    tick(now + 400)
now = state("held") + 2000
ask(now, known=ALL_KNOWN, tc=False)
ask(now, ALL)
tick(now + 400)
show("an addition in the ms in which it is due, and one after it is due and not yet taken, still count; one after it is taken does not")
for late in (0, 30):
    now = state("held") + 2000
    ask(now, ALL)
    ask(now + 400 + late, known=ALL_KNOWN[:4], tc=False)
    tick(now + 400 + late)
    holds()
now = state("held") + 2000
ask(now, [question(HOST, A)])
tick(now + 400)
ask(now + 400, known=[A_KNOWN], tc=False)
ask(now + 1400, [question(HOST, A)])
tick(now + 1800)
show("what a malformed or refused call carries is not added")
now = state("held") + 2000
ask(now, [question(HOST, A)])
recv(now + 1, (query([], [A_KNOWN]))[:-1])
recv(now + 1, query([], [A_KNOWN]), hold=399)
recv(now + 1, query([], [A_KNOWN]), out=(1451,))
recv(now - 1, query([], [A_KNOWN]))
tick(now + 400)

# --- the same address again ---------------------------------------------------------------------------------------------

show("the same address again, with TC and without: no second hold, the due time stays, and its questions are judged at once by its own Answers")
for tc in (True, False):
    now = state("held") + 2000
    ask(now, [question(INSTANCE, TXT)], [A_KNOWN])
    ask(now + 1, [question(HOST, A), question(SERVICE, PTR)], tc=tc, hold=500, draw=77)
    holds()
    claims()
    ask(now + 2, [question(INSTANCE, SRV)], [SRV_KNOWN], tc=tc)
    tick(now + 78)
    tick(now + 400)
    holds()
show("a hold that is due and not yet taken keeps its place: no second one; once it is taken a new one is held, in the same ms too")
now = state("held") + 2000
ask(now, [question(INSTANCE, TXT)])
ask(now + 400, [question(HOST, A)])
ask(now + 450, [question(INSTANCE, SRV)])
holds()
tick(now + 450)
ask(now + 450, [question(INSTANCE)], hold=500)
holds()
tick(now + 950)
tick(now + 1450)
show("IPv4 addresses are the mapped ones: 10.0.0.1 and ::ffff:10.0.0.1 are one, ::10.0.0.1 another; addresses that differ in one byte are two")
now = state("held") + 2000
mapped = bytes(10) + b"\xff\xff" + SOURCES[0]
ask(now, ALL, source=SOURCES[0])
ask(now, ALL, source=mapped, hold=500)
holds()
ask(now, source=bytes(12) + SOURCES[0], hold=500)
holds()
ask(now, known=[A_KNOWN], source=mapped, tc=False)
tick(now + 400)
for at in range(16):
    state("held")
    ask(5000, source=SIX)
    other = bytearray(SIX)
    other[at] ^= 1
    ask(5000, source=bytes(other), hold=401)
    holds()

# --- four and a fifth ---------------------------------------------------------------------------------------------------

show("four are held; a fifth is judged as if without TC, by its own Answers, and its PTR is set for a reply by the first draw")
now = state("held") + 2000
for i, source in enumerate(SOURCES[:4]):
    ask(now + i, [question(INSTANCE, TXT)], source=source)
holds()
ask(now + 4, [question(HOST, A), question(SERVICE, PTR)], [PTR_KNOWN], source=SOURCES[4])
ask(now + 5, [question(SERVICE, PTR)], source=SOURCES[4], draw=33)
ask(now + 6, [question(INSTANCE, SRV)], [SRV_KNOWN], source=SOURCES[5])
holds()
claims()
show("what the fifth knows is added to nobody; the four still take theirs; when one is taken there is room again")
ask(now + 7, known=[TXT_KNOWN], source=SOURCES[4])
ask(now + 7, known=[TXT_KNOWN], source=SOURCES[1])
tick(now + 38)
ticks(now + 400, 2)
holds()
ask(now + 400, [question(INSTANCE, SRV)], source=SOURCES[4], hold=450)
holds()
ask(now + 400, [question(INSTANCE, SRV)], source=SOURCES[5], hold=450)
ticks(now + 403, 2)
holds()
ticks(now + 850, 2)
holds()
show("four holds of nothing of ours keep a fifth out as well; a start has none")
now = state("held") + 2000
for source in SOURCES[:4]:
    ask(now, source=source)
ask(now, ALL, source=SOURCES[4])
holds()
start(now)
holds()

# --- order --------------------------------------------------------------------------------------------------------------

show("among those that are due the one that came first goes first, whatever their due times; each in a packet of its own, more is said")
asked = [question(HOST, A), question(SERVICE, PTR), question(INSTANCE, TXT), question(INSTANCE, SRV)]
for draws in ((500, 400, 450, 430), (400, 500, 450, 430), (430, 430, 430, 430), (403, 402, 401, 400)):
    now = state("held") + 2000
    for source, q, hold in zip(SOURCES, asked, draws):
        ask(now, [q], source=source, hold=hold)
    holds()
    ticks(now + 500, 5)
    now = state("held") + 2000
    for source, q, hold in zip(SOURCES, asked, draws):
        ask(now, [q], source=source, hold=hold)
    for t in sorted(set(draws)):
        ticks(now + t, 2)
        holds()
show("one with nothing to send is taken and passed, and the next goes in the same tick")
now = state("held") + 2000
ask(now, source=SOURCES[0])
ask(now, [question(HOST, A)], [A_KNOWN], source=SOURCES[1])
ask(now, [question(HOST, A)], source=SOURCES[2])
ask(now, [question(HOST, A)], source=SOURCES[3])
tick(now + 400)
holds()
tick(now + 400)
holds()
show("a hold is the last step: after the instance's, the host's and the PTR reply; more counts it, alone too")
state("announced", aaaa=SIX)
ask(1350, ALL)
ask(1650, [question(SERVICE, PTR)], source=SOURCES[1], tc=False)
recv(1750, query([question(SERVICE, PTR)]), draw=20, source=SOURCES[2])
ticks(1770, 5)
holds()
now = state("held") + 2000
ask(now, ALL)
recv(now + 300, query([question(SERVICE, PTR)]), draw=100, source=SOURCES[1])
ticks(now + 400, 3)
holds()
show("a PTR reply that is set stays set when a hold answers PTR, and is dropped at its step for the gap")
now = state("held") + 2000
ask(now, ALL)
recv(now + 390, query([question(SERVICE, PTR)]), draw=120, source=SOURCES[1])
tick(now + 400)
claims()
tick(now + 510)
claims()
show("one that is late is answered when a tick comes")
now = state("held") + 2000
ask(now, ALL)
tick(now + 90000)
holds()

# --- claims -------------------------------------------------------------------------------------------------------------

show("a claim lost or gone back to waiting in between: its records are left out, and where nothing is left nothing is sent")
for conflicts in ([OTHER_A], [record(INSTANCE, TXT, b"\1x")], [OTHER_A, record(INSTANCE, TXT, b"\1x")]):
    for times in (1, 2):
        now = state("held") + 2000
        ask(now, ALL)
        for i in range(times):
            recv(now + 1 + i, response(conflicts))
        claims()
        recv(now + 9, query([], ALL_KNOWN), source=SOURCES[1])
        tick(now + 400)
        ticks(now + 400, 3)
        holds()
show("a claim won in between: what was asked for is kept of a claim that is not held, in each state; a gap of 1,000 ms after the announcement")
for which in STATES:
    now = state(which)
    ask(now, ALL, hold=500)
    holds()
    for t in range(now, now + 800, 50):
        ticks(t, 3)
    holds()
    claims()
for first in (260, 499, 500):
    start()
    for t in (0, 0, 250, 250):
        tick(t)
    ask(first, ALL, hold=500)
    for t in (500, 500, 750, 750, first + 500, first + 500):
        tick(t)
    holds()
show("a name won, and the hold's step 1,000 ms after the announcement: ticks that come late")
start()
for t in (0, 0, 250, 250, 500, 500):
    tick(t)
ask(700, ALL)
for t in (750, 750, 1749):
    tick(t)
holds()
start()
for t in (0, 0, 250, 250, 500, 500):
    tick(t)
ask(700, ALL)
ticks(750, 2)
ticks(1750, 4)
holds()

# --- gaps ---------------------------------------------------------------------------------------------------------------

show("the gap at the step: multicast 999 ms before it is left out, 1,000 ms before it goes; the gap when it arrived is of no matter")
for gap in (999, 1000):
    now = state("held") + 2000
    recv(now, query(ALL[1:]), source=SOURCES[5])
    ask(now + gap - 400, ALL)
    tick(now + gap)
show("sent to another in between: left out; answered by a hold it is a multicast, which the next hold and a query obey")
now = state("held") + 2000
ask(now, [question(HOST, A), question(INSTANCE, TXT)])
ask(now, [question(HOST, A), question(INSTANCE, SRV)], source=SOURCES[1])
recv(now + 100, query([question(INSTANCE, TXT)]), source=SOURCES[2])
ticks(now + 400, 3)
recv(now + 1399, query([question(HOST, A)]))
recv(now + 1400, query([question(HOST, A)]))
recv(now + 1400, query([question(SERVICE, PTR)]))
claims()
show("a hold's gap is 1,000 ms where a probe's is 250, which came in between")
now = state("held") + 2000
ask(now, [question(HOST, A)])
recv(now + 100, probe(HOST, record(HOST, A, TEN)), source=SOURCES[1])
tick(now + 400)
holds()
show("each record has its own gap, the two NSEC too")
now = state("held", aaaa=SIX) + 2000
for i, q in enumerate((question(INSTANCE, SRV), question(INSTANCE, TXT), question(HOST, A), question(HOST, AAAA), question(INSTANCE, A), question(HOST, TXT))):
    now += 3000
    recv(now, query([q]))
    ask(now + 1, [question(SERVICE, PTR), question(INSTANCE), question(HOST), question(HOST, 99), question(INSTANCE, 99)])
    tick(now + 401)

# --- probes and ports ---------------------------------------------------------------------------------------------------

show("a probe with TC is never held: answered at once when the claim is held, it defers when it is later, in whatever state the claim is")
for which in STATES:
    now = state(which)
    recv(now + 5, query([question(HOST)], authority=[OTHER_A], flags=TC))
    recv(now + 5, query([question(INSTANCE, 255, 255)], authority=[record(INSTANCE, SRV, b"\xff" * 6 + HOST)], flags=TC))
    holds()
    claims()
show("nor with other questions beside it; one of another type, class or name, or without a record under the name, is no probe and is held")
now = state("held") + 2000
for questions, authority in (([question(HOST), question(SERVICE, PTR)], [A_KNOWN]), ([question(SERVICE, PTR), question(INSTANCE)], [A_KNOWN, TXT_KNOWN]), ([question(HOST, A)], [A_KNOWN]), ([question(HOST, 255, 3)], [A_KNOWN]),
                             ([question(name(b"x", b"local"))], [record(name(b"x", b"local"), A, TEN)]), ([question(HOST)], [TXT_KNOWN]), ([question(HOST)], [])):
    now += 5000
    ask(now, questions, authority=authority)
    holds()
    claims()
    ticks(now + 400, 2)
show("a probe from an address of which a query is held: what it knows is added, it is answered at once by its own Answers and gaps of 250 ms")
now = state("held") + 2000
ask(now, ALL)
recv(now + 1, query([question(HOST)], [TXT_KNOWN], [A_KNOWN]))
recv(now + 250, query([question(HOST)], [PTR_KNOWN], [A_KNOWN], flags=TC))
recv(now + 251, query([question(HOST)], [SRV_KNOWN], [A_KNOWN]))
holds()
tick(now + 400)
show("queries from other ports are not held, and add nothing; a truncated one of one question gets its reply at once")
now = state("held") + 2000
for port in (0, 1024, 5354, 5353 + 65536):
    recv(now, query([question(HOST, A)], flags=TC), port=port)
    recv(now, query(ALL, flags=TC), port=port)
    holds()
show("a response with TC is a response")
recv(now, header(qd=1, flags=0x8600) + question(HOST, A))
recv(now, header(an=1, flags=0x8600) + OTHER_A)
holds()
claims()

# --- a browser that knows many ------------------------------------------------------------------------------------------

show("the request's case: a browser asks for the service and lists what it knows in three packets, ours in the first, second, third, or in none")
others = [record(SERVICE, PTR, name(b"booth %d" % i, b"_voice", b"_tcp", b"local"), ttl=4500) for i in range(40)]
for at in (0, 1, 2, None):
    now = state("held") + 2000
    for i in range(3):
        known = others[13 * i:13 * i + 13] + ([PTR_KNOWN] if i == at else [])
        ask(now + i, [question(SERVICE, PTR)] if i == 0 else [], known, tc=i < 2, source=SIX)
    claims()
    tick(now + 120)
    tick(now + 400)
    holds()

# --- times and form -----------------------------------------------------------------------------------------------------

show("at 2^62: a hold is kept at 2^62 + 500, which later calls accept, and never comes")
start(LATE - 1000)
for t in (LATE - 1000, LATE - 750, LATE - 500, LATE - 250):
    ticks(t, 2)
ask(LATE, ALL, hold=500)
holds()
tick(LATE)
ask(LATE, [question(HOST, A)], hold=500)
holds()
claims()
tick(LATE + 1)
show("before any start, and after a refused one")
print("start 0 0 - 5f61 5f746370 61 6c6f63616c 1 00 0a000007 -")
holds()
show("fields that are missing, left over, or not of their form")
EMPTY = "000002000000000000000000"
for bad in ("recv 5000 5353 20 " + EMPTY, "recv 5000 0a000001 5353 20 " + EMPTY, "recv 5000 - 5353 20 400 " + EMPTY, "recv 5000 0a0000 5353 20 400 " + EMPTY, "recv 5000 0a00000101 5353 20 400 " + EMPTY, "recv 5000 0a00001 5353 20 400 " + EMPTY,
            "recv 5000 " + "00" * 15 + " 5353 20 400 " + EMPTY, "recv 5000 " + "00" * 17 + " 5353 20 400 " + EMPTY, "recv 5000 0g000001 5353 20 400 " + EMPTY, "recv 5000 10.0.0.1 5353 20 400 " + EMPTY, "recv 5000 0a000001 5353 20 - " + EMPTY,
            "recv 5000 0a000001 5353 20 400 " + EMPTY + " -", "recv 5000 0a000001 5353 20 400 " + EMPTY + " 4097", "recv 5000 0a000001 5353 20 400", "recv 5000 0a000001 5353 20 400 ", "recv 5000 0a000001 5353 20  400 " + EMPTY,
            "recv 5000 0a000001 5353 20 18446744073709551616 " + EMPTY, "holds 0", "holds ", "hold", "Holds", "holds -"):
    start(0)
    print(bad)
    holds()
    claims()
for good in ("recv 5000 0A0000fF 5353 20 0400 " + EMPTY, "recv 5000 " + "fE" * 16 + " 5353 20 500 " + EMPTY + " 1452", "recv 5000 00000000 05353 020 450 " + EMPTY + " 4096"):
    start(0)
    print(good)
    holds()
