#!/usr/bin/env python3
# Writes the console script of questions that want unicast: the top bit of a question's class, the second out buffer (RFC 6762, 5.4 and 18.1). Run by
# make.sh; the expected answers come from the reference program.
import sys

sys.dont_write_bytecode = True
from calls import *

QU, QM = 0x8001, 1
TC = 0x0200
SHORT, LONG = 30000, 1125000  # a quarter of 120 s and of 4,500 s
PTR_KNOWN = record(SERVICE, PTR, INSTANCE, ttl=4500)
SRV_KNOWN = record(INSTANCE, SRV, OWN_SRV)
TXT_KNOWN = record(INSTANCE, TXT, b"\0", ttl=4500)
A_KNOWN = record(HOST, A, TEN)
OTHER_A = record(HOST, A, b"\xff" * 4)
OTHER_SRV = record(INSTANCE, SRV, b"\xff" * 6 + HOST)
# each record with a question for it; AAAA asks for the host's NSEC where there is none
EACH = [(SERVICE, PTR), (INSTANCE, SRV), (INSTANCE, TXT), (HOST, A), (HOST, AAAA), (INSTANCE, 99), (HOST, 99)]


def asked(*pairs, cls=QU):
    return [question(owner, rtype, cls) for owner, rtype in pairs]


def ask(now, questions, known=(), ident=0x1234, **more):
    recv(now, query(questions, known, more.pop("authority", ()), flags=more.pop("flags", 0), ident=ident), **more)


def both():
    """Parts of the two out buffers."""
    out(0, 80)
    unicast(0, 80)


# --- the probe's bit ----------------------------------------------------------------------------------------------------

show("own probes set the bit: 00 ff 80 01 in the question of the 44-byte probe; their records' class is 1; announcements are as before")
for aaaa in (b"", SIX):
    start(aaaa=aaaa)
    for t in (0, 0, 250, 250, 500, 500, 750, 750):
        tick(t)
show("asked after 249 ms by a probe without the bit: omitted; after 250 ms: sent; with the bit it is answered by unicast at once, after 249 ms and after 250 ms")
for cls in (QM, 255, QU, 0x80FF):
    for gap in (0, 1, 249, 250, 999, 1000):
        now = state("held")
        recv(now + gap, query([question(HOST, 255, cls)], authority=[A_KNOWN]))
        recv(now + gap, query([question(INSTANCE, 255, cls)], authority=[OTHER_SRV]))
        claims()
show("our own probe comes back to a responder of the same names and other data that holds them: the defence goes to the asker alone")
now = state("held", aaaa=SIX)
for record_of, owner in ((OTHER_A, HOST), (OTHER_SRV, INSTANCE)):
    recv(now, query([question(owner, 255, QU)], authority=[record_of]), source=bytes([10, 0, 0, 2]))
    recv(now, query([question(owner, 255, QU)], authority=[record_of]), source=bytes([10, 0, 0, 2]))
claims()

# --- what goes by unicast -----------------------------------------------------------------------------------------------

show("each record alone, asked for with the bit, right after the second announcement: by unicast, PTR at once; NSEC, never multicast yet, by multicast, and then by unicast")
for aaaa in (b"", SIX):
    now = state("held", aaaa=aaaa)
    for pair in EACH:
        for ident in (0, 0xBEEF):
            ask(now, asked(pair), ident=ident)
        claims()
show("the answer's ID is the query's, its flags are not; the multicast beside it has ID 0")
now = state("held")
for ident in (0, 1, 0x00FF, 0xFF00, 0xFFFF):
    ask(now, asked((HOST, A)), ident=ident)
for flags in (0x0100, 0x0010, 0x0020, 0x0040, 0x0400, 0x0080, 0x05F0):
    ask(now, asked((HOST, A)), flags=flags)
show("all that there is, asked for with the bit: one packet, no question, in the order of responses, own classes and TTLs; no PTR reply is set")
for aaaa in (b"", SIX):
    now = state("held", aaaa=aaaa)
    ask(now, asked(*EACH))
    ask(now, asked(*EACH))
    ask(now, asked(*reversed(EACH)))
    claims()
    both()
show("every set of PTR, SRV, TXT and A, asked for with the bit and, the others, without it: both packets in one call")
for subset in range(16):
    now = state("held") + 2000
    pairs = EACH[:4]
    ask(now, [question(owner, rtype, QU if subset >> i & 1 else QM) for i, (owner, rtype) in enumerate(pairs)])
    claims()
    both()
show("type 255 and class 255 with the bit; names in other case; class 3 and 0 with the bit ask for nothing")
now = state("held", aaaa=SIX)
for owner in (HOST, INSTANCE, SERVICE, name(b"DOCK", b"LOCAL"), name(b"BOOTH", b"_voice", b"_TCP", b"local")):
    for cls in (QU, 0x80FF, 0x8003, 0x8000, 0x80FE):
        ask(now, [question(owner, 255, cls)])
show("names that are not ours")
for owner in (name(b"deck", b"local"), name(b"x", b"dock", b"local"), name(b"local"), b"\0"):
    ask(now, [question(owner, 255, QU)])
show("set-ups whose names share labels: names are cut in the unicast packet as in any")
for host, instance in ((b"_tcp", b"booth"), (b"booth", b"booth"), (b"Booth", b"booth"), (b"local", b"local")):
    start(host=host, instance=instance, aaaa=SIX, txt=b"\x0c" + HOST)
    for t in (0, 0, 250, 250, 500, 500, 750, 750):
        tick(t)
    ask(750, asked((SERVICE, PTR), (name(instance, b"_voice", b"_tcp", b"local"), 255), (name(host, b"local"), 255)))
show("longest labels and a TXT of 400 bytes: the largest unicast packet, all five and both NSEC")
start(instance=b"i" * 63, service=b"_" + b"s" * 15, host=b"h" * 63, txt=b"\xff" + b"x" * 255 + b"\x8f" + b"y" * 143, aaaa=SIX)
for t in (0, 0, 250, 250, 500, 500, 750, 750):
    tick(t)
longest = [name(b"_" + b"s" * 15, b"_tcp", b"local"), name(b"i" * 63, b"_" + b"s" * 15, b"_tcp", b"local"), name(b"h" * 63, b"local")]
ask(750, asked((longest[1], 99), (longest[2], 99)))
ask(750, asked((longest[0], 255), (longest[1], 255), (longest[2], 255), (longest[1], 99), (longest[2], 99)))
unicast(0, 760)

# --- a quarter of the TTL -----------------------------------------------------------------------------------------------

show("29,999 ms after its multicast a record of TTL 120 goes by unicast, 30,000 ms after it by multicast, and right then by unicast again")
for pair in ((INSTANCE, SRV), (HOST, A), (HOST, AAAA)):
    for gap in (SHORT - 1, SHORT, SHORT + 1):
        now = state("held", aaaa=SIX)
        ask(now + gap, asked(pair))
        ask(now + gap, asked(pair))
        ask(now + gap, asked(pair, cls=QM))
        claims()
show("the NSEC's 30,000 ms count from its own multicast")
for pair in ((HOST, 99), (INSTANCE, 99)):
    for gap in (SHORT - 1, SHORT):
        now = state("held") + 5000
        ask(now, asked(pair, cls=QM))
        ask(now + gap, asked(pair))
        ask(now + gap, asked(pair))
show("1,124,999 ms after its multicast TXT and PTR, of TTL 4,500, go by unicast, 1,125,000 ms after it by multicast: PTR is set for a reply, by the draw")
for pair in ((INSTANCE, TXT), (SERVICE, PTR)):
    for gap in (SHORT, LONG - 1, LONG, LONG + 1):
        now = state("held")
        ask(now + gap, asked(pair), draw=77)
        claims()
        ask(now + gap, asked(pair), draw=99)
        claims()
        tick(now + gap + 77)
        ask(now + gap + 77, asked(pair))
show("a probe with the bit at a quarter of the TTL: SRV by multicast and TXT by unicast in one call; the instance's and the host's")
for gap in (SHORT - 1, SHORT, LONG - 1, LONG):
    now = state("held")
    recv(now + gap, query([question(INSTANCE, 255, QU)], authority=[OTHER_SRV], ident=7))
    recv(now + gap, query([question(HOST, 255, QU)], authority=[OTHER_A], ident=8))
    both()
show("each record counts from its own last multicast: SRV asked for without the bit in between, then all with it")
now = state("held")
ask(now + 20000, asked((INSTANCE, SRV), cls=QM))
for at in (29999, 30000, 49999, 50000):
    ask(now + at, asked(*EACH[:4]))
    claims()
show("a unicast answer counts as no multicast: the quarter and the gaps run on from the last multicast")
now = state("held") + 2000
ask(now, asked(*EACH[:4]))
ask(now, asked(*EACH[1:4], cls=QM))
state("announced", aaaa=SIX)
ask(1700, asked(*EACH))
for t in (1749, 1750, 1750, 1750):
    tick(t)
now = state("held")
ask(now + SHORT - 1, asked((HOST, A)))
ask(now + SHORT, asked((HOST, A)))
show("no gap: right after the announcement, again and again in one ms, and after a multicast of the same ms")
now = state("announced", aaaa=SIX)
for _ in range(3):
    ask(now, asked(*EACH[:5]))
now = state("held") + 2000
ask(now, asked((HOST, A), cls=QM))
ask(now, asked((HOST, A)))
ask(now, asked((HOST, A), cls=QM))
show("a set PTR reply stays as it is, and a unicast PTR sets none")
now = state("held") + 2000
ask(now, asked((SERVICE, PTR), cls=QM), draw=100)
ask(now + 1, asked((SERVICE, PTR)), draw=20)
claims()
tick(now + 99)
tick(now + 100)
ask(now + 101, asked((SERVICE, PTR)))
claims()

# --- with the bit and without it ----------------------------------------------------------------------------------------

show("a record that one question without the bit asks for too goes by the rules of multicast, in either order: gaps of 999 and 1,000 ms")
for pair in EACH[:4]:
    for order in ((QU, QM), (QM, QU), (QU, QU), (QU, QM, QU), (QU, QU, QM), (0x80FF, 255), (QM, 0x80FF)):
        for gap in (999, 1000):
            now = state("held")
            ask(now + gap, [question(*pair, cls) for cls in order])
            claims()
show("asked for by its type with the bit and by 255 without it, and the other way round")
for first, second in (((HOST, A, QU), (HOST, 255, QM)), ((HOST, 255, QU), (HOST, A, QM)), ((INSTANCE, 255, QU), (INSTANCE, SRV, QM)), ((INSTANCE, TXT, QU), (INSTANCE, 255, 255))):
    for gap in (999, 1000, SHORT):
        now = state("held", aaaa=SIX)
        ask(now + gap, [question(*first), question(*second)])
        ask(now + gap, [question(*second), question(*first)])
show("questions without the bit that do not ask for it leave it to unicast: of class 3, of another type, for another name, of the other claim")
for other in (question(HOST, A, 3), question(HOST, TXT, QM), question(name(b"x", b"local"), A, QM), question(INSTANCE, 255, QM), question(SERVICE, PTR, QM), question(HOST, 99, 0)):
    now = state("held") + 500
    ask(now, [question(HOST, A, QU), other])
    ask(now, [other, question(HOST, A, QU)])
    claims()
show("the two NSEC, asked for with the bit and without it by different types")
now = state("held") + 2000
ask(now, asked((HOST, 99), (INSTANCE, 99), cls=QM))
ask(now + 500, [question(HOST, 98, QU), question(HOST, 99, QU), question(INSTANCE, 99, QU)])
ask(now + 999, [question(HOST, 98, QU), question(HOST, 99, QM), question(INSTANCE, 99, QU)])
ask(now + 1000, [question(HOST, 98, QU), question(HOST, 99, QM), question(INSTANCE, 99, QU)])
show("the top bit of 00 ff does not stand in the type: type 0x80ff, class 1")
ask(now, [question(HOST, 0x80FF, QM)])
ask(now, [question(HOST, 0x8001, QU)])

# --- known answers ------------------------------------------------------------------------------------------------------

show("with known answers: cause (a) leaves a record out of unicast too, at half its TTL; one second less does not; of class 3, other data or section it does not")
for known in ([record(HOST, A, TEN, ttl=60)], [record(HOST, A, TEN, ttl=59)], [record(HOST, A, TEN, cls=0x8001)], [record(HOST, A, TEN, cls=3)], [record(HOST, A, b"\x0a\0\0\x08")],
              [record(name(b"DOCK", b"local"), A, TEN)], [PTR_KNOWN], [SRV_KNOWN], [TXT_KNOWN], [record(SERVICE, PTR, INSTANCE, ttl=2250)], [record(SERVICE, PTR, INSTANCE, ttl=2249)],
              [PTR_KNOWN, SRV_KNOWN, TXT_KNOWN, A_KNOWN]):
    now = state("held")
    ask(now, asked(*EACH[:4]), known)
    ask(now + SHORT, asked(*EACH[:4]), known)
    ask(now + LONG, asked(*EACH[:4]), known)
    claims()
now = state("held")
ask(now, asked((HOST, A)), authority=[A_KNOWN])
show("a probe with the bit that knows the record: nothing goes")
recv(now, query([question(HOST, 255, QU)], [A_KNOWN], [OTHER_A]))
show("a known NSEC is left out")
ask(now, asked((HOST, 99)))
ask(now, asked((HOST, 99)), [record(HOST, NSEC, HOST + window(0x40), ttl=60)])
ask(now, asked((HOST, 99)), [record(HOST, NSEC, HOST + window(0x40), ttl=59)])

# --- claims -------------------------------------------------------------------------------------------------------------

show("in each state: only a held claim answers")
for which in STATES:
    now = state(which)
    ask(now + 5, asked(*EACH))
    claims()
show("one claim is held and the other not; and won again: its last multicast still counts")
for conflict in (OTHER_A, record(INSTANCE, TXT, b"\1x")):
    now = state("held")
    recv(now, response([conflict]))
    ask(now, asked(*EACH))
    for i in range(4):
        tick(now + 250 * i)
    ask(now + 750, asked(*EACH))
    claims()
show("a probe with the bit, later than ours, defers as one without it, in each state")
for which in STATES:
    for cls in (QU, 0x80FF, QM, 0x8003):
        now = state(which)
        recv(now + 5, query([question(HOST, 255, cls)], authority=[OTHER_A]))
        recv(now + 5, query([question(INSTANCE, 255, cls)], authority=[OTHER_SRV]))
        claims()
show("a response's questions are not answered")
now = state("held")
recv(now, response(questions=asked(*EACH)))

# --- held queries, other ports ------------------------------------------------------------------------------------------

show("with TC it is held, and then answered by multicast, PTR too, with ID 0")
for gap in (0, 2000):
    now = state("held") + gap
    ask(now, asked(*EACH), flags=TC)
    holds()
    claims()
    tick(now + 400)
    tick(now + 1400)
    holds()
show("while one of its address is held, a later one is judged at once: by unicast; so is a fifth")
now = state("held") + 2000
ask(now, asked((HOST, A)), flags=TC)
ask(now + 1, asked((HOST, A), (SERVICE, PTR)), flags=TC)
ask(now + 2, asked((INSTANCE, SRV)), [SRV_KNOWN])
for i in range(2, 5):
    ask(now + 2, asked((INSTANCE, TXT)), flags=TC, source=bytes([10, 0, 0, i]))
holds()
ask(now + 3, asked((INSTANCE, SRV), (SERVICE, PTR)), flags=TC, source=bytes([10, 0, 0, 9]))
holds()
claims()
for _ in range(5):
    tick(now + 402)
show("what a unicast answer sent is no multicast for a held query")
now = state("held") + 2000
ask(now, asked((HOST, A), cls=QM), flags=TC)
ask(now + 300, asked((HOST, A)), source=SIX)
tick(now + 400)
show("a probe with TC and the bit is not held")
now = state("held")
recv(now, query([question(HOST, 255, QU)], authority=[OTHER_A], flags=TC))
holds()
show("from other ports the bit is of no matter: replies as before, now in the second buffer; the first is kept")
now = state("held")
for port in (1024, 5353 + 65536):
    ask(now, asked((HOST, A)), port=port)
    ask(now, asked((INSTANCE, 255), cls=QM), port=port)
    ask(now, asked((HOST, A), (SERVICE, PTR)), port=port)
    both()

# --- the two buffers ----------------------------------------------------------------------------------------------------

show("parts of the second buffer, which has 4,096 bytes, and what is past its end")
for at, n in ((0, 16), (0, 4096), (4095, 1), (4096, 0), (4096, 1), (4097, 0), (1, 4096), (18446744073709551615, 18446744073709551615)):
    unicast(at, n)
show("either buffer short: 1,451 bytes are refusal 3, whatever the packet; nothing changes")
now = state("held") + 2000
for rooms in ((1451,), (1451, 1452), (1452, 1451), (1451, 1451), (0, 4096), (4096, 0), (1452, 0), (0, 0), (1452, 1452), (1452, 4096), (4096, 1452), (4096, 4096), (1452,)):
    for packet in (query(asked((HOST, A))), query(asked((HOST, A), (INSTANCE, SRV), cls=QM)), response([record(name(b"x"), A, TEN)])):
        recv(now, packet, out=rooms)
    recv(now, query(asked((HOST, A))), out=rooms, port=1024)
claims()
show("the order of refusals with the second buffer: 1, 2, 3, then 4, 5, 6")
recv(now - 1, b"", draw=19, out=(1452, 0))
recv(now, b"", draw=19, out=(1452, 0))
recv(now, b"", hold=399, out=(1452, 0))
recv(now, b"", out=(1452, 1451))
recv(now, b"", out=(1452, 1452))
recv(now, header(flags=0x0800), out=(1452, 1451))
recv(now, header(flags=0x0800), out=(1452, 1452))
recv(now, header(qd=1, flags=0) + question(pointer(12)), out=(1452, 1451))
recv(now, header(qd=1, flags=0) + question(pointer(12)), out=(1452, 1452))
show("over 4,096 is a bad line; a tick has one buffer")
recv(now, query(asked((HOST, A))), out=(1452, 4097))
recv(now, query(asked((HOST, A))), out=(4097, 1452))
recv(now, query(asked((HOST, A))), out=(1451, 4097))
tick(now, 1452, 1452)
show("bytes past a packet are kept in both buffers; a refused call keeps them all, and so does a quiet one")
now = state("held", aaaa=SIX) + 2000
ask(now, asked(*EACH))
both()
ask(now, asked((HOST, A)), ident=0xFFFF)
both()
ask(now, asked((INSTANCE, TXT), cls=QM) + asked((HOST, AAAA)), ident=0xEEEE)
both()
ask(now, asked((HOST, A)), out=(1452, 1451))
ask(now, [])
recv(now, b"")
both()
tick(now + 5)
both()
show("at 2^62")
start(LATE - 1000)
for t in (LATE - 1000, LATE - 750, LATE - 500, LATE - 250):
    tick(t)
    tick(t)
ask(LATE, asked(*EACH))
ask(LATE, asked(*EACH))
claims()
show("fields that are missing, left over, or not of their form")
EMPTY = "000000000000000000000000"
for bad in ("unicast", "unicast 0", "unicast 0 0 0", "unicast - 0", "unicast 0 -", "unicast 0 4097", "unicast 1 4096", "unicast 4096 1", "Unicast 0 0", "unicasts 0 0", "unicast  0 0",
            "unicast 0 0 ", "recv 9000 0a000001 5353 20 400 " + EMPTY + " 1452 -", "recv 9000 0a000001 5353 20 400 " + EMPTY + " 1452 ", "recv 9000 0a000001 5353 20 400 " + EMPTY + " 1452 1452 0",
            "recv 9000 0a000001 5353 20 400 " + EMPTY + "  1452", "recv 9000 0a000001 5353 20 400 " + EMPTY + " 1452 18446744073709551616", "recv 9000 0a000001 5353 20 400 " + EMPTY + " - 1452",
            "recv 9000 0a000001 5353 20 400 " + EMPTY + " 1452 0x5ac"):
    start()
    print(bad)
    claims()
for good in ("recv 9000 0a000001 5353 20 400 " + EMPTY + " 01452 001452", "unicast 00 004", "unicast 4096 0", "unicast 0 0"):
    print(good)
