#!/usr/bin/env python3
# Writes the console script of goodbyes and changed data: `stop` and `update` (RFC 6762, 8.4 and 10.1). Run by make.sh; the expected answers come from
# the reference program.
import sys

sys.dont_write_bytecode = True
from calls import *

QU = 0x8001
TC = 0x0200
OTHER_A = record(HOST, A, b"\xff" * 4)
OTHER_TXT = record(INSTANCE, TXT, b"\1x", ttl=4500)
OTHER_SRV = record(INSTANCE, SRV, b"\xff" * 6 + HOST)
ALL = [question(SERVICE, PTR), question(INSTANCE), question(HOST), question(HOST, 99), question(INSTANCE, 99)]
STRINGS = b"\xff" + b"x" * 255 + b"\x8f" + b"y" * 143


def stop(now, *out):
    print("stop", now, *out)


def port(now, number, *out):
    print("update", now, "port", number, *out)


def txt(now, strings, *out):
    print("update", now, "txt", text(strings), *out)


def srv(number):
    """The instance's SRV with this port."""
    return record(INSTANCE, SRV, bytes(4) + number.to_bytes(2, "big") + HOST)


def climb(now):
    """Ticks until a claim that waits with draw 0 is held."""
    for i in range(4):
        tick(now + 250 * i)
        tick(now + 250 * i)
    return now + 750


def ask(now, questions, known=(), **more):
    recv(now, query(questions, known, more.pop("authority", ()), flags=more.pop("flags", 0)), **more)


# --- stops --------------------------------------------------------------------------------------------------------------

show("a stop in each state of the claims: the held ones' records with TTL 0, PTR with the instance's, in one packet; both claims are lost; no step is left")
for which in STATES:
    for aaaa in (b"", SIX):
        now = state(which, aaaa=aaaa)
        stop(now + 7)
        claims()
        tick(now + 7)
        tick(now + 5000)
        ask(now + 5000, ALL)
        claims()
show("one claim is held and the other not")
for conflict in (OTHER_A, OTHER_TXT):
    for times in (1, 2):
        now = state("held", aaaa=SIX)
        for _ in range(times):
            recv(now, response([conflict]))
        stop(now)
        claims()
show("a stop again, and of a responder that has lost both claims, is accepted and sends nothing; its time is kept")
now = state("held")
stop(now)
stop(now)
stop(now + 1)
claims()
stop(now)
now = state("lost")
stop(now)
claims()
show("whatever the gaps: right after the announcement, and after a multicast of the same ms; known answers do not matter")
now = state("announced", aaaa=SIX)
stop(now)
now = state("held") + 2000
ask(now, ALL)
stop(now)
show("a set PTR reply stays set and sends nothing at its step; so do held queries, and they are passed")
now = state("held") + 2000
ask(now, [question(SERVICE, PTR)])
ask(now, ALL, flags=TC)
stop(now + 1)
claims()
holds()
tick(now + 20)
claims()
tick(now + 400)
holds()
show("it marks no multicast, and nothing is answered after it, by multicast, by unicast, or to a plain resolver")
now = state("held")
stop(now)
for cls in (1, QU):
    ask(now + 2000, [question(HOST, 255, cls), question(INSTANCE, 255, cls), question(SERVICE, PTR, cls)])
    ask(now + 2000, [question(HOST, A, cls)], port=1024)
recv(now + 2000, probe(HOST, OTHER_A))
recv(now + 2000, response([OTHER_A, OTHER_TXT]))
claims()
show("a goodbye of others is no conflict, one with TTL 1 is; our own goodbye that comes back changes nothing")
for ttl in (0, 1):
    now = state("held")
    recv(now, response([record(HOST, A, b"\xff" * 4, ttl=ttl), record(INSTANCE, TXT, b"\1x", ttl=ttl)]))
    claims()
show("set-ups whose names share labels, longest labels and a TXT of 400 bytes: the largest goodbye")
for setup in (dict(host=b"_tcp"), dict(host=b"booth"), dict(host=b"Booth"), dict(instance=b"i" * 63, service=b"_" + b"s" * 15, host=b"h" * 63, txt=STRINGS, aaaa=SIX)):
    start(**setup)
    climb(0)
    stop(750)
    out(0, 720)
show("a new start after a stop")
now = state("held")
stop(now)
start(now)
claims()
climb(now)
stop(now + 750)
show("refusals of a stop, in the order 1, 3, 7: a refused one changes nothing")
now = state("held")
stop(now - 1, 0)
stop(LATE + 1, 0)
stop(now, 1451)
stop(now, 0)
stop(now, 4097)
claims()
stop(now, 4096)
claims()
show("the bytes of the out buffer past a goodbye are kept, and all of the second")
now = state("held", aaaa=SIX)
ask(now, [question(INSTANCE, 255, QU)])
out(0, 160)
stop(now)
out(0, 160)
unicast(0, 80)

# --- updates ------------------------------------------------------------------------------------------------------------

show("an update in each state of the claim: held, the record alone is announced at once; lost, refusal 10; else back to waiting, with a first probe at now plus the start draw")
for which in STATES:
    now = state(which)
    port(now + 7, 80)
    claims()
    tick(now + 7)
    tick(now + 7)
    tick(now + 1006)
    tick(now + 1007)
    claims()
    now = state(which, aaaa=SIX)
    txt(now + 7, b"\4a=bc")
    claims()
    climb(now + 7)
    claims()
show("with a start draw of 30: an update while it waits, probes, is deferred")
start(0, 30)
port(5, 1)
claims()
tick(34)
tick(35)
claims()
start(0, 30)
tick(30)
txt(40, b"\1y")
claims()
tick(69)
tick(70)
tick(70)
start(0, 30)
tick(30)
recv(31, probe(INSTANCE, OTHER_SRV))
claims()
port(32, 65535)
claims()
tick(62)
claims()
show("the new data stand in probes, announcements, answers, replies to plain resolvers and goodbyes from then on, and in nothing the old")
now = state("held", aaaa=SIX)
port(now, 80)
ask(now, [question(INSTANCE, 255, QU)])
ask(now, [question(INSTANCE, SRV)], port=1024)
tick(now + 1000)
txt(now + 6000, b"\4a=bc\1d")
ask(now + 6000, [question(INSTANCE, 255, QU)])
ask(now + 7000, [question(INSTANCE)])
stop(now + 8000)
start()
tick(0)
txt(1, b"\3new")
port(6001, 1)
climb(6001)
show("new data may equal the old, and are announced all the same")
now = state("held")
port(now, 4000)
txt(now + 6000, b"\0")
claims()
show("data at the limits, and beyond them: refusal 7; a PORT over 65,535 is a bad line")
now = state("held")
for strings in (b"", b"\1", b"\1x\0\2y", b"\0" * 401, STRINGS + b"\0", b"\0" * 656, b"\0" * 4096, b"\xff" * 255):
    txt(now, strings)
for number in (65536, 65536 + 4000, 18446744073709551615):
    port(now, number)
claims()
txt(now, STRINGS)
for i, number in enumerate((0, 65535)):
    port(now + 6000 * (i + 1), number)
txt(now + 18000, b"\0" * 400)
txt(now + 24000, b"\0")
show("5,999 ms after the last update the next is refused as 11, 6,000 ms after it is taken; one refused does not count; of either record")
now = state("held")
port(now, 1)
for gap in (0, 1, 5999):
    port(now + gap, 2)
    txt(now + gap, b"\1x")
    claims()
txt(now + 6000, b"\1x")
port(now + 11999, 2)
port(now + 12000, 2)
claims()
now = state("waiting")
port(now, 1)
port(now + 5999, 2)
txt(now + 6000, b"\1x")
claims()
show("a start has no update: the next responder may change at once")
now = state("held")
port(now, 1)
start(now)
port(now, 2)
claims()
show("the second step is due anew in 1,000 ms, where it was to come and where it was taken; it sends all but what was multicast less than 1,000 ms ago")
now = state("announced")
port(now + 400, 80)
claims()
for t in (999, 1000, 1399, 1400, 1400):
    tick(now + t)
claims()
now = state("held")
txt(now + 400, b"\1x")
claims()
for t in (1399, 1400, 1400, 2400):
    tick(now + t)
claims()
now = state("held")
txt(now + 400, b"\1x")
ask(now + 1000, [question(INSTANCE, SRV), question(INSTANCE, TXT)])
tick(now + 1399)
tick(now + 1400)
claims()
show("whatever the gaps: right after a multicast of the record; and it counts as one, for the record alone")
now = state("announced")
txt(now, b"\1x")
ask(now + 999, [question(INSTANCE, TXT)])
ask(now + 1000, [question(INSTANCE, TXT)])
now = state("held") + 2000
port(now, 80)
ask(now, [question(INSTANCE)])
ask(now + 999, [question(INSTANCE)])
ask(now + 1000, [question(INSTANCE)])
show("it counts for a quarter of the TTL, too: TXT after an update goes by unicast, and 1,125,000 ms later not")
now = state("held")
txt(now + 500, b"\1x")
for gap in (0, 1124999, 1125000):
    ask(now + 500 + gap, [question(INSTANCE, TXT, QU)])
show("an update, and a probe within 250 ms of it: without the bit the updated record is left out until 250 ms, with it it goes to the asker")
for cls in (1, QU):
    for gap in (0, 1, 249, 250):
        for change in (port, txt):
            now = state("held") + 2000
            change(now, 80) if change is port else change(now, b"\1x")
            recv(now + gap, query([question(INSTANCE, 255, cls)], authority=[OTHER_SRV]))
            claims()
show("after an update the data of before conflict, those after it do not; a probe is compared with the new data")
for change, old, new in ((lambda t: port(t, 80), srv(4000), srv(80)), (lambda t: txt(t, b"\1x"), record(INSTANCE, TXT, b"\0"), record(INSTANCE, TXT, b"\1x"))):
    for packet in (response([new]), response([old])):
        now = state("held")
        change(now)
        recv(now + 1, packet)
        claims()
for number in (79, 80, 81):
    start()
    port(0, 80)
    tick(0)
    recv(10, query([question(INSTANCE, 255, QU)], authority=[record(INSTANCE, TXT, b"\0"), srv(number)]))
    claims()
show("known answers are judged by the new data")
now = state("held")
port(now, 80)
for known in (srv(4000), srv(80)):
    ask(now + 2000, [question(INSTANCE, SRV)], [known])
show("a conflict after an update: held, it waits, and probes with the new data; the time of the update stays")
now = state("held")
txt(now, b"\1y")
recv(now + 10, response([OTHER_TXT]))
claims()
txt(now + 5999, b"\1z")
climb(now + 10)
claims()
show("the host's claim is of no matter: lost, waiting, deferred; nor does it change")
for conflicts in (1, 2):
    now = state("held")
    for _ in range(conflicts):
        recv(now, response([OTHER_A]))
    port(now, 80)
    claims()
now = state("held")
recv(now, response([OTHER_TXT]))
recv(now, response([OTHER_TXT]))
port(now, 80)
txt(now, b"")
claims()
show("a set PTR reply stays as it is")
now = state("held") + 2000
ask(now, [question(SERVICE, PTR)], draw=100)
txt(now + 10, b"\1x")
claims()
tick(now + 100)
claims()
show("each held query forgets what it knew of the updated record, and of no other; what it learns later counts again")
known = [record(SERVICE, PTR, INSTANCE, ttl=4500), srv(4000), record(INSTANCE, TXT, b"\0", ttl=4500), record(HOST, A, TEN)]
for change in (lambda t: port(t, 4000), lambda t: txt(t, b"\0"), lambda t: port(t, 80), lambda t: None):
    for again in (False, True):
        now = state("held") + 2000
        ask(now, ALL, known, flags=TC)
        ask(now + 1, [question(INSTANCE)], known, flags=TC, source=SIX)
        change(now + 2)
        if again:
            ask(now + 3, [], [srv(4000), srv(80), record(INSTANCE, TXT, b"\0", ttl=4500)])
        holds()
        tick(now + 1002)
        tick(now + 1002)
        tick(now + 1002)
        holds()
show("also where the claim is not held when the update is taken, and is won before the query is answered; a refused update makes nothing forgotten")
for change in (lambda t: txt(t, b"\0"), lambda t: port(t, 4000), lambda t: tick(t, 1451)):
    start()
    tick(0)
    ask(1, [question(INSTANCE)], known, flags=TC, hold=500)
    change(2)
    # one tick at a time: the claims' steps come first, and the query is answered when the gaps are over
    for t in (250, 500, 750, 1000, 1750, 2000, 2000, 3000, 3000, 3000, 3000, 3000):
        tick(t)
    holds()
    claims()
now = state("held") + 2000
ask(now, [question(INSTANCE)], known, flags=TC)
txt(now, b"\0" * 401)
txt(now, b"\0", 1451)
tick(now + 400)
holds()
show("refusals of an update, in the order 1, 3, 7, 10, 11: the same call, with less wrong each time; none changes anything")
now = state("held")
port(now, 1)
recv(now, response([OTHER_TXT]))
recv(now, response([OTHER_TXT]))
for t, strings, room in ((now - 1, b"", 0), (LATE + 1, b"", 0), (now + 5999, b"", 1451), (now + 5999, b"", 1452), (now + 5999, b"\0" * 401, 4096), (now + 5999, b"\0", 1452), (now + 6000, b"\0", 1452)):
    txt(t, strings, room)
port(now + 5999, 2, 1451)
port(now + 5999, 2)
port(now + 5999, 2, 4097)
claims()
now = state("held")
port(now, 1)
for t, strings, room in ((now - 1, b"", 0), (now + 5999, b"", 1451), (now + 5999, b"", 1452), (now + 5999, b"\0", 1451), (now + 5999, b"\0", 1452), (now + 6000, b"\0", 1451), (now + 6000, b"", 1452), (now + 6000, b"\0", 1452)):
    txt(t, strings, room)
claims()
show("the bytes of the out buffer past an announced record are kept")
now = state("held", aaaa=SIX)
out(0, 120)
port(now, 80)
out(0, 120)
show("at 2^62: the time of the last update is kept, and no further update comes")
start(LATE - 1000)
climb(LATE - 1000)
port(LATE, 80)
claims()
txt(LATE, b"\1x")
tick(LATE)
stop(LATE)
claims()
show("fields that are missing, left over, or not of their form")
for bad in ("stop", "stop ", "stop -", "stop 2750 -", "stop 2750 1452 0", "stop 2750 4097", "stop x", "Stop 2750", "stops 2750", "stop  2750", "stop 18446744073709551616", "update", "update 2750", "update 2750 port",
            "update 2750 port ", "update 2750 port -", "update 2750 port 65536", "update 2750 port 1 4097", "update 2750 port 1 1452 0", "update 2750 txt", "update 2750 txt 0", "update 2750 txt 00 -",
            "update 2750 txt 00 1452 0", "update 2750 TXT 00", "update 2750 a 0a000007", "update 2750 00", "update port 1", "update x port 1", "Update 2750 port 1", "update 2750 port 1 "):
    state("held")
    print(bad)
    claims()
for good in ("update 002750 port 00080 01452", "update 8750 txt 0161 4096", "update 14750 txt 0161", "stop 14750 04096"):
    print(good)
claims()
