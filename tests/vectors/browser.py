#!/usr/bin/env python3
# Writes the console script of a browser that keeps looking: `browse`, `ask` and `list`, and the TTL that `slot` shows (RFC 6762, 5.2 and 7.1 and 7.2).
# Run by make.sh; the expected answers come from the reference program.
import sys

sys.dont_write_bytecode = True
from packets import *

FLUSH = 0x8001
LATEST = 1 << 62
ROOM = 1452
SERVICE = name(b"_voice", b"_tcp", b"local")
GAPS = [1, 2, 4, 8, 16, 32, 64, 128, 256, 512, 1024, 2048, 3600, 3600, 3600]
# a packet with its question, and with none but a first owner in full
ASKED = 12 + len(SERVICE) + 4
RESTED = 12 + len(SERVICE) - 2
# a pointer to the owner, ten bytes, and a pointer behind the target's own labels
CUT = 14


def show(what):
    print("\n# " + what)


def text(b):
    return b.hex() or "-"


def browse(now=0, draw=20, refresh=0, service=b"_voice", protocol=b"_tcp", domain=b"local"):
    print("browse", now, draw, refresh, text(service), text(protocol), text(domain))


def ask(now, *out):
    print("ask", now, *out)


def around(now):
    """In the millisecond before, then, and again."""
    ask(now - 1)
    ask(now)
    ask(now)


def listed(*times):
    for now in times:
        print("list", now)


def slot(*which):
    for k in which:
        print("slot", k)


def table(*sizes):
    print("table", *sizes)


def out(at, n):
    print("out", at, n)


def put(now, *records):
    print("put", now, 5353, text(header(an=len(records)) + b"".join(records)))


def target(*labels_before):
    return labels(*labels_before) + SERVICE


def ptr(rdata, owner=SERVICE, ttl=120, cls=1):
    return record(owner, PTR, rdata, cls=cls, ttl=ttl)


def numbered(i, n):
    """A target with n bytes, length bytes included, before the service's name, which no other number has; the shortest label is the first."""
    parts = []
    while n > 0:
        take = min(n, 64)
        if n - take == 1:
            take -= 1
        parts.insert(0, (bytes([97 + i // 26, 97 + i % 26]) * 32)[: take - 1])
        n -= take
    return target(*parts)


def fill(now, *sizes, ttl=4500, start=0):
    """A target of each size, in entry order, in one message."""
    put(now, *(ptr(numbered(start + i, n), ttl=ttl) for i, n in enumerate(sizes)))


def series(now=20, until=12):
    """Asks as soon as it is due, from the first query on; the time of the last."""
    ask(now)
    for gap in GAPS[:until]:
        now += 1000 * gap
        ask(now)
    return now


# --- before the first start -----------------------------------------------------------------------------------------------

show("before the first start each tick is refused with 7, behind 1, 3 and 8; so is a list, behind 1 and 8; a refused start changes nothing")
table(64)
ask(0)
ask(LATEST)
ask(LATEST + 1, 0)
ask(0, 1451)
listed(0, LATEST + 1)
table(1, 1023)
ask(0)
ask(0, 1451)
ask(LATEST + 1)
listed(0, LATEST + 1)
table(64)
browse(draw=19)
browse(domain=b"Local")
ask(0)
listed(0)

# --- start ----------------------------------------------------------------------------------------------------------------

show("draws: 20 to 120, and 0 to 20; a number of any size is judged by its value")
for draw in (0, 19, 20, 120, 121, 256 + 20, (1 << 32) + 20, 18446744073709551615):
    browse(draw=draw)
for refresh in (0, 20, 21, 256, 1 << 32, 18446744073709551615):
    browse(refresh=refresh)
show("the service's labels, as in a set-up")
for service in (b"_a", b"_" + b"s" * 15, b"_A-9", b"_1a"):
    browse(service=service)
for service in (b"", b"_", b"a", b"_1", b"_-a", b"_a-", b"_a--b", b"_a_b", b"_a.b", b"_\xc3\xa9", b"_" * 17):
    browse(service=service)
for service in (b"_" + b"s" * 16, b"_" + b"s" * 255, b"_a" + b"\0" * 256):
    browse(service=service)
for protocol in (b"_tcp", b"_udp", b"_TCP", b"_Udp", b"_tc", b"_tcpx", b"", b"tcp_", b"\0tcp"):
    browse(protocol=protocol)
for domain in (b"local", b"Local", b"LOCAL", b"loca", b"localx", b"", b"local\0"):
    browse(domain=domain)
show("the order is 1, 2, 7; the table and the last time of the browser before do not matter")
browse(LATEST + 1, 19, 21, b"")
browse(LATEST, 19, 0, b"")
browse(LATEST, 20, 21, b"")
browse(LATEST, 20, 20, b"")
browse(LATEST, 20, 20)
browse(7)
table(1, 1023)
browse(5)
table(64)
put(1000, ptr(target(b"booth")))
browse(6)
ask(999)
ask(1000)
show("a refused start changes nothing: the browser before goes on; one that is accepted begins anew")
table(64)
browse(0)
ask(20)
browse(20, 19)
browse(20, 20, 21)
browse(20, service=b"voice")
ask(1019)
ask(1020)
browse(1020, 50)
ask(1069)
ask(1070)
ask(2069)
ask(2070)

# --- the series -----------------------------------------------------------------------------------------------------------

show("the first query is due at the start plus the draw; a query without known answers")
for draw in (20, 21, 120):
    browse(1000, draw)
    ask(1000)
    around(1000 + draw)
show("then gaps of 1, 2, 4 .. 2,048 s and of 3,600 s from then on, to the millisecond")
browse(0)
now = 20
around(now)
for gap in GAPS:
    now += 1000 * gap
    around(now)
show("a gap begins with the sending, however late; what was missed is not made up for")
browse(0)
now = 5000
ask(now)
for gap, late in ((1, 1), (2, 999), (4, 5000), (8, 100000), (16, 0), (32, 3600000)):
    ask(now + 1000 * gap - 1)
    now += 1000 * gap + late
    ask(now)
    ask(now)
show("services of other labels, and of other case")
for service, protocol in ((b"_a", b"_udp"), (b"_Voice", b"_tcp"), (b"_" + b"s" * 15, b"_udp"), (b"_tcp", b"_tcp")):
    browse(service=service, protocol=protocol)
    ask(20)

# --- times and buffers ----------------------------------------------------------------------------------------------------

show("a tick before the last one, or before an entry was received, is refused; a quiet one counts, a refused one does not, a list neither")
table(64)
browse(100)
ask(99)
ask(100)
ask(119)
ask(118)
listed(118, 119, 500)
ask(120)
ask(119)
ask(LATEST + 1)
ask(200, 1451)
ask(LATEST, 1451)
ask(121)
put(700, ptr(target(b"booth")))
ask(699)
listed(699, 700)
ask(700)
show("the last times there are: a first query that falls due after them never comes")
table(64)
browse(LATEST, 120)
ask(LATEST)
ask(LATEST + 1)
listed(LATEST)
browse(LATEST - 120, 120)
ask(LATEST)
ask(LATEST)
put(LATEST, ptr(target(b"booth"), ttl=4500))
listed(LATEST)
browse(LATEST - 20)
ask(LATEST)
show("the buffer: 1,451 bytes are refused, 1,452 and 4,096 not, 4,097 is no line; the bytes behind a packet are kept, all of them where none is sent")
table(64)
fill(0, 100, 100)
browse(0)
ask(20, 0)
ask(20, 1451)
ask(20, 4097)
out(0, 300)
ask(20, 1452)
out(0, 300)
table(64)
ask(1020, 4096)
out(0, 300)
ask(1021)
out(0, 300)
show("refusals in the order 1, 3, 8")
browse(1000)
for sizes in ((0,), (1, 1023), (64, 65535), (513,)):
    table(*sizes)
    ask(999, 1451)
    ask(1000, 1451)
    ask(1000)
    listed(999, 1000)
for n in (1, 2, 511, 512):
    table(n)
    ask(1000)
    listed(1000)

# --- known answers --------------------------------------------------------------------------------------------------------

show("known answers in entry order, spelled as stored, names cut where they stand byte for byte: owners and targets of other case, elsewhere, the root")
table(64)
put(
    0,
    ptr(target(b"booth")),
    ptr(target(b"Booth")),
    ptr(target(b"hall"), owner=name(b"_VOICE", b"_tcp", b"local")),
    ptr(target(b"desk"), owner=name(b"_Voice", b"_Tcp", b"Local")),
    ptr(name(b"booth", b"_VOICE", b"_tcp", b"local")),
    ptr(name(b"far", b"example")),
    ptr(b"\0"),
    ptr(name(b"two", b"booth", b"_voice", b"_tcp", b"local")),
    ptr(name(b"three", b"example")),
    ptr(SERVICE),
    ptr(name(b"local")),
    ptr(filled(255)),
    ptr(name(b"x", b"_voice", b"_tcp", b"LOCAL")),
)
browse(0)
ask(20)
listed(20)
show("what is none of its: other types, other names, one label more or less, another class, a byte that is no letter; but letters are folded")
table(64)
put(
    0,
    record(SERVICE, TXT, b"\1x"),
    record(SERVICE, SRV, bytes(6) + target(b"a")),
    record(SERVICE, A, bytes(4)),
    ptr(target(b"b"), owner=target(b"_sub")),
    ptr(target(b"c"), owner=name(b"_tcp", b"local")),
    ptr(target(b"d"), owner=name(b"_voice", b"_udp", b"local")),
    ptr(target(b"e"), cls=3),
    ptr(target(b"f"), owner=name(b"_voicE", b"_tcp", b"local")),
    ptr(target(b"g"), owner=name(b"\x7fvoice", b"_tcp", b"local")),
)
browse(0)
ask(20)
listed(20)
show("more than half of the TTL: to the millisecond, and the TTL that is left in whole seconds, rounded down; TTL 0 may be shown")
for ttl in (1, 2, 3, 7, 10, 4500):
    for now in (500 * ttl - 1, 500 * ttl, 500 * ttl + 1):
        table(1)
        put(1000, ptr(target(b"booth"), ttl=ttl))
        browse(1000 + now - 120, 120) if now >= 120 else browse(1000)
        ask(1000 + now)
for age in (0, 1, 999, 1000, 1001, 1999, 2000, 2001):
    table(2)
    put(1000, ptr(target(b"booth"), ttl=10), ptr(target(b"hall"), ttl=0x7FFFFFFF))
    browse(900, 100)
    ask(1000 + age)
show("TTLs with the top bit count as 0; 2^31 - 1 is the greatest")
table(4)
put(0, ptr(target(b"booth"), ttl=0x80000000), ptr(target(b"hall"), ttl=0x7FFFFFFF), ptr(target(b"desk"), ttl=0))
browse(0)
ask(20)
listed(20)
slot(0, 1)

# --- the TTL as received --------------------------------------------------------------------------------------------------

show("the TTL as received: a flush and a goodbye change the expiry alone; a record that comes again brings its own")
table(64)
put(0, ptr(target(b"booth"), ttl=100), ptr(target(b"hall"), ttl=50), record(HOST, A, bytes(4), ttl=7), record(HOST, TXT, b"\1x", ttl=0x80000007))
slot(0, 1, 2, 3)
put(2000, ptr(target(b"desk"), ttl=10, cls=FLUSH))
slot(0, 1, 2)
listed(2000, 2999, 3000)
put(2500, ptr(target(b"booth"), ttl=0))
slot(0)
put(2600, ptr(target(b"booth"), ttl=33))
slot(0)
put(2700, ptr(target(b"booth"), ttl=0))
slot(0)
put(3000, ptr(target(b"new"), ttl=0x7FFFFFFF))
slot(0, 1, 2)
show("what is flushed has not half left, a goodbye has not, and both are in the list for a second")
table(64)
put(0, ptr(target(b"a"), ttl=100), ptr(target(b"b"), ttl=100), ptr(target(b"c"), ttl=1))
browse(500)
put(500, ptr(target(b"a"), ttl=0))
ask(520)
listed(520, 999, 1000, 1499, 1500)
put(1501, ptr(target(b"d"), ttl=100, cls=FLUSH))
ask(1520)
listed(1520, 2500, 2501)

# --- refreshes ------------------------------------------------------------------------------------------------------------

show("at 80, 85, 90 and 95 percent of the TTL, plus as many thousandths as the second draw, to the millisecond; the series goes on as it would")
for draw in (0, 1, 7, 20):
    table(1)
    browse(0, 20, draw)
    now = series(until=11)
    put(now, ptr(target(b"booth"), ttl=1000))
    for thousandths in (800, 850, 900, 950):
        around(now + 1000 * (thousandths + draw))
    ask(now + 999999)
    ask(now + 1000000)
    around(now + 2048000)
    around(now + 2048000 + 3600000)
show("a short TTL and the longest")
for ttl in (1, 2, 3, 0x7FFFFFFF):
    table(1)
    browse(0, 20, 13)
    now = series(until=13)
    put(now, ptr(target(b"booth"), ttl=ttl))
    for thousandths in (800, 850, 900, 950):
        due = now + ttl * (thousandths + 13)
        around(due)
show("none went out since: a query of that very millisecond counts, one of the millisecond before does not")
for late in (-1, 0, 1):
    table(1)
    browse(0)
    # the gaps are at 15,020 and 31,020
    put(15020 - 8000 + late, ptr(target(b"booth"), ttl=10))
    ask(7020 + max(late, 0))
    series_time = 15020
    browse(series_time - 20)
    ask(series_time)
    ask(series_time)
    ask(series_time + 1)
    ask(series_time + 2)
show("a query of the series serves; thresholds that passed before it are done with; one that passed unasked comes late, once for all of them")
table(1)
browse(0)
now = series(until=11)
put(now, ptr(target(b"booth"), ttl=1000))
ask(now + 860000)
ask(now + 860000)
ask(now + 899999)
ask(now + 900000)
put(now + 1000000, ptr(target(b"booth"), ttl=1250))
ask(now + 2048000)
ask(now + 2048000)
ask(now + 2062499)
ask(now + 2062500)
ask(now + 2062500)
show("not before the first query, however old an entry is; a new browser asks by its own series")
table(1)
put(0, ptr(target(b"booth"), ttl=10))
browse(7900, 120)
ask(8000)
ask(8019)
ask(8020)
ask(8020)
ask(8499)
ask(8500)
ask(8500)
ask(9020)
show("both due: one query, of the series")
table(1)
browse(0)
ask(20)
put(20, ptr(target(b"booth"), ttl=1))
ask(1019)
table(1)
browse(0)
now = series(until=4)
put(now + 16000 - 8000, ptr(target(b"booth"), ttl=10))
ask(now + 15999)
ask(now + 16000)
ask(now + 16000)
ask(now + 16500)
ask(now + 16000 + 31999)
ask(now + 16000 + 32000)
show("a refresh leaves the gaps as they were, also the one that was begun")
table(1)
browse(0)
now = series(until=5)
put(now, ptr(target(b"booth"), ttl=20))
ask(now + 16000)
ask(now + 31999)
ask(now + 32000)
ask(now + 32000 + 63999)
ask(now + 32000 + 64000)
show("of an entry that came again by its new time and TTL; not of one that is dead; of one that was flushed by its TTL as received, as long as it lives")
table(2)
browse(0)
now = series(until=12)
put(now, ptr(target(b"booth"), ttl=100))
put(now + 50000, ptr(target(b"booth"), ttl=200))
ask(now + 80000)
ask(now + 95000)
around(now + 50000 + 160000)
put(now + 50000 + 161000, ptr(target(b"booth"), ttl=0))
ask(now + 50000 + 170000)
put(now + 50000 + 180000, ptr(target(b"hall"), ttl=100))
put(now + 50000 + 180000 + 79500, ptr(target(b"hall"), ttl=0))
around(now + 50000 + 180000 + 80000)
ask(now + 50000 + 180000 + 85000)
show("of any entry of the name, not of the first alone; in other case too; not of other names and types")
table(64)
browse(0)
now = series(until=12)
put(
    now,
    ptr(target(b"a"), ttl=1000),
    ptr(target(b"b"), ttl=100, owner=name(b"_Voice", b"_TCP", b"LOCAL")),
    ptr(target(b"B"), ttl=200),
    ptr(target(b"c"), ttl=50, owner=target(b"_sub")),
    record(SERVICE, TXT, b"\1x", ttl=40),
)
ask(now + 32000)
ask(now + 40000)
around(now + 80000)
around(now + 85000)
around(now + 160000)
around(now + 800000)

# --- packets that are full ------------------------------------------------------------------------------------------------

show("full to the byte: 1,452 bytes, and no TC; one byte more: TC, and the rest in the next tick, with no question; one byte less")
for off in (-1, 0, 1):
    table(64)
    free = ROOM - ASKED - 6 * (CUT + 200)
    fill(0, 200, 200, 200, 200, 200, 200, free - CUT + off)
    browse(0)
    ask(20)
    out(1440, 20)
    ask(20)
    ask(20)
show("full to the byte and something behind it: TC")
for sizes in ((3,), (3, 200), (64, 3)):
    table(64)
    free = ROOM - ASKED - 6 * (CUT + 200)
    fill(0, 200, 200, 200, 200, 200, 200, free - CUT, *sizes)
    browse(0)
    ask(20)
    ask(20)
    ask(20)
show("one that does not fit ends the packet, though a shorter one behind it would fit")
table(64)
fill(0, 200, 200, 200, 200, 200, 200, 200, 3, 3)
browse(0)
ask(20)
ask(20)
ask(20)
show("a rest that is full to the byte, one byte more, one byte less")
for off in (-1, 0, 1):
    table(64)
    free = ROOM - RESTED - 6 * (CUT + 200)
    fill(0, *([200] * 12), free - CUT + off)
    browse(0)
    ask(20)
    ask(20)
    out(1440, 20)
    ask(20)
    ask(20)
show("many rests: a table of 512 targets, each of them once")
table(512)
for first in range(0, 512, 64):
    fill(0, *([40] * 64), start=first)
browse(0)
for _ in range(23):
    ask(20)
ask(1020)
listed(1020)
show("owners of another case cost a name; targets of 255 bytes")
table(64)
put(0, *(ptr(numbered(i, 200), owner=name(b"_VOICE", b"_tcp", b"LOCAL"), ttl=4500) for i in range(7)))
browse(0)
ask(20)
ask(20)
ask(20)
table(64)
put(0, *(ptr(numbered(i, 236), ttl=4500) for i in range(9)))
browse(0)
ask(20)
ask(20)
ask(20)
show("into a buffer of 4,096 bytes no more than 1,452 go")
table(64)
fill(0, *([200] * 12))
browse(0)
ask(20, 4096)
out(1280, 30)
ask(20, 4096)
ask(20, 4096)

# --- the rest, on the table as it then is ------------------------------------------------------------------------------------


def truncated(n=12):
    """A query at 20 that leaves off before the seventh entry, all of 200 bytes; the next query is due at 1020."""
    table(64)
    fill(0, *([200] * n))
    browse(0)
    ask(20)


show("the rest is by its own time: the TTL that is left then, and only what has more than half left then")
for later in (20, 1019, 1020, 2249999, 2250000):
    truncated()
    ask(later)
    ask(later)
    ask(later)
show("the entry that did not fit is dead then, or has less than half left, or has come again; it goes on with the next")
truncated()
put(500, ptr(numbered(6, 200), ttl=0))
ask(500)
ask(500)
truncated(7)
put(500, ptr(numbered(6, 200), ttl=0))
ask(500)
ask(500)
ask(1019)
truncated(8)
put(500, ptr(numbered(6, 200), ttl=0))
ask(1500)
ask(1500)
ask(1500)
truncated()
put(500, ptr(numbered(6, 200), ttl=2))
ask(500)
ask(500)
show("another record has taken its place, of the name or of another")
for owner in (SERVICE, HOST):
    truncated(8)
    put(20, ptr(numbered(6, 200), ttl=0))
    put(1020, record(owner, PTR, target(b"new"), ttl=100))
    slot(6)
    ask(1020)
    ask(1020)
    ask(1020)
show("one that came before the entry is left out, one behind it is not")
truncated(8)
put(20, ptr(numbered(2, 200), ttl=0))
put(1020, ptr(target(b"before"), ttl=100), ptr(target(b"behind"), ttl=100))
ask(1020)
ask(1020)
ask(1020)
show("all is flushed, or the table is cleared, or another one is there, or a shorter one: the debt is gone, and the tick goes on")
truncated()
put(1019, ptr(target(b"new"), ttl=100, cls=FLUSH))
ask(1019)
ask(1019)
ask(1020)
for sizes in (("clear",), ("table", 64), ("table", 3), ("table", 512)):
    for later in (20, 1019, 1020):
        truncated()
        print(*sizes)
        ask(later)
        ask(later)
        ask(1020)
show("a debt that is gone is gone: what comes then waits for the next query")
truncated()
print("clear")
ask(20)
fill(20, *([200] * 12))
ask(20)
ask(1019)
ask(1020)
show("a query is due too: first the rest, with more; a rest that leaves off too; then the query")
truncated()
ask(1020)
ask(1020)
ask(1020)
ask(1020)
truncated(20)
ask(1020)
ask(1020)
ask(1020)
ask(1020)
ask(1020)
ask(1020)
show("a rest is no query: it begins no gap, and a threshold between the query and its rest is still to be asked for")
table(64)
fill(0, *([200] * 12))
browse(0)
ask(20)
ask(500)
ask(1019)
ask(1020)
table(64)
browse(0)
put(0, ptr(target(b"booth"), ttl=5))
fill(0, *([200] * 12))
ask(3020)
ask(4000)
ask(4000)
ask(4000)
ask(4020)
show("a new browser owes nothing; a refused one leaves the debt")
truncated()
browse(20)
ask(20)
ask(40)
truncated()
browse(20, 19)
ask(20)
show("a refused tick leaves the debt")
truncated()
ask(20, 1451)
ask(19)
ask(20)
show("a refresh query may leave off too")
table(64)
browse(0)
now = series(until=12)
put(now, ptr(target(b"booth"), ttl=100))
fill(now + 79999, *([200] * 12))
ask(now + 79999)
ask(now + 80000)
ask(now + 80000)
ask(now + 80000)
ask(now + 85000)
ask(now + 85000)
ask(now + 85000)

# --- the list -------------------------------------------------------------------------------------------------------------

show("each target once, letters folded and nothing else, by the lowest entry and spelled as there; when that one is dead, by the next")
table(64)
put(
    0,
    ptr(target(b"booth"), ttl=1),
    ptr(target(b"BOOTH"), ttl=2),
    ptr(name(b"Booth", b"_voice", b"_tcp", b"LOCAL"), ttl=3),
    *(ptr(target(label), ttl=9) for label in (b"b[]th", b"B{}TH", b"b\xc3\xa9", b"b\xc3\x89", b"boot")),
    ptr(b"\0", ttl=9),
)
browse(0)
listed(0, 999, 1000, 1999, 2000, 2999, 3000, 8999, 9000)
show("a list takes no step, and needs none; owners in other case belong to it")
table(64)
browse(0)
listed(0)
put(0, ptr(target(b"a"), owner=name(b"_VOICE", b"_TCP", b"LOCAL")), ptr(filled(255)), ptr(SERVICE))
listed(0, 60000, 119999, 120000)
ask(19)
ask(20)
show("lower entries are taken by later records: the order is the entries'")
table(64)
put(0, ptr(target(b"a"), ttl=1), ptr(target(b"b"), ttl=100))
put(1000, ptr(target(b"B"), ttl=100), ptr(target(b"c"), ttl=100))
browse(1000)
listed(1000)
ask(1020)
show("a table of one entry, and of 512 with the last one alone")
table(1)
put(0, ptr(target(b"a")), ptr(target(b"b")))
listed(2000)
table(512)
put(0, *(record(HOST, A, bytes([10, 0, i >> 8, i & 255]), ttl=1) for i in range(256)))
put(0, *(record(HOST, A, bytes([10, 1, i >> 8, i & 255]), ttl=1) for i in range(255)))
put(0, ptr(target(b"last"), ttl=10))
browse(0)
listed(0, 1000)
ask(20)

# --- the lines ------------------------------------------------------------------------------------------------------------

show("lines that are none")
FIELDS = "5f61 5f746370 6c6f63616c"
for line in ("browse", "browse 0 20 0", "browse 0 20 0 5f61 5f746370", f"browse 0 20 0 {FIELDS} 0", f"browse 0 20 0 {FIELDS} ", f"browse x 20 0 {FIELDS}"):
    print(line)
for line in (f"browse 0 x 0 {FIELDS}", f"browse 0 20 - {FIELDS}", "browse 0 20 0 5f6 5f746370 6c6f63616c", "browse 0 20 0 5f61 _tcp 6c6f63616c"):
    print(line)
for line in (f"Browse 0 20 0 {FIELDS}", f"browses 0 20 0 {FIELDS}", "ask", "ask ", "ask x", "ask -", "ask 0 x", "ask 0 4097", "ask 0 1452 0"):
    print(line)
for line in ("asks 0", "ASK 0"):
    print(line)
for line in ("list", "list ", "list x", "list 0 0", "lists 0"):
    print(line)
browse(9000)
listed(9000)
