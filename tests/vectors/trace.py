#!/usr/bin/env python3
# Writes the console script of traces: `trace`, which reads one, and `record`, which writes one; each kind, every way to break it at each place. Run by
# make.sh; the expected answers come from the reference program.
import random
import sys

sys.dont_write_bytecode = True
from records import *

MOST = (1 << 64) - 1
TIMES = (0, 1, 255, 256, 5000, 1 << 32, 0x0102030405060708, 1 << 62, (1 << 62) + 1, MOST)
SIZES = (0, 1, 2, 15, 16, 17, 31, 32, 33, 47, 48, 49, 255, 256, 257, 400, 401, 1452)


def show(what):
    print("\n# " + what)


def trace(*parts):
    print("trace", shown(b"".join(parts)))


def record(size, *events):
    print("record", size, *[words(e) for e in events])


def both(*events):
    """Read and written; also with one byte of room too few."""
    whole = b"".join(records(e) for e in events)
    trace(whole)
    record(len(whole), *events)
    if whole:
        record(len(whole) - 1, *events)


def recv(now=7, data=b"", address=ZERO, hold=400, port=5353, draw=20):
    return ("recv", now, address, port, draw, hold, data)


def bytes_of(n, last=None):
    data = bytes(1 + i % 251 for i in range(n))
    return data if last is None or not n else data[:-1] + bytes([last])


# --- whole traces, both ways -------------------------------------------------------------------------------------------------

show("no event")
trace()
record(0)
record(1)
record(MOST)
show("02's example: the host held at 5000")
both(("claim", 5000, 1, 3))
show("times of 64 bits, big-endian, whatever they are")
for now in TIMES:
    both(("tick", now))
    both(("stop", now))
    both(recv(now))
    both(("claim", now, 0, 0))
    both(("port", now, 80))
    both(("txt", now, b""))
show("each claim in each state")
for which in (0, 1):
    for state in range(5):
        both(("claim", 5000, which, state))
show("ports and draws, to what their fields hold; a draw that a call refuses is written all the same")
for p in (0, 1, 255, 256, 5353, 0xE914, 65535):
    both(recv(port=p))
    both(("port", 9, p))
for d in (0, 19, 20, 120, 121, 127, 128, 255):
    both(recv(draw=d))
show("packets and TXT of each length: n/16 of kind 3, rounded up, none for 0")
for n in SIZES:
    both(recv(data=bytes_of(n)))
    both(("txt", 7, bytes_of(n)))
trace(packet(7, bytes_of(8973)))
record(9551, recv(data=bytes_of(8973)))
trace(txt(7, bytes_of(8973)))
show("bytes that are zeros at the end are no padding")
for n in (1, 15, 16, 17, 32):
    both(recv(data=bytes_of(n, 0)))
    both(recv(data=bytes(n)))
    both(("txt", 7, bytes(n)))
show("the source address and the hold draw: a kind 5 stands before the 2 unless they are sixteen zero bytes and 400")
for hold in (0, 1, 144, 255, 256, 399, 400, 401, 500, 501, 0x9001, 65535):
    both(recv(hold=hold))
    both(recv(address=FOUR, hold=hold))
for i in range(16):
    both(recv(address=bytes(i) + b"\1" + bytes(15 - i)))
    both(recv(address=bytes(i) + b"\xff" + bytes(15 - i), data=b"x"))
both(recv(address=FOUR[:12] + bytes(4)))
both(recv(address=bytes(range(16)), hold=0x0102, data=bytes_of(17)))
show("one of each, in two orders; two packets from one address have a kind 5 each")
EACH = [("tick", 1), recv(2, b"x", FOUR), ("claim", 3, 1, 4), ("stop", 4), ("port", 5, 6), ("txt", 7, b"\1x"), recv(8, b""), recv(9, bytes_of(16), ZERO, 500)]
both(*EACH)
both(*EACH[::-1])
both(recv(1, b"a", FOUR), recv(1, b"b", FOUR), recv(1, b"c"), recv(1, b"", FOUR))

# --- broken traces -------------------------------------------------------------------------------------------------------------

WHOLE = b"".join(records(e) for e in EACH)
show("a trace of one of each, cut behind each of its bytes: the record that is cut, or the end where one is owed")
for cut in range(len(WHOLE) + 1):
    trace(WHOLE[:cut])
show("each byte of it changed, to the next, and to its top bit")
for i in range(len(WHOLE)):
    trace(WHOLE[:i], bytes([(WHOLE[i] + 1) % 256]), WHOLE[i + 1:])
    trace(WHOLE[:i], bytes([WHOLE[i] ^ 0x80]), WHOLE[i + 1:])
show("every kind byte there is, alone, with room for any body, and behind a tick")
for kind in range(256):
    trace(bytes([kind]))
    trace(bytes([kind]) + bytes(18))
for kind in (0, 9, 10, 16, 127, 128, 129, 131, 254, 255):
    trace(tick(1), bytes([kind]), bytes(30))
show("a body of one byte fewer and one more than its kind has, at the end, and before a tick")
KINDS = {1: tick(1), 2: received(1, 0), 4: claim(1, 1, 4), 6: stop(1), 7: port(1, 2), 8: text(1, 0)}
for whole in KINDS.values():
    for last in (b"", tick(2)):
        trace(whole[:-1], last)
        trace(whole, b"\0", last)
for hold in (401,):
    trace(source(FOUR, hold)[:-1], received(1, 0))
    trace(source(FOUR, hold), b"\0", received(1, 0))
trace(received(1, 16), piece(b"a" * 16)[:-1])
trace(received(1, 16), piece(b"a" * 16)[:-1], tick(1))
trace(received(1, 16), piece(b"a" * 16), b"\0")
show("each kind at each place: behind each, where one or two of kind 3 are owed, where none is any more, behind a 5, and at the end of each there")
ANY = {**KINDS, 3: piece(b"a"), 5: source(FOUR, 400), 0: b"\0" * 19, 9: b"\x09" + bytes(18)}
PLACES = [b"", *KINDS.values()]
for head in (lambda n: received(1, n), lambda n: text(1, n), lambda n: source(ZERO, 401) + received(1, n)):
    PLACES += [head(1), head(1) + piece(b"a"), head(16), head(17), head(17) + piece(b"a" * 16), head(17) + piece(b"a" * 16) + piece(b"a"), head(33) + piece(b"a" * 16)]
PLACES += [source(FOUR, 400), tick(1) + source(ZERO, 0)]
for place in PLACES:
    trace(place)
    for whole in ANY.values():
        trace(place, whole)
        trace(place, whole, received(2, 0))
show("one of kind 3 too many and too few, and none at all, for each length")
for head in (received, text):
    for n in (0, 1, 15, 16, 17, 31, 32, 33):
        data = bytes_of(n)
        trace(head(1, n), pieces(data), piece(b""))
        trace(head(1, n), pieces(data)[:-17])
        trace(head(1, n), pieces(data)[:-17], tick(1))
        trace(head(1, n))
    trace(head(1, 65535))
    trace(head(1, 65535), pieces(bytes_of(1600)))
    trace(head(1, 65535), pieces(bytes_of(1600)), tick(1))
    trace(head(1, 256), pieces(b"a"))
show("padding: each byte of it, for each number of bytes in the last of kind 3")
for n in range(1, 17):
    data = bytes_of(n)
    for i in range(n, 16):
        trace(received(1, n), b"\3" + data + bytes(i - n) + b"\1" + bytes(15 - i))
        trace(text(1, n), b"\3" + data + bytes(i - n) + b"\x80" + bytes(15 - i))
    trace(received(1, n), piece(data, b"\xff"))
    trace(tick(1), source(FOUR, 1), received(1, 16 + n), piece(bytes_of(16)), piece(data, b"\0"), tick(2))
    trace(tick(1), source(FOUR, 1), received(1, 16 + n), piece(bytes_of(16)), piece(data, b" "), tick(2))
show("claim bytes and state bytes")
for which in (0, 1, 2, 3, 127, 128, 129, 254, 255):
    for state in (0, 1, 4, 5, 6, 127, 128, 131, 255):
        trace(claim(5000, which, state))
trace(tick(1), claim(1, 0, 5), claim(1, 2, 0))
show("a kind 5 with sixteen zero bytes and 400: it can't stand there, whatever comes behind it, nor where it would be out of place for another reason")
for last in (b"", received(1, 0), received(1, 1) + piece(b"a"), tick(1), source(ZERO, 400), source(FOUR, 400)):
    trace(source(ZERO, 400), last)
    trace(tick(1), source(ZERO, 400), last)
trace(source(FOUR, 400), source(ZERO, 400), received(1, 0))
trace(received(1, 1), source(ZERO, 400), received(1, 0))
show("of two faults the first counts")
trace(tick(1), claim(1, 2, 0), b"\0")
trace(tick(1), received(1, 1), claim(1, 2, 0), b"\0")
trace(received(1, 17), piece(b"a" * 16), piece(b"ab"), b"\0")
trace(source(ZERO, 400), b"\0")
trace(source(FOUR, 400), b"\0")
trace(b"\0", tick(1))
trace(claim(1, 2, 0)[:-1])
trace(source(ZERO, 400)[:-1])
trace(received(1, 1), claim(1, 2, 0)[:-1])

# --- what is not written ---------------------------------------------------------------------------------------------------------

show("room: exactly as much as is written, one byte more and fewer, none, a lot")
for events in ([("tick", 1)], EACH, [recv(1, bytes_of(17))], [recv(1, b"", FOUR)]):
    n = sum(len(records(e)) for e in events)
    for room in (n, n + 1, n - 1, 0, 1, 65535, 65536, MOST):
        record(room, *events)
record("00009", ("tick", 1))
show("a value that its field can't hold: 12 at the offset that its record would have; before 3")
TOO_GREAT = (65536, 65536 + 5353, 65536 + 400, 1 << 32, MOST)
BEFORE = ([], [("tick", 1)], EACH)
for before in BEFORE:
    for room in (0, 100000) if before is not EACH else (50,):
        for n in TOO_GREAT:
            record(room, *before, recv(port=n))
            record(room, *before, recv(port=n, address=FOUR), ("tick", 1))
            record(room, *before, recv(hold=n))
            record(room, *before, recv(hold=n, address=FOUR), ("tick", 1))
            record(room, *before, ("port", 1, n))
        for n in (256, 276, 65536, 1 << 32, MOST):
            record(room, *before, recv(draw=n))
            record(room, *before, recv(draw=n, hold=500), ("tick", 1))
        for n in (2, 3, 255, 256, 257, 65536, MOST):
            record(room, *before, ("claim", 1, n, 0))
        for n in (5, 6, 255, 256, 260, 65536, MOST):
            record(room, *before, ("claim", 1, 0, n), ("tick", 1))
show("the values that fit just so")
record(1000, recv(port=65535, draw=255, hold=65535), ("port", MOST, 65535), ("claim", MOST, 1, 4))
show("of two values the one of the first record counts: the hold draw before the port and the draw")
record(0, recv(port=65536, draw=256, hold=65536))
record(0, recv(port=65536, draw=256, hold=65535))
record(0, recv(port=65536, draw=256, hold=400))
record(0, recv(hold=500), recv(port=65536), recv(hold=65536))
record(0, recv(port=65536), recv(hold=65536))
record(0, ("claim", 1, 2, 5), ("claim", 1, 0, 5))
record(0, ("tick", 1), ("claim", 1, 0, 5), ("claim", 1, 2, 0), ("port", 1, 65536))
show("a source address of 4 bytes is an IPv4 address, as in other calls; in 16 bytes it is the same")
print("record 33 recv 0 0a000001 5353 20 400 -")
print("record 33 recv 0 00000000 5353 20 400 -")
print("record 33 recv 0 00000000000000000000ffff0a000001 5353 20 400 -")
print("record 33 recv 0 00000000000000000000000000000000 5353 20 400 -")

# --- form --------------------------------------------------------------------------------------------------------------------------

show("fields that are missing, left over, or not of their form; a bad line comes before any refusal")
for bad in ("trace", "trace ", "trace 0", "trace -0", "trace - ", "trace  -", "trace - -", "trace 010000000000000000 00", "trace 0g", "Trace -", "traces -", "tracE -", "trace\t-",
            "record", "record ", "record -", "record x", "record 0 ", "record  0", "record 18446744073709551616", "Record 0", "records 0",
            "record 9 tick", "record 9 tick ", "record 9 tick -", "record 9 tick x", "record 9 tick 1 2", "record 9 tick 18446744073709551616", "record 9 Tick 1", "record 9 ticks 1", "record tick 1",
            "record 9 tick 1 ", "record 9  tick 1", "record 9 tick 1 tick", "record 9 start 1", "record 9 stop", "record 9 stop 1 1452", "record 9 stop -",
            "record 99 claim 1 0", "record 99 claim 1 0 0 0", "record 99 claim 1 instance held", "record 99 claim 1 - 0", "record 99 claim 1 2 18446744073709551616",
            "record 99 port 1", "record 99 port 1 -", "record 99 port 1 80 1452", "record 99 update 1 port 80", "record 99 txt 1", "record 99 txt 1 0", "record 99 txt 1 0g", "record 99 txt 1 00 1452",
            "record 99 recv 1 0a000001 5353 20 400", "record 99 recv 1 5353 20 400 -", "record 99 recv 1 - 5353 20 400 -", "record 99 recv 1 0a0000 5353 20 400 -", "record 99 recv 1 0a00000100 5353 20 400 -",
            "record 99 recv 1 0a000001 5353 20 400 - 1452", "record 99 recv 1 0a000001 5353 20 400 0", "record 99 recv 1 0a000001 - 20 400 -", "record 99 recv 1 0a000001 5353 20 -", "record 0 claim 1 2 0 tick"):
    print(bad)
show("digits of either case, numbers with zeros in front")
print("record 0000000000000000000000033 recv 0001 0A000001 005353 020 0400 -")
print("trace 0400000000000013880103")
print("record 100 txt 1 0aFf recv 1 0000000000000000000000000000000A 1 2 3 AB")

# --- random ones -------------------------------------------------------------------------------------------------------------------

draw = random.Random(12)
show("random events, both ways")
for _ in range(120):
    both(*[some_event(draw) for _ in range(draw.choice((1, 2, 3, 5)))])
show("random traces that are broken somewhere, or at least changed")
for _ in range(300):
    trace(broken(draw, b"".join(records(some_event(draw)) for _ in range(draw.choice((1, 2, 3, 5))))))
show("the longest lines: as many ticks as a line has room for; events of nine characters that take 28 bytes")
trace(*[tick(i) for i in range(2221)])
trace(*[tick(i) for i in range(2221)], b"\0" * 8)
print("record 1000000" + " tick 0" * 5712)
print("record 1000000" + " txt 0 00" * 4442)
print("record 124375" + " txt 0 00" * 4442)
