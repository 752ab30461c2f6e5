#!/usr/bin/env python3
# Plays traces with two players and compares what they print, byte for byte, on standard output and standard error: every state of each claim and what differs
# from it by state or time, refused calls, held queries, stops and updates; refused starts; broken traces; random ones.
# usage: tests/vectors/player.py PLAYER REFERENCE; or tests/vectors/player.py alone, which writes the input of one play to standard output
import os
import random
import subprocess
import sys

sys.dont_write_bytecode = True
import calls
from records import *

LATE = 1 << 62
TEN = calls.TEN
SIX = calls.SIX
TC = 0x0200


def fields(now=0, draw=0, instance=b"booth", service=b"_voice", protocol=b"_tcp", host=b"dock", domain=b"local", new_port=4000, strings=b"\0", a=TEN, aaaa=b""):
    labels = " ".join(shown(label) for label in (instance, service, protocol, host, domain))
    return f"{now} {draw} {labels} {new_port} {shown(strings)} {shown(a)} {shown(aaaa)}\n".encode()


def every_claim(last, *times):
    """Each claim in each state, at the time and at others."""
    return b"".join(claim(t, which, state) for t in (last, *times) for which in (0, 1) for state in range(5))


def both_claims(last):
    return b"".join(claim(last, which, state) for which in (0, 1) for state in (0, 1, 2, 3, 4))


CONFLICT = calls.response([calls.record(calls.HOST, calls.A, b"\xff" * 4), calls.record(calls.INSTANCE, calls.TXT, b"\1y")])
LATER = [calls.probe(calls.HOST, calls.record(calls.HOST, calls.A, b"\xff" * 4)), calls.probe(calls.INSTANCE, calls.record(calls.INSTANCE, calls.SRV, b"\xff" * 6 + calls.HOST))]
ASKED = [calls.question(calls.SERVICE, calls.PTR), calls.question(calls.INSTANCE), calls.question(calls.HOST)]


def time(records):
    """The time of a call."""
    at = 20 if records[0] == 5 else 1
    return int.from_bytes(records[at:at + 8], "big")


def life(shows=lambda now: b""):
    """From a start at 0 with draw 0 through all states: held, again waiting and held, deferred, lost."""
    parts = [shows(0)]

    def add(*records):
        for one in records:
            parts.append(one)
            parts.append(shows(time(one)))

    for now in (0, 250, 500, 750, 1750):
        add(tick(now), tick(now))
    add(packet(3000, calls.query(ASKED), draw=120), packet(3000, calls.query(ASKED), port=1024), packet(3001, calls.query([]), FOUR, 500), tick(3120))
    add(tick(5000))
    add(packet(5100, calls.query(ASKED, flags=TC), FOUR, 450), packet(5100, calls.query([], [calls.record(calls.HOST, calls.A, TEN)]), FOUR), tick(5549), tick(5550), tick(5550))
    add(port(6000, 80), txt(6001, b"\1x"), txt(11999, b"\1x"), txt(12000, b"\1x"), tick(13000))
    add(packet(14000, CONFLICT), tick(14000), tick(14000), packet(14000, LATER[0]), packet(14000, LATER[1]))
    add(tick(15000), tick(15000), tick(15250), tick(15250), port(15250, 81), packet(15251, CONFLICT), port(16000, 81), packet(16001, calls.query([])))
    add(stop(17000), stop(17001), port(30000, 1), tick(40000))
    return b"".join(parts)


# each a name and an input
PLAYS = []


def play(what, trace, start=None):
    PLAYS.append((what, (fields() if start is None else start) + trace))


play("02's example", tick(0) * 2 + tick(250) * 2 + tick(500) * 2 + tick(750) * 2 + tick(5000) + claim(5000, 1, 3))
play("no trace", b"")
play("calls alone", life())
play("a life, each claim in each state after each call", life(both_claims))
play("the same with an AAAA", life(both_claims), fields(aaaa=SIX))
play("the same with the time before and after it, at 0 and at the most", life(lambda now: every_claim(now, now + 1, max(now - 1, 0), 0, (1 << 64) - 1)))
for draw in (0, 1, 30, 249, 250):
    play(f"a start draw of {draw}", b"".join(tick(t) + both_claims(t) for t in (0, draw, draw, 250, 250, 251, draw + 250, draw + 250)), fields(draw=draw))
play("claim states before any call, and again and again", both_claims(0) * 3)
play("a start at 2^62", both_claims(LATE) + tick(LATE) + both_claims(LATE) + tick(LATE + 1) + both_claims(LATE) + both_claims(LATE + 1), fields(LATE))
REFUSED = [tick(6), tick(LATE + 1), packet(6, CONFLICT), packet(7, CONFLICT, draw=19), packet(7, CONFLICT, draw=121), packet(7, CONFLICT, hold=399), packet(7, CONFLICT, FOUR, 501),
           packet(7, b""), packet(7, b"\0" * 11), packet(7, b"\0" * 8973), packet(7, CONFLICT, port=5354), packet(7, CONFLICT[:-1]), packet(7, b"\0\0\x08" + bytes(9)), stop(6), stop(LATE + 1), port(6, 1), txt(7, b""), txt(7, b"\1"),
           txt(7, b"\0" * 401), txt(7, b"\0" * 656), txt(7, b"\0" * 65535)]
play("refused calls change nothing, the last time neither, and are passed", tick(7) + b"".join(r + both_claims(7) for r in REFUSED) + tick(8) + both_claims(8))
for i, one in enumerate(REFUSED):
    play(f"refused call {i + 1} alone, and a call behind it", tick(7) + one + both_claims(7) + tick(8) + both_claims(8))
play("a packet of 8,972 bytes is taken, and one of 65,535 is refused", packet(1, bytes(8972)) + both_claims(1) + packet(2, bytes(65535)) + both_claims(1) + packet(3, bytes(12)) + both_claims(3))
for source_port in (5353, 5352, 0, 65535):
    play(f"a conflict from port {source_port}", tick(0) + packet(1, CONFLICT, port=source_port) + both_claims(1) + both_claims(0))
HELD = tick(0) * 2 + tick(250) * 2 + tick(500) * 2 + tick(750) * 2 + tick(1750) * 2
play("updates: 6,000 ms after the last, and after a stop", HELD + port(2000, 1) + both_claims(2000) + txt(7999, b"\1x") + both_claims(2000) + txt(8000, b"\1x") + both_claims(8000) + stop(9000) + port(20000, 1) + both_claims(9000))
play("an update while probing: back to waiting", tick(0) * 2 + txt(1, b"\1x") + both_claims(1) + tick(1) + both_claims(1))
play("an update's data decide what conflicts", HELD + txt(2000, b"\1x") + packet(2001, calls.response([calls.record(calls.INSTANCE, calls.TXT, b"\1x")])) + both_claims(2001)
     + packet(2002, calls.response([calls.record(calls.INSTANCE, calls.TXT, b"\0")])) + both_claims(2002))
play("an update's port decides, too", HELD + port(2000, 80) + packet(2001, calls.response([calls.record(calls.INSTANCE, calls.SRV, bytes(5) + b"\x50" + calls.HOST)])) + both_claims(2001)
     + packet(2002, calls.response([calls.record(calls.INSTANCE, calls.SRV, calls.OWN_SRV)])) + both_claims(2002))

show_one = claim(0, 0, 0)
ODD = [b"\0", b"\x09", b"\xff", tick(1)[:-1], received(1, 1), received(1, 0)[:-1], received(1, 17) + piece(b"a" * 16), received(1, 1) + piece(b"ab"), piece(b""), received(1, 0) + piece(b""), claim(0, 2, 0), claim(0, 0, 5), source(ZERO, 400) + received(1, 0),
       source(FOUR, 400), source(FOUR, 400) + tick(1), source(FOUR, 400) * 2, text(1, 1), text(1, 0)[:-1], text(1, 16) + tick(1), port(1, 1)[:-1], stop(1)[:-1]]
for i, odd in enumerate(ODD):
    for where, trace in (("alone", odd), ("behind a claim state", show_one + odd), ("before one", odd + show_one)):
        play(f"broken trace {i + 1}, {where}: nothing is printed", trace)
for what, start in (("1", fields(LATE + 1)), ("2", fields(draw=251)), ("7", fields(instance=b"")), ("7", fields(strings=b"")), ("7", fields(instance=b"a\n")), ("1 before 2", fields(LATE + 1, 251)), ("2 before 7", fields(draw=251, host=b"")),
                    ("7", fields(instance=b"i" * 319)), ("7", fields(strings=b"\0" * 401)), ("7", fields(protocol=b"_TCP"))):
    for trace in (b"", show_one, b"\0"):
        play(f"a start that is refused with {what}", trace, start)
good = fields()
for bad in (b"", b"\n", good[:-1], b" " + good, good[:-1] + b" \n", good[:-1] + b"\r\n", b"start " + good, good.replace(b" ", b"  ", 1), good.replace(b" ", b"\t", 1), good.replace(b"4000", b"65536"), good.replace(b"4000", b"-"),
            good.replace(b"0a000007", b"0a0000"), good.replace(b"0a000007", b"-"), good.replace(b" -\n", b"\n"), good.replace(b" -\n", b" 00\n"), good.replace(b" -\n", b" - 0\n"), good.replace(b"626f", b"62g"), b"#" + good, b"\0" + good,
            b"0" * 40000 + b"\n", b"x" * 40001 + b"\n", b"x" * 100000, b"0" * 39927 + good, b"0" * 39926 + good, b"0" * 39925 + good):
    for trace in (b"", show_one, b"\0"):
        play(f"a first line of {len(bad)} bytes that is bad, or nearly", trace, bad)
play("fields of either case, numbers with zeros in front", show_one, good.replace(b"626f6f7468", b"626F6F7468").replace(b"4000", b"004000").replace(b"0 0 ", b"00 000 ", 1))
play("a trace whose bytes look like lines", claim(0, 0, 0) + tick(0x0A0A0A0A) + both_claims(0x0A0A0A0A) + packet(0x0A0A0A0A, b"\n" * 10) + claim(0x0A, 0, 1))
play("a long trace: 20,000 ticks and 20,000 claim states", b"".join(tick(i) + claim(i, i % 2, i % 5) for i in range(20000)))
play("forty packets of 65,535 bytes", b"".join(packet(i, bytes(65535)) for i in range(40)) + both_claims(0))

draw = random.Random(12)
for _ in range(60):
    events = [some_event(draw) for _ in range(draw.choice((1, 2, 5, 20)))]
    trace = b"".join(records(e) for e in events)
    play("random events", trace)
    play("random events, broken", broken(draw, trace))
WHOLE = life(both_claims)
for _ in range(150):
    play("a life with something changed", broken(draw, WHOLE))
for _ in range(150):
    # calls of a life in another order, with other times, some twice
    places = offsets(life())
    calls_of = [life()[a:b] for a, b in zip(places, places[1:])]
    trace, i = b"", 0
    while i < len(calls_of):
        j = i + 1
        while j < len(calls_of) and calls_of[j][0] in (3,) or calls_of[j - 1][0] == 5:
            j += 1
        whole = b"".join(calls_of[i:j])
        if draw.random() < 0.85:
            trace += whole * draw.choice((1, 1, 1, 2))
            last = time(whole)
            trace += b"".join(claim(draw.choice((last, last, last + 1)), draw.randrange(2), draw.randrange(5)) for _ in range(3))
        i = j
    play("a life with calls left out, or twice", trace, fields(draw=draw.choice((0, 0, 100, 250)), aaaa=draw.choice((b"", SIX))))


def run(player, data):
    done = subprocess.run([player], input=data, stdout=subprocess.PIPE, stderr=subprocess.PIPE)
    return done.stdout, done.stderr


if len(sys.argv) != 3:
    os.write(1, fields(aaaa=SIX) + life(both_claims))
    sys.exit()
lines = refused = 0
for what, data in PLAYS:
    ours, theirs = (run(os.path.abspath(player), data) for player in sys.argv[1:])
    if ours != theirs:
        print("DIFFER:", what)
        print("  input", data[:200], "...", data[200:][:2000].hex())
        for (out, err) in (ours, theirs):
            at = next((i for i, (a, b) in enumerate(zip(ours[0], theirs[0])) if a != b), 0)
            print("  ", len(out), "bytes,", out[max(at - 60, 0):at + 200], err[:200])
        sys.exit(1)
    lines += theirs[0].count(b"\n")
    refused += bool(theirs[1])
print(f"same: {len(PLAYS)} plays, {lines:,} lines, {refused} refusals")
