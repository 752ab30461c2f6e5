#!/usr/bin/env python3
# Writes the console script of the discovery proxy's names and records (RFC 8766): `proxy`, `question`, `answer` and `cached`. Run by make.sh; the expected
# answers come from the reference program.
import sys

sys.dont_write_bytecode = True
from packets import *

RICH = name(b"rich", b"example")
LDH = name(b"ldh", b"example")
LOCAL = name(b"local")
SHORT = (name(b"a"), name(b"b"))
SOA, NS, DS = 6, 2, 43
FIVE = (A, PTR, TXT, AAAA, SRV)
TYPES = (*FIVE, NSEC, SOA, NS, DS, 0, 1, 3, 5, 7, 41, 42, 44, 64, 255, 256 + 6, 256 + 2, 256 + 43, 32768 + 6, 65535)
LATE = 4 << 60
NUMBERS = bytes(range(1, 7))


def show(what):
    print("\n# " + what)


def shown(b):
    return b.hex() or "-"


def proxy(rich=RICH, ldh=LDH):
    print("proxy", shown(rich), shown(ldh))


def ask(owner, rtype=1):
    print("question", shown(owner), rtype)


def answer(owner, rtype=A, rdata=None, cls=1, ttl=120):
    print("answer", shown(owner), rtype, cls, ttl, shown(DATA[rtype] if rdata is None else rdata))


def put(now, *records):
    print("put", now, 5353, (header(an=len(records)) + b"".join(records)).hex())


def cached(now, slot):
    print("cached", now, slot)


def under(suffix, n):
    """A name of n bytes that ends in this one, with labels before it."""
    left = n - len(suffix)
    parts = []
    while left:
        size = left if left <= 64 else 64 if left != 65 else 32
        parts.append(b"x" * (size - 1))
        left -= size
    return labels(*parts) + suffix


def within(suffix, before=b"x"):
    """A name whose last label holds the bytes of this one, but for its zero byte."""
    return bytes([len(before) + len(suffix) - 1]) + before + suffix


def recased(wire):
    return bytes(c ^ 32 if chr(c).isalpha() and c < 128 else c for c in wire)


X = labels(b"x")
DATA = {A: bytes([10, 0, 0, 7]), AAAA: bytes(range(16)), TXT: b"\3a=b", PTR: labels(b"Tea", b"_voice", b"_tcp") + LOCAL, SRV: NUMBERS + labels(b"desk") + LOCAL, NSEC: X + LOCAL + window(0x40), 2: X + LOCAL, 6: X + LOCAL, 43: b"\1\2\3\4", 0: b"", 255: b"", 99: b"\1\2\3\4"}

# --- before a set-up, and set-ups --------------------------------------------------------------------------------------------

print("table 64")
show("before the first set-up all is refused with 7; a malformed name in a question is 6 before it; a record that would be left out is 7")
ask(X + RICH)
ask(X + RICH, SOA)
ask(b"")
ask(b"\1x")
ask(X + RICH + b"\0", SOA)
answer(X + LOCAL)
answer(b"")
answer(X + LOCAL, 99)
answer(X + LOCAL, A, b"")
cached(0, 0)
cached(0, 63)
cached(LATE + 1, 0)
show("a set-up that is refused is none")
proxy(RICH, RICH)
ask(X + RICH)
cached(0, 0)
show("legal ones: siblings; domains of one label; of 255 bytes; \"local\" itself, and under it; labels of any bytes")
for rich, ldh in ((RICH, LDH), SHORT, (filled(255), LDH), (RICH, filled(255)), (filled(254), filled(255)), (LOCAL, LDH), (RICH, LOCAL), (X + LOCAL, name(b"y", b"local")), (name(b"\0"), name(b".")), (name(b"\xff" * 63), name(b"@", b"[")), (name(b"example"), name(b"examplf")),
                  (name(b"a", b"b"), name(b"b", b"a")), (name(b"a", b"b"), name(b"a", b"b", b"c"))):
    proxy(rich, ldh)
    proxy(ldh, rich)
show("equal, also in other letters; letters are folded and nothing else")
for a, b in ((RICH, RICH), (RICH, recased(RICH)), (LOCAL, name(b"LOCAL")), (name(b"[@`{"), name(b"{@`[")), (name(b"[a"), name(b"{a")), (name(b"@"), name(b"`")), (name("é".encode()), name("É".encode())), (filled(255), recased(filled(255)))):
    proxy(a, b)
    proxy(b, a)
show("one under the other, by one label or more, in any letters")
for a in (RICH, LDH, SHORT[0], filled(200)):
    for labels_before in (X, labels(b"x", b"y"), labels(b"local"), labels(b"A" * 40)):
        proxy(a, labels_before + a)
        proxy(labels_before + a, a)
        proxy(recased(a), labels_before + a)
        proxy(labels_before + recased(a), a)
proxy(name(b"example"), LDH)
proxy(RICH, name(b"EXAMPLE"))
show("not under it by whole labels: the bytes stand within a label, or a label is longer, or goes on")
for a in (RICH, SHORT[0], LOCAL):
    for b in (within(a), within(a, b""), a[:1] + b"x" + a[2:], bytes([a[0] + 1]) + b"x" + a[1:], a[:-1] + X + b"\0"):
        proxy(a, b)
        proxy(b, a)
show("the root: all names lie under it")
for a in (b"\0", RICH, filled(255), LOCAL):
    proxy(a, b"\0")
    proxy(b"\0", a)
show("malformed: no bytes, no zero byte, bytes past it, a pointer, a length over 63, 256 bytes and more")
for bad in (b"", b"\1", b"\1a", RICH[:-1], RICH + b"\0", RICH + b"x", b"\0\0", b"\xc0\x0c", X + b"\xc0\x0c", pointer(12) + b"\0", b"\x40" + b"a" * 64 + b"\0", b"\x80\0", b"\xbf\0", filled(256), filled(257), filled(300), X + filled(255)):
    proxy(bad, LDH)
    proxy(RICH, bad)
    proxy(bad, bad)
show("a refused set-up changes nothing")
proxy(*SHORT)
proxy(RICH, RICH)
proxy(RICH, b"")
ask(X + SHORT[0])
ask(X + RICH)
answer(X + LOCAL)

# --- questions ---------------------------------------------------------------------------------------------------------------

for rich, ldh in ((RICH, LDH), SHORT, (name(b"x", b"local"), name(b"LDH", b"Example")), (LOCAL, name(b"locam"))):
    show("under each domain, of every type: mapped; SOA, NS and DS negative; the apex, what is above and beside it, and \"local\" pass as they are")
    proxy(rich, ldh)
    for rtype in TYPES:
        for domain in (rich, ldh):
            ask(labels(b"Tea", b"_voice", b"_tcp") + domain, rtype)
            ask(domain, rtype)
        ask(X + LOCAL, rtype)
    for owner in (rich[1 + rich[0]:], ldh[1 + ldh[0]:], LOCAL, b"\0", name(b"x"), name(b"x", b"example"), name(b"x", b"c"), X + recased(rich), X + recased(ldh), recased(X + rich), recased(rich), X + rich + ldh[:0]):
        ask(owner)
        ask(owner, SOA)
    for domain in (rich, ldh):
        for odd in (within(domain), X + within(domain), within(domain, b""), X + domain[:-1] + X + b"\0", X + bytes([domain[0] + 1]) + b"x" + domain[1:], X + domain[:1] + b"@" + domain[2:], labels(b"local") + domain, X + domain[:-1] + domain, domain[:-1] + domain,
                    X + LOCAL[:-1] + domain, X + domain[:-1] + LOCAL):
            ask(odd)
            ask(odd, NS)
show("folding is of ASCII letters alone, and not of length bytes")
proxy(name(b"a[@"), name(b"b"))
for owner in (name(b"x", b"A[@"), name(b"x", b"a{@"), name(b"x", b"a[`"), name(b"x", "é".encode(), b"a[@"), name(b"[", b"a[@")):
    ask(owner)
show("lengths: with a domain shorter than \"local\" a mapped name may have 255 bytes, or 256: refusal 13; negative all the same; others of 255 bytes pass")
for domain in (name(b"a"), name(b"ab"), name(b"abcd"), name(b"abcde"), name(b"abcdef"), name(b"a", b"b"), RICH, filled(100), filled(200), filled(250), filled(252), filled(253), filled(254), filled(255)):
    other = name(b"zz")
    for rich, ldh in ((domain, other), (other, domain)):
        proxy(rich, ldh)
        most = 255 - len(LOCAL) + len(domain)
        for n in sorted({most - 1, most, most + 1, most + 2, 253, 254, 255}):
            if len(domain) + 2 <= n <= 255:
                ask(under(domain, n))
                ask(under(domain, n), PTR)
                ask(under(domain, n), DS)
        ask(filled(255))
        ask(under(LOCAL, 255))
        ask(domain)
show("of the most labels: 127 of one byte each; 125 and a domain of one label")
proxy(*SHORT)
ask(labels(*[b"c"] * 126) + SHORT[0])
ask(labels(*[b"c"] * 124) + SHORT[0])
ask(labels(*[b"c"] * 123) + SHORT[0])
ask(labels(*[b"a"] * 127) + b"\0")
show("a malformed name is 6, before 7 and 13, whatever its type")
for bad in (b"", b"\1x", X + RICH + b"\0", X + RICH[:-1], X + pointer(12), b"\x40" * 70, X + filled(255), under(SHORT[0], 256), b"\0\0"):
    for rtype in (A, SOA):
        ask(bad, rtype)

# --- records -----------------------------------------------------------------------------------------------------------------

show("each type: owners of PTR, SRV and TXT and targets of PTR go under the rich-text domain, owners of A and AAAA and targets of SRV under the other")
for rich, ldh in ((RICH, LDH), (LDH, RICH), SHORT, (name(b"y", b"local"), LDH), (LOCAL, LDH), (RICH, LOCAL)):
    proxy(rich, ldh)
    for rtype in FIVE:
        for owner in (X + LOCAL, labels(b"Tea", b"_voice", b"_tcp") + LOCAL, recased(X + LOCAL), LOCAL, recased(LOCAL), b"\0", X + RICH, X + LDH, RICH, X + LOCAL[:-1] + RICH, X + RICH[:-1] + LOCAL, within(LOCAL), X + within(LOCAL, b"y"), name(b"x", b"loca"), name(b"x", b"xlocal"), name(b"x", b"loca\x4d"), X + LOCAL[:-1] + X + b"\0",
                      labels(b"local") + LOCAL, name(b"x", b"local", b"local")):
            answer(owner, rtype)
show("targets: under \"local\", at it, beside it")
proxy()
for target in (X + LOCAL, recased(X + LOCAL), LOCAL, b"\0", X + RICH, X + LDH, within(LOCAL), X + within(LOCAL), labels(b"local") + LOCAL, X + LOCAL[:-1] + RICH, name(b"desk", b"example")):
    answer(X + LOCAL, PTR, target)
    answer(X + LOCAL, SRV, NUMBERS + target)
    answer(b"\0", PTR, target)
    answer(b"\0", SRV, bytes(6) + target)
show("names in TXT are no names")
answer(X + LOCAL, TXT, b"\7" + LOCAL)
answer(X + LOCAL, TXT, X + LOCAL)
answer(X + LOCAL, A, LOCAL[1:5])
answer(X + LOCAL, AAAA, X + LOCAL + X + b"local"[:5])
show("other types are left out, NSEC of the restricted form too; so is what is not well formed; all the same where its name would be too long")
for owner in (X + LOCAL, under(LOCAL, 255)):
    for rtype in (0, 2, 5, 6, 13, 15, 41, 43, 47, 99, 255, 256 + 1, 256 + 12, 32768 + 16, 65535):
        answer(owner, rtype, DATA.get(rtype, X + LOCAL))
    for rtype, rdatas in ((A, (b"", bytes(3), bytes(5), bytes(16))), (AAAA, (b"", bytes(4), bytes(15), bytes(17))), (TXT, (b"\1", b"\3ab", b"\0\5abcd", b"\xff" + bytes(254))), (PTR, (b"", b"\1", X, X + LOCAL + b"\0", X + LOCAL[:-1], pointer(12), X + pointer(12), b"\x40" * 70, filled(256), b"\0\0")),
                          (SRV, (b"", bytes(5), bytes(6), NUMBERS + X, NUMBERS + X + LOCAL + b"\0", NUMBERS + pointer(12), NUMBERS + X + pointer(12), NUMBERS + filled(256), X + LOCAL, bytes(8)))):
        for rdata in rdatas:
            answer(owner, rtype, rdata)
show("a malformed owner is left out, of any type")
for bad in (b"", b"\1x", X + LOCAL + b"\0", X + LOCAL[:-1], X + pointer(12), pointer(12), b"\x40" * 70, filled(256), X + filled(255), b"\0\0"):
    for rtype in (A, TXT, PTR, 99):
        answer(bad, rtype)
show("what is well formed at its limits: an empty TXT, one of zero bytes, one of 4,000 bytes; targets of 255 bytes; the root")
for rdata in (b"", b"\0", b"\0\0\0", b"\xff" + bytes(255), (b"\x63" + b"t" * 99) * 40):
    answer(X + LOCAL, TXT, rdata)
answer(X + LOCAL, PTR, filled(255))
answer(X + LOCAL, SRV, NUMBERS + filled(255))
answer(X + LOCAL, PTR, b"\0")
answer(X + LOCAL, SRV, bytes(7))
show("TTLs: the lesser of it and 10; one with its top bit set counts as 0")
for ttl in (0, 1, 8, 9, 10, 11, 12, 120, 255, 256, 266, 4500, 65536, 65546, 2147483647, 2147483648, 2147483649, 2147483657, 4294967295):
    answer(X + LOCAL, A, ttl=ttl)
    answer(X + LOCAL, PTR, ttl=ttl)
for ttl in (4294967296, 4294967297, 18446744073709551615):
    answer(X + LOCAL, A, ttl=ttl)
show("classes: without the top bit, whatever they are")
for cls in (0, 1, 3, 254, 255, 0x7FFF, 0x8000, 0x8001, 0x8003, 0x80FF, 0xFFFF):
    answer(X + LOCAL, A, cls=cls)
    answer(X + LOCAL, 99, cls=cls)
for cls in (65536, 65537):
    answer(X + LOCAL, A, cls=cls)
show("lengths: owners and targets of 254, 255 and 256 bytes when mapped, under each domain; one record alone is left out")
for rich, ldh in ((RICH, LDH), (LDH, RICH), (filled(100), name(b"c")), (name(b"c"), filled(100)), (filled(253), LDH), (RICH, filled(254)), (filled(255), SHORT[1]), (name(b"abcdef"), name(b"abcdeg")), (name(b"local"), name(b"abcdeg"))):
    proxy(rich, ldh)
    for rtype in FIVE:
        domain = ldh if rtype in (A, AAAA) else rich
        most = 255 - len(domain) + len(LOCAL)
        for n in sorted({most - 1, most, most + 1, 254, 255, len(LOCAL) + 2}):
            if len(LOCAL) + 2 <= n <= 255:
                answer(under(LOCAL, n), rtype, rdata=DATA[rtype] if rtype in (A, AAAA, TXT) else b"\0" if rtype == PTR else bytes(7))
                answer(under(recased(LOCAL), n), rtype, rdata=DATA[rtype] if rtype in (A, AAAA, TXT) else b"\0" if rtype == PTR else bytes(7))
        answer(under(RICH, 255), rtype)
    for rtype, domain, numbers in ((PTR, rich, b""), (SRV, ldh, NUMBERS)):
        most = 255 - len(domain) + len(LOCAL)
        for n in sorted({most - 1, most, most + 1, 254, 255, len(LOCAL) + 2}):
            if len(LOCAL) + 2 <= n <= 255:
                answer(LOCAL, rtype, numbers + under(LOCAL, n))
                answer(X + LOCAL, rtype, numbers + under(LOCAL, n))
show("out and back, and out again: equal with letters folded")
proxy()
for owner in (X + LOCAL, recased(X + LOCAL), labels(b"Tea", b"_voice", b"_tcp") + LOCAL):
    answer(owner, PTR, owner)
    answer(owner, SRV, NUMBERS + owner)
    ask(owner[:-len(LOCAL)] + RICH, PTR)
    ask(owner[:-len(LOCAL)] + LDH, A)

# --- cached records ------------------------------------------------------------------------------------------------------------

show("cached records of each type, NSEC, an unused entry; at the time when they came")
print("clear")
proxy()
put(1000, *[record(X + LOCAL, rtype, DATA[rtype], cls=0x8001 if rtype != PTR else 1, ttl=120) for rtype in (*FIVE, NSEC)])
for slot in (*range(7), 63):
    cached(1000, slot)
show("what is left, in whole seconds rounded down, and at most 10; dead from its expiry on")
print("clear")
for i, ttl in enumerate((1, 2, 9, 10, 11, 12, 120, 2147483647)):
    put(0, record(name(b"n%d" % i, b"local"), A, bytes(4), ttl=ttl))
for slot, ttl in enumerate((1, 2, 9, 10, 11, 12, 120, 2147483647)):
    for left in (12000, 11001, 11000, 10999, 10001, 10000, 9999, 9001, 9000, 8999, 2000, 1999, 1001, 1000, 999, 1, 0):
        if left <= 1000 * ttl:
            cached(1000 * ttl - left, slot)
    cached(1000 * ttl + 1, slot)
cached(LATE, 7)
show("a goodbye and a flush leave a second")
print("clear")
put(0, record(X + LOCAL, A, bytes(4), ttl=120))
put(5000, record(X + LOCAL, A, bytes(4), ttl=0))
for now in (5000, 5001, 5999, 6000):
    cached(now, 0)
put(10000, record(X + LOCAL, A, bytes(4), ttl=120))
put(12000, record(X + LOCAL, A, bytes([1] * 4), cls=0x8001, ttl=5))
for now in (12000, 12001, 12999, 13000, 16000, 17000):
    cached(now, 0)
    cached(now, 1)
show("names as stored, and their letters; not under \"local\"; a name that is too long is 13, also of one that has no second left; NSEC is left out all the same")
print("clear")
put(0, record(name(b"TEA", b"LOCAL"), PTR, name(b"Desk", b"Local"), ttl=12), record(RICH, SRV, NUMBERS + LDH, ttl=12), record(under(LOCAL, 248), TXT, b"", ttl=12), record(under(LOCAL, 249), TXT, b"", ttl=12), record(under(LOCAL, 249), A, bytes(4), ttl=12), record(under(LOCAL, 250), A, bytes(4), ttl=12))
put(0, record(LOCAL, PTR, under(LOCAL, 249), ttl=12), record(LOCAL, SRV, NUMBERS + under(LOCAL, 249), ttl=12), record(LOCAL, SRV, NUMBERS + under(LOCAL, 250), ttl=12), record(under(LOCAL, 255), NSEC, under(LOCAL, 255) + window(0x40), ttl=12), record(b"\0", PTR, b"\0", ttl=12))
for slot in range(12):
    for now in (0, 11500, 12000):
        cached(now, slot)
show("refusals in the order 1, 8, 13; a slot past the table is a bad line, whatever the time")
for now, slot in ((LATE + 1, 3), (LATE, 3), (0, 63), (0, 64), (LATE + 1, 64), (0, 512), (0, 18446744073709551615)):
    cached(now, slot)
put(20000, record(X + LOCAL, A, bytes(4), ttl=12))
for now in (19999, 20000):
    for slot in (0, 3, 63, 64):
        cached(now, slot)
for sizes in ("0", "1 1023", "2 1024", "513", "64 65535", "1", "512"):
    print("table", sizes)
    for now, slot in ((LATE + 1, 0), (0, 0), (0, 1), (0, 511), (0, 512), (0, 513)):
        cached(now, slot)
print("table 64")

# --- form ------------------------------------------------------------------------------------------------------------------------

show("fields that are missing, left over, or not of their form")
for bad in ("proxy", "proxy ", "proxy 016100", "proxy 016100 ", "proxy 016100 016200 ", "proxy 016100 016200 00", "proxy 0161 0", "proxy 0161g0 016200", "Proxy 016100 016200", "proxys 016100 016200", "proxy  016100 016200",
            "question", "question 00", "question 00 ", "question 00 -", "question 00 x", "question 00 65536", "question 00 65537", "question 00 18446744073709551616", "question 00 1 1", "question 0 1", "Question 00 1", "questions 00 1", "question 1 00",
            "answer", "answer 00 1 1 1", "answer 00 1 1 1 -  ", "answer 00 1 1 1 - -", "answer 00 65536 1 1 -", "answer 00 1 65536 1 -", "answer 00 1 1 4294967296 -", "answer 00 - 1 1 -", "answer 00 1 1 1 0", "answer 0 1 1 1 -", "Answer 00 1 1 1 -", "answers 00 1 1 1 -",
            "cached", "cached 0", "cached 0 ", "cached 0 -", "cached - 0", "cached 0 0 0", "cached 18446744073709551616 0", "cached 0 18446744073709551616", "Cached 0 0", "cache 0 0"):
    print(bad)
for good in ("proxy 0141 00", "proxy 014100 014200", "question 0178014100 001", "question 01580141 1", "answer 0178056C6F63616C00 01 00032769 0000000009 0A000007", "cached 00 063"):
    print(good)
