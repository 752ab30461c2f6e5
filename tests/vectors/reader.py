#!/usr/bin/env python3
# Writes the console script of the reader's vectors: `read` calls, each case under a comment that says what it shows
# (specification, 'Reading a message'; RFC 1035, 4.1.4). Run by make.sh; the expected answers come from the reference program.

import sys

sys.dont_write_bytecode = True
from packets import *


def show(what):
    print("\n# " + what)


def read(packet):
    print("read " + (packet.hex() or "-"))


# --- the examples of the documents ---------------------------------------------------------------------------------------

show("the specification's announcement of dock.local, 10.0.0.7: 38 bytes")
assert len(ANNOUNCED) == 38
read(ANNOUNCED)

show("the specification's probe of dock.local: 44 bytes, the owner of the Authority record is a pointer")
probe = header(qd=1, ns=1, flags=0) + question(HOST) + record(pointer(12), A, bytes([10, 0, 0, 7]))
assert len(probe) == 44
read(probe)

show("RFC 1035, 4.1.4: F.ISI.ARPA at 20, FOO.F.ISI.ARPA at 40, ARPA at 64, the root at 92, and pointers to the last three")
p = header(qd=9, flags=0) + question(name(b"ab"))
assert len(p) == 20
p += question(name(b"F", b"ISI", b"ARPA"))
p += labels(b"www")
assert len(p) == 40
p += question(labels(b"FOO") + pointer(20))
p += labels(b"thirteenbytes")
assert len(p) == 64
p += question(pointer(26))
p += question(name(b"sixteen..bytes.."))
assert len(p) == 92
p += question(b"\0") + question(pointer(40)) + question(pointer(64)) + question(pointer(92))
read(p)

# --- names ------------------------------------------------------------------------------------------------------------

show("a pointer at 12 to 12: malformed")
read(header(qd=1) + question(pointer(12)))

show("a pointer into the middle of a label of its own run: malformed")
read(header(qd=1) + question(bytes.fromhex("057801610079c00e")))

show("a pointer into the middle of a label of an earlier run: the name that stands there")
read(header(qd=2) + question(bytes.fromhex("057801610079") + b"\0") + question(pointer(14)))

show("a pointer to the start of its own run, after a label: malformed")
read(header(qd=1) + question(labels(b"a") + pointer(12)))

show("a pointer to a run that points on, twice: labels and pointers hand over")
read(header(qd=3) + question(name(b"a")) + question(labels(b"b") + pointer(12)) + question(labels(b"c") + pointer(19)))

show("a pointer to a pointer to a pointer to the root of another name")
read(header(qd=4) + question(name(b"a")) + question(pointer(14)) + question(pointer(19)) + question(pointer(25)))

show("a pointer forward: malformed")
read(header(qd=2) + question(pointer(18)) + question(name(b"a")))

show("two pointers at one another: malformed")
read(header(qd=2) + question(pointer(18)) + question(pointer(12)))

show("pointers to 0, 11 and 12: a target is at least 12")
for target in (0, 11, 12):
    read(header(qd=2) + question(name(b"a")) + question(pointer(target)))

show("the high bits of a pointer's first byte: 0xc0 and 0xff, of which the low six belong to the target")
long = header(an=1, ar=1) + record(b"\0", 65280, b"x" * 4097 + name(b"deep") + b"x" * 4000)
read(long + record(pointer(12 + 11 + 4097), A, bytes(4)))
read(header(qd=2) + question(name(b"a")) + question(b"\xff\x0c"))

show("names of 254, 255 and 256 bytes: at most 255")
for n in (254, 255, 256):
    assert len(filled(n)) == n
    read(header(qd=1) + question(filled(n)))

show("names of 254, 255 and 256 bytes by a pointer to one of 251 bytes")
for n in (2, 3, 4):
    read(header(qd=2) + question(filled(251)) + question(labels(b"c" * n) + pointer(12)))

show("a name of 255 bytes of one-byte labels, and one label more")
read(header(qd=1) + question(labels(*[b"a"] * 127) + b"\0"))
read(header(qd=1) + question(labels(*[b"a"] * 128) + b"\0"))

show("labels of 63 bytes, and each byte 0x40..0xbf where a label starts: malformed")
read(header(qd=1) + question(name(b"a" * 63)))
for b in range(0x40, 0xC0):
    read(header(qd=1) + question(bytes([b]) + b"a" * b + b"\0"))

show("0x40 and 0xbf where a second label starts, and behind a pointer: malformed")
for b in (0x40, 0xBF):
    read(header(qd=1) + question(labels(b"a") + bytes([b]) + b"a" * b + b"\0"))
    read(header(an=1, ar=1) + record(b"\0", 65280, bytes([b, 0])) + record(pointer(23), A, bytes(4)))

show("a pointer of one byte at the end, and none of its bytes")
read(header(qd=1) + b"\xc0")
read(header(qd=1) + labels(b"a") + b"\xc0")
read(header(qd=1) + labels(b"a"))
read(header(qd=1))

show("a label that overruns by one byte, and one without its zero byte")
read(header(qd=1) + b"\x05abcd")
read(header(qd=1) + b"\x05abcde")

show("bytes of a label are any bytes: zeros, dots, capitals, 0xff")
read(header(qd=1) + question(name(b"\0.A\xff")))

show("in names that are received a line feed, DEL and bytes that are no UTF-8 stand like any others: question, owner, targets")
for label in (b"two\nlines", b"\x7f", b"\x80", b"\xc0\x80", b"\xed\xa0\x80", b"\xf5\x80\x80\x80", b"caf\xc3"):
    odd = name(label, b"_voice", b"_tcp", b"local")
    read(header(1, 1, 1, 1) + question(odd) + record(odd, TXT, b"\0") + record(b"\0", PTR, odd) + record(b"\0", SRV, bytes(6) + odd))

show("the root as a name")
read(header(qd=1) + question(b"\0"))

show("the longest chain of pointers in 8,972 bytes")
chain = b"\0"
base = 12 + 11
n = (8972 - base - 1 - 16) // 2
for i in range(n):
    chain += pointer(base if i == 0 else base + 1 + 2 * (i - 1))
p = header(an=1, ar=1) + record(b"\0", 65280, chain) + record(pointer(base + 1 + 2 * (n - 1)), A, bytes([1, 2, 3, 4]))
read(p)

# --- labels -----------------------------------------------------------------------------------------------------------

MANY = labels(*[b"a"] * 127) + b"\0"


def everywhere(before, form):
    """A name in each place that hands it on, behind questions for other names: a question, an owner, the targets of PTR and SRV."""
    questions = b"".join(map(question, [*before, form]))
    records = record(form, A, bytes(4)) + record(b"\0", PTR, form) + record(b"\0", SRV, bytes(6) + form)
    read(header(len(before) + 1, 1, 1, 1) + questions + records)


show("labels and the first one's length: the root, one label of 1, 2 and 63 bytes, four labels, 127")
for form in (b"\0", name(b"a"), name(b"ab"), name(b"a" * 63), name(b"a", b"b" * 63), name(b"Booth 3", b"_voice", b"_tcp", b"local"), MANY, filled(255)):
    everywhere([], form)

show("a name that begins with a pointer has the labels of what it points to: the root, one label, four, 127, one of 63 bytes")
for form in (b"\0", name(b"a"), name(b"Booth 3", b"_voice", b"_tcp", b"local"), MANY, name(b"a" * 63, b"b")):
    everywhere([form], pointer(12))

show("a pointer into the middle of a name: to its second label, its last, its zero byte; to the 126th and 127th of 127")
booth = name(b"booth", b"_voice", b"_tcp", b"local")
for target in (18, 25, 30, 36):
    everywhere([booth], pointer(target))
for target in (14, 12 + 250, 12 + 252, 12 + 254):
    everywhere([MANY], pointer(target))

show("a label and a pointer to the same places; a pointer into the middle of a label, where a shorter name reads")
for target in (12, 18, 25, 30, 36):
    everywhere([booth], labels(b"xyz") + pointer(target))
everywhere([MANY], labels(b"x") + pointer(14))
everywhere([MANY], labels(b"x") + pointer(12))
everywhere([name(b"\1b\2cd\0")], labels(b"xyz") + pointer(13))

show("labels behind two pointers: before both, between them and behind; between and behind; behind alone; and three")
at = 12 + len(booth) + 4
between = labels(b"yy") + pointer(25)
for form in (labels(b"xyz") + pointer(at), pointer(at), pointer(at + 3), labels(b"xyz", b"w") + pointer(at + 3)):
    everywhere([booth, between], form)
everywhere([booth, between, labels(b"zzzz") + pointer(at)], labels(b"v") + pointer(at + len(between) + 4))
everywhere([b"\0", pointer(12)], pointer(17))
everywhere([b"\0", pointer(12)], labels(b"x") + pointer(17))

show("126 and 127 labels by a pointer; 128 are more than 255 bytes")
for more in (0, 1, 2):
    everywhere([labels(*[b"a"] * 126) + b"\0"], labels(*[b"b"] * more) + pointer(12))

show("a name of 127 labels, each behind a pointer of its own")
at = 12
chain = question(name(b"a"))
for i in range(126):
    start = 12 + len(chain)
    chain += question(labels(b"b") + pointer(at))
    at = start
read(header(qd=127) + chain)

show("records of other types, and of the five that have no target, show their owner's labels alone")
for rtype, rdata in ((A, bytes(4)), (AAAA, bytes(16)), (TXT, HOST[:5]), (99, HOST), (5, HOST)):
    read(header(an=1) + record(HOST, rtype, rdata))

# --- sections ---------------------------------------------------------------------------------------------------------

show("no questions, no records: ID and flags alone")
read(header(ident=0xBEEF, flags=0x8580))

show("one of each section, in order")
read(header(1, 1, 1, 1) + question(HOST, A, 0x8001) + record(pointer(12), A, bytes([1, 2, 3, 4]))
     + record(pointer(12), AAAA, bytes(range(16))) + record(pointer(12), TXT, b"\x01a", cls=0x8001))

show("counts larger than the message, section by section")
body = question(HOST) + record(pointer(12), A, bytes(4)) * 3
for counts in ((1, 1, 1, 1), (2, 1, 1, 1), (1, 2, 1, 1), (1, 1, 2, 1), (1, 1, 1, 2), (65535, 1, 1, 1), (1, 65535, 0, 0), (0, 0, 0, 1)):
    read(header(*counts) + body)

show("counts smaller than what follows: the rest is ignored")
read(header(1, 1, 0, 0) + body)
read(header(1, 0, 0, 0) + question(HOST) + b"\xc0")

show("bytes after the last record, whatever they are")
read(ANNOUNCED + b"\xff")
read(ANNOUNCED + b"\x40" * 9)

show("a header cut short, field by field of a question and of a record")
for cut in (1, 2, 3, 4):
    read(header(qd=1) + question(HOST)[:-cut])
for cut in range(1, 15):
    read(header(an=1) + record(HOST, A, bytes(4))[:-cut])

# --- rdata ------------------------------------------------------------------------------------------------------------

show("A of 3, 4 and 5 bytes in every section and class: 4 alone is well formed")
for section in ((0, 1, 0, 0), (0, 0, 1, 0), (0, 0, 0, 1)):
    for cls in (1, 0x8001, 3, 255, 0, 65535):
        for n in (3, 4, 5):
            read(header(*section) + record(HOST, A, bytes(n), cls=cls))

show("AAAA of 15, 16 and 17 bytes, A and AAAA of none")
for n in (15, 16, 17):
    read(header(an=1) + record(HOST, AAAA, bytes(n)))
read(header(an=1) + record(HOST, AAAA, b""))
read(header(an=1) + record(HOST, A, b""))

show("PTR: one name that ends at the rdata's end; the pointer in it is expanded")
read(header(an=1) + record(HOST, PTR, name(b"Booth", b"local")))
read(header(an=1) + record(HOST, PTR, labels(b"Booth") + pointer(17)))
read(header(an=1) + record(HOST, PTR, pointer(12)))
read(header(an=1) + record(HOST, PTR, b"\0"))

show("PTR: a byte too many, a byte too few, none, two names, a pointer to itself")
read(header(an=1) + record(HOST, PTR, pointer(12) + b"\0"))
read(header(an=1) + record(HOST, PTR, name(b"a"), length=2) + b"\0\0")
read(header(an=1) + record(HOST, PTR, b""))
read(header(an=1) + record(HOST, PTR, name(b"a") + name(b"b")))
read(header(an=1) + record(HOST, PTR, pointer(34)))

show("SRV: six bytes and one name that ends at the rdata's end, the pointer expanded and the case kept")
six = bytes([0, 1, 0, 2, 0x0F, 0xA0])
read(header(an=1) + record(HOST, SRV, six + name(b"Dock", b"Local")))
read(header(an=1) + record(HOST, SRV, six + labels(b"other") + pointer(17)))
read(header(an=1) + record(HOST, SRV, six + b"\0"))

show("SRV: 0, 5, 6 bytes, a byte too many, a name that runs past the rdata")
read(header(an=1) + record(HOST, SRV, b""))
read(header(an=1) + record(HOST, SRV, six[:5]))
read(header(an=1) + record(HOST, SRV, six))
read(header(an=1) + record(HOST, SRV, six + b"\0\0"))
read(header(an=1) + record(HOST, SRV, six + name(b"a"), length=8) + b"\0\0")

show("TXT: strings that fill the rdata, none, an empty string, 255 bytes")
for d in (b"", b"\0", b"\x03a=b\0\x01c", b"\xff" + b"x" * 255):
    read(header(an=1) + record(HOST, TXT, d))

show("TXT: a string that overruns by one, a length byte at the end")
for d in (b"\x01", b"\x03ab", b"\x01a\x01", b"\xff" + b"x" * 254):
    read(header(an=1) + record(HOST, TXT, d))

show("other types are stepped over, whatever their rdata; names in it stay as they are")
for rtype in (0, 2, 5, 15, 41, 47, 255, 65535):
    read(header(an=1) + record(HOST, rtype, pointer(12) + b"\x40"))
    read(header(an=1) + record(HOST, rtype, b""))

show("rdata that runs past the message by one byte, and by 65,535")
read(header(an=1) + record(HOST, 47, b"abc", length=4))
read(header(an=1) + record(HOST, 47, b"abc", length=65535))

show("a TTL with its top bit set counts as 0")
for ttl in (0, 1, 4500, 0x7FFFFFFF, 0x80000000, 0x80000078, 0xFFFFFFFF):
    read(header(an=1) + record(HOST, A, bytes(4), ttl=ttl))

# --- NSEC -------------------------------------------------------------------------------------------------------------

ADDRESS = window(0x40)
BOTH = window(0x40, 0, 0, 8)
SERVICES = window(0, 0, 0x80, 0, 0x40)


def nsec(rdata, owner=HOST, after=b"", **fields):
    read(header(an=1) + record(owner, NSEC, rdata, **fields) + after)


show("NSEC of the restricted form, with each of our bitmaps: the next name whole, by a pointer, by a label and one; expanded, its labels behind")
for bits in (ADDRESS, BOTH, SERVICES):
    for next in (HOST, pointer(12), labels(b"dock") + pointer(17)):
        nsec(next + bits)
booth = name(b"booth", b"_voice", b"_tcp", b"local")
for next in (booth, pointer(12), labels(b"booth") + pointer(18), labels(b"booth", b"_voice") + pointer(25)):
    nsec(next + SERVICES, owner=booth)

show("in every section, of any class and TTL, of a query and of a response")
for section in ((0, 1, 0, 0), (0, 0, 1, 0), (0, 0, 0, 1)):
    for cls in (1, 0x8001, 3, 255, 0, 65535):
        for flags in (0, 0x8400):
            read(header(*section, flags=flags) + record(HOST, NSEC, pointer(12) + ADDRESS, cls=cls, ttl=0x80000000 if cls == 0 else 120))

show("a next name in other case is equal, and shown as it is; through a pointer that is the owner's, or another's")
for next in (name(b"DOCK", b"local"), name(b"dock", b"LOCAL"), labels(b"Dock") + pointer(17), name(b"DOCK", b"LOCAL")):
    nsec(next + ADDRESS)
nsec(pointer(12) + ADDRESS, owner=name(b"DoCK", b"locAL"))
read(header(qd=1, an=1) + question(name(b"DOCK", b"LOCAL")) + record(HOST, NSEC, pointer(12) + ADDRESS))

show("next names of other labels: the root, a suffix, one label more, another label, a prefix; letters past ASCII and [ { do not fold")
for next in (b"\0", pointer(17), name(b"local"), labels(b"x") + pointer(12), labels(b"deck") + pointer(17), name(b"dock"), name(b"doc", b"local"),
             name(b"dockk", b"local"), name(b"dock", b"local", b"x")):
    nsec(next + ADDRESS)
nsec(name(b"[") + ADDRESS, owner=name(b"{"))
nsec(name(b"@") + ADDRESS, owner=name(b"`"))
nsec(name("\u00e9".encode()) + ADDRESS, owner=name("\u00c9".encode()))

show("owners of no label, of one, of 63 bytes of one, of 127 labels, of 255 bytes: whole and by a pointer")
for owner in (b"\0", name(b"a"), name(b"a" * 63), MANY, filled(255)):
    nsec(owner + SERVICES, owner=owner)
    nsec(pointer(12) + SERVICES, owner=owner)
show("the next name is longer than 255 bytes: unknown")
nsec(labels(b"a") + pointer(12) + ADDRESS, owner=filled(254))
nsec(labels(b"a") + pointer(12) + ADDRESS, owner=filled(255))
nsec(filled(256) + ADDRESS)

show("window 0 alone: 1, 2, 128 and 255 are unknown; two windows are")
for number in (0, 1, 2, 128, 255):
    nsec(pointer(12) + window(0x40, number=number))
for more in (window(0x40, number=1), window(0x40), window(1)):
    nsec(pointer(12) + ADDRESS + more)
nsec(pointer(12) + window(0x40, number=1) + ADDRESS)

show("bitmaps of 0 to 34 bytes: 1 to 32 are of the form")
for n in range(35):
    nsec(pointer(12) + window(*[0x40] * n))

show("a byte more or less than the length says, for lengths of 1, 4, 5, 31, 32, 33 and 255; a length byte of 0 with bytes behind it")
for n in (1, 4, 5, 31, 32, 33, 255):
    for there in (n - 1, n + 1):
        nsec(pointer(12) + window(*[0x40] * there, length=n))
nsec(pointer(12) + window(0x40, length=0))
nsec(pointer(12) + window(0x40, length=2), after=b"\0\0")
nsec(pointer(12) + ADDRESS, length=4, after=b"\0")
nsec(pointer(12) + ADDRESS, length=6, after=b"\0")

show("rdata of none, of a name alone, of a name and a window's number, of a name, number and length")
nsec(b"")
for cut in (0, 1, 2):
    nsec(pointer(12) + ADDRESS[:cut])
    nsec(HOST + ADDRESS[:cut])

show("the bit of NSEC itself, the lowest of the sixth byte: in bitmaps of 6, 7 and 32 bytes, alone and with others; every other bit of six bytes is free")
for n in (6, 7, 32):
    for byte in (1, 0xFF, 0x81):
        bits = [0x40] * n
        bits[5] = byte
        nsec(pointer(12) + window(*bits))
for bit in range(48):
    bits = [0] * 6
    bits[bit // 8] = 0x80 >> bit % 8
    nsec(pointer(12) + window(*bits))
nsec(pointer(12) + window(*[0xFF] * 5, 0xFE, *[0xFF] * 26))
nsec(pointer(12) + window(*[0xFF] * 5))

show("trailing zero bytes, and zeros alone, are of the form")
for bits in ((0x40, 0), (0x40, 0, 0, 8, 0, 0), (0x40, *[0] * 31), (0,), (0, 0), (0,) * 6, (0,) * 32):
    nsec(pointer(12) + window(*bits))

show("a bad name before the bitmap is no reason to refuse: pointers to 0, 11, itself, into its own run, forwards, past the end; bytes 0x40 to 0xbf")
at = 12 + len(HOST) + 10
for next in (pointer(0), pointer(11), pointer(at), pointer(at + 1), pointer(at + 2), pointer(at + 5), pointer(0x3FFF), labels(b"dock") + pointer(at),
             labels(b"dock") + pointer(at + 2), b"\x40", b"\x80", b"\xbf", b"\x3f", labels(b"dock") + b"\x40"):
    nsec(next + ADDRESS)
    nsec(next + ADDRESS, after=bytes(80))

show("a name that the end of the rdata cuts, with bytes behind it that would make it whole, and with none")
for rdata in (b"\xc0", labels(b"dock") + b"\xc0", HOST[:-1], HOST[:5], HOST[:3], b"\4"):
    nsec(rdata)
    nsec(rdata, after=b"\x0c\0\1\x40" + bytes(9))

show("unknown ones among others: the records before and behind are read; a record that is malformed is still refused as 6")
good, odd = record(HOST, NSEC, pointer(12) + ADDRESS), record(HOST, NSEC, pointer(4) + ADDRESS)
read(header(0, 2, 1, 1) + good + odd + odd + record(HOST, A, bytes(4)))
read(header(0, 2, 0, 0) + odd + record(HOST, A, bytes(3)))
read(header(0, 1, 0, 0) + record(HOST, NSEC, pointer(12) + ADDRESS, length=6))
read(header(0, 1, 0, 0) + record(HOST, NSEC, pointer(12) + ADDRESS, length=65535))
for cut in range(1, 17):
    read(header(0, 1, 0, 0) + good[:-cut])

show("pointers into the next name of an NSEC, of the form or not, and into its bitmap, where a name reads")
deep = record(b"\0", NSEC, name(b"deep", b"er") + window(1, 0x78, 0))
for target in (12 + 11, 12 + 16, 12 + 21, 12 + 22):
    read(header(0, 1, 0, 1) + deep + record(pointer(target), A, bytes(4)))
read(header(0, 1, 0, 1) + record(HOST, NSEC, HOST + ADDRESS) + record(pointer(at), NSEC, pointer(12) + ADDRESS))

show("other types with rdata of the same form stay as they are")
for rtype in (46, 48, 50, 255, 303, 65535):
    read(header(an=1) + record(HOST, rtype, pointer(12) + ADDRESS))

# --- refusals 4 and 5, and their order --------------------------------------------------------------------------------

show("0, 1, 11 and 12 bytes: refused with 4 below 12")
for n in (0, 1, 11, 12):
    read(bytes(n))

show("8,972 and 8,973 bytes: refused with 4 above 8,972")
for n in (8972, 8973):
    strings = b""
    left = n - 12 - 11
    while left:
        k = min(left, 256)
        strings += bytes([k - 1]) + b"t" * (k - 1)
        left -= k
    p = header(an=1) + record(b"\0", TXT, strings)
    assert len(p) == n
    read(p)
read(ANNOUNCED + bytes(8972 - 38))
read(ANNOUNCED + bytes(8973 - 38))

show("opcode and RCODE: each of their eight bits is refused with 5")
for bit in (0, 1, 2, 3, 11, 12, 13, 14):
    read(header(flags=1 << bit))

show("the flags' other bits are no one's business here: QR, AA, TC, RD, RA, Z")
for bit in (4, 5, 6, 7, 8, 9, 10, 15):
    read(header(flags=1 << bit))

show("4 before 5, 5 before 6")
read(header(flags=0x0800)[:11])
read(header(flags=0x0800) + bytes(8961))
read(header(qd=1, flags=0x0001) + question(pointer(12)))
