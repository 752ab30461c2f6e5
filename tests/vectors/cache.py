#!/usr/bin/env python3
# Writes the console script of the cache's vectors: `put`, `look`, `slot`, `clear` and `table`, each case under a comment that says what it shows
# (specification, 'The cache', refusals 1, 4, 5, 6 and 8, 'Corner readings'; RFC 6762, 10). Run by make.sh; the expected answers come from the reference
# program.
import sys

sys.dont_write_bytecode = True
from packets import *

FLUSH = 0x8001
LATEST = 1 << 62
DESK = name(b"desk", b"local")
BOOTH = name(b"booth", b"_voice", b"_tcp", b"local")
SERVICE = name(b"_voice", b"_tcp", b"local")


def show(what):
    print("\n# " + what)


def text(b):
    return b.hex() or "-"


def put(now, packet, port=5353):
    print("put", now, port, text(packet))


def look(now, owner, rtype=A, start=0):
    print("look", now, text(owner), rtype, start)


def slot(*which):
    for k in which:
        print("slot", k)


def clear():
    print("clear")


def table(*sizes):
    print("table", *sizes)


def four(n):
    return bytes([10, 0, n >> 8, n & 255])


def response(*answers, authority=(), additional=(), flags=0x8400):
    records = [*answers, *authority, *additional]
    return header(an=len(answers), ns=len(authority), ar=len(additional), flags=flags) + b"".join(records)


def address(n=7, owner=DESK, cls=1, ttl=120):
    return record(owner, A, four(n), cls=cls, ttl=ttl)


def strings(n):
    """TXT rdata of n bytes."""
    part = b"\xff" + b"t" * 255
    rest = n % 256
    return part * (n // 256) + (bytes([rest - 1]) + b"u" * (rest - 1) if rest else b"")


def full(now, ttl=120):
    """A table of 64 live entries, entry i with the address of number i."""
    clear()
    put(now, response(*(address(i, ttl=ttl) for i in range(64))))


# --- form ---------------------------------------------------------------------------------------------------------------

show("before the first put the table has 64 entries, and it and the store are zeros; slots are 0 to 63")
slot(0, 63, 64, 65, 18446744073709551615)
look(0, DESK)
for line in ("slot", "slot x", "slot 0 0", "clear 0", "clear ", "look", "look 0 00 1", "look 0 00 1 0 0", "look x 00 1 0", "look 0 0 1 0", "look 0 00 x 0", "look 0 00 1 x", "put", "put 0 5353", "put 0 5353 00 0", "put x 5353 -", "put 0 x -", "put 0 5353 0"):
    print(line)

# --- one record ---------------------------------------------------------------------------------------------------------

show("the specification's announcement: entry 0 takes it, live until 120 s after now, and not at that very ms")
clear()
put(1000, ANNOUNCED)
slot(0, 1)
look(1000, HOST)
look(120999, HOST)
look(121000, HOST)

show("PTR, SRV, TXT, A and AAAA, with names cut by pointers: stored expanded, unused bytes 0")
clear()
put(0, header(an=5) + record(SERVICE, PTR, labels(b"booth") + pointer(12), ttl=4500) + record(pointer(41), SRV, bytes([0, 0, 0, 0, 0x0F, 0xA0]) + labels(b"dock") + pointer(24), cls=FLUSH) + record(pointer(41), TXT, b"\4a=bc", cls=FLUSH, ttl=4500) + record(HOST, A, four(7)) + record(HOST, AAAA, bytes(15) + b"\1"))
slot(0, 1, 2, 3, 4, 5)
look(1, SERVICE, PTR)
look(1, BOOTH, SRV)
look(1, BOOTH, TXT)
look(1, HOST, AAAA)

show("names in rdata are expanded before they are compared: the same PTR, once cut and once whole, is one entry; case counts there")
clear()
put(0, response(record(SERVICE, PTR, labels(b"booth") + pointer(12))))
put(10, response(record(SERVICE, PTR, BOOTH)))
put(20, response(record(SERVICE, PTR, name(b"Booth", b"_voice", b"_tcp", b"local"))))
slot(0, 1)

show("owners that differ in case are one: refreshed, and the spelling stays as it was first stored; a lookup in either case")
clear()
put(0, response(address()))
put(500, response(address(owner=name(b"DESK", b"Local"), ttl=10)))
slot(0, 1)
look(600, name(b"dEsK", b"LOCAL"))

show("only ASCII letters fold: '[' and '{', 0xC9 and 0xE9 are others")
clear()
put(0, response(address(owner=name(b"a[\xc9"))))
for owner in (b"A[\xc9", b"a{\xc9", b"a[\xe9"):
    look(0, name(owner))

# --- rule 1 -------------------------------------------------------------------------------------------------------------

show("a flush at 5000 leaves an entry received at 4000, and sets one received at 3999 to expire by 6000 (two starred readings)")
for received in (4000, 3999):
    clear()
    put(received, response(address(1)))
    put(5000, response(address(2, cls=FLUSH)))
    slot(0, 1)
    look(5999, DESK)
    look(6000, DESK)

show("a burst that announces two records of one name and type: neither cuts the other short, in one message or in two within a second")
clear()
put(5000, response(address(1, cls=FLUSH), address(2, cls=FLUSH)))
slot(0, 1)
put(6000, response(address(3, cls=FLUSH)))
slot(0, 1, 2)
put(6001, response(address(3, cls=FLUSH)))
slot(0, 1, 2)

show("the address of a device that is gone, beside its new one: live for a second more, then not")
clear()
put(0, response(address(1, cls=FLUSH)))
put(60000, response(address(2, cls=FLUSH)))
for now in (60000, 60999, 61000):
    look(now, DESK)

show("a flush leaves other types, other names and what expires sooner; without the bit nothing is flushed")
clear()
put(0, response(address(1), record(DESK, TXT, b"\1a"), address(1, owner=HOST), address(2, ttl=2), address(3, ttl=3)))
put(1500, response(address(9)))
slot(0)
put(1500, response(address(9, cls=FLUSH)))
slot(0, 1, 2, 3, 4, 5)

show("a flush by a record that is in the table: it is refreshed, and the other entries of its name and type are cut short")
clear()
put(0, response(address(1), address(2)))
put(5000, response(address(2, cls=FLUSH)))
slot(0, 1)

show("a flush in Additional counts; one in Authority, of class 3, or of another type does not")
for message in (response(additional=[address(9, cls=FLUSH)]), response(authority=[address(9, cls=FLUSH)]), response(address(9, cls=0x8003)), response(record(DESK, 99, b"x", cls=FLUSH))):
    clear()
    put(0, response(address(1)))
    put(5000, message)
    slot(0, 1)

# --- rule 2 -------------------------------------------------------------------------------------------------------------

show("TTL 0 with the equal entry: it expires by now plus 1,000, and a second goodbye does not lengthen that")
clear()
put(0, response(address()))
put(2000, response(address(ttl=0)))
slot(0)
put(2500, response(address(ttl=0)))
slot(0)
look(2999, DESK)
look(3000, DESK)

show("TTL 0 where the entry expires sooner: its expiry stays")
clear()
put(0, response(address(ttl=2)))
put(1500, response(address(ttl=0)))
slot(0)

show("TTL 0 without the equal entry, with other rdata, or when it has expired: nothing")
clear()
put(0, response(address(ttl=0)))
slot(0)
put(0, response(address(1, ttl=1)))
put(10, response(address(2, ttl=0)))
put(1000, response(address(1, ttl=0)))
slot(0, 1)

show("a TTL with its top bit set counts as 0: a goodbye")
clear()
put(0, response(address(ttl=0x80000078)))
slot(0)
put(0, response(address()))
put(10, response(address(ttl=0xFFFFFFFF)))
slot(0)

show("the greatest TTL, and the latest time")
clear()
put(LATEST, response(address(ttl=0x7FFFFFFF)))
slot(0)
look(LATEST, DESK)

show("a goodbye with the flush bit: the other old entries of that name and type are cut short too")
clear()
put(0, response(address(1), address(2)))
put(5000, response(address(2, cls=FLUSH, ttl=0)))
slot(0, 1)

show("a record and its goodbye in one message, in both orders")
for ttls in ((120, 0), (0, 120)):
    clear()
    put(0, response(*(address(ttl=ttl) for ttl in ttls)))
    slot(0)

# --- rule 3 -------------------------------------------------------------------------------------------------------------

show("refreshed: received now and expiry by the new TTL, also where that is sooner")
clear()
put(0, response(address()))
put(5000, response(address(ttl=1)))
slot(0)

show("the lowest entry that is not live takes a record: below or above an expired equal one, which is not refreshed")
clear()
put(0, response(address(1, ttl=9), address(2, ttl=1), address(3, ttl=1)))
put(2000, response(address(3)))
slot(0, 1, 2)
put(9000, response(address(2)))
slot(0, 1)

show("a slot that is taken again is written whole: nothing of the longer record before is left")
clear()
put(0, response(record(filled(255), TXT, strings(768), ttl=1)))
put(1000, response(address()))
slot(0)

show("a full table: records that are new are turned away and counted, an equal one is refreshed, a goodbye and a flush still work")
full(0)
put(10, response(address(64), address(65, owner=HOST), address(63)))
slot(0, 63)
put(20, response(address(5, ttl=0), address(64)))
slot(5)
put(1020, response(address(64), address(65)))
slot(5)
put(2000, response(address(66, cls=FLUSH)))
slot(0, 5, 63)
put(3000, response(address(67)))
slot(0)

show("a table that fills within a message, whose last two records are turned away")
clear()
put(0, response(*(address(i) for i in range(66))))
slot(63)

show("counts are per call")
full(0)
put(0, response(address(64)))
put(0, response(address(64), address(65)))
put(0, response())

# --- long rdata ---------------------------------------------------------------------------------------------------------

show("TXT of 768 bytes is taken, of 769 passed over and counted; also in a full table, and with TTL 0")
clear()
put(0, response(record(DESK, TXT, strings(768)), record(DESK, TXT, strings(769))))
slot(0, 1)
look(0, DESK, TXT)
full(0)
put(0, response(record(DESK, TXT, strings(769)), record(DESK, TXT, strings(769), ttl=0), record(DESK, TXT, strings(768))))

show("TXT of 769 bytes with the flush bit: passed over after rule 1")
clear()
put(0, response(record(DESK, TXT, b"\1a")))
put(5000, response(record(DESK, TXT, strings(769), cls=FLUSH)))
slot(0)

show("TXT of no bytes and TXT of one empty string are two entries")
clear()
put(0, response(record(DESK, TXT, b""), record(DESK, TXT, b"\0")))
slot(0, 1)

show("an owner of 255 bytes and an SRV whose target has 255")
clear()
put(0, response(record(filled(255), SRV, bytes(6) + filled(255))))
slot(0)
look(0, filled(255), SRV)

# --- which records ------------------------------------------------------------------------------------------------------

show("records of other classes and types between those that are taken; class is its low 15 bits")
clear()
put(0, response(address(1, cls=3), address(2), record(DESK, 47, b"nsec"), record(DESK, 255, b""), address(3, cls=255), record(DESK, TXT, b"\1a", cls=0x8003), address(4), address(5, cls=0x7FFF), address(6, cls=FLUSH)))
slot(0, 1, 2, 3)

show("Answer and Additional records are taken, in this order; Authority ones, and those of a query, are not")
clear()
put(0, response(address(1), authority=[address(2)], additional=[address(3)]))
slot(0, 1, 2)
clear()
put(0, response(address(1), authority=[address(2)], additional=[address(3)], flags=0))
slot(0)

# --- NSEC ---------------------------------------------------------------------------------------------------------------

ADDRESS = window(0x40)
BOTH = window(0x40, 0, 0, 8)
SHOUTED = name(b"DESK", b"local")


def negative(next=DESK, bits=ADDRESS, owner=DESK, cls=1, ttl=120):
    return record(owner, NSEC, next + bits, cls, ttl)


show("NSEC of the restricted form is taken as a sixth type: its next name expanded, found by type 47 alone")
clear()
put(0, response(negative(pointer(12))))
put(0, response(record(BOOTH, NSEC, labels(b"booth") + pointer(18) + window(0, 0, 0x80, 0, 0x40), FLUSH, 120)))
slot(0, 1, 2)
look(0, DESK, NSEC)
look(0, SHOUTED, NSEC)
look(0, BOOTH, NSEC)
look(0, DESK, NSEC, 1)
for rtype in (A, AAAA, 46, 48, 255, 65536 + NSEC):
    look(0, DESK, rtype)
show("the same by other pointers, and whole, in any spelling of the owner: one entry, refreshed")
for now, packet in ((10, response(negative())), (20, response(negative(labels(b"desk") + pointer(17)))), (30, response(negative(owner=SHOUTED))),
                    (40, header(qd=1, an=1) + question(DESK) + negative(pointer(12), owner=SHOUTED))):
    put(now, packet)
    slot(0, 2)
show("case counts in the next name, and every byte of the bitmap, trailing zeros too: entries of their own")
clear()
forms = [negative(), negative(SHOUTED), negative(bits=BOTH), negative(bits=window(0x40, 0)), negative(bits=window(0)),
         negative(bits=window(*[0x40] * 5, *[0] * 27)), negative(pointer(12), owner=SHOUTED)]
for packet in map(response, forms):
    put(0, packet)
slot(*range(7))
for start in range(7):
    look(0, DESK, NSEC, start)
show("none of these is taken nor counted: another next name, windows 1 and 255, lengths 0 and 33, a byte more or less, the NSEC bit, bad pointers, no rdata")
clear()
misses = [pointer(17) + ADDRESS, HOST + ADDRESS, b"\0" + ADDRESS, DESK + window(0x40, number=1), DESK + window(0x40, number=255), DESK + window(),
          DESK + window(*[0x40] * 33), DESK + window(0x40, 0, length=1), DESK + window(0x40, length=2), DESK + window(0, 0, 0, 0, 0, 1),
          DESK + ADDRESS + window(0x40, number=1), pointer(0) + ADDRESS, pointer(11) + ADDRESS, pointer(12 + len(DESK) + 10) + ADDRESS, pointer(4000) + ADDRESS,
          b"\x40" + ADDRESS, DESK, b"", b"nsec"]
for rdata in misses:
    put(0, response(record(DESK, NSEC, rdata, FLUSH)))
put(0, response(*(record(DESK, NSEC, rdata) for rdata in misses), address(1)))
slot(0, 1)
look(0, DESK, NSEC)
show("nor do they flush or end an entry of that name; one of the form does")
clear()
put(0, response(negative()))
put(5000, response(*(record(DESK, NSEC, rdata, FLUSH, 0) for rdata in misses)))
slot(0)
put(5000, response(negative(bits=BOTH, cls=FLUSH)))
slot(0, 1)
show("classes other than 1, Authority, a query: not taken")
clear()
put(0, response(negative(cls=3), negative(cls=255), negative(cls=0x8003)))
put(0, response(authority=[negative()]))
put(0, response(negative(), flags=0))
slot(0)
put(0, response(additional=[negative()]))
slot(0)
show("goodbyes, a TTL with its top bit, expiry, and a full table")
clear()
put(0, response(negative(), negative(bits=BOTH)))
put(10, response(negative(ttl=0)))
put(10, response(negative(SHOUTED, BOTH, ttl=0)))
slot(0, 1)
put(20, response(negative(bits=BOTH, ttl=0x80000078)))
slot(1)
look(1009, DESK, NSEC)
look(1010, DESK, NSEC)
look(1020, DESK, NSEC)
table(1)
put(0, response(negative(), negative(bits=BOTH), negative(SHOUTED), record(DESK, NSEC, b"nsec")))
put(0, response(address(1), negative(ttl=1)))
slot(0)
show("addresses and NSEC of one name flush each other not")
table(64)
put(0, response(address(1), negative()))
put(5000, response(negative(cls=FLUSH), address(2)))
slot(0, 1, 2)
put(9000, response(address(1, cls=FLUSH)))
slot(0, 1, 2)
show("the flush spares what came within 1,000 ms")
for received in (4000, 3999):
    clear()
    put(received, response(negative()))
    put(5000, response(negative(bits=BOTH, cls=FLUSH)))
    slot(0)
show("the longest: an owner of 255 bytes, a bitmap of 32; and the root's")
clear()
put(0, response(record(filled(255), NSEC, filled(255) + window(*[0x40] * 32)), record(b"\0", NSEC, b"\0" + ADDRESS)))
put(0, response(record(filled(255), NSEC, pointer(12) + window(*[0x40] * 32))))
slot(0, 1, 2)
look(0, filled(255), NSEC)
look(0, b"\0", NSEC)

# --- refusals -----------------------------------------------------------------------------------------------------------

show("a message malformed in its last record: refused as 6, and nothing has changed")
clear()
put(0, response(address(1)))
for bad in (record(DESK, A, b"\1\2\3"), address(3)[:-1], record(DESK, PTR, b"\xc0\x0c\0"), record(pointer(4000), A, four(3)), record(DESK, TXT, b"\2a")):
    put(5000, response(address(1, cls=FLUSH, ttl=0), address(2, cls=FLUSH), additional=[bad]))
slot(0, 1)

show("times: before an entry's receive time, a dead one's too, and above 2^62")
clear()
put(5000, response(address(ttl=1)))
for now in (4999, 5000, LATEST, LATEST + 1, 18446744073709551615):
    put(now, response())
    look(now, DESK)
put(LATEST, response(address(1, ttl=1)))
put(LATEST - 1, response())

show("ports other than 5353, some of them equal to it in 16 bits; opcode and RCODE; lengths of 0, 11, 12, 8,972 and 8,973 bytes")
clear()
for port in (0, 5352, 5354, 5353 + 65536, 18446744073709551615):
    put(0, response(address()), port)
put(0, response(address(), flags=0x8C00))
put(0, response(address(), flags=0x8403))
for length in (0, 11, 12, 8972, 8973):
    put(0, (response(address()) + bytes(9000))[:length])
    slot(0)

show("a query from any port is accepted and nothing is taken; from another port too it is 5 for its opcode or RCODE and 6 if it is malformed")
clear()
for port in (0, 1024, 5352, 5353, 5354, 5353 + 65536, 18446744073709551615):
    put(0, response(address(), additional=[address(8)], flags=0), port)
    put(0, response(address(), flags=0x0200), port)
    put(0, response(address(), flags=0x0800), port)
    put(0, response(address(), flags=0x0003), port)
    put(0, response(b"\xc0\x0c", flags=0), port)
    put(0, bytes(11), port)
slot(0)
table(1, 1023)
put(0, response(b"\xc0\x0c", flags=0), 1024)
table(64)

show("the order of refusals: 1 before 4 before 5 before 6")
put(0, b"\0", 1)
put(LATEST + 1, b"\0", 1)
put(0, response(b"\xc0\x0c"), 1)
put(0, response(b"\xc0\x0c", flags=0x8C00))
look(LATEST + 1, b"")

# --- lookups ------------------------------------------------------------------------------------------------------------

show("lookups from slots 0, 63, 64 and 2^64 - 1, and others, in a full table")
full(0)
for start in (0, 1, 62, 63, 64, 65, 4294967296, 18446744073709551615):
    look(0, DESK, A, start)
show("the lowest live match from a slot on: dead entries and those of other names and types are stepped over")
clear()
put(0, response(address(0, owner=HOST), address(1, ttl=1), record(DESK, TXT, b"\1a"), address(3), address(4)))
for now in (999, 1000):
    for start in range(6):
        look(now, DESK, A, start)

show("types that no entry has; 65,537 and 65,552 are not 1 and 16")
for rtype in (0, 99, 255, 65535, 65536, 65537, 65552, 18446744073709551615):
    look(1000, DESK, rtype)

show("a lookup of a name that is a beginning or an end of one in the table, or longer by a label")
for owner in (name(b"desk"), name(b"local"), name(b"des", b"local"), name(b"desk", b"local", b"x"), name(b"x", b"desk", b"local")):
    look(1000, owner)

show("a name with a pointer, with bytes past its zero byte, without its zero byte, empty; the root, which is a name")
for owner in (pointer(12), labels(b"desk") + pointer(0), DESK + b"\0", DESK + DESK, DESK[:-1], b"", b"\0"):
    look(1000, owner)
show("names of 254, 255 and 256 bytes, a label of 63 and one of 64, and each byte 0x40, 0x80, 0xbf and 0xc0 where a label starts")
for owner in (filled(254), filled(255), filled(256), name(b"a" * 63), bytes([64]) + b"a" * 64 + b"\0", b"\x40\0", b"\x80\0", b"\xbf\0", b"\xc0\0", labels(b"a") + b"\x40\0"):
    look(1000, owner)
look(1000, b"\1" * 19000)

show("labels of what is found, and the length of the first: the root, one label, 63 bytes of one, 127 labels, and names that came by pointers")
clear()
MANY = labels(*[b"a"] * 127) + b"\0"
owners = [b"\0", name(b"desk"), name(b"d" * 63, b"local"), MANY, filled(255)]
put(0, response(*(address(owner=owner) for owner in owners)))
for owner in owners:
    look(0, owner)
    look(0, owner.upper())
clear()
first = 12 + len(BOOTH) + 4
cut = (pointer(12), pointer(18), labels(b"x") + pointer(30), labels(b"yz") + pointer(first))
put(0, header(qd=1, an=4) + question(BOOTH) + b"".join(address(i, owner=owner) for i, owner in enumerate(cut)))
for owner in (BOOTH, SERVICE, name(b"X", b"Local"), labels(b"yz") + BOOTH):
    look(0, owner)
show("the rdata of what is found is as stored, with no labels behind it: PTR and SRV")
clear()
put(0, response(record(SERVICE, PTR, BOOTH), record(BOOTH, SRV, bytes(6) + HOST)))
look(0, SERVICE, PTR)
look(0, BOOTH, SRV)

show("a line feed, DEL and bytes that are no UTF-8 in names are stored and looked up like any others")
clear()
owners = [name(label, b"local") for label in (b"two\nlines", b"\x7f", b"\xc0\x80", b"caf\xc3")]
put(0, response(*(record(owner, PTR, owner) for owner in owners)))
for owner in owners:
    look(0, owner, PTR)

show("an entry of the root: found by the root alone")
clear()
put(0, response(address(owner=b"\0")))
look(0, b"\0")
look(0, DESK)

show("the calls on the responder, the reader and the TXT pairs leave the cache as it is")
print("start 0 0 626f6f7468 5f766f696365 5f746370 646f636b 6c6f63616c 4000 00 0a000007 -")
print("recv 0 5353 20", text(response(address(9))))
print("read", text(response(address(9))))
print("txt 6b 00 00")
slot(0, 1)

show("clear: zeros again, and a time before the last is accepted")
full(LATEST)
clear()
slot(0, 63)
put(0, response(address()))
slot(0)

# --- sizes --------------------------------------------------------------------------------------------------------------

SIZES = (1, 2, 63, 64, 65, 511, 512)
END = 18446744073709551615


def many(n, first=0, cls=1, ttl=120):
    """So many addresses of one owner in one message, with the numbers from `first` on."""
    owners = [DESK] + [pointer(12)] * (n - 1)
    return response(*(address(first + i, owner=owner, cls=cls, ttl=ttl) for i, owner in enumerate(owners[:n])))


show("tables of 0, 1, 2, 63, 64, 65, 511, 512 and 513 entries: each is filled and turns one away, none and 513 are refused as 8")
for n in (0, *SIZES, 513):
    table(n)
    put(0, many(n))
    put(0, response(address(1000)))
    slot(max(n, 1) - 1, n)
    for start in (max(n, 1) - 1, n, n + 1, END):
        look(0, DESK, A, start)

show("stores that are a byte too short or too long, a slot too short or too long, empty, or of 64 slots: refused as 8")
for n in (0, *SIZES, 513):
    for store in sorted({max(1024 * n - 1, 0), 1024 * n + 1, 1024 * max(n - 1, 0), 1024 * (n + 1), 0, 65536} - {1024 * n}):
        if store <= 525312:
            table(n, store)
            put(0, ANNOUNCED)
            look(0, HOST)

show("the sizes written out are those that are meant where STORE is missing")
for n in SIZES:
    table(n, 1024 * n)
    put(0, ANNOUNCED)
    look(0, HOST)

show("the order of refusals: 1 before 8 before 4, 5 and 6; of 1 only the time above 2^62 is left where the table is empty")
for sizes in ((0,), (513,), (1, 1023), (64, 65537)):
    table(*sizes)
    for now in (0, LATEST, LATEST + 1):
        put(now, b"\0", 1)
        put(now, response(b"\xc0\x0c"), 1)
        put(now, response(b"\xc0\x0c", flags=0x8C00))
        put(now, response(b"\xc0\x0c"))
        look(now, b"")
        look(now, DESK)

show("a full table of 512 entries, all live: new ones are turned away and counted, the last entry is refreshed, a goodbye reaches it")
table(512)
put(0, many(512))
slot(0, 64, 511)
put(10, many(3, first=511))
slot(511)
put(20, response(address(511, ttl=0), address(512)))
slot(511)
for start in (0, 64, 65, 510, 511, 512, 513, 575, END):
    look(20, DESK, A, start)
put(1020, response(address(512), address(513)))
slot(511)
show("a flush of all 512, but for the one that was received within a second; then the lowest that is not live takes a record")
put(1500, response(address(600, cls=FLUSH)))
slot(0, 510, 511)
put(2500, response(address(600)))
slot(0, 1)
look(2500, DESK, A, 1)
look(2500, DESK, A, 512)

show("513 records in one message, in tables of 512 and of 511 entries")
for n in (512, 511):
    table(n)
    put(0, many(513))
    slot(n - 1)

show("the lowest entry that is not live in a table of 512: below and above 64 and 256, then none")
table(512)
put(0, many(512))
for k in (3, 64, 300, 511):
    put(5, response(address(k, ttl=0)))
put(1005, many(5, first=600))
slot(3, 64, 300, 511)

show("an equal entry that is the last of the table is refreshed, not taken again; the flush reaches it, and with it the first")
for n in (2, 65, 512):
    table(n)
    put(0, many(n))
    put(500, response(address(n - 1, ttl=9)))
    slot(n - 1)
    put(1501, response(address(1000, cls=FLUSH)))
    slot(0, n - 1)

show("times: before the receive time of the last entry alone")
for n in SIZES:
    table(n)
    if n > 1:
        put(0, many(n - 1))
    put(10, response(address(n - 1)))
    for now in (9, 10):
        put(now, response())
        look(now, DESK)
    put(9, b"\0")
    look(9, b"")

show("lookups of the last slot and past it, for a name and a type that only the last entry has")
for n in SIZES:
    table(n)
    if n > 1:
        put(0, many(n - 1))
    put(0, response(record(HOST, TXT, b"\1a")))
    for start in (0, n - 1, n, n + 1, 64, 512, 4294967296, END):
        look(0, HOST, TXT, start)

show("clear keeps the sizes: two entries, of which a third is turned away; sizes that are refused stay refused")
table(2)
put(7, many(2))
clear()
slot(0, 1, 2)
put(0, many(3))
for sizes in ((2, 100), (0,), (513,)):
    table(*sizes)
    clear()
    put(0, response())
    look(0, DESK)
    slot(0)

show("table makes zeros, of the same sizes too: a time before the last is accepted; an entry of a larger table is not there again")
table(3)
put(LATEST, many(3))
table(3)
slot(0, 2)
put(5, many(3))
table(1)
slot(0)
table(3)
slot(0, 1, 2)
put(0, response())

show("slots at and past the table's length, and where the store ends before the slot does")
for sizes in ((3, 3071), (3, 3072), (3, 3073), (3, 2048), (3, 2047), (3, 1024), (3, 1023), (3, 0), (3, 525312), (1, 525312), (0, 525312), (513, 525311)):
    table(*sizes)
    slot(0, 1, 2, 3, 511, 512, 513)
table(513)
slot(0, 512, 513, 1024, END)
table(512)
slot(511, 512)

show("numbers of table: 0 to 513 and 0 to 525,312, leading zeros or not; any others are bad lines, and change nothing")
table(2)
put(0, many(2))
for line in ("table", "table ", "table  1", "table -", "table -1", "table +1", "table x", "table 1x", "table 1.", "table 0x1", "table 514", "table 0514",
             "table 1 525313", "table 0 525313", "table 514 0", "table 1 ", "table 1 -", "table 1 x", "table 1 1024 ", "table 1 1024 0", "table 65600",
             "table 4294967360", "table 64 4295032832", "table 18446744073709551615", "table 18446744073709551616", "table 64 18446744073709551616",
             "table 1 18446744073709551615", "TABLE 1", "Table 1", "tables 1", "tabl 1", "table\t1", "table 1\r"):
    print(line)
    slot(1)
for line in ("table 000000000000000000000000064", "table 0064 0065536", "table 513", "table 513 525312", "table 0 0", "table 0 525312", "table 00"):
    print(line)
    put(0, response())
    slot(0)

show("the calls on the responder, the reader and the TXT pairs leave the sizes as they are")
table(1)
print("start 0 0 626f6f7468 5f766f696365 5f746370 646f636b 6c6f63616c 4000 00 0a000007 -")
print("recv 0 5353 20", text(many(2)))
print("read", text(many(2)))
put(0, many(2))
slot(0, 1)
table(64)
