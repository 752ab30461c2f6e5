// The exported proxy from C: the set-up, questions, records of a message, written out and of a cache, and what is refused or left out. Says what fails, and the
// count. Run by tests/capi.sh.
#include "kurgashel.h"
#include <stdio.h>
#include <string.h>

static int failed, cases;
static void expect(int ok, const char *what) { cases++; if (!ok) { failed++; printf("FAILED: %s\n", what); } }

enum { A = 1, NS = 2, SOA = 6, PTR = 12, TXT = 16, SRV = 33, DS = 43, NSEC = 47 };
#define NAME(text) (const uint8_t *)text, sizeof text
#define DOMAINS NAME("\4rich\7example"), NAME("\3ldh\7example")

static uint8_t refusal(const char *rich, size_t n, const char *ldh, size_t m) { return kurgashel_proxy_refusal((const uint8_t *)rich, n, (const uint8_t *)ldh, m); }

static void set_up(void) {
    expect(!kurgashel_proxy_refusal(DOMAINS), "two domains");
    expect(refusal("\1a", 3, "\1a", 3) == 7 && refusal("\1a", 3, "\1A", 3) == 7, "the two are equal, letters folded");
    expect(refusal("\1a", 3, "\1b\1A", 5) == 7 && refusal("\1b\1a", 5, "\1a", 3) == 7, "one lies under the other");
    expect(refusal("", 1, "\1a", 3) == 7 && refusal("\1a", 3, "", 1) == 7 && refusal("", 1, "", 1) == 7, "the root");
    expect(refusal("\1a", 2, "\1b", 3) == 7 && refusal("\1a\0", 4, "\1b", 3) == 7 && refusal("\xc0\x0c", 2, "\1b", 3) == 7, "malformed");
    expect(kurgashel_proxy_refusal(NULL, 0, NULL, 0) == 7, "none at all");
    expect(!refusal("\2xa", 4, "\1a", 3), "an end of a label is no label");
}

static int asks(struct kurgashel_proxy_question q, const char *name, size_t length) {
    static const uint8_t zeros[255];
    return !q.refusal && !q.negative && q.length == length && !memcmp(q.name, name, length) && !memcmp(q.name + length, zeros, 255 - length);
}
static struct kurgashel_proxy_question ask(const uint8_t *name, size_t bytes, uint16_t rtype) { return kurgashel_proxy_question(DOMAINS, name, bytes, rtype); }

static void questions(void) {
    expect(asks(ask(NAME("\4dock\3ldh\7example"), A), "\4dock\5local", 12), "a host");
    expect(asks(ask(NAME("\7Booth 4\6_voice\4_tcp\4RICH\7Example"), TXT), "\7Booth 4\6_voice\4_tcp\5local", 27), "an instance, and a domain spelled otherwise");
    expect(asks(ask(NAME("\4dock\7example"), SOA), "\4dock\7example", 14), "a name under neither stays, and is never negative");
    expect(asks(ask(NAME("\4rich\7example"), SOA), "\4rich\7example", 14) && asks(ask(NAME("\3ldh\7example"), NS), "\3ldh\7example", 13), "an apex stays");
    expect(ask(NAME("\4dock\3ldh\7example"), SOA).negative && ask(NAME("\4dock\4rich\7example"), NS).negative && ask(NAME("\4dock\3ldh\7example"), DS).negative,
           "SOA, NS and DS below an apex");
    expect(!ask(NAME("\4dock\3ldh\7example"), 46).negative && !ask(NAME("\4dock\3ldh\7example"), 255).negative, "and no others");
    expect(ask((const uint8_t *)"\4dock", 5, A).refusal == 6 && ask((const uint8_t *)"\xc0\x0c", 2, SOA).refusal == 6, "a malformed name");
    expect(kurgashel_proxy_question(NULL, 0, NULL, 0, NAME("\1a"), A).refusal == 7 && kurgashel_proxy_question(NULL, 0, NULL, 0, NULL, 0, A).refusal == 6, "6 before 7");
    // four labels of 61 bytes under "a": 251 bytes, and 255 and 256 under "local"
    uint8_t name[256] = { 0 };
    for (size_t i = 0; i < 4; i++)
        memset(name + 62 * i, 'x', 62), name[62 * i] = 61;
    memcpy(name + 248, "\1a", 3);
    struct kurgashel_proxy_question q = kurgashel_proxy_question(NAME("\1a"), NAME("\1b"), name, 251, A);
    expect(!q.refusal && q.length == 255 && !memcmp(q.name, name, 248) && !memcmp(q.name + 248, "\5local", 7), "a mapped name of 255 bytes");
    memcpy(name + 186, "\1y\x3cx", 4), memset(name + 190, 'x', 59), memcpy(name + 249, "\1a", 3);
    expect(kurgashel_proxy_question(NAME("\1a"), NAME("\1b"), name, 252, A).refusal == 13, "one of 256 is refused");
    expect(kurgashel_proxy_question(NAME("\1a"), NAME("\1b"), name, 252, SOA).negative, "but answered at once where it is negative");
}

// the owner at 12, "local" in it at 30; SRV rdata at 47 with its target at 53; then a TXT, an A, a PTR, and an NSEC
static const uint8_t message[] = "\0\0\x84\0\0\0\0\5\0\0\0\0"
    "\5booth\6_voice\4_tcp\5local\0" "\0\x21\x80\1\0\0\0\x78\0\x0d" "\0\1\0\2\x0f\xa0" "\4dock\xc0\x1e"
    "\xc0\x0c" "\0\x10\x80\1\0\0\0\5\0\7" "\6room=3"
    "\xc0\x35" "\0\1\x80\1\0\0\0\x78\0\4" "\n\0\0\7"
    "\xc0\x12" "\0\x0c\0\1\0\0\x11\x94\0\2" "\xc0\x0c"
    "\xc0\x35" "\0\x2f\x80\1\0\0\0\x78\0\5" "\xc0\x35\0\1\x40";
enum { BYTES = sizeof message - 1 };

static int passes(struct kurgashel_proxy_record r, uint16_t rtype, uint32_t ttl, const char *owner, size_t owner_length, const char *rdata, size_t rdata_length) {
    static const uint8_t zeros[261];
    size_t copied = r.named ? rdata_length : 0;
    return !r.refusal && r.passed && r.named == (rtype == PTR || rtype == SRV) && r.rtype == rtype && r.class_ == 1 && r.ttl == ttl
        && r.owner_length == owner_length && !memcmp(r.owner, owner, owner_length) && !memcmp(r.owner + owner_length, zeros, 255 - owner_length)
        && r.rdata_length == rdata_length && !memcmp(r.rdata, rdata, copied) && !memcmp(r.rdata + copied, zeros, 261 - copied);
}
static int left(struct kurgashel_proxy_record r) { return !r.refusal && !r.passed && !r.owner_length && !r.rdata_length && !r.ttl; }
static struct kurgashel_proxy_record at(size_t place) { return kurgashel_proxy_record(DOMAINS, message, BYTES, place); }

static void records(void) {
    expect(passes(at(12), SRV, 10, "\5booth\6_voice\4_tcp\4rich\7example", 32, "\0\1\0\2\x0f\xa0\4dock\3ldh\7example", 24), "an SRV: its owner and its target");
    expect(passes(at(60), TXT, 5, "\5booth\6_voice\4_tcp\4rich\7example", 32, "", 7), "a TXT, with the TTL that it has");
    expect(passes(at(79), A, 10, "\4dock\3ldh\7example", 18, "", 4), "an A");
    expect(passes(at(95), PTR, 10, "\6_voice\4_tcp\4rich\7example", 26, "\5booth\6_voice\4_tcp\4rich\7example", 32), "a PTR");
    expect(left(at(109)) && left(at(126)) && left(at(13)) && left(at(999)), "an NSEC, and what is no record, are left out");
    expect(kurgashel_proxy_record(NULL, 0, NULL, 0, message, BYTES, 12).refusal == 7 && kurgashel_proxy_record(NULL, 0, NULL, 0, NULL, 0, 0).refusal == 7, "7 comes first");
}

static struct kurgashel_proxy_record plain(const uint8_t *owner, size_t bytes, uint16_t rtype, uint16_t class_, uint32_t ttl, const char *rdata, size_t length) {
    return kurgashel_proxy_plain_record(DOMAINS, owner, bytes, rtype, class_, ttl, (const uint8_t *)rdata, length);
}

static void plain_records(void) {
    expect(passes(plain(NAME("\4dock\5LOCAL"), A, 0x8001, 11, "\n\0\0\7", 4), A, 10, "\4dock\3ldh\7example", 18, "", 4), "an A under \"LOCAL\"");
    expect(passes(plain(NAME("\4dock\7example"), A, 1, 9, "\n\0\0\7", 4), A, 9, "\4dock\7example", 14, "", 4), "a name that is not under \"local\" stays");
    expect(passes(plain(NAME("\5local"), A, 1, 0xffffffff, "\n\0\0\7", 4), A, 0, "\5local", 7, "", 4), "\"local\" itself stays; a TTL with its top bit counts as 0");
    expect(plain(NAME("\5local"), TXT, 0xffff, 1, "", 0).class_ == 0x7fff && plain(NAME("\5local"), TXT, 0x8000, 1, "", 0).class_ == 0, "any class, without its top bit");
    expect(left(plain(NAME("\5local"), A, 1, 9, "\n\0\0", 3)) && left(plain(NAME("\5local"), TXT, 1, 9, "\2a", 2)) && left(plain(NAME("\5local"), PTR, 1, 9, "", 0)), "malformed rdata");
    expect(left(plain(NAME("\5local"), SRV, 1, 9, "\0\0\0\0\0", 5)) && left(plain(NAME("\5local"), PTR, 1, 9, "\xc0\x0c", 2)) && left(plain(NAME("\5local"), 99, 1, 9, "", 0)), "and other types");
    expect(left(plain((const uint8_t *)"\5loca", 5, A, 1, 9, "\n\0\0\7", 4)), "a malformed owner");
    uint8_t name[256] = { 0 };
    for (size_t i = 0; i < 4; i++)
        memset(name + 61 * i, 'x', 61), name[61 * i] = 60;
    memcpy(name + 244, "\5local", 7);
    expect(plain(name, 251, A, 1, 9, "\n\0\0\7", 4).refusal == 13 && plain(NAME("\1a"), PTR, 1, 9, (const char *)name, 251).refusal == 13, "an owner and a target that are too long");
    expect(left(plain(name, 251, A, 1, 9, "\n\0\0", 3)), "one that is left out is not refused");
}

static void cached(void) {
    struct kurgashel_entry e = { A, 12, 4, 1000, 121000 };
    uint8_t slot[KURGASHEL_SLOT_BYTES] = "\4dock\5local";
    memcpy(slot + 256, "\n\0\0\7", 4);
    expect(passes(kurgashel_proxy_cached(DOMAINS, 111000, e, slot, sizeof slot), A, 10, "\4dock\3ldh\7example", 18, "", 4), "ten seconds are left");
    expect(kurgashel_proxy_cached(DOMAINS, 111001, e, slot, sizeof slot).ttl == 9 && kurgashel_proxy_cached(DOMAINS, 1000, e, slot, sizeof slot).ttl == 10, "rounded down, and at most 10");
    expect(passes(kurgashel_proxy_cached(DOMAINS, 120999, e, slot, sizeof slot), A, 0, "\4dock\3ldh\7example", 18, "", 4), "less than a second is left");
    expect(left(kurgashel_proxy_cached(DOMAINS, 121000, e, slot, sizeof slot)), "none is left");
    expect(kurgashel_proxy_cached(DOMAINS, 999, e, slot, sizeof slot).refusal == 1 && kurgashel_proxy_cached(NULL, 0, NULL, 0, 999, e, slot, 0).refusal == 1, "before it was received");
    expect(kurgashel_proxy_cached(DOMAINS, ((uint64_t)1 << 62) + 1, e, slot, sizeof slot).refusal == 1, "too late");
    expect(kurgashel_proxy_cached(DOMAINS, 1000, e, slot, 1023).refusal == 8 && kurgashel_proxy_cached(NULL, 0, NULL, 0, 1000, e, slot, 1023).refusal == 8, "a slot of another size");
    expect(kurgashel_proxy_cached(NULL, 0, NULL, 0, 1000, e, slot, sizeof slot).refusal == 7, "no domains");
    e.rdata = 769;
    expect(kurgashel_proxy_cached(DOMAINS, 1000, e, slot, sizeof slot).refusal == 8, "rdata that no slot has");
    e.rdata = 3;
    expect(left(kurgashel_proxy_cached(DOMAINS, 1000, e, slot, sizeof slot)), "an A of three bytes");
    struct kurgashel_entry blank = { 0 };
    expect(left(kurgashel_proxy_cached(DOMAINS, 0, blank, slot, sizeof slot)), "an unused entry");
}

int main(void) {
    set_up();
    questions();
    records();
    plain_records();
    cached();
    printf("the proxy from C: %d cases, %d failed\n", cases, failed);
    return failed != 0;
}
