// The cache from C, over the static library: paper 01's cases and the refusals, with the paper's own numbers. Says what fails, and the
// count. Run by tests/cache.sh.
#include "kurgashel.h"
#include <stdio.h>
#include <string.h>
#define A 1
#define PTR 12
#define TXT 16
#define MOST KURGASHEL_MOST_ENTRIES
#define SLOT KURGASHEL_SLOT_BYTES
static struct kurgashel_entry e[MOST + 1], kept[MOST + 1];
static uint8_t st[SLOT * (MOST + 1) + 1], old[SLOT * (MOST + 1) + 1];
static int failed, cases;
static void expect(int ok, const char *what) { cases++; if (!ok) { failed++; printf("FAILED: %s\n", what); } }
static void reset(void) { memset(e, 0, sizeof e); memset(st, 0, sizeof st); }
static void keep(void) { memcpy(kept, e, sizeof e); memcpy(old, st, sizeof st); }
static int same(void) { return !memcmp(kept, e, sizeof e) && !memcmp(old, st, sizeof st); }

// a message under construction
static uint8_t m[9000]; static size_t n;
static void begin(uint16_t flags) { memset(m, 0, 12); m[2] = flags >> 8; m[3] = flags; n = 12; }
static void count(int section) { m[5 + 2 * section]++; }
static void record(int section, const char *owner, size_t olen, uint16_t type, uint16_t class, uint32_t ttl, const void *rd, size_t len) {
    memcpy(m + n, owner, olen); n += olen;
    uint8_t f[10] = { type >> 8, type, class >> 8, class, ttl >> 24, ttl >> 16, ttl >> 8, ttl, len >> 8, len };
    memcpy(m + n, f, 10); n += 10; memcpy(m + n, rd, len); n += len; count(section);
}
static struct kurgashel_taken go(uint64_t now, uint16_t port) { return kurgashel_cache_take(e, 64, st, 65536, now, port, m, n); }
static struct kurgashel_looked find(uint64_t now, const char *name, size_t len, uint16_t type, size_t from) {
    return kurgashel_cache_look_up(e, 64, st, 65536, now, (uint8_t *)name, len, type, from); }
#define NAME "\4dock\5local"
#define UPPER "\4DOCK\5Local"
#define OTHER "\4mask\5local"
#define LEN 12
static const uint8_t ip[4] = { 10, 0, 0, 7 }, ip2[4] = { 10, 0, 0, 8 };
static void put(size_t i, const char *owner, uint16_t type, const void *rd, size_t len, uint64_t received, uint64_t expiry) {
    memset(st + 1024 * i, 0, 1024); memcpy(st + 1024 * i, owner, LEN); memcpy(st + 1024 * i + 256, rd, len);
    e[i] = (struct kurgashel_entry){ type, LEN, len, received, expiry, 77 };
}
static int is(struct kurgashel_taken t, uint8_t refusal, uint32_t turned, uint32_t passed) { return t.refusal == refusal && t.turned_away == turned && t.passed_over == passed; }

// Tables of every kind of size: which are refused, and that the others work to their last slot and no further.
static void sizes(void) {
    static const size_t tables[] = { 0, 1, 2, 63, 64, 65, 511, 512, 513 };
    char what[80];
#define EACH(ok, said) (snprintf(what, sizeof what, "a table of %zu: %s", k, said), expect(ok, what))
    for (size_t i = 0; i < sizeof tables / sizeof *tables; i++) {
        size_t k = tables[i], bytes = SLOT * k;
        int fits = k >= 1 && k <= MOST;
        reset(); begin(0x8400); record(1, NAME, LEN, A, 1, 9, ip, 4); keep();
        struct kurgashel_taken t = kurgashel_cache_take(e, k, st, bytes, 1000, 5353, m, n);
        struct kurgashel_looked l = kurgashel_cache_look_up(e, k, st, bytes, 1000, (uint8_t *)NAME, LEN, A, 0);
        if (!fits) { EACH(is(t, 8, 0, 0) && l.refusal == 8 && !l.found && !l.slot && same(), "8, and nothing changes"); continue; }
        EACH(is(t, 0, 0, 0) && e[0].expiry == 10000 && e[0].ttl == 9 && !l.refusal && l.found && l.slot == 0, "taken and found"); keep();
        EACH(is(kurgashel_cache_take(e, k, st, bytes - 1, 1000, 5353, m, n), 8, 0, 0) && same(), "a store short by one: 8");
        EACH(is(kurgashel_cache_take(e, k, st, bytes + 1, 1000, 5353, m, n), 8, 0, 0) && same(), "a store long by one: 8");
        EACH(kurgashel_cache_look_up(e, k, st, bytes + 1, 1000, (uint8_t *)NAME, LEN, A, 0).refusal == 8, "a lookup in a store long by one: 8");
        EACH(kurgashel_cache_take(e, k, st, bytes - 1, 999, 5353, m, n).refusal == 1, "a store short by one and an older clock: 1");
        // all live but the last: it takes the record, and the next is turned away
        for (size_t j = 0; j < k; j++) put(j, OTHER, A, ip, 4, 900, j + 1 < k ? 99000 : 0);
        put(k, OTHER, A, ip2, 4, 900, 0);
        begin(0x8400); record(1, NAME, LEN, A, 1, 9, ip, 4); record(3, NAME, LEN, A, 1, 9, ip2, 4); record(1, NAME, LEN, A, 1, 9, "\3\3\3\3", 4);
        memcpy(kept, e, sizeof e); memcpy(old, st, sizeof st);
        EACH(is(kurgashel_cache_take(e, k, st, bytes, 1000, 5353, m, n), 0, 2, 0) && e[k - 1].expiry == 10000 && e[k - 1].rtype == A, "its last entry takes a record, two are turned away");
        EACH(!memcmp(e, kept, (k - 1) * sizeof *e) && !memcmp(e + k, kept + k, (MOST - k + 1) * sizeof *e), "no other entry changes, nor one past its end");
        EACH(!memcmp(st, old, SLOT * (k - 1)) && !memcmp(st + bytes, old + bytes, sizeof st - bytes), "no other slot, nor a byte past the store's end");
        l = kurgashel_cache_look_up(e, k, st, bytes, 1000, (uint8_t *)NAME, LEN, A, k - 1); EACH(!l.refusal && l.found && l.slot == k - 1, "found from the last slot on");
        l = kurgashel_cache_look_up(e, k, st, bytes, 1000, (uint8_t *)NAME, LEN, A, k); EACH(!l.refusal && !l.found && !l.slot, "from the slot past it on: none");
        l = kurgashel_cache_look_up(e, k, st, bytes, 1000, (uint8_t *)OTHER, LEN, A, 0); EACH(!l.refusal && l.found == (k > 1) && !l.slot, "the lowest of many");
        // rule 1 reaches every entry
        begin(0x8400); record(1, OTHER, LEN, A, 0x8001, 0, ip, 4); int all = 1;
        for (size_t j = 0; j < k; j++) put(j, OTHER, A, ip, 4, 900, 99000);
        EACH(is(kurgashel_cache_take(e, k, st, bytes, 2000, 5353, m, n), 0, 0, 0), "a flush is accepted");
        for (size_t j = 0; j < k; j++) all &= e[j].expiry == 3000 && e[j].received == 900 && e[j].ttl == 77;
        EACH(all && e[k].expiry == 0, "a flush reaches every entry, and none past the end");
        e[k - 1].owner = 256; EACH(kurgashel_cache_take(e, k, st, bytes, 2000, 5353, m, n).refusal == 8, "its last entry with a length too great: 8"); e[k - 1].owner = LEN;
        e[k - 1].received = 2001; EACH(kurgashel_cache_take(e, k, st, bytes, 2000, 5353, m, n).refusal == 1, "its last entry received later: 1");
    }
    // refusal 1 looks at every entry of a table of a wrong size too
    reset(); e[MOST].received = 5; begin(0x8400); record(1, NAME, LEN, A, 1, 9, ip, 4);
    expect(kurgashel_cache_take(e, MOST + 1, st, SLOT * (MOST + 1), 4, 5353, m, n).refusal == 1, "513 entries, the last received later: 1");
    expect(kurgashel_cache_take(e, MOST + 1, st, SLOT * (MOST + 1), 5, 5353, m, n).refusal == 8, "513 entries: 8");
    expect(kurgashel_cache_take(e, 0, st, 0, (1ull << 62) + 1, 5353, m, n).refusal == 1, "no entries and a time above 2^62: 1");
#undef EACH
}

int main(void) {
    // the 38 bytes of paper 01's announcement
    reset(); begin(0x8400); record(1, NAME, LEN, A, 0x8001, 120, ip, 4);
    expect(n == 38 && is(go(1000, 5353), 0, 0, 0), "announcement taken");
    expect(e[0].rtype == A && e[0].owner == 12 && e[0].rdata == 4 && e[0].received == 1000 && e[0].expiry == 121000 && e[0].ttl == 120, "its entry");
    uint8_t slot[1024] = { 0 }; memcpy(slot, NAME, LEN); memcpy(slot + 256, ip, 4);
    expect(!memcmp(st, slot, 1024) && st[1024] == 0, "its slot, unused bytes 0");
    struct kurgashel_looked l = find(1000, NAME, LEN, A, 0); expect(!l.refusal && l.found && l.slot == 0, "found");
    expect(l.name_labels == 2 && l.name_first_label == 4, "with the labels of its name");
    l = find(120999, UPPER, LEN, A, 0); expect(l.found && l.name_labels == 2 && l.name_first_label == 4, "found until it expires, letters folded");
    l = find(121000, NAME, LEN, A, 0); expect(!l.refusal && !l.found && !l.name_labels && !l.name_first_label, "not at its expiry");
    l = find(1000, NAME, LEN, A, 1); expect(!l.found, "not from the next slot on");
    l = find(1000, NAME, LEN, A, (size_t)-1); expect(!l.refusal && !l.found, "any slot may be asked from");
    l = find(1000, NAME, LEN, PTR, 0); expect(!l.found, "another type");
    l = find(1000, OTHER, LEN, A, 0); expect(!l.found, "another name");
    l = find(999, NAME, LEN, A, 0); expect(l.refusal == 1, "a lookup with an older clock: 1");
    l = find(1000, "\4dock\300\0", 7, A, 0); expect(l.refusal == 6, "a pointer in the name: 6");
    l = find(1000, NAME "\0", 13, A, 0); expect(l.refusal == 6, "bytes past the zero byte: 6");
    l = find(1000, "", 0, A, 0); expect(l.refusal == 6, "no name: 6");
    l = find(1000, "", 1, A, 0); expect(!l.refusal && !l.found, "the root is a name");

    // refresh: the owner's spelling stays
    begin(0x8400); record(1, UPPER, LEN, A, 1, 10, ip, 4); go(2000, 5353);
    expect(!memcmp(st, slot, 1024) && e[0].received == 2000 && e[0].expiry == 12000 && e[0].ttl == 10 && e[1].expiry == 0, "refreshed, with its TTL, spelled as first stored");
    // other rdata: its own entry
    begin(0x8400); record(1, NAME, LEN, A, 1, 10, ip2, 4); go(2000, 5353);
    expect(e[1].expiry == 12000 && e[1].ttl == 10 && st[1024 + 259] == 8, "other rdata, another entry");
    l = find(2000, NAME, LEN, A, 1); expect(l.slot == 1 && l.found, "found from slot 1 on");
    // goodbye
    begin(0x8400); record(1, NAME, LEN, A, 1, 0, ip, 4); go(2500, 5353);
    expect(e[0].expiry == 3500 && e[0].received == 2000 && e[0].ttl == 10 && e[1].expiry == 12000, "a goodbye: at most 1,000 ms more, and the TTL stays");
    go(3000, 5353); expect(e[0].expiry == 3500, "a goodbye lengthens nothing");
    begin(0x8400); record(1, NAME, LEN, A, 1, 0x80000001u, ip2, 4); go(3000, 5353); expect(e[1].expiry == 4000 && e[1].ttl == 10, "a TTL with its top bit set is a goodbye");
    keep(); begin(0x8400); record(1, OTHER, LEN, A, 1, 0, ip, 4); expect(is(go(3000, 5353), 0, 0, 0) && same(), "a goodbye of nothing: nothing, no count");

    // starred: at 5000, a flush leaves an entry received at 4000 and sets one received at 3999 to expire by 6000
    reset(); put(0, NAME, A, ip, 4, 4000, 99000); put(1, NAME, A, ip2, 4, 3999, 99000); put(2, NAME, PTR, "\0", 1, 1, 99000); put(3, OTHER, A, ip, 4, 1, 99000); put(4, NAME, A, "\1\1\1\1", 4, 1, 5500); put(5, NAME, A, "\2\2\2\2", 4, 1, 5000);
    begin(0x8400); record(1, UPPER, LEN, A, 0x8001, 120, "\11\11\11\11", 4); go(5000, 5353);
    expect(e[0].expiry == 99000, "flush at 5000: received at 4000, left");
    expect(e[1].expiry == 6000 && e[1].received == 3999 && e[1].ttl == 77, "flush at 5000: received at 3999, expires at 6000, and the TTL stays");
    expect(e[2].expiry == 99000, "flush: another type, left"); expect(e[3].expiry == 99000, "flush: another name, left");
    expect(e[4].expiry == 5500, "flush: lengthens nothing");
    expect(e[5].received == 5000 && e[5].expiry == 125000 && e[5].ttl == 120 && st[5 * 1024 + 256] == 9, "the lowest entry not live takes it");
    // the TTL that stands in a table that is lent may be any number, and the greatest that is received is kept whole
    reset(); put(0, NAME, A, ip, 4, 1, 99000); e[0].ttl = UINT64_MAX; begin(0x8400); record(1, NAME, LEN, A, 0x8001, 0, ip2, 4);
    expect(is(go(5000, 5353), 0, 0, 0) && e[0].expiry == 6000 && e[0].ttl == UINT64_MAX, "any TTL in a table");
    begin(0x8400); record(1, NAME, LEN, A, 1, 0x7fffffffu, ip, 4); go(5000, 5353);
    expect(e[0].ttl == 0x7fffffffu && e[0].expiry == 5000 + 1000 * 0x7fffffffull, "the greatest TTL");
    // over-long rdata: passed over after rule 1
    uint8_t txt[770]; memset(txt, 'x', sizeof txt); txt[0] = 255; txt[256] = 255; txt[512] = 255; txt[768] = 0;
    reset(); put(0, NAME, TXT, "\0", 1, 1, 99000); begin(0x8400); record(1, NAME, LEN, TXT, 0x8001, 0, txt, 769);
    expect(is(go(5000, 5353), 0, 0, 1) && e[0].expiry == 6000 && e[1].expiry == 0, "769 bytes of rdata: passed over after rule 1");
    txt[512] = 255; begin(0x8400); record(1, NAME, LEN, TXT, 1, 9, txt, 768); expect(is(go(5000, 5353), 0, 0, 0) && e[1].rdata == 768, "768 bytes are taken");

    // which records
    reset(); begin(0x8400); record(2, NAME, LEN, A, 1, 9, ip, 4); record(3, OTHER, LEN, A, 1, 9, ip, 4); go(1000, 5353);
    expect(e[0].expiry == 10000 && st[1] == 'm' && e[1].expiry == 0, "Additional records, and no Authority ones");
    reset(); keep(); begin(0); record(1, NAME, LEN, A, 1, 9, ip, 4); expect(is(go(1000, 5353), 0, 0, 0) && same(), "a query: accepted, nothing taken");
    begin(0x8400); record(1, NAME, LEN, A, 3, 9, ip, 4); record(1, NAME, LEN, 99, 1, 9, ip, 4); expect(is(go(1000, 5353), 0, 0, 0) && same(), "another class or type: ignored");
    // all live
    reset(); for (int i = 0; i < 64; i++) put(i, OTHER, 99, ip, 4, 0, 1001);
    keep(); begin(0x8400); record(1, NAME, LEN, A, 1, 9, ip, 4); record(1, NAME, LEN, A, 1, 0, ip, 4); expect(is(go(1000, 5353), 0, 1, 0) && same(), "all live: turned away, a goodbye not counted");
    expect(is(go(1001, 5353), 0, 0, 0) && e[0].rtype == A, "dead at its expiry: it takes the record");
    l = find(1000, OTHER, LEN, 99, 5); expect(l.refusal == 1, "an entry received later: 1");
    l = find(1001, OTHER, LEN, 99, 5); expect(!l.refusal && !l.found, "a type outside the five: a plain match, and dead here");

    // refusals, and their order; each keeps all
    reset(); put(0, NAME, A, ip, 4, 10, 99); keep(); begin(0x8400); record(1, NAME, LEN, A, 1, 9, ip, 4);
    expect(is(go((1ull << 62) + 1, 5353), 1, 0, 0) && same(), "a time above 2^62: 1");
    expect(go(1ull << 62, 5353).refusal == 0, "2^62 itself is accepted"); memcpy(e, kept, sizeof e); memcpy(st, old, sizeof st);
    expect(go(9, 0).refusal == 1 && same(), "before an entry's receive time: 1, before 5");
    e[3].received = 50; keep(); expect(go(49, 5353).refusal == 1 && same(), "of a dead entry too"); e[3].received = 0; keep();
    expect(kurgashel_cache_take(e, 3, st, 65536, 9, 5353, m, n).refusal == 1, "a table of 3 with a later receive time: 1, not 8");
    expect(kurgashel_cache_take(e, 63, st, 65536, 10, 5353, m, 11).refusal == 8, "63 entries with the store of 64: 8, before 4");
    expect(kurgashel_cache_take(e, 65, st, 65536, 10, 5353, m, n).refusal == 8, "65 entries with the store of 64: 8");
    expect(kurgashel_cache_take(e, 0, st, 65536, 10, 5353, m, n).refusal == 8, "no entries: 8");
    expect(kurgashel_cache_take(e, 64, st, 65535, 10, 5353, m, n).refusal == 8, "a store of 65,535 bytes: 8");
    expect(kurgashel_cache_take(e, 64, st, 65537, 10, 5353, m, n).refusal == 8 && same(), "of 65,537: 8");
    e[63].owner = 256; expect(go(10, 5353).refusal == 8, "an owner length of 256: 8"); e[63].owner = 255; expect(go(10, 5353).refusal == 0, "255 passes"); memcpy(e, kept, sizeof e); memcpy(st, old, sizeof st);
    e[63].rdata = 769; expect(go(10, 5353).refusal == 8, "an rdata length of 769: 8"); l = find(10, NAME, LEN, A, 0); expect(l.refusal == 8, "for a lookup too"); e[63].rdata = 0;
    keep(); n = 11; expect(go(10, 0).refusal == 4 && same(), "11 bytes: 4, before 5"); n = 8973; expect(go(10, 5353).refusal == 4, "8,973 bytes: 4");
    begin(0x8400); record(1, NAME, LEN, A, 1, 9, ip, 4); expect(go(10, 5352).refusal == 5 && same(), "another port: 5");
    m[2] |= 8; expect(go(10, 5353).refusal == 5, "an opcode: 5"); m[2] &= ~8; m[3] = 3; expect(go(10, 5353).refusal == 5, "an RCODE: 5"); m[3] = 0;
    n = 13; expect(go(10, 1).refusal == 5, "malformed and another port: 5"); expect(go(10, 5353).refusal == 6, "malformed: 6");
    begin(0x8400); record(1, NAME, LEN, A, 0x8001, 9, ip2, 4); record(3, NAME, LEN, A, 1, 9, ip, 3); expect(go(5000, 5353).refusal == 6 && same(), "a late malformed record: 6, and nothing has changed");
    sizes();
    printf("%d cases, %d failed\n", cases, failed);
    return failed != 0;
}
