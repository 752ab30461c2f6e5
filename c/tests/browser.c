// The browser from C, over the static library: its state by value, its queries, its list and its refusals. Says what fails, and the count. Run by tests/capi.sh.
#include "kurgashel.h"
#include <stdio.h>
#include <string.h>
#define ENTRIES 4
#define NAME "\6_voice\4_tcp\5local"
#define LEN 19
#define PTR 12
_Static_assert(sizeof(struct kurgashel_browser) == 96, "a browser's layout");
static struct kurgashel_entry e[ENTRIES];
static uint8_t st[KURGASHEL_SLOT_BYTES * ENTRIES], out[KURGASHEL_OUT_BYTES + 8];
static int failed, cases;
static void expect(int ok, const char *what) { cases++; if (!ok) { failed++; printf("FAILED: %s\n", what); } }
static struct kurgashel_browser_begun start(const char *service, const char *protocol, uint64_t now, uint64_t draw, uint64_t refresh) {
    return kurgashel_browse_start((uint8_t *)service, strlen(service), (uint8_t *)protocol, strlen(protocol), (uint8_t *)"local", 5, now, draw, refresh);
}
static struct kurgashel_browser_asked tick(struct kurgashel_browser b, uint64_t now) { return kurgashel_browse_tick(e, ENTRIES, st, sizeof st, b, now, out, KURGASHEL_OUT_BYTES); }
static struct kurgashel_browser_listed list(struct kurgashel_browser b, uint64_t now, size_t from) { return kurgashel_browse_list(e, ENTRIES, st, sizeof st, b, now, from); }
static int same(struct kurgashel_browser a, struct kurgashel_browser b) {
    return !memcmp(a.service, b.service, 16) && !memcmp(a.protocol, b.protocol, 4) && !memcmp(a.domain, b.domain, 5) && a.service_length == b.service_length
        && a.draw == b.draw && a.refresh == b.refresh && a.series == b.series && a.count == b.count && a.query == b.query && a.owed == b.owed && a.last == b.last;
}
// a PTR record of the service in slot i
static void put(size_t i, const char *label, uint64_t received, uint64_t expiry, uint64_t ttl) {
    uint8_t *slot = st + KURGASHEL_SLOT_BYTES * i; size_t n = strlen(label);
    memset(slot, 0, KURGASHEL_SLOT_BYTES); memcpy(slot, NAME, LEN);
    slot[256] = n; memcpy(slot + 257, label, n); memcpy(slot + 257 + n, NAME, LEN);
    e[i] = (struct kurgashel_entry){ PTR, LEN, 1 + n + LEN, received, expiry, ttl };
}

int main(void) {
    struct kurgashel_browser_begun g = start("_voice", "_tcp", 1000, 20, 0);
    expect(g.refusal == 0, "a browser begins");
    expect(start("_voice", "_udp", 1000, 120, 20).refusal == 0, "at the greatest draws, for udp");
    expect(start("_voice", "_tcp", 1000, 19, 0).refusal == 2 && start("_voice", "_tcp", 1000, 121, 0).refusal == 2, "a first draw outside: 2");
    expect(start("_voice", "_tcp", 1000, 20, 21).refusal == 2, "a second draw outside: 2");
    expect(start("voice", "_tcp", 1000, 20, 0).refusal == 7 && start("_voice", "_tcp1", 1000, 20, 0).refusal == 7, "labels that break the rules: 7");
    expect(start("_voiceandsixteen1", "_tcp", 1000, 20, 0).refusal == 7, "a label of 17 bytes: 7");
    expect(start("_voice", "_tcp", (1ull << 62) + 1, 0, 0).refusal == 1, "a time too late: 1, before 2");
    static struct kurgashel_browser zeros;
    struct kurgashel_browser b = g.browser;

    // the first query, a draw after the start
    struct kurgashel_browser_due d = kurgashel_browse_due(e, ENTRIES, st, sizeof st, b, 1000);
    expect(d.refusal == 0 && d.time == 1020, "due a draw after the start");
    memset(out, 0xEE, sizeof out);
    struct kurgashel_browser_asked t = tick(b, 1019);
    expect(!t.refusal && !t.length && !t.more && out[0] == 0xEE, "nothing before");
    t = tick(t.browser, 1020); b = t.browser;
    static const uint8_t header[12] = { 0, 0, 0, 0, 0, 1 };
    expect(!t.refusal && t.length == 12 + LEN + 4 && !memcmp(out, header, 12) && !memcmp(out + 12, NAME, LEN) && !memcmp(out + 12 + LEN, "\0\14\0\1", 4), "then a query for PTR, class 1");
    expect(out[t.length] == 0xEE, "and nothing behind it");
    d = kurgashel_browse_due(e, ENTRIES, st, sizeof st, b, 1020); expect(d.time == 2020, "the next a second later");

    // a refused call changes nothing
    t = tick(b, 1019); expect(t.refusal == 1 && !t.length && same(t.browser, b), "an older clock: 1, and the browser is as it was");
    t = kurgashel_browse_tick(e, ENTRIES, st, sizeof st, b, 1020, out, KURGASHEL_OUT_BYTES - 1); expect(t.refusal == 3 && same(t.browser, b), "a buffer too small: 3");
    t = kurgashel_browse_tick(e, ENTRIES, st, sizeof st - 1, b, 1020, out, KURGASHEL_OUT_BYTES); expect(t.refusal == 8 && same(t.browser, b), "a store too short: 8");
    t = kurgashel_browse_tick(e, 0, st, 0, b, 1020, out, KURGASHEL_OUT_BYTES); expect(t.refusal == 8, "no table: 8");
    t = tick(zeros, 0); expect(t.refusal == 7 && same(t.browser, zeros), "zeros: 7");
    expect(list(zeros, 0, 0).refusal == 7 && kurgashel_browse_due(e, ENTRIES, st, sizeof st, zeros, 0).refusal == 7, "zeros: 7, for a list and for what is due");
    struct kurgashel_browser odd = b; odd.owed = UINT64_MAX; t = tick(odd, 1020);
    expect(!t.refusal && !t.length && t.browser.owed == 0, "a debt past every table is none");

    // the list
    expect(!list(b, 1020, 0).found, "nobody is there");
    put(0, "dock", 1000, 121000, 120); put(1, "booth", 1000, 121000, 120); put(2, "DOCK", 1000, 121000, 120); put(3, "late", 1000, 1020, 120);
    struct kurgashel_browser_listed l = list(b, 1020, 0); expect(!l.refusal && l.found && l.slot == 0, "the lowest entry");
    l = list(b, 1020, 1); expect(l.found && l.slot == 1, "another"); l = list(b, 1020, 2); expect(!l.found, "each once, and no dead one");
    expect(!list(b, 1020, (size_t)-1).found, "from any slot on");
    expect(list(b, 999, 0).refusal == 1, "a list with an older clock: 1");
    st[256] = 63; expect(list(b, 1020, 0).slot == 1, "a malformed target counts nowhere"); st[256] = 4;

    // known answers
    t = tick(b, 2020); expect(!t.refusal && out[7] == 3 && t.length > 12 + LEN + 4, "a query lists what is known");
    expect(out[12 + LEN + 4] == 0xC0 && out[12 + LEN + 4 + 9] == 118, "its owner cut, with the TTL left");
    printf("%d cases, %d failed\n", cases, failed);
    return failed != 0;
}
