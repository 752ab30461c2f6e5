// The exported responder and TXT lookup from C: buffer sizes, refusals that keep every byte, the two packets of the specification, answers to all and to the
// asker, stops and updates, and states of any bytes. Says what fails, and the count. Run by tests/capi.sh.
#include "kurgashel.h"
#include <stdio.h>
#include <string.h>

_Static_assert(sizeof(struct kurgashel_setup) == KURGASHEL_SETUP_BYTES, "the set-up has no padding");
_Static_assert(sizeof(struct kurgashel_entry) == 32, "an entry's layout");

static int failed, cases;
static void expect(int ok, const char *what) { cases++; if (!ok) { failed++; printf("FAILED: %s\n", what); } }

static const struct kurgashel_setup good = { .instance = "booth", .instance_length = 5, .service = "_voice", .service_length = 6, .protocol = "_tcp",
    .host = "dock", .host_length = 4, .domain = "local", .port = { 4000 >> 8, 4000 & 255 }, .txt = { 0 }, .txt_length = { 0, 1 }, .a = { 10, 0, 0, 7 } };
static uint8_t state[KURGASHEL_STATE_BYTES + 1], kept[sizeof state], out[KURGASHEL_OUT_BYTES + 1], was[sizeof out];
static uint8_t unicast[KURGASHEL_OUT_BYTES + 1], unicast_was[sizeof unicast];

static struct kurgashel_answer start(const struct kurgashel_setup *setup, uint64_t now, uint64_t draw) {
    return kurgashel_start(state, KURGASHEL_STATE_BYTES, (const uint8_t *)setup, sizeof *setup, now, draw);
}
static struct kurgashel_answer tick(uint64_t now) { return kurgashel_tick(state, KURGASHEL_STATE_BYTES, now, out, KURGASHEL_OUT_BYTES); }
static struct kurgashel_answer receive(uint64_t now, const uint8_t *from, size_t from_bytes, uint16_t port, uint64_t draw, uint64_t hold, const uint8_t *packet,
    size_t bytes) {
    return kurgashel_receive(state, KURGASHEL_STATE_BYTES, now, from, from_bytes, port, draw, hold, packet, bytes, out, KURGASHEL_OUT_BYTES, unicast,
        KURGASHEL_OUT_BYTES);
}
// from a neighbour, where its address does not matter
static const uint8_t neighbour[4] = { 10, 0, 0, 9 };
static struct kurgashel_answer hear(uint64_t now, uint16_t port, uint64_t draw, const uint8_t *packet, size_t bytes) {
    return receive(now, neighbour, sizeof neighbour, port, draw, 400, packet, bytes);
}
static void keep(void) { memcpy(kept, state, sizeof state); memcpy(was, out, sizeof out); memcpy(unicast_was, unicast, sizeof unicast); }
static int same(void) { return !memcmp(kept, state, sizeof state) && !memcmp(was, out, sizeof out) && !memcmp(unicast_was, unicast, sizeof unicast); }
static int quiet(struct kurgashel_answer a) { return !a.refusal && !a.more && !a.length && !a.unicast_length; }
static int is(struct kurgashel_answer a, uint8_t refusal) { return a.refusal == refusal && !a.more && !a.length && !a.unicast_length && same(); }
static int due(uint64_t time) { struct kurgashel_due d = kurgashel_due(state, KURGASHEL_STATE_BYTES); return d.due && d.time == time; }
static int none_due(void) { return !kurgashel_due(state, KURGASHEL_STATE_BYTES).due; }
static uint8_t claim(uint8_t which) { return kurgashel_claim(state, KURGASHEL_STATE_BYTES, which); }

static void sizes(void) {
    memset(state, 0xA5, sizeof state);
    keep();
    const uint8_t *setup = (const uint8_t *)&good;
    for (size_t n = 0; n <= sizeof state; n++) {
        if (n != KURGASHEL_STATE_BYTES) expect(is(kurgashel_start(state, n, setup, sizeof good, 0, 0), 7), "start: a state of another length is 7");
    }
    expect(is(kurgashel_start(state, KURGASHEL_STATE_BYTES, setup, sizeof good - 1, 0, 0), 7), "start: a short set-up is 7");
    expect(is(kurgashel_start(NULL, 0, NULL, 0, 0, 0), 7), "start: null pointers with length 0");
    expect(is(kurgashel_start(NULL, 0, NULL, 0, UINT64_MAX, 251), 1), "start: 1 comes before 2 and 7");
    expect(is(kurgashel_start(NULL, 0, NULL, 0, 0, 251), 2), "start: 2 comes before 7");
    expect(is(kurgashel_tick(NULL, 0, 0, NULL, 0), 3), "tick: 3 comes before 7");
    expect(is(kurgashel_tick(NULL, 0, 0, out, KURGASHEL_OUT_BYTES), 7), "tick: no state is 7");
    expect(is(kurgashel_receive(NULL, 0, 0, NULL, 0, 5353, 20, 400, NULL, 0, out, KURGASHEL_OUT_BYTES, unicast, KURGASHEL_OUT_BYTES), 4), "receive: 4 comes before 7");
    expect(is(kurgashel_tick(state, 841, 0, out, KURGASHEL_OUT_BYTES), 7), "tick: a state of 841 bytes, as older versions kept them, is 7");
    expect(is(kurgashel_stop(NULL, 0, 0, NULL, 0), 3) && is(kurgashel_stop(NULL, 0, 0, out, KURGASHEL_OUT_BYTES), 7), "stop: 3, then 7");
    expect(is(kurgashel_update_port(NULL, 0, 0, 1, out, KURGASHEL_OUT_BYTES), 7), "update of the port: no state is 7");
    expect(is(kurgashel_update_txt(NULL, 0, 0, NULL, 0, out, KURGASHEL_OUT_BYTES), 7), "update of the TXT: no state is 7");
    expect(kurgashel_claim(NULL, 0, 0) == KURGASHEL_LOST, "no state is lost");
    expect(!kurgashel_due(NULL, 0).due && !kurgashel_due(NULL, 0).time, "no state has a step to come");
    expect(kurgashel_cache_take(NULL, 0, NULL, 0, 0, 5353, NULL, 0).refusal == 8, "cache: no table is 8, before 4");
    expect(kurgashel_cache_look_up(NULL, 0, NULL, 0, 0, NULL, 0, 1, 0).refusal == 8, "cache: no table is 8, before 6");
    expect(kurgashel_message_refusal(NULL, 0) == 4 && !kurgashel_name_end(NULL, 0, 0) && !kurgashel_name_length(NULL, 0, 0), "reader: no message");
    expect(kurgashel_message(NULL, 0).refusal == 4 && !kurgashel_question(NULL, 0, 0).found && !kurgashel_record(NULL, 0, 0).found && !kurgashel_name(NULL, 0, 0).length && !kurgashel_name_into(NULL, 0, 0, NULL, 0).end && !kurgashel_fields(NULL, 0, 0).found, "reader: nothing in it");
}

static void setups(void) {
    keep();
    struct kurgashel_setup s = good; s.instance_length = 0; expect(is(start(&s, 0, 0), 7), "no instance label");
    s = good; s.instance[2] = '\n'; expect(is(start(&s, 0, 0), 7), "a line feed in the instance label");
    s = good; s.instance[4] = 0xc3; expect(is(start(&s, 0, 0), 7), "an instance label that ends within a character");
    s = good; s.host_length = 64; expect(is(start(&s, 0, 0), 7), "a host label of 64 bytes");
    s = good; s.service[0] = '-'; expect(is(start(&s, 0, 0), 7), "a service without its underscore");
    s = good; s.protocol[1] = 'T'; expect(is(start(&s, 0, 0), 7), "another protocol");
    s = good; s.domain[0] = 'L'; expect(is(start(&s, 0, 0), 7), "another domain");
    s = good; s.txt_length[0] = 2; expect(is(start(&s, 0, 0), 7), "a TXT of 513 bytes");
    s = good; s.txt[0] = 1; expect(is(start(&s, 0, 0), 7), "a TXT that its strings do not fill");
    expect(is(start(&good, (1ull << 62) + 1, 0), 1), "a time above 2^62");
    expect(is(start(&good, 0, 251), 2), "a draw of 251");
}

static void life(void) {
    expect(!start(&good, 0, 0).refusal && claim(KURGASHEL_INSTANCE) == KURGASHEL_WAITING && claim(KURGASHEL_HOST) == KURGASHEL_WAITING, "started");
    expect(!memcmp(state, &good, sizeof good), "the set-up stands in the state as it was");
    static const uint8_t probe[44] = "\0\0\0\0\0\1\0\0\0\1\0\0\4dock\5local\0\0\xff\x80\1\xc0\x0c\0\1\0\1\0\0\0\x78\0\4\n\0\0\7";
    static const uint8_t announcement[38] = "\0\0\x84\0\0\0\0\1\0\0\0\0\4dock\5local\0\0\1\x80\1\0\0\0\x78\0\4\n\0\0\7";
    expect(due(0), "both first probes are due at once");
    struct kurgashel_answer a = tick(0);
    expect(!a.refusal && a.length && a.more && due(0), "the instance's first probe, and more: the host's is due");
    memset(out, 0xEE, sizeof out);
    a = tick(0);
    expect(a.length == 44 && !a.more && !memcmp(out, probe, 44) && out[44] == 0xEE, "the host's probe of 44 bytes; bytes beyond it stay");
    expect(due(250), "the second probes 250 ms later");
    for (int round = 1; round < 3; round++) { tick(250 * round); tick(250 * round); }
    keep();
    expect(due(750), "the announcements 250 ms after the third");
    expect(is(tick(499), 1), "a time before the last");
    expect(is(kurgashel_tick(state, KURGASHEL_STATE_BYTES, 750, out, KURGASHEL_OUT_BYTES - 1), 3), "an out buffer of 1,451 bytes");
    tick(750);
    a = tick(750);
    expect(a.length == 38 && !memcmp(out, announcement, 38) && claim(KURGASHEL_HOST) == KURGASHEL_HELD, "the announcement of 38 bytes; held");
    expect(due(1750), "the second announcements 1,000 ms later");
    keep();
    uint8_t query[29] = "\0\0\0\0\0\1\0\0\0\0\0\0\4dock\5local\0\0\1\0\1";
    expect(is(hear(800, 5354, 20, announcement, 38), 5), "a response from another port");
    expect(is(hear(800, 5353, 19, query, 28), 2), "a draw of 19");
    expect(is(hear(800, 5353, 20, query, 27), 6), "a cut question");
    expect(is(hear(800, 5353, 20, query, 11), 4), "11 bytes");
    a = hear(1750, 5353, 20, query, 28);
    expect(!a.refusal && !a.unicast_length && a.length == 38 && !memcmp(out, announcement, 38), "the host's address, asked for");
    // a plain resolver: its ID and question again, TTL 10, class 1; asked in other letters, no name is cut
    static const uint8_t reply[45] = "\x12\x34\x84\0\0\1\0\1\0\0\0\0\4dock\5local\0\0\1\x80\1\xc0\x0c\0\1\0\1\0\0\0\x0a\0\4\x0a\0\0\7";
    uint8_t plain[29] = "\x12\x34\1\0\0\1\0\0\0\0\0\0\4dock\5local\0\0\1\x80\1";
    keep();
    a = hear(1750, 1024, 20, plain, 28);
    expect(!a.refusal && !a.length && a.unicast_length == 44 && !memcmp(unicast, reply, 44), "a plain resolver is answered by unicast, whatever was multicast just now");
    expect(!memcmp(state, kept, sizeof state), "at the same time that changes no byte of the state");
    expect(!memcmp(out, was, sizeof out) && !memcmp(unicast + 44, unicast_was + 44, sizeof unicast - 44), "nor of the out buffer, nor of the second beyond the reply");
    plain[20] = 'C';
    a = hear(1750, 1024, 20, plain, 28);
    expect(!a.refusal && !a.length && a.unicast_length == 54 && unicast[20] == 'C' && unicast[28] == 4, "asked for in other letters: the question again, the owner whole");
    plain[25] = 28;
    a = hear(1750, 1024, 20, plain, 28);
    expect(quiet(a), "AAAA, which the host lacks: no NSEC for a plain resolver");
    static const uint8_t nsec[39] = "\0\0\x84\0\0\0\0\1\0\0\0\0\4dock\5local\0\0\x2f\x80\1\0\0\0\x78\0\5\xc0\x0c\0\1\x40";
    query[25] = 28;
    a = hear(1750, 5353, 20, query, 28);
    expect(!a.refusal && a.length == 39 && !memcmp(out, nsec, 39), "AAAA, which the host lacks: NSEC says that it has A alone");
    a = hear(1799, 5353, 20, query, 28);
    expect(!a.refusal && !a.length, "and not again within 1,000 ms");
    uint8_t theirs[38]; memcpy(theirs, announcement, 38); theirs[37] = 8;
    a = hear(1800, 5353, 20, theirs, 38);
    expect(!a.refusal && !a.length && claim(KURGASHEL_HOST) == KURGASHEL_WAITING, "a conflict: back to waiting");
    expect(claim(KURGASHEL_INSTANCE) == KURGASHEL_HELD && claim(255) == KURGASHEL_WAITING, "the instance is held; any number but 0 is the host");
    expect(due(1750), "the instance's second step is overdue");
    a = tick(1800);
    expect(a.length && a.more && due(1800), "it sends, and the host's first probe is due");
    state[579] = 6; state[588] = 7; state[660] = 0;
    expect(none_due(), "held for good and lost: no step to come");
}

// Begins with both names held, at a time when nothing was multicast for long; tells that time.
static uint64_t settled(void) {
    start(&good, 0, 0);
    for (uint64_t now = 0; now < 5000; now += 50) while (tick(now).more) ;
    return 5000;
}

// A query for the host's address that is cut short (TC), one for its AAAA, and known answers without a question: the host's address with TTL 60, half its own.
static const uint8_t cut[28] = "\0\0\2\0\0\1\0\0\0\0\0\0\4dock\5local\0\0\1\0\1";
static const uint8_t cut_aaaa[28] = "\0\0\2\0\0\1\0\0\0\0\0\0\4dock\5local\0\0\x1c\0\1";
static const uint8_t known[38] = "\0\0\0\0\0\0\0\1\0\0\0\0\4dock\5local\0\0\1\0\1\0\0\0\x3c\0\4\n\0\0\7";
static const uint8_t address[38] = "\0\0\x84\0\0\0\0\1\0\0\0\0\4dock\5local\0\0\1\x80\1\0\0\0\x78\0\4\n\0\0\7";
static int sends_address(struct kurgashel_answer a) { return !a.refusal && !a.unicast_length && a.length == sizeof address && !memcmp(out, address, sizeof address); }

// the second draw is tested on every call, whatever the packet
static void hold_draws(void) {
    uint64_t now = settled();
    keep();
    static const uint64_t refused[] = { 0, 120, 399, 501, UINT64_MAX };
    for (size_t i = 0; i < sizeof refused / sizeof *refused; i++) {
        expect(is(receive(now, neighbour, 4, 5353, 20, refused[i], cut, sizeof cut), 2), "a draw for holding outside 400..500, of a query with TC");
        expect(is(receive(now, neighbour, 4, 5353, 20, refused[i], address, sizeof address), 2), "and of a response");
        expect(is(receive(now, neighbour, 4, 1024, 20, refused[i], NULL, 0), 2), "and before 4");
        expect(is(kurgashel_receive(state, KURGASHEL_STATE_BYTES, now, neighbour, 4, 5353, 20, refused[i], cut, sizeof cut, NULL, 0, NULL, 0), 2), "and before 3");
    }
    expect(is(receive(1, neighbour, 4, 5353, 20, 399, cut, sizeof cut), 1), "1 comes before 2");
    expect(quiet(receive(now, neighbour, 4, 5353, 20, 400, cut, sizeof cut)) && due(now + 400), "a draw of 400");
    now = settled();
    expect(quiet(receive(now, neighbour, 4, 5353, 20, 500, cut, sizeof cut)) && due(now + 500), "a draw of 500");
}

static void held_queries(void) {
    uint64_t now = settled();
    expect(none_due() && quiet(receive(now, neighbour, 4, 5353, 20, 400, cut, sizeof cut)) && due(now + 400), "a query with TC is held as long as is drawn");
    expect(quiet(tick(now + 399)) && due(now + 400), "before that a tick sends nothing");
    expect(sends_address(tick(now + 400)) && none_due(), "then it is answered, and no longer held");

    now = settled();
    receive(now, neighbour, 4, 5353, 20, 400, cut, sizeof cut);
    expect(quiet(receive(now + 20, neighbour, 4, 5353, 20, 400, known, sizeof known)) && due(now + 400), "a second packet tells known answers");
    expect(quiet(tick(now + 400)) && none_due(), "what it tells is left out, and nothing is sent");

    now = settled();
    receive(now, neighbour, 4, 5353, 20, 400, cut, sizeof cut);
    expect(sends_address(receive(now + 20, neighbour, 4, 5353, 20, 500, cut, sizeof cut)) && due(now + 400), "a second query of the address is no second hold");

    // another port is another asker: nothing of it is held, and what it knows is not known
    now = settled();
    receive(now, neighbour, 4, 5353, 20, 400, cut, sizeof cut);
    receive(now + 20, neighbour, 4, 1024, 20, 400, known, sizeof known);
    expect(sends_address(tick(now + 400)), "known answers from another port do not count");
    struct kurgashel_answer a = receive(now + 400, neighbour, 4, 1024, 20, 400, cut, sizeof cut);
    expect(!a.length && a.unicast_length && none_due(), "a query with TC from another port is answered at once");
}

// Questions that want unicast, by the top bit of their class: to the asker where all heard the record less than a quarter of its TTL ago.
static void wanted_by_unicast(void) {
    uint64_t now = settled(), told = 2000; // the second announcements were at 2,000 ms at the latest
    uint8_t wants[28] = "\x12\x34\0\0\0\1\0\0\0\0\0\0\4dock\5local\0\0\1\x80\1";
    uint8_t reply[38];
    memcpy(reply, address, sizeof reply);
    reply[0] = 0x12, reply[1] = 0x34;
    memset(unicast, 0xEE, sizeof unicast);
    keep();
    struct kurgashel_answer a = hear(now, 5353, 20, wants, sizeof wants);
    expect(!a.refusal && !a.length && a.unicast_length == 38 && !memcmp(unicast, reply, 38), "to the asker, with the query's ID");
    expect(unicast[38] == 0xEE && !memcmp(out, was, sizeof out), "bytes beyond it stay, and so does the first out buffer");
    a = hear(now, 5353, 20, wants, sizeof wants);
    expect(!a.length && a.unicast_length == 38, "and again at once: unicast has no gap");
    now = told + 30000;
    expect(sends_address(hear(now, 5353, 20, wants, sizeof wants)) && !out[0] && !out[1], "30 s after the last multicast it goes to all, with ID 0");
    keep();
    expect(is(kurgashel_receive(state, KURGASHEL_STATE_BYTES, now, neighbour, 4, 5353, 20, 400, wants, sizeof wants, out, KURGASHEL_OUT_BYTES, unicast, KURGASHEL_OUT_BYTES - 1), 3),
        "a second out buffer of 1,451 bytes");
    expect(is(kurgashel_receive(state, KURGASHEL_STATE_BYTES, now, neighbour, 4, 5353, 20, 400, wants, sizeof wants, out, KURGASHEL_OUT_BYTES - 1, unicast, KURGASHEL_OUT_BYTES), 3),
        "a first one of 1,451 bytes");

    // two questions: the address of the host with the bit, the SRV of the instance without: one packet each way
    now += 1000;
    static const uint8_t mixed[58] = "\x12\x34\0\0\0\2\0\0\0\0\0\0\4dock\5local\0\0\1\x80\1\5booth\6_voice\4_tcp\xc0\x11\0\x21\0\1";
    a = hear(now, 5353, 20, mixed, 52);
    expect(!a.refusal && a.length && a.unicast_length == 38 && !memcmp(unicast, reply, 38) && out[7] == 1, "the address to the asker and the SRV to all");
}

static struct kurgashel_answer stop(uint64_t now) { return kurgashel_stop(state, KURGASHEL_STATE_BYTES, now, out, KURGASHEL_OUT_BYTES); }
static struct kurgashel_answer update_port(uint64_t now, uint16_t port) {
    return kurgashel_update_port(state, KURGASHEL_STATE_BYTES, now, port, out, KURGASHEL_OUT_BYTES);
}
static struct kurgashel_answer update_txt(uint64_t now, const char *txt, size_t bytes) {
    return kurgashel_update_txt(state, KURGASHEL_STATE_BYTES, now, (const uint8_t *)txt, bytes, out, KURGASHEL_OUT_BYTES);
}

// A stop says goodbye to what is held, and ends both claims.
static void stops(void) {
    uint64_t now = settled();
    keep();
    expect(is(stop(4900), 1), "a stop before the last call");
    expect(is(kurgashel_stop(state, KURGASHEL_STATE_BYTES, now, out, KURGASHEL_OUT_BYTES - 1), 3), "with an out buffer of 1,451 bytes");
    memset(out, 0xEE, sizeof out);
    struct kurgashel_answer a = stop(now);
    // PTR, SRV, TXT and A, each with TTL 0
    expect(!a.refusal && !a.more && !a.unicast_length && a.length == 103 && out[2] == 0x84 && out[7] == 4 && out[a.length] == 0xEE, "one packet of four records");
    struct kurgashel_message m = kurgashel_message(out, a.length);
    size_t at = 12, records = 0, gone = 0;
    for (struct kurgashel_record r; records < 4 && (r = kurgashel_record(out, a.length, at)).found; at = r.next, records++) gone += !r.ttl;
    expect(!m.refusal && records == 4 && gone == 4 && at == a.length, "each with TTL 0");
    expect(claim(KURGASHEL_INSTANCE) == KURGASHEL_LOST && claim(KURGASHEL_HOST) == KURGASHEL_LOST && none_due(), "both names are lost, and no step is to come");
    expect(!memcmp(state, &good, sizeof good), "the set-up stays");
    expect(quiet(stop(now)) && quiet(tick(now + 10000)), "a second stop says nothing, nor does a tick");
    keep();
    expect(is(update_port(now + 10000, 1), 10), "an update of a name that is lost");
    start(&good, 0, 0);
    expect(quiet(stop(0)) && claim(KURGASHEL_HOST) == KURGASHEL_LOST, "a stop of one that holds nothing says nothing, and ends its claims");
}

// An update announces the new data, or begins to claim with them.
static void updates(void) {
    uint64_t now = settled();
    keep();
    expect(is(update_port(4900, 1), 1) && is(kurgashel_update_port(state, KURGASHEL_STATE_BYTES, now, 1, out, KURGASHEL_OUT_BYTES - 1), 3), "1, then 3");
    char long_txt[401] = { 0 };
    expect(is(update_txt(now, "", 0), 7) && is(update_txt(now, "\2a", 2), 7) && is(update_txt(now, long_txt, 401), 7), "TXT that breaks the rules");
    memset(out, 0xEE, sizeof out);
    struct kurgashel_answer a = update_port(now, 0x1234);
    expect(!a.refusal && !a.more && !a.unicast_length && a.length && out[7] == 1 && out[a.length] == 0xEE, "the SRV alone is announced");
    struct kurgashel_record r = kurgashel_record(out, a.length, 12);
    expect(r.found && r.rtype == 33 && r.ttl == 120 && out[r.rdata + 4] == 0x12 && out[r.rdata + 5] == 0x34, "with the new port");
    expect(state[154] == 0x12 && state[155] == 0x34 && !memcmp(state, &good, 154) && !memcmp(state + 156, (const uint8_t *)&good + 156, sizeof good - 156), "which is the only change of the set-up");
    expect(claim(KURGASHEL_INSTANCE) == KURGASHEL_HELD && due(now + 1000), "still held; the second step in 1,000 ms");
    a = tick(now + 1000);
    expect(a.length && none_due(), "which is taken");
    keep();
    expect(is(update_txt(now + 5999, "\1a", 2), 11), "an update less than 6,000 ms after the last");
    a = update_txt(now + 6000, "\6room=4", 7);
    r = kurgashel_record(out, a.length, 12);
    expect(!a.refusal && out[7] == 1 && r.found && r.rtype == 16 && r.rdata_length == 7 && !memcmp(out + r.rdata, "\6room=4", 7), "at 6,000 ms the TXT, with the new strings");
    expect(!memcmp(state + 156, "\6room=4", 7) && !state[163] && !state[556] && state[557] == 7, "they stand in the set-up, zeros behind them");
    a = update_txt(now + 12000, "\6room=4", 7);
    expect(!a.refusal && a.length, "equal data are announced all the same");

    start(&good, 0, 100);
    tick(100);
    expect(claim(KURGASHEL_INSTANCE) == KURGASHEL_PROBING && quiet(update_port(150, 5)) && claim(KURGASHEL_INSTANCE) == KURGASHEL_WAITING, "while probing: back to waiting");
    state[588] = 7;
    expect(due(250), "and the first probe after the start draw");
}

// whose known answers count: those of the same address, in whatever form it is handed
static void addresses(void) {
    static const uint8_t mapped[16] = { [10] = 0xff, 0xff, 10, 0, 0, 9 }, compatible[16] = { [12] = 10, 0, 0, 9 }, nobody[16], other[4] = { 10, 0, 0, 8 };
    static const uint8_t five[5] = { 10, 0, 0, 9, 1 };
    static const struct { const uint8_t *first; size_t first_bytes; const uint8_t *second; size_t second_bytes; int same; const char *what; } cases[] = {
        { neighbour, 4, mapped, 16, 1, "4 bytes, then ::ffff:10.0.0.9" },
        { mapped, 16, neighbour, 4, 1, "::ffff:10.0.0.9, then 4 bytes" },
        { neighbour, 4, other, 4, 0, "another address" },
        { neighbour, 4, compatible, 16, 0, "::10.0.0.9 is another address" },
        { mapped, 16, mapped, 15, 0, "15 bytes count as ::" },
        { five, 5, nobody, 16, 1, "5 bytes count as ::" },
        { mapped, 3, NULL, 0, 1, "3 bytes and none count as ::" },
        { nobody, 4, nobody, 16, 0, "0.0.0.0 is ::ffff:0.0.0.0" },
    };
    for (size_t i = 0; i < sizeof cases / sizeof *cases; i++) {
        uint64_t now = settled();
        receive(now, cases[i].first, cases[i].first_bytes, 5353, 20, 400, cut, sizeof cut);
        receive(now + 1, cases[i].second, cases[i].second_bytes, 5353, 20, 400, known, sizeof known);
        struct kurgashel_answer a = tick(now + 400);
        expect(cases[i].same ? quiet(a) : sends_address(a), cases[i].what);
    }
}

// up to four are held, in order of arrival
static void four_and_a_fifth(void) {
    uint64_t now = settled();
    static const uint8_t nsec[39] = "\0\0\x84\0\0\0\0\1\0\0\0\0\4dock\5local\0\0\x2f\x80\1\0\0\0\x78\0\5\xc0\x0c\0\1\x40";
    uint8_t from[4] = { 10, 0, 0, 0 };
    for (from[3] = 1; from[3] <= 4; from[3]++) {
        uint64_t hold = from[3] == 1 ? 500 : 400;
        expect(quiet(receive(now, from, 4, 5353, 20, hold, from[3] == 2 ? cut_aaaa : cut, 28)) && due(now + hold), "four are held");
    }
    expect(sends_address(receive(now, from, 4, 5353, 20, 400, cut, sizeof cut)) && due(now + 400), "a fifth is answered at once");
    struct kurgashel_answer a = tick(now + 400);
    expect(a.length == 39 && a.more && !memcmp(out, nsec, 39) && due(now + 400), "the second, which asked for AAAA, is the first that is due; so are two more");
    expect(quiet(tick(now + 400)) && due(now + 500), "what the fifth was sent is not sent again, and those two are taken");
    expect(quiet(tick(now + 500)) && none_due(), "nor for the first");
    from[3] = 6;
    expect(quiet(receive(now + 500, from, 4, 5353, 20, 400, cut, sizeof cut)) && due(now + 900), "there is room again");

    now = settled();
    for (from[3] = 1; from[3] <= 2; from[3]++) receive(now, from, 4, 5353, 20, 400, from[3] == 1 ? cut : cut_aaaa, 28);
    a = tick(now + 400);
    expect(sends_address(a) && a.more, "of two that are due the first to come goes first");
    a = tick(now + 400);
    expect(a.length == 39 && !a.more && none_due(), "then the second, and no more is due");
}

// the times and the draw below 256
static void small_numbers(void) {
    for (size_t i = 0; i < 11; i++) memset(state + 579 + 9 * i + 1, 0, 7);
    for (size_t i = 0; i < 4; i++) memset(state + 678 + 39 * i + 17, 0, 7);
    memset(state + 834, 0, 7);
    memset(state + 842, 0, 7);
}

// every buffer of the right length is a state: a case beyond the last is lost, a flag counts by its low bit
static void any_bytes(void) {
    uint32_t seed = 1;
    int refused = 0, accepted = 0;
    start(&good, 0, 0);
    for (int round = 0; round < 100000; round++) {
        memcpy(state, &good, sizeof good);
        for (size_t i = sizeof good; i < KURGASHEL_STATE_BYTES; i++) state[i] = (seed = seed * 1664525 + 1013904223) >> 24;
        if (round % 2) small_numbers();
        keep();
        struct kurgashel_answer a = tick(1000);
        if (a.refusal) { refused++; if (!same()) failed++; } else { accepted++; if (memcmp(kept, state, sizeof good)) failed++; }
    }
    expect(refused > 1000 && accepted > 10000, "random states: refused ones keep every byte, accepted ones their set-up");
    start(&good, 0, 0);
    state[579] = 8; expect(claim(KURGASHEL_INSTANCE) == KURGASHEL_LOST, "case 8 is lost");
    state[579] = 255; expect(claim(KURGASHEL_INSTANCE) == KURGASHEL_LOST, "case 255 is lost");
    state[588] = 6; expect(claim(KURGASHEL_HOST) == KURGASHEL_HELD, "case 6 is held");

    // the second held query's due time: 2^62 + 2,000 may be kept, 1 ms more is refused; a flag of 2 is a free place, whatever stands there
    uint64_t now = settled(), latest = (1ull << 62) + 2000;
    uint8_t *second = state + 678 + 39 + 16;
    second[0] = 255;
    for (int i = 0; i < 8; i++) second[1 + i] = latest >> (56 - 8 * i);
    expect(due(latest) && quiet(tick(now)) && second[0] == 1 && due(latest), "a flag counts by its low bit, and is written as 1");
    second[8]++;
    keep();
    expect(is(tick(now), 1) && is(hear(now, 5353, 20, cut, sizeof cut), 1), "a held query that is due too late");
    second[0] = 2;
    expect(none_due() && quiet(tick(now)) && !second[0] && !second[8], "a free place, written as zeros");
}

static void pairs(void) {
    static const uint8_t received[] = "\7PassReq\11PASSREQ=1\2e=", factory[] = "\6room=3";
    struct kurgashel_pair p = kurgashel_txt_lookup((const uint8_t *)"passreq", 7, received, sizeof received - 1, factory, sizeof factory - 1);
    expect(!p.refusal && p.answer == KURGASHEL_PRESENT && !p.at && !p.length, "the first of two keys wins: present without value");
    p = kurgashel_txt_lookup((const uint8_t *)"ROOM", 4, received, sizeof received - 1, factory, sizeof factory - 1);
    expect(p.answer == KURGASHEL_VALUE && p.buffer == KURGASHEL_FACTORY && p.at == 6 && p.length == 1, "the value in the factory TXT");
    p = kurgashel_txt_lookup((const uint8_t *)"e", 1, received, sizeof received - 1, NULL, 0);
    expect(p.answer == KURGASHEL_EMPTY && p.buffer == KURGASHEL_RECEIVED && !p.at && !p.length, "an empty value");
    p = kurgashel_txt_lookup((const uint8_t *)"x", 1, NULL, 0, NULL, 0);
    expect(!p.refusal && p.answer == KURGASHEL_ABSENT, "null pointers with length 0: absent");
    expect(kurgashel_txt_lookup(NULL, 0, received, 3, NULL, 0).refusal == 9, "9 comes first");
    expect(kurgashel_txt_lookup((const uint8_t *)"x", 1, received, 3, NULL, 0).refusal == 6, "a malformed TXT");
}

int main(void) {
    sizes();
    setups();
    life();
    hold_draws();
    held_queries();
    wanted_by_unicast();
    stops();
    updates();
    addresses();
    four_and_a_fifth();
    any_bytes();
    pairs();
    printf("%d cases, %d failed\n", cases, failed);
    return failed != 0;
}
