// The player from C, over the static library: a run of calls, taken and refused ones, is made and recorded, and played from the same start; the state has to have
// the same bytes after every event, and each claim to agree. Then claims that differ, a trace that is refused, and buffers that are no state. Says what fails, and
// the count. Run by tests/capi.sh.
#include "kurgashel.h"
#include <stdio.h>
#include <string.h>

static int failed, cases;
static void expect(int ok, const char *what) { cases++; if (!ok) { failed++; printf("FAILED: %s\n", what); } }

static const struct kurgashel_setup setup = { .instance = "booth", .instance_length = 5, .service = "_voice", .service_length = 6, .protocol = "_tcp",
    .host = "dock", .host_length = 4, .domain = "local", .port = { 4000 >> 8, 4000 & 255 }, .txt = "\x06room=3", .txt_length = { 0, 7 }, .a = { 10, 0, 0, 7 },
    .has_aaaa = 255, .aaaa = { 0xfe, 0x80 } }; // any odd byte says that there is an AAAA, and stays as it is

// a question for dock.local, type A, from port 5353
static const uint8_t question[] = "\0\0\0\0\0\1\0\0\0\0\0\0\4dock\5local\0\0\1\0\1";
static const uint8_t source[16] = { 0xfe, 0x80, 0, 0, 0, 0, 0, 0, 1, 2, 3, 4, 5, 6, 7, 8 };

static uint8_t trace[4096], state[KURGASHEL_STATE_BYTES], out[KURGASHEL_OUT_BYTES], unicast[KURGASHEL_OUT_BYTES];
static size_t length;

// What the recorded responder was after each event, and how each call was answered.
static struct { uint8_t state[KURGASHEL_STATE_BYTES]; uint8_t kind, call; size_t end; } after[64];
static size_t events;

static void record(uint8_t kind, uint64_t time, uint64_t high, uint64_t low, uint64_t port, uint64_t draw, uint64_t hold, uint64_t claim, uint64_t claimed,
                   const uint8_t *bytes, size_t bytes_bytes, uint8_t call) {
    struct kurgashel_trace_answer w = kurgashel_trace_write(trace, sizeof trace, length, kind, time, high, low, port, draw, hold, claim, claimed, bytes, bytes_bytes);
    expect(w.refusal == 0, "each event fits its fields");
    length = w.at;
    memcpy(after[events].state, state, sizeof state);
    after[events].kind = kind, after[events].call = call, after[events].end = length;
    events++;
}

static void record_claims(uint64_t last) {
    for (uint8_t claim = 0; claim < 2; claim++)
        record(KURGASHEL_TRACE_CLAIM, last, 0, 0, 0, 0, 0, claim, kurgashel_claim(state, sizeof state, claim), NULL, 0, 0);
}

static void tick(uint64_t now) {
    record(KURGASHEL_TRACE_TICK, now, 0, 0, 0, 0, 0, 0, 0, NULL, 0, kurgashel_tick(state, sizeof state, now, out, sizeof out).refusal);
}

static void receive(uint64_t now, uint64_t draw) {
    uint8_t call = kurgashel_receive(state, sizeof state, now, source, sizeof source, KURGASHEL_PORT, draw, 450, question, sizeof question - 1, out, sizeof out,
        unicast, sizeof unicast).refusal;
    record(KURGASHEL_TRACE_PACKET, now, 0xfe80000000000000, 0x0102030405060708, KURGASHEL_PORT, draw, 450, 0, 0, question, sizeof question - 1, call);
}

static void update_port(uint64_t now, uint16_t port) {
    uint8_t call = kurgashel_update_port(state, sizeof state, now, port, out, sizeof out).refusal;
    record(KURGASHEL_TRACE_PORT, now, 0, 0, port, 0, 0, 0, 0, NULL, 0, call);
}

static void update_txt(uint64_t now, const uint8_t *txt, size_t txt_bytes) {
    uint8_t call = kurgashel_update_txt(state, sizeof state, now, txt, txt_bytes, out, sizeof out).refusal;
    record(KURGASHEL_TRACE_TXT, now, 0, 0, 0, 0, 0, 0, 0, txt, txt_bytes, call);
}

static void stop(uint64_t now) {
    record(KURGASHEL_TRACE_STOP, now, 0, 0, 0, 0, 0, 0, 0, NULL, 0, kurgashel_stop(state, sizeof state, now, out, sizeof out).refusal);
}

static void begin(void) { expect(kurgashel_start(state, sizeof state, (const uint8_t *)&setup, sizeof setup, 0, 120).refusal == 0, "a start"); }

// Calls of every kind, each taken and refused.
static void run(void) {
    static uint8_t too_long[400 + 1];
    for (struct kurgashel_due due; (due = kurgashel_due(state, sizeof state)).due;) {
        tick(due.time);
        record_claims(due.time);
    }
    expect(kurgashel_claim(state, sizeof state, KURGASHEL_HOST) == KURGASHEL_HELD, "the names are held");
    tick(0);
    receive(10000, 20);
    receive(10000, 19);
    update_port(11000, 65535);
    update_port(11001, 4002);
    update_txt(17500, (const uint8_t *)"\x06room=4", 7);
    update_txt(30000, too_long, sizeof too_long);
    record_claims(17500);
    stop(31000);
    record_claims(31000);
    stop(30999);
}

// Plays what was recorded from the same start.
static void play(void) {
    size_t at = 0;
    for (size_t n = 0; n < events; n++) {
        struct kurgashel_played p = kurgashel_play(state, sizeof state, trace, length, at);
        int is_claim = after[n].kind == KURGASHEL_TRACE_CLAIM;
        expect(p.refusal == 0 && p.turn == (is_claim ? KURGASHEL_PLAYED_CLAIM : KURGASHEL_PLAYED_CALL) && p.at == after[n].end, "a call or a claim, and the offset behind it");
        expect(p.call == after[n].call, "a call is answered as it was");
        expect(p.agrees == is_claim, "each claim agrees");
        expect(!memcmp(state, after[n].state, sizeof state), "the state's bytes are those that the call left");
        at = p.at;
    }
    struct kurgashel_played end = kurgashel_play(state, sizeof state, trace, length, at);
    expect(end.refusal == 0 && end.turn == KURGASHEL_PLAYED_END && end.at == length && at == length, "then the end");
}

static void compare(uint64_t last, uint64_t claim, uint64_t claimed, int agrees, const char *what) {
    uint8_t one[16], kept[KURGASHEL_STATE_BYTES];
    memcpy(kept, state, sizeof state);
    struct kurgashel_trace_answer w = kurgashel_trace_write(one, sizeof one, 0, KURGASHEL_TRACE_CLAIM, last, 0, 0, 0, 0, 0, claim, claimed, NULL, 0);
    struct kurgashel_played p = kurgashel_play(state, sizeof state, one, w.at, 0);
    expect(p.turn == KURGASHEL_PLAYED_CLAIM && p.last == last && p.claim == claim && p.state == claimed && p.call == 0, "what was recorded of a claim");
    expect(p.agrees == agrees, what);
    expect(!memcmp(state, kept, sizeof state), "a claim changes nothing");
}

static void differ(void) {
    compare(31000, KURGASHEL_INSTANCE, KURGASHEL_LOST, 1, "the same time and state agree");
    compare(30999, KURGASHEL_INSTANCE, KURGASHEL_LOST, 0, "another time does not");
    compare(31000, KURGASHEL_INSTANCE, KURGASHEL_HELD, 0, "another state does not");
    begin();
    compare(0, KURGASHEL_HOST, KURGASHEL_WAITING, 1, "of the host's claim");
    compare(0, KURGASHEL_HOST, KURGASHEL_DEFERRED, 0, "of the host's claim");
}

static int is_refused(struct kurgashel_played p, uint8_t refusal, size_t at) {
    return p.refusal == refusal && p.at == at && p.turn == KURGASHEL_PLAYED_END && p.call == 0 && !p.agrees && p.last == 0 && p.claim == 0 && p.state == 0;
}

static void refuse(void) {
    static uint8_t longer[KURGASHEL_STATE_BYTES + 1];
    uint8_t kept[KURGASHEL_STATE_BYTES];
    begin();
    memcpy(kept, state, sizeof state);
    expect(is_refused(kurgashel_play(state, sizeof state, (const uint8_t *)"\x01\0\0\0\0\0\0\0", 8, 0), KURGASHEL_TRACE, 0), "a record that is cut: 12, and its offset");
    expect(is_refused(kurgashel_play(state, sizeof state, trace, length, 1), KURGASHEL_TRACE, 1), "no event stands there");
    expect(is_refused(kurgashel_play(state, sizeof state - 1, trace, length, 0), KURGASHEL_SETUP, 0), "a byte too few: 7");
    expect(!memcmp(state, kept, sizeof state), "nothing is changed");
    memcpy(longer, state, sizeof state);
    expect(is_refused(kurgashel_play(longer, sizeof longer, trace, length, 0), KURGASHEL_SETUP, 0), "a byte too many: 7");
    expect(is_refused(kurgashel_play(NULL, 0, trace, length, 3), KURGASHEL_SETUP, 3), "no bytes at all: 7");
    expect(!memcmp(longer, kept, sizeof kept) && longer[sizeof kept] == 0, "nothing is changed");
    // bytes that are no responder's: every call is refused as 7, and they stay
    memset(state, 0xff, sizeof state);
    memset(kept, 0xff, sizeof kept);
    for (size_t at = 0; at < length;) {
        struct kurgashel_played p = kurgashel_play(state, sizeof state, trace, length, at);
        expect(p.turn != KURGASHEL_PLAYED_CALL || p.call != 0, "a call on such bytes is refused");
        at = p.at > at ? p.at : length;
    }
    expect(!memcmp(state, kept, sizeof state), "and changes nothing");
}

int main(void) {
    begin();
    run();
    begin();
    play();
    differ();
    refuse();
    printf("the player from C: %zu events, %d cases, %d failed\n", events, cases, failed);
    return failed != 0;
}
