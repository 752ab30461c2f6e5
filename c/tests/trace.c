// Traces from C, over the static library: the worked example of docs/TRACE.md, whose bytes are the reference program's, read and written again; every beginning of
// it; and refusals. Says what fails, and the count. Run by tests/capi.sh.
#include "kurgashel.h"
#include <stdio.h>
#include <string.h>

static const uint8_t example[] =
    "\x01\0\0\0\0\0\0\x13\x88"
    "\x04\0\0\0\0\0\0\x13\x88\x01\x03"
    "\x02\0\0\0\0\0\0\x13\xec\x14\xe9\x14\0\x0c"
    "\x03\0\0\0\0\0\0\0\0\0\0\0\0\0\0\0\0"
    "\x05\0\0\0\0\0\0\0\0\0\0\xff\xff\xc0\0\x02\x07\x01\xc2"
    "\x02\0\0\0\0\0\0\x14\x50\x14\xe9\x14\0\x17"
    "\x03\0\0\0\0\0\1\0\0\0\0\0\0\x05loc"
    "\x03" "al\0\0\1\0\1\0\0\0\0\0\0\0\0\0"
    "\x07\0\0\0\0\0\0\x17\x70\x1f\x90"
    "\x08\0\0\0\0\0\0\x32\xc8\0\x06"
    "\x03\x05" "a=123\0\0\0\0\0\0\0\0\0\0"
    "\x06\0\0\0\0\0\0\x4e\x20";
#define BYTES (sizeof example - 1)
_Static_assert(BYTES == 166, "the example's length");

static int failed, cases;
static void expect(int ok, const char *what) { cases++; if (!ok) { failed++; printf("FAILED: %s\n", what); } }

static struct kurgashel_trace_answer write_again(uint8_t *out, size_t room, size_t at, struct kurgashel_trace_event e, const uint8_t *bytes) {
    return kurgashel_trace_write(out, room, at, e.kind, e.time, e.high, e.low, e.port, e.draw, e.hold, e.claim, e.state, bytes, e.length);
}

int main(void) {
    static const uint8_t kinds[] = { 1, 4, 2, 2, 7, 8, 6 };
    static const size_t starts[] = { 0, 9, 20, 51, 118, 129, 157, BYTES };
    uint8_t out[256], bytes[64];
    size_t at = 0, written = 0;
    memset(out, 0xee, sizeof out);
    for (size_t n = 0; n < sizeof kinds; n++) {
        struct kurgashel_trace_event e = kurgashel_trace_next(example, BYTES, at);
        expect(e.refusal == 0 && e.kind == kinds[n] && e.at == starts[n + 1], "an event, its kind and the offset behind it");
        expect(kurgashel_trace_bytes(example, BYTES, at, bytes, sizeof bytes) == e.length, "as many bytes as it brings");
        struct kurgashel_trace_answer w = write_again(out, sizeof out, written, e, bytes);
        expect(w.refusal == 0 && w.at == e.at, "it is written where it stood");
        at = e.at, written = w.at;
    }
    expect(kurgashel_trace_next(example, BYTES, at).kind == KURGASHEL_TRACE_END, "then the end");
    expect(!memcmp(out, example, BYTES) && out[BYTES] == 0xee, "the trace of its events, and no byte behind it");

    struct kurgashel_trace_event packet = kurgashel_trace_next(example, BYTES, 51);
    expect(packet.time == 5200 && packet.low == 0xffffc0000207 && packet.high == 0 && packet.hold == 450 && packet.draw == 20 && packet.length == 23, "a packet's numbers");
    expect(kurgashel_trace_bytes(example, BYTES, 51, bytes, 4) == 23, "a small buffer takes what fits");
    struct kurgashel_trace_event claim = kurgashel_trace_next(example, BYTES, 9);
    expect(claim.time == 5000 && claim.claim == 1 && claim.state == 3, "a claim's numbers");

    struct kurgashel_trace_answer whole = kurgashel_trace_check(example, BYTES);
    expect(whole.refusal == 0 && whole.at == BYTES, "the whole trace is read");
    for (size_t length = 0; length < BYTES; length++) {
        struct kurgashel_trace_answer torn = kurgashel_trace_check(example, length);
        int ends = 0;
        for (size_t n = 0; n < sizeof starts / sizeof *starts; n++) ends |= starts[n] == length;
        expect(ends ? torn.refusal == 0 : torn.refusal == KURGASHEL_TRACE && torn.at <= length, "a beginning is read where it ends with an event");
    }
    expect(kurgashel_trace_check(example, BYTES - 1).at == 157, "the offset of the record that is cut");

    memset(out, 0xee, sizeof out);
    packet.hold = 65536;
    struct kurgashel_trace_answer w = write_again(out, sizeof out, 5, packet, bytes);
    expect(w.refusal == KURGASHEL_TRACE && w.at == 5, "a hold draw that its field cannot hold: 12, at the record of the source");
    packet.hold = 450, packet.draw = 256;
    w = write_again(out, sizeof out, 5, packet, bytes);
    expect(w.refusal == KURGASHEL_TRACE && w.at == 24, "a draw: 12, at the record behind it");
    packet.draw = 20;
    expect(write_again(out, 66, 0, packet, bytes).refusal == KURGASHEL_BUFFER, "a byte too few: 3");
    claim.state = 5;
    expect(write_again(out, sizeof out, 0, claim, bytes).refusal == KURGASHEL_TRACE, "no such state: 12");
    for (size_t n = 0; n < sizeof out; n++) if (out[n] != 0xee) { expect(0, "a refusal writes nothing"); break; }
    printf("traces from C: %d cases, %d failed\n", cases, failed);
    return failed != 0;
}
