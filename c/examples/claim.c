// A responder claims its names on an empty link, and then a browser asks, in simulated time. Built and run by tests/capi.sh and tests/install.sh.
#include "kurgashel.h"
#include <stdio.h>

static uint8_t state[KURGASHEL_STATE_BYTES], out[KURGASHEL_OUT_BYTES], unicast[KURGASHEL_OUT_BYTES];

// Takes the steps to come, each when it is due, until none is; the last refusal or 0.
static uint8_t take_steps(uint64_t *now) {
    struct kurgashel_due next;
    while ((next = kurgashel_due(state, sizeof state)).due) {
        *now = next.time > *now ? next.time : *now; // where a caller waits, or takes a packet
        struct kurgashel_answer answer = kurgashel_tick(state, sizeof state, *now, out, sizeof out);
        if (answer.refusal)
            return answer.refusal;
        if (answer.length) {
            printf("%4d ms: %s of %zu bytes; instance %d, host %d\n", (int)*now, out[2] ? "response" : "probe", answer.length,
                kurgashel_claim(state, sizeof state, KURGASHEL_INSTANCE), kurgashel_claim(state, sizeof state, KURGASHEL_HOST));
        }
    }
    return 0;
}

int main(void) {
    struct kurgashel_setup setup = { .instance = "booth", .instance_length = 5, .service = "_voice", .service_length = 6, .protocol = "_tcp", .host = "dock",
        .host_length = 4, .domain = "local", .port = { 4000 >> 8, 4000 & 255 }, .txt = "\6room=3", .txt_length = { 0, 7 }, .a = { 10, 0, 0, 7 } };
    uint64_t now = 0;
    uint8_t refusal = kurgashel_start(state, sizeof state, (const uint8_t *)&setup, sizeof setup, now, 120).refusal;
    if (refusal || (refusal = take_steps(&now)))
        return refusal;

    // A browser asks for the host's address. TC says that known answers follow, so the query is held; none come, and so it is answered when it is due.
    static const uint8_t browser[4] = { 10, 0, 0, 9 };
    static const uint8_t query[28] = "\0\0\2\0\0\1\0\0\0\0\0\0\4dock\5local\0\0\1\0\1";
    now += 1000;
    struct kurgashel_answer answer = kurgashel_receive(state, sizeof state, now, browser, sizeof browser, KURGASHEL_PORT, 20, 400, query, sizeof query, out,
        sizeof out, unicast, sizeof unicast);
    printf("%4d ms: a query with TC; %zu bytes go out at once\n", (int)now, answer.length);
    return answer.refusal ? answer.refusal : take_steps(&now);
}
