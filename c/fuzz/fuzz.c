// What a fuzzer calls: an input is a script of the console's lines, each is answered by the exported functions and by the reference program, and the answers
// have to be the same. A script that shows a difference can be handed to both consoles as it is, but for lines `play TRACE`, which the players answer. Built by
// tests/fuzz.sh.
#include "exported.h"
#include "reference.h"
#include <inttypes.h>
#include <stdio.h>
#include <stdlib.h>
#include <string.h>

enum { SHOWN = 400, SLOTS = 8 };
static const char BAD[] = "bad line";

// How many lines of each kind were compared, and how many of them were not refused; told at the end, so that a run of refusals alone would show.
static const char *const kinds[] = { "start", "recv", "tick", "stop", "update", "claims", "holds", "out", "unicast", "put", "look", "slot", "clear", "table", "browse",
    "ask", "list", "proxy", "question", "answer", "cached", "txt", "read", "trace", "record", "play" };
enum { KINDS = sizeof kinds / sizeof *kinds, PUT = 9 };
static unsigned long long compared[KINDS], accepted[KINDS];

static void tell(void) {
    for (size_t i = 0; i < KINDS; i++) fprintf(stderr, "compared %s %llu accepted %llu\n", kinds[i], compared[i], accepted[i]);
}

static void count(const char *line, size_t bytes, const char *answer) {
    for (size_t i = 0; i < KINDS; i++)
        if (bytes >= strlen(kinds[i]) && !memcmp(line, kinds[i], strlen(kinds[i]))) {
            compared[i]++, accepted[i] += answer[0] != 'r' || answer[1] != 'e' || answer[2] != 'f';
            return;
        }
}

static void fail(const char *what, const char *line, size_t bytes) {
    fprintf(stderr, "DIFFERENCE: %s\n  line:      %.*s\n", what, (int)(bytes < SHOWN ? bytes : SHOWN), line);
    abort();
}

static void show(const char *who, const char *answer, size_t bytes) { fprintf(stderr, "  %s %.*s\n", who, (int)(bytes < SHOWN ? bytes : SHOWN), answer); }

// Both responders know the same. Before the first start ours has no names.
static void compare_states(struct reference *reference, const char *line, size_t bytes) {
    if (!exported_is_started()) return;
    size_t expected_bytes, given_bytes;
    const char *expected = reference_state(reference, &expected_bytes), *given = exported_state(&given_bytes);
    if (given_bytes == expected_bytes && !memcmp(given, expected, given_bytes)) return;
    show("reference:", expected, expected_bytes);
    show("exported: ", given, given_bytes);
    fail("another state", line, bytes);
}

// Both answer one line. Lines that are not of their form, and those that no exported function can be handed, are passed over.
static void compare(struct reference *reference, const char *line, size_t bytes) {
    if (!exported_can(line, bytes)) return;
    size_t expected_bytes, given_bytes;
    const char *expected = reference_answer(reference, line, bytes, &expected_bytes);
    if (!expected || (expected_bytes == sizeof BAD - 1 && !memcmp(expected, BAD, expected_bytes))) return;
    const char *given = exported_answer(line, bytes, &given_bytes);
    if (given_bytes != expected_bytes || memcmp(given, expected, given_bytes)) {
        show("reference:", expected, expected_bytes);
        show("exported: ", given, given_bytes);
        fail("another answer", line, bytes);
    }
    count(line, bytes, given);
    if (exported_wrong()) fail(exported_wrong(), line, bytes);
    uint64_t due, expected_due;
    bool is_due = exported_due(&due);
    if (is_due != reference_due(reference, &expected_due) || due != expected_due) {
        fprintf(stderr, "  due %" PRIu64 ", by the reference program %" PRIu64 "\n", due, expected_due);
        fail("another due time", line, bytes);
    }
    if (bytes > 4 && !memcmp(line, "play", 4)) compare_states(reference, line, bytes);
}

static void compare_text(struct reference *reference, const char *line) { compare(reference, line, strlen(line)); }

// What no answer of the script may have shown: all that the responder knows, all bytes of the out buffers, and the first slots where something was put there.
static void compare_rest(struct reference *reference, bool is_put) {
    char line[32];
    compare_states(reference, "at the end", 10);
    compare_text(reference, "claims");
    compare_text(reference, "holds");
    compare_text(reference, "out 0 4096");
    compare_text(reference, "unicast 0 4096");
    for (size_t slot = 0; is_put && slot < SLOTS && slot < exported_entries(); slot++) {
        snprintf(line, sizeof line, "slot %zu", slot);
        compare_text(reference, line);
    }
}

int LLVMFuzzerInitialize(int *arguments, char ***values) {
    (void)arguments, (void)values;
    return atexit(tell);
}

int LLVMFuzzerTestOneInput(const uint8_t *data, size_t size) {
    struct reference *reference = reference_new();
    unsigned long long put = accepted[PUT];
    exported_reset();
    // each line in memory of its own size
    for (size_t start = 0; start < size;) {
        const uint8_t *end = memchr(data + start, '\n', size - start);
        size_t bytes = (end ? (size_t)(end - data) : size) - start;
        char *line = memcpy(malloc(bytes + 1), data + start, bytes);
        compare(reference, line, bytes);
        free(line);
        start += bytes + 1;
    }
    compare_rest(reference, accepted[PUT] != put);
    reference_free(reference);
    return 0;
}
