// What a lookup costs with a full cache: 64 live entries of 200-byte names, asked for by a type and a length that none has, and by a name of their length
// and type that differs from each in a middle letter; the same of 512. And what taking an announcement costs among live entries of another name, of which
// the last is its own. Run by tests/cache.sh bench.
#include "kurgashel.h"
#include <stdio.h>
#include <string.h>
#include <time.h>
static struct kurgashel_entry e[KURGASHEL_MOST_ENTRIES];
static uint8_t st[KURGASHEL_SLOT_BYTES * KURGASHEL_MOST_ENTRIES], name[200], shorter[100];
static double now(void) { struct timespec s; clock_gettime(CLOCK_MONOTONIC, &s); return s.tv_sec + s.tv_nsec / 1e9; }
static void fill(uint8_t *b, size_t len, char c) { for (size_t at = 0; at < len - 1;) { size_t k = len - 1 - at - 1 > 63 ? 49 : len - 1 - at - 1; b[at] = k; memset(b + at + 1, 'a', k); at += k + 1; } b[len - 1] = 0; b[len / 2 + 7] = c; }
static volatile unsigned sink;
static double ask(size_t n, uint8_t *nm, size_t len, uint16_t type, int rounds) {
    double best = 1e9;
    for (int k = 0; k < 5; k++) {
        double a = now();
        for (int i = 0; i < rounds; i++) sink += kurgashel_cache_look_up(e, n, st, 1024 * n, 1000, nm, len, type, 0).refusal;
        double t = (now() - a) / rounds; if (t < best) best = t;
    }
    return best * 1e6;
}
static double take(size_t n) {
    static const uint8_t m[] = { 0, 0, 0x84, 0, 0, 0, 0, 1, 0, 0, 0, 0, 4, 'd', 'o', 'c', 'k', 5, 'l', 'o', 'c', 'a', 'l', 0, 0, 1, 0x80, 1, 0, 0, 0, 0x78, 0, 4, 10, 0, 0, 7 };
    double best = 1e9; uint64_t time = 2;
    memset(st, 0, sizeof st);
    for (size_t i = 0; i < n; i++) { memcpy(st + 1024 * i, "\5booth\5local", 12); st[1024 * i + 256] = 10; e[i] = (struct kurgashel_entry){ 1, 13, 4, 1, 1ull << 50, 120 }; }
    memcpy(st + 1024 * (n - 1), m + 12, 12); memcpy(st + 1024 * (n - 1) + 256, m + 34, 4); e[n - 1].owner = 12;
    for (int k = 0; k < 9; k++) {
        double a = now();
        for (int i = 0; i < 2000; i++) sink += kurgashel_cache_take(e, n, st, 1024 * n, time++, 5353, m, sizeof m).refusal;
        double t = (now() - a) / 2000; if (t < best) best = t;
    }
    return best * 1e6;
}
int main(void) {
    fill(name, 200, 'b'); fill(shorter, 100, 'b');
    for (size_t n = 64; n <= KURGASHEL_MOST_ENTRIES; n *= 8) {
        for (size_t i = 0; i < n; i++) { fill(st + 1024 * i, 200, 'c'); e[i] = (struct kurgashel_entry){ 1, 200, 4, 1, 1000000, 120 }; }
        double none = ask(n, shorter, 100, 28, 20000), all = ask(n, name, 200, 1, 2000);
        printf("%zu entries: lookup, none has the type and length %.3f us; all have both, a middle letter differs %.3f us; ratio %.3f\n", n, none, all, none / all);
    }
    for (size_t n = 64; n <= KURGASHEL_MOST_ENTRIES; n *= 2) printf("%zu live entries: take of a 38-byte announcement %.3f us\n", n, take(n));
    if (sink) { puts("refused"); return 1; }
    return 0;
}
