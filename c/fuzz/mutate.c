// How the fuzzer changes a script: mostly within one field of one line, so that the line keeps its form. Bytes in hex are changed as bytes; numbers to neighbours, to
// bounds of the specification and to other numbers of the script; lines are copied, moved and left out; two scripts are joined at lines.
#include <inttypes.h>
#include <stdint.h>
#include <stdio.h>
#include <stdlib.h>
#include <string.h>

size_t LLVMFuzzerMutate(uint8_t *data, size_t size, size_t max_size);

enum { MOST_LINES = 4096, MOST_BYTES = 16384, NUMBER = 20 };

struct part {
    const char *at;
    size_t bytes;
};

static uint64_t seed;
static size_t below(size_t bound) {
    seed ^= seed << 13, seed ^= seed >> 7, seed ^= seed << 17;
    return bound ? seed % bound : 0;
}

static size_t parts_of(struct part whole, char between, struct part *parts, size_t most) {
    size_t count = 0, start = 0;
    for (size_t at = 0; at <= whole.bytes && count < most; at++)
        if (at == whole.bytes || whole.at[at] == between) {
            parts[count++] = (struct part){ whole.at + start, at - start };
            start = at + 1;
        }
    return count;
}

// ---- the new script

static char made[1 << 20];
static size_t made_bytes;

static void put(const char *at, size_t bytes) {
    if (made_bytes + bytes > sizeof made) return;
    memcpy(made + made_bytes, at, bytes);
    made_bytes += bytes;
}
static void put_part(struct part p) { put(p.at, p.bytes); }
static void put_line(struct part p) { put_part(p), put("\n", 1); }

// ---- fields

static int is_number(struct part p) {
    for (size_t i = 0; i < p.bytes; i++) if (p.at[i] < '0' || p.at[i] > '9') return 0;
    return p.bytes && p.bytes <= NUMBER && (p.bytes % 2 || p.bytes < 8);
}

static int hex_digit(char c) { return c >= '0' && c <= '9' ? c - '0' : (c | 32) >= 'a' && (c | 32) <= 'f' ? (c | 32) - 'a' + 10 : -1; }

static int is_bytes(struct part p) {
    if (p.bytes == 1 && *p.at == '-') return 1;
    for (size_t i = 0; i < p.bytes; i++) if (hex_digit(p.at[i]) < 0) return 0;
    return p.bytes && !(p.bytes % 2) && p.bytes <= 2 * MOST_BYTES;
}

static void put_number(uint64_t value) {
    char digits[32];
    put(digits, snprintf(digits, sizeof digits, "%" PRIu64, value));
}

static uint64_t value_of(struct part p) {
    uint64_t value = 0;
    for (size_t i = 0; i < p.bytes; i++) value = 10 * value + (uint64_t)(p.at[i] - '0');
    return value;
}

static void change_number(struct part p) {
    static const uint64_t bounds[] = { 0, 1, 9, 10, 12, 16, 19, 20, 28, 33, 47, 64, 119, 120, 121, 249, 250, 251, 255, 399, 400, 499, 500, 501, 512, 513, 750, 999,
        1000, 1001, 1451, 1452, 1453, 2000, 4096, 5353, 5999, 6000, 30000, 65535, 65536, 120000, 4500000, UINT64_C(1) << 31, UINT64_C(1) << 32,
        UINT64_C(1) << 62, (UINT64_C(1) << 62) + 1, UINT64_MAX };
    uint64_t value = value_of(p), bound = bounds[below(sizeof bounds / sizeof *bounds)];
    switch (below(8)) {
    case 0: put_number(value + 1); break;
    case 1: put_number(value - (value > 0)); break;
    case 2: put_number(bound); break;
    case 3: put_number(value + bound); break;
    case 4: put_number(value > bound ? value - bound : bound - value); break;
    case 5: // by what the code compared it with
    case 6: LLVMFuzzerMutate((uint8_t *)&value, value <= UINT16_MAX ? 2 : sizeof value, value <= UINT16_MAX ? 2 : sizeof value), put_number(value); break;
    default: put_number(value + below(2000));
    }
}

static void put_bytes(const uint8_t *bytes, size_t count) {
    if (!count) put("-", 1);
    for (size_t i = 0; i < count; i++) put(&"0123456789abcdef"[bytes[i] >> 4], 1), put(&"0123456789abcdef"[bytes[i] & 15], 1);
}

static void change_bytes(struct part p) {
    static uint8_t bytes[MOST_BYTES];
    size_t count = *p.at == '-' ? 0 : p.bytes / 2;
    for (size_t i = 0; i < count; i++) bytes[i] = hex_digit(p.at[2 * i]) << 4 | hex_digit(p.at[2 * i + 1]);
    put_bytes(bytes, LLVMFuzzerMutate(bytes, count, count + 64 < MOST_BYTES ? count + 64 : MOST_BYTES));
}

// A field of another line of the same kind of form.
static struct part another(struct part *lines, size_t count, int (*has_form)(struct part)) {
    static struct part fields[MOST_LINES];
    for (int tries = 0; tries < 8; tries++) {
        size_t found = parts_of(lines[below(count)], ' ', fields, MOST_LINES);
        struct part p = fields[below(found)];
        if (has_form(p)) return p;
    }
    return (struct part){ "0", 1 };
}

static void change_field(struct part p, struct part *lines, size_t count) {
    int number = is_number(p), bytes = is_bytes(p);
    if (!number && !bytes) put_part(p);
    else if (!below(6)) put_part(another(lines, count, number ? is_number : is_bytes));
    else if (number) change_number(p);
    else change_bytes(p);
}

// ---- lines

static void put_changed(struct part line, struct part *lines, size_t count) {
    static struct part fields[MOST_LINES];
    size_t found = parts_of(line, ' ', fields, MOST_LINES), chosen = 1 + below(found > 1 ? found - 1 : 1);
    for (size_t i = 0; i < found; i++) {
        if (i) put(" ", 1);
        if (i == chosen) change_field(fields[i], lines, count);
        else put_part(fields[i]);
    }
    put("\n", 1);
}

static void change_lines(struct part *lines, size_t count) {
    size_t chosen = below(count), other = below(count), what = below(10);
    for (size_t i = 0; i < count; i++) {
        if (i != chosen) { put_line(lines[i]); continue; }
        switch (what) {
        case 0: break; // left out
        case 1: put_line(lines[i]), put_line(lines[other]); break;
        case 2: put_line(lines[other]); break;
        case 3: put_line(lines[i]), put_changed(lines[i], lines, count); break;
        default: put_changed(lines[i], lines, count);
        }
    }
}

static size_t give(uint8_t *data, size_t max_size) {
    size_t bytes = made_bytes < max_size ? made_bytes : max_size;
    memcpy(data, made, bytes);
    return bytes;
}

// Without the LF of the last line.
static struct part script(const uint8_t *data, size_t size) { return (struct part){ (const char *)data, size && data[size - 1] == '\n' ? size - 1 : size }; }

size_t LLVMFuzzerCustomMutator(uint8_t *data, size_t size, size_t max_size, unsigned int random) {
    static struct part lines[MOST_LINES];
    seed = random * UINT64_C(0x9E3779B97F4A7C15) | 1;
    if (!size || !below(20)) return LLVMFuzzerMutate(data, size, max_size);
    for (size_t rounds = 1 + below(3); rounds--;) {
        size_t count = parts_of(script(data, size), '\n', lines, MOST_LINES);
        made_bytes = 0;
        change_lines(lines, count);
        size = give(data, max_size);
    }
    return size;
}

size_t LLVMFuzzerCustomCrossOver(const uint8_t *one, size_t one_size, const uint8_t *other, size_t other_size, uint8_t *out, size_t max_size, unsigned int random) {
    static struct part first[MOST_LINES], second[MOST_LINES];
    seed = random * UINT64_C(0x9E3779B97F4A7C15) | 1;
    size_t one_lines = parts_of(script(one, one_size), '\n', first, MOST_LINES), other_lines = parts_of(script(other, other_size), '\n', second, MOST_LINES);
    made_bytes = 0;
    for (size_t i = 0, until = below(one_lines + 1); i < until; i++) put_line(first[i]);
    for (size_t i = below(other_lines); i < other_lines; i++) put_line(second[i]);
    return give(out, max_size);
}
