// The exported readers of rdata from C, over the reader's archive alone: an announcement by hand, its SRV, TXT, A and AAAA, an NSEC, and parts that are none of
// them. Says what fails, and the count. Run by tests/capi.sh.
#include "kurgashel.h"
#include <stdio.h>
#include <string.h>

static int failed, cases;
static void expect(int ok, const char *what) { cases++; if (!ok) { failed++; printf("FAILED: %s\n", what); } }

// the owner at 12, "local" in it at 30; SRV rdata at 47, its target at 53; TXT rdata at 72; A rdata at 100; AAAA rdata at 116
static const uint8_t message[] = "\0\0\x84\0\0\0\0\4\0\0\0\0"
    "\5booth\6_voice\4_tcp\5local\0" "\0\x21\x80\1\0\0\0\x78\0\x0d" "\0\1\0\2\x0f\xa0" "\4dock\xc0\x1e"
    "\xc0\x0c" "\0\x10\x80\1\0\0\x11\x94\0\x10" "\6room=3\0\7passreq"
    "\xc0\x35" "\0\1\x80\1\0\0\0\x78\0\4" "\n\0\0\7"
    "\xc0\x35" "\0\x1c\x80\1\0\0\0\x78\0\x10" "\xfe\x80\0\0\0\0\0\0\0\0\0\0\0\0\0\7";
enum { BYTES = sizeof message - 1, A = 1, TXT = 16, AAAA = 28, SRV = 33 };

static int none(struct kurgashel_srv s) {
    return !s.found && !s.priority && !s.weight && !s.port && !s.target && !s.target_length && !s.target_labels && !s.target_first_label;
}
static struct kurgashel_srv srv(size_t at, size_t length) { return kurgashel_srv(message, BYTES, at, length); }

// whether so many bytes of the message have no record whose owner ends at an offset
static int lacks(size_t end, size_t count) {
    struct kurgashel_fields f = kurgashel_fields(message, count, end);
    return !f.found && !f.rtype && !f.class_ && !f.ttl && !f.rdata && !f.rdata_length && !f.next;
}

static void walk(void) {
    static const struct { uint16_t rtype; size_t at, rdata, length, next; } records[] = { { SRV, 12, 47, 13, 60 }, { TXT, 60, 72, 16, 88 }, { A, 88, 100, 4, 104 }, { AAAA, 104, 116, 16, 132 } };
    expect(BYTES == 132 && !kurgashel_message(message, BYTES).refusal && kurgashel_message(message, BYTES).end == 132, "the announcement is well formed");
    static const size_t labels[] = { 4, 4, 2, 2 }, first[] = { 5, 5, 4, 4 };
    for (size_t i = 0; i < 4; i++) {
        struct kurgashel_record r = kurgashel_record(message, BYTES, records[i].at);
        expect(r.owner_labels == labels[i] && r.owner_first_label == first[i], "the labels of an owner, also behind a pointer");
        expect(r.found && r.rtype == records[i].rtype && r.rdata == records[i].rdata && r.rdata_length == records[i].length && r.next == records[i].next, "a record");
        struct kurgashel_fields f = kurgashel_fields(message, BYTES, kurgashel_name_end(message, BYTES, records[i].at));
        expect(f.found && f.rtype == r.rtype && f.class_ == 0x8001 && f.ttl == r.ttl && f.rdata == r.rdata && f.rdata_length == r.rdata_length && f.next == r.next, "the same behind its owner");
    }
    expect(kurgashel_fields(message, BYTES, 106).ttl == 120 && lacks(106, BYTES - 1), "a record that is cut in its rdata");
    expect(lacks(106, 116 - 1) && lacks(106, 106) && lacks(107, 106) && lacks(SIZE_MAX, BYTES) && !kurgashel_fields(NULL, 0, 0).found, "and before that");
}

static void services(void) {
    struct kurgashel_srv s = srv(47, 13);
    expect(s.found && s.priority == 1 && s.weight == 2 && s.port == 4000 && s.target == 53 && s.target_length == 12, "the SRV");
    expect(s.target_labels == 2 && s.target_first_label == 4, "the labels of its target");
    struct kurgashel_name name = kurgashel_name(message, BYTES, s.target);
    expect(name.length == 12 && !memcmp(name.bytes, "\4dock\5local", 12), "its target, uncompressed");
    expect(none(srv(47, 12)) && none(srv(47, 14)) && none(srv(48, 12)), "the target has to end where the part does");
    expect(none(srv(47, 6)) && none(srv(47, 5)) && none(srv(47, 0)), "no target, and no numbers");
    expect(none(srv(100, 4)) && none(srv(72, 16)), "an address and strings are no SRV");
    expect(none(srv(47, 1000)) && none(srv(47, SIZE_MAX)) && none(srv(SIZE_MAX, 13)) && none(srv(133, 0)), "a part past the message");
    expect(none(kurgashel_srv(message, 59, 47, 13)) && none(kurgashel_srv(NULL, 0, 0, 0)), "a message that is cut, and none");
    static const uint8_t cached[18] = "\xff\xff\0\0\1\2\4dock\5local";
    s = kurgashel_srv(cached, 18, 0, 18);
    expect(s.found && s.priority == 65535 && !s.weight && s.port == 258 && s.target == 6 && s.target_length == 12, "uncompressed rdata, as in the cache");
}

static int named(const void *bytes, size_t count, size_t at, size_t length, size_t labels, size_t first) {
    struct kurgashel_name n = kurgashel_name(bytes, count, at);
    return n.length == length && n.labels == labels && n.first_label == first;
}

// whether a name is written into `room` bytes as kurgashel_name has it, and the others stay; or, where it does not fit, nothing is written
static int written(const void *bytes, size_t count, size_t at, size_t room) {
    struct kurgashel_name n = kurgashel_name(bytes, count, at);
    uint8_t out[300];
    memset(out, 0xa5, sizeof out);
    struct kurgashel_name_span s = kurgashel_name_into(bytes, count, at, out, room);
    size_t length = n.length <= room ? n.length : 0;
    for (size_t i = length; i < sizeof out; i++)
        if (out[i] != 0xa5) return 0;
    if (!length) return !s.end && !s.length && !s.labels && !s.first_label;
    return s.end == kurgashel_name_end(bytes, count, at) && s.length == length && s.labels == n.labels && s.first_label == n.first_label && !memcmp(out, n.bytes, length);
}

static void into(void) {
    // "local" at 12, "_tcp" before a pointer to it at 19, "_voice" before one to that at 26, "booth" before one to that at 35; pointers to these at 43, 45, 47 and 49, and to the last at 51
    static const uint8_t packet[] = "\0\0\0\0\0\0\0\0\0\0\0\0" "\5local\0" "\4_tcp\xc0\x0c" "\6_voice\xc0\x13" "\5booth\xc0\x1a" "\xc0\x0c\xc0\x13\xc0\x1a\xc0\x23\xc0\x31";
    enum { PACKET = sizeof packet - 1 };
    static const size_t lengths[] = { 7, 12, 19, 25, 7, 12, 19, 25, 25 }, places[] = { 12, 19, 26, 35, 43, 45, 47, 49, 51 };
    for (size_t i = 0; i < 9; i++) {
        uint8_t out[255];
        expect(kurgashel_name_into(packet, PACKET, places[i], out, sizeof out).length == lengths[i], "a name of one run of labels to four");
        expect(written(packet, PACKET, places[i], 255) && written(packet, PACKET, places[i], lengths[i]), "it is written, and no byte more");
        expect(written(packet, PACKET, places[i], lengths[i] - 1) && written(packet, PACKET, places[i], 0), "no byte of it where it does not fit");
    }
    for (size_t at = 0; at <= PACKET; at++)
        expect(written(packet, PACKET, at, 255) && written(packet, at, 12, 255) && written(packet, at, 35, 255), "whatever stands there, and a message that is cut");
    uint8_t out[1] = { 7 };
    expect(!kurgashel_name_into(NULL, 0, 0, out, 1).end && out[0] == 7 && !kurgashel_name_into(packet, PACKET, 12, NULL, 0).end, "no message, and no room");
    expect(kurgashel_name_into(packet, PACKET, 18, out, 1).length == 1 && !out[0], "the root");
}

static void names(void) {
    // the root at 12, "ab.c" at 13, a pointer into its middle at 18, a label before a pointer to that pointer at 20
    static const uint8_t packet[] = "\0\0\0\0\0\0\0\0\0\0\0\0" "\0" "\2ab\1c\0" "\xc0\x10" "\3def\xc0\x13";
    enum { PACKET = sizeof packet - 1 };
    expect(named(packet, PACKET, 12, 1, 0, 0), "the root has no label");
    expect(named(packet, PACKET, 13, 6, 2, 2) && named(packet, PACKET, 16, 3, 1, 1), "two labels, and the second alone");
    expect(named(packet, PACKET, 19, 3, 1, 1), "a name that begins with a pointer");
    expect(named(packet, PACKET, 21, 7, 2, 3), "a label before two pointers");
    expect(named(packet, PACKET, 22, 0, 0, 0) && named(packet, PACKET, 99, 0, 0, 0) && named(NULL, 0, 0, 0, 0, 0), "no name has no number");
    uint8_t most[256] = { 0 };
    for (size_t i = 0; i < 127; i++)
        most[2 * i] = 1, most[2 * i + 1] = 'a';
    expect(named(most, 255, 0, 255, 127, 1), "127 labels, as many as there can be");
    static const uint8_t query[] = "\0\0\0\0\0\1\0\0\0\0\0\0" "\5booth\5local\0" "\0\xff\0\1";
    struct kurgashel_question q = kurgashel_question(query, sizeof query - 1, 12);
    expect(q.found && q.name_length == 13 && q.name_labels == 2 && q.name_first_label == 5, "the labels of a question's name");
    q = kurgashel_question(query, sizeof query - 2, 12);
    expect(!q.found && !q.name_labels && !q.name_first_label, "a question that is cut");
}

static int address(uint16_t rtype, size_t at, size_t length, const char *bytes, size_t count) {
    struct kurgashel_address a = kurgashel_address(message, BYTES, rtype, at, length);
    static const uint8_t zeros[16];
    return a.length == count && !memcmp(a.bytes, bytes, count) && !memcmp(a.bytes + count, zeros, 16 - count);
}

static void addresses(void) {
    expect(address(A, 100, 4, "\n\0\0\7", 4), "the A's address, zeros behind it");
    expect(address(AAAA, 116, 16, "\xfe\x80\0\0\0\0\0\0\0\0\0\0\0\0\0\7", 16), "the AAAA's");
    expect(address(AAAA, 100, 4, "", 0) && address(A, 116, 16, "", 0), "4 bytes are no AAAA, and 16 no A");
    expect(address(A, 100, 3, "", 0) && address(A, 100, 5, "", 0) && address(AAAA, 116, 15, "", 0), "a byte less or more");
    expect(address(TXT, 72, 16, "", 0) && address(SRV, 100, 4, "", 0) && address(255, 100, 0, "", 0), "other types have none");
    expect(address(A, 130, 4, "", 0) && address(A, SIZE_MAX, 4, "", 0) && address(A, 100, SIZE_MAX, "", 0), "a part past the message");
    expect(!kurgashel_address(NULL, 0, A, 0, 0).length, "no message");
}

static int string(size_t at, uint8_t refusal, bool found, size_t text, size_t length, size_t next) {
    struct kurgashel_txt_string s = kurgashel_txt_string(message + 72, 16, at);
    return s.refusal == refusal && s.found == found && s.text == text && s.length == length && s.next == next;
}

static void strings(void) {
    expect(string(0, 0, true, 1, 6, 7) && string(7, 0, true, 8, 0, 8) && string(8, 0, true, 9, 7, 16), "three strings, the second empty");
    expect(string(16, 0, false, 0, 0, 0) && string(17, 0, false, 0, 0, 0) && string(SIZE_MAX, 0, false, 0, 0, 0), "the end");
    expect(string(1, 6, false, 0, 0, 0) && string(15, 6, false, 0, 0, 0), "a string past the end");
    expect(kurgashel_txt_string(message + 72, 15, 8).refusal == 6 && kurgashel_txt_string(message + 72, 8, 7).found, "a TXT that is cut");
    expect(!kurgashel_txt_string(NULL, 0, 0).found && !kurgashel_txt_string(NULL, 0, 0).refusal, "no TXT");
}

// the owner at 12, "local" in it at 17; the rdata at 34, with a pointer at 39 and the window block at 41
static const uint8_t absent[] = "\0\0\x84\0\0\0\0\1\0\0\0\0" "\4dock\5local\0" "\0\x2f\x80\1\0\0\0\x78\0\x0a" "\4DOCK\xc0\x11" "\0\1\x40";
enum { ABSENT = sizeof absent - 1 };

static int nothing(struct kurgashel_nsec n) {
    return !n.found && !n.next && !n.next_length && !n.next_labels && !n.next_first_label && !n.block && !n.block_length;
}
static struct kurgashel_nsec nsec(size_t owner, size_t at, size_t length) { return kurgashel_nsec(absent, ABSENT, owner, at, length); }

// with one byte changed, whether the message is well formed and its NSEC is not of the restricted kind
static int stepped_over(size_t at, uint8_t byte) {
    uint8_t other[ABSENT];
    memcpy(other, absent, ABSENT);
    other[at] = byte;
    return !kurgashel_message_refusal(other, ABSENT) && nothing(kurgashel_nsec(other, ABSENT, 12, 34, 10));
}

static void denials(void) {
    struct kurgashel_nsec n = nsec(12, 34, 10);
    expect(ABSENT == 44 && !kurgashel_message_refusal(absent, ABSENT) && n.found, "an NSEC of the restricted kind");
    expect(n.next == 34 && n.next_length == 12 && n.next_labels == 2 && n.next_first_label == 4, "its next name");
    expect(n.block == 41 && n.block_length == 3, "its window block");
    expect(kurgashel_nsec_names(absent + 41, 3, A) && !kurgashel_nsec_names(absent + 41, 3, AAAA), "an A and no AAAA");
    expect(!kurgashel_nsec_names(absent + 41, 3, 0) && !kurgashel_nsec_names(absent + 41, 3, 2) && !kurgashel_nsec_names(absent + 41, 3, 65535), "no more");
    expect(!kurgashel_nsec_names(NULL, 0, A), "no block");
    expect(stepped_over(13, 'e') && stepped_over(41, 1) && stepped_over(42, 0) && stepped_over(42, 2) && stepped_over(42, 33), "near misses are stepped over");
    expect(stepped_over(40, 0x22) && stepped_over(40, 0x0b) && stepped_over(39, 0x80), "so is a bad pointer");
    expect(nothing(nsec(12, 34, 9)) && nothing(nsec(17, 34, 10)) && nothing(nsec(12, 35, 9)) && nothing(nsec(SIZE_MAX, 34, 10)), "less, or another owner");
    expect(nothing(nsec(12, 34, SIZE_MAX)) && nothing(nsec(12, SIZE_MAX, 10)) && nothing(kurgashel_nsec(NULL, 0, 0, 0, 0)), "a part past the message");
}

int main(void) {
    walk();
    services();
    names();
    into();
    addresses();
    strings();
    denials();
    printf("reader: %d cases, %d failed\n", cases, failed);
    return failed != 0;
}
