// Shows a packet, given in hex: its questions and records, or the number of its refusal. It links the reader alone. Built and run by tests/capi.sh and try.
#include "kurgashel.h"
#include <stdio.h>
#include <string.h>

static uint8_t packet[9000];
static size_t length;

// A byte that does not print, or that has a meaning here, is shown in decimal, as zone files have it.
static void show_bytes(const uint8_t *bytes, size_t count, uint8_t meaning) {
    for (size_t k = 0; k < count; k++)
        printf(bytes[k] > ' ' && bytes[k] < 127 && bytes[k] != meaning && bytes[k] != '\\' ? "%c" : "\\%03u", bytes[k]);
}

// A name as labels with dots between them.
static void show_name(size_t at) {
    struct kurgashel_name name = kurgashel_name(packet, length, at);
    if (name.length == 1)
        putchar('.');
    for (size_t i = 0; i < name.length && name.bytes[i]; i += 1 + name.bytes[i]) {
        show_bytes(name.bytes + i + 1, name.bytes[i], '.');
        putchar('.');
    }
}

// Addresses and other bytes in hex, names with dots, the strings of a TXT in quotes.
static void show_rdata(struct kurgashel_record record) {
    const uint8_t *rdata = packet + record.rdata;
    if (record.rtype == 12) {
        show_name(record.rdata);
    } else if (record.rtype == 33) {
        struct kurgashel_srv srv = kurgashel_srv(packet, length, record.rdata, record.rdata_length);
        printf("priority %u weight %u port %u ", srv.priority, srv.weight, srv.port);
        show_name(srv.target);
    } else if (record.rtype == 16) {
        struct kurgashel_txt_string string;
        for (size_t at = 0; (string = kurgashel_txt_string(rdata, record.rdata_length, at)).found; at = string.next) {
            printf(at ? " \"" : "\"");
            show_bytes(rdata + string.text, string.length, '"');
            putchar('"');
        }
    } else {
        for (size_t k = 0; k < record.rdata_length; k++)
            printf("%02x", rdata[k]);
    }
}

static void show_records(const char *section, size_t at, unsigned count) {
    for (; count; count--) {
        struct kurgashel_record record = kurgashel_record(packet, length, at);
        printf("%-10s ", section);
        show_name(record.owner);
        printf(" type %u class %u%s ttl %u ", record.rtype, record.class_ & 32767u, record.class_ >> 15 ? " flush" : "", record.ttl);
        show_rdata(record);
        putchar('\n');
        at = record.next;
    }
}

int main(int arguments, char **argument) {
    unsigned byte;
    for (const char *hex = arguments == 2 ? argument[1] : ""; length < sizeof packet && sscanf(hex, "%2x", &byte) == 1; hex += strlen(hex) > 1 ? 2 : 1)
        packet[length++] = (uint8_t)byte;
    struct kurgashel_message message = kurgashel_message(packet, length);
    if (message.refusal)
        return printf("refused %u\n", message.refusal) < 0;
    printf("%s, id %u\n", message.flags >> 15 ? "response" : "query", message.id);
    struct kurgashel_question question = { .next = message.questions_at };
    for (unsigned k = 0; k < message.questions; k++) {
        question = kurgashel_question(packet, length, question.next);
        printf("%-10s ", "question");
        show_name(question.name);
        printf(" type %u class %u\n", question.rtype, question.class_);
    }
    show_records("answer", message.answers_at, message.answers);
    show_records("authority", message.authorities_at, message.authorities);
    show_records("additional", message.additionals_at, message.additionals);
    return 0;
}
